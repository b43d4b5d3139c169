"""Each of the program's requests for memory and for threads refused, one in each run.

A library that is loaded before the program's own (checks/support/refuse.c, built by cc) counts the requests of small jobs, and refuses one
of them: each of the first, and then so many over the run that there are MOST in all (40). Where one is refused, the run says `out of
memory` (or `cannot start a thread`) and ends with 3, what it has printed being the beginning of the right report; or it does without, and
prints and ends as ever. The same where all requests from one on are refused.
"""

import os
import subprocess
from typing import NamedTuple

from support.case import Case, one_for_each
from support.place import PATTERN, Place
from support.program import Ended, Requests, expect

MOST = int(os.environ.get("MOST", "40"))
FIRST = 12
SECONDS = 20
FAULTS = (b"fiorun: out of memory\n", b"fiorun: cannot start a thread\n")
MEMORY = "[w]\nioengine=memory\nrw=randwrite\nsize=64k\n"
APART = "[w]\nioengine=memory\nrw=randwrite\nsize=64k\nnumjobs=4\niodepth=4\nverify=sha256\n"


class Job(NamedTuple):
    """The words of a run, its standard input, and the status that it ends with."""

    words: list
    text: str
    status: int = 0


JOBS = {
    "help": Job(["--help"], ""),
    "words": Job(["--nothing"], "", 2),
    "plan": Job(["--parse-only"], "[global]\nsize=1m\nbssplit=4k/50:8k/\n" + "".join(f"[j{it}]\nrw=randrw\n" for it in range(20))),
    "text-refused": Job([], MEMORY * 10 + "verify=crc32c\n", 2),
    "first": Job(["--workers=1", "job"], ""),
    "pattern": Job(["--workers=1"], MEMORY + PATTERN),
    "md5": Job(["--workers=1"], MEMORY + "verify=md5\nverify_backlog=3\n"),
    "sha1": Job(["--workers=1"], MEMORY + "verify=sha1\nnorandommap\nloops=3\n"),
    "sha256": Job(["--workers=1"], MEMORY.replace("=randwrite", "=randrw") + "verify=sha256\niodepth=8\n"),
    "mixed": Job(["--workers=1"], MEMORY.replace("randwrite", "randrw") + "bssplit=4k/50:8k/30:16k/20\n" + MEMORY + "stonewall\n"),
    "lost": Job(["--workers=1"], MEMORY.replace("=memory", "=null") + PATTERN, 1),
    "files": Job(["--workers=1"], "[global]\nrw=write\nsize=32k\nverify=md5\n[a]\n[b]\n[c]\n"),
    "workers": Job(["--workers=4"], APART),
    "verifiers": Job(["--workers=2"], APART + "verify_async=3\n"),
    "files-apart": Job(["--workers=3"], APART.replace("ioengine=memory\n", "") + "verify_async=1\n"),
    "trace": Job(["--workers=1", "--trace=trace"], MEMORY + PATTERN),
    "trace-apart": Job(["--workers=4", "--trace=trace"], APART),
    "check": Job(["--check-trace=known"], MEMORY + PATTERN),
    "check-refused": Job(["--check-trace=cut"], MEMORY + PATTERN, 2),
}


class Bench(Place):
    """Runs the program in a folder, with requests refused."""

    def __init__(self, program, path):
        super().__init__(program, path)
        self.requests = Requests(self.at("counts"))
        self.room = self.at("room")
        os.mkdir(self.room)
        self.prepare()

    def prepare(self):
        """The files that the jobs read."""
        expect(self.run(JOBS["trace"]).status == 0, "no trace could be written")
        trace = self.get("room/trace")
        for name, content in (("known", trace), ("cut", trace[: len(trace) // 2]), ("job", MEMORY + PATTERN)):
            self.put(f"room/{name}", content)

    def run(self, job, number=None, onward=False):
        """How a run ends, or None where it doesn't. Its requests are counted where a number is given, and that one is refused."""
        environment = {"PATH": os.environ.get("PATH", "")} if number is None else self.requests.environment(number, onward)
        trace = os.path.join(self.room, "trace")
        if "--trace=trace" in job.words and os.path.exists(trace):
            os.remove(trace)
        try:
            how = {"cwd": self.room, "env": environment, "capture_output": True, "timeout": SECONDS, "check": False}
            it = subprocess.run([self.program, *job.words], input=job.text.encode(), **how)
        except subprocess.TimeoutExpired:
            return None
        return Ended(it.returncode, it.stdout, it.stderr)

    def is_traced(self, job):
        """Is the trace that the last run wrote one of a whole run of this job, which says what the run says?"""
        words = [it.replace("--trace=", "--check-trace=") for it in job.words]
        return words == job.words or self.run(Job(words, job.text)).status == 0


def spread(count):
    """The first numbers up to a count, and others over the whole of it."""
    if count <= MOST:
        return list(range(1, count + 1))
    rest = MOST - FIRST
    return list(range(1, FIRST + 1)) + [FIRST + (count - FIRST) * it // rest for it in range(1, rest + 1)]


def is_right(bench, job, usual, ended):
    """Has a run, of whose requests some were refused, ended as it may?"""
    if ended is None:
        return False
    if ended == usual:
        return bench.is_traced(job)
    return ended.status == 3 and ended.err in FAULTS and usual.out.startswith(ended.out)


def wrongs(bench, job):
    """Tries a job with its requests refused: how many it makes, how many runs were tried, how many did without, and what was wrong."""
    usual = bench.run(job)
    counted = bench.run(job, 0)
    count, _ = bench.requests.counted()
    if usual is None or usual.status != job.status:
        return count, 0, 0, [f"without a refusal it ended with {usual}"]
    if counted != usual or not count or not bench.is_traced(job):
        return count, 0, 0, [f"counted, it ended with {counted}, {count} requests"]
    wrong, without, tried = [], 0, 0
    for number in spread(count):
        for onward in (False, True):
            ended = bench.run(job, number, onward)
            _, refused = bench.requests.counted()
            tried += 1
            without += bool(refused) and ended == usual
            if not is_right(bench, job, usual, ended) or (not refused and ended != usual):
                what = "all from request" if onward else "request"
                wrong.append(f"{what} {number} of {count} refused ({refused}): {str(ended)[:600]}")
    return count, tried, without, wrong


class Memory(Case):
    """Jobs whose requests are refused."""

    kind = Bench


@one_for_each(Memory, JOBS)
def is_right_with_any_refused(self, job):
    """The job with each of its requests refused in turn."""
    count, tried, without, wrong = wrongs(self.place, job)
    self.says(f"{count} requests, {tried} runs, {without} did without")
    expect(not wrong, f"{len(wrong)} of {tried} runs; " + "; ".join(wrong[:3]))
