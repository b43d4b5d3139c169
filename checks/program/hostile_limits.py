"""Low limits of file size, memory, open files, threads and stack."""

import os
import re
import resource
import signal
import subprocess

from support.case import Case
from support.place import FOUR, FOUR_SAID, IN_MEMORY, RICH, TRACE, TRACED, TRACE_SAID, refuses, says, totals
from support.program import Ended, Skipped, as_nobody, expect, total

# A job whose draws of all passes would want some 20 GB, and a limit that those of one pass fit.
MANY_PASSES = "[w]\nioengine=null\nrw=write\nsize=1g\nloops=1000\n"
HALF_A_GIB = "ulimit -v 524288"


def least(place, limits, shell):
    """The first of these limits at which the program is started at all: it says its help."""
    for it in limits:
        if place.run("--help", shell=shell.format(it)).status == 0:
            return it
    raise Skipped("the program isn't started under such limits")


class Limits(Case):
    """Low limits of file size, memory, open files, threads and stack."""

    # (some runs are nobody\'s)
    mode = 0o777

    def test_limit_of_file_size(self):
        """Blocks past the limit on files fail and are counted; a trace or report past it isn't called a success."""
        place = self.place
        place.put("data", bytes(65536))
        job = "[w]\nfilename=data\nrw=write\nsize=64k\nverify=md5\n"
        for kib, writes in ((32, 8), (34, 8), (63, 15), (64, 16)):
            shell = f"trap '' XFSZ; ulimit -f {kib}"
            good = writes if writes == 16 else 0
            wanted = total(writes=writes, wbytes=writes * 4096, checks=good, good=good, faults=int(writes < 16))
            says(place.run(text=job, shell=shell), int(writes < 16), wanted)
        refuses(place.run(text=job.replace("data", "new"), shell="trap '' XFSZ; ulimit -f 32"), 3, "cannot open the files")
        ended = place.run("--trace=t", text=IN_MEMORY.replace("16k", "1m"), shell="trap '' XFSZ; ulimit -f 1")
        refuses(ended, 3, "cannot write", total(writes=256, wbytes=1 << 20, checks=256, good=256).encode())
        # Killed by the signal, where it isn't kept off: no report, and none of what stands outside.
        os.truncate(place.at("data"), 0)
        place.put("data", b"\7" * 80_000)
        ended = place.run(text=job, shell="ulimit -f 32")
        expect(ended.out == b"" and ended.status in (-signal.SIGXFSZ, 1) or totals(ended)["faults"] == 1, "past the limit:", ended)
        expect(place.get("data")[32768:] == b"\7" * (80_000 - 32768), "bytes past the limit were written")

    def test_limit_of_memory(self):
        """With little memory a run ends as it should or for want of memory, whatever the limit is."""
        place = self.place
        large = total(writes=1024, wbytes=4 << 20, checks=1024, good=1024)
        jobs = {IN_MEMORY: FOUR_SAID, FOUR: FOUR_SAID, IN_MEMORY.replace("16k", "4m"): large}
        faults = (b"fiorun: out of memory\n", b"fiorun: cannot start a thread\n")
        seen = set()
        for kib in range(least(place, range(1024, 1 << 20, 509), "ulimit -v {}"), 40 * 1024, 509):
            for job, said in jobs.items():
                ended = place.run("--workers=2", text=job, shell=f"ulimit -v {kib}")
                is_right = ended == Ended(0, said.encode(), b"") or (ended[:2] == (3, b"") and ended.err in faults)
                expect(is_right, f"with {kib} KiB", job, ended)
                seen.add(ended.status)
        expect(seen == {0, 3}, "no limit was met:", seen)
        refuses(place.run(text=IN_MEMORY.replace("16k", "8g").replace("[w]", "[w]\nbs=1m"), shell="ulimit -v 1000000"), 3, "out of memory")
        place.put("t", b"S 0 0 0 0\n" * 3_000_000)
        refuses(place.run("--check-trace=t", text=MANY_PASSES, shell="ulimit -v 20000"), 3, "out of memory")

    def test_trace_without_an_end(self):
        """A trace that goes on and on is refused at its first faulty line, within little memory."""
        place = self.place
        for job in (TRACED, MANY_PASSES):
            place.put("job", job)
            ended = place.run("--check-trace=/dev/zero", "job", shell=HALF_A_GIB, stdin=subprocess.DEVNULL)
            refuses(ended, 2, "trace: line 1: not a trace line")
        # Its lines may be lines of a trace, of which a job has no more than so many.
        place.put("job", TRACED)
        ended = place.run("--check-trace=/dev/stdin", "job", shell=HALF_A_GIB, ends="< <(yes 'S 0 0 0 0')")
        refuses(ended, 2, "trace: line 1: not legal here")
        ended = place.run("--check-trace=/dev/stdin", "job", shell=HALF_A_GIB, ends=f"< <(printf '{TRACE}'; yes 'S 0 0 0 0')")
        refuses(ended, 2, f"trace: line {TRACE.count(chr(10)) + 1}: not legal here")

    def test_passes_of_a_trace(self):
        """The check of a trace makes no draws of passes that the trace doesn't come to."""
        place = self.place
        place.put("t", "")
        refuses(place.run("--check-trace=t", text=MANY_PASSES, shell=HALF_A_GIB), 2, "trace: not complete")
        place.put("t", "I 0 0 0 0 0\nE 0 0 whole\n")
        refuses(place.run("--check-trace=t", text=MANY_PASSES, shell=HALF_A_GIB), 2, "trace: not complete")
        place.put("t", "I 0 0 0 999 0\n")
        refuses(place.run("--check-trace=t", text=MANY_PASSES, shell=HALF_A_GIB), 2, "trace: line 1: not legal here")

    def test_limit_of_open_files(self):
        """With few open files a run is refused, and then what was there stays as it was."""
        place = self.place
        job = "[global]\nrw=write\nsize=4k\nverify=md5\n" + "".join(f"[j{it}]\n" for it in range(8))
        names = [f"j{it}.0.0" for it in range(8)]
        wanted = "".join(total(f"j{it}", it, writes=1, wbytes=4096, checks=1, good=1) for it in range(8))
        seen = set()
        first = least(place, range(3, 20), "ulimit -n {}")
        for most in range(first, 40):
            for it in names:
                place.put(it, b"\7" * 5000)
            ended = place.run("--workers=1", text=job, shell=f"ulimit -n {most}")
            if ended.status == 0:
                says(ended, 0, wanted)
            else:
                refuses(ended, 3, "cannot open the files")
                expect(all(place.get(it) == b"\7" * 5000 for it in names), f"with {most} open files the files were changed")
            seen.add(ended.status)
        expect(seen == {0, 3}, "no limit was met:", seen)
        # Nor may a limit that leaves room for nothing but the streams (and what the program is loaded by) make anything else of it.
        ended = place.run("--trace=t", text=IN_MEMORY, shell=f"ulimit -n {first}")
        is_named = ended.status == 3 and re.fullmatch(b"fiorun: cannot (?:write|open the files)\n", ended.err)
        expect(is_named or ended == Ended(0, FOUR_SAID.encode(), b""), "no file left for the trace:", ended)

    def test_limit_of_threads(self):
        """Where no thread may be started, the run is one worker's, or refused by name."""
        place = self.place
        drop = as_nobody().get("preexec_fn", lambda: None)
        limits = {"preexec_fn": lambda: (drop(), resource.setrlimit(resource.RLIMIT_NPROC, (0, 0)))}
        for more in ("", "verify_async=3\n"):
            job = IN_MEMORY.replace("16k", "1m") + "iodepth=8\nnumjobs=4\n" + more
            wanted = "".join(total("w", it, writes=256, wbytes=1 << 20, checks=256, good=256) for it in range(4))
            for words in ([], ["--workers=1"], ["--workers=4"]):
                ended = place.run(*words, text=job, **limits)
                expect(ended in (Ended(0, wanted.encode(), b""), Ended(3, b"", b"fiorun: cannot start a thread\n")), words, ended)

    def test_limit_of_stack(self):
        """A small stack is enough for each of the program's ways."""
        place = self.place
        place.put("t", TRACE)
        for words, job, wanted in (([], IN_MEMORY, FOUR_SAID), ([], FOUR, FOUR_SAID), (["--check-trace=t"], TRACED, TRACE_SAID)):
            says(place.run(*words, text=job, shell="ulimit -s 256"), 0, wanted)
        expect(place.run("--parse-only", text=RICH, shell="ulimit -s 256").status == 0, "a plan on a small stack")
