"""Jobs that run again and again (--repeat, --for), and what is told of their rounds.

Each round has to be the run of the job with that round's randseed, byte for byte; the sums are added up anew; a round that is bad stops the
job, or doesn't with --keep-going; what is told of the rounds so far outlives a killed program; memory doesn't grow with them. No check
depends on how quick the machine is.
"""

import json
import os
import re
import resource
import subprocess
import tempfile
import time

from support.case import Case
from support.place import ending, refuses
from support.program import FIELDS, Ended, SystemCalls, expect, needed_library, total

STEP = 1 << 26
SECONDS = 60
JOB = "[w]\n{}rw=randwrite\nbs=4k\nsize=64k\niodepth=4\nverify=md5\n[x]\n{}rw=write\nbs=4k\nsize=32k\nverify=sha256\n"
IN_MEMORY = JOB.format(*["ioengine=memory\n"] * 2)
OVER_FILES = JOB.format("filename=a\n", "filename=b\n")
# What an engine of zeros gives back is bad, each of the two blocks in each round.
BAD = "[n]\nioengine=null\nrw=write\nsize=8k\nverify=pattern\nverify_pattern=0x01\n"
BAD_SAID = total("n", writes=2, wbytes=8192, checks=2, bad=2) + "".join(
    f"miscompare: clone=0 pass=0 number={it} file=n.0.0 offset={it * 4096} length=4096 what=byte:0\n" for it in range(2)
)
LONG = "[w]\nioengine=null\nrw=write\nbs=4k\nsize=64m\nloops=900\n"


def header(number):
    return f"round: number={number} randseed-offset={number * STEP}\n"


def of_round(job, number):
    """The job text whose single run is this round."""
    return "".join(f"{it}\nrandseed={1 + number * STEP}\n" if it.startswith("[") else f"{it}\n" for it in job.splitlines())


def lines_of(report):
    """The counts of each clone's line, by job and clone."""
    found = {}
    for job, clone, rest in re.findall(r"^(?!miscompare: )(\S+): clone=(\d+) (.*)$", report, re.M):
        found[job, int(clone)] = {name: int(value) for name, value in re.findall(r"(\w+)=(\d+)", rest)}
    return found


def totals(rounds, reports):
    """The lines of the sums over these reports."""
    sums = {}
    for report in reports:
        for key, counts in lines_of(report).items():
            old = sums.setdefault(key, dict.fromkeys(FIELDS, 0))
            sums[key] = {name: old[name] + counts[name] for name in FIELDS}
    return "".join(f"total: rounds={rounds} " + total(job, clone, **counts) for (job, clone), counts in sums.items())


def report_of(found):
    """The lines that a round's object of the JSON says, without its bad blocks."""
    return "".join(total(it["job"], it["clone"], **{name: it[name] for name in FIELDS}) for it in found["jobs"])


class Rounds(Case):
    """A job that runs again and again."""

    def last(self, job, *words, rounds=3):
        """The last round's report is that of its single run, and so is its trace; the sums are those of all rounds."""
        place = self.place
        ran = place.run(f"--repeat={rounds}", "--trace=trace", *words, text=job)
        reports = []
        for number in range(rounds):
            single = place.run("--trace=single", *words, text=of_round(job, number))
            expect(single.status == 0, "the single run", single)
            reports.append(single.out.decode())
        wanted = header(rounds - 1) + reports[-1] + totals(rounds, reports)
        expect(ran == Ended(0, wanted.encode(), b""), "wanted", wanted, "and got", ran)
        return place.get("trace"), place.get("single")

    def test_memory_with_one_worker(self):
        several, single = self.last(IN_MEMORY, "--workers=1")
        expect(several == single, "the last round's trace isn't that of its single run")

    def test_memory_shared(self):
        self.last(IN_MEMORY, "--workers=4")

    def test_files(self):
        several, single = self.last(OVER_FILES, "--workers=1", "--cached")
        expect(several == single, "the last round's trace isn't that of its single run")
        self.last(OVER_FILES, "--workers=3")

    def test_one_round_is_the_run(self):
        single = self.place.run(text=IN_MEMORY).out.decode()
        ran = self.place.run("--repeat=1", text=IN_MEMORY)
        expect(ran == Ended(0, (header(0) + single + totals(1, [single])).encode(), b""), "one round:", ran)

    def test_trace_is_of_the_last_round(self):
        """The trace of the last round is legal for the job with that round's seeds."""
        place = self.place
        ran = place.run("--repeat=5", "--trace=trace", "--workers=4", text=IN_MEMORY)
        checked = place.run("--check-trace=trace", text=of_round(IN_MEMORY, 4))
        report = ran.out.decode().split("\n", 1)[1].split("total: ")[0]
        expect(checked == Ended(0, report.encode(), b""), "the trace says", checked, "and the report", report)

    def test_traces_of_all_rounds(self):
        """Each round's trace is in a file of its own, and legal for the job with that round's seeds."""
        place = self.place
        ran = place.run("--repeat=3", "--trace=trace", "--keep-traces", "--workers=4", text=IN_MEMORY)
        expect(ran.status == 0 and not os.path.exists(place.at("trace")), "the rounds", ran)
        for number in range(3):
            checked = place.run(f"--check-trace=trace.{number}", text=of_round(IN_MEMORY, number))
            expect(checked.status == 0 and not checked.err, "the trace of round", number, checked)
            single = place.run("--trace=single", "--workers=1", text=of_round(IN_MEMORY, number))
            expect(single.status == 0 and place.get("single") == place.get(f"trace.{number}"), "the trace of the single run", number, single)
        expect(not os.path.exists(place.at("trace.3")), "a trace of no round")

    def test_traces_over_nothing(self):
        """A round's trace goes over nothing that the run has, and that ends the rounds."""
        place = self.place
        place.put("job.1", IN_MEMORY.encode())
        ran = place.run("--repeat=5", "--trace=job", "--keep-traces", "job.1")
        expect(ran.status == 3 and place.get("job.1") == IN_MEMORY.encode(), "over the job file", ran)
        expect(b"total: rounds=3 " in ran.out, "rounds until then", ran)
        ran = place.run("--repeat=5", "--trace=k", "--keep-traces", "--json=k.0", text=IN_MEMORY)
        expect(ran.status == 3 and not ran.out and not os.path.exists(place.at("k.0")), "over the JSON", ran)

    def test_traces_of_no_rounds(self):
        place = self.place
        for words in (["--trace=t"], ["--repeat=2"], ["--for=1s"], []):
            refuses(place.run("--keep-traces", *words, text=IN_MEMORY), 2, "command line: --keep-traces without --trace or rounds")
        expect(not os.path.exists(place.at("t")), "a trace was made")

    def test_json_lines(self):
        """An object for each round, which is that of its single run, and one with the sums."""
        place = self.place
        ran = place.run("--repeat=4", "--json=all", "--workers=2", text=OVER_FILES)
        expect(ran.status == 0, "the rounds", ran)
        *rounds, sums = [json.loads(it) for it in place.get("all").splitlines()]
        reports = []
        for number, found in enumerate(rounds):
            single = place.run("--json=one", "--workers=2", text=of_round(OVER_FILES, number))
            expect(single.status == 0, "the single run", single)
            wanted = json.loads(place.get("one"))
            # (when they were differs)
            del wanted["run"], found["report"]["run"]
            expect(found == {"round": number, "randseed_offset": number * STEP, "report": wanted}, "round", number, found, wanted)
            reports.append(report_of(found["report"]))
        expect(len(rounds) == 4 and sums["rounds"] == 4, "rounds", len(rounds), sums)
        expect(totals(4, reports).encode() == ran.out[ran.out.index(b"total: ") :], "sums of the lines", ran.out)
        told = {(it["job"], it["clone"]): {name: it[name] for name in FIELDS} for it in sums["totals"]}
        expect(told == lines_of(ran.out.decode().replace("total: rounds=4 ", "").split("\n", 3)[3]), "sums of the JSON", sums)

    def test_bad_round_stops(self):
        ran = self.place.run("--repeat=3", text=BAD)
        expect(ran == Ended(1, (header(0) + BAD_SAID + totals(1, [BAD_SAID])).encode(), b""), "a bad round:", ran)

    def test_keep_going(self):
        ran = self.place.run("--repeat=3", "--keep-going", text=BAD)
        wanted = "".join(header(it) + BAD_SAID for it in range(3)) + totals(3, [BAD_SAID] * 3)
        expect(ran == Ended(1, wanted.encode(), b""), "wanted", wanted, "and got", ran)

    def test_bad_blocks_of_all_rounds(self):
        """Each block once, ascending, whatever rounds it was bad in."""
        ran = self.place.run("--repeat=3", "--keep-going", "--bad-blocks=list", "--bad-blocks-size=4096", text=BAD)
        expect((ran.status, self.place.get("list")) == (1, b"0\n1\n"), "the list", ran, self.place.get("list"))

    def lost(self, fault, job=OVER_FILES.replace("iodepth=4\n", ""), *words):
        """A run of ten rounds in which one call of the system goes wrong."""
        library = needed_library("faulty.c")
        calls = SystemCalls(library, self.place.at("calls"))
        return self.place.run("--repeat=10", "--workers=1", "--cached", *words, text=job, env=calls.environment(fault))

    def test_lost_write_is_told(self):
        """A write of round 5 that isn't stored is bad, though round 4's block stands there."""
        # (24 blocks a round)
        ran = self.lost(f"pwrite {5 * 24 + 3} drop")
        said = ran.out.decode()
        expect(ran.status == 1 and said.startswith(header(5)), "a lost write:", ran)
        expect(len(re.findall("^miscompare: ", said, re.M)) == 1 and "what=header\n" in said, "a lost write:", ran)
        expect("total: rounds=6 w: " in said and "total: rounds=6 x: " in said, "the sums", ran)

    def test_flipped_byte_is_told(self):
        """A byte that comes back another in round 7 is told in round 7, and with --keep-going the rounds after it are clean again."""
        fault = f"pread {7 * 24 + 2} flip:100"
        ran = self.lost(fault)
        expect(ran.status == 1 and ran.out.decode().startswith(header(7)), "a flipped byte:", ran)
        ran = self.lost(fault, OVER_FILES.replace("iodepth=4\n", ""), "--keep-going")
        said = ran.out.decode()
        expect(re.findall(r"^round: number=(\d+)", said, re.M) == ["7", "9"], "rounds with a report:", said)
        expect(ran.status == 1 and len(re.findall("^miscompare: ", said, re.M)) == 1 and "what=data\n" in said, "what is told:", said)
        expect("total: rounds=10 w: " in said, "the sums", said)

    def test_failed_write_stops(self):
        """A write that fails halts its clone; the round is told, and no other begins."""
        ran = self.lost(f"pwrite {2 * 24 + 1} 5")
        said = ran.out.decode()
        expect(ran.status == 1 and said.startswith(header(2)) and "faults=1" in said and "total: rounds=3 w: " in said, "a fault:", ran)

    def test_time(self):
        """Rounds go on for the time that is given, and the last one is told as far as it came; that is no fault."""
        begun = time.monotonic()
        ran = self.place.run("--for=2s", "--trace=trace", text=LONG)
        took = time.monotonic() - begun
        said = ran.out.decode()
        expect(took >= 2, "it ended after", took)
        expect(ran.status == 0 and said.startswith(header(0)) and "total: rounds=1 w: " in said, "the rounds", ran)
        part = self.place.run("--check-trace=trace", "--interrupted", text=LONG)
        expect(part.status == 0 and part.out in ran.out, "the trace says", part, "and the report", said)

    def test_time_between_rounds(self):
        """Short rounds go on until the time is over; the sums are those of the JSON's lines."""
        ran = self.place.run("--for=1s", "--json=all", text=IN_MEMORY)
        *rounds, sums = [json.loads(it) for it in self.place.get("all").splitlines()]
        expect(ran.status == 0 and len(rounds) == sums["rounds"] >= 1, "rounds", len(rounds), ran)
        reports = [report_of(it["report"]) for it in rounds]
        expect(ran.out.decode().endswith(totals(len(rounds), reports)), "the sums", ran.out)
        expect([it["round"] for it in rounds] == list(range(len(rounds))), "numbers of rounds")

    def test_whichever_comes_first(self):
        ran = self.place.run("--for=1d", "--repeat=2", text=IN_MEMORY)
        expect(ran.status == 0 and b"total: rounds=2 w: " in ran.out, "two rounds", ran)

    def test_stopped(self):
        """A stop ends the rounds as it ends a run, with the sums so far."""
        reading, writing = os.pipe()
        child = self.place.start("--for=1h", f"--stop-fd={reading}", "--json=all", text=IN_MEMORY, pass_fds=[reading])
        os.close(reading)
        self.wait_for_lines(3)
        os.close(writing)
        ran = ending(child)
        rounds = len(self.place.get("all").splitlines()) - 1
        expect(ran.status == 130 and ran.err == b"fiorun: interrupted\n", "a stopped run", ran)
        expect(f"total: rounds={rounds} w: ".encode() in ran.out and ran.out.startswith(header(rounds - 1).encode()), "the sums", ran)

    def wait_for_lines(self, count):
        deadline = time.monotonic() + SECONDS
        while not os.path.exists(self.place.at("all")) or self.place.get("all").count(b"\n") < count:
            expect(time.monotonic() < deadline, "no lines of the JSON come")
            time.sleep(0.02)

    def test_killed(self):
        """What was told of the rounds so far can be read when the program was killed."""
        child = self.place.start("--for=1h", "--json=all", text=IN_MEMORY)
        self.wait_for_lines(5)
        child.kill()
        ending(child)
        lines = self.place.get("all").split(b"\n")[:-1]
        numbers = [json.loads(it)["round"] for it in lines]
        expect(numbers == list(range(len(lines))) and len(lines) >= 5, "lines of the JSON", numbers)
        left = [it for it in os.listdir(self.place.path) if it.startswith(".fiorun-")]
        expect(left == [], "left behind", left)

    def test_memory_does_not_grow(self):
        """200 rounds take no more memory than 2."""
        for job, words in ((IN_MEMORY, ["--workers=1"]), (OVER_FILES, ["--workers=4", "--cached"])):
            job = job.replace("size=64k", "size=1m")
            few, many = (self.peak(job, [f"--repeat={it}", *words]) for it in (2, 200))
            expect(many <= 1.1 * few, f"{few} KiB for 2 rounds, {many} KiB for 200", words)

    def peak(self, job, words):
        """The most memory that a run had, in KiB."""
        with tempfile.TemporaryFile() as text:
            text.write(job.encode())
            text.seek(0)
            with subprocess.Popen([self.place.program, *words], cwd=self.place.path, stdin=text, stdout=subprocess.DEVNULL) as it:
                _, status, usage = os.wait4(it.pid, 0)
                it.returncode = status
        expect(status == 0 and isinstance(usage, resource.struct_rusage), "a run for its memory", words, status)
        return usage.ru_maxrss

    def test_words(self):
        place = self.place
        for value in ("", "0", "0s", "s", "5x", "-1", "1.5h", "3651d", "99999999999999999999s", "5S", " 5"):
            refuses(place.run(f"--for={value}", text=IN_MEMORY), 2, "command line: bad duration")
        for value in ("0", "x", "4294967296", "-1"):
            ran = place.run(f"--repeat={value}", text=IN_MEMORY)
            expect(ran.status == 2 and not ran.out, f"--repeat={value}", ran)
        refuses(place.run("--repeat=2", "--keep-going", "--page=p", text=IN_MEMORY), 2, "page of several rounds")
        expect(place.held() == {}, "files were made", place.held())

    def test_words_alone(self):
        """--keep-going asks for no rounds by itself; plans and checks of traces have none."""
        place = self.place
        single = place.run(text=IN_MEMORY)
        expect(place.run("--keep-going", text=IN_MEMORY) == single, "--keep-going alone")
        plan = place.run("--parse-only", text=IN_MEMORY)
        expect(place.run("--parse-only", "--repeat=3", text=IN_MEMORY) == plan, "--parse-only")

    def test_lines_of_progress(self):
        """With notes each round's end is a line, at most one a second."""
        ran = self.place.run("--repeat=3", "--notes", text=IN_MEMORY)
        lines = re.findall(rb"^fiorun: round (\d+): (\d+) I/Os, (\d+) checked, 0 bad, 0 faults$", ran.err, re.M)
        expect(lines and lines[0] == (b"0", b"24", b"24") and lines[-1] == (b"2", b"24", b"24"), "lines", ran.err)
