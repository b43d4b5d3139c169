"""The JSON of a run and its report.

Each check runs jobs with --json. The object must have the numbers and the lines of the report, each under its name, whatever the names of
jobs and files hold, and the faults, with the reasons of the system. The same run's trace must give the same object, but for those reasons.
"""

import errno
import json
import os
import re
import subprocess

from support.case import Case
from support.place import Place
from support.program import SystemCalls, expect, needed_library
from support.reports import agrees, lines

SECONDS = 60
# Names of jobs and files that a writer of JSON may trip over: quotes, backslashes, tags, control characters, bytes above 0x7f.
NAMES = ['<script>"\\', "a\tb", "\x01\x1f\x7f", "\u009b\u2028\u202e", "é ✓ \U0001f600", "</script>", "\\u0041", "'", "a: clone=1"]
PLANNED = re.compile(r"(.*): clone=(\d+) phase=(\d+) file=(.*) start=(\d+) size=(\d+) cell=(\d+) cells=\d+ rw=(\w+) iodepth=(\d+) loops=(\d+) verify=(\w+)")
ASKED = "job clone phase file start size cell rw iodepth loops verify".split()


def of_trace(found):
    """What the object of a run shares with that of its trace: the setting of a trace is that of its check, and it doesn't have what
    stood in bad blocks."""
    bads = {name: lines(found[name]) for name in ("badreads", "miscompares")}
    return {**{name: value for name, value in found.items() if name != "run"}, **bads}


class Reported(Place):
    """A folder in which each run has a JSON."""

    def __init__(self, program, path):
        super().__init__(program, path)
        self.calls = SystemCalls(needed_library("faulty.c"), self.at("calls"))

    def read(self, name):
        """A file that has to be one line of JSON."""
        with open(self.at(name), encoding="utf-8", newline="") as it:
            text = it.read()
        expect(text.endswith("}\n") and text.count("\n") == 1, "not one line", text[-100:])
        return json.loads(text)

    def run(self, jobs, *words, fault=None, said=b""):
        """The status and the report of a run, which says this on standard error, and its JSON."""
        with open(self.at("job"), "w", encoding="utf-8", newline="") as it:
            it.write(jobs)
        environment = self.calls.environment(fault or "none 0 0")
        words = [self.program, "--json=json", *words, "job"]
        ended = subprocess.run(words, capture_output=True, timeout=SECONDS, check=False, cwd=self.path, env=environment)
        expect(ended.stderr == said, "it says", ended.stderr)
        return ended.returncode, ended.stdout.decode(), self.read("json")


class ReportJson(Case):
    """What JSON says of runs is what their reports say."""

    kind = Reported

    def test_clean(self):
        """A clean run."""
        place = self.place
        status, report, found = place.run("[w]\nioengine=memory\nrw=write\nsize=64k\nverify=md5\nnumjobs=3\n", "--workers=4")
        agrees(report, status, found)
        expect(status == 0 and len(found["jobs"]) == 3, "a clean run", status, found["jobs"])
        expect(found["cached"] is None and found["direct"] is None, "a run over no files", found["cached"], found["direct"])
        version = subprocess.run([place.program, "--version"], capture_output=True, text=True, check=True).stdout
        expect(f"fiorun {found['fiorun']}\nlogic {found['logic']}\n" == version, "version", found["fiorun"], version)

    def test_planned(self):
        """What clones are to do: what the plan's lines say, and options that these don't have."""
        place = self.place
        jobs = (
            "[global]\nioengine=memory\nfilename=f\nsize=64k\n[a]\nrw=write\nverify=md5\nbs=8k\nnumjobs=2\noffset_increment=64k\n"
            "[b]\nstonewall\nrw=randrw\nrwmixread=30\niodepth=4\nloops=3\nverify=pattern\nverify_pattern=7\nverify_backlog=5\nverify_fatal=1\n"
            "[c]\nrw=randwrite\nnorandommap\nserialize_overlap=0\nrandseed=9\nverify=sha256\nverify_interval=512\ndo_verify=0\nfilename=g\n"
        )
        _, report, found = place.run(jobs, "--workers=1")
        lines = subprocess.run([place.program, "--parse-only"], input=jobs, capture_output=True, text=True, check=True).stdout.splitlines()
        wanted = [dict(zip(ASKED, PLANNED.fullmatch(it).groups())) for it in lines]
        expect([{name: str(it[name]) for name in ASKED} for it in found["plan"]] == wanted, "plan", found["plan"], wanted)
        options = [it["options"] for it in found["plan"]]
        a, _, b, c = options
        expect((a["rwmixread"], b["rwmixread"], b["verify_backlog"], c["verify_interval"]) == (50, 30, 5, 512), "numbers", found["plan"])
        flags = [[it[name] for it in (a, b, c)] for name in ("verify_fatal", "norandommap", "serialize_overlap", "do_verify")]
        wanted = [[False, True, False], [False, False, True], [True, True, False], [True, True, False]]
        expect(flags == wanted, "flags", flags)
        expect([it["seed"] for it in options] == [1, 1, 1, 9], "seeds", options)
        left = [it["unchecked"] for it in found["jobs"]]
        expect(left[:3] == [0, 0, 0] and left[3] == found["jobs"][3]["writes"] > 0, "unchecked", left, report)

    def test_names(self):
        """Names with whatever a job file lets them hold."""
        place = self.place
        for name in NAMES:
            jobs = f"[{name}]\nfilename={re.sub('[/:]', '', name)}\nioengine=null\nrw=write\nsize=8k\nverify=pattern\nverify_pattern=1\n"
            status, report, found = place.run(jobs)
            agrees(report, status, found)
            expect(status == 1 and found["jobs"][0]["job"] == name, "name", name, found["jobs"][0]["job"])

    def test_verdicts(self):
        """Each kind of verdict; and the trace of a run gives the object of the run."""
        place = self.place
        common = "ioengine=null\nrw=write\nsize=64k\nloops=2\n"
        for more in ("verify=pattern\nverify_pattern=0xff\n", "verify=sha1\n", "verify=sha256\nverify_interval=512\n"):
            status, report, found = place.run(f"[global]\n{common}{more}[a]\n[b]\nnumjobs=2\n", "--trace=trace", "--workers=3")
            agrees(report, status, found)
            expect(status == 1 and len(found["miscompares"]) > 16, "no verdict is bad", len(found["miscompares"]))
            os.unlink(place.at("json"))
            status, totals, again = place.run(f"[global]\n{common}{more}[a]\n[b]\nnumjobs=2\n", "--check-trace=trace")
            expect(status == 0 and report.startswith(totals), "the check of the trace", status, totals)
            expect(of_trace(again) == of_trace(found), "the object of the trace", again)

    def test_reads(self):
        """Bad reads and miscompares of one run, each under its name; and its trace gives the same object."""
        place = self.place
        common = "ioengine=null\nbs=2k\nsize=4k\nverify=pattern\nverify_pattern=1\nfilename=f\n"
        jobs = f"[global]\n{common}[a]\nrw=write\n[b]\nrw=read\n[c]\nrw=write\n"
        status, report, found = place.run(jobs, "--trace=trace", "--workers=2")
        agrees(report, status, found)
        clones = [[it["clone"] for it in found[name]] for name in ("badreads", "miscompares")]
        expect(status == 1 and clones == [[1, 1], [0, 0, 2, 2]], "whose bad verdicts", status, clones)
        os.unlink(place.at("json"))
        status, _, again = place.run(jobs, "--check-trace=trace")
        expect(status == 0 and of_trace(again) == of_trace(found), "the object of the trace", status, again)

    def test_faults(self):
        """I/Os that fail or end short, with the system's reasons."""
        place = self.place
        jobs = "[w]\nfilename=f\nrw=write\nbs=4k\nsize=16k\nverify=md5\n"
        reason = f"{os.strerror(errno.EIO)} (os error {errno.EIO})"
        wanted = {"clone": 0, "pass": 0, "number": 2, "file": "f", "offset": 8192, "length": 4096, "kind": "write", "outcome": "failed"}
        status, report, found = place.run(jobs, "--workers=1", "--trace=trace", fault=f"pwrite 3 {errno.EIO}")
        agrees(report, status, found)
        expect(found["faults"] == [{**wanted, "moved": None, "reason": reason}], "a write that failed", found["faults"])
        _, _, again = place.run(jobs, "--check-trace=trace")
        # (the setting is that of the check)
        untold = {"run": again["run"], "cached": None, "faults": [{**wanted, "moved": None, "reason": None}]}
        expect(again == {**found, **untold}, "of its trace", again)
        status, report, found = place.run(jobs, "--workers=1", fault="pread 1 cut:1000")
        agrees(report, status, found)
        expect((found["faults"][0]["kind"], found["faults"][0]["outcome"]) == ("check", "short"), "a check cut short", found["faults"])
        expect(isinstance(found["faults"][0]["moved"], int) and found["faults"][0]["reason"] is None, "its bytes", found["faults"])

    def test_many_faults(self):
        """Of more than a hundred faults the first hundred are told, and how many more there are."""
        place = self.place
        jobs = "[r]\nioengine=memory\nrw=write\nbs=4k\nsize=8k\niodepth=2\nnumjobs=64\n"
        issues = [f"I {it} {2 * clone + it} {clone} 0 {it}\n" for clone in range(64) for it in range(2)]
        ends = [f"E {it % 2} {it} failed\n" for it in range(128)]
        with open(place.at("trace"), "w", encoding="ascii") as it:
            it.writelines(issues + ends)
        status, report, found = place.run(jobs, "--check-trace=trace")
        expect(status == 0, "status of the check", status)
        agrees(report, 1, found)
        expect(found["more_faults"] == 28 and all(it["outcome"] == "failed" for it in found["faults"]), "faults", found["faults"][:1])

    def test_unstored(self):
        """A run whose last sync fails: all of its outputs are there, and say so. Its status is that of what it found, else 3."""
        place = self.place
        read = "[r]\nfilename=f\nrw=read\nsize=4k\nverify=pattern\nverify_pattern=1\n"
        write = "[w]\nfilename=g\nrw=write\nsize=8k\nverify=md5\ndo_verify=0\n"
        with open(place.at("f"), "wb") as it:
            it.write(bytes(4096))
        for jobs, wanted in ((write, 3), (read + write, 1)):
            words = ("--workers=1", "--bad-blocks=list") if wanted == 3 else ("--workers=2",)
            status, _, found = place.run(jobs, *words, "--page=page", "--trace=trace")
            expect((status, found["stored"]) == (0 if wanted == 3 else 1, True), "a run that is stored", status, found["stored"])
            syncs = place.calls.counted()["fdatasync"]
            for name in ("json", "page", "trace"):
                os.unlink(place.at(name))
            said = b"fiorun: cannot write\n"
            fault = f"fdatasync {syncs} {errno.EIO}"
            status, report, found = place.run(jobs, *words, "--page=page", "--trace=trace", fault=fault, said=said)
            agrees(report, status, found, stored=False)
            expect(status == wanted and len(found["badreads"]) == (wanted == 1), "a run that isn't stored", status, found["badreads"])
            expect(all(os.path.exists(place.at(it)) for it in ("page", "trace")), "its other outputs", os.listdir(place.path))
            status, _, again = place.run(jobs, "--check-trace=trace")
            expect(status == 0 and again["stored"] and again["cached"] is None, "of its trace", status, again)

    def test_interrupted(self):
        """A trace that was left halfway is that of an interrupted run."""
        place = self.place
        jobs = "[w]\nioengine=memory\nrw=write\nsize=64k\nverify=md5\n"
        _, report, _ = place.run(jobs, "--trace=trace", "--workers=1")
        with open(place.at("trace"), encoding="ascii") as it:
            lines = it.readlines()
        with open(place.at("trace"), "w", encoding="ascii") as it:
            it.writelines(lines[: len(lines) // 2])
        status, report, found = place.run(jobs, "--check-trace=trace", "--interrupted")
        expect(status == 0, "status of the check", status)
        agrees(report, 130, found, True)
