"""Jobs that let their I/O overlap (serialize_overlap=0): what raced, by the trace of each run.

Each of TRIALS runs (60) has four workers and two or three jobs that write one region, in memory or in a file, of which one or more decline
that overlapping I/O is kept apart. What flew at one time is worked out here from the trace: two that overlap, one of them a write, are
there only where one of their jobs declines. A verdict is void exactly where its check overlapped a write, and no check is bad; a write is
skipped exactly where it isn't the last one of its blocks, or raced. The report's counts are those of the trace, which --check-trace accepts
with the same totals; and it refuses a void that is said to be good, and a good that is said to be void. Without a job that declines nothing
races. Some run has a void verdict.
"""

import random
import subprocess
from typing import NamedTuple

from support.case import Case
from support.program import FIELDS, expect, trials

SECONDS = 60


class Job(NamedTuple):
    """A job that writes its region in order, block by block, and checks it."""

    block: int
    size: int
    backlog: int
    depth: int
    declines: bool


class Io(NamedTuple):
    """What was started: its write, and whether it is one or the check of one."""

    write: tuple
    low: int
    high: int
    is_write: bool


def drawn(rng, some_decline=True):
    jobs = [
        Job(4096 << rng.randrange(4), 32768 << rng.randrange(3), rng.choice([0, 1, 2, 3]), rng.randrange(1, 9), rng.random() < 0.4)
        for _ in range(rng.randrange(2, 4))
    ]
    if some_decline:
        return [*jobs[:-1], jobs[-1]._replace(declines=True)]
    return [it._replace(declines=False) for it in jobs]


def text_of(jobs, engine, loops):
    lines = ["[global]", f"ioengine={engine}", "filename=f", "rw=write", "verify=md5", f"loops={loops}"]
    for number, job in enumerate(jobs):
        lines += [f"[j{number}]", f"bs={job.block}", f"size={job.size}", f"verify_backlog={job.backlog}", f"iodepth={job.depth}"]
        lines += ["serialize_overlap=0"] if job.declines else []
    return "\n".join(lines) + "\n"


class Replay:
    """What the events of a trace come to, one after another."""

    def __init__(self, jobs):
        self.jobs = jobs
        self.ios = []
        self.flying = set()
        self.raced = set()
        self.last = {}
        self.counts = [dict.fromkeys(FIELDS, 0) for _ in jobs]

    def io_of(self, is_write, clone, turn, number):
        block = self.jobs[clone].block
        return Io((clone, turn, number), number * block, (number + 1) * block, is_write)

    def start(self, io):
        """What is in flight and overlaps it has raced where this is a write, and so has this where one of them is."""
        this = len(self.ios)
        for other in self.flying:
            it = self.ios[other]
            if max(it.low, io.low) < min(it.high, io.high) and (it.is_write or io.is_write):
                declines = self.jobs[it.write[0]].declines or self.jobs[io.write[0]].declines
                expect(declines, "two that neither decline flew together:", it, io)
                self.raced |= {other} if io.is_write else set()
                self.raced |= {this} if it.is_write else set()
        self.ios.append(io)
        self.flying.add(this)

    def blocks(self, io):
        return range(io.low // 512, io.high // 512)

    def is_last(self, io):
        return all(self.last.get(it) == io.write for it in self.blocks(io))

    def end(self, number, outcome):
        io = self.ios[number]
        expect(outcome == "whole", "a fault:", outcome)
        self.flying.remove(number)
        if io.is_write:
            for it in self.blocks(io):
                self.last[it] = None if number in self.raced else io.write
            self.counts[io.write[0]]["writes"] += 1
            self.counts[io.write[0]]["wbytes"] += io.high - io.low

    def take_in(self, line):
        kind, *words = line.split()
        if kind in "IP":
            io = self.io_of(kind == "I", *map(int, words[2:]))
            expect(int(words[1]) == len(self.ios), "another number:", line)
            expect(io.is_write or self.is_last(io), "a check of what isn't the last write:", line)
            self.start(io)
        elif kind == "S":
            io = self.io_of(False, *map(int, words[1:]))
            expect(not self.is_last(io), "a skip of the last write:", line)
            self.counts[io.write[0]]["skipped"] += 1
        elif kind == "E":
            self.end(int(words[1]), " ".join(words[2:]))
        else:
            said, number = words[2:], int(words[1])
            expect(said == (["void"] if number in self.raced else ["good"]), "another verdict:", line, number in self.raced)
            counts = self.counts[self.ios[number].write[0]]
            for it in ["void"] if said == ["void"] else ["checks", "good"]:
                counts[it] += 1


def ran(place, *words):
    return subprocess.run([place.program, *words, "job"], cwd=place.path, capture_output=True, text=True, timeout=SECONDS, check=False)


def refused(place, lines, number, said):
    """The trace with this line's verdict another one is no legal one."""
    changed = [*lines[:number], " ".join([*lines[number].split()[:3], said]), *lines[number + 1 :]]
    with open(place.at("changed"), "w", encoding="ascii") as it:
        it.write("\n".join(changed) + "\n")
    checked = ran(place, "--check-trace=changed")
    got = (checked.returncode, checked.stdout, checked.stderr)
    expect(got == (2, "", f"fiorun: trace: line {number + 1}: not legal here\n"), f"{lines[number]} as {said}:", got)


def one_run(place, jobs, engine, rng):
    """One run of these jobs: how many of its checks are void, and how many I/Os raced."""
    with open(place.at("job"), "w", encoding="ascii") as it:
        it.write(text_of(jobs, engine, rng.randrange(1, 5)))
    run = ran(place, "--workers=4", "--trace=trace")
    expect((run.returncode, run.stderr) == (0, ""), "status", run.returncode, run.stderr)
    with open(place.at("trace"), encoding="ascii") as it:
        lines = it.read().splitlines()
    replay = Replay(jobs)
    for line in lines:
        replay.take_in(line)
    wanted = [f"j{number}: clone={number} " + " ".join(f"{it}={counts[it]}" for it in FIELDS) for number, counts in enumerate(replay.counts)]
    expect(run.stdout.splitlines() == wanted, "another report:", run.stdout, wanted)
    for counts in replay.counts:
        expect(counts["checks"] + counts["void"] + counts["skipped"] == counts["writes"], "a write that was neither checked nor skipped:", counts)
    checked = ran(place, "--check-trace=trace")
    expect((checked.returncode, checked.stdout) == (0, run.stdout), "another total of the trace:", checked.stdout, checked.stderr)
    for old, new in (("void", "good"), ("good", "void")):
        there = [number for number, line in enumerate(lines) if line.startswith("V") and line.endswith(f" {old}")]
        if there:
            refused(place, lines, rng.choice(there), new)
    return sum(it["void"] for it in replay.counts), len(replay.raced)


class Overlap(Case):
    """What raced in runs of jobs that let their I/O overlap."""

    def test_runs_are_as_their_traces(self):
        rng = random.Random(1)
        voids = with_void = raced = 0
        for number in range(count := trials(60)):
            some_decline = number % 8 != 7
            jobs, engine = drawn(rng, some_decline), ("memory", "psync")[number % 2]
            with self.subTest(part=f"run {number} of {text_of(jobs, engine, 0)!r}"):
                void, races = one_run(self.fresh(), jobs, engine, rng)
                expect(some_decline or races == 0, "a race where no job declines")
                voids, with_void, raced = voids + void, with_void + bool(void), raced + races
        self.says(f"{count} runs, {with_void} of them with {voids} void checks, {raced} I/Os raced")
        expect(with_void, "no run has a void check")
