"""Jobs over sick files with --go-on: what is told is compared with an account of its own.

A library that is loaded before the program's own (checks/support/sick.c) lets reads and writes of some sectors fail. Which blocks then have
to be in the list of bad blocks, how much has to be written, read and checked, and what is never tried, is worked out from the sectors
alone.
"""

import json
import os
import random
import re
import shutil
import subprocess
import tempfile
import time

from support.case import Case
from support.place import ending, refuses
from support.program import FIELDS, Ended, Skipped, expect, needed_library

SECTOR = 512
SIZE = 64 << 20
SECTORS = SIZE // SECTOR
# (a sick file costs a round for each block that fails; no case depends on how quick the machine is)
SECONDS = 900
VERIFIED = "[w]\nfilename=sick\nrw=write\nbs={bs}\nsize={size}\niodepth={depth}\nverify=md5\n"


def sectors_of(low, high):
    """The sectors of these bytes."""
    return list(range(low // SECTOR, high // SECTOR))


def blocks_of(sectors, size):
    """The numbers of the blocks of this size that have one of these sectors, ascending."""
    return sorted({it * SECTOR // size for it in sectors})


def text_of(blocks):
    return "".join(f"{it}\n" for it in blocks).encode()


def counts_of(line):
    return {name: int(value) for name, value in re.findall(r"(\w+)=(\d+)", line)}


def sums_of(said):
    """The counts of each line of sums, by job and clone, and how many rounds they are of."""
    found = re.findall(r"^total: rounds=(\d+) (\S+): clone=(\d+) (.*)$", said, re.M)
    return {(job, int(clone)): counts_of(rest) for _, job, clone, rest in found}, {int(it[0]) for it in found}


class GoingOn(Case):
    """A job over a file of which some sectors can't be read or written."""

    def sick(self, reads=(), writes=(), sectors=SECTORS):
        """The environment of a run over the file `sick`, whose sectors these are."""
        library = needed_library("sick.c")
        self.place.put("reads", text_of(reads))
        self.place.put("writes", text_of(writes))
        lists = {"SICK_READS": self.place.at("reads"), "SICK_WRITES": self.place.at("writes")}
        return {**os.environ, "LD_PRELOAD": library, "SICK": self.place.at("sick"), "SICK_SECTORS": str(sectors), **lists}

    def made(self, size):
        """The file `sick` as a sick disk has it: it is there, and needs no block to be written to be long enough."""
        with open(self.place.at("sick"), "wb") as it:
            it.truncate(size)

    def go(self, job, *words, **sick):
        """A run with --go-on. It may have thousands of rounds."""
        words = [self.place.program, "--go-on", "--workers=1", "--cached", *words]
        it = subprocess.run(
            words, cwd=self.place.path, input=job.encode(), capture_output=True, timeout=SECONDS, check=False, env=self.sick(**sick)
        )
        return Ended(it.returncode, it.stdout, it.stderr)

    def listed(self, job, size, *words, **sick):
        """The same with the list of bad blocks, which has those of faults."""
        ran = self.go(job, "--bad-blocks=list", f"--bad-blocks-size={size}", "--bad-blocks-also=faults", *words, **sick)
        return ran, self.place.get("list")

    def check_sums(self, ran, wanted, untried=0, job="w"):
        """The sums are these, and so much was never tried."""
        said = ran.out.decode()
        sums, rounds = sums_of(said)
        expect(len(rounds) == 1, "the rounds of the sums", rounds)
        want = {**dict.fromkeys(FIELDS, 0), **wanted}
        expect(sums == {(job, 0): want}, "the sums are", sums, "and not", want)
        expect(said.endswith(f"untried: {job}: clone=0 bytes={untried}\n"), "the end", said[-300:])
        return rounds.pop()

    def test_half_cannot_be_written(self):
        """Each block of the dead half is in the list, tried once, and the healthy half is checked whole."""
        dead = sectors_of(16 << 20, 48 << 20)
        block = 1 << 16
        for depth in (1, 8):
            ran, found = self.listed(VERIFIED.format(bs="64k", size=SIZE, depth=depth), block, writes=dead)
            expect(ran.status == 1 and not ran.err, "status", ran.status, ran.err)
            expect(found == text_of(blocks_of(dead, block)), "the list", found[:200])
            half = SIZE // 2 // block
            # (what was written before the dead half is read back by the round after the first fault)
            before = (16 << 20) // block
            wanted = {"reads": before, "rbytes": before * block, "writes": half, "wbytes": SIZE // 2, "checks": half, "good": half}
            self.check_sums(ran, {**wanted, "faults": half})

    def test_scattered_sectors_cannot_be_read(self):
        """1,000 sectors that can't be read: all is written, each other block is checked, and these are in the list."""
        picked = sorted(random.Random(7).sample(range(SECTORS), 1000))
        ran, found = self.listed(VERIFIED.format(bs="4k", size=SIZE, depth=1), 4096, reads=picked)
        wrong = blocks_of(picked, 4096)
        expect(ran.status == 1 and not ran.err, "status", ran.status, ran.err)
        expect(found == text_of(wrong), "the list", len(found.split()), len(wrong))
        blocks = SIZE // 4096
        good = blocks - len(wrong)
        # (a check that a later round makes is a read of that round)
        said, _ = sums_of(ran.out.decode())
        reads = said["w", 0]["reads"]
        wanted = {"writes": blocks, "wbytes": SIZE, "checks": good, "good": good, "faults": len(wrong)}
        expect(reads <= good, "reads", reads, good)
        self.check_sums(ran, {**wanted, "reads": reads, "rbytes": reads * 4096})

    def test_reader(self):
        """A job that only reads gets past the sectors that it can't read."""
        picked = sorted(random.Random(8).sample(range(4 << 11), 40))
        self.place.put("sick", bytes(4 << 20))
        job = "[r]\nfilename=sick\nrw=read\nbs=4k\nsize=4m\n"
        ran, found = self.listed(job, 4096, reads=picked)
        wrong = blocks_of(picked, 4096)
        reads = 1024 - len(wrong)
        expect((ran.status, found) == (1, text_of(wrong)), "status and list", ran.status, found[:200])
        self.check_sums(ran, {"reads": reads, "rbytes": reads * 4096, "faults": len(wrong)}, job="r")

    def test_several_sizes(self):
        """Blocks of several sizes: the bytes that were written, those that failed and those never tried are all."""
        dead = sectors_of(1 << 20, 2 << 20)
        job = "[w]\nfilename=sick\nrw=write\nbssplit=4k/40:8k/30:16k/30\nsize=4m\nverify=sha256\n"
        ran, found = self.listed(job, 4096, writes=dead)
        sums, _ = sums_of(ran.out.decode())
        blocks = [int(it) for it in found.split()]
        expect(set(blocks_of(dead, 4096)) <= set(blocks), "blocks of the dead part aren't in the list", found[:200])
        expect(sums["w", 0]["wbytes"] + len(blocks) * 4096 == 4 << 20, "bytes written and failed", sums, len(blocks))
        expect(sums["w", 0]["checks"] == sums["w", 0]["good"] == sums["w", 0]["writes"], "each write is checked once", sums)
        expect(ran.out.endswith(b"untried: w: clone=0 bytes=0\n"), "the end", ran.out[-200:])

    def test_pattern(self):
        """Blocks of a pattern are checked by it in later rounds."""
        job = "[w]\nfilename=sick\nrw=write\nbs=4k\nsize=1m\nverify=pattern\nverify_pattern=0xab\n"
        dead = sectors_of(4096 * 10, 4096 * 11) + sectors_of(4096 * 100, 4096 * 102)
        ran, found = self.listed(job, 4096, writes=dead)
        expect((ran.status, found) == (1, b"10\n100\n101\n"), "status and list", ran.status, found)
        # (what is written up to the first fault is read back in the round after it)
        sums, _ = sums_of(ran.out.decode())
        expect(sums["w", 0]["good"] == 253 and sums["w", 0]["faults"] == 3, "the sums", sums)

    def test_bad_block_is_told_too(self):
        """A block that comes back wrong in a later round is a bad block beside those of faults, and its line is in that round's report."""
        job = VERIFIED.format(bs="4k", size="64k", depth=1)
        ran, _ = self.listed(job, 4096, writes=sectors_of(4096 * 5, 4096 * 6))
        expect(ran.status == 1, "a sick file", ran)
        held = self.place.get("sick")
        expect(len(held) == 65536, "the file", len(held))
        # the same bytes read by a job of their own, one of them flipped
        spoilt = bytearray(held)
        spoilt[4096 * 9 + 100] ^= 1
        self.place.put("sick", bytes(spoilt))
        reader = "[w]\nfilename=sick\nrw=read\nbs=4k\nsize=64k\nverify=md5\n"
        ran, found = self.listed(reader, 4096, reads=sectors_of(4096 * 5, 4096 * 6))
        expect((ran.status, found) == (1, b"5\n9\n"), "status and list", ran, found)
        said = ran.out.decode()
        rounds = re.findall(r"^round: number=(\d+)", said, re.M)
        expect(rounds == ["0", "1"] and said.index("round: number=1") < said.index("badread: "), "where it is told", said)

    def test_only_faults(self):
        """Without the word the list has the bad blocks alone; without --go-on it has the faults of the run."""
        job = VERIFIED.format(bs="4k", size="64k", depth=1)
        dead = sectors_of(4096 * 5, 4096 * 6)
        ran = self.go(job, "--bad-blocks=list", "--bad-blocks-size=4096", writes=dead)
        expect((ran.status, self.place.get("list")) == (1, b""), "a list of bad blocks", ran)
        words = [self.place.program, "--workers=1", "--bad-blocks=list", "--bad-blocks-size=4096", "--bad-blocks-also=faults"]
        it = subprocess.run(
            words, cwd=self.place.path, input=job.encode(), capture_output=True, timeout=SECONDS, check=False, env=self.sick(writes=dead)
        )
        expect((it.returncode, self.place.get("list")) == (1, b"5\n"), "the faults of one run", it, self.place.get("list"))

    def test_healthy_file(self):
        """Over a healthy file it is one round."""
        job = VERIFIED.format(bs="4k", size="64k", depth=4)
        single = self.place.run("--workers=1", "--cached", text=job).out.decode()
        ran, found = self.listed(job, 4096)
        wanted = "round: number=0 randseed-offset=0\n" + single + "total: rounds=1 " + single + "untried: w: clone=0 bytes=0\n"
        expect(ran == Ended(0, wanted.encode(), b"") and found == b"", "a healthy file", ran, wanted)

    def test_reports_and_sums(self):
        """The sums are those of the rounds' reports in the JSON, and each round's clones are told."""
        dead = sectors_of(4096 * 3, 4096 * 5)
        job = VERIFIED.format(bs="4k", size="64k", depth=1)
        ran = self.go(job, "--json=all", writes=dead)
        *rounds, sums = [json.loads(it) for it in self.place.get("all").splitlines()]
        expect(sums["rounds"] == len(rounds) == 3, "rounds", len(rounds), sums)
        added = dict.fromkeys(FIELDS, 0)
        for it in rounds:
            for clone in it["report"]["jobs"]:
                added = {name: added[name] + clone[name] for name in FIELDS}
        self.check_sums(ran, added)
        said = ran.out.decode()
        parts = re.findall(r"^part: round=(\d+) clone=(\d+) of=(\d+) does=(\w+) start=(\d+) size=(\d+)$", said, re.M)
        first = [("1", "0", "0", "rest", str(4 * 4096), str(12 * 4096)), ("1", "1", "0", "check", "0", str(3 * 4096))]
        second = [("2", "0", "0", "rest", str(5 * 4096), str(11 * 4096))]
        expect(parts == first + second, "parts", parts)

    def test_clones_that_stay(self):
        """Clones in random order, and those where another writes, don't go on; a note says which."""
        job = (
            "[r]\nfilename=sick\nrw=randwrite\nbs=4k\nsize=64k\n[a]\nfilename=sick\noffset=1m\nrw=write\nbs=4k\nsize=64k\n"
            "[b]\nfilename=sick\noffset=1085440\nrw=write\nbs=4k\nsize=64k\n[c]\nfilename=sick\noffset=2m\nrw=write\nbs=4k\nsize=64k\n"
        )
        self.made(4 << 20)
        ran = self.go(job, "--notes", writes=sectors_of(0, 4 << 20))
        stay = re.findall(rb"^fiorun: (\w): clone (\d) doesn't go on after a fault: ", ran.err, re.M)
        expect(stay == [(b"r", b"0"), (b"a", b"1"), (b"b", b"2")], "who stays", ran.err)
        lines = re.findall(rb"^untried: .*$", ran.out, re.M)
        expect(lines == [b"untried: c: clone=3 bytes=0"], "what was never tried", ran.out[-300:])
        sums, _ = sums_of(ran.out.decode())
        expect([sums[it]["faults"] for it in (("r", 0), ("a", 1), ("b", 2), ("c", 3))] == [1, 1, 1, 16], "faults", sums)

    def test_fatal_verdict_ends_it(self):
        """With verify_fatal a bad verdict is the end, and what is left is told as never tried."""
        self.place.put("sick", bytes(64 << 10))
        job = "[r]\nfilename=sick\nrw=read\nbs=4k\nsize=64k\nverify=md5\nverify_fatal=1\n"
        ran = self.go(job)
        expect(ran.status == 1 and ran.out.endswith(b"untried: r: clone=0 bytes=61440\n"), "a fatal verdict", ran)

    def test_stopped(self):
        """A stop ends it, with the sums so far and what was never tried."""
        job = VERIFIED.format(bs="4k", size=SIZE, depth=1)
        self.made(SIZE)
        reading, writing = os.pipe()
        child = self.place.start(
            "--go-on", "--workers=1", "--cached", "--json=all", f"--stop-fd={reading}", text=job, pass_fds=[reading],
            env=self.sick(writes=range(SECTORS)),
        )
        os.close(reading)
        deadline = time.monotonic() + SECONDS
        while not os.path.exists(self.place.at("all")) or self.place.get("all").count(b"\n") < 3:
            expect(time.monotonic() < deadline and child.poll() is None, "no lines of the JSON come")
            time.sleep(0.02)
        os.close(writing)
        ran = ending(child)
        rounds = len(self.place.get("all").splitlines()) - 1
        left = re.search(rb"^untried: w: clone=0 bytes=(\d+)\n\Z", ran.out, re.M)
        expect(ran.status == 1 and ran.err == b"fiorun: interrupted\n" and left, "a stopped run", ran.status, ran.err, ran.out[-200:])
        sums, told = sums_of(ran.out.decode())
        expect(told == {rounds} and int(left[1]) == SIZE - 4096 * sums["w", 0]["faults"], "what is told", told, rounds, left[0], sums)

    def test_words(self):
        place = self.place
        job = VERIFIED.format(bs="4k", size="8k", depth=1)
        for word in ("--for=1s", "--repeat=2"):
            refuses(place.run("--go-on", word, text=job), 2, "command line: --go-on with --for or --repeat")
        refuses(place.run("--go-on", "--page=p", text=job), 2, "page of several rounds")
        several = job + job.replace("sick", "other").replace("[w]", "[x]")
        refuses(place.run("--go-on", text=several), 2, "--go-on over several files")
        for kind in ("", "fault", "Faults", "faults,bad"):
            refuses(place.run(f"--bad-blocks-also={kind}", text=job), 2, "command line: bad kind of blocks")
        expect(place.held() == {}, "files were made", place.held())

    def test_same_as_badblocks(self):
        """As root, the list of a device that is too short for its job is that of `badblocks -w`."""
        tool = shutil.which("badblocks", path=os.environ.get("PATH", "") + ":/sbin:/usr/sbin")
        if not tool:
            raise Skipped("badblocks isn't installed")
        picked = sorted(random.Random(9).sample(range(4 << 11), 60))
        sick = self.sick(reads=picked, writes=picked, sectors=4 << 11)
        with tempfile.NamedTemporaryFile(dir=self.place.path) as it:
            it.truncate(4 << 20)
            sick["SICK"] = it.name
            ran = subprocess.run(
                [tool, "-f", "-w", "-b", "4096", "-c", "1", "-t", "0xaa", it.name, "1024"],
                capture_output=True, env=sick, timeout=SECONDS, check=False,
            )
        _, found = self.listed(VERIFIED.format(bs="4k", size="4m", depth=1), 4096, reads=picked, writes=picked)
        if not ran.stdout:
            raise Skipped("badblocks doesn't read and write by the calls that are refused")
        expect(found == ran.stdout.replace(b" ", b""), "the list", found[:200], "and that of badblocks", ran.stdout[:200])
