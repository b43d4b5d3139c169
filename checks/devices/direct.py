"""Runs with direct=1 below the launcher, as root over loop devices: a device gets each block of the job as a request of its own, as many at
once as the job asks for, and what can't be direct is refused or said."""

import concurrent.futures
import contextlib
import fcntl
import json
import os
import subprocess
import time

from support.case import Case
from support.disks import job_of, launched, loop_device, mounted, run, tmpfs, totals_of
from support.own_launcher import Launcher
from support.program import MAYBE_CACHED, MIB, UNDROPPED, Skipped, expect, needs
from support.requests import counted, device_job

PAGE = 4096
# How often a job is done that has to last for some tenths of a second.
LOOPS = 16
# Calls that freeze a file system, and thaw it.
FIFREEZE, FITHAW = 0xC0045877, 0xC0045878
REFUSED = "fiorun: cannot open the files\nfiorun: note: "


def sectors_of(image, size, sector):
    """A loop device with sectors of so many bytes."""
    return loop_device(image, size, "-b", str(sector))


def went_well(ran, what):
    expect((ran.returncode, ran.stderr) == (0, ""), f"{what}: status {ran.returncode}: {ran.stdout[:300]}{ran.stderr}")
    return totals_of(ran.stdout)


# What the device gets.

JOBS = [
    ("1m", ["bs=4k"]),
    ("4m", ["bs=64k"]),
    ("2m", ["bssplit=4k/50:16k/30:64k/20"]),
    ("1m", ["bs=4k", "rw=randwrite", "iodepth=16"]),
    ("1m", ["bs=512", "size=128k"]),
    ("1m", ["bs=4k", "rw=randrw", "iodepth=8", "verify_backlog=7"]),
]


@contextlib.contextmanager
def file_system(place):
    """A file system in memory that can be frozen: writes to its files wait then."""
    needs("mkfs.ext4")
    with tmpfs(place, "96m") as memory, loop_device(os.path.join(memory, "image"), 64 * MIB) as device:
        subprocess.run(["mkfs.ext4", "-q", device], capture_output=True, check=True)
        with mounted(device, place.at("frozen"), "ext4") as folder:
            yield folder


def in_flight(device):
    with open(f"/sys/block/{os.path.basename(device)}/inflight", encoding="ascii") as it:
        return sum(int(word) for word in it.read().split())


@contextlib.contextmanager
def frozen(folder):
    opened = os.open(folder, os.O_RDONLY)
    fcntl.ioctl(opened, FIFREEZE, 0)
    try:
        yield
    finally:
        fcntl.ioctl(opened, FITHAW, 0)
        os.close(opened)


def waits_for(is_so):
    """Waits until it is so, for half a minute at most."""
    end = time.monotonic() + 30
    while not is_so() and time.monotonic() < end:
        time.sleep(0.001)


def held_back(folder, device, wanted, start):
    """Starts a run whose writes of its device all wait, and looks how many calls are in the device then."""
    with concurrent.futures.ThreadPoolExecutor(1) as pool:
        with frozen(folder):
            ran = pool.submit(start)
            waits_for(lambda: in_flight(device) >= wanted or ran.done())
            time.sleep(0.2)
            found = in_flight(device)
            expect(not ran.done(), "the run ended too soon")
        return ran.result(), found


# What can't be.


def refused(ran, note, what):
    got = (ran.returncode, ran.stdout, ran.stderr)
    expect(got == (3, "", REFUSED + note + "\n"), f"{what}: status {ran.returncode}: {ran.stdout}{ran.stderr}")


def failed_in(trace):
    """The letters of the I/Os that failed or stayed short: I for a read or write of the job, P for a check."""
    letters, failed = [], set()
    with open(trace, encoding="ascii") as it:
        for line in it:
            word = line.split()
            if word[0] in "IP":
                letters.append(word[0])
            elif word[0] == "E" and word[3] != "whole":
                failed.add(letters[int(word[2])])
    return failed


def told_of_direct(path):
    with open(path, encoding="utf-8") as it:
        return json.load(it)["direct"]


class Direct(Case):
    """What a device gets of a run with direct=1, and what goes through the cache."""

    where = "/var/tmp"
    tools = ("perl",)

    def test_each_block_is_a_request(self):
        place = self.place
        with loop_device(place.at("image"), 16 * MIB) as device:
            for size, more in JOBS:
                for workers in (1, 8):
                    job = device_job(device, size, more)
                    ran, got = counted(device, lambda job=job, workers=workers: launched(place, job, f"--workers={workers}"))
                    what = f"{more}, {workers} workers"
                    totals = went_well(ran, what)
                    expect(totals["checks"] == totals["writes"] > 0, f"{what}: {ran.stdout}")
                    checked = totals["wbytes"]
                    wanted = {
                        "reads": totals["reads"] + totals["checks"],
                        "read_merges": 0,
                        "read_sectors": (totals["rbytes"] + checked) // 512,
                        "writes": totals["writes"],
                        "write_merges": 0,
                        "write_sectors": totals["wbytes"] // 512,
                        # (before the run, and at its end)
                        "flushes": 2,
                    }
                    expect(got == wanted, f"{what}: the device got {got}, and not {wanted}")

    def test_large_blocks_are_split_by_the_device_alone(self):
        """Blocks of 1 MiB are one request each, or as many as the device's limits and the pages of memory make of them."""
        place = self.place
        with loop_device(place.at("image"), 16 * MIB) as device:
            with open(f"/sys/block/{os.path.basename(device)}/queue/max_segments", encoding="ascii") as it:
                most = MIB // PAGE // min(int(it.read()), MIB // PAGE) + 2
            for workers in (1, 8):
                job = device_job(device, "8m", ["bs=1m", "iodepth=8"])
                ran, got = counted(device, lambda job=job, workers=workers: launched(place, job, f"--workers={workers}"))
                what = f"{workers} workers"
                went_well(ran, what)
                expect(got["write_sectors"] == got["read_sectors"] == 8 * MIB // 512, f"{what}: {got}")
                expect(got["write_merges"] == got["read_merges"] == 0, f"{what}: {got}")
                expect(all(8 <= got[way] <= 8 * most for way in ("writes", "reads")), f"{what}: {got}, at most {most} a block")

    def test_as_many_are_in_the_device_as_depth_and_workers_let(self):
        """Calls that wait are as many as workers, and at most the depth: with 16 of both 16."""
        place = self.place
        with file_system(place) as folder, loop_device(os.path.join(folder, "image"), 16 * MIB) as device:
            for depth, workers in ((1, 16), (16, 1), (4, 16), (16, 16)):
                job = device_job(device, "16m", [f"loops={LOOPS}", f"iodepth={depth}", "rw=randwrite"], verify="0")
                words, wanted = [f"--workers={workers}", "--notes"], min(depth, workers)
                ran, found = held_back(folder, device, wanted, lambda job=job, words=words: launched(place, job, *words))
                went_well(ran, f"iodepth={depth}, {workers} workers")
                expect(found == wanted, f"iodepth={depth}, {workers} workers: {found} were in the device at once")

    def test_through_the_cache_it_gets_others(self):
        place = self.place
        with loop_device(place.at("image"), 16 * MIB) as device:
            job = device_job(device, direct=0)
            ran, got = counted(device, lambda: launched(place, job, "--workers=1"))
            went_well(ran, "direct=0")
            expect(got["writes"] < 64, f"direct=0: {got}")
            ran, got = counted(device, lambda: launched(place, device_job(device), "--cached", "--notes", "--workers=1"))
            went_well(ran, "--cached")
            expect(got["writes"] < 64, f"--cached: {got}")

    def test_all_else_is_the_same(self):
        """Plan, report, trace and status are those of direct=0."""
        place = self.place
        with loop_device(place.at("image"), 16 * MIB) as device:
            for more in (["bs=4k"], ["bssplit=4k/50:16k/30:64k/20", "rw=randwrite", "verify_backlog=9"], ["bs=8k", "rw=randrw", "loops=2"]):
                seen = []
                for direct in (0, 1):
                    job = device_job(device, "1m", more, direct)
                    plan = launched(place, job, "--parse-only")
                    ran = launched(place, job, "--trace=trace", "--workers=1", "--notes")
                    went_well(ran, f"{more}")
                    with open(place.at("trace"), encoding="ascii") as it:
                        seen.append((plan.stdout, ran.stdout, it.read()))
                expect(seen[0] == seen[1], f"{more}: direct=1 prints another plan, report or trace")

    def test_plain_files_go_past_the_cache(self):
        """Files that are missing, too short, full and sparse, where the file system takes direct I/O."""
        place = self.place
        for kind in ("missing", "short", "full", "sparse"):
            path = place.at(kind)
            if kind != "missing":
                with open(path, "wb") as it:
                    it.write(bytes({"short": 100, "full": MIB}.get(kind, 0)))
                    it.truncate({"short": 100}.get(kind, MIB))
            for workers in (1, 4):
                ran = launched(place, job_of("1m", ["direct=1"], filename=kind), "--notes", f"--workers={workers}")
                if "takes no direct I/O" in ran.stderr:
                    raise Skipped("the file system takes none")
                totals = went_well(ran, kind)
                expect(totals["good"] == 256, f"{kind}: {ran.stdout}")

    def test_parts_of_sectors_are_refused(self):
        place = self.place
        with sectors_of(place.at("image"), 4 * MIB, PAGE) as device:
            note = f"direct=1 needs whole sectors, of 4096 bytes in {device}: not in [w]"
            for more in (["bs=512"], ["bs=4k", "offset=512"], ["bssplit=512/50:4k/50"], ["bs=4k", "numjobs=2", "offset_increment=4608"]):
                ran, got = counted(device, lambda more=more: launched(place, device_job(device, "1m", more), "--notes"))
                refused(ran, note, f"{more}")
                expect(got["writes"] == 0, f"{more}: {got}")
            for workers in (1, 8):
                job = device_job(device, "1m", ["bs=4k"])
                ran, got = counted(device, lambda job=job, workers=workers: launched(place, job, f"--workers={workers}"))
                went_well(ran, "bs=4k")
                expect((got["writes"], got["reads"]) == (256, 256), f"bs=4k, {workers} workers: {got}")

    def test_a_file_system_without_direct_calls_is_refused(self):
        place = self.place
        with mounted("ramfs", place.at("ram"), "ramfs") as folder:
            job = job_of("1m", [f"directory={folder}", "direct=1"])
            note = f"direct=1 can't be had of {folder}/f: its file system takes no direct I/O"
            refused(launched(place, job, "--notes"), note, "ramfs")
            expect(not os.listdir(folder), "the file that was made stays")
            ran = launched(place, job)
            expect((ran.returncode, ran.stderr) == (3, "fiorun: cannot open the files\n"), f"no notes: {ran}")

    def test_a_device_that_is_full_fails_the_write(self):
        """A device of 16 MiB that stores one: the first I/O that fails is a write."""
        place = self.place
        with tmpfs(place, "1m") as folder, loop_device(os.path.join(folder, "image"), 16 * MIB) as device:
            for workers in (1, 4):
                job = device_job(device, "16m", ["iodepth=8"])
                ran = launched(place, job, f"--workers={workers}", "--trace=trace")
                expect(ran.returncode == 1, f"status {ran.returncode}: {ran.stdout}{ran.stderr}")
                totals = totals_of(ran.stdout)
                expect(totals["faults"] > 0 and totals["bad"] == 0 and totals["writes"] < 4096, f"{workers} workers: {ran.stdout}")
                failed = failed_in(place.at("trace"))
                expect(failed == {"I"}, f"{workers} workers: what failed is {failed}")

    def test_what_goes_through_the_cache_is_said(self):
        """Jobs that disagree over one file, no launcher, and one that isn't allowed to."""
        place = self.place
        with loop_device(place.at("image"), 16 * MIB) as device:
            cached = f"fiorun: note: {device} goes through the system's cache: "
            apart = device_job(device, "512k") + job_of("512k", ["directory=/dev", "offset=512k"], filename=os.path.basename(device))
            needs_more = cached + "direct=1 needs bin/fiorun, with perl, and a system that lets it\n"

            def alone(job, *words):
                # (with no launcher no device is held)
                return run(place, job, "--allow-mounted-write", *words)

            def below(job, *words):
                return launched(place, job, *words)

            def not_allowed(job, *words):
                it = Launcher(place, job, *words)
                it.answer_all(lambda asked, path: b"!")
                return it.ended()

            for start, job, note in (
                (below, apart, cached + "its jobs disagree on direct\n"),
                (alone, device_job(device), needs_more + UNDROPPED),
                (not_allowed, device_job(device), needs_more + MAYBE_CACHED.format(totals_of(alone(device_job(device)).stdout)["checks"])),
            ):
                for words in (("--workers=1",), ("--workers=4",)):
                    ran, got = counted(device, lambda start=start, job=job, words=words: start(job, *words, "--notes"))
                    what = f"{note}, {words}"
                    expect((ran.returncode, ran.stderr) == (0, note), f"{what}: status {ran.returncode}: {ran.stdout}{ran.stderr}")
                    expect(got["writes"] < 64, f"{what}: {got}")
                    told = place.at("json")
                    ran = start(job, *words, f"--json={told}")
                    expect((ran.returncode, ran.stderr) == (0, ""), f"{what}, no notes: {ran.stderr}")
                    expect(told_of_direct(told) is False, f"{what}: the JSON says otherwise")

    def test_what_goes_past_it_is_told_in_the_json(self):
        place = self.place
        with loop_device(place.at("image"), 16 * MIB) as device:
            told = place.at("json")
            for direct, words, wanted in ((1, [], True), (0, [], None), (1, ["--cached"], None)):
                ran = launched(place, device_job(device, "64k", direct=direct), *words, f"--json={told}")
                went_well(ran, f"direct={direct}, {words}")
                expect(told_of_direct(told) is wanted, f"direct={direct}, {words}: the JSON says {told_of_direct(told)}")

    def test_engines_without_files_take_no_notice(self):
        place = self.place
        for engine in ("memory", "null"):
            seen = [
                (ran.returncode, ran.stdout, ran.stderr)
                for direct in (0, 1)
                for ran in [launched(place, f"[w]\nioengine={engine}\nrw=write\nsize=1m\ndirect={direct}\n", "--notes")]
            ]
            expect(seen[0] == seen[1] and seen[0][0] == 0, f"{engine}: {seen}")
