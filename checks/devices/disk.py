"""Runs over files, and as root over a loop device and a file system that can't store what they are given, and the order of their calls:
a file is synced before its checks, and what was lost is found."""

import os
import re

from support.case import Case
from support.disks import CLEAN, job_of, launched, loop_device, run, tmpfs, totals_of
from support.program import MIB, Skipped, expect, needs


def order_of(trace):
    """The calls of a run on its file, as letters: w(rite), s(ync), r(ead), each once for several in a row."""
    letters = ""
    for call in re.findall(r"\b(pwrite64|fdatasync|pread64)\(\d+<[^>]*/f>", trace):
        letter = {"pwrite64": "w", "fdatasync": "s", "pread64": "r"}[call]
        letters += "" if letters.endswith(letter) else letter
    return letters


def traced(place, job, *words):
    needs("strace")
    log = place.at("calls")
    calls = "trace=pwrite64,pread64,fdatasync"
    ran = run(place, job, "-f", "-y", "-o", log, "-e", calls, place.program, *words, program="strace")
    if not os.path.exists(log) or "strace:" in ran.stderr:
        raise Skipped(f"strace is refused: {ran.stderr[:80]}")
    expect(ran.returncode == 0, f"status {ran.returncode}: {ran.stdout}{ran.stderr}")
    with open(log, encoding="utf-8", errors="replace") as it:
        return order_of(it.read())


class Disk(Case):
    """Whether files are synced before their checks, and what was lost is found."""

    where = "/var/tmp"

    def test_a_disk_that_is_too_small_is_found(self):
        """A device of 16 MiB that stores one: writes go well, and checks don't."""
        place = self.place
        with tmpfs(place, "1m") as folder, loop_device(os.path.join(folder, "image"), 16 * MIB) as device:
            on_device = ["directory=/dev"]
            for words in (("--workers=1",), ("--workers=4",)):
                job = job_of("16m", on_device + ["iodepth=8"], filename=os.path.basename(device))
                ran = launched(place, job, *words)
                expect(ran.returncode == 1, f"{words}: status {ran.returncode}: {ran.stdout}{ran.stderr}")
                totals = totals_of(ran.stdout)
                expect(totals["writes"] == 4096 and totals["faults"] + totals["bad"] > 0, f"{words}: {ran.stdout}")
            job = job_of("16m", on_device, filename=os.path.basename(device))
            ran = launched(place, job, "--workers=1", "--notes")
            at = rf"clone=0 pass=0 number=\d+ file={device} offset=\d+ length=4096"
            reason = r"(?:No space left on device|Input/output error) \(os error \d+\)"
            found = re.search(rf"fiorun: note: check failed: {at}: {reason}\n", ran.stderr)
            expect(totals_of(ran.stdout)["faults"] == 0 or found, f"no note of the fault: {ran.stdout[:200]}{ran.stderr[:400]}")
            job = job_of("16m", on_device, verify="0", filename=os.path.basename(device))
            ran = launched(place, job)
            expect((ran.returncode, ran.stderr) == (3, "fiorun: cannot write\n"), f"unchecked: status {ran.returncode}: {ran.stderr}")
            expect(totals_of(ran.stdout)["writes"] == 4096, f"unchecked: the report isn't there: {ran.stdout}")

    def test_a_full_file_system_is_found(self):
        """A file of 2 MiB on a file system of one: the writes that find no room are faults, with their places and the system's reason."""
        place = self.place
        with tmpfs(place, "1m") as folder:
            for words in (("--workers=1",), ("--workers=4",)):
                job = job_of("2m", [f"directory={folder}", "iodepth=8"])
                ran = run(place, job, *words, "--notes")
                expect(ran.returncode == 1, f"{words}: status {ran.returncode}: {ran.stdout}{ran.stderr}")
                totals = totals_of(ran.stdout)
                expect(0 < totals["writes"] <= 256 and 1 <= totals["faults"] <= 8 and totals["bad"] == 0, f"{words}: {ran.stdout}")
                at = rf"clone=0 pass=0 number=(\d+) file={folder}/f offset=(\d+) length=4096"
                notes = re.findall(rf"fiorun: note: write failed: {at}: No space left on device \(os error 28\)\n", ran.stderr)
                expect(len(notes) == totals["faults"], f"{words}: {totals['faults']} faults, and these notes: {ran.stderr}")
                expect(all(int(offset) == 4096 * int(number) for number, offset in notes), f"{words}: other places: {notes}")
                os.unlink(os.path.join(folder, "f"))

    def test_a_sync_stands_before_each_round(self):
        """One worker: a sync before the run, and then the writes of a round, a sync, and its checks."""
        place = self.place
        for backlog, rounds in ((0, 1), (1000, 1), (64, 4)):
            job = job_of(more=[f"verify_backlog={backlog}"])
            found = traced(place, job, "--workers=1")
            expect(found == "s" + "wsr" * rounds, f"verify_backlog={backlog}: {found}")
        found = traced(place, job_of(), "--workers=1", "--cached")
        expect(found == "wrs", f"with --cached: {found}")
        found = traced(place, job_of(verify="0"), "--workers=1")
        expect(found == "sws", f"unchecked: {found}")

    def test_several_workers_sync_before_they_check(self):
        """Whatever the order of four workers, a sync stands between the last write and the first check."""
        place = self.place
        found = traced(place, job_of(more=["iodepth=8"]), "--workers=4")
        expect(re.fullmatch("sws+(rs*)+", found), f"four workers: {found}")

    def test_reports_are_the_same(self):
        place = self.place
        for words in ((), ("--cached",), ("--workers=4",)):
            ran = run(place, job_of(more=["verify_backlog=3"]), *words)
            expect((ran.returncode, ran.stdout) == (0, CLEAN), f"{words}: status {ran.returncode}: {ran.stdout}{ran.stderr}")
