"""Calls of the system that fail, are interrupted, or lose and change blocks (checks/support/faulty.c)."""

import errno
import os
import re

from support.case import Case
from support.place import FOUR, FOUR_HELD, FOUR_SAID, PATTERN, says, traced
from support.program import UNDROPPED, Ended, SystemCalls, built_library, expect, total

DIGESTS = FOUR.replace(PATTERN, "verify=md5\n")
# Bytes of such a block, and the part that each is of.
PARTS_OF_A_BLOCK = ((0, "header"), (31, "header"), (32, "digest"), (47, "digest"), (63, "digest"), (64, "data"), (4095, "data"))


def faulty(place):
    """What runs a job with one call going wrong, and what counts the calls of the last run."""
    calls = SystemCalls(built_library("faulty.c"), place.at("calls"))

    def run(job, call="none", number=0, how="0", workers=1, words=()):
        for name in os.listdir(place.path):
            os.remove(place.at(name))
        place.put("job", job)
        return place.run(f"--workers={workers}", "--trace=trace", *words, "job", env=calls.environment(f"{call} {number} {how}"))

    return run, calls.counted


class Calls(Case):
    """Calls of the system that fail, are interrupted, or lose and change blocks (checks/support/faulty.c)."""

    def test_calls_interrupted(self):
        """A call that is interrupted is made again, and one that moves a part goes on: the run is the same."""
        place = self.place
        run, counted = faulty(place)
        says(run(FOUR), 0, FOUR_SAID)
        trace, calls = place.get("trace"), counted()
        expect(calls["pread"] == calls["pwrite"] == 4, "other calls than thought of:", calls)
        for call in ("read", "write", "pread", "pwrite"):
            for number in range(1, calls[call] + 1):
                for how in (errno.EINTR, "half", "one"):
                    says(run(FOUR, call, number, how), 0, FOUR_SAID)
                    is_same = place.get("trace") == trace and place.get("data") == FOUR_HELD
                    expect(is_same, call, number, how, "changed the trace or the file")

    def test_calls_refused(self):
        """A call that the system refuses is a fault by name, or of its block; what is said is never more than what was done."""
        place = self.place
        run, counted = faulty(place)
        expect(run(FOUR).status == 0, "a run without a fault")
        calls = counted()
        names = "cannot read the job file|cannot open the files|cannot write|out of memory"
        for error in (errno.EIO, errno.ENOSPC, errno.ENOMEM, errno.EACCES, errno.EAGAIN):
            for call in ("open", "lseek", "read", "write"):
                for number in range(1, calls[call] + 1):
                    ended = run(FOUR, call, number, error)
                    is_named = ended.status == 3 and re.fullmatch(f"fiorun: (?:{names})\n", ended.err.decode())
                    is_right = is_named and FOUR_SAID.encode().startswith(ended.out)
                    # (no more is asked of a call that the run can do without)
                    expect(is_right or ended == Ended(0, FOUR_SAID.encode(), b""), call, number, error, ended)
            for number in range(1, 5):
                done = number - 1
                says(run(FOUR, "pwrite", number, error), 1, total(writes=done, wbytes=done * 4096, faults=1))
                says(run(FOUR, "pread", number, error), 1, total(writes=4, wbytes=16384, checks=done, good=done, faults=1))

    def test_blocks_lost_and_changed(self):
        """Blocks that are lost or changed on their way, by one byte too, are named by place and what is wrong; short ones are faults."""
        place = self.place
        run, _ = faulty(place)
        for number in range(1, 5):
            done, offset = number - 1, number * 4096 - 4096
            says(run(FOUR, "pwrite", number, "zero"), 1, total(writes=done, wbytes=done * 4096, faults=1))
            says(run(FOUR, "pread", number, "zero"), 1, total(writes=4, wbytes=16384, checks=done, good=done, faults=1))
            line = total(writes=4, wbytes=16384, checks=4, good=3, bad=1)
            line += f"miscompare: clone=0 pass=0 number={done} file=data offset={offset} length=4096 what="
            for call in ("pwrite", "pread"):
                for at in (0, 9, 511, 512, 4095):
                    says(run(FOUR, call, number, f"flip:{at}"), 1, f"{line}byte:{at}\n")
                for at, what in PARTS_OF_A_BLOCK:
                    says(run(DIGESTS, call, number, f"flip:{at}"), 1, f"{line}{what}\n")
            says(run(FOUR, "pwrite", number, "drop"), 1, line + "byte:0\n")
            says(run(DIGESTS, "pwrite", number, "drop"), 1, line + "header\n")

    def test_faults_have_notes(self):
        """A fault has a note: what it was, how it ended, which it was and where, and the system's reason where there is one."""
        place = self.place
        run, _ = faulty(place)

        def noted(call, number, how, wanted, workers=1):
            ended = run(FOUR, call, number, how, workers, ["--notes"])
            expect(ended.status == 1 and ended.err.decode() == wanted + UNDROPPED, call, number, how, "wanted", wanted, "and got", ended)

        for number in range(1, 5):
            at = f"clone=0 pass=0 number={number - 1} file=data offset={number * 4096 - 4096} length=4096"
            for error in (errno.EIO, errno.ENOSPC, errno.EACCES):
                reason = f"{os.strerror(error)} (os error {error})"
                noted("pwrite", number, error, f"fiorun: note: write failed: {at}: {reason}\n")
                noted("pread", number, error, f"fiorun: note: check failed: {at}: {reason}\n")
            noted("pwrite", number, "zero", f"fiorun: note: write ended after 0 bytes: {at}\n")
            noted("pread", number, "zero", f"fiorun: note: check ended after 0 bytes: {at}\n")
            noted("pread", number, errno.EIO, f"fiorun: note: check failed: {at}: {os.strerror(errno.EIO)} (os error 5)\n", 2)

    def test_syncs_refused(self):
        """A sync that fails before the run is told alone; one before a check is that check's fault; one at the end ends the program."""
        place = self.place
        run, counted = faulty(place)
        expect(run(FOUR).status == 0 and counted()["fdatasync"] == 2, "other syncs than thought of:", counted())
        reason = f"{os.strerror(errno.ENOSPC)} (os error {errno.ENOSPC})\n"
        says(run(FOUR, "fdatasync", 1, errno.ENOSPC), 0, FOUR_SAID)
        ended = run(FOUR, "fdatasync", 1, errno.ENOSPC, words=["--notes"])
        wanted = "fiorun: note: cannot sync data before the run: " + reason + UNDROPPED
        expect(ended == Ended(0, FOUR_SAID.encode(), wanted.encode()), "before the run:", ended)
        ended = run(FOUR, "fdatasync", 2, errno.ENOSPC, words=["--notes"])
        at = "clone=0 pass=0 number=0 file=data offset=0 length=4096"
        wanted = f"fiorun: note: check failed: {at}: " + reason + UNDROPPED
        expect(ended == Ended(1, total(writes=4, wbytes=16384, faults=1).encode(), wanted.encode()), "before a check:", ended)
        unchecked = FOUR + "do_verify=0\n"
        expect(run(unchecked).status == 0 and counted()["fdatasync"] == 2, "other syncs than thought of:", counted())
        ended = run(unchecked, "fdatasync", 2, errno.ENOSPC, words=["--notes"])
        wanted = "fiorun: cannot write\nfiorun: note: cannot sync data: " + reason
        expect(ended == Ended(3, total(writes=4, wbytes=16384).encode(), wanted.encode()), "at the end:", ended)

    def test_workers_with_faults(self):
        """With several workers and verifiers one fault is one fault, and one changed block one bad one, whoever meets it."""
        place = self.place
        run, _ = faulty(place)
        job = "[w]\nrw=write\nsize=64k\nverify=md5\nnumjobs=4\niodepth=4\n"
        for more in ("", "verify_async=2\n"):
            for number in range(1, 65, 7):
                for call in ("pwrite", "pread"):
                    sums = traced(place, job, run(job + more, call, number, errno.EIO, 4))
                    expect((sums["faults"], sums["bad"]) == (1, 0), call, number, "refused:", sums)
                    sums = traced(place, job, run(job + more, call, number, "flip:100", 4))
                    expect((sums["faults"], sums["bad"], sums["good"]) == (0, 1, 63), call, number, "changed:", sums)
