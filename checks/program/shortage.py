"""Jobs whose history doesn't fit into the memory that they may have.

Each run has to stop by itself while there is memory for its report: report, JSON and list are there and say the same, `out of memory` is
the last line on standard error, and the status is 3, or 1 where a block was bad. The limits are those of addresses (`ulimit -v`) and those
of a control group, which needs root and is left out otherwise. SIZES says how many are tried (3).
"""

import contextlib
import json
import os
import re
import time

from support.case import Case
from support.program import FIELDS, Skipped, expect, total

SIZES = int(os.environ.get("SIZES", "3"))
MIB = 1 << 20
# A history of some 2 GB.
LONG = "[w]\nioengine=null\nrw=write\nbs=4k\nsize=64m\nloops=900\n"
# Two blocks that come back as zeros first.
BAD = "[b]\nioengine=null\nrw=write\nsize=8k\nverify=pattern\nverify_pattern=0x01\n" + LONG.replace("[w]\n", "[w]\nstonewall\n")
SAID = b"fiorun: interrupted\nfiorun: out of memory\n"
GROUPS = "/sys/fs/cgroup"


@contextlib.contextmanager
def group(limit):
    """A control group with this limit: the shell that moves itself there."""
    first = os.path.join(GROUPS, "memory")
    root, name = (first, "memory.limit_in_bytes") if os.path.isdir(first) else (GROUPS, "memory.max")
    path = os.path.join(root, f"fiorun-{os.getpid()}")
    try:
        os.mkdir(path)
    except OSError as error:
        raise Skipped(f"no group of its own: {error}") from None
    try:
        try:
            with open(os.path.join(path, name), "w", encoding="ascii") as it:
                it.write(str(limit))
        except OSError as error:
            raise Skipped(f"no limit of memory: {error}") from None
        yield f"echo $$ >{path}/cgroup.procs"
    finally:
        for _ in range(100):
            try:
                os.rmdir(path)
                break
            except OSError:
                time.sleep(0.1)


def limits(least, most):
    """So many limits, in MiB."""
    return [least + (most - least) * it // max(SIZES - 1, 1) for it in range(SIZES)]


class Shortage(Case):
    """A run whose history doesn't fit into memory."""

    def stops(self, shell, text=LONG, status=3):
        """The run stops by itself, and what it tells is whole."""
        place = self.place
        ran = place.run("--workers=2", "--json=json", text=text, shell=shell)
        expect(ran.status == status and ran.err == SAID, shell, "ended as", ran.status, ran.err, ran.out[-300:])
        lines = [it for it in ran.out.decode().splitlines() if re.match(r"w: clone=\d+ ", it)]
        expect(len(lines) == 1, shell, "reports", ran.out[-300:])
        said = {name: int(value) for name, value in re.findall(r"(\w+)=(\d+)", lines[0])}
        expect(0 < said["writes"] < 900 * 16384, shell, "writes", said)
        return ran, said

    def same(self, said):
        """The JSON says the same as the report."""
        found = json.loads(self.place.get("json"))
        jobs = [it for it in found["jobs"] if it["job"] == "w"]
        expect(found["interrupted"] is True and len(jobs) == 1, "the JSON", found)
        expect(all(jobs[0][name] == said[name] for name in FIELDS), "the JSON", jobs, "and the report", said)

    def test_limit_of_addresses(self):
        """Under `ulimit -v` it stops as well."""
        for mib in limits(300, 600):
            _, said = self.stops(f"ulimit -v {mib * 1024}")
            self.same(said)

    def test_limit_of_a_group(self):
        for mib in limits(48, 200):
            with group(mib * MIB) as shell:
                _, said = self.stops(shell)
            self.same(said)

    def test_bad_blocks_are_told(self):
        """What was found before memory ran short is told, and the status is 1."""
        with group(100 * MIB) as shell:
            ran, said = self.stops(shell, text=BAD, status=1)
        self.same(said)
        expect(total("b", writes=2, wbytes=8192, checks=2, bad=2).encode() in ran.out, "the bad job", ran.out)
        expect(ran.out.count(b"miscompare: ") == 2, "the bad blocks", ran.out)

    def test_rounds_end(self):
        """The rounds end, and the sums are those of the round that was cut."""
        place = self.place
        with group(100 * MIB) as shell:
            ran = place.run("--workers=2", "--repeat=3", "--json=json", text=LONG, shell=shell)
        expect(ran.status == 3 and ran.err == SAID, "ended as", ran.status, ran.err)
        lines = ran.out.decode().splitlines()
        expect(len(lines) == 3 and lines[0].startswith("round: number=0 "), "printed", lines)
        expect(lines[2] == f"total: rounds=1 {lines[1]}", "sums", lines)

    def test_notes(self):
        """A run that may not fit says so before it begins, and so does a plan."""
        place = self.place
        said = place.run("--parse-only", "--notes", text=LONG)
        expect(re.fullmatch(rb"fiorun: note: a run keeps a history of up to \d+ MiB, and \d+ MiB of memory are free\n", said.err), "a plan", said.err)
        with group(100 * MIB) as shell:
            ran = place.run("--workers=2", "--notes", text=LONG, shell=shell)
        first, *rest = ran.err.splitlines(keepends=True)
        expect(re.match(rb"fiorun: note: the history may take \d+ MiB, and \d+ MiB of memory are free: the run stops ", first), "a run", first)
        expect(b"".join(rest) == SAID and ran.status == 3, "and then", ran.status, rest)
        small = place.run("--notes", text=LONG.replace("loops=900", "loops=1"))
        expect(small.status == 0 and small.err == b"", "a run that fits", small.status, small.err)
