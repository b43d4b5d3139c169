"""The list of bad blocks and the JSON of random jobs, and their reports.

TRIALS jobs are tried, 200 where none is given. They run over nothing, so what is checked comes back as zeros: all of it is bad, but where
zeros are what was written. The list that --bad-blocks writes must be that of the miscompares of the report: of each the blocks that its
piece lies in, or its chunk where the line names one. The object that --json writes must have the numbers and the lines of the report. Some
of the jobs have serialize_overlap=0. Then a trace with a void verdict: neither has it among what was bad. As root a list goes through
mke2fs on a loop device, and dumpe2fs must give its blocks back.
"""

import json
import random
import re
import subprocess

from support.case import Case
from support.disks import loop_device
from support.program import expect, needs_root, trials
from support.random_jobs import RACED, RACED_TRACE, random_jobs
from support.reports import agrees

SECONDS = 60
LINE = re.compile(r"(miscompare|badread): .* offset=(\d+) length=(\d+) what=(\w+)(?::(\d+))?")


def listed(report, interval, block):
    """The blocks that the bad verdicts of a report are over."""
    blocks = set()
    for word, offset, length, what, place in LINE.findall(report):
        first, count = int(offset), int(length)
        # (of a checked read it isn't known at which interval it was written)
        if place and what != "byte" and word == "miscompare":
            first, count = first + interval * int(place), interval
        blocks.update(range(first // block, (first + count - 1) // block + 1))
    return "".join(f"{it}\n" for it in sorted(blocks))


class Places(Case):
    """Whether lists of bad blocks are those of their reports."""

    def run_listed(self, text, *words, block=4096):
        """A run with the file `list`, of blocks of this size, and the file `json`: how it ends, and the list."""
        place = self.place
        words = [place.program, *words, "--bad-blocks=list", f"--bad-blocks-size={block}", "--json=json"]
        ended = subprocess.run(words, input=text, cwd=place.path, capture_output=True, text=True, timeout=SECONDS, check=False)
        return ended, place.get("list").decode()

    def test_random_jobs(self):
        """Lists and JSON of random jobs are those of their reports."""
        rng = random.Random(46)
        for number in range(trials(200)):
            with self.subTest(part=number):
                text, interval = random_jobs(rng)
                block = 512 << rng.randrange(8)
                ended, came = self.run_listed(text, f"--workers={rng.randrange(1, 5)}", block=block)
                expect(ended.returncode in (0, 1) and not ended.stderr, "status", ended.returncode, ended.stderr, "of", text)
                expect(came == listed(ended.stdout, interval, block), "blocks of", block, came, "of", text)
                agrees(ended.stdout, ended.returncode, json.loads(self.place.get("json")))

    def test_a_void_verdict(self):
        """It has no bad block and no miscompare, and the JSON counts it as nothing else."""
        self.place.put("trace", RACED_TRACE)
        ended, came = self.run_listed(RACED, "--check-trace=trace")
        expect(ended.returncode == 0 and not ended.stderr, "status", ended.returncode, ended.stderr)
        expect(came == "1\n", "the list has more than block 1")
        found = json.loads(self.place.get("json"))
        counts = [[it[word] for word in ("checks", "good", "bad", "skipped", "void", "faults")] for it in found["jobs"]]
        expect(counts == [[1, 0, 1, 0, 1, 0], [1, 1, 0, 0, 0, 0]], "counts", counts)
        expect([it["offset"] for it in found["miscompares"]] == [4096], "miscompares", found["miscompares"])
        expect(not found["badreads"] and not found["faults"], "bad reads or faults", found)

    def test_a_list_for_mke2fs(self):
        """A list of bad blocks that mke2fs takes: the file system has exactly those."""
        needs_root("losetup", "mke2fs", "dumpe2fs")
        # (the first blocks of a file system may not be bad)
        text = "[n]\nioengine=null\nrw=randwrite\nbs=4k\noffset=8m\nsize=128k\nnorandommap\nverify=md5\n"
        _, wanted = self.run_listed(text)
        expect(wanted, "an empty list")
        with loop_device(self.place.at("image")) as device:
            made = ["mke2fs", "-q", "-F", "-t", "ext4", "-b", "4096", "-l", self.place.at("list"), device]
            subprocess.run(made, capture_output=True, timeout=SECONDS, check=True)
            shown = subprocess.run(["dumpe2fs", "-b", device], capture_output=True, text=True, timeout=SECONDS, check=True)
        expect(sorted(shown.stdout.split(), key=int) == wanted.split(), "the file system's", shown.stdout, wanted)
