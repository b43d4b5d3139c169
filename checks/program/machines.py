"""The lines of "Many machines" in docs/USING.md, over folders in place of machines.

There are six folders, each with the file of a job, and each run has another number of workers. In one of them a byte that is read back is
another one (checks/support/faulty.c, built by cc). The lines of the chapter that begin with $ run in their order, but for those of pdsh and
srun. By their output the digest of one report must be another than those of the others, which are equal, and jq must name that folder and
the block.
"""

import json
import os
import re
import subprocess

from support.case import Case
from support.program import TOP, expect, needed_library

SECONDS = 120
NODES = 6
LIAR = 4
# What stands for the program on each machine.
WRAPPER = """#!/bin/sh
node=${{PWD##*/node}}
if [ "$node" = {liar} ]; then
  export LD_PRELOAD={library} CALLS={counts} FAULT="pread 3 flip:1000"
  exec {program} --workers=1 "$@"
fi
exec {program} --workers=$((node * 2)) "$@"
"""


def chapter():
    """The lines that the chapter has for a shell, and the job file that it shows."""
    with open(os.path.join(TOP, "docs", "USING.md"), encoding="utf-8") as it:
        text = re.search(r"\n## Many machines\n(.*?)\n## ", it.read(), re.S).group(1)
    job = re.search(r"\n    (\[soak\]\n(?:    .*\n)+)", text).group(1).replace("\n    ", "\n")
    lines = re.findall(r"^    \$ (.*)$", text, re.M)
    return job, [it for it in lines if not it.startswith(("cat ", "pdsh ", "srun "))]


class Machines(Case):
    """Many machines, one of which lies."""

    tools = ("parallel", "jq")

    def test_the_one_that_lies_is_named(self):
        """Runs the lines, and looks at what they print."""
        place = self.place
        job, lines = chapter()
        expect(len(lines) == 4, "other lines than these are known", lines)
        library = needed_library("faulty.c")
        counts = place.at("counts")
        with open(counts, "wb") as it:
            it.write(bytes(64))
        tools, rack = place.at("tools"), place.at("rack")
        os.mkdir(tools)
        wrapper = os.path.join(tools, "fiorun")
        with open(wrapper, "w", encoding="ascii") as it:
            it.write(WRAPPER.format(liar=LIAR, library=library, counts=counts, program=place.program))
        os.chmod(wrapper, 0o755)
        for node in range(1, NODES + 1):
            os.makedirs(os.path.join(rack, f"node{node}"))
        with open(os.path.join(rack, "soak.fio"), "w", encoding="ascii") as it:
            it.write(job)
        environment = {**os.environ, "PATH": f"{tools}:{os.environ['PATH']}", "HOME": place.path}
        how = {"stdin": subprocess.DEVNULL, "capture_output": True, "text": True, "timeout": SECONDS, "check": False}
        printed = [subprocess.run(["bash", "-c", it], cwd=rack, env=environment, **how).stdout for it in lines]
        digests = sorted(int(it.split()[0]) for it in printed[1].splitlines())
        expect(digests == [1, NODES - 1], "digests", printed[1])
        expect(printed[2] == f"node{LIAR}/report.json\n", "the folders with a fault", printed[2])
        with open(os.path.join(rack, f"node{LIAR}", "report.json"), encoding="utf-8") as it:
            report = json.load(it)
        found = report["miscompares"]
        expect(len(found) == 1 and found[0]["what"] == "data" and report["badreads"] == [], "the liar's report", found, report["badreads"])
        expect(printed[3] == f"node{LIAR}/report.json {found[0]['file']} {found[0]['offset']} data\n", "the blocks", printed[3])
