#!/usr/bin/env python3
"""bench/instructions.py PROGRAM.. prints how many instructions an I/O takes with one worker: 20,480 random I/Os of 512 bytes, with the start of
the program taken off. A write and its check are two I/Os. Instructions are counted by `valgrind --tool=callgrind`, so they are the same on
every machine, whatever runs beside it."""

import os
import re
import subprocess
import sys
import tempfile

BLOCK = 512
COUNT = 20_480
# What is tried: its name, its engine, rw, how many jobs, their depth, whether what is written is checked.
TRIED = [
    ("null engine, writes, nothing checked", "null", "randwrite", 1, 1, False),
    ("null engine, reads", "null", "randread", 1, 1, False),
    ("memory engine, writes and their checks by pattern", "memory", "randwrite", 1, 1, True),
    ("the same with 64 jobs of 320 blocks, depth 16", "memory", "randwrite", 64, 16, True),
    ("memory engine, writes and their checks by md5", "memory", "randwrite", 1, 1, "md5"),
]


def job_of(engine, rw, jobs, depth, checked, blocks):
    lines = ["[w]", f"ioengine={engine}", f"rw={rw}", f"bs={BLOCK}", f"size={blocks * BLOCK}", f"numjobs={jobs}", f"iodepth={depth}"]
    if checked:
        lines += ["verify=md5"] if checked == "md5" else ["verify=pattern", "verify_pattern=0xab"]
    return "\n".join([*lines, ""])


def counted(program, room, job):
    """How many instructions a run takes, and how many I/Os it reports."""
    tool = ["valgrind", "--tool=callgrind", "--callgrind-out-file=/dev/null", program, "--workers=1"]
    ran = subprocess.run(tool, input=job, cwd=room, capture_output=True, text=True, check=False)
    if ran.returncode:
        sys.exit(f"{program}: status {ran.returncode}: {ran.stdout}{ran.stderr}")
    ios = sum(int(it) for it in re.findall(r" (?:reads|writes|checks)=(\d+)", ran.stdout))
    return int(re.search(r"Collected : (\d+)", ran.stderr).group(1)), ios


def cost(program, room, engine, rw, jobs, depth, checked):
    """Instructions an I/O, by the difference of a run and one of a block a job."""
    many, ios = counted(program, room, job_of(engine, rw, jobs, depth, checked, COUNT // jobs))
    few, least = counted(program, room, job_of(engine, rw, jobs, depth, checked, 1))
    return (many - few) / (ios - least)


def main(programs):
    programs = [os.path.realpath(it) for it in programs]
    if not programs:
        sys.exit(__doc__)
    print("| Work | " + " | ".join(programs) + " |")
    print("|-" * (len(programs) + 1) + "|")
    with tempfile.TemporaryDirectory(prefix="instructions-") as room:
        for name, *tried in TRIED:
            cells = [f"{cost(it, room, *tried):,.0f}" for it in programs]
            print(f"| {name} | " + " | ".join(cells) + " |", flush=True)


if __name__ == "__main__":
    main(sys.argv[1:])
