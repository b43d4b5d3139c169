#!/usr/bin/env python3
"""bench/drops.py CLONE CLONE.. [--folder=FOLDER] [--times=N] runs the same jobs by the built programs of several clones of this repository,
each below its own launcher, in turn, over a file in FOLDER (/var/tmp where none is given), and prints the medians of their times: what it
costs that checks read the device. Nothing else should run beside it."""

import os
import statistics
import subprocess
import sys
import tempfile
import time

JOBS = [
    (f"backlog {backlog or 'none'}, {workers} workers{', direct' if direct else ''}", backlog, workers, direct)
    for backlog in (0, 32, 1)
    for workers in (1, 8)
    for direct in (0, 1)
]
SIZES = {0: "64m", 32: "16m", 1: "2m"}


def job_of(backlog, direct):
    lines = ["[w]", "ioengine=psync", "rw=randwrite", "bs=4k", "iodepth=16", "verify=md5", f"size={SIZES[backlog]}"]
    return "\n".join([*lines, f"verify_backlog={backlog}", f"direct={direct}", "filename=f", ""])


def seconds_of(clone, room, job, workers):
    """How long a run takes, from its start to its end."""
    words = [os.path.join(clone, "launcher", "launch"), os.path.join(clone, "crates", "fiorun", "out", "fiorun"), f"--workers={workers}"]
    begun = time.monotonic()
    ran = subprocess.run(words, input=job, cwd=room, capture_output=True, text=True, check=False)
    taken = time.monotonic() - begun
    if ran.returncode:
        sys.exit(f"{clone}: status {ran.returncode}: {ran.stdout}{ran.stderr}")
    return taken


def main(words):
    given = dict(it[2:].split("=", 1) for it in words if it.startswith("--"))
    clones = [os.path.realpath(it) for it in words if not it.startswith("--")]
    print("| Job | " + " | ".join(clones) + " | part of the first |")
    print("|-" * (len(clones) + 2) + "|")
    with tempfile.TemporaryDirectory(prefix="drops-", dir=given.get("folder", "/var/tmp")) as room:
        for name, backlog, workers, direct in JOBS:
            taken = [[] for _ in clones]
            for _ in range(int(given.get("times", 5))):
                for clone, times in zip(clones, taken):
                    times.append(seconds_of(clone, room, job_of(backlog, direct), workers))
            medians = [statistics.median(times) for times in taken]
            print(f"| {name} | " + " | ".join(f"{it:.3f}" for it in medians) + f" | {medians[-1] / medians[0]:.2f} |", flush=True)


if __name__ == "__main__":
    main(sys.argv[1:])
