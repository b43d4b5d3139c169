#!/usr/bin/env python3
"""bench/traces.py PROGRAM.. [--ios=N] checks traces of N I/Os by built programs, and prints how many instructions an I/O takes, beside the
trace of the first tenth of them: with 256 and 16,384 I/Os in flight, in 10 passes and 1,000, with no output and with one. The traces are
those of legal runs, in which each end lets the next I/O begin. Instructions are counted by `valgrind --tool=callgrind`, so it doesn't
matter what runs beside it. Last it prints how much memory the check of an empty trace takes at most, where all passes have 2^28 blocks."""

import os
import re
import subprocess
import sys
import tempfile

BLOCK = 4096
# What is tried: its name, how many clones, their depth, and their passes.
TRIED = [
    ("256 in flight, one clone, 10 passes", 1, 256, 10),
    ("256 in flight, 64 clones, 10 passes", 64, 4, 10),
    ("16,384 in flight, 64 clones, 1 pass", 64, 256, 1),
    ("16,384 in flight, 64 clones, 2 passes", 64, 256, 2),
    ("16 in flight, one clone, 10 passes", 1, 16, 10),
    ("16 in flight, one clone, 1,000 passes", 1, 16, 1000),
]


def job_of(blocks, clones, depth, passes):
    lines = ["[w]", "ioengine=null", "rw=write", f"bs={BLOCK}", f"size={blocks * BLOCK}", f"loops={passes}", f"iodepth={depth}"]
    return "\n".join([*lines, f"numjobs={clones}", ""])


def trace_of(blocks, clones, depth, passes):
    """The lines of a run in which each clone has as much in flight as it may. A pass begins once the one before has ended."""
    begun, lines = 0, []
    for number in range(passes):
        flying = []
        for block in range(blocks):
            for clone in range(clones):
                if len(flying) == depth * clones:
                    lines.append(f"E 0 {flying.pop(0)} whole\n")
                lines.append(f"I 0 {begun} {clone} {number} {block}\n")
                flying.append(begun)
                begun += 1
        lines += [f"E 0 {io} whole\n" for io in flying]
    return begun, "".join(lines)


def instructions(program, room, words):
    """How many instructions the check of a trace takes."""
    tool = ["valgrind", "--tool=callgrind", "--callgrind-out-file=/dev/null", program]
    ran = subprocess.run([*tool, "--check-trace=t", *words, "job"], cwd=room, capture_output=True, text=True, check=False)
    if ran.returncode:
        sys.exit(f"{program}: status {ran.returncode}: {ran.stdout}{ran.stderr}")
    return int(re.search(r"Collected : (\d+)", ran.stderr).group(1))


def counted(program, room, ios, tried, words):
    """Instructions an I/O, by the difference of two traces."""
    clones, depth, passes = tried
    seen = []
    for parts in (10, 1):
        blocks = max(1, ios // parts // clones // passes)
        begun, trace = trace_of(blocks, clones, depth, passes)
        for name, text in (("job", job_of(blocks, clones, depth, passes)), ("t", trace)):
            with open(os.path.join(room, name), "w", encoding="ascii") as it:
                it.write(text)
        seen.append((begun, instructions(program, room, words)))
    (few, less), (many, more) = seen
    return (more - less) / (many - few) if many > few else more / many


def peak(program, room):
    """The most memory that the check of an empty trace takes, in MiB."""
    with open(os.path.join(room, "job"), "w", encoding="ascii") as it:
        it.write(job_of(1 << 18, 1, 1, 1000))
    open(os.path.join(room, "t"), "w", encoding="ascii").close()
    reader = "import resource, subprocess, sys; subprocess.run(sys.argv[1:]); print(resource.getrusage(resource.RUSAGE_CHILDREN).ru_maxrss)"
    ran = subprocess.run([sys.executable, "-c", reader, program, "--check-trace=t", "job"], cwd=room, capture_output=True, text=True, check=True)
    return int(ran.stdout.split()[-1]) / 1024


def main(words):
    given = dict(it[2:].split("=", 1) for it in words if it.startswith("--"))
    programs = [os.path.realpath(it) for it in words if not it.startswith("--")]
    ios = int(given.get("ios", 330_000))
    print("| Trace | output | " + " | ".join(programs) + " |")
    print("|-" * (len(programs) + 2) + "|")
    with tempfile.TemporaryDirectory(prefix="traces-") as room:
        for name, *tried in TRIED:
            for output, more in (("none", []), ("--json", ["--json=j"])):
                cells = [f"{counted(it, room, ios, tried, more):,.0f}" for it in programs]
                print(f"| {name} | {output} | " + " | ".join(cells) + " |", flush=True)
        print("| an empty trace, 1,000 passes of 2^18 blocks | none | " + " | ".join(f"{peak(it, room):,.1f} MiB" for it in programs) + " |")


if __name__ == "__main__":
    main(sys.argv[1:])
