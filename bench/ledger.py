#!/usr/bin/env python3
"""bench/ledger.py PROGRAM [FOLDER..] prints what a ledger costs: 131,072 random writes of 4 KiB to a file in each folder (the one that it
is started in), by one worker and by four, and by four to files of four jobs, synced after each 1,000 of them, without a ledger and with one
in the folder LEDGERS (/tmp; a tmpfs that isn't below /dev), in turn: the medians of the seconds, what the ledger adds by these and by pairs
of runs, and by pairs in processor seconds; and how many more calls of the system write something with one. RUNS says how many runs of each
there are (11). And how long a judgement takes beside a checked read of the same file by one worker and by four, with chunks of 4 KiB and of
512 bytes: in seconds, and in processor seconds; medians of five."""

import contextlib
import itertools
import os
import statistics
import subprocess
import sys
import tempfile
import time

JOB = "[w]\nnumjobs={}\nrw=randwrite\nbs=4k\nsize={}m\niodepth=8\nverify={}\ndo_verify=0\nloops=4\n"
MEBIBYTES = 128
RUNS = int(os.environ.get("RUNS", "11"))
CHUNKS = {"4 KiB": "bs=4k\n", "512 bytes": "bs=64k\nverify_interval=512\n"}
FILE = "[w]\nfilename=ledger-data\nsize=256m\nverify=md5\n"


def times(program, folder, job, *words):
    """The seconds and the processor seconds of a run."""
    begun = time.monotonic()
    with subprocess.Popen([program, *words], stdin=subprocess.PIPE, stdout=subprocess.DEVNULL, cwd=folder) as it:
        it.stdin.write(job.encode())
        it.stdin.close()
        _, status, used = os.wait4(it.pid, 0)
        it.returncode = os.waitstatus_to_exitcode(status)
    if it.returncode:
        sys.exit(f"{program} {' '.join(words)}: status {it.returncode}")
    return time.monotonic() - begun, used.ru_utime + used.ru_stime


def calls(program, folder, job, *words):
    """How many calls of the system wrote something in a run, as the system last said before its end."""
    found = 0
    with subprocess.Popen([program, *words], stdin=subprocess.PIPE, stdout=subprocess.DEVNULL, cwd=folder) as it:
        it.stdin.write(job.encode())
        it.stdin.close()
        while it.poll() is None:
            with contextlib.suppress(OSError), open(f"/proc/{it.pid}/io", encoding="ascii") as numbers:
                found = max([found, *(int(line.split()[1]) for line in numbers if line.startswith("syscw"))])
            time.sleep(0.001)
    return found


def medians(kinds):
    """The median of five runs of each kind, in turn; of pairs the median of each half."""
    took = {name: [] for name in kinds}
    for _ in range(5):
        for name, run in kinds.items():
            took[name].append(run())
    return [[statistics.median(half) for half in zip(*it)] if isinstance(it[0], tuple) else statistics.median(it) for it in took.values()]


def pairs(program, folder, job, words, ledger):
    """Runs without a ledger and with one, in turn, each of them first as often as the other."""
    sides = ([], (f"--ledger={ledger}",))
    for number in range(RUNS):
        took = {side: times(program, folder, job, *words, *sides[side]) for side in ((0, 1), (1, 0))[number % 2]}
        yield took[0], took[1]


def more(without, with_it):
    return f"{100 * (with_it / without - 1):.1f} %"


def ledgers(program, folder, ledger):
    for (workers, jobs), digest in itertools.product(((1, 1), (4, 1), (4, 4)), ("md5", "sha256")):
        words = [f"--workers={workers}", "--sync-every=1000"]
        job = JOB.format(jobs, MEBIBYTES // jobs, digest)
        took = list(pairs(program, folder, job, words, ledger))
        without, with_it = (statistics.median(it[side][0] for it in took) for side in (0, 1))
        by_pairs = [more(1, statistics.median(it[1][half] / it[0][half] for it in took)) for half in (0, 1)]
        added = calls(program, folder, job, *words, f"--ledger={ledger}") - calls(program, folder, job, *words)
        row = [folder, workers, jobs, digest, f"{without:.3f}", f"{with_it:.3f}", more(without, with_it), *by_pairs, added]
        print("| " + " | ".join(map(str, row)) + " |", flush=True)


def judgements(program, folder, ledger):
    for name, chunks in CHUNKS.items():
        write = FILE + chunks + "rw=randwrite\ndo_verify=0\n"
        times(program, folder, write, f"--ledger={ledger}")
        reads = FILE + chunks + "rw=read\niodepth=16\n"
        found = medians({
            "judged": lambda write=write: times(program, folder, write, f"--after={ledger}"),
            "one": lambda reads=reads: times(program, folder, reads, "--workers=1"),
            "four": lambda reads=reads: times(program, folder, reads, "--workers=4"),
        })
        print(f"| {folder} | {name} | " + " | ".join(f"{it[0]:.2f}, {it[1]:.2f}" for it in found) + " |", flush=True)


def main(words):
    if not words:
        sys.exit(__doc__)
    program, folders = os.path.realpath(words[0]), words[1:] or ["."]
    with tempfile.TemporaryDirectory(prefix="ledger-", dir=os.environ.get("LEDGERS")) as room:
        ledger = os.path.join(room, "ledger")
        print("| Files in | workers | jobs | digest | without | with | more, by medians | by pairs | processor seconds, by pairs | calls |")
        print("|-|-|-|-|-|-|-|-|-|-|")
        for folder in folders:
            ledgers(program, folder, ledger)
        print("\n| File in | chunks | judged | read by one worker | by four |\n|-|-|-|-|-|")
        for folder in folders:
            judgements(program, folder, ledger)
            for name in ("ledger-data", *(f"w.{clone}.0" for clone in range(4))):
                os.remove(os.path.join(folder, name))


if __name__ == "__main__":
    main(sys.argv[1:])
