#!/usr/bin/env python3
"""How long the parts of a gate take. Run beside the gate, it looks every two seconds at what the provers work on (a crate, its tests,
its must-fail edits), and as it is ended (SIGTERM) it prints the whole time and the twenty slowest parts, in minutes. What provers of other
folders took meanwhile is said apart: it makes the gate slower, and is none of it."""

import os
import signal
import sys
import time

EVERY = 2.0
SLOWEST = 20
TICKS = os.sysconf("SC_CLK_TCK")
TOP = os.path.dirname(os.path.dirname(os.path.realpath(__file__)))
OTHER = ("other folders", "")


def state_of(pid):
    """The fields of a process's /proc/PID/stat behind its name."""
    with open(f"/proc/{pid}/stat", encoding="utf-8") as it:
        return it.read().rpartition(")")[2].split()


def is_below(pid, gate):
    """Was the process started by the gate, or by what that has started?"""
    while pid > 1 and pid != gate:
        pid = int(state_of(pid)[1])
    return pid == gate


def is_own(pid, words, folder):
    """Is the prover the gate's? It works in its folder, over libraries of its folder, or was started by what started this."""
    crates = os.path.join(TOP, "crates", "")
    return f"{folder}/".startswith(crates) or any(crates in it for it in words) or is_below(pid, os.getppid())


def part_of(pid):
    """What the process proves, and its processor seconds so far; None where it is no prover."""
    with open(f"/proc/{pid}/cmdline", "rb") as it:
        words = it.read().decode(errors="replace").split("\0")
    if os.path.basename(words[0]) != "rattle" or "--crate-name" not in words[:-1]:
        return None
    fields, folder = state_of(pid), os.readlink(f"/proc/{pid}/cwd")
    took = (int(fields[11]) + int(fields[12])) / TICKS
    if not is_own(pid, words, folder):
        return OTHER, took
    name = words[words.index("--crate-name") + 1]
    if os.path.basename(folder).startswith("rt-edit-"):
        kind = "edits"
    else:
        kind = "tests" if "--test" in words else "proof"
    return (name, kind), took


def look(parts, seen, now, has_looked=True):
    """Notes for each part when it was seen first and last, and what its provers took since the last look, if there was one."""
    for pid in filter(str.isdigit, os.listdir("/proc")):
        try:
            found = part_of(int(pid))
        except (OSError, ValueError):
            continue
        if found:
            part, took = found
            entry = parts.setdefault(part, [now, now, 0.0])
            entry[1] = now
            # (what a prover took before the first look isn't counted)
            entry[2] += took - seen.get((pid, part), 0.0 if has_looked else took)
            seen[pid, part] = took


def tell(parts, whole):
    """Prints the times of the parts."""
    beside = parts.pop(OTHER, (0, 0, 0.0))[2]
    taken = sum(it[2] for it in parts.values())
    print(f"the gate's proofs and tests: {whole / 60:.0f} min, provers {taken / 60:.0f} processor min, {os.cpu_count()} processors")
    print(f"  provers of other folders beside it: {beside / 60:.1f} processor min")
    for kind in ("proof", "tests", "edits"):
        of_kind = [it for (_, found), it in parts.items() if found == kind]
        taken, last = sum(it[2] for it in of_kind), max((it[1] for it in of_kind), default=0)
        print(f"  {kind} of {len(of_kind)} crates: {taken / 60:.1f} processor min, the last ended at {last / 60:.0f}")
    print(f"the {SLOWEST} slowest parts: processor minutes, and when they were seen first and last")
    for (name, kind), (first, last, took) in sorted(parts.items(), key=lambda it: -it[1][2])[:SLOWEST]:
        print(f"  {name} {kind}: {took / 60:.1f}, from {first / 60:.0f} to {last / 60:.0f}")


def main():
    parts, seen, begun = {}, {}, time.monotonic()
    ended = []
    look(parts, seen, 0.0, has_looked=False)
    signal.signal(signal.SIGTERM, lambda *_: ended.append(True))
    while not ended:
        look(parts, seen, time.monotonic() - begun)
        time.sleep(EVERY)
    tell(parts, time.monotonic() - begun)
    return 0


if __name__ == "__main__":
    sys.exit(main())
