"""Traces that are cut, edited or long, and what --check-trace says of them."""

import subprocess

from support.case import Case
from support.place import TRACE, TRACED, TRACE_SAID, refuses, says
from support.program import expect, total


def checking(place, trace, job=TRACED):
    place.put("t", trace)
    place.put("job", job)
    ended = place.run("--check-trace=t", "job", stdin=subprocess.DEVNULL)
    expect(place.held() == {"t": trace if isinstance(trace, bytes) else trace.encode(), "job": job.encode()}, "a check changed files")
    return ended


# What is no line of a trace, wherever it stands.
NO_LINE = ["I 0 0 0 0 0\r", "I 0 0 0 0 0\0", "I\t0\t0\t0\t0\t0", "x" * 100_000, "I " + "1" * 100_000 + " 0 0 0 0", "\0"] + (
    "Q|| |#|\u00e9|I 00 0 0 0 0|I 0 0 0 0 0 | I 0 0 0 0 0|I  0 0 0 0 0|I 0 0 0 0|I 0 0 0 0 0 0|i 0 0 0 0 0|I -1 0 0 0 0|I +0 0 0 0 0"
    "|I 0 0 0 0 0x0|I 0 0 0 0 \u0660|I 18446744073709551616 0 0 0 0|E 0 0|E 0 0 Whole|E 0 0 short|E 0 0 short 01|E 0 0 whole 1"
    "|V 0 0|V 0 0 bad|V 0 0 byte|V 0 0 byte:0|S 0 0 0|S 0 0 0 0 0"
).split("|")
# What is a line, and can't happen there: its number, and the line.
ILLEGAL = [(int(it.split(":")[0]), it.split(":")[1]) for it in (
    "1:I 4294967296 0 0 0 0|1:I 0 1 0 0 0|1:I 0 0 1 0 0|1:I 0 0 0 1 0|1:I 0 0 0 0 1|1:I 0 0 18446744073709551615 0 0|1:P 0 0 0 0 0"
    "|1:S 0 0 0 0|1:E 0 0 whole|1:V 0 0 good|2:E 1 0 whole|2:E 0 1 whole|2:E 0 0 short 4096|2:E 0 0 short 4294967295|2:I 0 0 0 0 0"
    "|2:V 0 0 good|5:S 0 0 0 0|5:P 0 2 0 1 0|5:P 0 2 0 0 2|5:I 0 2 0 0 2|7:V 0 2 header|7:V 0 2 digest|7:V 0 2 byte 4096|7:V 0 1 good"
    "|7:V 4294967296 2 good|8:P 0 3 0 0 0|10:V 0 2 good|10:E 0 3 whole"
).split("|")]


def edited(number, line):
    lines = TRACE.split("\n")
    lines[number - 1] = line
    return "\n".join(lines)


class Traces(Case):
    """Traces that are cut, edited or long, and what --check-trace says of them."""

    def test_traces_cut(self):
        """A trace cut at each byte isn't complete, or its last line is no line."""
        place = self.place
        says(checking(place, TRACE), 0, TRACE_SAID)
        for cut in range(len(TRACE)):
            part = TRACE[:cut]
            last = part.count("\n") + 1
            whole = not part or part.endswith("\n")
            refuses(checking(place, part), 2, "trace: not complete" if whole else f"trace: line {last}: not a trace line")

    def test_traces_edited(self):
        """A trace with another line is refused by that line; what might have happened is accepted, and says so."""
        place = self.place
        for line in NO_LINE:
            for number in (1, 6, 10):
                refuses(checking(place, edited(number, line)), 2, f"trace: line {number}: not a trace line")
        for number, line in ILLEGAL:
            refuses(checking(place, edited(number, line)), 2, f"trace: line {number}: not legal here")
        lines = TRACE.splitlines(True)
        for number, line in enumerate(lines, 1):
            # A line twice, and the last one dropped.
            twice = "".join(lines[:number]) + line + "".join(lines[number:])
            refuses(checking(place, twice), 2, f"trace: line {number + 1}: not legal here")
        refuses(checking(place, lines[1] + lines[0] + "".join(lines[2:])), 2, "trace: line 1: not legal here")
        refuses(checking(place, TRACE.replace("\n", "\r\n")), 2, "trace: line 1: not a trace line")
        refuses(checking(place, TRACE.encode() + b"\xff"), 2, "trace: line 11: not a trace line")
        says(checking(place, edited(7, "V 4294967295 2 byte 7")), 0, total(writes=2, wbytes=8192, checks=2, good=1, bad=1))
        says(checking(place, "I 5 0 0 0 0\nE 5 0 short 4095\n"), 0, total(faults=1))
        says(checking(place, TRACE.replace("0 0 0\nE 0 2", "0 0 1\nE 0 2").replace("P 0 3 0 0 1", "P 0 3 0 0 0")), 0, TRACE_SAID)
        refuses(checking(place, TRACE, TRACED.replace("8k", "4k")), 2, "trace: line 3: not legal here")
        refuses(checking(place, TRACE, TRACED.replace("size=8k", "size=12k")), 2, "trace: line 5: not legal here")

    def test_traces_long(self):
        """Long lines, many lines and no lines of 10 MB are refused by their line, at once."""
        place = self.place
        for trace, fault in (
            (b"I 0 0 0 0 0\n" + b"x" * 10_000_000, "line 2: not a trace line"),
            (b"\n" * 10_000_000, "line 1: not a trace line"),
            (b"\0" * 10_000_000, "line 1: not a trace line"),
            (TRACE.encode() + b"S 0 0 0 0\n" * 1_000_000, "line 11: not legal here"),
            (TRACE.encode() + b"I 0 " + b"9" * 10_000_000 + b"\n", "line 11: not a trace line"),
        ):
            refuses(checking(place, trace), 2, f"trace: {fault}")
