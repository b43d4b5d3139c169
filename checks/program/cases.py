"""Each case of checks/cases: a job text and words, and what the program must print for them, with its status.

A file of cases is a check, whose runs are side by side.

A case begins with `= ` and its name. Then come its parts, each a name, a colon and its text: behind the colon, or in the lines below,
which are indented by four spaces and end in line feeds. In quotes a text is one of Python's, which b before it makes bytes, and which
`x 9` behind it repeats. A line that begins with # is a comment.

    words       the words of the command line, divided by spaces
    job         standard input
    file NAME   a file that is there before the run
    out         what is printed, the whole of it; nothing is where it isn't given
    has         a part of what is printed, where the rest of it isn't told
    like        a regular expression of what is printed, the whole of it, where it isn't the same each time
    fault       what is said on standard error behind `fiorun: `, and nothing else is
    notes       the lines behind `fiorun: note: ` that come after it, the whole of them
    says        the first line on standard error, where there may be more
    err         the whole of standard error, where it is neither a fault nor notes
    status      the exit status, where it isn't 0
    trace       the whole file `trace` after the run
    starts      the first letters of its lines that start an I/O (I), a check (P) or a skip (S)
    who         the numbers of workers and of verifiers in it: a verdict (V) is of one of the verifiers, which are numbered on from the
                workers, or where there are none of the worker that ended the check, and all else is of a worker
    times       how often the case is run, where it isn't once
    bytes NAME  what a file begins with after the run, in hexadecimal digits
    again       the words of a second run in the same folder, which must print the same and end with 0

Where something is refused (status 2), no file is made or changed. Two more parts have a row a line, of which each is a run of its own:

    refused     a job text in quotes, and its fault
    lines       a number, another line for the file `trace` in that place (in quotes), and the fault
"""

import ast
import glob
import os
import re
import subprocess

from support.case import Case, one_for_each
from support.program import TOP, Wrong

FILES = sorted(glob.glob(os.path.join(TOP, "checks", "cases", "*.cases")))
SECONDS = 60
PARTS = set("words job out has like fault notes says err status trace starts who times again refused lines".split())
NAMED = {"file", "bytes"}
ROWS = {"refused", "lines"}
QUOTED = re.compile(r"""(b?"(?:[^"\\]|\\.)*")(?: x (\d+))?""")


class Row:
    """A run: where it stands, and its parts."""

    def __init__(self, place, name, parts=None):
        self.place = place
        self.name = name
        self.parts = dict(parts or {})

    def __str__(self):
        return f"{self.place}: {self.name}"

    def row(self, number, **parts):
        """The case that a row of it makes."""
        rest = {it: text for it, text in self.parts.items() if it not in ROWS}
        return Row(self.place, f"{self.name}, row {number}", {**rest, **parts})

    def get(self, part, default=b""):
        return self.parts.get(part, default)

    def files(self):
        return {it[5:]: text for it, text in self.parts.items() if it.startswith("file ")}


def wrong_table(place, why):
    raise Wrong(f"{place}: {why}")


def quoted(text, place):
    """The text in quotes that this one begins with, and what is behind it."""
    found = QUOTED.match(text)
    if not found:
        wrong_table(place, f"not in quotes: {text}")
    content = ast.literal_eval(found[1])
    content = content if isinstance(content, bytes) else content.encode()
    return content * int(found[2] or 1), text[found.end() :].strip()


def text_of(behind, below, place):
    """The text of a part: behind its colon or in the lines below."""
    if below:
        return "".join(it[4:] + "\n" for it in below).encode()
    if behind.startswith(('"', 'b"')):
        content, rest = quoted(behind, place)
        return content if not rest else wrong_table(place, f"more than a text in quotes: {rest}")
    return behind.encode()


def read_part(case, lines, at):
    """Reads the part that begins at a line, and says where the next one does."""
    place = f"{case.place}:{at + 1}"
    name, colon, behind = lines[at].partition(":")
    if not colon or (name not in PARTS and name.split(" ")[0] not in NAMED) or name in case.parts:
        wrong_table(place, f"no part of a case, or its second: {lines[at]}")
    end = at + 1
    while end < len(lines) and lines[end].startswith("    "):
        end += 1
    case.parts[name] = text_of(behind.strip(), lines[at + 1 : end], place)
    return end


def read(path):
    """The cases of a file."""
    with open(path, encoding="utf-8") as it:
        lines = it.read().split("\n")
    cases, at = [], 0
    while at < len(lines):
        if not lines[at] or lines[at].startswith("#"):
            at += 1
        elif lines[at].startswith("= "):
            cases.append(Row(os.path.basename(path), lines[at][2:]))
            at += 1
        elif cases:
            at = read_part(cases[-1], lines, at)
        else:
            wrong_table(f"{path}:{at + 1}", "before the first case")
    return cases


def other_line(text, number, line):
    """The text with another line at a place, counted from 1; or behind its last."""
    lines = text.split(b"\n")[:-1]
    lines[number - 1 : number] = [line]
    return b"\n".join(lines) + b"\n"


def row_of(case, kind, number, row):
    """The run that a row stands for."""
    place = 0
    if kind == "lines":
        first, row = row.split(maxsplit=1)
        place = int(first)
    text, fault = quoted(row, f"{case.place}: {case.name}, row {number}")
    if kind == "lines":
        return case.row(number, **{"file trace": other_line(case.get("file trace"), place, text), "fault": fault.encode()})
    return case.row(number, job=text, fault=fault.encode())


def runs_of(case):
    """The runs that a case stands for: one, or one for each of its rows."""
    kinds = [it for it in case.parts if it in ROWS]
    rows = [(kind, number, row) for kind in kinds for number, row in enumerate(case.get(kind).decode().splitlines(), 1)]
    return [row_of(case, *row) for row in rows] if kinds else [case] * int(case.get("times", b"1"))


def held(folder):
    """The files of a folder with what is in them."""
    content = {}
    for name in os.listdir(folder):
        with open(os.path.join(folder, name), "rb") as it:
            content[name] = it.read()
    return content


def starts(trace):
    """What a trace starts, a letter for each."""
    return b"".join(it[:1] for it in trace.splitlines() if it[:1] in (b"I", b"P", b"S"))


def strangers(trace, workers, verifiers):
    """The lines of a trace that aren't of one who may have done it."""
    ends, wrong = {}, []
    for line in trace.splitlines():
        kind, number, io = line.split()[0], int(line.split()[1]), line.split()[2]
        if kind == b"E":
            ends[io] = number
        if kind == b"V":
            is_right = workers <= number < workers + verifiers if verifiers else number == ends.get(io)
        else:
            is_right = number < workers
        wrong += [] if is_right else [line]
    return wrong


def differences(case, ended, before, after):
    """What of a run isn't as the case says: pairs of what was wanted and what came."""
    said, trace = ended.stderr.split(b"\n")[0], after.get("trace", b"")
    fault = b"fiorun: " + case.get("fault") + b"\n" if "fault" in case.parts else b""
    fault += b"".join(b"fiorun: note: " + it + b"\n" for it in case.get("notes").splitlines())
    status = int(case.get("status", b"0"))
    pairs = [(status, ended.returncode)]
    if "like" in case.parts:
        pairs.append((True, bool(re.fullmatch(case.get("like"), ended.stdout)) or ended.stdout))
    elif "has" not in case.parts:
        pairs.append((case.get("out"), ended.stdout))
    pairs.append((case.get("says"), said) if "says" in case.parts else (case.get("err", fault), ended.stderr))
    if status == 2:
        pairs.append((before, after))
    if "trace" in case.parts:
        pairs.append((case.get("trace"), trace))
    if "starts" in case.parts:
        pairs.append((case.get("starts"), starts(trace)))
    if "who" in case.parts:
        pairs.append(([], strangers(trace, *map(int, case.get("who").split()))))
    for it, text in case.parts.items():
        if it.startswith("bytes "):
            first = bytes.fromhex(text.decode())
            pairs.append((first, after.get(it[6:], b"")[: len(first)]))
    lost = [(it, ended.stdout) for it in case.get("has").splitlines() if it not in ended.stdout]
    return [it for it in pairs if it[0] != it[1]] + lost


def run(program, words, case, folder):
    how = {"cwd": folder, "input": case.get("job"), "capture_output": True, "timeout": SECONDS, "check": False}
    return subprocess.run([program.encode(), *words.split()], **how)


def run_again(program, case, folder):
    """What of a second run isn't as the case says."""
    ended = run(program, case.get("again"), case, folder)
    wanted, came = (0, case.get("out"), b""), (ended.returncode, ended.stdout, ended.stderr)
    return [(wanted, came)] if wanted != came else []


def tried(place, case):
    """A run is as the case says."""
    for name, text in case.files().items():
        place.put(name, text)
    before = held(place.path)
    try:
        wrong = differences(case, run(place.program, case.get("words"), case, place.path), before, held(place.path))
        if "again" in case.parts:
            wrong += run_again(place.program, case, place.path)
    except subprocess.TimeoutExpired:
        raise Wrong(f"not ended after {SECONDS} s") from None
    if wrong:
        raise Wrong("; ".join(f"wanted {str(wanted)[:400]}, and got {str(came)[:400]}" for wanted, came in wrong))


class Cases(Case):
    """The cases of each file."""

    at_once = os.cpu_count()


@one_for_each(Cases, {os.path.basename(it).removesuffix(".cases"): it for it in FILES})
def are_as_they_must_be(self, path):
    """Each case of the file."""
    cases = read(path)
    self.says(f"{len(cases)} cases")
    self.tries(tried, [run for case in cases for run in runs_of(case)])
