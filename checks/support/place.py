"""A folder in which the program is run, jobs that are run there, and what a run must say."""

import os
import re
import subprocess

from support.program import FIELDS, Ended, Wrong, expect, total

SECONDS = 30
PATTERN = "verify=pattern\nverify_pattern=0xab\n"
# Four blocks of the byte 0xab to the file `data`, and what is said of them.
FOUR = "[w]\nfilename=data\nrw=write\nsize=16k\n" + PATTERN
FOUR_SAID = total(writes=4, wbytes=16384, checks=4, good=4)
FOUR_HELD = b"\xab" * 16384
IN_MEMORY = FOUR.replace("filename=data", "ioengine=memory")
# A job of two blocks, its trace with one worker, and what is said of it.
TRACED = "[w]\nioengine=memory\nrw=write\nsize=8k\nverify=pattern\nverify_pattern=1\n"
TRACE = "I 0 0 0 0 0\nE 0 0 whole\nI 0 1 0 0 1\nE 0 1 whole\nP 0 2 0 0 0\nE 0 2 whole\nV 0 2 good\nP 0 3 0 0 1\nE 0 3 whole\nV 0 3 good\n"
TRACE_SAID = total(writes=2, wbytes=8192, checks=2, good=2)
# A text with much in it.
RICH = """; comment \u00e9
[global]
ioengine=memory
bs=4k ; block
[one \u2713]
rw=randrw
bssplit=4k/50:8k/:16k/20
size=1m
verify=md5
[two]
stonewall
rw=write
size=64k
filename=f
verify=pattern
verify_pattern=0xabc
"""


class Place:
    """A folder of a check's own, in which the program is run."""

    def __init__(self, program, path):
        self.program, self.path = program, path

    def at(self, *names):
        return os.path.join(self.path, *names)

    def put(self, name, content):
        with open(self.at(name), "wb") as it:
            it.write(content if isinstance(content, bytes) else content.encode())
        return name

    def get(self, name):
        with open(self.at(name), "rb") as it:
            return it.read()

    def held(self):
        """All files and what is in them."""
        return {it: self.get(it) for it in sorted(os.listdir(self.path)) if os.path.isfile(self.at(it))}

    def run(self, *words, text=b"", shell="", ends="", program="", **more):
        """Runs the program (or another) on this standard input, with lines of shell before it and redirections behind it."""
        words = [program or self.program, *words]
        if shell or ends:
            words = ["bash", "-c", f'{shell}\nexec "$@" {ends}', "bash", *words]
        if isinstance(text, str):
            text = text.encode()
        if "stdin" not in more:
            more["input"] = text
        more.setdefault("stdout", subprocess.PIPE)
        more.setdefault("stderr", subprocess.PIPE)
        try:
            it = subprocess.run(words, cwd=self.path, timeout=SECONDS, check=False, **more)
        except subprocess.TimeoutExpired:
            raise Wrong(f"a run of {words} had not ended after {SECONDS} s") from None
        return Ended(it.returncode, it.stdout or b"", it.stderr or b"")

    def start(self, *words, text=b"", **more):
        """Begins a run, and doesn't wait for it."""
        more.setdefault("stdout", subprocess.PIPE)
        it = subprocess.Popen([self.program, *words], cwd=self.path, stdin=subprocess.PIPE, stderr=subprocess.PIPE, bufsize=0, **more)
        it.stdin.write(text if isinstance(text, bytes) else text.encode())
        it.stdin.close()
        it.stdin = None
        return it


def ending(child):
    """Waits for a run."""
    try:
        out, err = child.communicate(timeout=SECONDS)
    except subprocess.TimeoutExpired:
        child.kill()
        child.communicate()
        raise Wrong(f"a run had not ended after {SECONDS} s") from None
    return Ended(child.returncode, out or b"", err or b"")


def says(ended, status, out):
    """The run printed this and nothing else."""
    expect(ended == Ended(status, out.encode(), b""), "wanted", (status, out), "and got", ended)


def refuses(ended, status, fault, out=b""):
    """The run was refused by this fault and nothing else."""
    expect(ended == Ended(status, out, f"fiorun: {fault}\n".encode()), "wanted", (status, fault), "and got", ended)


def named(ended, faults, what=""):
    """The run printed something and ended with 0, or it was refused with 2 by one of these faults (a pattern)."""
    if ended.status == 0:
        expect(ended.out and not ended.err, what, "status 0 and", ended)
        return
    said = ended.err.decode(errors="replace")
    is_right = ended.status == 2 and not ended.out and re.fullmatch(f"fiorun: (?:{faults})\n", said)
    expect(is_right, what, "neither a plan nor a fault by name:", ended)


def totals(ended):
    """The counts of each line of a report, added up, and how many miscompares it names. The report has to be whole."""
    lines = ended.out.decode().splitlines()
    expect(ended.out.endswith(b"\n") and not ended.err, "no report:", ended)
    sums, bad = dict.fromkeys(FIELDS, 0), 0
    for it in lines:
        if it.startswith("miscompare: "):
            bad += 1
            continue
        counts = re.fullmatch(r"\S+: clone=\d+ " + " ".join(rf"{it}=(\d+)" for it in FIELDS), it)
        expect(counts, "not a line of a report:", it)
        for field, count in zip(FIELDS, counts.groups()):
            sums[field] += int(count)
    expect(sums["checks"] == sums["good"] + sums["bad"], "checks aren't good and bad ones:", sums)
    expect(bad == sums["bad"], "bad blocks without a line, or lines without one:", bad, sums)
    expect(ended.status == (1 if sums["bad"] or sums["faults"] else 0), "the status isn't that of the report:", ended)
    return sums


def traced(place, job, ended):
    """Checks that the trace of a run is a legal one that says what its report says, and gives the counts of that."""
    sums = totals(ended)
    lines = [it for it in ended.out.splitlines(True) if not it.startswith(b"miscompare: ")]
    checked = place.run("--check-trace=trace", text=job)
    expect(checked == Ended(0, b"".join(lines), b""), "the trace says", checked, "and the report", ended)
    return sums
