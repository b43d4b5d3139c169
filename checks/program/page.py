"""The page of a run and its report, over random jobs.

TRIALS jobs are tried, 60 where none is given: most run over nothing, so that most of what is checked is bad; every fourth runs over a file
of which some bytes are changed from outside, between the writes and their checks. Of each page: its title, rows and counts are those of the
report, and the bad cells of its maps are those that the report's miscompares are over, each with the first of them. No cell is void where
no verdict was. Then: what is escaped, the trace of a run with a void verdict, a run that was stopped, and one with 100,000 miscompares.
Each page is HTML whose elements are closed, its pictures are XML, and it fetches nothing. No browser is needed.
"""

import os
import random
import re
import subprocess

from support.case import Case
from support.changed import run_changed
from support.pages import read_page
from support.program import FIELDS, expect, trials
from support.random_jobs import RACED, RACED_TRACE, random_jobs

SECONDS = 120
BAD = re.compile(r"(?:miscompare|badread): clone=(\d+) pass=(\d+) number=(\d+) file=(.*) offset=(\d+) length=(\d+) what=(\w+)(?::(\d+))?")
WORDS = ("miscompare: ", "badread: ")
SIZE = re.compile(r"(\d+) bytes, (\d+) a cell")


def status_of(clones, is_interrupted=False):
    """What the title begins with, by the report's lines."""
    count = {it: sum(clone[it] for clone in clones) for it in ("checks", "bad", "faults")}
    said = []
    if count["bad"]:
        said.append(f"BAD: {count['bad']} of {count['checks']} checks")
    if count["faults"]:
        said.append(f"FAULTS: {count['faults']}")
    if is_interrupted:
        said.append("INTERRUPTED" if said else f"INTERRUPTED: {count['checks']} checks, none bad")
    return ", ".join(said) or (f"GOOD: {count['checks']} checks" if count["checks"] else "NOTHING CHECKED")


def compare(page, report, interval, is_interrupted=False):
    """Ends the check where the page isn't that of the report."""
    lines = report.splitlines()
    bads = [BAD.fullmatch(it).groups() for it in lines if it.startswith(WORDS)]
    rows = [it.rsplit(": clone=", 1) for it in lines if not it.startswith(WORDS)]
    clones = [(job, rest.split()[0], [it.split("=")[1] for it in rest.split()[1:]]) for job, rest in rows]
    wanted = [[job, number, *counts] for job, number, counts in clones]
    expect(page.rows["totals"][1:] == wanted, "totals", page.rows["totals"][1:], "and not", wanted)
    counted = [dict(zip(FIELDS, map(int, counts))) for _, _, counts in clones]
    expect(page.head == status_of(counted, is_interrupted), "title", page.head, "and not", status_of(counted, is_interrupted))
    wanted = [[*it[:6], it[6] + (f":{it[7]}" if it[7] else "")] for it in bads]
    # (the last cell says what stands there: checks/program/findings.py)
    expect([it[:-1] for it in page.rows.get("miscompares", [[]])[1:]] == wanted[:1000], "the rows of miscompares differ")
    signs = {sign for _, cells in page.maps for sign, *_ in cells}
    expect("#v" not in signs or any(it["void"] for it in counted), "cells are void, and no verdict is")
    more = f"and {len(bads) - 1000} more"
    expect((more in page.texts) == (len(bads) > 1000), "not said:", more)
    for name, cells in page.maps:
        compare_map(name, cells, page.texts, [it for it in bads if it[3] == name], interval)


def compare_map(name, cells, texts, bads, interval):
    """Ends the check where the bad cells of a file's map aren't those of its miscompares."""
    end, size = map(int, SIZE.fullmatch(texts[texts.index(name) + 1]).groups())
    firsts = {}
    for clone, draw, number, _, offset, length, what, at in bads:
        first, count = int(offset), int(length)
        if at and what != "byte":
            first, count = first + interval * int(at), interval
        said = f" clone={clone} pass={draw} number={number} offset={offset} length={length} what={what}" + (f":{at}" if at else "")
        for cell in range(first // size, (first + count - 1) // size + 1):
            firsts.setdefault(cell, said)
    expect(len(cells) == -(-end // size) and len(cells) <= 2048, name, "has", len(cells), "cells of", size)
    for at, (sign, x, y, tip) in enumerate(cells):
        expect((x, y) == (at % 64 * 10, at // 64 * 10), "cell", at, "stands at", x, y)
        expect(tip.startswith(f"bytes {at * size} to {min(end, at * size + size) - 1}: "), "cell", at, "says", tip)
        expect((sign == "#B") == (at in firsts), name, "cell", at, "is", sign)
        expect(at not in firsts or tip.endswith(f": bad:{firsts[at]}"), "cell", at, "says", tip, "and not", firsts.get(at))


def run(place, text, words=(), **how):
    """Runs a job text; what it ended with, its report and the path of its page."""
    path = place.at("page.html")
    how = {"input": text.encode(), "capture_output": True, "timeout": SECONDS, "cwd": place.path, "check": False, **how}
    ended = subprocess.run([place.program, f"--page={path}", *words], **how)
    return ended.returncode, ended.stdout.decode(), ended.stderr.decode(), path


def over_nothing(place, rng):
    """A random job over nothing."""
    text, interval = random_jobs(rng)
    status, report, said, path = run(place, text, [f"--workers={rng.randrange(1, 5)}"])
    expect(status in (0, 1) and not said, "status", status, said)
    compare(read_page(path)[0], report, interval)


def changed(place, rng):
    """A random job over a file of which some bytes are changed between the writes and their checks."""
    size, count = rng.choice([512, 1024, 4096]), rng.randrange(4, 200)
    places = {rng.randrange(size * count) for _ in range(rng.randrange(1, 12))}
    text = f"[w]\nfilename=f\nrw={rng.choice(['write', 'randwrite'])}\nbs={size}\nsize={size * count}\nverify=md5\n"
    with open(place.at("job"), "w", encoding="utf-8") as it:
        it.write(text)
    path = place.at("page.html")
    report = run_changed(place, "job", "f", places, [f"--page={path}"])
    page = read_page(path)[0]
    compare(page, report, None)
    wanted = len({it // size for it in places})
    expect(page.head == f"BAD: {wanted} of {count} checks", "changed", len(places), "bytes:", page.head)


class Pages(Case):
    """Whether pages are those of their reports."""

    def test_random_pages(self):
        """Pages of random jobs are those of their reports."""
        place = self.place
        rng = random.Random(47)
        for number in range(trials(60)):
            with self.subTest(part=number):
                (changed if number % 4 == 3 else over_nothing)(place, rng)

    def test_escaped(self):
        """What is of a job file stands in the page as the text that it is."""
        place = self.place
        job, name = "<script>alert(1)</script>&\"'\x01\x7f\u0085ü", "a<b>&\"'.img"
        text = f"[{job}]\nioengine=null\nfilename={name}\nrw=write\nsize=8k\nbs=4k\nverify=md5\n"
        status, _, said, path = run(place, text)
        expect(status == 1 and not said, "status", status, said)
        page, _ = read_page(path)
        shown = re.sub("[\x01\x7f\u0085]", lambda it: f"\\u{{{ord(it[0]):x}}}", job)
        expect(page.rows["totals"][1][0] == shown and page.rows["plan"][1][0] == shown, "the job is called", page.rows["totals"][1][0])
        expect(page.maps[0][0] == name and page.rows["miscompares"][1][3] == name, "the file is called", page.maps[0][0])
        expect("script" not in page.tags, "a job's name is an element")

    def test_raced(self):
        """Where a check raced a cell is void, also where a good verdict was given there, and the totals say how many."""
        place = self.place
        with open(place.at("trace"), "w", encoding="ascii") as it:
            it.write(RACED_TRACE)
        status, _, said, path = run(place, RACED, ["--check-trace=trace"])
        expect(status == 0 and not said, "status", status, said)
        page, _ = read_page(path)
        cells = page.maps[0][1]
        signs = "".join(sign.removeprefix("#") for sign, *_ in cells)
        expect(signs == "v" * 8 + "B" * 8, "the cells are", signs)
        expect(cells[0][3] == "bytes 0 to 511: void", "the first cell says", cells[0][3])
        heads, *rows = page.rows["totals"]
        expect([it[heads.index("void")] for it in rows] == ["1", "0"], "totals", rows)
        expect(len(page.rows["miscompares"]) == 2 and "faults" not in page.rows, "rows", page.rows)
        expect(page.head == "BAD: 1 of 2 checks", "title", page.head)

    def test_stopped(self):
        """A run that was stopped before its end says so, and that its page is partial."""
        place = self.place
        ours, theirs = os.pipe()
        os.close(theirs)
        text = "[w]\nioengine=null\nrw=write\nbs=512\nsize=512m\n"
        status, report, _, path = run(place, text, [f"--stop-fd={ours}"], pass_fds=[ours])
        os.close(ours)
        expect(status == 130, "status", status)
        page, _ = read_page(path)
        compare(page, report, None, True)
        expect(any("partial" in it for it in page.texts), "not said to be partial")

    def test_many(self):
        """Of 100,000 miscompares 1,000 have a row, and the page has less than a megabyte."""
        place = self.place
        text = "[w]\nioengine=null\nfilename=f\nrw=randwrite\nbs=512\nsize=51200000\nverify=md5\n"
        status, report, _, path = run(place, text)
        expect(status == 1, "status", status)
        page, size = read_page(path)
        compare(page, report, None)
        expect(len(page.rows["miscompares"]) == 1001 and size < 1000000, len(page.rows["miscompares"]), "rows and", size, "bytes")
