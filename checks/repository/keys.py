"""The tables of docs/USING.md of what is refused and what to write instead, and those of the program.

The program's stand in crates/jr_job_keys/src/keys.rt: the tables KEYS of the keys that aren't read, and VALUES of the values that aren't.
Where USING has others, they are printed as they have to stand there. No note grows past 220 characters, no word is spoken of twice,
KEYS has no key that is read, and READ has those that are.
"""

import os
import re
import unittest

from support.program import TOP, Wrong, expect

LONGEST = 220
TEXT = r'"((?:[^"\\]|\\.)*)"'
WAY = r"Way::\w+(?:\([^()]*\))?"
ROW = re.compile(rf"\(\s*{TEXT},\s*{TEXT},\s*{TEXT},\s*(DROPPED|Fate::\w+)(?:\(\s*(?:{WAY})?(?:,\s*)?(?:{TEXT})?,?\s*\))?,?\s*\)")
HEADS = {"KEYS": "| Key | Why | Write instead | Adapted |", "VALUES": "| Value | Why | Write instead | Adapted |"}
FATES = {
    "DROPPED": "dropped",
    "Fate::Dropped": "dropped",
    "Fate::Same": "the same",
    "Fate::Nearly": "nearly, but for {}",
    "Fate::Yours": "yours to decide: {}",
}


def source(crate, name):
    with open(os.path.join(TOP, "crates", crate, "src", name)) as file:
        return file.read()


def table(text, name):
    """The rows of a table: words, why, instead, and what becomes of it in an adapted job file."""
    found = re.findall(rf"static \w+_{name}: \[[^;]*; (\d+)\] = \[\n(.*?)\n\];", text, re.S)
    joined = re.sub(r"\\\n\s*", "", "\n".join(body for _, body in found))
    rows = [tuple(re.sub(r"\\(.)", r"\1", it) for it in row) for row in ROW.findall(joined)]
    count = sum(int(count) for count, _ in found)
    if len(rows) != count:
        raise Wrong(f"the tables of {name} have {count} rows, and {len(rows)} can be read")
    return [(words, why, instead, FATES[fate].format(lost)) for words, why, instead, fate, lost in rows]


def markdown(name, rows):
    lines = [HEADS[name], "|-|-|-|-|"]
    for words, why, instead, fate in rows:
        lines.append(f"| {', '.join(f'`{word}`' for word in words.split())} | {why} | {instead} | {fate} |")
    return lines


def printed(name, lines):
    """The table of this heading in a document."""
    if HEADS[name] not in lines:
        return []
    start = lines.index(HEADS[name])
    end = start
    while end < len(lines) and lines[end].startswith("|"):
        end += 1
    return lines[start:end]


def faults_of(name, rows, known):
    seen = set()
    for words, why, instead, fate in rows:
        for word in words.split():
            if word in seen:
                yield f"{name}: {word} is spoken of twice"
            seen.add(word)
            key = word.split("=")[0]
            if name == "KEYS" and key in known:
                yield f"{name}: {key} is read"
            shown = max(known, key=len) if "*" in key and name == "VALUES" else key
            note = f"line 99999: {shown}: {why}; instead: {instead} ({fate})"
            if len(note) > LONGEST:
                yield f"{name}: {len(note)} characters: {note}"


class Keys(unittest.TestCase):
    """Whether the tables of what is refused are the program's."""

    def setUp(self):
        self.source = source("jr_job_keys", "keys.rt")
        self.known = re.findall(r'\("(\w+)", Key::', source("jr_job_options", "words.rt"))
        self.tables = {name: table(self.source, name) for name in HEADS}
        self.said = f"{sum(map(len, self.tables.values()))} rows"

    def test_rows_are_as_they_must_be(self):
        faults = [it for name, rows in self.tables.items() for it in faults_of(name, rows, self.known)]
        expect(not faults, "; ".join(faults))

    def test_read_has_the_keys_that_are_read(self):
        read = re.findall(r'"(\w+)"', re.search(r"static READ: .*?\n\];", self.source, re.S)[0])
        expect(read == self.known, "READ hasn't the keys that are read, in their order")

    def test_using_has_the_rows(self):
        with open(os.path.join(TOP, "docs", "USING.md"), encoding="utf-8") as file:
            using = file.read().splitlines()
        faults = []
        print("\n\n".join("\n".join(markdown(*it)) for it in self.tables.items()))
        for name, rows in self.tables.items():
            wanted, found = markdown(name, rows), printed(name, using)
            faults += [f"docs/USING.md lacks, of {name}: {it}" for it in wanted if it not in found]
            faults += [f"docs/USING.md has, and {name} hasn't: {it}" for it in found if it not in wanted]
            if sorted(wanted) == sorted(found) and wanted != found:
                faults.append(f"docs/USING.md has the rows of {name} in another order")
        expect(not faults, "; ".join(faults))
