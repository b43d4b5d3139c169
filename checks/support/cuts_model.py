"""What checks/program/cuts.py expects: what is told of files after a cut, worked out from the bytes of a job's writes, the lines of a ledger and
the bytes of the files; and what the account of checks/support/volatile.c says of a run. Nothing of it is the program's."""

import re
import struct
from collections import defaultdict
from typing import NamedTuple

SECTOR = 512
HEADER = struct.Struct("<4sBBHIIQQ32s")
RECORDED = struct.Struct("<QQQ")
PLANNED = re.compile(
    r"(?P<job>\S+): clone=(?P<clone>\d+) phase=\d+ file=(?P<file>\S+) start=(?P<start>\d+) size=(?P<size>\d+) cell=(?P<cell>\d+) "
    r"cells=\d+ rw=(?P<rw>\w+) iodepth=\d+ loops=\d+ verify=\w+\n"
)


class Write(NamedTuple):
    """A write that a run asked for: its clone, pass and number, as its first header says, and what it put where."""

    name: tuple
    file: int
    offset: int
    content: bytes

    def end(self):
        return self.offset + len(self.content)

    def part(self, offset, length):
        return self.content[offset - self.offset :][:length]


def writes_in(record):
    """The writes of a record (RECORD of checks/support/volatile.c), in their order."""
    found, at = [], 0
    while at < len(record):
        file, offset, length = RECORDED.unpack_from(record, at)
        at += RECORDED.size
        content = record[at : at + length]
        at += length
        _, _, _, in_pass, _, clone, _, number, _ = HEADER.unpack_from(content)
        found.append(Write((clone, in_pass, number), file, offset, content))
    return found


class Plan:
    """The clones of a plan, as --parse-only prints them, and how long the chunks of each job are (0: one for a block)."""

    def __init__(self, text, intervals):
        self.clones = [it.groupdict() for it in PLANNED.finditer(text)]
        self.files = list(dict.fromkeys(it["file"] for it in self.clones))
        self.lengths = [intervals[it["job"]] or int(it["cell"]) for it in self.clones]

    def chunks(self, file):
        """The chunks of a file that a clone may write, by their places."""
        found = set()
        for clone, length in zip(self.clones, self.lengths):
            if clone["file"] == self.files[file] and "read" != clone["rw"].removeprefix("rand"):
                start = int(clone["start"])
                found |= {(it, length) for it in range(start, start + int(clone["size"]) - length + 1, length)}
        return sorted(found)


class Ledger:
    """What the lines of a ledger (without its first one) say."""

    def __init__(self, lines):
        self.lines = [(it[0], *map(int, it[2:].split(" "))) for it in lines]
        self.places = {}
        for place, (tag, *numbers) in enumerate(self.lines):
            if tag == "w":
                self.places.setdefault(tuple(numbers), place)

    def kept_lines(self, file):
        """How many lines are above the last begin of a sync of the file that returned below."""
        returned = set()
        for place in reversed(range(len(self.lines))):
            tag, *numbers = self.lines[place]
            if tag == "s":
                returned.add(tuple(numbers))
            elif tag == "b" and numbers[0] == file and tuple(numbers) in returned:
                return place
        return 0


def lines_of(ledger):
    """The whole lines of a ledger's text after the first."""
    return ledger[: ledger.rfind(b"\n") + 1].decode().split("\n")[1:-1]


class Judge:
    """What is told of the files of a plan, by all of its writes."""

    def __init__(self, plan, writes):
        self.plan = plan
        self.over = defaultdict(list)
        for write in sorted(writes):
            length = plan.lengths[write.name[0]]
            for offset in range(write.offset, write.end(), length):
                self.over[write.file, offset, length].append(write)

    def finding(self, ledger, kept_lines, file, chunk, found):
        """The word for the bytes of a chunk, with the write that is kept and the one that is found."""
        offset, length = chunk
        over = self.over[file, offset, length]
        kept = [(place, it) for it in over if (place := ledger.places.get(it.name, kept_lines)) < kept_lines]
        if not kept:
            return "open", None, None
        last, write = max(kept)
        may = [it for it in over if ledger.places.get(it.name, last) >= last]
        if any(it.part(offset, length) == found for it in may):
            return "kept", write, None
        for it in over:
            if it.part(offset, length) == found:
                return "lost", write, it
        for at in range(offset, offset + length, SECTOR):
            sector = found[at - offset :][:SECTOR]
            if not any(it.part(at, SECTOR) == sector for it in may):
                return "broken", write, None
        return "torn", write, None

    def findings(self, ledger, images):
        """For each file its chunks, each with its finding: none for one that can't be read, since the file is shorter."""
        for file, image in enumerate(images):
            kept_lines = ledger.kept_lines(file)
            for chunk in self.plan.chunks(file):
                found = image[chunk[0] :][: chunk[1]]
                is_whole = len(found) == chunk[1]
                yield file, chunk, self.finding(ledger, kept_lines, file, chunk, found) if is_whole else None

    def told(self, ledger, images):
        """The report and the status."""
        counts = [dict.fromkeys(("kept", "lost", "broken", "torn", "open"), 0) for _ in images]
        lines, unread = [], []
        for file, (offset, length), finding in self.findings(ledger, images):
            place = f" file={self.plan.files[file]} offset={offset} length={length}"
            if finding is None:
                unread.append(f"fault:{place}\n")
                continue
            word, kept, found = finding
            counts[file][word] += 1
            if word in ("lost", "broken", "torn"):
                by = f" found={name_of(found)}" if found else ""
                lines.append(f"{word}:{place} kept={name_of(kept)}{by}\n")
        rows = ["".join(f" {word}={number}" for word, number in them.items()) for them in counts]
        totals = [f"file={name}{row}\n" for name, row in zip(self.plan.files, rows)]
        is_wrong = bool(unread) or any(them["lost"] or them["broken"] for them in counts)
        return "".join(totals + lines + unread), int(is_wrong)


def name_of(write):
    return "/".join(map(str, write.name))


class Account:
    """What the account of a run says (ACCOUNT of checks/support/volatile.c), with the names of its writes by their record."""

    def __init__(self, text, record):
        self.events = [it.split(" ") for it in text.decode(errors="replace").splitlines()]
        self.writes = writes_in(record)
        self.image = {(int(it[1]), int(it[2])): int(it[3]) for it in self.events if it[0] == "image"}
        self.lies = [it[1:] for it in self.events if it[0] == "lie"]
        self.calls = next((int(it[1]) for it in self.events if it[0] == "calls"), None)
        self.how = next((it[1] for it in self.events if it[0] == "cut"), None)

    def seqs(self):
        """Each write's number in the account, by its name."""
        return {it.name: seq for seq, it in enumerate(self.writes, 1)}

    def gone(self, plan, ledger):
        """The chunks of which a part is older than the last write that the ledger says is kept, or is of no write."""
        seqs, found = self.seqs(), set()
        wanted = defaultdict(int)
        for file in range(len(plan.files)):
            kept_lines = ledger.kept_lines(file)
            for name, place in ledger.places.items():
                if place >= kept_lines or name not in seqs:
                    continue
                write = self.writes[seqs[name] - 1]
                if write.file != file:
                    continue
                length = plan.lengths[name[0]]
                for offset in range(write.offset, write.end(), length):
                    key = file, offset, length
                    wanted[key] = max(wanted[key], seqs[name])
        for (file, offset, length), seq in wanted.items():
            sectors = range(offset // SECTOR, (offset + length) // SECTOR)
            if any(self.image.get((file, it), 0) < seq for it in sectors):
                found.add((file, offset))
        return found

    def broken_order(self, are_slow):
        """Lines that are out of order: that of a write that hadn't ended, or after that of a later write over its bytes; where all writes are
        slow, one over whose bytes another was asked for; a sync's line that isn't right before the sync was asked for, or one of its return
        before it returned well."""
        seqs, ended, asked, noted, returned, begun = self.seqs(), set(), Spans(self.writes), Spans(self.writes), {}, {}
        last = {}
        for tag, *rest in self.events:
            if tag == "write":
                seq, thread = map(int, rest[:2])
                asked.add(seq)
                last[thread] = "write"
            elif tag == "wrote":
                ended.add(int(rest[0]))
            elif tag == "sync":
                number, thread, file = map(int, rest[:3])
                if isinstance(last.get(thread), tuple):
                    begun[last[thread]] = number
                    if last[thread][0] != file:
                        yield f"line b {last[thread]} before a sync of file {file}"
                last[thread] = "sync"
            elif tag == "synced":
                returned[int(rest[0])] = True
            elif tag == "note" and rest[1] == "w":
                seq = seqs.get(tuple(map(int, rest[2:5])))
                if seq not in ended:
                    yield f"line w {rest[2:5]} of a write that hadn't ended"
                elif noted.is_over(seq):
                    yield f"line w {rest[2:5]}, after that of a later write over it"
                elif are_slow and asked.is_over(seq):
                    yield f"line w {rest[2:5]}, and another write was asked for over it"
                else:
                    noted.add(seq)
            elif tag == "note" and rest[1] == "b":
                last[int(rest[0])] = (int(rest[2]), int(rest[3]))
            elif tag == "note" and rest[1] == "s":
                sync = begun.get((int(rest[2]), int(rest[3])))
                if not returned.get(sync):
                    yield f"line s {rest[2:4]} of a sync that hadn't returned"

    def late_lines(self):
        """The writes whose threads asked for another before their lines were there."""
        without = {}
        for tag, *rest in self.events:
            if tag == "wrote":
                without[int(rest[1])] = int(rest[0])
            elif tag == "note" and rest[1] == "w":
                without.pop(int(rest[0]), None)
            elif tag == "write" and int(rest[1]) in without:
                yield without.pop(int(rest[1]))

    def waiting_lines(self):
        """After each thing that happened, what that was and how many writes have ended whose lines aren't there."""
        seqs, waiting = self.seqs(), set()
        for tag, *rest in self.events:
            if tag == "wrote":
                waiting.add(int(rest[0]))
            elif tag == "note" and rest[1] == "w":
                waiting.discard(seqs.get(tuple(map(int, rest[2:5]))))
            yield tag, len(waiting)

    def syncs_of(self, file):
        """How many writes of the file had ended before each sync of it was asked for."""
        ended, files = 0, {seq: it.file for seq, it in enumerate(self.writes, 1)}
        for tag, *rest in self.events:
            if tag == "wrote" and files[int(rest[0])] == file:
                ended += 1
            elif tag == "sync" and int(rest[2]) == file:
                yield ended

    def beside_failed(self):
        """How many syncs were under way while one was that failed, and returned well."""
        asked, ended = {}, {"synced": {}, "failed": {}}
        for place, (tag, *rest) in enumerate(self.events):
            if tag == "sync":
                asked[rest[0]] = place
            elif tag in ended:
                ended[tag][rest[0]] = place
        well, failed = ended["synced"].items(), ended["failed"].items()
        return sum(asked[one] < end and asked[other] < place for one, place in well for other, end in failed)

    def noted(self):
        """The lines of the ledger in the account."""
        return [" ".join(it[2:]) for it in self.events if it[0] == "note" and it[2] != "fiorun"]


class Spans:
    """Which of these writes was the last over each sector."""

    def __init__(self, writes):
        self.writes, self.last = writes, {}

    def sectors(self, seq):
        it = self.writes[seq - 1]
        return ((it.file, sector) for sector in range(it.offset // SECTOR, it.end() // SECTOR))

    def add(self, seq):
        for it in self.sectors(seq):
            self.last[it] = seq

    def is_over(self, seq):
        return any(self.last.get(it, 0) > seq for it in self.sectors(seq))
