"""Judgements after a cut: files and ledgers are made here, and so is what must be found in them.

Random files with ledgers are judged, 150 where TRIALS says no other number. Their bytes are made here from docs/FORMATS.md, with the digests
of hashlib, and what must be found follows from which write each chunk, and each 512 bytes of it, was made by: the report, the JSON, the list
of bad blocks and the status must say exactly that. Then a run keeps a ledger itself: what it wrote is kept, whatever of the ledger's end is
cut off, and files that end too soon, that aren't there or that another run has locked are told of. No judgement may change a file. The
page of each has the rows and counts of its JSON.
"""

import fcntl
import hashlib
import json
import os
import random
import resource
import struct

from support.case import Case
from support.pages import read_page
from support.program import as_nobody, expect, trials

SECTOR = 512
KINDS = {"md5": 1, "sha1": 2, "sha256": 3}


def block_of(kind, pattern, write, offset, size, interval):
    """All bytes of a write (its pass and number, of clone 0) of a job with a pattern."""
    length = interval or size
    whole = b""
    for start in range(0, size, length):
        area = (pattern * (length // len(pattern) + 1))[: length - 64]
        digest = hashlib.new(kind, area).digest()
        front = struct.pack(
            "<4sBBHIIQQ", b"JRV2" if interval else b"JRV1", KINDS[kind], len(digest), write[0], length, 0, offset + start, write[1]
        )
        whole += front + digest.ljust(32, b"\0") + area
    return whole


class Job:
    """A job that writes its blocks in a row, again and again, and the bytes of its writes."""

    def __init__(self, rng):
        self.kind = rng.choice(list(KINDS))
        self.pattern = rng.randbytes(rng.randrange(1, 9))
        self.size = rng.choice([512, 1024, 4096, 16384])
        self.interval = rng.choice([it for it in (0, 0, 512, 1024) if not it or self.size % it == 0])
        self.length = self.interval or self.size
        self.start = SECTOR * rng.randrange(40)
        self.cells = rng.randrange(1, 12)
        self.passes = rng.randrange(1, 5)
        self.end = self.start + self.cells * self.size

    def text(self):
        lines = ["[w]", "filename=data", "rw=write", f"bs={self.size}", f"offset={self.start}", f"size={self.cells * self.size}"]
        lines += [f"loops={self.passes}", f"verify={self.kind}", f"verify_pattern=0x{self.pattern.hex()}"]
        return "\n".join(lines + [f"verify_interval={self.interval}"] * bool(self.interval)) + "\n"

    def chunk(self, write, offset):
        """The bytes of a chunk that one of its writes makes."""
        number = write[1]
        place = self.start + number * self.size
        block = block_of(self.kind, self.pattern, write, place, self.size, self.interval)
        return block[offset - place : offset - place + self.length]


def random_ledger(rng, job):
    """The lines of a run that may have been cut anywhere, and those of them up to the last sync that returned well."""
    lines, syncs, flying = [], 0, None
    kept = 0
    for pass_number in range(job.passes):
        for number in range(job.cells):
            if flying is not None and rng.randrange(3) == 0:
                if rng.randrange(4):
                    lines.append(("s", flying[0]))
                    kept = max(kept, flying[1])
                flying = None
            if flying is None and rng.randrange(5) == 0:
                flying = (syncs, len(lines))
                lines.append(("b", syncs))
                syncs += 1
            if rng.randrange(12):
                lines.append(("w", (pass_number, number)))
            if rng.randrange(60) == 0:
                return lines, kept
    return lines, kept


def ledger_text(head, lines):
    text = head
    for word, what in lines:
        text += f"w 0 {what[0]} {what[1]}\n" if word == "w" else f"{word} 0 {what}\n"
    return text


def finding(job, lines, kept, offset, parts):
    """What must be found in a chunk of which each 512 bytes are of these writes (None: of nobody)."""
    number = (offset - job.start) // job.size
    places = {what: place for place, (word, what) in enumerate(lines) if word == "w"}
    over = [(pass_number, number) for pass_number in range(job.passes)]
    done = [places[it] for it in over if places.get(it, kept) < kept]
    if not done:
        return "open", None, None
    last = lines[max(done)][1]
    may_stand = {it for it in over if it not in places or places[it] >= max(done)}
    wholes = set.intersection(*parts)
    if wholes & may_stand:
        return "kept", last, None
    if wholes:
        return "lost", last, min(wholes)
    return ("torn" if all(it & may_stand for it in parts) else "broken"), last, None


def random_file(rng, job):
    """A file after a cut: its bytes, and of each chunk of which writes each 512 bytes of it are."""
    data = bytearray(rng.randbytes(job.start)) + bytearray(job.end - job.start)
    chunks = {}
    for offset in range(job.start, job.end, job.length):
        number = (offset - job.start) // job.size
        made = {(it, number): job.chunk((it, number), offset) for it in range(job.passes)}
        way = rng.randrange(8)
        if way < 5:
            there = rng.choice(list(made.values()))
        elif way == 5:
            there = rng.choice([rng.randbytes(job.length), bytes(job.length)])
        else:
            there = b"".join(rng.choice(list(made.values()))[it : it + SECTOR] for it in range(0, job.length, SECTOR))
            if way == 7:
                place = rng.randrange(job.length)
                there = there[:place] + bytes([there[place] ^ 1]) + there[place + 1 :]
        data[offset : offset + job.length] = there
        sectors = range(0, job.length, SECTOR)
        chunks[offset] = [{it for it, block in made.items() if block[at : at + SECTOR] == there[at : at + SECTOR]} for at in sectors]
    return bytes(data), chunks


def named(write):
    return f"0/{write[0]}/{write[1]}"


def as_json(write):
    return write and {"clone": 0, "pass": write[0], "number": write[1]}


def run(place, *words, **how):
    """How a run ends, and what it prints, as text."""
    ended = place.run(*words, **how)
    return ended.status, ended.out.decode(), ended.err.decode()


def judged(place, number):
    """Judges a random file by a random ledger."""
    rng = random.Random(number)
    job = Job(rng)
    place.put("job", job.text())
    status, _, said = run(place, "--ledger=first", "job")
    expect(status == 0, "a run with a ledger", job.text(), status, said)
    head = place.get("first").decode().split("\n")[0] + "\n"
    expect(place.get("data")[job.start :] == room_of(job), "what the run wrote", job.text())
    lines, kept = random_ledger(rng, job)
    data, chunks = random_file(rng, job)
    place.put("data", data)
    place.put("ledger", ledger_text(head, lines) + rng.choice(["", "w 0 0", "b"]))
    size = rng.choice([1024, 2048, 4096])
    outputs = ["--json=json", "--page=page", "--bad-blocks=blocks", f"--bad-blocks-size={size}"]
    status, out, said = run(place, "--after=ledger", *outputs, "--notes", "job")
    found = {offset: finding(job, lines, kept, offset, parts) for offset, parts in chunks.items()}
    counts = {word: sum(it[0] == word for it in found.values()) for word in ("kept", "lost", "broken", "torn", "open")}
    report = "file=data " + " ".join(f"{word}={count}" for word, count in counts.items()) + "\n"
    rows, blocks = [], set()
    for offset, (word, last, other) in sorted(found.items()):
        if word in ("lost", "torn", "broken"):
            behind = f" found={named(other)}" if other else ""
            report += f"{word}: file=data offset={offset} length={job.length} kept={named(last)}{behind}\n"
            at = {"file": "data", "offset": offset, "length": job.length, "word": word}
            rows.append({**at, "kept": as_json(last), "found": as_json(other)})
        if word in ("lost", "broken"):
            blocks |= set(range(offset // size, (offset + job.length - 1) // size + 1))
    wrong = int(counts["lost"] + counts["broken"] > 0)
    expect(out == report, "the report", job.text(), ledger_text(head, lines), "is", out, "and must be", report)
    expect(status == wrong, "the status", status, wrong, said)
    expect(place.get("blocks").decode() == "".join(f"{it}\n" for it in sorted(blocks)), "the list", place.get("blocks"), blocks)
    told = json.loads(place.get("json"))
    expect(told["after"] == rows and told["unread"] == [] and told["status"] == wrong, "the JSON", told, rows)
    expect(told["files"] == [{"name": "data", **counts, "unread": 0}], "the files of the JSON", told["files"], counts)
    compare_page(place.at("page"), told, place.get("job").decode())
    expect(place.get("data") == data, "the file is changed")
    left = sorted(os.listdir(place.path))
    expect(left == ["blocks", "data", "first", "job", "json", "ledger", "page"], "what is left", left)


def rows_of(all_of, words):
    """The rows of a page that have these words of each."""
    return [[str(one[word]) for word in words] for one in all_of]


def write_cell(write):
    return f"{write['clone']}/{write['pass']}/{write['number']}" if write else ""


def compare_page(path, told, text):
    """Ends the check where the page isn't that of the judgement whose JSON this is, of this job text."""
    page, _ = read_page(path)
    counts = {word: sum(it[word] for it in told["files"]) for word in ("kept", "lost", "broken", "torn", "unread")}
    word = "GOOD" if counts["kept"] + counts["torn"] else "NOTHING PROMISED"
    word = "BAD" if counts["lost"] + counts["broken"] else "FAULTS" if counts["unread"] else word
    head = f"{word}: " + ", ".join(f"{count} {it}" for it, count in counts.items())
    expect(page.head == head, "title", page.head, "and not", head)
    rows = {kind: page.rows.get(kind, [[]])[1:] for kind in ("totals", "chunks", "unread", "files")}
    wanted = rows_of(told["files"], ("name", "kept", "lost", "broken", "torn", "open", "unread"))
    expect(rows["totals"] == wanted, "totals", rows["totals"], wanted)
    chunks = rows_of(told["after"], ("word", "file", "offset", "length"))
    chunks = [[*row, write_cell(one["kept"]), write_cell(one["found"])] for row, one in zip(chunks, told["after"])]
    expect(rows["chunks"] == chunks[:1000], "chunks", rows["chunks"], chunks)
    unread = rows_of(told["unread"], ("file", "offset", "length"))
    expect(rows["unread"] == unread[:1000], "what can't be read", rows["unread"], unread)
    more = [f"and {len(it) - 1000} more" for it in (chunks, unread) if len(it) > 1000]
    expect([it for it in page.texts if it.startswith("and ")] == more, "not said:", more, page.texts)
    expect(len(page.rows["plan"]) > 1 and page.job == text + "\n", "the plan and the job", page.rows["plan"], page.job)
    expect([it[0] for it in rows["files"]] == [it["name"] for it in told["files"]], "the files", rows["files"])


def room_of(job):
    """What the job's region holds after a whole run."""
    last = job.passes - 1
    numbers = range(job.cells)
    places = [(number, job.start + number * job.size) for number in numbers]
    return b"".join(block_of(job.kind, job.pattern, (last, number), place, job.size, job.interval) for number, place in places)


def own_ledger(place):
    """What a run wrote is kept by its own ledger, whatever of the ledger's end is missing."""
    place.put("job", "[w]\nfilename=data\nrw=randrw\nbs=4k\nsize=400k\nloops=3\nnorandommap=1\nverify=sha1\niodepth=8\n")
    status, _, said = run(place, "--workers=4", "--ledger=ledger", "--sync-every=20", "job")
    expect(status == 0, "a run with a ledger", status, said)
    text = place.get("ledger")
    for cut in [len(text), len(text) - 1, len(text) // 2, text.index(b"\n") + 1]:
        place.put("ledger", text[:cut])
        status, out, said = run(place, "--after=ledger", "job")
        expect(status == 0 and out.count("\n") == 1 and " lost=0 broken=0 torn=0 " in out, "what a run wrote", cut, status, out, said)
    place.put("ledger", text[: text.index(b"\n")])
    status, out, said = run(place, "--after=ledger", "job")
    expect((status, out, said) == (2, "", "fiorun: ledger: line 1: not a ledger line\n"), "a cut first line", status, out, said)
    place.put("ledger", text.replace(b"\nw ", b"\nx ", 1))
    status, out, said = run(place, "--after=ledger", "job")
    expect(status == 2 and ": not a ledger line\n" in said, "a line that is none", status, out, said)
    place.put("ledger", text)
    place.put("other", place.get("job").replace(b"loops=3", b"loops=4"))
    status, out, said = run(place, "--after=ledger", "other")
    expect((status, out, said) == (2, "", "fiorun: ledger: of another job\n"), "another job", status, out, said)


def missing_bytes(place):
    """Files that end too soon, that aren't there, that are locked, and those that no job writes."""
    text = "[w]\nfilename=data\nrw=write\nbs=4k\nsize=16k\nverify=md5\n[r]\nfilename=read\nrw=read\nsize=4k\n"
    place.put("job", text)
    status, _, said = run(place, "--ledger=ledger", "job")
    expect(status == 0, "a run over two files", status, said)
    os.remove(place.at("read"))
    status, out, said = run(place, "--after=ledger", "job")
    expect((status, out, said) == (0, "file=data kept=4 lost=0 broken=0 torn=0 open=0\nfile=read kept=0 lost=0 broken=0 torn=0 open=0\n", ""),
           "two files", status, out, said)
    expect(not os.path.exists(place.at("read")), "a file is made that is only read")
    os.truncate(place.at("data"), 9000)
    status, out, said = run(place, "--after=ledger", "--notes", "--json=json", "--page=page", "job")
    faults = "fault: file=data offset=8192 length=4096\nfault: file=data offset=12288 length=4096\n"
    expect(status == 1 and out.endswith(faults), "a file that ends too soon", status, out)
    expect("fiorun: note: cannot read 4096 bytes of data at 8192: it ends there\n" in said, "why it can't be read", said)
    unread = [{"file": "data", "offset": it, "length": 4096} for it in (8192, 12288)]
    expect(json.loads(place.get("json"))["unread"] == unread, "what can't be read as JSON", place.get("json"))
    compare_page(place.at("page"), json.loads(place.get("json")), text)
    expect(os.path.getsize(place.at("data")) == 9000, "a file is made longer")
    with open(place.at("data"), "rb") as it:
        fcntl.flock(it, fcntl.LOCK_EX)
        status, out, said = run(place, "--after=ledger", "--notes", "job")
        notes = "fiorun: cannot open the files\nfiorun: note: data is locked by another run\n"
        expect((status, out, said) == (3, "", notes), "a file that a run writes", status, out, said)
    os.remove(place.at("data"))
    status, out, said = run(place, "--after=ledger", "--notes", "job")
    notes = "fiorun: cannot open the files\nfiorun: note: cannot open data: No such file or directory (os error 2)\n"
    expect((status, out, said) == (3, "", notes), "a file that isn't there", status, out, said)
    expect(not os.path.exists(place.at("data")), "a file is made")


def many_chunks(place):
    """Of 1,500 chunks that are broken, in a file with markup in its name, 1,000 have a row."""
    name = "a<b>&\"'.img"
    text = f"[w]\nfilename={name}\nrw=write\nbs=512\nsize=768000\nverify=md5\n"
    place.put("job", text)
    status, _, said = run(place, "--ledger=ledger", "job")
    expect(status == 0, "a run with a ledger", status, said)
    place.put("ledger", place.get("ledger").decode() + "b 0 9\ns 0 9\n")
    place.put(name, bytes(768000))
    status, _, said = run(place, "--after=ledger", "--json=json", "--page=page", "job")
    told = json.loads(place.get("json"))
    expect(status == 1 and len(told["after"]) == 1500, "zeros in place of what was written", status, said, len(told["after"]))
    compare_page(place.at("page"), told, text)


def large_file(place):
    """Of a file of 9 MiB, which takes several reads and more threads than one, exactly the chunks are told that were changed; and so they are
    by one thread, where no other may be started."""
    place.put("job", "[w]\nfilename=data\nrw=randwrite\nbs=4k\nsize=9m\nverify=md5\n")
    status, _, said = run(place, "--ledger=ledger", "job")
    expect(status == 0, "a run with a ledger", status, said)
    place.put("ledger", place.get("ledger").decode() + "b 0 9\ns 0 9\n")
    data = bytearray(place.get("data"))
    changed = sorted(random.Random(9).sample(range(len(data) // 4096), 50))
    for chunk in changed:
        data[chunk * 4096 + 64 + chunk % 4000] ^= 1
    place.put("data", bytes(data))
    status, out, said = run(place, "--after=ledger", "--json=json", "job")
    told = [(it["word"], it["offset"], it["length"]) for it in json.loads(place.get("json"))["after"]]
    expect(status == 1 and told == [("broken", it * 4096, 4096) for it in changed], "changed chunks of a large file", status, said, told)
    # (limits of threads don't bind root)
    drop = as_nobody().get("preexec_fn", lambda: None)
    alone = run(place, "--after=ledger", "job", preexec_fn=lambda: (drop(), resource.setrlimit(resource.RLIMIT_NPROC, (0, 0))))
    expect(alone == (1, out, ""), "the same where no thread may be started", alone)


class After(Case):
    """Judgements of files that were made here."""

    at_once = os.cpu_count() or 1

    def test_random_files(self):
        """Each chunk is found as what was put there."""
        self.tries(judged, range(trials(150)))

    def test_own_ledger(self):
        """What a run wrote is kept by its own ledger, whatever of the ledger's end is missing."""
        own_ledger(self.place)

    def test_missing_bytes(self):
        """Files that end too soon, that aren't there, that are locked, and those that no job writes."""
        missing_bytes(self.place)

    def test_many_chunks(self):
        """The page of a judgement has rows for the first 1,000 chunks, and a file's name as the text that it is."""
        many_chunks(self.place)

    def test_large_file(self):
        """Threads that judge side by side find exactly what was changed, in its order."""
        large_file(self.place)
