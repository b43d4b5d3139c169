"""Reads that are checked: what one run wrote, or nobody, another run reads and judges.

What is wrong with the bytes of a file is worked out here from docs/FORMATS.md, with the digests of hashlib: the report must have exactly
these lines. So the headers that a run writes are taken apart here, and blocks that are made here are read by a run.
"""

import hashlib
import os
import random
import re
import struct
from itertools import product
from typing import NamedTuple

from support.case import Case, parts
from support.job_folder import JobFolder, said, same
from support.program import MIB, total

KINDS = {"md5": 1, "sha1": 2, "sha256": 3}
HEADER = struct.Struct("<4sBBHIIQQ32s")
BAD = re.compile(r"badread: clone=(\d+) pass=(\d+) number=(\d+) file=(.*) offset=(\d+) length=(\d+) what=(.*)\n")


# -- What a block says of itself


class Header(NamedTuple):
    """The header of a block or of a chunk, as docs/FORMATS.md has it."""

    magic: bytes
    kind: int
    digest_length: int
    pass_number: int
    length: int
    clone: int
    offset: int
    number: int
    digest: bytes


def header_of(block):
    return Header(*HEADER.unpack(block[: HEADER.size]))


def digest_of(kind, block):
    return hashlib.new(kind, block[HEADER.size :]).digest()


def made(magic, kind, offset, length, rng):
    """A block or chunk for this place, of any writer, with any data."""
    rest = bytes(HEADER.size) + rng.randbytes(length - HEADER.size)
    digest = digest_of(kind, rest)
    writer = {"pass_number": rng.randrange(1000), "clone": rng.randrange(64), "number": rng.randrange(1 << 24)}
    header = Header(magic=magic, kind=KINDS[kind], digest_length=len(digest), length=length, offset=offset, digest=digest, **writer)
    return HEADER.pack(*header) + rest[HEADER.size :]


def fault_of(magic, kind, offset, block):
    """What is wrong with a block, or a chunk, at this place of a file; None where nothing is."""
    it, digest = header_of(block), digest_of(kind, block)
    if (it.magic, it.kind, it.digest_length, it.length, it.offset) != (magic, KINDS[kind], len(digest), len(block), offset):
        return "header"
    if any(it.digest[len(digest) :]):
        return "digest"
    return None if it.digest[: len(digest)] == digest else "data"


def word_of(kind, offset, block):
    """What the report must say of a block that was read there; None where it is good."""
    if block[:4] != b"JRV2":
        return fault_of(b"JRV1", kind, offset, block)
    interval = header_of(block).length
    if interval == 0 or interval % 512 or len(block) % interval:
        return "header:0"
    for start in range(0, len(block), interval):
        fault = fault_of(b"JRV2", kind, offset + start, block[start : start + interval])
        if fault:
            return f"{fault}:{start // interval}"
    return None


def words_of(kind, size, content, start=0):
    """The places of bad blocks, of all blocks of this size from there on, and what is wrong with each."""
    words = {it: word_of(kind, it, content[it : it + size]) for it in range(start, len(content), size)}
    return {offset: word for offset, word in words.items() if word}


# -- Runs


def bad_line(path, offset, size, word, number, in_pass=0, clone=0):
    return f"badread: clone={clone} pass={in_pass} number={number} file={path} offset={offset} length={size} what={word}\n"


def written(place, jobs, name="f"):
    """What a run writes, which checks nothing, into a file."""
    ended = place.run(f"[w]\nfilename={name}\nrw=write\ndo_verify=0\n{jobs}", 1)
    same("the run that writes", (ended.status, ended.err, b" checks=0 " in ended.out), (0, b"", True))
    return bytearray(place.held()[name])


def judged(place, jobs, kind, size, content, workers=1):
    """A file of these bytes, read block by block in a run of its own: the report must be what is worked out here."""
    place.put("f", content)
    count, words = len(content) // size, words_of(kind, size, content)
    ended = place.run(f"[r]\nfilename=f\nrw=read\nsize={len(content)}\nbs={size}\nverify={kind}\n{jobs}", workers)
    counts = {"reads": count, "rbytes": len(content), "checks": count, "good": count - len(words), "bad": len(words)}
    path = os.path.join(place.jobs, "f")
    lines = [bad_line(path, offset, size, word, offset // size) for offset, word in words.items()]
    same("report", ended, said(1 if words else 0, total("r", **counts), *lines))
    same("file", place.held()["f"], bytes(content))


def random_lines(ended, path, size):
    """The lines of bad verdicts of a run of one clone that reads at random, as places with words; numbers ascend, each once."""
    lines = BAD.findall(ended.out.decode())
    numbers = [int(it[2]) for it in lines]
    same("order of lines", numbers, sorted(set(numbers)))
    same("clone, pass, file and length", {(it[0], it[1], it[3], int(it[5])) for it in lines} - {("0", "0", path, size)}, set())
    return {int(it[4]): it[6] for it in lines}


# -- Cases


def cell(kind, size, offset, rng):
    """A block at a place, right or wrong in some way."""
    magic, where, length, named = rng.choice([b"JRV1", b"JRV2"]), offset, size, kind
    step = rng.choice([it for it in (512, 1024, 1536, size) if size % it == 0])
    wrong = rng.randrange(12)
    if wrong == 0:
        return bytes(size)
    if wrong == 1:
        return rng.randbytes(size)
    if wrong == 2:
        where += rng.choice([512, size, 1 << 32])
    if wrong == 3:
        named = rng.choice(list(KINDS))
    if wrong == 4:
        length = size + 512
    if magic == b"JRV1":
        block = bytearray(made(magic, named, where, length, rng)[:size].ljust(size, b"\0"))
    else:
        block = bytearray(b"".join(made(magic, named, where + it, step, rng) for it in range(0, size, step)))
        if wrong == 5:
            block[8:12] = rng.choice([0, 100, 700, size * 2, step // 2, 1 << 31]).to_bytes(4, "little")
    if wrong == 6:
        block[rng.randrange(size)] ^= rng.randrange(1, 256)
    if wrong == 7:
        block[rng.randrange(0, size, 512) + rng.randrange(HEADER.size)] ^= rng.randrange(1, 256)
    if wrong == 8:
        half = size // 1024 * 512
        block[half:] = bytes(size - half)
    return bytes(block)


PHASES = """verify=sha256\nverify_interval=1k\nverify_fatal=1\nverify_async={verifiers}\nfilename=f\nsize=256k\niodepth=8
[w]\nrw=randwrite\nbs=4k\ndo_verify=0
[r]\nrw=randread\nbs=16k\nstonewall\n"""


class Later(Case):
    """What a later run reads and checks."""

    kind = JobFolder
    at_once = 8

    @parts(*product(KINDS, (0, 1024)))
    def test_headers(self, place, kind, interval):
        """The headers that a run writes are those of docs/FORMATS.md: kind, lengths, pass, clone, offset, number and digest."""
        jobs = f"rw=write\nbs=4k\nsize=64k\nloops=3\nverify={kind}\nverify_interval={interval}\ndo_verify=0\n[w]\nfilename=f\nnumjobs=2\n"
        ended = place.run(jobs + "offset_increment=64k\n", 2)
        same("status", ended.status, 0)
        content, length = place.held()["f"], interval or 4096
        same("length of the file", len(content), 131072)
        for offset in range(0, len(content), length):
            chunk = content[offset : offset + length]
            digest = digest_of(kind, chunk)
            clone, number = offset // 65536, offset % 65536 // 4096
            magic = b"JRV2" if interval else b"JRV1"
            wanted = (magic, KINDS[kind], len(digest), 2, length, clone, offset, number, digest.ljust(32, b"\0"))
            same(f"header at {offset}", tuple(header_of(chunk)), wanted)

    @parts(*product(KINDS, (1, 4)))
    def test_larger_blocks(self, place, kind, workers):
        """Chunks that were written in one order are read in another, in blocks twice as large, whose job has no interval: all good."""
        written(place, f"bs=8k\nsize=1m\nverify={kind}\nverify_interval=4k\n")
        ended = place.run(f"[r]\nfilename=f\nrw=randread\nbs=16k\nsize=1m\niodepth=8\nverify={kind}\n", workers)
        same("run", ended, said(0, total("r", reads=64, rbytes=MIB, checks=64, good=64)))

    @parts(*product(KINDS, (0, 4096)))
    def test_flipped_byte(self, place, kind, interval):
        """A byte of the file that is changed between two runs: exactly its block is bad, and its chunk is named."""
        content = written(place, f"bs=8k\nsize=1m\nverify={kind}\nverify_interval={interval}\n")
        rng = random.Random(f"{kind} {interval}")
        while (at := rng.randrange(MIB)) % (interval or 8192) < HEADER.size:
            pass
        content[at] ^= 1 << rng.randrange(8)
        place.put("f", content)
        ended = place.run(f"[r]\nfilename=f\nrw=randread\nbs=8k\nsize=1m\nverify={kind}\n", 1)
        same("status", (ended.status, ended.err), (1, b""))
        same("totals", ended.out.split(b"\n")[0].decode() + "\n", total("r", reads=128, rbytes=MIB, checks=128, good=127, bad=1))
        word = f"data:{at % 8192 // interval}" if interval else "data"
        same("bad blocks", random_lines(ended, os.path.join(place.jobs, "f"), 8192), {at // 8192 * 8192: word})

    @parts(*product(KINDS, (0, 512)))
    def test_each_byte_of_a_header(self, place, kind, interval):
        """Of each 512 bytes one more byte is changed, from the header's first on: pass, clone and number alone are free."""
        content = written(place, f"bs=1k\nsize=128k\nverify={kind}\nverify_interval={interval}\n")
        step = interval or 1024
        for number, start in enumerate(range(0, len(content), step)):
            content[start + number % 72] ^= 0x10
        same("blocks that are good for all that", len(words_of(kind, step, content)) < len(content) // step, True)
        judged(place, "", kind, 1024, content)

    @parts(*product(KINDS, (512, 1024, 4608)))
    def test_made_here(self, place, kind, size):
        """Blocks of many writers that are made here, some of them wrong: each is judged as it is here."""
        rng = random.Random(f"{kind} {size}")
        content = b"".join(cell(kind, size, it, rng) for it in range(0, 200 * size, size))
        words = words_of(kind, size, content)
        same("what is wrong with some", {"header", "data"} - {it.split(":")[0] for it in words.values()}, set())
        same("some are good", len(words) < 200, True)
        judged(place, "iodepth=4\nverify_interval=512\nverify_pattern=0x1234\n", kind, size, content, 4)

    @parts(1, 4)
    def test_pattern(self, place, workers):
        """A pattern is compared with the job's own, from the first byte of each block read on."""
        text = bytes.fromhex("a1b2c3d4e5")
        content = written(place, "bs=8k\nsize=64k\nverify=pattern\nverify_pattern=0xa1b2c3d4e5\n")
        same("what was written", bytes(content), (text * 1639)[:8192] * 8)
        rng = random.Random(5)
        found = {offset: rng.randrange(8000) for offset in (8192, 40960)}
        for offset, at in found.items():
            content[offset + at] ^= 1
            content[offset + 8191] ^= 1
        place.put("f", content)
        job = "[r]\nfilename=f\nrw=read\nbs=8k\nsize=64k\niodepth=4\nverify=pattern\nverify_pattern=0xa1b2c3d4e5\n"
        lines = [bad_line(f"{place.jobs}/f", offset, 8192, f"byte:{at}", offset // 8192) for offset, at in found.items()]
        same("run", place.run(job, workers), said(1, total("r", reads=8, rbytes=65536, checks=8, good=6, bad=2), *lines))

    @parts(*KINDS)
    def test_cut_between(self, place, kind):
        """A file that was cut between two runs is read as it stands: its clone ends at the read that isn't whole, which has no verdict."""
        content = written(place, f"bs=4k\nsize=64k\nverify={kind}\n")
        place.put("f", content[:33768])
        ended = place.run(f"[r]\nfilename=f\nrw=read\nbs=4k\nsize=64k\nverify={kind}\n", 1)
        same("run", ended, said(1, total("r", reads=8, rbytes=32768, checks=8, good=8, faults=1)))
        same("file", place.held()["f"], bytes(content[:33768]))

    @parts(0, 1000)
    def test_cut_while_read(self, place, more):
        """A file that is cut to its half, and so many bytes, while it is read: its clone ends at the read that wasn't whole, which has no
    verdict."""
        written(place, "bs=4k\nsize=64k\nverify=sha256\n")
        # (what no clone writes is open for reading alone, and isn't cut)
        jobs = "filename=f\nbs=4k\n[w]\nrw=write\noffset=64k\nsize=4k\n[r]\nsize=64k\nverify=sha256\nstonewall\n"
        ended, trace, _ = place.traced(jobs, 1, f"pread 3 cut:{32768 + more}")
        reads = {"reads": 8, "rbytes": 32768, "checks": 8, "good": 8, "faults": 1}
        same("run", ended, said(1, total("w", writes=1, wbytes=4096), total("r", 1, **reads)))
        events = ["I 0 0 0 0 0\nE 0 0 whole\n", *(f"I 0 {it + 1} 1 0 {it}\nE 0 {it + 1} whole\nV 0 {it + 1} good\n" for it in range(8))]
        same("trace", trace, "".join(events) + f"I 0 9 1 0 8\nE 0 9 short {more}\n")

    @parts((1, 0), (4, 0), (4, 2))
    def test_behind_a_writer(self, place, workers, verifiers):
        """A reader that begins once its writer has ended finds all good, and the report is that of one worker; so is one in a later run."""
        alone = place.run(PHASES.format(verifiers=0), 1)
        counts = {"reads": 16, "rbytes": 262144, "checks": 16, "good": 16}
        same("one worker", alone, said(0, total("w", writes=64, wbytes=262144), total("r", 1, **counts)))
        same("run", place.run(PHASES.format(verifiers=verifiers), workers), alone)

    @parts((1, 0), (4, 0), (4, 2))
    def test_stops_at_the_first(self, place, workers, verifiers):
        """With verify_fatal a clone ends at its first bad block; what was read beside it is judged too."""
        content = written(place, "bs=4k\nsize=256k\nverify=md5\n")
        content[102400] ^= 1
        content[-1] ^= 1
        place.put("f", content)
        jobs = f"[r]\nfilename=f\nrw=read\nbs=4k\nsize=256k\nverify=md5\nverify_fatal=1\nverify_async={verifiers}\n"
        ended = place.run(jobs, workers)
        line = bad_line(f"{place.jobs}/f", 102400, 4096, "header", 25)
        if verifiers == 0:
            same("run", ended, said(1, total("r", reads=26, rbytes=26 * 4096, checks=26, good=25, bad=1), line))
            return
        # (a verdict comes while the next blocks are read)
        first, *lines = ended.out.decode().splitlines(True)
        counts = {key: int(value) for key, value in re.findall(r" (\w+)=(\d+)", first)}
        same("status", (ended.status, ended.err), (1, b""))
        same("its line", lines[:1], [line])
        same("counts", (counts["reads"] >= 26, counts["checks"], counts["bad"]), (True, counts["reads"], len(lines)))

    @parts(1, 4)
    def test_all_passes(self, place, workers):
        """Each pass over a file has its own lines; seed and interval of the job that reads say nothing of what it reads."""
        content = written(place, "bs=4k\nsize=16k\nverify=sha1\nrandseed=7\n")
        content[8292] ^= 1
        place.put("f", content)
        jobs = "[r]\nfilename=f\nrw=read\nbs=4k\nsize=16k\nloops=2\nverify=sha1\nverify_interval=2k\nrandseed=9\nverify_backlog=1\n"
        lines = [bad_line(f"{place.jobs}/f", 8192, 4096, "data", 2, it) for it in range(2)]
        same("run", place.run(jobs, workers), said(1, total("r", reads=8, rbytes=32768, checks=8, good=6, bad=2), *lines))

    @parts(("md5", "sha1"), ("sha256", "md5"))
    def test_lost_rewrite(self, place, kind, other):
        """An older block of the same place, kind and length is good, whichever run wrote it, with whatever interval; one of another
        kind, or length, isn't."""
        older = written(place, f"bs=4k\nsize=64k\nverify={kind}\nrandseed=1\n")
        same_form = [f"bs=4k\nverify={kind}", f"bs=4k\nverify={kind}\nverify_interval=1k"]
        other_form = [f"bs=4k\nverify={other}", f"bs=8k\nverify={kind}"]
        for jobs, word in [*((it, None) for it in same_form), *((it, "header") for it in other_form)]:
            newer = written(place, f"size=64k\nrandseed=2\n{jobs}\n")
            same("another block", newer[16384:20480] == older[16384:20480], False)
            newer[16384:24576] = older[16384:24576]
            place.put("f", newer)
            size = 8192 if "bs=8k" in jobs else 4096
            lines = [bad_line(f"{place.jobs}/f", it, size, word, it // size) for it in range(16384, 24576, size) if word]
            count = 65536 // size
            ended = place.run(f"[r]\nfilename=f\nrw=read\nsize=64k\n{jobs}\n", 1)
            counts = {"reads": count, "rbytes": 65536, "checks": count, "good": count - len(lines), "bad": len(lines)}
            same(jobs, ended, said(1 if lines else 0, total("r", **counts), *lines))

    @parts(1, 2)
    def test_order_of_lines(self, place, workers):
        """Bad reads and miscompares stand in one order, by clone, pass and number. (Two writers of one file would overwrite each other's
        blocks.)"""
        jobs = "ioengine=null\nbs=2k\nsize=4k\nverify=pattern\nverify_pattern=1\n[a]\nfilename=f\nrw=write\n[b]\nfilename=f\nrw=read\n"
        ended = place.run(f"{jobs}[c]\nfilename=g\nrw=write\n", workers)
        line = f"{{}}: clone={{}} pass=0 number={{}} file={place.jobs}/{{}} offset={{}} length=2048 what=byte:0\n"
        told = ("miscompare", "f"), ("badread", "f"), ("miscompare", "g")
        lines = [line.format(word, clone, it, name, it * 2048) for clone, (word, name) in enumerate(told) for it in (0, 1)]
        checks = {"checks": 2, "bad": 2}
        writes, reads = {"writes": 2, "wbytes": 4096, **checks}, {"reads": 2, "rbytes": 4096, **checks}
        same("run", ended, said(1, total("a", **writes), total("b", 1, **reads), total("c", 2, **writes), *lines))

    @parts("verify=md5\ndo_verify=0", "verify=0", "verify_pattern=1")
    def test_unchecked(self, place, jobs):
        """A job that is to check nothing reads whatever stands there."""
        place.put("f", bytes(65536))
        ended = place.run(f"[r]\nfilename=f\nrw=read\nsize=64k\n{jobs}\n", 1)
        same("run", ended, said(0, total("r", reads=16, rbytes=65536)))
