"""What a run says of bad blocks: what it wrote is damaged, and it has to say right what stands there instead.

A library (checks/support/damage.c) puts pieces of other runs, zeros, single bits and the like into the file once all is written, before the
first check. Expected is what was put there, worked out here from the files of those runs. Reads that are checked have their damage put
there before the run.
"""

import json
import os
import struct

from support.case import Case
from support.program import built_library, expect

BS = 4096
BLOCKS = 16
NAMES = ("clone", "pass", "number", "offset", "length", "found")


def job(name="w", rw="write", bs=BS, size=BLOCKS * BS, more="verify=md5\n"):
    """A job over the file `data`."""
    return f"[{name}]\nfilename=data\nrw={rw}\nbs={bs}\nsize={size}\n{more}"


class Findings(Case):
    """What stands in bad blocks."""

    def image(self, text, *words):
        """The file that a job writes."""
        ran = self.place.run(*words, text=text)
        expect(ran.status in (0, 1), "a run of", text, "ended as", ran)
        return self.place.get("data")

    def damaged(self, text, pieces, *words):
        """What is said of a job whose file gets these pieces, by offset, before its first check."""
        library = built_library("damage.c")
        place = self.place
        place.put("damage", b"".join(struct.pack("<QQ", at, len(them)) + them for at, them in pieces.items()))
        env = {**os.environ, "LD_PRELOAD": library, "DAMAGE": place.at("damage"), "DAMAGED": place.at("data")}
        ran = place.run("--json=json", "--page=page", "--notes", *words, text=text, env=env)
        return ran, self.told(ran, "miscompares")

    def told(self, ran, member):
        """What the JSON says of bad blocks, by offset. The page says the same."""
        expect(ran.status == 1, "ended as", ran)
        found = json.loads(self.place.get("json"))[member]
        page = self.place.get("page").decode()
        for it in found:
            expect(not it["found"] or f"<td>{it['found']}</td></tr>" in page, "not in the page:", it)
        return {it["offset"]: it["found"] for it in found}

    def reads(self, text, *words):
        """What is said of reads that are checked."""
        ran = self.place.run("--json=json", "--page=page", "--notes", *words, text=text)
        return ran, self.told(ran, "badreads")

    def says(self, text, cases, *words):
        """Each piece by itself is told by its words."""
        ran, told = self.damaged(text, {at: them for at, (them, _) in cases.items()}, *words)
        expect(told == {at: said for at, (_, said) in cases.items()}, "told", told, "wanted", {at: said for at, (_, said) in cases.items()})
        return ran

    def test_blocks(self):
        """Zeros, one byte, the block of another place, few bits and many, and bytes of nobody."""
        text = job()
        held = self.image(text)
        noise = os.urandom(BS)
        block = [bytearray(held[i * BS : (i + 1) * BS]) for i in range(BLOCKS)]
        few, many = bytearray(block[6]), bytearray(block[7])
        for at in (1000, 1001, 3000):
            few[at] ^= 0x10
        raised = sum(1 for at in (1000, 1001, 3000) if few[at] & 0x10)
        for at in range(100, 117):
            many[at] ^= 1
        self.says(
            text,
            {
                0: (bytes(BS), "zeros"),
                BS: (b"\xff" * BS, "byte=255"),
                2 * BS: (bytes(block[9]), f"elsewhere offset={9 * BS}"),
                5 * BS: (bytes(block[1]), f"elsewhere offset={BS}"),
                6 * BS: (bytes(few), f"bits raised={raised} cleared={3 - raised} first=1000"),
                7 * BS: (bytes(many), "torn right=7 sectors=01111111"),
                8 * BS: (noise, "foreign"),
                # (a byte of the zeros is another one)
                10 * BS: (bytes(BS - 1) + b"\1", "foreign"),
            },
        )

    def test_other_writes(self):
        """Blocks of another pass, number, clone, kind and length."""
        text = job()
        later = self.image(job(more="loops=2\nverify=md5\n"))
        held = self.image(text)
        expect(later[:BS] != held[:BS], "both passes wrote the same")
        mixed = self.image(job(rw="randwrite"))
        numbers = [struct.unpack_from("<Q", mixed, i * BS + 24)[0] for i in range(BLOCKS)]
        at = next(i for i in range(BLOCKS) if numbers[i] != i and i > 3)
        second = self.image("[other]\nioengine=null\nrw=write\nbs=4k\nsize=4k\n" + job(), "--section=w")
        both = self.image("[other]\nfilename=beside\nrw=write\nbs=4k\nsize=4k\n" + job())
        sha1 = self.image(job(more="verify=sha1\n"))
        wide = self.image(job(bs=2 * BS))
        expect(second[:BS] == held[:BS], "a section's clone isn't clone 0")
        self.says(
            text,
            {
                0: (later[:BS], "pass=1"),
                BS: (both[BS : 2 * BS], "write clone=1 number=1"),
                2 * BS: (sha1[2 * BS : 3 * BS], "kind=2"),
                # (the beginning of a block of twice as many bytes)
                4 * BS if at != 4 else 6 * BS: (wide[4 * BS : 5 * BS] if at != 4 else wide[6 * BS : 7 * BS], f"length={2 * BS}"),
                at * BS: (mixed[at * BS : (at + 1) * BS], f"write clone=0 number={numbers[at]}"),
            },
        )

    def test_torn(self):
        """Of a block some sectors are another pass's, at its end, its front and in its middle."""
        text = job()
        other, held = self.image(job(more="loops=2\nverify=md5\n")), self.image(text)

        def torn(i, right):
            sectors = [(held if it == "1" else other)[i * BS + n * 512 :][:512] for n, it in enumerate(right)]
            return b"".join(sectors), f"torn right={right.count('1')} sectors={right}"

        wanted = {1: "11100000", 3: "00011111", 5: "10111101"}
        self.says(text, {i * BS: torn(i, right) for i, right in wanted.items()})

    def test_chunks(self):
        """With headers at an interval the chunk that is bad is told, and where it is."""
        text = job(bs=4 * BS, more=f"verify=sha256\nverify_interval={BS}\n")
        held = self.image(text)
        cases = {
            # Block 0: chunk 1 is that of block 2; block 1: chunk 3 is zeros; block 3: chunk 0 has a bit that is wrong.
            BS: (held[9 * BS : 10 * BS], 0, f"elsewhere offset={9 * BS}"),
            7 * BS: (bytes(BS), 4 * BS, "zeros"),
        }
        bit = bytearray(held[12 * BS : 13 * BS])
        bit[200] ^= 2
        up = bit[200] >> 1 & 1
        cases[12 * BS] = (bytes(bit), 12 * BS, f"bits raised={up} cleared={1 - up} first=200")
        ran, told = self.damaged(text, {at: it[0] for at, it in cases.items()})
        expect(told == {it[1]: it[2] for it in cases.values()}, "told", told)
        for at in cases:
            expect(f"data at {at}, {BS} bytes: ".encode() in ran.err, "no note of the chunk at", at, ran.err)

    def test_pattern(self):
        """Blocks of a pattern: zeros, a bit, half of the sectors, a block with a header."""
        text = job(more="verify=pattern\nverify_pattern=0x5a\n")
        headed = self.image(job())
        self.says(
            text,
            {
                0: (bytes(BS), "zeros"),
                BS: (b"\x5a" * 100 + b"\x5b" + b"\x5a" * (BS - 101), "bits raised=1 cleared=0 first=100"),
                2 * BS: (b"\x5a" * 2048 + os.urandom(2048), "torn right=4 sectors=11110000"),
                3 * BS: (headed[3 * BS : 4 * BS], "kind=1"),
            },
        )

    def test_reads(self):
        """Of reads it isn't known what should stand there: zeros, one byte, another place, damage, bytes of nobody."""
        held = bytearray(self.image(job(more="verify=md5\ndo_verify=0\n")))
        put = {
            0: (bytes(BS), "zeros"),
            BS: (b"\x77" * BS, "byte=119"),
            2 * BS: (bytes(held[7 * BS : 8 * BS]), f"elsewhere offset={7 * BS}"),
            4 * BS: (os.urandom(BS), "foreign"),
        }
        for at, (them, _) in put.items():
            held[at : at + BS] = them
        held[5 * BS + 99] ^= 1
        self.place.put("data", bytes(held))
        _, told = self.reads(job(rw="read"))
        expect(told == {**{at: it[1] for at, it in put.items()}, 5 * BS: "damaged"}, "told", told)

    def test_wrong_size(self):
        """A scan with another bs isn't taken for a dead disk: the notes name the bs that fits."""
        self.image(job(bs=2 * BS, more="verify=md5\ndo_verify=0\n"))
        ran, told = self.reads(job(rw="read"))
        wanted = {i * BS: f"length={2 * BS}" if i % 2 == 0 else "foreign" for i in range(BLOCKS)}
        expect(told == wanted, "told", told)
        expect(b"8 of 16 bad blocks begin blocks of 8192 bytes: they were written with bs=8192" in ran.err, "no word of the bs", ran.err)

    def test_fake_capacity(self):
        """What a disk says that is half as large: each block of the first half holds that of the second, which is said once."""
        text = job()
        held = self.image(text)
        half = BLOCKS // 2 * BS
        ran, told = self.damaged(text, {0: held[half:]})
        expect(told == {i * BS: f"elsewhere offset={i * BS + half}" for i in range(BLOCKS // 2)}, "told", told)
        expect(ran.err.count(b" hold what belongs ") == 1, "not said once", ran.err)
        expect(f"8 of 8 bad blocks hold what belongs {half} bytes further on".encode() in ran.err, "no word of the distance", ran.err)

    def test_many(self):
        """The first 1,000 bad blocks are looked into; the report has them all; ten have a note each."""
        text = job(bs=512, size=2000 * 512, more="verify=md5\n")
        ran, told = self.damaged(text, {0: bytes(2000 * 512)})
        expect(len(told) == 2000 and list(told.values()).count("zeros") == 1000, "told", len(told))
        expect([it for it in told.values()].count(None) == 1000, "others have words")
        expect(ran.err.count(b"nothing but zeros") == 10 and b"990 more bad blocks were looked into" in ran.err, "notes", ran.err)

    def test_workers(self):
        """Several workers and verifiers find the same."""
        text = job(size=64 * BS, more="iodepth=16\nverify=sha1\nverify_async=2\n")
        held = self.image(text, "--workers=4")
        pieces = {i * BS: held[(63 - i) * BS : (64 - i) * BS] for i in range(0, 30, 3)}
        for workers in (1, 4):
            _, told = self.damaged(text, pieces, f"--workers={workers}")
            expect(told == {at: f"elsewhere offset={63 * BS - at}" for at in pieces}, workers, "workers told", told)

    def test_rounds(self):
        """In rounds the JSON of the round has what was found."""
        text = job()
        library = built_library("damage.c")
        place = self.place
        place.put("damage", struct.pack("<QQ", 0, BS) + bytes(BS))
        env = {**os.environ, "LD_PRELOAD": library, "DAMAGE": place.at("damage"), "DAMAGED": place.at("data")}
        ran = place.run("--json=json", "--repeat=3", "--keep-going", text=text, env=env)
        expect(ran.status == 1, "ended as", ran)
        rounds = [json.loads(it) for it in place.get("json").splitlines()]
        found = [[it["found"] for it in one["report"]["miscompares"]] for one in rounds[:-1]]
        expect(found == [["zeros"], [], []], "found", found)

    def test_setting(self):
        """The JSON and the page have the job's text, the host and the times."""
        text = job()
        ran = self.place.run("--json=json", "--page=page", text=text)
        expect(ran.status == 0, "ended as", ran)
        report = json.loads(self.place.get("json"))
        setting = report["run"]
        expect(setting["job"] == text and setting["host"] == os.uname().nodename, "the setting", setting)
        expect(setting["began"] <= setting["ended"] and setting["began"].endswith("Z"), "times", setting)
        expect(0 <= setting["milliseconds"] < 600_000, "milliseconds", setting)
        expect([it["name"] for it in report["files"]] == ["data"], "files", report["files"])
        expect("\n" not in report["fiorun"] and report["logic"], "versions", report["fiorun"], report["logic"])
        page = self.place.get("page").decode()
        expect("<pre>[w]\nfilename=data\n" in page and f"on {setting['host']}" in page, "the page", page[-2000:])
