"""Job texts and command lines that are cut, garbled, long or at their limits."""

import re

from support.case import Case
from support.place import FOUR, FOUR_SAID, IN_MEMORY, RICH, named, refuses, says, totals
from support.program import expect, total

FAULTS = (
    r"job file: (?:not UTF-8|no job|several engine kinds|limit of (?:clones|region|cells|work)"
    r"|line \d+: (?:no closing bracket|empty section name|option before any section|option out of scope"
    r"|bad value|bad split|several files))"
    r"|job at line \d+: (?:no size|bad block size or place|no verify_pattern)"
)
# Comments, blanks and carriage returns, and options that there aren't.
LOOSE = "; two jobs\n[global]\nbs=4k ; x\n\n[a] of the night\r\n\tstonewall # y=1\nsize = 1m\n[global]\n=5\n[a]\nk=a=b"
# What stands on line 4 of a job, by the fault that it is refused by.
GARBAGE = {
    "option out of scope": """runtime=60|=5|x|RW=write|verify_offset=8|é=1|include x|${X}=1|name=x|--rw=read|rw read|bs:4k""",
    "bad value": """rw|rw=|rw =|rw=Write|rw=trim|rw=write ,|bs=|bs=,|bs=1,2,3,4|bs=-1|bs=4ki|bs=0x1000|bs=4 k|bs=4k=2|size|size=|size=50%
        |size=1.5k|size=+1|size=١|size=99999999999999999999999999999999|size=16777216p|offset=18446744073709551616|numjobs=0|numjobs=65
        |loops=0|loops=1001|iodepth=0|iodepth=257|rwmixread=101|rwmixwrite=-1|norandommap=2|stonewall=yes|stonewall=|direct=2|ioengine=mmap
        |ioengine=|io_submit_mode=x|verify=crc32c|verify=|verify=none|verify_pattern=|verify_pattern=0x|verify_pattern=0xg
        |verify_pattern=256|verify_pattern="a"|verify_async=17|verify_fatal=2|do_verify=a|verify_interval=100|verify_interval=16777728|verify_interval=|verify_backlog=4294967296|randseed=
        |randseed=18446744073709551616|description|filename|filename=|directory=""",
    "bad split": """bssplit=4k/101|bssplit=4k/50|bssplit=4k/60:8k/60|bssplit=,|bssplit=/50|bssplit=4k/x|bssplit=:|bssplit=4k/50/50
        |bssplit=1,2,3,4""",
    "several files": "filename=a:b|filename=:|directory=a:b",
    "no closing bracket": "[|[a|[[a|[global",
    "empty section name": "[]|[]x]",
}
BLOCK, REGION = "job at line 1: bad block size or place", "job file: limit of region"
MOST_SPLIT = ":".join(["512/1"] * 63)
PATTERN_OF = "size=4k\nrw=write\nverify=pattern\nverify_pattern=0x"
# What a job of these lines is refused by, or how many clones it has.
LIMITS = [
    ("bs=4k", "job at line 1: no size"),
    ("size=0", BLOCK),
    ("size=0004k", 1),
    ("size=" + "0" * 5000 + "4096", 1),
    ("size=18446744073709551615", REGION),
    ("size=18446744073709551616", "job file: line 2: bad value"),
    ("size=4k\nnumjobs=64", 64),
    ("size=4k\nnumjobs=33\n[b]\nsize=4k\nnumjobs=32", "job file: limit of clones"),
    ("size=4k\nloops=1000\niodepth=256", 1),
    ("size=512\nbs=512", 1),
    ("size=511\nbs=512", BLOCK),
    ("size=4k\nbs=511", BLOCK),
    ("size=4k\nbs=0", BLOCK),
    ("size=16m\nbs=16m", 1),
    ("size=32m\nbs=16777728", BLOCK),
    ("size=4k\nrw=write\nverify=md5\nverify_interval=4k", 1),
    ("size=4k\nrw=write\nverify=md5\nverify_interval=1536", BLOCK),
    ("size=4k\nrw=write\nverify=pattern\nverify_pattern=1\nverify_interval=1536", 1),
    ("size=4k\nverify_interval=16m", 1),
    ("size=4m\nbs=4294967295", BLOCK),
    ("size=4m\nbs=4294967296", "job file: line 3: bad value"),
    ("size=4k\noffset=1", BLOCK),
    ("size=4k\noffset_increment=513", BLOCK),
    ("size=1p\nbs=4m\noffset=512", REGION),
    ("size=4k\noffset=18446744073709551104", REGION),
    ("size=4k\nnumjobs=2\noffset_increment=18446744073709551104", REGION),
    ("size=8192m\nbs=512", 1),
    ("size=8193m\nbs=512", "job file: limit of cells"),
    ("size=8g\nbs=512\nloops=64", 1),
    ("size=8g\nbs=512\nloops=65", "job file: limit of work"),
    ("size=4k\nverify_backlog=4294967295\nverify_async=16\nrandseed=18446744073709551615", 1),
    (f"size=64k\nbssplit={MOST_SPLIT}:512/37", 1),
    (f"size=64k\nbssplit={MOST_SPLIT}:512/1:512/36", "job file: line 3: bad split"),
    (PATTERN_OF + "ab" * 64, 1),
    (PATTERN_OF + "a" * 129, "job file: line 5: bad value"),
    ("size=4k\nrw=write\nverify=pattern", "job at line 1: no verify_pattern"),
    ("size=4k\nverify=md5", 1),
    ("size=4k\nioengine=null\n[b]\nsize=4k\nioengine=memory", "job file: several engine kinds"),
]


class Texts(Case):
    """Job texts and command lines that are cut, garbled, long or at their limits."""

    def test_texts_cut(self):
        """A job text cut at each byte is a plan or refused by name."""
        place = self.place
        for whole in (RICH.encode(), LOOSE.encode()):
            for cut in range(len(whole)):
                ended = place.run("--parse-only", text=whole[:cut])
                named(ended, FAULTS, f"cut at {cut}:")
                is_text = whole[:cut].decode(errors="ignore").encode() == whole[:cut]
                expect(is_text or ended.err == b"fiorun: job file: not UTF-8\n", f"cut at {cut}, within a letter:", ended)
        expect(place.run("--parse-only", text=RICH).out.count(b"\n") == 2, "the whole text has two clones")
        refuses(place.run("--parse-only", text=LOOSE), 2, "job file: line 9: option out of scope")

    def test_texts_not_utf8(self):
        """A byte 0xff anywhere, a half letter and one too long are refused, and nothing is done."""
        place = self.place
        for at in range(len(FOUR) + 1):
            refuses(place.run(text=FOUR[:at].encode() + b"\xff" + FOUR[at:].encode()), 2, "job file: not UTF-8")
        for part in (b"\xc3", b"\xc0\xaf", b"\xe2\x9c", b"\xed\xa0\x80", b"\xf4\x90\x80\x80", b"\x80"):
            refuses(place.run(text=FOUR.encode() + part), 2, "job file: not UTF-8")
        expect(place.held() == {}, "files were made:", list(place.held()))

    def test_options_garbage(self):
        """Options that aren't any are refused by their line, in a run too, and no file is made or changed."""
        place = self.place
        place.put("data", b"old")
        for fault, lines in GARBAGE.items():
            for line in re.split(r"\s*\|", lines):
                refuses(place.run(text=f"# {line}\n[w]\nsize=4k\n{line}\nfilename=data\n"), 2, f"job file: line 4: {fault}")
        refuses(place.run(text="size=4k\n[w]\n"), 2, "job file: line 1: option before any section")
        refuses(place.run(text="\n\r\n;\n#\n \t\n"), 2, "job file: no job")
        refuses(place.run(text="[global]\nsize=4k\n"), 2, "job file: no job")
        expect(place.held() == {"data": b"old"}, "files were made or changed:", place.held())

    def test_numbers_at_limits(self):
        """Numbers at their limits are taken, those past them refused."""
        place = self.place
        for lines, wanted in LIMITS:
            ended = place.run("--parse-only", text=f"[a]\n{lines}\n")
            if isinstance(wanted, int):
                is_right = ended.status == 0 and not ended.err and ended.out.count(b"\n") == wanted
                expect(is_right, "wanted", wanted, "clones of", lines, "and got", ended)
            else:
                refuses(ended, 2, wanted)
        # 64 clones at the limits of depth and passes run, too.
        ended = place.run(text="[a]\nioengine=null\nrw=randrw\nsize=4k\nnumjobs=64\niodepth=256\nloops=10\n")
        sums = totals(ended)
        expect(sums["reads"] + sums["writes"] == 640 and ended.status == 0, "64 clones of 10 passes:", ended)

    def test_texts_long(self):
        """Texts of 1 MiB are taken and longer ones refused, from a file and a pipe, whatever their lines are."""
        place = self.place
        most = 1 << 20
        head = IN_MEMORY.encode()
        for filler in (b"#", b"\n", b"; \n", b"[w]\n", b"description=" + b"x" * 5000 + b"\n", b"bs=4k\n"):
            at_most = (head + filler * (most // len(filler)))[: most - 1] + b"\n"
            last = at_most.rfind(b"\n", 0, -1) + 1
            at_most = at_most[:last] + b"#" * (most - last - 1) + b"\n"
            ended = place.run("--parse-only", text=at_most)
            if filler == b"[w]\n":
                expect(ended.status == 2 and ended.err == b"fiorun: job at line 7: no size\n", "jobs without a size:", ended)
            else:
                expect(ended.status == 0 and ended.out.count(b"\n") == 1, "a text of 1 MiB:", ended)
            refuses(place.run("--parse-only", text=at_most + b"\n"), 2, "job file: longer than 1048576 bytes")
        for filler in (b"#", b"\0", b"\xff", b"[w]\n", b"bs=4k\n"):
            place.put("long", head + filler * (10_000_000 // len(filler)))
            refuses(place.run("long"), 2, "job file: longer than 1048576 bytes")
        name = "n" * 1_000_000
        says(place.run(text=IN_MEMORY.replace("[w]", f"[{name}]")), 0, total(name, writes=4, wbytes=16384, checks=4, good=4))
        refuses(place.run(text=FOUR.replace("=data", f"={name}")), 3, "cannot open the files")
        refuses(place.run(text="[w]\nsize=" + "9" * 1_000_000), 2, "job file: line 2: bad value")

    def test_texts_with_nul(self):
        """A NUL byte is a letter like others in a name, and no part of a key, a number or a file's name."""
        place = self.place
        says(place.run(text=IN_MEMORY.replace("[w]", "[w\0x]")), 0, FOUR_SAID.replace("w:", "w\0x:"))
        refuses(place.run(text=FOUR.replace("=data", "=da\0ta")), 3, "cannot open the files")
        refuses(place.run(text="[w]\nsi\0ze=4k\n"), 2, "job file: line 2: option out of scope")
        refuses(place.run(text="[w]\nsize=4\0k\n"), 2, "job file: line 2: bad value")
        refuses(place.run(text="\0"), 2, "job file: line 1: option before any section")
        refuses(place.run(text=b"\0" * 1_000_000), 2, "job file: line 1: option before any section")
        expect(place.held() == {}, "files were made:", list(place.held()))

    def test_words_garbage(self):
        """Words that aren't any are refused with 2, on standard error alone, and nothing is run."""
        place = self.place
        place.put("job", FOUR)
        bad = "-x|--nothing|--workers|--workers=0|--workers=17|--workers=-1|--workers=|--workers=4294967297|--workers=1k"
        bad += "|--workers=1 --workers=2|job job|--trace|--parse-only=1|--parse-only --parse-only|--trace=a --trace=b|--check-trace"
        bad += "|--" + "x" * 100_000
        for words in bad.split("|"):
            ended = place.run(*words.split(), text=FOUR)
            expect(ended.status == 2 and not ended.out and ended.err, words, ended)
        refuses(place.run(b"\xff", text=FOUR), 2, "command line: not UTF-8")
        refuses(place.run(b"--trace=\xff", text=FOUR), 2, "command line: not UTF-8")
        for section in ("x", "global", "", "W", "w " * 50_000):
            refuses(place.run(f"--section={section}", text=FOUR), 2, "job file: no such section")
        for name in ("", "n" * 5000, "job/", "no/job", "--trace"):
            refuses(place.run("--", name, text=FOUR), 3, "cannot read the job file")
        ended = place.run("--help", "--nothing")
        expect(ended.status in (0, 2), ended)
        expect(place.held() == {"job": FOUR.encode()}, "files were made:", list(place.held()))
