"""What the program makes of real files, and the line that a terminal shows at known numbers.

Report and status, every byte of the files, and the trace where the order of events is known, must be as they stand here. Where a run has to
be met at one call, a library that is loaded before the program's own (checks/support/faulty.c, built by cc) cuts a file there, or holds the
run until the line is there.
"""

import os
import re
import select
import subprocess
import threading
import time

from support.case import Case, parts
from support.job_folder import SECONDS, JobFolder, blocks, said, same
from support.program import LINE, MIB, NOBODY, UNDROPPED, WIPED, Ended, Wrong, total

REFUSED = Ended(3, b"", b"fiorun: cannot open the files\n")
FULL_DEVICE = threading.Lock()
# What a note says of a bad block.
FOUND = re.compile(r"fiorun: note: \S+ at \d+, \d+ bytes: ")


def is_writable(path):
    try:
        with open(path, "r+b"):
            return True
    except PermissionError:
        return False


CUT_TRACE = """I 0 0 0 0 0
E 0 0 whole
I 0 1 0 0 1
E 0 1 whole
P 0 2 0 0 0
E 0 2 whole
V 0 2 good
P 0 3 0 0 1
E 0 3 short {rest}
I 0 4 1 0 0
E 0 4 whole
I 0 5 1 0 1
E 0 5 whole
P 0 6 1 0 0
E 0 6 whole
V 0 6 good
P 0 7 1 0 1
E 0 7 whole
V 0 7 good
"""


def is_line(line, wanted):
    """Whether a line is this one. (how much time is left may stand behind it)"""
    return line == wanted or line.startswith(f"{wanted}, ")


def shown(end, wanted=None):
    """What is said at a terminal's other end until this line stands there, nobody holds it any more, or the time is over."""
    text, late = "", time.monotonic() + SECONDS
    while wanted is None or not any(is_line(it, wanted) for it in text.split(WIPED)):
        if not select.select([end], [], [], max(0, late - time.monotonic()))[0]:
            return text
        try:
            text += os.read(end, 4096).decode()
        except OSError:
            return text
    return text


def ending(child):
    """Waits for a run, and kills it where it doesn't end."""
    try:
        child.wait(SECONDS)
    except subprocess.TimeoutExpired:
        child.kill()


def held_run(place, jobs, fault, wanted, meanwhile=None, more=()):
    """Runs jobs at a terminal, held at a call until this line stands there, and something is done meanwhile: how that ends, and all that
    the terminal showed."""
    gate, key = os.pipe()
    end, terminal = os.openpty()
    how = {"stdin": subprocess.DEVNULL, "stderr": terminal, "pass_fds": (gate,), "env": {**place.fault(fault), "GATE": str(gate)}}
    with open(place.at("out"), "w+b") as out:
        with subprocess.Popen([*place.words(jobs, 1), *more], stdout=out, **how) as child:
            os.close(terminal)
            os.close(gate)
            text = shown(end, wanted)
            if meanwhile:
                meanwhile()
            os.close(key)
            text += shown(end)
            os.close(end)
            ending(child)
        out.seek(0)
        return Ended(child.returncode, out.read(), b""), text


def lines_of(text):
    """The lines that a terminal showed, each a text and its four numbers; it was wiped before each of them, and at the end. Only notes
    may come behind that: of the cache, and of what stands in bad blocks."""
    first, *lines = text.split(WIPED)
    noted = [it for it in lines.pop().splitlines(keepends=True) if not FOUND.match(it)] if lines else []
    if first or "".join(noted) not in ("", UNDROPPED.replace("\n", "\r\n")) or not lines or not all(LINE.fullmatch(it) for it in lines):
        raise Wrong(f"not the line and its end: {text[:200]!r} .. {text[-200:]!r}")
    return [(it, tuple(int(number) for number in LINE.fullmatch(it).groups())) for it in lines]


def stands(wanted, lines):
    if not any(is_line(it, wanted) for it, _ in lines):
        raise Wrong(f"{wanted!r} isn't one of {len(lines)} lines: {str(lines)[:400]}")


# Two clones of 8 MiB, twice over each, and one of 32 MiB: 64 MiB in 131072 blocks.
EXTENT = 131072
EXTENT_JOBS = "bs=512\n[a]\nrw=write\nsize=8m\nnumjobs=2\nloops=2\n[b]\nrw=randread\nsize=32m\n"
DONE = {0: "0.0", 1310: "0.9", 1311: "1.0", 65536: "50.0", 131071: "99.9", 131072: "100.0"}


class Files(Case):
    """What the program makes of files, and the line of a run over them."""

    kind = JobFolder
    at_once = 6

    @parts(1, 4, 16)
    def test_one_file(self, place, workers):
        """A real file holds what its job wrote."""
        ended = place.run("[w]\nrw=write\nsize=16k\nverify=pattern\nverify_pattern=0xab\n", workers)
        same("run", ended, said(0, total("w", writes=4, wbytes=16384, checks=4, good=4)))
        same("files", place.held(), {"w.0.0": blocks((16384, 0xAB))})

    @parts(1, 2, 4, 16)
    def test_offsets(self, place, workers):
        """Jobs write where their offsets say, and nowhere else in a longer file."""
        place.put("f", blocks((40000, 7)))
        jobs = "filename=f\nrw=write\nsize=8k\nverify=pattern\n[a]\noffset=4k\nverify_pattern=1\n[b]\noffset=16k\nverify_pattern=2\n"
        counts = {"writes": 2, "wbytes": 8192, "checks": 2, "good": 2}
        same("run", place.run(jobs, workers), said(0, total("a", **counts), total("b", 1, **counts)))
        same("files", place.held(), {"f": blocks((4096, 7), (8192, 1), (4096, 7), (8192, 2), (15424, 7))})

    @parts(1, 4)
    def test_link(self, place, workers):
        """A symbolic link is followed, and stays; its target is extended, and keeps what stands before the job."""
        place.put("target", blocks((100, 7)))
        os.symlink(os.path.join(place.jobs, "target"), os.path.join(place.jobs, "link"))
        ended = place.run("[w]\nfilename=link\nrw=write\nsize=4k\noffset=512\nbs=512\n", workers)
        same("run", ended, said(0, total("w", writes=8, wbytes=4096)))
        same("is a link", os.path.islink(os.path.join(place.jobs, "link")), True)
        held = place.held()["target"]
        same("target's length", len(held), 4608)
        same("before the job", held[:512], blocks((100, 7), (412, 0)))

    @parts(1, 2)
    def test_no_folder(self, place, workers):
        """In a folder that isn't there no file is opened, and none made; and those that were made go again."""
        missing = os.path.join(place.jobs, "missing")
        same("run", place.run("[w]\nfilename=f\nrw=write\nsize=4k\n", workers, missing), REFUSED)
        same("files", place.held(), {})
        jobs = f"rw=write\nsize=4k\n[a]\n[b]\ndirectory={missing}\n[c]\n"
        same("run of three", place.run(jobs, workers), REFUSED)
        same("files of three", place.held(), {})

    @parts(1, 2)
    def test_read_only(self, place, workers):
        """A file that may not be written is refused, and stays as it is; not so where root runs the program, who may write it."""
        jobs, old = "[w]\nfilename=f\nrw=write\nsize=4k\n", blocks((5000, 7))
        place.put("f", old)
        path = os.path.join(place.jobs, "f")
        os.chmod(path, 0o444)
        if os.getuid() == 0:
            same("nobody's run", place.run(jobs, workers, user=NOBODY, group=NOBODY, extra_groups=[]), REFUSED)
            same("files", place.held(), {"f": old})
        may = is_writable(path)
        same("run", place.run(jobs, workers), said(0, total("w", writes=1, wbytes=4096)) if may else REFUSED)
        held = place.held()["f"]
        same("was written", held[:4096] != old[:4096], may)
        same("behind the job", held[4096:], old[4096:])

    @parts(1, 4)
    def test_full_device(self, place, workers):
        """A device that refuses each write halts its clone at the first. It isn't made longer, whatever a seek to its end says."""
        jobs = "[w]\nfilename=full\nrw=write\nsize=16k\nverify=pattern\nverify_pattern=1\n"
        # (there is one such device, and a run refuses what another one holds)
        with FULL_DEVICE:
            ended, trace, calls = place.traced(jobs, workers, "lseek 1 at:16384", "/dev")
            shorter = place.run(jobs, workers, "/dev", env=place.fault("lseek 1 at:16383"))
        same("run", ended, said(1, total("w", faults=1)))
        same("reads and writes", calls, (0, 1))
        same("trace", re.sub(r"(?m)^([IE]) \d+", r"\1 W", trace), "I W 0 0 0 0\nE W 0 failed\n")
        same("run over a shorter device", shorter, said(1, total("w", faults=1)))

    @parts(4096, 6000)
    def test_cut_file(self, place, length):
        """A file that is cut in or before its second block before the third call, its first read, gives one fault, and no call fails."""
        jobs = "rw=write\nsize=8k\nverify=pattern\nverify_pattern=1\n[a]\nfilename=a\n[b]\nfilename=b\n"
        ended, trace, calls = place.traced(jobs, 1, f"pread 1 cut:{length}")
        counts = {"writes": 2, "wbytes": 8192}
        same("run", ended, said(1, total("a", checks=1, good=1, faults=1, **counts), total("b", 1, checks=2, good=2, **counts)))
        same("trace", trace, CUT_TRACE.format(rest=length - 4096))
        # (behind a part of a block a second read says that the file ends there)
        same("reads and writes", calls, (4 if length == 4096 else 5, 4))
        same("files", place.held(), {"a": blocks((length, 1)), "b": blocks((8192, 1))})

    def test_line_text(self):
        """The line says what was done: checks too: a run is held where 52 % are done, 91750 I/Os, 89120 checked, 2 bad."""
        place = self.place
        checked = 89120 - 2
        jobs = f"""rw=write\nbs=512\nverify=pattern\nverify_pattern=1
[z]\ndirectory=/dev\nfilename=zero\nsize=1k
[w]\nsize={(91750 - 2) * 512}\nverify_backlog={checked}
[r]\nrw=read\nverify=0\nbs=4m\nsize=80m
"""
        wanted = "fiorun: 52.0 % done, 91750 I/Os, 89120 checked, 2 bad"
        ended, text = held_run(place, jobs, "pwrite 91750 wait", wanted)
        stands(wanted, lines_of(text))
        same("status", ended.status, 1)

    @parts(*DONE)
    def test_hundredths(self, place, ios):
        """The hundredths are of all passes of all clones: a run is held where so many of its blocks are started."""
        jobs, fault = EXTENT_JOBS, f"pwrite {ios} wait" if ios <= EXTENT // 2 else f"pread {ios - EXTENT // 2} wait"
        if ios == 0:
            # (before the thread of a verifier is started, behind that of the line, no worker begins)
            jobs, fault = jobs + "verify_async=1\n", "pthread_create 2 wait"
        wanted = f"fiorun: {DONE[ios]} % done, {ios} I/Os, 0 checked, 0 bad"
        ended, text = held_run(place, jobs, fault, wanted)
        lines = lines_of(text)
        stands(wanted, lines)
        # (a line's hundredths are read before its I/Os, which go on meanwhile where the run isn't held)
        for it, (percent, started, checked, bad) in lines:
            same(it, (percent <= started * 100 // EXTENT, checked, bad), (True, 0, 0))
        counts = {"writes": 32768, "wbytes": 32768 * 512}
        same("run", ended, said(0, total("a", **counts), total("a", 1, **counts), total("b", 2, reads=65536, rbytes=65536 * 512)))

    def test_flipped_chunk(self):
        """A bit that is flipped in the file, between a block's write and its check, in its last chunk: that chunk is named, and listed."""
        place = self.place
        jobs = "[w]\nfilename=f\nrw=write\nbs=1m\nsize=2m\nverify=sha256\nverify_interval=4k\n"
        wanted = "fiorun: 50.0 % done, 2 I/Os, 0 checked, 0 bad"

        def flip():
            with open(os.path.join(place.jobs, "f"), "r+b") as it:
                it.seek(2 * MIB - 100)
                byte = it.read(1)[0]
                it.seek(2 * MIB - 100)
                it.write(bytes([byte ^ 4]))

        ended, text = held_run(place, jobs, "pread 1 wait", wanted, flip, [f"--bad-blocks={place.at('list')}"])
        stands(wanted, lines_of(text))
        with open(place.at("list"), encoding="ascii") as it:
            same("list", it.read(), "2044\n2045\n2046\n2047\n")
        bad = f"miscompare: clone=0 pass=0 number=1 file={place.jobs}/f offset={MIB} length={MIB} what=data:255\n"
        counts = {"writes": 2, "wbytes": 2 * MIB, "checks": 2, "good": 1, "bad": 1}
        same("run", ended, said(1, total("w", **counts) + bad))
