"""What a long run shows of how far it is.

A job over the null engine runs for some seconds, with one worker and with four, first with standard error at a terminal of its own and then
at a pipe. At the terminal there is at least one line, whose numbers never fall, and at the end it is wiped; at the pipe there is nothing.
Standard output and the status are the same in both runs. A job that ends before its first second gets twice as many loops.

Then both streams go to one terminal: in the end its screen holds the report, the notes and the maps, each line from column 0 and with
nothing of the run's line before it or behind it, also where I/Os fail and where Ctrl-C stops the run. --progress prints lines of their own,
and a byte at the pipe of --stop-fd one more.
"""

import fcntl
import os
import pty
import re
import struct
import subprocess
import termios
import time

from support.case import Case, parts
from support.program import LAUNCH, LINE, PRINTED, WIPED, SystemCalls, built_library, expect

SECONDS = 120
# (the most that a job file may ask for)
MOST = 1000
# A loop of these is 16,384 I/Os: of bad blocks alone; and of plain ones, with a few bad blocks behind them.
JOB = "[w]\nioengine=null\nrw=write\nbs=4k\nsize=64m\nloops={loops}\niodepth=16\nverify=md5\nverify_backlog=64\n"
SHORT = "[long]\nioengine=null\nrw=write\nbs=4k\nsize=64m\nloops={loops}\n[bad]\nioengine=null\nrw=write\nbs=4k\nsize=64k\nverify=md5\n"
# Two clones over files, of which one is halted by a fault.
FAULTY = "[global]\nioengine=psync\nrw=write\nbs=4k\nsize=64m\nloops={loops}\n[a]\n[b]\n"
# The lines that a report, its notes and its maps have.
DRAWN = re.compile(r"\r\x1b\[Kfiorun: \d+\.\d % done, ")
REPORT = re.compile(r"\S+: clone=\d+( \w+=\S+)+|fiorun: (note:|map of) .*|fiorun: interrupted|[BFvusgr.]+|fiorun: B bad, F fault, .*")
# What a note says of a bad block, or of how many more there are.
FOUND = re.compile(r"fiorun: note: (\S+ at \d+, \d+ bytes: .*|\d+ more bad blocks were looked into: .*)")


def said_at(end):
    """All that is said at a terminal's other end, until nobody holds it any more."""
    said = b""
    while True:
        try:
            some = os.read(end, 4096)
        except OSError:
            return said.decode()
        if not some:
            return said.decode()
        said += some


def at_terminal(words, out):
    """Runs the words with standard error at a terminal, and returns what was said there, and the status."""
    end, terminal = os.openpty()
    with subprocess.Popen(words, stdin=subprocess.DEVNULL, stdout=out, stderr=terminal) as child:
        os.close(terminal)
        said = said_at(end)
    os.close(end)
    return said, child.returncode


def long_enough(place, text, loops, run):
    """The first run of this job in which the line is drawn: what was said, the status, and its loops, which are twice as many each time."""
    while True:
        place.put("job", text.format(loops=loops))
        said, status = run()
        if DRAWN.search(said) or loops >= MOST:
            return said, status, loops
        loops = min(MOST, loops * 2)


def numbers_of(lines, which=LINE):
    """The numbers of these lines, of which none falls."""
    read = [which.fullmatch(line) for line in lines]
    expect(None not in read, "another line:", lines)
    numbers = [tuple(int(it) for it in line.groups()) for line in read]
    for older, newer in zip(numbers, numbers[1:]):
        expect(all(before <= now for before, now in zip(older, newer)), "a number fell:", older, newer)
    return numbers


def rows_of(said):
    """The lines that a terminal shows in the end, one that is wide enough for each."""
    rows, column = [""], 0
    for part in re.findall(r"\r|\n|\x1b\[K|[^\r\n\x1b]+|\x1b", said):
        if part == "\r":
            column = 0
        elif part == "\n":
            rows.append("")
        elif part == "\x1b[K":
            rows[-1] = rows[-1][:column]
        else:
            rows[-1] = rows[-1][:column].ljust(column) + part + rows[-1][column + len(part) :]
            column += len(part)
    return rows


def wait_until(is_so, why):
    deadline = time.monotonic() + SECONDS
    while not is_so():
        expect(time.monotonic() < deadline, why)
        time.sleep(0.01)


def has_begun(pid):
    """Does the program run, with a thread beside its first one? The program is this process, or one that it started."""
    try:
        with open(f"/proc/{pid}/task/{pid}/children", encoding="ascii") as it:
            below = it.read().split()
        return any(has_begun(int(it)) for it in below) if below else len(os.listdir(f"/proc/{pid}/task")) > 1
    except OSError:
        return False


def typed_after(pid, end, lines):
    """Types Ctrl-C where the run has begun and said how far it is so many times, and returns what was said until then."""
    wait_until(lambda: has_begun(pid), "the run didn't begin")
    said = b""
    while said.count(b" % done, ") < lines:
        said += os.read(end, 4096)
    os.write(end, b"\x03")
    return said.decode()


def on_one_terminal(place, words, stop_after=None, environment=None):
    """Runs the words with all streams at one terminal, and types Ctrl-C after so many lines: what was said there, and the status."""
    pid, end = pty.fork()
    if not pid:
        os.chdir(place.path)
        os.execvpe(words[0], words, environment or os.environ)
    fcntl.ioctl(end, termios.TIOCSWINSZ, struct.pack("HHHH", 50, 200, 0, 0))
    said = "" if stop_after is None else typed_after(pid, end, stop_after)
    said += said_at(end)
    os.close(end)
    return said, os.waitstatus_to_exitcode(os.waitpid(pid, 0)[1])


def whole(said, lines):
    """The rows of what was said, of which none has a rest of the run's line; it was drawn, so often at least."""
    drawn = len(DRAWN.findall(said))
    expect(drawn >= lines, f"drawn {drawn} times, and not {lines}:", said[:300])
    rows = rows_of(said)
    expect(rows.pop() == "", "an unended line:", rows[-1:])
    for row in rows:
        expect(REPORT.fullmatch(row) and "% done" not in row, "not a line of a report:", row)
    return rows


def asked(place, words, bytes_at, seconds):
    """Runs the words for so many seconds from when the run has begun, and writes these bytes into the pipe at these moments: its report,
    status and standard error, and the seconds that all this took."""
    reading, writing = os.pipe()
    words = [place.program, f"--stop-fd={reading}", *words, "job"]
    started = time.monotonic()
    with subprocess.Popen(
        words, cwd=place.path, pass_fds=[reading], stdin=subprocess.DEVNULL, stdout=subprocess.PIPE, stderr=subprocess.PIPE
    ) as it:
        os.close(reading)
        wait_until(lambda: has_begun(it.pid), "the run didn't begin")
        begun = time.monotonic()
        for moment, some in bytes_at:
            time.sleep(max(0, begun + moment - time.monotonic()))
            os.write(writing, some)
        time.sleep(max(0, begun + seconds - time.monotonic()))
        os.close(writing)
        out, said = it.communicate(timeout=SECONDS)
    return out, it.returncode, said.decode(), time.monotonic() - started


def times_of(place, words, every, seconds):
    """The times of the lines that are printed in so many seconds, with standard error a pipe: one each time, in order, none too late."""
    _, _, said, took = asked(place, [*words, f"--progress={every}"], [], seconds)
    times = [it[-1] for it in numbers_of(said.splitlines()[:-1], PRINTED)]
    expect(seconds // every - 1 <= len(times) <= took // every, f"{len(times)} lines in {took} seconds:", said)
    expect(all(it >= every * (number + 1) for number, it in enumerate(times)) and len({*times}) == len(times), "other times:", said)


class Progress(Case):
    """What a run shows of how far it is."""

    @parts(1, 4)
    def test_the_line(self, place, workers):
        """A line on a terminal, and nothing at a pipe."""
        words = [place.program, f"--workers={workers}", place.at("job")]
        with open(place.at("out"), "w+b") as out:

            def run():
                out.truncate(0)
                out.seek(0)
                return at_terminal(words, out)

            said, status, loops = long_enough(place, JOB, 16, run)
            out.seek(0)
            shown = out.read()
        plain = subprocess.run(words, stdin=subprocess.DEVNULL, capture_output=True, check=False)
        expect(not plain.stderr, "said where there is no terminal:", plain.stderr)
        expect((plain.stdout, plain.returncode) == (shown, status), "another report or status at a terminal:", shown, status, plain)
        first, *lines = said.split(WIPED)
        is_noted = re.fullmatch(r"fiorun: note: line 1: \[w\]: verify over ioengine=null: .*\r\n", first)
        is_wiped = lines and all(FOUND.fullmatch(it) for it in lines.pop().splitlines())
        expect(is_noted and is_wiped and lines, "no line, or one that isn't wiped:", said[:100], said[-100:])
        for percent, ios, checked, bad in numbers_of(lines):
            expect(0 < bad <= checked <= ios <= 16384 * loops and percent <= 100, "numbers that can't be:", percent, ios, checked, bad)
        self.says(f"{workers} workers: {len(lines)} lines, the last one: {lines[-1]}")

    @parts(1, 4)
    def test_one_terminal(self, place, workers):
        """A report with bad blocks and a map, behind a line that was drawn: it is that of a run without a terminal."""
        words = [place.program, f"--workers={workers}", "--map", "--notes", "job"]
        said, status, _ = long_enough(place, SHORT, 80, lambda: on_one_terminal(place, words))
        plain = subprocess.run(
            words, cwd=place.path, stdin=subprocess.DEVNULL, stdout=subprocess.PIPE, stderr=subprocess.STDOUT, text=True, check=False
        )
        rows = whole(said, 1)
        expect((rows, status) == (plain.stdout.splitlines(), plain.returncode), "another report:", rows, plain.stdout)
        is_map = any(it.startswith("fiorun: map of ") for it in rows)
        expect(sum(it.startswith("miscompare: ") for it in rows) == 16 and is_map, "no map:", rows)

    @parts(1, 4)
    def test_faults_on_one_terminal(self, place, workers):
        """The notes of faults, which come behind the report; and a run that ends by a fault line of its own."""
        library, counts = built_library("faulty.c"), place.at("counts")
        words = [place.program, f"--workers={workers}", "--cached", "job"]

        def run():
            return on_one_terminal(place, words, environment=SystemCalls(library, counts).environment("pwrite 100 5"))

        said, status, _ = long_enough(place, FAULTY, 12, run)
        rows = whole(said, 1)
        expect(status == 1 and any("write failed: clone=" in it for it in rows), f"status {status}, or no note of the fault:", rows)
        # (the report is the first thing that the program writes and not its line: a refused write of that is told on a line of its own)
        place.put("job", SHORT.format(loops=80))
        words = ["bash", "-c", '"$@" >/dev/full', "bash", place.program, f"--workers={workers}", "job"]
        said, status = on_one_terminal(place, words)
        rows = rows_of(said)
        # (the job's bad blocks are what the status tells first)
        noted = rows.pop(0)
        expect(noted.startswith("fiorun: note: line 7: [bad]: verify over ioengine=null: "), "no note of the job:", noted)
        rows = [it for it in rows if not FOUND.fullmatch(it)]
        expect((rows, status) == (["fiorun: cannot write", ""], 1), f"a report that can't be written: status {status}", rows)

    @parts(1, 4)
    def test_ctrl_c_on_one_terminal(self, place, workers):
        """A run that is stopped, before its first line and behind it."""
        place.put("job", SHORT.format(loops=MOST))
        for lines in (0, 2):
            said, status = on_one_terminal(place, [LAUNCH, place.program, f"--workers={workers}", "job"], lines)
            rows = whole(said, lines)
            expect(rows[-1] == "fiorun: interrupted" and status in (1, 130), f"status {status}:", rows)
            expect(sum(": clone=" in it for it in rows) >= 2, "no report:", rows)

    @parts(1, 4)
    def test_asked_by_bytes(self, place, workers):
        """A line for each byte p at the pipe, whatever stands between; standard output stays as it is."""
        place.put("job", SHORT.format(loops=MOST))
        bytes_at = [(0.3, b"p"), (0.6, b"pp"), (0.9, b"\n\0x"), (1.2, b"xpx")]
        out, status, said, took = asked(place, [f"--workers={workers}"], bytes_at, 1.6)
        *lines, last, rest = said.split("\n")
        expect((last, rest) == ("fiorun: interrupted", ""), "another end:", said)
        times = [it[-1] for it in numbers_of(lines, PRINTED)]
        expect(len(times) == 4, f"{len(times)} lines, and not 4:", said)
        expect(1 <= times[-1] <= took, f"other times, in {took} seconds:", said)
        expect(status in (1, 130) and all(REPORT.fullmatch(it) for it in out.decode().splitlines()), f"status {status}: {out[:300]}")

    @parts(1, 4)
    def test_each_second(self, place, workers):
        """--progress: 4 to 6 lines in 5 seconds, and their times; with standard error a pipe, and at a terminal."""
        place.put("job", SHORT.format(loops=MOST))
        words = [f"--workers={workers}"]
        times_of(place, words, 1, 5)
        times_of(place, words, 2, 5)
        said, _ = on_one_terminal(place, [LAUNCH, place.program, *words, "--progress=1", "job"], 3)
        rows = [it for it in rows_of(said) if "% done" in it]
        expect(not DRAWN.search(said) and len(numbers_of(rows, PRINTED)) >= 3, "other lines at a terminal:", said)
        for value in ("0", "86401", "-1", "1.5", ""):
            words = [place.program, f"--progress={value}", "job"]
            ran = subprocess.run(words, cwd=place.path, capture_output=True, check=False, timeout=SECONDS)
            expect((ran.returncode, ran.stdout) == (2, b""), f"--progress={value}: status {ran.returncode}: {ran.stdout}")
