"""Runs that are stopped at random moments, below the launcher and by a pipe of the checks' own: each ends soon, what it had begun has
ended and what was to be judged is, and its report is that of its trace. Then come signals at a terminal, `timeout`, a launcher that is
killed, and signals that ask for a line. TRIALS says how many are stopped (30), and SEED chooses other moments."""

import concurrent.futures
import contextlib
import os
import pty
import random
import re
import select
import shutil
import signal
import subprocess
import tempfile
import termios
import time

from support.case import Case
from support.place import Place
from support.program import FIELDS, LAUNCH, PRINTED, START, expect, needs, trials

SECONDS = 120
INTERRUPTED = b"fiorun: interrupted\n"
ALREADY = os.environ.get("SEED", str(random.randrange(1 << 32)))


# What a trace says, counted again.


class Counted:
    """What a trace's lines say: what was started, how it ended, and what was said of it."""

    def __init__(self, text):
        self.started, self.ends, self.verdicts, self.skips = [], {}, {}, 0
        for line in text.splitlines():
            kind, _, *rest = line.split(" ")
            if kind in "IP":
                expect(int(rest[0]) == len(self.started), "another number:", line)
                self.started.append((kind, int(rest[1]), tuple(rest[1:4])))
            elif kind == "E":
                expect(int(rest[0]) not in self.ends, "ended twice:", line)
                self.ends[int(rest[0])] = rest[1]
            elif kind == "V":
                expect(int(rest[0]) not in self.verdicts, "judged twice:", line)
                self.verdicts[int(rest[0])] = rest[1]
            else:
                expect(kind == "S", "no such line:", line)
                self.skips += 1

    def unended(self):
        return [io for io in range(len(self.started)) if io not in self.ends]

    def unjudged(self):
        return [
            io
            for io, (kind, *_) in enumerate(self.started)
            if kind == "P" and self.ends.get(io) == "whole" and io not in self.verdicts
        ]


def totals_of(report):
    """The sums of the report's lines."""
    sums = dict.fromkeys(FIELDS, 0)
    for line in report.decode().splitlines():
        if re.match(r"\S+: clone=\d+ ", line):
            for name, value in re.findall(r"(\w+)=(\d+)", line):
                if name in sums:
                    sums[name] += int(value)
    return sums


def looked_at(ended, trace, what):
    """Is the trace that of a run that was ended in order, and the report that of the trace? True where it was stopped halfway."""
    with open(trace, encoding="ascii") as it:
        counted = Counted(it.read())
    expect(not counted.unended(), f"{what}: in flight:", counted.unended()[:9])
    expect(not counted.unjudged(), f"{what}: not judged:", counted.unjudged()[:9])
    sums = totals_of(ended.stdout)
    good = sum(it == "good" for it in counted.verdicts.values())
    wrong = len(counted.verdicts) - good
    faults = sum(it != "whole" for it in counted.ends.values())
    own = sum(kind == "I" for kind, *_ in counted.started)
    expect(sums["reads"] + sums["writes"] + sum(
        counted.ends[io] != "whole" for io, (kind, *_) in enumerate(counted.started) if kind == "I"
    ) == own, f"{what}: I/Os of the report and of the trace:", sums, own)
    want = (len(counted.verdicts), good, wrong, counted.skips, faults)
    told = tuple(sums[it] for it in ("checks", "good", "bad", "skipped", "faults"))
    expect(told == want, f"{what}: the report's checks, good, bad, skipped and faults {told}, the trace's {want}")
    halfway = INTERRUPTED in ended.stderr
    status = 1 if wrong or faults else 130 if halfway else 0
    expect(ended.returncode == status, f"{what}: status {ended.returncode}, not {status}: {ended.stderr}")
    expect(ended.stderr in (b"", INTERRUPTED), f"{what}: said {ended.stderr}")
    return halfway


def checked_again(place, trace, halfway, is_twice, what):
    """`--check-trace --interrupted` takes it, and by itself it says whether there is more to come."""
    words = [place.program, f"--check-trace={trace}", "job"]
    if is_twice:
        plain = subprocess.run(words, cwd=place.path, capture_output=True, check=False, timeout=SECONDS)
        expect(plain.returncode == (2 if halfway else 0), f"{what}: the check of the trace ends with {plain.returncode}: {plain.stderr}")
    part = subprocess.run([*words, "--interrupted"], cwd=place.path, capture_output=True, check=False, timeout=SECONDS)
    expect(part.returncode == 0 and part.stdout, f"{what}: --interrupted ends with {part.returncode}: {part.stderr}")
    return part.stdout


# Jobs that are stopped at a moment by chance.


def job_at_random(chance):
    """A job that takes some seconds, and how it is run: its text, the words, and whether its blocks come back wrong."""
    engine = chance.choice(("memory", "psync", "null"))
    size = chance.choice((512, 4096, 65536, 1 << 20))
    lines = [
        "[global]",
        f"ioengine={engine}",
        f"bs={size}",
        f"rw={chance.choice(('write', 'randwrite', 'randrw', 'rw'))}",
        f"size={min(size * 2000, 8 << 20)}",
        f"loops={chance.choice((100, 300))}",
        f"iodepth={chance.choice((1, 4, 32))}",
        # (what an engine of zeros gives back is wrong)
        f"verify={chance.choice(('md5', 'sha256', 'pattern' + chr(10) + 'verify_pattern=0x5a'))}",
        f"verify_backlog={chance.choice((1, 16, 1000))}",
        "verify_fatal=0",
        f"verify_async={chance.choice((0, 2))}",
        "[a]",
        f"numjobs={chance.choice((1, 2))}",
    ]
    lines = [it for it in lines if it != "verify_async=0"]
    return "\n".join(lines) + "\n", [f"--workers={chance.choice((1, 4, 16))}"]


def by_signal(place, words, moment, chance):
    """Stops a run below the launcher by a signal; how long it took to end."""
    with subprocess.Popen(
        [LAUNCH, place.program, *words], cwd=place.path, stdin=subprocess.DEVNULL, stdout=subprocess.PIPE, stderr=subprocess.PIPE
    ) as it:
        time.sleep(moment)
        asked = time.monotonic()
        it.send_signal(chance.choice((signal.SIGINT, signal.SIGTERM, signal.SIGHUP)))
        out, err = it.communicate(timeout=SECONDS)
    return subprocess.CompletedProcess(words, it.returncode, out, err), time.monotonic() - asked


def by_pipe(place, words, moment, _chance):
    """The same with no launcher, by the end of a pipe."""
    reading, writing = os.pipe()
    with subprocess.Popen(
        [place.program, f"--stop-fd={reading}", *words],
        cwd=place.path,
        pass_fds=[reading],
        stdin=subprocess.DEVNULL,
        stdout=subprocess.PIPE,
        stderr=subprocess.PIPE,
    ) as it:
        os.close(reading)
        time.sleep(moment)
        asked = time.monotonic()
        os.close(writing)
        out, err = it.communicate(timeout=SECONDS)
    return subprocess.CompletedProcess(words, it.returncode, out, err), time.monotonic() - asked


def stopped_once(place, number):
    """Stops one run: whether it was halfway, and how long it took to end."""
    chance = random.Random(f"{ALREADY} {number}")
    with tempfile.TemporaryDirectory(dir=place.path) as folder:
        inner = Place(place.program, folder)
        text, words = job_at_random(chance)
        inner.put("job", text)
        stop = chance.choice((by_signal, by_pipe))
        if stop is by_signal and not shutil.which("perl"):
            stop = by_pipe
        moment = chance.choice((0, 0.05, 0.15)) + chance.random() * 0.2
        words = [*words, "--cached", "--trace=trace", "job"]
        what = f"stop {number} (SEED={ALREADY}), {stop.__name__}, after {moment:.2f} s, {words}, {text!r}"
        ended, took = stop(inner, words, moment, chance)
        if ended.returncode < 0 and not ended.stdout:
            # (the signal came before the launcher had begun)
            return False, 0
        halfway = looked_at(ended, inner.at("trace"), what)
        expect(checked_again(inner, "trace", halfway, number % 3 == 0, what) == totals_only(ended.stdout), f"{what}: other totals")
        return halfway, took


def totals_only(report):
    return b"".join(it for it in report.splitlines(keepends=True) if re.match(rb"(?!miscompare: )\S+: clone=\d+ ", it))


# Signals, a terminal, and others who stop a run.

LONG = "[w]\nioengine=null\nrw=write\nbs=4k\nsize=64m\nloops=900\nverify=md5\nverify_backlog=64\nverify_fatal=0\n"
PLAIN = "[w]\nioengine=null\nrw=write\nbs=4k\nsize=64m\nloops=900\n"


class Terminal:
    """A shell with job control at a terminal of its own."""

    def __init__(self, place):
        self.said = b""
        self.pid, self.end = pty.fork()
        if not self.pid:
            os.chdir(place.path)
            os.execvpe("bash", ["bash", "--norc", "--noprofile", "-i"], {**os.environ, "PS1": "ready> ", "HISTFILE": "", "TERM": "dumb"})
        modes = termios.tcgetattr(self.end)
        modes[3] &= ~termios.ECHO
        termios.tcsetattr(self.end, termios.TCSANOW, modes)

    def until(self, wanted):
        """All that is said until this is, and with it."""
        deadline = time.monotonic() + SECONDS
        while not (found := re.search(wanted, self.said)):
            expect(time.monotonic() < deadline, f"not said: {wanted!r}, but", self.said[-300:])
            if select.select([self.end], [], [], 0.2)[0]:
                self.said += os.read(self.end, 4096)
        front, self.said = self.said[: found.end()], self.said[found.end() :]
        return front

    def types(self, text):
        os.write(self.end, text)

    def close(self):
        with contextlib.suppress(OSError):
            os.kill(self.pid, signal.SIGKILL)
        os.waitpid(self.pid, 0)
        os.close(self.end)


# Signals that ask for a line.


def lines_of(said):
    """The numbers of the printed lines, of which none falls."""
    read = [PRINTED.fullmatch(it) for it in said.decode().splitlines()]
    expect(None not in read, "another line:", said)
    numbers = [tuple(int(it) for it in line.groups()) for line in read]
    for older, newer in zip(numbers, numbers[1:]):
        expect(all(before <= now for before, now in zip(older, newer)), "a number fell:", older, newer)
    return numbers


def signalled(place, chance, stops):
    """A run with fifty of these signals at any moments, begun by somebody who has them ignored; and one more that stops it."""
    numbers = [(chance.random() * 0.5, signal.SIGUSR1) for _ in range(50)] + [(0.3, signal.SIGINT)] * stops
    with subprocess.Popen(
        [START, place.program, LAUNCH, "job"],
        cwd=place.path,
        stdin=subprocess.DEVNULL,
        stdout=subprocess.PIPE,
        stderr=subprocess.PIPE,
        preexec_fn=lambda: signal.signal(signal.SIGUSR1, signal.SIG_IGN),
    ) as it:
        begun = time.monotonic()
        for moment, number in sorted(numbers):
            time.sleep(max(0, begun + moment - time.monotonic()))
            # (it isn't waited for before, so that nobody else has its number)
            os.kill(it.pid, number)
        out, err = it.communicate(timeout=SECONDS)
    return it.returncode, out, err


class Stop(Case):
    """Runs that are stopped, and signals that ask for a line."""

    def test_random_stops(self):
        """Runs that are stopped at a moment by chance."""
        place = self.place
        count, halfway, slowest = trials(30), 0, (0.0, 0)
        with concurrent.futures.ThreadPoolExecutor(3) as pool:
            for number, (stopped, took) in enumerate(pool.map(lambda number: stopped_once(place, number), range(count))):
                halfway += stopped
                slowest = max(slowest, (took, number))
        took, number = slowest
        self.says(f"SEED={ALREADY}: {count} stops, {halfway} of them halfway; the slowest, number {number}, ended after {took:.2f} s")
        expect(halfway > count // 3, f"only {halfway} of {count} runs were stopped halfway")

    def test_timeout_reports(self):
        place = self.place
        needs("perl")
        for text in (PLAIN, LONG):
            place.put("job", text)
            words = ["timeout", "--preserve-status", "1", LAUNCH, place.program, "job"]
            ran = subprocess.run(words, cwd=place.path, capture_output=True, check=False, timeout=SECONDS)
            sums = totals_of(ran.stdout)
            status = 1 if sums["bad"] else 130
            expect((ran.returncode, ran.stderr) == (status, INTERRUPTED), f"status {ran.returncode}: {ran.stderr}")
            expect(sums["writes"] > 0, f"no report: {ran.stdout}")

    def test_a_killed_launcher_leaves_a_report(self):
        place = self.place
        needs("perl")
        place.put("job", PLAIN)
        with open(place.at("out"), "w+b") as out:
            how = {"stdin": subprocess.DEVNULL, "stdout": out, "stderr": subprocess.STDOUT}
            with subprocess.Popen([LAUNCH, place.program, "job"], cwd=place.path, **how) as it:
                time.sleep(1)
                it.kill()
            deadline = time.monotonic() + 10
            while INTERRUPTED not in (said := open(place.at("out"), "rb").read()):
                expect(time.monotonic() < deadline, f"no report: {said}")
                time.sleep(0.05)
            expect(totals_of(said)["writes"] > 0, f"no report: {said}")

    def test_a_second_signal_kills(self):
        """At once, though the program doesn't answer the first one; and one that comes at once behind the first is the same."""
        place = self.place
        needs("perl")
        place.put("job", PLAIN)
        for name in ("INT", "TERM", "HUP"):
            number = signal.Signals["SIG" + name]
            with subprocess.Popen([LAUNCH, place.program, "job"], cwd=place.path, stdin=subprocess.DEVNULL, stdout=subprocess.PIPE) as it:
                time.sleep(0.5)
                child = int(subprocess.run(["pgrep", "-P", str(it.pid)], capture_output=True, text=True, check=True).stdout)
                os.kill(child, signal.SIGSTOP)
                it.send_signal(number)
                time.sleep(0.1)
                it.send_signal(number)
                time.sleep(0.8)
                expect(it.poll() is None, f"{name}: a signal that came twice at once killed the program")
                it.send_signal(number)
                out = it.communicate(timeout=SECONDS)[0]
            expect((it.returncode, out) == (-number, b""), f"{name}: status {it.returncode}: {out}")

    def test_ignored_signals_stay_ignored(self):
        """As below nohup."""
        place = self.place
        needs("perl")
        place.put("job", PLAIN)
        with subprocess.Popen(
            [LAUNCH, place.program, "job"],
            cwd=place.path,
            stdin=subprocess.DEVNULL,
            stdout=subprocess.PIPE,
            stderr=subprocess.PIPE,
            preexec_fn=lambda: signal.signal(signal.SIGHUP, signal.SIG_IGN),
            restore_signals=False,
        ) as it:
            time.sleep(0.5)
            it.send_signal(signal.SIGHUP)
            time.sleep(0.5)
            expect(it.poll() is None, "ended by a signal that was ignored")
            it.send_signal(signal.SIGTERM)
            out, err = it.communicate(timeout=SECONDS)
        expect((it.returncode, err) == (130, INTERRUPTED) and out, f"status {it.returncode}: {err}")

    def test_other_values_are_refused(self):
        """A pipe that isn't there, and one that stays open until the run has ended."""
        place = self.place
        place.put("job", PLAIN.replace("loops=900\n", ""))
        for value in ("99", "x", ""):
            words = [place.program, f"--stop-fd={value}", "job"]
            ran = subprocess.run(words, cwd=place.path, capture_output=True, check=False, timeout=SECONDS)
            expect((ran.returncode, ran.stdout) == (3, b""), f"--stop-fd={value}: status {ran.returncode}: {ran.stdout}{ran.stderr}")
        reading, writing = os.pipe()
        words = [place.program, f"--stop-fd={reading}", "job"]
        ran = subprocess.run(words, cwd=place.path, pass_fds=[reading], capture_output=True, check=False, timeout=SECONDS)
        os.close(reading)
        os.close(writing)
        expect((ran.returncode, ran.stderr) == (0, b""), f"a pipe that stays open: status {ran.returncode}: {ran.stderr}")
        expect(totals_of(ran.stdout)["writes"] == 16384, f"no whole run: {ran.stdout}")

    def test_at_a_terminal(self):
        """Ctrl-C reports on a line of its own; Ctrl-Z and fg go on; two Ctrl-C end at once."""
        place = self.place
        needs("perl")
        place.put("job", PLAIN)
        terminal = Terminal(place)
        try:
            terminal.until(b"ready> ")
            command = f"{LAUNCH} {place.program} job; echo ended=$?\n".encode()
            for pause in (0.4, 1.6):
                terminal.types(command)
                time.sleep(pause)
                terminal.types(b"\x03")
                said = terminal.until(rb"ended=\d+\r\n")
                lines = said.split(b"\r\n")
                expect(lines[-2] == b"ended=130", "Ctrl-C:", said)
                shown = [re.sub(rb".*\r\x1b\[K", b"", it) for it in lines]
                expect(any(it.startswith(b"w: clone=0 ") for it in shown), "no report on a line of its own:", said)
                expect(b"fiorun: interrupted" in shown, "not said on a line of its own:", said)
                terminal.until(b"ready> ")
            terminal.types(command)
            time.sleep(0.4)
            terminal.types(b"\x1a")
            terminal.until(b"Stopped")
            terminal.until(b"ready> ")
            terminal.types(b"fg\n")
            time.sleep(0.8)
            terminal.types(b"\x03")
            terminal.until(rb"fiorun: interrupted\r\n")
            terminal.until(b"ready> ")
        finally:
            terminal.close()

    def test_five_signals_print_five_lines(self):
        """With standard error a file; to the launcher, and to all processes of the program's name."""
        place = self.place
        needs("perl")
        place.put("job", PLAIN.replace("loops=900", "loops=150"))
        plain = subprocess.run([LAUNCH, place.program, "job"], cwd=place.path, capture_output=True, check=True, timeout=SECONDS)
        expect(plain.stderr == b"", "said unasked:", plain.stderr)
        name = os.path.basename(place.program)

        def by_name(it):
            subprocess.run(["pkill", "-USR1", "-s", str(it.pid), name], check=True)

        for tell in (lambda it: it.send_signal(signal.SIGUSR1), by_name):
            how = {"stdin": subprocess.DEVNULL, "stdout": subprocess.PIPE, "start_new_session": True, "cwd": place.path}
            with open(place.at("err"), "w+b") as err, subprocess.Popen([LAUNCH, place.program, "job"], stderr=err, **how) as it:
                time.sleep(0.4)
                for count in range(1, 6):
                    tell(it)
                    deadline = time.monotonic() + 10
                    while len(lines := open(place.at("err"), "rb").readlines()) < count:
                        expect(time.monotonic() < deadline, f"no line number {count}:", lines)
                        time.sleep(0.05)
                out = it.communicate(timeout=SECONDS)[0]
                err.seek(0)
                numbers = lines_of(err.read())
            expect((it.returncode, out) == (0, plain.stdout), f"another report, or status {it.returncode}: {out}")
            expect(len(numbers) == 5 and all(percent <= 100 for percent, *_ in numbers), "other lines:", numbers)
            ios = [it for _, it, *_ in numbers]
            # (on a busy machine nothing may have been done between two of them)
            expect(ios == sorted(ios) and ios[0] < ios[-1], "not one after another:", numbers)

    def test_a_signal_at_the_end_does_no_harm(self):
        """A short run, and signals one after another until it has ended: the launcher's own last moments are among theirs."""
        place = self.place
        needs("perl")
        place.put("job", PLAIN.replace("size=64m", "size=4k").replace("loops=900", "loops=1"))
        plain = subprocess.run([place.program, "job"], cwd=place.path, capture_output=True, check=True, timeout=SECONDS)
        for _ in range(60):
            with subprocess.Popen(
                [START, place.program, LAUNCH, "job"],
                cwd=place.path,
                stdin=subprocess.DEVNULL,
                stdout=subprocess.PIPE,
                stderr=subprocess.DEVNULL,
                preexec_fn=lambda: signal.signal(signal.SIGUSR1, signal.SIG_IGN),
            ) as it:
                # (it isn't waited for before, so that nobody else has its number)
                while not os.waitid(os.P_PID, it.pid, os.WEXITED | os.WNOHANG | os.WNOWAIT):
                    os.kill(it.pid, signal.SIGUSR1)
                    # (perl takes no more than 120 signals between two of its steps)
                    time.sleep(0.0002)
                out = it.communicate(timeout=SECONDS)[0]
            expect((it.returncode, out) == (0, plain.stdout), f"another report, or status {it.returncode}: {out}")

    def test_a_thousand_signals_do_no_harm(self):
        """From before the launcher is there until behind the program's end."""
        place = self.place
        needs("perl")
        chance = random.Random(f"{ALREADY} lines")
        place.put("job", PLAIN.replace("loops=900", "loops=10"))
        plain = subprocess.run([place.program, "job"], cwd=place.path, capture_output=True, check=True, timeout=SECONDS)
        printed = 0
        for _ in range(16):
            status, out, err = signalled(place, chance, 0)
            expect((status, out) == (0, plain.stdout), f"SEED={ALREADY}: another report, or status {status}: {out}")
            printed += len(lines_of(err))
        place.put("job", PLAIN)
        for _ in range(4):
            status, out, err = signalled(place, chance, 1)
            expect(status == 130 and totals_of(out)["writes"] > 0, f"SEED={ALREADY}: status {status}: {out}")
            expect(err.endswith(INTERRUPTED), f"SEED={ALREADY}: {err}")
            printed += len(lines_of(err[: -len(INTERRUPTED)]))
        expect(0 < printed <= 1000, f"SEED={ALREADY}: {printed} lines")
