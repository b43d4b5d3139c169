"""Runs below the launcher, and below one of the checks' own: checks read the device and not the system's cache, all goes on where
nothing can be dropped, and the launcher shows nowhere."""

import bisect
import contextlib
import os
import re
import resource
import shutil
import signal
import stat
import subprocess
import sys
import time

from support.case import Case
from support.disks import CLEAN, job_of, launched, loop_device, run, totals_of
from support.own_launcher import Launcher
from support.program import LAUNCH, MIB, START, TOP, Skipped, expect, needs

SECONDS = 60


def clean(ran, what):
    expect((ran.returncode, ran.stdout, ran.stderr) == (0, CLEAN, ""), f"{what}: status {ran.returncode}: {ran.stdout}{ran.stderr}")


def needs_disk(place):
    """A file system that a device stands below."""
    kind = subprocess.run(["stat", "-f", "-c", "%T", place.path], capture_output=True, text=True, check=False).stdout.strip()
    if kind in ("tmpfs", "ramfs", "overlayfs", ""):
        raise Skipped(f"{place.path} is no disk but {kind}")


# What is read, and in what order.


def blocks_read(place, job, *words):
    """How many bytes a run had the system read from devices."""
    before = resource.getrusage(resource.RUSAGE_CHILDREN).ru_inblock
    ran = launched(place, job, *words)
    expect((ran.returncode, ran.stderr) == (0, ""), f"{words}: status {ran.returncode}: {ran.stdout}{ran.stderr}")
    return (resource.getrusage(resource.RUSAGE_CHILDREN).ru_inblock - before) * 512


LETTERS = {"pwrite64": "w", "fdatasync": "s", "write": "d", "fadvise64": "f", "read": "a", "pread64": "r"}


def offset_of(letter, rest):
    """The offset that a call is about; none for an answer that nothing of the file is cached."""
    if letter == "a" and '":"' in rest:
        return None
    found = re.search(r'"clean \d+ (\d+) ' if letter == "d" else r", (\d+) ?\) += ", rest)
    return int(found[1]) if found else 0


def calls_of(log):
    """The calls of a trace that count: (letter, process, line of its begin, line of its end, offset)."""
    begun = {}
    for number, line in enumerate(log.splitlines()):
        process, text = line.split(None, 1)
        if "<unfinished ...>" in text:
            begun[process] = (number, text.replace("<unfinished ...>", ""))
            continue
        start = number
        if resumed := re.match(r"<\.\.\. \w+ resumed>(.*)", text):
            start, front = begun.pop(process)
            text = front.rstrip() + " " + resumed[1]
        if not (call := re.match(r"(\w+)\((\d+)<([^>]*)>(.*)", text)) or call[1] not in LETTERS:
            continue
        letter, rest = LETTERS[call[1]], call[4]
        if letter in "wrs" and not call[3].endswith("/f"):
            continue
        if letter == "d" and '"clean ' not in rest or letter == "a" and not re.search(r'"[:.]", 1\)', rest):
            continue
        yield letter, process, start, number, offset_of(letter, rest)


def traced(place, job, *words):
    needs("strace")
    log = place.at("calls")
    calls = "trace=" + ",".join(LETTERS)
    ran = run(place, job, "-f", "-y", "-o", log, "-e", calls, LAUNCH, place.program, *words, program="strace")
    if not os.path.exists(log) or "strace:" in ran.stderr:
        raise Skipped(f"strace is refused: {ran.stderr[:80]}")
    clean(ran, f"{words}")
    with open(log, encoding="utf-8", errors="replace") as it:
        return list(calls_of(it.read()))


def drops_of(calls):
    """Each (begin of a sync, end of the answer, offset): a sync that has ended, a request behind it, and an answer that nothing is cached,
    of the block at that offset or, with none, of the file."""
    synced, asked, drops = -1, {}, []
    for letter, process, start, end, offset in sorted(calls, key=lambda call: call[3]):
        if letter == "s":
            synced = max(synced, start)
        elif letter == "d":
            asked[process] = (synced, offset)
        elif letter == "a" and process in asked:
            begin, spot = asked.pop(process)
            drops.append((begin, end, None if offset is None else spot))
    return drops


def dropped(path):
    it = os.open(path, os.O_RDONLY)
    os.posix_fadvise(it, 0, 0, os.POSIX_FADV_DONTNEED)
    os.close(it)
    return b":"


# What starts below the launcher is as if it were started alone.


def script(place, name, text):
    path = place.at(name)
    with open(path, "w", encoding="utf-8") as it:
        it.write("#!/usr/bin/env python3\nimport os, signal, sys, time\n" + text)
    os.chmod(path, 0o755)
    return path


def both(path, *words, **more):
    """What a program says and how it ends, alone and below the launcher."""
    more = {"capture_output": True, "text": True, "timeout": SECONDS, "check": False, **more}
    alone = subprocess.run([path, *words], **more)
    below = subprocess.run([LAUNCH, path, *words], **more)
    return [(it.returncode, it.stdout, it.stderr) for it in (alone, below)]


def same(alone, below, what):
    expect(alone == below, f"{what}: alone {alone}, below the launcher {below}")


def begun(place, words, **more):
    """Starts a program that says its number, and waits for that."""
    it = subprocess.Popen(words, stdout=subprocess.PIPE, text=True, cwd=place.path, **more)
    return it, int(it.stdout.readline())


def lives(pid):
    try:
        with open(f"/proc/{pid}/stat", encoding="utf-8") as it:
            return it.read().rsplit(")", 1)[1].split()[0] != "Z"
    except OSError:
        return False


class Drop(Case):
    """Whether checks read the device, and that the launcher shows nowhere."""

    where = "/var/tmp"
    tools = ("perl",)

    def test_checks_read_the_device(self):
        place = self.place
        needs_disk(place)
        for backlog in (0, 1000):
            job = job_of("16m", [f"verify_backlog={backlog}", "iodepth=4"])
            for words in (["--workers=1"], ["--workers=4"]):
                read = blocks_read(place, job, *words)
                expect(read >= 16 * MIB, f"{backlog}, {words}: {read} bytes were read from the device")
                read = blocks_read(place, job, "--cached", *words)
                expect(read < MIB, f"{backlog}, {words}, --cached: {read} bytes were read from the device")

    def test_what_a_run_finds_is_read_from_the_device(self):
        """A file of another program's is dropped before a run reads it."""
        place = self.place
        needs_disk(place)
        with open(place.at("f"), "wb") as it:
            it.write(bytes(4 * MIB))
        job = "[r]\nioengine=psync\nrw=read\nsize=4m\nfilename=f\n"
        read = blocks_read(place, job)
        expect(read >= 4 * MIB, f"{read} bytes were read from the device")
        read = blocks_read(place, job, "--cached")
        expect(read < MIB, f"--cached: {read} bytes were read from the device")

    def test_each_check_stands_behind_a_drop(self):
        """Between a write's end and its check lie a sync's begin and the end of the drop behind it."""
        place = self.place
        for backlog in (0, 3, 1000):
            for workers in (1, 4):
                with contextlib.suppress(FileNotFoundError):
                    os.remove(place.at("f"))
                job = job_of(more=[f"verify_backlog={backlog}", "iodepth=8"])
                calls = traced(place, job, f"--workers={workers}")
                what = f"verify_backlog={backlog}, {workers} workers"
                # (workers that sync at once don't wait for one another, so a drop may begin before another and end behind it)
                drops, written, checks = sorted(drops_of(calls), key=lambda drop: drop[0]), {}, 0
                begins = [drop[0] for drop in drops]
                for letter, _, start, end, offset in calls:
                    if letter == "w":
                        written[offset] = end
                    elif letter == "r":
                        checks += 1
                        first = bisect.bisect(begins, written[offset])
                        stands = any(answered < start and spot in (None, offset) for _, answered, spot in drops[first:])
                        expect(stands, f"{what}: the check at {offset} is read with no drop before")
                expect(checks == 256, f"{what}: {checks} checks")
                if workers == 1 and backlog == 0:
                    order = "".join(letter for letter, *_ in calls if letter != "f")
                    expect(re.fullmatch("w?sdaw+sdar+", order), f"{what}: {order[:9]}..{order[-9:]}")

    def test_a_zeroed_disk_is_bad_in_every_block(self):
        """The image of a loop device is zeroed behind the sync. With the drop each check sees it, and without it none would."""
        place = self.place
        image = place.at("image")
        with loop_device(image, MIB) as device:
            subprocess.run(["losetup", "--direct-io=on", device], capture_output=True, check=False)
            job = job_of(more=["directory=/dev"], filename=os.path.basename(device))
            for drops in (True, False):

                def answer(asked, path, drops=drops):
                    # (the first request stands before the run)
                    if asked > 0:
                        with open(image, "r+b") as it:
                            it.write(bytes(MIB))
                            it.flush()
                            os.fsync(it.fileno())
                    return dropped(path) if drops else b"!"

                it = Launcher(place, job, "--workers=1")
                asked, ran = it.answer_all(answer), it.ended()
                totals = totals_of(ran.stdout)
                expect(asked == 2, f"{asked} requests")
                bad = 256 if drops else 0
                found = (totals["checks"], totals["bad"])
                expect(found == (256, bad), f"drops {drops}: status {ran.returncode}: {ran.stdout[:200]}{ran.stderr}")

    def test_a_run_goes_on_without_drops(self):
        """Whatever the launcher answers, and also where it ends, the report and the status are the same."""
        place = self.place
        for workers in ("--workers=1", "--workers=4"):
            for answers in ([b"!"], [b"x"], [b":", b"!"], [b"~"], [b"-"], [b"?"], [b":", b"~"], [None], [b":", None], [b"!", b"!", None]):
                for backlog in (0, 3):
                    it = Launcher(place, job_of(more=[f"verify_backlog={backlog}", "iodepth=4"]), workers)
                    it.answer_all(lambda asked, _, answers=answers: answers[min(asked, len(answers) - 1)])
                    ran = it.ended()
                    what = f"{workers}, {answers}, verify_backlog={backlog}"
                    expect((ran.returncode, ran.stdout) == (0, CLEAN), f"{what}: status {ran.returncode}: {ran.stdout}{ran.stderr}")
            it = Launcher(place, job_of(), workers)
            it.end_pipes()
            ran = it.ended()
            what = f"{workers}, pipes that have ended"
            expect((ran.returncode, ran.stdout) == (0, CLEAN), f"{what}: status {ran.returncode}: {ran.stdout}{ran.stderr}")

    def test_other_values_are_no_launcher(self):
        place = self.place
        for value in ("", ",", ":", "x:y", "9999:9998", "4294967296:1", "-1:-1", "3", "3:", "1/../0:2"):
            ran = run(place, job_of(), f"--drop-pipes={value}")
            expect((ran.returncode, ran.stdout) == (0, CLEAN), f"{value}: status {ran.returncode}: {ran.stdout}{ran.stderr}")

    def test_statuses_are_passed_on(self):
        place = self.place
        end = script(place, "end", "n = int(sys.argv[-1])\nsys.exit(n)\n")
        for status in (0, 1, 2, 3, 77, 255):
            same(*both(end, str(status)), f"status {status}")
        text = "n = int(sys.argv[-1])\nif n != 9: signal.signal(n, signal.SIG_DFL)\nos.kill(os.getpid(), n)\ntime.sleep(9)\n"
        end = script(place, "killed", text)
        for name in ("HUP", "INT", "QUIT", "ABRT", "KILL", "USR1", "SEGV", "PIPE", "ALRM", "TERM"):
            same(*both(end, str(int(signal.Signals["SIG" + name])), cwd=place.path), name)
        ran = subprocess.run([LAUNCH, place.at("none")], capture_output=True, text=True, check=False)
        expect(ran.returncode == 3 and ran.stderr.startswith("fiorun: cannot start "), f"no program: {ran}")

    def test_all_else_is_passed_on(self):
        """Standard input, words, folder, group, environment, open descriptors, and which signals are ignored or blocked, but those that ask
    for a stop or a line."""
        place = self.place
        seen = script(
            place,
            "seen",
            """
words = [it for it in sys.argv[1:] if not it.startswith(("--drop-pipes=", "--stop-fd="))]
pipes = [it for it in sys.argv[1:] if it not in words]
ours = {int(it) for some in pipes for it in some.split("=")[1].replace(":", ",").split(",")}
asked = sum(1 << it - 1 for it in (signal.SIGHUP, signal.SIGINT, signal.SIGTERM, signal.SIGUSR1))
if set(words) & {"open"}:
    numbers = sorted(int(it) for it in os.listdir("/proc/self/fd"))
    print([it for it in numbers if it not in ours and os.path.exists(f"/proc/self/fd/{it}")], file=sys.stderr)
with open("/proc/self/status") as it:
    print([int(line[8:], 16) & ~asked for line in it if line.startswith(("SigIgn", "SigBlk", "SigCgt"))])
print(words, os.getcwd(), os.getpgrp(), os.getsid(0), sorted(os.environ.items()))
if "open" not in words:
    print(sys.stdin.read())
""",
        )
        same(*both(seen, "a", "", "b c", "--workers", "3", input="some\ninput", cwd=place.path), "words and input")
        # (SIGCHLD, which perl takes back, is nothing to a program without children)
        for ignored in ((), ("HUP", "INT", "QUIT", "TERM", "PIPE")):
            numbers = [signal.Signals["SIG" + it] for it in ignored]

            def ignore(numbers=numbers):
                for it in numbers:
                    signal.signal(it, signal.SIG_IGN)

            same(*both(seen, preexec_fn=ignore, restore_signals=False, input=""), f"ignored {ignored}")
        for closed in ("", "<&-", ">&-", "<&- >&-", "2>&-", "<&- >&- 2>&-"):
            answers = []
            for words in ([seen, "open"], [LAUNCH, seen, "open"]):
                words = ["sh", "-c", f'exec "$@" {closed}', "sh", *words]
                ran = subprocess.run(words, capture_output=True, text=True, check=False, stdin=subprocess.DEVNULL)
                answers.append((ran.returncode, ran.stderr.splitlines()[-1:] if "2>" not in closed else []))
            same(*answers, f"closed {closed}")

    def test_signals_end_both(self):
        """What comes to the launcher alone, or to the whole group, ends both at once by that signal, where the launcher can't ask for a
        stop; and one that asks for a line ends neither."""
        place = self.place
        sleep = script(place, "sleep", "signal.signal(signal.SIGINT, signal.SIG_DFL)\nprint(os.getpid(), flush=True)\ntime.sleep(50)\n")
        for name in ("TERM", "HUP", "INT", "QUIT", "KILL"):
            for group in (False, True):
                it, pid = begun(place, [LAUNCH, sleep, "--stop-fd=0"], start_new_session=True)
                number = signal.Signals["SIG" + name]
                for one in (signal.SIGUSR1, number):
                    (os.killpg if group else os.kill)(it.pid, one)
                status = it.wait(timeout=SECONDS)
                for _ in range(100):
                    if not lives(pid):
                        break
                    time.sleep(0.02)
                what = f"{name} to {'both' if group else 'the launcher'}"
                expect(status == -number, f"{what}: status {status}")
                expect(not lives(pid), f"{what}: the program goes on")

    def test_stops_and_goes_on(self):
        """A stop of the group, as by Ctrl-Z, stops both; and both go on."""
        place = self.place
        count = script(place, "count", "print(os.getpid(), flush=True)\nfor _ in range(20):\n    time.sleep(0.05)\nprint('done')\n")
        it, pid = begun(place, [LAUNCH, count], start_new_session=True)
        # (the group of a session that its leader's parent is not in is orphaned, and takes no SIGTSTP)
        os.killpg(it.pid, signal.SIGSTOP)
        time.sleep(0.2)
        states = []
        for who in (it.pid, pid):
            with open(f"/proc/{who}/stat", encoding="utf-8") as file:
                states.append(file.read().rsplit(")", 1)[1].split()[0])
        os.killpg(it.pid, signal.SIGCONT)
        out, _ = it.communicate(timeout=SECONDS)
        expect((states, it.returncode, out) == (["T", "T"], 0, "done\n"), f"{states}, status {it.returncode}: {out}")

    def test_a_closed_output_ends_as_before(self):
        """Standard output that nobody reads: the status and the words are those of the program alone."""
        place = self.place
        with open(place.at("job"), "w", encoding="utf-8") as it:
            it.write(job_of())
        answers = []
        for words in ([place.program, "job"], [LAUNCH, place.program, "job"]):
            reading, writing = os.pipe()
            os.close(reading)
            ran = subprocess.run(words, cwd=place.path, stdout=writing, stderr=subprocess.PIPE, text=True, timeout=SECONDS, check=False)
            os.close(writing)
            answers.append((ran.returncode, ran.stderr))
        same(*answers, "a closed pipe")

    def test_few_descriptors_are_no_fault_of_the_launcher(self):
        """With room for few open files there are fewer pairs of pipes, or none."""
        place = self.place
        with open(place.at("job"), "w", encoding="utf-8") as it:
            it.write(job_of())
        for limit in (12, 16, 20, 40, 64):
            words = ["bash", "-c", f'ulimit -n {limit}; exec "$@"', "bash", LAUNCH, place.program, "--workers=1", "job"]
            ran = subprocess.run(words, cwd=place.path, capture_output=True, text=True, timeout=SECONDS, check=False)
            expect((ran.returncode, ran.stdout) == (0, CLEAN), f"{limit}: status {ran.returncode}: {ran.stdout}{ran.stderr}")

    def test_start_chooses(self):
        """bin/start: the launcher only for a run, with no word of perl's, and without perl the program alone."""
        place = self.place
        seen = script(place, "seen", "print(len(sys.argv) > 1 and sys.argv[1].startswith('--drop-pipes='))\n")
        words = [START, seen, LAUNCH]
        environment = {**os.environ, "LC_ALL": "xx_XX.UTF-8"}
        for more, launches in (
            (["job"], True),
            ([], True),
            (["--workers", "2", "job"], True),
            (["--", "--help"], True),
            (["--help"], False),
            (["-h"], False),
            (["job", "--version"], False),
            (["-V"], False),
            (["--parse-only", "job"], False),
            (["--check-trace=t", "job"], False),
            (["--check-trace", "t", "job"], False),
        ):
            ran = subprocess.run([*words, *more], capture_output=True, text=True, env=environment, check=False)
            expect((ran.stdout, ran.stderr) == (f"{launches}\n", ""), f"{more}: {ran.stdout}{ran.stderr}")
        folder = place.at("path")
        os.mkdir(folder)
        for tool in ("sh", "python3", "env"):
            os.symlink(os.path.realpath(sys.executable) if tool == "python3" else shutil.which(tool), os.path.join(folder, tool))
        ran = subprocess.run([*words, "job"], capture_output=True, text=True, env={"PATH": folder}, check=False)
        expect((ran.stdout, ran.stderr) == ("False\n", ""), f"without perl: {ran.stdout}{ran.stderr}")

    def test_perl_runs_no_code_of_the_environment(self):
        """What has perl run other code, or read otherwise, changes nothing, and the program has it all the same."""
        place = self.place
        seen = script(place, "seen", "print([it for it in sorted(os.environ.items()) if it[0].startswith(('PERL', 'FIORUN'))])\n")
        with open(place.at("strict.pm"), "w", encoding="utf-8") as it:
            it.write("print 'taken'; exit 7;\n")
        more = {"PERL5LIB": place.path, "PERLLIB": "", "PERL5DB": "exit 7;"}
        more |= {"PERL5OPT": "-Mnosuch", "PERL_UNICODE": "SDA", "PERLIO": ":crlf"}
        words = [START, seen, LAUNCH, "job"]
        ran = subprocess.run(words, capture_output=True, text=True, env={**os.environ, **more}, check=False)
        expect((ran.returncode, ran.stdout, ran.stderr) == (0, f"{sorted(more.items())}\n", ""), f"{ran}")

    def test_a_run_answers_whatever_perl_reads(self):
        """Pipes are of bytes, also where the launcher itself is told that all it reads is text."""
        place = self.place
        environment = {**os.environ, "PERL_UNICODE": "SDA"}
        with open(place.at("job"), "w", encoding="utf-8") as it:
            it.write(job_of())
        ran = subprocess.run([LAUNCH, place.program, "job"], cwd=place.path, capture_output=True, text=True, env=environment, check=False)
        clean(ran, "PERL_UNICODE=SDA")

    def test_what_is_installed_runs(self):
        place = self.place
        clone = place.at("clone")
        for name in ("crates/fiorun/out", "docs"):
            os.makedirs(os.path.join(clone, name))
        for name in ("bin", "launcher"):
            shutil.copytree(os.path.join(TOP, name), os.path.join(clone, name))
        shutil.copy(os.path.join(TOP, "crates.txt"), clone)
        shutil.copy(os.path.join(TOP, "docs", "fiorun.1"), os.path.join(clone, "docs"))
        shutil.copy(place.program, os.path.join(clone, "crates", "fiorun", "out", "fiorun"))
        ran = subprocess.run([os.path.join(clone, "bin", "install"), "prefix"], cwd=place.path, capture_output=True, text=True, check=False)
        expect(ran.returncode == 0, f"bin/install: {ran.stderr}")
        shutil.rmtree(clone)
        os.mkdir(place.at("links"))
        link = place.at("links", "f")
        os.symlink("../prefix/bin/fiorun", link)
        for command in (place.at("prefix", "bin", "fiorun"), link):
            clean(run(place, job_of(), program=command), command)
            ran = run(place, "", "--version", program=command)
            expect(ran.stdout.startswith("fiorun "), f"{command}: {ran.stdout}{ran.stderr}")
        prefix = place.at("prefix")
        found = sorted(os.path.relpath(os.path.join(where, it), place.path) for where, _, names in os.walk(prefix) for it in names)
        wanted = ["bin/fiorun", "lib/fiorun/fiorun", "lib/fiorun/launch", "lib/fiorun/start"]
        wanted += ["share/bash-completion/completions/fiorun", "share/man/man1/fiorun.1"]
        expect(found == [f"prefix/{it}" for it in wanted], f"{found}")
        for it in found[:4]:
            expect(os.stat(place.at(it)).st_mode & stat.S_IXOTH, f"{it} can't be run")
