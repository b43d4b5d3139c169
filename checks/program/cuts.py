"""What is told after a cut of the power: a disk in software is cut, and its files are judged by the ledger of the run.

A library (checks/support/volatile.c) makes the files of a run a disk with a volatile cache, cuts it at a random moment, and keeps an account
of it; it is honest, or lies in one of several ways. Then the program judges the files. Its whole report must be that of a judge which knows
the contents of all writes from another run (checks/support/cuts_model.py). Of an honest disk nothing may be lost or broken; of one that lies
these must be exactly the chunks that the account says are gone. TRIALS is how many times it is cut (300), SEED chooses other ones.
"""

import collections
import contextlib
import os
import random
import re
import shutil
import signal
import subprocess
import time
from concurrent.futures import ThreadPoolExecutor

from support.case import Case
from support.cuts_model import Account, Judge, Ledger, Plan, lines_of
from support.place import ending, refuses
from support.program import TOP, Skipped, built_library, expect, trials

CUTS = trials(300)
SEED = os.environ.get("SEED", "1")
LIES = ("nosync", "region", "early", "sectors", "drop", "older", "swap", "flip", "dead")
# How many cuts are made over one job.
CUTS_OF_JOB = 6
# How many microseconds each write takes at least in some of the runs: so long that its line doesn't wait for others.
SLOW = 100
HEAD = re.compile(rb"fiorun ledger 1 [0-9a-f]{64}\n")
LAUNCH = os.path.join(TOP, "launcher", "launch")
# What is said of a run whose ledger couldn't be written any more.
CUT_OFF = b"fiorun: interrupted\nfiorun: cannot write\n"
# A job whose writes lie over one another.
SMALL = "[w]\nfilename=data\nrw=randwrite\nnorandommap\nbs=4k\nsize=64k\nloops=3\nverify=md5\ndo_verify=0\n"
# One for a disk that is served.
SERVED = SMALL.replace("=data", "=export").replace("loops=3", "loops={loops}").replace("64k", "1m") + "iodepth=8\n"
FEW = "[w]\nfilename=data\nrw=write\nbs=4k\nsize=16k\nloops=2\nverify=md5\ndo_verify=0\n"


# -- Jobs


class Job:
    """A job text, how long the chunks of each of its jobs are, and with how many workers it is run."""

    def __init__(self, text, intervals, workers=4, is_direct=False):
        self.text, self.intervals, self.workers, self.is_direct = text, intervals, workers, is_direct


def lines_of_job(draw, name, grid, files):
    """The lines of one job whose chunks lie on this grid: headers at an interval, or blocks of one size."""
    interval, unit = grid
    sizes = [unit * it for it in ((1, 2, 4) if interval else (1,))]
    lines = [f"[{name}]", f"filename={draw.choice(files)}", f"rw={draw.choice(['write', 'randwrite', 'randwrite', 'randrw', 'rw'])}"]
    if len(sizes) > 1 and draw.random() < 0.4:
        lines.append(f"bssplit={sizes[0]}/40:{sizes[1]}/30:{sizes[2]}/")
    else:
        lines.append(f"bs={draw.choice(sizes)}")
    # (a job has whole blocks of its smallest size, and blocks lie at multiples of that from its offset on)
    lines += [f"offset={draw.randrange(3) * sizes[-1]}", f"size={sizes[-1] * draw.randint(4, 12)}", f"loops={draw.randint(1, 5)}"]
    lines += [f"iodepth={draw.choice((1, 2, 4, 8, 16))}", f"verify={draw.choice(('md5', 'sha1', 'sha256'))}"]
    lines += [f"verify_interval={interval}", f"randseed={draw.getrandbits(63)}", f"do_verify={int(draw.random() < 0.4)}"]
    may = ["norandommap", f"verify_backlog={draw.choice((1, 3, 8))}", "numjobs=3", "verify_async=2", "stonewall", "rwmixread=30"]
    return lines + [it for it in may if draw.random() < 0.35]


def drawn_job(draw):
    """Some jobs over one file or several; all of one file have one grid."""
    grid = draw.choice(((512, 512), (512, 512), (4096, 4096), (4096, 4096), (0, 512), (0, 4096), (0, 4096), (0, 16384)))
    count, files = draw.randint(1, 3), [f"f{it}" for it in range(draw.randint(1, 3))]
    is_direct = grid[1] % 4096 == 0 and draw.random() < 0.3
    jobs = ["\n".join(lines_of_job(draw, f"j{it}", grid, files)) + ("\ndirect=1\n" if is_direct else "\n") for it in range(count)]
    if draw.random() < 0.3:
        jobs.append(f"[reader]\nfilename={files[0]}\nrw=randread\nbs=4k\nsize=8k\n" + ("direct=1\n" if is_direct else ""))
    # (a file that only the reader has must be there)
    text = "".join(jobs)
    if text.count(f"filename={files[0]}\n") == 1 and "[reader]" in text:
        text = text[: text.index("[reader]")]
    intervals = {f"j{it}": grid[0] for it in range(count)} | {"reader": 0}
    return Job(text, intervals, draw.choice((1, 2, 4, 8, 16)), is_direct)


# -- Runs


class Run:
    """A run of a job over the disk, in a folder of its own: how it ended, its ledger, its account and what its files hold."""

    def __init__(self, place, job, plan):
        self.place, self.job, self.plan = place, job, plan
        self.ran, self.ledger, self.account = None, b"", None

    def go(self, library, *words, **disk):
        """Runs it, with these words of the library's."""
        place = self.place
        names = {"ACCOUNT": "account", "RECORD": "record", "LEDGER": "ledger"}
        env = {**os.environ, **{word: place.at(name) for word, name in names.items()}}
        env["VOLATILE"] = ":".join(place.at(it) for it in self.plan.files)
        env |= {word.upper(): str(value) for word, value in disk.items()} | {"LD_PRELOAD": library}
        launch = [LAUNCH] if self.job.is_direct and shutil.which("perl") else []
        words = [*launch[1:], *([place.program] if launch else []), f"--workers={self.job.workers}", "--ledger=ledger", *words]
        self.ran = place.run(*words, text=self.job.text, env=env, program=launch[0] if launch else "")
        self.ledger, account, record = map(self.part, ("ledger", "account", "record"))
        self.account = Account(account, record)
        return self

    def part(self, name):
        """What one of its files has; nothing where it was cut before that was made."""
        return self.place.get(name) if os.path.exists(self.place.at(name)) else b""

    def images(self):
        return [self.place.get(it) for it in self.plan.files]

    def after(self, ledger=None, *words):
        """The judgement of the program, by this ledger."""
        if ledger is not None:
            self.place.put("given", ledger)
        return self.place.run("--after=" + ("ledger" if ledger is None else "given"), *words, text=self.job.text)


def is_killed(ran):
    """Whether it ended as the library kills it."""
    return ran.status in (-signal.SIGKILL, 128 + signal.SIGKILL)


class Whole:
    """A job that was run to its end once: its plan, the contents of its writes, and how many calls of the disk that takes."""

    def __init__(self, case, job, name, *words):
        self.case, self.job, self.name, self.count = case, job, name, 0
        place = case.fresh()
        plan = place.run("--parse-only", text=job.text)
        expect(plan.status == 0, "no plan of", job.text, plan)
        self.plan = Plan(plan.out.decode(), job.intervals)
        self.words = words
        self.slow = 0
        self.run = Run(place, job, self.plan).go(case.library, *words, seed=1)
        expect(self.run.ran.status == 0, "a whole run of", job.text, self.run.ran)
        self.judge = Judge(self.plan, self.run.account.writes)
        self.calls = self.run.account.calls

    def cut(self, draw, name, lie=""):
        """A run of it that is cut at some moment, over files in which something stands already."""
        place = self.case.fresh()
        for it in self.plan.files:
            place.put(it, draw.choice((b"", draw.randbytes(os.path.getsize(self.run.place.at(it))))))
        words = {"cut": draw.randint(1, self.calls), "seed": draw.getrandbits(60), "slow": self.slow} | ({"lie": lie} if lie else {})
        return Run(place, self.job, self.plan).go(self.case.library, *self.words, **words)

    def check(self, run, ledger=None):
        """The judgement of a run's files is that of the judge: its findings."""
        lines = Ledger(lines_of(run.ledger if ledger is None else ledger))
        report, status = self.judge.told(lines, run.images())
        told = run.after(ledger)
        is_right = (told.status, told.out.decode(), told.err) == (status, report, b"")
        expect(is_right, "told", told, "and wanted", status, report, run.job.text)
        return lines, report


def places_told(report, plan, *words):
    """The chunks that are told with these words, by file and offset."""
    found = re.findall(rf"^(?:{'|'.join(words)}): file=(\S+) offset=(\d+) ", report, re.M)
    return {(plan.files.index(name), int(offset)) for name, offset in found}


class After(Case):
    """What is told after a cut."""

    def setUp(self):
        super().setUp()
        self.library = built_library("volatile.c")

    def whole(self, text, intervals=None, name="whole", workers=1, words=("--sync-every=4",)):
        return Whole(self, Job(text, intervals or {"w": 0}, workers), name, *words)

    def cuts(self, count, one, lies=("",)):
        """Cuts random jobs so many times, some at once, and gives what each cut came to."""
        todo = []
        for number in range((count + CUTS_OF_JOB - 1) // CUTS_OF_JOB):
            todo.append((number, min(CUTS_OF_JOB, count - number * CUTS_OF_JOB)))
        with ThreadPoolExecutor(max(4, os.cpu_count() or 1)) as pool:
            return [it for some in pool.map(lambda it: self.cuts_of(*it, one, lies), todo) for it in some]

    def cuts_of(self, number, count, one, lies):
        draw = random.Random(f"{SEED} {self._testMethodName} {number}")
        whole = Whole(self, drawn_job(draw), f"{number}", f"--sync-every={draw.choice((1, 2, 5, 16, 50))}")
        whole.slow = draw.choice((0, SLOW))
        found = []
        for it in range(count):
            lie = lies[(number * CUTS_OF_JOB + it) % len(lies)]
            run = whole.cut(draw, f"{number}-{it}", lie)
            expect(is_killed(run.ran) or run.ran.status == 0, "a run that is cut:", run.ran, whole.job.text)
            # (nothing is promised by a run that was cut before it had a ledger)
            if run.ledger:
                found.append(one(whole, run, draw, lie))
            shutil.rmtree(run.place.path)
        shutil.rmtree(whole.run.place.path)
        return found

    # -- The disk

    def test_honest(self):
        """Of a disk that keeps its promise nothing is lost or broken, whenever it is cut and however much of the ledger has arrived."""

        def one(whole, run, draw, _):
            lines, report = whole.check(run)
            expect(not places_told(report, whole.plan, "lost", "broken"), "an honest disk is blamed:", report, run.job.text)
            expect(not run.account.gone(whole.plan, lines), "the library isn't honest", run.account.how)
            wrong = [*run.account.broken_order(whole.slow > 0)]
            expect(not wrong, "the order of lines:", wrong[:3], run.job.text)
            expect(run.account.noted() == lines_of(run.ledger), "lines that were written elsewhere", run.ledger[-100:])
            expect(HEAD.match(run.ledger), "the first line", run.ledger[:100])
            _, part = whole.check(run, run.ledger[: draw.randint(81, len(run.ledger))])
            expect(not places_told(part, whole.plan, "lost", "broken"), "blamed by a part of the ledger:", part)
            return is_killed(run.ran), "torn:" in report, len(lines.lines)

        found = self.cuts(CUTS, one)
        cut, torn, lines = (sum(map(int, it)) for it in zip(*found))
        expect(cut > CUTS * 3 // 4 and lines > CUTS * 10, "too little was tried:", cut, torn, lines)

    def test_lies(self):
        """Of each kind of disk that lies exactly those chunks are lost or broken that are gone by its account."""

        def one(whole, run, _, lie):
            lines, report = whole.check(run)
            gone = run.account.gone(whole.plan, lines)
            told = places_told(report, whole.plan, "lost", "broken")
            expect(told == gone, lie, "told", sorted(told - gone)[:4], "gone", sorted(gone - told)[:4], report[:300], run.job.text)
            return lie, bool(gone), bool(places_told(report, whole.plan, "lost"))

        found = self.cuts(max(CUTS, 20 * len(LIES)), one, LIES)
        for lie in LIES:
            gone = sum(is_gone for it, is_gone, _ in found if it == lie)
            expect(gone * 12 >= len(found) / len(LIES), "hardly a cut of", lie, "has lost anything:", gone)
        expect(sum(it for _, _, it in found) >= 10, "hardly anything is lost and not broken")

    def test_whole_run(self):
        """A run that ends has a ledger by which all is kept; report and trace are those without one."""
        for workers in (1, 4):
            place = self.fresh()
            words = [f"--workers={workers}", "--cached"]
            plain = place.run(*words, "--trace=t", text=SMALL)
            trace = place.get("t")
            ran = place.run(*words, "--trace=t", "--ledger=ledger", "--sync-every=3", text=SMALL)
            expect(ran == plain and ran.status == 0, "with a ledger", ran, "without", plain)
            expect(workers > 1 or place.get("t") == trace, "another trace")
            ledger = place.get("ledger")
            expect(HEAD.match(ledger) and ledger.endswith(b"\n"), "the ledger", ledger[:100])
            tags = collections.Counter(it[0] for it in lines_of(ledger))
            expect(tags["w"] == 48 and tags["b"] == tags["s"] >= 16, "lines", tags)
            told = place.run("--after=ledger", text=SMALL)
            found = re.fullmatch(rb"file=data kept=(\d+) lost=0 broken=0 torn=0 open=(\d+)\n", told.out)
            expect(told.status == 0 and found and int(found[1]) + int(found[2]) == 16 and int(found[1]) > 10, "after it", told)

    def test_sync_every(self):
        """A file is synced after each so many of its writes, whatever the workers, with and without checks."""
        kinds = (1, 1, ""), (1, 7, ""), (4, 5, ""), (16, 3, "direct=1\n"), (4, 10, "verify_backlog=4\n")
        for number, (workers, every, more) in enumerate(kinds):
            checks = f"do_verify={int('backlog' in more)}"
            text = SMALL.replace("loops=3", "loops=8").replace("do_verify=0", checks) + f"iodepth=16\n{more}"
            whole = self.whole(text, name=str(number), workers=workers, words=(f"--sync-every={every}", "--cached"))
            at = [*whole.run.account.syncs_of(0)]
            noted = sum(it[0] == "b" for it in lines_of(whole.run.ledger))
            # (the end of the run syncs once more)
            expect(128 // every <= noted <= len(at), "syncs", noted, at, workers, every)
            if workers == 1:
                expect([*range(every, 129, every)] == sorted(set(at) & set(range(every, 129, every))), "synced after", at, "writes")
            gaps = [b - a for a, b in zip([0, *at], at)]
            expect(max(gaps) <= every + 16, "writes without a sync", gaps, workers, every)

    def test_stored_later(self):
        """What is there behind the cut needn't be in the ledger: writes that it doesn't name may stand anywhere."""
        whole = self.whole(FEW)
        head = whole.run.ledger[:81]
        for ledger in (head, head + b"b 0 0\ns 0 0\n", head + b"w 0 0 0\nb 0 0\n"):
            _, report = whole.check(whole.run, ledger)
            expect(report == "file=data kept=0 lost=0 broken=0 torn=0 open=4\n", "nothing is promised", report)
        _, report = whole.check(whole.run, head + b"w 0 0 0\nb 0 0\ns 0 0\n")
        expect(report == "file=data kept=1 lost=0 broken=0 torn=0 open=3\n", "the second pass may stand", report)

    # -- Ledgers

    def mutated(self, draw, lines):
        """The lines of a ledger with some of them exchanged, doubled, left out, or added."""
        lines = list(lines)
        for _ in range(draw.randint(1, 12)):
            at, other = draw.randrange(len(lines)), draw.randrange(len(lines))
            how = draw.randrange(6)
            if how == 0:
                lines[at], lines[other] = lines[other], lines[at]
            elif how == 1:
                lines.insert(other, lines[at])
            elif how == 2 and len(lines) > 3:
                del lines[at]
            elif how == 3:
                # (a return without its begin, or a begin without its return, of syncs that were made or not)
                lines.insert(at, f"{draw.choice('bs')} {draw.choice((0, 0, 1, 4294967295))} {draw.choice((0, 1, 7, 2**64 - 1))}")
            elif how == 4:
                number = draw.choice((0, 3, 99999, 4294967295))
                lines.insert(at, f"w {draw.choice((0, 0, 1, 63, 4294967295))} {draw.randrange(4)} {number}")
            else:
                lines = [it for it in lines if it[0] != "s" or draw.random() < 0.7]
        return lines

    def test_changed_ledgers(self):
        """Lines that are exchanged, doubled, left out or added: what is told is what the judge says by these lines."""
        draw = random.Random(f"{SEED} changed")
        whole = self.whole(SMALL, words=("--sync-every=4", "--cached"))
        words = collections.Counter()
        for number in range(max(40, CUTS // 6)):
            run = whole.cut(draw, str(number), draw.choice(("", "nosync", "older", "sectors")))
            lines = self.mutated(draw, lines_of(run.ledger) or ["w 0 0 0"])
            ledger = b"".join(run.ledger.splitlines(True)[:1]) or whole.run.ledger[:81]
            ledger = ledger + "".join(f"{it}\n" for it in lines).encode() + draw.choice((b"", b"w 0", b"\0" * 512, b"s 0 0"))
            _, report = whole.check(run, ledger)
            words.update(re.findall(r"^(?!file)\w+", report, re.M))
        expect(words["lost"] and words["broken"], "nothing was told by changed ledgers:", words)

    def test_bad_lines(self):
        """Any other line is refused by its number, and so is what isn't the ledger of this job."""
        whole = self.whole(FEW)
        head, run = whole.run.ledger[:81], whole.run
        expect(HEAD.fullmatch(head), "the first line", head)
        bad = ["", " ", "w", "w 0 0", "w 0 0 0 0", "w 0 0 x", "w 0 0 -1", "w 00 0 0", "w 0 0 4294967296", "w  0 0 0", "w 0 0 0 "]
        bad += ["W 0 0 0", "b 0", "b 0 18446744073709551616", "s 0 00", "s 4294967296 0", "x 0 0", "\0" * 512, "w 0 0 0\r", "w\t0 0 0"]
        bad += ["fiorun ledger 1 " + "0" * 64]
        for line in bad:
            for above in ("", "w 0 0 0\nb 0 0\n"):
                ledger = head + above.encode() + line.encode() + b"\ns 0 0\n"
                refuses(run.after(ledger), 2, f"ledger: line {2 + above.count(chr(10))}: not a ledger line")
        firsts = [b"", b"\n", head[:-1], head[1:], head[:40] + b"\n", b"x" + head[1:], b"\xff" * 80 + b"\n"]
        for first in (*firsts, head.replace(b"ledger 1", b"ledger 2")):
            refuses(run.after(first), 2, "ledger: line 1: not a ledger line")
        for other in (head[:16] + b"0" * 64 + b"\n", head[:16] + b"x" * 64 + b"\n"):
            refuses(run.after(other + b"not looked at\n"), 2, "ledger: of another job")

    def test_cut_line(self):
        """What stands behind the last line feed isn't looked at: it was cut."""
        whole = self.whole(FEW)
        ledger = whole.run.ledger
        for at in range(81, len(ledger) + 1):
            whole.check(whole.run, ledger[:at])
        for rest in (b"w 0 0 1", b"\0\0\0", b"\xff", b"w 0 0 1" * 100_000):
            whole.check(whole.run, ledger + rest)

    def test_other_job(self):
        """The ledger of another job, of another section of it, or of other seeds is refused."""
        both = FEW + FEW.replace("[w]", "[x]").replace("=data", "=other")
        whole = self.whole(both, {"w": 0, "x": 0})
        run, ledger = whole.run, whole.run.ledger
        for text, words in (
            (both, ["--section=w"]),
            (both, ["--section=x"]),
            (both.replace("loops=2", "loops=3"), []),
            (both + "randseed=2\n", []),
            (both.replace("md5", "sha1"), []),
            (both.replace("md5", "md5\nverify_interval=512"), []),
            (both.replace("[x]", "[y]"), []),
            (both.replace("=other", "=data"), []),
            (both + "verify_pattern=0x01\n", []),
            (both.replace("rw=write", "rw=randwrite"), []),
        ):
            run.place.put("given", ledger)
            refuses(run.place.run("--after=given", *words, text=text), 2, "ledger: of another job")
        # (what changes neither the plan nor its bytes is free)
        for text in (both.replace("do_verify=0", "do_verify=1"), both + "description=x\n", "; comment\n" + both):
            told = run.place.run("--after=given", text=text)
            expect(told.status == 0 and b"lost=0" in told.out, "the same writes", told, text)

    def test_no_ledger(self):
        """A ledger that isn't there, or can't be read, and an empty one."""
        place = self.place
        place.run("--cached", text=FEW)
        refuses(place.run("--after=none", text=FEW), 3, "cannot read the ledger")
        refuses(place.run("--after=.", text=FEW), 3, "cannot read the ledger")
        refuses(place.run("--after=/dev/null", text=FEW), 2, "ledger: line 1: not a ledger line")

    # -- Jobs that aren't taken

    def test_refused_jobs(self):
        """A job is refused by name where it can't be known what may stand in its chunks, and so it is where its ledger is wanted."""
        order = "the order of its writes isn't known: write serialize_overlap=1"
        no_digest = "its blocks don't say whose they are: write verify=md5, verify=sha1 or verify=sha256"
        sizes = "its blocks have several sizes: write verify_interval=512"
        grid = "its chunks have other places than an earlier job's in the file: write verify_interval=512 in both"
        second = FEW.replace("[w]", "[x]")
        place = self.place
        for text, name, why in (
            (FEW + "serialize_overlap=0\n", "w", order),
            (FEW + "[r]\nfilename=data\nrw=read\nsize=4k\nserialize_overlap=0\n", "r", order),
            (FEW.replace("verify=md5\n", ""), "w", no_digest),
            (FEW.replace("verify=md5\n", "verify=pattern\nverify_pattern=1\n"), "w", no_digest),
            (FEW + second.replace("verify=md5\n", ""), "x", no_digest),
            (FEW.replace("bs=4k", "bssplit=4k/50:8k/"), "w", sizes),
            (FEW + second.replace("bs=4k", "bs=8k"), "x", grid),
            (FEW + second + "offset=512\n", "x", grid),
            (FEW + second + "verify_interval=512\n", "x", grid),
        ):
            for word in ("--after=none", "--ledger=ledger"):
                place.put("none", b"")
                refuses(place.run(word, text=text), 2, f"ledger: job {name}: {why}")
                expect(not os.path.exists(place.at("data")) and not os.path.exists(place.at("ledger")), word, "made files for", text)
        for text in (
            FEW + "serialize_overlap=1\n",
            FEW.replace("bs=4k", "bssplit=4k/50:8k/") + "verify_interval=512\n",
            FEW + second.replace("=data", "=other").replace("bs=4k", "bs=8k"),
            FEW + second + "offset=4k\n",
            FEW + "[r]\nfilename=data\nrw=read\nbssplit=4k/50:8k/\nsize=8k\nstonewall\n",
        ):
            ran = place.run("--ledger=ledger", text=text)
            told = place.run("--after=ledger", text=text)
            expect(ran.status == told.status == 0 and not told.err, "a job that is taken:", text, ran, told)

    # -- Where a ledger goes

    def test_pipe(self):
        """A ledger goes through a pipe and an open file as through a file's name."""
        place = self.place
        for number, ends in enumerate(("3>ledger", "3> >(cat >ledger)", "3>>ledger")):
            with contextlib.suppress(FileNotFoundError):
                os.unlink(place.at("ledger"))
            ran = place.run("--ledger=/dev/fd/3", "--sync-every=2", "--workers=1", "--cached", text=FEW, ends=ends)
            expect(ran.status == 0, "through", ends, ran)
            deadline = time.monotonic() + 10
            while place.get("ledger").count(b"\n") < 17 and time.monotonic() < deadline:
                time.sleep(0.02)
            told = place.run("--after=/dev/fd/4", text=FEW, ends="4<ledger")
            expect(told.out == b"file=data kept=4 lost=0 broken=0 torn=0 open=0\n", number, told, place.get("ledger"))
        told = place.run("--after=/dev/fd/4", text=FEW, ends="4< <(cat ledger)")
        expect(told.out == b"file=data kept=4 lost=0 broken=0 torn=0 open=0\n", "from a pipe", told)

    def test_lines_as_they_happen(self):
        """Lines are there while the run goes on, and aren't kept back until its end."""
        place = self.place
        os.mkfifo(place.at("pipe"))
        child = place.start("--ledger=pipe", "--workers=1", "--cached", text=FEW.replace("loops=2", "loops=1000").replace("16k", "1m"))
        with open(place.at("pipe"), "rb") as it:
            first = it.readline()
            lines = [it.readline() for _ in range(3)]
            expect(child.poll() is None, "the run is over")
            expect(HEAD.fullmatch(first) and lines[0] == b"w 0 0 0\n", "its lines", first, lines)
        ran = ending(child)
        expect(ran.status == 3 and ran.err == CUT_OFF, "and its end", ran)

    def test_lines_of_slow_writes(self):
        """A worker has the line of a write that takes long there before it asks for the next, also if it has taken several."""
        text = FEW.replace("16k", "64k").replace("loops=2", "loops=8") + "iodepth=16\n"
        for workers in (1, 2):
            whole = self.whole(text, name=f"quick{workers}", workers=workers, words=("--cached",))
            ran = Run(self.fresh(), whole.run.job, whole.plan).go(self.library, "--cached", seed=1, slow=1000)
            writes, late = len(ran.account.writes), [*ran.account.late_lines()]
            expect(ran.ran.status == 0 and writes == 128, "a run of slow writes", workers, ran.ran, writes)
            expect(not late, "lines that came late", workers, late)

    def test_lines_of_quick_writes(self):
        """No more than sixteen writes are without a line, and with one worker none is where a sync begins; once the run is over none is."""
        text = FEW.replace("16k", "64k").replace("loops=2", "loops=8") + "iodepth=16\n"
        for workers, most in ((1, 16), (4, 16 + 4 * 16)):
            whole = self.whole(text, name=f"quick{workers}", workers=workers, words=("--cached", "--sync-every=50"))
            waiting = [*whole.run.account.waiting_lines()]
            expect(max(it for _, it in waiting) <= most and waiting[-1][1] == 0, "lines that wait", workers, waiting)
            expect(workers > 1 or not any(it for tag, it in waiting if tag == "sync"), "lines that wait for a sync", waiting)
            expect(len(whole.run.account.seqs()) == 128, "writes", len(whole.run.account.seqs()))

    def test_words(self):
        """What has no ledger: rounds, a job without files, and a judgement with words that a run needs."""
        place = self.place
        for word in ("--for=1s", "--repeat=2", "--go-on"):
            refuses(place.run("--ledger=l", word, text=FEW), 2, "command line: --ledger with --for, --repeat or --go-on")
        for engine in ("memory", "null"):
            refuses(place.run("--ledger=l", text=FEW.replace("rw=", f"ioengine={engine}\nrw=")), 2, "ledger: the job has no files")
        for word in ("--sync-every=0", "--sync-every=4294967296", "--sync-every=x", "--ledger", "--after"):
            ran = place.run(word, text=FEW)
            expect(ran.status == 2 and not ran.out, "refused by clap:", word, ran)
        expect(os.listdir(place.path) == [], "something was made", os.listdir(place.path))

    def broken_off(self, ran, least=1):
        """A run that ended since its ledger couldn't be written any more: its report is there."""
        expect(ran.status == 3 and ran.err == CUT_OFF, "its ledger is gone:", ran)
        found = re.match(rb"w: clone=0 reads=0 rbytes=0 writes=(\d+) ", ran.out)
        expect(found and least <= int(found[1]) < 256 * 1000, "its report", ran)

    def test_reader_dies(self):
        """The reader of the pipe dies: the run stops, its report is printed, and the status is 3."""
        text = FEW.replace("loops=2", "loops=1000").replace("16k", "1m")
        for workers in (1, 4):
            for ends in ("3> >(head -n 20 >ledger)", "3> >(exec head -c 1000 >ledger)"):
                ran = self.place.run("--ledger=/dev/fd/3", "--sync-every=5", f"--workers={workers}", text=text, ends=ends)
                self.broken_off(ran)

    def test_full_disk(self):
        """A full disk in place of the ledger: as with a reader that dies. Where it is full from the first line on nothing is run, no file is
        made, and none is made longer."""
        text = FEW.replace("loops=2", "loops=1000").replace("16k", "1m")
        refuses(self.place.run("--ledger=/dev/full", "--workers=1", text=text), 3, "cannot write")
        expect(not os.path.exists(self.place.at("data")), "the job's file was made, though nothing was run")
        self.place.put("data", b"short")
        refuses(self.place.run("--ledger=/dev/full", "--sync-every=2", text=text), 3, "cannot write")
        expect(self.place.get("data") == b"short", "the job's file was made longer, though nothing was run")
        os.unlink(self.place.at("data"))
        if os.geteuid() != 0:
            raise Skipped("not root: only /dev/full was tried")
        room = self.place.at("small")
        os.mkdir(room)
        made = subprocess.run(["mount", "-t", "tmpfs", "-o", "size=64k", "tmpfs", room], capture_output=True, check=False)
        if made.returncode:
            raise Skipped("no tmpfs can be mounted: only /dev/full was tried")
        try:
            for workers in (1, 4):
                self.broken_off(self.place.run("--ledger=small/ledger", f"--workers={workers}", text=text), 100)
                ledger = self.place.get("small/ledger")
                told = self.place.run("--after=small/ledger", text=text)
                expect(told.status == 0 and HEAD.match(ledger), "what has arrived of the ledger", told, ledger[:100])
                os.unlink(self.place.at("small/ledger"))
        finally:
            subprocess.run(["umount", room], check=False)

    def test_refused_places(self):
        """A ledger goes over nothing that the run has, and nowhere where no output goes."""
        place = self.place
        place.put("job", FEW)
        place.put("data", b"old")
        for name in ("job", "data", ".", "none/ledger", "/proc/self/mem", "./data"):
            ran = place.run(f"--ledger={name}", "job")
            expect(ran.status == 3 and not ran.out and ran.err == b"fiorun: cannot write\n", "a ledger at", name, ran)
            expect((place.get("data"), place.get("job")) == (b"old", FEW.encode()), "something was written over by", name)
        ran = place.run("--ledger=same", "--trace=same", "job")
        expect(ran.status == 3 and ran.err == b"fiorun: cannot write\n", "two outputs of one name", ran)

    # -- What is read afterwards

    def test_unread(self):
        """A chunk that can't be read has a line of its own; the others are judged."""
        whole = self.whole(FEW)
        run = whole.run
        content = run.place.get("data")
        for length in (0, 1, 4095, 4096, 9000, 16383):
            run.place.put("data", content[:length])
            _, report = whole.check(run)
            wanted = "".join(f"fault: file=data offset={it} length=4096\n" for it in range(length // 4096 * 4096, 16384, 4096))
            expect(report.endswith(wanted) and report.count("fault:") == 4 - length // 4096, "unread", report)
            expect(run.place.get("data") == content[:length], "the file was changed")
        run.place.put("data", content)
        run.place.put("sick", b"9\n")
        env = {**os.environ, "LD_PRELOAD": built_library("sick.c"), "SICK": run.place.at("data"), "SICK_SECTORS": "32"}
        told = run.place.run("--after=ledger", text=FEW, env=env | {"SICK_READS": run.place.at("sick")})
        wanted = b"file=data kept=3 lost=0 broken=0 torn=0 open=0\nfault: file=data offset=4096 length=4096\n"
        expect((told.status, told.out) == (1, wanted), "a sector that can't be read", told)

    def test_no_file(self):
        """A file that is gone isn't made again."""
        whole = self.whole(FEW)
        os.unlink(whole.run.place.at("data"))
        refuses(whole.run.after(), 3, "cannot open the files")
        expect(not os.path.exists(whole.run.place.at("data")), "the file was made")

    def test_writes_nothing(self):
        """A file that can only be read is judged; no byte and no time of it changes."""
        whole = self.whole(FEW)
        path = whole.run.place.at("data")
        os.chmod(path, 0o444)
        before = os.stat(path)
        whole.check(whole.run)
        after = os.stat(path)
        same = [getattr(before, it) == getattr(after, it) for it in ("st_mtime_ns", "st_ctime_ns", "st_size", "st_ino")]
        expect(all(same), "the file was touched", before, after)

    def test_single_faults(self):
        """An older block, another place's, zeros, one bit, and parts of two writes."""
        whole = self.whole(FEW, words=("--sync-every=1", "--cached"))
        run, ledger = whole.run, Ledger(lines_of(whole.run.ledger))
        block = {it.name: it.content for it in run.account.writes}
        right = [block[0, 1, it] for it in range(4)]
        flipped = bytes([right[1][0] ^ 1]) + right[1][1:]
        mixed = right[1][:2048] + block[0, 0, 1][2048:]
        for put, word in (
            (block[0, 0, 1], "lost: file=data offset=4096 length=4096 kept=0/1/1 found=0/0/1\n"),
            (right[2], "broken: file=data offset=4096 length=4096 kept=0/1/1\n"),
            (bytes(4096), "broken: file=data offset=4096 length=4096 kept=0/1/1\n"),
            (flipped, "broken: file=data offset=4096 length=4096 kept=0/1/1\n"),
            (mixed, "broken: file=data offset=4096 length=4096 kept=0/1/1\n"),
        ):
            run.place.put("data", right[0] + put + right[2] + right[3])
            _, report = whole.check(run)
            expect(report.split("\n", 1)[1] == word, "told", report, "wanted", word)
        # (up to the end of the first pass both may stand there, and so may parts of both)
        place = ledger.places[0, 1, 1]
        early = run.ledger[:81] + "".join(f"{it}\n" for it in lines_of(run.ledger)[:place]).encode()
        for put, word in ((mixed, "torn: file=data offset=4096 length=4096 kept=0/0/1\n"), (right[1], ""), (block[0, 0, 1], "")):
            run.place.put("data", right[0] + put + right[2] + right[3])
            lines, report = whole.check(run, early)
            expect(lines.places and report.split("\n", 1)[1] == word, "told", report, "wanted", word)

    # -- Runs that are stopped

    def stopped(self, workers, stop, launch=()):
        """A run over plain files that is stopped, and what is told by its ledger then."""
        text = SMALL.replace("size=64k", "size=256k").replace("loops=3", "loops=1000") + "iodepth=8\n"
        place = self.fresh()
        words = [f"--workers={workers}", "--ledger=ledger", "--sync-every=8"]
        child = place.start(*words, text=text) if not launch else subprocess.Popen(
            [*launch, place.program, *words], cwd=place.path, stdin=subprocess.PIPE, stdout=subprocess.PIPE, stderr=subprocess.PIPE
        )
        if launch:
            child.stdin.write(text.encode())
            child.stdin.close()
            child.stdin = None
        deadline = time.monotonic() + 20
        while not os.path.exists(place.at("ledger")) or place.get("ledger").count(b"\n") < 200:
            expect(time.monotonic() < deadline and child.poll() is None, "no lines of the ledger come")
            time.sleep(0.01)
        child.send_signal(stop)
        ran = ending(child)
        told = place.run("--after=ledger", text=text)
        expect(told.status == 0 and not told.err and b" lost=0 broken=0 torn=0 " in told.out, "after", stop, told, ran)
        lines = lines_of(place.get("ledger"))
        return ran, lines

    def test_stopped(self):
        """A run that is stopped or killed has a ledger by which nothing is lost."""
        for workers in (1, 4):
            ran, _ = self.stopped(workers, signal.SIGKILL)
            expect(ran.status == -signal.SIGKILL, "killed", ran)
            if shutil.which("perl"):
                ran, lines = self.stopped(workers, signal.SIGTERM, [LAUNCH])
                expect(ran.status == 130 and ran.err == b"fiorun: interrupted\n", "stopped", ran)
                writes = re.match(rb"w: clone=0 reads=0 rbytes=0 writes=(\d+) ", ran.out)
                expect(int(writes[1]) == sum(it[0] == "w" for it in lines), "each write of the report has its line", ran, len(lines))

    def test_failed(self):
        """A write that failed has no line, and neither has the return of a sync that did."""
        library = built_library("faulty.c")
        for fault, tag, missing in (("pwrite 2 5", "w", "w 0 0 1"), ("fdatasync 2 5", "s", None)):
            place = self.fresh()
            place.put("calls", bytes(8 * 8))
            env = {**os.environ, "LD_PRELOAD": library, "CALLS": place.at("calls"), "FAULT": fault}
            ran = place.run("--workers=1", "--cached", "--ledger=ledger", "--sync-every=2", text=FEW, env=env)
            lines = lines_of(place.get("ledger"))
            expect(ran.status in (1, 3), "a run with a failure", fault, ran)
            if missing:
                expect(missing not in lines and "w 0 0 0" in lines, "a write that failed", lines)
            begun = {it[2:] for it in lines if it[0] == "b"}
            expect(tag == "w" or len(begun) == 1 + sum(it[0] == "s" for it in lines), "a sync that failed", lines, ran)
            told = place.run("--after=ledger", text=FEW)
            expect(told.status == 0 and b" lost=0 broken=0 " in told.out, "and after it", told)

    def test_failed_sync(self):
        """What a sync that failed has lost isn't promised by a later one, which the system answers well."""
        for number in range(2, 9):
            for workers in (1, 4):
                place = self.fresh()
                job = Job(SMALL, {"w": 0}, workers)
                plan = Plan(place.run("--parse-only", text=SMALL).out.decode(), job.intervals)
                run = Run(place, job, plan).go(self.library, "--sync-every=5", "--cached", seed=number, fail=number)
                expect(run.ran.status == 3 and run.ran.err == b"fiorun: cannot write\n", "a sync that fails", run.ran)
                told = run.after()
                expect(told.status == 0 and b" lost=0 broken=0 " in told.out, "what was lost with it:", told, lines_of(run.ledger)[-20:])

    def test_failed_beside_others(self):
        """What a sync that failed has lost isn't promised by one that was under way beside it, which the system answers well."""
        text, beside = SMALL + "iodepth=16\n", 0
        for number in range(2, 26):
            place = self.fresh()
            job = Job(text, {"w": 0}, 8)
            plan = Plan(place.run("--parse-only", text=text).out.decode(), job.intervals)
            run = Run(place, job, plan).go(self.library, "--sync-every=1", "--cached", seed=number, fail=number)
            expect(run.ran.status == 3 and run.ran.err == b"fiorun: cannot write\n", "a sync that fails", run.ran)
            told = run.after()
            expect(told.status == 0 and b" lost=0 broken=0 " in told.out, "what was lost with it:", told, lines_of(run.ledger)[-20:])
            beside += run.account.beside_failed()
        expect(beside, "no sync returned well beside one that failed")

    def served(self, *more):
        """A server of a disk, `image`, as the file `export`: what it keeps of it, it stores at syncs alone."""
        place = self.place
        words = ["--blockdev", ",".join((f"driver=file,filename={place.at('image')},node-name=f", *more))]
        words += ["--blockdev", ",".join(("driver=qcow2,file=f,node-name=q", *more))]
        words += ["--export", f"type=fuse,id=e,node-name=q,mountpoint={place.at('export')},writable=on"]
        it = subprocess.Popen(["qemu-storage-daemon", *words], stderr=subprocess.DEVNULL)
        deadline = time.monotonic() + 10
        while os.path.getsize(place.at("export")) != 1 << 20:
            if it.poll() is not None or time.monotonic() > deadline:
                raise Skipped("qemu-storage-daemon exports no file")
            time.sleep(0.05)
        return it

    def killed(self, text, *more):
        """The judgement of a disk whose server was killed under a run of this job, and what the disk then holds."""
        for tool in ("qemu-storage-daemon", "qemu-img"):
            if not shutil.which(tool):
                raise Skipped(f"there is no {tool}")
        if os.geteuid() != 0 or not os.path.exists("/dev/fuse"):
            raise Skipped("no FUSE export")
        place = self.place
        place.put("export", bytes(0))
        subprocess.run(["qemu-img", "create", "-q", "-f", "qcow2", place.at("image"), "1m"], check=True)
        server = self.served(*more)
        child = place.start("--workers=4", "--ledger=ledger", "--sync-every=20", text=text)
        time.sleep(1)
        server.kill()
        server.wait()
        ending(child)
        subprocess.run(["umount", "-l", place.at("export")], check=False)
        server = self.served(*more)
        try:
            return place.run("--after=ledger", text=text), place.get("export")
        finally:
            server.terminate()
            server.wait()

    def test_qemu(self):
        """A server of a disk that is killed, with a cache that is stored at syncs alone (writeback)."""
        told, _ = self.killed(SERVED.format(loops=200))
        expect(told.status == 0 and b" lost=0 broken=0 " in told.out, "after the kill of a server", told)

    def test_qemu_unsafe(self):
        """The same with one that takes syncs for nothing (unsafe). It may have lost anything, or nothing: what is told is right."""
        text = SERVED.format(loops=40)
        whole = self.whole(text, workers=4, words=("--sync-every=20", "--cached"))
        told, image = self.killed(text, "cache.no-flush=on")
        report, status = whole.judge.told(Ledger(lines_of(self.place.get("ledger"))), [image])
        expect((told.status, told.out.decode()) == (status, report), "told", told, "and wanted", status, report)
        self.said = report.splitlines()[0]
