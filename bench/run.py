#!/usr/bin/env python3
"""bench/run.py prints the page docs/SPEED.md: how long fiorun takes, beside fio for the same jobs, by workers and verifiers, beside its
floor, for each I/O as runs grow, and for the check of a trace. Each row's runs are made in turn, TIMES times: what is printed are the
medians.

Where fio isn't there its columns are empty; with INSTALL=1 it is installed by the system's package manager. What it prints on
standard error is how far it is. From the environment:

    SIZE       how much a job writes, in MiB (256); those of direct and sync have sizes of their own
    SIZE_JOBS  how much each of the four jobs of the part jobs writes, in MiB, where it is checked (512)
    SIZE_DEEP  how much each job of the part deep writes, in MiB (128)
    TIMES      how often each run is made (5)
    LIMIT      after how many seconds a run is stopped (60); where one is, the row has a '-'
    PLACES     where the files are: tmpfs, disk or both (tmpfs disk)
    DISK       a folder on a disk (that of this script); tmpfs is /dev/shm
    WORKERS    with how many workers fiorun is run (1 2 4)
    VERIFIERS  with how many verifiers (0 1 2)
    COUNTS     runs of how many I/Os are tried for what an I/O costs (10000 100000 1000000 10000000)
    GROWTH     the short run and the long one that show what memory an I/O takes (10000 1000000)
    EVENTS     traces of how many events are checked (10000 100000 1000000)
    NULLS      how many I/Os a row of the part null has (2097152)
    PROGRAM    the program (bin/fiorun)
    OTHER      another program, which the part null runs in turn with it (none)
    PARTS      which parts of the page are measured (fio jobs deep null floor verifiers chunks direct sync cost traces)
    KEPT       a page that was printed before: it has the figures of the other parts
"""

import contextlib
import functools
import itertools
import os
import platform
import re
import shutil
import signal
import statistics
import subprocess
import sys
import tempfile
import time

HERE = os.path.dirname(os.path.realpath(__file__))


def listed(name, usual):
    return os.environ.get(name, usual).split()


SIZE = int(os.environ.get("SIZE", "256"))
SIZE_JOBS = int(os.environ.get("SIZE_JOBS", "512"))
SIZE_DEEP = int(os.environ.get("SIZE_DEEP", "128"))
USUAL = 5
TIMES = int(os.environ.get("TIMES", USUAL))
LIMIT = float(os.environ.get("LIMIT", "60"))
PLACES = {it: {"tmpfs": "/dev/shm", "disk": os.environ.get("DISK", HERE)}[it] for it in listed("PLACES", "tmpfs disk")}
# Where the parts are measured that have one place only.
FIRST = next(iter(PLACES))
WORKERS = listed("WORKERS", "1 2 4")
HEADS = [f"{it} workers" if it != "1" else "1 worker" for it in WORKERS]
BESIDE = ["Place", "rw", "bs", "verify", "jobs", "fio", *HEADS]
VERIFIERS = listed("VERIFIERS", "0 1 2")
COUNTS = listed("COUNTS", "10000 100000 1000000 10000000")
GROWTH = listed("GROWTH", "10000 1000000")
EVENTS = [int(it) for it in listed("EVENTS", "10000 100000 1000000")]
PROGRAM = os.environ.get("PROGRAM", os.path.join(HERE, "..", "bin", "fiorun"))
NULLS = int(os.environ.get("NULLS", "2097152"))
OTHER = os.environ.get("OTHER")
PARTS = listed("PARTS", "fio jobs deep null floor verifiers chunks direct sync cost traces")
METHODS = ("0", "pattern", "md5", "sha256")
# Where fio has fewer seconds than these without its start, nothing is divided by them.
LEAST = 0.05
# The part deep: how many jobs, and their iodepth.
DEEP = ((4, 16), (4, 1), (1, 16))
# The part null: with how many workers.
CROWDS = ("1", "4", "16")
# Jobs with direct=1: the engine that fio has, rw, bs, iodepth, with how many workers fiorun has the same, and how many MiB.
DIRECT = (("psync", "randwrite", "4k", 1, 32), ("libaio", "randwrite", "4k", 16, 64), ("psync", "write", "1m", 1, 256))
# Jobs through the cache: verify_backlog, and how many MiB.
BACKLOGS = ((1, 4), (1000, 64), (0, 64))


@functools.cache
def has_fio():
    """Says whether fio is there. Where it isn't, it is installed if INSTALL says so."""
    if shutil.which("fio") or not os.environ.get("INSTALL"):
        return shutil.which("fio") is not None
    # (a fresh machine may have no list of packages yet)
    ways = {"apt-get": "apt-get update && apt-get install -y fio", "dnf": "dnf install -y fio", "apk": "apk add fio"}
    for way, words in ways.items():
        if shutil.which(way):
            subprocess.run(words, shell=True, stdout=sys.stderr, check=False)
            break
    return shutil.which("fio") is not None


def said_by(*words):
    """What a command prints, or nothing where it can't be run."""
    try:
        return subprocess.run(words, stdout=subprocess.PIPE, stderr=subprocess.DEVNULL, cwd=HERE, check=True).stdout.decode().strip()
    except (OSError, subprocess.CalledProcessError):
        return ""


def found(path, pattern):
    """The first group of a pattern in a file of the system."""
    try:
        with open(path, encoding="utf-8") as it:
            match = re.search(pattern, it.read())
    except OSError:
        return ""
    return match.group(1) if match else ""


def seconds(words, folder):
    """Runs a command in a folder, and returns how long it took, or None where it was stopped."""
    began = time.monotonic()
    child = subprocess.Popen(words, cwd=folder, stdout=subprocess.PIPE, stderr=subprocess.STDOUT, start_new_session=True)
    try:
        said = child.communicate(timeout=LIMIT)[0].decode(errors="replace")
    except subprocess.TimeoutExpired:
        os.killpg(child.pid, signal.SIGKILL)
        child.communicate()
        return None
    if child.returncode:
        sys.exit(f"bench: {' '.join(words)} ended with {child.returncode} and said: {said[-600:]}")
    return time.monotonic() - began


def must_say_nothing(words, folder):
    """Runs a command, of which a note would say that it doesn't do what is measured."""
    said = subprocess.run(words, cwd=folder, stdout=subprocess.DEVNULL, stderr=subprocess.PIPE, check=False).stderr.decode()
    if said:
        sys.exit(f"bench: {' '.join(words)} says: {said}")


def medians(sides, folder):
    """Runs commands in turn, and returns the median of each, or None where one was stopped."""
    took = {it: [] for it in sides}
    for _ in range(TIMES):
        for it, words in sides.items():
            if None not in took[it]:
                took[it].append(seconds(words, folder))
    return {it: None if None in them else statistics.median(them) for it, them in took.items()}


def in_turn(top, texts, sides):
    """Puts job files with these texts into a folder below this one, and returns the medians of commands that are run there."""
    with tempfile.TemporaryDirectory(prefix="bench-", dir=top) as folder:
        for name, text in texts.items():
            put(folder, f"{name}.fio", text)
        return medians(sides, folder)


def job_text(rw, block, verify, clones, size, **more):
    """A job: size is what each clone writes, and more are options that it has besides these, or in place of one."""
    options = {"ioengine": "psync", "rw": rw, "bs": block, "size": size, "numjobs": clones, "iodepth": 16, "verify": verify, **more}
    lines = ["[w]", *(f"{name}={value}" for name, value in options.items())]
    lines += ["verify_pattern=0xdeadbeef"] * (verify == "pattern")
    lines += ["group_reporting"] * (clones > 1)
    return "\n".join(lines) + "\n"


def put(folder, name, text):
    with open(os.path.join(folder, name), "w", encoding="utf-8") as it:
        it.write(text)
    return name


def fiorun(workers, *words):
    return [PROGRAM, f"--workers={workers}", *words]


def fio_over(**files):
    """The commands of fio over these job files, by their names: none where it isn't there."""
    return {name: ["fio", "--minimal", file] for name, file in files.items()} if has_fio() else {}


def shown(took, beside=None, began=None):
    """Seconds, what part of others they are, and what part once the starts of both are taken off."""
    if took is None:
        return "-"
    parts = [f"{took / beside:.2f}"] if beside else []
    if beside and began:
        rest = beside - began["fio"]
        parts.append("-" if rest < LEAST else f"{max(took - began['fiorun'], 0) / rest:.2f}")
    return ", ".join([f"{took:.2f} s", *parts])


def quotient(took, it, other):
    """How many times another's seconds these are: nothing where one of them wasn't measured, '-' where it was stopped."""
    if it not in took or other not in took:
        return ""
    return f"{took[it] / took[other]:.2f}" if took[it] and took[other] else "-"


def table(head, rows):
    """Prints a table, each row as soon as it is there."""
    print("| " + " | ".join(head) + " |")
    print("|-" * len(head) + "|", flush=True)
    for row in rows:
        print("| " + " | ".join(str(it) for it in row) + " |", flush=True)
        print("bench:", *row[:5], file=sys.stderr)
    print(flush=True)


def beside_fio(jobs, began):
    """A row for each job: fio, and fiorun with each number of workers."""
    for place, rw, block, verify, clones, size in jobs:
        text = job_text(rw, block, verify, clones, size)
        took = in_turn(PLACES[place], {"job": text}, {**fio_over(fio="job.fio"), **{it: fiorun(it, "job.fio") for it in WORKERS}})
        fio = took.get("fio")
        yield [place, rw, block, verify, clones, shown(fio), *(shown(took[it], fio, began[clones]) for it in WORKERS)]


def starts(*numbers):
    """How long each takes for so many jobs of one block, for each of these numbers: what starting and ending takes."""
    texts = {clones: {"job": job_text("write", "4k", "0", clones, "4k")} for clones in numbers}
    sides = {**fio_over(fio="job.fio"), "fiorun": fiorun(1, "job.fio")}
    return {clones: in_turn("/dev/shm", text, sides) for clones, text in texts.items()}


def by_depth(began):
    """A row for each place, job and method: fio and four workers; by sha256 and with a depth also one worker, and two verifiers."""
    for place, (clones, depth), verify in itertools.product(PLACES, DEEP, METHODS[1:]):
        job = functools.partial(job_text, "write", "4k", verify, clones, f"{SIZE_DEEP}m", iodepth=depth)
        sides = {**fio_over(fio="job.fio"), "four": fiorun(4, "job.fio")}
        if verify == "sha256" and depth > 1:
            sides.update({"one": fiorun(1, "job.fio"), "verifiers": fiorun(2, "verifiers.fio")})
        took = in_turn(PLACES[place], {"job": job(), "verifiers": job(verify_async=2)}, sides)
        fio = took.get("fio")
        four, one, verifiers = (shown(took[it], fio, began[clones]) if it in took else "" for it in ("four", "one", "verifiers"))
        speed_up, part = quotient(took, "one", "four"), quotient(took, "verifiers", "four")
        yield [place, clones, depth, verify, shown(fio), four, one, speed_up, verifiers, part]


def by_null():
    """A row for each job over the null engine: how many I/Os a second there are by each number of workers, also of the other program."""
    programs = [it for it in (PROGRAM, OTHER) if it]
    for rw, block, clones in itertools.product(("randwrite", "randread"), ("512", "4k"), (1, 4, 64)):
        each = NULLS // clones * (512 if block == "512" else 4096)
        job = functools.partial(job_text, rw, block, "0", clones, ioengine="null", iodepth=1)
        sides = {(it, workers): [it, f"--workers={workers}", "job.fio"] for it in programs for workers in CROWDS}
        took = in_turn("/dev/shm", {"job": job(each)}, sides)
        began = in_turn("/dev/shm", {"job": job(block)}, sides)
        yield [rw, block, clones, *(a_second(took[it], began[it]) for it in sides)]


def a_second(took, began):
    """How many I/Os of the part null a second these are, with the start taken off, in thousands."""
    return "-" if took is None or began is None else f"{NULLS / max(took - began, 0.001) / 1000:,.0f}"


def beside_floor(place):
    """A row for each method: what one worker's fills, digests, copies and calls take alone, and its run."""
    said = subprocess.run([os.path.join(HERE, "floor"), "--program"], stdout=subprocess.PIPE, check=True)
    for verify in METHODS[1:]:
        # (both over the file that the job lays out)
        floor = [said.stdout.decode().strip(), verify, str(SIZE * 256), "w.0.0"]
        text = job_text("write", "4k", verify, 1, f"{SIZE}m")
        took = in_turn(PLACES[place], {"job": text}, {"run": fiorun(1, "job.fio"), "floor": floor})
        yield [place, verify, shown(took["floor"]), shown(took["run"], took["floor"])]


def by_verifiers(place):
    """A row for each method and number of verifiers."""
    for verify, verifiers in itertools.product(METHODS[1:], VERIFIERS):
        text = job_text("write", "4k", verify, 4, f"{SIZE // 4}m", verify_async=verifiers)
        took = in_turn(PLACES[place], {"job": text}, {it: fiorun(it, "job.fio") for it in WORKERS})
        yield [verify, verifiers, *(shown(took[it]) for it in WORKERS)]


def by_chunks():
    """A row for each place and digest: blocks of 4 KiB, and blocks of 1 MiB with a header each 4 KiB, by one worker."""
    for place, verify in itertools.product(PLACES, METHODS[2:]):
        small = job_text("write", "4k", verify, 1, f"{SIZE}m")
        large = job_text("write", "1m", verify, 1, f"{SIZE}m", verify_interval="4k")
        sides = {it: fiorun(1, f"{it}.fio") for it in ("small", "large")}
        took = in_turn(PLACES[place], {"small": small, "large": large}, sides)
        yield [place, verify, shown(took["small"]), shown(took["large"], took["small"])]


@contextlib.contextmanager
def direct_place(place):
    """A folder and lines of a job that name a file on the disk, or a loop device over a file of the memory."""
    with tempfile.TemporaryDirectory(prefix="bench-", dir=PLACES[place]) as folder:
        if place == "disk":
            yield folder, ["filename=data"]
            return
        with open(os.path.join(folder, "image"), "wb") as it:
            it.truncate(max(mib for *_, mib in DIRECT) << 20)
        device = said_by("losetup", "-f", "--show", os.path.join(folder, "image"))
        try:
            yield folder, ["directory=/dev", f"filename={os.path.basename(device)}"] if device else None
        finally:
            said_by("losetup", "-d", device)


def by_direct():
    """A row for each place, job and method with direct=1: fio, and fiorun with as many workers as the job is deep."""
    for place in PLACES:
        with direct_place(place) as (folder, lines):
            for (engine, rw, block, depth, mib), verify in itertools.product(DIRECT, ("0", "md5") if lines else ()):
                words = ["[w]", "direct=1", f"ioengine={engine}", f"rw={rw}", f"bs={block}", f"iodepth={depth}", f"size={mib}m"]
                put(folder, "job.fio", "\n".join([*words, f"verify={verify}", *lines]) + "\n")
                must_say_nothing(fiorun(depth, "--notes", "job.fio"), folder)
                took = medians({**fio_over(fio="job.fio"), "fiorun": fiorun(depth, "job.fio")}, folder)
                yield [place, engine, rw, block, depth, mib, verify, shown(took.get("fio")), shown(took["fiorun"], took.get("fio"))]


def by_sync():
    """A row for each place, order and backlog, through the cache: fio, fio with as many syncs, and fiorun with and without --cached."""
    for place, rw, (backlog, mib) in itertools.product(PLACES, ("write", "randwrite"), BACKLOGS):
        words = ["[w]", "ioengine=psync", f"rw={rw}", "bs=4k", f"size={mib}m", "verify=md5", f"verify_backlog={backlog}"]
        more = {"job": [], "synced": [f"fdatasync={backlog}"], "plain": ["fadvise_hint=0"]}
        texts = {name: "\n".join([*words, *lines]) + "\n" for name, lines in more.items()}
        sides = {**fio_over(fio="job.fio", synced="synced.fio", plain="plain.fio"), "fiorun": fiorun(1, "job.fio")}
        took = in_turn(PLACES[place], texts, {**sides, "cached": fiorun(1, "--cached", "job.fio")})
        fio = took.get("fio")
        beside = [shown(took.get(it), fio) for it in ("synced", "plain", "fiorun", "cached")]
        yield [place, rw, backlog or "none", mib, shown(fio), *beside]


def by_count(workers, counts):
    """The rows of bench/cost."""
    settings = {"LIMIT": str(LIMIT), "WORKERS": workers}
    child = subprocess.Popen([os.path.join(HERE, "cost"), PROGRAM, *counts], stdout=subprocess.PIPE, env={**os.environ, **settings})
    next(child.stdout, None)
    for line in child.stdout:
        row = re.split(r"\s{2,}", line.decode().strip())
        yield row if len(row) == 5 else [row[0], " ".join(row[1:]), "", "", ""]
    if child.wait():
        sys.exit(f"bench: bench/cost ended with {child.returncode}")


def by_growth():
    """A row for one worker and for four: the peaks of the short run and of the long one, and what an I/O between them takes."""
    between = int(GROWTH[1]) - int(GROWTH[0])
    for workers in ("1", "4"):
        runs = [[row[3] for row in by_count(workers, GROWTH)] for _ in range(TIMES)]
        if any("" in peaks for peaks in runs):
            yield [workers, "-", "-", "-"]
            continue
        short, long = (statistics.median(float(it) for it in peaks) for peaks in zip(*runs))
        yield [workers, f"{short:.1f}", f"{long:.1f}", f"{(long - short) * 2**20 / between:.0f}"]


def by_trace():
    """A row for each trace: how long the run takes that writes it, and its check."""
    for events in EVENTS:
        for block in ("512", "64k"):
            for backlog in (3, 1000):
                # (a device that reads zeros, and checks for zeros: five events for each write)
                text = f"[w]\nioengine=null\nrw=write\nbs={block}\nsize={events // 5 * (512 if block == '512' else 65536)}\n"
                text += f"verify=pattern\nverify_pattern=0x00\nverify_backlog={backlog}\n"
                with tempfile.TemporaryDirectory(prefix="bench-", dir="/dev/shm") as folder:
                    put(folder, "job.fio", text)
                    run = seconds(fiorun(1, "--trace=trace", "job.fio"), folder)
                    lines = run and said_by("wc", "-l", f"{folder}/trace").split()[0]
                    check = run and medians({"it": fiorun(1, "--check-trace=trace", "job.fio")}, folder)["it"]
                each = f"{check * 1e6 / int(lines):.2f}" if check else "-"
                yield [lines or events, block, backlog, shown(run), shown(check), each]


def tell_starts(began):
    """Says what the numbers of a cell are, and how long the starts take that are taken off."""
    print("Behind fiorun's seconds stand two numbers: what part of fio's they are, and what part once both starts are taken off.")
    print("A start is how long as many jobs of one block take.")
    for clones, took in began.items():
        said = " and ".join(f"{it} {shown(took)}" for it, took in took.items())
        print(f"{clones} jobs of one block take {said}." if clones > 1 else f"A job of one block takes {said}.")
    print(f"A '-' stands where fio has less than {LEAST} s left.\n")


def print_fio():
    print("Writes to files, and then their checks, by psync in both.")
    began = starts(1)
    tell_starts(began)
    jobs = itertools.product(PLACES, ("write", "randwrite"), ("4k", "128k"), METHODS, (1,), (f"{SIZE}m",))
    table(BESIDE, beside_fio(jobs, began))


def print_jobs():
    print(f"Four jobs over files of their own: {SIZE_JOBS} MiB each, and {SIZE // 4} MiB each where nothing is checked.")
    began = starts(4)
    tell_starts(began)
    sizes = {verify: f"{SIZE_JOBS if verify != '0' else SIZE // 4}m" for verify in METHODS}
    table(BESIDE, beside_fio([(place, "write", "4k", verify, 4, sizes[verify]) for place in PLACES for verify in METHODS], began))


def print_deep():
    print(f"Writes of 4 KiB and then their checks, by jobs over files of their own, {SIZE_DEEP} MiB each. fio has the same job file.")
    print("Its psync makes one call at a time, whatever the iodepth. By sha256 and with iodepth=16 fiorun also runs with one worker, and")
    print("with two workers beside two verifiers. (For these its job has `verify_async=2`, and fio's has none.) The speed-up says how many")
    print("times as fast four workers are as one. The last column says what part of the seconds of four workers those of two workers and")
    print("two verifiers are.")
    began = starts(4, 1)
    tell_starts(began)
    heads = ["4 workers", "1 worker", "speed-up", "2 workers, 2 verifiers", "of 4 workers"]
    table(["Place", "jobs", "iodepth", "verify", "fio", *heads], by_depth(began))


def print_null():
    print(f"{NULLS} I/Os into the null engine, which does nothing, by random jobs of depth 1 that check nothing: thousands of I/Os a")
    print("second, with the start taken off. So this is what the desk and the filling of blocks let through.\n")
    heads = [f"{it} workers" if it != "1" else "1 worker" for it in CROWDS]
    table(["rw", "bs", "jobs", *heads, *(f"{it}, other program" for it in heads if OTHER)], by_null())


def print_floor():
    print("Writes of 4 KiB and then their checks by one worker, and the same tickets served and judged with no desk")
    print("(`bench/floor`): fills, digests, copies and calls alone.\n")
    table(["Place", "verify", "the floor", "1 worker"], beside_floor(FIRST))


def print_verifiers():
    print(f"Four jobs over files of their own, writes of 4 KiB and then their checks, on {FIRST}.\n")
    table(["verify", "verifiers", *HEADS], by_verifiers(FIRST))


def print_chunks():
    print("Writes and then their checks by one worker: blocks of 4 KiB, and the same bytes in blocks of 1 MiB with")
    print("`verify_interval=4k`. Behind the seconds of these stands what part of the others they are.\n")
    table(["Place", "verify", "bs=4k", "bs=1m"], by_chunks())


def print_direct():
    print("Writes with `direct=1`, and then their checks where there is a method: to a file on the disk, and to a loop device over a")
    print("file on tmpfs (as root). fiorun has as many workers as the job is deep. Behind its seconds stands what part of fio's they")
    print("are.\n")
    table(["Place", "ioengine", "rw", "bs", "iodepth", "MiB", "verify", "fio", "fiorun"], by_direct())


def print_sync():
    print("Writes of 4 KiB and their checks by md5, through the cache, by one worker. fiorun syncs the file and drops its cached")
    print("pages before each round of checks, with `--cached` neither. fio does both before the checks at the end, and neither")
    print("before those of a backlog: with `fdatasync` it syncs as often. With `fadvise_hint=0` it gives the system no hint, as")
    print("fiorun gives none. Behind the seconds stands what part of those of fio's same job they are.\n")
    table(["Place", "rw", "verify_backlog", "MiB", "fio", "fdatasync", "fadvise_hint=0", "fiorun", "--cached"], by_sync())


def print_cost():
    print("Random writes of 512 bytes into a memory, each checked against a pattern, by one worker, by `bench/cost`.\n")
    table(["I/Os", "seconds", "us an I/O", "peak MiB", "bytes an I/O"], by_count("1", COUNTS))
    print("The same by one worker and by four, with as many I/Os in flight. The bytes are what the peak grows by for each I/O more. Every")
    print("other I/O is a write, and its 512 bytes stay in the memory that is written to: 256 bytes an I/O are that.\n")
    table(["workers", *(f"peak MiB of {count} I/Os" for count in GROWTH), "bytes an I/O"], by_growth())


def print_traces():
    print("Traces of writes and their checks, in rounds of so many writes.\n")
    table(["events", "bs", "round", "the run", "the check", "us an event"], by_trace())


# The parts of the page, by their names in PARTS: the head of each, and what prints it.
PAGE = {
    "fio": ("Beside fio", print_fio),
    "jobs": ("Beside fio, four jobs", print_jobs),
    "deep": ("Beside fio, iodepth=16", print_deep),
    "null": ("No device at all", print_null),
    "floor": ("One worker against its floor", print_floor),
    "verifiers": ("Workers and verifiers", print_verifiers),
    "chunks": ("Large blocks of small chunks", print_chunks),
    "direct": ("Direct I/O", print_direct),
    "sync": ("Sync and drop", print_sync),
    "cost": ("What an I/O costs as a run grows", print_cost),
    "traces": ("The check of a trace", print_traces),
}


def main():
    # (so that a first build isn't timed; help alone would begin none)
    subprocess.run([PROGRAM, "--parse-only"], input=b"[a]\nsize=4k\n", stdout=subprocess.DEVNULL, check=True)
    memory = int(found("/proc/meminfo", r"MemTotal:\s*(\d+)") or 0) >> 20
    model = found("/proc/cpuinfo", r"model name\s*:\s*(.*)") or platform.machine()
    print("# Speed\n\nMade by `bench/run.py`, and not by hand; `Instructions` by `bench/instructions.py`, the last part by `bench/ledger.py`, and `Memory` by hand.\n")
    print(f"- {model}, {os.cpu_count()} processors, {memory} GiB, Linux {platform.release()}")
    fio_is = said_by("fio", "--version") if has_fio() else "fio is not there: its columns are empty"
    print(f"- kit `{said_by('rt', 'version') or 'unknown'}`, {fio_is}")
    print(f"- {SIZE} MiB a job and medians of {USUAL} where a part says no other, runs in turn, none longer than {LIMIT:.0f} s ('-')\n")
    kept = kept_parts()
    # (the sources by what they are, not by a commit: what git calls the folder of the crates)
    sources = said_by("git", "rev-parse", "--short", "HEAD:crates") or "unknown"
    often = "" if TIMES == USUAL else f" Medians of {TIMES} runs."
    made = f"Measured on {time.strftime('%Y-%m-%d')}, sources {sources} (`git rev-parse --short HEAD:crates`).{often}\n"
    for name, (head, part) in PAGE.items():
        if name in PARTS:
            print(f"## {head}\n\n{made}")
            part()
        elif head in kept:
            print(f"## {head}\n\n{kept[head]}\n", flush=True)


def kept_parts():
    """The parts of a page that was printed before, by their heads."""
    if "KEPT" not in os.environ:
        return {}
    with open(os.environ["KEPT"], encoding="utf-8") as it:
        parts = re.split(r"(?m)^## (.*)\n", it.read())
    return {head: text.strip() for head, text in zip(parts[1::2], parts[2::2])}


if __name__ == "__main__":
    main()
