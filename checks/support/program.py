"""What the checks share: the folder of this run of them, how a run of the program ends, a line of its report, and the libraries that are
loaded before its own."""

import atexit
import functools
import os
import re
import shutil
import signal
import struct
import subprocess
import tempfile
import threading
import unittest
from typing import NamedTuple

HERE = os.path.dirname(os.path.realpath(__file__))
TOP = os.path.dirname(os.path.dirname(HERE))
LAUNCH = os.path.join(TOP, "launcher", "launch")
START = os.path.join(TOP, "launcher", "start")
MIB = 1 << 20
NOBODY = 65534
FIELDS = "reads rbytes writes wbytes checks good bad skipped void faults".split()
# The line that a terminal shows of a run: what wipes it, and what it says.
WIPED = "\r\x1b[K"
# What is said with notes of a run with checks that wasn't started by bin/fiorun.
UNDROPPED = "fiorun: note: the system's cache may have answered checks: started by bin/fiorun, files are dropped from it\n"
# What is said with notes of reads that the cache may have answered.
MAYBE_CACHED = "fiorun: note: the system's cache may have answered {} reads of files that are checked\n"
LINE = re.compile(r"fiorun: (\d+)\.\d % done, (\d+) I/Os, (\d+) checked, (\d+) bad(?:, \d+:\d\d:\d\d left)?")
# The same as it is printed, with the time.
PRINTED = re.compile(LINE.pattern + r"(?:, \d+ [KM]iB/s)?, after (\d+) s")

# Held while a library is built.
BUILDING = threading.Lock()

# (what is ignored where a check begins, as nohup has it, would be ignored in all that it starts)
for number in (signal.SIGHUP, signal.SIGINT, signal.SIGQUIT, signal.SIGTERM):
    if signal.getsignal(number) == signal.SIG_IGN:
        signal.signal(number, signal.SIG_DFL)


class Wrong(AssertionError):
    """The program did what it must not."""


class Skipped(unittest.SkipTest):
    """The machine doesn't give what the case needs."""


class Ended(NamedTuple):
    """How a run ended: its status (below 0: the signal that killed it) and what it wrote to its two streams."""

    status: int
    out: bytes
    err: bytes


def expect(is_right, *said):
    if not is_right:
        raise Wrong(" ".join(it if isinstance(it, str) else repr(it)[:400] for it in said))


def total(job="w", clone=0, **counts):
    """A clone's line of the report."""
    expect(set(counts) <= set(FIELDS), "no such field", counts)
    return f"{job}: clone={clone} " + " ".join(f"{it}={counts.get(it, 0)}" for it in FIELDS) + "\n"


def as_nobody():
    """What a run needs not to be root's, for whom no file is read-only."""
    if os.getuid() != 0:
        return {}
    return {"preexec_fn": lambda: (os.setgroups([]), os.setgid(NOBODY), os.setuid(NOBODY))}


@functools.cache
def own_folder(where=None):
    """The folder of this run of the checks, below this one or that of temporary files. It goes as they end."""
    path = tempfile.mkdtemp(prefix="checks-", dir=where)
    # (others may look for what lies in it: some runs are nobody's)
    os.chmod(path, 0o755)
    atexit.register(shutil.rmtree, path, ignore_errors=True)
    return path


def trials(usual):
    """How many trials a check of random ones makes: TRIALS of the environment, where it is given."""
    return int(os.environ.get("TRIALS", usual))


def needs(*tools):
    for it in tools:
        if not shutil.which(it):
            raise Skipped(f"there is no {it}")


def needs_root(*tools):
    if os.geteuid() != 0:
        raise Skipped("not root")
    needs(*tools)


def compiler():
    """The C compiler."""
    found = os.environ.get("CC", "cc")
    if not shutil.which(found):
        raise Skipped(f"there is no C compiler {found}")
    return found


def built_library(source):
    """A library that is loaded before a program's own, built by cc from a file of this folder. Where there is no cc: Skipped."""
    library = os.path.join(own_folder(), source.replace(".c", ".so"))
    with BUILDING:
        if not os.path.exists(library):
            words = [compiler(), "-O2", "-shared", "-fPIC", "-o", library, os.path.join(HERE, source), "-ldl"]
            subprocess.run(words, check=True)
    return library


def needed_library(source):
    """The same for a check that can do nothing without it."""
    try:
        return built_library(source)
    except Skipped as why:
        raise Wrong(why) from None


class SystemCalls:
    """Counts a run's calls of the system, and lets one of them go wrong (checks/support/faulty.c)."""

    NAMES = "open lseek read write pread pwrite pthread_create fdatasync".split()

    def __init__(self, library, counts):
        self.library = library
        self.counts = counts

    def environment(self, fault):
        """The environment of a run in which one call goes so."""
        with open(self.counts, "wb") as it:
            it.write(bytes(8 * len(self.NAMES)))
        return {**os.environ, "LD_PRELOAD": self.library, "CALLS": self.counts, "FAULT": fault}

    def counted(self):
        """How often each call was made in the last run."""
        with open(self.counts, "rb") as it:
            return dict(zip(self.NAMES, struct.unpack(f"{len(self.NAMES)}Q", it.read())))


class Requests:
    """Counts a run's requests for memory and for threads, and refuses some of them (checks/support/refuse.c)."""

    def __init__(self, counts):
        self.library = needed_library("refuse.c")
        self.counts = counts

    def environment(self, number, onward=False):
        """The environment of a run in which the request of this number is refused (0: none), and all behind it where `onward`."""
        with open(self.counts, "wb") as it:
            it.write(bytes(16))
        refusal = {"REFUSE": str(number), "REFUSE_ON": str(int(onward))}
        return {"PATH": os.environ.get("PATH", ""), "LD_PRELOAD": self.library, "COUNTS": self.counts, **refusal}

    def counted(self):
        """How many requests the last run made, and how many were refused."""
        with open(self.counts, "rb") as it:
            return struct.unpack("QQ", it.read(16))
