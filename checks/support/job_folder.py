"""Runs of jobs over files in a folder of their own, one of whose calls of the system may go wrong (checks/support/faulty.c)."""

import os
import subprocess

from support.program import Ended, SystemCalls, Wrong, needed_library

SECONDS = 60


def same(what, got, wanted):
    if got != wanted:
        raise Wrong(f"{what}: {str(got)[:400]}\n    and not {str(wanted)[:400]}")


def said(status, *lines):
    """The end of a run that prints these lines and nothing else."""
    return Ended(status, "".join(lines).encode(), b"")


def blocks(*runs):
    """Runs of equal bytes, each a length and a byte."""
    return b"".join(bytes([byte]) * count for count, byte in runs)


class JobFolder:
    """A check's own folder, and in it the folder of its jobs."""

    def __init__(self, program, path):
        self.program, self.path = program, path
        self.jobs = self.at("jobs")
        os.mkdir(self.jobs)
        os.chmod(self.jobs, 0o777)

    def at(self, name):
        return os.path.join(self.path, name)

    def put(self, name, content):
        """A file of the jobs' folder."""
        with open(os.path.join(self.jobs, name), "wb") as it:
            it.write(content)

    def held(self):
        """All files of the jobs' folder, and what is in them."""
        held = {}
        for name in os.listdir(self.jobs):
            with open(os.path.join(self.jobs, name), "rb") as it:
                held[name] = it.read()
        return held

    def words(self, jobs, workers, folder=None):
        """The words of a run of jobs in this folder, theirs where no other is named."""
        with open(self.at("job"), "w", encoding="ascii") as it:
            it.write(f"[global]\nioengine=psync\ndirectory={folder or self.jobs}\n{jobs}")
        return [self.program, f"--workers={workers}", self.at("job")]

    def run(self, jobs, workers, folder=None, more=(), **how):
        try:
            words = [*self.words(jobs, workers, folder), *more]
            it = subprocess.run(words, stdin=subprocess.DEVNULL, capture_output=True, timeout=SECONDS, check=False, **how)
        except subprocess.TimeoutExpired:
            raise Wrong(f"had not ended after {SECONDS} s: {jobs!r}") from None
        return Ended(it.returncode, it.stdout, it.stderr)

    def calls(self):
        """What counts the calls of a run."""
        return SystemCalls(needed_library("faulty.c"), self.at("calls"))

    def fault(self, fault):
        """The environment in which one call goes so."""
        return self.calls().environment(fault)

    def traced(self, jobs, workers, fault, folder=None):
        """Runs jobs with this fault: how that ends, its trace, and how often it read and wrote blocks."""
        ended = self.run(jobs, workers, folder, [f"--trace={self.at('trace')}"], env=self.fault(fault))
        with open(self.at("trace"), encoding="ascii") as it:
            trace = it.read()
        calls = self.calls().counted()
        return ended, trace, (calls["pread"], calls["pwrite"])
