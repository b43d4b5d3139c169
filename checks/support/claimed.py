"""Runs that take files and devices, or are refused them."""

import re
import subprocess

from support.program import LAUNCH, expect

SECONDS = 120
OPEN = "fiorun: cannot open the files\n"


def run(place, job, *words, before=""):
    """Runs a job text with notes, behind a command of the shell where one is given."""
    command = ["sh", "-c", before + '\nexec "$@"', "sh", place.program, "--notes", *words]
    return subprocess.run(command, input=job, cwd=place.path, capture_output=True, text=True, timeout=SECONDS, check=False)


def launched(place, job, *words):
    """The same below the launcher, which holds devices that are written."""
    command = [LAUNCH, place.program, "--notes", *words]
    return subprocess.run(command, input=job, cwd=place.path, capture_output=True, text=True, timeout=SECONDS, check=False)


def told(ended):
    return f"status {ended.returncode}: {ended.stdout}{ended.stderr}"


def refused(ended, note):
    """The files weren't taken, and the note is this one (a pattern)."""
    expect(ended.returncode == 3 and ended.stdout == "" and ended.stderr.startswith(OPEN), told(ended))
    expect(re.fullmatch(f"fiorun: note: (?:{note})\n", ended.stderr[len(OPEN):]), told(ended))


def job_over(filename="f", size="1m", rw="write", more=()):
    verify = "verify=md5" if rw == "write" else ""
    lines = ["[w]", "ioengine=psync", f"rw={rw}", f"size={size}", verify, f"filename={filename}", *more]
    return "\n".join(lines) + "\n"


def jobs_over(*names, rw="write"):
    """A job for each of these names, at an offset of its own."""
    jobs = [f"[w{at}]\nfilename={name}\noffset={at * 16}k\n" for at, name in enumerate(names)]
    verify = "verify=md5\n" if rw == "write" else ""
    return f"[global]\nioengine=psync\nrw={rw}\nsize=16k\n{verify}" + "".join(jobs)


def put(path, held):
    with open(path, "wb") as it:
        it.write(held)


def got(path):
    with open(path, "rb") as it:
        return it.read()
