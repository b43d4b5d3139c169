"""Jobs over disks: runs of them, loop devices, and file systems."""

import contextlib
import os
import re
import subprocess

from support.program import LAUNCH, MIB, Skipped, needs_root

# What is said of the job below where all of its blocks are good.
CLEAN = "w: clone=0 reads=0 rbytes=0 writes=256 wbytes=1048576 checks=256 good=256 bad=0 skipped=0 void=0 faults=0\n"
CAUGHT = {"capture_output": True, "text": True, "check": False}


def run(place, job, *words, program=None, **more):
    """Runs a job text, by the program or another one."""
    return subprocess.run([program or place.program, *words], input=job, cwd=place.path, timeout=120, **CAUGHT, **more)


def launched(place, job, *words, **more):
    """The same below the launcher, which holds devices that are written."""
    return run(place, job, place.program, *words, program=LAUNCH, **more)


def job_of(size="1m", more=(), verify="md5", filename="f"):
    lines = ["[w]", "ioengine=psync", "rw=write", f"size={size}", f"verify={verify}", f"filename={filename}", *more]
    return "\n".join(lines) + "\n"


def totals_of(report):
    return {key: int(value) for key, value in re.findall(r" (\w+)=(\d+)", report.split("\n")[0])}


def does(*command):
    """Whether the command goes well."""
    return subprocess.run(command, capture_output=True, check=False).returncode == 0


@contextlib.contextmanager
def attached(*words):
    """A loop device, by the words of losetup."""
    needs_root("losetup")
    made = subprocess.run(["losetup", "-f", "--show", *words], **CAUGHT)
    if made.returncode:
        raise Skipped(f"no loop device: {made.stderr.strip()}")
    device = made.stdout.strip()
    try:
        yield device
    finally:
        does("losetup", "-d", device)


def sparse(path, size):
    """Makes a file of so many bytes, which takes no room."""
    with open(path, "wb") as it:
        it.truncate(size)
    return path


@contextlib.contextmanager
def loop_device(image, size=16 * MIB, *words):
    """A loop device over a sparse image that is made here."""
    with attached(*words, sparse(image, size)) as device:
        yield device


@contextlib.contextmanager
def mounted(source, folder, kind, *words):
    """A file system in a folder that is made here."""
    needs_root("mount")
    os.makedirs(folder)
    said = subprocess.run(["mount", "-t", kind, *words, source, folder], **CAUGHT)
    if said.returncode:
        raise Skipped(f"no {kind} can be mounted: {said.stderr.strip()}")
    try:
        yield folder
    finally:
        # (a run that was killed may still be there for a moment)
        does("umount", "--lazy", folder)


def tmpfs(place, size):
    """A file system in memory."""
    return mounted("tmpfs", place.at("small"), "tmpfs", "-o", f"size={size}")


def takes_direct(path):
    """Whether the file's system takes direct I/O."""
    try:
        os.close(os.open(path, os.O_RDONLY | os.O_DIRECT))
    except OSError:
        return False
    return True
