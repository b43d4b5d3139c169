"""Runs below the launcher on systems that lack something: over file systems that can't be written, as root, and where there is no /proc."""

import contextlib
import json
import os
import subprocess

from support.case import Case
from support.disks import CLEAN, job_of, launched, mounted, run, takes_direct, totals_of
from support.place import Place
from support.program import LAUNCH, MIB, START, UNDROPPED, Skipped, expect, needs, needs_root

BLOCK = 4096
BLOCKS = MIB // BLOCK
# The block whose bytes are wrong in the file `bad`.
BROKEN = 17
REFUSED = "fiorun: cannot open the files\n"


def written(place):
    """Takes away the JSON of a run."""
    path = place.at("json")
    with open(path, encoding="utf-8") as it:
        told = json.load(it)
    os.unlink(path)
    return told


# File systems that can't be written.


def filled(place, folder):
    """Has a run fill the files `good` and `bad`, and breaks a block of the one."""
    os.mkdir(folder)
    for name in ("good", "bad"):
        ran = launched(Place(place.program, folder), job_of(filename=name))
        expect((ran.returncode, ran.stdout) == (0, CLEAN), f"{name}: status {ran.returncode}: {ran.stdout}{ran.stderr}")
    with open(os.path.join(folder, "bad"), "r+b") as it:
        it.seek(BROKEN * BLOCK + 1000)
        it.write(b"broken")


@contextlib.contextmanager
def read_only(place, kind, *maker):
    """A folder with both files, on a file system of this kind that is made by these words."""
    needs_root(maker[0])
    folder, image = (place.at(it) for it in ("folder", "image"))
    filled(place, folder)
    names = {"FOLDER": folder, "IMAGE": image}
    subprocess.run([names.get(it, it) for it in maker], capture_output=True, check=True)
    with mounted(image, place.at("mounted"), kind, "-o", "loop,ro") as there:
        yield there


def read_job(folder, name, *more):
    return job_of(more=["rw=randread", "iodepth=8", f"directory={folder}", *more], filename=name)


def a_read_goes_well(place, folder, what, *more):
    """All blocks of the one file are good, and one of the other is bad; and nothing is noted, since no sync is wanted there."""
    for workers in (1, 8):
        for name in ("good", "bad"):
            ran = launched(place, read_job(folder, name, *more), f"--workers={workers}", "--notes", "--json=json")
            said = f"{what}, {more}, {workers} workers, {name}"
            bad = int(name == "bad")
            expect((ran.returncode, ran.stderr) == (bad, ""), f"{said}: status {ran.returncode}: {ran.stdout}{ran.stderr}")
            totals = totals_of(ran.stdout)
            found = tuple(totals[it] for it in ("reads", "checks", "good", "bad", "faults"))
            expect(found == (BLOCKS, BLOCKS, BLOCKS - bad, bad, 0), f"{said}: {ran.stdout}")
            told = written(place)
            places = [it["offset"] for it in told["badreads"]]
            expect((told["cached"], places) == (0, [BROKEN * BLOCK] * bad), f"{said}: {told}")


def is_refused(place, job, what, why=""):
    ran = launched(place, job, "--notes")
    is_said = ran.stderr.startswith(REFUSED) and why in ran.stderr
    expect((ran.returncode, ran.stdout) == (3, "") and is_said, f"{what}: status {ran.returncode}: {ran.stdout}{ran.stderr}")


def is_read(place, folder, kind):
    """Checked, unchecked, and past the cache where that can be; and nothing is written there."""
    a_read_goes_well(place, folder, kind)
    ran = launched(place, read_job(folder, "good", "verify=0"), "--notes")
    totals = totals_of(ran.stdout)
    expect((ran.returncode, ran.stderr) == (0, ""), f"{kind}, unchecked: status {ran.returncode}: {ran.stderr}")
    expect((totals["reads"], totals["checks"]) == (BLOCKS, 0), f"{kind}, unchecked: {ran.stdout}")
    is_refused(place, job_of(more=[f"directory={folder}"], filename="good"), f"{kind}, written", "Read-only file system")
    if takes_direct(os.path.join(folder, "good")):
        a_read_goes_well(place, folder, kind, "direct=1")
    else:
        is_refused(place, read_job(folder, "good", "direct=1"), f"{kind}, direct=1")


# A system without /proc.

WITHOUT = ("mount -t tmpfs none /proc", "umount --lazy /proc")


def hiding(line):
    """What is set before a command so that it finds no /proc, by a line of shell."""
    needs("unshare", "mount")
    of_user = [] if os.geteuid() == 0 else ["--user", "--map-root-user"]
    words = ["unshare", *of_user, "--mount", "sh", "-c", f'{line} && [ ! -e /proc/self ] && exec "$@"', "sh"]
    if (said := subprocess.run([*words, "true"], capture_output=True, text=True, check=False)).returncode:
        raise Skipped(f"/proc can't be taken away by `{line}`: {said.stderr.strip()}")
    return words


def ends_well(place, before, started):
    """A run, started so behind these words, ends well, and counts its checks. What it notes is that nothing was dropped, and nothing of a
    pipe that nobody gave."""
    for workers in (1, 8):
        for more, said in (((), ""), (("--notes",), UNDROPPED)):
            words = [*before[1:], *started, f"--workers={workers}", "--json=json", *more]
            ran = run(place, job_of(), *words, program=before[0])
            expect((ran.returncode, ran.stdout, ran.stderr) == (0, CLEAN, said), f"{ran}")
            cached = written(place)["cached"]
            expect(cached == BLOCKS, f"{words}: {cached} of {BLOCKS} checks are counted")


class Systems(Case):
    """Systems that lack something."""

    where = "/var/tmp"
    tools = ("perl",)

    def test_a_squashfs_is_read(self):
        place = self.place
        with read_only(place, "squashfs", "mksquashfs", "FOLDER", "IMAGE", "-no-progress") as folder:
            is_read(place, folder, "squashfs")

    def test_an_erofs_is_read(self):
        place = self.place
        with read_only(place, "erofs", "mkfs.erofs", "IMAGE", "FOLDER") as folder:
            is_read(place, folder, "erofs")

    def test_a_run_needs_no_proc(self):
        place = self.place
        skipped = []
        for line in WITHOUT:
            try:
                before = hiding(line)
            except Skipped as why:
                skipped.append(f"{why}")
                continue
            for started in ([place.program], [LAUNCH, place.program], [START, place.program, LAUNCH]):
                ends_well(place, before, started)
        if skipped:
            raise Skipped("; ".join(skipped))
