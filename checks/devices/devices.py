"""Runs below the launcher, as root, over devices that are in use in every way that this machine has, and over one disk by two names:
each is refused before a byte of it changes, with a note that says why, and a device is held while a run goes on."""

import contextlib
import errno
import fcntl
import hashlib
import os
import re
import stat
import subprocess
import time

from support.case import Case
from support.claimed import job_over, jobs_over, launched, put, refused, run, told
from support.disks import CLEAN, attached, does, loop_device, sparse
from support.program import LAUNCH, MIB, Skipped, Wrong, expect, needs_root

UNSEEN = "{} is in use by something that can't be seen from here"
UNHELD = r"{} can't be held for this run alone: that needs bin/fiorun, with perl and /proc \(--allow-mounted-write goes without\)"
COMMON = "{} and {} have bytes in common"
SECONDS = 60
SECTOR = 512
# The status of a run that was stopped.
INTERRUPTED = 130
CAUGHT = {"capture_output": True, "text": True, "timeout": 2 * SECONDS, "check": False}


def went_well(ended, what):
    expect((ended.returncode, ended.stdout) == (0, CLEAN), f"{what}: {told(ended)}")


def noted(text, *names):
    return text.format(*map(re.escape, names))


def waits_for(is_so, what):
    for _ in range(SECONDS * 20):
        if is_so():
            return
        time.sleep(0.05)
    raise Wrong(f"{what} doesn't come")


def device_over(stack, place, name="image", size=16 * MIB):
    """A loop device until the stack ends."""
    return stack.enter_context(loop_device(place.at(name), size))


def made_with(device, *command):
    if not does(*command):
        raise Skipped(f"{command[0]} doesn't make {device}")


def mount(stack, *words):
    """Mounts something until the stack ends."""
    said = subprocess.run(["mount", *words], capture_output=True, text=True, check=False)
    if said.returncode:
        raise Skipped(f"nothing can be mounted: {said.stderr.strip()}")
    stack.callback(does, "umount", words[-1])


def folder_of(place, name="place"):
    path = place.at(name)
    os.mkdir(path)
    return path


def ext4(stack, place, **how):
    """A device with a file system that isn't mounted."""
    needs_root("mkfs.ext4", "mount")
    device = device_over(stack, place, **how)
    made_with(device, "mkfs.ext4", "-q", "-F", device)
    return device


def digest(path):
    """What stands on a device, read from it and not from the cache of this name."""
    with open(path, "rb") as it:
        os.posix_fadvise(it.fileno(), 0, 0, os.POSIX_FADV_DONTNEED)
        return hashlib.file_digest(it, "md5").hexdigest()


def is_refused(place, path, note, *words, start=launched):
    """The run is refused, and no byte of the device or file changes."""
    before = digest(path)
    refused(start(place, job_over(path), *words), note)
    expect(digest(path) == before, f"{path} was written")


@contextlib.contextmanager
def namespace(place, script, *words):
    """A shell in a mount namespace of its own, which has done this."""
    needs_root("unshare")
    it = subprocess.Popen(
        ["unshare", "-m", "sh", "-ec", script + "\necho ready\nread -r _", "sh", *words],
        stdin=subprocess.PIPE,
        stdout=subprocess.PIPE,
        stderr=subprocess.PIPE,
        cwd=place.path,
        text=True,
    )
    try:
        if it.stdout.readline() != "ready\n":
            raise Skipped(f"no namespace: {it.communicate('')[1].strip()}")
        yield it
    finally:
        with contextlib.suppress(BrokenPipeError):
            it.communicate("\n", timeout=SECONDS)


# Mounts with names so long that the table of them is longer than a mebibyte, and then the device.
MANY_MOUNTS = r"""
name=$(printf '%0250d' 0)
deep=$PWD
for _ in 1 2 3 4 5 6 7 8 9 10 11 12; do deep=$deep/$name; done
mkdir -p "$deep"
for at in $(seq 180); do mkdir "$deep/$at"; mount --bind "$deep/$at" "$deep/$at"; done
mount -o ro,noload "$1" "$2"
"""


def inside(script, *words):
    """What starts a run in a namespace where this was done."""

    def start(place, job, *more):
        needs_root("unshare")
        shell = ["unshare", "-m", "sh", "-ec", f'{script}\nshift {len(words)}\nexec "$@"', "sh", *words]
        return subprocess.run([*shell, LAUNCH, place.program, "--notes", *more], input=job, cwd=place.path, **CAUGHT)

    return start


# While a run goes on.


def is_claimed(device):
    try:
        os.close(os.open(device, os.O_RDONLY | os.O_EXCL))
    except OSError as error:
        if error.errno == errno.EBUSY:
            return True
        raise
    return False


def opened_by(process):
    """The files that a process has open, by name."""
    links = []
    for number in os.listdir(f"/proc/{process}/fd"):
        with contextlib.suppress(FileNotFoundError):
            links.append(os.readlink(f"/proc/{process}/fd/{number}"))
    return links


@contextlib.contextmanager
def running(place, device, *words):
    """A run over the second half of a device, which goes on until what is done meanwhile has ended."""
    job = job_over(device, size="7m", more=["offset=8m", "loops=1000", "verify_backlog=16"])
    put(place.at("long"), job.encode())
    command = [LAUNCH, place.program, "--workers=1", *words, "long"]
    it = subprocess.Popen(command, cwd=place.path, stdout=subprocess.PIPE, stderr=subprocess.PIPE, text=True)
    try:
        # (who tried to claim it meanwhile would keep the run from it)
        waits_for(lambda: it.poll() is not None or device in opened_by(it.pid), "the claim of a run")
        expect(it.poll() is None, "the run has ended")
        yield it
        expect(it.poll() is None, "the run has ended")
    finally:
        it.terminate()
        out, err = it.communicate(timeout=SECONDS)
    expect(it.returncode == INTERRUPTED and " bad=0 " in out, f"the run: status {it.returncode}: {out}{err}")
    waits_for(lambda: not is_claimed(device), "the end of the claim")


# One disk by two names.


def disk_with_parts(stack, place):
    """A disk with two partitions of 16 MiB."""
    needs_root("addpart", "delpart")
    disk = device_over(stack, place, "disk", 64 * MIB)
    for number, start in ((1, 1), (2, 17)):
        if not does("addpart", disk, str(number), str(start * 2048), str(16 * 2048)):
            raise Skipped("no partitions can be made")
        stack.callback(does, "delpart", disk, str(number))
    parts = [f"{disk}p1", f"{disk}p2"]
    waits_for(lambda: all(map(os.path.exists, parts)), "the nodes of partitions")
    return disk, parts


def are_refused(place, one, other, note=COMMON):
    for rw in ("write", "read"):
        before = digest(one), digest(other)
        for first, second in ((one, other), (other, one)):
            refused(launched(place, jobs_over(first, second, rw=rw)), noted(note, first, second))
        expect((digest(one), digest(other)) == before, f"{one} or {other} was written")
    refused(launched(place, jobs_over(one, other), "--allow-mounted-write"), noted(note, one, other))


def are_apart(place, one, other):
    ended = launched(place, jobs_over(one, other))
    expect(ended.returncode == 0 and ended.stdout.count(" good=4 bad=0 ") == 2, f"{one} and {other}: {told(ended)}")


class Devices(Case):
    """Devices in use, devices while a run goes on, and one disk by two names."""

    where = "/var/tmp"

    def test_one_that_is_mounted_in_another_namespace(self):
        place = self.place
        with contextlib.ExitStack() as stack:
            device = ext4(stack, place)
            stack.enter_context(namespace(place, 'mount -o ro,noload "$1" "$2"', device, folder_of(place)))
            for words in ((), ("--cached",), ("--workers=4",)):
                is_refused(place, device, noted(UNSEEN, device), *words)

    def test_one_that_was_unmounted_with_a_file_open(self):
        place = self.place
        with contextlib.ExitStack() as stack:
            device, point = ext4(stack, place), folder_of(place)
            with contextlib.ExitStack() as once:
                mount(once, device, point)
                put(os.path.join(point, "kept"), b"kept")
            mount(stack, "-o", "ro,noload", device, point)
            with open(os.path.join(point, "kept"), "rb"):
                if not does("umount", "--lazy", point):
                    raise Skipped("nothing can be unmounted lazily")
                is_refused(place, device, noted(UNSEEN, device))
            waits_for(lambda: not is_claimed(device), "the end of the mount")
            went_well(launched(place, job_over(device)), "unmounted")

    def test_the_second_of_a_mounted_btrfs(self):
        place = self.place
        with contextlib.ExitStack() as stack:
            needs_root("mkfs.btrfs", "btrfs", "mount")
            first, second = (device_over(stack, place, name, 128 * MIB) for name in ("first", "second"))
            made_with(first, "mkfs.btrfs", "-q", "-f", first, second)
            made_with(first, "btrfs", "device", "scan", first, second)
            stack.callback(does, "btrfs", "device", "scan", "--forget", first)
            point = folder_of(place)
            mount(stack, "-o", "ro", first, point)
            is_refused(place, second, noted(UNSEEN, second))
            is_refused(place, first, noted("{} is in use: mounted at {}", first, point))

    def test_the_journal_of_a_mounted_ext4(self):
        place = self.place
        with contextlib.ExitStack() as stack:
            needs_root("mkfs.ext4", "mke2fs", "mount")
            device, journal = device_over(stack, place, "data", 64 * MIB), device_over(stack, place, "journal", 64 * MIB)
            made_with(journal, "mke2fs", "-q", "-F", "-O", "journal_dev", "-b", "4096", journal)
            made_with(device, "mkfs.ext4", "-q", "-F", "-b", "4096", "-J", f"device={journal}", device)
            mount(stack, "-o", "ro", device, folder_of(place))
            is_refused(place, journal, noted(UNSEEN, journal))

    def test_the_log_of_a_mounted_xfs(self):
        place = self.place
        with contextlib.ExitStack() as stack:
            needs_root("mkfs.xfs", "mount")
            device, log = device_over(stack, place, "data", 320 * MIB), device_over(stack, place, "log", 80 * MIB)
            made_with(device, "mkfs.xfs", "-q", "-f", "-l", f"logdev={log}", device)
            mount(stack, "-t", "xfs", "-o", f"ro,logdev={log}", device, folder_of(place))
            is_refused(place, log, noted(UNSEEN, log))

    def test_one_behind_the_first_mebibyte_of_mounts(self):
        place = self.place
        with contextlib.ExitStack() as stack:
            device, point, folder = ext4(stack, place), folder_of(place), folder_of(place, "deep")
            show = MANY_MOUNTS + "\nwc -c </proc/self/mountinfo"
            tried = subprocess.run(["unshare", "-m", "sh", "-ec", show, "sh", device, point], cwd=folder, **CAUGHT)
            if tried.returncode or int(tried.stdout) < MIB:
                raise Skipped(f"no such table of mounts: {tried.stdout}{tried.stderr.strip()[:80]}")
            again = f'cd "{folder}"\n' + MANY_MOUNTS.replace('mkdir "$deep/$at"; ', "") + f'cd "{place.path}"'
            is_refused(place, device, noted("{} is in use: mounted at {}", device, point), start=inside(again, device, point))

    def test_one_where_there_is_no_proc(self):
        """Nothing can be held there: a device that is mounted is refused, and one that isn't too, but for the word."""
        place = self.place
        with contextlib.ExitStack() as stack:
            device, point, other = ext4(stack, place), folder_of(place), device_over(stack, place, "other")
            without = 'mount -o ro,noload "$1" "$2"\nmount -t tmpfs none /proc'
            is_refused(place, device, noted(UNHELD, device), start=inside(without, device, point))
            is_refused(place, other, noted(UNHELD, other), start=inside(without, device, point))
            ended = inside(without, device, point)(place, job_over(other), "--allow-mounted-write")
            went_well(ended, "with the word")

    def test_one_where_there_is_no_sys(self):
        """What stands on a device can't be seen there."""
        place = self.place
        with contextlib.ExitStack() as stack:
            device = device_over(stack, place)
            start = inside("mount -t tmpfs none /sys")
            is_refused(place, device, noted("it can't be seen what uses {}: .*", device), start=start)
            went_well(start(place, job_over(device), "--allow-mounted-write"), "with the word")
            went_well(start(place, job_over("f")), "a plain file")

    def test_one_without_a_launcher(self):
        place = self.place
        with contextlib.ExitStack() as stack:
            device = device_over(stack, place)
            is_refused(place, device, noted(UNHELD, device), start=run)
            went_well(run(place, job_over(device), "--allow-mounted-write"), "with the word")
            ended = run(place, job_over(device, rw="read"))
            expect(ended.returncode == 0, f"read alone: {told(ended)}")

    def test_what_lies_under_a_mounted_loop_device(self):
        """A device and a file that a loop device stands on, which is mounted, swap, or in no use; and once it stands there no more."""
        place = self.place
        with contextlib.ExitStack() as outer:
            needs_root("mkfs.ext4", "mount")
            image = sparse(place.at("image"), 16 * MIB)
            with contextlib.ExitStack() as stack:
                lower = stack.enter_context(attached(image))
                upper = stack.enter_context(attached(lower))
                name = os.path.basename(upper)
                is_refused(place, lower, noted("{} is in use: part of {}", lower, name))
                is_refused(place, image, noted("{} is in use: under /dev/loop.*", image))
                made_with(upper, "mkfs.ext4", "-q", "-F", upper)
                point = folder_of(place)
                mount(stack, "-o", "ro,noload", upper, point)
                is_refused(place, lower, noted("{} is in use: part of {}, mounted at {}", lower, name, point))
                is_refused(place, image, noted("{} is in use: under {}, mounted at {}", image, upper, point))
                os.link(image, place.at("link"))
                is_refused(place, place.at("link"), noted("{} is in use: under .*", place.at("link")))
                went_well(launched(place, job_over(image) + "offset=8m\n", "--allow-mounted-write"), "with the word")
            went_well(launched(place, job_over(image)), "the image alone")
            lower = outer.enter_context(attached(image))
            upper = outer.enter_context(attached(lower))
            went_well(launched(place, job_over(upper)), "the upper device")

    def test_an_image_that_was_removed_is_another_file(self):
        place = self.place
        with contextlib.ExitStack() as stack:
            needs_root("losetup")
            image = sparse(place.at("image"), 16 * MIB)
            stack.enter_context(attached(image))
            is_refused(place, image, noted("{} is in use: under /dev/loop.*", image))
            os.unlink(image)
            went_well(launched(place, job_over(image)), "a new file")

    def test_what_stands_on_a_mounted_device(self):
        """A loop device over a device that is mounted."""
        place = self.place
        with contextlib.ExitStack() as stack:
            lower, point = ext4(stack, place), folder_of(place)
            upper = stack.enter_context(attached(lower))
            mount(stack, "-o", "ro,noload", lower, point)
            is_refused(place, upper, noted("{} is in use: over {}, mounted at {}", upper, lower, point))

    def test_a_lock_of_who_may_only_read_keeps_nobody_out(self):
        place = self.place
        with contextlib.ExitStack() as stack:
            device = device_over(stack, place)
            for kind in (fcntl.LOCK_SH, fcntl.LOCK_EX):
                with open(device, "rb") as it:
                    fcntl.flock(it, kind)
                    went_well(launched(place, job_over(device)), f"lock {kind}")

    def test_a_source_that_is_only_text_keeps_nobody_out(self):
        place = self.place
        with contextlib.ExitStack() as stack:
            device = device_over(stack, place)
            mount(stack, "-t", "tmpfs", device, folder_of(place))
            went_well(launched(place, job_over(device)), "a tmpfs of that source")

    def test_nothing_takes_a_device_while_a_run_has_it(self):
        place = self.place
        with contextlib.ExitStack() as outer:
            device, point = ext4(outer, place), folder_of(place)
            needs_root("mke2fs")
            for words in ((), ("--cached",)):
                with running(place, device, *words):
                    expect(not does("mount", device, point), "it was mounted while a run has it")
                    expect(not does("mke2fs", "-q", "-F", device), "a file system was made while a run has it")
            # (the run has written over what the file system had)
            taken = does("mke2fs", "-q", "-F", device) and does("mount", device, point) and does("umount", point)
            expect(taken, "it can't be mounted behind the run")

    def test_other_runs_are_refused_by_any_name(self):
        """By the same name, by another node, and by a partition; and a run over the disk while one has a partition."""
        place = self.place
        with contextlib.ExitStack() as stack:
            disk, parts = disk_with_parts(stack, place)
            node = place.at("node")
            os.mknod(node, stat.S_IFBLK | 0o600, os.stat(disk).st_rdev)
            with running(place, disk):
                refused(launched(place, job_over(disk)), f"{disk} is locked by another run")
                refused(launched(place, job_over(node)), noted(UNSEEN, node))
                for part in parts:
                    refused(launched(place, job_over(part)), noted(UNSEEN, part))
            with running(place, parts[0]):
                refused(launched(place, job_over(disk)), noted(UNSEEN, disk))
                went_well(launched(place, job_over(parts[1])), "the other partition")

    def test_a_disk_and_its_partition(self):
        place = self.place
        with contextlib.ExitStack() as stack:
            disk, parts = disk_with_parts(stack, place)
            for part in parts:
                are_refused(place, disk, part)
                are_refused(place, part, place.at("disk"))
            are_apart(place, *parts)

    def test_a_partition_of_a_disk_on_a_disk(self):
        """Loop devices over partitions of loop devices: what lies at the same bytes of the lowest file, and what doesn't."""
        place = self.place
        with contextlib.ExitStack() as stack:
            disk, parts = disk_with_parts(stack, place)
            upper = stack.enter_context(attached(parts[1], "-o", str(8 * MIB)))
            if not does("addpart", upper, "1", "0", "2048"):
                raise Skipped("no partitions can be made")
            stack.callback(does, "delpart", upper, "1")
            part = f"{upper}p1"
            waits_for(lambda: os.path.exists(part), "the node of a partition")
            for other in (upper, parts[1], disk, place.at("disk")):
                are_refused(place, part, other)
            are_apart(place, part, parts[0])
            # (17 MiB into the disk begins the second partition, and 8 behind that the device)
            touching = stack.enter_context(attached(place.at("disk"), "-o", str(26 * MIB), "--sizelimit", str(MIB)))
            before = stack.enter_context(attached(place.at("disk"), "-o", str(24 * MIB), "--sizelimit", str(MIB)))
            inside_it = stack.enter_context(attached(place.at("disk"), "-o", str(26 * MIB - 4096), "--sizelimit", str(MIB)))
            are_refused(place, part, inside_it)
            for other in (touching, before):
                refused(launched(place, jobs_over(part, other)), f"{part} is in use: part of {os.path.basename(inside_it)}")

    def test_two_loop_devices_over_one_file(self):
        place = self.place
        with contextlib.ExitStack() as stack:
            needs_root("losetup")
            image = sparse(place.at("image"), 16 * MIB)
            whole, other = stack.enter_context(attached(image)), stack.enter_context(attached(image))
            are_refused(place, whole, other)
            are_refused(place, whole, image)
            os.link(image, place.at("link"))
            are_refused(place, other, place.at("link"))

    def test_loop_devices_over_parts_of_one_file(self):
        place = self.place
        with contextlib.ExitStack() as stack:
            needs_root("losetup")
            image = sparse(place.at("image"), 16 * MIB)
            first = stack.enter_context(attached(image, "--sizelimit", str(4 * MIB)))
            second = stack.enter_context(attached(image, "-o", str(4 * MIB), "--sizelimit", str(4 * MIB)))
            are_apart(place, first, second)
            are_refused(place, second, image)
            third = stack.enter_context(attached(image, "-o", str(8 * MIB - SECTOR)))
            are_refused(place, second, third)

    def test_two_nodes_of_one_device(self):
        place = self.place
        with contextlib.ExitStack() as stack:
            device, node = device_over(stack, place), place.at("node")
            os.mknod(node, stat.S_IFBLK | 0o600, os.stat(device).st_rdev)
            are_refused(place, device, node, "{} and {} are one file")
