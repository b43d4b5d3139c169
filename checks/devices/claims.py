"""How a run takes its files: two names of one file, a file that another run has, a missing device and, as root, a block device that is
in use are refused before anything is written; what a refused run made goes again; and what the note says. Two runs are started together
TRIALS times (200 where it isn't given)."""

import contextlib
import fcntl
import os
import re
import stat
import struct
import subprocess
import time

from support.case import Case
from support.claimed import SECONDS, got, job_over, jobs_over, launched, put, refused, run, told
from support.disks import CLEAN, does, loop_device
from support.program import MIB, UNDROPPED, Skipped, Wrong, expect, needs_root, trials

MISSING = "No such file or directory (os error 2)"
# How long a call is held, in microseconds.
HELD = 3_000_000
CAUGHT = {"stdout": subprocess.PIPE, "stderr": subprocess.PIPE}


@contextlib.contextmanager
def mounted(place, device):
    """A file system on the device, mounted, with a file in it. What it yields looks at it once it was unmounted."""
    needs_root("mkfs.ext4", "e2fsck", "mount")
    point = place.at("mounted")
    os.mkdir(point)
    if not does("mkfs.ext4", "-q", "-F", device) or not does("mount", device, point):
        raise Skipped("no file system can be mounted")
    put(os.path.join(point, "kept"), b"kept" * 1000)
    try:
        yield point
        expect(got(os.path.join(point, "kept")) == b"kept" * 1000, "a file of the mounted file system changed")
    finally:
        does("umount", point)
    expect(does("e2fsck", "-fn", device), "the file system isn't sound any more")


def held_at_its_lock(place, path):
    """A run that has made its file and is held just before it locks it."""
    words = ["strace", "-f", "-qq", "-o", place.at("calls"), "-e", "trace=flock", "-e", f"inject=flock:delay_enter={HELD}"]
    it = subprocess.Popen([*words, place.program, "--notes"], stdin=subprocess.PIPE, cwd=place.path, text=True, **CAUGHT)
    it.stdin.write(job_over(size="16k"))
    it.stdin.close()
    it.stdin = None
    while it.poll() is None and not os.path.exists(path):
        time.sleep(0.01)
    return it


def partition_table():
    """The first sector of a disk with two partitions of 8 MiB."""
    parts = [struct.pack("<4xB3xII", 0x83, start * 2048, 8 * 2048) for start in (1, 9)]
    return bytes(446) + b"".join(parts) + bytes(32) + b"\x55\xaa"


class Claims(Case):
    """What a run refuses before it writes."""

    where = "/var/tmp"

    def test_two_names_of_one_file_are_refused(self):
        """A link, the same path in other words, and a hard link: nothing is written, extended or made."""
        at = self.place.at
        held = b"\7" * 1000
        put(at("f"), held)
        os.symlink("f", at("link"))
        os.link(at("f"), at("hard"))
        for other in ("link", "./f", "hard"):
            for rw in ("write", "read"):
                refused(run(self.place, jobs_over("f", other, rw=rw)), f"f and {re.escape(other)} are one file")
            refused(run(self.place, jobs_over("new", "f", other)), f"f and {re.escape(other)} are one file")
            expect(got(at("f")) == held and not os.path.exists(at("new")), f"{other}: a file changed")
        os.symlink("missing", at("ahead"))
        refused(run(self.place, jobs_over("ahead", "missing")), "ahead and missing are one file")
        expect(not os.path.exists(at("missing")), "a file that was made stays")

    def test_two_names_of_one_device_are_refused(self):
        place = self.place
        needs_root("mknod")
        with loop_device(place.at("image")) as device:
            number = os.stat(device).st_rdev
            other = place.at("other")
            try:
                os.mknod(other, stat.S_IFBLK | 0o600, number)
            except OSError as error:
                raise Skipped(f"no device can be made: {error}") from error
            if not does("dd", f"if={other}", "of=/dev/null", "count=1"):
                raise Skipped("devices can't be opened here")
            job = jobs_over(device, other)
            refused(run(place, job), f"{device} and {re.escape(other)} are one file")
            expect(got(device) == bytes(16 * MIB), "the device was written")

    def test_a_second_run_is_refused(self):
        """While a first run goes on over a file, a second one is refused; two that only read it aren't."""
        place = self.place
        first_job = job_over(more=["verify_backlog=1", "loops=10"])
        command = [place.program, "--notes"]
        first = subprocess.Popen(command, stdin=subprocess.PIPE, stdout=subprocess.PIPE, stderr=subprocess.PIPE, cwd=place.path, text=True)
        try:
            first.stdin.write(first_job)
            first.stdin.close()
            for _ in range(1000):
                if os.path.exists(place.at("f")) and os.path.getsize(place.at("f")) == MIB:
                    break
                time.sleep(0.01)
            refused(run(place, job_over()), "f is locked by another run")
            refused(run(place, job_over(rw="read")), "f is locked by another run")
            expect(first.poll() is None, "the first run has ended too early")
            out = first.stdout.read()
            err = first.stderr.read()
            expect(first.wait(SECONDS) == 0 and err in ("", UNDROPPED), f"the first run: {out}{err}")
            expect("writes=2560 " in out and "good=2560 bad=0 " in out, f"the first run: {out}")
        finally:
            first.kill()
            first.wait()
        ended = run(place, job_over())
        expect((ended.returncode, ended.stdout) == (0, CLEAN), "behind it: " + told(ended))

    def test_runs_that_only_read_share(self):
        place = self.place
        put(place.at("f"), bytes(MIB))
        with open(place.at("f"), "rb") as held:
            fcntl.flock(held, fcntl.LOCK_SH)
            ended = run(place, job_over(rw="read"))
            expect(ended.returncode == 0, told(ended))
            refused(run(place, job_over()), "f is locked by another run")

    def test_two_starts_leave_the_file_of_the_one_that_ran(self):
        """Of two runs over a file that isn't there, started together, the one that is refused doesn't remove what the other has."""
        place = self.place
        path = place.at("f")
        for number in range(trials(200)):
            with contextlib.suppress(FileNotFoundError):
                os.unlink(path)
            both = [subprocess.Popen([place.program], stdin=subprocess.PIPE, cwd=place.path, text=True, **CAUGHT) for _ in (1, 2)]
            said = [it.communicate(job_over(size="16k"), timeout=SECONDS) for it in both]
            ended = [it.returncode for it in both]
            expect(set(ended) <= {0, 3}, f"start {number}: {ended}: {said}")
            is_there = os.path.exists(path) and os.path.getsize(path) == 16384
            expect(ended == [3, 3] or is_there, f"start {number}: {ended}, and no file: {said}")

    def test_who_makes_a_file_and_loses_its_lock_leaves_it(self):
        """Another one locks and writes the file between its making and its lock."""
        place = self.place
        needs_root("strace")
        path = place.at("f")
        for _ in range(5):
            it = held_at_its_lock(place, path)
            if not os.path.exists(path):
                raise Wrong(f"no file was made: {it.communicate(timeout=SECONDS)}")
            with open(path, "r+b") as theirs:
                try:
                    fcntl.flock(theirs, fcntl.LOCK_EX | fcntl.LOCK_NB)
                    is_late = it.poll() is not None
                except BlockingIOError:
                    is_late = True
                if is_late:
                    it.communicate(timeout=SECONDS)
                    os.unlink(path)
                    continue
                theirs.write(b"theirs")
                theirs.flush()
                said = it.communicate(timeout=SECONDS)
                expect(it.returncode == 3, f"it wasn't refused: {it.returncode}: {said}")
                expect(os.path.exists(path) and got(path) == b"theirs", f"the file of another is gone or another: {said}")
                return
        raise Skipped("the machine is too slow to come between two calls")

    def test_a_link_that_comes_later_isnt_followed(self):
        """What a run lengthens is what it opened, whatever stands at its path by then."""
        place = self.place
        needs_root("strace")
        path, victim = place.at("f"), place.at("victim")
        put(victim, b"")
        it = held_at_its_lock(place, path)
        os.rename(path, path + ".was")
        os.symlink("victim", path)
        said = it.communicate(timeout=SECONDS)
        expect(got(victim) == b"" and os.path.islink(path), f"another file was written, or the link is gone: {it.returncode}: {said}")

    def test_what_is_no_plain_file_isnt_made_longer(self):
        """A device of characters that is read gets no byte."""
        place = self.place
        needs_root("strace")
        log = place.at("calls")
        words = ["strace", "-f", "-y", "-o", log, "-e", "trace=write,pwrite64", place.program]
        subprocess.run(words, input=job_over("null", rw="read", more=["directory=/dev"]), cwd=place.path, text=True, check=False, **CAUGHT)
        with open(log, encoding="utf-8", errors="replace") as it:
            written = [line for line in it if "</dev/null" in line]
        expect(not written, f"written to a device that is only read: {written[:2]}")

    def test_a_missing_device_isnt_made(self):
        """In /dev nothing is made, by whatever path or link it is reached."""
        place = self.place
        name = f"nosuchdisk{os.getpid()}"
        os.symlink("/dev", place.at("devices"))
        os.symlink(f"/dev/{name}", place.at("link"))
        try:
            for path in (f"/dev/{name}", f"/dev/../dev/{name}", f"devices/{name}", "link"):
                ended = run(place, job_over(path))
                refused(ended, f"cannot (open|make) {re.escape(path)}: .*")
                expect(not os.path.lexists(f"/dev/{name}"), f"{path} was made")
        finally:
            with contextlib.suppress(OSError):
                os.remove(f"/dev/{name}")

    def test_what_was_made_goes_again(self):
        """Where not all files can be had, those that were made aren't left, and those that were there are as they were."""
        place = self.place
        put(place.at("old"), b"old")
        names = ["old"] + [f"new{at}" for at in range(20)]
        ended = run(place, jobs_over(*names), before="ulimit -n 12")
        refused(ended, r"cannot (open|make) new\d+: Too many open files \(os error 24\)")
        expect(sorted(os.listdir(place.path)) == ["old"] and got(place.at("old")) == b"old", f"left: {sorted(os.listdir(place.path))}")
        refused(run(place, jobs_over("new", "missing/f")), f"cannot make missing/f: {re.escape(MISSING)}|cannot open missing/f: .*")
        expect(os.listdir(place.path) == ["old"], f"left: {os.listdir(place.path)}")

    def test_a_pipe_or_a_folder_is_refused(self):
        place = self.place
        os.mkfifo(place.at("pipe"))
        os.mkdir(place.at("folder"))
        for rw in ("write", "read"):
            for name in ("pipe", "folder"):
                refused(run(place, job_over(name, rw=rw)), f"cannot open {name}: .*")

    def test_a_device_that_is_too_small_is_refused(self):
        """It is named with its length and what its jobs want, whether they write or read."""
        place = self.place
        with loop_device(place.at("image")) as device:
            for rw in ("write", "read"):
                job = job_over(os.path.basename(device), size="32m", rw=rw, more=["directory=/dev"])
                refused(launched(place, job), f"{device} has {16 * MIB} bytes, and its jobs want {32 * MIB}")

    def test_a_mounted_device_is_refused(self):
        place = self.place
        with loop_device(place.at("image")) as device, mounted(place, device) as point:
            for start in (run, launched):
                refused(start(place, job_over(device)), f"{device} is in use: mounted at {re.escape(point)}")
            ended = run(place, job_over(device, rw="read"))
            expect(ended.returncode == 0, "read alone: " + told(ended))
        with loop_device(place.at("mounted", "image")) as device:
            ended = launched(place, job_over(device))
            expect((ended.returncode, ended.stdout) == (0, CLEAN), "a device that isn't in use: " + told(ended))

    def test_a_device_named_as_source_is_refused(self):
        """A file system without a device of its own, as one of btrfs, names the device that it is on. That counts where no device is
        held."""
        place = self.place
        needs_root("mount")
        with loop_device(place.at("image")) as device:
            point = place.at("mounted")
            os.mkdir(point)
            # (a tmpfs takes any word for its source)
            if not does("mount", "-t", "tmpfs", device, point):
                raise Skipped("no file system can be mounted")
            try:
                refused(run(place, job_over(device)), f"{device} is in use: mounted at {re.escape(point)}")
                expect(got(device) == bytes(16 * MIB), "the device was written")
                other = place.at("others")
                os.mkdir(other)
                with loop_device(os.path.join(other, "image")) as another:
                    ended = launched(place, job_over(another))
                    expect((ended.returncode, ended.stdout) == (0, CLEAN), "another device: " + told(ended))
            finally:
                does("umount", point)

    def test_the_word_lets_it_be_written(self):
        place = self.place
        with loop_device(place.at("image")) as device:
            needs_root("mkfs.ext4", "mount")
            point = place.at("mounted")
            os.mkdir(point)
            if not does("mkfs.ext4", "-q", "-F", device) or not does("mount", "-o", "ro", device, point):
                raise Skipped("no file system can be mounted")
            try:
                # Past the first megabyte, which a file system that is mounted may lock out.
                ended = run(place, job_over(device) + "offset=8m\n", "--allow-mounted-write")
                expect((ended.returncode, ended.stdout) == (0, CLEAN), told(ended))
            finally:
                does("umount", point)

    def test_a_mounted_partition_is_refused(self):
        """The partition and the disk that it is of are refused, and another partition isn't."""
        place = self.place
        needs_root("partx")
        with loop_device(place.at("image"), 32 * MIB, "-P") as device:
            with open(device, "r+b") as it:
                it.write(partition_table())
            does("partx", "-a", device)
            try:
                for _ in range(100):
                    if os.path.exists(device + "p2"):
                        break
                    time.sleep(0.05)
                if not os.path.exists(device + "p2"):
                    raise Skipped("no partitions are seen")
                with mounted(place, device + "p1") as point:
                    for it in (device, device + "p1"):
                        refused(launched(place, job_over(it)), f"{it} is in use: mounted at {re.escape(point)}")
                    ended = launched(place, job_over(device + "p2"))
                    expect((ended.returncode, ended.stdout) == (0, CLEAN), "the other partition: " + told(ended))
            finally:
                does("partx", "-d", device)

    def test_swap_is_refused(self):
        place = self.place
        needs_root("mkswap", "swapon", "swapoff")
        with loop_device(place.at("image")) as device:
            if not does("mkswap", device) or not does("swapon", device):
                raise Skipped("no swap can be had")
            before = got(device)
            try:
                refused(launched(place, job_over(device)), f"{device} is in use: swap")
                expect(got(device) == before, "the swap was written")
            finally:
                does("swapoff", device)

    def test_a_part_of_another_device_is_refused(self):
        place = self.place
        needs_root("dmsetup")
        name = f"fiorun-claims-{os.getpid()}"
        with loop_device(place.at("image")) as device:
            if not does("dmsetup", "create", name, "--table", f"0 16384 linear {device} 0"):
                raise Skipped("no device mapper")
            try:
                refused(launched(place, job_over(device)), rf"{device} is in use: part of dm-\d+")
                expect(got(device) == bytes(16 * MIB), "the device was written")
            finally:
                does("dmsetup", "remove", "--retry", name)
