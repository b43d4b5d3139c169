"""A disk that lies: one file of FUSE, whose server answers writes that it doesn't store, calls that it refuses, and syncs that fail, as it
is told. It says which of its blocks were lost and which were read. It talks to /dev/fuse itself, so nothing is needed but Linux and root.
"""

import contextlib
import ctypes
import errno
import mmap
import os
import random
import signal
import stat
import struct
import time
from typing import NamedTuple

from support.program import Skipped

BLOCK = 4096
# The numbers of the protocol's calls (linux/fuse.h).
FORGET, GETATTR, SETATTR, OPEN, READ, WRITE, STATFS = 2, 3, 4, 14, 15, 16, 17
RELEASE, FSYNC, FLUSH, INIT, ACCESS, INTERRUPT, DESTROY, FORGETS = 18, 20, 25, 26, 34, 36, 38, 42
# Calls that get no answer.
SILENT = (FORGET, FORGETS, INTERRUPT)
ASYNC_READ, BIG_WRITES, WRITEBACK_CACHE = 1 << 0, 1 << 5, 1 << 16
KEEP_CACHE = 2
# The protocol's version that is spoken, and the most bytes of a request, which is a write with its words before it.
MAJOR, MINOR = 7, 31
MOST = 1 << 18
HEAD = struct.Struct("<IIQQIIIHH")
ANSWER = struct.Struct("<IiQ")
NOSUID, NODEV, DETACH = 2, 4, 2
PR_SET_PDEATHSIG = 1
COUNTS = "writes reads syncs refused".split()

libc = ctypes.CDLL(None, use_errno=True)


class Lies(NamedTuple):
    """What the disk doesn't do as it should. Numbers count from 1; where one is 0, nothing of it is so."""

    # Each so-manieth write is answered well and not stored, or each with this chance.
    lost_each: int = 0
    lost_share: float = 0.0
    seed: int = 0
    # Each so-manieth read or write ends with this error, or all from one on, or all reads.
    refused_each: int = 0
    refused_from: int = 0
    refused_reads: bool = False
    error: int = errno.EINVAL
    # From this sync on each fails.
    failed_syncs: int = 0
    # How long each write takes. What others write or sync meanwhile holds on to its pages.
    write_seconds: float = 0.0
    # Whether the system holds writes back, as it does for a device.
    writeback: bool = False


def blocks_of(offset, length):
    """The blocks that some bytes lie in."""
    return slice(offset // BLOCK, (offset + length + BLOCK - 1) // BLOCK)


class Disk:
    """The memory of a disk, which its server and who looks at it share."""

    def __init__(self, size, lies):
        self.size, self.lies = size, lies
        self.stored = mmap.mmap(-1, size)
        # Of each block: whether its last write was lost, how often it was read since, and whether it was ever written.
        self.lost, self.seen, self.written = (mmap.mmap(-1, size // BLOCK) for _ in range(3))
        self.numbers = memoryview(mmap.mmap(-1, mmap.PAGESIZE)).cast("Q")

    def __getattr__(self, name):
        if name not in COUNTS:
            raise AttributeError(name)
        return self.numbers[COUNTS.index(name)]

    def count(self, name):
        self.numbers[COUNTS.index(name)] += 1
        return self.numbers[COUNTS.index(name)]

    def lost_blocks(self):
        """The offsets of the blocks whose last write was lost."""
        return {place * BLOCK for place, it in enumerate(self.lost[:]) if it}

    def unread_blocks(self):
        """The offsets of the blocks that were not read behind their last write."""
        return {place * BLOCK for place, it in enumerate(self.seen[:]) if not it and self.written[place]}


class Server:
    """Answers what the system asks of a disk."""

    def __init__(self, disk, fuse):
        self.disk, self.fuse, self.lies = disk, fuse, disk.lies
        self.chance = random.Random(disk.lies.seed)
        self.answers = {INIT: self.init, OPEN: self.open, READ: self.read, WRITE: self.write, FSYNC: self.sync, STATFS: self.statfs}
        self.answers.update({GETATTR: self.attributes, SETATTR: self.attributes})
        self.answers.update({it: lambda _: b"" for it in (FLUSH, RELEASE, ACCESS, DESTROY)})

    def serve(self):
        """Answers until the disk is unmounted."""
        while True:
            try:
                asked = memoryview(os.read(self.fuse, MOST))
            except OSError as why:
                if why.errno == errno.ENODEV:
                    return
                # (a call that was given up before it was read)
                continue
            _, call, number, *_ = HEAD.unpack_from(asked)
            if call not in SILENT:
                self.answer(call, number, asked[HEAD.size :])

    def answer(self, call, number, words):
        said, error = b"", 0
        try:
            said = self.answers[call](words) if call in self.answers else self.fail(errno.ENOSYS)
        except OSError as why:
            error = why.errno
        # (a call that was given up meanwhile takes no answer)
        with contextlib.suppress(OSError):
            os.writev(self.fuse, [ANSWER.pack(ANSWER.size + len(said), -error, number), said])

    def fail(self, error):
        raise OSError(error, os.strerror(error))

    def refuse(self, is_read):
        """Refuses a read or write where it is to be refused."""
        number = self.disk.reads + self.disk.writes
        each, first = self.lies.refused_each, self.lies.refused_from
        if each and number % each == 0 or first and number >= first or is_read and self.lies.refused_reads:
            self.disk.count("refused")
            self.fail(self.lies.error)

    def init(self, words):
        _, _, ahead, flags = struct.unpack_from("<IIII", words)
        flags &= ASYNC_READ | BIG_WRITES | (WRITEBACK_CACHE if self.lies.writeback else 0)
        return struct.pack("<IIIIHHIIHHI28x", MAJOR, MINOR, ahead, flags, 16, 12, BLOCK, 1, 0, 0, 0)

    def open(self, _):
        return struct.pack("<QII", 1, KEEP_CACHE, 0)

    def attributes(self, _):
        size = self.disk.size
        numbers = (1, size, size // 512, 0, 0, 0, 0, 0, 0, stat.S_IFREG | 0o666, 1, 0, 0, 0, BLOCK, 0)
        return struct.pack("<QII6Q10I", 3600, 0, 0, *numbers)

    def statfs(self, _):
        blocks = self.disk.size // BLOCK
        return struct.pack("<5Q4I24x", blocks, 0, 0, 1, 0, BLOCK, 255, BLOCK, 0)

    def read(self, words):
        _, offset, length = struct.unpack_from("<QQI", words)
        self.disk.count("reads")
        self.refuse(is_read=True)
        for place in range(*blocks_of(offset, length).indices(len(self.disk.seen))):
            self.disk.seen[place] = min(self.disk.seen[place] + 1, 255)
        return self.disk.stored[offset : offset + length]

    def write(self, words):
        _, offset, length = struct.unpack_from("<QQI", words)
        number = self.disk.count("writes")
        time.sleep(self.lies.write_seconds)
        self.refuse(is_read=False)
        each, share = self.lies.lost_each, self.lies.lost_share
        is_lost = bool(each and number % each == 0 or share and self.chance.random() < share)
        for place in range(*blocks_of(offset, length).indices(len(self.disk.seen))):
            self.disk.lost[place], self.disk.seen[place], self.disk.written[place] = is_lost, 0, 1
        if not is_lost:
            self.disk.stored[offset : offset + length] = words[40 : 40 + length]
        return struct.pack("<II", length, 0)

    def sync(self, _):
        first = self.lies.failed_syncs
        if self.disk.count("syncs") >= first > 0:
            self.fail(errno.EIO)
        return b""


def mounted(path):
    """Mounts a FUSE file over a plain one, and gives what its calls come from."""
    try:
        fuse = os.open("/dev/fuse", os.O_RDWR | os.O_CLOEXEC)
    except OSError as why:
        raise Skipped(f"no FUSE: {why}") from None
    words = f"fd={fuse},rootmode=100666,user_id=0,group_id=0,allow_other".encode()
    if libc.mount(b"lying", os.fsencode(path), b"fuse", NOSUID | NODEV, words):
        os.close(fuse)
        raise Skipped(f"no FUSE file can be mounted: {os.strerror(ctypes.get_errno())}")
    return fuse


def ends(server):
    """Waits until a server has ended by itself, for some seconds, and kills it then."""
    for _ in range(500):
        if os.waitpid(server, os.WNOHANG)[0]:
            return
        time.sleep(0.01)
    os.kill(server, signal.SIGKILL)
    os.waitpid(server, 0)


def started(disk, fuse):
    """Starts the server of a disk, and gives its number. It ends with who starts it."""
    server = os.fork()
    if server:
        return server
    try:
        libc.prctl(PR_SET_PDEATHSIG, signal.SIGKILL)
        Server(disk, fuse).serve()
    finally:
        os._exit(0)


@contextlib.contextmanager
def lying_disk(path, size, lies=Lies()):
    """A disk of so many bytes, as a file of this name. Its `server` is the number of the process that answers."""
    if os.geteuid() != 0:
        raise Skipped("not root")
    with open(path, "wb"):
        pass
    fuse = mounted(path)
    disk = Disk(size, lies)
    disk.server = started(disk, fuse)
    os.close(fuse)
    try:
        yield disk
    finally:
        libc.umount2(os.fsencode(path), DETACH)
        ends(disk.server)
        os.unlink(path)
