"""Where the outputs of a run go (--trace, --json, --page, --bad-blocks): each goes to a new file that takes its name, or through a
stream that is there; none goes over what the run has otherwise, whatever its name; what is refused is refused before the run, with
nothing made, lengthened or written; and a signal before the run, or a reader that reads nothing, keeps no run from its end. Of a folder
tree all is compared before and after: bytes, modes, owners, names."""

import contextlib
import fcntl
import hashlib
import os
import re
import shutil
import signal
import socket
import stat
import subprocess
import time

from support.case import Case
from support.disks import attached
from support.place import Place
from support.program import LAUNCH, MIB, Skipped, Wrong, as_nobody, expect, needs_root, total

SECONDS = 120
WRITE = "fiorun: cannot write\n"
OPEN = "fiorun: cannot open the files\n"
ENGINES = ("memory", "null", "psync")
# In the order in which they are looked at.
WORDS = ("--trace", "--bad-blocks", "--json", "--page")
# Those that take a job file of several files.
OF_ANY = ("--trace", "--json", "--page")
# How each output begins.
FRONTS = {"--trace": b"I 0 ", "--json": b'{"badreads":', "--page": b"<!DOCTYPE html>", "--bad-blocks": b""}


def job(engine="memory", filename="data", more=""):
    return f"[w]\nioengine={engine}\nfilename={filename}\nrw=write\nsize=16k\nverify=pattern\nverify_pattern=7\n{more}"


REPORT = total("w", writes=4, wbytes=16384, checks=4, good=4)
NOTHING = total("w", writes=4, wbytes=16384, checks=4, bad=4)


def reported(engine):
    """The lines of the totals of a run over this engine, and its status. What null reads is zeros, and so bad."""
    return (NOTHING, 1) if engine == "null" else (REPORT, 0)


def held(path):
    """What stands at a path: its kind and mode, owner, number if it is a node, and bytes or link."""
    it = os.lstat(path)
    what = it.st_rdev
    if stat.S_ISLNK(it.st_mode):
        what = os.readlink(path)
    elif stat.S_ISREG(it.st_mode):
        with open(path, "rb") as file:
            what = hashlib.sha256(file.read()).hexdigest()
    return it.st_mode, it.st_uid, it.st_gid, what


def tree(folder):
    """All that stands in and under a folder."""
    return {os.path.join(at, name): held(os.path.join(at, name)) for at, folders, files in os.walk(folder) for name in folders + files}


class Room(Place):
    """A folder in which the program runs, and of which it is known what a run changed."""

    def run(self, *words, text="", ends="", before="", **how):
        """Runs the program in a shell, with what stands behind its words (`ends`), and behind a command."""
        command = ["sh", "-c", f'{before}\nexec "$0" "$@" {ends}', self.program, "--notes", *words]
        how = {"input": text.encode(), "capture_output": True, "timeout": SECONDS, "check": False, **how}
        ended = subprocess.run(command, cwd=self.path, **how)
        if ended.stderr:
            # (what the null engine is for is said of each job that checks over it)
            ended.stderr = re.sub(rb"\Afiorun: note: line \d+: \[w\]: verify over ioengine=null: .*\n", b"", ended.stderr)
        return ended

    def refuses(self, why, *words, fault=WRITE, **how):
        """The run is refused with this note, and nothing differs."""
        before = tree(self.path)
        ended = self.run(*words, **how)
        expect(ended.returncode == 3 and ended.stdout == b"", words, how, "isn't refused:", ended)
        said = ended.stderr.decode()
        expect(said.startswith(fault) and re.fullmatch(f"fiorun: note: (?:{why})\n", said[len(fault):]), words, how, "says", said)
        after = tree(self.path)
        changed = {it for it in before.keys() | after.keys() if before.get(it) != after.get(it)}
        expect(not changed, words, how, "changed", sorted(changed))

    def leaves(self, ended, before, *named, status=0):
        """The run ended so, and nothing differs but what was named."""
        expect(ended.returncode == status, "ended with", ended)
        after = tree(self.path)
        changed = {os.path.relpath(it, self.path) for it in before.keys() | after.keys() if before.get(it) != after.get(it)}
        expect(changed <= set(named), "changed", sorted(changed), "and not only", named)


def over(word, where):
    return re.escape(f"the path of {word} is {where}")


def link_to_a_descriptor(place, number, name="stream"):
    """A link as /dev/stdout is one."""
    with contextlib.suppress(FileNotFoundError):
        os.remove(place.at(name))
    os.symlink(f"/proc/self/fd/{number}", place.at(name))
    return name


def ends_at_once(place, words, stdin):
    """The launcher, which waits for a job text or for the reader of a pipe, ends at one TERM."""
    command = ["perl", LAUNCH, place.program, *words]
    run = subprocess.Popen(command, cwd=place.path, stdin=stdin, stdout=subprocess.PIPE, stderr=subprocess.PIPE)
    try:
        for _ in range(3000):
            children = open(f"/proc/{run.pid}/task/{run.pid}/children", encoding="ascii").read().split()
            with contextlib.suppress(OSError):
                if children and os.path.samefile(f"/proc/{children[0]}/exe", place.program) and waits(children[0]):
                    break
            time.sleep(0.01)
        else:
            raise Wrong(f"it never waited: {words}")
        run.send_signal(signal.SIGTERM)
        said = run.communicate(timeout=SECONDS)
        expect(run.returncode == -signal.SIGTERM, words, "ended with", run.returncode, said)
    finally:
        run.kill()
        run.wait()


def waits(process):
    """Whether a process sleeps in a read or an open."""
    with open(f"/proc/{process}/syscall", encoding="ascii") as it:
        return it.read().split()[0] in ("0", "2", "257")


def full_pipe():
    """A pipe that takes no byte more."""
    reading, writing = os.pipe()
    os.set_blocking(writing, False)
    with contextlib.suppress(BlockingIOError):
        while True:
            os.write(writing, bytes(4096))
    with contextlib.suppress(BlockingIOError):
        while True:
            os.write(writing, b"\0")
    os.set_blocking(writing, True)
    return reading, writing


class Outputs(Case):
    """Where the outputs of a run go."""

    where = "/var/tmp"
    kind = Room

    def test_the_job_file_stays(self):
        """For each engine and each output, by each of its names, as a file and as standard input."""
        place = self.place
        for engine in ENGINES:
            place.put("job.fio", job(engine))
            os.symlink("job.fio", place.at("link"))
            os.link(place.at("job.fio"), place.at("hard"))
            for word in WORDS:
                for name in ("job.fio", "./job.fio", "link", "hard"):
                    place.refuses(over(word, "that of the job file"), f"{word}={name}", "job.fio")
                    place.refuses(over(word, "that of a stream of the program"), f"{word}={name}", ends="<job.fio")
            for name in ("job.fio", "link", "hard"):
                os.remove(place.at(name))

    def test_a_file_of_the_job_stays(self):
        """Also one that isn't there yet, by its path in other words and by links."""
        place = self.place
        os.mkdir(place.at("folder"))
        os.symlink("data", place.at("link"))
        os.symlink("../data", place.at("folder/other"))
        os.symlink(".", place.at("here"))
        text = job("psync")
        for word in WORDS:
            for name in ("data", "./data", "folder/../data", "link", "folder/other", "here/data", place.at("data")):
                place.refuses(over(word, "that of a file of a job"), f"{word}={name}", text=text)
            place.refuses(over(word, "that of a file of a job"), f"{word}=data", text=job("psync", "link"))
        place.put("data", b"\1" * 100)
        os.link(place.at("data"), place.at("hard"))
        for word in WORDS:
            for name in ("data", "./data", "link", "hard"):
                place.refuses(over(word, "that of a file of a job"), f"{word}={name}", text=text)

    def test_names_of_memory_are_no_files(self):
        """What a job over memory or null calls its file is no file."""
        place = self.place
        for engine in ("memory", "null"):
            place.put("data", b"old")
            before = tree(place.path)
            out, status = reported(engine)
            ended = place.run("--json=data", text=job(engine))
            place.leaves(ended, before, "data", status=status)
            expect(ended.stdout.endswith(out.encode()) or out.encode() in ended.stdout, engine, ended)
            expect(place.get("data").startswith(FRONTS["--json"]), "no JSON:", place.get("data")[:60])

    def test_streams_keep_their_files(self):
        """An output isn't the file of standard input, output or error."""
        place = self.place
        for word in WORDS:
            for ends in (">out", ">>out", "2>out", ">other 2>out", "<out"):
                place.put("out", b"" if ends == ">out" else b"kept\n")
                place.put("other", b"")
                os.symlink("out", place.at("link"))
                os.link(place.at("out"), place.at("hard"))
                for name in ("out", "./out", "link", "hard"):
                    place.put("job", job())
                    before = os.stat(place.at("out")).st_ino
                    ended = place.run(f"{word}={name}", "job", ends=ends)
                    expect(ended.returncode == 3, word, name, ends, "isn't refused:", ended)
                    expect(os.stat(place.at("out")).st_ino == before and os.path.islink(place.at("link")), word, name, ends, "replaced it")
                    said = {"out": place.get("out"), "other": place.get("other"), "err": ended.stderr, "ended": ended.stdout}
                    wrong = [it for it in said.values() if b"w: clone" in it or b"badreads" in it or b"<!DOC" in it]
                    expect(not wrong, word, name, ends, "wrote", wrong)
                for name in ("out", "other", "link", "hard"):
                    os.remove(place.at(name))

    def test_no_job_writes_into_a_stream(self):
        """A job's file that is standard output's or error's file would get report lines."""
        place = self.place
        for ends in (">>data", "2>>data", "1<>data"):
            for name in ("data", "./data"):
                place.put("data", b"\1" * 20000)
                place.put("job", job("psync", name))
                ended = place.run("job", ends=ends)
                expect(ended.returncode == 3, name, ends, "isn't refused:", ended)
                expect(place.get("data")[:20000] == b"\1" * 20000, "it was written:", ends)
                expect(b"w: clone" not in place.get("data"), "it has report lines:", ends)

    def test_streams_get_their_bytes(self):
        """By /dev/stdout, /dev/fd/1 and their kin an output goes behind the report, and the names stay what they are."""
        place = self.place
        for word in WORDS:
            link = link_to_a_descriptor(place, 1)
            for name in (link, "/dev/fd/1", "/proc/self/fd/1"):
                there = held(place.at(link))
                for ends, front in ((">out", b""), (">>out", b"kept\n"), ("1<>out", b"")):
                    place.put("out", front)
                    before = tree(place.path)
                    ended = place.run(f"{word}={name}", text=job(), ends=ends)
                    place.leaves(ended, before, "out")
                    wanted = front + REPORT.encode() + FRONTS[word]
                    expect(place.get("out").startswith(wanted), word, name, ends, "wrote", place.get("out")[:300])
                    expect(there == held(place.at(link)), name, "isn't what it was")
                ended = place.run(f"{word}={name}", text=job())
                expect(ended.returncode == 0 and ended.stdout.startswith(REPORT.encode() + FRONTS[word]), word, name, "to a pipe:", ended)
            link = link_to_a_descriptor(place, 2)
            for name in (link, "/dev/fd/2"):
                place.put("err", b"kept\n")
                before = tree(place.path)
                ended = place.run(f"{word}={name}", text=job(), ends="2>>err")
                place.leaves(ended, before, "err")
                expect(place.get("err").startswith(b"kept\n" + FRONTS[word]), word, name, "wrote", place.get("err")[:300])
            os.remove(place.at(link))

    def test_the_machines_own_links_stay(self):
        """The same by /dev/stdout and /dev/stderr. As root somebody runs it who can't replace them: a wrong program would, for all."""
        place = self.place
        how = as_nobody()
        shutil.copy(place.program, place.at("fiorun"))
        os.chmod(place.at("fiorun"), 0o755)
        os.chmod(place.path, 0o755)
        other = Room(place.at("fiorun"), place.path)
        there = held("/dev/stdout"), held("/dev/stderr")
        if not all(stat.S_ISLNK(mode) for mode, *_ in there):
            raise Skipped("/dev/stdout is no link")
        for word in WORDS:
            ended = other.run(f"{word}=/dev/stdout", text=job(), **how)
            expect(ended.returncode == 0 and ended.stdout.startswith(REPORT.encode() + FRONTS[word]), word, ended)
            ended = other.run(f"{word}=/dev/stderr", text=job(), **how)
            expect(ended.returncode == 0 and ended.stderr.startswith(FRONTS[word]), word, ended)
            expect((held("/dev/stdout"), held("/dev/stderr")) == there, word, "another /dev/stdout")

    def test_descriptors_get_their_bytes(self):
        """An open file of another number gets them behind what it has."""
        place = self.place
        for word in WORDS:
            for ends, front in (("5>out", b""), ("5>>out", b"kept\n"), ("5<>out", b"kept\n")):
                place.put("out", front)
                before = tree(place.path)
                ended = place.run(f"{word}=/dev/fd/5", text=job(), ends=ends)
                place.leaves(ended, before, "out")
                got = place.get("out")
                expect(ended.stdout == REPORT.encode() and got.startswith(front + FRONTS[word]), word, ends, got[:200])
            place.put("out", b"")
            ended = place.run(f"{word}=/dev/fd/5", text=job(), ends=">out 5>&1")
            got = place.get("out")
            expect(ended.returncode == 0 and got.startswith(REPORT.encode() + FRONTS[word]), word, "5>&1", got[:200])

    def test_pipes_and_devices_stay(self):
        """A FIFO gets the bytes, and a device of characters; neither is replaced."""
        place = self.place
        os.mkfifo(place.at("pipe"))
        for word in WORDS:
            before = tree(place.path)
            # (what an output has of so short a run finds room in the pipe)
            with open(os.open(place.at("pipe"), os.O_RDONLY | os.O_NONBLOCK), "rb") as reader:
                ended = place.run(f"{word}=pipe", text=job())
                got = reader.read() or b""
            place.leaves(ended, before)
            expect(got.startswith(FRONTS[word]), word, "through a pipe:", got[:100])
            there = held("/dev/null")
            ended = place.run(f"{word}=/dev/null", text=job())
            expect((ended.returncode, ended.stdout) == (0, REPORT.encode()) and held("/dev/null") == there, word, "to /dev/null:", ended)
        ended = place.run("--json=/dev/null", "--page=/dev/null", text=job(), ends=">/dev/null 2>/dev/null")
        expect(ended.returncode == 0, "all to /dev/null:", ended)
        ended = place.run("--json=/dev/full", "--page=page", text=job("null"))
        expect(ended.returncode == 1 and WRITE.encode() in ended.stderr, "a full device:", ended)
        expect(place.get("page").startswith(FRONTS["--page"]), "the other output is lost")

    def test_a_link_is_followed(self):
        """Where it leads, the new file is made, and the link stays."""
        place = self.place
        os.makedirs(place.at("folder"))
        place.put("folder/there", b"old")
        os.symlink("folder/there", place.at("link"))
        os.symlink(place.at("folder/ahead"), place.at("dangling"))
        os.symlink("link", place.at("twice"))
        for word in WORDS:
            for name, end in (("link", "folder/there"), ("twice", "folder/there"), ("dangling", "folder/ahead")):
                before = tree(place.path)
                ended = place.run(f"{word}={name}", text=job())
                place.leaves(ended, before, end)
                expect(place.get(end).startswith(FRONTS[word]), word, name, "wrote", place.get(end)[:60])
            os.remove(place.at("folder/ahead"))
        os.symlink("circle", place.at("circle"))
        place.refuses("cannot make circle: .*", "--json=circle", text=job("psync"))

    def test_what_is_no_file_is_refused(self):
        place = self.place
        os.mkdir(place.at("folder"))
        with socket.socket(socket.AF_UNIX) as it:
            it.bind(place.at("socket"))
        text = job("psync")
        for word in WORDS:
            for name in ("folder", "folder/", "folder/.", "..", ".", "/", "socket"):
                place.refuses(over(word, "that of no file"), f"{word}={name}", text=text)
            place.put("file", b"kept")
            place.refuses("cannot make (?:file/|no/file|no/): .*|" + over(word, "that of no file"), f"{word}=file/", text=text)
            for name in ("no/file", "no/"):
                place.refuses("cannot make (?:no/file|no/): .*|" + over(word, "that of no file"), f"{word}={name}", text=text)

    def test_the_systems_own_files_are_refused(self):
        """Nothing is made or replaced in or under /dev, /proc and /sys."""
        place = self.place
        text = job("psync")
        name = f"nosuch{os.getpid()}"
        os.symlink("/dev", place.at("devices"))
        os.symlink(f"/dev/{name}", place.at("link"))
        for word in WORDS:
            for path in (f"/dev/{name}", f"devices/{name}", "link", f"/dev/shm/{name}", f"/proc/{name}", f"/sys/{name}", "/proc/self/comm"):
                place.refuses(over(word, "in /dev, /proc or /sys"), f"{word}={path}", text=text)
                expect(not os.path.lexists(f"/dev/{name}") and not os.path.lexists(f"/dev/shm/{name}"), path, "was made")
        for path in (f"/proc/{os.getpid()}/fd/1", "/dev/fd/77"):
            ended = place.run(f"--json={path}", text=text)
            expect(ended.returncode == 3 and ended.stderr.startswith(WRITE.encode()), path, "isn't refused:", ended)

    def test_block_devices_are_refused(self):
        """Whatever node or link names them, the job's own too."""
        place = self.place
        place.put("image", b"\5" * MIB)
        with attached(place.at("image")) as device:
            os.mknod(place.at("node"), stat.S_IFBLK | 0o600, os.stat(device).st_rdev)
            os.symlink(device, place.at("link"))
            for word in WORDS:
                for name in (device, "node", "link"):
                    for text in (job(), job("psync"), job("psync", os.path.basename(device), "directory=/dev\n")):
                        place.refuses(over(word, "that of no file"), f"{word}={name}", text=text)
            with open(device, "rb") as it:
                expect(it.read() == b"\5" * MIB, "the device was written")

    def test_outputs_are_apart(self):
        """No two are one file; and names that are like each other are two."""
        place = self.place
        for first in WORDS:
            for second in WORDS[WORDS.index(first) + 1:]:
                os.mkdir(place.at("folder"))
                place.refuses(over(second, "that of another output"), f"{first}=y", f"{second}=./y", text=job())
                place.refuses(over(second, "that of another output"), f"{first}=y", f"{second}=folder/../y", text=job())
                place.put("a", b"kept")
                os.link(place.at("a"), place.at("b"))
                os.symlink("a", place.at("c"))
                for name in ("a", "b", "c"):
                    place.refuses(over(second, "that of another output"), f"{first}=a", f"{second}={name}", text=job())
                place.put("out", b"")
                link = link_to_a_descriptor(place, 1)
                same = over(second, "that of another output")
                place.refuses(same, f"{first}={link}", f"{second}=/dev/fd/1", text=job(), ends=">out")
                os.remove(place.at("out"))
                os.remove(place.at("stream"))
                before = tree(place.path)
                ended = place.run(f"{first}=n.new", f"{second}=n", text=job())
                place.leaves(ended, before, "n", "n.new")
                got = place.get("n.new"), place.get("n")
                expect(got[0].startswith(FRONTS[first]) and got[1].startswith(FRONTS[second]), first, second, "one is lost")
                for name in ("a", "b", "c", "n", "n.new"):
                    os.remove(place.at(name))
                os.rmdir(place.at("folder"))

    def test_modes_and_owners_stay(self):
        """What is replaced hands on its mode and owner; a new file has what the umask leaves."""
        place = self.place
        for word in WORDS:
            place.put("old", b"old")
            os.chmod(place.at("old"), 0o640)
            if os.geteuid() == 0:
                os.chown(place.at("old"), 1234, 2345)
            was = os.stat(place.at("old"))
            ended = place.run(f"{word}=old", text=job(), before="umask 077")
            now = os.stat(place.at("old"))
            expect(ended.returncode == 0 and place.get("old").startswith(FRONTS[word]), word, ended)
            expect((was.st_mode, was.st_uid, was.st_gid) == (now.st_mode, now.st_uid, now.st_gid), word, was, now)
            ended = place.run(f"{word}=new", text=job(), before="umask 027")
            expect(os.stat(place.at("new")).st_mode == stat.S_IFREG | 0o640, word, oct(os.stat(place.at("new")).st_mode))
            os.remove(place.at("new"))

    def test_others_files_are_in_nobodys_way(self):
        """What a killed run has left, and what has the name that new files had, stays and hinders nothing."""
        place = self.place
        for name in ("j.new", ".fiorun-0000000000000000", ".j.tmp"):
            place.put(name, b"kept")
        for word in WORDS:
            before = tree(place.path)
            ended = place.run(f"{word}=j", text=job())
            place.leaves(ended, before, "j")

    def test_nothing_is_made_for_a_refused_run(self):
        """Neither outputs nor files of the job: also where the folder of an output isn't there, or can't be written to."""
        place = self.place
        os.mkdir(place.at("folder"))
        place.put("short", b"\1" * 100)
        place.put("old", b"old")
        text = job("psync", "short") + "[v]\nfilename=made\nioengine=psync\nrw=write\nsize=4k\n"
        one = job("psync", "short")
        for word in WORDS:
            place.refuses(r"cannot make no/t: No such file or directory \(os error 2\)", f"{word}=no/t", text=one)
            place.refuses("cannot open no/f: .*|cannot make no/f: .*", f"{word}=old", text=job("psync", "no/f"), fault=OPEN)
        for word in OF_ANY:
            another = "--page=old" if word == "--json" else "--json=old"
            place.refuses(r"cannot make no/t: No such file or directory \(os error 2\)", f"{word}=no/t", another, text=text)
        with open(place.at("short"), "rb") as it:
            fcntl.flock(it, fcntl.LOCK_EX)
            for word in OF_ANY:
                place.refuses("short is locked by another run", f"{word}=old", text=text, fault=OPEN)

    def test_a_folder_that_cant_be_written_is_refused(self):
        place = self.place
        needs_root()
        os.chmod(place.path, 0o755)
        shutil.copy(place.program, place.at("fiorun"))
        os.chmod(place.at("fiorun"), 0o755)
        os.mkdir(place.at("open"))
        os.chmod(place.at("open"), 0o777)
        place.put("old", b"old")
        os.chmod(place.at("old"), 0o666)
        place.put("open/kept", b"kept")
        os.chmod(place.at("open/kept"), 0o444)
        other = Room(place.at("fiorun"), place.path)
        for word in WORDS:
            for name in ("old", "new", "open/kept"):
                said = re.escape(f"cannot make {name}: Permission denied (os error 13)")
                other.refuses(said, f"{word}={name}", text=job("psync", "open/data"), **as_nobody())

    def test_lengths_are_set_back(self):
        """Of several files one can't be extended: those before it have their old length, and those that were made are gone."""
        place = self.place
        place.put("first", b"\1" * 100)
        place.put("second", b"\2" * 100)
        text = "[global]\nioengine=psync\nrw=write\nbs=4k\n[a]\nfilename=first\nsize=16k\n[b]\nfilename=made\nsize=16k\n"
        text += "[r]\nrw=read\nfilename=second\nsize=16k\n[c]\nfilename=far\nsize=16m\n"
        place.refuses("cannot extend far: .*", text=text, fault=OPEN, before="trap '' XFSZ; ulimit -f 64")

    def test_what_is_found_is_told(self):
        """A report that can't be written loses no output, and the status says what was found."""
        place = self.place
        for engine in ENGINES:
            for ends in (">/dev/full", "| head -c 1", ">&-", "2>&-", "<&-"):
                place.put("job", job(engine))
                words = ("--trace=t", "--json=j", "--page=p", "--bad-blocks=b")
                with contextlib.suppress(FileNotFoundError):
                    os.remove(place.at("data"))
                ended = place.run(*words, "job", ends=ends)
                status = 0 if "|" in ends else 1 if engine == "null" else 0 if ends in ("2>&-", "<&-") else 3
                expect(ended.returncode == status, engine, ends, "ended with", ended)
                for word in words:
                    word, name = word.split("=")
                    expect(place.get(name).startswith(FRONTS[word]), engine, ends, word, "is lost")
                    os.remove(place.at(name))

    def test_outputs_of_a_checked_trace(self):
        """The same rules; and a trace that is refused leaves no output."""
        place = self.place
        place.put("job", job())
        ended = place.run("--trace=t", "job")
        expect(ended.returncode == 0, ended)
        place.put("cut", place.get("t")[:-9] + b"!\n")
        os.symlink("t", place.at("link"))
        place.put("old", b"old")
        for word in WORDS[1:]:
            place.refuses(over(word, "that of the job file"), "--check-trace=t", f"{word}=job", "job")
            for name in ("t", "./t", "link"):
                place.refuses(over(word, "that of the trace that is checked"), "--check-trace=t", f"{word}={name}", "job")
            before = tree(place.path)
            ended = place.run("--check-trace=cut", f"{word}=old", "job")
            place.leaves(ended, before, status=2)
            ended = place.run("--check-trace=no", f"{word}=old", "job")
            place.leaves(ended, before, status=3)
            ended = place.run("--check-trace=t", f"{word}=old", "job")
            place.leaves(ended, before, "old")
            expect(ended.stdout == REPORT.encode() and place.get("old").startswith(FRONTS[word]), word, ended)
            ended = place.run("--check-trace=t", f"{word}={link_to_a_descriptor(place, 1)}", "job")
            expect(ended.stdout.startswith(REPORT.encode() + FRONTS[word]), word, ended)
            place.put("old", b"old")

    def test_a_signal_before_the_run_ends_it(self):
        place = self.place
        if os.uname().machine != "x86_64" or not shutil.which("perl") or not os.access("/proc/self/syscall", os.R_OK):
            raise Skipped("no perl, or another machine")
        reading, writing = os.pipe()
        os.mkfifo(place.at("pipe"))
        place.put("job", job())
        try:
            ends_at_once(place, [], reading)
            ends_at_once(place, ["--json=pipe", "job"], subprocess.DEVNULL)
            ends_at_once(place, ["pipe"], subprocess.DEVNULL)
        finally:
            os.close(reading)
            os.close(writing)
        expect(sorted(os.listdir(place.path)) == ["job", "pipe"], "left:", os.listdir(place.path))

    def test_progress_waits_for_nobody(self):
        """Where standard error's reader reads nothing, the run ends, with its report."""
        place = self.place
        text = job(more="").replace("size=16k", "size=16m")
        for workers in ("1", "2"):
            reading, writing = full_pipe()
            asked, asking = os.pipe()
            os.write(asking, b"p" * 8)
            words = [place.program, f"--workers={workers}", "--progress=1", f"--stop-fd={asked}", "--json=j"]
            try:
                how = {"stdin": subprocess.PIPE, "stdout": subprocess.PIPE, "stderr": writing, "pass_fds": [asked]}
                run = subprocess.Popen(words, cwd=place.path, **how)
                try:
                    out = run.communicate(text.encode(), timeout=SECONDS)[0]
                except subprocess.TimeoutExpired as why:
                    run.kill()
                    raise Wrong("it waits for the reader of standard error") from why
                expect(run.returncode == 0 and out.startswith(b"w: clone=0 "), workers, "ended with", run.returncode, out)
                expect(place.get("j").startswith(FRONTS["--json"]), "no JSON")
            finally:
                for it in (reading, writing, asked, asking):
                    os.close(it)
