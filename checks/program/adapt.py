"""What --adapt makes of job files.

Checks of each of the four words, jobs that are left out, sizes, statuses. Of each text: the lines that are taken stay byte for byte and in
their order, but for those of jobs that are left out; no other line goes without a comment that has it; no job loses its verify; adapting
what came out changes nothing more; and what came out with status 0 makes a plan.

FIO=FOLDER of the environment looks at fio's own job files too, which stand in the folder of its sources (examples, t/jobs), and says how
many came out as they are, adapted whole, with a part left out, and with all left to a person. What is small enough is run as well. FETCH=1
fetches Debian's source package of fio for that. Without either they are skipped with a word. BESIDE_FIO=1 also runs 20 of those that came
out whole, chosen at random, in fio and in fiorun, and says of how many both made as many I/Os over as many bytes, and prints each. (Random
sizes and mixes are drawn otherwise, and fio stops at blocks that it can't verify: so such jobs differ.)"""

import contextlib
import glob
import json
import os
import random
import re
import shutil
import subprocess
import sys
import tempfile

from support.case import Case
from support.place import Place
from support.program import MIB, Skipped, expect

SECONDS = 60
LEFT = "; left out, yours to decide: "
FIRST = "; adapted from a job file of fio, to be run by: fiorun"


def run(place, text, *words):
    """Runs the program on a job text: the status, and the texts of its two streams."""
    text = text.encode() if isinstance(text, str) else text
    ended = subprocess.run([place.program, *words], input=text, cwd=place.path, capture_output=True, timeout=SECONDS, check=False)
    return ended.returncode, ended.stdout, ended.stderr.decode()


def refused_lines(place, text):
    """The numbers of the lines that are refused, by the notes of a run that isn't adapted."""
    ended = run(place, text, "--parse-only", "--notes")
    found = {int(number): note for number, note in re.findall(r"^fiorun: note: line (\d+): (.*)$", ended[2], re.M)}
    return {number for number, note in found.items() if not note.startswith("[")}


def left_out(made):
    """The headings of the jobs that are left out, each with the comment above it."""
    lines = made.split(b"\n")
    return [below[2:] for line, below in zip(lines, lines[1:]) if line.startswith(LEFT.encode())]


def sections(text):
    """The sections of a text: each name with its lines without their comments, and the numbers of these."""
    found = []
    for number, line in enumerate(text.split(b"\n"), 1):
        said = line.strip(b" \t\r")
        if said.startswith(b"["):
            found.append((said, []))
        elif said and said[:1] not in b";#" and found:
            found[-1][1].append((number, re.split(b"[;#]", said)[0].strip()))
    return found


def verifies(lines):
    """Whether the last line of `verify` has blocks verified."""
    words = [line.partition(b"=")[2].strip() for _, line in lines if line.partition(b"=")[0].strip() == b"verify"]
    return bool(words) and words[-1] not in (b"0", b"null")


def look(place, text, made):
    """What must hold of each text and of what it was adapted to."""
    refused, outs, after = refused_lines(place, text), left_out(made), iter(made.split(b"\n"))
    out = False
    for number, line in enumerate(text.split(b"\n"), 1):
        said = line.strip(b" \t\r")
        if said.startswith(b"["):
            out = bool(outs) and said == outs[0].strip(b" \t\r")
            outs = outs[1:] if out else outs
        option = bool(said) and said[:1] not in b";#"
        if option and number in refused:
            front = b"; was: " + line.split(b"\r")[0] + b" -- "
            expect(any(it.startswith(front) for it in after), "line", number, "is nowhere as", front)
        else:
            wanted = b"; " + line if out and option else line
            expect(any(it == wanted for it in after), "line", number, "is nowhere as", wanted)
    expect(not outs, "left out, and not in the text", outs)
    look_at_sections(text, made)
    again = run(place, made, "--adapt")
    expect(again[1] == made, "adapting it again changes it", again[1])
    expect(not refused_lines(place, made), "lines of it are refused", made)


def look_at_sections(text, made):
    outs = left_out(made)
    kept = []
    for name, lines in sections(text):
        if outs and name == outs[0].strip(b" \t\r"):
            outs = outs[1:]
        else:
            kept.append((name, lines))
    after = sections(made)
    expect([name for name, _ in kept] == [name for name, _ in after], "its sections are", after)
    for (name, before), (_, lines) in zip(kept, after):
        expect(not verifies(before) or verifies(lines), "loses its verify", name)


def adapted(place, text, *words, status=0):
    """What a text is adapted to, with all that must hold of it."""
    text = text.encode() if isinstance(text, str) else text
    ended = run(place, text, "--adapt", *words)
    expect(ended[0] == status, "status", ended[0], ended[2], "of", text)
    look(place, text, ended[1])
    if status == 0:
        parsed = run(place, ended[1], "--parse-only")
        expect(parsed[0] == 0, "it makes no plan:", parsed[2], ended[1])
    return ended[1].decode()


def is_text(made, *lines):
    expect(made == "\n".join(lines), "it is", made, "and not", "\n".join(lines))


def fetched(place):
    """The folder of fio's sources, from Debian's source package."""
    lists = [f"-oDir::State::Lists={place.path}/lists", f"-oDir::Cache={place.path}/cache"]
    source = ["-oDir::Etc::SourceParts=/dev/null", f"-oDir::Etc::SourceList={place.path}/sources.list"]
    for folder in ("lists/partial", "cache/archives/partial"):
        os.makedirs(place.at(folder))
    with open(place.at("sources.list"), "w", encoding="utf-8") as it:
        it.write("deb-src http://deb.debian.org/debian bookworm main\n")
    try:
        for words in (["update"], ["source", "--download-only", "fio"]):
            subprocess.run(["apt-get", *lists, *source, *words], cwd=place.path, check=True, capture_output=True, timeout=300)
        subprocess.run("tar xzf fio_*.orig.tar.gz", shell=True, cwd=place.path, check=True)
    except (OSError, subprocess.SubprocessError) as why:
        raise Skipped(f"fio's source package can't be fetched: {why}") from why
    return glob.glob(place.at("fio-*"))[0]


def of_fio(place, folder):
    """What fio's own job files come out as: how many of each kind, and how many were run."""
    counts = dict.fromkeys(("as it is", "whole", "a part left out", "yours to decide", "run"), 0)
    paths = sorted(glob.glob(os.path.join(folder, "examples", "*.fio")) + glob.glob(os.path.join(folder, "t", "jobs", "*.fio")))
    expect(paths, "no job files in", folder)
    for path in paths:
        with open(path, "rb") as it:
            text = it.read()
        status, made, said = run(place, text, "--adapt", "--size=16m")
        expect(status in (0, 1), path, status, said)
        look(place, text, made)
        plan = run(place, made, "--parse-only")
        expect(plan[0] == 0 if status == 0 else plan[0] in (0, 2), path, "makes no plan", plan)
        kind = "as it is" if made == text else "whole" if status == 0 else "a part left out" if plan[0] == 0 else "yours to decide"
        counts[kind] += 1
        if plan[0] == 0 and is_small(plan[1].decode()):
            ended = run(place, made)
            # (some read what another job was to leave)
            expect(ended[0] == 0 or ended[2] == "fiorun: cannot open the files\n", path, "ran with", ended)
            counts["run"] += ended[0] == 0
    return counts


def counted(reports):
    """How many I/Os and bytes these jobs of a report of fiorun or fio made, checks of writes among them, and their names."""
    ios = size = 0
    for it in reports:
        if "jobname" in it:
            ios += it["read"]["total_ios"] + it["write"]["total_ios"]
            size += it["read"]["io_bytes"] + it["write"]["io_bytes"]
        else:
            checks = it["checks"] if it["writes"] else 0
            ios += it["reads"] + it["writes"] + checks
            size += it["rbytes"] + it["wbytes"] + (checks * it["wbytes"] // it["writes"] if checks else 0)
    return ios, size, {it.get("jobname") or it["job"] for it in reports}


def in_both(place, made):
    """What both count of a job whose places are moved into the room, and nothing where one of them can't run it there."""
    moved = re.compile(r"^(filename|directory)=/\S*?([^/\s]+)$", re.M)
    text = moved.sub(lambda it: it[1] + "=" + (it[2] if it[1] == "filename" else "."), made.decode())
    with open(place.at("job"), "w", encoding="utf-8") as it:
        it.write(text)
    words = [[place.program, "--cached", "--json=ours", "job"], ["fio", "--output-format=json", "--output=theirs", "job"]]
    with contextlib.suppress(OSError, ValueError, KeyError, subprocess.TimeoutExpired):
        for it in words:
            subprocess.run(it, cwd=place.path, capture_output=True, timeout=120, check=False)
            for name in set(os.listdir(place.path)) - {"job", "ours", "theirs"}:
                os.unlink(place.at(name))
        found = []
        for name in ("ours", "theirs"):
            with open(place.at(name), encoding="utf-8") as it:
                found.append(counted(json.loads(re.sub(r"^[^{]*", "", it.read()))["jobs"]))
        return found
    return None


def beside_fio(place, folder):
    """Runs 20 of fio's job files in both."""
    if not shutil.which("fio"):
        raise Skipped("there is no fio to run beside")
    paths = sorted(glob.glob(os.path.join(folder, "examples", "*.fio")) + glob.glob(os.path.join(folder, "t", "jobs", "*.fio")))
    random.Random(1).shuffle(paths)
    tried = same = 0
    for path in paths:
        with open(path, "rb") as it:
            status, made, _ = run(place, it.read(), "--adapt", "--size=16m")
        total = bytes_in(run(place, made, "--parse-only")[1].decode())
        if status != 0 or tried == 20 or not 0 < total <= 2048 * MIB:
            continue
        with tempfile.TemporaryDirectory() as inner:
            found = in_both(Place(place.program, inner), made)
        if found is None:
            continue
        tried += 1
        ours, theirs = found
        # (with group_reporting fio names the first job of a group alone)
        is_same = ours[:2] == theirs[:2] and theirs[2] <= ours[2]
        same += is_same
        said = "as fio" if is_same else f"{ours[0]} I/Os of {ours[1]} bytes, fio {theirs[0]} of {theirs[1]}"
        print(f"adapt: {os.path.basename(path)}: {said}", file=sys.__stdout__, flush=True)
    return f"{same} of {tried} jobs make as many I/Os over as many bytes in both"


def bytes_in(plan):
    """How many bytes the jobs of a plan read and write."""
    numbers = re.findall(r" cell=(\d+) cells=(\d+) .*? loops=(\d+)", plan)
    return sum(int(cell) * int(cells) * int(loops) for cell, cells, loops in numbers)


def is_small(plan):
    """Whether the jobs of a plan work on little in this folder."""
    names = re.findall(r" file=(\S+)", plan)
    return bool(names) and not any("/" in it for it in names) and 0 < bytes_in(plan) <= 20 * MIB


class Adapt(Case):
    """What --adapt makes of job files."""

    def test_taken_as_it_is(self):
        """What makes a plan comes back byte for byte, whatever its line ends and its last line."""
        place = self.place
        for text in (
            "[w]\nrw=write\nbs=4k\nsize=8k\n",
            "; a\r\n\n  [w]\r\n\trw = write ; b\r\nbs=4k\r\n#c\r\nsize=8k",
            "[global]\nsize=1m\n\n\n[a]\n[b]\nverify=md5\n; end",
        ):
            expect(adapted(place, text) == text, "it was changed", text)

    def test_four_words(self):
        """Dropped, the same, nearly, and yours to decide."""
        place = self.place
        made = adapted(place, "[w]\nrw=write\nsize=8k\nlog_avg_msec=1\nverify=crc32c\nioengine=sg\n")
        is_text(
            made,
            f"{FIRST} JOBFILE",
            "[w]",
            "rw=write",
            "size=8k",
            "; was: log_avg_msec=1 -- dropped (nothing is measured)",
            "; was: verify=crc32c -- the same (no such checksum)",
            "verify=md5",
            "; was: ioengine=sg -- nearly, but for its own way into the kernel (no such engine)",
            "ioengine=psync",
            "",
        )
        made = adapted(place, "[a]\nsize=8k\nrw=trim\n[b]\nsize=4k\n", status=1)
        is_text(
            made,
            f"{FIRST} JOBFILE",
            f"{LEFT}rw=trim: what is read after a trim",
            "; [a]",
            "; size=8k",
            "; was: rw=trim -- yours to decide: what is read after a trim (nothing is trimmed)",
            "[b]",
            "size=4k",
            "",
        )

    def test_commands(self):
        """The words of the command line that lines stand for."""
        place = self.place
        for lines, words in (
            (["runtime=2m"], " --for=120s --repeat=1"),
            (["runtime=60", "time_based"], " --for=60s"),
            (["timeout=1h", "time_based=0", "allow_mounted_write=1"], " --for=3600s --repeat=1 --allow-mounted-write"),
            (["runtime=0", "ramp_time=5"], ""),
        ):
            made = adapted(place, "\n".join(["[w]", "size=4k", *lines, ""]))
            expect(made.startswith(f"{FIRST}{words} JOBFILE\n"), "the command is", made)

    def test_in_place(self):
        """Lines with another key or value in their place."""
        place = self.place
        for line, wanted in (
            ("bs=4KiB", "bs=4000"),
            ("size=4ki", "size=4096"),
            ("offset=0x400", "offset=1024"),
            ("fileoffset=1k", "offset=1k"),
            ("iodepth=1000", "iodepth=256"),
            ("loops=5000", "loops=1000"),
            ("rw=read:8", "rw=read"),
            ("bsrange=4k-4k", "bs=4096"),
            ("bsrange=1k-4k", "bssplit=1024/34:2048/33:4096/33"),
            ('verify_pattern="abcd"', "verify_pattern=0x61626364"),
            ("buffer_pattern=0xcafe", "verify_pattern=0xcafe"),
            ("verify=null", "verify=0"),
        ):
            status = 1 if line == "bs=4KiB" else 0
            text = f"[w]\nsize=8k\n{line}\n"
            made = run(place, text, "--adapt")
            expect(made[0] == status, line, "status", made)
            look(place, text.encode(), made[1])
            expect(status or f"\n{wanted}\n" in made[1].decode(), line, "is", made[1])

    def test_in_jobs(self):
        """Lines that mean something else in each job: how much it does, and for whom it waits."""
        place = self.place
        for lines, wanted in (
            ("[w]\nbs=4k\nnumber_ios=3\n", "size=12288"),
            ("[w]\nsize=8k\nio_size=4k\n", "size=4096"),
            ("[w]\nsize=8k\nio_size=24k\n", "loops=3"),
            ("[w]\nfilesize=16k\n", "size=16384"),
            ("[global]\nnumber_ios=2\nrw=write\n[w]\nbs=8k\n", "size=16384"),
            ("[a]\nsize=4k\n[b]\nsize=4k\nwait_for=a\n", "stonewall"),
            ("[global]\nsg_write_mode=verify_bytchk_01\nverify_pattern=1\n[w]\nrw=write\nsize=4k\n", "rw=read\nverify=pattern"),
        ):
            made = adapted(place, lines)
            expect(f"\n{wanted}\n" in made, lines, "is", made)
        for lines, why in (
            ("[w]\nsize=8k\nfilesize=4k\n", "filesize=4k: a size above the file's"),
            ("[a]\nsize=4k\n[b]\nsize=4k\n[c]\nsize=4k\nwait_for=a\n", "wait_for=a: which jobs it waits for"),
            ("[w]\nsize=4k\nverify=pattern\n", "verify=pattern without verify_pattern"),
        ):
            made = adapted(place, lines, status=1)
            expect(f"\n{LEFT}{why}\n" in made, lines, "is", made)

    def test_from_global(self):
        """A line of [global] that a person has to decide counts for the jobs below it that don't say otherwise."""
        place = self.place
        text = "[a]\nsize=4k\n[global]\nioengine=net\nsize=8k\n[b]\n[c]\nioengine=psync\n"
        made = adapted(place, text, status=1)
        is_text(
            made,
            f"{FIRST} JOBFILE",
            "[a]",
            "size=4k",
            "[global]",
            "; was: ioengine=net -- yours to decide: what this engine tests (there is no disk to test)",
            "size=8k",
            f"{LEFT}ioengine=net: what this engine tests",
            "; [b]",
            "[c]",
            "ioengine=psync",
            "",
        )

    def test_sizes(self):
        """The size of a job that has none: of its file, of the word, or else it is left out."""
        place = self.place
        with open(place.at("there"), "wb") as it:
            it.write(bytes(12288))
        text = "[w]\nrw=read\nfilename=there\noffset=4k\n"
        made = adapted(place, text)
        expect(made.endswith("offset=4k\n; no size was given: there has 12288 bytes\nsize=8192\n"), "it is", made)
        text = "[w]\nrw=write\n\n; end\n"
        made = adapted(place, text, "--size=1m")
        is_text(made, f"{FIRST} JOBFILE", "[w]", "rw=write", "; no size was given: by --size", "size=1048576", "", "; end", "")
        made = adapted(place, text, status=1)
        expect(f"\n{LEFT}it has no size: " in made and "\n; [w]\n; rw=write\n" in made, "it is", made)
        for words in (["--size=1m"], ["--adapt", "--size=x"], ["--adapt", "--size="]):
            ended = run(place, "[w]\nsize=4k\n", *words)
            expect(ended == (2, b"", "fiorun: command line: bad size of jobs\n"), words, ended)

    def test_statuses(self):
        """2 where the text isn't read, as ever; 1 with what is wrong with it as a whole."""
        place = self.place
        for text in ("size=1\n", "[w\n", b"\xff\n"):
            ended, plain = run(place, text, "--adapt"), run(place, text)
            expect(ended == plain and ended[0] == 2 and not ended[1], "it is", ended, plain)
        made = adapted(place, "[a]\nsize=4k\nioengine=null\n[b]\nsize=4k\nname=b\n", status=1)
        expect("\n; was: name=b -- dropped (a job's name is its heading)\n" in made, "it is", made)
        ended = run(place, "[a]\nsize=4k\nioengine=null\n[b]\nsize=4k\n", "--adapt")
        expect(ended[0] == 1 and ended[2] == "fiorun: job file: several engine kinds\n", "it is", ended)

    def test_runs(self):
        """What was adapted runs, and checks what it says."""
        place = self.place
        text = "[global]\nbs=4k\nruntime=5\nioengine=sg\nverify=crc32c\nverify_dump=1\n[w]\nrw=randwrite\nnumber_ios=16\n"
        made = adapted(place, text)
        ended = run(place, made)
        expect(ended[0] == 0 and b" checks=16 good=16 bad=0 " in ended[1], "the run is", ended)

    def test_fios_own_job_files(self):
        """What fio's own job files come out as."""
        place = self.place
        folder = os.environ.get("FIO")
        if folder is None and "FETCH" not in os.environ:
            raise Skipped("fio's own job files (FIO=FOLDER, FETCH=1)")
        folder = folder or fetched(self.fresh())
        said = f"of fio's own job files {of_fio(place, folder)}"
        if "BESIDE_FIO" in os.environ:
            said += "; " + beside_fio(place, folder)
        self.says(said)
