"""Files, folders, links, pipes and devices in the place of a job's files."""

import os
import re
import stat
import time

from support.case import Case
from support.place import FOUR, FOUR_HELD, FOUR_SAID, IN_MEMORY, PATTERN, TRACE, TRACED, TRACE_SAID, refuses, says
from support.program import UNDROPPED, Ended, Skipped, as_nobody, expect, total


class Files(Case):
    """Files, folders, links, pipes and devices in the place of a job's files."""

    # (some runs are nobody\'s)
    mode = 0o777

    def test_files_read_only(self):
        """Files that may not be read or written are refused where a job does it, and stay as they are."""
        place = self.place
        place.put("data", b"old" * 10_000)
        place.put("job", FOUR)
        place.put("t", TRACE)
        before = place.held()
        os.chmod(place.at("data"), 0o444)
        reads = FOUR.replace("rw=write", "rw=read").replace(PATTERN, "")
        refuses(place.run(text=FOUR, **as_nobody()), 3, "cannot open the files")
        ended = place.run(text=reads, **as_nobody())
        expect((ended.status, b"reads=4 rbytes=16384" in ended.out) == (0, True), "a job that only reads:", ended)
        refuses(place.run(text=reads.replace("size=16k", "size=32k"), **as_nobody()), 3, "cannot open the files")
        os.chmod(place.at("data"), 0)
        refuses(place.run(text=reads, **as_nobody()), 3, "cannot open the files")
        os.chmod(place.at("job"), 0)
        refuses(place.run("job", **as_nobody()), 3, "cannot read the job file")
        os.chmod(place.at("t"), 0)
        refuses(place.run("--check-trace=t", text=TRACED, **as_nobody()), 3, "cannot read the trace")
        refuses(place.run("--trace=t", text=TRACED, **as_nobody()), 3, "cannot write")
        os.chmod(place.path, 0o555)
        refuses(place.run(text=FOUR.replace("=data", "=new"), **as_nobody()), 3, "cannot open the files")
        refuses(place.run("--trace=new", text=TRACED, **as_nobody()), 3, "cannot write")
        os.chmod(place.path, 0o777)
        for name in before:
            os.chmod(place.at(name), 0o644)
        expect(place.held() == before, "files were made or changed:", list(place.held()))

    def test_folders_for_files(self):
        """A folder in the place of a file is refused."""
        place = self.place
        os.mkdir(place.at("data"))
        refuses(place.run(text=FOUR), 3, "cannot open the files")
        refuses(place.run("data"), 3, "cannot read the job file")
        refuses(place.run("--check-trace=data", text=TRACED), 3, "cannot read the trace")
        refuses(place.run("--trace=data", text=TRACED), 3, "cannot write")
        folder = os.open(place.path, os.O_RDONLY)
        ended = place.run(stdin=folder)
        os.close(folder)
        refuses(ended, 3, "cannot read the job file")
        expect(os.listdir(place.path) == ["data"], "files were made")

    def test_folders_missing(self):
        """Folders and files that aren't there are refused, and not made; so is a folder that was removed."""
        place = self.place
        refuses(place.run(text=FOUR + "directory=no/such\n"), 3, "cannot open the files")
        refuses(place.run("no/job"), 3, "cannot read the job file")
        refuses(place.run("--check-trace=no", text=TRACED), 3, "cannot read the trace")
        refuses(place.run("--trace=no/t", text=TRACED), 3, "cannot write")
        place.put("file", b"old")
        refuses(place.run(text=FOUR + "directory=file\n"), 3, "cannot open the files")
        expect(place.held() == {"file": b"old"} and os.listdir(place.path) == ["file"], "files were made or changed")
        os.mkdir(place.at("gone"))
        refuses(place.run(text=FOUR, shell="cd gone && rmdir ../gone"), 3, "cannot open the files")
        os.mkdir(place.at("gone"))
        says(place.run(text=IN_MEMORY, shell="cd gone && rmdir ../gone"), 0, FOUR_SAID)

    def test_files_short(self):
        """A file that is too short is extended by zeros, and keeps what is outside the job."""
        place = self.place
        place.put("data", b"\7" * 100)
        says(place.run(text="[w]\nfilename=data\nrw=read\nsize=16k\n"), 0, total(reads=4, rbytes=16384))
        expect(place.get("data") == b"\7" * 100 + bytes(16384 - 100), "the file isn't extended by zeros")
        place.put("data", b"\7" * 30_000)
        says(place.run(text=FOUR + "offset=8k\n"), 0, FOUR_SAID)
        expect(place.get("data") == b"\7" * 8192 + FOUR_HELD + b"\7" * (30_000 - 24576), "the job wrote elsewhere")
        place.put("data", b"\7" * 10_000)
        says(place.run(text=FOUR + "offset=8k\n"), 0, FOUR_SAID)
        expect(place.get("data") == b"\7" * 8192 + FOUR_HELD, "the job wrote elsewhere, or its file is too long")
        says(place.run(text=FOUR.replace("=data", "=far") + "offset=1048576m\n"), 0, FOUR_SAID)
        expect(os.stat(place.at("far")).st_size == (1 << 40) + 16384, "a far region has another end")
        os.remove(place.at("far"))

    def test_traces_have_notes(self):
        """Why a trace can't be made, or isn't written, is said with --notes."""
        place = self.place
        missing = "fiorun: cannot write\nfiorun: note: cannot make no/t: No such file or directory (os error 2)\n"
        unchecked = re.sub(r"verify.*\n", "", FOUR.replace("filename=data", "ioengine=null"))
        for job in (IN_MEMORY, FOUR, unchecked):
            for workers in ("1", "2"):
                ended = place.run("--trace=no/t", "--notes", f"--workers={workers}", text=job)
                expect(ended == Ended(3, b"", missing.encode()), "a folder that isn't there:", ended)
        ended = place.run("--trace=data", "--notes", text=FOUR)
        over = "fiorun: cannot write\nfiorun: note: the path of --trace is that of a file of a job\n"
        expect(ended == Ended(3, b"", over.encode()), "over a file of the job:", ended)

    def test_faults_beyond_a_hundred(self):
        """The first hundred faults have notes, in the order of their ends, and of the others it is said how many they are."""
        place = self.place
        job = "[w]\nfilename=/dev/null\nrw=read\nsize=64k\niodepth=16\nnumjobs=64\n"
        for workers in ("1", "16"):
            ended = place.run("--notes", f"--workers={workers}", text=job)
            faults = sum(int(it) for it in re.findall(rb" faults=(\d+)\n", ended.out))
            lines = ended.err.decode().splitlines()
            expect(ended.status == 1 and faults >= 64, "too few faults:", ended)
            if faults > 100:
                expect(lines.pop() == f"fiorun: note: and {faults - 100} faults more", "no word of the others:", ended)
            at = r"clone=\d+ pass=0 number=\d+ file=/dev/null offset=\d+ length=4096"
            line = re.compile("fiorun: note: read ended after 0 bytes: " + at)
            expect(all(line.fullmatch(it) for it in lines), "another note:", lines[:2])
            expect(len(lines) == len(set(lines)) == min(faults, 100), "other notes than faults:", len(lines), faults)

    def test_devices(self):
        """Devices that lose writes, answer nothing, zeros or a refusal: each is seen for what it is."""
        place = self.place
        for name in ("null", "zero", "full"):
            if not os.path.exists(f"/dev/{name}") or not stat.S_ISCHR(os.stat(f"/dev/{name}").st_mode):
                raise Skipped(f"no /dev/{name}")
        job = FOUR.replace("=data", "=/dev/null")
        says(place.run(text=job), 1, total(writes=4, wbytes=16384, faults=1))
        says(place.run(text=job.replace("rw=write", "rw=read").replace(PATTERN, "")), 1, total(faults=1))
        job = FOUR.replace("=data", "=/dev/zero")
        line = "miscompare: clone=0 pass=0 number={} file=/dev/zero offset={} length=4096 what=byte:0\n"
        bad = "".join(line.format(it, it * 4096) for it in range(4))
        says(place.run(text=job), 1, total(writes=4, wbytes=16384, checks=4, bad=4) + bad)
        says(place.run(text=job.replace("0xab", "0x00")), 0, FOUR_SAID)
        said = (total(writes=4, wbytes=16384, checks=4, bad=4) + bad).replace("byte:0", "header")
        says(place.run(text=job.replace(PATTERN, "verify=md5\n")), 1, said)
        says(place.run(text=job + "verify_fatal=1\n"), 1, total(writes=4, wbytes=16384, checks=1, bad=1) + bad.split("\n")[0] + "\n")
        says(place.run(text=FOUR.replace("=data", "=/dev/full")), 1, total(faults=1))

    def test_links(self):
        """Symbolic links are followed, also to a file that isn't there yet; in a circle or to a folder they are refused."""
        place = self.place
        place.put("target", b"\7" * 20_000)
        os.symlink("target", place.at("data"))
        says(place.run(text=FOUR), 0, FOUR_SAID)
        expect(place.get("target") == FOUR_HELD + b"\7" * (20_000 - 16384), "a link's target isn't what was written")
        expect(os.path.islink(place.at("data")), "the link was replaced")
        os.remove(place.at("target"))
        says(place.run("--trace=data", text=IN_MEMORY, **{}), 0, FOUR_SAID)
        expect(os.path.islink(place.at("data")) and place.get("target").startswith(b"I "), "a trace isn't where the link leads")
        os.remove(place.at("target"))
        says(place.run(text=FOUR), 0, FOUR_SAID)
        expect(place.get("target") == FOUR_HELD, "a link to nothing didn't make its target")
        os.symlink("circle", place.at("circle"))
        refuses(place.run(text=FOUR.replace("=data", "=circle")), 3, "cannot open the files")
        refuses(place.run("circle"), 3, "cannot read the job file")
        refuses(place.run("--trace=circle", text=IN_MEMORY), 3, "cannot write")
        os.symlink(".", place.at("folder"))
        refuses(place.run(text=FOUR.replace("=data", "=folder")), 3, "cannot open the files")
        # Two names of one file.
        job = f"[global]\nrw=write\nsize=16k\nstonewall\n{PATTERN}[a]\nfilename=data\n[b]\nfilename=target\n"
        refuses(place.run(text=job), 3, "cannot open the files")
        expect(place.get("target") == FOUR_HELD, "a file of two names was written")

    def test_pipes_for_files(self):
        """A pipe is no place for blocks, and isn't waited for; as a job file or a trace it does."""
        place = self.place
        os.mkfifo(place.at("pipe"))
        refuses(place.run(text=FOUR.replace("=data", "=pipe")), 3, "cannot open the files")
        says(place.run("pipe", shell=f"printf '%s' '{IN_MEMORY}' > pipe &"), 0, FOUR_SAID)
        says(place.run("--check-trace=pipe", text=TRACED, shell=f"printf '%s' '{TRACE}' > pipe &"), 0, TRACE_SAID)
        says(place.run("--trace=pipe", "--workers=1", text=TRACED, shell="cat pipe > got &"), 0, TRACE_SAID)
        for _ in range(100):
            if place.get("got").decode() == TRACE:
                break
            time.sleep(0.05)
        expect(place.get("got").decode() == TRACE, "the trace that went through a pipe:", place.get("got"))

    def test_disk_full(self):
        """On a disk that is full its blocks fail, and are counted; what was there before stays."""
        place = self.place
        os.mkdir(place.at("disk"))
        mounted = "unshare --mount true || exit 9\n"
        if os.getuid() != 0 or place.run("--help", shell=mounted).status != 0:
            raise Skipped("no file system can be mounted")
        job = "[w]\nfilename=data\nrw=write\nsize=128k\nverify=md5\n"

        def on_disk(*words, before="", text="", after=""):
            """Runs the program in a small file system of its own, which goes with it."""
            mounts = "cd disk && mount -t tmpfs -o size=64k none . && cd ../disk || exit 9"
            script = f'{mounts}\n{before}\n"$@"\nstatus=$?\n{after}\nexit $status'
            ended = place.run("--mount", "bash", "-c", script, "bash", place.program, *words, text=text, program="unshare")
            if ended.status == 9:
                raise Skipped("no file system can be mounted")
            return ended

        # (16 pages of 4 KiB: one for the byte that extends the file, and 15 blocks of the job.)
        says(on_disk(text=job), 1, total(writes=15, wbytes=15 * 4096, faults=1))
        ended = on_disk("--notes", "--workers=1", text=job)
        at = "clone=0 pass=0 number=15 file=data offset=61440 length=4096"
        note = f"fiorun: note: write failed: {at}: No space left on device (os error 28)\n"
        expect((ended.status, ended.err.decode()) == (1, note + UNDROPPED), "the note of a full disk:", ended)
        says(on_disk(text=job.replace("128k", "64k")), 0, total(writes=16, wbytes=65536, checks=16, good=16))
        fill = "head -c 65536 /dev/zero > old"
        stays = '[ "$(stat -c %s old)" = 65536 ] && cmp -s -n 65536 old /dev/zero || echo changed >&2'
        refuses(on_disk(text=job, before=fill, after=stays), 3, "cannot open the files")
        said = total(writes=2, wbytes=8192, checks=2, good=2)
        refuses(on_disk("--trace=t", text=TRACED, before=fill, after=stays), 3, "cannot write", said.encode())
