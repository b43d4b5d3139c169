"""Runs with names that a terminal or a browser would obey: of jobs, files, folders, sections and outputs, and words of the command line.
What goes to standard error, and the page, has none of these characters and shows them escaped; the report, the plan and the trace have
their bytes. As root it is tried of a mount point too."""

import os
import re
import subprocess

from support.case import Case
from support.disks import loop_device
from support.program import LAUNCH, Skipped, SystemCalls, built_library, expect, needs_root

SECONDS = 60
# What a name has, and how it is shown: all that a job text lets stand in a name, and a line feed, which only a word can have.
SHOWN = {
    "\x1b": r"\u{1b}",
    "\a": r"\u{7}",
    "\r": r"\r",
    "\t": r"\t",
    "\x7f": r"\u{7f}",
    "\x85": r"\u{85}",
    "\x9b": r"\u{9b}",
    "\xad": r"\u{ad}",
    "\u061c": r"\u{61c}",
    "\u180e": r"\u{180e}",
    "\u200b": r"\u{200b}",
    "\u200f": r"\u{200f}",
    "\u2028": r"\u{2028}",
    "\u202e": r"\u{202e}",
    "\u2060": r"\u{2060}",
    "\u2069": r"\u{2069}",
    "\ufeff": r"\u{feff}",
    "\ufffb": r"\u{fffb}",
    "\U000e0041": r"\u{e0041}",
    "\\": r"\\",
    "ü": "ü",
    "\U0001f600": "\U0001f600",
}
NAME = "a" + "x".join(SHOWN) + "z"
NAME_SHOWN = "a" + "x".join(SHOWN.values()) + "z"
WORD = NAME + "\n\n\x1b[31mz"
WORD_SHOWN = NAME_SHOWN + r"\n\n\u{1b}[31mz"
# What no line may have but its own end.
HIDDEN = re.compile("[\0-\x09\x0b-\x1f\x7f-\x9f\xad\u061c\u180e\u200b-\u200f\u2028-\u202e\u2060-\u206f\ufeff\ufff9-\ufffb\U000e0000-\U000e007f]")


def run(place, job, *words, environment=None):
    """Runs a job text: the status, and the texts of the two streams."""
    how = {"input": job.encode(), "cwd": place.path, "capture_output": True, "timeout": SECONDS, "env": environment, "check": False}
    ended = subprocess.run([place.program, *words], **how)
    return ended.returncode, ended.stdout.decode(), ended.stderr.decode()


def job_of(*lines, name="w", more=()):
    return "\n".join([f"[{name}]", *lines, "rw=write", "bs=4k", "size=8k", *more]) + "\n"


def said(ended, status, *lines):
    """Standard error is these lines, and no character of it does anything."""
    expect(ended[0] == status, "status", ended[0], ended[1], ended[2])
    expect(not HIDDEN.search(ended[2]), "standard error has", ended[2])
    expect(ended[2] == "".join(it + "\n" for it in lines), "it says", ended[2], "and not", "\n".join(lines))


class Names(Case):
    """How names are shown that a terminal or a browser would obey."""

    def test_in_notes_of_lines(self):
        """A key and a job's name, of which a note has the first 26 characters."""
        place = self.place
        key = "k" + "".join(SHOWN)[:20].replace("\\", "")
        shown = "".join(SHOWN.get(it, it) for it in key)
        ended = run(place, job_of(f"{key}=1", name=NAME), "--notes")
        instead = "instead: one of those in docs/USING.md (yours to decide: what it means)"
        note = f"fiorun: note: line 2: {shown}: not an option of fio; {instead}"
        said(ended, 2, "fiorun: job file: line 2: option out of scope", note)
        shown = "".join(SHOWN.get(it, it) for it in NAME[:26])
        note = f"fiorun: note: line 1: [{shown}]: no size; instead: a line size=.., here or in [global] above"
        said(run(place, f"[{NAME}]\nrw=write\n", "--notes"), 2, "fiorun: job at line 1: no size", note)

    def test_in_notes_of_files(self):
        """A file that can't be made, two names of one file, and one that can't be direct."""
        place = self.place
        missing = "No such file or directory (os error 2)"
        ended = run(place, job_of(f"filename={NAME}/f"), "--notes")
        said(ended, 3, "fiorun: cannot open the files", f"fiorun: note: cannot make {NAME_SHOWN}/f: {missing}")
        jobs = job_of(f"filename={NAME}") + job_of(f"filename=./{NAME}", name="v")
        ended = run(place, jobs, "--notes")
        said(ended, 3, "fiorun: cannot open the files", f"fiorun: note: {NAME_SHOWN} and ./{NAME_SHOWN} are one file")
        ended = run(place, job_of(f"filename={NAME}", more=["direct=1"]), "--notes")
        why = "direct=1 needs bin/fiorun, with perl, and a system that lets it"
        said(ended, 0, f"fiorun: note: {NAME_SHOWN} goes through the system's cache: {why}")

    def test_in_notes_of_outputs(self):
        """A trace and a JSON that can't be made."""
        place = self.place
        missing = "No such file or directory (os error 2)"
        for word in ("--trace", "--json"):
            ended = run(place, job_of("ioengine=null"), "--notes", f"{word}={WORD}/f")
            lines = ended[2].split("\n")
            expect(not HIDDEN.search(ended[2]), "standard error has", ended[2])
            expect(any(WORD_SHOWN + "/f" in it and missing in it for it in lines), "it says", ended[2])
            expect(all(it.startswith("fiorun: ") for it in lines[:-1]), "it says", ended[2])

    def test_in_notes_of_faults(self):
        """A write that fails."""
        place = self.place
        calls = SystemCalls(built_library("faulty.c"), place.at("calls"))
        ended = run(place, job_of(f"filename={NAME}"), "--notes", "--workers=1", environment=calls.environment("pwrite 1 5"))
        at = f"clone=0 pass=0 number=0 file={NAME_SHOWN} offset=0 length=4096"
        said(ended, 1, f"fiorun: note: write failed: {at}: Input/output error (os error 5)")

    def test_in_words(self):
        """What clap says of words that it refuses: on one line where a word has a line feed, and as it is where none has."""
        place = self.place
        for front, wants in (("--", "[OPTIONS] [JOBFILE]"), ("job.fio --", "<JOBFILE>"), ("--workers=", None)):
            usage = ["", f"Usage: {os.path.basename(place.program)} {wants}"] * (wants is not None)
            usage += ["", "For more information, try '--help'."]
            for word, shown in ((NAME, NAME_SHOWN), (WORD, WORD_SHOWN), ("plain", "plain")):
                ended = run(place, "", *(front + word).split(" ", front.count(" ")))
                expect(ended[0] == 2 and not ended[1], "status", ended)
                expect(not HIDDEN.search(ended[2]), "standard error has", ended[2])
                expect(f"'{front.split(' ')[-1] if front != '--workers=' else ''}{shown}'" in ended[2], "it says", ended[2])
                lines = ended[2].split("\n")
                wanted = usage if "\n" not in word else []
                expect(lines[-1 - len(wanted):-1] == wanted and (wanted or len(lines) == 2), "its lines are", lines)

    def test_in_a_map(self):
        """The heading of a map; the report has the bytes of the names."""
        place = self.place
        ended = run(place, job_of("ioengine=null", f"filename={NAME}", "verify=md5", name=NAME), "--map")
        letters = "fiorun: B bad, F fault, v void, u unchecked, s skipped, g good, r read, . untouched"
        said(ended, 1, f"fiorun: map of {NAME_SHOWN}, 512 bytes a sign:", "B" * 16, letters)
        expect(ended[1].startswith(f"{NAME}: clone=0 ") and f" file={NAME} offset=0 " in ended[1], "the report is", ended[1])

    def test_in_a_page(self):
        """Names of jobs and files, in the headings and the tables."""
        place = self.place
        status, _, err = run(place, job_of("ioengine=null", f"filename={NAME}", "verify=md5", name=NAME), "--page=page")
        expect(status == 1 and not err, "status", status, err)
        with open(place.at("page"), encoding="utf-8") as it:
            page = it.read()
        expect(not HIDDEN.search(page), "the page has", HIDDEN.findall(page))
        # (the text of the job has both once more)
        expect(page.count(NAME_SHOWN) == 8, "it has the names", page.count(NAME_SHOWN), "times")

    def test_as_they_stand(self):
        """The plan and the trace, which is checked by a name of such characters."""
        place = self.place
        job = job_of("ioengine=memory", "verify=md5", name=NAME)
        status, out, err = run(place, job, "--parse-only", f"--section={NAME}")
        expect(status == 0 and not err and NAME in out, "the plan is", out, err)
        status, _, err = run(place, job, f"--trace={WORD}")
        expect(status == 0 and not err and WORD in os.listdir(place.path), "status", status, err)
        status, out, err = run(place, job, f"--check-trace={WORD}")
        expect(status == 0 and not err and out.startswith(NAME), "the trace's check says", out, err)

    def test_of_a_mount(self):
        """Where a device is mounted, in the note that it is in use."""
        place = self.place
        needs_root("mkfs.ext4", "mount", "umount")
        point = place.at("mount\n \t\\\x1b\u202e#")
        os.mkdir(point)
        with loop_device(place.at("image")) as device:
            for command in (["mkfs.ext4", "-q", "-F", device], ["mount", device, point]):
                if subprocess.run(command, capture_output=True, check=False).returncode:
                    raise Skipped("no file system can be mounted")
            try:
                ended = run(place, job_of(f"filename={device}"), "--notes")
            finally:
                subprocess.run(["umount", point], check=True)
        shown = place.at(r"mount\n \t\\\u{1b}\u{202e}#")
        said(ended, 3, "fiorun: cannot open the files", f"fiorun: note: {device} is in use: mounted at {shown}")

    def test_of_the_program(self):
        """A program that can't be started."""
        place = self.place
        path = place.at("no\n\x1b\u202e")
        ended = subprocess.run([LAUNCH, path], capture_output=True, timeout=SECONDS, check=False)
        shown = place.at(r"no\n\u{1b}\u{202e}")
        said((ended.returncode, "", ended.stderr.decode()), 3, f"fiorun: cannot start {shown}: No such file or directory")
