"""How bin/fiorun builds the program: what is proved when, what is proved again, and what a failure, an interrupt and a second start do.
Scripts take the place of the kit's prover and linker, so all of it takes some seconds."""

import functools
import os
import shutil
import signal
import subprocess
import tempfile
import time
import unittest

from support.program import TOP, expect, own_folder

# It says when it begins and ends, and makes what it has to: a library's folder, or the program's object file.
PROVER = """#!/usr/bin/env bash
while [ $# -gt 0 ]; do
  case $1 in --crate-name) name=$2 ;; --jobs) jobs=$2 ;; -o) to=$2 ;; esac
  shift
done
echo "begin $name $jobs" >>"$LOG"
sleep "$TAKES"
[ "$name" != "$FAILS" ] || { echo "a hole in $name"; exit 1; }
case $to in *.o) : >"$to" ;; *) mkdir -p "$to" ;; esac
echo "end $name" >>"$LOG"
"""
LINKER = """#!/usr/bin/env bash
while [ "$1" != -o ]; do shift; done
printf '#!/bin/sh\\necho ran "$@"\\n' >"$2"
chmod +x "$2"
"""


def crates_below():
    """For each crate that the program needs, the crates of the repository that it names."""
    with open(os.path.join(TOP, "crates.txt"), encoding="utf-8") as file:
        lines = [it.split("#")[0].partition(":") for it in file]
    named = {left.strip(): right.split() for left, _, right in lines if left.strip()}
    below, left = {}, ["fiorun"]
    while left:
        name = left.pop()
        below[name] = [it for it in named[name] if it in named]
        left += [it for it in below[name] if it not in below]
    return below


BELOW = crates_below()
# A processor to run on alone.
ONE = set(sorted(os.sched_getaffinity(0))[:1])


def above(name):
    """The crate and all that stand on it."""
    found = {name}
    for _ in BELOW:
        found |= {it for it, deps in BELOW.items() if found.intersection(deps)}
    return found


def lines_of(name):
    """How many lines of source the crate has."""
    total = 0
    for at, _, files in os.walk(os.path.join(TOP, "crates", name, "src")):
        for it in files:
            with open(os.path.join(at, it), "rb") as file:
                total += file.read().count(b"\n")
    return total


@functools.cache
def way_up(name):
    """How many lines of source there are on the longest way from the crate up to the program."""
    return lines_of(name) + max((way_up(it) for it, deps in BELOW.items() if name in deps), default=0)


class Clone:
    """A clone that isn't built, with a kit of its own."""

    def __init__(self, room):
        self.room, self.top, self.log = room, os.path.join(room, "clone"), os.path.join(room, "log")
        for part in ("bin", "launcher", *(os.path.join("crates", it, "src") for it in BELOW)):
            shutil.copytree(os.path.join(TOP, part), os.path.join(self.top, part))
        for name in BELOW:
            for part in ("specs", "proofs"):
                os.makedirs(os.path.join(self.top, "crates", name, part))
        shutil.copy(os.path.join(TOP, "crates.txt"), self.top)
        self.kit = os.path.join(room, "kit")
        os.makedirs(os.path.join(self.kit, "bin"))
        for name, text in (("rt", ""), ("rattle", PROVER), ("rattle-link", LINKER)):
            with open(os.path.join(self.kit, "bin", name), "w", encoding="utf-8") as file:
                file.write(text)
            os.chmod(file.name, 0o755)
        self.name_kit("a kit")

    def name_kit(self, name):
        with open(os.path.join(self.kit, "WHAT"), "w", encoding="utf-8") as file:
            file.write(name)

    def start(self, takes=0.02, fails="", processors=None, path=None):
        """Starts it over a job, in a process group of its own."""
        path = path or os.path.join(self.kit, "bin") + ":" + os.environ["PATH"]
        env = {**os.environ, "PATH": path, "LOG": self.log, "TAKES": str(takes), "FAILS": fails}
        limit = (lambda: os.sched_setaffinity(0, processors)) if processors else None
        words = [os.path.join(self.top, "bin", "fiorun"), "--parse-only", "a.fio"]
        pipes = {"stdin": subprocess.DEVNULL, "stdout": subprocess.PIPE, "stderr": subprocess.PIPE, "text": True}
        return subprocess.Popen(words, env=env, start_new_session=True, preexec_fn=limit, **pipes)

    def run(self, **how):
        """Runs it to its end: its status, what it printed and said, and what the provers noted."""
        ran = self.start(**how)
        out, said = ran.communicate(timeout=120)
        return ran.returncode, out, said, self.take_notes()

    def wait_for(self, kind):
        """Waits until the provers have noted this."""
        for _ in range(600):
            time.sleep(0.1)
            if os.path.exists(self.log):
                with open(self.log, encoding="utf-8") as file:
                    if any(it.startswith(kind) for it in file):
                        return
        raise AssertionError(f"no prover noted {kind}")

    def take_notes(self):
        try:
            with open(self.log, encoding="utf-8") as file:
                notes = [it.split() for it in file]
            os.remove(self.log)
        except FileNotFoundError:
            notes = []
        return notes

    def builds(self, wanted, **how):
        """It proves just these crates, each once and after those below it that it proves too, and runs the program."""
        status, out, said, notes = self.run(**how)
        expect(status == 0 and out == "ran --parse-only a.fio\n", f"status {status}, printed {out}, said {said}")
        begun = [it[1] for it in notes if it[0] == "begin"]
        expect(sorted(begun) == sorted(wanted), "proved", *begun, "and not", *sorted(wanted))
        expect(said.count(": proving ") == len(begun), "it told another number of crates:", said)
        made = set(BELOW).difference(wanted)
        for kind, name, *_ in notes:
            if kind == "end":
                made.add(name)
            else:
                expect(made.issuperset(BELOW[name]), name, "was begun before the end of", *set(BELOW[name]) - made)
        return notes


def places():
    """How many crates may be proved at once: one for each processor, with 3 GB of memory for each."""
    with open("/proc/meminfo", encoding="utf-8") as file:
        free = next(int(it.split()[1]) for it in file if it.startswith("MemAvailable:"))
    return max(1, min(len(os.sched_getaffinity(0)), free // 3000000))


class Build(unittest.TestCase):
    """How bin/fiorun builds the program."""

    def setUp(self):
        room = tempfile.TemporaryDirectory(dir=own_folder())
        self.addCleanup(room.cleanup)
        self.clone = Clone(os.path.realpath(room.name))

    def test_is_first_by_way(self):
        """With one processor, what has the most source above it is always taken first, by one process."""
        clone = self.clone
        notes = clone.builds(BELOW, processors=ONE)
        ways, made = {it: way_up(it) for it in BELOW}, set()
        for kind, name, *jobs in notes:
            if kind == "end":
                made.add(name)
                continue
            expect(jobs == ["1"], name, "was given", *jobs)
            could = [it for it in BELOW if it not in made and made.issuperset(BELOW[it])]
            expect(ways[name] == max(ways[it] for it in could), name, "was begun, and not", max(could, key=ways.get))

    def test_is_side_by_side(self):
        """As many are proved at once as there may be (up to four can be), and never more. Each is begun with its share of the processes at
    most; the program, alone in the end, has all."""
        clone = self.clone
        before, notes, now, most = places(), clone.builds(BELOW, takes=0.5), 0, 0
        given = next(int(it[2]) for it in notes if it[:2] == ["begin", "fiorun"])
        expect(given in (before, places()), "the program was given", given)
        for kind, name, *jobs in notes:
            now += 1 if kind == "begin" else -1
            most = max(most, now)
            expect(jobs in ([], ["1"]) or int(jobs[0]) * now <= given, name, "was given", *jobs, "beside", now - 1)
        expect(min(given, 4) <= most <= given, most, "were proved at once")

    def test_is_made_again(self):
        """A source that is newer, a program that is gone and another kit: just what stands on that is proved again."""
        clone = self.clone
        clone.builds(BELOW)
        status, out, said, notes = clone.run()
        expect((status, out, said, notes) == (0, "ran --parse-only a.fio\n", "", []), "a start after the build:", status, out, said, notes)
        os.utime(os.path.join(clone.top, "crates", "jr_desk", "src", "lib.rt"))
        clone.builds(above("jr_desk"))
        os.remove(os.path.join(clone.top, "crates", "fiorun", "out", "fiorun"))
        clone.builds(["fiorun"])
        os.remove(os.path.join(clone.top, "crates", "fiorun", "out", "fiorun"))
        clone.name_kit("another kit")
        clone.builds(BELOW)

    def test_is_told_where_it_fails(self):
        """What the prover said is told, nothing more is begun, and the next start goes on."""
        clone = self.clone
        status, out, said, notes = clone.run(fails="jr_desk_state", processors=ONE)
        expect(status == 3 and out == "", f"status {status}, printed {out}")
        expect("fiorun: jr_desk_state was not built; the end of " in said and "\na hole in jr_desk_state\n" in said, "it said", said)
        begun, made = ([it[1] for it in notes if it[0] == kind] for kind in ("begin", "end"))
        expect(begun == [*made, "jr_desk_state"], "begun:", *begun, "ended:", *made)
        clone.builds(set(BELOW) - set(made))

    def test_is_interrupted(self):
        """An interrupt ends all that was started, with status 130, and the next start goes on."""
        clone = self.clone
        ran = clone.start(takes=0.3)
        clone.wait_for("end")
        os.killpg(ran.pid, signal.SIGINT)
        out, said = ran.communicate(timeout=20)
        expect(ran.returncode == 130 and out == "", f"status {ran.returncode}, printed {out}, said {said}")
        time.sleep(0.5)
        notes = clone.take_notes()
        time.sleep(0.5)
        expect(not clone.take_notes(), "a prover went on")
        made = {it[1] for it in notes if it[0] == "end"}
        status, out, _, notes = clone.run()
        begun = {it[1] for it in notes if it[0] == "begin"}
        expect(status == 0 and out == "ran --parse-only a.fio\n", f"then status {status}, printed {out}")
        # (what had just ended as the interrupt came may be proved again)
        expect(begun >= set(BELOW) - made and len(made & begun) <= len(os.sched_getaffinity(0)), "proved again:", *made & begun)

    def test_is_waited_for(self):
        """Of two starts one builds, and the other waits for it."""
        clone = self.clone
        both = [clone.start(), clone.start()]
        ended = [(*it.communicate(timeout=120), it.returncode) for it in both]
        expect(all((out, status) == ("ran --parse-only a.fio\n", 0) for out, _, status in ended), *ended)
        waits = "fiorun: waiting for a build that another start has begun\n"
        expect(sorted(said == waits for _, said, _ in ended) == [False, True], "they said", *ended)
        begun = [it[1] for it in clone.take_notes() if it[0] == "begin"]
        expect(sorted(begun) == sorted(BELOW), "proved", *begun)

    def test_is_refused_without_kit(self):
        """Without the kit nothing is begun."""
        clone = self.clone
        tools = os.path.join(clone.room, "tools")
        os.makedirs(tools)
        for name in ("bash", "env", "readlink", "find"):
            os.symlink(shutil.which(name), os.path.join(tools, name))
        status, out, said, notes = clone.run(path=tools)
        expect((status, out, notes) == (3, "", []), status, out, notes)
        expect(said == "fiorun: cannot build: the kit's rt is not on the path\n", "it said", said)
