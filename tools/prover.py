"""Checks of a crate by the prover, for tools/edits.py, over libraries that rt or a build has left."""

import functools
import os
import shutil
import signal
import subprocess
import threading

TOP = os.path.dirname(os.path.dirname(os.path.realpath(__file__)))
PARTS = ("src", "specs", "proofs")
BUILT = os.path.join(TOP, "crates", "fiorun", "out", "built")


class Lacking(Exception):
    """The libraries of a crate aren't there, or aren't of these sources."""


class Ended(Exception):
    """No check is begun any more."""


@functools.lru_cache(maxsize=None)
def crates():
    """The crates of crates.txt, each with what it names of libraries."""
    with open(os.path.join(TOP, "crates.txt"), encoding="utf-8") as it:
        lines = [line.rstrip("\n").partition(":") for line in it if ":" in line and not line.startswith("#")]
    return {name: named.removeprefix(" ") for name, _, named in lines}


@functools.lru_cache(maxsize=None)
def kit():
    """The kit's folder."""
    found = shutil.which("rt")
    if not found:
        raise Lacking("the kit's rt is not on the path")
    return os.path.dirname(os.path.dirname(os.path.realpath(found)))


def own(name):
    """The crates of the repository that a crate names."""
    return [it for it in crates()[name].split() if it in crates()]


@functools.lru_cache(maxsize=None)
def below(name):
    """The crates of the repository that a crate stands on."""
    return sorted({it for dep in own(name) for it in (dep, *below(dep))})


def changed_at(name):
    """When a file of a crate's sources was changed last."""
    parts = [os.path.join(TOP, "crates", name, it) for it in PARTS]
    return max(os.stat(os.path.join(at, it)).st_mtime for part in parts for at, _, files in os.walk(part) for it in files)


def by_gate(name):
    """Where rt ci and rt check leave the library of a crate."""
    return os.path.join(TOP, "crates", name, "out", "rlib", f"{name}.rlib")


def by_build(name):
    """Where a build of bin/fiorun leaves the library of a crate."""
    return os.path.join(BUILT, f"{name}.rlib")


def is_of_checks(name):
    """Was the crate's library made by rt check (which puts a stamp beside it)? It doesn't go together with those of rt ci."""
    return os.path.exists(os.path.join(os.path.dirname(by_gate(name)), "stamp"))


def wrong_by_gate(names):
    """Why the libraries that rt left of these crates can't be used, if so."""
    for name in names:
        path = by_gate(name)
        if not os.path.isdir(path):
            return f"there is no {os.path.relpath(path, TOP)}"
        at = os.stat(path).st_mtime
        if at < changed_at(name) or any(os.path.isdir(by_gate(it)) and at < os.stat(by_gate(it)).st_mtime for it in own(name)):
            return f"{os.path.relpath(path, TOP)} is older than what it is made of"
    return "rt check made some, and rt ci the others" if len({is_of_checks(it) for it in names}) > 1 else None


def wrong_by_build(names):
    """Why the libraries that a build left of these crates can't be used, if so. A stamp has what base_of in launcher/build.sh gives."""
    with open(os.path.join(kit(), "WHAT"), encoding="utf-8") as it:
        what = it.read().replace("\n", " ")
    for name in names:
        stamp = os.path.join(BUILT, f"{name}.made")
        if not os.path.isfile(stamp) or not os.path.isdir(by_build(name)):
            return f"{name} isn't built"
        with open(stamp, encoding="utf-8") as it:
            if it.read() != f"{what} {crates()[name]}":
                return f"{name} is built of other libraries, or by another kit"
        if os.stat(stamp).st_mtime < changed_at(name):
            return f"{name} was changed since it was built"
    return None


def libraries(name):
    """Where the libraries are that a crate stands on: those of rt if they are whole, else those of a build."""
    gate = wrong_by_gate(below(name))
    if not gate:
        return by_gate
    build = wrong_by_build(below(name))
    if not build:
        return by_build
    why = f"Of rt ci or rt check: {gate}. Of a build: {build}"
    raise Lacking(f"{name} has no libraries to be checked over. {why}. Run rt check in crates/{name}, or .ci/run")


def words_of(name, place):
    """The words that have the prover check a crate, from a folder that has its src: those of rattle_of in launcher/build.sh."""
    rlibs = os.path.join(kit(), "rlibs")
    words = [os.path.join(kit(), "bin", "rattle"), "check", "--crate-name", name, "--links", f"{name}="]
    words += ["--antt-project", os.path.join(kit(), "rattle", "logic", "antt-project.json")]
    words += ["--logic-built", os.path.join(kit(), "logic_built")]
    for folder in dict.fromkeys([rlibs, *(os.path.dirname(place(it)) for it in below(name))]):
        words += ["-L", f"dependency={folder}"]
    for dep in ("std", *crates()[name].split()):
        words += ["--extern", f"{dep}={place(dep) if dep in crates() else os.path.join(rlibs, f'{dep}.rlib')}"]
    return words


class Prover:
    """Checks that run side by side, all of which can be ended."""

    def __init__(self):
        self.lock, self.running, self.has_ended = threading.Lock(), set(), False

    def check(self, name, folder, kept=None):
        """Checks the crate that lies in this folder with one process, over what kept holds: its status, what it said, and the processor
        seconds that it took."""
        words = words_of(name, libraries(name))
        root = "src/main.rt" if os.path.exists(os.path.join(folder, "src", "main.rt")) else "src/lib.rt"
        words += [root, "--jobs", "1", *(["--incremental", kept] if kept else [])]
        how = {"stdin": subprocess.DEVNULL, "stdout": subprocess.PIPE, "stderr": subprocess.STDOUT, "text": True, "errors": "replace"}
        with self.lock:
            if self.has_ended:
                raise Ended
            started = subprocess.Popen(words, cwd=folder, start_new_session=True, **how)
            self.running.add(started)
        said = started.stdout.read()
        _, status, used = os.wait4(started.pid, 0)
        started.returncode = os.waitstatus_to_exitcode(status)
        with self.lock:
            self.running.remove(started)
            if self.has_ended:
                raise Ended
        return started.returncode, said, used.ru_utime + used.ru_stime

    def end(self):
        """Ends what runs, and begins nothing more."""
        with self.lock:
            self.has_ended = True
            for it in self.running:
                os.killpg(it.pid, signal.SIGKILL)
