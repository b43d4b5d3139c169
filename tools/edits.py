#!/usr/bin/env python3
"""tools/edits.py [NAME..] has the prover try the edits of checks/edits/: mistakes beyond those that rt ci tries (crates/NAME/must-fail/),
each of which must be refused too. It ends with 0 if each was. With names it tries those crates alone, in that order.

  --changed    tries only the edits that the list doesn't have of these sources. Those of checks/edits/UNTRIED, which were not tried
               since there is a list, are only looked at, unless their crate is named. Nothing is added there.
  --look       only looks whether each edit can be applied: whether each text that it takes away stands once in its file. Takes no time.
  --jobs N     how many checks run at once (as many as there are processors, if there are 3 GB of memory for each)
  --minutes N  ends after N minutes, and fails if not all were tried by then
  --within N   ends after N minutes, says which were not tried by then, and fails only if one of the others wasn't refused

The list is checks/edits/REFUSED. It says of each edit that was refused of which sources: a checksum of the edit and of its crate's src/ and
specs/, without lines of comments. Proofs aren't in it: an edit is refused since its body doesn't keep its contract, and no proof changes that.
An edit that wasn't refused has a "-". Which edits were refused goes into the list after each eight of them, so an interrupted run loses
little. A crate's contracts also speak of definitions of crates below it. What changes there isn't in the checksum: name the crates to try all
of theirs.

An edit is tried as rt ci tries it: in a copy of the crate, over libraries that rt ci, rt check or a build has left (tools/prover.py). The
edits of a crate are tried in turn, each over what the checks before it have proved. An edit that isn't refused so is tried again from
nothing, and so are all if the crate itself isn't proved over that work. A crate that has more to do than the others is shared out."""

import argparse
import concurrent.futures
import fcntl
import hashlib
import os
import re
import shutil
import signal
import sys
import tempfile
import threading
import time
from typing import NamedTuple

from prover import PARTS, TOP, Ended, Lacking, Prover, libraries

EDITS = os.path.join(TOP, "checks", "edits")
REFUSED = os.path.join(EDITS, "REFUSED")
UNTRIED = os.path.join(EDITS, "UNTRIED")
# What a check from nothing takes, in checks of an edit.
WHOLE = 6
# After so many edits it is looked at whether the crate is still proved over what their checks have left.
GROUP = 8
MEMORY = 3_000_000
# In minutes.
DAY = 1440.0


def crates_with_edits():
    return sorted(it for it in os.listdir(EDITS) if os.path.isdir(os.path.join(EDITS, it)))


def edits_of(name):
    """The names of a crate's edits, as the list has them."""
    return [f"{name}/{it}" for it in sorted(os.listdir(os.path.join(EDITS, name)))]


def crate_of(edit):
    return edit.split("/")[0]


def texts_of(edits):
    """These edits, each with its text."""
    found = {}
    for edit in edits:
        with open(os.path.join(EDITS, edit), encoding="utf-8") as it:
            found[edit] = it.read()
    return found


def folder_of(name):
    return os.path.join(TOP, "crates", name)


# The list.


def add_to(digest, path, text):
    digest.update(f"{path} {len(text)}\n".encode() + text)


def without_comments(text):
    """A file of src/ or specs/ without its lines of comments."""
    return b"\n".join(line for line in text.split(b"\n") if not line.lstrip().startswith((b"//", b"--")))


def checksum_of_crate(name, folder):
    """The checksum of what a crate does and promises, in the sources that lie in this folder."""
    digest = hashlib.sha256()
    for part in ("src", "specs"):
        for at, folders, files in os.walk(os.path.join(folder, part)):
            folders.sort()
            for path in (os.path.join(at, it) for it in sorted(files)):
                with open(path, "rb") as it:
                    add_to(digest, f"crates/{name}/{os.path.relpath(path, folder)}", without_comments(it.read()))
    return digest


def checksums(name, folder, texts):
    """For each of these edits, with their texts, the checksum of itself and of its crate's sources, which lie in this folder."""
    crate, found = checksum_of_crate(name, folder), {}
    for edit, text in texts.items():
        digest = crate.copy()
        add_to(digest, f"checks/edits/{edit}", text.encode())
        found[edit] = digest.hexdigest()[:16]
    return found


def listed():
    """Of which sources each edit was refused, by the list."""
    if not os.path.exists(REFUSED):
        return {}
    with open(REFUSED, encoding="ascii") as it:
        return dict(line.split() for line in it)


def untried():
    """The edits that were not tried since there is a list."""
    if not os.path.exists(UNTRIED):
        return set()
    with open(UNTRIED, encoding="ascii") as it:
        return set(it.read().split())


def replace(path, lines):
    with open(f"{path}.new", "w", encoding="ascii") as it:
        it.writelines(f"{line}\n" for line in sorted(lines))
    os.replace(f"{path}.new", path)


def note(found):
    """Writes into the list what was found of edits: a checksum, or "-" if the edit wasn't refused. What stands there of others stays, if
    there is such an edit."""
    folder = os.open(EDITS, os.O_RDONLY)
    try:
        fcntl.flock(folder, fcntl.LOCK_EX)
        known = {edit: value for edit, value in (listed() | found).items() if os.path.exists(os.path.join(EDITS, edit))}
        replace(REFUSED, [f"{edit} {known[edit]}" for edit in known])
        left = {edit for edit in untried() - set(found) if os.path.exists(os.path.join(EDITS, edit))}
        if left != untried():
            replace(UNTRIED, left)
    finally:
        os.close(folder)


def changed(names):
    """The edits of these crates that the list doesn't have of their sources."""
    known, now = listed(), {}
    for name in names:
        now |= checksums(name, folder_of(name), texts_of(edits_of(name)))
    return [edit for edit, value in now.items() if known.get(edit) != value]


# What an edit makes of a crate's files.


def edited(text, folder):
    """The texts of the files that an edit changes in this folder, by their paths, or why it can't be applied. (rt: edited.)"""
    path, old, texts = "", "", {}
    for line in text.split("\n"):
        if line.startswith("file: "):
            path = line[6:].strip()
            if not path.startswith(tuple(f"{it}/" for it in PARTS)) or not os.path.isfile(os.path.join(folder, path)):
                return None, f"there is no {path}"
            if path not in texts:
                with open(os.path.join(folder, path), encoding="utf-8") as it:
                    texts[path] = it.read()
        elif line.startswith("old: "):
            old = line[5:]
        elif line.startswith("new:"):
            if not path or not old or texts[path].count(old) != 1:
                return None, f"stands {texts[path].count(old) if path and old else 0} times: {old}"
            texts[path], old = texts[path].replace(old, line[4:].removeprefix(" ")), ""
    return (texts, None) if texts else (None, "it changes nothing")


def look(names):
    """Says what can't be applied, and how many that are."""
    edits = texts_of(edit for name in names for edit in edits_of(name))
    wrong = {edit: edited(text, folder_of(crate_of(edit)))[1] for edit, text in edits.items()}
    wrong = {edit: why for edit, why in wrong.items() if why}
    wrong |= {edit: "crates/NAME/must-fail has one of this name" for edit in edits if os.path.exists(by_rt(edit))}
    for edit, why in wrong.items():
        print(f"checks/edits/{edit}: BAD EDIT: {why}")
    print(f"tools/edits.py: {len(edits)} edits, {len(wrong)} can't be applied")
    return len(wrong)


def by_rt(edit):
    """Where an edit of this name would be tried by rt ci."""
    return os.path.join(folder_of(crate_of(edit)), "must-fail", os.path.basename(edit))


# What the prover says of them.


class Tried(NamedTuple):
    """What became of an edit: was it refused, and in words."""

    is_refused: bool
    said: str


def is_unread(line, texts):
    """Does the prover say here that it can't read a file of src/ or specs/, or an edited one? (rt: unread.)"""
    at = re.match(r"(?:\./)?(\S+?):\d+:\d+: error: (?:(`[^`]*`): )?(.*)", line)
    if not at or at[1] not in texts and not at[1].startswith(("src/", "specs/")):
        return False
    said = re.sub(r"`[^`]*`", "", at[3])
    unreadable = r"is not in scope|has no field|is no name|operand is missing|expected the end|cannot continue"
    return not at[2] or re.search(unreadable, said) is not None


def verdict(status, said, texts):
    """What a check of an edited crate says of the edit. (rt: must_fail.)"""
    lines = said.rstrip("\n").split("\n")
    unread = next((it for it in lines if is_unread(it, texts)), "")
    if unread:
        return Tried(False, f"BAD EDIT: the edited text can't be read, so no contract was tried: {unread[:200]}")
    if re.search(r"module .Rattle-(\w+)-.*Run the lower steps again", said):
        return Tried(False, "BAD EDIT: a library's kept work can't be used")
    if status == 1 and lines[-1].startswith("logic=not-proved"):
        return Tried(True, "refused")
    if status == 0:
        return Tried(False, "NOT REFUSED: the crate is still proved with this edit")
    return Tried(False, f"BAD EDIT: no verdict, status {status}: {' / '.join(lines[-3:])[:300]}")


class Share:
    """Edits of one crate that are tried in turn, as they and the crate's sources are when the first begins."""

    def __init__(self, name, edits):
        self.name, self.edits, self.found = name, edits, {}

    def cost(self):
        return (len(self.edits) + WHOLE) * lines_of(self.name)

    def check(self, prover, texts, kept=None):
        """Has a copy of the crate checked, with these texts in the place of its own."""
        with tempfile.TemporaryDirectory(prefix="rt-edit-") as folder:
            shutil.copytree(self.whole, folder, dirs_exist_ok=True)
            for path, text in texts.items():
                with open(os.path.join(folder, path), "w", encoding="utf-8") as it:
                    it.write(text)
            return prover.check(self.name, folder, kept)

    def try_one(self, prover, edit, kept, tell):
        texts, why = edited(self.texts[edit], self.whole)
        if why:
            return Tried(False, f"BAD EDIT: {why}")
        status, said, took = self.check(prover, texts, kept)
        tried = verdict(status, said, texts)
        again = "" if tried.is_refused or not kept else "; once more, from nothing"
        tell(edit, f"{tried.said} ({took:.0f} s{'' if kept else ' from nothing'}){again}")
        return tried

    def try_over(self, prover, kept, tell):
        """Tries the edits over what those before have proved, and notes which were refused, as far as that holds."""
        for at in range(0, len(self.edits), GROUP):
            tried = {edit: self.try_one(prover, edit, kept, tell) for edit in self.edits[at:at + GROUP]}
            status, _, _ = self.check(prover, {}, kept)
            if status:
                tell(self.name, f"isn't proved over that work (status {status}): those that are left once more, from nothing")
                return
            self.keep({edit: it for edit, it in tried.items() if it.is_refused})

    def keep(self, tried):
        """Notes in the list what became of these edits."""
        note({edit: self.sums[edit] if it.is_refused else "-" for edit, it in tried.items()})
        self.found |= tried

    def try_all(self, prover, tell):
        """Tries the edits, and notes in the list which were refused."""
        with tempfile.TemporaryDirectory(prefix="more-edits-") as room:
            self.whole, kept = os.path.join(room, "whole"), os.path.join(room, "kept")
            for part in PARTS:
                if os.path.isdir(os.path.join(folder_of(self.name), part)):
                    shutil.copytree(os.path.join(folder_of(self.name), part), os.path.join(self.whole, part))
            self.texts = texts_of(self.edits)
            self.sums = checksums(self.name, self.whole, self.texts)
            if len(self.edits) > 1:
                self.try_over(prover, kept, tell)
            for edit in self.edits:
                if edit not in self.found:
                    self.keep({edit: self.try_one(prover, edit, None, tell)})


# Which are tried side by side.


def lines_of(name):
    """How many lines of source a crate has."""
    found = 0
    for at, _, files in os.walk(os.path.join(folder_of(name), "src")):
        for path in (os.path.join(at, it) for it in files):
            with open(path, "rb") as it:
                found += it.read().count(b"\n")
    return found


def places():
    """How many checks may run at once: one for each processor, with 3 GB of memory for each, but at least one."""
    with open("/proc/meminfo", encoding="ascii") as it:
        free = int(re.search(r"MemAvailable: *(\d+) kB", it.read())[1])
    return max(1, min(len(os.sched_getaffinity(0)), free // MEMORY))


def shares_of(edits, jobs):
    """The edits by crates. Those of a crate that has more to do than one of so many lanes are shared out."""
    names = list(dict.fromkeys(map(crate_of, edits)))
    whole = [Share(name, [it for it in edits if crate_of(it) == name]) for name in names]
    lane, shares = sum(it.cost() for it in whole) / jobs, []
    for it in whole:
        parts = max(1, min(round(it.cost() / lane), len(it.edits) // WHOLE))
        shares += [Share(it.name, it.edits[at::parts]) for at in range(parts)]
    return shares


class Teller:
    """Says of each edit what became of it, and how far the run is."""

    def __init__(self, edits):
        self.lock, self.edits, self.done, self.begun = threading.Lock(), set(edits), set(), time.monotonic()

    def tell(self, edit, text):
        with self.lock:
            self.done |= {edit} & self.edits
            print(f"tools/edits.py: {len(self.done)} of {len(self.edits)}, {self.minutes()} min: {edit}: {text}", flush=True)

    def minutes(self):
        return round((time.monotonic() - self.begun) / 60)


def try_shares(shares, jobs, minutes, teller, may_lack=False):
    """Tries them side by side, and returns what became of each edit. Some of a share that hasn't ended after so many minutes may be
    lacking, if that is allowed."""
    prover = Prover()
    limit = threading.Timer(max(minutes, 0) * 60, prover.end)
    limit.daemon = True
    limit.start()
    with concurrent.futures.ThreadPoolExecutor(jobs) as pool:
        try:
            for it in concurrent.futures.as_completed([pool.submit(share.try_all, prover, teller.tell) for share in shares]):
                if not (may_lack and isinstance(it.exception(), Ended)):
                    it.result()
        except BaseException:
            prover.end()
            raise
    return {edit: it for share in shares for edit, it in share.found.items()}


def try_edits(edits, jobs, minutes, is_named, may_lack=False):
    """Tries these edits, says what became of them, and returns the status."""
    shares = shares_of(edits, jobs)
    if not is_named:
        shares.sort(key=lambda it: -it.cost())
    counts = [f"{name} {sum(crate_of(it) == name for it in edits)}" for name in dict.fromkeys(map(crate_of, edits))]
    print(f"tools/edits.py: {len(edits)} edits to try, {jobs} at once: {', '.join(counts) or 'none'}", flush=True)
    teller = Teller(edits)
    tried = try_shares(shares, jobs, minutes, teller, may_lack)
    for edit, it in tried.items():
        if not it.is_refused:
            print(f"tools/edits.py: {edit}: {it.said}")
    left = [edit for edit in edits if edit not in tried]
    if left:
        print(f"tools/edits.py: NOT TRIED in {minutes:.0f} min: {' '.join(left)}")
    refused = sum(it.is_refused for it in tried.values())
    print(f"tools/edits.py: {refused} of {len(edits)} edits refused, {len(left)} not tried, {teller.minutes()} min")
    return 0 if refused == len(tried) else 1


def chosen(names, is_changed, is_named):
    """The edits to try. Says how many are only looked at."""
    if not is_changed:
        return [edit for name in names for edit in edits_of(name)]
    edits = changed(names)
    if is_named:
        return edits
    left = [it for it in edits if it in untried()]
    if left:
        print(f"tools/edits.py: {len(left)} of checks/edits/UNTRIED are only looked at")
    return [it for it in edits if it not in untried()]


def asked(words):
    """What the words ask for."""
    how = {"description": __doc__, "formatter_class": argparse.RawDescriptionHelpFormatter, "usage": "tools/edits.py [OPTION..] [NAME..]"}
    parser = argparse.ArgumentParser(**how)
    parser.add_argument("names", nargs="*", metavar="NAME")
    parser.add_argument("--changed", action="store_true")
    parser.add_argument("--look", action="store_true")
    parser.add_argument("--jobs", type=int, default=0, metavar="N")
    parser.add_argument("--minutes", type=float, default=DAY, metavar="N")
    parser.add_argument("--within", type=float, metavar="N")
    return parser.parse_args(words)


def stop(*_):
    raise KeyboardInterrupt


def main(words):
    given = asked(words)
    known = crates_with_edits()
    unknown = [it for it in given.names if it not in known]
    if unknown:
        print(f"tools/edits.py: checks/edits has nothing for {' '.join(unknown)}")
        return 2
    failed = look(given.names or known)
    if failed or given.look:
        return 1 if failed else 0
    edits = chosen(given.names or known, given.changed, bool(given.names))
    try:
        for name in sorted(set(map(crate_of, edits))):
            libraries(name)
        signal.signal(signal.SIGTERM, stop)
        minutes, may_lack = (given.minutes, False) if given.within is None else (given.within, True)
        return try_edits(edits, given.jobs or places(), minutes, bool(given.names), may_lack)
    except Lacking as it:
        print(f"tools/edits.py: FAILED: {it}")
        return 2
    except Ended:
        print(f"tools/edits.py: FAILED: not all were tried in {given.minutes:.0f} min. Try them by hand, and commit the list")
        return 1
    except KeyboardInterrupt:
        print("tools/edits.py: FAILED: interrupted. The list has what was refused until then")
        return 130


if __name__ == "__main__":
    sys.exit(main(sys.argv[1:]))
