"""Short jobs with random words for their outputs, random streams and random names, in a tree of 200 files, links, pipes and nodes. Links
of its own stand for /dev/stdout, which a wrong program would replace for the whole machine. Of all that the tree has no byte, mode,
owner or name differs but what the words name, and a run that is refused before its report changes nothing at all. Some 10,000 trials
take a minute on four processors; TRIALS and SEED make it others."""

import concurrent.futures
import os
import random
import shutil
import stat
import subprocess
import tempfile

from support.case import Case
from support.program import Wrong, expect, own_folder, trials

SECONDS = 60
WORDS = ("--trace", "--json", "--page", "--bad-blocks")
FOLDERS = ("a", "b", "a/c", "d")
STATUSES = (0, 1, 2, 3)


def job(draw, name):
    """A job of a few blocks over any engine, and the names of its files."""
    engine = draw.choice(("memory", "null", "psync"))
    rw = draw.choice(("write", "read", "rw"))
    verify = draw.choice(("", "verify=pattern\nverify_pattern=7\n"))
    return f"[w]\nioengine={engine}\nfilename={name}\nrw={rw}\nbs=512\nsize=2k\n{verify}", engine == "psync"


class Tree:
    """A tree of 200 names, and what stands in it."""

    def __init__(self, root, draw):
        self.root = root
        self.files, self.links, self.others = [], [], []
        for folder in FOLDERS:
            os.makedirs(self.at(folder))
        for number in range(120):
            name = os.path.join(draw.choice(FOLDERS), f"f{number}")
            with open(self.at(name), "wb") as it:
                it.write(bytes([number]) * draw.choice((0, 100, 4096)))
            os.chmod(self.at(name), draw.choice((0o600, 0o640, 0o644)))
            self.files.append(name)
        for number in range(20):
            name = os.path.join(draw.choice(FOLDERS), f"h{number}")
            os.link(self.at(draw.choice(self.files)), self.at(name))
            self.links.append(name)
        for number in range(40):
            name = os.path.join(draw.choice(FOLDERS), f"l{number}")
            end = draw.choice(self.files + self.links + list(FOLDERS) + ["a/new", "nowhere/x"])
            os.symlink(os.path.relpath(end, os.path.dirname(name)) if draw.random() < 0.5 else self.at(end), self.at(name))
            self.links.append(name)
        for number in range(3):
            os.symlink(f"/proc/self/fd/{number}", self.at(f"d/s{number}"))
            self.links.append(f"d/s{number}")
        self.add_nodes(draw)

    def add_nodes(self, draw):
        """Pipes, and as root nodes of /dev/null and of no device at all."""
        for number in range(4):
            name = os.path.join(draw.choice(FOLDERS), f"p{number}")
            os.mkfifo(self.at(name))
            self.others.append(name)
        if os.geteuid() == 0:
            for name, kind, device in (("a/null", stat.S_IFCHR, os.makedev(1, 3)), ("d/block", stat.S_IFBLK, os.makedev(7, 250))):
                os.mknod(self.at(name), kind | 0o600, device)
                self.others.append(name)

    def at(self, name):
        return os.path.join(self.root, name)

    def held(self):
        """All that stands there; of files that no trial has named the size and times stand for the bytes."""
        found, folders = {}, [self.root]
        while folders:
            with os.scandir(folders.pop()) as entries:
                for entry in entries:
                    it = entry.stat(follow_symlinks=False)
                    what = os.readlink(entry.path) if entry.is_symlink() else None
                    found[entry.path] = it.st_mode, it.st_uid, it.st_gid, it.st_rdev, it.st_size, it.st_mtime_ns, it.st_ino, what
                    if entry.is_dir(follow_symlinks=False):
                        found[entry.path] = (*found[entry.path][:4], 0, 0, it.st_ino, None)
                        folders.append(entry.path)
        return found


def name_in(tree, draw):
    """A name of the tree, or a new one, in one of its ways to be written."""
    name = draw.choice((draw.choice(tree.files), draw.choice(tree.links), f"{draw.choice(FOLDERS)}/n{draw.randrange(4)}"))
    if draw.random() < 0.1:
        name = draw.choice((*FOLDERS, "nowhere/x", ".", "a/", "d/../a"))
    if draw.random() < 0.1:
        name = draw.choice([it for it in tree.others if not os.path.basename(it).startswith("p")] or ["a"])
    return draw.choice((name, "./" + name, f"a/../{name}", tree.at(name)))


def stream(tree, draw):
    """How standard output or error is had: its words for the shell, and the file that it may write to."""
    kind = draw.randrange(8)
    if kind == 0:
        return ">&-", None
    if kind == 1:
        name = draw.choice(tree.files)
        return f">>{name}", name
    if kind == 2:
        return ">/dev/null", None
    return "", None


def trial(program, tree, draw):
    """One run: what it changed is among what it names."""
    named, words = set(), []
    for word in draw.sample(WORDS, draw.choice((1, 1, 2, 3, 4))):
        name = draw.choice((name_in(tree, draw),) * 6 + ("/dev/fd/1", "/dev/fd/2", "/dev/null", "/dev/fd/9"))
        words.append(f"{word}={name}")
        named.add(os.path.realpath(tree.at(name)))
    data = draw.choice((name_in(tree, draw), name_in(tree, draw), words[0].split("=")[1]))
    text, has_files = job(draw, data)
    if has_files:
        named.add(os.path.realpath(tree.at(data)))
    (out, one), (err, other) = stream(tree, draw), stream(tree, draw)
    ends = out + (" 2" + err if err else "")
    for it in (one, other):
        if it:
            named.add(os.path.realpath(tree.at(it)))
    given = {"stdin": subprocess.PIPE, "stdout": subprocess.PIPE, "stderr": subprocess.PIPE, "cwd": tree.root}
    job_name = draw.choice((None, None, *tree.files[:3]))
    if job_name:
        with open(tree.at(job_name), "w", encoding="utf-8") as it:
            it.write(text)
        words.append(job_name)
    before = tree.held()
    command = ["sh", "-c", f'exec "$0" "$@" {ends}', program, *words]
    with subprocess.Popen(command, **given) as run:
        said = run.communicate(text.encode(), timeout=SECONDS)
    after = tree.held()
    what = (words, ends, text, run.returncode, said)
    expect(run.returncode in STATUSES, "status", what)
    changed = {it for it in before.keys() | after.keys() if before.get(it) != after.get(it)}
    # (a hard link is changed with the file that is written in place)
    inodes = {before[it][6] for it in named if it in before}
    others = {it for it in changed - named if not (it in before and before[it][6] in inodes)}
    expect(not others, "changed", sorted(others), what)
    for it in changed & set(before):
        expect(it in after, "lost", it, what)
        same = before[it][:3] == after[it][:3]
        expect(same, "another mode or owner:", it, before[it][:3], after[it][:3], what)
    written = {before[os.path.realpath(tree.at(it))][6] for it in (data, one, other) if it and os.path.realpath(tree.at(it)) in before}
    if job_name and before[tree.at(job_name)][6] not in written:
        expect(before[tree.at(job_name)] == after[tree.at(job_name)], "the job file changed", what)
    if run.returncode in (2, 3) and not (out or err or said[0]):
        expect(not changed, "refused, and changed", sorted(changed), what)


def trials_of(given):
    """So many trials in a tree of their own. Says what was wrong."""
    program, folder, seed, count = given
    draw = random.Random(seed)
    for number in range(0, count, 50):
        root = tempfile.mkdtemp(dir=folder)
        try:
            tree = Tree(os.path.realpath(root), draw)
            for _ in range(min(50, count - number)):
                trial(program, tree, draw)
        except (Wrong, OSError, subprocess.SubprocessError) as why:
            return f"seed {seed}, behind trial {number}: {why}"
        finally:
            shutil.rmtree(root, ignore_errors=True)
    return None


class OutputsFuzz(Case):
    """Where the outputs of a run go, by chance."""

    def test_nothing_differs_but_what_is_named(self):
        count, seed, shares = trials(10000), int(os.environ.get("SEED", "66")), 4 * (os.cpu_count() or 1)
        folder = own_folder("/var/tmp")
        given = [(self.place.program, folder, seed * 1000 + share, count // shares + 1) for share in range(shares)]
        with concurrent.futures.ProcessPoolExecutor() as pool:
            wrong = [it for it in pool.map(trials_of, given) if it]
        self.says(f"{count} trials, seed {seed}")
        expect(not wrong, f"{len(wrong)} shares of {shares}", *wrong)
