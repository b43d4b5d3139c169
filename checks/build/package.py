"""What bin/package makes of the program: its bytes, what it says of itself, its man page, the completion of its words, and, as root,
that it runs where nothing is but what it says it needs."""

import filecmp
import functools
import gzip
import os
import re
import shutil
import subprocess
import tempfile

from support.case import Case
from support.disks import CLEAN, job_of, loop_device, run
from support.program import MIB, TOP, Skipped, expect, needs, needs_root, own_folder
from support.requests import counted, device_job

# What is at hand on each Debian machine, and what of it the package's scripts call.
ALWAYS_THERE = ["dash", "coreutils"]
LEFT_OUT = re.compile(r"/usr/share/(doc|man|locale|info|lintian)(/|$)")
SECONDS = 120


def printed(words, **more):
    ran = subprocess.run(words, capture_output=True, text=True, timeout=SECONDS, check=False, **more)
    expect(ran.returncode == 0, f"{words} ended with {ran.returncode}: {ran.stdout[-300:]}{ran.stderr[-300:]}")
    return ran.stdout


def commit_of(folder):
    """The last commit, as git tells it of a folder; nothing where it doesn't (no clone, or one of somebody else)."""
    return subprocess.run(["git", "-C", folder, "log", "-1", "--format=%H"], capture_output=True, text=True, check=False).stdout


def packaged(built, folder, top=TOP, **environment):
    """Packages a built program into a folder: the paths of the package and of the archive."""
    needs("dpkg-deb", "readelf", "strip", "gzip", "tar")
    environment = {**os.environ, "PROGRAM": built, **environment}
    if not commit_of(top):
        environment = {"SOURCE_DATE_EPOCH": "1700000000", "MAINTAINER": "Nobody <nobody@debian.org>", **environment}
    said = printed([os.path.join(top, "bin", "package"), folder], env=environment).splitlines()
    expect(len(said) == 2, f"bin/package says {said}")
    return said


@functools.cache
def made_of(built):
    """The package and the archive of a program, made once."""
    return packaged(built, tempfile.mkdtemp(dir=own_folder("/var/tmp")))


def unpacked(place):
    """The package's tree, unpacked into a folder."""
    root = place.at("root")
    printed(["dpkg-deb", "-x", made_of(place.program)[0], root])
    return root


def files_of(tree):
    return sorted(os.path.relpath(os.path.join(where, it), tree) for where, _, names in os.walk(tree) for it in names)


# What it is.


# What it offers.

# (as bash calls it: the command, the word and the one before it; what it offers stands in COMPREPLY)
COMPLETES = """
. "$1"
shift
COMP_WORDS=("$@") COMP_CWORD=$(($# - 1))
_fiorun "$1" "${COMP_WORDS[COMP_CWORD]}" "${COMP_WORDS[COMP_CWORD - 1]}"
printf '%s\\n' "${COMPREPLY[@]}"
"""


# Words that bin/launch gives the program, and no user.
LAUNCHERS = {"--drop-pipes", "--stop-fd"}


def offered(root, folder, *words):
    """What the completion offers for the last of these words, in a folder."""
    script = os.path.join(root, "usr", "share", "bash-completion", "completions", "fiorun")
    command = os.path.join(root, "usr", "bin", "fiorun")
    said = printed(["bash", "--norc", "--noprofile", "-c", COMPLETES, "complete", script, command, *words], cwd=folder)
    return [it for it in said.split("\n") if it]


# Where it runs.


def needed(names):
    """These installed packages and all that they depend on."""
    found, left = set(), list(names)
    while left:
        name = left.pop()
        if name in found:
            continue
        ran = subprocess.run(
            ["dpkg-query", "-W", "-f", "${Status}|${Pre-Depends}, ${Depends}", name], capture_output=True, text=True, check=False
        )
        if ran.returncode or not ran.stdout.startswith("install ok installed|"):
            raise Skipped(f"the package {name} isn't installed here")
        found.add(name)
        left += [it.split("|")[0].split("(")[0].split(":")[0].strip() for it in ran.stdout.split("|", 1)[1].split(",") if it.strip()]
    return found


def put_packages(root, names):
    """Copies the files of installed packages into a folder."""
    for name in ("bin", "sbin", "lib", "lib32", "lib64"):
        if os.path.islink(f"/{name}"):
            os.symlink(os.readlink(f"/{name}"), f"{root}/{name}")
            os.makedirs(f"{root}/{os.readlink(f'/{name}')}", exist_ok=True)
    for path in printed(["dpkg-query", "-L", *sorted(names)]).split("\n"):
        if not path.startswith("/") or LEFT_OUT.match(path) or not os.path.lexists(path):
            continue
        if os.path.isdir(path) and not os.path.islink(path):
            os.makedirs(root + path, exist_ok=True)
        elif not os.path.lexists(root + path):
            os.makedirs(os.path.dirname(root + path), exist_ok=True)
            shutil.copy2(path, root + path, follow_symlinks=False)


# (a mount that is made here is nobody else's, and ends with the command)
INSIDE = 'for it in dev proc sys; do mount --rbind "/$it" "$1/$it" || exit 99; done; exec chroot "$@"'


def inside(root, job, *words):
    """Runs the package's command with a job text in the folder /work of a root."""
    words = ["/bin/sh", "-c", 'cd /work && exec "$@"', "sh", "/usr/bin/fiorun", *words]
    environment = {"PATH": "/usr/sbin:/usr/bin:/sbin:/bin"}
    words = [shutil.which("unshare"), "--mount", "/bin/sh", "-c", INSIDE, "sh", root, *words]
    ran = subprocess.run(words, input=job, capture_output=True, text=True, env=environment, timeout=SECONDS, check=False)
    if ran.returncode == 99:
        raise Skipped(f"nothing can be mounted: {ran.stderr}")
    return ran


def bare_root(place):
    """A root with the package, with what it says it needs, and with nothing else."""
    needs_root("dpkg-query", "chroot", "unshare", "mount")
    apart = subprocess.run(["unshare", "--mount", "chroot", "/", "true"], capture_output=True, text=True, check=False)
    if apart.returncode:
        raise Skipped(f"no root of its own: {apart.stderr}")
    root = unpacked(place)
    depends = printed(["dpkg-deb", "-f", made_of(place.program)[0], "Depends"])
    put_packages(root, needed([*(it.split()[0] for it in depends.split(", ")), *ALWAYS_THERE]))
    for name in ("dev", "proc", "sys", "work", "tmp"):
        os.makedirs(os.path.join(root, name), exist_ok=True)
    return root


class Package(Case):
    """What bin/package makes of the program."""

    where = "/var/tmp"

    def test_the_same_sources_give_the_same_bytes(self):
        """In another folder, at another time, of another copy of the sources."""
        place = self.place
        first = made_of(place.program)
        copy = place.at("copy")
        os.mkdir(copy)
        os.symlink(os.path.join(TOP, ".git"), os.path.join(copy, ".git"))
        for name in ("bin", "docs", "examples", "launcher"):
            shutil.copytree(os.path.join(TOP, name), os.path.join(copy, name), copy_function=shutil.copyfile)
        for name in ("README.md", "CHANGELOG.md"):
            shutil.copyfile(os.path.join(TOP, name), os.path.join(copy, name))
        os.chmod(os.path.join(copy, "bin", "package"), 0o700)
        if commit_of(copy) != commit_of(TOP):
            raise Skipped("git tells another commit of a copy")
        moved = shutil.copyfile(place.program, place.at("moved"))
        os.chmod(moved, 0o700)
        elsewhere = place.at("elsewhere")
        os.mkdir(elsewhere)
        second = packaged(moved, place.at("second"), copy, TMPDIR=elsewhere, LANG="tr_TR.UTF-8", TZ="Asia/Tokyo")
        for one, other in zip(first, second):
            expect(os.path.basename(one) == os.path.basename(other), f"{one} and {other}")
            expect(filecmp.cmp(one, other, shallow=False), f"{one} has other bytes than {other}")

    def test_it_says_what_it_is(self):
        place = self.place
        package = made_of(place.program)[0]

        def field(name):
            return printed(["dpkg-deb", "-f", package, name]).strip()

        version = re.match(r"fiorun (\S+)\n", printed([place.program, "--version"]))[1]
        expect(field("Version") == f"{version}-1", f"version {field('Version')}, and not {version}")
        machine = {"x86_64": "amd64", "aarch64": "arm64"}[os.uname().machine]
        expect(field("Architecture") == machine, f"architecture {field('Architecture')}")
        expect(os.path.basename(package) == f"fiorun_{version}-1_{machine}.deb", package)
        wanted = re.fullmatch(r"libc6 \(>= (2\.[\d.]+)\), (?:libgcc-s1, )?perl-base \(>= 5\.\d+\)", field("Depends"))
        expect(wanted, f"depends on {field('Depends')}")
        with open(place.program, "rb") as it:
            symbols = {tuple(map(int, it.split(b"."))) for it in re.findall(rb"\bGLIBC_(2(?:\.\d+)+)\0", it.read())}
        expect(wanted[1] == ".".join(map(str, max(symbols))), f"depends on libc6 of {wanted[1]}, and its symbols on {max(symbols)}")

    def test_it_has_all_that_belongs_to_it(self):
        place = self.place
        root = unpacked(place)
        documents = [f"docs/{it}" for it in os.listdir(os.path.join(TOP, "docs")) if it.endswith(".md")]
        examples = [f"examples/{it}" for it in os.listdir(os.path.join(TOP, "examples")) if it != "try-devices"]
        own = ["README.md", "changelog.gz", "changelog.Debian.gz", "copyright", *documents, *examples]
        wanted = ["bin/fiorun", "share/man/man1/fiorun.1.gz", "share/bash-completion/completions/fiorun"]
        wanted += [f"lib/fiorun/{it}" for it in ("fiorun", "launch", "start")] + [f"share/doc/fiorun/{it}" for it in own]
        found = files_of(root)
        expect(found == sorted(f"usr/{it}" for it in wanted), f"other files: {sorted({*found} ^ {f'usr/{it}' for it in wanted})}")
        for it in found:
            mode = os.lstat(os.path.join(root, it)).st_mode
            is_run = it.startswith(("usr/bin/", "usr/lib/")) or it.endswith(("/try", "/write-now-check-later", "/after-a-cut"))
            expect(mode == (0o100755 if is_run else 0o100644), f"{it} has mode {mode:o}")
        printed(["dpkg-deb", "-e", made_of(place.program)[0], place.at("control")])
        sums = printed(["md5sum", "-c", place.at("control", "md5sums")], cwd=root)
        expect(sums.count(": OK\n") == len(found), f"sums of other files: {sums}")

    def test_no_path_of_this_machine_is_in_it(self):
        place = self.place
        root = unpacked(place)
        for it in files_of(root):
            with open(os.path.join(root, it), "rb") as file:
                text = file.read()
            if it.endswith(".gz"):
                text = gzip.decompress(text)
            for path in (TOP, os.path.dirname(made_of(place.program)[0])):
                expect(path.encode() + b"/" not in text, f"{it} names {path}")

    def test_the_archive_has_the_same_tree(self):
        place = self.place
        root = os.path.join(unpacked(place), "usr")
        archive = made_of(place.program)[1]
        printed(["tar", "-xf", archive, "-C", place.path])
        folder = place.at(os.path.basename(archive).removesuffix(".tar.gz"))
        expect(files_of(folder) == files_of(root), "other files")
        for it in files_of(root):
            one, other = os.path.join(root, it), os.path.join(folder, it)
            expect(filecmp.cmp(one, other, shallow=False) and os.stat(one).st_mode == os.stat(other).st_mode, f"another {it}")
        ran = run(place, job_of(), program=os.path.join(folder, "bin", "fiorun"))
        expect((ran.returncode, ran.stdout) == (0, CLEAN), f"unpacked anywhere: status {ran.returncode}: {ran.stdout}{ran.stderr}")
        said = printed([os.path.join(folder, "share", "doc", "fiorun", "examples", "try"), os.path.join(folder, "bin", "fiorun")])
        expect("each with its report and status" in said, f"its examples: {said}")

    def test_its_man_page_is_read(self):
        place = self.place
        page = os.path.join(unpacked(place), "usr", "share", "man", "man1", "fiorun.1.gz")
        with gzip.open(page) as got, open(os.path.join(TOP, "docs", "fiorun.1"), "rb") as it:
            expect(got.read() == it.read(), "the page is another")
        needs("man")
        environment = {**os.environ, "MANWIDTH": "100", "LC_ALL": "C"}

        def shown(path):
            return subprocess.run(["man", "--warnings", "-l", path], capture_output=True, text=True, env=environment, check=False)

        plain = place.at("plain.1")
        with open(plain, "w", encoding="utf-8") as it:
            it.write('.TH PLAIN 1\n.SH NAME\nplain \\- nothing\n')
        before, ran = shown(plain), shown(page)
        if before.returncode or before.stderr:
            raise Skipped(f"man shows no page at all: status {before.returncode}: {before.stderr}")
        expect((ran.returncode, ran.stderr) == (0, ""), f"man: status {ran.returncode}: {ran.stderr}")
        expect(re.search("fiorun -+ run fio job files", ran.stdout), f"man shows {ran.stdout[:200]}")

    def test_lintian_finds_no_error(self):
        place = self.place
        needs("lintian")
        words = ["lintian", "--no-tag-display-limit", made_of(place.program)[0]]
        ran = subprocess.run(words, capture_output=True, text=True, timeout=SECONDS, check=False)
        expect(not re.search("^E:", ran.stdout, re.MULTILINE), ran.stdout)

    def test_bash_completes_its_words(self):
        """Each word that --help names is offered, but for the launcher's, and behind it files, jobs or numbers."""
        place = self.place
        root = unpacked(place)
        work = place.at("work")
        os.makedirs(os.path.join(work, "folder"))
        for name, text in {"one.fio": "[global]\nbs=4k\n[a]\n[other $(touch ran)]\n", "two words": ""}.items():
            with open(os.path.join(work, name), "w", encoding="utf-8") as it:
                it.write(text)
        with open(os.path.join(TOP, "docs", "help.txt"), encoding="utf-8") as it:
            takes = dict(re.findall(r"^ +(?:-., )?(--[a-z-]+)(?: <([A-Z]+)>)?", it.read(), re.MULTILINE))
        words = [it + "=" * bool(takes[it]) for it in takes if it not in LAUNCHERS]
        expect(offered(root, work, "-") == words and len(words) > 15, f"offered: {offered(root, work, '-')}")
        expect(offered(root, work, "--par") == ["--parse-only"], "not by how it begins")
        files = ["folder", "one.fio", "two words"]
        expect(sorted(offered(root, work, "")) == files, f"for the job file: {offered(root, work, '')}")
        for word, kind in takes.items():
            # (bash divides --word=value in three, and another COMP_WORDBREAKS doesn't)
            for typed in ([word, "="], [word, "=", ""], [word, ""]) if kind else ([word, ""],):
                got = offered(root, work, *typed)
                expect((sorted(got) == files) == (kind in ("FILE", "LEDGER", "")), f"{typed}: {got}")
            if kind in ("FILE", "LEDGER"):
                expect(offered(root, work, f"{word}=one") == [f"{word}=one.fio"], f"{word}=one")
        # (of many numbers none is offered, and at once)
        workers, sizes = [str(it) for it in range(1, 17)], [str(512 << it) for it in range(8)]
        numbers = {"--progress": [], "--workers": workers, "--bad-blocks-size": sizes}
        for word, wanted in numbers.items():
            expect(offered(root, work, word, "=", "") == wanted, f"{word}: {offered(root, work, word, '=', '')}")
        expect(offered(root, work, "--workers", "=", "1") == ["1", *(str(it) for it in range(10, 17))], "--workers=1")
        got = offered(root, work, "one.fio", "--section", "=", "")
        expect(got == ["a", r"other\ \$\(touch\ ran\)"] and "ran" not in os.listdir(work), f"--section: {got}")

    def test_it_runs_where_nothing_else_is(self):
        """Help, version, and each example with its report and status."""
        place = self.place
        root = bare_root(place)
        with open(os.path.join(TOP, "docs", "help.txt"), encoding="utf-8") as it:
            text = it.read()
        ran = inside(root, "", "--help")
        expect((ran.returncode, ran.stdout, ran.stderr) == (0, text, ""), f"--help: {ran}")
        expect(inside(root, "", "--version").stdout == printed([place.program, "--version"]), "another version")
        examples = os.path.join(root, "usr", "share", "doc", "fiorun", "examples")
        with open(os.path.join(examples, "answers"), encoding="utf-8") as it:
            answers = [line.split() for line in it if line.strip() and not line.startswith("#")]
        expect(len(answers) > 20, "there are few examples")
        for name, status, *words in answers:
            with open(os.path.join(examples, f"{name}.report"), encoding="utf-8") as it:
                report = it.read()
            ran = inside(root, "", f"/usr/share/doc/fiorun/examples/{name}.fio", *words)
            expect((ran.returncode, ran.stdout) == (int(status), report), f"{name}: status {ran.returncode}: {ran.stdout}{ran.stderr}")

    def test_each_block_of_a_direct_run_is_a_request_there(self):
        place = self.place
        root = bare_root(place)
        with loop_device(place.at("image"), 16 * MIB) as device:
            for workers in (1, 8):
                job = device_job(device, "1m", ["bs=4k", "iodepth=8"])
                ran, got = counted(device, lambda job=job, workers=workers: inside(root, job, f"--workers={workers}", "--notes"))
                expect((ran.returncode, ran.stdout, ran.stderr) == (0, CLEAN, ""), f"status {ran.returncode}: {ran.stdout}{ran.stderr}")
                wanted = {"writes": 256, "reads": 256, "write_sectors": 2048, "read_sectors": 2048}
                expect({it: got[it] for it in wanted} == wanted, f"{workers} workers: the device got {got}")
