"""bin/try, which runs a job with no proof: what it refuses, what it gives to rt, and what it hands back.

A script takes the place of rt, so that this is done at once. With FULL=1 of the environment an example is run by the kit's own rt too, and
its report compared with that of the program: all crates are compiled for it, in some 2.5 processor minutes. So is the program of
bench/floor, in which no crate of the gate stands, so nothing else would find that it doesn't compile.
"""

import os
import shutil
import subprocess

from support.case import Case
from support.program import TOP, Skipped, expect

# It says what it was given, and ends as the program of the job would.
RT = r"""#!/usr/bin/env bash
printf '%s|' "${PWD##*/}" "$@"
printf 'words of the compiler\nfiorun: cannot open the files\n' >&2
exit 3
"""
JOB = os.path.join(TOP, "examples", "first.fio")


class Unproved(Case):
    """What bin/try does."""

    def folder_of_tools(self, *scripts):
        """A folder of the tools that it needs, with these scripts."""
        folder = self.fresh()
        for tool in "bash env readlink mktemp rm grep tail cat".split():
            os.symlink(shutil.which(tool), folder.at(tool))
        for name, text in scripts:
            os.chmod(folder.at(folder.put(name, text)), 0o755)
        return folder.path

    def ends(self, path, status, *words):
        """Runs bin/try with these words, and the tools of these folders: it ends with the status."""
        how = {"stdin": subprocess.DEVNULL, "capture_output": True, "text": True, "check": False}
        ran = subprocess.run([os.path.join(TOP, "bin", "try"), *words], env={**os.environ, "PATH": path}, **how)
        expect(ran.returncode == status, f"bin/try {words}: status {ran.returncode}, and not {status}: {ran.stderr[-1000:]}")
        return ran

    def refuses(self, path, status, said, *words):
        """The same, and it said this and printed nothing."""
        ran = self.ends(path, status, *words)
        expect((ran.stdout, ran.stderr) == ("", said + "\n"), f"it printed {ran.stdout[:200]} and said {ran.stderr[:300]}, and not {said}")

    def test_what_cant_be_is_refused(self):
        self.refuses(self.folder_of_tools(), 3, "fiorun: cannot build: the kit's rt is not on the path", JOB)
        tools = self.folder_of_tools(("rt", RT))
        self.refuses(tools, 2, "usage: bin/try JOBFILE [WORDS]")
        for name in (self.place.at("no such job"), self.place.path):
            self.refuses(tools, 3, "fiorun: cannot read the job file", name)

    def test_rt_is_given_the_job_and_the_words(self):
        ran = self.ends(self.folder_of_tools(("rt", RT)), 3, JOB, "--workers=1", "two words")
        given = f"fiorun|try|--data|job.fio={os.path.realpath(JOB)}|--|job.fio|--workers=1|two words|"
        expect(ran.stdout == given, "rt was given", ran.stdout)
        lines = ran.stderr.splitlines()
        expect(sum(it.startswith("fiorun: ") for it in lines) == 1, "what the program said isn't there:", ran.stderr)
        expect(any(it.startswith("bin/try: not proved") for it in lines), "it doesn't say that nothing is proved:", ran.stderr)
        expect(not any(it.startswith("words of the compiler") for it in lines), "it says what the compiler said:", ran.stderr)

    def test_an_example_and_the_floor_run(self):
        """By the kit's own rt, as the program does."""
        if os.environ.get("FULL", "0") != "1":
            raise Skipped("no example was run (FULL=1 runs one)")
        wanted = self.place.run(JOB)
        ran = self.ends(os.environ["PATH"], wanted.status, JOB)
        expect(ran.stdout.encode() == wanted.out, "another report than the program's:", ran.stdout, wanted.out)
        words = [os.path.join(TOP, "bench", "floor"), "--try", self.place.path]
        ran = subprocess.run(words, stdin=subprocess.DEVNULL, capture_output=True, text=True, check=False)
        expect(ran.returncode == 0, f"bench/floor: {ran.stdout[-1000:]}{ran.stderr[-1000:]}")
