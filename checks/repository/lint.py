"""All scripts of the repository: shellcheck looks over those of bash and sh, pyflakes over those of python, perl -c over those of perl."""

import os
import re
import shutil
import subprocess
import unittest

from support.program import TOP, expect, needs

FOLDERS = (".ci", "bin", "launcher", "tools", "checks", "bench", "examples")
# Of each language what the first line of its scripts ends with, or their names.
LANGUAGES = {"sh": (r"sh( -p)?$", ".sh"), "python": (r"python", ".py"), "perl": (r"perl", ".pl")}


def scripts(language):
    """The scripts of a language."""
    front, ending = LANGUAGES[language]
    paths = [os.path.join(at, it) for top in FOLDERS for at, _, names in os.walk(os.path.join(TOP, top)) for it in names]
    for path in sorted(paths):
        with open(path, "rb") as it:
            first = it.readline().decode(errors="replace").rstrip("\n")
        if path.endswith(ending) or first.startswith("#!") and re.search(front, first):
            yield path


class Lint(unittest.TestCase):
    """What linters say of the scripts."""

    def lint(self, language, *words):
        """Gives the scripts of a language to a tool: nothing is said."""
        needs(words[0])
        paths = list(scripts(language))
        ran = subprocess.run([*words, *paths], cwd=TOP, stdout=subprocess.PIPE, stderr=subprocess.STDOUT, text=True, check=False)
        self.said = f"{len(paths)} scripts"
        expect(paths and ran.returncode == 0, f"{words[0]}: {ran.stdout}")

    def test_shell(self):
        self.lint("sh", "shellcheck", "-x", "-P", "SCRIPTDIR")

    def test_python(self):
        self.lint("python", "pyflakes3" if shutil.which("pyflakes3") else "pyflakes")

    def test_perl(self):
        needs("perl")
        for path in scripts("perl"):
            ran = subprocess.run(["perl", "-c", path], stdout=subprocess.PIPE, stderr=subprocess.STDOUT, text=True, check=False)
            expect(ran.returncode == 0, f"{path}: {ran.stdout}")
