"""What bin/fiorun says on a clone that isn't built: help and version are those of the program, and no build begins."""

import os
import shutil
import subprocess

from support.case import Case
from support.program import TOP, expect


class FirstStart(Case):
    """The first start of bin/fiorun."""

    def setUp(self):
        super().setUp()
        self.clone = self.place.at("clone")
        for name in ("bin", "launcher"):
            shutil.copytree(os.path.join(TOP, name), os.path.join(self.clone, name))
        for name in ("crates.txt", "docs/help.txt", "crates/jr_cli_words/src/words.rt"):
            os.makedirs(os.path.dirname(os.path.join(self.clone, name)), exist_ok=True)
            shutil.copy(os.path.join(TOP, name), os.path.join(self.clone, name))

    def start(self, *words, **environment):
        words = [os.path.join(self.clone, "bin", "fiorun"), *words]
        more = {"stdin": subprocess.DEVNULL, "capture_output": True, "timeout": 20, "check": False}
        return subprocess.run(words, env={**os.environ, **environment}, **more)

    def wanted(self, word):
        ended = self.place.run(word)
        expect(ended.status == 0, word, "is refused by the program", ended)
        return ended.out

    def test_help_and_version_without_a_build(self):
        for word in ("--help", "-h", "--version", "-V"):
            with self.subTest(part=word):
                ended = self.start(word)
                expect(ended.returncode == 0, "status", ended.returncode)
                expect(ended.stdout == self.wanted(word), "another text than the program's:", ended.stdout, self.wanted(word))
                expect(b"\nfiorun: not built yet" in b"\n" + ended.stderr, "no word on the first build:", ended.stderr)
        expect(not os.path.exists(os.path.join(self.clone, "crates", "fiorun")), "a build began")

    def test_what_the_environment_names_isnt_run(self):
        """What it names for every script: a file, and a function."""
        self.place.put("taken", "echo taken\n")
        function = {"BASH_FUNC_readlink%%": '() { echo taken; command readlink "$@"; }'}
        ended = self.start("--version", BASH_ENV=self.place.at("taken"), ENV=self.place.at("taken"), **function)
        expect(ended.stdout == self.wanted("--version"), "the environment's file or function was run:", ended.stdout)
