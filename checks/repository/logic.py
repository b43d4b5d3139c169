"""The logic that README names, and the one that the program's --version names, and that of the kit that is here (rt version). Kits may
differ, as long as their logic is the same."""

import os
import re
import subprocess

from support.case import Case
from support.program import TOP, expect


class Logic(Case):
    """Whether the kit's logic is named."""

    def setUp(self):
        super().setUp()
        said = subprocess.run(["rt", "version"], stdin=subprocess.DEVNULL, capture_output=True, text=True, check=True).stdout
        found = re.search(r" logic ([0-9a-f]+)$", said, re.M)
        expect(found, "rt version names no logic:", said)
        self.said = found[1]

    def test_readme_names_it(self):
        with open(os.path.join(TOP, "README.md"), encoding="utf-8") as it:
            expect(f"logic `{self.said}`" in it.read(), "README.md doesn't name the logic", self.said)

    def test_the_program_names_it(self):
        ended = self.place.run("--version")
        expect(f"logic {self.said}" in ended.out.decode().splitlines(), "the program's --version doesn't name the logic", self.said, ended)
