"""Programs that make by hand what one function alone may make: each must be refused for that and for nothing else.

They stand in checks/build/made_by_hand, whose makers.txt says what is said of each. They are compiled over the crates of this repository,
without a proof.
"""

import concurrent.futures
import os
import shutil
import subprocess
import tempfile
import unittest

from support.program import TOP, expect, own_folder

FOLDER = os.path.join(TOP, "checks", "build", "made_by_hand")
BELOW = "jr_model jr_engines jr_header"
SECONDS = 120


def makers():
    """The programs, each with what is said of it."""
    with open(os.path.join(FOLDER, "makers.txt"), encoding="utf-8") as it:
        lines = [line.split(maxsplit=1) for line in it if line.strip() and not line.startswith("#")]
    return {name: words.strip() for name, words in lines}


def lay_out(room):
    """Lays the sources out in the folder, with a crate for each of the programs."""
    for name in os.listdir(os.path.join(TOP, "crates")):
        for part in ("src", "specs"):
            source = os.path.join(TOP, "crates", name, part)
            if os.path.isdir(source):
                shutil.copytree(source, os.path.join(room, "crates", name, part))
    shutil.copy(os.path.join(TOP, "crates.txt"), room)
    with open(os.path.join(room, "crates.txt"), "a", encoding="utf-8") as crates:
        for name in makers():
            source = os.path.join(room, "crates", name, "src")
            os.makedirs(source)
            shutil.copy(os.path.join(FOLDER, f"{name}.program"), os.path.join(source, "main.rt"))
            crates.write(f"{name}: {BELOW}\n")


def is_refused(room, name, words):
    """It is refused, for what the words say and for nothing else."""
    how = {"stdin": subprocess.DEVNULL, "stdout": subprocess.PIPE, "stderr": subprocess.STDOUT, "text": True, "errors": "replace"}
    ran = subprocess.run(["rt", "try"], cwd=os.path.join(room, "crates", name), timeout=SECONDS, check=False, **how)
    said = "\n".join(ran.stdout.splitlines()[-20:])
    expect(ran.returncode != 0, f"{name} is taken: {said}")
    expect(words in ran.stdout, f"{name} is refused, and not since a field {words}: {said}")
    others = [it for it in ran.stdout.splitlines() if "error" in it and words not in it]
    expect(not others, f"{name} is refused for more than that a field {words}: {said}")


class Makers(unittest.TestCase):
    """Programs that make by hand what one function alone may make."""

    def test_each_is_refused(self):
        with tempfile.TemporaryDirectory(dir=own_folder()) as room, concurrent.futures.ThreadPoolExecutor() as pool:
            lay_out(room)
            for name, ran in [(name, pool.submit(is_refused, room, name, words)) for name, words in makers().items()]:
                with self.subTest(part=name):
                    ran.result()
