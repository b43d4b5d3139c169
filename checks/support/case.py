"""What the classes of checks begin with: the program, a folder for each check, and its parts."""

import concurrent.futures
import functools
import os
import shutil
import tempfile
import unittest

from support.place import Place
from support.program import TOP, Wrong, needs, own_folder

# Where bin/fiorun and the gate build the program.
BUILT = os.path.join(TOP, "crates", "fiorun", "out", "fiorun")


class Given:
    """The program that checks/run was given, if it was."""

    program = None


@functools.cache
def program():
    """A copy of the program that others may start too, in the folder of this run."""
    path = Given.program or BUILT
    try:
        with open(path, "rb") as it:
            is_built = it.read(4) == b"\x7fELF"
    except OSError:
        is_built = False
    if not is_built:
        raise Wrong(f"{path} isn't a built program")
    copy = shutil.copyfile(path, os.path.join(own_folder(), "fiorun"))
    os.chmod(copy, 0o755)
    return copy


class Case(unittest.TestCase):
    """Checks of one subject over the program. Each has a folder of its own, `place`."""

    # The tools without which none of them can be tried.
    tools = ()
    # Below which folder theirs lie, where it isn't that of temporary files.
    where = None
    # The mode of their folders, and what runs the program there.
    mode = 0o755
    kind = Place
    # How many parts of a check are tried at once.
    at_once = 1
    # What stands in the line of a check.
    said = ""

    def setUp(self):
        needs(*self.tools)
        self.place = self.fresh()

    def fresh(self):
        """Another folder, which goes as the check ends."""
        folder = tempfile.TemporaryDirectory(dir=own_folder(self.where))
        self.addCleanup(folder.cleanup)
        os.chmod(folder.name, self.mode)
        return self.kind(program(), folder.name)

    def says(self, text):
        """What else stands in the line of this check."""
        self.said += "; " * bool(self.said) + text

    def tries(self, function, parts):
        """Tries each of these parts, a value or several, in a folder of its own: those are subtests."""
        parts = [it if isinstance(it, tuple) else (it,) for it in parts]
        if self.at_once == 1:
            tried = [(part, lambda part=part: function(self.fresh(), *part)) for part in parts]
            self.tell(tried)
            return
        with concurrent.futures.ThreadPoolExecutor(self.at_once) as pool:
            self.tell([(part, pool.submit(function, self.fresh(), *part).result) for part in parts])

    def tell(self, tried):
        """Has each of these parts tell what it came to."""
        for part, end in tried:
            with self.subTest(part=" ".join(map(str, part))):
                end()


def parts(*values):
    """A check that is tried with each of these, a value or several. It is given a folder for each, and them."""

    def of(method):
        @functools.wraps(method)
        def check(self):
            self.tries(functools.partial(method, self), values)

        return check

    return of


def one_for_each(case, given):
    """A check of the class for each of these: their names, which may have any letters, and what the function is given of each."""

    def of(function):
        for name, it in given.items():

            def check(self, it=it):
                function(self, it)

            check.__doc__ = function.__doc__
            setattr(case, "test_" + "".join(letter if letter.isalnum() else "_" for letter in name), check)
        return function

    return of
