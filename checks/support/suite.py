"""The suite of checks: which there are, and how they are run (checks/run)."""

import fnmatch
import io
import os
import signal
import sys
import time
import traceback
import unittest

from support.case import Case, Given, program
from support.program import HERE, Wrong

CHECKS = os.path.dirname(HERE)
# The folders of checks in the order in which they are run: what takes seconds first, and what compiles last.
FOLDERS = ("repository", "program", "devices", "build")
# What unittest calls a file of checks that can't be read.
UNREAD = "unittest.loader._FailedTest."


def name_of(test):
    """The name of a check: its folder, its file, and what it looks at. Of a file that can't be read it is the first two."""
    if test.id().startswith(UNREAD):
        return test.id().removeprefix(UNREAD)
    *module, _, method = test.id().split(".")
    return ".".join([*module, method.removeprefix("test_")])


def is_named(name, words):
    """Whether a check is one of those that these words name: a part of its name between points, or several, with `*` for any letters."""
    parts = name.split(".")
    spans = [".".join(parts[a:b]) for a in range(len(parts)) for b in range(a + 1, len(parts) + 1)]
    return not words or any(fnmatch.fnmatchcase(span, word) for span in spans for word in words)


def place_of(test):
    """Where a check comes in the order."""
    folder = name_of(test).split(".")[0]
    return FOLDERS.index(folder) if folder in FOLDERS else len(FOLDERS)


def all_checks():
    """All checks of the folders, in their order."""
    found, left = [], [unittest.defaultTestLoader.discover(CHECKS, "[a-z]*.py", CHECKS)]
    while left:
        it = left.pop()
        if isinstance(it, unittest.TestSuite):
            left += reversed(list(it))
        else:
            found.append(it)
    return sorted(found, key=place_of)


def told(error):
    """What a check failed of. Where it isn't that of the program, with the place in the check."""
    kind, why, _ = error
    return str(why) if issubclass(kind, Wrong) else "".join(traceback.format_exception(*error))


class Lines(unittest.TestResult):
    """Prints a line for each check as it ends, and what a failed one has printed; and counts them."""

    def __init__(self, out):
        super().__init__()
        self.out, self.parts, self.passed, self.left_out, self.failed = out, 0, [], [], []

    def startTest(self, test):
        super().startTest(test)
        self.is_passed, self.lacking, self.wrong, self.own_parts, self.began = False, [], [], 0, time.monotonic()
        sys.stdout = sys.stderr = self.printed = io.StringIO()

    def stopTest(self, test):
        sys.stdout, sys.stderr = self.out, sys.__stderr__
        super().stopTest(test)
        self.parts += max(self.own_parts, 1)
        if not (self.is_passed or self.lacking or self.wrong):
            self.wrong.append("it was interrupted")
        counted = [f"{self.own_parts} parts"] * bool(self.own_parts)
        said = "; ".join([*self.lacking, *filter(None, [getattr(test, "said", "")]), *counted])
        ended, which = ("FAILED", self.failed) if self.wrong else ("skipped", self.left_out) if self.lacking else ("ok", self.passed)
        which.append(name_of(test))
        print(f"{name_of(test)}: {ended} ({time.monotonic() - self.began:.1f} s){said and ': ' + said}", file=self.out)
        for it in self.wrong:
            print(f"    FAILED: {it}", file=self.out)
        print(self.printed.getvalue() if self.wrong else "", end="", file=self.out, flush=True)

    def addSuccess(self, test):
        super().addSuccess(test)
        self.is_passed = True

    def addSubTest(self, test, subtest, err):
        super().addSubTest(test, subtest, err)
        self.own_parts += 1
        if err:
            self.wrong.append(f"{' '.join(map(str, subtest.params.values()))}: {told(err)}")

    def addSkip(self, test, reason):
        super().addSkip(test, reason)
        self.lacking.append(reason)

    def addFailure(self, test, err):
        super().addFailure(test, err)
        self.wrong.append(told(err))

    def addError(self, test, err):
        super().addError(test, err)
        self.wrong.append(told(err))

    def tell(self, took):
        """What became of all."""
        if self.failed:
            print(f"checks: FAILED: {' '.join(self.failed)}", file=self.out)
        counts = f"{len(self.passed)} passed, {len(self.failed)} failed, {len(self.left_out)} skipped"
        print(f"checks: {self.testsRun} checks of {self.parts} parts: {counts} ({took:.0f} s)", file=self.out)


def with_program(checks, result):
    """These checks, or those of them that need no program where there is none: that is said, and counts as one that failed."""
    over = [it for it in checks if isinstance(it, Case)]
    try:
        if over:
            program()
    except (Wrong, OSError) as why:
        print(f"checks: FAILED: {len(over)} checks can't be tried: {why}", file=result.out, flush=True)
        result.failed.append("the program")
        return [it for it in checks if it not in over]
    return checks


def run(checks):
    """Runs these checks one after another, and gives the status."""
    result, begun = Lines(sys.stdout), time.monotonic()
    # (so that a check that is told to end unmounts what it has mounted)
    signal.signal(signal.SIGTERM, signal.default_int_handler)
    try:
        unittest.TestSuite(with_program(checks, result)).run(result)
    except KeyboardInterrupt:
        result.failed.append("interrupted")
    result.tell(time.monotonic() - begun)
    return 1 if result.failed else 0


def main(words):
    is_list = words[:1] == ["--list"]
    words = words[is_list:]
    if words and "/" in words[0]:
        Given.program = os.path.realpath(words.pop(0))
    checks = [it for it in all_checks() if is_named(name_of(it), words)]
    unknown = [it for it in words if not any(is_named(name_of(check), [it]) for check in checks)]
    if unknown:
        print(f"checks: FAILED: no check is called {' '.join(unknown)}")
        return 1
    if not is_list:
        return run(checks)
    for it in checks:
        print(f"{name_of(it)}: {it.shortDescription() or ''}".removesuffix(": "))
    return 0
