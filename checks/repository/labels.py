"""The first line of each file of definitions says what a reader has to do with it:

- `-- Believed: ..`: agree with it. It is a definition, or a premise. It names only what is believed.
- `-- Claimed: ..`: see what is proved. It is what laws say, or a rule that is kept, in words of its own. It names nothing internal, and
  some contract or rule names it, so that it is proved.
- `-- Internal: ..`: nothing. It is an invariant, or a step of a proof.

What a law says (a function without parameters that does nothing) is claimed, all of it."""

import functools
import re
import unittest

from repository.citations import LAW, all_sources, used
from support.program import expect

LABELS = ("Believed", "Claimed", "Internal")
MODULE = re.compile(r"crates/(\w+)/specs/(\w+)\.antt")
# Files of laws alone.
LAWS = re.compile(r"crates/(?:jr_laws_\w+/src/\w+|(?!jr_tests_)\w+/src/laws)\.rt")
# What each label may name.
NAMES = {"Believed": ("Believed",), "Claimed": ("Believed", "Claimed"), "Internal": LABELS}


class Modules:
    """The files of definitions, by crate and name: what each is labelled, and which of the others it names."""

    def __init__(self):
        self.texts = all_sources().texts
        found = {MODULE.fullmatch(path): text for path, text in self.texts.items() if MODULE.fullmatch(path)}
        found = {it.groups(): text for it, text in found.items() if it[2] != "Lib"}
        self.first = {it: text.partition("\n")[0] for it, text in found.items()}
        self.label = {it: line.removeprefix("-- ").partition(":")[0] for it, line in self.first.items()}
        self.named = {it: set(used(text)) & set(found) for it, text in found.items()}
        self.sources = all_sources().code

    def laws(self):
        """Each law: its file, its name, and the modules that its contract names."""
        for path, text in self.sources.items():
            names = {name: module for module, names in used(text).items() for name in names}
            for law, contract in LAW.findall(text):
                yield path, law, {names[it] for it in re.findall(r"\w+", contract) if it in names} & set(self.label)


def shown(module):
    return f"crates/{module[0]}/specs/{module[1]}.antt"


@functools.cache
def all_modules():
    return Modules()


class Labels(unittest.TestCase):
    """Whether each file of definitions has a label, and it can be true."""

    def test_each_has_one(self):
        modules = all_modules()
        wrong = [shown(it) for it, line in modules.first.items() if not re.match(rf"-- ({'|'.join(LABELS)}): \w", line)]
        expect(modules.first and not wrong, "no label, but", ", ".join(wrong))

    def test_names_nothing_below_it(self):
        modules = all_modules()
        wrong = [
            f"{shown(it)} is {label} and names {shown(other)}, which is {modules.label[other]}"
            for it, label in modules.label.items()
            for other in sorted(modules.named[it])
            if modules.label[other] not in NAMES.get(label, ())
        ]
        expect(not wrong, "; ".join(wrong))

    def test_what_laws_say_is_claimed(self):
        modules = all_modules()
        laws = list(modules.laws())
        wrong = [f"{path}: {law} says nothing of specs" for path, law, said in laws if not said]
        others = [(path, law, it) for path, law, said in laws for it in sorted(said) if modules.label[it] != "Claimed"]
        wrong += [f"{path}: {law} names {shown(it)}, which is {modules.label[it]}" for path, law, it in others]
        expect(laws and not wrong, "; ".join(wrong))
        self.said = f"{len(laws)} laws"

    def test_files_of_laws_have_laws_alone(self):
        modules = all_modules()
        laws = {(path, law) for path, law, _ in modules.laws()}
        found = [(path, it) for path, text in modules.sources.items() if LAWS.fullmatch(path) for it in re.findall(r"\bfn (\w+)", text)]
        wrong = [f"{path}: {it}" for path, it in found if (path, it) not in laws]
        expect(found and not wrong, "no law is", ", ".join(wrong))

    def test_what_is_claimed_is_proved(self):
        modules = all_modules()
        proved = {it for text in modules.sources.values() for it in used(text)}
        proved |= {other for it, label in modules.label.items() if label == "Claimed" for other in modules.named[it]}
        wrong = [shown(it) for it, label in modules.label.items() if label == "Claimed" and it not in proved]
        expect(not wrong, "no contract names", ", ".join(wrong))
