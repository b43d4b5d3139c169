"""Statements that are proved twice: a lemma of crates/*/proofs that says, word for word but for the names of its variables, what one of
another place says. It is proved once, in the lowest crate that all see whom it serves, and is `pub` there; jr_model has what is of no
subject but its own (BoolLemmas, OptionLemmas, ListLemmas, PlaceLemmas, HistoryLemmas ..), and the kit has more (`rt lemma`).

A name that a file imports from a crate of this repository, or declares, stands for what it is there: two lemmas on two definitions of one
name are two. The goals of functions (`goal.`), which the prover names, are left out, and so is what is no claim: a definition, a test value."""

import os
import re
import unittest
from collections import defaultdict

from support.program import TOP, expect

# Each is a set of lemmas that say the same, as CRATE.MODULE.NAME, with the reason why it stands.
EXCUSED: dict[frozenset[str], str] = {}

DECLARED = re.compile(r"(?:unfoldable |abbrev )?(?:pub )?([^\s:(){}]+) : (.*)")
TYPED = re.compile(r"(?:abbrev )?(?:pub )?(?:record|data) (\S+) .*")
IMPORTED = re.compile(r"(?:pub )?use (Rattle\.(?:jr_\w+|fiorun)\.[\w.]+)\.\{(.*)\}")
BINDER = re.compile(r"[({]([^(){}:]+) : ")
LAMBDA = re.compile(r"λ ([^().:]+)\.")
WORD = re.compile(r"[^\s(){}.,;\[\]]+")
CLAIM = re.compile(r"≡|≢|≤|<|⊥|Unit")
# What the last part of a statement begins with where it is no claim.
TYPES = {"List", "Option", "Result", "Type", "ℕ", "Bool"}


def statements(lines):
    """The names that a file declares at its left margin, each with what it says."""
    for at, line in enumerate(lines):
        found = DECLARED.fullmatch(line)
        if found and not line.startswith(("use ", "pub use ", "--")):
            said = [found[2]]
            for more in lines[at + 1 :]:
                if not more.startswith("    "):
                    break
                said.append(more.strip())
            yield found[1], " ".join(said)


def is_claim(said):
    if said.startswith("goal.") or not re.search(r"[({][^(){}:]+ : ", said):
        return False
    last = re.split(r" → ", said)[-1].split()
    return bool(CLAIM.search(said) or last and last[0][0].isupper() and last[0] not in TYPES and len(last) > 1)


def names_of(module, lines):
    """What each name of a file stands for, where it is one of this repository."""
    names = {name: f"{module}.{name}" for name, _ in statements(lines)}
    for line in lines:
        typed = TYPED.fullmatch(line)
        if typed:
            names[typed[1]] = f"{module}.{typed[1]}"
        found = IMPORTED.fullmatch(line.strip())
        for item in found[2].split(",") if found else ():
            there, _, here = item.strip().partition(" as ")
            names[here.strip() or there] = f"{found[1]}.{there}"
    return names


def normal(said, names):
    """A statement with its variables numbered in their order, and each name as what it stands for."""
    numbered = {}
    for found in [*BINDER.finditer(said), *LAMBDA.finditer(said)]:
        for name in found[1].split():
            numbered.setdefault(name, f"v{len(numbered)}")
    return re.sub(r"\s+", " ", WORD.sub(lambda word: numbered.get(word[0]) or names.get(word[0], word[0]), said))


def modules(top, part):
    """The files of a part of each crate: their modules, and their lines."""
    for crate in sorted(os.listdir(f"{top}/crates")):
        for at, _, files in os.walk(f"{top}/crates/{crate}/{part}"):
            for file in sorted(files):
                if file.endswith(".antt"):
                    with open(f"{at}/{file}", encoding="utf-8") as it:
                        path = os.path.relpath(f"{at}/{file}", f"{top}/crates").removesuffix(".antt")
                        yield "Rattle." + path.replace("/", "."), it.read().splitlines()


def passed_on(top):
    """What modules pass on (`pub use`): each name with whose it is."""
    found = {}
    for part in ("specs", "proofs"):
        for module, lines in modules(top, part):
            names = names_of(module, [it for it in lines if it.startswith("pub use ")])
            found |= {f"{module}.{name}": whose for name, whose in names.items()}
    return found


def twice(top):
    """The sets of lemmas that say the same, each with what it says."""
    places, whose = defaultdict(list), passed_on(top)
    for module, lines in modules(top, "proofs"):
        names = names_of(module, lines)
        while any(it in whose for it in names.values()):
            names = {name: whose.get(it, it) for name, it in names.items()}
        for name, said in statements(lines):
            if is_claim(said):
                short = module.removeprefix("Rattle.").replace(".proofs.", ".")
                places[normal(said, names)].append((f"{short}.{name}", said))
    return {frozenset(it for it, _ in found): found[0][1] for found in places.values() if len(found) > 1}


class Lemmas(unittest.TestCase):
    """Whether each statement is proved once."""

    def test_each_statement_is_proved_once(self):
        found = twice(TOP)
        wrong = [f"{', '.join(sorted(it))}: {said[:120]}" for it, said in found.items() if it not in EXCUSED]
        expect(not wrong, "proved twice:\n" + "\n".join(sorted(wrong)))
        gone = [", ".join(sorted(it)) for it in EXCUSED if it not in found]
        expect(not gone, "no longer proved twice, and still excused:\n" + "\n".join(gone))
        self.said = f"{len(EXCUSED)} excused"
