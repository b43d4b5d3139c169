"""What the documents name, and the sources: a path that isn't there, a name that nothing has, a function or a clause that isn't in the file
or the crate beside it, a count of lines that is another.

- A path in backquotes is that of a file or folder; one that begins within a crate (`src/`, `specs/`), and a file's name alone, is that of
  some file.
- A name in backquotes stands somewhere in the repository's sources, scripts or cases.
- A name that is said to be in a file (`name` in `path`; with the path in brackets after it, or the other way around) is in that file, and
  what is said to be of a crate (`name`, `name` of `crate`) is that crate's.
- What is called a law is one: a function that does nothing, or the statement of one. What is called a clause is one.
- HEADLINE: what a table's row says of calls and clauses is in the row's files, and its modules are among the specs, with as many lines. All
  modules that these calls' contracts name, and those that these name in turn, are in one of its tables, and are believed or claimed. A row
  of modules that begins with one of these two words is right to.
- A crate's README: there is one, but for the tests. What stands in brackets in it is a clause, a law, a function or a definition of that
  crate, or of one below it.
- DEFINITIONS: the modules of a heading are there, and what a line below it begins with is in the specs or types of one of its crates."""

import functools
import os
import re
import subprocess
import unittest

from support.program import TOP, expect

# (CHANGELOG speaks of what is gone, too)
DOCUMENTS = ["README.md", "CONTRIBUTING.md", *(f"docs/{it}" for it in sorted(os.listdir(f"{TOP}/docs")) if it.endswith(".md"))]
README = re.compile(r"crates/(\w+)/README\.md")
QUOTED = re.compile(r"`([^`\n]+)`")
PATH = re.compile(r"(?:[\w.-]+/)+[\w.-]*|[\w-]+\.(?:rt|antt|py|sh|md|c|cases|edit|fio)")
NAME = re.compile(r"[A-Za-z_][\w-]*(?:::[A-Za-z_]\w*)*")
FOLDERS = ("crates", "checks", "bench", "bin", "docs", "examples", "launcher", "tools")
# Folders of a crate.
PARTS = ("src", "specs", "proofs", "must-fail")
# Names one after another: `name`, `name` and `name`.
NAMES = r"(?:`[^`\n]+`(?:,\s+|\s+and\s+|,\s+and\s+))*`[^`\n]+`"
# A function that does nothing, with its contract.
LAW = re.compile(r"^pub fn (\w+)\(\)((?:\s+ensures[^\n]*)+)\s*^\{\}", re.M)
# Where a file of the sources or of definitions takes names of definitions from.
USE = re.compile(r"^\s*(?:pub |ghost )*use Rattle\.(\w+)\.specs\.(\w+)(?:\.\{([^}]*)\}| as \w+)?;?\s*$", re.M)
# What stands for whatever a reader puts there.
HOLDERS = re.compile(r"\b(NAME|PATH|FILE|N|F|MODULE)\b")
# Names of fio, of the system and of the kit, which no file here has.
OUTSIDE = {"jr_", "POSIX_FADV_RANDOM", "async", "awupf", "buffer_pattern", "fsck", "nawupf", "nobarrier", "perf", "protected_symlinks"}
OUTSIDE |= {"rattle-kit-13b", "rattle-kit-13f"}


def tracked():
    said = subprocess.run(["git", "ls-files", "-co", "--exclude-standard"], cwd=TOP, stdout=subprocess.PIPE, text=True, check=True)
    return [it for it in said.stdout.splitlines() if os.path.isfile(f"{TOP}/{it}")]


def text_of(path):
    with open(f"{TOP}/{path}", encoding="utf-8", errors="replace") as it:
        return it.read()


class Sources:
    """What the repository has, but for its documents."""

    def __init__(self):
        self.files = tracked()
        self.texts = {it: text_of(it) for it in self.files}
        # (each path and each part of one, and those of definitions and proofs without their ending too)
        split = [it.split("/") for path in self.files for it in {path, path.removesuffix(".antt")}]
        self.paths = {"/".join(it[a:b]) for it in split for a in range(len(it)) for b in range(a + 1, len(it) + 1)}
        outside = [it for it in self.files if not it.endswith(".md")]
        self.words = set(re.findall(r"[A-Za-z_][\w-]*", "\n".join([*outside, *(self.texts[it] for it in outside)])))
        self.words |= set(re.findall(r"[A-Za-z_]\w*", "\n".join(self.texts[it] for it in outside)))
        # (a case of checks is named without what unittest wants)
        self.words |= {it.removeprefix("test_") for it in self.words} | OUTSIDE
        lines = [it.partition(":") for it in self.texts["crates.txt"].splitlines() if ":" in it and it[0] != "#"]
        self.below = {name.strip(): rest.split() for name, _, rest in lines}
        self.code = {path: bare(text) for path, text in self.texts.items() if re.fullmatch(r"crates/\w+/src/.*\.rt", path)}
        self.clauses = {it for text in self.code.values() for it in re.findall(r"\b(?:ensures|requires) (\w+)", text)}
        found = [it for text in self.code.values() for it in LAW.findall(text)]
        self.laws = {name for name, _ in found} | {it for _, said in found for it in re.findall(r"\w+", said)}

    def has_path(self, path):
        return path.rstrip("/") in self.paths

    def of_crates(self, names, parts=("src", "specs")):
        wanted = tuple(f"crates/{name}/{part}/" for name in names for part in parts)
        return "\n".join(bare(text) for path, text in self.texts.items() if path.startswith(wanted))

    @functools.cache
    def declared(self, crate):
        """What a crate declares in its sources and specs."""
        return declared(self.of_crates([crate]))

    def declares(self, crates, name):
        return any(name.rsplit("::", 1)[-1] in self.declared(it) for it in crates)

    def with_below(self, name):
        """The crate, and those below it."""
        found, left = [], [name]
        while left:
            one = left.pop()
            if one in self.below and one not in found:
                found.append(one)
                left += self.below[one]
        return found

    def module(self, crate, name):
        return self.texts.get(f"crates/{crate}/specs/{name}.antt")


def used(text):
    """The modules of definitions that a file names, each with the names that it takes from it."""
    found = {}
    for crate, module, names in USE.findall(text):
        found.setdefault((crate, module), set()).update(it.split(" as ")[-1].strip() for it in names.split(","))
    return found


def contracts(text, name):
    """The heads of the functions of this name in a source, with their contracts: what stands before a line that opens a body."""
    for found in re.finditer(rf"^ *(?:pub )?fn {re.escape(name)}\b", text, re.M):
        yield re.split(r"(?:^ *\{\}?|(?<=\S) \{|;)$", text[found.start() :], maxsplit=1, flags=re.M)[0]


def calls(text, name):
    """Whether a source has a function, a law, a clause or a part of a definition of this name."""
    last = name.rsplit("::", 1)[-1]
    return re.search(rf"\b(fn|ensures|requires|pub) {re.escape(last)}(?![\w-])", text) is not None


@functools.cache
def bare(text):
    """A source without its comments."""
    return re.sub(r"(^|\s)(//|--).*", "", text)


def declared(text):
    """The functions, types, constants, clauses and definitions of a source without its comments, and the parts of these."""
    kinds = "fn|ensures|requires|pub|record|struct|enum|trait|type|const|mod"
    return {*re.findall(rf"\b(?:{kinds}) (?=([\w-]+))", text), *re.findall(r"^ +([\w-]+)(?=[ ,(]|$)", text, re.M)}


def has(text, name):
    """Whether a source without its comments has this name: the last part of one with `::`."""
    last = name.rsplit("::", 1)[-1]
    return re.search(rf"(?<![\w-]){re.escape(last)}(?![\w-])", text) is not None


def paths(sources, document, text):
    for found in QUOTED.findall(text):
        if not PATH.fullmatch(found) or HOLDERS.search(found):
            continue
        if found.split("/")[0] in (*FOLDERS, *PARTS) and "/" in found or "/" not in found and re.search(r"\.(rt|antt|py|sh)$", found):
            if not sources.has_path(found):
                yield f"{document}: there is no {found}"


def names(sources, document, text):
    for found in QUOTED.findall(text):
        if NAME.fullmatch(found) and not HOLDERS.search(found) and not all(it in sources.words for it in found.split("::")):
            yield f"{document}: nothing is called {found}"


def named_in(text):
    """The names in backquotes."""
    return [it for it in QUOTED.findall(text) if NAME.fullmatch(it)]


def in_files(sources, document, text):
    """`name` (`path`), `name` (`path`, which ..), `name` in `path`, and `path` (`name`)."""
    path = r"`(crates/[\w/.]+\.(?:rt|antt))`"
    found = re.findall(rf"(`[\w:]+`)\**\s+\({path}", text) + re.findall(rf"({NAMES})\**\s+in\s+{path}", text)
    found += [(name, where) for where, name in re.findall(rf"{path}\s+\((`[\w:]+`)", text)]
    for some, where in found:
        there = bare(sources.texts[where]) if where in sources.texts else None
        yield from (f"{document}: {where} has no {it}" for it in named_in(some) if there and not has(there, it))


def of_crate(sources, document, text):
    """`name`, `name` of `crate`."""
    for found, crate in re.findall(rf"({NAMES})\s+of\s+`(jr_\w+|fiorun)`", text):
        if crate not in sources.below:
            yield f"{document}: there is no crate {crate}"
        yield from (f"{document}: {crate} has no {it}" for it in named_in(found) if not sources.declares([crate], it))


def laws(sources, document, text):
    """law `name`, laws `name`, `name`; clause `name`, clauses `name`, `name`."""
    for kind, found in re.findall(rf"\b([Ll]aws?|[Cc]lauses?)\s+({NAMES})", text):
        kind = kind.lower().rstrip("s")
        there = sources.clauses if kind == "clause" else sources.laws
        yield from (f"{document}: {it} is no {kind}" for it in named_in(found) if it not in there)


def rows_of(text):
    """Each row of a table as its cells."""
    for line in text.splitlines():
        if line.startswith("| ") and not line.startswith("|-"):
            yield [it.strip() for it in line.strip().strip("|").split("|")]


def modules_in(sources, text, default=None):
    """Pairs of a crate and a module that a text names: `crate`: modules `Module`, `Module`; `crate`: .."""
    crate = default
    for found in QUOTED.findall(text):
        if found in sources.below:
            crate = found
        elif crate:
            yield crate, found


def call_rows(sources, document, text):
    for cells in rows_of(text):
        files = [it for cell in cells for it in QUOTED.findall(cell) if it.startswith("crates/") and it in sources.texts]
        if not files or len(cells) < 3:
            continue
        modules = [sources.module(*it) or "" for it in modules_in(sources, cells[3])] if len(cells) > 3 else []
        there = "\n".join(bare(it) for it in [*(sources.texts[path] for path in files), *modules])
        below = {it for path in files for it in sources.with_below(path.split("/")[1])}
        first = QUOTED.search(cells[1])
        if first and not re.search(rf"\bfn {first[1].rsplit('::', 1)[-1]}\b", there):
            yield f"{document}: none of {', '.join(files)} has a function {first[1]}"
        for call in QUOTED.findall(cells[1]):
            # (what clauses name is defined in the crate or below, and they and what is called stand in the file)
            is_defined = call in DEFINED_BELOW or call[0].isupper() and "::" not in call
            if NAME.fullmatch(call) and not (has(sources.of_crates(below), call) if is_defined else calls(there, call)):
                yield f"{document}: none of {', '.join(files)} has {call}"


def module_rows(sources, document, text):
    for cells in rows_of(text):
        if len(cells) >= 3 and cells[1].isdigit():
            modules = list(modules_in(sources, cells[0], "jr_model"))
            counted = 0
            for crate, name in modules:
                module = sources.module(crate, name)
                if module is None:
                    yield f"{document}: {crate} has no module {name}"
                else:
                    counted += len(module.splitlines())
            if counted != int(cells[1]):
                yield f"{document}: {cells[0]} has {counted} lines, not {cells[1]}"
        elif len(cells) == 4:
            yield from missing_modules(sources, document, modules_in(sources, cells[3]))


def named_calls(text, sources):
    """The calls that a document names with their files, in a row of a table or in brackets: `call` (`path`)."""
    for cells in rows_of(text):
        files = [it for cell in cells for it in QUOTED.findall(cell) if it in sources.texts and it.endswith(".rt")]
        if len(cells) > 2:
            yield from ((path, it.rsplit("::", 1)[-1]) for path in files for it in QUOTED.findall(cells[1]) if NAME.fullmatch(it))
    for name, path in re.findall(r"`([\w:]+)`\**\s+\(`(crates/[\w/.]+\.rt)`", text):
        yield path, name.rsplit("::", 1)[-1]


def of_contracts(text, sources):
    """The modules that the contracts of the calls of a document name, and all that these name in turn."""
    left, found = [], set()
    for path, name in named_calls(text, sources):
        names = {it: module for module, some in used(sources.texts[path]).items() for it in some}
        there = contracts(bare(sources.texts[path]), name)
        left += [names[it] for one in there for it in re.findall(r"\w+", one) if it in names]
    while left:
        module = left.pop()
        if module not in found and sources.module(*module) is not None:
            found.add(module)
            left += used(sources.module(*module))
    return found


def tabled(text, sources):
    """The modules of a document's tables, each with its row."""
    for cells in rows_of(text):
        cell = cells[0] if len(cells) > 2 and cells[1].isdigit() else cells[3] if len(cells) == 4 else ""
        yield from ((module, cells) for module in modules_in(sources, cell, "jr_model") if sources.module(*module) is not None)


def whole_tables(sources, document, text):
    there = {module: cells for module, cells in tabled(text, sources)}
    labels = {it: sources.module(*it).partition(":")[0].removeprefix("-- ") for it in {*there, *of_contracts(text, sources)}}
    for (crate, name), label in sorted(labels.items()):
        if (crate, name) not in there:
            yield f"{document}: {crate}'s {name} is in no table, though a call's contract comes to it"
        if label not in ("Believed", "Claimed"):
            yield f"{document}: {crate}'s {name} is {label}"
        said = re.match(r"(believed|claimed):", there.get((crate, name), [""])[-1])
        if said and said[1] != label.lower():
            yield f"{document}: {crate}'s {name} is {label}, not {said[1]}"


def missing_modules(sources, document, modules):
    for crate, name in modules:
        if sources.module(crate, name) is None:
            yield f"{document}: {crate} has no module {name}"


def clauses(sources, document, text):
    """In a crate's README: (`clause`, `law`)."""
    crate = README.fullmatch(document)[1]
    if crate not in sources.below:
        yield f"{document}: there is no crate {crate}"
    there = sources.with_below(crate)
    for inside in re.findall(r"\(([^()]*`[^()]*)\)", text):
        for name in QUOTED.findall(inside):
            # (a method of a crate above may be named by its type)
            is_there = name in sources.below or sources.declares(sources.below if "::" in name else there, name) or sources.has_path(name)
            if NAME.fullmatch(name) and not is_there:
                yield f"{document}: {crate} has no {name}"


def missing_readmes(sources):
    for crate in sources.below:
        if not crate.startswith("jr_tests_") and f"crates/{crate}/README.md" not in sources.texts:
            yield f"crates/{crate} has no README.md"


def headings(sources, document, text):
    """In each part of DEFINITIONS whose heading has crates and modules: - `name`: .."""
    for part in re.split(r"^## ", text, flags=re.M)[1:]:
        heading, _, lines = part.partition("\n")
        yield from missing_modules(sources, document, modules_in(sources, heading, "jr_model"))
        there = sources.of_crates({"jr_model", *(set(sources.below) & set(QUOTED.findall(heading)))})
        for name in re.findall(r"^- `([^`\n]+)`", lines, flags=re.M):
            if NAME.fullmatch(name) and name not in sources.below and not has(there, name):
                yield f"{document}: {heading} has no {name}"


DEFINED_BELOW = {"report_of", "all_totals", "machine_run"}
LOOKS = {
    "docs/HEADLINE.md": (call_rows, module_rows, whole_tables),
    "docs/DEFINITIONS.md": (headings,),
}


@functools.cache
def all_sources():
    return Sources()


class Citations(unittest.TestCase):
    """Whether what the documents name is there."""

    def test_each_crate_has_a_readme(self):
        wrong = [*missing_readmes(all_sources())]
        expect(not wrong, "; ".join(wrong))

    def test_what_is_named_is_there(self):
        sources = all_sources()
        readmes = [it for it in sources.texts if README.fullmatch(it)]
        for document in [*DOCUMENTS, *readmes]:
            with self.subTest(part=document):
                looks = (paths, names, in_files, of_crate, laws, *LOOKS.get(document, (clauses,) if document in readmes else ()))
                wrong = [it for look in looks for it in look(sources, document, sources.texts[document])]
                expect(not wrong, "; ".join(dict.fromkeys(wrong)))
