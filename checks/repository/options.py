"""What the documents say of options, and the program: the keys of a job, and the words of the command line.

The keys that a job may have stand in crates/jr_job_options/src/words.rt. The tables of docs/FORMATS.md and docs/USING.md and the man page's
list have each of them and no others; where two of these say from which number to which a value goes, or what its default is, they say the
same. The words of the command line stand in crates/jr_cli_words/src/arguments.rt: docs/help.txt and the man page's list have each of them, with
what it takes, the man page's synopsis has those of its list, and docs/USING.md speaks of each."""

import os
import re
import unittest

from support.program import TOP, expect

# What launcher/launch gives the program, and no user.
LAUNCHERS = {"drop-pipes", "stop-fd"}
# These have a synopsis of their own.
ALONE = {"help", "version"}
UNITS = {"": 1, "k": 2**10, "m": 2**20, "g": 2**30}


def text_of(path):
    with open(os.path.join(TOP, path), encoding="utf-8") as it:
        return it.read()


def table(path, head):
    """The rows of the table with this heading, as cells."""
    lines = text_of(path).splitlines()
    start = next(number for number, line in enumerate(lines) if line.startswith(head))
    for line in lines[start + 2 :]:
        if not line.startswith("|"):
            return
        yield [it.strip() for it in line.strip("|").split("|")]


def number(text):
    found = re.fullmatch(r"([\d,]+)([kmg]?)", text)
    return int(found[1].replace(",", "")) * UNITS[found[2]] if found else text


def said(text):
    """From which number to which a value goes, and its default, where the text says it."""
    bounds = re.search(r"(?<![\w.^])(\d[\d,]*) to (\d[\d,]*[kmg]?)(?![\w^])", text)
    default = re.search(r"[Dd]efault:? (?:is )?([\w.]+?)\.?(?=[\s,;.)]|$)", text)
    return {
        "bounds": bounds and (number(bounds[1]), number(bounds[2])),
        "default": number(default[1]) if default else None,
    }


def keys_of_program():
    body = re.search(r"const KEYS: .*?\n\];", text_of("crates/jr_job_options/src/words.rt"), re.S)[0]
    return set(re.findall(r'\("(\w+)", Key::', body))


def keys_of_formats():
    for cells in table("docs/FORMATS.md", "| Key (alias) |"):
        for key in re.findall(r"\w+", cells[0]):
            default = f"default {cells[2].split(', ')[0]}" if re.fullmatch(r"[\w, ]+", cells[2]) and cells[2] not in ("required", "none") else ""
            yield key, said(f"{cells[1]} {default if len(cells[2].split(', ')) == 1 else ''}")


def keys_of_using():
    for cells in table("docs/USING.md", "| Key | Here |"):
        for key in re.findall(r"`(\w+)`", cells[0]):
            yield key, said(cells[1])


def items(text):
    """The items of a list of the man page, each with its text."""
    for part in re.split(r"^\.It ", text, flags=re.M)[1:]:
        head, _, rest = part.partition("\n")
        yield head, " ".join(line for line in rest.splitlines() if not line.startswith((".El", ".Sh")))


def keys_of_man():
    man = text_of("docs/fiorun.1")
    section = man[man.index(".Sh JOB FILE") : man.index(".Sh THE REPORT")]
    for head, rest in items(section):
        for key in re.findall(r"\w+", head.removeprefix("Cm ")):
            yield key, said(rest)


def compare_keys():
    program = keys_of_program()
    tables = {
        "docs/FORMATS.md": dict(keys_of_formats()),
        "docs/USING.md": dict(keys_of_using()),
        "docs/fiorun.1": dict(keys_of_man()),
    }
    for path, found in tables.items():
        yield from (f"{path} has no option {key}" for key in sorted(program - set(found)))
        yield from (f"{path} has an option {key}, which is no key" for key in sorted(set(found) - program))
    for key in sorted(program):
        for what in ("bounds", "default"):
            say = {path: found[key][what] for path, found in tables.items() if key in found and found[key][what] is not None}
            if len(set(say.values())) > 1:
                yield f"{what} of {key}: " + ", ".join(f"{value} in {path}" for path, value in say.items())


def words_of_program():
    source = text_of("crates/jr_cli_words/src/arguments.rt")
    found = {}
    for kind, long, takes in re.findall(r'with_(\w+)\(\s*alloc,\s*(?:Ok\()?command\)?,\s*"([\w-]+)",\s*"([^"]*)"', source):
        found[long] = None if kind == "flag" else takes
    return {**found, "help": None, "version": None}


def words_of_help():
    return {word: takes or None for word, takes in re.findall(r"--([\w-]+)(?: <(\w+)>)?", text_of("docs/help.txt"))}


def words_of_man(text):
    found = re.findall(r"Fl Fl ([\w-]+)(?: Ns = Ns Ar (\w+))?$", text, flags=re.M)
    return {word: takes or None for word, takes in found}


def compare_words():
    program, man = words_of_program(), text_of("docs/fiorun.1")
    synopsis = man[man.index(".Sh SYNOPSIS") : man.index(".Sh DESCRIPTION")].replace(".Op ", "")
    options = man[man.index(".Sh DESCRIPTION") : man.index(".Sh JOB FILE")]
    listed = words_of_man("\n".join(head for head, _ in items(options)))
    users = {word: takes for word, takes in program.items() if word not in LAUNCHERS}
    pairs = (
        ("docs/help.txt", words_of_help(), users),
        ("docs/fiorun.1, options", listed, users),
        ("docs/fiorun.1, synopsis", words_of_man(synopsis), users),
    )
    for path, found, wanted in pairs:
        for word in sorted(set(found) | set(wanted)):
            if found.get(word, "-") != wanted.get(word, "-"):
                yield f"{path}: --{word} takes {found.get(word, 'no place')}, in the program {wanted.get(word, 'no place')}"
    using = text_of("docs/USING.md")
    yield from (f"docs/USING.md doesn't speak of --{word}" for word in sorted(users) if not re.search(rf"--{word}(?![\w-])", using))


class Options(unittest.TestCase):
    """Whether the documents have the program's options."""

    def test_keys_of_a_job(self):
        wrong = [*compare_keys()]
        expect(not wrong, "; ".join(wrong))
        self.said = f"{len(keys_of_program())} keys"

    def test_words_of_the_command_line(self):
        wrong = [*compare_words()]
        expect(not wrong, "; ".join(wrong))
        self.said = f"{len(words_of_program())} words"
