#!/usr/bin/env python3
"""What the proof of each function takes. tools/function_times.py NAME [FLAG..] checks a crate with one process, over the libraries that
rt ci, rt check or a build of bin/fiorun has left, and prints the functions that were checked, the slowest first: seconds by the clock, and
of them the parts. Lts, Tie and Layout are the borrow checker's, Proof is the search for goals that have no answer, Answers are those in
proofs/. What an earlier call checked is kept (crates/NAME/out/times) and not checked again; --fresh forgets it. A FLAG is the prover's, as
--only PATH. Nothing else should run beside it. (A search that was kept takes no time in a later call: compare calls with --fresh.)"""

import collections
import os
import re
import shutil
import subprocess
import sys
import time

from prover import TOP, Lacking, libraries, words_of

SLOWEST = 30


def files_since(kept, began):
    """The files of checked modules that were written since then, in their order: when, and which library and module."""
    found = []
    for at, _, names in os.walk(kept):
        for name in names:
            written = os.stat(os.path.join(at, name)).st_mtime
            if name.endswith(".oantt") and written >= began:
                found.append((written, name.removesuffix(".oantt").removesuffix(".decls")))
    return sorted(found)


def function_of(module):
    """The function that a module is of, or the file of definitions or lemmas, and which part of its proof it is."""
    path = re.sub(r"^Rattle-\w+-(?:specs|proofs)\.?", "", module).split(".")
    names = [at for at, it in enumerate(path) if not it[:1].isupper()]
    end = names[-1] + 1 if names else 0
    return ".".join(path[:end]) or "definitions and lemmas", ".".join(path[end:]) or "itself"


def print_slowest(found, began):
    """Prints what took longest: a file was being made since the one before it."""
    whole, parts = collections.Counter(), collections.defaultdict(collections.Counter)
    for written, module in found:
        function, part = function_of(module)
        whole[function] += written - began
        parts[function][part] += written - began
        began = written
    for function, seconds in whole.most_common(SLOWEST):
        slowest = ", ".join(f"{part} {took:.1f}" for part, took in parts[function].most_common(4) if took >= 0.05)
        print(f"{seconds:7.1f} {function}: {slowest}")


def main():
    """Checks the crate, and says how it ended."""
    name, *flags = sys.argv[1:] or sys.exit(__doc__)
    folder, kept = os.path.join(TOP, "crates", name), os.path.join(TOP, "crates", name, "out", "times")
    if "--fresh" in flags:
        flags.remove("--fresh")
        shutil.rmtree(kept, ignore_errors=True)
    os.makedirs(kept, exist_ok=True)
    root = "src/main.rt" if os.path.exists(os.path.join(folder, "src", "main.rt")) else "src/lib.rt"
    try:
        words = words_of(name, libraries(name))
    except Lacking as why:
        sys.exit(f"tools/function_times.py: {why}")
    began = time.time()
    ended = subprocess.run([*words, root, "--jobs", "1", "--incremental", kept, *flags], cwd=folder, check=False, stdin=subprocess.DEVNULL)
    print_slowest(files_since(kept, began), began)
    return ended.returncode


if __name__ == "__main__":
    sys.exit(main())
