"""Job texts (--parse-only) and traces (--check-trace) with random changes, made of those of examples/ (checks/support/mutate.c).

Each must end with a plan or totals (status 0), or be refused in one line (status 2), within 20 seconds. TRIALS are tried (10000); SEED
makes them others.
"""

import glob
import os
import re
import shutil
import subprocess
import tempfile

from support.case import Case
from support.program import HERE, TOP, compiler, expect, trials

# Engines of a job whose trace needs no files, and those of one that has some.
IN_MEMORY = re.compile(r"ioengine=(?:memory|null)")
OVER_FILES = re.compile(r"ioengine=(?:sync|psync|libaio|io_uring|posixaio)")
LONGEST = 30000


class Mutations(Case):
    """Texts and traces with random changes."""

    def sources(self):
        """The words by which the program that changes them is given the job files, and traces of those over no files."""
        words = []
        for path in sorted(glob.glob(os.path.join(TOP, "examples", "*.fio"))):
            words.append(path)
            with open(path, encoding="utf-8") as it:
                text = it.read()
            if not IN_MEMORY.search(text) or OVER_FILES.search(text):
                continue
            trace = self.place.at(os.path.basename(path).replace(".fio", ".trace"))
            ran = self.place.run("--workers=1", f"--trace={trace}", path)
            expect(ran.status in (0, 1), path, "ends as", ran)
            if os.path.getsize(trace) <= LONGEST:
                words += ["--trace", path, trace]
        return words

    def test_each_has_a_plan_totals_or_a_fault_by_name(self):
        mutate, texts = self.place.at("mutate"), self.place.at("texts")
        subprocess.run([compiler(), "-O2", "-Wall", "-o", mutate, os.path.join(HERE, "mutate.c")], check=True)
        os.mkdir(texts)
        count, seed = str(trials(10000)), os.environ.get("SEED", "1")
        words = [mutate, self.place.program, count, texts, seed, *self.sources()]
        ran = subprocess.run(words, stdin=subprocess.DEVNULL, capture_output=True, text=True, errors="replace", check=False)
        self.says(f"{count} texts")
        if ran.returncode:
            kept = shutil.copytree(texts, tempfile.mkdtemp(), dirs_exist_ok=True)
            expect(False, f"status {ran.returncode}: {ran.stdout[-2000:]}{ran.stderr[-2000:]}; the texts stand in {kept}")
