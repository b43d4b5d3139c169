"""The job files of examples/, and its script (examples/try)."""

import os
import subprocess

from support.case import Case
from support.program import TOP, expect


class Examples(Case):
    """Each example's report and status, and what was written is checked later."""

    def test_each_has_its_report_and_status(self):
        words = [os.path.join(TOP, "examples", "try"), self.place.program]
        ran = subprocess.run(words, stdin=subprocess.DEVNULL, capture_output=True, text=True, check=False)
        expect(ran.returncode == 0, f"status {ran.returncode}: {ran.stdout[-4000:]}{ran.stderr[-2000:]}")
        self.says(ran.stdout.strip().splitlines()[-1])
