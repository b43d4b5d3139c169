"""A run whose file is changed by somebody else."""

import os
import subprocess
import time

from support.program import SystemCalls, built_library, expect

SECONDS = 120


def run_changed(place, job, name, offsets, words):
    """The report of a run with one worker that is held before its first check, while these bytes of its file are changed."""
    calls = SystemCalls(built_library("faulty.c"), place.at("calls"))
    ours, theirs = os.pipe()
    environment = {**calls.environment("pread 1 wait"), "GATE": str(ours)}
    how = {"stdout": subprocess.PIPE, "stderr": subprocess.PIPE, "cwd": place.path, "env": environment, "pass_fds": [ours]}
    with subprocess.Popen([place.program, "--workers=1", *words, job], **how) as it:
        os.close(ours)
        until = time.monotonic() + SECONDS
        while calls.counted()["pread"] == 0 and it.poll() is None and time.monotonic() < until:
            time.sleep(0.01)
        with open(place.at(name), "r+b") as file:
            for offset in offsets:
                file.seek(offset)
                byte = file.read(1)[0]
                file.seek(offset)
                file.write(bytes([byte ^ 1]))
        os.close(theirs)
        report, said = it.communicate(timeout=SECONDS)
    expect(it.returncode == 1 and not said, "status", it.returncode, said)
    return report.decode()
