"""A launcher of the checks' own, whose answers are known."""

import os
import re
import select
import subprocess

from support.program import Wrong, expect

SECONDS = 60


class Launcher:
    """Starts the program with pairs of pipes, and answers each request by what `answer` gives for the file (none: all pipes end). A device
    is said to be held, and not asked about."""

    def __init__(self, place, job, *words, pairs=17):
        self.requests, self.answers, theirs = [], [], []
        for _ in range(pairs):
            requests, requesting = os.pipe()
            answered, answers = os.pipe()
            self.requests.append(requests)
            self.answers.append(answers)
            theirs += [requesting, answered]
        numbers = ",".join(f"{w}:{r}" for w, r in zip(theirs[::2], theirs[1::2]))
        place.put("job", job)
        self.run = subprocess.Popen(
            [place.program, f"--drop-pipes={numbers}", *words, "job"],
            cwd=place.path,
            pass_fds=theirs,
            stdout=subprocess.PIPE,
            stderr=subprocess.PIPE,
            text=True,
        )
        for it in theirs:
            os.close(it)

    def end_pipes(self):
        for it in (*self.requests, *self.answers):
            os.close(it)
        self.requests, self.answers = [], []

    def answer_all(self, answer):
        asked = 0
        while self.requests:
            for requests in select.select(self.requests, [], [], SECONDS)[0] or [None]:
                if requests is None:
                    self.run.kill()
                    raise Wrong("the run stands still")
                line = os.read(requests, 100)
                place = self.requests.index(requests)
                if not line:
                    os.close(requests)
                    os.close(self.answers.pop(place))
                    del self.requests[place]
                    continue
                if line.startswith(b"hold "):
                    os.write(self.answers[place], b".")
                    continue
                found = re.fullmatch(rb"(?:clean (?=\d+ \d+ \d+\n)|direct )(\d+)(?: \d+ \d+)?\n", line)
                expect(found, f"no request: {line}")
                said = answer(asked, f"/proc/{self.run.pid}/fd/{int(found[1])}")
                asked += 1
                if not said:
                    self.end_pipes()
                    break
                os.write(self.answers[place], said)
        return asked

    def ended(self):
        out, err = self.run.communicate(timeout=SECONDS)
        self.end_pipes()
        return subprocess.CompletedProcess([], self.run.returncode, out, err)
