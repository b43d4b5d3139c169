"""Standard input, output and error that are full, closed, slow or unread."""

import os
import signal
import subprocess
import time

from support.case import Case
from support.place import FOUR, FOUR_HELD, FOUR_SAID, IN_MEMORY, TRACE, TRACED, ending, refuses, totals
from support.program import Ended, Skipped, Wrong, expect


def with_closed(place, ends):
    """Runs the four blocks with these redirections, looks what the file holds, and gives how the run ended, in a fresh folder again."""
    place.put("job", FOUR)
    ended = place.run("job", ends=ends)
    got = place.held()
    data = got.pop("data", FOUR_HELD)
    for name in os.listdir(place.path):
        os.remove(place.at(name))
    expect(data == FOUR_HELD and list(got) == ["job"], f"with {ends} the file isn't what was written:", data[:100], list(got))
    return ended


class Streams(Case):
    """Standard input, output and error that are full, closed, slow or unread."""

    def test_streams_full(self):
        """A report or a trace that isn't taken is no success; the blocks are written all the same."""
        place = self.place
        if not os.path.exists("/dev/full"):
            raise Skipped("no /dev/full")
        refuses(place.run(text=FOUR, ends=">/dev/full"), 3, "cannot write")
        expect(place.held() == {"data": FOUR_HELD}, "the file isn't what was written")
        refuses(place.run("--parse-only", text=FOUR, ends=">/dev/full"), 3, "cannot write")
        refuses(place.run("--check-trace=" + place.put("t", TRACE), text=TRACED, ends=">/dev/full"), 3, "cannot write")
        refuses(place.run("--trace=/dev/full", text=FOUR), 3, "cannot write", FOUR_SAID.encode())
        expect(place.run("--help", ends=">/dev/full").status == 3, "help that isn't taken")
        expect(place.run("--nothing", ends="2>/dev/full").status == 2, "a refusal that isn't taken")
        expect(place.run("no", ends="2>/dev/full") == Ended(3, b"", b""), "a fault that isn't taken")
        expect(place.get("data") == FOUR_HELD, "the file isn't what was written")

    def test_streams_closed(self):
        """A stream that is closed at the start is no data file's: nothing is written to one but its blocks."""
        place = self.place
        wrong = []
        for ends in "<&-|2>&-|<&- 2>&-|>&-|<&- >&-|>&- 2>&-|<&- >&- 2>&-|2>&- >/dev/full|<&- 2>&- >/dev/full".split("|"):
            # (a report that nobody takes is no success; of a fault that nobody takes the status is left)
            status = 3 if ">" in ends.replace("2>&-", "") else 0
            try:
                ended = with_closed(place, ends)
                expect(ended[:2] == (status, b"" if status else FOUR_SAID.encode()), f"with {ends} it ended with", ended)
            except Wrong as why:
                wrong.append(str(why))
        expect(not wrong, "; ".join(wrong))
        ended = place.run(ends="<&-")
        may = (Ended(2, b"", b"fiorun: job file: no job\n"), Ended(3, b"", b"fiorun: cannot read the job file\n"))
        expect(ended in may, "no standard input:", ended)
        expect(place.run("--nothing", ends="2>&-") == Ended(2, b"", b""), "a refusal that nobody hears")

    def test_traces_with_streams_closed(self):
        """A trace holds its events and nothing else where the report has no place to go."""
        place = self.place
        place.put("job", TRACED)
        for ends in (">&-", "<&- >&-", "<&- >&- 2>&-"):
            ended = place.run("--trace=t", "--workers=1", "job", ends=ends)
            got = place.get("t").decode() if os.path.exists(place.at("t")) else ""
            expect(got in ("", TRACE), f"with {ends} the trace holds", got)
            expect(ended.status == 3, f"a report that nobody takes ({ends}) ended with", ended)

    def test_reports_unread(self):
        """A reader that goes away, before or in the middle of a long report, makes no success, and costs no block."""
        place = self.place
        # (what was found is the status, also where nobody hears of it)
        for status, job in ((3, FOUR), (1, FOUR.replace("size=16k", "size=4m").replace("=data", "=/dev/zero") + "bs=512\n")):
            back, front = os.pipe()
            os.close(back)
            ended = place.run(text=job, stdout=front)
            os.close(front)
            may = (Ended(status, b"", b"fiorun: cannot write\n"), Ended(-signal.SIGPIPE, b"", b""))
            expect(ended in may, "a report without a reader ended with", ended)
        expect(place.get("data") == FOUR_HELD, "the file isn't what was written")
        child = place.start(text=FOUR.replace("size=16k", "size=4m").replace("=data", "=/dev/zero") + "bs=512\n")
        expect(child.stdout.read(10) == b"w: clone=0", "a report begins otherwise")
        child.stdout.close()
        said = child.stderr.read()
        child.stderr.close()
        may = ((1, b"fiorun: cannot write\n"), (-signal.SIGPIPE, b""))
        expect((child.wait(), said) in may, "a reader that went away:", child.returncode, said)

    def test_reports_slowly_read(self):
        """A long report comes whole to a slow reader; a pipe that doesn't wait is a fault or the whole report."""
        place = self.place
        job = "[n]\nioengine=null\nrw=write\nbs=512\nsize=2m\nverify=pattern\nverify_pattern=1\n"
        wanted = place.run(text=job)
        expect(wanted.status == 1 and totals(wanted)["bad"] == 4096, "4096 blocks of a device that loses them:", wanted.status)
        child = place.start(text=job)
        got = b""
        for _ in range(200):
            got += child.stdout.read(997)
            time.sleep(0.001)
        rest = ending(child)
        expect(Ended(rest.status, got + rest.out, rest.err) == wanted, "a slow reader gets another report")
        back, front = os.pipe()
        os.set_blocking(front, False)
        ended = place.run(text=job, stdout=front)
        os.close(front)
        with os.fdopen(back, "rb") as it:
            got = it.read()
        is_cut = ended == Ended(1, b"", b"fiorun: cannot write\n") and wanted.out.startswith(got)
        expect(is_cut or (ended.status == 1 and got == wanted.out), "a pipe that doesn't wait:", ended, len(got))

    def test_texts_slowly_given(self):
        """A job text that comes byte by byte is the same text."""
        place = self.place
        pipes = {it: subprocess.PIPE for it in ("stdin", "stdout", "stderr")}
        child = subprocess.Popen([place.program], cwd=place.path, bufsize=0, **pipes)
        for byte in IN_MEMORY.encode():
            child.stdin.write(bytes([byte]))
            time.sleep(0.002)
        child.stdin.close()
        child.stdin = None
        expect(ending(child) == Ended(0, FOUR_SAID.encode(), b""), "a text in parts gave another run")
