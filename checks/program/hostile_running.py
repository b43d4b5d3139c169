"""What others do while a job runs (signals, files that are cut, changed or removed), and jobs at random."""

import os
import random
import signal
import threading
import time

from support.case import Case
from support.place import FOUR, FOUR_SAID, IN_MEMORY, ending, says, traced
from support.program import Ended, expect, total

LONG = "[w]\nfilename=data\nrw=randwrite\nbs=4k\nsize=8m\nloops=1000\nverify=md5\n"


def while_running(place, job, harm):
    """Runs a job while another does harm to its file, and looks whether what is said of it fits together."""
    place.put("data", b"")
    over = threading.Event()

    def go_on():
        count = 0
        while not over.is_set():
            harm(count)
            count += 1

    other = threading.Thread(target=go_on)
    other.start()
    try:
        return traced(place, job, place.run("--trace=trace", text=job))
    finally:
        over.set()
        other.join()


HARMED = "[w]\nfilename=data\nrw=randwrite\nbs=4k\nsize=1m\nloops=20\niodepth=4\nverify=md5\n"
READ_TOO = HARMED + "[r]\nfilename=data\nrw=randread\nbs=4k\nsize=1m\nloops=20\n"


def drawn_job(draw, name):
    """The lines of a random job that verifies where it may."""
    rw = draw.choice("read write randread randwrite rw randrw".split())
    block = draw.choice((512, 1024, 4096))
    lines = [f"[{name}]", f"rw={rw}", f"bssplit={block}/60:{block * 3}/", f"size={draw.randint(6, 60) * block}"]
    lines += [f"iodepth={draw.randint(1, 9)}", f"randseed={draw.getrandbits(64)}"]
    if "read" not in rw:
        lines += ["verify=" + draw.choice("0 md5 sha1 sha256 pattern".split()), "verify_pattern=0xabcdef"]
    may = ["verify_backlog=3", "do_verify=0", "norandommap", "loops=3", "numjobs=3", "stonewall", "verify_async=2", "offset=1536"]
    may += [f"filename=f{draw.randint(0, 1)}", "verify_fatal=1"]
    return lines + [it for it in may if draw.random() < 0.3]


class Running(Case):
    """What others do while a job runs (signals, files that are cut, changed or removed), and jobs at random."""

    def test_signals(self):
        """A run that is stopped by a signal says nothing, and leaves its files as they are; it can be stopped for a while."""
        place = self.place
        for number in (signal.SIGINT, signal.SIGTERM, signal.SIGHUP, signal.SIGKILL):
            # (a run is born ignoring what this program does, as SIGINT behind a shell's `&` or SIGHUP under nohup)
            if signal.getsignal(number) == signal.SIG_IGN:
                signal.signal(number, signal.SIG_DFL)
            place.put("data", b"")
            place.put("other", b"old")
            child = place.start("--trace=t", text=LONG)
            for _ in range(2000):
                if os.path.getsize(place.at("data")) == 8 << 20 and os.stat(place.at("data")).st_blocks > 64:
                    break
                time.sleep(0.005)
            child.send_signal(signal.SIGSTOP)
            time.sleep(0.02)
            child.send_signal(signal.SIGCONT)
            child.send_signal(number)
            expect(ending(child) == Ended(-number, b"", b""), f"after signal {number}:", child.returncode)
            expect(os.path.getsize(place.at("data")) == 8 << 20 and place.get("other") == b"old", "the files aren't as they were")
            ended = place.run("--check-trace=t", text=LONG)
            expect(ended.status in (2, 3) and not ended.out, "the trace of a run that was killed is accepted:", ended)
        says(place.run(text=FOUR), 0, FOUR_SAID)
        says(place.run(text=IN_MEMORY, shell="trap '' INT TERM HUP PIPE"), 0, FOUR_SAID)

    def test_files_cut_meanwhile(self):
        """A file that is cut short again and again: whatever was met is counted, and report, trace and status are of one mind."""
        place = self.place
        data = place.at("data")
        for _ in range(5):
            while_running(place, READ_TOO, lambda count: (os.truncate(data, count * 7919 % (1 << 20)), time.sleep(0.0005)))
        # To nothing, all the time: reads of nothing are faults.
        while_running(place, READ_TOO, lambda count: os.truncate(data, 0))

    def test_files_changed_meanwhile(self):
        """Blocks that another writes over meanwhile are bad ones or good ones, and nothing else."""
        place = self.place

        def scribble(count):
            with open(place.at("data"), "r+b") as it:
                it.seek(count * 7919 % (1 << 20))
                it.write(b"scribble")

        for _ in range(3):
            sums = while_running(place, HARMED, scribble)
            expect(sums["faults"] == 0 and sums["checks"] == sums["writes"] == 5120, "a file that is written to has no faults:", sums)

    def test_files_removed_meanwhile(self):
        """A file that is removed or replaced while it is open stays the run's own."""
        place = self.place
        place.put("data", b"")
        child = place.start(text=LONG.replace("loops=1000", "loops=20"))
        for _ in range(2000):
            if os.path.getsize(place.at("data")) == 8 << 20:
                break
            time.sleep(0.002)
        os.remove(place.at("data"))
        place.put("data", b"another")
        said = total(writes=40960, wbytes=40960 * 4096, checks=40960, good=40960)
        expect(ending(child) == Ended(0, said.encode(), b""), "a file that was removed:", child.returncode)
        expect(place.held() == {"data": b"another"}, "the file in its place was changed")

    def test_jobs_at_random(self):
        """Random jobs over files and memories that hold what they are given: nothing goes wrong, and report and trace are of one mind."""
        place = self.place
        draw = random.Random(1)
        for _ in range(120):
            lines = ["[global]", "ioengine=" + draw.choice(("memory", "psync"))]
            for name in "abc"[: draw.randint(1, 3)]:
                lines += drawn_job(draw, name)
            job = "\n".join(lines) + "\n"
            ended = place.run(f"--workers={draw.choice((1, 2, 4, 16))}", "--trace=trace", text=job)
            sums = traced(place, job, ended)
            expect(ended.status == 0, job, "ended with", sums)
            for name in os.listdir(place.path):
                os.remove(place.at(name))
