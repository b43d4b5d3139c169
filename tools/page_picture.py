#!/usr/bin/env python3
"""tools/page_picture.py [PROGRAM [PICTURE]] makes docs/page.png, the picture of a page in README.

PROGRAM is the built program, that of bin/fiorun where none is given. It runs a job over a file of which some bytes are changed between the
writes and their checks. A browser without a window, chromium of Debian's package of that name, takes the picture. It ends with 0 where the
picture is there and below 150 kB.
"""

import os
import shutil
import subprocess
import sys
import tempfile

sys.path.insert(0, os.path.join(os.path.dirname(os.path.realpath(__file__)), "..", "checks"))
sys.dont_write_bytecode = True

from support.case import BUILT  # noqa: E402
from support.changed import run_changed  # noqa: E402
from support.place import Place  # noqa: E402
from support.program import TOP  # noqa: E402

WINDOW = "1100,760"
MOST = 150000
JOB = """[global]
filename=disk.img
verify=md5
[old]
rw=write
size=2m
do_verify=0
[load]
rw=randwrite
bs=8k
offset=2m
size=6m
[scan]
rw=read
offset=8m
size=1m
verify=0
[rewrite]
rw=randwrite
bs=16k
norandommap
offset=10m
size=2m
"""
# Eight bytes side by side, and some alone.
CHANGED = [*range(3 << 20, (3 << 20) + 65536, 8192), 5 << 20, (6 << 20) + 77777, (7 << 20) + 4097]


def screenshot(page, picture, *words):
    """Has the browser take the picture of a page."""
    browser = shutil.which("chromium")
    if not browser:
        sys.exit("picture: FAILED: there is no chromium")
    flags = ["--headless", "--no-sandbox", "--hide-scrollbars", f"--window-size={WINDOW}", f"--screenshot={picture}"]
    subprocess.run([browser, *flags, *words, f"file://{page}"], check=True, stderr=subprocess.DEVNULL, timeout=120)


def main(words):
    program = os.path.realpath(words[0] if words else BUILT)
    picture = os.path.abspath(words[1]) if len(words) > 1 else os.path.join(TOP, "docs", "page.png")
    with tempfile.TemporaryDirectory(prefix="picture-") as folder:
        place = Place(program, folder)
        place.put("disk.fio", JOB)
        run_changed(place, "disk.fio", "disk.img", CHANGED, ["--page=page.html"])
        screenshot(place.at("page.html"), picture)
    size = os.path.getsize(picture)
    print(f"picture: {picture} has {size} bytes")
    return 0 if size < MOST else 1


if __name__ == "__main__":
    sys.exit(main(sys.argv[1:]))
