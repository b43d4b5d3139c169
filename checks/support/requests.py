"""What a device is asked for, by the counts that the system keeps of it."""

import os

from support.disks import job_of

# The places of a device's counts in its stat file. A flush stands among the writes too, with no sectors.
COUNTS = {"reads": 0, "read_merges": 1, "read_sectors": 2, "writes": 4, "write_merges": 5, "write_sectors": 6, "flushes": 15}


def requests_of(device):
    """How many requests the device has had, and how many sectors of 512 bytes they had, each way."""
    with open(f"/sys/block/{os.path.basename(device)}/stat", encoding="ascii") as it:
        numbers = [int(word) for word in it.read().split()]
    return {name: numbers[place] for name, place in COUNTS.items()}


def counted(device, start):
    """What this gives, and what the device was asked for meanwhile."""
    before = requests_of(device)
    ran = start()
    after = requests_of(device)
    got = {name: after[name] - before[name] for name in COUNTS}
    got["writes"] -= got["flushes"]
    return ran, got


def device_job(device, size="1m", more=(), direct=1, **kinds):
    lines = ["directory=/dev", f"direct={direct}", *more]
    return job_of(size, lines, filename=os.path.basename(device), **kinds)
