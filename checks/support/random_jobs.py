"""Random jobs over nothing, of which most that is checked is bad; and two jobs over one file, of which one raced the other."""

# Two jobs over one file, and the trace of a run in which b wrote the first block while a checked it. The second block came back wrong.
RACED = "[global]\nioengine=null\nfilename=f\nrw=write\nbs=4k\nverify=md5\n[a]\nsize=8k\n[b]\nsize=4k\nserialize_overlap=0\n"
RACED_TRACE = """I 0 0 0 0 0
E 0 0 whole
I 0 1 0 0 1
E 0 1 whole
P 0 2 0 0 0
I 1 3 1 0 0
E 0 2 whole
V 0 2 void
P 0 4 0 0 1
E 0 4 whole
V 0 4 header
E 1 3 whole
P 1 5 1 0 0
E 1 5 whole
V 1 5 good
"""


def job(rng, size, interval):
    """A random section, and whether it may have bad blocks."""
    cells = rng.randrange(1, 40)
    lines = [f"bs={size}", f"offset={512 * rng.randrange(200)}", f"size={size * cells}"]
    lines.append(f"rw={rng.choice(['write', 'randwrite', 'rw', 'randrw', 'read'])}")
    lines.append(f"randseed={rng.randrange(1 << 32)}")
    if rng.randrange(3) == 0:
        lines += ["serialize_overlap=0", f"iodepth={rng.randrange(1, 9)}"]
    if interval is None:
        lines += ["verify=pattern", f"verify_pattern={rng.choice(['0', '1', '0xab00'])}"]
    else:
        lines += [f"verify={rng.choice(['md5', 'sha1', 'sha256'])}", f"verify_interval={interval}"]
    return lines


def random_jobs(rng):
    """A random job file over one file, and the interval between its headers, which is the same in all of its sections."""
    interval = rng.choice([None, 0, 512, 1024, 1536])
    size = rng.choice([1, 2, 4]) * (interval or 512)
    text = ["[global]", "ioengine=null", "filename=f"]
    for number in range(rng.randrange(1, 4)):
        text += [f"[j{number}]", *job(rng, size, interval)]
    return "\n".join(text) + "\n", interval
