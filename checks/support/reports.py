"""What a run's report says, and whether the JSON of that run says the same."""

import re

from support.program import FIELDS, expect

LINE = re.compile(r"clone=(\d+) pass=(\d+) number=(\d+) file=(.*) offset=(\d+) length=(\d+) what=(\S+)")
NUMBERS = ("clone", "pass", "number", "offset", "length")
MEMBERS = "badreads cached direct faults files fiorun interrupted jobs logic miscompares more_faults plan run status stored".split()
SETTING = "began ended host job milliseconds".split()
FAULT = {*NUMBERS, "file", "kind", "outcome", "moved", "reason"}


def unchecked(counts):
    """How many writes of a clone have no verdict and weren't skipped. A clone that has its reads checked has no writes."""
    return counts["writes"] and counts["writes"] - counts["checks"] - counts["void"] - counts["skipped"]


def told(report):
    """What the lines of a report say, in the words of the JSON: the clones, and the bad verdicts by the words of their lines."""
    jobs, bad = [], {"badread": [], "miscompare": []}
    for line in report.split("\n")[:-1]:
        if line.startswith(("miscompare: ", "badread: ")):
            word, rest = line.split(": ", 1)
            clone, turn, number, name, offset, length, what = LINE.fullmatch(rest).groups()
            numbers = zip(NUMBERS, map(int, (clone, turn, number, offset, length)))
            bad[word].append({**dict(numbers), "file": name, "what": what})
        else:
            name, counts = line.rsplit(": clone=", 1)
            counts = dict(it.split("=") for it in f"clone={counts}".split())
            jobs.append({"job": name, **{key: int(value) for key, value in counts.items()}})
            jobs[-1]["unchecked"] = unchecked(jobs[-1])
    return jobs, bad


def lines(bads):
    """What the report's lines say of bad verdicts, without what stands there (checks/program/findings.py)."""
    return [{key: value for key, value in it.items() if key != "found"} for it in bads]


def agrees(report, status, found, interrupted=False, stored=True):
    """Whether an object is that of a report and a status."""
    jobs, bad = told(report)
    expect(list(found) == MEMBERS, "members", list(found))
    expect(found["jobs"] == jobs and all(set(it) == {"job", "clone", "unchecked", *FIELDS} for it in jobs), "jobs", found["jobs"], jobs)
    expect(lines(found["badreads"]) == bad["badread"], "badreads", found["badreads"], bad["badread"])
    expect(lines(found["miscompares"]) == bad["miscompare"], "miscompares", found["miscompares"], bad["miscompare"])
    expect(list(found["run"]) == SETTING, "the setting", found["run"])
    expect([it["clone"] for it in found["plan"]] == [it["clone"] for it in jobs], "plan", found["plan"])
    expect((found["status"], found["interrupted"]) == (status, interrupted), "end", found["status"], found["interrupted"])
    expect(found["stored"] is stored, "stored", found["stored"])
    expect(found["cached"] is None or type(found["cached"]) is int and found["cached"] >= 0, "cached", found["cached"])
    expect(found["direct"] in (None, True, False), "direct", found["direct"])
    faults = sum(it["faults"] for it in jobs)
    expect(len(found["faults"]) == min(faults, 100) and found["more_faults"] == max(faults - 100, 0), "faults", found["more_faults"])
    expect(all(set(it) == FAULT for it in found["faults"]), "fields of faults", found["faults"][:1])
