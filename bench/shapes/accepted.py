#!/usr/bin/env python3
"""accepted.py PROGRAM TRACE: prints a refused trace without reads and views of its least cycle, so that it is accepted.

It has PROGRAM judge the trace, leaves out the last of the cycle's steps that a read or a view shows, and goes on so until no cycle is
left. It ends with 2 where a cycle has no such step. What such a trace costs is the measure for what its refusal costs."""
import os
import subprocess
import sys
import tempfile

program, path = sys.argv[1:3]
lines = open(path, encoding="ascii").read().splitlines()


def operations() -> dict:
    """Where the operation of each name, as 2.1, stands."""
    found, counts = {}, {}
    for at, line in enumerate(lines[2:], 2):
        replica, kind, *_ = line.split(" ", 2)
        if kind != "recv":
            counts[replica] = counts.get(replica, 0) + 1
            found[f"{replica}.{counts[replica]}"] = at
    return found


with tempfile.TemporaryDirectory() as folder:
    trace = os.path.join(folder, "a.trace")
    while True:
        with open(trace, "w", encoding="ascii") as out:
            out.write("\n".join(lines) + "\n")
        report = subprocess.run([program, "verdict", trace], capture_output=True, text=True, check=False).stdout.splitlines()
        if report[1].startswith("accepted"):
            break
        shown = [line.split(" ", 4)[3] for line in report if line.startswith("step ")]
        places = operations()
        reads = [places[name] for name in shown if lines[places[name]].split(" ", 2)[1] in ("read", "view")]
        if not reads:
            sys.stderr.write("accepted.py: no step of the cycle is a read or a view\n")
            sys.exit(2)
        del lines[reads[-1]]
print("\n".join(lines))
