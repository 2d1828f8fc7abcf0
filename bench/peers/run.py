#!/usr/bin/env python3
"""run.py [--seconds N] PROGRAM TRACE..: the program beside what a user would write instead, on the same traces.

The others take a trace for sound: they look neither at contents nor at positions, and prove nothing. Each is ended after
N seconds of processor time, 300 unless told otherwise; z3 is asked only where a trace has 200 lines or fewer. The verdicts,
with their numbers, must be the same. It needs g++ and Debian's libboost-graph-dev, python3-networkx and python3-z3."""
import argparse
import itertools
import os
import resource
import subprocess
import sys
import tempfile
from pathlib import Path
from typing import NamedTuple

HERE = Path(__file__).resolve().parent
PYTHON = "/usr/bin/python3"  # Debian's, which has the packages
SMALL = 200


class Ran(NamedTuple):
    """What a run answered, with user and system seconds and its peak."""

    verdict: str
    seconds: float
    peak: int


def ran(words: list, limit: int, line: int) -> Ran:
    """One run; the verdict stands in this line of what it writes."""
    with tempfile.TemporaryFile() as out:
        child = subprocess.Popen(words, stdout=out, stderr=subprocess.DEVNULL,
                                 preexec_fn=lambda: resource.setrlimit(resource.RLIMIT_CPU, (limit, limit + 1)))
        _, status, used = os.wait4(child.pid, 0)
        child.returncode = status
        out.seek(0)
        lines = out.read().decode().splitlines()
    verdict = " ".join(lines[line].split()[:2]) if len(lines) > line else "no answer"
    return Ran("accepted" if verdict.startswith("accepted") else verdict, used.ru_utime + used.ru_stime, used.ru_maxrss * 1024)


def is_small(trace: str) -> bool:
    """Whether a trace has few lines. It is not held whole: a child's peak counts what its parent holds."""
    with open(trace, "rb") as lines:
        return sum(1 for _ in itertools.islice(lines, SMALL + 1)) <= SMALL


def main() -> int:
    parser = argparse.ArgumentParser(description=__doc__.split("\n", 1)[0])
    parser.add_argument("--seconds", type=int, default=300)
    parser.add_argument("program")
    parser.add_argument("traces", nargs="+")
    words = parser.parse_args()
    differ = 0
    print(f"{'trace':24} {'by':12} {'verdict':>12} {'seconds':>9} {'peak MB':>8}")
    with tempfile.TemporaryDirectory() as folder:
        boost = os.path.join(folder, "with_boost")
        subprocess.run(["g++", "-std=c++17", "-O2", "-o", boost, str(HERE / "with_boost.cpp")], check=True)
        for trace in words.traces:
            asked = {"domepeeler": ([words.program, "verdict", "--workers", "1", trace], 1),
                     "Boost.Graph": ([boost, trace], 0), "networkx": ([PYTHON, str(HERE / "with_networkx.py"), trace], 0)}
            if is_small(trace):
                asked["z3"] = ([PYTHON, str(HERE / "with_z3.py"), trace], 0)
            answers = set()
            for name, (command, line) in asked.items():
                got = ran(command, words.seconds, line)
                print(f"{Path(trace).stem:24} {name:12} {got.verdict:>12} {got.seconds:9.3f} {got.peak / 1e6:8.1f}", flush=True)
                answers |= {got.verdict} - {"no answer"}
            differ += len(answers) != 1
    print(f"{len(words.traces)} traces, the answers differ on {differ}")
    return 1 if differ else 0


if __name__ == "__main__":
    sys.exit(main())
