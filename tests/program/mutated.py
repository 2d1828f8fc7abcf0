#!/usr/bin/env python3
"""mutated.py PROGRAM: random bytes and mutated traces, the same in each run of this script.

The program must end with status 0, 1 or 2 and a report or one line of fault on the right stream, in time linear in its
input."""
import math
import random
import re
import resource
import sys
from pathlib import Path

ROOT = Path(__file__).resolve().parents[2]
sys.path.insert(0, str(ROOT / "tests"))
from shared.mutants import edited, mutated, some_bytes  # noqa: E402
from shared.program import Ended, Tally, program_of, run  # noqa: E402

CASES = 1000
SEED = 20161016
VECTORS = ROOT / "tests" / "vectors"

REPORT = re.compile(rb"replicas \d+ operations \d+ inserts \d+\n(?:doubled OP OP\n|(?:contents|position) OP\nstrong no\nweak no\n"
                    rb"|(accepted)\nstrong yes\nweak yes\norder :NAMES\n"
                    rb"|refused (\d+)\nstrong no\nweak (yes|no)\n((?:step NAME NAME OP :NAMES\n)*))"
                    .replace(b"OP", rb"\d+\.[1-9]\d*").replace(b"NAMES", rb"(?: NAME)*").replace(b"NAME", rb"[A-Za-z0-9_.-]{1,32}"))
FAULT = re.compile(rb"finder: line \d+: (header|replicas|shape|cut|no such replica|own receipt|not yet, have \d+"
                   rb"|entries full|inserts full|long response|places full)\n")

def is_right(ended: Ended) -> bool:
    """A report, or one line of fault, on the right stream, and nothing on the other."""
    if ended.status == 2:
        return not ended.out and FAULT.fullmatch(ended.err) is not None
    report = REPORT.fullmatch(ended.out)
    return not ended.err and report is not None and ended.status == (0 if report[1] else 1) and has_right_steps(report)


def has_right_steps(report: re.Match) -> bool:
    """A refusal has as many steps as its number, which is two exactly where the weak specification fails."""
    if report[2] is None:
        return True
    number = int(report[2])
    return number >= 2 and report[4].count(b"\n") == number and (report[3] == b"no") == (number == 2)


def cases() -> list:
    rnd = random.Random(SEED)
    traces = [path.read_bytes() for path in sorted(VECTORS.rglob("*.trace"))]
    spelled = [path.read_bytes() for path in sorted(VECTORS.glob("*.trace"))]
    made = []
    for i in range(CASES):
        if i % 4 == 0:
            made.append(some_bytes(rnd))
            continue
        text = rnd.choice(spelled if i % 2 else traces)
        for _ in range(rnd.randint(1, 3)):
            text = edited(rnd, text) if i % 2 else mutated(rnd, text, rnd.choice(traces))
        made.append(text)
    return made


FRONT = b"trace 1\nreplicas 16\n"
FRONT_OF_VIEWS = b"trace 2\nreplicas 16\n"

# Texts of any length, by the number of bytes that is wanted.
GROWING = {
    "random bytes": lambda n: random.Random(n).randbytes(n),
    "random bytes behind two right lines": lambda n: FRONT + random.Random(n).randbytes(n),
    "one line of names": lambda n: FRONT + b"0 read :" + b" a" * (n // 2),
    "one long name": lambda n: FRONT + b"0 del " + b"a" * n + b" :\n",
    "one long number": lambda n: FRONT + b"9" * n + b" read :\n",
    "one line of a view": lambda n: FRONT_OF_VIEWS + b"0 view :" + b" a" * (n // 2),
    "full views": lambda n: FRONT_OF_VIEWS + b"".join(b"%d view :%s\n" % (i % 16, b" a" * 4096) for i in range(n // 8200)),
    "full responses": lambda n: FRONT + b"".join(b"%d read :%s\n" % (i % 16, b" a" * 4096) for i in range(n // 8200)),
    "empty lines": lambda n: FRONT + b"\n" * n,
}
SMALL, LARGE = 2_000_000, 8_000_000
TRIES = 5


def processor_seconds() -> float:
    """What the processes that have ended so far took of the processors: a pause of the machine is not in it."""
    used = resource.getrusage(resource.RUSAGE_CHILDREN)
    return used.ru_utime + used.ru_stime


def seconds(program: str, text: bytes) -> float:
    best = math.inf
    for _ in range(3):
        start = processor_seconds()
        run(program, trace=text)
        best = min(best, processor_seconds() - start)
    return best


def growth(program: str, text_of) -> tuple[bool, str]:
    """Whether four times the text takes less than six times as long, where a square would take sixteen times; and the last
    figures. What disturbs a measure makes it worse and seldom better, so a bad one is taken again; short runs say nothing."""
    for _ in range(TRIES):
        fast, slow = seconds(program, text_of(SMALL)), seconds(program, text_of(LARGE))
        told = f"{fast:.3f} s, then {slow:.3f} s"
        if slow < max(0.1, 6 * fast):
            return True, told
    return False, told


def main() -> None:
    program = program_of(sys.argv)
    tally = Tally()
    kinds = {0: 0, 1: 0, 2: 0}
    for i, text in enumerate(cases()):
        ended = run(program, trace=text)
        tally.check(f"case {i}", is_right(ended), (ended, text[:200]))
        kinds[ended.status] = kinds.get(ended.status, 0) + 1
    print(f"{kinds[0]} accepted, {kinds[1]} with a fault or a conflict, {kinds[2]} that spell no recording")
    for name, text_of in GROWING.items():
        tally.check(f"time of {name}", *growth(program, text_of))
    tally.close()


if __name__ == "__main__":
    main()
