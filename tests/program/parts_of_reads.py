#!/usr/bin/env python3
"""parts_of_reads.py PROGRAM: sound recordings in which each read becomes a view of any part of what it answered.

A part says nothing that the whole did not say. So what comes out is sound as well, and its conflict number is none or not
smaller. This is asked of 500 generated recordings, by the slow reference and by the program, whose reports must be the same."""
from __future__ import annotations

import random
import sys
from collections import Counter
from pathlib import Path

ROOT = Path(__file__).resolve().parents[2]
sys.path.insert(0, str(ROOT / "tests"))
from reference.verdicts import report_of  # noqa: E402
from shared.program import Ended, Tally, program_of, run  # noqa: E402
from shared.sessions import session  # noqa: E402

SEED = 20161016
CASES = 500
# Of recordings without a conflict there are no more than so many.
MOST_ACCEPTED = 100
# What the change does to the conflict number, and how often at least it must do so among the cases.
AT_LEAST = {"none, as before": 50, "as before": 100, "greater": 10, "gone": 100}


def part(rnd: random.Random, names: list) -> list:
    """Any part of the names: all, a window, or some here and there, as they stand."""
    kind = rnd.random()
    if kind < 0.4:
        return names
    if kind < 0.6:
        first, behind = sorted(rnd.randint(0, len(names)) for _ in range(2))
        return names[first:behind]
    share = rnd.choice([0.2, 0.5, 0.8])
    return [name for name in names if rnd.random() < share]


def with_parts(rnd: random.Random, text: str) -> str:
    """The recording with a view of a part in the place of each read."""
    _, replicas, *entries = text.splitlines()
    lines = ["trace 2", replicas]
    for entry in entries:
        replica, kind, *rest = entry.split(" ")
        lines.append(" ".join([replica, "view", ":", *part(rnd, rest[1:])]) if kind == "read" else entry)
    return "".join(line + "\n" for line in lines)


def number(kind: str) -> int | None:
    """The conflict number of a sound recording, from its report's word; none where it is accepted."""
    return int(kind.split(" ")[1]) if kind.startswith("refused ") else None


def ring(rnd: random.Random) -> str:
    """Replicas in a ring, each with an element, that hear of the next one's; then some hear of all. Their reads show each two
    neighbours in the ring's order, and all elements in some order, so there are cycles of several lengths."""
    count = rnd.randint(3, 5)
    names = [chr(97 + i) for i in range(count)]
    lines = [f"{i} ins {names[i]} 0 : {names[i]}" for i in range(count)]
    for i in range(count):
        lines += [f"{i} recv {(i + 1) % count} 1", f"{i} read : {names[i]} {names[(i + 1) % count]}"]
    for i in rnd.sample(range(count), rnd.randint(1, 2)):
        lines += [f"{i} recv {other} 1" for other in range(count) if other not in (i, (i + 1) % count)]
        lines.append(" ".join([f"{i} read :", *rnd.sample(names, count)]))
    return "".join(line + "\n" for line in ["trace 1", f"replicas {count}", *lines])


def recordings(rnd: random.Random):
    """Sound recordings with a read, and their verdicts; few of them accepted."""
    seen, accepted = set(), 0
    while True:
        text = ring(rnd) if rnd.random() < 0.5 else session(rnd, views=False)
        if text in seen or not any(line.split(" ")[1] == "read" for line in text.splitlines()[2:]):
            continue
        seen.add(text)
        kind = report_of(text).kind
        accepted += kind == "accepted"
        if kind.startswith("refused ") or kind == "accepted" and accepted <= MOST_ACCEPTED:
            yield text, kind


def change(before: int | None, after: int | None) -> str:
    """What became of the conflict number."""
    if before is None:
        return "none, as before" if after is None else "new"
    return "gone" if after is None else "as before" if after == before else "greater" if after > before else "smaller"


def main() -> None:
    program = program_of(sys.argv)
    rnd, tally, changes = random.Random(SEED), Tally(), Counter()
    for (text, kind), _ in zip(recordings(rnd), range(CASES)):
        parts = with_parts(rnd, text)
        report = report_of(parts)
        is_sound = report.kind == "accepted" or report.kind.startswith("refused ")
        tally.check("a sound recording", is_sound, f"{report.kind} of\n{parts}from\n{text}")
        came = change(number(kind), number(report.kind))
        tally.check("a conflict number none or not smaller", came in AT_LEAST, f"{came}: {report.kind} of\n{parts}, {kind} of\n{text}")
        changes[came] += 1
        got = run(program, ["verdict", "-"], parts.encode())
        tally.same(f"verdict of\n{parts}", got, Ended(0 if report.kind == "accepted" else 1, report.text.encode(), b""))
    print("the conflict number: " + ", ".join(f"{n} {came}" for came, n in changes.most_common()))
    tally.check("500 recordings", changes.total() == CASES, changes.total())
    tally.check("changes of all kinds", all(changes[came] >= many for came, many in AT_LEAST.items()), changes)
    tally.close()


if __name__ == "__main__":
    main()
