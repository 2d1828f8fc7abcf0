#!/usr/bin/env python3
"""same_answers.py PROGRAM OTHER [COUNT]: two programs, an older one say, on generated recordings, 2,000 unless told otherwise.

Report, report as JSON and certificate must be the same, byte for byte, and so must the exit statuses. Half of the recordings
are small, with a fault now and then; the others have up to 200 elements and long responses, and mostly no fault. Of either half
a share has views, unless one of the programs is so old that it reads version 1 of the trace alone."""
import random
import sys
from collections import Counter
from pathlib import Path

ROOT = Path(__file__).resolve().parents[2]
sys.path.insert(0, str(ROOT / "tests"))
from shared.program import Tally, program_of, run  # noqa: E402
from shared.sessions import session, with_fault  # noqa: E402

SEED = 20261123
WITH_VIEW = b"trace 2\nreplicas 1\n0 view :\n"
COMMANDS = ["verdict", "-"], ["verdict", "--json", "-"], ["verdict", "--workers", "1", "-"], ["cert", "-"]


def small(rnd: random.Random, views: bool) -> str:
    """A small recording, in one of three with a fault."""
    text = session(rnd, views)
    return with_fault(rnd, text, views) if rnd.random() < 0.3 else text


def window(rnd: random.Random, names: list) -> list:
    """What an editor shows of a long document: names that stand together."""
    first = rnd.randint(0, len(names))
    return names[first:first + rnd.randint(0, 20)]


def large(rnd: random.Random, views: bool) -> str:
    """A recording of 2 to 6 replicas that insert, delete and read, each with a list of its own order of what it has received: the same
    order at all replicas, but at some places two elements exchanged."""
    replicas, count = rnd.randint(2, 6), rnd.randint(20, 200)
    share_of_views = rnd.choice([0, 0.3, 1]) if views else 0
    lines = ["trace 2" if share_of_views else "trace 1", f"replicas {replicas}"]
    order, has, done, seen = [], [[] for _ in range(replicas)], [[] for _ in range(replicas)], [[0] * replicas for _ in range(replicas)]
    gone = [set() for _ in range(replicas)]
    swapped = rnd.random() < 0.5

    def answer(r: int) -> list:
        here = set(has[r]) - gone[r]
        names = [name for name in order if name in here]
        if swapped and len(names) > 1 and rnd.random() < 0.02:
            i = rnd.randrange(len(names) - 1)
            names[i], names[i + 1] = names[i + 1], names[i]
        return names

    def operation(r: int, words: str, effect: tuple, names: list) -> None:
        lines.append(" ".join([f"{r} {words} :", *names]))
        done[r].append((*effect, list(seen[r])))
        seen[r][r] += 1

    for _ in range(count * 3):
        r = rnd.randrange(replicas)
        kind = rnd.random()
        if kind < 0.35:
            name = f"n{len(order)}"
            order.insert(rnd.randint(0, len(order)), name)
            has[r].append(name)
            names = [other for other in order if other in set(has[r]) - gone[r]]
            operation(r, f"ins {name} {names.index(name)}", ("ins", name), names)
        elif kind < 0.45 and set(has[r]) - gone[r]:
            name = rnd.choice(sorted(set(has[r]) - gone[r]))
            gone[r].add(name)
            operation(r, f"del {name}", ("del", name), answer(r))
        elif kind < 0.65:
            is_view = share_of_views and rnd.random() < share_of_views
            shown = answer(r)
            operation(r, "view" if is_view else "read", ("read", ""), window(rnd, shown) if is_view else shown)
        else:
            s = rnd.choice([q for q in range(replicas) if q != r])
            if seen[r][s] < len(done[s]):
                receive(r, s, done, seen, has, gone, lines)
    return "\n".join(lines) + "\n"


def receive(r: int, s: int, done: list, seen: list, has: list, gone: list, lines: list) -> None:
    """Replica r receives the next operation of s, where it has received all that this one saw."""
    kind, name, saw = done[s][seen[r][s]]
    if any(count > seen[r][q] for q, count in enumerate(saw) if q != s):
        return
    seen[r][s] += 1
    lines.append(f"{r} recv {s} {seen[r][s]}")
    if kind == "ins":
        has[r].append(name)
    elif kind == "del":
        gone[r].add(name)


def main() -> None:
    program, other = program_of(sys.argv[:2]), program_of([sys.argv[0], sys.argv[2]])
    count = int(sys.argv[3]) if len(sys.argv) > 3 else 2000
    rnd, tally, kinds = random.Random(SEED), Tally(), Counter()
    views = all(run(one, ["verdict", "-"], WITH_VIEW).status == 0 for one in (program, other))
    print("with views" if views else "without views, which one of the programs does not read")
    for i in range(count):
        text = (small if i % 2 else large)(rnd, views)
        for words in COMMANDS:
            got, wanted = run(program, words, text.encode()), run(other, words, text.encode())
            tally.same(f"{' '.join(words)} of\n{text}", got, wanted)
        kinds[got.out.split(b"\n")[1].decode() if got.out else "faulty line"] += 1
    print(", ".join(f"{n} {kind}" for kind, n in kinds.most_common(12)))
    tally.close()


if __name__ == "__main__":
    main()
