#!/usr/bin/env python3
"""clusters.py INSERTS PHASES [OTHERS]: a legal trace with many small cycles, each of four elements, one behind the other.

Eight writers insert INSERTS elements each in each phase (INSERTS * PHASES at most 4,096), and delete those of the phase before. The i-th
elements of four writers are a ring: four viewers each show one of its elements before the next, and each ring before the rings behind
it, of its phase and of the next one. So no cycle leads from one ring to another, and each has a source of its own.

With OTHERS, a multiple of 16, two more replicas insert so many elements, in layers of 16, which another shows in one long ring with 16 of
a third. These have the lowest numbers, so that the least element on a shortest cycle is far from the first."""
import sys

inserts, phases = map(int, sys.argv[1:3])
others = int(sys.argv[3]) if len(sys.argv) > 3 else 0
first_writer = 3 if others else 0
writers, ring = 8, 4
viewers = range(first_writer + writers, first_writer + writers + ring)
replicas = viewers[-1] + 1 + (1 if others else 0)
lines = ["trace 2", f"replicas {replicas}"]
operations = [0] * replicas


def put(r: int, body: str, shown: list) -> None:
    """An operation's line."""
    operations[r] += 1
    lines.append(f"{r} {body} :" + "".join(" " + name for name in shown))


# The others: a first layer that a third replica inserts and that stays, and layers of eight elements of each of two replicas.
first_layer = [f"f{i}" for i in range(16 if others else 0)]
for i in range(len(first_layer)):
    put(2, f"ins {first_layer[i]} {i}", first_layer[:i + 1])
if others:
    lines.append(f"{replicas - 1} recv 2 16")
layer, own = first_layer, [[], []]
for count in range(others // 16):
    last, layer = layer, []
    for r in range(2):
        for i in range(8):
            own[r].append(f"o{r}.{count * 8 + i}")
            put(r, f"ins {own[r][-1]} {len(own[r]) - 1}", own[r])
        layer = layer + own[r][-8:]
        lines.append(f"{replicas - 1} recv {r} {operations[r]}")
    put(replicas - 1, "view", last + layer)
    for r in range(2):
        for _ in range(8 if count else 0):
            put(r, f"del {own[r].pop(0)}", own[r])
if others:
    put(replicas - 1, "view", layer + first_layer)

live, before = [[] for _ in range(writers)], []
for phase in range(phases):
    new = [[f"e{r}.{phase * inserts + i}" for i in range(inserts)] for r in range(writers)]
    for r in range(writers):
        for name in new[r]:
            live[r].append(name)
            put(first_writer + r, f"ins {name} {len(live[r]) - 1}", live[r])
    rings = [[new[first + j][i] for j in range(ring)] for i in range(inserts) for first in range(0, writers, ring)]
    for j, viewer in enumerate(viewers):
        for r in range(first_writer, first_writer + writers):
            lines.append(f"{viewer} recv {r} {operations[r]}")
        put(viewer, "view", [name for shown in before + rings for name in (shown[j], shown[(j + 1) % ring])])
    if before:
        for r in range(writers):
            for _ in range(inserts):
                put(first_writer + r, f"del {live[r].pop(0)}", live[r])
    before = rings
print("\n".join(lines))
