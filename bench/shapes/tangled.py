#!/usr/bin/env python3
"""tangled.py WRITERS INSERTS PHASES PART [SEED]: a legal trace whose elements are in layers, one a phase, as in thick_ring.py; but each layer
is shown before the next one, and the last before the first, in many parts: PART per cent of both, chosen at random. k is PHASES. Names are
random too, so that numbers say nothing of layers: elements of other layers come among the sources of searches, and lower bounds tell little.

WRITERS replicas insert INSERTS elements each in each phase but the first, and delete those of the phase before; three others insert the
first layer, which stays; all the rest show parts, as many as the limit on names allows. WRITERS is 1 to 12, WRITERS * INSERTS a multiple of 3."""
import random
import sys

writers, inserts, phases, part = map(int, sys.argv[1:5])
rnd = random.Random(int(sys.argv[5]) if len(sys.argv) > 5 else 1)
silent, replicas, most_names = 3, 16, 262_144
viewers = range(writers + silent, replicas)
lines = ["trace 2", f"replicas {replicas}"]
operations, names = [0] * replicas, [0] * replicas
layer = writers * inserts
labels = list(range(layer * phases))
rnd.shuffle(labels)
made = {}  # by element when it was made, which is its place in its layer


def fresh() -> str:
    name = f"e{labels[len(made)]:06d}"
    made[name] = len(made)
    return name


def put(replica: int, body: str, shown: "list | None" = None) -> None:
    lines.append(f"{replica} {body}" + ("" if shown is None else " :" + "".join(" " + name for name in shown)))
    if shown is not None:
        operations[replica] += 1
        names[replica] += len(shown)


def some(elements: list) -> list:
    return sorted(rnd.sample(elements, max(1, len(elements) * part // 100)), key=made.get)


def show(first: list, then: list) -> None:
    """Parts of two layers, each viewer its share of the names that it may show."""
    count = 2 * max(1, layer * part // 100)
    for viewer in viewers:
        for _ in range(max(1, most_names // phases // count)):
            if names[viewer] + count <= most_names:
                put(viewer, "view", some(first) + some(then))


first_layer = []
for replica in range(writers, writers + silent):
    mine = []
    for i in range(layer // silent):
        mine.append(fresh())
        put(replica, f"ins {mine[-1]} {i}", mine)
    first_layer += mine
    for viewer in viewers:
        put(viewer, f"recv {replica} {operations[replica]}")
live, before = [[] for _ in range(writers)], first_layer
for _ in range(1, phases):
    new = []
    for replica in range(writers):
        for _ in range(inserts):
            live[replica].append(fresh())
            put(replica, f"ins {live[replica][-1]} {len(live[replica]) - 1}", live[replica])
        new += live[replica][-inserts:]
    for viewer in viewers:
        for replica in range(writers):
            put(viewer, f"recv {replica} {operations[replica]}")
    show(before, new)
    for replica in range(writers):
        while len(live[replica]) > inserts:
            gone = live[replica].pop(0)
            put(replica, f"del {gone}", live[replica])
    before = new
show(before, first_layer)
print("\n".join(lines))
