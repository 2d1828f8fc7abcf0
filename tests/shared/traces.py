#!/usr/bin/env python3
"""traces.py FAMILY SIZE: a legal trace on standard output, near the limits on names in responses (XL), near those on entries
and inserts too (XXL), or smaller.

The editors of one group keep one order of all elements: those of their own group first, then those of the next group,
and so on round; within a group by rank. So the groups' orders together make a ring."""
from __future__ import annotations

import random
import sys
from bisect import bisect_left
from collections.abc import Callable
from typing import NamedTuple


class Size(NamedTuple):
    """How many replicas there are, and what each may have: entries, inserts, and names over all responses."""

    replicas: int
    entries: int
    inserts: int
    places: int


SIZES = {"S": Size(4, 160, 24, 3_000), "M": Size(8, 700, 80, 24_000), "L": Size(12, 2000, 160, 90_000),
         "XL": Size(16, 4096, 256, 262_144), "XXL": Size(16, 16_384, 4096, 262_144)}

# A share of the entries, where replicas hear of each other.
RECEIPTS = 0.35


class Element(NamedTuple):
    author: int
    rank: float
    name: str


class Replica:
    """An editor: the elements that it shows, what it may still do, and what it has heard of the others."""

    def __init__(self, number: int, size: Size, elements: list):
        self.number = number
        self.left = size
        self.waiting = elements  # to be inserted, the next one last
        self.keys, self.shown = [], []  # in the order that it keeps
        self.gone = set()
        self.moved = {}  # elements that have another rank here
        self.did = []  # its operations, as (kind, element)
        self.clocks = []  # before each of them, how many operations of each replica it had heard of
        self.heard = [0] * size.replicas


class Session:
    """Editors in so many groups, and the lines that they have recorded."""

    def __init__(self, size: Size, groups: int, rnd: random.Random):
        self.size, self.groups, self.rnd = size, groups, rnd
        self.lines = ["trace 1", f"replicas {size.replicas}"]
        elements = self.typed_in_runs()
        self.replicas = [Replica(r, size, elements[r]) for r in range(size.replicas)]

    def typed_in_runs(self) -> list:
        """The elements of each replica: runs of typing that lie scattered among those of the others."""
        runs = []
        for author in range(self.size.replicas):
            left = self.size.inserts
            while left:
                runs.append((author, min(left, self.rnd.randint(1, 24))))
                left -= runs[-1][1]
        self.rnd.shuffle(runs)
        elements = [[] for _ in range(self.size.replicas)]
        rank = 0
        for author, length in runs:
            first = len(elements[author])
            run = [Element(author, rank + i, f"{chr(97 + author)}{first + i:06x}") for i in range(length)]
            elements[author] += run
            rank += length
        return [typed[::-1] for typed in elements]

    def group(self, replica: int) -> int:
        return replica % self.groups

    def key(self, replica: Replica, element: Element) -> tuple:
        behind = (self.group(element.author) - self.group(replica.number)) % self.groups
        return behind, replica.moved.get(element, element.rank)

    def put(self, replica: Replica, element: Element) -> int:
        key = self.key(replica, element)
        at = bisect_left(replica.keys, key)
        replica.keys.insert(at, key)
        replica.shown.insert(at, element)
        return at

    def drop(self, replica: Replica, element: Element) -> None:
        replica.gone.add(element)
        key = self.key(replica, element)
        at = bisect_left(replica.keys, key)
        if replica.keys[at:at + 1] == [key]:
            del replica.keys[at], replica.shown[at]

    def operate(self, replica: Replica, what: str, kind: str, element: Element | None = None) -> None:
        """An operation shows what is there after it."""
        replica.did.append((kind, element))
        replica.clocks.append(list(replica.heard))
        replica.heard[replica.number] += 1
        self.spend(replica, kind == "ins", len(replica.shown))
        self.lines.append(f"{replica.number} {what} :" + "".join(" " + shown.name for shown in replica.shown))

    def spend(self, replica: Replica, inserts: int, places: int) -> None:
        replicas, entries, inserts_left, places_left = replica.left
        replica.left = Size(replicas, entries - 1, inserts_left - inserts, places_left - places)

    def insert(self, replica: Replica, element: Element) -> None:
        at = self.put(replica, element)
        self.operate(replica, f"ins {element.name} {at}", "ins", element)

    def delete(self, replica: Replica, element: Element) -> None:
        self.drop(replica, element)
        self.operate(replica, f"del {element.name}", "del", element)

    def read(self, replica: Replica) -> None:
        self.operate(replica, "read", "read")

    def receive(self, replica: Replica, other: Replica, n: int) -> None:
        """The receipt of the other's n-th operation: what it had heard of is heard of here."""
        self.lines.append(f"{replica.number} recv {other.number} {n}")
        self.spend(replica, 0, 0)
        clock = list(other.clocks[n - 1])
        clock[other.number] = n
        news = []
        for told in self.replicas:
            news += told.did[replica.heard[told.number]:clock[told.number]]
            replica.heard[told.number] = max(replica.heard[told.number], clock[told.number])
        for kind, element in news:
            if kind == "del":
                self.drop(replica, element)
        for kind, element in news:
            if kind == "ins" and element not in replica.gone:
                self.put(replica, element)

    def hear(self, replica: Replica, others: list) -> None:
        other = self.rnd.choice(others)
        if other is not replica and other.did:
            old, new = replica.heard[other.number], len(other.did)
            self.receive(replica, other, new if old == new or self.rnd.random() < 0.8 else self.rnd.randint(old + 1, new))

    def meet(self, replicas: list) -> None:
        """Each of them hears of all that the others have done."""
        for replica in replicas:
            for other in replicas:
                if replica is not other and other.did:
                    self.receive(replica, other, len(other.did))

    def edit(self, replicas: list, rest: Size, deletes: bool = True) -> None:
        """They edit together until each has only the rest left."""
        live = [replica for replica in replicas if replica.left.entries > rest.entries]
        while live:
            replica = self.rnd.choice(live)
            shown = len(replica.shown)
            if replica.left.entries <= rest.entries or replica.left.places - rest.places < shown + 1:
                live.remove(replica)
            elif len(replicas) > 1 and self.rnd.random() < RECEIPTS:
                self.hear(replica, replicas)
            else:
                self.edit_once(replica, rest, deletes)

    def edit_once(self, replica: Replica, rest: Size, deletes: bool) -> None:
        """One operation, so that the lists stay as long as the names that are left allow."""
        shown, rnd = len(replica.shown), self.rnd
        operations = max((replica.left.entries - rest.entries) * (1 - RECEIPTS), 1)
        wanted = (replica.left.places - rest.places) / operations
        inserts = replica.left.inserts - rest.inserts
        if deletes and shown > 2 and shown > wanted * 1.4 and rnd.random() < 0.85:
            self.delete(replica, rnd.choice(replica.shown))
        elif inserts > 0 and (shown < wanted * 0.9 or rnd.random() < inserts / operations):
            self.insert(replica, replica.waiting.pop())
        elif shown > 2 and rnd.random() < (0.6 if shown > wanted * 1.05 else 0.1 if inserts > 0 else 0):
            self.delete(replica, rnd.choice(replica.shown))
        else:
            self.read(replica)

    def play_small_cycle(self) -> None:
        """The three-way cycle in the midst of a list: x, then a before it and b behind it, then b before a."""
        zero, one, two = self.replicas[:3]
        for replica in zero, one, two:
            self.read(replica)
        self.meet([zero, one, two])
        at = zero.shown[len(zero.shown) // 2].rank
        x, a, b = (Element(replica.number, at + part, replica.waiting.pop().name)
                   for replica, part in ((zero, 0.5), (one, 0.4), (two, 0.6)))
        zero.moved = {a: b.rank, b: a.rank}
        self.insert(zero, x)
        self.receive(one, zero, len(zero.did))
        self.receive(two, zero, len(zero.did))
        self.insert(one, a)
        self.insert(two, b)
        self.delete(zero, x)
        self.receive(zero, one, len(one.did))
        self.receive(zero, two, len(two.did))
        self.read(zero)

    def play_ring(self, deletes: bool) -> None:
        """Each group edits alone, one reading of the next group's text between."""
        size = self.size
        groups = [[r for r in self.replicas if self.group(r.number) == g] for g in range(self.groups)]
        for group in groups:
            self.edit(group, Size(size.replicas, size.entries * 6 // 10, size.inserts // 3, size.places * 6 // 10), deletes)
        for group in groups:
            self.meet(group)
            for replica in group:
                self.read(replica)
        alone = [len(group[0].did) for group in groups]
        for replica in self.replicas:
            after = (self.group(replica.number) + 1) % self.groups
            self.receive(replica, groups[after][0], alone[after])
            self.read(replica)
        for group in groups:
            self.edit(group, NOTHING, deletes)

    def play_wide_ring(self, heard: int) -> None:
        """Each types all its elements alone; then each hears of what the next ones typed, step by step, and reads it."""
        for replica in self.replicas:
            while replica.waiting:
                self.insert(replica, replica.waiting.pop())
        typed = self.size.inserts
        for replica in self.replicas:
            others = [self.replicas[(replica.number + 1 + i) % len(self.replicas)] for i in range(heard)]
            steps = max(replica.left.places * 2 // ((heard + 2) * typed), 1)
            for step in range(1, steps + 1):
                for other in others:
                    self.receive(replica, other, max(typed * step // steps, 1))
                if replica.left.places < len(replica.shown):
                    break
                self.read(replica)


NOTHING = Size(0, 0, 0, 0)


def play_accepted(size: Size, rnd: random.Random) -> Session:
    session = Session(size, 1, rnd)
    session.edit(session.replicas, NOTHING)
    return session


def play_small_cycle(size: Size, rnd: random.Random) -> Session:
    session = Session(size, 1, rnd)
    session.edit(session.replicas, Size(size.replicas, 80, 2, size.places // 8))
    session.play_small_cycle()
    return session


def play_ring(size: Size, rnd: random.Random) -> Session:
    session = Session(size, size.replicas, rnd)
    session.play_ring(deletes=True)
    return session


def play_long_ring(size: Size, rnd: random.Random) -> Session:
    session = Session(size, size.replicas // 2, rnd)
    session.play_ring(deletes=False)
    return session


def play_wide_ring(size: Size, rnd: random.Random) -> Session:
    session = Session(size, size.replicas, rnd)
    session.play_wide_ring(size.replicas // 3)
    return session


class Family(NamedTuple):
    """What the traces are, how they are made, and the line of the verdict for so many replicas."""

    about: str
    play: Callable
    verdict: Callable


FAMILIES = {
    "accepted": Family("edits with receipts, deletes and reads", play_accepted, lambda replicas: "accepted"),
    "reading": Family("the same with one name inserted twice, found before any response is judged", play_accepted,
                      lambda replicas: "doubled"),
    "small_cycle": Family("at the end the three-way cycle", play_small_cycle, lambda replicas: "refused 3"),
    "ring": Family("a group for each replica", play_ring, lambda replicas: f"refused {replicas}"),
    "long_ring": Family("two replicas in a group, and long responses", play_long_ring,
                        lambda replicas: f"refused {replicas // 2}"),
    "wide_ring": Family("each hears of what a third of the others typed, and reads", play_wide_ring,
                        lambda replicas: f"refused {-(-replicas // (replicas // 3))}"),
}


def two_rings(n: int) -> str:
    """A trace whose least cycle has 2 n + 1 elements: replica 3 sees two at a time."""
    lines = ["trace 2", "replicas 4", "2 ins g 0 : g", "3 recv 2 1"]
    for i in range(1, n + 1):
        lines += [f"0 ins e{i} 0 : e{i}", f"3 recv 0 {2 * i - 1}", f"3 view : {f'f{i - 1}' if i > 1 else 'g'} e{i}"]
        lines += [f"1 del f{i - 1} :"] * (i > 1)
        lines += [f"1 ins f{i} 0 : f{i}", f"3 recv 1 {2 * i - 1}", f"3 view : e{i} f{i}", f"0 del e{i} :"]
    return "".join(f"{line}\n" for line in [*lines, f"3 view : f{n} g"])


def trace(family: str, size: str, seed: int = 1) -> bytes:
    """The text of a legal recording."""
    session = FAMILIES[family].play(SIZES[size], random.Random(f"{family} {size} {seed}"))
    text = "".join(line + "\n" for line in session.lines).encode()
    return text.replace(b"b000000", b"a000000") if family == "reading" else text


def main() -> None:
    if len(sys.argv) != 3 or sys.argv[1] not in FAMILIES or sys.argv[2] not in SIZES:
        sys.exit(f"usage: traces.py {{{'|'.join(FAMILIES)}}} {{{'|'.join(SIZES)}}}")
    sys.stdout.buffer.write(trace(sys.argv[1], sys.argv[2]))


if __name__ == "__main__":
    main()
