#!/usr/bin/env python3
"""large_cores.py PROGRAM: recordings of hundreds of elements with long cycles, judged by the program and by a finder of this file's own.

Layers of elements are shown each before the next, and the last before the first, in one ring or two, with a view now and then that
leads back, ahead or out of order. So most cycles are long, thousands of elements pairs are shown, and the program searches over lists
or over a table, from some elements alone. The reports must be the same, byte for byte. The finder goes by the definitions: from each
element it searches by levels, over sets of what stands after each.

Then long documents (bench/shapes) must be refused in seconds: the program guesses which elements are on cycles, and tests the guess.
Where that were wrong, it would answer the same, but only after a search from each element."""
import random
import subprocess
import sys
from collections import Counter
from pathlib import Path
from typing import NamedTuple

ROOT = Path(__file__).resolve().parents[2]
sys.path.insert(0, str(ROOT / "tests"))
from shared.program import Ended, Quick, Tally, program_of  # noqa: E402

SEED = 20261129
RECORDINGS = 160

# So many of them at least must be of each kind, or the script fails.
WANTED = {"accepted": 4, "refused 2": 12, "refused 3 to 9": 30, "refused 10 and more": 50, "searched over lists": 40, "of more than 64 elements": 80}


# Documents of 32,768 elements: the script of the shape, its words, and the conflict number. Each is judged in a fraction of a second; a
# search from each element would look some 10 ** 10 times.
LONG = [("front.py", ["8", "16", "256", "8"], 8), ("front.py", ["8", "16", "256", "8", "closed"], 8)]
MOST_SECONDS = 15


class Trace:
    """A trace on its way: the lines, and what each replica has done."""

    def __init__(self, replicas: int):
        self.replicas = replicas
        self.lines = []
        self.done = [0] * replicas
        self.inserted = []   # (replica, n, name)
        self.shown = []      # (replica, n, names)

    def put(self, replica: int, words: str, names: list) -> None:
        self.done[replica] += 1
        self.lines.append(" ".join([f"{replica} {words} :", *names]))
        self.shown.append((replica, self.done[replica], list(names)))

    def insert(self, replica: int, name: str, at: int, names: list) -> None:
        self.put(replica, f"ins {name} {at}", names)
        self.inserted.append((replica, self.done[replica], name))

    def hear(self, replica: int, other: int) -> None:
        if self.done[other]:
            self.lines.append(f"{replica} recv {other} {self.done[other]}")

    def text(self) -> str:
        return "\n".join(["trace 2", f"replicas {self.replicas}", *self.lines]) + "\n"


def some(rnd: random.Random, names: list, most: int) -> list:
    """Some of these names, in the same order."""
    count = min(len(names), rnd.randint(1, most))
    return [names[i] for i in sorted(rnd.sample(range(len(names)), count))]


class Ring:
    """Writers, each with two layers of its own at a time, and viewers that show them."""

    def __init__(self, rnd: random.Random, trace: Trace, writers: range, viewers: range, silent: int, number: int):
        self.rnd, self.trace, self.writers, self.viewers, self.silent, self.number = rnd, trace, writers, viewers, silent, number
        self.own = {w: [] for w in writers}
        self.each = rnd.randint(1, 2)
        self.strange = rnd.choice([0, 0, 0.01, 0.03])

    def put_first(self, width: int) -> list:
        """The first layer, which a replica of its own inserts, and which stays."""
        names = []
        for i in range(width):
            names.append(f"f{self.number}-{i}")
            self.trace.insert(self.silent, names[-1], i, names)
        return names

    def put_layer(self, layer: int) -> list:
        """Each writer inserts some elements at its list's end; all in an order of their own."""
        names = []
        for writer in self.writers:
            for i in range(self.each):
                name = f"r{self.number}-{layer}-{writer}-{i}"
                at = len(self.own[writer]) if self.rnd.random() >= self.strange / 4 else 0
                self.own[writer].insert(at, name)
                self.trace.insert(writer, name, at, self.own[writer])
                names.append(name)
        if self.each == 1:
            self.rnd.shuffle(names)
        return names

    def delete(self, names: list) -> None:
        for writer in self.writers:
            for name in [name for name in self.own[writer] if name in names]:
                self.own[writer].remove(name)
                self.trace.put(writer, f"del {name}", self.own[writer])

    def view(self, names: list) -> None:
        self.trace.put(self.rnd.choice(self.viewers), "view", list(dict.fromkeys(names)))

    def show(self, first: list, before: list, layer: list, most: int) -> None:
        """Views of a layer behind the one before."""
        for viewer in self.viewers:
            for replica in (*self.writers, self.silent):
                self.trace.hear(viewer, replica)
        for _ in range(self.rnd.randint(1, 4)):
            self.view(some(self.rnd, before, most) + some(self.rnd, layer, most))
        if self.rnd.random() < self.strange:
            self.view(some(self.rnd, layer, 2) + some(self.rnd, first, 2))
        if self.rnd.random() < self.strange:
            self.view(some(self.rnd, layer, 2) + some(self.rnd, before, 2))
        if self.rnd.random() < self.strange * 2:
            self.view(some(self.rnd, first, 2) + some(self.rnd, layer, 2))

    def go_round(self, layers: int, most: int, closed: bool) -> None:
        first = self.put_first(self.rnd.randint(2, 14))
        before = first
        for layer in range(layers):
            now = self.put_layer(layer)
            self.show(first, before, now, most)
            if before is not first:
                self.delete(before)
            before = now
        if closed:
            for _ in range(self.rnd.randint(1, 5)):
                self.view(some(self.rnd, before, most) + some(self.rnd, first, most))
        self.delete(before)


def made(rnd: random.Random) -> Trace:
    """One recording."""
    rings = rnd.choice([1, 1, 2])
    writers, viewers = rnd.randint(3, 9), rnd.randint(1, 3)
    trace = Trace(writers + viewers + rings)
    for number in range(rings):
        ring = Ring(rnd, trace, range(writers), range(writers, writers + viewers), writers + viewers + number, number)
        layers = rnd.choice([rnd.randint(4, 9), rnd.randint(8, 40), rnd.randint(20, 40)])
        ring.go_round(layers, rnd.choice([2, 4, 30]), rnd.random() < 0.9)
    return trace


class Found(NamedTuple):
    """What the finder of this file says: the report, the number k or 0, and the elements that are on cycles."""

    report: str
    k: int
    core: set


def around(after: list, source: int) -> int:
    """The length of a shortest cycle through an element, or 0."""
    reached, layer, length = 0, 1 << source, 0
    while layer:
        length += 1
        on = 0
        while layer:
            low = layer & -layer
            on |= after[low.bit_length() - 1]
            layer ^= low
        if on >> source & 1:
            return length
        layer = on & ~reached
        reached |= on
    return 0


def steps_to(before: list, target: int) -> dict:
    """How many steps lead from each element to one, at the least."""
    steps, layer, length = {target: 0}, [target], 0
    while layer:
        length += 1
        layer = [x for y in layer for x in before[y] if x not in steps and not steps.update({x: length})]
    return steps


def order_of(after: list, count: int) -> list:
    """The least order in which each element stands before those after it."""
    left = [0] * count
    for x in range(count):
        for y in range(count):
            left[y] += after[x] >> y & 1
    order, free = [], {x for x in range(count) if not left[x]}
    while free:
        x = min(free)
        free.remove(x)
        order.append(x)
        for y in range(count):
            if after[x] >> y & 1:
                left[y] -= 1
                if not left[y]:
                    free.add(y)
    return order


def found(trace: Trace) -> Found:
    """The report by the definitions."""
    names = [name for _, _, name in sorted(trace.inserted)]
    numbers = {name: x for x, name in enumerate(names)}
    after, shown = [0] * len(names), {}
    for replica, n, response in sorted(trace.shown):
        for i, a in enumerate(response):
            for b in response[i + 1:]:
                after[numbers[a]] |= 1 << numbers[b]
                shown.setdefault((a, b), (replica, n, response))
    head = f"replicas {trace.replicas} operations {sum(trace.done)} inserts {len(names)}\n"
    lengths = [around(after, x) for x in range(len(names))]
    core = {name for name, length in zip(names, lengths) if length}
    if not core:
        order = "".join(f" {names[x]}" for x in order_of(after, len(names)))
        return Found(f"{head}accepted\nstrong yes\nweak yes\norder :{order}\n", 0, core)
    k = min(length for length in lengths if length)
    first = lengths.index(k)
    before = [[x for x in range(len(names)) if after[x] >> y & 1] for y in range(len(names))]
    steps, ring = steps_to(before, first), [first]
    for i in range(1, k):
        ring.append(min(y for y in range(len(names)) if after[ring[-1]] >> y & 1 and steps.get(y) == k - i))
    lines = [head, f"refused {k}\nstrong no\nweak {'no' if k == 2 else 'yes'}\n"]
    for x, y in zip(ring, ring[1:] + ring[:1]):
        replica, n, response = shown[names[x], names[y]]
        lines.append(f"step {names[x]} {names[y]} {replica}.{n} :" + "".join(f" {name}" for name in response) + "\n")
    return Found("".join(lines), k, core)


def is_held(names: list, other: list) -> bool:
    """Whether a list has its elements in the same order in another."""
    rest = iter(other)
    return len(names) < 2 or all(name in rest for name in names)


def places(trace: Trace, core: set) -> int:
    """How many places the lists have among these elements, less those lists that the one before them or after them holds."""
    kept = [[]]
    for _, _, response in sorted(trace.shown):
        names = [name for name in response if name in core]
        if not is_held(names, kept[-1]):
            if is_held(kept[-1], names):
                kept.pop()
            kept.append(names)
    return sum(map(len, kept))


def kinds_of(trace: Trace, answer: Found) -> list:
    """What a recording is counted as. The program goes over lists where a table would have more words than these have places."""
    kinds, count = [], len(answer.core)
    if count * (count // 64 + 1) > places(trace, answer.core):
        kinds.append("searched over lists")
    if count > 64:
        kinds.append("of more than 64 elements")
    if answer.k < 3:
        return kinds + ["refused 2" if answer.k else "accepted"]
    return kinds + ["refused 3 to 9" if answer.k < 10 else "refused 10 and more"]


def long_documents(tally: Tally, program: str) -> None:
    """The components of these are guessed right at once."""
    for script, words, k in LONG:
        trace = subprocess.run([sys.executable, str(ROOT / "bench" / "shapes" / script), *words], capture_output=True, check=True).stdout
        try:
            done = subprocess.run([program, "verdict", "-"], input=trace, capture_output=True, timeout=MOST_SECONDS)
            told = done.returncode, done.stdout.split(b"\n")[1:2]
        except subprocess.TimeoutExpired:
            told = f"no answer within {MOST_SECONDS} seconds"
        tally.check(f"{' '.join([script, *words])} is refused at once", told == (1, [f"refused {k}".encode()]), told)


def main() -> None:
    program = Quick(program_of(sys.argv))
    tally = Tally()
    rnd = random.Random(SEED)
    kinds = Counter()
    for number in range(RECORDINGS):
        trace = made(rnd)
        answer = found(trace)
        kinds.update(kinds_of(trace, answer))
        for workers in "1", "4":
            got = program.run(["verdict", "--workers", workers, "-"], trace.text().encode())
            tally.same(f"recording {number} of the seed, {workers} workers", got, Ended(1 if answer.k else 0, answer.report.encode(), b""))
    print(", ".join(f"{kinds[kind]} {kind}" for kind in WANTED))
    for kind, least in WANTED.items():
        tally.check(f"recordings {kind}", kinds[kind] >= least, kinds[kind])
    long_documents(tally, program_of(sys.argv))
    tally.close()


if __name__ == "__main__":
    main()
