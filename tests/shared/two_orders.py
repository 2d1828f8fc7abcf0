"""Recordings in which two replicas show the same elements in two orders, and cycles through their elements that may be long."""
import random

LETTERS = "abcdefghijklmnopqrstuvwxyz"


def named(first: str, i: int) -> str:
    return first + LETTERS[i // 26 % 26] + LETTERS[i % 26]


class TwoOrders:
    """Replica 0 shows its own elements before those of replica 1, and replica 1 the other way round."""

    def __init__(self, each: int) -> None:
        self.of = tuple([named(first, i) for i in range(each)] for first in "AB")
        self.reads = f"0.{each + 1}", f"1.{each + 1}"

    def trace(self) -> str:
        """Both insert their elements one after the other, get those of the other, and read all."""
        own, lines = self.of, ["trace 1", "replicas 2"]
        for r in 0, 1:
            lines += [f"{r} ins {own[r][i]} {i} : {' '.join(own[r][:i + 1])}" for i in range(len(own[r]))]
        for r in 0, 1:
            lines += [f"{r} recv {1 - r} {n}" for n in range(1, len(own[1 - r]) + 1)]
        lines += [f"{r} read : {' '.join(own[r] + own[1 - r])}" for r in (0, 1)]
        return "".join(line + "\n" for line in lines)

    def step(self, name: str, other: str) -> str:
        """The step from an element of one replica to one of the other, which the first one's replica shows."""
        return f"step {name} {other} {self.reads[0 if name[0] == 'A' else 1]}\n"

    def round(self) -> str:
        """Right steps that lead back to their begin, two for each pair of elements of the two replicas."""
        pairs = [(a, b) for a in self.of[0] for b in self.of[1]]
        ends = [a for a, _ in pairs[1:]] + [pairs[0][0]]
        return "".join(self.step(a, b) + self.step(b, end) for (a, b), end in zip(pairs, ends))

    def walk(self, rnd: random.Random, rounds: int) -> list:
        """Two right steps for each of so many rounds, which lead back to their begin."""
        names = [rnd.choice(self.of[i % 2]) for i in range(2 * rounds)]
        return [self.step(name, other) for name, other in zip(names, names[1:] + names[:1])]


INSERTERS, EACH = 6, 680
MULTIPLIER, MIXER, TOP = 65_599, 11_400_714_819_323_198_485, 2 ** 64


def mixed(front: int, name: str) -> int:
    """What the checker's slots are taken from: a name behind what stands for an operation."""
    for byte in name.encode():
        front = (front * MULTIPLIER + byte) % TOP
    return front


def slot(replica: int, n: int, name: str) -> int:
    """The slot in which `FoundPlaces` of the checker notes where a name was found in the response of an operation."""
    return (mixed((replica * MULTIPLIER + n) % TOP, name) * MIXER % TOP) >> 44


def share_slots(name: str, other: str) -> bool:
    """Whether the checker notes the places of two names in one slot, in each of the two reads of `Exchanged`."""
    return all(slot(r, 1, name) == slot(r, 1, other) for r in (INSERTERS, INSERTERS + 1))


def names_that_share_slots(many: int = 400_000) -> tuple:
    """Two names among so many, whose places in both reads of `Exchanged` the checker notes in one slot."""
    names = sorted((f"z{i:06d}" for i in range(many)), key=lambda name: mixed(0, name) * MIXER % TOP)
    return next((name, other) for name, other in zip(names, names[1:]) if share_slots(name, other))


class Exchanged:
    """Six replicas insert 680 elements each, and two read them all, the second with the last two, which are given, exchanged."""

    def __init__(self, first: str, second: str) -> None:
        self.first, self.second = first, second
        self.of = [[f"{'abcdef'[r]}{i:03d}" for i in range(EACH)] for r in range(INSERTERS)]
        self.of[-1][-2:] = [first, second]

    def trace(self) -> str:
        """Each inserts its elements at the end, and shows its own."""
        lines = ["trace 1", f"replicas {INSERTERS + 2}"]
        for r, own in enumerate(self.of):
            lines += [f"{r} ins {name} {i} : {' '.join(own[:i + 1])}" for i, name in enumerate(own)]
        names = [name for own in self.of for name in own]
        for r, shown in (INSERTERS, names), (INSERTERS + 1, names[:-2] + [self.second, self.first]):
            lines += [f"{r} recv {q} {EACH}" for q in range(INSERTERS)]
            lines.append(f"{r} read : {' '.join(shown)}")
        return "".join(line + "\n" for line in lines)

    def round(self) -> str:
        """Two right steps that lead back to their begin."""
        return f"step {self.first} {self.second} {INSERTERS}.1\nstep {self.second} {self.first} {INSERTERS + 1}.1\n"
