"""Random sessions to ask of an engine, and their smaller relatives.

A session is a list of steps; which operations a replica has, and so what it may delete, follows from the steps before. So
any step may be left out, and what remains is a session again: that is how a small one is found.

What an engine is asked is a text, which lists every operation and every exchange, and no answers (docs/engines.md has all of it):

    plan 2 causal
    0 ins e0 at 0            replica 0 inserts e0 at position 0
    1 take 0 : 0.1           replica 1 takes in what replica 0 has and it has not, here the operation 0.1;
                             where the plan is `uncausal`, only what replica 0 itself inserted and deleted
    1 ins e1 after e0        replica 1 inserts e1 where its list has e0, after it (or `before`)
    1 del e0
    0 read
    end"""
import random
from typing import NamedTuple

INSERT, DELETE, READ, TAKE = "ins", "del", "read", "take"


class Step(NamedTuple):
    """One thing that a replica does; `place` is below 1 and says where or which, `other` whom it takes from."""

    kind: str
    replica: int
    name: str = ""
    beside: str = ""  # "at", "after" or "before"
    place: float = 0.0
    other: int = 0


class Session(NamedTuple):
    """Steps of so many replicas; where exchange is not causal, who takes gets the other's own operations alone."""

    replicas: int
    causal: bool
    steps: list


class Kind(NamedTuple):
    """How sessions are made: how many replicas and steps, whether all exchange is with the last replica, whether that one
    edits, and whether exchange is causal. One of these is tried for `share` small ones."""

    name: str
    replicas: tuple
    steps: tuple
    star: bool = False
    middle_edits: bool = False
    causal: bool = True
    share: int = 1


SMALL_PEERS = Kind("small, peers", (2, 4), (4, 24))
SMALL_STAR = Kind("small, a star round a relay", (3, 5), (4, 24), star=True)
SMALL_MIDDLE = Kind("small, a star round an editor", (2, 4), (4, 24), star=True, middle_edits=True)
MIDDLING_STAR = Kind("middling, a star round a relay", (3, 5), (40, 60), star=True, share=10)
LARGE_PEERS = Kind("large, peers", (4, 6), (300, 600), share=50)
LARGE_STAR = Kind("large, a star round a relay", (4, 6), (300, 600), star=True, share=50)
LARGE_MIDDLE = Kind("large, a star round an editor", (4, 6), (300, 600), star=True, middle_edits=True, share=50)
UNCAUSAL = Kind("small, peers in order of each sender alone", (3, 4), (4, 24), causal=False)


def session(kind: Kind, rnd: random.Random) -> Session:
    """A session with bursts of one replica, one that is offline for a while, and inserts beside what is deleted. At its end
    everyone has everything, and reads."""
    replicas = rnd.randint(*kind.replicas)
    middle = replicas - 1 if kind.star else None
    editors = [r for r in range(replicas) if r != middle or kind.middle_edits]
    steps, offline = [], set()
    length = rnd.randint(*kind.steps)
    while len(steps) < length:
        if rnd.random() < (0.2 if offline else 0.08):
            offline = set() if offline else {rnd.choice(editors)}
        if rnd.random() < 0.45:
            editor = rnd.choice(editors)
            steps += [act(editor, len(steps) + i, rnd) for i in range(rnd.choice([1, 1, 1, 2, 4]))]
        else:
            one, other = pair(replicas, middle, rnd)
            if not {one, other} & offline:
                steps.append(Step(TAKE, one, other=other))
    return Session(replicas, kind.causal, steps + ending(replicas, middle))


def act(editor: int, number: int, rnd: random.Random) -> Step:
    """Something that the editor does by itself; an insert's name is its own for ever."""
    kind = rnd.choices([INSERT, DELETE, READ], [0.6, 0.33, 0.07])[0]
    return Step(kind, editor, f"e{number}", rnd.choice(["at", "after", "before"]), rnd.random())


def pair(replicas: int, middle: int, rnd: random.Random) -> list:
    """Who takes from whom."""
    if middle is None:
        return rnd.sample(range(replicas), 2)
    return rnd.sample([rnd.choice([r for r in range(replicas) if r != middle]), middle], 2)


def ending(replicas: int, middle: int) -> list:
    """Everyone gets everything, in a star by way of its middle, and reads."""
    others = [r for r in range(replicas) if r != (middle or 0)]
    takes = [Step(TAKE, middle or 0, other=r) for r in others] + [Step(TAKE, r, other=middle or 0) for r in others]
    takes += [Step(TAKE, one, other=two) for one in others for two in others if one != two and middle is None]
    return takes + [Step(READ, r) for r in range(replicas)]


class Plan:
    """A session's steps, one after the other, with what each replica has by then."""

    def __init__(self, session: Session):
        self.session = session
        self.has = [[] for _ in range(session.replicas)]  # operations, in the order in which they came
        self.lists = [{} for _ in range(session.replicas)]  # the names that are shown, as keys
        self.gone = [set() for _ in range(session.replicas)]
        self.did = [0] * session.replicas
        self.changes = {}  # of each operation: its kind and name
        self.lines = [f"plan {session.replicas} {'causal' if session.causal else 'uncausal'}"]
        for step in session.steps:
            self.take(step) if step.kind == TAKE else self.act(step)

    def text(self) -> str:
        return "\n".join([*self.lines, "end"]) + "\n"

    def asked(self, replica: int) -> list:
        """The lines of the replica's operations, in their order."""
        return [line for line in self.lines[1:] if line.split(" ")[0] == str(replica) and line.split(" ")[1] != TAKE]

    def is_last_a_server(self) -> bool:
        """Whether the last replica neither inserts nor deletes: it may be a server that keeps no list."""
        return all(kind == READ for (author, _), (kind, _) in self.changes.items() if author == self.session.replicas - 1)

    def take(self, step: Step) -> None:
        had = set(self.has[step.replica])
        new = [one for one in self.has[step.other] if one not in had]
        if not self.session.causal:
            new = [one for one in new if one[0] == step.other and self.changes[one][0] != READ]
        if new:
            self.lines.append(f"{step.replica} take {step.other} : " + " ".join(f"{r}.{n}" for r, n in new))
        for operation in new:
            self.arrive(step.replica, operation)

    def act(self, step: Step) -> None:
        shown = list(self.lists[step.replica])
        chosen = shown[int(step.place * len(shown))] if shown else None
        kind, words, name = READ, "", ""
        if step.kind == DELETE and chosen:
            kind, name, words = DELETE, chosen, f" {chosen}"
        if step.kind == INSERT:
            kind, name = INSERT, step.name
            at = int(step.place * (len(shown) + 1))
            words = f" {name} at {at}" if step.beside == "at" or not chosen else f" {name} {step.beside} {chosen}"
        self.did[step.replica] += 1
        operation = (step.replica, self.did[step.replica])
        self.changes[operation] = (kind, name)
        self.lines.append(f"{step.replica} {kind}{words}")
        self.arrive(step.replica, operation)

    def arrive(self, replica: int, operation: tuple) -> None:
        self.has[replica].append(operation)
        kind, name = self.changes[operation]
        if kind == INSERT and name not in self.gone[replica]:
            self.lists[replica][name] = None
        if kind == DELETE:
            self.gone[replica].add(name)
            self.lists[replica].pop(name, None)


def moved(step: Step, gone: int) -> Step:
    """The step where a replica of a lower number is gone."""
    return step._replace(replica=step.replica - (step.replica > gone), other=step.other - (step.other > gone))


def smaller(session: Session) -> list:
    """The session without some of its steps, halves first and single steps last, and without a replica that does nothing."""
    steps = session.steps
    found, width = [], len(steps) // 2
    busy = {step.replica for step in steps} | {step.other for step in steps if step.kind == TAKE}
    for idle in set(range(session.replicas)) - busy:
        found.append(Session(session.replicas - 1, session.causal, [moved(step, idle) for step in steps]))
    while width:
        found += [session._replace(steps=steps[:at] + steps[at + width:]) for at in range(0, len(steps), width)]
        width //= 2
    return found
