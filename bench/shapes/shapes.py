#!/usr/bin/env python3
"""shapes.py SHAPE NUMBERS: a legal trace whose conflict is hard to find in another way.

backring COUNT VIEWS         a ring of COUNT elements, at most 16,000, and 700 elements behind it that seven replicas show again and again,
                             VIEWS times each
report WRITERS EACH VIEWS    WRITERS replicas insert EACH elements; each step of a ring is shown in a view of all these before its two, by
                             VIEWS views of each replica that is left
peel CHAIN CYCLES            CYCLES cycles of two before one element, and a chain of CHAIN elements behind it, which ends at the least one
cliff WRITERS EACH PHASES K  WRITERS replicas insert EACH elements in each phase, which another shows in front of those of the phase before;
                             beside them a ring of K elements, numbered last: each row of its certificate is long
jump WRITERS EACH PHASES K VIEWS    as front.py has it, and each replica that is left shows every other element VIEWS times in each phase

Standard error tells how near the limits it comes."""
import sys

LETTERS = "abcdefghijklmnopqrstuvwxyzABCDEFGHIJKLMNOPQRSTUVWXYZ0123456789_-"
REPLICAS = 16


def name(number):
    """A short name for a number, another one for each."""
    text = LETTERS[number % 64]
    number //= 64
    while number:
        number -= 1
        text += LETTERS[number % 64]
        number //= 64
    return text


class Session:
    def __init__(self):
        self.lines = ["trace 2", f"replicas {REPLICAS}"]
        self.entries, self.operations, self.names, self.inserts = ([0] * REPLICAS for _ in range(4))

    def put(self, replica, body, shown=None):
        self.lines.append(f"{replica} {body}" + ("" if shown is None else " :" + "".join(" " + one for one in shown)))
        self.entries[replica] += 1
        if shown is not None:
            self.operations[replica] += 1
            self.names[replica] += len(shown)

    def insert(self, replica, element, at, shown):
        self.inserts[replica] += 1
        self.put(replica, f"ins {element} {at}", shown)

    def delete(self, replica, element, shown):
        self.put(replica, f"del {element}", shown)

    def view(self, replica, shown):
        self.put(replica, "view", shown)

    def receive(self, replica, author, n=None):
        self.put(replica, f"recv {author} {self.operations[author] if n is None else n}")

    def fill(self, writers, each):
        """Each writer inserts so many elements, one behind the other; all of them, writer by writer."""
        every = []
        for writer in range(writers):
            own = []
            for i in range(each):
                own.append(name(writer * each + i))
                self.insert(writer, own[-1], i, own)
            every += own
        return every

    def step(self, writer, viewer, element, last, owner, shown):
        """The next element of a ring or a chain: inserted, received and shown; the last one is deleted by its author, which is not the owner
        of the first."""
        self.insert(writer, element, 0, [element])
        self.receive(viewer, writer)
        self.view(viewer, shown)
        if last[1] != owner:
            self.delete(last[1], last[0], [])
        return element, writer

    def print(self):
        sys.stderr.write(f"{sum(self.inserts)} elements; of a replica at most {max(self.entries)} entries, {max(self.inserts)} inserts, "
                         f"{max(self.names)} names\n")
        print("\n".join(self.lines))


def backring(session, count, views):
    every, owner, viewer = session.fill(1, 700), 8, None
    first = last = name(100000), owner
    session.insert(owner, first[0], 0, [first[0]])
    for i in range(1, count):
        if (5, 6, 7)[i * 3 // count] != viewer:
            viewer = (5, 6, 7)[i * 3 // count]
            session.receive(viewer, owner, 1)
            session.receive(viewer, 0)
            if last[1] != owner:
                session.receive(viewer, last[1])
        element = name(100000 + i)
        last = session.step(1 + i % 4, viewer, element, last, owner, [last[0], element] + (every if i == 1 else []))
    session.view(viewer, [last[0], first[0]])
    for viewer in range(9, REPLICAS):
        session.receive(viewer, 0)
        for i in range(views):
            session.view(viewer, every[1:] if i % 2 else every[:-1])


def report(session, writers, each, views):
    every, owner, made = session.fill(writers, each), writers + 2, 0
    first = last = name(60000), owner
    session.insert(owner, first[0], 0, [first[0]])
    for viewer in range(owner + 1, REPLICAS):
        for author in [*range(writers), owner] + ([last[1]] if last[1] != owner else []):
            session.receive(viewer, author)
        for _ in range(views):
            element = name(60001 + made)
            last = session.step(writers + made % 2, viewer, element, last, owner, [last[0], element] + every)
            made += 1
    session.view(REPLICAS - 1, [last[0], first[0]])


def peel(session, chain, cycles):
    end, middle, owner = "z", "e", 2
    session.insert(0, end, 0, [end])
    session.insert(owner, middle, 0, [middle])
    for viewer in range(5, 9):
        session.receive(viewer, owner, 1)
    for i in range(cycles):
        half = i * 2 // cycles
        pair, authors = [name(100 + 2 * i), name(101 + 2 * i)], ((3, 4), (1, 9))[half]
        for author, element in zip(authors, pair):
            session.insert(author, element, 0, [element])
        for viewer in 5 + half, 7 + half:
            for author in authors:
                session.receive(viewer, author)
        session.view(5 + half, [*pair, middle])
        session.view(7 + half, [*pair[::-1], middle])
        for author, element in zip(authors, pair):
            session.delete(author, element, [])
    last, viewer = (middle, owner), None
    for i in range(chain):
        if 13 + i * 3 // chain != viewer:
            viewer = 13 + i * 3 // chain
            session.receive(viewer, owner, 1)
            session.receive(viewer, 0, 1)
            if last[1] != owner:
                session.receive(viewer, last[1])
        element = name(70000 + i)
        last = session.step(10 + i % 3, viewer, element, last, owner, [last[0], element])
    session.view(viewer, [last[0], end])


def cliff(session, writers, each, phases, k):
    viewer, even, odd, first_owner, watcher = range(writers, writers + 5)
    live, before, made = [[] for _ in range(writers)], [], 0
    for _ in range(phases):
        new = []
        for writer in range(writers):
            for i in range(each):
                live[writer].insert(each if before else 0, name(made))
                session.insert(writer, name(made), live[writer].index(name(made)), live[writer])
                new.insert(len(new) - i, name(made))
                made += 1
        for writer in range(writers):
            session.receive(viewer, writer)
        session.view(viewer, before + new)
        for writer in range(writers) if before else ():
            for _ in range(each):
                session.delete(writer, live[writer].pop(0), live[writer])
        before = new
    session.insert(first_owner, "r.", 0, ["r."])
    session.receive(watcher, first_owner)
    last, owner = "r.", first_owner
    for i in range(1, k):
        writer, element = (even, odd)[i % 2], f"r.{i}"
        session.insert(writer, element, 0, [element])
        session.receive(watcher, writer)
        session.view(watcher, [last, element])
        if owner != first_owner:
            session.delete(owner, last, [])
        last, owner = element, writer
    session.view(watcher, [last, "r."])


def jump(session, writers, each, phases, k, views):
    members, viewers = range(writers, writers + k), range(writers + k - 1, REPLICAS)
    ring = [f"c.{i}" for i in range(k)]
    for member, element in zip(members, ring):
        session.insert(member, element, 0, [element])
    for member in members:
        for other in members:
            if other != member:
                session.receive(member, other, 1)
    for i, member in enumerate(members):
        session.view(member, [ring[i], ring[(i + 1) % k]])
    for viewer in viewers[1:]:
        session.receive(viewer, writers, 1)
    live, before, made = [[] for _ in range(writers)], [], 0
    for phase in range(phases):
        new = []
        for writer in range(writers):
            for _ in range(each):
                live[writer].append(name(made))
                session.insert(writer, name(made), len(live[writer]) - 1, live[writer])
                new.append(name(made))
                made += 1
        for viewer in viewers:
            for writer in range(writers):
                session.receive(viewer, writer)
            session.view(viewer, ([ring[0]] if phase == 0 else []) + before + new)
            for i in range(views):
                session.view(viewer, (before + new)[i % 2::2])
        for writer in range(writers) if before else ():
            for _ in range(each):
                session.delete(writer, live[writer].pop(0), live[writer])
        before = new


made = Session()
{"backring": backring, "report": report, "peel": peel, "cliff": cliff, "jump": jump}[sys.argv[1]](made, *map(int, sys.argv[2:]))
made.print()
