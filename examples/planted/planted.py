#!/usr/bin/env python3
"""planted.py BUG SEED TRACE: a random session of a small engine with a planted bug, recorded into a file. BUG is one of

    tombstone   a list CRDT that throws a deleted element away at once, and loses what is put beside it elsewhere
    tie         a list CRDT whose concurrent inserts at one place stand as they arrive
    clock       a list CRDT whose clock does not advance with what arrives
    overtaking  a list CRDT whose deletes do not wait for what their author had
    lost        a list CRDT whose network loses a change for one replica, where what builds on it waits for ever
    mapping     operational transformation behind a server: an insert is not moved over a concurrent delete
    unmoved     the same: a delete is not moved over a concurrent insert
    behind      the same: of two inserts at one place the one that arrives goes behind
    twice       the same: the second delete of one element takes its neighbour
    dropped     the same: a client loses what the server sends, now and then
    none, none_behind_server   the two engines without a bug

The engines stand below; the bugs are marked. docs/gallery.md has what came out."""
import sys
from pathlib import Path
from random import Random

sys.path.insert(0, str(Path(__file__).resolve().parents[2] / "recorders"))
from domepeeler import Recording  # noqa: E402

USERS = 3
BEHIND_SERVER = "mapping", "unmoved", "behind", "twice", "dropped", "none_behind_server"


class Rga:
    """A replicated list: each element stands behind the one that its author saw to its left, and of several there the one with the
    greatest number comes first. Deleted elements stay, unseen."""

    def __init__(self, replica, bug):
        self.replica, self.bug, self.clock, self.elements = replica, bug, 0, []  # each element: number, name, is deleted

    def names(self):
        return [name for _, name, is_deleted in self.elements if not is_deleted]

    def insert(self, name, position):
        shown = [number for number, _, is_deleted in self.elements if not is_deleted]
        self.clock += 1
        message = "ins", (self.clock, self.replica), name, shown[position - 1] if position else None
        self.put(*message[1:])
        return message

    def delete(self, name):
        number = next(number for number, other, _ in self.elements if other == name)
        self.remove(number)
        return "del", number

    def apply(self, message):
        if message[0] == "del":
            self.remove(message[1])
            return
        if self.bug != "clock":  # THE BUG: else a new element's number may be less than those of elements that were seen
            self.clock = max(self.clock, message[1][0])
        self.put(*message[1:])

    def put(self, number, name, left):
        numbers = [other for other, *_ in self.elements]
        if left is not None and left not in numbers:
            return  # only where deleted elements are thrown away
        place = numbers.index(left) + 1 if left is not None else 0
        while self.bug != "tie" and place < len(numbers) and numbers[place] > number:  # THE BUG: else two stand as they arrive
            place += 1
        self.elements.insert(place, (number, name, False))

    def remove(self, number):
        if self.bug == "tombstone":  # THE BUG: others may still put something beside it
            self.elements = [element for element in self.elements if element[0] != number]
        else:
            self.elements = [(other, name, is_deleted or other == number) for other, name, is_deleted in self.elements]


def peers(bug, rnd, recording, steps):
    """Replicas that send each other their changes. A change waits until all that its author had is there."""
    replicas = [Rga(replica, bug) for replica in range(USERS)]
    waiting = [[] for _ in range(USERS)]
    for step in range(steps):
        replica = rnd.randrange(USERS)
        if rnd.random() < 0.5:
            change(recording, rnd, replica, replicas[replica], f"{'abc'[replica]}{step}", waiting)
        else:
            receive(recording, bug, rnd, replica, replicas[replica], waiting[replica])
    while any([receive(recording, bug, rnd, replica, replicas[replica], waiting[replica]) for replica in range(USERS)]):
        pass
    recording.delivered([replica.names() for replica in replicas])


def change(recording, rnd, replica, engine, name, waiting):
    names = engine.names()
    if names and rnd.random() < 0.4:
        gone = rnd.choice(names)
        message = engine.delete(gone)
        n = recording.delete(replica, gone, engine.names())
    else:
        place = rnd.randint(0, len(names))
        message = engine.insert(name, place)
        n = recording.insert(replica, name, place, engine.names())
    for other in range(USERS):
        if other != replica:
            waiting[other].append((replica, n, recording.clock(replica), message))


def receive(recording, bug, rnd, replica, engine, waiting):
    """One of the changes that may arrive now, if there is one."""
    has = recording.clock(replica)
    if bug == "lost" and waiting and rnd.random() < 0.05:  # THE BUG
        author, n, *_ = waiting.pop(rnd.randrange(len(waiting)))
        recording.note(f"{author}.{n} is lost on its way to replica {replica}")

    def may_arrive(author, clock, message):
        if bug == "overtaking" and message[0] == "del":  # THE BUG: what it deletes may not be there yet
            return True
        return all(count - (other == author) <= has[other] for other, count in enumerate(clock))

    ready = [one for one in waiting if may_arrive(one[0], one[2], one[3])]
    if ready:
        author, n, _, message = one = rnd.choice(ready)
        waiting.remove(one)
        engine.apply(message)
        recording.received(replica, author, n)
        recording.read(replica, engine.names())
    return bool(ready)


class Client:
    """A user's list behind a server that orders all changes, as Jupiter's: its own unconfirmed changes and what arrives are moved over each
    other. A change is its kind, its position, its name, and its author and number; nothing where it has become empty."""

    def __init__(self, bug):
        self.bug, self.names, self.unconfirmed = bug, [], []

    def make(self, change):
        apply(self.names, change)
        self.unconfirmed.append(change)

    def arrive(self, change):
        for place, own in enumerate(self.unconfirmed):
            self.unconfirmed[place], change = moved(own, change, self.bug), moved(change, own, self.bug)
        apply(self.names, change)


def moved(change, over, bug):
    """The change as it is behind another one that was made at the same time."""
    if change is None or over is None or over[0] is None:
        return change
    kind, place, name, author, n = change
    if over[0] == "ins":
        if bug == "unmoved" and kind == "del":  # THE BUG
            return change
        is_behind = over[1] < place or over[1] == place and (kind == "del" or bug == "behind" or over[3] < author)  # THE BUG: `behind`
        return kind, place + is_behind, name, author, n
    if kind == "del" and over[1] == place and over[2] == name:
        return change if bug == "twice" else None  # THE BUG: else it deletes what stands there now
    if bug == "mapping" and kind == "ins":  # THE BUG
        return change
    return kind, place - (over[1] < place), name, author, n


def apply(names, change):
    if change is not None and change[0] == "ins":
        names.insert(min(change[1], len(names)), change[2])
    elif change is not None and change[1] < len(names):
        del names[change[1]]


def behind_server(bug, rnd, recording, steps):
    """Clients of a server, which keeps the changes in its order, each moved over those that its author did not know."""
    clients, ordered = [Client(bug) for _ in range(USERS)], []
    sent, known = [[] for _ in range(USERS)], [0] * USERS  # what is on its way to the server; how many of its changes a client knows

    def make(replica, name):
        client = clients[replica]
        if client.names and rnd.random() < 0.4:
            place = rnd.randrange(min(2, len(client.names)))  # two may delete the same one
            gone = client.names[place]
            client.names.pop(place)
            n = recording.delete(replica, gone, client.names)
            made = "del", place, gone, replica, n
        else:
            place = rnd.randint(0, len(client.names))
            client.names.insert(place, name)
            n = recording.insert(replica, name, place, client.names)
            made = "ins", place, name, replica, n
        client.unconfirmed.append(made)

    def order(replica):
        """The server takes the client's first change; the client knew so much of its order when it was sent."""
        if sent[replica]:
            made, knew = sent[replica].pop(0)
            for other in ordered[knew:]:
                made = moved(made, other, bug)
            ordered.append(made or (None, replica))

    def hear(replica):
        client = clients[replica]
        if known[replica] == len(ordered):
            return
        change = ordered[known[replica]]
        known[replica] += 1
        author = change[3] if change[0] else change[1]
        if author == replica:
            client.unconfirmed.pop(0)
        elif bug == "dropped" and change[0] and rnd.random() < 0.1:  # THE BUG
            recording.note(f"{author}.{change[4]} is lost on its way to replica {replica}")
        else:
            client.arrive(change if change[0] else None)
            if change[0]:
                recording.received(replica, author, change[4])
                recording.read(replica, client.names)
        send(replica)

    def send(replica):
        """A client has one change on its way at a time."""
        is_on_its_way = sent[replica] or any((one[3] if one[0] else one[1]) == replica for one in ordered[known[replica]:])
        if clients[replica].unconfirmed and not is_on_its_way:
            sent[replica].append((clients[replica].unconfirmed[0], known[replica]))

    for step in range(steps):
        replica, what = rnd.randrange(USERS), rnd.random()
        if what < 0.4:
            make(replica, f"{'abc'[replica]}{step}")
            send(replica)
        elif what < 0.65:
            order(replica)
        else:
            hear(replica)
    for _ in range(4 * steps):
        for replica in range(USERS):
            order(replica)
            hear(replica)
            send(replica)
    recording.delivered([client.names for client in clients])


def session(bug, seed, steps=24):
    """The recording of a random session."""
    recording = Recording(USERS)
    recording.note(f"planted.py {bug} {seed}")
    play = behind_server if bug in BEHIND_SERVER else peers
    play(bug, Random(seed), recording, steps)
    return recording


def main():
    if len(sys.argv) != 4 or not sys.argv[2].isdecimal():
        sys.exit(__doc__)
    session(sys.argv[1], int(sys.argv[2])).save(sys.argv[3])


if __name__ == "__main__":
    main()
