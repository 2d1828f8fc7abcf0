#!/usr/bin/env python3
"""A list CRDT of thirty lines, and how it is recorded. Run it by record.py; it reads plans and writes traces."""
import sys
from pathlib import Path
from typing import TextIO

sys.path.insert(0, str(Path(__file__).parent.parent))
from domepeeler import Recording


class ListCrdt:
    """One replica of a replicated list. An element is inserted after another one and stays for ever; a deleted one is
    hidden. Of elements after the same one, that with the greater id comes first. No two messages are alike."""

    def __init__(self, replica: int):
        self.replica, self.clock = replica, 0
        self.items = []  # [id, name, whether it is shown]

    def names(self) -> list:
        return [name for _, name, shown in self.items if shown]

    def insert(self, name: str, position: int) -> tuple:
        """Answers the message that the other replicas have to apply."""
        shown = [identity for identity, _, shown in self.items if shown]
        after = shown[position - 1] if position else None
        message = ("insert", (self.clock + 1, self.replica), name, after)
        self.apply(message)
        return message

    def delete(self, name: str) -> tuple:
        message = ("delete", next(identity for identity, had, _ in self.items if had == name), self.replica)
        self.apply(message)
        return message

    def apply(self, message: tuple) -> None:
        kind, identity, *rest = message
        if kind == "delete":
            self.items[self.place(identity)][2] = False
            return
        name, after = rest
        place = self.place(after) + 1 if after else 0
        while place < len(self.items) and self.items[place][0] > identity:
            place += 1
        self.items.insert(place, [identity, name, True])
        self.clock = max(self.clock, identity[0])

    def place(self, identity: tuple) -> int:
        return next(place for place, item in enumerate(self.items) if item[0] == identity)


class Group:
    """So many replicas of one list, recorded. What is done here stands at the places where an editor would do it."""

    def __init__(self, replicas: int, engine: type = ListCrdt):
        self.recording = Recording(replicas)
        self.lists = [engine(replica) for replica in range(replicas)]
        self.messages = {}  # of each operation, by author and number; a read has none

    def insert(self, replica: int, name: str, position: int) -> int:
        engine = self.lists[replica]
        message = engine.insert(name, position)
        n = self.recording.insert(replica, name, position, engine.names())  # after the local change
        self.messages[replica, n] = message  # the message goes out under the operation's name
        return n

    def delete(self, replica: int, name: str) -> int:
        engine = self.lists[replica]
        message = engine.delete(name)
        n = self.recording.delete(replica, name, engine.names())
        self.messages[replica, n] = message
        return n

    def read(self, replica: int) -> None:
        self.recording.read(replica, self.lists[replica].names())

    def take(self, replica: int, author: int, n: int) -> None:
        if (author, n) in self.messages:
            self.lists[replica].apply(self.messages[author, n])
        self.recording.received(replica, author, n)  # after the remote change was applied

    def names(self, replica: int) -> list:
        return self.lists[replica].names()


def play(group: Group, words: list) -> None:
    """One line of a plan. What the list must have and has not turns an operation into a read, which shows it."""
    replica, names = int(words[0]), group.names(int(words[0]))
    if words[1] == "take":
        for operation in words[4:]:
            group.take(replica, *map(int, operation.split(".")))
    elif words[1] == "ins" and words[3] == "at":
        group.insert(replica, words[2], min(int(words[4]), len(names)))
    elif words[1] == "ins" and words[4] in names:
        group.insert(replica, words[2], names.index(words[4]) + (words[3] == "after"))
    elif words[1] == "del" and words[2] in names:
        group.delete(replica, words[2])
    else:
        group.read(replica)


def record_plans(engine: type, answers: TextIO = sys.stdout) -> None:
    """Reads plans, and writes the recording of each."""
    for line in sys.stdin:
        words = line.split()
        if words[0] == "plan":
            group = Group(int(words[1]), engine)
        elif words[0] == "end":
            print(group.recording.text() + "end", file=answers, flush=True)
        else:
            play(group, words)


if __name__ == "__main__":
    record_plans(ListCrdt)
