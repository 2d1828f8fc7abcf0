#!/usr/bin/env python3
"""whole_states.py TRACE: records an editor whose replicas send each other their whole lists, of which the later one wins.

Two users type at once. Each gets the other's list with its number, and takes it where that number is greater than its own: so one user's
text is lost. docs/gallery.md has what came out."""
import sys
from pathlib import Path

sys.path.insert(0, str(Path(__file__).resolve().parents[2] / "recorders"))
from domepeeler import Recording  # noqa: E402


class Replica:
    """A list, and the number of its last change: a count, and of equal counts the replica's number decides."""

    def __init__(self, number):
        self.number, self.names, self.version = number, [], (0, number)

    def insert(self, name, position):
        self.names.insert(position, name)
        self.version = self.version[0] + 1, self.number

    def take(self, names, version):
        if version > self.version:
            self.names, self.version = list(names), version


def main():
    if len(sys.argv) != 2:
        sys.exit(__doc__)
    recording, replicas = Recording(2), [Replica(0), Replica(1)]
    numbers = []
    for replica, name in zip(replicas, "ab"):
        replica.insert(name, 0)
        numbers.append(recording.insert(replica.number, name, 0, replica.names))
    sent = [(list(replica.names), replica.version) for replica in replicas]
    for replica, other in zip(replicas, reversed(replicas)):
        replica.take(*sent[other.number])
        recording.received(replica.number, other.number, numbers[other.number])
        recording.read(replica.number, replica.names)
    recording.save(sys.argv[1])


if __name__ == "__main__":
    main()
