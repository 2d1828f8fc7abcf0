#!/usr/bin/env python3
"""A property-based test by Hypothesis: whatever is done at three replicas, the recording is accepted without warnings.

Needs Debian's python3-hypothesis and python3-pytest, and the program's path in DOMEPEELER:

    DOMEPEELER=../../crates/finder_cli/out/finder_cli /usr/bin/python3 -m pytest -q with_hypothesis.py

For an editor whose server orders all changes, ask in `check` for `recording.judge(weak=True)`, and in the place of the verdict for
`report.get("weak")`.

To stop a debugger in the call that answered wrong, run the steps that failed alone, with `Recording(replicas, stop=True)` in `Group`: it starts
the program at each call.

The second test fails, and is meant to: it shows what a failure looks like, and leaves the recording in failed.trace."""
import sys
from pathlib import Path

from hypothesis import given, settings
from hypothesis import strategies as st

sys.path.insert(0, str(Path(__file__).parent.parent / "engines"))
from list_crdt import Group, ListCrdt

REPLICAS = 3


class Unsorted(ListCrdt):
    """The same list CRDT with a fault: of elements after the same one, that which arrives last comes first."""

    def apply(self, message: tuple) -> None:
        if message[0] == "delete":
            super().apply(message)
            return
        _, identity, name, after = message
        self.items.insert(self.place(after) + 1 if after else 0, [identity, name, True])
        self.clock = max(self.clock, identity[0])


# What is done: by which replica, what, and where or to which element or from whom.
STEPS = st.lists(st.tuples(st.integers(0, REPLICAS - 1), st.sampled_from(["insert", "delete", "take"]), st.integers(0, 7)),
                 max_size=30)


def session(engine: type, steps: list):
    """The recording of these steps. At the end all that was done is delivered to everyone."""
    group = Group(REPLICAS, engine)
    has = [[] for _ in range(REPLICAS)]  # the operations of each replica, in the order in which they came
    for number, (replica, what, place) in enumerate(steps):
        names = group.names(replica)
        if what == "insert":
            has[replica].append((replica, group.insert(replica, f"e{number}", place % (len(names) + 1))))
        elif what == "delete" and names:
            has[replica].append((replica, group.delete(replica, names[place % len(names)])))
        elif what == "take":
            for operation in taken(has, replica, place % REPLICAS):
                group.take(replica, *operation)
    for replica in [*range(REPLICAS), *range(REPLICAS)]:
        for other in range(REPLICAS):
            for operation in taken(has, replica, other):
                group.lists[replica].apply(group.messages[operation])
    group.recording.delivered([group.names(replica) for replica in range(REPLICAS)])  # writes the receipts of these, and reads
    return group.recording


def taken(has: list, replica: int, other: int) -> list:
    """What the replica takes in of what the other has, in the other's order: so exchange is causal."""
    operations = [one for one in has[other] if one not in has[replica]]
    has[replica] += operations
    return operations


def check(engine: type, steps: list) -> None:
    recording = session(engine, steps)
    report = recording.judge()
    is_accepted = report["verdict"] == "accepted" and not report["warnings"]
    if not is_accepted:
        recording.save("failed.trace")  # of the steps that fail the smallest are tried last
    assert is_accepted, f"{report}\n{recording.text()}"


@settings(deadline=None, max_examples=200)
@given(STEPS)
def test_the_list_crdt(steps):
    check(ListCrdt, steps)


@settings(deadline=None, max_examples=200)
@given(STEPS)
def test_the_list_crdt_with_a_fault(steps):
    check(Unsorted, steps)
