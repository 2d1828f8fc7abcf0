"""A recording that the program has read, with the line of each entry, and what is visible to which operation.

Only texts that the program takes for traces come here, so nothing is checked again."""
from __future__ import annotations

from bisect import bisect_left
from collections import defaultdict
from functools import cached_property
from itertools import accumulate
from typing import NamedTuple

END = 4294967295  # no position is greater
FIRST_ENTRY = 3  # the line of a trace's first entry


class Operation:
    """An operation: its name `r.n`, its line in the trace, what it did, and how many operations of each replica are
    visible to it or are it."""

    def __init__(self, replica: int, n: int, line: int, text: str, clock: list):
        self.replica, self.n, self.line, self.text, self.clock = replica, n, line, text, clock
        asked = text.partition(":")[0].split()
        self.kind = asked[1]
        self.element = asked[2] if self.kind in ("ins", "del") else ""
        self.at = int(asked[3]) if self.kind == "ins" else 0

    @property
    def name(self) -> str:
        return f"{self.replica}.{self.n}"

    @property
    def key(self) -> tuple:
        """What operations are ordered by."""
        return self.replica, self.n

    @property
    def response(self) -> list:
        """Split only when it is asked for: a trace may have millions of names."""
        return self.text.partition(":")[2].split()

    def has_seen(self, other: "Operation") -> bool:
        """Whether the other operation is visible to this one, or is it."""
        return self.clock[other.replica] >= other.n


class Receipt(NamedTuple):
    """The note in a replica's log that an operation of another has arrived, and how many of its own came before."""

    replica: int
    line: int
    text: str
    seen: Operation
    before: int


class Recording:
    """The entries of a trace in their order; those in the given ranges of lines were written by `delivered`, which says that by then
    everything has arrived everywhere."""

    def __init__(self, text: str, delivered: tuple = ()):
        self.delivered = delivered
        self.lines = text.splitlines()
        self.replicas = int(self.lines[1].split()[1])
        self.streams = [[] for _ in range(self.replicas)]  # the operations of each replica
        self.receipts = [[] for _ in range(self.replicas)]
        self.entries = []
        self.inserts, self.deletes = defaultdict(list), defaultdict(list)  # operations by element
        self._counts, self._named, self._shown_by, self._sets, self._lines_named, self._came_to = {}, {}, {}, {}, {}, {}
        clocks = [[0] * self.replicas for _ in range(self.replicas)]
        for number, line in enumerate(self.lines[2:], FIRST_ENTRY):
            self._take(number, line, clocks)

    def _take(self, number: int, line: str, clocks: list) -> None:
        words = line.split(" ", 4)
        replica = int(words[0])
        clock, stream = clocks[replica], self.streams[replica]
        if words[1] == "recv":
            seen = self.streams[int(words[2])][int(words[3]) - 1]
            entry = Receipt(replica, number, line, seen, len(stream))
            self.receipts[replica].append(entry)
            clocks[replica] = [max(pair) for pair in zip(clock, seen.clock)]
        else:
            clock[replica] += 1
            entry = Operation(replica, clock[replica], number, line, list(clock))
            stream.append(entry)
            if entry.element:
                (self.inserts if entry.kind == "ins" else self.deletes)[entry.element].append(entry)
        self.entries.append(entry)

    def is_delivered(self, line: int) -> bool:
        """Whether a line says no more than that something ought to have happened by then."""
        return any(first <= line <= last for first, last in self.delivered)

    def changes(self) -> list:
        """All inserts and deletes, in the order of the trace."""
        return [entry for entry in self.entries if isinstance(entry, Operation) and entry.element]

    def operation(self, name: str) -> Operation:
        replica, n = map(int, name.split("."))
        return self.streams[replica][n - 1]

    def expected(self, operation: Operation) -> set:
        """The elements that are visible to the operation: inserted and not deleted by what it has seen. Its response must hold them
        all, where it is no view."""
        live = set()
        for element, inserts in self.inserts.items():
            if any(map(operation.has_seen, inserts)) and not any(map(operation.has_seen, self.deletes.get(element, ()))):
                live.add(element)
        return live

    def way(self, seen: Operation, to: Operation) -> list:
        """The receipts by which an operation came to be visible to another, first to last; none within one replica."""
        way = []
        while seen.replica != to.replica:
            receipt = self.arrival(seen, to.replica)
            way.append(receipt)
            to = receipt.seen
        return way[::-1]

    def receipt_of(self, operation: Operation, replica: int) -> Receipt | None:
        """The first receipt in a replica's log that names the operation, or a later one of the same author, if one does."""
        return next((receipt for receipt in self.receipts[replica]
                     if receipt.seen.replica == operation.replica and receipt.seen.n >= operation.n), None)

    def clock_before(self, receipt: Receipt) -> list:
        """How many operations of each replica the receipt's replica had directly before it."""
        stream = self.streams[receipt.replica]
        clock = stream[receipt.before - 1].clock if receipt.before else [0] * self.replicas
        for other in self.receipts[receipt.replica]:
            if other.before == receipt.before and other.line < receipt.line:
                clock = [max(pair) for pair in zip(clock, other.seen.clock)]
        return clock

    def shown_before(self, receipt: Receipt) -> list:
        """The list that the receipt's replica showed last before it; views left out."""
        shown = self.streams[receipt.replica][:receipt.before]
        return next((operation.response for operation in reversed(shown) if operation.kind != "view"), [])

    def own_receipt(self, operation: Operation, replica: int) -> Receipt | None:
        """The first receipt in a replica's log that names just this operation, if one does."""
        if replica not in self._named:
            self._named[replica] = {receipt.seen.key: receipt for receipt in reversed(self.receipts[replica])}
        return self._named[replica].get(operation.key)

    def skipped(self, replica: int, least: int) -> list:
        """The changes that came to a replica without a receipt of their own, though it is likely that they should have one, in the order of the
        trace: a few where so many others of their author at least, for each of them, came with one; else, where they are no more than half of all
        that came, those that came with one to each other replica that has them. A delete of what another one deletes too is none: where it becomes
        nothing, it needs no receipt."""
        receipts, named = self.receipts[replica], self.named_at(replica)
        clock = [max((receipt.seen.clock[author] for receipt in receipts), default=0) for author in range(self.replicas)]
        few, elsewhere, came = [], [], 0
        for author, stream in enumerate(self.streams):
            changes = [change for change in stream[:clock[author]] if change.element] if author != replica else []
            lacking = [change for change in changes if change.key not in named and not self.is_deleted_twice(change)]
            few += lacking if len(lacking) * (least + 1) <= len(changes) else []
            elsewhere += [change for change in lacking if self.is_named_elsewhere(change, replica)]
            came += len(changes)
        found = dict.fromkeys(few + elsewhere if len(elsewhere) * 2 <= came else few)
        return sorted(found, key=lambda change: change.line)

    def are_named(self, author: int, but: list, replica: int) -> bool:
        """Whether each change of an author that came to another replica, but these, has a receipt of its own there; and there are some."""
        has = max((receipt.seen.clock[author] for receipt in self.receipts[replica]), default=0)
        others = [change for change in self.streams[author][:has] if change.element and change not in but and not self.is_deleted_twice(change)]
        return bool(others) and self.named_at(replica).issuperset(change.key for change in others)

    def named_at(self, replica: int) -> set:
        """The operations that a replica's receipts name, but for those of `delivered`."""
        return {receipt.seen.key for receipt in self.receipts[replica] if not self.is_delivered(receipt.line)}

    def is_due_later(self, change: Operation, replica: int, line: int) -> bool:
        """Whether it seems that a change that never came to a replica was not to come there up to a line: a change of another one came later than
        that, which came before it everywhere else, as by the order of a server."""
        elsewhere = {other: self.lines_named(other) for other in range(self.replicas)
                     if other not in (replica, change.replica) and change.key in self.lines_named(other)}
        for key in (key for key, at in self.lines_named(replica).items() if at > line):
            told = [lines for other, lines in elsewhere.items() if other != key[0]]
            if told and all(key in lines and lines[key] < lines[change.key] for lines in told):
                return True
        return False

    def lines_named(self, replica: int) -> dict:
        """By operation, the line of the first receipt at a replica that names it, but for those of `delivered`."""
        if replica not in self._lines_named:
            self._lines_named[replica] = {receipt.seen.key: receipt.line for receipt in reversed(self.receipts[replica])
                                          if not self.is_delivered(receipt.line)}
        return self._lines_named[replica]

    def is_deleted_twice(self, change: Operation) -> bool:
        return change.kind == "del" and len(self.deletes[change.element]) > 1

    def is_named_elsewhere(self, change: Operation, replica: int) -> bool:
        """Whether a change came to other replicas than this one, and to each by a receipt of its own."""
        others = [is_own for other, is_own in self.came_to(change) if other != replica]
        return bool(others) and all(others)

    def may_travel_alone(self, change: Operation, replica: int) -> bool:
        """Whether a change came to another replica than this one by a receipt of its own, where it came to another one: what travels with the
        next change of its author, in one update, has none anywhere."""
        others = [is_own for other, is_own in self.came_to(change) if other != replica]
        return not others or any(others)

    def came_to(self, change: Operation) -> list:
        """The other replicas to which a change came, each with whether it has a receipt of its own there. It is asked for many times."""
        if change.key not in self._came_to:
            self._came_to[change.key] = [(other, self.own_receipt(change, other) is not None) for other in range(self.replicas)
                                         if other != change.replica and self.arrival(change, other)]
        return self._came_to[change.key]

    def is_applied(self, change: Operation, replica: int) -> bool | None:
        """Whether a change was applied at another replica than its author's, by the responses there; none where they don't show it. An insert is
        shown by its element, and its lack by the first response since it has come, if no delete of it has come by then; a delete by that response,
        where the one before still had the element."""
        first_shown, whole, lines = self._shown(replica)
        if change.kind == "ins" and change.element in first_shown:
            return True
        arrival = self.arrival(change, replica)
        at = bisect_left(lines, arrival.line) if arrival else len(lines)
        if at == len(whole):
            return None
        first = whole[at]
        if change.kind == "ins":
            return None if any(map(first.has_seen, self.deletes.get(change.element, ()))) else False
        if change.element in self._names_of(first):
            return False
        return True if at and change.element in self._names_of(whole[at - 1]) else None

    def _shown(self, replica: int) -> tuple:
        """By element the first line in which a replica shows it; and its operations but views, which may leave out any, with their lines."""
        if replica not in self._shown_by:
            first = {}
            for operation in reversed(self.streams[replica]):
                first.update(dict.fromkeys(operation.response, operation.line))
            whole = [operation for operation in self.streams[replica] if operation.kind != "view"]
            self._shown_by[replica] = first, whole, [operation.line for operation in whole]
        return self._shown_by[replica]

    def _names_of(self, operation: Operation) -> frozenset:
        """The names in a response, for many questions."""
        if operation.key not in self._sets:
            self._sets[operation.key] = frozenset(operation.response)
        return self._sets[operation.key]

    @cached_property
    def has_updates_of_several(self) -> bool:
        """Whether somewhere a change was applied that has no receipt of its own, so that one receipt may stand for several changes."""
        return any(not is_own and not self.is_deleted_twice(change) and self.is_applied(change, replica)
                   for change in self.changes() for replica, is_own in self.came_to(change))

    def change_at(self, changes: list, receipt: Receipt) -> Operation | None:
        """Of these operations the one that was first made at the receipt's replica, or arrived there, if that was before the receipt."""
        came = {}
        for change in changes:
            entry = change if change.replica == receipt.replica else self.arrival(change, receipt.replica)
            if entry is not None and entry.line < receipt.line:
                came.setdefault(entry.line, change)
        return came[min(came)] if came else None

    def arrival(self, operation: Operation, replica: int) -> Receipt | None:
        """The first receipt in a replica's log that brings the operation, if one does."""
        at = bisect_left(self._brought(replica, operation.replica), operation.n)
        return self.receipts[replica][at] if at < len(self.receipts[replica]) else None

    def _brought(self, replica: int, author: int) -> list:
        """Up to each receipt in a replica's log, how many operations of an author have come there. It is asked for very many of them."""
        if (replica, author) not in self._counts:
            came = (receipt.seen.clock[author] for receipt in self.receipts[replica])
            self._counts[replica, author] = list(accumulate(came, max))
        return self._counts[replica, author]


def place_asked(operation: Operation, response: list) -> int:
    """The place in the response where an insert asked for its element to stand: past the end is the end."""
    return min(operation.at, len(response) - 1)
