"""The small trace that is left of a fault or a refusal: of all elements those that it is about, and those beside which one arrived that
were deleted already; and of all operations those that bear on it, or on its cause: a delete of what is deleted already, and what
overtook a change, with the receipt that came too late.

What is visible to which operation stays as it was, so what was right stays right: of the elements that are kept, all inserts
and all deletes that anything kept has seen are kept too. Receipts that name one of these stay; others are made anew, since one may have
named an operation that is gone. Replicas keep their numbers; operations are counted anew, and one that changed another element is a read. The text is
that of version 2 of the trace exactly where a view is kept, as the program's own writer has it."""
from __future__ import annotations

import re
from bisect import bisect_left
from collections import defaultdict, deque
from collections.abc import Callable
from typing import NamedTuple

from .causes import causes_of
from .evidence import Evidence, Unexplained
from .recordings import FIRST_ENTRY, Operation, Receipt, Recording, place_asked

MOST_MET = 3  # deletes that an insert met
MOST_BESIDE_LOST = 4  # changes beside a lost one
MOST_MORE = 20  # lines by which a small trace may be longer than twice the smallest
LINE = re.compile(r"\bline (\d+)\b")  # of the trace, in the words of a cause


class Small(NamedTuple):
    """The small trace, for each of its operations the name there and the operation of the whole trace, and for each of its entries the
    line of the whole trace that it comes from."""

    text: str
    operations: list
    lines: list


class Projection:
    """A recording with some of its elements and operations."""

    def __init__(self, recording: Recording, elements: set, kept: list, misplaced: Operation | None = None, late: tuple = ()):
        self.recording, self.elements, self.misplaced = recording, elements, misplaced
        kept = set(kept)
        self.late = [receipt for receipt in sorted(late, key=lambda receipt: receipt.line) if receipt.seen in kept]
        self.named = [deque(receipt for receipt in receipts if receipt.seen in kept and receipt.seen.element in elements and receipt not in late)
                      for receipts in recording.receipts]
        self.kept = sorted(kept, key=lambda operation: operation.line)
        self.counts = [[0] * (len(stream) + 1) for stream in recording.streams]
        for operation in self.kept:
            self.counts[operation.replica][operation.n] = 1
        for counts in self.counts:
            for n in range(1, len(counts)):
                counts[n] += counts[n - 1]

    def small(self) -> Small:
        has_view = any(operation.kind == "view" for operation in self.kept)
        lines = ["trace 2" if has_view else "trace 1", f"replicas {self.recording.replicas}"]
        clocks = [[0] * self.recording.replicas for _ in range(self.recording.replicas)]
        named, origins = [], []
        for operation in self.kept:
            receipts = sorted(self.receipts(operation, clocks[operation.replica]) + self.late_ones(operation.line))
            lines += [text for _, text in receipts]
            origins += [*(line for line, _ in receipts), operation.line]
            clocks[operation.replica] = self.clock(operation)
            lines.append(self.entry(operation))
            named.append((f"{operation.replica}.{self.number(operation)}", operation))
        for line, text in self.late_ones(len(self.recording.lines)):
            lines.append(text)
            origins.append(line)
        return Small("".join(line + "\n" for line in lines), named, origins)

    def number(self, operation: Operation) -> int:
        return self.counts[operation.replica][operation.n]

    def clock(self, operation: Operation) -> list:
        """How many kept operations of each replica the operation has seen."""
        return [counts[n] for counts, n in zip(self.counts, operation.clock)]

    def receipts(self, operation: Operation, before: list) -> list:
        """The receipts in front of an operation, where its replica has seen this much before, each behind the line of the one that it comes
        from: those that named a change that is kept, and those that the rest needs."""
        left, named = self.named[operation.replica], []
        while left and left[0].line < operation.line:
            named.append(left.popleft())
        for receipt in named:
            before = [max(pair) for pair in zip(before, self.clock(receipt.seen))]
            before[receipt.seen.replica] = max(before[receipt.seen.replica], self.number(receipt.seen))
        return [*map(self.written, named), *self.needed(operation, before)]

    def needed(self, operation: Operation, before: list) -> list:
        """The receipts that an operation needs beside those, in the order of the lines that they come from: none for what another one brings."""
        clock = self.clock(operation)
        news = [self.nth(replica, n) for replica, n in enumerate(clock) if replica != operation.replica and n > before[replica]]
        needed = [new for new in news if not any(other.has_seen(new) for other in news if other is not new)]
        return [(self.recording.arrival(new, operation.replica).line, f"{operation.replica} recv {new.replica} {self.number(new)}")
                for new in needed]

    def written(self, receipt: Receipt) -> tuple:
        return receipt.line, f"{receipt.replica} recv {receipt.seen.replica} {self.number(receipt.seen)}"

    def late_ones(self, line: int) -> list:
        """The receipts up to this line that came too late, and were not written yet, each behind its line; each is written once."""
        ready = [receipt for receipt in self.late if receipt.line <= line]
        self.late = self.late[len(ready):]
        return list(map(self.written, ready))

    def nth(self, replica: int, n: int) -> Operation:
        """The n-th kept operation of a replica."""
        return self.recording.streams[replica][bisect_left(self.counts[replica], n) - 1]

    def entry(self, operation: Operation) -> str:
        """The line of an operation; what inserts or deletes another element is a read of those that are kept."""
        response = [name for name in operation.response if name in self.elements]
        words = [operation.kind, operation.element] if operation.element in self.elements else [self.looking(operation)]
        if words[0] == "ins":
            words.append(str(self.place(operation, response)))
        return " ".join([str(operation.replica), *words, ":", *response])

    def looking(self, operation: Operation) -> str:
        """The kind of an operation that changes none of the elements that are kept."""
        return "view" if operation.kind == "view" else "read"

    def place(self, operation: Operation, response: list) -> int:
        """Where the element stands now; of one that is misplaced, where that stands which it ought to have stood before."""
        wanted = operation.element
        if operation is self.misplaced:
            whole = operation.response
            asked = place_asked(operation, whole)
            wanted = whole[asked] if asked >= 0 else wanted
        return response.index(wanted) if wanted in response else 0


def with_changes(recording: Recording, elements: set, kept: list) -> list:
    """The operations with all inserts and deletes of the elements that any of them has seen."""
    kept = dict.fromkeys(kept)
    changes = [change for element in elements
               for change in recording.inserts.get(element, []) + recording.deletes.get(element, [])]
    is_growing = True
    while is_growing:
        seen_by_any = [max(counts) for counts in zip(*(operation.clock for operation in kept))]
        seen = [change for change in changes if change not in kept and seen_by_any[change.replica] >= change.n]
        kept.update(dict.fromkeys(seen))
        is_growing = bool(seen)
    return list(kept)


def candidates(evidence: Evidence, named: list) -> list:
    """Projections that should have the verdict of the beginning that the evidence is on, the smaller first, with the changes that are named
    and their elements."""
    recording, elements = evidence.recording, {*evidence.elements, *(change.element for change in named if change.element)}
    gone = [delete for pair in evidence.second_deletes[:1] for delete in pair]
    if evidence.report["verdict"] in ("refused", "contents"):
        gone += [delete for _, deletes in evidence.lost_neighbours for delete in deletes]
    gone += evidence.met[1][:MOST_MET]
    elements.update(delete.element for delete in gone)
    between = evidence.between if evidence.report["verdict"] == "refused" else None
    elements.update(between[2:3] if between else ())
    overtakings = [found for _, found in evidence.overtakings]
    misplaced = evidence.operations[0] if evidence.report["verdict"] == "position" else None
    overtaking = [receipt.seen for found in overtakings for receipt in filter(None, found)]
    lost, later = beside_lost(evidence)
    elements.update(operation.element for operation in lost if operation.element)
    late = tuple({*later, *(found.own for found in overtakings if found.own)})
    told = [*evidence.operations, *overtaking, *lost, *named]
    if evidence.report["verdict"] == "contents":  # the response before shows what was there; what has not arrived there may be what should have
        told += evidence.before(evidence.operations[0])[0]
        told += [change for element in evidence.elements for change in evidence.changes(element, evidence.operations[0])]
    if evidence.report["verdict"] != "doubled":
        told = with_changes(recording, elements, told)
    return [Projection(recording, elements, fewer(told, evidence.operations + gone + overtaking + lost + named), misplaced, late),
            Projection(recording, elements, told, misplaced, late)]


def whole(evidence: Evidence) -> Projection:
    """All of the beginning that the evidence is on."""
    recording = evidence.recording
    every = [operation for stream in recording.streams for operation in stream if operation.line <= evidence.last_line]
    names = set(evidence.elements).union(recording.inserts, recording.deletes, *(operation.response for operation in evidence.operations))
    return Projection(recording, names, every, evidence.operations[0] if evidence.report["verdict"] == "position" else None)


def named_by(evidence: Evidence, causes: list) -> list:
    """The operations of the lines that the first cause names; of a receipt, the one that it brings."""
    entries = {entry.line: entry for entry in evidence.recording.entries if entry.line <= evidence.last_line}
    lines = dict.fromkeys(int(line) for cause in causes[:1] for line in LINE.findall(cause.told))
    found = [entries[line].seen if isinstance(entries[line], Receipt) else entries[line] for line in lines if line in entries]
    return [operation for operation in found if operation not in evidence.operations]


def beside_lost(evidence: Evidence) -> tuple:
    """The change that is told as lost, if one is; others of its author that came to that replica by receipts of their own; and what was answered
    next where it came by one: without these nothing would speak for it. And those receipts that came later."""
    recording, last, found, late = evidence.recording, evidence.last_line, [], []
    for change, replica in evidence.unreceived[:1] if evidence.report["verdict"] in ("refused", "contents") else []:
        receipts = [receipt for receipt in recording.receipts[replica] if receipt.seen.replica == change.replica and receipt.seen.element
                    and receipt.seen.line <= last and not recording.is_delivered(receipt.line)][-MOST_BESIDE_LOST:]
        found, late = [change, *(receipt.seen for receipt in receipts)], [receipt for receipt in receipts if receipt.line > last]
        came = [recording.arrival(change, replica), *(recording.own_receipt(change, other) for other, is_own in recording.came_to(change) if is_own)]
        behind = [operation for receipt in filter(None, came) for operation in recording.streams[receipt.replica][receipt.before:receipt.before + 1]]
        found += [operation for operation in behind if operation.line <= last]
    return list(dict.fromkeys(found)), late


def fewer(kept: list, named: list) -> list:
    """The operations without deletes that repeat what another one does for all that have seen them; those that are named stay."""
    stay, gone, firsts, deletes = set(named), set(), {}, defaultdict(list)
    for delete in sorted((change for change in kept if change.kind == "del"), key=lambda change: change.line):
        is_first = firsts.setdefault((delete.replica, delete.element), delete) is delete
        if is_first or delete in stay:
            deletes[delete.element].append(delete)
        else:  # whoever has seen it has seen the first one
            gone.add(delete)
    left = sorted((operation for operation in kept if operation not in gone), key=lambda operation: operation.line, reverse=True)
    for delete in [delete for same in deletes.values() for delete in same if delete not in stay]:
        others = [other for other in deletes[delete.element] if other is not delete and other not in gone]
        if all(any(map(operation.has_seen, others)) for operation in left
               if operation.has_seen(delete) and operation is not delete and operation not in gone):
            gone.add(delete)
    return [operation for operation in kept if operation not in gone]


def smallest(evidence: Evidence, judge: Callable) -> Small | None:
    """The smallest of these traces whose report, by `judge`, has the verdict and the number of the one that the evidence is on, and which is
    explained by the same cause first; where none is, the smallest with that verdict. It should be the first of them; but the program has the
    last word, and where it says otherwise more is kept."""
    causes, least = causes_of(evidence), None
    named = named_by(evidence, causes)
    for projection in [*candidates(evidence, []), *(candidates(evidence, named) if named else [])]:
        small = projection.small()
        report = same_verdict(small, evidence, judge)
        if report is not None and is_short_beside(small, least) and (not causes or first_cause(small, report, evidence) == causes[0].name):
            return small
        least = least or (small if report is not None else None)
    if least is not None:
        return least
    small = whole(evidence).small()
    return small if same_verdict(small, evidence, judge) is not None else None


def is_short_beside(small: Small, least: Small | None) -> bool:
    """Whether a trace that keeps more for the sake of its words is small enough still."""
    return least is None or len(small.lines) <= 2 * len(least.lines) + MOST_MORE


def same_verdict(small: Small, evidence: Evidence, judge: Callable) -> dict | None:
    """The report on a small trace, if it has the verdict and the number of the one that the evidence is on."""
    report = judge(small.text.encode())
    is_same = report is not None and all(report.get(key) == evidence.report.get(key) for key in ("verdict", "k"))
    return report if is_same else None


def first_cause(small: Small, report: dict, evidence: Evidence) -> str:
    """The name of the cause that is told first of a small trace; empty where there is none."""
    delivered = tuple((at, at) for at, line in enumerate(small.lines, FIRST_ENTRY) if evidence.recording.is_delivered(line))
    try:
        causes = causes_of(Evidence(Recording(small.text, delivered), report, kind=evidence.kind))
    except Unexplained:
        return ""
    return causes[0].name if causes else ""
