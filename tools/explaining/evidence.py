"""What in a recording bears on its verdict: the operations, the elements, and the lines that make them visible.

The verdict is the program's. What is computed here must agree with it; where it doesn't, Unexplained says so."""
from __future__ import annotations

from bisect import bisect_right
from collections import Counter
from collections.abc import Iterator
from functools import cached_property
from typing import NamedTuple

from .recordings import FIRST_ENTRY, Operation, Receipt, Recording, place_asked
from .telling import FIRST_STEPS, LAST_STEPS, MOST_STEPS

ENOUGH_REPLICAS = 3  # that show two elements, so that one which shows them otherwise stands alone
MOST_LOOKED_AT = 20  # responses of an author before its insert
ENOUGH_FINE = 3  # inserts beside deleted elements that went well
MOST_ASTRAY = 20  # changes that may have been lost that are looked at
MOST_SINCE = 20  # receipts behind such a change that are looked at
MOST_ARRIVED = 6  # receipts that are told one by one
SEVERAL = 3  # changes of an author, each with a receipt of its own, so that one without is noticed
MOST_ELEMENTS = 4  # of a fault of contents, on each side, that are followed through the trace


class Unexplained(Exception):
    """The program's verdict is not what this reading of the trace finds."""


class Arrival(NamedTuple):
    """An insert of another replica, and the receipt that brings it to the one that shows it."""

    receipt: Receipt
    insert: Operation


class Overtaking(NamedTuple):
    """A receipt that brings a change along with a later operation, and the one that names the change itself, if there is one."""

    brought: Receipt
    own: Receipt | None


class Evidence:
    """The operations that the verdict names, the elements that it is about, the names to mark in each response, and the
    numbers of the lines that matter. The report may be that on a beginning of the recording, of so many lines. The kind of the editor is
    the user's word, if there is one."""

    def __init__(self, recording: Recording, report: dict, lines: int = 0, kind: str = ""):
        self.recording, self.report, self.kind = recording, report, kind
        self.last_line = lines or len(recording.lines)
        self.operations, self.elements, self.marks, self.lines, self._before, self._last_made = [], [], {}, set(), {}, {}
        self.missing, self.surplus, self.repeated = [], [], []
        gather = {"accepted": self._accepted, "refused": self._refused, "doubled": self._doubled,
                  "contents": self._contents, "position": self._position}
        if report["verdict"] not in gather:
            raise Unexplained(f"it knows no verdict `{report['verdict']}`")
        gather[report["verdict"]]()
        for operation, elements in self._followed():
            self.lines.add(operation.line)
            for element in elements:
                self._follow(element, operation)
        if report["verdict"] in ("refused", "contents"):
            for arrival, deletes in self.lost_neighbours:
                brought = [self.recording.arrival(delete, arrival.receipt.replica) for delete in deletes
                           if delete.replica != arrival.receipt.replica]
                self.lines.update(entry.line for entry in [arrival.receipt, *deletes, *brought])

    def _accepted(self) -> None:
        """The last response of each replica is enough to notice the report of another trace."""
        for stream in self.recording.streams:
            if stream and not follows(stream[-1].response, self.report["order"]):
                raise Unexplained(f"the response of {stream[-1].name} does not follow the order")

    def _refused(self) -> None:
        for step in self.report["steps"]:
            operation = self.recording.operation(step["shown"])
            response = operation.response
            if response != step["response"] or not follows([step["from"], step["to"]], response):
                raise Unexplained(f"{operation.name} does not show {step['from']} before {step['to']}")
            self._name(operation, [step["from"], step["to"]])
            self.elements.append(step["from"])

    def _doubled(self) -> None:
        first, again = (self.recording.operation(self.report[key]) for key in ("first", "again"))
        if not first.kind == again.kind == "ins" or first.element != again.element or first is again:
            raise Unexplained(f"{first.name} and {again.name} do not insert one name")
        self._name(first, [first.element])
        self._name(again, [first.element])
        self.elements = [first.element]

    def _contents(self) -> None:
        operation = self.recording.operation(self.report["at"])
        answered, expected = operation.response, self.recording.expected(operation)
        missing = set() if operation.kind == "view" else expected.difference(answered)
        self.repeated = [name for name, count in Counter(answered).items() if count > 1]
        self.surplus = [name for name in dict.fromkeys(answered) if name not in expected]
        self.missing = [name for name in self.recording.inserts if name in missing]
        if not self.repeated + self.surplus + self.missing:
            raise Unexplained(f"the response of {operation.name} holds just what its replica had by then")
        self._name(operation, self.repeated + self.surplus)
        before, arrived = self.before(operation)
        told = arrived[:MOST_ARRIVED]
        self.lines.update(entry.line for entry in [*before, *told, *(receipt.seen for receipt in told)])
        followed = self.missing[:MOST_ELEMENTS] + self.surplus[:MOST_ELEMENTS] + self.repeated[:MOST_ELEMENTS]
        self.elements = list(dict.fromkeys(followed))

    def _position(self) -> None:
        operation = self.recording.operation(self.report["at"])
        response = operation.response
        asked = place_asked(operation, response)
        if operation.kind != "ins" or asked >= 0 and response[asked] == operation.element:
            raise Unexplained(f"{operation.name} is no insert that stands elsewhere than it was asked for")
        there = response[asked:asked + 1] if asked >= 0 else []
        self._name(operation, [operation.element, *there])
        self.elements = [operation.element, *there]

    def _name(self, operation: Operation, marks: list) -> None:
        self.operations.append(operation)
        self.marks.setdefault(operation.name, []).extend(marks)

    @cached_property
    def reordered(self) -> tuple | None:
        """Of wrong positions, and of a refusal of two, two elements that the replica which answered last had shown before in another order: in the
        order of its answer, with its response before, but views, and that answer. Best is a pair with one that the verdict is about."""
        operation = self.operations[0] if self.report["verdict"] == "position" else self.recording.entries[self.last_line - FIRST_ENTRY]
        if self.report["verdict"] != "position" and self.report.get("k") != 2 or not isinstance(operation, Operation) or operation.kind == "view":
            return None
        before = next((one for one in reversed(self.recording.streams[operation.replica][:operation.n - 1]) if one.kind != "view"), None)
        places = {name: place for place, name in enumerate(before.response)} if before else {}
        common = [name for name in operation.response if name in places]
        about = [name for name in common if name in self.elements]
        turned = [pair for names in (about, common) for pair in zip(names, names[1:]) if places[pair[0]] > places[pair[1]]]
        pair = next((pair for pair in turned if set(pair) & set(self.elements)), turned[0] if turned else None)
        return (*pair, before, operation) if pair else None

    @cached_property
    def shown_alone(self) -> tuple | None:
        """Of a refusal of two of which one's author had the other, whether its order is shown by its author alone, and only until its next receipt: the
        insert, the other one, that receipt, and the author's first response behind it that shows them as all others do."""
        if self.report.get("k") != 2:
            return None
        first, then = (self.recording.inserts[name][0] for name in self.elements)
        if not first.has_seen(then) and not then.has_seen(first):
            return None
        insert, other = (first, then) if first.has_seen(then) else (then, first)
        names = [name for name in insert.response if name in (insert.element, other.element)]
        shown = [one for stream in self.recording.streams for one in stream if names[1:] and {*names} <= {*one.response}]
        unlike = [one for one in shown if not follows(names, one.response)]
        receipt = next((one for one in self.recording.receipts[insert.replica] if one.before >= insert.n), None)
        alike = [one for one in shown if one not in unlike]
        own = next((one for one in unlike if one.replica == insert.replica), None)
        if receipt is None or own is None or all(one.replica == insert.replica for one in unlike) or any(
                one.replica != insert.replica or one.line > receipt.line for one in alike):
            return None
        return insert, other, receipt, own

    @cached_property
    def settled(self) -> tuple | None:
        """Of a refusal of two, of which neither author had the other's, where the one was put before an element that a response has no longer, and the other
        behind it, which so settles their order: both inserts in this order, the nearest such element, and the response that shows them otherwise."""
        if self.report.get("k") != 2:
            return None
        first, then = (self.recording.inserts[name][0] for name in self.elements)
        if first.has_seen(then) or then.has_seen(first):
            return None
        found = []
        for one, other in (first, then), (then, first):
            before, behind = one.response[one.response.index(one.element) + 1:], other.response[:other.response.index(other.element)]
            gone = [name for name in set(before).intersection(behind) if any(operation.has_seen(delete) for operation in self.operations
                                                                             for delete in self.recording.deletes.get(name, []))]
            found += [(before.index(name) + len(behind) - behind.index(name), name, one, other) for name in gone]
        if not found:
            return None
        _, middle, one, other = min(found, key=lambda each: each[:2])
        return one, other, middle, next(operation for operation in self.operations if not follows([one.element, other.element], operation.response))

    @cached_property
    def odd_one(self) -> tuple | None:
        """Of a refusal of two, of which neither author had the other's, whether all replicas that show both, three at least, show them first in one
        order but one, and nothing else settles which is right: the others' numbers, the first response of the one that does not, and the receipt with which
        the later of the two came there."""
        if self.report.get("k") != 2:
            return None
        inserts = [self.recording.inserts[name][0] for name in self.elements]
        if inserts[0].has_seen(inserts[1]) or inserts[1].has_seen(inserts[0]) or self.settled:
            return None
        first = [next((one for one in stream if set(self.elements) <= set(one.response)), None) for stream in self.recording.streams]
        shown = {one.replica: one for one in first if one is not None}
        orders = {replica: follows(self.elements, one.response) for replica, one in shown.items()}
        odd = [replica for replica, order in orders.items() if list(orders.values()).count(order) == 1]
        if len(orders) < ENOUGH_REPLICAS or len(odd) != 1:
            return None
        receipts = [self.recording.arrival(insert, odd[0]) for insert in inserts if insert.replica != odd[0]]
        last = max(filter(None, receipts), key=lambda receipt: receipt.line, default=None)
        if last is None or self.recording.is_delivered(last.line) or last.line > self.last_line:
            return None
        return [replica for replica in orders if replica != odd[0]], shown[odd[0]], last

    def came_among(self, insert: Operation, replica: int) -> tuple | None:
        """The first and the last line of receipts of a replica with no list between, up to that with which an insert came there, where it did not come first."""
        arrival = self.recording.arrival(insert, replica) if insert.replica != replica else None
        if arrival is None or self.recording.is_delivered(arrival.line):
            return None
        lines = [receipt.line for receipt in self.recording.receipts[replica] if receipt.before == arrival.before and receipt.line <= arrival.line]
        return (lines[0], lines[-1]) if lines[1:] else None

    def on_their_way(self, receipt: Receipt) -> list:
        """The changes that a replica had made before a receipt, and that the author of what came had not seen."""
        return [change for change in self.recording.changes() if change.replica == receipt.replica and change.line < receipt.line and not receipt.seen.has_seen(change)]

    @cached_property
    def turned_by_itself(self) -> tuple | None:
        """Of a refusal of two, two elements that some replica reads in another order than in its response before, though it received nothing between: in
        the order of the later one, with both responses. Best are the two that the verdict is about; one of them has to be."""
        if self.report.get("k") != 2:
            return None
        found = []
        for stream, receipts in zip(self.recording.streams, self.recording.receipts):
            received = {receipt.before for receipt in receipts}
            for before, after in zip(stream, stream[1:]):
                if after.kind == "read" and before.kind != "view" and before.n not in received:
                    found += [(one, two, before, after) for one, two in turned(before.response, after.response) if {one, two} & set(self.elements)]
        return next((pair for pair in found if {*pair[:2]} == set(self.elements)), found[0] if found else None)

    @cached_property
    def healed(self) -> tuple | None:
        """Of wrong contents, the first read behind them that shows another list than its replica's response before, but views, though the replica
        received nothing between; and that response."""
        line = self.operations[0].line
        found = []
        for stream, receipts in zip(self.recording.streams, self.recording.receipts):
            received = {receipt.before for receipt in receipts}
            found += [(before, after) for before, after in zip(stream, stream[1:]) if after.line > line and after.kind == "read" and before.kind != "view"
                      and before.n not in received and after.response != before.response]
        return min(found, key=lambda pair: pair[1].line, default=None)

    @cached_property
    def own_place(self) -> tuple | None:
        """Of a refusal of two, an insert at whose place its author had seen elements that were deleted by then, and these; best the one that was made last."""
        if self.report.get("k") != 2:
            return None
        inserts = sorted((self.recording.inserts[name][0] for name in self.elements), key=lambda insert: -insert.line)
        return next(((insert, gone) for insert in inserts if (gone := self.gone_at_place(insert))), None)

    def gone_at_place(self, insert: Operation) -> list:
        """The elements that were deleted for an insert, and that its author had shown between the two beside which it put the new one."""
        place = insert.response.index(insert.element) if insert.element in insert.response else 0
        left, right = insert.response[place - 1:place], insert.response[place + 1:place + 2]
        gone = {name for name, deletes in self.recording.deletes.items() if any(map(insert.has_seen, deletes))}
        for operation in reversed(self.recording.streams[insert.replica][max(insert.n - 1 - MOST_LOOKED_AT, 0):insert.n - 1]) if gone else []:
            shown = operation.response
            if operation.kind == "view" or not set(left + right) <= set(shown):
                continue
            first, last = shown.index(left[0]) + 1 if left else 0, shown.index(right[0]) if right else len(shown)
            between = [name for name in shown[first:last] if name in gone]
            if between:
                return between
        return []

    @cached_property
    def kept_place(self) -> tuple | None:
        """Of a wrong position, where the replica's last insert stands at the place that was asked for: the receipt of an element beside it that came
        since, that element, and that insert. Inserts directly before the wrong one, with nothing received between, are of one paste with it."""
        operation = self.operations[0]
        stream, received = self.recording.streams[operation.replica], {receipt.before for receipt in self.recording.receipts[operation.replica]}
        n = operation.n - 1
        while n and stream[n - 1].kind == "ins" and n not in received:
            n -= 1
        paste = {one.element for one in stream[n:operation.n - 1]}
        last = next((one for one in reversed(stream[:n]) if one.kind == "ins"), None)
        others = [name for name in operation.response if name != operation.element]
        at_most = min(operation.at, len(others)) - sum(name in paste for name in others[:operation.at])
        others = [name for name in others if name not in paste]
        around = others[max(at_most - 1, 0):at_most + 1]
        for name in around if last is not None and last.element in around else []:
            insert = next(iter(self.recording.inserts.get(name, [])), last)
            receipt = self.recording.arrival(insert, operation.replica) if insert.replica != operation.replica and not last.has_seen(insert) else None
            if receipt is not None and receipt.line < operation.line:
                return receipt, name, last
        return None

    @cached_property
    def stale_place(self) -> tuple | None:
        """Of a wrong position, the replica's last response in which it led to where the element stands now, where others' changes have come since; and
        these."""
        operation = self.operations[0]
        shown = operation.response
        if operation.element not in shown:
            return None
        beside = neighbours_in(shown, shown.index(operation.element))
        for one in reversed(self.recording.streams[operation.replica][max(operation.n - 1 - MOST_LOOKED_AT, 0):operation.n - 1]):
            if one.kind == "view" or operation.at > len(one.response):
                continue
            there = one.response[operation.at - 1] if operation.at else None, one.response[operation.at] if operation.at < len(one.response) else None
            came = self.came_between(one, operation)
            if came and any(name is not None and name == other for name, other in zip(beside, there)):
                return one, came
        return None

    @cached_property
    def shown_up_to_last(self) -> list:
        """The operations up to the last line that the verdict is on."""
        return [entry for entry in self.recording.entries if isinstance(entry, Operation) and entry.line <= self.last_line]

    def came_between(self, before: Operation, after: Operation) -> list:
        """The changes of others that came to a replica between two operations of it."""
        return [change for change in self.recording.changes() if change.replica != after.replica and after.has_seen(change) and not before.has_seen(change)]

    @cached_property
    def in_part(self) -> tuple | None:
        """Of wrong contents that are right without some deletes: one of these, a delete that its author made directly before it, one after the
        other, and which came with it; and the delete that had deleted the element of that one at the replica already."""
        operation, (left_out, added) = self.operations[0], self.otherwise
        if added or not left_out or any(change.kind != "del" for change in left_out):
            return None
        for change in left_out:
            for other in self.made_before(change):
                receipt = self.recording.arrival(other, operation.replica)
                gone = self.recording.change_at([one for one in self.recording.deletes[other.element] if one is not other], receipt) if receipt else None
                if gone and self.is_new(other):
                    return change, other, gone
        return None

    def made_before(self, change: Operation) -> list:
        """The deletes that an author made directly before a delete, one after the other, the last first: with nothing between them, in one update
        perhaps."""
        found, stream = [], self.recording.streams[change.replica]
        received = {receipt.before for receipt in self.recording.receipts[change.replica]}
        for n in range(change.n - 1, 0, -1):
            if stream[n - 1].kind != "del" or n in received:
                break
            found.append(stream[n - 1])
        return found

    @cached_property
    def steps(self) -> list:
        """The steps of a refusal that are told, each with its operation: of a long cycle the first and the last ones."""
        steps = list(zip(self.report["steps"], self.operations))
        return steps if len(steps) <= MOST_STEPS else steps[:FIRST_STEPS] + steps[-LAST_STEPS:]

    @cached_property
    def between(self) -> tuple | None:
        """Of two elements, one of which a refusal is about, the first that a response of it shows between the other and what that was put directly
        behind; with this, and the operation. The first one's author knew neither, nor did theirs know it. Best is one where it is about both."""
        found = [(other, name, behind, operation) for _, operation in self.steps for other, name, behind in self._between(operation)]
        return next((one for one in found if one[0] in self.elements and one[1] in self.elements), found[0] if found else None)

    def _between(self, operation: Operation) -> Iterator[tuple]:
        shown, inserts = operation.response, self.recording.inserts
        places = {name: place for place, name in enumerate(shown)}
        for place, name in enumerate(shown):
            insert = inserts[name][0]
            at = insert.response.index(name) if name in insert.response else 0
            behind = insert.response[at - 1] if at else ""
            if behind not in inserts or places.get(behind, place) >= place - 1:
                continue
            passed, is_about = inserts[behind][0], name in self.elements
            for other in shown[places[behind] + 1:place] if is_about else filter(self.elements.__contains__, shown[places[behind] + 1:place]):
                late = inserts[other][0]
                if not (late.has_seen(insert) or insert.has_seen(late) or late.has_seen(passed)):
                    yield other, name, behind

    def came_last(self, names: list, replica: int) -> tuple:
        """Of elements whose authors did not know of each other's, those that came last to a replica, and the receipt that brought them. Where `delivered` alone says when one came, no receipt, and
        all that came."""
        came = [(self.recording.arrival(insert, replica), insert.element) for insert in (self.recording.inserts[name][0] for name in names) if insert.replica != replica]
        last = max((receipt.line for receipt, _ in came if receipt is not None), default=0)
        if any(receipt is None or self.recording.is_delivered(receipt.line) for receipt, _ in came):
            return [name for _, name in came], None
        return [name for receipt, name in came if receipt.line == last], next((receipt for receipt, _ in came if receipt.line == last), None)

    @property
    def steps_between(self) -> int:
        """How many steps of a long cycle are not told."""
        return self.report["k"] - len(self.steps)

    def _followed(self) -> list:
        """The operations that are told, each with the elements that are followed to it: of a long cycle those of its step alone."""
        if self.report["verdict"] == "refused" and self.steps_between:
            return [(operation, [step["from"], step["to"]]) for step, operation in self.steps]
        return [(operation, self.elements) for operation in self.operations]

    def _follow(self, element: str, operation: Operation) -> None:
        """Notes the lines that insert and delete the element, and those that make this visible to the operation; of wrong
        contents also where that arrived by itself, or too late."""
        for change in self.changes(element, operation):
            self.lines.add(change.line)
            receipts = self.recording.way(change, operation) if operation.has_seen(change) else []
            if self.report["verdict"] == "contents":
                receipts += [self.recording.arrival(change, operation.replica), self.recording.receipt_of(change, operation.replica)]
            for receipt in filter(None, receipts):
                self.lines.update((receipt.line, receipt.seen.line))

    @cached_property
    def arrivals(self) -> list:
        """Of the elements that the verdict is about those that others inserted, when they came to the replica that shows them, or ought
        to: of a refusal of each step's two. Each stands once, in the order of the trace."""
        if self.report["verdict"] == "refused":
            shown = [(name, operation) for step, operation in self.steps for name in (step["from"], step["to"])]
        else:
            shown = [(name, operation) for operation in self.operations for name in self.elements]
        found = {}
        for name, operation in shown:
            insert = next(filter(operation.has_seen, self.recording.inserts.get(name, [])), None)
            if insert is not None and insert.replica != operation.replica:
                found[name, operation.replica] = Arrival(self.recording.arrival(insert, operation.replica), insert)
        return sorted(found.values(), key=lambda arrival: arrival.receipt.line)

    @cached_property
    def hidden_neighbours(self) -> list:
        """Where no arrival of a refusal found a neighbour deleted: those elements that were put beside others which are deleted for the
        response that shows them: the insert, the names of these others, and the operation that shows it. Each insert stands once."""
        if self.lost_neighbours:
            return []
        found = {}
        for step, operation in self.steps:
            for name in step["from"], step["to"]:
                insert = next(filter(operation.has_seen, self.recording.inserts.get(name, [])), None)
                gone = [other for other in self.beside(insert) if other not in self.elements
                        and any(map(operation.has_seen, self.recording.deletes.get(other, [])))] if insert else []
                if gone:
                    found.setdefault(name, (insert, gone, operation))
        return list(found.values())

    def beside(self, insert: Operation) -> list:
        """The elements beside which its author put the new one; none where its response does not show it, which is a fault of its own."""
        shown = insert.response
        if insert.element not in shown:
            if self.report["verdict"] == "refused":
                raise Unexplained(f"the response of {insert.name} lacks what it inserts")
            return []
        place = shown.index(insert.element)
        return shown[max(place - 1, 0):place] + shown[place + 1:place + 2]

    @cached_property
    def lost_neighbours(self) -> list:
        """Those arrivals that found a neighbour of the insert deleted, each with the deletes of the elements beside which its author put
        the new one."""
        found = []
        for arrival in self.arrivals:
            if self.recording.is_delivered(arrival.receipt.line) and self.report["verdict"] != "contents":
                continue  # it came before
            gone = self.deleted_beside(arrival.insert, arrival.receipt.replica)
            if gone:
                found.append((arrival, gone))
        return found

    @cached_property
    def is_fine_beside_deleted(self) -> bool:
        """Of a refusal, whether several other inserts came to replicas where an element beside which they had been put was deleted already, and
        nothing was wrong: then that alone is not the cause."""
        about, fine = {arrival.insert for arrival, _ in self.lost_neighbours}, 0
        for receipts in self.recording.receipts if about else []:
            for receipt in receipts:
                insert = receipt.seen
                if insert.kind == "ins" and insert not in about and receipt.line <= self.last_line and not self.recording.is_delivered(receipt.line):
                    is_first = self.recording.arrival(insert, receipt.replica) is receipt
                    fine += is_first and bool(self.deleted_beside(insert, receipt.replica))
                    if fine == ENOUGH_FINE:
                        return True
        return False

    def deleted_beside(self, insert: Operation, replica: int) -> list:
        """The deletes, at a replica, of elements beside which the author of an insert put its own, made or come there before it."""
        receipt = self.recording.arrival(insert, replica)
        found = [self.recording.change_at(self.recording.deletes.get(name, []), receipt) for name in self.beside(insert)] if insert.kind == "ins" else []
        return list(filter(None, found))

    def was_shown_since(self, arrival: Arrival) -> bool:
        """Whether a response of the replica between an arrival and the one that the verdict names shows what arrived."""
        operation = self.operations[0]
        return any(arrival.insert.element in one.response for one in self.recording.streams[operation.replica][arrival.receipt.before:operation.n - 1])

    def unknown_deletes(self, arrival: Arrival) -> list:
        """The deletes that the replica had when the insert arrived, and that the insert's author had not seen."""
        clock = self.recording.clock_before(arrival.receipt)
        return [delete for deletes in self.recording.deletes.values() for delete in deletes
                if clock[delete.replica] >= delete.n and not arrival.insert.has_seen(delete)]

    @cached_property
    def met(self) -> tuple:
        """Of a refusal of two, the last arrival that met deletes which its insert's author did not know, and these."""
        for arrival in reversed(self.arrivals) if self.report.get("k") == 2 else []:
            unknown = self.unknown_deletes(arrival)
            if unknown:
                return arrival, unknown
        return None, []

    def is_new(self, change: Operation) -> bool:
        """Of wrong contents, whether a change of another replica came there since the response before."""
        operation = self.operations[0]
        before = self.before(operation)[0]
        return change.replica != operation.replica and operation.has_seen(change) and not (before and before[0].has_seen(change))

    @cached_property
    def lost(self) -> list:
        """What the response lacks and its replica's response before could have: no change brought it since."""
        before = self.before(self.operations[0])[0] if self.report["verdict"] == "contents" else []
        return [name for name in self.missing if any(map(before[0].has_seen, self.recording.inserts[name]))] if before else []

    @cached_property
    def otherwise(self) -> tuple:
        """Of wrong contents, with which changes the response would be right: those that it has by its receipts and would not, and those that
        it would have and has not; each in the order of the trace. Both empty where these don't tell it all."""
        if self.report["verdict"] != "contents" or self.repeated:
            return [], []
        operation, left_out, added = self.operations[0], set(), set()
        inserts, deletes = self.recording.inserts, self.recording.deletes
        for changes, undone, names in (inserts, deletes, self.missing), (deletes, inserts, self.surplus):
            for name in names:
                came = [change for change in changes.get(name, []) if operation.has_seen(change)]
                if came and all(map(self.is_new, came)) and (changes is inserts or any(map(operation.has_seen, inserts.get(name, [])))):
                    left_out.update(came)
                    continue
                unseen = [change for change in undone.get(name, []) if change.line < operation.line and not operation.has_seen(change)]
                if not unseen:
                    return [], []
                added.add(unseen[0])
        return tuple(sorted(found, key=lambda change: change.line) for found in (left_out, added))

    @cached_property
    def undelivered(self) -> list:
        """The changes of which `delivered` alone says that they had arrived, where the response is right without them: all of these, in the
        order of the trace, so that what others wait for comes first; else those without which it is right."""
        left_out, added = self.otherwise
        if not left_out or added:
            return []
        operation, recording = self.operations[0], self.recording

        def is_said(change: Operation) -> bool:
            return change.replica != operation.replica and recording.is_delivered(recording.arrival(change, operation.replica).line)

        if not all(map(is_said, left_out)):
            return []
        seen = [change for change in recording.changes() if operation.has_seen(change)]
        waiting = [change for change in seen if is_said(change)]
        gone = {change.element for change in seen if change.kind == "del" and change not in waiting}
        shown = {change.element for change in seen if change.kind == "ins" and change not in waiting} - gone
        return waiting if shown == set(operation.response) else left_out

    @cached_property
    def undelivered_first(self) -> tuple:
        """Of these changes the one without which the element that is told first is wrong, and those that wait for none of the others: first that one, where it is
        among them, else those that its author had."""
        changes = self.undelivered
        of_element = self.recording.inserts[self.missing[0]] if self.missing else self.recording.deletes[self.surplus[0]]
        about = next(change for change in changes if change in of_element)
        first = [change for change in changes if not any(other is not change and change.has_seen(other) for other in changes)]
        return about, sorted(first, key=lambda change: change is not about and (about in first or not about.has_seen(change)))

    @cached_property
    def second_deletes(self) -> list:
        """Of wrong contents that lack something which was there before: each delete that is new to the response since the one before, and
        whose element had been deleted for its replica already, with the delete that did."""
        if self.report["verdict"] != "contents" or not self.lost:
            return []
        operation = self.operations[0]
        before = self.before(operation)[0]
        had = before[0].has_seen
        found = []
        for deletes in self.recording.deletes.values():
            seen = [delete for delete in deletes if operation.has_seen(delete)] if deletes[1:] else []
            seen.sort(key=lambda delete: self.line_at(delete, operation.replica))
            found += [(again, seen[0]) for again in seen[1:] if not had(again) and not self.recording.is_delivered(self.line_at(again, operation.replica))]
        return sorted(found, key=lambda pair: self.line_at(pair[0], operation.replica))

    def overtaking(self, change: Operation, operation: Operation) -> Overtaking | None:
        """Whether a later operation brought a change to a response before the change came by itself: the exchange may not be causal,
        which is what a new recorder meets first. That one receipt stands for several changes of an author is no sign of it, where none names the
        change and the author's others have not each their own."""
        way = self.recording.way(change, operation) if operation.has_seen(change) else []
        if not way or way[-1].seen is change or self.recording.is_delivered(way[-1].line):
            return None
        brought, replica = way[-1], operation.replica
        if change.replica != brought.seen.replica:
            own = self.recording.own_receipt(change, replica) or self.recording.receipt_of(change, replica)
            return Overtaking(brought, own) if own is None or own.line > brought.line else None
        own = self.recording.own_receipt(change, replica)
        is_overtaken = own.line > brought.line if own else (self.are_others_received(change, replica)
                                                            and self.recording.may_travel_alone(change, replica))
        return Overtaking(brought, own) if is_overtaken else None

    def are_others_received(self, but: Operation, replica: int) -> bool:
        """Whether each change of an author but this one that the replica has came there by a receipt of its own; and there are several."""
        receipts = self.recording.receipts[replica]
        has = max((receipt.seen.clock[but.replica] for receipt in receipts), default=0)
        others = [change for change in self.recording.streams[but.replica][:has] if change.element and change is not but]
        return len(others) >= SEVERAL and {receipt.seen for receipt in receipts}.issuperset(others)

    @cached_property
    def unreceived(self) -> list:
        """Changes of which a replica has no receipt of its own, though others have one there or these have one elsewhere; and that replica. They may
        have been lost on their way, since the responses there are as if they had not been applied. First stand those that had come by the verdict's
        line, with something later, then those of which nothing says that they were to come later; and of each first those at the verdict's replicas,
        then at the authors of the changes that it is about, then at the others, of which what they sent may have gone astray for it. Last stand those at replicas
        that have no part in it."""
        last = max(operation.line for operation in self.operations)
        about = [change.replica for name in self.elements for changes in (self.recording.inserts, self.recording.deletes)
                 for change in changes.get(name, []) if change.line <= last]
        replicas = dict.fromkeys([operation.replica for operation in self.operations] + about + [*range(self.recording.replicas)])
        found = [(change, replica) for replica in replicas for change in self.recording.skipped(replica, SEVERAL)
                 if change.line < last and self.recording.may_travel_alone(change, replica) and self.may_be_lost(change, replica)]
        had_come = [pair for pair in found if self.recording.arrival(*pair).line <= last]
        others = [pair for pair in found if pair not in had_come][:MOST_ASTRAY]
        found = had_come + [pair for pair in others if not self.recording.is_due_later(*pair, last)]
        return sorted(found, key=lambda pair: not self.bears(*pair))

    def bears(self, change: Operation, replica: int) -> bool:
        """Whether the verdict is about what a replica answered, or about something that is known to hang on what it made after a change should have come there."""
        return replica in self._answering or self.made_since(change, replica) is not None

    def made_since(self, change: Operation, replica: int) -> Operation | None:
        """Of a replica of which the verdict names no answer, the last change that one of the named operations has, where the replica made it when it had received something that the author
        of another change, which did not come, had not seen: that other change may have been due before it."""
        if replica in self._answering:
            return None
        if replica not in self._last_made:
            known = self.recording.streams[replica][:max(operation.clock[replica] for operation in self.operations)]
            self._last_made[replica] = next((one for one in reversed(known) if one.element), None), [receipt.line for receipt in self.recording.receipts[replica]]
        made, lines = self._last_made[replica]
        first = bisect_right(lines, change.line)
        came = self.recording.receipts[replica][first:first + MOST_SINCE] if made is not None and made.line > change.line else []
        return made if any(receipt.line < made.line and not change.has_seen(receipt.seen) for receipt in came) else None

    @cached_property
    def _answering(self) -> set:
        """The replicas whose answers the verdict names."""
        return {operation.replica for operation in self.operations}

    def may_be_lost(self, change: Operation, replica: int) -> bool:
        """Whether the responses there show that a change was not applied; or don't show it, where no receipt stands for several changes."""
        if any(own.kind == "del" and own.element == change.element for own in self.recording.streams[replica]) and change.kind == "ins":
            return False  # what it deletes it had
        is_applied = self.recording.is_applied(change, replica)
        return is_applied is False or is_applied is None and not self.recording.has_updates_of_several

    @cached_property
    def unnamed(self) -> list:
        """Of wrong contents, the changes of its elements that a receipt for a later change of their author has brought since the response
        before, and that no receipt names, nor one of `delivered`: first, and alone, those that came elsewhere by a receipt of their own."""
        replica, found = self.operations[0].replica, []
        for changes, names in (self.recording.inserts, self.missing), (self.recording.deletes, self.surplus):
            for change in (change for name in names for change in changes.get(name, []) if self.is_new(change)):
                brought = self.recording.arrival(change, replica)
                is_later = brought.seen is not change and brought.seen.replica == change.replica and brought.seen.element
                if is_later and not self.recording.is_delivered(brought.line) and not self.recording.own_receipt(change, replica):
                    found.append(change)
        return [change for change in found if self.recording.may_travel_alone(change, replica)] or found

    @cached_property
    def overtakings(self) -> list:
        """Of wrong contents, the changes of its elements, and of those beside which these were put, that were overtaken on their way to the
        response."""
        if self.report["verdict"] != "contents":
            return []
        beside = [name for arrival in self.arrivals for name in self.beside(arrival.insert) if name not in self.elements]
        changes = [change for element in dict.fromkeys(self.elements + beside) for change in self.changes(element, self.operations[0])]
        found = [(change, overtaking) for change in changes if (overtaking := self.overtaking(change, self.operations[0]))]
        return [(change, overtaking) for change, overtaking in found if overtaking.own or change.element in self.elements]

    def line_at(self, change: Operation, replica: int) -> int:
        """The line with which a change that the replica has came there."""
        return change.line if change.replica == replica else self.recording.arrival(change, replica).line

    def before(self, operation: Operation) -> tuple:
        """The replica's operation before, if there is one, and what the replica received since then."""
        if operation.key not in self._before:
            before = self.recording.streams[operation.replica][max(operation.n - 2, 0):operation.n - 1]
            received = [receipt for receipt in self.recording.receipts[operation.replica] if receipt.before == operation.n - 1]
            self._before[operation.key] = before, received
        return self._before[operation.key]

    def changes(self, element: str, operation: Operation) -> list:
        """An insert of the element and a delete of it: those that the operation has seen, if it has; else the insert all the
        same, and of wrong contents the delete too, since it may be what should have arrived."""
        inserts, deletes = self.recording.inserts.get(element, []), self.recording.deletes.get(element, [])
        found = []
        for changes in inserts, deletes:
            seen = [change for change in changes if operation.has_seen(change)]
            is_wanted = self.report["verdict"] == "contents" or changes is inserts
            found += seen[:1] if seen else changes[:1] if is_wanted else []
        return found


def neighbours_in(names: list, place: int) -> tuple:
    """The names before and behind a place; none at an end."""
    return (names[place - 1] if place else None), (names[place + 1] if place + 1 < len(names) else None)


def turned(names: list, later: list) -> list:
    """The pairs of names that stand one behind the other in a later list, of those that it shares with an earlier one, where they stand the other
    way round."""
    places = {name: place for place, name in enumerate(names)}
    common = [name for name in later if name in places]
    return [(one, two) for one, two in zip(common, common[1:]) if places[one] > places[two]]


def follows(names: list, order: list) -> bool:
    """Whether the names stand in the order one after the other, with others perhaps between."""
    places = iter(order)
    return all(name in places for name in names)
