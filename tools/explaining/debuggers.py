"""Where to stop a debugger when a session's steps are done again, and the statement that does it in the recorder's language."""
from __future__ import annotations

from .evidence import Evidence
from .kinds import BY_ELEMENTS, IDENTIFIERS, POSITIONS, is_possible
from .recordings import FIRST_ENTRY, Operation, Receipt, Recording

TITLE = "In a debugger"
MOST_OTHERS = 8  # lines where others arrived that are told
# By the name that recorders write beside a trace: the language, and the statement for a count of lines.
LANGUAGES = {
    "python": ("Python", "if recording.lines() == {}: breakpoint()"),
    "javascript": ("JavaScript", "if (recording.lines() === {}) debugger"),
    "rust": ("Rust", 'if recording.lines() == {} {{ eprintln!("here") }} (on three lines, and set a breakpoint on the middle one)'),
    "c": ("C", "if (domepeeler_lines(recording) == {}) raise(SIGTRAP);"),
    "emacs-lisp": ("Emacs Lisp", "(when (= (domepeeler-lines recording) {}) (debug))"),
}
# The same for either of two counts.
FOR_TWO = {
    "python": "if recording.lines() in ({}, {}): breakpoint()",
    "javascript": "if ([{}, {}].includes(recording.lines())) debugger",
    "rust": 'if [{}, {}].contains(&recording.lines()) {{ eprintln!("here") }} (on three lines, and set a breakpoint on the middle one)',
    "c": "if (domepeeler_lines(recording) == {} || domepeeler_lines(recording) == {}) raise(SIGTRAP);",
    "emacs-lisp": "(when (memq (domepeeler-lines recording) '({} {})) (debug))",
}
USUAL = "python"  # of a trace of which nothing says who recorded it
BEGINS, READS = "right before the call that makes the editor apply a change, local or remote", "right before the call that reads the list"


def stop_of(evidence: Evidence) -> tuple:
    """The entry before which to stop, and the others to try if that one goes right: of a refusal where its elements arrived, the last one
    first, or at the insert that its author alone places so, or whose identifier is in question, else at its last response; of wrong contents where a second delete or what overtook a change arrived, or at what was received
    first since the replica's operation before, if anything was; else at the operation that is named, a read's also at what came last. Of a wrong
    position, at the insert, and at what came beside the replica's last one. None of another verdict."""
    if evidence.report["verdict"] not in ("refused", "contents", "position"):
        return None, []
    if evidence.report["verdict"] == "refused":
        arrived = {arrival.receipt.line: arrival.receipt for arrival in evidence.arrivals
                   if not evidence.recording.is_delivered(arrival.receipt.line)}
        *others, entry = list(arrived.values()) or [max(evidence.operations, key=lambda operation: operation.line)]
        odd = evidence.odd_one[-1] if evidence.kind == POSITIONS and evidence.odd_one else None
        first = shown_alone(evidence) or reordering(evidence) or identified(evidence) or odd or came_between(evidence) or placed_alone(evidence) or came_beside(evidence)
        arrivals = [entry, *others[::-1]] if arrived else []
        if evidence.shown_alone and evidence.shown_alone[2].line not in arrived:
            arrivals.insert(0, evidence.shown_alone[2])
        return (first, [other for other in arrivals if other.line != first.line]) if first else (entry, others[::-1])
    named = evidence.operations[0]
    if evidence.report["verdict"] == "contents" and evidence.undelivered:
        return evidence.undelivered_first[1][0], []
    if evidence.report["verdict"] == "contents":
        arrived = [again for again, _ in evidence.second_deletes if again.replica != named.replica]
        second = [evidence.recording.arrival(again, named.replica) for again in arrived]
        overtaking = [found.brought for _, found in evidence.overtakings]
        left_out, added = evidence.otherwise
        not_applied = [evidence.recording.arrival(change, named.replica) for change in left_out]
        received = [] if added and not left_out else evidence.before(named)[1]  # where a receipt is missing, none of these is at fault
        first = [*second, *overtaking, *not_applied, *received, named][0]
        return first, last_arrival(evidence, named) if first is named and named.kind == "read" and not added else []
    return named, [evidence.kept_place[0]] if evidence.kept_place else []


def last_arrival(evidence: Evidence, read: Operation) -> list:
    """The last receipt before a wrong read to whose replica nothing came since the response before, which was right."""
    before, receipts = evidence.before(read)
    came = [receipt for receipt in evidence.recording.receipts[read.replica] if receipt.line < read.line and not evidence.recording.is_delivered(receipt.line)]
    return came[-1:] if before and not receipts else []


def shown_alone(evidence: Evidence) -> Operation | Receipt | None:
    """Of an insert that its author shows alone, and only until its next receipt: the insert; but this receipt, where positions are adjusted then."""
    if evidence.shown_alone is None:
        return None
    insert, _, receipt, _ = evidence.shown_alone
    return receipt if evidence.kind == POSITIONS else insert


def placed_alone(evidence: Evidence) -> Operation | None:
    """Of an insert where elements had been deleted, which its author alone shows in its order: the insert."""
    odd = evidence.odd_one if evidence.kind in BY_ELEMENTS and evidence.own_place else None
    return evidence.own_place[0] if odd and odd[1].replica == evidence.own_place[0].replica else None


def identified(evidence: Evidence) -> Operation | None:
    """In an editor that sorts by identifiers, of two elements of which one's author had the other: the later insert, which made its identifier."""
    if evidence.kind != IDENTIFIERS or evidence.report["k"] > 2:
        return None
    first, then = (evidence.recording.inserts[name][0] for name in evidence.elements)
    return first if first.has_seen(then) else then if then.has_seen(first) else None


def reordering(evidence: Evidence) -> Operation | Receipt | None:
    """Where a replica changed the order of what it had shown: the later of the two responses, if that is a change, or its last receipt between
    them, if there is one."""
    if evidence.reordered is None:
        return None
    *_, before, after = evidence.reordered
    received = [receipt for receipt in evidence.recording.receipts[after.replica]
                if before.n <= receipt.before < after.n and not evidence.recording.is_delivered(receipt.line)]
    return after if after.element else received[-1] if received else None


def came_beside(evidence: Evidence) -> Receipt | None:
    """Of several responses that don't fit together: the receipt by which the last insert came whose neighbour was deleted there. The words begin there too."""
    is_told = evidence.report["k"] > 2 and is_possible("several, deleted", evidence.kind)
    return evidence.lost_neighbours[-1][0].receipt if is_told and evidence.lost_neighbours else None


def came_between(evidence: Evidence) -> Receipt | None:
    """Of an element that a response shows between two that were put together, and the second of these, the receipt of the one that came last to its
    replica: there one of them was put into its place."""
    if evidence.between is None:
        return None
    *names, _, operation = evidence.between
    return evidence.came_last(names, operation.replica)[1]


def told(evidence: Evidence, entry: Operation | Receipt, others: list) -> str:
    """Where to stop, in words."""
    before = ", ".join(f"line {other.line}" for other in others[:MOST_OTHERS])
    arrivals = ("another arrival", "other arrivals") if isinstance(entry, Receipt) else ("an arrival", "arrivals")
    then = f"; if nothing is wrong there, stop at {arrivals[len(others) > 1]} ({before})" if others else ""
    if evidence.report["verdict"] == "contents" and evidence.undelivered:
        return followed(entry, evidence.operations[0].replica)
    own = evidence.own_place if evidence.kind in BY_ELEMENTS else None
    if own and own[0].line not in (entry.line, *(other.line for other in others)):
        then += f"; or before line {own[0].line}, where {doing(own[0])}"
    return f"stop before line {entry.line} of the trace, where {doing(entry)}{then}."


def followed(change: Operation, replica: int) -> str:
    """Where to stop for a change that was lost on its way."""
    return f"stop before line {change.line} of the trace, where {doing(change)}, and follow {change.name} to replica {replica}."


def statement(recording: Recording, entry: Operation | Receipt, language: str) -> list:
    """How to stop before this entry, in the recorder's language: where, and the statement. Receipts that stand together may have been written together, when all were
    applied, and so may a paste, or a delete of several: then before the first of them."""
    language = language if language in LANGUAGES else USUAL
    name, words = LANGUAGES[language]
    is_read = isinstance(entry, Operation) and entry.kind in ("read", "view")
    first = first_together(recording, entry)
    then, asked = f"It stops when {entry.line - 1} lines have been recorded.", words.format(entry.line - 1)
    if first < entry.line:
        one = f"lines {first} and {entry.line} together, it stops" if first + 1 == entry.line else f"all of lines {first} to {entry.line}, it may stop"
        then = f"It stops when {first - 1} lines have been recorded. Unless one call of your editor applies {one} again at {entry.line - 1}. Look at what happens after the last stop."
        asked = FOR_TWO[language].format(first - 1, entry.line - 1)
    return [f"In {name}, put this code {READS if is_read else BEGINS}. {then}", f"  {asked}"]


def first_together(recording: Recording, entry: Operation | Receipt) -> int:
    """The line of the first entry of those that one call may have written, up to this one: receipts of one replica that stand one behind the other,
    deletes, or inserts each at the next position, as of a paste."""
    first = entry.line
    while first > FIRST_ENTRY and may_be_of_one_call(recording.entries[first - FIRST_ENTRY - 1], recording.entries[first - FIRST_ENTRY]):
        first -= 1
    return first


def may_be_of_one_call(before: Operation | Receipt, entry: Operation | Receipt) -> bool:
    if before.replica != entry.replica or isinstance(before, Receipt) != isinstance(entry, Receipt):
        return False
    return isinstance(entry, Receipt) or before.kind == entry.kind and (entry.kind == "del" or entry.kind == "ins" and entry.at == before.at + 1)


def doing(entry: Operation | Receipt) -> str:
    """What the replica is about to do."""
    if isinstance(entry, Receipt):
        if entry.seen.element:
            return f"replica {entry.replica} applies {entry.seen.name}"
        return f"the receipt of {entry.seen.name} at replica {entry.replica} stands"
    what = {"ins": f"inserts {entry.element}", "del": f"deletes {entry.element}", "read": "reads the list",
            "view": "shows a part of the list"}
    return f"replica {entry.replica} {what[entry.kind]}"
