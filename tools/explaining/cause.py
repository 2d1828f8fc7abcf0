"""What causes of a verdict have in common: how one is told, and what is told of changes that arrive."""
from __future__ import annotations

from itertools import product
from typing import NamedTuple

from .evidence import Evidence
from .kinds import OF_POSITIONS, POSITIONS
from .recordings import Receipt
from .telling import at, counted, listed

ALONE = "weak alone"  # the name of the last cause: that weak holds
MOST_TOLD = 3  # deletes, or elements, that are told one by one
MOST_EMPTIED = 3  # deletes that became nothing before the fault: where more did, that alone is not the cause
MOST_MET = 6  # changes for which a position was perhaps not adjusted
LOST = "Look {when} at whether {changes} {were} lost on {their} way to replica {replica}, or overtaken: no receipt there names {them}, though {others}. "
NEVER_SENT = "Look {when} at whether replica {author} has sent {changes} at all: no receipt anywhere names {them}, but for those written by the call `delivered`. "
BEARS = "Replica {replica} made {made} later, perhaps without {them}, and {operation} builds on {name}. "
BEARS_NOT = "But nothing that replica {replica} did after that gap is in the responses above, so the gap is hardly their cause. One bug may cause both."
OTHERS_HAVE = "receipts there name every other change of replica {author} up to the last received"
ELSEWHERE_ONE = {True: "at another replica it has one", False: "at other replicas they have some"}
PUT_AT_ONCE = {True: " {others} was inserted at the same place as {element} concurrently: check also that every replica puts the same one first.",
               False: " Check also these pairs, which were inserted at one place concurrently: {pairs}. Of each pair every replica must put the same one first."}
OWN_ADJUSTED = ("how the replica's own changes that are still on their way are adjusted for an arriving change, and how that is adjusted for them (each for the unadjusted form of the other). If "
                "the editor takes its own changes back and applies them again, look at how it does that.")
EMPTIED = ("Before that, in line {line}, replica {replica} received {change}, which deletes {element}. Replica {replica} had deleted {element} itself, by {other}, so {change} had nothing left to "
           "delete there. It must still be counted as received (message numbers, acknowledgements). Else later changes are adjusted once too often, or too seldom.")
NONE_ON_WAY = "When {came} arrived, replica {replica} had no change of its own that the author of {came} did not know: so look at what the server (if it adjusts positions) made of {came}, and at what was sent before {came}."
ONE_ON_WAY = "When {came} arrived, replica {replica} had one change of its own that the author of {came} did not know yet, {own}: this and {came} must each be adjusted for the other."
SEVERAL_ON_WAY = ("When {came} arrived, replica {replica} had {count} changes of its own that the author of {came} did not know yet: {own}. Adjust {came} for each of "
                  "these, one after another; and adjust each of these for {came}.")
DELETED_TWICE = ("Before that, {element} was deleted at replica {replica} more than once: by {other}, and by {change}, which came in line {line}. If the editor counts how many elements it shows (in blocks, or "
                 "below the nodes of a tree), it must subtract each only once. Else all later local positions are counted wrongly.")
BY_ITSELF = "perhaps deleted elements are thrown away there, changes that were held back are applied, or a copy of the list that is shown is made anew."


class Cause(NamedTuple):
    name: str
    told: str


def otherwise(condition: str, look: str) -> str:
    """The words on a second cause, under a condition."""
    return f"{condition}: {look[0].lower()}{look[1:]}"


def astray(evidence: Evidence) -> list:
    """The changes that may have been lost, each with the replica where it is lacking; but where it is told as overtaken."""
    told = [change for change, _ in evidence.overtakings[:1]]
    return [(change, replica) for change, replica in evidence.unreceived if change not in told]


def lost(evidence: Evidence) -> list:
    """Of changes that may have been lost, those at one replica, which what the verdict is about hangs on."""
    found = astray(evidence)
    return lost_there(evidence, found) if found and evidence.bears(*found[0]) else []


def lost_apart(evidence: Evidence) -> list:
    """Where what may have been lost was lost at a replica that has no part in the verdict: to be looked at last."""
    found = astray(evidence)
    return lost_there(evidence, found) if found and not evidence.bears(*found[0]) else []


def lost_there(evidence: Evidence, found: list) -> list:
    changes = [change for change, replica in found if (change.replica, replica) == (found[0][0].replica, found[0][1])]
    is_one, recording = len(changes) == 1, evidence.recording
    for change, replica in found[:1]:
        others = [other for other in range(recording.replicas) if other != change.replica]
        is_sent = any(one.key in recording.lines_named(other) for one in changes for other in others) or not any(recording.own_receipt(one, other) for one in changes for other in others)
        is_there, made = evidence.bears(change, replica), evidence.made_since(change, replica)
        last = BEARS_NOT if not is_there else OF_POSITIONS if made is None else BEARS + OF_POSITIONS
        return [Cause("lost", ((LOST if is_sent else NEVER_SENT) + last).format(
            replica=replica, author=change.replica, their="its" if is_one else "their", them="it" if is_one else "them", when="first" if is_there else "also", **changes_told(changes),
            made=made and at(made), name=made and made.name, operation=made and at(next(operation for operation in evidence.operations if operation.has_seen(made))),
            others=OTHERS_HAVE.format(author=change.replica) if recording.are_named(change.replica, changes, replica) else ELSEWHERE_ONE[is_one]))]
    return []


def shown_in_orders(evidence: Evidence, one: str, two: str, of_all: bool = False) -> tuple:
    """The first responses that show two elements in the one order, and in the other; none where there is no such. They stand up to the last line that is
    explained, or anywhere."""
    found = {}
    for operation in sorted((one for stream in evidence.recording.streams for one in stream), key=lambda one: one.line) if of_all else evidence.shown_up_to_last:
        names = operation.response
        if one in names and two in names:
            found.setdefault(names.index(one) < names.index(two), operation)
    return found.get(True), found.get(False)


def is_agreed(evidence: Evidence, one: str, two: str, replicas: set) -> bool:
    """Whether these replicas show two elements, and all that do in one order."""
    shown = {operation.replica for operation in evidence.shown_up_to_last if one in operation.response and two in operation.response}
    return replicas <= shown and not all(shown_in_orders(evidence, one, two))


def changes_told(changes: list) -> dict:
    """Changes for a sentence, and its words for one or several."""
    is_one = len(changes) == 1
    return {"changes": listed(list(map(at, changes)), MOST_TOLD), "were": "was" if is_one else "were",
            "They": "It was" if is_one else "They were", "are": "is" if is_one else "are"}


def is_deleted(evidence: Evidence, name: str) -> bool:
    """Whether an element is deleted for one of the responses of a refusal."""
    return any(operation.has_seen(delete) for operation in evidence.operations for delete in evidence.recording.deletes.get(name, []))


def at_once(element: str, others: list) -> str:
    pairs = [f"{element} and {other}" for other in others[:MOST_TOLD]] + ([f"{len(others) - MOST_TOLD} more"] if others[MOST_TOLD:] else [])
    return PUT_AT_ONCE[len(others) == 1].format(element=element, others=listed(others, MOST_TOLD), pairs="; ".join(pairs))


def named(changes: list) -> str:
    """Changes with what they changed."""
    what = {"ins": "insert", "del": "delete"}
    return listed([f"the {what[change.kind]} of {change.element} by {at(change)}" for change in changes], MOST_MET)


def twice(evidence: Evidence) -> list:
    """The deletes that came before the fault where their element had been deleted already, each with the line, and a delete that was there."""
    found = []
    for deletes in evidence.recording.deletes.values():
        for change, other in product(deletes, deletes):
            arrival = evidence.recording.arrival(change, other.replica) if other.replica != change.replica and not other.has_seen(change) else None
            if arrival is not None and other.line < arrival.line < evidence.last_line and not evidence.recording.is_delivered(arrival.line):
                found.append((arrival.line, change, other))
    return sorted(found, key=lambda one: one[0])


def emptied(evidence: Evidence) -> list:
    """Where changes carry positions, the last delete before the fault that came where its element had been deleted already, but where several did."""
    found = twice(evidence) if evidence.kind == POSITIONS else []
    if not 0 < len(found) <= MOST_EMPTIED:
        return []
    line, change, other = found[-1]
    return [Cause("emptied", EMPTIED.format(line=line, replica=other.replica, change=change.name, element=change.element, other=at(other)))]


def deleted_twice(evidence: Evidence) -> list:
    """Where changes name elements, of a fault at a replica's own change, the last delete that came there though its element had been deleted there already."""
    replica = evidence.operations[0].replica
    found = [one for one in twice(evidence) if one[2].replica == replica] if evidence.kind != POSITIONS else []
    return [Cause("deleted twice", DELETED_TWICE.format(element=change.element, replica=replica, other=at(other), change=change.name, line=line)) for line, change, other in found[-1:]]


def on_way_then(evidence: Evidence, receipt: Receipt) -> str:
    """What a replica had on its way when something came, where changes carry positions; of one that changes nothing, as a server, nothing."""
    if may_be_server(evidence, receipt.replica):
        return ""
    own = evidence.on_their_way(receipt)
    told = SEVERAL_ON_WAY if own[1:] else ONE_ON_WAY if own else NONE_ON_WAY
    return told.format(replica=receipt.replica, count=counted(len(own)), own=named(own), came=receipt.seen.name)


def may_be_server(evidence: Evidence, replica: int) -> bool:
    """Whether a replica changes nothing itself, where two others do and changes carry positions."""
    changing = {change.replica for change in evidence.recording.changes()} if evidence.kind == POSITIONS else {replica}
    return replica not in changing and len(changing) > 1
