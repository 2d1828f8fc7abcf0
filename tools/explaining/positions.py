"""What an editor that sends positions has to do where a change arrives: it moves the change over those that its author had not seen."""
from __future__ import annotations

from itertools import takewhile

from .evidence import Arrival
from .recordings import Operation, Receipt, Recording

MOST_BEFORE = 50  # of earlier inserts, which may have come to a wrong place, the last ones that are looked at

def met(recording: Recording, change: Operation, receipt: Receipt) -> list:
    """The changes that the receipt's replica had before it and that the change's author had not seen: those of elements that stood before
    the place of the change, on either side; where there is none, of all others."""
    had = recording.clock_before(receipt)
    unknown = [other for other in recording.changes()
               if had[other.replica] >= other.n and not change.has_seen(other) and other.element != change.element]
    before = elements_before(recording, change, receipt)
    return [other for other in unknown if other.element in before] or unknown


def not_behind(recording: Recording, delete: Operation, receipt: Receipt, changes: list) -> list:
    """Those of the changes whose elements are not known to stand behind the delete's, at its author or at the replica, since these move nothing
    before them; but of two that were inserted at one place, which stands behind is in question."""
    behind, inserts = set(), recording.inserts.get(delete.element, [])[:1]
    for names in list_of(recording, delete), recording.shown_before(receipt):
        behind.update(names[names.index(delete.element) + 1:] if delete.element in names else ())
    return [change for change in changes if change.element not in behind or change.kind == "ins" and any(are_put_at_once(insert, change) for insert in inserts)]


def met_inserts(recording: Recording, delete: Operation, arrival: Arrival) -> list:
    """The inserts but the arriving one that its receipt's replica had before it, where these and the delete did not know of each other."""
    had = recording.clock_before(arrival.receipt)
    return [insert for inserts in recording.inserts.values() for insert in inserts
            if had[insert.replica] >= insert.n and not delete.has_seen(insert) and not insert.has_seen(delete) and insert is not arrival.insert]


def met_before(recording: Recording, delete: Operation, receipt: Receipt) -> tuple | None:
    """Of the last inserts that came to the receipt's replica before it, but for those in the list that it showed last, one whose author had not seen a delete, other than this one, that was there by then, but its element;
    the receipt that brought it, and that delete."""
    had = recording.clock_before(receipt)
    there = [change for change in recording.changes() if change.n <= had[change.replica] and change is not delete]
    deletes = [(change if change.replica == receipt.replica else recording.arrival(change, receipt.replica), change) for change in there if change.kind == "del"]
    shown = recording.shown_before(receipt)
    for insert in [change for change in there if change.kind == "ins" and change.replica != receipt.replica][:-MOST_BEFORE - 1:-1]:
        if insert.element in shown:
            continue  # its place there was right, or is told of by itself
        arrival = recording.arrival(insert, receipt.replica)
        other = next((other for came, other in deletes if came.line < arrival.line and not insert.has_seen(other) and any(map(insert.has_seen, recording.inserts.get(other.element, [])))), None)
        if other is not None:
            return insert, arrival, other
    return None


def elements_before(recording: Recording, change: Operation, receipt: Receipt) -> set:
    """The elements that stood before the place of the change: for its author when it was made, and for the replica when it arrived."""
    own = list_of(recording, change)
    place = own.index(change.element) if change.element in own else len(own)
    behind = set(own[place:])
    there = recording.shown_before(receipt)
    return {*own[:place], *takewhile(lambda name: name not in behind, there)}


def list_of(recording: Recording, change: Operation) -> list:
    """Its author's list with the element: of an insert the response, of a delete what the author answered before."""
    if change.kind == "ins":
        return change.response
    return next((before.response for before in reversed(recording.streams[change.replica][:change.n - 1]) if before.kind != "view"), [])


def put_there_at_once(recording: Recording, insert: Operation, receipt: Receipt) -> list:
    """The inserts that the receipt's replica had before it, which were made at the place of this one, neither author knowing of the other's; those
    first that stand nearest to it there."""
    had, own, shown = recording.clock_before(receipt), neighbours(insert), recording.shown_before(receipt)
    places = {name: place for place, name in enumerate(shown)}
    found = [other for inserts in recording.inserts.values() for other in inserts if had[other.replica] >= other.n and not is_known(insert, other) and (
        are_alike(own, neighbours(other)) or known_neighbours(recording, insert, other) == known_neighbours(recording, other, insert))]
    own_place = places.get(insert.element, 0)
    return sorted(found, key=lambda other: (other.element not in places, abs(places.get(other.element, 0) - own_place) if insert.element in places else 0))


def known_neighbours(recording: Recording, insert: Operation, other: Operation) -> tuple:
    """The nearest elements on both sides of an insert's own, in its response, that the author of another had too: none towards an end of the list."""
    shown = insert.response
    place = shown.index(insert.element) if insert.element in shown else len(shown)
    return tuple(next((name for name in side if any(map(other.has_seen, recording.inserts.get(name, ())))), None) for side in (shown[:place][::-1], shown[place + 1:]))


def are_put_at_once(insert: Operation, other: Operation) -> bool:
    """Whether two inserts were made at one place, by authors who did not know of each other's."""
    return not is_known(insert, other) and are_alike(neighbours(insert), neighbours(other))


def is_known(insert: Operation, other: Operation) -> bool:
    return insert.has_seen(other) or other.has_seen(insert)


def are_alike(one: tuple, another: tuple) -> bool:
    """Whether they have a left or a right neighbour in common."""
    return any(first == second for first, second in zip(one, another))


def neighbours(insert: Operation) -> tuple:
    """The elements beside which an insert put its own: none at an end of the list."""
    shown = insert.response
    place = shown.index(insert.element) if insert.element in shown else len(shown)
    return (shown[place - 1] if 0 < place else None), (shown[place + 1] if place + 1 < len(shown) else None)
