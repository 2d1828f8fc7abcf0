"""Where to look in the editor where an element stands in a wrong place, or no order fits: the likeliest cause first."""
from __future__ import annotations

import re

from .cause import ALONE, BY_ITSELF, MOST_MET, MOST_TOLD, OWN_ADJUSTED, Cause, at_once, deleted_twice, emptied, is_agreed, is_deleted, lost, named, on_way_then, otherwise
from .evidence import Arrival, Evidence
from .kinds import BY_ELEMENTS, IDENTIFIERS, NEIGHBOURS, POSITIONS, TREE, is_possible
from .positions import are_put_at_once, elements_before, is_known, list_of, met_inserts, neighbours, put_there_at_once
from .recordings import Operation, Receipt, place_asked
from .telling import at, counted, joined, listed, marked

NUMBERS_OF_INSERTS = (" Often the clock that decides between inserts does not advance when changes arrive. A change may bring several elements: then the clock must go above the last element's number. Or the "
                      "neighbour is not found. Or elements are stored in runs (blocks of several), and a run is split at a wrong offset{deleted}.")
OF_INSERTS = {
    "": NUMBERS_OF_INSERTS, NEIGHBOURS: NUMBERS_OF_INSERTS, POSITIONS: " Client and server must adjust in the same way, and each change only once.", IDENTIFIERS: "",
    TREE: " Often the clock that decides between children does not advance when changes arrive. A change may bring several elements: then the clock must go above the last element's number. Or the parent is not "
          "the one that the author meant{deleted}.",
}
DELETED_TOO = {"": " (the offset must count deleted elements too)", NEIGHBOURS: " (the offset must count deleted elements too)", TREE: ", as where the element beside it is deleted", IDENTIFIERS: "", POSITIONS: ""}
IDENTIFIERS_OF = ("If the list is sorted by position identifiers, print those of {names} at line {line}. They must rise in this order. If they do not, look at how the identifier of {element} was "
                  "made; if they do, at how identifiers are compared (numbers must not be compared as text).")
SORTED = ("If the list is sorted by position identifiers, look at those of {names}: are {two} equal, does one differ between replicas, are numbers compared as text, or is one of them not between "
          "the identifiers of its neighbours?{circle}")
NO_ORDER = " Or does the comparison go in a circle, as when numbers and authors are compared by turns?"
REORDERED = ("Replica {replica} itself changed the order of elements that it had shown: {one} before {two} in {before}, {two} before {one} in {after}. Between the two "
             "it {did}. Look at {look}")
DECIDES = ("what decides which of {two} and {one} comes first: once both are inserted, their order must never change, whatever is inserted, deleted "
           "or received later.")
MAPPING = ("Look at how the position that a user sees is mapped to a place in the editor's own list{deleted}; and at whether the "
           "recorder writes the position that was asked for.")
ADJUSTS = "how what comes and the replica's own changes that are still on their way are adjusted for each other there."
BESIDE_GONE = ("{passed} was put {side} {gone} ({insert}), and that is deleted at replica {replica} by now: so {element} was inserted beside a deleted element. Look at how an insert finds its "
               "place there; in a tree of elements, at how the children of a deleted one are shown: all its left children must come before all its right ones.")
NUMBERS = ("If the editor decides by numbers (a clock, ids) which of two inserts at one place comes first, look at theirs: {element} stands behind "
           "{passed}, which replica {replica} had already. To stand before, {element} needs a number greater than {theirs}; perhaps its number is not greater. Usual causes: "
           "{causes}ids are compared as text, so 10 comes before 9.")
NUMBERS_TREE = ("Look at where a new child is put: {element} stands behind {passed}, which replica {replica} had already. Perhaps its parent is not the one that was meant; or the place beside a "
                "sibling, with all that hangs on that, is not found; or siblings stand in the order of numbers, and the one of {element} is not greater than {theirs} (usual causes: "
                "{causes}ids are compared as text).")
KEPT_PLACE = ("{came} came to replica {replica} in line {line}, beside {own}, which the replica had inserted earlier, by {insert}. Does the editor keep a position, or a range, from its last "
              "insert? Then a change that arrives must update it.")
STALE = ("[{element}] stands {where}. That place was position {at} in an older list: {before} answered {shown}. After that came {came}. Does the editor still use something from before that (a place, an offset, an index, "
         "a copy of the list)? Every kind of change that arrives must update it.")
CLOCK = {True: "the clock does not advance with each insert; ", False: "the clock does not advance when changes arrive, or when one that was held back is applied; the replica's number is compared before the clock; "}
BESIDE_DELETED = ("If inserts find their place by a neighbour, look at inserts beside deleted elements: {which}. If replicas throw "
                  "deleted elements away, nothing says then where the insert belongs; if they keep them, the search for its place must treat them like "
                  "elements that are shown.")
ALONE_WITH_OWN = " Replicas {others} received it, and agree on its place. Replica {replica} alone, which inserted it, shows it elsewhere: so start with this."
OWN_PLACE = ("When replica {replica} inserted [{element}] (line {line}), {gone} had been deleted at its place. If deleted elements are kept, be it for a while, look at where its own list has the new one among "
             "them: a local insert must find its place by the same search as an incoming one.")
ARRIVED_BESIDE = "{element} came to replica {replica} in line {line}, where its {neighbours} {gone} had been deleted"
HIDDEN_BESIDE = "{element} was put beside {gone}, which {were} deleted before {operation}"
SEVERAL_DELETED = ("Look at positions beside deleted elements: any {fewer} of {named} fit together, but not all {k}; perhaps an insert lost its place "
                   "because its neighbour was deleted meanwhile.{next}")
NEXT = " Look first at where replica {replica} placed {element} in line {line}: it belongs beside {gone}, which had been deleted there."
SEVERAL_APART = ("Look at how a replica orders elements when it has only some of them: any {fewer} of {named} fit together, but not all {k}. The elements that some of "
                 "these responses lack had not arrived there yet; they were not deleted. Often the rule that orders concurrent inserts is not the same everywhere.")
WEAK_ALONE_HOLDS = ("An editor whose server orders all changes, as Jupiter's does, promises only the weak list specification, which holds here. If yours is such an editor, nothing is wrong here: "
                    "ask for the weak specification alone (in the tools by --weak).")
IN_RANGE = ("When [{new}] arrived at replica {replica} in line {line}, {left} and {right}, between which it belongs, had been deleted there, one directly after the other, by {first} and {then}: it may be an insert into the "
            "middle of a deleted range. Look at how such an insert is adjusted: it must go to where the range began, no further to the left. Look also at how the delete of a range is adjusted for it.")
SETTLED = ("Look at where a replica places an incoming insert beside a deleted element: [{first}] was put before [{middle}] ({op_first}), and [{then}] behind it ({op_then}), so "
              "[{middle}] settles their order, also where it is deleted; yet {wrong} shows them the other way round. {then_what}")
SETTLED_BY = {
    "": "The rule for concurrent inserts must not decide this.",
    NEIGHBOURS: "The rule for concurrent inserts must not decide this: the search for the place must still find [{middle}], or what stood for it.",
    TREE: "The rule for concurrent inserts must not decide this: look at how the children of [{middle}] and of its neighbours are ordered and shown where it is deleted.",
    IDENTIFIERS: "Print the identifiers of [{first}], [{middle}] and [{then}] at both replicas: they must rise in this order. If they do not, look at how the one of [{first}] or "
                 "[{then}] was made; if they do, at how they are compared, and at the search for a place.",
    POSITIONS: "Where [{middle}] is deleted both stand at one position, and that does not tell which comes first: look at how two inserts at an equal position are ordered, on the server and on "
               "each client, and at whether the two inserts and the delete of [{middle}] are processed in the same order everywhere.",
}
HIDDEN_ORDER = ("[{new}] was put directly {side} {hidden} ({insert}), and {hidden} and [{old}] were inserted{place} without knowing of each other. {hidden} is deleted at replica {replica}, which "
                "never showed {hidden} and [{old}] together: perhaps it still keeps {hidden}, but on the other side of [{old}] than replica {author} has it. Then [{new}], put rightly beside {hidden}, stands there "
                "too. So look first at where these concurrent inserts were put when they arrived: {arrivals}.")
PAST = ("If inserts find their place by a neighbour, look at how {found}{when}: a search that goes past [{behind}] must also go past all that was put behind [{behind}]; in a "
        "list that is kept in blocks it must not stop at a block's end.")
BEGUN = ("If inserts find their place by a neighbour, look at how [{element}] found its place{when}. The search begins behind [{behind}] and went past [{other}]. But "
         "[{other}] was not inserted with [{behind}] as its neighbour, so perhaps the search should have ended before [{other}].")
WHEN_CAME = " when {it} came to replica {replica} in line {line}"
INSIDE = ("{operation} shows [{new}] between [{left}] and [{right}], though [{one}] was put directly {side} [{beside}] by {insert}, which did not know of it. In a tree an element stands beside a "
          "sibling and all that hangs on that: look at how the place before or behind a sibling is found, by the first or last of all that hangs on it, and only then at the order of "
          "siblings.")
BETWEEN = "[{element}] was put directly behind [{behind}]. The author of [{other}] knew neither, and {operation} shows [{other}] between the two. "
BEHIND_UNKNOWN = "[{element}] was put directly behind [{behind}]. The author of [{other}] did not know [{behind}]. "
BEHIND_DELETED = " Look also at inserts beside deleted elements: a replica that has thrown away [{behind}] when it was deleted can't know where [{element}] belongs."
CONCURRENT = ("Look at the order of concurrent inserts: {first} and {then} were inserted{place} without knowing of each other, and were shown "
              "in two different orders.{rule}{print}")
RULE = (" Use a rule that gives the same order everywhere (such as the replicas' numbers), never the order of arrival. A shortcut, such as for appending, must use this rule too.")
RULES = {"": RULE, NEIGHBOURS: RULE, IDENTIFIERS: "",
         POSITIONS: " At an equal position the same one must come first on each client, and on the server if it adjusts positions: look at which one your code puts first, for arriving changes and "
                    "for the replica's own ones that are still on their way.",
         TREE: " Children of one parent must stand in one order everywhere (such as by the replicas' numbers), and each with all that hangs on it."}
PRINT = {  # what tells a fault of what is sent from one of how it is applied
    "": "", POSITIONS: " Client and server must adjust in the same way, and each change only once.",
    NEIGHBOURS: " Print what replicas {one} and {other} store for these two elements (neighbour, number, author). If the two replicas differ, look at what is sent and what changes it later; if "
                "not, at how the place of an incoming insert is found.",
    TREE: " Print what replicas {one} and {other} store for these two elements (parent, side, number, author). If the two replicas differ, look at what is sent and what changes it later; if not, "
          "at how children are ordered, and how the tree is walked.",
    IDENTIFIERS: " Print both identifiers at replicas {one} and {other}: if one differs between these, look at what is sent; if the two are equal, at how they are made; else at how they are "
                 "compared, and at the search for a place.",
}
ODD_ONE = ("Replicas {others} show {one} before {two}. Replica {odd} alone shows them the other way round, first in {operation}: so look first at what it did in line {line}, when {came} came. {own}")
MOVED_OR_TIED = ("Look at how a position is adjusted where a change arrives: the position of {element} was perhaps not adjusted for {changes}, which "
             "replica {replica} knew and the author of {element} did not.{back} Or look at the order of concurrent inserts: {first} and {then} were inserted without knowing of each "
             "other, and were shown in two different orders. Use a rule that gives the same order everywhere (such as the replicas' numbers). Client and server must adjust in the same way, and each change only once.")
EITHER = ("Look at the order of concurrent inserts: {first} and {then} were inserted at one place without knowing of each other, and were shown in two "
          "different orders. Either the position of {element} was not adjusted for {changes}, which replica {replica} knew and the author of {element} did not; "
          "or the rule that orders them is not the same everywhere.{back} Client and server must adjust in the same way, and each change only once.")
REBASED = ("Replica {replica} inserted both {one} and {two} itself. If the editor takes back its own changes when changes of others arrive, and applies them again (rebasing), look at where that puts them.")
LET_OUT = (" [{old}] arrived at replica {replica} together with others, with no list shown between (line {first} to line {last}): perhaps it had been held back, and was released then. Look at "
           "whether a released change does all that others do, such as advancing the clock.")
SEEN = ("When replica {author} inserted [{new}] ({later}, line {line}), it had [{old}] already{since}, and put [{new}] {side} it. That order must hold everywhere, but {operation} "
        "shows [{new}] {other_side} [{old}]. {look}.{numbers}{let_out}")
TURNED_TOO = ("{old} and {other} stand in two orders in these two lists too; {other} was inserted by {insert}, whose author did not know {old}, nor the author of {old} {other}. If that is the fault, look at "
              "where replica {replica} placed {which} in line {line}.")
OF_AUTHOR_OR_PLACE = "Look at the message that replica {author} made for that insert, and at where replica {replica} placed it{arrived}"
BETWEEN_THE_TWO = "Look at what replica {author} did between the two responses"
SEEN_IN_CYCLE = ("When replica {author} inserted [{new}] ({later}, line {line}), it had [{old}] already{since}, and put [{new}] {side} it: look at whether the message for that insert says so too, "
                 "and its number.{numbers}{let_out}")
SHOWN_ALONE = ("Replica {replica} inserted [{new}] ({insert}, line {line}) {side} [{old}]. No other replica shows them in this order. After its next receipt (line {receipt}), from {own} on, "
               "replica {replica} itself shows [{new}] "
               "{other_side} [{old}], like the others. ")
ANOTHER_PLACE = ("So the message for this insert seems to name another place than the one where its author put it: compare where a local insert goes into the list with what its message "
                 "says.")
MOVED_THEN = "Look first at what is done in line {receipt}: at " + OWN_ADJUSTED
ALONE_BY = {"": ANOTHER_PLACE + " Or, if replicas talk through a server, the insert was moved in line {receipt}: then look at how the replica's own changes that are still on their way are adjusted for what arrives.",
            NEIGHBOURS: ANOTHER_PLACE, TREE: ANOTHER_PLACE, IDENTIFIERS: ANOTHER_PLACE, POSITIONS: MOVED_THEN + " Then look at what the message for the insert says."}
ONE_IS_WRONG = ("with a server or a relay, perhaps its acknowledgement of the replica's own change. Then one of the two lists is wrong: that of {before}{made}, or the one after the "
                "acknowledgement. Two pieces of code must adjust in the same way: (1) the code that adjusts an arriving change for the replica's own changes on their way, and these for it; (2) the "
                "code that handles the acknowledgement{server}. Compare which changes each of them adjusts, whether each only once, and which of two inserts at one position it puts first.")
TURNED_BY_ITSELF = ("Replica {replica} shows {two} before {one} in {before}, and {one} before {two} in {after}, though it received and changed nothing between. Something that is not "
                    "recorded did that: ")
AMONG_THESE = "Of the changes of replica {replica}, look first at the deletes: "
MOVED_INSERT = ("If the editor sends positions, {begin}the position of {element} was perhaps not adjusted for {changes}, which replica {replica} "
                "knew and the author of {element} did not.{back}")
MOVED_BACK = {True: " Or perhaps replica {replica}'s own change {delete} was not adjusted for {inserts}, whose {authors} did not have {delete} yet.",
              False: " Or perhaps, when {delete} came to replica {replica} in line {line}, its position was not adjusted for {inserts}."}


def of_position(evidence: Evidence) -> list:
    operation = evidence.operations[0]
    response, name = operation.response, operation.element
    asked = place_asked(operation, response)
    has_delete = any(operation.has_seen(delete) for deletes in evidence.recording.deletes.values() for delete in deletes)
    mapped = MAPPING.format(deleted=" (deleted elements may still stand there)" if has_delete and evidence.kind not in (IDENTIFIERS, POSITIONS) else "")
    first = reordered(evidence)
    if first:
        return [*first, Cause("mapping", otherwise("If that is not the cause", mapped))]
    kept = kept_place(evidence)
    stale = [] if kept else stale_place(evidence)
    others = [other for other in response if other != name]
    at_most = min(operation.at, len(others))
    sorted_by = identifiers(operation, others[max(at_most - 1, 0):at_most], others[at_most:at_most + 1])
    by_identifiers = [*sorted_by, *kept, *stale, *deleted_twice(evidence), Cause("mapping", otherwise("If that is not the cause", mapped))] if evidence.kind == IDENTIFIERS else []
    if asked < 0 or name not in response or response.index(name) < asked:
        return by_identifiers or [*kept, *stale, *deleted_twice(evidence), Cause("mapping", mapped), *sorted_by]
    passed = response[asked:response.index(name)]
    theirs = "theirs" if passed[1:] else f"that of {passed[0]}"
    are_own = all(insert.replica == operation.replica for one in passed for insert in evidence.recording.inserts.get(one, []))
    gone = beside_gone(evidence, passed[0])
    if has_delete and is_younger_by_name(name, passed):
        return by_identifiers or [*gone, *kept, *stale, *deleted_twice(evidence), Cause("mapping", mapped), *sorted_by]
    among = "".join(dict.fromkeys(let_out(evidence, operation, insert) for one in passed[:1] for insert in evidence.recording.inserts.get(one, [])[:1]))
    numbers = Cause("numbers", (NUMBERS_TREE if evidence.kind == TREE else NUMBERS).format(element=name, passed=listed(passed, MOST_TOLD), replica=operation.replica, theirs=theirs, causes=CLOCK[are_own]) + among)
    told = [cause for cause in [*gone, *kept, numbers, *sorted_by, *stale, *deleted_twice(evidence)] if is_possible(cause.name, evidence.kind)]
    if not told:
        return [Cause("mapping", mapped)]
    instead = "If that is not the cause" if evidence.kind else ["If that does not fit your editor", "If neither fits your editor", "If none of these fits your editor"][min(len(told), 3) - 1]
    return [*told, Cause("mapping", otherwise(instead, mapped))]


def kept_place(evidence: Evidence) -> list:
    """Of a wrong position, that an element came to the replica since its last insert, and stands beside what that inserted, where the new one was to stand."""
    if evidence.kept_place is None:
        return []
    receipt, name, last = evidence.kept_place
    return [Cause("kept place", KEPT_PLACE.format(came=name, replica=receipt.replica, line=receipt.line, own=last.element, insert=at(last)))]


def stale_place(evidence: Evidence) -> list:
    """Of a wrong position, that it led to the same place in a list that the replica showed before others' changes came."""
    if evidence.stale_place is None:
        return []
    before, came = evidence.stale_place
    operation = evidence.operations[0]
    behind = before.response[operation.at:operation.at + 1]
    place = operation.response.index(operation.element)
    is_before = behind and operation.response[place + 1:place + 2] == behind  # else what stands before it is the same
    beside = behind[0] if is_before else before.response[operation.at - 1]
    where = f"directly {'before' if is_before else 'behind'} {beside}"
    news = [f"the {'insert' if change.kind == 'ins' else 'delete'} of {change.element} by {change.name} (in line {evidence.line_at(change, operation.replica)})" for change in came]
    return [Cause("stale place", STALE.format(element=operation.element, at=operation.at, before=at(before), shown=marked(before.response, set(), {beside}), came=listed(news, MOST_MET), where=where))]


def beside_gone(evidence: Evidence, passed: str) -> list:
    """Of a wrong position, that the element which stands at the position was put beside one that is deleted for its replica by now."""
    operation = evidence.operations[0]
    for insert in evidence.recording.inserts.get(passed, [])[:1]:
        for side, name in zip(("behind", "before"), neighbours(insert)):
            if name and any(map(operation.has_seen, evidence.recording.deletes.get(name, []))):
                return [Cause("beside gone", BESIDE_GONE.format(passed=passed, side=side, gone=name, insert=at(insert), replica=operation.replica, element=operation.element))]
    return []


def is_younger_by_name(name: str, others: list) -> bool:
    """Whether the names come from ids as 7@2, a clock's number first, and that of the one is greater than the others' already."""
    numbers = [re.match(r"e(\d+)-", one) for one in (name, *others)]
    return all(numbers) and all(int(numbers[0][1]) > int(number[1]) for number in numbers[1:])


def reordered(evidence: Evidence) -> list:
    """That a replica showed two elements in one order, and then in the other; but where that is told already."""
    if evidence.reordered is None or evidence.turned_by_itself is not None and evidence.turned_by_itself[3] is evidence.reordered[3]:
        return []
    two, one, before, after = evidence.reordered
    came = evidence.came_between(before, after)
    done = [f"received {named(came)}"] if came else []
    if after.kind == "ins":
        done.append(f"inserted {after.element}")
    if after.kind == "del":
        others = [delete.element for delete in evidence.made_before(after)]
        done.append(f"deleted {after.element}" + (f" (directly after {listed(others, MOST_TOLD)})" if others else ""))
    is_own = any(insert.replica == after.replica for name in (one, two) for insert in evidence.recording.inserts[name])
    look = DECIDES.format(one=one, two=two) if evidence.kind != POSITIONS else OWN_ADJUSTED if is_own else ADJUSTS
    return [Cause("reordered", REORDERED.format(replica=after.replica, one=one, two=two, before=at(before), after=at(after),
                                                did=joined(done) or "received no change", look=look))]


def identifiers(insert: Operation, before: list, behind: list) -> list:
    """Where an editor has to make the position identifier of an element that its author put between these two, of which one may be missing."""
    if not before and not behind:
        return []
    names = joined([*before, insert.element, *behind])
    return [Cause("identifiers", IDENTIFIERS_OF.format(names=names, line=insert.line, element=insert.element))]


def own_place(evidence: Evidence) -> list:
    """Of an insert that was made where elements had been deleted: how its author placed it among these."""
    if evidence.own_place is None or evidence.kind not in BY_ELEMENTS:
        return []
    insert, gone = evidence.own_place
    odd = evidence.odd_one
    alone = ALONE_WITH_OWN.format(others=joined(list(map(str, odd[0]))), replica=insert.replica, element=insert.element) if odd and odd[1].replica == insert.replica else ""
    return [Cause("own place", OWN_PLACE.format(replica=insert.replica, element=insert.element, line=insert.line, gone=listed(gone, MOST_TOLD)) + alone)]


def put_inside(evidence: Evidence) -> list:
    """In a tree, of what came last: that it stands between two elements of which one was put directly beside the other, where that was not the
    place of what came, and neither author knew of the other's."""
    if evidence.kind != TREE or not evidence.arrivals:
        return []
    receipt, new = evidence.arrivals[-1]
    operation = next((one for one in evidence.recording.streams[receipt.replica][receipt.before:] if one.kind != "view" and one.line <= evidence.last_line), None)
    shown = operation.response if operation is not None and operation.has_seen(new) else []
    places = {name: place for place, name in enumerate(shown)}
    own = [name for name in neighbours(new) if name in places]
    if new.element not in places:
        return []
    found = []
    for name, place in places.items():
        insert = evidence.recording.inserts[name][0]
        for side, beside in enumerate(neighbours(insert)):
            first, last = sorted((place, places.get(beside, place)))
            is_between = first < places[new.element] < last and not any(first <= places[one] <= last for one in own)
            if is_between and not new.has_seen(insert) and not insert.has_seen(new):
                found.append((last - first, place, INSIDE.format(operation=at(operation), new=new.element, left=shown[first], right=shown[last], one=name,
                                                                 side="before" if side else "behind", beside=beside, insert=at(insert))))
    return [Cause("inside", told) for *_, told in sorted(found)[:1]]


def came_between(evidence: Evidence) -> list:
    """Of an element that a response shows between two that were put together elsewhere."""
    if evidence.between is None:
        return []
    other, element, behind, operation = evidence.between
    return [Cause("between", BETWEEN.format(operation=at(operation), other=other, element=element, behind=behind) + search_of(evidence, other, element, behind, operation.replica))]


def search_of(evidence: Evidence, other: str, element: str, behind: str, replica: int) -> str:
    """At the search for whose place to look, where an element was put behind one that another's author did not know: of the one that came last to this replica."""
    names, receipt = evidence.came_last([other, element], replica)
    when = WHEN_CAME.format(it="they" if names[1:] else "it", replica=replica, line=receipt.line) if receipt is not None else ""
    found = f"[{other}] and [{element}] found their places" if names[1:] else f"[{other}] found its place"
    return (BEGUN if names == [element] else PAST).format(other=other, element=element, behind=behind, found=found, when=when)


def behind_unknown(evidence: Evidence, first: Operation, then: Operation) -> tuple:
    """Of two concurrent inserts one that was put directly behind what the other's author did not know, where no response shows more of that; and
    whether that was deleted where the insert arrived, which is told by itself."""
    for one, other in ((first, then), (then, first)) if evidence.between is None else ():
        behind = neighbours(one)[0]
        if behind in evidence.recording.inserts and not other.has_seen(evidence.recording.inserts[behind][0]):
            is_gone = any(arrival.insert is one and behind in [delete.element for delete in deletes] for arrival, deletes in evidence.lost_neighbours)
            replicas = dict.fromkeys(operation.replica for operation in evidence.operations)
            replica = next((replica for replica in replicas if other.element in evidence.came_last([other.element, one.element], replica)[0]), evidence.operations[0].replica)
            told = BEHIND_UNKNOWN.format(element=one.element, behind=behind, other=other.element) + search_of(evidence, other.element, one.element, behind, replica)
            told += BEHIND_DELETED.format(element=one.element, behind=behind) * (is_deleted(evidence, behind) and not is_gone)
            return [Cause("behind unknown", told)], is_gone
    return [], False


def odd_one(evidence: Evidence) -> list:
    """Where changes carry positions, of two concurrent inserts that one replica alone shows in its order: at what it received, and what it had on its way then."""
    if evidence.kind != POSITIONS or evidence.odd_one is None:
        return []
    others, operation, receipt = evidence.odd_one
    two, one = [name for name in operation.response if name in evidence.elements]
    return [Cause("odd one", ODD_ONE.format(others=joined(list(map(str, others))), one=one, two=two, odd=operation.replica, operation=at(operation), line=receipt.line, came=receipt.seen.name,
                                            own=on_way_then(evidence, receipt)).rstrip())]


def sorted_alike(evidence: Evidence) -> Cause:
    """Where an editor that sorts by position identifiers may order the elements of a refusal otherwise at another replica."""
    names = evidence.elements[:MOST_MET]
    more = evidence.report["k"] - len(names)
    return Cause("identifiers", SORTED.format(two="the two" if evidence.report["k"] == 2 else "two of them",
                                                names=joined(names + ([f"{more} more"] if more else [])),
                                              circle=NO_ORDER if evidence.kind and evidence.report["k"] > 2 else ""))


def of_refusal(evidence: Evidence, weak: bool) -> list:
    """Concurrent inserts first; then inserts beside deleted elements, then two elements of which one's author had seen the other."""
    if evidence.report["k"] > 2:
        pair = pair_in_cycle(evidence)
        several = [of_several(evidence), *([seen_in_cycle(evidence, *pair)] if pair else [])]
        is_let_out = pair is not None and let_out(evidence, *pair[:2]) != ""
        return [*lost(evidence), *in_range(evidence), *came_between(evidence), *(several[::-1] if evidence.is_fine_beside_deleted or is_let_out else several), sorted_alike(evidence),
                Cause(ALONE, WEAK_ALONE_HOLDS)]
    first, then = (evidence.recording.inserts[name][0] for name in evidence.elements)
    weak = weak or evidence.kind == POSITIONS
    if not first.has_seen(then) and not then.has_seen(first):
        moved = moved_over(evidence)
        if weak and moved:
            told = (EITHER if are_put_at_once(first, then) else MOVED_OR_TIED).format(first=first.element, then=then.element, **moved)
            settled = settled_by_another(evidence, first, then) if evidence.kind else []
            return [*turned_by_itself(evidence), *lost(evidence), *reordered(evidence), *odd_one(evidence), *in_range(evidence), *came_between(evidence), *settled, Cause("concurrent", told), *emptied(evidence), *beside_deleted(evidence)]
        settled = settled_by_another(evidence, first, then)
        behind, is_gone = behind_unknown(evidence, first, then)
        concurrent = settled or [*behind, Cause("concurrent", CONCURRENT.format(first=first.element, then=then.element, place=place_of_both(first, then), rule=RULES[evidence.kind],
                                                                           print=printed(evidence)))]
        is_told = evidence.between is not None or bool(concurrent[1:]) and not is_gone
        causes = [concurrent, beside_deleted(evidence, is_told)]
        is_deleted_first = evidence.lost_neighbours and not are_put_at_once(first, then) and not is_told and not evidence.is_fine_beside_deleted
        return [*turned_by_itself(evidence), *lost(evidence), *reordered(evidence), *odd_one(evidence), *in_range(evidence), *came_between(evidence), *put_inside(evidence), *own_place(evidence), *sum(causes[::-1] if is_deleted_first else causes, []), sorted_alike(evidence), *moved_insert(moved)]
    later, old = (first, then) if first.has_seen(then) else (then, first)
    moved = moved_over(evidence)
    told = seen(evidence, later, old, not (weak and moved))
    told += put_meanwhile(evidence, later) or put_meanwhile(evidence, old)
    if weak and moved and evidence.kind != POSITIONS:
        return [*turned_by_itself(evidence), *lost(evidence), *shown_alone(evidence), *reordered(evidence), Cause("seen", told), *moved_insert(moved), *beside_deleted(evidence)]
    place = later.response.index(later.element)
    beside = later.response[max(place - 1, 0):place + 2]
    names = [name for name in later.response if name in beside or name == old.element]
    sorted_by = identifiers(later, names[:names.index(later.element)], names[names.index(later.element) + 1:])
    alone = shown_alone(evidence)
    turned = reordered(evidence) if not alone else []  # that is told already
    if turned and evidence.kind == POSITIONS:
        return [*turned_by_itself(evidence), *lost(evidence), *turned, *moved_insert(moved), *emptied(evidence)]
    if turned and first.replica == then.replica == evidence.reordered[3].replica:
        last = Cause("rebased", REBASED.format(replica=first.replica, one=first.element, two=then.element))
    else:
        last = Cause("seen", told)
    gone = beside_deleted(evidence, bool(alone))
    first_of_all = [*turned_by_itself(evidence), *lost(evidence)]
    if alone and evidence.kind == IDENTIFIERS:
        return [*first_of_all, *sorted_by, *alone]
    moved = moved | {"begin": AMONG_THESE.format(replica=moved["replica"])} if moved and own_then(evidence, evidence.met[0].receipt) and last.name == "seen" else moved
    return [*first_of_all, *alone, *turned, *hidden_order(evidence, later, old), *([last, *gone] if evidence.is_fine_beside_deleted or let_out(evidence, later, old) else [*gone, last]),
            *(turned_too(evidence, later, old) if last.name == "seen" else []), *sorted_by, *emptied(evidence), *moved_insert(moved)]


def hidden_order(evidence: Evidence, later: Operation, old: Operation) -> list:
    """Of an insert whose author had the other one, and put it beside a third on the other side, that this one and the other may stand in another order
    where the third is deleted."""
    if evidence.kind not in ("", *BY_ELEMENTS):
        return []
    told = put_beside(evidence, later, old)
    beside = neighbours(later)[0 if told["side"] == "before" else 1]
    unlike = unlike_author(evidence, later, old)
    hidden = next(iter(evidence.recording.inserts.get(beside, [])), None)
    if hidden is None or unlike.replica == later.replica or not any(map(unlike.has_seen, evidence.recording.deletes.get(beside, []))) or not are_put_at_once(hidden, old):
        return []
    if any(beside in one.response and old.element in one.response for one in evidence.recording.streams[unlike.replica][:unlike.n]):
        return []
    arrivals = sorted({(evidence.line_at(insert, replica), insert.element, replica) for insert in (hidden, old) for replica in (later.replica, unlike.replica) if insert.replica != replica})
    return [Cause("hidden order", HIDDEN_ORDER.format(new=later.element, side="behind" if told["side"] == "before" else "before", hidden=beside, insert=at(hidden), old=old.element,
                                                      replica=unlike.replica, author=later.replica, place=place_of_both(hidden, old), arrivals=joined([f"{element} in line {line} (replica {replica})" for line, element, replica in arrivals])))]


def unlike_author(evidence: Evidence, later: Operation, old: Operation) -> Operation:
    """The response that shows two elements otherwise than the author of the later one."""
    names = [name for name in later.response if name in (later.element, old.element)]
    return next((operation for operation in evidence.operations if [name for name in operation.response if name in names] != names), evidence.operations[0])


def turned_too(evidence: Evidence, later: Operation, old: Operation) -> list:
    """Where the same two responses turn round the earlier of two inserts and a third one too, neither author knowing of the other's, and one of them came to the replica that shows it otherwise."""
    unlike = unlike_author(evidence, later, old)
    one, two = [operation.response for operation in evidence.operations[:2]]
    for name in [name for name in one if name in two and name not in (later.element, old.element)]:
        insert = evidence.recording.inserts[name][0]
        is_turned = (one.index(old.element) < one.index(name)) != (two.index(old.element) < two.index(name))
        came = [change for change in (old, insert) if change.replica != unlike.replica and evidence.recording.arrival(change, unlike.replica) is not None]
        if is_turned and not is_known(old, insert) and came:
            return [Cause("turned too", TURNED_TOO.format(old=old.element, other=name, insert=at(insert), replica=unlike.replica, which=came[-1].element,
                                                          line=evidence.recording.arrival(came[-1], unlike.replica).line))]
    return []


def seen(evidence: Evidence, later: Operation, old: Operation, is_numbered: bool) -> str:
    """Of an insert whose author had the other one, which response shows them otherwise, and when the insert came there."""
    unlike = unlike_author(evidence, later, old)
    arrival = evidence.recording.arrival(later, unlike.replica) if unlike.replica != later.replica else None
    arrived = f" in line {arrival.line}" if arrival is not None and not evidence.recording.is_delivered(arrival.line) else ""
    look = OF_AUTHOR_OR_PLACE if unlike.replica != later.replica else BETWEEN_THE_TWO
    told = put_beside(evidence, later, old)
    return SEEN.format(**told, operation=at(unlike), other_side="behind" if told["side"] == "before" else "before",
                       look=look.format(author=later.replica, replica=unlike.replica, arrived=arrived), numbers=of_inserts(evidence, unlike) if is_numbered else "",
                       let_out=let_out(evidence, later, old) if is_numbered else "") + own_then(evidence, arrival)


def own_then(evidence: Evidence, arrival: Receipt | None) -> str:
    """Where changes carry positions, which changes of its own a replica had on their way when an insert came that it shows elsewhere; if it had any."""
    is_told = evidence.kind == POSITIONS and arrival is not None and not evidence.recording.is_delivered(arrival.line) and evidence.on_their_way(arrival)
    return f" {on_way_then(evidence, arrival)}".rstrip() if is_told else ""


def put_beside(evidence: Evidence, later: Operation, old: Operation) -> dict:
    """On which side of an element that its author had an insert was put, for a sentence; and since when the author had it."""
    names = [name for name in later.response if name in (later.element, old.element)]
    arrival = evidence.recording.arrival(old, later.replica) if old.replica != later.replica else None
    since = f" (since line {arrival.line})" if arrival is not None and not evidence.recording.is_delivered(arrival.line) else ""
    return {"author": later.replica, "later": later.name, "line": later.line, "new": later.element, "old": old.element, "since": since,
            "side": "before" if names[0] == later.element else "behind"}


def let_out(evidence: Evidence, later: Operation, old: Operation) -> str:
    """That an element which the author of a later insert had already came there among others, where the editor has clocks."""
    lines = evidence.came_among(old, later.replica) if evidence.kind in ("", *BY_ELEMENTS) else None
    return LET_OUT.format(old=old.element, replica=later.replica, first=lines[0], last=lines[1]) if lines else ""


def of_inserts(evidence: Evidence, operation: Operation) -> str:
    """What is often wrong with how an insert is numbered or placed; of deleted elements only where an operation has seen a delete."""
    has_delete = any(operation.has_seen(delete) for deletes in evidence.recording.deletes.values() for delete in deletes)
    return OF_INSERTS[evidence.kind].format(deleted=DELETED_TOO[evidence.kind] if has_delete else "")


def pair_in_cycle(evidence: Evidence) -> tuple | None:
    """Of more than two, an insert that its author put beside another element of the cycle, which it had, that element's insert, and the operation of
    the step: best the insert that came last."""
    last = evidence.arrivals[-1].insert if evidence.arrivals else None
    found = []
    for step, operation in evidence.steps if evidence.kind in BY_ELEMENTS else []:
        pair = [evidence.recording.inserts[step[name]][0] for name in ("from", "to")]
        found += [(insert is not last, insert.line, insert, other, operation) for insert, other in (pair, pair[::-1]) if insert.has_seen(other)]
    return min(found, key=lambda one: one[:2])[2:] if found else None


def seen_in_cycle(evidence: Evidence, insert: Operation, other: Operation, operation: Operation) -> Cause:
    return Cause("seen in a cycle", SEEN_IN_CYCLE.format(**put_beside(evidence, insert, other), numbers=of_inserts(evidence, operation), let_out=let_out(evidence, insert, other)))


def shown_alone(evidence: Evidence) -> list:
    """Of an insert that its author alone shows so, and only until it has received something."""
    if evidence.shown_alone is None:
        return []
    insert, other, receipt, own = evidence.shown_alone
    names = [name for name in insert.response if name in (insert.element, other.element)]
    side, other_side = ("before", "behind")[::1 if names[0] == insert.element else -1]
    return [Cause("shown alone", (SHOWN_ALONE + ALONE_BY[evidence.kind]).format(
        replica=insert.replica, new=insert.element, insert=insert.name, line=insert.line, old=other.element, side=side, other_side=other_side, receipt=receipt.line, own=at(own)))]


def turned_by_itself(evidence: Evidence) -> list:
    """That a replica reads two elements in another order than before, and has received nothing between."""
    if evidence.turned_by_itself is None:
        return []
    one, two, before, after = evidence.turned_by_itself
    return [Cause("turned by itself", TURNED_BY_ITSELF.format(replica=after.replica, one=one, two=two, before=at(before), after=at(after)) + turned_then(evidence, before))]


def turned_then(evidence: Evidence, before: Operation) -> str:
    """What turned two elements round though nothing came."""
    if not is_possible("positions", evidence.kind):
        return BY_ITSELF
    receipts = [receipt for receipt in evidence.recording.receipts[before.replica] if receipt.line < before.line]
    made = f", made when {receipts[-1].seen.name} came in line {receipts[-1].line}" if receipts else ""
    return ONE_IS_WRONG.format(before=at(before), made=made, server="; so must the server, if it adjusts positions")


def settled_by_another(evidence: Evidence, first: Operation, then: Operation) -> list:
    """Of two inserts of which the one was put before an element, and the other behind it, which so settles their order. The nearest one counts."""
    for one in first, then:
        unlike = shown_unlike(evidence, one)
        if unlike is not None:
            return [Cause("seen", seen(evidence, one, unlike, True))]
    if evidence.settled is None:
        return []
    one, other, middle, wrong = evidence.settled
    return [Cause("settled", SETTLED.format(first=one.element, then=other.element, middle=middle, op_first=f"{one.name}, line {one.line}", op_then=f"{other.name}, line {other.line}",
                                            wrong=at(wrong), then_what=SETTLED_BY[evidence.kind].format(first=one.element, middle=middle, then=other.element)))]


def in_range(evidence: Evidence) -> list:
    """Where changes carry positions, of an insert that came where what stood on both sides of its place had been deleted, by deletes that were made one
    directly after the other."""
    for arrival, gone in evidence.lost_neighbours if evidence.kind == POSITIONS else []:
        for delete in gone:
            other = beside_in_range(evidence, arrival.insert, delete)
            if other is not None:
                first, then = sorted((delete, other), key=lambda change: change.line)
                return [Cause("in a range", IN_RANGE.format(new=arrival.insert.element, left=delete.element, right=other.element, first=at(first), then=at(then),
                                                            replica=arrival.receipt.replica, line=arrival.receipt.line))]
    return []


def beside_in_range(evidence: Evidence, insert: Operation, delete: Operation) -> Operation | None:
    """The delete, made directly before another or behind it, of what stood for its author on the other side of an insert's place than the other's element."""
    made = [delete, *evidence.made_before(delete)]
    behind = [one for one in evidence.recording.streams[delete.replica][delete.n:] if one.kind == "del" and delete in evidence.made_before(one)]
    shown = list_of(evidence.recording, made[-1])
    step = 1 if neighbours(insert)[0] == delete.element else -1
    place = shown.index(delete.element) + step if delete.element in shown else -1
    beside = shown[place] if 0 <= place < len(shown) else None
    return next((one for one in [*made[1:], *behind] if one.element == beside and not insert.has_seen(one)), None)


def printed(evidence: Evidence) -> str:
    """What to print at the replicas of the two responses, where the kind of the editor is known; of one replica this tells nothing."""
    one, other = (operation.replica for operation in evidence.operations)
    return PRINT[evidence.kind].format(one=min(one, other), other=max(one, other)) if one != other else ""


def shown_unlike(evidence: Evidence, insert: Operation) -> Operation | None:
    """The insert of an element that one of the responses shows on another side of this one than the author of this one, who had both; the nearest."""
    own = insert.response
    place = own.index(insert.element)
    for name in sorted(own, key=lambda name: abs(own.index(name) - place))[1:]:
        for operation in evidence.operations:
            shown = operation.response
            if name in shown and insert.element in shown and (shown.index(name) < shown.index(insert.element)) != (own.index(name) < place):
                return evidence.recording.inserts[name][0]
    return None


def place_of_both(first: Operation, then: Operation) -> str:
    """Behind or before which element both were put, or that they were put at the front, for a sentence; else nothing."""
    (behind, before), (other_behind, other_before) = neighbours(first), neighbours(then)
    if behind == other_behind:
        return f" directly behind {behind}" if behind else " at the front"
    return f" directly before {before}" if before and before == other_before else ""


def moved_insert(moved: dict) -> list:
    """Of an editor that sends positions alone; one with ids passes this over."""
    return [Cause("positions", MOVED_INSERT.format(**{"begin": "", **moved}))] if moved else []


def beside_deleted(evidence: Evidence, is_told_otherwise: bool = False) -> list:
    """Of inserts beside deleted elements; where the order is told otherwise, of those alone that came when these were deleted."""
    if not evidence.lost_neighbours and (is_told_otherwise or evidence.kind == TREE or not evidence.hidden_neighbours):
        return []
    if evidence.lost_neighbours:
        arrival, deletes = evidence.lost_neighbours[-1]
        which = ARRIVED_BESIDE.format(element=arrival.insert.element, replica=arrival.receipt.replica, line=arrival.receipt.line, gone=joined([delete.element for delete in deletes]),
                                      neighbours="neighbours" if deletes[1:] else "neighbour")
    else:
        insert, names, operation = evidence.hidden_neighbours[-1]
        which = HIDDEN_BESIDE.format(element=insert.element, gone=joined(names), were="were" if names[1:] else "was", operation=at(operation))
    return [Cause("beside deleted", BESIDE_DELETED.format(which=which))]


def of_several(evidence: Evidence) -> Cause:
    names, fewer = joined([operation.name for _, operation in evidence.steps]), counted(evidence.report["k"] - 1)
    are_some_gone = any(operation.has_seen(delete) for _, operation in evidence.steps for name in evidence.elements
                        for delete in evidence.recording.deletes.get(name, []))
    if evidence.lost_neighbours or are_some_gone:
        return Cause("several, deleted", SEVERAL_DELETED.format(named=names, fewer=fewer, k=counted(evidence.report["k"]), next=next_of(evidence)) + put_at_once(evidence))
    return Cause("several, apart", SEVERAL_APART.format(named=names, fewer=fewer, k=counted(evidence.report["k"])))


def next_of(evidence: Evidence) -> str:
    """Where to begin among several responses: at the last insert that came where its neighbour was deleted, if one did."""
    for arrival, deletes in evidence.lost_neighbours[-1:]:
        return NEXT.format(replica=arrival.receipt.replica, element=arrival.insert.element, line=arrival.receipt.line, gone=joined([delete.element for delete in deletes]))
    return ""


def put_at_once(evidence: Evidence) -> str:
    """Which elements of a cycle were inserted at one place by authors who did not know of each other's."""
    inserts = [evidence.recording.inserts[step["from"]][0] for step, _ in evidence.steps]
    for insert in inserts:
        others = [other.element for other in inserts if other is not insert and are_put_at_once(insert, other)]
        if others:
            return at_once(insert.element, others)
    return ""


def put_meanwhile(evidence: Evidence, insert: Operation) -> str:
    """Which inserts that were there when this one arrived had been made at its place, neither author knowing of the other's."""
    found = {other.element: None for arrival in evidence.arrivals if arrival.insert is insert
             for other in put_there_at_once(evidence.recording, insert, arrival.receipt) if not is_agreed(evidence, insert.element, other.element, {insert.replica, arrival.receipt.replica})}
    return at_once(insert.element, list(found)) if found else ""


def moved_over(evidence: Evidence) -> dict:
    """Which deletes an arriving insert may have met that its author did not know, for a sentence: some editors have to adjust its position for
    these, and theirs for the inserts that came meanwhile. Empty where there is none."""
    arrival, unknown = evidence.met
    if not unknown:
        return {}
    before = elements_before(evidence.recording, arrival.insert, arrival.receipt)
    shown = arrival.insert.response
    behind = set(shown[shown.index(arrival.insert.element):])  # whose deletes move nothing that stands before them
    unknown = [delete for delete in unknown if delete.element in before] or [delete for delete in unknown if delete.element not in behind]
    if not unknown:
        return {}
    replica = arrival.receipt.replica
    came = [(delete, arrival.receipt if delete.replica == replica else evidence.recording.arrival(delete, replica)) for delete in unknown]
    met = [(delete, receipt, met_inserts(evidence.recording, delete, Arrival(receipt, arrival.insert))) for delete, receipt in came]
    back = "".join(MOVED_BACK[delete.replica == replica].format(delete=delete.name, replica=replica, line=receipt.line, inserts=named(inserts),
                                                                          authors="authors" if len({insert.replica for insert in inserts}) > 1 else "author")
                   for delete, receipt, inserts in [one for one in met if one[2]][:1])
    return {"element": arrival.insert.element, "changes": named(unknown), "replica": arrival.receipt.replica, "back": back}
