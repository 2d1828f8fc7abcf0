"""Where to look in the editor where a response holds other elements than it should, the likeliest cause first."""
from __future__ import annotations

from .cause import BY_ITSELF, MOST_TOLD, OWN_ADJUSTED, Cause, astray, at_once, changes_told, deleted_twice, emptied, is_agreed, is_deleted, lost, lost_apart, may_be_server, named, on_way_then, otherwise, shown_in_orders
from .evidence import Evidence
from .kinds import IDENTIFIERS, POSITIONS, is_possible
from .positions import met, met_before, neighbours, not_behind, put_there_at_once
from .programs import GUIDE
from .recordings import Operation, Receipt
from .telling import at, joined, listed

ARRIVAL = ("Check {things}, in this order. Recorder: `received` must be called right after the change is applied. {transport}"
           "Editor: does it lose a change, apply it twice, or apply it to another element? " f"{GUIDE} says where the calls go.")
TRANSPORT = "Transport: a change must arrive after all those that its author had seen. "
LOCAL = ("The replica received nothing between {before} and this response, so look at the local {what} itself: at what it does to the list, and at which ids it puts into the change that it sends.")
APPLIED_TWICE = ("It looks as if {changes} {were} applied twice at replica {replica}: look at what the editor does with a change that arrives a second "
                 "time{back}, and at whether a change that was held back is applied twice: on arrival and again later.")
OWN_BACK = " (a server may send a replica its own changes back)"
UNDELIVERED = ("It looks as if {changes} never reached replica {replica}, though the call `delivered` ({lines}) says that everything has arrived.{before} Perhaps {names} "
               "{were} lost, or {are} held back for ever, or `delivered` was called too early.{waiting} Look at what keeps changes waiting.")
WAITING = " Later changes that perhaps wait for {names}: {others}."
WAITS_FOR = " {change} may be waiting for {first}, {which}: {lacking}. Look first at {names}."
LACKING = {True: "this response shows that {names} {were} not applied at replica {replica} either",
           False: "nothing but `delivered` says that {names} arrived at replica {replica}, so {names} may be missing too"}
SAID_TOO = {True: " Of another change, too, nothing but `delivered` says that it arrived there: {others}.", False: " Of other changes, too, nothing but `delivered` says that they arrived there: {others}."}
NO_PLACE = (" Perhaps {insert} finds no place there for {element}: its neighbour {neighbours}. An editor that throws deleted elements away too "
            "early loses such an insert or holds it back for ever.")
NOT_APPLIED = ("It looks as if {changes} {were} not applied at replica {replica}: lost, or held back{received}.{later}{elsewhere}{other}")
RECEIVED_EARLY = ", or `received` is called before the change is applied"
KEPT_BACK = (" Between {change} and its first arrival elsewhere (line {first}) replica {author} received {came}: so stop before line {line} too, and look at ")
LACKED_ELSEWHERE = "Replica {other} lacks {missing} too, in {operation}: so look first at what is sent{server}, and only then at replica {replica}. "
LACKED_AT_SERVER = ("Replica {other} lacks {missing} too, in {operation}: so look first at what is sent, and then at replica {replica}, which changes nothing itself. If that is the server, look at "
                    "how it "
                    "adjusts a change for all that the author of the change had not seen. ")
LATER = {True: " {operation} shows it applied, after the arrival in line {line}: perhaps it was held back until then, or its receipt was written too early.",
         False: " But {operation} shows it applied, though nothing was received in between: so it had arrived, and the list shown before was out of date. Is each list that is kept for showing, "
                "such as a cache, made "
                "anew after every change, remote ones too?"}
ELSEWHERE = {True: " Replica {other} has applied {change}, as {operation} shows: so look at replica {replica}.",
             False: " Replica {other} has not applied {change} either, as {operation} shows: so look also at what is sent{server}."}
SEARCH_MISSED = (" If the list is searched by identifiers, print those of the elements that {before} shows: where they do not rise, the search misses. Then look at how the identifier that is out of "
                 "order was made.")
OTHER_DELETE = (" Or that delete hit another element, one that was already deleted there: look at how a replica that applies a delete finds the element (is the "
                "whole id compared?).")
CAME_BEFORE = (" If it arrived before the insert of {elements}, look at the place where deletes wait until their element arrives: a second one must not overwrite the first, and each must be tried "
               "again then.")
WAITED_IN_PART = ("{first} {was} applied at replica {replica}, but not {then}, which {were} made right after that. If your editor sends the deletes of {elements} as one change, it looks as if that "
                  "was "
                  "applied in part: look {past}at what a replica does where one of several elements is gone already, or has not come yet; and, if your editor holds a delete back until its elements "
                  "have arrived, at whether it tries again each time one of these arrives.")
PAST_OTHERS = "first at whether the delete goes on past {others}, which stood between these elements in {before} and which replica {author} had not seen; then "
IN_PART = ("{first} and {then} were made one after the other, and came to replica {replica} together; there {element} was deleted already, by {gone}, and {surplus} "
           "{is_} still shown. If your editor sends both deletes as one change, it looks as if that was applied in part: look at what a replica does where one of "
           "several elements is gone already; it must go on with the others.")
CAME_AGAIN = ("{change} (the insert of {element}) arrived at replica {replica} in line {first}, and once more in line {line}{deleted}. Look at whether the editor passes over what it has received before{by}")
AND_DELETED = ", after {element} had been deleted there, by {delete}"
KNOWN_BY = {True: "; one that throws deleted elements away must still know which changes it has had.", False: "."}
BROUGHT = ("No receipt at replica {replica} names {changes}: {they} as arrived with {brought}, in line {line}. If you record a receipt for each change, "
           "{names} {were} lost, or {brought} overtook {them}.")
NO_RECEIPT = ("It looks as if {changes} {were} applied at replica {replica} without a receipt: the call of `received` is missing, comes "
              "too late, or names another operation.")
WRONG_DELETE = ("It looks as if {delete}, applied at replica {replica}, deleted {missing} instead of {surplus}: look at how a replica that applies a "
                "delete finds the element, and at whether the recorder writes the name of the element that was really deleted.")
WRONG_LOCAL_DELETE = ("It looks as if {delete} deleted {missing} instead of {surplus}: look at how a local delete finds the element, and at whether the recorder writes the name of the element that "
                      "was really deleted.")
RIVALS = (" {missing} and {element} were inserted into one gap without knowing of each other. Which of them comes first must be decided by a rule that never ties and is the same "
          "on client and server (compare the replicas' numbers, for instance, and not the inserted letters, which may be equal); else the delete hits the other one.")
WRONG_POSITION = ("It looks as if {delete}, applied at replica {replica}, deleted {missing} instead of {surplus}: look at how the position of {name} is adjusted there; and at whether the recorder "
                  "writes the name of the element that was really deleted.")
TIED = ("{one} and {two} were inserted at one place without knowing of each other, and are shown in two orders: {one} before {two} in {before}, {two} before {one} in {after}. "
        "Look first at the order of concurrent inserts: it must be decided by a rule that never ties (compare the replicas' numbers, for instance, and not the inserted letters, which may be equal). Where the order "
        "differs, a later "
        "change by position hits another element.")
MISNAMED = ("{deletes} delete{s} {named}; but {wrong}, while {missing}. Look at which ids a local delete puts into the change that it sends{several}.")
NOT_SHOWN = "{element} does not stand in {before}{unknown}"
SEVERAL_IDS = ": where it deletes several, each element has an id of its own, and these need not be consecutive"
MOVED_DELETE = ("If the editor sends positions, the position of {delete} was perhaps not adjusted for {changes}, which the author of {delete} had "
                "not seen{back}.{tie}")
MOVED_BEFORE = ". Or perhaps {element} was put at a wrong place already, in line {line}, by {insert}, whose author had not seen the delete of {other} by {delete}"
ONE_OF_THESE = "one of the changes of replica {replica} that are named above"
UNKNOWN = ("No line inserts {names}. Perhaps the insert was not recorded, or under another name; or the document was not empty at first: then let one replica insert "
           "what was there, and the others receive it.")
REPLACED = ("Replica {replica} showed {missing} in {before}; since then it only received {came}, and nothing that came deletes {missing}. Look at what {came_first} does there: "
            "does an arriving state replace the replica's own, or does the editor take back its own changes when others' arrive?")
VANISHED = "Replica {replica}'s answer in {before} is right, and it has received nothing since. Look at what replica {replica} does between that answer and this one{unrecorded}"
TOO_MUCH = ("It looks as if {deletes}{applied} deleted {missing} along with {theirs}: {missing} stood in {before}, and no delete of {it} has arrived since. Look at where the delete begins, and at "
            "how many elements it deletes.")
NOT_SEEN = " The author of {changes} had not seen {missing}: a delete of a range, by elements or by positions, must leave out what its author had not seen."
SECOND_DELETE = {
    False: "It looks as if {again}{applied} deleted {missing} instead of {element}: look at how a replica that applies a delete finds the element. {element} was already deleted "
           "there, by {first}, so look also at what the editor does with a delete whose element is gone.",
    True: "It looks as if {again}{applied} deleted {missing}. Its own element, {element}, was already deleted there, by {first}: such a delete must change nothing. Look at what the "
          "editor does with it; and at how the position of {name} is adjusted there.",
}
CAUSAL = ("Your editor may be right, but it needs operations in causal order: apply an operation only after everything that its author had seen, or send all of that along with it. If the editor "
          "itself holds operations "
          f"back, write the receipt of each only when it is applied. {GUIDE} shows what to record in each case.")
OVERTAKEN = "Look at the order in which operations arrive: {name} was overtaken, as told above. " + CAUSAL
LOST_OR_OVERTAKEN = ("Look first at whether {name} was lost on its way to replica {replica}: no receipt there names it. If it was not lost but overtaken, "
                     "look at the order in which operations arrive. ") + CAUSAL
LOST_NEIGHBOUR = ("If inserts find their place by a neighbour, look at inserts beside deleted elements: when {element} arrived, {neighbours} "
                  "already deleted there: {gone}. An editor that throws deleted elements away too early finds no place for it, and loses it or "
                  "holds it back for ever.")
OWN_BACK_AGAIN = "When {came} came{line}, {back} came back, which replica {replica} had deleted itself by {delete}{lost}. Look at "
BACK_AGAIN = "When {came} came{line}, {back} came back, which {was} deleted at replica {replica} before, by {delete}, and not shown in {before}{lost}. Look at "
OWN_ON_WAY = ("When {came} came{line}, replica {replica} had changes of its own on their way, which the author of {came} had not seen: {own}.{elsewhere} So perhaps {missing} {was} inserted "
              "rightly, and then removed by {delete}{twice}. Look at ")
SHOWN_ELSEWHERE = " Replica {other} received {same} too, and shows {missing} in {operation}."
TWICE = ", since {other} deletes {element} too"
OWN_GONE = ("Replica {replica} showed its own changes in {before}, and shows them no more: {own}.{came}{unknown} Was the replica's list replaced by a state from elsewhere that lacks them, or were "
            "they taken "
            "back and not applied again? Look also at the store of unconfirmed own changes, and at when they are removed from it.")
CAME_SINCE = " Since then it received {came}."
OWN_UNKNOWN = " No other replica shows that it has them."
SHOWN_AGAIN = ("what applies that: is an element that is marked as deleted shown again, made anew by an insert that arrives a second time, or brought back by a state that "
               "is older than the delete?")
SPLIT = ("what {new} there to the elements beside it: is a run (block) of them split, or made anew, without the mark that they are deleted? Else look for a state that is older than "
         "the delete and takes the place of the replica's own.")
OWN_LOST = ", and {missing} {is_} not there: perhaps that delete now hits {it} instead"
HEALED = "Later replica {other} reads another list in {after} than in {before}, though it received and changed nothing between. Something that is not recorded did that: "
BY_SERVER = ("with a server, perhaps its acknowledgement of the replica's own change. Then server and replica adjust one change differently: look at which changes each of them adjusts it for. "
             "Client and server must adjust in the same way, and each change only once.")
UNRECORDED = {True: "; if there is a server, also at what its acknowledgement of the replica's own change does.",
              False: ": are deleted elements thrown away there, changes that were held back applied, or a copy of the list made anew?"}


def of_contents(evidence: Evidence) -> list:
    if evidence.undelivered:
        return [undelivered(evidence)]
    if misnamed(evidence):
        return misnamed(evidence)
    found = in_response(evidence)
    found += too_much(evidence) or waited_in_part(evidence) if not found else []
    more = unlike_receipts(evidence) if all(cause.name in ("lost neighbour", "applied in part") for cause in found) else []
    more = [*(own_on_way(evidence) if not found else []), *more]
    is_loss_first = is_loss_likelier(evidence, found or more)
    found += more
    found = [*lost(evidence), *found] if is_loss_first else [*found, *lost(evidence)]
    found += brought(evidence, not found)
    unknown = [name for name in evidence.surplus if name not in evidence.recording.inserts]
    itself = vanished(evidence) if not found and not unknown else []
    if itself:
        return [*itself, *lost_apart(evidence)]
    found = first_alone(found)
    found[1:1] = emptied(evidence)
    found += healed(evidence)
    found += replaced(evidence) if not found else []
    found += lost_apart(evidence)
    if unknown:
        found = [Cause("unknown", UNKNOWN.format(names=listed(unknown, MOST_TOLD))), *found]
    these = "If none of these is the cause" if found[1:] else "If that is not the cause"
    last = instead(evidence, any(cause.name == "overtaken" for cause in found))
    return [*found, Cause("arrival", otherwise(these, last) if found else last)]


def first_alone(causes: list) -> list:
    """The causes, of which no second one is to be looked at first."""
    begins = "Look first at whether "
    firsts = [cause for cause in causes if cause.told.startswith(begins)]
    return [cause._replace(told="Look also at whether " + cause.told[len(begins):]) if cause in firsts[1:] else cause for cause in causes]


def in_response(evidence: Evidence) -> list:
    """The causes that an editor of this kind can have, of which the wrong response itself tells."""
    own = own_gone(evidence)
    found = [*own, *came_again(evidence), *([] if own else own_back(evidence)), *applied_twice(evidence), *in_part(evidence), *wrong_delete(evidence, evidence.operations[0]), *second_delete(evidence),
             *overtaken(evidence), *lost_neighbour(evidence)]
    return [cause for cause in found if is_possible(cause.name, evidence.kind)]


def instead(evidence: Evidence, is_overtaken: bool) -> str:
    """Where to look where nothing else is told, or that is not it: of a change of the replica's own that nothing came before, at that itself."""
    operation = evidence.operations[0]
    before, receipts = evidence.before(operation)
    if before and before[0].kind != "view" and not receipts and operation.element and not any(evidence.otherwise) and not evidence.repeated and set(evidence.surplus) <= set(evidence.recording.inserts):
        return LOCAL.format(before=at(before[0]), what="insert" if operation.kind == "ins" else "delete")
    may_be_transport = evidence.unnamed and not is_overtaken
    return ARRIVAL.format(things="three things" if may_be_transport else "two things", transport=TRANSPORT if may_be_transport else "")


def came_again(evidence: Evidence) -> list:
    """Of an element too many, or one that stands twice, whose insert came to the replica a second time, by a receipt of its own each time; of one too many, after a delete."""
    operation, named = evidence.operations[0], {}
    for receipt in evidence.recording.receipts[operation.replica]:
        if receipt.line < operation.line:
            named.setdefault(receipt.seen.key, []).append(receipt.line)
    inserts = [insert for name in (*evidence.repeated, *evidence.surplus) for insert in evidence.recording.inserts.get(name, []) if len(named.get(insert.key, [])) > 1]
    for insert in inserts:
        first, *later = named[insert.key]
        deletes = [delete for delete in evidence.recording.deletes.get(insert.element, []) if operation.has_seen(delete)]
        gone = [delete for delete in deletes if evidence.line_at(delete, operation.replica) < later[-1]]
        if gone or insert.element in evidence.repeated:
            line = next((line for line in later if not gone or evidence.line_at(gone[0], operation.replica) < line), later[-1])
            return [Cause("came again", CAME_AGAIN.format(change=insert.name, element=insert.element, replica=operation.replica, first=first, line=line, by=KNOWN_BY[bool(gone)],
                                                          deleted=AND_DELETED.format(element=insert.element, delete=at(gone[0])) if gone else ""))]
    return []


def applied_twice(evidence: Evidence) -> list:
    """Of elements that the response names more than once."""
    replica = evidence.operations[0].replica
    inserts = [insert for name in evidence.repeated for insert in evidence.recording.inserts.get(name, [])]
    if not inserts:
        return []
    back = OWN_BACK if all(insert.replica == replica for insert in inserts) else ""
    return [Cause("applied twice", APPLIED_TWICE.format(replica=replica, back=back, **changes_told(inserts)))]


def in_part(evidence: Evidence) -> list:
    """Of deletes that came together, of which the first had nothing to delete, and what came behind it was not applied; and none was lost."""
    if evidence.in_part is None:
        return []
    change, other, gone = evidence.in_part
    if (other, evidence.operations[0].replica) in astray(evidence):
        return []
    told = IN_PART.format(first=at(other), then=at(change), replica=evidence.operations[0].replica, element=other.element, gone=at(gone),
                          surplus=listed(evidence.surplus, MOST_TOLD), is_="are" if evidence.surplus[1:] else "is")
    return [Cause("applied in part", told)]


def waited_in_part(evidence: Evidence) -> list:
    """Of deletes that were not applied, though those that their author made directly before them were."""
    left_out, added = evidence.otherwise
    if added or not left_out or any(change.kind != "del" for change in left_out):
        return []
    operation = evidence.operations[0]
    others = [other for other in evidence.made_before(left_out[0]) if other not in left_out and evidence.is_new(other)][::-1]
    if not others or any(change not in evidence.made_before(left_out[-1]) for change in left_out[:-1]):
        return []
    told = WAITED_IN_PART.format(first=listed(list(map(at, others)), MOST_TOLD), was="were" if others[1:] else "was", replica=operation.replica,
                                 then=listed(list(map(at, left_out)), MOST_TOLD), were="were" if left_out[1:] else "was",
                                 elements=listed([change.element for change in others + left_out], MOST_TOLD), past=past_others(evidence, others + left_out))
    return [Cause("applied in part", told)]


def past_others(evidence: Evidence, deletes: list) -> str:
    """What stood between the elements of these deletes in the list before, and was unknown to their author."""
    before = last_whole(evidence, evidence.operations[0])
    names = before.response if before is not None else ()
    places = [names.index(delete.element) for delete in deletes if delete.element in names]
    others = [name for name in names[min(places, default=0):max(places, default=0)] if not any(map(deletes[0].has_seen, evidence.recording.inserts.get(name, [])))]
    return PAST_OTHERS.format(others=listed(others, MOST_TOLD), before=at(before), author=deletes[0].replica) if others else ""


def undelivered(evidence: Evidence) -> Cause:
    """That changes had arrived is said by `delivered` alone: first those whose authors had none of the others. But where the element that is told first is wrong by a later
    one, that one, and then those for which it may be waiting."""
    changes, replica = evidence.undelivered, evidence.operations[0].replica
    about, first = evidence.undelivered_first
    lines = sorted({evidence.recording.arrival(change, replica).line for change in changes})
    written = f"line{'' if len(lines) == 1 else 's'} {listed(list(map(str, lines)), MOST_TOLD)}"
    is_later = about not in first
    first = [change for change in first if about.has_seen(change)] if is_later else first
    others = [change for change in changes if change not in first and not (is_later and change is about)]
    names = listed([change.name for change in first], MOST_TOLD)
    is_own = [change.replica for change in first] == [about.replica]
    is_shown = all(change.element in (evidence.missing if change.kind == "ins" else evidence.surplus) for change in first)
    before = WAITS_FOR.format(change=about.name, first=changes_told(first)["changes"], which="an earlier change by the same author" if is_own else "which its author already had", names=names,
                              lacking=LACKING[is_shown].format(names=names, replica=replica, were="were" if first[1:] else "was")) if is_later else ""
    waiting = (SAID_TOO[len(others) == 1] if is_later else WAITING).format(others=changes_told(others)["changes"], names=names) if others else ""
    told = UNDELIVERED.format(lines=written, replica=replica, before=before, waiting=waiting, names=names,
                              **{**changes_told(first), "changes": changes_told([about] if is_later else first)["changes"]})
    gone = [delete for delete in evidence.deleted_beside(first[0], replica) if delete not in changes]
    if not gone:
        return Cause("not delivered", told)
    neighbours = joined([f"{delete.element} was already deleted there by {at(delete)}" for delete in gone])
    return Cause("not delivered, no place", told + NO_PLACE.format(insert=first[0].name, element=first[0].element, neighbours=neighbours))


def is_loss_likelier(evidence: Evidence, causes: list) -> bool:
    """Whether a change that may have been lost is told before the causes that lie in the response itself: unless one of these is as sure."""
    names, operation = {cause.name for cause in causes}, evidence.operations[0]
    is_told = "overtaken" in names and evidence.kind != POSITIONS and causes[0].name == "overtaken"  # that what is missing itself was lost
    return any(evidence.recording.arrival(change, replica).line <= operation.line and not is_told or "overtaken" not in names and (
        "not applied" not in names or replica == operation.replica) for change, replica in astray(evidence)[:1])


def brought(evidence: Evidence, is_only: bool) -> list:
    """Of changes that the response ought to show, and that came with a later one of their author without receipts of their own; but where one
    is told as overtaken or lost. Those that have none anywhere may travel with the next one, and are told where this is the only cause."""
    came, replica = {}, evidence.operations[0].replica
    told = [change for change, _ in evidence.overtakings] + [change for change, other in evidence.unreceived[:1] if other == replica]
    for change in evidence.unnamed if not told else []:
        if not is_only and not evidence.recording.may_travel_alone(change, replica):
            continue
        came.setdefault(evidence.recording.arrival(change, replica), []).append(change)
    return [Cause("brought", BROUGHT.format(replica=receipt.replica, brought=receipt.seen.name, line=receipt.line, them="them" if changes[1:] else "it",
                                            they="they count" if changes[1:] else "it counts",
                                            names=listed([change.name for change in changes], MOST_TOLD), **changes_told(changes)))
            for receipt, changes in list(came.items())[:1]]


def unlike_receipts(evidence: Evidence) -> list:
    """With which changes more or less the response would be right; but not with both, which is no single fault."""
    left_out, added = evidence.otherwise
    if left_out and added:
        return []
    replica = evidence.operations[0].replica
    waited = waited_in_part(evidence) if evidence.in_part is None else []
    is_lost = any(change in left_out and other == replica for change, other in evidence.unreceived)
    return tied_first([Cause(name, look.format(replica=replica, received="" if is_lost else RECEIVED_EARLY, other=other_than(evidence, changes) if not waited else "",
                                         elsewhere=elsewhere(evidence, changes[0]) if not waited and evidence.in_part is None else "",
                                         later=later(evidence, changes), **changes_told(changes)))
            for name, look, changes in (("not applied", NOT_APPLIED, left_out), ("no receipt", NO_RECEIPT, added)) if changes] + [
                one for change in left_out[:1] if len(left_out) == 1 for one in moved_delete(evidence, change)])


def other_than(evidence: Evidence, changes: list) -> str:
    """What else may have become of changes that were not applied: deletes whose elements came no sooner than they, which a search by identifiers missed, or one that hit
    what was deleted already. In an editor that sends positions none of these can be."""
    if evidence.kind == POSITIONS or any(change.kind != "del" for change in changes):
        return ""
    before = last_whole(evidence, evidence.operations[0])
    is_searched = evidence.kind == IDENTIFIERS and before is not None and all(change.element in before.response for change in changes)
    missed = SEARCH_MISSED.format(before=at(before)) if is_searched else ""
    return missed + other_delete(evidence, changes)


def other_delete(evidence: Evidence, changes: list) -> str:
    """The same, but for a search by identifiers."""
    if all(any(map(evidence.is_new, evidence.recording.inserts.get(change.element, []))) for change in changes):
        return CAME_BEFORE.format(elements=listed([change.element for change in changes], MOST_TOLD))
    return OTHER_DELETE if len(changes) == 1 and was_deleted_before(evidence, changes[0]) else ""


def later(evidence: Evidence, changes: list) -> str:
    """That the replica shows a single change later as applied, and whether something else came to it until then."""
    operation = evidence.operations[0]
    if changes[1:] or evidence.healed is not None and evidence.healed[1].replica == operation.replica:
        return ""
    change = changes[0]
    shown = next((one for one in evidence.recording.streams[operation.replica][operation.n:] if one.kind != "view" and one.element != change.element and one.has_seen(change)
                  and (change.element in one.response) == (change.kind == "ins")), None)
    others = [one for one in evidence.recording.deletes.get(change.element, []) if one is not change]  # one of these may have done it
    if shown is None or any(map(shown.has_seen, others)):
        return ""
    came = [receipt for receipt in evidence.recording.receipts[operation.replica] if operation.line < receipt.line < shown.line]
    return LATER[bool(came)].format(operation=at(shown), line=came[-1].line if came else 0)


def kept_back(evidence: Evidence, change: Operation) -> str:
    """Where changes carry positions, what the author of a change received between making it and its first arrival elsewhere, for which it had to adjust it."""
    arrivals = [evidence.recording.arrival(change, replica) for replica in range(evidence.recording.replicas) if replica != change.replica]
    first = min((arrival.line for arrival in filter(None, arrivals)), default=0)
    came = [receipt for receipt in evidence.recording.receipts[change.replica] if change.line < receipt.line < first and not receipt.seen.has_seen(change)]
    return KEPT_BACK.format(change=change.name, first=first, author=change.replica, line=came[0].line,
                            came=listed([f"{receipt.seen.name} (line {receipt.line})" for receipt in came], MOST_TOLD)) + OWN_ADJUSTED if came and evidence.kind == POSITIONS else ""


def elsewhere(evidence: Evidence, change: Operation) -> str:
    """What a third replica shows of a change: whether it was applied there too, first where it was not."""
    replica, told = evidence.operations[0].replica, {}
    for stream in evidence.recording.streams:
        for one in stream:
            is_third = one.replica not in (change.replica, replica) and one.kind != "view" and one.has_seen(change)
            is_open = is_third and (change.kind == "del" or not any(map(one.has_seen, evidence.recording.deletes.get(change.element, []))))
            if is_open:
                told.setdefault((change.element in one.response) == (change.kind == "ins"), one)
    is_applied = False not in told
    return ELSEWHERE[is_applied].format(other=told[is_applied].replica, change=change.name, operation=at(told[is_applied]), replica=replica,
                                        server="" if evidence.kind not in ("", POSITIONS) else ", and at what the server (if it adjusts positions) makes of that") + (
                                            kept_back(evidence, change) if not is_applied else "") if told else ""


def was_deleted_before(evidence: Evidence, delete: Operation) -> bool:
    """Whether some other element had been deleted at the replica when this delete arrived there: a delete of that one changes nothing."""
    operation = evidence.operations[0]
    others = [one for deletes in evidence.recording.deletes.values() for one in deletes if one.element != delete.element]
    return any(operation.has_seen(one) for one in others)


def moved_delete(evidence: Evidence, delete: Operation) -> list:
    """Over which changes a delete has to be moved that arrived for wrong contents; and, of its element, over which insert that one was."""
    receipt = evidence.recording.arrival(delete, evidence.operations[0].replica)
    unknown = not_behind(evidence.recording, delete, receipt, met(evidence.recording, delete, receipt)) if delete.kind == "del" and receipt is not None else []
    if not unknown:
        return []
    others = [other.element for insert in evidence.recording.inserts.get(delete.element, [])[:1]
              for other in put_there_at_once(evidence.recording, insert, receipt)]
    tied = [Cause("concurrent", TIED.format(one=delete.element, two=other, before=at(orders[0]), after=at(orders[1])))
            for other in others[:MOST_TOLD] if all(orders := shown_in_orders(evidence, delete.element, other, other in evidence.missing))]
    others = [other for other in sorted(others, key=lambda other: other not in evidence.missing) if not tied and not is_agreed(evidence, delete.element, other, {delete.replica, receipt.replica})]
    before = met_before(evidence.recording, delete, receipt)
    back = MOVED_BEFORE.format(element=before[0].element, insert=before[0].name, line=before[1].line, other=before[2].element, delete=at(before[2])) if before else ""
    changes = ONE_OF_THESE.format(replica=receipt.replica) if is_told(evidence, receipt, unknown) else named(unknown)
    return [*tied[:1], Cause("positions", MOVED_DELETE.format(delete=delete.name, changes=changes, back=back, tie=at_once(delete.element, others) if others else ""))]


def is_told(evidence: Evidence, receipt: Receipt, changes: list) -> bool:
    """Whether these changes, several, are among those that are told as on their way where the delete came."""
    return evidence.kind == POSITIONS and len(changes) > 1 and not may_be_server(evidence, receipt.replica) and set(changes) <= set(evidence.on_their_way(receipt))


def tied_first(causes: list) -> list:
    """First of all that two elements are shown in two orders already: what follows from it comes behind."""
    return sorted(causes, key=lambda cause: cause.name != "concurrent")


def wrong_delete(evidence: Evidence, operation: Operation) -> list:
    """Of a response that lacks one element, which nothing deletes and which was there before, and has one that was deleted for it since its
    replica's response before, which was right; but views, which may leave out any. What it lacks came before that delete, or where changes carry positions, its author had it."""
    if evidence.repeated or len(evidence.missing) != 1 or len(evidence.surplus) != 1:
        return []
    (missing,), (surplus,) = evidence.missing, evidence.surplus
    inserts, deletes = evidence.recording.inserts.get(surplus, []), evidence.recording.deletes.get(surplus, [])
    before = [one for one in evidence.recording.streams[operation.replica][:operation.n - 1] if one.kind != "view"][-1:]
    news = [delete for delete in deletes if operation.has_seen(delete) and not any(one.has_seen(delete) for one in before)]
    is_new = before and any(evidence.is_new(insert) and evidence.line_at(insert, operation.replica) >= evidence.line_at(delete, operation.replica)
                            and not (evidence.kind == POSITIONS and delete.has_seen(insert))
                            for insert in evidence.recording.inserts[missing] for delete in news[:1])
    earlier = [one for one in evidence.recording.deletes.get(missing, []) if one.line < operation.line]
    is_deleted = earlier and not all(evidence.otherwise)  # by what no receipt brings, and that alone tells it
    if is_deleted or not news or is_new or not any(map(operation.has_seen, inserts)):
        return []
    look = WRONG_LOCAL_DELETE if news[0] is operation else WRONG_POSITION if evidence.kind == POSITIONS else WRONG_DELETE
    told = with_others(evidence, news[0], [missing], look.format(delete=at(news[0]), name=news[0].name, replica=operation.replica, missing=missing, surplus=surplus) + rivals(evidence, news[0], missing))
    counted_twice = deleted_twice(evidence) if news[0] is operation else []
    return tied_first([Cause("wrong delete", told), *counted_twice, *moved_delete(evidence, news[0])])


def arrival_of(evidence: Evidence, change: Operation) -> Receipt | None:
    """The receipt that brought a change to the replica of the wrong response; none of its own."""
    replica = evidence.operations[0].replica
    return evidence.recording.arrival(change, replica) if change.replica != replica else None


def rivals(evidence: Evidence, delete: Operation, missing: str) -> str:
    """Where changes carry positions, that a delete seems to have hit what was inserted at the place of its own element, neither author knowing of the other's."""
    receipt = arrival_of(evidence, delete)
    inserts = evidence.recording.inserts.get(delete.element, [])[:1] if evidence.kind == POSITIONS and receipt else []
    found = [other.element for insert in inserts for other in put_there_at_once(evidence.recording, insert, receipt)]
    return RIVALS.format(missing=missing, element=delete.element) if missing in found else ""


def lacked_elsewhere(evidence: Evidence, delete: Operation, missing: list) -> str:
    """That a third replica which has a delete lacks the same elements, though it has their inserts and no delete of them, nor any that the replica had on its way then: then the
    delete came wrong to both."""
    replica, recording = evidence.operations[0].replica, evidence.recording
    arrival = arrival_of(evidence, delete)
    own = [change for change in evidence.on_their_way(arrival) if change.kind == "del"] if arrival else []
    for stream in recording.streams:
        for one in stream:
            is_third = one.replica not in (delete.replica, replica) and one.kind != "view" and one.has_seen(delete) and not set(missing) & set(one.response) and not any(map(one.has_seen, own))
            if is_third and all(any(map(one.has_seen, recording.inserts.get(name, []))) and not any(map(one.has_seen, recording.deletes.get(name, []))) for name in missing):
                words = LACKED_AT_SERVER if may_be_server(evidence, replica) else LACKED_ELSEWHERE
                return words.format(other=one.replica, missing=listed(missing, MOST_TOLD), operation=at(one), replica=replica,
                                    server="" if evidence.kind not in ("", POSITIONS) else ", and at what the server (if it adjusts positions) makes of that")
    return ""


def with_others(evidence: Evidence, delete: Operation, missing: list, told: str) -> str:
    """The words on a delete that seems to have deleted something else, behind what a third replica shows; else, where changes carry positions, before what was on its way where it came."""
    arrival = arrival_of(evidence, delete)
    elsewhere = lacked_elsewhere(evidence, delete, missing) if arrival else ""
    return elsewhere + told if elsewhere or not arrival or evidence.kind != POSITIONS else f"{told} {on_way_then(evidence, arrival)}".rstrip()


def misnamed(evidence: Evidence) -> list:
    """Of a delete after which other elements are gone than it names, or than the deletes that its replica made directly before it, and nothing has
    come since: it names what stood there nowhere, or several deletes name what is still shown."""
    operation = evidence.operations[0]
    before, receipts = evidence.before(operation)
    if operation.kind != "del" or not before or before[0].kind == "view" or receipts or not evidence.missing or evidence.repeated:
        return []
    others = evidence.made_before(operation)[::-1]
    deletes = [*others, operation]
    named = [delete.element for delete in deletes]
    wrong = [NOT_SHOWN.format(element=operation.element, before=at(before[0]), unknown="" if operation.element in evidence.recording.inserts else " and no line inserts it")
             ] if operation.element not in before[0].response else []
    if not wrong and not (others and evidence.surplus and set(evidence.surplus) <= set(named)):
        return []
    shown = [f"{listed(evidence.surplus, MOST_TOLD)} {'are' if evidence.surplus[1:] else 'is'} still shown"] if evidence.surplus and not wrong else []
    gone = f"{listed(evidence.missing, MOST_TOLD)} {'are' if evidence.missing[1:] else 'is'} gone"
    told = deletes if shown else [operation]
    return [Cause("misnamed", MISNAMED.format(deletes=listed(list(map(at, told)), MOST_TOLD), s="" if told[1:] else "s", named=listed([delete.element for delete in told], MOST_TOLD),
                                              wrong=(wrong or shown)[0], missing=gone, several=SEVERAL_IDS if others else ""))]


def too_much(evidence: Evidence) -> list:
    """Of a response that lacks what was there before, and has nothing that should not be there, where a delete came since, or is the response's own."""
    operation = evidence.operations[0]
    before = last_whole(evidence, operation)
    if before is None or evidence.repeated or evidence.surplus or not evidence.missing or not set(evidence.missing) <= set(before.response):
        return []
    deletes = [change for change in evidence.came_between(before, operation) if change.kind == "del"]
    deletes += [operation] if operation.kind == "del" else []
    unseen = [delete for name in evidence.missing for delete in evidence.recording.deletes.get(name, []) if delete.line < operation.line]
    if not deletes or unseen:
        return []
    applied = "" if deletes == [operation] else f", applied at replica {operation.replica},"
    told = TOO_MUCH.format(deletes=listed(list(map(at, deletes)), MOST_TOLD), applied=applied, missing=listed(evidence.missing, MOST_TOLD),
                           before=at(before), it="them" if evidence.missing[1:] else "it", theirs=listed(list(dict.fromkeys(delete.element for delete in deletes)), MOST_TOLD))
    inserts = [insert for name in evidence.missing for insert in evidence.recording.inserts[name]]
    is_unseen = deletes[1:] and len({delete.replica for delete in deletes}) == 1 and not any(delete.has_seen(insert) for delete in deletes for insert in inserts)
    return [Cause("too much", told + (NOT_SEEN.format(changes=listed([delete.name for delete in deletes], MOST_TOLD), missing=listed(evidence.missing, MOST_TOLD)) if is_unseen else ""))]


def own_back(evidence: Evidence) -> list:
    """Of a response that shows again what was deleted at its replica, and was not shown before, where changes have come since: what it had deleted itself, or, where changes may
    name elements, what others had."""
    operation = evidence.operations[0]
    before = last_whole(evidence, operation)
    came = evidence.came_between(before, operation) if before is not None else []
    gone = [[delete for delete in evidence.recording.deletes.get(name, []) if before is not None and before.has_seen(delete) and name not in before.response] for name in evidence.surplus]
    if not came or not all(gone) or not gone or evidence.repeated:
        return []
    deletes = [next((delete for delete in some if delete.replica == operation.replica), some[0]) for some in gone]
    is_own = all(delete.replica == operation.replica for delete in deletes)
    if not is_own and evidence.kind == POSITIONS:
        return []
    is_one = not evidence.missing[1:]
    arrival = evidence.recording.arrival(came[0], operation.replica) if not came[1:] else None
    line = f" in line {arrival.line}" if arrival is not None else ""
    lost = OWN_LOST.format(missing=listed(evidence.missing, MOST_TOLD), is_="is" if is_one else "are", it=evidence.missing[0] if is_one else "one of these") if evidence.missing else ""
    words = OWN_BACK_AGAIN if is_own else BACK_AGAIN
    return [Cause("own back", words.format(came=named(came), back=listed(evidence.surplus, MOST_TOLD), replica=operation.replica, was="were" if evidence.surplus[1:] else "was", before=at(before),
                                           delete=listed(list(dict.fromkeys(map(at, deletes))), MOST_TOLD), lost=lost, line=line) + look_of_back(evidence, came, is_own))]


def look_of_back(evidence: Evidence, came: list, is_own: bool) -> str:
    """Where to look when an element came back: by the kind of the editor, and by whether what came changes others."""
    if is_own and is_possible("positions", evidence.kind):
        return OWN_ADJUSTED
    shown = evidence.operations[0].response
    beside = {name for place, name in enumerate(shown) if {*shown[max(place - 1, 0):place + 2]} & {*evidence.surplus}}
    others = [change for change in came if change.element not in evidence.surplus and (change.kind == "del" or change.element in beside)]
    if not others:
        return SHOWN_AGAIN
    one = f"the {'insert' if others[0].kind == 'ins' else 'delete'} of {others[0].element} does"
    return SPLIT.format(new="each of these changes does" if others[1:] else one)


def own_on_way(evidence: Evidence) -> list:
    """Where changes carry positions, of a response that lacks what another replica shows that has it, where deletes of the replica's own had not
    been seen by the author of what came last."""
    operation = evidence.operations[0]
    before = last_whole(evidence, operation)
    came = evidence.came_between(before, operation) if before is not None else []
    if evidence.kind != POSITIONS or not came or not evidence.missing or evidence.surplus or evidence.repeated:
        return []
    arrival = evidence.recording.arrival(came[-1], operation.replica)
    own = evidence.on_their_way(arrival)
    deletes = [change for change in own if change.kind == "del"]
    inserts = [evidence.recording.inserts[name][0] for name in evidence.missing]
    if not deletes or any(insert.replica == operation.replica for insert in inserts):
        return []
    shown = next((one for stream in evidence.recording.streams for one in stream if one.replica not in (operation.replica, came[-1].replica) and one.has_seen(came[-1])
                  and set(evidence.missing) <= set(one.response)), None)
    elsewhere = SHOWN_ELSEWHERE.format(other=shown.replica, same=came[-1].name, missing=listed(evidence.missing, MOST_TOLD), operation=at(shown)) if shown else ""
    both = next(((delete, other) for delete in deletes for other in came if other.kind == "del" and other.element == delete.element), None)
    is_one = not evidence.missing[1:]
    return [Cause("own on way", OWN_ON_WAY.format(
        came=came[-1].name, line=f" in line {arrival.line}", replica=operation.replica, own=named(own), elsewhere=elsewhere, missing=listed(evidence.missing, MOST_TOLD),
        was="was" if is_one else "were", delete="one of these deletes" if deletes[1:] else f"the delete of {deletes[0].element}", twice=TWICE.format(element=both[0].element, other=at(both[1])) if both else "") + OWN_ADJUSTED)]


def last_whole(evidence: Evidence, operation: Operation) -> Operation | None:
    """The replica's operation before this one that answered the whole list, if there is one."""
    return next((one for one in reversed(evidence.recording.streams[operation.replica][:operation.n - 1]) if one.kind != "view"), None)


def own_gone(evidence: Evidence) -> list:
    """Of a response that lacks inserts of its replica's own which it had shown, and has again what it had deleted itself, several changes in all, and
    nothing else is wrong, though no delete has come since."""
    operation = evidence.operations[0]
    before = last_whole(evidence, operation)
    if before is None or not evidence.missing or evidence.repeated or operation.element:
        return []
    inserts = [insert for name in evidence.missing for insert in evidence.recording.inserts[name]]
    deletes = [delete for name in evidence.surplus for delete in evidence.recording.deletes.get(name, []) if operation.has_seen(delete)]
    own = sorted([*inserts, *deletes], key=lambda change: change.line)
    came = evidence.came_between(before, operation)
    is_own = len(own) > 1 and all(change.replica == operation.replica for change in own) and len(deletes) == len(evidence.surplus) and set(evidence.missing) <= set(before.response)
    if not is_own or any(change.kind == "del" for change in came) or set(evidence.surplus) & set(before.response):
        return []
    others = [one for stream in evidence.recording.streams for one in stream if one.replica != operation.replica]
    is_unknown = not any(one.has_seen(change) for one in others for change in own)
    return [Cause("own gone", OWN_GONE.format(replica=operation.replica, before=at(before), own=named(own), unknown=OWN_UNKNOWN if is_unknown else "",
                                              came=CAME_SINCE.format(came=named(came)) if came else ""))]


def healed(evidence: Evidence) -> list:
    """That some replica reads another list than before, and has received nothing between, later than the wrong response."""
    if evidence.healed is None:
        return []
    before, after = evidence.healed
    return [Cause("healed", HEALED.format(other=after.replica, before=at(before), after=at(after)) + unrecorded(evidence))]


def unrecorded(evidence: Evidence) -> str:
    """What may change a list though nothing came."""
    return BY_SERVER if is_possible("positions", evidence.kind) else BY_ITSELF


def vanished(evidence: Evidence) -> list:
    """Of a read whose replica answered right before, and has received nothing since, where no receipt is missing that tells it all."""
    operation = evidence.operations[0]
    before, receipts = evidence.before(operation)
    if not before or before[0].kind == "view" or receipts or operation.kind != "read" or evidence.otherwise[1]:
        return []
    return [Cause("vanished", VANISHED.format(replica=operation.replica, before=at(before[0]), unrecorded=UNRECORDED[is_possible("positions", evidence.kind)]))]


def replaced(evidence: Evidence) -> list:
    """Of a response that lacks what its replica showed before, and has nothing that should not be there, where changes have come since, and no
    delete among them."""
    operation = evidence.operations[0]
    before = last_whole(evidence, operation)
    if before is None or evidence.surplus or not evidence.missing or not set(evidence.missing) <= set(before.response) or operation.kind != "read":
        return []
    came = evidence.came_between(before, operation)
    if not came or any(change.kind == "del" for change in came):
        return []
    return [Cause("replaced", REPLACED.format(replica=operation.replica, missing=listed(evidence.missing, MOST_TOLD), before=at(before), came=named(came),
                                              it="them" if evidence.missing[1:] else "it", came_first=came[-1].name))]


def second_delete(evidence: Evidence) -> list:
    found = evidence.second_deletes[:1]
    replica = evidence.operations[0].replica
    return [Cause("second delete", with_others(evidence, again, evidence.lost, SECOND_DELETE[evidence.kind == POSITIONS].format(
        again=at(again), name=again.name, element=again.element, first=at(first), missing=listed(evidence.lost, MOST_TOLD), applied="" if again.replica == replica else f", applied at replica {replica},")))
            for again, first in found] + [one for again, _ in found for one in moved_delete(evidence, again) if one.name == "positions"]


def overtaken(evidence: Evidence) -> list:
    """Of something that the response had or lacked wrongly: whether a later operation brought it before it came by itself, or it was lost."""
    return [Cause("overtaken", (OVERTAKEN if found.own and found.own.seen is change else LOST_OR_OVERTAKEN).format(
        name=change.name, replica=found.brought.replica)) for change, found in evidence.overtakings[:1]]


def lost_neighbour(evidence: Evidence) -> list:
    """Of an insert that the replica has shown nowhere since it came, and whose neighbour was deleted there, where neither was overtaken."""
    overtaken_ones = {change.element for change, _ in evidence.overtakings}
    lost = [(arrival.insert.element, deletes) for arrival, deletes in evidence.lost_neighbours if arrival.insert.element in evidence.missing
            and not evidence.was_shown_since(arrival) and not overtaken_ones.intersection([arrival.insert.element, *(delete.element for delete in deletes)])]
    return [Cause("lost neighbour", LOST_NEIGHBOUR.format(element=element, neighbours="its neighbours were" if deletes[1:] else "its neighbour was",
                                                          gone=listed([f"{delete.element} (by {delete.name}, line {delete.line})" for delete in deletes], MOST_TOLD))) for element, deletes in lost[:1]]
