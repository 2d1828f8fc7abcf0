"""What a verdict means for its trace, in words: a headline, and sections of lines.

A name in brackets is one of the names that the verdict is about; names themselves have no brackets."""
from __future__ import annotations

import re
from typing import NamedTuple

from . import debuggers
from .cause import ALONE, Cause, astray, otherwise
from .causes import causes_of
from .evidence import MOST_ARRIVED, Evidence
from .kinds import POSITIONS, TREE
from .programs import WEAK_ALONE, is_weak_alone
from .recordings import Operation, Receipt, Recording, place_asked
from .telling import FIRST_STEPS, at, counted, did, joined, listed, marked

CODE, LOG, NOTED = "In your code", "In your log", "Your notes"  # titles: places of code or of a log; the user's words
HIDDEN = "What this verdict may hide"  # the title of the section of warnings, the first one
WHERE = "Where to look"  # that of the likely causes
WHERE_OF_STRONG = "Where to look, if you need the strong one to hold as well"  # where weak alone is asked for
REFUSED_FIRST = "Look first at the call that was refused (see above): what it was to record is not in the trace."
AROUND = "a circle, which no order allows"
DELIVERED = "the call `delivered`"
SAYS_ALL = ", which says that everything has arrived everywhere"  # where the call is named first
LINE = re.compile(r"\bline (\d+)(?=[,):]| of the trace,| \(\d+ recv )")  # of the trace, in words; and not two names, `line` and a number


class Section(NamedTuple):
    title: str
    lines: list


class Explanation(NamedTuple):
    headline: str
    sections: list
    causes: tuple = ()  # names of the causes that it tells


def explanation(evidence: Evidence, told: Evidence, language: str = debuggers.USUAL, weak: bool = False) -> Explanation:
    """The words on a verdict, told by the shortest beginning of the trace that has a fault or is refused, or by all of it. With `weak`,
    where the weak list specification alone is asked for, they begin with it that this holds, if strong doesn't."""
    tell = {"accepted": accepted, "refused": refused, "doubled": doubled, "contents": contents, "position": position}
    headline, sections = tell[told.report["verdict"]](told)
    causes = causes_of(told, weak)
    alone = [cause for cause in causes if cause.name == ALONE and not weak and is_weak_alone(evidence.report)]
    others = [*(cause for cause in causes if cause.name != ALONE), *of_whole(evidence, told)]
    in_order = [*alone, *others] if evidence.kind in ("", POSITIONS) else [*others, *alone]
    passes = weak and is_weak_alone(evidence.report)
    where = [Section(WHERE_OF_STRONG if passes else WHERE, [cause.told for cause in in_order])] if causes else []
    whole = whole_trace(evidence, told)
    is_alike = verdict_of(evidence.report) == verdict_of(told.report)  # then more responses would tell nothing new
    if whole:
        more = "the same verdict" if is_alike else f"another verdict, {verdict_of(evidence.report)}, which is explained below"
        first = f"Lines 1 to {told.last_line} are enough to show it." if is_alike else f"This fault comes first, in lines 1 to {told.last_line}: start with it."
        headline += f" {first} The whole trace has {more}." if not passes else (
            f" Strong holds up to line {told.last_line - 1}; all below is about lines 1 to {told.last_line}{'' if is_alike else f'; the whole trace is {verdict_of(evidence.report)}'}.")
    if passes:
        headline = f"{WEAK_ALONE}: this passes, since only the weak list specification is asked for. Nothing needs mending. Why the strong one fails: {headline}"
    sections = with_delivered([*when_it_went_wrong(evidence, told, weak), *without_receipts(told), *sections, *where,
                               *in_a_debugger(told, language, causes), *([] if is_alike else whole), specifications(evidence.report, bool(whole))])
    return Explanation(headline, sections, tuple(cause.name for cause in causes))


def with_delivered(sections: list) -> list:
    """The sections, with what the call `delivered` says where it is named first; but where that is said there already."""
    for place, section in enumerate(sections):
        for number, line in enumerate(section.lines):
            before, named, behind = line.partition(DELIVERED)
            if named:
                said = "" if behind.startswith(" (") else SAYS_ALL
                lines = [*section.lines[:number], f"{before}{named}{said}{behind}", *section.lines[number + 1:]]
                return [*sections[:place], section._replace(lines=lines), *sections[place + 1:]]
    return sections


def of_whole(evidence: Evidence, told: Evidence) -> list:
    """Where a beginning is refused for more than two responses, and the whole trace for two, also where to look at these: an open
    contradiction shows more."""
    if not evidence.report.get("k") == 2 < told.report.get("k", 0):
        return []
    return [Cause(cause.name, otherwise("For the verdict on the whole trace", cause.told)) for cause in causes_of(evidence)
            if cause.name != "beside deleted"]  # which speaks of lines above


def specifications(report: dict, is_of_whole: bool) -> Section:
    """What the verdict says by definition, which a user need not know to mend the editor; where all before is of a beginning, of what this is."""
    holds = {True: "holds", False: "fails"}
    if "strong" not in report:
        told = "neither the strong nor the weak one was judged, since two elements have one name"
    elif report["strong"] == report["weak"]:
        told = f"strong and weak {'hold' if report['strong'] else 'fail'}"
    else:
        told = f"strong {holds[report['strong']]}, weak {holds[report['weak']]}"
    return Section("The list specifications", ["for the whole trace: " * is_of_whole + told])


def verdict_of(report: dict) -> str:
    """The verdict as the program's report has it: with its number, or the operations that it names."""
    about = [str(report[key]) for key in ("k", "at", "first", "again") if key in report]
    return f"`{' '.join([report['verdict'], *about])}`"


def when_it_went_wrong(evidence: Evidence, told: Evidence, weak: bool) -> list:
    """With which line the session went wrong, where that is not the last one that the verdict on the whole trace names, or is followed by
    others; or with which one strong came to fail, where that is nothing wrong."""
    last = told.last_line
    named = max((operation.line for operation in evidence.operations), default=0)
    if told.report["verdict"] == "accepted" or last >= (len(evidence.recording.lines) if told.report["verdict"] == "refused" else named):
        return []
    entry = evidence.recording.entries[last - evidence.recording.entries[0].line]
    verdict = verdict_of(told.report)
    is_alone = weak and is_weak_alone(evidence.report)
    before = "the weak specification holds" if weak and not is_alone else "the session is accepted"
    lines = [f"{did(entry, is_first=True)}. Up to line {last - 1} {before}; with line {last} the verdict is {verdict}"]
    if told.report["verdict"] == "refused":
        still = "which agrees with all responses up to then" if weak and not is_alone else "which fits"
        is_refused = evidence.report["verdict"] == "refused"  # else what is shown in the end is wrong by itself
        lines += [since(told, entry, still), *(in_the_end(evidence.recording, told.elements) if is_refused and not told.unreceived else [])]
    else:
        lines.append(f"the first {last} lines are enough to show it (`head -{last}`)")
    went = "When it showed" if told.report["verdict"] == "refused" else "When it went wrong"  # which of two responses is wrong, nothing says
    return [Section("When strong came to fail" if is_alone else went, lines)]


def whole_trace(evidence: Evidence, told: Evidence) -> list:
    """What the program's report on the whole trace is about, where that is something else."""
    if evidence is told or evidence.report == told.report or evidence.report.get("steps", 0) == told.report.get("steps", 1):
        return []
    if evidence.report["verdict"] == "refused":
        return [Section(f"What the whole trace shows: {AROUND}", shown_by(evidence, False))]
    if all(evidence.report.get(key) == told.report.get(key) for key in ("verdict", "at", "first", "again")):
        return []
    wrong = f": {what_is_wrong(evidence, evidence.operations[0])}" if evidence.report["verdict"] == "contents" else ""
    lines = [f"{did(operation)}, answered {answer(evidence, operation)}{wrong}" for operation in evidence.operations]
    if evidence.missing:
        lines.append(f"it lacks {listed(evidence.missing, MOST_ARRIVED)}" + (f", and has {listed(evidence.surplus, MOST_ARRIVED)}" if evidence.surplus else ""))
    return [Section("What the verdict on the whole trace is about", lines + [cause.told for cause in causes_of(evidence)[:1] if evidence.report["verdict"] == "doubled"])]


def in_a_debugger(told: Evidence, language: str, causes: list) -> list:
    entry, others = debuggers.stop_of(told)
    if not entry:
        return []
    (change, replica), *_ = astray(told) if causes[0].name == "lost" else [(None, None)]
    told_of = debuggers.followed(change, replica) if change else debuggers.told(told, entry, others)
    return [Section(debuggers.TITLE, [told_of, *debuggers.statement(told.recording, change or entry, language)])]


def without_receipts(evidence: Evidence) -> list:
    """What a new recorder forgets first: of several replicas that did something, none has heard of another."""
    recording = evidence.recording
    if evidence.report["verdict"] == "accepted" or any(recording.receipts) or sum(map(bool, recording.streams)) < 2:
        return []
    return [Section("First of all", ["this trace has no recv line: `received` was never called, so no replica has heard of another; call it after each change that is applied"])]


def with_warnings(told: Explanation, warnings: list, refused: tuple = ()) -> Explanation:
    """The explanation, and before all else what the verdict may hide, where there is something; and where to look, that calls were refused."""
    if not warnings:
        return told
    number = sum(int(more[1]) if (more := re.match(r"and (\d+) more ", warning)) else 1 for warning in warnings)
    count = "a warning" if number == 1 else f"{counted(number)} warnings"
    headline = re.sub(rf"^(accepted|{WEAK_ALONE}): ", rf"\1, with {count}: ", told.headline)
    sections = [section._replace(lines=[REFUSED_FIRST] * bool(refused) + section.lines) if section.title == WHERE else section for section in told.sections]
    return told._replace(headline=headline, sections=[Section(HIDDEN, warnings), *sections])


def text_of(told: Explanation) -> str:
    """The explanation as lines for a terminal."""
    lines = [told.headline]
    for section in told.sections:
        lines += ["", section.title, *("  " + line for line in section.lines)]
    return "".join(line + "\n" for line in lines)


def accepted(evidence: Evidence) -> tuple:
    report = evidence.report
    order = " ".join(report["order"]) or "(there are no elements)"
    said = {0: "there was no response to judge", 1: "the only response fits one order of the elements", 2: "both responses fit one order of the elements"}
    return (f"accepted: {said.get(report['operations'], 'all ' + str(report['operations']) + ' responses fit one order of the elements')}.",
            [Section("One order that fits all responses (deleted elements included)", [order])])


def refused(evidence: Evidence) -> tuple:
    k = evidence.report["k"]
    fewer = "" if k == 2 else f" Any {counted(k - 1)} of them can."
    return (f"refused {k}: {counted(k)} responses can't be right together.{fewer}",
            [Section(f"What these responses show: {AROUND}", shown_by(evidence, evidence.last_line == len(evidence.recording.lines))),
             Section("The elements", elements(evidence))])


def shown_by(evidence: Evidence, is_first: bool) -> list:
    """What each response of a refusal shows; what is told first says that its line is of the trace."""
    shown = []
    for place, (step, operation) in enumerate(evidence.steps):
        said = did(operation, is_first=is_first and place == 0)
        shown.append(f"[{step['from']}] before [{step['to']}]: {said}, answered {answer(evidence, operation)}")
    return with_gap(shown, evidence, "steps")


def with_gap(lines: list, evidence: Evidence, what: str) -> list:
    """The lines of the steps that are told; of a long cycle, how many are left out stands where they are."""
    between = evidence.steps_between
    return lines[:FIRST_STEPS] + [f".. and {between} more {what} .."] + lines[FIRST_STEPS:] if between else lines


def elements(evidence: Evidence) -> list:
    """Of a refusal, where its elements come from, and what is known of their neighbours."""
    lines = with_gap([life(evidence.recording, step["from"]) for step, _ in evidence.steps], evidence, "elements")
    return [*lines, *gone_before(evidence), *beside_deleted(evidence), *beside_hidden(evidence), *where_arrived(evidence)]


def in_the_end(recording: Recording, elements: list) -> list:
    """Whether the replicas that have all operations show one list at their end, if there are several; but not where that lacks some of the elements
    which the verdict is about, and so says nothing of their order."""
    changes = [change for kind in (recording.inserts, recording.deletes) for made in kind.values() for change in made]
    last = [stream[-1] for stream in recording.streams if stream and stream[-1].kind != "view"]
    whole = [operation for operation in last if all(map(operation.has_seen, changes))]
    if len(whole) < 2:
        return []
    told = joined([str(operation.replica) for operation in whole])
    lists, sets = ({kind(operation.response) for operation in whole} for kind in (tuple, frozenset))
    if len(lists) == 1 and not set(elements) <= next(iter(sets)):
        return []
    shown = "the same list" if len(lists) == 1 else f"the same elements in different orders: {two_orders(whole, elements)}" if len(sets) == 1 else "different lists"
    return [f"in the end replicas {told} have every change, as the receipts say, and show {shown}"]


def two_orders(operations: list, elements: list) -> str:
    """Of lists of the same elements in different orders, two elements that stand in both orders, and at which replicas in which: best are two that the verdict is about."""
    one = operations[0].response
    other = next(operation.response for operation in operations if operation.response != one)
    places = [{name: place for place, name in enumerate(operation.response)} for operation in operations]
    about = [name for name in elements if name in places[0]]
    first = next(pair for pair in zip(one, other) if pair[0] != pair[1])
    turned = [pair for pair in zip(about, [*about[1:], *about[:1]]) if len({place[pair[0]] < place[pair[1]] for place in places}) > 1]
    before, behind = turned[0] if turned else first
    told = []
    for one, two in (before, behind), (behind, before):
        where = [str(operation.replica) for operation, place in zip(operations, places) if place[one] < place[two]]
        told.append(f"{one} before {two} at replica{'s' if where[1:] else ''} {joined(where)}")
    others = [name for name in (before, behind) if name not in elements]
    return ", ".join(told) + (f" ({joined(others)} {'are' if others[1:] else 'is'} not in the circle below)" if others else "")


def life(recording: Recording, name: str) -> str:
    """Which operations insert and delete an element, seen or not."""
    made = [f"inserted by {at(change)}" for change in recording.inserts[name]]
    gone = [f"deleted by {at(change)}" for change in recording.deletes.get(name, [])]
    more = f", and by {len(gone) - 2} more" if len(gone) > 2 else ""
    return f"{name}: {', '.join(made + gone[:2])}{more}"


def gone_before(evidence: Evidence) -> list:
    """Which of the elements had been deleted for the responses, so that they leave them out."""
    names = dict.fromkeys(step["from"] for step, _ in evidence.steps)
    lines = []
    for _, operation in evidence.steps:
        for name in names:
            inserted = any(map(operation.has_seen, evidence.recording.inserts[name]))
            delete = next(filter(operation.has_seen, evidence.recording.deletes.get(name, [])), None)
            if inserted and delete is not None:
                lines.append(f"at {at(operation)}, {name} was deleted already, by {at(delete)}")
    return lines


def beside_deleted(evidence: Evidence) -> list:
    """Which elements arrived where one beside which they had been put was deleted already."""
    return [f"{insert.element} was put {beside(insert, [delete.element for delete in deletes])}. {when_arrived(receipt, deletes)}"
            for (receipt, insert), deletes in evidence.lost_neighbours]


def when_arrived(receipt: Receipt, deletes: list) -> str:
    """What had been deleted where a receipt brought an element."""
    return f"When it arrived at replica {receipt.replica} in line {receipt.line}, {gone_there(deletes)}"


def gone_there(deletes: list) -> str:
    if len(deletes) == 1:
        return f"{deletes[0].element} was already deleted there by {at(deletes[0])}"
    return f"both were already deleted there: {', '.join(f'{delete.element} by {at(delete)}' for delete in deletes)}"


def beside_hidden(evidence: Evidence) -> list:
    """Which elements had been put beside ones that are deleted for the response that shows them."""
    return [f"{insert.element} was put {beside(insert, names)}. At {at(operation)}, {gone_by(evidence, names, operation)}"
            for insert, names, operation in (evidence.hidden_neighbours if evidence.kind != TREE else [])]


def gone_by(evidence: Evidence, names: list, operation: Operation) -> str:
    """By what one or two elements had been deleted for an operation."""
    deletes = [next(filter(operation.has_seen, evidence.recording.deletes[name])) for name in names]
    if deletes == [operation]:
        return f"{names[0]} is gone: this operation deletes it"
    told = [f"{name} by {at(delete)}" for name, delete in zip(names, deletes)]
    return f"both were deleted already: {', '.join(told)}" if told[1:] else told[0].replace(" by ", " was deleted already, by ", 1)


def beside(insert: Operation, names: list) -> str:
    """On which side of its neighbours an element was put."""
    shown = insert.response
    place = shown.index(insert.element)
    return joined([f"{'behind' if shown.index(name) < place else 'before'} {name}" for name in names])


def where_arrived(evidence: Evidence) -> list:
    """The moments at which the order may have gone wrong, which a response shows only later: where elements of others arrived."""
    places, alike = {}, {}
    for receipt, insert in evidence.arrivals:
        places.setdefault(insert.element, []).append(f"at replica {receipt.replica} in line {receipt.line}")
    for element, where in places.items():
        alike.setdefault(tuple(where), []).append(element)
    told = [f"{joined(names)}{' arrived' * (place == 0)}{' together' * (len(names) > 1)} {joined(list(where))}" for place, (where, names) in enumerate(alike.items())]
    return [("; " if any(where[1:] for where in alike) else ", ").join(told)] if told else []


def doubled(evidence: Evidence) -> tuple:
    first, again = evidence.operations
    return (f"doubled: {first.name} and {again.name} insert the same name, {first.element}. An element is known by its name, so nothing "
            "else was judged.", [Section("The two inserts", [did(first, is_first=True), did(again)])])


def contents(evidence: Evidence) -> tuple:
    operation = evidence.operations[0]
    sections = [Section("The response", [
        did(operation, is_first=True),
        f"answered: {answer(evidence, operation)}",
        expected(evidence, operation),
        since(evidence, operation),
    ])]
    for title, names in ("Missing", evidence.missing), ("Extra", evidence.surplus), ("Named more than once", evidence.repeated):
        if names:
            lines = [line for name in names if name in evidence.elements for line in facts(evidence, name, operation)]
            left = sum(name not in evidence.elements for name in names)
            sections.append(Section(title, lines + ([f"and {left} more"] if left else [])))
    return f"contents {operation.name}: {what_is_wrong(evidence, operation)}.", sections


def what_is_wrong(evidence: Evidence, operation: Operation) -> str:
    """What the response lacks of what its replica had, and has beside that."""
    replica, told = operation.replica, []
    if evidence.missing:
        told.append(f"lacks {elements_of(len(evidence.missing))} that replica {replica} should have had by then")
    if evidence.surplus:
        told.append(f"has {elements_of(len(evidence.surplus))} that should not be there")
    if evidence.repeated:
        told.append(f"names {elements_of(len(evidence.repeated))} more than once")
    return f"this {'view' if operation.kind == 'view' else 'response'} {', and '.join(told)}"


def elements_of(count: int) -> str:
    return f"{counted(count)} element{'' if count == 1 else 's'}"


def expected(evidence: Evidence, operation: Operation) -> str:
    """What the response must hold, or of a view what it may hold."""
    if operation.kind == "view":
        visible = evidence.recording.expected(operation)
        names = marked([a for a in evidence.recording.inserts if a in visible], set())
        return f"it may hold any part of what replica {operation.replica} had by then: {names}"
    wanted = [name for name in dict.fromkeys(operation.response) if name not in evidence.surplus] + evidence.missing
    return f"it should hold, in any order: {marked(wanted, set(evidence.missing))}"


def since(evidence: Evidence, operation: Operation, still: str = "as it should") -> str:
    """What came to the replica since its operation before, which is right: the program names the first fault."""
    before, receipts = evidence.before(operation)
    did_what = [f", {did_there(evidence, receipt.seen, operation.replica)}" if evidence.report["verdict"] == "contents" and receipt.seen.kind in ("ins", "del") else ""
                for receipt in receipts[:MOST_ARRIVED]]
    arrived = [f"{receipt.seen.name} (line {receipt.line}{what})" for receipt, what in zip(receipts, did_what)]
    more = f" and {len(receipts) - MOST_ARRIVED} more" if len(receipts) > MOST_ARRIVED else ""
    came = "received " + ", ".join(arrived) + more if arrived else "received nothing"
    if not before:
        return f"before it: replica {operation.replica} did nothing, and {came}"
    list_before = marked(before[0].response, set(evidence.elements) if evidence.report["verdict"] == "contents" else set())
    return f"before it: replica {operation.replica}'s {at(before[0])} answered {list_before}, {still}; since then it {came}"


def did_there(evidence: Evidence, change: Operation, replica: int) -> str:
    arrival = evidence.recording.arrival(change, replica)
    gone = evidence.recording.change_at([one for one in evidence.recording.deletes[change.element] if one is not change], arrival) if change.kind == "del" and arrival else None
    return f"{'inserts' if change.kind == 'ins' else 'deletes'} {change.element}" + (f", already deleted at replica {replica} by {gone.name}" if gone else "")


def facts(evidence: Evidence, name: str, operation: Operation) -> list:
    """Where an element was inserted and deleted, beside what it was put, and whether its replica had that by then."""
    recording = evidence.recording
    lines = []
    if name not in recording.inserts:
        lines.append("no operation of this trace inserts it")
    for change in evidence.changes(name, operation):
        verb = "inserted" if change.kind == "ins" else "deleted"
        lines.append(f"{verb} by {at(change)}{arrived(recording, change, operation)}")
        lines += overtaken(evidence, change, operation)
        lines += neighbours(evidence, change) if change.kind == "ins" and name not in evidence.repeated else []
        for other in evidence.beside(change) if change.kind == "ins" and operation.has_seen(change) else []:
            told = [line for one, found in evidence.overtakings if one.element == other for line in overtaken(evidence, one, operation)]
            lines += [f"was put beside {other}, which {recording.inserts[other][0].name} inserted: {line}" for line in told]
    if name in recording.inserts and name not in recording.deletes:
        lines.append("is never deleted")
    return [f"[{name}] {line}" for line in lines]


def overtaken(evidence: Evidence, change: Operation, operation: Operation) -> list:
    """Whether a later operation brought a change along before the change came by itself."""
    found = evidence.overtaking(change, operation)
    if found is None:
        return []
    (brought, own), replica = found, operation.replica
    if own is not None:
        had = "" if own.seen.replica == brought.seen.replica else f", whose author already had {change.name},"
        if own.seen is change:
            return [f"the receipt of {change.name} itself comes only in line {own.line} ({own.text}). {brought.seen.name}{had} overtook it in line "
                    f"{brought.line}: that is not causal order"]
        return [f"no receipt at replica {replica} names {change.name}; the next from its author is line {own.line} ({own.text}). {change.name} was "
                f"lost, or {brought.seen.name}{had} overtook it in line {brought.line}"]
    if change.replica == brought.seen.replica:
        return [f"{change.name} has no receipt of its own at replica {replica}, though all other changes of replica {change.replica} have one. {change.name} "
                f"was lost, or {brought.seen.name} overtook it in line {brought.line}"]
    return [f"{change.name} has no receipt of its own at replica {replica}, though the author of {brought.seen.name} had it. So either the message of line {brought.line} carried {change.name} too, or "
            f"{brought.seen.name} came before {change.name}, which is not causal order"]


def neighbours(evidence: Evidence, insert: Operation) -> list:
    """Beside what an element was put that arrived, and whether that was deleted there by then."""
    arrival = next((arrival for arrival in evidence.arrivals if arrival.insert is insert), None)
    names = evidence.beside(insert)
    if arrival is None or not names or any(change.element in (insert.element, *names) for change, _ in evidence.overtakings):
        return []
    receipt = arrival.receipt
    gone = next((deletes for other, deletes in evidence.lost_neighbours if other is arrival), [])
    if evidence.recording.is_delivered(receipt.line) and not gone:
        return []
    put, were = f"was put {beside(insert, names)}.", f"{joined(names)} {'was' if len(names) == 1 else 'were'} still there"
    if evidence.recording.is_delivered(receipt.line):
        return [f"{put} By line {receipt.line}, {gone_there(gone)}"]
    if receipt.seen is insert:
        return [f"{put} {when_arrived(receipt, gone) if gone else f'When it arrived at replica {receipt.replica} in line {receipt.line}, {were}'}"]
    due = f"{put} Replica {receipt.replica} should have had this element by line {receipt.line}"
    had = evidence.recording.clock_before(receipt)
    are_there = all(had[one.replica] >= one.n for name in names for one in evidence.recording.inserts.get(name, [])[:1])  # else they came with it
    return [f"{due}, and by then {gone_there(gone)}"] if gone else [f"{due}. Until then {were}, so no deleted neighbour explains this"] if are_there else []


def arrived(recording: Recording, seen: Operation, operation: Operation) -> str:
    """How an operation came to a replica before another one of it, or that it did not."""
    if seen is operation:
        return ", this operation itself"
    if not operation.has_seen(seen):
        return not_arrived(recording, seen, operation)
    way = recording.way(seen, operation)
    if not way:
        return f", an earlier operation of replica {operation.replica}"
    return "".join(how_arrived(recording, receipt, seen) for receipt in way)


def how_arrived(recording: Recording, receipt: Receipt, seen: Operation) -> str:
    """That an operation arrived by a receipt of its own, or should have with what another one names, for a sentence on it."""
    where = f"line {receipt.line} ({receipt.text}{f', written by {DELIVERED}' * recording.is_delivered(receipt.line)})"
    if receipt.seen is seen:
        return f", which arrived at replica {receipt.replica} in {where}"
    return f". Replica {receipt.replica} should have had {seen.name} since {where}: {why_after(receipt.seen, seen)}, so {receipt.seen.name} must not arrive before {seen.name}"


def why_after(later: Operation, seen: Operation) -> str:
    """Why an operation can't arrive without one before it."""
    return f"{later.name} is a later operation of the same author" if later.replica == seen.replica else f"the author of {later.name} had {seen.name}"


def not_arrived(recording: Recording, seen: Operation, operation: Operation) -> str:
    if seen.replica == operation.replica:
        return f", a later operation of replica {operation.replica}"
    late = recording.arrival(seen, operation.replica)
    if late is None:
        return f", and replica {operation.replica} has no receipt of it"
    return f", which replica {operation.replica} got only after this response" + (f", in line {late.line} ({late.text})" if late.seen is seen else "")


def position(evidence: Evidence) -> tuple:
    operation = evidence.operations[0]
    response = operation.response
    asked = place_asked(operation, response)
    lines = [did(operation, is_first=True), *list_before(evidence, operation), f"answered: {answer(evidence, operation)}"]
    if asked < 0:
        lines.append(f"asked for: position {operation.at}, but the response is empty")
    else:
        end = f", past the end, so the last place ({asked})" if operation.at > asked else ""
        lines.append(f"asked for: position {operation.at}{end}; the answer has [{response[asked]}] there")
    if operation.element in response:
        place = response.index(operation.element)
        is_end = asked >= 0 and place + 1 == len(response) and place - asked > 1  # perhaps no place was found
        lines.append(f"found at: position {place}{', the end of the list' if is_end else ''}")
    else:
        gone = next(change for change in evidence.recording.deletes[operation.element] if operation.has_seen(change))
        lines.append(f"found at: no position, since {operation.element} was deleted by {at(gone)}{arrived(evidence.recording, gone, operation)}")
    return (f"position {operation.name}: {operation.element} is not at the position that was asked for.",
            [Section("The response, positions counted from 0", lines)])


def list_before(evidence: Evidence, operation: Operation) -> list:
    """The list that the replica showed last, and what it received since; a view is none."""
    shown = next((one for one in reversed(evidence.recording.streams[operation.replica][:operation.n - 1]) if one.kind != "view"), None)
    if shown is None:
        return []
    seen = [receipt.seen for receipt in evidence.recording.receipts[operation.replica] if shown.n <= receipt.before < operation.n]
    what = {"ins": "inserts {}", "del": "deletes {}"}
    came = [one.name + (f", which {what[one.kind].format(one.element)}" if one.kind in what else "") for one in seen]
    told = f"; then it received {listed(came, MOST_ARRIVED)}" if came else ""
    return [f"before: {marked(shown.response, {operation.element, *evidence.elements})}, answered by {at(shown)}{told}"]


def answer(evidence: Evidence, operation: Operation) -> str:
    return marked(operation.response, set(evidence.marks.get(operation.name, [])))
