"""What many failing sessions have in common, beside those that pass: the situations in which they fail, and what a failure does not need. These are
counts over all sessions; causes.py reads one. Of a failing session the lines count up to the one with which it fails."""
from __future__ import annotations

from itertools import accumulate
from math import log
from typing import NamedTuple

from .files import Unread, read_file, shown
from .recordings import Operation, Receipt, Recording
from .rows import Row
from .telling import joined

# What came to a replica before it showed a list, or what it did then.
TWICE, OWN, SEVERAL_OWN = "deleted twice", "own on way", "several on way"
ONE_PLACE, BESIDE, NAMES_GONE, TOGETHER, AFTER_SEVERAL = "one place", "beside deleted", "names a deleted one", "several at once", "after several"
OWN_BESIDE, TYPED_ON, BEFORE_OTHERS, BEHIND_OTHERS = "own beside deleted", "typed on", "before another's", "behind another's"
AT_FRONT, AT_END, FIRST_GONE, LAST_GONE = "at the front", "at the end", "first deleted", "last deleted"
UNSEEN = {(kind, other): f"{kind}, {other}" for kind in ("ins", "del") for other in ("ins", "del")}  # by what comes, and what its author had not seen
IN_WORDS = {
    TWICE: "a delete arrived whose element was deleted there already",
    OWN: "a change arrived that was concurrent with one of the receiver's own",
    SEVERAL_OWN: "a change arrived that was concurrent with several of the receiver's own",
    ONE_PLACE: "an insert arrived at a place where an element stood that the insert's author had not seen",
    BESIDE: "an insert arrived whose neighbour was deleted there",
    NAMES_GONE: "a change arrived that deletes an element already deleted at the receiver, or inserts beside one",
    TOGETHER: "several changes arrived at once",
    AFTER_SEVERAL: "a change arrived whose author had received several messages since its own last change (if it acknowledges these: is just that taken out of the queue?)",
    UNSEEN["ins", "ins"]: "an insert arrived that was concurrent with an insert which the receiver had already",
    UNSEEN["ins", "del"]: "an insert arrived that was concurrent with a delete which the receiver had already",
    UNSEEN["del", "ins"]: "a delete arrived that was concurrent with an insert which the receiver had already",
    UNSEEN["del", "del"]: "a delete arrived that was concurrent with a delete which the receiver had already",
    OWN_BESIDE: "a replica inserted where an element had been deleted",
    TYPED_ON: "a replica inserted directly behind its own last insert",
    BEFORE_OTHERS: "a replica inserted directly before an element of another replica",
    BEHIND_OTHERS: "a replica inserted directly behind an element of another replica",
    AT_FRONT: "a replica inserted at the front of its list",
    AT_END: "a replica inserted at the end of its list",
    FIRST_GONE: "a replica deleted the first element of its list",
    LAST_GONE: "a replica deleted the last element of its list",
}
GENERAL = {ONE_PLACE: {UNSEEN["ins", "ins"]}, SEVERAL_OWN: {OWN}, TWICE: {UNSEEN["del", "del"], NAMES_GONE}, BESIDE: {NAMES_GONE}}  # by a situation, what holds wherever it does

FEWEST, FEWEST_PASSING, FEWEST_LISTS = 3, 5, 20  # failing sessions of which something is said; passing ones, and lists that are right, beside which it stands out
NEARLY_ALL, MANY_LISTS = 0.95, 0.6  # shares of failing sessions, and of wrong lists, that have what is told
TELLING = 0.3  # by how much a share must stand out
BY_CHANCE = 0.005  # about how often chance alone would show a share as high, of one situation
UNNEEDED_FROM = 0.1  # the share of failing sessions without it
MOST_TOLD, LEAST_OF_FIRST = 3, 0.4  # situations, and what part of the first one's weight the others have at least
MOST_SESSIONS, MOST_BYTES = 100, 1_000_000  # that are looked at, of failing and of passing ones each


class Session(NamedTuple):
    """The situations of a session, or of its lines up to the one with which it fails: all of them, those right before the last list, and those right
    before each of the other lists that show something new; whether anything was deleted; and whether two changes did not know of each other."""

    before: set
    last: set
    others: list
    has_delete: bool
    is_concurrent: bool


class Telling(NamedTuple):
    """A situation that stands out: by how much, how many of the failing sessions have it, whether right before they fail, and what is said of others."""

    weight: float
    name: str
    count: int
    is_right_before: bool
    others: str


class Looking:
    """Goes through the lines of a session."""

    def __init__(self, recording: Recording):
        self.recording, count = recording, recording.replicas
        self.clocks, self.shown, self.since = [[0] * count for _ in range(count)], [[] for _ in range(count)], [set() for _ in range(count)]
        self.with_deleted = [[] for _ in range(count)]  # what each replica shows and has shown, in this order
        self.came = [0] * count  # changes since its last list
        self.messages = [0] * count  # that brought some since its last change
        self.last_insert = [""] * count
        self.after_several = set()
        self.is_concurrent = False  # whether two changes were made of which neither author had seen the other
        self.counts = {kind: [list(accumulate((one.kind == kind for one in stream), initial=0)) for stream in recording.streams] for kind in ("ins", "del")}

    def session(self, last_line: int | None) -> Session:
        lists, has_delete = [], False
        for entry in self.recording.entries:
            if last_line is not None and entry.line > last_line:
                break
            if isinstance(entry, Receipt):
                self.take(entry)
                continue
            has_delete |= entry.kind == "del"
            self.act(entry)
            if entry.kind != "view" and (self.since[entry.replica] or self.came[entry.replica] or entry.element) or entry.line == last_line:
                lists.append(self.since[entry.replica])
            if entry.kind != "view":
                self.show(entry)
        return Session(set().union(*lists, *self.since), lists[-1] if lists else set(), lists[:-1], has_delete, self.is_concurrent)

    def take(self, receipt: Receipt) -> None:
        replica, has = receipt.replica, self.clocks[receipt.replica]
        news = [change for author, stream in enumerate(self.recording.streams) if author != replica
                for change in stream[has[author]:receipt.seen.clock[author]] if change.element]
        for change in sorted(news, key=lambda change: change.line):
            found = self.of_change(change, replica)
            self.since[replica] |= found | ({NAMES_GONE} if found & {TWICE, BESIDE} else set())
            has[change.replica] = change.n
        self.came[replica] += len(news)
        self.messages[replica] += bool(news)
        self.since[replica] |= {TOGETHER} if self.came[replica] > 1 else set()
        self.clocks[replica] = [max(pair) for pair in zip(has, receipt.seen.clock)]

    def unseen(self, kind: str, author: int, change: Operation, has: list) -> int:
        """How many changes of this kind of an author are where a change comes to, and were not where it was made."""
        counts = self.counts[kind][author]
        return counts[has[author]] - counts[change.clock[author]]  # what its author had seen has come before it

    def of_change(self, change: Operation, replica: int) -> set:
        has, authors = self.clocks[replica], [author for author in range(self.recording.replicas) if author != change.replica]
        found = {UNSEEN[change.kind, kind] for kind in ("ins", "del") if any(self.unseen(kind, author, change, has) for author in authors)}
        own = sum(self.unseen(kind, replica, change, has) for kind in ("ins", "del"))
        found |= {OWN} if own else set()
        found |= {SEVERAL_OWN} if own > 1 else set()
        found |= {AFTER_SEVERAL} if change.key in self.after_several else set()
        if change.kind == "del":
            return found | ({TWICE} if self.is_deleted(change.element, replica) else set())
        return found | self.of_place(change, replica)

    def of_place(self, insert: Operation, replica: int) -> set:
        shown, names = self.shown[replica], insert.response
        if insert.element not in names:
            return set()
        place = names.index(insert.element)
        beside = names[max(place - 1, 0):place] + names[place + 1:place + 2]
        found = {BESIDE} if any(self.is_deleted(name, replica) for name in beside) else set()
        begin = -1 if place == 0 else shown.index(names[place - 1]) if names[place - 1] in shown else None
        end = len(shown) if place + 1 == len(names) else shown.index(names[place + 1]) if names[place + 1] in shown else None
        return found | ({ONE_PLACE} if begin is not None and end is not None and end - begin > 1 else set())

    def is_deleted(self, name: str, replica: int) -> bool:
        return any(self.clocks[replica][delete.replica] >= delete.n for delete in self.recording.deletes.get(name, ()))

    def is_of_another(self, name: str, replica: int) -> bool:
        return any(insert.replica != replica for insert in self.recording.inserts.get(name, ()))

    def act(self, operation: Operation) -> None:
        """What a replica's own change is like."""
        replica = operation.replica
        if operation.element:
            made = [clock[author] for author, clock in enumerate(self.clocks)]  # operations of each
            self.is_concurrent |= any(self.unseen(kind, author, operation, made) for kind in ("ins", "del") for author in range(len(made)) if author != replica)
            self.after_several |= {operation.key} if self.messages[replica] > 1 else set()
            self.messages[replica] = 0
        if operation.kind == "del":
            self.since[replica] |= self.of_own_delete(operation)
        if operation.kind == "ins" and operation.element in operation.response:
            self.since[replica] |= self.of_own_insert(operation)
            self.last_insert[replica] = operation.element
        self.clocks[replica] = list(operation.clock)

    def of_own_delete(self, delete: Operation) -> set:
        """At which end it stood in the list that was shown last, where nothing came since."""
        shown = [] if self.came[delete.replica] else self.shown[delete.replica]
        return {name for name, one in ((FIRST_GONE, shown[:1]), (LAST_GONE, shown[-1:])) if one == [delete.element]}

    def of_own_insert(self, insert: Operation) -> set:
        replica, names, known = insert.replica, insert.response, self.with_deleted[insert.replica]
        place = names.index(insert.element)
        left, right = names[max(place - 1, 0):place], names[place + 1:place + 2]
        found = {AT_FRONT} if not left else {BEHIND_OTHERS} if self.is_of_another(left[0], replica) else set()
        found |= {AT_END} if not right else {BEFORE_OTHERS} if self.is_of_another(right[0], replica) else set()
        found |= {TYPED_ON} if left == [self.last_insert[replica]] else set()
        if all(name in known for name in left + right):  # else they came since the last list
            begin, end = known.index(left[0]) if left else -1, known.index(right[0]) if right else len(known)
            found |= {OWN_BESIDE} if any(self.is_deleted(name, replica) for name in known[begin + 1:end]) else set()
        return found

    def show(self, operation: Operation) -> None:
        """A new list: what is new in it stands, among what was shown before, behind the one before it."""
        replica, known = operation.replica, self.with_deleted[operation.replica]
        self.shown[replica], self.since[replica], self.came[replica] = operation.response, set(), 0
        has, before = set(known), None
        for name in self.shown[replica]:
            if name not in has:
                known.insert(known.index(before) + 1 if before is not None else 0, name)
                has.add(name)
            before = name


def weight(share: float, count: int, of: int) -> float:
    """By how much a share stands out above that of so many others, 0 where it does not: the information of the one beside the other. Of the others
    one more is taken for such a one, and one for none, since few may be so by chance."""
    other = (count + 1) / (of + 2)
    if share <= other:
        return 0.0
    return share * log(share / other) + ((1 - share) * log((1 - share) / (1 - other)) if share < 1 else 0.0)


def standing_out(failing: list, passing: list) -> list:
    """The situations that stand out, the most telling first; of what holds wherever another does that is told, nothing."""
    found, lists = [], [one for session in failing + passing for one in session.others] + [session.last for session in passing]
    for name in IN_WORDS:
        count, others = (sum(name in session.before for session in some) for some in (failing, passing))
        if len(passing) >= FEWEST_PASSING and count >= NEARLY_ALL * len(failing):
            found.append(Telling(weight(count / len(failing), others, len(passing)), name, count, False, f"; {others or 'none'} of the {len(passing)} that pass {'have' if others > 1 else 'has'} it{' too' if others else ''}"))
        count, others = sum(name in session.last for session in failing), sum(name in one for one in lists)
        if len(lists) >= FEWEST_LISTS and count >= MANY_LISTS * len(failing):
            right = f" and just before {others} of the {len(lists)} correct lists of these {len(failing) + len(passing)} sessions ({round(100 * others / len(lists))} %)"
            found.append(Telling(weight(count / len(failing), others, len(lists)), name, count, True, right))
    least = max(TELLING, -log(BY_CHANCE) / len(failing))
    general = set().union(*GENERAL.values())
    told = []
    for one in sorted((one for one in found if one.weight >= least), key=lambda one: (-one.weight, one.name in general, one.name)):
        is_told = any(one.name == other.name or one.name in GENERAL.get(other.name, ()) for other in told)
        told += [one] if not is_told and len(told) < MOST_TOLD and one.weight >= LEAST_OF_FIRST * (told or [one])[0].weight else []
    return told


def unneeded(failing: list) -> list:
    """What a failure does not need, with how many fail without it."""
    without = {"deletes": sum(not session.has_delete for session in failing),
               "concurrent changes": sum(not session.is_concurrent for session in failing)}
    return [f"{count} of the {len(failing)} have no {what}" for what, count in without.items() if count >= max(UNNEEDED_FROM * len(failing), 2)]


def in_common(rows: list) -> list:
    """What the failing ones of these sessions have in common, in words, a line each; of many some are looked at. None where there are few, or nothing
    stands out. What passes, but ends unequal, passes."""
    wrong, right = [row for row in rows if row.fails_at], [row for row in rows if row.passes]
    failing = sessions(wrong, True) if len(wrong) >= FEWEST else []
    if len(failing) < FEWEST:
        return []
    passing, lines = sessions(right, False), []
    for one in standing_out(failing, passing):
        which = f"all {one.count}" if one.count == len(failing) else f"{one.count} of the {len(failing)}"
        where = f"just before {which} wrong lists ({round(100 * one.count / len(failing))} %)" if one.is_right_before else f"before the wrong list in {which}"
        lines.append(f"  {IN_WORDS[one.name]}: this came {where}{one.others}")
    without = unneeded(failing) if lines else []
    lines += [f"  Up to where they fail, {joined(without)}: so the bug does not need these."] if without else []
    first = min(wrong, key=lambda row: (row.fails_at, row.lines, row.file))
    lines += [f"  To see why one fails: domepeeler-explain {shown(first.file)}"] if lines else []
    kinds = sorted({row.verdict for row in wrong})
    several = f" Their verdicts are not the same ({joined(kinds)}), so there may be more than one bug." if kinds[1:] else ""
    beside = f", compared with {counted(passing, right, 'session')} that pass{'' if right[1:] else 'es'}" if passing else ""
    return [f"What {counted(failing, wrong, 'failure')} have in common{beside}.{several} Look at what your editor does in these situations, the most telling first:",
            *lines] if lines else []


def counted(looked_at: list, rows: list, what: str) -> str:
    return f"{len(looked_at)}{f' of {len(rows)}' if len(looked_at) < len(rows) else ''} {what}{'s' if len(rows) > 1 else ''}"


def sessions(rows: list, are_failing: bool) -> list:
    """Some of these, evenly chosen, but for those that are empty, can't be read any more, are others by now, or for which there is no room."""
    found, room = [], MOST_BYTES
    for row in rows[::-(-len(rows) // MOST_SESSIONS) or 1]:
        try:
            text = read_file(row.file, room).decode()
        except (Unread, ValueError):
            continue
        room -= len(text)
        found += session_of(row, text, are_failing)
    return found


def session_of(row: Row, text: str, is_failing: bool) -> list:
    try:
        session = Looking(Recording(text)).session(row.fails_at if is_failing else None) if text.count("\n") == row.lines else None
    except (ValueError, LookupError):  # it is another by now
        session = None
    return [session] if session and (session.last or session.others) else []
