"""What a verdict may hide: where a recording lacks what the verdict would have to be about.

The program judges what was recorded. An accepted recording is right, and yet may say little: nothing was recorded, a change never
arrived at a replica, so that the lists differ in the end, a delete names what nothing inserts, or the file was cut at a line's end,
which leaves a shorter trace. The recorders say the same of a recording that they had judged."""
from __future__ import annotations

from bisect import bisect_right
from typing import NamedTuple

from .files import NO_SIDE, Side, shown

MOST_TOLD = 5  # deletes, or inserts, that are told one by one
MOST_CHANGES = 3  # that are told one by one of those that a replica lacks, or has made nothing of
MOST_BYTES = 64  # of the first line beside a trace that are looked at
CUT = "the trace may have been cut at a line's end"
SAVED = " were saved"  # ends what is said of one that is known to be cut
ANOTHER = " were saved: is that file of another trace?"  # of one that is longer than what was saved
UNKNOWN = "so nothing says whether the trace is whole"
NOTHING = "nothing was recorded"


class Warnings(NamedTuple):
    """What the verdict may hide, a line each: that the file is not what was saved; that calls were refused; how the replicas end; and all else."""

    cut: list
    ends: list
    others: list
    refused: list = []

    @property
    def is_another(self) -> bool:
        """Whether the trace is known not to be the one that was saved: lines were lost, or it is longer."""
        return any(told.startswith(CUT) or told.endswith(ANOTHER) for told in self.cut)

    @property
    def all(self) -> list:
        return [*self.cut, *self.refused, *self.ends, *self.others]


def is_first(warning: str) -> bool:
    """Whether a warning says that not all may have been judged, or nothing: however many others there are, such a one is told. That a trace
    is known to be cut is no warning but an error."""
    return warning.startswith(NOTHING) or warning.endswith(UNKNOWN)


def warnings_of(verdict: str, trace: bytes, side: Side = NO_SIDE, is_passing: bool = False, refused: tuple = ()) -> Warnings:
    """What to warn of where the program has given this verdict on the trace that has this file beside it, and a recorder has told of refused
    calls. A verdict other than accepted hides nothing, but for what these say and what a cut has taken away, and where it passes since weak
    holds."""
    ends, others = hidden(trace) if verdict == "accepted" or is_passing else ([], [])
    return Warnings(cut(trace, side), ends, others, list(refused))


class Seen:
    """One replica as the entries are read: how many operations of each replica it has, now and at each operation of its own; its
    changes, as the numbers of these operations and their lines; the last list that it showed, which a view is not; and what came since that."""

    def __init__(self, replicas: int):
        self.has = (0,) * replicas
        self.pasts = []
        self.changes, self.lines = [], []
        self.receipts = 0
        self.at_last, self.since = self.has, []  # what it had at its last list, and the receipts since: author, n and line
        self.shown, self.is_viewed = None, False  # and whether a view follows them

    def receive(self, author: int, n: int, past: tuple, line: int) -> None:
        self.receipts += 1
        self.has = tuple(map(max, self.has, past))
        self.since.append((author, n, line))
        self.is_viewed = False

    def act(self, replica: int, is_view: bool) -> int:
        """The operation's number."""
        n = len(self.pasts) + 1
        self.has = self.has[:replica] + (n,) + self.has[replica + 1:]
        self.pasts.append(self.has)
        if is_view:
            self.is_viewed = True
        else:
            self.at_last, self.since = self.has, []
        return n


def hidden(trace: bytes) -> tuple:
    """What an accepted trace may hide: of how the replicas end, and else. Only texts that the program takes for traces come here, so
    nothing is checked again."""
    _, second, *entries = trace.split(b"\n")[:-1]
    if not entries:
        return [], [f"{NOTHING}: the trace has no entry, so the verdict says nothing about your editor"]
    replicas = [Seen(int(second.split()[1])) for _ in range(int(second.split()[1]))]
    inserted, deletes, past_end = set(), [], []
    for line, entry in enumerate(entries, 3):
        words = entry.split(b" ", 4)
        replica, kind = int(words[0]), words[1]
        one = replicas[replica]
        if kind == b"recv":
            author, n = int(words[2]), int(words[3])
            one.receive(author, n, replicas[author].pasts[n - 1], line)
            continue
        n = one.act(replica, kind == b"view")
        if kind != b"view":
            one.shown = entry.partition(b":")[2]
        if kind in (b"ins", b"del"):
            one.changes.append(n)
            one.lines.append(line)
        if kind == b"ins":
            inserted.add(words[2])
            before = words[4].count(b" ") - 1  # names in the list before it
            if int(words[3]) > before:
                past_end.append(f"line {line}, {replica}.{n}: replica {replica} inserted {words[2].decode()} at position "
                                f"{words[3].decode()}, past the end of a list of length {before}, so it counts as the end: is position {words[3].decode()} right?")
        elif kind == b"del":
            deletes.append((words[2], f"line {line}, {replica}.{n}: replica {replica} deleted `{words[2].decode()}`, which no line inserts, "
                            "so nothing was there to delete: the name is wrong, or its insert was not recorded"))
    of_nothing = [told for name, told in deletes if name not in inserted]
    others = [*some(of_nothing, "delete", "of elements that no line inserts"), *some(past_end, "insert", "past the end of a list")]
    late, strangers, silent = received_last(replicas), unheard(replicas), without_operation(replicas)
    ends = [*unshown(replicas, late), *different(replicas, late), *strangers]
    if any(one.changes for one in replicas):  # of which a silent replica shows nothing
        return [*ends, *silent], others
    return ends, [*silent, *others]


def without_operation(replicas: list) -> list:
    return [f"replica {replica} has {'receipts, but no operation' if one.receipts else 'no entry'}: nothing that it showed is judged"
            for replica, one in enumerate(replicas) if not one.pasts]


def some(told: list, what: str, which: str) -> list:
    more = len(told) - MOST_TOLD
    return told[:MOST_TOLD] + ([f"and {more} more {what}{'' if more == 1 else 's'} {which}"] if more > 0 else [])


def different(replicas: list, late: dict) -> list:
    """Whether the last lists that replicas showed differ as sets, and which changes never arrived at which replica. Of an author of
    which a replica never hears that is said by itself. A late one's list is an older one, which is said by itself too."""
    lists = {}
    for replica, one in enumerate(replicas):
        if one.shown is not None and replica not in late:
            lists.setdefault(frozenset(one.shown.split()), []).append(replica)
    lacking = [(replica, *lacked(replicas, replica)) for replica, one in enumerate(replicas) if one.pasts]
    alike = {}
    for replica, first, count in lacking:
        if count:
            alike.setdefault(listed(first, count), []).append(replica)
    never = [f"{told} never arrived at replica{'' if len(where) == 1 else 's'} {joined(where)}" for told, where in alike.items()]
    lacking_told, is_one = "; ".join(never), len(alike) == 1 and all(count < 2 for _, _, count in lacking)
    lost = "Unless it was still on its way, it was lost or is held back" if is_one else "Unless they were still on their way, they were lost or are held back"
    if len(lists) < 2:
        return [f"in this recording {lacking_told}. {lost}"] if never else []
    among = sorted(replica for same in lists.values() for replica in same)
    same = [f"{joined(one)} show the same one" for one in lists.values() if len(one) > 1]
    told = f"the last lists of replicas {joined(among)} differ" + (f" ({'; '.join(same)})" if same else "")
    if any(count and replica not in among for replica, _, count in lacking):
        return [told, f"in this recording {lacking_told}. {lost}"]
    return [f"{told}: {lacking_told} in this recording. {lost}" if never else told]


def lacked(replicas: list, replica: int) -> tuple:
    """Of the changes that never arrived at the replica the first in the order of the trace, as operations with their lines, and how many
    there are; none of an author of which it never hears."""
    has = replicas[replica].has
    first, count = [], 0
    for author, other in enumerate(replicas):
        heard = bisect_right(other.changes, has[author])
        if heard and author != replica:
            last = heard + MOST_CHANGES
            first += [(line, f"{author}.{n}") for n, line in zip(other.changes[heard:last], other.lines[heard:last])]
            count += len(other.changes) - heard
    return [f"{name} (line {line})" for line, name in sorted(first)[:MOST_CHANGES]], count


def unheard(replicas: list) -> list:
    """Of replicas that did something, and never heard of a change of another."""
    told = []
    for replica, one in enumerate(replicas):
        others = [str(author) for author, other in enumerate(replicas)
                  if other.changes and author != replica and other.changes[0] > one.has[author]]
        if one.pasts and others:
            told.append(f"replica {replica} never hears of replica{'' if len(others) == 1 else 's'} {joined(others)}: no receipt brings it "
                        "an insert or a delete from there, so nothing shows how it applies these. At the end of a session let everyone "
                        "receive everything, and then read the list")
    return told


def received_last(replicas: list) -> dict:
    """By replica the last receipts that bring changes, and are followed by no list that it shows, or by a view alone."""
    late = {}
    for replica, one in enumerate(replicas):
        has, news = one.at_last, []
        for author, n, line in one.since:
            after = tuple(map(max, has, replicas[author].pasts[n - 1]))
            if any(bisect_right(other.changes, now) > bisect_right(other.changes, before)
                   for other, before, now in zip(replicas, has, after)):
                news.append(f"{author}.{n} (in line {line})")
            has = after
        if one.pasts and news:
            late[replica] = news
    return late


def unshown(replicas: list, late: dict) -> list:
    return [f"replica {replica} shows no list{' but a view' if replicas[replica].is_viewed else ''} after it received {listed(news[:MOST_CHANGES], len(news))}: "
            "let each replica read at the end" for replica, news in late.items()]


def listed(first: list, count: int) -> str:
    """The first of so many, and how many more there are."""
    more = count - len(first)
    return joined(first + ([f"{more} more"] if more > 0 else []))


def joined(words: list) -> str:
    words = list(map(str, words))
    return " and ".join(filter(None, [", ".join(words[:-1]), words[-1]]))


def cut(trace: bytes, side: Side) -> list:
    """Whether the file beside the trace, where there is one, says in its first line another number of lines than the trace has."""
    if side.content is None:
        return [f"{shown(side.name)} can't be read ({side.why}), {UNKNOWN}"] if side.why else []
    said = side.content[:MOST_BYTES].partition(b"\n")[0].strip()
    lines = trace.count(b"\n")
    if not said.isdigit():
        return [f"{shown(side.name)} holds no line count, {UNKNOWN}"]
    if int(said) > lines:
        return [f"{CUT}: it has {lines} lines, and {shown(side.name)} says that {int(said)}{SAVED}"]
    if int(said) < lines:
        return [f"the trace has {lines} lines, and {shown(side.name)} says that {int(said)}{ANOTHER}"]
    return []
