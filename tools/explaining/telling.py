"""Small words that several parts of an explanation share."""
from __future__ import annotations

from .recordings import Operation

MOST_STEPS, FIRST_STEPS, LAST_STEPS = 20, 10, 5  # of a cycle: a longer one is told by its first and last ones
MOST_NAMES = 24  # of a list that is shown whole
NUMBERS = "zero one two three four five six seven eight nine ten eleven twelve thirteen fourteen fifteen sixteen".split()


def joined(words: list) -> str:
    return " and ".join(filter(None, [", ".join(words[:-1]), *words[-1:]]))


def listed(words: list, most: int) -> str:
    """The first of them, and how many more there are."""
    more = len(words) - most
    return joined(words[:most] + ([f"{more} more"] if more > 0 else []))


def counted(k: int) -> str:
    return NUMBERS[k] if k < len(NUMBERS) else str(k)


def at(operation: Operation) -> str:
    return f"{operation.name} (line {operation.line})"


def did(operation: Operation, is_first: bool = False) -> str:
    """Who did what, in which line; what is told first says of what, since among a test's words it looks like a line of the test."""
    what = {"ins": f"inserted {operation.element} at position {operation.at}", "del": f"deleted {operation.element}",
            "read": "read the list", "view": "showed a part of the list"}[operation.kind]
    return f"line {operation.line}{' of the trace' * is_first}, {operation.name}: replica {operation.replica} {what}"


def marked(names: list, marks: set, near: set = frozenset()) -> str:
    """The names, those to be marked in brackets; of a long list those, others that are asked for, and the neighbours of both, dots for all else."""
    if not names:
        return "(nothing)"
    shown_places = set(range(len(names)))
    if len(names) > MOST_NAMES:
        places = [place for place, name in enumerate(names) if name in marks or name in near][:MOST_NAMES // 3]
        shown_places = {place + step for place in places or [0] for step in (-1, 0, 1)} | {0, len(names) - 1}
    shown = []
    for place, name in enumerate(names):
        if place in shown_places:
            shown.append(f"[{name}]" if name in marks else name)
        elif shown[-1:] != [".."]:
            shown.append("..")
    told = f" ({len(names)} names)" if ".." in shown else ""
    return " ".join(shown) + told
