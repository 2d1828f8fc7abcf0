"""The kinds of editors that a user may name. Where the kind is known, causes that an editor of it can't have are not told, and words that
hold of some kinds alone lose their condition."""
from __future__ import annotations

import os
import re
from functools import partial

VARIABLE = "DOMEPEELER_EDITOR"
NEIGHBOURS, TREE, IDENTIFIERS, POSITIONS = "neighbours", "tree", "identifiers", "positions"
KINDS = {  # with what is said of each
    NEIGHBOURS: "an insert names the element beside which it belongs, as in RGA, WOOT, YATA, Yjs and event-graph walkers",
    TREE: "each element has a parent, as in Fugue and causal trees",
    IDENTIFIERS: "the list is sorted by identifiers, as in Logoot and LSEQ",
    POSITIONS: "changes carry positions, as in operational transformation",
}
BY_ELEMENTS = (NEIGHBOURS, TREE)
OF_KINDS = {  # which kinds can have a cause; all can have one that does not stand here
    "identifiers": (IDENTIFIERS,), "positions": (POSITIONS,), "weak alone": (POSITIONS,), "rebased": (POSITIONS,), "own on way": (POSITIONS,), "odd one": (POSITIONS,), "in a range": (POSITIONS,), "emptied": (POSITIONS,), "hidden order": BY_ELEMENTS, "between": (NEIGHBOURS,), "inside": (TREE,), "own place": BY_ELEMENTS,
    "behind unknown": (NEIGHBOURS,), "numbers": BY_ELEMENTS, "seen in a cycle": BY_ELEMENTS, "lost neighbour": BY_ELEMENTS, "beside gone": BY_ELEMENTS, "beside deleted": BY_ELEMENTS,
    "several, deleted": (*BY_ELEMENTS, POSITIONS), "several, apart": (*BY_ELEMENTS, POSITIONS),
}
CONDITIONS = {  # how words begin that hold of some kinds alone
    "f inserts find their place by a neighbour, ": BY_ELEMENTS,
    "f the list is sorted by position identifiers, ": (IDENTIFIERS,),
    "f the editor sends positions, ": (POSITIONS,),
}
OF_POSITIONS = "In an editor that sends positions, later changes then land in the wrong place."  # stands behind other words
TOLD = "; ".join(f"{kind} ({told})" for kind, told in KINDS.items())
HINT = f"To leave out causes that your editor can't have, name its kind by the option --editor or the variable {VARIABLE}: {TOLD}."
ABOUT_KIND = f"the editor's kind, so that the words leave out what it can't have; by default that of {VARIABLE}: {TOLD}"


class NoKind(Exception):
    """The user named a kind that is not known."""


def kind_asked(asked: str | None) -> str:
    """The kind that the user named: by an option, or by the variable; empty where none is named."""
    kind = asked or os.environ.get(VARIABLE, "")
    if kind and kind not in KINDS:
        raise NoKind(f"{VARIABLE} names no kind of editor; the kinds are {', '.join(KINDS)}")
    return kind


def fitting(causes: list, kind: str) -> list:
    """Of the causes those that an editor of this kind can have, with their words; all of them where no kind is named, or none is left."""
    if not kind:
        return causes
    left = [cause for cause in causes if is_possible(cause.name, kind)] or causes
    return [cause._replace(told=without_conditions(cause.told, kind)) for cause in left]


def without_conditions(told: str, kind: str) -> str:
    """The words without the conditions that hold of this kind."""
    for condition, kinds in CONDITIONS.items():
        if kind in kinds:
            told = re.sub(rf"\b([Ii]){condition}(.*? those of )?(.)", partial(unconditional, "position identifiers"), told)
    later = OF_POSITIONS.partition(", ")[2]
    return told.replace(f" {OF_POSITIONS}", f" {later[0].upper()}{later[1:]}" if kind == POSITIONS else "")


def unconditional(what: str, found: re.Match) -> str:
    """The beginning of words whose condition is left out: what `those` stood for in it is named."""
    said = (found[2] or "").replace("those of", f"the {what} of") + found[3]
    return (said[0].upper() if found[1] == "I" else said[0]) + said[1:]


def is_possible(cause: str, kind: str) -> bool:
    """Whether an editor of this kind, or of an unknown one, can have a cause of this name."""
    return not kind or kind in OF_KINDS.get(cause, KINDS)


def hangs_on_kind(names: tuple) -> bool:
    """Whether one of these causes, by name, is one of some kinds alone."""
    return any(name in OF_KINDS for name in names)
