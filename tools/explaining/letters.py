"""A letter for each element of a page, so that a response is read at a glance where names are long."""
from __future__ import annotations

import string

from .evidence import Evidence

GAP = "\u2026"  # in the place of elements that have no letter


def letters_of(evidence: Evidence) -> dict:
    """The letters by name: of all elements, those of an accepted recording in its order; where these are too many, of those alone that
    the verdict is about. A name of one character is its own letter, and where all are there are none."""
    every = list(dict.fromkeys([*evidence.report.get("order", []), *evidence.elements, *evidence.recording.inserts]))
    own = {name: name for name in every if len(name) == 1}
    taken = {name.upper() for name in own}
    free = [letter for letter in string.ascii_uppercase if letter not in taken]
    for names in every, list(dict.fromkeys(evidence.elements)):
        long = [name for name in names if len(name) > 1]
        if 0 < len(long) <= len(free):
            return dict(zip(long, free)) | {name: name for name in names if name in own}
    return {}


def in_letters(response: list, letters: dict) -> str:
    told = []
    for name in response:
        letter = letters.get(name, GAP)
        if letter != GAP or told[-1:] != [GAP]:
            told.append(letter)
    return "".join(told)
