"""A slow reader of trace texts: the first faulty line and its cause. It is written from docs/formats.md, and shares nothing
with the program: each line is matched whole by one expression."""
from __future__ import annotations

import re
from collections import Counter

MOST_ENTRIES, MOST_INSERTS, MOST_NAMES, MOST_PLACES = 16_384, 4096, 4096, 262_144
MOST_NUMBER = 4_294_967_295

NUMBER = rb"(?:0|[1-9][0-9]*)"
NAME = rb"[A-Za-z0-9_.-]{1,32}"
ENTRY = re.compile(rb"(?P<r>NUMBER) (?:ins NAME (?P<at>NUMBER) :(?P<inserted>(?: NAME)*)|del NAME :(?P<deleted>(?: NAME)*)"
                   rb"|(?P<kind>read|view) :(?P<answered>(?: NAME)*)|recv (?P<q>NUMBER) (?P<n>NUMBER))"
                   .replace(b"NUMBER", NUMBER).replace(b"NAME", NAME))
HEADERS = {b"trace 1": 1, b"trace 2": 2}
REPLICAS = re.compile(rb"replicas (?:[1-9]|1[0-6])")


class Lines:
    """What the right lines so far say of each replica."""

    def __init__(self):
        self.version = self.replicas = 0
        self.entries, self.inserts, self.operations, self.places = Counter(), Counter(), Counter(), Counter()

    def cause(self, number: int, line: bytes) -> str | None:
        """What is wrong with the next line; a right one is taken."""
        if number == 1:
            self.version = HEADERS.get(line, 0)
            return None if self.version else "header"
        if number == 2:
            if not REPLICAS.fullmatch(line):
                return "replicas"
            self.replicas = int(line.split()[1])
            return None
        entry = ENTRY.fullmatch(line)
        if entry is None or any(is_too_great(entry[key]) for key in ("r", "at", "q", "n") if entry[key]) or entry["n"] == b"0":
            return "shape"
        if entry["kind"] == b"view" and self.version == 1:
            return "shape"
        refused = self.refused(entry)
        if refused is None:
            self.take(entry)
        return refused

    def refused(self, entry: re.Match) -> str | None:
        """Why a recording refuses an entry, by the first cause that holds."""
        r, names = int(entry["r"]), names_of(entry)
        if r >= self.replicas or entry["q"] and int(entry["q"]) >= self.replicas:
            return "no such replica"
        if entry["q"] and int(entry["q"]) == r:
            return "own receipt"
        if entry["q"] and self.operations[int(entry["q"])] < int(entry["n"]):
            return f"not yet, have {self.operations[int(entry['q'])]}"
        if self.entries[r] >= MOST_ENTRIES:
            return "entries full"
        if entry["at"] and self.inserts[r] >= MOST_INSERTS:
            return "inserts full"
        if names > MOST_NAMES:
            return "long response"
        return "places full" if self.places[r] + names > MOST_PLACES else None

    def take(self, entry: re.Match) -> None:
        r = int(entry["r"])
        self.entries[r] += 1
        self.inserts[r] += bool(entry["at"])
        self.operations[r] += not entry["q"]
        self.places[r] += names_of(entry)


def is_too_great(digits: bytes) -> bool:
    return len(digits) > len(str(MOST_NUMBER)) or int(digits) > MOST_NUMBER


def names_of(entry: re.Match) -> int:
    """How many names an entry's response has."""
    response = next((entry[key] for key in ("inserted", "deleted", "answered") if entry[key] is not None), b"")
    return response.count(b" ")


def line_fault(text: bytes) -> str | None:
    """The first faulty line and its cause, as the program words them; none where the text spells a recording."""
    *lines, last = text.split(b"\n")
    so_far = Lines()
    for number, line in enumerate(lines, 1):
        cause = so_far.cause(number, line)
        if cause is not None:
            return f"line {number}: {cause}"
    if last:
        return f"line {len(lines) + 1}: cut"
    missing = {0: "header", 1: "replicas"}.get(len(lines))
    return f"line {len(lines) + 1}: {missing}" if missing else None


def has_view(text: str) -> bool:
    """Whether some entry of the recording that the text spells is a view."""
    return any(line.split(" ")[1] == "view" for line in text.splitlines()[2:])


def written(text: str) -> str:
    """The spelling that is written for the recording that the text spells: of version 1 exactly where no entry is a view."""
    return f"trace {2 if has_view(text) else 1}" + text[len("trace 1"):]


def spellings(text: str) -> list:
    """All spellings of the recording that the text spells: two where no entry is a view, which differ in line 1 alone."""
    versions = [2] if has_view(text) else [1, 2]
    return [f"trace {version}" + text[len("trace 1"):] for version in versions]
