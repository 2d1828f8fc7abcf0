"""Elements whose names look like operations', such as 0.2, told apart: in the words these have a letter before them, e0.2."""
from __future__ import annotations

import re
from typing import NamedTuple

from .programs import HEAD_LINES

LIKE = r"[0-9]+\.[0-9]+"
LIKE_ONE = re.compile(rf" {LIKE}(?= |$)", re.MULTILINE)  # also a position and the like, which have no dot
MOST_LETTERS = 32  # of a name


class Apart(NamedTuple):
    """A trace and its report with such names told apart, and the letters that these have before them; none where there is no such name."""

    text: str
    report: dict
    letters: str = ""

    def back(self, text: str) -> str:
        """A part of the trace with the names as they were."""
        return re.sub(rf" {self.letters}({LIKE})(?= |$)", r" \1", text, flags=re.MULTILINE) if self.letters else text


def told_apart(text: str, report: dict) -> Apart:
    """The trace and its report, for words about it. Nothing is changed of what is accepted, or where a name would be too long so."""
    found = set() if report.get("verdict") == "accepted" else set(LIKE_ONE.findall(text))
    letters = "e"
    while found and re.search(rf" {letters}{LIKE}(?= |$)", text, re.MULTILINE):  # another element has such a name
        letters += "e"
    if not found or max(map(len, found)) - 1 + len(letters) > MOST_LETTERS:
        return Apart(text, report)
    head = text.split("\n", HEAD_LINES)
    entries = LIKE_ONE.sub(lambda name: f" {letters}{name[0][1:]}", head.pop())
    return Apart("\n".join([*head, entries]), with_letters(report, letters), letters)


def with_letters(report: dict, letters: str) -> dict:
    def named(name: str) -> str:
        return letters + name if re.fullmatch(LIKE, name) else name

    changed = dict(report)
    if "order" in report:
        changed["order"] = list(map(named, report["order"]))
    if "steps" in report:
        changed["steps"] = [{**step, "from": named(step["from"]), "to": named(step["to"]), "response": list(map(named, step["response"]))} for step in report["steps"]]
    return changed


def words_on(apart: Apart) -> str:
    """The sentence that says so, behind the headline."""
    if not apart.letters:
        return ""
    name = re.search(rf" {apart.letters}({LIKE})(?= |$)", apart.text, re.MULTILINE)[1]
    return f" ({apart.letters}{name} is your element {name}, and {name} alone the operation: their names look alike.)"
