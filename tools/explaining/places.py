"""What a recorder says of a trace in the file beside it: from where in the user's code each line was recorded, in which language, and
the user's own notes.

Its first line is how many lines the trace has. Behind it stands for each line of which that is known its number, a blank and the
places. A line `language` and a word names the recorder's, and `note` and words are the user's. A line `delivered` and two numbers is a
range of lines that the recorder's call of that name wrote, and `refused` and words say that calls were refused: what they say is not in
the trace. A line `log` says that the places are lines of a log, whatever its name, a line `merged` that merge.py wrote the trace, and
a line `small`, the second one, that --small did. What is written otherwise is passed over, and so is the file of another trace."""
from __future__ import annotations

import re
from typing import NamedTuple

from . import debuggers
from .files import Side, shown
from .recordings import FIRST_ENTRY
from .telling import joined
from .words import CODE, LINE, LOG, NOTED, Explanation, Section

PLACES = re.compile(rb"([1-9][0-9]{0,6}) (.{1,4000})")
LANGUAGE = re.compile(rb"language ([a-z-]{1,20})")
NOTE = re.compile(rb"note (.{1,800})")
DELIVERED = re.compile(rb"delivered ([1-9][0-9]{0,6}) ([1-9][0-9]{0,6})")
REFUSED = re.compile(rb"refused (.{1,4000})")
OF_LOG = re.compile(r"[^,]*\.(log|txt|out|(nd)?jsonl?|[ct]sv|xml)(\.[0-9]+)?(:[0-9]+)?")  # one that was rotated too
LOG_MARK, MERGED_MARK = b"log", b"merged"
MOST_NOTES, MOST_DELIVERED, MOST_REFUSED = 20, 100, 20
MOST_MARKS = 1000  # lines beside a trace that are about no line of it: more than any recorder writes
CALLED = ", called from "  # between two places of one line
SHOWN_LINE = re.compile(r"\((?:in )?line (\d+)\)")  # in a warning


class Beside(NamedTuple):
    """What is known of a trace by the file beside it; the places by line."""

    places: dict
    language: str = ""
    notes: tuple = ()
    has_log: bool = False
    is_merged: bool = False
    delivered: tuple = ()  # ranges of lines that `delivered` wrote
    refused: tuple = ()  # that calls were refused, in words

    def marks(self, lines: list) -> list:
        """What the file beside a part of the trace says too, a line each, where its entries come from these lines."""
        told = [number for number, line in enumerate(lines, FIRST_ENTRY) if any(first <= line <= last for first, last in self.delivered)]
        return [*([f"language {self.language}"] if self.language else []), *(f"note {note}" for note in self.notes),
                *(f"delivered {number} {number}" for number in told), *(["merged"] if self.is_merged else []), *(["log"] if self.has_log else [])]


def beside(trace: bytes, side: Side) -> Beside:
    """What is known of the trace by this file."""
    places, language, notes, delivered, refused, count = {}, "", [], [], [], trace.count(b"\n")
    lines = lines_beside(trace, side)
    for line in lines:
        said = PLACES.fullmatch(line)
        if said and FIRST_ENTRY <= int(said[1]) <= count:
            if (told := printable(said[2])):
                places.setdefault(int(said[1]), told)
        elif (said := LANGUAGE.fullmatch(line)) and said[1].decode() in debuggers.LANGUAGES:
            language = language or said[1].decode()
        elif (said := DELIVERED.fullmatch(line)):
            delivered.append((int(said[1]), int(said[2])))
        elif (said := REFUSED.fullmatch(line)) and len(refused) < MOST_REFUSED:
            refused.append(shown(said[1].decode(errors="replace")))
        elif (said := NOTE.fullmatch(line)) and len(notes) < MOST_NOTES and (told := printable(said[1])):
            notes.append(told)
    return Beside(places, language, tuple(notes), LOG_MARK in lines, MERGED_MARK in lines, tuple(delivered[-MOST_DELIVERED:]), tuple(refused))


def printable(text: bytes) -> str:
    told = text.decode(errors="replace")
    return told if told.isprintable() else ""


def lines_beside(trace: bytes, side: Side) -> list:
    """The lines of the file beside the trace, behind its first; none of another trace's. The last one may have been cut, if it has no
    end; but that calls were refused is believed without one, and where the first line is no count. No recorder writes more than two for each line of the trace, and some: what
    stands behind these is not looked at."""
    *lines, last = (side.content or b"").split(b"\n", 2 * trace.count(b"\n") + MOST_MARKS)
    lines += [last] if REFUSED.fullmatch(last) else []
    if lines and not lines[0].strip().isdigit():
        return list(filter(REFUSED.fullmatch, lines))
    return lines[1:] if lines and lines[0].strip() == b"%d" % trace.count(b"\n") else []


def with_places(told: Explanation, known: Beside) -> Explanation:
    """The explanation, before its last section the places of the lines that it names, and the user's notes. Where the places are lines of a log, no
    debugger's statement fits: the recording is not the editor's. Nor does one where the trace was merged: each machine's recording has
    other lines."""
    named = {int(number) for section in told.sections for line in section.lines for number in LINE.findall(line)}
    found = {line: known.places[line] for line in sorted(named) if line in known.places}
    is_log = bool(found) and (known.has_log or all(OF_LOG.fullmatch(places) for places in found.values()))
    sections = told.sections
    if is_log or known.is_merged:
        sections = [without_statement(section, found if is_log else {}) for section in sections]
    more = [Section(LOG if is_log else CODE, by_place(found))] if found else []
    more += [Section(NOTED, [shown(note) for note in known.notes])] if known.notes else []
    return told._replace(sections=[*sections[:-1], *more, *sections[-1:]])


def by_place(found: dict) -> list:
    """For each place the lines of the trace that were recorded there."""
    lines = {}
    for line, place in found.items():
        lines.setdefault(place, []).append(str(line))
    return [f"line{'' if len(same) == 1 else 's'} {joined(same)}: {shown(place)}" for place, same in lines.items()]


def without_statement(section: Section, places: dict) -> Section:
    """The section; that on a debugger with the log's line, if there is one, in the place of a statement."""
    if section.title != debuggers.TITLE:
        return section
    told = section.lines[0]
    stop = int(LINE.search(told)[1])
    return Section(section.title, [told + (f" The editor then writes {places[stop]}." if stop in places else "")])


def placed_warnings(warnings: list, known: Beside) -> list:
    """The warnings, each with the nearest place of the lines that it names in brackets."""
    def place(found: re.Match) -> str:
        places = known.places.get(int(found[1]))
        return f"{found[0][:-1]}, {places.partition(CALLED)[0]})" if places else found[0]

    return [SHOWN_LINE.sub(place, warning) for warning in warnings]
