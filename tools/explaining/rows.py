"""What is told of one trace among many: its verdict, how many of its first lines fail already, what it may hide, what lets failures
be put together that look alike, and what is wrong with it in words. All of it is found of the bytes that were judged: no file is read here."""
from __future__ import annotations

from typing import NamedTuple

from .beginning import explained, failing_beginning
from .apart import told_apart, words_on
from .causes import causes_of
from .debuggers import USUAL
from .evidence import Evidence, Unexplained
from .faulty_lines import about_fault
from .files import Side
from .places import Beside, beside, placed_warnings, with_places
from .programs import VERDICTS, NoProgram, is_another, is_of, is_weak_alone, no_report, of_another_trace, report_in, report_of
from .recordings import FIRST_ENTRY, Recording
from .telling import MOST_STEPS, listed
from .warnings import CUT, Warnings, cut, warnings_of
from .words import text_of, verdict_of, with_warnings

NO_VERDICTS = ["unread", "failed"]
KINDS = ["accepted", "refused", "contents", "position", "doubled", *NO_VERDICTS]
IN_WORDS = ["fault", "explanation"]  # of a row what is no field of its object in JSON


class Request(NamedTuple):
    """What is asked of all traces: by which program, whether for the weak list specification alone, and whether to explain failures; and
    the kind of the editor, if it is named."""

    program: str
    weak: bool = False
    is_explained: bool = False
    editor: str = ""


class Answer(NamedTuple):
    """How the program ended that was asked of a trace: after so many seconds, with this status, and what it printed."""

    seconds: float
    status: int
    printed: bytes
    error: str


class Row(NamedTuple):
    """What came out for one trace: a verdict of the program; `unread` where it found no trace; `failed` for all else."""

    file: str
    verdict: str
    k: int | None
    lines: int
    seconds: float
    status: int
    report: dict | None
    error: str
    warnings: list | None = None  # what the verdict may hide, where there is something
    unequal: bool | None = None  # whether one of these says that the replicas end with different lists or without some change
    notes: list | None = None  # the user's own
    fails_at: int | None = None  # so many of the first lines fail already
    first_fault: str | None = None  # the verdict on these, where it is another one
    causes: list | None = None  # names of those that the explanation has
    place: str | None = None  # of the user's code, from which the last of these lines was recorded
    weak_alone: bool | None = None  # whether it passes since weak holds, which alone is asked for, though strong doesn't
    fault: list | None = None  # what is wrong with a line that does not read
    explanation: tuple | None = None  # of what fails what `explain` says of it, and its elements, where that is asked for

    @property
    def passes(self) -> bool:
        """Whether it does, unless its ends are unequal and these count."""
        return self.verdict == "accepted" or bool(self.weak_alone)

    @property
    def alike(self) -> tuple | None:
        """What failures share that look alike; none where something of it is not known."""
        return (self.verdict, self.k, tuple(self.causes), self.place) if self.causes and self.place else None

    @property
    def object(self) -> dict:
        """What JSON has of it."""
        return {key: value for key, value in self._asdict().items() if value not in (None, "") and key not in IN_WORDS}


def unread(file: str, error: str) -> Row:
    return Row(file, "unread", None, 0, 0.0, 2, None, f"cannot be read: {error}")


def failed(file: str, seconds: float, status: int, error: str, lines: int = 0) -> Row:
    return Row(file, "failed", None, lines, seconds, status, None, error)


def row_of(request: Request, file: str, trace: bytes, side: Side, answer: Answer) -> Row:
    """The row of a trace that has this file beside it, of which the program answered this. One that is known not to be what was saved is failed, whatever
    its lines show; and so is one that passes though a call was refused, since what that says was not judged."""
    seconds, status, printed, error = answer
    lines, report = trace.count(b"\n"), report_in(status, printed)
    if report is None and is_another(status, error):
        return failed(file, seconds, status, no_report(request.program, status, error), lines)
    if report is None and status == 2 and error.endswith(": cut") and (lost := cut(trace, side)) and lost[0].startswith(CUT):
        told = f"{error}; {lost[0].partition(': ')[2]}"
        return Row(file, "unread", None, lines, seconds, status, None, told, fault=fault_of(error, trace, file))
    if report is None:
        return Row(file, "unread" if status == 2 else "failed", None, lines, seconds, status, None, error, fault=fault_of(error, trace, file))
    if report["verdict"] not in VERDICTS:
        return failed(file, seconds, status, f"{request.program} printed a verdict that is not known here: {report['verdict']}", lines)
    if not is_of(report, trace):
        return failed(file, seconds, status, of_another_trace(request.program), lines)
    known = beside(trace, side)
    is_alone = request.weak and is_weak_alone(report)
    warnings = warned_of(report["verdict"], trace, side, is_alone, known.refused)
    row = Row(file, report["verdict"], report.get("k"), lines, seconds, status, report, "",
              placed_warnings(warnings.all, known) or None, bool(warnings.ends) or None, list(known.notes) or None,
              weak_alone=is_alone or None)
    if not row.passes and request.is_explained:
        row = row._replace(explanation=explanation_of(row, request, trace, known))
    if warnings.is_another:
        left = "" if row.passes else f"; the verdict on the lines that are left is {verdict_of(report)}"
        return row._replace(verdict="failed", k=None, error=warnings.cut[0] + left, unequal=None, weak_alone=None)
    if warnings.refused and row.passes:
        return row._replace(verdict="failed", error=f"{warnings.refused[0]}; the verdict on the lines that were recorded is {verdict_of(report)}",
                            unequal=None, weak_alone=None)
    return row if row.passes else placed(row, request, trace, known)


def fault_of(error: str, trace: bytes, file: str) -> list:
    """What is wrong with the line that the program's error names; nothing where the program lies, or memory runs out."""
    try:
        return about_fault(error, trace, file)
    except (ValueError, LookupError, MemoryError):
        return []


def warned_of(verdict: str, trace: bytes, side: Side, is_passing: bool, refused: tuple) -> Warnings:
    """What the verdict may hide; of the lines nothing where the program lies, and it is no trace."""
    try:
        return warnings_of(verdict, trace, side, is_passing, refused)
    except (ValueError, IndexError):
        return Warnings([], [], [], list(refused))


def placed(row: Row, request: Request, trace: bytes, known: Beside) -> Row:
    """The row of a failure with how many first lines fail already, and what is likely the cause; without where the program lies."""
    try:
        recording = Recording(trace.decode(), known.delivered)
        whole = Evidence(recording, row.report, kind=request.editor)
        found = failing_beginning(whole, report_of(request.program), request.weak)
        if found is None:
            return row
        count, report = found
        causes = causes_of(whole if report == row.report else Evidence(recording, report, count, request.editor))
        entry = recording.entries[count - FIRST_ENTRY]
        first = verdict_of(report).strip("`")
        return row._replace(fails_at=count, first_fault=first if first != verdict_of(row.report).strip("`") else None, causes=[cause.name for cause in causes], place=known.places.get(entry.line))
    except (Unexplained, NoProgram, ValueError, LookupError):
        return row


def explanation_of(row: Row, request: Request, trace: bytes, known: Beside) -> tuple:
    """What `explain` says of a failure, and the elements of a refusal; or its verdict alone, where the program lies, or memory runs out."""
    try:
        apart = told_apart(trace.decode(), row.report)
        evidence = Evidence(Recording(apart.text, known.delivered), apart.report, kind=request.editor)
        words, told = explained(evidence, report_of(request.program), known.language or USUAL, request.weak)
        words = words._replace(headline=words.headline + words_on(apart))
        about = listed(told.elements, MOST_STEPS) if told.report["verdict"] == "refused" else ""
        return text_of(with_places(with_warnings(words, row.warnings or [], known.refused), known)), about
    except (Unexplained, NoProgram, ValueError, LookupError, MemoryError):
        return row.verdict, ""
