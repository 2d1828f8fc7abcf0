"""The shortest beginning of a trace that is not accepted: with its last line the session went wrong.

Where a beginning is not accepted, no longer one is. So halves are tried, and the program judges each. A refused trace has no other
fault, and nor has a beginning of it. Of a trace with a fault the program names the least operation by replica, which may be one of
what followed from another; so the beginning is what is explained.

Where the weak list specification alone is asked for and fails, it is the shortest beginning in which that fails: the strong one may
fail before. Where weak fails in a beginning, it does in each longer one."""
from __future__ import annotations

from collections.abc import Callable

from .debuggers import USUAL
from .evidence import Evidence
from .programs import is_weak_alone, passes
from .recordings import FIRST_ENTRY
from .words import explanation


def explained(evidence: Evidence, judge: Callable, language: str = USUAL, weak: bool = False) -> tuple:
    """The explanation, and what bears on the shortest beginning that is not accepted; that is the evidence itself where all of the trace is
    needed, or the program has no verdict on some beginning. With `weak`, the weak list specification alone is asked for."""
    told = of_beginning(evidence, judge, weak)
    return explanation(evidence, told, language, weak), told


def of_beginning(evidence: Evidence, judge: Callable, weak: bool) -> Evidence:
    if evidence.report["verdict"] == "accepted":
        return evidence
    count, report = failing_beginning(evidence, judge, weak) or (len(evidence.recording.lines), evidence.report)
    is_whole = count == len(evidence.recording.lines) or evidence.report["verdict"] == "refused" != report["verdict"]
    return evidence if is_whole else Evidence(evidence.recording, report, count, evidence.kind)


def failing_beginning(whole: Evidence, judge: Callable, weak: bool = False) -> tuple | None:
    """Of a trace that is not accepted, how many lines the shortest such beginning has, and the report on it; none where the program has
    no verdict on some beginning. `judge` answers the program's report on a text. With `weak`, the shortest one in which weak fails, if it
    does in the whole trace."""
    lines, is_weak_asked = whole.recording.lines, weak and not is_weak_alone(whole.report)
    # Counts of lines. Behind the last operation that the whole trace's report names there is what it says.
    passing, failing, report = FIRST_ENTRY - 1, max(operation.line for operation in whole.operations), whole.report
    tried = failing - 1  # most often the last response made it wrong
    while failing - passing > 1:
        told = judge(text_of(lines[:tried]).encode())
        if told is None:
            return None
        if passes(told, is_weak_asked):
            passing = tried
        else:
            failing, report = tried, told
        tried = (passing + failing) // 2
    return failing, report


def text_of(lines: list) -> str:
    return "".join(line + "\n" for line in lines)
