"""The command that says in words what the program's verdict on a trace means: who did what in which line, and where to look."""
from __future__ import annotations

import argparse
import os
import re
import sys
from typing import NoReturn

from .apart import Apart, told_apart, words_on
from .beginning import explained
from .commands import Once, Parser, add_version
from .cycle_picture import drawing
from .debuggers import LANGUAGES, TITLE, USUAL
from .evidence import Evidence, Unexplained
from .faulty_lines import CAUSE, about_fault
from .files import MOST_BYTES, NO_SIDE, SIDE, SMALL_MARK, Side, Unread, name_beside, read_both, shown, trace_written_over, write_file, written_over
from .kinds import ABOUT_KIND, HINT, KINDS, NoKind, hangs_on_kind, kind_asked
from .page import page_of
from .places import Beside, beside, placed_warnings, with_places
from .programs import GUIDE, WAYS, WEAK_ALONE, Judged, NoProgram, find_program, is_weak_alone, judge, passes, report_of, report_text
from .recordings import FIRST_ENTRY, Recording
from .small import smallest
from .warnings import NOTHING, Warnings, warnings_of
from .words import text_of, verdict_of, with_warnings

NAME = "domepeeler-explain"
ABOUT = "Says in words what the program's verdict on a trace means: who did what in which line, and where to look."
MOST_TOLD = 40  # operations of a small trace that are told one by one
STATUSES = ("It ends with the program's status: 0 accepted, 1 any other verdict, 2 a trace that can't be read, 3 out of memory. "
            "With --weak it ends with 0 too where strong fails and weak holds. It ends with 2 in the place of 0 where a trace has no entry, or TRACE"
            f"{SIDE} says that it is not what was saved, or lacks what a refused call says: not all was judged.")

NOT_JUDGED = "nothing was judged, since line {line} of the trace can't be read"
CALLED = f"{GUIDE.with_name('formats.md')} calls this fault `{{cause}}`"
WHAT = {"ins": "an insert", "del": "a delete", "read": "a read", "view": "a view"}
OF_SMALL = "These line numbers, and the code, are for a test that replays the small trace. In the session itself, stop where the explanation of the whole trace says."


def words_asked() -> argparse.Namespace:
    parser = Parser(prog=NAME, description=ABOUT, epilog=f"{WAYS} {STATUSES}")
    parser.register("action", None, Once)
    parser.add_argument("trace", metavar="TRACE", help="the trace; - is standard input")
    parser.add_argument("--program", metavar="PATH", help="the program that judges")
    parser.add_argument("--html", metavar="FILE", help="write a page with the session drawn and the words beside it")
    parser.add_argument("--small", metavar="FILE", help="write a small trace with the same fault")
    parser.add_argument("--svg", metavar="FILE", help="write the picture of the cycle of a refused recording")
    parser.add_argument("--language", choices=list(LANGUAGES), help="the language of the recorder, for the statement that stops a debugger; "
                        f"by default as TRACE{SIDE} says, else {USUAL}")
    parser.add_argument("--delivered", metavar="FROM-TO", action="append", default=[], type=lines_from, help="lines of the trace that a "
                        f"recorder's `delivered` wrote; by default as TRACE{SIDE} says")
    parser.add_argument("--refused", metavar="WORDS", action="append", default=[], help="what a recorder says of calls that it refused, which "
                        f"are not in the trace; by default as TRACE{SIDE} says")
    parser.add_argument("--weak", action="store_true", help="the editor promises the weak list specification alone, as one with a server "
                        "that orders (Jupiter): a trace passes where that holds, though strong doesn't")
    parser.add_argument("--editor", metavar="KIND", choices=list(KINDS), help=ABOUT_KIND)
    add_version(parser, NAME)
    return parser.parse_args()


def lines_from(word: str) -> tuple:
    """A range of lines."""
    found = re.fullmatch(r"([1-9][0-9]{0,6})-([1-9][0-9]{0,6})", word)
    if found is None:
        raise argparse.ArgumentTypeError(f"{word} is no range of lines, as 41-46")
    return int(found[1]), int(found[2])


def fail(words: str) -> NoReturn:
    print(f"{NAME}: {words}", file=sys.stderr)
    sys.exit(2)


def check_outputs(asked: argparse.Namespace, inputs: list) -> None:
    """Nothing is written over what is read, or over another trace, or twice into one file."""
    small = [asked.small, asked.small + SIDE] if asked.small else []
    drawn = [*filter(None, [asked.html, asked.svg])]
    why = written_over([*drawn, *small], inputs) or trace_written_over(drawn, asked.small)
    if why:
        fail(why)
    if asked.small and os.path.lexists(asked.small + SIDE) and not os.path.isfile(asked.small + SIDE):
        fail(f"cannot write {shown(asked.small + SIDE)}: it is no regular file")


def read(path: str) -> tuple:
    """The trace, and the file beside it."""
    if path != "-":
        try:
            return read_both(path)
        except Unread as error:
            fail(f"cannot read {shown(path)}: {error}")
    try:
        trace = sys.stdin.buffer.read(MOST_BYTES + 1)
    except OSError as error:
        fail(f"cannot read standard input: {error.strerror}")
    if len(trace) > MOST_BYTES:
        fail(f"standard input has more than {MOST_BYTES:,} bytes, the most that a trace has")
    return trace, NO_SIDE


def write(path: str, text: str) -> None:
    try:
        write_file(path, text.encode("utf-8", errors="replace"))
    except OSError as error:
        fail(f"cannot write {shown(path)}: {error.strerror}")


def shown_lines(text: str) -> str:
    """What a program printed: each line as a name is shown, since it may be another one than domepeeler."""
    return "\n".join(map(shown, text.split("\n")))


def say_fault(judged: Judged, trace: bytes, name: str) -> None:
    """That nothing was judged, and what the program's own line means; that line alone, where it names none of the trace."""
    about = about_fault(judged.error, trace, name)
    found = CAUSE.search(judged.error)
    own = shown_lines(judged.error)
    told = [f"{NAME}: {NOT_JUDGED.format(line=found[1])}", *about, CALLED.format(cause=found[2].strip())] if about and found else [own]
    print("\n  ".join(told), file=sys.stderr)


def write_small(path: str, evidence: Evidence, told: Evidence, program: str, known: Beside, apart: Apart) -> None:
    """Of a trace that went wrong before its end, that beginning made small: what follows may hide how it came about."""
    if evidence.report["verdict"] == "accepted":
        print(f"\n{shown(path)} is not written: an accepted trace has no fault to make small")
        return
    small = smallest(told, report_of(program))
    if small is None:
        fail("no small trace was made: this tool's copy of the whole trace has another verdict")
    write(path, apart.back(small.text))
    lines = small.text.splitlines()
    placed = [f"{number} {known.places[line]}" for number, line in enumerate(small.lines, FIRST_ENTRY) if line in known.places]
    if os.path.isfile(path):  # a pipe or a device has no file beside it
        write(path + SIDE, "".join(f"{line}\n" for line in [len(lines), SMALL_MARK.decode(), *known.marks(small.lines), *placed]))
    print(f"\n{shown(path)} {same_as(evidence, told, len(lines))} It keeps only what the verdict needs. Your "
          "editor may need other steps too before it goes wrong, so repeating these alone may not show the bug. Its operations, and what each is in the whole trace:")
    made = Recording(small.text)
    named = [f"small {name} = whole {operation.name} (line {operation.line}{f'; {WHAT[operation.kind]} there, a read here' if made.operation(name).kind != operation.kind else ''})" for name, operation in small.operations]
    print("  " + "; ".join(named[:MOST_TOLD]) + (f"; and {len(named) - MOST_TOLD} more" if len(named) > MOST_TOLD else ""))


def same_as(evidence: Evidence, told: Evidence, count: int) -> str:
    """Which verdict a small trace of so many lines has, and which beginning of the whole trace has it too."""
    whole = len(evidence.recording.lines)
    if told.last_line == whole or told.report == evidence.report:
        return f"({count} lines) has the same verdict as the whole trace ({whole} lines)."
    verdict = verdict_of(told.report) if told.report["verdict"] == "refused" else f"`{told.report['verdict']}`"
    return f"({count} lines) has the same verdict as the first {told.last_line} lines of the whole trace: {verdict}."


def explain(asked: argparse.Namespace, program: str, trace: bytes, side: Side, judged: Judged) -> int:
    """Says all of it, and answers the status."""
    known = beside(trace, side)
    apart = told_apart(trace.decode(), judged.report)
    evidence = Evidence(Recording(apart.text, tuple(asked.delivered) or known.delivered), apart.report, kind=asked.editor)
    words, told = explained(evidence, report_of(program), asked.language or known.language or USUAL, asked.weak)
    words = words._replace(headline=words.headline + words_on(apart))
    is_alone = asked.weak and is_weak_alone(judged.report)
    refused = tuple(map(shown, asked.refused)) or known.refused
    hidden = warnings_of(judged.report["verdict"], trace, side, is_alone, refused)
    words = with_places(with_warnings(words, placed_warnings(hidden.all, known), refused), known)
    if (side.content or b"").split(b"\n", 2)[1:2] == [SMALL_MARK]:
        words = words._replace(sections=[one._replace(lines=[OF_SMALL, *one.lines]) if one.title == TITLE else one for one in words.sections])
    is_passing = passes(judged.report, asked.weak)
    why = unjudged(asked, hidden, known) if is_passing else ""
    if why:
        words = words._replace(headline=f"{WEAK_ALONE if is_alone else 'accepted'}, but this is no pass: {why}")
    print(text_of(words), end="")
    if not asked.editor and hangs_on_kind(words.causes):
        print(f"\n{HINT}")
    if asked.html:
        write(asked.html, page_of(evidence, told, words, shown(asked.trace), report_text(program, trace), is_alone))
    if asked.svg and judged.report["verdict"] == "refused":
        write(asked.svg, drawing(told.report))
    elif asked.svg:
        print(f"\n{shown(asked.svg)} is not written: only a refused recording has a cycle to draw")
    if asked.small:
        write_small(asked.small, evidence, told, program, known, apart)
    return 2 if why else 0 if is_passing else judged.status


def unjudged(asked: argparse.Namespace, hidden: Warnings, known: Beside) -> str:
    """What was not judged of a trace that passes, so that judge_many would end with 2 of it, if anything. Of calls that a recorder itself
    tells of, and of nothing that it has recorded, it warns by itself."""
    if hidden.is_another:
        return hidden.cut[0]
    is_asked_by_recorder = asked.trace == "-" and asked.language is not None
    nothing = [told for told in hidden.others if told.startswith(NOTHING)]
    return next(iter([*known.refused, *([] if is_asked_by_recorder else nothing)]), "")


def main() -> None:
    asked = words_asked()
    check_outputs(asked, ["/dev/stdin"] if asked.trace == "-" else [asked.trace, asked.trace + SIDE, name_beside(asked.trace)])
    trace, side = read(asked.trace)
    try:
        asked.editor = kind_asked(asked.editor)
    except NoKind as error:
        fail(str(error))
    try:
        program = find_program(asked.program)
        check_outputs(asked, [program])
        judged = judge(program, trace)
    except NoProgram as error:
        fail(str(error))
    if judged.report is None:
        say_fault(judged, trace, asked.trace)
    else:
        try:
            sys.exit(explain(asked, program, trace, side, judged))
        except Unexplained as error:
            is_passing = passes(judged.report, asked.weak)
            told = "Is it domepeeler? Its" if is_passing else "The program's verdict stands; its"
            print(f"{NAME}: can't explain this verdict: {shown(str(error))}. {told} report:\n{shown_lines(report_text(program, trace))}", end="",
                  file=sys.stderr)
            sys.exit(2 if is_passing else judged.status)  # what may be wrong is no pass
    sys.exit(judged.status or 2)  # without a report nothing passes
