"""The command that judges all traces below some folders, several at a time, and lists them: first the one that fails in the fewest
lines."""
from __future__ import annotations

import argparse
import json
import os
import sys
from collections import Counter
from pathlib import Path
from typing import NoReturn

from .commands import Once, Parser, add_version
from .elsewhere import NoParallel, judged_there, needs_parallel
from .faulty_lines import ENTRIES
from .files import SIDE, name_beside, shown, trace_written_over, write_file, written_over
from .found import TRACE, Found, found_in
from .in_common import in_common
from .judges import TooMany, judged_here
from .junit import junit_of
from .kinds import ABOUT_KIND, NoKind, kind_asked
from .kinds import KINDS as KINDS_OF_EDITORS
from .programs import WAYS, WEAK_ALONE, NoProgram, check_is_domepeeler, find_program
from .recordings import FIRST_ENTRY
from .rows import KINDS, NO_VERDICTS, Request, Row, failed
from .warnings import SAVED, is_first

NAME = "domepeeler-judge-many"
ABOUT = ("Judges all traces below some folders, several at a time, and lists them: first the one that fails in the fewest lines. Failures that look the same share a row, and `similar` counts the others. "
         "Then it says what failures have in common, beside what passes.")
STATUSES = ("It ends with status 0 where all are accepted, 1 where all can be read and some are not accepted, and 2 where one can't "
            "be read or is known to be cut (whatever its lines show), or would pass though a call that was to record it was refused, or may be lacking (what a stopped "
            "recorder left, a link that leads nowhere, a trace with another ending), or none has "
            "an entry, or something else fails. With --weak, traces where weak "
            "holds pass too.")
MOST_WARNED = 20  # warnings that are printed on standard error
HOLDS = {True: "yes", False: "no", None: "-"}  # None where the report says nothing of it, or there is none


def words_asked() -> argparse.Namespace:
    parser = Parser(prog=NAME, description=ABOUT, epilog=f"{WAYS} {STATUSES}")
    parser.register("action", None, Once)
    parser.add_argument("folders", metavar="DIR", nargs="+", help="a folder with *.trace files at any depth, or one trace")
    parser.add_argument("--program", metavar="PATH", help="the program that judges")
    parser.add_argument("--jobs", metavar="N", help="how many at once, by default one per processor; with --sshlogin as GNU "
                        "parallel takes it")
    parser.add_argument("--sshlogin", metavar="HOSTS", help="the machines to judge on, as GNU parallel takes them, which copies "
                        "each trace there; the program must have the same path on each of them")
    parser.add_argument("--json", action="store_true", help="a line for each trace, a JSON object, in place of the table")
    parser.add_argument("--failing", action="store_true", help="list only the traces that are not accepted; the counts, and what failures have in common, are of all")
    parser.add_argument("--unequal", action="store_true", help="let accepted traces fail if their replicas end with different lists, or "
                        "lack an insert or delete")
    parser.add_argument("--weak", action="store_true", help="the editor promises the weak list specification alone, as one with a server "
                        "that orders (Jupiter): let traces pass where that holds, though strong doesn't; these are counted by themselves")
    parser.add_argument("--editor", metavar="KIND", choices=list(KINDS_OF_EDITORS), help=ABOUT_KIND)
    parser.add_argument("--junit", metavar="FILE", help="write the verdicts of all traces in JUnit's XML form, with explanations")
    add_version(parser, NAME)
    return parser.parse_args()


def fail(words: str) -> NoReturn:
    print(f"{NAME}: {words}", file=sys.stderr)
    sys.exit(2)


def below(folders: list) -> Found:
    """The traces, each once, and what else may be one. A folder without one may be another than was meant."""
    found, empty = Found([], [], []), []
    for folder in folders:
        if os.path.isdir(folder):
            try:
                inside = found_in(folder, set())
            except OSError as error:
                unread(error)
            inside.traces.sort(key=Path)
            for one, more in zip(found, inside):
                one.extend(more)
            empty += [] if inside.traces or inside.lacking else [folder]
        else:
            try:
                os.stat(folder)
            except FileNotFoundError:
                fail(f"cannot read {shown(folder)}: there is no such file or folder")
            except OSError as error:
                unread(error)
            found.traces.append(str(Path(folder)))
    if empty:
        fail(f"there is no *{TRACE} file below {' '.join(map(shown, empty))}")
    return Found(once(found.traces), once(found.lacking), once(found.alike))


def once(found: list) -> list:
    """Each of the paths once, or of the paths with words: one that is found by way of two folders, or of two names of one, counts once."""
    seen = {}
    for one in found:
        path = one if isinstance(one, str) else one[0]
        seen.setdefault((os.path.realpath(os.path.dirname(path)), os.path.basename(path)), one)
    return list(seen.values())


def unread(error: OSError) -> NoReturn:
    """A folder that can't be read may have traces."""
    fail(f"cannot read {shown(error.filename)}: {error.strerror}")


def jobs_of(asked: argparse.Namespace) -> int:
    """How many traces are judged at a time here. On other machines GNU parallel says that, and must be there."""
    if asked.sshlogin is not None:
        needs_parallel()
        return 0
    if asked.jobs is None:
        return len(os.sched_getaffinity(0))
    if not asked.jobs.isdecimal() or int(asked.jobs) == 0:
        fail(f"--jobs is a number from 1 on, not {shown(asked.jobs) or 'nothing'}")
    return int(asked.jobs)


def judged(asked: argparse.Namespace, program: str, files: list, jobs: int) -> list:
    try:
        request = Request(program, asked.weak, bool(asked.junit), kind_asked(asked.editor))
        if asked.sshlogin is None:
            return judged_here(request, files, jobs)
        return judged_there(request, files, asked.sshlogin, asked.jobs)
    except (NoKind, TooMany, NoParallel) as error:
        fail(str(error))


def is_failing(row: Row, asked: argparse.Namespace) -> bool:
    return not row.passes or asked.unequal and bool(row.unequal)


def in_order(rows: list) -> list:
    """First the one that fails in the fewest first lines, and of equals the smaller one; then those that pass, by name, unequal ones
    first, and then those of which weak alone holds."""
    def place(row: Row) -> tuple:
        if row.passes:
            return True, not row.unequal, not row.weak_alone, row.file
        return False, row.fails_at or row.lines, row.lines, row.file

    return sorted(rows, key=place)


def together(rows: list) -> list:
    """The rows without those that are like one before, each with how many these are."""
    found = {}
    for number, row in enumerate(rows):
        found.setdefault(row.alike or number, []).append(row)
    return [(same[0], len(same) - 1) for same in found.values()]


FIRST_FAULT = "in the column `fails at`, {0} ({1}) says that the first {0} lines fail already, with {1}; domepeeler-explain begins there. `verdict` and `k` are of the whole trace"


def fails_at(row: Row) -> str:
    """How many first lines fail, with the verdict on these where that on the whole is another."""
    return f"{row.fails_at or '-'}" + (f" ({row.first_fault})" if row.first_fault else "")


def print_table(rows: list, listed: list, is_weak: bool) -> None:
    """Those listed, if any, below a head, of such as look alike the first, and the counts of all; where the weak list specification alone is
    asked for, whether it holds."""
    rows_told = together(listed)
    columns = [("file", [shown(row.file) for row, _ in rows_told]), ("verdict", [told_verdict(row) for row, _ in rows_told]),
               ("k", [str(row.k or "-") for row, _ in rows_told])]
    columns += [("weak", [HOLDS[(row.report or {}).get("weak")] for row, _ in rows_told])] if is_weak else []
    others = [row for row, _ in rows_told if row.first_fault]
    columns += [("fails at", [fails_at(row) for row, _ in rows_told])]
    columns += [("lines", [str(row.lines) for row, _ in rows_told]), ("seconds", [f"{row.seconds:.3f}" for row, _ in rows_told])]
    for head, told in (("similar", [more for _, more in rows_told]), ("warnings", [len(row.warnings or []) for row, _ in rows_told])):
        columns += [(head, list(map(str, told)))] if any(told) else []
    if any(row.notes for row, _ in rows_told):
        columns.append(("noted", ["; ".join(map(shown, row.notes or ["-"])) for row, _ in rows_told]))
    cells = [[head, *told] for head, told in columns] if rows_told else []
    widths = [max(map(len, column)) for column in cells]
    left = {"file", "verdict", "noted", *(["fails at"] if others else [])}
    for line in zip(*cells):
        told = [cell.ljust(width) if cells[place][0] in left else cell.rjust(width) for place, (cell, width) in enumerate(zip(line, widths))]
        print("  ".join(told).rstrip() if cells[-1][0] == "noted" else "  ".join(told))
    counts = Counter("weak alone" if row.weak_alone else row.verdict for row in rows)
    told = ", ".join(f"{counts[kind]} {kind}" for kind in [*KINDS[:1], "weak alone", *KINDS[1:]] if counts[kind])
    similar = sum(more for _, more in rows_told)
    unlisted = "; failures that look alike share a row (`similar`: how many others)" if similar else ""
    print(f"{len(rows)} trace{'' if len(rows) == 1 else 's'}: {told}{unlisted}")
    if others:
        print(FIRST_FAULT.format(others[0].fails_at, others[0].first_fault))


def object_of(row: Row) -> dict:
    """What JSON has of it: besides its fields `shown`, the file's name as messages have it. The error is so too."""
    return {**row.object, "shown": shown(row.file)} | ({"error": shown(row.error)} if row.error else {})


def told_verdict(row: Row) -> str:
    return (WEAK_ALONE if row.weak_alone else row.verdict) + (", unequal" if row.unequal else "")


def print_unequal(rows: list, asked: argparse.Namespace) -> None:
    count = sum(bool(row.unequal) for row in rows)
    if count:
        told = "counted as failures" if asked.unequal else "with --unequal these count as failures"
        of_those = "those that pass" if asked.weak else "those accepted"
        print(f"{count} of {of_those} {'is' if count == 1 else 'are'} unequal: replicas end with different lists, a change "
              f"never arrived, or a replica was not read at the end ({told})")


def print_in_common(rows: list, asked: argparse.Namespace) -> None:
    """Below the table; where that is JSON, on standard error, so that a log of CI has it."""
    told = in_common(rows)
    if told:
        print("\n".join(told if asked.json else ["", *told]), file=sys.stderr if asked.json else sys.stdout)


def print_errors(rows: list) -> None:
    """First of those that are known to be cut; of a trace that does not read also what is wrong with its line, without the list of all that a
    line may be."""
    for row in sorted(rows, key=lambda row: SAVED not in row.error):
        if row.error:
            told = [line for line in row.fault or [] if line not in ENTRIES]
            print("\n  ".join([f"{NAME}: {shown(row.file)}: {shown(row.error)}", *told]), file=sys.stderr)


def print_warnings(rows: list) -> None:
    """First, and always, that lines may be lost, or that there are none; then where traces end unequal. That lines are lost is an error
    before."""
    warned = sorted((row for row in rows if row.warnings and not row.error), key=lambda row: not row.unequal)
    told = [(is_first(warning), f"{NAME}: {shown(row.file)}: warning: {warning}") for row in warned for warning in row.warnings]
    first, others = [line for is_one, line in told if is_one], [line for is_one, line in told if not is_one]
    more = len(others) - MOST_WARNED
    others[MOST_WARNED:] = [f"{NAME}: and {more} more warning{'' if more == 1 else 's'}, which --json shows"] if more > 0 else []
    for line in first + others:
        print(line, file=sys.stderr)


def write_junit(path: str, rows: list, asked: argparse.Namespace) -> str:
    """What went wrong, if anything did: the verdicts are printed all the same."""
    try:
        write_file(path, junit_of(rows, asked.unequal))
    except OSError as error:
        return f"cannot write {shown(path)}: {error.strerror}"
    return ""


def main() -> None:
    asked = words_asked()
    try:
        program = find_program(asked.program)
        check_is_domepeeler(program)
        jobs = jobs_of(asked)
    except (NoProgram, NoParallel) as error:
        fail(str(error))
    found = below(asked.folders)
    files = found.traces
    why = written_over([asked.junit], [program, *(name for file in files for name in (file, file + SIDE, name_beside(file)))]) or trace_written_over([asked.junit]) if asked.junit else ""
    if why:
        fail(why)
    rows = in_order((judged(asked, program, files, jobs) if files else []) + [failed(path, 0.0, 2, words) for path, words in found.lacking])
    unwritten = write_junit(asked.junit, rows, asked) if asked.junit else ""
    listed = [row for row in rows if is_failing(row, asked) or not asked.failing]
    for row in listed if asked.json else []:
        print(json.dumps(object_of(row)))
    print_errors(rows)
    if not asked.json:
        print_table(rows, listed, asked.weak)
        print_unequal(rows, asked)
    print_in_common(rows, asked)
    print_warnings(rows)
    for path, words in found.alike:
        print(f"{NAME}: {shown(path)}: warning: {words}", file=sys.stderr)
    if unwritten:
        fail(unwritten)
    if all(row.report is not None and row.lines < FIRST_ENTRY for row in rows):
        fail("none of these traces has an entry, so nothing was judged")
    sys.exit(2 if any(row.verdict in NO_VERDICTS for row in rows) else 1 if any(is_failing(row, asked) for row in rows) else 0)
