"""Finds the proved program and runs it. It is the only judge: all verdicts here are its own."""
from __future__ import annotations

import json
import os
import re
import shutil
import signal
import subprocess
from collections.abc import Callable
from pathlib import Path
from typing import NamedTuple

from .commands import Starting, Stopped
from .files import shown
from .library import library_beside

VARIABLE = "DOMEPEELER"
MOST_OF_VERSION = 60  # seconds in which a program says its version
VERDICTS = {"accepted": 0, "refused": 1, "doubled": 1, "contents": 1, "position": 1}  # with the status by which the program ends
COMMAND = "domepeeler"
HEAD_LINES, RECEIPT = 2, re.compile(rb"\n[0-9]+ recv ")  # of a trace: lines before its entries, and what begins one that is no operation
TOOLS = Path(__file__).resolve().parent.parent
REPOSITORY, PREFIX = TOOLS.parent, TOOLS.parent.parent.parent  # of these tools as they lie in the repository, or as tools/install puts them
# Where the program lies beside them: as the repository builds it, and as it is installed.
BESIDE = [REPOSITORY / "crates/finder_cli/out/finder_cli", PREFIX / "bin" / COMMAND]
# Where the guide of recording lies beside them, likewise.
GUIDES = [REPOSITORY / "docs/recording.md", PREFIX / "share/domepeeler/docs/recording.md"]
GUIDE = next(filter(Path.is_file, GUIDES), GUIDES[0])
WAYS = (f"The program is the one that --program names; else that of the variable {VARIABLE}; else `{COMMAND}` on the PATH; "
        "else the one that was built in this repository, or installed beside this tool. Where no user names one, the library beside this tool "
        "judges short traces, if it is installed.")


STOPPED = "the user has stopped this"
WEAK_ALONE = "weak holds, strong doesn't"  # of a trace that passes where the weak list specification alone is asked for


class Running:
    """The processes of the program that run for this one. Threads wait for them, and when the user stops it they are ended, and no other is
    begun."""

    processes: set = set()
    is_stopped = False

    @classmethod
    def stop(cls) -> None:
        cls.is_stopped = True
        for process in list(cls.processes):
            process.kill()


class NoProgram(Exception):
    """There is no program to ask."""


class Here:
    """Of the program that was found where no user named one: the library beside it, which judges short traces in this process."""

    program, library = "", None

    @classmethod
    def judged(cls, program: str, trace: bytes) -> tuple[int, bytes, bytes] | None:
        """The status, the report as JSON and the line on standard error with which the program would end; none where it is to be asked."""
        return cls.library(trace) if cls.library is not None and program == cls.program else None


class Judged(NamedTuple):
    """How the program ended: its exit status, its report where it has one, and its line on standard error."""

    status: int
    report: dict | None
    error: str


def find_program(asked: str | None) -> str:
    """The program's path, or NoProgram. A program that was asked for by name must be there: no other is taken."""
    for named, way in (asked, "--program"), (os.environ.get(VARIABLE), VARIABLE):
        if named:
            found = shutil.which(named)
            if found is None:
                raise NoProgram(f"can't run {shown(named)}, which {way} names")
            return os.path.abspath(found)
    found = shutil.which(COMMAND)
    Here.program = next((str(path) for path in BESIDE if os.access(path, os.X_OK)), "") if found is None else os.path.abspath(found)
    if not Here.program:
        raise NoProgram(f"no program found. {WAYS}")
    Here.library = library_beside()
    return Here.program


def run(program: str, words: list, trace: bytes, seconds: float | None = None) -> subprocess.CompletedProcess:
    try:
        return finished(program, words, trace, seconds)
    except OSError as error:
        raise NoProgram(f"{shown(program)} can't be run: {error.strerror}") from error


def finished(program: str, words: list, trace: bytes, seconds: float | None) -> subprocess.CompletedProcess:
    """A run of the program. Whatever ends the wait for it, a signal too, or the limit of time, ends it."""
    process = None
    try:
        with Starting():
            process = subprocess.Popen([program, *words], stdin=subprocess.PIPE, stdout=subprocess.PIPE, stderr=subprocess.PIPE)
            Running.processes.add(process)
        if Starting.stop:
            raise Stopped(Starting.stop)
        if Running.is_stopped:
            raise NoProgram(STOPPED)
        printed, errors = process.communicate(trace, seconds)
        return subprocess.CompletedProcess(process.args, process.returncode, printed, errors)
    except BaseException:
        if process is not None:
            with process:
                process.kill()
        raise
    finally:
        Running.processes.discard(process)


def judge(program: str, trace: bytes) -> Judged:
    """What the program says of a trace; NoProgram where that is nothing that domepeeler says, or it was ended."""
    here = Here.judged(program, trace)
    if here is None:
        done = run(program, ["verdict", "--json", "-"], trace)
        here = done.returncode, done.stdout, done.stderr
    status, printed, errors = here
    error = errors.decode(errors="replace").rstrip("\n")
    report = report_in(status, printed)
    if report is None and is_another(status, error):
        raise NoProgram(no_report(program, status, error))
    if report is not None and not is_of(report, trace):
        raise NoProgram(of_another_trace(program))
    return Judged(status, report, error)


def check_is_domepeeler(program: str) -> None:
    """NoProgram where the program, asked for its version, does not answer as domepeeler does: then its verdicts count for nothing."""
    try:
        done = run(program, ["--version"], b"", MOST_OF_VERSION)
    except subprocess.TimeoutExpired:
        raise NoProgram(f"{shown(program)} is not {COMMAND}: asked for its version it did not answer within {MOST_OF_VERSION} seconds") from None
    if done.returncode != 0 or not done.stdout.startswith(f"{COMMAND} ".encode()):
        said = next(filter(None, (done.stdout + done.stderr).decode(errors="replace").splitlines()), "")
        ended = f"it was {by_signal(-done.returncode)}" if done.returncode < 0 else f"it ended with status {done.returncode}"
        raise NoProgram(f"{shown(program)} is not {COMMAND}: asked for its version {ended}" + (f": {shown(said)}" if said else ""))


def report_of(program: str) -> Callable:
    """A call that answers the program's report on a trace, if it has one."""
    return lambda trace: judge(program, trace).report


def report_in(status: int, printed: bytes) -> dict | None:
    """The report that a program printed which ended with this status, if it is one."""
    try:
        report = json.loads(printed) if status in (0, 1) else None
    except ValueError:
        return None
    verdict = report.get("verdict") if isinstance(report, dict) else None
    return report if isinstance(verdict, str) and VERDICTS.get(verdict, 1) == status else None


def is_of(report: dict, trace: bytes) -> bool:
    """Whether a report that may let a trace pass is one on this trace: it counts as many operations."""
    operations = trace.count(b"\n") - HEAD_LINES - len(RECEIPT.findall(trace))
    return not passes(report, True) or report.get("operations") == operations


def passes(report: dict, weak: bool = False) -> bool:
    """Whether a trace with this report passes; with `weak`, where the weak list specification alone is asked for."""
    return report["verdict"] == "accepted" or weak and is_weak_alone(report)


def is_weak_alone(report: dict) -> bool:
    """Whether weak holds, and strong doesn't."""
    return report["verdict"] == "refused" and report.get("weak") is True


def is_another(status: int, error: str) -> bool:
    """Whether a program that printed no report is not domepeeler, or was ended: it ended without a line of domepeeler's."""
    return not any(line.startswith("finder: ") for line in error.splitlines())


def no_report(program: str, status: int, error: str) -> str:
    """What is said of such a program. A shell, or GNU parallel, tells of a signal by a status over 128."""
    if status < 0 or status > 128:
        return f"{shown(program)} was {by_signal(-status if status < 0 else status - 128)}"
    said = next(filter(None, error.splitlines()), "")
    return f"{shown(program)} printed no report that agrees with its status: is it domepeeler? It ended with status {status}" + (
        f": {shown(said)}" if said else "")


def of_another_trace(program: str) -> str:
    return f"{shown(program)} printed a report that is not on this trace: is it {COMMAND}?"


def by_signal(number: int) -> str:
    try:
        return f"ended by signal {number} ({signal.Signals(number).name})"
    except ValueError:
        return f"ended by signal {number}"


def report_text(program: str, trace: bytes) -> str:
    """The report as text, of a trace that reads."""
    return run(program, ["verdict", "-"], trace).stdout.decode()
