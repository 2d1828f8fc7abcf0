"""Judges many traces on other machines, by GNU parallel."""
from __future__ import annotations

import contextlib
import os
import signal
import subprocess
import sys
import tempfile
from pathlib import Path

from .commands import Starting, Stopped
from .files import CHANGED, Before, Unread, before, content, opened, shown, side_of, state
from .judges import SECONDS, WORDS
from .rows import Answer, Request, Row, failed, row_of, unread


# What runs the words behind it. A job of this machine, beside others, has no copy of the trace, whose relative name is right at the root of
# the file system alone.
AT_ROOT_HERE = 'if [ "$PARALLEL_SSHLOGIN" = : ]; then cd /; fi; exec "$@"'
MOST_ENDED = 25  # times that parallel is told to end


class NoParallel(Exception):
    """GNU parallel is not there, or could not run."""


def needs_parallel() -> None:
    """There is another program of that name, which can't do this."""
    try:
        told = subprocess.run(["parallel", "--version"], capture_output=True, text=True).stdout
    except OSError:
        told = ""
    if not told.startswith("GNU parallel"):
        raise NoParallel("--sshlogin needs GNU parallel: on Debian, apt-get update and apt-get install parallel")


def judged_there(request: Request, files: list, machines: str, jobs: str | None) -> list:
    """A row for each trace, judged on other machines."""
    rows, states = {}, {}
    for file in files:
        try:
            states[file] = looked_at(file)
        except Unread as error:
            rows[file] = unread(file, str(error))
    there = [file for file in files if file not in rows]
    with tempfile.TemporaryDirectory() as folder:
        if there:
            run_all(machines, jobs, request.program, there, folder)
            rows.update(zip(there, rows_of(request, there, folder, states)))
    return [rows[file] for file in files]


def run_all(machines: str, jobs: str | None, program: str, files: list, folder: str) -> None:
    """Has each trace judged: parallel leaves a log, and what each job printed, in the folder.

    It runs at the root of the file system with relative names, so that a trace which is copied to another machine lands below
    a folder of parallel's own there, and is removed from there alone. On this machine, which parallel calls `:`, it is not copied: its
    name is right as it is, and where there are other machines too, from the root."""
    given = "\0".join(os.path.abspath(file).lstrip("/") for file in files)
    words = ["parallel", "--null", "--joblog", f"{folder}/log", "--results", f"{folder}/" + "{#}"]
    is_here_alone = set(machine.rpartition("/")[2].strip() for machine in machines.split(",")) == {":"}
    copied = [] if is_here_alone else ["--transferfile", "{}", "--workdir", "...", "--cleanup"]
    words += ["--sshlogin", machines, *copied, *(["--jobs", jobs] if jobs else [])]
    words += ["--bar"] if sys.stderr.isatty() else []
    words += ["--quote", *([] if is_here_alone else ["sh", "-c", AT_ROOT_HERE, "sh"]), program, *WORDS, "{}"]
    errors = None if sys.stderr.isatty() else subprocess.PIPE
    with Starting():
        parallel = subprocess.Popen(words, stdin=subprocess.PIPE, stdout=subprocess.DEVNULL, stderr=errors, cwd="/")
    with parallel:
        try:
            if Starting.stop:
                raise Stopped(Starting.stop)
            _, said = parallel.communicate(os.fsencode(given))
        except BaseException:
            end(parallel)
            raise
    if not os.path.exists(f"{folder}/log") or parallel.returncode == 255:
        lines = (said or b"").decode(errors="replace").strip().splitlines()
        raise NoParallel("parallel could not run: " + "\n  ".join(map(shown, lines)))


def end(parallel: subprocess.Popen) -> None:
    """Has parallel end what it has begun, and itself. First it is to begin no more: what it begins when it is ended would be left running."""
    for stop in [signal.SIGHUP] + [signal.SIGTERM] * MOST_ENDED:
        parallel.send_signal(stop)
        with contextlib.suppress(subprocess.TimeoutExpired):
            parallel.wait(SECONDS)
            return
    parallel.kill()


def looked_at(file: str) -> Before:
    """The states of a trace that can be read, and of the file beside it."""
    descriptor = opened(file)
    try:
        return before(descriptor, file)
    finally:
        os.close(descriptor)


def rows_of(request: Request, files: list, folder: str, states: dict) -> list:
    """What the log and the jobs' output say of each trace."""
    ended = {}
    for line in Path(folder, "log").read_bytes().split(b"\n")[1:]:
        cells = line.decode(errors="replace").split("\t")
        if len(cells) < 9 or not cells[0].isdigit():
            continue  # the rest of a file's name that has a line feed
        number, _, _, seconds, _, _, status, signal = cells[:8]
        ended[int(number)] = float(seconds), int(status) if signal == "0" else 128 + int(signal)
    return [row_in(request, file, states[file], Path(folder, str(at)), *ended.get(at, (0.0, 255)))
            for at, file in enumerate(files, 1)]


def row_in(request: Request, file: str, then: Before, printed: Path, seconds: float, status: int) -> Row:
    """The row of a job of parallel, which left what it printed. The trace is read once, now that it has been judged."""
    try:
        descriptor = opened(file)
    except Unread as error:
        return unread(file, str(error)) if state(file) == then.trace else failed(file, seconds, status, CHANGED)
    try:
        trace, side = content(descriptor), side_of(file)
        changed = then.changed(descriptor, file)
    except Unread as error:
        return unread(file, str(error))
    finally:
        os.close(descriptor)
    if changed:
        return failed(file, seconds, status, changed, trace.count(b"\n"))
    errors = printed.with_name(printed.name + ".err")
    error = errors.read_text(errors="replace").strip() if errors.exists() else ""
    if not printed.exists() and not error:
        return failed(file, seconds, status, "no answer", trace.count(b"\n"))
    return row_of(request, file, trace, side, Answer(seconds, status, printed.read_bytes() if printed.exists() else b"", error))
