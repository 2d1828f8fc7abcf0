"""Processes of Python that find the rows of big traces, one for each thread that judges: threads of one process take turns."""
from __future__ import annotations

import contextlib
import os
import pickle
import signal
import subprocess
import sys
import threading

from .programs import TOOLS, Running
from .rows import Row, row_of

# A module of the current folder, as `bisect.py`, is not taken for Python's own.
LOOK = "import sys; sys.path[:] = [sys.argv[1], *filter(None, sys.path)]; from explaining.lookers import look; look()"


def look() -> None:
    """What such a process does: it answers each request with its row, until there is no more."""
    with contextlib.suppress(EOFError):
        while True:
            pickle.dump(row_of(*pickle.load(sys.stdin.buffer)), sys.stdout.buffer)
            sys.stdout.buffer.flush()


class Looker(subprocess.Popen):
    """Such a process, in a session of its own: no terminal interrupts it, and it is ended together with what it has begun."""

    def __init__(self) -> None:
        flags = ["-S", *(["-B"] if sys.dont_write_bytecode else [])]  # they need no installed modules, for which some starts take long
        super().__init__([sys.executable, *flags, "-c", LOOK, str(TOOLS)], stdin=subprocess.PIPE, stdout=subprocess.PIPE,
                         stderr=subprocess.DEVNULL, start_new_session=True)
        Running.processes.add(self)
        if Running.is_stopped:  # meanwhile: nobody else ends this one
            self.kill()

    def row_of(self, *request: object) -> Row:
        pickle.dump(request, self.stdin)
        self.stdin.flush()
        return pickle.load(self.stdout)

    def kill(self) -> None:
        if self.poll() is None:
            with contextlib.suppress(ProcessLookupError):
                os.killpg(self.pid, signal.SIGKILL)

    def end(self) -> None:
        self.kill()
        self.wait()
        for stream in self.stdin, self.stdout:
            with contextlib.suppress(OSError):
                stream.close()
        Running.processes.discard(self)


class Lookers:
    """Those of all threads, each begun when its thread asks for the first time."""

    def __init__(self) -> None:
        self.own, self.all = threading.local(), []

    def row_of(self, *request: object) -> Row | None:
        """The row, as another process finds it; none where none can be begun, or it was ended. Such a one is not asked again."""
        try:
            looker = vars(self.own).pop("looker", None) or self._begun()
            row = looker.row_of(*request)
        except (OSError, EOFError, pickle.UnpicklingError):
            return None
        self.own.looker = looker
        return row

    def _begun(self) -> Looker:
        looker = Looker()
        self.all.append(looker)
        return looker

    def end(self) -> None:
        for looker in self.all:
            looker.end()
