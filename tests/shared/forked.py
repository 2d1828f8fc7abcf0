"""Runs a tool of this repository in a copy of this process, in which its modules are loaded already: a start of Python costs more than what
most tests ask. The rest is as at a start of its own, which other tests make."""
from __future__ import annotations

import io
import os
import signal
import sys
from importlib import import_module
from pathlib import Path

from shared.program import Ended

SECONDS = 60  # a copy that takes longer is ended by a signal
BROKEN = 99  # the status of a copy that fails before, or other than, the tool ends
TOOLS = Path(__file__).resolve().parents[2] / "tools"
sys.path.insert(0, str(TOOLS))
from explaining.commands import run_command  # noqa: E402


class Forked:
    """A tool by its name and the module here that does its work. One run at a time, where no other thread runs."""

    def __init__(self, tool: str, module: str):
        self.path, self.name, self.module = str(TOOLS / tool), f"domepeeler-{tool.replace('_', '-')}", module
        import_module(f"explaining.{module}")

    def run(self, words: list, given: bytes = b"") -> Ended:
        streams = [os.memfd_create(name) for name in ("in", "out", "err")]
        os.pwrite(streams[0], given, 0)
        child = os.fork()
        if child == 0:
            self._do(words, streams)
        status = os.waitstatus_to_exitcode(os.waitpid(child, 0)[1])
        out, err = (os.pread(stream, os.fstat(stream).st_size, 0) for stream in streams[1:])
        for stream in streams:
            os.close(stream)
        return Ended(status, out, err)

    def _do(self, words: list, streams: list) -> None:
        """What the copy does; it never comes back."""
        status = BROKEN
        signal.alarm(SECONDS)
        try:
            for place, stream in enumerate(streams):
                os.dup2(stream, place)
            sys.stdin, sys.stdout, sys.stderr = (io.TextIOWrapper(open(place, mode, closefd=False)) for place, mode in enumerate(["rb", "wb", "wb"]))
            sys.argv = [self.path, *map(str, words)]
            run_command(self.name, self.module)
            status = 0
        except SystemExit as end:
            status = end.code or 0
        finally:
            sys.stdout.flush()
            sys.stderr.flush()
            os._exit(status)
