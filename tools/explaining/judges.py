"""Judges many traces on this machine: so many threads, each with a process of the program, and for big traces with one that looks at them."""
from __future__ import annotations

import os
import subprocess
import sys
import time
from collections.abc import Iterator
from concurrent.futures import ThreadPoolExecutor
from queue import Empty, SimpleQueue

from .files import Unread, before, content, opened, shown, side_of
from .library import MOST_BYTES
from .lookers import Lookers
from .programs import STOPPED, VERDICTS, Here, Running
from .rows import Answer, Request, Row, failed, row_of, unread

WORDS = ["verdict", "--json", "--workers", "1"]  # for the program, before a trace
SECONDS = 0.2  # between two looks for a signal
BIG = 1 << 20  # bytes of a trace for whose row it pays to ask another process, where it has a verdict


class TooMany(Exception):
    """So many can't be judged at a time."""


def judged_here(request: Request, files: list, jobs: int) -> list:
    """A row for each trace, in the order of the files; so many are judged at a time. A user who stops it stops those too."""
    judges = Judges(request, jobs)
    with ThreadPoolExecutor(jobs) as pool:
        try:
            waiting = [pool.submit(judges.judged, file) for file in files]
            for _ in with_progress(as_they_end(waiting), len(files)):
                pass
            return [row.result() for row in waiting]
        except BaseException as error:
            pool.shutdown(wait=False, cancel_futures=True)
            Running.stop()
            if isinstance(error, RuntimeError) and "thread" in str(error):
                raise TooMany(f"cannot judge {jobs} at a time ({error}): ask for fewer --jobs") from None
            raise
        finally:
            judges.lookers.end()


def as_they_end(waiting: list) -> Iterator:
    """The futures, each when it has ended. It looks up now and then: a signal that another thread has got is heard only then."""
    ended: SimpleQueue = SimpleQueue()
    for row in waiting:
        row.add_done_callback(ended.put)
    for _ in waiting:
        while True:
            try:
                yield ended.get(timeout=SECONDS)
                break
            except Empty:
                continue


class Judges:
    """What the threads have in common."""

    def __init__(self, request: Request, jobs: int) -> None:
        self.request, self.jobs, self.lookers = request, jobs, Lookers()

    def judged(self, file: str) -> Row:
        begin = time.monotonic()
        try:
            return self._judged(file, begin)
        except Unread as error:
            return unread(file, str(error))
        except MemoryError:
            return failed(file, time.monotonic() - begin, 3, "out of memory")

    def _judged(self, file: str, begin: float) -> Row:
        descriptor = opened(file)
        try:
            then = before(descriptor, file)
            if os.fstat(descriptor).st_size <= MOST_BYTES:
                trace, side = content(descriptor), side_of(file)
                here = Here.judged(self.request.program, trace)
                if here is not None:
                    answer = Answer(time.monotonic() - begin, *here[:2], here[2].decode(errors="replace").strip())
                    changed = then.changed(descriptor, file)
                    if changed:
                        return failed(file, answer.seconds, answer.status, changed, trace.count(b"\n"))
                    return row_of(self.request, file, trace, side, answer)
            words = [self.request.program, *WORDS, "-"]
            try:
                process = subprocess.Popen(words, stdin=descriptor, stdout=subprocess.PIPE, stderr=subprocess.PIPE)
            except OSError as error:
                return failed(file, 0.0, 126, f"{shown(self.request.program)} can't be run: {error.strerror}")
            Running.processes.add(process)
            if Running.is_stopped:  # meanwhile: nobody else ends this one
                process.kill()
            printed, errors = process.communicate()
            Running.processes.discard(process)
            trace, side = content(descriptor), side_of(file)
            changed = then.changed(descriptor, file)
        finally:
            os.close(descriptor)
        status = process.returncode if process.returncode >= 0 else 128 - process.returncode
        seconds = time.monotonic() - begin
        if changed:
            return failed(file, seconds, status, changed, trace.count(b"\n"))
        asked = self.request, file, trace, side, Answer(seconds, status, printed, errors.decode(errors="replace").strip())
        is_big = len(trace) >= BIG and self.jobs > 1 and status in VERDICTS.values()
        row = self.lookers.row_of(*asked) if is_big else None
        if row is None and Running.is_stopped:
            return failed(file, seconds, status, STOPPED)
        return row or row_of(*asked)


def with_progress(rows: Iterator, count: int) -> Iterator:
    """The rows; where standard error is a terminal, how many there are stands on it meanwhile."""
    for number, row in enumerate(rows, 1):
        if sys.stderr.isatty():
            print(f"\r{number} of {count}", end="\n" if number == count else "", file=sys.stderr, flush=True)
        yield row
