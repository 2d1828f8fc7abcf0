"""Runs the program on a text that is made on the fly, and measures its time and its memory; and a tool with all that it starts, or
alone."""
import os
import subprocess
import sys
import threading
import time
from pathlib import Path
from typing import Iterable, NamedTuple

from shared.program import SECONDS, Ended

# A run that has more bytes than this is stopped.
MOST_MEMORY = 4_000_000_000


class Measured(NamedTuple):
    """A run: how it ended, its seconds, the most bytes of memory that it had, and how many it was given."""

    ended: Ended
    seconds: float
    memory: int
    given: int


class Used(NamedTuple):
    """A run of a tool: how it ended, the seconds of processor that it and all that it started took, and the megabytes that the greatest
    of these processes had."""

    ended: Ended
    seconds: float
    megabytes: float


# The process that starts a tool, and is told what it used. Of one that the script itself started, the system would count the script's own
# memory too, which it shares at first.
STARTER = """
import os, resource, subprocess, sys
status = subprocess.run(sys.argv[2:]).returncode
told = resource.getrusage(resource.RUSAGE_CHILDREN)
os.write(int(sys.argv[1]), f"{status} {told.ru_utime + told.ru_stime} {told.ru_maxrss / 1000}".encode())
"""


def used(words: list) -> Used:
    reader, writer = os.pipe()
    try:
        done = subprocess.run([sys.executable, "-c", STARTER, str(writer), *words], capture_output=True, pass_fds=[writer], timeout=SECONDS)
        status, seconds, megabytes = os.read(reader, 100).split()
    finally:
        os.close(reader)
        os.close(writer)
    return Used(Ended(int(status), done.stdout, done.stderr), float(seconds), float(megabytes))


# The process that is a tool, and tells what it used itself, without what it started.
ITSELF = """
import os, resource, sys
writer, tools, name, module = int(sys.argv[1]), *sys.argv[2:5]
sys.path.insert(0, tools)
sys.argv[:5] = [name]
from explaining.commands import run_command
try:
    run_command(name, module)
finally:
    told = resource.getrusage(resource.RUSAGE_SELF)
    os.write(writer, str(told.ru_utime + told.ru_stime).encode())
"""


def used_itself(tools: str, name: str, module: str, words: list) -> tuple:
    """A run of the tool of this name, the command of a module of `explaining`: how it ended, and the seconds of processor that its own
    process took."""
    reader, writer = os.pipe()
    try:
        done = subprocess.run([sys.executable, "-c", ITSELF, str(writer), tools, name, module, *words], capture_output=True,
                              pass_fds=[writer], timeout=SECONDS)
        seconds = os.read(reader, 100)
    finally:
        os.close(reader)
        os.close(writer)
    return Ended(done.returncode, done.stdout, done.stderr), float(seconds)


def memory_of(process: subprocess.Popen) -> int:
    """How many bytes of memory it has now; none where it has ended."""
    try:
        return int(Path(f"/proc/{process.pid}/statm").read_text().split()[1]) * os.sysconf("SC_PAGE_SIZE")
    except (OSError, IndexError):
        return 0


def guard(process: subprocess.Popen, seconds: float, has_ended: threading.Event) -> None:
    """Stops a process that runs too long, or has so much memory that the machine might suffer."""
    until = time.monotonic() + seconds
    while not has_ended.wait(0.05):
        if time.monotonic() > until or memory_of(process) > MOST_MEMORY:
            process.kill()
            return


def measured(words: list, pieces: Iterable[bytes], patience: float) -> Measured:
    """A run that is given a text by its standard input, as far as it reads. It is stopped when it takes too long or too much."""
    begun, given = time.monotonic(), 0
    started = subprocess.Popen(words, stdin=subprocess.PIPE, stdout=subprocess.PIPE, stderr=subprocess.PIPE, bufsize=0)
    has_ended = threading.Event()
    watch = threading.Thread(target=guard, args=(started, patience, has_ended))
    watch.start()
    try:
        for piece in pieces:
            started.stdin.write(piece)
            given += len(piece)
        started.stdin.close()
    except BrokenPipeError:
        pass
    out, err = started.stdout.read(), started.stderr.read()
    has_ended.set()
    watch.join()
    _, status, usage = os.wait4(started.pid, 0)
    started.returncode = os.waitstatus_to_exitcode(status)
    seconds = time.monotonic() - begun
    for stream in (started.stdin, started.stdout, started.stderr):
        stream.close()
    return Measured(Ended(started.returncode, out, err), seconds, usage.ru_maxrss * 1024, given)
