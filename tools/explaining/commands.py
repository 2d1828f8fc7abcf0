"""What the commands have in common: their version, and how they end where nobody reads on, nothing can be written, something is wrong
that they don't know, or a user stops them."""
from __future__ import annotations

import codecs
import os
import signal
import sys
import threading
import time
import traceback
from argparse import Action, ArgumentParser, Namespace
from importlib import import_module
from typing import NoReturn

from .files import shown

VERSION = "0.2.0"  # the program's own
STATUS, OUT_OF_MEMORY = 2, 3
STOPS = [signal.SIGTERM, signal.SIGHUP]  # that would leave running what was begun, where they are not caught
MOST_WAITED = 5  # seconds for all threads, where a signal has stopped this
BEFORE_BEGINNING = 0.01  # seconds between two looks whether a thread has begun


class Stopped(BaseException):
    """A signal that stops the command."""


class Parser(ArgumentParser):
    """A parser that shows a wrong word as a file's name is shown: with `*` a user has names in its place. Options are written out: what
    calls these tools, as a script of CI, looks for them too."""

    def __init__(self, **given: object):
        super().__init__(allow_abbrev=False, **given)

    def error(self, message: str) -> NoReturn:
        super().error(shown(message))


class Once(Action):
    """An option that is given once: of two files one would not be written."""

    def __call__(self, parser: ArgumentParser, asked: Namespace, value: object, option: str | None = None) -> None:
        if getattr(asked, self.dest) is not self.default:
            parser.error(f"argument {option}: it is given twice")
        if self.metavar == "FILE" and value == "":
            parser.error(f"argument {option}: a file's name is not empty")
        if self.metavar == "PATH" and value == "":
            parser.error(f"argument {option}: a program's name is not empty")  # else another one would be asked
        setattr(asked, self.dest, value)


def add_version(parser: ArgumentParser, command: str) -> None:
    """The option that prints the name with which the command is installed, and the version."""
    parser.add_argument("--version", action="version", version=f"{command} {VERSION}", help="show the version and exit")


def name_as_it_can_be(error: UnicodeError) -> tuple:
    """What is printed for letters that standard output can't hold: the bytes that they stand for, or question marks."""
    try:
        return codecs.lookup_error("surrogateescape")(error)
    except UnicodeError:
        return "?" * (error.end - error.start), error.end


def run_command(name: str, module: str) -> None:
    """Runs the command of this name, which is the `main` of a module here. A reader that has enough is no error to tell of, and nor is a
    user who stops it. What nobody has thought of is told, with where it was, and is no verdict."""
    signal.signal(signal.SIGCHLD, signal.SIG_DFL)  # where it is ignored, as by a daemon that starts this, each status is 0
    for closed in [name for name in ("stdin", "stderr") if getattr(sys, name) is None]:
        setattr(sys, closed, open(os.devnull, "r" if closed == "stdin" else "w"))
    if sys.stdout is None:
        fail_to_write(name, "standard output is closed")
    codecs.register_error("domepeeler.names", name_as_it_can_be)
    for stream in sys.stdout, sys.stderr:
        stream.reconfigure(errors="domepeeler.names")
    for stop in STOPS:
        if signal.getsignal(stop) == signal.SIG_DFL:
            signal.signal(stop, be_stopped)
    try:
        try:
            import_module(f".{module}", __package__).main()
        finally:  # it may end by itself
            sys.stdout.flush()
    except KeyboardInterrupt:  # and so ends the loop of a shell that runs it
        end_by(signal.SIGINT)
    except Stopped as stopped:
        end_by(stopped.args[0])
    except MemoryError:
        end(name, "out of memory", OUT_OF_MEMORY)
    except OSError as error:
        if error.filename is not None or isinstance(error, ChildProcessError):
            unknown(name)  # this is nothing that is written
        os.dup2(os.open(os.devnull, os.O_WRONLY), sys.stdout.fileno())
        fail_to_write(name, "" if isinstance(error, BrokenPipeError) else str(error.strerror))
    except Exception:
        unknown(name)


class Starting:
    """While a process is started by the thread that hears of signals, a signal waits: whoever is stopped then would leave it running."""

    is_on, stop = False, 0

    def __enter__(self) -> None:
        Starting.is_on = threading.current_thread() is threading.main_thread()

    def __exit__(self, *_: object) -> None:
        Starting.is_on = False


def be_stopped(stop: int, _: object) -> None:
    if Starting.is_on:
        Starting.stop = stop
    else:
        raise Stopped(stop)


def end_by(stop: int) -> None:
    """Ends this as the signal does, once other threads have: one may begin the program just then, which it ends at once."""
    until = time.monotonic() + MOST_WAITED
    for thread in threading.enumerate():
        while thread is not threading.current_thread():
            try:
                thread.join(max(0.0, until - time.monotonic()))
                break
            except RuntimeError:  # it is about to begin
                if time.monotonic() > until:
                    break
                time.sleep(BEFORE_BEGINNING)
    signal.signal(stop, signal.SIG_DFL)
    os.kill(os.getpid(), stop)


def unknown(name: str) -> NoReturn:
    """Ends the command at an exception that it does not know."""
    told = "a fault of this tool, so nothing is said of a trace. Please report it with what follows:"
    end(name, f"{told}\n{traceback.format_exc().rstrip()}", STATUS)


def end(name: str, why: str, status: int) -> NoReturn:
    try:
        print(f"{name}: {why}", file=sys.stderr)
    except OSError:
        os.dup2(os.open(os.devnull, os.O_WRONLY), sys.stderr.fileno())
    sys.exit(status)


def fail_to_write(name: str, why: str) -> NoReturn:
    """Ends the command; says why, if that is to be said and can be."""
    if not why:
        sys.exit(STATUS)
    end(name, f"cannot write: {why}", STATUS)
