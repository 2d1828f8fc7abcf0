#!/usr/bin/env python3
"""The logs of all replicas of one session, as one trace on standard output or in a file.

Each log is the text of a recorder that was told which replica is its `only` one. The entries of a replica keep their
order; a receipt waits until the operation that it names stands before it. No clocks are needed. Any two merges of the
same logs have the same report.

A file with `.lines` behind a log's name may say how many lines were saved, and from where in your code each was recorded. A log that has
fewer lines, or more, is warned of, and its places are left out. Such a file is written beside TRACE too; it counts the lines that were
saved, so that the tools tell of lost ones and of those that came later. A log that was last written more than an hour before the first of the
others is warned of: it may be of an earlier run. Keep the times of files when you copy logs."""
import os
import sys

# All of this file is in words that Python 2.7 can read, so that an older Python says which one is needed, and not that it can't read this.


def end(*fault):
    """Ends with 2 at what nobody has thought of, also while this is loaded: Python's own status is one that says something of the logs."""
    sys.__excepthook__(*fault)
    os._exit(2)


if __name__ == "__main__":
    sys.excepthook = end
    if sys.version_info < (3, 9):
        sys.stderr.write("merge.py: this needs Python 3.9 or later, and is run by %d.%d\n" % sys.version_info[:2])
        sys.exit(2)

import argparse
import binascii
import contextlib
import errno
import random
import re
import signal
import stat
import time
from pathlib import Path

SIDE = ".lines"  # the end of the name of a file beside a log or a trace
NOTE = re.compile(br"note .+")  # a line there: a word of the user's for the whole session
REFUSED = re.compile(br"refused .+")  # that calls were refused, which are not in the log
LOG_MARK = b"log"  # a line there: the places are lines of a log, not of code
MERGED_MARK = b"merged"  # a line there: the trace was no recorder's text
COUNT = re.compile(br"[0-9]{1,7}")
PLACE = re.compile(br"([1-9][0-9]{0,6}) (.+)")  # a line's number, and from where it was recorded
HEAD = 2  # lines of a text before its entries
MOST_BYTES = 1 << 27  # of a log, or of what stands beside one
MOST_SHOWN = 120  # letters of a line
MOST_NOTES = 20  # as many as a recording takes
MOST_REFUSED = 20  # lines that are taken
MOST_TRIES = 100  # of writing where another process writes too
MOST_APART = 3600  # seconds between the last writings of two logs of one session, of which nothing is said
ABSENT = errno.ENOENT, errno.ENAMETOOLONG  # what stands beside a log is not there
RECEIPT = "recv [0-9]{1,7} [0-9]{1,7}"
ENTRIES = {"trace 1": re.compile("[0-9]+ (%s|(ins|del|read) .*)" % RECEIPT, re.ASCII),
           "trace 2": re.compile("[0-9]+ (%s|(ins|del|read|view) .*)" % RECEIPT, re.ASCII)}
STATUSES = ("It ends with status 0, or 1 if the logs can't be merged, 2 if one can't be read or the trace can't be written, 3 if memory ran out. To standard output, "
            "which has no file beside it, it ends with 2 also where a log is not what was saved, or a call was refused.")


class Unmerged(ValueError):
    """The logs are not those of one session."""


class Stopped(BaseException):
    """A signal that stops the program."""


def merge(texts):
    """The trace of these logs, one for each replica that did or received anything. Errors call the logs by their numbers from 1."""
    return text_of(lines_of(texts, ["log %d" % number for number in range(1, len(texts) + 1)]))


def text_of(lines):
    return "".join(line + "\n" for line, _, _ in lines)


def lines_of(texts, names):
    """The lines of the trace, each with the number of its log, from 0, and of its line there, from 1. Errors call the logs by these
    names."""
    if not texts:
        raise Unmerged("there is no log")
    waiting = [entries(name, text) for name, text in zip(names, texts)]
    counts = [text.split("\n")[1] for text in texts]
    for name, count in zip(names, counts):
        if count != counts[0]:
            raise Unmerged("the logs begin with different lines, so they are of different sessions: "
                           "line 2 of %s is `%s`, of %s `%s`" % (names[0], front(counts[0]), name, front(count)))
    authors = {}
    for name, lines in zip(names, waiting):
        author = lines[0].split(" ")[0] if lines else None
        if author in authors:
            raise Unmerged("two logs are of replica %s: %s and %s" % (front(author), authors[author], name))
        if lines:
            authors[author] = name
    return [(max(text.split("\n")[0] for text in texts), 0, 1), (counts[0], 0, 2)] + merged(waiting)


def entries(name, text):
    """The lines of a log after the first two; it is the log of one replica."""
    lines = text.split("\n")
    if lines.pop() or not lines[1:2] or lines[0] not in ENTRIES:
        raise Unmerged("%s is no text of a recorder, or was cut off" % name)
    author = lines[2].partition(" ")[0] if lines[2:] else ""
    for place, line in enumerate(lines[2:], 3):
        if not ENTRIES[lines[0]].fullmatch(line):
            raise Unmerged("line %d of %s is no entry: %s" % (place, name, front(line)))
        if line.partition(" ")[0] != author:
            raise Unmerged("line %d of %s is of another replica than line 3" % (place, name))
    return lines[2:]


def front(line):
    """A line, or a part of one, for a message: cut where it is long."""
    return shown(line[:MOST_SHOWN]) + (".. (%d letters)" % len(line) if len(line) > MOST_SHOWN else "")


def merged(logs):
    """The lines of all logs, each with the number of its log and of its line; one log's are taken as far as they go, then the next
    one's, and so on round."""
    lines, counts, places = [], {}, [0] * len(logs)
    while any(place < len(log) for place, log in zip(places, logs)):
        before = len(lines)
        for number, log in enumerate(logs):
            while places[number] < len(log) and has_arrived(log[places[number]], counts):
                line = log[places[number]]
                places[number] += 1
                lines.append((line, number, places[number] + HEAD))
                words = line.split(" ")
                if words[1] != "recv":
                    counts[words[0]] = counts.get(words[0], 0) + 1
        if len(lines) == before:
            stuck = [front(log[place]) for place, log in zip(places, logs) if place < len(log)]
            raise Unmerged("these receipts name operations that no log has before them: " + ", ".join(stuck))
    return lines


def has_arrived(line, counts):
    """Whether the line may stand here: it is no receipt, or its operation is there."""
    words = line.split(" ")
    return words[1] != "recv" or counts.get(words[2], 0) >= int(words[3])


class Log:
    """A log in a file, and what stands beside it."""

    def __init__(self, path):
        self.path, self.text = path, read(path)
        self.written = os.stat(path).st_mtime
        self.count, self.unsure = self.text.count("\n"), "holds no line count"  # of what stands beside it; or nothing
        try:
            whole = content(path + SIDE).split(b"\n")[:-1]
        except OSError as why:
            whole = []
            self.unsure = "" if why.errno in ABSENT else "can't be read (%s)" % why.strerror
        said, self.beside = COUNT.fullmatch(b"".join(whole[:1]).strip()), whole[1:]
        self.unsure = "" if said else self.unsure
        self.saved = int(said[0]) if said else self.count
        self.refused = [line for line in whole if REFUSED.fullmatch(line)]  # whatever else is wrong: what they say is in no log
        if self.saved != self.count or not said:
            self.beside = []  # it is of another text

    def lost(self):
        """How many lines were saved that are not there."""
        return max(self.saved - self.count, 0)

    def later(self):
        """How many lines are there that were not saved with what stands beside them."""
        return max(self.count - self.saved, 0)

    def places(self):
        """By number of a line from where it was recorded; of two the first counts."""
        found = [place.groups() for place in map(PLACE.fullmatch, self.beside) if place]
        return dict(reversed(found))


def stale(logs):
    """The logs that were written last long before others, each with the first of these that was."""
    logs = sorted(logs, key=lambda log: log.written)
    gaps = [at for at in range(1, len(logs)) if logs[at].written - logs[at - 1].written > MOST_APART]
    return [(log, logs[gaps[-1]]) for log in logs[:gaps[-1]]] if gaps else []


def beside_trace(logs, lines):
    """What is to stand beside the trace: how many lines there should be, the notes of all logs, which calls were refused, and from where the lines were
    recorded. Lines that were lost in one log are not made up for by those that came later to another."""
    lost = sum(log.lost() for log in logs)
    saved = len(lines) + (lost or -sum(log.later() for log in logs))
    places = [log.places() for log in logs]
    found = [(number, places[log].get(b"%d" % at)) for number, (_, log, at) in enumerate(lines, 1)]
    notes = list(dict.fromkeys(line for log in logs for line in log.beside if NOTE.fullmatch(line)))[:MOST_NOTES]
    refused = [line for log in logs for line in log.refused][:MOST_REFUSED]
    marks = notes + [MERGED_MARK] + [LOG_MARK] * any(LOG_MARK in log.beside for log in logs) + refused
    told = [b"%d %b" % one for one in found if one[0] > HEAD and one[1]]
    return b"".join(line + b"\n" for line in [b"%d" % saved] + marks + told)


def content(path):
    """The bytes of a regular file; a pipe or a device might never end."""
    descriptor = os.open(path, os.O_RDONLY | os.O_NONBLOCK)
    with open(descriptor, "rb", closefd=True) as file:
        about = os.fstat(descriptor)
        if not stat.S_ISREG(about.st_mode) or about.st_size > MOST_BYTES:
            raise OSError(0, "it is no regular file" if not stat.S_ISREG(about.st_mode) else "it has more than {:,} bytes".format(MOST_BYTES))
        return file.read()


def read(path):
    """The text of a log; where there is none, the program ends."""
    try:
        return content(path).decode("ascii")
    except OSError as why:
        fail(2, "cannot read %s: %s" % (path, why.strerror))
    except UnicodeDecodeError:
        fail(1, "%s is no text of a recorder: it is not ASCII" % path)


def shown(text):
    """A name or a log's text for a message: what can't be printed stands as `\\x1b` and the like. So does the first letter of what CI
    would read as a command of its own."""
    told = "".join(letter if letter.isprintable() else "\\x%02x" % (ord(letter) - 0xdc00) if "\udc80" <= letter <= "\udcff" else ascii(letter)[1:-1]
                   for letter in text)
    told = re.sub(r"##(?=(?:vso)?\[)", r"\\x23#", told)  # which CI reads anywhere in a line
    at = len(told) - len(told.lstrip())
    return "%s\\x%02x%s" % (told[:at], ord(told[at]), told[at + 1:]) if told[at:at + 2] in ("::", "##") else told


class Parser(argparse.ArgumentParser):
    """A parser that shows a wrong word as a name is shown."""

    def error(self, message):
        super().error(shown(message))


def say(words):
    try:
        sys.stderr.write("merge.py: %s\n" % shown(words))
        sys.stderr.flush()
    except OSError:  # nobody can be told
        os.dup2(os.open(os.devnull, os.O_WRONLY), sys.stderr.fileno())


def fail(status, words):
    say(words)
    sys.exit(status)


def write(path, content):
    try:
        if os.path.exists(path) and not os.path.isfile(path):  # a pipe, say
            Path(path).write_bytes(content)
        else:
            write_whole(os.path.realpath(path), content)
    except OSError as why:
        fail(2, "cannot write %s: %s" % (path, why.strerror))


def write_both(path, trace, beside):
    """Writes the trace, and what stands beside it; again where another process has put its own there meanwhile, beside this trace."""
    for _ in range(MOST_TRIES):
        write(path + SIDE, beside)
        write(path, trace)
        if may_hold(path + SIDE, beside):
            return
        time.sleep(random.random() / 100)  # by chance, so that they don't keep step
    fail(2, "cannot write %s: another process writes there too" % path)


def may_hold(path, text):
    """Whether the file has this content, where it can be read."""
    try:
        return content(path) == text
    except OSError:
        return True


def write_whole(path, content):
    """Writes a file that appears whole or not at all."""
    mode = stat.S_IMODE(os.stat(path).st_mode) if os.path.exists(path) else None
    if mode is not None and not os.access(path, os.W_OK):
        raise PermissionError(13, "Permission denied")
    beside = os.path.join(os.path.dirname(path), ".merge-%s" % binascii.hexlify(os.urandom(8)).decode())
    try:
        with open(beside, "xb") as file:  # never another one's
            file.write(content)
        if mode is not None:
            os.chmod(beside, mode)
        os.replace(beside, path)
    except BaseException:
        with contextlib.suppress(OSError):
            os.remove(beside)
        raise


def write_out(text):
    """Writes the trace on standard output."""
    try:
        sys.stdout.write(text)
        sys.stdout.flush()
    except OSError as why:
        os.dup2(os.open(os.devnull, os.O_WRONLY), sys.stdout.fileno())
        if isinstance(why, BrokenPipeError):  # the reader has enough
            sys.exit(2)
        fail(2, "cannot write: %s" % why.strerror)


def keep_apart(output, logs):
    """Ends the program where a file that is to be written is one of those that are read, or a trace that was not merged, as the first log is
    in `--output log*`."""
    for written in output, output + SIDE:
        for log in logs:
            for path, what in (log, "one of the logs"), (log + SIDE, "what stands beside %s" % log):
                if os.path.exists(written) and os.path.exists(path) and os.path.samefile(written, path):
                    fail(2, "cannot write %s: it is %s" % (written, what))
    if begins_as_trace(output) and MERGED_MARK not in lines_of_side(output):
        fail(2, "cannot write %s: it is a trace, or a log, that was not merged" % output)


def begins_as_trace(path):
    """Whether there is a regular file of this name that can be read, and begins so."""
    try:
        return content(path).split(b"\n")[0].decode("latin-1") in ENTRIES
    except OSError:
        return False


def lines_of_side(path):
    try:
        return content(path + SIDE).split(b"\n")[1:]
    except OSError:
        return []


def be_stopped(stop, _):
    raise Stopped(stop)


def main():
    for stop in signal.SIGINT, signal.SIGTERM, signal.SIGHUP:
        if signal.getsignal(stop) != signal.SIG_IGN:
            signal.signal(stop, be_stopped)
    if sys.stderr is None:
        sys.stderr = open(os.devnull, "w")
    parser = Parser(prog="merge.py", description=__doc__, epilog=STATUSES, allow_abbrev=False,
                    formatter_class=argparse.RawDescriptionHelpFormatter)
    parser.add_argument("logs", metavar="LOG", nargs="+", help="a log; a .lines file beside one, as `LOG*` takes too, is skipped")
    parser.add_argument("--output", metavar="TRACE", action="append", help="the file to write")
    asked = parser.parse_args()
    if asked.output is not None and len(asked.output) > 1:
        parser.error("argument --output: it is given twice")
    asked.output = asked.output and asked.output[0]
    if asked.output is None and sys.stdout is None:
        fail(2, "cannot write: standard output is closed")
    paths = [path for path in asked.logs if not (path.endswith(SIDE) and path[:-len(SIDE)] in asked.logs)]
    logs = [Log(path) for path in paths]
    if asked.output is not None:
        keep_apart(asked.output, paths)
    for log in logs:
        if log.unsure:
            say("warning: %s%s %s, so nothing says whether %s is whole" % (log.path, SIDE, log.unsure, log.path))
        if log.lost():
            say("warning: %s may have been cut at a line's end: it has %d lines, and %s%s says that %d were saved"
                % (log.path, log.count, log.path, SIDE, log.saved))
        if log.later():
            say("warning: %s has %d lines, and %s%s says that %d were saved: is that file of another log?"
                % (log.path, log.count, log.path, SIDE, log.saved))
        for line in log.refused:  # which standard output has no place for
            say("warning: %s: %s" % (log.path, shown(line[len(b"refused "):].decode("utf-8", "replace"))))
    for log, other in stale(logs):
        hours = int((other.written - log.written) // 3600)
        say("warning: %s was last written more than %s before %s was, so it may be of an earlier run"
            % (log.path, "an hour" if hours == 1 else "%d hours" % hours, other.path))
    try:
        lines = lines_of([log.text for log in logs], paths)
    except Unmerged as why:
        fail(1, str(why))
    if asked.output is None:
        write_out(text_of(lines))
        if any(log.lost() or log.later() or log.refused for log in logs):  # no tool can tell it of the trace
            sys.exit(2)
        return
    trace = text_of(lines).encode()
    if os.path.exists(asked.output) and not os.path.isfile(asked.output):  # a pipe or a device has no file beside it
        write(asked.output, trace)
    elif os.path.exists(asked.output + SIDE) and not os.path.isfile(asked.output + SIDE) and not os.path.isdir(asked.output + SIDE):
        fail(2, "cannot write %s%s: it is no regular file" % (asked.output, SIDE))
    else:
        write_both(asked.output, trace, beside_trace(logs, lines))


if __name__ == "__main__":
    try:
        main()
    except Stopped as stopped:  # what was begun is taken away, and nothing said
        signal.signal(stopped.args[0], signal.SIG_DFL)
        os.kill(os.getpid(), stopped.args[0])
    except MemoryError:
        fail(3, "out of memory")
