"""What lies below some folders: the traces, what may be a trace that is lacking, and what merely looks like one."""
from __future__ import annotations

import contextlib
import errno
import os
import re
import stat
import time
from pathlib import Path
from typing import NamedTuple

from .files import BEGINS, SIDE, Unread, head, is_small, is_trace, read_file

TRACE = ".trace"  # in any case
COMPRESSED = re.compile(r"(.*\.trace)\.(gz|bz2|xz|zst|zstd|lz4|lz|lzma|lzo|br|7z|rar|zip|z|tgz|tbz2?|txz|tar|tar\.[a-z0-9]+)", re.IGNORECASE | re.DOTALL)
LOOKS_LIKE = re.compile(r"(.*\.trace)(?P<more>.+)", re.IGNORECASE | re.DOTALL)
NUMBERED = re.compile(r"[.-][0-9]+")  # of a log that was rotated, or another session
UNFINISHED = re.compile(r"\.(domepeeler|merge)-[^/]+")  # so a recorder or a tool names what it writes until it is whole
SECONDS = 2.0  # that a file may take to be written
NOTHING_THERE = [errno.ENOENT, errno.ENOTDIR, errno.ELOOP]  # behind a link
LACKING = "a recorder was stopped while it wrote this, so a trace may be lacking: look whether it is, then remove this"
WRITTEN = "a tool was stopped while it wrote this, which is no trace"
RENAMED = "it begins as a trace, and was not judged, since its name does not end in .trace"
UNREAD_COPY = "it can't be read, and its name is that of a trace with more behind it"
NOWHERE = "it is a link that leads nowhere, so traces behind it may be lacking"
NOWHERE_PASSED = "it is a link that leads nowhere"


class Found(NamedTuple):
    """Paths of traces; and paths with words: of what may be a trace that was not judged, and of what merely looks like one."""

    traces: list
    lacking: list
    alike: list


def found_in(folder: str, been: set) -> Found:
    """What lies in a folder at any depth; behind links too, but in no folder twice. OSError where it can't be read."""
    about = os.stat(folder)
    found = Found([], [], [])
    if (about.st_dev, about.st_ino) in been:
        return found
    been.add((about.st_dev, about.st_ino))
    with os.scandir(folder) as entries:
        names = sorted(entry.name for entry in entries)
    for name in names:
        path = str(Path(folder, name))
        if is_folder(path):
            for one, more in zip(found, found_in(path, been)):
                one.extend(more)
        elif name.lower().endswith(TRACE) or is_compressed_alone(name, names):
            found.traces.append(path)
        elif is_of_missing(name, names):
            found.traces.append(path[:-len(SIDE)])
        elif UNFINISHED.fullmatch(name):
            note(found, path, *unfinished(path))
        elif name.lower().endswith(SIDE):  # what is wrong with it is told of its trace
            note(found, path[:-len(SIDE)], True, RENAMED if is_of_renamed(path[:-len(SIDE)]) else "")
        elif COMPRESSED.fullmatch(name):
            continue  # likewise
        elif os.path.islink(path) and not os.path.exists(path):
            note(found, path, "." not in name, NOWHERE if "." not in name else NOWHERE_PASSED)
        elif like := LOOKS_LIKE.fullmatch(name):
            note(found, path, *looking_like(path, str(Path(folder, like[1])), like["more"]))
    return found


def note(found: Found, path: str, is_lacking: bool, words: str) -> None:
    if words:
        (found.lacking if is_lacking else found.alike).append((path, words))


def is_compressed_alone(name: str, names: list) -> bool:
    """Whether a trace is there that is compressed, and does not lie beside it unpacked: it is told of as one that does not read."""
    packed = COMPRESSED.fullmatch(name)
    return packed is not None and packed[1] not in names


def is_of_missing(name: str, names: list) -> bool:
    """Whether it stands beside a trace that is not there, packed or not: a recorder was stopped before it had put that there."""
    trace = name[:-len(SIDE)]
    return name.lower().endswith(TRACE + SIDE) and trace not in names and not any(other.startswith(trace) and COMPRESSED.fullmatch(other) for other in names)


def is_of_renamed(path: str) -> bool:
    """Whether a recorder saved a trace under this name, which is none of a trace, or has not more behind one: not a log of one replica, which is
    merged with others, and not what --small wrote."""
    name = os.path.basename(path)
    return not name.lower().endswith(TRACE) and not LOOKS_LIKE.fullmatch(name) and is_trace(path) and not is_small(path) and not is_log(path)


def is_log(path: str) -> bool:
    """Whether the lines of a file that begins as a trace are of one replica of several, or there are none."""
    try:
        _, replicas, *lines = read_file(path).split(b"\n")
    except Unread:
        return False
    return replicas != b"replicas 1" and len({line.partition(b" ")[0] for line in filter(None, lines)}) < 2


def is_folder(path: str) -> bool:
    try:
        return stat.S_ISDIR(os.stat(path).st_mode)
    except OSError as error:
        if error.errno not in NOTHING_THERE and not path.lower().endswith(TRACE):
            raise  # it may be a folder of traces
        return False


def unfinished(path: str) -> tuple:
    """Whether what was not written to its end may be a trace, or stand beside one, and words; none where it is gone soon. A page, a picture or
    JUnit's file is a tool's."""
    until = time.monotonic() + SECONDS
    with contextlib.suppress(OSError):
        while time.monotonic() < until and time.time() - os.stat(path).st_mtime < SECONDS:
            time.sleep(0.05)
    if not os.path.lexists(path):
        return False, ""
    is_written = (head(path) or b"").startswith(b"<")
    return not is_written, WRITTEN if is_written else LACKING


def looking_like(path: str, trace: str, more: str) -> tuple:
    """The same of a file that has this name with more behind it. Beside the trace a copy is of no account; but a numbered one is of another
    session, unless it is the same."""
    is_there = os.path.lexists(trace)
    try:
        begin = head(path)
        if begin is None:
            return not is_there, UNREAD_COPY
        if not begin.startswith(BEGINS):
            return False, ""
        is_same = is_there and NUMBERED.fullmatch(more) and read_file(path) == read_file(trace)
    except Unread:
        is_same = False
    return not is_there or bool(NUMBERED.fullmatch(more) and not is_same), RENAMED
