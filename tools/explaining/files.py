"""Files that tools read and write, and how their names are shown. A name may be any bytes, a file may be no file at all, and what is
written appears whole or not at all."""
from __future__ import annotations

import contextlib
import errno
import os
import re
import stat
from typing import NamedTuple

MOST_BYTES = 152_305_684  # of a trace that reaches every limit
COMMANDS = ("::", "##")  # so do lines begin that GitHub and others read as commands
INNER = re.compile(r"##(?=(?:vso)?\[)")  # so do commands that GitHub and Azure read anywhere in a line
MOST_GROWN = 1 << 16  # bytes that a file may have grown by, and still be read in one piece
CHANGED, CHANGED_BESIDE = "it changed while it was judged", "the file beside it changed while it was judged"
SIDE = ".lines"  # the end of the name of a file beside the trace, in whose first line a recorder says how many lines it saved
MOST_BESIDE = 1 << 27  # bytes of such a file
SMALL_MARK = b"small"  # a line there: the trace is one that --small wrote
BEGINS = b"trace 1\n", b"trace 2\n"
MOST_HEAD = 64  # bytes of what is looked at
PACKED = ".gz", ".bz2", ".xz", ".zst", ".lz4"  # ends of names of compressed files
ABSENT = [os.strerror(number) for number in (errno.ENOENT, errno.ENAMETOOLONG)]


class Unread(Exception):
    """A file that can't be read, or is none; the words say why."""


class Side(NamedTuple):
    """The file beside a trace: its name, and its bytes, or none, where it is absent or can't be read, and then why it can't."""

    name: str
    content: bytes | None = None
    why: str = ""


NO_SIDE = Side("-")  # of a trace that is in no file


def shown(text: str) -> str:
    """A name or a log's text for a message, a table or a page: what can't be printed stands as `\\x1b` and the like. So does the first
    letter of what CI would read as a command of its own, at the beginning of a line or anywhere in it."""
    told = INNER.sub(r"\\x23#", "".join(letter if letter.isprintable() else escaped(letter) for letter in text))
    if told.lstrip().startswith(COMMANDS):
        at = len(told) - len(told.lstrip())
        return f"{told[:at]}\\x{ord(told[at]):02x}{told[at + 1:]}"
    return told


def escaped(letter: str) -> str:
    is_byte = "\udc80" <= letter <= "\udcff"  # of a name that is no text
    return f"\\x{ord(letter) - 0xdc00:02x}" if is_byte else ascii(letter)[1:-1]


def opened(path: str, most: int = MOST_BYTES) -> int:
    """A descriptor of a regular file of at most so many bytes. A pipe or a device would never end."""
    try:
        descriptor = os.open(path, os.O_RDONLY | os.O_NONBLOCK | os.O_CLOEXEC)
    except OSError as error:
        raise Unread(error.strerror) from None
    about = os.fstat(descriptor)
    why = ""
    if stat.S_ISDIR(about.st_mode):
        why = "Is a directory"
    elif not stat.S_ISREG(about.st_mode):
        why = "it is no regular file"
    elif about.st_size > most:
        why = f"it has {about.st_size:,} bytes, and {'a trace' if most == MOST_BYTES else 'what is read here'} has at most {most:,}"
    if why:
        os.close(descriptor)
        raise Unread(why)
    return descriptor


def content(descriptor: int) -> bytes:
    """All bytes of an open file, wherever it was read up to: in one piece, which is not copied, unless it grows."""
    parts, at = [], 0
    try:
        most = min(os.fstat(descriptor).st_size, MOST_BYTES) + MOST_GROWN
        while (part := os.pread(descriptor, most, at)):
            parts.append(part)
            at += len(part)
            if at > MOST_BYTES:
                raise Unread(f"it grows, and a trace has at most {MOST_BYTES:,} bytes")
    except OSError as error:
        raise Unread(error.strerror) from None
    return b"".join(parts)


def state(file: int | str) -> tuple:
    """What another state of a file differs in, which is open or has this name; nothing where there is none."""
    try:
        about = os.stat(file)
    except OSError:
        return ()
    return about.st_dev, about.st_ino, about.st_size, about.st_mtime_ns, about.st_ctime_ns


class Before(NamedTuple):
    """The states of a trace and of the file beside it when the trace was opened."""

    trace: tuple
    side: tuple

    def changed(self, descriptor: int, path: str) -> str:
        """What has changed since then: the open trace, or which file has its name, or that beside it. Nothing, if none has."""
        if not self.trace == state(descriptor) == state(path):
            return CHANGED
        return CHANGED_BESIDE if self.side != state(name_beside(path)) else ""


def before(descriptor: int, path: str) -> Before:
    return Before(state(descriptor), state(name_beside(path)))


def name_beside(path: str) -> str:
    """The name of the file beside a trace, in small letters or capitals; of a link without one it is that beside the file which the link leads
    to."""
    for name in (path, os.path.realpath(path)) if os.path.islink(path) else (path,):
        for side in name + SIDE, name + SIDE.upper():
            if os.path.lexists(side):
                return side
    return os.path.realpath(path) + SIDE if os.path.islink(path) else path + SIDE


def side_of(path: str) -> Side:
    """The file beside the trace of this name."""
    name = name_beside(path)
    try:
        return Side(name, read_file(name, MOST_BESIDE))
    except Unread as error:
        return Side(name, None, absent(name) if str(error) in ABSENT else str(error))


def absent(name: str) -> str:
    """Why a file beside a trace that is not there may be there all the same: as a link to nothing, or compressed."""
    if os.path.islink(name):
        return "it is a link to nothing"
    packed = [end for end in PACKED if os.path.lexists(name + end)]
    return f"there is {shown(os.path.basename(name + packed[0]))} instead" if packed else ""


def read_both(path: str) -> tuple:
    """The bytes of a trace, and the file beside it, of one and the same time."""
    descriptor = opened(path)
    try:
        then = before(descriptor, path)
        both = content(descriptor), side_of(path)
        if then.changed(descriptor, path):
            raise Unread("it changed while it was read")
        return both
    finally:
        os.close(descriptor)


def read_file(path: str, most: int = MOST_BYTES) -> bytes:
    descriptor = opened(path, most)
    try:
        return content(descriptor)
    finally:
        os.close(descriptor)


def head(path: str) -> bytes | None:
    """The first bytes of a regular file; none where it can't be read."""
    try:
        descriptor = os.open(path, os.O_RDONLY | os.O_NONBLOCK | os.O_CLOEXEC)
    except OSError:
        return None
    try:
        return os.pread(descriptor, MOST_HEAD, 0) if stat.S_ISREG(os.fstat(descriptor).st_mode) else b""
    except OSError:
        return None
    finally:
        os.close(descriptor)


def write_file(path: str, data: bytes) -> None:
    """Writes a file that appears whole or not at all; what is no regular file, as a pipe, is written to. OSError where it can't be."""
    try:
        mode = os.stat(path).st_mode
    except FileNotFoundError:
        mode = None
    if mode is not None and not stat.S_ISREG(mode):
        with open(path, "wb") as file:
            file.write(data)
        return
    path = os.path.realpath(path)
    if mode is not None and not os.access(path, os.W_OK):
        raise PermissionError(13, "Permission denied", path)
    beside = os.path.join(os.path.dirname(path), f".domepeeler-{os.getpid()}-{abs(hash(path)) % 10**8}")
    descriptor = os.open(beside, os.O_WRONLY | os.O_CREAT | os.O_EXCL | os.O_CLOEXEC, 0o666)
    try:
        with open(descriptor, "wb") as file:
            file.write(data)
        if mode is not None:
            os.chmod(beside, stat.S_IMODE(mode))
        os.replace(beside, path)
    except BaseException:
        with contextlib.suppress(OSError):
            os.remove(beside)
        raise


def same_file(path: str, other: str) -> bool:
    """Whether two names are of one file, or would be."""
    try:
        return os.path.samefile(path, other)
    except OSError:
        return os.path.realpath(path) == os.path.realpath(other)


def is_trace(path: str) -> bool:
    return (head(path) or b"").startswith(BEGINS)


def is_small(path: str) -> bool:
    """Whether the file beside a trace says that --small wrote it."""
    try:
        return SMALL_MARK in read_file(name_beside(path), MOST_BESIDE).split(b"\n")[1:2]
    except Unread:
        return False


def trace_written_over(outputs: list, small: str | None = None) -> str:
    """Why these can't be written, if they can't: an output is a trace, as the first of `--html *.trace` is; with `small` one that --small did
    not write."""
    for output in outputs:
        if is_trace(output):
            return f"{shown(output)} is a trace, so it is not written to"
    if small and is_trace(small) and not is_small(small):
        return f"{shown(small)} is a trace that --small did not write, so it is not written to"
    return ""


def written_over(outputs: list, inputs: list) -> str:
    """Why these can't be written, if they can't: an output is an input, or another output."""
    for place, output in enumerate(outputs):
        if any(same_file(output, read) for read in inputs):
            return f"{shown(output)} is read, so it is not written to"
        if any(same_file(output, other) for other in outputs[:place]):
            return f"{shown(output)} is to be written twice"
    return ""
