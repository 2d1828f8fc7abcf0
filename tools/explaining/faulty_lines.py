"""What is wrong with a line that the program refuses, and what would be right."""
from __future__ import annotations

import re
import shlex
from collections.abc import Iterator
from itertools import islice
from typing import NamedTuple

CAUSE = re.compile(r"line (\d+): ([a-z ]+)(?:, have (\d+))?$")  # in the program's line on standard error
MOST_SHOWN = 120  # bytes of a faulty line or word
MOST_LOOKED = 1_000_000  # bytes of a faulty line: the words that begin in these are looked at
MOST_WORDS = 5  # of an entry, as far as it differs by its kind
FIRST_BYTES = 8000  # of a file that are looked at for bytes that no text has
BINARY = re.compile(rb"[\x00-\x06\x0e-\x1a\x1c-\x1f]")
PACKED = re.compile(rb"\x1f[\x8b\x9d]|BZh|\xfd7zXZ|\x28\xb5\x2f\xfd|\x04\x22\x4d\x18|PK\x03\x04")  # how compressed files begin
UTF16 = b"\xff\xfe", b"\xfe\xff"  # the marks with which such texts begin
MARK = b"\xef\xbb\xbf"  # that of UTF-8
NO_WORD = re.compile(rb"[^\x20-\x7e]")  # a byte that no word may have
NUMBER_WORD, NAME_WORD = re.compile(rb"0|[1-9][0-9]{0,9}"), re.compile(rb"[A-Za-z0-9_.-]{1,32}")
NO_NAME = re.compile(rb" (?![A-Za-z0-9_.-]{1,32}(?: |\Z))")  # the blank before a word that is no name
GREATEST = 4294967295
NUMBER = "a number (digits without leading zeros, at most 4294967295)"
NAME = "a name (1 to 32 letters, digits, `_`, `-` or `.`)"
ENTRIES = ["an entry is one of these, with one blank between two words and none at the end:",
           "  r ins a k : Names    replica r inserted a at position k, and answered Names",
           "  r del a : Names      replica r deleted a",
           "  r read : Names       replica r read the list",
           "  r view : Names       replica r showed a part of the list; only if line 1 is `trace 2`",
           "  r recv q n           operation n of replica q has arrived at r"]
LIMITS = {
    "entries full": "a replica has at most 16,384 entries, receipts counted: record shorter sessions, or fewer reads",
    "inserts full": "a replica makes at most 4,096 inserts: record shorter sessions",
    "long response": "a response has at most 4,096 names: record shorter documents, or a line or paragraph as one element",
    "places full": "the responses of a replica have at most 262,144 names together: read less often, or record shorter sessions",
}
KINDS = {"ins": 4, "del": 3, "read": 2, "view": 2}  # how many words stand before the colon


class Part(NamedTuple):
    """A part of a text, from one place up to another. It is not copied, since a line may have millions of words."""

    text: bytes
    begin: int
    end: int

    def content(self) -> bytes:
        return self.text[self.begin:self.end]

    def words(self) -> Iterator[Part]:
        """What stands between its blanks."""
        begin = self.begin
        while (end := self.text.find(b" ", begin, self.end)) >= 0:
            yield Part(self.text, begin, end)
            begin = end + 1
        yield Part(self.text, begin, self.end)

    def front(self) -> Part:
        """All of it, or of a long one the words that begin in what is looked at."""
        end = self.text.find(b" ", min(self.begin + MOST_LOOKED, self.end), self.end)
        return self if end < 0 else self._replace(end=end)

    def without_return(self) -> Part:
        return self._replace(end=self.end - 1) if self.text.endswith(b"\r", self.begin, self.end) else self


def line_of(trace: bytes, number: int) -> Part:
    """The line of this number; nothing at the end of the trace, where it is missing."""
    begin = 0
    while number > 1 and begin < len(trace):
        begin = trace.find(b"\n", begin) + 1 or len(trace)
        number -= 1
    end = trace.find(b"\n", begin)
    return Part(trace, begin, len(trace) if end < 0 else end)


def about_fault(error: str, trace: bytes, name: str) -> list:
    """What a faulty line of the file of this name is and what would be right, where the program's error names a line; else
    nothing. What is wrong with the whole file comes first."""
    found = CAUSE.search(error)
    if found is None:
        return []
    number, cause, have = int(found[1]), found[2].strip(), found[3]
    line = line_of(trace, number)
    line_told = f"line {number} is: {readable(line)}" if line.begin < len(trace) else f"line {number} is missing"
    what = no_trace(trace) if number == 1 else None
    if what:
        return [what, line_told]
    alone = line.without_return()
    is_crlf = alone != line and line.end < len(trace)
    return [*mending(trace, is_crlf, name), line_told, *right(cause, have, alone)]


def no_trace(trace: bytes) -> str | None:
    """What a file is that begins as no trace does, where that can be told."""
    if not trace:
        return "the file is empty"
    if re.match(rb"cert [12]\r?\n", trace):
        return "the file is a certificate, as `cert` writes it: give its trace instead"
    if PACKED.match(trace):
        return "the file is compressed: unpack it first"
    if not trace.startswith(UTF16) and BINARY.search(trace[:FIRST_BYTES]):
        return "the file is binary, and a trace is lines of ASCII"
    return None


def mending(trace: bytes, is_crlf: bool, name: str) -> list:
    """How the file was written otherwise than a trace, as some editors and systems do, and the command that mends it."""
    told, commands = [], []
    if trace.startswith(UTF16):
        told.append("the file is UTF-16, and a trace is ASCII")
        commands.append("iconv -f UTF-16 -t UTF-8")
    if trace.startswith(MARK):
        told.append("the file begins with a byte order mark, and a trace has none")
        commands.append("tail -c +4")
    if is_crlf or trace.startswith(UTF16) and b"\r" in trace:
        told.append("the line ends with CR LF, where a trace has LF alone")
        commands.append("tr -d '\\r'")
    if commands:
        first, *rest = commands
        source = shlex.quote(name) if name != "-" and name.isprintable() else "FILE"  # of another name a command is no line
        told.append("this mends it: " + " | ".join([f"{first} < {source}", *rest]) + " > mended.trace")
    return told


def readable(part: Part) -> str:
    """A line or a word, cut where it is long. A byte that is no printable ASCII stands as `\\x` and two digits, and so does a
    backslash."""
    size = part.end - part.begin
    told = "".join(map(shown, part.text[part.begin:min(part.end, part.begin + MOST_SHOWN)]))
    return told + (f".. ({size} bytes)" if size > MOST_SHOWN else "")


def shown(byte: int) -> str:
    return chr(byte) if 32 <= byte < 127 and byte != ord("\\") else f"\\x{byte:02x}"


def right(cause: str, have: str | None, line: Part) -> list:
    if cause in LIMITS:
        return [LIMITS[cause]]
    if cause == "header":
        return ["the first line of a trace is `trace 1`, or `trace 2` where it may have views, and nothing else"]
    if cause == "replicas":
        return ["the second line is `replicas R`, with R from 1 to 16"]
    if cause == "cut":
        return ["the last line has no line feed at its end: write one after each line, and see that the file is whole"]
    if cause == "no such replica":
        count = line_of(line.text, 2).content().decode().split()[1]
        return [f"line 2 says {count} replicas, and they count from 0: their numbers are below {count}"]
    if cause == "own receipt":
        return ["a replica receives what others did: it has its own operations without a receipt"]
    if cause == "not yet":
        _, _, replica, operation = [word.content().decode("ascii", "replace") for word in islice(line.words(), 4)]
        return [f"replica {replica} has {have} operations in the lines before, and operation {operation} is not among them",
                "a receipt stands after the operation that it names, also where logs of several machines are merged;",
                "operations count from 1, and receipts are not counted"]
    return [*what_is_wrong(line, cause), *ENTRIES]


def what_is_wrong(line: Part, cause: str) -> list:
    """What keeps a line from being an entry, where that can be told. Of a long one a front is looked at, and then the program's word for
    the cause is told."""
    looked = line.front()
    if looked.begin == looked.end:
        return ["an empty line is no entry"]
    other = NO_WORD.search(looked.text, looked.begin, looked.end)
    if other is not None:
        byte = looked.text[other.start()]
        return [f"byte {other.start() - looked.begin + 1} of the line is {shown(byte)}, which no word may have: words are of ASCII"]
    text, begin, end = looked
    if text.startswith(b" ", begin, end) or text.endswith(b" ", begin, end) or text.find(b"  ", begin, end) >= 0:
        return ["there is a blank too many: two together, or one at an end of the line"]
    words = list(islice(looked.words(), MOST_WORDS))
    wrong = wrong_word(words, looked)
    if wrong is None and words[1].content() == b"view" and text.startswith(b"trace 1\n"):
        return ["a trace of version 1 has no views: line 1 is `trace 2` where there are some"]
    if wrong is None and looked != line:
        return [f"the line is too long to be looked at whole: nothing is wrong with the words in its first {end - begin:,} bytes, and of the "
                f"whole line the program says `{cause}`"]
    return [wrong] if wrong else []


def wrong_word(words: list, looked: Part) -> str | None:
    """The first word that can't stand where it does, of the first ones or in the response."""
    if not is_number(words[0]):
        return f"{quoted(words[0])}, the first word, is not {NUMBER}"
    missing = Part(b"", 0, 0)
    second, third, fourth, fifth = [*words[1:], *[missing] * MOST_WORDS][:MOST_WORDS - 1]
    kind = readable(second)  # which is the word itself, where it is one of these
    if kind == "recv":
        is_right = len(words) == 4 and is_number(third) and is_number(fourth) and fourth.content() != b"0"
        return None if is_right else "after `recv` stand a replica's number and that of its operation, from 1, and nothing else"
    if kind not in KINDS:
        return f"{quoted(second)}, the second word, is not `ins`, `del`, `read`, `view` or `recv`"
    if kind in ("ins", "del") and not is_name(third):
        return f"{quoted(third)}, after `{kind}`, is not {NAME}"
    if kind == "ins" and not is_number(fourth):
        return f"{quoted(fourth)} stands where the position belongs, behind the element. A position is {NUMBER}"
    colon = {2: third, 3: fourth, 4: fifth}[KINDS[kind]]
    if readable(colon) != ":":
        return "the colon between the operation and its response is missing, or not a word by itself"
    bad = NO_NAME.search(looked.text, colon.end, looked.end)
    return None if bad is None else f"{quoted(next(looked._replace(begin=bad.end()).words()))}, in the response, is not {NAME}"


def quoted(word: Part) -> str:
    return f"`{readable(word)}`"


def is_number(word: Part) -> bool:
    return NUMBER_WORD.fullmatch(*word) is not None and int(word.content()) <= GREATEST


def is_name(word: Part) -> bool:
    return NAME_WORD.fullmatch(*word) is not None
