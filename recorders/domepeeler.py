"""Records what the replicas of a list editor do and answer, and has Domepeeler judge it.

Copy this file into your project, or install the package in recorders/python, which is made of it. It needs Python 3 and nothing
else. docs/recording.md says where the calls go.

    recording = Recording(2)
    n = recording.insert(0, "a", 0, ["a"])   # replica 0 inserted a at position 0, and its list is now: a
    recording.received(1, 0, n)              # that operation was applied at replica 1
    recording.delete(1, "a", [])             # replica 1 deleted a, and its list is now empty
    recording.read(0, ["a"])                 # replica 0 read its list
    recording.view(0, ["a"])                 # replica 0 showed this part of its list
    recording.delivered([[], []])            # by now all has arrived everywhere, and these are the lists
    recording.save("session.trace")          # the trace as a file, for tools/explain
    report = recording.judge()               # asks the program
    assert report["verdict"] == "accepted" and not report["warnings"], recording.explain()  # which says it in words

An editor with a server that orders changes (Jupiter and its kin) promises the weak list specification alone, and is right with `refused 3`
or more. For such a one let the test end so:

    report = recording.judge(weak=True)
    assert report.get("weak") and not report["warnings"], recording.explain(weak=True)

Then a recording passes where weak holds; `contents`, `position`, `doubled` and `refused 2` still fail, and so do warnings.

Where updates have vector clocks, or ids, `received_clock` and `received_changes` write the receipts, and refuse what is not causal.
Where a log is read, `at` says from which of its lines the next calls come. `note` keeps a word for the whole recording, as "seed 17".
Threads may share a recording: each call is whole before the next one begins.

`Recording(2, stop=True)` judges the session after each call that takes a list, and raises `NotAccepted` in the call that answered wrong;
with `weak=True` too, in that after which weak doesn't hold.

Each call that a trace can't say raises `Refused`, or `Full` at a limit, and leaves the recording as it was. When the program ends by itself it says
on standard error if nothing has judged a recording, saved it or taken its text since something was recorded or refused; and if one is wrong that is
judged after each call. `os._exit`, a signal or a daemon's end hide that."""
from __future__ import annotations

import atexit
import contextlib
import errno
import itertools
import json
import mmap
import os
import random
import re
import shutil
import stat
import subprocess
import sys
import threading
import time
from bisect import bisect_right
from functools import lru_cache, wraps
from typing import Any, Callable, Dict, Hashable, Iterable, List, Mapping, NoReturn, Optional, Sequence, Set, Tuple, TypeVar, Union, cast

MOST_REPLICAS, MOST_ENTRIES, MOST_INSERTS = 16, 16384, 4096
MOST_NAMES, MOST_PLACES, MOST_POSITION, MOST_BYTES = 4096, 262144, 4294967295, 32
NAME = re.compile(r"[A-Za-z0-9_.-]{1,32}", re.ASCII)
WITH_SIGNS = re.compile(r"[A-Za-z0-9_.@,:/-]+", re.ASCII)  # an id that is translated
UUID = re.compile(r"[0-9A-Fa-f]{8}(-[0-9A-Fa-f]{4}){3}-[0-9A-Fa-f]{12}", re.ASCII)
__tracebackhide__ = True  # pytest shows a refused call where the test makes it
ONE_LOG = "one replica's log is no recording: merge the logs first"
FORKED = "this process was forked, so it would record into a copy that nothing judges: let each process keep a log of its own, and merge them"
COPIED = "this is a copy of a recording, and nothing judges what it gets: record into the one that the fixture began"
TOLD_OF_COPIES = ["", "a forked process recorded into its copy of this recording, so what it says is not recorded",
                  "something was recorded into a copy of this recording, so what it says is not recorded"]
NOT_STOPPED = "one replica's log can't be judged after each call, but only when the logs are merged"
MOST_NOTES, MOST_LETTERS = 20, 200  # of a recording, and of a note
MOST_DELIVERED = 100  # calls of `delivered` of which the tool is told
MOST_TRIES = 100  # of saving where another process saves too
NO_NOTE = re.compile("[\0-\x1f\x7f-\x9f\u2028-\u202e\u2066-\u2069\ud800-\udfff]")  # what is no part of a printable line
MOST_SHOWN = 40  # letters of a wrong value in an error
COMMAND = re.compile(" *(?=::|##)")  # stands before the signs with which a line of a CI service's commands begins
MORE_CHANGES = "; if the update carried more than one change, say how many (`changes`)"
MOST_CALLERS, MOST_FRAMES = 3, 100  # of an entry: callers that are kept, and frames that are looked at for them
HEAD_LINES = 2  # of a trace, before its entries
LINE = re.compile(r"\bline (\d+)(?=[,):]| of the trace,| \(\d+ recv )")  # a line of the trace in the explainer's words
LAST = "\nThe list specifications\n"  # the title of the last section there
WARNINGS = re.compile(r"^What this verdict may hide\n(?:  .*\n)*", re.MULTILINE)  # a section there
NAMED = re.compile(r"\((?:in )?line (\d+)\)")  # a line in a warning, whose place is put behind it
STATEMENT = re.compile(r"^(  stop before line (\d+) of the trace, .*)\n  In [A-Z][A-Za-z ]*, put this code right before .*\n.*",
                       re.MULTILINE)  # for a debugger
MOST_WARNED = 5  # deletes, or inserts, that are warned of one by one
MOST_CHANGES = 3  # that are warned of one by one of those that a replica lacks, or has made nothing of

LIBRARY = "lib/domepeeler/libdomepeeler.so.0"  # below the folder whose bin has the program
_PROCESS = os.getpid()  # that may judge by the library; one that is forked from it asks the program
MOST_SHARED = 1 << 20  # recordings of a process that have a byte of their own of what it shares
# By process that began recordings, which alone sets bytes back: what it shares with those forked from it, a byte for each of its recordings, of
# whether these recorded into a copy.
_FORKS: Dict[int, mmap.mmap] = {os.getpid(): mmap.mmap(-1, MOST_SHARED)}
_NOT_COPIED, _FORK, _COPY = range(3)  # such a byte: nobody did, a forked process, or who holds another copy
_begun = itertools.count()
# By recording, of those that nobody has judged, saved or taken the text of since something was recorded or refused: the process, where the last line
# came from, and where it was judged after each call and a call was wrong, what is.
_UNREAD: Dict[int, Tuple[int, Callers, str]] = {}
_TELLING: Set[int] = set()  # workers of multiprocessing that tell of theirs when they end

Clock = Union[Sequence[int], Mapping[int, int]]
Words = Union[str, Sequence[str]]
Lists = Union[Sequence[Iterable[str]], Mapping[int, Iterable[str]]]
Callers = Tuple[Tuple[str, int], ...]
Call = TypeVar("Call", bound=Callable[..., Any])


class Refused(ValueError):
    """No trace can say this."""


class Full(Refused):
    """The replica has reached a limit of traces: end this session, and begin another."""

    is_wrong = False  # whether the response has more names than were inserted: it is wrong, whatever comes, and a refused call that is told of


class NotCausal(Refused):
    """An update was applied at a replica that lacks a change which the update's author had seen."""


class Report(Dict[str, Any]):
    """The program's report. Whether it is there says nothing of the verdict, so it is neither true nor false."""

    judged_by = ""  # the name of the program, or the path of the library, that judged

    def __bool__(self) -> bool:
        raise TypeError("a report says by its `verdict` and `warnings` whether the recording is right, and is neither true nor false itself")


class NotAccepted(AssertionError):
    """With `stop`: the session is not accepted up to here, or with `weak` too, weak doesn't hold. Says what `explain` says."""


def _alone(call: Call) -> Call:
    """A call of a recording that no other thread's call interrupts."""
    @wraps(call)
    def alone(recording: Recording, *given: Any, **named: Any) -> Any:
        with recording._lock:
            return call(recording, *given, **named)

    return cast(Call, alone)


def _records(call: Call) -> Call:
    """A call that records, if no call before it was wrong."""
    @wraps(call)
    def records(recording: Recording, *given: Any, **named: Any) -> Any:
        __tracebackhide__ = True  # so that the debugger of pytest stops in the caller
        with recording._lock:
            wrong = recording._stopped
            answer = None if wrong else recording._noting(call, *given, **named)
        if wrong:
            raise NotAccepted(wrong)
        return answer

    return cast(Call, records)


def _answers(call: Call) -> Call:
    """A call that hands in what an editor answered: where that is asked for, the session up to it is judged."""
    @wraps(call)
    def answers(recording: Recording, *given: Any, **named: Any) -> Any:
        __tracebackhide__ = True
        why: Optional[Exception] = None
        with recording._lock:
            if recording._stopped:
                why = NotAccepted(recording._stopped)
            else:
                answer = recording._noting(call, *given, **named)
                why = recording._wrong() if recording._stop else None
        if why is not None:
            raise why
        return answer

    return cast(Call, answers)


class _Replica:
    """What one replica has recorded: how many entries, operations, inserts and names in responses; which of its operations are
    changes; how many operations of each other replica it has received, now and at each operation of its own."""

    def __init__(self, replicas: int) -> None:
        self.entries = self.operations = self.inserts = self.places = 0
        self.changes: List[int] = []
        self.others: Tuple[int, ...] = (0,) * replicas
        self.pasts: List[Tuple[int, ...]] = []


class Recording:
    """A session of so many replicas; with `only`, the log that this one replica keeps on its own machine.

    With `stop` the session is judged after each call that takes a list. The first after which it is not accepted, or with `weak` too,
    weak doesn't hold, raises `NotAccepted`; its line is recorded. Later calls raise that again, and record nothing. `weak` is for an
    editor that promises the weak list specification alone. A program that can't be run raises as in `judge`."""

    def __init__(self, replicas: int, only: Optional[int] = None, stop: bool = False, weak: bool = False) -> None:
        self._lock = threading.RLock()
        self._process = os.getpid()
        self._is_watched = self._is_copy = False  # whether something judges it, and will judge no copy; and whether it is such a copy
        self._number = next(_begun)
        self._begun_by, self._slot = os.getpid(), self._number % MOST_SHARED  # of _FORKS
        if self._begun_by not in _FORKS:
            _FORKS.setdefault(self._begun_by, mmap.mmap(-1, MOST_SHARED))
        _FORKS[self._begun_by][self._slot] = _NOT_COPIED
        if not _whole(replicas, 1, MOST_REPLICAS):
            raise Refused(f"replicas are 1 to {MOST_REPLICAS}, not {replicas}" if _is_int(replicas) else
                          _not_whole("number of replicas", replicas, 1, MOST_REPLICAS))
        replicas = int(replicas)
        self._lines = ["trace 1", f"replicas {replicas}"]
        self._callers: List[Callers] = []  # of each entry: the lines of code from which it was recorded, or the log's line
        self._log_line: Callers = ()  # the log's line whose entries are recorded now, if any
        self._has_log = False  # whether some entries came from a log
        self._replicas = [_Replica(replicas) for _ in range(replicas)]
        self._only: Optional[int] = None
        self._ids: Dict[str, str] = {}  # by name: the id that has this name, where another id might come to the same name
        self._short: Dict[str, str] = {}  # by id: its name, where that is a shorter one
        self._changes: Dict[Hashable, List[Tuple[int, int]]] = {}  # by the id of a change: its operations
        self._notes: List[str] = []
        self._delivered: List[Tuple[int, int]] = []  # of each call of `delivered`, the first and the last line of the trace that it wrote
        self._refused = 0  # how many calls that record were refused, but at a limit, and but for those that were not causal
        self._first_refused = ""  # the words of the first of them
        self._open: Dict[Tuple[int, int], Tuple[int, str]] = {}  # by replica and author the last change that was not causal there, if it has
        # not come since, and why it was not
        self._stop, self._weak = stop, weak
        self._stopped = ""  # what is wrong with the session, in words
        if only is not None:
            self._only = self._known(only)
        if stop and only is not None:
            raise Refused(NOT_STOPPED)
        if weak and not stop:
            raise Refused("a recording takes `weak` only with `stop`: else give it to `judge` and `explain`")

    def __getstate__(self) -> Dict[str, Any]:
        context = sys.modules.get("multiprocessing.context")
        if self._is_watched and context is not None and context.get_spawning_popen() is not None:  # for a process that shares nothing with this one
            raise Refused(COPIED)
        is_unread = self._number in _UNREAD
        if _is_worker():  # of which the copy is what is handed on
            self._mark_read()
        return {**{name: value for name, value in vars(self).items() if name != "_lock"}, "_is_copy": self._is_watched, "_is_unread": is_unread}

    def __setstate__(self, state: Dict[str, Any]) -> None:
        is_unread = state.pop("_is_unread", False)
        vars(self).update(state, _lock=threading.RLock(), _process=os.getpid(), _number=next(_begun))  # a copy has its own lock
        if is_unread:
            self._mark_unread()

    @_alone
    def at(self, file: Union[str, "os.PathLike[str]", None] = None, line: int = 1) -> None:
        """What is recorded from now on comes from this line of this file, a log's: `save` and `explain` name it, and not the lines of your
        code. Without a file, from your code again."""
        if file is not None and not isinstance(file, (str, os.PathLike)):
            raise Refused(f"a file is a path, not {_told(file)}")
        if not _whole(line, 1, MOST_POSITION):
            raise Refused(_not_whole("line", line, 1, MOST_POSITION, " of a file"))
        self._log_line = () if file is None else ((os.fsdecode(file), int(line)),)

    @_answers
    def insert(self, replica: int, name: str, position: int, response: Iterable[str], change_id: Optional[Hashable] = None) -> int:
        """The replica inserted the name at the position and then had this list. Answers the operation's number. The change's id is for
        `received_changes`."""
        return self._operation(replica, "ins", response, name, position, change_id)

    @_answers
    def delete(self, replica: int, name: str, response: Iterable[str], change_id: Optional[Hashable] = None) -> int:
        """The replica deleted the name and then had this list. Answers the operation's number. The change's id is for
        `received_changes`."""
        return self._operation(replica, "del", response, name, None, change_id)

    @_answers
    def read(self, replica: int, response: Iterable[str]) -> int:
        """The replica read its list. Answers the operation's number."""
        return self._operation(replica, "read", response)

    @_answers
    def view(self, replica: int, part: Iterable[str]) -> int:
        """The replica showed this part of its list, the window of an editor say. Answers the operation's number."""
        n = self._operation(replica, "view", part)
        self._lines[0] = "trace 2"
        return n

    @_records
    def received(self, replica: int, author: int, n: int) -> None:
        """The author's operation n, and with it all that the author had seen by then, was applied at the replica."""
        replica, author = self._acts(replica), self._known(author)
        if not _whole(n, 1, MOST_POSITION):
            raise Refused(_not_whole("operation number", n, 1, MOST_POSITION))
        self._of_another(replica, author)
        n, have = int(n), self._replicas[author].operations
        if n > have and self._only is None:
            raise Refused(f"{author}.{n} cannot have arrived: replica {author} has {have} operations so far")
        self._room(replica)
        self._receipt(replica, author, n)
        self._close(replica)

    @_records
    def received_clock(self, replica: int, author: int, clock: Clock, changes: int = 1) -> None:
        """The author's update with this vector clock was applied at the replica: it carries the last of the author's changes that the
        clock counts, or so many of the last. The clock has for each replica how many of its inserts and deletes the author had seen,
        its own with the carried ones among them; as a list, or by replica. Writes the receipt, unless the replica has it already."""
        replica, author = self._acts(replica), self._known(author)
        self._of_another(replica, author)
        counts = self._counts(clock)
        if not counts[author]:
            raise Refused(f"this is an update of replica {author}, but its clock counts no change of replica {author}")
        if not _whole(changes, 1, counts[author]):
            raise Refused(f"an update carries 1 to {counts[author]} of the changes that its clock counts, not {changes}"
                          if _is_int(changes) else _not_whole("number of changes", changes, 1, counts[author]))
        own = self._replicas[author].changes
        carried = {(author, n) for n in own[counts[author] - int(changes):counts[author]]}
        self._take(replica, carried, [of.changes[count - 1] if count else 0 for of, count in zip(self._replicas, counts)])

    @_records
    def received_changes(self, replica: int, change_ids: Iterable[Hashable]) -> None:
        """An update that carries the changes with these ids, and no others, was applied at the replica. Writes a receipt for each
        author of them, unless the replica has it already."""
        replica = self._acts(replica)
        self._in_one_recording()
        if isinstance(change_ids, (str, bytes)) or not isinstance(change_ids, Iterable):
            raise Refused("an update carries a list or a set of ids")
        carried: Set[Tuple[int, int]] = set()
        for change_id in change_ids:
            _check_id(change_id)
            if change_id not in self._changes:
                raise Refused(f"no change with the id {_quoted(change_id)} has been recorded")
            carried.update(self._changes[change_id])
        self._take(replica, carried, [])

    @_answers
    def delivered(self, lists: Lists) -> None:
        """By now everything has arrived everywhere, and these are the lists that the replicas show: one for each, in their order or by
        replica. Writes for each replica the receipts that are missing, and a read with its list: what an editor has lost, or still
        holds back, is then missing there."""
        if self._only is not None:
            raise Refused("one replica's log can't say that everything has arrived: the others are recorded elsewhere")
        shown = self._shown(lists)
        before = self._mark()
        try:
            for replica, names in enumerate(shown):
                for author, of in enumerate(self._replicas):
                    last = of.changes[-1] if of.changes else 0
                    if author != replica and last > self._replicas[replica].others[author]:
                        self._room(replica)
                        self._receipt(replica, author, last)
                self._said(replica, "read", names, None, None, None)
        except BaseException:
            self._back_to(before)
            raise
        self._delivered.append((before[0] + 1, len(self._lines)))
        self._open = {at: (MOST_POSITION + 1, words) for at, (_, words) in self._open.items()}  # it stays so: none of these receipts brought it

    @_alone
    def note(self, text: str) -> None:
        """Keeps a word of yours for the whole recording, as "seed 17": one line of 1 to 200 printable characters. `save` writes it beside
        the trace, and `explain` tells it. A recording takes 20."""
        if not isinstance(text, str) or not 1 <= len(text) <= MOST_LETTERS or NO_NOTE.search(text):
            raise Refused(f"a note is one line of 1 to {MOST_LETTERS} printable characters")
        if len(self._notes) == MOST_NOTES:
            raise Refused(f"a recording has {MOST_NOTES} notes, the most that it takes")
        self._notes.append(text)

    @_alone
    def lines(self) -> int:
        """How many lines the text has so far: 2 before the first entry."""
        return len(self._lines)

    @_alone
    def clock(self, replica: int) -> List[int]:
        """How many inserts and deletes of each replica this one has: the vector clock of an update that it makes now."""
        replica = self._acts(replica)
        self._in_one_recording()
        return [bisect_right(of.changes, have) for of, have in zip(self._replicas, self._has(replica))]

    @_alone
    def ids(self) -> Dict[str, str]:
        """By name in the trace the id that has this name, for each id that is no name itself."""
        return {name: given for given, name in self._short.items()}

    @_alone
    def text(self) -> str:
        """The trace; of one replica's log the text that merge.py takes."""
        self._mark_read()
        return self._text()

    @_alone
    def save(self, path: Union[str, "os.PathLike[str]"]) -> None:
        """Writes the text into a file of this name; and first, into one with `.lines` behind the name, how many lines it has, so
        that the tools notice where the end of the file is lost, your notes, and from where in your code or log each line was recorded.
        Each file appears whole, or not at all. A second recording that is saved under the same name takes the place of the first, without a
        word: give each that you want to keep its own. A pipe or a device has none beside it."""
        text = self._text().encode()
        name = os.fsdecode(path)
        if os.path.exists(name) and not os.path.isfile(name):
            with open(name, "wb") as file:
                file.write(text)
            self._mark_read()
            return
        marks = ["language python", *(f"note {note}" for note in self._notes), *(f"delivered {first} {last}" for first, last in self._delivered),
                 *(["log"] if self._has_log else []), *(f"refused {_printable(told)}" for told in self._refusals())]
        beside = [str(len(self._lines)), *marks, *(f"{line} {places}" for line, places in self._places())]
        if not name or not os.path.isdir(os.path.dirname(os.path.realpath(name))):
            raise FileNotFoundError(errno.ENOENT, os.strerror(errno.ENOENT), name)
        told = "".join(f"{line}\n" for line in beside).encode(errors="replace")
        for _ in range(MOST_TRIES):
            _put(f"{name}.lines", told)
            _put(name, text)  # as bytes: each line ends with LF alone on every system
            if _may_hold(f"{name}.lines", told):
                self._mark_read()
                return
            time.sleep(random.random() / 100)  # another process has put its own there, and this trace is beside it
        raise OSError(errno.EBUSY, "another process saves there too", name)

    @_alone
    def warnings(self) -> List[str]:
        """What an accepted verdict on this recording may hide: that a call was refused, say, that replicas end differently, or that nothing
        was recorded."""
        if self._only is not None:
            raise Refused(ONE_LOG)
        return self._refusals() + [self._with_nearest(told) for told in _hidden(self._lines)]

    @_alone
    def judge(self, program: Optional[Words] = None, weak: bool = False) -> Report:
        """The program's report on this recording, and as `warnings` what it may hide where it says `accepted`, or that weak holds,
        asked for or not; and of any whether calls were refused. The program is the words that are given, or that of $DOMEPEELER. Where neither
        names one, the library judges in this process: that of $DOMEPEELER_LIBRARY, that of this package, or the one that was installed with the
        `domepeeler` of the PATH; but not in a forked process. Else it is `domepeeler`. The report's `judged_by` says which it was."""
        report = self._report(program)
        is_passing = report["verdict"] == "accepted" or report.get("weak") is True
        report["warnings"] = self.warnings() if is_passing else self._refusals()
        return report

    def _report(self, program: Optional[Words] = None) -> Report:
        """The program's report on this recording, or the library's."""
        here = None if program or os.environ.get("DOMEPEELER") or self._only is not None else _library()
        if here is not None and os.getpid() == _PROCESS:
            name, done = here(self._text().encode())
        else:
            name, done = self._ask(program, "DOMEPEELER", "domepeeler", "the program's", ["verdict", "--json", "-"])
        if done.returncode not in (0, 1) or not done.stdout.startswith(b"{"):
            _ended(name, done, "report")
        report = Report(_report_in(name, done.stdout))
        report.judged_by = name
        is_accepted, operations = report["verdict"] == "accepted", sum(one.operations for one in self._replicas)
        if is_accepted != (done.returncode == 0) or report.get("operations") != operations:
            raise RuntimeError(f"{_escaped(name)} ended with status {done.returncode} and printed a report that is not on this recording")
        self._mark_read()
        return report

    def _wrong(self) -> Optional[Exception]:
        """What is wrong with the session up to here, which is then remembered; or why it was not judged."""
        try:
            report = self._report()
        except RuntimeError as why:
            self._mark_unread()
            return why.with_traceback(None)
        if report["verdict"] == "accepted" or (self._weak and report.get("weak") is True):
            if self._open:  # what is to come still
                self._mark_unread()
            return None
        try:
            self._stopped = self.explain(weak=self._weak).rstrip("\n")
        except RuntimeError as why:
            self._stopped = f"The recording is not accepted: {report['verdict']}. There is no explanation: {why}"
        self._mark_unread()
        return NotAccepted(self._stopped)

    @_alone
    def explain(self, explainer: Optional[Words] = None, weak: bool = False) -> str:
        """What the report means, in words, with the lines of your code or log, the ids of the numbered names, and your notes.
        With `weak`, where the weak list specification alone is asked for. The tool is the words that are given, that of
        $DOMEPEELER_EXPLAIN, or `domepeeler-explain`, beside the program of $DOMEPEELER or on the PATH."""
        told_of = [word for first, last in self._delivered[-MOST_DELIVERED:] for word in ("--delivered", f"{first}-{last}")]
        told_of += [word for told in self._refusals() for word in ("--refused", told)]
        name, done = self._ask(explainer, "DOMEPEELER_EXPLAIN", _beside_program("domepeeler-explain"), "the tool's",
                               [*(["--weak"] if weak else []), "--language", "python", *told_of, "-"])
        if done.returncode not in (0, 1) or not done.stdout:
            _ended(name, done, "words")
        self._mark_read()
        said = done.stdout.decode(errors="replace")
        words = set(re.findall("[A-Za-z0-9]+", said))
        told = [f"{name}: {_escaped(given)}" for name, given in self.ids().items() if name in words and name.startswith("long")]
        return _before_last(self._with_places(said), _section("Ids that were too long for a name", told) + _section("Your notes", self._notes))

    def _with_nearest(self, warnings: str) -> str:
        """The warnings, with the nearest place in your code or log of each line of the trace that they name in brackets."""
        here = _folder_here()

        def placed(said: re.Match[str]) -> str:
            callers = self._callers[int(said[1]) - HEAD_LINES - 1]
            return f"{said[0][:-1]}, {_place(*callers[0], here)})" if callers else said[0]

        return NAMED.sub(placed, warnings)

    def _with_places(self, said: str) -> str:
        """The words, with the places of the lines of the trace that they name."""
        said = WARNINGS.sub(lambda section: self._with_nearest(section[0]), said)
        named = {int(line) for line in LINE.findall(said)}
        found = {line: places for line, places in self._places() if line in named}
        if self._has_log and found:  # then the editor is not this program, which a debugger might stop
            then = {line: f" The editor then writes {places}." for line, places in found.items()}
            said = STATEMENT.sub(lambda stop: stop[1] + then.get(int(stop[2]), ""), said)
        lines: Dict[str, List[str]] = {}
        for line, places in found.items():
            lines.setdefault(places, []).append(str(line))
        told = [f"line{'' if len(at) == 1 else 's'} {_joined(at)}: {places}" for places, at in lines.items()]
        return _before_last(said, _section(f"In your {'log' if self._has_log else 'code'}", told))

    def _places(self) -> List[Tuple[int, str]]:
        """By line of the trace the places in your code, where there are some."""
        here = _folder_here()
        return [(line, ", called from ".join(_place(file, at, here) for file, at in callers))
                for line, callers in enumerate(self._callers, HEAD_LINES + 1) if callers]

    def _ask(self, given: Optional[Words], variable: str, command: str, whose: str,
             more: List[str]) -> Tuple[str, subprocess.CompletedProcess[bytes]]:
        """How a program ended that had the text on its standard input, and its name."""
        if self._only is not None:
            raise Refused(ONE_LOG)
        asked = given or os.environ.get(variable) or command
        words = [asked] if isinstance(asked, str) else list(asked)
        try:
            return words[0], subprocess.run([*words, *more], input=self._text().encode(), capture_output=True)
        except OSError as why:
            raise RuntimeError(f"{_escaped(words[0])} cannot be run ({why.strerror}): set {variable} to {whose} path") from None

    def _known(self, replica: int) -> int:
        if not _whole(replica, 0, len(self._replicas) - 1):
            raise Refused(f"no replica {replica} among 0 to {len(self._replicas) - 1}" if _is_int(replica) else
                          _not_whole("replica", replica, 0, len(self._replicas) - 1))
        return int(replica)  # a number of an enumeration is written otherwise

    def _acts(self, replica: int) -> int:
        replica = self._known(replica)
        if self._only not in (None, replica):
            raise Refused(f"this log is of replica {self._only} alone, not of {replica}")
        return replica

    def _of_another(self, replica: int, author: int) -> None:
        if author == replica:
            raise Refused(f"replica {replica} receives no operation of its own")

    def _in_one_recording(self) -> None:
        if self._only is not None:
            raise Refused("one replica's log does not know the changes of the others: send each operation's number, and call received")

    def _room(self, replica: int, entries: int = 1) -> None:
        if self._replicas[replica].entries + entries > MOST_ENTRIES:
            raise Full(f"replica {replica} has {self._replicas[replica].entries} entries"
                       + (f"; a trace takes at most {MOST_ENTRIES}" if entries > 1 else ", the most that a trace takes"))

    def _operation(self, replica: int, kind: str, response: Iterable[str], name: Optional[str] = None, position: Optional[int] = None,
                   change_id: Optional[Hashable] = None) -> int:
        """Records it, or raises and leaves all as it was, the names of ids among it."""
        before = len(self._ids)
        try:
            return self._said(replica, kind, response, name, position, change_id)
        except BaseException:
            self._forget(before)
            raise

    def _forget(self, names: int) -> None:
        """Remembers no more than so many names, the first ones."""
        while len(self._ids) > names:
            self._short.pop(self._ids.popitem()[1], None)

    def _mark(self) -> Tuple[int, int, bool, List[Tuple[int, int, int, int, int, Tuple[int, ...]]]]:
        """What says how far everything has been recorded by now."""
        return len(self._lines), len(self._ids), self._has_log, [
            (one.entries, one.operations, one.inserts, one.places, len(one.changes), one.others) for one in self._replicas]

    def _back_to(self, mark: Tuple[int, int, bool, List[Tuple[int, int, int, int, int, Tuple[int, ...]]]]) -> None:
        """Makes undone what was recorded since the mark; no id of a change may be among it."""
        lines, names, self._has_log, replicas = mark
        del self._lines[lines:], self._callers[lines - HEAD_LINES:]
        self._forget(names)
        for one, (entries, operations, inserts, places, changes, others) in zip(self._replicas, replicas):
            one.entries, one.operations, one.inserts, one.places, one.others = entries, operations, inserts, places, others
            del one.changes[changes:], one.pasts[operations:]

    def _shown(self, lists: Lists) -> List[Any]:
        """What `delivered` is given, as a list by replica."""
        wanted = f"delivered takes one list for each of the {len(self._replicas)} replicas, not "
        if isinstance(lists, (str, bytes, set, frozenset)) or not isinstance(lists, Iterable):
            raise Refused(wanted + _told(lists))
        if isinstance(lists, Mapping):
            for replica in lists:
                self._known(replica)
        if isinstance(lists, Mapping) and len(lists) == len(self._replicas):
            return [lists[replica] for replica in range(len(self._replicas))]
        shown = list(lists)
        if isinstance(lists, Mapping) or len(shown) != len(self._replicas):
            raise Refused(f"{wanted}{len(shown)}")
        return shown

    def _said(self, replica: int, kind: str, response: Iterable[str], name: Optional[str], position: Optional[int],
              change_id: Optional[Hashable]) -> int:
        replica = self._acts(replica)
        words = [str(replica), kind]
        if kind in ("ins", "del"):
            words.append(self._name(name))
        if kind == "ins":
            if not _whole(position, 0, MOST_POSITION):
                raise Refused(_not_whole("position", position, 0, MOST_POSITION))
            words.append(str(int(cast(int, position))))
        names = [self._name(one) for one in _listed(response)]
        if change_id is not None:
            self._check_change(replica, change_id)
        self._fits(replica, int(kind == "ins"), len(names))
        own = self._replicas[replica]
        own.entries += 1
        own.operations += 1
        own.inserts += kind == "ins"
        own.places += len(names)
        own.pasts.append(own.others)
        if kind in ("ins", "del"):
            own.changes.append(own.operations)
        if change_id is not None:
            self._changes.setdefault(change_id, []).append((replica, own.operations))
        self._write(" ".join([*words, ":", *names]))
        return own.operations

    def _fits(self, replica: int, inserts: int, names: int) -> None:
        """The limits, in the order in which the program tests them."""
        self._room(replica)
        own = self._replicas[replica]
        if own.inserts + inserts > MOST_INSERTS:
            raise Full(f"replica {replica} has {MOST_INSERTS} inserts, the most that a trace takes")
        if names <= MOST_NAMES and own.places + names <= MOST_PLACES:
            return
        full = Full(f"a response of {names} names; a trace takes at most {MOST_NAMES}" if names > MOST_NAMES else
                    f"{own.places + names} names over the responses of replica {replica}; a trace takes at most {MOST_PLACES}")
        full.is_wrong = self._only is None and names > inserts + sum(one.inserts for one in self._replicas)
        raise full

    def _name(self, given: Any) -> str:
        """The name in the trace: what is given, or of an id that is no name, a name that no other one has."""
        if not isinstance(given, str):
            raise Refused(f"a name is a string, not {_told(given)}")
        given = str.__str__(given)  # a string of an enumeration is another key
        if given in self._short:
            return self._short[given]
        if NAME.fullmatch(given):
            if len(given) == MOST_BYTES or given.startswith("long") or "-" in given:  # others never stand for an id
                if self._ids.setdefault(given, given) != given:
                    raise Refused(f'name "{given}" is already used for the id "{_escaped(self._ids[given])}"')
            return given
        name = given.replace("-", "") if UUID.fullmatch(given) else ""
        if len(given.encode(errors="surrogatepass")) <= MOST_BYTES:
            if not WITH_SIGNS.fullmatch(given):
                raise Refused(f'name "{_escaped(given)}" is not 1 to 32 of A-Z a-z 0-9 _ - . (an id may have @ , : and / too)')
            name = ("e" if given[0].isdigit() else "") + re.sub("[@,:/]", "-", given)
        if not name or len(name) > MOST_BYTES or name in self._ids:
            name = self._numbered(given)
        self._ids[name] = given
        self._short[given] = name
        return name

    def _numbered(self, given: str) -> str:
        """The next name that stands for an id."""
        if self._only is not None:
            raise Refused(f'one replica\'s log can\'t give the id "{_escaped(given)}" a short name, since each machine would give another')
        number = 1 + len(self._short)
        while f"long{number}" in self._ids:
            number += 1
        return f"long{number}"

    def _check_change(self, replica: int, change_id: Hashable) -> None:
        _check_id(change_id)
        for author, n in self._changes.get(change_id, [])[:1]:
            if author != replica:
                raise Refused(f"the id {_quoted(change_id)} is that of {author}.{n} already")

    def _has(self, replica: int) -> List[int]:
        """How many operations of each replica this one has."""
        has = list(self._replicas[replica].others)
        has[replica] = self._replicas[replica].operations
        return has

    def _counts(self, clock: Clock) -> List[int]:
        """The clock as a list."""
        self._in_one_recording()
        if isinstance(clock, Mapping):
            for replica in clock:
                self._known(replica)
            counts = [clock.get(replica, 0) for replica in range(len(self._replicas))]
        else:
            counts = [] if isinstance(clock, (str, bytes)) or not isinstance(clock, Iterable) else list(clock)
        if len(counts) != len(self._replicas):
            raise Refused(f"a clock has a count for each of {len(self._replicas)} replicas")
        for replica, count in enumerate(counts):
            if not _whole(count, 0, MOST_POSITION):
                raise Refused(_not_whole("count", count, 0, MOST_POSITION, " of a clock"))
            have = len(self._replicas[replica].changes)
            if count > have:
                raise Refused(f"the clock counts {count} changes of replica {replica}, which has recorded {have}")
        return list(map(int, counts))

    def _take(self, replica: int, carried: Set[Tuple[int, int]], seen: List[int]) -> None:
        """Writes the receipts of what an update carries, if the replica has or gets with it all that the authors had seen."""
        has = self._has(replica)
        lacking = [self._first_lacking(other, have, carried) for other, have in enumerate(has)]
        ends: Dict[int, int] = {}
        for author, n in sorted(change for change in carried if change[1] > has[change[0]]):
            past = self._replicas[author].pasts[n - 1]
            for other, first in enumerate(lacking):
                last = max(n - 1 if other == author else past[other], seen[other] if seen else 0)
                if first and first <= last:
                    why = NotCausal(f"not causal: {author}.{n} was applied at replica {replica} before {other}.{first}, "
                                    f"which replica {author} had seen; {other}.{first} must arrive first or in the same update: "
                                    "perhaps it was lost, or only the call for it is missing" + (MORE_CHANGES if seen and other == author else ""))
                    self._open[replica, author] = max((n, str(why)), self._open.get((replica, author), (0, "")))
                    raise why
            ends[author] = n
        self._room(replica, len(ends))
        for author, n in ends.items():
            self._receipt(replica, author, n)
        self._close(replica)

    def _close(self, replica: int) -> None:
        """What was not causal at the replica, and has come since, is open no more."""
        for author, have in enumerate(self._replicas[replica].others):
            if self._open.get((replica, author), (have + 1, ""))[0] <= have:
                del self._open[replica, author]

    def _noting(self, call: Call, *given: Any, **named: Any) -> Any:
        """What a call that records answers. If it is refused, that is remembered: what it says is not recorded. At a limit the session ends
        and the caller knows it; and of what is not causal is known whether it comes later."""
        if self._process != os.getpid():
            self._mark_copied(_FORK)
            raise Refused(FORKED)
        if self._is_copy:
            self._mark_copied(_COPY)
            raise Refused(COPIED)
        try:
            return call(self, *given, **named)
        except (Full, NotCausal) as why:
            if isinstance(why, Full) and why.is_wrong:
                self._note_refused(str(why))
            raise
        except Exception as why:  # Refused; or what was given can't be looked at
            self._note_refused(str(why) if isinstance(why, Refused) else _escaped(f"{type(why).__name__}: {why}"[:MOST_LETTERS]))
            raise

    def _mark_copied(self, how: int) -> None:
        """Has the recording know of which this is a copy, if this process shares anything with its own."""
        if self._begun_by in _FORKS:
            _FORKS[self._begun_by][self._slot] = how

    def _note_refused(self, words: str) -> None:
        self._first_refused = self._first_refused or words
        self._refused += 1
        self._mark_unread()

    def _mark_unread(self) -> None:
        if not self._is_watched:
            _UNREAD[self._number] = self._process, self._callers[-1] if self._callers else (), self._stopped.partition("\n")[0]
            _tell_at_end_of_worker()

    def _mark_read(self) -> None:
        _UNREAD.pop(self._number, None)

    def _text(self) -> str:
        return "\n".join(self._lines) + "\n"

    def _refusals(self) -> List[str]:
        """That calls were refused, a line each, if what they say was not recorded later."""
        told = [f"a call was refused, and what it says never came: {words}" for _, (_, words) in sorted(self._open.items())[:1]]
        if self._begun_by in _FORKS and _FORKS[self._begun_by][self._slot]:
            told.insert(0, TOLD_OF_COPIES[_FORKS[self._begun_by][self._slot]])
        if self._refused == 1:
            return [f"a call was refused, so what it says is not recorded: {self._first_refused}", *told]
        if self._refused:
            return [f"{self._refused} calls were refused, so what they say is not recorded; the first: {self._first_refused}", *told]
        return told

    def _first_lacking(self, other: int, have: int, carried: Set[Tuple[int, int]]) -> int:
        """The first of the other's changes that is neither among so many operations of it nor carried; 0 if there is none."""
        changes = self._replicas[other].changes
        at = bisect_right(changes, have)
        while at < len(changes) and (other, changes[at]) in carried:
            at += 1
        return changes[at] if at < len(changes) else 0

    def _receipt(self, replica: int, author: int, n: int) -> None:
        """Writes a receipt that may be written."""
        own = self._replicas[replica]
        own.entries += 1
        if self._only is None:
            others = [max(pair) for pair in zip(own.others, self._replicas[author].pasts[n - 1])]
            others[author] = max(others[author], n)
            if tuple(others) != own.others:
                own.others = tuple(others)
        self._write(f"{replica} recv {author} {n}")

    def _write(self, line: str) -> None:
        self._lines.append(line)
        self._callers.append(self._log_line or _callers())
        self._has_log = self._has_log or bool(self._log_line)
        if not self._stop:
            self._mark_unread()


@atexit.register
def _tell_unread() -> None:
    """Says on standard error of which recordings of this process nobody knows whether they are right; and which ones, judged after each call, are
    wrong, since whoever caught the error may have told nobody."""
    left = [(callers, told) for process, callers, told in _UNREAD.copy().values() if process == os.getpid()]
    _UNREAD.clear()  # a worker that was spawned comes here twice
    unread, wrong = [callers for callers, told in left if not told], [(callers, told) for callers, told in left if told]
    with contextlib.suppress(Exception):  # where nobody hears it, nothing is to be done
        if unread:
            which, saved, taken = ("a recording", "saved it", "taken its text") if len(unread) == 1 else (
                f"{len(unread)} recordings", "saved them", "taken their texts")
            _tell(f"nothing has judged {which}, {saved} or {taken} since something was recorded or refused", unread[-1])
        if wrong:
            which = "a recording that was judged after each call is wrong" if len(wrong) == 1 else (
                f"{len(wrong)} recordings that were judged after each call are wrong, the last one")
            _tell(f"{which}: {wrong[-1][1]}", wrong[-1][0])


def _tell(words: str, callers: Callers) -> None:
    file, line = next(iter(callers), ("", 0))
    place = f"; the last line was recorded by {_place(file, line, _folder_here())}" if file else ""
    print(f"domepeeler: {words}{place}", file=sys.stderr, flush=True)


def _tell_at_end_of_worker() -> None:
    """Has a worker of multiprocessing tell it too: what is registered otherwise these don't call."""
    util = sys.modules.get("multiprocessing.util")
    if util and os.getpid() not in _TELLING and _is_worker():
        _TELLING.add(os.getpid())
        util.Finalize(None, _tell_unread, exitpriority=0)


def _is_worker() -> bool:
    """Whether multiprocessing began this process."""
    process = sys.modules.get("multiprocessing.process")
    return process is not None and process.parent_process() is not None


def _callers() -> Callers:
    """The nearest callers that are your code, each as its file and line; one line once where it calls itself."""
    found: List[Tuple[str, int]] = []
    frame = sys._getframe(1)
    for _ in range(MOST_FRAMES):
        place = frame.f_code.co_filename, frame.f_lineno
        if _is_yours(frame.f_code.co_filename) and place not in found[-1:]:
            found.append(place)
        if len(found) == MOST_CALLERS or frame.f_back is None:
            break
        frame = frame.f_back
    return tuple(found)


@lru_cache(maxsize=None)
def _is_yours(file: str) -> bool:
    """Whether a file is neither this one, nor of Python itself, nor of an installed package or its commands."""
    parts = file.replace(os.sep, "/").split("/")
    folders = [os.path.dirname(path) for path in (getattr(os, "__file__", ""), sys.executable) if path]
    installed = [os.path.join(folder, "") for folder in folders if folder]
    return not (file == _callers.__code__.co_filename or file.startswith(("<", *installed))
                or "site-packages" in parts or "dist-packages" in parts)


def _place(file: str, line: int, here: str) -> str:
    """A line of code, with the file's path from the current folder if it lies below that."""
    path = file[len(here):] if here and file.startswith(here) else file
    return _printable(path) + f":{line}"


def _printable(text: str) -> str:
    return "".join(letter if letter.isprintable() else "?" for letter in text)


def _put(path: str, content: bytes) -> None:
    """Puts a file with this content in the place of what is there: all of it, or an error and nothing. A link stays one."""
    target = os.path.realpath(path)
    new = os.path.join(os.path.dirname(target), f".domepeeler-{os.urandom(8).hex()}")
    try:
        mode = stat.S_IMODE(os.stat(target).st_mode) if os.path.exists(target) else None
        if mode is not None and not os.access(target, os.W_OK):
            raise PermissionError(errno.EACCES, os.strerror(errno.EACCES))
        try:
            with open(new, "xb") as file:
                file.write(content)
            if mode is not None:
                os.chmod(new, mode)
            os.replace(new, target)
        except BaseException:
            if os.path.exists(new):
                os.unlink(new)
            raise
    except OSError as why:
        raise OSError(why.errno, why.strerror, path) from None


def _may_hold(path: str, content: bytes) -> bool:
    """Whether the file has this content, where it can be read."""
    try:
        with open(path, "rb") as file:
            return file.read(len(content) + 1) == content
    except OSError:
        return True


def _folder_here() -> str:
    try:
        return os.path.join(os.getcwd(), "")
    except OSError:  # the folder is gone
        return ""


def _section(title: str, told: List[str]) -> str:
    """A section of an explanation; nothing where it would be empty."""
    return f"\n{title}\n" + "".join(f"  {_plain(line)}\n" for line in told) if told else ""


def _before_last(said: str, sections: str) -> str:
    """An explanation with more sections, before its last one: what the verdict says by definition."""
    last = said.rfind(LAST) if LAST in said else len(said)
    return said[:last] + sections + said[last:]


def _plain(line: str) -> str:
    """A line, with its first sign as in an error where a CI service would take it for a command."""
    command = COMMAND.match(line)
    return f"{command[0]}\\x{ord(line[command.end()]):02x}{line[command.end() + 1:]}" if command else line


class _End:
    """How a replica ends, as the entries of a trace are read: how many operations of each replica it has, now and at each operation of
    its own; its changes, as the numbers of these operations and their lines; the last list that it showed, which a
    view is not; and what came since that."""

    def __init__(self, replicas: int) -> None:
        self.has: Tuple[int, ...] = (0,) * replicas
        self.pasts: List[Tuple[int, ...]] = []
        self.changes: List[int] = []
        self.lines: List[int] = []
        self.receipts = 0
        self.at_last = self.has
        self.since: List[Tuple[int, int, int]] = []  # the receipts since its last list: author, n and line
        self.is_viewed = False  # whether a view follows them
        self.shown: Optional[str] = None


def _hidden(lines: List[str]) -> List[str]:
    """What an accepted trace with these lines may hide; tools/explaining/warnings.py says the same of a file."""
    if len(lines) == HEAD_LINES:
        return ["nothing was recorded: the trace has no entry, so the verdict says nothing about your editor"]
    ends = [_End(int(lines[1].split(" ")[1])) for _ in range(int(lines[1].split(" ")[1]))]
    inserted: Set[str] = set()
    deletes: List[Tuple[str, str]] = []
    past_end: List[str] = []
    for line, entry in enumerate(lines[HEAD_LINES:], HEAD_LINES + 1):
        words = entry.split(" ", 4)
        replica, kind = int(words[0]), words[1]
        one = ends[replica]
        if kind == "recv":
            author, n = int(words[2]), int(words[3])
            one.receipts += 1
            one.has = _most(one.has, ends[author].pasts[n - 1])
            one.since.append((author, n, line))
            one.is_viewed = False
            continue
        n = len(one.pasts) + 1
        one.has = one.has[:replica] + (n,) + one.has[replica + 1:]
        one.pasts.append(one.has)
        one.is_viewed = kind == "view"
        if not one.is_viewed:
            one.at_last, one.since = one.has, []
            one.shown = entry.partition(":")[2]
        if kind in ("ins", "del"):
            one.changes.append(n)
            one.lines.append(line)
        if kind == "ins":
            inserted.add(words[2])
            before = words[4].count(" ") - 1  # names in the list before it
            if int(words[3]) > before:
                past_end.append(f"line {line}, {replica}.{n}: replica {replica} inserted {words[2]} at position {words[3]}, past the end of "
                                f"a list of length {before}, so it counts as the end: is position {words[3]} right?")
        elif kind == "del":
            deletes.append((words[2], f"line {line}, {replica}.{n}: replica {replica} deleted `{words[2]}`, which no line inserts, so nothing "
                                      "was there to delete: the name is wrong, or its insert was not recorded"))
    of_nothing = [told for name, told in deletes if name not in inserted]
    silent = [f"replica {replica} has {'receipts, but no operation' if one.receipts else 'no entry'}: nothing that it showed is judged"
              for replica, one in enumerate(ends) if not one.pasts]
    late, strangers = _received_last(ends), _unheard(ends)
    return [*_unshown(ends, late), *_different(ends, late), *strangers, *silent, *_some(of_nothing, "delete", "of elements that no line inserts"),
            *_some(past_end, "insert", "past the end of a list")]


def _most(one: Tuple[int, ...], two: Tuple[int, ...]) -> Tuple[int, ...]:
    return tuple(max(pair) for pair in zip(one, two))


def _some(told: List[str], what: str, which: str) -> List[str]:
    more = len(told) - MOST_WARNED
    return told[:MOST_WARNED] + ([f"and {more} more {what}{'' if more == 1 else 's'} {which}"] if more > 0 else [])


def _different(ends: List[_End], late: Dict[int, List[str]]) -> List[str]:
    """Whether the last lists that replicas showed differ as sets, and which changes never arrived at which replica. Of an author of which
    a replica never hears that is said by itself. A late one's list is an older one, which is said by itself too."""
    lists: Dict[frozenset[str], List[int]] = {}
    for replica, one in enumerate(ends):
        if one.shown is not None and replica not in late:
            lists.setdefault(frozenset(one.shown.split()), []).append(replica)
    lacking = [(replica, _lacked(ends, replica)) for replica, one in enumerate(ends) if one.pasts]
    alike: Dict[str, List[int]] = {}
    for replica, (changes, count) in lacking:
        if count:
            alike.setdefault(_listing(changes, count), []).append(replica)
    never = [f"{told} never arrived at replica{'' if len(where) == 1 else 's'} {_joined(map(str, where))}" for told, where in alike.items()]
    lacked, is_one = "; ".join(never), len(alike) == 1 and all(count < 2 for _, (_, count) in lacking)
    lost = "Unless it was still on its way, it was lost or is held back" if is_one else "Unless they were still on their way, they were lost or are held back"
    if len(lists) < 2:
        return [f"in this recording {lacked}. {lost}"] if never else []
    among = sorted(sum(lists.values(), []))
    same = [f"{_joined(map(str, one))} show the same one" for one in lists.values() if len(one) > 1]
    told = f"the last lists of replicas {_joined(map(str, among))} differ" + (f" ({'; '.join(same)})" if same else "")
    if any(count and replica not in among for replica, (_, count) in lacking):
        return [told, f"in this recording {lacked}. {lost}"]
    return [f"{told}: {lacked} in this recording. {lost}" if never else told]


def _lacked(ends: List[_End], replica: int) -> Tuple[List[str], int]:
    """The changes that never arrived at the replica, in the order of the trace, as many as are told, and how many there are; none of an
    author of which it never hears."""
    has, count = ends[replica].has, 0
    found: List[Tuple[int, str]] = []
    for author, other in enumerate(ends):
        heard = bisect_right(other.changes, has[author])
        if heard and author != replica:
            count += len(other.changes) - heard
            told = slice(heard, heard + MOST_CHANGES)
            found += [(line, f"{author}.{n}") for n, line in zip(other.changes[told], other.lines[told])]
    return [f"{name} (line {line})" for line, name in sorted(found)[:MOST_CHANGES]], count


def _unheard(ends: List[_End]) -> List[str]:
    """Of replicas that did something, and never heard of a change of another."""
    told = []
    for replica, one in enumerate(ends):
        others = [str(author) for author, other in enumerate(ends)
                  if other.changes and author != replica and other.changes[0] > one.has[author]]
        if one.pasts and others:
            which = f"replica{'' if len(others) == 1 else 's'} {_joined(others)}"
            told.append(f"replica {replica} never hears of {which}: no receipt brings it an insert or a delete from there, so nothing "
                        "shows how it applies these. At the end of a session let everyone receive everything, and then read the list")
    return told


def _received_last(ends: List[_End]) -> Dict[int, List[str]]:
    """By replica the last receipts that bring changes, and are followed by no list that it shows, or by a view alone."""
    late = {}
    for replica, one in enumerate(ends):
        has, news = one.at_last, []
        for author, n, line in one.since:
            after = _most(has, ends[author].pasts[n - 1])
            if any(bisect_right(other.changes, now) > bisect_right(other.changes, before)
                   for other, before, now in zip(ends, has, after)):
                news.append(f"{author}.{n} (in line {line})")
            has = after
        if one.pasts and news:
            late[replica] = news
    return late


def _unshown(ends: List[_End], late: Dict[int, List[str]]) -> List[str]:
    return [f"replica {replica} shows no list{' but a view' if ends[replica].is_viewed else ''} after it received {_listing(news, len(news))}: "
            "let each replica read at the end" for replica, news in late.items()]


def _listing(told: List[str], count: int) -> str:
    """The first of so many, and how many more there are."""
    more = count - MOST_CHANGES
    return _joined(told[:MOST_CHANGES] + ([f"{more} more"] if more > 0 else []))


def _joined(words: Iterable[str]) -> str:
    *front, last = words
    return f"{', '.join(front)} and {last}" if front else last


def _is_int(number: Any) -> bool:
    return isinstance(number, int) and not isinstance(number, bool)


def _whole(number: Any, least: int, most: int) -> bool:
    return _is_int(number) and least <= number <= most


def _not_whole(what: str, number: Any, least: int, most: int, of: str = "") -> str:
    """Says that a value is not such a number: a whole number itself, or else its type."""
    wanted = f"is not a whole number from {least} to {most}"
    return f"{what} {number}{of} {wanted}" if _is_int(number) else f"{what}{of} {wanted} but {_told(number)}"


def _told(value: Any) -> str:
    """A wrong value, with its type."""
    if value is None:
        return "None"
    if isinstance(value, str):
        return f'the string "{_escaped(value[:MOST_SHOWN])}"' + (".." if len(value) > MOST_SHOWN else "")
    if isinstance(value, (bool, float)):
        return f"the {type(value).__name__} {value}"
    return f"the number {value}" if isinstance(value, int) and abs(value) <= MOST_POSITION else f"a value of type {_escaped(type(value).__name__)}"


def _escaped(text: str) -> str:
    """A name, an id or another text for an error: a byte that is no printable ASCII stands as `\\x1b`, and so does the first sign of what
    a CI service would take for a command."""
    command = COMMAND.match(text)
    first = command.end() if command else -1
    return "".join(chr(byte) if 0x20 <= byte < 0x7F and at != first else f"\\x{byte:02x}"
                   for at, byte in enumerate(text.encode(errors="surrogatepass")))


def _listed(response: Any) -> List[Any]:
    if isinstance(response, (set, frozenset)):
        raise Refused("a response is a list: a set has no order")
    try:
        names = None if isinstance(response, (str, bytes)) else iter(response)
    except TypeError:
        names = None
    if names is None:
        raise Refused("a response is a list of names")
    return list(names)


def _check_id(change_id: Any) -> None:
    try:
        hash(change_id)
    except TypeError:
        raise Refused(f"an id of a change is a string, a number or a tuple of these, not {_told(change_id)}") from None


def _quoted(change_id: Hashable) -> str:
    return f'"{_escaped(change_id)}"' if isinstance(change_id, str) else _escaped(repr(change_id))


@lru_cache(maxsize=None)
def _library() -> Optional[Callable[[bytes], Tuple[str, subprocess.CompletedProcess[bytes]]]]:
    """A call that judges a trace in this process by the library, and answers the library's path and what the program would end with; none where
    there is no library."""
    import ctypes  # which takes a while, and is not wanted by who only records

    asked, program = os.environ.get("DOMEPEELER_LIBRARY"), shutil.which("domepeeler")
    in_package = os.path.join(os.path.dirname(os.path.abspath(__file__)), os.path.basename(LIBRARY))
    prefixes = [os.path.join(os.path.dirname(os.path.abspath(__file__)), "..", "..", "..")]  # where this file lies as tools/install puts it
    prefixes += [os.path.dirname(os.path.dirname(os.path.realpath(program)))] if program else []
    path = asked or next(filter(os.path.isfile, [in_package, *(os.path.normpath(os.path.join(prefix, LIBRARY)) for prefix in prefixes)]), "")
    if not path:
        return None
    try:
        loaded = ctypes.CDLL(path)
    except OSError as why:
        if not asked:
            return None
        raise RuntimeError(f"{_escaped(path)} cannot be loaded: {_escaped(str(why))}") from None

    class End(ctypes.Structure):
        """`struct domepeeler_end` of domepeeler_judge.h."""

        _fields_ = [("status", ctypes.c_uint32), ("line", ctypes.c_uint32), ("length", ctypes.c_size_t)]

    verdict = loaded.domepeeler_verdict
    verdict.argtypes = [ctypes.c_char_p, ctypes.c_size_t, ctypes.c_uint32, ctypes.c_char_p, ctypes.c_size_t]
    verdict.restype = End

    def judged(text: bytes) -> Tuple[str, subprocess.CompletedProcess[bytes]]:
        size = 4096
        while True:
            room = ctypes.create_string_buffer(size)
            end = verdict(text, len(text), 1, room, size)
            if end.status != 4:  # the room is long enough
                break
            size = end.length
        said = room.raw[:end.length]
        if end.status in (0, 1):
            return path, subprocess.CompletedProcess([path], end.status, said, b"")
        return path, subprocess.CompletedProcess([path], end.status, b"", b"finder: " + (said or (b"line %d" % end.line if end.line else b"memory")))

    return judged


def _beside_program(command: str) -> str:
    """The command's path where it lies beside the program of $DOMEPEELER; else the command."""
    folder = os.path.dirname(os.environ.get("DOMEPEELER", ""))
    path = os.path.join(folder, command)
    return path if folder and os.path.isfile(path) and os.access(path, os.X_OK) else command


def _report_in(name: str, printed: bytes) -> Dict[str, Any]:
    try:
        report = json.loads(printed)
    except (ValueError, RecursionError):
        report = None
    if not isinstance(report, dict) or not isinstance(report.get("verdict"), str):
        raise RuntimeError(f"{_escaped(name)} printed something that is no report")
    return report


def _ended(name: str, done: subprocess.CompletedProcess[bytes], lacking: str) -> NoReturn:
    """Says how a program ended of whose words there are none, or not the right ones."""
    if done.returncode < 0:
        raise RuntimeError(f"{_escaped(name)} was ended by signal {-done.returncode}")
    why = done.stderr.decode(errors="replace").strip()
    is_told = why or done.returncode not in (0, 1)
    raise RuntimeError(f"{_escaped(name)} ended with status {done.returncode}" + (f": {_escaped(why)}" if is_told else f" and printed no {lacking}"))
