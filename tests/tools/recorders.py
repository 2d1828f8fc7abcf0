#!/usr/bin/env python3
"""recorders.py PROGRAM: each recorder of recorders/ makes the calls of one table, and must answer each as it stands there.

What is expected was written by hand from docs/formats.md. Needs node, rustc and gcc; where emacs, or Hypothesis or pytest for
Debian's Python, are missing it installs Debian's packages, and fails if it can't."""
import copy
import json
import os
import pickle
import re
import select
import shlex
import shutil
import signal
import subprocess
import sys
import tempfile
import threading
import time
import weakref
from collections import Counter
from collections.abc import Iterator
from enum import Enum
from fractions import Fraction
from pathlib import Path
from random import Random
from urllib.parse import unquote, unquote_to_bytes

ROOT = Path(__file__).resolve().parents[2]
sys.path[:0] = [str(ROOT / "tests"), str(ROOT / "tools")]
from explaining.warnings import hidden  # noqa: E402
from shared.program import Tally, install, library_of, need, processor_seconds, program_of, run  # noqa: E402

DRIVERS = ROOT / "tests" / "tools" / "recorder_drivers"
EXAMPLES = ROOT / "examples"
EXPLAIN = str(ROOT / "tools" / "explain")
DEBIAN_PYTHON = "/usr/bin/python3"
LANGUAGES = {"py": "python", "mjs": "javascript", "rs": "rust", "c": "c", "el": "emacs-lisp"}
GCC = ["gcc", "-std=c99", "-Wall", "-Wextra", "-Werror"]
TYPED = ["rs", "c"]  # languages in which some wrong calls can't be written
sys.path.insert(0, str(ROOT / "recorders"))

CYCLE = """new 3 -> ok
insert 0 x 0 x -> ok 1
received 1 0 1 -> ok
received 2 0 1 -> ok
insert 1 a 0 a x -> ok 1
insert 2 b 1 x b -> ok 1
delete 0 x -> ok 2
received 0 1 1 -> ok
received 0 2 1 -> ok
read 0 b a -> ok 3
"""
CYCLE_REPORT = {
    "inserts": 3, "k": 3, "operations": 5, "replicas": 3, "strong": False, "verdict": "refused", "weak": True,
    "steps": [{"from": "x", "response": ["x", "b"], "shown": "2.1", "to": "b"},
              {"from": "b", "response": ["b", "a"], "shown": "0.3", "to": "a"},
              {"from": "a", "response": ["a", "x"], "shown": "1.1", "to": "x"}]}

NAME = "is not 1 to 32 of A-Z a-z 0-9 _ - . (an id may have @ , : and / too)"
LETTERS32 = "abcdefghijklmnopqrstuvwxyz_-.019"
UUID, UUID_DIGITS = "123e4567-e89b-12d3-a456-426614174000", "123e4567e89b12d3a456426614174000"
ALMOST_UUIDS = ["123e4567-e89b-12d3-a456-42661417400g", "123e4567e-89b-12d3-a456-426614174000", "123e4567_e89b_12d3_a456_426614174000"]
ONE_NUMBER = "one replica's log can't give the id \"{}\" a short name, since each machine would give another"

# A long id, and how an error shows it: what is no printable ASCII by its bytes, and so the first sign of what a CI service takes for a command.
ODD_ID, ODD_SHOWN = "%20::%0A%1B%C3%A4%7F" + "a" * 30, " \\x3a:\\x0a\\x1b\\xc3\\xa4\\x7f" + "a" * 30

# Calls, each with its answer, and the lines of the trace behind the first two. `%` and two digits stand for a byte.
SAID = [
    ("the textbook cycle", CYCLE, (EXAMPLES / "libinfinity_three_way_cycle.trace").read_text().splitlines()[2:]),
    ("nothing", "new 1 -> ok\n", []),
    ("insert, delete, read", "new 1 -> ok\ninsert 0 a 0 a -> ok 1\ndelete 0 a -> ok 2\nread 0 -> ok 3\n",
     ["0 ins a 0 : a", "0 del a :", "0 read :"]),
    ("sixteen replicas", "new 16 -> ok\nread 15 -> ok 1\nreceived 14 15 1 -> ok\n", ["15 read :", "14 recv 15 1"]),
    ("names of 1 and of 32 bytes", f"new 1 -> ok\ninsert 0 Z 0 Z -> ok 1\nread 0 Z {LETTERS32} -> ok 2\n",
     ["0 ins Z 0 : Z", f"0 read : Z {LETTERS32}"]),
    ("the last position", "new 1 -> ok\ninsert 0 a 4294967295 a -> ok 1\n", ["0 ins a 4294967295 : a"]),
    ("a receipt once more", "new 2 -> ok\nread 0 -> ok 1\nreceived 1 0 1 -> ok\nreceived 1 0 1 -> ok\nread 1 -> ok 1\n",
     ["0 read :", "1 recv 0 1", "1 recv 0 1", "1 read :"]),
    ("wrong lists and doubled names are for the judge",
     "new 1 -> ok\ninsert 0 a 0 b b -> ok 1\ninsert 0 a 0 -> ok 2\ndelete 0 c c -> ok 3\n",
     ["0 ins a 0 : b b", "0 ins a 0 :", "0 del c : c"]),
    ("views", "new 2 -> ok\ninsert 0 a 0 a -> ok 1\ninsert 0 b 1 a b -> ok 2\nview 0 -> ok 3\nreceived 1 0 3 -> ok\nview 1 b -> ok 1\nread 1 a b -> ok 2\n",
     ["0 ins a 0 : a", "0 ins b 1 : a b", "0 view :", "1 recv 0 3", "1 view : b", "1 read : a b"]),
    ("one replica's log with a view", "new 3 1 -> ok\nview 1 a -> ok 1\n", ["1 view : a"]),
    ("one replica's log", "new 3 1 -> ok\nreceived 1 0 9 -> ok\nread 1 a -> ok 1\nreceived 1 2 4 -> ok\n",
     ["1 recv 0 9", "1 read : a", "1 recv 2 4"]),
    ("a UUID", f"new 2 -> ok\ninsert 0 {UUID} 0 {UUID} -> ok 1\nview 0 {UUID} -> ok 2\ndelete 0 {UUID} -> ok 3\n"
     f"id_of {UUID_DIGITS} -> ok {UUID}\nid_of {UUID} -> none\n",
     [f"0 ins {UUID_DIGITS} 0 : {UUID_DIGITS}", f"0 view : {UUID_DIGITS}", f"0 del {UUID_DIGITS} :"]),
    ("a UUID in large letters is another id", f"new 1 -> ok\ninsert 0 {UUID} 0 -> ok 1\ninsert 0 {UUID.upper()} 0 -> ok 2\n",
     [f"0 ins {UUID_DIGITS} 0 :", f"0 ins {UUID_DIGITS.upper()} 0 :"]),
    ("a UUID whose digits are another's name", f"new 1 -> ok\ninsert 0 {UUID_DIGITS} 0 -> ok 1\ninsert 0 {UUID} 0 {UUID_DIGITS} -> ok 2\n"
     f"read 0 {UUID} {UUID_DIGITS} -> ok 3\nid_of {UUID_DIGITS} -> none\nid_of long1 -> ok {UUID}\n",
     [f"0 ins {UUID_DIGITS} 0 :", f"0 ins long1 0 : {UUID_DIGITS}", f"0 read : long1 {UUID_DIGITS}"]),
    ("a name that a UUID has", f"new 1 -> ok\ninsert 0 {UUID} 0 -> ok 1\n"
     f"read 0 {UUID_DIGITS} -> refused name \"{UUID_DIGITS}\" is already used for the id \"{UUID}\"\nread 0 {UUID} -> ok 2\n",
     [f"0 ins {UUID_DIGITS} 0 :", f"0 read : {UUID_DIGITS}"]),
    ("long ids", f"new 2 -> ok\ninsert 0 {LETTERS32}x 0 {LETTERS32}x -> ok 1\ninsert 1 4@{LETTERS32} 0 {LETTERS32}x 4@{LETTERS32} -> ok 1\n"
     f"delete 1 {LETTERS32}x 4@{LETTERS32} -> ok 2\nread 0 {'%C3%A4' * 17} -> ok 2\nid_of long1 -> ok {LETTERS32}x\n"
     f"id_of long2 -> ok 4@{LETTERS32}\nid_of long4 -> none\n",
     ["0 ins long1 0 : long1", "1 ins long2 0 : long1 long2", "1 del long1 : long2", "0 read : long3"]),
    ("ids that are almost UUIDs", "new 1 -> ok\n" + "".join(f"read 0 {one} -> ok {n}\n" for n, one in enumerate(ALMOST_UUIDS, 1)),
     ["0 read : long1", "0 read : long2", "0 read : long3"]),
    ("numbers that names have", f"new 1 -> ok\ninsert 0 long1 0 -> ok 1\nread 0 {LETTERS32}x -> ok 2\n"
     f"read 0 long2 -> refused name \"long2\" is already used for the id \"{LETTERS32}x\"\nread 0 longer -> ok 3\n",
     ["0 ins long1 0 :", "0 read : long2", "0 read : longer"]),
    ("a refused call keeps no number", f"new 1 -> ok\nread 0 {LETTERS32}x a;b -> refused name \"a;b\" {NAME}\nid_of long1 -> none\n"
     f"read 0 long1 {LETTERS32}y a;b -> refused name \"a;b\" {NAME}\nread 0 {LETTERS32}z {UUID} -> ok 1\n"
     f"id_of long1 -> ok {LETTERS32}z\n", [f"0 read : long1 {UUID_DIGITS}"]),
    ("one replica's log numbers no ids", f"new 3 1 -> ok\nread 1 {UUID} -> ok 1\n"
     f"read 1 {LETTERS32}x -> refused {ONE_NUMBER.format(LETTERS32 + 'x')}\nread 1 {UUID.upper()} -> ok 2\n",
     [f"1 read : {UUID_DIGITS}", f"1 read : {UUID_DIGITS.upper()}"]),
    ("an id with a sign that no name has", "new 2 -> ok\ninsert 0 2@alice 0 2@alice -> ok 1\ninsert 1 b,0@c.d 0 2@alice b,0@c.d -> ok 1\n"
     "delete 1 2@alice b,0@c.d -> ok 2\nview 0 @ -> ok 2\nid_of e2-alice -> ok 2@alice\nid_of b-0-c.d -> ok b,0@c.d\nid_of - -> ok @\n"
     "id_of 2@alice -> none\n",
     ["0 ins e2-alice 0 : e2-alice", "1 ins b-0-c.d 0 : e2-alice b-0-c.d", "1 del e2-alice : b-0-c.d", "0 view : -"]),
    ("ids with colons and slashes", "new 1 -> ok\ninsert 0 alice:7 0 alice:7 -> ok 1\nread 0 alice:7 7:a/b :: / -> ok 2\nread 0 alice-7 -> refused name "
     "\"alice-7\" is already used for the id \"alice:7\"\nread 0 :/ -> ok 3\nid_of alice-7 -> ok alice:7\nid_of e7-a-b -> ok 7:a/b\nid_of long5 -> ok :/\n",
     ["0 ins alice-7 0 : alice-7", "0 read : alice-7 e7-a-b -- -", "0 read : long5"]),
    ("two ids that come to one name", "new 1 -> ok\nread 0 a@b a,b -> ok 1\nread 0 a,b a@b -> ok 2\nid_of long2 -> ok a,b\n",
     ["0 read : a-b long2", "0 read : long2 a-b"]),
    ("an id whose translation is another's name", "new 1 -> ok\ninsert 0 e2-alice 0 -> ok 1\nread 0 2@alice e2-alice -> ok 2\n"
     "id_of long1 -> ok 2@alice\nid_of e2-alice -> none\n", ["0 ins e2-alice 0 :", "0 read : long1 e2-alice"]),
    ("a name that a translated id has", "new 1 -> ok\ninsert 0 2@alice 0 2@alice -> ok 1\n"
     'read 0 e2-alice -> refused name "e2-alice" is already used for the id "2@alice"\nread 0 2@alice -> ok 2\n',
     ["0 ins e2-alice 0 : e2-alice", "0 read : e2-alice"]),
    ("an id that is too long when it is translated", f"new 1 -> ok\ninsert 0 1{LETTERS32[:30]}@ 0 {LETTERS32[:31]}@ -> ok 1\n"
     f"id_of long1 -> ok 1{LETTERS32[:30]}@\n", [f"0 ins long1 0 : {LETTERS32[:31]}-"]),
    ("long ids behind a translated one", f"new 1 -> ok\nread 0 a@b {LETTERS32}x -> ok 1\n", ["0 read : a-b long2"]),
    ("a refused call keeps no translation", f"new 1 -> ok\nread 0 a@b a;b -> refused name \"a;b\" {NAME}\nid_of a-b -> none\n"
     f"read 0 c-d a;b -> refused name \"a;b\" {NAME}\nread 0 a-b c@d -> ok 1\nid_of c-d -> ok c@d\n", ["0 read : a-b c-d"]),
    ("a long id of odd letters", f"new 1 -> ok\nread 0 {ODD_ID} -> ok 1\n"
     f'read 0 long1 -> refused name "long1" is already used for the id "{ODD_SHOWN}"\n', ["0 read : long1"]),
    ("a long id of odd letters in one replica's log", f"new 3 1 -> ok\nread 1 {ODD_ID} -> refused {ONE_NUMBER.format(ODD_SHOWN)}\n", []),
    ("one replica's log translates, and numbers nothing", "new 3 1 -> ok\nread 1 2@alice -> ok 1\n"
     f"read 1 2,alice -> refused {ONE_NUMBER.format('2,alice')}\nread 1 2@bob -> ok 2\n", ["1 read : e2-alice", "1 read : e2-bob"]),
]

# By now everything has arrived everywhere. Between two replicas' lists stands a `/`.
NOT_DELIVERED = "refused delivered takes one list for each of the {} replicas, not {}"
DELIVERED = [
    ("what is missing", "new 3 -> ok\ninsert 0 a 0 a -> ok 1\ninsert 1 b 0 b -> ok 1\nreceived 0 1 1 -> ok\n"
     "delivered b a / b a / b a -> ok\nlines -> ok 11\nread 2 b a -> ok 2\n",
     ["0 ins a 0 : a", "1 ins b 0 : b", "0 recv 1 1", "0 read : b a", "1 recv 0 1", "1 read : b a", "2 recv 0 1", "2 recv 1 1",
      "2 read : b a", "2 read : b a"]),
    ("what came by another", "new 3 -> ok\ninsert 2 a 0 a -> ok 1\nreceived 1 2 1 -> ok\ninsert 1 b 1 a b -> ok 1\n"
     "delivered a b / a b / a b -> ok\n",
     ["2 ins a 0 : a", "1 recv 2 1", "1 ins b 1 : a b", "0 recv 1 1", "0 read : a b", "1 read : a b", "2 recv 1 1", "2 read : a b"]),
    ("the last change of each, deletes too", "new 2 -> ok\ninsert 0 a 0 a -> ok 1\nreceived 1 0 1 -> ok\ndelete 0 a -> ok 2\n"
     "insert 0 b 0 b -> ok 3\ndelete 1 a -> ok 1\ndelivered b / b -> ok\n",
     ["0 ins a 0 : a", "1 recv 0 1", "0 del a :", "0 ins b 0 : b", "1 del a :", "0 recv 1 1", "0 read : b", "1 recv 0 3", "1 read : b"]),
    ("reads and views need not arrive", "new 2 -> ok\ninsert 0 a 0 a -> ok 1\nreceived 1 0 1 -> ok\nread 0 a -> ok 2\nview 0 a -> ok 3\n"
     "delivered a / a -> ok\n", ["0 ins a 0 : a", "1 recv 0 1", "0 read : a", "0 view : a", "0 read : a", "1 read : a"]),
    ("nothing was changed", "new 2 -> ok\nread 1 -> ok 1\ndelivered / -> ok\ndelivered / -> ok\n",
     ["1 read :", "0 read :", "1 read :", "0 read :", "1 read :"]),
    ("one replica", "new 1 -> ok\ninsert 0 a 0 a -> ok 1\ndelivered a -> ok\n", ["0 ins a 0 : a", "0 read : a"]),
    ("wrong lists are for the judge", "new 2 -> ok\ninsert 0 a 0 a -> ok 1\ndelivered a / -> ok\nclock 1 -> ok 1 0\n",
     ["0 ins a 0 : a", "0 read : a", "1 recv 0 1", "1 read :"]),
    ("too few lists, and too many", "new 3 -> ok\ninsert 0 a 0 a -> ok 1\n"
     f"delivered a -> {NOT_DELIVERED.format(3, 1)}\ndelivered a / a -> {NOT_DELIVERED.format(3, 2)}\n"
     f"delivered a / a / a / a -> {NOT_DELIVERED.format(3, 4)}\nlines -> ok 3\n", ["0 ins a 0 : a"]),
    ("a list with what is no name", "new 2 -> ok\ninsert 0 a 0 a -> ok 1\n"
     f"delivered {LETTERS32}x c@d / a;b -> refused name \"a;b\" {NAME}\nlines -> ok 3\nid_of long1 -> none\nid_of c-d -> none\nclock 1 -> ok 0 0\nread 0 {LETTERS32}y c-d -> ok 2\n"
     f"id_of long1 -> ok {LETTERS32}y\nreceived 1 0 3 -> refused 0.3 cannot have arrived: replica 0 has 2 operations so far\n"
     "delivered / -> ok\n", ["0 ins a 0 : a", "0 read : long1 c-d", "0 read :", "1 recv 0 1", "1 read :"]),
    ("one replica's log", "new 2 1 -> ok\ninsert 1 a 0 a -> ok 1\n"
     "delivered a / a -> refused one replica's log can't say that everything has arrived: the others are recorded elsewhere\nlines -> ok 3\n", ["1 ins a 0 : a"]),
]

NO_NOTE = "refused a note is one line of 1 to 200 printable characters"
NOTES = [
    ("notes", f"new 1 -> ok\nnote seed%2017 -> ok\nnote %20 -> ok\nnote {'%C3%A4' * 200} -> ok\nnote %F0%9F%98%80 -> ok\n"
     "read 0 -> ok 1\nlines -> ok 3\n", ["0 read :"]),
    ("no notes", f"new 1 -> ok\nlines -> ok 2\nnote (empty) -> {NO_NOTE}\nnote {'%C3%A4' * 201} -> {NO_NOTE}\n" + "".join(
        f"note seed{letter} -> {NO_NOTE}\n" for letter in ["%01", "%0D", "%1B", "%7F", "%C2%85", "%E2%80%A8", "%E2%80%AE", "%E2%81%A6"]), []),
    ("one note more than there may be", "new 1 -> ok\n" + "note again -> ok\n" * 20 + "note again -> refused a recording has 20 notes, "
     "the most that it takes\nnote (empty) -> " + NO_NOTE + "\n", []),
    ("a note in one replica's log", "new 2 0 -> ok\nnote seed%2017 -> ok\n", []),
]

# Receipts by vector clocks, which count the inserts and deletes of each replica. Behind the author stands how many changes are carried.
CLOCKED = ["py", "mjs", "rs", "c", "el"]
UNCAUSAL = ("uncausal not causal: {0} was applied at replica {1} before {2}, which replica {3} had seen; "
            "{2} must arrive first or in the same update: perhaps it was lost, or only the call for it is missing")
MORE_CHANGES = "; if the update carried more than one change, say how many (`changes`)"
CLOCKS = [
    ("a right session", "new 3 -> ok\nclock 0 -> ok 0 0 0\nread 2 -> ok 1\ninsert 2 a 0 a -> ok 2\nclock 2 -> ok 0 0 1\n"
     "received_clock 1 2 1 0 0 1 -> ok\nread 1 a -> ok 1\ninsert 1 b 1 a b -> ok 2\ndelete 1 a b -> ok 3\nclock 1 -> ok 0 2 1\n"
     "received_clock 0 2 1 0 0 1 -> ok\nreceived_clock 0 1 1 0 1 1 -> ok\nclock 0 -> ok 0 1 1\nreceived_clock 0 1 1 0 2 1 -> ok\n"
     "received_clock 2 1 2 0 2 1 -> ok\nclock 2 -> ok 0 2 1\n",
     ["2 read :", "2 ins a 0 : a", "1 recv 2 2", "1 read : a", "1 ins b 1 : a b", "1 del a : b", "0 recv 2 2", "0 recv 1 2", "0 recv 1 3",
      "2 recv 1 3"]),
    ("delivery that is not causal", "new 3 -> ok\ninsert 2 a 0 a -> ok 1\nreceived_clock 1 2 1 0 0 1 -> ok\ninsert 1 b 1 a b -> ok 1\n"
     f"received_clock 0 1 1 0 1 1 -> {UNCAUSAL.format('1.1', 0, '2.1', 1)}\nclock 0 -> ok 0 0 0\nreceived_clock 0 2 1 0 0 1 -> ok\n"
     "received_clock 0 1 1 0 1 1 -> ok\n", ["2 ins a 0 : a", "1 recv 2 1", "1 ins b 1 : a b", "0 recv 2 1", "0 recv 1 1"]),
    ("by the clock alone, as no receipt tells of it", "new 3 -> ok\ninsert 2 a 0 a -> ok 1\ninsert 1 b 1 a b -> ok 1\n"
     f"received_clock 0 1 1 0 1 1 -> {UNCAUSAL.format('1.1', 0, '2.1', 1)}\n", ["2 ins a 0 : a", "1 ins b 1 : a b"]),
    ("by receipts alone, as the clock doesn't tell of it",
     "new 3 -> ok\ninsert 2 a 0 a -> ok 1\nreceived 1 2 1 -> ok\ninsert 1 b 1 a b -> ok 1\n"
     f"received_clock 0 1 1 0 1 0 -> {UNCAUSAL.format('1.1', 0, '2.1', 1)}\n", ["2 ins a 0 : a", "1 recv 2 1", "1 ins b 1 : a b"]),
    ("an author's changes out of their order", "new 2 -> ok\ninsert 0 a 0 a -> ok 1\nread 0 a -> ok 2\ninsert 0 b 1 a b -> ok 3\n"
     f"received_clock 1 0 1 2 0 -> {UNCAUSAL.format('0.3', 1, '0.1', 0)}{MORE_CHANGES}\nreceived_clock 1 0 2 2 0 -> ok\n",
     ["0 ins a 0 : a", "0 read : a", "0 ins b 1 : a b", "1 recv 0 3"]),
    ("an update of four changes with too small a number of them",
     "new 2 -> ok\ndelete 0 a -> ok 1\ndelete 0 b -> ok 2\ndelete 0 c -> ok 3\ndelete 0 d -> ok 4\n"
     f"received_clock 1 0 1 4 0 -> {UNCAUSAL.format('0.4', 1, '0.1', 0)}{MORE_CHANGES}\n"
     f"received_clock 1 0 3 4 0 -> {UNCAUSAL.format('0.2', 1, '0.1', 0)}{MORE_CHANGES}\nreceived_clock 1 0 4 4 0 -> ok\n",
     ["0 del a :", "0 del b :", "0 del c :", "0 del d :", "1 recv 0 4"]),
    ("what an author has seen since need not arrive", "new 3 -> ok\ninsert 1 b 0 b -> ok 1\ninsert 2 a 0 a -> ok 1\nreceived 1 2 1 -> ok\n"
     "received_clock 0 1 1 0 1 0 -> ok\nclock 0 -> ok 0 1 0\n", ["1 ins b 0 : b", "2 ins a 0 : a", "1 recv 2 1", "0 recv 1 1"]),
    ("what an author reads need not arrive", "new 2 -> ok\nread 0 -> ok 1\ninsert 0 a 0 a -> ok 2\nview 0 a -> ok 3\n"
     "received_clock 1 0 1 1 0 -> ok\n", ["0 read :", "0 ins a 0 : a", "0 view : a", "1 recv 0 2"]),
    ("a clock of a change that is not there", "new 3 -> ok\ninsert 0 a 0 a -> ok 1\nread 0 a -> ok 2\n"
     "received_clock 1 0 1 2 0 0 -> refused the clock counts 2 changes of replica 0, which has recorded 1\n"
     "received_clock 1 0 1 1 0 1 -> refused the clock counts 1 changes of replica 2, which has recorded 0\n"
     "received_clock 1 2 1 1 0 0 -> refused this is an update of replica 2, but its clock counts no change of replica 2\n"
     "received_clock 1 0 2 1 0 0 -> refused an update carries 1 to 1 of the changes that its clock counts, not 2\n"
     "received_clock 1 0 0 1 0 0 -> refused an update carries 1 to 1 of the changes that its clock counts, not 0\n"
     "received_clock 1 0 1 1 0 -> refused a clock has a count for each of 3 replicas\n"
     "received_clock 1 1 1 1 0 0 -> refused replica 1 receives no operation of its own\n"
     "received_clock 1 3 1 1 0 0 -> refused no replica 3 among 0 to 2\nreceived_clock 1 0 1 1 0 0 -> ok\n",
     ["0 ins a 0 : a", "0 read : a", "1 recv 0 1"]),
    ("the same update twice, and an older one", "new 2 -> ok\ninsert 0 a 0 a -> ok 1\ndelete 0 a -> ok 2\nreceived_clock 1 0 1 1 0 -> ok\n"
     "received_clock 1 0 1 1 0 -> ok\nreceived_clock 1 0 2 2 0 -> ok\nreceived_clock 1 0 1 1 0 -> ok\nread 1 -> ok 1\n",
     ["0 ins a 0 : a", "0 del a :", "1 recv 0 1", "1 recv 0 2", "1 read :"]),
    ("a clock is not asked of what has arrived", "new 3 -> ok\ninsert 2 a 0 a -> ok 1\ninsert 1 b 0 b -> ok 1\nreceived 0 1 1 -> ok\n"
     "received_clock 0 1 1 0 1 1 -> ok\n", ["2 ins a 0 : a", "1 ins b 0 : b", "0 recv 1 1"]),
    ("what came by another", "new 3 -> ok\ninsert 2 a 0 a -> ok 1\nreceived 1 2 1 -> ok\ndelete 1 a -> ok 1\nreceived 0 1 1 -> ok\n"
     "clock 0 -> ok 0 1 1\nreceived_clock 0 2 1 0 0 1 -> ok\n", ["2 ins a 0 : a", "1 recv 2 1", "1 del a :", "0 recv 1 1"]),
    ("one replica's log", "new 2 1 -> ok\nread 1 -> ok 1\nreceived_clock 1 0 1 1 0 -> refused {0}\nclock 1 -> refused {0}\n".format(
        "one replica's log does not know the changes of the others: send each operation's number, and call received"), ["1 read :"]),
]

# Receipts by the ids of the changes that an update carries.
WITH_IDS = ["py", "mjs"]
CHANGES = [
    ("a right session", "new 3 -> ok\nas x insert 2 a 0 a -> ok 1\nreceived_changes 1 x -> ok\nas y insert 1 b 1 a b -> ok 1\n"
     "as z delete 2 a -> ok 2\nreceived_changes 0 z y x -> ok\nread 0 b -> ok 1\n",
     ["2 ins a 0 : a", "1 recv 2 1", "1 ins b 1 : a b", "2 del a :", "0 recv 1 1", "0 recv 2 2", "0 read : b"]),
    ("delivery that is not causal", "new 3 -> ok\nas x insert 2 a 0 a -> ok 1\nreceived_changes 1 x -> ok\nas y insert 1 b 1 a b -> ok 1\n"
     f"received_changes 0 y -> {UNCAUSAL.format('1.1', 0, '2.1', 1)}\nreceived_changes 0 x -> ok\nreceived_changes 0 y -> ok\n",
     ["2 ins a 0 : a", "1 recv 2 1", "1 ins b 1 : a b", "0 recv 2 1", "0 recv 1 1"]),
    ("a change without an id is lacking too", "new 2 -> ok\ninsert 0 a 0 a -> ok 1\nas y delete 0 a -> ok 2\n"
     f"received_changes 1 y -> {UNCAUSAL.format('0.2', 1, '0.1', 0)}\n", ["0 ins a 0 : a", "0 del a :"]),
    ("an id that no change has", "new 2 -> ok\nas x insert 0 a 0 a -> ok 1\n"
     'received_changes 1 x y -> refused no change with the id "y" has been recorded\nreceived_changes 1 x -> ok\n',
     ["0 ins a 0 : a", "1 recv 0 1"]),
    ("the same update twice, an own change, and nothing", "new 2 -> ok\nas x insert 0 a 0 a -> ok 1\nreceived_changes 1 x -> ok\n"
     "received_changes 1 x -> ok\nreceived_changes 0 x -> ok\nreceived_changes 1 -> ok\n", ["0 ins a 0 : a", "1 recv 0 1"]),
    ("a paste, whose inserts have one id", "new 2 -> ok\nas p insert 0 a 0 a -> ok 1\nas p insert 0 b 1 a b -> ok 2\n"
     'as p insert 1 c 0 c -> refused the id "p" is that of 0.1 already\nreceived_changes 1 p -> ok\n',
     ["0 ins a 0 : a", "0 ins b 1 : a b", "1 recv 0 2"]),
    ("odd letters in an id", "new 2 -> ok\nas ##a%1B insert 0 a 0 a -> ok 1\n"
     'as ##a%1B insert 1 b 0 b -> refused the id "\\x23#a\\x1b" is that of 0.1 already\n'
     'received_changes 1 ::%0A%C3%A4 -> refused no change with the id "\\x3a:\\x0a\\xc3\\xa4" has been recorded\n', ["0 ins a 0 : a"]),
    ("a refused call gives no id", 'new 2 -> ok\nas x insert 0 a 0 a;b -> refused name "a;b" ' + NAME + "\n"
     'received_changes 1 x -> refused no change with the id "x" has been recorded\nas x insert 1 a 0 a -> ok 1\n', ["1 ins a 0 : a"]),
    ("one replica's log", "new 2 1 -> ok\nas x insert 1 a 0 a -> ok 1\nreceived_changes 1 x -> refused "
     "one replica's log does not know the changes of the others: send each operation's number, and call received\n", ["1 ins a 0 : a"]),
]

# Sessions that are judged after each call that takes a list. An answer that begins with `stopped` is followed by what else `explain` says of
# the trace up to there; `again` stands for the same answer.
STOPS = [
    ("right", "stop 2 -> ok\ninsert 0 a 0 a -> ok 1\nreceived 1 0 1 -> ok\nread 1 a -> ok 1\ndelete 1 a -> ok 2\nview 0 a -> ok 2\n"
     "delivered / -> ok\n"),
    ("a lost element", "stop 2 -> ok\ninsert 0 a 0 a -> ok 1\nreceived 1 0 1 -> ok\nread 1 -> stopped contents 1.1:\nread 1 a -> again\n"
     "insert 0 b 1 a b -> again\ndelete 0 a -> again\nview 1 -> again\nreceived 0 1 1 -> again\nreceived_clock 0 1 1 0 0 -> again\n"
     "delivered a / a -> again\nnote seed -> ok\nlines -> ok 5\n"),
    ("a wrong insert", "stop 1 -> ok\ninsert 0 a 0 a -> ok 1\ninsert 0 b 1 b a -> stopped position 0.2:\nread 0 -> again\nlines -> ok 4\n"),
    ("a wrong delete", "stop 1 -> ok\ninsert 0 a 0 a -> ok 1\ndelete 0 a a -> stopped contents 0.2:\nlines -> ok 4\n"),
    ("a wrong view", "stop 2 -> ok\ninsert 0 a 0 a -> ok 1\nread 0 a -> ok 2\nview 1 a -> stopped contents 1.1:\nlines -> ok 5\n"),
    ("wrong lists in the end", "stop 2 -> ok\ninsert 0 a 0 a -> ok 1\ndelivered a / -> stopped contents 1.1:\nread 0 a -> again\n"
     "lines -> ok 6\n"),
    ("a name twice", "stop 1 -> ok\ninsert 0 a 0 a -> ok 1\ninsert 0 a 0 a -> stopped doubled: 0.1 and 0.2 insert the same name\nlines -> ok 4\n"),
    ("opposite orders", "stop 2 -> ok\ninsert 0 a 0 a -> ok 1\ninsert 1 b 0 b -> ok 1\nreceived 0 1 1 -> ok\nreceived 1 0 1 -> ok\n"
     "read 0 a b -> ok 2\nread 1 b a -> stopped refused 2:\nlines -> ok 8\n"),
    ("a cycle of three", CYCLE.replace("new 3", "stop 3").replace("b a -> ok 3", "b a -> stopped refused 3:") + "lines -> ok 11\n"),
    ("a cycle of three where weak is enough", CYCLE.replace("new 3", "stop_weak 3") + "delivered b a / b a / b a -> ok\n"),
    ("opposite orders where weak is enough", CYCLE.replace("new 3", "stop_weak 3") + "delivered b a / b a / a b -> stopped refused 2:\n"
     "lines -> ok 18\n"),
    ("what is refused is not judged", "stop 2 -> ok\nread 7 -> refused no replica 7 among 0 to 1\nread 0 -> ok 1\n"),
    ("one replica's log", "stop 2 1 -> refused one replica's log can't be judged after each call, but only when the logs are merged\n"),
]

# Calls that are refused, behind calls that are not; the recording stays what it was.
REFUSED = [
    ("replica 2 of 2", "new 2 -> ok\nread 2 -> refused no replica 2 among 0 to 1\n"),
    ("a receipt of replica 2 of 2", "new 2 -> ok\nreceived 0 2 1 -> refused no replica 2 among 0 to 1\n"),
    ("a receipt at replica 2 of 2", "new 2 -> ok\nreceived 2 0 1 -> refused no replica 2 among 0 to 1\n"),
    ("an own operation", "new 2 -> ok\nread 0 -> ok 1\n"
     "received 0 0 1 -> refused replica 0 receives no operation of its own\n"),
    ("an operation that is not there", "new 2 -> ok\nread 0 -> ok 1\nreceived 1 0 1 -> ok\n"
     "received 1 0 2 -> refused 0.2 cannot have arrived: replica 0 has 1 operations so far\n"),
    ("receipts are no operations", "new 2 -> ok\nread 0 -> ok 1\nreceived 1 0 1 -> ok\n"
     "received 0 1 1 -> refused 1.1 cannot have arrived: replica 1 has 0 operations so far\n"),
    ("operation 0", "new 2 -> ok\nread 0 -> ok 1\n"
     "received 1 0 0 -> refused operation number 0 is not a whole number from 1 to 4294967295\n"),
    ("an own operation that is not there", "new 2 -> ok\n"
     "received 0 0 5 -> refused replica 0 receives no operation of its own\n"),
    ("a view at replica 2 of 2, a name that is none in one, and then none",
     f"new 2 -> ok\nview 2 -> refused no replica 2 among 0 to 1\nview 0 a;b -> refused name \"a;b\" {NAME}\n"),
    ("a view in another's log", "new 3 1 -> ok\nview 0 -> refused this log is of replica 1 alone, not of 0\n"),
    ("another replica in one's log",
     "new 3 1 -> ok\nread 0 -> refused this log is of replica 1 alone, not of 0\n"
     "received 2 1 1 -> refused this log is of replica 1 alone, not of 2\n"
     "received 1 1 1 -> refused replica 1 receives no operation of its own\n"
     "received 1 3 1 -> refused no replica 3 among 0 to 2\n"),
    ("a position of 33 bits",
     "new 1 -> ok\ninsert 0 a 4294967296 a -> refused position 4294967296 is not a whole number from 0 to 4294967295\n"),
] + [
    (f"the name {word!r}", f'new 1 -> ok\ninsert 0 {word} 0 b -> refused name "{shown}" {NAME}\n'
     f'delete 0 {word} -> refused name "{shown}" {NAME}\nread 0 b {word} -> refused name "{shown}" {NAME}\n')
    for word, shown in [("(empty)", ""), ("a%20b", "a b"), ("a;1", "a;1"), ("%C3%A4", "\\xc3\\xa4"), ("a%0D", "a\\x0d"), ("a,%20@", "a, @"),
                        ("2@%C3%A4", "2@\\xc3\\xa4"), ("2@alice%0D", "2@alice\\x0d"), ("a%0A::error::%1B[2Jb%7F", "a\\x0a::error::\\x1b[2Jb\\x7f"),
                        ("::error::a;", "\\x3a:error::a;"), ("%20%20::a", "  \\x3a:a"), ("##vso[a]", "\\x23#vso[a]"), ("%20##a", " \\x23#a"),
                        (":a;", ":a;"), ("%20#a", " #a"), (":#a", ":#a"), ("~%20!", "~ !"), ("%C2%85%E2%80%A8", "\\xc2\\x85\\xe2\\x80\\xa8")]
]

# The same, where a typed language can't say the call.
REFUSED_UNTYPED = [
    ("a position below 0", "new 1 -> ok\ninsert 0 a -1 a -> refused position -1 is not a whole number from 0 to 4294967295\n"),
    ("a negative replica", "new 2 -> ok\nread -1 -> refused no replica -1 among 0 to 1\n"),
]

# How many replicas there can't be, and what the recorders of languages with errors say.
WRONG_COUNTS = [("0", "replicas are 1 to 16, not 0"), ("17", "replicas are 1 to 16, not 17"),
                ("2\t2", "no replica 2 among 0 to 1")]

# Calls with values of other types, numbered in the drivers: what is answered, with a language's own words for the values.
REPLICAS, REPLICA, POSITION = ("{} is not a whole number from {} but ".format(*what) for what in (
    ("number of replicas", "1 to 16"), ("replica", "0 to 1"), ("position", "0 to 4294967295")))
OTHER_TYPES = [REPLICAS + 'the string "2"', REPLICAS + "{true}", REPLICA + "{float}", REPLICA + "{none}", POSITION + "{half}",
               POSITION + 'the string "0"', *["a name is a string, not the number 7"] * 2, *["a response is a list of names"] * 3]
OTHER_UPDATES = [*["a clock has a count for each of 2 replicas"] * 2,
                 'count of a clock is not a whole number from 0 to 4294967295 but the string "1"',
                 *["an update carries a list or a set of ids"] * 2, "an id of a change is {id}, not {list}",
                 "an id of a change is {id}, not {object}"]
VALUES = {
    "py": {"true": "the bool True", "float": "the float 1.0", "none": "None", "half": "the float 0.5",
           "id": "a string, a number or a tuple of these", "list": "a value of type list", "object": "a value of type dict"},
    "mjs": {"true": "the boolean true", "float": "the number 0.5", "none": "undefined", "half": "the number 0.5",
            "id": "a string or a number", "list": "an array", "object": "an object"},
    "el": {"true": "the symbol t", "float": "the float 1.0", "none": "nil", "half": "the float 0.5"}}
ODD_REPLICA = REPLICA + 'the string "\\x3a:\\x1b\\x0a' + "1" * 36 + '"..'
OWN_TYPES = {
    "py": [POSITION + "the float nan", POSITION + "a value of type list", "a name is a string, not a value of type bytes",
           'operation number is not a whole number from 1 to 4294967295 but the string "1"',
           "number of changes is not a whole number from 1 to 1 but None", "delivered takes one list for each of the 2 replicas, not None",
           'delivered takes one list for each of the 2 replicas, not the string "ab"', "no replica 2 among 0 to 1",
           "delivered takes one list for each of the 2 replicas, not 1", "a response is a list of names", NO_NOTE.partition(" ")[2],
           REPLICA + 'the string "' + "1" * 40 + '"..', "a recording takes `weak` only with `stop`: else give it to `judge` and `explain`",
           ODD_REPLICA, "no change with the id ('a', '\\xc3\\xa4\\n') has been recorded",
           *["a response is a list: a set has no order"] * 3],
    "el": [ODD_REPLICA, REPLICA + "the symbol \\x3a:a\\x0ab"],
    "mjs": [REPLICA + "a Symbol", POSITION + "the BigInt 2", "a name is a string, not a Symbol", "a name is a string, not the BigInt 3",
            "a name is a string, not undefined", "a name is a string, not undefined", POSITION + "null", POSITION + "the number NaN",
            POSITION + "an array", POSITION + "an object", POSITION + "a function",
            'operation number is not a whole number from 1 to 4294967295 but the string "1"',
            "number of changes is not a whole number from 1 to 1 but null", "delivered takes one list for each of the 2 replicas, not null",
            'delivered takes one list for each of the 2 replicas, not the string "ab"', "no replica 2 among 0 to 1",
            "delivered takes one list for each of the 2 replicas, not 1", "a response is a list of names", NO_NOTE.partition(" ")[2],
            REPLICA + 'the string "' + "1" * 40 + '"..', "an id of a change is a string or a number, not a Symbol",
            'name "a b" ' + NAME, "count of a clock is not a whole number from 0 to 4294967295 but undefined",
            "a recording takes `weak` only with `stop`: else give it to judge() and explain()", ODD_REPLICA]}

ELEMENTS = [f"e{i}" for i in range(4097)]
FULL = "the most that a trace takes"

# At each limit: the calls that fill the replica; what is still said; what is not, its answer, and the same as a line, with
# the program's word for it.
LIMITS = [
    ("entries", ["read 0"] * 16383, "read 0 -> ok 16384", "read 0", f"replica 0 has 16384 entries, {FULL}",
     "0 read :", "entries full"),
    ("entries and a receipt", ["read 0"] * 16383 + ["read 1"], "received 0 1 1 -> ok", "received 0 1 1",
     f"replica 0 has 16384 entries, {FULL}", "0 recv 1 1", "entries full"),
    ("entries that are views", ["view 0"] * 16383, "view 0 -> ok 16384", "view 0", f"replica 0 has 16384 entries, {FULL}",
     "0 view :", "entries full"),
    ("inserts", [f"insert 0 {name} 0" for name in ELEMENTS[:4095]], "insert 0 z 0 -> ok 4096", "insert 0 y 0",
     f"replica 0 has 4096 inserts, {FULL}", "0 ins y 0 :", "inserts full"),
    ("names of a response", ["read 0"], f"read 0 {' '.join(ELEMENTS[:4096])} -> ok 2", f"read 0 {' '.join(ELEMENTS)}",
     "a response of 4097 names; a trace takes at most 4096", f"0 read : {' '.join(ELEMENTS)}", "long response"),
    ("names of all responses", [f"read 0 {' '.join(ELEMENTS[:4096])}"] * 63, f"read 0 {' '.join(ELEMENTS[:4096])} -> ok 64",
     "read 0 a", f"262145 names over the responses of replica 0; a trace takes at most 262144", "0 read : a", "places full"),
]


def prepared(folder: Path) -> dict:
    """How each language's driver is run; what has to be compiled is, without a warning."""
    packages = [] if shutil.which("emacs") else ["emacs-nox"]
    packages += [] if has_hypothesis() else ["python3-hypothesis", "python3-pytest"]
    install(packages)
    for needed in ["node", "rustc", "gcc", "emacs"]:
        if not shutil.which(needed):
            sys.exit(f"recorders.py: there is no {needed}")
    if not has_hypothesis():
        sys.exit(f"recorders.py: {DEBIAN_PYTHON} has no hypothesis or no pytest")
    subprocess.run([*GCC, "-D_POSIX_C_SOURCE=200809L", "-o", folder / "c", DRIVERS / "driver.c"], check=True)
    subprocess.run(["rustc", "--edition", "2021", "-D", "warnings", "-o", folder / "rs", DRIVERS / "driver.rs"], check=True)
    return {"py": [sys.executable, "-S", DRIVERS / "driver.py"], "mjs": ["node", DRIVERS / "driver.mjs"], "rs": [folder / "rs"],
            "c": [folder / "c"], "el": ["emacs", "-Q", "--batch", "-l", DRIVERS / "driver.el"]}


def has_hypothesis() -> bool:
    words = [DEBIAN_PYTHON, "-c", "import hypothesis, pytest"]
    return os.access(DEBIAN_PYTHON, os.X_OK) and subprocess.run(words, capture_output=True).returncode == 0


def fields(call: str) -> str:
    """A call of the table as a line for the drivers, in which a record separator stands for a line feed."""
    return "\t".join("" if word == "(empty)" else unquote(word).replace("\n", "\x1e") for word in call.split(" "))


def bytes_of(call: str) -> bytes:
    """The same, where a word may have bytes that are no text."""
    return b"\t".join(unquote_to_bytes(word) for word in call.split(" "))


class Recorder:
    """One language's recorder, behind its driver."""

    def __init__(self, language: str, words: list, program: str):
        self.language = language
        self.words = words
        self.surroundings = {**os.environ, "LC_ALL": "C.UTF-8", "DOMEPEELER": program}

    def answers(self, calls: list, **surroundings: str) -> list:
        """What the recorder answers to each call, lines of texts among them."""
        done = subprocess.run(self.words, input="".join(call + "\n" for call in calls).encode(), capture_output=True,
                              timeout=60, env={**self.surroundings, **surroundings})
        answers = done.stdout.decode().split("\n")[:-1]
        return answers if done.returncode == 0 else [*answers, f"ended with {done.returncode}: {done.stderr.decode()}"]


def check_table(tally: Tally, recorder: Recorder) -> None:
    """Each call of the tables, and then the whole text."""
    cases = [(name, script, lines) for name, script, lines in SAID]
    cases += [(f"clocks, {name}", *rest) for name, *rest in CLOCKS if recorder.language in CLOCKED]
    cases += [(f"ids of changes, {name}", *rest) for name, *rest in CHANGES if recorder.language in WITH_IDS]
    cases += [(f"delivered, {name}", *rest) for name, *rest in DELIVERED] + [(f"notes, {name}", *rest) for name, *rest in NOTES]
    cases += [(name, script, None) for name, script in REFUSED]
    if recorder.language not in TYPED:
        cases += [(name, script, None) for name, script in REFUSED_UNTYPED]
    calls, wanted = [], {}
    for name, script, lines in cases:
        pairs = [line.split(" -> ") for line in script.split("\n")[:-1]]
        if lines is None:
            lines = [said for call, reply in pairs for said in line_of(call, reply)]
        replicas = script.split("\n")[0].split(" ")[1]
        calls += [fields(call) for call, _ in pairs] + ["text"]
        wanted[name] = [reply for _, reply in pairs]
        version = 2 if any(line.split(" ")[1] == "view" for line in lines) else 1
        wanted[name] += [f"| trace {version}", f"| replicas {replicas}", *[f"| {line}" for line in lines], "ok"]
    got = recorder.answers(calls)
    tally.check(f"{recorder.language}: lines", len(got) == sum(map(len, wanted.values())), len(got))
    for name, lines in wanted.items():
        shown, got = got[:len(lines)], got[len(lines):]
        tally.check(f"{recorder.language}: {name}", shown == lines, f"got {shown}, wanted {lines}")


def check_ids(tally: Tally, recorder: Recorder) -> str:
    """Of ids that come near one another, in any order, no two have the same name, and each has one alone. Answers the text."""
    random = Random(1)
    letters = "ab" * 9
    pool = [UUID, UUID.upper(), UUID_DIGITS, UUID_DIGITS.upper(), *ALMOST_UUIDS, *(f"long{number}" for number in range(1, 31)), "long", "a",
            *(f"{letters}{number:016x}" for number in range(20)), f"{UUID}0", f"0{UUID_DIGITS}", UUID[1:], LETTERS32]
    ids = [random.choice(pool) for _ in range(400)]
    got = recorder.answers(["new\t1", *(f"insert\t0\t{one}\t0\t{one}" for one in ids), "text"])
    said = [one for one, answer in zip(ids, got[1:]) if answer.startswith("ok ")]
    lines = [line.split(" ") for line in got if line.startswith("| 0 ins ")]
    short = {answer.split('"')[1]: answer.split('"')[3] for answer in got if answer.startswith("refused ")}
    names = {(one, line[3]) for one, line in zip(said, lines)}
    tally.check(f"{recorder.language}: ids are recorded or refused", len(lines) == len(said) > 200 and
                all(line[3] == line[6] for line in lines), got)
    tally.check(f"{recorder.language}: each id has one name, and no other id has it",
                len({one for one, _ in names}) == len({name for _, name in names}) == len(names), names)
    tally.check(f"{recorder.language}: a name is refused where another id has it alone",
                short and all((one, name) in names and name not in said for name, one in short.items()), short)
    return "".join(line[2:] + "\n" for line in got if line.startswith("| "))


def line_of(call: str, reply: str) -> list:
    """The line of a call before a refused one: in those tables these are empty reads and receipts."""
    words = call.split(" ")
    if words[0] == "new" or not reply.startswith("ok"):
        return []
    return [f"{words[1]} read :" if words[0] == "read" else f"{words[1]} recv {words[2]} {words[3]}"]


def check_other_types(tally: Tally, recorder: Recorder) -> None:
    """Calls that can't be written in a typed language."""
    wanted = OTHER_TYPES + (OTHER_UPDATES if recorder.language in WITH_IDS else [])
    wanted = [said.format(**VALUES[recorder.language]) for said in wanted] + OWN_TYPES.get(recorder.language, [])
    got = recorder.answers([f"untyped\t{number}" for number in range(len(wanted))])
    tally.check(f"{recorder.language}: calls with other types", len(got) == len(wanted), got)
    for number, (answer, said) in enumerate(zip(got, wanted)):
        tally.check(f"{recorder.language}: untyped {number}, {said}", answer == f"refused {said}", answer)


def check_counts(tally: Tally, recorder: Recorder) -> None:
    """Recordings that can't begin. In C they are NULL, without words."""
    for words, why in WRONG_COUNTS:
        wanted = "refused" if recorder.language == "c" else f"refused {why}"
        tally.check(f"{recorder.language}: new {words}", recorder.answers([f"new\t{words}"]) == [wanted], wanted)


def check_limits(tally: Tally, recorder: Recorder) -> dict:
    """The last call that is said at each limit, and the first that is not. Answers the texts."""
    texts = {}
    for name, filling, last, refused, why, _, _ in LIMITS:
        call, reply = last.split(" -> ")
        calls = ["new\t2", *map(fields, filling), fields(call), fields(refused), "text"]
        got = recorder.answers(calls)
        ends = len(filling) + 1
        tally.check(f"{recorder.language}: {name}, the last", got[ends:ends + 1] == [reply], got[ends:ends + 1])
        tally.check(f"{recorder.language}: {name}, one too many", got[ends + 1:ends + 2] == [f"full {why}"],
                    got[ends + 1:ends + 2])
        texts[name] = "".join(line[2:] + "\n" for line in got[ends + 2:-1])
        tally.check(f"{recorder.language}: {name}, lines", len(got) == 2 * ends + 5, len(got))
    return texts


def check_full_updates(tally: Tally, recorder: Recorder) -> None:
    """Receipts that an update needs are written as long as there is room for all of them, and else none is."""
    calls = ["new 3", *["read 0"] * 16382, "insert 1 a 0", "received_clock 0 1 1 0 1 0", "insert 1 b 0", "received_clock 0 1 1 0 2 0",
             "insert 1 c 0", "received_clock 0 1 1 0 3 0", "received_clock 0 1 1 0 2 0", "text"]
    got = recorder.answers([fields(call) for call in calls])
    full = f"full replica 0 has 16384 entries, {FULL}"
    tally.check(f"{recorder.language}: clocks at the limit", got[16383:16390] == ["ok 1", "ok", "ok 2", "ok", "ok 3", full, "ok"] and
                got[-6:-1] == ["| 1 ins a 0 :", "| 0 recv 1 1", "| 1 ins b 0 :", "| 0 recv 1 2", "| 1 ins c 0 :"],
                got[16383:16390] + got[-6:])
    if recorder.language not in WITH_IDS:
        return
    calls = ["new 3", *["read 0"] * 16383, "as a insert 1 a 0", "as b insert 2 b 0", "received_changes 0 a b", "text"]
    got = recorder.answers([fields(call) for call in calls])
    tally.check(f"{recorder.language}: ids at the limit", got[16386] == f"full replica 0 has 16383 entries; a trace takes at most 16384" and
                got[-3:] == ["| 1 ins a 0 :", "| 2 ins b 0 :", "ok"], got[16384:16387] + got[-3:])


def check_full_delivery(tally: Tally, recorder: Recorder) -> None:
    """Where there is room for the receipts, but not for a read, nothing is written."""
    calls = ["new 2", "read 0", *["read 1"] * 16383, "insert 0 a 0 a", "delivered a / a", "lines", "received 1 0 2", "delivered a / a",
             "lines"]
    got = recorder.answers([fields(call) for call in calls])
    full = f"full replica 1 has 16384 entries, {FULL}"
    tally.check(f"{recorder.language}: delivered at the limit", got[16386:] == [full, "ok 16387", "ok", full, "ok 16388"], got[16386:])
    long = "full a response of 4097 names; a trace takes at most 4096"
    calls = ["new 2", f"delivered / {' '.join(ELEMENTS)}", "lines", "read 0"]
    got = recorder.answers([fields(call) for call in calls])
    tally.check(f"{recorder.language}: delivered, a long list", got[1:] == [long, "ok 2", "ok 1"], got)


def check_limits_are_the_programs(tally: Tally, program: str, texts: dict) -> None:
    """The program reads each text at a limit, and refuses the line that the recorder refused."""
    for name, _, _, _, _, line, why in LIMITS:
        text = texts[name].encode()
        tally.check(f"the program reads {name}", run(program, ["verdict", "-"], text).status in (0, 1))
        ended = run(program, ["verdict", "-"], text + line.encode() + b"\n")
        number = text.count(b"\n") + 1
        tally.check(f"the program refuses {name}", ended.err == f"finder: line {number}: {why}\n".encode(), ended.err)


def check_save(tally: Tally, recorder: Recorder, folder: Path) -> None:
    """Files have the bytes of a recording, of a shorter one in the place of a longer one, and of a log; and a file that can't be
    written is told of."""
    trace, log = folder / f"{recorder.language}.trace", folder / f"{recorder.language}.log"
    calls = [fields(line.split(" -> ")[0]) for line in CYCLE.split("\n")[:-1]]
    got = recorder.answers([*calls, f"save\t{log}", f"save\t{trace}", "new\t3\t1", "read\t1\ta", f"save\t{log}"])
    cycle = (EXAMPLES / "libinfinity_three_way_cycle.trace").read_bytes()
    tally.check(f"{recorder.language}: save", [got[-1], *got[-5:-3]] == ["ok"] * 3 and trace.exists() and trace.read_bytes() == cycle, got)
    tally.check(f"{recorder.language}: save a log", log.exists() and log.read_bytes() == b"trace 1\nreplicas 3\n1 read : a\n", got)
    got = recorder.answers(["new\t1", f"save\t{folder}/nowhere/a.trace", "text"])
    tally.check(f"{recorder.language}: save nowhere", got[1:2] and got[1].startswith("failed ") and "o such file" in got[1]
                and got[2:] == ["| trace 1", "| replicas 1", "ok"], got)
    check_odd_paths(tally, recorder, folder)


# A name of a folder, and how an error shows it: Python's own way, ours, and that of Rust, whose errors have no path.
ODD = "no\x1b[31m\n::error::x"
ODD_SHOWN = {"py": "no\\x1b[31m\\n::error::x", "rs": ""}
ODD_OURS = "no\\x1b[31m\\x0a::error::x"
# What JavaScript's error of such a path has.
ODD_ERROR = """import { Recording } from "%s"
const path = process.argv[2]
const why = await new Recording(1).save(path).catch((error) => error)
console.log(JSON.stringify([why.constructor.name, why.path === path, why.code, why.cause instanceof Error, why.cause.code, why.message]))
"""


def check_save_is_described(tally: Tally) -> None:
    """What each language says of save, where a user reads it, has that a second recording of one name takes the first one's place."""
    for file in "domepeeler.py", "domepeeler.mjs", "javascript/domepeeler.d.mts", "domepeeler.rs", "domepeeler.h", "domepeeler.el":
        words = " ".join(re.sub(r"^ *(///|\*|//)? *", "", line) for line in (ROOT / "recorders" / file).read_text().splitlines())
        tally.check(f"{file}: what takes the place of what is said of save", "A second recording that is saved under the same name takes the place of the first, without a word"
                    in words, file)


def check_odd_paths(tally: Tally, recorder: Recorder, folder: Path) -> None:
    """An error of save shows a path so that it sends no bytes of its own to a terminal and begins no line: where its folder is not there,
    where it is a folder itself, and where what stands beside it is one."""
    place = folder / f"odd paths of {recorder.language}" / ODD
    Path(place, "folder").mkdir(parents=True)
    Path(place, "a.trace.lines").mkdir()
    shown = ODD_SHOWN.get(recorder.language, ODD_OURS)
    for end, told in ("none/a.trace", "o such file"), ("folder", "directory"), ("a.trace", "directory"):
        got = recorder.answers(["new\t1", f"save\t{place}/{end}".replace("\n", "\x1e"), "lines"])
        tally.check(f"{recorder.language}: an odd path that can't be written: {end}", len(got) == 3 and got[2] == "ok 2" and got[1].startswith("failed ")
                    and told in got[1] and got[1].isprintable() and (f"{shown}/{end}" if shown else "") in got[1], got)
    if recorder.language != "mjs":
        return
    script = folder / "odd_error.mjs"
    script.write_text(ODD_ERROR % (ROOT / "recorders/domepeeler.mjs"))
    for end, code in ("none/a.trace", "ENOENT"), ("folder", "EISDIR"), ("a.trace", "EISDIR"):
        done = subprocess.run(["node", script, f"{place}/{end}"], capture_output=True, text=True)
        name, is_path, *codes, told = json.loads(done.stdout) if done.returncode == 0 else [done] * 6
        of_lines = end == "a.trace"  # the path that can't be written is then that of what stands beside it
        tally.check(f"mjs: the error of an odd path has Node's own as its cause: {end}", name == "Error" and is_path == (not of_lines) and
                    codes == [code, True, code] and told.isprintable() and told.endswith(f"{shown}/{end}{'.lines' * of_lines}"), done)


# Runs a command whose files have room for 512 bytes; a write beyond that fails, or, in Emacs, ends the command.
NO_ROOM = ["sh", "-c", "trap '' XFSZ; ulimit -c 0; ulimit -f 1; exec \"$@\"", "sh"]


def check_lines(tally: Tally, recorder: Recorder, folder: Path) -> None:
    """Beside what is saved stands how many lines it has, also where another recorder saved before, so that the tool warns of what was
    cut, and of nothing else. Each file is written whole or not at all. A pipe or a device has no such file, and where there can't be one
    save fails."""
    from domepeeler import Recording
    place, own = folder / f"lines of {recorder.language}", LANGUAGES[recorder.language]
    place.mkdir()
    trace = place / "cycle.trace"
    calls = [fields(line.split(" -> ")[0]) for line in CYCLE.split("\n")[:-1]]

    def saved(named: object, by: Recorder = recorder, calls: list = calls) -> str:
        return by.answers([*calls, f"save\t{named}"])[-1]

    def beside(path: Path) -> str:
        """The first line of the file beside it, and the language that the second one names; what else is there is not looked at."""
        side = Path(f"{path}.lines")
        lines = side.read_text().split("\n") if side.is_file() else ["none"]
        return " ".join(lines[:1] + [line.removeprefix("language ") for line in lines[1:2]])

    def warned() -> list:
        said = subprocess.run([EXPLAIN, trace], capture_output=True, text=True, env=recorder.surroundings).stdout
        return [line.strip() for line in said.partition("\nWhat this verdict may hide\n")[2].splitlines()] if said else ["nothing is said"]

    Recording(1).save(trace)
    tally.check(f"{recorder.language}: another recorder's number of lines", beside(trace) == "2 python", beside(trace))
    tally.check(f"{recorder.language}: the number of lines", saved(trace) == "ok" and beside(trace) == f"11 {own}", beside(trace))
    tally.check(f"{recorder.language}: no warning of a whole trace", warned() == [], warned())
    trace.write_bytes(b"".join(trace.read_bytes().splitlines(True)[:-1]))
    wanted = f"the trace may have been cut at a line's end: it has 10 lines, and {trace}.lines says that 11 were saved"
    tally.check(f"{recorder.language}: a warning of one that was cut", wanted in warned(), warned())
    spaced = place / "two words.trace"
    got = saved(spaced.as_uri() if recorder.language == "mjs" else spaced)  # JavaScript takes URLs too
    tally.check(f"{recorder.language}: a path with a space", got == "ok" and beside(spaced) == f"11 {own}", (got, beside(spaced)))
    pipe, device = place / "pipe", place / "device"
    os.mkfifo(pipe)
    reading = os.open(pipe, os.O_RDONLY | os.O_NONBLOCK)
    got, told = saved(pipe), os.read(reading, 4096)
    os.close(reading)
    cycle = (EXAMPLES / "libinfinity_three_way_cycle.trace").read_bytes()
    tally.check(f"{recorder.language}: a pipe", got == "ok" and told == cycle and beside(pipe) == "none", (got, told, beside(pipe)))
    device.symlink_to("/dev/null")
    got = saved(device)
    tally.check(f"{recorder.language}: a device", got == "ok" and beside(device) == "none", (got, beside(device)))
    Path(place, "folder.trace.lines").mkdir()
    got = saved(place / "folder.trace")
    tally.check(f"{recorder.language}: no number can be written", got.startswith("failed ") and "directory" in got, got)
    got = saved(place / "nowhere" / "a.trace")
    tally.check(f"{recorder.language}: nothing can be written", got.startswith("failed ") and "a.trace.lines" not in got, got)
    there = Path(".lines").exists()
    got = saved("")
    tally.check(f"{recorder.language}: a path of nothing", got.startswith("failed ") and Path(".lines").exists() == there, got)
    full = place / "full.trace"
    narrow = Recorder(recorder.language, [*NO_ROOM, *recorder.words], recorder.surroundings["DOMEPEELER"])
    got = [saved(full, recorder, ["new\t1"]), saved(full, narrow, ["new\t1", *["read\t0"] * 100])]
    left = sorted(path.name for path in place.iterdir() if path.name.startswith((".", "full")))
    tally.check(f"{recorder.language}: what can't be written whole is not written", got[0] == "ok" and
                got[1].startswith(("failed ", "ended with -")) and full.read_bytes() == b"trace 1\nreplicas 1\n" and
                beside(full) in (f"2 {own}", f"102 {own}"), (got, beside(full)))
    tally.check(f"{recorder.language}: and nothing is left of it", left == ["full.trace", "full.trace.lines"] or
                got[1].startswith("ended with -"), (got, left))
    check_ranges(tally, recorder, place / "ranges.trace")
    check_refusals(tally, recorder, place / "refusals")
    check_replaced(tally, recorder, place / "replaced")


# Calls, which lines of the trace `delivered` wrote in each of its calls, how many lines there are, and what is told of refused calls.
CALL_REFUSED = "a call was refused, so what it says is not recorded: "
CALLS_REFUSED = "calls were refused, so what they say is not recorded; the first: "
NEVER_CAME = "a call was refused, and what it says never came: "
ONE_LIST = "delivered takes one list for each of the 2 replicas, not 1"
TWO_DELIVERIES = ["new 2", "insert 0 a 0 a", "delivered a / a", "note seed%2017", "delivered a", "read 0 a", "delivered a / a;b",
                  "delivered a / a"]
RANGES = [("of two calls, and none of one that is refused", TWO_DELIVERIES, [(4, 6), (8, 9)], 9, [f"2 {CALLS_REFUSED}{ONE_LIST}"]),
          ("of a call where nothing was recorded", ["new 3", "delivered / /"], [(3, 5)], 5, []),
          ("of 102 calls", ["new 1", "read 0", *["delivered"] * 102], [(line, line) for line in range(4, 106)], 105, []),
          ("where there is no such call", ["new 2", "insert 0 a 0 a", "received 1 0 1", "read 1 a"], [], 5, []),
          ("where each is refused", ["new 2", "read 0", "delivered", "delivered a;b /", "delivered / / /"], [], 3, [f"3 {CALLS_REFUSED}{ONE_LIST}"]),
          ("in one replica's log", ["new 2 1", "read 1", "delivered /"], [], 3,
           [f"{CALL_REFUSED}one replica's log can't say that everything has arrived: the others are recorded elsewhere"])]


def check_ranges(tally: Tally, recorder: Recorder, trace: Path) -> None:
    """Beside what is saved stand, behind the notes and before the places, the lines that each call of `delivered` wrote; and `explain`
    tells the tool of the last hundred."""
    teller = trace.parent / "teller"
    teller.write_text("#!/bin/sh\ncat > /dev/null\necho \"asked: $*\"\n")
    teller.chmod(0o755)
    language = LANGUAGES[recorder.language]
    for name, calls, ranges, count, refused in RANGES:
        got = recorder.answers([*map(fields, calls), f"save\t{trace}", "explain"], DOMEPEELER_EXPLAIN=str(teller))
        lines = Path(f"{trace}.lines").read_text().splitlines()
        noted = ["note seed 17"] * ("note seed%2017" in calls)
        head = [str(count), f"language {language}", *noted, *(f"delivered {first} {last}" for first, last in ranges),
                *(f"refused {told}" for told in refused)]
        tally.check(f"{recorder.language}: lines that delivered wrote, {name}", lines[:len(head)] == head and
                    all(line.split(" ")[0].isdigit() for line in lines[len(head):]), lines)
        told = " ".join(["| asked: --language", language, *(f"--delivered {first}-{last}" for first, last in ranges[-100:]),
                         *(f"--refused {told}" for told in refused), "-"])
        wanted = ONE_LOG if calls[0] == "new 2 1" else told
        tally.check(f"{recorder.language}: explain tells of them, {name}", any(line.endswith(wanted) for line in got[len(calls) + 1:]), got[-6:])


# Of a session in which replica 1 inserts a and b, and replica 2 c: what else is called, and what is told of refused calls.
TWO_AUTHORS = ["new 3", "insert 1 a 0 a", "insert 1 b 1 a b", "insert 2 c 0 c"]
SECOND_FIRST, FIRST = "received_clock 0 1 1 0 2 0", "received_clock 0 1 1 0 1 0"
AT_0 = (f"{NEVER_CAME}not causal: 1.2 was applied at replica 0 before 1.1, which replica 1 had seen; 1.1 must arrive first or in the same "
        "update: perhaps it was lost, or only the call for it is missing; if the update carried more than one change, say how many "
        "(`changes`)")
AT_2 = AT_0.replace("at replica 0", "at replica 2")
NO_NAME = 'name "a;b" is not 1 to 32 of A-Z a-z 0-9 _ - . (an id may have @ , : and / too)'
REFUSALS = [("none", ["received 0 1 2"], []),
            ("what is not causal, and never came", [SECOND_FIRST, "received 0 2 1"], [AT_0]),
            ("what came then", [SECOND_FIRST, FIRST, SECOND_FIRST], []),
            ("what came with its author's next", [SECOND_FIRST, "insert 1 d 2 a b d", "received 0 1 3"], []),
            ("what came through another", [SECOND_FIRST, "received 2 1 2", "read 2 a b c", "received 0 2 2"], []),
            ("whose first one came alone", [SECOND_FIRST, FIRST], [AT_0]),
            ("of two replicas, of which one got it", [SECOND_FIRST, SECOND_FIRST.replace("0 1 1", "2 1 1"), "received 0 1 2"], [AT_2]),
            ("of two replicas", [SECOND_FIRST.replace("0 1 1", "2 1 1"), SECOND_FIRST], [AT_0]),
            ("what delivered writes of", [SECOND_FIRST, "delivered a b c / a b c / a b c"], [AT_0]),
            ("what delivered writes of, and comes again", [SECOND_FIRST, "delivered a b c / a b c / a b c", "received 0 1 2"], [AT_0]),
            ("one that no trace can say", ["read 0 a;b", "received 0 1 2"], [CALL_REFUSED + NO_NAME]),
            ("several", ["read 0 a;b", "received 0 0 1", SECOND_FIRST], [f"2 {CALLS_REFUSED}{NO_NAME}", AT_0]),
            ("of calls that record nothing", ["note a%0Ab", "clock 9"], []),
            ("at a limit", [f"insert 0 n{i} 0 n{i}" for i in range(4097)], []),
            ("at a limit, by more names than were inserted", [f"read 0 {' '.join(ELEMENTS)}"], [f"{CALL_REFUSED}a response of 4097 names; a trace takes at most 4096"])]


def check_refusals(tally: Tally, recorder: Recorder, place: Path) -> None:
    """That calls were refused, and what they say was not recorded later, stands beside what is saved, and in the warnings, first; and the
    explainer is told it."""
    place.mkdir()
    trace, teller = place / "refusals.trace", place / "teller"
    teller.write_text("#!/bin/sh\ncat > /dev/null\nfor word do echo \"asked: $word\"; done\n")
    teller.chmod(0o755)
    for name, calls, wanted in REFUSALS:
        if len(calls) > 4096 and recorder.language == "el":
            continue  # it takes a minute there
        calls = [*TWO_AUTHORS, *calls]
        got = recorder.answers([*map(fields, calls), f"save\t{trace}", "warnings", "explain"], DOMEPEELER_EXPLAIN=str(teller))[len(calls) + 1:]
        beside = [line for line in Path(f"{trace}.lines").read_text().splitlines() if line.startswith("refused ")]
        tally.check(f"{recorder.language}: refused calls, {name}: beside the trace", beside == [f"refused {told}" for told in wanted], beside)
        warned = [line for line in got[:got.index("ok")] if "refused" in line]
        tally.check(f"{recorder.language}: refused calls, {name}: warnings", warned == [f"| {told}" for told in wanted] == got[:len(wanted)], got)
        asked = [line.partition("asked: ")[2] for line in got[got.index("ok"):] if "asked: " in line]
        tally.check(f"{recorder.language}: refused calls, {name}: what the explainer is told", asked[-1] == "-" and
                    asked[2:-1] == [word for told in wanted for word in ("--refused", told)] or "delivered" in name, asked)


def check_replaced(tally: Tally, recorder: Recorder, place: Path) -> None:
    """What stands in the place of a file that is saved: a link stays one, and a file keeps who may read it. Another process that saves to
    the same path, or reads there, finds one whole text or the other."""
    place.mkdir()
    target, link = place / "target.trace", place / "link.trace"
    target.write_text("what was there\n")
    target.chmod(0o640)
    link.symlink_to("target.trace")
    got = recorder.answers(["new\t1", f"save\t{link}", f"save\t{place}/new.trace"])
    written = b"trace 1\nreplicas 1\n"
    tally.check(f"{recorder.language}: a link is followed", got == ["ok"] * 3 and link.is_symlink() and target.read_bytes() == written, got)
    umask = os.umask(0)
    os.umask(umask)
    modes = [oct(path.stat().st_mode & 0o777) for path in (target, place / "new.trace", Path(f"{place}/new.trace.lines"))]
    tally.check(f"{recorder.language}: who may read it", modes == ["0o640", *[oct(0o666 & ~umask)] * 2], modes)
    both = place / "both.trace"
    texts = [written + b"0 read :\n" * count for count in (1, 400)]
    seen, processes = set(), []
    for text in texts:
        calls = ["new\t1", *["read\t0"] * (text.count(b"\n") - 2), *[f"save\t{both}"] * 60]
        processes.append(subprocess.Popen(recorder.words, stdin=subprocess.PIPE, stdout=subprocess.PIPE, env=recorder.surroundings))
        processes[-1].stdin.write("".join(call + "\n" for call in calls).encode())
        processes[-1].stdin.close()
    while any(process.poll() is None for process in processes):
        if both.exists():
            seen.add(both.read_bytes())
    ended = [process.stdout.read().splitlines()[-60:] == [b"ok"] * 60 and process.wait() == 0 for process in processes]
    tally.check(f"{recorder.language}: two that save to one path", all(ended) and seen and seen <= set(texts),
                (ended, [text[:40] for text in seen - set(texts)]))
    count = Path(f"{both}.lines").read_text().split("\n")[0]
    tally.check(f"{recorder.language}: two that save to one path: beside the trace stands what is of it", count == str(both.read_bytes().count(b"\n")), count)
    check_interfered(tally, recorder, place)
    left = [path.name for path in place.iterdir() if path.name not in ("target.trace", "link.trace", "link.trace.lines", "new.trace",
                                                                       "new.trace.lines", "both.trace", "both.trace.lines")]
    tally.check(f"{recorder.language}: nothing else is left", left == [], left)


def check_interfered(tally: Tally, recorder: Recorder, place: Path) -> None:
    """Where another process saves to the same path just before the trace is put there, so that what stands beside it is of another one,
    both are put there again; and where that goes on, it is an error."""
    from domepeeler import Recording
    own, other = place / "own.trace", place / "other.trace"
    another = Recording(1)
    another.insert(0, "other", 0, ["other"])
    another.note("seed of another")
    another.save(other)
    before = [path.read_bytes() for path in (other, Path(f"{other}.lines"))]
    with tempfile.TemporaryDirectory() as folder:  # whose path has no blank, by which LD_PRELOAD is cut
        library = library_of(ROOT / "tests/shared/interfering.c", folder)
        for often in 0, 1, 3, 1000:
            got = recorder.answers(["new\t1", "read\t0", "note\tseed of one", f"save\t{own}"], LD_PRELOAD=library, INTERFERED=str(own),
                                   INTERFERER=str(other), INTERFERENCES=str(often))[-1]
            beside = Path(f"{own}.lines").read_text()
            is_own = own.read_bytes() == b"trace 1\nreplicas 1\n0 read :\n" and beside.startswith("3\n") and "\nnote seed of one\n" in beside
            is_told = got.startswith("failed ") and "another process saves there too" in got and (recorder.language == "rs" or own.name in got)
            tally.check(f"{recorder.language}: another process saves there too, {often} times", got == "ok" and is_own if often < 1000 else is_told, (got, beside))
    tally.check(f"{recorder.language}: what another process saves is whole", [path.read_bytes() for path in (other, Path(f"{other}.lines"))] == before)
    for path in own, Path(f"{own}.lines"), other, Path(f"{other}.lines"):
        path.unlink()


# Languages whose recorder remembers where each line was recorded, and how its driver names the recording before a call; and those whose
# `explain` has no more than the tool's words, but for these places.
PLACING = {"py": "recording.", "mjs": "recording.", "rs": "recording.", "c": "domepeeler_"}
EXPLAINING = ["c", "el"]
LAST = "\nThe list specifications\n"  # the title of an explanation's last section
FAIL_BOTH = f"{LAST}  strong and weak fail\n"
CODE = re.compile(r"\nIn your code\n(  .*\n)+")


def check_places(tally: Tally, recorder: Recorder, folder: Path) -> None:
    """Beside what is saved stands for each line the place of the driver's call, from the folder in which it runs; and in another folder
    the whole path."""
    driver, trace = DRIVERS / f"driver.{recorder.language}", folder / "placed.trace"
    calls = [fields(line.split(" -> ")[0]) for line in [*CYCLE.split("\n")[:-1], "view 0 -> ok", "received_clock 1 2 1 1 0 1 -> ok"]]
    kinds = [call.split("\t")[0] for call in calls[1:]]
    if recorder.language == "mjs":
        kinds = [kind.replace("_clock", "Clock") for kind in kinds]
    source = driver.read_text().splitlines()
    for place, path in (ROOT, str(driver.relative_to(ROOT))), (folder, str(driver)):
        given = "".join(call + "\n" for call in [*calls, f"save\t{trace}"]).encode()
        subprocess.run(recorder.words, input=given, cwd=place, env=recorder.surroundings, stdout=subprocess.DEVNULL, check=True)
        head, language, *lines = Path(f"{trace}.lines").read_text().splitlines()
        tally.check(f"{recorder.language}: a place for each line", head == str(len(kinds) + 2) and
                    language == f"language {LANGUAGES[recorder.language]}" and len(lines) == len(kinds) and
                    [line.split(" ")[0] for line in lines] == [str(number) for number in range(3, len(kinds) + 3)], lines)
        for kind, line in zip(kinds, lines):
            found = re.fullmatch(rf"\d+ {re.escape(path)}:(\d+)((?:, called from {re.escape(path)}:\d+){{0,2}})", line)
            is_call = found and f"{PLACING[recorder.language]}{kind}(" in source[int(found[1]) - 1]
            tally.check(f"{recorder.language}: the place of {kind}", is_call and (not found[2] or recorder.language not in ("rs", "c")), line)
    recorder.answers(["new\t3", "insert\t0\ta\t0\ta", "delivered\ta\t/\ta\t/\ta", f"save\t{trace}"])
    lines = Path(f"{trace}.lines").read_text().splitlines()[4:]
    places = {re.search(rf"driver\.{recorder.language}:(\d+)", line)[1] for line in lines}
    tally.check(f"{recorder.language}: the place of delivered", len(lines) == 5 and len(places) == 1 and
                f"{PLACING[recorder.language]}delivered(" in source[int(*places) - 1], lines)


# Programs of a user, in `tests/` of a folder in which they run, and what must stand beside the trace that each saves. An installed package
# hands a call on, and what the language itself calls has no place. `{place}` is the folder, or nothing.
USERS = {
    "editor.py": (f'''import os
import sys
import threading
sys.path[:0] = ["{ROOT / 'recorders'}", "lib/site-packages", "lib/dist-packages"]
from domepeeler import Recording
from other import call, hand

def typed(name):
    return recording.insert(0, name, 0, [name])

def deep(left):
    if left:
        return deep(left - 1)
    recording.read(1, [])

recording = Recording(2)
n = call(hand, typed, "a")
thread = threading.Thread(target=recording.received, args=(1, 0, n))
thread.start()
thread.join()
deep(5)
recording.save("session.trace")
print(recording.explain(), end="")
whole = os.path.abspath("whole.trace")
os.mkdir("gone")
os.chdir("gone")
os.rmdir("../gone")
recording.save(whole)
''', ["3 {place}tests/editor.py:9, called from {place}tests/editor.py:17",
     "5 {place}tests/editor.py:14, called from {place}tests/editor.py:13, called from {place}tests/editor.py:21"]),
    "editor.mjs": (f'''import {{ mkdirSync, rmdirSync }} from "node:fs"
import {{ Recording }} from "{(ROOT / 'recorders').as_uri()}/domepeeler.mjs"
import {{ call }} from "other"

function typed(name) {{
  return recording.insert(0, name, 0, [name])
}}

function deep(left) {{
  if (left) deep(left - 1)
  else recording.read(1, [])
}}

const recording = new Recording(2)
const n = call(typed, "a")
setTimeout(recording.received.bind(recording, 1, 0, n), 0)
await new Promise((done) => setTimeout(done, 20))
deep(5)
await recording.save("session.trace")
process.stdout.write(await recording.explain())
const whole = process.cwd() + "/whole.trace"
mkdirSync("gone")
process.chdir("gone")
rmdirSync("../gone")
await recording.save(whole)
''', ["3 {place}tests/editor.mjs:6, called from {place}tests/editor.mjs:15",
     "5 {place}tests/editor.mjs:11, called from {place}tests/editor.mjs:10, called from {place}tests/editor.mjs:18"]),
    "editor.rs": (f'''#[path = "{ROOT / 'recorders'}/domepeeler.rs"]
mod domepeeler;
use domepeeler::Recording;

fn typed(recording: &mut Recording, name: &str) -> u32 {{
    recording.insert(0, name, 0, &[name]).unwrap()
}}

#[track_caller]
fn looked(recording: &mut Recording) {{
    recording.read(1, &[] as &[&str]).unwrap();
}}

fn main() {{
    let mut recording = Recording::new(2).unwrap();
    let n = typed(&mut recording, "a");
    recording.received(1, 0, n).unwrap();
    looked(&mut recording);
    recording.save("session.trace").unwrap();
    print!("{{}}", recording.explain().unwrap());
    let whole = std::env::current_dir().unwrap().join("whole.trace");
    std::fs::create_dir("gone").unwrap();
    std::env::set_current_dir("gone").unwrap();
    std::fs::remove_dir("../gone").unwrap();
    recording.save(whole).unwrap();
}}
''', ["3 {place}tests/editor.rs:6", "4 {place}tests/editor.rs:17", "5 {place}tests/editor.rs:18"]),
    "editor.c": (f'''#include "{ROOT / 'recorders'}/domepeeler.h"

static struct domepeeler *recording;

static unsigned typed(const char *name) {{
    return domepeeler_insert(recording, 0, name, 0, (const char *[]){{name, "b"}}, 1);
}}

#define looked(...) looked_from(__FILE__, __LINE__, __VA_ARGS__)
static unsigned looked_from(const char *file, int line, int replica) {{
    char name[1000]; /* which is another text later */
    snprintf(name, sizeof name, "%s", file);
    unsigned n = domepeeler_read_from(name, line, recording, replica, NULL, 0);
    memset(name, 'x', sizeof name - 1);
    return n;
}}

int main(void) {{
    recording = domepeeler_new(2);
    char whole[4096];
    unsigned is_done = getcwd(whole, sizeof whole - 20) && domepeeler_received(recording, 1, 0, typed("a"));
    is_done = is_done && looked(1) && domepeeler_save(recording, "session.trace");
    char *words = domepeeler_explain(recording, NULL);
    fputs(words ? words : domepeeler_why(recording), stdout);
    strcat(whole, "/whole.trace");
    is_done = is_done && !mkdir("gone", 0777) && !chdir("gone") && !rmdir("../gone") && domepeeler_save(recording, whole);
    free(words);
    domepeeler_free(recording);
    return !is_done;
}}
''', ["3 {place}tests/editor.c:6", "4 {place}tests/editor.c:21", "5 {place}tests/editor.c:22"]),
}
# Programs that read a log, and the calls of `at` that they make and that are refused; and how each is run.
LOG_READERS = {
    "reader.py": (f'''import sys
sys.path.insert(0, "{ROOT / 'recorders'}")
from pathlib import Path
from domepeeler import Recording, Refused
recording = Recording(2)
recording.at("deep/journal", 7)
recording.insert(0, "a", 0, ["a"])
recording.at(Path("deep/journal").resolve(), 9)
recording.insert(1, "b", 0, ["b"])
recording.at("deep/journal", 11)
recording.received(0, 1, 1)
recording.read(0, ["a", "b"])
recording.at("deep/journal", 12)
for file, line in [("other.log", 0), ("other.log", 1.5), ("other.log", True), (5, 1), (b"other.log", 1)]:
    try:
        recording.at(file, line)
    except Refused as why:
        print(why)
recording.received(1, 0, 1)
recording.at("deep/journal", 13)
recording.read(1, ["b", "a"])
recording.at()
recording.read(0, ["a", "b"])  # in no log
recording.save("session.trace")
print(recording.explain(), end="")
''', ["line 0 of a file is not a whole number from 1 to 4294967295",
         "line of a file is not a whole number from 1 to 4294967295 but the float 1.5",
         "line of a file is not a whole number from 1 to 4294967295 but the bool True",
         "a file is a path, not the number 5", "a file is a path, not a value of type bytes"],
                  sys.executable),
    "reader.mjs": (f'''import {{ pathToFileURL }} from "node:url"
import {{ Recording, Refused }} from "{(ROOT / 'recorders').as_uri()}/domepeeler.mjs"
const recording = new Recording(2)
recording.at("deep/journal", 7)
recording.insert(0, "a", 0, ["a"])
recording.at(pathToFileURL("deep/journal"), 9)
recording.insert(1, "b", 0, ["b"])
recording.at("deep/journal", 11)
recording.received(0, 1, 1)
recording.read(0, ["a", "b"])
recording.at("deep/journal", 12)
for (const [file, line] of [["other.log", 0], ["other.log", 1.5], ["other.log", true], [5, 1], [{{}}, 1]]) {{
  try {{
    recording.at(file, line)
  }} catch (why) {{
    if (why instanceof Refused) console.log(why.message)
  }}
}}
recording.received(1, 0, 1)
recording.at("deep/journal", 13)
recording.read(1, ["b", "a"])
recording.at()
recording.read(0, ["a", "b"]) // in no log
await recording.save("session.trace")
process.stdout.write(await recording.explain())
''', ["line 0 of a file is not a whole number from 1 to 4294967295",
         "line of a file is not a whole number from 1 to 4294967295 but the number 1.5",
         "line of a file is not a whole number from 1 to 4294967295 but the boolean true",
         "a file is a path or a URL, not the number 5", "a file is a path or a URL, not an object"], "node"),
}
# Programs with a long id, `long1`, that the explanation does not name; and how each is run.
LONG_NAMES = {
    "long1.py": (f'''import sys
sys.path.insert(0, "{ROOT / 'recorders'}")
from domepeeler import Recording
recording = Recording(2)
recording.insert(0, "{LETTERS32}x", 0, ["{LETTERS32}x"])
recording.delete(0, "{LETTERS32}x", [])
recording.insert(0, "a", 0, ["a"])
recording.received(1, 0, 3)
recording.read(1, [])
print(recording.explain())
''', [sys.executable, "long1.py"]),
    "long1.mjs": (f'''import {{ Recording }} from "{(ROOT / 'recorders').as_uri()}/domepeeler.mjs"
const recording = new Recording(2)
recording.insert(0, "{LETTERS32}x", 0, ["{LETTERS32}x"])
recording.delete(0, "{LETTERS32}x", [])
recording.insert(0, "a", 0, ["a"])
recording.received(1, 0, 3)
recording.read(1, [])
console.log(await recording.explain())
''', ["node", "long1.mjs"]),
    "long1.rs": (f'''#[path = "{ROOT / 'recorders'}/domepeeler.rs"]
mod domepeeler;
fn main() {{
    let none: &[&str] = &[];
    let mut recording = domepeeler::Recording::new(2).unwrap();
    recording.insert(0, "{LETTERS32}x", 0, &["{LETTERS32}x"]).unwrap();
    recording.delete(0, "{LETTERS32}x", none).unwrap();
    recording.insert(0, "a", 0, &["a"]).unwrap();
    recording.received(1, 0, 3).unwrap();
    recording.read(1, none).unwrap();
    println!("{{}}", recording.explain().unwrap());
}}
''', ["./long1"]),
    "long1.c": (f'''#include "{ROOT / 'recorders'}/domepeeler.h"
int main(void) {{
    const char *list[] = {{"{LETTERS32}x", "a"}};
    struct domepeeler *recording = domepeeler_new(2);
    unsigned is_done = domepeeler_insert(recording, 0, list[0], 0, list, 1) && domepeeler_delete(recording, 0, list[0], NULL, 0)
        && domepeeler_insert(recording, 0, "a", 0, list + 1, 1) && domepeeler_received(recording, 1, 0, 3)
        && domepeeler_read(recording, 1, NULL, 0);
    char *words = domepeeler_explain(recording, NULL);
    puts(words ? words : domepeeler_why(recording));
    return !is_done;
}}
''', ["./long1_c"]),
}
# Programs that record several entries in one line, of which all are named; and how each is run.
GROUPED = {
    "grouped.py": (f'''import sys
sys.path.insert(0, "{ROOT / 'recorders'}")
from domepeeler import Recording
recording = Recording(2)
for at, name in enumerate(["a", "b", "c"]):
    recording.insert(0, name, at, ["a", "b", "c"][:at + 1])
recording.received(1, 0, 3)
recording.read(1, [])
recording.note("seed 17")
print(recording.explain(), end="")
''', [sys.executable, "grouped.py"], "grouped.py:6", "grouped.py:7", "grouped.py:8"),
    "grouped.mjs": (f'''import {{ Recording }} from "{(ROOT / 'recorders').as_uri()}/domepeeler.mjs"
const recording = new Recording(2)
for (const [at, name] of ["a", "b", "c"].entries()) {{
  recording.insert(0, name, at, ["a", "b", "c"].slice(0, at + 1))
}}
recording.received(1, 0, 3)
recording.read(1, [])
recording.note("seed 17")
process.stdout.write(await recording.explain())
''', ["node", "grouped.mjs"], "grouped.mjs:4", "grouped.mjs:6", "grouped.mjs:7"),
    "grouped.rs": (f'''#[path = "{ROOT / 'recorders'}/domepeeler.rs"]
mod domepeeler;
fn main() {{
    let mut recording = domepeeler::Recording::new(2).unwrap();
    for (at, name) in ["a", "b", "c"].iter().enumerate() {{
        recording.insert(0, name, at, &["a", "b", "c"][..=at]).unwrap();
    }}
    recording.received(1, 0, 3).unwrap();
    recording.read(1, &[] as &[&str]).unwrap();
    recording.note("seed 17").unwrap();
    print!("{{}}", recording.explain().unwrap());
}}
''', ["./grouped"], "grouped.rs:6", "grouped.rs:8", "grouped.rs:9"),
    "grouped.c": (f'''#include "{ROOT / 'recorders'}/domepeeler.h"
int main(void) {{
    struct domepeeler *recording = domepeeler_new(2);
    const char *list[] = {{"a", "b", "c"}};
    for (size_t at = 0; at < 3; at++) {{
        if (!domepeeler_insert(recording, 0, list[at], (long long)at, list, at + 1)) return 1;
    }}
    if (!domepeeler_received(recording, 1, 0, 3)) return 1;
    if (!domepeeler_read(recording, 1, NULL, 0) || !domepeeler_note(recording, "seed 17")) return 1;
    fputs(domepeeler_explain(recording, NULL), stdout);
    return 0;
}}
''', ["./grouped_c"], "grouped.c:6", "grouped.c:8", "grouped.c:9"),
}
HANDING_ON = {"lib/site-packages/other.py": "from another import hand\n\n\ndef call(act, *words):\n    return act(*words)\n",
              "lib/dist-packages/another.py": "def hand(act, *words):\n    return act(*words)\n",
              "node_modules/other/package.json": '{"name": "other", "type": "module", "main": "index.mjs"}\n',
              "node_modules/other/index.mjs": "export const call = (act, ...words) => act(...words)\n"}


def check_users(tally: Tally, program: str, folder: Path) -> None:
    """Programs of a user: beside the trace stands where they call, and the words of `explain` are those of the tool on the saved file."""
    place = folder / "user's [own] (place) ä"
    programs = [(name, text) for name, (text, _) in LONG_NAMES.items()]
    for name, text in [*HANDING_ON.items(), *programs, *((f"tests/{name}", text) for name, (text, _) in USERS.items())]:
        Path(place, name).parent.mkdir(parents=True, exist_ok=True)
        Path(place, name).write_text(text)
    for source in "tests/editor.rs", "long1.rs":
        subprocess.run(["rustc", "--edition", "2021", "-o", Path(source).stem, place / source], cwd=place, check=True)
    for source in "tests/editor.c", "long1.c":
        subprocess.run([*GCC, "-o", f"{Path(source).stem}_c", place / source], cwd=place, check=True)
    surroundings = {**os.environ, "DOMEPEELER": program, "DOMEPEELER_EXPLAIN": EXPLAIN, "PYTHONDONTWRITEBYTECODE": "1",
                    "LC_ALL": "C.UTF-8"}
    for name in LONG_NAMES:
        done = subprocess.run(LONG_NAMES[name][1], cwd=place, capture_output=True, text=True, env=surroundings)
        tally.check(f"{name}: a place is no name of an id", "In your code\n" in done.stdout and f": {name}:" in done.stdout and
                    "too long" not in done.stdout, done)
    for name, words in ("editor.py", [sys.executable, "tests/editor.py"]), ("editor.mjs", ["node", "tests/editor.mjs"]), (
            "editor.rs", ["./editor"]), ("editor.c", ["./editor_c"]):
        done = subprocess.run(words, cwd=place, capture_output=True, text=True, env=surroundings)
        for saved, path in ("session.trace.lines", ""), ("whole.trace.lines", f"{place}/"):
            language = f"language {LANGUAGES[name.split('.')[1]]}"
            wanted = "".join(line + "\n" for line in ["5", language, *(line.format(place=path) for line in USERS[name][1])])
            got = Path(place, saved).read_text() if Path(place, saved).is_file() else done
            tally.check(f"{name}: places in {saved}", got == wanted, got)
        told = subprocess.run([EXPLAIN, "session.trace"], cwd=place, capture_output=True, text=True, env=surroundings)
        tally.check(f"{name}: explains as the tool explains the file", done.stdout == told.stdout and
                    "\n\nIn your code\n" + "".join("  line {0}: {1}\n".format(*line.format(place="").split(" ", 1)) for line in USERS[name][1])
                    + "\nThe list specifications\n" in told.stdout, (done, told))
        for left in place.glob("*.trace*"):
            left.unlink()


def check_grouped(tally: Tally, program: str, folder: Path) -> None:
    """Lines that were recorded at one place are told there together; behind them come the notes, and last what the verdict is by definition."""
    place = folder / "grouped"
    place.mkdir()
    surroundings = {**os.environ, "DOMEPEELER": program, "DOMEPEELER_EXPLAIN": EXPLAIN, "LC_ALL": "C.UTF-8"}
    for name, (text, words, *places) in GROUPED.items():
        Path(place, name).write_text(text)
        if name.endswith(".rs"):
            subprocess.run(["rustc", "--edition", "2021", "-o", "grouped", name], cwd=place, check=True)
        if name.endswith(".c"):
            subprocess.run([*GCC, "-o", "grouped_c", name], cwd=place, check=True)
        done = subprocess.run(words, cwd=place, capture_output=True, text=True, env=surroundings)
        told = [f"  {lines}: {one}\n" for one, lines in zip(places, ["lines 3, 4 and 5", "line 6", "line 7"])]
        tally.check(f"{name}: one place for several lines", done.stdout.startswith("contents 1.1: ") and
                    done.stdout.endswith(f"\n\nIn your code\n{''.join(told)}\nYour notes\n  seed 17\n{FAIL_BOTH}"), done)


# Programs that stop before the entry in line 6, each by the statement of its language as the tool writes it; what is printed there; and
# how each is compiled and run.
STOPPING = {
    "stopping.py": (f'''import sys
sys.path.insert(0, "{ROOT / 'recorders'}")
from domepeeler import Recording
recording = Recording(1)
for at in range(6):
    if recording.lines() == 5: breakpoint()
    print(recording.read(0, []))
recording.text()  # so that nothing is said at the end
''', "", [], [sys.executable, "stopping.py"]),
    "stopping.mjs": (f'''import {{ Session }} from "node:inspector"
import {{ Recording }} from "{(ROOT / 'recorders').as_uri()}/domepeeler.mjs"
const session = new Session()
session.connect()
session.on("Debugger.paused", () => console.log("here"))
session.post("Debugger.enable")
const recording = new Recording(1)
for (let at = 0; at < 6; at++) {{
  if (recording.lines() === 5) debugger
  console.log(recording.read(0, []))
}}
recording.text() // so that nothing is said at the end
''', "here", [], ["node", "stopping.mjs"]),
    "stopping.rs": (f'''#[path = "{ROOT / 'recorders'}/domepeeler.rs"]
mod domepeeler;
fn main() {{
    let mut recording = domepeeler::Recording::new(1).unwrap();
    for _ in 0..6 {{
        if recording.lines() == 5 {{ eprintln!("here") }}
        println!("{{}}", recording.read(0, &[] as &[&str]).unwrap());
    }}
    assert_eq!(recording.text().lines().count(), 8);
}}
''', "here", ["rustc", "--edition", "2021", "-o", "stopping_rs", "stopping.rs"], ["./stopping_rs"]),
    "stopping.c": (f'''#include "{ROOT / 'recorders'}/domepeeler.h"
#include <signal.h>
#include <unistd.h>
static void stopped(int number) {{
    (void)number;
    if (write(1, "here\\n", 5) < 0) _exit(1);
}}
int main(void) {{
    struct domepeeler *recording = domepeeler_new(1);
    signal(SIGTRAP, stopped);
    for (int at = 0; at < 6; at++) {{
        if (domepeeler_lines(recording) == 5) raise(SIGTRAP);
        printf("%u\\n", (unsigned)domepeeler_read(recording, 0, NULL, 0));
        fflush(stdout);
    }}
    if (!domepeeler_text(recording)) return 1; /* so that nothing is said when it is freed */
    domepeeler_free(recording);
}}
''', "here", ["gcc", "-o", "stopping_c", "stopping.c"], ["./stopping_c"]),
    "stopping.el": (f'''(load "{ROOT / 'recorders'}/domepeeler.el" nil t)
(fset 'debug (lambda (&rest _) (princ "here\\n")))
(let ((recording (domepeeler-new 1)))
  (dotimes (_ 6)
    (when (= (domepeeler-lines recording) 5) (debug))
    (princ (format "%d\\n" (domepeeler-read recording 0 nil))))
  (domepeeler-text recording)) ; so that nothing is said at the end
''', "here", [], ["emacs", "-Q", "--batch", "-l", "stopping.el"]),
}


def check_stopping(tally: Tally, folder: Path) -> None:
    """The statement for a debugger stops once, before the entry of its line is recorded."""
    place = folder / "stopping"
    place.mkdir()
    for name, (text, stop, compiling, words) in STOPPING.items():
        Path(place, name).write_text(text)
        if compiling:
            subprocess.run(compiling, cwd=place, check=True)
        done = subprocess.run(words, cwd=place, stdout=subprocess.PIPE, stderr=subprocess.STDOUT, text=True,
                              env={**os.environ, "PYTHONBREAKPOINT": "builtins.print"})
        tally.check(f"{name}: stops before line 6", done.stdout == f"1\n2\n3\n{stop}\n4\n5\n6\n", done)


# Programs that record, and do with it what the variable WAY says.
UNREAD = {
    "unread.py": (f'''import os, sys
sys.path.insert(0, "{ROOT / 'recorders'}")
from domepeeler import Recording, Refused
def begin():
    recording = Recording(1)
    recording.insert(0, "a", 0, ["a"])  # inserts
    return recording
way, recording = os.environ["WAY"], begin()
if way == "two": begin()
if way in ("text", "more", "refused", "nothing recorded", "stop"): recording.text()
if way == "save": recording.save("unread.trace")
if way == "judge": recording.judge()
if way == "explain": recording.explain()
if way == "more": recording.read(0, ["a"])  # reads
if way == "refused":
    try: recording.read(7, [])
    except Refused: pass
if way == "error": raise ValueError
if way == "nothing recorded": Recording(1)
if way == "stop": Recording(1, stop=True).read(0, [])
if way in ("wrong", "wrong and explained"):
    recording.text()
    try: (recording := Recording(1, stop=True)).read(0, ["b"])  # answers wrong
    except AssertionError: pass
    if way == "wrong and explained": recording.explain()
if way in ("not judged", "not stopped"):
    os.environ["DOMEPEELER"] = "/nowhere"
    if way == "not stopped": recording.text(); recording = Recording(1, stop=True)
    try: recording.judge() if way == "not judged" else recording.read(0, [])  # is not judged
    except RuntimeError: pass
if way == "not saved":
    try: recording.save("nowhere/unread.trace")
    except OSError: pass
if way == "comes later":
    recording.text()
    recording = Recording(3, stop=True)
    recording.insert(0, "a", 0, ["a"])
    recording.received_clock(1, 0, recording.clock(0))
    recording.insert(1, "b", 1, ["a", "b"])
    try: recording.received_clock(2, 1, recording.clock(1))
    except Refused: recording.read(2, [])  # it is to come
if way == "copy":
    import copy
    copy.deepcopy(recording).judge()
    recording.text()
if way == "not copied":
    import pickle
    try: pickle.dumps((recording, begin))
    except Exception: pass
if way == "worker":
    import multiprocessing
    recording.text()
    worker = multiprocessing.get_context("fork").Process(target=begin)
    worker.start()
    worker.join()
if way == "fork":
    if os.fork() == 0: sys.exit(0)
    os.wait()
''', [sys.executable, "unread.py"]),
    "unread.mjs": (f'''import {{ Recording }} from "{(ROOT / 'recorders').as_uri()}/domepeeler.mjs"
const begin = () => {{
  const recording = new Recording(1)
  recording.insert(0, "a", 0, ["a"]) // inserts
  return recording
}}
const way = process.env.WAY, recording = begin()
if (way === "two") begin()
if (["text", "more", "refused", "nothing recorded", "stop"].includes(way)) recording.text()
if (way === "save") await recording.save("unread.trace")
if (way === "judge") await recording.judge()
if (way === "explain") await recording.explain()
if (way === "more") recording.read(0, ["a"]) // reads
if (way === "refused") try {{ recording.read(7, []) }} catch {{}}
if (way === "error") throw new Error("its own")
if (way === "nothing recorded") new Recording(1)
if (way === "stop") new Recording(1, null, {{ stop: true }}).read(0, [])
if (way === "wrong" || way === "wrong and explained") {{
  recording.text()
  const stopping = new Recording(1, null, {{ stop: true }})
  try {{
    stopping.read(0, ["b"]) // answers wrong
  }} catch {{}}
  if (way === "wrong and explained") await stopping.explain()
}}
if (way === "not judged" || way === "not stopped") {{
  process.env.DOMEPEELER = "/nowhere"
  if (way === "not judged") await recording.judge().catch(() => {{}})
  else try {{
    recording.text()
    new Recording(1, null, {{ stop: true }}).read(0, []) // is not judged
  }} catch {{}}
}}
if (way === "not saved") await recording.save("nowhere/unread.trace").catch(() => {{}})
if (way === "comes later") {{
  recording.text()
  const coming = new Recording(3, null, {{ stop: true }})
  coming.insert(0, "a", 0, ["a"])
  coming.receivedClock(1, 0, coming.clock(0))
  coming.insert(1, "b", 1, ["a", "b"])
  try {{
    coming.receivedClock(2, 1, coming.clock(1))
  }} catch {{
    coming.read(2, []) // it is to come
  }}
}}
if (way === "not awaited") {{
  recording.save("late.trace")
  process.exit()
}}
''', ["node", "unread.mjs"]),
    "unread.el": (f'''(load "{ROOT / 'recorders'}/domepeeler.el" nil t)
(defun begin () (let ((recording (domepeeler-new 1))) (domepeeler-insert recording 0 "a" 0 \'("a")) recording))
(let ((way (getenv "WAY")) (recording (begin)))
  (when (string= way "two") (begin))
  (when (member way \'("text" "more" "refused" "nothing recorded" "stop")) (domepeeler-text recording))
  (when (string= way "save") (domepeeler-save recording "unread.trace"))
  (when (string= way "judge") (domepeeler-judge recording))
  (when (string= way "explain") (domepeeler-explain recording))
  (when (string= way "more") (domepeeler-read recording 0 \'("a")))
  (when (string= way "refused") (ignore-errors (domepeeler-read recording 7 nil)))
  (when (string= way "nothing recorded") (domepeeler-new 1))
  (when (string= way "stop") (domepeeler-read (domepeeler-new 1 nil t) 0 nil))
  (when (string= way "not saved") (ignore-errors (domepeeler-save recording "nowhere/unread.trace")))
  (when (member way \'("not judged" "not stopped"))
    (setenv "DOMEPEELER" "/nowhere")
    (if (string= way "not judged") (ignore-errors (domepeeler-judge recording))
      (domepeeler-text recording)
      (ignore-errors (domepeeler-read (domepeeler-new 1 nil t) 0 nil))))
  (when (member way \'("wrong" "wrong and explained"))
    (domepeeler-text recording)
    (let ((stopping (domepeeler-new 1 nil t)))
      (ignore-errors (domepeeler-read stopping 0 \'("b")))
      (when (string= way "wrong and explained") (domepeeler-explain stopping)))))
''', ["emacs", "-Q", "--batch", "-l", "unread.el"]),
}
UNREAD_WAYS = {  # with how many recordings nobody has read then, and which line recorded last
    "nothing": (1, "inserts"), "two": (2, "inserts"), "text": (0, ""), "save": (0, ""), "judge": (0, ""), "explain": (0, ""), "more": (1, "reads"), "refused": (1, "inserts"),
    "nothing recorded": (0, ""), "stop": (0, ""), "error": (1, "inserts"), "fork": (1, "inserts"), "wrong": (-1, "answers wrong"), "wrong and explained": (0, ""),
    "not judged": (1, "inserts"), "not stopped": (1, "is not judged"), "not saved": (1, "inserts"), "not awaited": (1, "inserts"), "copy": (0, ""), "not copied": (1, "inserts"),
    "comes later": (1, "it is to come"), "worker": (1, "inserts")}
UNREAD_TOLD = {0: "", 1: "domepeeler: nothing has judged a recording, saved it or taken its text since something was recorded or refused",
               2: "domepeeler: nothing has judged 2 recordings, saved them or taken their texts since something was recorded or refused",
               -1: "domepeeler: a recording that was judged after each call is wrong: contents 0.1: this response has one element that should not be there."}


def check_unread(tally: Tally, program: str, folder: Path) -> None:
    """A program that ends, by an error too, says of which recordings nobody knows whether they are right, and which it knows to be wrong. Each process
    tells of its own. An Emacs Lisp program has no lines."""
    place = folder / "unread"
    place.mkdir()
    surroundings = {**os.environ, "DOMEPEELER": program, "DOMEPEELER_EXPLAIN": EXPLAIN}
    for name, (text, words) in UNREAD.items():
        Path(place, name).write_text(text)
        for way, (many, last) in UNREAD_WAYS.items():
            if f'"{way}"' not in text and way != "nothing":
                continue
            line = next((number for number, line in enumerate(text.splitlines(), 1) if re.search(f"(#|//) {last}$", line)), None) if last else None
            wanted = UNREAD_TOLD[many] + (f"; the last line was recorded by {name}:{line}" if line else "") + ("\n" if many else "")
            done = subprocess.run(words, cwd=place, capture_output=True, text=True, env={**surroundings, "WAY": way})
            told = "".join(line for line in done.stderr.splitlines(True) if line.startswith("domepeeler: "))
            tally.check(f"{name}: {way}: what nobody has read is told", told == wanted and (done.returncode == 0) == (way != "error") and
                        (way == "error") == (done.stderr != told), (wanted, done))


def check_log_readers(tally: Tally, program: str, folder: Path) -> None:
    """Where a log is read, its lines stand beside the trace and in the words of `explain`, which are those of the tool on the saved file."""
    place = folder / "user's [own] (log) ä"
    place.mkdir()
    surroundings = {**os.environ, "DOMEPEELER": program, "DOMEPEELER_EXPLAIN": EXPLAIN, "LC_ALL": "C.UTF-8"}
    for name, (text, refused, by) in LOG_READERS.items():
        Path(place, name).write_text(text)
        done = subprocess.run([by, name], cwd=place, capture_output=True, text=True, env=surroundings)
        *told, said = done.stdout.split("\n", len(refused))
        tally.check(f"{name}: what is refused", told == refused, done)
        saved = Path(place, "session.trace.lines").read_text()
        entries = [f"{line} deep/journal:{at}" for line, at in enumerate([7, 9, 11, 11, 12, 13], 3)]
        by_code = 1 + text[:text.index("in no log")].count("\n")
        language = f"language {LANGUAGES[name.split('.')[1]]}"
        tally.check(f"{name}: the lines of the log", saved == "\n".join(["9", language, "log", *entries, f"9 {name}:{by_code}", ""]), saved)
        told = subprocess.run([EXPLAIN, "session.trace"], cwd=place, capture_output=True, text=True, env=surroundings)
        tally.check(f"{name}: explains as the tool explains the file", said == told.stdout, (done, told))
        section = "".join(f"  {lines}: deep/journal:{at}\n" for at, lines in (
            (7, "line 3"), (9, "line 4"), (11, "lines 5 and 6"), (12, "line 7"), (13, "line 8")))
        tally.check(f"{name}: names the lines of the log", f"\n\nIn your log\n{section}{LAST}" in said, said)
        tally.check(f"{name}: no debugger of this program", "\n  stop before line 7 of the trace, where replica 1 applies 0.1; " in said and
                    " The editor then writes deep/journal:12.\n" in said and "breakpoint" not in said, said)


# Records 2,500 times, each time by other calls; all of them lead through line 3.
MANY_STACKS = f'''import {{ Recording }} from "{(ROOT / 'recorders').as_uri()}/domepeeler.mjs"
const recording = new Recording(1)
const read = () => recording.read(0, [])
for (let at = 0; at < 2500; at++) new Function("act", " ".repeat(at) + "act()")(read)
await recording.save("many.trace")
'''


# A test runner that loads modules by itself, under their paths, as Jest does.
OWN_MODULES = f'''import {{ readFileSync }} from "node:fs"
import {{ pathToFileURL }} from "node:url"
import vm from "node:vm"
const path = "{ROOT / 'recorders/domepeeler.mjs'}"
const recorder = new vm.SourceTextModule(readFileSync(path, "utf8"), {{
  identifier: path,
  initializeImportMeta: (meta) => {{ meta.url = pathToFileURL(path).href }},
  importModuleDynamically: (name) => import(name),
}})
await recorder.link(() => null)
await recorder.evaluate()
const recording = new recorder.namespace.Recording(1)
recording.read(0, [])
await recording.save("own_modules.trace")
'''


def check_frames(tally: Tally, folder: Path) -> None:
    """What the recorder remembers of its callers keeps nothing of theirs alive; and of many different ones none is lost."""
    from domepeeler import Recording
    Path(folder, "own_modules.mjs").write_text(OWN_MODULES)
    subprocess.run(["node", "--no-warnings", "--experimental-vm-modules", "own_modules.mjs"], cwd=folder, check=True)
    beside = Path(folder, "own_modules.trace.lines").read_text()
    tally.check("mjs: modules that a test runner loads", beside == "3\nlanguage javascript\n3 own_modules.mjs:13\n", beside)
    Path(folder, "many.mjs").write_text(MANY_STACKS)
    subprocess.run(["node", "many.mjs"], cwd=folder, check=True)
    wanted = "2502\nlanguage javascript\n" + "".join(f"{line} many.mjs:3, called from many.mjs:4\n" for line in range(3, 2503))
    tally.check("mjs: many calls", Path(folder, "many.trace.lines").read_text() == wanted)

    class Thing:
        pass

    def act() -> weakref.ref:
        thing = Thing()
        recording.read(0, [])
        return weakref.ref(thing)

    recording = Recording(1)
    tally.check("py: keeps no frame of its callers", act()() is None)


MOST_SECONDS = 30  # of processor, where the calls take 3 at most on four that are busy; by looking up each change in a list, over 60


def check_long_updates(tally: Tally, recorder: Recorder) -> None:
    """An update of very many changes takes no longer than its length, nor do warnings of a long session."""
    count = 16000
    calls = ["new 3", *["delete 0 a"] * count, f"received_clock 1 0 {count} {count} 0 0", "warnings"]
    started = processor_seconds()
    got = recorder.answers([fields(call) for call in calls])
    took = processor_seconds() - started
    tally.check(f"{recorder.language}: an update of {count} changes", got[count + 1:count + 2] == ["ok"] and got[-2:] ==
                [f"| and {count - 5} more deletes of elements that no line inserts", "ok"] and took < MOST_SECONDS, (took, got[count:]))
    if recorder.language not in WITH_IDS:
        return
    calls = ["new 2", *[f"as i{n} delete 0 a" for n in range(2000)], *["received_changes 1 " + " ".join(f"i{n}" for n in range(2000))] * 300,
             "as paste insert 1 b 0", *["as paste delete 1 b"] * 12000, "received_changes 0 paste", "lines"]
    started = processor_seconds()
    got = recorder.answers([fields(call) for call in calls])
    took = processor_seconds() - started
    tally.check(f"{recorder.language}: very many updates with all ids", got[2001:2301] == ["ok"] * 300 and
                got[-2:] == ["ok", "ok 14005"] and took < MOST_SECONDS, (took, got[-5:]))


MOST_PROCESSOR = 2  # seconds of it, where 20,000 calls take 0.5 at most; by joining the text, or by counting its lines, over 3


def check_many_lines(tally: Tally, recorder: Recorder) -> None:
    """How many lines there are, which a debugger's statement asks before each entry, is answered at once in a long recording too: the calls
    take little more than the session without them."""
    session = ["new\t1", *["\t".join(["view", "0", *(f"{'a' * 28}{number:03}" for number in range(50))])] * 2000]

    def used(asked: int) -> float:
        """Seconds of processor, of the children that have ended."""
        before = processor_seconds()
        try:
            got = recorder.answers([*session, *["lines"] * asked])
        except subprocess.TimeoutExpired as why:
            got = [str(why)]
        tally.check(f"{recorder.language}: {asked} times how many lines", got[2001:] == ["ok 2002"] * asked, got[-1:])
        return processor_seconds() - before

    took = used(20000) - used(0)
    tally.check(f"{recorder.language}: how many lines is answered at once", took < MOST_PROCESSOR, took)


NOTHING = "nothing was recorded: the trace has no entry, so the verdict says nothing about your editor"
NEVER_HEARS = ("replica {} never hears of {}: no receipt brings it an insert or a delete from there, so nothing shows how it applies these. "
               "At the end of a session let everyone receive everything, and then read the list")
LOST_ONE = "Unless it was still on its way, it was lost or is held back"
LOST_SOME = "Unless they were still on their way, they were lost or are held back"
OF_NOTHING = ("line {0}, 0.{1}: replica 0 deleted `{2}`, which no line inserts, so nothing was there to delete: the name is wrong, or its insert "
              "was not recorded")
PAST_END = "line {0}, 0.{1}: replica 0 inserted {2} at position {3}, past the end of a list of length {4}, so it counts as the end: is position {3} right?"

# Calls of accepted recordings, and what the verdict on each may hide.
WARNED = [
    ("nothing", ["new 2"], [NOTHING]),
    ("a whole session", ["new 2", "insert 0 a 0 a", "insert 1 b 0 b", "received 0 1 1", "received 1 0 1", "read 0 b a", "read 1 b a"],
     []),
    ("everything delivered", ["new 3", "insert 0 a 0 a", "insert 1 b 0 b", "delivered b a / b a / b a"], []),
    ("a change that is held back", ["new 2", "insert 0 a 0 a", "received 1 0 1", "insert 0 b 1 a b", "read 1 a"],
     [f"the last lists of replicas 0 and 1 differ: 0.2 (line 5) never arrived at replica 1 in this recording. {LOST_ONE}"]),
    ("more of them than are told", ["new 2", "insert 0 a 0 a", "received 1 0 1", "insert 0 b 0 b a", "insert 0 c 0 c b a",
                                    "delete 0 c b a", "delete 0 b a", "read 1 a"],
     [f"in this recording 0.2 (line 5), 0.3 (line 6), 0.4 (line 7) and 1 more never arrived at replica 1. {LOST_SOME}"]),
    ("three replicas, two alike", ["new 3", "insert 1 a 0 a", "received 0 1 1", "received 2 1 1", "read 0 a", "insert 1 b 1 a b",
                                   "read 2 a"],
     ["the last lists of replicas 0, 1 and 2 differ (0 and 2 show the same one): 1.2 (line 7) never arrived at replicas 0 and 2 in "
      f"this recording. {LOST_ONE}"]),
    ("one that both deleted", ["new 2", "insert 0 a 0 a", "received 1 0 1", "delete 0 a", "delete 1 a", "received 0 1 1", "read 0",
                               "read 1"],
     [f"in this recording 0.2 (line 5) never arrived at replica 1. {LOST_ONE}"]),
    ("a replica that hears of none", ["new 2", "insert 0 a 0 a", "received 1 0 1", "insert 1 b 1 a b", "read 0 a"],
     ["the last lists of replicas 0 and 1 differ", NEVER_HEARS.format(0, "replica 1")]),
    ("replicas that it never hears of", ["new 3", "insert 0 a 0 a", "insert 1 b 0 b", "read 2", "received 0 1 1", "received 1 0 1",
                                         "read 0 b a", "read 1 b a"],
     ["the last lists of replicas 0, 1 and 2 differ (0 and 1 show the same one)", NEVER_HEARS.format(2, "replicas 0 and 1")]),
    ("no list at the end", ["new 2", "insert 0 a 0 a", "insert 1 b 0 b", "received 0 1 1", "read 0 b a", "received 1 0 1", "view 1 a"],
     ["replica 1 shows no list but a view after it received 0.1 (in line 7): let each replica read at the end"]),
    ("a list, and then a view", ["new 2", "insert 0 a 0 a", "received 1 0 1", "read 1 a", "view 1 a"], []),
    ("a view between two receipts", ["new 2", "insert 0 a 0 a", "read 1", "received 1 0 1", "view 1 a", "insert 0 b 0 b a", "received 1 0 2"],
     ["replica 1 shows no list after it received 0.1 (in line 5) and 0.2 (in line 8): let each replica read at the end"]),
    ("nothing shown of what came last", ["new 2", "insert 0 a 0 a", "read 1", "received 1 0 1", "received 1 0 1"],
     ["replica 1 shows no list after it received 0.1 (in line 5): let each replica read at the end"]),
    ("nothing shown of what came last, and a change that never came", ["new 3", "insert 0 a 0 a", "received 1 0 1", "read 1 a", "insert 0 b 1 a b",
                                                                      "received 1 0 2", "received 2 0 1", "read 2 a", "insert 0 c 2 a b c"],
     ["replica 1 shows no list after it received 0.2 (in line 7): let each replica read at the end", "the last lists of replicas 0 and 2 differ",
      f"in this recording 0.3 (line 10) never arrived at replica 1; 0.2 (line 6) and 0.3 (line 10) never arrived at replica 2. {LOST_SOME}"]),
    ("nothing shown of several", ["new 2", "insert 0 a 0 a", "insert 0 b 0 b a", "insert 0 c 0 c b a", "insert 0 d 0 d c b a",
                                  "insert 0 e 0 e d c b a", "view 1", *(f"received 1 0 {n}" for n in range(1, 6))],
     ["replica 1 shows no list after it received 0.1 (in line 9), 0.2 (in line 10), 0.3 (in line 11) and 2 more: let each "
      "replica read at the end"]),
    ("receipts alone, and no entry", ["new 3", "insert 0 a 0 a", "received 1 0 1"],
     ["replica 1 has receipts, but no operation: nothing that it showed is judged",
      "replica 2 has no entry: nothing that it showed is judged"]),
    ("deletes of what nothing inserts", ["new 1", *(f"delete 0 {one}" for one in "uvwxyz")],
     [*(OF_NOTHING.format(n + 2, n, one) for n, one in enumerate("uvwxy", 1)), "and 1 more delete of elements that no line inserts"]),
    ("positions past the end", ["new 1", "insert 0 a 5 a", "insert 0 b 1 a b", *(f"insert 0 {one} 9 {'a b c d e f g'[:2 * at + 5]}"
                                                                             for at, one in enumerate("cdefg"))],
     [PAST_END.format(3, 1, "a", 5, 0), *(PAST_END.format(n + 2, n, one, 9, n - 1) for n, one in enumerate("cdef", 3)),
      "and 1 more insert past the end of a list"]),
]


def check_warnings(tally: Tally, recorder: Recorder) -> None:
    """What an accepted verdict may hide: the same words in all languages, and the tools' words of the same text. In languages that know
    places in code, the nearest one stands behind each line in brackets. The report has these warnings, but where it accepts nothing."""
    source = (DRIVERS / f"driver.{recorder.language}").read_text().splitlines()
    for name, script, wanted in WARNED:
        got = recorder.answers([*map(fields, script), "text", "warnings", "judge"])
        end = got.index("ok", len(script))
        text = "".join(line[2:] + "\n" for line in got[len(script):end])
        told = [line[2:] for line in got[end + 1:-2]]
        report = json.loads(got[-1][7:]) if got[-1].startswith("report {") else {}
        tally.check(f"{recorder.language}: judge warns, {name}", report.get("verdict") == "accepted" and report.get("warnings") == told, got)
        placed = [place for line in told for place in re.findall(r"\((?:in )?line \d+([^()]*)\)", line)]
        if recorder.language in PLACING:
            found = [re.fullmatch(rf", [^,()]*driver\.{recorder.language}:(\d+)", place) for place in placed]
            tally.check(f"{recorder.language}: warnings have places, {name}", all(
                one and PLACING[recorder.language] in source[int(one[1]) - 1] for one in found), told)
            told = [re.sub(rf", [^,()]*driver\.{recorder.language}:\d+\)", ")", line) for line in told]
        tally.check(f"{recorder.language}: warnings, {name}", told == wanted and got[-2] == "ok", (told, wanted))
        ends, others = hidden(text.encode())
        tally.check(f"{recorder.language}: the tools' warnings, {name}", told == ends + others, (told, text))
    got = recorder.answers(["new\t1", "insert\t0\ta\t0", "insert\t0\ta\t0", "judge"])[-1]
    report = json.loads(got[7:]) if got.startswith("report {") else {"verdict": got}
    tally.check(f"{recorder.language}: no warnings of what is not accepted", report["verdict"] == "doubled" and report.get("warnings") == [],
                got)
    got = recorder.answers(["new\t3\t1", "warnings"])[-1]
    tally.check(f"{recorder.language}: warnings of one log", got == f"refused {ONE_LOG}", got)


def check_notes(tally: Tally, recorder: Recorder, folder: Path) -> None:
    """The language and the notes stand beside the trace, in their order; the tool is told the language; and the words end with the notes,
    of which none is a command of CI."""
    trace = folder / f"noted.{recorder.language}.trace"
    notes = ["seed 17", "two ä words", "language x", "seed 17", "::stop-commands::ä", "  ##vso[ä]"]
    calls = ["new 2", "note seed%2017", "insert 0 a 0 a", "note two%20%C3%A4%20words", "note language%20x", "note seed%2017",
             "note ::stop-commands::%C3%A4", "note %20%20##vso[%C3%A4]", f"save {trace}"]
    teller = folder / "teller"
    teller.write_text("#!/bin/sh\ncat > /dev/null\necho \"asked: $*\"\n")
    teller.chmod(0o755)
    got = recorder.answers([*map(fields, calls), "explain", "new\t1", "explain"], DOMEPEELER_EXPLAIN=str(teller))
    beside = Path(f"{trace}.lines").read_text().splitlines()
    head = ["3", f"language {LANGUAGES[recorder.language]}", *(f"note {note}" for note in notes)]
    tally.check(f"{recorder.language}: notes beside the trace", beside[:8] == head and
                len(beside) == 8 + (recorder.language in PLACING), beside)
    asked = f"| asked: --language {LANGUAGES[recorder.language]} -"
    tally.check(f"{recorder.language}: explain ends with the notes, and names the language", got[len(calls):] == [
        asked, "| ", "| Your notes", *(f"|   {note}" for note in [*notes[:4], "\\x3a:stop-commands::ä", "  \\x23#vso[ä]"]), "ok", "ok", asked, "ok"], got)


class Number(int, Enum):
    """Numbers as an editor's own enumeration has them; formatted, they are their names."""

    NONE = 0
    ONE = 1


class Word(str, Enum):
    FIRST = "a-b"


def check_python(tally: Tally) -> None:
    """What Python alone has: numbers and names of enumerations, copies, lists by replica, lists that fail, and threads."""
    from domepeeler import Recording
    recording = Recording(Number.ONE + Number.ONE)
    n = recording.insert(Number.NONE, Word.FIRST, Number.NONE, [Word.FIRST])
    recording.received(Number.ONE, Number.NONE, Number(n))
    recording.read(Number.ONE, ["a-b"])
    recording.received_clock(Number.ONE, Number.NONE, {Number.NONE: Number.ONE})
    recording.delivered({Number.ONE: ["a-b"], Number.NONE: (word for word in [Word.FIRST])})
    text = "trace 1\nreplicas 2\n0 ins a-b 0 : a-b\n1 recv 0 1\n1 read : a-b\n0 read : a-b\n1 read : a-b\n"
    tally.check("py: numbers and names of enumerations", recording.text() == text, recording.text())
    one = Recording(Number.ONE, Number.NONE)
    one.read(Number.NONE, [])
    tally.check("py: a log's replica of an enumeration", one.text() == "trace 1\nreplicas 1\n0 read :\n", one.text())
    for name, copied in ("copied", copy.deepcopy(recording)), ("pickled", pickle.loads(pickle.dumps(recording))):
        copied.read(0, [])
        tally.check(f"py: a recording that is {name}", copied.text() == text + "0 read :\n" and recording.text() == text, copied.text())

    def failing() -> Iterator[str]:
        yield f"{LETTERS32}x"
        raise KeyError("no name")

    for act in lambda: recording.read(0, failing()), lambda: recording.delivered([["c@d"], failing()]):
        try:
            act()
            tally.check("py: a list that fails", False)
        except KeyError:
            tally.check("py: a list that fails leaves the recording as it was", recording.text() == text and recording.ids() == {} and
                        recording.lines() == 7, recording.text())
    for act in lambda: recording.insert(0, "b", 1), lambda: recording.received_changes(1, (change.id for change in [None])):
        try:
            act()
        except (TypeError, AttributeError):
            pass
    told = recording.warnings()[0]
    tally.check("py: calls that fail otherwise are told of as refused ones", told == f"4 {CALLS_REFUSED}KeyError: 'no name'", told)
    try:
        tally.check("py: a report is neither true nor false", not Recording(1).judge([sys.executable, "-c", 'print(\'{"verdict":"accepted","operations":0}\')']))
    except TypeError as why:
        tally.check("py: a report is neither true nor false", "by its `verdict` and `warnings`" in str(why), why)
    check_forks(tally)
    check_threads(tally)


def check_forks(tally: Tally) -> None:
    """A process that is forked records into no copy, and the recording tells of it."""
    from domepeeler import Recording, Refused
    recording = Recording(1)
    recording.insert(0, "a", 0, ["a"])
    child = os.fork()
    if not child:
        status = 1
        try:
            recording.read(0, [])
        except Refused as why:
            status = 0 if "this process was forked" in str(why) else 2
        finally:
            os._exit(status)
    status = os.waitpid(child, 0)[1]
    tally.check("py: a forked process", status == 0 and recording.warnings() == [
        "a forked process recorded into its copy of this recording, so what it says is not recorded"] and recording.lines() == 3, (status, recording.warnings()))
    tally.check("py: another recording was not there", Recording(1).warnings()[0].startswith("nothing was recorded"))


def check_threads(tally: Tally) -> None:
    """Eight threads record at once: each operation has a number of its own, and each line the place of its call."""
    from domepeeler import Recording
    recording, numbers = Recording(2), [[] for _ in range(8)]

    def shows(own: list) -> None:
        for _ in range(1000):
            own.append(recording.view(0, ["even"]))

    def inserts(own: list) -> None:
        for _ in range(1000):
            own.append(recording.delete(0, "odd", []))

    threads = [threading.Thread(target=inserts if at % 2 else shows, args=(own,)) for at, own in enumerate(numbers)]
    before = sys.getswitchinterval()
    sys.setswitchinterval(1e-6)
    for thread in threads:
        thread.start()
    for thread in threads:
        thread.join()
    sys.setswitchinterval(before)
    tally.check("py: eight threads, numbers", sorted(sum(numbers, [])) == list(range(1, 8001)) and
                all(own == sorted(own) for own in numbers), len(set(sum(numbers, []))))
    with tempfile.TemporaryDirectory() as folder:
        recording.save(Path(folder, "threads.trace"))
        entries = Path(folder, "threads.trace").read_text().splitlines()[2:]
        places = [line.split(" ", 1)[1] for line in Path(folder, "threads.trace.lines").read_text().splitlines()[2:]]
    pairs = set(zip(entries, places))
    tally.check("py: eight threads, places", len(entries) == len(places) == 8000 and len(pairs) == 2 and
                {entry for entry, _ in pairs} == {"0 view : even", "0 del odd :"}, pairs)


def check_explains_file(tally: Tally, recorder: Recorder, folder: Path) -> None:
    """What `explain` says of an accepted recording that may hide something is what the tool says of the saved file; so it is where
    `delivered` alone says that a change has arrived, as the tool is told which lines that wrote."""
    trace = folder / f"unsure.{recorder.language}.trace"
    calls = ["new 2", "note seed%2017", "insert 0 a 0 a", "received 1 0 1", "insert 0 b 1 a b", "read 1 a"]
    got = recorder.answers([*map(fields, calls), f"save\t{trace}", "explain"], DOMEPEELER_EXPLAIN=EXPLAIN)
    told = subprocess.run([EXPLAIN, trace], capture_output=True, text=True, env=recorder.surroundings)
    said = [line[2:] for line in got[len(calls) + 1:-1]]
    place = f"driver\\.{recorder.language}:\\d+" if recorder.language in PLACING else ""
    tally.check(f"{recorder.language}: explains a file with warnings", told.returncode == 0 and said == told.stdout.splitlines() and
                said[-6:] == ["", "Your notes", "  seed 17", *(LAST + "  strong and weak hold").split("\n")] and re.search(rf": 0\.2 \(line 5(, .*{place})?\) never arrived at replica 1 ", told.stdout)
                and ("(line 5, " in told.stdout) == (recorder.language in PLACING), (said, told))
    late = ["new 2", "insert 0 a 0 a", "read 1", "insert 0 b 1 a b", "received 1 0 1", "received 1 0 2"]
    got = recorder.answers([*map(fields, late), f"save\t{trace}", "explain"], DOMEPEELER_EXPLAIN=EXPLAIN)
    told = subprocess.run([EXPLAIN, trace], capture_output=True, text=True, env=recorder.surroundings)
    said = [line[2:] for line in got[len(late) + 1:-1]]
    behind = f", [^()]*{place}" if place else ""
    tally.check(f"{recorder.language}: explains a file with a warning of receipts", told.returncode == 0 and said == told.stdout.splitlines() and re.search(
        rf"\n  replica 1 shows no list after it received 0\.1 \(in line 6{behind}\) and 0\.2 \(in line 7{behind}\): let each replica read at the end\n", told.stdout) is not None, (said, told))
    lost = ["new 2", "insert 0 a 0 a", "delivered a /"]
    got = recorder.answers([*map(fields, lost), f"save\t{trace}", "explain"], DOMEPEELER_EXPLAIN=EXPLAIN)
    told = subprocess.run([EXPLAIN, trace], capture_output=True, text=True, env=recorder.surroundings)
    said = [line[2:] for line in got[len(lost) + 1:-1]]
    tally.check(f"{recorder.language}: explains a file of a session that ends with delivered", told.returncode == 1 and
                said == told.stdout.splitlines() and "never reached replica 1, though the call `delivered` (line 5) says that everything has arrived." in told.stdout and
                "arrived at replica 1 in line 5 (1 recv 0 1, written by the call `delivered`, which says that everything has arrived everywhere)" in told.stdout, (said, told))


def check_judge(tally: Tally, recorder: Recorder, folder: Path) -> None:
    """The report of the cycle, and what is said where there is no report."""
    calls = [fields(line.split(" -> ")[0]) for line in CYCLE.split("\n")[:-1]]
    got = recorder.answers([*calls, "judge"])[-1]
    report = json.loads(got[len("report "):]) if got.startswith("report {") else got
    warned = report.pop("warnings", [])  # as weak holds
    tally.check(f"{recorder.language}: judge", report == CYCLE_REPORT and len(warned) == 3 and warned[0].startswith(
        "the last lists of replicas 0, 1 and 2 differ: 0.2 (line 8"), got)
    got = recorder.answers(["new\t1", "judge"])[-1]
    wanted = {"inserts": 0, "operations": 0, "order": [], "replicas": 1, "strong": True, "verdict": "accepted", "weak": True,
              "warnings": [NOTHING]}
    tally.check(f"{recorder.language}: judge of nothing", got[:8] == "report {" and json.loads(got[7:]) == wanted, got)
    got = recorder.answers(["new\t3\t1", "judge"])[-1]
    tally.check(f"{recorder.language}: judge of one log", got.split(" ", 1)[1:] == [ONE_LOG], got)
    faulty = folder / "faulty"
    faulty.write_text("#!/bin/sh\ncat > /dev/null\necho 'finder: line 3: shape' >&2\nexit 2\n")
    faulty.chmod(0o755)
    got = recorder.answers(["new\t1", "judge"], DOMEPEELER=str(faulty))
    wanted = f"failed {faulty} ended with status 2: finder: line 3: shape"
    tally.check(f"{recorder.language}: judge by a program that fails", got == ["ok", wanted], got)
    for absent, why in [(str(folder / "nowhere"), "cannot be run"), ("/bin/false", "ended with status 1 and printed no report")]:
        got = recorder.answers(["new\t1", "judge"], DOMEPEELER=absent)
        tally.check(f"{recorder.language}: judge by {absent}", got[1:] and got[1].startswith(f"failed {absent} {why}"), got)
    killed = folder / "killed"
    for script, why in ("kill -9 $$", "was ended by signal 9"), ("kill -15 $$", "was ended by signal 15"), (
            "exit 0", "ended with status 0 and printed no {}"), ("exit 1", "ended with status 1 and printed no {}"), (
            "echo why >&2; exit 0", "ended with status 0: why"):
        killed.write_text(f"#!/bin/sh\ncat > /dev/null\n{script}\n")
        killed.chmod(0o755)
        got = recorder.answers(["new\t1", "judge", "explain"], DOMEPEELER=str(killed), DOMEPEELER_EXPLAIN=str(killed))
        wanted = [f"failed {killed} {why.format(lacking)}" for lacking in ("report", "words")]
        tally.check(f"{recorder.language}: judge by what {script}", got == ["ok", *wanted], got)
    report = '{"at":"0.1","inserts":%d,"operations":%d,"order":[],"replicas":1,"strong":true,"verdict":"%s","weak":true}'
    for operations, verdict, status in (0, "accepted", 1), (1, "accepted", 0), (10, "accepted", 0), (0, "contents", 0), (1, "contents", 1):
        killed.write_text(f"#!/bin/sh\ncat > /dev/null\necho '{report % (0, operations, verdict)}'\nexit {status}\n")
        got = recorder.answers(["new\t1", "judge"], DOMEPEELER=str(killed))
        wanted = f"failed {killed} ended with status {status} and printed a report that is not on this recording"
        tally.check(f"{recorder.language}: judge by what says {verdict} of {operations} operations with status {status}",
                    got == ["ok", wanted], got)
    killed.write_text(f"#!/bin/sh\ncat > /dev/null\necho '{report % (0, 0, 'accepted')}'\n")
    got = recorder.answers(["new\t1", "judge"], DOMEPEELER=str(killed))
    tally.check(f"{recorder.language}: judge by what agrees", got[1].startswith("report {"), got)
    if recorder.language == "c":  # which asks for the text too
        for operations, status in (0, 1), (3, 0):
            killed.write_text(f"#!/bin/sh\ncat > /dev/null\nprintf 'replicas 1 operations {operations} inserts 0\\naccepted\\nstrong yes\\nweak yes\\n'\n"
                              f"exit {status}\n")
            got = recorder.answers(["new\t1", "read\t0", "read\t0", "read\t0", "weak"], DOMEPEELER=str(killed))
            wanted = f"{killed} ended with status {status} and printed a report that is not on this recording"
            tally.check(f"c: weak by what says {operations} operations with status {status}", (wanted in got[-1]) == (operations == 0), got)
    got = recorder.answers(["new\t1", "judge"], DOMEPEELER="", PATH=f"{folder / 'path'}:{os.environ['PATH']}")
    tally.check(f"{recorder.language}: judge by domepeeler on the PATH", got[1:] and got[1].startswith("report {"), got)
    got = recorder.answers(["new\t1", "judge"], DOMEPEELER="/nowhere/x\x1b[31m")
    tally.check(f"{recorder.language}: a program's name is shown", got[1].startswith("failed /nowhere/x\\x1b[31m cannot be run ("), got)
    forger = folder / "forger"
    forger.write_text("#!/bin/sh\ncat > /dev/null\nprintf '::error::\\033[31mforged\\n' >&2\nexit 2\n")
    forger.chmod(0o755)
    got = recorder.answers(["new\t1", "judge"], DOMEPEELER=str(forger))
    tally.check(f"{recorder.language}: what a program says is shown", got[1] == f"failed {forger} ended with status 2: \\x3a:error::\\x1b[31mforged", got)


def check_explain(tally: Tally, recorder: Recorder, folder: Path) -> None:
    """What `explain` answers is what the tool says of the text, and the ids of numbered names that it names; and what is said where there
    is no tool. The tool is that of the variable, or the one beside the program."""
    calls = [fields(line.split(" -> ")[0]) for line in CYCLE.split("\n")[:-1]]
    long = ["new 2", f"insert 0 {LETTERS32}x 0 {LETTERS32}x", f"delete 0 {LETTERS32}x", f"insert 0 4@{LETTERS32} 0 4@{LETTERS32}",
            "received 1 0 3", "read 1"]
    ids = f"\nIds that were too long for a name\n  long2: 4@{LETTERS32}\n"
    for name, made, more in ("the cycle", calls, ""), ("nothing", ["new\t1"], ""), ("long ids", [fields(call) for call in long], ids):
        got = recorder.answers([*made, "text", "explain"], DOMEPEELER_EXPLAIN=EXPLAIN)
        at = next(at for at, line in enumerate(got) if line == "ok" and got[at - 1].startswith("| "))
        text = "".join(line[2:] + "\n" for line in got[:at] if line.startswith("| "))
        told = subprocess.run([EXPLAIN, "--language", LANGUAGES[recorder.language], "-"], input=text, capture_output=True, text=True,
                              env=recorder.surroundings).stdout
        said = CODE.sub("", "".join(line[2:] + "\n" for line in got[at + 1:-1]))
        tally.check(f"{recorder.language}: explain {name}", LAST in told and said == told.replace(LAST, more + LAST) and got[-1] == "ok", got)
    got = recorder.answers(["new\t3\t1", "explain"], DOMEPEELER_EXPLAIN=EXPLAIN)[-1]
    tally.check(f"{recorder.language}: explain one log", got.split(" ", 1)[1:] == [ONE_LOG], got)
    for absent, why in (str(folder / "nowhere"), "cannot be run"), ("/bin/false", "ended with status 1 and printed no words"):
        got = recorder.answers(["new\t1", "explain"], DOMEPEELER_EXPLAIN=absent)[-1]
        is_named = why.startswith("ended") or got.endswith(": set DOMEPEELER_EXPLAIN to the tool's path")
        tally.check(f"{recorder.language}: explain by {absent}", got.startswith(f"failed {absent} {why}") and is_named, got)
    tool = folder / "path" / "domepeeler-explain"
    tool.write_text("#!/bin/sh\ncat > /dev/null\necho the tool beside it\n")
    tool.chmod(0o755)
    beside = recorder.answers(["new\t1", "explain"], DOMEPEELER=str(tool.parent / "domepeeler"), DOMEPEELER_EXPLAIN="")
    found = recorder.answers(["new\t1", "explain"], DOMEPEELER="domepeeler", DOMEPEELER_EXPLAIN="", PATH=f"{tool.parent}:{os.environ['PATH']}")
    tally.check(f"{recorder.language}: explain by the tool beside the program, or on the PATH", beside == found ==
                ["ok", "| the tool beside it", "ok"], (beside, found))
    tool.unlink()


ONE_LOG = "one replica's log is no recording: merge the logs first"
LOGS = ["0 ins x 0 : x|0 del x :|0 recv 1 1|0 recv 2 1|0 read : b a", "1 recv 0 1|1 ins a 0 : a x",
        "2 recv 0 1|2 ins b 1 : x b"]
MERGED = "0 ins x 0 : x|0 del x :|1 recv 0 1|1 ins a 0 : a x|2 recv 0 1|2 ins b 1 : x b|0 recv 1 1|0 recv 2 1|0 read : b a"

# Logs that don't merge, and how the reason begins.
UNMERGED = [
    ([], "there is no log"),
    (["0 read :", "0 read :"], "two logs are of replica 0: log 1 and log 2"),
    (["0 recv 1 1", "2 read :"], "these receipts name operations that no log has before them: 0 recv 1 1"),
    (["0 recv 1 1|0 read :", "1 recv 0 1|1 read :"], "these receipts name operations that no log has before them: "
     "0 recv 1 1, 1 recv 0 1"),
    (["0 read :|0 recv 1 2|0 read :", "1 recv 0 1|1 read :|1 recv 0 2|1 read :"],
     "these receipts name operations that no log has before them: 0 recv 1 2, 1 recv 0 2"),
]


# Texts that are no logs, each beside a log that is one.
UNREADABLE = [
    ("trace 1\nreplicas 3\n0 read :", "log 2 is no text of a recorder, or was cut off"),
    ("trace 1\nreplicas 3", "log 2 is no text of a recorder, or was cut off"),
    ("trace 3\nreplicas 3\n", "log 2 is no text of a recorder, or was cut off"),
    ("trace 1\nreplicas 3\n0 view :\n", "line 3 of log 2 is no entry: 0 view :"),
    ("trace 2\nreplicas 2\n", "the logs begin with different lines, so they are of different sessions: "
     "line 2 of log 1 is `replicas 3`, of log 2 `replicas 2`"),
    ("", "log 2 is no text of a recorder, or was cut off"),
    ("trace 1\nreplicas 3\n0 read :\n1 read :\n", "line 4 of log 2 is of another replica than line 3"),
    ("trace 1\nreplicas 3\n0 recv 1\n", "line 3 of log 2 is no entry: 0 recv 1"),
    ("trace 1\nreplicas 3\n\n", "line 3 of log 2 is no entry: "),
]

def log_text(lines: str) -> str:
    return "trace 1\nreplicas 3\n" + lines.replace("|", "\n") + "\n"


MERGE_USAGE = "usage: merge.py [-h] [--output TRACE] LOG [LOG ...]\nmerge.py: error: "

# A file beside those of the logs, the words of merge.py, its status, and its line.
MERGE_FAULTS = [
    ("two.log", b"trace 1\nreplicas 2\n1 read :\n", ["0.log", "two.log"], 1, "merge.py: the logs begin with different lines, so they "
     "are of different sessions: line 2 of 0.log is `replicas 3`, of two.log `replicas 2`\n"),
    ("again.log", b"trace 1\nreplicas 3\n0 read :\n", ["0.log", "1.log", "again.log"], 1,
     "merge.py: two logs are of replica 0: 0.log and again.log\n"),
    ("cut.log", b"trace 1\nreplicas 3\n2 rea", ["0.log", "cut.log"], 1, "merge.py: cut.log is no text of a recorder, or was cut off\n"),
    ("letters.log", "trace 1\nreplicas 3\n2 read : \u00e9\n".encode(), ["0.log", "letters.log"], 1,
     "merge.py: letters.log is no text of a recorder: it is not ASCII\n"),
    ("missing.log", None, ["0.log", "missing.log"], 2, "merge.py: cannot read missing.log: No such file or directory\n"),
    (".", None, ["."], 2, "merge.py: cannot read .: Is a directory\n"),
    (".", None, [], 2, f"{MERGE_USAGE}the following arguments are required: LOG\n"),
    (".", None, ["--output"], 2, f"{MERGE_USAGE}argument --output: expected one argument\n"),
    (".", None, ["--output", "new.trace"], 2, f"{MERGE_USAGE}the following arguments are required: LOG\n"),
    (".", None, ["--out", "0.log"], 2, f"{MERGE_USAGE}unrecognized arguments: --out\n"),
    ("long.log", f"trace 1\nreplicas 3\n2 recv 1 {'1' * 5000}\n".encode(), ["long.log"], 1,
     f"merge.py: line 3 of long.log is no entry: 2 recv 1 {'1' * 111}.. (5009 letters)\n"),
    ("long.log", f"trace 1\nreplicas {'1' * 5000}\n2 read :\n".encode(), ["0.log", "long.log"], 1, "merge.py: the logs begin with different "
     f"lines, so they are of different sessions: line 2 of 0.log is `replicas 3`, of long.log `replicas {'1' * 111}.. (5009 letters)`\n"),
    ("long.log", f"trace 1\nreplicas 3\n{'1' * 5000} recv 1 1\n".encode(), ["long.log"], 1, "merge.py: these receipts name operations that no "
     f"log has before them: {'1' * 120}.. (5009 letters)\n"),
    ("long.log", f"trace 1\nreplicas 3\n{'1' * 5000} read :\n".encode(), ["long.log", "./long.log"], 1,
     f"merge.py: two logs are of replica {'1' * 120}.. (5000 letters): long.log and ./long.log\n"),
    (".", None, ["--output", "new.trace", "0.log"], 1, "merge.py: these receipts name operations that no log has before them: 0 recv 1 1\n"),
    (".", None, ["--output", "./1.log", "0.log", "1.log", "2.log"], 2, "merge.py: cannot write ./1.log: it is one of the logs\n"),
    (".", None, ["0.log", "1.log", "2.log", "--output=2.log"], 2, "merge.py: cannot write 2.log: it is one of the logs\n"),
    ("0.log.lines", b"7\n", ["--output", "0.log.lines", "0.log", "1.log", "2.log"], 2,
     "merge.py: cannot write 0.log.lines: it is what stands beside 0.log\n"),
    ("s.lines", log_text(LOGS[2]).encode(), ["--output", "s", "0.log", "1.log", "s.lines"], 2,
     "merge.py: cannot write s.lines: it is one of the logs\n"),
    ("first.log", log_text(LOGS[0]).encode(), ["--output", "first.log", "1.log", "2.log"], 2,
     "merge.py: cannot write first.log: it is a trace, or a log, that was not merged\n"),
    ("first.log.lines", b"7\nnote merged\n", ["--output", "first.log", "1.log", "2.log"], 2,
     "merge.py: cannot write first.log: it is a trace, or a log, that was not merged\n"),
    ("old.trace", b"old", ["--output", "old.trace", "0.log"], 1,
     "merge.py: these receipts name operations that no log has before them: 0 recv 1 1\n"),
    ("side.trace.lines/in it", b"", ["--output", "side.trace", "0.log", "1.log", "2.log"], 2,
     "merge.py: cannot write side.trace.lines: Is a directory\n"),
    (".", None, ["--output", "none/new.trace", "0.log", "1.log", "2.log"], 2,
     "merge.py: cannot write none/new.trace.lines: No such file or directory\n"),
    (".", None, ["--output", "/dev/full", "0.log", "1.log", "2.log"], 2, "merge.py: cannot write /dev/full: No space left on device\n"),
]


def check_merge(tally: Tally, program: str, folder: Path) -> None:
    """Logs of one machine each make one trace, with the same report in whatever order they come."""
    from merge import Unmerged, merge
    logs = [log_text(log) for log in LOGS]
    tally.check("merge", merge(logs) == log_text(MERGED), merge(logs))
    viewing = log_text(f"{LOGS[1]}|1 view : x").replace("trace 1", "trace 2")
    wanted = log_text(MERGED.replace("|2 recv 0 1", "|1 view : x|2 recv 0 1", 1)).replace("trace 1", "trace 2")
    tally.check("merge with a view", merge([logs[0], viewing, logs[2]]) == wanted, merge([logs[0], viewing, logs[2]]))
    tally.check("merge with an empty log", merge([*logs, "trace 1\nreplicas 3\n"]) == log_text(MERGED))
    cycle = run(program, ["verdict", "--json", str(EXAMPLES / "libinfinity_three_way_cycle.trace")])
    for order in ([0, 1, 2], [2, 1, 0], [1, 2, 0]):
        merged = merge([logs[number] for number in order]).encode()
        tally.same(f"report of the merge {order}", run(program, ["verdict", "--json", "-"], merged), cycle)
    refused = [([log_text(log) for log in lines], why) for lines, why in UNMERGED]
    refused += [([log_text("2 read :"), text], why) for text, why in UNREADABLE]
    for texts, why in refused:
        try:
            tally.check(f"merge of {texts}", False, merge(texts))
        except Unmerged as said:
            tally.check(f"merge of {texts}", str(said).startswith(why), said)
    files = []
    for number, log in enumerate(logs):
        files.append(folder / f"{number}.log")
        files[-1].write_text(log)
    tool = [sys.executable, ROOT / "recorders" / "merge.py"]
    done = subprocess.run([*tool, *files], capture_output=True)
    tally.check("merge.py", (done.returncode, done.stdout.decode(), done.stderr) == (0, log_text(MERGED), b""), done)
    done = subprocess.run([*tool, files[0]], capture_output=True)
    tally.check("merge.py of one log of three", (done.returncode, done.stdout) == (1, b"") and
                done.stderr.startswith(b"merge.py: these receipts name"), done)
    reader, closed = os.pipe()
    os.close(reader)
    with open("/dev/full", "wb") as full:
        for out, wanted in (closed, b""), (full, b"merge.py: cannot write: No space left on device\n"):
            for unbuffered in "", "1":
                done = subprocess.run([*tool, *files], stdout=out, stderr=subprocess.PIPE,
                                      env=os.environ | {"PYTHONUNBUFFERED": unbuffered, "LC_ALL": "C.UTF-8"})
                tally.check(f"merge.py: {wanted}, {unbuffered}", (done.returncode, done.stderr) == (2, wanted), done)
    os.close(closed)
    for name, text, words, status, why in MERGE_FAULTS:
        if text is not None:
            Path(folder, name).parent.mkdir(exist_ok=True)
            Path(folder, name).write_bytes(text)
        done = subprocess.run([*tool, *words], cwd=folder, capture_output=True, text=True)
        tally.check(f"merge.py {words}", (done.returncode, done.stdout, done.stderr) == (status, "", why), done)
    tally.check("merge.py: nothing is lost or made where it fails", [file.read_text() for file in files] == logs and
                Path(folder, "old.trace").read_text() == "old" and not Path("/dev/full.lines").exists() and
                not [path for path in folder.iterdir() if path.name in ("new.trace", "new.trace.lines", "side.trace", "s")],
                sorted(folder.iterdir()))
    Path(folder, "0.log.lines").unlink()
    for name, besides, wanted, warned in MERGED_BESIDE:
        check_merged_beside(tally, folder, name, besides, wanted, warned)
    check_merged_elsewhere(tally, program, folder)


# What stands beside the logs, what then stands beside the trace, and what is said.
CODE_BESIDE = [b"7\n3 a.py:1\n4 a.py:2, called from b.py:9\n7 a.py:5\n", b"4 \r\n4 c.py:4\n", b"4\n3 d.py:3\n4 d.py:4\n4 e.py:4\n"]
LOGS_BESIDE = [text.replace(b"\n", b"\nlog\n", 1) for text in CODE_BESIDE]
MERGED_PLACES = "3 a.py:1\n4 a.py:2, called from b.py:9\n6 c.py:4\n7 d.py:3\n8 d.py:4\n11 a.py:5\n"
NO_NUMBER = "merge.py: warning: {0}.lines holds no line count, so nothing says whether {0} is whole\n"
CUT = "merge.py: warning: {0} may have been cut at a line's end: it has {1} lines, and {0}.lines says that {2} were saved\n"
MORE = "merge.py: warning: {0} has {1} lines, and {0}.lines says that {2} were saved: is that file of another log?\n"
MERGED_BESIDE = [
    ("nothing", [None, None, None], "11\nmerged\n", ""),
    ("code", CODE_BESIDE, f"11\nmerged\n{MERGED_PLACES}", ""),
    ("logs", LOGS_BESIDE, f"11\nmerged\nlog\n{MERGED_PLACES}", ""),
    ("a log among code", [CODE_BESIDE[0] + b"log\n", *CODE_BESIDE[1:]], f"11\nmerged\nlog\n{MERGED_PLACES}", ""),
    ("notes, each once", [b"7\nlanguage python\nnote seed 17\nnote \xc3\xa4\n3 a.py:1\n", b"4\nlanguage c\nnote seed 17\nnote two\n", b"4\nnote \n"],
     "11\nnote seed 17\nnote \u00e4\nnote two\nmerged\n3 a.py:1\n", ""),
    ("one that was moved alone", [None, CODE_BESIDE[1], None], "11\nmerged\n6 c.py:4\n", ""),
    ("cut logs", [CODE_BESIDE[0], b"10\n4 c.py:4\n", b"5\n3 d.py:3\n"],
     "18\nmerged\n3 a.py:1\n4 a.py:2, called from b.py:9\n11 a.py:5\n", CUT.format("1.log", 4, 10) + CUT.format("2.log", 4, 5)),
    ("another log's", [b"4\n4 c.py:4\n", CODE_BESIDE[1], None], "8\nmerged\n6 c.py:4\n", MORE.format("0.log", 7, 4)),
    ("a log's that has grown, with refused calls", [b"4\nrefused what it says\n4 c.py:4\n", None, b"9\nrefused and this\n"],
     "16\nmerged\nrefused what it says\nrefused and this\n", MORE.format("0.log", 7, 4) + "merge.py: warning: 0.log: what it says\n" + CUT.format("2.log", 4, 9) + "merge.py: warning: 2.log: and this\n"),
    ("what is no place", [b"7\nplace\n3 \n\n09 a.py:1\n2 a.py:2\n5 a.py:3", b"no number\n3 c.py:3\n", b""], "11\nmerged\n",
     NO_NUMBER.format("1.log") + NO_NUMBER.format("2.log")),
    ("what is no text", [b"7\n3 \xc3\xa9\xff.py:1\n", b"1" * 5000 + b"\n4 c.py:4\n", b"\n"], "11\nmerged\n3 \u00e9\udcff.py:1\n",
     NO_NUMBER.format("1.log") + NO_NUMBER.format("2.log")),
]


# How many seconds before the last one each of three logs was written, and of which it is warned, with how long before which.
WRITTEN = [((0, 0, 0), []), ((3600, 0, 1800), []), ((3700, 0, 0), [(0, "an hour", 1)]), ((0, 7300, 0), [(1, "2 hours", 0)]),
           ((90000, 90060, 0), [(1, "25 hours", 2), (0, "25 hours", 2)]), ((20000, 10000, 0), [(0, "5 hours", 2), (1, "2 hours", 2)]), ((3000, 6000, 0), [])]


def check_merge_stale(tally: Tally, folder: Path) -> None:
    """A log that was last written more than an hour before the others is warned of; the logs are merged all the same."""
    place = folder / "stale"
    place.mkdir()
    logs = [place / f"log{number}" for number in range(3)]
    for number, log in enumerate(logs):
        log.write_text(f"trace 1\nreplicas 3\n{number} read :\n")
    for ages, wanted in WRITTEN:
        for age, log in zip(ages, logs):
            os.utime(log, (1_000_000_000 - age,) * 2)
        for more in [], ["--output", place / "merged.trace"]:
            done = subprocess.run([sys.executable, ROOT / "recorders" / "merge.py", *more, *logs], capture_output=True, text=True)
            told = [f"merge.py: warning: {logs[log]} was last written more than {long} before {logs[other]} was, so it may be of an earlier run"
                    for log, long, other in wanted]
            tally.check(f"merge: logs that were written {ages} seconds before, {more[:1]}", done.returncode == 0 and done.stderr.splitlines() == told, done)


def check_merge_refused(tally: Tally, folder: Path) -> None:
    """On standard output, which has no file beside it, refused calls of a log are warned of."""
    place = folder / "refused logs"
    place.mkdir()
    (place / "0.log").write_text("trace 1\nreplicas 1\n0 read :\n")
    (place / "0.log.lines").write_bytes(b"3\nrefused name \x1b\n")
    done = subprocess.run([sys.executable, ROOT / "recorders" / "merge.py", "0.log"], cwd=place, capture_output=True, text=True, timeout=60)
    tally.check("merge.py: refused calls, to standard output", (done.returncode, done.stdout, done.stderr) == (
        2, "trace 1\nreplicas 1\n0 read :\n", "merge.py: warning: 0.log: name \\x1b\n"), done)


def check_merge_hostile(tally: Tally, folder: Path) -> None:
    """merge.py reads files alone, and no name or log sends bytes of its own to a terminal or writes a line of its own."""
    place = folder / "hostile logs"
    place.mkdir()
    os.mkfifo(place / "pipe")
    os.mkfifo(place / "0.log.lines")
    (place / "0.log").write_text("trace 1\nreplicas 2\n0 read :\n")
    (place / "odd.log").write_bytes(b"trace 1\nreplicas 2\n1 \x1b[31mread :\n")
    (place / "x\n::error::y").write_text("trace 1\n")
    os.symlink("/dev/zero", place / "endless")
    warned = "merge.py: warning: 0.log.lines can't be read (it is no regular file), so nothing says whether 0.log is whole\n"
    for log, words in (("pipe", "cannot read pipe: it is no regular file"), ("endless", "cannot read endless: it is no regular file"),
                       ("odd.log", "line 3 of odd.log is no entry: 1 \\x1b[31mread :"),
                       ("x\n::error::y", "x\\n::error::y is no text of a recorder, or was cut off"), ("\udcff", "cannot read \\xff: No such file or directory")):
        done = subprocess.run([sys.executable, ROOT / "recorders" / "merge.py", "0.log", log], cwd=place, capture_output=True, text=True, timeout=60)
        wanted = warned * (not words.startswith("cannot read")) + f"merge.py: {words}\n"
        tally.check(f"merge.py: {log!r}", done.returncode in (1, 2) and done.stderr == wanted and not done.stdout, done)
    os.mkfifo(place / "out.trace.lines")
    (place / "one.log").write_text("trace 1\nreplicas 2\n0 read :\n")
    done = subprocess.run([sys.executable, ROOT / "recorders" / "merge.py", "--output", "out.trace", "one.log"], cwd=place, capture_output=True, text=True,
                          timeout=60)
    tally.check("merge.py: a pipe beside the trace", (done.returncode, done.stdout, done.stderr) == (
        2, "", "merge.py: cannot write out.trace.lines: it is no regular file\n") and not (place / "out.trace").exists(), done)
    (place / "names.log").write_text(f"trace 1\nreplicas 2\n1 read :{' a' * 1_000_000}\n" + "1 read :\n" * 1000)
    started = processor_seconds()
    done = subprocess.run([sys.executable, ROOT / "recorders" / "merge.py", "--output", "names.trace", "names.log"], cwd=place, capture_output=True, text=True)
    took = processor_seconds() - started
    tally.check("merge.py: a million names, and a thousand lines", (done.returncode, done.stderr) == (0, "") and took < 10 and
                (place / "names.trace").read_bytes() == (place / "names.log").read_bytes(), (took, done))
    with open(place / "larger.log", "wb") as file:
        file.truncate((1 << 27) + 1)
    for logs in ["larger.log"], ["0.log", "larger.log"]:  # it is not read: there is no memory for that
        done = subprocess.run(["sh", "-c", 'ulimit -v 100000; exec "$@"', "sh", sys.executable, ROOT / "recorders" / "merge.py", *logs], cwd=place,
                              capture_output=True, text=True, timeout=10)
        tally.check(f"merge.py: too large, {logs}", (done.returncode, done.stdout, done.stderr) == (
            2, "", "merge.py: cannot read larger.log: it has more than 134,217,728 bytes\n"), done)
    check_merge_stopped(tally, place)


def check_merge_stopped(tally: Tally, place: Path) -> None:
    """A signal ends merge.py, and it says nothing; what it writes appears whole or not at all, once, and an older Python is told which one
    is needed."""
    (place / "0.log.lines").unlink()
    tool = [sys.executable, str(ROOT / "recorders" / "merge.py")]
    old, long = place / "old.trace", place / "long.log"
    long.write_text("trace 1\nreplicas 2\n" + "0 read :\n" * 16000)  # more than a pipe holds
    for stop in signal.SIGINT, signal.SIGTERM, signal.SIGHUP:
        reader = os.open(place / "pipe", os.O_RDONLY | os.O_NONBLOCK)
        running = subprocess.Popen([*tool, "--output", "pipe", "long.log"], cwd=place, stdout=subprocess.PIPE, stderr=subprocess.PIPE,
                                   preexec_fn=lambda: signal.signal(stop, signal.SIG_DFL))  # which what runs in the background may ignore
        select.select([reader], [], [], 30)  # it writes
        running.send_signal(stop)
        out, err = running.communicate(timeout=30)
        os.close(reader)
        tally.check(f"merge.py: stopped by {stop.name}", (running.returncode, out, err) == (-stop, b"", b""),
                    (running.returncode, out, err))
    slow = ("import os, runpy, sys, time; os.replace = lambda *_: time.sleep(60); sys.argv = sys.argv[1:]; "
            "runpy.run_path(sys.argv[0], run_name='__main__')")
    for stop in signal.SIGINT, signal.SIGTERM, signal.SIGHUP:
        running = subprocess.Popen([sys.executable, "-c", slow, tool[1], "--output", "new.trace", "long.log"], cwd=place,
                                   preexec_fn=lambda: signal.signal(stop, signal.SIG_DFL))
        until = time.monotonic() + 30
        while not any(path.name.startswith(".merge-") for path in place.iterdir()) and time.monotonic() < until:
            time.sleep(0.01)
        running.send_signal(stop)
        left = running.wait(timeout=30), sorted(path.name for path in place.iterdir() if path.name.startswith((".", "new.trace")))
        tally.check(f"merge.py: stopped by {stop.name} before the file is there", left == (-stop, []), left)
    for text in None, "old\n":
        if text:
            old.write_text(text)
            old.chmod(0o640)
        limited = subprocess.run(["sh", "-c", 'ulimit -f 1; trap "" XFSZ; exec "$@"', "sh", *tool, "--output", "old.trace", "long.log"],
                                 cwd=place,
                                 capture_output=True, text=True)
        left = sorted(path.name for path in place.iterdir() if path.name.startswith((".", "old.trace")) and path.name != "old.trace.lines")
        tally.check(f"merge.py: what can't be written whole, over {text!r}", (limited.returncode, limited.stderr) == (
            2, "merge.py: cannot write old.trace: File too large\n") and left == ["old.trace"] * bool(text)
            and (not text or old.read_text() == text),
            (limited, left))
    done = subprocess.run([*tool, "--output", "old.trace", "long.log"], cwd=place, capture_output=True)
    check_merge_interfered(tally, place)
    tally.check("merge.py: the file's mode stays", done.returncode == 0 and old.read_text() == long.read_text()
                and old.stat().st_mode & 0o777 == 0o640, done)
    with open(place / "huge.log", "wb") as file:
        file.truncate(120_000_000)
    done = subprocess.run(["sh", "-c", 'ulimit -v 200000; exec "$@"', "sh", *tool, "huge.log"], cwd=place, capture_output=True, text=True)
    tally.check("merge.py: out of memory", (done.returncode, done.stdout, done.stderr) == (3, "", "merge.py: out of memory\n"), done)
    done = subprocess.run([*tool, "--output", "a", "--output", "b", "0.log"], cwd=place, capture_output=True, text=True)
    tally.check("merge.py: two outputs", done.returncode == 2
                and done.stderr.endswith("merge.py: error: argument --output: it is given twice\n")
                and not (place / "b").exists(), done)


def check_merge_interfered(tally: Tally, place: Path) -> None:
    """Where another process writes the same trace just before it is put there, both files are put there again; where that goes on, it is an
    error."""
    own, other, log = place / "own.trace", place / "another.trace", place / "interfered.log"
    for path, text in (log, "trace 1\nreplicas 2\n0 read :\n"), (other, "trace 1\nreplicas 1\n"), (Path(f"{other}.lines"), "2\n"):
        path.write_text(text)
    with tempfile.TemporaryDirectory() as folder:
        library = library_of(ROOT / "tests/shared/interfering.c", folder)
        for often in 0, 1, 3, 1000:
            done = subprocess.run([sys.executable, ROOT / "recorders" / "merge.py", "--output", own, log], capture_output=True, text=True, env={
                **os.environ, "LD_PRELOAD": library, "INTERFERED": str(own), "INTERFERER": str(other), "INTERFERENCES": str(often)})
            is_own = own.read_text() == log.read_text() and Path(f"{own}.lines").read_text() == "3\nmerged\n"
            wanted = (0, "") if often < 1000 else (2, f"merge.py: cannot write {own}: another process writes there too\n")
            tally.check(f"merge.py: another process writes there too, {often} times", (done.returncode, done.stderr) == wanted and (
                is_own or often == 1000), (done, Path(f"{own}.lines").read_text()))


def check_merged_beside(tally: Tally, folder: Path, name: str, besides: list, wanted: str, warned: str) -> None:
    """Of which code a line is stands beside the trace, where it stands beside the log; and a cut log is warned of."""
    for number, text in enumerate(besides):
        side = folder / f"{number}.log.lines"
        side.unlink(missing_ok=True)
        if text is not None:
            side.write_bytes(text)
    Path(folder, "merged.trace").write_text("0 read : what stood here before\n" * 20)
    words = sorted(path.name for path in folder.glob("[0-2].log*"))  # as a shell has them of `[0-2].log*`
    done = subprocess.run([sys.executable, ROOT / "recorders/merge.py", "--output", "merged.trace", *words], cwd=folder,
                          capture_output=True, text=True)
    got = [Path(folder, "merged.trace").read_text(), Path(folder, "merged.trace.lines").read_text(errors="surrogateescape")]
    tally.check(f"merge.py --output: {name}", (done.returncode, done.stdout, done.stderr) == (0, "", warned) and
                got == [log_text(MERGED), wanted], (done, got))
    done = subprocess.run([sys.executable, ROOT / "recorders/merge.py", *words], cwd=folder, capture_output=True, text=True)
    status = 2 if any(words in warned for words in ("were saved", "log: ")) else 0  # no file beside standard output tells it of the trace
    tally.check(f"merge.py: {name}", (done.returncode, done.stdout, done.stderr) == (status, log_text(MERGED), warned), done)


def check_merged_elsewhere(tally: Tally, program: str, folder: Path) -> None:
    """Logs and the trace may stand in other folders. A log of many lines keeps its places; lost lines are warned of before what they
    bring with them, and with each verdict; and a debugger's statement, which counts a recording's lines, is not told of a merged trace."""
    machines = [folder / f"machine {number}" for number in range(3)]
    for number, machine in enumerate(machines):
        machine.mkdir()
        entries = f"|{number} read : b a" * 9 if number == 0 else ""
        text = log_text(LOGS[number] + entries)
        (machine / "a.log").write_text(text)
        (machine / "a.log.lines").write_text("".join([f"{text.count(chr(10))}\n", *(f"{line} code{number}.py:{line}\n" for line in range(3, 17))]))
    trace = folder / "elsewhere" / "session.trace"
    trace.parent.mkdir()
    tool = [sys.executable, str(ROOT / "recorders/merge.py"), *(str(machine / "a.log") for machine in machines), f"--output={trace}"]
    done = subprocess.run(tool, cwd="/", capture_output=True, text=True)
    places = [(0, 3), (0, 4), (1, 3), (1, 4), (2, 3), (2, 4), *((0, line) for line in range(5, 17))]
    wanted = "".join(["20\nmerged\n", *(f"{line} code{log}.py:{at}\n" for line, (log, at) in enumerate(places, 3))])
    got = Path(f"{trace}.lines").read_text()
    tally.check("merge.py: other folders, and a log of many lines", (done.returncode, done.stderr) == (0, "") and got == wanted, (done, got))
    said = subprocess.run([sys.executable, ROOT / "tools/explain", trace, "--program", program], capture_output=True, text=True).stdout
    tally.check("merge.py: explain names the lines of the code, and no debugger's statement", "  line 5: code1.py:3\n" in said and
                "In a debugger\n" in said and "breakpoint" not in said, said)
    (machines[1] / "a.log").write_text("".join((machines[1] / "a.log").read_text().splitlines(True)[:-1]))
    done = subprocess.run(tool, capture_output=True, text=True)
    warned = CUT.format(machines[1] / "a.log", 3, 4)
    tally.check("merge.py: a lost line is told before what lacks it", done.returncode == 1 and
                done.stderr == f"{warned}merge.py: these receipts name operations that no log has before them: 0 recv 1 1\n", done)
    (machines[0] / "a.log").write_text(log_text(LOGS[0].partition("|0 recv")[0]))
    (machines[0] / "a.log.lines").unlink()
    done = subprocess.run(tool, capture_output=True, text=True)
    said = subprocess.run([sys.executable, ROOT / "tools/explain", trace, "--program", program], capture_output=True, text=True).stdout
    tally.check("merge.py: a lost line is warned of at each verdict", (done.returncode, done.stderr) == (0, warned) and
                f"it has 7 lines, and {trace}.lines says that 8 were saved" in said, (done, said))
    for number in 10, 11:
        Path(folder, f"{number}.ten").write_text(f"trace 1\nreplicas 12\n{number} read :\n")
    done = subprocess.run([*tool[:2], "10.ten", "11.ten"], cwd=folder, capture_output=True, text=True)
    tally.check("merge.py: replicas of two digits", done.stdout == "trace 1\nreplicas 12\n10 read :\n11 read :\n", done)
    with open("/dev/full", "w") as full:
        done = subprocess.run(tool, stdout=subprocess.PIPE, stderr=full, text=True)
    tally.check("merge.py: a warning that can't be written", done.returncode == 0 and trace.read_text().count("\n") == 7, done)
    done = subprocess.run(f"{shlex.join(tool[:-1])} >&-", shell=True, capture_output=True, text=True)
    tally.check("merge.py: standard output is closed", done.returncode == 2 and
                done.stderr == "merge.py: cannot write: standard output is closed\n", done)


# A recording whose read has lost an element.
LOST = """from domepeeler import Recording
recording = Recording(1)
recording.insert(0, "a", 0, ["a"])
recording.read(0, [])
"""


def blocks(page: Path) -> list:
    """The indented blocks of a page, each as one text."""
    found, lines = [], []
    for line in [*page.read_text().split("\n"), "end"]:
        if line.startswith("    ") or (not line and lines):
            lines.append(line[4:])
        elif lines:
            found.append("\n".join(lines).rstrip("\n") + "\n")
            lines = []
    return found


SESSIONS_ANY_ORDER = 200


def check_guide(tally: Tally, program: str, folder: Path) -> None:
    """The guide's editor and its window print what the guide says, in a folder that has what the guide's commands put there; its
    test leaves a file that can be explained; its traces have the verdicts beside them; and its line for the debugger stops once."""
    shown = blocks(ROOT / "docs" / "recording.md")
    code = [block for block in shown if block.startswith("from ")]
    surroundings = {**os.environ, "DOMEPEELER": program, "DOMEPEELER_EXPLAIN": EXPLAIN, "PYTHONDONTWRITEBYTECODE": "1", "HOME": str(folder)}
    copying = re.findall(r"^\$ (.*)$", "".join(block for block in shown if "$ cp recorders/" in block), re.MULTILINE)
    done = subprocess.run(["sh", "-ec", "\n".join(copying)], cwd=ROOT, capture_output=True, env=surroundings)
    tally.check("guide: what is copied", len(copying) == 2 and done.returncode == 0, done)
    place = folder / "editor"
    place.mkdir(exist_ok=True)

    def ended(name: str, text: str) -> subprocess.CompletedProcess:
        Path(place, name).write_text(text)
        return subprocess.run([sys.executable, name], cwd=place, capture_output=True, env=surroundings)

    editor, clocks, window = ended("editor.py", "\n".join(code[:2])), ended("clocks.py", code[2]), ended("window.py", "\n".join(code[3:]))
    traces = [block for block in shown if block.startswith("trace ")]
    printed = [block for block in traces if "\n\n" not in block]
    tally.check("guide: the editor", len(code) == 4 and [editor.stdout.decode()] == printed, editor)
    refused = [block for block in shown if block.startswith("not causal: ")]
    tally.check("guide: the clocks", [clocks.stdout.decode()] == refused, clocks)
    check_any_order(tally, program, shown)
    judged = [block.split("\n\n") for block in traces if block not in printed]
    tally.check("guide: has traces with verdicts", len(judged) == 3, judged)
    tally.check("guide: the window", [trace + "\n" for trace, _ in judged if " view :" in trace] == [window.stdout.decode()], window)
    test = [block for block in shown if block.startswith("report = recording.judge()")]
    failed = ended("failed.py", "\n".join([LOST, *test]))
    tally.check("guide: the test fails", len(test) == 1 and failed.returncode == 1 and
                b"AssertionError: contents 0.2: " in failed.stderr, failed)
    explained = subprocess.run([EXPLAIN, "failed.trace"], cwd=place, capture_output=True, text=True, env=surroundings)
    tally.check("guide: its file is explained", explained.returncode == 1 and explained.stdout.startswith("contents 0.2: "), explained)
    for trace, wanted in judged:
        got = run(program, ["verdict", "-"], trace.encode() + b"\n")
        tally.check(f"guide: {trace}", got.out.decode().split("\n")[1:2] == [wanted.rstrip("\n")], got)
    stops = re.findall(r"^  stop before line (\d+) of the trace, where .*\n  In Python, .*\n +(if recording\.lines\(.*)$", explained.stdout, re.MULTILINE) or [("0", "")]
    surroundings["PYTHONBREAKPOINT"] = "builtins.print"
    reads = [line for number in range(3, 9) for line in [stops[0][1], f"print({number}, recording.read(0, []))"]]
    stopped = ended("stopped.py", "\n".join(["from domepeeler import Recording", "recording = Recording(1)", *reads]))
    wanted = "".join("\n" * (number == int(stops[0][0])) + f"{number} {number - 2}\n" for number in range(3, 9))
    tally.check("explain: its statement stops before that line", "\n\n" in wanted and stopped.stdout.decode() == wanted, (stops, stopped))


# How README's examples begin, what runs them in the folder of the one file that they import, and that file.
README = {"from domepeeler import": ([sys.executable, "readme.py"], "domepeeler.py", ("delivered([[],", 'delivered([["a"],')),
          "import { Recording }": (["node", "readme.mjs"], "domepeeler.mjs", ("delivered([[],", 'delivered([["a"],')),
          "mod domepeeler;": (["sh", "-c", 'rustc --edition 2021 -D warnings --test -o readme "$0" && ./readme -q', "tests/editor.rs"],
                              "domepeeler.rs", ("&[empty, empty]", '&[&["a"][..], &empty]'))}


class Places:
    """A list whose elements have places between the fractions of their neighbours, so that each change can be applied whatever came before;
    a deleted element may be deleted before it is inserted."""

    def __init__(self, replica: int):
        self.replica, self.elements, self.gone = replica, {}, set()

    def names(self) -> list:
        return sorted(self.elements.keys() - self.gone, key=self.elements.get)

    def insert(self, name: str, position: int) -> tuple:
        places = [Fraction(0), *(self.elements[one][0] for one in self.names()), Fraction(1)]
        before, behind = places[position:position + 2]
        message = name, (before + (behind - before) / (3, 5, 7)[self.replica], self.replica)  # no two replicas come to the same one
        self.apply(message)
        return message

    def delete(self, name: str) -> tuple:
        self.gone.add(name)
        return name, None

    def apply(self, message: tuple) -> None:
        name, place = message
        if place is None:
            self.gone.add(name)
        else:
            self.elements[name] = place


def check_any_order(tally: Tally, program: str, shown: list) -> None:
    """The guide's code for a network that delivers in any order: by both ways hundreds of random sessions are accepted, which are not
    where receipts are written as updates come."""
    from domepeeler import NotCausal, Recording
    take_text = [block for block in shown if block.startswith("def take(")]
    later_text = [block for block in shown if block.startswith("engine.apply(message)\n")]
    tally.check("guide: any order, its code", len(take_text) == len(later_text) == 1, (take_text, later_text))
    code = {"NotCausal": NotCausal}
    exec(take_text[0], code)
    later = compile(later_text[0], "guide", "exec")
    for way in "ask first", "record later", "as it comes":
        verdicts = Counter()
        for seed in range(SESSIONS_ANY_ORDER):
            rnd, recording = Random(seed), Recording(3)
            engines, waiting, network = [Places(replica) for replica in range(3)], [[] for _ in range(3)], []
            for step in range(18):
                replica = rnd.randrange(3)
                engine, names = engines[replica], engines[replica].names()
                if step < 12 and not waiting[replica] and rnd.random() < 0.6:
                    if names and rnd.random() < 0.4:
                        message = engine.delete(rnd.choice(names))
                        n = recording.delete(replica, message[0], engine.names())
                    else:
                        place = rnd.randint(0, len(names))
                        message = engine.insert(f"e{step}", place)
                        n = recording.insert(replica, message[0], place, engine.names())
                    network += [(other, replica, n, recording.clock(replica), message) for other in range(3) if other != replica]
                for _ in range(1 if step < 12 else len(network)):
                    if not network:
                        break
                    replica, author, n, clock, message = network.pop(rnd.randrange(len(network)))
                    engine = engines[replica]
                    if way == "as it comes":
                        engine.apply(message)
                        recording.received(replica, author, n)
                        recording.read(replica, engine.names())
                    elif way == "ask first":
                        waiting[replica].append((author, clock, message))
                        code["take"](recording, replica, waiting[replica], engine.apply)
                        recording.read(replica, engine.names())
                    else:
                        exec(later, code | {"engine": engine, "message": message, "waiting": waiting[replica], "author": author, "clock": clock,
                                            "recording": recording, "replica": replica})
            recording.delivered([engine.names() for engine in engines])
            report = recording.judge(program)
            verdicts[report["verdict"], bool(report["warnings"])] += 1
        is_right = set(verdicts) == {("accepted", False)} if way != "as it comes" else verdicts[("contents", False)] > SESSIONS_ANY_ORDER / 10
        tally.check(f"guide: any order, {way}", is_right, verdicts)


def check_readme(tally: Tally, program: str, folder: Path) -> None:
    """README's examples are accepted; and if replica 0 has lost the delete in its last answer, each ends with the explanation. That of Rust is a
    file of tests."""
    place = folder / "readme"
    (place / "tests/domepeeler").mkdir(parents=True)
    shutil.copy(ROOT / "recorders/domepeeler.rs", place / "tests/domepeeler/mod.rs")
    surroundings = {**os.environ, "DOMEPEELER": program, "DOMEPEELER_EXPLAIN": EXPLAIN, "PYTHONDONTWRITEBYTECODE": "1"}
    for begin, (words, recorder, (empty, lost)) in README.items():
        found = [block for block in blocks(ROOT / "README.md") if block.startswith(begin)]
        tally.check(f"README: {begin}", len(found) == 1 and found[0].count(empty) == 1, found)
        shutil.copy(ROOT / "recorders" / recorder, place)
        text = "".join(found)
        for code, wanted in (text, ""), (text.replace(empty, lost), "contents 0.2: "):
            Path(place, words[-1]).write_text(code)
            done = subprocess.run(words, cwd=place, capture_output=True, text=True, env=surroundings)
            said = done.stderr + done.stdout
            passed = "\nrunning 1 test\n.\ntest result: ok. 1 passed; 0 failed; " if recorder.endswith(".rs") else ""
            status = (101 if passed else 1) if wanted else 0
            tally.check(f"README: {begin}, {wanted or 'accepted'}", done.returncode == status and (
                wanted in said if wanted else said.startswith(passed) and bool(said) == bool(passed)), done)


def check_hypothesis(tally: Tally, program: str, folder: Path) -> None:
    """The test by Hypothesis: of the list with a fault it leaves the recording that it shows, as a file that can be explained; and
    each run tries other sessions."""
    place = folder / "hypothesis"
    place.mkdir()
    noting = place / "noting"
    noting.write_text(f"#!/bin/sh\ntee -a \"$TRIED\" | '{program}' \"$@\"\n")
    noting.chmod(0o755)

    def tested(judge: str, name: str, *words: str) -> str:
        surroundings = {**os.environ, "DOMEPEELER": judge, "TRIED": str(place / name), "PYTHONDONTWRITEBYTECODE": "1",
                        "HYPOTHESIS_STORAGE_DIRECTORY": str(place / f"{name}.storage")}
        words = [DEBIAN_PYTHON, "-m", "pytest", "-q", "-p", "no:cacheprovider", *words, ROOT / "recorders/properties/with_hypothesis.py"]
        return subprocess.run(words, cwd=place, capture_output=True, text=True, env=surroundings).stdout

    said = tested(program, "judged", "--hypothesis-seed=1")
    tally.check("Hypothesis: one test fails, one passes", "1 failed, 1 passed" in said, said)
    shown = "".join(line.removeprefix("E").strip() + "\n" for line in said.splitlines() if line.startswith("E "))
    saved = place / "failed.trace"
    text = saved.read_text() if saved.exists() else "none"
    tally.check("Hypothesis: the file has the recording that is shown", text.startswith("trace 1\nreplicas 3\n") and text in shown, f"{text}{said}")
    explained = subprocess.run([EXPLAIN, "--program", program, saved], capture_output=True, text=True)
    tally.check("Hypothesis: the file is explained", explained.returncode == 1 and explained.stdout.startswith("refused 2: "), explained)
    tried = []
    for name in "one", "another":
        said = tested(str(noting), name, "-k", "not fault")
        tried.append(Path(place, name).read_text().split("trace 1\n")[1:])
        tally.check("Hypothesis: the test passes", "1 passed" in said and len(tried[-1]) == 200, said)
    tally.check("Hypothesis: another run tries other sessions", set(tried[0]) != set(tried[1]))


def check_no_verdict(tally: Tally, recorder: Recorder, folder: Path) -> None:
    """A program that prints what begins as a report does, and has no verdict, is no judge."""
    other = folder / "another program"
    for printed in "{}", "{", '{"verdict":"acc', '{"at":"1.1"}':
        other.write_text(f"#!/bin/sh\ncat > /dev/null\necho '{printed}'\n")
        other.chmod(0o755)
        got = recorder.answers(["new\t1", "judge"], DOMEPEELER=str(other))
        tally.check(f"{recorder.language}: judge by a program that prints {printed}", got == [
            "ok", f"failed {other} printed a report without a verdict"], got)


# The first line of the example in a recorder's head, its last, what begins its lines, what stands around it, and how it is run.
# By name: calls, and whether they pass where the weak list specification alone is asked for; if not, how the reason begins.
CYCLE_CALLS = [line.split(" -> ")[0] for line in CYCLE.split("\n")[:-1]]
WEAK = [("strong doesn't hold", [*CYCLE_CALLS, "delivered b a / b a / b a"], "passes"),
        ("all holds", ["new 2", "insert 0 a 0 a", "delivered a / a"], "passes"),
        ("strong doesn't hold, and a delete never arrived", CYCLE_CALLS, "fails the last lists of replicas 0, 1 and 2 differ: 0.2 (line 8"),
        ("all holds, and an insert never arrived", ["new 2", "insert 0 a 0 a", "read 1"], "fails the last lists of replicas 0 and 1 differ"),
        ("nothing is recorded", ["new 1"], f"fails {NOTHING}"),
        ("opposite orders", ["new 2", "insert 0 a 0 a", "insert 1 b 0 b", "delivered a b / b a"], "fails refused 2"),
        ("a lost element", ["new 2", "insert 0 a 0 a", "delivered a / (empty)"], "fails contents 1.1"),
        ("a wrong position", ["new 1", "insert 0 a 0 a", "insert 0 b 1 b a"], "fails position 0.2"),
        ("a name twice", ["new 1", "insert 0 a 0 a", "insert 0 a 0 a"], "fails doubled 0.1 0.2")]
SESSIONS_OF_JUPITER = 60


def check_weak(tally: Tally, recorder: Recorder) -> None:
    """A recording passes where weak holds and nothing is hidden, and the tool says so first. What is judged without that goal stays."""
    cases = [(name, [fields(call.replace(" (empty)", "")) for call in calls], wanted) for name, calls, wanted in WEAK]
    got = recorder.answers([call for _, calls, _ in cases for call in [*calls, "weak", "explain_weak", "judge"]], DOMEPEELER_EXPLAIN=EXPLAIN)
    for name, calls, wanted in cases:
        passes, said = got[len(calls)], got[len(calls) + 1]
        end = got.index("ok", len(calls) + 1)
        report, got = got[end + 1], got[end + 2:]
        tally.check(f"{recorder.language}: weak, {name}", passes == wanted if wanted == "passes" else passes.startswith(wanted), passes)
        alone = "| weak holds, strong doesn't" + (": " if wanted == "passes" else ", with three warnings: ")
        tally.check(f"{recorder.language}: weak, {name}: the words", said.startswith(alone) == name.startswith("strong doesn't"), said)
        told = json.loads(report[len("report "):]) if report.startswith("report {") else {"verdict": report}
        is_warned = "all holds, and" in name or "never arrived" in name or "nothing" in name
        tally.check(f"{recorder.language}: weak, {name}: what is judged without it warns too where weak holds", bool(told.get("warnings")) == is_warned
                    and (told.get("weak") is True) == (wanted == "passes" or is_warned), report)


# By name: calls of a session in C, and what domepeeler_passes() answers.
PASSES = [("all holds", ["new 2", "insert 0 a 0 a", "delivered a / a"], "passes"),
          ("strong doesn't hold", WEAK[0][1], "fails refused 3"),
          ("an insert never arrived", WEAK[3][1], "fails the last lists of replicas 0 and 1 differ"),
          ("nothing is recorded", ["new 1"], f"fails {NOTHING}"),
          ("a lost element", ["new 2", "insert 0 a 0 a", "delivered a / (empty)"], "fails contents 1.1"),
          ("a call was refused", ["new 1", "insert 0 a 0 a", "read 7"], "fails a call was refused, so what it says is not recorded: no replica 7")]


def check_passes_c(tally: Tally, recorder: Recorder, folder: Path) -> None:
    """In C a recording passes where it is accepted, nothing warns, and no call was refused; and not where there is no program."""
    for name, calls, wanted in PASSES:
        got = recorder.answers([fields(call.replace(" (empty)", "")) for call in [*calls, "passes"]])[-1]
        tally.check(f"c: passes, {name}", got == wanted if wanted == "passes" else got.startswith(wanted), got)
    got = recorder.answers([fields(call) for call in [*PASSES[0][1], "passes"]], DOMEPEELER=str(folder / "nowhere"))[-1]
    tally.check("c: passes, without a program", got.startswith(f"fails {folder / 'nowhere'} cannot be run"), got)


def check_stop(tally: Tally, recorder: Recorder, folder: Path) -> None:
    """A session stops in the call that answered wrong, in no other, and with the words of `explain`; its line stays the last. Where there is
    no verdict, each call says so."""
    for name, script in STOPS:
        pairs = [line.split(" -> ") for line in script.split("\n")[:-1]]
        if recorder.language not in CLOCKED:
            pairs = [pair for pair in pairs if not pair[0].startswith("received_clock")]
        weak = "explain_weak" if script.startswith("stop_weak") else "explain"
        asked = [weak] if "stopped" in script else []
        got = recorder.answers([*(fields(call) for call, _ in pairs), *asked], DOMEPEELER_EXPLAIN=EXPLAIN)
        answers, told = got[:len(pairs)], " / ".join(line[2:] for line in got[len(pairs):-1])
        at = next((at for at, (_, wanted) in enumerate(pairs) if wanted.startswith("stopped")), len(pairs))
        says = answers[at] if at < len(answers) else ""
        wanted = [says if wanted == "again" or number == at else wanted for number, (_, wanted) in enumerate(pairs)]
        tally.check(f"{recorder.language}: stops, {name}", answers == wanted, got)
        if at == len(pairs):
            continue
        told = re.sub(" /  / Your notes(?: /   [^/]*)*(?= /  / )", "", told)  # what was noted when it had stopped
        tally.check(f"{recorder.language}: stops, {name}: the words", says.startswith(pairs[at][1]) and says == f"stopped {told}" and
                    (recorder.language == "el" or " / In your code / " in says), got)
    calls = [fields(call) for call in ("stop 2", "insert 0 a 0 a", "received 1 0 1", "read 1 a", "lines")]
    killed = folder / "killed"
    killed.write_text("#!/bin/sh\ncat > /dev/null\necho no >&2\nexit 3\n")
    killed.chmod(0o755)
    for program, why in (str(folder / "nowhere"), "cannot be run"), (str(killed), "ended with status 3: no"):
        got = recorder.answers(calls, DOMEPEELER=program)
        is_told = [answer.startswith(f"failed {program} {why}") for answer in got]
        tally.check(f"{recorder.language}: stops where the program {why}", is_told == [False, True, False, True, False] and
                    got[::2] == ["ok", "ok", "ok 5"], got)
    calls[3] = "read\t1"
    got = recorder.answers(calls, DOMEPEELER_EXPLAIN="nowhere")
    tally.check(f"{recorder.language}: stops without an explainer", re.match(
        r"stopped The recording is not accepted: contents( 1\.1)?\. There is no explanation: nowhere cannot be run", got[3]), got)


def check_jupiter(tally: Tally, program: str, folder: Path) -> None:
    """Random sessions of an editor with a server. A right one passes where weak alone is asked for, though some of its sessions are refused; with
    each of four bugs sessions fail. Both languages record the same."""
    place = folder / "jupiter"
    place.mkdir()
    source = ROOT / "tests" / "tools" / "jupiter"
    subprocess.run([*GCC, "-o", place / "jupiter", source / "jupiter.c"], check=True)
    surroundings = {**os.environ, "DOMEPEELER": program}
    for bug in "none", "tie", "unmapped", "double", "dropped":
        shown, texts = [], []
        for language, words in ("c", [place / "jupiter"]), ("mjs", ["node", source / "jupiter.mjs"]):
            traces = place / language / bug
            traces.mkdir(parents=True)
            done = subprocess.run([*words, bug, str(SESSIONS_OF_JUPITER), traces], capture_output=True, text=True, env=surroundings, timeout=60)
            lines = [line.split(" ") for line in done.stdout.splitlines()]
            tally.check(f"Jupiter, {language}, {bug}: sessions", done.returncode == 0 and not done.stderr and
                        [line[0] for line in lines] == [str(seed) for seed in range(1, SESSIONS_OF_JUPITER + 1)], done)
            shown.append([line[:3] for line in lines])
            texts.append([(traces / f"{bug}-{line[0]}.trace").read_text() for line in lines])
            if bug == "none":
                check_right_jupiter(tally, language, lines, texts[-1])
            else:
                kinds = Counter(line[2] for line in lines if line[1] == "fails")
                tally.check(f"Jupiter, {language}, {bug}: sessions fail", sum(kinds.values()) >= 20 and kinds["contents"] >= 20, kinds)
            if bug == "dropped":
                at_end = [text for text, line in zip(texts[-1], lines) if int(line[0]) % 2 == 0 and line[1] == "fails"]
                ends = [passes_but_for_end(program, text) for text in at_end]
                tally.check(f"Jupiter, {language}: what is dropped last is found by `delivered` alone", len(ends) >= 5 and all(ends), ends)
        tally.check(f"Jupiter, {bug}: the same by both", shown[0] == shown[1] and texts[0] == texts[1], [
            pair for pair in zip(*shown) if pair[0] != pair[1]])


def check_right_jupiter(tally: Tally, language: str, lines: list, texts: list) -> None:
    """Each session passes, some of them though strong doesn't hold, and in the end all clients show one list with what is there."""
    kinds = Counter(tuple(line[1:3]) for line in lines)
    tally.check(f"Jupiter, {language}: a right one passes, and strong fails now and then", set(kinds) == {
        ("passes", "accepted"), ("passes", "refused")} and kinds["passes", "refused"] >= 5, kinds)
    for text in texts:
        entries = [line.partition(" :") for line in text.splitlines()]
        reads = [entry for entry in entries if entry[0].split()[1] == "read"][-int(entries[1][0].split()[1]):]
        inserted, deleted = ({head.split()[2] for head, _, _ in entries if head.split()[1] == kind} for kind in ("ins", "del"))
        tally.check(f"Jupiter, {language}: one list in the end", reads[-1] == entries[-1] and len({names for _, _, names in reads}) == 1 and
                    set(reads[-1][2].split()) == inserted - deleted, text)


def passes_but_for_end(program: str, text: str) -> bool:
    """Whether weak holds in a trace without its last entries, which `delivered` wrote: a read of each replica, and receipts before each."""
    lines = text.splitlines(keepends=True)
    reads = [at for at, line in enumerate(lines) if line.split()[1] == "read"][-int(lines[1].split()[1]):]
    end = reads[0]
    while lines[end - 1].split()[:2] == [lines[reads[0]].split()[0], "recv"]:
        end -= 1
    return b"\nweak yes\n" in run(program, ["verdict", "-"], "".join(lines[:end]).encode()).out


HEADS = {
    "domepeeler.rs": ("let none", "println!(\"{}\", recording.explain()", "//! ",
                      "#[path = \"{recorder}\"]\nmod domepeeler;\nuse domepeeler::Recording;\n"
                      "fn main() -> Result<(), Box<dyn std::error::Error>> {{\n{example}Ok(())\n}}\n",
                      "rustc --edition 2021 -D warnings -o head {source} && ./head"),
    "domepeeler.h": ("    struct domepeeler *", "    domepeeler_free", " * ",  # whose test says nothing where all is right
                     "#include \"{recorder}\"\nint main(void) {{\n{example}return 0;\n}}\n",
                     "gcc -std=c99 -Wall -Wextra -Werror -o head {source} && ./head"),
    "domepeeler.el": ("  (let* ((recording", "    (princ (domepeeler-explain", ";; ", "(load \"{recorder}\" nil t)\n{example}",
                      "emacs -Q --batch -l {source}")}


def check_heads(tally: Tally, program: str, folder: Path) -> None:
    """The example in the head of a recorder runs as it stands there, and is accepted without warnings."""
    place = folder / "heads"
    place.mkdir()
    with_lost = {"domepeeler.h": ('"a", NULL, 0)', '"a", list, 1)')}  # by name: where the list shows the element after its delete
    for name, (first, last, mark, around, command) in HEADS.items():
        recorder = ROOT / "recorders" / name
        lines = [line[len(mark):] for line in recorder.read_text().splitlines() if line.startswith(mark)]
        begin = next(at for at, line in enumerate(lines) if line.startswith(first))
        end = next(at for at, line in enumerate(lines) if line.startswith(last))
        example = "".join(line + "\n" for line in lines[begin:end + 1])
        source = place / f"head{recorder.suffix.replace('.h', '.c')}"
        source.write_text(around.format(recorder=recorder, example=example))
        done = subprocess.run(["sh", "-c", command.format(source=source.name)], cwd=place, capture_output=True, text=True,
                              env={**os.environ, "DOMEPEELER": program, "DOMEPEELER_EXPLAIN": EXPLAIN, "LC_ALL": "C.UTF-8"})
        trace = place / "session.trace"
        tally.check(f"{name}: the example of its head", done.returncode == 0 and ("accepted: " in done.stdout or name in with_lost and not done.stdout) and
                    "may hide" not in done.stdout and trace.is_file() and trace.read_text().endswith("0 read :\n1 read :\n"), done)
        for there, program_of_it, words in ((program, "wrong", "contents 1.1\n"), (f"{place}/nowhere", "no program", "nowhere cannot be run")) if name in with_lost else ():
            source.write_text(around.format(recorder=recorder, example=example.replace(*with_lost[name]) if program_of_it == "wrong" else example))
            done = subprocess.run(["sh", "-c", command.format(source=source.name)], cwd=place, capture_output=True, text=True,
                                  env={**os.environ, "DOMEPEELER": there, "DOMEPEELER_EXPLAIN": EXPLAIN})
            tally.check(f"{name}: the example of its head, {program_of_it}", done.returncode == 1 and words in done.stdout, done)
        trace.unlink(missing_ok=True)


# Of the heads: what stands before each line, how a script begins that has the lines where weak is enough, and the words that run it.
WEAK_HEADS = {
    "domepeeler.py": ("    ", "from domepeeler import Recording\nrecording = Recording(3)\n", [sys.executable]),
    "domepeeler.mjs": ("//     ", 'import {{ Recording }} from "{}"\nconst recording = new Recording(3)\n', ["node"]),
    "domepeeler.h": (" *     ", "#include \"{}\"\nint main(void) {{\nstruct domepeeler *recording = domepeeler_new(3);\n"
                     "#define DONE(call) if (!(call)) return 1\n", ["sh", "-c", 'gcc -std=c99 -Wall -Wextra -Werror -o weak "$0" && ./weak']),
    "domepeeler.el": (";;   ", '(load "{}" nil t)\n(let ((recording (domepeeler-new 3)))\n', ["emacs", "-Q", "--batch", "-l"])}


def call_in(name: str, call: str) -> str:
    """A call of a session, as a line of the recorder's language."""
    kind, replica, *rest = call.split(" ")
    numbers = {"insert": 2, "received": 2, "delete": 1, "read": 0}[kind]
    given, shown = [word if word.isdigit() else f'"{word}"' for word in rest[:numbers]], [f'"{word}"' for word in rest[numbers:]]
    as_list = {".el": f"(list {' '.join(shown)})", ".h": f"(const char *[]){{{', '.join(shown) or 'NULL'}}}, {len(shown)}"}
    words = [replica, *given, *([] if kind == "received" else [as_list.get(Path(name).suffix, f"[{', '.join(shown)}]")])]
    if name.endswith(".el"):
        return f"(domepeeler-{kind} recording {' '.join(words)})\n"
    call = f"{kind}({', '.join(words)})"
    return f"DONE(domepeeler_{call.replace('(', '(recording, ', 1)});\n" if name.endswith(".h") else f"recording.{call}\n"


def check_weak_heads(tally: Tally, program: str, folder: Path) -> None:
    """What the head of a recorder says of weak runs as it stands there: at the end of a session in which weak alone holds, and of one in
    which a delete did not arrive everywhere, and which does not pass."""
    place = folder / "weak_heads"
    place.mkdir()
    at_end = ["received 1 0 2", "received 1 2 1", "read 1 b a", "received 2 0 2", "received 2 1 1", "read 2 b a"]
    for name, (mark, before, words) in WEAK_HEADS.items():
        recorder = ROOT / "recorders" / name
        lines = recorder.read_text().split("\n")
        begin = next(at for at, line in enumerate(lines) if "For such a one" in line)
        block = [line[len(mark):] for line in lines[begin:begin + 7] if line.startswith(mark)]
        tally.check(f"{name}: its head says how where weak is enough", 1 <= len(block) <= 3, block)
        end = {".el": ")\n", ".h": "domepeeler_free(recording);\nreturn 0;\n}\n"}.get(recorder.suffix, "")
        for ends, is_passing in (at_end, True), ([], False):
            source = place / f"weak{recorder.suffix.replace('.h', '.c')}"
            source.write_text(before.format(recorder) + "".join(call_in(name, call) for call in CYCLE_CALLS[1:] + ends) + "\n".join([*block, end]))
            done = subprocess.run([*words, source], cwd=place, capture_output=True, text=True, env={
                **os.environ, "DOMEPEELER": program, "DOMEPEELER_EXPLAIN": EXPLAIN, "LC_ALL": "C.UTF-8", "PYTHONPATH": str(ROOT / "recorders")})
            said = done.stdout + done.stderr
            told = not said and done.returncode == 0 if is_passing else done.returncode and any(words in said for words in (
                "the last lists of replicas 0, 1 and 2 differ", "weak holds, strong doesn't, with three warnings"))
            tally.check(f"{name}: what its head says of weak, {'passing' if is_passing else 'with a warning'}", told, done)


# A user's tests in Rust: of one the list is lost where the variable says so.
RUST_TESTS = f"""#[path = "{ROOT / 'recorders'}/domepeeler.rs"]
mod domepeeler;
use domepeeler::{{Recording, Step, Verdict}};

const NONE: &[&str] = &[];

fn session() -> Recording {{
    let mut recording = Recording::new(2).unwrap();
    let n = recording.insert(0, "a", 0, &["a"]).unwrap();
    recording.received(1, 0, n).unwrap();
    recording
}}

#[test]
fn all_is_delivered() {{
    let mut recording = session();
    recording.delivered(&[vec!["a".to_string()], vec!["a".to_string()]]).unwrap();
    recording.assert_accepted();
    assert_eq!(recording.verdict(), Ok(Verdict::Accepted {{ order: vec!["a".into()], warnings: vec![] }}));
    let report = recording.judge().unwrap();
    assert!(report.contains("\\"verdict\\":\\"accepted\\"") && report.trim().ends_with(",\\"warnings\\":[]}}"), "{{report}}");
}}

mod inner {{
    #[test]
    fn a_list_is_lost() {{
        let mut recording = super::session();
        recording.read(1, if std::env::var_os("LOST").is_some() {{ super::NONE }} else {{ &["a"] }}).unwrap(); // reads
        recording.assert_accepted(); // asks
    }}
}}

#[test]
fn an_insert_never_arrives() {{
    let mut recording = session();
    recording.read(1, &["a"]).unwrap();
    if std::env::var_os("LOST").is_some() {{
        recording.insert(0, "b", 1, &["a", "b"]).unwrap(); // hidden
    }}
    recording.assert_accepted();
}}

#[test]
fn nothing_is_recorded() {{
    Recording::new(2).unwrap().assert_accepted();
}}

#[test]
fn it_stops() {{
    let mut recording = Recording::new(2).unwrap().stop().unwrap();
    recording.insert(0, "a", 0, &["a"]).unwrap();
    recording.received(1, 0, 1).unwrap();
    recording.read(1, if std::env::var_os("LOST").is_some() {{ NONE }} else {{ &["a"] }}).unwrap(); // stops
    if std::env::var_os("LOST").is_some() {{
        println!("it went on");
    }}
}}

#[test]
fn there_is_no_program() {{
    let session = session();
    assert!(session.verdict_by("/nowhere/domepeeler").unwrap_err().starts_with("/nowhere/domepeeler cannot be run ("));
    assert_eq!(session.verdict_by("true").unwrap_err(), "true ended with status 0 and printed no report");
    assert!(session.verdict().is_ok());
}}

#[test]
fn verdicts() {{
    let mut recording = session();
    let warning = "replica 1 has receipts, but no operation: nothing that it showed is judged".to_string();
    assert_eq!(recording.verdict(), Ok(Verdict::Accepted {{ order: vec!["a".into()], warnings: vec![warning] }}));
    let mut lost = recording.clone();
    lost.read(1, NONE).unwrap();
    assert_eq!(lost.verdict(), Ok(Verdict::Contents {{ at: (1, 1) }}));
    let mut moved = recording.clone();
    moved.insert(0, "b", 1, &["b", "a"]).unwrap();
    assert_eq!(moved.verdict(), Ok(Verdict::Position {{ at: (0, 2) }}));
    recording.insert(0, "a", 0, NONE).unwrap();
    assert_eq!(recording.verdict(), Ok(Verdict::Doubled {{ first: (0, 1), again: (0, 2) }}));
    let mut crossed = Recording::new(2).unwrap();
    crossed.insert(0, "a", 0, &["a"]).unwrap();
    crossed.insert(1, "b", 0, &["b"]).unwrap();
    crossed.delivered(&[["a", "b"], ["b", "a"]]).unwrap();
    let step = |from: &str, to: &str, shown| Step {{
        from: from.to_string(),
        to: to.to_string(),
        shown,
        response: vec![from.to_string(), to.to_string()],
    }};
    let steps = vec![step("a", "b", (0, 2)), step("b", "a", (1, 2))];
    assert_eq!(crossed.verdict(), Ok(Verdict::Refused {{ steps, weak: false }}));
    let shown: Vec<String> = [lost, moved, recording, crossed].iter().map(|one| one.verdict().unwrap().to_string()).collect();
    assert_eq!(shown, ["contents 1.1", "position 0.2", "doubled 0.1 0.2", "refused 2"]);
}}

#[test]
fn strong_does_not_hold() {{
    let mut recording = Recording::new(3).unwrap();
    recording.insert(0, "x", 0, &["x"]).unwrap();
    recording.received(1, 0, 1).unwrap();
    recording.received(2, 0, 1).unwrap();
    recording.insert(1, "a", 0, &["a", "x"]).unwrap();
    recording.insert(2, "b", 1, &["x", "b"]).unwrap();
    recording.delete(0, "x", NONE).unwrap();
    recording.received(0, 1, 1).unwrap();
    recording.received(0, 2, 1).unwrap();
    recording.read(0, &["b", "a"]).unwrap();
    let verdict = recording.verdict().unwrap();
    assert!(verdict.is_weak() && !verdict.is_accepted());
    if std::env::var_os("LOST").is_none() {{
        recording.delivered(&[["b", "a"]; 3]).unwrap();
    }}
    recording.assert_weak(); // weak
}}

#[test]
fn orders_are_opposite() {{
    let mut recording = Recording::new(2).unwrap();
    recording.insert(0, "a", 0, &["a"]).unwrap();
    recording.insert(1, "b", 0, &["b"]).unwrap();
    let is_lost = std::env::var_os("LOST").is_some();
    recording.delivered(&[["a", "b"], if is_lost {{ ["b", "a"] }} else {{ ["a", "b"] }}]).unwrap();
    assert_eq!(recording.verdict().unwrap().is_weak(), !is_lost);
    recording.assert_weak();
}}
"""


def check_rust_tests(tally: Tally, program: str, folder: Path) -> None:
    """A verdict as a value; and `assert_accepted`, which explains, saves, and removes what an earlier run has saved, and takes no recording
    that is accepted with warnings. Its folder's name has signs that JSON escapes, and a place is named with them. A copy of the recorder
    among tests gives clippy nothing to say."""
    place = folder / 'a "user\'s" \\tests'
    place.mkdir()
    (place / "editor.rs").write_text(RUST_TESTS)
    subprocess.run(["rustc", "--edition", "2021", "-D", "warnings", "--test", "-o", "editor-0123456789abcdef", "editor.rs"], cwd=place,
                   check=True)
    surroundings = {**os.environ, "DOMEPEELER": program, "DOMEPEELER_EXPLAIN": EXPLAIN, "RUST_BACKTRACE": "0", "LC_ALL": "C.UTF-8"}
    line = {word: next(number for number, text in enumerate(RUST_TESTS.splitlines(), 1) if f"// {word}" in text) for word in ("asks", "reads", "stops", "weak")}
    saved = place / "failed_traces" / "editor-inner-a_list_is_lost.trace"
    done = subprocess.run(["./editor-0123456789abcdef"], cwd=place, env={**surroundings, "LOST": "1"}, capture_output=True, text=True)
    tally.check("Rust tests: counts", done.returncode != 0 and "test result: FAILED. 3 passed; 6 failed;" in done.stdout, done)
    tally.check("Rust tests: one that stops names the line of its call", re.search(
        rf"editor\.rs:{line['stops']}:\d+:\ncontents 1\.1: [^\0]*line 5: editor\.rs:{line['stops']}\n", done.stdout) and
        "it went on" not in done.stdout, done)
    tally.check("Rust tests: a lost list is explained", f"editor.rs:{line['asks']}:" in done.stdout and "contents 1.1: " in done.stdout and
                f"\nIn your code\n  line 3: editor.rs:9\n  line 4: editor.rs:10\n  line 5: editor.rs:{line['reads']}\n" in done.stdout and
                f"\nThe trace is saved: failed_traces/{saved.name}\n" in done.stdout, done)
    tally.check("Rust tests: nothing recorded", NOTHING in done.stdout, done)
    warning = ("the last lists of replicas 0 and 1 differ: 0.2 (line 6, editor.rs:{}) never arrived at replica 1 in this recording. "
               "{}").format(next(number for number, text in enumerate(RUST_TESTS.splitlines(), 1) if "// hidden" in text), LOST_ONE)
    unsure = saved.with_name("editor-an_insert_never_arrives.trace")
    tally.check("Rust tests: warnings of an accepted recording fail", f":\n{warning}\n\naccepted, with a warning: " in done.stdout and
                f"\nWhat this verdict may hide\n  {warning}\n" in done.stdout and
                f"\nThe trace is saved: failed_traces/{unsure.name}\n" in done.stdout and
                unsure.read_text().endswith("1 read : a\n0 ins b 1 : a b\n"), done)
    weak = [saved.with_name(f"editor-{name}.trace") for name in ("orders_are_opposite", "strong_does_not_hold")]
    tally.check("Rust tests: where weak is enough, warnings fail", f"editor.rs:{line['weak']}:" in done.stdout and
                "\n\nweak holds, strong doesn't, with three warnings: " in done.stdout and
                f"\nThe trace is saved: failed_traces/{weak[1].name}\n" in done.stdout, done)
    tally.check("Rust tests: where weak is enough, opposite orders fail", "\nrefused 2: " in done.stdout and
                f"\nThe trace is saved: failed_traces/{weak[0].name}\n" in done.stdout, done)
    tally.check("Rust tests: what is saved", sorted(path.name for path in saved.parent.iterdir() if path.name != ".runs") == [
        ".gitignore", unsure.name, f"{unsure.name}.lines", saved.name, f"{saved.name}.lines",
        *sorted(f"{path.name}{end}" for path in weak for end in ("", ".lines"))] and
        saved.read_text().endswith("1 recv 0 1\n1 read :\n") and (saved.parent / ".gitignore").read_text() == "*\n", done)
    passed = subprocess.run(["./editor-0123456789abcdef", "strong_does_not_hold", "--nocapture"], cwd=place, env=surroundings, capture_output=True, text=True)
    tally.check("Rust tests: a pass by weak alone is told", passed.returncode == 0 and "weak holds, strong doesn't\n" in passed.stderr, passed)
    without = subprocess.run(["./editor-0123456789abcdef", "never"], cwd=place, capture_output=True, text=True,
                             env={**surroundings, "LOST": "1", "DOMEPEELER_EXPLAIN": "/nowhere/explain"})
    tally.check("Rust tests: warnings where no tool explains", without.returncode != 0 and
                f":\n{warning}\n\naccepted\n/nowhere/explain cannot be run (" in without.stdout, without)
    liar = place / "liar"
    for operations, status in (3, 1), (9, 0), (31, 0):
        liar.write_text(f"#!/bin/sh\ncat > /dev/null\nprintf 'replicas 2 operations {operations} inserts 1\\naccepted\\nstrong yes\\n"
                        f"weak yes\\norder : a\\n'\nexit {status}\n")
        liar.chmod(0o755)
        done = subprocess.run(["./editor-0123456789abcdef", "all_is_delivered"], cwd=place, capture_output=True, text=True,
                              env={**surroundings, "DOMEPEELER": "./liar"})
        tally.check(f"Rust tests: a report of {operations} operations with status {status}", "0 passed; 1 failed;" in done.stdout and
                    f"./liar ended with status {status} and printed a report that is not on this recording" in done.stdout, done)
    done = subprocess.run(["./editor-0123456789abcdef"], cwd=place, env=surroundings, capture_output=True, text=True)
    tally.check("Rust tests: one that passes removes what it saved before", "8 passed; 1 failed;" in done.stdout and
                [path.name for path in saved.parent.iterdir() if path.name != ".runs"] == [".gitignore"], done)
    need("clippy-driver", "rust-clippy")
    (place / "tests/domepeeler").mkdir(parents=True)
    shutil.copy(ROOT / "recorders/domepeeler.rs", place / "tests/domepeeler/mod.rs")
    (place / "tests/editor.rs").write_text(RUST_TESTS.partition("\n")[2])
    words = ["clippy-driver", "--edition", "2021", "-D", "warnings", "-D", "clippy::all", "--test", "-o", "linted", "tests/editor.rs"]
    done = subprocess.run(words, cwd=place, capture_output=True, text=True)
    tally.check("Rust: nothing for clippy in a module of tests", (done.returncode, done.stderr) == (0, ""), done)
    (place / "placed.rs").write_text(f"""#[path = "{ROOT / 'recorders'}/domepeeler.rs"]
mod domepeeler;
fn main() {{
    let mut recording = domepeeler::Recording::new(2).unwrap();
    recording.insert(0, "a", 0, &["a"]).unwrap();
    recording.read(1, &[] as &[&str]).unwrap();
    recording.received(1, 0, 1).unwrap();
    print!("{{}}", recording.judge().unwrap());
}}
""")
    subprocess.run(["rustc", "--edition", "2021", "-o", "placed", place / "placed.rs"], cwd=place, check=True)
    done = subprocess.run([place / "placed"], cwd=folder, env=surroundings, capture_output=True, text=True)
    tally.check("Rust: places with signs that JSON escapes", json.loads(done.stdout)["warnings"] == [
        'replica 1 shows no list after it received 0.1 (in line 5, a "user\'s" \\tests/placed.rs:7): let each replica read at the end'], done)


# Tests in Rust that fail by themselves where the variable says so.
OWN_PANICS = f"""#[path = "{ROOT / 'recorders'}/domepeeler.rs"]
mod domepeeler;
use domepeeler::Recording;

fn reading(names: &[&str]) -> Recording {{
    let mut recording = Recording::new(1).unwrap();
    recording.read(0, names).unwrap(); // reads
    recording
}}

fn fails() {{
    assert!(std::env::var_os("FAILS").is_none(), "by itself");
}}

/// Hands it on, so that nothing is wrong with dropping it.
fn taken(recording: &Recording) {{
    assert!(recording.text().starts_with("trace 1\n"));
}}

#[test]
fn by_itself() {{
    let mut recording = reading(&[]);
    recording.insert(0, "a", 0, &["a"]).unwrap(); // inserts
    fails();
    recording.assert_accepted();
}}

#[test]
fn with_three() {{
    let first = reading(&["first"]);
    let second = reading(&["second"]);
    let copy = second.clone();
    taken(&second);
    drop(second);
    let third = reading(&["third"]);
    fails();
    [&first, &copy, &third].into_iter().for_each(taken);
}}

#[test]
fn in_the_second() {{
    let first = reading(&["first"]);
    let second = reading(if std::env::var_os("FAILS").is_some() {{ &["lost"] }} else {{ &[] }});
    second.assert_accepted();
    assert!(first.verdict().is_ok());
}}

#[test]
fn after_it_was_saved() {{
    let mut recording = reading(&[]);
    recording.save("by_hand.trace").unwrap();
    recording.read(0, &["later"]).unwrap();
    fails();
    taken(&recording);
}}

#[test]
fn in_a_log() {{
    let mut log = Recording::only(3, 1).unwrap();
    log.received(1, 0, 7).unwrap();
    fails();
    taken(&log);
}}

#[test]
fn saved() {{
    let recording = reading(&[]);
    recording.save("by_hand.trace").unwrap();
    fails();
}}

#[test]
fn judged() {{
    let recordings = [reading(&["judged"]), reading(&["judged"]), reading(&["judged"])];
    let _ = recordings[0].judge().unwrap();
    assert!(recordings[1].verdict().is_ok());
    let _ = recordings[2].explain().unwrap();
    fails();
}}

#[test]
fn lists_differ() {{
    let mut recording = Recording::new(2).unwrap();
    recording.insert(0, "a", 0, &["a"]).unwrap();
    recording.received(1, 0, 1).unwrap();
    recording.read(1, &["a"]).unwrap();
    recording.insert(0, "b", 1, &["a", "b"]).unwrap(); // never arrives
    fails();
    taken(&recording);
}}

#[test]
fn of_nothing() {{
    let _recording = Recording::new(1).unwrap();
    fails();
}}

#[test]
fn caught() {{
    taken(&reading(&[]));
    assert!(std::panic::catch_unwind(|| panic!("before")).is_err());
    taken(&reading(&[]));
}}

#[test]
fn of_three_cases() {{
    for case in ["one", "two", "three"] {{
        let tried = std::panic::catch_unwind(|| {{
            let recording = reading(&[case]);
            fails();
            taken(&recording);
        }});
        assert_eq!(tried.is_ok(), std::env::var_os("FAILS").is_none());
    }}
}}
"""


def check_own_panics(tally: Tally, program: str, folder: Path) -> None:
    """A test in Rust that fails by itself has the traces saved that it did not save; the verdicts, accepted or not, and the paths stand on
    standard error. A passing one saves nothing. Where they can't be judged, saved or told of, the tests end as they would."""
    place = folder / "own panics"
    place.mkdir()
    (place / "own.rs").write_text(OWN_PANICS)
    subprocess.run(["rustc", "--edition", "2021", "-D", "warnings", "--test", "-o", "own", "own.rs"], cwd=place, check=True)
    surroundings = {**os.environ, "DOMEPEELER": program, "DOMEPEELER_EXPLAIN": EXPLAIN, "RUST_BACKTRACE": "0", "LC_ALL": "C.UTF-8"}
    line = {word: next(number for number, text in enumerate(OWN_PANICS.splitlines(), 1) if f"// {word}" in text) for word in ("reads", "inserts", "never arrives")}
    traces = place / "failed_traces"

    def ended(*words: str, **more: str) -> subprocess.CompletedProcess:
        return subprocess.run(["./own", *words], cwd=place, env={**surroundings, **more}, capture_output=True, text=True)

    done = ended()
    tally.check("Rust: tests that pass save nothing", done.returncode == 0 and done.stderr == "" and not traces.exists(), done)
    done = ended(FAILS="1")
    head = "trace 1\nreplicas 1\n"
    wanted = {"own-by_itself": f"{head}0 read :\n0 ins a 0 : a\n", "own-with_three": f"{head}0 read : third\n",
              "own-with_three-2": f"{head}0 read : second\n", "own-with_three-3": f"{head}0 read : first\n",
              "own-in_the_second": f"{head}0 read : lost\n", "own-in_the_second-2": f"{head}0 read : first\n",
              "own-of_three_cases": f"{head}0 read : three\n", "own-after_it_was_saved": f"{head}0 read :\n0 read : later\n", "own-in_a_log": "trace 1\nreplicas 3\n1 recv 0 7\n",
              "own-lists_differ": "trace 1\nreplicas 2\n0 ins a 0 : a\n1 recv 0 1\n1 read : a\n0 ins b 1 : a b\n",
              **{f"own-judged{number}": f"{head}0 read : judged\n" for number in ("", "-2", "-3")}}
    tally.check("Rust: tests that fail by themselves", done.returncode == 101 and "2 passed; 9 failed;" in done.stdout, done)
    found = {path.stem: path.read_text() for path in traces.glob("*.trace")}
    tally.check("Rust: their traces are saved", found == wanted and (traces / ".gitignore").read_text() == "*\n", found)
    told = [f"The trace is saved: failed_traces/{name}.trace" for name in [*wanted, *["own-of_three_cases"] * 2] if name != "own-in_the_second"]
    verdicts = ["accepted"] * 2 + ["not accepted: contents 0.1"] * 10 + ["not accepted: contents 0.2", "accepted, and may hide something:"]
    told += [f"The recording is {verdict}" for verdict in verdicts] + [f"The recording was not judged: {ONE_LOG}"]
    told += [f"  the last lists of replicas 0 and 1 differ: 0.2 (line 6, own.rs:{line['never arrives']}) never arrived at replica 1 in this "
             f"recording. {LOST_ONE}"]
    tally.check("Rust: their verdicts and paths are told", sorted(done.stderr.splitlines()) == sorted(told) and
                "The trace is saved: failed_traces/own-in_the_second.trace" in done.stdout, done)
    beside = Path(traces, "own-by_itself.trace.lines").read_text() if "own-by_itself" in found else ""
    tally.check("Rust: and their lines of code", beside == f"4\nlanguage rust\n3 own.rs:{line['reads']}\n4 own.rs:{line['inserts']}\n", beside)
    done = ended("in_the_second")
    left = sorted(path.stem for path in traces.glob("*.trace"))
    tally.check("Rust: a passing one removes what it saved before", done.returncode == 0 and left == sorted(
        name for name in wanted if not name.startswith("own-in_the_second")), (done, left))
    shutil.rmtree(traces, ignore_errors=True)
    done = ended("by_itself", DOMEPEELER="/nowhere/domepeeler")
    tally.check("Rust: where there is no program, the trace is saved", done.returncode == 101 and "/nowhere/domepeeler cannot be run" in done.stdout
                and done.stderr.startswith("The recording was not judged: /nowhere/domepeeler cannot be run (") and [path.stem for path in traces.glob("*.trace")] == ["own-by_itself"], done)
    shutil.rmtree(traces, ignore_errors=True)
    traces.write_text("no folder")
    done = ended("by_itself", FAILS="1")
    tally.check("Rust: a trace that can't be saved", done.returncode == 101 and "0 passed; 1 failed;" in done.stdout and
                done.stderr.startswith("The recording is accepted\nThe trace can't be saved: failed_traces/own-by_itself.trace: ") and
                ". It is:\ntrace 1\nreplicas 1\n0 read :\n0 ins a 0 : a\n" in done.stderr, done)
    with open("/dev/full", "w") as full:
        done = subprocess.run(["./own", "--nocapture", "by_itself"], cwd=place, env={**surroundings, "FAILS": "1"}, stdout=subprocess.PIPE,
                              stderr=full, text=True)
    tally.check("Rust: where standard error takes nothing", done.returncode == 101 and "0 passed; 1 failed;" in done.stdout, done)


# Tests in Rust: those that end with a recording that nothing has judged, and right ones.
DROPPED = f"""#[path = "{ROOT / 'recorders'}/domepeeler.rs"]
mod domepeeler;
use domepeeler::{{Recording, Refused}};

fn reading(names: &[&str]) -> Recording {{
    let mut recording = Recording::new(1).unwrap();
    recording.read(0, names).unwrap(); // reads
    recording
}}

#[test]
fn bad_forgotten() {{
    reading(&[]);
}}

#[test]
fn bad_later() {{
    let mut recording = reading(&[]);
    let _ = recording.judge().unwrap();
    recording.read(0, &["lost"]).unwrap();
}}

#[test]
fn bad_copy() {{
    let recording = reading(&[]);
    let mut copy = recording.clone();
    copy.read(0, &["lost"]).unwrap();
    recording.assert_accepted();
}}

#[test]
fn bad_refused() {{
    let mut recording = reading(&[]);
    recording.assert_accepted();
    let _ = recording.read(7, &["lost"]);
}}

#[test]
fn bad_all_refused() {{
    let _ = Recording::new(1).unwrap().read(7, &["lost"]);
}}

#[test]
fn bad_refused_and_stops() {{
    let mut recording = Recording::new(1).unwrap().stop().unwrap();
    let _ = recording.read(7, &["lost"]);
    recording.read(0, &[] as &[&str]).unwrap();
}}

#[test]
fn bad_without_program() {{
    if let Ok(report) = reading(&["lost"]).judge_by("/nowhere/domepeeler") {{
        assert!(report.contains("accepted"));
    }}
}}

#[test]
fn bad_question_mark() -> Result<(), Refused> {{
    let mut recording = reading(&[]);
    recording.received(0, 9, 1)?;
    recording.assert_accepted();
    Ok(())
}}

#[test]
fn bad_two() {{
    let _both = [reading(&["one"]), reading(&["two"])];
}}

#[test]
fn right_ways() {{
    reading(&[]).assert_accepted();
    reading(&[]).assert_weak();
    let _ = reading(&["lost"]).judge().unwrap();
    assert!(reading(&["lost"]).verdict().is_ok());
    let _ = reading(&["lost"]).explain().unwrap();
    reading(&["lost"]).save("right.trace").unwrap();
    assert!(reading(&["lost"]).text().ends_with(": lost\n"));
    drop(Recording::new(3));
    let recording = reading(&[]);
    drop(recording.clone());
    recording.assert_accepted();
    let mut log = Recording::only(3, 1).unwrap();
    log.received(1, 0, 7).unwrap();
    log.save("right.log").unwrap();
    let mut stopping = Recording::new(1).unwrap().stop().unwrap();
    stopping.read(0, &[] as &[&str]).unwrap();
}}

#[test]
fn right_waiting() {{
    let mut recording = Recording::new(2).unwrap();
    recording.insert(1, "a", 0, &["a"]).unwrap();
    recording.insert(1, "b", 1, &["a", "b"]).unwrap();
    assert!(matches!(recording.received_clock(0, 1, &[0, 2], 1), Err(Refused::NotCausal {{ .. }})));
    recording.received_clock(0, 1, &[0, 1], 1).unwrap();
    recording.received_clock(0, 1, &[0, 2], 1).unwrap();
    recording.delivered(&[["a", "b"], ["a", "b"]]).unwrap();
    recording.assert_accepted();
}}
"""
UNJUDGED = "nothing has judged this recording, saved it or taken its text, so nobody knows whether it is right"
SINCE = "something was recorded, or refused, since the recording was judged, saved or taken as text, and nothing has judged that"
DROPPED_TOLD = {  # by test: what it fails with, up to the line behind which it should have ended, and what the last call failed with
    "forgotten": (UNJUDGED, ""), "later": (SINCE, ""), "copy": (UNJUDGED, ""), "two": (UNJUDGED, ""), "refused": (SINCE, "no replica 7 among 0 to 0"),
    "all_refused": (UNJUDGED, "no replica 7 among 0 to 0"), "question_mark": (UNJUDGED, "no replica 9 among 0 to 0"),
    "refused_and_stops": ("a call was refused, so what it says is not recorded: no replica 7 among 0 to 0", ""),
    "without_program": (UNJUDGED, "/nowhere/domepeeler cannot be run (")}


def check_dropped(tally: Tally, program: str, folder: Path) -> None:
    """A test in Rust fails that drops a recording which nobody has judged, saved or taken as text since something was recorded or refused; it
    says behind which line to end, and what the last call failed with. No right way to end trips it."""
    place = folder / "dropped"
    place.mkdir()
    (place / "drops.rs").write_text(DROPPED)
    subprocess.run(["rustc", "--edition", "2021", "-D", "warnings", "--test", "-o", "drops", "drops.rs"], cwd=place, check=True)
    done = subprocess.run(["./drops"], cwd=place, capture_output=True, text=True, env={
        **os.environ, "DOMEPEELER": program, "DOMEPEELER_EXPLAIN": EXPLAIN, "RUST_BACKTRACE": "0"})
    tally.check("Rust, dropped: all that are wrong fail, and no other", f"2 passed; {len(DROPPED_TOLD)} failed;" in done.stdout and
                "test right_ways ... ok\n" in done.stdout and "test right_waiting ... ok\n" in done.stdout, done)
    (place / "unused.rs").write_text(DROPPED.partition("#[test]")[0] + 'fn main() {\n    reading(&["lost"]).verdict().unwrap();\n}\n')
    unused = subprocess.run(["rustc", "--edition", "2021", "-A", "unused_imports", "-o", "unused", "unused.rs"], cwd=place, capture_output=True, text=True)
    tally.check("Rust, dropped: the compiler warns of a verdict that nobody looks at", unused.returncode == 0 and
                "it says whether the recording is right" in unused.stderr, unused)
    for call in "judge()", "explain()", "explain_weak()", 'judge_by("domepeeler")', 'explain_by("domepeeler-explain")':
        (place / "unused.rs").write_text(DROPPED.partition("#[test]")[0] + f'fn main() {{\n    reading(&["lost"]).{call}.unwrap();\n}}\n')
        unused = subprocess.run(["rustc", "--edition", "2021", "-A", "unused_imports", "-o", "unused", "unused.rs"], cwd=place, capture_output=True, text=True)
        tally.check(f"Rust, dropped: the compiler warns where nobody looks at the answer of {call}", unused.returncode == 0 and
                    "and a test that doesn't look at it passes: end with assert_accepted()" in unused.stderr, unused)
    (place / "used.rs").write_text(DROPPED.partition("#[test]")[0] + '''fn main() -> Result<(), String> {
    let recording = reading(&["lost"]);
    let (report, same) = (recording.judge()?, recording.judge()?);
    let text: String = recording.judge()?.into();
    assert!(report.contains("contents") && report == same && *report == *text && format!("{report}{report:?}") == format!("{text}{text:?}"));
    Ok(())
}
''')
    used = subprocess.run(["sh", "-c", "rustc --edition 2021 -A unused_imports -D unused_must_use -o used used.rs && ./used"], cwd=place, capture_output=True, text=True,
                          env={**os.environ, "DOMEPEELER": program})
    tally.check("Rust, dropped: an answer is used as text", used.returncode == 0, used)
    for name, (words, failed) in DROPPED_TOLD.items():
        told = done.stdout.partition(f"---- bad_{name} stdout ----\n")[2].partition("\n----")[0]
        tally.check(f"Rust, dropped: {name}", f":\n{words}: end with recording.assert_accepted()" in told and
                    ("all" in name or " behind drops.rs:" in told) and (f". The last call failed: {failed}" in told if failed else "failed:" not in told), told)


# A program in C that frees a recording of which something was recorded, in a way that a word names.
FREED = f"""#include "{ROOT / 'recorders'}/domepeeler.h"
static void ignore(const char *words, void *data) {{ (void)words, (void)data; }}
int main(int count, char **words) {{
    const char *way = words[1], *leaves = words[2], *lost[] = {{"lost"}};
    struct domepeeler *d = domepeeler_new(1);
    unsigned said = count == 3;
    if (!strncmp(way, "stop", 4)) said = domepeeler_stop(d, 0, ignore, NULL);
    if (!strcmp(way, "stop, refused")) said = !domepeeler_read(d, 7, lost, 1);
    if (strcmp(way, "nothing")) said = said && domepeeler_read(d, 0, lost, strcmp(way, "stop, refused") ? 1 : 0); /* reads */
    char *report = !strncmp(way, "judge", 5) ? domepeeler_judge(d, strstr(way, "nowhere") ? "/nowhere/domepeeler" : NULL) : NULL;
    if (!strcmp(way, "explain")) report = domepeeler_explain(d, NULL);
    if (!strcmp(way, "weak")) said = !domepeeler_passes_weak(d, NULL);
    if (!strncmp(way, "save", 4)) said = domepeeler_save(d, strcmp(way, "save") ? "/nowhere/x.trace" : "freed.trace");
    if (!strncmp(way, "text", 4)) said = domepeeler_text(d) != NULL;
    if (strstr(way, "later")) said = domepeeler_read(d, 0, lost, 1);
    if (!strcmp(way, "text, refused")) said = !domepeeler_read(d, 7, lost, 1);
    if (!strcmp(way, "forked") && !fork()) {{
        domepeeler_free(d);
        _exit(0);
    }}
    if (!strcmp(way, "forked")) wait(NULL), said = domepeeler_text(d) != NULL;
    free(report);
    if (strcmp(leaves, "freed")) {{ /* is left behind another one, which is freed, and perhaps one more that is left */
        struct domepeeler *before = domepeeler_new(1), *after = domepeeler_new(1);
        said = said && domepeeler_text(before) && domepeeler_text(after);
        domepeeler_free(before);
        domepeeler_free(after);
        if (!strcmp(leaves, "two left")) said = said && domepeeler_read(domepeeler_new(1), 0, lost, 1);
        if (!strcmp(leaves, "left in a fork") && !fork()) exit(0);
        if (!strcmp(leaves, "left in a fork")) wait(NULL);
        if (!strcmp(leaves, "freed last")) domepeeler_free(d);
        return !said;
    }}
    domepeeler_free(d);
    return !said;
}}
"""
# Programs in C that end while recordings are in use: threads begin and free some while others are forked, which must not wait for ever; a call-back
# that ends the process; a thread that records on; and one that is judged and freed by what runs at the end.
ENDING = {
    "threads and forks": """static void *goes_on(void *x) { for (;;) domepeeler_free(domepeeler_new(1)); return x; }
int main(void) {
    pthread_t thread;
    for (int i = 0; i < 4; i++) pthread_create(&thread, NULL, goes_on, NULL);
    for (int i = 0; i < 300; i++) {
        pid_t child = fork();
        int status = 0;
        if (!child) {
            alarm(5);
            struct domepeeler *one = domepeeler_new(1), *two = domepeeler_new(1);
            domepeeler_free(one);
            domepeeler_free(two);
            _exit(0);
        }
        if (waitpid(child, &status, 0) != child || status) return 1;
    }
    return 7;
}""",
    "a call-back that ends the process": """static void ends(const char *words, void *data) { (void)words, (void)data; exit(7); }
int main(void) {
    struct domepeeler *d = domepeeler_new(1);
    const char *lost[] = {"lost"};
    return domepeeler_stop(d, 0, ends, NULL) && domepeeler_read(d, 0, lost, 1);
}""",
    "a thread that records on": """static void *goes_on(void *d) { while (domepeeler_read((struct domepeeler *)d, 0, NULL, 0)) continue; return NULL; }
int main(void) {
    struct domepeeler *d = domepeeler_new(1);
    pthread_t thread;
    pthread_create(&thread, NULL, goes_on, d);
    usleep(3000);
    return 7;
}""",
}


def check_ending(tally: Tally, program: str, folder: Path) -> None:
    """However a program in C ends, and whatever its threads do, the recorder does not hang, and reads nothing that was freed."""
    place = folder / "ending"
    place.mkdir()
    for name, text in ENDING.items():
        (place / "ending.c").write_text(f'#include "{ROOT / "recorders"}/domepeeler.h"\n{text}\n')
        sanitizer = [] if "forks" in name else ["-fsanitize=address"]  # whose allocator has locks of its own, which a forked process inherits
        subprocess.run(["gcc", "-O1", "-g", "-Wall", "-Wextra", "-Werror", *sanitizer, "-D_GNU_SOURCE", "-o", "ending", "ending.c", "-lpthread"], cwd=place, check=True)
        for _ in range(20 if "records on" in name else 1):
            done = subprocess.run(["./ending"], cwd=place, capture_output=True, text=True, timeout=120, env={
                **os.environ, "DOMEPEELER": program, "DOMEPEELER_EXPLAIN": EXPLAIN, "ASAN_OPTIONS": "detect_leaks=0"})
            told = "" if "records on" not in name else done.stderr
            tally.check(f"C, ending: {name}", done.returncode == 7 and done.stderr == told and "AddressSanitizer" not in done.stderr, done)


TOLD_WHEN_FREED = {"recorded": "recorded or refused", "text, later": "recorded or refused", "text, refused": "recorded or refused", "judge by nowhere":
                   "recorded or refused", "save nowhere": "recorded or refused", "stop, refused": "refused"}
SILENT_WHEN_FREED = ["nothing", "judge", "explain", "weak", "save", "text", "stop", "forked"]


def check_freed(tally: Tally, program: str, folder: Path) -> None:
    """A program in C that frees a recording which nobody has judged, explained, saved or taken as text since something was recorded or refused says
    so on standard error, with the last line of code; and at its end of what it doesn't free. No right way does, and no forked process."""
    place = folder / "freed"
    place.mkdir()
    (place / "freed.c").write_text(FREED)
    subprocess.run(["gcc", "-Wall", "-Wextra", "-Werror", "-fsanitize=address", "-g", "-o", "freed", "freed.c"], cwd=place, check=True)
    line = next(number for number, text in enumerate(FREED.splitlines(), 1) if "/* reads */" in text)
    for way, leaves in [(way, leaves) for way in [*TOLD_WHEN_FREED, *SILENT_WHEN_FREED] for leaves in ("freed", "left")] + [
            ("recorded", "left in a fork"), ("recorded", "two left"), ("judge", "two left"), ("recorded", "freed last"), ("judge", "freed last")]:
        done = subprocess.run(["./freed", way, leaves], cwd=place, capture_output=True, text=True, timeout=60,
                              env={**os.environ, "DOMEPEELER": program, "DOMEPEELER_EXPLAIN": EXPLAIN, "ASAN_OPTIONS": "detect_leaks=0"})
        begins = "a recording is freed" if leaves.startswith("freed") else "at the end of the program a recording is still not freed"
        told = [f"domepeeler: {begins}, and nothing has judged it, saved it or taken its text since something was {TOLD_WHEN_FREED.get(way, 'recorded or refused')}; "
                f"its last line was recorded by freed.c:"] * (way in TOLD_WHEN_FREED or leaves == "two left")
        told += ["domepeeler: and 1 more so"] * (way in TOLD_WHEN_FREED and leaves == "two left")
        said = done.stderr.splitlines()
        tally.check(f"C, {leaves}: {way}", done.returncode in (0, 1) and len(said) == len(told) and all(line.startswith(words) for line, words in zip(said, told)) and (
            not told or leaves == "two left" or f"freed.c:{line}" in said[0] or "later" in way), done)


# Compilers and the standards that they follow; and headers that a user may include before the recorder.
COMPILERS = {"gcc": ["c99", "c11", "c17"], "clang": ["c99", "c11", "c17"],
             "g++": ["c++11", "c++14", "c++17", "c++20"], "clang++": ["c++11", "c++14", "c++17", "c++20"]}
HEADERS = ["", "#include <stdio.h>\n#include <string.h>\n", "#include <unistd.h>\n#include <sys/stat.h>\n#include <stdlib.h>\n"]
STRICT = ["-Wall", "-Wextra", "-Wconversion", "-Wcast-qual", "-pedantic", "-Werror", "-fsyntax-only"]
CHECKED = ['insert(d, 0, "a", 0, list, 1)', 'delete(d, 0, "a", list, 1)', "read(d, 0, list, 1)", "view(d, 0, list, 1)", "received(d, 1, 0, 1)",
           "received_clock(d, 1, 0, clock, 2, 1)", "clock(d, 0, clock)", "delivered(d, lists, names, 2)", 'note(d, "seed 17")', 'save(d, "x")',
           "passes(d, NULL)", "passes_weak(d, NULL)", "stop(d, 0, NULL, NULL)", *(f"{call}_from(__FILE__, __LINE__, d, {rest})" for call, rest in (
               ("insert", '0, "a", 0, list, 1'), ("delete", '0, "a", list, 1'), ("read", "0, list, 1"), ("view", "0, list, 1"),
               ("received", "1, 0, 1"), ("received_clock", "1, 0, clock, 2, 1"), ("delivered", "lists, names, 2")))]
USES_C = """{}#include "{}"
int main(void) {{
    const char *list[] = {{"a"}};
    const char *const *lists[] = {{list, list}};
    unsigned clock[2] = {{1, 0}};
    size_t names[] = {{1, 1}};
    struct domepeeler *d = domepeeler_new(2);
    unsigned (*reads)(struct domepeeler *, int, const char *const *, size_t) = domepeeler_read;
    (void)lists, (void)clock, (void)names;
    if (!reads(d, 0, list, 1) || !(domepeeler_read)(d, 0, list, 1)) puts(domepeeler_why(d));
{}    domepeeler_free(d);
    return 0;
}}
"""


def check_compilers(tally: Tally, folder: Path) -> None:
    """The recorder of C compiles without a warning by the standards of C and C++, whatever was included before it; and a compiler warns
    of each call whose answer nobody looks at."""
    need("g++", "g++")
    need("clang", "clang")
    looked_at = "".join(f"    if (!domepeeler_{call}) puts(domepeeler_why(d));\n" for call in CHECKED)
    runs = {}
    for compiler, standards in COMPILERS.items():
        for number, headers in enumerate(HEADERS):
            source = folder / f"uses{number}.{'cpp' if '+' in compiler else 'c'}"
            source.write_text(USES_C.format(headers, ROOT / "recorders/domepeeler.h", looked_at))
            for standard in standards:
                words = [compiler, f"-std={standard}", *STRICT, source]
                runs[compiler, standard, number] = subprocess.Popen(words, stderr=subprocess.PIPE, text=True)
            for standard in standards:
                said = runs[compiler, standard, number].communicate()[1]
                tally.check(f"C: no warning of {compiler}, {standard}, {headers!r}", not said, said)
    source = folder / "ignores.c"
    source.write_text(USES_C.format("", ROOT / "recorders/domepeeler.h", "".join(f"    domepeeler_{call};\n" for call in CHECKED)))
    for compiler in "gcc", "clang":
        said = subprocess.run([compiler, "-std=c99", "-c", "-o", "/dev/null", source], capture_output=True, text=True).stderr
        tally.check(f"C: {compiler} warns of answers that are ignored", said.count(": warning: ignoring return value") == len(CHECKED), said)


# What copies a process: of a large program that takes long, and of one with threads it leaves locks behind that nobody opens.
COPIES = {"fork", "vfork", "_Fork", "clone", "clone3", "forkpty", "syscall"}


def check_spawns(tally: Tally, folder: Path) -> None:
    """The recorder of C begins the program and the tool by `posix_spawn`, and nothing in it copies the process: by what the driver, which
    makes all its calls, wants of the system."""
    for compiler in "gcc", "clang":
        subprocess.run([compiler, "-std=c99", "-D_POSIX_C_SOURCE=200809L", "-c", "-o", "wants.o", DRIVERS / "driver.c"], cwd=folder, check=True)
        listed = subprocess.run(["nm", "-u", "wants.o"], cwd=folder, capture_output=True, text=True, check=True).stdout
        wants = {line.split()[-1] for line in listed.splitlines()}
        tally.check(f"C: {compiler}: judges by posix_spawn", wants & {"posix_spawn", "posix_spawnp"} and not wants & COPIES, wants)


# A process that is forked in C, and records.
FORKED_C = f"""#include "{ROOT / 'recorders'}/domepeeler.h"
#include <sys/wait.h>
int main(void) {{
    const char *list[] = {{"a"}};
    struct domepeeler *recording = domepeeler_new(1);
    if (!domepeeler_insert(recording, 0, "a", 0, list, 1)) return 1;
    pid_t child = fork();
    if (!child) _exit(domepeeler_read(recording, 0, NULL, 0) ? 2 : strstr(domepeeler_why(recording), "this process was forked") ? 3 : 4);
    int status = 0;
    waitpid(child, &status, 0);
    return WEXITSTATUS(status) == 3 && domepeeler_read(recording, 0, list, 1) ? 0 : WEXITSTATUS(status);
}}
"""


def check_forked_c(tally: Tally, folder: Path) -> None:
    """In C too a process that is forked records into no copy, and the one that forked it goes on."""
    (folder / "forked.c").write_text(FORKED_C)
    made = subprocess.run([*GCC, "-D_POSIX_C_SOURCE=200809L", "-o", "forked", "forked.c", "-lpthread"], cwd=folder, capture_output=True, text=True)
    status = subprocess.run(["./forked"], cwd=folder).returncode if made.returncode == 0 else made.stderr
    tally.check("C: a process that is forked", status == 0, status)


# Calls in C from lines that other programs wrote, from none, and from a wrapper as the recorder's head has it; what is refused names none.
PLACES_C = f"""#include "{ROOT / 'recorders'}/domepeeler.h"
static struct domepeeler *recording;
static const char *list[1];
{{wrapper}}
int main(void) {{{{
    recording = domepeeler_new(2);
    const char *const *lists[] = {{{{list, (const char *[]){{{{"a;b"}}}}}}}}; /* which is no name */
    size_t names[] = {{{{1, 1}}}};
#line 7 "editor.y"
    typed("a");
    if (domepeeler_delivered(recording, lists, names, 2) || domepeeler_read(recording, 7, list, 1)) return 1;
    unsigned is_done = (domepeeler_read)(recording, 0, list, 1)
        && domepeeler_read_from(NULL, 3, recording, 0, list, 1)
        && domepeeler_read_from("a\\001\\xff\\xc3\\xa4 b.c", 12, recording, 0, list, 1);
#line 20 "other.y"
    is_done = is_done && domepeeler_received(recording, 1, 0, 2) && domepeeler_read(recording, 1, NULL, 0);
    char *words = is_done ? domepeeler_explain(recording, NULL) : NULL;
    puts(words ? words : domepeeler_why(recording));
    is_done = domepeeler_save(recording, "places.trace");
    free(words);
    domepeeler_free(recording);
    return !is_done;
}}}}
"""


def check_places_c(tally: Tally, program: str, folder: Path) -> None:
    """The lines of code beside a trace of the recorder of C, and in the words of `explain`."""
    head = (ROOT / "recorders/domepeeler.h").read_text().partition("*/")[0].splitlines()
    mark = " *     "
    begin = next(at for at, line in enumerate(head) if line.startswith(f"{mark}#define typed"))
    wrapper = "\n".join(line[len(mark):] for line in head[begin:begin + 5])
    Path(folder, "places.c").write_text(PLACES_C.format(wrapper=wrapper))
    subprocess.run([*GCC, "-fsanitize=address,undefined", "-o", "places", "places.c"], cwd=folder, check=True)
    done = subprocess.run(["./places"], cwd=folder, capture_output=True, text=True, env={
        **os.environ, "DOMEPEELER": program, "DOMEPEELER_EXPLAIN": EXPLAIN, "LC_ALL": "C.UTF-8"})
    beside = Path(folder, "places.trace.lines").read_text() if done.returncode == 0 else done
    tally.check("C: a place for each line of which it is known", beside ==
                f"8\nlanguage c\nrefused 2 {CALLS_REFUSED}{NO_NAME}\n3 editor.y:7\n6 a??\u00e4 b.c:12\n7 other.y:20\n8 other.y:20\n", beside)
    tally.check("C: explain names these", done.stdout.endswith(
        f"\n\nIn your code\n  line 3: editor.y:7\n  lines 7 and 8: other.y:20\n{FAIL_BOTH}\n"), done)


# A program in C++ whose call-back throws, and one that has none.
STOP_CPP = f"""#include "{ROOT / 'recorders'}/domepeeler.h"
#include <string>
static void raise_it(const char *words, void *data) {{
    ++*static_cast<int *>(data);
    throw std::string(words);
}}
static void lose(struct domepeeler *d) {{
    const char *list[] = {{"a"}};
    if (!domepeeler_insert(d, 0, "a", 0, list, 1) || !domepeeler_received(d, 1, 0, 1)) puts("refused");
    if (!domepeeler_read(d, 1, NULL, 0)) puts(domepeeler_why(d)); // answers wrong
}}
int main() {{
    int called = 0;
    struct domepeeler *d = domepeeler_new(2);
    if (!domepeeler_stop(d, 0, raise_it, &called)) return 1;
    for (int i = 0; i < 2; i++) {{
        try {{
            lose(d);
        }} catch (const std::string &words) {{
            printf("%d %zu %s\\n", called, domepeeler_lines(d), i ? "again" : words.c_str());
        }}
    }}
    domepeeler_free(d);
    d = domepeeler_new(2);
    if (!domepeeler_stop(d, 0, NULL, NULL)) return 1;
    lose(d);
    puts(domepeeler_stopped(d) ? "stopped" : "not stopped");
    char *warnings = domepeeler_warnings(d);
    printf("%s", warnings);
    free(warnings);
    domepeeler_free(d);
    return 0;
}}
"""


def check_stop_cpp(tally: Tally, program: str, folder: Path) -> None:
    """A call-back may throw: nothing is lost by that, and the session is stopped. Without one the call answers 0, which is no refusal."""
    Path(folder, "stop.cpp").write_text(STOP_CPP)
    words = ["g++", "-std=c++11", "-Wall", "-Wextra", "-Werror", "-fsanitize=address,undefined", "-o", "stop", "stop.cpp"]
    subprocess.run(words, cwd=folder, check=True)
    done = subprocess.run(["./stop"], cwd=folder, capture_output=True, text=True, env={
        **os.environ, "DOMEPEELER": program, "DOMEPEELER_EXPLAIN": EXPLAIN, "LC_ALL": "C.UTF-8"})
    line = next(number for number, text in enumerate(STOP_CPP.splitlines(), 1) if "// answers wrong" in text)
    tally.check("C++: a call-back that throws", done.returncode == 0 and done.stdout.startswith("1 5 contents 1.1: ") and
                f"  line 5: stop.cpp:{line}\n\nThe list specifications\n  strong and weak fail\n2 5 again\n" in done.stdout, done)
    tally.check("C++: no call-back", re.search(r"\n2 5 again\ncontents 1\.1: [^\n]*\nstopped\nthe last lists of replicas 0 and 1 differ\n$", done.stdout), done)


# Four threads that share a recording, and one that judges it meanwhile.
THREADS_C = f"""#include "{ROOT / 'recorders'}/domepeeler.h"
#include <pthread.h>

static struct domepeeler *recording;

static void *record(void *number) {{
    const char *list[] = {{"even", "odd"}};
    int replica = *(int *)number;
    for (int i = 0; i < 2000; i++) {{
        unsigned n = replica % 2 ? domepeeler_read(recording, replica, list + 1, 1)
                                 : domepeeler_view(recording, replica, list, 1);
        if (n != (unsigned)i + 1) exit(1);
        char wanted[64];
        snprintf(wanted, sizeof wanted, "replica %d receives no operation of its own", replica);
        if (domepeeler_received(recording, replica, replica, 1) || strcmp(domepeeler_why(recording), wanted)) exit(3);
    }}
    return NULL;
}}

static void *judge(void *count) {{
    for (int i = 0; i < *(int *)count; i++) {{
        char *report = domepeeler_judge(recording, NULL);
        if (!report || domepeeler_stopped(recording) || domepeeler_full(recording)) exit(2);
        free(report);
    }}
    return NULL;
}}

int main(void) {{
    pthread_t threads[5];
    int numbers[] = {{0, 1, 2, 3, 5}};
    recording = domepeeler_new(4);
    for (int i = 0; i < 5; i++)
        if (pthread_create(&threads[i], NULL, i < 4 ? record : judge, &numbers[i])) return 1;
    for (int i = 0; i < 5; i++) pthread_join(threads[i], NULL);
    unsigned is_saved = domepeeler_save(recording, "threads.trace");
    domepeeler_free(recording);
    return !is_saved;
}}
"""


# The same in Rust.
THREADS_RS = f"""#[path = "{ROOT / 'recorders' / 'domepeeler.rs'}"]
mod domepeeler;
use std::sync::Mutex;

fn main() {{
    let recording = Mutex::new(domepeeler::Recording::new(4).unwrap());
    std::thread::scope(|scope| {{
        for replica in 0..4 {{
            let recording = &recording;
            scope.spawn(move || {{
                for n in 1..=2000 {{
                    let mut one = recording.lock().unwrap();
                    let answered = if replica % 2 == 1 {{
                        one.read(replica, &["odd"])
                    }} else {{
                        one.view(replica, &["even"])
                    }};
                    assert_eq!(answered, Ok(n));
                }}
            }});
        }}
    }});
    recording.into_inner().unwrap().save("threads.trace").unwrap();
}}
"""


# What a thread of Emacs writes in one call stays together, though it lets the other go on within that call.
THREADS_EL = f""";; -*- lexical-binding: t -*-
(load "{ROOT / 'recorders'}/domepeeler.el" nil t)
(advice-add 'domepeeler--said :before (lambda (&rest _) (thread-yield)))
(let* ((recording (domepeeler-new 2))
       (delivers (make-thread (lambda () (dotimes (_ 100) (domepeeler-delivered recording '(nil nil))))))
       (reads (make-thread (lambda () (dotimes (_ 100) (domepeeler-read recording 1 nil))))))
  (thread-join delivers)
  (thread-join reads)
  (domepeeler-save recording "threads.trace"))
"""


def check_threads_of_emacs(tally: Tally, folder: Path) -> None:
    Path(folder, "threads.el").write_text(THREADS_EL)
    done = subprocess.run(["emacs", "-Q", "--batch", "-l", "threads.el"], cwd=folder, capture_output=True, text=True)
    lines = Path(folder, "threads.trace").read_text().splitlines() if done.returncode == 0 else []
    beside = Path(folder, "threads.trace.lines").read_text().splitlines() if lines else []
    ranges = [line.split()[1:] for line in beside if line.startswith("delivered ")]
    written = [lines[int(first) - 1:int(last)] for first, last in ranges]
    tally.check("el: two threads", len(lines) == 302 and written == 100 * [["0 read :", "1 read :"]], (written[:3], done))


def check_shared_recordings(tally: Tally, program: str, folder: Path) -> None:
    """Threads that share a recording, in Rust under a lock: every line is there whole, with its place; and no thread meets another in C."""
    check_threads_of_emacs(tally, folder)
    for source, text, compiler, read, view in (
            ("threads.c", THREADS_C, [*GCC, "-g", "-fsanitize=thread", "-o", "threads"], 10, 11),
            ("threads.c", THREADS_C, [*GCC, "-o", "threads"], 10, 11),
            ("threads.rs", THREADS_RS, ["rustc", "--edition", "2021", "-D", "warnings", "-o", "threads"], 14, 16)):
        Path(folder, source).write_text(text)
        subprocess.run([*compiler, source], cwd=folder, check=True)
        done = subprocess.run(["./threads"], cwd=folder, env=os.environ | {"DOMEPEELER": program}, capture_output=True, text=True)
        entries = Path(folder, "threads.trace").read_text().splitlines()[2:] if done.returncode == 0 else []
        beside = Path(folder, "threads.trace.lines").read_text().splitlines()[2:] if entries else []
        places = [line.split(" ", 1)[1] for line in beside if not line.startswith("refused ")]
        wanted = {(f"{replica} {shown}", f"{source}:{line}") for replicas, shown, line in (("02", "view : even", view), ("13", "read : odd", read))
                  for replica in replicas}
        counts = Counter(zip(entries, places))
        tally.check(f"{source}: four threads", len(entries) == len(places) and counts == {pair: 2000 for pair in wanted}, (counts, done))


# A program whose timer interrupts it, and which ignores how its children end; and then one that goes on after calls were refused.
HOSTILE_C = f"""#include "{ROOT / 'recorders'}/domepeeler.h"
#include <sys/time.h>

static volatile int ticks;

static void tick(int number) {{
    ticks += number == SIGALRM;
}}

static struct domepeeler *lost(void) {{
    struct domepeeler *d = domepeeler_new(2);
    const char *list[] = {{"a"}};
    if (!domepeeler_insert(d, 0, "a", 0, list, 1) || !domepeeler_read(d, 0, NULL, 0)) puts(domepeeler_why(d));
    return d;
}}

static void show(struct domepeeler *d, char *said) {{
    puts(said ? said : domepeeler_why(d));
    free(said);
    domepeeler_free(d);
}}

int main(void) {{
    struct sigaction act;
    memset(&act, 0, sizeof act);
    act.sa_handler = tick; /* without SA_RESTART */
    struct itimerval often = {{{{0, 1000}}, {{0, 1000}}}}, never = {{{{0, 0}}, {{0, 0}}}};
    sigaction(SIGALRM, &act, NULL);
    setitimer(ITIMER_REAL, &often, NULL);
    struct domepeeler *d = lost();
    show(d, domepeeler_judge(d, NULL));
    setitimer(ITIMER_REAL, &never, NULL);
    printf("interrupted: %s\\n", ticks > 2 ? "yes" : "no");
    signal(SIGCHLD, SIG_IGN);
    d = lost();
    show(d, domepeeler_judge(d, NULL));
    printf("still ignored: %s\\n", signal(SIGCHLD, SIG_DFL) == SIG_IGN ? "yes" : "no");
    act.sa_handler = SIG_DFL;
    act.sa_flags = SA_NOCLDWAIT;
    sigaction(SIGCHLD, &act, NULL);
    d = lost();
    show(d, domepeeler_judge(d, NULL));
    close(0);
    close(1 + 1); /* standard error; the program's streams get these numbers */
    d = lost();
    show(d, domepeeler_explain(d, NULL));
    show(NULL, NULL);
    return 0;
}}
"""
SWAPPED = "a call was refused, so what it says is not recorded: 1.1 cannot have arrived: replica 1 has 0 operations so far"
REFUSED_C = [
    ("one", ["new 2", "insert 0 a 0 a", "received 0 1 1", "delivered a / a"], "accepted", SWAPPED),
    ("one that is then missing", ["new 2", "insert 0 a 0 a", "received 0 1 1", "read 1 a"], "contents", SWAPPED),
    ("several, with signs that JSON escapes", ["new 2", "insert 0 a 0 a", "read 0 %22%5C%01%C3%A4%FF", "read 7", "read 0 a%20b",
                                               "delivered a / a"], "accepted",
     '3 calls were refused, so what they say is not recorded; the first: name ""\\\\x01\\xc3\\xa4\\xff" ' + NAME),
    ("what is not causal, and limits", ["new 3", *["read 2"] * 16385, "insert 0 a 0 a", "delete 0 a", "received_clock 1 0 1 2 0 0",
                                        "received_clock 1 0 2 2 0 0", "read 1"], "accepted", None),
    ("what is not causal, and never comes", ["new 3", "insert 0 a 0 a", "insert 0 b 1 a b", "received_clock 1 0 1 2 0 0", "delivered a b / a b / a b"],
     "accepted", "a call was refused, and what it says never came: not causal: 0.2 was applied at replica 1 before 0.1, which replica 0 had seen; 0.1 must "
     "arrive first or in the same update: perhaps it was lost, or only the call for it is missing; if the update carried more than one change, say how many (`changes`)"),
    ("what is not causal, and comes by a receipt of another", ["new 3", "insert 0 a 0 a", "insert 0 b 1 a b", "received_clock 1 0 1 2 0 0", "received 1 0 2",
                                                               "delivered a b / a b / a b"], "accepted", None),
]
# A program that looks at no answer, at a limit too; then one without a recording; then two threads that judge recordings of their own, where
# the end of children is ignored.
IGNORED_C = f"""#include "{ROOT / 'recorders'}/domepeeler.h"

static void *judge(void *unused) {{
    for (int i = 0; i < 40; i++) {{
        struct domepeeler *d = domepeeler_new(1);
        char *report = domepeeler_read(d, 0, NULL, 0) ? domepeeler_judge(d, NULL) : NULL;
        if (!report) puts(domepeeler_why(d));
        free(report);
        domepeeler_free(d);
    }}
    return unused;
}}

int main(void) {{
    const char *none[] = {{"a"}};
    struct domepeeler *d = domepeeler_new(1), *seen = domepeeler_new(1);
    for (int i = 0; i < 16385; i++) {{
        unsigned n = domepeeler_read(d, 0, NULL, 0) + domepeeler_read(seen, 0, NULL, 0);
        if (n) continue;
        puts(domepeeler_full(seen) ? "full" : "not full");
    }}
    char *report = domepeeler_judge(d, NULL), *other = domepeeler_judge(seen, NULL);
    printf("%s%s", strstr(report, "\\"warnings\\""), strstr(other, "\\"warnings\\""));
    free(report);
    free(other);
    domepeeler_free(d);
    domepeeler_free(seen);
    d = domepeeler_new(17);
    unsigned n = domepeeler_insert(d, 0, "a", 0, none, 1) + domepeeler_received(d, 0, 0, 1) + domepeeler_save(d, "x") + domepeeler_passes_weak(d, NULL);
    printf("%u %s %s %d %zu: %.24s\\n", n, domepeeler_explain(d, NULL) ? "words" : "none", domepeeler_text(d) ? "text" : "none", domepeeler_full(d),
           domepeeler_lines(d), domepeeler_why(d));
    signal(SIGCHLD, SIG_IGN);
    pthread_t threads[2];
    for (int i = 0; i < 2; i++)
        if (pthread_create(&threads[i], NULL, judge, NULL)) return 1;
    for (int i = 0; i < 2; i++) pthread_join(threads[i], NULL);
    printf("still ignored: %s\\n", signal(SIGCHLD, SIG_DFL) == SIG_IGN ? "yes" : "no");
    return 0;
}}
"""
IGNORED = """full
"warnings":["a limit is reached, so what came later is not recorded: replica 0 has 16384 entries, the most that a trace takes"]}
"warnings":[]}
0 none none 0 0: there is no recording: r
still ignored: yes
"""


# Tests that fail by themselves, or not: their words tell whether the list is lost that the last read shows, and whether the test holds.
ABORTS_C = f"""#include "{ROOT / 'recorders'}/domepeeler.h"
#include <assert.h>
int main(int argc, char **argv) {{
    const char *list[] = {{"a"}};
    struct domepeeler *recording = domepeeler_new(1);
    domepeeler_on_abort(recording, "aborted.trace");
    if (argc != 3 || !domepeeler_insert(recording, 0, "a", 0, list, 1) || !domepeeler_read(recording, 0, list, argv[1][0] == 's')) return 2;
    assert(argv[2][0] == 'h' || argv[2][0] == 'f');
    if (!domepeeler_text(recording)) return 2; /* so that nothing is said when it is freed */
    domepeeler_free(recording);
    if (argv[2][0] == 'f') abort();
    return 0;
}}
"""
LISP = ["emacs", "-Q", "--batch", "-l", "aborts.el"]
ABORTS_EL = """(load "{recorder}" nil t)
(let* ((argv (prog1 command-line-args-left (setq command-line-args-left nil)))
       (domepeeler-weak (equal (nth 2 argv) "weak")))
  (domepeeler-with-recording (recording 1) "aborted.trace"
    (domepeeler-insert recording 0 "a" 0 '("a"))
    (domepeeler-read recording 0 (and (equal (nth 0 argv) "shown") '("a")))
    (unless (equal (nth 1 argv) "holds") (error "By itself"))))
"""
# A session of which weak alone holds, or of another order, which is accepted.
WEAK_EL = """(load "{recorder}" nil t)
(let* ((argv (prog1 command-line-args-left (setq command-line-args-left nil)))
       (domepeeler-weak (equal (nth 0 argv) "weak"))
       (end (if (equal (nth 1 argv) "alone") '("b" "a") '("a" "b"))))
  (domepeeler-with-recording (recording 3) "weak.trace"
    (domepeeler-insert recording 0 "x" 0 '("x"))
    (domepeeler-received recording 1 0 1)
    (domepeeler-received recording 2 0 1)
    (domepeeler-insert recording 1 "a" 0 '("a" "x"))
    (domepeeler-insert recording 2 "b" 1 '("x" "b"))
    (domepeeler-delete recording 0 "x" nil)
    (domepeeler-received recording 0 1 1)
    (domepeeler-received recording 0 2 1)
    (domepeeler-read recording 0 end)
    (domepeeler-delivered recording (list end end end))))
"""


# Tests of ERT that are skipped: before anything is recorded, behind what is right, what is wrong, and a call that is refused.
SKIPPED_EL = f"""(require 'ert)
(load "{ROOT / 'recorders'}/domepeeler.el" nil t)
(defmacro skips (name &rest body)
  `(ert-deftest ,name ()
     (domepeeler-with-recording (recording 2) "skipped.trace" ,@body (skip-unless nil))))
(skips nothing)
(skips right (domepeeler-insert recording 0 "a" 0 '("a")))
(skips wrong (domepeeler-insert recording 0 "a" 0 nil))
(skips refused
  (domepeeler-insert recording 0 "a" 0 '("a"))
  (should-error (domepeeler-read recording 7 nil)))
"""


def check_skipped_el(tally: Tally, program: str, folder: Path) -> None:
    """What a test of ERT records before it is skipped is judged: where it is right the test is skipped, though its ends are unequal, and else it
    fails, with the words and the trace."""
    place = folder / "skipped"
    place.mkdir()
    (place / "skipped.el").write_text(SKIPPED_EL)
    done = subprocess.run(["emacs", "-Q", "--batch", "-l", "skipped.el", "-f", "ert-run-tests-batch-and-exit"], cwd=place, capture_output=True, text=True,
                          env={**os.environ, "DOMEPEELER": program, "DOMEPEELER_EXPLAIN": EXPLAIN, "LC_ALL": "C.UTF-8"})
    results = {name: result for result, name in re.findall(r"^ +(passed|FAILED|skipped) +[0-9/]+ +(\w+)", done.stderr, re.MULTILINE)}
    tally.check("el: tests that are skipped are judged", done.returncode == 1 and results == {
        "nothing": "skipped", "right": "skipped", "wrong": "FAILED", "refused": "FAILED"}, (results, done))
    tally.check("el: and explained and saved", "contents 0.1: " in done.stderr and "a call was refused, so what it says is not recorded: no replica 7" in done.stderr and
                done.stderr.count("The trace is saved: skipped.trace") >= 2 and (place / "skipped.trace").is_file(), done)


def check_aborts(tally: Tally, program: str, folder: Path) -> None:
    """A test in C that ends by `abort`, and one in Emacs Lisp that fails by an error of its own, have their trace saved and its verdict told,
    accepted or not. In Emacs Lisp the macro judges too, and removes what an earlier run has saved. A recording that is freed is let alone."""
    place = folder / "aborts"
    place.mkdir()
    (place / "aborts.c").write_text(ABORTS_C)
    (place / "aborts.el").write_text(ABORTS_EL.format(recorder=ROOT / "recorders/domepeeler.el"))
    subprocess.run([*GCC, "-o", place / "aborts", place / "aborts.c"], check=True)
    surroundings = {**os.environ, "DOMEPEELER": program, "DOMEPEELER_EXPLAIN": EXPLAIN, "LC_ALL": "C.UTF-8"}
    saved = place / "aborted.trace"

    def ran(*words: str) -> subprocess.CompletedProcess:
        return subprocess.run(words, cwd=place, env=surroundings, capture_output=True, text=True)

    def is_told(done: subprocess.CompletedProcess, verdict: str, last: str) -> bool:
        return f"{verdict}: " in done.stderr and "The trace is saved: aborted.trace\n" in done.stderr and saved.read_text().endswith(f"{last}\n")

    for shown, verdict, last in ("shown", "accepted", "0 read : a"), ("lost", "contents 0.2", "0 read :"):
        done = ran("./aborts", shown, "not")
        tally.check(f"C: a failed assert, {shown}", done.returncode == -signal.SIGABRT and "assert" in done.stderr.lower() and is_told(done, verdict, last), done)
        saved.unlink()
        for words in ("./aborts", shown, "holds"), ("./aborts", shown, "freed"):
            done = ran(*words)
            tally.check(f"C: {words[1:]}", done.returncode == (0 if words[2] == "holds" else -signal.SIGABRT) and not done.stderr and not saved.exists(), done)
        done = ran(*LISP, shown, "not")
        tally.check(f"Emacs Lisp: an error of its own, {shown}", done.returncode != 0 and "By itself" in done.stderr and is_told(done, verdict, last), done)
        done = ran(*LISP, shown, "holds", "weak")
        is_right = done.returncode == 0 and not saved.exists() and not Path(f"{saved}.lines").exists() if shown == "shown" else (
            done.returncode != 0 and is_told(done, verdict, last))
        tally.check(f"Emacs Lisp: judged at the end, {shown}", is_right, done)
    (place / "weak.el").write_text(WEAK_EL.format(recorder=ROOT / "recorders/domepeeler.el"))
    lisp, trace, alone = [*LISP[:-1], "weak.el"], place / "weak.trace", "weak holds, strong doesn't\n"
    for goal, ends, said in ("weak", "alone", alone), ("weak", "accepted", ""), ("strong", "accepted", ""):
        done = ran(*lisp, goal, ends)
        tally.check(f"Emacs Lisp: a pass by weak alone is told, and no other: {goal}, {ends}", (done.returncode, done.stdout, done.stderr) == (0, "", said)
                    and not trace.exists(), done)
    done = ran(*lisp, "strong", "alone")
    tally.check("Emacs Lisp: no pass by weak alone where strong is wanted", done.returncode != 0 and done.stderr.startswith("refused 3: ") and
                "The trace is saved: weak.trace\n" in done.stderr and alone not in done.stderr and trace.exists(), done)


# A program that can't learn how another ended; and then one whose reads and waits are interrupted each second time.
NOT_LEARNED_C = f"""#define _POSIX_C_SOURCE 200809L
#include <errno.h>
#include <sys/wait.h>
#include <unistd.h>

static int is_lost = 1, waits, reads;

static pid_t own_wait(pid_t child, int *status, int options) {{
    errno = is_lost ? ECHILD : EINTR;
    return is_lost || waits++ % 2 == 0 ? -1 : waitpid(child, status, options);
}}

static ssize_t own_read(int file, void *bytes, size_t count) {{
    errno = EINTR;
    return reads++ % 2 == 0 ? -1 : read(file, bytes, count < 9 ? count : 9);
}}

#define waitpid own_wait
#define read own_read
#include "{ROOT / 'recorders'}/domepeeler.h"

int main(void) {{
    struct domepeeler *d = domepeeler_new(1);
    if (!domepeeler_read(d, 0, NULL, 0)) return 1;
    char *report = domepeeler_judge(d, NULL);
    puts(report ? report : domepeeler_why(d));
    is_lost = 0;
    report = domepeeler_judge(d, NULL);
    puts(report ? report : domepeeler_why(d));
    printf("%d %d\\n", waits > 1, reads > 3);
    free(report);
    domepeeler_free(d);
    return 0;
}}
"""


# A session of which weak alone holds.
WEAK_C = f"""#include "{ROOT / 'recorders'}/domepeeler.h"

int main(void) {{
    struct domepeeler *d = domepeeler_new(3);
    const char *x[] = {{"x"}}, *ax[] = {{"a", "x"}}, *xb[] = {{"x", "b"}}, *ba[] = {{"b", "a"}};
    const char *const *lists[] = {{ba, ba, ba}};
    size_t names[] = {{2, 2, 2}};
    unsigned n = domepeeler_insert(d, 0, "x", 0, x, 1) && domepeeler_received(d, 1, 0, 1) && domepeeler_received(d, 2, 0, 1) &&
                 domepeeler_insert(d, 1, "a", 0, ax, 2) && domepeeler_insert(d, 2, "b", 1, xb, 2) && domepeeler_delete(d, 0, "x", NULL, 0) &&
                 domepeeler_received(d, 0, 1, 1) && domepeeler_received(d, 0, 2, 1) && domepeeler_read(d, 0, ba, 2) &&
                 domepeeler_delivered(d, lists, names, 3);
    printf("%u %u: ", n, domepeeler_passes_weak(d, NULL));
    puts(domepeeler_why(d));
    domepeeler_free(d);
    return 0;
}}
"""


def check_not_learned_c(tally: Tally, program: str, folder: Path) -> None:
    """How a program ended is not taken for its absence, and what is interrupted is repeated."""
    Path(folder, "learned.c").write_text(NOT_LEARNED_C)
    subprocess.run([*GCC, "-o", "learned", "learned.c"], cwd=folder, check=True)
    done = subprocess.run(["./learned"], cwd=folder, capture_output=True, text=True, env=os.environ | {"DOMEPEELER": program}, timeout=60)
    first, *rest = done.stdout.splitlines() or [""]
    Path(folder, "weak.c").write_text(WEAK_C)
    subprocess.run([*GCC, "-o", "weak_alone", "weak.c"], cwd=folder, check=True)
    passed = subprocess.run(["./weak_alone"], cwd=folder, capture_output=True, text=True, env=os.environ | {"DOMEPEELER": program}, timeout=60)
    tally.check("C: a pass by weak alone is told", passed.stdout == "1 1: weak holds, strong doesn't\n", passed)
    tally.check("C: how a program ended is not learned", first == f"how {program} ended was not learned: No child processes", done)
    tally.check("C: waits and reads that are interrupted", rest[:1] == [
        '{"inserts":0,"operations":1,"order":[],"replicas":1,"strong":true,"verdict":"accepted","weak":true,"warnings":[]}'] and rest[-1:] == ["1 1"], done)


def check_ignored_c(tally: Tally, program: str, folder: Path) -> None:
    """What a program that looks at no answer is told in the end."""
    Path(folder, "ignored.c").write_text(IGNORED_C)
    subprocess.run([*GCC, "-o", "ignored", "ignored.c"], cwd=folder, check=True)
    done = subprocess.run(["./ignored"], cwd=folder, capture_output=True, text=True, env=os.environ | {"DOMEPEELER": program}, timeout=60)
    tally.check("C: answers that nobody looks at", done.returncode == 0 and done.stdout == IGNORED, done)


def check_hostile_c(tally: Tally, recorder: Recorder, folder: Path) -> None:
    """A program that is interrupted, or ignores how children end, is judged all the same. What was refused is told before all else, whatever
    the verdict, but where a session may well go on."""
    source = folder / "hostile.c"
    source.write_text(HOSTILE_C)
    subprocess.run(["gcc", "-std=gnu11", "-Wall", "-Wextra", "-Werror", "-o", folder / "hostile", source], check=True)
    slow = folder / "slow"
    slow.write_text('#!/bin/sh\nsleep 0.1\nexec "$JUDGE" "$@"\n')
    slow.chmod(0o755)
    done = subprocess.run([folder / "hostile"], capture_output=True, text=True, stdin=subprocess.DEVNULL, timeout=60,
                          env={**recorder.surroundings, "JUDGE": recorder.surroundings["DOMEPEELER"], "DOMEPEELER": str(slow),
                               "DOMEPEELER_EXPLAIN": EXPLAIN})
    said = [line for line in done.stdout.splitlines() if line]
    told = '{"at":"0.2","inserts":1,"operations":2,"replicas":2,"strong":false,"verdict":"contents","weak":false,"warnings":[]}'
    tally.check("C: interrupted, and without news of children", done.returncode == 0 and said[:5] == [
        told, "interrupted: yes", told, "still ignored: yes", told] and said[5].startswith("contents 0.2: "), done)
    tally.check("C: why there is no recording", said[-1:] == [
        "there is no recording: replicas are 1 to 16, a log is of one of them, and memory is needed"], done)
    asked = folder / "asked"
    asked.write_text("#!/bin/sh\ncat > /dev/null\necho \"$*\" >&2\nexit 2\n")
    asked.chmod(0o755)
    for reads, words in (997, "--workers 1 "), (998, ""):
        got = recorder.answers(["new\t1", *["read\t0"] * reads, "judge", "weak"], DOMEPEELER=str(asked))[-2:]
        wanted = [f"{call} {asked} ended with status 2: verdict {words}{form}" for call, form in (("failed", "--json -"), ("fails", "-"))]
        tally.check(f"C: {reads} reads are judged by verdict {words}-", got == wanted, got)
    got = recorder.answers(["new\t3\t1", "read\t1\t" + "\x1b" * 600])[-1]
    tally.check("C: the front of a long id is shown", len(got) == len("refused ") + 511 and
                got.startswith("refused one replica's log can't give the id \"" + "\\x1b" * 100), got)
    teller = folder / "teller"
    teller.write_text("#!/bin/sh\ncat > /dev/null\nprintf '%s\\n' \"asked: $*\"\n")
    teller.chmod(0o755)
    for name, script, verdict, wanted in REFUSED_C:
        calls = b"".join(bytes_of(call) + b"\n" for call in [*script, "weak", "judge", "warnings", "explain"])
        done = subprocess.run(recorder.words, input=calls, capture_output=True, env={**recorder.surroundings, "DOMEPEELER_EXPLAIN": str(teller)})
        got = done.stdout.decode(errors="replace").splitlines()
        report = next((json.loads(line[7:]) for line in got if line.startswith("report {")), {"verdict": got})
        first = [wanted] if wanted else []
        tally.check(f"C: where weak is enough refused calls are told of, {name}", not wanted or f"fails {wanted}" in got, got[-8:])
        tally.check(f"C: judge tells of refused calls, {name}", report["verdict"] == verdict and
                    [line for line in report["warnings"] if "refused" in line] == report["warnings"][:1] * bool(wanted) == first, report)
        told = got[-2].partition(" --refused ")[1:] if got[-1:] == ["ok"] else got
        tally.check(f"C: explain tells of refused calls, {name}", told == ((" --refused ", f"{wanted} -") if wanted else ("", "")),
                    got[-5:])


def main() -> None:
    program = program_of(sys.argv)
    tally = Tally()
    with tempfile.TemporaryDirectory() as name:
        folder = Path(name)
        drivers = prepared(folder)
        (folder / "path").mkdir()
        (folder / "path" / "domepeeler").symlink_to(Path(program).resolve())
        texts, ids = {}, {}
        for language in LANGUAGES:
            recorder = Recorder(language, drivers[language], program)
            check_table(tally, recorder)
            check_counts(tally, recorder)
            if language not in TYPED:
                check_other_types(tally, recorder)
            ids[language] = check_ids(tally, recorder)
            tally.check(f"{language}: names of ids", ids[language] == ids["py"], ids)
            check_warnings(tally, recorder)
            check_notes(tally, recorder, folder)
            check_explains_file(tally, recorder, folder)
            check_full_delivery(tally, recorder)
            check_long_updates(tally, recorder)
            check_many_lines(tally, recorder)
            texts[language] = check_limits(tally, recorder)
            tally.check(f"{language}: texts at the limits", texts[language] == texts["py"])
            if language in CLOCKED:
                check_full_updates(tally, recorder)
            check_save(tally, recorder, folder)
            check_lines(tally, recorder, folder)
            if language in PLACING:
                check_places(tally, recorder, folder)
            check_judge(tally, recorder, folder)
            if language in EXPLAINING:
                check_explain(tally, recorder, folder)
            check_weak(tally, recorder)
            check_stop(tally, recorder, folder)
        check_save_is_described(tally)
        check_jupiter(tally, program, folder)
        check_python(tally)
        check_users(tally, program, folder)
        check_grouped(tally, program, folder)
        check_stopping(tally, folder)
        check_unread(tally, program, folder)
        check_log_readers(tally, program, folder)
        check_frames(tally, folder)
        check_limits_are_the_programs(tally, program, texts["py"])
        check_merge(tally, program, folder)
        check_merge_hostile(tally, folder)
        check_merge_refused(tally, folder)
        check_merge_stale(tally, folder)
        check_guide(tally, program, folder)
        check_readme(tally, program, folder)
        check_hypothesis(tally, program, folder)
        for language in "rs", "c", "el":
            check_no_verdict(tally, Recorder(language, drivers[language], program), folder)
        check_heads(tally, program, folder)
        check_weak_heads(tally, program, folder)
        check_rust_tests(tally, program, folder)
        check_own_panics(tally, program, folder)
        check_dropped(tally, program, folder)
        check_freed(tally, program, folder)
        check_ending(tally, program, folder)
        check_compilers(tally, folder)
        check_spawns(tally, folder)
        check_forked_c(tally, folder)
        check_places_c(tally, program, folder)
        check_stop_cpp(tally, program, folder)
        check_shared_recordings(tally, program, folder)
        check_aborts(tally, program, folder)
        check_skipped_el(tally, program, folder)
        check_hostile_c(tally, Recorder("c", drivers["c"], program), folder)
        check_ignored_c(tally, program, folder)
        check_not_learned_c(tally, program, folder)
        check_passes_c(tally, Recorder("c", drivers["c"], program), folder)
    tally.close()


if __name__ == "__main__":
    main()
