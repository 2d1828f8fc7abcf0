#!/usr/bin/env python3
"""convert.py LOG TRACE: the log of a session of two text pads as a trace, with the log's lines beside it for domepeeler-explain.

A line of the log is what a pad typed, erased or got: the change's id, and what the pad shows then. A typed element has the id of its
change; `of` is the element that is erased."""
import sys

if sys.version_info < (3, 9):  # in words that an older Python can read
    sys.stderr.write("convert.py: this needs Python 3.9 or later, and is run by %d.%d\n" % sys.version_info[:2])
    sys.exit(2)

import json
import os

try:
    from domepeeler import Recording, Refused
except ImportError:
    sys.stderr.write("convert.py: put the recorder domepeeler.py beside this, or its folder into PYTHONPATH\n")
    sys.exit(2)


def record(recording, entry):
    pad, change, shows = entry["pad"], entry["id"], entry["shows"]
    if entry["did"] == "typed":
        recording.insert(pad, change, entry["at"], shows, change)
    elif entry["did"] == "erased":
        recording.delete(pad, entry["of"], shows, change)
    else:
        recording.received_changes(pad, [change])
        recording.read(pad, shows)


def fail(words):
    """Ends with 2, and words of which each letter is printed as such."""
    sys.stderr.write("convert.py: %s\n" % "".join(letter if letter.isprintable() else ascii(letter)[1:-1] for letter in words))
    sys.exit(2)


def main(log, trace):
    if os.path.exists(log) and not os.path.isfile(log):
        fail("%s is no regular file" % log)
    if any(os.path.exists(path) and os.path.samefile(log, path) for path in (trace, trace + ".lines")):
        fail("the trace would be written over the log")
    recording = Recording(2)
    with open(log, encoding="utf-8") as lines:
        for number, line in enumerate(lines, 1):
            recording.at(log, number)
            try:
                record(recording, json.loads(line))
            except (Refused, ValueError, KeyError, TypeError) as why:  # so it is no such line, or says what no trace can
                fail("%s:%d: %s" % (log, number, why))
    recording.save(trace)


if len(sys.argv) != 3:
    fail("it takes two words: LOG TRACE")
try:
    main(*sys.argv[1:])
except (OSError, ValueError) as why:
    fail(str(why))
