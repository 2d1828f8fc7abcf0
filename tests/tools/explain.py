#!/usr/bin/env python3
"""explain.py PROGRAM: what `tools/explain` says of each kind of verdict and warns of, the pages that it draws, and its small
traces; and the way there from a plain test of Yjs, and from an engine of one's own.

The words are compared with lines that were written by hand. Each small trace is judged again by the program."""
from __future__ import annotations

import gzip
import json
import os
import random
import re
import shutil
import signal
import subprocess
import sys
import tempfile
import time
import xml.etree.ElementTree as ElementTree
from collections import Counter
from pathlib import Path

ROOT = Path(__file__).resolve().parents[2]
sys.path.insert(0, str(ROOT / "tests"))
from reference.traces import has_view, written  # noqa: E402
from shared.forked import Forked  # noqa: E402
from shared.measured import used  # noqa: E402
from shared.program import NODE, Ended, Tally, is_running, need_module, program_of, run  # noqa: E402
from shared.sessions import session, with_fault  # noqa: E402
from shared.traces import trace as long_trace, two_rings  # noqa: E402

sys.path[:0] = [str(ROOT / "tools"), str(ROOT / "recorders"), str(ROOT / "examples" / "planted")]
import domepeeler as recorder
import planted
from explaining.beginning import explained
from explaining.evidence import Evidence
from explaining.programs import report_of
from explaining.recordings import Recording
from explaining.small import smallest
from explaining.words import text_of as text_of_words

EXPLAIN = str(ROOT / "tools" / "explain")
FORKED = Forked("explain", "explain_command")
GUIDE = str(ROOT / "docs" / "recording.md")
RECORD = str(ROOT / "recorders" / "engines" / "record.py")
YJS = ROOT / "examples" / "yjs"
SEED = 20261123

# How many small traces are made of each kind of verdict.
SMALL = {"refused": 300, "contents": 60, "position": 40, "doubled": 20}
MOST_TRIES = 20_000

THREE_WAY = "0 ins x 0 : x|1 recv 0 1|2 recv 0 1|1 ins a 0 : a x|2 ins b 1 : x b|0 del x :|0 recv 1 1|0 recv 2 1|0 read : b a"

# The author of d puts it between b and c; where it arrives, b is deleted, and it lands behind c.
BESIDE_DELETED = "0 ins b 0 : b|1 recv 0 1|1 ins c 1 : b c|0 recv 1 1|0 read : b c|1 del b : c|0 ins d 1 : b d c|1 recv 0 3|1 read : c d"


def stop(line: int, doing: str, *others: int, together: int = 0) -> str:
    """The lines of an explanation that say where to stop a debugger; where receipts up to there stand together, from which line on."""
    before = ", ".join(f"line {other}" for other in others)
    arrivals = ("another arrival", "other arrivals") if " applies " in doing else ("an arrival", "arrivals")
    doing += f"; if nothing is wrong there, stop at {arrivals[len(others) > 1]} ({before})" if others else ""
    asked = f"if recording.lines() == {line - 1}: breakpoint()"
    where = "right before the call that reads the list" if "reads the list" in doing else "right before the call that makes the editor apply a change, local or remote"
    stops = f"It stops when {line - 1} lines have been recorded."
    if together:
        one = f"lines {together} and {line} together, it stops" if together + 1 == line else f"all of lines {together} to {line}, it may stop"
        stops = f"It stops when {together - 1} lines have been recorded. Unless one call of your editor applies {one} again at {line - 1}. Look at what happens after the last stop."
    asked = f"if recording.lines() in ({together - 1}, {line - 1}): breakpoint()" if together else asked
    where += f". {stops}"
    return f"|In a debugger|stop before line {line} of the trace, where {doing}.|In Python, put this code {where}|{asked}"


UNSHOWN = "let each replica read at the end"
NO_PASS = "accepted, but this is no pass: "
# By name: how many replicas, the entries, and lines that stand in the explanation one after the other, from the first.
WORDS = [
    ("accepted", 2, "0 ins a 0 : a|1 recv 0 1|1 ins b 1 : a b|0 recv 1 1|0 read : a b",
     "accepted: all 3 responses fit one order of the elements.||One order that fits all responses (deleted elements included)|a b||"
     "The list specifications|strong and weak hold"),
    ("accepted, nothing", 1, "", f"{NO_PASS}nothing was recorded: the trace has no entry, so the verdict says nothing about your editor||What this verdict may hide|"
     "nothing was recorded: the trace has no entry, so the verdict says nothing about your editor||One order that fits all responses "
     "(deleted elements included)|(there are no elements)||The list specifications|strong and weak hold"),
    ("two concurrent inserts", 2, "0 ins a 0 : a|1 ins b 0 : b|0 recv 1 1|1 recv 0 1|0 read : a b|1 read : b a",
     "refused 2: two responses can't be right together.|"
     "[a] before [b]: line 7 of the trace, 0.2: replica 0 read the list, answered [a] [b]|"
     "[b] before [a]: line 8, 1.2: replica 1 read the list, answered [b] [a]|"
     "a: inserted by 0.1 (line 3)|b: inserted by 1.1 (line 4)|"
     "b arrived at replica 0 in line 5, a at replica 1 in line 6|"
     "Look at the order of concurrent inserts: a and b were inserted at the front without knowing of each other, and were shown in two different orders. "
     "Use a rule that gives the same order everywhere (such as the replicas' numbers), never the order of arrival. A shortcut, such as for appending, must use this rule too.|"
     "If the list is sorted by position identifiers, look at those of a and b: are the two equal, does one differ between replicas, are numbers compared as text, or is one of them not between the identifiers of its neighbours?" + stop(6, "replica 1 applies 0.1", 5)),
    ("a replica that turns two elements round when it deletes another", 2, "0 ins a 0 : a|1 ins b 0 : b|1 recv 0 1|1 read : a b|1 ins c 2 : a b c|1 del c : b a",
     "[b] before [a]: line 8, 1.4: replica 1 deleted c, answered [b] [a]|Where to look|"
     "Replica 1 itself changed the order of elements that it had shown: a before b in 1.3 (line 7), b before a in 1.4 (line 8). Between the two it "
     "deleted c. Look at what decides which of b and a comes first: once both are inserted, their order must never change, whatever is inserted, deleted "
     "or received later." + stop(8, "replica 1 deletes c", 5)),
    ("a replica that turns two elements round when others' changes come", 2, "0 ins a 0 : a|1 ins b 0 : b|1 recv 0 1|1 read : a b|0 ins c 1 : a c|0 del c : a|"
     "1 recv 0 3|1 read : b a", "Where to look|"
     "Replica 1 itself changed the order of elements that it had shown: a before b in 1.2 (line 6), b before a in 1.3 (line 10). Between the two it "
     "received the insert of c by 0.2 (line 7) and the delete of c by 0.3 (line 8). Look at what decides which of b and a comes first: once both are inserted, their order must never change, whatever is inserted, deleted or received later." + stop(9, "replica 1 applies 0.3", 5)),
    ("an insert that turns two others round", 1, "0 ins a 0 : a|0 ins b 1 : a b|0 ins c 2 : b c a",
     "line 5 of the trace, 0.3: replica 0 inserted c at position 2|before: [a] b, answered by 0.2 (line 4)|answered: b [c] [a]|asked for: position 2; the answer has [a] there|"
     "found at: position 1||Where to look|Replica 0 itself changed the order of elements that it had shown: a before b in 0.2 (line 4), b before a in 0.3 (line 5). "
     "Between the two it inserted c. Look at what decides which of b and a comes first: once both are inserted, their order must never change, "
     "whatever is inserted, deleted or received later.|If that is not the cause: look at how the position that a user sees is mapped to a place in the editor's own list; and at whether the recorder writes the position that was asked for." + stop(5, "replica 0 inserts c", together=3)),
    ("deletes of several of which the last was not done", 2, "0 ins a 0 : a|0 ins b 1 : a b|1 recv 0 2|1 read : a b|0 del a : b|0 del b :|1 recv 0 4|1 read : b",
     "Where to look|0.3 (line 7) was applied at replica 1, but not 0.4 (line 8), which was made right after that. If your editor sends the deletes of a and b as one change, it looks as if that was applied in part: look at what a replica does where one of several elements is gone already, or has not come yet; and, if your editor holds a delete back until its elements have arrived, at whether it tries again each time one of these arrives." + stop(9, "replica 1 applies 0.4")),
    ("deletes of several whose names are counted on from the first", 2, "0 ins x1 0 : x1|1 recv 0 1|1 ins y1 1 : x1 y1|1 ins z1 2 : x1 y1 z1|0 ins x2 1 : x1 x2|1 recv 0 2|1 read : x1 y1 z1 x2|"
     "1 del x1 : y1 z1 x2|1 del x2 : z1 x2",
     "Where to look|1.4 (line 10) and 1.5 (line 11) delete x1 and x2; but x2 is still shown, while y1 is gone. Look at which ids a local delete puts into the change that it sends: where it deletes several, each element has an id of its own, and these need not be consecutive." + stop(11, "replica 1 deletes x2", together=10)),
    ("an insert that takes another element away", 1, "0 ins a 0 : a|0 ins b 1 : a b|0 ins c 1 : a c",
     "Where to look|The replica received nothing between 0.2 (line 4) and this response, so look at the local insert itself: at what it does to the list, and at which ids it puts into the change that it sends." + stop(5, "replica 0 inserts c")),
    ("a delete where the order of two at its place differs already", 2, "0 ins a 0 : a|0 ins w 1 : a w|1 ins c 0 : c|1 recv 0 1|1 read : a c|1 del c : a|0 recv 1 1|0 recv 1 3|0 read : c a",
     "Where to look|c and a were inserted at one place without knowing of each other, and are shown in two orders: c before a in 0.3 (line 11), a before c in 1.2 (line 7). Look first at the order of concurrent inserts: it must be decided by a rule that never ties (compare the replicas' numbers, for instance, and not the inserted letters, which may be equal). Where the order differs, a later change by position hits another element.|It looks as if 1.3 (line 8), applied at replica 0, deleted w instead of c: look at "
     "how a replica that applies a delete finds the element, and at whether the recorder writes the name of the element that was really deleted." + stop(9, "replica 0 applies 1.1")),
    ("an insert beside a deleted element, where others before it went well", 2, "0 ins a 0 : a|0 ins b 1 : a b|0 ins c 2 : a b c|0 ins z 3 : a b c z|1 recv 0 4|1 read : a b c z|"
     "1 del a : b c z|0 ins p 1 : a p b c z|1 recv 0 5|1 read : p b c z|1 del b : p c z|0 ins q 3 : a p b q c z|1 recv 0 6|1 read : p q c z|1 del c : p q z|"
     "0 ins r 5 : a p b q c r z|1 recv 0 7|1 read : p q r z|1 del r : p q z|0 ins s 6 : a p b q c r s z|1 recv 0 8|1 read : p q z s",
     "Where to look|When replica 0 inserted [s] (0.8, line 22), it had [z] already, and put [s] before it. That order must hold everywhere, but 1.9 (line 24) shows [s] behind [z]. "
     "Look at the message that replica 0 made for that insert, and at where replica 1 placed it in line 23. Often the clock that decides between inserts does not advance when changes arrive. A change may bring several elements: then the clock must go above the last element's number. Or the neighbour is not found. Or elements are stored in runs (blocks of several), and a run is split at a wrong offset (the offset must count deleted elements too).|If inserts find their place by a neighbour, look at inserts beside deleted elements: s came to replica 1 in line 23, where its neighbour r had been "
     "deleted. If replicas throw deleted elements away, nothing says then where the insert belongs; if they keep them, the search for its place must treat them like elements that are shown.|"
     "If the list is sorted by position identifiers, print those of r, s and z at line 22. They must rise in this order. If they do not, look at how the identifier of s was made; if they do, at how "
     "identifiers are compared (numbers must not be compared as text).|If the editor sends positions, the position of s was perhaps not adjusted for the delete of a by 1.2 (line 9), the delete of b "
     "by 1.4 (line 13), the delete of c by 1.6 (line 17) and the delete of r by 1.8 (line 21), which replica 1 knew and the author of s did not. "
     "Or perhaps replica 1's own change 1.2 was not adjusted for the insert of p by 0.5 (line 10), the insert of q by 0.6 (line 14) and the insert of r by 0.7 (line 18), whose author did not have 1.2 yet." + stop(23, "replica 1 applies 0.8", 7)),
    ("a local delete whose change names another element than the one that is gone", 2, "0 ins a 0 : a|1 recv 0 1|1 ins b 1 : a b|1 del a : b|1 del c :",
     "Where to look|1.3 (line 7) deletes c; but c does not stand in 1.2 (line 6) and no line inserts it, while b is gone. Look at which ids a local delete puts into "
     "the change that it sends: where it deletes several, each element has an id of its own, and these need not be consecutive." + stop(7, "replica 1 deletes c", together=6)),
    ("deletes that come together, of which the first finds nothing", 2, "0 ins a 0 : a|0 ins b 1 : a b|0 ins c 2 : a b c|1 recv 0 3|1 read : a b c|1 del a : b c|"
     "0 del a : b c|0 del b : c|1 recv 0 5|1 read : b c", "Where to look|"
     "0.4 (line 9) and 0.5 (line 10) were made one after the other, and came to replica 1 together; there a was deleted already, by 1.2 (line 8), and b is "
     "still shown. If your editor sends both deletes as one change, it looks as if that was applied in part: look at what a replica does where one of several "
     "elements is gone already; it must go on with the others.|It looks as if 0.5 (line 10) was not applied at replica 1: lost, or held back, or `received` is called "
     "before the change is applied. Or that delete hit another element, one that was already deleted there: look at how a replica that applies a delete finds the "
     "element (is the whole id compared?)." + stop(11, "replica 1 applies 0.5")),
    ("a delete that takes its neighbour along", 2, "0 ins a 0 : a|0 ins b 1 : a b|0 ins c 2 : a b c|1 recv 0 3|1 read : a b c|0 del a : b c|1 recv 0 4|1 read : c",
     "Where to look|It looks as if 0.4 (line 8), applied at replica 1, deleted b along with a: b stood in 1.1 (line 7), and no delete of it has arrived since. Look at where the delete begins, and at how many elements it deletes." + stop(9, "replica 1 applies 0.4")),
    ("a delete that takes two others along at its author's", 1, "0 ins a 0 : a|0 ins b 1 : a b|0 ins c 2 : a b c|0 del a :",
     "Where to look|It looks as if 0.4 (line 6) deleted b and c along with a: b and c stood in 0.3 (line 5), and no delete of them has arrived since. Look at where the delete begins, and at how many elements it deletes." + stop(6, "replica 0 deletes a")),
    ("an insert that stands too far behind, though its name has the greater number", 1, "0 ins e1-0 0 : e1-0|0 ins e2-0 1 : e1-0 e2-0|0 del e1-0 : e2-0|0 ins e4-0 0 : e2-0 e4-0",
     "asked for: position 0; the answer has [e2-0] there|found at: position 1||Where to look|"
     "Look at how the position that a user sees is mapped to a place in the editor's own list (deleted elements may still stand there); and "
     "at whether the recorder writes the position that was asked for.|If the list is sorted by position identifiers, print those of e4-0 and e2-0 at line 6. They must rise in this order. If "
     "they do not, look at how the identifier of e4-0 was made; if they do, at how identifiers are compared (numbers must not be compared as text)." + stop(6, "replica 0 inserts e4-0")),
    ("an insert that had seen the other", 2, "0 ins a 0 : a|1 recv 0 1|1 ins b 1 : a b|0 recv 1 1|0 read : b a",
     "refused 2: two responses can't be right together.|"
     "[a] before [b]: line 5 of the trace, 1.1: replica 1 inserted b at position 1, answered [a] [b]|"
     "[b] before [a]: line 7, 0.2: replica 0 read the list, answered [b] [a]|"
     "a arrived at replica 1 in line 4, b at replica 0 in line 6|"
     "When replica 1 inserted [b] (1.1, line 5), it had [a] already (since line 4), and put [b] behind it. That order must hold everywhere, but 0.2 (line 7) shows [b] before [a]. Look at the message that replica 1 made for that insert, and at where replica 0 placed it in line 6. Often the clock that decides between inserts does not advance when changes arrive. A change may bring several elements: then the clock must go above the last element's number. Or the neighbour is not found. Or elements are stored in runs (blocks of several), and a run is split at a wrong offset.|"
     "If the list is sorted by position identifiers, print those of a and b at line 5. They must rise in this order. If they do not, look at how the identifier of b was made; if they do, at how identifiers are compared (numbers must not be compared as text)." + stop(6, "replica 0 applies 1.1", 4)),
    ("three-way cycle", 3, THREE_WAY,
     "refused 3: three responses can't be right together. Any two of them can.|"
     "[x] before [b]: line 7 of the trace, 2.1: replica 2 inserted b at position 1, answered [x] [b]|"
     "[b] before [a]: line 11, 0.3: replica 0 read the list, answered [b] [a]|"
     "[a] before [x]: line 6, 1.1: replica 1 inserted a at position 0, answered [a] [x]|"
     "x: inserted by 0.1 (line 3), deleted by 0.2 (line 8)|at 0.3 (line 11), x was deleted already, by 0.2 (line 8)|"
     "a was put before x. When it arrived at replica 0 in line 9, x was already deleted there by 0.2 (line 8)|"
     "b was put behind x. When it arrived at replica 0 in line 10, x was already deleted there by 0.2 (line 8)|"
     "x arrived at replica 1 in line 4 and at replica 2 in line 5; a at replica 0 in line 9; b at replica 0 in line 10||"
     "Where to look|"
     "An editor whose server orders all changes, as Jupiter's does, promises only the weak list specification, which holds here. If yours is such an editor, nothing is wrong here: ask for the weak specification alone (in the tools by --weak).|"
     "Look at positions beside deleted elements: any two of 2.1, 0.3 and 1.1 fit together, but not all three; perhaps an insert lost its place "
     "because its neighbour was deleted meanwhile. Look first at where replica 0 placed b in line 10: it belongs beside x, which had been deleted there.|"
     "If the list is sorted by position identifiers, look at those of x, b and a: are two of them equal, does one differ between replicas, are numbers compared as text, or is one of them not between the identifiers of its neighbours?"
     + stop(10, "replica 0 applies 2.1", 9, 5, 4, together=9)),
    ("an insert that arrives beside a deleted element", 2, BESIDE_DELETED,
     "[d] before [c]: line 9 of the trace, 0.3: replica 0 inserted d at position 1, answered b [d] [c]|"
     "[c] before [d]: line 11, 1.3: replica 1 read the list, answered [c] [d]|"
     "d: inserted by 0.3 (line 9)|c: inserted by 1.1 (line 5)|"
     "d was put behind b. When it arrived at replica 1 in line 10, b was already deleted there by 1.2 (line 8)|"
     "c arrived at replica 0 in line 6, d at replica 1 in line 10||Where to look|"
     "If inserts find their place by a neighbour, look at inserts beside deleted elements: d "
     "came to replica 1 in line 10, where its neighbour b had been deleted. If replicas throw deleted elements away, nothing says then where the insert belongs; if they keep them, the search for its place must treat them like elements that are shown.|"
     "When replica 0 inserted [d] (0.3, line 9), it had [c] already (since line 6), and put [d] before it. That order must hold everywhere, but 1.3 (line 11) shows [d] behind [c]. Look at the message that replica 0 made for that insert, and at where replica 1 placed it in line 10. Often the clock that decides between inserts does not advance when changes arrive. A change may bring several elements: then the clock must go above the last element's number. Or the neighbour is not found. Or elements are stored in runs (blocks of several), and a run is split at a wrong offset (the offset must count deleted elements too).|"
     "If the list is sorted by position identifiers, print those of b, d and c at line 9. They must rise in this order. If they do not, look at how the identifier of d was made; if they do, at how identifiers are compared (numbers must not be compared as text).|If the editor "
     "sends positions, the position of d was perhaps not adjusted for the delete of b by 1.2 (line 8), which replica 1 knew and the author of d did not." + stop(10, "replica 1 applies 0.3", 6)),
    ("an insert between two that were put together", 2, "0 ins a 0 : a|0 ins b 1 : a b|1 ins c 0 : c|1 recv 0 2|1 read : a c b|0 recv 1 1|0 read : a b c",
     "[c] before [b]: line 7, 1.2: replica 1 read the list, answered a [c] [b]|Where to look|"
     "[b] was put directly behind [a]. The author of [c] knew neither, and 1.2 (line 7) shows [c] between the two. If inserts find their place by a "
     "neighbour, look at how [b] found its place when it came to replica 1 in line 6. The search begins behind [a] and went past [c]. But [c] was not inserted with [a] as its neighbour, so perhaps the search should have ended before [c].|"
     "Look at the order of concurrent inserts: b and c were inserted without knowing of each other, and were shown in two different orders. Use a rule that "
     "gives the same order everywhere (such as the replicas' numbers), never the order of arrival. A shortcut, such as for appending, must use this rule too."),
    ("an insert between two that were put together, which came last", 3, "0 ins a 0 : a|0 ins b 1 : a b|1 ins c 0 : c|2 recv 0 2|2 read : a b|2 recv 1 1|2 read : a c b|1 recv 0 2|1 read : a b c",
     "Where to look|[b] was put directly behind [a]. The author of [c] knew neither, and 2.2 (line 9) shows [c] between the two. If inserts find their place by a neighbour, look at how [c] found its place "
     "when it came to replica 2 in line 8: a search that goes past [a] must also go past all that was put behind [a]; in a list that is kept in blocks it must not stop at a block's end.|"),
    ("an insert between two that were put together, which came with these", 4, "0 ins a 0 : a|0 ins b 1 : a b|1 ins c 0 : c|3 recv 0 2|3 recv 1 1|3 read : a b c|2 recv 3 1|2 read : a c b",
     "Where to look|[b] was put directly behind [a]. The author of [c] knew neither, and 2.1 (line 10) shows [c] between the two. If inserts find their place by a neighbour, look at how [c] and [b] found "
     "their places when they came to replica 2 in line 9: a search that goes past [a] must also go past all that was put behind [a]; in a list that is kept in blocks it must not stop at a block's end.|"),
    ("an insert behind what the other author did not know, which is deleted, and it came last everywhere", 4, "0 ins a 0 : a|0 ins b 1 : a b|0 del a : b|1 ins c 0 : c|2 recv 1 1|2 recv 0 3|2 read : c b|"
     "1 recv 0 3|1 read : b c", "Where to look|"
     "[b] was put directly behind [a]. The author of [c] did not know [a]. If inserts find their place by a neighbour, look at how [b] found its place when it came to replica 1 in line 10. The search begins "
     "behind [a] and went past [c]. But [c] was not inserted with [a] as its neighbour, so perhaps the search should have ended before [c]. Look also at inserts beside deleted elements: a replica that has thrown away [a] when it was deleted can't know where [b] "
     "belongs.|"),
    ("an insert behind what the other author did not know, which is deleted", 2, "0 ins a 0 : a|0 ins b 1 : a b|0 del a : b|1 ins c 0 : c|1 recv 0 3|"
     "1 read : c b|0 recv 1 1|0 read : b c", "Where to look|"
     "[b] was put directly behind [a]. The author of [c] did not know [a]. If inserts find their place by a neighbour, look at how [c] found its "
     "place when it came to replica 0 in line 9: a search that goes past [a] must also go past all that was put behind [a]; in a list that is kept in blocks it must not stop at a block's end. Look also at "
     "inserts beside deleted elements: a replica that has thrown away [a] when it was deleted can't know where [b] belongs.|"
     "Look at the order of concurrent inserts: b and c were inserted without knowing of each other, and were shown in two different orders. Use a rule that "
     "gives the same order everywhere (such as the replicas' numbers), never the order of arrival. A shortcut, such as for appending, must use this rule too."),
    ("an insert between two that are deleted by others", 3, "0 ins a 0 : a|0 ins b 1 : a b|1 recv 0 2|2 recv 0 2|2 ins c 1 : a c b|1 del a : b|"
     "0 del b : a|1 recv 0 3|1 read :|1 ins d 0 : d|1 recv 2 1|1 read : c d|2 recv 1 3|2 read : d c",
     "[d] before [c]: line 16 of the trace, 2.2: replica 2 read the list, answered [d] [c]|"
     "[c] before [d]: line 14, 1.4: replica 1 read the list, answered [c] [d]|"
     "c was put behind a and before b. When it arrived at replica 1 in line 13, both were already deleted there: a by 1.1 (line 8), b by 0.3 (line "
     "9)|c arrived at replica 1 in line 13, d at replica 2 in line 15"),
    ("a session that goes on", 2, f"{BESIDE_DELETED}|0 recv 1 2|0 read : d c|1 read : c d",
     "When it showed|line 11 of the trace, 1.3: replica 1 read the list. Up to line 10 the session is accepted; with line 11 the verdict is `refused 2`|"
     "before it: replica 1's 1.2 (line 8) answered c, which fits; since then it received 0.3 (line 10)|"
     "in the end replicas 0 and 1 have every change, as the receipts say, and show the same elements in different orders: d before c at replica 0, c before d at replica 1||"
     "What these responses show: a circle, which no order allows|"
     "[d] before [c]: line 9, 0.3: replica 0 inserted d at position 1, answered b [d] [c]|"
     "[c] before [d]: line 11, 1.3: replica 1 read the list, answered [c] [d]||The elements|"
     "c arrived at replica 0 in line 6, d at replica 1 in line 10||"
     "Where to look" + stop(10, "replica 1 applies 0.3", 6)),
    ("a session that goes on, where others stand in two orders in the end", 3, "0 ins a 0 : a|1 ins b 0 : b|0 recv 1 1|1 recv 0 1|0 read : a b|1 read : b a|0 ins c 2 : a b c|1 ins d 2 : a b d|"
     "0 recv 1 3|1 recv 0 3|2 recv 0 3|2 recv 1 3|0 read : a b c d|1 read : a b d c|2 read : a b d c",
     "in the end replicas 0, 1 and 2 have every change, as the receipts say, and show the same elements in different orders: c before d at replica 0, d before c at replicas 1 and 2 (c and d are not in the circle below)||"
     "What these responses show: a circle, which no order allows|[a] before [b]: line 7, 0.2: replica 0 read the list, answered [a] [b]"),
    ("a session that goes on, with one list in the end", 2, f"{BESIDE_DELETED}|0 recv 1 2|0 read : c d",
     "When it showed|line 11 of the trace, 1.3: replica 1 read the list. Up to line 10 the session is accepted; with line 11 the verdict is `refused 2`|"
     "before it: replica 1's 1.2 (line 8) answered c, which fits; since then it received 0.3 (line 10)|"
     "in the end replicas 0 and 1 have every change, as the receipts say, and show the same list||Where to look|Replica 0 inserted "
     "[d] (0.3, line 9) before [c]. No other replica shows them in this order. After its next receipt (line 12), from 0.4 (line 13) on, replica 0 itself shows [d] behind [c], like the others. So the message for "
     "this insert seems to name another place than the one where its author put it: compare where a local insert goes into the list with what its message says. Or, if replicas talk through a server, the insert was moved in line 12: then look at how the replica's own changes that are still on their way are adjusted for what arrives." +
     stop(9, "replica 0 inserts d", 12, 10, 6)),
    ("a replica turns round what it reads, and has received nothing", 2, "0 ins a 0 : a|1 ins b 0 : b|0 recv 1 1|0 read : a b|1 recv 0 1|1 read : b a|1 read : a b", "Where to look|"
     "Replica 1 shows b before a in 1.2 (line 8), and a before b in 1.3 (line 9), though it received and changed nothing between. Something that is not recorded did that: with a server or a relay, perhaps its acknowledgement of the replica's own change. Then one of the two lists is wrong: that of 1.2 (line 8), made when 0.1 came in line 7, or the one after the acknowledgement. Two pieces of code must adjust in the same way: (1) the code that adjusts an arriving change for the replica's own changes on their way, and these for it; (2) the code that handles the acknowledgement; so must the server, if it adjusts positions. Compare which changes each of them adjusts, whether each only once, and which of two inserts at one position it puts first."),
    ("an insert beside what came since the last one", 2, "1 ins c 0 : c|0 ins a 0 : a|0 recv 1 1|0 read : a c|0 ins b 1 : a c b",
     "found at: position 2||Where to look|c came to replica 0 in line 5, beside a, which the replica had inserted earlier, by 0.1 (line 4). Does the editor keep a position, or a range, from its last insert? Then a change that arrives must update it." + stop(7, "replica 0 inserts b", 5)),
    ("a read that has other elements, where nothing was received", 2, "0 ins a 0 : a|0 ins b 1 : a b|1 recv 0 2|1 read : a b|0 del a : b|1 recv 0 3|1 read : b|1 read : a", "Where to look|"
     "Replica 1's answer in 1.2 (line 9) is right, and it has received nothing since. Look at what replica 1 does between that answer and this one; if there is a server, also at what its acknowledgement of the replica's own change does." + stop(10, "replica 1 reads the list", 8)),
    ("a beginning that shows something else", 3, f"{THREE_WAY}|1 recv 0 2|1 recv 2 1|1 read : a b",
     "refused 3: three responses can't be right together. Any two of them can. This fault comes first, "
     "in lines 1 to 11: start with it. The whole trace has another verdict, `refused 2`, which is explained below.||"
     "When it showed|line 11 of the trace, 0.3: replica 0 read the list. Up to line 10 the session is accepted; with line 11 the verdict is "
     "`refused 3`|"
     "before it: replica 0's 0.2 (line 8) answered (nothing), which fits; since then it received 1.1 (line 9), 2.1 (line 10)|"
     "in the end replicas 0 and 1 have every change, as the receipts say, and show the same elements in different orders: b before a at replica 0, a before b at replica 1||"
     "What these responses show: a circle, which no order allows|"
     "[x] before [b]: line 7, 2.1: replica 2 inserted b at position 1, answered [x] [b]|"
     "[b] before [a]: line 11, 0.3: replica 0 read the list, answered [b] [a]|"
     "[a] before [x]: line 6, 1.1: replica 1 inserted a at position 0, answered [a] [x]||The elements|"
     "x: inserted by 0.1 (line 3), deleted by 0.2 (line 8)|at 0.3 (line 11), x was deleted already, by 0.2 (line 8)|"
     "x arrived at replica 1 in line 4 and at replica 2 in line 5; a at replica 0 in line 9; b at replica 0 in line 10||"
     "Where to look|"
     "Look at positions beside deleted elements: any two of 2.1, 0.3 and 1.1 fit together, but not all three; perhaps an insert lost its place "
     "because its neighbour was deleted meanwhile. Look first at where replica 0 placed b in line 10: it belongs beside x, which had been deleted there.|"
     "For the verdict on the whole trace: look at where a replica places an incoming insert beside a deleted element: [a] was put before [x] (1.1, line 6), and [b] behind it (2.1, line 7), so [x] settles their order, also where it is deleted; yet 0.3 (line 11) shows them the other way round. The rule for concurrent inserts must not decide this.|For the verdict on the whole trace: if the list is sorted by position identifiers, look at those of a and b: are the two equal, does one differ between replicas, are numbers compared as text, or is one of them not between the identifiers of its neighbours?|For the verdict on the whole trace: if the editor sends positions, the position of b was perhaps not adjusted for the delete of x by 0.2 (line 8), which replica 1 "
     "knew and the author of b did not. Or perhaps, when 0.2 came to replica 1 in line 12, its position was not adjusted for the insert of a by 1.1 (line 6).|"
     "" + stop(10, "replica 0 applies 2.1", 9, 5, 4, together=9) + "||What the whole trace shows: a circle, which no order allows|"
     "[a] before [b]: line 14, 1.2: replica 1 read the list, answered [a] [b]|"
     "[b] before [a]: line 11, 0.3: replica 0 read the list, answered [b] [a]"),
    ("a neighbour that its replica deleted before another's delete arrived", 2, "0 ins x 0 : x|1 recv 0 1|1 ins b 1 : x b|1 del x : b|"
     "0 ins a 0 : a x|0 del x : a|0 recv 1 1|0 recv 1 2|0 read : b a|0 read : a b",
     "b was put behind x. When it arrived at replica 0 in line 9, x was already deleted there by 0.3 (line 8)"),
    ("an element beside one that is deleted later", 2, "0 ins a 0 : a|0 ins b 1 : a b|0 ins c 2 : a b c|1 recv 0 3|1 read : a b c|1 del b : a c|"
     "1 read : c a",
     "[a] before [c]: line 5 of the trace, 0.3: replica 0 inserted c at position 2, answered [a] b [c]|"
     "[c] before [a]: line 9, 1.3: replica 1 read the list, answered [c] [a]|c: inserted by 0.3 (line 5)|"
     "c was put behind b. At 1.3 (line 9), b was deleted already, by 1.2 (line 8)|c and a arrived together at replica 1 in line 6" + stop(6, "replica 1 applies 0.3")),
    ("an element between two that are deleted later", 2, "0 ins a 0 : a|0 ins b 1 : a b|0 ins c 1 : a c b|0 ins d 3 : a c b d|1 recv 0 4|"
     "1 read : a c b d|1 del a : c b d|1 del b : c d|1 read : d c",
     "c was put behind a and before b. At 1.4 (line 11), both were deleted already: a by 1.2 (line 9), b by 1.3 (line 10)"),
    ("a ring of three that hear of one another", 3, "0 ins a 0 : a|1 ins b 0 : b|2 ins c 0 : c|0 recv 1 1|0 read : a b|1 recv 2 1|"
     "1 read : b c|2 recv 0 1|2 read : c a",
     "[a] before [b]: line 7 of the trace, 0.2: replica 0 read the list, answered [a] [b]|"
     "[b] before [c]: line 9, 1.2: replica 1 read the list, answered [b] [c]|"
     "[c] before [a]: line 11, 2.2: replica 2 read the list, answered [c] [a]|"
     "b arrived at replica 0 in line 6, c at replica 1 in line 8, a at replica 2 in line 10|"
     "Look at how a replica orders elements when it has only some of them: any two of 0.2, 1.2 and 2.2 fit together, but not all three. The elements that some of these responses lack had not arrived there yet; they were not deleted. Often the rule that orders concurrent inserts is not the same everywhere."
     + stop(10, "replica 2 applies 0.1", 8, 6)),
    ("an element that came along with what had seen it", 3, "0 ins a 0 : a|1 recv 0 1|1 read : a|1 ins b 1 : a b|2 recv 1 1|2 recv 1 2|"
     "2 recv 0 1|2 read : b a",
     "[b] before [a]: line 10, 2.1: replica 2 read the list, answered [b] [a]|b: inserted by 1.2 (line 6)|"
     "a arrived at replica 1 in line 4 and at replica 2 in line 7; b at replica 2 in line 8"),
    ("one element that arrived", 2, "0 ins a 0 : a|1 recv 0 1|1 ins b 0 : b a|1 read : a b",
     "[a] before [b]: line 6 of the trace, 1.2: replica 1 read the list, answered [a] [b]|a: inserted by 0.1 (line 3)|"
     "b: inserted by 1.1 (line 5)|a arrived at replica 1 in line 4||Where to look" + stop(4, "replica 1 applies 0.1")),
    ("nothing that arrived", 1, "0 ins a 0 : a|0 ins b 1 : a b|0 read : b a", "a: inserted by 0.1 (line 3)|b: inserted by 0.2 (line 4)||"
     "Where to look" + stop(5, "replica 0 reads the list")),
    ("an element lost that came by way of another replica", 3,
     "0 ins a 0 : a|1 recv 0 1|1 ins b 1 : a b|2 recv 1 1|2 read : b",
     "contents 2.1: this response lacks one element that replica 2 should have had by then.|"
     "line 7 of the trace, 2.1: replica 2 read the list|answered: b|it should hold, in any order: b [a]|"
     "before it: replica 2 did nothing, and received 1.1 (line 6, inserts b)|Missing|"
     "[a] inserted by 0.1 (line 3), which arrived at replica 1 in line 4 (1 recv 0 1). "
     "Replica 2 should have had 0.1 since line 6 (2 recv 1 1): the author of 1.1 had 0.1, so 1.1 must not arrive before 0.1|[a] 0.1 has no receipt of its own at replica 2, though the author of 1.1 had it. So "
     "either the message of line 6 carried 0.1 too, or 1.1 came before 0.1, which is not causal order|[a] is never deleted||Where to look|"
     "Look first at whether 0.1 was lost on its way to replica 2: no receipt there names it. If it was not lost but overtaken, look at the order in which "
     "operations arrive. Your editor may be right, but it needs operations in causal order: apply an operation only after everything that its author had seen, or send all of that along with it. If the editor itself holds "
     f"operations back, write the receipt of each only when it is applied. {GUIDE} shows what to record in each case."),
    ("an element lost that arrived after what had seen it", 3,
     "0 ins a 0 : a|1 recv 0 1|1 ins b 1 : a b|2 recv 1 1|2 recv 0 1|2 read : b",
     "line 8 of the trace, 2.1: replica 2 read the list|[a] the receipt of 0.1 itself comes only in line 7 (2 recv 0 1). 1.1, whose author "
     "already had 0.1, overtook it in line 6: that is not causal order|[a] is never deleted" + stop(6, "replica 2 applies 1.1")),
    ("an element lost that arrived by itself before", 3,
     "0 ins a 0 : a|2 recv 0 1|1 recv 0 1|1 ins b 1 : a b|2 recv 1 1|2 read : b",
     "[a] inserted by 0.1 (line 3), which arrived at replica 2 in line 4 (2 recv 0 1)|[a] is never deleted"),
    ("an element of one's own lost, whose delete has not arrived", 2, "0 ins a 0 : a|1 recv 0 1|1 del a :|0 read :|0 recv 1 1",
     "contents 0.2: this response lacks one element that replica 0 should have had by then.|"
     "answered: (nothing)|it should hold, in any order: [a]|"
     "before it: replica 0's 0.1 (line 3) answered [a], as it should; since then it received nothing|"
     "[a] inserted by 0.1 (line 3), an earlier operation of replica 0|"
     "[a] deleted by 1.1 (line 5), which replica 0 got only after this response, in line 7 (0 recv 1 1)" + stop(6, "replica 0 reads the list")),
    ("a deleted element shown", 2, "0 ins a 0 : a|0 del a :|1 recv 0 2|1 read : a",
     "contents 1.1: this response has one element that should not be there.|"
     "answered: [a]|it should hold, in any order: (nothing)|Extra|"
     "[a] inserted by 0.1 (line 3). Replica 1 should have had 0.1 since line 5 (1 recv 0 2): 0.2 is a later operation of the same author, so 0.2 must not arrive before 0.1|"
     "[a] deleted by 0.2 (line 4), which arrived at replica 1 in line 5 (1 recv 0 2)"),
    ("a deleted element shown, beside one that was there", 2, "0 ins a 0 : a|0 ins b 1 : a b|1 recv 0 2|1 read : a b|0 del b : a|1 recv 0 3|1 read : a b",
     "contents 1.2: this response has one element that should not be there.|answered: a [b]|it should hold, in any order: a|Extra|"
     "[b] inserted by 0.2 (line 4), which arrived at replica 1 in line 5 (1 recv 0 2)|"
     "[b] was put behind a. When it arrived at replica 1 in line 5, a was still there|"
     "[b] deleted by 0.3 (line 7), which arrived at replica 1 in line 8 (1 recv 0 3)"),
    ("a deleted element shown, beside one that was deleted", 2, "0 ins a 0 : a|1 recv 0 1|1 read : a|0 ins b 1 : a b|1 del a :|1 recv 0 2|1 read : b|"
     "0 del b : a|1 recv 0 3|1 read : b",
     "contents 1.4: this response has one element that should not be there.|answered: [b]|it should hold, in any order: (nothing)|Extra|"
     "[b] inserted by 0.2 (line 6), which arrived at replica 1 in line 8 (1 recv 0 2)|"
     "[b] was put behind a. When it arrived at replica 1 in line 8, a was already deleted there by 1.2 (line 7)|"
     "[b] deleted by 0.3 (line 10), which arrived at replica 1 in line 11 (1 recv 0 3)"),
    ("an element shown that never arrived", 2, "0 ins a 0 : a|1 read : a",
     "Extra|[a] inserted by 0.1 (line 3), and replica 1 has no receipt of it"),
    ("an element shown before it is inserted", 1, "0 read : a|0 ins a 0 : a",
     "Extra|[a] inserted by 0.2 (line 4), a later operation of replica 0"),
    ("a name that nothing inserts", 1, "0 ins a 0 : a|0 read : a q", "answered: a [q]|it should hold, in any order: a|Extra|"
     "[q] no operation of this trace inserts it"),
    ("a name twice", 1, "0 ins a 0 : a|0 read : a a", "answered: [a] [a]|it should hold, in any order: a|Named more than once|"
     "[a] inserted by 0.1 (line 3), an earlier operation of replica 0"),
    ("a delete that hits what is deleted already", 2, "0 ins a 0 : a|0 ins b 1 : a b|1 recv 0 2|1 read : a b|1 del a : b|0 del b : a|1 recv 0 3|1 read : b",
     "It looks as if 0.3 (line 8) was not applied at replica 1: lost, or held back, or `received` is called before the change is applied. Or that delete hit another element, one that was already deleted there: look at how a replica that applies a delete finds the element (is the whole id compared?)."),
    ("a change that is applied twice", 2, "0 ins a 0 : a|0 ins b 1 : a b|1 recv 0 2|1 read : a b a", "Named more than once|"
     "[a] inserted by 0.1 (line 3). Replica 1 should have had 0.1 since line 5 (1 recv 0 2): 0.2 is a later operation of the same author, so 0.2 must not arrive before 0.1||Where to look|"
     "It looks as if 0.1 (line 3) was applied twice at replica 1: look at what the editor does with a change that arrives a second time, and at "
     "whether a change that was held back is applied twice: on arrival and again later."),
    ("its own changes that come back", 1, "0 ins a 0 : a|0 ins b 1 : a b|0 read : a b a b", "Named more than once||Where to look|"
     "It looks as if 0.1 (line 3) and 0.2 (line 4) were applied twice at replica 0: look at what the editor does with a change that arrives a second "
     "time (a server may send a replica its own changes back), and at whether a change that was held back is applied twice: on arrival and again later.|"),
    ("its own delete", 1, "0 ins a 0 : a|0 del a : a", "[a] inserted by 0.1 (line 3), an earlier operation of replica 0|"
     "[a] deleted by 0.2 (line 4), this operation itself"),
    ("a deleted element in a view", 1, "0 ins a 0 : a|0 ins b 1 : a b|0 del a : b|0 view : a",
     "contents 0.4: this view has one element that should not be there.|"
     "line 6 of the trace, 0.4: replica 0 showed a part of the list|answered: [a]|it may hold any part of what replica 0 had by then: b|"
     "before it: replica 0's 0.3 (line 5) answered b, as it should; since then it received nothing|Extra|"
     "[a] inserted by 0.1 (line 3), an earlier operation of replica 0|[a] deleted by 0.3 (line 5), an earlier operation of replica 0"),
    ("a name twice in a view", 1, "0 ins a 0 : a|0 view : a a", "answered: [a] [a]|it may hold any part of what replica 0 had by then: a|"
     "Named more than once|[a] inserted by 0.1 (line 3), an earlier operation of replica 0"),
    ("a read after a view", 1, "0 ins a 0 : a|0 view :|0 read :",
     "contents 0.3: this response lacks one element that replica 0 should have had by then.|"
     "answered: (nothing)|it should hold, in any order: [a]|before it: replica 0's 0.2 (line 4) answered (nothing), as it should; since then it received nothing|Missing"),
    ("a view against an insert", 2, "0 ins a 0 : a|0 ins b 1 : a b|0 ins c 2 : a b c|1 recv 0 3|1 view : c a",
     "refused 2: two responses can't be right together.|"
     "[a] before [c]: line 5 of the trace, 0.3: replica 0 inserted c at position 2, answered [a] b [c]|"
     "[c] before [a]: line 7, 1.1: replica 1 showed a part of the list, answered [c] [a]"),
    ("accepted, with a view", 2, "0 ins a 0 : a|0 ins b 1 : a b|1 recv 0 2|1 view : b",
     "accepted, with a warning: all 3 responses fit one order of the elements.||What this verdict may hide|replica 1 shows no list but a view "
     f"after it received 0.2 (in line 5): {UNSHOWN}||One order that fits all responses (deleted elements included)|a b"),
    ("past the end, elsewhere", 1, "0 ins a 0 : a|0 ins b 4294967295 : b a",
     "position 0.2: b is not at the position that was asked for.|"
     "line 4 of the trace, 0.2: replica 0 inserted b at position 4294967295|answered: [b] [a]|"
     "asked for: position 4294967295, past the end, so the last place (1); the answer has [a] there|found at: position 0"),
    ("a position", 1, "0 ins a 0 : a|0 ins b 1 : a b|0 ins c 1 : a b c",
     "answered: a [b] [c]|asked for: position 1; the answer has [b] there|found at: position 2" + stop(5, "replica 0 inserts c")),
    ("an insert that was deleted before", 2, "1 del a :|0 recv 1 1|0 ins a 0 :",
     "position 0.1: a is not at the position that was asked for.|"
     "asked for: position 0, but the response is empty|"
     "found at: no position, since a was deleted by 1.1 (line 3), which arrived at replica 0 in line 4 (0 recv 1 1)"),
    ("an insert whose number is not great enough", 2, "0 ins a 0 : a|0 ins b 0 : b a|1 recv 0 2|1 ins c 0 : b c a",
     "position 1.1: c is not at the position that was asked for.|asked for: position 0; the answer has [b] there|found at: position 1||"
     "Where to look|"
     "If the editor decides by numbers (a clock, ids) which of two inserts at one place comes first, look at theirs: c stands behind b, which replica 1 had "
     "already. To stand before, c needs a number greater than that of b; perhaps its number is not greater. Usual causes: the clock does not advance when changes arrive, or when one that was held back is applied; "
     'the replica\'s number is compared before the clock; ids are compared as text, so 10 comes before 9.|If the list is sorted by position identifiers, print those of c and b at line 6. They must rise in this order. If they do not, look '
     'at how the identifier of c was made; if they do, at how identifiers are compared (numbers must not be compared as text).|If neither fits your editor: look at how the position that a user sees is mapped to a place '
     "in the editor's own list; and at whether the recorder writes the position that was asked for." + stop(6, "replica 1 inserts c")),
    ("a position before the one that was asked for, beside a deleted element", 1, "0 ins a 0 : a|0 ins b 1 : a b|0 del a : b|0 ins c 1 : c b",
     "asked for: position 1; the answer has [b] there|found at: position 0||Where to look|"
     "Look at how the position that a user sees is mapped to a place in the editor's own list (deleted elements may still stand there); and "
     "at whether the recorder writes the position that was asked for.|If the list is sorted by position identifiers, print those of b and c at line 6. They must rise in this order. If they do not, look at how the identifier of c was made; if they do, at how identifiers are compared (numbers must not be compared as text)." + stop(6, "replica 0 inserts c")),
    ("a second delete of one element takes its neighbour", 2, "0 ins a 0 : a|0 ins b 1 : a b|1 recv 0 2|1 read : a b|0 del a : b|1 del a : b|"
     "1 recv 0 3|1 read :",
     "contents 1.3: this response lacks one element that replica 1 should have had by then.|answered: (nothing)|"
     "it should hold, in any order: [b]|before it: replica 1's 1.2 (line 8) answered [b], as it should; since then it received 0.3 (line 9, deletes a, already deleted at replica 1 by 1.2)|"
     "Missing|[b] inserted by 0.2 (line 4), which arrived at replica 1 in line 5 (1 recv 0 2)|"
     "[b] was put behind a. When it arrived at replica 1 in line 5, a was still there|[b] is never deleted||"
     "Where to look|"
     "It looks as if 0.3 (line 7), applied at replica 1, deleted b instead of a: look at how a replica that applies a delete "
     "finds the element. a was already deleted there, by 1.2 (line 8), so look also at what the editor does with a delete whose element is gone." + stop(9, "replica 1 applies 0.3")),
    ("a delete of one's own after another's", 2, "0 ins a 0 : a|0 ins b 1 : a b|1 recv 0 2|1 del a : b|0 recv 1 1|0 del a :",
     "contents 0.3: this response lacks one element that replica 0 should have had by then.|"
     "It looks as if 0.3 (line 8) deleted b instead of a: look at how a replica that applies a delete "
     "finds the element. a was already deleted there, by 1.1 (line 6), so look also at what the editor does with a delete whose element is gone." + stop(7, "replica 0 applies 1.1")),
    ("an element lost whose neighbour was deleted where it arrived", 2, "0 ins a 0 : a|0 ins b 1 : a b|1 recv 0 2|1 read : a b|0 ins c 1 : a c b|1 del a : b|"
     "1 recv 0 3|1 read : b",
     "contents 1.3: this response lacks one element that replica 1 should have had by then.|Missing|"
     "[c] inserted by 0.3 (line 7), which arrived at replica 1 in line 9 (1 recv 0 3)|"
     "[c] was put behind a and before b. When it arrived at replica 1 in line 9, a was already deleted there by 1.2 (line 8)|[c] is never deleted||"
     "Where to look|"
     "If inserts find their place by a neighbour, look at inserts beside deleted elements: when c arrived, its neighbour was already deleted there: a (by 1.2, line 8). An editor that throws deleted elements "
     "away too early finds no place for it, and loses it or holds it back for ever." + stop(9, "replica 1 applies 0.3")),
    ("an element lost beside two that are there", 2, "0 ins a 0 : a|0 ins b 1 : a b|0 ins c 1 : a c b|1 recv 0 3|1 read : a b",
     "[c] was put behind a and before b. When it arrived at replica 1 in line 6, a and b were still there"),
    ("a change that a later one of its author overtook", 2, "0 ins a 0 : a|0 ins b 1 : a b|0 ins c 2 : a b c|1 recv 0 1|1 recv 0 3|1 read : a c|1 recv 0 2|"
     "1 read : a b c",
     "contents 1.1: this response lacks one element that replica 1 should have had by then.|Missing|"
     "[b] inserted by 0.2 (line 4). Replica 1 should have had 0.2 since line 7 (1 recv 0 3): 0.3 is a later operation of the same author, so 0.3 must not arrive before 0.2|"
     "[b] the receipt of 0.2 itself comes only in line 9 (1 recv 0 2). 0.3 overtook it in line 7: that is not causal order|[b] is never deleted|"
     "Look at the order in which operations arrive: 0.2 was overtaken, as told above. Your editor may be right, but it needs operations in causal order: apply an operation only after everything that its author had seen, or send all of that along with it. If the editor itself holds "
     f"operations back, write the receipt of each only when it is applied. {GUIDE} shows what to record in each case."
     + stop(7, "replica 1 applies 0.3", together=6)),
    ("a change without a receipt, as each other of its author has one", 2, "0 ins a 0 : a|0 ins b 1 : a b|0 ins c 2 : a b c|0 ins d 3 : a b c d|1 recv 0 1|"
     "1 read : a|1 recv 0 3|1 read : a c|1 recv 0 4|1 read : a c d",
     "[b] 0.2 has no receipt of its own at replica 1, though all other changes of replica 0 have one. 0.2 was lost, or 0.3 overtook it in line 9"),
    ("one receipt for several changes of an author", 2, "0 ins a 0 : a|0 ins b 1 : a b|0 ins c 2 : a b c|1 recv 0 3|1 read : a c",
     "[b] inserted by 0.2 (line 4). Replica 1 should have had 0.2 since line 6 (1 recv 0 3): 0.3 is a later operation of the same author, so 0.3 must not arrive before 0.2|"
     "[b] is never deleted||Where to "
     "look|It looks as if 0.2 (line 4) was not applied at replica 1: lost, or held back, or `received` is called before the change is applied.|No "
     "receipt at replica 1 names 0.2 (line 4): it counts as arrived with 0.3, in line 6. If you record a receipt for each change, 0.2 was "
     "lost, or 0.3 overtook it."),
    ("a change that did not come, whose neighbour was there until it should have", 2, "0 ins a 0 : a|1 recv 0 1|1 read : a|0 ins b 1 : a b|0 ins c 2 : a b c|1 recv 0 3|1 read : a c",
     "[b] was put behind a. Replica 1 should have had this element by line 8. Until then a was still there, so no deleted neighbour explains this|[b] is never deleted"),
    ("a change that did not come, whose neighbour was deleted before it should have", 2, "0 ins a 0 : a|1 recv 0 1|1 read : a|1 del a :|0 ins b 1 : a b|0 ins c 2 : a b c|1 recv 0 3|1 read : c",
     "[b] was put behind a. Replica 1 should have had this element by line 9, and by then a was already deleted there by 1.2 (line 6)|[b] is never deleted"),
    ("a change that is lost before others of a server's order", 3, "0 ins a 0 : a|0 ins b 0 : b a|1 recv 0 1|1 read : a|1 ins c 1 : a c|2 recv 0 1|"
     "2 ins y 1 : a y|0 recv 2 1|0 recv 1 2|0 read : b a y c|1 recv 2 1|1 read : a c y|0 ins d 4 : b a y c d|0 ins e 5 : b a y c d e|1 recv 0 4|"
     "1 read : a c y d|1 recv 0 5|1 read : a c y d e",
     "Look first at whether 0.2 (line 4) was lost on its way to replica 1, or overtaken: no receipt there names it, though receipts there name every "
     "other change of replica 0 up to the last received. In an editor that sends positions, later changes then land in the wrong place.|"
     "Look at the order of concurrent inserts: c and y were inserted directly behind a without knowing of each other, and were shown in two different orders. Use a "
     "rule that gives the same order everywhere (such as the replicas' numbers), never the order of arrival. A shortcut, such as for appending, must use this rule too."
     + stop(4, "replica 0 inserts b, and follow 0.2 to replica 1")),
    ("a delete that meets an insert and a delete which did not know each other", 2, "0 ins a 0 : a|0 ins b 1 : a b|0 ins c 2 : a b c|1 recv 0 3|"
     "1 read : a b c|0 del a : b c|1 ins d 3 : a b c d|0 recv 1 2|0 read : b c d|1 del c : a b d|0 recv 1 3|0 read : b c",
     "It looks as if 1.3 (line 12), applied at replica 0, deleted d instead of c: look at how a replica that applies a delete finds the element, and at whether the recorder "
     "writes the name of the element that was really deleted.|If the editor sends positions, the position of 1.3 was perhaps not adjusted for the delete of a by 0.4 (line 8), which the author of 1.3 had not seen." + stop(13, "replica 0 applies 1.3")),
    ("a delete that takes what is deleted later", 2, "0 ins a 0 : a|0 ins b 1 : a b|1 recv 0 2|1 read : a b|1 del a : b|0 ins c 0 : c a b|0 recv 1 2|"
     "0 read : a b|0 del c : a b",
     "It looks as if 1.2 (line 7), applied at replica 0, deleted c instead of a: look at how a replica that applies a delete finds the element, and at whether the recorder "
     "writes the name of the element that was really deleted.|If the editor sends positions, the position of 1.2 was perhaps not adjusted for the insert of c by 0.3 (line 8), which the author of 1.2 had not seen." + stop(9, "replica 0 applies 1.2")),
    ("an insert that another one at its place has shifted", 2, "0 ins b 0 : b|0 ins c 0 : c b|1 ins a 0 : a|1 recv 0 1|1 read : a b|1 recv 0 2|"
     "1 read : a b c",
     "When replica 0 inserted [c] (0.2, line 4), it had [b] already, and put [c] before it. That order must hold everywhere, but 1.3 (line 9) shows [c] behind [b]. Look at the message that replica 0 made for that insert, and at where replica 1 placed it in line 8. Often the clock that decides between inserts does not advance when changes arrive. A change may bring several elements: then the clock must go above the last element's number. Or the neighbour is not found. Or elements are stored in runs (blocks of several), and a run is split at a wrong offset. a was inserted at the same place as c concurrently: check also that every replica puts the same one first." + stop(8, "replica 1 applies 0.2", 6)),
    ("a receipt that comes before the change is applied", 2, "0 ins a 0 : a|1 recv 0 1|1 read : a|0 ins b 1 : a b|0 del a : b|1 recv 0 3|1 read : a",
     "contents 1.2: this response lacks one element that replica 1 should have had by then, and has one element that should not be there.||"
     "Where to look|"
     "It looks as if 0.2 (line 6) and 0.3 (line 7) were not applied at replica 1: lost, or held back, or `received` is called before the change "
     "is applied." + stop(8, "replica 1 applies 0.3")),
    ("a change that was applied without a receipt", 2, "0 ins a 0 : a|1 recv 0 1|1 read : a|0 ins b 1 : a b|0 del a : b|1 read : b",
     "Missing|[a] deleted by 0.3 (line 7), and replica 1 has no receipt of it|Extra|[b] inserted by 0.2 (line 6), and replica 1 has no receipt of "
     "it||Where to look|"
     "It looks as if 0.2 (line 6) and 0.3 (line 7) were applied at replica 1 without a receipt: the call of `received` is missing, comes too "
     "late, or names another operation." + stop(8, "replica 1 reads the list")),
    ("an element lost that was there before, beside one that came", 2, "0 ins a 0 : a|1 recv 0 1|1 read : a|0 ins b 1 : a b|1 recv 0 2|1 read : b",
     "Missing|[a] is never deleted||Where to look|"
     "Replica 1 showed a in 1.1 (line 5); since then it only received the insert of b by 0.2 (line 6), and nothing that came deletes a. Look at what 0.2 does there: "
     "does an arriving state replace the replica's own, or does the editor take back its own changes when others' arrive?|"
     "If that is not the cause: check two things, in this order. Recorder: `received` must be called right after the change is applied. "
     f"Editor: does it lose a change, apply it twice, or apply it to another element? {GUIDE} says where the calls "
     "go." + stop(7, "replica 1 applies 0.2")),
    ("an element that no line inserts", 1, "0 ins a 0 : a|0 read : a x",
     "[x] no operation of this trace inserts it||Where to look|No line inserts x. Perhaps the insert was not recorded, or under another name; or the document was not empty at first: "
     "then let one replica insert what was there, and the others receive it.|If that is not the cause: check two things, in this order. Recorder: `received` must be "
     f"called right after the change is applied. Editor: does it lose a change, apply it twice, or apply it "
     f"to another element? {GUIDE} says where the calls go." + stop(4, "replica 0 reads the list")),
    ("a deleted element settles the order of two others", 3, "0 ins x 0 : x|1 recv 0 1|2 recv 0 1|1 ins a 0 : a x|2 ins b 1 : x b|0 del x :|1 recv 0 2|1 recv 2 1|1 read : a b|"
     "0 recv 1 1|0 recv 2 1|0 read : b a", "refused 2: two responses can't be right together.||Where to look|"
     "Look at where a replica places an incoming insert beside a deleted element: [a] was put before [x] (1.1, line 6), and [b] behind it (2.1, line 7), so [x] settles their order, also where it is deleted; yet 0.3 (line 14) shows them the other way round. The rule for concurrent inserts must not decide this.|"),
    ("a replica turns round what it inserted itself", 2, "0 ins x 0 : x|1 recv 0 1|1 ins b 1 : x b|1 ins a 0 : a x b|0 del x :|1 recv 0 2|1 read : b a", "Where to look|"
     "Replica 1 itself changed the order of elements that it had shown: a before b in 1.2 (line 6), b before a in 1.3 (line 9). Between the two it received the delete of x by 0.2 (line 7). "
     "Look at what decides which of b and a comes first: once both are inserted, their order must never change, whatever is inserted, deleted or received later.|"
     "Replica 1 inserted both b and a itself. If the editor takes back its own changes when changes of others arrive, and applies them again (rebasing), look at where that puts them.|"
     "If the list is sorted by position identifiers, print those of a, x and b at line 6. They must rise in this order. If they do not, look at how the identifier of a was made; if they do, at how "
     "identifiers are compared (numbers must not be compared as text)." + stop(8, "replica 1 applies 0.2")),
    ("a number that does not grow at one replica", 1, "0 ins b 0 : b|0 ins a 0 : b a", "Where to look|"
     "If the editor decides by numbers (a clock, ids) which of two inserts at one place comes first, look at theirs: a stands behind b, which replica 0 had already. To stand before, a needs a number greater than that of b; perhaps its number is not greater. Usual causes: the clock does not advance with each insert; ids are compared as text, so 10 comes before 9.|"),
    ("an own deleted element that comes back, and a list that heals", 2, "0 ins a 0 : a|1 ins r 0 : r|1 del r :|1 recv 0 1|1 read : r|1 read : a", "Where to look|"
     "When the insert of a by 0.1 (line 3) came in line 6, r came back, which replica 1 had deleted itself by 1.2 (line 5), and a is not there: perhaps that delete now hits a instead. Look at how the replica's own changes that are still on their way are adjusted for an arriving change, and how that is adjusted for them (each for the unadjusted form of the other). If the editor takes its own changes back and applies them again, look at how it does that.|"),
    ("a wrong list that heals", 2, "0 ins a 0 : a|1 recv 0 1|1 read :|1 read : a", "Later replica 1 reads another list in 1.2 (line 6) than in 1.1 (line 5), though it received and changed nothing "
     "between. Something that is not recorded did that: with a server, perhaps its acknowledgement of the replica's own change. Then server and replica adjust one change differently: look at which changes each of them adjusts it for. Client and server must adjust in the same way, and each change only once.|"),
    ("an insert beside a deleted element, at a wrong position", 2, "0 ins a 0 : a|0 ins b 1 : a b|1 recv 0 2|1 read : a b|1 del a : b|1 ins c 0 : b c", "found at: position 1||Where to look|"
     "b was put behind a (0.2 (line 4)), and that is deleted at replica 1 by now: so c was inserted beside a deleted element. Look at how an insert finds its place there; in a tree of elements, "
     "at how the children of a deleted one are shown: all its left children must come before all its right ones.|"),
    ("a wrong response before the one that the program names", 2, "1 ins a 0 : a|1 read :|0 recv 1 1|0 read : a|0 read :|1 read : a",
     "contents 1.2: this response lacks one element that replica 1 should have had by then. This fault comes first, in lines 1 to 4: start with it. The whole trace has "
     "another verdict, `contents 0.2`, which is explained below.||When it went wrong|"
     "line 4 of the trace, 1.2: replica 1 read the list. Up to line 3 the session is accepted; with line 4 the verdict is `contents 1.2`|"
     "the first 4 lines are enough to show it (`head -4`)||The response|line 4 of the trace, 1.2: replica 1 read the list|answered: (nothing)|"
     "[a] inserted by 1.1 (line 3), an earlier operation of replica 1|[a] is never deleted||Where to look|"
     "Replica 1's answer in 1.1 (line 3) is right, and it has received nothing since. Look at what replica 1 does between that answer and this one; if there is a server, also at what its acknowledgement of the replica's own change does." + stop(4, "replica 1 reads the list")
     + "||What the verdict on the whole trace is about|line 7, 0.2: replica 0 read the list, answered (nothing): this response lacks one element that replica 0 should have had "
     "by then|it lacks a||The list specifications|for the whole trace: strong and weak fail"),
    ("a delete that meets an insert which did not know it", 2, "0 ins a 0 : a|0 ins b 1 : a b|0 ins c 2 : a b c|1 recv 0 3|1 read : a b c|1 del a : b c|"
     "0 ins d 2 : a b d c|1 recv 0 4|1 read : b c d",
     "When replica 0 inserted [d] (0.4, line 9), it had [c] already, and put [d] before it. That order must hold everywhere, but 1.3 (line 11) shows [d] behind [c]. Look at the message that replica 0 made for that insert, and at where replica 1 placed it in line 10. Often the clock that decides between inserts does not advance when changes arrive. A change may bring several elements: then the clock must go above the last element's number. Or the neighbour is not found. Or elements are stored in runs (blocks of several), and a run is split at a wrong offset (the offset must count deleted elements too).|If the editor "
     "sends positions, the position of d was perhaps not adjusted for the delete of a by 1.2 (line 8), which replica 1 knew and the author of d did not." + stop(10, "replica 1 applies 0.4", 6)),
    ("a delete that becomes nothing beside an insert that its author did not know", 2, "0 ins a 0 : a|1 recv 0 1|1 read : a|0 del a :|"
     "1 ins b 0 : b a|1 recv 0 2|1 read : b a",
     "It looks as if 0.2 (line 6) was not applied at replica 1: lost, or held back, or `received` is called before the change is applied.|"
     "If the editor sends positions, the position of 0.2 was perhaps not adjusted for the insert of b by 1.2 (line 7), which the author of 0.2 "
     "had not seen."),
    ("a delete of one of two that were inserted at one place", 2, "0 ins a 0 : a|0 del a :|1 ins b 0 : b|1 recv 0 1|1 read : a b|1 recv 0 2|1 read : a",
     "It looks as if 0.2 (line 4), applied at replica 1, deleted b instead of a: look at how a replica that applies a delete finds the element, and at whether the recorder "
     "writes the name of the element that was really deleted.|If the editor sends positions, the position of 0.2 was perhaps not adjusted for the insert of b by 1.1 (line 5), which the author of 0.2 had not seen. b was inserted at the same place as a concurrently: check also that every replica puts the same one first."),
    ("doubled", 2, "0 ins a 0 : a|0 ins b 1 : a b|1 ins b 0 : b",
     "doubled: 0.2 and 1.1 insert the same name, b. An element is known by its name, so nothing else was judged.|"
     "line 4 of the trace, 0.2: replica 0 inserted b at position 1|line 5, 1.1: replica 1 inserted b at position 0||"
     "Where to look|"
     "Look at the recorder: each inserted element needs a name of its own, for ever. Two equal letters need two names. Each pasted "
     "element needs a new name; so does an element that comes back by undo, if it comes back as a new one.|"
     "If that name is the editor's own id, the editor made it twice: look at what makes ids. Usual causes: an id made from what can come again, such as a position or the "
     "length of the list; a clock that goes back when a change arrives, or at a restart; two replicas with the same number.||The list specifications|"
     "neither the strong nor the weak one was judged, since two elements have one name"),
]

# The cycle of three, and by then all has arrived everywhere. With it other entries, and what the first of the words say where weak is enough.
ALL_ARRIVED = f"{THREE_WAY}|1 recv 0 2|1 recv 2 1|1 read : b a|2 recv 0 2|2 recv 1 1|2 read : b a"
ALONE = "weak holds, strong doesn't: this passes, since only the weak list specification is asked for. Nothing needs mending. Why the strong one fails: "
FAILS_WEAK = [
    # Where strong failed before, the session went wrong where weak fails.
    ("opposite orders after the cycle", f"{THREE_WAY}|1 recv 0 2|1 recv 2 1|1 read : a b|2 recv 0 2|2 recv 1 1|2 read : a b", "refused 2: ", [
        "When it showed", "line 14 of the trace, 1.2: replica 1 read the list. Up to line 13 the weak specification holds; with line 14 the verdict is `refused 2`",
        "before it: replica 1's 1.1 (line 6) answered a x, which agrees with all responses up to then; since then it received 0.2 (line 12), 2.1 (line 13)",
        "[a] before [b]: line 14, 1.2: replica 1 read the list, answered [a] [b]",
        "[b] before [a]: line 11, 0.3: replica 0 read the list, answered [b] [a]", "strong and weak fail"]),
    ("a lost element after the cycle", f"{THREE_WAY}|1 recv 0 2|1 recv 2 1|1 read : b|0 read : b", "contents 1.2: ", [
        "When it went wrong", "line 14 of the trace, 1.2: replica 1 read the list. Up to line 13 the weak specification holds; with line 14 the verdict is `contents 1.2`",
        "the first 14 lines are enough to show it (`head -14`)"]),
    ("a wrong position after the cycle", f"{THREE_WAY}|2 ins c 0 : x c b|0 read : b", "position 2.2: ", [
        "When it went wrong", "line 12 of the trace, 2.2: replica 2 inserted c at position 0. Up to line 11 the weak specification holds; with line 12 the verdict is "
        "`position 2.2`", "asked for: position 0; the answer has [x] there"]),
    ("a name twice", "0 ins a 0 : a|1 ins a 0 : a", "doubled: ", ["neither the strong nor the weak one was judged, since two elements have one name"])]

FIRST = ["First of all", "this trace has no recv line: `received` was never called, so no replica has heard of another; call it after each change that is applied"]
# How many replicas, the entries, and whether this is said of it before all else.
UNHEARD_OF = [
    (2, "0 ins a 0 : a|1 read : a", True), (3, "0 ins a 0 : a|2 ins a 0 : a", True), (2, "0 ins a 0 : a|0 read :|1 read :", True),
    (2, "0 ins a 0 : a|0 ins b 0 : a b|1 read :", True), (2, "0 ins a 0 : a|0 ins b 1 : a b|1 read :|0 read : b a", True),
    (2, "0 ins a 0 : a|1 read :", False), (1, "0 ins a 0 : a|0 read :", False), (2, "0 ins a 0 : a|0 read :", False),
    (2, "0 ins a 0 : a|1 recv 0 1|1 read :", False), (3, "0 ins a 0 : a|1 recv 0 1|2 read : a", False),
]
# How many replicas, the entries, and of a delete that seems to have deleted another element what is said first of where to look.
WRONG_DELETES = [
    (2, "0 ins a 0 : a|0 ins b 1 : a b|1 recv 0 2|1 read : a b|0 del a : b|1 recv 0 3|1 read : a", "It looks as if 0.3 (line 7), applied at "
     "replica 1, deleted b instead of a: "),
    (2, "0 ins a 0 : a|0 del a :|0 ins b 0 : b|1 recv 0 3|1 read : a", "It looks as if 0.2 (line 4), applied at replica 1, deleted b instead of a: "),
    (1, "0 ins a 0 : a|0 ins b 1 : a b|0 del a : a", "It looks as if 0.3 (line 5) deleted b instead of a: "),
    (2, "0 ins a 0 : a|0 ins b 1 : a b|1 recv 0 2|1 del a : b|0 del a : a", "It looks as if 0.3 (line 7) deleted b instead of a: "),
    (2, "0 ins a 0 : a|0 ins b 1 : a b|1 recv 0 2|1 read : a b|0 del a : b|1 recv 0 3|1 view :|1 read : a", "It looks as if 0.3 (line 7), applied "
     "at replica 1, deleted b instead of a: "),
    (1, "0 ins a 0 : a|0 ins b 1 : a b|0 del a : b|0 read : a", ""),  # deleted for the response before, which is right
    (2, "0 ins a 0 : a|0 ins b 1 : a b|1 recv 0 2|1 del b : a|0 del a : a", ""),  # the other one is deleted too, elsewhere
    (1, "0 ins a 0 : a|0 ins b 1 : a b|0 ins c 2 : a b c|0 del a : a", ""),
    (1, "0 ins a 0 : a|0 ins b 1 : a b|0 del a : a a", ""),
    (1, "0 ins a 0 : a|0 ins b 1 : a b|0 del a : a q", ""),
    (1, "0 ins a 0 : a|0 ins b 1 : a b|0 del a :", ""),
    (1, "0 ins a 0 : a|0 del a : a", ""),
    (2, "0 ins a 0 : a|1 ins b 0 : b|0 read : b", ""),  # it has not arrived
    (2, "0 ins b 0 : b|1 ins a 0 : a|0 del a : a", ""),  # nor what it deletes
]

# Texts that do not read: the words of the fault, and a line of what is said of it.
FAULTS = [
    (b"", "line 1: header", "line 1 is missing"),
    (b"trace 1\r\nreplicas 1\r\n", "line 1: header", "the line ends with CR LF, where a trace has LF alone"),
    (b"trace 3\nreplicas 1\n", "line 1: header", "the first line of a trace is `trace 1`, or `trace 2` where it may have views, and nothing else"),
    (b"trace 1\nreplicas 1\n0 view :\n", "line 3: shape",
     "a trace of version 1 has no views: line 1 is `trace 2` where there are some"),
    (b"trace 2\nreplicas 1\n0 view\n", "line 3: shape",
     "the colon between the operation and its response is missing, or not a word by itself"),
    (b"trace 1\nreplicas 17\n", "line 2: replicas", "the second line is `replicas R`, with R from 1 to 16"),
    (b"trace 1\nreplicas 1\n0 read :", "line 3: cut", "line 3 is: 0 read :"),
    (b"trace 1\nreplicas 1\n0 read\n", "line 3: shape",
     "the colon between the operation and its response is missing, or not a word by itself"),
    (b"trace 1\nreplicas 1\n0 add a 0 : a\n", "line 3: shape", "`add`, the second word, is not `ins`, `del`, `read`, `view` or `recv`"),
    (b"trace 1\nreplicas 1\n0  read :\n", "line 3: shape", "there is a blank too many: two together, or one at an end of the line"),
    (b"trace 1\nreplicas 1\n01 read :\n", "line 3: shape",
     "`01`, the first word, is not a number (digits without leading zeros, at most 4294967295)"),
    (b"trace 1\nreplicas 1\n0 ins a,1 0 : a,1\n", "line 3: shape",
     "`a,1`, after `ins`, is not a name (1 to 32 letters, digits, `_`, `-` or `.`)"),
    (b"trace 1\nreplicas 1\n0 ins a first : a\n", "line 3: shape",
     "`first` stands where the position belongs, behind the element. A position is a number (digits without leading zeros, at most 4294967295)"),
    (b"trace 1\nreplicas 1\n0 read : a@1\n", "line 3: shape",
     "`a@1`, in the response, is not a name (1 to 32 letters, digits, `_`, `-` or `.`)"),
    (b"trace 1\nreplicas 1\n0 read : \xc3\xa4\n", "line 3: shape",
     "byte 10 of the line is \\xc3, which no word may have: words are of ASCII"),
    (b"trace 1\nreplicas 1\n0 read : \xc3\xa9\n", "line 3: shape", "line 3 is: 0 read : \\xc3\\xa9"),
    (b"trace 1\nreplicas 1\n0 read : \xc0\n", "line 3: shape", "line 3 is: 0 read : \\xc0"),
    (b"trace 1\nreplicas 1\n0 read : \\xc0\n", "line 3: shape", "line 3 is: 0 read : \\x5cxc0"),
    (b"trace 1\nreplicas 1\n0 read : \\xc0\n", "line 3: shape",
     "`\\x5cxc0`, in the response, is not a name (1 to 32 letters, digits, `_`, `-` or `.`)"),
    (b"trace 1\nreplicas 2\n0 ins a 0 : a\n1 recv 0 0\n", "line 4: shape",
     "after `recv` stand a replica's number and that of its operation, from 1, and nothing else"),
    (b"trace 1\nreplicas 1\n1 read :\n", "line 3: no such replica",
     "line 2 says 1 replicas, and they count from 0: their numbers are below 1"),
    (b"trace 1\nreplicas 2\n0 ins a 0 : a\n1 recv 0 2\n", "line 4: not yet, have 1",
     "replica 0 has 1 operations in the lines before, and operation 2 is not among them"),
    (b"trace 1\nreplicas 2\n0 ins a 0 : a\n0 recv 0 1\n", "line 4: own receipt",
     "a replica receives what others did: it has its own operations without a receipt"),
    (b"trace 1\nreplicas 1\n" + b"0 read :\n" * 16385, "line 16387: entries full",
     "a replica has at most 16,384 entries, receipts counted: record shorter sessions, or fewer reads"),
]

# Entries of millions of names, each with what stands behind these, and what is said of it.
MILLIONS = [
    ("0 read :", " b@", "the line is too long to be looked at whole: nothing is wrong with the words in its first 1,000,000 bytes, and of the whole "
     "line the program says `shape`"),
    ("0 reads :", "", "`reads`, the second word, is not `ins`, `del`, `read`, `view` or `recv`"),
    ("0 ins a@ 0 :", "", "`a@`, after `ins`, is not a name (1 to 32 letters, digits, `_`, `-` or `.`)"),
    ("0 view :", " b@", "a trace of version 1 has no views: line 1 is `trace 2` where there are some"),
    ("0 read : " + "a " * 499_000 + "b@ b", "", "`b@`, in the response, is not a name (1 to 32 letters, digits, `_`, `-` or `.`)"),
    ("0 read : " + "a " * 499_000 + " b", "", "there is a blank too many: two together, or one at an end of the line"),
    ("0 read : " + "a " * 499_000 + "\t", "", "byte 998010 of the line is \\x09, which no word may have: words are of ASCII"),
]
NAMES = 4_000_000
MOST_SECONDS, MOST_MEGABYTES = 2, 60  # of processor and of memory, for any of these

CRLF = "the line ends with CR LF, where a trace has LF alone"
MARK = "the file begins with a byte order mark, and a trace has none"
UTF16 = "the file is UTF-16, and a trace is ASCII"
RIGHT = b"trace 1\nreplicas 1\n0 read :\n"
# By name, files that hold this trace otherwise than as a trace is written, and what is said of that first.
MENDED = [
    ("lines.trace", RIGHT.replace(b"\n", b"\r\n"), [CRLF]),
    ("third line.trace", b"trace 1\nreplicas 1\n0 read :\r\n", [CRLF]),
    ("mark.trace", b"\xef\xbb\xbf" + RIGHT, [MARK]),
    ("mark's lines.trace", b"\xef\xbb\xbf" + RIGHT.replace(b"\n", b"\r\n"), [MARK, CRLF]),
    ("wide.trace", b"\xff\xfe" + RIGHT.decode().encode("utf-16-le"), [UTF16]),
    ("wide lines.trace", b"\xfe\xff" + RIGHT.replace(b"\n", b"\r\n").decode().encode("utf-16-be"), [UTF16, CRLF]),
]
# Files that are something else, and what is said of them first.
NO_TRACES = [
    (b"", "the file is empty"),
    ((ROOT / "examples" / "libinfinity_three_way_cycle.cert").read_bytes(),
     "the file is a certificate, as `cert` writes it: give its trace instead"),
    (b"cert 1\naccepted\norder :\n", "the file is a certificate, as `cert` writes it: give its trace instead"),
    (b"\x89PNG\r\n\x1a\n\0\0\0\rIHDR", "the file is binary, and a trace is lines of ASCII"),
    (b"\x7fELF\x02\x01\x01\0\0\0", "the file is binary, and a trace is lines of ASCII"),
    (gzip.compress(b"trace 1\nreplicas 1\n"), "the file is compressed: unpack it first"),
]

# What another program does, as a shell says it, and how it is told that it ended.
KILLED = "kill -9 $$"
OTHERS = [("echo hello", "0"), ("exit 0", "0"), ("echo '[]'", "0"), ("echo 5; exit 1", "1"), ("echo '{\"a\": 1}'", "0"),
          ("printf '\\377'", "0"), ("echo 'usage: other' >&2; echo 'or so' >&2; exit 2", "2: usage: other"), ("exit 3", "3")]

# By planted bug: how many seeds, how many sessions fail at least, and what the words of a failing one must have one of. The gallery's table has
# the bugs in this order.
PLANTED = {
    "tombstone": (150, 50, ["beside deleted elements"]),
    "tie": (100, 50, ["order of concurrent inserts", "rule that orders concurrent inserts", "That order must hold everywhere"]),
    "clock": (300, 20, ["decides by numbers (a clock, ids) which of two inserts", "the clock that decides between inserts"]),
    "mapping": (150, 40, ["perhaps not adjusted for the delete", "perhaps not adjusted for the insert"]),
    "unmoved": (80, 40, [" was perhaps not adjusted for", "was not adjusted for an insert", "was not adjusted for the insert"]),
    "behind": (80, 40, ["order of concurrent inserts", " concurrently: check also that ", "which were inserted at one place concurrently"]),
    "twice": (500, 10, ["was already deleted there, by"]),
    "overtaking": (100, 50, ["overtook it in line"]),
    "none": (60, 0, []),
    "none_behind_server": (60, 0, []),
}

# Where the kind of the editor is known, other words that name a planted bug; and by kind the causes, by name, that only other kinds have.
OF_KIND = {"mapping": ["not adjusted for the delete", "not adjusted for the insert"]}
OF_OTHERS = {"positions": {"identifiers", "between", "behind unknown", "numbers", "lost neighbour", "beside gone", "beside deleted"},
             "neighbours": {"identifiers", "positions", "weak alone", "rebased"}}

# By planted bug by which changes are lost: how many seeds, how many sessions fail at least, and of how many of these the words name one.
LOST_MESSAGES = {"lost": (150, 60, 1.0), "dropped": (150, 80, 0.97)}

NO_INSERT = ", which no line inserts, so nothing was there to delete: the name is wrong, or its insert was not recorded"
UNHEARD = ("no receipt brings it an insert or a delete from there, so nothing shows how it applies these. At the end of a session let "
           "everyone receive everything, and then read the list")
IT, THEY = "Unless it was still on its way, it was lost or is held back", "Unless they were still on their way, they were lost or are held back"
# By name: how many replicas, the entries of an accepted recording, and what is warned of, a line each.
WARNED = [
    ("nothing recorded", 3, "", "nothing was recorded: the trace has no entry, so the verdict says nothing about your editor"),
    ("a replica without an entry", 3, "0 ins a 0 : a|2 recv 0 1|2 read : a",
     "replica 1 has no entry: nothing that it showed is judged"),
    ("a replica with receipts alone", 2, "0 ins a 0 : a|1 recv 0 1",
     "replica 1 has receipts, but no operation: nothing that it showed is judged"),
    ("a delete of what nothing inserts", 1, "0 ins a 0 : a|0 del A : a|0 del a :", "line 4, 0.2: replica 0 deleted `A`" + NO_INSERT),
    ("seven of them", 2, "1 read :|" + "|".join(f"0 del a{i} :" for i in range(7)) + "|1 recv 0 7|1 read :",
     "|".join(f"line {i + 4}, 0.{i + 1}: replica 0 deleted `a{i}`" + NO_INSERT for i in range(5))
     + "|and 2 more deletes of elements that no line inserts"),
    ("an insert past the end", 1, "0 ins a 0 : a|0 ins b 2 : a b|0 ins c 2 : a b c|0 ins d 4294967295 : a b c d",
     f"line 4, 0.2: replica 0 inserted b at position 2, past the end of a list of length 1, so it counts as the end: is position 2 right?|"
     f"line 6, 0.4: replica 0 inserted d at position 4294967295, past the end of a list of length 3, so it counts as the end: is position 4294967295 right?"),
    ("two that never hear of one another", 2, "0 ins a 0 : a|1 ins b 0 : b|0 read : a|1 read : b",
     f"the last lists of replicas 0 and 1 differ|replica 0 never hears of replica 1: {UNHEARD}|replica 1 never hears of replica 0: {UNHEARD}"),
    ("one that never hears of three others", 4, "0 ins a 0 : a|1 del a :|1 recv 0 1|2 ins c 0 : c|2 recv 1 1|2 recv 0 1|0 recv 2 1|"
     "0 recv 1 1|1 recv 2 1|3 read :",
     f"replica 0 shows no list after it received 2.1 (in line 9) and 1.1 (in line 10): {UNSHOWN}|"
     f"replica 1 shows no list after it received 0.1 (in line 5) and 2.1 (in line 11): {UNSHOWN}|"
     f"replica 2 shows no list after it received 1.1 (in line 7) and 0.1 (in line 8): {UNSHOWN}|"
     f"replica 3 never hears of replicas 0, 1 and 2: {UNHEARD}"),
    ("one that hears of a read alone", 2, "0 read :|1 recv 0 1|1 read :|0 ins a 0 : a",
     f"the last lists of replicas 0 and 1 differ|replica 1 never hears of replica 0: {UNHEARD}"),
    ("all hear by way of a third", 3, "0 ins a 0 : a|2 recv 0 1|2 read : a|1 ins b 0 : b|1 recv 2 1|2 recv 1 1|2 read : b a|0 recv 2 2|"
     "0 read : b a|1 read : b a", ""),
    ("one that hears at the end", 2, "0 ins a 0 : a|1 read :|1 recv 0 1",
     f"replica 1 shows no list after it received 0.1 (in line 5): {UNSHOWN}"),
    ("one that hears at the end, and shows a part", 2, "0 ins a 0 : a|1 recv 0 1|1 view :",
     f"replica 1 shows no list but a view after it received 0.1 (in line 4): {UNSHOWN}"),
    ("a receipt before a view and one behind it", 2, "0 ins a 0 : a|1 read :|1 recv 0 1|1 view : a|0 ins b 0 : b a|1 recv 0 2",
     f"replica 1 shows no list after it received 0.1 (in line 5) and 0.2 (in line 8): {UNSHOWN}"),
    ("a list between a receipt and a view", 2, "0 ins a 0 : a|1 recv 0 1|1 read : a|1 view : a", ""),
    ("one that reads is not heard of", 2, "0 ins a 0 : a|1 recv 0 1|1 read : a", ""),
    ("a delete before its insert", 2, "0 ins a 0 : a|1 del a :|1 recv 0 1|1 read :|0 recv 1 1|0 read :", ""),
    ("an insert that never arrives", 2, "0 ins a 0 : a|1 recv 0 1|1 read : a|0 ins b 1 : a b|1 read : a",
     f"the last lists of replicas 0 and 1 differ: 0.2 (line 6) never arrived at replica 1 in this recording. {IT}"),
    ("a delete that never arrives", 2, "0 ins a 0 : a|1 recv 0 1|0 del a :|1 read : a",
     f"the last lists of replicas 0 and 1 differ: 0.2 (line 5) never arrived at replica 1 in this recording. {IT}"),
    ("an insert and its delete that never arrive", 2, "0 ins a 0 : a|1 recv 0 1|0 ins b 1 : a b|0 del b : a|1 read : a",
     f"in this recording 0.2 (line 5) and 0.3 (line 6) never arrived at replica 1. {THEY}"),
    ("changes that never arrive, at two replicas", 3, "0 ins a 0 : a|1 recv 0 1|2 recv 0 1|1 read : a|2 read : a|0 ins b 0 : b a|0 ins c 0 : c b a|"
     "0 ins d 0 : d c b a|0 ins e 0 : e d c b a|2 recv 0 3|2 read : c b a",
     "the last lists of replicas 0, 1 and 2 differ: 0.2 (line 8), 0.3 (line 9), 0.4 (line 10) and 1 more never arrived at replica 1; "
     f"0.4 (line 10) and 0.5 (line 11) never arrived at replica 2 in this recording. {THEY}"),
    ("one that makes nothing of what came last", 2, "0 ins a 0 : a|1 recv 0 1|1 read : a|0 ins b 1 : a b|0 read : a b|1 recv 0 3",
     f"replica 1 shows no list after it received 0.3 (in line 8): {UNSHOWN}"),
    ("one that makes nothing of what came last, and lacks another change", 3, "0 ins a 0 : a|1 recv 0 1|1 read : a|0 ins b 1 : a b|1 recv 0 2|2 recv 0 1|2 read : a|0 ins c 2 : a b c",
     f"replica 1 shows no list after it received 0.2 (in line 7): {UNSHOWN}|the last lists of replicas 0 and 2 differ|"
     f"in this recording 0.3 (line 10) never arrived at replica 1; 0.2 (line 6) and 0.3 (line 10) never arrived at replica 2. {THEY}"),
    ("one that receives what it has", 2, "0 ins a 0 : a|1 recv 0 1|1 read : a|0 read : a|1 recv 0 2|1 recv 0 1", ""),
    ("lists in other orders", 2, "0 ins a 0 : a|0 ins b 1 : a b|1 recv 0 2|1 read : a b", ""),
]
# What the file beside a trace of five lines holds, and what is warned of; `{}` is that file's name.
BESIDE = [
    (b"5\n", ""),
    (b"5", ""),
    (b"5\n3 a.py:1\n7\n", ""),
    (b"5\n\xff\0", ""),
    (b"7\n5 a.py:1\n", "the trace may have been cut at a line's end: it has 5 lines, and {} says that 7 were saved"),
    (b"\n5\n", "{} holds no line count, so nothing says whether the trace is whole"),
    (b"5 a.py:1\n", "{} holds no line count, so nothing says whether the trace is whole"),
    (b"7\n", "the trace may have been cut at a line's end: it has 5 lines, and {} says that 7 were saved"),
    (b"4\n", "the trace has 5 lines, and {} says that 4 were saved: is that file of another trace?"),
    (b"", "{} holds no line count, so nothing says whether the trace is whole"),
    (b"\xff\n", "{} holds no line count, so nothing says whether the trace is whole"),
    (b"-5\n", "{} holds no line count, so nothing says whether the trace is whole"),
    (b"9" * 5000, "the trace may have been cut at a line's end: it has 5 lines, and {} says that " + "9" * 64 + " were saved"),
]

# A trace whose explanation names lines 3, 4, 5 and 7, and not 6; and by name what the file beside it holds, and the section of places.
PLACED = "0 ins a 0 : a|1 recv 0 1|1 read : a|0 read : a|1 read :"
PLACES = [
    ("each line", "7\n3 t.py:31, called from t.py:12\n4 t.py:13\n5 t.py:14\n6 t.py:15\n7 t.py:16\n",
     "line 3: t.py:31, called from t.py:12|line 4: t.py:13|line 5: t.py:14|line 7: t.py:16"),
    ("some of one place", "7\n3 r.py:1\n4 t.py:13\n5 r.py:1\n6 r.py:1\n7 r.py:1\n", "lines 3, 5 and 7: r.py:1|line 4: t.py:13"),
    ("some, in another order, and one twice", "7\n7 b.py:2\n3 a.py:1\n3 c.py:9\n", "line 3: a.py:1|line 7: b.py:2"),
    ("no line that is named", "7\n6 t.py:15\n", ""),
    ("the number alone", "7\n", ""),
    ("no end of the number", "7", ""),
    ("of a shorter trace", "6\n3 a.py:1\n", ""),
    ("of a longer trace", "8\n3 a.py:1\n", ""),
    ("no number", "3 a.py:1\n4 a.py:2\n", ""),
    ("a last line without an end", "7\n3 a.py:1\n4 a.py:1", "line 3: a.py:1"),
    ("garbage between two", "7\n3 a.py:1\n\n4\n4 \nx a.py:1\n04 a.py:1\n-4 a.py:1\n+4 a.py:1\n4\ta.py:1\n4 \x1b[31ma.py:1\n4 a\0\n\xb2 a.py:1\n4  \u2028\n"
     + "4 " + "x" * 5000 + "\n" + "9" * 5000 + " a.py:1\n0 a.py:1\n2 a.py:1\n8 a.py:1\n7 b.py:2\n", "line 3: a.py:1|line 7: b.py:2"),
    ("letters of all kinds", "7\n3 pages/[id] line 4, or (line 5)/\u00e4<b>&amp;\".py:1\n", "line 3: pages/[id] line 4, or (line 5)/\u00e4<b>&amp;\".py:1"),
]
# By what stands beside a trace of seven lines: the statement for a debugger that stops before its last line, in that language.
# A session whose end `delivered` wrote, in lines 9 to 11: replica 1 never applied 0.2 and 0.3, and shows nothing wrong before.
UNDELIVERED = "0 ins a 0 : a|1 recv 0 1|1 read : a|0 ins b 1 : a b|0 del a : b|0 read : b|0 read : b|1 recv 0 3|1 read : a"
UNDELIVERED_WORDS = """Missing
[b] inserted by 0.2 (line 6). Replica 1 should have had 0.2 since line 10 (1 recv 0 3, written by the call `delivered`, which says that everything has arrived everywhere): 0.3 is a later operation of the same author, so 0.3 must not arrive before 0.2
[b] is never deleted

Extra
[a] inserted by 0.1 (line 3), which arrived at replica 1 in line 4 (1 recv 0 1)
[a] deleted by 0.3 (line 7), which arrived at replica 1 in line 10 (1 recv 0 3, written by the call `delivered`)

Where to look
It looks as if 0.2 (line 6) never reached replica 1, though the call `delivered` (line 10) says that everything has arrived. \
Perhaps 0.2 was lost, or is held back for ever, or `delivered` was called too early. Later changes that perhaps wait for 0.2: 0.3 (line 7). Look at what keeps changes waiting.

In a debugger
stop before line 6 of the trace, where replica 0 inserts b, and follow 0.2 to replica 1.
In Python, put this code right before the call that makes the editor apply a change, local or remote. It stops when 5 lines have been recorded.
if recording.lines() == 5: breakpoint()

The list specifications
"""
# Such sessions in which the element that is told first is wrong by a change behind another one: the replicas, the entries, the lines that `delivered` wrote, and the words.
UNDELIVERED_LATER = {
    "an insert behind one that is deleted again": (2, "0 ins a 0 : a|1 recv 0 1|1 read : a|0 ins x 1 : a x|0 del x : a|0 ins b 1 : a b|0 read : a b|1 recv 0 5|1 read : a", "9 11",
        "It looks as if 0.4 (line 8) never reached replica 1, though the call `delivered` (line 10) says that everything has arrived. 0.4 may be waiting for 0.2 (line 6), an earlier change by the same "
        "author: nothing but `delivered` says that 0.2 arrived at replica 1, so 0.2 may be missing too. Look first at 0.2. Perhaps 0.2 was lost, or is held back for ever, or `delivered` was called too early. Of another "
        "change, too, nothing but `delivered` says that it arrived there: 0.3 (line 7). Look at what keeps changes waiting.\n\nIn a debugger\n  stop before line 6 of the trace, where replica 0 inserts x, and follow "
        "0.2 to replica 1.\n"),
    "an insert behind a delete": (2, "0 ins a 0 : a|1 recv 0 1|1 read : a|0 del a :|0 ins b 0 : b|0 read : b|1 recv 0 3|1 read : a", "8 10",
        "It looks as if 0.3 (line 7) never reached replica 1, though the call `delivered` (line 9) says that everything has arrived. 0.3 may be waiting for 0.2 (line 6), an earlier change by the same "
        "author: this response shows that 0.2 was not applied at replica 1 either. Look first at 0.2. Perhaps 0.2 was lost, or is held back for ever, or `delivered` was called too early. Look at what keeps changes "
        "waiting.\n\nIn a debugger\n  stop before line 6 of the trace, where replica 0 deletes a, and follow 0.2 to replica 1.\n"),
    "an insert behind two of other authors": (4, "0 ins a 0 : a|1 recv 0 1|1 read : a|3 ins z 0 : z|3 del z :|2 ins x 0 : x|2 del x :|0 recv 2 2|0 ins b 1 : a b|1 recv 2 2|1 recv 0 2|1 recv 3 2|1 read : a", "12 15",
        "It looks as if 0.2 (line 11) never reached replica 1, though the call `delivered` (lines 12, 13 and 14) says that everything has arrived. 0.2 may be waiting for 2.1 (line 8), which its author "
        "already had: nothing but `delivered` says that 2.1 arrived at replica 1, so 2.1 may be missing too. Look first at 2.1. Perhaps 2.1 was lost, or is held back for ever, or `delivered` was called too early. Of "
        "other changes, too, nothing but `delivered` says that they arrived there: 3.1 (line 6), 3.2 (line 7) and 2.2 (line 9). Look at what keeps changes waiting.\n\nIn a debugger\n  stop before line 8 of the "
        "trace, where replica 2 inserts x, and follow 2.1 to replica 1.\n"),
}
UNDELIVERED_LATER["a delete behind an insert that is deleted again"] = (2, "0 ins a 0 : a|1 recv 0 1|1 read : a|0 ins x 1 : a x|0 del x : a|0 del a :|0 read :|1 recv 0 5|1 read : a", "9 11",
                                                                       UNDELIVERED_LATER["an insert behind one that is deleted again"][3])
STATEMENTS = [
    ("", "In Python, put this code {}. It stops when 6 lines have been recorded.\n    if recording.lines() == 6: breakpoint()"),
    ("language python\n", "In Python, put this code {}. It stops when 6 lines have been recorded.\n    if recording.lines() == 6: breakpoint()"),
    ("language javascript\n", "In JavaScript, put this code {}. It stops when 6 lines have been recorded.\n    if (recording.lines() === 6) debugger"),
    ("language rust\n", 'In Rust, put this code {}. It stops when 6 lines have been recorded.\n    if recording.lines() == 6 {{ eprintln!("here") }} (on three lines, and set a breakpoint on the middle one)'),
    ("language c\n", "In C, put this code {}. It stops when 6 lines have been recorded.\n    if (domepeeler_lines(recording) == 6) raise(SIGTRAP);"),
    ("language emacs-lisp\n", "In Emacs Lisp, put this code {}. It stops when 6 lines have been recorded.\n    (when (= (domepeeler-lines recording) 6) (debug))"),
    ("language cobol\n", "In Python, put this code {}. It stops when 6 lines have been recorded.\n    if recording.lines() == 6: breakpoint()"),
    ("language rust\nlanguage c\n", 'In Rust, put this code {}. It stops when 6 lines have been recorded.\n    if recording.lines() == 6 {{ eprintln!("here") }} (on three lines, and set a breakpoint on the middle one)'),
]
# By language the statement before the second of two receipts, in lines 5 and 6, that stand together.
FOR_TWO = {
    "python": "if recording.lines() in (4, 5): breakpoint()", "javascript": "if ([4, 5].includes(recording.lines())) debugger",
    "rust": 'if [4, 5].contains(&recording.lines()) { eprintln!("here") } (on three lines, and set a breakpoint on the middle one)',
    "c": "if (domepeeler_lines(recording) == 4 || domepeeler_lines(recording) == 5) raise(SIGTRAP);",
    "emacs-lisp": "(when (memq (domepeeler-lines recording) '(4 5)) (debug))",
}
WHERE = "right before the call that reads the list"
# What stands beside a trace, and the section of the user's notes.
NOTES = [
    ("note seed 17\n", "seed 17"), ("note seed 17\nnote [b] line 5, of <b>\n", "seed 17|[b] line 5, of <b>"), ("note \n", ""), ("note\n", ""),
    ("note a\x1b[31m\n", ""), ("note " + "x" * 5000 + "\n", ""), ("".join(f"note {i}\n" for i in range(25)), "|".join(map(str, range(20)))),
]

# By name: how many replicas, the entries, and on the page what letters stand for, and those of each operation.
LETTERED = [
    ("accepted", 2, "0 ins one 0 : one|0 ins two 0 : two one|1 ins a 0 : a|1 recv 0 2|1 read : two a one|1 del two : a one",
     "B two, C one", {"line-3": "C", "line-4": "BC", "line-5": "a", "line-7": "BaC", "line-8": "aC"}),
    ("names of one character", 2, "0 ins a 0 : a|1 recv 0 1|1 read : a", "", {}),
    ("a fault first", 1, "0 ins first 0 : first|0 ins lost 1 : first lost|0 read : other first|0 read :",
     "A lost, B other, C first", {"line-3": "C", "line-4": "CA", "line-5": "BC", "line-6": ""}),
    ("too many for all", 2, "|".join(f"0 ins e{i} {i} : {' '.join(f'e{j}' for j in range(i + 1))}" for i in range(28))
     + "|0 ins end 28 : " + " ".join(f"e{j}" for j in range(28)) + " end|1 recv 0 29|1 view : end e0",
     "A e0, B end", {f"line-{i + 3}": "A" + "\u2026" * (i > 0) for i in range(28)} | {"line-31": "A\u2026B", "line-33": "BA"}),
]

# The recordings of the plain test of Yjs: what has its network hand on the newest first, and lines of the explanation.
YJS_TOLD = [
    ("page.trace", "", "accepted: all 13 responses fit one order of the elements.|t0-2 h0-0 i0-1 s1-0"),
    ("page_newest_first.trace", "1", "accepted: all 13 responses fit one order of the elements.|t0-2 h0-0 i0-1 s1-0"),
]

# A list in which of two concurrent inserts at one place the one that arrives later comes first.
OWN_ENGINE = """
class Engine:
    def __init__(self, replica):
        self.items = []

    def names(self):
        return [name for name, shown in self.items if shown]

    def insert(self, name, position):
        return self.apply((name, self.names()[position - 1] if position else None))

    def delete(self, name):
        return self.apply((name,))

    def apply(self, message):
        names = [name for name, _ in self.items]
        if len(message) == 1:
            self.items[names.index(message[0])][1] = False
        else:
            self.items.insert(names.index(message[1]) + 1 if message[1] else 0, [message[0], True])
        return message
"""
# Modules that can't be used as an engine, and what is said; `{}` is the path.
OWN_ENGINES_REFUSED = [
    ("", "{} has no class Engine"),
    ("Engine = 5\n", "{} has no class Engine"),
    ("class Engine:\n    names = insert = len\n    apply = 5\n", "Engine of {} has no delete, apply"),
    ("class Engine\n", "{} can't be loaded: SyntaxError: expected ':' (mine {{0}}.py, line 1)"),
    ("raise ValueError('no\\nengine')\n", "{} can't be loaded: ValueError: no"),
    ("exit(5)\n", "{} can't be loaded: SystemExit: 5"),
]

HOSTILE = ["ins", "del", "read", "recv", "5", "line", "0", "-", ".", "--", "..", "__proto__", "lt", "amp", "NaN", "e-1", "x" * 32]


def text_of(replicas: int, entries: str) -> str:
    return written("".join(line + "\n" for line in ["trace 1", f"replicas {replicas}", *entries.split("|")] if line))


def explain(program: str, words: list, trace: bytes = b"") -> Ended:
    return FORKED.run(["--program", program, *words], trace)


def stand_in_order(lines: list, wanted: list) -> str | None:
    """The first of the wanted lines that does not stand after those before it."""
    left = iter(line.strip() for line in lines)
    return next((line for line in wanted if line not in left), None)


def words(tally: Tally, program: str) -> None:
    for name, replicas, entries, wanted in WORDS:
        trace = text_of(replicas, entries).encode()
        got = explain(program, ["-"], trace)
        missing = stand_in_order(got.out.decode().splitlines(), wanted.split("|"))
        tally.check(f"words: {name}", missing is None and not got.err, f"no `{missing}` in\n{got.out.decode()}{got.err}")
        is_debugged = got.out.split()[0].rstrip(b":") in (b"refused", b"contents", b"position")
        tally.check(f"in a debugger: {name}", (b"\nIn a debugger\n" in got.out) == is_debugged, got)
        wanted = run(program, ["verdict", "-"], trace).status if entries else 2  # of nothing that was recorded nothing was judged
        tally.check(f"status: {name}", got.status == wanted, got.status)


# Entries of a trace of two replicas, and words on receipts that must not be said of them.
UNSAID = [
    ("one receipt stands for two changes, and neither is applied", "0 ins a 0 : a|0 ins b 1 : a b|0 read : a b|1 recv 0 3|1 read :", "No receipt at"),
    ("the receipt that is missing is that of a delete of what is deleted", "0 ins a 0 : a|1 recv 0 1|1 read : a|1 del a :|0 del a :|0 ins b 0 : b|"
     "1 recv 0 3|1 read : b|0 ins c 1 : b c|1 recv 0 4|1 read : b c|0 ins d 2 : b c d|1 recv 0 5|1 read : b c", "was lost on its way"),
    ("the receipt comes later", "0 ins a 0 : a|0 ins b 1 : a b|0 ins c 2 : a b c|0 ins d 3 : a b c d|1 recv 0 1|1 read : a|1 recv 0 3|1 read : a c|"
     "1 recv 0 4|1 read : a c d|1 recv 0 2|1 read : a b c d", "was lost on its way"),
]


def unsaid(tally: Tally, program: str) -> None:
    for name, entries, words in UNSAID:
        got = explain(program, ["-"], text_of(2, entries).encode())
        tally.check(f"not said where {name}", got.out.startswith(b"contents 1.") and words.encode() not in got.out, got)


def arrivals_in(text: str, kind: str = "ins") -> dict:
    """By replica and element, the line of the receipt with which its insert, or its delete, came there: the session is played again, and
    each operation keeps what its replica knew behind it."""
    known, did, arrived = {}, {}, {}
    for number, line in enumerate(text.splitlines()[2:], 3):
        words = line.split()
        replica = words[0]
        mine, count = known.setdefault(replica, (set(), []))
        if words[1] == "recv":
            for element in did[words[2], int(words[3])] - mine:
                arrived[replica, element] = number
            mine |= did[words[2], int(words[3])]
            continue
        if words[1] == kind:
            mine.add(words[2])
        count.append(number)
        did[replica, len(count)] = set(mine)
    return arrived


def stops_of(text: str, report: dict) -> list:
    """What is to be said of the elements of a refusal's steps that came from others: (line, replica, element), each once."""
    arrived = arrivals_in(text)
    shown = [(step["shown"].split(".")[0], name) for step in report["steps"] for name in (step["from"], step["to"])]
    return sorted({(arrived[key], *key) for key in shown if key in arrived})


def neighbours_gone(text: str, report: dict) -> set:
    """The elements beside which one of these was put, and which were deleted where it arrived, before that."""
    gone, put = arrivals_in(text, "del"), {}
    for number, line in enumerate(text.splitlines()[2:], 3):
        words = line.split()
        if words[1] == "del":
            gone[words[0], words[2]] = min(number, gone.get((words[0], words[2]), number))
        elif words[1] == "ins":
            put[words[2]] = words[5:]
    found = set()
    for line, replica, element in stops_of(text, report):
        place = put[element].index(element)
        beside = put[element][max(place - 1, 0):place + 2]
        found |= {name for name in beside if gone.get((replica, name), line) < line}
    return found


def hidden_of(text: str, report: dict) -> list:
    """Which of a refusal's elements were put behind or before others that are gone in the first response of the steps that shows them so."""
    lines = text.splitlines()
    gone, put, at, counts = arrivals_in(text, "del"), {}, {}, Counter()
    for number, line in enumerate(lines[2:], 3):
        words = line.split()
        if words[1] != "recv":
            counts[words[0]] += 1
            at[f"{words[0]}.{counts[words[0]]}"] = number
        if words[1] == "del":
            gone[words[0], words[2]] = min(number, gone.get((words[0], words[2]), number))
        elif words[1] == "ins":
            put[words[2]] = words[5:]
    found, cycle = {}, {step["from"] for step in report["steps"]}
    for step in report["steps"]:
        for element in step["from"], step["to"]:
            place = put[element].index(element)
            sides = [("behind", name) for name in put[element][max(place - 1, 0):place]]
            sides += [("before", name) for name in put[element][place + 1:place + 2]]
            hidden = [f"{side} {name}" for side, name in sides if name not in cycle
                      and gone.get((step["shown"].split(".")[0], name), len(lines) + 1) <= at[step["shown"]]]
            if hidden:
                found.setdefault(element, (element, " and ".join(hidden), step["shown"]))
    return sorted(found.values())


def hidden_told(told: str) -> list:
    """What some lines of an explanation say of that."""
    return sorted(re.findall(r"^  (\S+) was put ((?:behind|before) .*)\. At (\d+\.\d+) ", told, re.MULTILINE))


def beside_told(told: str) -> list:
    """Of which elements some lines of an explanation say that they arrived beside deleted ones, which, and at which replica."""
    return sorted(re.findall(r"^  (\S+) was put ((?:behind|before) .*)\. When it arrived at replica (\d+) ", told, re.MULTILINE))


def stops_told(told: str) -> tuple:
    """What the last of some lines says of where elements arrived, as (line, replica, element), and whether it says nothing else: by element, in the order in
    which they came first."""
    last = told.splitlines()[-1].strip()
    if not re.match(r"\S+(, \S+)*( and \S+)? arrived (together )?at replica ", last):
        return [], True
    by, at = "; " if " and at replica " in last else ", ", r"at replica \d+ in line \d+"
    parts, found = re.findall(rf"(\S.*?)( arrived)?( together)? ({at}(?:, {at})*(?: and {at})?)(?:{by}|$)", last), []
    if by.join("".join(part[:3]) + " " + part[3] for part in parts) != last or len({part[3] for part in parts}) != len(parts):
        return [], False
    for place, (names, verb, together, where) in enumerate(parts):
        names, places = re.split(", | and ", names), re.findall(r"at replica (\d+) in line (\d+)", where)
        *before, end = [f"at replica {replica} in line {line}" for replica, line in places]
        if where != " and ".join(filter(None, [", ".join(before), end])) or bool(verb) != (place == 0) or bool(together) != (len(names) > 1):
            return [], False
        found += [[(int(line), replica, name) for replica, line in places] for name in names]
    lines = [[line for line, *_ in one] for one in found]
    is_in_order = [one[0] for one in lines] == sorted(one[0] for one in lines) and all(one == sorted(one) for one in lines)
    return sum(found, []), is_in_order and len({one[0][2] for one in found}) == len(found)


def said_first(tally: Tally, program: str) -> None:
    """Where several replicas did something and nothing is received, that is said first; and of a delete that seems to have
    deleted another element, that."""
    for replicas, entries, wanted in UNHEARD_OF:
        got = explain(program, ["-"], text_of(replicas, entries).encode())
        lines = [line.strip() for line in got.out.decode().splitlines()]
        tally.check(f"no receipts: {entries}", (lines[1:4] == ["", *FIRST]) == wanted and ("recv line" in got.out.decode()) == wanted, got)
    for replicas, entries, wanted in WRONG_DELETES:
        got = explain(program, ["-"], text_of(replicas, entries).encode())
        first, *others = paragraph(got.out.decode(), "Where to look").splitlines()
        is_said = bool(wanted) and first.startswith(f"  {wanted}") and bool(others) and bool(re.match("  If (that|none of these) is (not )?the cause: ", others[-1]))
        tally.check(f"wrong delete: {entries}", got.out.startswith(b"contents ") and is_said == bool(wanted)
                    and (is_said or " instead of " not in got.out.decode()), got)


def beginning(tally: Tally, program: str, text: str, report: dict, said: str) -> tuple:
    """The line with which a refused session went wrong is told where it is not the last one: the program accepts the lines before it,
    and refuses them with it. Where it reports other steps of these than of the whole, and another number, they are told. Answers the text up to
    that line, and the report on it."""
    told = paragraph(said, "When it showed")
    front, shown = said.partition("\nWhat the whole trace shows: ")[::2]
    lines = text.splitlines(keepends=True)
    last = int(re.match(r"  line (\d+) of the trace, ", told)[1]) if told else len(lines)
    before, behind = (json.loads(run(program, ["verdict", "--json", "-"], "".join(lines[:count]).encode()).out) for count in (last - 1, last))
    is_right = before["verdict"] == "accepted" and behind["verdict"] == "refused" and bool(told) == (last < len(lines))
    tally.check("refused: when it went wrong", is_right, f"{text}{report}\n{said}")
    wanted = [[(step["from"], step["to"]) for step in one["steps"]] for one in (behind, report)]
    is_other = behind["steps"] != report["steps"]
    wanted[1:] = wanted[1:] * (behind["k"] != report["k"])
    steps = [re.findall(r"^  \[(\S+)\] before \[(\S+)\]: ", half, re.MULTILINE) for half in (front, shown) if half]
    tally.check("refused: what it showed then, and the whole trace", steps == wanted, f"{text}{report}\n{said}")
    titles = [line for line in front.splitlines() if line.startswith("What the")]
    tally.check("refused: under which title", titles == ["What these responses show: a circle, which no order allows"], said)
    others = "the same verdict" if behind["k"] == report["k"] else f"another verdict, `refused {report['k']}`, which is explained below"
    first = f"Lines 1 to {last} are enough to show it." if behind["k"] == report["k"] else f"This fault comes first, in lines 1 to {last}: start with it."
    ending = f" {first} The whole trace has {others}."
    headline = said.splitlines()[0]
    tally.check("refused: the whole trace's number", (ending in headline if is_other else "This is what went wrong first" not in headline)
                and said.startswith(f"refused {behind['k']}: "), said)
    return "".join(lines[:last]), behind


def sooner(tally: Tally, program: str, text: str, report: dict, said: str) -> tuple:
    """A session with a fault is explained by its shortest beginning that is not accepted: all that is said is about that, and its line is
    told where it stands before the operations that the report names. Answers the report on that beginning, and whether there is such a
    line."""
    lines = text.splitlines(keepends=True)
    reports = (json.loads(run(program, ["verdict", "--json", "-"], "".join(lines[:count]).encode()).out) for count in range(3, len(lines) + 1))
    count, first = next((count, told) for count, told in enumerate(reports, 3) if told["verdict"] != "accepted")
    counts, named = Counter(), []
    for at, line in enumerate(lines[2:], 3):
        replica, kind = line.split()[:2]
        counts[replica] += kind != "recv"
        if kind != "recv" and f"{replica}.{counts[replica]}" in report.values():
            named.append(at)
    of_whole, of_first = (" ".join([one["verdict"], *(str(one[key]) for key in ("k", "at", "first", "again") if key in one)])
                          for one in (report, first))
    told = paragraph(said, "When it showed" if first["verdict"] == "refused" else "When it went wrong").splitlines()
    wanted = count < max(named)
    is_right = bool(told) and told[0].startswith(f"  line {count} of the trace, ") and (
        first["verdict"] == "refused" or told[1:] == [f"  the first {count} lines are enough to show it (`head -{count}`)"]) and told[0].endswith(f". Up to line {count - 1} the session is accepted; with line {count} the verdict is `{of_first}`")
    tally.check("a fault: when it went wrong", is_right if wanted else not told, f"{text}{report}\n{said}")
    headline, is_other = said.splitlines()[0], of_whole != of_first
    tally.check("a fault: its headline", headline.startswith(of_first.partition(" ")[0]) and headline.endswith(
        f" This fault comes first, in lines 1 to {count}: start with it. The whole trace has another verdict, `{of_whole}`, which is explained below.") == is_other
                and ("whole trace" in headline) == is_other, f"{text}{report}\n{said}")
    tally.check("a fault: what the whole trace names", bool(paragraph(said, "What the verdict on the whole trace is about")) == is_other,
                f"{text}{report}\n{said}")
    return first, wanted


def paragraph(said: str, title: str) -> str:
    """The lines of a section of an explanation."""
    return said.partition(f"\n{title}\n")[2].partition("\n\n")[0]


NOT_JUDGED = "domepeeler-explain: nothing was judged, since {} of the trace can't be read"


def called(fault: str) -> str:
    """The words on how the page of the formats calls a fault."""
    return f"  {ROOT / 'docs' / 'formats.md'} calls this fault `{re.search('line [0-9]+: ([a-z ]+)', fault)[1].strip()}`"


def faults(tally: Tally, program: str, folder: str) -> None:
    for trace, fault, said in FAULTS:
        got = explain(program, ["-"], trace)
        lines = got.err.decode().splitlines()
        own = run(program, ["verdict", "-"], trace).err.decode().rstrip("\n")
        tally.check(f"fault: {fault}", own.endswith(f": {fault}") and lines[0] == NOT_JUDGED.format(fault.partition(":")[0]) and lines[-1] == called(fault), lines)
        tally.check(f"fault: {fault}, {said}", said in [line.strip() for line in lines], lines)
        tally.check(f"fault: {fault}, status", got.status == 2 and not got.out, got)
    missing = f"{folder}/missing"
    tally.same("a missing file", explain(program, [missing]),
               Ended(2, b"", f"domepeeler-explain: cannot read {missing}: No such file or directory\n".encode()))
    good = f"{folder}/good"
    Path(good).write_text(text_of(1, "0 ins a 0 : a"))
    tally.same("no such program", run(EXPLAIN, ["--program", missing, good]),
               Ended(2, b"", f"domepeeler-explain: can't run {missing}, which --program names\n".encode()))
    tally.same("a program that answers nothing", run(EXPLAIN, ["--program", "/bin/false", good]),
               Ended(2, b"", b"domepeeler-explain: /bin/false printed no report that agrees with its status: is it domepeeler? It ended with status 1\n"))
    got = explain(program, ["--html", f"{folder}/no/such", good])
    tally.check("a page that can't be written", got.status == 2 and b"cannot write" in got.err and b"Traceback" not in got.err, got)


def millions_of_names(tally: Tally, program: str, folder: str) -> None:
    """A faulty line as long as can be is told of soon and in little memory, exactly where the fault stands in a long front of it."""
    path = Path(folder, "millions.trace")
    for begin, end, said in MILLIONS:
        path.write_text(f"trace 1\nreplicas 1\n{begin}{' a' * NAMES}{end}\n")
        got, seconds, megabytes = used([EXPLAIN, "--program", program, str(path)])
        own, shown, what, *_ = got.err.decode().splitlines()
        front, size = f"{begin} a a", len(begin) + 2 * NAMES + len(end)
        tally.check(f"millions of names: {said}", got.status == 2 and not got.out and own == NOT_JUDGED.format("line 3") and got.err.endswith(f"\n{called('line 3: shape')}\n".encode()) and what == f"  {said}"
                    and shown.startswith(f"  line 3 is: {front[:40]}") and shown.endswith(f".. ({size} bytes)"), (own, shown[-100:], what))
        tally.check(f"millions of names: {said}, in little time and memory", seconds < MOST_SECONDS and megabytes < MOST_MEGABYTES,
                    (seconds, megabytes))


def millions_of_lines(tally: Tally, program: str, folder: str) -> None:
    """Of a file beside a trace no more lines are looked at than a recorder writes, whatever its length."""
    path = Path(folder, "beside.trace")
    path.write_text(text_of(1, "0 ins a 0 : a|0 read :"))
    Path(f"{path}.lines").write_bytes(b"4\n4 t.py:7\n" + b"3 t.py:1\nnote x\n" * 4_000_000)
    got, seconds, megabytes = used([EXPLAIN, "--program", program, str(path)])
    tally.check("millions of lines beside a trace", got.status == 1 and b"line 4: t.py:7\n" in got.out and seconds < 2 and megabytes < 200, (got, seconds, megabytes))


def warned(got: Ended) -> list:
    """The lines of the section of warnings, which is the first one."""
    return [line.strip() for line in paragraph(got.out.decode(), "What this verdict may hide").splitlines()]


def warnings(tally: Tally, program: str, folder: str) -> None:
    """What an accepted recording may hide is said, and the status stays, unless not all was judged; another verdict hides nothing but a cut."""
    for name, replicas, entries, wanted in WARNED:
        trace = text_of(replicas, entries).encode()
        got = explain(program, ["-"], trace)
        tally.check(f"warnings: {name}", warned(got) == [line for line in wanted.split("|") if line], got)
        begun = NO_PASS if not entries else "accepted, with a warning: " if wanted and "|" not in wanted else "accepted, with " if wanted else "accepted: "
        is_first = got.out.decode().splitlines()[2] == "What this verdict may hide"
        tally.check(f"warnings: {name}, accepted", got.out.decode().startswith(begun) and is_first == bool(wanted) and
                    got.status == (0 if entries else 2) and not got.err, got)
    for example in sorted(ROOT.glob("examples/*.trace")):
        tally.check(f"warnings: none of {example.name}", not warned(explain(program, [str(example)])))
    for entries, status in ("0 ins a 0 : a|1 recv 0 1|1 read : a", 0), ("0 ins a 0 : a|1 recv 0 1|1 read :", 1):
        path = Path(folder, "beside.trace")
        side = Path(f"{path}.lines")
        path.write_text(text_of(2, entries))
        for text, wanted in BESIDE:
            side.write_bytes(text)
            got = explain(program, [str(path)])
            is_lacking = " were saved" in wanted
            tally.check(f"warnings: {text[:9]} beside a trace", warned(got) == [wanted.format(side)] * bool(wanted) and
                        got.status == (2 if is_lacking and not status else status) and not got.err, got)
        got = explain(program, ["-"], path.read_bytes())
        tally.check("warnings: no file beside standard input", not warned(got), got)
        side.unlink()
        side.mkdir()
        got = explain(program, [str(path)])
        wanted = f"{side} can't be read (Is a directory), so nothing says whether the trace is whole"
        tally.check("warnings: a folder beside a trace", warned(got) == [wanted] and got.status == status and not got.err, got)
        side.rmdir()
        long = path.with_name("x" * 255)
        long.write_text(path.read_text())
        got = explain(program, [str(long)])
        tally.check("warnings: no file beside the longest name", not warned(got) and got.status == status and not got.err, got)
    _, replicas, entries, wanted = next(case for case in WARNED if case[0] == "two that never hear of one another")
    path.write_text(text_of(replicas, entries))
    explain(program, ["--html", f"{folder}/page.html", str(path)])
    tree = ElementTree.fromstring(Path(folder, "page.html").read_text())
    tally.check("warnings: on the page", [told(node) for node in tree.iter("li")][:3] == wanted.split("|"))


def places(tally: Tally, program: str, folder: str) -> None:
    """The places of the lines that the words name, and of no others, stand at the end, on the page too; of a file of another trace, or of
    garbage, nothing is said."""
    path, page = Path(folder, "placed.trace"), Path(folder, "page.html")
    path.write_text(text_of(2, PLACED))
    bare = explain(program, ["-"], path.read_bytes()).out.decode()
    for name, beside, wanted in PLACES:
        Path(f"{path}.lines").write_bytes(beside.encode())
        got = explain(program, ["--html", str(page), str(path)])
        lines = wanted.split("|") if wanted else []
        before, section, last = about_code(got.out.decode())
        is_warned = not beside.startswith("7")
        tally.check(f"places: {name}", got.status == 1 and not got.err and [line.strip() for line in section.splitlines()] == lines
                    and (is_warned or before + last == bare), got)
        tree = ElementTree.fromstring(page.read_text())
        shown = [[told(node) for node in after.iter("li")] for head, after in zip(tree.iter(), by_next(tree)) if told(head) == "In your code"]
        tally.check(f"places: {name}, on the page", shown == ([lines] if lines else []), shown)
        numbers = [number for line in lines for number in re.findall(r"\d+", line.partition(": ")[0])]
        links = [node.get("href") for node in tree.iter("a")][-len(numbers):] if lines else []
        tally.check(f"places: {name}, linked", links == [f"#line-{number}" for number in numbers], links)
        tally.check(f"places: {name}, not of standard input", explain(program, ["-"], path.read_bytes()).out.decode() == bare)
    Path(f"{path}.lines").write_text("7\n3 my.log.1:1\n4 my.out:2\n5 my.tsv:2\n7 deep/my.ndjson:3\n")
    smaller = Path(folder, "smaller.trace")
    got = explain(program, ["--small", str(smaller), str(path)]).out.decode()
    tally.check("places: of a log", paragraph(got, "In your log") == "  line 3: my.log.1:1\n  line 4: my.out:2\n  line 5: my.tsv:2\n  line 7: deep/my.ndjson:3" and
                paragraph(got, "In a debugger") == "  stop before line 7 of the trace, where replica 1 reads the list; if nothing is wrong there, stop at an arrival (line 4). The editor then writes deep/my.ndjson:3.", got)
    kept = smaller.read_text().splitlines()[2:], Path(f"{smaller}.lines").read_text()
    tally.check("places: of a small trace", kept == (["0 ins a 0 : a", "1 recv 0 1", "1 read : a", "1 read :"],
                                                   "6\nsmall\n3 my.log.1:1\n4 my.out:2\n5 my.tsv:2\n6 deep/my.ndjson:3\n"), kept)
    Path(f"{path}.lines").write_text("7\nlog\n3 journal:1\n4 my.py:2\n5 my.py:2\n7 a, b:3\n")
    got = explain(program, ["--small", str(smaller), str(path)]).out.decode()
    kept = Path(f"{smaller}.lines").read_text()
    tally.check("places: of a log of any name", paragraph(got, "In your log") == "  line 3: journal:1\n  lines 4 and 5: my.py:2\n  line 7: a, b:3" and
                "breakpoint" not in got and kept == "6\nsmall\nlog\n3 journal:1\n4 my.py:2\n5 my.py:2\n6 a, b:3\n", (got, kept))
    Path(f"{path}.lines").write_text("7\n3 my.log:1\n4 my.py:2\n5 my.log:2\n7 my.log:3\n")
    got = explain(program, [str(path)]).out.decode()
    tally.check("places: of a log and of code", "\nIn your code\n" in got and "breakpoint" in got, got)
    last = PLACES[-1]
    Path(f"{path}.lines").write_text(last[1])
    done = subprocess.run([EXPLAIN, "--program", program, str(path)], capture_output=True, env=os.environ | {"PYTHONIOENCODING": "ascii"})
    tally.check("places: letters that the terminal has not", last[2].replace("\u00e4", "?").encode() in done.stdout and not done.stderr, done)
    for suffix in "bytes that are no text", "a folder":
        side = Path(f"{path}.lines")
        if suffix == "a folder":
            side.unlink()
            side.mkdir()
        else:
            side.write_bytes(b"7\n3 \xff.py:1\n")
        got = explain(program, [str(path)])
        wanted = ["line 3: \ufffd.py:1"] if suffix != "a folder" else []
        _, section, _ = about_code(got.out.decode())
        tally.check(f"places: {suffix}", got.status == 1 and not got.err and [line.strip() for line in section.splitlines()] == wanted, got)
    side.rmdir()
    path.write_text(text_of(1, "0 ins a 0 : a|0 del b : a"))
    side.write_text("4\n3 a.py:1\n4 a.py:2\n")
    got = explain(program, [str(path)]).out.decode()
    tally.check("places: of a line that a warning names", got.startswith("accepted, with a warning: ") and
                "\n\nWhat this verdict may hide\n  line 4, 0.2: " in got and got.endswith("\n\nIn your code\n  line 4: a.py:2\n\nThe list specifications\n  strong and weak hold\n"), got)
    path.write_text(text_of(2, "0 ins a 0 : a|1 recv 0 1|0 ins b 1 : a b|1 read : a"))
    side.write_text("6\n5 a.py:1, called from b.py:9\n")
    got = explain(program, [str(path)])
    tally.check("places: in a warning, the nearest", warned(got) == [
        f"the last lists of replicas 0 and 1 differ: 0.2 (line 5, a.py:1) never arrived at replica 1 in this recording. {IT}"], got)
    path.write_text(text_of(2, PLACED))
    for beside, wanted in STATEMENTS:
        side.write_text(f"7\n{beside}")
        got = explain(program, [str(path)]).out.decode()
        tally.check(f"a debugger: {beside}", paragraph(got, "In a debugger").endswith(f"reads the list; if nothing is wrong there, stop at an arrival (line 4).\n  {wanted.format(WHERE)}"), got)
        name = beside.partition("\n")[0].removeprefix("language ")
        if name not in ("", "cobol"):
            got = explain(program, ["--language", name, "-"], path.read_bytes()).out.decode()
            tally.check(f"a debugger: {name}, asked for", paragraph(got, "In a debugger").endswith(f"reads the list; if nothing is wrong there, stop at an arrival (line 4).\n  {wanted.format(WHERE)}"), got)
    for name, wanted in FOR_TWO.items():
        got = explain(program, ["--language", name, "-"], text_of(2, "0 ins a 0 : a|0 ins b 1 : a b|1 recv 0 1|1 recv 0 2|1 read : a").encode()).out.decode()
        tally.check(f"a debugger: {name}, receipts that stand together", paragraph(got, "In a debugger").endswith(
            ". It stops when 4 lines have been recorded. Unless one call of your editor applies lines 5 and 6 together, it stops again at 5. Look at what happens after the last stop."
            f"\n    {wanted}"), got)
    undelivered(tally, program, folder)
    path.write_text(text_of(2, PLACED))
    for beside, wanted in NOTES:
        side.write_text(f"7\n{beside}7 a.py:1\n")
        got = explain(program, ["--small", str(smaller), "--html", str(page), str(path)]).out.decode()
        noted = [line.strip() for line in paragraph(got, "Your notes").splitlines()]
        tally.check(f"noted: {beside[:30]!r}", noted == [line for line in wanted.split("|") if line], got)
        kept = [line for line in Path(f"{smaller}.lines").read_text().splitlines() if line.startswith("note ")]
        tally.check(f"noted: {beside[:30]!r}, beside a small trace", kept == [f"note {line}" for line in noted], kept)
        tree = ElementTree.fromstring(page.read_text())
        lists = [[told(node) for node in after.iter("li")] for head, after in zip(tree.iter(), by_next(tree)) if told(head) == "Your notes"]
        tally.check(f"noted: {beside[:30]!r}, on the page", lists == [noted] * bool(noted), lists)
    side.unlink()


def undelivered(tally: Tally, program: str, folder: str) -> None:
    """Where `delivered` alone says that changes had arrived, nothing is said of how they did, and the debugger stops where they were made."""
    path = Path(folder, "undelivered.trace")
    path.write_text(text_of(2, UNDELIVERED))
    Path(f"{path}.lines").write_text("11\ndelivered 9 11\n")
    small = Path(folder, "small.trace")
    got = explain(program, ["--small", str(small), str(path)]).out.decode()
    by_words = explain(program, ["--language", "python", "--delivered", "9-11", "-"], path.read_bytes()).out.decode()
    for name, said in ("beside the trace", got), ("by an option", by_words):
        told = "".join(line.strip() + "\n" for line in said.splitlines())
        tally.check(f"undelivered: {name}", UNDELIVERED_WORDS in told, said)
    for name, (replicas, entries, lines, wanted) in UNDELIVERED_LATER.items():
        said = explain(program, ["--language", "python", "--delivered", lines.replace(" ", "-"), "-"], text_of(replicas, entries).encode()).out.decode()
        tally.check(f"undelivered: {name}", f"\nWhere to look\n  {wanted}" in said, said)
    kept = small.read_text().splitlines()[2:], Path(f"{small}.lines").read_text().splitlines()
    again = explain(program, [str(small)]).out.decode()
    tally.check("undelivered: the small trace says the same", "though the call `delivered` (line " in again and kept[1][0] == str(2 + len(kept[0])), (kept, again))
    for beside in "11\n", "11\ndelivered 3 3\n", "11\ndelivered x\n":
        Path(f"{path}.lines").write_text(beside)
        said = explain(program, [str(path)]).out.decode()
        tally.check(f"undelivered: {beside!r}", "It looks as if 0.2 (line 6) and 0.3 (line 7) were not applied at replica 1" in said and "`delivered`" not in said, said)
    for word in "9", "9-", "a-b", "0-3", "9 11":
        done = explain(program, ["--delivered", word, "-"], path.read_bytes())
        tally.check(f"undelivered: {word!r} is no range", done.status == 2 and f"{word} is no range of lines, as 41-46".encode() in done.err, done)


# Replica 1 has thrown a away, finds no place for b behind it, and holds b back; `delivered` wrote lines 10 to 12.
HELD_BACK = "0 ins a 0 : a|1 recv 0 1|1 read : a|1 del a :|0 ins b 1 : a b|0 recv 1 2|0 read : b|1 recv 0 2|1 read :|0 read : b"

# Five changes of replica 0, of which these came to replica 1 and 2 by receipts of their own; the last response, replica 2's, lacks one.
FIVE = "|".join(f"0 ins e{n} {n - 1} : {' '.join(f'e{k}' for k in range(1, n + 1))}" for n in range(1, 6))
ALSO = "  Look also at whether 0.4 (line 6) was lost on its way to replica 1, or overtaken: no receipt there names it, though receipts there name every other change of replica 0 up to the last received. "
ASTRAY = {
    "another replica lacks one": ([1, 2, 3, 5], [1, 2, 3, 4, 5], "e1 e2 e3 e4", ALSO),
    "it lacks one itself": ([1, 2, 3, 4, 5], [1, 2, 3, 5], "e1 e2 e3 e5",
                            "0.4 was lost on its way to replica 2: no receipt there names it. If it was not lost but overtaken, "),
    "it lacks two": ([1, 2, 3, 4, 5], [1, 3, 5], "e1 e3 e5", "0.2 (line 4) and 0.4 (line 6) were lost on their way to replica 2, or overtaken: no receipt "
                     "there names them, though receipts there name every other change of replica 0 up to the last received. "),
    "it lacks one that it shows": ([1, 2, 3, 4, 5], [1, 2, 3, 5], "e1 e2 e3 e4", None),
    "two that travel together": ([1, 2, 3, 5], [1, 2, 3, 5], "e1 e2 e3 e4", None),
    "one receipt for all": ([1, 2, 3, 4, 5], [5], "e1 e2 e3 e4", None),
}


# Sessions in which a change was lost at a replica that has no answer in the verdict: with a change of that replica which came to such an answer, made when something had come
# there behind the lost one, or with none, or with one that was made before.
ALL_RECEIVED = "".join(f"|2 recv 0 {n}" for n in range(1, 6))
LOST_AT_ONE = ("0.4 (line 6) was lost on its way to replica 1, or overtaken: no receipt there names it, though receipts there name every other change of replica 0 up to the last received. ")
NO_PART = "But nothing that replica {} did after that gap is in the responses above, so the gap is hardly their cause. One bug may cause both."
LISTS_OF_TWO = "0 ins a 0 : a|1 ins b 0 : b|0 ins c 1 : a c|0 ins d 2 : a c d|0 ins e 3 : a c d e|2 recv 0 1|2 recv 0 3|2 recv 0 4|1 recv 0 1|1 recv 0 2|1 recv 0 3|1 recv 0 4|1 read : b a c d e|0 recv 1 1|0 read : a b c d e"
BEARING = [
    ("where it was lost something was made that came", 3, f"{FIVE}|2 ins w 0 : w|1 recv 0 1|1 recv 0 2|1 recv 0 3|1 recv 2 1|1 ins z 0 : z w e1 e2 e3|1 recv 0 5{ALL_RECEIVED}|2 recv 1 1|"
     "2 read : z w e1 e2 e3 e4", "contents 2.2: ", f"Look first at whether {LOST_AT_ONE}Replica 1 made 1.1 (line 13) later, perhaps without it, and 2.2 (line 21) builds on 1.1. In an editor that sends positions, later "
     "changes then land in the wrong place."),
    ("where it was lost something was made that did not come", 3, f"{FIVE}|2 ins w 0 : w|1 recv 0 1|1 recv 0 2|1 recv 0 3|1 recv 2 1|1 ins z 0 : z w e1 e2 e3|1 recv 0 5{ALL_RECEIVED}|2 read : w e1 e2 e3 e4",
     "contents 2.2: ", f"Look also at whether {LOST_AT_ONE}{NO_PART.format(1)}"),
    ("where it was lost something was made before", 3, f"{FIVE}|1 ins z 0 : z|1 recv 0 1|1 recv 0 2|1 recv 0 3|1 recv 0 5{ALL_RECEIVED}|2 recv 1 1|2 read : z e1 e2 e3 e4",
     "contents 2.1: ", f"Look also at whether {LOST_AT_ONE}{NO_PART.format(1)}"),
    ("a third replica than those that show two orders", 3, LISTS_OF_TWO, "refused 2: ", "Look also at whether 0.2 (line 5) was lost on its way to replica 2, or overtaken: no receipt there names it, though receipts there "
     f"name every other change of replica 0 up to the last received. {NO_PART.format(2)}"),
]


def astray(tally: Tally, program: str, folder: str) -> None:
    """A change that came to one replica without a receipt of its own is told first, at whatever replica that is; but not one that was applied
    there, nor one that has none anywhere, which travels with the next one. What `delivered` alone brings is told beside what it was put, and its delete."""
    for name, (to_one, to_two, shown, wanted) in ASTRAY.items():
        receipts = "".join(f"|{replica} recv 0 {n}" for replica, came in ((1, to_one), (2, to_two)) for n in came)
        said = explain(program, ["-"], text_of(3, f"{FIVE}{receipts}|2 read : {shown}").encode()).out.decode()
        first = paragraph(said, "Where to look").splitlines()[0]
        if wanted == ALSO:
            tally.check(f"astray: {name}", said.startswith("contents 2.1: ") and "lost on" not in first and "Look first" not in said and
                        f"\n{ALSO}{NO_PART.format(1)}\n" in said and "and follow" not in said, said)
            continue
        tally.check(f"astray: {name}", said.startswith("contents 2.1: ") and (first.startswith(f"  Look first at whether {wanted}") if wanted else
                    "lost on" not in said and "No receipt" not in said), said)
    for name, replicas, entries, begins, wanted in BEARING:
        said = explain(program, ["-"], text_of(replicas, entries).encode()).out.decode()
        look = paragraph(said, "Where to look").splitlines()
        is_first = wanted.startswith("Look first ")
        place = next((place for place, line in enumerate(look) if line.startswith("  Look ") and "lost on its way" in line), None)
        tally.check(f"astray: {name}", said.startswith(begins) and place is not None and look[place] == f"  {wanted}" and (place == 0) == is_first and (", and follow 0." in said) == is_first, said)
    path = Path(folder, "held.trace")
    path.write_text(text_of(2, HELD_BACK))
    Path(f"{path}.lines").write_text("12\ndelivered 10 12\n")
    said = explain(program, [str(path)]).out.decode()
    tally.check("held back: beside what it was put", said.startswith("contents 1.3: ") and "[b] was put behind a. By line 10, a was already deleted there by 1.2 (line 6)\n" in
                said and "Perhaps 0.2 finds no place there for b: its neighbour a was already deleted there by 1.2 (line 6). An editor that throws deleted "
                "elements away too early loses such an insert or holds it back for ever." in said, said)


def about_code(said: str) -> tuple:
    """An explanation before its lines of code, these, and what stands behind them, which is its last section."""
    before, _, behind = said.partition("\nIn your code\n")
    section, _, last = behind.partition("\n\n")
    return before, section, f"\n{last}" if last else ""


def by_next(tree: ElementTree.Element) -> list:
    """The elements of a tree, without the first."""
    return list(tree.iter())[1:]


def saved(tally: Tally, program: str, folder: str) -> None:
    """What the Python recorder saves is whole; where lines are lost at its end, that is said; and no pipe has a file beside it."""
    recording = recorder.Recording(2)
    recording.insert(0, "a", 0, ["a"])
    recording.received(1, 0, 1)
    recording.read(1, ["a"])
    path = Path(folder, "saved.trace")
    for name in str(path), path:
        recording.save(name)
        got = explain(program, [str(path)])
        tally.check("saved: no warning", not warned(got) and got.status == 0, got)
    lines = path.read_bytes().splitlines(True)
    for left in range(2, len(lines)):
        path.write_bytes(b"".join(lines[:left]))
        got = explain(program, [str(path)])
        wanted = f"the trace may have been cut at a line's end: it has {left} lines, and {path}.lines says that {len(lines)} were saved"
        tally.check(f"saved: {left} lines are left", wanted in warned(got) and got.status == 2 and got.out.decode().startswith(f"{NO_PASS}{wanted}\n"), got)
    recording.read(1, [])
    recording.save(str(path))
    smaller = path.with_name("replaced.trace")
    smaller.write_text("trace 1\nreplicas 1\n")
    for beside in None, "2\n", "2\nnote small\n":
        if beside:
            Path(f"{smaller}.lines").write_text(beside)
        got = explain(program, ["--small", str(smaller), str(path)])
        tally.check(f"saved: no small trace in the place of one that --small did not write, {beside!r}", (got.status, got.out) == (2, b"") and got.err ==
                    f"domepeeler-explain: {smaller} is a trace that --small did not write, so it is not written to\n".encode() and
                    smaller.read_text() == "trace 1\nreplicas 1\n", got)
    smaller.unlink()
    explain(program, ["--small", str(smaller), "-"], text_of(1, "0 ins a 0 : a|0 read :").encode())
    tally.check("saved: a small trace has a file beside it", (smaller.read_text().count("\n"), Path(f"{smaller}.lines").read_text()) == (4, "4\nsmall\n"))
    explain(program, ["--small", str(smaller), str(path)])
    got = explain(program, [str(smaller)])
    tally.check("saved: a small trace in the place of another", smaller.read_bytes().count(b"\n") == 6 and got.status == 1 and not warned(got), got)
    pipe = Path(folder, "pipe")
    os.mkfifo(pipe)
    reading = subprocess.Popen(["cat", str(pipe)], stdout=subprocess.PIPE)
    recording.save(str(pipe))
    told = reading.communicate()[0]
    tally.check("saved: into a pipe", told == recording.text().encode() and not Path(f"{pipe}.lines").exists(), told)


def from_yjs(tally: Tally, program: str, folder: str) -> None:
    """From a plain test of Yjs to the explanation: its recordings as they are kept, and made anew; and its recorder runs as it is copied,
    beside the one file that it needs."""
    need_module("yjs", "node-yjs")
    variables = os.environ | NODE | {"DOMEPEELER": program}
    for kept, planted, wanted in YJS_TOLD:
        path = Path(folder, kept)
        done = subprocess.run(["node", "--test", "--test-reporter=tap", YJS / "page.test.mjs"], capture_output=True, text=True,
                              env=variables | {"RECORDING": str(path), "PLANTED": planted})
        tally.check(f"Yjs: {kept}, its test", done.returncode == 0 and "# pass 1\n" in done.stdout, done)
        tally.check(f"Yjs: {kept} as it was kept", path.read_bytes() == (YJS / kept).read_bytes())
        places = Path(f"{path}.lines").read_text().splitlines()[2:]
        tally.check(f"Yjs: {kept}, places of the test alone", len(places) == path.read_bytes().count(b"\n") - 2 and
                    all("page.test.mjs:" in line and "nodejs" not in line for line in places), places)
        got = explain(program, [str(YJS / kept)])
        missing = stand_in_order(got.out.decode().splitlines(), wanted.split("|"))
        tally.check(f"Yjs: {kept} explained", missing is None and got.status == 0 and not warned(got) and not got.err, got)
    guide = Path(GUIDE).read_text().partition("**A plain test of Yjs.**")[2].partition("\n\n**")[0]
    tally.check("Yjs: the guide says what becomes of the newest first", "An update that Yjs holds back counts as received when Yjs has taken it in: with "
                "`PLANTED=1` the newest comes first, and the recording is accepted too." in guide, guide)
    copied = Path(folder, "copied")
    copied.mkdir()
    for file in YJS / "recorded_yjs.mjs", YJS / "page.test.mjs", ROOT / "recorders/domepeeler.mjs":
        shutil.copy(file, copied)
    done = subprocess.run(["node", "--test", "--test-reporter=tap", "page.test.mjs"], capture_output=True, text=True, cwd=copied,
                          env=variables | {"RECORDING": "page.trace"})
    tally.check("Yjs: as it is copied", done.returncode == 0 and
                Path(copied, "page.trace").read_bytes() == (YJS / "page.trace").read_bytes(), done)
    losing, test = Path(copied, "losing.test.mjs"), Path(copied, "page.test.mjs").read_text()
    compares = next(line for line in test.splitlines(keepends=True) if "assert.equal(page.toString()" in line)
    losing.write_text(test.replace(compares, "").replace("if (to !== from)", "if (to !== from && (from !== 2 || to !== 0))"))
    done = subprocess.run(["node", "--test", "--test-reporter=tap", losing.name], capture_output=True, text=True, cwd=copied, env=variables)
    tally.check("Yjs: a network that loses an update for ever", done.returncode == 1 and "replica 0 never hears of replica 2" in done.stdout, done)
    done = subprocess.run(["node", "--test", YJS / "recorded_yjs.test.mjs"], capture_output=True, text=True, env=variables)
    tally.check("Yjs: what is recorded", done.returncode == 0, done.stdout)


def from_own_engine(tally: Tally, program: str, folder: str) -> None:
    """From an engine of one's own, a Python module, to the explanation; and what is said of one that can't be used."""
    def record(*words: str) -> subprocess.CompletedProcess:
        return subprocess.run([RECORD, str(words[0]), program, "--sessions", "4", *words[1:]], capture_output=True, text=True)

    kept, mine = Path(folder, "kept"), Path(folder, "mine {0}.py")
    mine.write_text(OWN_ENGINE)
    done = record(mine, "--keep", str(kept))
    traces = sorted(kept.glob("mine {0}_*_refused_2.trace"))
    tally.check("own engine: recorded, judged and kept", done.returncode == 1 and not done.stderr and len(traces) > 1, done)
    ended = [explain(program, [str(path)]) for path in traces]
    tally.check("own engine: explained", all(got.out.startswith(b"refused 2: ") and got.status == 1 for got in ended)
                and any(b"Look at the order of concurrent inserts: " in got.out for got in ended), ended)
    mine.write_text("from list_crdt import ListCrdt\n\nprint('loaded')\n\n\nclass Engine(ListCrdt):\n    def apply(self, message):\n"
                    "        print('applied')\n        super().apply(message)\n")
    done = record(mine)
    tally.check("own engine: a right one that prints", done.returncode == 0 and done.stdout.count("accepted: ") == 6
                and "refused" not in done.stdout + done.stderr and "contents" not in done.stdout, done)
    for text, said in OWN_ENGINES_REFUSED:
        mine.write_text(text)
        done = record(mine)
        wanted = f"record.py: {said.format(mine)}\n"
        tally.check(f"own engine: {said}", done.returncode == 2 and not done.stdout and done.stderr == wanted, done)
    mine.unlink()
    done = record(mine)
    begun = f"record.py: {mine} can't be loaded: FileNotFoundError: "
    tally.check("own engine: no file", done.returncode == 2 and done.stderr.startswith(begun) and done.stderr.count("\n") == 1, done)
    done = record("yjss")
    tally.check("no such engine", done.returncode == 2 and done.stderr.startswith("record.py: yjss is none of crdt_el, crdts, ")
                and done.stderr.count("\n") == 1, done)


def from_no_answer(tally: Tally, program: str, folder: str) -> None:
    """Where no session gave an answer, or the program is another one, `record.py` ends with 2."""
    mine = Path(folder, "mine.py")
    mine.write_text("class Engine:\n    def __init__(self, replica):\n        raise SystemExit(5)\n    names = insert = delete = apply = len\n")
    done = subprocess.run([RECORD, str(mine), program, "--sessions", "1"], capture_output=True, text=True)
    some = Path(folder, "some.py")
    some.write_text("import os\nfrom list_crdt import ListCrdt\n\nclass Engine(ListCrdt):\n    def delete(self, name):\n"
                    "        os._exit(5) if len(self.names()) == 1 else None\n        return super().delete(name)\n")
    ended = subprocess.run([RECORD, str(some), program, "--sessions", "20"], capture_output=True, text=True)
    stopped = sum(map(int, re.findall(r"no answer of the engine: (\d+)", ended.stdout)))
    tally.check("record.py: some gave no answer", ended.returncode == 2 and stopped > 0 and "accepted: " in ended.stdout and
                ended.stderr == f"record.py: sessions that gave no answer, so were not judged: {stopped}\n", ended)
    tally.check("record.py: no answer", done.returncode == 2 and done.stderr == "record.py: no session gave an answer, so nothing was judged\n"
                and "accepted" not in done.stdout, done)
    liar = Path(folder, "liar")
    for said, status, told in (("replicas 2 operations 1 inserts 1\\naccepted", 0, "a report that is not on the recording"), (
            "replicas 2 operations 1 inserts 1\\naccepted", 1, "no verdict that agrees: "), ("accepted", 0, "no verdict that agrees: ")):
        liar.write_text(f"#!/bin/sh\n[ \"$1\" != --version ] || exec echo domepeeler 0.2.0\ncat > /dev/null\nprintf '{said}\\n'\nexit {status}\n")
        liar.chmod(0o755)
        done = subprocess.run([RECORD, "list_crdt", str(liar), "--sessions", "1"], capture_output=True, text=True)
        tally.check(f"record.py: a program that says {said} with status {status}", (done.returncode, done.stdout, done.stderr) == (
            2, "", f"record.py: {liar} ended with status {status}, and with {told}\n"), done)
    for words, wanted in ((["list_crdt", "/bin/true"], "record.py: /bin/true is not domepeeler: asked for its version it ended with status 0\n"),
                          (["list_crdt", f"{folder}/none"], f"record.py: {folder}/none is no program\n"),
                          (["list_crdt", program, "--sessions", "0"], "record.py: error: argument --sessions: 0 is no number from 1 on\n"),
                          (["list_crdt", program, "--sessions", "-3"], "record.py: error: argument --sessions: -3 is no number from 1 on\n")):
        done = subprocess.run([RECORD, *words], capture_output=True, text=True)
        tally.check(f"record.py: {words}", done.returncode == 2 and done.stderr.endswith(wanted) and not done.stdout and "Traceback" not in done.stderr, done)


# Runs a command where SIGCHLD is ignored, so that nobody hears the status of what has ended. A shell would hear it.
IGNORING = [sys.executable, "-c", "import os, signal, sys; signal.signal(signal.SIGCHLD, signal.SIG_IGN); os.execvp(sys.argv[1], sys.argv[1:])"]
SOON = """
import sys
import {0}
from {1} import run_command
{0}.MOST_OF_VERSION = 1
run_command({2})
"""


def without_end(tally: Tally, program: str, folder: str) -> None:
    """A program that never answers its version is no domepeeler; and an engine that has ended does not answer, though what it has left in the
    background holds its output. Where SIGCHLD is ignored, verdicts count all the same."""
    serving, engine, wrong = (Path(folder, name) for name in ("serving", "engine_left.sh", "wrong.py"))
    serving.write_text("#!/bin/sh\nexec sleep 60\n")
    engine.write_text(f"#!/bin/sh\nsetsid sleep 60 &\necho $! > '{folder}/left'\nread plan\necho trace 1\nexit 5\n")
    for path in serving, engine:
        path.chmod(0o755)
    for paths, module, runner, given, words in (("recorders/engines", "random_sessions", "random_sessions", "''", ["list_crdt", str(serving)]),
                                                ("tools", "explaining.programs", "explaining.commands", "'judge_many', 'many_command'", ["--program", str(serving), folder])):
        done = limited([sys.executable, "-c", SOON.format(module, runner, given), *words], 20, env=os.environ | {"PYTHONPATH": str(ROOT / paths)})
        tally.check(f"a program that never ends, asked for its version by {runner}", done.returncode == 2 and not done.stdout and re.search(
            r": asked for its version it did not answer within 1 seconds?\n$", done.stderr), done)
    done = limited([RECORD, str(engine), program, "--sessions", "1"], 40)
    tally.check("record.py: an engine that has ended, and what it left holds its output", done.returncode == 2 and done.stderr ==
                f"record.py: {engine}: it ended with status 5 before the line `end`; its last line is `trace 1`\n", done)
    subprocess.run(["kill", Path(folder, "left").read_text().strip()], capture_output=True)
    wrong.write_text("from list_crdt import ListCrdt\n\nclass Engine(ListCrdt):\n    def names(self):\n        return super().names()[1:]\n")
    usual = [RECORD, str(wrong), program, "--sessions", "3"]
    told, ignoring = (subprocess.run([*before, *usual], capture_output=True, text=True) for before in ([], IGNORING))
    tally.check("record.py: SIGCHLD is ignored", told.returncode == 1 and "contents" in told.stdout and (ignoring.returncode, ignoring.stdout, ignoring.stderr)
                == (told.returncode, told.stdout, told.stderr), ignoring)
    trace = Path(folder, "ignoring.trace")
    trace.write_text("trace 1\nreplicas 1\n0 ins a 0 : a\n0 read :\n")
    done = subprocess.run([*IGNORING, EXPLAIN, "--program", program, str(trace)], capture_output=True, text=True)
    tally.check("explain: SIGCHLD is ignored", (done.returncode, done.stderr) == (1, "") and done.stdout.startswith("contents 0.2: "), done)


def limited(words: list, seconds: float, **given: object) -> subprocess.CompletedProcess:
    """A run that is to end within so many seconds."""
    try:
        return subprocess.run(words, capture_output=True, text=True, timeout=seconds, **given)
    except subprocess.TimeoutExpired as error:
        return subprocess.CompletedProcess(error.cmd, None, "", "it hangs")


WAITS_FOR_ONE_THAT_BEGINS = """
import threading, time
from random_sessions import wait_for
late = threading.Thread(target=time.sleep, args=[0.3])
threading.Timer(0.3, late.start).start()
wait_for(late)
print("ended" if late.ident and not late.is_alive() else "left")
"""


STOPPED_WHILE_IT_WAITS = """
import os, signal
from concurrent.futures import _base
import random_sessions
enter = _base._AcquireFutures.__enter__
def enter_and_stop(self):
    enter(self)
    os.kill(os.getpid(), signal.SIGTERM)
_base._AcquireFutures.__enter__ = enter_and_stop
random_sessions.run_command("")
"""


def record_ended(tally: Tally, program: str, folder: str) -> None:
    """A signal ends `record.py`, the engine and what judges, and it says nothing; a full disk and closed streams are told of."""
    slow, engine, begun = Path(folder, "slow"), Path(folder, "slow_engine.py"), Path(folder, "begun")
    slow.write_text(f"#!/bin/sh\n[ \"$1\" != --version ] || exec echo domepeeler 0.2.0\necho $$ >> '{begun}'\nexec sleep 60\n")
    slow.chmod(0o755)
    engine.write_text("import os, time\n\nclass Engine:\n    def __init__(self, replica):\n"
                      f"        open({str(begun)!r}, 'a').write(f'{{os.getpid()}}\\n')\n        time.sleep(60)\n"
                      "    names = insert = delete = apply = len\n")
    temporary = Path(folder, "temporary")
    temporary.mkdir()
    loaded = Path(folder, "slowly_loaded.py")
    loaded.write_text("import subprocess, time\n\nstarted = subprocess.Popen(['sleep', '60'])\n"
                      f"open({str(begun)!r}, 'a').write(f'{{started.pid}}\\n')\ntime.sleep(60)\n")
    for words, what in (["list_crdt", str(slow)], "the program"), ([str(engine), program], "the engine"), ([str(loaded), program], "a loaded module"):
        for stop in signal.SIGINT, signal.SIGTERM, signal.SIGHUP:
            begun.write_text("")
            running = subprocess.Popen([RECORD, *words, "--sessions", "20"], stdout=subprocess.PIPE, stderr=subprocess.PIPE,
                                       env=os.environ | {"TMPDIR": str(temporary)},
                                       preexec_fn=lambda: signal.signal(stop, signal.SIG_DFL))  # which a job in the background may ignore
            until = time.monotonic() + 60
            while not begun.read_text().endswith("\n") and time.monotonic() < until:
                time.sleep(0.01)
            running.send_signal(stop)
            out, err = running.communicate(timeout=30)
            tally.check(f"record.py: {stop.name} while {what} works", (running.returncode, out, err) == (-stop, b"", b""),
                        (running.returncode, out, err))
            left = [pid for pid in begun.read_text().split() if is_running(pid)]
            tally.check(f"record.py: {stop.name} while {what} works: nothing is left", not left and not os.listdir(temporary),
                        (left, os.listdir(temporary)))
    done = subprocess.run([sys.executable, "-c", WAITS_FOR_ONE_THAT_BEGINS], capture_output=True, text=True, env=os.environ | {"PYTHONPATH": str(Path(RECORD).parent)})
    tally.check("record.py: a thread that is about to begin is waited for", (done.returncode, done.stdout) == (0, "ended\n"), done)
    with subprocess.Popen([sys.executable, "-c", STOPPED_WHILE_IT_WAITS, "list_crdt", str(slow), "--sessions", "20"], stdout=subprocess.PIPE,
                          stderr=subprocess.STDOUT, env=os.environ | {"PYTHONPATH": str(Path(RECORD).parent)}) as running:
        try:
            out = running.communicate(timeout=20)[0]
        except subprocess.TimeoutExpired:
            out = b"it hangs"
            running.kill()
    tally.check("record.py: a signal while it holds what its threads wait for", (running.returncode, out) == (-signal.SIGTERM, b""),
                (running.returncode, out))
    for name, told in ("x\n::error::y", "x\\n::error::y"), ("\x1b[31m", "\\x1b[31m"), ("\udcff", "\\xff"):
        done = subprocess.run([RECORD, name, program], capture_output=True, text=True)
        tally.check(f"record.py: {told}", done.returncode == 2 and done.stderr.startswith(f"record.py: {told} is none of "), done)
        done = subprocess.run([RECORD, "list_crdt", name], capture_output=True, text=True)
        tally.check(f"record.py: no program {told}", (done.returncode, done.stderr) == (2, f"record.py: {told} is no program\n"), done)
    engine.write_text("import sys\n\nclass Engine:\n    def __init__(self, replica):\n        sys.exit('\\x1b[31mno')\n"
                      "    names = insert = delete = apply = len\n")
    done = subprocess.run([RECORD, str(engine), program, "--sessions", "1"], capture_output=True, text=True)
    tally.check("record.py: an engine's last words", done.returncode == 2 and "the engine's last words: \\x1b[31mno\n" in done.stdout
                and "\x1b" not in done.stdout, done)
    engine.write_text("import os\nos._exit(7)\n")
    done = subprocess.run([RECORD, str(engine), program], capture_output=True, text=True)
    tally.check("record.py: a module that ends and says nothing",
                (done.returncode, done.stderr) == (2, f"record.py: {engine} ended with status 7\n"), done)
    slow.write_text("")
    done = subprocess.run([RECORD, "list_crdt", str(slow)], capture_output=True, text=True)
    tally.check("record.py: an empty program",
                (done.returncode, done.stderr) == (2, f"record.py: {slow} can't be run: Exec format error\n"), done)
    usual = [RECORD, "list_crdt", program, "--sessions", "1"]
    reader, closed = os.pipe()
    os.close(reader)
    with open("/dev/full", "wb") as full:
        for out, told in (full, b"record.py: cannot write: No space left on device\n"), (closed, b""):
            done = subprocess.run(usual, stdout=out, stderr=subprocess.PIPE)
            tally.check(f"record.py: {told or 'a closed pipe'}", (done.returncode, done.stderr) == (2, told), done)
    os.close(closed)
    done = subprocess.run(["sh", "-c", 'exec "$@" >&-', "sh", *usual], capture_output=True)
    tally.check("record.py: no standard output",
                (done.returncode, done.stderr) == (2, b"record.py: cannot write: standard output is closed\n"), done)
    done = subprocess.run([*usual, "--keep", f"{slow}/kept"], capture_output=True, text=True)
    tally.check("record.py: a folder that can't be made",
                (done.returncode, done.stderr) == (2, f"record.py: cannot write {slow}/kept: Not a directory\n"), done)
    done = subprocess.run(["sh", "-c", 'ulimit -f 1; trap "" XFSZ; exec "$@"', "sh", *usual, "--seed", "2", "--keep", f"{folder}/full"], capture_output=True,
                          text=True)
    tally.check("record.py: a trace that can't be written whole", done.returncode == 2 and re.fullmatch(
        rf"record\.py: cannot write {folder}/full/list_crdt_\S+\.trace: File too large\n", done.stderr) and all(
            path.read_text().endswith("\n") and path.stat().st_size < 512 for path in Path(folder, "full").iterdir()), (done, os.listdir(f"{folder}/full")))


def arguments(tally: Tally, program: str, folder: str) -> None:
    """Wrong words are no verdict, and nothing is judged or written."""
    Path(folder, "right.trace").write_text(text_of(1, "0 ins a 0 : a"))
    for words, told in (([], "the following arguments are required: TRACE"),
                        (["right.trace", "right.trace"], "unrecognized arguments: right.trace"),
                        (["--page", "right.trace"], "unrecognized arguments: --page"),
                        (["--html"], "argument --html: expected one argument"),
                        (["--language", "cobol", "right.trace"], "argument --language: invalid choice: 'cobol'"),
                        (["--delivered", "6", "right.trace"], "argument --delivered: 6 is no range of lines, as 41-46"),
                        (["--html", "1", "--html", "2", "right.trace"], "argument --html: it is given twice"),
                        (["--small", "1", "--small=1", "right.trace"], "argument --small: it is given twice")):
        done = subprocess.run([EXPLAIN, "--program", program, *words], cwd=folder, capture_output=True, text=True)
        tally.check(f"arguments: {words}", done.returncode == 2 and not done.stdout and f"domepeeler-explain: error: {told}" in done.stderr
                    and not Path(folder, "1").exists() and not Path(folder, "2").exists(), done)


def drawn(tally: Tally, program: str) -> None:
    """How `draw_cycle.py` ends where it has no picture: 1 is said of reports alone."""
    draw = str(ROOT / "tools" / "draw_cycle.py")
    report = run(program, ["verdict", "--json", str(ROOT / "examples" / "libinfinity_three_way_cycle.trace")]).out
    accepted = run(program, ["verdict", "--json", "-"], text_of(1, "0 ins a 0 : a").encode()).out
    no_report = b"draw_cycle.py: standard input is no report, as `verdict --json` prints it\n"
    for text, status, told in ((accepted, 1, b"draw_cycle.py: the report has no cycle\n"), (b"", 2, no_report), (b"[]", 2, no_report),
                               (b"\xff", 2, no_report), (b'{"verdict": "refused", "steps": [5]}', 2, b"draw_cycle.py: TypeError(")):
        got = run(draw, [], text)
        tally.check(f"draw_cycle.py: {text}", got.status == status and not got.out and got.err.startswith(told)
                    and got.err.count(b"\n") == 1, got)
    with open("/dev/full", "wb") as full:
        got = run(draw, [], report, out=full)
        tally.check("draw_cycle.py: a full disk", got.status == 2 and got.err == b"draw_cycle.py: [Errno 28] No space left on device\n",
                    got)


def planted_bugs(tally: Tally, program: str, folder: str) -> None:
    """Random sessions of small engines with the usual bugs: of each that is not accepted the words name the cause, of the small trace too.
    Without a bug all are accepted, but that behind a server strong may fail where weak holds."""
    told_of = {}
    for bug, (seeds, least, phrases) in PLANTED.items():
        failing, named, small_named, alike = 0, 0, 0, 0
        told_of[bug] = []
        for seed in range(seeds):
            text = planted.session(bug, seed, 16).text()
            report = report_of(program)(text.encode())
            tally.check(f"planted: {bug} {seed}: judged", report is not None and (phrases or report["weak"] and (report["strong"] or "server" in bug)), text)
            if not phrases or report["weak"]:  # accepted; or refused as an engine behind a server is without a bug too
                continue
            words, told = explained(Evidence(Recording(text), report), report_of(program))
            if told.report["weak"] and bug in planted.BEHIND_SERVER:  # its beginning is as without a bug
                continue
            kind = "positions" if bug in planted.BEHIND_SERVER else "neighbours"
            fitting, _ = explained(Evidence(Recording(text), report, kind=kind), report_of(program))
            tally.check(f"planted: {bug} {seed}: named where the editor's kind is, and nothing of other kinds",
                        any(phrase in text_of_words(fitting) for phrase in [*phrases, *OF_KIND.get(bug, [])]) and not OF_OTHERS[kind].intersection(fitting.causes)
                        and len(fitting.causes) <= len(words.causes) + 1, text_of_words(fitting))
            said = text_of_words(words)
            told_of[bug].append(said)
            is_named = any(phrase in said for phrase in phrases)
            tally.check(f"planted: {bug} {seed}: named", is_named, f"{text}{said}")
            small = smallest(told, report_of(program)).text
            report = report_of(program)(small.encode())
            again, _ = explained(Evidence(Recording(small), report), report_of(program))
            failing, named, small_named = failing + 1, named + is_named, small_named + any(phrase in text_of_words(again) for phrase in phrases)
            alike += words.causes[:1] == again.causes[:1]
        tally.check(f"planted: {bug}: how many fail, and are named", failing >= least and named == failing, (failing, named))
        tally.check(f"planted: {bug}: small traces have the same first cause", alike >= 0.9 * failing, (failing, alike))
        tally.check(f"planted: {bug}: named by most small traces too", small_named >= 0.8 * failing, (failing, small_named))
        print(f"{bug}: {failing} of {seeds} sessions fail, the words name the cause of {named}, those of small traces of {small_named}")
    in_gallery(tally, [told_of[bug] for bug, (_, _, phrases) in PLANTED.items() if phrases] + [
        lost_messages(tally, program, folder, bug, *wanted) for bug, wanted in LOST_MESSAGES.items()])
    done = subprocess.run([sys.executable, ROOT / "examples" / "planted" / "planted.py", "overtaking", "1", f"{folder}/planted.trace"], capture_output=True)
    got = explain(program, [f"{folder}/planted.trace"])
    states = subprocess.run([sys.executable, ROOT / "examples" / "planted" / "whole_states.py", f"{folder}/states.trace"], capture_output=True)
    tally.check("whole states: the example is what the engine records", states.returncode == 0 and Path(folder, "states.trace").read_text() ==
                (ROOT / "examples" / "whole_states_lost_text.trace").read_text(), states)
    tally.check("planted: by its own words", done.returncode == 0 and b"overtook it in line" in got.out and b"\n\nYour notes\n  planted.py overtaking 1\n\nThe list" in got.out,
                (done, got))


def kinds(tally: Tally, program: str, folder: str) -> None:
    """The kind of the editor, which a user names once: the words leave out what such an editor can't have, and say so where none is named."""
    path = Path(folder, "kinds.trace")
    path.write_text(text_of(2, "0 ins a 0 : a|1 ins b 0 : b|0 recv 1 1|1 recv 0 1|0 read : a b|1 read : b a"))
    hint = b"\nTo leave out causes that your editor can't have, name its kind by the option --editor or the variable DOMEPEELER_EDITOR: neighbours ("
    look = {"": "If the list is sorted by position identifiers, look at", "neighbours": "(neighbour, number, author)", "tree": "(parent, side, number, author)",
            "identifiers": "Print both identifiers", "positions": "Client and server must adjust in the same way"}
    for kind, wanted in look.items():
        got = explain(program, [*(["--editor", kind] if kind else []), str(path)])
        named = os.environ | ({"DOMEPEELER_EDITOR": kind} if kind else {})
        same = subprocess.run([sys.executable, EXPLAIN, "--program", program, str(path)], capture_output=True, env=named)
        told = got.out.decode()
        tally.check(f"kinds: {kind or 'none'}: the words", "Look at the order of concurrent inserts" in told and [phrase for phrase in look.values() if phrase in told] == [wanted]
                    and got.status == 1, told)
        tally.check(f"kinds: {kind or 'none'}: a word on kinds where none is named", (hint in got.out) == (not kind), told)
        tally.check(f"kinds: {kind or 'none'}: by the variable", (same.returncode, same.stdout, same.stderr) == (1, got.out, got.err), same)
    for words, variable in (["--editor", "rga"], ""), ([], "rga"), ([], " tree"):
        got = subprocess.run([sys.executable, EXPLAIN, "--program", program, *words, str(path)], capture_output=True, env=os.environ | {"DOMEPEELER_EDITOR": variable})
        many = subprocess.run([sys.executable, ROOT / "tools" / "judge_many", "--program", program, *words, str(path)], capture_output=True,
                              env=os.environ | {"DOMEPEELER_EDITOR": variable})
        for done in got, many:
            tally.check(f"kinds: {words} {variable!r}: none of that name", done.returncode == 2 and not done.stdout and b"neighbours" in done.stderr and b"positions" in done.stderr
                        and b"Traceback" not in done.stderr, done)
    cycle = str(ROOT / "examples" / "libinfinity_three_way_cycle.trace")
    put = "When replica 2 inserted [b] (2.1, line 7), it had [x] already (since line 5), and put [b] behind it: look at whether the message for that insert says so too, and its number."
    for kind, is_told in ("", False), ("neighbours", True), ("tree", True), ("identifiers", False), ("positions", False):
        told = explain(program, [*(["--editor", kind] if kind else []), cycle]).out.decode()
        tally.check(f"kinds: {kind or 'none'}: of three, what an author had", (put in told) == is_told, told)
    many = subprocess.run([sys.executable, ROOT / "tools" / "judge_many", "--program", program, "--editor", "identifiers", "--json", "--junit", f"{folder}/kinds.xml", str(path)],
                          capture_output=True)
    explained_there = Path(folder, "kinds.xml").read_text()
    tally.check("kinds: of many", many.returncode == 1 and "rint both identifiers" in explained_there and "If the list is sorted" not in explained_there
                and json.loads(many.stdout)["causes"] == ["concurrent", "identifiers"], (many, explained_there))
    turned = str(ROOT / "examples" / "prosemirror_text_changes_places.trace")
    own = "the replica's own changes that are still on their way are adjusted for an arriving change, and how that is adjusted for them (each for the unadjusted form of the other). If the editor takes its own changes back and applies them again, look at how it does that."
    of_turned = {"": "(rebasing), look at where that puts them.", "neighbours": "once both are inserted, their order must never change", "positions": f"Look at how {own}",
                 "identifiers": "Print the position identifiers of a, x and b at line 7."}
    for kind, wanted in of_turned.items():
        told = explain(program, [*(["--editor", kind] if kind else []), turned]).out.decode()
        tally.check(f"kinds: {kind or 'none'}: a replica that turns its own round", wanted in told and ("decides which of b and a" in told) == (kind != "positions")
                    and (" those of " in told) == (not kind), told)
    path.write_text(text_of(2, f"{BESIDE_DELETED}|0 recv 1 2|0 read : c d"))
    for kind, line in ("neighbours", 9), ("positions", 12):
        told = explain(program, ["--editor", kind, str(path)]).out.decode()
        tally.check(f"kinds: {kind}: what its author alone shows", (f"Look first at what is done in line 12: at how {own}" in told) == (kind == "positions")
                    and f"\n  stop before line {line} of the trace" in told and ("with what its message says." in told) == (kind == "neighbours"), told)
    path.write_text(text_of(2, "0 ins a 0 : a|0 ins b 1 : a b|1 recv 0 2|1 del a : b|0 recv 1 1|0 del a :"))
    nothing = "It looks as if 0.3 (line 8) deleted b. Its own element, a, was already deleted there, by 1.1 (line 6): such a delete must change nothing."
    for kind in "neighbours", "positions":
        told = explain(program, ["--editor", kind, str(path)]).out.decode()
        tally.check(f"kinds: {kind}: a second delete", (nothing in told) == (kind == "positions") and ("deleted b instead of a" in told) == (kind == "neighbours"), told)
    path.write_text(text_of(2, "0 ins t 0 : t|1 recv 0 1|1 ins s 0 : s t|1 ins x 0 : x s t|0 ins n 0 : n t|0 recv 1 2|0 read : n x s t|1 recv 0 2|1 read : x n s t"))
    inside = "1.3 (line 11) shows [n] between [x] and [s], though [x] was put directly before [s] by 1.2 (line 6), which did not know of it. In a tree"
    for kind in "neighbours", "tree":
        told = explain(program, ["--editor", kind, str(path)]).out.decode()
        tally.check(f"kinds: {kind}: what stands inside", (f"Where to look\n  {inside}" in told) == (kind == "tree") and ("Children of one parent must stand in one order" in told) == (
            kind == "tree"), told)
    path.write_text(text_of(2, "0 ins a 0 : a|1 recv 0 1|1 ins b 1 : a b|1 del b : a|0 ins c 1 : a c|1 recv 0 2|1 read : a b c"))
    told = explain(program, ["--editor", "neighbours", str(path)]).out.decode()
    tally.check("kinds: an own deleted element that comes back beside another", "Look at what the insert of c does there to the elements beside it: is a run (block) of them split" in told
                and "in line 8, b came back, which replica 1 had deleted itself by 1.2 (line 6)" in told, told)
    path.write_text(text_of(1, "0 ins a 0 : a|0 ins b 0 : a b"))
    for kind, wanted in ("neighbours", "If the editor decides by numbers"), ("tree", "Look at where a new child is put: b stands behind a"), ("identifiers", "Print the position"), ("positions", "Look at how"):
        first = explain(program, ["--editor", kind, str(path)]).out.decode().partition("Where to look\n  ")[2]
        tally.check(f"kinds: {kind}: a position", first.startswith(wanted), first)
    path.write_text(text_of(2, "0 ins a 0 : a|1 recv 0 1|1 read : a|1 del a :|0 ins c 1 : a c|1 ins b 0 : b|1 recv 0 2|1 read : b c|0 recv 1 3|0 read : c b"))
    own = "When replica 1 inserted [b] (line 8), a had been deleted at its place."
    for kind in "neighbours", "tree", "identifiers":
        told = explain(program, ["--editor", kind, str(path)]).out.decode()
        tally.check(f"kinds: {kind}: an own place", (f"Where to look\n  {own}" in told) == (kind != "identifiers") == ("; or before line 8, where replica 1 inserts b." in told), told)
    path.write_text(text_of(1, "0 ins a 0 : a"))
    tally.check("kinds: nothing of an accepted trace", hint not in explain(program, [str(path)]).out)


# By what is told first: the editor's kind, how many replicas there are, the entries, and the words.
FIRST_TOLD = {
    "deletes that stop at another's element": ("neighbours", 2, "0 ins a 0 : a|0 ins b 1 : a b|1 recv 0 2|1 ins c 1 : a c b|0 del a : b|0 del b :|1 recv 0 4|1 read : c b",
        "0.3 (line 7) was applied at replica 1, but not 0.4 (line 8), which was made right after that. If your editor sends the deletes of a and b as one change, it looks as if that was applied in part: look "
        "first at whether the delete goes on past c, which stood between these elements in 1.1 (line 6) and which replica 0 had not seen; then at what a replica does where one of several elements is gone"),
    "own changes on their way": ("positions", 3, "0 ins a 0 : a|1 recv 0 1|2 recv 0 1|1 read : a|2 read : a|1 ins b 1 : a b|1 del a : b|0 ins c 1 : a c|2 recv 0 2|2 read : a c|1 recv 0 2|1 read : b",
        "When 0.2 came in line 13, replica 1 had changes of its own on their way, which the author of 0.2 had not seen: the insert of b by 1.2 (line 8) and the delete of a by 1.3 (line 9). Replica 2 "
        "received 0.2 too, and shows c in 2.2 (line 12). So perhaps c was inserted rightly, and then removed by the delete of a. Look at how the replica's own changes that are still on their way are adjusted for an arriving change, and how that is adjusted for them (each for the unadjusted form of the other). If the editor takes its own changes back and applies them again, look at how it does that."),
    "a delete on its way that meets the same": ("positions", 2, "0 ins a 0 : a|0 ins b 1 : a b|1 recv 0 2|1 read : a b|1 del a : b|0 del a : b|0 ins c 1 : b c|1 recv 0 4|1 read : b",
        "When 0.4 came in line 10, replica 1 had changes of its own on their way, which the author of 0.4 had not seen: the delete of a by 1.2 (line 7). So perhaps c was inserted rightly, and then removed "
        "by the delete of a, since 0.3 (line 8) deletes a too. Look at"),
    "own changes that are gone": ("identifiers", 2, "0 ins a 0 : a|0 ins b 1 : a b|0 del a : b|0 read : a",
        "Replica 0 showed its own changes in 0.3 (line 5), and shows them no more: the insert of b by 0.2 (line 4) and the delete of a by 0.3 (line 5). No other replica shows that it has them. Was the replica's list replaced by a state from elsewhere that lacks them, or were they taken back and not applied again? Look also at the store of unconfirmed own changes, and at when they are removed from it."),
    "own changes that others have, gone when something came": ("", 2, "0 ins a 0 : a|0 ins b 1 : a b|1 recv 0 2|1 read : a b|1 ins c 2 : a b c|0 recv 1 2|0 read : c",
        "Replica 0 showed its own changes in 0.2 (line 4), and shows them no more: the insert of a by 0.1 (line 3) and the insert of b by 0.2 (line 4). Since then it received the insert of c by 1.2 "
        "(line 7). Was the replica's list replaced by a state from elsewhere"),
    "a place from before what came": ("neighbours", 2, "0 ins a 0 : a|0 ins b 1 : a b|0 ins c 2 : a b c|0 ins d 3 : a b c d|1 recv 0 4|1 del a : b c d|0 recv 1 1|0 ins e 2 : b e c d",
        "[e] stands directly before c. That place was position 2 in an older list: 0.4 (line 6) answered a b c d. After that came the delete of a by 1.1 (in line 9). Does the editor still use something from before that (a place, an offset, an index, a copy of the list)? Every kind of change that arrives must update it."),
    "an order that a delete hides": ("neighbours", 3, "0 ins n 0 : n|1 ins o 0 : o|2 recv 0 1|2 recv 1 1|2 read : n o|2 ins l 1 : n l o|0 del n :|0 recv 1 1|0 read : o|0 recv 2 2|0 read : o l",
        "[l] was put directly behind n (0.1 (line 3)), and n and [o] were inserted at the front without knowing of each other. n is deleted at replica 0, which never showed n and [o] together: perhaps it still keeps n, but on the other side of [o] than replica 2 has it. Then "
        "[l], put rightly beside n, stands there too. So look first at where these concurrent inserts were put when they arrived: n in line 5 (replica 2), o in line 6 (replica 2) and o in line 10 (replica 0)."),
    "one replica alone in its order": ("positions", 3, "2 ins a 0 : a|2 ins b 0 : b a|1 ins c 0 : c|2 recv 1 1|2 read : b c a|0 recv 1 1|0 recv 2 1|0 read : a c|1 recv 2 1|1 read : a c",
        "Replicas 0 and 1 show a before c. Replica 2 alone shows them the other way round, first in 2.3 (line 7): so look first at what it did in line 6, when 1.1 came. When 1.1 arrived, replica 2 had two changes of its own that the author of 1.1 did not know yet: the insert of a by 2.1 (line 3) and the insert of b by 2.2 (line 4). Adjust 1.1 for each of these, one after another; and adjust each of these for 1.1."),
    "one replica alone, with one change on its way": ("positions", 3, "2 ins a 0 : a|1 ins c 0 : c|2 recv 1 1|2 read : c a|0 recv 1 1|0 recv 2 1|0 read : a c|1 recv 2 1|1 read : a c",
        "Replicas 0 and 1 show a before c. Replica 2 alone shows them the other way round, first in 2.2 (line 6): so look first at what it did in line 5, when 1.1 came. When 1.1 arrived, replica 2 had one change of its own that the author of 1.1 did not know yet, the insert of a by 2.1 (line 3): this and 1.1 must each be adjusted for the other."),
    "an order that its author knew, with one change on its way": ("positions", 2, "0 ins a 0 : a|1 recv 0 1|1 read : a|1 ins c 1 : a c|0 ins b 0 : b a|1 recv 0 2|1 read : a b c",
        "When replica 0 inserted [b] (0.2, line 7), it had [a] already, and put [b] before it. That order must hold everywhere, but 1.3 (line 9) shows [b] behind [a]. Look at the message that replica 0 made "
        "for that insert, and at where replica 1 placed it in line 8. Client and server must adjust in the same way, and each change only once. When 0.2 arrived, replica 1 had one change of its own that the author of 0.2 did not "
        "know yet, the insert of c by 1.2 (line 6): this and 0.2 must each be adjusted for the other."),
    "a delete that hits what came with it": ("positions", 2, "0 ins a 0 : a|0 ins b 1 : a b|0 del b : a|1 recv 0 3|1 read : b",
        "It looks as if 0.3 (line 5), applied at replica 1, deleted a instead of b"),
    "an insert into a deleted range": ("positions", 3, "2 ins a 0 : a|2 ins b 1 : a b|1 recv 2 2|1 read : a b|2 ins c 2 : a b c|2 ins e 1 : a e b c|2 del b : a e c|2 del c : a e|1 ins d 2 : a b d|"
        "2 recv 1 2|2 read : a d e|1 recv 2 4|1 read : a e b d c",
        "When [d] arrived at replica 2 in line 12, b and c, between which it belongs, had been deleted there, one directly after the other, by 2.5 (line 9) and 2.6 (line 10): it may be an insert into the middle "
        "of a deleted range. Look at how such an insert is adjusted: it must go to where the range began, no further to the left. Look also at how the delete of a range is adjusted for it."),
    "a third replica that has applied it": ("neighbours", 3, "0 ins a 0 : a|1 recv 0 1|1 read : a|2 recv 0 1|2 read :",
        "It looks as if 0.1 (line 3) was not applied at replica 2: lost, or held back, or `received` is called before the change is applied. Replica 1 has applied 0.1, as 1.1 (line 5) shows: so look at "
        "replica 2.\n"),
    "a third replica that has not applied it either": ("neighbours", 3, "0 ins a 0 : a|1 recv 0 1|1 read :|2 recv 0 1|2 read :",
        "It looks as if 0.1 (line 3) was not applied at replica 1: lost, or held back, or `received` is called before the change is applied. Replica 2 has not applied 0.1 either, as 2.1 (line 7) shows: so "
        "look also at what is sent.\n"),
    "a change that is shown later, with nothing between": ("neighbours", 2, "0 ins a 0 : a|1 recv 0 1|1 read :|1 ins b 0 : b a",
        "It looks as if 0.1 (line 3) was not applied at replica 1: lost, or held back, or `received` is called before the change is applied. But 1.2 (line 6) shows it applied, though nothing was received in "
        "between: so it had arrived, and the list shown before was out of date. Is each list that is kept for showing, such as a cache, made anew after every change, remote ones too?\n"),
    "a change that is shown later, behind another": ("neighbours", 2, "0 ins a 0 : a|1 recv 0 1|1 read :|0 ins b 1 : a b|1 recv 0 2|1 read : a b",
        "It looks as if 0.1 (line 3) was not applied at replica 1: lost, or held back, or `received` is called before the change is applied. 1.2 (line 8) shows it applied, after the arrival in line 7: "
        "perhaps it was held back until then, or its receipt was written too early.\n"),
    "a delete that may have come before its element": ("tree", 2, "0 ins a 0 : a|0 del a :|1 recv 0 1|1 recv 0 2|1 read : a",
        "It looks as if 0.2 (line 4) was not applied at replica 1: lost, or held back, or `received` is called before the change is applied. If it arrived before the insert of a, look at the place where deletes wait until their element arrives: a second one must not overwrite the first, and each must be tried again then.\n"),
    "an insert that came twice, its element deleted between": ("", 2, "0 ins a 0 : a|1 recv 0 1|1 read : a|1 del a :|1 recv 0 1|1 read : a",
        "0.1 (the insert of a) arrived at replica 1 in line 4, and once more in line 7, after a had been deleted there, by 1.2 (line 6). Look at whether the editor passes over what it has received before; "
        "one that throws deleted elements away must still know which changes it has had.\n"),
    "an insert that came twice": ("", 2, "0 ins a 0 : a|1 recv 0 1|1 recv 0 1|1 read : a a",
        "0.1 (the insert of a) arrived at replica 1 in line 4, and once more in line 5. Look at whether the editor passes over what it has received before.\n"),
    "an element too many, whose insert came twice before it was deleted": ("", 2, "0 ins a 0 : a|1 recv 0 1|1 recv 0 1|1 read : a|1 del a : a", "The replica received nothing between 1.1 (line 6) and this response"),
    "identifiers before a place that was": ("identifiers", 2, "0 ins a 0 : a|0 ins b 1 : a b|0 ins c 2 : a b c|0 ins d 3 : a b c d|1 recv 0 4|1 del a : b c d|0 recv 1 1|0 ins e 2 : b e c d",
        "Print the position identifiers of"),
    "identifiers where an author is alone": ("identifiers", 2, f"{BESIDE_DELETED}|0 recv 1 2|0 read : c d", "Print the position identifiers of"),
}


def first_told(tally: Tally, program: str, folder: str) -> None:
    """What is told first, and where a debugger stops by it, where the editor's kind is named; and that nothing stands alone as what is left."""
    path = Path(folder, "first.trace")
    for name, (kind, replicas, entries, words) in FIRST_TOLD.items():
        path.write_text(text_of(replicas, entries))
        told = explain(program, [*(["--editor", kind] if kind else []), str(path)]).out.decode()
        first = told.partition("Where to look\n  ")[2]
        tally.check(f"first told: {name}", first.startswith(words), f"{path.read_text()}{told}")
        if "one replica alone" in name:
            tally.check(f"first told: {name}: the debugger", f"\n  stop before line {'6' if 'with one' not in name else '5'} of the trace, where replica 2 applies 1.1" in told, told)
    path.write_text(text_of(3, "0 ins a 0 : a|0 ins b 1 : a b|1 recv 0 2|2 recv 0 2|1 read : a b|1 del b : a|1 ins c 1 : a c|0 ins d 2 : a b d|1 recv 0 3|1 read : a c d|0 recv 1 3|0 read : a d c|"
                               "2 recv 0 3|2 recv 1 3|2 read : a d c"))
    for kind in "neighbours", "identifiers":
        told = explain(program, ["--editor", kind, str(path)]).out.decode()
        tally.check(f"first told: {kind}: an own place that its author alone shows", ("them: a local insert must find its place by the same search as an incoming one. Replicas 0 and 2 received it, and agree on "
                    "its place. Replica 1 alone, which inserted it, shows it elsewhere: so start with this." in told) == (kind == "neighbours"), told)
        tally.check(f"first told: {kind}: an own place that its author alone shows: the debugger", ("\n  stop before line 9 of the trace, where replica 1 inserts c" in told) == (kind == "neighbours"), told)
    path.write_text(text_of(3, "0 ins a 0 : a|0 ins b 1 : a b|1 recv 0 2|2 recv 0 2|1 read : a b|2 read : a b|1 del a : b|0 del b : a|1 recv 0 3|1 read :|2 recv 0 3|2 read : a|0 recv 1 2|0 read : a|"
                               "2 recv 1 2|2 read : a"))
    for kind in "positions", "neighbours":
        told = explain(program, ["--editor", kind, str(path)]).out.decode()
        waited = "Between 1.2 and its first arrival elsewhere (line 15) replica 1 received 0.3 (line 11): so stop before line 11 too, and look at how the replica's own changes that are still on their way"
        tally.check(f"first told: {kind}: a change that its author had adjusted", (waited in told) == (kind == "positions") and "Replica 2 has not applied 1.2 either, as 2.3 (line 18) shows: so look also "
                    "at what is sent" in told, told)
    path.write_text(text_of(3, "0 ins a 0 : a|0 ins b 1 : a b|1 recv 0 2|2 recv 0 2|1 read : a b|2 read : a b|0 del a : b|1 recv 0 3|1 read : a|2 recv 0 3|2 read : a"))
    for kind, server in ("positions", ", and at what the server (if it adjusts positions) makes of that"), ("neighbours", ""):
        told = explain(program, ["--editor", kind, str(path)]).out.decode()
        tally.check(f"first told: {kind}: a delete that is wrong at two replicas", f"Replica 2 lacks b too, in 2.2 (line 13): so look first at what is sent{server}, and only then at replica 1. It looks as if" in told, told)
    own = "When 0.2 arrived, replica 1 had two changes of its own that the author of 0.2 did not know yet: the insert of b by 1.2 (line 6) and the delete of a by 1.3 (line 7). Adjust 0.2 for each of these, one after another; and adjust each of these for 0.2."
    twice = "0 ins a 0 : a|1 recv 0 1|1 read : a|1 ins b 1 : a b|1 del a : b|0 del a :|1 recv 0 2|1 read :"
    for name, entries, lacks in ("alone", "", False), ("and a third that has got its delete", "|2 recv 1 3|2 recv 0 2|2 read :", False), ("and a third that hasn't", "|2 recv 1 2|2 recv 0 2|2 read :", True):
        path.write_text(text_of(3, twice + entries))
        told = explain(program, ["--editor", "positions", str(path)]).out.decode()
        tally.check(f"first told: a delete that meets own ones, {name}", "It looks as if 0.2 (line 8), applied at replica 1, deleted b." in told and (own in told) == (not lacks) and (
            "Replica 2 lacks b too, in 2.1 (line 13): so look first at what is sent" in told) == lacks, told)
    path.write_text(text_of(3, "0 ins a 0 : a|0 ins b 1 : a b|1 recv 0 2|2 recv 0 2|2 read : a b|1 read : a b|0 del a : b|2 recv 0 3|2 read : a|1 ins c 2 : a b c|1 recv 0 3|1 read : a c"))
    for kind in "positions", "neighbours":
        told = explain(program, ["--editor", kind, str(path)]).out.decode()
        tally.check(f"first told: {kind}: a delete that is wrong at the server too", (
            "Replica 1 lacks b too, in 1.3 (line 14): so look first at what is sent, and then at replica 2, which changes nothing itself. If that is the server, look at how" in told) == (
                kind == "positions") and "and only then at replica 2" not in told or kind == "neighbours", told)
    path.write_text(text_of(2, "|".join([*(f"{r} ins {name} {n} : {' '.join(names[:n + 1])}" for r, names in enumerate(("abcd", "wxyz")) for n, name in enumerate(names)), *(
        f"{r} recv {1 - r} {n}" for r in (1, 0) for n in (1, 2, 4)), "0 read : a b c d w x z", "1 read : w x y z a b d"])))
    told = explain(program, [str(path)]).out.decode()
    tally.check("first told: of what was lost at two replicas, one is looked at first", re.search(
        r"\nWhere to look\n  Look first at whether 1\.3 was lost on its way to replica 0: .*\n  Look also at whether 0\.3 \(line 5\) was lost on its way to replica 1, ", told) is not None, told)
    path.write_text(text_of(2, "0 ins a 0 : a|0 ins b 1 : a b|0 ins c 2 : a b c|1 recv 0 3|1 ins x 0 : x a b c|1 del c : x a b|0 recv 1 2|0 ins e 2 : x a b e"))
    told = explain(program, [str(path)]).out.decode()
    tally.check("first told: a place behind what stood there before", "\n  [e] stands directly behind b. That place was position 2 in an older list: 0.3 (line 5) answered a b c. After that came the insert of x by 1.1 (in line 9) "
                "and the delete of c by 1.2 (in line 9). Does the editor" in told, told)
    names = [f"n{i}" for i in range(30)]
    path.write_text(text_of(2, "|".join([*(f"0 ins {name} {i} : {' '.join(names[:i + 1])}" for i, name in enumerate(names)), "1 recv 0 30", f"1 del n0 : {' '.join(names[1:])}", "0 recv 1 1",
                                         f"0 ins e 20 : {' '.join([*names[1:20], 'e', *names[20:]])}"])))
    told = explain(program, [str(path)]).out.decode()
    tally.check("first told: a place in a long list from before what came", "\n  [e] stands directly before n20. That place was position 20 in an older list: 0.30 (line 32) answered n0 .. n19 n20 n21 .. n29 "
                "(30 names). After that came the delete of n0 by 1.1 (in line 35). Does the editor" in told, told)
    path.write_text(text_of(2, "0 ins a 0 : a|0 ins b 1 : a b|0 ins c 2 : a b c|1 recv 0 3|1 read : a b c|0 del a : b c|1 ins d 1 : a d b c|1 del c : a d b|0 recv 1 2|0 recv 1 3|0 read : b c"))
    told = explain(program, [str(path)]).out.decode()
    tally.check("first told: a delete behind an insert that nothing shows, and that a delete met", "had not seen. Or perhaps d was put at a wrong place already, in line 11, by 1.2, whose author had "
                "not seen the delete of a by 0.4 (line 8)." in told, told)
    path.write_text(text_of(2, "0 ins a 0 : a|1 ins b 0 : b|0 recv 1 1|0 ins c 1 : b c a|1 recv 0 1|1 recv 0 2|1 read : a b c"))
    told = explain(program, [str(path)]).out.decode()
    tally.check("first told: another pair in two orders", "\n  When replica 0 inserted [c] (0.2, line 6), it had [a] already, and put [c] before it." in told and "\n  a and b stand in two orders in these two lists too; b was "
                "inserted by 1.1 (line 4), whose author did not know a, nor the author of a b. If that is the fault, look at where replica 1 placed a in line 7.\n" in told, told)
    for what, entries in ("shown alike", "1 read : b a c"), ("by an author who knew the other", "1 read : a b c"):
        path.write_text(text_of(2, f"0 ins a 0 : a|1 recv 0 1|1 ins b 1 : a b|0 recv 1 1|0 ins c 0 : c a b|1 recv 0 2|{entries}" if "knew" in what else
                                f"0 ins a 0 : a|1 ins b 0 : b|0 recv 1 1|0 ins c 1 : b c a|1 recv 0 1|1 recv 0 2|{entries}"))
        told = explain(program, [str(path)]).out.decode()
        tally.check(f"first told: another pair in two orders, none: {what}", told.startswith("refused 2: ") and "in two orders in these two lists too" not in told, told)
    counted_twice = "Before that, a was deleted at replica 0 more than once: by 0.4 (line 9), and by 1.2, which came in line 10. If the editor counts how many elements it shows"
    begun = "0 ins a 0 : a|0 ins b 1 : a b|0 ins c 2 : a b c|1 recv 0 3|1 read : a b c|1 del a : b c|0 del a : b c|0 recv 1 2|0 read : b c"
    for kind in "", "tree", "positions":
        for what, entries in ("a wrong position", "0 ins d 1 : b c d"), ("a wrong delete", "0 del b : b"):
            path.write_text(text_of(2, f"{begun}|{entries}"))
            told = explain(program, [*(["--editor", kind] if kind else []), str(path)]).out.decode()
            tally.check(f"first told: {kind}: an element that was deleted twice, {what}", (counted_twice in told) == (kind != "positions"), told)
    path.write_text(text_of(2, "0 ins a 0 : a|1 recv 0 1|0 del a :|1 del a :|0 recv 1 1|1 recv 0 2|0 ins b 0 : b|1 recv 0 3|1 ins c 1 : b c|0 recv 1 2|0 read : c b"))
    for kind in "positions", "tree":
        told = explain(program, ["--editor", kind, str(path)]).out.decode()
        tally.check(f"first told: {kind}: of an order that its author knew, a delete before that became nothing", (
            "Before that, in line 8, replica 1 received 0.2, which deletes a. Replica 1 had deleted a itself, by 1.1 (line 6), so 0.2 had nothing left to delete there." in told) == (kind == "positions"), told)
    back = "0 ins a 0 : a|0 ins b 1 : a b|0 ins c 2 : a b c|1 recv 0 3|1 read : a b c|0 del b : a c|1 recv 0 4|1 read : a c|1 del a : c|2 recv 0 3|2 read : a b c"
    for what, entries in ("an insert", "2 ins d 2 : a b d c"), ("a delete", "2 del a : b c"), ("several", "2 del a : b c|2 ins d 1 : b d c"):
        shown = "b d c" if "ins" in entries else "b c"
        path.write_text(text_of(3, f"{back}|{entries}|1 recv 2 {2 + (what == 'several')}|1 read : {shown}"))
        begins = {"an insert": "When the insert of d by 2.2 (line 14) came in line 15, b came back", "a delete": "When the delete of a by 2.2 (line 14) came in line 15, b came back",
                  "several": "When the delete of a by 2.2 (line 14) and the insert of d by 2.3 (line 15) came, b came back"}[what]
        does = {"an insert": "the insert of d does", "a delete": "the delete of a does", "several": "each of these changes does"}[what]
        words = (f"{begins}, which was deleted at replica 1 before, by 0.4 (line 8), and not shown in 1.3 (line 11). Look at what {does} there to the elements beside it: is a run (block) of them split, or made "
                 "anew, without the mark that they are deleted?")
        came = {"an insert": "2.2 (line 15, inserts d)\n\n", "a delete": "2.2 (line 15, deletes a, already deleted at replica 1 by 1.3)\n\n",
                "several": "2.3 (line 16, inserts d)\n\n"}[what]
        for kind in "", "neighbours", "positions":
            told = explain(program, [*(["--editor", kind] if kind else []), str(path)]).out.decode()
            tally.check(f"first told: {kind}: what another had deleted came back, by {what}", (words in told) == (kind != "positions") and (
                f"since then it received {came}") in told, told)
    path.write_text(text_of(3, "0 ins a 0 : a|0 ins b 1 : a b|1 recv 0 2|2 recv 0 2|1 ins c 1 : a c b|2 ins d 1 : a d b|0 del a : b|0 del b :|2 recv 0 4|2 read : d b|1 recv 0 4|1 read : c b"))
    told = explain(program, ["--editor", "neighbours", str(path)]).out.decode()
    tally.check("first told: deletes that stop at others' elements, at two replicas", "0.4 (line 10) was not applied at replica 2: lost, or held back, or `received` is called before the change is applied.\n" in told, told)
    path.write_text(text_of(2, "0 ins a 0 : a|0 ins b 1 : a b|1 recv 0 2|1 read : a b|0 del a : b|1 recv 0 3|1 read : a b"))
    missed = "If the list is searched by identifiers, print those of the elements that 1.1 (line 6) shows: where they do not rise, the search misses. Then look at how the identifier that is out of order was made."
    for kind in "identifiers", "neighbours", "positions":
        told = explain(program, ["--editor", kind, str(path)]).out.decode()
        tally.check(f"first told: {kind}: a delete that a search may miss", "0.3 (line 7) was not applied at replica 1" in told and (missed in told) == (kind == "identifiers"), told)
    path.write_text(text_of(2, "0 ins a 0 : a|1 recv 0 1|1 ins b 0 : b a|0 recv 1 1|0 read : a b"))
    for kind, line, doing in ("identifiers", 5, "replica 1 inserts b"), ("neighbours", 6, "replica 0 applies 1.1"):
        told = explain(program, ["--editor", kind, str(path)]).out.decode()
        tally.check(f"first told: {kind}: where an identifier is made: the debugger", f"\n  stop before line {line} of the trace, where {doing}; if nothing is wrong there, stop at" in told, told)
    rivals = "b and a were inserted into one gap without knowing of each other. Which of them comes first must be decided by a rule that never ties and is the same on client and server (compare the replicas' numbers, for instance, and not the inserted letters, which may be equal)"
    for what, entries, is_rival in (
            ("into nothing", "0 ins a 0 : a|1 ins b 0 : b|0 del a :|1 recv 0 1|1 read : b a|1 recv 0 2|1 read : a", True),
            ("beside what the other had not", "0 ins x 0 : x|0 ins a 1 : x a|1 ins c 0 : c|1 ins b 0 : b c|0 del a : x|1 recv 0 2|1 read : x b a c|1 recv 0 3|1 read : x a c", True),
            ("beside what both had", "0 ins x 0 : x|1 recv 0 1|1 read : x|1 ins b 0 : b x|0 ins a 1 : x a|0 del a : x|1 recv 0 2|1 read : b x a|1 recv 0 3|1 read : x a", False)):
        path.write_text(text_of(2, entries))
        for kind in "positions", "tree":
            told = explain(program, ["--editor", kind, str(path)]).out.decode()
            tally.check(f"first told: {kind}: a delete of one of two at a place, {what}", "deleted b instead of a" in told and (rivals in told) == (is_rival and kind == "positions"), told)
    older = "0 ins a 0 : a|0 ins b 1 : a b|0 ins c 2 : a b c|0 ins d 3 : a b c d|1 recv 0 4|1 read : a b c d|2 recv 0 4|2 read : a b c d|0 del a : b c d|1 recv 0 5|1 read : b c d"
    path.write_text(text_of(3, f"{older}|2 ins z 4 : a b c d z|1 recv 2 2|1 read : a b c d z"))
    told = explain(program, ["--editor", "neighbours", str(path)]).out.decode()
    tally.check("first told: what came back at the other end of what came", "a came back, which was deleted at replica 1 before, by 0.5 (line 11), and not shown in 1.2 (line 13). Look at what applies that: is an element that is "
                "marked as deleted shown again" in told and "split" not in told, told)
    range_of = "0 ins a 0 : a|0 ins b 1 : a b|2 recv 0 2|1 recv 0 2|1 read : a b|1 ins c 1 : a c b"
    for what, entries in ("of two authors", "|0 del a : b|2 del b : a|1 recv 0 3|1 recv 2 1|1 read :"), ("a single one", "|0 del a : b|1 recv 0 3|1 read : b"):
        path.write_text(text_of(3, f"{range_of}{entries}"))
        told = explain(program, [str(path)]).out.decode()
        tally.check(f"first told: deletes that are no range, {what}", "deleted c along with a" in told and "what deletes a range" not in told, told)
    gone = "0 ins a 0 : a|0 ins b 1 : a b|0 ins c 2 : a b c|0 ins d 3 : a b c d|1 recv 0 4|1 read : a b c d|2 recv 0 4"
    both = "|1 del a : b c d|0 del a : b c d|1 del b : c d|0 del b : c d"
    for what, entries, last in (("the last of two", f"{both}|0 recv 1 2|0 recv 1 3|0 read : c d", "Before that, b was deleted at replica 0 more than once: by 0.6 (line 13), and by 1.3, which came in line 15."),
                               ("and one elsewhere", f"{both}|0 recv 1 2|1 recv 0 6|1 read : c d|0 read : c d",
                                "Before that, a was deleted at replica 0 more than once: by 0.5 (line 11), and by 1.2, which came in line 14.")):
        path.write_text(text_of(3, f"{gone}{entries}|0 ins e 1 : c d e|0 recv 1 3"))
        told = explain(program, ["--editor", "tree", str(path)]).out.decode()
        tally.check(f"first told: an element that was deleted twice, {what}", last in told and told.count("more than once") == 1, told)
    unseen = "The author of 0.3 and 0.4 had not seen c: a delete of a range, by elements or by positions, must leave out what its author had not seen."
    for what, entries in ("had not seen", ""), ("had seen", "|0 recv 1 2|0 read : a c b"):
        path.write_text(text_of(2, f"0 ins a 0 : a|0 ins b 1 : a b|1 recv 0 2|1 read : a b|1 ins c 1 : a c b{entries}|0 del a : {'c b' if entries else 'b'}|0 del b :{' c' if entries else ''}|"
                                   f"1 recv 0 {5 if entries else 4}|1 read :"))
        told = explain(program, [str(path)]).out.decode()
        tally.check(f"first told: a range whose deletes took what their author {what}", "deleted c along with a and b" in told and (unseen in told) == (not entries), told)
    path.write_text(text_of(3, "0 ins a 0 : a|2 recv 0 1|2 read : a|1 recv 0 1|1 read : a|0 ins b 1 : a b|1 ins c 1 : a c|2 recv 1 2|2 read : a c|0 recv 1 2|0 read : a b c|1 del a : c|2 recv 1 3|2 read : a|"
                               "1 recv 0 2|1 read : c|2 recv 0 2|2 read : a"))
    sent = "Look first at whether replica 0 has sent 0.2 (line 8) at all: no receipt anywhere names it, but for those written by the call `delivered`, which says that everything has arrived everywhere."
    for beside, is_told in ("20\ndelivered 17 20\n", True), ("20\n", False):
        Path(f"{path}.lines").write_text(beside)
        told = explain(program, ["--editor", "positions", str(path)]).out.decode()
        tally.check(f"first told: a change that was never sent, {is_told}", (sent in told) == is_told, told)
    Path(f"{path}.lines").unlink()
    for entries, place in ("0 ins d 1 : a b c d", "position 3, the end of the list"), ("0 ins d 2 : a b c d", "position 3"), ("0 ins d 0 : a b d c", "position 2"):
        path.write_text(text_of(1, f"0 ins a 0 : a|0 ins b 1 : a b|0 ins c 2 : a b c|{entries}"))
        told = explain(program, [str(path)]).out.decode()
        tally.check(f"a place that may be where none was found: {entries}", f"\n  found at: {place}\n" in told, told)
    among = "[b] arrived at replica 0 together with others, with no list shown between (line 5 to line 6): perhaps it had been held back, and was released then. Look at whether a released change does all that others do, such as advancing the clock."
    came = "1 ins a 0 : a|1 ins b 1 : a b|0 recv 1 1|0 recv 1 2|0 read : a b"
    for name, entries in ("a wrong position", f"{came}|0 ins c 1 : a b c"), ("an order that its author knew", f"{came}|0 ins c 1 : a c b|1 recv 0 2|1 read : a b c"), (
            "read between", f"{came.replace('|0 recv 1 2', '|0 read : a|0 recv 1 2')}|0 ins c 1 : a b c"):
        path.write_text(text_of(2, entries))
        for kind in "neighbours", "identifiers":
            told = explain(program, ["--editor", kind, str(path)]).out.decode()
            tally.check(f"first told: {kind}: what came among others, {name}", (among in told) == (kind == "neighbours" and name != "read between"), told)
    path.write_text(text_of(2, "0 ins a 0 : a|0 del a :|1 recv 0 1|1 recv 0 2|1 read : a|1 del a :|1 read :"))
    told = explain(program, [str(path)]).out.decode()
    tally.check("first told: nothing of what another delete did", "0.2 (line 4) was not applied at replica 1" in told and "shows it applied, " not in told, told)
    both = "0 ins a 0 : a|0 ins b 1 : a b|1 recv 0 2|1 read : a b|0 del a : b|1 del a : b|1 recv 0 3|1 read : b|0 recv 1 2|0 ins c 1 : b c|1 recv 0 4|1 read : b"
    for kind in "positions", "neighbours":
        path.write_text(text_of(2, both))
        told = explain(program, ["--editor", kind, str(path)]).out.decode()
        tally.check(f"first told: {kind}: a delete that became nothing", ("\n  Before that, in line 11, replica 0 received 1.2, which deletes a. Replica 0 had deleted a itself, by 0.3 (line 7), so 1.2 had nothing left to delete there." in told)
                    == (kind == "positions") and "It looks as if 0.4 (line 12) was not applied at replica 1" in told, told)
    path.write_text(text_of(2, "0 ins x 0 : x|0 ins y 1 : x y|1 recv 0 2|1 read : x y|1 del x : y|0 ins z 1 : x z y|1 recv 0 3|1 read : y"))
    for kind in "identifiers", "neighbours":
        first = explain(program, ["--editor", kind, str(path)]).out.decode().partition("Where to look\n  ")[2]
        tally.check(f"first told: {kind}: a cause stands before what is left", not first.startswith("If ") and first.count("If none of these") <= first.split("In a debugger")[0].count("\n") - 3, first)


def named_as_operations(tally: Tally, program: str, folder: str) -> None:
    """Elements that a user names as operations are named, 0.2 or so, are told apart from these in the words, and stay as they are in a small trace."""
    path, small = Path(folder, "dotted.trace"), Path(folder, "dotted_small.trace")
    entries = "0 ins {0} 0 : {0}|1 ins {1} 0 : {1}|0 recv 1 1|1 recv 0 1|0 read : {0} {1}|1 read : {1} {0}"
    longest = "1." + "2" * 30
    for first, then, shown in ("1.7", "0.12", ("e1.7", "e0.12")), ("1.7", "e0.12", ("ee1.7", "e0.12")), ("1.7.2", "a1.7", ("1.7.2", "a1.7")), (longest, "1.7", (longest, "1.7")):
        path.write_text(text_of(2, entries.format(first, then)))
        got = explain(program, ["--small", str(small), str(path)])
        told = got.out.decode()
        letters = shown[0].removesuffix(first)
        like = first if letters else ""
        is_said = f"({letters}{like} is your element {like}, and {like} alone the operation: their names look alike.)" in told.splitlines()[0] if letters else "is your element" not in told
        tally.check(f"named as operations: {first} {then}", is_said and f"[{shown[0]}] before [{shown[1]}]: line 7 of the trace, 0.2: replica 0 read the list, answered [{shown[0]}] [{shown[1]}]" in told
                    and f"{shown[0]}: inserted by 0.1 (line 3)" in told and got.status == 1, told)
        tally.check(f"named as operations: {first} {then}: a small trace", sorted(small.read_text().splitlines()) == sorted(path.read_text().splitlines()), small.read_text())
        many = subprocess.run([sys.executable, ROOT / "tools" / "judge_many", "--program", program, "--junit", f"{folder}/dotted.xml", str(path)], capture_output=True)
        tally.check(f"named as operations: {first} {then}: in JUnit", many.returncode == 1 and f"[{shown[0]}] before [{shown[1]}]: line 7" in Path(folder, "dotted.xml").read_text(), many)
    path.write_text(text_of(1, "0 ins 0.1 0 : 0.1"))
    tally.check("named as operations: accepted", "accepted: the only response" in explain(program, [str(path)]).out.decode() and "e0.1" not in explain(program, [str(path)]).out.decode())


def lost_messages(tally: Tally, program: str, folder: str, bug: str, seeds: int, least: int, share: float) -> list:
    """Random sessions in which changes are lost on their way: where one fails, the words say that one of these was lost, and on its way where; and so
    do most of the words on small traces. Answers the words."""
    def is_named(told: str, lost: list) -> bool:
        look = told.partition("\nWhere to look\n")[2].partition("\n\n")[0].splitlines()
        return any(re.search(rf"\b{re.escape(name)}\b.*\breplica {replica}\b", line) and "lost" in line and "does it lose" not in line
                   for name, replica in lost for line in look)

    said, unnamed, small_named = [], [], 0
    for seed in range(seeds):
        recording = planted.session(bug, seed)
        recording.save(f"{folder}/lost.trace")
        notes = Path(folder, "lost.trace.lines").read_text()
        lost = re.findall(r"^note (\S+) is lost on its way to replica (\d)$", notes, re.MULTILINE)
        ranges = [tuple(map(int, pair)) for pair in re.findall(r"^delivered (\d+) (\d+)$", notes, re.MULTILINE)]
        report = report_of(program)(recording.text().encode())
        if not lost or report["weak" if bug in planted.BEHIND_SERVER else "strong"]:
            continue
        words, told = explained(Evidence(Recording(recording.text(), ranges), report), report_of(program), weak=True)
        said.append(text_of_words(words))
        unnamed += [] if is_named(said[-1], lost) else [(seed, lost, said[-1])]
        small = smallest(told, report_of(program))
        delivered = tuple((at, at) for at, line in enumerate(small.lines, 3) if any(first <= line <= last for first, last in ranges))
        report = report_of(program)(small.text.encode())
        again, _ = explained(Evidence(Recording(small.text, delivered), report), report_of(program), weak=True)
        names = {operation.name: name for name, operation in small.operations}
        small_named += is_named(text_of_words(again), [(names[name], replica) for name, replica in lost if name in names])
    named = len(said) - len(unnamed)
    tally.check(f"lost messages: {bug}: named by what is elsewhere", bug == "lost" or any(
        ", though at another replica it has one. " in words for words in said))
    tally.check(f"lost messages: {bug}", len(said) >= least and named >= share * len(said), (len(said), named, unnamed[:3]))
    tally.check(f"lost messages: {bug}: named by most small traces too", small_named >= 0.8 * len(said), (len(said), small_named))
    print(f"{bug}: {len(said)} of {seeds} sessions fail, the words name a lost change and its replica in {named}, those of small traces in {small_named}")
    return said


def receive_several(recording: planted.Recording, bug: str, rnd: planted.Random, replica: int, engine: planted.Rga, waiting: list) -> bool:
    """As `planted.receive`, but an update may carry several changes of an author, with one receipt for the last."""
    has, taken = recording.clock(replica), []
    while not taken or rnd.random() < 0.4:
        ready = [one for one in waiting if all(count - (other == one[0]) <= has[other] for other, count in enumerate(one[2]))
                 and (not taken or one[0] == taken[0][0])]
        if not ready:
            break
        taken.append(min(ready, key=lambda one: one[1]) if taken else rnd.choice(ready))
        waiting.remove(taken[-1])
        has[taken[0][0]] += 1
        engine.apply(taken[-1][3])
    if taken:
        recording.received(replica, taken[0][0], taken[-1][1])
        recording.read(replica, engine.names())
    return bool(taken)


def updates_of_several(tally: Tally, program: str) -> None:
    """Where one receipt stands for several changes, and none was lost, the words do not begin with a loss."""
    alone, failing, lost = planted.receive, 0, []
    planted.receive = receive_several
    for seed in range(60):
        text = planted.session("tie", seed, 30).text()
        report = report_of(program)(text.encode())
        if not report["strong"]:
            said = text_of_words(explained(Evidence(Recording(text), report), report_of(program))[0])
            failing, lost = failing + 1, lost + ([said] if "lost on" in said or "No receipt" in said else [])
    planted.receive = alone
    tally.check("updates of several changes: no lost one", failing >= 45 and len(lost) <= 1, (failing, lost))


def in_gallery(tally: Tally, told_of: list) -> None:
    """The gallery's table has for each planted bug the verdicts of its sessions, and words that some of them are told."""
    table = re.findall(r"^\| (.+) \| (`.+`) \| (\*.+\*) \|$", (ROOT / "docs" / "gallery.md").read_text(), re.MULTILINE)
    tally.check("gallery: each planted bug", len(table) == len(told_of), table)
    for (bug, verdicts, words), told in zip(table, told_of):
        kinds = {re.match(r"\w+", said)[0] for said in told}
        tally.check(f"gallery: verdicts where {bug}", kinds == set(re.findall("`(.+?)`", verdicts)), kinds)
        for phrase in re.findall(r"\*(.+?)\*", words):
            tally.check(f"gallery: words where {bug}: {phrase}", any(phrase in said for said in told), told[:3])


def scripts_end(tally: Tally) -> None:
    """What nobody has thought of ends the scripts beside the tools with 2, since 1 is said of logs and Python's own."""
    with tempfile.TemporaryDirectory() as copy:
        shutil.copytree(ROOT / "recorders", copy, dirs_exist_ok=True)
        for path, module, old, words in (("merge.py", "merge.py", "    paths = [path", ["log"]),
                                         ("engines/record.py", "engines/random_sessions.py", "    engine, seen, unanswered = ", ["list_crdt", "PROGRAM"])):
            changed = Path(copy, module)
            changed.write_text(changed.read_text().replace(old, f"    raise ValueError('not thought of')\n{old}").replace(
                "    check_is_domepeeler(words.program)\n", ""))
            done = subprocess.run([sys.executable, Path(copy, path), *words], capture_output=True, text=True)
            tally.check(f"not thought of: {path}", done.returncode == 2 and done.stderr.endswith("ValueError: not thought of\n") and not done.stdout, done)
        for path, module in (("recorders/merge.py", "argparse"), ("recorders/engines/record.py", "random_sessions"),
                             ("examples/ci/judge_recordings.py", "json"), ("tools/draw_cycle.py", "json"), ("tools/package", "making_packages")):
            shutil.copy(ROOT / path, copy)
            Path(copy, f"{module}.py").write_text("raise ValueError('not thought of')\n")
            done = subprocess.run([sys.executable, Path(copy, Path(path).name), "x", "y"], capture_output=True, text=True, stdin=subprocess.DEVNULL)
            Path(copy, f"{module}.py").unlink()
            tally.check(f"not thought of: {path}, while it is loaded", done.returncode == 2 and "not thought of" in done.stderr.splitlines()[-1]
                        and not done.stdout, done)


def names_of_examples(tally: Tally) -> None:
    """The names of elements begin with a letter: another one may look like an operation's name."""
    for example in sorted(ROOT.glob("examples/**/*.trace")):
        entries = [line.split() for line in example.read_text().splitlines()[2:]]
        names = {words[2] for words in entries if words[1] in ("ins", "del")}
        tally.check(f"names of {example.name}", names and all(name[0].isalpha() for name in names), names)


def files(tally: Tally, program: str, folder: str) -> None:
    """What is wrong with a whole file comes first, and the command that mends it does."""
    for name, text, causes in MENDED:
        Path(folder, name).write_bytes(text)
        got = subprocess.run([EXPLAIN, "--program", program, name], cwd=folder, capture_output=True, text=True)
        own, *lines = [line.strip() for line in got.stderr.splitlines()]
        tally.check(f"file {name}: the causes first", got.returncode == 2 and own.startswith("domepeeler-explain: nothing was judged, ") and lines[:len(causes)] == causes, got)
        said, _, command = "\n".join(lines[len(causes):len(causes) + 1]).partition(": ")
        mended = Path(folder, "mended.trace")
        mended.write_bytes(b"")
        done = subprocess.run(["sh", "-c", command], cwd=folder, capture_output=True)
        tally.check(f"file {name}: `{command}` mends it", said == "this mends it" and mended.read_bytes() == RIGHT, done)
    for text, said in NO_TRACES:
        got = explain(program, ["-"], text)
        lines = got.err.decode().splitlines()
        tally.check(f"file {text[:9]}: {said}", got.status == 2 and lines[0] == NOT_JUDGED.format("line 1") and lines[-1].startswith(called("line 1: shape").partition("`")[0]) and lines[1].strip() == said, got)
    got = explain(program, ["-"], MENDED[0][1]).err.decode()
    tally.check("standard input: what mends it", "\n  this mends it: tr -d '\\r' < FILE > mended.trace\n" in got, got)


def finding(tally: Tally, program: str, folder: str) -> None:
    """Which program is asked: that of --program, of the variable, of the PATH."""
    good = Path(folder, "good.trace")
    good.write_text(text_of(1, "0 ins a 0 : a"))
    told = {}
    for name in "asked", "variable", "domepeeler":
        told[name] = Path(folder, name)
        report = {"verdict": "accepted", "operations": 1, "inserts": 1, "replicas": 1, "order": ["a", name], "strong": True, "weak": True}
        told[name].write_text(f"#!/bin/sh\ncat > /dev/null\necho '{json.dumps(report)}'\n")
        told[name].chmod(0o755)
    here = {"PATH": f"{folder}:{os.environ['PATH']}"}
    ways = [("asked", ["--program", str(told["asked"])], {"DOMEPEELER": str(told["variable"])}),
            ("variable", [], {"DOMEPEELER": str(told["variable"])}), ("domepeeler", [], {})]
    for name, asked, variables in ways:
        done = subprocess.run([EXPLAIN, *asked, str(good)], capture_output=True, text=True, env=here | variables)
        tally.check(f"the program asked: {name}", f"  a {name}\n" in done.stdout, done)
    for tool in EXPLAIN, str(ROOT / "tools/judge_many"):
        done = subprocess.run([tool, "--program", "", str(good)], capture_output=True, text=True, env=here)
        tally.check(f"the program asked: none in the place of one without a name, {tool}", (done.returncode, done.stdout) == (2, "") and
                    done.stderr.endswith(": error: argument --program: a program's name is not empty\n"), done)


def killed(tally: Tally, folder: str) -> None:
    """A program that a signal ends gives no verdict."""
    program = Path(folder, "killed")
    program.write_text(f"#!/bin/sh\ncat > /dev/null\n{KILLED}\n")
    program.chmod(0o755)
    got = explain(str(program), ["-"], text_of(1, "0 ins a 0 : a").encode())
    tally.same("a program that is killed", got, Ended(2, b"", f"domepeeler-explain: {program} was ended by signal 9 (SIGKILL)\n".encode()))


def others(tally: Tally, folder: str) -> None:
    """Another program, named in each of the three ways: it is asked whether it is domepeeler, by one line and with status 2."""
    trace, path = text_of(1, "0 ins a 0 : a").encode(), f"{folder}/others"
    os.mkdir(path)
    other = Path(path, "domepeeler")
    for printed, ended in OTHERS:
        other.write_text(f"#!/bin/sh\ncat > /dev/null\n{printed}\n")
        other.chmod(0o755)
        wanted = Ended(2, b"", f"domepeeler-explain: {other} printed no report that agrees with its status: is it domepeeler? It ended with status {ended}\n".encode())
        for words, variables in (["--program", str(other)], {}), ([], {"DOMEPEELER": str(other)}), ([], {"PATH": f"{path}:{os.environ['PATH']}"}):
            here = {name: value for name, value in os.environ.items() if name != "DOMEPEELER"} | variables
            done = subprocess.run([EXPLAIN, *words, "-"], input=trace, capture_output=True, env=here)
            tally.same(f"another program, {printed}, by {words or list(variables)}", Ended(done.returncode, done.stdout, done.stderr), wanted)


def contradicted(tally: Tally, folder: str) -> None:
    """A program whose verdict can't be: the tool says that it can't explain it, shows the report, and takes its status,
    unless it accepts."""
    liar = Path(folder, "liar")
    trace = text_of(1, "0 ins a 0 : a|0 ins b 1 : a b").encode()
    steps = [{"from": "a", "to": "b", "shown": "0.2", "response": ["a", "b"]}, {"from": "b", "to": "a", "shown": "0.1", "response": ["a"]}]
    lies = [{"verdict": "contents", "at": "0.2"}, {"verdict": "position", "at": "0.2"}, {"verdict": "refused", "k": 2, "steps": steps},
            {"verdict": "doubled", "first": "0.1", "again": "0.2"}, {"verdict": "accepted", "operations": 2, "order": ["b", "a"]}, {"verdict": "guessed"}]
    for lie in lies:
        liar.write_text(f"#!/bin/sh\ncat > /dev/null\necho '{json.dumps(lie)}'\nexit 1\n")
        liar.chmod(0o755)
        got = explain(str(liar), ["-"], trace)
        if lie["verdict"] == "accepted":
            tally.check("a contradiction: accepted, by another status", got.status == 2 and not got.out and b"agrees with its status" in got.err, got)
            liar.write_text(liar.read_text().replace("exit 1", "exit 0"))
            got = explain(str(liar), ["-"], trace)
        if lie["verdict"] == "guessed":
            liar.write_text(liar.read_text().replace("exit 1", "exit 0"))
            passed = explain(str(liar), ["-"], trace)
            tally.check("a contradiction: no known verdict, and status 0", passed.status == 2 and not passed.out
                        and b"agrees with its status" in passed.err, passed)
        tally.check(f"a contradiction: {lie['verdict']}", got.status == (2 if lie["verdict"] == "accepted" else 1) and not got.out and
                    b"can't explain" in got.err, got)
    for status in 0, 1, 2:
        liar.write_text(f"#!/bin/sh\ncat > /dev/null\necho 'finder: line 3: shape' >&2\nexit {status}\n")
        got = explain(str(liar), ["-"], trace)
        tally.check(f"no report, and status {status}", got.status == (status or 2) and not got.out and got.err.startswith(NOT_JUDGED.format("line 3").encode() + b"\n") and got.err.endswith(f"\n{called('line 3: shape')}\n".encode()), got)
    for lie in {"verdict": "accepted"}, {"verdict": "accepted", "operations": 3, "order": ["a", "b"]}:
        liar.write_text(f"#!/bin/sh\ncat > /dev/null\necho '{json.dumps(lie)}'\n")
        told = f"domepeeler-explain: {liar} printed a report that is not on this trace: is it domepeeler?\n"
        tally.same(f"a contradiction: {lie}", explain(str(liar), ["-"], trace), Ended(2, b"", told.encode()))
    liar.write_text("#!/bin/sh\ncat > /dev/null\n[ \"$2\" != --json ] || { echo '{\"verdict\":\"\\u001b[31m\"}'; exit 1; }\n"
                    "printf 'replicas 1\\n::error::\\033[31m\\n'\n")
    got = explain(str(liar), ["-"], trace)
    tally.check("a contradiction: what it prints is shown", got.status == 1 and b"no verdict `\\x1b[31m`" in got.err
                and got.err.endswith(b" report:\nreplicas 1\n\\x3a:error::\\x1b[31m\n"), got)
    liar.write_text("#!/bin/sh\ncat > /dev/null\nprintf 'finder: line 3: shape\\n::error::\\033[31m\\n' >&2\nexit 2\n")
    got = explain(str(liar), ["-"], trace)
    tally.check("a contradiction: what it says of a line is shown", got.status == 2 and got.err.startswith(
        b"finder: line 3: shape\n\\x3a:error::\\x1b[31m\n"), got)
    shown = [{"from": "a", "to": "b", "shown": "1.1", "response": ["a", "b"]}, {"from": "b", "to": "a", "shown": "1.2", "response": ["b", "a"]}]
    lie = {"verdict": "refused", "k": 2, "operations": 4, "inserts": 2, "strong": False, "weak": False, "steps": shown}
    liar.write_text(f"#!/bin/sh\ncat > /dev/null\necho '{json.dumps(lie)}'\nexit 1\n")
    got = explain(str(liar), ["-"], text_of(2, "0 ins a 0 : a|0 ins b 1 : a|1 recv 0 2|1 read : a b|1 read : b a").encode())
    tally.check("a contradiction: an insert without its element", got.status == 1 and not got.out and b"0.2 lacks what it inserts" in got.err, got)


def page(tally: Tally, program: str, folder: str, name: str, trace: str) -> ElementTree.Element:
    """The page of a trace: well-formed, without other files or scripts, with each line of a short one."""
    path = Path(folder, name)
    path.write_text(trace)
    got = explain(program, ["--html", f"{folder}/page.html", str(path)])
    tally.check(f"page of {name}: written", got.status in (0, 1) and not got.err, got)
    text = Path(folder, "page.html").read_text()
    tree = ElementTree.fromstring(text)
    tags = Counter(node.tag for node in tree.iter())
    tally.check(f"page of {name}: no script, no other file", not tags["script"] + tags["link"] + tags["img"] and "url(http" not in text
                and text.count("http") == text.count('xmlns="http://www.w3.org/2000/svg"'), tags)
    return tree


def by_class(tree: ElementTree.Element, tag: str, name: str) -> list:
    return [node for node in tree.iter() if node.tag.endswith(tag) and name in node.get("class", "").split()]


def circles(tree: ElementTree.Element) -> dict:
    """By the row of an operation, of what kinds its circle in the picture of the session is; the picture's first row is the head."""
    found = {}
    for session in by_class(tree, "div", "session"):
        height = int(re.search(r"--row: (\d+)px", session.get("style"))[1])
        kinds = {float(circle.get("cy")): circle.get("class").split() for circle in by_class(session, "circle", "node")}
        rows = [node.get("id") for node in session.iter("li")]
        found |= {row: kinds.get((place + 1.5) * height) for place, row in enumerate(rows) if row}
    return {row: set(classes) - {"node"} for row, classes in found.items() if classes}


def lines_of(trace: str, names: set) -> set:
    """The lines of a trace in which these operations stand."""
    counts, found = Counter(), set()
    for number, line in enumerate(trace.splitlines()[2:], 3):
        replica, kind, *_ = line.split(" ", 2)
        counts[replica] += kind != "recv"
        found |= {number} if kind != "recv" and f"{replica}.{counts[replica]}" in names else set()
    return found


def told(node: ElementTree.Element) -> str:
    return " ".join("".join(node.itertext()).split())


def pages(tally: Tally, program: str, folder: str) -> None:
    for example in sorted(ROOT.glob("examples/*.trace")):
        trace = example.read_text()
        lines = trace.splitlines()[2:]
        tree = page(tally, program, folder, example.name, trace)
        rows = {node.get("id"): told(node) for node in tree.iter("li") if node.get("id")}
        if len(lines) <= 40:
            tally.check(f"page of {example.name}: its lines", list(rows) == [f"line-{i}" for i in range(3, len(lines) + 3)], list(rows))
            shown = all(line.partition(" ")[2] in rows[f"line-{i}"] for i, line in enumerate(lines, 3) if len(line.split()) < 12)
            tally.check(f"page of {example.name}: what the lines say", shown, rows)
            arrows = by_class(tree, "path", "receipt")
            tally.check(f"page of {example.name}: arrows", len(arrows) == sum(" recv " in line for line in lines), len(arrows))
        report = json.loads(run(program, ["verdict", "--json", str(example)]).out)
        for node in tree.iter("li"):
            if not node.get("id") and ("stop before" in told(node) or "of the trace," in told(node)):
                links = [link.get("href") for link in node.iter("a")]
                named = [f"#line-{line}" for line in re.findall(r"\bline (\d+)", told(node))]
                tally.check(f"page of {example.name}: links to lines", links and links == named, (links, told(node)))
        steps = report.get("steps", [])
        named = {step["shown"] for step in steps} | {report[key] for key in ("at", "first", "again") if key in report}
        shown = {node.get("id") for node in by_class(tree, "li", "verdict") if node.get("id").startswith("line-")}
        tally.check(f"page of {example.name}: its responses marked", len(shown) == len(named), named)
        red = {row for row, kinds in circles(tree).items() if "verdict" in kinds and row.startswith("line-")}
        tally.check(f"page of {example.name}: their circles marked", red == {f"line-{line}" for line in lines_of(trace, named)}, red)
        operations = [node.get("id") for node in by_class(tree, "li", "operation")]
        tally.check(f"page of {example.name}: a circle for each operation", sorted(circles(tree)) == sorted(operations), circles(tree))
        if report["verdict"] == "accepted":
            tally.check(f"page of {example.name}: no circle marked", not any(circles(tree).values()), circles(tree))
        tally.check(f"page of {example.name}: its cycle", len(by_class(tree, "path", "step")) == len(steps), len(steps))


    for name in "a wrong response before the one that the program names", "a beginning that shows something else":
        _, replicas, entries, wanted = next(case for case in WORDS if case[0] == name)
        tree = page(tally, program, folder, "sooner.trace", text_of(replicas, entries))
        red = {node.get("id") for node in by_class(tree, "li", "verdict")}
        first = {"a wrong response before the one that the program names": {"line-4"}, "a beginning that shows something else": {"line-6", "line-7", "line-11"}}
        tally.check(f"page of {name}: what the words begin with is red", red == first[name], red)
        kinds = circles(tree)
        tally.check(f"page of {name}: its circles are red", {row for row, found in kinds.items() if "verdict" in found} == first[name], kinds)
        later = {node.get("id") for node in by_class(tree, "li", "matters")}
        named = {f"line-{line}" for line in re.findall(r"\bline (\d+), ", wanted.partition("hat the whole trace")[2] or wanted.partition("What the verdict on the whole trace is about")[2])}
        tally.check(f"page of {name}: what the whole trace names is marked", named and named <= later | red, (named, later))
        ways = {row for row, found in kinds.items() if found == {"matters"}}
        tally.check(f"page of {name}: its other circles", ways == (later - red) & set(kinds) and named <= ways | red, (ways, later))
    got = explain(program, ["--html", f"{folder}/page.html", "-"], text_of(2, "0 ins a 0 : a|1 recv 0 1|0 ins b 1 : a b|1 read : a").encode())
    tree = ElementTree.fromstring(Path(folder, "page.html").read_text())
    first = next(node for node in tree.iter("h2"))
    tally.check("page of a trace that ends unequal: no colour of what is well", "unsure" in tree.find("body").get("class").split() and
                told(first) == "What this verdict may hide" and told(tree.find(".//h1")).startswith("accepted, with a warning: "), got)
    long = f"{BESIDE_DELETED}|0 recv 1 2|{'|'.join(['0 read : d c'] * 40)}"
    rows = [node.get("id") for node in by_class(page(tally, program, folder, "long.trace", text_of(2, long)), "li", "matters")]
    tally.check("page of a long session: the delete of a neighbour, and what came before the wrong response", {"line-8", "line-10"} <= set(rows), rows)


def letters(tally: Tally, program: str, folder: str) -> None:
    """On a page each element of a long name has a letter: those of the verdict first; an accepted recording's are in its order."""
    for name, replicas, entries, legend, rows in LETTERED:
        tree = page(tally, program, folder, "letters.trace", text_of(replicas, entries))
        legends = [told(node) for node in by_class(tree, "p", "legend")][1:]
        wanted = [f"Each response is also shown in letters: {legend}."] if legend else []
        tally.check(f"letters: {name}, what they stand for", legends == wanted, legends)
        shown = {node.get("id"): told(letters) for node in tree.iter("li") for letters in by_class(node, "span", "letters")}
        tally.check(f"letters: {name}, of each response", shown == rows, shown)
    marks = [told(node) for node in tree.iter("li") if node.find("mark") is not None]
    tally.check("letters: before a name that is marked", marks[0].startswith("Ae0 before Bend: line 31 of the trace, 0.29: "), marks)
    style = tree.find(".//style").text
    room = re.search(r"\.scroll \{[^}]*padding-bottom: ([\d.]+)rem", style)
    tally.check("page: less than a row's height of room under a session", room and float(room[1]) * 16 < 30, style)


def hostile(tally: Tally, program: str, folder: str) -> None:
    """Names that look like words of the formats, and a file whose name looks like a tag."""
    inserts = [f"0 ins {name} {i} : {' '.join(HOSTILE[:i + 1])}" for i, name in enumerate(HOSTILE)]
    back = " ".join(HOSTILE[::-1])
    trace = text_of(2, "|".join([*inserts, f"1 recv 0 {len(HOSTILE)}", f"1 read : {back}"]))
    tree = page(tally, program, folder, "<b>&amp;\"'.trace", trace)
    title = tree.find(".//title").text
    tally.check("hostile: the file's name", title.endswith("<b>&amp;\"'.trace"), title)
    marks = {told(node) for node in tree.iter("mark")}
    tally.check("hostile: names", {"ins", "del"} <= marks, marks)
    links = [node for node in tree.iter("a") if node.get("href") == "#line-5"]
    tally.check("hostile: the names `line` and `5` are no link", not links, links)
    got = explain(program, ["--small", f"{folder}/small", "-"], trace.encode())
    small = Path(folder, "small").read_text()
    tally.check("hostile: the small trace", small == text_of(2, "0 ins ins 0 : ins|0 ins del 1 : ins del|1 recv 0 2|1 read : del ins"),
                f"{small}{got}")


def long_sessions(tally: Tally, program: str, folder: str) -> None:
    """Of a long session the page has what matters, and the rest folded or left out; the small cycle is found again."""
    trace = long_trace("small_cycle", "S")
    path = Path(folder, "long.trace")
    tree = page(tally, program, folder, path.name, trace.decode())
    tally.check("long: folded", len(by_class(tree, "li", "gap")) > 0 and len(list(tree.iter("details"))) == 1)
    shown = [node for node in by_class(tree, "li", "verdict") if node.get("id").startswith("line-")]
    tally.check("long: three responses are shown first", len(shown) == 3, len(shown))
    explain(program, ["--small", f"{folder}/small", str(path)])
    small = Path(folder, "small").read_text().splitlines()
    kinds = Counter(line.split()[1] for line in small[2:])
    tally.check("long: the small cycle alone", kinds == {"ins": 3, "del": 1, "read": 1, "recv": 4}, small)
    tree = page(tally, program, folder, "longer.trace", long_trace("ring", "M").decode())
    tally.check("longer: not folded but left out", not list(tree.iter("details")))


def long_cycles(tally: Tally, program: str, folder: str) -> None:
    """A cycle of over twenty steps is told by its first ten and last five, on the page and in the picture too, in time that grows with the
    trace."""
    for n in 10, 200, 500:
        trace, k = Path(folder, f"{n}.trace"), 2 * n + 1
        trace.write_text(two_rings(n))
        before = os.times().children_user
        got = explain(program, ["--html", f"{folder}/page.html", "--svg", f"{folder}/cycle.svg", str(trace)])
        seconds = os.times().children_user - before
        said, drawn = got.out.decode(), Path(folder, "cycle.svg").read_text()
        steps = re.findall(r"^  \[(\S+)\] before \[(\S+)\]: ", said, re.MULTILINE)
        gaps = [line.strip() for line in said.splitlines() if line.startswith("  .. and ")]
        tally.check(f"long cycle of {k}: how many fit together", f" any {k - 1} of " in said and "any two of" not in said, said[-2000:])
        tally.check(f"long cycle of {k}: its steps", said.startswith(f"refused {k}: ") and len(steps) == 15 and steps[0] == ("e1", "f1")
                    and steps[-1] == ("g", "e1") and gaps == [f".. and {k - 15} more steps ..", f".. and {k - 15} more elements .."], said[:3000])
        tally.check(f"long cycle of {k}: the picture", drawn.count('class="element"') == 15 and f">{k - 15} more</text>" in drawn
                    and drawn.count('class="element between"') == 1 and f"A cycle of {k}: " in drawn, drawn)
        tally.check(f"long cycle of {k}: no longer than that, and soon", len(said) < 12_000 and Path(folder, "page.html").stat().st_size < 1_000_000
                    and seconds < 1, (len(said), seconds))
    taken = []
    for n in 500, 2000:
        trace = Path(folder, f"{n}.trace")
        trace.write_text(two_rings(n))
        taken.append(used([EXPLAIN, "--program", program, "--html", f"{folder}/page.html", "--svg", f"{folder}/cycle.svg", str(trace)])[1])
    tally.check("long cycles: time grows with the trace", taken[1] < 6 * taken[0], taken)
    got, seconds, _ = used([EXPLAIN, "--program", program, f"{folder}/500.trace"])
    tally.check("long cycle of 1001: the words soon", got.status == 1 and got.out.startswith(b"refused 1001: ") and seconds < 1, (got.out[:80], seconds))
    trace.write_text(two_rings(2000))
    got, seconds, _ = used([EXPLAIN, "--program", program, "--html", f"{folder}/page.html", "--svg", f"{folder}/cycle.svg", "--small", f"{folder}/small", str(trace)])
    tally.check("long cycle of 4001: all files soon", got.status == 1 and b"small (16003 lines) has the same verdict as " in got.out and seconds < 15, (got.out[-200:], seconds))


def many_deletes(tally: Tally, program: str, folder: str) -> None:
    """Very many deletes of one element, each with a receipt of its own, are explained in time that grows with the trace, on a page and by a
    small trace too."""
    count, trace = 6000, Path(folder, "deletes.trace")
    deletes, receipts = "|1 del a :" * count, [f"|0 recv 1 {n}" for n in range(1, count + 3)]
    for name, entries, said, lines in (
            ("one is lost", f"1 ins a 0 : a|1 ins b 1 : a b{deletes.replace(':', ': b')}{''.join(receipts[:2])}|0 read : a b{''.join(receipts[2:])}|0 read :",
             "contents 0.2: this response lacks one element that replica 0 should have had by then.", 12),
            ("one is shown again", f"1 ins a 0 : a{deletes}{receipts[0]}|0 read : a{''.join(receipts[1:-1])}|0 read : a",
             "contents 0.2: this response has one element that should not be there.", 12)):
        trace.write_text(text_of(2, entries))
        got, seconds, _ = used([EXPLAIN, "--program", program, "--html", f"{folder}/page.html", "--small", f"{folder}/small", str(trace)])
        tally.check(f"many deletes: {name}", got.status == 1 and got.out.decode().startswith(f"{said}\n") and f" ({lines} lines) has the same verdict as ".encode() in got.out
                    and seconds < 6, (got.out[:200], got.out[-200:], seconds))


def svg(tally: Tally, program: str, folder: str) -> None:
    for picture in sorted(ROOT.glob("docs/gallery/*.svg")):
        example = ROOT / "examples" / f"{picture.stem}.trace"
        explain(program, ["--svg", f"{folder}/cycle.svg", str(example)])
        tally.check(f"svg of {example.name}", Path(folder, "cycle.svg").read_bytes() == picture.read_bytes())
    trace, front = text_of(3, f"{THREE_WAY}|1 recv 0 2|1 recv 2 1|1 read : a b"), text_of(3, THREE_WAY)
    for name, text in ("whole", trace), ("front", front):
        explain(program, ["--svg", f"{folder}/{name}.svg", "--html", f"{folder}/{name}.html", "-"], text.encode())
    drawn = [Path(folder, f"{name}.svg").read_bytes() for name in ("whole", "front")]
    pages = [Path(folder, f"{name}.html").read_text() for name in ("whole", "front")]
    tally.check("svg of the lines up to which a session went wrong", drawn[0] == drawn[1] and "<h2>The cycle of the lines up to 11</h2>" in pages[0]
                and "<h2>The cycle</h2>" in pages[1] and [page.count("<svg") for page in pages] == [3, 3], [page.count("<svg") for page in pages])
    got = explain(program, ["--svg", f"{folder}/none.svg", str(ROOT / "examples" / "lost_element.trace")])
    tally.check("no svg where there is no cycle", not Path(folder, "none.svg").exists() and b"is not written" in got.out, got)
    got = explain(program, ["--small", f"{folder}/none.trace", str(ROOT / "examples" / "insert_delete_read.trace")])
    tally.check("no small trace of an accepted one", not Path(folder, "none.trace").exists() and b"is not written" in got.out, got)


def recordings(program: str) -> list:
    """Generated traces with the program's reports, as many of each kind as are wanted."""
    rnd = random.Random(SEED)
    left, made = Counter(SMALL), {}
    for _ in range(MOST_TRIES):
        text = session(rnd)
        if rnd.random() < (0.1 if left["refused"] > 0 else 1):
            text = with_fault(rnd, text)
        if text in made or not +left:
            continue
        report = json.loads(run(program, ["verdict", "--json", "-"], text.encode()).out)
        if left[report["verdict"]] > 0:
            left[report["verdict"]] -= 1
            made[text] = report
    return list(made.items())


def small(tally: Tally, program: str, folder: str) -> None:
    """A small trace has the verdict and the number of the whole one, and of its elements only those that it is about."""
    cases = recordings(program)
    kinds = Counter(report["verdict"] for _, report in cases)
    numbers = Counter(report["k"] for _, report in cases if "k" in report)
    print(", ".join(f"{kinds[kind]} {kind}" for kind in SMALL), "small traces; refused", dict(sorted(numbers.items())))
    tally.check("small: of all kinds", kinds == SMALL and {2, 3, 4} <= set(numbers), (kinds, numbers))
    viewing = sum(has_view(whole) for whole, _ in cases)
    tally.check("small: with views and without", 50 <= viewing <= len(cases) - 50, viewing)

    arriving, wrong = Counter(), Counter()

    def make(at: int) -> tuple:
        path = f"{folder}/small{at}"
        got = explain(program, ["--small", path, "-"], cases[at][0].encode())
        text = Path(path).read_text() if os.path.exists(path) else ""
        return got, text, run(program, ["verdict", "--json", "-"], text.encode())

    for (whole, report), (got, text, again) in zip(cases, map(make, range(len(cases)))):
        judged, said, meant, meant_report = json.loads(again.out or b"{}"), as_named(got.out.decode()), whole, report
        if report["verdict"] == "refused":
            meant, meant_report = beginning(tally, program, whole, report, said)
        else:
            meant_report, is_sooner = sooner(tally, program, whole, report, said)
            wrong["sooner"] += is_sooner
        same = [judged.get(key) == meant_report.get(key) for key in ("verdict", "k")]
        tally.check("small: the same verdict and number", all(same) and got.status == 1, f"{whole}\nto\n{text}{got}")
        tally.check("small: no longer", len(text.splitlines()) <= len(whole.splitlines()), f"{whole}\nto\n{text}")
        tally.check("small: as it is written", text == written(text), text)
        if report["verdict"] == "refused":
            told = paragraph(said, "The elements")
            stops, (stops_said, is_right) = stops_of(meant, meant_report), stops_told(told)
            tally.check("refused: where elements arrived", is_right and sorted(stops_said) == stops, f"{whole}{stops}\n{got}")
            stop_lines = sorted({line for line, *_ in stops}, reverse=True) or [len(meant.splitlines())]
            turned = turned_at(meant, meant_report)
            stop_lines = [turned, *(line for line in stop_lines if stops and line != turned)] if turned else stop_lines
            wrong["turned"] += bool(turned)
            look = paragraph(said, "Where to look").splitlines()
            is_lost = re.match(r"  Look first at whether \S+ \(line (\d+)\)", look[0])
            alone = next(filter(None, (re.match(r"  Replica \d+ inserted \[\S+\] \(\S+, line (\d+)\) .*?\. No other replica shows them in this order\. After its next receipt \(line (\d+)\)", line) for line in look)), None)
            if is_lost:
                stop_lines = [int(is_lost[1])]
            elif alone:
                at, receipt, arrived = int(alone[1]), int(alone[2]), {line for line, *_ in stops}
                stop_lines = [at, *([receipt] if receipt not in arrived else []), *sorted(arrived - {at}, reverse=True)]
            stopped = paragraph(said, "In a debugger").partition("\n  In Python,")[0]
            tally.check("refused: where to stop a debugger", [int(line) for line in re.findall(r"\bline (\d+)", stopped)] == stop_lines,
                        f"{whole}{stops}\n{got}")
            arriving[len(stops)] += 1
            cycle = {step["from"] for step in meant_report["steps"]}
            names = {line.split()[2] for line in text.splitlines()[2:] if line.split()[1] == "ins"}
            gone = neighbours_gone(meant, meant_report)
            tally.check("small: the cycle's elements, and deleted neighbours", names >= cycle | gone and judged["inserts"] == len(names),
                        f"{whole}\nto\n{text}")
            wrong["more"] += names != cycle | gone  # for the sake of the words
            again_told = paragraph(as_named(explain(program, ["-"], text.encode()).out.decode()), "The elements")
            tally.check("refused: beside deleted elements", bool(beside_told(told)) == bool(gone), f"{whole}{gone}\n{got}")
            tally.check("small: beside deleted elements too", names != cycle | gone or beside_told(told) == beside_told(again_told), f"{whole}\nto\n{text}")
            hidden = [] if gone else hidden_of(meant, meant_report)
            tally.check("refused: beside elements that are deleted later", hidden_told(told) == hidden, f"{whole}{hidden}\n{got}")
            wrong += Counter(line=meant != whole, steps=meant_report["steps"] != report["steps"], beside=bool(gone), hidden=bool(hidden))
        wrong["more of a position"] += meant_report["verdict"] == "position" and judged.get("inserts") not in (1, 2)
        most = {"position": judged.get("inserts") in (1, 2, 3, 4), "doubled": judged.get("operations") == 2}
        tally.check("small: of a fault", most.get(meant_report["verdict"], True), f"{whole}\nto\n{text}")
    tally.check("small: more elements in few of them", wrong["more"] <= SMALL["refused"] / 4 and wrong["more of a position"] <= SMALL["position"] / 4, wrong)
    tally.check("refused: beside deleted elements in some of them", wrong["beside"] > SMALL["refused"] / 4, wrong)
    tally.check("a fault: sooner in some of them", wrong["sooner"] >= 5, wrong)
    tally.check("refused: beside elements that are deleted later, in some of them", wrong["hidden"] > 0, wrong)
    tally.check("refused: a replica turned two elements round, in some of them", wrong["turned"] > 5, wrong)
    tally.check("refused: a line and steps told in some of them", wrong["line"] > SMALL["refused"] / 8 and wrong["steps"] > 2, wrong)
    tally.check("refused: elements arrived in most of them", sum(arriving[count] for count in arriving if count > 1) > SMALL["refused"] / 2,
                arriving)


def as_named(said: str) -> str:
    """An explanation with the elements named as in the trace, that have letters before their names where these look like operations'."""
    found = re.search(r" \((e+)([0-9]+\.[0-9]+) is your element \2, and \2 alone the operation: their names look alike\.\)", said.partition("\n")[0])
    return re.sub(rf"\b{found[1]}(?=[0-9]+\.[0-9]+\b)", "", said.replace(found[0], "", 1)) if found else said


def turned_at(text: str, report: dict) -> int:
    """Where the replica that answers last in a trace that is refused for two shows two elements, which it had shown before, in the other order:
    the line of that answer, where it is a change, or else of the last receipt before it since that; 0 where there is none."""
    lines = text.splitlines()
    replica, kind = lines[-1].split()[:2]
    if report["k"] != 2 or kind in ("recv", "view"):
        return 0
    earlier = [number for number, line in enumerate(lines[:-1], 1) if number > 2 and line.split()[0] == replica and line.split()[1] in ("ins", "del", "read")]
    if not earlier:
        return 0
    before, after = (lines[number - 1].partition(":")[2].split() for number in (earlier[-1], len(lines)))
    both = [name for name in after if name in before]
    if both == sorted(both, key=before.index):
        return 0
    received = [number for number in range(earlier[-1] + 1, len(lines)) if lines[number - 1].split()[:2] == [replica, "recv"]]
    return len(lines) if kind != "read" else received[-1] if received else 0


def kept_more(tally: Tally) -> None:
    """Where the program says otherwise of a small trace, more is kept, up to the whole."""
    whole = text_of(3, THREE_WAY)
    report = {"verdict": "refused", "k": 3, "steps": [
        {"from": "x", "to": "b", "shown": "2.1", "response": ["x", "b"]}, {"from": "b", "to": "a", "shown": "0.3", "response": ["b", "a"]},
        {"from": "a", "to": "x", "shown": "1.1", "response": ["a", "x"]}]}
    evidence = Evidence(Recording(whole), report)
    seen = []

    def only_the_last(trace: bytes) -> dict:
        seen.append(trace)
        return report if len(seen) == 3 else {"verdict": "accepted"}

    kept = smallest(evidence, only_the_last)
    tally.check("small: the whole as the last", kept.text.encode() == seen[2] and sorted(kept.text) == sorted(whole), kept)
    tally.check("small: none", smallest(evidence, lambda trace: None) is None)


OF_SMALL = "\nIn a debugger\n  These line numbers, and the code, are for a test that replays the small trace. In the session itself, stop where the explanation of the whole trace says.\n"


def together(tally: Tally, program: str, folder: str) -> None:
    """Two operations that one receipt has brought get a receipt each where what brought them is left out."""
    trace = text_of(4, "0 ins a 0 : a|1 ins b 0 : b|0 recv 1 1|0 read : a b|3 recv 0 1|3 recv 1 1|3 read : a b|2 recv 3 1|2 read : b a")
    got = explain(program, ["--small", f"{folder}/together.trace", "-"], trace.encode())
    wanted = text_of(4, "0 ins a 0 : a|1 ins b 0 : b|0 recv 1 1|0 read : a b|2 recv 0 1|2 recv 1 1|2 read : b a")
    tally.check("small: two by one receipt", Path(folder, "together.trace").read_text() == wanted, got)
    reads = set()
    for seed in range(12):
        whole = planted.session("overtaking", seed, 16).text()
        path = Path(folder, "read.trace")
        got = explain(program, ["--small", str(path), "-"], whole.encode())
        if got.status != 1:
            continue
        small, of_whole = (Recording(text) for text in (path.read_text(), whole))
        named = re.findall(r"small (\d+\.\d+) = whole (\d+\.\d+) \(line (\d+)(; an? \w+ there, a read here)?\)", got.out.decode())
        reads |= {(small.operation(name).kind, bool(told)) for name, _, _, told in named}
        tally.check(f"small: what became a read is told so: {seed}", named and all(
            int(line) == of_whole.operation(other).line and bool(told) == (small.operation(name).kind != of_whole.operation(other).kind) for name, other, line, told in named), got)
        again = explain(program, [str(path)]).out.decode()
        tally.check(f"small: where to stop is of its own steps: {seed}", OF_SMALL in again and OF_SMALL not in got.out.decode(), again)
    tally.check("small: some became reads, and others not", {("read", True), ("ins", False)} <= reads, reads)


def weak(tally: Tally, program: str, folder: str) -> None:
    """Where weak is enough: what is said first, the status, what is warned of, and where a session went wrong that fails. All else stays."""
    trace = text_of(3, ALL_ARRIVED).encode()
    without, got = (explain(program, [*goal, "-"], trace) for goal in ([], ["--weak"]))
    asks, rest = re.subn(rb"  An editor whose server orders .* ask for the weak specification alone \(in the tools by --weak\)\.\n", b"", without.out)[::-1]
    tally.same("weak: it passes, and the explanation follows, but for how to ask for it", (asks, got), (1, Ended(0, ALONE.encode() + rest.replace(
        b"When it showed", b"When strong came to fail").replace(b"Where to look\n", b"Where to look, if you need the strong one to hold as well\n"), b"")))
    later = explain(program, ["--weak", "-"], text_of(4, "1 ins x 0 : x|2 recv 1 1|3 recv 1 1|2 ins a 0 : a x|3 ins b 1 : x b|1 del x :|1 recv 2 1|1 recv 3 1|1 read : b a|0 recv 1 3|"
        "0 ins X 2 : b a X|2 recv 0 1|2 ins A 2 : b a A X|3 recv 0 1|3 ins B 3 : b a X B|0 del X : b a|0 recv 2 2|0 recv 3 2|0 read : b a B A").encode()).out.decode()
    tally.check("weak: the first lines in which strong fails", later.startswith(f"weak holds, strong doesn't, with two warnings{ALONE[26:]}refused 3: ") and " Strong holds up to line 10; all below is about lines 1 to 11." in later
                and "start with it" not in later, later)
    tally.check("weak: not asked for", without.status == 1 and without.out.startswith(b"refused 3: "), without)
    got = explain(program, ["--weak", "-"], text_of(3, THREE_WAY).encode())
    lines = got.out.decode().split("\n")
    tally.check("weak: warnings", got.status == 0 and lines[0].startswith("weak holds, strong doesn't, with three warnings: this passes") and
                lines[2] == "What this verdict may hide" and lines[3].startswith("  the last lists of replicas 0, 1 and 2 differ: 0.2 ") and
                "  strong fails, weak holds" in lines, got)
    for name in "accepted", "crdt_el_accepted":
        trace = RIGHT if name == "accepted" else (ROOT / f"examples/{name}.trace").read_bytes()
        tally.same(f"weak: {name}", explain(program, ["--weak", "-"], trace), explain(program, ["-"], trace))
    for name, entries, begins, wanted in FAILS_WEAK:
        got = explain(program, ["--weak", "-"], text_of(3, entries).encode())
        lines = got.out.decode().split("\n")
        tally.check(f"weak: {name}", got.status == 1 and not got.err and lines[0].startswith(begins) and
                    stand_in_order(lines, wanted) is None, got)
        if "opposite" in name:
            usual = explain(program, ["-"], text_of(3, entries).encode()).out
            tally.check(f"weak: {name}, where strong is asked for", usual.startswith(b"refused 3: ") and
                        b"Up to line 10 the session is accepted; with line 11 the verdict is `refused 3`" in usual, usual)
    for name in "lost_element", "crdt_el_wrong_delete", "libinfinity_replicas_disagree", "crdt_el_replicas_disagree":
        trace = (ROOT / f"examples/{name}.trace").read_bytes()
        got, without = (explain(program, [*goal, "-"], trace) for goal in (["--weak"], []))
        tally.check(f"weak: {name}", got.status == without.status == 1 and got.out.split(b":")[0] == without.out.split(b":")[0], got)
    got = explain(program, ["--weak", "-"], b"trace 1\nreplicas 1\n0 reads :\n")
    tally.same("weak: a trace that does not read", got, explain(program, ["-"], b"trace 1\nreplicas 1\n0 reads :\n"))
    weak_files(tally, program, folder)


def weak_files(tally: Tally, program: str, folder: str) -> None:
    """A small trace keeps the verdict, whether it passes or not; a page is painted as an accepted one's; and a cut trace is warned of."""
    path = Path(folder, "weak.trace")
    path.write_text(text_of(3, ALL_ARRIVED.replace("|0 del x", "|0 ins y 1 : x y|0 del y : x|0 del x").replace("recv 0 2", "recv 0 4")))
    got = explain(program, ["--weak", "--small", f"{folder}/weak_small.trace", "--html", f"{folder}/weak.html", "--svg", f"{folder}/weak.svg",
                            str(path)])
    small = run(program, ["verdict", f"{folder}/weak_small.trace"])
    tally.check("weak: the small trace keeps the verdict", got.status == 0 and re.search(r"/weak_small\.trace \(\d+ lines\) has the same verdict as ", got.out.decode()) and
                b"may not show the bug" in got.out and b"\nrefused 3\nstrong no\nweak yes\n" in small.out, (got, small))
    tally.check("weak: the picture", Path(folder, "weak.svg").is_file(), got)
    page = Path(folder, "weak.html").read_text()
    tally.check("weak: the page", '<body class="accepted">' in page and
                '<h1><span class="kind">weak holds, strong doesn&#x27;t</span>: this passes, since ' in page and
                "<h2>The cycle of the lines up to 13</h2>" in page, page.partition("<body")[2][:1000])
    for name, entries, begins, _ in FAILS_WEAK[:3]:
        got = explain(program, ["--weak", "--small", f"{folder}/weak_small.trace", "-"], text_of(3, entries).encode())
        report = run(program, ["verdict", f"{folder}/weak_small.trace"]).out.decode().split("\n")
        tally.check(f"weak: the small trace of {name}", got.status == 1 and report[1].startswith(begins.split()[0]) and
                    report[3] == "weak no", report)
    Path(f"{path}.lines").write_text("40\n")
    got = explain(program, ["--weak", str(path)])
    tally.check("weak: a cut trace is no pass", got.status == 2 and got.out.startswith(
        b"weak holds, strong doesn't, but this is no pass: the trace may have been cut at a line's end") and
                explain(program, [str(path)]).status == 1, got)


# By name: the trace's entries, what stands beside it, and what its first line says of it, for which the status is 2, if that is not that of the
# verdict; the last number is the verdict's.
NOT_ALL_JUDGED = [
    ("cut", "0 ins a 0 : a|1 recv 0 1|1 read : a", "9\n", "the trace may have been cut at a line's end: it has 5 lines, and {} says that 9 were saved", 0),
    ("longer", "0 ins a 0 : a|1 recv 0 1|1 read : a", "4\n", "the trace has 5 lines, and {} says that 4 were saved: is that file of another trace?", 0),
    ("a refused call", "0 ins a 0 : a|1 recv 0 1|1 read : a", "5\nrefused what it says\n", "what it says", 0),
    ("both", "0 ins a 0 : a|1 recv 0 1|1 read : a", "4\nrefused what it says\n", "the trace has 5 lines, and {} says that 4 were saved: is that file of another trace?", 0),
    ("nothing recorded", "", "2\n", "nothing was recorded: the trace has no entry, so the verdict says nothing about your editor", 0),
    ("nothing left", "", "5\n", "the trace may have been cut at a line's end: it has 2 lines, and {} says that 5 were saved", 0),
    ("nobody knows whether it is whole", "0 ins a 0 : a|1 recv 0 1|1 read : a", "many\n", "", 0),
    ("whole", "0 ins a 0 : a|1 recv 0 1|1 read : a", "5\n", "", 0),
    ("a note", "0 ins a 0 : a|1 recv 0 1|1 read : a", "5\nnote refused call\n", "", 0),
    ("wrong and cut", "0 ins a 0 : a|1 recv 0 1|1 read :", "9\n", "", 1),
    ("wrong and a refused call", "0 ins a 0 : a|1 recv 0 1|1 read :", "5\nrefused what it says\n", "", 1),
    ("faulty and cut", "0 inz a 0 : a|1 recv 0 1", "9\n", "", 2),
]


def not_all_judged(tally: Tally, program: str, folder: str) -> None:
    """A trace that passes, and of which not all was judged, ends with 2, and the first line says why; judge_many of it alone ends so too. Of any
    other verdict the status stays. What a recorder tells of itself, which warns by itself, leaves the status too."""
    path = Path(folder, "unjudged.trace")
    for name, entries, beside, why, status in NOT_ALL_JUDGED:
        path.write_text(text_of(2, entries))
        Path(f"{path}.lines").write_text(beside)
        got, many = explain(program, [str(path)]), run(str(ROOT / "tools/judge_many"), ["--program", program, str(path)])
        first = got.out.decode().split("\n")[0]
        tally.check(f"not all judged: {name}", got.status == (2 if why else status) and (
            first == NO_PASS + why.format(f"{path}.lines") if why else NO_PASS not in got.out.decode()), got)
        tally.check(f"not all judged: {name}, as judge_many ends", status == 1 or many.status == got.status, many)
        page = explain(program, ["--html", f"{folder}/unjudged.html", str(path)])
        tally.check(f"not all judged: {name}, with a page", page == got and (not why or "but this is no pass</span>:" in Path(folder, "unjudged.html").read_text()), page)
    told = [explain(program, [*words, "-"], text_of(2, "").encode()).status for words in ([], ["--language", "c"])]
    fine = explain(program, ["--language", "c", "--refused", "what it says", "-"], text_of(1, "0 ins a 0 : a").encode())
    tally.check("not all judged: a recorder that asks", (told, fine.status) == ([2, 0], 0) and fine.out.startswith(b"accepted, with a warning: "), fine)


def main() -> None:
    program = program_of(sys.argv)
    tally = Tally()
    words(tally, program)
    unsaid(tally, program)
    said_first(tally, program)
    names_of_examples(tally)
    scripts_end(tally)
    drawn(tally, program)
    with tempfile.TemporaryDirectory() as folder:
        kinds(tally, program, folder)
        named_as_operations(tally, program, folder)
        first_told(tally, program, folder)
        planted_bugs(tally, program, folder)
        updates_of_several(tally, program)
    with tempfile.TemporaryDirectory() as folder:
        faults(tally, program, folder)
        millions_of_names(tally, program, folder)
        millions_of_lines(tally, program, folder)
        warnings(tally, program, folder)
        places(tally, program, folder)
        saved(tally, program, folder)
        from_yjs(tally, program, folder)
        from_own_engine(tally, program, folder)
        from_no_answer(tally, program, folder)
        without_end(tally, program, folder)
        record_ended(tally, program, folder)
        arguments(tally, program, folder)
        astray(tally, program, folder)
        files(tally, program, folder)
        finding(tally, program, folder)
        weak(tally, program, folder)
        not_all_judged(tally, program, folder)
        others(tally, folder)
        killed(tally, folder)
        contradicted(tally, folder)
        pages(tally, program, folder)
        letters(tally, program, folder)
        hostile(tally, program, folder)
        long_sessions(tally, program, folder)
        long_cycles(tally, program, folder)
        many_deletes(tally, program, folder)
        svg(tally, program, folder)
        kept_more(tally)
        together(tally, program, folder)
        small(tally, program, folder)
    tally.close()


if __name__ == "__main__":
    main()
