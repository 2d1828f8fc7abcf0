#!/usr/bin/env python3
"""black_box.py PROGRAM: what only the built program can show: lines, statuses, standard error, files and pipes."""
import json
import math
import os
import re
import subprocess
import sys
import tempfile
from pathlib import Path

ROOT = Path(__file__).resolve().parents[2]
sys.path.insert(0, str(ROOT / "tests"))
from reference.traces import spellings  # noqa: E402
from shared.forger import line  # noqa: E402
from shared.program import Ended, Tally, fault, program_of, report, run  # noqa: E402

VECTORS = ROOT / "tests" / "vectors"
STAND_IN = str(ROOT / "tests" / "reference" / "stand_in.py")

DELETED = b"trace 1\nreplicas 1\n0 ins a 0 : a\n0 del a :\n0 read :\n"
DELETED_REPORT = report(b"replicas 1 operations 3 inserts 1\naccepted\nstrong yes\nweak yes\norder : a\n")
ACCEPTED = "accepted|strong yes|weak yes|order :"

# Recordings by name that are no vectors: how many replicas, the entries, and the lines of the report.
WORKED = [
    ("repeated name in a response", 1, "0 ins a 0 : a|0 read : a a",
     "replicas 1 operations 2 inserts 1|contents 0.2|strong no|weak no"),
    ("insert past the end", 1, "0 ins a 0 : a|0 ins b 4294967295 : a b",
     f"replicas 1 operations 2 inserts 2|{ACCEPTED} a b"),
    ("insert past the end, elsewhere", 1, "0 ins a 0 : a|0 ins b 4294967295 : b a",
     "replicas 1 operations 2 inserts 2|position 0.2|strong no|weak no"),
    ("doubled name", 2, "0 ins a 0 : a|0 ins b 1 : a b|1 ins b 0 : b", "replicas 2 operations 3 inserts 3|doubled 0.2 1.1"),
    ("doubled name, the other way round", 2, "1 ins b 0 : b|0 ins a 0 : a|0 ins b 1 : a b",
     "replicas 2 operations 3 inserts 3|doubled 0.2 1.1"),
    ("two inserts", 2, "0 ins a 0 : a|1 ins b 0 : b", f"replicas 2 operations 2 inserts 2|{ACCEPTED} a b"),
    ("two inserts, read the other way round", 2, "0 ins a 0 : a|1 ins b 0 : b|0 recv 1 1|0 read : b a",
     f"replicas 2 operations 3 inserts 2|{ACCEPTED} b a"),
]
DOUBLED = "0 ins a 0 : a|0 ins b 1 : a b|1 ins b 0 : b"
DOUBLED_JSON = b'{"again":"1.1","first":"0.2","inserts":3,"operations":3,"replicas":2,"verdict":"doubled"}\n'

# Recordings with views by name, in version 2 of the trace: how many replicas, the entries, the lines of the report, and those of
# the certificate behind the first.
VIEWS = [
    ("a view of a part", 2, "0 ins a 0 : a|0 ins b 1 : a b|1 recv 0 2|1 view : b",
     f"replicas 2 operations 3 inserts 2|{ACCEPTED} a b", "accepted|order : a b"),
    ("three views round a ring", 3,
     "0 ins a 0 : a|1 ins b 0 : b|2 ins c 0 : c|0 recv 1 1|0 recv 2 1|0 view : a b|0 view : b c|0 view : c a",
     "replicas 3 operations 6 inserts 3|refused 3|strong no|weak yes|step a b 0.2 : a b|step b c 0.3 : b c|step c a 0.4 : c a",
     "refused 3|step a b 0.2|step b c 0.3|step c a 0.4|layers a / b|layers b / c|layers c /"),
    ("two views in opposite orders", 2, "0 ins a 0 : a|1 ins b 0 : b|0 recv 1 1|1 recv 0 1|0 view : a b|1 view : b a",
     "replicas 2 operations 4 inserts 2|refused 2|strong no|weak no|step a b 0.2 : a b|step b a 1.2 : b a",
     "refused 2|step a b 0.2|step b a 1.2"),
    ("a deleted element in a view", 1, "0 ins a 0 : a|0 del a :|0 view : a",
     "replicas 1 operations 3 inserts 1|contents 0.3|strong no|weak no", "contents 0.3"),
    ("a name twice in a view", 1, "0 ins a 0 : a|0 view : a a",
     "replicas 1 operations 2 inserts 1|contents 0.2|strong no|weak no", "contents 0.2"),
    ("an empty view of nothing", 1, "0 view :", f"replicas 1 operations 1 inserts 0|{ACCEPTED}", "accepted|order :"),
    ("version 2 without a view", 1, "0 read :", f"replicas 1 operations 1 inserts 0|{ACCEPTED}", "accepted|order :"),
    ("version 2 without an entry", 1, "", f"replicas 1 operations 0 inserts 0|{ACCEPTED}", "accepted|order :"),
    ("an empty view of an element", 1, "0 ins a 0 : a|0 view :", f"replicas 1 operations 2 inserts 1|{ACCEPTED} a",
     "accepted|order : a"),
    ("a view of all", 1, "0 ins a 0 : a|0 ins b 1 : a b|0 view : a b", f"replicas 1 operations 3 inserts 2|{ACCEPTED} a b",
     "accepted|order : a b"),
    ("a view without the middle", 1, "0 ins a 0 : a|0 ins b 1 : a b|0 ins c 2 : a b c|0 view : a c",
     f"replicas 1 operations 4 inserts 3|{ACCEPTED} a b c", "accepted|order : a b c"),
    ("a view of all in another order", 1, "0 ins a 0 : a|0 ins b 1 : a b|0 view : b a",
     "replicas 1 operations 3 inserts 2|refused 2|strong no|weak no|step a b 0.2 : a b|step b a 0.3 : b a",
     "refused 2|step a b 0.2|step b a 0.3"),
    ("a view and no read may leave an element out", 1, "0 ins a 0 : a|0 view :|0 read :",
     "replicas 1 operations 3 inserts 1|contents 0.3|strong no|weak no", "contents 0.3"),
    ("an insert may leave nothing out", 1, "0 ins a 0 : a|0 view :|0 ins b 0 : b",
     "replicas 1 operations 3 inserts 2|contents 0.3|strong no|weak no", "contents 0.3"),
    ("a delete may leave nothing out", 1, "0 ins a 0 : a|0 ins b 0 : b a|0 del a :",
     "replicas 1 operations 3 inserts 2|contents 0.3|strong no|weak no", "contents 0.3"),
    ("an element in a view before it arrives", 2, "0 ins a 0 : a|1 view : a",
     "replicas 2 operations 2 inserts 1|contents 1.1|strong no|weak no", "contents 1.1"),
    ("a name in a view that nothing inserts", 1, "0 view : a",
     "replicas 1 operations 1 inserts 0|contents 0.1|strong no|weak no", "contents 0.1"),
    ("an element in a view whose delete has not arrived", 2, "0 ins a 0 : a|1 recv 0 1|0 del a :|1 view : a",
     f"replicas 2 operations 3 inserts 1|{ACCEPTED} a", "accepted|order : a"),
    ("the receipt of a view brings what it had seen", 3, "0 ins a 0 : a|1 recv 0 1|1 view :|2 recv 1 1|2 read :",
     "replicas 3 operations 3 inserts 1|contents 2.1|strong no|weak no", "contents 2.1"),
    ("a doubled name before the fault of a view", 1, "0 view : q|0 ins a 0 : a|0 ins a 0 : a",
     "replicas 1 operations 3 inserts 2|doubled 0.2 0.3", "doubled 0.2 0.3"),
    ("a view of the name view", 1, "0 ins view 0 : view|0 view : view|0 del view :",
     f"replicas 1 operations 3 inserts 1|{ACCEPTED} view", "accepted|order : view"),
]

# Vectors of which the report must not depend on the number of workers.
SEARCHED = ["all-three-way-cycle", "all-opposite-pair", "all-ring-of-four"]

# Texts that spell no recording, and the fault.
MALFORMED = [
    ("", "line 1: header"),
    ("\n", "line 1: header"),
    ("trace 1", "line 1: cut"),
    ("trace 1\n", "line 2: replicas"),
    ("trace 1\nreplicas 17\n", "line 2: replicas"),
    ("trace 1\nreplicas 0\n", "line 2: replicas"),
    ("trace 1\nreplicas 1\n0 read :", "line 3: cut"),
    ("trace 1\nreplicas 1\n\n", "line 3: shape"),
    ("trace 1\nreplicas 1\n0  read :\n", "line 3: shape"),
    ("trace 1\nreplicas 1\n01 read :\n", "line 3: shape"),
    ("trace 1\nreplicas 1\n0 read : \n", "line 3: shape"),
    ("trace 1\nreplicas 1\n0 recv 1 0\n", "line 3: shape"),
    ("trace 1\nreplicas 1\n0 ins a 4294967296 : a\n", "line 3: shape"),
    ("trace 1\nreplicas 1\n1 read :\n", "line 3: no such replica"),
    ("trace 1\nreplicas 2\n0 ins a 0 : a\n1 recv 0 2\n", "line 4: not yet, have 1"),
    ("trace 1\nreplicas 2\n0 ins a 0 : a\n0 recv 0 1\n", "line 4: own receipt"),
    ("trace 1\r\nreplicas 1\r\n", "line 1: header"),
    ("trace 1\nreplicas 1\r\n", "line 2: replicas"),
    ("trace 1\nreplicas 1\n0 read :\r\n", "line 3: shape"),
    ("trace 1\nreplicas 1\n0 ins \u00e4 0 : \u00e4\n", "line 3: shape"),
    ("trace 1\nreplicas 1\n0 read :\0\n", "line 3: shape"),
    ("trace 2", "line 1: cut"),
    ("trace 2\n", "line 2: replicas"),
    ("trace 2\nreplicas 1\n0 read :", "line 3: cut"),
    ("trace 2\nreplicas 1\n0 view :", "line 3: cut"),
    ("trace 1\nreplicas 1\n0 view :\n", "line 3: shape"),
    ("trace 1\nreplicas 1\n1 view :\n", "line 3: shape"),
    ("trace 1\nreplicas 1\n0 view :", "line 3: cut"),
    ("trace 1\nreplicas 1\n0 read :\n0 view :\n", "line 4: shape"),
    ("trace 2\nreplicas 1\n1 view :\n", "line 3: no such replica"),
    ("trace 2\nreplicas 1\n01 view :\n", "line 3: shape"),
    ("trace 2\nreplicas 1\n0 view : \n", "line 3: shape"),
    ("trace 2\nreplicas 1\n0 view\n", "line 3: shape"),
    ("trace 2\nreplicas 1\n0 view a :\n", "line 3: shape"),
    ("trace 2\nreplicas 1\n0 View :\n", "line 3: shape"),
    ("trace 2\nreplicas 1\n0 views :\n", "line 3: shape"),
    ("trace 2\nreplicas 2\n0 view :\n1 recv 0 2\n", "line 4: not yet, have 1"),
    ("trace 2\ntrace 1\nreplicas 1\n", "line 2: replicas"),
    ("trace 2\nreplicas 1\ntrace 2\n", "line 3: shape"),
    ("trace 3\nreplicas 1\n", "line 1: header"),
    ("trace 0\nreplicas 1\n", "line 1: header"),
    ("trace 12\nreplicas 1\n", "line 1: header"),
    ("trace 2 \nreplicas 1\n", "line 1: header"),
    ("trace 2\r\nreplicas 1\n", "line 1: header"),
    ("trace\nreplicas 1\n", "line 1: header"),
]

USAGE = [
    ["verdict"],
    ["verdict", "--workers", "0", "t"],
    ["verdict", "--workers", "65", "t"],
    ["verdict", "--workers", "07", "t"],
    ["verdict", "--workers", "+7", "t"],
    ["verdict", "--workers", "many", "t"],
    ["verdict", "--workers", "7", "--workers", "7", "t"],
    ["verdict", "--workers", "", "t"],
    ["verdict", "--workers"],
    ["verdict", "t", "u"],
    ["verdict", "--quick", "t"],
    ["verdict", "--json"],
    ["verdict", "--json", "--json", "t"],
    ["verdict", "--json=yes", "t"],
    ["--json", "verdict", "t"],
    ["verdict", b"\xff"],
    [b"\xff\xfe"],
    [""],
    ["t"],
    ["-"],
]

FORMATS, MAN = ROOT / "docs" / "formats.md", ROOT / "tools" / "installed" / "domepeeler.1"

# What the help of a command says, as pages have it: the command, how the line of its help begins, a page, and a pattern whose group
# stands in that line, articles aside.
HELPED = [
    ("verdict", "--json ", FORMATS, r"^## The (report as JSON)$"),
    ("verdict", "--workers <N> ", FORMATS, r"N is (1 to 64), by default 4:"),
    ("verdict", "--workers <N> ", FORMATS, r"N is 1 to 64, by default (4):"),
    ("verdict", "<FILE> ", FORMATS, r"FILE and CERT `-` are (standard input);"),
    ("live", "--workers <N> ", FORMATS, r"N is (1 to 64), by default 4:"),
    ("cert", "", MAN, r"^Print a (certificate of the verdict)\.$"),
    ("live", "", MAN, r"^Replay the trace (by threads in one session beside a watcher),"),
    ("verify", "", FORMATS, r"prints: (whether the certificate is valid for the recording) that"),
    ("verify", "", MAN, r"^Check a certificate against a trace, (without any search)\.$"),
    ("verify", "<FILE> ", MAN, r"^Check a certificate against (a trace),"),
    ("verify", "<FILE> ", FORMATS, r"FILE and CERT `-` are (standard input);"),
    ("verify", "<CERT> ", MAN, r"^Check (a certificate) against"),
    ("verify", "<CERT> ", FORMATS, r"FILE and CERT `-` are (standard input);"),
]


def trace_of(replicas: int, entries: str) -> bytes:
    return lines_of(f"trace 1|replicas {replicas}|{entries}")


def lines_of(lines: str) -> bytes:
    return "".join(line + "\n" for line in lines.split("|") if line).encode()


def worked(tally: Tally, program: str) -> None:
    for name, replicas, entries, lines in WORKED:
        tally.same(name, run(program, trace=trace_of(replicas, entries)), report(lines_of(lines)))
    got = run(program, ["verdict", "--json", "-"], trace_of(2, DOUBLED))
    tally.same("doubled name as JSON", got, Ended(1, DOUBLED_JSON, b""))


def views(tally: Tally, program: str, folder: str) -> None:
    """Recordings with views: report, certificate, and what the checker says of it."""
    path = os.path.join(folder, "cert")
    for name, replicas, entries, lines, certificate in VIEWS:
        trace = lines_of(f"trace 2|replicas {replicas}|{entries}")
        wanted = report(lines_of(lines))
        tally.same(name, run(program, ["verdict", "-"], trace), wanted)
        tally.same(f"live: {name}", run(program, ["live", "-"], trace), wanted)
        certified = lines_of(f"cert 2|{certificate}")
        tally.same(f"cert: {name}", run(program, ["cert", "-"], trace), wanted._replace(out=certified))
        Path(path).write_bytes(certified)
        kind = certificate.split("|")[0].split(" ")[0]
        tally.same(f"verify: {name}", run(program, ["verify", "-", path], trace), line(f"yes {kind}\n"))
        Path(path).write_bytes(b"cert 1\naccepted\norder : a\n" if kind != "accepted" else b"cert 1\ncontents 0.1\n")
        answer = line("no order\n" if kind == "refused" else "no fault\n")
        tally.same(f"verify: {name}, another certificate", run(program, ["verify", "-", path], trace), answer)
    pair = VECTORS / "all-opposite-pair.trace"
    trace = pair.read_bytes().replace(b"trace 1", b"trace 2").replace(b" read :", b" view :")
    for words, suffix in (["verdict", "-"], ".report"), (["verdict", "--json", "-"], ".json"), (["cert", "-"], ".cert2"):
        tally.same(f"{pair.name} with views, {words}", run(program, words, trace), Ended(1, pair.with_suffix(suffix).read_bytes(), b""))


def malformed(tally: Tally, program: str) -> None:
    for text, words in MALFORMED:
        tally.same(repr(text), run(program, trace=text.encode()), fault(words))
    limit = "".join(f"0 ins n{i} 0 :\n" for i in range(4097))
    tally.same("inserts full", run(program, trace=b"trace 1\nreplicas 1\n" + limit.encode()), fault("line 4099: inserts full"))
    limit = "0 read :\n" * 16385
    tally.same("entries full", run(program, trace=b"trace 1\nreplicas 1\n" + limit.encode()), fault("line 16387: entries full"))
    limit = "0 read :" + " a" * 4097 + "\n"
    tally.same("long response", run(program, trace=b"trace 1\nreplicas 1\n" + limit.encode()), fault("line 3: long response"))
    limit = ("0 read :" + " a" * 4096 + "\n") * 64 + "0 read : a\n"
    tally.same("places full", run(program, trace=b"trace 1\nreplicas 1\n" + limit.encode()), fault("line 67: places full"))
    front = b"trace 2\nreplicas 1\n"
    for what, limit, words in (("entries", "0 view :\n" * 16385, "line 16387: entries full"),
                               ("entries, the last a read", "0 view :\n" * 16384 + "0 read :\n", "line 16387: entries full"),
                               ("names", "0 view :" + " a" * 4097 + "\n", "line 3: long response"),
                               ("names of all", ("0 view :" + " a" * 4096 + "\n") * 64 + "0 view : a\n", "line 67: places full"),
                               ("names of all, reads too", ("0 view :" + " a" * 4096 + "\n0 read :" + " a" * 4096 + "\n") * 32
                                + "0 read : a\n", "line 67: places full")):
        tally.same(f"views full: {what}", run(program, trace=front + limit.encode()), fault(words))
    limit = "0 view :\n" * 16384
    wanted = report(lines_of(f"replicas 1 operations 16384 inserts 0|{ACCEPTED}"))
    tally.same("as many views as there can be", run(program, trace=front + limit.encode()), wanted)


def reports_of(vector: Path) -> list:
    """The two forms of a vector's report: the words that ask for each, and how the run must end."""
    status = int(vector.with_suffix(".status").read_text())
    forms = ([], ".report"), (["--json"], ".json")
    return [(words, Ended(status, vector.with_suffix(suffix).read_bytes(), b"")) for words, suffix in forms]


def vectors(tally: Tally, program: str) -> None:
    for path in sorted(VECTORS.glob("*.trace")):
        for words, wanted in reports_of(path):
            tally.same(f"{path.name} as a file {words}", run(program, ["verdict", *words, str(path)]), wanted)
            for spelling in spellings(path.read_text()):
                got = run(program, ["verdict", "-", *words], spelling.encode())
                tally.same(f"{path.name} {words} as {spelling[:7]}", got, wanted)
    for path in sorted(VECTORS.glob("malformed/*.trace")):
        wanted = fault(path.with_suffix(".fault").read_text().rstrip("\n"))
        for words in [], ["--json"]:
            tally.same(f"{path.name} {words}", run(program, ["verdict", *words, str(path)]), wanted)


def stood_in(tally: Tally) -> None:
    """What stands in for the program, until it is built, answers as the vectors have it."""
    wrong, count = [], 0
    for path in sorted([*VECTORS.glob("*.trace"), *VECTORS.glob("malformed/*.trace")]):
        unread = path.with_suffix(".fault")
        for words, wanted in [([], fault(unread.read_text().rstrip("\n")))] if unread.exists() else reports_of(path):
            wrong += [] if run(STAND_IN, ["verdict", *words, str(path)]) == wanted else [path.name]
            count += 1
    tally.check("what stands in for the program: each vector, in both forms", count > 100 and not wrong, wrong)


def workers(tally: Tally, program: str) -> None:
    for path in [VECTORS / f"{name}.trace" for name in SEARCHED]:
        for words, wanted in reports_of(path):
            for n in ("1", "2", "7", "64"):
                got = run(program, ["verdict", "--workers", n, *words, str(path)])
                tally.same(f"{path.name} {words}, {n} workers", got, wanted)


def most_threads(program: str, words: list) -> int:
    """The most threads that were seen of one run, which is looked at over and over until it ends."""
    child = subprocess.Popen([program, *words], stdout=subprocess.DEVNULL)
    most = 0
    while child.poll() is None:
        try:
            most = max(most, len(os.listdir(f"/proc/{child.pid}/task")))
        except FileNotFoundError:
            pass
    return most


# How often a run is seen with all its threads at once: with 16 workers on four processors in one run of four (45 of 170 beside other
# work), with two and four in all (170 of 170 each). What is counted on is less: one run of ten, and one of two.
MANY_SEEN, FEW_SEEN = 1 / 10, 1 / 2
# A program that is right fails such a check by this chance, where its threads are seen as often as that.
CHANCE = 1e-6


def seen_threads(program: str, words: list, wanted: int, often: float) -> int:
    """The most threads that were seen, in as many runs as it takes that a run with so many is missed by the chance alone."""
    seen = 0
    for _ in range(math.ceil(math.log(CHANCE) / math.log(1 - often))):
        seen = max(seen, most_threads(program, words))
        if seen >= wanted:
            break
    return seen


def threads(tally: Tally, program: str, folder: str) -> None:
    """As many threads search as were asked for, in one run of several near the limits on names: a search may end before all
    have begun. The check before it, which finds the covering responses too, has more than one where more than one worker was asked
    for; in an accepted recording no other search follows. A certificate is made by four."""
    path = os.path.join(folder, "ring")
    for name, family in ((path, "wide_ring"), (os.path.join(folder, "accepted"), "accepted")):
        with open(name, "wb") as out:
            subprocess.run([sys.executable, str(ROOT / "tests" / "shared" / "traces.py"), family, "XL"], stdout=out, check=True)
    processors = os.cpu_count() or 1
    many = min(64, 2 * processors + 8)
    seen = most_threads(program, ["verdict", "--workers", "1", path])
    tally.check("one worker", seen == 1, f"saw {seen}")
    seen = seen_threads(program, ["verdict", "--workers", "2", os.path.join(folder, "accepted")], 2, FEW_SEEN)
    tally.check("threads before the search", seen > 1 or processors == 1, f"saw {seen}")
    seen = seen_threads(program, ["verdict", "--workers", str(many), path], many, MANY_SEEN)
    tally.check(f"{many} workers in threads", seen >= many, f"saw {seen}")
    seen = seen_threads(program, ["cert", path], 4, FEW_SEEN)
    tally.check("four workers of a certificate", seen == 4, f"saw {seen}")


def runs_shown(page: Path) -> list:
    """The indented blocks of a page that begin with `$`: the words of the command, and what it prints."""
    shown = []
    is_shown = False
    for line in page.read_text().splitlines():
        if line.startswith("    $ "):
            shown.append((line[6:].split(), b""))
            is_shown = True
        elif line.startswith("    ") and is_shown:
            words, printed = shown.pop()
            shown.append((words, printed + line[4:].encode() + b"\n"))
        else:
            is_shown = False
    return shown


# The reports on the examples of which the gallery shows the verdict alone.
LISTED = {
    "libinfinity_cycle_of_four":
        "replicas 3 operations 7 inserts 4|refused 4|strong no|weak yes|step e0 e1 0.2 : e0 e1|step e1 e2 2.2 : e1 e2|"
        "step e2 e3 0.3 : e2 e3|step e3 e0 1.2 : e3 e0",
    "libinfinity_cycle_round_a_relay":
        "replicas 4 operations 5 inserts 3|refused 3|strong no|weak yes|step e0 e21 2.1 : e0 e21|"
        "step e21 e44 0.3 : e21 e44|step e44 e0 1.1 : e44 e0",
    "libinfinity_two_replicas":
        "replicas 2 operations 7 inserts 4|refused 4|strong no|weak yes|step e10 e0 0.2 : e10 e0|"
        "step e0 e6 1.2 : e0 e6|step e6 e14 1.4 : e6 e14|step e14 e10 0.3 : e14 e10",
    "libinfinity_replicas_disagree":
        "replicas 4 operations 6 inserts 3|refused 2|strong no|weak no|step e4 e2 0.1 : e4 e0 e2|step e2 e4 2.2 : e2 e4",
    "prosemirror_three_way_cycle":
        "replicas 3 operations 8 inserts 3|refused 3|strong no|weak yes|step x b 2.2 : x b|step b a 1.3 : b a|step a x 1.2 : a x",
    "prosemirror_cycle_of_four":
        "replicas 2 operations 9 inserts 4|refused 4|strong no|weak yes|step a b 1.5 : a b|step b x 1.4 : b x|"
        "step x y 0.1 : x y|step y a 0.3 : y a",
    "whole_states_lost_text": "replicas 2 operations 4 inserts 2|contents 0.2|strong no|weak no",
    "prosemirror_lost_text": "replicas 2 operations 7 inserts 3|contents 1.3|strong no|weak no",
    "prosemirror_insert_deletes": "replicas 2 operations 8 inserts 4|contents 1.6|strong no|weak no",
    "prosemirror_accepted": "replicas 4 operations 25 inserts 8|accepted|strong yes|weak yes|order : e5 e14 e12 e6 e4 e10 e8 e2",
    "crdt_el_replicas_disagree":
        "replicas 4 operations 24 inserts 21|refused 2|strong no|weak no|"
        "step e34 e35 1.6 : e32 e34 e35 e25 e23 e22 e24 e21 e14 e19 e5 e11 e2 e20 e10 e8 e3 e6|"
        "step e35 e34 2.8 : e29 e32 e35 e34 e25 e23 e22 e24 e21 e14 e19 e5 e11 e2 e20 e10 e8 e3 e6",
    "crdt_el_wrong_delete": "replicas 2 operations 5 inserts 2|contents 0.4|strong no|weak no",
    "crdts_uncausal_exchange": "replicas 3 operations 3 inserts 1|contents 1.1|strong no|weak no",
    "yjs_uncausal_exchange": "replicas 3 operations 5 inserts 4|contents 0.1|strong no|weak no",
    "libinfinity_accepted": "replicas 2 operations 20 inserts 8|accepted|strong yes|weak yes|order : e1 e0 e6 e5 e4 e7 e2 e3",
    "crdt_el_accepted": "replicas 2 operations 21 inserts 9|accepted|strong yes|weak yes|order : e4 e3 e2 e1 e8 e7 e0 e6 e5",
    "yjs_accepted": "replicas 4 operations 17 inserts 8|accepted|strong yes|weak yes|order : e9 e10 e20 e1 e11 e21 e13 e14",
    "crdts_accepted":
        "replicas 4 operations 23 inserts 15|accepted|strong yes|weak yes|"
        "order : e16 e20 e3 e10 e9 e7 e21 e19 e12 e18 e0 e6 e2 e8 e13",
    "insert_delete_read": "replicas 1 operations 3 inserts 1|accepted|strong yes|weak yes|order : a",
    "lost_element": "replicas 3 operations 3 inserts 2|contents 2.1|strong no|weak no",
}


def gallery(tally: Tally, program: str) -> None:
    """Each example is in the gallery with its report or its verdict, and the picture of each cycle is the one that is drawn from it."""
    page = ROOT / "docs" / "gallery.md"
    reports = {}
    for words, printed in runs_shown(page):
        path = ROOT / words[-1]
        if words[:-1] == ["cat"]:
            tally.check(f"gallery: {words}", path.read_bytes() == printed)
            continue
        tally.check(f"gallery: {words}", words[:-1] == ["crates/finder_cli/out/finder_cli", "verdict"])
        reports[path] = printed
    for name, verdict in re.findall(r"^- `examples/(\S+)\.trace`: `([a-z]+[ 0-9.]*)`", page.read_text(), re.MULTILINE):
        wanted = lines_of(LISTED.get(name, ""))
        tally.check(f"gallery: {name} is {verdict}", wanted.split(b"\n")[1:2] == [verdict.encode()], wanted)
        reports[ROOT / "examples" / f"{name}.trace"] = wanted
    for path, printed in reports.items():
        tally.same(f"gallery: report of {path.name}", run(program, ["verdict", str(path)]), report(printed))
        if printed.split(b"\n")[1].startswith(b"refused"):
            drawn = run(sys.executable, [str(ROOT / "tools" / "draw_cycle.py")],
                        run(program, ["verdict", "--json", str(path)]).out)
            picture = ROOT / "docs" / "gallery" / f"{path.stem}.svg"
            tally.same(f"gallery: {picture.name}", drawn, Ended(0, picture.read_bytes(), b""))
            tally.check(f"gallery: shows {picture.name}", f"](gallery/{picture.name})" in page.read_text())
    examples = set(ROOT.glob("examples/*.trace"))
    tally.check("gallery: has each example", len(examples) >= 10 and set(reports) == examples, examples ^ set(reports))


def embedding(tally: Tally) -> None:
    """The page on embedding shows lines of the program and of the reader's tests that the gate runs, and what the program
    prints."""
    page = (ROOT / "docs" / "embedding.md").read_text()
    crate = ROOT / "crates" / "live_example"
    source = (crate / "src" / "main.rt").read_text() + (ROOT / "crates/trace_text/src/tests/piecewise.rt").read_text()
    shown = [part.split("```")[0] for part in page.split("```rust\n")[1:]]
    tally.check("embedding: shows the program", len(shown) >= 4 and any("fn main(" in lines for lines in shown))
    for lines in shown:
        wanted = [line.strip() for line in source.splitlines()]
        tally.check(f"embedding: {lines[:30]!r}", all(line.strip() in wanted for line in lines.splitlines()))
    printed = "".join(f"    {line}\n" for line in (crate / "stdout").read_text().splitlines())
    tally.check("embedding: shows what it prints", printed in page)


def command_line(tally: Tally, program: str) -> None:
    for words in USAGE:
        tally.same(f"usage {words}", run(program, words, DELETED), fault("usage"))
    for words in (["--help"], ["-h"], ["help"], ["verdict", "--help"], ["help", "verdict"],
                  ["verdict", "--workers", "0", "--help", "t"], ["verdict", "t", "--workers", "0", "--help"]):
        got = run(program, words)
        tally.check(f"help {words}", got.status == 0 and got.out.endswith(b"\n") and b"verdict" in got.out and not got.err, got)
    named = subprocess.run([b"\xff"], executable=program, input=DELETED, capture_output=True)
    tally.same("a program name that is no text", Ended(named.returncode, named.stdout, named.stderr), fault("usage"))


def plain(text: str) -> str:
    """The words of a text in small letters, without articles."""
    return " ".join(word for word in re.findall(r"[\w-]+", text.lower()) if word not in ("a", "the", "any"))


def said_by(page: Path, pattern: str) -> str:
    """What the pattern's group stands for in a page that has the pattern once."""
    found = re.findall(pattern, page.read_text(), re.MULTILINE)
    return found[0] if len(found) == 1 else f"{page.name} has {pattern} {len(found)} times"


def version(tally: Tally, program: str) -> None:
    """The version is the one that the pages name."""
    wanted = said_by(FORMATS, r"`--version` prints `([^`]+)`")
    for words in ["--version"], ["-V"]:
        tally.same(f"version {words}", run(program, words), Ended(0, f"{wanted}\n".encode(), b""))
    tally.check("version of the man page", said_by(MAN, r'^\.TH .*"Domepeeler ([^"]+)"') == wanted.removeprefix("domepeeler "), wanted)


def helps(tally: Tally, program: str) -> None:
    """The help of each command has its options and files, and says of them what the pages say."""
    texts = {words[0]: (words[1:], run(program, [words[0], "--help"]).out.decode())
             for words in re.findall(r"^    finder_cli ([a-z].*)$", FORMATS.read_text(), re.MULTILINE) for words in [words.split()]}
    listed = [line.split(maxsplit=1) for line in run(program, ["--help"]).out.decode().splitlines()]
    tally.check("help: commands", len(texts) == 4, list(texts))
    for command, (words, text) in texts.items():
        wanted = {word for word in re.findall(r"--[a-z]+", " ".join(words))} | {"--help"}
        tally.check(f"help: options of {command}", set(re.findall(r"^ +(?:-h, )?(--[a-z]+)", text, re.MULTILINE)) == wanted, text)
        files = [word for word in words if word in ("FILE", "CERT")]
        tally.check(f"help: files of {command}", re.findall(r"^  <([A-Z]+)>", text, re.MULTILINE) == files, text)
        tally.check(f"help: {command} in the list", [command, text.splitlines()[0]] in listed, listed)
    for command, begin, page, pattern in HELPED:
        lines = [line.strip() for line in texts[command][1].splitlines()]
        line = next((line for line in lines if line.startswith(begin)), "")
        told = plain(line.removeprefix(begin))
        tally.check(f"help: {command} {begin}", f" {plain(said_by(page, pattern))} " in f" {told} ", line)


def files(tally: Tally, program: str, folder: str) -> None:
    held = os.path.join(folder, "held trace")
    Path(held).write_bytes(DELETED)
    empty = os.path.join(folder, "empty")
    Path(empty).write_text("")
    missing = os.path.join(folder, "missing")
    tally.same("a file", run(program, ["verdict", held], b"rubbish"), DELETED_REPORT)
    tally.same("a file, workers behind it", run(program, ["verdict", held, "--workers=3"]), DELETED_REPORT)
    tally.same("an empty file", run(program, ["verdict", empty]), fault("line 1: header"))
    tally.same("a missing file", run(program, ["verdict", missing]), fault(f"cannot read {missing}"))
    tally.same("a directory", run(program, ["verdict", folder]), fault(f"cannot read {folder}"))
    tally.same("a file below a file", run(program, ["verdict", held + "/x"]), fault(f"cannot read {held}/x"))
    tally.same("no name", run(program, ["verdict", ""]), fault("cannot read "))
    tally.same("a word as given", run(program, ["verdict", "./no/../no such \u00e4"]), fault("cannot read ./no/../no such \u00e4"))
    with open(held, "rb") as opened:
        tally.same("a file as standard input", run(program, ["verdict", "-"], stdin=opened), DELETED_REPORT)
    with open(empty, "rb") as opened:
        tally.same("an empty standard input", run(program, stdin=opened), fault("line 1: header"))
    opened = os.open(folder, os.O_RDONLY)
    tally.same("a directory as standard input", run(program, stdin=opened), fault("cannot read -"))
    os.close(opened)


def closed_input(tally: Tally, program: str) -> None:
    shell = ["sh", "-c", f'"$0" <&-', program]
    tally.same("a closed standard input", run(shell[0], shell[1:]), fault("cannot read -"))


def outputs(tally: Tally, program: str) -> None:
    for words in ["verdict", "-"], ["verdict", "--json", "-"]:
        with open("/dev/full", "wb") as full:
            tally.same(f"a full output, {words}", run(program, words, DELETED, out=full), fault("cannot write"))
    with open("/dev/full", "wb") as full:
        tally.same("help to a full output", run(program, ["--help"], out=full), fault("cannot write"))
        tally.same("a fault with a full output", run(program, out=full), fault("line 1: header"))
    shell = ["sh", "-c", f'"$0" >&-', program]
    tally.same("a closed output", run(shell[0], shell[1:], DELETED), fault("cannot write"))
    tally.same("a closed error stream", run("sh", ["-c", '"$0" 2>&-', program], b"x\n"), Ended(2, b"", b""))


def long_report(tally: Tally, program: str, folder: str) -> None:
    """A report of 135 KB, more than a pipe holds: whole, and into pipes that nobody reads to the end."""
    names = [[f"{replica:x}".ljust(32, "_")[:28] + f"{i:04x}" for i in range(256)] for replica in range(16)]
    entries = [f"{r} ins {name} 0 : {name}|{r} del {name} :" for r in range(16) for name in names[r]]
    path = os.path.join(folder, "long")
    Path(path).write_bytes(trace_of(16, "|".join(entries)))
    order = [name for of_replica in names for name in of_replica]
    text = lines_of(f"replicas 16 operations 8192 inserts 4096|{ACCEPTED} " + " ".join(order))
    tally.same("a long report", run(program, ["verdict", path]), report(text))
    said = {"inserts": 4096, "operations": 8192, "order": order, "replicas": 16, "strong": True, "verdict": "accepted",
            "weak": True}
    wanted = Ended(0, json.dumps(said, separators=(",", ":")).encode() + b"\n", b"")
    tally.same("a long report as JSON", run(program, ["verdict", "--json", path]), wanted)
    for words, whole in ([], text), (["--json"], wanted.out):
        for read in 0, 1, 1000:
            ended = run_to_closed_pipe([program, "verdict", *words, path], read)
            tally.same(f"a pipe closed after {read} bytes {words}", ended, fault("cannot write")._replace(out=whole[:read]))


def run_to_closed_pipe(words: list, read: int) -> Ended:
    """A run whose output is closed when so many bytes of it have been read."""
    reader, writer = os.pipe()
    with open(reader, "rb") as out:
        if read == 0:
            out.close()
        child = subprocess.Popen(words, stdin=subprocess.DEVNULL, stdout=writer, stderr=subprocess.PIPE)
        os.close(writer)
        got = b"" if read == 0 else out.read(read)
    _, err = child.communicate(timeout=60)
    return Ended(child.returncode, got, err)


def long_texts(tally: Tally, program: str) -> None:
    front = b"trace 1\nreplicas 1\n"
    for name, whole in [("digits", b"0" * 10_000_000), ("blanks", b" " * 10_000_000), ("one name", b"0 ins " + b"a" * 10_000_000 + b" 0 :"),
                        ("many names", b"0 read :" + b" a" * 5_000_000), ("a view in version 1", b"0 view :" + b" a" * 5_000_000)]:
        words = "line 3: long response" if name == "many names" else "line 3: shape"
        tally.same(f"a line of 10 MB of {name}", run(program, trace=front + whole + b"\n"), fault(words))
        tally.same(f"10 MB of {name}, cut", run(program, trace=front + whole), fault("line 3: cut"))
    view = b"trace 2\nreplicas 1\n0 view :" + b" a" * 5_000_000
    tally.same("a line of 10 MB of a view", run(program, trace=view + b"\n"), fault("line 3: long response"))
    tally.same("10 MB of a view, cut", run(program, trace=view), fault("line 3: cut"))
    tally.same("10 MB without LF", run(program, trace=b"t" * 10_000_000), fault("line 1: cut"))
    tally.same("10 MB of LF", run(program, trace=front + b"\n" * 10_000_000), fault("line 3: shape"))


def largest_response(tally: Tally, program: str, folder: str) -> None:
    """A response of as many names as one may have, each as long as it may be, in every command: the order is that of the response."""
    names = [[f"{replica:_<28x}{i:04x}" for i in range(256)] for replica in range(16)]
    lines = [f"{r} ins {name} {i} : {' '.join(names[r][:i + 1])}" for r in range(16) for i, name in enumerate(names[r])]
    shown = " ".join(name for of_replica in names for name in of_replica)
    trace, certificate = Path(folder, "largest.trace"), Path(folder, "largest.cert")
    trace.write_text("\n".join(["trace 1", "replicas 16", *lines, *(f"0 recv {r} 256" for r in range(1, 16)), f"0 read : {shown}", ""]))
    wanted = Ended(0, f"replicas 16 operations 4097 inserts 4096\naccepted\nstrong yes\nweak yes\norder : {shown}\n".encode(), b"")
    for command in "verdict", "live":
        tally.same(f"the largest response: {command}", run(program, [command, str(trace)]), wanted)
    made = run(program, ["cert", str(trace)])
    certificate.write_bytes(made.out)
    tally.check("the largest response: cert", made.status == 0 and made.out.endswith(f" {shown}\n".encode()), made.out[:100])
    tally.same("the largest response: verify", run(program, ["verify", str(trace), str(certificate)]), Ended(0, b"yes accepted\n", b""))


def main() -> None:
    program = program_of(sys.argv)
    tally = Tally()
    worked(tally, program)
    with tempfile.TemporaryDirectory() as folder:
        views(tally, program, folder)
    malformed(tally, program)
    vectors(tally, program)
    stood_in(tally)
    workers(tally, program)
    gallery(tally, program)
    embedding(tally)
    command_line(tally, program)
    version(tally, program)
    helps(tally, program)
    with tempfile.TemporaryDirectory() as folder:
        files(tally, program, folder)
        long_report(tally, program, folder)
        largest_response(tally, program, folder)
        threads(tally, program, folder)
    closed_input(tally, program)
    outputs(tally, program)
    long_texts(tally, program)
    tally.close()


if __name__ == "__main__":
    main()
