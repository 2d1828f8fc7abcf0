#!/usr/bin/env python3
"""engines.py PROGRAM: engines in any language that `recorders/engines/record.py` asks for sessions, by docs/engines.md: the examples in C
and Rust, bugs planted in them, engines that do not answer, and those that answer something else; Jupiter, where weak is enough; and
ProseMirror and Yjs, as Debian packs them.

What is expected was written by hand from docs/engines.md."""
import os
import re
import shutil
import subprocess
import sys
import tempfile
from concurrent.futures import ThreadPoolExecutor
from pathlib import Path
from typing import NamedTuple

ROOT = Path(__file__).resolve().parents[2]
sys.path.insert(0, str(ROOT / "tests"))
from shared.program import NODE, Tally, need, need_module, program_of  # noqa: E402

sys.path[:0] = [str(ROOT / "recorders")]
import merge  # noqa: E402

ENGINES = ROOT / "recorders" / "engines"
RECORD = str(ENGINES / "record.py")
PAGE = ROOT / "docs" / "engines.md"
GALLERY = ROOT / "docs" / "gallery.md"
KINDS = ["small, peers", "small, a star round a relay", "small, a star round an editor", "large, peers", "large, a star round a relay",
         "large, a star round an editor"]
SERVER_KINDS = ["small, a star round a relay", "middling, a star round a relay", "large, a star round a relay"]
MOST_LINES = 79  # of an example
AT_A_TIME = 3  # engines that do not answer

# By example: how it is compiled, what it is asked with, and its kinds of sessions; a text of it, and what plants a bug: concurrent inserts
# stand as they arrive; the most lines that the smallest trace of that needs: two for its head, two inserts, what brings them to
# each other, and two reads.
EXAMPLES = [
    ("own_engine.c", ["gcc", "-Wall", "-Wextra", "-Werror", "-std=c99", "-O1"], [], KINDS, "items[place].id > message->id",
     "items[place].id < 0", 8),
    ("own_engine.rs", ["rustc", "--edition", "2021", "-D", "warnings"], ["--server"], SERVER_KINDS, "item.0 > *id", "item.0 .0 > id.0", 9),
]


class Wrong(NamedTuple):
    """An engine that does not answer, what is said of it, and whether the plan is made smaller."""

    name: str
    script: str
    words: str
    is_small: bool = True


WRONG = [
    Wrong("hangs", "cat > /dev/null", "it did not answer within 1 second; does it flush standard output behind the line `end`?", False),
    Wrong("half a line, and hangs", "printf 'trace 1\\nreplicas 2\\n0 ins e'; exec sleep 60.0625",
          "it did not answer within 1 second; its last line is `0 ins e`, which has no end", False),
    Wrong("a child that hangs", "sleep 60.0625 & wait",
          "it did not answer within 1 second; does it flush standard output behind the line `end`?", False),
    Wrong("other line ends", "while read line; do printf '%s\\r\\n' \"$line\"; done",
          "it did not answer within 1 second; its last line is `end\\r`", False),
    Wrong("without end", "exec yes '0 read :'", "its answer is too long for the plan; its last line is `0 read :`", False),
    Wrong("one line without end", "exec cat /dev/zero",
          "its answer is too long for the plan; its last line is `" + "\\x00" * 15 + "..`, which has no end", False),
    Wrong("ends early", "read line; echo 'no such case' >&2; exit 3",
          "it ended with status 3 before the line `end`; its last words: no such case"),
    Wrong("ends at once, well", "exit 0", "it ended with status 0 before the line `end`"),
    Wrong("is killed", "kill -SEGV $$", "it ended by signal SIGSEGV before the line `end`"),
    Wrong("ends within a line", "printf 'trace 1\\nreplicas 1\\n0 ins e'",
          "it ended with status 0 before the line `end`; its last line is `0 ins e`, which has no end"),
    Wrong("closes its output", "exec >&-; cat > /dev/null", "it closed its standard output before the line `end`"),
    Wrong("repeats the plan", "exec cat", "its answer is no trace: line 1, `plan 1 causal`: header"),
    Wrong("other output", "while read line; do echo \"I got $line\"; [ \"$line\" != end ] || echo end; done",
          "its answer is no trace: line 1, `I got plan 1 causal`: header"),
    Wrong("a wrong entry", "while read line; do [ \"$line\" != end ] || printf 'trace 1\\nreplicas 1\\n0 ins e0 :\\nend\\n'; done",
          "its answer is no trace: line 3, `0 ins e0 :`: shape"),
    Wrong("nothing but the end", "while read line; do [ \"$line\" != end ] || echo end; done",
          "its answer is no trace: line 1: header"),
    Wrong("bytes that are no text", "while read line; do [ \"$line\" != end ] || printf '\\377\\nend\\n'; done",
          "its answer is no trace: line 1, `\\xff`: header"),
    Wrong("no operations", "while read line; do [ \"$line\" != end ] || printf 'trace 1\\nreplicas 1\\nend\\n'; done",
          "its answer has 0 operations of replica 0, and the plan 1"),
    Wrong("other replicas", "while read line; do [ \"$line\" != end ] || printf 'trace 1\\nreplicas 16\\nend\\n'; done",
          "its answer has 16 replicas, and the plan 1"),
]

# An engine that applies nothing of others, and writes no receipt. What it answers to an operation may be another text.
ANSWER = """change(words, names) or read(words, names)"""
ALONE = """
import sys


def change(words, names):
    replica, kind, name, *place = words + [""] * (len(words) == 2)
    if kind == "ins" and (place[0] == "at" or place[1] in names):
        position = min(int(place[1]), len(names)) if place[0] == "at" else names.index(place[1]) + (place[0] == "after")
        names.insert(position, name)
        return " ".join([replica, "ins", name, str(position), ":", *names])
    if kind == "del" and name in names:
        names.remove(name)
        return " ".join([replica, "del", name, ":", *names])


def read(words, names):
    return " ".join([words[0], "read :", *names])


for line in sys.stdin:
    words = line.split()
    if words[0] == "plan":
        lists = [[] for _ in range(int(words[1]))]
        print("trace 2")
        print("replicas", words[1])
    elif words[0] == "end":
        print("end", flush=True)
    elif words[1] != "take":
        names = lists[int(words[0])]
        print(ANSWER)
"""

# Engines that answer other operations than those asked for: what `ALONE` answers instead, and what is said of it, with the elements numbered
# as they come there.
OTHER = {
    "only reads": ("read(words, names)", "its answer to `0 ins e0 at 0` is `0 read :`"),
    "only views": ("read(words, names).replace('read', 'view')", "its answer to `0 ins e0 at 0` is `0 view :`"),
    "another name": ("change([words[0], 'ins', 'x' + words[2], *words[3:]] if words[1] == 'ins' else words, names) or read(words, names)",
                     "its answer to `0 ins e0 at 0` is `0 ins xe0 0 : xe0`"),
    "no deletes": ("read(words, names) if words[1] == 'del' else change(words, names) or read(words, names)",
                   "its answer to `0 del e0` is `0 read : e0`"),
    "deletes another": ("change([words[0], 'del', names[0]] if words[1] == 'del' and names else words, names) or read(words, names)",
                        "its answer to `0 del e0` is `0 del e1 :`"),
    "at the end": ("change([*words[:3], 'at', '4096'] if words[1] == 'ins' else words, names) or read(words, names)",
                   "its answer to `0 ins e0 after e1` is `0 ins e0 2 : e1 e2 e0`"),
    "another side": ("change([word.replace('after', 'before') for word in words], names) or read(words, names)",
                     "its answer to `0 ins e0 after e1` is `0 ins e0 0 : e0 e1`"),
    "beside what is missing": ("change(words, names) or change([*words[:3], 'at', '0'], names) if words[1] == 'ins' else change(words, names) "
                               "or read(words, names)", "its answer to `1 ins e0 after e1` is `1 ins e0 0 : e0`"),
    "an insert too many": ("(change(words, names) or read(words, names)) + '\\n' + change([words[0], 'ins', 'x' + words[2], 'at', '0'], names) "
                           "if words[1] == 'ins' else change(words, names) or read(words, names)",
                           "its answer has `0 ins xe0 0 : xe0 e0`, which the plan does not ask for"),
}

# An engine of which replica 0 takes nothing in the end.
DEAF = """
import subprocess
import sys

with subprocess.Popen(sys.argv[1:], stdin=subprocess.PIPE, stdout=subprocess.PIPE, text=True) as engine:
    plan = []
    for line in sys.stdin:
        plan.append(line)
        if line == "end\\n":
            last = max((place for place, asked in enumerate(plan) if asked.startswith("0 take ")), default=len(plan))
            print(*plan[:last], *plan[last + 1:], sep="", end="", file=engine.stdin, flush=True)
            plan = []
            while (answered := engine.stdout.readline()) not in ("end\\n", ""):
                print(answered, end="")
            print(answered, end="", flush=True)
"""

# ProseMirror's recordings in the gallery: the plan of each, and lines that its explanation has one after the other.
PROSEMIRROR = {
    "text_changes_places": ("plan 3 causal|0 ins x at 0|2 take 0 : 0.1|1 take 2 : 0.1|1 ins b after x|1 ins a before x|0 del x|"
                            "2 take 0 : 0.2|1 take 2 : 0.2|end",
                            "refused 2: two responses can't be right together.|b was put behind x. At 1.4 (line 10), x was deleted already, by 0.2 (line 8)|"
                            "a was put before x. At 1.4 (line 10), x was deleted already, by 0.2 (line 8)|strong and weak fail"),
    "three_way_cycle": ("plan 4 causal|0 ins x at 0|3 take 0 : 0.1|1 take 3 : 0.1|2 take 3 : 0.1|1 ins a before x|2 ins b after x|0 del x|"
                        "3 take 0 : 0.2|3 take 2 : 2.1|1 take 3 : 0.2 2.1|end",
                        "refused 3: three responses can't be right together. Any two of them can.|"
                        "b was put behind x. When it arrived at replica 1 in line 14, x was already deleted there by 0.2 (line 10)|"
                        "strong fails, weak holds"),
    "cycle_of_four": ("plan 3 causal|1 ins x at 0|1 ins y after x|2 take 1 : 1.1 1.2|0 take 2 : 1.1 1.2|1 del y|0 del x|0 ins a after y|"
                      "2 take 1 : 1.3|0 take 2 : 1.3|1 ins b before x|2 take 0 : 0.1 0.2|1 take 2 : 0.1 0.2|end",
                      "refused 4: four responses can't be right together. Any three of them can.|"
                      "a was put behind y. When it arrived at replica 1 in line 13, y was already deleted there by 1.3 (line 7)|"
                      "strong fails, weak holds"),
    "lost_text": ("plan 3 causal|0 ins a at 0|0 ins b after a|2 take 0 : 0.1 0.2|1 take 2 : 0.1 0.2|1 ins x before b|0 del a|0 del b|"
                  "2 take 0 : 0.3 0.4|1 take 2 : 0.3 0.4|end",
                  "contents 1.3: this response lacks one element that replica 1 should have had by then.|"
                  "before it: replica 1's 1.2 (line 7) answered a [x] b, as it should; since then it received 0.4 (line 10, deletes b)|[x] is never deleted|"
                  "strong and weak fail"),
    "insert_deletes": ("plan 3 causal|0 ins x at 0|2 take 0 : 0.1|1 take 2 : 0.1|1 ins b after x|1 ins a before x|1 del x|1 ins c after a|"
                       "0 del x|2 take 0 : 0.2|1 take 2 : 0.2|end",
                       "contents 1.6: this response lacks two elements that replica 1 should have had by then.|[b] is never deleted|"
                       "[a] is never deleted|strong and weak fail"),
}
# The first of these, but that the client's text was sent before x was deleted: with nothing to undo it stays where it was.
CONFIRMED = ("plan 3 causal|0 ins x at 0|2 take 0 : 0.1|1 take 2 : 0.1|1 ins b after x|1 ins a before x|2 take 1 : 1.1 1.2|0 del x|"
             "2 take 0 : 0.2|1 take 2 : 0.2|end")


def record(engine: str, program: str, *words: str, folder: str = None) -> subprocess.CompletedProcess:
    return subprocess.run([RECORD, engine, program, *words], capture_output=True, text=True, cwd=folder, timeout=120)


def explain(program: str, *words: object) -> str:
    return subprocess.run([ROOT / "tools" / "explain", "--program", program, *words], capture_output=True, text=True).stdout


def counted(printed: str) -> dict:
    """By kind of session what is said of how many."""
    return dict(re.findall(r"^(.+): \d+ sessions, [^:]*: (.+)$", printed, re.MULTILINE))


def compiled(tally: Tally, folder: str, name: str, command: list, old: str = "", new: str = "") -> str:
    """The path of an example as a program; a text of it may be another one."""
    source, made = Path(folder, "engines", name), Path(folder, f"{Path(name).suffix[1:]}_{'planted' if new else 'right'}")
    source.parent.mkdir(exist_ok=True)
    text = (ENGINES / name).read_text()
    tally.check(f"{name}: has the line for the bug once", not old or text.count(old) == 1, old)
    source.write_text(text.replace(old, new) if old else text)
    shutil.copy(ROOT / "recorders" / "domepeeler.rs", folder)
    done = subprocess.run([*command, "-o", str(made), str(source)], capture_output=True, text=True)
    tally.check(f"{made.name}: is compiled without a warning", done.returncode == 0 and not done.stderr, done.stderr)
    return str(made)


def examples(tally: Tally, program: str, folder: str) -> None:
    """The examples are short, right, and with a bug planted they are found wrong and made small."""
    need("gcc", "gcc")
    need("rustc", "rustc")
    for name, command, words, kinds, old, new, most in EXAMPLES:
        lines = (ENGINES / name).read_text().count("\n")
        tally.check(f"{name}: short", lines <= MOST_LINES, lines)
        right = compiled(tally, folder, name, command)
        done = record(right, program, "--sessions", "10", *words)
        said = counted(done.stdout)
        tally.check(f"{name}: right", done.returncode == 0 and not done.stderr and list(said) == kinds
                    and all(re.fullmatch(r"accepted: \d+", one) for one in said.values()), done)
        kept = Path(folder, f"kept {name}")
        done = record(compiled(tally, folder, name, command, old, new), program, "--sessions", "10", "--keep", str(kept), *words)
        said = counted(done.stdout)
        tally.check(f"{name}: the bug is found", done.returncode == 1 and list(said) == kinds
                    and all("refused 2: " in one for one in said.values()), done)
        small = kept / f"{Path(name).suffix[1:]}_planted_{kinds[0].replace(',', '').replace(' ', '_')}_refused_2.trace"
        text = small.read_text() if small.exists() else ""
        tally.check(f"{name}: the bug is made small", text and text.count("\n") <= most and text in done.stdout, text)
        page = Path(folder, "page.html")
        told = explain(program, "--html", page, small)
        tally.check(f"{name}: the page", told.startswith("refused 2: ") and "Look at the order of concurrent inserts: " in told
                    and "<svg" in page.read_text(), told)


def of_the_page(tally: Tally, folder: str) -> None:
    """The plan of the page is answered as the page says, in C."""
    blocks = [re.sub("^ {4}", "", block, flags=re.MULTILINE) for block in re.findall(r"(?:^ {4}.*\n)+", PAGE.read_text(), re.MULTILINE)]
    plan, answer = ([block for block in blocks if block.startswith(word)] for word in ("plan ", "trace "))
    tally.check("page: a plan, and its answer", len(plan) == len(answer) == 1, blocks)
    done = subprocess.run([f"{folder}/c_right"], input=plan[0] * 2, capture_output=True, text=True)
    tally.check("page: answered so, each time", done.stdout == answer[0] * 2 and done.returncode == 0, done)
    words = len(PAGE.read_text().split())
    tally.check("page: one page", words <= 800, words)


def servers(tally: Tally, program: str, folder: str) -> None:
    """A server that keeps a list is a replica; one that keeps none is left out, where it does nothing."""
    done = record(f"{folder}/c_right", program, "--sessions", "10", "--server")
    said = counted(done.stdout)
    tally.check("server: keeps a list", done.returncode == 0 and list(said) == SERVER_KINDS
                and all(re.fullmatch(r"accepted: \d+", one) for one in said.values()), done)
    done = record(f"{folder}/rs_right", program, "--sessions", "10")
    tally.check("server: a replica that does something is left out", done.returncode == 2 and done.stderr.count("\n") == 1
                and re.search(r": its answer has \d+ replicas?, and the plan \d+$|: it ended with status \d+ before the", done.stderr), done)
    alone = Path(folder, "alone.py")
    for answer, what in (ANSWER, "is no pass"), (f"read(words, names), {ANSWER}, read(words, names), sep='\\n'", "reads more often"):
        alone.write_text(ALONE.replace("ANSWER", answer))
        done = record(f"{sys.executable} {alone}", program, "--sessions", "5")
        said = counted(done.stdout)
        tally.check(f"unequal: {what}", done.returncode == 1 and list(said) == KINDS
                    and all("accepted, unequal: " in one for one in said.values())
                    and "\nall was exchanged, and the replicas end with different lists: " in done.stdout, (done.stdout[:2000], done.stderr))


def weak(tally: Tally, program: str, folder: str) -> None:
    """Of an engine that promises weak alone, sessions pass of which that holds, and are counted by themselves; what fails is made small as ever,
    and so is what ends unequal."""
    need("node", "nodejs")
    engine = f"node {ROOT / 'tests' / 'tools' / 'jupiter' / 'engine.mjs'}"
    asked = ["--server", "--sessions", "20"]
    strong, passed = (record(f"{engine} none", program, *asked, *goal) for goal in ([], ["--weak"]))
    tally.check("weak: not asked for", strong.returncode == 1 and "refused 3: " in strong.stdout and "the smallest found of " in strong.stdout
                and "weak alone" not in strong.stdout, strong)
    tally.check("weak: all pass", passed.returncode == 0 and not passed.stderr and passed.stdout.count("\n") == len(SERVER_KINDS), passed)
    for kind, said in counted(strong.stdout).items():
        words = [one.split(": ") for one in said.split(", ")]
        refused = sum(int(count) for word, count in words if word.startswith("refused "))
        wanted = ", ".join([f"accepted: {count}" for word, count in words if word == "accepted"] + [f"weak alone: {refused}"] * (refused > 0))
        tally.check(f"weak: {kind}, by themselves", counted(passed.stdout).get(kind) == wanted and "refused 2" not in said, (said, passed.stdout))
    kept = Path(folder, "kept weak")
    done = record(f"{engine} tie", program, *asked, "--weak", "--keep", str(kept))
    said = counted(done.stdout)
    tally.check("weak: a bug is found", done.returncode == 1 and list(said) == SERVER_KINDS and "refused 2: " in said[SERVER_KINDS[0]]
                and not re.search("refused (?!2)", done.stdout), done)
    small = [path for path in kept.glob("*.trace") if not path.stem.endswith("_accepted")]
    verdicts = [explain(program, "--weak", path).split(" ")[:2] for path in small]
    tally.check("weak: and made small, as it fails so too", len(small) == done.stdout.count("the smallest found of ") > 0 and all(
        first == "contents" or [first, second] == ["refused", "2:"] for first, second in verdicts), verdicts)
    deaf = Path(folder, "deaf.py")
    deaf.write_text(DEAF)
    done = record(f"{sys.executable} {deaf} {engine} none", program, *asked, "--weak")
    said = counted(done.stdout)
    tally.check("weak: unequal is no pass", done.returncode == 1 and list(said) == SERVER_KINDS
                and said[SERVER_KINDS[-1]] == "weak alone, unequal: 1" and "refused" not in done.stdout
                and "\nall was exchanged, and the replicas end with different lists: " in done.stdout, done)


def run_wrong(wrong: Wrong, program: str, folder: Path) -> subprocess.CompletedProcess:
    folder.mkdir()
    engine = folder / "my engine"
    engine.write_text(f"#!/bin/sh\n{wrong.script}\n")
    engine.chmod(0o755)
    seconds = "20" if "too long" in wrong.words else "1"
    return record("./my engine", program, "--sessions", "2", "--seconds", seconds, "--keep", "kept", folder=folder)


def errors(tally: Tally, program: str, folder: str) -> None:
    """An engine that does not answer is one clear error, with the plan."""
    with ThreadPoolExecutor(AT_A_TIME) as pool:
        runs = list(pool.map(lambda wrong: run_wrong(wrong, program, Path(folder, wrong.name)), WRONG))
    for wrong, done in zip(WRONG, runs):
        kept = Path(folder, wrong.name, "kept")
        tally.check(f"{wrong.name}: one error", done.returncode == 2 and done.stderr == f"record.py: ./my engine: {wrong.words}\n", done)
        plans = list(kept.glob("my engine_no_answer_of_the_engine_*.plan"))
        said, _, plan = done.stdout.partition("\n")
        tally.check(f"{wrong.name}: the plan", said == "the plan that it does not answer:" and len(plans) == 1
                    and plans[0].read_text() + "\n" == plan, done)
        is_small = plan == "plan 1 causal\n0 read\nend\n\n"
        tally.check(f"{wrong.name}: the plan is small", is_small == wrong.is_small and plan.startswith("plan "), plan)
    engine = Path(folder, "my engine")
    for text, words, said in (("#!/nowhere/at/all\n", "./my engine", "./my engine: it can't be run: No such file or directory"),
                              ("#!/bin/sh\nexit 5\n", "sh 'my engine'", "sh 'my engine': it ended with status 5 before the line `end`")):
        engine.write_text(text)
        engine.chmod(0o755)
        done = record(words, program, "--sessions", "2", folder=folder)
        tally.check(f"{words}: one error", done.returncode == 2 and done.stderr == f"record.py: {said}\n", done)
    engine.chmod(0o644)
    for words in "./my engine", "./no_engine", "'open", "":
        done = record(words, program, folder=folder)
        tally.check(f"no command: {words}", done.returncode == 2 and done.stderr.startswith(f"record.py: {words} is none of crdt_el, ")
                    and done.stderr.endswith(" and no command that can be run\n") and not done.stdout, done)
    running = subprocess.run(["ps", "-eo", "args"], capture_output=True, text=True).stdout
    tally.check("no engine is left", folder not in running and "sleep 60.0625" not in running.splitlines(), running)


def run_other(name: str, program: str, folder: str) -> subprocess.CompletedProcess:
    engine = Path(folder, f"{name}.py")
    engine.write_text(ALONE.replace("ANSWER", OTHER[name][0]))
    return record(f"{sys.executable} '{engine}'", program, "--sessions", "20")


def others(tally: Tally, program: str, folder: str) -> None:
    """An engine whose answer is not of the plan is an error, which names what was asked for and what was answered."""
    with ThreadPoolExecutor(AT_A_TIME) as pool:
        runs = list(pool.map(lambda name: run_other(name, program, folder), OTHER))
    for (name, (_, words)), done in zip(OTHER.items(), runs):
        said = done.stderr.partition(".py': ")[2]
        numbers = list(dict.fromkeys(re.findall(r"e\d+", said)))
        said = re.sub(r"e\d+", lambda found: f"e{numbers.index(found[0])}", said)
        tally.check(f"{name}: one error", done.returncode == 2 and done.stderr.count("\n") == 1 and said == f"{words}\n", done)
        plan, asked = done.stdout.partition("\n")[2], re.search("answer to `(.+?)`", done.stderr)
        tally.check(f"{name}: the plan is small", done.stdout.startswith("the plan that it does not answer:\n")
                    and plan.count("\n") <= 7 and (not asked or f"\n{asked[1]}\n" in plan), done)


def small_sessions(tally: Tally) -> None:
    """A replica that does nothing, and that nobody takes from, is left out, whichever it is."""
    sys.path.insert(0, str(ENGINES))
    from sessions import INSERT, TAKE, Session, Step, smaller
    steps = [Step(INSERT, 1, "e0", "at", 0.0), Step(TAKE, 2, other=1)]
    wanted = Session(2, True, [Step(INSERT, 0, "e0", "at", 0.0), Step(TAKE, 1, other=0)])
    found = smaller(Session(3, True, steps))
    tally.check("smaller: the first replica", found[0] == wanted, found[0])


def prosemirror(tally: Tally, program: str) -> None:
    """The gallery's recordings of ProseMirror as they are explained, and made anew; of each no shorter one fails so."""
    need_module("prosemirror-transform", "node-prosemirror-transform")
    variables = os.environ | NODE
    for name, (plan, wanted) in PROSEMIRROR.items():
        path = ROOT / "examples" / f"prosemirror_{name}.trace"
        lines = iter(line.strip() for line in explain(program, path).splitlines())
        tally.check(f"ProseMirror: {name} explained", all(line in lines for line in wanted.split("|")), explain(program, path))
        head, *asked, end = plan.split("|")
        plans = [plan, *("|".join([head, *asked[:at], *asked[at + 1:], end]) for at in range(len(asked)))]  # and without one of its lines
        anew, *others = played("|".join(plans), variables).split("end\n")
        tally.check(f"ProseMirror: {name} made anew", anew == path.read_text(), anew)
        shorter = failing_so(program, anew, others[:-1])
        tally.check(f"ProseMirror: {name} is the smallest", len(others) == len(plans) and not shorter, shorter or others)
        listed = re.findall(rf"^- `examples/{path.name}`: `[^`]+`(.*)", GALLERY.read_text(), re.MULTILINE)
        words = [re.sub(r"\(\[picture\].*?\)\)", "", line).split() for line in listed]
        tally.check(f"ProseMirror: {name} explained in the gallery", f"    $ cat examples/{path.name}\n" in GALLERY.read_text() if not listed
                    else len(words[0]) >= 10, listed)
    told = played(CONFIRMED, variables)
    tally.check("ProseMirror: text that was confirmed stays", told.endswith("\n1 recv 0 2\n1 read : a b\nend\n"), told)
    done = record("prosemirror", program, "--sessions", "10")
    said = counted(done.stdout)
    is_right = all(re.fullmatch(r"accepted: \d+", one) for one in said.values())
    tally.check("ProseMirror: by record.py", done.returncode == (0 if is_right else 1) and not done.stderr and list(said) == SERVER_KINDS, done)


def yjs(tally: Tally, program: str) -> None:
    """Yjs by its recorder, also where messages overtake those that they build on: it holds these back, and no receipt is written before."""
    need_module("yjs", "node-yjs")
    done = record("yjs", program, "--sessions", "10")
    said = counted(done.stdout)
    tally.check("Yjs: by record.py", done.returncode == 0 and not done.stderr and list(said)[:len(KINDS)] == KINDS and len(said) > len(KINDS)
                and all(re.fullmatch(r"accepted: \d+", one) for one in said.values()), done)


def played(plan: str, variables: dict) -> str:
    words, text = ["node", ENGINES / "prosemirror.mjs"], plan.replace("|", "\n") + "\n"
    return subprocess.run(words, input=text, capture_output=True, text=True, env=variables).stdout


def failing_so(program: str, text: str, others: list) -> list:
    """Those of the others that are shorter, and have the same verdict, wherever it is."""
    def kind(trace: str) -> list:
        told = subprocess.run([program, "verdict", "-"], input=trace, capture_output=True, text=True).stdout.splitlines()[1]
        return told.split()[:2 if told.startswith("refused ") else 1]

    return [other for other in others if other.count("\n") < text.count("\n") and kind(other) == kind(text)]


def logs(tally: Tally, program: str) -> None:
    """What a process without a recorder writes, by docs/engines.md: reads and views count, receipts don't; the version is the greatest."""
    one = "trace 1\nreplicas 2\n0 read :\n0 ins a 0 : a\n0 recv 1 2\n0 read : a\n"
    two = "trace 2\nreplicas 2\n1 view :\n1 recv 0 2\n1 del a :\n"
    wrong = one.replace("0 read : a\n", "0 read :\n")
    for text, said in ((one, "contents 0.3"), (wrong, "accepted")):
        merged = merge.merge([text, two])
        tally.check(f"logs: merged, {said}", merged == "trace 2\nreplicas 2\n0 read :\n0 ins a 0 : a\n1 view :\n1 recv 0 2\n1 del a :\n"
                    "0 recv 1 2\n" + text.splitlines(keepends=True)[-1], merged)
        done = subprocess.run([program, "verdict", "-"], input=merged, capture_output=True, text=True)
        tally.check(f"logs: judged, {said}", done.stdout.splitlines()[1:2] == [said], done)


def main() -> None:
    program = program_of(sys.argv)
    tally = Tally()
    small_sessions(tally)
    logs(tally, program)
    prosemirror(tally, program)
    yjs(tally, program)
    with tempfile.TemporaryDirectory() as folder:
        examples(tally, program, folder)
        of_the_page(tally, folder)
        servers(tally, program, folder)
        weak(tally, program, folder)
        errors(tally, program, folder)
        others(tally, program, folder)
    tally.close()


if __name__ == "__main__":
    main()
