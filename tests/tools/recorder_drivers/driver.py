"""Makes the calls that stand on standard input, in fields between tabs, of the Python recorder: see tests/tools/recorders.py. A record
separator stands for a line feed in a field."""
import json
import sys
from pathlib import Path

sys.path.insert(0, str(Path(__file__).parents[3] / "recorders"))
from domepeeler import Full, NotAccepted, NotCausal, Recording, Refused

# Calls that only a language without types can make, and that a trace can't say.
UNTYPED = [
    lambda: Recording("2"),
    lambda: Recording(True),
    lambda: Recording(2).read(1.0, []),
    lambda: Recording(2).read(None, []),
    lambda: Recording(2).insert(0, "a", 0.5, ["a"]),
    lambda: Recording(2).insert(0, "a", "0", ["a"]),
    lambda: Recording(2).insert(0, 7, 0, []),
    lambda: Recording(2).read(0, ["a", 7]),
    lambda: Recording(2).read(0, "ab"),
    lambda: Recording(2).read(0, None),
    lambda: Recording(2).insert(0, "a", 0, 7),
    lambda: Recording(2).received_clock(0, 1, "01"),
    lambda: Recording(2).received_clock(0, 1, None),
    lambda: Recording(2).received_clock(0, 1, [0, "1"]),
    lambda: Recording(2).received_changes(0, "ab"),
    lambda: Recording(2).received_changes(0, 7),
    lambda: Recording(2).received_changes(0, [["ab"]]),
    lambda: Recording(2).delete(0, "a", [], {}),
    lambda: Recording(2).insert(0, "a", float("nan"), []),
    lambda: Recording(2).insert(0, "a", [1], []),
    lambda: Recording(2).read(0, [b"a"]),
    lambda: Recording(2).received(0, 1, "1"),
    lambda: changed().received_clock(0, 1, [0, 1], None),
    lambda: Recording(2).delivered(None),
    lambda: Recording(2).delivered("ab"),
    lambda: Recording(2).delivered({0: [], 2: []}),
    lambda: Recording(2).delivered({1: []}),
    lambda: Recording(2).delivered([[], 7]),
    lambda: Recording(2).note(7),
    lambda: Recording(2).read("1" * 41, []),
    lambda: Recording(2, weak=True),
    lambda: Recording(2).read("::\x1b\n" + "1" * 41, []),
    lambda: Recording(2).received_changes(0, [("a", "ä\n")]),
    lambda: Recording(2).read(0, {"b", "a"}),
    lambda: Recording(2).view(0, frozenset({"b", "a"})),
    lambda: Recording(2).delivered([[], {"b", "a"}]),
]


def changed() -> Recording:
    recording = Recording(2)
    recording.insert(1, "a", 0, ["a"])
    return recording


def call(recording: Recording, words: list, change_id: str = None) -> str:
    if words[0] == "as":
        return call(recording, words[2:], words[1])
    kind, number = words[0], int(words[1]) if words[1:] and words[0] not in ("save", "id_of", "note", "delivered") else 0
    if kind == "insert":
        return f"ok {recording.insert(number, words[2], int(words[3]), words[4:], change_id)}"
    if kind == "delete":
        return f"ok {recording.delete(number, words[2], words[3:], change_id)}"
    if kind == "read":
        return f"ok {recording.read(number, words[2:])}"
    if kind == "view":
        return f"ok {recording.view(number, words[2:])}"
    if kind == "received":
        recording.received(number, int(words[2]), int(words[3]))
        return "ok"
    if kind == "received_clock":
        recording.received_clock(number, int(words[2]), list(map(int, words[4:])), int(words[3]))
        return "ok"
    if kind == "received_changes":
        recording.received_changes(number, words[2:])
        return "ok"
    if kind == "clock":
        return "ok " + " ".join(map(str, recording.clock(number)))
    if kind == "delivered":
        recording.delivered(lists_of(words[1:]))
        return "ok"
    if kind == "lines":
        return f"ok {recording.lines()}"
    if kind == "note":
        recording.note(words[1])
        return "ok"
    if kind == "warnings":
        return shown(recording.warnings())
    if kind in ("explain", "explain_weak"):
        return shown(recording.explain(weak=kind == "explain_weak").split("\n")[:-1])
    if kind == "weak":
        return weak(recording.judge(weak=True))
    if kind == "id_of":
        return f"ok {recording.ids()[words[1]]}" if words[1] in recording.ids() else "none"
    if kind == "save":
        recording.save(words[1])
        return "ok"
    if kind == "judge":
        return "report " + json.dumps(recording.judge())
    return shown(recording.text().splitlines())


def weak(report: dict) -> str:
    """Whether it passes where the weak list specification alone is asked for, and if not, the first reason."""
    if report.get("weak") and not report["warnings"]:
        return "passes"
    verdict = " ".join(str(report[key]) for key in ("verdict", "k", "at", "first", "again") if key in report)
    return f"fails {[*report['warnings'], verdict][0]}"


def shown(lines: list) -> str:
    return "".join(f"| {line}\n" for line in lines) + "ok"


def lists_of(words: list) -> list:
    """Lists of names, between which stands a word `/`."""
    lists = [[]]
    for word in words:
        if word == "/":
            lists.append([])
        else:
            lists[-1].append(word)
    return lists


def answer(act) -> str:
    try:
        return act()
    except Full as why:
        return f"full {why}"
    except NotCausal as why:
        return f"uncausal {why}"
    except Refused as why:
        return f"refused {why}"
    except NotAccepted as why:
        return "stopped " + str(why).replace("\n", " / ")
    except (OSError, RuntimeError) as why:
        return f"failed {why}"


def main() -> None:
    recording = None

    def begin(words: list) -> str:
        nonlocal recording
        if words[0] == "new":
            recording = Recording(*map(int, words[1:]))
        else:
            recording = Recording(*map(int, words[1:]), stop=True, weak=words[0] == "stop_weak")
        return "ok"

    for line in sys.stdin.read().split("\n")[:-1]:
        words = line.replace("\x1e", "\n").split("\t")
        if words[0] == "untyped":
            print(answer(UNTYPED[int(words[1])]))
        else:
            print(answer(lambda: begin(words) if words[0] in ("new", "stop", "stop_weak") else call(recording, words)))


main()
