#!/usr/bin/env python3
"""stand_in.py verdict [--json] [--workers N] FILE: answers `domepeeler verdict` by a plain reading of the definitions, so that
the tests of tools can run before the proved program is built. It is no judge of anything.

It has `--version` too, but no other command and no help: those are usage faults here. It reads traces, words faults and writes
reports as the slow readers beside it do; its searches are its own, for traces of thousands of entries."""
from __future__ import annotations

import heapq
import math
import os
import re
import sys
from collections import Counter, defaultdict
from contextlib import suppress
from pathlib import Path

sys.path.insert(0, str(Path(__file__).resolve().parents[1]))
from reference.traces import Lines  # noqa: E402
from reference.verdicts import (Fault, Receipt, Recording, Report, Responses, Step, dotted, holds_what_is_visible,  # noqa: E402
                                is_subsequence, recording_of, responses_of, stands_where_asked, with_names, written, yes)

WORDS = Path(__file__).resolve().parents[2] / "crates" / "command_line" / "src" / "words.rt"  # which has the version
WORKERS = "[1-9]|[1-5][0-9]|6[0-4]"  # 1 to 64


class NoReport(Exception):
    """Why there is none, in the words for standard error."""


def asked_by(words: list) -> tuple:
    """The file that a verdict is asked of, and whether as JSON. No words mean `verdict -`; the workers change nothing."""
    command, *rest = words or ["verdict", "-"]
    at = rest.index("--") if "--" in rest else len(rest)
    front, files, workers, forms = rest[:at], rest[at + 1:], [], 0
    while front:
        word = front.pop(0)
        if word == "--json":
            forms += 1
        elif word == "--workers":
            workers.append(front.pop(0) if front else "")
        elif word.startswith("--workers="):
            workers.append(word.partition("=")[2])
        else:
            files.append(word if word == "-" or not word.startswith("-") else None)
    is_number = all(re.fullmatch(WORKERS, n) for n in workers)
    if command != "verdict" or len(files) != 1 or files[0] is None or forms > 1 or len(workers) > 1 or not is_number:
        raise NoReport("usage")
    return files[0], forms == 1


def lines_of(file: str) -> list:
    """The lines of a trace, without their LF. Nothing is read behind the first faulty line."""
    so_far, lines = Lines(), []
    try:
        with open(0 if file == "-" else file, "rb", closefd=file != "-") as stream:
            for line in stream:
                cause = so_far.cause(len(lines) + 1, line[:-1]) if line.endswith(b"\n") else "cut"
                if cause is not None:
                    raise NoReport(f"line {len(lines) + 1}: {cause}")
                lines.append(line[:-1].decode())
    except OSError:
        raise NoReport(f"cannot read {file}") from None
    if len(lines) < 2:
        raise NoReport(f"line {len(lines) + 1}: {['header', 'replicas'][len(lines)]}")
    return lines


def clocks_of(recording: Recording, replicas: list) -> list:
    """For each operation of each replica: of how many operations of each replica it knows, with itself. `replicas` has the
    replica of each entry, in the order of recording."""
    streams = [iter(stream) for stream in recording.streams]
    now, clocks = [[0] * len(streams) for _ in streams], [[] for _ in streams]
    for r in replicas:
        body = next(streams[r])
        if isinstance(body, Receipt):
            q, n = body.seen
            now[r] = list(map(max, now[r], clocks[q][n - 1]))
        else:
            now[r][r] += 1
            clocks[r].append(tuple(now[r]))
    return clocks


def first_fault(recording: Recording, clocks: list) -> Fault | None:
    first = {}
    for e, body in recording.operations.items():
        if body.kind == "ins" and first.setdefault(body.name, e) != e:
            return Fault("doubled", first[body.name], e)
    for r, of_replica in enumerate(clocks):
        inserted, deleted, seen = set(), set(), (0,) * len(clocks)
        for n, clock in enumerate(of_replica, 1):
            news = [recording.operations[q, m + 1] for q, (old, new) in enumerate(zip(seen, clock)) for m in range(old, new)]
            deleted |= {body.name for body in news if body.kind == "del"}  # of names, inserted before or later
            inserted |= {body.name for body in news if body.kind == "ins"}
            inserted -= {name for name in (body.name for body in news) if name in deleted}
            seen, body = clock, recording.operations[r, n]
            if len(set(body.response)) < len(body.response) or not holds_what_is_visible(body, inserted):
                return Fault("contents", (r, n))
            if not stands_where_asked(body):
                return Fault("position", (r, n))
    return None


def in_turn(elements: list, pairs: set) -> list:
    """The elements in turn, always the least that stands behind no other that is left; as far as that goes."""
    after, before = defaultdict(list), Counter(b for _, b in pairs)
    for a, b in pairs:
        after[a].append(b)
    ready = [a for a in elements if not before[a]]
    heapq.heapify(ready)
    order = []
    while ready:
        order.append(heapq.heappop(ready))
        for b in after[order[-1]]:
            before[b] -= 1
            if not before[b]:
                heapq.heappush(ready, b)
    return order


class Search:
    """Elements that may lie on a cycle, and the responses with these alone."""

    def __init__(self, elements: set, responses: Responses):
        self.elements = sorted(elements)
        self.rows, self.places = [], defaultdict(list)
        for row in dict.fromkeys(tuple(a for a in w if a in elements) for w in responses.returned.values()):
            while self.rows and is_subsequence(self.rows[-1], row):
                self.rows.pop()  # it shows nothing that the next doesn't
            if not self.rows or not is_subsequence(row, self.rows[-1]):
                self.rows.append(row)
        for i, row in enumerate(self.rows):
            for p, a in enumerate(row):
                self.places[a].append((i, p))

    def back_to(self, source: int, bound: float) -> tuple:
        """The length of the shortest cycle through the source and greater elements, if it is below the bound, and how many
        steps lead from each of these to the source. Each row is read at most once, from its front on."""
        steps, layer, length, read = {source: 0}, [source], 1, Counter()
        while layer and length < bound:
            news = []
            for i, p in (place for b in layer for place in self.places[b]):
                for a in self.rows[i][read[i]:p]:
                    if a == source:
                        return length, steps
                    if a > source and a not in steps:
                        steps[a] = length
                        news.append(a)
                read[i] = max(read[i], p)
            layer, length = news, length + 1
        return math.inf, steps

    def least_cycle(self) -> list:
        """The first of the shortest cycles; it begins with the least of its elements. There is one."""
        least, steps, cycle = math.inf, {}, []
        for source in self.elements:
            length, found = self.back_to(source, least) if least > 2 else (math.inf, {})
            if length < least:
                least, steps, cycle = length, found, [source]
        for left in range(least - 1, 0, -1):
            cycle.append(min(b for i, p in self.places[cycle[-1]] for b in self.rows[i][p + 1:] if steps.get(b) == left))
        return cycle


def steps_of(responses: Responses, cycle: list) -> list:
    """The steps round the cycle, each by the least operation that shows it."""
    where = {a: {} for a in cycle}  # by operation, in their order: the element's place
    for e, w in responses.returned.items():
        for p, a in enumerate(w):
            if a in where:
                where[a][e] = p
    return [Step(responses.names[a], responses.names[b], next(e for e, p in where[a].items() if where[b].get(e, -1) > p))
            for a, b in zip(cycle, cycle[1:] + cycle[:1])]


def report_of(lines: list) -> Report:
    recording = recording_of("".join(line + "\n" for line in lines))
    inserts = sum(body.kind == "ins" for body in recording.operations.values())
    said = {"replicas": len(recording.streams), "operations": len(recording.operations), "inserts": inserts}
    told = [" ".join(f"{word} {n}" for word, n in said.items())]
    fault = first_fault(recording, clocks_of(recording, [int(line.split(" ", 1)[0]) for line in lines[2:]]))
    if fault is not None and fault.again:
        said |= {"verdict": "doubled", "first": dotted(fault.at), "again": dotted(fault.again)}
        return written("doubled", [*told, f"doubled {said['first']} {said['again']}"], said, [])
    if fault is not None:
        said |= {"verdict": fault.word, "at": dotted(fault.at), "strong": False, "weak": False}
        return written(fault.word, [*told, f"{fault.word} {dotted(fault.at)}", "strong no", "weak no"], said, [])
    responses = responses_of(recording)
    pairs = {pair for w in responses.returned.values() for pair in zip(w, w[1:])}
    order = in_turn(range(inserts), pairs)
    if len(order) == inserts:
        names = [responses.names[a] for a in order]
        said |= {"verdict": "accepted", "strong": True, "weak": True, "order": names}
        return written("accepted", [*told, "accepted", "strong yes", "weak yes", with_names("order", names)], said, [])
    left = set(range(inserts)) - set(order)
    left -= set(in_turn(left, {(b, a) for a, b in pairs if a in left and b in left}))
    steps = steps_of(responses, Search(left, responses).least_cycle())
    k = len(steps)
    said |= {"verdict": "refused", "strong": False, "weak": k > 2, "k": k, "steps": []}
    told += [f"refused {k}", "strong no", yes("weak", k > 2)]
    for a, b, e in steps:
        response = list(recording.operations[e].response)
        told.append(with_names(f"step {a} {b} {dotted(e)}", response))
        said["steps"].append({"from": a, "to": b, "shown": dotted(e), "response": response})
    return written("refused", told, said, [])


def answer(words: list) -> int:
    """Writes the report, and answers the exit status."""
    if any("\udc80" <= letter <= "\udcff" for word in words for letter in word):  # a byte that is no UTF-8
        raise NoReport("usage")
    if words in (["--version"], ["-V"]):
        status, text = 0, "domepeeler " + re.findall('VERSION: &str = "(.*)"', WORDS.read_text())[0] + "\n"
    else:
        file, is_json = asked_by(words)
        report = report_of(lines_of(file))
        status, text = 0 if report.kind == "accepted" else 1, report.json if is_json else report.text
    try:
        write(1, text)
    except OSError:
        raise NoReport("cannot write") from None
    return status


def write(place: int, text: str) -> None:
    rest = os.fsencode(text)
    while rest:
        rest = rest[os.write(place, rest):]


def main() -> int:
    try:
        return answer(sys.argv[1:])
    except (NoReport, MemoryError) as error:
        words, status = (str(error), 2) if isinstance(error, NoReport) else ("memory", 3)
    with suppress(OSError):  # as the program does
        write(2, f"finder: {words}\n")
    return status


if __name__ == "__main__":
    sys.exit(main())
