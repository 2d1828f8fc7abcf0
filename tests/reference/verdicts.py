"""A slow reader of the definitions: the report and the certificate of a small recording, by trying everything.

It is written from docs/definitions.md and docs/formats.md, and shares nothing with the program: visibility by adding
pairs until none is new, orders and conflicts by all permutations of the elements, cycles by all lists of elements."""
from __future__ import annotations

import json
from functools import lru_cache
from itertools import combinations, count, permutations, product
from typing import NamedTuple


class Operation(NamedTuple):
    """What an operation did. `name` is what it inserts or deletes, `at` where it was asked to insert."""

    kind: str
    name: str
    at: int
    response: tuple


class Receipt(NamedTuple):
    """The note that an operation of another replica has arrived."""

    seen: tuple


class Recording(NamedTuple):
    """The replicas' streams. An operation's name is (r, n), so that tuples are ordered as names are."""

    streams: list
    operations: dict  # by name, in the order of names


class Fault(NamedTuple):
    """The first fault: its word, and the operations that it names."""

    word: str
    at: tuple
    again: tuple = ()


class Step(NamedTuple):
    """An element, the next, and the least operation that shows them so."""

    first: str
    then: str
    shown: tuple


def recording_of(text: str) -> Recording:
    """The recording of a trace that is known to be one."""
    lines = text.splitlines()
    streams = [[] for _ in range(int(lines[1].split()[1]))]
    for line in lines[2:]:
        words = line.split()
        replica, kind = int(words[0]), words[1]
        if kind == "recv":
            streams[replica].append(Receipt((int(words[2]), int(words[3]))))
            continue
        fixed = {"ins": 5, "del": 4, "read": 3, "view": 3}[kind]  # how many words stand up to the colon
        name = words[2] if kind in ("ins", "del") else ""
        at = int(words[3]) if kind == "ins" else 0
        streams[replica].append(Operation(kind, name, at, tuple(words[fixed:])))
    operations = {}
    for replica, stream in enumerate(streams):
        bodies = [body for body in stream if isinstance(body, Operation)]
        operations.update({(replica, n): body for n, body in enumerate(bodies, 1)})
    return Recording(streams, operations)


def stands_after_receipt(recording: Recording, f: tuple, e: tuple) -> bool:
    """Some receipt of f stands in e's stream with fewer than e.n operations before it."""
    stream = recording.streams[e[0]]
    return any(body == Receipt(f) and sum(isinstance(b, Operation) for b in stream[:i]) < e[1]
               for i, body in enumerate(stream))


def visibility(recording: Recording) -> set:
    """The pairs (f, e) where f is visible to e: the least transitive relation with own order and receipts."""
    names = list(recording.operations)
    pairs = {(f, e) for f in names for e in names
             if (f[0] == e[0] and f[1] < e[1]) or stands_after_receipt(recording, f, e)}
    while True:
        news = {(f, e) for f, g in pairs for h, e in pairs if g == h} - pairs
        if not news:
            return pairs
        pairs |= news


def contents(recording: Recording, pairs: set, e: tuple) -> set:
    """The elements of which an insert, and no delete, is e or visible to it."""
    seen = [body for f, body in recording.operations.items() if f == e or (f, e) in pairs]
    return {body.name for body in seen if body.kind == "ins"} - {body.name for body in seen if body.kind == "del"}


def holds_what_is_visible(body: Operation, visible: set) -> bool:
    """Nothing else, and all of it unless it is a view's response."""
    shown = set(body.response)
    return shown <= visible and (body.kind == "view" or visible <= shown)


def stands_where_asked(body: Operation) -> bool:
    w = body.response
    return body.kind != "ins" or (len(w) > 0 and w[min(body.at, len(w) - 1)] == body.name)


def first_fault(recording: Recording) -> Fault | None:
    inserts = [(e, body.name) for e, body in recording.operations.items() if body.kind == "ins"]
    for again, name in inserts:
        first = min(e for e, other in inserts if other == name)
        if first < again:
            return Fault("doubled", first, again)
    pairs = visibility(recording)
    for e, body in recording.operations.items():
        if len(set(body.response)) < len(body.response) or not holds_what_is_visible(body, contents(recording, pairs, e)):
            return Fault("contents", e)
        if not stands_where_asked(body):
            return Fault("position", e)
    return None


class Responses(NamedTuple):
    """The elements, numbered by their inserts' operations, and the responses as numbers."""

    names: list
    returned: dict


def responses_of(recording: Recording) -> Responses:
    names = [body.name for body in recording.operations.values() if body.kind == "ins"]
    number = {name: i for i, name in enumerate(names)}
    return Responses(names, {e: tuple(number[a] for a in body.response) for e, body in recording.operations.items()})


def is_subsequence(w: tuple, order: tuple) -> bool:
    rest = iter(order)
    return all(a in rest for a in w)


@lru_cache(maxsize=None)
def following(elements: int, w: tuple) -> frozenset:
    """All permutations of so many elements that have w as a subsequence."""
    return frozenset(order for order in permutations(range(elements)) if is_subsequence(w, order))


def orders(responses: Responses, operations: tuple) -> frozenset:
    """All orders that follow the responses of these operations."""
    elements = len(responses.names)
    left = following(elements, ())
    for e in operations:
        left &= following(elements, responses.returned[e])
    return left


def conflict_number(responses: Responses) -> int:
    """The least size of a set of operations that no order follows together. There is one."""
    for size in count():
        if any(not orders(responses, chosen) for chosen in combinations(responses.returned, size)):
            return size


def showing(responses: Responses, a: int, b: int) -> tuple | None:
    """The least operation that shows a before b."""
    return min((e for e, w in responses.returned.items() if any(p == (a, b) for p in combinations(w, 2))), default=None)


def least_steps(responses: Responses) -> list:
    """The steps of the first of the shortest cycles. There is one."""
    names = responses.names
    shown = {(a, b): showing(responses, a, b) for a in range(len(names)) for b in range(len(names))}
    for size in count(1):
        for cycle in product(range(len(names)), repeat=size):
            ring = list(zip(cycle, cycle[1:] + cycle[:1]))
            if all(shown[pair] for pair in ring):
                return [Step(names[a], names[b], shown[a, b]) for a, b in ring]


def meets_weak(responses: Responses) -> bool:
    """Whether some list order is irreflexive, and transitive and total on the elements of each response.

    Each list order holds every pair that a response shows, and these alone are total on each response. Where a list
    order is as asked, it is on the elements of a response just that response's order, so the pairs shown are as asked
    too: it is enough to test these."""
    pairs = {pair for w in responses.returned.values() for pair in combinations(w, 2)}
    return all(a != b for a, b in pairs) and all((a, c) in pairs for w in responses.returned.values()
                                                 for a, b, c in product(w, repeat=3) if {(a, b), (b, c)} <= pairs)


class Report(NamedTuple):
    """The report in both forms, and the certificate of both versions."""

    kind: str  # the verdict's word, with the number of a refusal
    text: str
    json: str
    certificate: str  # of version 2, which is written
    certificate_of_one: str


def dotted(e: tuple) -> str:
    return f"{e[0]}.{e[1]}"


def report_of(text: str) -> Report:
    """The report of a recording.

    A fault of contents or position breaks both specifications, since both ask for right contents and positions.
    Without a fault, the strong one asks for a total order of the elements that has every response's order, which is a
    permutation that follows every response."""
    recording = recording_of(text)
    inserts = sum(body.kind == "ins" for body in recording.operations.values())
    said = {"replicas": len(recording.streams), "operations": len(recording.operations), "inserts": inserts}
    lines = [" ".join(f"{word} {n}" for word, n in said.items())]
    fault = first_fault(recording)
    if fault is not None and fault.word == "doubled":
        said |= {"verdict": "doubled", "first": dotted(fault.at), "again": dotted(fault.again)}
        named = f"doubled {dotted(fault.at)} {dotted(fault.again)}"
        return written("doubled", [*lines, named], said, [named])
    if fault is not None:
        said |= {"verdict": fault.word, "at": dotted(fault.at), "strong": False, "weak": False}
        named = f"{fault.word} {dotted(fault.at)}"
        return written(fault.word, [*lines, named, "strong no", "weak no"], said, [named])
    responses = responses_of(recording)
    weak = meets_weak(responses)
    all_orders = orders(responses, tuple(responses.returned))
    if all_orders:
        order = [responses.names[a] for a in min(all_orders)]
        said |= {"verdict": "accepted", "strong": True, "weak": weak, "order": order}
        order_line = with_names("order", order)
        return written("accepted", [*lines, "accepted", "strong yes", yes("weak", weak), order_line], said, ["accepted", order_line])
    k, steps = conflict_number(responses), least_steps(responses)
    lines += [f"refused {k}", "strong no", yes("weak", weak)]
    told, shown = [], []
    for a, b, e in steps:
        response = list(recording.operations[e].response)
        shown.append(f"step {a} {b} {dotted(e)}")
        lines.append(with_names(shown[-1], response))
        told.append({"from": a, "to": b, "shown": dotted(e), "response": response})
    said |= {"verdict": "refused", "strong": False, "weak": weak, "k": k, "steps": told}
    certificate = [f"refused {k}", *shown]
    return written(f"refused {k}", lines, said, [*certificate, *rows(responses, k, 2)], [*certificate, *rows(responses, k, 1)])


def yes(word: str, holds: bool) -> str:
    return f"{word} {'yes' if holds else 'no'}"


def with_names(words: str, names: list) -> str:
    return f"{words} :" + "".join(" " + name for name in names)


def rows(responses: Responses, k: int, version: int) -> list:
    """For k of 3 and more a row for each element: the elements by their distance from it, up to k - 2. In version 2 these are
    elements, and ways through elements, that are not numbered below it."""
    if k < 3:
        return []
    return [row_line(responses, layers(responses, source, k - 1, source if version == 2 else 0)) for source in range(len(responses.names))]


def layers(responses: Responses, source: int, many: int, least: int) -> list:
    """The elements whose shortest way from the source, along what stands before what, has 0 steps, 1 step and so on, of
    elements with this number and greater ones alone."""
    pairs = {pair for w in responses.returned.values() for pair in combinations(w, 2) if min(pair) >= least}
    found = [{source}]
    while len(found) < many:
        found.append({b for a, b in pairs if a in found[-1]} - set().union(*found))
    return found


def row_line(responses: Responses, found: list) -> str:
    return "layers" + " /".join("".join(" " + responses.names[a] for a in sorted(layer)) for layer in found)


def written(kind: str, lines: list, said: dict, certificate: list, certificate_of_one: list | None = None) -> Report:
    """The report, with the certificates of both versions, which are the same but for the first line where one is given."""
    of_both = ["cert 2", *certificate], ["cert 1", *(certificate if certificate_of_one is None else certificate_of_one)]
    text, certified, of_one = ("".join(line + "\n" for line in all_lines) for all_lines in (lines, *of_both))
    return Report(kind, text, json.dumps(said, sort_keys=True, separators=(",", ":")) + "\n", certified, of_one)
