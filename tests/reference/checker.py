"""A slow checker of certificates, written from docs/definitions.md and docs/formats.md. It shares nothing with the program."""
from __future__ import annotations

import re
from itertools import combinations
from typing import NamedTuple

from reference.verdicts import Fault, Recording, Responses, dotted, first_fault, is_subsequence, recording_of, responses_of

NAME = r"[A-Za-z0-9_.-]{1,32}"
NUMBER = r"(?:0|[1-9][0-9]*)"
OPERATION = rf"{NUMBER}\.[1-9][0-9]*"
NAMES = rf"(?: {NAME})*"


class Certificate(NamedTuple):
    """A certificate: its version, its kind, and what goes with it. An operation's name is (r, n)."""

    version: int
    kind: str
    fault: Fault | None = None
    order: tuple = ()
    k: int = 0
    steps: tuple = ()  # (from, to, shown)
    rows: tuple = ()  # of each row the layers, of each layer the names


def operation_of(text: str) -> tuple | None:
    replica, n = (int(word) for word in text.split("."))
    return (replica, n) if max(replica, n) < 2**32 else None


def certificate_of(text: str) -> Certificate | None:
    """The certificate that the text spells; none where it spells none."""
    if not text.endswith("\n"):
        return None
    header, kind, *rest = [*text[:-1].split("\n"), "", ""][:2] + text[:-1].split("\n")[2:]
    if header not in ("cert 1", "cert 2"):
        return None
    version = int(header.split()[1])
    if named := re.fullmatch(rf"(doubled) ({OPERATION}) ({OPERATION})|(contents|position) ({OPERATION})", kind):
        word = named[1] or named[4]
        operations = [operation_of(text) for text in (named[2], named[3], named[5]) if text]
        return Certificate(version, word, Fault(word, *operations)) if all(operations) and not rest else None
    if kind == "accepted":
        is_order = len(rest) == 1 and re.fullmatch(rf"order :{NAMES}", rest[0])
        return Certificate(version, kind, order=tuple(rest[0].split()[2:])) if is_order else None
    return refusal_of(version, kind, rest)


def refusal_of(version: int, kind: str, rest: list) -> Certificate | None:
    claimed = re.fullmatch(rf"refused ({NUMBER})", kind)
    k = int(claimed[1]) if claimed else 0
    if not 2 <= k < 2**32 or len(rest) < k or (k == 2 and len(rest) > 2):
        return None
    steps = [re.fullmatch(rf"step ({NAME}) ({NAME}) ({OPERATION})", line) for line in rest[:k]]
    if not all(steps) or not all(operation_of(step[3]) for step in steps):
        return None
    rows = [row_of(line, k) for line in rest[k:]]
    if not all(rows):
        return None
    return Certificate(version, "refused", k=k, steps=tuple((step[1], step[2], operation_of(step[3])) for step in steps), rows=tuple(rows))


def row_of(line: str, k: int) -> tuple | None:
    if not re.fullmatch(rf"layers {NAME}(?: /{NAMES}){{{k - 2}}}", line):
        return None
    return tuple(tuple(layer.split()) for layer in line[len("layers"):].split(" /"))


def answer_of(trace: str, text: str) -> str:
    """The checker's line on a trace that is known to be one."""
    certificate = certificate_of(text)
    if certificate is None:
        return "no text\n"
    recording = recording_of(trace)
    return line_on(recording, first_fault(recording), certificate)


def line_on(recording: Recording, fault: Fault | None, certificate: Certificate) -> str:
    """The checker's line, where the recording's first fault is known."""
    why = reason(recording, fault, certificate)
    return f"no {why}\n" if why else f"yes {certificate.kind}\n"


def reason(recording: Recording, fault: Fault | None, certificate: Certificate) -> str | None:
    if certificate.fault != fault:
        return "fault"
    if certificate.fault is not None:
        return None
    responses = responses_of(recording)
    if certificate.kind == "accepted":
        return reason_of_order(recording, responses, certificate.order)
    return reason_of_steps(recording, certificate.steps) or reason_of_rows(recording, responses, certificate)


def reason_of_order(recording: Recording, responses: Responses, order: tuple) -> str | None:
    if sorted(order) != sorted(responses.names):
        return "order"
    for e, body in recording.operations.items():
        if not is_subsequence(body.response, order):
            return f"followed {dotted(e)}"
    return None


def reason_of_steps(recording: Recording, steps: tuple) -> str | None:
    for i, (a, b, e) in enumerate(steps):
        body = recording.operations.get(e)
        if body is None or (a, b) not in combinations(body.response, 2) or b != steps[(i + 1) % len(steps)][0]:
            return f"cycle {i + 1}"
    return None


def reason_of_rows(recording: Recording, responses: Responses, certificate: Certificate) -> str | None:
    if certificate.k < 3:
        return None
    rows = certificate.rows
    for i, source in enumerate(responses.names):
        if i >= len(rows) or rows[i][0] != (source,):
            return f"missing {source}"
        asked = responses.names[i:] if certificate.version == 2 else responses.names
        if not meets_rule(recording, asked, certificate.k, source, rows[i]):
            return f"short {source}"
    return f"extra {rows[len(responses.names)][0][0]}" if len(rows) > len(responses.names) else None


def meets_rule(recording: Recording, asked: list, k: int, source: str, row: tuple) -> bool:
    """Whether a row shows that no cycle of the elements that are asked for is shorter than k and leads through its source."""
    names = [name for layer in row for name in layer]
    if len(set(names)) < len(names) or not set(names) <= set(asked):
        return False
    depth = {name: d for d, layer in enumerate(row) for name in layer}
    pairs = [pair for body in recording.operations.values() for pair in combinations(body.response, 2) if set(pair) <= set(asked)]
    return all(depth.get(b, k - 1) <= depth.get(a, k - 1) + 1 and (b != source or depth.get(a, k - 1) >= k - 1) for a, b in pairs)
