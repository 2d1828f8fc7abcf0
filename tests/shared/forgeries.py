"""Forged certificates, each by one kind of change to what a right one says; most still spell a certificate.

Where forger.py changes words of the text, this takes the certificate apart by the reference's reading, changes it, and spells it
anew. Its kinds are those of which a checker could miss one: a step, an operation, a layer, a row, the number k, an order, and the
certificate of something else."""
from __future__ import annotations

import random
from typing import Callable, NamedTuple

from reference.checker import Certificate, certificate_of, line_on
from reference.verdicts import Fault, Recording, dotted, first_fault, recording_of, report_of
from shared.sessions import session, with_fault


class Certified(NamedTuple):
    """A trace, its recording and first fault, and its certificates of both versions, as texts."""

    trace: str
    recording: Recording
    fault: Fault | None
    texts: tuple

    def answer(self, text: str) -> str:
        """The reference checker's line on the trace and a certificate."""
        certificate = certificate_of(text)
        return "no text\n" if certificate is None else line_on(self.recording, self.fault, certificate)


def certified(trace: str, *texts: str) -> Certified:
    """A trace with its certificates, or with those of the reference."""
    recording = recording_of(trace)
    if not texts:
        report = report_of(trace)
        texts = report.certificate_of_one, report.certificate
    return Certified(trace, recording, first_fault(recording), texts)


def generated(rnd: random.Random, many: int) -> list[Certified]:
    """So many small recordings, all different, of which at most a quarter are accepted and a quarter have a fault."""
    made, counted = {}, {"accepted": 0, "faulty": 0, "refused": 0}
    while len(made) < many:
        text = session(rnd)
        if rnd.random() < 0.3:
            text = with_fault(rnd, text)
        if text in made:
            continue
        one = certified(text)
        kind = one.texts[1].splitlines()[1].split()[0]
        kind = kind if kind in counted else "faulty"
        if kind == "refused" or counted[kind] < many // 4:
            counted[kind] += 1
            made[text] = one
    return list(made.values())


def spelled(certificate: Certificate) -> str:
    """The text of a certificate."""
    lines = [f"cert {certificate.version}"]
    if certificate.fault is not None:
        again = f" {dotted(certificate.fault.again)}" if certificate.fault.again else ""
        lines.append(f"{certificate.kind} {dotted(certificate.fault.at)}{again}")
    elif certificate.kind == "accepted":
        lines += ["accepted", " ".join(["order :", *certificate.order])]
    else:
        lines.append(f"refused {certificate.k}")
        lines += [f"step {a} {b} {dotted(e)}" for a, b, e in certificate.steps]
        lines += ["layers" + " /".join("".join(f" {name}" for name in layer) for layer in row) for row in certificate.rows]
    return "".join(line + "\n" for line in lines)


def exchanged(rnd: random.Random, items: tuple) -> tuple | None:
    """The items with two of them exchanged; none where there are not two."""
    if len(items) < 2:
        return None
    i, j = rnd.sample(range(len(items)), 2)
    changed = list(items)
    changed[i], changed[j] = changed[j], changed[i]
    return tuple(changed)


def replaced(items: tuple, at: int, item: object) -> tuple:
    return (*items[:at], item, *items[at + 1:])


# Of each kind: what becomes of a certificate, or none where the kind has nothing to change in it.

def steps_exchanged(rnd: random.Random, case: Certified, right: Certificate) -> Certificate | None:
    steps = exchanged(rnd, right.steps)
    return steps and right._replace(steps=steps)


def step_turned(rnd: random.Random, case: Certified, right: Certificate) -> Certificate | None:
    """A step whose two names are exchanged."""
    if not right.steps:
        return None
    at = rnd.randrange(len(right.steps))
    a, b, e = right.steps[at]
    return right._replace(steps=replaced(right.steps, at, (b, a, e)))


def other_operation(rnd: random.Random, case: Certified, right: Certificate) -> Certificate | None:
    """A step that names another operation, or a fault that does."""
    other = rnd.choice([*case.recording.operations, (7, 1)])
    if right.fault is not None:
        field = rnd.choice(["at", "again"]) if right.fault.again else "at"
        return right._replace(fault=right.fault._replace(**{field: other}))
    if not right.steps:
        return None
    at = rnd.randrange(len(right.steps))
    return right._replace(steps=replaced(right.steps, at, (*right.steps[at][:2], other)))


def name_moved(rnd: random.Random, case: Certified, right: Certificate) -> Certificate | None:
    """A name that stands in another layer of its row."""
    movable = [(i, j, name) for i, row in enumerate(right.rows) for j, layer in enumerate(row) if j for name in layer]
    if not movable or right.k < 4:
        return None
    i, j, name = rnd.choice(movable)
    to = rnd.choice([layer for layer in range(1, right.k - 1) if layer != j])
    row = replaced(right.rows[i], j, tuple(other for other in right.rows[i][j] if other != name))
    return right._replace(rows=replaced(right.rows, i, replaced(row, to, (*row[to], name))))


def name_added(rnd: random.Random, case: Certified, right: Certificate) -> Certificate | None:
    """A name more in some layer of a row, be it one of an element or not."""
    if not right.rows:
        return None
    i, j = rnd.randrange(len(right.rows)), rnd.randrange(1, right.k - 1)
    name = rnd.choice([row[0][0] for row in right.rows] + ["q"])
    layers = right.rows[i]
    return right._replace(rows=replaced(right.rows, i, replaced(layers, j, (*layers[j], name))))


def name_left_out(rnd: random.Random, case: Certified, right: Certificate) -> Certificate | None:
    """A name that stands in no layer of its row."""
    places = [(i, j, name) for i, row in enumerate(right.rows) for j, layer in enumerate(row) if j for name in layer]
    if not places:
        return None
    i, j, name = rnd.choice(places)
    return right._replace(rows=replaced(right.rows, i, replaced(right.rows[i], j, tuple(
        other for other in right.rows[i][j] if other != name))))


def place_of_other_version(rnd: random.Random, case: Certified, right: Certificate) -> Certificate | None:
    """A layer, a row, or all rows, as they stand in the certificate of the other version."""
    other = certificate_of(case.texts[2 - right.version])
    changed = [i for i, row in enumerate(right.rows) if row != other.rows[i]]
    if not changed:
        return None
    i = rnd.choice(changed)
    if rnd.random() < 0.2:
        return right._replace(rows=other.rows)
    if rnd.random() < 0.5:
        return right._replace(rows=replaced(right.rows, i, other.rows[i]))
    j = rnd.choice([j for j, layer in enumerate(right.rows[i]) if layer != other.rows[i][j]])
    return right._replace(rows=replaced(right.rows, i, replaced(right.rows[i], j, other.rows[i][j])))


def other_version(rnd: random.Random, case: Certified, right: Certificate) -> Certificate | None:
    """The number of the other version."""
    return right._replace(version=3 - right.version)


def row_dropped(rnd: random.Random, case: Certified, right: Certificate) -> Certificate | None:
    if not right.rows:
        return None
    i = rnd.randrange(len(right.rows))
    return right._replace(rows=right.rows[:i] + right.rows[i + 1:])


def row_doubled(rnd: random.Random, case: Certified, right: Certificate) -> Certificate | None:
    """A row that stands once more, somewhere."""
    if not right.rows:
        return None
    i = rnd.randint(0, len(right.rows))
    return right._replace(rows=(*right.rows[:i], rnd.choice(right.rows), *right.rows[i:]))


def rows_exchanged(rnd: random.Random, case: Certified, right: Certificate) -> Certificate | None:
    rows = exchanged(rnd, right.rows)
    return rows and right._replace(rows=rows)


def other_k(rnd: random.Random, case: Certified, right: Certificate) -> Certificate | None:
    """Another k, with as many steps, and rows of as many layers: steps are left out or come again, layers too."""
    if not right.steps:
        return None
    k = rnd.choice([k for k in (right.k - 1, right.k + 1, 2 * right.k, 3 * right.k) if k >= 2])
    steps = tuple(right.steps[i % right.k] for i in range(k))
    sources = [body.name for body in case.recording.operations.values() if body.kind == "ins"]
    rows = right.rows or tuple(((source,),) for source in sources)
    is_spread = rnd.random() < 0.5  # what stood in the last layer stands in the new last one
    rows = tuple(of_length(row, k - 1, is_spread) for row in rows) if k > 2 else ()
    return right._replace(k=k, steps=steps, rows=rows)


def of_length(row: tuple, many: int, is_spread: bool) -> tuple:
    """The row with so many layers: empty ones are put in at its end or before its last layer, or layers left out there."""
    if len(row) >= many:
        return row[:many]
    empty = ((),) * (many - len(row))
    return (*row[:-1], *empty, row[-1]) if is_spread and len(row) > 1 else (*row, *empty)


def order_exchanged(rnd: random.Random, case: Certified, right: Certificate) -> Certificate | None:
    order = exchanged(rnd, right.order)
    return order and right._replace(order=order)


def order_changed(rnd: random.Random, case: Certified, right: Certificate) -> Certificate | None:
    """An order with a name left out, or one again."""
    if not right.order:
        return None
    at = rnd.randrange(len(right.order))
    if rnd.random() < 0.5:
        return right._replace(order=right.order[:at] + right.order[at + 1:])
    return right._replace(order=(*right.order[:at], rnd.choice([*right.order, "q"]), *right.order[at:]))


KINDS: dict[str, Callable] = {
    "two steps exchanged": steps_exchanged, "a step turned": step_turned, "another operation": other_operation,
    "a name in another layer": name_moved, "a name more in a layer": name_added, "a name left out of its row": name_left_out,
    "names as in the other version": place_of_other_version, "the other version's number": other_version,
    "a row dropped": row_dropped, "a row doubled": row_doubled, "two rows exchanged": rows_exchanged,
    "another k, with rows to fit": other_k, "an order with two names exchanged": order_exchanged,
    "an order with a name more or fewer": order_changed,
}
ANOTHERS = "another recording's certificate"


def forgery(rnd: random.Random, cases: list[Certified]) -> tuple[str, Certified, str]:
    """A kind, a recording, and a forged certificate of this kind, which is never the recording's own. Each kind is as likely as
    another, and it is looked for until a certificate has what it changes."""
    kind = rnd.choice([*KINDS, ANOTHERS])
    while True:
        case = rnd.choice(cases)
        if kind == ANOTHERS:
            text = rnd.choice(rnd.choice(cases).texts)
        else:
            changed = KINDS[kind](rnd, case, certificate_of(rnd.choice(case.texts)))
            text = spelled(changed) if changed else None
        if text and text not in case.texts:
            return kind, case, text
