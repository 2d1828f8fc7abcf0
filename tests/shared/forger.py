"""Certificates with changes, and the checker's answers to them beside those of the slow second checker."""
import os
import random
import tempfile
from collections import Counter
from pathlib import Path

from reference.checker import answer_of
from reference.verdicts import dotted, recording_of
from shared.program import Ended, Tally, run

SEED = 1854

# Of the generated recordings, one in so many is certified, and its certificate forged in so many ways.
ONE_IN = 4
FORGED = 3


def line(text: str) -> Ended:
    """A line of the checker: good exactly where it says yes."""
    return Ended(0 if text.startswith("yes ") else 1, text.encode(), b"")


def names_in(words: list) -> list:
    """The places of a line's words that are names of elements, or of operations in a line that names a fault."""
    fixed = {"order": 2, "layers": 1, "step": 1, "doubled": 1, "contents": 1, "position": 1}.get(words[0], len(words))
    return [i for i in range(fixed, len(words)) if words[i] not in (":", "/") and not (words[0] == "step" and i == 3)]


def forged(rnd: random.Random, certificate: str, operations: list) -> str:
    """The certificate with one change, of which most still spell a certificate."""
    lines = certificate.splitlines()
    at = rnd.choice([i for i in range(1, len(lines)) if lines[i].split(" ")[0] not in ("accepted", "refused")])
    words = lines[at].split(" ")
    places = names_in(words)
    names = sorted({lines[i].split(" ")[p] for i in range(1, len(lines)) for p in names_in(lines[i].split(" "))})
    kind = rnd.choice(["change", "change", "exchange", "repeat", "leave out", "move", "operation", "line", "line", "text", "version"])
    if kind == "change" and places:
        words[rnd.choice(places)] = rnd.choice(operations if words[0] in ("doubled", "contents", "position") else names)
    elif kind == "exchange" and len(places) > 1:
        i, j = rnd.sample(places, 2)
        words[i], words[j] = words[j], words[i]
    elif kind == "repeat" and places:
        words.insert(rnd.choice(places) + 1, rnd.choice(names))
    elif kind == "leave out" and places:
        words.pop(places[-1])
    elif kind == "move" and words[0] == "layers" and len(places) > 1:
        name = words.pop(rnd.choice(places[1:]))
        words.insert(rnd.randint(3, len(words)), name)
    elif kind == "operation" and words[0] == "step":
        words[3] = rnd.choice([*operations, "7.1"])
    elif kind == "text":
        words.append(rnd.choice(["", "a", "/", ":"]))
    elif kind == "version":
        lines[0] = {"cert 1": "cert 2", "cert 2": "cert 1"}[lines[0]]
    lines[at] = " ".join(words)
    if kind == "line":
        alike = [i for i in range(1, len(lines)) if lines[i].split(" ")[0] == words[0]]
        other = rnd.choice(alike)
        if rnd.random() < 0.4:
            lines[at], lines[other] = lines[other], lines[at]
        elif rnd.random() < 0.5:
            lines.append(lines[other])
        else:
            lines.pop(alike[-1])
    return "".join(text + "\n" for text in lines)


def from_generated(tally: Tally, program: str, cases: list) -> None:
    """Some of the generated recordings, with their reports: the certificate that is written, and the checker's answers to it
    and to forged ones."""
    rnd = random.Random(SEED)
    said = Counter()
    with tempfile.TemporaryDirectory() as folder:
        path = os.path.join(folder, "cert")
        for text, report, _ in cases[::ONE_IN]:
            status = 0 if report.kind == "accepted" else 1
            got = run(program, ["cert", "-"], text.encode())
            tally.same(f"cert of\n{text}", got, Ended(status, report.certificate.encode(), b""))
            operations = [dotted(e) for e in recording_of(text).operations]
            of_versions = [report.certificate, report.certificate_of_one]
            for certificate in [*of_versions, *(forged(rnd, rnd.choice(of_versions), operations) for _ in range(FORGED))]:
                Path(path).write_text(certificate)
                answer = answer_of(text, certificate)
                said[" ".join(answer.split()[:2])] += 1
                tally.same(f"verify of\n{text}with\n{certificate}", run(program, ["verify", "-", path], text.encode()), line(answer))
    print(", ".join(f"{n} {answer}" for answer, n in said.most_common()))
    wanted = {f"no {why}" for why in ("text", "fault", "order", "followed", "cycle", "missing", "short", "extra")}
    wanted |= {f"yes {kind}" for kind in ("doubled", "contents", "position", "accepted", "refused")}
    tally.check("answers of all kinds", set(said) == wanted, wanted ^ set(said))
