#!/usr/bin/env python3
"""prefixes.py PROGRAM [--one-in N] [--vectors FOLDER]: texts cut short, at each byte, beside the slow references.

Of each vector's trace and certificate of up to 4 KiB, malformed and forged ones too, every proper prefix is given to the program:
a trace's to `verdict` in both forms, to `cert`, `live` and `verify`, a certificate's to `verify`. The line fault, the report, the
certificate and the checker's line must be those of reference/. A prefix that spells a recording too large for the reference of
reports is counted, and given to `verify` alone; one that is too large for that of certificates too is counted alone. With
--one-in a share of the prefixes is tried; another folder of vectors can be named."""
from __future__ import annotations

import argparse
import os
import random
import sys
import tempfile
from collections import Counter
from functools import lru_cache
from pathlib import Path
from typing import Iterator

ROOT = Path(__file__).resolve().parents[2]
sys.path.insert(0, str(ROOT / "tests"))
from reference.checker import certificate_of, line_on  # noqa: E402
from reference.traces import line_fault  # noqa: E402
from reference.verdicts import Fault, Recording, first_fault, recording_of, report_of  # noqa: E402
from shared.forger import line  # noqa: E402
from shared.last_runs import note  # noqa: E402
from shared.program import Ended, Quick, Tally, fault, is_short, program_of  # noqa: E402

VECTORS = ROOT / "tests" / "vectors"
THREE_WAY_CERTIFICATE = VECTORS / "all-three-way-cycle.cert2"
SEED = 1836
# The reference of reports tries all orders of the elements, and all sets of responses.
MOST_INSERTS, MOST_OPERATIONS = 6, 12
# That of certificates makes all pairs of operations.
MOST_CHECKED = 40
FORMS = ["verdict", "-"], ["verdict", "--json", "-"], ["cert", "-"], ["live", "-"]


def is_small(text: str) -> bool:
    operations = recording_of(text).operations.values()
    return len(operations) <= MOST_OPERATIONS and sum(body.kind == "ins" for body in operations) <= MOST_INSERTS


def of_trace(text: bytes) -> list[tuple[list, Ended]]:
    """How the commands that read a trace alone must end; none are answered where the reference would take too long."""
    cause = line_fault(text)
    if cause is not None:
        return [(words, fault(cause)) for words in FORMS]
    if not is_small(text.decode()):
        return []
    report = report_of(text.decode())
    outputs = report.text, report.json, report.certificate, report.text
    return [(words, Ended(0 if report.kind == "accepted" else 1, out.encode(), b"")) for words, out in zip(FORMS, outputs)]


@lru_cache(maxsize=4)
def judged(trace: str) -> tuple[Recording, Fault | None] | None:
    """The recording with its first fault; none where it is too large."""
    recording = recording_of(trace)
    return (recording, first_fault(recording)) if len(recording.operations) <= MOST_CHECKED else None


def checked(trace: bytes, text: bytes) -> Ended | None:
    """How `verify` must end; none is answered where the reference would take too long."""
    if line_fault(trace):
        return line("no trace\n")
    certificate = certificate_of(text.decode("latin-1"))
    if certificate is None:
        return line("no text\n")
    of_trace = judged(trace.decode())
    return line(line_on(*of_trace, certificate)) if of_trace else None


def chosen(rnd: random.Random, text: bytes, one_in: int) -> Iterator[bytes]:
    """Every proper prefix, or a share of them."""
    return (text[:length] for length in range(len(text)) if rnd.randrange(one_in) == 0)


def certificates_of(trace: Path) -> list[Path]:
    """The certificates that lie beside a trace."""
    return [path for path in (trace.with_suffix(suffix) for suffix in (".cert1", ".cert2", ".cert")) if path.exists()]


def try_trace(tally: Tally, counted: Counter, program: Quick, trace: Path, text: bytes) -> None:
    """The commands on a prefix of a trace; `verify` with the whole certificates."""
    name = f"{len(text)} bytes of {trace.name}"
    runs = of_trace(text)
    counted["traces' prefixes" if runs else "traces' prefixes too large for the reference of reports"] += 1
    counted["of these spell a recording"] += line_fault(text) is None
    for words, wanted in runs:
        tally.same(f"{words} of {name}", program.run(words, text), wanted)
    for cert in certificates_of(trace)[:2] or [THREE_WAY_CERTIFICATE]:
        wanted = checked(text, cert.read_bytes())
        if wanted is None:
            counted["runs of verify too large for the reference of certificates"] += 1
        else:
            tally.same(f"verify of {name} with {cert.name}", program.run(["verify", "-", str(cert)], text), wanted)


def try_certificate(tally: Tally, counted: Counter, program: Quick, trace: Path, cert: Path, text: bytes) -> None:
    """`verify` with a prefix of a certificate."""
    wanted = checked(trace.read_bytes(), text)
    if wanted is None:
        counted["runs of verify too large for the reference of certificates"] += 1
        return
    counted["certificates' prefixes"] += 1
    counted[f"of these {' '.join(wanted.out.decode().split()[:2])}"] += 1
    got = program.run(["verify", str(trace), "-"], text)
    tally.same(f"verify of {trace.name} with {len(text)} bytes of {cert.name}", got, wanted)


def main() -> None:
    words = argparse.ArgumentParser(description=__doc__)
    words.add_argument("program")
    words.add_argument("--one-in", type=int, default=1, help="try one in so many prefixes")
    words.add_argument("--vectors", type=Path, default=VECTORS, help="the folder of the vectors")
    given = words.parse_args()
    program = Quick(program_of([sys.argv[0], given.program]))
    rnd, tally, counted = random.Random(SEED), Tally(), Counter()
    with tempfile.TemporaryDirectory() as folder:
        os.chdir(folder)
        for trace in filter(is_short, sorted(given.vectors.absolute().rglob("*.trace"))):
            for text in chosen(rnd, trace.read_bytes(), given.one_in):
                try_trace(tally, counted, program, trace, text)
            for cert in filter(is_short, certificates_of(trace)):
                for text in chosen(rnd, cert.read_bytes(), given.one_in):
                    try_certificate(tally, counted, program, trace, cert, text)
    print(", ".join(f"{many} {what}" for what, many in counted.items()))
    tally.check("prefixes of traces and certificates", counted["traces' prefixes"] > 0 and counted["certificates' prefixes"] > 0)
    if given.one_in == 1 and given.vectors == VECTORS:
        note("tests/program/prefixes.py", tally.said(), program.program)
    tally.close()


if __name__ == "__main__":
    main()
