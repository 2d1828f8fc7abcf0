#!/usr/bin/env python3
"""fuzz.py PROGRAM [SECONDS [SEED]] [--processes N] [--cases N]: random recordings and changed texts beside slow readers of the
definitions, as long as told.

Of a faulty text the line fault must be that of reference/traces.py, whichever of the commands reads it. Where a text spells a
small recording, the report in either form, the certificate, the checker's answers to it and to a forged one, and what `live` says
must be those of the references. Each of these is a case: one run of the program, compared with a reference. Without a seed it
takes one from the clock and prints it. It ends after 60 seconds, unless told otherwise, or with --cases after so many cases and a
few more, whatever the seconds. With --processes so many processes share the one run; the seed of each is made of the run's seed
and its number, so a run of the same words with --cases tries the same again. It counts all together at the end."""
import argparse
import math
import os
import random
import sys
import tempfile
import time
from collections import Counter
from concurrent.futures import ProcessPoolExecutor
from pathlib import Path

ROOT = Path(__file__).resolve().parents[2]
sys.path.insert(0, str(ROOT / "tests"))
from reference.checker import certificate_of, line_on  # noqa: E402
from reference.traces import line_fault  # noqa: E402
from reference.verdicts import Recording, dotted, first_fault, recording_of, report_of  # noqa: E402
from shared.forger import forged, line  # noqa: E402
from shared.last_runs import note  # noqa: E402
from shared.mutants import edited, mutated, some_bytes  # noqa: E402
from shared.program import Ended, Quick, Tally, fault, program_of  # noqa: E402
from shared.sessions import session, with_fault  # noqa: E402

VECTORS = ROOT / "tests" / "vectors"
# The references try all orders of the elements, and all sets of responses.
MOST_INSERTS, MOST_OPERATIONS = 6, 12
# A faulty text goes to one of these: all commands that read a trace.
READERS = ["verdict", "-"], ["verdict", "--json", "-"], ["cert", "-"], ["live", "-"], \
    ["verify", "-", str(VECTORS / "all-three-way-cycle.cert2")]
# How many workers share a search. Each is a thread, for which a small recording is no work; 64 take ten times as long.
WORKERS = [1] * 10 + [2] * 5 + [4] * 4 + [64]
# A folder in memory, where there is one.
SHARED = "/dev/shm" if os.path.isdir("/dev/shm") else None
# After so many cases of a process it says how far it is.
TOLD_EACH = 50_000
# A run of fewer cases is no run that the page of last runs tells of.
LEAST_CASES = 100_000


def texts(rnd: random.Random):
    """Texts without end: small sessions, with and without a fault, changed traces, random bytes."""
    traces = [path.read_bytes() for path in sorted(VECTORS.glob("*.trace")) if path.stat().st_size < 2000]
    while True:
        kind = rnd.randrange(10)
        if kind == 0:
            yield some_bytes(rnd)
            continue
        text = session(rnd)
        for _ in range(rnd.choice([0, 0, 1, 2])):
            text = with_fault(rnd, text)
        text = text.encode() if kind < 7 else rnd.choice([text.encode(), *traces])
        for _ in range(rnd.choice([0, 1, 2]) if kind > 4 else 0):
            text = edited(rnd, text) if rnd.random() < 0.5 and text.count(b"\n") > 2 else mutated(rnd, text, rnd.choice(traces))
        yield text


def is_small(recording: Recording) -> bool:
    operations = recording.operations.values()
    return len(operations) <= MOST_OPERATIONS and sum(body.kind == "ins" for body in operations) <= MOST_INSERTS


class Fuzzer:
    """One process of a run, with what it has tried."""

    def __init__(self, program: str, seed: str, folder: str):
        self.program, self.rnd = Quick(program), random.Random(seed)
        self.tally, self.kinds = Tally(), Counter()
        self.certificate = os.path.join(folder, "cert")

    def cases(self) -> int:
        return self.tally.passed + self.tally.failed

    def try_text(self, text: bytes) -> str:
        """The commands on a text. Answers what kind of text it is."""
        cause = line_fault(text)
        if cause is not None:
            words = self.rnd.choice(READERS)
            wanted = line("no trace\n") if words[0] == "verify" else fault(cause)
            self.tally.same(f"{words} of {text!r}", self.program.run(words, text), wanted)
            return "line faults"
        recording = recording_of(text.decode())
        return self.try_recording(text.decode(), recording) if is_small(recording) else "too large for the references"

    def try_recording(self, text: str, recording: Recording) -> str:
        """All commands on a small recording. Answers its verdict."""
        report, rnd = report_of(text), self.rnd
        status = 0 if report.kind == "accepted" else 1
        for command, wanted in ((["verdict"], report.text), (["verdict", "--json"], report.json), (["cert"], report.certificate),
                                (["live"], report.text)):
            workers = [] if command == ["cert"] else ["--workers", str(rnd.choice(WORKERS))]
            words = [*command, *workers, "-"]
            got = self.program.run(words, text.encode())
            self.tally.same(f"{words} of\n{text}", got, Ended(status, wanted.encode(), b""))
        first = first_fault(recording)
        operations = [dotted(e) for e in recording.operations]
        right = [report.certificate, report.certificate_of_one]
        for certificate in (*right, *(forged(rnd, one, operations) for one in right if operations)):
            spelled = certificate_of(certificate)
            answer = "no text\n" if spelled is None else line_on(recording, first, spelled)
            Path(self.certificate).write_text(certificate)
            got = self.program.run(["verify", "-", self.certificate], text.encode())
            self.tally.same(f"verify of\n{text}with\n{certificate}", got, line(answer))
        return report.kind


def fuzz(program: str, seed: str, until: float, most: float) -> tuple[Tally, Counter]:
    """One process: what passed and failed, and how many texts of each kind there were."""
    with tempfile.TemporaryDirectory(dir=SHARED) as folder:
        fuzzer = Fuzzer(program, seed, folder)
        told = 0
        for text in texts(fuzzer.rnd):
            if time.monotonic() > until or fuzzer.cases() >= most:
                return fuzzer.tally, fuzzer.kinds
            fuzzer.kinds[fuzzer.try_text(text)] += 1
            if fuzzer.cases() // TOLD_EACH > told:
                told = fuzzer.cases() // TOLD_EACH
                print(f"so far seed {seed}: {fuzzer.cases():,} cases, {fuzzer.tally.failed} failed", flush=True)


def main() -> None:
    words = argparse.ArgumentParser(description=__doc__, formatter_class=argparse.RawDescriptionHelpFormatter)
    words.add_argument("program")
    words.add_argument("seconds", type=float, nargs="?", default=60)
    words.add_argument("seed", type=int, nargs="?", default=time.time_ns())
    words.add_argument("--processes", type=int, default=1, help="how many share the run")
    words.add_argument("--cases", type=int, help="ends after so many cases, whatever the seconds")
    given = words.parse_args()
    program = program_of([sys.argv[0], given.program])
    until = time.monotonic() + given.seconds if given.cases is None else math.inf
    most = math.inf if given.cases is None else math.ceil(given.cases / given.processes)
    print(f"seed {given.seed}, {given.processes} processes", flush=True)
    tally, kinds, begun = Tally(), Counter(), time.monotonic()
    with ProcessPoolExecutor(given.processes) as pool:
        runs = [pool.submit(fuzz, program, f"{given.seed}.{number}", until, most) for number in range(given.processes)]
        for run in runs:
            one, of_kinds = run.result()
            tally.passed, tally.failed, kinds = tally.passed + one.passed, tally.failed + one.failed, kinds + of_kinds
    print(", ".join(f"{n:,} {kind}" for kind, n in sorted(kinds.items())))
    print(f"{sum(kinds.values()):,} texts, {tally.passed + tally.failed:,} cases in {time.monotonic() - begun:.0f} seconds")
    if tally.passed + tally.failed >= LEAST_CASES:
        note("tests/program/fuzz.py", f"{tally.said()}, seed {given.seed}", program)
    tally.close()


if __name__ == "__main__":
    main()
