#!/usr/bin/env python3
"""failing_streams.py PROGRAM [ONE_IN]: readers and writers that move few bytes at a time, none, or fail, at each byte.

Each command goes over each vector of up to 4 KiB, and each malformed and forged one, by standard input and by files, with
failing_streams.c between the program and its streams. What must come is the vectors' own, or the line of the fault. The log of
the calls shows that nothing is asked after a failed read, after the end or after a failed write, whatever it failed for; and
what was written before a failed write is a prefix, byte for byte. The three-way cycle is tried at every byte, of the others one
case in so many, 20 unless told otherwise. It needs a C compiler (`cc`)."""
import errno
import os
import random
import subprocess
import sys
import tempfile
from collections import Counter
from pathlib import Path
from typing import Iterator, NamedTuple

ROOT = Path(__file__).resolve().parents[2]
sys.path.insert(0, str(ROOT / "tests"))
from reference.traces import line_fault  # noqa: E402
from shared.forger import line  # noqa: E402
from shared.program import SECONDS, Ended, Tally, fault, is_short, library_of, program_of  # noqa: E402

VECTORS = ROOT / "tests" / "vectors"
THREE_WAY = VECTORS / "all-three-way-cycle.trace"
SEED = 1903
ONE_IN = 20
# A failed call is not tried again, though by these two a system says that it may be.
WHY = (errno.EIO, errno.EINTR, errno.EAGAIN)
WHY_NOT_WRITTEN = (*WHY, errno.ENOSPC, 0)


class Asked(NamedTuple):
    """A run: its words, its standard input, the stream whose reads are changed (`-`, or a path) with its text, and how the run
    ends where nothing fails. `named` is what a fault of reading names; of a trace alone, and not for `verify`, a line that is
    faulty may end the run before the rest is read."""

    words: list
    given: bytes
    stream: str
    text: bytes
    wanted: Ended
    named: str

    def may_end_early(self) -> bool:
        return self.words[0] != "verify"


class Call(NamedTuple):
    """A read or a write that the library has changed: how many bytes were asked for or handed over, and how many moved."""

    kind: str
    asked: int
    moved: int


class Streams:
    """The program behind the library."""

    def __init__(self, program: str, folder: str):
        self.program = program
        self.log = os.path.join(folder, "calls")
        self.given = {**os.environ, "STREAM_LOG": self.log,
                      "LD_PRELOAD": library_of(Path(__file__).with_suffix(".c"), folder)}

    def run(self, words: list, given: bytes, **plan: object) -> tuple[Ended, list[Call]]:
        """One run by a plan, whose words are those of failing_streams.c, and the calls that were changed."""
        Path(self.log).write_bytes(b"")
        of_plan = {name.upper(): str(value) for name, value in plan.items()}
        done = subprocess.run([self.program, *words], input=given, capture_output=True, env={**self.given, **of_plan},
                              timeout=SECONDS, check=False)
        told = [words.split() for words in Path(self.log).read_text().splitlines()]
        calls = [Call(kind, int(asked), int(moved)) for kind, asked, moved in told]
        return Ended(done.returncode, done.stdout, done.stderr), calls


def status_of(trace: Path) -> int:
    return int(trace.with_suffix(".status").read_text())


def judged(trace: Path) -> Iterator[tuple[list, Ended]]:
    """The words before FILE of each command that reads one trace, and how it ends."""
    if trace.with_suffix(".fault").exists():
        wanted = fault(trace.with_suffix(".fault").read_text().rstrip("\n"))
        yield from ((words, wanted) for words in (["verdict"], ["verdict", "--json"], ["cert"], ["live"]))
        return
    outputs = (["verdict"], ".report"), (["verdict", "--json"], ".json"), (["cert"], ".cert2"), (["live"], ".report")
    for words, suffix in outputs:
        yield words, Ended(status_of(trace), trace.with_suffix(suffix).read_bytes(), b"")


def checked() -> Iterator[tuple[Path, Path, Ended]]:
    """Traces and certificates of `verify`, and its line."""
    for trace in filter(is_short, sorted(VECTORS.glob("*.trace"))):
        for cert in filter(is_short, (trace.with_suffix(".cert1"), trace.with_suffix(".cert2"))):
            kind = cert.read_text().splitlines()[1].split()[0]
            yield trace, cert, line(f"yes {kind}\n")
    for cert in filter(is_short, sorted(VECTORS.glob("forged/*.cert"))):
        yield cert.with_suffix(".trace"), cert, line(cert.with_suffix(".line").read_text())
    for trace in filter(is_short, sorted(VECTORS.glob("malformed/*.trace"))):
        yield trace, THREE_WAY.with_suffix(".cert2"), line("no trace\n")


def asked() -> Iterator[Asked]:
    """Each command on each vector, by standard input and by files."""
    for trace in filter(is_short, sorted(VECTORS.glob("*.trace")) + sorted(VECTORS.glob("malformed/*.trace"))):
        text = trace.read_bytes()
        for words, wanted in judged(trace):
            yield Asked([*words, "-"], text, "-", text, wanted, "-")
            yield Asked([*words, str(trace)], b"", str(trace), text, wanted, str(trace))
    for trace, cert, wanted in checked():
        text, certificate = trace.read_bytes(), cert.read_bytes()
        yield Asked(["verify", "-", str(cert)], text, "-", text, wanted, "-")
        yield Asked(["verify", str(trace), "-"], certificate, "-", certificate, wanted, str(trace))
        yield Asked(["verify", str(trace), str(cert)], b"", str(trace), text, wanted, str(trace))
        yield Asked(["verify", str(trace), str(cert)], b"", str(cert), certificate, wanted, str(trace))


def is_faulty_so_far(text: bytes) -> bool:
    """Whether one of the text's lines that have their LF is faulty."""
    whole = text[:text.rfind(b"\n") + 1]
    cause = line_fault(whole)
    return cause is not None and int(cause.split(":")[0].split()[1]) <= whole.count(b"\n")


def try_reads(tally: Tally, streams: Streams, case: Asked, **plan: object) -> None:
    """Reads that give few bytes each, or that would fail after the end: nothing shows, and the end is asked for once."""
    name = f"{case.words}, stream {case.stream}, {plan}"
    got, calls = streams.run(case.words, case.given, stream_read=case.stream, **plan)
    tally.same(name, got, case.wanted)
    moved = [call.moved for call in calls]
    is_whole = sum(moved) == len(case.text) and moved[-1:] == [0] and 0 not in moved[:-1]
    ends_early = case.may_end_early() and case.wanted.status == 2 and -1 not in moved and 0 not in moved[:-1]
    tally.check(f"the reads of {name}", is_whole or ends_early, moved)


def try_failed_read(tally: Tally, streams: Streams, case: Asked, at: int, **plan: object) -> None:
    """The read fails that comes when so many bytes were given: it is told, nothing was written, and no read comes after it."""
    name = f"{case.words}, stream {case.stream}, fails at byte {at}, {plan}"
    got, calls = streams.run(case.words, case.given, stream_read=case.stream, read_fails_at=at, **plan)
    moved = [call.moved for call in calls]
    if case.may_end_early() and is_faulty_so_far(case.text[:at]) and got == case.wanted:
        tally.check(f"the reads of {name}", -1 not in moved[:-1] and 0 not in moved, moved)
        return
    tally.same(name, got, fault(f"cannot read {case.named}"))
    tally.check(f"the reads of {name}", moved[-1:] == [-1] and min(moved[:-1], default=1) > 0 and sum(moved) + 1 == at, moved)


def try_writes(tally: Tally, streams: Streams, case: Asked, most: int) -> None:
    """Writes that take few bytes each: all is written, and no write comes after it."""
    name = f"{case.words}, {most} bytes a write"
    got, calls = streams.run(case.words, case.given, stream_write=1, write_most=most, write_fails_at=len(case.wanted.out))
    tally.same(name, got, case.wanted)
    few = -(-len(case.wanted.out) // most)
    taken = [call.moved for call in calls]
    tally.check(f"the writes of {name}", taken[:-1] == [most] * (few - 1) and len(taken) == few, taken)


def try_failed_write(tally: Tally, streams: Streams, case: Asked, at: int, why: int, **plan: object) -> None:
    """The write fails, or takes nothing, that comes when so many bytes were taken: these were written, and no write follows."""
    name = f"{case.words}, a write fails at byte {at} for {errno.errorcode.get(why, 'no cause')}, {plan}"
    got, calls = streams.run(case.words, case.given, stream_write=1, write_fails_at=at, stream_errno=why, **plan)
    tally.same(name, got, fault("cannot write")._replace(out=case.wanted.out[:at]))
    moved = [call.moved for call in calls]
    tally.check(f"the writes of {name}", moved[-1:] == [-1 if why else 0] and min(moved[:-1], default=1) > 0, moved)


def try_failed_message(tally: Tally, streams: Streams, case: Asked, at: int, why: int) -> None:
    """A write of the fault's own line to standard error fails: the status is as it was, so many bytes were written, and no write
    comes after. The standard library writes that line, and goes on after a call that was interrupted: then it is whole."""
    name = f"{case.words}, the message's write fails at byte {at} for {errno.errorcode.get(why, 'no cause')}"
    got, calls = streams.run(case.words, case.given, stream_write=2, write_fails_at=at, stream_errno=why)
    moved = [call.moved for call in calls]
    if why == errno.EINTR and moved[-1:] != [-1]:
        tally.same(name, got, case.wanted)
        tally.check(f"the writes of {name}", moved.count(-1) == 1 and sum(moved) + 1 == len(case.wanted.err), moved)
        return
    tally.same(name, got, case.wanted._replace(err=case.wanted.err[:at]))
    tally.check(f"the writes of {name}", moved[-1:] == [-1 if why else 0] and min(moved[:-1], default=1) > 0, moved)


def tries(rnd: random.Random, case: Asked) -> Iterator[tuple]:
    """All that is tried on a case."""
    for plan in ({"read_most": 1}, {"read_most": 7}, {"read_most": 0, "read_seed": rnd.randrange(1000)}, {"read_late": 1}):
        yield "reads in small pieces, or that would fail after the end", try_reads, plan, ()
    for at in range(len(case.text) + 1):
        plan = {"read_most": rnd.choice([1, 0, 7, 4096]), "stream_errno": rnd.choice(WHY)}
        yield "failed reads", try_failed_read, plan, (at,)
    if case.wanted.out:
        for most in (1, 7):
            yield "writes that take little", try_writes, {}, (most,)
    for at in range(len(case.wanted.out)):
        yield "failed writes", try_failed_write, {"write_most": rnd.choice([1, 7, 4096])}, (at, rnd.choice(WHY_NOT_WRITTEN))
    for at in range(len(case.wanted.err)):
        yield "failed writes of the message", try_failed_message, {}, (at, rnd.choice(WHY_NOT_WRITTEN))


def three_way(tally: Tally, streams: Streams) -> int:
    """The three-way cycle, whose trace has 132 bytes and whose report 120. A writer takes one byte a call, and fails at each;
    a reader gives seven, and fails at each of the 20 reads. Answers how many runs those were."""
    text = THREE_WAY.read_bytes()
    case = Asked(["verdict", "-"], text, "-", text, Ended(1, THREE_WAY.with_suffix(".report").read_bytes(), b""), "-")
    tally.check("the three-way cycle's lengths", (len(text), len(case.wanted.out)) == (132, 120))
    for why in WHY_NOT_WRITTEN:
        for call in range(1, 121):
            try_failed_write(tally, streams, case, call - 1, why, write_most=1)
    for why in WHY:
        for read in range(1, 21):
            try_failed_read(tally, streams, case, min(7 * (read - 1), len(text)), read_most=7, stream_errno=why)
        for at in range(len(text) + 1):
            try_failed_read(tally, streams, case, at, read_most=1, stream_errno=why)
    return 120 * len(WHY_NOT_WRITTEN) + (20 + len(text) + 1) * len(WHY)


def main() -> None:
    one_in = int(sys.argv[2]) if len(sys.argv) > 2 else ONE_IN
    program = program_of(sys.argv[:2])
    rnd, tally, runs = random.Random(SEED), Tally(), Counter()
    with tempfile.TemporaryDirectory() as folder:
        streams = Streams(program, folder)
        runs["runs at each byte of the three-way cycle"] = three_way(tally, streams)
        for case in asked():
            for kind, attempt, plan, told in tries(rnd, case):
                if rnd.randrange(one_in) == 0:
                    attempt(tally, streams, case, *told, **plan)
                    runs[kind] += 1
    print(", ".join(f"{many} {kind}" for kind, many in runs.items()))
    tally.close()


if __name__ == "__main__":
    main()
