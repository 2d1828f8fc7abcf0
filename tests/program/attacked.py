#!/usr/bin/env python3
"""attacked.py PROGRAM [--seconds N] [--megabytes N] [--only WORD]: texts of a gigabyte, made on the fly, that mean no good.

Each command that reads is given, through a pipe: lines without end, lines of each legal length, ten million receipts, names of 32
bytes, binary bytes; and `verify`, beside a small trace, certificates of a gigabyte in several shapes. Each run must end in under
15 seconds with its one line, and with no more than 200 MB of memory, to which comes for `verify` the certificate's text. What the
line says is written here from docs/formats.md, and the slow references must say it of a shorter text of the same shape. A run
that has 4 GB of memory is stopped, and fails. Then names that were chosen to collide must cost about what other names cost, and
refusals that are hard to find (bench/shapes) at most ten times the same trace without reads of its cycles. It
stands outside the gate: it takes some minutes on a quiet machine. A slow
machine wants more --seconds; --megabytes makes the texts smaller, at least 128, and --only takes the shapes whose names have the
word."""
import argparse
import os
import random
import subprocess
import sys
import tempfile
from concurrent.futures import ProcessPoolExecutor
from pathlib import Path
from typing import Callable, Iterator, NamedTuple

ROOT = Path(__file__).resolve().parents[2]
sys.path.insert(0, str(ROOT / "tests"))
from reference.checker import answer_of  # noqa: E402
from reference.traces import MOST_ENTRIES, MOST_INSERTS, MOST_NAMES, MOST_PLACES, line_fault  # noqa: E402
from shared.colliding import chosen_names  # noqa: E402
from shared.forger import line  # noqa: E402
from shared.last_runs import note  # noqa: E402
from shared.measured import measured  # noqa: E402
from shared.program import Ended, Tally, fault, program_of  # noqa: E402
from shared.two_orders import Exchanged, TwoOrders, names_that_share_slots  # noqa: E402

THREE_WAY = ROOT / "tests" / "vectors" / "all-three-way-cycle.trace"
BLOCK = 2 ** 20
MEGABYTES = 1024
SECONDS = 15
MOST_MEMORY = 200_000_000
# So long is the text of the same shape that the references read.
SHORT = 2 ** 21
RECEIPTS = 10_000_000
CHOSEN_NAMES = 20_000
READERS = ["verdict", "-"], ["verdict", "--json", "-"], ["cert", "-"], ["live", "-"]

FRONT = b"trace 1\nreplicas 16\n"
READ = FRONT + b"0 read :"
NAME = b" abcdefghijklmnopqrstuvwxyz01234-"
LONGEST = len(b"0 read :") + MOST_NAMES * len(NAME)
INSERTS = b"".join(b"0 ins %032d 0 :\n" % number for number in range(MOST_INSERTS + 1))
BINARY = random.Random(7).randbytes(BLOCK)
STEPS = b"step x b 2.1\nstep b a 0.3\nstep a x 1.1\n"
ROWS = b"layers x / b\nlayers a /\nlayers b /\n"

SHAPES = ROOT / "bench" / "shapes"
# Refusals that are hard to find: the script of the shape, its words, the conflict number that its cycles are made for, and how many times
# the processor of the same trace accepted it takes at most.
HARD = [
    ("front.py", ["8", "16", "256", "8"], 8, 10), ("front.py", ["8", "16", "256", "8", "closed"], 8, 10),
    ("front.py", ["13", "4", "1024", "3"], 3, 10), ("front.py", ["13", "4", "1024", "3", "closed"], 3, 10),
    ("front.py", ["12", "16", "256", "4"], 4, 10), ("front.py", ["12", "16", "256", "4", "closed"], 4, 10),
    ("long_ring.py", ["28000"], 28000, 10), ("thick_ring.py", ["16", "256"], 256, 10), ("thick_ring.py", ["45", "40"], 40, 10),
    ("clusters.py", ["8", "500"], 4, 10), ("clusters.py", ["4", "1000"], 4, 10), ("clusters.py", ["4", "1000", "8000"], 4, 10),
    ("shapes.py", ["backring", "16000", "370"], 16000, 10), ("shapes.py", ["report", "1", "700", "370"], 4441, 10),
    ("shapes.py", ["jump", "6", "680", "1", "3", "124"], 3, 10),
]
TURNS = 3

Text = Callable[[int], Iterator[bytes]]


class Shape(NamedTuple):
    """A kind of text: the pieces of one with about so many bytes, and the words that the program has for it; of a certificate
    the trace that it stands beside."""

    name: str
    text: Text
    words: str
    trace: str = THREE_WAY.read_text()


def blocks(unit: bytes, size: int) -> Iterator[bytes]:
    """The unit over and over, about so many bytes of it."""
    block = unit * max(1, min(BLOCK, size) // len(unit))
    for _ in range(max(1, size // len(block))):
        yield block


def around(front: bytes, unit: bytes, back: bytes = b"") -> Text:
    """Texts that are a front, a unit over and over, and a back."""
    def text(size: int) -> Iterator[bytes]:
        yield front
        yield from blocks(unit, size)
        yield back
    return text


def ten_million_receipts(size: int) -> Iterator[bytes]:
    """An insert, and receipts of it: ten million, where a whole gigabyte is asked for."""
    yield b"trace 1\nreplicas 2\n0 ins a 0 : a\n"
    yield from blocks(b"1 recv 0 1\n", min(size, RECEIPTS * len(b"1 recv 0 1\n")))


def response(length: int) -> bytes:
    """A read of replica 0 whose line has so many bytes without its LF: 8, or 10 and more."""
    many, left = divmod(length - len(b"0 read :"), len(NAME))
    if left == 1:  # a space alone is no name: the name before it gives a byte
        return b"0 read :" + NAME * (many - 1) + NAME[:-1] + b" z"
    return b"0 read :" + NAME * many + NAME[:left]


def rising(size: int) -> Iterator[bytes]:
    """Reads of each legal length, from the shortest on, by ten replicas in turn."""
    yield FRONT
    made, length = 0, 8
    while made < size:
        text = b"%d%s\n" % (length % 10, response(length)[1:])
        made += len(text)
        length += 2 if length == 8 else 1
        yield text


def falling(size: int) -> Iterator[bytes]:
    """Reads of each legal length, from the longest down to a half of it, and again from there, by ten replicas in turn."""
    yield FRONT
    made = length = 0
    while made < size:
        length = length - 1 if length > LONGEST // 2 else LONGEST
        text = b"%d%s\n" % (length % 10, response(length)[1:])
        made += len(text)
        yield text


def rows_of_each_length(size: int) -> Iterator[bytes]:
    """A refusal whose rows hold more names each time."""
    yield b"cert 2\nrefused 3\n" + STEPS
    made = many = 0
    while made < size:
        many += 1
        text = b"layers x /" + b" b" * many + b"\n"
        made += len(text)
        yield text


def ring(steps: bytes) -> Text:
    """A refusal of a k that fits its steps, which lead round the same cycle over and over; no rows."""
    def text(size: int) -> Iterator[bytes]:
        rounds = max(1, size // len(steps))
        yield b"cert 2\nrefused %d\n" % (steps.count(b"\n") * rounds)
        block = steps * min(rounds, max(1, BLOCK // len(steps)))
        for _ in range(rounds * len(steps) // len(block)):
            yield block
        yield steps * (rounds * len(steps) % len(block) // len(steps))
    return text


long_ring = ring(STEPS)


def wide_row(size: int) -> Iterator[bytes]:
    """A refusal of a large k, with a row of as many empty layers: a step takes 13 bytes, a layer 2."""
    rounds = size // (len(STEPS) + 6)
    yield from long_ring(rounds * len(STEPS))
    yield b"layers x"
    many = 3 * rounds - 2
    for first in range(0, many, BLOCK):
        yield b" /" * min(BLOCK, many - first)
    yield b"\n"


# Traces that must be refused. The words are those of the first faulty line; none where the text is right.
FULL = 4 + MOST_ENTRIES  # the line of the first receipt too many: three lines stand before the receipts
TRACES = [
    Shape("one line without end", around(b"", b"x"), "line 1: cut"),
    Shape("one line without end, of zeros", around(b"", b"\0"), "line 1: cut"),
    Shape("one line without end, of spaces", around(READ, b" "), "line 3: cut"),
    Shape("one line", around(b"trace 1\n", b"x", b"\n"), "line 2: replicas"),
    Shape("one number", around(FRONT, b"9", b" read :\n"), "line 3: shape"),
    Shape("one name", around(FRONT + b"0 ins ", b"a", b" 0 :\n"), "line 3: shape"),
    Shape("lines of each legal length, rising", rising, ""),
    Shape("lines of each legal length, falling", falling, ""),
    Shape("lines without a byte", around(FRONT, b"\n"), "line 3: shape"),
    Shape("ten million receipts", ten_million_receipts, f"line {FULL}: entries full"),
    Shape("names of 32 bytes, one response", around(READ, NAME, b"\n"), "line 3: long response"),
    Shape("names of 32 bytes, one response without end", around(READ, NAME), "line 3: cut"),
    Shape("names of 32 bytes, in full responses", around(FRONT, b"0 read :" + NAME * MOST_NAMES + b"\n"),
          f"line {3 + MOST_PLACES // MOST_NAMES}: places full"),
    Shape("names of 32 bytes, inserted", around(FRONT, INSERTS), f"line {3 + MOST_INSERTS}: inserts full"),
    Shape("names of 33 bytes", around(READ, NAME + b"5", b"\n"), "line 3: shape"),
    Shape("binary bytes", around(b"", BINARY), "line 1: header"),
    Shape("binary bytes behind two right lines", around(FRONT, BINARY), "line 3: shape"),
    Shape("binary bytes without LF", around(READ, BINARY.replace(b"\n", b"\xff")), "line 3: cut"),
]

# Certificates that must get a no, beside the trace of the three-way cycle or another small one. The words are the checker's.
TWENTY, HUNDRED, SHARED = TwoOrders(10), TwoOrders(50), Exchanged(*names_that_share_slots())
CERTIFICATES = [
    Shape("one line without end", around(b"", b"x"), "text"),
    Shape("binary bytes", around(b"cert 2\n", BINARY), "text"),
    Shape("lines without a byte", around(b"cert 2\ncontents 0.1\n", b"\n"), "text"),
    Shape("one name", around(b"cert 2\naccepted\norder : ", b"a", b"\n"), "text"),
    Shape("an order of names", around(b"cert 2\naccepted\norder :", b" x b a", b"\n"), "order"),
    Shape("an order without end", around(b"cert 2\naccepted\norder :", b" x b a"), "text"),
    Shape("an order of names of 32 bytes", around(b"cert 2\naccepted\norder :", NAME, b"\n"), "order"),
    Shape("fewer steps than the greatest k", around(b"cert 2\nrefused 4294967295\n", STEPS), "text"),
    Shape("as many steps as k", long_ring, "missing x"),
    Shape("right steps in responses of 20 names", ring(TWENTY.round().encode()), f"missing {TWENTY.of[0][0]}", TWENTY.trace()),
    Shape("right steps in responses of 100 names", ring(HUNDRED.round().encode()), f"missing {HUNDRED.of[0][0]}", HUNDRED.trace()),
    Shape("right steps of two names that share a slot", ring(SHARED.round().encode()), f"missing {SHARED.of[0][0]}", SHARED.trace()),
    Shape("as many layers as k", wide_row, "short x"),
    Shape("right rows, and rows too many", around(b"cert 2\nrefused 3\n" + STEPS + ROWS, b"layers x / b\n"), "extra x"),
    Shape("rows of the first source", around(b"cert 2\nrefused 3\n" + STEPS, b"layers x / b\n"), "missing a"),
    Shape("a row of one name over and over", around(b"cert 2\nrefused 3\n" + STEPS + b"layers x /", b" b", b"\n" + ROWS),
          "short x"),
    Shape("a row without end", around(b"cert 2\nrefused 3\n" + STEPS + b"layers x /", b" b"), "text"),
    Shape("rows of each length", rows_of_each_length, "missing a"),
    Shape("names of 32 bytes in a row", around(b"cert 2\nrefused 3\n" + STEPS + b"layers x /", NAME, b"\n"), "short x"),
]


def line_fault_of(name: str, most: int) -> str:
    """What the reference says of a trace of the shape. Where it finds no faulty line in a short one, the text is made longer."""
    text = next(shape.text for shape in TRACES if shape.name == name)
    size = SHORT
    while True:
        said = line_fault(b"".join(text(size)))
        if said is not None or size >= most:
            return str(said)
        size *= 8


def answer_to(name: str) -> str:
    """What the reference says of the small trace with a certificate of the shape."""
    shape = next(shape for shape in CERTIFICATES if shape.name == name)
    return answer_of(shape.trace, b"".join(shape.text(SHORT // 64)).decode("latin-1"))


def attack(tally: Tally, name: str, words: list, pieces: Iterator[bytes], wanted: Ended, seconds: float, keeps: bool) -> None:
    """One run, of which the line, the time and the memory are tested, and told; and whether it may keep the text."""
    ran = measured(words, pieces, 4 * seconds)
    most = MOST_MEMORY + (ran.given if keeps else 0)
    tally.same(name, ran.ended, wanted)
    tally.check(f"{name}: in {seconds:g} seconds", ran.seconds < seconds, f"{ran.seconds:.1f} s")
    tally.check(f"{name}: in {most / 1e6:.0f} MB", ran.memory <= most, f"{ran.memory / 1e6:.0f} MB")
    print(f"{name}: {ran.given / 1e6:.0f} MB given, {ran.seconds:.1f} s, {ran.memory / 1e6:.0f} MB", flush=True)


def attack_with_traces(tally: Tally, program: str, asking: ProcessPoolExecutor, given: argparse.Namespace, folder: str) -> None:
    """Each command on each shape of a trace."""
    certificate = os.path.join(folder, "cert")
    Path(certificate).write_bytes(THREE_WAY.with_suffix(".cert2").read_bytes())
    for shape in TRACES:
        if given.only not in shape.name:
            continue
        said = asking.submit(line_fault_of, shape.name, given.size).result()
        if shape.words:
            tally.check(f"the reference on {shape.name}", said == shape.words, f"{said}, not {shape.words}")
        else:
            tally.check(f"the reference on {shape.name}", said.endswith(": places full"), said)
        for words in READERS:
            name = f"{' '.join(words[:-1])} of {shape.name}"
            attack(tally, name, [program, *words], shape.text(given.size), fault(said), given.seconds, False)
        words = [program, "verify", "-", certificate]
        attack(tally, f"verify of {shape.name}", words, shape.text(given.size), line("no trace\n"), given.seconds, False)


def attack_with_certificates(tally: Tally, program: str, asking: ProcessPoolExecutor, given: argparse.Namespace,
                             folder: str) -> None:
    """`verify` on each shape of a certificate, beside a small trace."""
    trace = os.path.join(folder, "trace")
    for shape in CERTIFICATES:
        if given.only not in shape.name:
            continue
        said = asking.submit(answer_to, shape.name).result()
        tally.check(f"the reference on {shape.name}", said == f"no {shape.words}\n", f"{said!r}, not {shape.words}")
        Path(trace).write_text(shape.trace)
        words = [program, "verify", trace, "-"]
        attack(tally, f"a certificate: {shape.name}", words, shape.text(given.size), line(said), given.seconds, True)


def accepted_beside(program: str, script: str, refused: str) -> bytes:
    """The same trace without reads of its cycles; of clusters, which have thousands, without any view."""
    if script == "clusters.py":
        return b"".join(line for line in Path(refused).read_bytes().splitlines(keepends=True) if b" view :" not in line)
    return subprocess.run([sys.executable, SHAPES / "accepted.py", program, refused], stdout=subprocess.PIPE, check=True).stdout


def hard_refusals(tally: Tally, program: str, folder: str) -> None:
    """Each takes at most so many times the processor of the same trace accepted; by turns, with one worker."""
    refused, accepted = os.path.join(folder, "refused.trace"), os.path.join(folder, "accepted.trace")
    for script, words, k, most in HARD:
        name = " ".join([script, *words])
        with open(refused, "wb") as out:
            subprocess.run([sys.executable, SHAPES / script, *words], stdout=out, stderr=subprocess.DEVNULL, check=True)
        Path(accepted).write_bytes(accepted_beside(program, script, refused))
        used = {refused: [], accepted: []}
        for _ in range(TURNS):
            for path, runs in used.items():
                with tempfile.TemporaryFile() as out:
                    child = subprocess.Popen([program, "verdict", "--workers", "1", path], stdout=out)
                    _, child.returncode, took = os.wait4(child.pid, 0)
                    out.seek(0)
                    said = out.read().splitlines()[1].decode()
                wanted = f"refused {k}" if path == refused else "accepted"
                tally.check(f"{name}: {wanted}", said == wanted, said[:80])
                runs.append(took.ru_utime + took.ru_stime)
        seconds, other = min(used[refused]), min(used[accepted])
        print(f"{name}: {seconds:.3f} s, accepted {other:.3f} s", flush=True)
        tally.check(f"{name}: at most {most} times the time", seconds <= most * other, (seconds, other))


def main() -> None:
    words = argparse.ArgumentParser(description=__doc__)
    words.add_argument("program")
    words.add_argument("--seconds", type=float, default=SECONDS, help="how long a run may take")
    words.add_argument("--megabytes", type=int, default=MEGABYTES, help="how long the texts are")
    words.add_argument("--only", default="", help="the shapes whose names have this word")
    given = words.parse_args()
    given.size = given.megabytes * 2 ** 20
    program = program_of([sys.argv[0], given.program])
    tally = Tally()
    # The references read in a process of their own: a child's memory is counted from that of the process that starts it.
    with ProcessPoolExecutor(1) as asking, tempfile.TemporaryDirectory() as folder:
        attack_with_traces(tally, program, asking, given, folder)
        attack_with_certificates(tally, program, asking, given, folder)
        if given.only in "names that collide":
            chosen_names(tally, program, folder, CHOSEN_NAMES)
        if given.only in "hard refusals":
            hard_refusals(tally, program, folder)
    if given.megabytes >= MEGABYTES and not given.only:
        note("tests/program/attacked.py", tally.said(), program)
    tally.close()


if __name__ == "__main__":
    main()
