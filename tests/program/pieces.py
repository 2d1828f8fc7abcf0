#!/usr/bin/env python3
"""pieces.py PROGRAM: traces that come through a pipe in pieces: vectors cut anywhere, endless streams, lines of a gigabyte."""
import random
import subprocess
import sys
import threading
import time
from pathlib import Path

ROOT = Path(__file__).resolve().parents[2]
sys.path.insert(0, str(ROOT / "tests"))
from shared.measured import measured  # noqa: E402
from shared.program import Ended, Tally, fault, processor_seconds, program_of, run  # noqa: E402

VECTORS = ROOT / "tests" / "vectors"
SEED = 11
SIZES = (1, 2, 7, 4096)
MANY = [f"{r} read :" for r in range(16) for _ in range(16_384)]
MANY_REPORT = b"replicas 16 operations 262144 inserts 0\naccepted\nstrong yes\nweak yes\norder :\n"


def cuts(text: bytes, size: int) -> list[bytes]:
    """The text in pieces of so many bytes."""
    return [text[at:at + size] for at in range(0, len(text), size)]


def random_cuts(text: bytes, rng: random.Random) -> list[bytes]:
    """The text cut at some random places."""
    places = sorted(rng.sample(range(len(text) + 1), min(len(text), 9)))
    ends = [0, *places, len(text)]
    return [text[a:b] for a, b in zip(ends, ends[1:]) if a < b]


def piped(program: str, words: list, pieces) -> Ended:
    """A run that is given each piece by a write of its own, as far as it reads."""
    with subprocess.Popen([program, *words], stdin=subprocess.PIPE, stdout=subprocess.PIPE,
                          stderr=subprocess.PIPE, bufsize=0) as started:
        def give() -> None:
            try:
                for piece in pieces:
                    started.stdin.write(piece)
                started.stdin.close()
            except BrokenPipeError:
                pass
        giver = threading.Thread(target=give)
        giver.start()
        out, err = started.stdout.read(), started.stderr.read()
        status = started.wait(timeout=120)
        giver.join()
    return Ended(status, out, err)


def try_vectors(program: str, tally: Tally) -> None:
    """Each vector in pieces gives what it gives from a file."""
    rng = random.Random(SEED)
    for trace in sorted(VECTORS.glob("*.trace")):
        text = trace.read_bytes()
        for command in ("verdict", "cert", "live"):
            wanted = run(program, [command, trace])
            for size in SIZES:
                tally.same(f"{command} {trace.name} by {size}", piped(program, [command, "-"], cuts(text, size)), wanted)
            tally.same(f"{command} {trace.name} cut at random",
                       piped(program, [command, "-"], random_cuts(text, rng)), wanted)


def try_many_entries(program: str, tally: Tally) -> None:
    """As many entries as there can be, in pieces that cut lines."""
    text = ("trace 1\nreplicas 16\n" + "\n".join(MANY) + "\n").encode()
    tally.same("262,144 reads", piped(program, ["verdict", "-"], cuts(text, 1000)), Ended(0, MANY_REPORT, b""))
    text = text.replace(b"trace 1", b"trace 2").replace(b"read", b"view")
    tally.same("262,144 views", piped(program, ["verdict", "-"], cuts(text, 1000)), Ended(0, MANY_REPORT, b""))


def endless(front: bytes):
    """A text that goes on with right lines and never ends."""
    yield front
    while True:
        yield b"0 read :\n" * 1000


def try_endless(program: str, tally: Tally) -> None:
    """A faulty line ends the program, though the stream goes on."""
    for line, cause in ((b"01 read :\n", "shape"), (b"7 read :\n", "no such replica")):
        started = time.monotonic()
        ended = piped(program, ["verdict", "-"], endless(b"trace 1\nreplicas 1\n" + line))
        tally.same(f"endless after {line!r}", ended, fault(f"line 3: {cause}"))
        tally.check(f"endless after {line!r} in time", time.monotonic() - started < 5)


def long_line(front: bytes, piece: bytes, back: bytes):
    """A text whose last line goes on for a gigabyte before its back."""
    yield front
    block = piece * (2 ** 20 // len(piece))
    for _ in range(2 ** 30 // len(block)):
        yield block
    yield back


def try_long_lines(program: str, tally: Tally) -> None:
    """A line of a gigabyte takes no more memory than one that is right, and its fault comes with its LF. One that is given up
    early takes far less processor time than one whose names are all looked at."""
    two_lines = b"trace 1\nreplicas 1\n"
    read = two_lines + b"0 read :"
    view = b"trace 2\nreplicas 1\n0 view :"
    name = b" abcdefghijklmnopqrstuvwxyz01234"
    long_word = b" abcdefghijklmnopqrstuvwxyz0123456"
    page = name * 63 + long_word + name * 63 + name[:30]  # 4,096 bytes: no read of whole pages ends with the long word
    seconds = {}
    for what, front, piece, back, words in (
            ("bytes without LF", b"", b"x", b"", "line 1: cut"),
            ("bytes", b"trace 1\n", b"x", b"\n", "line 2: replicas"),
            ("spaces", read, b" ", b"\n", "line 3: shape"),
            ("names without LF", read, name, b"", "line 3: cut"),
            ("names", read, name, b"\n", "line 3: long response"),
            ("names and a word that is none", read, name, b" !\n", "line 3: shape"),
            ("names and two spaces", read, name, b"  a\n", "line 3: shape"),
            ("names behind a space", two_lines, name, b"\n", "line 3: shape"),
            ("names behind a space without LF", two_lines, name, b"", "line 3: cut"),
            ("names behind many and a word that is none", read + name * 5000 + b" !", name, b"\n", "line 3: shape"),
            ("names behind a word of 33 bytes", read + long_word, name, b"\n", "line 3: shape"),
            ("names, and words of 33 bytes in each piece", read, page, b"\n", "line 3: shape"),
            ("names of a view", view, name, b"\n", "line 3: long response"),
            ("names of a view in version 1", view.replace(b"trace 2", b"trace 1"), name, b"\n", "line 3: shape")):
        before = processor_seconds()
        ran = measured([program, "verdict", "-"], long_line(front, piece, back), 240)
        seconds[what] = processor_seconds() - before
        tally.same(f"a gigabyte of {what}", ran.ended, fault(words))
        tally.check(f"a gigabyte of {what} in a minute", ran.seconds < 60, f"{ran.seconds:.1f} s")
        tally.check(f"a gigabyte of {what} in 100 megabytes", ran.memory < 100_000_000, f"{ran.memory / 1e6:.0f} MB")
    for what in ("bytes", "spaces", "names behind a space", "names behind many and a word that is none",
                 "names, and words of 33 bytes in each piece"):
        tally.check(f"a gigabyte of {what} is given up early", seconds[what] < seconds["names"] / 2,
                    f"{seconds[what]:.2f} s of processor, names {seconds['names']:.2f} s")


def main() -> None:
    program = program_of(sys.argv)
    tally = Tally()
    try_vectors(program, tally)
    try_many_entries(program, tally)
    try_endless(program, tally)
    try_long_lines(program, tally)
    tally.close()


if __name__ == "__main__":
    main()
