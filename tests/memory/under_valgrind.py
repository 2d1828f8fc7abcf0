#!/usr/bin/env python3
"""under_valgrind.py PROGRAM [MUTANTS]: the built program under Debian's valgrind, which must report nothing.

`verdict` and `cert` go over each vector, `verify` over its certificate too (not `live`, whose threads wait for one another for
minutes under valgrind), `verdict` over each malformed trace, `verify` over each forged certificate and on each malformed trace, and
`verdict` over so many changed texts, 1,000 unless told otherwise. The four calls of libdomepeeler go over all these traces and texts in one process,
with rooms that are just long enough. The exit status and the texts must be those of a run without valgrind. It takes about a second of processor for
each run, on all processors at once."""
import os
import random
import subprocess
import sys
import tempfile
from concurrent.futures import ThreadPoolExecutor
from pathlib import Path

ROOT = Path(__file__).resolve().parents[2]
sys.path.insert(0, str(ROOT / "tests"))
from shared.last_runs import note  # noqa: E402
from shared.mutants import edited, mutated, some_bytes  # noqa: E402
from shared.program import Tally, need, program_of, run  # noqa: E402

VECTORS = ROOT / "tests" / "vectors"
SEED = 1945
MUTANTS = 1000
VALGRIND = ["-q", "--fair-sched=yes", "--leak-check=full", "--errors-for-leak-kinds=definite,indirect", "--error-exitcode=99"]


def changed_texts(many: int) -> list[bytes]:
    rnd = random.Random(SEED)
    traces = [path.read_bytes() for path in sorted(VECTORS.glob("*.trace")) if path.stat().st_size < 20_000]
    made = []
    for _ in range(many):
        text = rnd.choice(traces)
        for _ in range(rnd.randint(1, 3)):
            text = edited(rnd, text) if rnd.random() < 0.5 and text.count(b"\n") > 2 else mutated(rnd, text, rnd.choice(traces))
        made.append(text if rnd.random() < 0.8 else some_bytes(rnd))
    return made


def asked(program: str, folder: str, many: int, has_live: bool = False):
    """What is run: words and standard input."""
    for trace in sorted(VECTORS.glob("*.trace")):
        for words in (["verdict"], ["verdict", "--json"], ["cert"], *([["live"]] if has_live else [])):
            yield [*words, str(trace)], b""
        made = run(program, ["cert", str(trace)])
        if made.status < 2:
            path = os.path.join(folder, f"{trace.stem}.cert")
            Path(path).write_bytes(made.out)
            yield ["verify", str(trace), path], b""
    for trace in sorted(VECTORS.glob("malformed/*.trace")):
        yield ["verdict", str(trace)], b""
        yield ["verify", str(trace), str(VECTORS / "all-three-way-cycle.cert2")], b""
    for cert in sorted(VECTORS.glob("forged/*.cert")):
        yield ["verify", str(cert.with_suffix(".trace")), str(cert)], b""
    for text in changed_texts(many):
        yield ["verdict", "-"], text


def by_library(tally: Tally, folder: str, many: int) -> None:
    """The calls of the library."""
    subprocess.run([str(ROOT / "tools" / "library"), folder], check=True)
    calls = os.path.join(folder, "calls")
    subprocess.run(["cc", "-g", "-Wall", "-Wextra", "-Werror", str(ROOT / "tests" / "memory" / "library_calls.c"), os.path.join(folder, "libdomepeeler.a"), "-o", calls],
                   check=True)
    files = [str(trace) for pattern in ("*.trace", "malformed/*.trace") for trace in sorted(VECTORS.glob(pattern))]
    for number, text in enumerate(changed_texts(many)):
        files.append(os.path.join(folder, f"{number}.changed"))
        Path(files[-1]).write_bytes(text)
    parts = [files[place::os.cpu_count()] for place in range(os.cpu_count())]
    with ThreadPoolExecutor(os.cpu_count()) as pool:
        words = [[*VALGRIND, calls, *part] for part in parts]
        for part, done in zip(parts, pool.map(lambda given: subprocess.run(["valgrind", *given], capture_output=True), words)):
            tally.check("the library", (done.returncode, done.stdout, done.stderr) == (0, f"{len(part)} files\n".encode(), b""), done)


def main() -> None:
    many = int(sys.argv[2]) if len(sys.argv) > 2 else MUTANTS
    program = program_of(sys.argv[:2])
    need("valgrind", "valgrind")
    need("cc", "gcc")
    tally = Tally()
    with tempfile.TemporaryDirectory() as folder, ThreadPoolExecutor(os.cpu_count()) as pool:
        def tried(case) -> tuple:
            words, text = case
            return words, text, run("valgrind", [*VALGRIND, program, *words], text), run(program, words, text)
        for words, text, got, wanted in pool.map(tried, asked(program, folder, many)):
            tally.same(f"{words} on {text[:300]!r}", got, wanted)
        by_library(tally, folder, many)
    if many >= MUTANTS:
        note("tests/memory/under_valgrind.py", tally.said(), program)
    tally.close()


if __name__ == "__main__":
    main()
