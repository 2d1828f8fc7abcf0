#!/usr/bin/env python3
"""with_sanitizer.py PROGRAM [MUTANTS]: the built program with AddressSanitizer, which must report nothing.

`verdict`, `verdict --json`, `cert` and `live` go over each vector, `verify` over its certificate too, `verdict` over each
malformed trace, `verify` over each forged certificate and on each malformed trace, and `verdict` over so many changed texts, 1,000
unless told otherwise. The exit status and the texts must be those of a run without the sanitizer.

The program is run as it is, with the runtime of gcc's sanitizer loaded before it, so what is seen is what passes through the C
library: a block that is freed twice or was never given out, a copy (memcpy, memmove, memset) or a read or write of a file that
leaves its block, a copy onto itself, one from or to a freed block, and blocks that nothing points to when the program ends. What
is not seen: the program's own loads and stores, and the stack. Valgrind sees those to blocks (under_valgrind.py), and the program
that `rt try` makes and runs has a sanitizer of its own. First a small C program with such faults, compiled without the sanitizer
like the program, must be reported for each fault."""
import os
import subprocess
import sys
import tempfile
from concurrent.futures import ThreadPoolExecutor
from pathlib import Path

ROOT = Path(__file__).resolve().parents[2]
sys.path.insert(0, str(ROOT / "tests"))
from memory.under_valgrind import MUTANTS, asked  # noqa: E402
from shared.last_runs import note  # noqa: E402
from shared.program import Ended, Tally, library_of, program_of, run  # noqa: E402

HERE = Path(__file__).parent
REPORTED = 99
OPTIONS = f"exitcode={REPORTED}:detect_leaks=1:detect_stack_use_after_return=1"
# The faults of faults.c, and how many bytes of a block of 16 or 64 each is given; 0 is none.
FAULTS = {0: 0, 1: 0, 2: 17, 3: 17, 4: 16, 5: 0, 6: 0, 7: 0, 8: 17}


def runtime(folder: str) -> str:
    """What is loaded before the program: gcc's runtime, and the look for lost blocks."""
    found = subprocess.run(["gcc", "-print-file-name=libasan.so"], capture_output=True, text=True, check=True).stdout.strip()
    if not os.path.isabs(found):
        sys.exit("gcc's libasan is needed: Debian's package libasan8")
    return f"{os.path.realpath(found)}:{library_of(HERE / 'leaks_at_exit.c', folder)}"


def checked(loaded: str, words: list, text: bytes = b"") -> Ended:
    """A run with the sanitizer."""
    return run("env", [f"LD_PRELOAD={loaded}", f"ASAN_OPTIONS={OPTIONS}", *words], text)


def try_faults(tally: Tally, loaded: str, folder: str) -> None:
    """The small program's faults are reported, and none where it has none."""
    faulty = os.path.join(folder, "faults")
    subprocess.run(["cc", "-O1", "-w", "-fno-builtin", "-o", faulty, str(HERE / "faults.c")], check=True)
    for fault, size in FAULTS.items():
        got = checked(loaded, [faulty, str(fault), str(size)])
        is_right = got.status == REPORTED and b"Sanitizer" in got.err if fault else got == Ended(0, b"", b"")
        tally.check(f"fault {fault} of faults.c", is_right, got)


def main() -> None:
    many = int(sys.argv[2]) if len(sys.argv) > 2 else MUTANTS
    program = program_of(sys.argv[:2])
    tally = Tally()
    with tempfile.TemporaryDirectory() as folder, ThreadPoolExecutor(os.cpu_count()) as pool:
        loaded = runtime(folder)
        try_faults(tally, loaded, folder)

        def tried(case: tuple) -> tuple:
            words, text = case
            return words, text, checked(loaded, [program, *words], text), run(program, words, text)
        for words, text, got, wanted in pool.map(tried, asked(program, folder, many, has_live=True)):
            tally.same(f"{words} on {text[:300]!r}", got, wanted)
    if many >= MUTANTS:
        note("tests/memory/with_sanitizer.py", tally.said(), program)
    tally.close()


if __name__ == "__main__":
    main()
