#!/usr/bin/env python3
"""refused_memory.py PROGRAM: each command on each vector, with one request for memory refused, for each request.

The first request is refused, then the second, and so on, until several runs in turn make no such request. The program must
answer what it answers with ample memory, or that it is out of memory; `live`, which is tried on a few vectors, also that a
thread couldn't be started. It needs a C compiler (`cc`)."""
import os
import sys
import tempfile
from pathlib import Path
from typing import Callable, NamedTuple

ROOT = Path(__file__).resolve().parents[2]
sys.path.insert(0, str(ROOT / "tests"))
from shared.last_runs import note  # noqa: E402
from shared.program import Ended, Tally, library_of, program_of, run  # noqa: E402

# When so many runs in turn make no such request, the program makes no more. (How many it makes depends on its threads.)
UNMET = 5
HERE = Path(__file__).parent
MEMORY = Ended(3, b"", b"finder: memory\n")
THREAD = Ended(2, b"", b"finder: thread\n")
REHEARSED = ["all-three-way-cycle", "all-opposite-pair", "all-contents"]


def shim(folder: str) -> str:
    """The library that refuses, built."""
    return library_of(HERE / "refused_memory.c", folder)


class Refused(NamedTuple):
    """How many runs had a request refused, how many of them said that they were out of memory, and how many that a thread
    couldn't be started."""

    runs: int
    memory: int
    thread: int


def refused(library: str, folder: str, words: list, request: int) -> tuple[Ended, bool]:
    """A run, and whether there was such a request."""
    told = os.path.join(folder, "told")
    if os.path.exists(told):
        os.remove(told)
    got = run("env", [f"LD_PRELOAD={library}", f"REFUSED_TOLD={told}", f"REFUSED_REQUEST={request}", *words])
    return got, os.path.exists(told)


class Command:
    """A command of the program, which is run again and again with one request refused, and what was seen."""

    def __init__(self, tally: Tally, library: str, folder: str, words: list):
        self.tally, self.library, self.folder, self.words = tally, library, folder, words
        self.ample = run(words[0], words[1:])
        if self.ample.status not in (0, 1):
            sys.exit(f"no answer to {words[1:]}: {self.ample}")
        self.allowed = (self.ample, MEMORY, THREAD) if words[1] == "live" else (self.ample, MEMORY)
        self.seen = Refused(0, 0, 0)

    def refuse(self, request: int) -> bool:
        """A run that must answer what it may; whether it made so many requests."""
        got, was_refused = refused(self.library, self.folder, self.words, request)
        right = got in self.allowed if was_refused else got == self.ample
        self.tally.check(f"{self.words[1:]}, request {request}", right, got)
        if was_refused:
            runs, memory, thread = self.seen
            self.seen = Refused(runs + 1, memory + (got == MEMORY), thread + (got == THREAD))
        return was_refused

    def ended(self) -> Refused:
        """What was seen, once all runs were made."""
        self.tally.check(f"some request of {self.words[1:]} was refused, and want of memory told", self.seen.memory > 0)
        return self.seen


def refuse_each(tally: Tally, library: str, folder: str, words: list) -> Refused:
    """Refuses one request after the other."""
    command, last, request = Command(tally, library, folder, words), 0, 0
    while request < last + UNMET:
        request += 1
        last = request if command.refuse(request) else last
    return command.ended()


def refuse_few(tally: Tally, library: str, folder: str, words: list) -> Refused:
    """Refuses the first request, the last, the one in the middle, and those by which the last is found."""
    command = Command(tally, library, folder, words)
    few(command.refuse)
    return command.ended()


def few(refuse: Callable[[int], bool]) -> int:
    """Refuses the first request, the last, the one in the middle, and those by which the last is found; answers the last. Where
    threads make more or fewer requests each time it is one of the last."""
    more = 1
    while refuse(more):
        more *= 2
    low, high = more // 2, more
    while low + 1 < high:
        middle = (low + high) // 2
        low, high = (middle, high) if refuse(middle) else (low, middle)
    refuse((1 + low) // 2)
    return low


def commands(trace: Path) -> list:
    """The words of each command on the trace."""
    cert = trace.with_suffix(".cert2")
    told = [["verdict", str(trace)], ["verdict", "--json", str(trace)], ["cert", str(trace)]]
    if trace.stem in REHEARSED:
        told.append(["live", str(trace)])
    return told + ([["verify", str(trace), str(cert)]] if cert.exists() else [])


def main() -> None:
    program = program_of(sys.argv)
    tally = Tally()
    seen = []
    with tempfile.TemporaryDirectory() as folder:
        library = shim(folder)
        for path in sorted((ROOT / "tests" / "vectors").glob("*.trace")):
            for words in commands(path):
                seen.append(refuse_each(tally, library, folder, [program, *words]))
    runs, memory, thread = (sum(counts) for counts in zip(*seen))
    print(f"{runs:,} runs with a request refused: {memory:,} out of memory, {thread:,} without a thread; "
          f"at most {max(seen).runs:,} for one answer")
    note("tests/memory/refused_memory.py", tally.said(), program)
    tally.close()


if __name__ == "__main__":
    main()
