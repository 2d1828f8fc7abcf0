#!/usr/bin/env python3
"""refused_memory_of_tests.py [CRATE..]: each test of the crates, all unless some are named, with one request for memory refused.

It takes the test programs that `rt ci` has built in this repository, and runs each test with its first request refused, then
with its second, and so on; of a test with more than MOST requests, with so many that are spread over all. Each test must
pass all the same: what finds no memory is tried again, or answers so. But where the one request of a thread's start is
refused no two searches can run at once, and the tests that see that they do must fail. It needs a C compiler (`cc`), and is
no part of the gate. Threads make a test's requests come in another order each time, so another run may refuse others."""
import os
import subprocess
import sys
import tempfile
from pathlib import Path

ROOT = Path(__file__).resolve().parents[2]
sys.path.insert(0, str(ROOT / "tests"))
from memory.refused_memory import few, shim  # noqa: E402
from shared.last_runs import note  # noqa: E402
from shared.program import Tally  # noqa: E402

CRATES = ROOT / "crates"
MOST = 300
SECONDS = 120
# Tests that see two searches at once: one request less may be refused.
AT_ONCE = ("two_searches_at_once", "a_search_held_until_the_others_have_ended", "looks_of_two_workers_are_added",
           "the_gate_of_a_certificate_is_called_round_its_searches")

# Tests that want one rehearsal to succeed, which any refused request may stop.
ONE_TRY = ("two_recorders_run_at_once",)


def tests_of(program: Path) -> list:
    """The names of the program's tests."""
    listed = subprocess.run([program, "--list"], capture_output=True, text=True, check=True).stdout
    return [line.removesuffix(": test") for line in listed.splitlines() if line.endswith(": test")]


class Test:
    """A test, which can be run with one request refused."""

    def __init__(self, library: str, folder: str, program: Path, name: str):
        self.words = [str(program), name]
        self.told = os.path.join(folder, "told")
        self.given = {**os.environ, "LD_PRELOAD": library, "REFUSED_TOLD": self.told}

    def run(self, request: int) -> tuple:
        """The exit status, and whether there was such a request."""
        if os.path.exists(self.told):
            os.remove(self.told)
        given = {**self.given, "REFUSED_REQUEST": str(request)}
        done = subprocess.run(self.words, env=given, capture_output=True, timeout=SECONDS, check=False)
        return done.returncode, os.path.exists(self.told)

    def requests(self) -> int:
        """How many requests it makes, or some fewer."""
        return few(lambda request: self.run(request)[1])


def chosen(requests: int) -> list:
    """The requests to be refused, one after the other."""
    if requests <= MOST:
        return list(range(1, requests + 1))
    return sorted({1 + i * (requests - 1) // (MOST - 1) for i in range(MOST)})


def refuse(test: Test, requests: list) -> list:
    """The requests that were refused, each with the exit status."""
    runs = [(request, *test.run(request)) for request in requests]
    return [(request, status) for request, status, was_refused in runs if was_refused]


def main() -> None:
    named = sys.argv[1:]
    programs = sorted(path for path in CRATES.glob("*/out/*_tests") if not named or path.parts[-3] in named)
    if not programs:
        sys.exit("no test program: `rt ci` builds them")
    tally, together = Tally(), 0
    with tempfile.TemporaryDirectory() as folder:
        library = shim(folder)
        for program in programs:
            for name in tests_of(program):
                test = Test(library, folder, program, name)
                requests = test.requests()
                refused = refuse(test, chosen(requests))
                together += len(refused)
                stopped = [request for request, status in refused if status != 0]
                may_stop = len(refused) if name.endswith(ONE_TRY) else 1 if name.endswith(AT_ONCE) else 0
                tally.check(f"{program.parts[-3]} {name}", len(stopped) <= may_stop, stopped)
                print(f"{program.parts[-3]} {name}: {len(refused)} of {requests} requests refused, "
                      f"{len(refused) - len(stopped)} times it passed", flush=True)
    print(f"{together:,} requests refused")
    tally.check("requests were refused", together > 0)
    if not named:
        note("tests/memory/refused_memory_of_tests.py", f"{tally.said()}, {together:,} requests refused")
    tally.close()


if __name__ == "__main__":
    main()
