#!/usr/bin/env python3
"""live.py PROGRAM: the command `live` against `verdict`, whatever the schedule of its threads.

A hundred runs on each vector and each example: the bytes, the status and the line on standard error must be those of
`verdict`, and so they must in thirty runs on a long chain of receipts, in which each recorder waits for the one before it,
beside as many busy loops as there are processors. Then comes a short chain in which each recorder waits for the one behind it,
which is started later, with each request for memory refused in turn: the report, or that a thread or memory is missing. Last,
each thread of a session is refused in turn: by one worker these are the watcher and the recorders, and the program says that a
thread is missing; by two workers the watcher has one more at each of its four turns. It needs a C compiler (`cc`)."""
import os
import subprocess
import sys
import tempfile
from pathlib import Path

ROOT = Path(__file__).resolve().parents[2]
sys.path.insert(0, str(ROOT / "tests"))
from memory.refused_memory import THREAD, refuse_each, refused, shim  # noqa: E402
from shared.program import Tally, library_of, program_of, run  # noqa: E402

CYCLE = ROOT / "examples" / "libinfinity_three_way_cycle.trace"
CYCLE_REPLICAS = 3
TURNS = 4
REPLICAS = 16
MOST_ENTRIES = 16384
TIMES = 100
TIMES_BUSY = 30


def traces() -> list:
    """The vectors and the examples."""
    return sorted((ROOT / "tests" / "vectors").glob("*.trace")) + sorted((ROOT / "examples").glob("*.trace"))


def chain(replicas: int, entries: int) -> str:
    """A trace in which nothing is wrong: each replica begins with a receipt of the last read of the one before it."""
    lines = ["trace 1", f"replicas {replicas}"]
    for replica in range(replicas):
        reads = entries if replica == 0 else entries - 1
        if replica > 0:
            lines.append(f"{replica} recv {replica - 1} {entries if replica == 1 else entries - 1}")
        lines += [f"{replica} read :"] * reads
    return "\n".join(lines) + "\n"


def chain_back(replicas: int) -> str:
    """A trace in which nothing is wrong: each replica, the last one first, begins with a receipt of the read of the one behind it."""
    lines = ["trace 1", f"replicas {replicas}"]
    for replica in reversed(range(replicas)):
        if replica < replicas - 1:
            lines.append(f"{replica} recv {replica + 1} 1")
        lines.append(f"{replica} read :")
    return "\n".join(lines) + "\n"


def beside_busy_loops(tally: Tally, program: str, path: Path) -> None:
    """The long chain, on a machine that has other work."""
    wanted = run(program, ["verdict", str(path)])
    loops = [subprocess.Popen([sys.executable, "-c", "while True: pass"]) for _ in range(os.cpu_count() or 1)]
    try:
        for i in range(TIMES_BUSY):
            tally.same(f"live beside busy loops, run {i}", run(program, ["live", str(path)]), wanted)
    finally:
        for loop in loops:
            loop.kill()
            loop.wait()


def without_a_thread(tally: Tally, program: str, folder: str) -> None:
    """The three-way cycle, with each thread of its session refused in turn."""
    library = library_of(Path(__file__).with_name("refused_thread.c"), folder)

    def starts(words: list) -> int:
        """How many threads the command starts, at least: no run has one more."""
        number = 0
        while refused(library, folder, [program, *words, str(CYCLE)], number + 1)[1]:
            number += 1
        return number

    session = 1 + CYCLE_REPLICAS
    for number in range(1, session + 1):
        ended = refused(library, folder, [program, "live", "--workers", "1", str(CYCLE)], number)
        tally.check(f"live without its thread {number}", ended == (THREAD, True), ended)
    tally.check("threads of a session by one worker", starts(["live", "--workers", "1"]) == session)
    least = session + starts(["verdict", "--workers", "2"]) + TURNS
    tally.check(f"a session by two workers starts {least} threads", starts(["live", "--workers", "2"]) >= least)


def main() -> None:
    program = program_of(sys.argv)
    tally = Tally()
    for path in traces():
        wanted = run(program, ["verdict", str(path)])
        for workers in (["4"] * (TIMES - 2) + ["1", "64"]):
            got = run(program, ["live", "--workers", workers, str(path)])
            tally.same(f"live --workers {workers} {path.name}", got, wanted)
    text = CYCLE.read_bytes()
    tally.same("live of standard input", run(program, ["live", "-"], text), run(program, ["verdict", "-"], text))
    with tempfile.TemporaryDirectory() as folder:
        path = Path(folder, "chain.trace")
        path.write_text(chain(REPLICAS, MOST_ENTRIES))
        beside_busy_loops(tally, program, path)
        path.write_text(chain_back(REPLICAS))
        seen = refuse_each(tally, shim(folder), folder, [program, "live", str(path)])
        print(f"{seen.runs} runs of the short chain with a request refused: {seen.memory} out of memory, "
              f"{seen.thread} without a thread")
        tally.check("some thread of the short chain could not be started", seen.thread > 0)
        without_a_thread(tally, program, folder)
    tally.close()


if __name__ == "__main__":
    main()
