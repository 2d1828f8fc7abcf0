#!/usr/bin/env python3
"""benchmark.py PROGRAM [RUNS [SIZE..]]: seconds, MB/s and peak memory of the whole program, and how its time grows.
benchmark.py PROGRAM --beside OTHER [RUNS] TRACE..: the verdict's processor time and peak memory beside another program's.

The traces are those of traces.py: XL is near the limits on names, XXL near all. Sizes are M, L and XL, and runs ten, unless told otherwise. Of
refused recordings the certificate is made and checked too, once; at XL, where that takes minutes, only where XL alone is
asked for. An accepted recording is replayed by `live` too. The wide ring, where the search takes the most of the time, is judged with 1, 2 and 4 workers. It is no timed
test: what counts as passed is that each trace has the verdict that it is made for, and that the checker says yes. What is
required of time and memory stands beside the measures at XL, for a quiet machine with four processors.

Beside another program, an older one say, both judge the same traces in turn, five times each unless told otherwise, with one
worker and with four: user and system seconds, the least of all runs, and as a share of the other's. The reports must be the
same."""
import math
import os
import subprocess
import sys
import tempfile
import time
from pathlib import Path
from typing import NamedTuple

ROOT = Path(__file__).resolve().parent.parent
sys.path.insert(0, str(ROOT / "tests"))
from shared.program import Tally, program_of  # noqa: E402
from shared.traces import FAMILIES, SIZES  # noqa: E402

TRACES = ROOT / "tests" / "shared" / "traces.py"

# Near the limits: at most so many seconds, and so many MB of memory.
REQUIRED = {"accepted": (3, 400), "ring": (20, 400)}
# Where the search takes the most of the time: four workers need less than this share of one worker's time.
SEARCHED, SHARE = "wide_ring", 0.35


class Measured(NamedTuple):
    """A run, or of some runs the first's line, the least time and the largest peak."""

    line: str  # of the verdict
    seconds: float
    peak: int  # bytes; a child's begins with what this process holds, so a smaller one is not told


def once(program: str, words: list, out: str) -> Measured:
    """One run, which ends before this returns, and the second line of what it has written to the file, or its only one."""
    start = time.monotonic()
    child = os.posix_spawn(program, [program, *words], os.environ,
                           file_actions=[(os.POSIX_SPAWN_OPEN, 1, out, os.O_WRONLY | os.O_CREAT | os.O_TRUNC, 0o600)])
    _, _, used = os.wait4(child, 0)
    seconds = time.monotonic() - start
    with open(out, "rb") as written:
        lines = [written.readline().decode().rstrip("\n") for _ in range(2)]
    return Measured(lines[1] or lines[0], seconds, used.ru_maxrss * 1024)


def make(path: str, family: str, size: str) -> None:
    """A trace in a file, made by a process of its own: a child's peak counts what its parent holds."""
    with open(path, "wb") as out:
        subprocess.run([sys.executable, str(TRACES), family, size], stdout=out, check=True)


def judged(program: str, path: str, workers: int) -> Measured:
    return once(program, ["verdict", "--workers", str(workers), path], path + ".out")


def best(runs: list) -> Measured:
    return Measured(runs[0].line, min(run.seconds for run in runs), max(run.peak for run in runs))


def measured(program: str, path: str, times: int) -> Measured:
    return best([judged(program, path, 4) for _ in range(times)])


def by_workers(tally: Tally, program: str, size: str, path: str, times: int) -> None:
    """The whole program's time with fewer and more workers, in turn. With more than one, contents are checked in several threads."""
    runs, reports = {1: [], 2: [], 4: []}, set()
    for _ in range(times):
        for workers, of_these in runs.items():
            of_these.append(judged(program, path, workers))
            with open(path + ".out", "rb") as written:
                reports.add(written.read())
    alone = best(runs[1]).seconds
    for workers, of_these in runs.items():
        required = f", required: under {SHARE}" if workers == 4 and size == "XL" else ""
        seconds = best(of_these).seconds
        print(f"{size + ' ' + SEARCHED:16} workers {workers}: {seconds:.3f} s, {seconds / alone:.2f} of one worker's{required}", flush=True)
    tally.check(f"{size} {SEARCHED}: the same report with any number of workers", len(reports) == 1)


def certified(tally: Tally, program: str, name: str, path: str) -> None:
    """The certificate of a refused recording, made and checked."""
    cert = path + ".cert"
    made = once(program, ["cert", path], cert)
    said = once(program, ["verify", path, cert], path + ".out")
    size = os.path.getsize(cert)
    print(f"{name:16} certificate {size / 1e6:.1f} MB, made in {made.seconds:.3f} s with {made.peak / 1e6:.1f} MB,"
          f" checked in {said.seconds:.3f} s with {said.peak / 1e6:.1f} MB", flush=True)
    tally.check(f"{name}: certificate", made.line.startswith("refused ") and said.line == "yes refused", (made.line, said.line))


def rehearsed(tally: Tally, program: str, name: str, path: str, times: int) -> None:
    """An accepted recording's `live`: its replicas replayed by threads, and judged."""
    got = best([once(program, ["live", path], path + ".live") for _ in range(times)])
    print(f"{name:16} live in {got.seconds:.3f} s with {got.peak / 1e6:.1f} MB", flush=True)
    tally.check(f"{name}: live", got.line == "accepted", got.line)


def requirement(family: str, size: str) -> str:
    if size != "XL" or family not in REQUIRED:
        return ""
    seconds, peak = REQUIRED[family]
    return f"required: under {seconds} s, under {peak} MB"


def growth(grown: list) -> str:
    """The power of the text's length with which time grows, from each size to the next."""
    powers = [math.log(slow / fast) / math.log(large / small) for (small, fast), (large, slow) in zip(grown, grown[1:])]
    return "time grows with the text to the power " + ", then ".join(f"{power:.2f}" for power in powers)


class Used(NamedTuple):
    """What a run took, or of some runs the least time and the largest peak."""

    processor: float  # user and system seconds
    seconds: float
    peak: int


def used_once(program: str, path: str, workers: int) -> tuple:
    """One verdict: what it took, and the report."""
    with tempfile.TemporaryFile() as out:
        start = time.monotonic()
        child = subprocess.Popen([program, "verdict", "--workers", str(workers), path], stdout=out)
        _, child.returncode, used = os.wait4(child.pid, 0)
        seconds = time.monotonic() - start
        out.seek(0)
        return Used(used.ru_utime + used.ru_stime, seconds, used.ru_maxrss * 1024), out.read()


def least(runs: list) -> Used:
    return Used(min(run.processor for run in runs), min(run.seconds for run in runs), max(run.peak for run in runs))


def beside(tally: Tally, program: str, other: str, times: int, paths: list) -> None:
    """Two programs on the same traces, in turn."""
    print(f"{'trace':20} {'workers':>7} {'other s':>8} {'s':>8} {'share':>6} {'other wall':>10} {'wall':>8} {'other MB':>8} {'MB':>8}")
    for path in paths:
        for workers in 1, 4:
            runs, reports = {other: [], program: []}, set()
            for _ in range(times):
                for each, of_these in runs.items():
                    used, report = used_once(each, path, workers)
                    of_these.append(used)
                    reports.add(report)
            old, new = least(runs[other]), least(runs[program])
            print(f"{Path(path).stem:20} {workers:7} {old.processor:8.3f} {new.processor:8.3f} {new.processor / old.processor:6.2f} {old.seconds:10.3f}"
                  f" {new.seconds:8.3f} {old.peak / 1e6:8.1f} {new.peak / 1e6:8.1f}", flush=True)
            tally.check(f"{path}, {workers} workers: the same report", len(reports) == 1)


def words_beside() -> tuple:
    """The other program, how many runs, and the traces."""
    words = sys.argv[3:]
    times = int(words.pop(1)) if len(words) > 1 and words[1].isdigit() else 5
    if len(words) < 2 or times == 0:
        sys.exit("usage: benchmark.py PROGRAM --beside OTHER [RUNS] TRACE..")
    return program_of(["benchmark.py", words[0]]), times, words[1:]


def words_of() -> tuple:
    """The script's words behind the program: how many runs, and the sizes."""
    words = sys.argv[2:]
    sizes = words[1:] or ["M", "L", "XL"]
    if not all(size in SIZES for size in sizes) or (words and not words[0].isdigit()) or words[:1] == ["0"]:
        sys.exit(f"usage: benchmark.py PROGRAM [RUNS [SIZE..]], sizes {' '.join(SIZES)}")
    return int(words[0]) if words else 10, sizes


def main() -> None:
    program = program_of(sys.argv[:2])
    tally = Tally()
    if sys.argv[2:3] == ["--beside"]:
        beside(tally, program, *words_beside())
        tally.close()
    times, sizes = words_of()
    print(f"{'trace':16} {'verdict':>11} {'bytes':>10} {'seconds':>8} {'MB/s':>7} {'peak MB':>8} {'peak/text':>9}")
    with tempfile.TemporaryDirectory() as folder:
        path = os.path.join(folder, "trace")
        for name, family in FAMILIES.items():
            grown = []
            for size in sizes:
                make(path, name, size)
                length = os.path.getsize(path)
                got = measured(program, path, times)
                verdict = family.verdict(SIZES[size].replicas)
                print(f"{size + ' ' + name:16} {verdict:>11} {length:10} {got.seconds:8.3f} {length / 1e6 / got.seconds:7.1f}"
                      f" {got.peak / 1e6:8.1f} {got.peak / length:9.2f} {requirement(name, size)}".rstrip(), flush=True)
                holds = got.line == verdict or (verdict == "doubled" and got.line.startswith("doubled "))
                tally.check(f"{size} {name}", holds, got.line)
                grown.append((length, got.seconds))
                if verdict == "accepted":
                    rehearsed(tally, program, f"{size} {name}", path, times)
                if name == SEARCHED:
                    by_workers(tally, program, size, path, times)
                if verdict.startswith("refused ") and (size != "XL" or sizes == ["XL"]):
                    certified(tally, program, f"{size} {name}", path)
            if len(grown) > 1:
                print(f"{name}: {growth(grown)}")
    tally.close()


if __name__ == "__main__":
    main()
