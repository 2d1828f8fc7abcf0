#!/usr/bin/env python3
"""What is wanted of the program's speed, measured on traces that are given: tables, and no verdict.

wanted.py workers PROGRAM [SETS] TRACE..          four workers beside one: sets of five runs of each, in turn
wanted.py certificates PROGRAM [RUNS] TRACE..     `cert` beyond the verdict, and `verify` beyond reading
wanted.py limits PROGRAM [RUNS] SMALL LARGE..     pairs of traces: the time for a megabyte of the second, as a share of the first's

Processor time is user and system seconds. Of each measure the least of the runs is told, and behind a slash the median. Sets are
one unless told otherwise, runs seven. Before each set, and before each trace else, a loop of fixed length runs fifteen times:
"quiet" is its slowest time as a share of its fastest, which is 1.0 on a machine where nothing else runs. The host of a virtual
machine may be busy where the machine is not; how many seconds of processor it took away is told at the end."""
import os
import statistics
import subprocess
import sys
import tempfile
import time
from pathlib import Path
from typing import NamedTuple

ROOT = Path(__file__).resolve().parent.parent
sys.path.insert(0, str(ROOT / "tests"))
from shared.program import program_of  # noqa: E402

RUNS_IN_A_SET = 5
NO_CERTIFICATE = b"no certificate\n"


class Used(NamedTuple):
    """What a run took."""

    processor: float  # user and system seconds
    wall: float
    peak: int  # bytes


def run(words: list) -> Used:
    """One run, whose output is thrown away."""
    begun = time.monotonic()
    child = subprocess.Popen(words, stdout=subprocess.DEVNULL, stderr=subprocess.DEVNULL)
    _, status, used = os.wait4(child.pid, 0)
    child.returncode = os.waitstatus_to_exitcode(status)
    return Used(used.ru_utime + used.ru_stime, time.monotonic() - begun, used.ru_maxrss * 1024)


def in_turn(commands: dict, times: int) -> dict:
    """So many runs of each command, one after the other in turn."""
    runs = {name: [] for name in commands}
    for _ in range(times):
        for name, words in commands.items():
            runs[name].append(run(words))
    return runs


def both(values: list) -> tuple:
    """The least, and the median."""
    return min(values), statistics.median(values)


def quiet() -> float:
    """The slowest of fifteen loops of fixed length, as a share of the fastest."""
    times = []
    for _ in range(15):
        begun, total = time.process_time(), 0
        for number in range(200_000):
            total += number
        times.append(time.process_time() - begun)
    return max(times) / min(times)


def taken_away() -> float:
    """Seconds of processor that the host of a virtual machine took away so far."""
    return int(Path("/proc/stat").read_text().split()[8]) / os.sysconf("SC_CLK_TCK")


def verdict(program: str, trace: str, workers: int) -> list:
    return [program, "verdict", "--workers", str(workers), trace]


def workers(program: str, sets: int, traces: list) -> None:
    """Four workers beside one."""
    for number in range(sets):
        print(f"set {number + 1}, quiet {quiet():.2f}")
        for trace in traces:
            runs = in_turn({1: verdict(program, trace, 1), 4: verdict(program, trace, 4)}, RUNS_IN_A_SET)
            processor, wall = ({w: both([getattr(it, what) for it in of]) for w, of in runs.items()} for what in ("processor", "wall"))
            shares = " ".join(f"{processor[4][i] / processor[1][i] - 1:+.1%} {wall[4][i] / wall[1][i] - 1:+.1%}" for i in (0, 1))
            print(f"{Path(trace).stem:18} processor {processor[1][0]:.3f} {processor[4][0]:.3f} wall {wall[1][0]:.3f} {wall[4][0]:.3f}"
                  f" more processor and wall, by the least and the median: {shares}", flush=True)


def beyond(runs: dict, name: str, base: str, what: str) -> tuple:
    """How much more one command took than another, by the least and by the median."""
    one, other = (both([getattr(it, what) for it in runs[each]]) for each in (name, base))
    return one[0] - other[0], one[1] - other[1]


def certificates(program: str, times: int, traces: list) -> None:
    """What a certificate costs, to make and to check."""
    with tempfile.TemporaryDirectory() as folder:
        none, cert = os.path.join(folder, "none"), os.path.join(folder, "cert")
        Path(none).write_bytes(NO_CERTIFICATE)
        for trace in traces:
            with open(cert, "wb") as out:
                subprocess.run([program, "cert", trace], stdout=out, check=False)
            alone = ["taskset", "-c", "1"]
            runs = in_turn({"verdict": verdict(program, trace, 4), "cert": [program, "cert", trace],
                            "verdict of one": verdict(program, trace, 1),
                            "verdict alone": [*alone, *verdict(program, trace, 4)], "cert alone": [*alone, program, "cert", trace],
                            "reading": [program, "verify", trace, none], "verify": [program, "verify", trace, cert]}, times)
            text = os.path.getsize(cert) / 1e6
            made, checked = beyond(runs, "cert", "verdict of one", "processor"), beyond(runs, "verify", "reading", "processor")
            four, one = beyond(runs, "cert", "verdict", "wall"), beyond(runs, "cert alone", "verdict alone", "wall")
            peaks = [max(it.peak for it in runs[name]) / 2 ** 20 for name in ("cert", "verify")]
            print(f"{Path(trace).stem:18} quiet {quiet():.2f} certificate {text:.2f} MB, so {text / 25:.3f} s are wanted:"
                  f" cert {made[0]:.3f}/{made[1]:.3f} s beyond the verdict, verify {checked[0]:.3f}/{checked[1]:.3f} s beyond reading;"
                  f" wall of cert beyond the verdict {four[0]:.3f}/{four[1]:.3f} s, on one processor {one[0]:.3f}/{one[1]:.3f}:"
                  f" {four[0] / one[0]:.2f}/{four[1] / one[1]:.2f}; {peaks[0]:.0f} and {peaks[1]:.0f} MiB", flush=True)


def limits(program: str, times: int, traces: list) -> None:
    """A megabyte near all limits beside one near those on names alone."""
    for small, large in zip(traces[::2], traces[1::2]):
        noise = quiet()
        runs = in_turn({path: verdict(program, path, 1) for path in (small, large)}, times)
        text = {path: os.path.getsize(path) for path in (small, large)}
        took = {path: both([it.processor for it in of]) for path, of in runs.items()}
        share = [took[large][i] / text[large] / (took[small][i] / text[small]) for i in (0, 1)]
        peak = max(it.peak for it in runs[large])
        print(f"{Path(small).stem:18} {took[small][0]:.3f}/{took[small][1]:.3f} s, {Path(large).stem:18} {took[large][0]:.3f}/{took[large][1]:.3f} s:"
              f" {share[0]:.2f}/{share[1]:.2f} for a megabyte, {peak / 2 ** 20:.0f} MiB, {peak / text[large]:.1f} of the text, quiet {noise:.2f}", flush=True)


KINDS = {"workers": (workers, 1), "certificates": (certificates, 7), "limits": (limits, 7)}


def main() -> None:
    words = sys.argv[1:]
    if len(words) < 3 or words[0] not in KINDS:
        sys.exit(__doc__)
    measure, times = KINDS[words[0]]
    traces = words[2:]
    if traces[0].isdigit():
        times, traces = int(traces[0]), traces[1:]
    if times == 0 or not traces:
        sys.exit(__doc__)
    begun = taken_away()
    measure(program_of([sys.argv[0], words[1]]), times, traces)
    print(f"the host took {taken_away() - begun:.2f} seconds of processor away")


if __name__ == "__main__":
    main()
