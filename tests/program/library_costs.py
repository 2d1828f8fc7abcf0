#!/usr/bin/env python3
"""library_costs.py PROGRAM: what a verdict costs by libdomepeeler, and by a process of the program for each: the table of docs/performance.md. Least of
five runs; no part of the gate."""
from __future__ import annotations

import os
import random
import shutil
import subprocess
import sys
import tempfile
import time
from pathlib import Path

ROOT = Path(__file__).resolve().parents[2]
sys.path[:0] = [str(ROOT / "tests"), str(ROOT / "tests" / "program"), str(ROOT / "recorders")]
from library import Library  # noqa: E402
from shared.program import Quick, program_of  # noqa: E402
from shared.sessions import session as trace_of  # noqa: E402

RUNS = 5
LOOP = r"""
#include "domepeeler_judge.h"
#include <stdio.h>
#include <stdlib.h>
#include <time.h>

int main(int count, char **words) {
    static char trace[1 << 20], report[1 << 20];
    size_t length = fread(trace, 1, sizeof trace, stdin);
    long turns = atol(words[1]);
    struct timespec first, last;
    clock_gettime(CLOCK_MONOTONIC, &first);
    for (long i = 0; i < turns; i++)
        if (domepeeler_verdict(trace, length, 0, report, sizeof report).status > 1) return count;
    clock_gettime(CLOCK_MONOTONIC, &last);
    printf("%.9f\n", (double)(last.tv_sec - first.tv_sec) / (double)turns + (double)(last.tv_nsec - first.tv_nsec) / 1e9 / (double)turns);
    return 0;
}
"""


# In the library's place: a process for each session.
PROCESS = r"""
#include "domepeeler_judge.h"
#include <stdio.h>
#include <stdlib.h>
#include <sys/wait.h>

struct domepeeler_end domepeeler_verdict(const char *trace, size_t length, uint32_t json, char *output, size_t room) {
    char command[512];
    FILE *program = (snprintf(command, sizeof command, "%s verdict - > /dev/null", getenv("DOMEPEELER")), popen(command, "w"));
    fwrite(trace, 1, length, program);
    struct domepeeler_end end = {(uint32_t)WEXITSTATUS(pclose(program)), 0, 0};
    return (void)json, (void)output, (void)room, end;
}
"""


def executed(folder: Path, name: str, runs: int, program: str) -> float:
    """How many sessions a second a fuzzer had judged."""
    begin = time.perf_counter()
    subprocess.run([f"./{name}", "-seed=1", f"-runs={runs}"], cwd=folder, env=os.environ | {"DOMEPEELER": program}, check=True, stderr=subprocess.DEVNULL)
    return runs / (time.perf_counter() - begin)


def session(judge) -> str:
    """17 inserts by three replicas at the front, each shown everywhere, and judged after each of the 51 calls that take a list."""
    from domepeeler import Recording

    recording, lists = Recording(3, stop=judge), [[], [], []]
    for i in range(17):
        author, name = i % 3, f"a{i}"
        lists[author] = [name, *lists[author]]
        n = recording.insert(author, name, 0, lists[author])
        for other in range(3):
            if other != author:
                recording.received(other, author, n)
                lists[other] = [name, *lists[other]]
                recording.read(other, lists[other])
    return recording.text()


def least(call, turns: int) -> float:
    """The least seconds a turn of five runs."""
    seconds = []
    for _ in range(RUNS):
        begin = time.perf_counter()
        for _ in range(turns):
            call()
        seconds.append((time.perf_counter() - begin) / turns)
    return min(seconds)


def main() -> None:
    program = program_of(sys.argv)
    five = (ROOT / "examples" / "prosemirror_text_changes_places.trace").read_bytes()
    with tempfile.TemporaryDirectory() as name:
        folder = Path(name)
        subprocess.run([str(ROOT / "tools" / "library"), name], check=True)
        (folder / "loop.c").write_text(LOOP)
        subprocess.run(["cc", "-O2", "-I", str(ROOT / "recorders"), str(folder / "loop.c"), str(folder / "libdomepeeler.a"), "-o", str(folder / "loop")], check=True)
        loop = min(float(subprocess.run([str(folder / "loop"), "100000"], input=five, capture_output=True, check=True).stdout) for _ in range(RUNS))
        quick = Quick(program)
        run = least(lambda: quick.run(["verdict", "-"], five), 200)
        print(f"| README's session of six operations, a loop in C | {loop * 1e6:.1f} µs | {run * 1e6:.0f} µs |")
        library = Library(folder / "libdomepeeler.so.0")
        assert library.run(["verdict", "-"], five)[0] == quick.run(["verdict", "-"], five)
        os.environ["DOMEPEELER"] = program
        by_program = least(lambda: session(True), 1)
        del os.environ["DOMEPEELER"]
        os.environ["DOMEPEELER_LIBRARY"] = str(folder / "libdomepeeler.so.0")
        by_library, alone = least(lambda: session(True), 10), least(lambda: session(False), 10)
        shutil.copy(ROOT / "recorders" / "domepeeler.rs", folder)
        shutil.copy(ROOT / "recorders" / "domepeeler_native.rs", folder)
        shutil.copy(ROOT / "tests" / "program" / "native.rs", folder)
        subprocess.run(["rustc", "-O", "--edition", "2021", "native.rs", "-L", ".", "-o", "native"], cwd=folder, check=True)
        bare = {key: value for key, value in os.environ.items() if key != "DOMEPEELER"}
        rates = [[float(rate) for rate in subprocess.run(["./native", "x"], cwd=folder, env=bare, capture_output=True, text=True, check=True).stdout.split()[-2:]]
                 for _ in range(RUNS)]
        alone_in_rust, judged_in_rust = (max(column) for column in zip(*rates))
        (folder / "process.c").write_text(PROCESS)
        fuzzer = ["clang", "-O2", "-g", "-fsanitize=fuzzer", "-I", str(ROOT / "recorders"), "-DREPAIRED", str(ROOT / "examples" / "fuzz" / "fuzz.c")]
        subprocess.run([*fuzzer, str(folder / "libdomepeeler.a"), "-o", str(folder / "fuzz")], check=True)
        subprocess.run([*fuzzer, str(folder / "process.c"), "-o", str(folder / "fuzz_process")], check=True)
        executions = [executed(folder, "fuzz", 100_000, program), executed(folder, "fuzz_process", 1_000, program)]
        traces = folder / "traces"
        traces.mkdir()
        rnd = random.Random(1)
        count = 0
        while count < 2_000:
            lines = trace_of(rnd, False).splitlines()
            if len(lines) >= 11:
                (traces / f"{count}.trace").write_text("\n".join(lines[:11]) + "\n")
                count += 1
        prefix = folder / "prefix"
        subprocess.run([str(ROOT / "tools" / "install"), str(prefix)], check=True, stdout=subprocess.DEVNULL, env=bare | {"DOMEPEELER": program})
        many = [str(prefix / "bin" / "domepeeler-judge-many"), "--jobs", "1", str(traces)]
        quiet = {"stdout": subprocess.DEVNULL, "env": bare | {"PATH": f"{prefix}/bin:{bare['PATH']}"}}
        here, started = (least(lambda more=more: subprocess.run([*many, *more], **quiet), 1) for more in ([], ["--program", program]))
        print(f"| Rust, five changes a session (recorded alone {alone_in_rust:.0f}), sessions a second | {judged_in_rust:.0f} | |")
        print(f"| `examples/fuzz`, sessions a second | {executions[0]:.0f} | {executions[1]:.0f} |")
        print(f"| `judge_many --jobs 1`, 2,000 traces of 11 lines | {here:.2f} s | {started:.2f} s |")
        print(f"| 17 inserts by three replicas, judged 51 times, in Python (recorded alone {alone * 1e3:.1f} ms) | {by_library * 1e3:.1f} ms | {by_program * 1e3:.0f} ms |")


if __name__ == "__main__":
    main()
