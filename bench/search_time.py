#!/usr/bin/env python3
"""How long do the workers search? `search_time.py PROGRAM TRACE..` prints, for each trace, the seconds that the workers' part of the run takes
with 1, 2 and 4 workers, best of five, and the seconds of the whole run beside them.

The workers' part is the call that runs the workers in threads, from its beginning to its return in the calling thread: it
is neither reading nor the check of contents, and not the search for the least cycle, which one thread makes afterwards. It
is timed with breakpoints, so this script needs `gdb`, and it is no part of the gate."""

import re
import subprocess
import sys
import tempfile
import time
from pathlib import Path

COUNTS = (1, 2, 4)
RUNS = 5

# The runtime's function in which each thread, the calling one too, runs its workers.
FUNCTION = re.compile(r"std::thread::fork::chunks_from::<[^>]*>")

SCRIPT = """
set pagination off
set print thread-events off
python
import time
begun = []

class Returned(gdb.FinishBreakpoint):
    def stop(self):
        print("WORKED %.4f" % (time.monotonic() - begun[0]))
        return False

class Begun(gdb.Breakpoint):
    def stop(self):
        begun.append(time.monotonic())
        Returned(gdb.newest_frame(), internal=True)
        return False
end
starti
python
Begun("'FUNCTION'")
end
continue
"""


def function_of(program: str) -> str:
    """The name of that function in the program."""
    done = subprocess.run(
        ["gdb", "-batch", "-ex", "info functions chunks_from", program], capture_output=True, text=True, check=True
    )
    found = set(FUNCTION.findall(done.stdout))
    if len(found) != 1:
        sys.exit(f"{program}: {len(found)} functions with the name of what runs the workers, and not one")
    return found.pop()


def worked(program: str, script: Path, workers: int, trace: str) -> float:
    """The seconds from when the first thread begins to work until the last one ends."""
    words = ["gdb", "-batch", "-x", str(script), "--args", program, "verdict", "--workers", str(workers), trace]
    done = subprocess.run(words, capture_output=True, text=True, check=True)
    ends = re.findall(r"^WORKED ([\d.]+)$", done.stdout, re.MULTILINE)
    if not ends:
        sys.exit(f"{trace}: no search")
    return max(map(float, ends))


def whole(program: str, workers: int, trace: str) -> float:
    """The seconds of a run without breakpoints."""
    start = time.monotonic()
    subprocess.run([program, "verdict", "--workers", str(workers), trace], stdout=subprocess.DEVNULL, check=False)
    return time.monotonic() - start


def main() -> None:
    program, traces = sys.argv[1], sys.argv[2:]
    with tempfile.TemporaryDirectory(prefix="search_time_") as folder:
        script = Path(folder) / "script"
        script.write_text(SCRIPT.replace("FUNCTION", function_of(program)), encoding="utf-8")
        for trace in traces:
            alone = None
            for workers in COUNTS:
                search = min(worked(program, script, workers, trace) for _ in range(RUNS))
                run = min(whole(program, workers, trace) for _ in range(RUNS))
                alone = alone or search
                print(f"{trace}: {workers} workers search {search:.3f} s ({search / alone:.2f}), whole run {run:.3f} s", flush=True)


if __name__ == "__main__":
    main()
