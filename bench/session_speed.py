#!/usr/bin/env python3
"""session_speed.py: entries a second that 1, 2, 4 and 16 threads record in one session, and what one snapshot takes near
the limits.

It builds the program in session_speed/ beside the crates, in a copy of the repository with the work of earlier checks, which
takes some minutes, and runs it. Each thread records 4,096 reads, a quarter of the entries that a replica may have: with no name, and with 64
names of 32 bytes each, which makes 262,144 names a replica, the limit. Then one snapshot is made of all that. A run is
repeated, and the best counts; seconds of the processor, of all threads, are those of a whole run, responses made and
everything freed. It is no part of the gate."""
import os
import resource
import shutil
import subprocess
import sys
import tempfile
import time
from pathlib import Path

ROOT = Path(__file__).resolve().parent.parent
NAME = "session_speed"
RUNS = 10


def built(folder: Path) -> Path:
    """The program, built in a copy of the repository's crates."""
    shutil.copytree(ROOT / "crates", folder / "crates")
    shutil.copy(ROOT / "HANDLES", folder / "HANDLES")
    crates = (ROOT / "crates.txt").read_text(encoding="utf-8")
    (folder / "crates.txt").write_text(crates + f"{NAME}: anyhow events sessions\n", encoding="utf-8")
    crate = folder / "crates" / NAME
    # The files end in .txt, since the toolchain wants each source in a crate that crates.txt names.
    for source in (ROOT / "bench" / NAME).rglob("*.txt"):
        target = crate / source.relative_to(ROOT / "bench" / NAME).with_suffix("")
        target.parent.mkdir(parents=True, exist_ok=True)
        shutil.copy(source, target)
    subprocess.run(["rt", "run", "--", "1", "0", "0"], cwd=crate, check=True)
    return crate / "out" / NAME


def measured(program: Path, threads: int, names: int) -> tuple:
    """The least microseconds of recording and of a snapshot, and the processor's seconds of a run."""
    before = resource.getrusage(resource.RUSAGE_CHILDREN)
    done = subprocess.run([program, str(threads), str(names), str(RUNS)], capture_output=True, text=True, check=True)
    after = resource.getrusage(resource.RUSAGE_CHILDREN)
    lines = [[int(word) for word in line.split()] for line in done.stdout.splitlines()]
    used = after.ru_utime + after.ru_stime - before.ru_utime - before.ru_stime
    return min(line[1] for line in lines), min(line[2] for line in lines), used / RUNS


def main() -> None:
    with tempfile.TemporaryDirectory(prefix="session_speed_") as name:
        program = Path(sys.argv[1]) if len(sys.argv) > 1 else built(Path(name))
        print(f"{os.cpu_count()} processors, load {os.getloadavg()[0]:.1f}, {time.strftime('%Y-%m-%d %H:%M')}")
        for names in (0, 64):
            for threads in (1, 2, 4, 16):
                recorded, copied, used = measured(program, threads, names)
                entries = 4096 * threads
                print(f"{threads:2} threads, {names:2} names: {entries * 1_000_000 // max(recorded, 1):9,} entries a second, "
                      f"snapshot of {entries:6,} entries {copied / 1000:8.2f} ms, {used:.3f} s of the processor a run")


if __name__ == "__main__":
    main()
