#!/usr/bin/env python3
"""refused_sessions.py PROGRAM [RUNS]: sessions of four recorders, with requests for memory refused at random in whatever thread.

PROGRAM is crates/session_runs/out/session_runs, which `rt ci` has built. It begins with a hundred sessions. In each of them four
threads record what they have planned; what comes back since there is no memory they hand in again or leave out, by chance. Each
keeps count of what it was told was recorded, in memory that was there before, and the closed recording must have exactly that,
entry by entry. So many runs, 30 unless told otherwise, are made with one request refused in 3 to 300, until the program writes
its first line; all that it prints must be what it prints with ample memory, but for the number of sessions in which a body came
back. A run that finds no memory before it can print is counted, and is neither passed nor failed. At least a hundred sessions in
all must have had a body come back. It needs a C compiler (`cc`), and is no part of the gate."""
import re
import sys
import tempfile
from pathlib import Path

ROOT = Path(__file__).resolve().parents[2]
sys.path.insert(0, str(ROOT / "tests"))
from memory.refused_memory import shim  # noqa: E402
from shared.last_runs import note  # noqa: E402
from shared.program import Ended, Tally, program_of, run, short  # noqa: E402

CRATE = ROOT / "crates" / "session_runs"
MET = re.compile(rb"in (\d+) of them memory was refused\n")
# One request is refused in so many, in turn.
ONE_IN = [3, 5, 10, 20, 50, 100, 300]
RUNS = 30
LEAST_MET = 100


def refused(program: str, library: str, told: Path, one_in: int, seed: int) -> tuple[Ended, int]:
    """A run with requests refused, and how many were, where it printed."""
    given = [f"LD_PRELOAD={library}", f"REFUSED_ONE_IN={one_in}", f"REFUSED_SEED={seed}", f"REFUSED_TOLD={told}"]
    told.unlink(missing_ok=True)
    ended = run("env", [*given, program], (CRATE / "stdin").read_bytes())
    return ended, int(told.read_text()) if told.exists() else 0


def main() -> None:
    program, runs = program_of(sys.argv[:2]), int(sys.argv[2]) if len(sys.argv) > 2 else RUNS
    ample = run(program, [], (CRATE / "stdin").read_bytes())
    tally = Tally()
    tally.same("with ample memory", ample, Ended(0, (CRATE / "stdout").read_bytes(), b""))
    sessions = met = requests = without_memory = 0
    with tempfile.TemporaryDirectory() as folder:
        library = shim(folder)
        for seed in range(runs):
            one_in = ONE_IN[seed % len(ONE_IN)]
            got, many = refused(program, library, Path(folder, "told"), one_in, seed)
            requests += many
            if got.status != 0 and not got.out and b"memory" in got.err:
                without_memory += 1
                continue
            found = MET.search(got.out)
            alike = got._replace(out=MET.sub(b"in 0 of them memory was refused\n", got.out))
            tally.check(f"one in {one_in}, seed {seed}", alike == ample, short(got))
            sessions, met = sessions + 100, met + (int(found[1]) if found else 0)
    print(f"{requests:,} requests refused, {sessions:,} sessions, {met:,} of them had a body come back; "
          f"{without_memory} runs found no memory before they printed")
    tally.check(f"at least {LEAST_MET} sessions had a body come back", met >= LEAST_MET, met)
    if runs >= RUNS:
        note("tests/memory/refused_sessions.py", f"{tally.said()}, {requests:,} requests refused", program)
    tally.close()


if __name__ == "__main__":
    main()
