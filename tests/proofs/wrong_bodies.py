#!/usr/bin/env python3
"""Does the prover refuse the further wrong bodies too?

`rt ci` tries the wrong bodies in crates/CRATE/must-fail. Those in tests/proofs/wrong_bodies/CRATE are further ones of the same
form, which would make the gate longer by minutes; README says which functions have none. This script copies the crates to a
temporary folder, puts these wrong bodies in the place of the others there, and has `rt must-fail` try them; tests/last_runs.txt
has a line of each crate. It is no part of the gate: crates that were not checked before are proved first.

    tests/proofs/wrong_bodies.py                 all crates that have further wrong bodies
    tests/proofs/wrong_bodies.py CRATE..         these crates
"""

import shutil
import subprocess
import sys
import tempfile
from pathlib import Path

ROOT = Path(__file__).resolve().parents[2]
sys.path.insert(0, str(ROOT / "tests"))
from shared.last_runs import WRONG_BODIES, note  # noqa: E402

BODIES = ROOT / "tests/proofs/wrong_bodies"


def names_of(crate: str) -> list[str]:
    """The further wrong bodies of a crate."""
    return sorted(file.stem for file in (BODIES / crate).glob("*.edit"))


def copy_crates(folder: Path) -> None:
    """All crates, with the work of earlier checks, and the further wrong bodies for their own."""
    for name in ("HANDLES", "crates.txt"):
        shutil.copy(ROOT / name, folder / name)
    shutil.copytree(ROOT / "crates", folder / "crates")
    for crate in (folder / "crates").iterdir():
        shutil.rmtree(crate / "must-fail", ignore_errors=True)
    for crate in BODIES.iterdir():
        shutil.copytree(crate, folder / "crates" / crate.name / "must-fail")


def refused_in(folder: Path, crate: str) -> set[str]:
    """The further wrong bodies of a crate that are refused because a goal is false: the line names it."""
    done = subprocess.run(["rt", "must-fail", crate], cwd=folder, capture_output=True, text=True, check=False)
    lines = (done.stdout + done.stderr).splitlines()
    print("\n".join(line[:160] for line in lines if "must-fail " in line), flush=True)
    well = [line for line in lines if "refused, as it must be: " in line and "only because a proof file" not in line
            and ("it is not proved" in line or ": error: `" in line)]
    return {name for name in names_of(crate) if any(f"must-fail {crate}/{name}.edit" in line for line in well)}


def main() -> int:
    crates = sys.argv[1:] or sorted(path.name for path in BODIES.iterdir())
    without = [crate for crate in crates if not names_of(crate)]
    if without:
        print(f"no further wrong bodies: {' '.join(without)}")
        return 2
    passed = []
    failed = []
    with tempfile.TemporaryDirectory(prefix="wrong_bodies_") as name:
        folder = Path(name)
        copy_crates(folder)
        for crate in crates:
            refused = refused_in(folder, crate)
            stayed = [f"{crate}/{name}" for name in names_of(crate) if name not in refused]
            note(f"{WRONG_BODIES} {crate}", f"{len(refused)} refused, {len(stayed)} not")
            passed += refused
            failed += stayed
    for name in failed:
        print(f"not refused: {name}")
    print(f"{len(passed)} refused, {len(failed)} not")
    return 1 if failed else 0


if __name__ == "__main__":
    sys.exit(main())
