"""Planted mistakes: whether each text that one of them changes still stands once where it should. `rt ci` passes where one does not."""
from __future__ import annotations

import re
from pathlib import Path

ROOT = Path(__file__).resolve().parents[2]
BODIES = ROOT / "tests" / "proofs" / "wrong_bodies"


def pattern_of(text: str) -> re.Pattern:
    """The text, wherever its lines are broken."""
    return re.compile(r"\s+".join(map(re.escape, text.split())))


def fault_of(crate: Path, edit: Path) -> str:
    """Why a wrong body does not apply: a text that it takes away, the changes before it made, stands elsewhere or more than once."""
    texts, file, old = {}, "", ""
    for line in edit.read_text(encoding="utf-8").splitlines():
        word, _, rest = line.partition(": ")
        if word == "file":
            file = rest
            texts.setdefault(file, (crate / file).read_text(encoding="utf-8"))
        elif word == "old":
            old = rest
            if (found := texts[file].count(old)) != 1:
                return f"{edit.relative_to(ROOT)}: stands {found} times in {file}: {old.strip()}"
        elif word == "new":
            texts[file] = texts[file].replace(old, rest)
    return ""


def stale_bodies() -> list[str]:
    """The wrong bodies, in the gate and outside, that don't apply any more."""
    crates = sorted(path for path in (ROOT / "crates").iterdir() if (path / "src").is_dir())
    edits = [(crate, edit) for crate in crates for folder in (crate / "must-fail", BODIES / crate.name)
             for edit in sorted(folder.glob("*.edit"))]
    return [fault for crate, edit in edits if (fault := fault_of(crate, edit))]
