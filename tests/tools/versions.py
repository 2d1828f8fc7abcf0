#!/usr/bin/env python3
"""versions.py: the version, which the program prints, must be the same wherever it stands.

    versions.py              checks it
    versions.py --write NEW  writes NEW in each of these places

It is written in `crates/command_line/src/words.rt`. The other places are files that others read as they are: packages of the recorders,
jobs for CI, pages, the manual page, what tests expect. A file that names a version of Domepeeler and is none of these is complained of, so
that no place is forgotten."""
import re
import subprocess
import sys
from pathlib import Path

ROOT = Path(__file__).resolve().parents[2]
sys.path.insert(0, str(ROOT / "tests"))
from shared.program import Tally  # noqa: E402

NUMBER = r"\d+\.\d+\.\d+"
SOURCE = "crates/command_line/src/words.rt"

# By file: what stands before the version in it.
PLACES = {
    SOURCE: 'const VERSION: &str = "',
    "CHANGELOG.md": "\n## ",
    "README.md": "domepeeler[_-]",
    "docs/formats.md": "`domepeeler ",
    "examples/ci/github_workflow.yml": "domepeeler_",
    "examples/ci/gitlab_jobs.yml": "domepeeler_",
    "recorders/javascript/package.json": '"version": "',
    "recorders/python/pyproject.toml": '\nversion = "',
    "recorders/rust/Cargo.toml": '\nversion = "',
    "tests/program/library.py": '\nVERSION = "',
    "tests/tools/explain.py": "echo domepeeler ",
    "tests/tools/judge_many.py": "domepeelers? ",
    "tests/tools/readme_commands.py": "domepeeler[_-]",
    "tools/explaining/commands.py": '\nVERSION = "',
    "tools/installed/domepeeler.1": '"Domepeeler ',
}
NAMED = re.compile(rf"domepeeler[ _-]{NUMBER}", re.IGNORECASE)


def versions(path: str) -> list:
    """The versions that stand in a file where it should have them; of the changelog the newest."""
    found = re.findall(f"(?:{PLACES[path]})({NUMBER})", (ROOT / path).read_text())
    return found[:1] if path == "CHANGELOG.md" else found


def tracked() -> list:
    """The files of the repository."""
    return subprocess.run(["git", "-C", ROOT, "ls-files", "-z"], capture_output=True, text=True, check=True).stdout.split("\0")[:-1]


def names_a_version(path: str) -> bool:
    try:
        return bool(NAMED.search((ROOT / path).read_text()))
    except (UnicodeDecodeError, OSError):
        return False


def write(new: str) -> None:
    """Writes a new version; the changelog gets its own heading by hand."""
    for path, before in PLACES.items():
        if path != "CHANGELOG.md":
            file = ROOT / path
            file.write_text(re.sub(f"({before}){NUMBER}", rf"\g<1>{new}", file.read_text()))


def main() -> None:
    if sys.argv[1:2] == ["--write"]:
        if len(sys.argv) != 3 or not re.fullmatch(NUMBER, sys.argv[2]):
            sys.exit("versions.py --write NEW: NEW is three numbers, as 0.3.0")
        write(sys.argv[2])
        return
    if sys.argv[1:]:
        sys.exit("versions.py takes no words, or --write and a version")
    tally = Tally()
    version = (versions(SOURCE) or ["none"])[0]
    for path in PLACES:
        found = versions(path)
        tally.check(f"{path} has {version}", found and set(found) == {version}, found)
    others = [path for path in tracked() if path not in PLACES and path != "tests/tools/versions.py" and names_a_version(path)]
    tally.check("no other file names a version", not others, others)
    tally.close()


if __name__ == "__main__":
    main()
