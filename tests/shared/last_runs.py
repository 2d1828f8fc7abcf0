"""The page tests/last_runs.txt: on which commit each of the long scripts ran last. They write it, each its own line, and
tests/tools/names.py reads it."""
import hashlib
import re
import subprocess
import time
from pathlib import Path

ROOT = Path(__file__).resolve().parents[2]
PAGE = ROOT / "tests" / "last_runs.txt"
HEAD = """\
# On which commit each of the long scripts, which stand outside the gate, ran last as a whole. Each writes its own line here when
# it ends (tests/shared/last_runs.py); names.py complains where one is older than what it tries by more than a release.
# A commit with a + had changes beside it that were not committed. The program is told by the first digits of its SHA-256.
# "By hand": what was known when this page began, with the date of the commit.
# script | date | commit | program | what it said
"""
# The first digits of a sum of a program.
DIGITS = 12
# So many releases a run may be older than what it tries: a release is a heading of CHANGELOG.md.
MOST_RELEASES = 1

PROGRAM = ("crates",)
WRONG_BODIES = "tests/proofs/wrong_bodies.py"
# By script, what it tries: where files below these change, it is to run again.
TRIES = {
    "tests/memory/refused_calls.py": PROGRAM,
    "tests/memory/refused_memory.py": PROGRAM,
    "tests/memory/refused_memory_of_tests.py": PROGRAM,
    "tests/memory/refused_sessions.py": PROGRAM,
    "tests/memory/under_valgrind.py": PROGRAM,
    "tests/memory/with_sanitizer.py": PROGRAM,
    "tests/program/attacked.py": PROGRAM,
    "tests/program/fuzz.py": PROGRAM,
    "tests/program/prefixes.py": PROGRAM,
    "tests/proofs/changed_definitions.py": ("crates/events/specs", "crates/specification"),
    **{f"{WRONG_BODIES} {crate.name}": (f"crates/{crate.name}", f"tests/proofs/wrong_bodies/{crate.name}")
       for crate in sorted((ROOT / "tests" / "proofs" / "wrong_bodies").iterdir())},
}


def git(*words: str) -> str:
    """What git says in this repository; nothing where it says no."""
    try:
        done = subprocess.run(["git", *words], cwd=ROOT, capture_output=True, text=True, check=False)
    except FileNotFoundError:
        return ""
    return done.stdout.strip() if done.returncode == 0 else ""


def commit_of(paths: tuple) -> str:
    """The commit that is checked out, with a + where what is tried has changes beside it."""
    changed = git("status", "--porcelain", "--", *paths)
    return (git("rev-parse", "--short=8", "HEAD") or "no") + ("+" if changed else "")


def lines() -> dict[str, str]:
    """The lines of the page by script."""
    text = PAGE.read_text(encoding="utf-8") if PAGE.exists() else ""
    return {line.split(" | ")[0]: line for line in text.splitlines() if line and not line.startswith("#")}


def note(script: str, said: str, program: str = "") -> None:
    """Puts the line of a whole run that has just ended in the place of the one before."""
    digits = hashlib.sha256(Path(program).read_bytes()).hexdigest()[:DIGITS] if program else "-"
    known = lines()
    known[script] = " | ".join([script, time.strftime("%Y-%m-%d"), commit_of(TRIES[script]), digits, said])
    PAGE.write_text(HEAD + "".join(f"{known[name]}\n" for name in sorted(known)), encoding="utf-8")


def releases(commit: str) -> list[str]:
    """The versions that have a heading in the changelog as it was then, the newest first."""
    return re.findall(r"^## (\S+?),?(?: .*)?$", git("show", f"{commit}:CHANGELOG.md"), re.MULTILINE)


def age(run: str, changed: str) -> int:
    """How many releases were begun between the commit of a run and a later one."""
    return len(set(releases(changed)) - set(releases(run)))


def faults() -> list[str]:
    """What is wrong with the page: a script without a line, a line without a script, and runs that are too old."""
    known = lines()
    found = [f"{script} has no line" for script in TRIES if script not in known]
    found += [f"{script} is no script that runs outside the gate" for script in known if script not in TRIES]
    for script in sorted(set(TRIES) & set(known)):
        run = known[script].split(" | ")[2].rstrip("+")
        changed = git("log", "-1", "--format=%H", "--", *TRIES[script])
        if not git("cat-file", "-t", run):
            found.append(f"{script} ran on {run}, which is no commit here")
        elif age(run, changed) > MOST_RELEASES:
            found.append(f"{script} ran on {run}, and what it tries changed more than {MOST_RELEASES} release later")
    return found


def has_history() -> bool:
    """Whether the commits are here that the page names: a folder without git, or a part of a history, can't be judged."""
    return git("rev-parse", "--is-shallow-repository") == "false"
