#!/usr/bin/env python3
"""every_script.py PROGRAM [--jobs N] [--short]: the scripts of the gate on the built program, some beside each other: as many as there are
processors but one, unless N is told; with --short, those alone that take seconds. Prints what each said when it ends, with its seconds; ends
with status 1 where one failed."""
import argparse
import os
import subprocess
import sys
import tempfile
import time
from concurrent.futures import Future, ThreadPoolExecutor, as_completed
from pathlib import Path
from typing import NamedTuple

sys.path.insert(0, str(Path(__file__).parent))
from shared.program import install, is_installed, program_of  # noqa: E402

HERE = Path(__file__).resolve().parent
PROGRAM = "PROGRAM"

# Those that take long come first, so that none is left alone at the end.
SCRIPTS = [
    ["tools/recorders.py", PROGRAM],
    ["tools/explain.py", PROGRAM],
    ["program/failing_streams.py", PROGRAM],
    ["tools/judge_many.py", PROGRAM],
    ["program/live.py", PROGRAM],
    ["tools/recorder_packages.py", PROGRAM],
    ["program/library.py", PROGRAM],
    ["program/generated.py", PROGRAM],
    ["tools/engines.py", PROGRAM],
    ["memory/refused_calls.py", PROGRAM, "--few"],
    ["program/certificates.py", PROGRAM],
    ["program/large_cores.py", PROGRAM],
    ["program/black_box.py", PROGRAM],
    ["tools/package.py", PROGRAM],
    ["tools/readme_commands.py", PROGRAM],
    ["program/mutated.py", PROGRAM],
    ["program/parts_of_reads.py", PROGRAM],
    ["program/pieces.py", PROGRAM],
    ["tools/install.py", PROGRAM],
    ["tools/versions.py"],
    ["tools/names.py"],
]
SHORT = ["program/black_box.py", "program/large_cores.py", "program/mutated.py", "program/parts_of_reads.py", "tools/versions.py", "tools/names.py"]

# Debian's packages that the scripts need, and the command of each that has one: they are installed at once. A script that runs by itself
# installs what it needs.
PACKAGES = {
    "cargo": "cargo", "clang": "clang", "dpkg-dev": "dpkg-shlibdeps", "emacs-nox": "emacs", "fish": "fish", "g++": "g++", "gcc": "gcc",
    "libclang-rt-14-dev": None, "librust-proptest+std-dev": None, "lintian": "lintian", "man-db": "man", "node-prosemirror-transform": None, "node-yjs": None,
    "nodejs": "node", "npm": "npm", "parallel": "parallel", "pkg-config": "pkg-config", "python3-hypothesis": None, "python3-pip": None, "python3-pytest": None,
    "python3-pytest-xdist": None, "python3-setuptools": None, "python3-venv": None, "python3-wheel": None, "rsync": "rsync",
    "rust-clippy": "clippy-driver", "rustc": "rustc", "zsh": "zsh",
}


class Ran(NamedTuple):
    """A script's run: its words, its status, what it said, and its seconds by the clock and of processor, those of its programs among them."""

    words: list
    status: int
    said: str
    seconds: float
    processor: float


def ran(words: list) -> Ran:
    begun = time.monotonic()
    with tempfile.TemporaryFile() as said:
        child = subprocess.Popen([HERE / words[0], *words[1:]], stdin=subprocess.DEVNULL, stdout=said, stderr=subprocess.STDOUT)
        _, status, used = os.wait4(child.pid, 0)
        child.returncode = os.waitstatus_to_exitcode(status)
        said.seek(0)
        text = said.read().decode(errors="backslashreplace")
    return Ran(words, child.returncode, text, time.monotonic() - begun, used.ru_utime + used.ru_stime)


def main() -> None:
    words = argparse.ArgumentParser(description=__doc__)
    words.add_argument("program")
    words.add_argument("--jobs", type=int, default=max(1, (os.cpu_count() or 1) - 1))
    words.add_argument("--short", action="store_true")
    given = words.parse_args()
    program = program_of([sys.argv[0], given.program])
    install([name for name, command in PACKAGES.items() if not given.short and not is_installed(name, command)])
    failed, begun = [], time.monotonic()
    with tempfile.TemporaryDirectory() as kept, ThreadPoolExecutor(given.jobs) as pool:
        os.environ.pop("PYTHONDONTWRITEBYTECODE", None)  # tools are started some thousand times, each from what the first start kept
        os.environ["PYTHONPYCACHEPREFIX"] = kept
        scripts = [script for script in SCRIPTS if script[0] in SHORT or not given.short]
        started = [pool.submit(ran, [program if word == PROGRAM else word for word in script]) for script in scripts]
        for done in map(Future.result, as_completed(started)):
            print(f"== {done.words[0]}: status {done.status}, {done.seconds:.0f} s, {done.processor:.0f} of processor\n{done.said}", flush=True)
            failed += [done.words[0]] if done.status else []
    print(f"{len(scripts)} scripts in {time.monotonic() - begun:.0f} s; failed: {', '.join(failed) or 'none'}")
    sys.exit(1 if failed else 0)


if __name__ == "__main__":
    main()
