#!/usr/bin/env python3
"""readme_commands.py PROGRAM: the commands that the pages show are run as written, and must print what the pages show.

A command stands after `    $ `. A here-document's lines follow as they are, up to its end word, so that they can be copied as they
stand. Below it stands what it prints; where nothing is shown, only the status is looked at. PROGRAM must be the repository's own,
since the pages name it. `tests/program/black_box.py` does this for the gallery. README's table of what an editor may promise is read too."""
import os
import re
import subprocess
import sys
import tempfile
from pathlib import Path
from typing import NamedTuple

ROOT = Path(__file__).resolve().parents[2]
sys.path.insert(0, str(ROOT / "tests"))
from shared.program import Tally, need, program_of  # noqa: E402

BUILT = ROOT / "crates" / "finder_cli" / "out" / "finder_cli"

# The pages, and how many commands each must show at least.
FRONT = "README.md"
PAGES = {FRONT: 12, "docs/many.md": 12, "docs/recording.md": 4, "docs/engines.md": 5}

# Pages that have so many words at most, together.
MOST_WORDS = [([FRONT], 2000),
              ([f"docs/{name}.md" for name in ("recording", "gallery", "many", "embedding", "formats", "performance")], 9000)]

# Indented lines of the pages that are commands and are not run here, each with the reason.
NOT_RUN = {
    "(cd crates/finder_cli && rt run -- verdict ../../examples/libinfinity_three_way_cycle.trace)":
        "it proves and builds the program, which the gate does by itself",
    "sudo apt-get install ./domepeeler_0.2.0_amd64.deb":
        "tests/tools/package.py installs the package into a system of its own",
    "mkdir -p ~/.local && tar -xzf domepeeler-0.2.0-x86_64-linux.tar.gz -C ~/.local --strip-components=1":
        "tests/tools/package.py runs it; what it unpacks is installed here before the commands of the page",
    'tools/package crates/finder_cli/out/finder_cli ~/packages "$(rt version)"':
        "it asks the toolchain for its own line; tests/tools/package.py makes the packages with another one",
    "tests/every_check": "it is the gate, which runs this script",
}

# What README says that an editor may promise: how each line begins, and what it says, with its source.
PROMISES = {"RGA, YATA, Fugue ": ["both", "proved of RGA (Attiya and others)"],
            "Jupiter ": ["weak alone", "strong fails (proved by the same)", 'weak holds (Wei, Huang, Lu, "Specification and Implementation of '
                         'Replicated List: The Jupiter Protocol Revisited", OPODIS 2018)'],
            "adOPTed (libinfinity); ProseMirror; whole states sent ": ["(docs/gallery.md)", "what fails, never that something holds"]}
SOURCE = "Attiya, Burckhardt, Gotsman, Morrison, Yang and Zawirski (\"Specification and Complexity of Collaborative Text Editing\", PODC 2016)"
# Sentences on which users depend, by the page or file that has each; a line feed and marks of comments stand for a blank.
SENTENCES = {
    "docs/recording.md": ["in `dispatchTransaction`, for each step", "after the dispatch of `receiveTransaction`", "A step that rebasing drops is never sent.",
                          "Threads may share a recording: each call is whole before the next begins. In Rust they share it in a `Mutex`.",
                          "`delivered` says that by now everything has arrived, and writes a read of each list; so a lost change, or one held back for ever, "
                          "is a fault too"],
    "recorders/domepeeler.h": ["Threads may share a recording: each call is whole before the next one begins", "it leads to memory that was freed"],
    "recorders/domepeeler.el": ["Threads may share a recording: each call is whole before the next one begins."],
    "recorders/domepeeler.py": ["Threads may share a recording: each call is whole before the next one begins."],
    "recorders/domepeeler.rs": ["put `#[track_caller]` before it, and it names theirs", "Threads share a recording in a `Mutex`."],
    "recorders/rust/README.md": ["put `#[track_caller]` before it", "`tests/domepeeler/mod.rs`: as `tests/domepeeler.rs` it would be a test of its own",
                                 "`recording.explain_weak()` answers the words"],
    "README.md": ["In Rust, beside `tests/domepeeler/mod.rs`"],
    "recorders/engines/prosemirror.mjs": ["The library's: documents, and steps", "Ours, since Debian has no prosemirror-collab"],
}
FIRST_COMMAND = "crates/finder_cli/out/finder_cli verdict examples/prosemirror_text_changes_places.trace"  # of README, which opens with it
SHOWN_TO_FAIL = ["libinfinity", "prosemirror", "whole_states"]  # the editors of the last line, by how their recordings are named

SECONDS = 60  # of a page
MARK = "=== ended with"
TIME = re.compile(r"\b\d+\.\d{3}\b")  # a time in seconds, which no two runs share


class Shown(NamedTuple):
    """A command on a page, and what it prints by the page."""

    command: str
    printed: str


def blocks(page: str) -> list:
    """The indented blocks of a page, without their indent; a blank line may stand within one."""
    found = re.findall(r"(?:^(?: {4}.*)?\n)+", page, re.MULTILINE)
    texts = [re.sub(r"^ {4}", "", block, flags=re.MULTILINE).strip("\n") for block in found]
    return [text for text in texts if text]


def commands(block: str) -> list:
    shown = []
    for part in re.split(r"^\$ ", block, flags=re.MULTILINE)[1:]:
        first, *rest = part.split("\n")
        document = re.search(r"<< '(\w+)'$", first)
        count = rest.index(document[1]) + 1 if document and document[1] in rest else 0
        command = "\n".join([first, *rest[:count]])
        shown.append(Shown(command, "".join(line + "\n" for line in rest[count:]).strip("\n")))
    return shown


def run_all(shown: list, home: str) -> list:
    """How each command of a page ends, as (status, printed), in one shell that begins in the repository's folder."""
    ending = f"shown_status=$?; printf '\\n{MARK} %s\\n' $shown_status"
    script = "".join(f"{command}\n{ending}\n" for command, _ in shown)
    surroundings = {"HOME": home, "PATH": f"{home}/.local/bin:{os.environ['PATH']}", "LC_ALL": "C.UTF-8"}
    done = subprocess.run(["sh", "-c", script], cwd=ROOT, env=surroundings, stdin=subprocess.DEVNULL, stdout=subprocess.PIPE,
                          stderr=subprocess.STDOUT, text=True, timeout=SECONDS)
    parts = re.split(rf"\n{MARK} (\d+)\n", done.stdout)
    return list(zip(map(int, parts[1::2]), parts[::2]))


def unpack(home: str) -> None:
    """Puts into the home what the archive has."""
    surroundings = {"PATH": os.environ["PATH"]}
    subprocess.run([ROOT / "tools/install", f"{home}/.local"], check=True, stdout=subprocess.DEVNULL, env=surroundings)


def check_page(tally: Tally, page: str, least: int) -> None:
    shown = [command for block in blocks((ROOT / page).read_text()) for command in commands(block)]
    tally.check(f"{page}: has its commands", len(shown) >= least, len(shown))
    for small in re.findall(r"--small (/tmp/\S+)", "\n".join(one.command for one in shown)):  # where an older --small says nothing beside it
        for left in small, f"{small}.lines":
            Path(left).unlink(missing_ok=True)
    with tempfile.TemporaryDirectory() as home:
        if page == FRONT:
            unpack(home)
        ended = run_all(shown, home)
    tally.check(f"{page}: all its commands are run", len(ended) == len(shown), f"{len(ended)} of {len(shown)}")
    for (command, printed), (status, got) in zip(shown, ended):
        tally.check(f"{page}: `{command}` ends", status in (0, 1), f"{status}: {got}")
        if printed:
            got, wanted = (TIME.sub("#", told).rstrip("\n") for told in (got, printed))
            tally.check(f"{page}: `{command}` prints what is shown", got == wanted, f"\ngot\n{got}\nwanted\n{wanted}")


def check_names(tally: Tally, program: str, front: str) -> None:
    """README says in one sentence what a user types, and how the program's messages begin."""
    told = re.findall(r"You type `(.+?)`; the program's messages begin with `(.+?)`, as its formats want\.", front)
    asked, failed = (subprocess.run([program, *words], capture_output=True, text=True) for words in (["--version"], ["verdict", "/nowhere"]))
    tally.check("README.md: the program's name, and its messages", len(told) == 1 and asked.stdout.startswith(f"{told[0][0]} ")
                and failed.stderr.startswith(f"{told[0][1]} "), (told, asked, failed))


def check_promises(tally: Tally, program: str) -> None:
    """What an editor may promise stands on the front page, each with its source; and of each editor of which the gallery shows what fails there
    is a recording that keeps neither specification."""
    text = (ROOT / FRONT).read_text()
    table = re.search(r"\n\| an editor \| may promise \|\n\|---\|---\|\n((?:\|.*\|\n)+)\n", text)
    lines = table[1].splitlines() if table else []
    tally.check("what an editor may promise", len(lines) == len(PROMISES) and SOURCE in text[:table.start()], lines)
    for line, (begin, parts) in zip(lines, PROMISES.items()):
        tally.check(f"what an editor may promise: {begin}", line.startswith(f"| {begin}") and all(part in line for part in parts), line)
    for name in SHOWN_TO_FAIL:
        reports = [subprocess.run([program, "verdict", path], stdout=subprocess.PIPE, text=True).stdout
                   for path in sorted(ROOT.glob(f"examples/{name}_*.trace"))]
        tally.check(f"what fails: {name}", any("\nstrong no\nweak no\n" in report for report in reports), reports)


def main() -> None:
    program = program_of(sys.argv)
    tally = Tally()
    tally.check("the program is the one of the pages", BUILT.exists() and os.path.samefile(program, BUILT), f"{program}, {BUILT}")
    for page, least in PAGES.items():
        check_page(tally, page, least)
    check_promises(tally, program)
    front = (ROOT / FRONT).read_text()
    for line, reason in NOT_RUN.items():
        tally.check(f"README.md shows `{line}`, not run since {reason}", f"\n    {line}\n" in front)
    for page in "README.md", "docs/recording.md":
        text = (ROOT / page).read_text()
        ids, by_number = text.find("#receipts-made-for-you"), text.find("recording.received(")
        tally.check(f"{page}: calls that take ids and clocks come first", 0 < ids < by_number, (ids, by_number))
    for page, begins, call in (("README.md", "from domepeeler import Recording\n", "recording.received_changes(1, "), ("README.md", "import { Recording }", "recording.receivedChanges(1, "),
                               ("docs/recording.md", "from domepeeler import Recording\n\nrecording = Recording(2)  # a session", "recording.received_changes(self.replica, ")):
        shown = next((block for block in blocks((ROOT / page).read_text()) if block.startswith(begins)), "")
        tally.check(f"{page}: its first example in this language takes ids", call in shown and ".received(" not in shown, shown)
    for page, sentences in SENTENCES.items():
        text = re.sub(r"[ \n]+(?:(?://!|//|\*|;;) )? *", " ", (ROOT / page).read_text())
        for sentence in sentences:
            tally.check(f"{page} says: {sentence}", sentence in text, text[:2000])
    tally.check("README.md opens with ProseMirror", re.search(r"^    \$ (.*)$", front, re.MULTILINE)[1] == FIRST_COMMAND)
    for pages, most in MOST_WORDS:
        words = sum(len((ROOT / page).read_text().split()) for page in pages)
        tally.check(f"{', '.join(pages)}: at most {most} words", words <= most, words)
    check_names(tally, program, front)
    tally.close()


if __name__ == "__main__":
    main()
