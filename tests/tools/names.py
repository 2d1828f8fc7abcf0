#!/usr/bin/env python3
"""names.py: docs/names.md, which has the words of the field with their names in the code, must be what the sources say.

    names.py            checks the page
    names.py --write    writes it anew
    names.py NAME       prints which files have a name: a function, method, type, variant, trait, constant, test or definition
    names.py --list     prints where each name stands

A name is one of a crate that has the word `pub`, a method of such a trait, a function of a program's main file, a test, or a
definition of the crate's specs. With the page, it looks at what proofs and scripts show: a long script that ran last more than
a release before what it tries was changed (tests/last_runs.txt), and a planted mistake whose text stands there no more, are
complained of."""
import re
import sys
from pathlib import Path

ROOT = Path(__file__).resolve().parents[2]
sys.path.insert(0, str(ROOT / "tests"))
from proofs.changed_definitions import stale_changes  # noqa: E402
from shared import last_runs  # noqa: E402
from shared.edits import stale_bodies  # noqa: E402
from shared.program import Tally  # noqa: E402

PAGE = ROOT / "docs" / "names.md"

HEAD = """# The words of the field, and their names in the code

For who reads the code or the pages. Each word has its meaning, and the names that stand for it. `tests/tools/names.py NAME` \
prints in which file a name stands, and without a word of its own checks this page; [definitions.md](definitions.md) says \
what definitions mean. `tests/tools/names.py --write` makes this page.

| word | meaning | names |
|---|---|---|
"""

# By word: its meaning, the crate, and the names that stand for it.
WORDS = {
    "recording, trace": ("what the replicas of an editor did, in one order; its text", "events", "History Recording"),
    "operation": ("an insert, a delete, a read or a view of one replica; `r.n` is the n-th of replica r", "events",
                  "Operation Body OpName"),
    "entry": ("an operation, or a receipt, of a replica", "events", "Entry"),
    "stream": ("the entries of one replica, in order", "events", "stream SameStreams Recording::stream"),
    "receipt": ("says that an operation of another replica, and all that this had seen, has arrived", "events", "received Body::Recv"),
    "element, name": ("what is inserted, known by 1 to 32 bytes", "events", "NameBytes Name"),
    "response": ("the list that an operation answered", "events", "Response"),
    "view": ("an operation that answers a part of the list", "specification", "IsView"),
    "refusal": ("why an entry is not recorded, as `not yet, have H`", "events", "Refusal Recording::record"),
    "limits": ("16 replicas, and of each 16,384 entries, 4,096 inserts, 262,144 names", "events",
               "KeepsLimits MOST_REPLICAS MOST_ENTRIES MOST_INSERTS MOST_NAMES MOST_PLACES MOST_BYTES"),
    "legal": ("within the limits, each receipt after what it names", "events", "IsLegal"),
    "visible": ("by the replica's own order and receipts, and so on", "specification", "Visible IsSightOf"),
    "first fault": ("a doubled name, else the least operation with wrong contents or a wrong position", "specification",
                    "IsFirstFault IsDoubled HasRightContents HasRightPosition"),
    "sound": ("without a fault", "specification", "IsSound"),
    "element number": ("the place of its insert among all inserts", "specification", "elements number_in"),
    "follows": ("a response's elements stand in the order in the same sequence", "specification",
                "FollowsAll IsFollowingOrder FollowsSet"),
    "least order": ("of those that follow every response the first in dictionary order", "specification",
                    "IsLeastOrder HasNoOrder dictionary_lt ComesFirst"),
    "strong, weak specification": ("one order of all elements explains every response; one relation does, which is an order on each", "specification",
                                   "MeetsStrong MeetsWeak DecidesSpecifications"),
    "opposite pair": ("two responses show two elements in opposite orders", "specification", "HasOppositePair"),
    "conflict number": ("the least number of responses that no order follows together", "specification",
                        "IsConflictNumber HasConflictNumber"),
    "least cycle": ("of the shortest cycles of elements, each shown before the next, the first", "specification",
                    "IsLeastCycle AreLeastSteps"),
    "verdict": ("a fault, an order, or a number with steps", "specification", "Verdict IsVerdict"),
    "finder": ("what makes verdicts", "verdict", "judge Verdict"),
    "making a certificate": ("with its verdict, or of one", "certificate", "judge_and_write certify write_certificate"),
    "the function `finder`": ("the program in any world", "finder_cli", "finder World"),
    "certificate": ("a text that shows why a verdict is right", "specification", "IsCertificateOf IsValid SpellsCertificate"),
    "row, layer": ("of a certificate: elements by how many steps they are away from a source", "specification",
                   "Row IsExactRow row_line MeetsLayerRule MeetsRuleOf RowsMeetRule"),
    "outline": ("a certificate of which the long parts stay text", "certificate_text", "Outlines Outline"),
    "checker": ("what says whether a certificate is valid", "cert_check", "IsAnswer Answer check check_recording"),
    "the checker's line": ("as `yes refused`, `no text` or `no followed E`", "engines", "answer_line line_of"),
    "spells": ("the text is that of the recording's lines", "specification", "Spells IsFirstLineFault"),
    "version": ("of a trace, of a certificate: one or two", "specification", "Version IsOfVersion header_line version_line"),
    "cause": ("what is wrong with a line, as `header`, `shape` or `cut`", "trace_text", "Cause LineFault"),
    "kept of a line": ("at most 135,398 bytes of one that a piece cuts", "trace_text", "IsKeptOf KeptLine"),
    "report": ("what `verdict` and `live` print", "specification", "report_text report_step"),
    "report as JSON": ("the same with `--json`", "report", "report_json json"),
    "covering responses": ("those that are kept: each other is a subsequence of one", "element_numbers", "AreCovering Covering"),
    "core": ("the elements through which cycles may lead", "level_search", "IsCoreOf Core"),
    "source": ("an element that a search starts from", "level_search", "MeetsCycles"),
    "search": ("for the conflict number, and the least cycle", "level_search", "conflict_number least_cycle least_conflict"),
    "look, step of a search": ("a look at an element's row of the table; at a place of a list, or at an element that is gone on from",
                               "level_search", "IsCountOf IsListCount"),
    "worker, seat": ("a thread that searches, and its place at the bound that all share", "shared_bound", "Seat Bound"),
    "gate": ("what is called round a search, or a replay", "level_search", "Gate"),
    "session, pass, observer": ("a recording that threads make; who records a replica; who looks on", "sessions",
                                "Session Pass Observer"),
    "session of one thread": ("the replies that a list of calls has", "events", "reply after"),
    "turn": ("who has it may change the recording", "sessions", "Free Busy"),
    "registry": ("at most 64 sessions by name", "sessions", "Registry Registered"),
    "commands": ("`verdict`, `cert`, `verify`; `live` is of `live_engine`", "engines", "run run_cert run_verify"),
    "options": ("`--workers`, `--json`, `--version`, `--help`", "command_line",
                "read_words workers_rule json_rule WORKERS MOST_WORKERS finder_app WordsFault"),
    "limit of reads": ("268,435,456 of a stream", "byte_streams", "READS IsClosed"),
    "out of memory": ("one name for it", "events", "Memory"),
    "line that takes memory": ("where reading may answer so", "trace_text", "TakesMemory"),
    "exit status": ("0 to 3", "finder_cli", "ProgramFault::number number_of"),
}

# By word: its meaning, and files or folders that stand for it. A star stands for what varies.
FILES = {
    "recorder": ("a file of an editor's language that writes traces", "recorders/domepeeler.py recorders/domepeeler.mjs "
                 "recorders/domepeeler.rs recorders/domepeeler.h recorders/domepeeler.el"),
    "engine": ("what keeps an editor's list; also `run`, `run_cert`, `run_verify`, `live`",
               "recorders/engines crates/engines/src crates/finder_cli/src/engine.rt"),
    "recorder thread, watcher": ("of a rehearsal", "crates/rehearsal/src/recorder.rt crates/rehearsal/src/watcher.rt"),
    "wrong body, must-fail edit": ("a planted mistake that a proof must refuse",
                                   "crates/*/must-fail tests/proofs/wrong_bodies"),
    "changed definition": ("another one that a proof must refuse", "tests/proofs/changed_definitions.py"),
    "slow reader": ("of the definitions, in Python, to compare with", "tests/reference"),
    "vectors": ("recordings with expected reports by an independent reference", "tests/vectors"),
    "handles": ("what functions may ask of the machine", "HANDLES"),
    "small trace": ("a part of a trace that has the same verdict", "tools/explaining/small.py"),
    "beginning": ("the shortest front of a trace that is not accepted; with its last line the session went wrong",
                  "tools/explaining/beginning.py"),
    "cause": ("where to look in the editor, by a name of its own", "tools/explaining/causes.py"),
    "kind of editor": ("how inserts find their place, named by the user, so that causes which it can't have are not told", "tools/explaining/kinds.py"),
    "warning": ("what an accepted recording may hide; *unequal*: replicas end with different lists, or lack a change",
                "tools/explaining/warnings.py"),
    "weak alone": ("weak holds and strong doesn't, which passes where `--weak` asks for no more", "tools/explaining/programs.py"),
    "note": ("the user's own words on a session, such as its seed", "tools/explaining/places.py"),
    "plan": ("a session that an engine is asked for, as text", "recorders/engines/sessions.py docs/engines.md"),
    "planted bug": ("a usual mistake in a small engine, whose cause the words must name", "examples/planted"),
}

# The folders whose scripts are listed by name, and what their files may end with; one without an ending is listed where its first
# line names what runs it.
SCRIPTS = "tests/program tests/tools tests/memory tests/proofs tests/shared tests/reference bench bench/peers recorders " \
          "recorders/engines recorders/properties examples/planted"
ENDINGS = {".py", ".mjs", ".rs", ".h", ".c", ".cpp", ".el"}

ITEM = re.compile(r"( *)pub (?:const )?(fn|struct|enum|trait|const|type) (\w+)")
IMPL = re.compile(r"impl(?:<.*?>)? (?:[\w:]+(?:<.*>)? for )?(\w+)")
VARIANT = re.compile(r"    ([A-Z]\w*)\b")
TRAIT_METHOD = re.compile(r"    fn (\w+)")
FUNCTION_OF_FILE = re.compile(r"^fn (\w+)", re.MULTILINE)
TEST = re.compile(r"^ *#\[test\]\n(?: *#\[.*\n)*.*?\bfn (\w+)", re.MULTILINE)
DEFINED = re.compile(r"^(?:abbrev pub|unfoldable pub|pub record|pub data|abbrev pub data|pub) ([^\s:(]+)", re.MULTILINE)
# Words of the language that a line of a spec may have after `pub`.
NOT_NAMES = {"mod", "use", "record", "data"}


def names_of_code(text: str) -> list[str]:
    """Public items, methods with the type or trait that has them, and variants with theirs."""
    names, owner, enum, trait = [], "", "", ""
    for line in text.splitlines():
        if line.startswith("}"):
            owner = enum = trait = ""
        elif impl := IMPL.match(line):
            owner = impl[1]
        elif item := ITEM.match(line):
            name = f"{owner}::{item[3]}" if item[1] and owner else item[3]
            names.append(name)
            enum = name if item[2] == "enum" and line.endswith("{") else enum
            trait = name if item[2] == "trait" else trait
        elif enum and (variant := VARIANT.match(line)):
            names.append(f"{enum}::{variant[1]}")
        elif trait and (method := TRAIT_METHOD.match(line)):
            names.append(f"{trait}::{method[1]}")
    return names


def is_of_tests(path: Path) -> bool:
    """Whether a file of code has tests alone."""
    return path.suffix == ".rt" and ("tests" in path.parts[len(ROOT.parts):] or path.stem == "tests")


def names_in(path: Path) -> list[str]:
    """The names that a file has, each once, in its order."""
    text = path.read_text(encoding="utf-8")
    if path.suffix != ".rt":
        found = [name for name in DEFINED.findall(text) if name not in NOT_NAMES]
    elif is_of_tests(path):
        found = TEST.findall(text)
    else:
        found = names_of_code(text) + (FUNCTION_OF_FILE.findall(text) if path.stem == "main" else [])
    return list(dict.fromkeys(found))


def sources(crate: Path) -> list[Path]:
    """The code and the specs of a crate, and then its tests; lists of modules are left out."""
    code = [path for path in sorted(crate.glob("src/**/*.rt")) if path.stem != "lib"]
    specs = [path for path in sorted(crate.glob("specs/**/*.antt")) if path.stem != "Lib"]
    return [*sorted(crate.glob("src/lib.rt")), *(path for path in code if not is_of_tests(path)), *specs,
            *(path for path in code if is_of_tests(path))]


def row_of_word(word: str, meaning: str, crate: str, names: list[str], rows: dict[str, list]) -> str:
    """The word, its meaning and its names; a name that no file of the crate has is a fault of this script."""
    missing = [name for name in names if not any(name in found for _, found in rows[crate])]
    if missing:
        raise SystemExit(f"names.py: {crate} has no {' '.join(missing)}")
    return f"| {word} | {meaning} | {', '.join(f'`{name}`' for name in names)} (`{crate}`) |"


def row_of_files(word: str, meaning: str, paths: list[str]) -> str:
    """The word, its meaning, and its files or folders; one that is not there is a fault of this script."""
    missing = [path for path in paths if not any(ROOT.glob(path))]
    if missing:
        raise SystemExit(f"names.py: there is no {' '.join(missing)}")
    return f"| {word} | {meaning} | {', '.join(f'`{path}`' for path in paths)} |"


def row_of_crate(crate: Path) -> str:
    """A crate's folder, and the files of its definitions and of its lemmas, without endings."""
    row = f"- `{crate.name}` is `crates/{crate.name}/`"
    for folder, word in (("specs", "definitions"), ("proofs", "lemmas")):
        files = [path.stem for path in sorted((crate / folder).glob("*.antt")) if path.stem != "Lib"]
        if files:
            row += f"; {word} in its `{folder}/`: " + ", ".join(f"`{name}`" for name in files)
    return row


def row_of_tools() -> str:
    """The commands among the tools, and their modules."""
    commands = [path.name for path in sorted((ROOT / "tools").iterdir()) if path.is_file()]
    names = [path.stem for path in sorted((ROOT / "tools" / "explaining").glob("*.py")) if path.stem != "__init__"]
    return (f"- tools in `tools/`: {', '.join(f'`{name}`' for name in commands)}; "
            f"their modules in `tools/explaining/`: {', '.join(f'`{name}`' for name in names)}")


def is_script(path: Path) -> bool:
    """Whether a file ends as scripts do, or has no ending and begins with the line that names what runs it, as bench/run."""
    if not path.is_file():
        return False
    return path.suffix in ENDINGS or (not path.suffix and path.read_bytes().startswith(b"#!"))


def row_of_scripts(folder: str) -> str:
    """A folder of scripts, and their names, with which the documents call them."""
    scripts = [path.name for path in sorted((ROOT / folder).iterdir()) if is_script(path)]
    return f"- scripts in `{folder}/`: {', '.join(f'`{name}`' for name in scripts)}"


def crate_folders() -> list[Path]:
    return sorted(path for path in (ROOT / "crates").iterdir() if (path / "src").is_dir())


def page() -> str:
    rows = {crate.name: [(path, names_in(path)) for path in sources(crate)] for crate in crate_folders()}
    lines = [*(row_of_word(word, meaning, crate, names.split(), rows) for word, (meaning, crate, names) in WORDS.items()),
             *(row_of_files(word, meaning, paths.split()) for word, (meaning, paths) in FILES.items()), ""]
    return HEAD + "\n".join(lines)


def listed() -> str:
    """Where each name stands, crate by crate, and the scripts by folder."""
    crates = crate_folders()
    lines = [*(row_of_crate(crate) for crate in crates), row_of_tools(), *(row_of_scripts(folder) for folder in SCRIPTS.split())]
    lines += [f"- `{path.relative_to(ROOT)}`: {', '.join(f'`{name}`' for name in names)}"
              for crate in crates for path in sources(crate) if (names := names_in(path))]
    return "\n".join(lines)


def found(word: str) -> list[str]:
    """The files that have a name, or a method or variant of it."""
    return [f"{path.relative_to(ROOT)}: {name}" for crate in crate_folders() for path in sources(crate) for name in names_in(path)
            if word in (name, name.split("::")[-1])]


def check_last_runs(tally: Tally) -> None:
    """The page of last runs has a line for each long script, and none of them is too old. A release is a heading of CHANGELOG.md."""
    if last_runs.has_history():
        faults = last_runs.faults()
        tally.check("tests/last_runs.txt", not faults, "; ".join(faults))
    else:
        print("tests/last_runs.txt was not looked at: the history of the repository is not here")


SCRIPTS_OF_TABLE = {"J": "judge_many", "E": "explain", "R": "recorders", "K": "recorder_packages", "I": "install", "P": "package", "N": "engines"}


def check_table_of_hostile_use(tally: Tally) -> None:
    """The functions that tests/README.md names in its table of hostile use stand in these scripts."""
    table = (ROOT / "tests" / "README.md").read_text().partition("### The tools and recorders under hostile use")[2].partition("\n## ")[0]
    cells = [cell for line in table.splitlines() if line.startswith("| ") for cell in line.strip("| ").split(" | ")[1:]]
    named = []
    for cell in cells:
        script = ""
        for letter, name in re.findall(r"\b([JERKIPN])(?= `)|`(\w+)`", cell):
            script = letter or script
            named += [(script, name)] if name and script else []
    for script, name in named:
        text = (ROOT / "tests" / "tools" / f"{SCRIPTS_OF_TABLE[script]}.py").read_text()
        tally.check(f"tests/README.md: {script} `{name}`", f"\ndef {name}(" in text, name)
    tally.check("tests/README.md: functions of hostile use", len(named) > 60, len(named))


def main() -> int:
    if sys.argv[1:] == ["--write"]:
        PAGE.write_text(page(), encoding="utf-8")
        return 0
    if sys.argv[1:] == ["--list"]:
        print(listed())
        return 0
    if sys.argv[1:]:
        places = found(sys.argv[1])
        print("\n".join(places) if places else f"names.py: no name is {sys.argv[1]}")
        return 0 if places else 1
    tally = Tally()
    tally.check("docs/names.md is not what the sources say: tests/tools/names.py --write makes it anew",
                PAGE.read_text(encoding="utf-8") == page())
    check_last_runs(tally)
    check_table_of_hostile_use(tally)
    stale = stale_bodies() + stale_changes()
    tally.check("planted mistakes apply", not stale, "; ".join(stale))
    tally.close()


if __name__ == "__main__":
    sys.exit(main())
