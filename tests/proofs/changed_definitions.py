#!/usr/bin/env python3
"""Do the definitions mean what they say? Change one at a time, and see the proofs refuse it.

For each law of the crate `specification` there is a small change of a definition, or of the law's statement, after which
the law is false; and for the worked recordings there are changes after which they would come out otherwise. This script
copies the crates to a temporary folder, makes each change there, runs `rt check`, and expects that the function which
carries the law is not proved, because of an error in the proof named here and not in a definition. (A change in `events`
may be refused there already, by a body that was proved against the definition.) It is no part of the gate: it takes some
minutes.

    tests/proofs/changed_definitions.py          all changes
    tests/proofs/changed_definitions.py WORD     those whose law or change has this word
"""
from __future__ import annotations

import re
import shutil
import subprocess
import sys
import tempfile
import time
from dataclasses import dataclass
from pathlib import Path

ROOT = Path(__file__).resolve().parents[2]
sys.path.insert(0, str(ROOT / "tests"))
from shared.edits import pattern_of  # noqa: E402
from shared.last_runs import note  # noqa: E402

CRATES = ("events", "specification")
SPECS = "crates/specification/specs"
EVENTS = "crates/events/specs"
LIMITS = "crates/events/src/lib.rt"


@dataclass(frozen=True)
class Edit:
    """In one file, a text that stands there once, wherever its lines are broken, and what it becomes."""

    file: str
    old: str
    new: str


@dataclass(frozen=True)
class Change:
    """A function of `specification` that must not be proved any more, after these edits, because of these proofs."""

    function: str
    name: str
    edits: tuple[Edit, ...]
    proofs: tuple[str, ...]


def change(function: str, name: str, file: str, old: str, new: str, *proofs: str) -> Change:
    """A change of one text."""
    return Change(function, name, (Edit(file, old, new),), proofs)


CHANGES = (
    change(
        "laws::limits_are_the_numbers",
        "a replica fewer",
        LIMITS,
        "pub const MOST_REPLICAS: u32 = 16;",
        "pub const MOST_REPLICAS: u32 = 15;",
        "laws/limits_are_the_numbers/Answers",
    ),
    change(
        "laws::limits_are_the_numbers",
        "an entry fewer",
        LIMITS,
        "pub const MOST_ENTRIES: u32 = 16384;",
        "pub const MOST_ENTRIES: u32 = 16383;",
        "laws/limits_are_the_numbers/Answers",
    ),
    change(
        "laws::sound_responses_are_proper",
        "the elements of all replicas together are as few as those of one",
        f"{SPECS}/Responses.antt",
        "pub few : length v.elements ≤ MOST_REPLICAS * MOST_INSERTS",
        "pub few : length v.elements ≤ MOST_INSERTS",
        "SoundResponses",
    ),
    change(
        "laws::sound_responses_are_proper",
        "right contents may repeat a name",
        f"{SPECS}/Faults.antt",
        "IsRepeatFree w = AllPairs (λ a b. a ≢ b) w",
        "IsRepeatFree w = AllPairs (λ a b. a ≡ a) w",
        "SoundResponses",
    ),
    change(
        "laws::least_order_or_cycle",
        "the least order comes before itself",
        f"{SPECS}/Orders.antt",
        "IsFollowingOrder v other → ¬ ComesFirst v other order",
        "IsFollowingOrder v other → ComesFirst v order other",
        "LeastOrder",
    ),
    change(
        "laws::conflict_number_is_shortest_cycle",
        "sets of k operations are consistent too",
        f"{SPECS}/Conflict.antt",
        "IsOperationSet v smaller → length smaller < k → IsConsistent v smaller",
        "IsOperationSet v smaller → length smaller ≤ k → IsConsistent v smaller",
        "ConflictNumber",
    ),
    change(
        "laws::conflict_number_is_shortest_cycle",
        "a ring without its last pair",
        f"{SPECS}/Conflict.antt",
        "ring_from first last [] = (last, first) ∷ []",
        "ring_from first last [] = []",
        "Cycles",
    ),
    change(
        "laws::step_operations_conflict",
        "the steps of any cycle, not of a shortest one",
        f"{SPECS}/Laws.antt",
        "AreShownSteps v steps → IsShortestLength v (length steps) →",
        "AreShownSteps v steps → IsCycleLength v (length steps) →",
        "StepOperations",
    ),
    change(
        "laws::strong_is_an_order",
        "transitive for three different elements alone",
        f"{SPECS}/ListSpecification.antt",
        "Relates lo a b → Relates lo b c → Relates lo a c",
        "Relates lo a b → Relates lo b c → a ≢ c → Relates lo a c",
        "Strong",
    ),
    change(
        "laws::weak_fails_at_opposite_pairs",
        "conflict number 3 for opposite pairs",
        f"{SPECS}/Laws.antt",
        "HasConflictNumber (responses_of h) 2)",
        "HasConflictNumber (responses_of h) 3)",
        "Weak",
    ),
    change(
        "laws::weak_fails_at_opposite_pairs",
        "weak asks transitivity on all elements",
        f"{SPECS}/ListSpecification.antt",
        "IsOperation h e → IsTransitiveOn lo (response h e) × IsTotalOn lo (response h e))",
        "IsOperation h e → IsTransitiveOn lo (elements h) × IsTotalOn lo (response h e))",
        "Weak",
    ),
    change(
        "laws::layers_bound_cycles",
        "two layers deeper",
        f"{SPECS}/LayerRule.antt",
        "depth_in k row y ≤ depth_in k row x + 1",
        "depth_in k row y ≤ depth_in k row x + 2",
        "Layers",
    ),
    Change(
        "laws::layers_bound_cycles",
        "every cycle is longer than k",
        (
            Edit(f"{SPECS}/Laws.antt", "use Rattle.std.specs.Prelude.{◌≡◌, ", "use Rattle.std.specs.Prelude.{◌≡◌, ◌<◌, "),
            Edit(f"{SPECS}/Laws.antt", "IsCycleLength v m → k ≤ m", "IsCycleLength v m → k < m"),
        ),
        ("Layers",),
    ),
    change(
        "laws::layers_bound_cycles",
        "what stands before the source may be one layer less deep",
        f"{SPECS}/LayerRule.antt",
        "HasInOrder r.names x source → k - 1 ≤ depth_in k row x",
        "HasInOrder r.names x source → k - 2 ≤ depth_in k row x",
        "Layers",
    ),
    change(
        "laws::conflicts_stay",
        "from the whole to the prefix",
        f"{SPECS}/Laws.antt",
        "(¬ IsConsistent (responses_of g) set) → ¬ IsConsistent (responses_of h) set",
        "(¬ IsConsistent (responses_of h) set) → ¬ IsConsistent (responses_of g) set",
        "ConflictsStay",
    ),
    change(
        "laws::doubled_names_stay",
        "from the whole to the prefix",
        f"{SPECS}/Laws.antt",
        "IsInsertedTwice g a → IsInsertedTwice h a",
        "IsInsertedTwice h a → IsInsertedTwice g a",
        "DoubledNamesStay",
    ),
    change(
        "laws::faults_stay",
        "at an operation of the whole",
        f"{SPECS}/Laws.antt",
        "IsPrefixOf g h → IsOperation g e →",
        "IsPrefixOf g h → IsOperation h e →",
        "FaultsStay",
    ),
    Change(
        "laws::faults_stay",
        "a receipt counts for the operation before it",
        (
            Edit(f"{SPECS}/Visibility.antt", "use Rattle.std.specs.Prelude.{◌≡◌, ", "use Rattle.std.specs.Prelude.{◌≡◌, ◌≤◌, "),
            Edit(f"{SPECS}/Visibility.antt", "(count_by is_operation earlier < e.n)", "(count_by is_operation earlier ≤ e.n)"),
        ),
        ("Prefixes",),
    ),
    change(
        "laws::each_recording_has_a_verdict",
        "a refusal with fewer steps than its number",
        f"{SPECS}/Verdict.antt",
        "AreLeastSteps (responses_of h) steps × (length steps ≡ k)",
        "AreLeastSteps (responses_of h) steps × (length steps < k)",
        "VerdictExists",
    ),
    change(
        "laws::verdicts_are_unique",
        "any operation that shows a step",
        f"{SPECS}/Conflict.antt",
        "All (λ s. IsLeast (λ o. Shows v o s.from s.to) s.shown) steps",
        "All (λ s. Shows v s.shown s.from s.to) steps",
        "LeastCycle",
    ),
    change(
        "laws::verdicts_are_of_streams",
        "elements numbered as they arrive",
        f"{SPECS}/Elements.antt",
        "elements h = filter_map (λ o. option_and_then inserted_name (operation h o)) (operation_names h)",
        "elements h = filter_map (λ e. inserted_name e.body) h.entries",
        "SameStreams",
    ),
    change(
        "laws::verdicts_decide",
        "weak holds for every number",
        f"{SPECS}/Verdict.antt",
        "(2 < k → MeetsWeak h)",
        "(2 ≤ k → MeetsWeak h)",
        "VerdictsDecide",
    ),
    change(
        "laws::verdicts_decide",
        "weak fails exactly at number 3",
        f"{SPECS}/Verdict.antt",
        "((¬ MeetsWeak h) ↔ (k ≡ 2))",
        "((¬ MeetsWeak h) ↔ (k ≡ 3))",
        "VerdictsDecide",
    ),
    change(
        "laws::verdicts_prove_themselves",
        "any k operations are consistent",
        f"{SPECS}/Verdict.antt",
        "IsOperationSet v smaller → length smaller < k → IsConsistent v smaller",
        "IsOperationSet v smaller → length smaller ≤ k → IsConsistent v smaller",
        "VerdictsProveThemselves",
    ),
    change(
        "laws::layers_bound_cycles",
        "a row of version two speaks of its source alone",
        f"{SPECS}/LayerRule.antt",
        "row_responses two v source = narrowed v (elements_from v.elements source)",
        "row_responses two v source = narrowed v (source ∷ [])",
        "Narrowed",
        "Layers",
    ),
    change(
        "worked::worked_certificates",
        "a row of version two speaks of all elements",
        f"{SPECS}/LayerRule.antt",
        "row_responses two v source = narrowed v (elements_from v.elements source)",
        "row_responses two v source = narrowed v v.elements",
        "Narrowed",
        "rows/Certificates",
    ),
    change(
        "worked::worked_recordings",
        "certificates of version two have the header of version one",
        f"{SPECS}/CertificateText.antt",
        'version_line two = codes "cert 2"',
        'version_line two = codes "cert 1"',
        "rows/Recordings",
    ),
    change(
        "worked::worked_recordings",
        "visibility without transitivity",
        f"{SPECS}/Visibility.antt",
        "through : {f g e : Operation} → Visible h f g → Visible h g e → Visible h f e",
        "through : {f g e : Operation} → Visible h f g → Visible h f e → Visible h f e",
        "Sight",
    ),
    change(
        "worked::worked_recordings",
        "a deleted element stays in the contents",
        f"{SPECS}/Faults.antt",
        "ElementIsVisible h e a = InsertIsVisible h e a × (¬ DeleteIsVisible h e a)",
        "ElementIsVisible h e a = InsertIsVisible h e a × (DeleteIsVisible h e a → DeleteIsVisible h e a)",
        "Rightness",
    ),
    change(
        "worked::worked_recordings",
        "a view holds everything that is visible",
        f"{SPECS}/Faults.antt",
        "(¬ IsView h e → ElementIsVisible h e a → Contains (response h e) a)",
        "(ElementIsVisible h e a → Contains (response h e) a)",
        "Rightness",
    ),
    change(
        "worked::worked_recordings",
        "a view may hold what is deleted",
        f"{SPECS}/Faults.antt",
        "(Contains (response h e) a → ElementIsVisible h e a)",
        "(Contains (response h e) a → InsertIsVisible h e a × (¬ IsView h e → ¬ DeleteIsVisible h e a))",
        "Rightness",
    ),
    change(
        "worked::worked_recordings",
        "every response may leave elements out",
        f"{SPECS}/Faults.antt",
        "IsView h e = (w : List NameBytes) × (operation h e ≡ Some (View w))",
        "IsView h e = (w : List NameBytes) × (response h e ≡ w)",
        "Rightness",
    ),
    change(
        "worked::worked_recordings",
        "a view is no operation",
        f"{EVENTS}/History.antt",
        "is_operation (View response) = true",
        "is_operation (View response) = false",
        "rows/Recordings",
    ),
    change(
        "worked::worked_recordings",
        "version two is written for every recording",
        f"{SPECS}/TraceText.antt",
        "version_of [] = one",
        "version_of [] = two",
        "rows/Recordings",
    ),
    change(
        "worked::worked_recordings",
        "version one is written for every recording",
        f"{SPECS}/TraceText.antt",
        "cond (is_view e.body) two (version_of entries)",
        "cond (is_view e.body) (version_of entries) (version_of entries)",
        "rows/Recordings",
    ),
    change(
        "worked::worked_recordings",
        "a view is spelled as a read",
        f"{SPECS}/TraceText.antt",
        'body_text (View response) = codes " view :"',
        'body_text (View response) = codes " read :"',
        "rows/Recordings",
    ),
    change(
        "worked::worked_recordings",
        "an insert past the end is a fault",
        f"{SPECS}/Faults.antt",
        "slice_get w (min at (length w - 1)) ≡ Some name",
        "slice_get w (min at (length w)) ≡ Some name",
        "Rightness",
    ),
    change(
        "worked::worked_recordings",
        "the least order turned round",
        f"{SPECS}/Orders.antt",
        "IsFollowingOrder v other → ¬ ComesFirst v other order",
        "IsFollowingOrder v other → ¬ ComesFirst v order other",
        "Judging",
    ),
    change(
        "worked::worked_recordings",
        "operations ordered by their number first",
        f"{EVENTS}/Operation.antt",
        "nat_lt f.replica e.replica || ((f.replica == e.replica) && nat_lt f.n e.n)",
        "nat_lt f.n e.n || ((f.n == e.n) && nat_lt f.replica e.replica)",
        "Dictionary",
        "OperationNames",
    ),
    change(
        "worked::worked_recordings",
        "operations counted from 0",
        f"{EVENTS}/Operations.antt",
        "(numbers_from 1 (count h r))",
        "(numbers_from 0 (count h r))",
        "OperationNames",
    ),
    change(
        "worked::worked_recordings",
        "the report says weak no at number 3",
        f"{SPECS}/ReportText.antt",
        "weak_line k = if k == 2",
        "weak_line k = if k == 3",
        "rows/Recordings",
    ),
    change(
        "worked::worked_recordings",
        "a receipt of any number is taken",
        f"{EVENTS}/Session.antt",
        "passes (λ o. nat_lt (count_of o.replica entries) o.n) (received e.body), NotYet",
        "passes (λ o. nat_lt o.n (count_of o.replica entries)) (received e.body), NotYet",
        "rows/Recordings",
    ),
    change(
        "worked::worked_certificates",
        "an element in no layer is one layer deeper",
        f"{SPECS}/LayerRule.antt",
        "list_any (bytes_eq x) layer) row) (k - 1)",
        "list_any (bytes_eq x) layer) row) k",
        "rows/Certificates",
    ),
    change(
        "worked::worked_certificates",
        "the first layer holds what is one step away",
        f"{SPECS}/ExactRows.antt",
        "slice_get row n ≡ Some layer → IsLayer v source n layer",
        "slice_get row n ≡ Some layer → IsLayer v source (suc n) layer",
        "Distances",
    ),
    change(
        "worked::worked_texts",
        "version one has views",
        f"{SPECS}/TraceText.antt",
        "IsOfVersion one e = is_view e.body ≡ false",
        "IsOfVersion one e = Unit {0}",
        "rows/Texts",
    ),
    change(
        "worked::worked_texts",
        "version two has the header of version one",
        f"{SPECS}/TraceText.antt",
        'header_line two = codes "trace 2"',
        'header_line two = codes "trace 1"',
        "rows/Texts",
    ),
    change(
        "worked::worked_texts",
        "lines counted from 0",
        f"{SPECS}/TraceText.antt",
        """pub text_is : text ≡ text_of good ++ rest
  pub number : line ≡ length good + 1""",
        """pub text_is : text ≡ text_of good ++ rest
  pub number : line ≡ length good""",
        "rows/Texts",
    ),
)


def stale_changes() -> list[str]:
    """The texts that don't stand once in their files any more."""
    return [f"{edit.file}: stands {found} times: {edit.old}" for wanted in CHANGES for edit in wanted.edits
            if (found := len(pattern_of(edit.old).findall((ROOT / edit.file).read_text(encoding="utf-8")))) != 1]


def replace_once(folder: Path, edit: Edit) -> str:
    """Make the edit in the folder, and give the file's text from before."""
    file = folder / edit.file
    text = file.read_text(encoding="utf-8")
    changed, found = pattern_of(edit.old).subn(lambda _: edit.new, text)
    if found != 1:
        raise SystemExit(f"{edit.file}: this text stands there {found} times, not once: {edit.old}")
    file.write_text(changed, encoding="utf-8")
    return text


def check(folder: Path) -> str:
    """What `rt check` prints for `specification`."""
    done = subprocess.run(
        ["rt", "check"], cwd=folder / "crates/specification", capture_output=True, text=True, check=False
    )
    return done.stdout + done.stderr


def is_proved(printed: str) -> bool:
    """Whether the last verdict is that all is proved; those before it are of the crates below."""
    verdicts = re.findall(r"^logic=(\S+)", printed, re.MULTILINE)
    return bool(verdicts) and verdicts[-1] == "proved"


def is_refused_below(wanted: Change, printed: str) -> bool:
    """Whether `events` itself is refused, whose bodies are proved against its own definitions."""
    changes_events = any(edit.file.startswith(EVENTS) for edit in wanted.edits)
    return changes_events and "the library events did not build" in printed


def fault_of(wanted: Change, printed: str) -> str | None:
    """Why the output is no refusal as wanted; None where it is one."""
    if is_proved(printed):
        return "the crate is still proved"
    if re.search(r"(specs|src)/\S*: error", printed):
        return "an error in a definition, not in a proof"
    if is_refused_below(wanted, printed):
        return None
    if f"fn specification::{wanted.function}: not proved" not in printed:
        return "the law's function is not named as unproved"
    missing = [p for p in wanted.proofs if not re.search(rf"proofs/{p}\.antt:\d+:\d+: error: `", printed)]
    return f"no error in proofs/{missing[0]}.antt" if missing else None


def try_change(folder: Path, wanted: Change) -> tuple[str | None, str]:
    """Make the change, check, and undo it: what is wrong with the refusal, if anything, and where it was refused."""
    before = [(edit.file, replace_once(folder, edit)) for edit in wanted.edits]
    printed = check(folder)
    for file, text in before:
        (folder / file).write_text(text, encoding="utf-8")
    fault = fault_of(wanted, printed)
    if fault is not None:
        print(printed[-3000:])
    below = is_refused_below(wanted, printed)
    return fault, "events" if below else ", ".join(f"proofs/{p}.antt" for p in wanted.proofs)


def copy_crates(folder: Path) -> None:
    """The two crates, with the work of earlier checks, which makes each try quick."""
    shutil.copy(ROOT / "HANDLES", folder / "HANDLES")
    lines = (ROOT / "crates.txt").read_text(encoding="utf-8").splitlines(keepends=True)
    (folder / "crates.txt").write_text("".join(line for line in lines if line.split(":")[0].split(" ")[0] in CRATES))
    for name in CRATES:
        shutil.copytree(ROOT / "crates" / name, folder / "crates" / name)


def main() -> int:
    words = sys.argv[1:]
    wanted = [c for c in CHANGES if all(word in f"{c.function} {c.name}" for word in words)]
    refused = 0
    with tempfile.TemporaryDirectory(prefix="changed_definitions_") as name:
        folder = Path(name)
        copy_crates(folder)
        if not is_proved(check(folder)):
            print("the crates are not proved as they stand")
            return 1
        for one in wanted:
            start = time.monotonic()
            fault, where = try_change(folder, one)
            refused += fault is None
            verdict = "refused" if fault is None else f"NOT REFUSED ({fault})"
            print(f"{verdict}: {one.function}: {one.name} [{where}, {time.monotonic() - start:.0f} s]", flush=True)
    said = f"{refused} of {len(wanted)} changes refused"
    print(said)
    if not words:
        note("tests/proofs/changed_definitions.py", said)
    return 0 if refused == len(wanted) else 1


if __name__ == "__main__":
    sys.exit(main())
