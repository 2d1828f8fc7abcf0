#!/usr/bin/env python3
"""refused_calls.py PROGRAM [--few] [--write] [--most N] [--processes N]: each call that can answer out of memory, with a request refused.

Of each such call it takes a test of the crates that makes it and compares what it answers, and runs it with its first request
refused, then with its second, and so on until a run meets no refusal; a test that would take more than --most runs, 20,000 unless
told otherwise, is cut short, and fails. A call that only an engine of the program has is tried by the program's command, on three
vectors. A test passes where its calls answer out of memory, or what they must, and again what they must when memory is there. The
table of calls is printed, and with --write it is put into refused_calls.md, where nothing failed. A call without a line there
fails, and so does one whose test is gone.

Such a call is a public function of a crate's surface, or a method of a type of it, whose answer has a place for out of memory: the
sources are asked which they are. Those that never give it are named below, with what says so. It needs what `rt ci` has built in
this repository, and a C compiler (`cc`).

With --few it is a part of the gate: of each test and command the first request is refused, the last, the one in the middle, and
those by which the last is found."""
from __future__ import annotations

import argparse
import re
import sys
import tempfile
from concurrent.futures import ThreadPoolExecutor
from pathlib import Path
from typing import NamedTuple

ROOT = Path(__file__).resolve().parents[2]
sys.path.insert(0, str(ROOT / "tests"))
from memory.refused_memory import few, refuse_each, refuse_few, shim  # noqa: E402
from memory.refused_memory_of_tests import Test, tests_of  # noqa: E402
from shared.last_runs import note  # noqa: E402
from shared.program import Tally, program_of  # noqa: E402

PAGE = ROOT / "tests" / "memory" / "refused_calls.md"
BEGIN, END = "<!-- refused memory: made by tests/memory/refused_calls.py -->", "<!-- end of refused memory -->"
VECTORS = [ROOT / "tests" / "vectors" / f"{name}.trace" for name in ("all-three-way-cycle", "all-opposite-pair", "all-contents")]
MOST = 20_000

# The calls of the program alone, which are no crate's surface; the list is kept by hand.
ENGINES = ("live",)
# The calls that no crate's test makes, since libdomepeeler alone asks for them: tests/program/library.py refuses each request of its calls in turn.
OF_LIBRARY = ("least_conflict_in_turn", "verdict_and_graph_in_turn", "judge_and_write_in_turn", "report_on_text", "certificate_on_text")
# The calls whose answer has a place for out of memory that they never give, and how that is known.
NEVER = {
    "Recording::room": "takes no memory, and its clause tells the answer, memory apart",
    "Outline::read": "takes no memory, and its clause `memory` says so",
    "write_output": "takes no memory, and its clause `err` names a failed write alone",
}
# Crates whose calls are made by tests alone.
OF_TESTS = ("sample_recordings",)

# By call: the crate and its tests, or the program's command.
TESTS = {
    "Response::push": ("events", "responses_are_lists"),
    "Response::push_names": ("events", "names_of_texts_are_put", "at_most_64_names_are_put_at_once"),
    "Response::push_run": ("events", "texts_go_on_with_names"),
    "Response::push_bytes": ("events", "responses_are_put_together_from_bytes"),
    "Response::with_room": ("events", "responses_are_put_together_from_bytes"),
    "Response::copy": ("events", "responses_are_copied"),
    "Body::copy": ("events", "copies_are_equal_and_go_on_alone"),
    "Entry::copy": ("events", "copies_are_equal_and_go_on_alone"),
    "Recording::new": ("events", "a_recording_has_one_to_sixteen_replicas"),
    "Recording::record": ("events", "entries_are_taken_or_refused", "a_refused_entry_is_handed_back"),
    "Recording::copy": ("events", "a_full_recording_is_copied", "copies_are_equal_and_go_on_alone"),
    "Recording::operations": ("contents_check", "one_thread_finds_the_same_fault"),
    "format_words::push_number": ("format_words", "words_stand_behind_each_other"),
    "format_words::push_operation": ("format_words", "words_stand_behind_each_other"),
    "format_words::push_name": ("format_words", "words_stand_behind_each_other"),
    "format_words::push_names": ("format_words", "words_stand_behind_each_other"),
    "format_words::names": ("format_words", "names_are_read_to_the_end"),
    "format_words::response": ("format_words", "a_response_is_read_to_the_end"),
    "push_list": ("certificate_text", "certificates_are_read_and_written_again"),
    "push_faulty": ("certificate_text", "certificates_are_read_and_written_again"),
    "push_order": ("certificate_text", "certificates_are_read_and_written_again"),
    "push_doubled": ("certificate_text", "certificates_are_read_and_written_again"),
    "push_shown": ("certificate_text", "certificates_are_read_and_written_again"),
    "trace_text::read": ("trace_text", "a_text_gives_its_entries", "plain_texts_are_read_and_written_again"),
    "trace_text::write": ("trace_text", "plain_texts_are_read_and_written_again", "views_are_read_and_written_again"),
    "Reader::feed": ("trace_text", "a_text_in_two_pieces", "faults_of_texts_in_pieces"),
    "Reader::end": ("trace_text", "texts_byte_by_byte"),
    "Sight::of": ("visibility", "a_chain_of_receipts_is_seen", "a_receipt_tells_what_comes_after_it"),
    "first_fault": ("contents_check", "contents_are_those_that_are_visible", "doubled_names_come_first"),
    "contents_check::check": ("contents_check", "sound_recordings_have_no_fault", "inserts_stand_where_they_were_asked_for"),
    "contents_check::check_in_turn": ("contents_check", "one_thread_finds_the_same_fault"),
    "Covering::add": ("contents_check", "one_thread_finds_the_same_fault"),
    "Covering::append": ("contents_check", "sound_recordings_have_no_fault"),
    "Rows::push_row": ("contents_check", "one_thread_finds_the_same_fault"),
    "Rows::end_row": ("graph_tests", "an_element_that_no_response_shows", "two_none_and_all_of_the_ring_of_four"),
    "inserted_names": ("graph_tests", "steps_of_worked_recordings"),
    "numbers_of": ("graph_tests", "steps_of_worked_recordings"),
    "places_of": ("graph_tests", "steps_of_worked_recordings"),
    "BitSet::new": ("bit_tables", "unions_and_subsets"),
    "BitSet::difference": ("bit_tables", "the_numbers_that_another_set_lacks"),
    "BitSet::difference_from": ("bit_tables", "layers_of_numbers"),
    "empty_lists": ("bit_tables", "the_rule_from_a_number_on"),
    "empty_rows": ("bit_tables", "what_stands_after_what"),
    "Noter::new": ("bit_tables", "what_stands_after_what"),
    "AfterTable::new": ("bit_tables", "what_stands_after_what"),
    "AfterTable::add": ("bit_tables", "lists_beside_the_one_before"),
    "AfterTable::note_included": ("bit_tables", "rows_that_the_row_before_has"),
    "are_deep": ("bit_tables", "the_rule_from_a_number_on", "depths_that_lie_far_apart"),
    "bit_tables::meets_rule": ("bit_tables", "the_rule_from_a_number_on"),
    "bit_tables::layers_from": ("bit_tables", "layers_of_numbers"),
    "ListLayers::new": ("certificate", "rows_of_worked_recordings_along_lists"),
    "ListLayers::layers_from": ("certificate", "rows_of_worked_recordings_along_lists"),
    "thinned": ("certificate", "rows_of_worked_recordings_along_lists"),
    "ListRule::new": ("list_rule", "rows_by_the_definition"),
    "OrderGraph::of": ("graph_tests", "steps_of_worked_recordings", "marks_of_the_ring_of_four"),
    "BeforeTable::of": ("graph_tests", "rows_that_a_search_of_the_ring_of_four_looks_at"),
    "Sets::new": ("graph_tests", "rows_that_a_search_of_the_ring_of_four_looks_at"),
    "Scratch::new": ("graph_tests", "a_scratch_fits_its_graph_alone"),
    "Bound::new": ("shared_bound", "two_seats_share_three_sources"),
    "conflict_number": ("graph_tests", "worked_recordings_for_any_number_of_workers"),
    "least_cycle": ("graph_tests", "least_cycles_of_worked_recordings"),
    "least_conflict": ("graph_tests", "conflicts_of_worked_recordings"),
    "least_conflict_along": ("graph_tests", "conflicts_of_worked_recordings"),
    "verdict::judge": ("certificate", "verdicts_of_worked_recordings", "any_number_of_workers"),
    "report::text": ("engines", "worked_recordings"),
    "report::json": ("engines", "reports_as_json"),
    "OrderGraph::turned": ("graph_tests", "ring_of_four_turned"),
    "OrderGraph::emptied": ("graph_tests", "conflicts_of_worked_recordings"),
    "ReadyScratch::new": ("graph_tests", "conflicts_of_worked_recordings"),
    "OrderGraph::narrowed": ("graph_tests", "two_none_and_all_of_the_ring_of_four"),
    "witness_order::taken": ("graph_tests", "neither_a_cycle_nor_what_stands_after_it_is_taken"),
    "witness_order::order": ("graph_tests", "the_least_of_several_orders"),
    "witness_order::sort": ("graph_tests", "the_least_of_several_orders"),
    "successors_of": ("graph_tests", "the_least_of_several_orders"),
    "certify": ("certificate", "certificates_of_worked_recordings"),
    "write_certificate": ("certificate", "certificates_written_row_by_row"),
    "judge_and_write": ("certificate", "certificates_with_their_verdicts"),
    "Certificate::write": ("certificate_text", "certificates_are_read_and_written_again"),
    "certificate_text::push_row": ("certificate", "certificates_written_row_by_row"),
    "Certificate::read": ("certificate_text", "certificates_are_read_and_written_again"),
    "cert_check::check": ("cert_check", "valid_certificates", "reasons_against_certificates"),
    "cert_check::check_in_turn": ("cert_check", "valid_certificates", "reasons_against_certificates"),
    "check_recording": ("engines", "right_trace_is_judged"),
    "check_recording_in_turn": ("engines", "right_trace_is_judged"),
    "engines::line_of": ("engines", "right_trace_is_judged"),
    "Session::open": ("sessions", "sessions_have_1_to_16_replicas"),
    "Session::record": ("sessions", "two_passes"),
    "snapshot": ("sessions", "two_passes"),
    "watch_snapshot": ("sessions", "session_of_two"),
    "watch": ("sessions", "watched_three_way_cycle"),
    "replay": ("sessions", "stalled_and_resumed", "receipt_out_of_range"),
    "replay_with": ("sessions", "waiter_says_how_often"),
    "Registry::add": ("sessions", "registry_of_64"),
    "Registry::names": ("sessions", "registry_of_64"),
    "live_engine::live": ("program", "live"),
    "rehearse": ("program", "live"),
    "rehearse_watched": ("program", "live"),
    "verdict_and_graph": ("certificate", "certificates_with_their_verdicts"),
    "recording_from": ("engines", "worked_recordings"),
    "verdict_on": ("engines", "worked_recordings"),
    "run": ("engines", "worked_recordings", "any_number_of_workers"),
    "run_cert": ("program", "cert"),
    "run_verify": ("program", "verify"),
    "live": ("program", "live"),
    "Source::whole": ("program", "verify"),
    "Word::new": ("command_line", "words_of_a_command_line"),
    "read_words": ("command_line", "words_of_a_command_line", "words_of_certificates"),
}


FUNCTION = re.compile(r"( *)pub fn (\w+)")
IMPL = re.compile(r"impl(?:<.*?>)? (?:[\w:]+(?:<.*>)? for )?(\w+)")
TYPE = re.compile(r"^(?:pub )?(?:enum|struct) (\w+)[^;{(]*(?:\{\n(.*?)^\}|\((.*?)\);)", re.MULTILINE | re.DOTALL)
USE = re.compile(r"^pub use ([^;]*);", re.MULTILINE)
# What ends the head of a function.
BODY = re.compile(r"\s*(?:requires|ensures|ghost|//|\{)")
# The type of an answer's error: what stands behind the last comma outside of brackets.
ERROR = re.compile(r"-> Result<.*, ([^,<>()]+)>")


class Line(NamedTuple):
    """A line of the table: the call, its test, how many runs had a request refused, and what was seen."""

    call: str
    test: str
    refused: int
    seen: str

    def text(self) -> str:
        return f"| `{self.call}` | `{self.test}` | {self.refused:,} | {self.seen} |"


def words_in(text: str) -> set:
    return set(re.findall(r"\w+", text))


def code_of(crate: Path) -> list[Path]:
    """The files of a crate's code, without its tests."""
    return [path for path in sorted(crate.glob("src/**/*.rt")) if "tests" not in (*path.parts[len(ROOT.parts):], path.stem)]


def memory_types() -> set:
    """The types that have a place for out of memory: some part of them is `Memory`, or of such a type."""
    parts = {}
    for crate in (ROOT / "crates").iterdir():
        for path in code_of(crate):
            for name, body, tuple_body in TYPE.findall(path.read_text()):
                parts.setdefault(name, set()).update(words_in(re.sub(r"//.*", "", body + tuple_body)))
    found = {"Memory", "AllocError"}
    while more := {name for name, words in parts.items() if name not in found and words & found}:
        found |= more
    return found


def calls_in(path: Path, shown: set, types: set):
    """The calls of a file that are of the surface and may be out of memory, a method with its type."""
    owner, lines = "", path.read_text().splitlines()
    for place, line in enumerate(lines):
        if line.startswith("}"):
            owner = ""
        elif impl := IMPL.match(line):
            owner = impl[1]
        elif function := FUNCTION.match(line):
            head = line
            for more in lines[place + 1:]:
                if "{" in head or BODY.match(more):
                    break
                head += " " + more.strip()
            error = ERROR.search(head)
            is_shown = owner in shown if function[1] else function[2] in shown or path.stem == "lib"
            if is_shown and error and words_in(error[1]) & types:
                yield f"{owner}::{function[2]}" if function[1] else function[2]


def surface() -> list[str]:
    """The calls of all crates that may be out of memory, each with its crate before it."""
    types, calls = memory_types(), []
    for root in sorted((ROOT / "crates").glob("*/src/lib.rt")):
        crate = root.parent.parent
        shown = words_in(" ".join(USE.findall(root.read_text())))
        if crate.name not in OF_TESTS:
            calls += [f"{crate.name}::{call}" for path in code_of(crate) for call in calls_in(path, shown, types)]
    return calls


def named(name: str, calls: list[str]) -> list[str]:
    """The calls that a name stands for, which may leave out their crate and their type."""
    return [call for call in calls if f"::{call}".endswith(f"::{name}")]


def check_names(tally: Tally) -> None:
    """Each call of the surface has one name in the lists here, and each name stands for one call."""
    calls, names = surface(), [name for name in (*TESTS, *NEVER, *OF_LIBRARY) if name not in ENGINES]
    for call in calls:
        tally.check(f"{call} has a test, or a reason to have none", sum(call in named(name, [call]) for name in names) == 1)
    for name in names:
        tally.check(f"{name} is a call of the surface", len(named(name, calls)) == 1, named(name, calls))
    for name in ENGINES:
        tally.check(f"{name} has a test", name in TESTS)


def refuse_in_test(tally: Tally, call: str, test: Test, name: str, most: int) -> Line:
    """One request after the other, until a run meets no refusal."""
    stopped = []
    for request in range(1, most + 1):
        status, was_refused = test.run(request)
        if not was_refused:
            is_whole, refused = status == 0, request - 1
            break
        if status != 0:
            stopped.append(request)
    else:
        is_whole, refused = False, most
    tally.check(f"{call}: {name}", is_whole and not stopped and refused > 0, stopped)
    seen = "passed each time" if not stopped else f"failed at {stopped[:9]}"
    return Line(call, name, refused, seen if is_whole else f"{seen}; cut short")


def refuse_few_in_test(tally: Tally, calls: str, test: Test, name: str) -> None:
    """The first request, the last, and some between them; and a run that meets no refusal."""
    ended = {}

    def refuse(request: int) -> bool:
        ended[request] = test.run(request)
        return ended[request][1]

    last = few(refuse)
    stopped = [request for request, (status, _) in sorted(ended.items()) if status != 0]
    tally.check(f"{calls}: {name}", last > 0 and not stopped, stopped)


def refuse_in_program(tally: Tally, call: str, library: str, folder: str, program: str, command: str, refuse=refuse_each) -> Line:
    """The program's command on three vectors."""
    runs = memory = thread = 0
    own = Tally()
    for trace in VECTORS:
        certificate = [str(trace.with_suffix(".cert2"))] if command == "verify" else []
        more = refuse(own, library, folder, [program, command, str(trace), *certificate])
        runs, memory, thread = runs + more.runs, memory + more.memory, thread + more.thread
    without = f", {thread:,} times without a thread" if thread else ""
    seen = f"{memory:,} times out of memory{without}, else the right answer" if not own.failed else "another answer"
    tally.add(own)
    return Line(call, f"the program's {command}", runs, seen)


def line_of(tally: Tally, library: str, folder: str, program: str, most: int, call: str, crate: str, name: str) -> Line | None:
    """The line of a call and a test, with files of its own in the folder; none where there is no such test."""
    own = tempfile.mkdtemp(dir=folder)
    if crate == "program":
        return refuse_in_program(tally, call, library, own, program, name)
    test = test_of(tally, library, own, call, crate, name)
    return refuse_in_test(tally, call, test, f"{crate} {name}", most) if test else None


def test_of(tally: Tally, library: str, folder: str, call: str, crate: str, name: str) -> Test | None:
    """The test of a crate that makes the call; none where there is no such test."""
    built = next(iter(sorted((ROOT / "crates" / crate / "out").glob("*_tests"))), None)
    whole = [test for test in tests_of(built) if test.split("::")[-1] == name] if built else []
    tally.check(f"{call}: {crate} has the test {name}", len(whole) == 1, built or "`rt ci` has not been run here")
    return Test(library, folder, built, whole[0]) if len(whole) == 1 else None


def refuse_few_of_all(tally: Tally, library: str, folder: str, processes: int, program: str) -> None:
    """A few requests of each test and command, of a test that makes several calls once."""
    calls = {}
    for call, (crate, *names) in TESTS.items():
        for name in names:
            calls.setdefault((crate, name), []).append(call)

    def refuse(crate: str, name: str) -> None:
        own, told = tempfile.mkdtemp(dir=folder), " ".join(calls[crate, name])
        if crate == "program":
            refuse_in_program(tally, told, library, own, program, name, refuse_few)
        elif test := test_of(tally, library, own, told, crate, name):
            refuse_few_in_test(tally, told, test, f"{crate} {name}")

    with ThreadPoolExecutor(processes) as asking:
        list(asking.map(lambda pair: refuse(*pair), calls))


def lines(tally: Tally, library: str, folder: str, given: argparse.Namespace, program: str) -> list[Line]:
    """A line for each call and test, so many of them at a time as were asked for."""
    pairs = [(call, crate, name) for call, (crate, *names) in TESTS.items() for name in names]
    made = []
    with ThreadPoolExecutor(given.processes) as asking:
        for line in asking.map(lambda pair: line_of(tally, library, folder, program, given.most, *pair), pairs):
            if line is not None:
                made.append(line)
                print(line.text(), flush=True)
    return made


def put(table: str) -> None:
    """The table in the page, in the place of the one that is there."""
    front, rest = PAGE.read_text().split(BEGIN)
    PAGE.write_text(f"{front}{BEGIN}\n\n{table}\n{END}{rest.split(END)[1]}")


def main() -> None:
    words = argparse.ArgumentParser(description=__doc__)
    words.add_argument("program")
    words.add_argument("--few", action="store_true", help="refuse a few requests of each")
    words.add_argument("--write", action="store_true", help="put the table into refused_calls.md")
    words.add_argument("--most", type=int, default=MOST, help="how many runs of a test at most")
    words.add_argument("--processes", type=int, default=1, help="how many tests are tried at a time")
    given = words.parse_args()
    program = program_of([sys.argv[0], given.program])
    tally = Tally()
    check_names(tally)
    if given.few:
        with tempfile.TemporaryDirectory() as folder:
            refuse_few_of_all(tally, shim(folder), folder, given.processes, program)
        tally.close()
    with tempfile.TemporaryDirectory() as folder:
        made = lines(tally, shim(folder), folder, given, program)
    missing = set(TESTS) - {one.call for one in made}
    tally.check("each call has a line", not missing, missing)
    if given.write and not tally.failed:
        put("\n".join(["| call | test | requests refused | seen |", "|---|---|---|---|", *(one.text() for one in made), ""]))
    if given.most >= MOST:
        note("tests/memory/refused_calls.py", f"{tally.said()}, {len(made)} lines of {len(TESTS)} calls", program)
    tally.close()


if __name__ == "__main__":
    main()
