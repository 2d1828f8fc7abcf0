#!/usr/bin/env python3
"""recorder_packages.py PROGRAM: the recorders as packages of Python, JavaScript and Rust, each installed without a registry into an empty
place, and used there by a test of that language's own runner, which must pass, or fail with an explanation and a saved trace.

Needs node, npm and cargo, and for Debian's Python pip, setuptools, wheel, venv, pytest and pytest-xdist, which are installed where they
are missing. So is Debian's proptest; where that can't be, a crate stands in for it."""
import os
import re
import shutil
import subprocess
import sys
import tempfile
import time
from concurrent.futures import ThreadPoolExecutor
from pathlib import Path
from typing import NamedTuple

ROOT = Path(__file__).resolve().parents[2]
sys.path[:0] = [str(ROOT / "tests"), str(ROOT / "tools")]
from explaining.warnings import warnings_of  # noqa: E402
from shared.program import Tally, install, need, program_of  # noqa: E402

RECORDERS = ROOT / "recorders"
HANDING_ON = RECORDERS / "javascript/domepeeler.mjs"
DEBIAN_PYTHON = "/usr/bin/python3"
MODULES = {"pip": "python3-pip", "setuptools": "python3-setuptools", "wheel": "python3-wheel", "venv": "python3-venv",
           "pytest": "python3-pytest", "xdist": "python3-pytest-xdist"}
CRATES = Path("/usr/share/cargo/registry")  # Debian's
PROPTEST = "librust-proptest+std-dev"

# A replica received an element, and then answers that it has none. Its explanation begins with the first of these lines.
LOST = "contents 1.1: "
LOST_TRACE = "trace 1\nreplicas 2\n0 ins a 0 : a\n1 recv 0 1\n1 read :\n"
TOLD = [LOST, "[a] inserted by 0.1 (line 3), which arrived at replica 1 in line 4 (1 recv 0 1)"]
BUILT = {"__pycache__", "build", "domepeeler.egg-info", "node_modules", "target", "Cargo.lock"}  # what a user's own use may leave there
DICTIONARY = ["'verdict'", '"verdict"', "Traceback"]

PYTEST = '''
import pytest


def lose(recording):
    n = recording.insert(0, "a", 0, ["a"])
    recording.received(1, 0, n)
    recording.read(1, [])


def test_right(domepeeler):
    recording = domepeeler(2)
    n = recording.insert(0, "a", 0, ["a"])
    recording.received(1, 0, n)
    recording.read(1, ["a"])


def test_lost(domepeeler):
    lose(domepeeler(2))  # lost


def test_fails_by_itself(domepeeler):
    lose(domepeeler(2))  # and fails
    assert 1 == 2


def test_fails_by_itself_alone(domepeeler):
    domepeeler(2).read(0, [])
    assert 3 == 4


@pytest.mark.parametrize("word", ["a/b", "a:b"])
def test_second(domepeeler, word):
    domepeeler(1).read(0, [])
    lose(domepeeler(2))


def test_without():
    pass


def test_not_causal(domepeeler):
    recording = domepeeler(3)
    recording.insert(2, "a", 0, ["a"])
    recording.received_clock(1, 2, {2: 1})
    recording.insert(1, "b", 1, ["a", "b"])
    recording.received_clock(0, 1, recording.clock(1))


@pytest.mark.xfail(strict=True)
def test_meant_to_fail(domepeeler):
    lose(domepeeler(2))
'''

NODE_TEST = '''
import assert from "node:assert"
import { test } from "node:test"
import { NotCausal, Recording } from "domepeeler"
import { NotAccepted, accepted, recorded } from "domepeeler/node_test"

function lose(recording) {
  const n = recording.insert(0, "a", 0, ["a"])
  recording.received(1, 0, n)
  recording.read(1, [])
}

test("right", recorded(2, (recording) => {
  const n = recording.insert(0, "a", 0, ["a"])
  recording.received(1, 0, n)
  recording.read(1, ["a"])
}))
test("lost", recorded(2, lose))
test("fails by itself", recorded(2, (recording) => {
  lose(recording) // and fails
  throw new Error("one is not two")
}))
test("awaited", async () => {
  const recording = new Recording(2)
  lose(recording)
  const why = await accepted(recording, "own/awaited.trace").catch((why) => why)
  if (!(why instanceof NotAccepted) || !why.message.startsWith("contents 1.1: ")) throw new Error(`not so: ${why}`)
  await accepted(new Recording(1), "own/right.trace")
  await accepted(new Recording(1), "own/right.trace")
  const clocked = new Recording(3)
  clocked.insert(2, "a", 0, ["a"])
  clocked.receivedClock(1, 2, new Map([[2, 1]]))
  clocked.insert(1, "b", 1, ["a", "b"])
  assert.throws(() => clocked.receivedClock(0, 1, { 1: 1, 2: 1 }), NotCausal)
  clocked.receivedClock(0, 2, { 2: 1 })
  assert.throws(() => clocked.receivedClock(0, 2, { 3: 1 }), /no replica 3 among 0 to 2/)
  assert.strictEqual(clocked.text(), "trace 1\\nreplicas 3\\n2 ins a 0 : a\\n1 recv 2 1\\n1 ins b 1 : a b\\n0 recv 2 1\\n")
})
'''

# Tests that are run first with LOSE in the surroundings, where all that record anything fail, and then without: then two still fail.
AGAIN = {
    "python": '''
import os


def record(recording, is_lost):
    n = recording.insert(0, "a", 0, ["a"])
    recording.received(1, 0, n)
    recording.read(1, [] if is_lost else ["a"])


def test_mended(domepeeler):
    record(domepeeler(2), "LOSE" in os.environ)


def test_mended_twice(domepeeler):
    record(domepeeler(2), "LOSE" in os.environ)
    record(domepeeler(2), "LOSE" in os.environ)


def test_lost(domepeeler):
    record(domepeeler(2), True)


def test_fails_by_itself_now(domepeeler):
    record(domepeeler(2), "LOSE" in os.environ)
    assert "LOSE" in os.environ


def test_nothing(domepeeler):
    domepeeler(2)
''',
    "javascript": '''
import { describe, test } from "node:test"
import { recorded } from "domepeeler/node_test"

const record = (isLost, isFailing = false) => recorded(2, (recording) => {
  const n = recording.insert(0, "a", 0, ["a"])
  recording.received(1, 0, n)
  recording.read(1, isLost ? [] : ["a"])
  if (isFailing) throw new Error("one is not two")
})
const isLost = "LOSE" in process.env

describe("suite", () => test("lost", record(false))) // another test than that of this name which stands in no suite
test("mended", record(isLost))
test("lost", record(true))
test("fails_by_itself_now", record(isLost, !isLost))
'''}

# Two changes of one replica, and one that another made when it had both, come to a third the other way round, by README's code; what is
# taken each time, and the trace.
TAKING = """
import { Recording } from "domepeeler"
import { take } from "./take.mjs"
const recording = new Recording(3), waiting = [], taken = []
const apply = (message) => taken.push(message)
recording.insert(0, "a", 0, ["a"])
const updates = [{ author: 0, clock: recording.clock(0), message: "a" }]
recording.insert(0, "b", 1, ["a", "b"])
updates.push({ author: 0, clock: recording.clock(0), message: "b" })
for (const { author, clock } of updates) recording.receivedClock(1, author, clock)
recording.delete(1, "a", ["b"])
updates.push({ author: 1, clock: recording.clock(1), message: "not a" })
for (const update of updates.reverse()) {
  waiting.push(update)
  console.log(take(recording, 2, waiting, apply), taken.join(" "))
}
let wrong = ""
try { take(recording, 2, [{ author: 1, clock: "no clock", message: "c" }]) } catch (error) { wrong = error.constructor.name }
console.log(wrong)
process.stdout.write(recording.text())
"""
TAKEN = ("false \nfalse \ntrue a b not a\nRefused\ntrace 1\nreplicas 3\n0 ins a 0 : a\n0 ins b 1 : a b\n1 recv 0 1\n1 recv 0 2\n1 del a : b\n"
         "2 recv 0 1\n2 recv 0 2\n2 recv 1 1\n")

# The same in Rust.
TAKING_OF_RUST = """
mod take;
use domepeeler::{Recording, Refused};
use take::{take, Update};

fn main() -> Result<(), Refused> {
    let (mut recording, mut waiting, mut taken) = (Recording::new(3)?, Vec::new(), Vec::new());
    let update = |recording: &Recording, author: usize, message| -> Result<_, Refused> {
        Ok(Update { author, clock: recording.clock(author)?, changes: 1, message })
    };
    recording.insert(0, "a", 0, &["a"])?;
    let mut updates = vec![update(&recording, 0, "a")?];
    recording.insert(0, "b", 1, &["a", "b"])?;
    updates.push(update(&recording, 0, "b")?);
    for Update { author, clock, .. } in &updates {
        recording.received_clock(1, *author, clock, 1)?;
    }
    recording.delete(1, "a", &["b"])?;
    updates.push(update(&recording, 1, "not a")?);
    while let Some(update) = updates.pop() {
        waiting.push(update);
        let all = take(&mut recording, 2, &mut waiting, |message| taken.push(message))?;
        println!("{all} {}", taken.join(" "));
    }
    let wrong = take(&mut recording, 2, &mut vec![Update { author: 1, clock: vec![], changes: 1, message: "c" }], |_| ());
    println!("{}", if matches!(wrong, Err(Refused::NotCausal { .. }) | Ok(_)) { "taken" } else { "Refused" });
    print!("{}", recording.text());
    Ok(())
}
"""

# What a test of CommonJS has in the place of `import`, by the package's README.
COMMON = "(async () => {{ {line}; console.log(new Recording(2).text()) }})()"

# Tests that record before and after their own part, that fail by themselves, and whose accepted recordings may hide something.
# A test whose recording goes on when it has ended, as in a thread, and one whose recording is over.
LATER = """
kept = []


def test_goes_on(domepeeler):
    kept.append(domepeeler(1))
    kept[0].insert(0, "a", 0, ["a"])


def test_is_over(domepeeler):
    kept.append(domepeeler(1))
    kept[1].read(0, [])
    kept[0].read(0, [])
"""

# A fixture of two tests, or of all, which records when it is torn down: behind the first test, and behind the last one's own part.
WIDER = """
import pytest


@pytest.fixture(scope="{scope}")
def server():
    recordings = []
    yield recordings
    for recording in recordings:
        recording.read(0, [])


def test_first(domepeeler, server):
    server.append(domepeeler(1))
    server[0].insert(0, "a", 0, ["a"])


def test_last(domepeeler, server):
    if {is_last_recorded}:
        server.append(domepeeler(1))
        server[1].insert(0, "b", 0, ["b"])
"""
# A fixture of two tests which, when it is torn down, begins a recording for the first of them.
BEGINNING = """
import pytest

kept = []


@pytest.fixture(scope="module")
def server():
    yield
    kept[0](1).insert(0, "a", 0, [])


def test_first(domepeeler, server):
    kept.append(domepeeler)
    domepeeler(1).insert(0, "a", 0, ["a"])


def test_last(server):
    pass
"""

# Fixtures of which a call is refused when they are torn down: behind the test's own part, and when the test has ended.
REFUSED = """
import pytest
from domepeeler import Refused


@pytest.fixture
def client(domepeeler):
    recording = domepeeler(1)
    yield recording
    with pytest.raises(Refused):
        recording.read(0, ["a b"])


@pytest.fixture(scope="module")
def server():
    recordings = []
    yield recordings
    with pytest.raises(Refused):
        recordings[0].read(0, ["a b"])


def test_first(domepeeler, server):
    server.append(domepeeler(1))
    server[0].insert(0, "a", 0, ["a"])


def test_client(client):
    client.insert(0, "a", 0, ["a"])


def test_last(server):
    pass
"""
REFUSAL = "a call was refused, so what it says is not recorded: name "
NO_PASS = "accepted, but this is no pass: "

# Tests of which a call was refused, and that go on: what it says came later, or in a teardown, or never.
REFUSED_CALLS = {
    "python": """
import pytest
from domepeeler import NotCausal, Refused


def take_early(recording):
    recording.insert(1, "a", 0, ["a"])
    recording.insert(1, "b", 1, ["a", "b"])
    with pytest.raises(NotCausal):
        recording.received_clock(0, 1, [0, 2])


def take_all(recording):
    recording.received_clock(0, 1, [0, 1])
    recording.received_clock(0, 1, [0, 2])
    recording.delivered([["a", "b"], ["a", "b"]])


@pytest.fixture
def network(domepeeler):
    recording = domepeeler(2)
    yield recording
    take_all(recording)


@pytest.fixture
def broken_network(domepeeler):
    recording = domepeeler(2)
    yield recording
    recording.read(0, [])


@pytest.mark.parametrize("stop", [False, True])
def test_refused(domepeeler, stop):
    recording = domepeeler(1, stop=stop)
    with pytest.raises(Refused):
        recording.read(0, ["a b"])
    recording.read(0, [])


def test_came(domepeeler):
    recording = domepeeler(2)
    take_early(recording)
    take_all(recording)


def test_comes_in_a_teardown(network):
    take_early(network)


def test_never_came(broken_network):
    take_early(broken_network)
""",
    "javascript": """
import assert from "node:assert"
import { test } from "node:test"
import { NotCausal, Recording, Refused } from "domepeeler"
import { accepted, recorded } from "domepeeler/node_test"

function takeEarly(recording) {
  recording.insert(1, "a", 0, ["a"])
  recording.insert(1, "b", 1, ["a", "b"])
  assert.throws(() => recording.receivedClock(0, 1, [0, 2]), NotCausal)
}
function takeAll(recording) {
  recording.receivedClock(0, 1, [0, 1])
  recording.receivedClock(0, 1, [0, 2])
  recording.delivered([["a", "b"], ["a", "b"]])
}
function refuse(recording) {
  assert.throws(() => recording.read(0, ["a b"]), Refused)
  recording.read(0, [])
}
for (const stop of [false, true]) test(`refused ${stop}`, recorded(1, refuse, { stop }))
test("came", recorded(2, (recording) => {
  takeEarly(recording)
  takeAll(recording)
}))
test("comes in a hook", recorded(2, (recording, context) => {
  context.after(() => takeAll(recording))
  takeEarly(recording)
}))
test("never came", recorded(2, (recording) => {
  takeEarly(recording)
  recording.read(0, [])
}))
for (const act of [takeEarly, refuse]) test(`accepted ${act.name}`, async () => {
  const recording = new Recording(2)
  act(recording)
  await accepted(recording, "refused.trace")
})
test("accepted takeAll", async () => {
  const recording = new Recording(2)
  takeEarly(recording)
  takeAll(recording)
  await accepted(recording, "refused.trace")
})
"""}
# Tests that answer what recorded() has made in the place of calling it, and one that hands it on.
NEVER_CALLED = """
import { test } from "node:test"
import { recorded } from "domepeeler/node_test"

const body = (recording) => { recording.insert(0, "a", 0, []) }
test("arrow", () => recorded(1, body)) // never called
test("awaits", async () => { await recorded(1, body) })
test("within", async (context) => {
  await context.test("inner", recorded(1, (recording) => { recording.insert(0, "a", 0, ["a"]) }))
})
test("block", () => { recorded(1, body) }) // answers nothing
test("skipped", { skip: true }, recorded(1, body))
test("skips within", async (context) => { await context.test("later", { skip: true }, recorded(1, body)) })
recorded(1, body) // handed to nobody
"""

# A thread that begins to record when its test has ended, and still does when pytest ends; it records what is right.
RUNNING = """
import threading
import time

ended, recorded = threading.Event(), threading.Event()


def record(recording):
    ended.wait()
    while True:
        recording.read(0, ["a"])
        recorded.set()
        time.sleep(0.01)


def test_begins(domepeeler):
    recording = domepeeler(1)
    recording.insert(0, "a", 0, ["a"])
    threading.Thread(target=record, args=[recording], daemon=True).start()


def test_waits():
    ended.set()
    assert recorded.wait(60)
"""

ENDS = {
    "python": '''
import os
import pytest
import unittest
from domepeeler import Refused


@pytest.fixture
def late(domepeeler):
    recording = domepeeler(2)
    n = recording.insert(0, "a", 0, ["a"])
    yield recording
    recording.received(1, 0, n)
    recording.read(1, [])


@pytest.fixture
def late_and_right(domepeeler):
    recording = domepeeler(2)
    recording.insert(0, "a", 0, ["a"])
    yield recording
    recording.delivered([["a"], ["a"]])


@pytest.fixture
def begun_late(domepeeler):
    yield
    domepeeler(1).insert(0, "a", 0, [])


@pytest.fixture
def failing(domepeeler):
    domepeeler(1).read(0, [])
    raise ValueError("no editor")


@pytest.fixture
def failing_late(domepeeler):
    yield domepeeler(1)
    raise ValueError("no end")


def test_late(late):
    pass


def test_late_and_right(late_and_right):
    late_and_right.read(0, ["a"])


def test_begun_late(begun_late):
    pass


def test_unsure(domepeeler):
    recording = domepeeler(2)
    recording.insert(0, "a", 0, ["a"])
    recording.read(1, [])


def test_fails_and_is_right(domepeeler):
    recording = domepeeler(1)
    recording.note("seed 17")
    recording.read(0, [])
    assert 5 == 6


def test_set_up(failing):
    pass


def test_torn_down(failing_late):
    failing_late.read(0, [])


@pytest.mark.xfail
def test_meant_to_fail(domepeeler):
    domepeeler(1).read(0, [])
    assert 7 == 8


def test_skipped(domepeeler):
    domepeeler(1).insert(0, "a", 0, ["a"])
    pytest.skip("not today")


def test_skipped_and_wrong(domepeeler):
    domepeeler(1).insert(0, "a", 0, [])
    pytest.skip("nor tomorrow")


def test_begins_none(domepeeler):
    pass


class TestOfUnittest(unittest.TestCase):
    @pytest.fixture(autouse=True)
    def begin(self, domepeeler):
        self.domepeeler = domepeeler

    def test_skips(self):
        for name in "cpu", "gpu":
            with self.subTest(name=name):
                if name == "gpu":
                    self.skipTest("there is none")
                self.domepeeler(1).insert(0, "a", 0, [])

    def test_fails(self):
        self.domepeeler(1).insert(0, "a", 0, [])
        self.fail("nine is not ten")


def test_removes_its_folder(domepeeler, tmp_path, monkeypatch):
    monkeypatch.chdir(tmp_path)
    tmp_path.rmdir()
    domepeeler(1).insert(0, "a", 0, [])


def test_forks(domepeeler):
    recording = domepeeler(1)
    recording.insert(0, "a", 0, ["a"])
    child = os.fork()
    if not child:
        try:
            recording.read(0, [])
        except Refused as why:
            os._exit(7 if "forked" in str(why) else 8)
        os._exit(0)
    assert os.waitpid(child, 0)[1] >> 8 == 7
''',
    "javascript": '''
import { test } from "node:test"
import { recorded } from "domepeeler/node_test"

test("nothing", recorded(2, () => {}))
test("unsure", recorded(2, (recording) => {
  recording.insert(0, "a", 0, ["a"])
  recording.read(1, [])
}))
test("fails and is right", recorded(1, (recording) => {
  recording.note("seed 17")
  recording.read(0, [])
  throw new Error("five is not six")
}))
'''}

# Tests of which the last but one ends pytest, in its own part or while it is torn down.
CUT_SHORT = '''
import pytest


@pytest.fixture
def ending(domepeeler):
    yield domepeeler
    domepeeler(1).read(0, ["a"])
    {teardown}


def test_right(domepeeler):
    domepeeler(1).insert(0, "a", 0, ["a"])


def test_ends(ending):
    ending(1).insert(0, "a", 0, {names})
    {body}


def test_last():
    pass
'''

# Calls whose lists can't be looked at.
FAILING_CALLS = '''
import { Recording } from "domepeeler"
const recording = new Recording(2)
recording.insert(0, "a", 0, ["a"])
const fail = () => { throw new Error("no name") }
const failing = Object.defineProperty(["a"], 0, { get: fail })
for (const act of [() => recording.read(0, failing), () => recording.receivedChanges(1, { [Symbol.iterator]: fail }),
                   () => recording.delivered([["a"], failing])]) try { act() } catch { /* as an event loop does */ }
console.log((await recording.warnings())[0])
recording.text() // so that nothing is said at the end
'''

# Tests of Node of which one ends the process, in its body or in a hook.
EXITS_OF_NODE = '''
import { test } from "node:test"
import { recorded } from "domepeeler/node_test"

const names = process.env.EXITS ? [] : ["a"]
test("right", recorded(1, (recording) => recording.insert(0, "a", 0, ["a"])))
test("body", recorded(1, (recording) => {
  recording.insert(0, "a", 0, names)
  if (process.env.EXITS === "body") process.exit(0)
}))
test("hook", recorded(1, (recording, context) => {
  recording.insert(0, "a", 0, ["a"])
  context.after(() => {
    recording.read(0, names)
    if (process.env.EXITS === "hook") process.exit(0)
  })
}))
test("skips", recorded(1, (recording, context) => {
  recording.insert(0, "a", 0, names)
  if (process.env.EXITS) context.skip("not today")
}))
'''

# Tests of Node whose hooks, or timers, record behind the body: LATE loses an element.
LATE = '''
import { afterEach, describe, test } from "node:test"
import { recorded } from "domepeeler/node_test"

const names = "LATE" in process.env ? [] : ["a"]
let last
test("hook", recorded(1, (recording, context) => {
  context.after(() => recording.read(0, names))
  recording.insert(0, "a", 0, ["a"])
}))
describe("suite", () => {
  afterEach(() => last.read(0, names))
  test("hook of the suite", recorded(1, (recording) => {
    last = recording
    recording.insert(0, "a", 0, ["a"])
  }))
})
if ("TIMER" in process.env) test("timer", recorded(1, (recording) => {
  recording.insert(0, "a", 0, ["a"])
  setTimeout(() => recording.read(0, []), 300)
}))
'''

# Tests of Node of which a call is refused in a hook, or in a timer.
REFUSED_OF_NODE = '''
import assert from "node:assert"
import { test } from "node:test"
import { Refused } from "domepeeler"
import { recorded } from "domepeeler/node_test"

const refuse = (recording) => assert.throws(() => recording.read(0, ["a b"]), Refused)
test("hook", recorded(1, (recording, context) => {
  context.after(() => refuse(recording))
  recording.insert(0, "a", 0, ["a"])
}))
if ("TIMER" in process.env) test("timer", recorded(1, (recording) => {
  recording.insert(0, "a", 0, ["a"])
  setTimeout(() => refuse(recording), 300)
}))
'''

# Tests of an editor of which the weak list specification alone is asked. Strong fails in each session with a cycle.
WEAK = {
    "python": '''
def cycle(recording):
    recording.insert(0, "x", 0, ["x"])
    recording.received(1, 0, 1)
    recording.received(2, 0, 1)
    recording.insert(1, "a", 0, ["a", "x"])
    recording.insert(2, "b", 1, ["x", "b"])
    recording.delete(0, "x", [])
    recording.received(0, 1, 1)
    recording.received(0, 2, 1)
    recording.read(0, ["b", "a"])
    return recording


def test_passes(domepeeler):
    cycle(domepeeler(3, weak=True)).delivered([["b", "a"]] * 3)


def test_passes_unsure(domepeeler):
    cycle(domepeeler(3, weak=True))


def test_strong(domepeeler):
    cycle(domepeeler(3)).delivered([["b", "a"]] * 3)


def test_opposite(domepeeler):
    recording = cycle(domepeeler(3, weak=True))
    recording.delivered([["b", "a"], ["b", "a"], ["a", "b"]])


def test_lost(domepeeler):
    recording = cycle(domepeeler(3, weak=True))
    recording.delivered([["b", "a"], ["b", "a"], ["b"]])


def test_fails_by_itself(domepeeler):
    cycle(domepeeler(3, weak=True)).delivered([["b", "a"]] * 3)
    assert 9 == 10
''',
    "javascript": '''
import { test } from "node:test"
import { Recording } from "domepeeler"
import { accepted, recorded } from "domepeeler/node_test"

function cycle(recording) {
  recording.insert(0, "x", 0, ["x"])
  recording.received(1, 0, 1)
  recording.received(2, 0, 1)
  recording.insert(1, "a", 0, ["a", "x"])
  recording.insert(2, "b", 1, ["x", "b"])
  recording.delete(0, "x", [])
  recording.received(0, 1, 1)
  recording.received(0, 2, 1)
  recording.read(0, ["b", "a"])
  return recording
}
const right = [["b", "a"], ["b", "a"], ["b", "a"]], weak = true

test("passes", recorded(3, (recording) => cycle(recording).delivered(right), { weak }))
test("passes unsure", recorded(3, (recording) => { cycle(recording) }, { weak }))
test("strong", recorded(3, (recording) => cycle(recording).delivered(right)))
test("opposite", recorded(3, (recording) => cycle(recording).delivered([...right.slice(1), ["a", "b"]]), { weak }))
test("lost", recorded(3, (recording) => cycle(recording).delivered([...right.slice(1), ["b"]]), { weak }))
test("fails by itself", recorded(3, (recording) => {
  cycle(recording).delivered(right)
  throw new Error("nine is not ten")
}, { weak }))
test("awaited", async () => {
  const recording = cycle(new Recording(3))
  recording.delivered(right)
  await accepted(recording, "own/weak.trace", { weak })
  const why = await accepted(recording, "own/weak.trace").catch((why) => why.message)
  if (!why.startsWith("refused 3: ")) throw new Error(`not so: ${why}`)
})
'''}
# Tests that stop in the call that answers wrong. One catches what it throws, and passes by itself.
STOP = {
    "python": '''
import pytest


def lose(recording):
    n = recording.insert(0, "a", 0, ["a"])
    recording.received(1, 0, n)
    recording.read(1, [])  # answers wrong
    raise ValueError("went on")


def test_stops(domepeeler):
    lose(domepeeler(2, stop=True))


def test_is_caught(domepeeler):
    with pytest.raises(AssertionError):
        lose(domepeeler(2, stop=True))


def test_right(domepeeler):
    recording = domepeeler(2, stop=True)
    recording.insert(0, "a", 0, ["a"])
    recording.delivered([["a"], ["a"]])


@pytest.mark.parametrize("weak", [False, True])
def test_weak(domepeeler, weak):
    recording = domepeeler(3, weak=weak, stop=True)
    recording.insert(0, "x", 0, ["x"])
    recording.received(1, 0, 1)
    recording.received(2, 0, 1)
    recording.insert(1, "a", 0, ["a", "x"])
    recording.insert(2, "b", 1, ["x", "b"])
    recording.delete(0, "x", [])
    recording.received(0, 1, 1)
    recording.received(0, 2, 1)
    recording.read(0, ["b", "a"])  # strong fails
    recording.delivered([["b", "a"]] * 3)
''',
    "javascript": '''
import assert from "node:assert"
import { test } from "node:test"
import { NotAccepted } from "domepeeler"
import { recorded } from "domepeeler/node_test"

function lose(recording) {
  const n = recording.insert(0, "a", 0, ["a"])
  recording.received(1, 0, n)
  recording.read(1, []) // answers wrong
  throw new Error("went on")
}

test("stops", recorded(2, lose, { stop: true }))
test("is caught", recorded(2, (recording) => assert.throws(() => lose(recording), NotAccepted), { stop: true }))
test("right", recorded(2, (recording) => {
  recording.insert(0, "a", 0, ["a"])
  recording.delivered([["a"], ["a"]])
}, { stop: true }))
for (const weak of [false, true]) {
  test(`weak ${weak}`, recorded(3, (recording) => {
    recording.insert(0, "x", 0, ["x"])
    recording.received(1, 0, 1)
    recording.received(2, 0, 1)
    recording.insert(1, "a", 0, ["a", "x"])
    recording.insert(2, "b", 1, ["x", "b"])
    recording.delete(0, "x", [])
    recording.received(0, 1, 1)
    recording.received(0, 2, 1)
    recording.read(0, ["b", "a"]) // strong fails
    recording.delivered([["b", "a"], ["b", "a"], ["b", "a"]])
  }, { weak, stop: true }))
}
'''}
FAILS_WEAK = {"strong": "refused 3: ", "opposite": "refused 2: ", "lost": "contents 2.2: "}
ALONE = "weak holds, strong doesn't: this passes"

# What an accepted recording of one replica's insert and another's read may hide.
UNSURE = ["the last lists of replicas 0 and 1 differ",
          "replica 1 never hears of replica 0: no receipt brings it an insert or a delete from there, so nothing shows how it applies "
          "these. At the end of a session let everyone receive everything, and then read the list"]
NOTHING = "nothing was recorded: the trace has no entry, so the verdict says nothing about your editor"

# Programs that give no report, and what is said of each.
BROKEN = [("cat > /dev/null; kill -9 $$", "{} was ended by signal 9"), ("cat > /dev/null", "{} ended with status 0 and printed no report"),
          ("cat > /dev/null; echo '{\"verdict\": '", "{} printed something that is no report"),
          ("cat > /dev/null; echo '{}'", "{} printed something that is no report"),
          ("cat > /dev/null; echo no >&2; exit 3", "{} ended with status 3: no")]

# Explains an empty recording in each language; in Rust it is the command that is built of USES, without a word.
EXPLAINING = {
    "python": "from domepeeler import Recording; print(Recording(1).explain())",
    "javascript": 'import { Recording } from "domepeeler"; console.log(await new Recording(1).explain())',
}

RUST_TEST = '''
use domepeeler::Recording;

fn checked(names: &[&str]) -> Result<(), Box<dyn std::error::Error>> {
    let mut recording = Recording::new(2)?;
    let n = recording.insert(0, "a", 0, &["a"])?;
    recording.received(1, 0, n)?;
    recording.read(1, names)?;
    if !recording.judge()?.contains("\\"verdict\\":\\"accepted\\"") {
        recording.save("failed.trace")?;
        panic!("{}\\nThe trace is saved: failed.trace", recording.explain()?);
    }
    Ok(())
}

#[test]
fn right() {
    checked(&["a"]).unwrap();
}

#[test]
fn lost() {
    checked(&[]).unwrap();
}
'''

# What is recorded after the assertion, and what is saved then.
RUST_LATE = '''
use domepeeler::{Recording, Refused};

fn passed() -> Result<Recording, Refused> {
    let mut recording = Recording::new(1)?;
    recording.insert(0, "a", 0, &["a"])?;
    recording.assert_accepted();
    Ok(recording)
}

#[test]
#[should_panic(expected = "something was recorded after the recording was judged")]
fn late() {
    passed().unwrap().read(0, &["b"]).unwrap();
}

#[test]
fn nothing() {
    passed().unwrap();
}

#[test]
fn again() {
    let mut recording = passed().unwrap();
    recording.read(0, &["a"]).unwrap();
    recording.assert_accepted();
}

#[test]
fn saved() {
    let mut recording = passed().unwrap();
    recording.read(0, &["b"]).unwrap();
    recording.save("late.trace").unwrap();
}
'''

# What stands beside the lines of proptest in the README of Rust: an engine that loses the third insert on its way, and sessions of so
# many inserts at most. And a crate that stands in for proptest, with the sessions that it tries.
LOSING = '''
fn session(places: &[usize]) -> Result<Recording, domepeeler::Refused> {
    let mut recording = Recording::new(2)?;
    let mut list: Vec<String> = Vec::new();
    for (number, place) in places.iter().enumerate() {
        let (name, at) = (format!("e{number}"), place % (list.len() + 1));
        list.insert(at, name.clone());
        recording.insert(0, &name, at, &list)?;
    }
    let arrived = list.iter().filter(|name| *name != "e2").cloned().collect();
    recording.delivered(&[list, arrived])?;
    Ok(recording)
}
'''
STRATEGY = '''
fn steps() -> impl Strategy<Value = Vec<usize>> {
    prop::collection::vec(0..8usize, 0..=MOST)
}
'''
TRIED = {2: [[0, 1], [0, 0]], 9: [[0, 0], [0, 1, 2, 3], [0, 0, 0]]}
CASES = 256  # that proptest tries
STAND_IN = '''
pub mod prelude {
    pub use super::{prop_assert, proptest, TestCaseError};
}

#[derive(Debug)]
pub struct TestCaseError(pub String);

impl TestCaseError {
    pub fn fail(why: impl Into<String>) -> TestCaseError {
        TestCaseError(why.into())
    }
}

impl<E: std::error::Error> From<E> for TestCaseError {
    fn from(why: E) -> TestCaseError {
        TestCaseError(why.to_string())
    }
}

#[macro_export]
macro_rules! prop_assert {
    ($is_right:expr, $($words:tt)*) => {
        if !$is_right {
            return Err($crate::TestCaseError(format!($($words)*)));
        }
    };
}

#[macro_export]
macro_rules! proptest {
    ($(#[test] fn $name:ident($given:ident in $strategy:expr) $body:block)*) => {
        $(#[test]
        fn $name() {
            let mut failed = None;
            for $given in $strategy {
                let tried: Result<(), $crate::TestCaseError> = (|| {
                    $body
                    Ok(())
                })();
                failed = tried.err().map(|why| (format!("{:?}", $given), why)).or(failed);
            }
            if let Some((given, why)) = failed {
                panic!("{}; minimal failing input: {} = {}", why.0, stringify!($given), given);
            }
        })*
    };
}
'''
ASKED = '#!/bin/sh\necho "$*" >> "{0}/asked"\nexec "{0}/prefix/bin/domepeeler" "$@"\n'

# A recording with twelve long ids in each language, of which the last one alone is in the list, but is not answered; what is
# printed of it, and what must be printed. The word that a script gets is a tool that is no explainer.
LONG_ID = "4@abcdefghijklmnopqrstuvwxyz_-.0123456789"
USES = {
    "python": f'''
import sys
from domepeeler import Recording
recording = Recording(1)
for name in [f"{LONG_ID}/{{n}}" for n in range(1, 12)]:
    recording.insert(0, name, 0, [name])
    recording.delete(0, name, [])
recording.insert(0, "{LONG_ID}/12", 0, [])
print(recording.judge()["verdict"], recording.judge(["env", "domepeeler"])["verdict"])
print(recording.explain(["env", "domepeeler-explain"]))
print(Recording(1).explain())
for words in [sys.argv[1]], ["nowhere"], ["false"]:
    try:
        recording.explain(words)
    except RuntimeError as why:
        print(why)
''',
    "javascript": f'''
import {{ Recording }} from "domepeeler"
const recording = new Recording(1)
for (let n = 1; n < 12; n++) {{
  recording.insert(0, `{LONG_ID}/${{n}}`, 0, [`{LONG_ID}/${{n}}`])
  recording.delete(0, `{LONG_ID}/${{n}}`, [])
}}
recording.insert(0, "{LONG_ID}/12", 0, [])
console.log((await recording.judge()).verdict, (await recording.judge(["env", "domepeeler"])).verdict)
console.log(await recording.explain(["env", "domepeeler-explain"]))
console.log(await new Recording(1).explain())
for (const words of [[process.argv[2]], ["nowhere"], ["false"]]) {{
  await recording.explain(words).catch((why) => console.log(why.message))
}}
''',
    "rust": f'''
use domepeeler::Recording;
fn main() {{
    let mut recording = Recording::new(1).unwrap();
    if std::env::args().count() == 1 {{
        return println!("{{}}", recording.explain().unwrap());
    }}
    let none = &[] as &[&str];
    for name in (1..12).map(|n| format!("{LONG_ID}/{{n}}")) {{
        recording.insert(0, &name, 0, &[&name]).unwrap();
        recording.delete(0, &name, none).unwrap();
    }}
    recording.insert(0, "{LONG_ID}/12", 0, none).unwrap();
    let verdict = |report: &str| report.split("\\"verdict\\":\\"").nth(1).unwrap().split('"').next().unwrap().to_string();
    println!("{{}} {{}}", verdict(&recording.judge().unwrap()), verdict(&recording.judge_by("domepeeler").unwrap()));
    println!("{{}}", recording.explain().unwrap());
    println!("{{}}", Recording::new(1).unwrap().explain().unwrap());
    for tool in [&std::env::args().nth(1).unwrap(), "nowhere", "false"] {{
        println!("{{}}", recording.explain_by(tool).unwrap_err());
    }}
}}
''',
}
USED = ["contents contents\ncontents 0.23: ", f"Ids that were too long for a name\n  long12: {LONG_ID}/12\n\n", "accepted",
        "no_explainer ended with status 2: not today", "nowhere cannot be run (", "set DOMEPEELER_EXPLAIN to the tool's path",
        "false ended with status 1 and printed no words"]


class Place:
    """An empty folder with the installed program and its tools on the PATH, a copy of the recorders, and nothing of the repository."""

    def __init__(self, folder: Path, program: str):
        self.folder = folder
        subprocess.run([ROOT / "tools" / "install", folder / "prefix"], check=True, stdout=subprocess.DEVNULL,
                       env={**os.environ, "DOMEPEELER": program})
        shutil.copytree(RECORDERS, folder / "recorders", ignore=shutil.ignore_patterns(*BUILT))
        tools = {os.path.dirname(shutil.which(tool)) for tool in ("python3", "node", "npm", "cargo", "cc")}
        self.path = os.pathsep.join([str(folder / "prefix/bin"), *sorted(tools), "/usr/bin", "/bin"])
        self.surroundings = {name: os.environ[name] for name in ("CARGO_HOME", "RUSTUP_HOME", "RUSTUP_TOOLCHAIN") if name in os.environ}
        home = Path(os.environ.get("HOME", "/"))
        self.surroundings |= {"HOME": str(folder), "PATH": self.path, "LC_ALL": "C.UTF-8", "PYTHONDONTWRITEBYTECODE": "1"}
        for variable, own in ("CARGO_HOME", ".cargo"), ("RUSTUP_HOME", ".rustup"):
            self.surroundings.setdefault(variable, str(home / own))

    def run(self, words: list, place: str = "", seconds: int = 120, **surroundings: str) -> subprocess.CompletedProcess:
        done = subprocess.run(words, cwd=self.folder / place, env={**self.surroundings, **surroundings}, timeout=seconds, text=True,
                              stdin=subprocess.DEVNULL, stdout=subprocess.PIPE, stderr=subprocess.STDOUT)
        return done

    def make(self, name: str, text: str, mode: int = 0o644) -> str:
        path = self.folder / name
        path.parent.mkdir(parents=True, exist_ok=True)
        path.write_text(text)
        path.chmod(mode)
        return str(path)


def prepare() -> None:
    need("npm", "npm")
    need("cargo", "cargo")
    missing = [package for module, package in MODULES.items() if not has_module(module)]
    install([*missing, *([] if has_proptest() else [PROPTEST])])
    for module in MODULES:
        if not has_module(module):
            sys.exit(f"recorder_packages.py: {DEBIAN_PYTHON} has no {module}")


def has_module(module: str) -> bool:
    words = [DEBIAN_PYTHON, "-c", f"import {module}"]
    return os.access(DEBIAN_PYTHON, os.X_OK) and subprocess.run(words, capture_output=True).returncode == 0


def has_proptest() -> bool:
    return any(CRATES.glob("proptest-1.*/Cargo.toml"))


def check_installed(tally: Tally, place: Place) -> None:
    """What makes the packages is installed with the tools."""
    share = place.folder / "prefix/share/domepeeler/recorders"
    for package in "python", "javascript", "rust":
        files = [path.relative_to(RECORDERS) for path in sorted((RECORDERS / package).rglob("*.*"))]
        wanted = [path for path in files if (RECORDERS / path).is_file() and not path.name.startswith(".") and not BUILT & set(path.parts)]
        same = [path for path in wanted if (share / path).is_file() and (share / path).read_bytes() == (RECORDERS / path).read_bytes()]
        tally.check(f"installed: {package}", len(wanted) > 1 and same == wanted, set(wanted) - set(same))


def check_versions(tally: Tally, place: Place) -> None:
    """The packages have the program's version."""
    version = place.run(["domepeeler", "--version"]).stdout.split()[-1]
    for name in "python/pyproject.toml", "javascript/package.json", "rust/Cargo.toml":
        said = re.findall(r'^ *"?version"?\s*[=:]\s*"([^"]*)"', (RECORDERS / name).read_text(), re.MULTILINE)
        tally.check(f"version of {name}", said == [version], (said, version))


def check_beside(tally: Tally, place: Place, name: str, words: list, folder: str) -> None:
    """The tool that explains lies beside the program that DOMEPEELER names; no PATH leads there. Another variable comes first."""
    paths = os.pathsep.join(part for part in place.path.split(os.pathsep) if part != str(place.folder / "prefix/bin"))
    program = str(place.folder / "prefix/bin/domepeeler")
    done = place.run(words, folder, PATH=paths, DOMEPEELER=program)
    tally.check(f"{name}: explains by the tool beside the program", done.returncode == 0 and done.stdout.startswith("accepted"),
                done.stdout)
    done = place.run(words, folder, PATH=paths, DOMEPEELER=program, DOMEPEELER_EXPLAIN="nowhere")
    tally.check(f"{name}: the tool that is named comes first", done.returncode != 0 and "nowhere cannot be run" in done.stdout, done.stdout)
    done = place.run(words, folder, PATH=paths, DOMEPEELER="domepeeler")
    tally.check(f"{name}: nothing beside a bare name", done.returncode != 0 and "domepeeler-explain cannot be run" in done.stdout,
                done.stdout)


def check_again(tally: Tally, place: Place, name: str, words: list, folder: str, traces: dict) -> str:
    """A test that passes removes the traces that it saved before, and nothing else. `traces` says which there are of the tests that
    fail first, and whether each is still there in the end. Answers what was printed of the second run."""
    kept = place.folder / folder / "failed_traces"
    shutil.rmtree(kept, ignore_errors=True)
    place.run(words, folder, LOSE="1")
    saved = sorted(path.name for path in kept.iterdir() if path.name.endswith(".trace"))
    tally.check(f"{name}: saved first", saved == sorted(traces), saved)
    others = [f"{one}{end}" for one in traces for end in (".old", ".lines.old")] + ["another.trace"]
    for other in others:
        (kept / other).write_text("kept\n")
    done = place.run(words, folder)
    wanted = sorted(others + [one for one, is_left in traces.items() if is_left])
    left = sorted(path.name for path in kept.iterdir() if not path.name.endswith(".trace.lines") and path.name not in (".gitignore", ".runs"))
    tally.check(f"{name}: left afterwards", left == wanted, (left, wanted, done.stdout))
    lines = [path.name for path in kept.iterdir() if path.name.endswith(".trace.lines") and not (kept / path.stem).is_file()]
    tally.check(f"{name}: no number of lines without its trace", lines == [], lines)
    return done.stdout


def example(package: str, begin: str) -> str:
    """The block of a package's README that begins so, as a test of its own; of `..` that of the repository's."""
    found = re.findall(r"(?:^(?: {4}.*)?\n)+", (RECORDERS / package / "README.md").read_text(), re.MULTILINE)
    blocks = [re.sub(r"^ {4}", "", block, flags=re.MULTILINE).strip("\n") + "\n" for block in found]
    return next((block for block in blocks if block.startswith(begin)), f"the README of {package} has no block that begins with {begin}")


def check_told(tally: Tally, name: str, said: str) -> None:
    """An explanation, and neither a dictionary nor a trace of calls."""
    tally.check(f"{name}: is explained", all(words in said for words in TOLD), said)
    tally.check(f"{name}: no dictionary", not any(words in said for words in DICTIONARY), said)


def check_places(tally: Tally, name: str, said: str, file: str, text: str, caller: str = "") -> None:
    """An explanation has, before its last section, the lines of the test's file that recorded: three calls stand there first, and where these stand in a
    function, `caller` is in the line that calls it."""
    lines = text.splitlines()
    calls = [next(number for number, line in enumerate(lines, 1) if f"recording.{call}(" in line) for call in ("insert", "received", "read")]
    end = f", called from {file}:{next(number for number, line in enumerate(lines, 1) if caller in line)}" if caller else ""
    wanted = "".join(f"  line {line}: {file}:{call}{end}\n" for line, call in enumerate(calls, 3))
    tally.check(f"{name}: the lines of the test", re.search(
        rf"\nIn your code\n{re.escape(wanted)}\nThe list specifications\n  .*\n\nThe trace is saved: ", said), (wanted, said))


def check_saved(tally: Tally, name: str, said: str, folder: Path) -> None:
    """The traces that are told of are there, below the folder, and no two in one file."""
    paths = re.findall(r"The trace is saved: (.*)", said)
    tally.check(f"{name}: paths", paths and len(set(paths)) == len(paths) and
                all(os.path.dirname(path) == str(folder) for path in paths), (paths, said))
    for path in paths:
        tally.check(f"{name}: {path}", Path(path).is_file() and Path(path).read_text() == LOST_TRACE, path)


def check_used(tally: Tally, name: str, done: subprocess.CompletedProcess) -> None:
    """What `judge` and `explain` answer, by the installed commands and by words that are given, and that they say where they can't."""
    at = 0
    for words in USED:
        found = done.stdout.find(words, at)
        tally.check(f"{name}: {words!r}", found >= 0, done.stdout)
        at = max(at, found)


def sections(said: str) -> dict:
    """What pytest says of each test that fails."""
    parts = re.split(r"^_{3,} (\S+) _{3,}$", said.split("= short test summary")[0], flags=re.MULTILINE)
    return dict(zip(parts[1::2], parts[2::2]))


def check_python(tally: Tally, place: Place) -> None:
    """The package is made of the file that is copied otherwise, and its plugin judges what tests record."""
    made = place.run([DEBIAN_PYTHON, "-m", "venv", "--system-site-packages", "--without-pip", "venv"])
    python = str(place.folder / "venv/bin/python")
    done = place.run([python, "-m", "pip", "install", "--quiet", "--no-build-isolation", "--no-index", "./recorders/python"])
    tally.check("Python: installs", made.returncode == 0 and done.returncode == 0, made.stdout + done.stdout)
    shutil.rmtree(place.folder / "recorders")  # what is installed needs no source
    package = next(iter(place.folder.glob("venv/lib/python*/site-packages/domepeeler")), place.folder / "none")
    own = package / "__init__.py"
    tally.check("Python: the one file", own.is_file() and not own.is_symlink() and
                own.read_bytes() == (RECORDERS / "domepeeler.py").read_bytes())
    tally.check("Python: typed", (package / "py.typed").is_file())
    place.make("python/test_editor.py", PYTEST + "\n\n" + example("python", "def test_two_users"))
    command = [python, "-m", "pytest", "-q", "-p", "no:cacheprovider", "test_editor.py"]
    done = place.run(command, "python")
    tally.check("pytest: counts", done.returncode == 1 and "6 failed, 3 passed, 1 xfailed" in done.stdout and
                "error" not in done.stdout, done.stdout)
    said = sections(done.stdout)
    for name in ["test_lost", "test_second[a/b]", "test_second[a:b]", "test_fails_by_itself"]:
        check_told(tally, f"pytest: {name}", said.get(name, ""))
    check_places(tally, "pytest: test_lost", said.get("test_lost", ""), "test_editor.py", PYTEST, "lose(domepeeler(2))  # lost")
    check_places(tally, "pytest: test_fails_by_itself", said.get("test_fails_by_itself", ""), "test_editor.py", PYTEST,
                 "lose(domepeeler(2))  # and fails")
    own = said.get("test_fails_by_itself", "")
    tally.check("pytest: the test's own fault comes first", own.find("assert 1 == 2") in range(own.find(LOST)), own)
    refused = said.get("test_not_causal", "")
    tally.check("pytest: a refused call is shown where the test makes it", "test_editor.py:" in refused and "__init__.py" not in refused
                and "NotCausal: not causal: 1.1 was applied at replica 0 before 2.1, which replica 1 had seen" in refused, refused)
    alone = said.get("test_fails_by_itself_alone", "")
    tally.check("pytest: an accepted recording of a test that fails by itself",
                alone.find("assert 3 == 4") in range(alone.find("accepted")) and "The trace is saved: " in alone, alone)
    lost = {name: text for name, text in said.items() if name not in ("test_fails_by_itself_alone", "test_not_causal")}
    check_saved(tally, "pytest", "".join(lost.values()), place.folder / "python" / "failed_traces")
    kept = sorted(path.name for path in (place.folder / "python" / "failed_traces").iterdir())
    traces = [name for name in kept if name.endswith(".trace")]
    tally.check("pytest: a file for each recording that fails", len(traces) == 7 and "test_editor.py--test_lost.trace" in traces, kept)
    tally.check("pytest: and its number of lines beside it", kept == sorted([".gitignore", *traces, *(f"{name}.lines" for name in traces)]),
                kept)
    tally.check("pytest: Git passes over the folder", Path(place.folder, "python/failed_traces/.gitignore").read_text() == "*\n")
    lost = [*command, "-k", "test_lost", "--failed-traces"]
    odd = place.run([*lost, "odd\n::error::forged \x1b[31m"], "python")
    tally.check("pytest: a folder with an odd name forges no line", f"The trace is saved: {place.folder}/python/odd\\n::error::forged \\x1b[31m/test_editor.py--test_lost.trace\n" in odd.stdout and
                not any(line.startswith("::error::") for line in odd.stdout.splitlines() if not line.endswith("could not create cache path")), odd.stdout)
    shutil.rmtree(place.folder / "python/odd\n::error::forged \x1b[31m")
    done = place.run([*lost, "kept/here"], "python")
    check_saved(tally, "pytest: a folder that is asked for", done.stdout, place.folder / "python/kept/here")
    done = place.run([*lost, "test_editor.py"], "python")
    tally.check("pytest: a folder that can't be made", done.returncode == 1 and "can't be saved in" in done.stdout and
                LOST_TRACE in done.stdout and "INTERNALERROR" not in done.stdout, done.stdout)
    done = place.run([*command, "-k", "test_right"], "python", DOMEPEELER="nowhere")
    tally.check("pytest: without a program", "1 failed" in done.stdout and
                "The recording was not judged: nowhere cannot be run (No such file or directory): set DOMEPEELER to the program's path"
                in done.stdout, done.stdout)
    done = place.run(lost[:-1], "python", DOMEPEELER_EXPLAIN="nowhere")
    tally.check("pytest: without an explainer", "The recording is not accepted: contents. There is no explanation: nowhere cannot be run"
                in done.stdout and "The trace is saved: " in done.stdout, done.stdout)
    place.make("python/test_again.py", AGAIN["python"])
    again = [f"test_again.py--test_{test}.trace" for test in ("mended", "mended_twice-1", "mended_twice-2", "lost", "fails_by_itself_now")]
    said = check_again(tally, place, "pytest", [*command[:-1], "test_again.py"], "python", {one: "mended" not in one for one in again})
    tally.check("pytest: warns where nothing was recorded, and nowhere else", "2 failed, 3 passed, 1 warning" in said and
                "test_nothing" in said and all(words in said for words in warnings_of("accepted", b"trace 1\nreplicas 2\n").all), said)
    check_ends_of_pytest(tally, place, [*command[:-1], "test_ends.py"])
    check_copies_of_pytest(tally, place, [*command[:-1], "test_copies.py"])
    check_two_runs_of_pytest(tally, place, [*command[:-1], "test_runs.py"])
    check_weak_of_pytest(tally, place, [*command[:-1], "test_weak.py"])
    check_stop_of_pytest(tally, place, [*command[:-1], "test_stop.py"])
    check_beside(tally, place, "Python", [python, "-c", EXPLAINING["python"]], "python")
    script = place.make("python/use.py", USES["python"])
    check_used(tally, "Python", place.run([python, script, place.make("no_explainer", NO_EXPLAINER, 0o755)], "python"))


def check_ends_of_pytest(tally: Tally, place: Place, command: list) -> None:
    """What is recorded before and after the test's own part is judged or told of; what an accepted recording may hide is warned of; and a
    program that gives no report is an error of that test alone."""
    place.make("python/test_ends.py", ENDS["python"])
    kept = place.folder / "python/failed_traces"
    shutil.rmtree(kept)
    done = place.run(command, "python")
    tally.check("pytest: counts of ends", done.returncode == 1 and
                "4 failed, 6 passed, 3 skipped, 1 xfailed, 3 warnings, 6 errors" in done.stdout, done.stdout)
    warned = done.stdout.partition("test_ends.py::test_begins_none")[2].partition("\n\n")[0]
    tally.check("pytest: warns of a test that takes the fixture and begins no recording",
                "NothingRecorded: the fixture domepeeler began no recording, so nothing was judged" in warned, done.stdout)
    said = dict(zip(*[iter(re.split(r"^_{3,} (.+) _{3,}$", done.stdout.split("= short test summary")[0], flags=re.MULTILINE)[1:])] * 2))
    for name, words in ("ERROR at teardown of test_late", [LOST]), ("ERROR at teardown of test_begun_late", ["contents 0.1: "]), (
            "ERROR at setup of test_set_up", ["no editor", "accepted"]), ("ERROR at teardown of test_skipped_and_wrong", ["contents 0.1: "]), (
            "ERROR at teardown of TestOfUnittest.test_skips", ["contents 0.1: "]), ("TestOfUnittest.test_fails", ["nine is not ten", "contents 0.1: "]), (
            "test_removes_its_folder", ["contents 0.1: "]), ("ERROR at teardown of test_torn_down", ["no end", "accepted"]), (
            "test_forks", [f"{NO_PASS}a forked process recorded into its copy"]), (
            "test_fails_and_is_right", ["assert 5 == 6", "accepted", "\nYour notes\n  seed 17\n"]):
        text = said.get(name, "")
        tally.check(f"pytest: {name}", all(word in text for word in words) and "The trace is saved: " in text, (sorted(said), text))
    traces = sorted(path.name for path in kept.iterdir() if path.name.endswith(".trace"))
    tally.check("pytest: traces of ends", [name for name in traces if "Unittest" not in name] == [f"test_ends.py--test_{name}.trace" for name in (
        "begun_late", "fails_and_is_right", "forks", "late", "removes_its_folder", "set_up", "skipped_and_wrong", "torn_down")], traces)
    tally.check("pytest: traces of tests of unittest", [name for name in traces if "Unittest" in name] == [
        f"test_ends.py--TestOfUnittest--test_{name}.trace" for name in ("fails", "skips")], traces)
    tally.check("pytest: warns of what an accepted recording may hide", all(f"Unsure: {told}\n" in done.stdout for told in UNSURE),
                done.stdout)
    for name, more in ("pytest", ["-p", "no:xdist"]), ("pytest-xdist", ["-n", "2", "--dist", "loadfile"]):
        check_later_of_pytest(tally, place, name, [*command[:-1], *more, "test_later.py"])
    (place.folder / "python/test_later.py").unlink()
    check_cut_short(tally, place, [*command[:-1], "test_cut.py"])
    done = place.run([*command, "-k", "unsure", "-W", "error::domepeeler.pytest_plugin.Unsure"], "python")
    tally.check("pytest: such a warning as an error", done.returncode == 1 and "1 passed, 14 deselected, 1 error" in done.stdout
                and f"\nUnsure: {UNSURE[0]}\n" in done.stdout and "The trace is saved: " in done.stdout, done.stdout)
    broken = str(place.folder / "broken")
    for script, told in BROKEN:
        place.make("broken", f"#!/bin/sh\n{script}\n", 0o755)
        done = place.run([*command, "-k", "late_and_right or fails_and_is_right"], "python", DOMEPEELER=broken)
        tally.check(f"pytest: {told}", "2 failed" in done.stdout and "INTERNALERROR" not in done.stdout and done.stdout.count(
            f"The recording was not judged: {told.format(broken)}\n") == 2, done.stdout)
    mine = place.folder / "python/mine"
    mine.mkdir()
    place.run([*command, "-k", "fails_and_is_right", "--failed-traces", "mine"], "python")
    names = sorted(path.name for path in mine.iterdir())
    tally.check("pytest: a folder that was there is not passed over", names == [f"test_ends.py--test_fails_and_is_right.trace{end}"
                                                                              for end in ("", ".lines")], names)


COPIES = '''
import concurrent.futures
import copy
import multiprocessing
import os
import pickle
import threading
import pytest
from domepeeler import Recording, Refused


def answers_wrong(recording):
    recording.read(0, [])


def refuses(recording):
    with pytest.raises(Refused, match="this is a copy of a recording|this process was forked"):
        answers_wrong(recording)
    return "refused"


@pytest.fixture
def recording(domepeeler):
    recording = domepeeler(1)
    recording.insert(0, "a", 0, ["a"])
    return recording


def forked(body):
    child = os.fork()
    if not child:
        try:
            body()
        finally:
            os._exit(0)
    return child


def test_copied(recording):
    refuses(copy.deepcopy(recording))


def test_pickled(recording):
    refuses(pickle.loads(pickle.dumps(recording)))


def test_many_begun_since(recording):
    os.waitpid(forked(lambda: refuses(recording)), 0)
    for _ in range(9000):
        Recording(1)


def test_thread(recording):
    thread = threading.Thread(target=refuses, args=[copy.deepcopy(recording)])
    thread.start()
    thread.join()


def test_pool(recording):
    with multiprocessing.get_context("fork").Pool(1) as pool:
        assert pool.apply(refuses, [recording]) == "refused"


def test_executor(recording):
    with concurrent.futures.ProcessPoolExecutor(1, multiprocessing.get_context("fork")) as executor:
        executor.submit(answers_wrong, recording)


@pytest.mark.parametrize("way", ["fork", "spawn", "forkserver"])
def test_process(recording, way):
    process = multiprocessing.get_context(way).Process(target=refuses, args=[recording])
    process.start()
    process.join()


def test_begun_elsewhere(domepeeler):
    reader, writer = os.pipe()
    begins = forked(lambda: os.read(reader, 1) and Recording(1))  # by when the others have done what they do
    recording = domepeeler(1)
    recording.insert(0, "a", 0, ["a"])
    os.waitpid(forked(lambda: refuses(recording)), 0)
    os.write(writer, b"x")
    os.waitpid(begins, 0)


def test_right(recording):
    assert copy.deepcopy(recording).text() == recording.text()
    os.waitpid(forked(lambda: recording.text() and Recording(1).read(0, [])), 0)
'''
OF_A_COPY, OF_A_FORK = (f"{words} of this recording, so what it says is not recorded" for words in (
    "something was recorded into a copy", "a forked process recorded into its copy"))


def check_copies_of_pytest(tally: Tally, place: Place, command: list) -> None:
    """What a copy of a recording refuses, of a thread, a forked process or a pool, fails the test, whoever begins recordings meanwhile; and no copy
    goes to a process that is spawned."""
    place.make("python/test_copies.py", COPIES)
    done = place.run(command, "python")
    tally.check("pytest: counts of copies", done.returncode == 1 and re.search("^10 failed, 1 passed in ", done.stdout, re.MULTILINE), done.stdout)
    said = dict(zip(*[iter(re.split(r"^_{3,} (.+) _{3,}$", done.stdout.split("= short test summary")[0], flags=re.MULTILINE)[1:])] * 2))
    wanted = {"copied": OF_A_COPY, "pickled": OF_A_COPY, "thread": OF_A_COPY, "pool": OF_A_COPY, "executor": OF_A_COPY, "process[fork]": OF_A_FORK,
              "begun_elsewhere": OF_A_FORK, "many_begun_since": OF_A_FORK, "process[spawn]": "Refused: this is a copy of a recording", "process[forkserver]": "Refused: this is a copy of a recording"}
    for name, words in wanted.items():
        tally.check(f"pytest: copies: {name}", words in said.get(f"test_{name}", ""), said.get(f"test_{name}", done.stdout))


def check_later_of_pytest(tally: Tally, place: Place, name: str, command: list) -> None:
    """What a recording gets when its test has ended fails the run, whether one process runs the tests or several do."""
    def run(text: str) -> tuple:
        place.make("python/test_later.py", text)
        done = place.run(command, "python")
        told = re.findall(r"^ERROR test_later\.py::(\w+) - domepeeler: (.*) after the test had ended", done.stdout, re.MULTILINE)
        return done.returncode == 1, done.stdout, told

    def check(what: str, text: str, counts: str, *wanted: tuple) -> str:
        has_failed, said, told = run(text)
        tally.check(f"{name}: {what}", has_failed and re.search(rf"^{counts} in ", said, re.MULTILINE) and told == list(wanted) and
                    said.count("ERROR ") == len(wanted), said)
        return said

    recorded = "something was recorded"
    check("what is recorded after a test has ended fails the run", LATER, "2 passed", ("test_goes_on", recorded))
    for scope in "module", "session":
        check(f"what a fixture of scope {scope} records when it is torn down fails the run", WIDER.format(scope=scope, is_last_recorded=False),
              "2 passed, 1 warning", ("test_first", recorded))
        has_failed, said, told = run(WIDER.format(scope=scope, is_last_recorded=True))
        tally.check(f"{name}: what it records of the last test, of scope {scope}, is judged", has_failed and "2 passed, 1 error" in said and
                    "contents 0.2: " in said.partition("ERROR at teardown of test_last")[2] and told == [("test_first", recorded)], said)
    check("what a thread records that still runs fails the run", RUNNING, "2 passed", ("test_begins", recorded))
    check("a recording that is begun when its test has ended fails the run", BEGINNING, "2 passed", ("test_first", "a recording was begun"))
    has_failed, said, told = run(REFUSED)
    tally.check(f"{name}: a call that is refused when its test has ended fails the run", has_failed and told == [("test_first", "a call was refused")], said)
    tally.check(f"{name}: a call that is refused in a teardown fails the test", re.search("^3 passed, 1 error in ", said, re.MULTILINE) and
                f"\n{NO_PASS}{REFUSAL}" in said.partition("ERROR at teardown of test_client")[2], said)
    has_failed, said, _ = run(REFUSED_CALLS["python"])
    told = {which: said.partition(f" {which} ___")[2].partition("\n___")[0] for which in ("test_refused[False]", "test_refused[True]", "ERROR at teardown of test_never_came")}
    tally.check(f"{name}: calls that are refused, and what they say never comes", has_failed and re.search("^2 failed, 3 passed, 1 error in ", said, re.MULTILINE) and
                all(f"\n{NO_PASS}{'a call was refused, and what it says never came: not causal: ' if 'never' in which else REFUSAL}" in text and
                    "\nWhat this verdict may hide\n  a call was refused" in text and "\nThe trace is saved: " in text for which, text in told.items()), said)


def check_cut_short(tally: Tally, place: Place, command: list) -> None:
    """A test that ends pytest with status 0 hides nothing that was recorded in it: it was not judged, which fails the run."""
    leave = "pytest.exit('enough', returncode=0)"
    for name, body, teardown in ("body", leave, "pass"), ("teardown", "pass", leave):
        for how, more in ("", []), (" of a worker", ["-n", "1"]):
            place.make("python/test_cut.py", CUT_SHORT.format(names=["a"], body=body, teardown=teardown))
            done = place.run([*command, *more], "python")
            told = re.findall(r"^ERROR test_cut\.py::(\w+) - domepeeler: (.*)", done.stdout, re.MULTILINE)
            is_told = told == [("test_ends", "pytest ended within the test, so what it recorded was not judged")]
            tally.check(f"pytest: a test that ends pytest in its {name}{how}", done.returncode and (is_told or more), done.stdout)
    place.make("python/test_cut.py", CUT_SHORT.format(names=[], body="pytest.skip('now')", teardown="pytest.skip('then')"))
    done = place.run(command, "python")
    tally.check("pytest: a test that is skipped while it is torn down", done.returncode == 1 and
                "ERROR test_cut.py::test_ends - domepeeler: the test was skipped while it was torn down" in done.stdout, done.stdout)
    (place.folder / "python/test_cut.py").unlink()


# In each: a test that ends soon, and one that waits for the end of another run, where a variable says so; another says whether the list is lost.
TWO_RUNS = """
import os
import time
from pathlib import Path


def test_soon(domepeeler):
    domepeeler(1).insert(0, os.environ["NAME"], 0, [] if "LOST" in os.environ else [os.environ["NAME"]])


def test_last():
    for _ in range(600):
        if "WAITS" not in os.environ or Path("ended").exists():
            return
        time.sleep(0.1)
    raise TimeoutError("the other run")
"""


TWO_RUNS_OF_NODE = """
import { existsSync } from "node:fs"
import { test } from "node:test"
import { recorded } from "domepeeler/node_test"

const { LOST, NAME, WAITS } = process.env
const aWhile = () => new Promise((goOn) => setTimeout(goOn, 100))

test("soon", recorded(1, (recording) => {
  recording.insert(0, NAME, 0, LOST ? [] : [NAME])
}))

test("last", async () => {
  for (let times = 0; times < 600; times += 1) {
    if (!WAITS || existsSync("ended")) return
    await aWhile()
  }
  throw new Error("the other run")
})
"""
TWO_RUNS_OF_RUST = """
use domepeeler::Recording;
use std::{env, path::Path, thread, time::Duration};

fn is_set(name: &str) -> bool {
    env::var_os(name).is_some()
}

#[test]
fn soon() {
    let name = env::var("NAME").unwrap();
    for _ in 0..600 {
        if !is_set("LATE") || Path::new("begun").exists() {
            break;
        }
        thread::sleep(Duration::from_millis(100));
    }
    let mut recording = Recording::new(1).unwrap();
    recording.insert(0, &name, 0, if is_set("LOST") { &[] } else { std::slice::from_ref(&name) }).unwrap();
    recording.assert_accepted();
}

#[test]
fn last() {
    for _ in 0..600 {
        if !is_set("WAITS") || Path::new("ended").exists() {
            return;
        }
        thread::sleep(Duration::from_millis(100));
    }
    panic!("the other run");
}
"""


class TwoRuns(NamedTuple):
    """How tests are run in a folder, and which name the trace of the failing one has there; and behind that, where another run has it."""

    name: str
    words: list
    folder: str
    trace: str
    run: str = "-run"


def check_two_runs(tally: Tally, place: Place, runs: TwoRuns, more: list | None = None) -> None:
    """Of two runs in one folder neither overwrites or removes what the other has saved, whether both fail or one passes; a later run, which is
    alone, removes all where the test passes."""
    folder, more = place.folder / runs.folder / "failed_traces", more or []
    for ways in [], ["LOST"]:
        shutil.rmtree(folder, ignore_errors=True)
        (place.folder / runs.folder / "ended").unlink(missing_ok=True)
        with ThreadPoolExecutor(1) as pool:
            first = pool.submit(place.run, [*runs.words, *more], runs.folder, LOST="1", NAME="first", WAITS="1")
            while not first.done() and not list(folder.glob("*.trace.lines")):
                time.sleep(0.05)
            second = place.run([*runs.words, *more], runs.folder, **dict.fromkeys(ways, "1"), NAME="second")
            place.make(f"{runs.folder}/ended", "")
        saved = {path.read_text().split()[6]: path for path in folder.glob("*.trace")}
        name = f"two runs of {runs.name}, {len(ways)} fails beside the first, {more}"
        told = {one: re.findall("The trace is saved: (.*)", done.stdout) for one, done in (("first", first.result()), ("second", second))}
        tally.check(f"{name}: each is told of, and kept", set(saved) == {"first", *(["second"] if ways else [])} and
                    all([Path(path).name for path in told[one]] == ([saved[one].name] if one in saved else []) for one in told), (saved, second.stdout))
        tally.check(f"{name}: the names", saved.get("first", Path()).name == f"{runs.trace}.trace" and (not ways or re.fullmatch(
            rf"{re.escape(runs.trace + runs.run)}[0-9-]+\.trace", saved.get("second", Path()).name) is not None), saved)
        done = place.run(runs.words, runs.folder, NAME="third")
        left = [path.name for path in folder.iterdir() if path.name not in (".gitignore", ".runs")]
        tally.check(f"{name}: a run alone that passes removes all", done.returncode == 0 and left == [], (left, done.stdout))


def check_marks(tally: Tally, place: Place, runs: TwoRuns) -> None:
    """A trace that a run of another container has saved stays for a day, and what is no mark stays for ever. Where a trace can't be marked it is saved
    all the same."""
    folder = place.folder / runs.folder / "failed_traces"
    trace, mark = folder / f"{runs.trace}.trace", folder / ".runs/1-5-99" / f"{runs.trace}.mark"
    for days in 0, 2:
        shutil.rmtree(folder, ignore_errors=True)
        place.make(str(mark.relative_to(place.folder)), "")
        foreign = [place.make(f"{runs.folder}/failed_traces/.runs/{name}", "mine\n") for name in ("notes/x.txt", "1-5-98/x.txt", "2026-11-30/x.mark")]
        pipe, link, own = (folder / ".runs" / name for name in ("1-5-98/pipe.mark", "1-5-98/link.mark", "notes/7"))
        os.mkfifo(pipe)
        own.write_text("7")  # as in a mark
        link.symlink_to(own)
        trace.write_text("another's\n")
        for one in folder.glob(".runs/*"):
            os.utime(one, (time.time() - days * 86400,) * 2)
        done = place.run(runs.words, runs.folder, NAME="right")
        tally.check(f"{runs.name}: a trace of another container, {days} days old", done.returncode == 0 and trace.exists() == (days == 0) == mark.exists(), done.stdout)
        tally.check(f"{runs.name}: what is no mark, {days} days old", [Path(one).is_file() for one in foreign] == [True, True, True], foreign)
        tally.check(f"{runs.name}: a pipe and a link are no marks, {days} days old", pipe.is_fifo() and link.is_symlink() and own.read_text() == "7", done.stdout)
    shutil.rmtree(folder)
    place.make(f"{runs.folder}/failed_traces/.runs", "no folder\n")
    done = place.run(runs.words, runs.folder, LOST="1", NAME="lost")
    tally.check(f"{runs.name}: a trace that can't be marked is saved", trace.is_file() and trace.name in done.stdout, done.stdout)
    shutil.rmtree(folder)


def check_two_runs_of_pytest(tally: Tally, place: Place, command: list) -> None:
    """Of two runs of pytest, also of its workers, as of others; and of workers which all run the same test."""
    place.make("python/test_runs.py", TWO_RUNS)
    runs, folder = TwoRuns("pytest", command, "python", "test_runs.py--test_soon"), place.folder / "python/failed_traces"
    for more in [], ["-n", "1"]:
        check_two_runs(tally, place, runs, more)
        tally.check(f"two runs of pytest, {more}: nothing else is left", [path.name for path in folder.iterdir()] == [".gitignore"], list(folder.iterdir()))
    done = place.run([*command, "-k", "soon", "-n", "2", "--dist", "each"], "python", LOST="1", NAME="each")
    tally.check("pytest-xdist: each worker's trace has a name of its own", "2 failed" in done.stdout and len(list(folder.glob("*.trace"))) == 2, done.stdout)


def check_weak_of_pytest(tally: Tally, place: Place, command: list) -> None:
    """Where weak is enough, a recording passes in which strong doesn't hold, with the same warnings as an accepted one; others fail."""
    place.make("python/test_weak.py", WEAK["python"])
    done = place.run(command, "python")
    tally.check("pytest: counts where weak is enough", done.returncode == 1 and "4 failed, 2 passed, 3 warnings" in done.stdout, done.stdout)
    said = sections(done.stdout)
    shown = place.run([*command, "-rP", "-k", "test_passes and not unsure"], "python")
    tally.check("pytest: weak, a pass is told as such", shown.returncode == 0 and re.search(
        r"domepeeler teardown -+\nweak holds, strong doesn't\n|Captured domepeeler teardown|-+ domepeeler -+\nweak holds, strong doesn't\n", shown.stdout), shown.stdout)
    for name, begins in FAILS_WEAK.items():
        told = said.get(f"test_{name}", "")
        tally.check(f"pytest: weak, {name}", told.lstrip().startswith(begins) and "The trace is saved: " in told, told)
    own = said.get("test_fails_by_itself", "")
    tally.check("pytest: weak, a test that fails by itself", own.find("assert 9 == 10") in range(own.find(ALONE)), own)
    tally.check("pytest: weak, warnings", "test_passes_unsure" in done.stdout and done.stdout.count("Unsure: ") == 3 and
                "Unsure: the last lists of replicas 0, 1 and 2 differ: 0.2 (line 8, " in done.stdout, done.stdout)
    done = place.run([*command, "-k", "fails_by_itself"], "python", DOMEPEELER_EXPLAIN="nowhere")
    tally.check("pytest: weak, without an explainer", "The recording is refused, and weak holds. There is no explanation: nowhere cannot" in
                done.stdout, done.stdout)


def line_with(text: str, words: str) -> int:
    return next(number for number, line in enumerate(text.splitlines(), 1) if words in line)


def check_stop_of_pytest(tally: Tally, place: Place, command: list) -> None:
    """A test that stops in the wrong call fails there: pytest and its debugger show that line and none of the recorder, and the words once. One
    that catches this fails at its end. A program that can't be run is an error of the first call."""
    text = STOP["python"]
    place.make("python/test_stop.py", text)
    done = place.run(command, "python")
    tally.check("pytest: counts of stops", "3 failed, 2 passed" in done.stdout, done.stdout)
    said = sections(done.stdout)
    for name, words, line in ("test_stops", LOST, "# answers wrong"), ("test_weak[False]", "refused 3: ", "# strong fails"):
        told, shown = said.get(name, ""), re.escape(text.splitlines()[line_with(text, line) - 1].strip())
        tally.check(f"pytest: {name}: the editor's line", re.search(rf"^> +{shown}$", told, re.MULTILINE) and "__init__.py" not in told and
                    f"\ntest_stop.py:{line_with(text, line)}: NotAccepted\n" in told, told)
        tally.check(f"pytest: {name}: the words, once", f"NotAccepted: {words}" in told and told.count("Where to look") == 1 and
                    told.count("The trace is saved: ") == 1, told)
    saved = place.folder / "python/failed_traces/test_stop.py--test_stops.trace"
    tally.check("pytest: the trace ends with the wrong line", saved.is_file() and saved.read_text() == LOST_TRACE, done.stdout)
    tally.check("pytest: a test that catches the stop", said.get("test_is_caught", "").lstrip().startswith(LOST), said.get("test_is_caught"))
    words = " ".join([*command, "-k", "stops", "--pdb"])
    done = place.run(["sh", "-c", f"printf 'p recording.lines() * 1000\nq\n' | {words}"], "python")
    tally.check("pytest: the debugger stands in the editor's line", "(Pdb) 5000\n" in done.stdout and re.search(
        rf"> .*/test_stop\.py\({line_with(text, '# answers wrong')}\)lose\(\)", done.stdout), done.stdout)
    done = place.run([*command, "-k", "stops"], "python", DOMEPEELER="nowhere")
    tally.check("pytest: stops without a program", f"\ntest_stop.py:{line_with(text, 'insert(0')}: RuntimeError\n" in done.stdout and
                "RuntimeError: nowhere cannot be run" in done.stdout and "__init__.py" not in done.stdout, done.stdout)


NO_EXPLAINER = "#!/bin/sh\ncat > /dev/null\necho 'not today' >&2\nexit 2\n"


def check_javascript(tally: Tally, place: Place) -> None:
    """The packed file, and the folder itself, give the recorder and the helper for Node's test runner."""
    handing_on = place.folder / "recorders/javascript/domepeeler.mjs"
    packed = place.run(["npm", "pack", "--offline", "--silent", "--pack-destination", place.folder], "recorders/javascript")
    tally.check("npm pack", packed.returncode == 0 and handing_on.read_bytes() == HANDING_ON.read_bytes(), packed.stdout)
    archive = next(iter(place.folder.glob("*.tgz")), None)
    if archive is None:
        return
    installed = place.folder / "prefix/share/domepeeler/recorders/javascript"
    for name, source in ("packed", archive), ("folder", place.folder / "recorders/javascript"), ("installed", installed):
        place.make(f"{name}/package.json", '{"name": "own", "version": "1.0.0", "type": "module"}\n')
        done = place.run(["npm", "install", "--offline", "--no-audit", "--no-fund", "--silent", str(source)], name)
        own = place.folder / name / "node_modules/domepeeler/domepeeler.mjs"
        wanted = RECORDERS / "domepeeler.mjs" if name == "packed" else HANDING_ON
        tally.check(f"npm install: {name}", done.returncode == 0 and own.is_file() and own.read_bytes() == wanted.read_bytes(), done.stdout)
        asked = 'import { Recording } from "domepeeler"; console.log(new Recording(2).text())'
        done = place.run(["node", "--input-type=module", "-e", asked], name)
        tally.check(f"npm install: {name} is used", done.stdout.startswith("trace 1\nreplicas 2\n"), done.stdout)
    types = (place.folder / "packed/node_modules/domepeeler/domepeeler.d.mts").read_text()
    script = 'import * as all from "domepeeler"; import "domepeeler/node_test"; ' \
             "console.log([...Object.keys(all), ...Object.getOwnPropertyNames(all.Recording.prototype)].join(' '))"
    named = place.run(["node", "--input-type=module", "-e", script], "packed").stdout.split()
    untyped = [name for name in named if not re.search(rf"(class {name}\b|^  {name}\()", types, re.MULTILINE)]
    tally.check("JavaScript: each name has a type", len(named) >= 16 and not untyped, untyped)
    place.make("packed/editor.test.mjs", NODE_TEST)
    place.make("packed/readme.test.mjs", example("javascript", "import { test }"))
    done = place.run(["node", "--test", "--test-reporter=tap", "editor.test.mjs", "readme.test.mjs"], "packed")
    tally.check("node --test: counts", done.returncode == 1 and "# pass 3" in done.stdout and "# fail 2" in done.stdout and
                "ok 1 - right" in done.stdout and "ok 4 - awaited" in done.stdout and "ok 5 - two users" in done.stdout, done.stdout)
    told = re.findall("^# (.*)", done.stdout, re.MULTILINE)
    at = next((at for at, line in enumerate(told) if line.startswith("fails by itself: contents 1.1: ")), len(told))
    tally.check("node --test: a line for each line of the explanation", any(line.strip() == TOLD[1] for line in told[at:]) and
                not any("\\n" in line for line in told), told)
    lost, own = done.stdout.split("not ok 2 - lost")[-1].split("not ok 3 - fails by itself")
    for name, said in ("lost", lost), ("fails by itself", own.split("ok 4")[0]):
        check_told(tally, f"node --test: {name}", said)
    check_places(tally, "node --test: lost", re.sub("^    ", "", lost, flags=re.MULTILINE), "editor.test.mjs", NODE_TEST)
    check_places(tally, "node --test: fails by itself", "\n".join(told[at:]) + "\n", "editor.test.mjs", NODE_TEST, "// and fails")
    tally.check("node --test: the test's own fault", "one is not two" in own, own)
    kept = sorted(path.name for path in (place.folder / "packed/failed_traces").iterdir() if path.name.endswith(".trace"))
    tally.check("node --test: traces", len(kept) == 2 and kept[0].startswith("editor.test.mjs-") and all(
        (place.folder / "packed/failed_traces" / name).read_text() == LOST_TRACE for name in kept) and
        all(name in done.stdout for name in kept), (kept, done.stdout))
    beside = {path.name: path.read_text().split("\n")[0] for path in (place.folder / "packed/failed_traces").iterdir()
              if path.name not in [*kept, ".gitignore", ".runs"]}
    tally.check("node --test: and the number of lines beside each", beside == {f"{name}.lines": "5" for name in kept}, beside)
    own = sorted(path.name for path in (place.folder / "packed/own").iterdir())
    hidden = f"Warning: a recording of own/right.trace is accepted, and may hide something: {NOTHING}"
    tally.check("node --test: of a property what may hide something is warned of once", done.stdout.count(hidden) == 1, done.stdout)
    tally.check("node --test: a path of its own", own == [".gitignore", "awaited.trace", "awaited.trace.lines"], own)
    check_ends_of_node(tally, place)
    place.make("packed/odd.test.mjs", 'import { test } from "node:test"\nimport { recorded } from "domepeeler/node_test"\n'
               'test("lost", recorded(1, (recording) => recording.insert(0, "a", 0, []), { folder: "odd\\n::error::forged \\u001b[31m" }))\n')
    odd = place.run(["node", "--test", "--test-reporter=tap", "odd.test.mjs"], "packed")
    tally.check("node --test: a folder with an odd name forges no line", re.search(r"The trace is saved: [^\n]*/odd\\+u\{a\}::error::forged \\+u\{1b\}\[31m/odd\.test\.mjs-", odd.stdout) and
                not any(line.lstrip("# ").startswith("::error::") for line in odd.stdout.splitlines()), odd.stdout)
    place.make("packed/runs.test.mjs", TWO_RUNS_OF_NODE)
    runs = TwoRuns("Node", ["node", "--test", "--test-reporter=tap", "runs.test.mjs"], "packed", "runs.test.mjs--soon")
    check_two_runs(tally, place, runs)
    check_marks(tally, place, runs)
    check_weak_of_node(tally, place)
    check_stop_of_node(tally, place)
    place.make("folder/editor.test.mjs", NODE_TEST)
    linked = place.run(["node", "--test", "--test-reporter=tap", "editor.test.mjs"], "folder").stdout.split("not ok 2 - lost")[-1]
    check_places(tally, "node --test: of a folder that is a link", re.sub("^    ", "", linked, flags=re.MULTILINE), "editor.test.mjs", NODE_TEST)
    place.make("packed/use.mjs", USES["javascript"])
    done = place.run(["node", "use.mjs", place.make("no_explainer", NO_EXPLAINER, 0o755)], "packed")
    check_used(tally, "JavaScript", done)
    place.make("packed/again.test.mjs", AGAIN["javascript"])
    check_again(tally, place, "node --test", ["node", "--test", "again.test.mjs"], "packed",
                {f"again.test.mjs--{test}.trace": test != "mended" for test in ("mended", "lost", "fails_by_itself_now")})
    place.make("packed/deep/again.test.mjs", AGAIN["javascript"].replace("record(true)", "record(isLost)"))
    lost = [place.folder / "packed/failed_traces" / name for name in ("again.test.mjs--lost.trace", "deep-again.test.mjs--lost.trace")]
    were = [place.run(["node", "--test", "deep/again.test.mjs"], "packed", **more) and [path.is_file() for path in lost]
            for more in ({"LOSE": "1"}, {})]
    tally.check("node --test: a file of the same name in another folder", were == [[True, True], [True, False]], were)
    check_beside(tally, place, "JavaScript", ["node", "--input-type=module", "-e", EXPLAINING["javascript"]], "packed")
    place.make("packed/front.mjs", example("..", "import { Recording }").replace('"./domepeeler.mjs"', '"domepeeler"'))
    done = place.run(["node", "front.mjs"], "packed")
    tally.check("JavaScript: README's example by the package", (done.returncode, done.stdout) == (0, ""), done.stdout)
    place.make("packed/take.mjs", example("javascript", "import { NotCausal }"))
    done = place.run(["node", "--input-type=module", "-e", TAKING], "packed")
    tally.check("JavaScript: README's way for a network that delivers in any order", done.stdout == TAKEN, done.stdout)
    line = example("javascript", "const { Recording }").strip()
    done = place.run(["node", "--input-type=commonjs", "-e", COMMON.format(line=line)], "packed")
    tally.check("JavaScript: in CommonJS", done.stdout.startswith("trace 1\nreplicas 2\n"), (line, done.stdout))


def check_ends_of_node(tally: Tally, place: Place) -> None:
    """A test that records nothing fails; what an accepted recording may hide stands in the diagnostics, and of a test that fails by itself
    its verdict, whatever that is; a program that gives no report is an error of that test."""
    place.make("packed/ends.test.mjs", ENDS["javascript"])
    words = ["node", "--test", "--test-reporter=tap", "ends.test.mjs"]
    done = place.run(words, "packed")
    tally.check("node --test: counts of ends", "# pass 1\n" in done.stdout and "# fail 2\n" in done.stdout and
                "ok 2 - unsure" in done.stdout, done.stdout)
    tally.check("node --test: nothing was recorded", NOTHING in done.stdout.split("not ok 1 - nothing")[-1].split("ok 2")[0], done.stdout)
    tally.check("node --test: warns of what an accepted recording may hide", all(f"# unsure: {told}\n" in done.stdout for told in UNSURE),
                done.stdout)
    path = place.folder / "packed/failed_traces" / next((path.name for path in (place.folder / "packed/failed_traces").iterdir()
                                                         if path.name.startswith("ends.test.mjs-") and path.name.endswith(".trace")), "none")
    told = [line.strip() for line in re.findall("^# (.*)", done.stdout, re.MULTILINE)]
    begins = any(line.startswith("fails and is right: accepted") for line in told)
    tally.check("node --test: an accepted recording of a test that fails by itself", begins and "Your notes" in told and "seed 17" in told and
                f"The trace is saved: {path}" in told and path.is_file() and path.read_text() == "trace 1\nreplicas 1\n0 read :\n", told)
    tally.check("node --test: Git passes over the folder", (path.parent / ".gitignore").read_text() == "*\n")
    place.make("packed/late.test.mjs", LATE)
    words_late = [*words[:-1], "late.test.mjs"]
    done = place.run(words_late, "packed")
    tally.check("node --test: hooks that record what is right", done.returncode == 0 and "# fail 0\n" in done.stdout, done.stdout)
    done = place.run(words_late, "packed", LATE="1")
    tally.check("node --test: what hooks record is judged", done.returncode == 1 and "not ok 1 - hook\n" in done.stdout and
                "not ok 1 - hook of the suite\n" in done.stdout and done.stdout.count("contents 0.2: ") >= 2, done.stdout)
    done = place.run(words_late, "packed", TIMER="1")
    tally.check("node --test: what is recorded later still is told of", done.returncode == 1 and "ok 3 - timer" in done.stdout and
                "timer: something was recorded when the test had ended, so it was not judged" in done.stdout, done.stdout)
    place.make("packed/refused.test.mjs", REFUSED_OF_NODE)
    words_refused = [*words[:-1], "refused.test.mjs"]
    done = place.run(words_refused, "packed")
    tally.check("node --test: a call that is refused in a hook fails the test", done.returncode == 1 and "not ok 1 - hook\n" in done.stdout and
                f"{NO_PASS}{REFUSAL}" in done.stdout, done.stdout)
    place.make("packed/calls.test.mjs", REFUSED_CALLS["javascript"])
    done = place.run([*words[:-1], "calls.test.mjs"], "packed")
    results = {name: is_ok == "ok" for is_ok, name in re.findall(r"^((?:not )?ok) \d+ - (.*)$", done.stdout, re.MULTILINE)}
    tally.check("node --test: calls that are refused, and what they say never comes", results == {
        "refused false": False, "refused true": False, "came": True, "comes in a hook": True, "never came": False, "accepted takeEarly": False,
        "accepted refuse": False, "accepted takeAll": True} and done.stdout.count(NO_PASS) >= 5, done.stdout)
    place.make("packed/never.test.mjs", NEVER_CALLED)
    done = place.run([*words[:-1], "never.test.mjs"], "packed")
    line = line_with(NEVER_CALLED, "// never called")
    tally.check("node --test: what recorded() makes and nobody calls fails the test", done.returncode == 1 and "not ok 1 - arrow\n" in done.stdout and
                "not ok 2 - awaits\n" in done.stdout and "ok 3 - within\n" in done.stdout and "    ok 1 - inner\n" in done.stdout and
                done.stdout.count("this one was never called, so nothing was recorded") >= 2 and f"never.test.mjs:{line}:" in done.stdout, done.stdout)
    told = done.stdout.partition("# block: what recorded() made here was never called, so it recorded nothing")[2]
    tally.check("node --test: what recorded() makes and nobody answers is told of", f"never.test.mjs:{line_with(NEVER_CALLED, '// answers nothing')}:" in told and
                not any(f"# {name}: what recorded() made" in done.stdout for name in ("arrow", "awaits", "within", "inner", "skipped")), done.stdout)
    others = f"domepeeler: what recorded() made here was never called, so it recorded nothing: was its test skipped, or is it not handed to test()? (and 1 more like it)"
    tally.check("node --test: what it makes elsewhere is told of too", others in done.stdout and
                f"never.test.mjs:{line_with(NEVER_CALLED, 'skip: true')}:" in done.stdout.partition(others)[2], done.stdout)
    skipping = place.run([*words[:-1], "--test-name-pattern=skips within", "never.test.mjs"], "packed")
    tally.check("node --test: but that is no error, since it may be skipped", skipping.returncode == 0, skipping.stdout)
    chosen = place.run([*words[:-1], "--test-name-pattern=inner", "never.test.mjs"], "packed")
    tally.check("node --test: but where some tests alone are to run", "domepeeler: what recorded() made" not in chosen.stdout, chosen.stdout)
    done = place.run(words_refused, "packed", TIMER="1")
    tally.check("node --test: a call that is refused later still is told of", done.returncode == 1 and "ok 2 - timer" in done.stdout and
                "timer: a call was refused when the test had ended, so what it says was not judged" in done.stdout, done.stdout)
    done = place.run(["node", "--input-type=module", "-e", FAILING_CALLS], "packed")
    tally.check("JavaScript: calls that fail otherwise are told of as refused ones", done.stdout ==
                "3 calls were refused, so what they say is not recorded; the first: Error: no name\n", done.stdout)
    place.make("packed/exits.test.mjs", EXITS_OF_NODE)
    words_exits = [*words[:-1], "exits.test.mjs"]
    done = place.run(words_exits, "packed")
    tally.check("node --test: tests that end by themselves", done.returncode == 0 and "# pass 4\n" in done.stdout, done.stdout)
    for exits, told in ("body", "body: the process ended within the test, so what it recorded was not judged"), (
            "hook", "hook: something was recorded when the test had ended, so it was not judged"):
        done = place.run(words_exits, "packed", EXITS=exits)
        tally.check(f"node --test: the process ends in a {exits}", done.returncode == 1 and f"# {told}" in done.stdout, done.stdout)
    done = place.run(words_exits, "packed", EXITS="no")
    tally.check("node --test: a test that is skipped is judged", done.returncode == 1 and "not ok 4 - skips # SKIP not today\n" in done.stdout,
                done.stdout)
    broken = str(place.folder / "broken")
    for script, why in BROKEN:
        place.make("broken", f"#!/bin/sh\n{script}\n", 0o755)
        done = place.run(words, "packed", DOMEPEELER=broken)
        tally.check(f"node --test: {why}", "# fail 3\n" in done.stdout and done.stdout.count(
            f"The recording was not judged: {why.format(broken)}\n") >= 3, done.stdout)


def check_weak_of_node(tally: Tally, place: Place) -> None:
    """The same for Node's test runner."""
    place.make("packed/weak.test.mjs", WEAK["javascript"])
    words = ["node", "--test", "--test-reporter=tap", "weak.test.mjs"]
    done = place.run(words, "packed")
    tally.check("node --test: counts where weak is enough", done.returncode == 1 and "# pass 3\n" in done.stdout and
                "# fail 4\n" in done.stdout and all(f"\nok {at}" in done.stdout for at in ("1 - passes", "2 - passes unsure", "7 - awaited")),
                done.stdout)
    tally.check("node --test: weak, a pass is told as such", "\n# passes: weak holds, strong doesn't\n" in done.stdout, done.stdout)
    for number, (name, begins) in enumerate(FAILS_WEAK.items(), 3):
        told = done.stdout.split(f"not ok {number} - {name}\n")[-1].split(f"ok {number + 1} - ")[0]
        tally.check(f"node --test: weak, {name}", re.search(rf"error: [^\n]*\n *{begins}", told) and "The trace is saved: " in told, told)
    tally.check("node --test: weak, a test that fails by itself", f"# fails by itself: {ALONE}" in done.stdout and
                "nine is not ten" in done.stdout, done.stdout)
    tally.check("node --test: weak, warnings", "# passes unsure: the last lists of replicas 0, 1 and 2 differ: 0.2 (line 8, " in
                done.stdout, done.stdout)
    done = place.run(words, "packed", DOMEPEELER_EXPLAIN="nowhere")
    tally.check("node --test: weak, without an explainer", "The recording is refused, and weak holds. There is no explanation: nowhere cannot" in
                done.stdout, done.stdout)


def check_stop_of_node(tally: Tally, place: Place) -> None:
    """The same for Node's test runner, without a debugger: the error's stack begins in the editor's line."""
    text = STOP["javascript"]
    place.make("packed/stop.test.mjs", text)
    words = ["node", "--test", "--test-reporter=tap", "stop.test.mjs"]
    done = place.run(words, "packed")
    tally.check("node --test: counts of stops", "# pass 2\n" in done.stdout and "# fail 3\n" in done.stdout and
                "\nok 3 - right\n" in done.stdout and "\nok 5 - weak true\n" in done.stdout, done.stdout)
    for number, name, begins, line in (1, "stops", LOST, "// answers wrong"), (4, "weak false", "refused 3: ", "// strong fails"):
        told = done.stdout.split(f"not ok {number} - {name}\n")[-1].split(f"ok {number + 1} - ")[0]
        place_of = rf"stack: \|-\n[^\n]*stop\.test\.mjs:{line_with(text, line)}:"
        tally.check(f"node --test: {name}: the editor's line", re.search(place_of, told), told)
        tally.check(f"node --test: {name}: the words, once", re.search(rf"error: \|-\n *{begins}", told) and
                    told.count("Where to look") == 1 and f"# {name}: The trace is saved: " in done.stdout, done.stdout)
    told = done.stdout.split("not ok 2 - is caught\n")[-1].split("ok 3 - ")[0]
    tally.check("node --test: a test that catches the stop", re.search(rf"error: [^\n]*\n *{LOST}", told) and "The trace is saved: " in told,
                told)
    script = "process.getBuiltinModule = undefined; const { Recording } = await import('domepeeler'); new Recording(2, null, { stop: true })"
    done = place.run(["node", "--input-type=module", "-e", script], "packed")
    tally.check("JavaScript: stops in no Node.js that is older", "Error: `stop` needs Node.js from 20.16 or 22.3 on" in done.stdout, done.stdout)
    done = place.run(words, "packed", DOMEPEELER="nowhere")
    told = done.stdout.split("not ok 1 - stops\n")[-1].split("ok 2 - ")[0]
    tally.check("node --test: stops without a program", "nowhere cannot be run" in told and
                re.search(rf"stack: \|-\n[^\n]*stop\.test\.mjs:{line_with(text, 'insert(0')}:", told), told)


def check_rust(tally: Tally, place: Place) -> None:
    """The crate is made of the one file, and another one's tests depend on it without a registry."""
    place.make("rust/Cargo.toml", '[package]\nname = "own"\nversion = "0.1.0"\nedition = "2021"\n[dependencies]\n'
               f'domepeeler = {{ path = "{place.folder / "recorders/rust"}" }}\n[profile.dev]\ndebug = 0\n')
    place.make("rust/src/main.rs", USES["rust"])
    place.make("rust/tests/editor.rs", RUST_TEST)
    place.make("rust/tests/readme.rs", example("rust", "use domepeeler::Recording;"))
    place.make("rust/tests/front.rs", example("..", "mod domepeeler;\n").removeprefix("mod domepeeler;\n"))
    place.make("rust/tests/late.rs", RUST_LATE)
    tests = [word for name in ("editor", "readme", "front", "late") for word in ("--test", name)]
    done = place.run(["cargo", "test", "--offline", "--quiet", "--no-fail-fast", *tests], "rust")
    tally.check("cargo test: counts", done.returncode != 0 and "1 passed; 1 failed" in done.stdout and
                done.stdout.count("1 passed; 0 failed") == 2 and "4 passed; 0 failed" in done.stdout, done.stdout)
    tally.check("cargo test: is explained", all(words in done.stdout for words in TOLD), done.stdout)
    saved = place.folder / "rust/failed.trace"
    tally.check("cargo test: saves", saved.is_file() and saved.read_text() == LOST_TRACE, done.stdout)
    beside = place.folder / "rust/failed.trace.lines"
    tally.check("cargo test: and the number of lines beside it", beside.is_file() and beside.read_text().startswith("5\n"), done.stdout)
    check_places(tally, "cargo test", done.stdout, "tests/editor.rs", RUST_TEST)
    done = place.run(["cargo", "run", "--offline", "--quiet", "--", place.make("no_explainer", NO_EXPLAINER, 0o755)], "rust")
    check_used(tally, "Rust", done)
    check_beside(tally, place, "Rust", [str(place.folder / "rust/target/debug/own")], "rust")
    place.make("rust/src/bin/taking/main.rs", TAKING_OF_RUST)
    place.make("rust/src/bin/taking/take.rs", example("rust", "use domepeeler::{Recording, Refused};"))
    done = place.run(["cargo", "run", "--offline", "--quiet", "--bin", "taking"], "rust")
    tally.check("Rust: README's way for a network that delivers in any order", done.stdout == TAKEN, done.stdout)
    place.make("rust/tests/runs.rs", TWO_RUNS_OF_RUST)
    place.run(["cargo", "test", "--offline", "--quiet", "--test", "runs", "--no-run"], "rust")  # so that the two don't wait for this
    runs = TwoRuns("cargo", ["cargo", "test", "--offline", "--quiet", "--test", "runs"], "rust", "runs-soon", ".run")
    check_two_runs(tally, place, runs)
    check_marks(tally, place, runs)
    check_killed_cargo(tally, place, runs)
    (place.folder / "rust/tests/runs.rs").unlink()
    check_same_names(tally, place)


def check_killed_cargo(tally: Tally, place: Place, runs: TwoRuns) -> None:
    """Where cargo is killed before its test begins to record, the test saves its trace all the same, and the next run that passes removes it."""
    folder = place.folder / runs.folder
    killed = subprocess.Popen(runs.words, cwd=folder, env=place.surroundings | {"LOST": "1", "NAME": "killed", "LATE": "1"}, stdin=subprocess.DEVNULL,
                              stdout=subprocess.DEVNULL, stderr=subprocess.DEVNULL)
    children = Path(f"/proc/{killed.pid}/task/{killed.pid}/children")
    for _ in range(600):
        tests = [int(number) for number in children.read_text().split() if "runs-" in Path(f"/proc/{number}/cmdline").read_text()]
        if tests:
            break
        time.sleep(0.05)
    killed.kill()
    killed.wait()
    place.make(f"{runs.folder}/begun", "")
    for _ in range(600):
        if not Path(f"/proc/{tests[0]}").exists():
            break
        time.sleep(0.05)
    saved = [path.read_text().split()[6] for path in (folder / "failed_traces").glob("*.trace")]
    tally.check("cargo is killed before its test records: the trace is saved", saved == ["killed"], saved)
    done = place.run(runs.words, runs.folder, NAME="after")
    left = [path.name for path in (folder / "failed_traces").iterdir() if path.name not in (".gitignore", ".runs")]
    tally.check("cargo was killed: the next run that passes removes the trace", done.returncode == 0 and left == [], (left, done.stdout))


# A module of a library and of a program, whose tests fail in the library; two of them come to one name.
SAME_NAMES = """
#[cfg(test)]
mod tests {
    use domepeeler::Recording;

    fn ask(name: &str) {
        let mut recording = Recording::new(1).unwrap();
        let is_lost = crate::FAILS && std::env::var_os("LOST").is_some();
        recording.insert(0, name, 0, if is_lost { &[] } else { std::slice::from_ref(&name) }).unwrap();
        recording.assert_accepted();
    }

    #[test]
    fn two_users() {
        ask("a")
    }

    #[test]
    fn tést() {
        ask("b")
    }

    #[test]
    fn tüst() {
        ask("c")
    }
}
"""


def check_same_names(tally: Tally, place: Place) -> None:
    """Of tests with the same name in a library and its program, of those whose names have the same letters but for signs, and of examples in documentation,
    each keeps its trace."""
    shutil.copytree(place.folder / "rust", place.folder / "same", ignore=shutil.ignore_patterns("target", "tests", "src", "failed*"))
    place.make("same/src/editor.rs", SAME_NAMES)
    for name, fails, more in ("lib", "true", ""), ("main", "false", "fn main() {}\n"):
        place.make(f"same/src/{name}.rs", f"#[cfg(test)]\nconst FAILS: bool = {fails};\nmod editor;\n{more}")
    folder = place.folder / "same/failed_traces"
    example_of = "//! ```\n//! let mut recording = domepeeler::Recording::new(1).unwrap();\n//! let list: &[&str] = if std::env::var_os(\"LOST\").is_some() {{ &[] }} else {{ &[\"{0}\"] }};\n" \
                 "//! recording.insert(0, \"{0}\", 0, list).unwrap();\n//! recording.assert_accepted();\n//! ```\n"
    place.make("same/src/lib.rs", f"{example_of.format('d')}mod other;\n{(place.folder / 'same/src/lib.rs').read_text()}")
    place.make("same/src/other.rs", example_of.format("e"))  # in the same lines
    done = place.run(["cargo", "test", "--offline", "--quiet", "--no-fail-fast"], "same", LOST="1", CARGO_TARGET_DIR=str(place.folder / "rust/target"))
    saved = {path.stem: path.read_text().split()[6] for path in folder.glob("*.trace")}
    tally.check("cargo: tests with the same name in a library and its program, and of other tests", set(saved.values()) == {"a", "b", "c", "d", "e"} and
                saved.get("own-editor-tests-two_users") == "a" and {"own-editor-tests-t-st", "own-editor-tests-t-st-2"} < set(saved), (saved, done.stdout))
    shutil.rmtree(folder)
    runner = place.make("same/runner", '#!/bin/sh\n"$@"\nexit $?\n', 0o755)
    machine = re.search("^host: (.*)$", place.run(["rustc", "-vV"]).stdout, re.MULTILINE)[1].upper().replace("-", "_")
    done = place.run(["cargo", "test", "--offline", "--quiet", "--no-fail-fast", "--lib", "--bins"], "same", LOST="1", CARGO_TARGET_DIR=str(place.folder / "rust/target"),
                     **{f"CARGO_TARGET_{machine}_RUNNER": runner})
    tally.check("cargo: the same by way of a runner", {path.read_text().split()[6] for path in folder.glob("*.trace")} == {"a", "b", "c"}, done.stdout)
    done = place.run(["cargo", "test", "--offline", "--quiet", "--no-fail-fast"], "same", CARGO_TARGET_DIR=str(place.folder / "rust/target"))
    tally.check("cargo: where they pass their traces are removed", done.returncode == 0 and not list(folder.glob("*.trace")), done.stdout)


def check_proptest(tally: Tally, place: Place) -> None:
    """The lines of the README for proptest, and for crates that lie in a folder as Debian's do: a failing property asks for verdicts alone,
    and saves what fails, at last the smallest; and one that holds saves nothing."""
    is_real, config = has_proptest(), example("rust", "[source.crates-io]")
    tally.check("cargo: Debian's folder of crates", config.count(f'"{CRATES}"') == 1, config)
    if not is_real:
        print(f"Debian's {PROPTEST} is not here, and can't be installed: a crate stands in for it")
        config = config.replace(str(CRATES.parent), str(place.folder))
        place.make("registry/proptest/Cargo.toml", '[package]\nname = "proptest"\nversion = "1.0.0"\nedition = "2021"\n[features]\nstd = []\n')
        place.make("registry/proptest/src/lib.rs", STAND_IN)
        place.make("registry/proptest/.cargo-checksum.json", '{"files":{}}')
    place.make("rust/.cargo/config.toml", config)
    place.make("rust/Cargo.toml", '[package]\nname = "own"\nversion = "0.1.0"\nedition = "2021"\n[dev-dependencies]\n'
               f'domepeeler = {{ path = "{place.folder / "recorders/rust"}" }}\n[profile.dev]\ndebug = 0\n')
    place.make("rust/src/lib.rs", "")
    done = place.run(["sh", "-c", example("rust", "cargo add --dev --offline")], "rust")
    tally.check("cargo: proptest is added", done.returncode == 0 and "Adding proptest v1." in done.stdout, done.stdout)
    asked = place.make("asking", ASKED.format(place.folder), 0o755)
    saved, words = place.folder / "rust/failed.trace", place.folder / "asked"
    for most in 2, 9:
        tried = ", ".join(f"vec!{session}" for session in TRIED[most])
        steps = STRATEGY.replace("MOST", str(most)) if is_real else f"fn steps() -> Vec<Vec<usize>> {{\n    vec![{tried}]\n}}\n"
        place.make("rust/tests/properties.rs", LOSING + steps + example("rust", "use domepeeler::{Recording, Verdict};"))
        words.unlink(missing_ok=True)
        done = place.run(["cargo", "test", "--offline", "--quiet", "--test", "properties"], "rust", 600, DOMEPEELER=asked, DOMEPEELER_EXPLAIN=asked)
        lines = words.read_text().splitlines() if words.is_file() else []
        tally.check(f"proptest: asks for verdicts alone, of up to {most} inserts", set(lines) == {"verdict -"} and len(lines) >= len(TRIED[most]), lines)
        if most == 2:
            tally.check("proptest: a property that holds", done.returncode == 0 and "1 passed" in done.stdout and not saved.exists() and
                        len(lines) == (CASES if is_real else len(TRIED[2])), (len(lines), done.stdout))
    told = "".join(done.stdout.split())
    tally.check("proptest: a failing property", done.returncode != 0 and "Contents{at:(1,1)}" in told
                and re.search(r"minimalfailinginput:steps=\[0,0,0,?\]", told), done.stdout)
    text = saved.read_text() if saved.is_file() else ""
    tally.check("proptest: saves the smallest that fails", text == "trace 1\nreplicas 2\n0 ins e0 0 : e0\n0 ins e1 0 : e1 e0\n"
                "0 ins e2 0 : e2 e1 e0\n0 read : e2 e1 e0\n1 recv 0 3\n1 read : e1 e0\n", (text, done.stdout))
    done = place.run(["domepeeler-explain", "failed.trace"], "rust")
    tally.check("proptest: which is explained once", done.returncode == 1 and done.stdout.startswith(LOST), done.stdout)


def main() -> None:
    program = program_of(sys.argv)
    prepare()
    tally = Tally()
    for check in check_installed, check_versions, check_python, check_javascript, check_rust, check_proptest:
        with tempfile.TemporaryDirectory() as name:
            check(tally, Place(Path(name).resolve(), program))
    tally.close()


if __name__ == "__main__":
    main()
