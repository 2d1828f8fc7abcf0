"""The fixture `domepeeler` of pytest: it begins recordings, which are judged when the test ends.

    def test_two_users(domepeeler):
        recording = domepeeler(2)
        ...

For an editor that promises the weak list specification alone, as one with a server that orders changes, begin `domepeeler(2, weak=True)`:
then a recording is taken for accepted where weak holds. `contents`, `position`, `doubled` and `refused 2` still fail.

Begin `domepeeler(2, stop=True)`, and the test fails in the call that answered wrong; `pytest --pdb` stops in the line that made it.

Where a recording is not accepted the test fails, and its report has the explanation and the path of the saved trace. What other
fixtures record while they are torn down is judged too, when that is done; pytest tells it as an error of the test. The report of a
test that fails by itself has the verdict on its recordings, accepted or not, in a section of its own, and they are saved. Where a test
passes, the traces that it saved before are removed; and of what its accepted recordings may hide pytest warns, by `Unsure`. That a call was
refused is no warning: the test fails, also where a copy of the recording refused it, which a thread or a forked process has (of a pool whose
workers are spawned its future alone tells); and at the end of its teardown, if an update was not causal and has not come by then. What a test
records before it is skipped is judged too; not that of a test which is expected to fail, and does. What is recorded, refused or begun later
still, as by a thread or a wider fixture, nothing has judged: it fails the run, if it comes before pytest has ended, or the worker of
pytest-xdist that ran the test. So do recordings of a test that ends pytest, by `pytest.exit`; `os._exit` hides them, as it hides all else.

Where another run of pytest is at work in the folder, the traces of this one have `-run` and a number in their names, so that neither takes what
the other has saved. A run that is alone removes them too, where their test passes."""
from __future__ import annotations

import contextlib
import glob
import hashlib
import os
import re
from pathlib import Path
from typing import Any, Callable, Dict, Generator, List, Optional, Tuple, cast

import pytest

from . import Recording

FOLDER = "failed_traces"
PLAIN = re.compile(r"[A-Za-z0-9_.]+(/[A-Za-z0-9_.]+)*(::[A-Za-z0-9_.]+)+", re.ASCII)
MOST_LETTERS = 150  # of a test's own name in the name of a file
BEGUN = "_domepeeler_begun"
WEAK_ALONE = "weak holds, strong doesn't"
ENDED, GROWN = "_domepeeler_ended", "_domepeeler_grown"  # recordings of tests that have ended; what is told of those that grew since
OPEN = "_domepeeler_open"  # by name of a test: what was begun, while nothing is told of it
RECORDED_LATE = "domepeeler: something was recorded after the test had ended, so it was not judged"
REFUSED_LATE = "domepeeler: a call was refused after the test had ended, so what it says was not judged"
BEGUN_LATE = "domepeeler: a recording was begun after the test had ended, so it was not judged"
CUT_SHORT = "domepeeler: pytest ended within the test, so what it recorded was not judged"
TORN_DOWN = "domepeeler: the test was skipped while it was torn down, so what it recorded was not judged"
NONE_BEGUN = "the fixture domepeeler began no recording, so nothing was judged"
NEVER_CAME = "a call was refused, and what it says never came: "  # so the recorder says of what may come still
RUN, LOCKS = "_domepeeler_run", "_domepeeler_locks"  # what names have where another run is at work; and what says that this one is
OF_RUN = re.compile(r"-run([0-9]+)(-[a-z]+[0-9]+)?\.trace")
State = Tuple[int, List[str]]  # of a recording: how many lines it has, and what is told of calls that were refused
FIRST_LINES = 2  # of each trace: its version, and how many replicas there are


class Unsure(pytest.PytestWarning):
    """A recording is accepted, and may hide something."""


class NothingRecorded(Unsure):
    """A recording has no entry."""


class Judged:
    """A recording of a test, and whether weak alone is asked of it; its state when it was judged, if it was; and of what its verdict then
    warned, and whether it passed since weak holds, though strong doesn't."""

    def __init__(self, recording: Recording, weak: bool) -> None:
        self.recording = recording
        self.weak = weak
        self.state: Optional[State] = None
        self.warnings: List[str] = []
        self.is_weak_alone = False


class Begun:
    """The recordings of a test of which nothing is told yet; whether there was any; whether the test has passed so far, and they
    are accepted; whether it was skipped; and whether it has ended, so that nothing judges what begins now."""

    def __init__(self) -> None:
        self.recordings: List[Judged] = []
        self.has_any = False
        self.has_passed = False
        self.was_skipped = False
        self.has_ended = False

    def numbered(self) -> List[Tuple[Optional[int], Judged]]:
        """The recordings with their numbers; a single one has none."""
        return [(number if len(self.recordings) > 1 else None, one) for number, one in enumerate(self.recordings, 1)]


def pytest_addoption(parser: pytest.Parser) -> None:
    parser.getgroup("domepeeler").addoption("--failed-traces", metavar="FOLDER", default=FOLDER,
                                            help=f"where the traces of tests that fail are saved; {FOLDER} by default")


def pytest_configure(config: pytest.Config) -> None:
    of_worker = getattr(config, "workerinput", None)
    setattr(config, RUN, of_worker.get(RUN, "") if of_worker else "" if is_alone(config) else f"-run{os.getpid()}")


def is_alone(config: pytest.Config) -> bool:
    """Whether no other run of pytest is at work in this folder, or in that of the traces. From now on this one is. A system without such locks
    does not say."""
    try:
        import fcntl
    except ImportError:
        return True
    here, is_only, locks = config.invocation_params.dir, True, []
    for folder in here, here / config.getoption("--failed-traces"):
        try:
            locks.append(os.open(folder, os.O_RDONLY))
            fcntl.flock(locks[-1], fcntl.LOCK_EX | fcntl.LOCK_NB)
        except BlockingIOError:
            is_only = False
        except OSError:  # most often it is not there yet
            pass
    setattr(config, LOCKS, locks)
    return is_only


def pytest_unconfigure(config: pytest.Config) -> None:
    for lock in getattr(config, LOCKS, []):
        os.close(lock)
    setattr(config, LOCKS, [])


@pytest.hookimpl(optionalhook=True)  # of pytest-xdist, where it is installed
def pytest_configure_node(node: Any) -> None:
    is_run_by_each = node.config.getoption("dist", "no") == "each"
    run = getattr(node.config, RUN, "")
    node.workerinput[RUN] = f"{run or f'-run{os.getpid()}'}-{node.gateway.id}" if is_run_by_each else run


@pytest.fixture
def domepeeler(request: pytest.FixtureRequest) -> Callable[..., Recording]:
    """Begins a recording of so many replicas, which is judged when the test ends; with `weak`, where it passes if weak holds; and with
    `stop`, also after each call that takes a list."""
    begun = Begun()
    setattr(request.node, BEGUN, begun)
    open_ones(request.config)[request.node.nodeid] = begun

    def begin(replicas: int, weak: bool = False, stop: bool = False) -> Recording:
        one = Judged(Recording(replicas, stop=stop, weak=weak and stop), weak)
        one.recording._is_watched = True  # so that copies refuse what nothing would judge
        begun.has_any = True
        if begun.has_ended:
            watch(request.config, request.node.nodeid, [one])
        else:
            begun.recordings.append(one)
        return one.recording

    return begin


@pytest.hookimpl(trylast=True)  # after the test itself has run, if it has passed
def pytest_runtest_call(item: pytest.Item) -> None:
    begun: Begun = getattr(item, BEGUN, Begun())
    if getattr(item, "_excinfo", None):  # a test of unittest that has failed, or was skipped: pytest tells of it behind this
        return
    fail_by_faults(item, begun, False)
    begun.has_passed = True


@pytest.hookimpl(trylast=True)  # after all fixtures were torn down, if that went well
def pytest_runtest_teardown(item: pytest.Item) -> None:
    begun: Begun = getattr(item, BEGUN, Begun())
    if not begun.has_passed and not begun.was_skipped:
        return
    fail_by_faults(item, begun, True)
    if begun.has_passed:
        tell_of_passed(item, begun)
    begun.has_ended = True
    watch(item.config, item.nodeid, begun.recordings)
    begun.recordings = []


def tell_of_passed(item: pytest.Item, begun: Begun) -> None:
    """Removes what was saved of a test that has passed, and warns of what its recordings may hide, and where there is none."""
    remove_saved(item, begun)
    if any(one.is_weak_alone for one in begun.recordings):
        item.add_report_section("teardown", "domepeeler", WEAK_ALONE)
    try:
        for one in begun.recordings:
            for told in one.warnings:
                item.warn(NothingRecorded(told) if one.state and one.state[0] == FIRST_LINES else Unsure(told))
        if hasattr(item, BEGUN) and not begun.has_any:
            item.warn(NothingRecorded(NONE_BEGUN))
    except Unsure as why:  # where warnings are errors
        pytest.fail(f"{type(why).__name__}: {why}", pytrace=False)


def open_ones(config: pytest.Config) -> Dict[str, Begun]:
    if not hasattr(config, OPEN):
        setattr(config, OPEN, {})
    return cast(Dict[str, Begun], getattr(config, OPEN))


def watch(config: pytest.Config, test: str, recordings: List[Judged]) -> None:
    """From now on nothing judges these recordings of a test; what they get is told of when pytest ends."""
    if not hasattr(config, ENDED):
        setattr(config, ENDED, [])
    getattr(config, ENDED).extend((test, one) for one in recordings)


def grown(test: str, one: Judged) -> List[str]:
    """What is told of a recording that has got something since it was judged, or never was."""
    state = state_of(one.recording)
    if state == one.state:
        return []
    return [f"{test} - {BEGUN_LATE if one.state is None else RECORDED_LATE if state[0] != one.state[0] else REFUSED_LATE}"]


def pytest_sessionfinish(session: pytest.Session) -> None:
    config = session.config
    told = getattr(config, GROWN, []) + [line for test, one in getattr(config, ENDED, []) for line in grown(test, one)]
    told += [f"{test} - {CUT_SHORT}" for test, begun in open_ones(config).items() if begun.recordings]
    setattr(config, GROWN, told)
    if hasattr(config, "workeroutput"):  # a worker of pytest-xdist, whose status and summary nobody sees
        config.workeroutput[GROWN] = told
    if told and session.exitstatus == pytest.ExitCode.OK:
        session.exitstatus = pytest.ExitCode.TESTS_FAILED


@pytest.hookimpl(optionalhook=True)  # of pytest-xdist, where it is installed
def pytest_testnodedown(node: Any, error: Any) -> None:
    if not error:
        setattr(node.config, GROWN, getattr(node.config, GROWN, []) + node.workeroutput.get(GROWN, []))


def pytest_terminal_summary(terminalreporter: Any, config: pytest.Config) -> None:
    for told in getattr(config, GROWN, []):
        terminalreporter.write_line(f"ERROR {told}", red=True)


@pytest.hookimpl(hookwrapper=True, tryfirst=True)  # when all others have said whether it has failed
def pytest_runtest_makereport(item: pytest.Item, call: pytest.CallInfo[None]) -> Generator[None, Any, None]:
    outcome = yield
    report, begun = outcome.get_result(), getattr(item, BEGUN, Begun())
    if report.failed and begun.recordings:
        known = str(call.excinfo.value) if call.excinfo else ""  # what `stop` has said already
        told = [told_of(item, one, number, True, known) for number, one in begun.numbered()]
        report.sections.append(("Domepeeler", "\n\n".join(told)))
        begun.recordings = []
    if report.skipped and not hasattr(report, "wasxfail"):
        begun.was_skipped = True
    if call.when == "teardown":  # of a test that has failed, or was expected to, too
        begun.has_ended = True
        if (begun.has_passed or begun.was_skipped) and any(one.state != state_of(one.recording) for one in begun.recordings):
            setattr(item.config, GROWN, getattr(item.config, GROWN, []) + [f"{item.nodeid} - {TORN_DOWN}"])
        open_ones(item.config).pop(item.nodeid, None)


def fail_by_faults(item: pytest.Item, begun: Begun, is_over: bool) -> None:
    """Fails the test where a recording is not accepted, or lacks what a refused call says, to which something was added, or of which a call was
    refused, since it was judged. Until all is over, an update that waits for another may come."""
    told = [told_of(item, one, number, False, is_over=is_over) for number, one in begun.numbered()
            if one.state != state_of(one.recording) or is_over and one.state[1]]
    if any(told):
        begun.recordings = []
        pytest.fail("\n\n".join(filter(None, told)), pytrace=False)


def state_of(recording: Recording) -> State:
    with recording._lock:
        return recording.lines(), recording._refusals()


def told_of(item: pytest.Item, one: Judged, number: Optional[int], has_failed: bool, known: str = "", is_over: bool = True) -> str:
    """The verdict on a recording in words, if these aren't known, which is then saved; nothing where it is accepted and no call was refused, unless
    its test has failed by itself."""
    one.state = state_of(one.recording)
    try:
        report = one.recording.judge(weak=one.weak)
    except Exception as why:  # whatever it is, it is an error of this test alone
        told = f"The recording was not judged: {why}"
    else:
        is_passing = report["verdict"] == "accepted" or one.weak and report.get("weak") is True
        one.warnings = report["warnings"] if is_passing else []
        one.is_weak_alone = is_passing and report["verdict"] != "accepted"
        refused = [line for line in one.state[1] if is_over or not line.startswith(NEVER_CAME)]
        if is_passing and not has_failed and not refused:
            return ""
        told = explained(one, report["verdict"], is_passing)
        if is_passing and refused:
            told = f"{WEAK_ALONE if one.is_weak_alone else 'accepted'}, but this is no pass: {refused[0]}\n\n{told}"
    return ("" if told == known else f"{told}\n\n") + saved(item, one.recording, number)


def explained(one: Judged, verdict: str, is_passing: bool) -> str:
    try:
        return one.recording.explain(weak=one.weak).rstrip("\n")
    except Exception as why:
        is_so = "accepted" if verdict == "accepted" else f"{verdict}, and weak holds" if is_passing else f"not accepted: {verdict}"
        return f"The recording is {is_so}. There is no explanation: {why}"


def saved(item: pytest.Item, recording: Recording, number: Optional[int]) -> str:
    path = path_of(item, number)
    try:
        make_folder(path.parent)
        recording.save(path)
    except OSError as why:
        return f"The trace can't be saved in {shown(path)}: {why.strerror}. It is:\n{recording.text()}"
    return f"The trace is saved: {shown(path)}"


def shown(path: Path) -> str:
    """A path for a message, which begins no line and sends nothing to a terminal."""
    return "".join(letter if letter.isprintable() else ascii(letter)[1:-1] for letter in str(path))


def make_folder(folder: Path) -> None:
    """Makes the folder, which Git then passes over. Another folder that is there already may hold what Git is to see."""
    is_ours = not folder.exists() or folder.name == FOLDER
    folder.mkdir(parents=True, exist_ok=True)
    if is_ours:
        with contextlib.suppress(FileExistsError), open(folder / ".gitignore", "x") as file:
            file.write("*\n")


def remove_saved(item: pytest.Item, begun: Begun) -> None:
    """Removes what an earlier run of the test has saved of these recordings, which are accepted now."""
    for number, _ in begun.numbered():
        path = path_of(item, number)
        of_runs = [] if getattr(item.config, RUN, "") else path.parent.glob(f"{glob.escape(path.stem)}-run*.trace")
        for trace in [path, *filter(has_ended, of_runs)]:
            for left in trace, Path(f"{trace}.lines"):
                with contextlib.suppress(OSError):  # most often there is none
                    os.remove(left)


def has_ended(trace: Path) -> bool:
    """Whether the run of pytest has ended that saved a trace beside another run."""
    run = OF_RUN.search(trace.name)
    if run is None:
        return False
    try:
        os.kill(int(run[1]), 0)
    except (ProcessLookupError, OverflowError):
        return True
    except OSError:
        pass
    return False


def path_of(item: pytest.Item, number: Optional[int]) -> Path:
    name = file_name(item.nodeid, number, getattr(item.config, RUN, ""))
    return item.config.invocation_params.dir / item.config.getoption("--failed-traces") / name


def file_name(test: str, number: Optional[int], run: str = "") -> str:
    """The name of a file that no other test has; nor one of another run, where this one has a name."""
    plain = PLAIN.fullmatch(test) and len(test) <= MOST_LETTERS
    name = test.replace("::", "--").replace("/", "-") if plain else re.sub(r"[^A-Za-z0-9_.]+", "-", test)[:MOST_LETTERS]
    parts = [name.strip("-"), *([] if plain else [hashlib.sha256(test.encode(errors="replace")).hexdigest()[:12]]),
             *([] if number is None else [str(number)])]
    return f"{'-'.join(parts)}{run}.trace"
