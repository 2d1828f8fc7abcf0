"""Random sessions of an engine, judged. It is started by record.py, which a Python of any age can read."""
import argparse
import os
import random
import re
import select
import shlex
import shutil
import signal
import subprocess
import sys
import tempfile
import threading
import time
from collections import Counter
from concurrent.futures import FIRST_EXCEPTION, ThreadPoolExecutor, wait
from pathlib import Path
from typing import Callable, NamedTuple, NoReturn, Optional

sys.path.insert(1, str(Path(__file__).resolve().parent.parent))

import sessions
from merge import shown
from sessions import DELETE, INSERT, READ, Plan, Session, smaller

HERE = Path(__file__).resolve().parent
STOPPED = "no answer of the engine"
LINE_FAULT = re.compile(rb"finder: line ([0-9]+): (.*)\n")
COMMANDS = {"cargo": "cargo", "emacs-nox": "emacs", "gcc": "gcc", "nodejs": "node", "pkg-config": "pkg-config"}
ACCEPTED, WEAK_ALONE = "accepted", "weak alone"  # what passes: the second where weak is enough, and holds though strong doesn't
UNEQUAL = ", unequal"  # behind these, of a whole session: in the end its replicas show different lists
JUDGES = 3  # how many programs run at the same time
SECONDS = 0.2  # between two looks for a signal
MOST_WAITED = 5  # seconds for a thread, where a signal has stopped this
MOST_OF_VERSION = 60  # seconds in which a program says its version
AFTER_END = 2  # seconds without a byte, after which nobody answers for an engine that has ended
STOPS = [signal.SIGINT, signal.SIGTERM, signal.SIGHUP]
MOST_LINE, MOST_BYTES = 1 << 18, 1 << 24  # of an answer; those of right engines have two megabytes at most
MOST_SHOWN = 60  # letters of a faulty line
NODE = {"NODE_PATH": "/usr/share/nodejs"}
SMALL = [sessions.SMALL_PEERS, sessions.SMALL_STAR, sessions.SMALL_MIDDLE]
ALL = [*SMALL, sessions.LARGE_PEERS, sessions.LARGE_STAR, sessions.LARGE_MIDDLE]
SERVER = [sessions.SMALL_STAR, sessions.MIDDLING_STAR, sessions.LARGE_STAR]


class Parser(argparse.ArgumentParser):
    """A parser that shows a wrong word as a name is shown."""

    def error(self, message: str) -> NoReturn:
        super().error(shown(message))


def fail(words: str) -> NoReturn:
    try:
        print(f"record.py: {shown(words)}", file=sys.stderr)
    except OSError:  # nobody can be told
        os.dup2(os.open(os.devnull, os.O_WRONLY), sys.stderr.fileno())
    sys.exit(2)


class Stopped(BaseException):
    """A signal that stops it, and the programs that judge meanwhile. While the main thread begins one, a signal waits: nobody could end that. Nor
    would a thread end whose lock the main thread has left held."""

    by, judging, is_beginning = 0, set(), False


def be_stopped(stop: int, _: object) -> None:
    Stopped.by = stop
    for process in list(Stopped.judging):
        process.kill()
    if not Stopped.is_beginning:
        raise Stopped(stop)


class NoAnswer(Exception):
    """The engine did not answer a plan with a trace of it: it was late, it ended, or it answered nonsense. The session is the one that it
    was asked for, where that is known."""

    def __init__(self, cause: str, words: str):
        super().__init__(words)
        self.cause, self.session = cause, None


LATE, LONG, ENDED, NONSENSE = (f"{STOPPED}: {cause}" for cause in ("late", "too long", "ended", "nonsense"))


class Engine:
    """What an engine needs, how it is run, which kinds of session it is asked for and how many small ones of each within a
    minute, how it is built in a folder, after how many seconds without an answer it is stopped, and whether a session
    that it doesn't answer is an error."""

    def __init__(self, packages: list, run: list, kinds: list, count: int, build: str = "", surroundings: dict = None,
                 seconds: int = 20, must_answer: bool = False):
        self.packages, self.run, self.kinds, self.count = packages, run, kinds, count
        self.build, self.seconds, self.must_answer = build, seconds, must_answer
        self.surroundings = {**os.environ, "LC_ALL": "C.UTF-8", **(surroundings or {})}

    def prepare(self, folder: Path) -> list:
        """Installs and builds it; answers the words that start it."""
        install(self.packages)
        if self.build:
            subprocess.run(["sh", "-ec", self.build], check=True, env={**os.environ, "HERE": str(HERE), "OUT": str(folder)})
        return [word.format(here=HERE, out=folder) for word in self.run]


DEBIAN_CRATES = """
mkdir -p "$OUT/.cargo"
cat > "$OUT/.cargo/config.toml" <<END
[source.crates-io]
replace-with = "debian"
[source.debian]
directory = "/usr/share/cargo/registry"
END
"""
RUST = DEBIAN_CRATES + """
for file in "$HERE/crdts.rs" "$HERE/../domepeeler.rs"; do cp "$file" "$OUT"; done
cat > "$OUT/Cargo.toml" <<END
[package]
name = "recorded"
version = "0.1.0"
edition = "2021"
[[bin]]
name = "recorded"
path = "crdts.rs"
[dependencies]
crdts = "7.2"
[profile.dev]
debug = 0
END
cd "$OUT" && cargo build --quiet --offline
"""
C = """
gcc -Wall -Wextra -O1 -o "$OUT/recorded" "$HERE/libinfinity.c" \\
    $(pkg-config --cflags --libs libinfinity-0.7 libinftext-0.7)
"""

ENGINES = {
    "list_crdt": Engine([], [sys.executable, "{here}/list_crdt.py"], ALL, 1500),
    "yjs": Engine(["nodejs", "node-yjs"], ["node", "{here}/yjs.mjs"], [*ALL, sessions.UNCAUSAL], 1000, surroundings=NODE),
    "prosemirror": Engine(["nodejs", "node-prosemirror-model", "node-prosemirror-transform"], ["node", "{here}/prosemirror.mjs"],
                          SERVER, 1000, surroundings=NODE),
    "crdts": Engine(["cargo", "librust-crdts-dev"], ["{out}/target/debug/recorded"], [*ALL, sessions.UNCAUSAL], 1000, RUST),
    "libinfinity": Engine(["gcc", "pkg-config", "libinfinity-0.7-dev"], ["{out}/recorded"],
                          [*SMALL, sessions.MIDDLING_STAR], 1200, C),
    "crdt_el": Engine(["emacs-nox", "elpa-crdt"], ["emacs", "--batch", "-l", "{here}/crdt_el.el"],
                      [sessions.SMALL_STAR, sessions.SMALL_MIDDLE, sessions.MIDDLING_STAR], 100, seconds=2),
}


BEGIN = 60  # seconds in which a module of one's own is loaded
OWN_COUNT = 300  # small sessions of each kind of an engine of one's own


def engine_of(word: str) -> Engine:
    """The engine of this name, that of the module at this path, or the one that this command starts."""
    if word in ENGINES:
        return ENGINES[word]
    command = command_of(word)
    if word.endswith(".py") and (os.path.isfile(word) or not command):
        return module_engine(word)
    if not command:
        fail(f"{word} is none of {', '.join(sorted(ENGINES))}, no path of a Python module, which ends with .py, and no command that "
             "can be run")
    return Engine([], [part.replace("{", "{{").replace("}", "}}") for part in command], ALL, OWN_COUNT, must_answer=True)


def command_of(word: str) -> list:
    """The words of a command that can be run: the path of a program, or its words as a shell reads them."""
    try:
        command = [os.path.abspath(word)] if os.path.isfile(word) else shlex.split(word)
    except ValueError:  # an open quotation mark
        return []
    return command if command and shutil.which(command[0]) else []


def module_engine(word: str) -> Engine:
    module = os.path.abspath(word)
    try:
        status, errors = loaded(module)
    except subprocess.TimeoutExpired:
        fail(f"{word} was not loaded within {BEGIN} seconds")
    if status:
        fail((errors.strip().splitlines() or [f"{word} ended with status {status}"])[-1])
    return Engine([], [sys.executable, "{here}/own_engine.py", module.replace("{", "{{").replace("}", "}}")], ALL, OWN_COUNT)


def loaded(module: str) -> tuple:
    """With which status a process ends that loads the module, and what it writes on standard error. What the module has started ends too."""
    process = None
    try:
        with Beginning():
            process = subprocess.Popen([sys.executable, HERE / "own_engine.py", module], stdin=subprocess.DEVNULL, stdout=subprocess.PIPE,
                                       stderr=subprocess.PIPE, text=True, errors="surrogateescape", start_new_session=True)
        if Stopped.by:  # meanwhile
            raise Stopped(Stopped.by)
        _, errors = process.communicate(timeout=BEGIN)
        return process.returncode, errors
    finally:
        if process is not None:
            with process:
                kill_group(process)


def installed(package: str) -> bool:
    """Whether the package is there, or what it is needed for from elsewhere."""
    if package in COMMANDS and shutil.which(COMMANDS[package]):
        return True
    done = subprocess.run(["dpkg-query", "-W", "-f", "${db:Status-Status}", package], capture_output=True)
    return done.stdout == b"installed"


def install(packages: list) -> None:
    """Installs those of Debian's packages that are missing."""
    missing = [name for name in packages if not installed(name)]
    if missing:
        subprocess.run(["apt-get", "update"], check=True, stdout=subprocess.DEVNULL)
        subprocess.run(["apt-get", "install", "-y", "--no-install-recommends", *missing], check=True,
                       stdout=subprocess.DEVNULL, env={**os.environ, "DEBIAN_FRONTEND": "noninteractive"})


class Driver:
    """An engine that runs: it takes plans and answers traces. One that stops is started again for the next plan."""

    def __init__(self, engine: Engine, folder: Path):
        self.engine, self.words, self.said, self.process, self.answers = engine, engine.prepare(folder), folder / "said", None, None
        self.late = self.was_late = False  # this one, one of those before

    def trace(self, plan: str) -> Optional[str]:
        """The recording of a plan. Where the engine stopped: none, or an error where it must answer."""
        try:
            return self.answer(plan.encode())
        except NoAnswer:
            if self.engine.must_answer:
                raise
            return None

    def answer(self, plan: bytes) -> str:
        self.start()
        feeding = threading.Thread(target=feed, args=(os.dup(self.process.stdin.fileno()), plan), daemon=True)
        late = threading.Timer(self.engine.seconds, self.stop)
        signal.pthread_sigmask(signal.SIG_BLOCK, STOPS)  # which these threads would keep
        feeding.start()
        late.start()
        signal.pthread_sigmask(signal.SIG_UNBLOCK, STOPS)
        try:
            lines = self.answers.next()
        finally:
            late.cancel()
        if lines[-1:] != [b"end\n"]:
            why = self.no_answer(lines)
            self.close()
            feeding.join(SECONDS)  # what the engine has left may hold its input too
            raise why
        feeding.join()
        return b"".join(lines[:-1]).decode("ascii", errors="backslashreplace")

    def start(self) -> None:
        if self.process is not None:
            return
        self.late = False
        with self.said.open("w") as said:
            try:
                self.process = subprocess.Popen(self.words, stdin=subprocess.PIPE, stdout=subprocess.PIPE, stderr=said,
                                                env=self.engine.surroundings, start_new_session=True)
            except OSError as why:
                raise NoAnswer(ENDED, f"it can't be run: {why.strerror}") from None
        self.answers = Answers(self.process.stdout.fileno(), self.is_over)

    def is_over(self, silent: float) -> bool:
        """Whether nobody answers any more, who has said nothing for so long: it was late, or has ended, whatever it has left that holds its
        output."""
        return self.late or silent > AFTER_END and self.process.poll() is not None

    def no_answer(self, lines: list) -> NoAnswer:
        """Why these lines are no whole answer."""
        last = f"; its last line is {quoted(lines[-1])}" if lines else ""
        if self.late:
            hint = "" if last else "; does it flush standard output behind the line `end`?"
            return NoAnswer(LATE, f"it did not answer within {counted(self.engine.seconds, 'second')}{last}{hint}")
        if sum(map(len, lines)) > MOST_BYTES or any(len(line) >= MOST_LINE for line in lines):
            return NoAnswer(LONG, f"its answer is too long for the plan{last}")
        try:
            status = self.process.wait(timeout=0.2)
        except subprocess.TimeoutExpired:
            return NoAnswer(ENDED, f"it closed its standard output before the line `end`{last}")
        how = f"by signal {signal.Signals(-status).name}" if status < 0 else f"with status {status}"
        return NoAnswer(ENDED, f"it ended {how} before the line `end`{last}")

    def last_words(self) -> str:
        """The last line that it wrote on standard error, if any."""
        said = self.said.read_text(errors="backslashreplace").splitlines()
        return said[-1] if said else ""

    def stop(self) -> None:
        """Ends an engine that has not answered in time."""
        self.late = self.was_late = True
        self.kill()

    def kill(self) -> None:
        """Ends the engine, and what it has started."""
        kill_group(self.process)

    def close(self) -> None:
        if self.process:
            self.kill()
            self.process.wait()
            self.process.stdin.close()
            self.process.stdout.close()
            self.process = None


def kill_group(process: subprocess.Popen) -> None:
    """Ends a process that began a session, and what it has started."""
    try:
        os.killpg(process.pid, signal.SIGKILL)
    except ProcessLookupError:
        pass


def counted(count: int, what: str) -> str:
    return f"{count} {what}" + "s" * (count != 1)


def feed(descriptor: int, plan: bytes) -> None:
    """Writes a plan for an engine, which may answer before it has read all; and closes the descriptor."""
    try:
        while plan:
            plan = plan[os.write(descriptor, plan):]
    except OSError:  # it reads no more
        pass
    finally:
        os.close(descriptor)


class Answers:
    """What an engine writes on its standard output, which another process may hold open when it has ended. The call says whether it is over
    after so many seconds without a byte."""

    def __init__(self, descriptor: int, is_over: Callable):
        self.descriptor, self.is_over, self.unread = descriptor, is_over, b""

    def next(self) -> list:
        """The lines of an answer, up to the line `end` where there is one."""
        lines, size = [], 0
        for line in iter(self.line, b""):
            lines.append(line)
            size += len(line)
            if line == b"end\n" or not line.endswith(b"\n") or size > MOST_BYTES:
                break
        return lines

    def line(self) -> bytes:
        """The next line, or the front of a long one; without a line feed at the end of all."""
        since = time.monotonic()
        while (at := self.unread.find(b"\n", 0, MOST_LINE)) < 0 and len(self.unread) < MOST_LINE:
            if select.select([self.descriptor], [], [], SECONDS)[0]:
                part = os.read(self.descriptor, MOST_LINE)
                if not part:
                    break
                self.unread, since = self.unread + part, time.monotonic()
            elif self.is_over(time.monotonic() - since):
                break
        end = at + 1 if at >= 0 else min(len(self.unread), MOST_LINE)
        line, self.unread = self.unread[:end], self.unread[end:]
        return line


def quoted(line: bytes) -> str:
    """A line for an error."""
    text = shown(line.decode("ascii", errors="backslashreplace").rstrip("\n"))
    half = "" if line.endswith(b"\n") else ", which has no end"
    return f"`{text[:MOST_SHOWN]}{'..' if len(text) > MOST_SHOWN else ''}`{half}"


class Judge(NamedTuple):
    """The program, and whether it is enough that the weak list specification holds."""

    program: str
    weak: bool


def verdict(judge: Judge, trace: Optional[str], plan: Plan) -> str:
    """What the program says, in its own word, with k; or that weak alone holds, where that is enough."""
    if trace is None:
        return STOPPED
    done = judged(judge.program, trace)
    if Stopped.by:
        return STOPPED
    fault = LINE_FAULT.fullmatch(done.stderr)
    if done.returncode == 2 and fault:
        line = trace.encode().splitlines(keepends=True)[int(fault[1]) - 1:int(fault[1])]
        said = f", {quoted(line[0])}" if line else ""
        raise NoAnswer(NONSENSE, f"its answer is no trace: line {int(fault[1])}{said}: {fault[2].decode()}")
    report = done.stdout.decode(errors="replace").split("\n") + [""]
    word, *rest = report[1].split(" ")
    if done.returncode not in (0, 1) or (word == ACCEPTED) != (done.returncode == 0):
        said = done.stderr.decode(errors="replace").strip()
        fail(f"{judge.program} ended with status {done.returncode}, and with no verdict that agrees: {said}")
    if f" operations {len(operations(trace))} " not in report[0]:
        fail(f"{judge.program} ended with status {done.returncode}, and with a report that is not on the recording")
    check_is_of(plan, trace)
    if judge.weak and word == "refused" and "weak yes" in report:
        word, rest = WEAK_ALONE, []
    if word in (ACCEPTED, WEAK_ALONE):
        check_places(plan, trace)
    return f"{word} {rest[0]}" if word == "refused" else word


class Beginning:
    """While the main thread, which alone hears signals, begins a process or holds the locks of its threads, a signal waits."""

    def __enter__(self) -> None:
        self.hears = threading.current_thread() is threading.main_thread()
        if self.hears:
            Stopped.is_beginning = True

    def __exit__(self, *_: object) -> None:
        if self.hears:
            Stopped.is_beginning = False


def judged(program: str, trace: str) -> subprocess.CompletedProcess:
    """How the program ends that judges a trace; a signal that stops this one ends it too."""
    process = None
    try:
        with Beginning():
            process = subprocess.Popen([program, "verdict", "--workers", "1", "-"], stdin=subprocess.PIPE, stdout=subprocess.PIPE,
                                       stderr=subprocess.PIPE)
            Stopped.judging.add(process)
        if Stopped.by:  # meanwhile: nobody else ends this one
            process.kill()
        if Stopped.by and threading.current_thread() is threading.main_thread():
            raise Stopped(Stopped.by)
        printed, errors = process.communicate(trace.encode())
        return subprocess.CompletedProcess(process.args, process.returncode, printed, errors)
    except BaseException:
        if process is not None:
            with process:
                process.kill()
        raise
    finally:
        Stopped.judging.discard(process)


def check_is_of(plan: Plan, trace: str) -> None:
    """A trace has the operations that the plan asks for, of all replicas but a server that keeps no list."""
    replicas = int(trace.split("\n")[1].split(" ")[1])
    if replicas != plan.session.replicas and not (replicas == plan.session.replicas - 1 and plan.is_last_a_server()):
        raise NoAnswer(NONSENSE, f"its answer has {counted(replicas, 'replica')}, and the plan {plan.session.replicas}")
    did = Counter(int(line.split(" ")[0]) for line in operations(trace))
    for replica in range(replicas):
        if did[replica] < plan.did[replica]:
            many = counted(did[replica], "operation")
            raise NoAnswer(NONSENSE, f"its answer has {many} of replica {replica}, and the plan {plan.did[replica]}")
    for replica in range(replicas):
        check_operations(plan.asked(replica), [line for line in operations(trace) if line.startswith(f"{replica} ")])


def check_operations(asked: list, answered: list) -> None:
    """The operations of a replica are those asked for, in this order, among others that read. What names an element that the list has not is
    answered by a read, which shows that; no change is asked for twice."""
    at = 0  # of the answered ones, those that are used up
    for line in asked:
        change = changed(line)
        next_change = next((place for place in range(at, len(answered)) if changed(answered[place])), len(answered))
        if change and next_change < len(answered) and changed(answered[next_change]) == change:
            at = next_change + 1
            continue
        read = next((place for place in range(at, next_change) if is_read_for(line, answered[place])), None)
        if read is None:
            raise nonsense(line, answered[at:at + 1])
        at = read + 1
    for line in filter(changed, answered[at:]):
        raise NoAnswer(NONSENSE, f"its answer has {quoted_whole(line)}, which the plan does not ask for")


def changed(line: str) -> Optional[tuple]:
    """Which change a line of a plan or of a trace is, with its element; none where it reads."""
    words = line.split(" ")
    return (words[1], words[2]) if words[1] in (INSERT, DELETE) else None


def is_read_for(asked: str, answered: str) -> bool:
    """Whether the answer, which changes nothing, is right for what is asked: a read, or what can't be done in the list that it shows."""
    if not changed(asked):
        return True
    words, (head, _, names) = asked.split(" "), answered.partition(" :")
    return head.endswith(f" {READ}") and "at" not in words[3:4] and words[-1] not in names.split(" ")


def check_places(plan: Plan, trace: str) -> None:
    """Each insert of a trace that passes stands where the plan asks for it: its list is known to hold what it had, and the new element."""
    inserts = {changed(line): line for replica in range(plan.session.replicas) for line in plan.asked(replica)}
    for line in operations(trace):
        change = changed(line)
        if change and change[0] == INSERT and int(line.split(" ")[3]) != asked_place(inserts[change], line):
            raise nonsense(inserts[change], [line])


def asked_place(asked: str, answered: str) -> Optional[int]:
    """The position that an insert of a plan has in the list of its answer; none where it must read instead."""
    _, _, name, where, beside = asked.split(" ")
    others = [one for one in answered.partition(" :")[2].split(" ")[1:] if one != name]
    if where == "at":
        return min(int(beside), len(others))
    return others.index(beside) + (where == "after") if beside in others else None


def nonsense(asked: str, answered: list) -> NoAnswer:
    said = quoted_whole(answered[0]) if answered else "missing"
    return NoAnswer(NONSENSE, f"its answer to `{asked}` is {said}")


def quoted_whole(line: str) -> str:
    return quoted(f"{line}\n".encode())


def operations(trace: str) -> list:
    """The lines of a trace that are operations."""
    return [line for line in trace.split("\n") if " : " in line or line.endswith(" :")]


def is_unequal(trace: str) -> bool:
    """Whether the last lists of the replicas differ."""
    last = {line.split(" ")[0]: line.partition(" :")[2] for line in operations(trace)}
    return len(set(last.values())) > 1


def word_of(driver: Driver, judge: Judge, plan: Plan) -> str:
    """What the engine's answer to a plan comes to."""
    try:
        return verdict(judge, driver.trace(plan.text()), plan)
    except NoAnswer as why:
        return why.cause


def smallest(driver: Driver, judge: Judge, session: Session, wanted: str) -> Session:
    """A session of which no smaller one, with a part left out, comes to the same."""
    known = {Plan(session).text(): wanted}  # many smaller ones are the same plan

    def is_wanted(candidate: Session) -> bool:
        plan = Plan(candidate)
        if plan.text() not in known:
            known[plan.text()] = word_of(driver, judge, plan)
        return known[plan.text()] == wanted

    found = session
    while found:
        session, found = found, next(filter(is_wanted, smaller(found)), None)
    return session


def tried(kind: sessions.Kind, count: int, rnd: random.Random, driver: Driver, judge: Judge) -> tuple:
    """Records so many sessions of a kind and prints what came out; answers the accepted one with most receipts and of
    each verdict that does not pass the shortest, by verdict, and how many had which verdict."""
    found = [sessions.session(kind, rnd) for _ in range(count)]
    plans = [Plan(one) for one in found]
    traces = [of_session(plan.session, driver.trace, plan.text()) for plan in plans]
    with ThreadPoolExecutor(JUDGES) as pool:
        try:
            with Beginning():
                waiting = [pool.submit(of_session, plan.session, verdict, judge, trace, plan) for trace, plan in zip(traces, plans)]
                while (wait(waiting, SECONDS, FIRST_EXCEPTION).not_done and not Stopped.by
                       and not any(one.done() and one.exception() for one in waiting)):
                    pass  # a signal that another thread has got is heard now
            if Stopped.by:
                raise Stopped(Stopped.by)
            verdicts = [one.result() for one in waiting]
        except BaseException:
            pool.shutdown(wait=False, cancel_futures=True)
            raise
    passing = ACCEPTED, WEAK_ALONE
    verdicts = [word + UNEQUAL * (word in passing and kind.causal and is_unequal(trace)) for word, trace in zip(verdicts, traces)]
    sizes = [len(operations(trace)) for trace in traces if trace]
    said = ", ".join(f"{word}: {times}" for word, times in sorted(Counter(verdicts).items()))
    between = f"{min(sizes)} to {max(sizes)} operations" if sizes else "no recording"
    print(f"{kind.name}: {count} sessions, {between}: {said}", flush=True)
    if STOPPED in verdicts:
        words = f"none within {counted(driver.engine.seconds, 'second')}" if driver.was_late else driver.last_words() or "none"
        print(f"the engine's last words: {shown(words)}", flush=True)
    firsts = {}
    for one, word in sorted(zip(found, verdicts), key=lambda both: len(both[0].steps)):
        if word not in (*passing, STOPPED):
            firsts.setdefault(word, one)
    accepted = [(trace.count(" recv "), place) for place, trace in enumerate(traces) if verdicts[place] == ACCEPTED]
    return {**firsts, **({ACCEPTED: found[max(accepted)[1]]} if accepted else {})}, Counter(verdicts)


def of_session(session: Session, call: Callable, *given: object) -> str:
    """What the call answers; where there is no answer, the error has the session."""
    try:
        return call(*given)
    except NoAnswer as why:
        why.session = session
        raise


def check_is_domepeeler(program: str) -> None:
    """A program that does not answer its version as domepeeler does is another one."""
    if not shutil.which(program):
        fail(f"{program} is no program")
    try:
        done = subprocess.run([program, "--version"], stdin=subprocess.DEVNULL, capture_output=True, timeout=MOST_OF_VERSION)
    except OSError as why:
        fail(f"{program} can't be run: {why.strerror}")
    except subprocess.TimeoutExpired:
        fail(f"{program} is not domepeeler: asked for its version it did not answer within {counted(MOST_OF_VERSION, 'second')}")
    if done.returncode or not done.stdout.startswith(b"domepeeler "):
        fail(f"{program} is not domepeeler: asked for its version it ended with status {done.returncode}")


def number(word: str) -> int:
    """Of sessions, or of seconds, from 1 on."""
    if not word.isdecimal() or int(word) == 0:
        raise argparse.ArgumentTypeError(f"{word} is no number from 1 on")
    return int(word)


def main(description: str) -> None:
    parser = Parser(description=description)
    parser.add_argument("engine", help=", ".join(sorted(ENGINES)) + ", the path of a Python module of your own, or your engine's command")
    parser.add_argument("program")
    parser.add_argument("--sessions", type=number, help="how many small sessions of each kind")
    parser.add_argument("--seed", type=int, default=1)
    parser.add_argument("--keep", type=Path, help="a folder for the smallest traces that were not accepted")
    parser.add_argument("--server", action="store_true", help="only sessions where all exchange goes through a server, the last replica")
    parser.add_argument("--weak", action="store_true", help="the engine promises the weak list specification alone, as one with a server "
                        "that orders (Jupiter): let sessions pass where that holds, though strong doesn't; these are counted by themselves")
    parser.add_argument("--seconds", type=number, help="after how many without an answer an engine is stopped")
    words = parser.parse_args()
    if sys.stdout is None:
        fail("cannot write: standard output is closed")
    check_is_domepeeler(words.program)
    engine, seen, unanswered = engine_of(words.engine), set(), 0
    engine.kinds, engine.seconds = SERVER if words.server else engine.kinds, words.seconds or engine.seconds
    with tempfile.TemporaryDirectory() as folder:
        driver = Driver(engine, Path(folder))
        try:
            for kind in engine.kinds:
                found, lost = try_kind(words, kind, driver)
                unanswered += lost
                seen |= found
        except NoAnswer as why:
            tell(words, driver, why)
        finally:
            driver.close()
    if not seen:
        fail("no session gave an answer, so nothing was judged")
    if unanswered:
        fail(f"sessions that gave no answer, so were not judged: {unanswered}")
    sys.exit(0 if seen <= {ACCEPTED, WEAK_ALONE} else 1)


def try_kind(words: argparse.Namespace, kind: sessions.Kind, driver: Driver) -> tuple:
    """Records sessions of a kind, and shows the smallest of each verdict; answers which verdicts there were, and how many sessions gave no
    answer."""
    count = max(1, (words.sessions or driver.engine.count) // kind.share)
    judge = Judge(words.program, words.weak)
    firsts, counts = tried(kind, count, random.Random(f"{words.seed} {kind.name}"), driver, judge)
    for word, one in firsts.items():
        kept = one if word == ACCEPTED or word.endswith(UNEQUAL) else smallest(driver, judge, one, word)
        show(words, kind, word, of_session(kept, driver.trace, Plan(kept).text()) or "")
    return set(counts) - {STOPPED}, counts[STOPPED]


def show(words: argparse.Namespace, kind: sessions.Kind, verdict_word: str, trace: str) -> None:
    """Prints a trace that was made smaller, and keeps each where that was asked for."""
    is_unequal_in_the_end = verdict_word.endswith(UNEQUAL)
    if is_unequal_in_the_end:
        print("all was exchanged, and the replicas end with different lists: messages were not applied, nor receipts written", flush=True)
    if verdict_word != ACCEPTED and (not is_unequal_in_the_end or kind.share == 1):  # which is not made smaller
        print(f"the smallest found of {kind.name}, {verdict_word}:\n{trace}", flush=True)
    keep(words, f"{kind.name} {verdict_word}", "trace", trace)


def keep(words: argparse.Namespace, what: str, ending: str, text: str) -> None:
    if words.keep:
        name = "_".join([engine_name(words.engine), *what.replace(",", "").replace(":", "").split()])
        path, part = words.keep / f"{name}.{ending}", words.keep / f".record-{os.getpid()}"
        try:
            words.keep.mkdir(parents=True, exist_ok=True)
        except OSError as why:
            fail(f"cannot write {why.filename}: {why.strerror}")
        try:
            part.write_text(text)
            os.replace(part, path)  # it appears whole or not at all
        except OSError as why:
            fail(f"cannot write {path}: {why.strerror}")
        finally:
            part.unlink(missing_ok=True)


def engine_name(word: str) -> str:
    """The engine's name as a part of a file's: of a command its words, without folders and endings."""
    if word in ENGINES or os.path.isfile(word):
        return Path(word).stem
    return "_".join(Path(part).stem.strip("-") for part in shlex.split(word))


def tell(words: argparse.Namespace, driver: Driver, why: NoAnswer) -> NoReturn:
    """Prints a session that the engine does not answer, made smaller where that takes no waiting, and ends the program."""
    said = driver.last_words()
    is_slow = why.cause in (LATE, LONG)
    judge = Judge(words.program, words.weak)
    session = why.session if is_slow else smallest(driver, judge, why.session, why.cause)
    plan = Plan(session)
    print(f"the plan that it does not answer:\n{plan.text()}", flush=True)
    keep(words, why.cause, "plan", plan.text())
    try:
        if not is_slow:
            verdict(judge, driver.trace(plan.text()), plan)
    except NoAnswer as again:
        why, said = again, driver.last_words()
    fail(f"{words.engine}: {why}" + (f"; its last words: {said}" if said else ""))


def wait_for(thread: threading.Thread) -> None:
    """Waits a while for a thread's end. One that is about to begin can't be joined yet."""
    last = time.monotonic() + MOST_WAITED
    while (left := last - time.monotonic()) > 0:
        try:
            return thread.join(left)
        except RuntimeError:
            time.sleep(SECONDS / 10)


def run_command(description: str) -> None:
    """Runs it as a command, to its end."""
    signal.signal(signal.SIGCHLD, signal.SIG_DFL)  # where it is ignored, as by a daemon that starts this, each status is 0
    for stop in STOPS:
        if signal.getsignal(stop) != signal.SIG_IGN:
            signal.signal(stop, be_stopped)
    try:
        main(description)
    except Stopped as stopped:  # the engine was ended, and nothing is said
        for thread in threading.enumerate():
            if thread is not threading.current_thread():
                wait_for(thread)  # it may begin a program, which it ends then: no pool knows a thread that began with the signal
        signal.signal(stopped.args[0], signal.SIG_DFL)
        os.kill(os.getpid(), stopped.args[0])
    except Exception as why:
        if not isinstance(why, OSError) or why.filename is not None:
            raise
        os.dup2(os.open(os.devnull, os.O_WRONLY), sys.stdout.fileno())
        if isinstance(why, BrokenPipeError):  # the reader has enough
            sys.exit(2)
        fail(f"cannot write: {why.strerror}")
