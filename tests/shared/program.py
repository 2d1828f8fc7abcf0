"""Runs the built program as a user would, and keeps count of what holds."""
import fcntl
import os
import resource
import select
import shutil
import signal
import subprocess
import sys
import tempfile
import time
from pathlib import Path
from typing import NamedTuple

SECONDS = 60
SHORT_BYTES = 4096
os.environ.pop("DOMEPEELER_EDITOR", None)  # the developer's own, by which the tools' words change


class Ended(NamedTuple):
    """How a run ended: its exit status, and what stands on its two streams."""

    status: int
    out: bytes
    err: bytes


def run(program: str, words: list = (), trace: bytes = b"", out=subprocess.PIPE, stdin=None) -> Ended:
    """One run of the program: `trace` on standard input, unless `stdin` is an open file."""
    given = {"input": trace} if stdin is None else {"stdin": stdin}
    done = subprocess.run([program, *words], stdout=out, stderr=subprocess.PIPE, timeout=SECONDS, **given)
    return Ended(done.returncode, done.stdout or b"", done.stderr)


class Quick:
    """Runs the program as `run` does, with the same limit of time, but with little to do for a run: its three streams are files
    in memory that are used again, so no thread has to read them. One run at a time."""

    def __init__(self, program: str):
        self.program = program
        self.streams = [os.memfd_create(name) for name in ("in", "out", "err")]
        self.actions = [(os.POSIX_SPAWN_DUP2, stream, place) for place, stream in enumerate(self.streams)]

    def run(self, words: list, trace: bytes = b"") -> Ended:
        for stream in self.streams:
            os.ftruncate(stream, 0)
            os.lseek(stream, 0, os.SEEK_SET)
        os.pwrite(self.streams[0], trace, 0)
        child = os.posix_spawn(self.program, [self.program, *words], os.environ, file_actions=self.actions,
                               setsigdef=[signal.SIGPIPE, signal.SIGXFSZ])  # as Python's subprocess does
        status = os.waitstatus_to_exitcode(self.awaited(child))
        out, err = (os.pread(stream, os.fstat(stream).st_size, 0) for stream in self.streams[1:])
        return Ended(status, out, err)

    def awaited(self, child: int) -> int:
        """How the child ended. One that takes too long is killed, which is not what anybody wants of it."""
        handle = os.pidfd_open(child)
        end = select.poll()
        end.register(handle, select.POLLIN)
        if not end.poll(SECONDS * 1000):
            os.kill(child, signal.SIGKILL)
        os.close(handle)
        return os.waitpid(child, 0)[1]


def processor_seconds() -> float:
    """The processor time of all runs that have ended."""
    used = resource.getrusage(resource.RUSAGE_CHILDREN)
    return used.ru_utime + used.ru_stime


def is_short(path: Path) -> bool:
    """Whether a text is one that the slow references read in no time."""
    return path.stat().st_size <= SHORT_BYTES


def fault(words: str) -> Ended:
    """A fault of the input, the files or the words."""
    return Ended(2, b"", b"finder: " + os.fsencode(words) + b"\n")


def report(lines: bytes) -> Ended:
    """A report as text: good exactly where its second line, the verdict, says `accepted`."""
    return Ended(0 if lines.split(b"\n")[1] == b"accepted" else 1, lines, b"")


class Tally:
    """What passed, and what failed."""

    def __init__(self):
        self.passed = 0
        self.failed = 0

    def check(self, name: str, holds: bool, shown: object = "") -> None:
        if holds:
            self.passed += 1
        else:
            self.failed += 1
            print(f"FAILED {name} {shown}", flush=True)

    def add(self, other: "Tally") -> None:
        """What passed and failed elsewhere."""
        self.passed += other.passed
        self.failed += other.failed

    def same(self, name: str, got: Ended, wanted: Ended) -> None:
        self.check(name, got == wanted, f"got {short(got)}, wanted {short(wanted)}")

    def said(self) -> str:
        """The counts in words."""
        return f"{self.passed} passed, {self.failed} failed"

    def close(self) -> None:
        """Prints the counts and ends the script: with status 1 where something failed."""
        print(self.said())
        sys.exit(1 if self.failed else 0)


def is_running(pid: str) -> bool:
    """Whether a process does anything; one that has just been killed may not have been waited for yet."""
    for _ in range(1000):
        try:
            if Path(f"/proc/{pid}/stat").read_text().rpartition(")")[2].split()[0] == "Z":
                return False
        except OSError:
            return False
        time.sleep(0.01)
    return True


def install(packages: list) -> None:
    """Debian's packages where there is apt-get, which takes no two users at a time: scripts that run beside each other wait here."""
    if packages and shutil.which("apt-get") is not None:
        with open(Path(tempfile.gettempdir(), f"domepeeler-tests-{os.getuid()}.lock"), "w") as lock:
            fcntl.flock(lock, fcntl.LOCK_EX)
            for words in ["update"], ["install", "-y", "--no-install-recommends", *packages]:
                subprocess.run(["apt-get", *words], stdin=subprocess.DEVNULL, stdout=subprocess.DEVNULL, stderr=subprocess.DEVNULL,
                               env={**os.environ, "DEBIAN_FRONTEND": "noninteractive"}, check=False)


def is_installed(package: str, command: str = None) -> bool:
    """Whether Debian's package is there, or its command from elsewhere."""
    if command is not None and shutil.which(command) is not None:
        return True
    asked = subprocess.run(["dpkg-query", "-W", "-f", "${db:Status-Status}", package], capture_output=True)
    return asked.stdout == b"installed"


def need(command: str, package: str) -> None:
    """Ends the script where the command is missing and Debian's package can't be installed: no test is passed over."""
    if shutil.which(command) is None:
        install([package])
    if shutil.which(command) is None:
        sys.exit(f"{command} is needed, and apt-get could not install the package {package}")


NODE = {"NODE_PATH": f"/usr/share/nodejs:{os.environ.get('NODE_PATH', '')}"}  # where Debian keeps Node's modules


def need_module(module: str, package: str) -> None:
    """The same of a module of Node."""
    def is_there() -> bool:
        return subprocess.run(["node", "-e", f"require('{module}')"], env=os.environ | NODE, capture_output=True).returncode == 0

    need("node", "nodejs")
    if not is_there():
        install([package])
    if not is_there():
        sys.exit(f"Node's module {module} is needed, and apt-get could not install the package {package}")


def library_of(source: Path, folder: str) -> str:
    """The library that a C source makes, built in the folder, for LD_PRELOAD."""
    path = os.path.join(folder, f"{source.stem}.so")
    subprocess.run(["cc", "-shared", "-fPIC", "-O1", "-o", path, str(source), "-ldl"], check=True)
    return path


def short(ended: Ended) -> str:
    text = repr(tuple(ended))
    return text if len(text) < 300 else text[:300] + ".."


def program_of(words: list) -> str:
    """The program's path, from the script's one word."""
    if len(words) != 2 or not os.access(words[1], os.X_OK):
        sys.exit(f"usage: {Path(words[0]).name} PROGRAM")
    return os.path.abspath(words[1])
