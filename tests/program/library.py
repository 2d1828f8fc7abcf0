#!/usr/bin/env python3
"""library.py PROGRAM: libdomepeeler beside the program: the same bytes and the same status, for the vectors, for the examples, for each of them
cut and changed, and for 10,000 generated recordings; rooms that are too short; 16 threads at once; a million calls; each request for memory
refused in turn; the names that the library shows; the program of docs/library.md, Python's recorder and the tools by it; the fuzzer of the examples.

The library is made anew by `tools/library` of what `rt lib` left in crates/domepeeler/out. Vectors have answers of their own, by the slow
reference."""
from __future__ import annotations

import ctypes
import json
import os
import random
import re
import shutil
import subprocess
import sys
import tempfile
from collections import Counter
from pathlib import Path

ROOT = Path(__file__).resolve().parents[2]
sys.path.insert(0, str(ROOT / "tests"))
from shared.mutants import edited, mutated, some_bytes  # noqa: E402
from shared.program import Ended, Quick, Tally, install, is_installed, need, program_of  # noqa: E402
from shared.sessions import session, with_fault  # noqa: E402

SEED = 20261201
CASES = 10_000
NO_RECORDING, NO_MEMORY, SHORT = 2, 3, 4
NAMES = ["domepeeler_cert", "domepeeler_verdict", "domepeeler_verify", "domepeeler_version"]
HERE = Path(__file__).resolve().parent
VERSION = "0.2.0"
DEBIAN_PYTHON = "/usr/bin/python3"
MOST_KILOBYTES = 256  # that a million calls may add


class End(ctypes.Structure):
    """`struct domepeeler_end`."""

    _fields_ = [("status", ctypes.c_uint32), ("line", ctypes.c_uint32), ("length", ctypes.c_size_t)]


class Library:
    """The library's calls over bytes."""

    def __init__(self, path: Path):
        self.loaded = ctypes.CDLL(str(path))
        for name in NAMES:
            getattr(self.loaded, name).restype = End
        self.room = ctypes.create_string_buffer(1 << 20)

    def into(self, words: list, text: bytes, room: ctypes.Array) -> End:
        """The call that the command's words name, with a room."""
        begin, size = ctypes.c_char_p(text), ctypes.c_size_t(len(text))
        if words[0] == "cert":
            return self.loaded.domepeeler_cert(begin, size, room, ctypes.c_size_t(len(room)))
        return self.loaded.domepeeler_verdict(begin, size, ctypes.c_uint32(int("--json" in words)), room, ctypes.c_size_t(len(room)))

    def run(self, words: list, text: bytes) -> tuple[Ended, int]:
        """What the command would end with, by the library, and the number of the faulty line."""
        end = self.into(words, text, self.room)
        said = ctypes.string_at(self.room, end.length)
        if end.status == NO_RECORDING:
            return Ended(2, b"", b"finder: " + said + b"\n"), end.line
        return Ended(end.status, said, b""), end.line


    def verify(self, trace: bytes, cert: bytes, size: int = 256) -> tuple[int, int, bytes]:
        """The status, the length, and the room."""
        room = (ctypes.c_char * size)(*([b"#"] * size))
        end = self.loaded.domepeeler_verify(ctypes.c_char_p(trace), ctypes.c_size_t(len(trace)), ctypes.c_char_p(cert), ctypes.c_size_t(len(cert)),
                                            room, ctypes.c_size_t(size))
        return end.status, end.length, room.raw


COMMANDS = ["verdict", "-"], ["verdict", "--json", "-"], ["cert", "-"]


def compared(tally: Tally, library: Library, quick: Quick, name: str, text: bytes, commands: tuple = COMMANDS) -> None:
    """The same text by both."""
    for words in commands:
        got, line = library.run(words, text)
        wanted = quick.run(words, text)
        tally.same(f"{name} {words[:2]}", got, wanted)
        named = int(wanted.err.split(b" ")[2].rstrip(b":")) if wanted.status == NO_RECORDING else 0
        tally.check(f"the line of {name}", line == named, f"{line}, not {named}")


def vectors(tally: Tally, library: Library) -> None:
    """The answers of the slow reference."""
    for trace in sorted((ROOT / "tests" / "vectors").glob("*.trace")):
        for words, suffix in zip(COMMANDS, ("report", "json", "cert2")):
            wanted = trace.with_suffix(f".{suffix}")
            if wanted.exists():
                got, _line = library.run(words, trace.read_bytes())
                status = int(trace.with_suffix(".status").read_text())
                tally.check(f"{trace.name} {words}", (got.status, got.out) == (status, wanted.read_bytes()), got)


def changed(rnd: random.Random, text: bytes) -> bytes:
    """The text with a byte changed, left out or put in, or a line moved."""
    at, kind = rnd.randrange(len(text)), rnd.randrange(4)
    if kind == 0:
        return text[:at] + bytes([rnd.randrange(256)]) + text[at + 1:]
    if kind == 1:
        return text[:at] + text[at + 1:]
    if kind == 2:
        return text[:at] + rnd.choice([b" ", b"\n", b"0", b"\0", b"\r\n", b" : a"]) + text[at:]
    lines = text.splitlines(keepends=True)
    lines.insert(rnd.randrange(len(lines)), lines.pop(rnd.randrange(len(lines))))
    return b"".join(lines)


def texts(rnd: random.Random) -> list:
    """The vectors and the examples, and of the short ones each cut somewhere and changed somewhere."""
    found = [path.read_bytes() for folder in ("tests/vectors", "examples") for path in sorted((ROOT / folder).glob("*.trace"))]
    short = [text for text in found if 0 < len(text) <= 4096]
    cut = [text[:rnd.randrange(len(text))] for text in short for _ in range(10)]
    mutants = [edited(rnd, text) if rnd.random() < 0.5 and text.count(b"\n") > 2 else mutated(rnd, text, rnd.choice(short)) for text in rnd.choices(short, k=1_000)]
    return found + cut + mutants + [some_bytes(rnd) for _ in range(100)] + [changed(rnd, text) for text in short for _ in range(20)] + [b"", b"\n", b"trace 1\n", b"trace 1\nreplicas 1\n", b"\xff" * 99]


def generated(tally: Tally, library: Library, quick: Quick, rnd: random.Random) -> None:
    """Generated recordings: the report of each, JSON and certificate of each tenth."""
    for case in range(CASES):
        text = session(rnd, case % 2 == 0)
        if rnd.random() < 0.3:
            text = with_fault(rnd, text, case % 2 == 0)
        compared(tally, library, quick, f"case {case}", text.encode(), COMMANDS if case % 10 == 0 else COMMANDS[:1])


def verified(tally: Tally, library: Library, quick: Quick, folder: Path, rnd: random.Random) -> None:
    """Certificates of the vectors, right ones, changed ones, and those of other traces, beside the program: the same line and status, also in a room
    that is too short."""
    traces = sorted((ROOT / "tests" / "vectors").glob("*.trace"))
    certs = [cert for trace in traces for cert in (trace.with_suffix(".cert1"), trace.with_suffix(".cert2")) if cert.exists()]
    file, kinds = folder / "one.cert", Counter()
    for case, cert in enumerate(certs + certs + rnd.sample(certs, len(certs) // 4)):
        trace = (cert.with_suffix(".trace") if case < 2 * len(certs) else rnd.choice(traces)).read_bytes()
        text = cert.read_bytes() if case < len(certs) or case >= 2 * len(certs) else changed(rnd, cert.read_bytes())
        if case % 7 == 6:
            trace = changed(rnd, trace) if trace else trace
        file.write_bytes(text)
        wanted = quick.run(["verify", "-", str(file)], trace)
        status, length, room = library.verify(trace, text)
        tally.check(f"verify {cert.name} {case}", (status, room) == (wanted.status, wanted.out + b"#" * (256 - length)) and length == len(wanted.out),
                    f"{status} {room!r}, not {wanted}")
        tally.check("verify in a short room", library.verify(trace, text, length - 1) == (SHORT, length, b"#" * (length - 1)))
        kinds[b" ".join(wanted.out.split()[:2]).decode()] += 1
    print(f"verify: {dict(kinds)}")
    tally.check("certificates of each kind", len(kinds) >= 8 and kinds["no trace"] >= 3 and kinds["no text"] >= 10, kinds)


def short_rooms(tally: Tally, library: Library, text: bytes) -> None:
    """Each room that is too short, and some that are not: what stands behind the output, or in a room that is too short, stays."""
    for words in COMMANDS:
        whole, _line = library.run(words, text)
        said = whole.out or whole.err[len("finder: "):-1]
        for size in range(1, len(said) + 9):
            room = (ctypes.c_char * size)(*([b"#"] * size))
            end = library.into(words, text, room)
            fits = size >= len(said)
            wanted = (whole.status, said + b"#" * (size - len(said))) if fits else (SHORT, b"#" * size)
            tally.check(f"{words} in {size} bytes", (end.status, room.raw) == wanted and end.length == len(said), f"{end.status} {room.raw!r}")


def built(folder: Path, words: list) -> Path:
    """The program of C over the library that is linked, with these words to the compiler."""
    made = folder / f"library{len(words)}"
    subprocess.run(["cc", "-O2", "-Wall", "-Wextra", "-Werror", *words, str(HERE / "library.c"), str(folder / "libdomepeeler.a"), "-o", str(made), "-pthread"],
                   check=True)
    return made


def in_c(tally: Tally, folder: Path) -> None:
    """Refused memory, threads, and a million calls, by C."""
    cycle = (ROOT / "examples" / "libinfinity_three_way_cycle.trace").read_bytes()
    refusing = built(folder, ["-DREFUSES", "-Wl,--wrap=malloc,--wrap=realloc,--wrap=free"])
    for name, text in ("three-way cycle", cycle), ("accepted", (ROOT / "examples" / "crdts_accepted.trace").read_bytes()), ("no trace", b"trace 3\n"):
        done = subprocess.run([str(refusing), "refuse"], input=text, capture_output=True)
        counts = [[int(count) for count in line.split()] for line in done.stdout.splitlines()] if done.returncode == 0 else []
        wanted = len(counts) == 4 and all(made >= (10 if name != "no trace" else 0) and without <= made // 10 for made, without in counts)
        tally.check(f"refused memory, {name}", wanted, f"{done.returncode} {done.stdout!r}")
        print(f"{name}: requests for memory refused in turn, and those without which the call answered all the same: {counts}")
    plain = built(folder, [])
    done = subprocess.run([str(plain), "threads"], input=cycle, capture_output=True)
    tally.check("16 threads, 100,000 sessions", done.returncode == 0, done)
    done = subprocess.run([str(plain), "flat"], input=cycle, capture_output=True)
    tally.check("a million calls", done.returncode == 0 and int(done.stdout) <= MOST_KILOBYTES, done)


def page(tally: Tally, program: str, folder: Path) -> None:
    """The program of docs/library.md, built as the page says against what `tools/install` has put there: as C and as C++."""
    text = (ROOT / "docs" / "library.md").read_text()
    source = re.search(r"```c\n(.*?)```", text, re.DOTALL)[1]
    said = re.search(r"\./a\.out\n((?:    .*\n)+)", text)[1].replace("    ", "")
    prefix = folder / "prefix"
    subprocess.run([str(ROOT / "tools" / "install"), str(prefix)], check=True, stdout=subprocess.DEVNULL, env=os.environ | {"DOMEPEELER": program})
    path = os.environ | {"PKG_CONFIG_PATH": str(prefix / "share" / "pkgconfig")}
    flags = subprocess.run(["pkg-config", "--cflags", "--libs", "domepeeler"], env=path, capture_output=True, text=True, check=True).stdout.split()
    for compiler, suffix in ("cc", "c"), ("c++", "cc"):
        (folder / f"session.{suffix}").write_text(source)
        made = subprocess.run([compiler, "-Wall", "-Wextra", "-Werror", str(folder / f"session.{suffix}"), *flags, "-o", str(folder / "a.out")])
        done = subprocess.run([str(folder / "a.out")], capture_output=True, text=True)
        tally.check(f"the page's program by {compiler}", (made.returncode, done.returncode, done.stdout) == (0, 1, said), done)
    # A word of Python, and the tools, by what was installed.
    asked = {name: value for name, value in os.environ.items() if not name.startswith("DOMEPEELER")} | {"PATH": f"{prefix}/bin:{os.environ['PATH']}"}
    words = "from domepeeler import Recording; r = Recording(1); r.insert(0, 'a', 0, ['a']); report = r.judge(); print(report['verdict'], report.judged_by)"
    for more, by in ({}, f"{prefix}/lib/domepeeler/libdomepeeler.so.0"), ({"DOMEPEELER": program}, program):
        done = subprocess.run([sys.executable, "-c", words], cwd=ROOT / "recorders", env=asked | more, capture_output=True, text=True)
        tally.check("Python's recorder says who judged", done.stdout == f"accepted {by}\n", done)
    (folder / "judged.mjs").write_text(f"""import {{ Recording }} from "{ROOT / 'recorders' / 'domepeeler.mjs'}"
const recording = new Recording(1)
recording.insert(0, "a", 0, ["a"])
const {{ verdict, judgedBy }} = await recording.judge()
console.log(verdict, judgedBy)
""")
    for more, by in ({}, f"{prefix}/lib/domepeeler/domepeeler.node"), ({"DOMEPEELER": program}, program):
        done = subprocess.run(["node", str(folder / "judged.mjs")], env=asked | more, capture_output=True, text=True)
        tally.check("JavaScript's recorder says who judged", done.stdout == f"accepted {by}\n", done)
    done = subprocess.run(["node", str(folder / "judged.mjs")], env=asked | {"DOMEPEELER_LIBRARY": "/nowhere/x.so"}, capture_output=True, text=True)
    tally.check("a library for Node.js that is not there", done.returncode == 1 and "/nowhere/domepeeler.node cannot be loaded" in done.stderr, done)
    by_addon(tally, folder, prefix / "lib" / "domepeeler" / "domepeeler.node")
    child = ("import os, sys; from domepeeler import Recording\nif os.fork(): sys.exit(os.waitstatus_to_exitcode(os.wait()[1]))\n"
             "r = Recording(1); r.insert(0, 'a', 0, ['a']); print(r.judge().judged_by)")
    done = subprocess.run([sys.executable, "-c", child], cwd=ROOT / "recorders", env=asked, capture_output=True, text=True)
    tally.check("in a forked process the program judges", done.stdout == "domepeeler\n", done)
    done = subprocess.run([sys.executable, "-c", words], cwd=ROOT / "recorders", env=asked | {"DOMEPEELER_LIBRARY": "/nowhere/x.so"}, capture_output=True, text=True)
    tally.check("a library that is not there", done.returncode == 1 and "/nowhere/x.so cannot be loaded" in done.stderr, done)


def linked(tally: Tally, program: str, folder: Path) -> None:
    """The recorder of C, by the library that is linked and by the program: the same words of each session. A program that is named goes before."""
    said = {}
    for compiler, suffix in ("cc", "c"), ("c++", "cc"):
        copy = folder / f"linked.{suffix}"
        copy.write_text((HERE / "linked.c").read_text().replace("../../recorders/", ""))
        words = [compiler, "-O2", "-Wall", "-Wextra", "-Werror", "-I", str(ROOT / "recorders"), str(copy)]
        subprocess.run([*words, "-o", str(folder / "started"), "-pthread"], check=True)
        subprocess.run([*words, "-DDOMEPEELER_LINKED", str(folder / "libdomepeeler.a"), "-o", str(folder / "linked"), "-pthread"], check=True)
        asked = {name: value for name, value in os.environ.items() if not name.startswith("DOMEPEELER")}
        named = asked | {"DOMEPEELER": program, "DOMEPEELER_EXPLAIN": str(ROOT / "tools" / "explain")}
        explained = asked | {"DOMEPEELER_EXPLAIN": f"{folder}/explain"}
        (folder / "explain").write_text(f"#!/bin/sh\nDOMEPEELER='{program}' exec '{ROOT}/tools/explain' \"$@\"\n")
        (folder / "explain").chmod(0o755)
        for name, done in ("started", subprocess.run([str(folder / "started")], env=named, capture_output=True, text=True)), \
                ("linked", subprocess.run([str(folder / "linked")], env=explained | {"PATH": "/nowhere:/usr/bin:/bin"}, capture_output=True, text=True)):
            tally.check(f"{compiler}, {name}, says who judges", done.stderr.startswith("libdomepeeler\n" if name == "linked" else f"{program}\n"), done.stderr)
            said[compiler, name] = done.stdout.replace(str(copy), "linked")
            tally.check(f"{compiler}, {name}", done.returncode == 0 and "refused 3" in done.stdout and "stopped contents" in done.stdout, done)
        wrong = subprocess.run([str(folder / "linked")], env=explained | {"DOMEPEELER": "/nowhere/else"}, capture_output=True, text=True)
        tally.check(f"{compiler}, another program is named", "/nowhere/else cannot be run" in wrong.stdout, wrong)
    tally.check("the same words", len(set(said.values())) == 1, said)


def native(tally: Tally, program: str, folder: Path) -> None:
    """The recorder of Rust, by the library that is linked and by the program: the same words; without a warning of the compiler."""
    for file in ROOT / "recorders" / "domepeeler.rs", ROOT / "recorders" / "domepeeler_native.rs", HERE / "native.rs":
        shutil.copy(file, folder)
    made = subprocess.run(["rustc", "-O", "-D", "warnings", "--edition", "2021", "native.rs", "-L", ".", "-o", "native"], cwd=folder)
    asked = {name: value for name, value in os.environ.items() if not name.startswith("DOMEPEELER")}
    told = [subprocess.run([str(folder / "native")], cwd=folder, env=asked | more, capture_output=True, text=True)
            for more in ({"PATH": "/nowhere"}, {"DOMEPEELER": program})]
    tally.check("Rust says who judges", [done.stderr for done in told] == ["libdomepeeler\n", f"{program}\n"], told)
    tally.check("Rust", made.returncode == 0 and told[0].stdout == told[1].stdout and "contents 1.5" in told[0].stdout
                and "/nowhere/else cannot be run" in told[0].stdout and [done.returncode for done in told] == [0, 0], told)


def packages(tally: Tally, folder: Path) -> None:
    """The packages of Python, JavaScript and Rust carry the library where it is there when they are made, and judge by it without a choice."""
    place = folder / "packages"
    shutil.copytree(ROOT / "recorders", place / "recorders", ignore=shutil.ignore_patterns("build", "*.egg-info", "target", "__pycache__"))
    asked = {name: value for name, value in os.environ.items() if not name.startswith("DOMEPEELER")}
    making = asked | {"DOMEPEELER_LIBRARY": str(folder / "libdomepeeler.so.0")}
    alone = asked | {"PATH": "/usr/bin:/bin"}
    pip = [DEBIAN_PYTHON, "-m", "pip"]
    subprocess.run([*pip, "wheel", "-q", "--no-build-isolation", "--no-deps", "-w", str(place), str(place / "recorders" / "python")], env=making, check=True)
    wheels = sorted(place.glob("*.whl"))
    tally.check("the wheel's name", [wheel.name for wheel in wheels] == [f"domepeeler-{VERSION}-py3-none-linux_x86_64.whl"], wheels)
    subprocess.run([*pip, "install", "-q", "--no-deps", "--no-index", "--target", str(place / "python"), str(wheels[0])], check=True)
    words = "from domepeeler import Recording; r = Recording(1); r.insert(0, 'a', 0, ['a']); report = r.judge(); print(report['verdict'], report.judged_by)"
    done = subprocess.run([DEBIAN_PYTHON, "-c", words], cwd=place, env=alone | {"PYTHONPATH": str(place / "python")}, capture_output=True, text=True)
    tally.check("Python's package", done.stdout == f"accepted {place}/python/domepeeler/libdomepeeler.so.0\n", done)
    subprocess.run(["npm", "pack", "--silent"], cwd=place / "recorders" / "javascript", env=making, check=True, stdout=subprocess.DEVNULL)
    tally.check("what npm leaves", not (place / "recorders" / "javascript" / "domepeeler.node").exists())
    subprocess.run(["tar", "-xzf", f"recorders/javascript/domepeeler-{VERSION}.tgz"], cwd=place, check=True)
    (place / "judged.mjs").write_text((folder / "judged.mjs").read_text().replace(str(ROOT / "recorders"), str(place / "package")))
    node = shutil.which("node")
    done = subprocess.run([node, str(place / "judged.mjs")], env=alone, capture_output=True, text=True)
    tally.check("JavaScript's package", done.stdout == f"accepted {place}/package/domepeeler.node\n", done)
    crate = place / "crate"
    (crate / "src").mkdir(parents=True)
    (crate / "Cargo.toml").write_text(f"""[package]
name = "judged"
version = "0.1.0"
edition = "2021"

[dependencies]
domepeeler = {{ path = "{place}/recorders/rust", features = ["native"] }}
""")
    (crate / "src" / "main.rs").write_text("""fn main() {
    domepeeler::judge_here(domepeeler::native::verdict);
    let mut recording = domepeeler::Recording::new(1).unwrap();
    recording.insert(0, "a", 0, &["a"]).unwrap();
    println!("{}", recording.verdict().unwrap());
}
""")
    done = subprocess.run(["cargo", "run", "--offline", "-q"], cwd=crate, env=asked | {"RUSTFLAGS": f"-L {folder} -D warnings"}, capture_output=True, text=True)
    done = subprocess.run([str(crate / "target" / "debug" / "judged")], env=alone, capture_output=True, text=True) if done.returncode == 0 else done
    tally.check("Rust's crate", done.stdout == "accepted\n", done)


def by_addon(tally: Tally, folder: Path, addon: Path) -> None:
    """The addon of Node.js answers as the program would, on the vectors, on what is no trace, and on a report that is longer than its first room; and
    refuses what is no text."""
    (folder / "addon.cjs").write_text("""const addon = require(process.argv[2]), { readFileSync } = require("node:fs")
for (const file of process.argv.slice(3)) console.log(JSON.stringify(addon.verdict(readFileSync(file, "utf8"))))
for (const wrong of [[], [1], [null]]) {
  try {
    addon.verdict(...wrong)
  } catch (why) {
    console.log(why.message)
  }
}
""")
    long = ["trace 1", "replicas 1"] + [f"0 ins {'n' * 26}{n:06} {n} : " + " ".join(f"{'n' * 26}{m:06}" for m in range(n + 1)) for n in range(300)]
    (folder / "long.trace").write_text("\n".join(long) + "\n")
    (folder / "none.trace").write_text("trace 3\n")
    files = [*sorted((ROOT / "tests" / "vectors").glob("*.trace")), folder / "long.trace", folder / "none.trace"]
    done = subprocess.run(["node", str(folder / "addon.cjs"), str(addon), *map(str, files)], capture_output=True, text=True)
    lines = done.stdout.splitlines()
    wanted = []
    for file in files[:-2]:
        report = file.with_suffix(".json")
        if report.exists():
            wanted.append({"status": int(file.with_suffix(".status").read_text()), "stdout": report.read_text(), "stderr": ""})
        else:
            wanted.append(None)
    for file, line, answer in zip(files, lines, wanted):
        tally.check(f"the addon on {file.name}", answer is None or json.loads(line) == answer, line)
    whole = json.loads(lines[-5]) if len(lines) == len(files) + 3 else {}
    tally.check("the addon on a long report", whole.get("status") == 0 and len(json.loads(whole["stdout"])["order"]) == 300, lines[-5:])
    tally.check("the addon on no trace, and on no text", [json.loads(line) for line in lines[-4:-3]] == [
        {"status": 2, "stdout": "", "stderr": "finder: line 1: header"}] and lines[-3:] == ["verdict wants a trace's text"] * 3, lines[-4:])


def many(tally: Tally, program: str, folder: Path, rnd: random.Random) -> None:
    """`tools/judge_many` and `tools/explain`, as installed beside the library, and by the program: the same words."""
    traces, tools = folder / "traces", folder / "prefix" / "bin"
    traces.mkdir()
    for case in range(60):
        text = session(rnd, case % 2 == 0)
        (traces / f"{case}.trace").write_text(with_fault(rnd, text, case % 2 == 0) if case % 3 == 0 else text)
    (traces / "cut.trace").write_text("trace 1\nreplicas 1\n0 ins a 0 : a")
    asked = {name: value for name, value in os.environ.items() if not name.startswith("DOMEPEELER")} | {"PATH": f"{tools}:{os.environ['PATH']}"}
    both = [subprocess.run(["domepeeler-judge-many", "--json", *words, str(traces)], env=asked, capture_output=True, text=True)
            for words in ([], ["--program", program])]
    rows = [[{key: value for key, value in json.loads(line).items() if key != "seconds"} for line in done.stdout.splitlines()] for done in both]
    by_name = [sorted(found, key=str) for found in rows]
    tally.check("judge_many", by_name[0] == by_name[1] and len(by_name[0]) >= 61 and both[0].returncode == both[1].returncode == 2, both)
    for case in range(0, 60, 6):
        told = [subprocess.run(["domepeeler-explain", *words, str(traces / f"{case}.trace")], env=asked, capture_output=True, text=True)
                for words in ([], ["--program", program])]
        tally.check(f"explain {case}", told[0].stdout == told[1].stdout != "" and told[0].returncode == told[1].returncode, told)


def fuzzed(tally: Tally, folder: Path) -> None:
    """The fuzzer of the examples finds the planted bug, and nothing where it is repaired."""
    words = ["clang", "-O2", "-g", "-fsanitize=fuzzer", "-I", str(ROOT / "recorders"), str(ROOT / "examples" / "fuzz" / "fuzz.c"),
             str(folder / "libdomepeeler.a"), "-o"]
    subprocess.run([*words, str(folder / "fuzz")], check=True)
    subprocess.run([*words, str(folder / "repaired"), "-DREPAIRED"], check=True)
    for seed in 1, 2, 3:
        done = subprocess.run([str(folder / "fuzz"), f"-seed={seed}", "-runs=2000000"], cwd=folder, capture_output=True, text=True, errors="replace")
        tally.check(f"the fuzzer finds the bug, seed {seed}", done.returncode != 0 and re.search(r"^(refused|contents|position) ", done.stderr, re.MULTILINE) is not None,
                    done.stderr[-2000:])
    done = subprocess.run([str(folder / "repaired"), "-seed=1", "-runs=100000"], cwd=folder, capture_output=True, text=True, errors="replace")
    tally.check("the fuzzer finds nothing where it is repaired", done.returncode == 0 and "Done 100000 runs" in done.stderr, done.stderr[-2000:])


def names(tally: Tally, folder: Path) -> None:
    """What the linker sees of either library."""
    for words in ["-D", str(folder / "libdomepeeler.so.0")], [str(folder / "libdomepeeler.a")]:
        told = subprocess.run(["nm", "--defined-only", "--extern-only", *words], capture_output=True, text=True, check=True).stdout
        found = sorted(line.split()[-1] for line in told.splitlines() if " T " in line or " D " in line or " B " in line)
        tally.check(f"names of {words[-1]}", found == NAMES, found)


def main() -> None:
    program = program_of(sys.argv)
    for command, package in ("cc", "gcc"), ("c++", "g++"), ("clang", "clang"), ("pkg-config", "pkg-config"), ("node", "nodejs"), ("npm", "npm"), ("rustc", "rustc"), ("cargo", "cargo"):
        need(command, package)
    if not any(Path(folder, "node_api.h").exists() for folder in ("/usr/include/node", "/usr/include/nodejs/src")):
        install(["libnode-dev"])
    install([package for package in ("python3-pip", "python3-setuptools", "python3-wheel") if not is_installed(package)])
    rnd, tally = random.Random(SEED), Tally()
    with tempfile.TemporaryDirectory() as name:
        folder = Path(name)
        subprocess.run([str(ROOT / "tools" / "library"), name], check=True)
        library, quick = Library(folder / "libdomepeeler.so.0"), Quick(program)
        names(tally, folder)
        end = library.loaded.domepeeler_version(library.room, ctypes.c_size_t(len(library.room)))
        said = f"domepeeler {library.room.raw[:end.length].decode()}\n".encode()
        tally.same("the version", Ended(end.status, said, b""), quick.run(["--version"]))
        vectors(tally, library)
        verified(tally, library, quick, folder, rnd)
        for place, text in enumerate(texts(rnd)):
            compared(tally, library, quick, f"text {place}", text)
        generated(tally, library, quick, rnd)
        for path in "examples/prosemirror_cycle_of_four.trace", "examples/insert_delete_read.trace":
            short_rooms(tally, library, (ROOT / path).read_bytes())
        short_rooms(tally, library, b"trace 1\nreplicas 1\n0 del\n")
        in_c(tally, folder)
        page(tally, program, folder)
        linked(tally, program, folder)
        native(tally, program, folder)
        packages(tally, folder)
        many(tally, program, folder, rnd)
        fuzzed(tally, folder)
    tally.close()


if __name__ == "__main__":
    main()
