#!/usr/bin/env python3
"""judge_many.py PROGRAM: the table of `tools/judge_many`, its order, counts and statuses, its JSON lines, and its file in JUnit's form,
and the script of `examples/ci` with the jobs that run it."""
import ast
import bz2
import gzip
import json
import lzma
import os
import pty
import random
import re
import shutil
import signal
import subprocess
import sys
import tempfile
import time
import xml.etree.ElementTree as xml
from concurrent.futures import ThreadPoolExecutor
from itertools import product
from pathlib import Path

ROOT = Path(__file__).resolve().parents[2]
sys.path.insert(0, str(ROOT / "tests"))
from reference import verdicts  # noqa: E402
from shared.forked import Forked  # noqa: E402
from shared.measured import used, used_itself  # noqa: E402
from shared.old_python import NEWER, OLD, newer_parts  # noqa: E402
from shared.program import Ended, Tally, is_running, need, program_of, run  # noqa: E402
from shared.sessions import session  # noqa: E402
from shared.traces import two_rings  # noqa: E402

sys.path[:0] = [str(ROOT / "recorders" / "engines"), str(ROOT / "recorders"), str(ROOT / "tools"), str(ROOT / "examples" / "planted")]
import merge  # noqa: E402
import planted  # noqa: E402
import sessions as exchanged  # noqa: E402
from explaining import files, in_common, judges, lookers, recordings, rows  # noqa: E402
from explaining.kinds import HINT  # noqa: E402
from list_crdt import Group, play  # noqa: E402

TOOL, EXPLAIN = str(ROOT / "tools" / "judge_many"), str(ROOT / "tools" / "explain")
FORKED = Forked("judge_many", "many_command")
JOBS = ["github_workflow.yml", "gitlab_jobs.yml"]  # of examples/ci

# Traces by file.
ACCEPTED = {"b.trace": "0 ins a 0 : a", "deep/er/a.trace": "0 ins a 0 : a|0 del a :"}
FAILING = {
    "long.trace": "0 ins a 0 : a|1 ins b 0 : b|0 recv 1 1|1 recv 0 1|0 read : a b|1 read : b a",
    "with 'blanks' and $signs.trace": "0 ins x 0 : x|1 recv 0 1|2 recv 0 1|1 ins a 0 : a x|2 ins b 1 : x b|0 del x :|0 recv 1 1|"
                                      "0 recv 2 1|0 read : b a",
    "lost.trace": "0 ins a 0 : a|0 read :",
    "-moved {#}.trace": "0 ins a 0 : a|0 ins b 0 : a b|0 read : a b",
    "twice.trace": "0 ins a 0 : a|1 ins a 0 : a|0 read : a|1 read : a",
}
# By file the verdict, k, how many of the first lines fail already, and the lines: the least of these first; then those that are accepted.
ROWS = [("lost.trace", "contents", "-", "4", "4"), ("-moved {#}.trace", "position", "-", "4", "5"), ("twice.trace", "doubled", "-", "4", "6"),
        ("long.trace", "refused", "2", "8", "8"), ("with 'blanks' and $signs.trace", "refused", "3", "11", "11"),
        ("b.trace", "accepted", "-", "-", "3"), ("deep/er/a.trace", "accepted", "-", "-", "4")]

# What JUnit's file says of each: nothing, or a failure with the verdict's word and the beginning of its message.
MESSAGES = {"lost.trace": ("contents", "contents 0.2: "), "-moved {#}.trace": ("position", "position 0.2: "),
            "twice.trace": ("doubled", "doubled: 0.1 and 1.1 insert the same name, a."), "long.trace": ("refused", "refused 2: "),
            "with 'blanks' and $signs.trace": ("refused", "refused 3: ")}

# What another program does, as a shell says it, and what is said of the program and that.
NO_REPORT = "{} printed no report that agrees with its status: is it domepeeler? It ended with status "
OTHER_TRACE = "{} printed a report that is not on this trace: is it domepeeler?"
NO_VERDICT = "{} printed a verdict that is not known here: "
OTHERS = [("echo hello", f"{NO_REPORT}0"), ("echo '[]'", f"{NO_REPORT}0"), ("echo '{\"a\": 1}'; exit 1", f"{NO_REPORT}1"),
          ("echo '{\"verdict\":\"accepted\"}'; exit 1", f"{NO_REPORT}1"), ("echo '{\"verdict\":\"contents\",\"at\":\"0.1\"}'; exit 0", f"{NO_REPORT}0"),
          ("printf '\\033[31musage\\n' >&2; exit 2", f"{NO_REPORT}2: \\x1b[31musage"),
          ("echo '{\"verdict\":\"accepted\"}'; exit 0", OTHER_TRACE),
          ("echo '{\"verdict\":\"accepted\",\"operations\":99}'; exit 0", OTHER_TRACE),
          ("echo '{\"verdict\":\"great\"}'; exit 0", f"{NO_REPORT}0"), ("echo '{\"verdict\":\"great\"}'; exit 1", f"{NO_VERDICT}great"),
          ("echo '{\"verdict\":\"failed\"}'; exit 1", f"{NO_VERDICT}failed"), ("echo '{\"verdict\":\"unread\"}'; exit 1", f"{NO_VERDICT}unread"),
          ("printf %s '{\"verdict\":\"\\u001b[31m\\n\",\"weak\":true}'; exit 1", f"{NO_VERDICT}\\x1b[31m\\n"),
          ("echo 'usage: other' >&2; exit 2", f"{NO_REPORT}2: usage: other"), ("kill -9 $$", "{} was ended by signal 9 (SIGKILL)")]
# Programs that don't answer their version as domepeeler does, and what is said of them: nothing is judged.
STRANGERS = [("echo 'GNU coreutils 9.1'", "it ended with status 0: GNU coreutils 9.1"), ("exit 3", "it ended with status 3"),
             ("echo 'domepeelers 0.2.0'", "it ended with status 0: domepeelers 0.2.0"), ("kill -9 $$", "it was ended by signal 9 (SIGKILL)"),
             ("printf '\\033[31m\\n'", "it ended with status 0: \\x1b[31m")]
CI_COMMAND = re.compile(rb"^\s*(::|##)", re.MULTILINE)  # a line that GitHub and others read as a command
VERSION = "[ \"$1\" != --version ] || exec echo domepeeler 0.2.0\n"  # what a program that is asked for its version answers

SEED, SESSIONS, EXCHANGED = 20261128, 120, 40
MOST_DELETES = 5  # that are told one by one
# What is said of a recording with each of what an accepted one may hide.
WARNINGS = {
    "nothing": re.compile(r"()nothing was recorded: "),
    "idle": re.compile(r"replica (\d+) has (?:no entry|receipts, but no operation): "),
    "deleted": re.compile(r"line (\d+), \d+\.\d+: replica \d+ deleted "),
    "past": re.compile(r"line (\d+), \d+\.\d+: replica \d+ inserted "),
    "more": re.compile(r"and (\d+) more (?:deletes? of|inserts? past) "),
    "unheard": re.compile(r"replica (\d+) never hears of replicas? ([\d, and]+): "),
    "ends": re.compile(r"(the last lists of replicas [\d, and]+ differ|in this recording )"),
    "unshown": re.compile(r"replica (\d+) shows no list(?: but a view)? after it received "),
}
LACKED = re.compile(r"((?:\d+\.\d+ \(line \d+\)(?:, | and )?|\d+ more )+) ?never arrived at replicas? (\d+(?:(?:, | and )\d+(?!\d|\.\d))*)")
NAMED = re.compile(r"(\d+)\.(\d+) \(line (\d+)\)")

KINDS_EXCHANGED = [exchanged.SMALL_PEERS, exchanged.SMALL_STAR, exchanged.SMALL_MIDDLE]

KILLED = "Killed"  # what the shell that starts a program may print where that is killed


def write(folder: str, traces: dict) -> None:
    for name, entries in traces.items():
        path = Path(folder, name)
        path.parent.mkdir(parents=True, exist_ok=True)
        replicas = 1 + max(int(entry.split()[0]) for entry in entries.split("|"))
        path.write_text("".join(line + "\n" for line in ["trace 1", f"replicas {replicas}", *entries.split("|")]))


def judge(program: str, words: list) -> Ended:
    return FORKED.run(["--program", program, *words])


def cells(line: str) -> tuple:
    """A line of the table: its cells stand at least two blanks apart."""
    return tuple(re.split(r" {2,}", line.strip()))


def table(tally: Tally, program: str, folder: str) -> None:
    got = judge(program, [folder])
    lines = got.out.decode().splitlines()
    tally.check("table: its head", cells(lines[0]) == ("file", "verdict", "k", "fails at", "lines", "seconds"), lines[0])
    rows = [cells(line) for line in lines[1:-1]]
    wanted = [(f"{folder}/{name}", *rest) for name, *rest in ROWS]
    tally.check("table: the rows, first what fails in the fewest lines", [row[:5] for row in rows] == wanted, rows)
    tally.check("table: seconds", all(re.fullmatch(r"\d+\.\d{3}", row[5]) for row in rows), rows)
    tally.check("table: its columns", len({len(line) for line in lines[:-1]}) == 1, lines)
    tally.check("table: the counts", lines[-1] == "7 traces: 2 accepted, 2 refused, 1 contents, 1 position, 1 doubled", lines[-1])
    tally.check("table: status 1", got.status == 1 and not got.err, got)


def json_lines(tally: Tally, program: str, folder: str) -> None:
    got = judge(program, ["--json", "--jobs", "2", folder])
    rows = [json.loads(line) for line in got.out.decode().splitlines()]
    told = [(row["file"], row["verdict"], *(str(row.get(key, "-")) for key in ("k", "fails_at", "lines"))) for row in rows]
    tally.check("JSON: the rows", told == [(f"{folder}/{name}", *rest) for name, *rest in ROWS], told)
    for row in rows:
        own = run(program, ["verdict", "--json", row["file"]])
        tally.check(f"JSON: {row['file']}", row["report"] == json.loads(own.out) and row["status"] == own.status, row)
    tally.check("JSON: status 1", got.status == 1 and not got.err, got)


def statuses(tally: Tally, program: str, folder: str, other: str) -> None:
    good = [f"{folder}/{name}" for name in ACCEPTED]
    got = judge(program, good)
    tally.check("status 0 where all are accepted", got.status == 0 and got.out.endswith(b"2 traces: 2 accepted\n"), got)
    tally.check("one trace, named twice", judge(program, [good[0], good[0]]).out.endswith(b"\n1 trace: 1 accepted\n"))
    bad = Path(other, "bad.trace")
    bad.write_text("trace 1\nreplicas 1\n0 reads :\n")
    got = judge(program, [other, folder])
    lines = got.out.decode().splitlines()
    tally.check("a trace that does not read: status 2", got.status == 2, got)
    tally.check("a trace that does not read: its row", cells(lines[1])[:5] == (str(bad), "unread", "-", "-", "3"), lines)
    told = [f"domepeeler-judge-many: {bad}: finder: line 3: shape", "  line 3 is: 0 reads :",
            "  `reads`, the second word, is not `ins`, `del`, `read`, `view` or `recv`"]
    tally.check("a trace that does not read: its line, and what is wrong with it", got.err.decode().splitlines() == told, got.err)
    tally.check("a trace that does not read: the counts", lines[-1].endswith("1 doubled, 1 unread"), lines[-1])
    got = judge(program, ["--json", other])
    tally.check("a trace that does not read: JSON", json.loads(got.out)["verdict"] == "unread" and got.status == 2
                and json.loads(got.out)["error"].endswith("line 3: shape"), got)
    got = judge("/bin/false", [good[0]])
    fault = b"domepeeler-judge-many: /bin/false is not domepeeler: asked for its version it ended with status 1"
    tally.check("a program that answers nothing", got.status == 2 and not got.out and got.err.startswith(fault), got)


def failing(tally: Tally, program: str, folder: str) -> None:
    """The same, but for the rows of those that are accepted."""
    got = judge(program, ["--failing", folder])
    lines = got.out.decode().splitlines()
    wanted = [("file", "verdict", "k", "fails at", "lines"), *((f"{folder}/{name}", *rest) for name, *rest in ROWS[:5])]
    tally.check("failing: the rows", [cells(line)[:5] for line in lines[:-1]] == wanted, lines)
    tally.check("failing: the counts are of all", lines[-1] == "7 traces: 2 accepted, 2 refused, 1 contents, 1 position, 1 doubled", lines)
    tally.check("failing: status 1", got.status == 1 and not got.err, got)
    got = judge(program, ["--json", "--failing", folder])
    told = [json.loads(line)["file"] for line in got.out.decode().splitlines()]
    tally.check("failing: JSON", told == [f"{folder}/{name}" for name, *_ in ROWS[:5]] and got.status == 1, got)
    good = [f"{folder}/{name}" for name in ACCEPTED]
    tally.same("failing: nothing to list", judge(program, ["--failing", *good]), Ended(0, b"2 traces: 2 accepted\n", b""))
    tally.same("failing: nothing to list as JSON", judge(program, ["--failing", "--json", *good]), Ended(0, b"", b""))


def junit(tally: Tally, program: str, folder: str, other: str) -> None:
    """All traces, listed or not, whatever bytes their names have; what does not read is an error and no failure."""
    path = f"{other}/judged.xml"
    got = judge(program, ["--failing", "--junit", path, folder])
    tally.check("JUnit: the table is printed too", got.out.startswith(b"file ") and got.out.count(b"\n") == 7 and got.status == 1, got)
    whole = xml.parse(path).getroot()
    suites = whole.findall("testsuite")
    tally.check("JUnit: its form", whole.tag == "testsuites" and [suite.get("name") for suite in suites] == ["domepeeler"], suites)
    for element in whole, suites[0]:
        counts = {key: element.get(key) for key in ("tests", "failures", "errors", "skipped")}
        tally.check(f"JUnit: counts of {element.tag}", counts == {"tests": "7", "failures": "5", "errors": "0", "skipped": "0"}, counts)
    cases = suites[0].findall("testcase")
    tally.check("JUnit: the traces", [case.get("file") for case in cases] == [f"{folder}/{name}" for name, *_ in ROWS], cases)
    for case, (name, *_) in zip(cases, ROWS):
        tally.check(f"JUnit: {name}: its names", f"{case.get('classname')}/{case.get('name')}" == case.get("file"), case.attrib)
        tally.check(f"JUnit: {name}: seconds", re.fullmatch(r"\d+\.\d{3}", case.get("time")), case.attrib)
        faults = [(fault.tag, fault.get("type"), fault.get("message")) for fault in case]
        kind, begins = MESSAGES.get(name, ("", ""))
        tally.check(f"JUnit: {name}: its verdict", [fault[:2] for fault in faults] == ([("failure", kind)] if kind else []) and
                    all(fault[2].startswith(begins) for fault in faults), faults)
        about = {"long.trace": " It is about a and b.", "with 'blanks' and $signs.trace": " It is about x, b and a."}.get(name, "")
        tally.check(f"JUnit: {name}: its elements", all(fault[2].endswith(about) for fault in faults), faults)
        said = run(str(ROOT / "tools" / "explain"), ["--program", program, case.get("file")]).out.decode().replace(f"\n{HINT}\n", "")
        tally.check(f"JUnit: {name}: its explanation", all(fault.text == said for fault in case), [fault.text for fault in case])
    odd = Path(other, "odd")
    odd.mkdir()
    for name in b"a\x01 <&\xc3\xa9.trace", b"b\xff.trace":
        Path(odd, os.fsdecode(name)).write_text("trace 1\nreplicas 1\n0 reads :\n")
    got = judge(program, ["--junit", path, str(odd)])
    suite = xml.parse(path).getroot().find("testsuite")
    first, second = suite.findall("testcase")
    counts = [suite.get(key) for key in ("tests", "failures", "errors")]
    tally.check("JUnit: errors", got.status == 2 and counts == ["2", "0", "2"] and
                [(case[0].tag, case[0].get("type")) for case in (first, second)] == [("error", "unread")] * 2, (got, counts))
    tally.check("JUnit: the line of an error", first[0].get("message").endswith(": line 3: shape"), first[0].attrib)
    said = run(str(ROOT / "tools" / "explain"), ["--program", program, "-"], b"trace 1\nreplicas 1\n0 reads :\n").err.decode()
    tally.check("JUnit: the explanation of an error", "`reads`, the second word, is not" in said and first[0].text.splitlines() == ["finder: line 3: shape", *said.splitlines()[1:-1]],
                (first[0].text, said))
    names = [case.get("name") for case in (first, second)]
    tally.check("JUnit: names that XML can't hold", names == ["a\\x01 <&\u00e9.trace", "b\\xff.trace"], names)
    got = judge(program, ["--junit", f"{other}/missing/judged.xml", folder])
    told = f"domepeeler-judge-many: cannot write {other}/missing/judged.xml: No such file or directory\n"
    tally.check("JUnit: it can't be written, and the table is printed", got.status == 2 and got.err == told.encode() and
                got.out.endswith(b"1 position, 1 doubled\n"), got)


def steps_of(job: str) -> list:
    """The commands of a job of CI, without their comments."""
    text = (ROOT / "examples" / "ci" / job).read_text()
    return [step.split("  #")[0].rstrip() for step in re.findall(r"^ +(?:run:|- (?!\w+[:/])) *([\w-]+ .*)$", text, re.MULTILINE)]


def project_of(folder: str, traces: dict) -> str:
    """A repository of an editor that has the script and recordings."""
    project = tempfile.mkdtemp(dir=folder)
    write(f"{project}/recordings", traces)
    os.mkdir(f"{project}/ci")
    shutil.copy(ROOT / "examples" / "ci" / "judge_recordings.py", f"{project}/ci")
    return project


def in_ci(project: str, path: str, step: str, variables: dict) -> subprocess.CompletedProcess:
    """A step of a job, where nothing is set but what CI sets, and no program is found but what was installed."""
    return subprocess.run(["sh", "-c", step], cwd=project, env={"PATH": path, "LC_ALL": "C.UTF-8"} | variables,
                          stdin=subprocess.DEVNULL, capture_output=True, text=True)


# Runs a command where SIGCHLD is ignored, so that nobody hears the status of what has ended. A shell would hear it.
IGNORING = "python3 -c 'import os, signal, sys; signal.signal(signal.SIGCHLD, signal.SIG_IGN); os.execvp(sys.argv[1], sys.argv[1:])'"

# Of a name that writes lines and colours, how it is shown, and how GitHub's form has that.
ODD = {"x\n::error::forged.trace": ("x\\n::error::forged.trace", "x\\n%3A%3Aerror%3A%3Aforged.trace"),
       "y\x1b[31m.trace": ("y\\x1b[31m.trace", "y\\x1b[31m.trace")}


def odd_names_in_ci(tally: Tally, folder: str, path: str, script: str) -> None:
    """In a log of CI no name writes a line of its own, or colours: not of a trace, of those like it, of the folder or of what is in it."""
    place = tempfile.mkdtemp(dir=folder)
    write(place, {f"recordings/{name}": "0 ins a 0 : a|0 read :" for name in ODD} | {f"good\n::error::\x1b[31m/{name}": "0 ins a 0 : a" for name in ODD})
    for name in ODD:
        Path(place, "recordings", f"{name}.lines").write_text("4\n4 t.py:7\n")
    done = in_ci(place, path, f"{script} recordings", {"GITHUB_ACTIONS": "true", "CI_JOB_URL": "https://gitlab.example/jobs/7"})
    lines, (first, second) = done.stdout.splitlines(), ODD.values()
    begins = [f"::error file=recordings/{name},title=recordings/{name}%3A contents::contents 0.2: " for _, name in ODD.values()]
    tally.check("CI: odd names: annotations of GitHub", done.returncode == 1 and [line[:len(begin)] for line, begin in zip(lines, begins)] == begins
                and not any(line.startswith("::") for line in lines[2:]) and "\x1b" not in done.stdout + done.stderr, done)
    tally.check("CI: odd names: the log", lines[2].startswith(f"recordings/{first[0]}: contents 0.2: ")
                and f"  and 1 more that looks alike: recordings/{second[0]}" in lines, done.stdout)
    told = json.loads(Path(place, "judged/annotations.json").read_text())["recordings that are not accepted"]
    tally.check("CI: odd names: links of GitLab", [link["external_link"]["label"] for link in told] == [
        f"recordings/{name}: contents" for name, _ in ODD.values()], told)
    done = in_ci(place, path, f"{script} good*", {})
    tally.check("CI: odd names: the folder", (done.returncode, done.stdout, done.stderr) == (
        0, "all recordings below good\\n::error::\\x1b[31m are accepted\n", ""), done)
    Path(place, "judged", "z\n::error::\x1b[31m").write_text("mine\n")
    done = in_ci(place, path, f"{script} recordings", {})
    tally.check("CI: odd names: a file that is not its own", (done.returncode, done.stdout, done.stderr) == (
        2, "", "judge_recordings: the folder judged holds what this script did not write (z\\n::error::\\x1b[31m): move it away\n"), done)


def options_of_ci(tally: Tally, program: str, folder: str, path: str, step: str) -> None:
    """The program and the editor's kind that are named hold for the explanations too; and of two runs at once in one place the second judges nothing."""
    project = project_of(folder, {"lost.trace": FAILING["lost.trace"]})
    counting = Path(project, "counting")
    counting.write_text(f"#!/bin/sh\necho >> counted\ntest -z \"$SLOW\" || sleep 3\nexec {program} \"$@\"\n")
    counting.chmod(0o755)
    for words in ["--program", "./counting", "--editor", "tree"], ["--program=./counting", "--editor=tree"]:
        done = in_ci(project, path, f"{step} {' '.join(words)}", {})
        tally.check(f"CI: options for both tools: {words}", done.returncode == 1 and "To leave out causes that your editor can't have" not in done.stdout and Path(project, "judged/1.html").is_file() and
                    len(Path(project, "counted").read_text()) > 3, done)
        Path(project, "counted").unlink()
    with ThreadPoolExecutor(1) as pool:
        first = pool.submit(in_ci, project, path, f"{step} --program ./counting", {"SLOW": "1"})
        while not Path(project, "counted").exists():
            time.sleep(0.05)
        second = in_ci(project, path, step, {})
    tally.check("CI: a second run at once", (second.returncode, second.stdout, second.stderr) == (
        2, "", "judge_recordings: another run is at work in the folder judged\n") and first.result().returncode == 1, (first.result(), second))


def jobs_of_ci(tally: Tally, program: str, folder: str) -> None:
    """The jobs install the package by the name that it has, and their last step judges, annotates and keeps the pages."""
    version = run(program, ["--version"]).out.decode().split()[1]
    subprocess.run([ROOT / "tools" / "install", f"{folder}/installed"], check=True, stdout=subprocess.DEVNULL,
                   env=os.environ | {"DOMEPEELER": program})
    own = {os.path.dirname(shutil.which(tool)) for tool in ("python3", "sh")}
    path = os.pathsep.join([f"{folder}/installed/bin", *own])
    wanted = [f"apt-get update && apt-get install -y ./ci/domepeeler_{version}_amd64.deb", "make test",
              "python3 ci/judge_recordings.py recordings"]
    for job in JOBS:
        steps = [step.replace("sudo ", "") for step in steps_of(job)]
        tally.check(f"CI: {job}: its steps", sorted(steps) == sorted(wanted), steps)
    step = wanted[-1]
    in_github(tally, project_of(folder, ACCEPTED | FAILING), path, step)
    in_gitlab(tally, project_of(folder, {"b/unread.trace": "0 reads :", "lost.trace": FAILING["lost.trace"]} | ACCEPTED), path, step)
    options_of_ci(tally, program, folder, path, step)
    done = in_ci(project_of(folder, ACCEPTED), path, step, {"GITHUB_ACTIONS": "true"})
    told = "all recordings below recordings are accepted\n"
    tally.check("CI: all accepted", (done.returncode, done.stdout, done.stderr) == (0, told, ""), done)
    project = project_of(folder, ACCEPTED)
    Path(project, "judged").write_text("a file\n")
    done = in_ci(project, path, step, {})
    told = "judge_recordings: cannot write judged: File exists\n"
    tally.check("CI: it can't write", (done.returncode, done.stdout, done.stderr) == (2, "", told), done)
    done = in_ci(project_of(folder, {"unread.trace": "0 reads :"}), path, step, {})
    tally.check("CI: no page, and none is named", done.returncode == 2 and done.stdout.endswith("1 not accepted: judged/junit.xml has them all\n"), done)
    done = in_ci(project_of(folder, {"a.trace": "0 ins a 0 : a|0 read :"}), path, f"{IGNORING} {step}", {})
    tally.check("CI: SIGCHLD is ignored, as by a daemon", done.returncode == 1 and "a.trace: contents 0.2: " in done.stdout and
                "1 not accepted: " in done.stdout, done)
    done = in_ci(project_of(folder, {"a.trace": "0 ins a 0 : a|0 read :"}), path, f"{IGNORING} domepeeler-judge-many recordings", {})
    tally.check("CI: SIGCHLD is ignored by what starts judge_many", (done.returncode, done.stderr) == (1, "") and "1 trace: 1 contents" in done.stdout, done)
    done = in_ci(project_of(folder, {}), path, step, {"GITHUB_ACTIONS": "true"})
    tally.check("CI: no recording", done.returncode == 2 and done.stderr.startswith("domepeeler-judge-many: "), done)
    done = in_ci(project_of(folder, ACCEPTED), path.partition(os.pathsep)[2], step, {})
    told = "judge_recordings: domepeeler-judge-many can't be run: No such file or directory. Is Domepeeler installed?\n"
    tally.check("CI: nothing installed", (done.returncode, done.stdout, done.stderr) == (2, "", told), done)
    done = in_ci(project_of(folder, ACCEPTED), path, "python3 ci/judge_recordings.py", {})
    tally.check("CI: no folder named", done.returncode == 2 and done.stderr == "usage: judge_recordings.py FOLDER [OPTION..]\n", done)


def in_github(tally: Tally, project: str, path: str, step: str) -> None:
    done = in_ci(project, path, step, {"GITHUB_ACTIONS": "true"})
    tally.check("CI: GitHub: status 1", done.returncode == 1 and not done.stderr, done)
    lines = [line for line in done.stdout.splitlines() if line.startswith("::error ")]
    for line, (name, *_) in zip(lines, ROWS):
        kind, begins = MESSAGES[name]
        file = f"recordings/{name}"
        tally.check(f"CI: GitHub: {name}", line.startswith(f"::error file={file},title={file}%3A {kind}::{begins}"), line)
        tally.check(f"CI: GitHub: {name} is explained", f"\n{file}: {begins}" in f"\n{done.stdout}", done.stdout)
    kept = {name for number in range(1, 6) for name in (f"{number}.html", f"{number}.trace", f"{number}.trace.lines")} | {"junit.xml", ".made"}
    tally.check("CI: GitHub: five failures, and what is kept", len(lines) == 5 and set(os.listdir(f"{project}/judged")) == kept,
                (lines, os.listdir(f"{project}/judged")))
    tally.check("CI: GitHub: the first page is of the smallest", "recordings/lost.trace" in Path(project, "judged/1.html").read_text())


def in_gitlab(tally: Tally, project: str, path: str, step: str) -> None:
    """One of the recordings does not read: it has no page, and the link leads to the job."""
    done = in_ci(project, path, step, {"CI_JOB_URL": "https://gitlab.example/jobs/7"})
    tally.check("CI: GitLab: status 2, and no annotation of GitHub's", done.returncode == 2 and "::error" not in done.stdout, done)
    told = json.loads(Path(project, "judged/annotations.json").read_text())
    links = [link["external_link"] for link in told["recordings that are not accepted"]]
    wanted = [("recordings/b/unread.trace: unread", "https://gitlab.example/jobs/7"),
              ("recordings/lost.trace: contents", "https://gitlab.example/jobs/7/artifacts/file/judged/2.html")]
    tally.check("CI: GitLab: its links", [(link["label"], link["url"]) for link in links] == wanted, links)
    kept = {"2.html", "2.trace", "2.trace.lines", "junit.xml", "annotations.json", ".made"}
    tally.check("CI: GitLab: what is kept", set(os.listdir(f"{project}/judged")) == kept, os.listdir(f"{project}/judged"))
    told = "2 not accepted: judged/junit.xml has them all, and judged/2.html is the page of the first that has one\n"
    tally.check("CI: GitLab: the page that is named", done.stdout.endswith(told), done.stdout[-300:])
    suite = xml.parse(f"{project}/judged/junit.xml").getroot().find("testsuite")
    counts = {key: suite.get(key) for key in ("tests", "failures", "errors")}
    tally.check("CI: GitLab: the counts of JUnit's file", counts == {"tests": "4", "failures": "1", "errors": "1"}, counts)


# What some failing sessions have in common, beside others that pass: by a name these, as often as stands there, and what is told.
BEGUN_TWICE = "0 ins a 0 : a|1 recv 0 1|0 del a :|1 del a :|1 recv 0 2|0 recv 1 1|1 ins b 0 : b|1 read :"  # a delete comes to each that has deleted a
BEGUN_ONCE = "0 ins a 0 : a|1 recv 0 1|0 del a :|1 recv 0 2|1 ins b 0 : b|1 read :"
RIGHT_TWICE, RIGHT_ONCE = f"{BEGUN_TWICE} b|0 recv 1 2|0 read : b", f"{BEGUN_ONCE} b|0 recv 1 1|0 read : b"
TIED = "0 ins a 0 : a|1 ins b 0 : b|0 recv 1 1|0 read : a b|1 recv 0 1|1 read :"  # both at the front
IN_TURN = "0 ins a 0 : a|1 recv 0 1|1 ins b 1 : a b|0 recv 1 1|0 read : a b|1 read : a b|0 ins c 2 : a b c|1 recv 0 3|1 read : a b c"
IN_COMMON = {
    "deleted twice": ([(5, BEGUN_TWICE)], [(2, RIGHT_TWICE), (10, RIGHT_ONCE)], [
        "  a delete arrived whose element was deleted there already: this came before the wrong list in all 5; 2 of the 12 that pass have it too",
        "  a change arrived that was concurrent with one of the receiver's own: this came before the wrong list in all 5; 2 of the 12 that pass have it too"]),
    # Of 48 correct lists 12 come so: one in each failing session, two in each of the four that pass.
    "at one place": ([(4, f"{TIED} b a")], [(4, f"{TIED} a b"), (4, IN_TURN)], [
        "  an insert arrived at a place where an element stood that the insert's author had not seen: this came just before all 4 wrong lists (100 %) and just before 12 of the 48 correct lists of these 12 sessions (25 %)",
        "  a change arrived that was concurrent with one of the receiver's own: this came just before all 4 wrong lists (100 %) and just before 12 of the 48 correct lists of these 12 sessions (25 %)",
        "  Up to where they fail, 4 of the 4 have no deletes: so the bug does not need these."]),
    "none that pass, and few lists": ([(3, BEGUN_ONCE)], [], []),
    # Of 24 correct lists 8 come so.
    "none that pass": ([(8, f"{TIED} b a")], [], [
        "  an insert arrived at a place where an element stood that the insert's author had not seen: this came just before all 8 wrong lists (100 %) and just before 8 of the 24 correct lists of these 8 sessions (33 %)",
        "  a change arrived that was concurrent with one of the receiver's own: this came just before all 8 wrong lists (100 %) and just before 8 of the 24 correct lists of these 8 sessions (33 %)",
        "  Up to where they fail, 8 of the 8 have no deletes: so the bug does not need these."]),
    "too few": ([(2, BEGUN_TWICE)], [(10, RIGHT_ONCE)], []),
    "nothing stands out": ([(3, BEGUN_TWICE)], [(9, RIGHT_TWICE)], []),
}
# By planted bug what the first line says, by what the bug is.
OF_PLANTED = {
    "tombstone": "an insert arrived whose neighbour was deleted there", "tie": "an insert arrived at a place where an element stood that the insert's author had not seen",
    "clock": "a replica inserted directly behind an element of another replica", "overtaking": "several changes arrived at once",
    "mapping": "an insert arrived that was concurrent with a delete which the receiver had already", "unmoved": "a delete arrived that was concurrent with an insert which the receiver had already",
    "behind": "an insert arrived at a place where an element stood that the insert's author had not seen", "twice": "a delete arrived whose element was deleted there already",
    "none": "", "none_behind_server": "",
}


def what_is_common(tally: Tally, program: str, folder: str) -> None:
    """What failing sessions have in common, by sessions that were counted by hand, and by random ones of engines with planted bugs."""
    for name, (wrong, right, told) in IN_COMMON.items():
        place = os.path.join(folder, name)
        write(place, {f"{kind}{number}-{of}.trace": entries for kind, sessions in (("wrong", wrong), ("right", right)) for number, (count, entries) in enumerate(sessions)
                      for of in range(count)})
        counts = [sum(count for count, _ in sessions) for sessions in (wrong, right)]
        beside = f", compared with {counts[1]} sessions that pass" if right else ""
        told = [*told, f"  To see why one fails: domepeeler-explain {place}/wrong0-0.trace"] if told else []
        head = f"What {counts[0]} failures have in common{beside}. Look at what your editor does in these situations, the most telling first:"
        for words in [], ["--failing"]:
            done = subprocess.run([TOOL, "--program", program, *words, place], capture_output=True, text=True)
            said = done.stdout.partition(f"\n{sum(counts)} traces: ")[2].splitlines()[1:]
            tally.check(f"in common: {name} {words}", done.returncode == 1 and said == (["", head, *told] if told else []) and not done.stderr, done)
        done = subprocess.run([TOOL, "--program", program, "--json", place], capture_output=True, text=True)
        tally.check(f"in common: {name}: where the table is JSON", len(list(map(json.loads, done.stdout.splitlines()))) == sum(counts) and
                    done.stderr == "".join(f"{line}\n" for line in ([head, *told] if told else [])), done)
    for bug, wanted in OF_PLANTED.items():
        place = Path(folder, bug)
        place.mkdir()
        for seed in range(60):
            (place / f"{seed}.trace").write_text(planted.session(bug, seed, 16).text())
        weak = ["--weak"] if bug in planted.BEHIND_SERVER else []
        done = subprocess.run([TOOL, "--program", program, "--failing", *weak, str(place)], capture_output=True, text=True)
        first = done.stdout.partition(", the most telling first:\n  ")[2].partition("\n")[0]
        tally.check(f"in common: planted: {bug}", first.startswith(f"{wanted}: ") if wanted else done.returncode == 0 and "in common" not in done.stdout, done)
        without = {words for words in ("deletes", "concurrent changes") if re.search(rf"\n  Up to where they fail, (.* and )?\d+ of the \d+ have no {words}\b", done.stdout)}
        needless = {"clock": {"deletes", "concurrent changes"}, "tie": {"deletes"}, "behind": {"deletes"}}  # the others need both
        tally.check(f"in common: planted: {bug}: what it does not need", without == needless.get(bug, set()), done)
    page = (ROOT / "docs" / "many.md").read_text().split("\n    ")
    for seed in range(100):
        Path(folder, "unmoved", f"{seed}.trace").write_text(planted.session("unmoved", seed).text())
    done = subprocess.run([TOOL, "--program", program, "--weak", "--failing", f"{folder}/unmoved"], capture_output=True, text=True)
    shown = [line for line in page if line.startswith("What 83 failures") or ": this came just before 64 of the 83 wrong lists" in line]
    tally.check("in common: as the page shows it", len(shown) == 2 and done.stdout.rpartition("\n  To see why one fails: ")[0].endswith("\n\n" + "\n".join(line.partition("\n\n")[0] for line in shown)), (shown, done))
    Path(folder, "twice", "0.trace").unlink()
    row = rows.Row(f"{folder}/twice/0.trace", "contents", None, 9, 0.0, 1, None, "", fails_at=9)
    tally.check("in common: of traces that are gone, or are others by now", in_common.in_common([row] * 9 + [row._replace(file=f"{folder}/twice/1.trace", lines=3)] * 9) == [])


# By what is tried: how many replicas, the entries, and the situations right before the last list; if a number stands behind these, up to that line.
TWO_DELETES = "0 ins a 0 : a|1 recv 0 1|1 read : a|0 del a :|1 del a :|1 recv 0 2"
DELETED_TWICE = {in_common.TWICE, in_common.OWN, in_common.NAMES_GONE, in_common.UNSEEN["del", "del"]}
ALL_KNOW = "0 ins a 0 : a|0 ins b 1 : a b|1 recv 0 2|1 read : a b|2 recv 0 2|2 read : a b"
SITUATIONS = {
    "a second delete": (2, f"{TWO_DELETES}|1 read :", DELETED_TWICE),
    "a second delete, and a view": (2, f"{TWO_DELETES}|1 view :|1 read :", DELETED_TWICE),
    "up to a view": (2, f"{TWO_DELETES}|1 view :|1 read :|1 ins b 0 : b", DELETED_TWICE, 9),
    "up to a line": (2, f"{TWO_DELETES}|1 read :|1 ins b 0 : b", DELETED_TWICE, 9),
    "a delete of what another one deletes elsewhere": (3, "0 ins a 0 : a|1 recv 0 1|2 recv 0 1|2 read : a|0 del a :|1 del a :|2 recv 0 2|2 read :", set()),
    "beside what came and was deleted": (3, f"{ALL_KNOW}|0 del a : b|2 ins c 1 : a c b|1 recv 0 3|1 recv 2 2|1 read : c b",
                                         {in_common.UNSEEN["ins", "del"], in_common.BESIDE, in_common.NAMES_GONE, in_common.TOGETHER}),
    "beside what came deleted in one update": (3, f"{ALL_KNOW}|0 del a : b|2 ins c 1 : a c b|2 recv 0 3|2 read : c b|1 recv 2 3|1 read : c b",
                                               {in_common.UNSEEN["ins", "del"], in_common.BESIDE, in_common.NAMES_GONE, in_common.TOGETHER}),
    "beside what is there": (3, f"{ALL_KNOW}|0 ins z 2 : a b z|2 ins c 1 : a c b|1 recv 0 3|1 recv 2 2|1 read : a c b z", {in_common.UNSEEN["ins", "ins"], in_common.TOGETHER}),
    "a delete over an insert": (2, "0 ins a 0 : a|1 recv 0 1|1 read : a|1 ins b 1 : a b|0 del a :|1 recv 0 2|1 read : b", {in_common.UNSEEN["del", "ins"], in_common.OWN}),
    "at one place": (2, "0 ins a 0 : a|1 ins b 0 : b|1 recv 0 1|1 read : a b", {in_common.UNSEEN["ins", "ins"], in_common.OWN, in_common.ONE_PLACE}),
    "while two are on their way": (2, "0 ins a 0 : a|1 ins b 0 : b|1 ins c 1 : b c|1 recv 0 1|1 read : a b c",
                                   {in_common.UNSEEN["ins", "ins"], in_common.OWN, in_common.SEVERAL_OWN, in_common.ONE_PLACE}),
    "made after two messages": (2, "0 ins a 0 : a|1 recv 0 1|0 ins b 1 : a b|1 recv 0 2|1 ins c 2 : a b c|0 recv 1 1|0 read : a b c", {in_common.AFTER_SEVERAL}),
    "made after one, and one that says nothing new": (2, "0 ins a 0 : a|1 recv 0 1|1 recv 0 1|1 ins b 1 : a b|0 recv 1 1|0 read : a b", set()),
    "an insert where one was deleted": (1, "0 ins a 0 : a|0 ins b 1 : a b|0 ins c 2 : a b c|0 del b : a c|0 ins d 1 : a d c", {in_common.OWN_BESIDE}),
    "an insert behind what came since": (2, "1 ins x 0 : x|1 ins a 1 : x a|1 del x : a|0 recv 1 3|0 ins b 1 : a b|1 recv 0 1|1 ins c 2 : a b c", {in_common.BEHIND_OTHERS, in_common.AT_END}),
    "typed on": (1, "0 ins a 0 : a|0 ins b 1 : a b", {in_common.TYPED_ON, in_common.AT_END}),
    "typed before": (1, "0 ins a 0 : a|0 ins b 0 : b a", {in_common.AT_FRONT}),
    "between what another one inserted": (2, "0 ins a 0 : a|0 ins b 1 : a b|1 recv 0 2|1 read : a b|1 ins c 1 : a c b", {in_common.BEHIND_OTHERS, in_common.BEFORE_OTHERS}),
    "behind what no line inserts": (1, "0 ins a 1 : q a", {in_common.AT_END}),
    "the first deleted": (1, "0 ins a 0 : a|0 ins b 1 : a b|0 del a : b", {in_common.FIRST_GONE}),
    "the last deleted": (1, "0 ins a 0 : a|0 ins b 1 : a b|0 del b : a", {in_common.LAST_GONE}),
    "the first deleted, had nothing come before it": (2, "0 ins a 0 : a|0 ins b 1 : a b|1 recv 0 2|1 read : a b|0 ins z 0 : z a b|1 recv 0 3|1 del a : z b", set()),
}
CONCURRENT = {"0 ins a 0 : a|1 ins b 0 : b": True, "0 ins a 0 : a|1 recv 0 1|1 ins b 1 : a b": False, "0 ins a 0 : a|1 recv 0 1|1 read : a|0 del a :": False}


def seen_session(before: set = frozenset(), last: set = frozenset(), others: tuple = (), has_delete: bool = True, is_concurrent: bool = True) -> in_common.Session:
    return in_common.Session(set(before), set(last), list(others), has_delete, is_concurrent)


def situations(tally: Tally, program: str, folder: str) -> None:
    """What each situation is, in sessions that were read by hand; which ones stand out, by counts; and which sessions are looked at."""
    for name, (replicas, entries, wanted, *last_line) in SITUATIONS.items():
        version = 2 if " view :" in entries else 1
        text = f"trace {version}\nreplicas {replicas}\n" + "".join(f"{entry}\n" for entry in entries.split("|"))
        found = in_common.Looking(recordings.Recording(text)).session(*(last_line or [None]))
        tally.check(f"situations: {name}", found.last == wanted and found.before >= wanted, found)
    with_view, without = (in_common.Looking(recordings.Recording(f"trace 2\nreplicas 2\n{entries}\n".replace("|", "\n"))).session(None)
                          for entries in (f"{TWO_DELETES}|1 view :|1 read :", f"{TWO_DELETES}|1 read :"))
    tally.check("situations: a view is no list", with_view == without and len(without.others) == 4, with_view)
    for entries, wanted in CONCURRENT.items():
        found = in_common.Looking(recordings.Recording("trace 1\nreplicas 2\n" + "".join(f"{entry}\n" for entry in entries.split("|")))).session(None)
        tally.check(f"situations: {entries}: concurrent", found.is_concurrent == wanted, found)
    twice, one, own, several, general = in_common.TWICE, in_common.ONE_PLACE, in_common.OWN, in_common.SEVERAL_OWN, in_common.UNSEEN["del", "del"]
    has, lacks, right = seen_session({twice}), seen_session(), [seen_session(others=[set()] * 6)] * 5
    for name, failing, passing, wanted in (
            ("too few pass", [has] * 10, [lacks] * 4, []), ("enough pass", [has] * 10, [lacks] * 5, [(twice, 10, False)]),
            ("all but one of twenty", [has] * 19 + [lacks], [lacks] * 5, [(twice, 19, False)]), ("all but two of twenty", [has] * 18 + [lacks] * 2, [lacks] * 5, []),
            ("three, and a third of those that pass", [has] * 3, [has] * 2 + [lacks] * 4, []),
            ("three, and one of eight that pass", [has] * 3, [has] + [lacks] * 7, []),
            ("one that holds wherever another does", [seen_session({general, twice})] * 10, [lacks] * 9, [(twice, 10, False)]),
            ("several of the receiver's own", [seen_session({own, several})] * 10, [lacks] * 9, [(several, 10, False)]),
            ("four alike", [seen_session({twice, one, several, in_common.TOGETHER})] * 10, [lacks] * 9, [(name, 10, False) for name in sorted([twice, one, several, in_common.TOGETHER])[:3]]),
            ("one that tells far less than the first", [seen_session({twice, one})] * 10, [lacks] * 49 + [seen_session({one})] * 49, [(twice, 10, False)]),
            ("right before, and before", [seen_session({twice}, {twice})] * 10, right, [(twice, 10, True)]),
            ("right before six of ten", [seen_session({one}, {one})] * 6 + [lacks] * 4, right, [(one, 6, True)]), ("right before five of ten", [seen_session({one}, {one})] * 5 + [lacks] * 5, right, []),
            ("too few lists", [seen_session({one}, {one})] * 6 + [lacks] * 4, [seen_session(others=[set()] * 2)] * 5, [])):
        found = [(telling.name, telling.count, telling.is_right_before) for telling in in_common.standing_out(failing, passing)]
        tally.check(f"standing out: {name}", found == wanted, found)
    for without, of, told in (1, 5, []), (2, 20, ["2 of the 20 have no deletes"]), (2, 21, []), (5, 5, ["5 of the 5 have no deletes"]):
        found = in_common.unneeded([seen_session(has_delete=False)] * without + [lacks] * (of - without))
        tally.check(f"not needed: {without} of {of}", found == told, found)
    write(folder, {"twice.trace": BEGUN_TWICE, "once.trace": BEGUN_ONCE, "right.trace": f"{BEGUN_ONCE} b"})
    Path(folder, "empty.trace").write_text("trace 1\nreplicas 2\n")
    big = f"{BEGUN_ONCE}|" + "|".join("0 read :" for _ in range(60_000))
    write(folder, {"big.trace": big})

    def row(name: str, **more: object) -> rows.Row:
        lines = Path(folder, name).read_text().count("\n")
        return rows.Row(f"{folder}/{name}", "contents", None, lines, 0.0, 1, None, "", **more)

    wrong, other = row("twice.trace", fails_at=10), row("once.trace", fails_at=8)
    right_ones = [row("right.trace")._replace(verdict="accepted", unequal=is_unequal) for is_unequal in (None, True)]
    for name, found, head in (
            ("also of those that end unequal", in_common.in_common([wrong] * 5 + right_ones * 4), "What 5 failures have in common, compared with 8 sessions that pass."),
            ("not of empty ones", in_common.in_common([wrong] * 5 + [row("empty.trace")._replace(verdict="accepted")] * 9), ""),
            ("not of what is unread", in_common.in_common([wrong._replace(verdict="unread", fails_at=None)] * 5 + right_ones * 4), ""),
            ("some of many", in_common.in_common([wrong] * 250 + right_ones[:1] * 101), "What 84 of 250 failures have in common, compared with 51 of 101 sessions that pass."),
            ("of many not the first alone", in_common.in_common([wrong] * 125 + [other] * 125 + right_ones[:1] * 50), ""),
            ("not of big ones", in_common.in_common([row("big.trace", fails_at=8)] * 3 + [wrong] * 57 + right_ones[:1] * 50), "What 58 of 60 failures have in common, compared with 50 sessions that pass.")):
        tally.check(f"in common: {name}", (found[0] if found else "").startswith(head) and bool(found) == bool(head), found)
    found = in_common.in_common([wrong] * 39 + [other] + right_ones[:1] * 9)
    tally.check("in common: of most", any(line.startswith("  a delete arrived whose element was deleted there already: this came before the wrong list in 39 of the 40; none of the 9 that pass has it") for line in found), found)


def time_of_common(tally: Tally, program: str, folder: str) -> None:
    """What many have in common is found by some of them: of thousands it takes no longer than of hundreds."""
    found = []
    for seed in range(200):
        path, text = Path(folder, f"{seed}.trace"), planted.session("tie", seed, 40).text()
        path.write_text(text)
        row = rows.Row(str(path), "refused", 2, text.count("\n"), 0.0, 1, None, "")
        found.append(row._replace(fails_at=row.lines) if seed % 2 else row._replace(verdict="accepted"))
    taken = []
    for many in found, found * 15:
        begin = time.process_time()
        in_common.in_common(many)
        taken.append(time.process_time() - begin)
    tally.check("in common: its time", taken[1] < 3 * taken[0] + 0.5 and taken[1] < 5, taken)


def others(tally: Tally, folder: str, other: str) -> None:
    """Another program, named by the variable: each trace failed, none is unread, and it is asked whether it is domepeeler."""
    path = Path(other, "other")
    for printed, told in OTHERS:
        path.write_text(f"#!/bin/sh\n{VERSION}{printed}\n")
        path.chmod(0o755)
        done = subprocess.run([TOOL, folder], capture_output=True, text=True, env=os.environ | {"DOMEPEELER": str(path)})
        tally.check(f"another program, {printed}: the counts", done.returncode == 2 and done.stdout.endswith("\n7 traces: 7 failed\n"), done)
        said = {line.partition(".trace: ")[2] for line in done.stderr.splitlines()}
        wanted = {told.format(path)} | ({KILLED} if printed.startswith("kill") else set())
        tally.check(f"another program, {printed}: its lines", said and said <= wanted, done.stderr)
        done = subprocess.run([TOOL, "--json", folder], capture_output=True, text=True, env=os.environ | {"DOMEPEELER": str(path)})
        statuses = {json.loads(line)["status"] for line in done.stdout.splitlines()}
        ended = 128 + 9 if printed.startswith("kill") else int(printed[-1]) if "exit" in printed else 0
        tally.check(f"another program, {printed}: its status", statuses == {ended}, done.stdout)
        done = subprocess.run([TOOL, "--weak", "--failing", "--json", "--junit", f"{other}/junit.xml", folder], capture_output=True, text=True,
                              env=os.environ | {"DOMEPEELER": str(path)})
        said = {(row["verdict"], row.get("error") in wanted, "report" in row) for row in map(json.loads, done.stdout.splitlines())}
        faults = [(fault.tag, fault.get("type"), fault.get("message") in wanted) for fault in xml.parse(f"{other}/junit.xml").findall(".//testcase/*")]
        tally.check(f"another program, {printed}: where weak is enough, in JSON and JUnit's form", done.returncode == 2 and said == {("failed", True, False)}
                    and faults == [("error", "failed", True)] * 7, (done, faults))
    for printed, told in STRANGERS:
        path.write_text(f"#!/bin/sh\n{printed}\n")
        tally.same(f"no domepeeler: {printed}", judge(str(path), [folder]),
                   Ended(2, b"", f"domepeeler-judge-many: {path} is not domepeeler: asked for its version {told}\n".encode()))


def errors(tally: Tally, program: str, folder: str) -> None:
    empty = os.path.join(folder, "empty")
    os.mkdir(empty)
    tally.same("no trace", judge(program, [empty]), Ended(2, b"", f"domepeeler-judge-many: there is no *.trace file below {empty}\n".encode()))
    missing = os.path.join(folder, "missing")
    tally.same("no folder", judge(program, [missing]),
               Ended(2, b"", f"domepeeler-judge-many: cannot read {missing}: there is no such file or folder\n".encode()))
    tally.same("no program", judge(missing, [folder]), Ended(2, b"", f"domepeeler-judge-many: can't run {missing}, which --program names\n".encode()))
    for words, told in ([], "the following arguments are required: DIR"), (["--fast", empty], "unrecognized arguments: --fast"), (
            [empty, "--json", empty], f"unrecognized arguments: {empty}"), ([""], "cannot read : there is no such file or folder"):
        got = judge(program, words)
        tally.check(f"arguments: {words}", got.status == 2 and not got.out and got.err.endswith(f": {told}\n".encode()), got)
    for words in (["--junit", f"{folder}/a.xml", "--junit", f"{folder}/b.xml"], ["--jobs", "2", "--jobs=3"],
                  ["--program", program, "--program=x"]):
        got = run(TOOL, [*words, folder])
        tally.check(f"given twice: {words[0]}", got.status == 2 and not got.out
                    and got.err.endswith(f": error: argument {words[0]}: it is given twice\n".encode())
                    and not os.path.exists(f"{folder}/b.xml"), got)
    got = run(TOOL, ["--program", program, "--junit", "", folder])
    tally.check("an empty name of a file", got.status == 2 and not got.out and got.err.endswith(b": error: argument --junit: a file's name is not empty\n"), got)
    for option in "--we", "--js", "--un":
        got = run(TOOL, [option, "--program", program, folder])
        tally.check(f"no option is shortened: {option}", got.status == 2 and not got.out and got.err.endswith(f": unrecognized arguments: {option}\n".encode()), got)
    for jobs in "0", "-1", "2.5", "all", "":
        tally.same(f"jobs: {jobs!r}", judge(program, [f"--jobs={jobs}", folder]),
                   Ended(2, b"", f"domepeeler-judge-many: --jobs is a number from 1 on, not {jobs or 'nothing'}\n".encode()))
    fault = b"domepeeler-judge-many: --sshlogin needs GNU parallel: on Debian, apt-get update and apt-get install parallel\n"
    words = [sys.executable, TOOL, "--program", program, "--sshlogin", "one", folder]
    got = subprocess.run(words, env={"PATH": empty}, capture_output=True)
    tally.same("no parallel", Ended(got.returncode, got.stdout, got.stderr), Ended(2, b"", fault))
    fake = Path(empty, "parallel")
    fake.write_text("#!/bin/sh\necho another program\n")
    fake.chmod(0o755)
    got = subprocess.run(words, env={"PATH": f"{empty}:/bin"}, capture_output=True)
    tally.same("another parallel", Ended(got.returncode, got.stdout, got.stderr), Ended(2, b"", fault))


def script(path: Path, text: str) -> str:
    """A script of the shell that can be run."""
    path.write_text(f"#!/bin/sh\n{text}")
    path.chmod(0o755)
    return str(path)


def ssh_of(folder: str) -> dict:
    """What GNU parallel is to find in its surroundings: what stands for ssh runs the command here, with the SHELL that a login sets."""
    stand_in = script(Path(folder, "ssh"), "while [ \"${1#-}\" != \"$1\" ]; do [ \"$1\" != -l ] || shift; shift; done\nshift\n"
                      "[ \"$1\" != -- ] || shift\nexec env SHELL=/bin/sh sh -c \"$*\"\n")
    return {"PARALLEL_SSH": stand_in, "HOME": folder}


def elsewhere(tally: Tally, program: str, folder: str, other: str) -> None:
    """By GNU parallel on two machines, which are this one. And without GNU parallel."""
    here = [json.loads(line) | {"seconds": 0} for line in judge(program, ["--json", folder]).out.decode().splitlines()]
    surroundings_of_ssh = ssh_of(other)
    for what, more, surroundings in (
            ("two machines", ["--sshlogin", "2/one,two", "--jobs", "50%"], surroundings_of_ssh),
            ("no parallel", ["--jobs", "3"], {"PATH": other})):
        words = [sys.executable, TOOL, "--program", program, "--json", *more, folder]
        done = subprocess.run(words, env=os.environ | surroundings, capture_output=True)
        rows = [json.loads(line) | {"seconds": 0} for line in done.stdout.decode().splitlines()]
        tally.check(f"{what}: the rows", rows == here and len(rows) == len(ROWS), (rows, done.stderr))
        tally.check(f"{what}: status 1", done.returncode == 1 and not done.stderr, done)
    for path, status in ((f"{folder}/deep", 0), (f"{folder}/none", 1)):  # the command of the guide, for folders
        shown = re.search(r"^    (parallel .*\n.*)", (ROOT / "docs" / "many.md").read_text(), re.MULTILINE)[1]
        shown = shown.replace("/opt/domepeeler/bin/domepeeler-judge-many", f"{sys.executable} {TOOL} --program {program}")
        shown = shown.replace("night/part1 night/part2", os.path.relpath(path, "/")).replace("night.jsonl", f"{other}/night.jsonl")
        os.makedirs(f"{folder}/none", exist_ok=True)
        done = subprocess.run(["sh", "-c", shown], cwd="/", env=os.environ | surroundings_of_ssh, capture_output=True, text=True)
        rows = [json.loads(line) for line in Path(other, "night.jsonl").read_text().splitlines()]
        tally.check(f"two machines, by folders: {path}", done.returncode == status
                    and [row["verdict"] for row in rows] == ["accepted"] * (1 - status), done)
    os.rmdir(f"{folder}/none")
    got = judge(program, ["--json", "--sshlogin", ":", folder])
    rows = [json.loads(line) | {"seconds": 0} for line in got.out.decode().splitlines()]
    tally.check("parallel on this machine: the rows", rows == here and got.status == 1 and not got.err, got)
    left = [str(path) for path in Path(other).rglob("*.trace")]
    tally.check("two machines: no trace is left there", not left, left)
    here_and_elsewhere(tally, program, folder, other, here)


def here_and_elsewhere(tally: Tally, program: str, folder: str, other: str, wanted: list) -> None:
    """This machine and another at once: each judges some of the traces, none is taken away here, and none left there."""
    asked = Path(other, "asked")
    noting = script(Path(other, "noting"), f"echo \"$PARALLEL_SSHLOGIN\" >> '{asked}'\nexec '{program}' \"$@\"\n")
    before = sorted(map(str, Path(folder).rglob("*")))
    for machines in "1/:,1/one", "one,:", "2/one,2/:":
        asked.write_text("")
        done = subprocess.run([TOOL, "--program", noting, "--json", "--sshlogin", machines, folder], cwd=other,
                              env=os.environ | ssh_of(other), capture_output=True, text=True)
        rows_there = [json.loads(line) | {"seconds": 0} for line in done.stdout.splitlines()]
        tally.check(f"{machines}: the rows", rows_there == wanted and done.returncode == 1 and not done.stderr, done)
        tally.check(f"{machines}: both judge", set(asked.read_text().split()) == {":", "one"}, asked.read_text())
        left = [str(path) for path in Path(other).rglob("*.trace")]
        tally.check(f"{machines}: all traces stay here, and none there", sorted(map(str, Path(folder).rglob("*"))) == before and not left, left)


FIRST_FAULT = "in the column `fails at`, {0} ({1}) says that the first {0} lines fail already, with {1}; domepeeler-explain begins there. `verdict` and `k` are of the whole trace"


def fails_at(tally: Tally, program: str, folder: str) -> None:
    """How many of the first lines fail already, by the program's word on each beginning; the least of these first, and of equals the
    smaller trace."""
    write(folder, {"a.trace": "0 ins x 0 : x|0 ins y 1 : x y|0 ins z 2 : x y z|0 read : y z", "b.trace": "0 ins x 0 : x|1 ins y 0 : y|"
                   "0 recv 1 1|0 ins y 2 : x y", "c.trace": "0 ins x 0 : x|0 ins y 0 : x y|0 del x : y|0 read : y",
                   "d.trace": "0 ins x 0 : x|0 ins y 1 : x y|0 read : y x|0 read : x y", "e.trace": "0 ins x 0 : x|0 read :|0 read : x|"
                   "0 read : x|0 read : x", "f.trace": "0 ins x 0 : x|0 read : x|0 read : x|0 read : x",
                   # What the report names is the least by replica, and a doubled name comes before all else.
                   "g.trace": "1 ins a 0 : a|1 read :|0 ins b 0 : b|0 read :", "h.trace": "0 ins a 0 : a|0 read :|1 ins a 0 : a",
                   "i.trace": "1 ins a 0 : a|1 ins b 0 : a b|0 ins c 0 : c|0 ins d 0 : c d"})
    rnd = random.Random(SEED)
    for i in range(SESSIONS):
        Path(folder, f"{i}.trace").write_text(session(rnd))
    rows = [json.loads(line) for line in judge(program, ["--json", "--failing", folder]).out.decode().splitlines()]
    told = [(row["fails_at"], row["lines"], row["file"]) for row in rows]
    tally.check("fails at: their order", told == sorted(told) and len(rows) > SESSIONS / 4, told)
    by_hand = {Path(name).stem: at for at, _, name in told if Path(name).stem.isalpha()}
    tally.check("fails at: by hand", by_hand == {"a": 6, "b": 6, "c": 4, "d": 5, "e": 4, "g": 4, "h": 4, "i": 4}, by_hand)
    first = {Path(row["file"]).stem: row.get("first_fault") for row in rows if Path(row["file"]).stem.isalpha()}
    tally.check("fails at: another verdict first, by hand", first == {**dict.fromkeys("abcde"), "g": "contents 1.2", "h": "contents 0.2", "i": "position 1.2"}, first)
    lines = [cells(line) for line in judge(program, [f"{folder}/{name}.trace" for name in "abgh"]).out.decode().splitlines()]
    tally.check("fails at: the table says which, where it is another", [(Path(line[0]).stem, line[3]) for line in lines[:-2]] == [
        ("file", "fails at"), ("h", "4 (contents 0.2)"), ("g", "4 (contents 1.2)"), ("a", "6"), ("b", "6")], lines)
    tally.check("fails at: and what that means", lines[-1] == (FIRST_FAULT.format(4, "contents 0.2"),), lines)
    for row in rows:
        lines = Path(row["file"]).read_bytes().splitlines(keepends=True)
        before, behind = (run(program, ["verdict", "-"], b"".join(lines[:count])).status for count in (row["fails_at"] - 1, row["fails_at"]))
        tally.check(f"fails at: {row['file']}", (before, behind) == (0, 1), row)
    for name, reads in ("long", 2000), ("longest", 2600):  # of 8 and 10 million bytes
        names = [f"{i:032}" for i in range(60)]
        inserts = [f"0 ins {one} {at} : {' '.join(names[:at + 1])}" for at, one in enumerate(names)]
        shown = [f"{replica} read : {' '.join(names[is_wrong:])}" for i in range(reads) for replica, is_wrong in ((0, i == reads - 1), (1, i == 500))]
        write(folder, {f"{name}/one.trace": "|".join([*inserts, "1 recv 0 60", *shown])})
        (row,) = map(json.loads, judge(program, ["--json", f"{folder}/{name}"]).out.decode().splitlines())
        first, last = len(inserts) + 3 + 2 * 500 + 2, len(inserts) + 3 + 2 * reads - 1  # the wrong lines of replicas 1 and 0
        tally.check(f"fails at: {name}", (row["fails_at"], row["lines"], row["report"]["at"]) == (first, last + 1, f"0.{60 + reads}") and
                    "causes" in row, row["fails_at"])


def progress(tally: Tally, program: str, folder: str) -> None:
    """A terminal shows how many traces were judged, on standard error alone."""
    ours, theirs = pty.openpty()
    done = subprocess.run([TOOL, "--program", program, folder], stdout=subprocess.PIPE, stderr=theirs)
    os.close(theirs)
    with os.fdopen(ours, "rb") as terminal:
        shown = terminal.read1().decode()
    tally.check("a terminal: how many", shown == "".join(f"\r{n} of {len(ROWS)}" for n in range(1, len(ROWS) + 1)) + "\r\n", repr(shown))
    tally.check("a terminal: the table", done.stdout.startswith(b"file ") and done.returncode == 1, done)


def interrupted(tally: Tally, folder: str, other: str) -> None:
    """A user who stops it, as by Ctrl-C, gets no table and no complaint at once, though one more may have begun in each thread. Where the
    signal does not reach the program, it is ended."""
    slow, begun = Path(other, "slow"), Path(other, "begun")
    for caught, deaf in ("Ctrl-C", ""), ("a program that hears nothing", "trap '' INT\n"):
        slow.write_text(f"#!/bin/sh\n{VERSION}{deaf}echo >> '{begun}'\nexec sleep 60\n")
        slow.chmod(0o755)
        begun.write_text("")
        running = subprocess.Popen([TOOL, "--program", str(slow), "--jobs", "2", folder], stdout=subprocess.PIPE, stderr=subprocess.PIPE,
                                   start_new_session=True,
                                   preexec_fn=lambda: signal.signal(signal.SIGINT, signal.SIG_DFL))  # which a job in the background ignores
        until = time.monotonic() + 60
        while begun.stat().st_size < 2 and time.monotonic() < until:
            time.sleep(0.01)
        os.killpg(running.pid, signal.SIGINT)
        out, err = running.communicate(timeout=30)
        tally.same(f"interrupted: {caught}", Ended(running.returncode, out, err), Ended(-signal.SIGINT, b"", b""))
        tally.check(f"interrupted: {caught}: not all are begun", 2 <= begun.stat().st_size <= 4 < len(ROWS), begun.read_bytes())


def warnings(tally: Tally, program: str, folder: str) -> None:
    """What an accepted recording may hide stands on standard error, behind the errors, in a column and in a field; the statuses stay."""
    quiet = judge(program, [str(ROOT / "examples")])
    tally.check("warnings: none of the examples", quiet.status == 1 and not quiet.err and b"warnings" not in quiet.out, quiet)
    write(folder, {"apart.trace": "0 ins a 0 : a|1 ins b 0 : b", "lost.trace": "0 ins a 0 : a|0 read :", "fine.trace": "0 ins a 0 : a"})
    Path(folder, "fine.trace.lines").write_text("3\nnote seed 17\n")
    Path(folder, "lost.trace.lines").write_text("9\n")
    got = judge(program, [folder])
    lines = got.out.decode().splitlines()
    tally.check("warnings: the columns", [cells(line)[::6] for line in lines[:4]] == [("file", "warnings"), *(
        (f"{folder}/{name}.trace", count) for name, count in (("lost", "1"), ("apart", "3"), ("fine", "0")))], lines)
    tally.check("noted: the column", [cells(line)[7] for line in lines[:4]] == ["noted", "-", "-", "seed 17"], lines)
    tally.check("unequal: the verdict, and the count", [cells(line)[1] for line in lines[1:4]] == ["failed", "accepted, unequal", "accepted"]
                and lines[4:] == ["3 traces: 2 accepted, 1 failed", "1 of those accepted is unequal: replicas end with different lists, a change "
                                  "never arrived, or a replica was not read at the end (with --unequal these count as failures)"], lines)
    error, *warned = got.err.decode().splitlines()
    cut = f"the trace may have been cut at a line's end: it has 4 lines, and {folder}/lost.trace.lines says that 9 were saved"
    said = [line.partition(": warning: ") for line in warned]
    begun = ("apart", "the last li"), ("apart", "replica 0 n"), ("apart", "replica 1 n")
    tally.check("warnings: on standard error, lost lines first", error == f"domepeeler-judge-many: {folder}/lost.trace: {cut}; the verdict on the lines "
                "that are left is `contents 0.2`" and [(front, told[:11]) for front, _, told in said] == [
                    (f"domepeeler-judge-many: {folder}/{name}.trace", told) for name, told in begun] and got.status == 2, got)
    rows = {Path(row["file"]).stem: row for row in map(json.loads, judge(program, ["--json", folder]).out.decode().splitlines())}
    tally.check("warnings: the field", {name: row.get("warnings") for name, row in rows.items()} == {
        "fine": None, "lost": [cut], "apart": [told for _, _, told in said]}, rows)
    tally.check("unequal, noted: the fields", {name: (row.get("unequal"), row.get("notes")) for name, row in rows.items()} == {
        "fine": (None, ["seed 17"]), "lost": (None, None), "apart": (True, None)}, rows)
    unequal(tally, program, folder)
    places(tally, program, folder)
    write(folder, {f"many/{i}.trace": "0 ins a 0 : a|1 ins b 0 : b" for i in range(8)})
    told = judge(program, [f"{folder}/many"]).err.decode().splitlines()
    last = "domepeeler-judge-many: and 4 more warnings, which --json shows"
    tally.check("warnings: no more than twenty", len(told) == 21 and told[20] == last, told)


def unequal(tally: Tally, program: str, folder: str) -> None:
    """Accepted traces that end unequal fail where that is asked for, in JUnit's file too, where they else have their warnings as output."""
    one, junit_file = f"{folder}/apart.trace", f"{folder}/ends.xml"
    got = judge(program, ["--json", "--junit", junit_file, one])
    tally.check("unequal: status 0", got.status == 0 and len(got.err.splitlines()) == 3, got)
    (case,) = xml.parse(junit_file).getroot().iter("testcase")
    told = case.find("system-out").text.splitlines()
    tally.check("unequal: JUnit's output", [node.tag for node in case] == ["system-out"] and len(told) == 3
                and told[0] == "warning: the last lists of replicas 0 and 1 differ", told)
    got = judge(program, ["--unequal", "--failing", "--junit", junit_file, one, f"{folder}/fine.trace"])
    lines = got.out.decode().splitlines()
    tally.check("unequal: it fails where that is asked for", got.status == 1 and [cells(line)[:2] for line in lines[1:2]] == [(one, "accepted, unequal")]
                and lines[2:] == ["2 traces: 2 accepted", "1 of those accepted is unequal: replicas end with different lists, a change never "
                                  "arrived, or a replica was not read at the end (counted as failures)"], got)
    faults = [(fault.tag, fault.get("type"), fault.get("message")) for case in xml.parse(junit_file).getroot().iter("testcase") for fault in case]
    tally.check("unequal: JUnit's failure", faults == [("failure", "unequal", "accepted, but unequal in the end: the last lists of replicas 0 and 1 "
                                                        "differ")], faults)
    got = judge(program, ["--unequal", f"{folder}/fine.trace"])
    tally.check("unequal: all are equal", got.status == 0, got)
    silent = Path(folder, "silent.trace")
    for entries, is_unequal in ("", False), ("0 read :\n", False), ("0 ins a 0 : a\n", True), ("0 ins a 0 : a\n1 recv 0 1\n", True):
        silent.write_text(f"trace 1\nreplicas 2\n{entries}")
        got = judge(program, ["--unequal", str(silent)])
        tally.check(f"unequal: a replica that shows nothing, {entries!r}", got.status == (is_unequal if entries else 2) and b"1 accepted\n" in got.out, got)


def known_as_cut(tally: Tally, program: str, folder: str) -> None:
    """A trace that has fewer lines than were saved is failed, whatever these show: status 2, an error in JUnit's file, and said first, before
    however many warnings. Of one that is wrong itself the error has the verdict on what is left, and JUnit's file what explains it."""
    write(folder, {"zz.trace": "0 ins a 0 : a|0 read : a", "bad.trace": "0 ins a 0 : a|0 read :",
                   **{f"apart{i}.trace": "0 ins a 0 : a|1 ins b 0 : b" for i in range(8)}})
    for name in "zz", "bad":
        Path(folder, f"{name}.trace.lines").write_text("9\n")
    path = f"{folder}/junit.xml"
    got = judge(program, ["--junit", path, folder])
    lines, rows = got.err.decode().splitlines(), [cells(line)[:4] for line in got.out.decode().splitlines()]
    told, left = (f"{folder}/{name}.trace: the trace may have been cut at a line's end: it has 4 lines, and {folder}/{name}.trace.lines says that 9 "
                  f"were saved{shows}" for name, shows in (("zz", ""), ("bad", "; the verdict on the lines that are left is `contents 0.2`")))
    tally.check("cut: status 2, failed, and said first", got.status == 2 and lines[:2] == [f"domepeeler-judge-many: {one}" for one in (left, told)]
                and "more warning" in lines[-1] and got.out.decode().splitlines()[-2] == "10 traces: 8 accepted, 2 failed", got)
    tally.check("cut: the table has no verdict of them", rows[1:3] == [(f"{folder}/{name}.trace", "failed", "-", "-") for name in ("bad", "zz")], rows)
    errors = {case.get("name"): case[0] for case in xml.parse(path).getroot().iter("testcase") if case.find("error") is not None}
    tally.check("cut: an error in JUnit's file", {(name, error.get("type"), error.text) for name, error in errors.items() if name == "zz.trace"} == {
        ("zz.trace", "failed", told.partition(": ")[2])} and len(errors) == 2, errors)
    message, text = errors["bad.trace"].get("message"), errors["bad.trace"].text
    explained = run(EXPLAIN, ["--program", program, f"{folder}/bad.trace"]).out.decode().replace(f"\n{HINT}\n", "")
    tally.check("cut: JUnit's error of one that is wrong itself", errors["bad.trace"].get("type") == "failed" and message == left.partition(": ")[2] and
                text == f"{message}\n{explained}" and explained.startswith("contents 0.2: "), text)
    alone = judge(program, [f"{folder}/bad.trace"])
    tally.check("cut: status 2 of one that is wrong itself, alone", alone.status == 2 and alone.err.decode() == f"domepeeler-judge-many: {left}\n" and
                alone.out.endswith(b"\n1 trace: 1 failed\n"), alone)
    for name, said in ("none", ""), ("word", "many\n"):
        write(folder, {f"{name}.trace": "0 ins a 0 : a"})
        Path(folder, f"{name}.trace.lines").write_text(said)
    Path(folder, "nothing.trace").write_text("trace 1\nreplicas 1\n")
    lines = judge(program, [folder]).err.decode().splitlines()
    unknown = [f"{folder}/{name}.trace.lines holds no line count, so nothing says whether the trace is whole" for name in ("none", "word")]
    nothing = "nothing was recorded: the trace has no entry, so the verdict says nothing about your editor"
    tally.check("cut: always said that nobody knows, or nothing was recorded", lines[2:5] == [
        f"domepeeler-judge-many: {folder}/{name}.trace: warning: {told_of}" for name, told_of in zip(("none", "nothing", "word"), (unknown[0], nothing, unknown[1]))]
                and "more warning" in lines[-1], lines)
    for name, error, verdict in ("zz", told, "accepted"), ("bad", left, "contents"):
        row = json.loads(judge(program, ["--json", f"{folder}/{name}.trace"]).out)
        tally.check(f"cut: its object, {name}", row["verdict"] == "failed" and row["error"] == error.partition(": ")[2] and "fails_at" not in row
                    and row["report"]["verdict"] == verdict, row)
    Path(folder, "longer").mkdir()
    Path(folder, "longer", "s.trace").write_text("trace 1\nreplicas 1\n0 ins a 0 : a\n0 read : a\n")
    Path(folder, "longer", "s.trace.lines").write_text("3\nrefused what it says\n")
    for i in range(8):
        Path(folder, "longer", f"apart{i}.trace").write_text(Path(folder, f"apart{i}.trace").read_text())
    got = judge(program, [f"{folder}/longer"])
    tally.check("longer than what was saved: failed, and said first", got.status == 2 and got.err.decode().splitlines()[0] == (
        f"domepeeler-judge-many: {folder}/longer/s.trace: the trace has 4 lines, and {folder}/longer/s.trace.lines says that 3 were saved: is that file of "
        "another trace?") and b"8 accepted, 1 failed" in got.out, got)
    Path(folder, "alone").mkdir()
    for name, content in ("a.trace", "trace 1\nreplicas 1\n0 ins a 0 : a\n"), ("new.trace.lines", "4\n"), ("p.trace.lines", "4\n"), ("p.trace.7z", "7z"):
        Path(folder, "alone", name).write_text(content)
    got = judge(program, ["--json", f"{folder}/alone"])
    rows = {Path(row["file"]).name: row["verdict"] for row in map(json.loads, got.out.decode().splitlines())}
    tally.check("a trace that was to be put beside its lines, and is not there", got.status == 2 and rows == {"a.trace": "accepted", "new.trace": "unread", "p.trace.7z": "unread"}, got)
    Path(folder, "alone", "a.trace.lines").write_text("3\nrefused name x")
    got = judge(program, ["--json", f"{folder}/alone/a.trace"])
    tally.check("a refused call in a line that was cut", got.status == 2 and json.loads(got.out)["verdict"] == "failed" and "name x" in json.loads(got.out)["error"], got)
    Path(folder, "mixed").mkdir()
    for name, lines in ("aa", "0 inz a 0 : a\n"), ("half", "0 ins a 0 : a\n0 rea"), ("zz", "0 ins a 0 : a\n"):
        Path(folder, "mixed", f"{name}.trace").write_text(f"trace 1\nreplicas 1\n{lines}")
        Path(folder, "mixed", f"{name}.trace.lines").write_text("3\n" if name == "aa" else "9\n")
    got = judge(program, [f"{folder}/mixed"])
    first = f"domepeeler-judge-many: {folder}/mixed"
    said = [line for line in got.err.decode().splitlines() if not line.startswith("  ")]
    more = [f"it has 3 lines, and {folder}/mixed/{name}.trace.lines says that 9 were saved" for name in ("half", "zz")]
    tally.check("cut: said before what does not read, and of one within a line too", got.status == 2 and sorted(said[:2]) == [
        f"{first}/half.trace: finder: line 4: cut; {more[0]}", f"{first}/zz.trace: the trace may have been cut at a line's end: {more[1]}"]
                and said[2:] == [f"{first}/aa.trace: finder: line 3: shape"], got)


# A test that goes on after a change was refused, as its editor applied it too early: the session that is left is accepted; and so it is said.
UNCAUSAL = """
import sys
sys.path.insert(0, sys.argv[1])
from domepeeler import NotCausal, Recording
recording = Recording(2)
recording.insert(1, "a", 0, ["a"])
recording.insert(1, "b", 1, ["a", "b"])
try:
    recording.received_clock(0, 1, [0, 2])
except NotCausal:
    pass
recording.read(0, {shown})
recording.save(sys.argv[2])
print(*recording.judge([sys.argv[3]])["warnings"], sep="\\n")
"""
NEVER_CAME = ("a call was refused, and what it says never came: not causal: 1.2 was applied at replica 0 before 1.1, which replica 1 had seen; 1.1 "
              "must arrive first or in the same update: perhaps it was lost, or only the call for it is missing; if the update carried more than "
              "one change, say how many (`changes`)")


def refused_calls(tally: Tally, program: str, folder: str) -> None:
    """A session of which a call was refused is no pass, since what it says was not judged: status 2, an error in JUnit's file, also where weak
    holds; where it is wrong itself its verdict stands, with a warning. `explain` and the page say it, and so does what merge.py writes."""
    for name, shown in ("zz", "[]"), ("bad", "['b']"):
        path = f"{folder}/{name}.trace"
        done = run(sys.executable, ["-c", UNCAUSAL.format(shown=shown), str(ROOT / "recorders"), path, program])
        tally.check(f"refused calls: the recorder warns too, {name}", done.status == 0 and done.out.decode().splitlines()[0] == NEVER_CAME, done)
    write(folder, {"fine.trace": "0 ins a 0 : a"})
    junit, error = f"{folder}/junit.xml", f"{NEVER_CAME}; the verdict on the lines that were recorded is `accepted`"
    for goal in [], ["--weak"]:
        got = judge(program, [*goal, "--junit", junit, folder])
        lines, rows = got.err.decode().splitlines(), {row[0]: row[1] for row in map(cells, got.out.decode().splitlines()) if len(row) > 1}
        tally.check(f"refused calls: status 2, and failed {goal}", got.status == 2 and got.out.endswith(b"\n3 traces: 1 accepted, 1 contents, 1 failed\n") and
                    rows[f"{folder}/zz.trace"] == "failed" and rows[f"{folder}/bad.trace"] == "contents" and
                    lines[0] == f"domepeeler-judge-many: {folder}/zz.trace: {error}", got)
        tally.check(f"refused calls: what is wrong by itself is warned of {goal}",
                    f"domepeeler-judge-many: {folder}/bad.trace: warning: {NEVER_CAME}" in lines, lines)
        cases = {case.get("name"): case for case in xml.parse(junit).getroot().iter("testcase")}
        told = cases["zz.trace"].find("error")
        tally.check(f"refused calls: an error in JUnit's file {goal}", told is not None and told.get("type") == "failed" and told.text == error and
                    cases["bad.trace"].find("failure") is not None and len(cases["fine.trace"]) == 0, told)
    row = json.loads(judge(program, ["--json", f"{folder}/zz.trace"]).out)
    tally.check("refused calls: its object", row["verdict"] == "failed" and row["error"] == error and NEVER_CAME in row["warnings"], row)
    page = f"{folder}/page.html"
    got = run(EXPLAIN, ["--program", program, "--html", page, f"{folder}/zz.trace"])
    said = got.out.decode()
    tally.check("refused calls: explain", got.status == 2 and said.startswith(f"accepted, but this is no pass: {NEVER_CAME}\n") and f"\nWhat this verdict may hide\n  {NEVER_CAME}\n" in said, got)
    tally.check("refused calls: the page", "what it says never came" in Path(page).read_text())
    said = run(EXPLAIN, ["--program", program, f"{folder}/bad.trace"]).out.decode()
    tally.check("refused calls: explain, of what is wrong by itself", said.startswith("contents 0.1: ") and
                f"\nWhat this verdict may hide\n  {NEVER_CAME}\n" in said and
                "\nWhere to look\n  Look first at the call that was refused (see above): what it was to record is not in the trace.\n" in said, said)
    told = ["a call was refused", "::error::\x1b"]
    got = run(EXPLAIN, ["--program", program, *(word for one in told for word in ("--refused", one)), f"{folder}/fine.trace"])
    tally.check("refused calls: explain, as a recorder tells it", got.status == 0 and
                b"\nWhat this verdict may hide\n  a call was refused\n  \\x3a:error::\\x1b\n" in got.out, got)
    for log, entries in ("0", "0 ins a 0 : a"), ("1", "1 read :"):
        write(folder, {f"logs/{log}.log": entries})
        Path(folder, "logs", f"{log}.log").write_text(f"trace 1\nreplicas 2\n{entries}\n")
        Path(folder, "logs", f"{log}.log.lines").write_text(f"3\nrefused a call was refused, so what it says is not recorded: log {log}\n")
    merged = f"{folder}/merged.trace"
    done = run(sys.executable, [str(ROOT / "recorders" / "merge.py"), "--output", merged, f"{folder}/logs/0.log", f"{folder}/logs/1.log"])
    got = judge(program, [merged])
    tally.check("refused calls: of logs that are merged", done.status == 0 and got.status == 2 and
                b": a call was refused, so what it says is not recorded: log 0; the verdict on the lines that were recorded is `accepted`\n" in got.err, got)


def grouped(tally: Tally, program: str, folder: str) -> None:
    """Failures with one verdict, cause and line of code are one row of the table, and the script of CI tells the first whole and of others
    a line; JSON and JUnit have each."""
    lost, twice = "0 ins a 0 : a|1 recv 0 1|1 read :", "0 ins a 0 : a|1 recv 0 1|1 read : a a"
    write(folder, {f"{name}.trace": entries for name, entries in (("a", lost), ("b", lost + "|0 read : a"), ("c", lost), ("d", twice), ("e", lost))})
    for name, place in ("a", 7), ("b", 7), ("c", 9), ("d", 7):
        Path(folder, f"{name}.trace.lines").write_text(f"{6 if name == 'b' else 5}\n5 t.py:{place}\n")
    got = judge(program, ["--junit", f"{folder}/junit.xml", folder])
    rows = [cells(line) for line in got.out.decode().splitlines()]
    tally.check("grouped: the rows", [(Path(row[0]).stem, row[6]) for row in rows[:-1]] == [
        ("file", "similar"), ("a", "1"), ("c", "0"), ("d", "0"), ("e", "0")] and rows[-1] == ("5 traces: 5 contents; failures that look alike share a row (`similar`: how many others)",), rows)
    tally.check("grouped: JUnit has each", len(list(xml.parse(f"{folder}/junit.xml").getroot().iter("failure"))) == 5)
    objects = [json.loads(line) for line in judge(program, ["--json", folder]).out.decode().splitlines()]
    tally.check("grouped: JSON has each", sorted((Path(row["file"]).stem, row["causes"][-1], row.get("place")) for row in objects) == [
        ("a", "arrival", "t.py:7"), ("b", "arrival", "t.py:7"), ("c", "arrival", "t.py:9"), ("d", "arrival", "t.py:7"), ("e", "arrival", None)], objects)


def places(tally: Tally, program: str, folder: str) -> None:
    """What JUnit's file says of a failure has the places that a recorder has saved, and the seed that the test has noted."""
    Path(folder, "lost.trace.lines").write_text("4\nnote seed 17\n3 t.py:7\n4 t.py:8, called from t.py:9\n")
    judge(program, ["--junit", f"{folder}/junit.xml", folder])
    (failure,) = xml.parse(f"{folder}/junit.xml").getroot().iter("failure")
    wanted = "\n\nIn your code\n  line 3: t.py:7\n  line 4: t.py:8, called from t.py:9\n\nYour notes\n  seed 17\n\nThe list specifications\n  strong and weak fail\n"
    tally.check("JUnit's file: places, and the seed", failure.text.endswith(wanted), failure.text)


def expected_warnings(text: str) -> dict:
    """What a slow reader of the definitions finds: replicas without an operation, lines with deletes of what nothing inserts and with
    inserts past the end, pairs of a replica that did something and one whose changes it never heard of; which changes never came to
    whom, whether the last lists differ, and who shows nothing of what came last."""
    recording = verdicts.recording_of(text)
    operations, pairs = recording.operations, verdicts.visibility(recording)
    inserted = {body.name for body in operations.values() if body.kind == "ins"}
    changes = {f for f, body in operations.items() if body.kind in ("ins", "del")}
    has, news, shown = {}, {}, {}
    for replica, stream in enumerate(recording.streams):
        has[replica], at_last, n = set(), set(), 0
        for entry in stream:
            if isinstance(entry, verdicts.Receipt):
                has[replica] |= {f for f in changes if f == entry.seen or (f, entry.seen) in pairs}
            else:
                n += 1
                has[replica] |= {f for f in changes if f == (replica, n)}
                if entry.kind != "view":
                    at_last, shown[replica] = set(has[replica]), set(entry.response)
        news[replica] = has[replica] - at_last
    acting = {replica for replica, _ in operations}
    unheard = {(r, q) for r in acting for q in {author for author, _ in changes} if r != q and not any(author == q for author, _ in has[r])}
    lacked = {(r, f) for r in acting for f in changes if f[0] != r and f not in has[r] and (r, f[0]) not in unheard}
    compared = {r for r in shown if not news[r]}
    differ = len({frozenset(shown[r]) for r in compared}) > 1
    is_apart = differ and any(r not in compared for r, _ in lacked)  # then it is said by itself
    deletes, past = [], []
    for number, line in enumerate(text.splitlines()[2:], 3):
        words = line.split()
        if words[1] == "del" and words[2] not in inserted:
            deletes.append(number)
        if words[1] == "ins" and int(words[3]) > len(words) - 6:
            past.append(number)
    more = [len(told) - MOST_DELETES for told in (deletes, past) if len(told) > MOST_DELETES]
    idle = sorted(set(range(len(recording.streams))) - acting) if acting else []
    return {"nothing": [] if acting else [""], "idle": idle, "deleted": deletes[:MOST_DELETES], "past": past[:MOST_DELETES], "more": more,
            "unheard": unheard, "ends": ["different"] * differ + ["lacking"] * (is_apart or not differ and bool(lacked)), "lacked": lacked,
            "unshown": {r for r in acting if news[r]}}


def played(steps: exchanged.Session) -> str:
    """A session of the list CRDT in Python: at its end everyone has everything, and reads."""
    group = Group(steps.replicas)
    for line in exchanged.Plan(steps).lines[1:]:
        play(group, line.split())
    return group.recording.text()


def warnings_of_sessions(tally: Tally, program: str, folder: str) -> None:
    """Random sessions: of accepted ones exactly what the slow reader finds is warned of; where a list's replicas have exchanged all
    that they did, and read, nothing."""
    rnd = random.Random(SEED)
    texts = {f"{i}.trace": session(rnd) for i in range(SESSIONS)}
    texts |= {f"exchanged{i}.trace": played(exchanged.session(rnd.choice(KINDS_EXCHANGED), rnd)) for i in range(EXCHANGED)}
    for name, text in texts.items():
        Path(folder, name).write_text(text)
    quiet = 0
    for row in map(json.loads, judge(program, ["--json", folder]).out.decode().splitlines()):
        said = row.get("warnings", [])
        if row["verdict"] != "accepted":
            tally.check("sessions: no warning but of an accepted one", not said, row)
            continue
        found = {kind: [match for match in map(words.match, said) if match] for kind, words in WARNINGS.items()}
        got = {kind: [int(match[1]) if match[1] else "" for match in found[kind]] for kind in ("nothing", "idle", "deleted", "past", "more")}
        got["unheard"] = {(int(match[1]), int(q)) for match in found["unheard"] for q in re.findall(r"\d+", match[2])}
        got["ends"] = ["different" if match[1].startswith("the last lists") else "lacking" for match in found["ends"]]
        got["unshown"] = {int(match[1]) for match in found["unshown"]}
        lacked = [(int(r), changes) for match in found["ends"] for changes, where in LACKED.findall(match.string) for r in re.findall(r"\d+", where)]
        named = {(r, (int(author), int(n))) for r, changes in lacked for author, n, _ in NAMED.findall(changes)}
        left = sum(int(count) for _, changes in lacked for count in re.findall(r"(\d+) more ", changes))
        name = Path(row["file"]).name
        wanted = expected_warnings(texts[name])
        quiet += not said
        all_lacked = wanted.pop("lacked")
        tally.check("sessions: the warnings", got == wanted and len(said) == sum(map(len, found.values())), f"{row}: {wanted}")
        tally.check("sessions: what never arrived", named <= all_lacked and len(named) + left == len(all_lacked), f"{row}: {all_lacked}")
        is_silent = wanted["idle"] and bool(re.search(r"^\d+ (ins|del) ", texts[name], re.MULTILINE))
        tally.check("sessions: unequal", row.get("unequal", False) == bool(wanted["unheard"] or wanted["ends"] or wanted["unshown"] or is_silent), row)
        tally.check("sessions: none where all was exchanged", not (said and name.startswith("exchanged")), row)
    tally.check("sessions: some without a warning, some with", EXCHANGED <= quiet <= EXCHANGED + SESSIONS - 30, quiet)


def name_of(tool: str) -> str:
    """The name by which a tool is installed, which its messages begin with."""
    return f"domepeeler-{Path(tool).name.replace('_', '-')}"


def closed_output(tally: Tally, program: str, folder: str) -> None:
    """A reader that has enough, as `head` has, is not told of as an error, and a full disk is, whether Python keeps what is printed back
    or not."""
    reader, closed = os.pipe()
    os.close(reader)
    with open("/dev/full", "wb") as full:
        for tool, what in (TOOL, folder), (str(ROOT / "tools" / "explain"), f"{folder}/lost.trace"):
            told = f"{name_of(tool)}: cannot write: No space left on device\n".encode()
            for stream, wanted in (1, f"{name_of(tool)}: cannot write: standard output is closed\n".encode()), (0, None), (2, b""):
                got = subprocess.run(["sh", "-c", f'exec "$@" {stream}>&-', "sh", tool, "--program", program, what], capture_output=True)
                status = 2 if stream == 1 else 1
                tally.check(f"closed stream {stream}: {tool}", got.returncode == status and (wanted is None or got.stderr == wanted) and
                            bool(got.stdout) == (stream != 1), got)
            for unbuffered in "", "1":
                for out, wanted in (closed, b""), (full, told):
                    got = subprocess.run([tool, "--program", program, what], stdout=out, stderr=subprocess.PIPE,
                                         env=os.environ | {"PYTHONUNBUFFERED": unbuffered, "LC_ALL": "C.UTF-8"})
                    tally.check(f"closed output: {tool}, {wanted}, {unbuffered}", (got.returncode, got.stderr) == (2, wanted), got)
    os.close(closed)


def anywhere(tally: Tally, program: str, folder: str) -> None:
    """The tools work in whatever folder they lie, as a copy of the repository at the root of a file system, and without a home."""
    here = {name: value for name, value in os.environ.items() if name != "HOME"}
    with tempfile.TemporaryDirectory(dir="/tmp") as tools:
        shutil.copytree(ROOT / "tools", tools, dirs_exist_ok=True)
        for tool, what, status in ("judge_many", folder, 1), ("explain", f"{folder}/lost.trace", 1):
            got = subprocess.run([f"{tools}/{tool}", "--program", program, what], capture_output=True, env=here)
            tally.check(f"anywhere: {tool}", got.returncode == status and got.stdout and not got.stderr, got)
    long = "x" * 300
    tally.same("too long a name", judge(program, [long]), Ended(2, b"", f"domepeeler-judge-many: cannot read {long}: File name too long\n".encode()))


def little_memory(tally: Tally, program: str, folder: str) -> None:
    """Where memory is short, an accepted trace is no failure, and nothing is half told."""
    write(folder, {"a.trace": "0 ins a 0 : a"})
    for tool in TOOL, str(ROOT / "tools" / "explain"):
        for kilobytes in 22_000, 28_000, 34_000, 1_000_000:
            got = subprocess.run(["sh", "-c", f'ulimit -v {kilobytes}; exec "$@"', "sh", sys.executable, tool, "--program", program,
                                  f"{folder}/a.trace"],
                                 capture_output=True, text=True)
            is_told = "accepted" in got.stdout if got.returncode == 0 else got.stderr.startswith(f"{name_of(tool)}: ")
            is_told = is_told and got.returncode in (0, 2, 3)
            tally.check(f"little memory: {name_of(tool)} in {kilobytes} KB", is_told and (kilobytes < 1_000_000 or not got.returncode), got)
    write(folder, {"b.trace": "0 ins a 0 : a|0 read :"})
    with open(f"{folder}/along.trace", "wb") as file:
        file.truncate(152_000_000)
    own = run(program, ["verdict", f"{folder}/along.trace"]).err.decode().rstrip("\n")
    for kilobytes, ended, error in (160_000, ("failed", 3), "out of memory"), (1_000_000, ("unread", 2), own):
        got = subprocess.run(["sh", "-c", f'ulimit -v {kilobytes}; exec "$@"', "sh", TOOL, "--program", program, "--jobs", "1", "--json", "--junit",
                              f"{folder}/judged.xml", folder], capture_output=True, text=True)
        rows = {Path(row["file"]).stem: (row["verdict"], row["status"], row.get("error")) for row in map(json.loads, got.stdout.splitlines())}
        tally.check(f"little memory: for one of three, in {kilobytes} KB", got.returncode == 2 and rows == {
            "a": ("accepted", 0, None), "along": (*ended, error), "b": ("contents", 1, None)} and got.stderr.startswith(
                f"domepeeler-judge-many: {folder}/along.trace: {error}\n"), got)
        cases = xml.parse(f"{folder}/judged.xml").getroot().iter("testcase") if Path(folder, "judged.xml").exists() else []
        told = {case.get("name"): [fault.text.split(": this ")[0].split("\n")[0] for fault in case] for case in cases}
        tally.check(f"little memory: JUnit, for one of three, in {kilobytes} KB", told == {
            "a.trace": [], "along.trace": [error], "b.trace": ["contents 0.2"]}, told)


def which_traces(tally: Tally, program: str, folder: str, other: str) -> None:
    """Behind links, in each real folder once, and with the ending in any case; of several folders one without a trace is told of."""
    write(folder, {"a.trace": "0 ins a 0 : a", "deep/BAD.TRACE": "0 ins a 0 : a|0 read :"})
    write(other, {"linked.trace": "0 ins a 0 : a|0 read :"})
    os.symlink(other, f"{folder}/link")
    os.symlink(folder, f"{other}/back")
    os.symlink(f"{folder}/missing", f"{folder}/to_nothing.log")
    got = judge(program, ["--json", folder])
    files = sorted(json.loads(line)["file"] for line in got.out.decode().splitlines())
    tally.check("which traces: links and endings", got.status == 1 and files == [f"{folder}/a.trace", f"{folder}/deep/BAD.TRACE",
                                                                                 f"{folder}/link/linked.trace"], got)
    got = judge(program, ["--json", folder, other, f"{other}/back", f"{folder}/link/linked.trace"])
    tally.check("which traces: by several ways, each once", sorted(json.loads(line)["file"] for line in got.out.decode().splitlines()) == files, got)
    os.mkdir(f"{folder}/empty")
    got = judge(program, [folder, f"{folder}/empty"])
    tally.same("which traces: an empty folder beside a full one", got,
               Ended(2, b"", f"domepeeler-judge-many: there is no *.trace file below {folder}/empty\n".encode()))


# By name: what the file holds, and what is said of it: as a row that is failed, as a warning, or nothing. All lie beside x.trace, which has one
# insert; those that begin with a link's arrow lead to nothing.
A_TRACE, ANOTHER_TRACE = "trace 1\nreplicas 1\n0 ins a 0 : a\n", "trace 1\nreplicas 1\n0 read :\n"
STOPPED_RECORDER = "a recorder was stopped while it wrote this, so a trace may be lacking: look whether it is, then remove this"
PASSED_OVER = "it begins as a trace, and was not judged, since its name does not end in .trace"
LEFT_OVER = {
    ".domepeeler-0a1b2c": (ANOTHER_TRACE, "failed", STOPPED_RECORDER), ".domepeeler-17-3": ("3\nlanguage c\n", "failed", STOPPED_RECORDER),
    ".domepeeler-18-0": ("", "failed", STOPPED_RECORDER), ".merge-00ff": (ANOTHER_TRACE[:12], "failed", STOPPED_RECORDER),
    ".domepeeler-19-99": ("<!DOCTYPE html>\n", "warning", "a tool was stopped while it wrote this, which is no trace"),
    "x.trace.1": (ANOTHER_TRACE, "failed", PASSED_OVER), "x.trace-20261130": ("trace 2\nreplicas 1\n", "failed", PASSED_OVER),
    "x.trace.2": (A_TRACE, "warning", PASSED_OVER), "x.trace~": (ANOTHER_TRACE, "warning", PASSED_OVER), "x.trace.bak": (A_TRACE, "warning", PASSED_OVER),
    "y.trace.part": (ANOTHER_TRACE, "failed", PASSED_OVER), "X.TRACE.1": (ANOTHER_TRACE, "failed", PASSED_OVER),
    "x.trace.txt": ("what x.trace is about\n", "", ""), "x.trace.1.lines": ("4\n", "", ""), "traces.md": (A_TRACE, "", ""),
    "night2": (None, "failed", "it is a link that leads nowhere, so traces behind it may be lacking"),
    "latest.log": (None, "warning", "it is a link that leads nowhere"),
}


def left_over(tally: Tally, program: str, folder: str) -> None:
    """What a recorder that was stopped has left, what looks like a trace and is passed over, and links that lead nowhere, are told of: as failed
    where a trace may be lacking, and else as a warning; a file that is only being written is not."""
    for name, (text, kind, words) in LEFT_OVER.items():
        place = tempfile.mkdtemp(dir=folder)
        Path(place, "x.trace").write_text(A_TRACE)
        if text is None:
            os.symlink("/nowhere/at/all", f"{place}/{name}")
        else:
            Path(place, name).write_text(text)
            os.utime(Path(place, name), (0, 0))
        got, junit = judge(program, ["--json", place]), judge(program, ["--junit", f"{folder}/junit.xml", place])
        rows = {Path(row["file"]).name: row for row in map(json.loads, got.out.decode().splitlines())}
        row = rows.pop(name, {})
        said = f"domepeeler-judge-many: {place}/{name}: {'warning: ' * (kind == 'warning')}{words}\n" if kind else ""
        tally.check(f"left over: {name}", got.status == junit.status == (2 if kind == "failed" else 0) and got.err.decode() == said and
                    (row.get("verdict"), row.get("error")) == ((kind, words) if kind == "failed" else (None, None)) and
                    [one["verdict"] for one in rows.values()] == ["accepted"], got)
        errors = [case.get("name") for case in xml.parse(f"{folder}/junit.xml").getroot().iter("testcase") if case.find("error") is not None]
        tally.check(f"left over: {name}, in the table and in JUnit's form", errors == [name] * (kind == "failed") and
                    (b"\n2 traces: 1 accepted, 1 failed\n" if kind == "failed" else b"\n1 trace: 1 accepted\n") in junit.out, (errors, junit))
        if kind == "failed":
            Path(place, "x.trace").unlink()
            alone = judge(program, ["--json", place])
            tally.check(f"left over: {name} alone", alone.status == 2 and json.loads(alone.out)["error"] == words, alone)
    for name, text, beside, is_told in (("session", A_TRACE, "3\n", True), ("night.txt", "trace 2\nreplicas 2\n0 ins a 0 : a\n1 view :\n", "4\n", True), (
            "0.log", "trace 1\nreplicas 2\n0 ins a 0 : a\n0 recv 1 1\n", "4\n", False), (
            "1.log", "trace 1\nreplicas 2\n", "2\n", False), ("small", A_TRACE, "3\nsmall\n", False), (
            "notes", "of x\n", "1\n", False), ("page", A_TRACE, None, False), ("empty", "trace 1\nreplicas 1\n", "2\n", True)):
        place = Path(tempfile.mkdtemp(dir=folder))
        (place / "x.trace").write_text(A_TRACE)
        (place / name).write_text(text)
        if beside:
            (place / f"{name}.lines").write_text(beside)
        got = judge(program, ["--json", str(place)])
        rows = {Path(row["file"]).name: row.get("error") for row in map(json.loads, got.out.decode().splitlines())}
        tally.check(f"left over: {name} with its lines beside it", (got.status, rows) == ((2, {"x.trace": None, name: PASSED_OVER}) if is_told else
                    (0, {"x.trace": None})), got)
    for name, side, beside in ("G.TRACE", "G.TRACE.LINES", "3\n"), ("G.trace", "G.trace.lines", "\ufeff3\n"), ("G.trace", "G.trace.lines", ""):
        place = Path(tempfile.mkdtemp(dir=folder))
        (place / name).write_text(A_TRACE)
        (place / side).write_text(f"{beside}refused a call was refused, so what it says is not recorded: no replica 7\n")
        got, told = judge(program, ["--json", str(place)]), run(str(ROOT / "tools" / "explain"), ["--program", program, str(place / name)])
        tally.check(f"left over: refused in {side}, {beside!r}", got.status == told.status == 2 and json.loads(got.out)["verdict"] == "failed" and b"no replica 7" in got.out
                    and told.out.startswith(b"accepted, but this is no pass: a call was refused"), (got, told))
    place = Path(tempfile.mkdtemp(dir=folder))
    (place / "x.trace").write_text(A_TRACE)
    (place / ".domepeeler-5").write_text(A_TRACE)
    writing = subprocess.Popen(["sh", "-c", f"sleep 0.7; mv {place}/.domepeeler-5 {place}/x.trace"])
    got = judge(program, ["--json", str(place)])
    writing.wait()
    tally.check("left over: what is only being written", got.status == 0 and got.err == b"" and len(got.out.splitlines()) == 1, got)


def beside_elsewhere(tally: Tally, program: str, folder: str) -> None:
    """What stands beside a trace is compressed, or a link to nothing: that nobody knows whether the trace is whole is warned of."""
    write(folder, {"a.trace": "0 ins a 0 : a"})
    side = Path(folder, "a.trace.lines")
    for what, make, why in ("compressed", lambda: Path(f"{side}.gz").write_bytes(b"\x1f\x8b"), "there is a.trace.lines.gz instead"), (
            "a link to nothing", lambda: side.symlink_to("gone"), "it is a link to nothing"):
        make()
        got = judge(program, [folder])
        tally.check(f"beside a trace: {what}", got.status == 0 and f"{side} can't be read ({why}), so nothing says whether the trace is whole" in got.err.decode(), got)
        for left in side, Path(f"{side}.gz"):
            left.unlink(missing_ok=True)


def safe_paths(tally: Tally, program: str, folder: str) -> None:
    """Where Python looks for modules in safe places alone, the tools find their own."""
    write(folder, {"a.trace": "0 ins a 0 : a"})
    for words in [TOOL, "--program", program, folder], [EXPLAIN, "--program", program, f"{folder}/a.trace"]:
        done = subprocess.run([sys.executable, "-P", *words] if sys.version_info >= (3, 11) else words, capture_output=True, text=True,
                              env={**os.environ, "PYTHONSAFEPATH": "1"})
        tally.check(f"safe paths: {words[0]}", done.returncode == 0 and not done.stderr, done)


def beside_links(tally: Tally, program: str, folder: str, other: str) -> None:
    """Of a trace behind a link what stands beside the link counts, or else what stands beside the trace that it leads to."""
    write(other, {"real.trace": "0 ins a 0 : a"})
    Path(other, "real.trace.lines").write_text("4\n")
    os.symlink(f"{other}/real.trace", f"{folder}/by_link.trace")
    for what, side, status in ("beside the trace", None, 2), ("beside the link", "3\n", 0), ("beside both", "4\n", 2):
        if side:
            Path(folder, "by_link.trace.lines").write_text(side)
        got = judge(program, ["--json", folder])
        row = json.loads(got.out)
        tally.check(f"links: what stands {what}", (got.status, row["verdict"]) == (status, "failed" if status else "accepted"), got)
        told = subprocess.run([EXPLAIN, "--program", program, f"{folder}/by_link.trace"], capture_output=True, text=True)
        tally.check(f"links: explain, {what}", ("may have been cut" in told.stdout) == bool(status) and told.returncode == status, told)
    Path(folder, "by_link.trace.lines").unlink()
    got = judge(program, ["--junit", f"{other}/real.trace.lines", folder])
    tally.check("links: what stands beside the trace is not written over", got.status == 2 and Path(other, "real.trace.lines").read_text() == "4\n", got)


AS_USERS = ["setpriv", "--bounding-set", "-dac_override,-dac_read_search"] if os.geteuid() == 0 else []  # who may not read everything


def millions_of_names(tally: Tally, program: str, folder: str) -> None:
    """Faulty lines as long as can be are told of soon and in little memory, on the screen and in JUnit's file."""
    long = " a" * 4_000_000
    told = {"last": (f"0 read :{long} b@", "the line is too long to be looked at whole: nothing is wrong with the words in its first 1,000,000 bytes, "
                     "and of the whole line the program says `shape`"),
            "second": (f"0 reads :{long}", "`reads`, the second word, is not `ins`, `del`, `read`, `view` or `recv`")}
    write(folder, {f"{name}.trace": line for name, (line, _) in told.items()})
    for jobs in "1", "2":
        got, seconds, megabytes = used([TOOL, "--program", program, "--jobs", jobs, "--junit", f"{folder}/judged.xml", folder])
        lines = got.err.decode().splitlines()
        tally.check(f"millions of names: {jobs} at a time", got.status == 2 and lines[::3] == [
            f"domepeeler-judge-many: {folder}/{name}.trace: finder: line 3: shape" for name in told] and lines[2::3] == [
                f"  {said}" for _, said in told.values()], [line[:200] for line in lines])
        faults = [case[0].text.splitlines() for case in xml.parse(f"{folder}/judged.xml").getroot().iter("testcase")]
        tally.check(f"millions of names: JUnit, {jobs} at a time", [fault[2] for fault in faults] == [f"  {said}" for _, said in told.values()],
                    [fault[::2] for fault in faults])
        tally.check(f"millions of names: little time and memory, {jobs} at a time", seconds < 4 and megabytes < 70, (seconds, megabytes))


def not_looked_at(tally: Tally, program: str, folder: str) -> None:
    """Where there may be traces that can't be looked at, or are compressed, not all is well, though all others are accepted."""
    write(folder, {"a.trace": "0 ins a 0 : a", "locked/deep/b.trace": "0 ins a 0 : a|0 read :", "unread/c.trace": "0 ins a 0 : a"})
    Path(folder, "unread", "c.trace").chmod(0)
    try:
        for way, mode in (("listed", 0o444), ("closed", 0)):
            Path(folder, "locked").chmod(mode)
            done = subprocess.run([*AS_USERS, TOOL, "--program", program, f"{folder}/a.trace", f"{folder}/locked"], capture_output=True,
                                  text=True)
            place = f"{folder}/locked/deep" if mode else f"{folder}/locked"
            tally.check(f"not looked at: a folder that is {way}", (done.returncode, done.stdout, done.stderr) == (
                2, "", f"domepeeler-judge-many: cannot read {place}: Permission denied\n"), done)
        os.mkdir(f"{folder}/linked")
        shutil.copy(f"{folder}/a.trace", f"{folder}/linked")
        os.symlink(f"{folder}/locked/deep", f"{folder}/linked/more")
        done = subprocess.run([*AS_USERS, TOOL, "--program", program, f"{folder}/linked"], capture_output=True, text=True)
        tally.check("not looked at: a link into such a folder", (done.returncode, done.stdout, done.stderr) == (
            2, "", f"domepeeler-judge-many: cannot read {folder}/linked/more: Permission denied\n"), done)
        done = subprocess.run([*AS_USERS, TOOL, "--program", program, "--json", f"{folder}/unread"], capture_output=True, text=True)
        tally.check("not looked at: a file", done.returncode == 2
                    and json.loads(done.stdout)["error"] == "cannot be read: Permission denied", done)
        for name, words in (name_of(EXPLAIN), [EXPLAIN, "--program", program]), ("merge.py", [sys.executable, str(ROOT / "recorders" / "merge.py")]):
            done = subprocess.run([*AS_USERS, *words, f"{folder}/unread/c.trace"], capture_output=True, text=True)
            tally.check(f"not looked at: a file, by {name}", (done.returncode, done.stdout, done.stderr) == (
                2, "", f"{name}: cannot read {folder}/unread/c.trace: Permission denied\n"), done)
    finally:
        Path(folder, "locked").chmod(0o755)
    packed = Path(folder, "packed")
    packed.mkdir()
    shutil.copy(f"{folder}/a.trace", packed)
    for end, pack in ("gz", gzip.compress), ("bz2", bz2.compress), ("XZ", lzma.compress):
        Path(packed, f"a.trace.{end}").write_bytes(pack(b"trace 1\nreplicas 1\n0 read :\n"))
    got = judge(program, [str(packed)])
    tally.check("compressed: beside what was in it", got.status == 0 and got.out.endswith(b"\n1 trace: 1 accepted\n"), got)
    for end in "gz", "bz2", "XZ":
        os.rename(packed / f"a.trace.{end}", packed / f"b{end}.trace.{end}")
    got = judge(program, [str(packed)])
    tally.check("compressed: alone", got.status == 2 and got.out.endswith(b"\n4 traces: 1 accepted, 3 unread\n")
                and got.err.count(b"\n  the file is compressed: unpack it first\n") == 3, got)
    for end in "7z", "br", "lz", "lz4", "lzma", "lzo", "rar", "tar", "tar.gz", "tar.xz", "tgz", "zip", "ZST":
        Path(packed, f"c.trace.{end}").write_bytes(b"7z\xbc\xaf\x27\x1c")
        got = judge(program, ["--json", str(packed)])
        rows = [json.loads(line) for line in got.out.decode().splitlines()]
        tally.check(f"compressed: alone, {end}", got.status == 2 and [row["verdict"] for row in rows if row["file"].endswith(f"c.trace.{end}")] == ["unread"], got)
        os.remove(packed / f"c.trace.{end}")


def changing(tally: Tally, program: str, folder: str) -> None:
    """A trace that changes while it is judged is not accepted: nobody knows what the verdict is of. Nor is one where what stands beside it
    changes: that may be of another trace."""
    path = Path(folder, "a.trace")
    side, other = f"{path}.lines", Path(folder, "other")
    itself, beside = "it changed while it was judged", "the file beside it changed while it was judged"
    for what, change, error in (("grows", f"echo '0 read : b' >> '{path}'", itself),
                                ("is written over", f"cat '{other}' > '{path}'", itself), ("is cut", f": > '{path}'", itself),
                                ("is replaced", f"mv '{other}' '{path}'", itself), ("is removed", f"rm '{path}'", itself),
                                ("is replaced with its side", f"echo '3 c.py:9' >> '{side}'; mv '{other}' '{path}'", itself),
                                ("has its side written over", f"printf '3\\n3 c.py:9\\n' > '{side}'", beside),
                                ("has its side replaced", f"mv '{other}' '{side}'", beside),
                                ("has its side removed", f"rm '{side}'", beside)):
        judge_it = script(Path(folder, "slow"), f"{VERSION}'{program}' \"$@\"\nstatus=$?\nsleep 0.02\n{change}\nexit $status\n")
        for more in [], ["--sshlogin", ":"], ["--junit", f"{folder}/judged.xml"]:
            write(folder, {"a.trace": "0 ins a 0 : a|0 read :"})
            Path(side).write_text("4\n3 t.py:7\n")
            other.write_text("trace 1\nreplicas 1\n0 ins b 0 : b\n")
            got = judge(judge_it, ["--json", *more, str(path)])
            row = json.loads(got.out)
            tally.check(f"changing: one that {what} {more}", got.status == 2 and (row["verdict"], row["error"]) == ("failed", error)
                        and got.err.decode() == f"domepeeler-judge-many: {path}: {error}\n", got)
            told = [(fault.tag, fault.text) for fault in xml.parse(more[1]).getroot().find("testsuite/testcase")] if more[:1] == ["--junit"] else []
            tally.check(f"changing: JUnit of one that {what}", told in ([], [("error", error)]), told)
    judge_it = script(Path(folder, "slow"), f"{VERSION}'{program}' \"$@\"\nstatus=$?\necho 9 > '{side}'\nexit $status\n")
    Path(side).unlink(missing_ok=True)
    got = judge(judge_it, [str(path)])
    tally.check("changing: one that gets a side", got.status == 2 and got.err.decode() == f"domepeeler-judge-many: {path}: {beside}\n", got)


# What is told of, each with what stands beside it; of these the last one is judged last.
TOLD_OF = {"a.trace": ("0 reads :", "3\n"), "b.trace": ("0 ins x 0 : x|0 read :", "4\nnote seed 17\n3 t.py:7\n4 t.py:8\n"),
           "c.trace": ("0 ins a 0 : a|1 ins b 0 : b|0 recv 1 1|1 recv 0 1|0 read : a b|1 read : b a", "8\n7 t.py:9\n"),
           "z.trace": ("0 ins a 0 : a", "3\n")}
# What stands there afterwards, of as many lines, so that what stands beside it fits too.
INSTEAD = {"a.trace": ("0 rids :", "3\n"), "b.trace": ("0 ins y 0 : y|0 read :", "4\nnote seed 99\n3 c.py:1\n4 c.py:2\n"),
           "c.trace": ("0 ins c 0 : c|1 ins d 0 : d|0 recv 1 1|1 recv 0 1|0 read : c d|1 read : d c", "8\n7 c.py:3\n")}


def write_both(folder: str, traces: dict) -> None:
    """Traces, and what stands beside each."""
    write(folder, {name: entries for name, (entries, _) in traces.items()})
    for name, (_, side) in traces.items():
        Path(folder, f"{name}.lines").write_text(side)


def told_of_what_was_judged(tally: Tally, program: str, folder: str) -> None:
    """What is told of a trace is of the bytes that were judged, though the file is another one, or gone, when the table is printed: here
    from the time on when the last trace is judged. Where it was judged by GNU parallel, it is read behind that, and then it has changed."""
    place, counted = f"{folder}/traces", Path(folder, "counted")
    names, junit_file = list(TOLD_OF), f"{folder}/judged.xml"
    changes = {"nothing": ":", "written over": f"cp '{folder}'/instead/* '{place}'", "replaced": f"mv '{folder}'/instead/* '{place}'",
               "removed": f"rm '{place}'/[abc].*", "folders instead": f"rm '{place}'/[abc].*; mkdir '{place}/a.trace' '{place}/b.trace.lines'"}
    wanted = None
    for what, change in changes.items():
        judge_it = script(Path(folder, "changing"), f"{VERSION}case \"$*\" in *--workers*) echo >> '{counted}';; esac\n"
                          f"[ $(wc -l < '{counted}') -lt {len(names)} ] || {{ {change}; }} 2> /dev/null\nexec '{program}' \"$@\"\n")
        for form in [], ["--json"], ["--sshlogin", ":"]:
            shutil.rmtree(place, ignore_errors=True)
            write_both(place, TOLD_OF)
            write_both(f"{folder}/instead", INSTEAD)
            counted.write_text("")
            got = judge(judge_it, ["--jobs", "1", *form, "--junit", junit_file, place])
            told = (got.status, re.sub(r'"seconds": [-\d.e]+|\b\d+\.\d{3}\b', "", got.out.decode()), got.err.decode(),
                    re.sub(r' time="[^"]*"', "", Path(junit_file).read_text()))
            if form[:1] == ["--sshlogin"]:
                said = got.err.decode().splitlines()
                is_right = said[0].endswith(": finder: line 3: shape") if what == "nothing" else said == [
                    f"domepeeler-judge-many: {place}/{name}: it changed while it was judged" for name in names[:3]]
                tally.check(f"told of what was judged: {what}, by GNU parallel", got.status == 2 and is_right, got)
            elif what == "nothing":
                wanted = (wanted or {}) | {str(form): told}
                tally.check(f"told of what was judged: {form}", got.status == 2 and "line 3 is: 0 reads :" in told[2] and all(
                    words in told[3] for words in ("  line 4: t.py:8\n", "seed 17", "[b] before [a]: ", "0 reads :")), told)
            else:
                tally.check(f"told of what was judged: {what} {form}", told == wanted[str(form)], (told, wanted[str(form)]))


def explained_once(tally: Tally, program: str, folder: str) -> None:
    """`explain` reads the trace and what stands beside it once, before it asks the program; where they change just then, it says so."""
    path = f"{folder}/b.trace"
    write_both(folder, TOLD_OF)
    wanted = run(EXPLAIN, ["--program", program, path])
    tally.check("explained once: with places and notes", wanted.status == 1 and b"line 4: t.py:8" in wanted.out and b"seed 17" in wanted.out, wanted)
    for what, change in (("written over", f"cp '{folder}'/instead/* '{folder}'"), ("replaced", f"mv '{folder}'/instead/* '{folder}'"),
                         ("removed", f"rm '{folder}'/[abc].*")):
        write_both(folder, TOLD_OF)
        write_both(f"{folder}/instead", INSTEAD)
        judge_it = script(Path(folder, "changing"), f"{VERSION}{{ {change}; }} 2> /dev/null\nexec '{program}' \"$@\"\n")
        tally.same(f"explained once: {what} while it is judged", run(EXPLAIN, ["--program", judge_it, path]), wanted)
    usual = files.side_of
    for what, change in (("trace", lambda: Path(path).write_text("trace 1\nreplicas 1\n")), ("side", lambda: Path(f"{path}.lines").write_text("3\n"))):
        write_both(folder, TOLD_OF)
        files.side_of = lambda name: (usual(name), change())[0]
        try:
            told = files.read_both(path)
        except files.Unread as error:
            told = str(error)
        files.side_of = usual
        tally.check(f"explained once: its {what} changes while they are read", told == "it changed while it was read", told)


def no_entries(tally: Tally, program: str, folder: str) -> None:
    """Traces of which none has an entry are no pass, for nothing was judged; beside another one they are warned of."""
    for name, entries in ("a", ""), ("b", ""):
        Path(folder, f"{name}.trace").write_text(f"trace 1\nreplicas 2\n{entries}")
    told = b"domepeeler-judge-many: none of these traces has an entry, so nothing was judged\n"
    for words in [folder], ["--json", folder], [f"{folder}/a.trace"], ["--weak", "--junit", f"{folder}/judged.xml", folder]:
        got = judge(program, words)
        tally.check(f"no entries: {words[:-1]}", got.status == 2 and got.err.endswith(told) and got.err.count(b"warning: nothing was recorded") in (1, 2), got)
    write(folder, {"c.trace": "0 read :"})
    got = judge(program, [folder])
    tally.check("no entries: beside a trace with one", got.status == 0 and told not in got.err and got.err.count(b"warning: nothing was recorded") == 2, got)


def no_files(tally: Tally, program: str, folder: str) -> None:
    """A pipe and a device under a trace's name, or beside one, don't hang, and what is longer than a trace can be is not read."""
    write(folder, {"a.trace": "0 ins a 0 : a", "b.trace": "0 ins a 0 : a"})
    os.mkfifo(f"{folder}/pipe.trace")
    os.symlink("/dev/zero", f"{folder}/device.trace")
    with open(f"{folder}/long.trace", "wb") as file:
        file.truncate(8 << 30)
    os.symlink(f"{folder}/missing", f"{folder}/nothing.trace")
    os.mkfifo(f"{folder}/a.trace.lines")
    os.symlink("/dev/zero", f"{folder}/b.trace.lines")
    told = {"pipe": "it is no regular file", "device": "it is no regular file", "nothing": "No such file or directory",
            "long": "it has 8,589,934,592 bytes, and a trace has at most 152,305,684"}
    done = subprocess.run(["sh", "-c", 'ulimit -v 4000000; exec "$@"', "sh", TOOL, "--program", program, "--json", folder], capture_output=True,
                          text=True, timeout=60)
    rows = {Path(row["file"]).stem: (row["verdict"], row.get("error")) for row in map(json.loads, done.stdout.splitlines())}
    tally.check("no files: each is told of, and the rest is judged", done.returncode == 2 and rows == dict.fromkeys("ab", ("accepted", None)) | {
        name: ("unread", f"cannot be read: {why}") for name, why in told.items()}, done)
    for name in "ab":
        warned = f"{folder}/{name}.trace.lines can't be read (it is no regular file), so nothing says whether the trace is whole"
        got = subprocess.run([EXPLAIN, "--program", program, f"{folder}/{name}.trace"], capture_output=True, text=True, timeout=60)
        tally.check("no files: a pipe or a device beside a trace", f"{folder}/{name}.trace: warning: {warned}\n" in done.stderr
                    and got.returncode == 0 and f"\n  {warned}\n" in got.stdout, (done.stderr, got))
    for name, why in told.items():
        got = subprocess.run([str(ROOT / "tools" / "explain"), "--program", program, f"{folder}/{name}.trace"], capture_output=True, text=True, timeout=60)
        tally.check(f"no files: explain {name}", (got.returncode, got.stdout, got.stderr) == (
            2, "", f"domepeeler-explain: cannot read {folder}/{name}.trace: {why}\n"), got)
    endless = subprocess.run(["sh", "-c", f"head -c 153000000 /dev/zero | {ROOT / 'tools' / 'explain'} --program {program} -"], capture_output=True, timeout=60)
    tally.check("no files: too long a standard input", endless.returncode == 2 and b"standard input has more than 152,305,684 bytes" in endless.stderr, endless)


def overwriting(tally: Tally, program: str, folder: str) -> None:
    """Nothing is written over what is read, by whatever name, nor twice into one file; and what is written appears whole or not at all."""
    write(folder, {"a.trace": "0 ins a 0 : a|0 read :"})
    path, text = f"{folder}/a.trace", Path(folder, "a.trace").read_bytes()
    Path(f"{path}.lines").write_text("4\n")
    os.symlink(path, f"{folder}/link")
    os.link(path, f"{folder}/same")
    explain = str(ROOT / "tools" / "explain")
    for output in path, f"{folder}/./a.trace", f"{folder}/link", f"{folder}/same", f"{path}.lines":
        for words in [explain, "--small", output, path], [explain, "--html", output, path], [explain, "--svg", output, path], [TOOL, "--junit", output, folder]:
            got = subprocess.run([words[0], "--program", program, *words[1:]], capture_output=True, text=True)
            told = f"{name_of(words[0])}: {output} is read, so it is not written to\n"
            tally.check(f"overwriting: {words[1]} {output}", (got.returncode, got.stdout, got.stderr) == (2, "", told), got)
    os.mkfifo(f"{folder}/piped.lines")
    got = subprocess.run([explain, "--program", program, "--small", f"{folder}/piped", path], capture_output=True, text=True, timeout=60)
    tally.check("overwriting: a pipe beside the small trace", (got.returncode, got.stdout, got.stderr) == (
        2, "", f"domepeeler-explain: cannot write {folder}/piped.lines: it is no regular file\n") and not os.path.exists(f"{folder}/piped"), got)
    os.unlink(f"{folder}/piped.lines")
    for option in "--small", "--html", "--svg":
        with open(path, "rb") as given:
            got = subprocess.run([explain, "--program", program, option, path, "-"], stdin=given, capture_output=True, text=True)
        tally.check(f"overwriting: {option} over standard input", (got.returncode, got.stdout, got.stderr) == (
            2, "", f"domepeeler-explain: {path} is read, so it is not written to\n"), got)
    for words in ["--html", "--small"], ["--svg", "--html"], ["--small", "--svg"]:
        got = subprocess.run([explain, "--program", program, words[0], f"{folder}/out", words[1], f"{folder}/../{Path(folder).name}/out", path],
                             capture_output=True, text=True)
        tally.check(f"overwriting: {words} into one file", got.returncode == 2 and got.stderr.endswith(" is to be written twice\n") and not got.stdout, got)
    got = subprocess.run([explain, "--program", program, "--html", f"{folder}/out.lines", "--small", f"{folder}/out", path], capture_output=True)
    tally.check("overwriting: what stands beside the small trace", got.returncode == 2 and not got.stdout, got)
    tally.check("overwriting: all is as it was", Path(path).read_bytes() == text and sorted(os.listdir(folder)) == ["a.trace", "a.trace.lines", "link", "same"],
                os.listdir(folder))
    log = Path(folder, "pads.log")
    shutil.copy(ROOT / "examples/log/pads.log", log)
    for trace in log, Path(folder, ".", "pads.log"):
        got = subprocess.run([sys.executable, ROOT / "examples/log/convert.py", log, trace], capture_output=True, text=True, env={**os.environ, "PYTHONPATH": str(ROOT / "recorders")})
        tally.check(f"overwriting: convert.py {trace}", (got.returncode, got.stdout, got.stderr) == (2, "", "convert.py: the trace would be written over the log\n")
                    and log.read_bytes() == (ROOT / "examples/log/pads.log").read_bytes(), got)
    beside = Path(folder, "beside.trace.lines")
    beside.symlink_to(log)
    got = subprocess.run([sys.executable, ROOT / "examples/log/convert.py", log, Path(folder, "beside.trace")], capture_output=True, text=True,
                         env={**os.environ, "PYTHONPATH": str(ROOT / "recorders")})
    tally.check("overwriting: convert.py, what stands beside the trace", got.returncode == 2 and log.read_bytes() == (ROOT / "examples/log/pads.log").read_bytes(), got)
    beside.unlink()
    log.unlink()
    for name, other in ("0", "trace 1\nreplicas 1\n0 ins b 0 : b\n"), ("1", "trace 2\nreplicas 1\n0 view :\n"):  # as in `--junit *.trace`
        first = Path(folder, f"{name}.trace")
        first.write_text(other)
        for words in [explain, "--small", first, path], [explain, "--html", first, path], [explain, "--svg", first, path], [TOOL, "--junit", first, path]:
            got = subprocess.run([words[0], "--program", program, *words[1:]], capture_output=True, text=True)
            tally.check(f"overwriting: another trace, {words[1]} {name}", (got.returncode, got.stdout, got.stderr, first.read_text()) == (
                2, "", f"{name_of(words[0])}: {first} is a trace{' that --small did not write' * (words[1] == '--small')}, so it is not written to\n", other), got)
        first.unlink()
    old = Path(folder, "old.html")
    old.write_text("old")
    old.chmod(0o640)
    for words in [explain, "--html", str(old), path], [TOOL, "--junit", str(old), path]:
        limited = subprocess.run(["sh", "-c", 'ulimit -f 1; trap "" XFSZ; exec "$@"', "sh", words[0], "--program", program, *words[1:]], capture_output=True)
        tally.check(f"overwriting: what can't be written whole, {words[1]}", limited.returncode == 2 and b"cannot write" in limited.stderr
                    and old.read_text() == "old" and sorted(os.listdir(folder)) == ["a.trace", "a.trace.lines", "link", "old.html", "same"],
                    (limited, os.listdir(folder)))
    cycle, unmade = str(ROOT / "examples" / "libinfinity_three_way_cycle.trace"), Path(folder, "unmade")
    for option, target in ("--svg", old), ("--small", unmade):
        limited = subprocess.run(["sh", "-c", 'ulimit -f 0; trap "" XFSZ; exec "$@"', "sh", explain, "--program", program, option, str(target), cycle], capture_output=True)
        tally.check(f"overwriting: what can't be written whole, {option}", limited.returncode == 2 and b"cannot write" in limited.stderr and old.read_text() == "old"
                    and sorted(os.listdir(folder)) == ["a.trace", "a.trace.lines", "link", "old.html", "same"], (limited, os.listdir(folder)))
    subprocess.run([explain, "--program", program, "--html", str(old), path], capture_output=True)
    own = script(Path(folder, "own"), f"{VERSION}exec '{program}' \"$@\"\n")
    for words in *([explain, option, own, path] for option in ("--small", "--html", "--svg")), [TOOL, "--junit", own, path]:
        got = subprocess.run([words[0], "--program", own, *words[1:]], capture_output=True, text=True)
        told = f"{name_of(words[0])}: {own} is read, so it is not written to\n"
        tally.check(f"overwriting: the program, {words[1]}", (got.returncode, got.stdout, got.stderr) == (2, "", told) and os.access(own, os.X_OK), got)
    tally.check("overwriting: the file's mode stays", old.read_text().startswith("<!DOCTYPE html>") and old.stat().st_mode & 0o777 == 0o640)


def odd_names(tally: Tally, program: str, folder: str) -> None:
    """A file's name writes no line of its own and sends nothing to a terminal: what can't be printed is shown."""
    names = {"x\n::error::forged.trace": "x\\n::error::forged.trace", "y\x1b[31m.trace": "y\\x1b[31m.trace",
             "z\udcff\u2028.trace": "z\\xff\\u2028.trace"}
    write(folder, {name: "0 ins a 0 : a|0 read :" for name in names})
    write(folder, {"w\r.trace": "0 reads :"})
    Path(folder, "crlf").mkdir()
    Path(folder, "crlf", "x\n::error::forged.trace").write_bytes(b"trace 1\r\nreplicas 1\r\n")
    for words in [TOOL, f"{folder}/crlf"], [EXPLAIN, f"{folder}/crlf/x\n::error::forged.trace"]:
        got = subprocess.run([words[0], "--program", program, *words[1:]], capture_output=True, text=True)
        tally.check(f"odd names: {Path(words[0]).name}: what mends such a file", got.returncode == 2 and "\n::error" not in got.stdout + got.stderr
                    and "\n  this mends it: tr -d '\\r' < FILE > mended.trace\n" in got.stderr, got)
    shutil.rmtree(f"{folder}/crlf")
    got = judge(program, [folder])
    tally.check("odd names: the table", [cells(line)[0] for line in got.out.decode().splitlines()[1:-1]] == [
        f"{folder}/{name}" for name in ["w\\r.trace", *names.values()]], got)
    tally.check("odd names: messages", got.status == 2 and got.err.startswith(f"domepeeler-judge-many: {folder}/w\\r.trace: finder: line 3: shape\n".encode())
                and b"\r" not in got.err, got)
    for name, shown in names.items():
        page = f"{folder}/page.html"
        got = subprocess.run([str(ROOT / "tools" / "explain"), "--program", program, "--html", page, "--small", f"{folder}/{name}.small",
                              f"{folder}/{name}"], capture_output=True)
        tally.check(f"odd names: {shown} explained", got.returncode == 1 and f"{folder}/{shown}.small (".encode() in got.stdout
                    and not re.search(rb"^::", got.stdout, re.MULTILINE) and b"\x1b" not in got.stdout, got)
        tally.check(f"odd names: {shown} on the page", shown in Path(page).read_text(), shown)
        missing = subprocess.run([str(ROOT / "tools" / "explain"), "--program", program, f"{folder}/no{name}"], capture_output=True, text=True)
        tally.check(f"odd names: {shown} missing", missing.stderr == f"domepeeler-explain: cannot read {folder}/no{shown}: No such file or directory\n", missing)


def no_shell(tally: Tally, program: str, folder: str) -> None:
    """No shell runs a name: not here, nor where GNU parallel begins it, nor in CI's script or that of a cluster."""
    place, names = Path(folder, "place"), ["$(touch pwned).trace", "`touch pwned`.trace", "; touch pwned;.trace", "' \"& touch pwned &.trace", "| touch pwned.trace"]
    write(str(place), {f"night/part0/{name}": "0 ins a 0 : a|0 read :" for name in names})
    subprocess.run([ROOT / "tools" / "install", f"{folder}/installed"], check=True, stdout=subprocess.DEVNULL, env=os.environ | {"DOMEPEELER": program})
    here = os.environ | {"DOMEPEELER": program, "PATH": f"{folder}/installed/bin:{os.environ['PATH']}", "SLURM_ARRAY_TASK_ID": "0"}
    for words, status in (([TOOL, "night"], 1), ([TOOL, "--sshlogin", ":", "night"], 1), ([EXPLAIN, "--small", "$(touch pwned)", f"night/part0/{names[0]}"], 1),
                          (["python3", str(ROOT / "examples/ci/judge_recordings.py"), "night"], 1), (["sh", str(ROOT / "examples/ci/slurm_array.sh")], 0)):
        done = subprocess.run(words, cwd=place, capture_output=True, text=True, env=here)
        tally.check(f"no shell runs a name: {words}", done.returncode == status and not list(Path(folder).rglob("pwned")), done)


def one_way_to_show(tally: Tally, program: str, folder: str) -> None:
    """A name is shown in one way: by the tools, in JSON as `shown`, and by merge.py, which people copy alone and record.py takes it from. No
    other script has a way of its own."""
    import merge
    from explaining import files
    marks = ["a", "é", "##[", "##vso[", "\n", "\x1b", "\x7f", "\u2028", "\udcff", ":", "#", " ", "\t", "\\", "\U0001f600", "\x80"]
    names = ["".join(some) for length in range(5) for some in product(marks, repeat=length)]
    for name, told in (("a ##[add-mask]b", "a \\x23#[add-mask]b"), ("##vso[x]##[y]", "\\x23#vso[x]\\x23#[y]"), ("a ## b", "a ## b"), ("## b", "\\x23# b")):
        tally.check(f"one way to show: {name}", files.shown(name) == told, files.shown(name))
    tally.check("one way to show: merge.py", len(names) > 40_000 and all(merge.shown(name) == files.shown(name) for name in names))
    write(folder, {"x\n::error::\x1b.trace": "0 ins a 0 : a|0 read :", "::warning::.trace": "0 reads :"})
    told = [json.loads(line) for line in judge(program, ["--json", folder]).out.decode().splitlines()]
    tally.check("one way to show: JSON", {(row["shown"], row["file"], row.get("error")) for row in told} == {
        (f"{folder}/x\\n::error::\\x1b.trace", f"{folder}/x\n::error::\x1b.trace", None),
        (f"{folder}/::warning::.trace", f"{folder}/::warning::.trace", "finder: line 3: shape")}, told)
    scripts = [path for pattern in [*SCRIPTS, *IMPORTED, "recorders/*/*.py", "examples/*/*.py"] for path in ROOT.glob(pattern)]
    own = {path.name for path in scripts if "isprintable()" in path.read_text() and "0xdc00" in path.read_text()}
    tally.check("one way to show: no other", own == {"files.py", "merge.py"}, own)


def odd_words(tally: Tally, program: str, folder: str) -> None:
    """Nor does a word that a tool does not take, as `*` hands on a name."""
    word, shown = "x\n::error::\x1b[31mforged", "x\\n::error::\\x1b[31mforged"
    merge, record = str(ROOT / "recorders" / "merge.py"), str(ROOT / "recorders" / "engines" / "record.py")
    for words, told in (([TOOL, folder, f"--{word}"], f"unrecognized arguments: --{shown}"), ([EXPLAIN, "a.trace", word], f"unrecognized arguments: {shown}"),
                        ([EXPLAIN, "a.trace", "--delivered", word], f"argument --delivered: {shown} is no range of lines, as 41-46"),
                        ([merge, "a.log", f"--{word}"], f"unrecognized arguments: --{shown}"),
                        ([record, "list_crdt", program, word], f"unrecognized arguments: {shown}"),
                        ([record, "list_crdt", program, "--sessions", word], f"argument --sessions: {shown} is no number from 1 on")):
        done = subprocess.run(words, capture_output=True, text=True)
        tally.check(f"odd words: {Path(words[0]).name}: {told}", done.returncode == 2 and not done.stdout
                    and done.stderr.endswith(f": error: {told}\n"), done)


def converted(tally: Tally, program: str, folder: str) -> None:
    """The example that makes a trace of a log ends with 2 and one line, whatever the log and its name are; and judges nothing."""
    script, odd = str(ROOT / "examples/log/convert.py"), os.path.join(folder, "x\n::error::\x1b[31m.log")
    here = {**os.environ, "PYTHONPATH": str(ROOT / "recorders")}
    shown = f"{folder}/x\\n::error::\\x1b[31m.log"
    os.mkfifo(f"{folder}/pipe.log")
    Path(f"{folder}/bytes.log").write_bytes(b"\xff\n")
    for log, lines, told in ((odd, "no JSON\n", f"{shown}:1: Expecting value"), (odd, '{"pad": 0}\n', f"{shown}:1: 'id'"), (odd, "[]\n", f"{shown}:1: list indices"),
                             (odd, '{"pad": 7, "id": "a", "did": "got", "shows": []}\n', f"{shown}:1: no replica 7"), (f"{folder}/none.log", None, "[Errno 2] No such file"),
                             (f"{folder}/pipe.log", None, f"{folder}/pipe.log is no regular file"), (f"{folder}/bytes.log", None, "'utf-8' codec can't decode")):
        if lines is not None:
            Path(log).write_text(lines)
        done = subprocess.run([sys.executable, script, log, f"{folder}/made.trace"], capture_output=True, text=True, env=here, timeout=60)
        tally.check(f"convert.py: {told}", (done.returncode, done.stdout) == (2, "") and done.stderr.startswith(f"convert.py: {told}") and
                    all(line.isprintable() and line.startswith(("convert.py: ", "domepeeler: ")) for line in done.stderr.splitlines()) and not os.path.exists(f"{folder}/made.trace"), done)
    done = subprocess.run([sys.executable, script], capture_output=True, text=True, env=here)
    tally.check("convert.py: no words", (done.returncode, done.stderr) == (2, "convert.py: it takes two words: LOG TRACE\n"), done)
    done = subprocess.run([sys.executable, "-I", script, odd, f"{folder}/made.trace"], capture_output=True, text=True)
    tally.check("convert.py: no recorder", done.returncode == 2 and done.stderr.startswith("convert.py: put the recorder") and done.stderr.count("\n") == 1, done)


def asked_once(tally: Tally, program: str, folder: str) -> None:
    """The program is asked once for its version, and then once for each trace."""
    write(folder, {f"{number}.trace": "0 ins a 0 : a" for number in range(3)})
    counting = Path(folder, "counting")
    counting.write_text(f'#!/bin/sh\necho "$1" >> {folder}/asked\nexec {program} "$@"\n')
    counting.chmod(0o755)
    done = judge(str(counting), [folder])
    tally.check("the program is asked once for its version", done.status == 0 and sorted(Path(folder, "asked").read_text().split()) == ["--version", *["verdict"] * 3], done)


def names_like_commands(tally: Tally, program: str, folder: str) -> None:
    """A name, a place or a note that begins as a line that CI reads as a command is shown otherwise."""
    write(folder, {"::error::forged.trace": "0 ins a 0 : a|0 read :", "##[error]forged.trace": "0 reads :"})
    trace = Path(folder, "::error::forged.trace")
    Path(f"{trace}.lines").write_text("4\n3 ::add-mask::x\nnote ::stop-commands::x\n")
    told = {b"\\x3a:error::forged.trace", b"\\x23#[error]forged.trace"}
    for words in (), ("--json",):
        done = subprocess.run([TOOL, "--program", program, *words, "."], cwd=folder, capture_output=True)
        tally.check(f"names like commands: {words or 'the table'}", done.returncode == 2 and not CI_COMMAND.search(done.stdout + done.stderr), done)
        tally.check(f"names like commands: {words or 'the table'}: each is told", words or all(name in done.stdout for name in told), done)
    done = subprocess.run([str(ROOT / "tools" / "explain"), "--program", program, "--html", "::page.html", trace.name], cwd=folder, capture_output=True)
    tally.check("names like commands: explained", done.returncode == 1 and not CI_COMMAND.search(done.stdout + done.stderr)
                and b"\\x3a:stop-commands::x" in done.stdout and b"\\x3a:add-mask::x" in done.stdout, done)
    done = subprocess.run([sys.executable, str(ROOT / "recorders" / "merge.py"), "::warning::no.log"], cwd=folder, capture_output=True)
    tally.check("names like commands: merge.py", done.returncode == 2 and not CI_COMMAND.search(done.stdout + done.stderr), done)


def left_running(pids: list) -> list:
    """Which of the processes still run after some time, which a busy machine takes to end them."""
    until = time.monotonic() + 10
    while (left := [pid for pid in pids if is_running(pid)]) and time.monotonic() < until:
        time.sleep(0.02)
    return left


def stopped(tally: Tally, folder: str, other: str) -> None:
    """SIGTERM and SIGHUP end it, and what judges for it, or looks at a big trace: also where that has answered of the whole trace, and is
    asked of a beginning, and where GNU parallel has begun it. So does Ctrl-C, which a terminal sends to all of a group."""
    begun, lost, big = Path(other, "begun"), f"{folder}/lost.trace", f"{other}/big/1.trace"
    some_big(Path(other, "big"))
    hanging = f"echo $$ $PPID >> '{begun}'\nexec sleep 60\n"
    slow = script(Path(other, "slow"), VERSION + hanging)
    answer = '{"at":"$at","inserts":1,"operations":2,"replicas":1,"strong":false,"verdict":"contents","weak":false}'
    then_slow, then_slow_of_big = (script(Path(other, f"then_slow_{at}"), f"{VERSION}case \"$*\" in *--workers*) echo '{answer.replace('$at', at)}'; exit 1;; "
                                          f"esac\n{hanging}") for at in ("0.2", "1.1"))
    ways = [[TOOL, "--program", slow, "--jobs", "2", folder], [EXPLAIN, "--program", slow, lost], [TOOL, "--program", then_slow, lost],
            [TOOL, "--program", then_slow, "--junit", f"{other}/judged.xml", lost], [TOOL, "--program", then_slow_of_big, "--jobs", "2", big],
            [TOOL, "--program", slow, "--sshlogin", ":", folder]]
    interrupted_ways = [ways[-2], [*ways[-1], "--jobs", "1"]]
    for stop, words in [*((stop, words) for stop in (signal.SIGTERM, signal.SIGHUP) for words in ways), *((signal.SIGINT, words) for words in interrupted_ways)]:
        begun.write_text("")
        running = subprocess.Popen(words, stdout=subprocess.PIPE, stderr=subprocess.PIPE, start_new_session=True,
                                   preexec_fn=lambda: signal.signal(stop, signal.SIG_DFL))  # which what runs in the background may ignore
        until = time.monotonic() + 60
        while not begun.read_text().endswith("\n") and time.monotonic() < until:
            time.sleep(0.01)
        if stop == signal.SIGINT:
            time.sleep("--sshlogin" in words)  # GNU parallel has it too, and would leave running what it is just beginning
            os.killpg(running.pid, stop)
        else:
            running.send_signal(stop)
        out, err = running.communicate(timeout=30)
        tally.same(f"stopped: {stop.name}, {words}", Ended(running.returncode, out, err), Ended(-stop, b"", b""))
        left = left_running(begun.read_text().split())
        tally.check(f"stopped: {stop.name}, {words}: nothing runs on", left == [] and begun.read_text(), left)
    stopped_soon(tally, other)


# What makes each start of a process take long, where a tool loads it as Python's own module for sites.
SLOW_STARTS = """
import subprocess, time
usual = subprocess.Popen.__init__


def begin(process, *words, **given):
    usual(process, *words, **given)
    time.sleep(0.5)


subprocess.Popen.__init__ = begin
"""


def stopped_soon(tally: Tally, other: str) -> None:
    """It hears a signal while a thread starts a process for a beginning, and not only when all traces are judged; and waits for a thread that
    is about to begin."""
    about = ("import signal, sys, threading, time; sys.path.insert(0, sys.argv[1]); from explaining.commands import end_by\n"
             "late = threading.Thread(target=lambda: (time.sleep(0.1), print('ended', flush=True)))\n"
             "others, threading.enumerate = threading.enumerate(), lambda: [*others, late]\n"
             "threading.Timer(0.3, late.start).start()\nend_by(signal.SIGTERM)\n")
    got = run(sys.executable, ["-c", about, str(ROOT / "tools")])
    tally.same("stopped: a thread that is about to begin", got, Ended(-signal.SIGTERM, b"ended\n", b""))
    os.makedirs(f"{other}/site")
    Path(other, "site", "sitecustomize.py").write_text(SLOW_STARTS)
    write(f"{other}/many", {f"{i}.trace": "0 ins a 0 : a|0 read :" for i in range(20)})
    answer = '{"at":"0.2","inserts":1,"operations":2,"replicas":1,"strong":false,"verdict":"contents","weak":false}'
    quick = script(Path(other, "quick"), f"{VERSION}echo >> '{other}/asked'\necho '{answer}'\nexit 1\n")
    running = subprocess.Popen([TOOL, "--program", quick, "--jobs", "1", f"{other}/many"], stdout=subprocess.PIPE, stderr=subprocess.PIPE,
                               env=os.environ | {"PYTHONPATH": f"{other}/site"}, preexec_fn=lambda: signal.signal(signal.SIGTERM, signal.SIG_DFL))
    until = time.monotonic() + 60
    while not (Path(other, "asked").exists() and Path(other, "asked").stat().st_size > 1) and time.monotonic() < until:
        time.sleep(0.01)
    running.terminate()
    stopped_at = time.monotonic()
    out, err = running.communicate(timeout=60)
    tally.check("stopped soon: while a process is started for a beginning", (running.returncode, out, err) == (-signal.SIGTERM, b"", b"")
                and time.monotonic() - stopped_at < 5, (running.returncode, out, err, time.monotonic() - stopped_at))


def unknown_faults(tally: Tally, program: str, folder: str) -> None:
    """What nobody has thought of ends with 2, and not with Python's 1, which is a verdict: also while the tool is loaded. An older Python
    is told which one is needed."""
    with tempfile.TemporaryDirectory() as tools:
        shutil.copytree(ROOT / "tools", tools, dirs_exist_ok=True)
        for module, words in ("rows.py", "raise ValueError('not thought of')\n"), ("words.py", "import nowhere\n"), ("warnings.py", "def f(:\n"):
            path = Path(tools, "explaining", module)
            text = path.read_text()
            path.write_text(words)
            for tool, what in ("judge_many", folder), ("explain", f"{folder}/lost.trace"):
                got = subprocess.run([f"{tools}/{tool}", "--program", program, what], capture_output=True, text=True)
                is_touched = not (tool == "explain" and module == "rows.py")
                tally.check(f"unknown faults: {tool}, {module}", got.returncode == (2 if is_touched else 1) and (not is_touched or not got.stdout and got.stderr.startswith(
                    f"{name_of(tool)}: a fault of this tool, so nothing is said of a trace. Please report it with what follows:\nTraceback ")), got)
            path.write_text(text)
        for tool, what in ("judge_many", folder), ("explain", f"{folder}/lost.trace"):
            os.makedirs(f"{tools}/alone", exist_ok=True)
            shutil.copy(ROOT / "tools" / tool, f"{tools}/alone")
            got = run(f"{tools}/alone/{tool}", ["--program", program, what])
            tally.same(f"not installed whole: {tool}", got, Ended(
                2, b"", f"{name_of(tool)}: it can't be loaded, so nothing is judged: No module named 'explaining'\n".encode()))
        shutil.copytree(ROOT / "recorders", f"{tools}/recorders")
        Path(tools, "recorders", "engines", "random_sessions.py").write_text("import nowhere\n")
        for script in "properties/run.py", "engines/record.py":
            got = subprocess.run([sys.executable, f"{tools}/recorders/{script}", "list_crdt", program], capture_output=True, text=True)
            tally.check(f"unknown faults: {script}", got.returncode == 2 and not got.stdout and got.stderr.endswith("No module named 'nowhere'\n"), got)
        for tool in "judge_many", "explain":
            old = "import sys; sys.version_info = (3, 6, 8); sys.argv = ['x']; exec(compile(open(%r).read(), 'x', 'exec'))" % f"{tools}/{tool}"
            got = subprocess.run([sys.executable, "-c", old], capture_output=True, text=True)
            tally.check(f"an older Python: {tool}", (got.returncode, got.stdout, got.stderr) == (
                2, "", f"{name_of(tool)}: this needs Python 3.9 or later, and is run by 3.6\n"), got)


SCRIPTS = {"tools/judge_many": "domepeeler-judge-many", "tools/explain": "domepeeler-explain", "tools/draw_cycle.py": "draw_cycle.py",
           "recorders/merge.py": "merge.py", "recorders/engines/record.py": "record.py",
           "examples/ci/judge_recordings.py": "judge_recordings", "tools/package": "package", "recorders/properties/run.py": "run.py",
           "examples/log/convert.py": "convert.py"}
IMPORTED = ["tools/explaining/*.py", "tools/making_packages.py", "recorders/*.py", "recorders/engines/*.py", "recorders/python/domepeeler/*.py"]
# Commands that the oldest Python that is named runs as this one does.
MAIN_WAYS = [
    "{tools}/judge_many --json --junit junit.xml traces",
    "{tools}/judge_many --json --jobs 2 big; cat junit.xml | sed 's/ time=\"[0-9.]*\"//g'",
    "{tools}/explain --html 1.html --svg 1.svg --small 1.trace traces/long.trace; cat 1.html 1.svg 1.trace",
    "{tools}/explain traces/lost.trace", "{program} verdict --json traces/long.trace | {tools}/draw_cycle.py",
    "{recorders}/merge.py --output merged.trace 0.log 1.log; cat merged.trace merged.trace.lines",
    "{recorders}/engines/record.py list_crdt {program} --sessions 3 --keep kept; cat kept/*.trace",
    "{recorders}/engines/record.py mine.py {program} --sessions 3", "python3 {root}/examples/ci/judge_recordings.py traces; ls judged",
    "PYTHONPATH={recorders} python3 {root}/examples/log/convert.py {root}/examples/log/pads.log pads.trace; {tools}/explain pads.trace",
    "PYTHONPATH={recorders} python3 session.py; cat session.trace session.trace.lines"]
SESSION = """
from domepeeler import NotCausal, Recording
recording = Recording(3)
recording.insert(2, "a@1", 0, ["a@1"], "first")
recording.received_clock(1, 2, recording.clock(2))
recording.insert(1, "b", 1, ["a@1", "b"], "second")
try:
    recording.received_changes(0, ["second"])
except NotCausal as why:
    print(why)
recording.received_changes(0, ["first", "second"])
recording.note("seed 17")
recording.read(0, ["b"])
print(recording.judge(), recording.explain())
recording.save("session.trace")
"""


def pythons_here() -> dict:
    """Other versions of Python on this machine, by their numbers."""
    paths = [shutil.which(name) for name in ("python2.7", *(f"python3.{number}" for number in range(4, 10)))]
    paths += sorted(map(str, Path.home().glob(".pyenv/versions/*/bin/python")))
    found = {}
    for path in filter(None, paths):
        done = subprocess.run([path, "-c", "import sys; print('%d %d' % sys.version_info[:2])"], capture_output=True, text=True)
        if done.returncode == 0:
            found[tuple(map(int, done.stdout.split()))] = path
    return found


READ_OLD = """
import json, sys
for text in json.load(sys.stdin):
    try:
        compile(text.encode("utf-8"), "x", "exec")
        print("reads")
    except SyntaxError:
        print("refuses")
"""


def old_syntax(tally: Tally, old: str) -> None:
    """The scripts have nothing that a Python from 2.7 on can't read: it says which one is needed, and no syntax error. What looks for such
    parts finds each; where Python 2.7 is on the machine, it refuses them too, and reads what looks alike."""
    for what, text in NEWER.items():
        tally.check(f"old syntax: {what}", [part for part, _ in newer_parts(text)] == [what], newer_parts(text))
    for text in OLD:
        tally.check(f"old syntax: {text!r}", not newer_parts(text), newer_parts(text))
    for script in SCRIPTS:
        found = newer_parts((ROOT / script).read_text())
        tally.check(f"old syntax: {script}", not found, found)
    if old is None:
        print("Python 2.7 is not on this machine: the syntax of what it should read is looked at")
        return
    texts = [*list(NEWER.values())[:-2], *OLD]
    said = subprocess.run([old, "-c", READ_OLD], input=json.dumps(texts), capture_output=True, text=True)
    wanted = ["refuses"] * (len(NEWER) - 2) + ["reads"] * len(OLD)
    tally.check("old syntax: as Python 2.7 reads it", said.stdout.split() == wanted, list(zip(texts, said.stdout.split(), wanted)))


def pythons(tally: Tally, program: str, folder: str) -> None:
    """On Python 3.9 all runs as it does here; an older one is told by one line which one is needed. Where the machine has none, the syntax
    and the annotations are looked at."""
    here = pythons_here()
    old_syntax(tally, here.get((2, 7)))
    for version, path in sorted(here.items()):
        for script, name in SCRIPTS.items() if version < (3, 9) else ():
            got = run(path, [str(ROOT / script), "x"])
            told = f"{name}: this needs Python 3.9 or later, and is run by {version[0]}.{version[1]}\n"
            tally.same(f"Python {version[0]}.{version[1]}: {script}", got, Ended(2, b"", told.encode()))
    names = [path for pattern in [*SCRIPTS, *IMPORTED] for path in sorted(ROOT.glob(pattern))]
    tally.check("Python 3.9: files", len(names) > 35, names)
    for path in names:
        tree = ast.parse(path.read_text(), feature_version=(3, 9))
        annotated = [note for node in ast.walk(tree) for note in (getattr(node, "annotation", None), getattr(node, "returns", None))
                     if note]
        has_either = any(isinstance(part, ast.BinOp) for note in annotated for part in ast.walk(note))  # as `int | None`
        later = any(isinstance(node, ast.ImportFrom) and node.module == "__future__" for node in tree.body)
        tally.check(f"Python 3.9: {path.name}", later or not has_either, path)
    if (3, 9) not in here:
        print("Python 3.9 is not on this machine: its syntax alone is looked at")
        return
    ended = {}
    for version, path in ("3.9", here[3, 9]), ("here", sys.executable):
        place = Path(folder, version)
        write(str(place / "traces"), ACCEPTED | FAILING)
        some_big(place / "big")
        write(str(place), {"0.log": "0 ins a 0 : a|0 recv 1 1|0 read : a b"})
        Path(place, "1.log").write_text("trace 1\nreplicas 2\n1 ins b 0 : b\n")
        Path(place, "0.log").write_text(Path(place, "0.log").read_text().replace("replicas 1", "replicas 2"))
        Path(place, "mine.py").write_text("from list_crdt import ListCrdt as Engine\n")
        Path(place, "session.py").write_text(SESSION)
        os.mkdir(place / "bin")
        for name, target in (("python3", path), ("domepeeler", program), ("domepeeler-explain", ROOT / "tools/explain"),
                             ("domepeeler-judge-many", ROOT / "tools/judge_many")):
            os.symlink(target, place / "bin" / name)
        ended[version] = []
        for way in MAIN_WAYS:
            command = way.format(tools=ROOT / "tools", recorders=ROOT / "recorders", root=ROOT, program=program)
            done = subprocess.run(["sh", "-c", command], cwd=place, capture_output=True, text=True, stdin=subprocess.DEVNULL,
                                  env=os.environ | {
                "PATH": f"{place}/bin:{os.environ['PATH']}", "DOMEPEELER": program, "PYTHONDONTWRITEBYTECODE": "1"})
            ended[version].append((done.returncode, re.sub(r'"seconds": [-\d.e]+', "", done.stdout), done.stderr))
    for way, old, now in zip(MAIN_WAYS, *ended.values()):
        tally.check(f"Python 3.9: {way}", old == now and now[1] and "Traceback" not in old[2], (old, now))


def tasks(tally: Tally, program: str, folder: str) -> None:
    """The scripts of clusters succeed only where each trace has its line, whatever names its folder has."""
    subprocess.run([ROOT / "tools" / "install", f"{folder}/installed"], check=True, stdout=subprocess.DEVNULL, env=os.environ | {"DOMEPEELER": program})
    slurm = str(ROOT / "examples" / "ci" / "slurm_array.sh")
    command = re.search(r"        - \|\n((?:          .*\n)+)", (ROOT / "examples" / "ci" / "kubernetes_job.yml").read_text())[1].replace("cd /night", "cd night")
    kinds = {"slurm": (["sh", slurm], {"SLURM_ARRAY_TASK_ID": "0"}, "judged/0.jsonl"), "bash": (["bash", slurm], {"SLURM_ARRAY_TASK_ID": "0"}, "judged/0.jsonl"),
             "kubernetes": (["sh", "-c", command], {"JOB_COMPLETION_INDEX": "0"}, "night/judged/0.jsonl")}
    for kind, (words, variables, lines) in kinds.items():
        place = tempfile.mkdtemp(dir=folder)
        write(f"{place}/night/part0", ACCEPTED | FAILING)
        here = {"PATH": f"{folder}/installed/bin:{os.path.dirname(sys.executable)}:/usr/bin:/bin"} | variables
        done = subprocess.run(words, cwd=place, capture_output=True, text=True, env=here)
        tally.check(f"tasks: {kind}: all are judged", done.returncode == 0 and len(Path(place, lines).read_text().splitlines()) == 7, done)
        part = f"{place}/night/part0"
        write(place, {"other/elsewhere.trace": "0 ins a 0 : a", "night/part0/folder.trace/in\nit.Trace": "0 ins a 0 : a"})
        for target, name in ("deep", "again"), ("deep/er", "er"), (".", "round"), (f"{place}/other", "other"), ("lost.trace", "same.trace"):
            os.symlink(target, f"{part}/{name}")
        done = subprocess.run(words, cwd=place, capture_output=True, text=True, env=here)
        tally.check(f"tasks: {kind}: each real folder is judged once", done.returncode == 0 and len(Path(place, lines).read_text().splitlines()) == 10, done)
        stray(tally, kind, place, words, here)
        stranger = Path(folder, "stranger")
        stranger.mkdir(exist_ok=True)
        for what, text in (("a traceback", "import nowhere\n"), ("a tool that answers too little", "import sys\nprint('{}')\nsys.exit(1)\n"),
                           ("one that is killed", "import os\nos.kill(os.getpid(), 9)\n")):
            Path(stranger, "domepeeler-judge-many").write_text(f"#!{sys.executable}\n{text}")
            Path(stranger, "domepeeler-judge-many").chmod(0o755)
            done = subprocess.run(words, cwd=place, capture_output=True, text=True, env=here | {"PATH": f"{stranger}:{here['PATH']}"})
            tally.check(f"tasks: {kind}: {what}", done.returncode not in (0, 1), done)
        if AS_USERS:
            script(Path(stranger, "domepeeler-judge-many"), "exit 0\n")
            Path(place, lines).chmod(0o444)
            done = subprocess.run([*AS_USERS, *words], cwd=place, capture_output=True, text=True, env=here | {"PATH": f"{stranger}:{here['PATH']}"})
            tally.check(f"tasks: {kind}: lines of a run before that can't be written over", done.returncode == 2, done)
        shutil.rmtree(Path(place, lines).parent)
        Path(place, lines).parent.write_text("a file\n")
        done = subprocess.run(words, cwd=place, capture_output=True, text=True, env=here)
        tally.check(f"tasks: {kind}: nothing can be written", done.returncode == 2, done)
        shutil.rmtree(f"{place}/night")
        Path(place, lines).parent.unlink(missing_ok=True)
        done = subprocess.run(words, cwd=place, capture_output=True, text=True, env=here)
        tally.check(f"tasks: {kind}: no folder", done.returncode == 2, done)
        if kind == "kubernetes":  # which would find these where it is, and not where it ought to be
            write(f"{place}/part0", ACCEPTED)
            done = subprocess.run(words, cwd=place, capture_output=True, text=True, env=here)
            tally.check(f"tasks: {kind}: not in another folder", done.returncode == 2 and not Path(place, "judged").exists(), done)
        for is_there in False, True:
            for status in 0, 1:
                script(Path(stranger, "domepeeler-judge-many"), f"exit {status}\n")
                done = subprocess.run(words, cwd=place, capture_output=True, text=True, env=here | {"PATH": f"{stranger}:{here['PATH']}"})
                tally.check(f"tasks: {kind}: {'an empty' if is_there else 'no'} folder, and a tool that ends with {status}", done.returncode == 2, done)
            os.makedirs(f"{place}/night/part0", exist_ok=True)


def stray(tally: Tally, kind: str, place: str, words: list, here: dict) -> None:
    """A trace that lies in no task's folder fails task 0, which says which; other tasks judge what is theirs."""
    for name, is_stray in ("part99/last.trace", False), ("notes/seed.txt", False), ("part100/more.trace", True), ("beside.trace", True), ("part07/x.TRACE", True), (
            "x\n::error::forged \x1b[31m.trace", True):
        write(f"{place}/night", {name: "0 ins a 0 : a", "part7/x.trace": "0 ins a 0 : a"})
        for task, fails in ("0", is_stray), ("7", False):
            of_task = {key: task if key in ("SLURM_ARRAY_TASK_ID", "JOB_COMPLETION_INDEX") else value for key, value in here.items()}
            done = subprocess.run(words, cwd=place, capture_output=True, text=True, env=of_task)
            tally.check(f"tasks: {kind}: {name} beside the tasks' folders, task {task}", done.returncode == (2 if fails else 0) and
                        (re.search(rf"^no task judges (night|\.)/{re.escape(re.sub(r'[^ -~]', '?', name))}: is there a part behind 99\?\n$", done.stderr, re.MULTILINE) is not None) == fails
                        and "\n::" not in done.stderr and "\x1b" not in done.stderr, done)
        shutil.rmtree(f"{place}/night/part7")
        Path(place, "night", name).unlink()
    if kind != "kubernetes":
        for last, name, fails in ("9", "part9/x.trace", False), ("9", "part10/x.trace", True), ("", "part99/x.trace", False):
            write(f"{place}/night", {name: "0 ins a 0 : a"})
            done = subprocess.run(words, cwd=place, capture_output=True, text=True, env=here | ({"SLURM_ARRAY_TASK_MAX": last} if last else {}))
            tally.check(f"tasks: {kind}: {name} where the last task is {last or 'not known'}", done.returncode == (2 if fails else 0) and (
                f"no task judges night/{name}: is there a part behind 9?\n" in done.stderr) == fails, done)
            shutil.rmtree(f"{place}/night/{name.partition('/')[0]}")


def script_of_ci(tally: Tally, program: str, folder: str) -> None:
    """The script's folder holds what it wrote alone; its traces are never judged; a name that looks like an option is none; of failures
    that look alike the log has one line."""
    subprocess.run([ROOT / "tools" / "install", f"{folder}/installed"], check=True, stdout=subprocess.DEVNULL, env=os.environ | {"DOMEPEELER": program})
    path = os.pathsep.join([f"{folder}/installed/bin", *{os.path.dirname(shutil.which(tool)) for tool in ("python3", "sh")}])
    place, script = Path(folder, "place"), f"python3 {ROOT / 'examples' / 'ci' / 'judge_recordings.py'}"
    write(str(place), {"-x.trace": "0 ins a 0 : a|0 read :", "b.trace": "0 ins a 0 : a|0 read :|0 read : a", "c.trace": "0 ins a 0 : a|0 read : a a"})
    for name, lines in ("-x", 4), ("b", 5), ("c", 4):
        Path(place, f"{name}.trace.lines").write_text(f"{lines}\n4 t.py:{7 if name != 'c' else 9}\n")
    first = in_ci(str(place), path, f"{script} .", {})
    kept = sorted(os.listdir(place / "judged"))
    tally.check("script of CI: three failures, of which two look alike", first.returncode == 1 and first.stdout.count("\nIn your code\n") == 1
                and "\n  and 1 more that looks alike: b.trace\n" in first.stdout and "\nc.trace: contents 0.2: " in first.stdout
                and first.stdout.count("3 not accepted: ") == 1, first)
    again = in_ci(str(place), path, f"{script} .", {})
    tally.check("script of CI: a second run judges the same", again.stdout == first.stdout and sorted(os.listdir(place / "judged")) == kept, again)
    Path(place, "b.trace").unlink()
    Path(place, "b.trace.lines").unlink()
    in_ci(str(place), path, f"{script} .", {})
    tally.check("script of CI: what an earlier run left is gone", "3.html" in kept and "3.html" not in os.listdir(place / "judged"))
    Path(place, "judged", "mine.txt").write_text("mine\n")
    done = in_ci(str(place), path, f"{script} .", {})
    tally.check("script of CI: a folder with other files", (done.returncode, done.stdout, done.stderr) == (2, "", "judge_recordings: the folder judged holds "
                "what this script did not write (mine.txt): move it away\n") and Path(place, "judged", "1.html").exists(), done)
    Path(place, "judged", "mine.txt").unlink()
    write(str(place), {"mine/judged/1.trace": "0 ins a 0 : a", "mine/good/a.trace": "0 ins a 0 : a"})
    done = in_ci(f"{place}/mine", path, f"{script} good", {})
    tally.check("script of CI: a folder with traces of one's own", (done.returncode, done.stdout, done.stderr) == (2, "", "judge_recordings: the folder judged "
                "holds what this script did not write (1.trace): move it away\n") and Path(place, "mine", "judged", "1.trace").exists(), done)
    shutil.rmtree(place / "mine")
    Path(place, "judged", "9.trace").write_text("mine\n")
    done = in_ci(str(place), path, f"{script} .", {})
    tally.check("script of CI: a file of one's own that is named like its own", done.returncode == 2 and "(9.trace): move it away" in done.stderr
                and Path(place, "judged", "9.trace").read_text() == "mine\n", done)
    Path(place, "judged", "9.trace").unlink()
    made, odd = Path(place, "judged", ".made"), os.fsdecode(os.fsencode(place / "judged") + b"/\xff")
    before = in_ci(str(place), path, f"{script} .", {})
    made.write_bytes(made.read_bytes() + b"\xff\n")
    Path(odd).write_text("its own, by the list\n")
    done = in_ci(str(place), path, f"{script} .", {})
    tally.check("script of CI: a list of its files that is no UTF-8", (done.returncode, done.stdout, done.stderr) == (before.returncode, before.stdout, before.stderr)
                and not os.path.exists(odd), done)
    write(str(place), {"-rec/a.trace": "0 ins a 0 : a"})
    done = in_ci(str(place), path, f"{script} -rec", {})
    tally.check("script of CI: a folder like an option", done.returncode == 0 and done.stdout == "all recordings below -rec are accepted\n", done)
    shutil.rmtree(place / "-rec")
    done = in_ci(str(place), path, f"{script} judged", {})
    tally.check("script of CI: its own folder", done.returncode == 2 and "is where the pages go" in done.stderr, done)
    script_ended(tally, str(place), path, script, folder)
    odd_names_in_ci(tally, folder, path, script)
    write(str(place), {"apart/a.trace": "0 ins a 0 : a|1 ins b 0 : b"})
    done = in_ci(str(place), path, f"{script} apart --unequal", {"GITHUB_ACTIONS": "true"})
    tally.check("script of CI: unequal, where that fails", done.returncode == 1 and done.stdout.startswith(
        "::error file=apart/a.trace,title=apart/a.trace%3A accepted::accepted, but unequal in the end: the last lists of replicas 0 and 1 differ\n"), done)
    write(str(place), {"odd/a.trace": "0 inz a 0 : a", "odd/b.trace": "0 ins a 0 : a|0 read :"})
    done = in_ci(str(place), path, f"{script} odd", {})
    tally.check("script of CI: the first that has a verdict is explained whole", done.returncode == 2 and done.stdout.count("\nWhere to look\n") == 1 and
                "\nodd/b.trace: contents 0.2: " in done.stdout, done)
    for entries, left in ("0 ins a 0 : a", ""), ("0 read : a", "; the verdict on the lines that are left is `contents 0.1`"):
        write(str(place), {"cut/a.trace": entries})
        Path(place, "cut", "a.trace.lines").write_text("9\n")
        done = in_ci(str(place), path, f"{script} cut", {"GITHUB_ACTIONS": "true"})
        told = f"the trace may have been cut at a line's end: it has 3 lines, and cut/a.trace.lines says that 9 were saved{left}"
        tally.check(f"script of CI: a trace that is known to be cut{left}", done.returncode == 2 and done.stdout.startswith(
            f"::error file=cut/a.trace,title=cut/a.trace%3A failed::{told}\ncut/a.trace: {told}\n") and (
                "\ncontents 0.1: " if left else "\naccepted, ") in done.stdout, done)


    done = run(sys.executable, ["-c", UNCAUSAL.format(shown="[]"), str(ROOT / "recorders"), f"{place}/uncausal.trace", "true"])
    os.makedirs(f"{place}/early")
    for name in "uncausal.trace", "uncausal.trace.lines":
        os.replace(f"{place}/{name}", f"{place}/early/{name}")
    done = in_ci(str(place), path, f"{script} early", {"GITHUB_ACTIONS": "true"})
    told = f"{NEVER_CAME}; the verdict on the lines that were recorded is `accepted`"
    tally.check("script of CI: a session of which a call was refused", done.returncode == 2 and done.stdout.startswith(
        f"::error file=early/uncausal.trace,title=early/uncausal.trace%3A failed::{told}\nearly/uncausal.trace: {told}\n") and
        "all recordings are accepted" not in done.stdout, done)


def script_ended(tally: Tally, place: str, path: str, script: str, folder: str) -> None:
    """A signal ends the script, and what judges for it; where it can't say what came out, it does not end as if the editor had failed,
    or had not."""
    write(place, {"good/a.trace": "0 ins a 0 : a"})
    for what in "good", ".":
        for redirected, told in (">&-", "judge_recordings: standard output or standard error is closed\n"), (
                "> /dev/full", "judge_recordings: cannot write the output: No space left on device\n"):
            for unbuffered in "", "1":
                done = in_ci(place, path, f"{script} {what} {redirected}", {"PYTHONUNBUFFERED": unbuffered})
                tally.check(f"script of CI: {what} {redirected} {unbuffered}",
                            (done.returncode, done.stdout, done.stderr) == (2, "", told), done)
        done = in_ci(place, path, f"{script} {what} 2>&-", {})
        tally.check(f"script of CI: {what}, closed standard error", done.returncode in (2, int(what == ".")), done)
    for option, told in (("--version", "domepeeler-judge-many ended with status 0, and printed no recordings: "),
                         ("--junit=x.xml", "is given twice")):
        done = in_ci(place, path, f"{script} good {option}", {})
        tally.check(f"script of CI: {option}", done.returncode == 2 and "accepted" not in done.stdout and told in done.stderr, done)
    stranger = Path(folder, "stranger")
    stranger.mkdir()
    Path(stranger, "domepeeler-judge-many").write_text("#!/bin/sh\necho '{}'\nexit 1\n")
    Path(stranger, "domepeeler-judge-many").chmod(0o755)
    done = in_ci(place, f"{stranger}:{path}", f"{script} good", {})
    tally.check("script of CI: what nobody has thought of", done.returncode == 2 and not done.stdout and done.stderr.startswith(
        "judge_recordings: a fault of this script, so nothing is judged:\nTraceback "), done)
    row = '{"file": "good/a.trace", "shown": "good/a.trace", "verdict": "contents", "warnings": []}'
    for said, told in (("exit 0", "ended with status 0, and wrote no judged/junit.xml"), (f"echo '{row}'; exit 0", "ended with status 0, and wrote no judged/junit.xml"),
                       ("exit 1", "ended with status 1, and listed 0 recordings"), (f"echo '{row}'; exit 1", "ended with status 1, and wrote no judged/junit.xml")):
        Path(stranger, "domepeeler-judge-many").write_text(f"#!/bin/sh\n{said}\n")
        done = in_ci(place, f"{stranger}:{path}", f"{script} good", {})
        tally.check(f"script of CI: a tool that does no more than {said}", done.returncode == 2 and "accepted\n" not in done.stdout
                    and done.stderr == f"judge_recordings: domepeeler-judge-many {told}\n", done)
        shutil.rmtree(f"{place}/judged")
    explained_side_by_side(tally, place, path, script, folder)
    slow, begun = Path(folder, "slow"), Path(folder, "begun")
    slow.write_text(f"#!/bin/sh\n{VERSION}echo $$ >> '{begun}'\nexec sleep 60\n")
    slow.chmod(0o755)
    for stop in signal.SIGINT, signal.SIGTERM, signal.SIGHUP:
        begun.write_text("")
        running = subprocess.Popen([*script.split(), "good"], cwd=place, stdout=subprocess.PIPE, stderr=subprocess.PIPE,
                                   env={"PATH": path, "DOMEPEELER": str(slow)}, preexec_fn=lambda: signal.signal(stop, signal.SIG_DFL))
        until = time.monotonic() + 60
        while not begun.read_text().endswith("\n") and time.monotonic() < until:
            time.sleep(0.01)
        running.send_signal(stop)
        out, err = running.communicate(timeout=30)
        left = left_running(begun.read_text().split())
        tally.check(f"script of CI: stopped by {stop.name}", (running.returncode, out, err, left) == (-stop, b"", b"", []),
                    (running.returncode, out, err, left))


BEGINS_AS_IT_IS_STOPPED = """import sys
sys.path.insert(0, {folder!r})
import judge_recordings as script
from concurrent.futures import ThreadPoolExecutor
script.end_tools(ThreadPoolExecutor(1))
late = script.subprocess.Popen(["sh", "-c", "sleep 60"])
late.terminate()
print(late.wait(30))
"""


def explained_side_by_side(tally: Tally, place: str, path: str, script: str, folder: str) -> None:
    """Failures are explained as many at a time as there are processors, and told in the order of the table; a signal ends them all."""
    done = subprocess.run([sys.executable, "-c", BEGINS_AS_IT_IS_STOPPED.format(folder=str(ROOT / "examples" / "ci"))], capture_output=True, text=True)
    tally.check("script of CI: a tool that is begun as it is stopped is stopped too", done.stdout == f"{-signal.SIGTERM}\n", done)
    tools, begun = Path(folder, "waiting"), Path(folder, "explained")
    tools.mkdir()
    write(place, {f"failing/{name}.trace": "0 ins a 0 : a|0 read :" for name in "abcd"})
    wanted = min(2, len(os.sched_getaffinity(0)))
    waits = f"i=0; while [ $(wc -l < '{begun}') -lt {wanted} ] && [ $i -lt 600 ]; do sleep 0.1; i=$((i + 1)); done"
    for what, status in (f"{waits}; echo \"at $i\"", 1), ("exec sleep 60", -signal.SIGTERM):
        begun.write_text("")
        Path(tools, "domepeeler-explain").write_text(f"#!/bin/sh\necho $$ >> '{begun}'\n{what}\n")
        Path(tools, "domepeeler-explain").chmod(0o755)
        running = subprocess.Popen([*script.split(), "failing"], cwd=place, stdout=subprocess.PIPE, stderr=subprocess.PIPE, text=True,
                                   env={"PATH": f"{tools}:{path}"}, preexec_fn=lambda: signal.signal(signal.SIGTERM, signal.SIG_DFL))
        until = time.monotonic() + 60
        while begun.read_text().count("\n") < wanted and time.monotonic() < until:
            time.sleep(0.01)
        if status != 1:
            running.send_signal(signal.SIGTERM)
        out, err = running.communicate(timeout=90)
        left = left_running(begun.read_text().split())
        tally.check(f"script of CI: {wanted} are explained at a time, {status}", running.returncode == status and not left and (
            status != 1 or "at 600" not in out and out.startswith("failing/a.trace: at ") and "4 not accepted: " in out), (out, err, left))


# Of three replicas: a cycle of three, at the end of which all has arrived everywhere, or not; and with it what weak does not bear.
CYCLE = "0 ins x 0 : x|1 recv 0 1|2 recv 0 1|1 ins a 0 : a x|2 ins b 1 : x b|0 del x :|0 recv 1 1|0 recv 2 1|0 read : b a"
WEAK = {"alone.trace": f"{CYCLE}|1 recv 0 2|1 recv 2 1|1 read : b a|2 recv 0 2|2 recv 1 1|2 read : b a", "unequal.trace": CYCLE,
        "opposite.trace": f"{CYCLE}|1 recv 0 2|1 recv 2 1|1 read : a b|2 recv 0 2|2 recv 1 1|2 read : b a",
        "lost.trace": f"{CYCLE}|1 recv 0 2|1 recv 2 1|1 read : b", "right.trace": "0 ins a 0 : a|1 recv 0 1|2 recv 0 1|1 read : a|2 read : a"}
WEAK_ROWS = [("lost.trace", "contents", "-", "no", "14", "14"), ("opposite.trace", "refused", "2", "no", "14", "17"),
             ("unequal.trace", "weak holds, strong doesn't, unequal", "3", "yes", "-", "11"),
             ("alone.trace", "weak holds, strong doesn't", "3", "yes", "-", "17"), ("right.trace", "accepted", "-", "yes", "-", "7")]
UNEQUAL = "1 of those that pass is unequal: replicas end with different lists, a change never arrived, or a replica was not read at the end ({})"


def weak(tally: Tally, program: str, folder: str) -> None:
    """Where weak is enough, a trace passes of which weak holds and strong doesn't, and is counted by itself. A column says whether it holds."""
    write(folder, WEAK)
    got = judge(program, ["--weak", folder])
    lines = got.out.decode().splitlines()
    rows = [cells(line)[:6] for line in lines[:6]]
    tally.check("weak: the rows", rows == [("file", "verdict", "k", "weak", "fails at", "lines"), *(
        (f"{folder}/{name}", *rest) for name, *rest in WEAK_ROWS)], rows)
    Path(folder, "twice").mkdir()
    write(folder, {"twice/doubled.trace": "0 ins a 0 : a|0 ins a 0 : a a", "twice/unread.trace": "0 reads :"})
    got_twice = judge(program, ["--weak", f"{folder}/twice"])
    tally.check("weak: where no report says whether it holds", [cells(line)[3] for line in got_twice.out.decode().splitlines()[:3]] == [
        "weak", "-", "-"] and got_twice.status == 2, got_twice)
    shutil.rmtree(f"{folder}/twice")
    tally.check("weak: the counts", lines[6:] == ["5 traces: 1 accepted, 2 weak alone, 1 refused, 1 contents",
                                                  UNEQUAL.format("with --unequal these count as failures")], lines[6:])
    tally.check("weak: status 1, and warnings", got.status == 1 and got.err.decode().startswith(
        f"domepeeler-judge-many: {folder}/unequal.trace: warning: the last lists of replicas 0, 1 and 2 differ"), got)
    usual = judge(program, [folder])
    told = usual.out.decode()
    tally.check("weak: not asked for", usual.status == 1 and "weak" not in told and not usual.err and told.endswith(
        f"5 traces: 1 accepted, 3 refused, 1 contents\n{FIRST_FAULT.format(11, 'refused 3')}\n") and [cells(line)[1:5] for line in told.splitlines()[1:5]] == [
            ("refused", "3", "11", "11"), ("contents", "-", "11 (refused 3)", "14"), ("refused", "3", "11", "17"), ("refused", "2", "11 (refused 3)", "17")], usual)
    passing = [f"{folder}/{name}.trace" for name in ("alone", "right", "unequal")]
    got = judge(program, ["--weak", *passing])
    tally.check("weak: status 0 where none fails", got.status == 0 and b"\n3 traces: 1 accepted, 2 weak alone\n" in got.out, got)
    got = judge(program, ["--weak", "--failing", *passing])
    tally.check("weak: none to list", got.status == 0 and got.out.decode().splitlines() == [
        "3 traces: 1 accepted, 2 weak alone", UNEQUAL.format("with --unequal these count as failures")], got)
    got = judge(program, ["--weak", "--unequal", "--failing", *passing])
    tally.check("weak: unequal ones fail too", got.status == 1 and cells(got.out.decode().splitlines()[1])[:2] == (
        passing[2], "weak holds, strong doesn't, unequal") and UNEQUAL.format("counted as failures") in got.out.decode(), got)
    rows = [json.loads(line) for line in judge(program, ["--weak", "--json", folder]).out.decode().splitlines()]
    told = [(os.path.basename(row["file"]), row["verdict"], row["status"], row["report"]["verdict"], row.get("weak_alone"), row.get("unequal"))
            for row in rows]
    tally.check("weak: JSON keeps the verdict and the status", told == [
        ("lost.trace", "contents", 1, "contents", None, None), ("opposite.trace", "refused", 1, "refused", None, None),
        ("unequal.trace", "refused", 1, "refused", True, True), ("alone.trace", "refused", 1, "refused", True, None),
        ("right.trace", "accepted", 0, "accepted", None, None)], told)
    liar = Path(folder, "liar")
    liar.write_text(f"#!/bin/sh\n{VERSION}echo '{{\"verdict\":\"refused\",\"k\":3,\"weak\":true,\"steps\":[],\"operations\":99}}'\nexit 1\n")
    liar.chmod(0o755)
    got = judge(str(liar), ["--weak", passing[1]])
    tally.check("weak: a report on another trace", got.status == 2 and got.err.endswith(f": {OTHER_TRACE.format(liar)}\n".encode()), got)
    there = [json.loads(line) | {"seconds": 0} for line in judge(program, ["--weak", "--json", "--sshlogin", ":", folder]).out.decode().splitlines()]
    tally.check("weak: by GNU parallel", there == [row | {"seconds": 0} for row in rows], there)


def weak_junit(tally: Tally, program: str, folder: str) -> None:
    """A passed case says that strong doesn't hold; unequal ends and cut traces are no pass."""
    write(folder, WEAK)
    path = f"{folder}/judged.xml"
    for more, failures in ([], 2), (["--unequal"], 3):
        judge(program, ["--weak", *more, "--junit", path, folder])
        suite = xml.parse(path).getroot().find("testsuite")
        cases = {case.get("name"): case for case in suite.findall("testcase")}
        tally.check(f"weak: JUnit's counts {more}", (suite.get("failures"), suite.get("errors")) == (str(failures), "0"), suite.attrib)
        said = [(fault.tag, fault.text) for fault in cases["alone.trace"]]
        tally.check(f"weak: JUnit's passed case {more}", said == [("system-out", "weak holds, strong doesn't: this passes, as the weak list "
                    "specification alone is asked for; the verdict is `refused 3`\n")], said)
        first, = cases["unequal.trace"]
        begins = "weak holds, strong doesn't: this passes" if not more else "weak holds, strong doesn't, but unequal in the end: the last lists"
        tally.check(f"weak: JUnit's unequal case {more}", first.tag == ("failure" if more else "system-out") and first.text.startswith(begins)
                    and "the last lists of replicas 0, 1 and 2 differ" in first.text, first.text)
        first, = cases["opposite.trace"]
        tally.check(f"weak: JUnit's failed case {more}", first.tag == "failure" and first.get("message").startswith("refused 2: ") and
                    "Up to line 13 the weak specification holds; with line 14 the verdict is `refused 2`" in first.text, first.text)
    Path(folder, "alone.trace.lines").write_text("40\n")
    got = judge(program, ["--weak", "--junit", path, folder])
    suite = xml.parse(path).getroot().find("testsuite")
    tally.check("weak: a cut trace is no pass", got.status == 2 and b"1 weak alone, 1 refused, 1 contents, 1 failed" in got.out and
                f"{folder}/alone.trace: the trace may have been cut at a line's end".encode() in got.err and suite.get("errors") == "1", got)
    got = judge(program, ["--junit", path, f"{folder}/alone.trace"])
    tally.check("weak: a cut trace where strong is wanted", got.status == 2 and got.out.endswith(b"\n1 trace: 1 failed\n") and
                got.err.endswith(b"says that 40 were saved; the verdict on the lines that are left is `refused 3`\n"), got)


def weak_in_ci(tally: Tally, program: str, folder: str) -> None:
    """The script of CI passes the option on: what passes has no annotation, and what fails is explained where weak fails."""
    subprocess.run([ROOT / "tools" / "install", f"{folder}/installed"], check=True, stdout=subprocess.DEVNULL,
                   env=os.environ | {"DOMEPEELER": program})
    path = os.pathsep.join([f"{folder}/installed/bin", *{os.path.dirname(shutil.which(tool)) for tool in ("python3", "sh")}])
    project = project_of(folder, WEAK)
    script, github = "python3 ci/judge_recordings.py recordings --weak", {"GITHUB_ACTIONS": "true"}
    done = in_ci(project, path, script, github)
    told = [line for line in done.stdout.splitlines() if line.startswith("::error ")]
    tally.check("weak: annotations of GitHub", done.returncode == 1 and [line[:line.index("::", 2) + 13] for line in told] == [
        "::error file=recordings/lost.trace,title=recordings/lost.trace%3A contents::contents 1.",
        "::error file=recordings/opposite.trace,title=recordings/opposite.trace%3A refused::refused 2: "], told)
    tally.check("weak: explained where weak fails", "Up to line 13 the weak specification holds; with line 14 the verdict is `refused 2`" in
                Path(project, "judged/2.html").read_text() and done.stdout.endswith(
                    "2 failed: judged/junit.xml has them all, and judged/1.html is the page of the first\n"), done.stdout)
    done = in_ci(project, path, f"{script} --unequal", github)
    tally.check("weak: an unequal one in GitHub", "::error file=recordings/unequal.trace,title=recordings/unequal.trace%3A weak holds%2C strong "
                "doesn't::weak holds, strong doesn't, but unequal in the end: the last lists of replicas 0, 1 and 2" in done.stdout, done.stdout)
    for name in "lost", "opposite", "unequal":
        os.remove(f"{project}/recordings/{name}.trace")
    done = in_ci(project, path, script, github)
    tally.check("weak: all pass in CI", (done.returncode, done.stdout, done.stderr) == (
        0, "all recordings below recordings keep the weak list specification\n", ""), done)
    done = in_ci(project, path, script.replace(" --weak", ""), github)
    tally.check("weak: not asked for in CI", done.returncode == 1 and done.stdout.endswith(
        "1 not accepted: judged/junit.xml has them all, and judged/1.html is the page of the first\n"), done)


def some_big(folder: Path, count: int = 2) -> None:
    """Traces of over a megabyte: one is accepted, and of the others the last read lacks elements."""
    names = [f"element{i}" for i in range(600)]
    inserts = [f"0 ins {name} {place} : {' '.join(names[:place + 1])}" for place, name in enumerate(names)]
    write(str(folder), {f"{i}.trace": "|".join([*inserts, "1 recv 0 600", f"1 read : {' '.join(names[:600 - i])}"]) for i in range(count)})


def big_traces(tally: Tally, program: str, folder: str) -> None:
    """What is told of a big trace beside its verdict is found by other processes, one for each of several threads, with the same words. Where
    one is killed, as for want of memory, that is done without it."""
    some_big(Path(folder), 6)
    told = [[json.loads(line) | {"seconds": 0} for line in judge(program, ["--json", "--jobs", jobs, folder]).out.decode().splitlines()]
            for jobs in ("3", "1")]
    usual, looked = lookers.LOOK, Path(folder, "looked")
    lookers.LOOK = f"import os; open({str(looked)!r}, 'a').write(f'{{os.getpid()}}\\n'); {usual}"
    found = judges.judged_here(rows.Request(program), sorted(map(str, Path(folder).glob("*.trace"))), 3)
    lookers.LOOK = usual
    processes = set(looked.read_text().split())
    tally.check("big traces: by several other processes, which then end", 1 < len(processes) < 4 and str(os.getpid()) not in processes
                and not any(map(is_running, processes)) and len(found) == 6, processes)
    killing = script(Path(folder, "killing"), f"case \"$*\" in --version|*--workers*) ;; *) mkdir '{folder}/killed' 2> /dev/null && kill -9 $PPID;; esac\n"
                     f"exec '{program}' \"$@\"\n")
    oldest = pythons_here().get((3, 9), sys.executable)
    try:
        done = subprocess.run([oldest, TOOL, "--program", killing, "--json", "--jobs", "3", folder], capture_output=True, text=True, timeout=60)
    except subprocess.TimeoutExpired as error:
        done = subprocess.CompletedProcess(error.cmd, None, "", "it hangs")
    rows_without = [json.loads(line) | {"seconds": 0} for line in done.stdout.splitlines()]
    tally.check("big traces: where one that looks is killed", os.path.exists(f"{folder}/killed") and rows_without == told[0]
                and (done.returncode, done.stderr) == (1, ""), (done.returncode, done.stderr))
    beside = Path(folder, "beside")
    beside.mkdir()
    Path(beside, "token.py").write_text("import time\n\ntime.sleep(60)\n")
    Path(beside, "bisect.py").write_text("print('mine')\n")
    try:
        done = subprocess.run([TOOL, "--program", program, "--json", "--jobs", "3", "--", folder], capture_output=True, text=True, cwd=beside, timeout=40)
    except subprocess.TimeoutExpired as error:
        done = subprocess.CompletedProcess(error.cmd, None, "", "it hangs")
    tally.check("big traces: a module of the current folder has the name of one of Python's", done.stderr == "" and [
        json.loads(line) | {"seconds": 0} for line in done.stdout.splitlines()] == told[0], done.stderr)
    sizes = [path.stat().st_size for path in Path(folder).glob("*.trace")]
    tally.check("big traces: the same rows", told[0] == told[1] and [row["verdict"] for row in told[0]] == [*["contents"] * 5, "accepted"]
                and min(sizes) > 1 << 20, (told[0] and told[0][0].get("fails_at"), sizes))


SMALL_TRACES, BIG_TRACES = 2000, 8
MOST_OF_SMALL = 0.007  # seconds of the tool's own processor for a small trace: five times what it took


def own_seconds(program: str, words: list) -> tuple:
    return used_itself(str(ROOT / "tools"), "domepeeler-judge-many", "many_command", ["--program", program, *words])


def time_of_small(tally: Tally, program: str, folder: str) -> None:
    """Many small traces take little of the tool's own time, of its processor and not of the clock: four times as many take about four
    times as much."""
    write(folder, {f"{'few' if i < SMALL_TRACES // 4 else 'more'}/{i}.trace": "0 ins a 0 : a|1 recv 0 1|0 read : a|1 read : a" for i in range(SMALL_TRACES)})
    few, seconds_of_few = own_seconds(program, ["--jobs", "4", f"{folder}/few"])
    got, seconds = own_seconds(program, ["--jobs", "4", folder])
    tally.check("time of small traces: all are accepted", (got.status, few.status) == (0, 0) and got.out.endswith(
        f"\n{SMALL_TRACES} traces: {SMALL_TRACES} accepted\n".encode()), (got.out[-200:], got.err[-200:]))
    tally.check("time of small traces: of each", seconds / SMALL_TRACES < MOST_OF_SMALL, seconds)
    tally.check("time of small traces: no more where there are many", seconds < 5 * seconds_of_few, (seconds, seconds_of_few))


def time_of_big(tally: Tally, program: str, folder: str) -> None:
    """Eight big traces with four jobs are looked at by other processes: they take less of the tool's own processor than three with one job,
    where it looks at them itself."""
    for replica in range(16):
        names = [f"element.number.{place}.of.{replica:02d}" for place in range(5)]
        inserts = [f"{replica} ins {name} {place} : {' '.join(names[:place + 1])}" for place, name in enumerate(names)]
        with open(f"{folder}/0.trace", "a") as file:
            file.write("" if replica else "trace 1\nreplicas 16\n")
            file.writelines(f"{line}\n" for line in [*inserts, *[f"{replica} read : {' '.join(names)}"] * 4091])
    big = [f"{folder}/{number}.trace" for number in range(BIG_TRACES)]
    for name in big[1:]:
        os.link(big[0], name)
    alone, seconds_alone = own_seconds(program, ["--jobs", "1", *big[:3]])
    got, seconds = own_seconds(program, ["--jobs", "4", *big])
    tally.check("time of big traces: all are accepted", (alone.status, got.status) == (0, 0) and f"\n{BIG_TRACES} traces: {BIG_TRACES} accepted\n" in
                got.out.decode() and 7_000_000 < os.path.getsize(big[0]) < 9_000_000, (got.out[-300:], os.path.getsize(big[0])))
    tally.check("time of big traces: others look at them", seconds < seconds_alone, (seconds, seconds_alone))


def long_cycles(tally: Tally, program: str, folder: str) -> None:
    """A cycle of over a thousand steps is a row, and a failure of JUnit's with the same words as `explain` has, of a length that does not
    grow with it, in time that grows with the trace."""
    taken = []
    for n in 500, 1000, 2000:
        trace, k = Path(folder, f"{n}.trace"), 2 * n + 1
        trace.write_text(two_rings(n))
        got, seconds, megabytes = used([TOOL, "--program", program, "--json", "--junit", f"{folder}/judged.xml", str(trace)])
        row, lines = json.loads(got.out), trace.read_text().count("\n")
        tally.check(f"long cycle of {k}: its row", got.status == 1 and not got.err and (row["verdict"], row["k"], row["fails_at"], row["lines"]) == (
            "refused", k, lines, lines), got.err)
        failure = xml.parse(f"{folder}/judged.xml").getroot().find("testsuite/testcase/failure")
        said = run(str(ROOT / "tools" / "explain"), ["--program", program, str(trace)]).out.decode().replace(f"\n{HINT}\n", "")
        tally.check(f"long cycle of {k}: JUnit", failure.text == said and said.startswith(f"refused {k}: ") and len(said) < 12_000
                    and failure.get("message").startswith(f"refused {k}: ") and len(failure.get("message")) < 500, failure.attrib)
        taken.append(seconds)
        tally.check(f"long cycle of {k}: little memory", megabytes < 100, megabytes)
    tally.check("long cycles: time grows with the trace", taken[2] < 6 * taken[0] and taken[0] < 1, taken)


def main() -> None:
    program = program_of(sys.argv)
    need("parallel", "parallel")
    need("rsync", "rsync")
    tally = Tally()
    with tempfile.TemporaryDirectory() as folder, tempfile.TemporaryDirectory() as other, tempfile.TemporaryDirectory() as third, \
            tempfile.TemporaryDirectory() as fourth:
        write(folder, ACCEPTED | FAILING)
        elsewhere(tally, program, folder, fourth)
        progress(tally, program, folder)
        interrupted(tally, folder, fourth)
        table(tally, program, folder)
        json_lines(tally, program, folder)
        statuses(tally, program, folder, other)
        failing(tally, program, folder)
        junit(tally, program, folder, third)
        jobs_of_ci(tally, program, fourth)
        others(tally, folder, other)
        errors(tally, program, third)
        closed_output(tally, program, folder)
        anywhere(tally, program, folder)
    with tempfile.TemporaryDirectory() as folder, tempfile.TemporaryDirectory() as other, tempfile.TemporaryDirectory() as third:
        fails_at(tally, program, third)
        warnings(tally, program, folder)
        warnings_of_sessions(tally, program, other)
    for check in (what_is_common, situations, time_of_common, converted, asked_once, pythons, left_over, beside_elsewhere, safe_paths, little_memory, not_looked_at, changing, told_of_what_was_judged, explained_once, weak, weak_junit, weak_in_ci,
                  known_as_cut, refused_calls, grouped, no_entries, no_files, overwriting, millions_of_names, odd_names, no_shell, one_way_to_show, odd_words, names_like_commands, tasks, script_of_ci,
                  big_traces, time_of_small, time_of_big, long_cycles):
        with tempfile.TemporaryDirectory() as folder:
            check(tally, program, folder)
    with tempfile.TemporaryDirectory() as folder, tempfile.TemporaryDirectory() as other, tempfile.TemporaryDirectory() as third:
        which_traces(tally, program, folder, other)
        write(third, ACCEPTED | FAILING)
        stopped(tally, third, folder)
        unknown_faults(tally, program, third)
    with tempfile.TemporaryDirectory() as folder, tempfile.TemporaryDirectory() as other:
        beside_links(tally, program, folder, other)
    tally.close()


if __name__ == "__main__":
    main()
