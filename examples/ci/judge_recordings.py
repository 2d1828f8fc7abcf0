#!/usr/bin/env python3
"""judge_recordings.py FOLDER: judges all recordings below a folder in a job of CI, and explains those that are not accepted.

It leaves a folder `judged`: `junit.xml` with all verdicts, and of each failure a page and a small trace, `1.html` and `1.trace` of the
one that fails in the fewest lines. First it removes what it left there before, by the list `.made`; if a folder of this name holds
anything else, it leaves that alone and ends. It prints the first explanation whole, and of failures that look alike one line. It prints
annotations where GitHub runs it, and writes `annotations.json` for GitLab. It ends with the status of domepeeler-judge-many: 0 where all are accepted, 1 where the
editor failed, 2 where the recordings or the setting are at fault. Words behind the folder are options for domepeeler-judge-many; with
`--weak`, of an editor that promises the weak list specification alone, recordings pass where that holds. `--program`, `--editor` and
that one hold for the explanations too. Of two runs at once in one place the second ends with 2."""
from __future__ import print_function

import os
import sys

# All of this file is in words that Python 2.7 can read, so that an older Python says which one is needed, and not that it can't read this.


def end(*fault):
    """Ends with 2 at what nobody has thought of, also while this is loaded: Python's own status is one that says something of the recordings."""
    sys.__excepthook__(*fault)
    os._exit(2)


if __name__ == "__main__":
    sys.excepthook = end
    if sys.version_info < (3, 9):
        sys.stderr.write("judge_recordings: this needs Python 3.9 or later, and is run by %d.%d\n" % sys.version_info[:2])
        sys.exit(2)

import json
import re
import signal
import subprocess
import threading
import traceback
from concurrent.futures import ThreadPoolExecutor
from pathlib import Path

JUDGED, JUNIT, ANNOTATIONS = Path("judged"), "junit.xml", "annotations.json"
MADE = ".made"  # the list of the files that it leaves there, which is there before them
OF_EACH = "html", "trace", "trace.lines"  # files of each failure
IN_MESSAGES, IN_PROPERTIES = "%\r\n", "%\r\n:,"  # marks that GitHub wants escaped
OF_BOTH = "--program", "--editor"  # options for both tools, each with a word
LOCKED = []  # the folder, while this run is at work in it
WEAK, WEAK_ALONE = "--weak", "weak holds, strong doesn't"
STOPS = signal.SIGINT, signal.SIGTERM, signal.SIGHUP
MOST_LEFT = 3  # names of other files that are told
MOST_SHOWN = 120  # letters of what the tool printed otherwise
BEGUN, LOCK = set(), threading.Lock()  # the tools that are at work; held where one is begun
ENDS = threading.Event()  # set when no more is to be begun


class Failed(Exception):
    """What keeps it from judging."""


class Stopped(BaseException):
    """A signal that stops it."""


def be_stopped(stop, _):
    raise Stopped(stop)


def pass_over(*_):
    """What a second signal does. Were it ignored, a tool that another thread is just beginning would ignore it too, and go on."""


def ended(*words):
    """Runs a tool, in a thread that is not the first: that one alone is interrupted by signals, and ends what is at work."""
    try:
        with LOCK:
            if ENDS.is_set():
                raise Failed("it was stopped")
            tool = subprocess.Popen([str(word) for word in words], stdout=subprocess.PIPE, stderr=subprocess.PIPE, text=True,
                                    errors="surrogateescape")
            BEGUN.add(tool)
    except OSError as error:
        raise Failed("%s can't be run: %s. Is Domepeeler installed?" % (words[0], error.strerror))
    out, err = tool.communicate()
    with LOCK:
        BEGUN.discard(tool)
    return subprocess.CompletedProcess(words, tool.returncode, out, err)


def end_tools(pool):
    """Ends the tools that are at work, which end what they began, and waits for them."""
    for stop in STOPS:
        signal.signal(stop, pass_over)
    with LOCK:
        ENDS.set()
        for tool in BEGUN:
            tool.terminate()
    pool.shutdown(cancel_futures=True)


def escaped(text, marks):
    """As GitHub wants it in an annotation: these marks as a percent sign and two digits."""
    return "".join("%%%02X" % ord(mark) if mark in marks else mark for mark in text)


def annotate(file, title, told):
    """An error that GitHub shows with the file, on the page of the run."""
    print("::error file=%s,title=%s::%s" % (escaped(file, IN_PROPERTIES), escaped(title, IN_PROPERTIES), escaped(told, IN_MESSAGES)))


def explain(number, row, goal):
    """The words for a failure, and its verdict as it is told."""
    page, small = JUDGED / ("%d.html" % number), JUDGED / ("%d.trace" % number)
    done = ended(*["domepeeler-explain"] + goal + ["--html", page, "--small", small, "--", row["file"]])
    told = (done.stdout + done.stderr).strip()
    verdict = WEAK_ALONE if row.get("weak_alone") else row["verdict"]
    if verdict in ("accepted", WEAK_ALONE):  # but unequal in the end
        told = "%s, but unequal in the end: %s\n%s" % (verdict, " ".join(row["warnings"][:1]), told.partition("\n")[2])
    if verdict == "failed":  # what else is said of it counts for nothing
        told = "%s\n%s" % (row["error"], told)
    return told, "%s: %s" % (row["shown"], verdict)


def link(number, name):
    """What GitLab shows of a failure: a link to its page."""
    page, job = JUDGED / ("%d.html" % number), os.environ.get("CI_JOB_URL", "")
    return {"external_link": {"label": name, "url": "%s/artifacts/file/%s" % (job, page) if page.exists() else job}}


def alike(number, row):
    """What failures share that look alike; the number where something of it is not known."""
    return str([row["verdict"], row.get("k"), row["causes"], row["place"]]) if "causes" in row and "place" in row else number


def print_explanations(rows, told):
    """The first that has a verdict whole, and of those that look alike the first line of the first."""
    groups = {}
    for number, (row, words) in enumerate(zip(rows, told)):
        groups.setdefault(alike(number, row), []).append((row, words))
    judged = [same for same in groups.values() if same[0][0]["verdict"] not in ("unread", "failed")]
    for same in groups.values():
        (row, words), more = same[0], len(same) - 1
        first = words if same is (judged or list(groups.values()))[0] else words.split("\n")[0]
        others = "\n  and %d more that look%s alike: %s%s" % (
            more, "s" * (more == 1), same[1][0]["shown"], " and others" * (more > 1)) if more else ""
        print("%s: %s%s\n" % (row["shown"], first, others), flush=True)


def say(words):
    try:
        print("judge_recordings: %s" % words, file=sys.stderr)
    except OSError:  # nobody can be told
        pass


def goal_of(options):
    """Those of the options that hold for an explanation too."""
    both = [option for option, before in zip(options, [""] + options) if option in OF_BOTH or before in OF_BOTH]
    return [option for option in options if option == WEAK or option.startswith(tuple("%s=" % one for one in OF_BOTH))] + both


def lock():
    """Lets no other run work in the folder while this one does; but where the system has no such locks."""
    try:
        import fcntl
    except ImportError:
        return
    LOCKED.append(os.open(JUDGED, os.O_RDONLY))
    try:
        fcntl.flock(LOCKED[-1], fcntl.LOCK_EX | fcntl.LOCK_NB)
    except BlockingIOError:
        raise Failed("another run is at work in the folder %s" % JUDGED)
    except OSError:  # as of some folders of a network
        pass


def prepare():
    """Makes the folder, or takes away what an earlier run has left in it."""
    JUDGED.mkdir(exist_ok=True)
    lock()
    made = JUDGED / MADE
    own = [MADE] + made.read_text(errors="surrogateescape").splitlines() if made.is_file() else []
    others = sorted(set(os.listdir(JUDGED)) - set(own))
    if others:
        more = " and others" if len(others) > MOST_LEFT else ""
        names = ", ".join(repr(name)[1:-1] for name in others[:MOST_LEFT])
        raise Failed("the folder %s holds what this script did not write (%s%s): move it away" % (JUDGED, names, more))
    for name in own[1:]:
        if "/" not in name and (JUDGED / name).is_file():
            (JUDGED / name).unlink()
    list_made(0)


def list_made(count):
    """Writes the list of what a run makes that finds so many failures."""
    part = MADE + ".part"
    made = [part, JUNIT, ANNOTATIONS, ANNOTATIONS + ".part"] + ["%d.%s" % (number, end) for number in range(1, count + 1) for end in OF_EACH]
    (JUDGED / part).write_text("".join(name + "\n" for name in made))
    os.replace(JUDGED / part, JUDGED / MADE)


def check_agrees(status, rows):
    """The tool's status is believed where it lists what fails, or nothing, and has written its file."""
    if status not in (0, 1, 2) or status != 2 and (status == 1) != bool(rows):
        raise Failed("domepeeler-judge-many ended with status %d, and listed %d recordings" % (status, len(rows)))
    if status != 2 and not (JUDGED / JUNIT).is_file():
        raise Failed("domepeeler-judge-many ended with status %d, and wrote no %s" % (status, JUDGED / JUNIT))


def judge(folder, options):
    pool = ThreadPoolExecutor(len(os.sched_getaffinity(0)))
    try:
        return judge_by(pool, folder, options)
    finally:
        end_tools(pool)


def judge_by(pool, folder, options):
    if JUDGED.resolve() == Path(folder).resolve():
        raise Failed("%s is where the pages go, so its traces are not judged" % JUDGED)
    prepare()
    words = ["domepeeler-judge-many", "--failing", "--json", "--junit", JUDGED / JUNIT] + options + ["--", folder]
    done = pool.submit(ended, *words).result()
    try:
        rows = [json.loads(line) for line in done.stdout.splitlines()]
    except ValueError:
        printed = repr(done.stdout[:MOST_SHOWN])[1:-1]
        raise Failed("domepeeler-judge-many ended with status %d, and printed no recordings: %s" % (done.returncode, printed))
    rows = [row for row in rows if JUDGED.resolve() not in Path(row["file"]).resolve().parents]
    goal = goal_of(options)
    if rows and done.returncode in (0, 1, 2) and not (JUDGED / JUNIT).is_file():
        print(done.stderr, end="", file=sys.stderr)
        raise Failed("domepeeler-judge-many ended with status %d, and wrote no %s" % (done.returncode, JUDGED / JUNIT))
    list_made(len(rows))
    told = list(pool.map(lambda numbered: explain(numbered[0], numbered[1], goal), enumerate(rows, 1)))
    for row, (words, name) in zip(rows, told) if os.environ.get("GITHUB_ACTIONS") else ():
        annotate(row["shown"], name, words.split("\n")[0])
    print_explanations(rows, [words for words, _ in told])
    print(done.stderr, end="", file=sys.stderr)
    if os.environ.get("CI_JOB_URL"):
        links = [link(number, name) for number, (_, name) in enumerate(told, 1)]
        part = JUDGED / (ANNOTATIONS + ".part")
        part.write_text(json.dumps({"recordings that are not accepted": links}))
        os.replace(part, JUDGED / ANNOTATIONS)
    check_agrees(done.returncode, rows)
    if done.returncode == 0:
        print("all recordings below %s %s" % (repr(folder)[1:-1], "keep the weak list specification" if WEAK in goal else "are accepted"))
    if rows:
        pages = [JUDGED / ("%d.html" % number) for number in range(1, len(rows) + 1)]
        made = [page for page in pages if page.exists()]
        first = "of the first" if made[:1] == pages[:1] else "of the first that has one"
        page = ", and %s is the page %s" % (made[0], first) if made else ""
        print("%d %s: %s/junit.xml has them all%s" % (len(rows), "failed" if WEAK in goal else "not accepted", JUDGED, page))
    return done.returncode


def main():
    signal.signal(signal.SIGCHLD, signal.SIG_DFL)  # where it is ignored, as by a daemon that starts this, each status is 0
    for stop in STOPS:
        if signal.getsignal(stop) != signal.SIG_IGN:
            signal.signal(stop, be_stopped)
    if len(sys.argv) < 2 or sys.argv[1].startswith("--"):
        print("usage: judge_recordings.py FOLDER [OPTION..]", file=sys.stderr)
        return 2
    try:
        for stream in sys.stdout, sys.stderr:
            if stream is None:
                raise Failed("standard output or standard error is closed")
            stream.reconfigure(errors="surrogateescape")
        status = judge(sys.argv[1], sys.argv[2:])
        sys.stdout.flush()
        return status
    except Failed as error:
        say(error)
    except BrokenPipeError:  # the reader has enough
        os.dup2(os.open(os.devnull, os.O_WRONLY), sys.stdout.fileno())
    except OSError as error:
        say("cannot write %s: %s" % (error.filename or "the output", error.strerror))
        os.dup2(os.open(os.devnull, os.O_WRONLY), sys.stdout.fileno())
    except Stopped as stopped:
        signal.signal(stopped.args[0], signal.SIG_DFL)
        os.kill(os.getpid(), stopped.args[0])
    except Exception:  # which nobody has thought of: no verdict
        say("a fault of this script, so nothing is judged:\n%s" % traceback.format_exc())
    return 2


if __name__ == "__main__":
    sys.exit(main())
