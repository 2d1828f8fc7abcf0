#!/usr/bin/env python3
"""install.py PROGRAM: what `tools/install` puts below a folder, and that it works from there, wherever the folder is moved."""
import os
import re
import shutil
import subprocess
import sys
import tempfile
from pathlib import Path

ROOT = Path(__file__).resolve().parents[2]
sys.path.insert(0, str(ROOT / "tests"))
from shared.program import Ended, Tally, need, program_of, run  # noqa: E402

INSTALL = str(ROOT / "tools" / "install")
EXAMPLE = str(ROOT / "examples" / "lost_element.trace")
CERTIFICATE = str(ROOT / "examples" / "libinfinity_three_way_cycle.cert")
REPORT = b"replicas 3 operations 3 inserts 2\ncontents 2.1\nstrong no\nweak no\n"
RECORDERS = ["domepeeler.py", "domepeeler.mjs", "domepeeler.rs", "domepeeler.h", "domepeeler.el", "merge.py", "engines/list_crdt.py",
             "engines/record.py", "engines/random_sessions.py", "properties/with_hypothesis.py"]
CI = ["judge_recordings.py", "github_workflow.yml", "gitlab_jobs.yml", "slurm_array.sh", "kubernetes_job.yml"]
TOOLS = ["domepeeler", "domepeeler-explain", "domepeeler-judge-many"]

# What is completed in bash and in fish: the words of a line, the last of them begun, and what is offered for it.
COMPLETED = [
    (["domepeeler", ""], {"verdict", "cert", "verify", "live", "--help", "--version"}),
    (["domepeeler", "ver"], {"verdict", "verify"}),
    (["domepeeler", "verdict", "--"], {"--workers", "--json", "--help"}),
    (["domepeeler", "cert", "--"], {"--help"}),
    (["domepeeler", "verdict", "--workers", "1"], {"1", "16"}),
    (["domepeeler", "live", "--"], {"--workers", "--help"}),
    (["domepeeler-explain", "--s"], {"--small", "--svg"}),
    (["domepeeler-explain", "--"], {"--html", "--small", "--svg", "--language", "--delivered", "--refused", "--weak", "--editor", "--program",
                                     "--version", "--help"}),
    (["domepeeler-explain", "--language", "r"], {"rust"}),
    (["domepeeler-judge-many", "--j"], {"--json", "--junit", "--jobs"}),
    (["domepeeler-judge-many", "--"], {"--json", "--failing", "--unequal", "--weak", "--editor", "--junit", "--jobs", "--sshlogin", "--program",
                                        "--version", "--help"}),
]

# Words, how the program ends by docs/formats.md, and what the man page says of that under its status alone.
ENDED = [
    (["verdict", "{unread}"], Ended(2, b"", b"finder: line 3: shape\n"), "the line on standard error names the first faulty line"),
    (["cert", "{unread}"], Ended(2, b"", b"finder: line 3: shape\n"), "the line on standard error names the first faulty line"),
    (["verify", "{unread}", CERTIFICATE], Ended(1, b"no trace\n", b""), "verify prints no trace"),
]


def installed(program: str, folder: str) -> subprocess.CompletedProcess:
    return subprocess.run([INSTALL, folder], capture_output=True, text=True, env=os.environ | {"DOMEPEELER": program})


def files(tally: Tally, program: str, folder: str) -> None:
    done = installed(program, folder)
    tally.check("install: ends well", done.returncode == 0 and not done.stderr, done)
    wanted = [*(f"bin/{tool}" for tool in TOOLS), *(f"share/man/man1/{tool}.1" for tool in TOOLS),
              *(f"share/bash-completion/completions/{tool}" for tool in TOOLS), "share/zsh/site-functions/_domepeeler",
              *(f"share/fish/vendor_completions.d/{tool}.fish" for tool in TOOLS),
              *(f"share/doc/domepeeler/{name}" for name in ("LICENSE", "LICENSE-APACHE", "LICENSE-MIT")),
              *(f"share/domepeeler/recorders/{name}" for name in RECORDERS),
              *(f"share/domepeeler/examples/ci/{name}" for name in CI)]
    for name in wanted:
        tally.check(f"install: {name}", Path(folder, name).is_file())
    for tool in TOOLS:
        tally.check(f"install: {tool} can be run", os.access(f"{folder}/bin/{tool}", os.X_OK))
    again = installed(program, folder)
    tally.check("install: a second time", again.returncode == 0, again)


def errors(tally: Tally, program: str, folder: str) -> None:
    for words in [], [""], ["a", "b"], ["--prefix"]:
        got = run(INSTALL, words)
        tally.check(f"install: usage {words}", got.status == 2 and got.err.startswith(b"usage: tools/install PREFIX"), got)
    done = installed(f"{folder}/missing", folder)
    tally.check("install: no program", done.returncode == 2 and "is not there: build it first" in done.stderr, done)
    done = installed("/bin/true", f"{folder}/other")
    tally.check("install: another program", (done.returncode, done.stderr) == (
        2, "install: /bin/true is not domepeeler: asked for its version it says something else\n") and not Path(folder, "other").exists(), done)
    done = installed(f"{folder}/x\n::error::\x1b[31m\\n", f"{folder}/other")
    tally.check("install: a program with an odd name", (done.returncode, done.stderr) == (
        2, f"install: {folder}/x?::error::?[31m\\n is not there: build it first, as the README says\n"), done)
    old = Path(folder, "odd/lib/domepeeler/tools/explaining/gone.py")
    old.parent.mkdir(parents=True)
    old.write_text("import nowhere\n")
    done = subprocess.run(["sh", "-c", f"umask 077; cd '{ROOT}'; CDPATH='{folder}:{ROOT}' tools/install '{folder}/odd'"], capture_output=True, text=True,
                          env=os.environ | {"DOMEPEELER": program})
    unreadable = [path for path in Path(folder, "odd").rglob("*") if not path.is_symlink() and path.stat().st_mode & 0o044 != 0o044 and path not in (
        old.parents[3], old.parents[2], old.parents[1], Path(folder, "odd"))]
    tally.check("install: whoever installs it, everyone can read it, and no module is left", done.returncode == 0 and not done.stderr and not unreadable
                and not old.exists(), (done, unreadable))
    done = installed(f"{folder}/odd/bin/domepeeler", f"{folder}/odd")
    tally.check("install: once more, by the program that was installed", done.returncode == 0 and not done.stderr and os.access(
        f"{folder}/odd/bin/domepeeler", os.X_OK) and Path(old.parent, "words.py").is_file(), done)


def examples(tally: Tally, folder: str) -> None:
    """The recordings that the pages show are there, and judged from there as in the repository; so is the test of Yjs, with what it
    imports."""
    share, here = Path(folder, "share/domepeeler"), os.environ | {"PATH": f"{folder}/bin:{os.environ['PATH']}"}
    here.pop("DOMEPEELER", None)
    paths = [path.relative_to(ROOT) for path in sorted(ROOT.glob("examples/**/*")) if path.is_file() and path.parent.name != "ci"]
    paths = [path for path in paths if path.suffix in (".trace", ".cert", ".mjs", ".log") or path.name in ("convert.py", "planted.py")]
    tally.check(f"examples in {folder}: all", len(paths) > 15 and all((share / path).is_file() and
                (share / path).read_bytes() == (ROOT / path).read_bytes() for path in paths), paths)
    for words in ["domepeeler", "verdict"], ["domepeeler-explain"]:
        done = subprocess.run([*words, "examples/lost_element.trace"], cwd=share, env=here, capture_output=True)
        tally.check(f"examples in {folder}: {words[0]}", done.returncode == 1 and b"contents 2.1" in done.stdout and not done.stderr, done)
    words = ["domepeeler", "verify", "examples/libinfinity_three_way_cycle.trace", "examples/libinfinity_three_way_cycle.cert"]
    done = subprocess.run(words, cwd=share, env=here, capture_output=True)
    tally.same(f"examples in {folder}: the certificate", Ended(done.returncode, done.stdout, done.stderr), Ended(0, b"yes refused\n", b""))
    imported = [path.parent / name for path in (share / "examples/yjs").glob("*.mjs")
                for name in re.findall(r'^import .* from "(\.[^"]+)"', path.read_text(), re.MULTILINE)]
    tally.check(f"examples in {folder}: what the test of Yjs imports", len(imported) >= 3 and all(map(Path.is_file, imported)), imported)


def runs(tally: Tally, folder: str) -> None:
    """The tools ask the program beside them, with no variable and none on the PATH."""
    here = {"PATH": os.pathsep.join({os.path.dirname(shutil.which(tool)) for tool in ("python3", "sh")})}
    ended = [subprocess.run([f"{folder}/bin/{words[0]}", *words[1:]], capture_output=True, env=here)
             for words in (["domepeeler", "verdict", EXAMPLE], ["domepeeler-explain", EXAMPLE], ["domepeeler-judge-many", EXAMPLE])]
    verdict, explained, many = [Ended(done.returncode, done.stdout, done.stderr) for done in ended]
    tally.same(f"runs in {folder}: the program", verdict, Ended(1, REPORT, b""))
    tally.check(f"runs in {folder}: explain", explained.status == 1 and explained.out.startswith(b"contents 2.1: "), explained)
    tally.check(f"runs in {folder}: judge_many", many.status == 1 and many.out.endswith(b"1 trace: 1 contents\n"), many)


def versions(tally: Tally, folder: str) -> None:
    """The tools and the man page have the program's version, and each tool its name."""
    version = run(f"{folder}/bin/domepeeler", ["--version"]).out.decode().split()[1]
    for tool in TOOLS:
        tally.same(f"version of {tool}", run(f"{folder}/bin/{tool}", ["--version"]), Ended(0, f"{tool} {version}\n".encode(), b""))
    head = Path(folder, "share/man/man1/domepeeler.1").read_text().splitlines()[0]
    tally.check("version of the man page", f'"Domepeeler {version}"' in head, head)


def options(tally: Tally, folder: str) -> None:
    """What the help of each tool lists stands in the man page and is completed: no option is forgotten."""
    page = Path(folder, "share/man/man1/domepeeler.1").read_text().replace("\\-", "-")
    offered = {words[0]: options for words, options in COMPLETED if words[1:] == ["--"]}
    for tool in TOOLS[1:]:
        listed = set(re.findall(r"^  (?:-h, )?(--[a-z]+)", run(f"{folder}/bin/{tool}", ["--help"]).out.decode(), re.MULTILINE))
        tally.check(f"options of {tool}", listed == offered[tool], (listed, offered[tool]))
        tally.check(f"options of {tool} in the man page", all(option in page for option in listed), listed)


def recorders(tally: Tally, folder: str) -> None:
    """An explanation names the installed guide, or in the repository its own, and what the guide names is there and works."""
    guides = []
    for tool in f"{folder}/bin/domepeeler-explain", str(ROOT / "tools" / "explain"):
        said = run(tool, ["--program", f"{folder}/bin/domepeeler", EXAMPLE]).out.decode()
        found = re.search(r"apply it to another element\? (.*) says where the calls go\.", said)
        guides.append(Path(found[1]) if found else None)
    share = Path(folder, "share/domepeeler")
    wanted = [share / "docs/recording.md", ROOT / "docs/recording.md"]
    tally.check(f"recorders in {folder}: the guides", all(guides) and [os.path.realpath(guide) for guide in guides] ==
                [os.path.realpath(path) for path in wanted] and all(path.is_file() for path in wanted), guides)
    page = wanted[0].read_text() if wanted[0].is_file() else ""
    links = [wanted[0].parent / link for link in re.findall(r"\]\(([^)#]+)", page)]
    named = [share / path for path in re.findall(r"`(recorders/[^` ]*)", page)]
    tally.check(f"recorders in {folder}: what the guide names", len(links) >= 3 and len(named) >= 10 and
                all(path.exists() for path in links + named), [path for path in links + named if not path.exists()])
    code = "from domepeeler import Recording; log = Recording(2, only=1); log.read(1, []); log.save('1.log')"
    subprocess.run([sys.executable, "-c", code], cwd=folder, env=os.environ | {"PYTHONPATH": str(share / "recorders")})
    merged = subprocess.run(["share/domepeeler/recorders/merge.py", "1.log"], cwd=folder, capture_output=True) if page else None
    tally.check(f"recorders in {folder}: merge.py", merged and merged.stdout == b"trace 1\nreplicas 2\n1 read :\n", merged)


def pages(tally: Tally, folder: str) -> None:
    """A relative link of an installed page leads to what is installed, and one with a heading to a heading that is there."""
    share = Path(folder, "share/domepeeler").resolve()
    dead, count = [], 0
    for page in sorted(share.rglob("*.md")):
        for link in re.findall(r"\]\(([^)\s]+)\)", page.read_text()):
            if re.match("[a-z]+:", link):
                continue
            path, _, heading = link.partition("#")
            place = (page.parent / path).resolve() if path else page
            is_there = place.exists() and place.is_relative_to(share)
            if not is_there or heading and heading not in headings(place):
                dead.append(f"{page.relative_to(share)}: {link}")
            count += 1
    tally.check(f"pages in {folder}: no dead link", count > 60 and not dead, (count, dead))


def headings(page: Path) -> set:
    """The names by which links lead to the headings of a page."""
    return {re.sub(r"[^\w\- ]", "", head.lower()).replace(" ", "-") for head in re.findall("^#+ (.*)", page.read_text(), re.MULTILINE)}


def manual(tally: Tally, folder: str) -> None:
    for words in ["-l", f"{folder}/share/man/man1/domepeeler.1"], *([tool] for tool in TOOLS):
        done = subprocess.run(["man", *words], capture_output=True, text=True, errors="replace",
                              env=os.environ | {"MANPATH": f"{folder}/share/man", "MANWIDTH": "80", "LC_ALL": "C"})
        heads = [line for line in done.stdout.splitlines() if line and not line.startswith(" ")]
        tally.check(f"man {words[-1]}", {"NAME", "SYNOPSIS", "VERDICTS", "EXIT STATUS", "FILES"} <= set(heads), (heads, done.stderr))
    done = subprocess.run(["man", "--warnings", "-l", f"{folder}/share/man/man1/domepeeler.1"], capture_output=True, text=True)
    tally.check("man: no warnings", not done.stderr, done.stderr)


def exit_statuses(tally: Tally, folder: str) -> None:
    """The paragraph of the man page on the status with which the program ends says what happened, and no other one does."""
    done = subprocess.run(["man", "-l", f"{folder}/share/man/man1/domepeeler.1"], capture_output=True, text=True, errors="replace",
                          env=os.environ | {"MANWIDTH": "500", "LC_ALL": "C"})
    section = done.stdout.partition("\nEXIT STATUS\n")[2].partition("\nENVIRONMENT\n")[0]
    told = {int(line.split()[0]): " ".join(line.split()[1:]) for line in section.splitlines() if line.strip()}
    unread = f"{folder}/unread.trace"
    Path(unread).write_text("trace 1\nreplicas 1\n0 reads :\n")
    for words, ended, said in ENDED:
        got = run(f"{folder}/bin/domepeeler", [word.format(unread=unread) for word in words])
        tally.same(f"status of {words}", got, ended)
        tally.check(f"man: status of {words}", [status for status in told if said in told[status]] == [ended.status], told)


def completions(tally: Tally, folder: str) -> None:
    path = f"{folder}/share/bash-completion/completions/domepeeler"
    for words, offered in COMPLETED:
        script = (f"compopt() {{ :; }}; source '{path}'; COMP_WORDS=({' '.join(repr(word) for word in words)}); "
                  f"COMP_CWORD={len(words) - 1}; _domepeeler; printf '%s\\n' \"${{COMPREPLY[@]}}\"")
        done = subprocess.run(["bash", "-c", script], capture_output=True, text=True)
        tally.check(f"bash: {words}", set(done.stdout.split()) == offered and not done.stderr, done)
    with tempfile.TemporaryDirectory() as place:
        Path(place, "my first.trace").touch()
        script = (f"compopt() {{ :; }}; source '{path}'; COMP_WORDS=(domepeeler-explain my); COMP_CWORD=1; _domepeeler; "
                  "printf '<%s>' \"${COMPREPLY[@]}\"")
        done = subprocess.run(["bash", "-c", script], capture_output=True, text=True, cwd=place)
        tally.check("bash: a name with a blank", done.stdout == "<my first.trace>", done)
        for command, option in (("domepeeler-explain", "--program"), ("domepeeler-explain", "--html"), ("domepeeler-explain", "--small"), ("domepeeler-explain", "--svg"),
                                ("domepeeler-judge-many", "--junit")):
            script = (f"compopt() {{ :; }}; source '{path}'; COMP_WORDS=({command} {option} my); COMP_CWORD=2; _domepeeler; "
                      "printf '<%s>' \"${COMPREPLY[@]}\"")
            done = subprocess.run(["bash", "-c", script], capture_output=True, text=True, cwd=place)
            tally.check(f"bash: a name with a blank behind {option}", done.stdout == "<my first.trace>", done)
    script = f"source '{path}'; complete -p {' '.join(TOOLS)}"
    done = subprocess.run(["bash", "-c", script], capture_output=True, text=True)
    tally.check("bash: of each command", done.stdout.count("-F _domepeeler") == 3, done)
    completions_of_fish(tally, folder)
    script = f"fpath=('{folder}/share/zsh/site-functions' $fpath); autoload -U compinit; compinit -u -D; print ${{_comps[{TOOLS[1]}]}}; autoload +X _domepeeler"
    done = subprocess.run(["zsh", "-f", "-c", script], capture_output=True, text=True)
    tally.check("zsh: found and read", done.stdout == "_domepeeler\n" and done.returncode == 0 and not done.stderr, done)


def completions_of_fish(tally: Tally, folder: str) -> None:
    """The same as in bash. Fish finds them where the folder's `share` is among the data folders, and there by the command's name."""
    with tempfile.TemporaryDirectory() as home:
        Path(home, "empty").mkdir()
        here = {"HOME": home, "PATH": f"{folder}/bin:{os.environ['PATH']}", "XDG_DATA_DIRS": f"{folder}/share"}
        script = "".join(f"complete -C '{' '.join(words)}'; echo ==; " for words, _ in COMPLETED)
        done = subprocess.run(["fish", "-c", script], cwd=f"{home}/empty", env=here, capture_output=True, text=True)
    parts = done.stdout.split("==\n")[:-1]
    tally.check("fish: ends well", done.returncode == 0 and not done.stderr and len(parts) == len(COMPLETED), done)
    for (words, offered), part in zip(COMPLETED, parts):
        got = {line.split("\t")[0] for line in part.splitlines()}
        begun = "--" if words[-1] == "" else "nothing"  # bash offers the two options beside the commands, fish where one is begun
        tally.check(f"fish: {words}", got == {option for option in offered if not option.startswith(begun)}, part)


def main() -> None:
    program = program_of(sys.argv)
    need("man", "man-db")
    need("fish", "fish")
    need("zsh", "zsh")
    tally = Tally()
    with tempfile.TemporaryDirectory() as folder:
        errors(tally, program, folder)
        files(tally, program, f"{folder}/a place")
        examples(tally, f"{folder}/a place")
        runs(tally, f"{folder}/a place")
        versions(tally, f"{folder}/a place")
        options(tally, f"{folder}/a place")
        recorders(tally, f"{folder}/a place")
        pages(tally, f"{folder}/a place")
        manual(tally, f"{folder}/a place")
        exit_statuses(tally, f"{folder}/a place")
        completions(tally, f"{folder}/a place")
        os.rename(f"{folder}/a place", f"{folder}/moved")
        runs(tally, f"{folder}/moved")
        recorders(tally, f"{folder}/moved")
    tally.close()


if __name__ == "__main__":
    main()
