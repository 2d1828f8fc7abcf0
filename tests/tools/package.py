#!/usr/bin/env python3
"""package.py PROGRAM: the archive and the Debian package of `tools/package`: the same bytes each time, and each works by itself where
nothing else of the repository is."""
import gzip
import hashlib
import io
import os
import re
import shutil
import subprocess
import sys
import tarfile
import tempfile
from pathlib import Path

ROOT = Path(__file__).resolve().parents[2]
sys.path.insert(0, str(ROOT / "tests"))
from shared.program import Ended, Tally, need, program_of, run  # noqa: E402

PACKAGE, MODULE = str(ROOT / "tools" / "package"), str(ROOT / "tools" / "making_packages.py")
KIT = "made-up-kit-7 logic 0123456789abcdef"
TRACE = b"trace 1\nreplicas 3\n0 ins a 0 : a\n1 recv 0 1\n1 ins b 1 : a b\n2 recv 1 1\n2 read : b\n"  # the man page's example
REPORT = b"replicas 3 operations 3 inserts 2\ncontents 2.1\nstrong no\nweak no\n"
TEXT = "share/doc/domepeeler/build.txt"
NEEDED = ["python3", "/usr/bin/python3", "sh"]  # by the tools, as commands
COMMANDS = ["domepeeler", "domepeeler-explain", "domepeeler-judge-many"]
STATUS = "Package: {}\nStatus: install ok installed\nMaintainer: nobody\nArchitecture: amd64\nVersion: {}\nDescription: made up\n\n"


def package(words: list, **given: object) -> Ended:
    done = subprocess.run([PACKAGE, *words], capture_output=True, **given)
    return Ended(done.returncode, done.stdout, done.stderr)


def git(*words: str) -> str:
    return subprocess.run(["git", "-C", str(ROOT), *words], capture_output=True, text=True, check=True).stdout.strip()


def names_of(program: str) -> tuple:
    version = run(program, ["--version"]).out.decode().split()[1]
    return version, f"domepeeler-{version}-x86_64-linux.tar.gz", f"domepeeler_{version}_amd64.deb"


def same_bytes(tally: Tally, program: str, folder: str) -> None:
    """Made a second time from a copy of the program, and with another mask, place, home, zone and language."""
    copy = Path(folder, "elsewhere", "copy")
    copy.parent.mkdir()
    shutil.copyfile(program, copy)
    copy.chmod(0o700)
    os.utime(copy, (1, 1))
    names = names_of(program)[1:]
    got = package([program, f"{folder}/made", KIT])
    tally.same("made", got, Ended(0, "".join(f"{folder}/made/{name}\n" for name in names).encode(), b""))
    other = {"PATH": os.environ["PATH"], "HOME": str(copy.parent), "TZ": "Asia/Kathmandu", "LC_ALL": "POSIX", "SOURCE_DATE_EPOCH": "7"}
    got = package(["copy", "again", KIT], cwd=copy.parent, env=other, umask=0o077)
    tally.check("made again", got.status == 0, got)
    for name in names:
        first, again = Path(folder, "made", name), Path(copy.parent, "again", name)
        tally.check(f"{name}: the same bytes", first.read_bytes() == again.read_bytes())
    tally.check("nothing else is made", sorted(os.listdir(f"{folder}/made")) == sorted(names), os.listdir(f"{folder}/made"))


def entries(tally: Tally, name: str, packed: bytes, is_dpkg: bool) -> dict:
    """Each entry is as if root had made it at the time of the commit, and has one of two modes. dpkg-deb puts links last."""
    with tarfile.open(fileobj=io.BytesIO(packed)) as archive:
        found = archive.getmembers()
        texts = {entry.name: archive.extractfile(entry).read() for entry in found if entry.isreg()}
    tally.check(f"{name}: owner", {(entry.uid, entry.gid, entry.uname, entry.gname) for entry in found} == {(0, 0, "root", "root")})
    tally.check(f"{name}: times", {entry.mtime for entry in found} == {int(git("log", "-1", "--format=%ct"))})
    tally.check(f"{name}: modes", {(entry.type, oct(entry.mode)) for entry in found} <= {
        (tarfile.DIRTYPE, "0o755"), (tarfile.REGTYPE, "0o755"), (tarfile.REGTYPE, "0o644"), (tarfile.SYMTYPE, "0o777")})
    order = [(is_dpkg and entry.issym(), entry.name.split("/")) for entry in found]
    tally.check(f"{name}: sorted", order == sorted(order), [entry.name for entry in found])
    runnable = {entry.name for entry in found if entry.isreg() and entry.mode & 1}
    links = {entry.name: entry.linkname for entry in found if entry.issym()}
    return {path: (text, path in runnable) for path, text in texts.items()} | links


def below(folder: Path) -> dict:
    """What lies below a folder: of each file its bytes and whether it can be run, of each link where it leads."""
    return {str(path.relative_to(folder)): os.readlink(path) if path.is_symlink() else (path.read_bytes(), os.access(path, os.X_OK))
            for path in folder.rglob("*") if path.is_symlink() or path.is_file()}


def archive_has(tally: Tally, program: str, folder: str) -> dict:
    """All that `tools/install` puts, and the text on where the program comes from."""
    version, name, _ = names_of(program)
    packed = Path(folder, "made", name).read_bytes()
    tally.check("archive: no time and no name of gzip's", packed[3:8] == bytes(5), packed[:10])
    found = entries(tally, "archive", gzip.decompress(packed), is_dpkg=False)
    tally.check("archive: one folder", {path.split("/")[0] for path in found} == {f"domepeeler-{version}"}, list(found))
    found = {path.partition("/")[2]: what for path, what in found.items()}
    subprocess.run([ROOT / "tools/install", f"{folder}/installed"], check=True, stdout=subprocess.DEVNULL,
                   env=os.environ | {"DOMEPEELER": program})
    wanted = below(Path(folder, "installed"))
    tally.check("archive: what is installed", {path: what for path, what in found.items() if path != TEXT} == wanted,
                set(found) ^ set(wanted))
    text = found[TEXT][0].decode()
    digest = hashlib.sha256(Path(program).read_bytes()).hexdigest()
    changed = ", with changes that are in no commit" if git("status", "--porcelain") else ""
    for line in (f"domepeeler {version} for Linux on x86-64", f"commit {git('rev-parse', 'HEAD')}{changed}",
                 f"SHA-256 of bin/domepeeler {digest}", f"    {KIT}"):
        tally.check(f"text: {line}", line in text.splitlines(), text)
    return found


def moved(path: str) -> str:
    """Where Debian has a file of the archive."""
    path = path.replace("zsh/site-functions", "zsh/vendor-completions")
    return "./usr/" + path + (".gz" if "/man/" in path else "")


def debian_has(tally: Tally, program: str, folder: str, archive: dict) -> None:
    """What the archive has, at Debian's places and in its forms, and the sums of all files."""
    deb = f"{folder}/made/{names_of(program)[2]}"
    control, data = (subprocess.run(["dpkg-deb", f"--{part}-tarfile", deb], capture_output=True, check=True).stdout
                     for part in ("ctrl", "fsys"))
    found = entries(tally, "package", data, is_dpkg=True)
    licences = {path: what for path, what in archive.items() if path.startswith("share/doc/domepeeler/LICENSE")}
    wanted = {moved(path) for path in archive if path not in licences} | {
        "./usr/share/doc/domepeeler/copyright", "./usr/share/doc/domepeeler/changelog.gz"}
    tally.check("package: its files", set(found) == wanted, set(found) ^ wanted)
    copyright = found["./usr/share/doc/domepeeler/copyright"][0].decode()
    told = [line.strip() for line in copyright.partition("License: Expat\n")[2].splitlines() if line.strip() != "."]
    licence = [line.strip() for line in archive["share/doc/domepeeler/LICENSE-MIT"][0].decode().splitlines() if line.strip()]
    tally.check("package: the MIT licence", told == licence, copyright)
    tally.check("package: where Apache's licence is", "/usr/share/common-licenses/Apache-2.0" in copyright, copyright)
    linted = subprocess.run(["lintian", "--fail-on", "error,warning", deb], capture_output=True, text=True)
    tally.check("package: lintian finds nothing", linted.returncode == 0 and not linted.stdout.strip(), linted)
    for path, what in archive.items():
        got = found.get(moved(path))
        if "/man/" in path and path.endswith("/domepeeler.1"):
            tally.check(f"package: {path}", (gzip.decompress(got[0]), got[1]) == what)
        elif "/man/" in path:
            tally.check(f"package: {path}", got == "domepeeler.1.gz", got)
        elif what[0] and what[0][:2] == b"#!" and "/tools/" in path:
            tally.check(f"package: {path}", got[0].split(b"\n", 1)[1] == what[0].split(b"\n", 1)[1] and got[1] == what[1])
        elif path == "bin/domepeeler":
            without_symbols(tally, program, folder, got[0], found[f"./usr/{TEXT}"][0].decode().splitlines())
        elif path not in licences and path != TEXT:
            tally.check(f"package: {path}", got == what)
    texts = entries(tally, "control", control, is_dpkg=True)
    sums = "".join(f"{hashlib.md5(what[0]).hexdigest()}  {path[2:]}\n"
                   for path, what in sorted(found.items(), key=lambda item: item[0].split("/")) if not isinstance(what, str))
    tally.check("package: its sums", texts["./md5sums"][0].decode() == sums)


def without_symbols(tally: Tally, program: str, folder: str, packed: bytes, text: list) -> None:
    """What is loaded of the program is byte for byte the proved one; the text has the sums of both."""
    images = []
    for name, content in ("proved", Path(program).read_bytes()), ("packed", packed):
        Path(folder, name).write_bytes(content)
        subprocess.run(["objcopy", "-O", "binary", name, f"{name}.image"], cwd=folder, check=True)
        images.append(Path(folder, f"{name}.image").read_bytes())
        listed = subprocess.run(["nm", name], cwd=folder, capture_output=True, text=True).stderr
        tally.check(f"package: symbols of the {name} one", ("no symbols" in listed) == (name == "packed"), listed)
    tally.check("package: the program", images[0] == images[1] and len(images[0]) > 500_000, list(map(len, images)))
    for told in (f"SHA-256 of the proved program {hashlib.sha256(Path(program).read_bytes()).hexdigest()}",
                 f"SHA-256 of bin/domepeeler, which is that one without its symbols {hashlib.sha256(packed).hexdigest()}", f"    {KIT}"):
        tally.check(f"package: text: {told}", told in text, text)


def libraries(program: str) -> list:
    """The files with which the program is linked, by ldd."""
    told = subprocess.run(["ldd", program], capture_output=True, text=True, check=True).stdout
    return re.findall(r"(/\S+) \(0x", told)


def owners(program: str) -> set:
    """Debian's packages with these files."""
    told = [subprocess.run(["dpkg-query", "-S", name], capture_output=True, text=True).stdout
            for path in libraries(program) for name in (path, os.path.realpath(path), os.path.realpath(path).removeprefix("/usr"))]
    return {line.split(":")[0] for text in told for line in text.splitlines() if not line.startswith("diversion")}


def dpkg(root: str, *words: str) -> subprocess.CompletedProcess:
    return subprocess.run(["dpkg", f"--root={root}", "--force-not-root", "--force-bad-path", *words], capture_output=True, text=True)


def system(root: str, packages: set) -> str:
    """A system without a file, on which some packages are installed by its word."""
    shutil.rmtree(root, ignore_errors=True)
    for folder in "info", "updates":
        os.makedirs(f"{root}/var/lib/dpkg/{folder}")
    versions = {"python3": "3.11.2-1"}
    Path(root, "var/lib/dpkg/status").write_text("".join(STATUS.format(name, versions.get(name, "12.2")) for name in sorted(packages)))
    return root


def depends(tally: Tally, program: str, folder: str) -> set:
    """dpkg takes the package where the packages are that have its libraries and python3, and not where one lacks."""
    deb = f"{folder}/made/{names_of(program)[2]}"
    needed = {name for name in owners(program)} | {"python3"}
    for name in needed:
        done = dpkg(system(f"{folder}/system", needed - {name}), "--install", deb)
        tally.check(f"package: without {name}", done.returncode != 0 and f"domepeeler depends on {name}" in done.stderr, done)
    asked = subprocess.run(["dpkg-deb", "--field", deb, "Depends"], capture_output=True, text=True).stdout
    tally.check("package: depends on nothing else", {part.split()[0] for part in asked.split(",")} == needed, (asked, needed))
    return needed


def works(tally: Tally, where: str, folder: str, trace: str) -> None:
    """The commands of a folder, with no variable set and none of them on the PATH, judge a trace."""
    here = {"PATH": os.pathsep.join({os.path.dirname(shutil.which(name)) for name in NEEDED})}
    ended = [subprocess.run([f"{folder}/bin/{command}", *words], capture_output=True, env=here, cwd=os.path.dirname(trace))
             for command, words in zip(COMMANDS, (["verdict", trace], [trace], [os.path.dirname(trace)]))]
    verdict, explained, many = [Ended(done.returncode, done.stdout, done.stderr) for done in ended]
    tally.same(f"{where}: the program", verdict, Ended(1, REPORT, b""))
    tally.check(f"{where}: explain", explained.status == 1 and explained.out.startswith(b"contents 2.1: "), explained)
    tally.check(f"{where}: judge_many", many.status == 1 and many.out.endswith(b"1 trace: 1 contents\n"), many)


def works_alone(tally: Tally, where: str, root: str, command: str, program: str) -> None:
    """The program in a system that has, beside what is unpacked there, the libraries that it is linked with and nothing else."""
    for path in libraries(program):
        os.makedirs(root + os.path.dirname(path), exist_ok=True)
        shutil.copyfile(path, root + path)
        os.chmod(root + path, 0o755)
    Path(root, "one.trace").write_bytes(TRACE)
    change = ["chroot"] if os.geteuid() == 0 else ["unshare", "--map-root-user", "chroot"]
    done = subprocess.run([*change, root, command, "verdict", "/one.trace"], capture_output=True,
                          env={"PATH": f"{os.environ['PATH']}:/usr/sbin:/sbin"})
    tally.same(f"{where}: in a system of its own", Ended(done.returncode, done.stdout, done.stderr), Ended(1, REPORT, b""))


def unpacked(tally: Tally, program: str, folder: str, trace: str) -> None:
    """By the command of the README, in a home without anything."""
    name = names_of(program)[1]
    command = re.search(rf"^    ((?:mkdir.*)?tar -xzf {re.escape(name)} .*)$", (ROOT / "README.md").read_text(), re.MULTILINE)
    tally.check(f"README has a command for {name}", command is not None)
    home = f"{folder}/alone/home"
    os.makedirs(f"{home}/.local/share")
    os.chmod(f"{home}/.local/share", 0o700)
    shutil.copy(f"{folder}/made/{name}", home)
    done = subprocess.run(["sh", "-c", command[1] if command else ""], cwd=home, env={"HOME": home, "PATH": os.environ["PATH"]},
                          capture_output=True)
    tally.check(f"unpacked: {command and command[1]}", done.returncode == 0 and not done.stderr, done)
    tally.check("unpacked: a folder that was there keeps its mode", os.stat(f"{home}/.local/share").st_mode & 0o777 == 0o700)
    works(tally, "unpacked", f"{home}/.local", trace)
    works_alone(tally, "unpacked", f"{folder}/alone", "/home/.local/bin/domepeeler", program)


def installed(tally: Tally, program: str, folder: str, trace: str, needed: set) -> None:
    """By dpkg, from which nothing is left where it is removed, though the tools were run."""
    root = system(f"{folder}/system", needed)
    done = dpkg(root, "--install", f"{folder}/made/{names_of(program)[2]}")
    tally.check("installed: by dpkg", done.returncode == 0, done)
    done = dpkg(root, "--verify", "domepeeler")
    tally.check("installed: as the sums say", done.returncode == 0 and not done.stdout, done)
    works(tally, "installed", f"{root}/usr", trace)
    works_alone(tally, "installed", root, "/usr/bin/domepeeler", program)
    for command in COMMANDS:
        done = subprocess.run(["man", command], capture_output=True, text=True,
                              env=os.environ | {"MANPATH": f"{root}/usr/share/man", "LC_ALL": "C"})
        tally.check(f"installed: man {command}", "domepeeler - judge recordings" in done.stdout and not done.stderr, done)
    done = dpkg(root, "--purge", "domepeeler")
    left = [path for path in Path(root).rglob("*domepeeler*") if "var/lib/dpkg" not in str(path)]
    tally.check("installed: nothing is left of it", done.returncode == 0 and not left and "not empty" not in done.stderr, (done, left))


def faults(tally: Tally, program: str, folder: str) -> None:
    """One line in plain words, status 2, and nothing is made."""
    Path(folder, "file").write_text("no program\n")
    wanted = [([f"{folder}/missing", folder, KIT], f"cannot read {folder}/missing: No such file or directory"),
              ([f"{folder}/file", folder, KIT], f"{folder}/file is no program for Linux on x86-64"),
              ([shutil.which("true"), folder, KIT], f"{shutil.which('true')} does not say that it is domepeeler"),
              ([program, folder, " "], "the toolchain's own line is empty: give what `rt version` prints"),
              ([program, f"{folder}/file", KIT], f"cannot write {folder}/file: File exists")]
    for words, told in wanted:
        tally.same(f"fault: {told}", package(words), Ended(2, b"", f"package: {told}\n".encode()))
    done = subprocess.run([sys.executable, PACKAGE, program, folder, KIT], capture_output=True, env={"PATH": folder})
    tally.same("fault: no git", Ended(done.returncode, done.stdout, done.stderr),
               Ended(2, b"", b"package: git is needed: on Debian, apt-get install git\n"))
    odd, told = f"{folder}/x\n::error::\x1b[31m\udcff", f"{folder}/x\\n::error::\\x1b[31m\\xff"
    tally.same("fault: an odd name", package([odd, folder, KIT]), Ended(2, b"", f"package: cannot read {told}: No such file or directory\n".encode()))
    got = package([program, folder, KIT, odd])
    tally.check("fault: an odd word", got.status == 2 and got.err.endswith(f": unrecognized arguments: {told}\n".encode()), got)
    got = package([program, folder])
    tally.check("fault: a word lacks", got.status == 2 and got.err.startswith(b"usage: ") and b"KIT" in got.err, got)
    tally.check("fault: nothing is made", os.listdir(folder) == ["file"], os.listdir(folder))
    write = ("import runpy, sys; from pathlib import Path; sys.path.append(str(Path(sys.argv[1]).parent)); "
             "runpy.run_path(sys.argv[1])['write'](Path(sys.argv[2]), bytes(9999))")
    done = subprocess.run(["sh", "-c", 'ulimit -f 1; trap "" XFSZ; exec "$@"', "sh", sys.executable, "-c", write, MODULE, f"{folder}/file"],
                          capture_output=True, text=True)
    tally.check("fault: what can't be written whole is not written", done.stderr.endswith(f"File too large: '{folder}/file'\n") and
                os.listdir(folder) == ["file"] and Path(folder, "file").read_text() == "no program\n", (done, os.listdir(folder)))


def main() -> None:
    program = program_of(sys.argv)
    need("/usr/bin/python3", "python3")
    need("man", "man-db")
    need("dpkg-shlibdeps", "dpkg-dev")
    need("lintian", "lintian")
    tally = Tally()
    with tempfile.TemporaryDirectory() as folder, tempfile.TemporaryDirectory() as other, tempfile.TemporaryDirectory() as empty:
        Path(other, "one.trace").write_bytes(TRACE)
        same_bytes(tally, program, folder)
        debian_has(tally, program, folder, archive_has(tally, program, folder))
        needed = depends(tally, program, folder)
        unpacked(tally, program, folder, f"{other}/one.trace")
        installed(tally, program, folder, f"{other}/one.trace", needed)
        faults(tally, program, empty)
    tally.close()


if __name__ == "__main__":
    main()
