"""An archive and a Debian package of a built program. It is started by tools/package, which a Python of any age can read."""
import argparse
import contextlib
import gzip
import hashlib
import io
import os
import re
import shutil
import struct
import subprocess
import sys
import tarfile
import tempfile
from email.utils import formatdate
from pathlib import Path
from typing import NamedTuple

from explaining.files import shown

ROOT = Path(__file__).resolve().parent.parent
TEXT = "share/doc/domepeeler/build.txt"
COMMANDS = {"git": "git", "dpkg-shlibdeps": "dpkg-dev", "strip": "binutils"}  # that it runs, and Debian's packages that have them
LICENCES = ["LICENSE", "LICENSE-MIT", "LICENSE-APACHE"]
TOOLS_NEED = "python3 (>= 3.9)"
ELF, CLASS_64, X86_64 = b"\x7fELF", 2, 62  # a program's first bytes, and two numbers that stand behind them
SEGMENTS, LOADED = "<32xQ14xHH", 1  # where a program's head has the place, the length and the number of its segments; a loaded one
SEGMENT = "<IIQQQQQQ"  # kind, flags, place in the file, address twice, length in the file, length, alignment
NOT_LOADED = slice(40, 48), slice(58, 64)  # of a head: where its table of sections is, which nothing loads
CONTROL = """Package: domepeeler
Version: {version}
Architecture: amd64
Maintainer: The Domepeeler maintainers <maintainers@domepeeler.invalid>
Installed-Size: {kilobytes}
Depends: {needed}
Suggests: parallel, rsync
Section: devel
Priority: optional
Description: judge recordings of replicated text editors
 It says which responses of an editor's replicas can't be right together, by the
 strong and the weak list specification. The program is formally proved. Two
 tools explain a verdict in words and judge whole folders, and recorders for
 Python, JavaScript, Rust, C and Emacs Lisp write the recordings.
"""


# Debian has the text of Apache's licence on every machine, and wants no other copy.
COPYRIGHT = """Format: https://www.debian.org/doc/packaging-manuals/copyright-format/1.0/
Upstream-Name: domepeeler

Files: *
Copyright: The Domepeeler authors
License: Apache-2.0 or Expat

License: Apache-2.0
 The text of this licence is in /usr/share/common-licenses/Apache-2.0.

License: Expat
{mit}
"""
CHANGELOG = """domepeeler ({version}) unstable; urgency=medium

  * What changed for users stands in /usr/share/domepeeler/CHANGELOG.md.

 -- The Domepeeler maintainers <maintainers@domepeeler.invalid>  {day}
"""


class Commit(NamedTuple):
    """What the repository is at: `name` has a word on changes that are in no commit."""

    name: str
    seconds: int


class Parser(argparse.ArgumentParser):
    """A parser that shows a wrong word as a name is shown."""

    def error(self, message: str) -> None:
        super().error(shown(message))


def fail(words: str) -> None:
    print(f"package: {shown(words)}", file=sys.stderr)
    sys.exit(2)


def words_asked(description: str) -> argparse.Namespace:
    parser = Parser(description=description, formatter_class=argparse.RawDescriptionHelpFormatter,
                                     epilog='For example: tools/package crates/finder_cli/out/finder_cli ~/packages "$(rt version)"')
    parser.add_argument("program", metavar="PROGRAM", help="the built program")
    parser.add_argument("folder", metavar="FOLDER", help="where the two files are put")
    parser.add_argument("kit", metavar="KIT", help="the toolchain by which it was proved, as `rt version` prints it")
    return parser.parse_args()


def output_of(words: list, **given: object) -> str:
    try:
        done = subprocess.run(words, capture_output=True, text=True, errors="replace", **given)
    except OSError as error:
        fail(f"{words[0]} can't be run: {error.strerror}")
    if done.returncode != 0:
        fail(f"{words[0]} ended with status {done.returncode}: {(done.stderr.strip() or 'it said nothing').splitlines()[-1]}")
    return done.stdout


def version_of(program: str) -> str:
    """The version that the program prints, of a program for 64-bit Linux on x86."""
    try:
        head = Path(program).read_bytes()[:20]
    except OSError as error:
        fail(f"cannot read {program}: {error.strerror}")
    if not head.startswith(ELF) or head[4] != CLASS_64 or int.from_bytes(head[18:20], "little") != X86_64:
        fail(f"{program} is no program for Linux on x86-64")
    told = re.fullmatch(r"domepeeler ([0-9][0-9A-Za-z.+~]*)\n", output_of([program, "--version"]))
    if told is None:
        fail(f"{program} does not say that it is domepeeler")
    return told[1]


def commit_here() -> Commit:
    name, seconds = output_of(["git", "-C", str(ROOT), "log", "-1", "--format=%H %ct"]).split()
    changed = output_of(["git", "-C", str(ROOT), "status", "--porcelain"])
    return Commit(name + (", with changes that are in no commit" if changed else ""), int(seconds))


def put(program: str, folder: Path, build: str) -> None:
    """All that `tools/install` puts, and the text on where the program comes from."""
    output_of([str(ROOT / "tools/install"), str(folder)], env=os.environ | {"DOMEPEELER": program})
    (folder / TEXT).write_text(build, encoding="utf-8")


def build_text(program: str, version: str, commit: Commit, kit: str) -> str:
    digest = hashlib.sha256(Path(program).read_bytes()).hexdigest()
    proved = "".join(f"    {line}\n" for line in kit.strip().splitlines())
    return (f"domepeeler {version} for Linux on x86-64\ncommit {commit.name}\nSHA-256 of bin/domepeeler {digest}\n"
            f"proved and built by the toolchain that calls itself\n{proved}")


def in_order(folder: Path) -> list:
    """All that lies below the folder, by name."""
    return sorted(folder.rglob("*"), key=lambda path: path.relative_to(folder).parts)


def archive_of(folder: Path, seconds: int) -> bytes:
    """The files of the folder as a compressed archive, which knows no time but that of the commit, and no owner but root. It has
    no entries of folders, by which tar would change the modes of those that are there already, as of ~/.local/share."""
    packed = io.BytesIO()
    with tarfile.open(fileobj=packed, mode="w", format=tarfile.USTAR_FORMAT) as archive:
        for path in [path for path in in_order(folder) if path.is_file()]:
            entry = archive.gettarinfo(path, str(path.relative_to(folder.parent)))
            entry.mode, entry.mtime = mode_of(path), seconds
            entry.uid = entry.gid = 0
            entry.uname = entry.gname = "root"
            if entry.isreg():
                with path.open("rb") as file:
                    archive.addfile(entry, file)
            else:
                archive.addfile(entry)
    return gzip.compress(packed.getvalue(), mtime=0)


def mode_of(path: Path) -> int:
    if path.is_symlink():
        return 0o777
    return 0o755 if path.is_dir() or path.stat().st_mode & 0o100 else 0o644


def indented(text: str) -> str:
    """A licence as a paragraph of Debian's file: behind a blank, and a point for an empty line."""
    return "\n".join(f" {line}" if line.strip() else " ." for line in text.strip().splitlines())


def arrange(usr: Path, version: str, seconds: int) -> None:
    """What Debian wants otherwise: its places for zsh and licences, compressed manuals, a changelog, a program without symbols, and its own
    Python, which leaves no compiled files behind."""
    strip(usr)
    (usr / "share/zsh/site-functions").rename(usr / "share/zsh/vendor-completions")
    manuals = usr / "share/man/man1"
    for path in sorted(manuals.iterdir()):
        if path.read_text().startswith(".so "):
            (manuals / f"{path.name}.gz").symlink_to("domepeeler.1.gz")
        else:
            (manuals / f"{path.name}.gz").write_bytes(gzip.compress(path.read_bytes(), mtime=0))
        path.unlink()
    documents = usr / "share/doc/domepeeler"
    (documents / "copyright").write_text(COPYRIGHT.format(mit=indented((documents / "LICENSE-MIT").read_text())))
    for name in LICENCES:
        (documents / name).unlink()
    (documents / "changelog.gz").write_bytes(gzip.compress(CHANGELOG.format(version=version, day=formatdate(seconds)).encode(), mtime=0))
    for tool in (usr / "lib/domepeeler/tools").iterdir():
        if tool.is_file():
            tool.write_text(tool.read_text().replace("#!/usr/bin/env python3\n", "#!/usr/bin/python3 -B\n", 1))


def strip(usr: Path) -> None:
    """Takes the symbols out of the program, and says so. What is loaded of it stays byte for byte the proved one."""
    program, text = usr / "bin/domepeeler", usr / TEXT
    proved = program.read_bytes()
    output_of(["strip", "--strip-all", str(program)])
    if loaded(program.read_bytes()) != loaded(proved):
        fail("strip has changed the program itself")
    head, _, rest = text.read_text(encoding="utf-8").partition("SHA-256 of bin/domepeeler ")
    digest = hashlib.sha256(program.read_bytes()).hexdigest()
    text.write_text(f"{head}SHA-256 of the proved program {rest.partition(chr(10))[0]}\n"
                    f"SHA-256 of bin/domepeeler, which is that one without its symbols {digest}\n{rest.partition(chr(10))[2]}", encoding="utf-8")


def loaded(program: bytes) -> list:
    """The segments of a program that are loaded when it runs, each with where to."""
    head = bytearray(program[:64])
    for part in NOT_LOADED:
        head[part] = bytes(part.stop - part.start)
    whole = bytes(head) + program[64:]
    at, length, number = struct.unpack_from(SEGMENTS, program)
    told = [struct.unpack_from(SEGMENT, program, at + place * length) for place in range(number)]
    return [(segment, whole[segment[2]:segment[2] + segment[5]]) for segment in told if segment[0] == LOADED]


def needed_by(program: Path, work: Path) -> str:
    """The packages with the libraries that the program is linked with, as Debian's own tool finds them."""
    (work / "debian").mkdir()
    (work / "debian/control").write_text("Source: domepeeler\n\nPackage: domepeeler\nArchitecture: amd64\n")
    told = output_of(["dpkg-shlibdeps", "-O", "-e", str(program)], cwd=work)
    return told.strip().removeprefix("shlibs:Depends=")


def debian_package(folder: Path, work: Path, version: str, seconds: int) -> bytes:
    root = work / "root"
    root.mkdir()
    shutil.copytree(folder, root / "usr", symlinks=True)
    arrange(root / "usr", version, seconds)
    files = [path for path in in_order(root) if path.is_file() and not path.is_symlink()]
    sums = "".join(f"{hashlib.md5(path.read_bytes()).hexdigest()}  {path.relative_to(root)}\n" for path in files)
    kilobytes = sum(-(-path.stat().st_size // 1024) for path in files)
    needed = f"{needed_by(root / 'usr/bin/domepeeler', work)}, {TOOLS_NEED}"
    (root / "DEBIAN").mkdir()
    (root / "DEBIAN/md5sums").write_text(sums)
    (root / "DEBIAN/control").write_text(CONTROL.format(version=version, kilobytes=kilobytes, needed=needed))
    for path in [root, *in_order(root)]:
        if not path.is_symlink():
            path.chmod(mode_of(path))
        os.utime(path, (seconds, seconds), follow_symlinks=False)
    made = work / "made.deb"
    output_of(["dpkg-deb", "--root-owner-group", "-Zgzip", "--build", str(root), str(made)],
              env=os.environ | {"SOURCE_DATE_EPOCH": str(seconds)})
    return made.read_bytes()


def write(path: Path, packed: bytes) -> None:
    """Writes a file that appears whole or not at all."""
    part = path.with_name(f".package-{os.getpid()}")
    try:
        part.write_bytes(packed)
        os.replace(part, path)
    except OSError as error:
        raise OSError(error.errno, error.strerror, str(path)) from None
    finally:
        with contextlib.suppress(FileNotFoundError):
            part.unlink()


def run_command(description: str) -> None:
    asked = words_asked(description)
    if not asked.kit.strip():
        fail("the toolchain's own line is empty: give what `rt version` prints")
    for command, package in COMMANDS.items():
        if shutil.which(command) is None:
            fail(f"{command} is needed: on Debian, apt-get install {package}")
    program = os.path.abspath(asked.program)
    version, commit = version_of(program), commit_here()
    with tempfile.TemporaryDirectory() as work:
        folder = Path(work, f"domepeeler-{version}")
        put(program, folder, build_text(program, version, commit, asked.kit))
        made = {f"domepeeler-{version}-x86_64-linux.tar.gz": archive_of(folder, commit.seconds),
                f"domepeeler_{version}_amd64.deb": debian_package(folder, Path(work), version, commit.seconds)}
    try:
        os.makedirs(asked.folder, exist_ok=True)
        for name, packed in made.items():
            write(Path(asked.folder, name), packed)
            print(shown(os.path.join(asked.folder, name)), flush=True)
    except OSError as error:
        fail(f"cannot write {error.filename or asked.folder}: {error.strerror}")

