#!/usr/bin/env python3
"""certificates.py PROGRAM [--forgeries N [--seed N]]: certificates that the program writes, and its checker's answers, on
vectors, on forged certificates and on cut ones. On generated recordings generated.py asks for both, against two slow references.

The forgeries, 3,000 unless told otherwise, are changes of the certificates of the vectors and of 200 generated recordings, in
both versions; the checker's line must be the reference checker's."""
import argparse
import os
import random
import sys
import tempfile
from collections import Counter
from pathlib import Path

ROOT = Path(__file__).resolve().parents[2]
sys.path.insert(0, str(ROOT / "tests"))
from reference.traces import spellings  # noqa: E402
from reference.verdicts import first_fault, recording_of  # noqa: E402
from shared.colliding import chosen_names  # noqa: E402
from shared.forger import line  # noqa: E402
from shared.forgeries import ANOTHERS, KINDS, Certified, certified, forgery, generated  # noqa: E402
from shared.program import Ended, Tally, fault, is_short, processor_seconds, program_of, run  # noqa: E402
from shared.two_orders import Exchanged, TwoOrders, names_that_share_slots, share_slots  # noqa: E402

VECTORS = ROOT / "tests" / "vectors"
SEED = 1984
FORGERIES = 3000
RECORDINGS = 200
WALKS = 60
STEPS = 40_000
# So many names that a map with room for them has 2,048 groups.
CHOSEN_NAMES = 18_000
OTHERS = "z000001", "z200000"
THREE_WAY = VECTORS / "all-three-way-cycle.trace"
USAGE = [["cert"], ["cert", "t", "u"], ["cert", "--json", "t"], ["cert", "--workers", "2", "t"], ["verify"], ["verify", "t"], ["verify", "t", "u", "v"],
         ["verify", "--json", "t", "u"], ["cert", b"\xff"]]


def kind_in(certificate: bytes) -> str:
    return certificate.split(b"\n")[1].split(b" ")[0].decode()


def vectors(tally: Tally, program: str) -> None:
    for trace in sorted(VECTORS.glob("*.trace")):
        of_versions = [trace.with_suffix(suffix) for suffix in (".cert1", ".cert2")]
        status = int(trace.with_suffix(".status").read_text())
        wanted = Ended(status, of_versions[1].read_bytes(), b"")
        tally.same(f"cert {trace.name}", run(program, ["cert", str(trace)]), wanted)
        tally.same(f"cert of {trace.name} from standard input", run(program, ["cert", "-"], trace.read_bytes()), wanted)
        for spelling in spellings(trace.read_text())[1:]:
            tally.same(f"cert of {trace.name} as trace 2", run(program, ["cert", "-"], spelling.encode()), wanted)
        for cert in of_versions:
            said = line(f"yes {kind_in(cert.read_bytes())}\n")
            tally.same(f"verify {cert.name}", run(program, ["verify", str(trace), str(cert)]), said)
            tally.same(f"verify - {cert.name}", run(program, ["verify", "-", str(cert)], trace.read_bytes()), said)
            tally.same(f"verify {cert.name} -", run(program, ["verify", str(trace), "-"], cert.read_bytes()), said)
    for path in sorted(VECTORS.glob("forged/*.cert")):
        said = path.with_suffix(".line").read_text()
        tally.same(f"forged {path.name}", run(program, ["verify", str(path.with_suffix(".trace")), str(path)]), line(said))


def malformed(tally: Tally, program: str) -> None:
    """A trace that spells no recording is a fault where a certificate is asked for, and an answer of the checker."""
    for path in sorted(VECTORS.glob("malformed/*.trace")):
        words = path.with_suffix(".fault").read_text().rstrip("\n")
        tally.same(f"cert {path.name}", run(program, ["cert", str(path)]), fault(words))
        tally.same(f"verify {path.name}", run(program, ["verify", str(path), os.devnull]), line("no trace\n"))


def prefixes(tally: Tally, program: str) -> None:
    """Each prefix of the three-way cycle's certificates: it spells one only where just rows are missing."""
    for suffix, many, missing in (".cert1", 95, {56: "x", 69: "a", 82: "b"}), (".cert2", 91, {56: "x", 69: "a", 80: "b"}):
        whole = THREE_WAY.with_suffix(suffix).read_bytes()
        tally.check(f"three-way cycle, {suffix}: length", len(whole) == many, len(whole))
        for length in range(len(whole)):
            said = f"no missing {missing[length]}\n" if length in missing else "no text\n"
            tally.same(f"{length} bytes of {suffix}", run(program, ["verify", str(THREE_WAY), "-"], whole[:length]), line(said))


def forgeries(tally: Tally, program: str, folder: str, many: int, seed: int) -> None:
    """Forged certificates, of vectors and generated recordings: the checker's line is that of the reference."""
    rnd, kinds, said = random.Random(seed), Counter(), Counter()
    short = filter(is_short, sorted(VECTORS.glob("*.trace")))
    cases = generated(rnd, RECORDINGS)
    cases += [certified(trace.read_text(), *(trace.with_suffix(suffix).read_text() for suffix in (".cert1", ".cert2")))
              for trace in short]
    path = os.path.join(folder, "cert")
    for _ in range(many):
        kind, case, text = forgery(rnd, cases)
        Path(path).write_text(text)
        answer = case.answer(text)
        kinds[kind] += 1
        said[" ".join(answer.split()[:2])] += 1
        got = run(program, ["verify", "-", path], case.trace.encode())
        tally.same(f"{kind}: verify of\n{case.trace}with\n{text}", got, line(answer))
    print(f"{many} forgeries of {len(cases)} recordings' certificates")
    print("forged: " + ", ".join(f"{n} {kind}" for kind, n in kinds.most_common()))
    print("answers to them: " + ", ".join(f"{n} {answer}" for answer, n in said.most_common()))
    tally.check("forgeries of all kinds", many < 1000 or set(kinds) == {*KINDS, ANOTHERS}, kinds)
    wanted = {f"no {why}" for why in ("fault", "order", "followed", "cycle", "missing", "short", "extra")} | {"yes refused"}
    tally.check("answers of all kinds", many < 1000 or wanted <= set(said), said)


def walks(tally: Tally, program: str, folder: str, rnd: random.Random) -> None:
    """Refusals of thousands of steps, whose names are found again where they were found before: all steps are right, or one is
    not. What comes first is missing rows, or that step."""
    orders, path = TwoOrders(9), os.path.join(folder, "cert")
    recording = recording_of(orders.trace())
    case = Certified(orders.trace(), recording, first_fault(recording), ())
    for number in range(WALKS):
        steps = orders.walk(rnd, rnd.choice([3, 2047, 2048, 2500]))
        if number % 6:
            at = rnd.randrange(len(steps))
            _, first, second, shown = steps[at].split()
            other = rnd.choice(orders.of[rnd.randrange(2)])
            steps[at] = "step " + [f"{second} {first} {shown}", f"{first} {second} {orders.reads[rnd.randrange(2)]}", f"{first} {other} {shown}",
                                   f"{other} {second} {shown}", f"{first} none {shown}"][number % 6 - 1] + "\n"
        text = f"cert 2\nrefused {len(steps)}\n" + "".join(steps)
        Path(path).write_text(text)
        tally.same(f"verify of {len(steps)} steps, walk {number}", run(program, ["verify", "-", path], case.trace.encode()), line(case.answer(text)))


def shared_slots(tally: Tally, program: str, folder: str) -> None:
    """Right steps of two names, the places of which the checker notes in one slot, take about as long as those of two others."""
    trace, path = os.path.join(folder, "trace"), os.path.join(folder, "cert")
    seconds = []
    for names in OTHERS, names_that_share_slots():
        case = Exchanged(*names)
        Path(trace).write_text(case.trace())
        Path(path).write_text(f"cert 2\nrefused {STEPS}\n" + case.round() * (STEPS // 2))
        before = processor_seconds()
        got = run(program, ["verify", trace, path])
        seconds.append(processor_seconds() - before)
        tally.same(f"verify of {STEPS} steps of {names}", got, line(f"no missing {case.of[0][0]}\n"))
    tally.check("the others share no slot", not share_slots(*OTHERS))
    tally.check("names that share a slot", seconds[1] < 4 * seconds[0], f"{seconds[1]:.2f} s of processor, others {seconds[0]:.2f} s")


def command_line(tally: Tally, program: str, folder: str) -> None:
    trace, cert = str(THREE_WAY), str(THREE_WAY.with_suffix(".cert2"))
    missing, other = os.path.join(folder, "missing"), os.path.join(folder, "other")
    for words in USAGE:
        tally.same(f"usage {words}", run(program, words), fault("usage"))
    for words in ["cert", "--help"], ["verify", "--help"], ["help", "cert"]:
        got = run(program, words)
        tally.check(f"help {words}", got.status == 0 and got.out.endswith(b"\n") and b"FILE" in got.out and not got.err, got)
    tally.same("cert of a missing file", run(program, ["cert", missing]), fault(f"cannot read {missing}"))
    tally.same("verify, the trace is opened first", run(program, ["verify", missing, other]), fault(f"cannot read {missing}"))
    tally.same("verify without a certificate", run(program, ["verify", trace, other]), fault(f"cannot read {other}"))
    tally.same("verify with a folder", run(program, ["verify", trace, folder]), fault(f"cannot read {trace}"))
    tally.same("verify of a folder", run(program, ["verify", folder, cert]), fault(f"cannot read {folder}"))
    tally.same("both from one pipe", run(program, ["verify", "-", "-"], THREE_WAY.read_bytes()), line("no text\n"))
    for words in ["cert", trace], ["verify", trace, cert]:
        with open("/dev/full", "wb") as full:
            tally.same(f"a full output, {words}", run(program, words, out=full), fault("cannot write"))


def main() -> None:
    words = argparse.ArgumentParser(description=__doc__)
    words.add_argument("program")
    words.add_argument("--forgeries", type=int, default=FORGERIES, help="how many forged certificates")
    words.add_argument("--seed", type=int, default=SEED, help="where the random choices begin")
    given = words.parse_args()
    program = program_of([sys.argv[0], given.program])
    tally = Tally()
    vectors(tally, program)
    malformed(tally, program)
    prefixes(tally, program)
    with tempfile.TemporaryDirectory() as folder:
        forgeries(tally, program, folder, given.forgeries, given.seed)
        walks(tally, program, folder, random.Random(given.seed))
        shared_slots(tally, program, folder)
        chosen_names(tally, program, folder, CHOSEN_NAMES)
        command_line(tally, program, folder)
    tally.close()


if __name__ == "__main__":
    main()
