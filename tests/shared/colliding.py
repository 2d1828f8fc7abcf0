"""Recordings whose names were chosen so that a map looks for all of them in one place, were it not for a key that it takes from the
names: and how long the program takes over them."""
import itertools
import os
import subprocess
from pathlib import Path

from shared.forger import line
from shared.program import Tally, processor_seconds, run

SOURCE = Path(__file__).with_name("colliding_names.c")
REPLICAS = 16
# Names for each group of a map: a map that is made with room for so many has the least power of two of groups that suffices.
GROUP_LOAD = 9
HASHERS = "fold", "quick", "sip"
LETTERS = "ABCDEFGHIJKLMNOPQRSTUVWXYZabcdefghijklmnopqrstuvwxyz0123456789_-."


def colliding_names(folder: str, hasher: str, many: int) -> list:
    """So many names of seven bytes that share a group of a map with room for them, by a hasher of `colliding_names.c`."""
    program = os.path.join(folder, "colliding_names")
    if not os.path.exists(program):
        subprocess.run(["cc", "-O2", "-o", program, str(SOURCE)], check=True)
    groups = 1
    while GROUP_LOAD * groups < many:
        groups *= 2
    return subprocess.run([program, hasher, str(groups), str(many)], check=True, stdout=subprocess.PIPE, text=True).stdout.split()


def names_of_a_sparse_factor(many: int) -> list:
    """So many names of 32 bytes that share few groups by the kit's quick hasher, whatever it begins with. It multiplies by each name's
    last eight bytes, joined with a constant. By these the product is a few shifts, so the bits that tell the group hardly depend on the
    letters that differ."""
    triples = itertools.product(LETTERS, repeat=3)
    return [f"{'a' * 18}{p}{i}aa{q}a5xJo9y7N" for i, p, q in itertools.islice(triples, many)]


def other_names(many: int, length: int) -> list:
    """As many names of the same length."""
    return [f"n{number:06d}".ljust(length, "x") for number in range(many)]


def trace(names: list) -> str:
    """All replicas insert their share of the names, one after the other, and delete each at once: so nothing is wrong."""
    each, lines = len(names) // REPLICAS, ["trace 1", f"replicas {REPLICAS}"]
    for r in range(REPLICAS):
        for name in names[r * each:(r + 1) * each]:
            lines += [f"{r} ins {name} 0 : {name}", f"{r} del {name} :"]
    return "".join(text + "\n" for text in lines)


def chosen_names(tally: Tally, program: str, folder: str, many: int) -> None:
    """Names that were chosen to collide cost a verdict, and a certificate's check, about what other names of their length cost; the
    answers are those of the others, under the other names."""
    many -= many % REPLICAS
    path, cert = os.path.join(folder, "names"), os.path.join(folder, "names.cert")
    chosen = {hasher: colliding_names(folder, hasher, many) for hasher in HASHERS} | {"a sparse factor": names_of_a_sparse_factor(many)}
    seconds, answers, usual = {}, {}, {}
    for kind, names in chosen.items():
        usual[kind] = f"others of {len(names[0])} bytes"
    others = {told: other_names(many, len(chosen[kind][0])) for kind, told in usual.items()}
    for kind, names in [*others.items(), *chosen.items()]:
        tally.check(f"{many} names, {kind}", len(set(names)) == many, len(set(names)))
        Path(path).write_text(trace(names))
        back = dict(zip(names, others[usual.get(kind, kind)]))
        for command in "verdict", "cert":
            before = processor_seconds()
            got = run(program, [command, path])
            seconds[command, kind] = processor_seconds() - before
            answers[command, kind] = got.status, [back.get(word, word) for word in got.out.decode().split()], got.err
            if command == "cert":
                Path(cert).write_bytes(got.out)
        before = processor_seconds()
        got = run(program, ["verify", path, cert])
        seconds["verify", kind] = processor_seconds() - before
        tally.same(f"verify with {kind}", got, line("yes accepted\n"))
    for kind, told in usual.items():
        for command in "verdict", "cert", "verify":
            took, wanted = seconds[command, kind], seconds[command, told]
            tally.check(f"{command} of names that collide by {kind}", took < 2 * wanted + 0.02,
                        f"{took:.3f} s of processor, {told} {wanted:.3f} s")
        for command in "verdict", "cert":
            same = answers[command, kind] == answers[command, told]
            tally.check(f"{command} of names that collide by {kind}: the same answer", same)
