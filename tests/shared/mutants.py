"""Texts with random changes, most of which are no traces any more, and traces with changes that mostly leave them traces."""
import random

WORDS = [b"0", b"1", b"2", b"01", b"4294967295", b"4294967296", b"ins", b"del", b"read", b"view", b"recv", b":", b"a", b"",
         b"trace 1", b"trace 2", b"replicas 2", b"\n", b" ", b"\r\n", b"\0", b"\xff", b"\xc3\xa4"]

OTHER_VERSION = {b"trace 1\n": b"trace 2\n", b"trace 2\n": b"trace 1\n"}
OTHER_KIND = {b"read": b"view", b"view": b"read"}


def some_bytes(rnd: random.Random) -> bytes:
    alphabet = rnd.choice([bytes(range(256)), b"0123456789 :abdeilnprstvw.\n", b"trace 1\nreplicas 2\n0 ins a : 0"])
    return bytes(rnd.choice(alphabet) for _ in range(rnd.randint(0, 400)))


def mutated(rnd: random.Random, text: bytes, other: bytes) -> bytes:
    """The text with one change."""
    at, end = sorted(rnd.randint(0, len(text)) for _ in range(2))
    end = min(end, at + 40)
    kind = rnd.randrange(8)
    if kind == 0:
        return text[:at] + bytes([rnd.randrange(256)]) + text[at + 1:]
    if kind == 1:
        return text[:at] + text[end:]
    if kind == 2:
        return text[:end] + text[at:end] + text[end:]
    if kind == 3:
        return text[:at] + rnd.choice(WORDS) + text[at:]
    if kind == 4:
        lines = text.split(b"\n")
        i, j = rnd.randrange(len(lines)), rnd.randrange(len(lines))
        lines[i], lines[j] = lines[j], lines[i]
        return b"\n".join(lines)
    if kind == 5:
        words = text.split(b" ")
        words[rnd.randrange(len(words))] = rnd.choice(WORDS)
        return b" ".join(words)
    if kind == 6:
        return text[:at] + other[min(at, len(other)):]
    return text[:at]


def edited(rnd: random.Random, text: bytes) -> bytes:
    """The text with one change that mostly leaves it a trace: of a name, a number, the order of two lines, the version, or a read
    that becomes a view, or a view a read."""
    lines = text.splitlines(keepends=True)
    if rnd.random() < 0.1:
        lines[0] = OTHER_VERSION.get(lines[0], lines[0])
        return b"".join(lines)
    at = rnd.randrange(min(2, len(lines) - 1), len(lines))
    if rnd.random() < 0.3:
        other = rnd.randrange(min(2, len(lines) - 1), len(lines))
        lines[at], lines[other] = lines[other], lines[at]
        return b"".join(lines)
    words = lines[at].rstrip(b"\n").split(b" ")
    i = rnd.randrange(len(words))
    if words[i] in OTHER_KIND:
        words[i] = OTHER_KIND[words[i]]
        lines[0] = b"trace 2\n" if rnd.random() < 0.8 else lines[0]
    elif words[i].isdigit():
        words[i] = b"%d" % rnd.randrange(4)
    elif b":" in words and i > words.index(b":"):
        words[i:i + 1] = rnd.choice([[], [words[i]] * 2, [rnd.choice(words[words.index(b":") + 1:])], [b"new"]])
    lines[at] = b" ".join(words) + b"\n"
    return b"".join(lines)
