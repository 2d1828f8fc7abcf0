"""Random small sessions as traces, which other scripts judge: by any order, by plans that lead to rings, and with a fault.

A share of them holds views, and a few without a view are spelled in version 2 all the same."""
from __future__ import annotations

import random

# Names whose order by bytes says nothing of the order of inserts.
NAMES = ["a", "b", "c", "Z", "_", "-", ".", "0", "10", "9.1", "ins", "del", "read", "view", "recv", "e-1", "E_1", "x" * 32]
PAST_THE_END = [7, 4096, 4294967295]
OTHER_KIND = {"read": "view", "view": "read"}


class Editor:
    """A replica: the operations that it knows of, which are its own and those that it heard of."""

    def __init__(self, number: int):
        self.number = number
        self.known = set()
        self.did = []  # of each operation, all that was known behind it


class Session:
    """A session as it is played: what each editor answers is right in its contents and positions, in orders of the
    session's own choosing."""

    def __init__(self, rnd: random.Random, views: bool = True):
        self.rnd = rnd
        self.share_of_views = rnd.choice([0, 0, 0.3, 0.8]) if views else 0
        self.may_be_version_2 = views
        self.editors = [Editor(number) for number in range(rnd.randint(2, 4))]
        self.names = rnd.sample(NAMES, rnd.randint(1, 5))
        self.effects = {}  # by operation: what it inserts or deletes, as (kind, name)
        self.lines = []
        self.ordered = rnd.choice([self.one_order, self.each_its_own, self.tournament, self.round])
        self.order = rnd.sample(self.names, len(self.names))
        self.beats = {pair for i, a in enumerate(self.names) for b in self.names[:i]
                      for pair in [rnd.choice([(a, b), (b, a)])]}

    def one_order(self, shown: list) -> list:
        """All editors keep one order."""
        return sorted(shown, key=self.order.index)

    def each_its_own(self, shown: list) -> list:
        """Now and then two elements are exchanged."""
        w = sorted(shown, key=self.order.index)
        if len(w) > 1 and self.rnd.random() < 0.2:
            i = self.rnd.randrange(len(w) - 1)
            w[i], w[i + 1] = w[i + 1], w[i]
        return w

    def tournament(self, shown: list) -> list:
        """Of each two elements one stands first wherever both are shown, where that can be."""
        return sorted(shown, key=lambda a: (-sum((a, b) in self.beats for b in shown), self.order.index(a)))

    def round(self, shown: list) -> list:
        """The elements stand in a ring, and a response begins behind the widest gap."""
        places = sorted(self.order.index(a) for a in shown)
        if not places:
            return []
        gaps = [(places[i] - places[i - 1]) % len(self.order) for i in range(len(places))]
        first = gaps.index(max(gaps))
        return [self.order[p] for p in places[first:] + places[:first]]

    def shown_to(self, editor: Editor) -> list:
        effects = [self.effects[e] for e in editor.known]
        gone = {name for kind, name in effects if kind == "del"}
        return self.ordered(sorted({name for kind, name in effects if kind == "ins"} - gone))

    def part(self, shown: list) -> list:
        """A part of a list: a window of it, or elements here and there; these mostly as they stand in the list, else in an order of
        their own."""
        if self.rnd.random() < 0.4:
            first, behind = sorted(self.rnd.randint(0, len(shown)) for _ in range(2))
            return shown[first:behind]
        share = self.rnd.choice([0.3, 0.6, 0.9])
        some = [a for a in shown if self.rnd.random() < share]
        return some if self.rnd.random() < 0.5 else self.ordered(sorted(some))

    def look(self, editor: Editor) -> None:
        self.operate(editor, "view" if self.share_of_views and self.rnd.random() < self.share_of_views else "read")

    def operate(self, editor: Editor, kind: str, name: str = "", wanted: list | None = None) -> None:
        """`wanted` is what a view shows, where that is planned."""
        operation = (editor.number, len(editor.did) + 1)
        self.effects[operation] = (kind, name)
        editor.known.add(operation)
        editor.did.append(set(editor.known))
        shown = self.shown_to(editor)
        if kind == "view":
            shown = self.part(shown) if wanted is None else wanted
        words = [str(editor.number), kind, *([name] if name else [])]
        if kind == "ins":
            at = shown.index(name) if name in shown else 0
            words.append(str(self.rnd.choice(PAST_THE_END) if at + 1 >= len(shown) and self.rnd.random() < 0.2 else at))
        self.lines.append(" ".join([*words, ":", *shown]))

    def receive(self, editor: Editor, other: Editor, n: int) -> None:
        editor.known |= other.did[n - 1]
        self.lines.append(f"{editor.number} recv {other.number} {n}")

    def hear(self, editor: Editor) -> None:
        """Mostly of another's last operation, now and then of an earlier one, which may have arrived before."""
        other = self.rnd.choice(self.editors)
        if other is not editor and other.did:
            n = len(other.did)
            self.receive(editor, other, n if self.rnd.random() < 0.7 else self.rnd.randint(1, n))

    def play(self) -> str:
        """Edits without a plan."""
        left = list(self.names)
        share_of_deletes = self.rnd.choice([0.1, 0.3, 0.5])
        for _ in range(self.rnd.randint(0, 24)):
            editor, luck = self.rnd.choice(self.editors), self.rnd.random()
            if luck < 0.4:
                self.hear(editor)
            elif luck < 0.6 and left:
                self.operate(editor, "ins", left.pop())
            elif luck < 0.6 + 0.4 * share_of_deletes:
                shown = self.shown_to(editor)
                self.operate(editor, "del", self.rnd.choice(shown if shown and self.rnd.random() < 0.9 else NAMES))
            else:
                self.look(editor)
        return self.text()

    def play_ring(self) -> str:
        """Edits by a plan that shows each two neighbours of a ring alone, with other moves between."""
        self.ordered = self.round
        ring = self.order = self.rnd.sample(self.names, self.rnd.randint(3, len(self.names)))
        p, q, r = self.rnd.sample(self.editors, 3)
        met = self.rnd.randint(2, len(ring) - 1)
        moves = [(p, "ins", ring[0]), (q, "recv", p), (r, "recv", p)]
        for a, b in zip(ring, ring[1:met]):
            moves += [(r, "ins", b), (r, "del", a)]
        for a, b in zip([ring[0], *ring[:met:-1]], ring[:met - 1:-1]):
            moves += [(q, "ins", b), (q, "del", a)]
        moves += [(p, "recv", r), (p, "recv", q), (p, "read", "")]
        share_of_others = self.rnd.choice([0, 0.1, 0.3])
        for editor, kind, what in moves:
            self.others_move(share_of_others)
            if kind == "recv":
                self.receive(editor, what, len(what.did))
            else:
                self.operate(editor, kind, what)
        return self.text()

    def play_windows(self) -> str:
        """One editor hears of all elements, and shows each two neighbours of a ring, or three of it, in a view; and other parts between."""
        self.ordered = self.one_order
        ring = self.order = self.rnd.sample(self.names, self.rnd.randint(2, len(self.names)))
        hub, *others = self.rnd.sample(self.editors, len(self.editors))
        for name in ring:
            self.operate(self.rnd.choice(others), "ins", name)
        for other in others:
            if other.did:
                self.receive(hub, other, len(other.did))
        shown = [[ring[i - 1], ring[i]] for i in range(len(ring))]
        if len(ring) > 3 and self.rnd.random() < 0.3:
            shown[1] = [*shown[1], ring[2]]
        self.rnd.shuffle(shown)
        share_of_others = self.rnd.choice([0, 0.1, 0.3])
        for names in shown:
            self.others_move(share_of_others)
            self.operate(hub, "view", wanted=names)
        return self.text()

    def others_move(self, share: float) -> None:
        """Moves of any editors, that were not planned."""
        while self.rnd.random() < share:
            self.rnd.choice([self.hear, self.look])(self.rnd.choice(self.editors))

    def text(self) -> str:
        needs_2 = any(line.split(" ")[1] == "view" for line in self.lines)
        is_2 = needs_2 or self.may_be_version_2 and self.rnd.random() < 0.1
        return "".join(line + "\n" for line in ["trace 2" if is_2 else "trace 1", f"replicas {len(self.editors)}", *self.lines])


def session(rnd: random.Random, views: bool = True) -> str:
    """A session; where no views are asked for it is spelled in version 1."""
    played = Session(rnd, views)
    if played.share_of_views > 0.5 and len(played.names) > 1 and rnd.random() < 0.4:
        return played.play_windows()
    return played.play_ring() if len(played.editors) > 2 and len(played.names) > 2 and rnd.random() < 0.7 else played.play()


def with_fault(rnd: random.Random, text: str, views: bool = True) -> str:
    """The text with one change of an operation that leaves it a trace; where views are asked for, one more kind of change makes a
    read a view or a view a read."""
    lines = text.splitlines()
    places = [i for i, line in enumerate(lines) if ":" in line.split()]
    if not places:
        return text
    at = rnd.choice(places)
    words = lines[at].split()
    colon = words.index(":")
    front, response = words[:colon], words[colon + 1:]
    inserts = [i for i in places if lines[i].split()[1] == "ins"]
    kind = rnd.randrange(8 if views else 7)
    if kind == 0 and response:
        response.pop(rnd.randrange(len(response)))
    elif kind == 1:
        response.insert(rnd.randint(0, len(response)), rnd.choice(NAMES))
    elif kind == 2 and response:
        response.insert(rnd.randint(0, len(response)), rnd.choice(response))
    elif kind == 3 and response:
        response[rnd.randrange(len(response))] = rnd.choice(NAMES)
    elif kind in (4, 5) and inserts:
        at = rnd.choice(inserts)
        words = lines[at].split()
        front, response = words[:4], words[5:]
        front[3] = str(rnd.choice([0, 1, 2, 3, 4294967295]))
        rnd.shuffle(response) if kind == 5 else None
    elif kind == 6 and len(inserts) > 1:
        at, other = rnd.sample(inserts, 2)
        words = lines[at].split()
        front, response = [*words[:2], lines[other].split()[2], words[3]], words[5:]
    elif kind == 7 and front[1] in OTHER_KIND:
        lines[0] = "trace 2"
        front = [front[0], OTHER_KIND[front[1]]]
    lines[at] = " ".join([*front, ":", *response])
    return "".join(line + "\n" for line in lines)
