"""A session as rows of a page: a space-time diagram, time downwards, with a lane for each replica and a row for each line.

The lanes with operations and receipts are one picture; the text beside them is a list, so that it can be read, found and
reached by the keyboard. A row is as high as the picture says."""
from __future__ import annotations

from html import escape

from .cycle_picture import shortened
from .evidence import Evidence
from .letters import in_letters, letters_of
from .recordings import Operation, Receipt

ROW = 30  # the height of a row
LANES = 130  # how wide the lanes are together, where each is not too narrow or too wide
NARROWEST, WIDEST = 24, 56  # lanes
NODE = 9  # the radius of an operation
BOW = 0.7  # how far arrows bend towards their ends: straight ones of one operation would lie on one another
SIGNS = {"ins": "+", "del": "\u2212", "read": "=", "view": "~"}
MOST_NAMES = 300  # of a response on the page
MOST_LETTERS = 10  # for which there is room before what stands beside them moves to the right


class Rows:
    """Entries of a recording, in their order, to be drawn with gaps where lines are left out."""

    def __init__(self, evidence: Evidence, entries: list, prefix: str):
        self.evidence, self.prefix = evidence, prefix
        self.rows = []  # entries, and between them how many lines are left out
        last = 2
        for entry in entries:
            if entry.line > last + 1:
                self.rows.append(entry.line - last - 1)
            self.rows.append(entry)
            last = entry.line
        left = len(evidence.recording.lines) - last
        self.rows += [left] if left else []
        self.places = {row.line: place for place, row in enumerate(self.rows) if not isinstance(row, int)}
        replicas = sorted({entry.replica for entry in entries})
        self.lanes = {replica: lane for lane, replica in enumerate(replicas)}  # none for a replica without a row
        self.lane = max(NARROWEST, min(WIDEST, LANES // max(len(replicas), 1)))
        names = letters_of(evidence)
        operations = [entry for entry in entries if names and isinstance(entry, Operation)]
        self.letters = {operation.line: in_letters(operation.response, names) for operation in operations}

    def html(self) -> str:
        width = len(self.lanes) * self.lane
        room = min(MOST_LETTERS, max(map(len, self.letters.values()), default=0))
        rows = "\n".join(self.row(row) for row in self.rows)
        return (f'<div class="scroll"><div class="session" style="--lanes: {width}px; --row: {ROW}px; --letters: {room}ch">\n'
                f'{self.picture(width)}\n'
                f"<ol>\n{rows}\n</ol></div></div>")

    def row(self, row: Operation | Receipt | int) -> str:
        if isinstance(row, int):
            return f'<li class="gap"><span class="said">{row} line{"s" if row > 1 else ""} left out</span></li>'
        matters = " matters" if row.line in self.evidence.lines else ""
        number = f'<span class="line">{row.line}</span>'
        if isinstance(row, Receipt):
            who = f"{row.seen.name} of replica {row.seen.replica} has arrived at replica {row.replica}"
            said = f'<span class="said"><span class="who">{who}</span><code>{escape(row.text)}</code></span>'
            return f'<li id="{self.prefix}{row.line}" class="receipt{matters}" tabindex="0">{number}{said}</li>'
        verdict = " verdict" if row in self.evidence.operations else ""
        asked = row.text.partition(" :")[0].partition(" ")[2]
        letters = f'<span class="letters">{escape(self.letters[row.line])}</span> ' if self.letters else ""
        said = (f'<span class="said"><span class="who">{escape(self.who(row))}</span><b>{row.name}</b> {letters}'
                f'<code>{escape(asked)} : {self.names(row)}</code></span>')
        return f'<li id="{self.prefix}{row.line}" class="operation{matters}{verdict}" tabindex="0">{number}{said}</li>'

    def who(self, operation: Operation) -> str:
        did = {"ins": f"inserted {operation.element} at position {operation.at}", "del": f"deleted {operation.element}",
               "read": "read", "view": "showed a part"}[operation.kind]
        count = len(operation.response)
        return f"replica {operation.replica} {did}; the response has {count} name{'' if count == 1 else 's'}"

    def names(self, operation: Operation) -> str:
        """The response, with the names marked that the verdict is about; at first, of a long one, not much more than these."""
        marks = self.evidence.marks.get(operation.name, [])
        response = operation.response
        left = len(response) - MOST_NAMES
        whole = self.marked(response[:MOST_NAMES], marks) + (f" \u2026 and {left} more" if left > 0 else "")
        brief = shortened(response, tuple(marks)) if marks else response
        if brief == response:
            return whole
        return f'<span class="brief">{self.marked(brief, marks)}</span><span class="whole">{whole}</span>'

    def marked(self, names: list, marks: list) -> str:
        return " ".join(f"<mark>{escape(name)}</mark>" if name in marks else escape(name) for name in names)

    def at(self, replica: int, line: int) -> tuple:
        return (self.lanes[replica] + 0.5) * self.lane, (self.places[line] + 1.5) * ROW

    def picture(self, width: int) -> str:
        """The lanes, with an arrow for each receipt whose operation is shown."""
        height = (len(self.rows) + 1) * ROW
        parts = [f'<svg class="lanes" width="{width}" height="{height}" viewBox="0 0 {width} {height}" aria-hidden="true">']
        for replica, lane in self.lanes.items():
            x = (lane + 0.5) * self.lane
            parts.append(f'<text class="title" x="{x}" y="{ROW / 2 + 5}">{replica}</text>')
            parts.append(f'<path class="lane" d="M {x} {ROW} V {height}"/>')
        entries = [row for row in self.rows if not isinstance(row, int)]
        parts += [self.arrow(entry) for entry in entries if isinstance(entry, Receipt)]
        parts += [self.node(entry) for entry in entries if isinstance(entry, Operation)]
        return "\n".join([*parts, "</svg>"])

    def arrow(self, receipt: Receipt) -> str:
        x, y = self.at(receipt.replica, receipt.line)
        matters = " matters" if receipt.line in self.evidence.lines else ""
        dot = f'<circle class="arrived{matters}" cx="{x}" cy="{y}" r="3"/>'
        if receipt.seen.line not in self.places:
            return dot
        u, v = self.at(receipt.seen.replica, receipt.seen.line)
        head = "matters-head" if matters else "receipt-head"
        return (f'{dot}<path class="receipt{matters}" marker-end="url(#{head})" d="M {u:.1f} {v:.1f} '
                f'Q {u + BOW * (x - u):.1f} {v + (1 - BOW) * (y - v):.1f} {x:.1f} {y - 4:.1f}"/>')

    def node(self, operation: Operation) -> str:
        x, y = self.at(operation.replica, operation.line)
        kind = " verdict" if operation in self.evidence.operations else " matters" if operation.line in self.evidence.lines else ""
        return (f'<circle class="node{kind}" cx="{x}" cy="{y}" r="{NODE}"/>'
                f'<text class="sign{kind}" x="{x}" y="{y + 5}">{SIGNS[operation.kind]}</text>')
