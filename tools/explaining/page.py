"""One page for one trace: the verdict in words, the cycle, and the session drawn. It needs no other file, and no script."""
from __future__ import annotations

import re
from html import escape

from .cycle_picture import picture
from .evidence import Evidence
from .letters import letters_of
from .session_picture import Rows
from .words import CODE, HIDDEN, LINE, LOG, NOTED, Explanation, Section

MOST_ROWS = 40  # entries that are shown at once
MOST_FOLDED = 2000  # entries that are on the page at all
MARKED = re.compile(r"\[([A-Za-z0-9_.-]+)\]")
NUMBER = re.compile(r"\d+")
WIDTH = re.compile(r'width="(\d+)"')
SMALLEST = 0.7  # how far a picture shrinks on a narrow screen before it is scrolled

STYLE = """\
:root { color-scheme: light dark; --ground: #fff; --ink: #1d1d1f; --dim: #65656d; --faint: #dcdce2; --card: #f5f5f8;
  --alarm: #b3261e; --alarm-ground: #fdecea; --good: #1b6e3c; --way: #1d5fa8; --mark: #ffe08a; --mark-ink: #1d1d1f }
@media (prefers-color-scheme: dark) {
  :root { --ground: #17171b; --ink: #ececf0; --dim: #a0a0ab; --faint: #3a3a43; --card: #212127; --alarm: #ff8f85;
    --alarm-ground: #3d2220; --good: #7fd6a0; --way: #84b9f5; --mark: #7a5d00; --mark-ink: #fff3cf } }
* { box-sizing: border-box }
body { margin: 0 auto; padding: 1rem; max-width: 90rem; background: var(--ground); color: var(--ink);
  font: 16px/1.5 system-ui, sans-serif }
h1 { font-size: 1.3rem; line-height: 1.35; margin: 0 0 .25rem; overflow-wrap: anywhere }
h2 { font-size: 1rem; margin: 1.25rem 0 .25rem }
.kind { color: var(--alarm) } .accepted .kind { color: var(--good) } .unsure .kind { color: var(--alarm) }
.file { color: var(--dim); margin: 0; overflow-wrap: anywhere }
code, pre, .line, .said b, .words li { font-family: ui-monospace, Menlo, Consolas, monospace; font-size: .875rem }
.words ul { margin: 0; padding: 0; list-style: none } .words li { margin: .25rem 0; overflow-wrap: anywhere }
.words .prose li { font: inherit }
mark { background: var(--mark); color: var(--mark-ink); border-radius: 3px; padding: 0 3px }
a { color: var(--way) }
pre { background: var(--card); padding: .75rem; overflow-x: auto; border-radius: 6px }
.scroll { overflow-x: auto; padding-bottom: .5rem }
.session { position: relative; min-width: calc(2.5rem + var(--lanes) + 12rem) }
.session ol { list-style: none; margin: 0; padding: var(--row) 0 0 }
.session li { position: relative; height: var(--row); line-height: var(--row); padding-left: calc(2.7rem + var(--lanes)) }
.lanes { position: absolute; left: 2.5rem; top: 0; pointer-events: none; z-index: 1 }
.line { position: absolute; left: 0; width: 2.4rem; text-align: right; color: var(--dim) }
.said { display: block; overflow: hidden; white-space: nowrap; text-overflow: ellipsis; padding: 0 .4rem; border-radius: 4px }
.whole { display: none }
.session li[tabindex]:hover .whole, .session li:focus .whole, .session li:target .whole { display: inline }
.session li[tabindex]:hover .brief, .session li:focus .brief, .session li:target .brief { display: none }
.who { display: none; font-family: system-ui, sans-serif; color: var(--dim) }
.receipt .said, .gap .said { color: var(--dim) } .matters .said { color: var(--ink) }
.gap { font-style: italic }
.verdict { background: var(--alarm-ground) }
.session li[tabindex]:hover, .session li:focus { background: var(--card); outline: none }
.session li.verdict[tabindex]:hover, .session li.verdict:focus { background: var(--alarm-ground) }
.session li:focus .line, .session li:target .line { color: var(--way); font-weight: bold }
.session li[tabindex]:hover .said, .session li:focus .said, .session li:target .said { position: absolute; right: 0; z-index: 2;
  left: calc(2.4rem + var(--lanes)); line-height: 1.5; padding: .2rem .8rem; white-space: normal; overflow-wrap: anywhere;
  background: var(--card); box-shadow: 0 0 0 2px var(--way); max-height: 60vh; overflow-y: auto }
/* Near the end a whole response stands over the lines before, so that no room is needed below the last one. */
.session li:nth-last-child(-n+8):not(:nth-child(-n+3)) .said, .session li:nth-last-child(-n+2):not(:first-child) .said { bottom: 0 }
.session li:focus .said { z-index: 3 } .session li[tabindex]:hover .said { z-index: 4 }
.session li[tabindex]:hover .who, .session li:focus .who, .session li:target .who { display: block }
.session li[tabindex]:hover:not(:focus) .said { pointer-events: none } /* else it would be in the way to the next line */
.lane { stroke: var(--faint); stroke-width: 2 }
.title { fill: var(--dim); font: bold 14px system-ui, sans-serif; text-anchor: middle }
.node { fill: var(--ground); stroke: var(--dim); stroke-width: 1.5 } .node.matters { stroke: var(--way); stroke-width: 2.5 }
.node.verdict { fill: var(--alarm); stroke: var(--alarm) }
.sign { fill: var(--dim); font: bold 14px ui-monospace, Menlo, Consolas, monospace; text-anchor: middle }
.sign.matters { fill: var(--way) } .sign.verdict { fill: var(--ground) }
path.receipt { fill: none; stroke: var(--dim); stroke-width: 1.2; opacity: .55 }
path.receipt.matters { stroke: var(--way); stroke-width: 2; opacity: 1 }
.arrived { fill: var(--dim) } .arrived.matters { fill: var(--way) } #receipt-head path { fill: var(--dim) }
#matters-head path { fill: var(--way) } #head path { fill: var(--alarm) }
.heads { position: absolute; width: 0; height: 0 }
.cycle { overflow-x: auto } .cycle svg { display: block; max-width: 100%; height: auto; min-width: var(--least) }
.cycle text { font: 14px ui-monospace, Menlo, Consolas, monospace; fill: var(--dim) }
.cycle .element { fill: var(--ground); stroke: var(--ink); stroke-width: 1.5 } .cycle .between { stroke-dasharray: 4 3 }
.cycle .name { fill: var(--ink); text-anchor: middle } .cycle .number { font-family: system-ui, sans-serif; text-anchor: middle }
.cycle .operation { fill: var(--ink); font-weight: bold } .cycle .shown { fill: var(--alarm); font-weight: bold }
.cycle .step { fill: none; stroke: var(--alarm); stroke-width: 2 }
.letters { display: inline-block; min-width: var(--letters); padding-right: .5ch; font-family: ui-monospace, Menlo, Consolas, monospace;
  font-size: .875rem; font-weight: bold; color: var(--way) }
.letter { color: var(--way); font-weight: bold; font-size: .7rem; padding-right: 2px; line-height: 1 }
.legend b { color: var(--way) }
.legend { color: var(--dim); font-size: .875rem; margin: .25rem 0 }
@media (min-width: 64rem) { main { display: grid; grid-template-columns: minmax(0, 1fr) minmax(0, 1fr); gap: 0 2.5rem } }
"""


def head(name: str) -> str:
    return (f'<marker id="{name}" viewBox="0 0 10 10" refX="8" refY="5" markerWidth="7" markerHeight="7" orient="auto"'
            ' markerUnits="userSpaceOnUse"><path d="M 0 0 L 10 5 L 0 10 z"/></marker>')


def page_of(evidence: Evidence, told: Evidence, words: Explanation, trace: str, report: str, is_passing: bool = False) -> str:
    """The page of a trace with the evidence of its verdict, and of the beginning by which it is told: what is drawn and marked is what the
    words begin with. One that passes, since weak holds, is painted as one that is accepted."""
    kind, _, rest = words.headline.partition(":")
    told.lines.update(operation.line for operation in evidence.operations)
    session, letters = session_of(told), letters_of(told)
    sections = "".join(section_of(section, session, letters) for section in words.sections)
    return f"""<!DOCTYPE html>
<html lang="en">
<head>
<meta charset="utf-8"/>
<meta name="viewport" content="width=device-width, initial-scale=1"/>
<title>{escape(kind)} - {escape(trace)}</title>
<style>
{STYLE}</style>
</head>
<body class="{"accepted" if is_passing else escape(evidence.report["verdict"])}{" unsure" if words.sections[0].title == HIDDEN else ""}">
<svg class="heads" aria-hidden="true">{head("head")}{head("receipt-head")}{head("matters-head")}</svg>
<h1><span class="kind">{escape(kind)}</span>:{escape(rest)}</h1>
<p class="file">{escape(trace)}</p>
<main>
<div class="words">
{sections}{cycle_of(told)}</div>
<div>
{session}
<h2>The program's report</h2>
<pre>{escape(report)}</pre>
</div>
</main>
</body>
</html>
"""


def section_of(section: Section, session: str, letters: dict) -> str:
    """A section of the words: marks for brackets, with the element's letter, and a link to each line that the session shows. In places
    of code brackets are no marks, and the numbers of lines stand before the first colon."""
    def marked(found: re.Match) -> str:
        letter = letters.get(found[1], found[1])
        return (f'<sup class="letter">{letter}</sup>' if letter != found[1] else "") + f"<mark>{found[1]}</mark>"

    def link(found: re.Match) -> str:
        return f'<a href="#line-{found[1]}">{found[0]}</a>' if f'id="line-{found[1]}"' in session else found[0]

    def number_link(found: re.Match) -> str:
        return f'<a href="#line-{found[0]}">{found[0]}</a>' if f'id="line-{found[0]}"' in session else found[0]

    if section.title in (CODE, LOG):  # behind the lines stands their place
        parts = [line.partition(": ") for line in section.lines]
        lines = [f"{NUMBER.sub(number_link, numbers)}: {escape(place)}" for numbers, _, place in parts]
    elif section.title == NOTED:
        lines = [escape(line) for line in section.lines]
    else:
        lines = [LINE.sub(link, MARKED.sub(marked, escape(line))) for line in section.lines]
    prose = ' class="prose"' if section.title.startswith("Where to look") else ""
    items = "\n".join(f"<li>{line}</li>" for line in lines)
    return f"<h2>{escape(section.title)}</h2>\n<ul{prose}>\n{items}\n</ul>\n"


def cycle_of(told: Evidence) -> str:
    """The picture of the cycle; of a session that went wrong before its end, of what was shown by then."""
    if told.report["verdict"] != "refused":
        return ""
    drawn = picture(told.report)
    least = int(WIDTH.search(drawn)[1]) * SMALLEST
    title = f"The cycle of the lines up to {told.last_line}" if told.last_line < len(told.recording.lines) else "The cycle"
    return f'<h2>{title}</h2>\n<div class="cycle" style="--least: {least:.0f}px">\n{drawn}</div>\n'


def session_of(evidence: Evidence) -> str:
    """The session, or of a long one the lines that matter, and the rest folded."""
    entries = evidence.recording.entries
    legend = ('<p class="legend">Time runs downwards, with a lane for each replica: + an insert, \u2212 a delete, = a read, '
              "~ a view of a part, and an arrow for each receipt. Point at a line, or go to it by the Tab key, for the whole "
              f"response.</p>{letters_told(letters_of(evidence))}")
    if len(entries) <= MOST_ROWS:
        return f"<h2>The session</h2>\n{legend}\n{Rows(evidence, entries, 'line-').html()}"
    chosen = [entry for entry in entries if entry.line in evidence.lines] or entries[:MOST_ROWS]
    rows = Rows(evidence, chosen, "line-").html()
    title = "What matters in the session" if evidence.lines else "How the session begins"
    if len(entries) > MOST_FOLDED:
        whole = f'<p class="legend">The session has {len(entries)} entries, too many for this page.</p>'
    else:
        whole = (f"<details><summary>The whole session, {len(entries)} entries</summary>\n"
                 f"{Rows(evidence, entries, 'whole-').html()}\n</details>")
    return f"<h2>{title}</h2>\n{legend}\n{rows}\n{whole}"


def letters_told(letters: dict) -> str:
    """Which letter stands for which element."""
    told = ", ".join(f"<b>{escape(letter)}</b>\u00a0{escape(name)}" for name, letter in letters.items() if letter != name)
    return f'\n<p class="legend">Each response is also shown in letters: {told}.</p>' if told else ""
