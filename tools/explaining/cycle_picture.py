"""The least cycle of a refused recording as a picture.

The elements stand in a ring, in the order of the steps and clockwise. An arrow from one to the next is a step: beside it
stand the operation that shows them so and what it answered, long answers shortened. Of a long cycle the middle is one dashed element."""
from __future__ import annotations

import math
from html import escape

from .telling import FIRST_STEPS, LAST_STEPS, MOST_STEPS

LEAST_NODE = 22  # the radius of an element with a short name
LETTER = 8.5  # the width of a letter of a label
DROP = 5  # how far below its middle a text stands: not every viewer knows of baselines
MOST_NAMES = 5  # of a response that is shown whole

STYLE = """\
text { font: 14px ui-monospace, Menlo, Consolas, monospace; fill: #555 }
.element { fill: #fff; stroke: #222; stroke-width: 1.5 }
.name { fill: #222; text-anchor: middle }
.number { font-family: system-ui, sans-serif; text-anchor: middle }
.operation { fill: #222; font-weight: bold }
.shown { fill: #b3261e; font-weight: bold }
.step { fill: none; stroke: #b3261e; stroke-width: 2 }
"""
BETWEEN = ".between { stroke-dasharray: 4 3 }\n"  # of a long cycle
HEAD = ('<marker id="head" viewBox="0 0 10 10" refX="8" refY="5" markerWidth="7" markerHeight="7" orient="auto">'
        '<path fill="#b3261e" d="M 0 0 L 10 5 L 0 10 z"/></marker>')
GROUND = '<rect width="100%" height="100%" fill="#fff"/>'


def shortened(response: list, shown: tuple) -> list:
    """The response, or its two shown names with dots where others are left out."""
    if len(response) <= MOST_NAMES:
        return response
    short = []
    for name in response:
        if name in shown:
            short.append(name)
        elif short[-1:] != ["\u2026"]:
            short.append("\u2026")
    return short


def point(centre: tuple, radius: float, angle: float) -> tuple:
    return centre[0] + radius * math.cos(angle), centre[1] + radius * math.sin(angle)


def at(x: float, y: float) -> str:
    """The place of a text whose middle is there."""
    return f'x="{x:.1f}" y="{y + DROP:.1f}"'


def arrow(centre: tuple, radius: float, node: float, start: float, end: float) -> str:
    """The arc from one element to the next, short of both."""
    gap = 2 * math.asin((node + 4) / (2 * radius))
    x, y = point(centre, radius, start + gap)
    u, v = point(centre, radius, end - gap)
    return f'<path class="step" marker-end="url(#head)" d="M {x:.1f} {y:.1f} A {radius} {radius} 0 0 1 {u:.1f} {v:.1f}"/>'


def label(centre: tuple, radius: float, angle: float, step: dict, names: list) -> str:
    """The operation and its response, outside the ring."""
    x, y = point(centre, radius + 16, angle)
    side = math.cos(angle)
    anchor = "start" if side > 0.3 else "end" if side < -0.3 else "middle"
    y += 18 * math.sin(angle) if anchor == "middle" else 0
    words = " ".join(f'<tspan class="shown">{escape(name)}</tspan>' if name in (step["from"], step["to"]) else escape(name)
                     for name in names)
    return (f'<text text-anchor="{anchor}" {at(x, y)}><tspan class="operation">{escape(step["shown"])}</tspan>'
            f" : {words}</text>")


def told_steps(steps: list) -> list:
    """The steps; of a long cycle the first and the last ones, and between them one that no operation shows, in the place of the others."""
    if len(steps) <= MOST_STEPS:
        return steps
    between = {"from": f"{len(steps) - FIRST_STEPS - LAST_STEPS} more", "to": "", "shown": "", "response": []}
    return [*steps[:FIRST_STEPS], between, *steps[-LAST_STEPS:]]


def drawing(report: dict) -> str:
    """The picture as a file of its own."""
    style = STYLE + (BETWEEN if len(report["steps"]) > MOST_STEPS else "")
    return picture(report, f"<style>\n{style}</style>\n{HEAD}\n{GROUND}\n")


def picture(report: dict, front: str = "") -> str:
    """The picture with so much in front; a page that shows it has styles and an arrow's head of its own."""
    steps = told_steps(report["steps"])
    responses = [shortened(step["response"], (step["from"], step["to"])) for step in steps]
    widest = max(len(f'{step["shown"]} : {" ".join(names)}') for step, names in zip(steps, responses))
    node = max(LEAST_NODE, 6 + round(max(len(step["from"]) for step in steps) * LETTER / 2))
    radius = max(90, round((node + 24) / math.sin(math.pi / len(steps))))
    middle = radius + max(node + 10, 32 + round(widest * LETTER))
    centre = (middle, radius + max(node + 10, 52))
    first = math.pi if len(steps) == 2 else -math.pi / 2
    angles = [first + 2 * math.pi * i / len(steps) for i in range(len(steps) + 1)]
    told = ", ".join(f'{step["from"]} before {step["to"]} in {step["shown"]}' if step["shown"] else step["from"] for step in steps)
    lines = [
        f'<svg xmlns="http://www.w3.org/2000/svg" width="{2 * middle}" height="{2 * centre[1]}"'
        f' viewBox="0 0 {2 * middle} {2 * centre[1]}" role="img">',
        f"<title>A cycle of {len(report['steps'])}: {escape(told)}</title>",
        f'{front}<text class="number" {at(*centre)}>refused {report["k"]}</text>',
    ]
    for step, names, start, end in zip(steps, responses, angles, angles[1:]):
        x, y = point(centre, radius, start)
        lines.append(arrow(centre, radius, node, start, end))
        lines.append(f'<circle class="element{"" if step["shown"] else " between"}" cx="{x:.1f}" cy="{y:.1f}" r="{node}"/>')
        lines.append(f'<text class="name" {at(x, y)}>{escape(step["from"])}</text>')
        if step["shown"]:
            lines.append(label(centre, radius, (start + end) / 2, step, names))
    return "\n".join([*lines, "</svg>"]) + "\n"
