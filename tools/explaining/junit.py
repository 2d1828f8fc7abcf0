"""The verdicts of many traces in JUnit's XML form, which CI systems read: each trace is a test case."""
from __future__ import annotations

import os
import re
import xml.etree.ElementTree as xml

from .files import shown
from .programs import WEAK_ALONE
from .rows import NO_VERDICTS

NOT_IN_XML = re.compile("[^\t\n\r\x20-\ud7ff\ue000-\ufffd\U00010000-\U0010ffff]")  # XML 1.0 has no way to write these


def junit_of(rows: list, unequal: bool) -> bytes:
    """A test suite of the rows of `judge_many`, of which failures are explained: a trace that does not pass is a failure, and so are ends
    that are unequal, where these count; a missing verdict is an error, and so is one on a trace that is known to be cut. Warnings of one
    that passes stand in its output, and that strong doesn't hold."""
    suite = xml.Element("testsuite", name="domepeeler")
    for row in rows:
        folder, name = os.path.split(row.file)
        case = xml.SubElement(suite, "testcase", classname=written(shown(folder) or "."), name=written(shown(name)),
                              file=written(shown(row.file)), time=f"{row.seconds:.3f}")
        if row.verdict in NO_VERDICTS:
            told = "\n  ".join([shown(row.error), *(row.fault or [])])
            add_fault(case, "error", row.verdict, f"{told}\n{row.explanation[0]}" if row.explanation else told)
        elif not row.passes:
            add_fault(case, "failure", row.verdict, *row.explanation)
        elif row.unequal and unequal:
            is_so = WEAK_ALONE if row.weak_alone else "accepted"
            add_fault(case, "failure", "unequal", "\n".join([f"{is_so}, but unequal in the end: {row.warnings[0]}", *row.warnings[1:]]))
        elif row.warnings or row.weak_alone:
            alone = f"{WEAK_ALONE}: this passes, as the weak list specification alone is asked for; the verdict is `refused {row.k}`\n"
            told = [alone] * bool(row.weak_alone) + [f"warning: {warning}\n" for warning in row.warnings or []]
            xml.SubElement(case, "system-out").text = written("".join(told))
    counts = {"tests": len(rows), "failures": len(suite.findall("testcase/failure")), "errors": len(suite.findall("testcase/error")),
              "skipped": 0}
    whole = xml.Element("testsuites")
    for element in whole, suite:
        element.attrib.update({key: str(count) for key, count in counts.items()})
        element.set("time", f"{sum(row.seconds for row in rows):.3f}")
    whole.append(suite)
    xml.indent(whole)
    return xml.tostring(whole, encoding="utf-8", xml_declaration=True) + b"\n"


def add_fault(case: xml.Element, kind: str, verdict: str, told: str, about: str = "") -> None:
    """The first line is what a list of failures shows, with the elements that it is about, and all of the lines stand below it."""
    told = written(told)
    first = told.split("\n")[0]
    xml.SubElement(case, kind, type=verdict, message=f"{first} It is about {about}." if about else first).text = told


def written(text: str) -> str:
    """The text, with the replacement character in place of what XML can't hold."""
    return NOT_IN_XML.sub("\ufffd", text)
