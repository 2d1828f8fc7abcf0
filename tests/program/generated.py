#!/usr/bin/env python3
"""generated.py PROGRAM: small recordings, the same in each run, judged by the program and by a slow reference.

The program's report, as text and as JSON, must be the reference's byte for byte, and so must the certificate of some of them
and the checker's answers to it and to forged ones. Some without views are judged in their other spelling too. Each kind of
verdict must be there often enough, with views and without, or the script fails."""
import json
import random
import sys
from collections import Counter
from pathlib import Path

ROOT = Path(__file__).resolve().parents[2]
sys.path.insert(0, str(ROOT / "tests"))
from reference.traces import has_view, spellings  # noqa: E402
from reference.verdicts import Report, recording_of, report_of, responses_of  # noqa: E402
from shared.forger import from_generated  # noqa: E402
from shared.program import Ended, Tally, program_of, run  # noqa: E402
from shared.sessions import session, with_fault  # noqa: E402

SEED = 20161016

# How many recordings of each kind are judged, of those without a view and of those with views.
WITHOUT = {"accepted": 200, "accepted in another order": 100, "refused 2": 200, "refused 3": 200, "refused 4": 150, "refused 5": 50, "contents": 150,
           "position": 150, "doubled": 150}
WITH_VIEWS = {"accepted": 100, "accepted in another order": 50, "refused 2": 100, "refused 3": 100, "refused 4": 60, "refused 5": 30, "contents": 100,
              "position": 30, "doubled": 30}
MOST_TRIES = 100_000

# Of those without a view, one in so many is judged in version 2 of the trace too.
ONE_IN = 10


def kind_of(text: str, report: Report) -> str:
    """The verdict, and of an order whether the elements don't stand in it by their numbers."""
    if report.kind != "accepted" or json.loads(report.json)["order"] == responses_of(recording_of(text)).names:
        return report.kind
    return "accepted in another order"


def recordings(wanted: dict, views: bool) -> list:
    """Recordings with their reports and kinds, as many of each kind as are wanted, if there are; all with a view, or none."""
    rnd = random.Random(SEED)
    left, made = Counter(wanted), {}
    for _ in range(MOST_TRIES):
        text = session(rnd, views)
        for _ in range(rnd.choice([0, 0, 0, 1, 2])):
            text = with_fault(rnd, text, views)
        if text in made or has_view(text) != views:
            continue
        report = report_of(text)
        kind = kind_of(text, report)
        if left[kind] > 0:
            left[kind] -= 1
            made[text] = report, kind
        if not +left:
            break
    return [(text, report, kind) for text, (report, kind) in made.items()]


def main() -> None:
    program = program_of(sys.argv)
    tally = Tally()
    cases = []
    for wanted, views, what in (WITHOUT, False, "without views"), (WITH_VIEWS, True, "with views"):
        made = recordings(wanted, views)
        kinds = Counter(kind for _, _, kind in made)
        print(f"{what}: " + ", ".join(f"{kinds[kind]} {kind}" for kind in wanted))
        tally.check(f"recordings of all kinds, {what}", kinds == wanted, kinds)
        cases += made
    tally.check("a thousand recordings", len(cases) >= 1000, len(cases))
    for text, report, _ in cases:
        status = 0 if report.kind == "accepted" else 1
        for form, wanted in (["verdict", "-"], report.text), (["verdict", "--json", "-"], report.json):
            got = run(program, form, text.encode())
            tally.same(f"{form} of\n{text}", got, Ended(status, wanted.encode(), b""))
    for text, report, _ in cases[:sum(WITHOUT.values()):ONE_IN]:
        for spelling in spellings(text)[1:]:
            got = run(program, ["verdict", "-"], spelling.encode())
            tally.same(f"verdict of\n{spelling}", got, Ended(0 if report.kind == "accepted" else 1, report.text.encode(), b""))
    from_generated(tally, program, cases)
    tally.close()


if __name__ == "__main__":
    main()
