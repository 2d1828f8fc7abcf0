#!/usr/bin/env python3
"""draw_cycle.py: a refused recording's least cycle as a picture.

    finder_cli verdict --json FILE | tools/draw_cycle.py > cycle.svg

It is the picture that `tools/explain --svg` makes. Ends with status 1 where the report has no cycle, and with 2 where there is no report,
or something else is wrong."""
import os
import sys


def main():
    import json

    from explaining.cycle_picture import drawing
    try:
        report = json.load(sys.stdin)
    except ValueError:
        report = None
    if not isinstance(report, dict) or "verdict" not in report:
        raise Failed("standard input is no report, as `verdict --json` prints it")
    if "steps" not in report:
        sys.stderr.write("draw_cycle.py: the report has no cycle\n")
        return 1
    sys.stdout.buffer.write(drawing(report).encode())
    sys.stdout.flush()
    return 0


class Failed(Exception):
    """What keeps it from drawing."""


if __name__ == "__main__":
    if sys.version_info < (3, 9):
        sys.stderr.write("draw_cycle.py: this needs Python 3.9 or later, and is run by %d.%d\n" % sys.version_info[:2])
        sys.exit(2)
    try:
        sys.exit(main())
    except Exception as error:
        sys.stderr.write("draw_cycle.py: %s\n" % (error if isinstance(error, (Failed, OSError)) else repr(error)))
        if sys.stdout is not None:
            os.dup2(os.open(os.devnull, os.O_WRONLY), sys.stdout.fileno())
        sys.exit(2)
