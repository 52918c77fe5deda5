"""The form of the lines of a log."""

import re

from played.program import equal

TIME = r"\d{4}-\d\d-\d\dT\d\d:\d\d:\d\dZ"
BANK = r"records \d+ used \d+ limit 1073741824"


def log_lines(text, *wanted):
    """Checks that these are the lines of a log, in this order, each of a regular expression after its time."""
    lines = text.splitlines()
    for line, form in zip(lines, wanted):
        if not re.fullmatch(f"{TIME} {form}", line):
            raise AssertionError(f"found {line!r}, wanted {form!r}")
    equal(lines[len(wanted):], [])
    equal(len(lines), len(wanted))
