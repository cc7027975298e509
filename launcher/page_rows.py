"""What docs/refusals.md says of a reason, so that the launcher's words and the page's are the same."""
from __future__ import annotations

import os
import re

PAGE = os.path.join(os.path.dirname(os.path.dirname(os.path.realpath(__file__))), "docs", "refusals.md")


def rows():
    """The cells of each row of the page's tables."""
    try:
        with open(PAGE, encoding="utf-8") as file:
            lines = file.read().split("\n")
    except OSError:
        return []
    # A bar in a cell is written with a backslash before it.
    cells = (re.split(r"(?<!\\)\|", line.strip("|")) for line in lines if line.startswith("| "))
    return [[cell.strip() for cell in row] for row in cells]


def advice(reason):
    """What to do about a reason, as `2 HasFloat` or `TooLarge`, as plain text; or None."""
    word = reason.split()[-1]
    for row in rows():
        if re.search(r"`(\d+ |line N |item N )?%s`" % word, row[0]):
            return as_text(row[-1])
    return None


def as_text(cell):
    """Markdown without its signs: a link is its words, but where it goes stands on the page."""
    cell = re.sub(r"\[(.*?)\]\(.*?\)", r"\1", cell)
    return cell.replace("\\|", "|")
