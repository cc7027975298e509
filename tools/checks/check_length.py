#!/usr/bin/env python3
"""Checks that no page has more words than it may, and that each page has a row here: what a page gains, it or another one loses. The
main theorem reaches no more definitions than it may either, in no more lines.

check_length.py
"""

import glob
import os
import re
import subprocess
import sys

from tools_path import TOP

# The words that a reader is asked for, in the order in which readers come to the pages.
MOST = {
    "README.md": 500,
    "docs/tutorial.md": 2000,
    "docs/recipes.md": 2000,
    "docs/debugger.md": 2300,
    "docs/gdb.md": 500,
    "docs/editor.md": 1200,
    "docs/guests.md": 2400,
    "docs/refusals.md": 1100,
    "docs/limits.md": 700,
    "docs/formats.md": 5700,
    "docs/lines.md": 2300,
    "docs/theorem.md": 900,
    "docs/proved.md": 5400,
    "docs/performance.md": 520,
    "docs/architecture.md": 3300,
    "docs/DECISIONS.md": 3400,
    "docs/contributing.md": 2470,
    "tools/README.md": 3850,
}
# The definitions that the main theorem reaches down to known words, and their lines.
MOST_REACHED = (150, 500)


def words_of(page):
    with open(os.path.join(TOP, page), encoding="utf-8") as file:
        return len(file.read().split())


def reached():
    """How many definitions the main theorem reaches, and their lines."""
    said = subprocess.run([os.path.join(TOP, "tools", "theorem"), "--count"], stdout=subprocess.PIPE, universal_newlines=True, check=True).stdout
    return tuple(int(number) for number in re.findall(r"(\d+) (?:definitions|lines)", said.splitlines()[-1]))


def main():
    pages = ["README.md", "tools/README.md", *(os.path.relpath(path, TOP) for path in glob.glob(os.path.join(TOP, "docs", "*.md")))]
    wrong = ["%s has no row here" % page for page in sorted(pages) if page not in MOST]
    wrong += ["%s is not there" % page for page in MOST if page not in pages]
    wrong += ["%s has %d words and may have %d" % (page, words_of(page), MOST[page]) for page in MOST if page in pages and words_of(page) > MOST[page]]
    if any(number > most for number, most in zip(reached(), MOST_REACHED)):
        wrong.append("the theorem reaches %d definitions, %d lines, and may reach %d, %d" % (*reached(), *MOST_REACHED))
    print("\n".join(wrong + ["length: %s" % ("%d wrong" % len(wrong) if wrong else "as expected")]))
    return 1 if wrong else 0


if __name__ == "__main__":
    sys.exit(main())
