#!/usr/bin/env python3
"""Checks that each file of specs/ begins with a sentence that says what it is about, and that the map of the crates in
docs/architecture.md has each crate of crates.txt once and no other, above all that stand on it.

check_files.py
"""

import os
import re
import sys

from tools_path import TOP  # before the modules of the tools, which it lets be found
from definitions.files import first_sentence, in_order, text_of

CELL = re.compile(r"^\| (`[^|]+`) \|", re.M)
ROW = re.compile(r"^(\w+)(?: \w+=\S+)*:(.*)$", re.M)


def crates():
    """The crates, each with those that it stands on."""
    return {name: words.split() for name, words in ROW.findall(text_of(os.path.join(TOP, "crates.txt")))}


def wrong():
    for crate in crates():
        for name, path in in_order(crate):
            if not first_sentence(path):
                yield "crates/%s/specs/%s.antt: no comment says what it is about" % (crate, name)
    page = text_of(os.path.join(TOP, "docs", "architecture.md")).partition("\n## The crates\n")[2].partition("\n## ")[0]
    told = [name for cell in CELL.findall(page) for name in re.findall(r"`(\w+)`", cell)]
    for crate in sorted({*told, *crates()}):
        if told.count(crate) != 1 or crate not in crates():
            yield "docs/architecture.md: the crate %s is in its map %d times" % (crate, told.count(crate))
    for crate, below in crates().items():
        for other in below:
            if {crate, other} <= {*told} and told.index(other) > told.index(crate):
                yield "docs/architecture.md: %s stands on %s, which is below it in the map" % (crate, other)


def main():
    if sys.argv[1:]:
        sys.exit(__doc__)
    lines = list(wrong())
    print("\n".join([*lines, "files: %s" % ("%d are not as they are told" % len(lines) if lines else "as expected")]))
    return 1 if lines else 0


if __name__ == "__main__":
    sys.exit(main())
