#!/usr/bin/env python3
"""Checks the pages of the repository (*.md): that each relative link leads to a file, and to a heading of it where it names one,
and that each path between backticks that begins with a folder of the top is there.

check_links.py

Links to other sites are not followed. In a path `*` stands for any letters and NAME and other words in capitals for names, so such
a path needs one file that fits. What recordings and builds make is not asked for.
"""

import glob
import os
import re
import subprocess
import sys

from tools_path import TOP  # before the modules of the tools, which it lets be found

LINK = re.compile(r"!?\[(?:[^\[\]]|\[[^\]]*\])*\]\(([^()\s]+)\)")
HEADING = re.compile(r"^#{1,6} +(.*?) *#*$", re.M)
QUOTED = re.compile(r"`([^`\n]+)`")
MADE = {".log", ".mem", ".out", ".cut", ".svg", ".html", ".shiviz"}


def pages():
    """The pages that belong to the repository."""
    told = subprocess.run(["git", "-C", TOP, "ls-files", "-z", "--cached", "--others", "--exclude-standard", "*.md"], stdout=subprocess.PIPE, text=True, check=True)
    return [name for name in told.stdout.split("\0") if name and os.path.exists(os.path.join(TOP, name))]


def read(name):
    with open(os.path.join(TOP, name), encoding="utf-8") as file:
        return file.read()


def without_code(text):
    """The text with blocks of code made empty, line by line: those between fences, and lines that are indented by four blanks
    after an empty line."""
    lines, fenced, indented, was_empty = [], False, False, True
    for line in text.split("\n"):
        if line.lstrip().startswith("```"):
            fenced, line = not fenced, ""
        indented = line.startswith("    ") and (indented or was_empty) or (indented and not line.strip())
        was_empty = not line.strip()
        lines.append("" if fenced or indented else line)
    return "\n".join(lines)


def anchors(text):
    """The anchors of a page's headings, as forges make them."""
    found = []
    for heading in HEADING.findall(without_code(text)):
        heading = re.sub(r"\[([^\]]*)\]\([^)]*\)", r"\1", heading).replace("`", "").replace("*", "")
        anchor = re.sub(r"[^\w\- ]", "", heading.lower()).replace(" ", "-")
        found.append("%s-%d" % (anchor, found.count(anchor)) if anchor in found else anchor)
    return found


def wrong_links(name, text):
    text = QUOTED.sub("``", without_code(text))
    for target in LINK.findall(text):
        if re.match(r"[a-z]+:", target):
            continue
        path, _, anchor = target.partition("#")
        there = os.path.normpath(os.path.join(os.path.dirname(name), path)) if path else name
        if not os.path.exists(os.path.join(TOP, there)):
            yield "%s: no file is at %s" % (name, target)
        elif anchor and anchor not in anchors(read(there)):
            yield "%s: no heading is at %s" % (name, target)


def wrong_paths(name, text):
    tops = {entry for entry in os.listdir(TOP) if os.path.isdir(os.path.join(TOP, entry)) and not entry.startswith(".")} - {"out"}
    for quoted in QUOTED.findall(without_code(text)):
        for word in quoted.split():
            word = word.strip("\"',;:()")
            if not re.fullmatch(r"[\w./*-]+", word) or word.split("/")[0] not in tops or "/" not in word:
                continue
            if "/out/" in word or os.path.splitext(word)[1] in MADE or ".." in word:
                continue
            if not glob.glob(os.path.join(TOP, re.sub(r"(?<![a-zA-Z])[A-Z]{3,}(?![a-z])", "*", word))):
                yield "%s: nothing is at `%s`" % (name, word)


def main():
    wrong = []
    for name in sorted(pages()):
        text = read(name)
        wrong += [*wrong_links(name, text), *wrong_paths(name, text)]
    print("\n".join([*wrong, "links: %s" % ("%d lead nowhere" % len(wrong) if wrong else "as expected")]))
    return 1 if wrong else 0


if __name__ == "__main__":
    sys.exit(main())
