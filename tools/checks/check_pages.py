#!/usr/bin/env python3
"""Does what the pages for users and those of the examples show, in a copy of the tools, the guests' kit and the examples, and compares what
is printed. The hunts of the examples are left to examples/check_hunted.py.

check_pages.py [PROGRAM]     (the program that answers ./friday, if none is given)

A block that begins with `$` is run in the folder where the one before ended, or from the top if its first command is `cd` or `mkdir`. Below a
command stands what it prints; `...` stands for any lines. Lines behind a prompt are typed in a terminal, and below `friday debug` the
lines of the debugger are its input. A block below "the file `NAME`" and a colon is written to that file.
"""

import argparse
import glob
import os
import re
import shlex
import shutil
import subprocess
import sys
import tempfile

from tools_path import TOP  # before the modules of the tools, which it lets be found
from asking.program import program_of
from check_typed import typed_here

PAGES = ("docs/tutorial.md", "docs/recipes.md", "docs/debugger.md")
HUNT = "../../tools/hunt "
COPIED = ("tools", "guests", "examples", "launcher")
PROMPT = re.compile(r"\((?:friday|play) \d+\) ?(.*)")
FILE = re.compile(r"the file `(\S+)`[^\n]*:\n\Z", re.I)
VERB = re.compile(r"(?!watch \d+: |break \d+$)(?:goto|step|back|print|mem|threads|frames|events|watch|break|continue|rcontinue|list|delete|do|set|vars|quit)\b")
# What sets words or a variable of the shell for the commands after it.
KEPT = re.compile(r"set --|[A-Z]+=(?:'[^']*'|\S+)$")
LAUNCHER = '#!/bin/sh\n[ "$*" = --program ] && echo %(program)s && exit\nexec %(program)s "$@"\n'


def copy_of_clone(folder, program):
    ignored = shutil.ignore_patterns("__pycache__", "out", "target", "found")
    for name in COPIED:
        shutil.copytree(os.path.join(TOP, name), os.path.join(folder, name), ignore=ignored)
    with open(os.path.join(folder, "friday"), "w", encoding="utf-8") as file:
        file.write(LAUNCHER % {"program": shlex.quote(program)})
    os.chmod(os.path.join(folder, "friday"), 0o755)


def blocks_of(page):
    """The text before each indented block, and the block."""
    with open(os.path.join(TOP, page), encoding="utf-8") as file:
        text = file.read()
    for found in re.finditer(r"(?m)(?<=\n\n)((?:    .*\n|\n(?=    ))+)", text):
        yield text[: found.start()].rstrip("\n") + "\n", re.sub("(?m)^    ", "", found[1])


def joined(blocks):
    """The same, where a block that begins with a prompt goes on with the session before it."""
    kept = []
    for before, block in blocks:
        if PROMPT.match(block):
            kept[-1][1] += block
        else:
            kept.append([before, block])
    return kept


def commands_of(block):
    """Each command of a block with the lines below it."""
    for part in re.split(r"(?m)^\$ ", block)[1:]:
        command, _, rest = part.partition("\n")
        while command.endswith("\\"):
            line, _, rest = rest.partition("\n")
            command = command[:-1] + line.lstrip()
        yield command, rest


def compare(command, found, shown):
    """Refuses other lines than are shown."""
    found = [line.rstrip() for line in found.rstrip("\n").splitlines()]
    shown = [line.rstrip() for line in shown.rstrip("\n").splitlines()]
    pattern = "".join(r"(?:.*\n)*" if line == "..." else re.escape(line) + "\n" for line in shown)
    assert re.fullmatch(pattern, "".join(line + "\n" for line in found)), "\n".join(["$ " + command, *found, "--- is shown as", *shown])


def done(command, folder, text=""):
    """What a command of the shell prints; the next one begins in the folder where it ends."""
    place = os.path.join(folder.top, ".place")
    line = "%s%s\npwd > %s" % (folder.kept, command, place)
    run = subprocess.run(["bash", "-c", line], cwd=folder.here, input=text, stdout=subprocess.PIPE, stderr=subprocess.STDOUT, text=True, timeout=600)
    with open(place, encoding="utf-8") as file:
        folder.here = file.read().rstrip("\n")
    if KEPT.match(command):
        folder.kept += command + "\n"
    return run.stdout


def debugged(command, folder, shown):
    """The lines of the debugger, each with its answer below it."""
    lines = [line for line in shown.splitlines() if VERB.match(line)]
    mark = "31415926535\n"
    asked = "".join("print %s%s\n" % (mark, line) for line in lines)
    first, *answers = done(command, folder, asked).split(mark)
    return first + "".join("%s\n%s" % both for both in zip(lines, answers))


def typed(command, folder, shown):
    lines = [found[1] for found in map(PROMPT.fullmatch, shown.splitlines()) if found]
    is_ended = lines[-1] == "q"
    text = typed_here(["bash", "-c", folder.kept + command], folder.here, lines if is_ended else [*lines, "q"])
    return text if is_ended else text[: text.rindex("\n", 0, -1) + 1]


class Folder:
    """The top of the copy, where the last command ended, and what commands set for those after them."""

    def __init__(self, top):
        self.top = self.here = top
        self.kept = ""


def do_block(block, folder, passed=None):
    """Does the commands of a block, but for those that begin with what is to be passed over."""
    if re.match(r"\$ (?:cd|mkdir) (?!\.)", block):
        folder.here = folder.top
    count = 0
    to_do = [both for both in commands_of(block) if not passed or not both[0].startswith(passed)]
    for count, (command, shown) in enumerate(to_do, 1):
        if any(map(PROMPT.fullmatch, shown.splitlines())):
            found = typed(command, folder, shown)
        elif re.search(r"friday debug [^<|]*$", command):
            found = debugged(command, folder, shown)
        else:
            found = done(command, folder)
        compare(command, found, shown)
    return count


def check(page, program):
    """How many commands a page shows; each does what stands there."""
    count = 0
    with tempfile.TemporaryDirectory() as top:
        copy_of_clone(top, program)
        folder = Folder(top)
        for before, block in joined(blocks_of(page)):
            named = FILE.search(before)
            if named:
                with open(os.path.join(folder.here, named[1]), "w", encoding="utf-8") as file:
                    file.write(block)
            elif block.startswith("$ "):
                count += do_block(block, folder, HUNT if page.startswith("examples") else None)
    return count


def main():
    parser = argparse.ArgumentParser(description=__doc__, formatter_class=argparse.RawDescriptionHelpFormatter, allow_abbrev=False)
    parser.add_argument("program", nargs="?", metavar="PROGRAM")
    program = os.path.abspath(program_of(parser.parse_args().program))
    of_examples = sorted(os.path.relpath(path, TOP) for path in glob.glob(os.path.join(TOP, "examples", "*", "README.md")))
    for page in [*PAGES, *of_examples]:
        print("%s: %d commands, as shown" % (page, check(page, program)), flush=True)


if __name__ == "__main__":
    sys.exit(main())
