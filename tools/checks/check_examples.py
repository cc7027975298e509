#!/usr/bin/env python3
"""Holds the pages of the examples to one form: each begins with what is wrong, a command that records or replays it, and one that opens
the debugger. And it looks up what stands there without a command. Each such block is a part of one of these: what the debugger answers
to the example's script, with its lines or those that have names of variables; the list of the events; a file beside the page. In a
block `...` stands for any lines, and `..` at the end of a line for the rest of it.

check_examples.py [PROGRAM]     (the program that answers ./friday, if none is given)
"""

import argparse
import glob
import os
import re
import sys
import tempfile

from tools_path import TOP  # before the modules of the tools, which it lets be found
from asking.program import program_of
from check_pages import PROMPT, Folder, blocks_of, copy_of_clone, debugged, done

HEAD = re.compile(
    r"# .*\n\n(?:\S.*\n)+\n    \$ cd examples/\w+\n    \$ \.\./\.\./friday (?:record|replay) .*\n(?:    .*\n)*?    \$ \.\./\.\./(?:tools/session|friday debug) "
)


def words_of(schedule):
    """The modules with the logs that a schedule makes."""
    with open(schedule, encoding="ascii") as file:
        processes = re.findall(r"(?m)^process (\w+) (\S+)$", file.read())
    return " ".join("%s %s.log" % (module, name) for name, module in processes)


def texts_of(folder, schedule):
    """Where a block may be from."""
    done("../../friday record --images %s" % schedule, folder)
    words = words_of(os.path.join(folder.here, schedule))
    script = os.path.join(folder.here, "debug")
    if os.path.exists(script):
        yield from scripted(folder, words, script)
    yield done("../../tools/events.py list %s" % " ".join(words.split()[1::2]), folder)
    for path in glob.glob(os.path.join(folder.here, "*")):
        if os.path.isfile(path) and not path.endswith((".log", ".mem", ".wasm", ".png", ".md")):
            with open(path, encoding="utf-8") as file:
                text = file.read()
            yield re.sub("(?m)^[-+]", "", text) if path.endswith(".patch") else text


def scripted(folder, words, script):
    """The script's lines with the answers below them, and the same with the lines of `debug.in`."""
    with open(script, encoding="utf-8") as file:
        asked = file.read()
    lines = asked.splitlines()
    answered = debugged("../../friday debug %s" % words, folder, asked)
    yield answered
    with open(script + ".in", encoding="utf-8") as file:
        named = dict(zip(lines, file.read().splitlines()))
    yield "".join(named.get(line, line) + "\n" for line in answered.splitlines())


def is_line(shown, found):
    return found.startswith(shown[:-2]) if shown.endswith("..") else found == shown


def is_part(block, text):
    """Whether the runs of lines between `...` follow each other in a text, at whatever depth."""
    found = [line.strip() for line in text.splitlines()]
    begin = 0
    for run in re.split(r"(?m)^\.\.\.\n", block.rstrip("\n") + "\n"):
        shown = [line.strip() for line in run.splitlines()]
        places = (at for at in range(begin, len(found) - len(shown) + 1) if all(map(is_line, shown, found[at:])))
        at = next(places, None)
        if at is None:
            return False
        begin = at + len(shown)
    return True


def excerpts_on(page):
    """The blocks of a page without those below a command, and those that go on with a session."""
    return [block for _, block in blocks_of(page) if not block.startswith("$ ") and not PROMPT.match(block)]


def check(page, program):
    """How many such blocks a page has; each is found."""
    with tempfile.TemporaryDirectory() as top:
        copy_of_clone(top, program)
        folder = Folder(top)
        folder.here = os.path.join(top, os.path.dirname(page))
        schedule = next(name for name in ("failing", "schedule") if os.path.exists(os.path.join(folder.here, name)))
        texts = list(texts_of(folder, schedule))
    with open(os.path.join(TOP, page), encoding="utf-8") as file:
        assert HEAD.match(file.read()), "%s begins in another way" % page
    blocks = excerpts_on(page)
    for block in blocks:
        assert any(is_part(block, text) for text in texts), "%s:\n%s" % (page, block)
    return len(blocks)


def main():
    parser = argparse.ArgumentParser(description=__doc__, formatter_class=argparse.RawDescriptionHelpFormatter, allow_abbrev=False)
    parser.add_argument("program", nargs="?", metavar="PROGRAM")
    program = os.path.abspath(program_of(parser.parse_args().program))
    for path in sorted(glob.glob(os.path.join(TOP, "examples", "*", "README.md"))):
        page = os.path.relpath(path, TOP)
        print("%s: %d excerpts, as shown" % (page, check(page, program)), flush=True)


if __name__ == "__main__":
    sys.exit(main())
