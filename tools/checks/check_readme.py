#!/usr/bin/env python3
"""Does what README shows in a fresh clone of what is committed, by its launcher, with a program in place of the first call's build. The
first of its two commands has to answer as `answers` of the example says, and the clone stays as it was. The second one takes hours: it has
to be what `.ci/run` runs.

check_readme.py [PROGRAM]     (the program that answers ./friday, if none is given)
"""

import argparse
import os
import subprocess
import sys
import tempfile

from tools_path import TOP  # before the modules of the tools, which it lets be found
from asking.program import program_of
from check_pages import Folder, blocks_of, commands_of, compare, do_block, done, joined

ANSWERS = os.path.join("examples", "lost_update", "answers")
GATE = os.path.join(".ci", "run")


def clone(folder, program):
    subprocess.run(["git", "clone", "-q", "--shared", TOP, folder], check=True)
    os.mkdir(os.path.join(folder, "out"))
    with open(os.path.join(folder, "out", "current"), "w", encoding="utf-8") as file:
        file.write("proved %s\n" % program)


def read(top, name):
    with open(os.path.join(top, name), encoding="utf-8") as file:
        return file.read()


def check(top):
    """How many commands there are; each does what README says."""
    *shown, last = [block for _, block in joined(blocks_of("README.md")) if block.startswith("$ ")]
    count = sum(do_block(block, Folder(top)) for block in shown)
    first, gate = [command for command, _ in commands_of(last)]
    compare(first, done(first, Folder(top)), read(top, ANSWERS))
    assert "exec " + gate in read(top, GATE).splitlines(), gate
    changed = subprocess.run(["git", "status", "--short", "--", ".", ":!.place"], cwd=top, stdout=subprocess.PIPE, text=True, check=True).stdout
    assert not changed, changed
    return count + 2


def main():
    parser = argparse.ArgumentParser(description=__doc__, formatter_class=argparse.RawDescriptionHelpFormatter, allow_abbrev=False)
    parser.add_argument("program", nargs="?", metavar="PROGRAM")
    program = os.path.abspath(program_of(parser.parse_args().program))
    with tempfile.TemporaryDirectory() as folder:
        top = os.path.join(folder, "clone")
        clone(top, program)
        print("README: %d commands, as shown" % check(top))


if __name__ == "__main__":
    sys.exit(main())
