#!/usr/bin/env python3
"""Puts what the measurements print into their sections of bench/RESULTS.md, with the day and the checksum of the program.

results.py [--program FILE] [--printed FOLDER] [NAME ..]

Each section names its command, which is run with the program behind its words; with --printed its output is FOLDER/NAME.txt, and the day is
that of the file. Without a name all sections are made anew. Those in which nothing is printed, or whose command fails, stay as they are.
"""

import argparse
import hashlib
import os
import re
import subprocess
import sys
import time

from costs import PROVED, TOP

PAGE = os.path.join(TOP, "bench", "RESULTS.md")
SECTION = re.compile(r"(?P<first><!-- figures of (?P<name>\w+) -->\n`(?P<command>[^`\n]+)`).*?(?P<last>\n<!-- end of figures -->)", re.S)


def checksum(program):
    with open(program, "rb") as file:
        return hashlib.sha256(file.read()).hexdigest()[:16]


def day(seconds):
    return time.strftime("%d %B %Y", time.localtime(seconds)).lstrip("0")


def printed(command, program):
    """What a command at the top of the clone prints of a program."""
    words = [*command.split(), program]
    return subprocess.run(words, cwd=TOP, stdout=subprocess.PIPE, text=True, check=True).stdout


def kept(folder, name):
    """What was printed earlier and when, or nothing."""
    path = os.path.join(folder, name + ".txt")
    if not os.path.exists(path):
        return "", 0
    with open(path, encoding="utf-8") as file:
        return file.read(), os.path.getmtime(path)


def figures(found, chosen):
    """The section with what its command prints, or as it is if that is nothing."""
    name, command = found["name"], found["command"]
    try:
        text, when = kept(chosen.printed, name) if chosen.printed else (printed(command, chosen.program), time.time())
    except subprocess.CalledProcessError as failed:
        print("%s: status %d" % (command, failed.returncode), file=sys.stderr)
        return found[0]
    if not text.strip():
        return found[0]
    print(name, flush=True)
    told = "the %s %s" % ("proved program" if chosen.program == PROVED else "program", checksum(chosen.program))
    return "%s, %s, %s\n\n```text\n%s\n```%s" % (found["first"], day(when), told, text.rstrip(), found["last"])


def main():
    parser = argparse.ArgumentParser(description=__doc__, formatter_class=argparse.RawDescriptionHelpFormatter, allow_abbrev=False)
    parser.add_argument("names", metavar="NAME", nargs="*", help="a section, by the name behind `figures of`")
    parser.add_argument("--program", type=os.path.abspath, default=PROVED, help="the program friday, if not the proved one")
    parser.add_argument("--printed", metavar="FOLDER", help="where the output of each command is")
    chosen = parser.parse_args()
    with open(PAGE, encoding="utf-8") as file:
        page = file.read()
    sections = {found["name"]: found for found in SECTION.finditer(page)}
    unknown = set(chosen.names) - set(sections)
    if unknown:
        parser.error("no section has figures of %s" % ", ".join(sorted(unknown)))
    for name in chosen.names or sections:
        page = page.replace(sections[name][0], figures(sections[name], chosen))
        with open(PAGE, "w", encoding="utf-8") as file:
            file.write(page)


if __name__ == "__main__":
    main()
