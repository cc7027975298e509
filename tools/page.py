#!/usr/bin/env python3
"""A recording as a page that a browser shows without any network: the events of all processes along their common order,
with a cursor, and at each position the threads, the datagrams under way and the values of expressions. With --against it
shows two recordings of one group beside each other, and where they differ first.

The program is asked by `friday replay` and `friday debug`; the logs tell the rest.
"""

import argparse
import sys

from asking.report import BUILT, Refused
from logs.format import BadLog, printable
from logs.group import NotOneGroup
from pages.file import page
from pages.packing import packed
from pages.recording import read_recording
from pictures.command_line import OneLineParser, warn, write
from sessions.names import Names, Refusal
from sessions.verdict import Verdict


def watch(word):
    name, equals, expression = word.partition("=")
    if not equals or not name or not expression.strip():
        raise argparse.ArgumentTypeError("a watch is NAME=EXPR: %s" % ascii(word))
    if len(expression.splitlines()) != 1:
        raise argparse.ArgumentTypeError("the expression of a watch is one line: %s" % ascii(word))
    return name, expression.strip()


def arguments():
    parser = OneLineParser(
        description=__doc__, formatter_class=argparse.RawDescriptionHelpFormatter, allow_abbrev=False
    )
    parser.add_argument("pairs", nargs="+", metavar="MODULE LOG", help="the log of each process after its module")
    parser.add_argument("--watch", dest="watches", nargs="+", action="extend", type=watch, default=[], metavar="NAME=EXPR",
                        help="an expression as a session takes it, with names of variables, and the name that the page gives it")
    parser.add_argument("--against", nargs="+", default=[], metavar="MODULE LOG", help="another recording of the group")
    parser.add_argument("--program", default=BUILT, help="the program friday, if not the one that ./friday builds")
    chosen = parser.parse_args()
    if len(chosen.pairs) % 2 or len(chosen.against) % 2:
        parser.error("each module needs its log")
    return chosen


def with_addresses(names, watches):
    """The watches with addresses in place of names of variables, as NAME.places beside the modules has them."""
    try:
        return [(name, names.expression(expression)) for name, expression in watches]
    except Refusal as refusal:
        raise NotOneGroup("a watch is refused: %s" % printable(str(refusal))) from None


def made(chosen):
    recordings = []
    for pairs in (chosen.pairs, chosen.against):
        if pairs:
            names = Names(pairs, lambda line: None)
            recordings.append(read_recording(chosen.program, pairs, names, with_addresses(names, chosen.watches)))
            warn(Verdict(chosen.program, pairs))
    names = [[(process["number"], process["name"]) for process in data["processes"]] for data, _ in recordings]
    if names[0] != names[-1]:
        raise NotOneGroup("the recordings are not of the same processes")
    return page([packed(*recording) for recording in recordings])


def main():
    chosen = arguments()
    try:
        text = made(chosen)
    except (BadLog, NotOneGroup, Refused) as error:
        sys.exit(str(error))
    except OSError as error:
        sys.exit("%s: %s" % (printable(str(error.filename)), error.strerror))
    write(text)


if __name__ == "__main__":
    main()
