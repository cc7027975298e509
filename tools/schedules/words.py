"""The words for what is drawn: the processes, the rates, the bounds and the order of threads."""

import argparse
import os
import re

MOST_PROCESSES = 16
RATES = (
    ("loss", "a datagram is lost"),
    ("repeat", "a datagram comes a second time, some rounds later"),
    ("reorder", "a datagram comes some rounds late"),
    ("damage", "a datagram comes with one wrong bit in its payload"),
    ("partition", "the group falls into two parts for some rounds; the chance of each round in which it is whole"),
    ("inject", "bytes from outside come to a process; the chance of each process and round"),
    ("kill", "a process is killed; the chance of each process and round"),
    ("clock-step", "a process's wall time leaps; the chance of each process and round"),
    ("stall", "a process stands still for some rounds; the chance of each process and round"),
)
COUNTS = (
    ("rounds", 1000, 1, "the most rounds"),
    ("events", 3, 1, "the most events of a thread in one round"),
    ("late", 5, 1, "the most rounds that a late or repeated datagram takes longer"),
    ("partition-rounds", 5, 1, "the most rounds that a partition lasts"),
    ("stall-rounds", 5, 1, "the most rounds that a process stands still"),
    ("kills", 1, 0, "the most processes that are killed"),
    ("injected-bytes", 32, 1, "the most bytes of a datagram from outside"),
    ("tick", 1, 0, "how much the wall times grow in each round"),
    ("leap", 20, 1, "how far a wall time leaps at most, forwards or backwards"),
    ("random-bytes", 16, 0, "how many random bytes wait for a process that imports `random`"),
)
ORDER = re.compile(r"uniform|priorities:([1-9]\d{0,3})")


def rate(word):
    number = float(word)
    if not 0 <= number <= 1:
        raise argparse.ArgumentTypeError("a rate is 0 to 1, and not %s" % word)
    return number


def signal(word):
    number, _, chance = word.partition("=")
    if not 1 <= int(number) <= 31:
        raise argparse.ArgumentTypeError("a signal is 1 to 31, and not %s" % number)
    return int(number), rate(chance)


def process(word):
    name, _, module = word.partition("=")
    if not re.fullmatch("[a-z0-9_]{1,32}", name):
        raise argparse.ArgumentTypeError("a name is 1 to 32 of a to z, 0 to 9 and _, and a = follows it: %r" % word)
    if not re.fullmatch("[!-~]{1,255}", module) or module.endswith((".log", ".mem", ".out")):
        raise argparse.ArgumentTypeError("no schedule can name the module of %r" % word)
    return name, module


def at_least(least):
    def number(word):
        if int(word) < least:
            raise argparse.ArgumentTypeError("it has to be at least %d, and is %s" % (least, word))
        return int(word)

    return number


def order(word):
    """How many moments are drawn at which a thread loses its priority; None is for draws without priorities."""
    found = ORDER.fullmatch(word)
    if not found:
        raise argparse.ArgumentTypeError("an order is uniform or priorities:D, with D from 1, and not %s" % word)
    return int(found[1]) - 1 if found[1] else None


def add_drawn(parser):
    """The words for what is drawn, but for the seed."""
    parser.add_argument("processes", nargs="+", type=process, metavar="NAME=MODULE", help="a process and its module, in order of number")
    for name, meaning in RATES:
        parser.add_argument("--" + name, type=rate, default=0.0, metavar="RATE", help=meaning)
    parser.add_argument("--signal", dest="signals", action="append", type=signal, default=[], metavar="S=RATE",
                        help="signal S comes to a process; the chance of each process and round")
    for name, usual, least, meaning in COUNTS:
        parser.add_argument("--" + name, type=at_least(least), default=usual, metavar="N", help="%s (%d if not given)" % (meaning, usual))
    parser.add_argument("--order", dest="changes", type=order, default=None, metavar="ORDER",
                        help="uniform, or priorities:D: the thread with the highest priority goes on until it waits, and D-1 times one loses its "
                        "priority (uniform if not given)")


def refuse_unknown(parser, words, own):
    """Names an option that there is none of, which argparse would tell of as of a process; `own` are those of the tool itself."""
    known = ("--help", "--signal", "--order", *("--" + row[0] for row in RATES + COUNTS), *own)
    for word in words:
        if word.startswith("--") and word.split("=")[0] not in known:
            parser.error("there is no %s" % word.split("=")[0])


def refuse_group(parser, processes):
    names = [name for name, _ in processes]
    twice = next((name for name in names if names.count(name) > 1), None)
    if twice:
        parser.error("two processes are named %s" % twice)
    if len(names) > MOST_PROCESSES:
        parser.error("a group has %d processes at most" % MOST_PROCESSES)


def refuse_over_module(parser, processes, path):
    """No file that is made may take the place of a module."""
    for _, module in processes:
        if os.path.exists(path) and os.path.exists(module) and os.path.samefile(path, module):
            parser.error("the schedule would be written over the module %s" % module)


def without(words, left_out):
    """The words but for these options and their values."""
    kept, skip = [], False
    for word in words:
        named = word.split("=")[0] in left_out
        if not named and not skip:
            kept.append(word)
        skip = named and "=" not in word
    return kept
