#!/usr/bin/env python3
"""Checks that `friday streams` tells what the events of a group come to as streams: of groups whose processes send chunks that
are drawn at random, over datagrams that are lost, repeated, late, cut short and forged; of some of their logs, and of logs that are
changed by hand as far as replay accepts them.

check_streams.py [--groups N] [--seed N] [PROGRAM]
                (40 groups, the program that answers ./friday, if none is given)
"""

import argparse
import os
import sys
import tempfile
from collections import Counter
from dataclasses import replace

import tools_path  # before the modules of the tools, which it lets be found
from asking.program import program_of
from check_cut import of_accepted, some_of
from check_schedule import count_of, in_versions, put, seeded, words_of
from check_shown import called
from made_up import is_tagged
from streams_of import COUNTED, PLAIN, STRANGE, streams_of, went_into_group
from talking import other_bytes, retold, talked


# ---- other datagrams


def forged(draw, log, entry, sends):
    """The event takes what some process sent, most often to this one, or nearly that, after its tag or another one."""
    to_it = [send for send in sends if send[1].arguments[0] == log.process]
    sender, send = draw.choice(to_it if to_it and draw.random() < 0.8 else sends)
    taken = other_bytes(draw, send.sent)[: entry.arguments[1]]
    tag = (sender.process, max(1, send.clock + draw.choice((0,) * 8 + (1, -1)))) if draw.random() < 0.95 else None
    if tag is None and is_tagged(taken, log.processes):
        return entry
    return replace(entry, reply=len(taken), taken=taken, tag=tag)


def with_forged(draw, pairs):
    """The group with some events that took other datagrams."""

    def other(log, entry, earlier):
        sends = [(sender, send) for sender, send in earlier if went_into_group(sender, send)]
        is_drawn = entry.call.has_tag and entry.reply != -1 and sends and draw.random() < 0.3
        return forged(draw, log, entry, sends) if is_drawn else entry

    return retold(pairs, other)


def shortened(draw, log):
    return replace(log, entries=log.entries[: draw.randint(0, len(log.entries))])


# ---- what is told of it


def check_told(program, draw, folder, pairs):
    """The text is that of the events, for these pairs and for some of them, in any order. Gives how many sends and receives are
    what, of all of them."""
    accepted = of_accepted(program, folder, pairs)
    before = sorted(os.listdir(folder))
    for some in (accepted, some_of(draw, accepted)):
        made = streams_of([log for _, log in some])
        told = called(program, folder, "streams", *words_of(draw.sample(some, len(some))))
        assert told == made.text(), (told, made.text())
    assert sorted(os.listdir(folder)) == before
    return marks_of(streams_of([log for _, log in accepted]))


def marks_of(made):
    return Counter([("send", mark) for mark in made.sends.values()] + [("receive", mark) for mark in made.receives.values()])


def check_delivered(pairs):
    """Of a recording to which nothing was forged, a receive is strange only where its send is."""
    made = streams_of([log for _, log in pairs])
    for _, log in pairs:
        for entry in log.entries:
            if made.receives.get((log.process, entry.clock)) == STRANGE:
                assert made.sends[entry.tag] == STRANGE, (log.name, entry)


def check_group(program, draw):
    """A group that is recorded, with other events that took something, and with logs that end before. Gives how many events it
    has, and how many sends and receives of all are what."""
    with tempfile.TemporaryDirectory() as folder:
        forges = draw.random() < 0.5
        pairs = talked(program, draw, folder, forges)
        if not forges:
            check_delivered(pairs)
        marks = check_told(program, draw, folder, pairs)
        others = in_versions(draw, with_forged(draw, pairs))
        put(folder, others)
        marks += check_told(program, draw, folder, others)
        short = [(module, shortened(draw, log)) for module, log in others]
        put(folder, short)
        return count_of(pairs), marks + check_told(program, draw, folder, short)


def counted(marks, kind):
    return "%d %ss plain, %d counted and %d strange" % (marks[kind, PLAIN], kind, marks[kind, COUNTED], marks[kind, STRANGE])


def main():
    parser = argparse.ArgumentParser(description=__doc__, formatter_class=argparse.RawDescriptionHelpFormatter, allow_abbrev=False)
    parser.add_argument("--groups", type=int, default=40, help="how many groups are recorded")
    parser.add_argument("--seed", type=int, default=1, help="the seed of the first one")
    parser.add_argument("program", nargs="?", help="the program friday, if not the one that answers ./friday")
    chosen = parser.parse_args()
    rows = list(seeded(check_group, os.path.abspath(program_of(chosen.program)), chosen.seed, chosen.groups))
    marks = sum((marks for _, marks in rows), Counter())
    print("%d groups of %d events, in three forms: %s; %s" % (len(rows), sum(count for count, _ in rows), counted(marks, "send"), counted(marks, "receive")))
    print("their streams are told as they are")


if __name__ == "__main__":
    sys.exit(main())
