#!/usr/bin/env python3
"""Checks that `friday cut` makes the least logs that an event needs, and that these replay to the states that were recorded: of
groups that are recorded by schedules drawn at random, of the hunts' guests and of processes that send each other much, of such groups
that are changed by hand as far as replay accepts them, and of processes that are made up with logs that no recording made.

check_cut.py [--groups N] [--made N] [--seed N] [PROGRAM]
                (40 of each, the program that answers ./friday, if none is given)

Of each group some logs are given, in any order and in versions that are drawn, and then short fronts of all of them, where the
least past is looked for among all fronts too.
"""

import argparse
import os
import shutil
import sys
import tempfile
from dataclasses import replace

import tools_path  # before the modules of the tools, which it lets be found
from asking.program import program_of
from asking.report import replayed
from check_schedule import QUICK, changed, count_of, in_versions, made, process_of, put, put_modules, read, refused, seeded, words_of
from check_shown import PLACES, called, recorded
from cut_of import closed_fronts, cut_of, least_of, past_of
from logs.format import in_group_order, read_log
from talking import retold, talked

# So many fronts are looked at in one group at most, and so many events has one of its logs.
MOST_FRONTS, MOST_SHORT = 600, 9
MOST_PROCESSES, MOST_EVENT = 16, 2**63 - 1
# How many times events are drawn to which a group is cut.
CUTS = 2


# ---- what is given and what is shown


def cut_words(pairs):
    """The modules and the logs that were made."""
    return [word for module, log in pairs for word in (module, log.name + ".cut")]


def copies_of_cuts(folder, pairs):
    """The same under other names, as no file is made in the place of one that is read."""
    for _, log in pairs:
        shutil.copy(os.path.join(folder, log.name + ".cut"), os.path.join(folder, log.name + ".again"))
    return [word for module, log in pairs for word in (module, log.name + ".again")]


def paths(folder, words):
    return [os.path.join(folder, word) for word in words]


def of_accepted(program, folder, pairs):
    """The pairs with the entries that replay accepts, in turn."""
    results = replayed(program, paths(folder, words_of(pairs)))
    pairs = [(module, replace(log, entries=log.entries[: results[log.name].accepted])) for module, log in pairs]
    return sorted(pairs, key=process_of)


def drawn_event(draw, pairs):
    """A process with an event and the number of one: often the first or the last."""
    log = draw.choice([log for _, log in pairs if log.entries])
    return log.process, draw.choice((1, len(log.entries), *(draw.randint(1, len(log.entries)) for _ in range(4))))


def some_of(draw, pairs):
    """All pairs, or some with an event among them."""
    chosen = draw.sample(pairs, draw.choice((len(pairs), draw.randint(1, len(pairs)))))
    return sorted(chosen if any(log.entries for _, log in chosen) else pairs, key=process_of)


def positions_of(logs):
    """Of each process where its events stand in the order of the group, from 1, and before them where it has made none."""
    positions = {log.process: [0] for log in logs}
    for position, (_, log) in enumerate(in_group_order(logs), 1):
        positions[log.process].append(position)
    return positions


ASKED = ("threads %s", "print @%s.clock", "print @%s.events", "print @%s.size", *("mem %%s %d 64" % place for place in PLACES))
# No other answer is this line.
PARTING = "print -1", "\n-1\n"


def states(program, folder, words, places):
    """What the debugger shows of processes, each at a position of its own."""
    asked, parted = PARTING
    lines = [asked, *(line for name, at in places for line in ("goto %d" % at, *(each % name for each in ASKED), asked))]
    text = called(program, folder, "debug", *words, typed="\n".join([*lines, "quit"]) + "\n")
    # The first line of a part tells the position, which has another number in each group.
    return [part.partition("\n")[2] for part in text.split(parted)[1:-1]]


# ---- one event


def check_shown(program, folder, pairs, lengths):
    """The logs that were made replay, and at their end each process is as it was in the whole group after so many events."""
    results = replayed(program, paths(folder, cut_words(pairs)))
    for (_, log), length in zip(pairs, lengths):
        assert (results[log.name].accepted, results[log.name].verdict) == (length, "log whole"), results
    positions = positions_of([log for _, log in pairs])
    places = [(log.name, positions[log.process][length]) for (_, log), length in zip(pairs, lengths)]
    whole = states(program, folder, words_of(pairs), places)
    assert len(whole) == len(pairs)
    assert states(program, folder, cut_words(pairs), [(log.name, sum(lengths)) for _, log in pairs]) == whole, "another state than before"


def check_call(program, folder, words, event, text, files):
    """The call prints this and makes these files, and no other."""
    there = {*os.listdir(folder), *files}
    told = called(program, folder, "cut", *map(str, event), *words)
    assert told == text, (told, text)
    assert {*os.listdir(folder)} == there
    for name, data in files.items():
        assert read(os.path.join(folder, name)) == data, name + " has other bytes"


def check_event(program, draw, folder, pairs, event):
    """The logs of these pairs, which are in turn, are cut to an event: a process and a number. What is made is cut to itself."""
    logs = [log for _, log in pairs]
    text, files = cut_of(logs, *event)
    check_call(program, folder, words_of(draw.sample(pairs, len(pairs))), event, text, files)
    lengths = past_of(logs, *event)
    again, same = cut_of([replace(log, entries=log.entries[:length]) for log, length in zip(logs, lengths)], *event)
    assert same == files
    check_call(program, folder, copies_of_cuts(folder, draw.sample(pairs, len(pairs))), event, again, files)
    check_shown(program, folder, pairs, lengths)


def made_in(folder):
    """The names in the folder, with the bytes of the logs that were made."""
    return {name: read(os.path.join(folder, name)) if name.endswith(".cut") else None for name in os.listdir(folder)}


def check_refusals(program, draw, folder, pairs):
    """No log of a process, and no event of this number: no file is made, and none is changed."""
    before = made_in(folder)
    order = draw.sample(pairs, len(pairs))
    others = {*range(MOST_PROCESSES)} - {log.process for _, log in pairs}
    if others:
        told = refused(program, folder, "cut", str(draw.choice(sorted(others))), str(draw.choice((1, 5, MOST_EVENT))), *words_of(order))
        assert told == "friday: refused %s.log: 12 NoProcess\n" % order[0][1].name, told
    _, log = draw.choice(pairs)
    late = draw.choice((len(log.entries) + 1, len(log.entries) + 9, MOST_EVENT))
    told = refused(program, folder, "cut", str(log.process), str(late), *words_of(order))
    assert told == "friday: refused %s.log: 13 NoEvent\n" % log.name, told
    assert made_in(folder) == before


# ---- groups


def check_group(program, draw, folder, pairs):
    """Some of the pairs, in the versions that their files have, are cut to events that are drawn. Gives how many events there are."""
    pairs = of_accepted(program, folder, pairs)
    check_refusals(program, draw, folder, some_of(draw, pairs))
    if count_of(pairs) > 0:
        for _ in range(CUTS):
            some = some_of(draw, pairs)
            check_event(program, draw, folder, some, drawn_event(draw, some))
    return count_of(pairs)


def shortened(draw, pairs):
    """The first events of each log, of which there are so few that all fronts can be looked at."""
    left, made = MOST_FRONTS, []
    for module, log in draw.sample(pairs, len(pairs)):
        length = min(len(log.entries), left - 1, draw.randint(0, MOST_SHORT))
        made.append((module, replace(log, entries=log.entries[:length])))
        left //= length + 1
    return made


def check_short(program, draw, folder, pairs):
    """Short fronts of the logs: of each event the least past among all fronts is the one that a walk finds, and the program cuts
    the logs to it. Gives how many events there are."""
    short = in_versions(draw, shortened(draw, of_accepted(program, folder, pairs)))
    put(folder, short)
    logs = [log for _, log in sorted(short, key=process_of)]
    closed = closed_fronts(logs)
    for log in logs:
        for number in range(1, len(log.entries) + 1):
            assert least_of(logs, closed, log.process, number) == past_of(logs, log.process, number), (log.name, number)
    return check_group(program, draw, folder, short)


def drawn_group(program, draw, folder):
    """The pairs of a group that is recorded: of the hunts' guests, or of processes that send each other much."""
    if draw.random() < 0.7:
        return talked(program, draw, folder, draw.random() < 0.3)
    names, modules, _ = recorded(program, draw, folder, QUICK)
    return [(module, read_log(os.path.join(folder, name + ".log"))) for name, module in zip(names, modules)]


def with_other_tags(draw, pairs):
    """The group with tags that name other events before, of any call; a sender that is another one may make a log diverge."""

    def other(log, entry, earlier):
        if entry.tag is None or draw.random() < 0.5 or not earlier:
            return entry
        of_sender = [(sender, event) for sender, event in earlier if sender.process == entry.tag[0]]
        sender, event = draw.choice(of_sender or earlier)
        return replace(entry, tag=(sender.process, event.clock))

    return retold(pairs, other)


def check_recorded(program, draw):
    """A group that is recorded, and one that is changed: some of its logs diverge. Gives how many events all have."""
    with tempfile.TemporaryDirectory() as folder:
        pairs = drawn_group(program, draw, folder)
        events = check_group(program, draw, folder, pairs)
        others = with_other_tags(draw, pairs) if draw.random() < 0.5 else [(module, changed(draw, log)) for module, log in pairs]
        others = in_versions(draw, others)
        put(folder, others)
        return events, check_group(program, draw, folder, others), check_short(program, draw, folder, others)


def check_made(program, draw):
    pairs, modules, _ = made(draw)
    with tempfile.TemporaryDirectory() as folder:
        put_modules(folder, modules)
        put(folder, pairs)
        return check_group(program, draw, folder, pairs), check_short(program, draw, folder, pairs)


def totals(rows, forms):
    """How many groups, and how many events there are in each of their forms."""
    return (len(rows), *(sum(row[at] for row in rows) for at in range(forms)))


def check_all(program, chosen):
    rows = list(seeded(check_recorded, program, chosen.seed, chosen.groups))
    print("%d recorded groups of %d events, changed ones of %d, and short ones of %d are cut" % totals(rows, 3), flush=True)
    rows = list(seeded(check_made, program, chosen.seed, chosen.made))
    print("%d groups of %d events that are made up, and short ones of %d, are cut" % totals(rows, 2))


def main():
    parser = argparse.ArgumentParser(description=__doc__, formatter_class=argparse.RawDescriptionHelpFormatter, allow_abbrev=False)
    parser.add_argument("--groups", type=int, default=40, help="how many groups are recorded, and changed")
    parser.add_argument("--made", type=int, default=40, help="how many groups are made up")
    parser.add_argument("--seed", type=int, default=1, help="the seed of the first one")
    parser.add_argument("program", nargs="?", help="the program friday, if not the one that answers ./friday")
    chosen = parser.parse_args()
    check_all(os.path.abspath(program_of(chosen.program)), chosen)


if __name__ == "__main__":
    sys.exit(main())
