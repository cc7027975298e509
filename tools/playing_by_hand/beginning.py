"""Where a session begins: with processes alone, with a schedule that there is, or in the middle of a recording."""

import argparse

from playing.player import ITEMS, PlayingFailed
from playing_by_hand import following
from schedules.words import process, refuse_group


def beginning(parser, program, chosen):
    """The processes, pairs of a name and a module, and what brings a session of them to where it begins."""
    if chosen.from_logs:
        processes, steps = following.steps_of(program, chosen.words)
        return processes, lambda session: following.begin(session, steps, chosen.until or 0)
    if len(chosen.words) == 1 and "=" not in chosen.words[0]:
        processes, items = of_schedule(chosen.words[0])
        return processes, lambda session: session.begin([[item] for item in items])
    try:
        processes = [process(word) for word in chosen.words]
    except argparse.ArgumentTypeError as error:
        parser.error(str(error))
    refuse_group(parser, processes)
    return processes, lambda session: None


def of_schedule(path):
    """The processes and the items of a schedule, as far as its lines tell; the program judges them."""
    with open(path, encoding="latin-1") as file:
        lines = [line.strip(" \t\r") for line in file.read().split("\n")]
    words = [line.split() for line in lines]
    processes = [tuple(each[1:]) for each in words if len(each) == 3 and each[0] == "process"]
    if not processes:
        raise PlayingFailed("%s is no schedule" % path)
    return processes, [line for line, each in zip(lines, words) if each and each[0] in ITEMS]
