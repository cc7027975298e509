#!/usr/bin/env python3
"""Makes one schedule for some modules, from a seed and rates.

It goes round by round. A round gives the processes what comes to them from outside, and lets each of their threads make
some events. `friday play` does each round, and tells what was sent and which tries made an event; the tries that made none
are left out. It ends when no process runs any more, when nothing can happen any more, or after a number of rounds. Then it
says what the processes that still run wait for.

A rate is a chance from 0 to 1. The same words and the same modules make the same schedule, byte for byte.
"""

import argparse
import os
import sys

from asking.program import program_of
from playing.group import Group
from playing.player import PlayingFailed
from playing.playing import Playing
from schedules.maker import Maker, length_of
from schedules.waiting import waits
from schedules.words import add_drawn, refuse_group, refuse_over_module, refuse_unknown, without


def arguments():
    parser = argparse.ArgumentParser(
        description=__doc__, formatter_class=argparse.RawDescriptionHelpFormatter, allow_abbrev=False
    )
    add_drawn(parser)
    parser.add_argument("--seed", type=int, default=1)
    parser.add_argument("--program", help="the program friday, if not the one that answers ./friday")
    parser.add_argument("--output", required=True, help="the file for the schedule")
    refuse_unknown(parser, sys.argv[1:], ("--seed", "--program", "--output"))
    settings = parser.parse_args()
    refuse_group(parser, settings.processes)
    refuse_over_module(parser, settings.processes, settings.output)
    settings.words = " ".join(["make_schedule.py", *without(sys.argv[1:], ("--program", "--output"))])
    return settings


def make(settings, group):
    """Writes the schedule, and gives the lines that tell of it."""
    player = group.player()
    if settings.changes is not None:
        settings.length = length_of(settings, group, player)
    maker = Maker(settings, Playing(group, player))
    maker.make()
    with open(settings.output, "w", encoding="ascii") as file:
        file.write(maker.text())
    waiting = list(waits(maker.playing))
    player.end()
    return [*maker.summary(), *waiting, *stopped(maker, waiting)]


def stopped(maker, waiting):
    """Why there are no more rounds though processes run, and what would make more."""
    if maker.why:
        yield "stopped after round %d: %s" % (maker.turn, maker.why)
    if maker.turn == maker.settings.rounds and any("the wall time" in line for line in waiting):
        yield "a wall time that is waited for comes sooner with a greater --tick, which is %d" % maker.settings.tick


def main():
    settings = arguments()
    try:
        with Group(program_of(settings.program), settings.processes) as group:
            for line in make(settings, group):
                print(line)
        sys.stdout.flush()
    except PlayingFailed as error:
        sys.exit(str(error))
    except KeyboardInterrupt:
        sys.exit(130)
    except BrokenPipeError:
        # Whoever reads has enough, as head does; the schedule is whole by then.
        os.dup2(os.open(os.devnull, os.O_WRONLY), sys.stdout.fileno())
    except OSError as error:
        sys.exit("%s: %s" % (error.filename, error.strerror))


if __name__ == "__main__":
    main()
