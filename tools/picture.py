#!/usr/bin/env python3
"""A picture of a recording: a line for each process, its events in the order of their Lamport clocks, and an arrow
from each send to the event that took its datagram. It is printed as SVG, or with --shiviz as a log for ShiViz.

The logs tell which events and datagrams there are. How processes ended is asked of the program's replay, and where their
threads stand of its debugger; without the program a picture is made all the same.
"""

import argparse
import sys

from asking.program import program_if_there
from asking.report import Refused, replayed
from logs.format import CALLS, BadLog, printable
from logs.group import NotOneGroup, read_group
from logs.traffic import cut_processes, traffic_of
from logs.vector_clocks import shiviz_text
from pictures.captions import Captions
from pictures.command_line import OneLineParser, warn, write
from pictures.drawing import Picture
from pictures.standing import by_logs, by_replay, threads_at, time_told, with_sites
from sessions.names import Names
from sessions.sites import Sites, sites_of
from sessions.verdict import Verdict

# More events than these make what is hard to read, and more than the most a picture of many megabytes.
MANY, MANY_OF_SHIVIZ, MOST = 3000, 20_000, 20_000


def arguments():
    parser = OneLineParser(
        description=__doc__, formatter_class=argparse.RawDescriptionHelpFormatter, allow_abbrev=False
    )
    parser.add_argument("--shiviz", action="store_true", help="print a log for ShiViz in place of a picture")
    parser.add_argument("--from", dest="first", type=int, metavar="K", help="the position of the first event")
    parser.add_argument("--to", dest="last", type=int, metavar="K", help="the position of the last event")
    parser.add_argument("--whole", action="store_true", help="a picture of many megabytes too")
    parser.add_argument("--process", action="append", type=listed, metavar="NAME,..", help="only the lines of these processes")
    parser.add_argument("--hide", action="append", type=listed, metavar="CALL,..", help="no dots for events of these calls")
    parser.add_argument("--bytes", action="store_true", help="what events sent and took, beside them and not only by the mouse")
    parser.add_argument("--program", help="the program friday, if not the one that answers ./friday")
    parser.add_argument("--logs-alone", action="store_true", help="ask no program how the processes ended")
    parser.add_argument("pairs", nargs="+", metavar="MODULE LOG", help="the log of each process after its module")
    chosen = parser.parse_args()
    if len(chosen.pairs) % 2:
        parser.error("each module needs its log")
    chosen.process, chosen.hide = sum(chosen.process or [], []), sum(chosen.hide or [], [])
    unknown = set(chosen.hide) - {call.name for call in CALLS}
    if unknown:
        parser.error("no call is named %s" % ", ".join(sorted(unknown)))
    if chosen.shiviz and (chosen.process or chosen.hide):
        parser.error("--shiviz takes the events of all processes")
    return chosen


def listed(word):
    return word.split(",")


def drawn_logs(chosen, logs):
    """Those of the processes that are asked for, or all."""
    unknown = set(chosen.process) - {log.name for log in logs}
    if unknown:
        raise NotOneGroup("no log is of %s; they are of %s" % (", ".join(sorted(unknown)), ", ".join(log.name for log in logs)))
    return [log for log in logs if not chosen.process or log.name in chosen.process]


def span(chosen, count):
    """The positions of the first and the last event."""
    first = 1 if chosen.first is None else chosen.first
    last = count if chosen.last is None else min(chosen.last, count)
    if not 1 <= first <= last:
        raise NotOneGroup("no events lie from %d to %d; the logs have %d" % (first, last, count))
    return first, last


def program_of(chosen):
    """The program to ask, if there is one."""
    return None if chosen.logs_alone else chosen.program or program_if_there()


def results_of(program, pairs):
    """What replay says of each process; what is wrong with the logs is told."""
    verdict = Verdict(program, pairs)
    warn(verdict)
    return verdict.report.results if verdict.report else replayed(program, pairs)


class Asked:
    """What the program says of the processes, as far as there is one and it accepts all of the logs."""

    def __init__(self, program, pairs, logs, traffic):
        self.program, self.pairs, self.logs, self.events = program, pairs, logs, traffic.events
        self.results = results_of(program, pairs) if program else None
        self.is_whole = self.results is not None and all(self.results[log.name].accepted == len(log.entries) for log in logs)
        self.sites = sites_of(program, pairs, Names(pairs, lambda line: None), self.events) if self.is_whole else Sites()

    def ends(self, last):
        """How each process is at a position, by its name."""
        threads = threads_at(self.program, self.pairs, [log.name for log in self.logs], last) if self.is_whole else {}
        sites = self.sites.at(last, self.events)
        return {log.name: self.end(log, last, list(with_sites(log.name, threads.get(log.name, ()), sites))) for log in self.logs}

    def end(self, log, last, threads):
        is_last, time = all(event.position <= last for event in self.events if event.log is log), time_told(log, self.events[:last])
        return by_replay(log, is_last, time, self.results[log.name], threads) if self.results else by_logs(log, is_last, time)


def warn_of_size(chosen, count):
    if count > MOST and not chosen.shiviz and not chosen.whole:
        raise NotOneGroup("%d events make a picture of some %d MB; --from and --to take a part, and --whole draws them all" % (count, count * 370 // 10**6))
    if count > (MANY_OF_SHIVIZ if chosen.shiviz else MANY):
        words = count, "log for ShiViz" if chosen.shiviz else "picture"
        print("%d events make a large %s; --from and --to take a part" % words, file=sys.stderr)


def made(chosen):
    logs = read_group(chosen.pairs)
    traffic = traffic_of(logs, cut_processes(logs, chosen.pairs[1::2]))
    drawn = drawn_logs(chosen, logs)
    first, last = span(chosen, len(traffic.events))
    warn_of_size(chosen, last - first + 1)
    if chosen.shiviz:
        return shiviz_text(traffic, Captions(logs, traffic).lines, first, last)
    asked = Asked(program_of(chosen), chosen.pairs, logs, traffic)
    captions = Captions(logs, traffic, chosen.bytes, asked.sites.made)
    return Picture(drawn, traffic, captions, asked.ends(last), first, last, chosen.hide).svg()


def main():
    chosen = arguments()
    try:
        text = made(chosen)
    except (BadLog, NotOneGroup, Refused) as error:
        sys.exit(str(error))
    except OSError as error:
        sys.exit("%s: %s" % (printable(str(error.filename)), error.strerror))
    write(text)


if __name__ == "__main__":
    main()
