#!/usr/bin/env python3
"""What the debugger has no answer for, read from the logs of a group.

events.py list [--json|--brief] [--call CALL,..].. [--process NAME,..].. LOG..
                                             each event, numbered as the debugger's positions, with the bytes
                                             that it printed, sent or took; --brief has them in the same line, and
                                             --json is a record for each event, in a line of its own
events.py chrome [--from K] [--to K] LOG..   the events as a trace for Perfetto and for Chrome's trace viewer
events.py traps MODULE LOG [MODULE LOG]..    for each process that trapped, the debugger's lines that go to the
                                             position before the event in which it did, and to its frames

The debugger counts the events that replay accepts: give it the same logs, and whole ones.
"""

import argparse
import json
import os
import sys

from asking.program import program_of
from asking.report import Refused, replayed
from logs.chrome import trace
from logs.format import CALLS, BadLog, in_group_order, printable
from logs.group import NotOneGroup, read_logs
from logs.wording import bytes_lines

# A trace of more events takes a viewer long to open.
MANY = 200_000


def list_events(logs, chosen):
    names = {log.process: log.name for log in logs}
    unknown = set(chosen.process) - set(names.values())
    if unknown:
        sys.exit("no log is of %s; they are of %s" % (", ".join(sorted(unknown)), ", ".join(names.values())))
    for position, (entry, log) in enumerate(in_group_order(logs), 1):
        if (chosen.call and entry.call.name not in chosen.call) or (chosen.process and log.name not in chosen.process):
            continue
        if chosen.json:
            print(json.dumps(record(position, entry, log, names)))
        elif chosen.brief:
            print("; ".join(["%d: %s" % (position, entry.text(log.name)), *bytes_lines(entry, names)]))
        else:
            print("\n    ".join(["%d: %s" % (position, entry.text(log.name)), *bytes_lines(entry, names)]))


def print_trace(logs, first, last):
    """The events from one position to another, or all."""
    order = in_group_order(logs)
    first, last = max(first or 1, 1), min(last or len(order), len(order))
    if last - first >= MANY:
        print("%d events make a large trace; --from and --to take a part" % (last - first + 1), file=sys.stderr)
    names = {log.process: log.name for log in logs}
    for piece in trace(enumerate(order[first - 1 : last], first), names):
        sys.stdout.write(piece)


def record(position, entry, log, names):
    """An event for programs: bytes in hexadecimal, and only what the call has."""
    made = {"position": position, "clock": entry.clock, "process": log.name, "thread": entry.thread, "call": entry.call.name}
    made["arguments"] = list(entry.arguments)
    if entry.call.result:
        made["reply"] = entry.reply
    if entry.signal:
        made["signal"] = entry.signal
    if entry.call.sends_bytes and entry.reply >= 0:
        made["sent"] = entry.sent.hex()
    if entry.call.takes_bytes and entry.reply >= 0:
        made["taken"] = entry.taken.hex()
    if entry.call.name == "send":
        made["to"] = names.get(entry.arguments[0], entry.arguments[0])
    if entry.tag:
        made["from"], made["from_clock"] = names.get(entry.tag[0], entry.tag[0]), entry.tag[1]
    return made


def print_traps(program, pairs):
    results = replayed(program, pairs)
    logs = read_logs(pairs[1::2])
    order = in_group_order(logs)
    for log in logs:
        end = results[log.name].end
        if not end.startswith("trapped "):
            continue
        position = max(place for place, (_, other) in enumerate(order, 1) if other is log)
        print("# %s %s in what follows event %d: %s" % (log.name, end, position, log.entries[-1].text(log.name)))
        print("goto %d\nevents 3\nthreads %s\nstep\nframes %s %d" % (position - 1, log.name, log.name, log.entries[-1].thread))


def arguments():
    parser = argparse.ArgumentParser(
        description=__doc__, formatter_class=argparse.RawDescriptionHelpFormatter, allow_abbrev=False
    )
    works = parser.add_subparsers(dest="work", required=True)
    listing = works.add_parser("list", allow_abbrev=False)
    form = listing.add_mutually_exclusive_group()
    form.add_argument("--json", action="store_true", help="a record of JSON for each event")
    form.add_argument("--brief", action="store_true", help="the bytes in the line of the event")
    calls = [call.name for call in CALLS]
    listing.add_argument("--call", action="extend", type=listed, default=[], metavar="CALL,..", help="only the events of these calls")
    listing.add_argument("--process", action="extend", type=listed, default=[], metavar="NAME,..", help="only the events of these processes")
    listing.add_argument("logs", nargs="+", metavar="LOG")
    chrome = works.add_parser("chrome", allow_abbrev=False)
    chrome.add_argument("--from", dest="first", type=int, metavar="K", help="the position of the first event")
    chrome.add_argument("--to", dest="last", type=int, metavar="K", help="the position of the last event")
    chrome.add_argument("logs", nargs="+", metavar="LOG")
    traps = works.add_parser("traps", allow_abbrev=False)
    traps.add_argument("--program", help="the program friday, if not the one that answers ./friday")
    traps.add_argument("pairs", nargs="+", metavar="MODULE LOG")
    chosen = parser.parse_args()
    if chosen.work == "traps" and len(chosen.pairs) % 2:
        parser.error("each module needs its log")
    for name in chosen.call if chosen.work == "list" else ():
        if name not in calls:
            parser.error("argument --call: invalid choice: %r (choose from %s)" % (name, ", ".join(calls)))
    return chosen


def listed(word):
    return word.split(",")


def main():
    chosen = arguments()
    try:
        if chosen.work == "list":
            list_events(read_logs(chosen.logs), chosen)
        elif chosen.work == "chrome":
            print_trace(read_logs(chosen.logs), chosen.first, chosen.last)
        else:
            print_traps(program_of(chosen.program), chosen.pairs)
        sys.stdout.flush()
    except (BadLog, NotOneGroup, Refused) as error:
        sys.exit(str(error))
    except BrokenPipeError:
        # Whoever reads has enough, as head does.
        os.dup2(os.open(os.devnull, os.O_WRONLY), sys.stdout.fileno())
        sys.exit(141)
    except OSError as error:
        sys.exit("%s: %s" % (printable(str(error.filename)), error.strerror))


if __name__ == "__main__":
    main()
