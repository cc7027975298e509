"""The least past of an event of a group, in two ways that share nothing: what `friday cut` has to print and to write."""

from __future__ import annotations

from dataclasses import replace
from itertools import product

from logs.format import LATEST, spelled

# ---- by all fronts: as the rule has it


def is_closed(logs, front):
    """Whether each event of these first ones of the logs, so many of each, that took a tag has the event among them that the tag
    names, where a given log has it."""
    for log, length in zip(logs, front):
        for entry in log.entries[:length]:
            if entry.tag is not None and not all(has_named(other, most, entry.tag) for other, most in zip(logs, front)):
                return False
    return True


def has_named(log, length, tag):
    """Whether the event of the log that a tag names is one of its first ones, where it is any of them."""
    sender, clock = tag
    if log.process != sender or all(entry.clock != clock for entry in log.entries):
        return True
    return any(entry.clock == clock for entry in log.entries[:length])


def closed_fronts(logs):
    """Of all fronts of the logs, how many first events of each, those that are closed."""
    return [front for front in product(*(range(len(log.entries) + 1) for log in logs)) if is_closed(logs, front)]


def least_of(logs, closed, process, number):
    """The least lengths that closed fronts with this event of a process have, one a log."""
    at = [log.process for log in logs].index(process)
    holding = [front for front in closed if front[at] >= number]
    return tuple(min(lengths) for lengths in zip(*holding))


# ---- by walking back from the event


def past_of(logs, process, number):
    """How many events of each log those are that this event of a process needs: it, the one before each, and the ones named."""
    places = {log.process: at for at, log in enumerate(logs)}
    named = {(log.process, entry.clock): (places[log.process], n) for log in logs for n, entry in enumerate(log.entries, 1)}
    lengths, open_ends = [0] * len(logs), [(places[process], number)]
    while open_ends:
        at, n = open_ends.pop()
        # Of the events below it those that were reached before have been asked.
        tags = [entry.tag for entry in logs[at].entries[lengths[at] : n]]
        open_ends += [named[tag] for tag in tags if tag in named]
        lengths[at] = max(lengths[at], n)
    return tuple(lengths)


# ---- what is printed and made


def front_of(log, length):
    """The bytes of the log that is cut to its first events: its newer form."""
    return spelled(replace(log, entries=log.entries[:length], version=LATEST))


def in_turn(logs):
    return sorted(logs, key=lambda log: log.process)


def cut_of(logs, process, number):
    """The text, and the files by their names, of logs in any order which have the entries that replay accepts."""
    logs = in_turn(logs)
    lengths = past_of(logs, process, number)
    text = "".join("%s: %d of %d events\n" % (log.name, length, len(log.entries)) for log, length in zip(logs, lengths))
    return text, {log.name + ".cut": front_of(log, length) for log, length in zip(logs, lengths)}
