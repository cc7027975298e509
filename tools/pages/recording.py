"""A recording as a page holds it: columns over all events, in the order of the debugger, and what was asked of it.

Each column is a list with a number for each event, and what repeats stands once in a table: so it packs well, and the page
needs no arithmetic on numbers of 64 bits.
"""

from __future__ import annotations

import dataclasses

from asking.debugger import courses, threads_at
from asking.report import replayed
from logs.group import NotOneGroup, read_group
from logs.traffic import Fate, cut_processes, traffic_of
from sessions.places import in_words
from sessions.sites import sites_of

FATES = {Fate.NOT_TAKEN: 0, Fate.NO_LOG: 1, Fate.LEFT_GROUP: 2, Fate.CUT: 3}


class Table:
    """Gives each distinct thing a number, from 0, in the order in which they come."""

    def __init__(self):
        self.numbers = {}

    def number(self, thing):
        return self.numbers.setdefault(thing, len(self.numbers))


def read_recording(program, pairs, names, watches):
    """The columns of a recording and its distinct byte strings, of the words MODULE LOG .., its names and of pairs NAME, EXPR."""
    logs = read_group(pairs)
    results = replayed(program, pairs)
    if set(results) != {log.name for log in logs}:
        raise NotOneGroup("the replay tells of other processes than the logs")
    logs = [dataclasses.replace(log, entries=log.entries[: results[log.name].accepted]) for log in logs]
    traffic = traffic_of(logs, cut_processes(logs, pairs[1::2]))
    data, pieces = columns(logs, traffic.events)
    data["files"] = list(pairs[1::2])
    data["processes"] = processes(program, pairs, logs, results, traffic.events)
    data.update(placed(sites_of(program, pairs, names, traffic.events), len(traffic.events)))
    data.update(datagrams(traffic))
    data["courses"] = [course_data(course) for course in courses(program, pairs, watches, len(traffic.events))]
    return data, pieces


def columns(logs, events):
    places = {log.process: place for place, log in enumerate(logs)}
    texts, pieces, steps, before = Table(), Table(), [], 0
    for event in events:
        steps.append(event.entry.clock - before)
        before = event.entry.clock
    data = {
        "count": len(events),
        "group": logs[0].processes if logs else 0,
        "clock": [exact(step) for step in steps],
        "process": [places[event.log.process] for event in events],
        "thread": [event.entry.thread for event in events],
        "text": [texts.number(text_of(event)) for event in events],
        "bytes": [pieces.number(event.entry.sent or event.entry.taken) for event in events],
        "made": [made for made in map(made_by, events) if made],
    }
    data["texts"] = list(texts.numbers)
    return data, list(pieces.numbers)


def exact(number):
    """A number that JavaScript would round goes as text."""
    return number if abs(number) < 2**53 else str(number)


def text_of(event):
    """The event without clock, process and thread, which are columns of their own."""
    return event.entry.text(event.log.name).split(" ", 3)[3]


def made_by(event):
    """The position of an event that makes a thread, and the thread."""
    if event.entry.call.name != "spawn" or event.entry.reply < 0:
        return None
    return event.position, event.entry.reply


def processes(program, pairs, logs, results, events):
    """Each process with its end, and how each thread is after its own last event while the process runs."""
    last = {event.log.name: event.position for event in events}
    ends = {log.name: results[log.name].end for log in logs}
    places = [(last[log.name] - 1 if ends[log.name] != "running" else len(events), log.name) for log in logs]
    standing = threads_at(program, pairs, places)
    return [
        {
            "name": log.name, "number": log.process, "end": ends[log.name],
            "verdict": results[log.name].verdict, "threads": sorted(standing[log.name].items()),
        }
        for log in logs
    ]


def placed(sites, count):
    """The place in the source of each event and of each thread in the end, by its number from 1; 0 where none is known."""
    places = Table()

    def number(call):
        return places.number(call) + 1 if call else 0

    made = [number(sites.made.get(position)) for position in range(1, count + 1)] if sites.made else []
    waiting = [[node, thread, number(call)] for (node, thread), call in sites.waiting.items() if call]
    return {"sites": made, "waiting": waiting, "places": [in_words(call) for call in places.numbers]}


def datagrams(traffic):
    """Which send each event took, and what is known of the sends that none took."""
    strays = [
        (event.position, event.entry.tag[0], str(event.entry.tag[1]))
        for event in traffic.events
        if event.position in traffic.origins and event.entry.tag and event.position not in traffic.by_receive
    ]
    return {
        "receives": list(traffic.by_receive),
        "sends": [taken.send.position for taken in traffic.taken],
        "altered": [taken.receive.position for taken in traffic.taken if taken.altered],
        "outside": [at for at in traffic.origins if not traffic.events[at - 1].entry.tag],
        "strays": strays,
        "fates": [(at, FATES[fate]) for at, fate in traffic.fates.items() if fate in FATES],
    }


def course_data(course):
    positions = [position for position, _ in course.changes]
    return {
        "name": course.name,
        "expression": course.expression,
        "positions": positions,
        "values": [course.first] + [value for _, value in course.changes],
    }
