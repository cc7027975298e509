"""The events of a group as a trace that Perfetto and Chrome's trace viewer show: a track for each thread, an arrow for each datagram."""

import json

from logs.traffic import is_receive, is_send
from logs.wording import bytes_lines

# A position is so many microseconds of the trace.
STEP, LENGTH = 10, 8


def trace(events, names):
    """The pieces of the trace; `events` are pairs of a position and an event's entry with its log, in their order."""
    yield '{"displayTimeUnit": "ms", "traceEvents": [\n'
    sends = {}
    for number, name in sorted(names.items()):
        yield json.dumps({"ph": "M", "pid": number, "name": "process_name", "args": {"name": name}}) + ",\n"
    for position, (entry, log) in events:
        yield json.dumps(slice_of(position, entry, log, names)) + ",\n"
        if is_send(entry):
            sends[log.process, entry.clock] = position, entry.thread, entry.arguments[0]
        sent = sends.get(entry.tag) if is_receive(entry) else None
        if sent and sent[2] == log.process:
            for piece in arrow(sent, entry.tag[0], position, entry.thread, log.process):
                yield json.dumps(piece) + ",\n"
    yield json.dumps({"ph": "M", "pid": 0, "name": "trace_end", "args": {}}) + "\n]}\n"


def slice_of(position, entry, log, names):
    """An event as a piece of its thread's track."""
    told = {"event": "%d: %s" % (position, entry.text(log.name))}
    told.update(line.partition(" ")[::2] for line in bytes_lines(entry, names))
    name = entry.call.name + (" %d" % entry.arguments[0] if len(entry.arguments) == 1 else "")
    return {"ph": "X", "pid": log.process, "tid": entry.thread, "ts": position * STEP, "dur": LENGTH, "name": name, "cat": entry.call.name, "args": told}


def arrow(sent, sender, position, thread, receiver):
    """From a send to the event that took its datagram."""
    shared = {"name": "datagram", "cat": "datagram", "id": position}
    yield {**shared, "ph": "s", "pid": sender, "tid": sent[1], "ts": sent[0] * STEP + 1}
    yield {**shared, "ph": "f", "bp": "e", "pid": receiver, "tid": thread, "ts": position * STEP + 1}
