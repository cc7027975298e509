"""Processes that make some calls one after the other, and end: their modules, and the logs that they can have."""

import logs
from logs import entry
from modules import module
from pairs import BEGIN, Log
from script import digits

CALLS = """(import "liblog" "note" (func $note (param i64)))
  (import "liblog" "send" (func $send (param i32 i32 i32) (result i32)))
  (import "liblog" "recv" (func $recv (param i32 i32 i32) (result i32)))
  (import "liblog" "try_recv" (func $try_recv (param i32 i32 i32) (result i32)))"""
# Where the sender's number and the bytes of a datagram come to stand, and from where on those stand that are sent.
FROM, CAME, OUT = 32, 65536, 131072


def note(value):
    return entry(0, "note", (value,))


def send(to, data):
    """The datagram goes out from where its bytes stand, which is set when the module is made."""
    return entry(0, "send", (to, OUT, len(data)), len(data), data)


def take(tag, data, room=1000, call="recv"):
    """A datagram comes, of which so many bytes are taken at most."""
    return entry(0, call, (CAME, room, FROM), len(data[:room]), data[:room], tag)


def none_waits():
    return entry(0, "try_recv", (CAME, 16, FROM), 2**32 - 2)


def placed(steps):
    """The events with the places from which their bytes go out, one behind the other."""
    made, at = [], OUT
    for step in steps:
        if step.call == "send":
            step, at = step._replace(arguments=(step.arguments[0], at, len(step.data))), at + len(step.data)
        made.append(step)
    return made


def clocked(steps):
    """The events behind the first one, with their clocks."""
    made = [BEGIN]
    for step in steps:
        made.append(step._replace(clock=1 + max(made[-1].clock, step.tag[1] if step.tag else 0)))
    return made


def call_of(event):
    kind = "i64" if event.call in logs.WIDE else "i32"
    written = "(call $%s %s)" % (event.call, " ".join("(%s.const %d)" % (kind, value) for value in event.arguments))
    return written if event.call == "note" else "(drop %s)" % written


def module_of(log):
    calls, parts = log.events[1:], [event for event in log.events if event.call == "send" and event.data]
    data = "".join('(data (i32.const %d) "%s")' % (event.arguments[1], "".join("\\%02x" % byte for byte in event.data)) for event in parts)
    return digits(module('(module %s (memory 6) %s (func (export "_start") %s))' % (CALLS, data, "".join(map(call_of, calls)))))


def straight(count, process, name, *steps, version=logs.LATEST):
    """The log of a process of a group of `count` that makes these events."""
    return Log(count, process, name, clocked(placed(steps)), end="finished", module=name, version=version)


def put_modules(script, given):
    for log in given:
        script.file(log.module + ".wasm", module_of(log))
