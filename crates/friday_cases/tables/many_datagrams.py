"""Many datagrams: sent, delivered again and again, and waiting; and a ring of as many processes as there can be."""

import struct

from common import counts_line
from logs import entry
from modules import module
from pairs import BEGIN, Log, group_line, report, sent, words
from script import digits, text, times
from sessions import session

CALLS = """(import "liblog" "send" (func $send (param i32 i32 i32) (result i32)))
  (import "liblog" "recv" (func $recv (param i32 i32 i32) (result i32))) (import "liblog" "me" (func $me (result i32)))"""
TAKE = "(drop (call $recv (i32.const 8) (i32.const 16) (i32.const 4)))"
SEND = "(drop (call $send (i32.const 1) (i32.const 0) (i32.const 4)))"


def guest(body, before=""):
    return digits(module('(module %s (memory 1) (func (export "_start") (local $next i32) %s (loop %s (br 0))))' % (CALLS, before, body)))


# Counts up at 0 and sends the number to process 1; takes datagrams.
SENDER = guest("(i32.store (i32.const 0) (i32.add (i32.load (i32.const 0)) (i32.const 1)))" + SEND)
TAKER = guest(TAKE)
SENT = 70000
# Which of the datagrams are delivered first, and those that were not sent.
FIRST = (SENT, 1, 2, 299, 300, 301, 302, 1000, 1001, 3000, 3001, 65535, 65536, 65537, 69999)
NONE = (SENT + 1, 2**32 + 1, 2**63 - 1)
# Then the last one, and one from outside, in turn.
AGAIN = 35000
OUTSIDE = b"\xff" * 20


def number(value):
    return struct.pack("<I", value)


def taken(clock, data, tag):
    return entry(clock, "recv", (8, 16, 4), len(data), data, tag)


def of_sender():
    return [BEGIN] + [sent(at + 1, 1, number(at), 0) for at in range(1, SENT + 1)]


def of_taker():
    """The tag of a datagram has the sender's number and the clock of the event."""
    events, last = [BEGIN], (SENT, OUTSIDE)
    for at in (*FIRST, *(last * AGAIN)):
        if at == OUTSIDE:
            events.append(taken(events[-1].clock + 1, OUTSIDE[:16], None))
        else:
            events.append(taken(1 + max(events[-1].clock, at + 1), number(at), (0, at + 1)))
    return events


def delivers(numbers):
    return text("".join("deliver 0 %d\n" % at for at in numbers))


def shown(log, event):
    """An event of these guests as the debugger writes it."""
    arguments = "".join(" %d" % number for number in event.arguments)
    return "%d %s 0 %s%s" % (event.clock, log.name, event.call, arguments) + (" = %d" % event.reply if event.call != "begin" else "")


def places(given):
    """The lines of all positions: events stand in order of their clocks and then of their processes."""
    merged = sorted((event.clock, p, event) for p, log in enumerate(given) for event in log.events)
    return ["at 0", *("at %d: %s" % (k, shown(given[p], event)) for k, (_, p, event) in enumerate(merged, 1))]


def many(script):
    sender, taker = Log(2, 0, "sender", of_sender(), module="sender"), Log(2, 1, "taker", of_taker(), module="taker")
    given, count = (sender, taker), len(FIRST) + 2 * AGAIN
    script.case("70,000 datagrams that are sent, some of which are delivered, one of them 35,001 times, and as many from outside")
    script.file("sender.wasm", SENDER)
    script.file("taker.wasm", TAKER)
    front = text("friday 1\nprocess sender sender.wasm\nprocess taker taker.wasm\nrun 0 0 %d\nrun 1 0 2\n" % (SENT + 1))
    again = times(AGAIN, b"deliver 0 %d\ninject 1 %s\n" % (SENT, OUTSIDE.hex().encode()))
    script.file("s", front + delivers(FIRST + NONE) + again + text("run 1 0 %d\n" % (count + 1)))
    ends = ["%s: %d events, running" % (log.name, len(log.events)) for log in given]
    script.run("record s", "Done", *ends, "items: %d acted, %d idle" % (SENT + 2 + 2 * count, 2 + len(NONE)))
    for log in given:
        script.show(log.name + ".log", log.spelled())
    assert group_line(given) == counts_line(SENT, count - AGAIN, 0, AGAIN)
    for some in (given, given[::-1], (taker, ), (sender, )):
        script.run("replay " + words(some), *report(some))
    at = places(given)
    assert len(at) == SENT + count + 3
    rows = [("goto %d" % k, at[k]) for k in (3000, 3001, SENT + 3, 2 * SENT, SENT + count + 2, 1)]
    session(script, "debug " + words(given), [*rows, ("step %d" % (SENT + count), at[SENT + count + 1])])


def each_once(script):
    """All of the first thousand, in turn, each of which is taken before the next is put there."""
    count = 1000
    script.case("a thousand datagrams, each delivered and taken in its turn")
    script.file("sender.wasm", SENDER)
    script.file("taker.wasm", TAKER)
    turns = "".join("run 0 0\ndeliver 0 %d\nrun 1 0\n" % at for at in range(1, count + 1))
    script.file("s", text("friday 1\nprocess sender sender.wasm\nprocess taker taker.wasm\nrun 0 0\nrun 1 0\n" + turns))
    takes = [BEGIN] + [taken(at + 2, number(at), (0, at + 1)) for at in range(1, count + 1)]
    given = Log(2, 0, "sender", of_sender()[: count + 1], module="sender"), Log(2, 1, "taker", takes, module="taker")
    ends = ["%s: %d events, running" % (log.name, count + 1) for log in given]
    script.run("record s", "Done", *ends, "items: %d acted, 0 idle" % (2 + 3 * count))
    for log in given:
        script.show(log.name + ".log", log.spelled())
    script.run("replay " + words(given), *report(given))


COUNT, ROUNDS = 16, 3
RING = guest(
    "(drop (call $send (local.get $next) (i32.const 0) (i32.const 4)))" + TAKE,
    """(i32.store (i32.const 0) (call $me))
      (local.set $next (i32.rem_u (i32.add (i32.load (i32.const 0)) (i32.const 1)) (i32.const 16)))""",
)
# As long as a name may be.
NAMES = ["%02d_%s" % (p, "z" * 29) for p in range(COUNT)]


def ring():
    """Each process sends its number to the next one, and then each takes what was sent to it."""
    events = [[BEGIN, entry(2, "me", (), p)] for p in range(COUNT)]
    for _ in range(ROUNDS):
        for p, own in enumerate(events):
            own.append(sent(own[-1].clock + 1, (p + 1) % COUNT, number(p), 0))
        clocks = [own[-1].clock for own in events]
        for p, own in enumerate(events):
            before = (p - 1) % COUNT
            own.append(taken(1 + max(own[-1].clock, clocks[before]), number(before), (before, clocks[before])))
    return [Log(COUNT, p, NAMES[p], own, module="ring") for p, own in enumerate(events)]


def ring_items():
    for p in range(COUNT):
        yield "run %d 0 2" % p
    for at in range(1, ROUNDS + 1):
        for p in range(COUNT):
            yield "run %d 0" % p
            yield "deliver %d %d" % (p, at)
        for p in range(COUNT):
            yield "run %d 0" % p


def most_processes(script):
    given = ring()
    script.case("sixteen processes, whose names are as long as they may be")
    script.file("ring.wasm", RING)
    front = "friday 1\n" + "".join("process %s ring.wasm\n" % name for name in NAMES)
    script.file("s", text(front + "".join(item + "\n" for item in ring_items()) + "kill 15\ndeliver 15 3\ninject 15 00\nsignal 15 31\n"))
    each = 2 + 2 * ROUNDS
    ends = ["%s: %d events, %s" % (name, each, "killed" if name == NAMES[15] else "running") for name in NAMES]
    script.run("record s", "Done", *ends, "items: %d acted, 0 idle" % (COUNT * (each + ROUNDS) + 4))
    for log in given:
        script.show(log.name + ".log", log.spelled())
    for some in (given, given[::-1], given[15:]):
        script.run("replay " + words(some), *report(some))
    of_ring(script, given, each)
    each_of_its_own(script, given, each)


def each_of_its_own(script, given, each):
    """The same, of modules that are as many files."""
    for p in range(COUNT):
        script.file("%d.wasm" % p, RING)
    script.file("s", text("friday 1\n" + "".join("process %s %d.wasm\n" % (name, p) for p, name in enumerate(NAMES)) + "".join(item + "\n" for item in ring_items())))
    ends = ["%s: %d events, running" % (name, each) for name in NAMES]
    script.run("record s", "Done", *ends, "items: %d acted, 0 idle" % (COUNT * (each + ROUNDS)))
    given = [log.but(module=str(log.process)) for log in given]
    script.show(NAMES[15] + ".log", given[15].spelled())
    script.run("replay " + words(given), *report(given))
    session(script, "debug " + words(given), [("goto 1", "at 1: 1 %s 0 begin" % NAMES[0])])


def of_ring(script, given, each):
    """All processes have the same clocks, so their events stand in turns."""
    at = places(given)
    last = COUNT * each
    rows = [("goto 16", at[16]), ("goto %d" % last, at[last]), ("step", at[last]), ("events 16", *(at[k][3:] for k in range(last - 15, last + 1)))]
    rows += [("print sum(@_.u32[8])", "120"), ("print max(@_.u32[8])", "15"), ("print count(@_.u32[0])", "15"), ("print sum(@_.events)", str(last))]
    rows += [("print sum(576460752303423487)", "9223372036854775792"), ("print sum(576460752303423488)", "undef"), ("print count(1)", "16")]
    rows += [("mem %s 8 4" % NAMES[15], "0e000000"), ("print @%s.u32[4]" % NAMES[0], "15"), ("threads " + NAMES[9], NAMES[9] + " running", "0 at send 10 0 4")]
    rows += [("goto 0", "at 0"), ("watch sum(@_.u32[8])", "point 1"), ("break %s recv" % NAMES[15], "point 2")]
    sums = [0, *(sum(((p - 1) % COUNT) for p in range(k + 1)) for k in range(COUNT))]
    for k in range(3 * COUNT + 1, 4 * COUNT + 1):
        was, now = sums[k - 3 * COUNT - 1], sums[k - 3 * COUNT]
        said = ["watch 1: %d -> %d" % (was, now)] * (was != now) + ["break 2"] * (k == 4 * COUNT)
        rows += [("continue", *said, at[k])] * bool(said)
    rows += [("continue", "break 2", at[6 * COUNT]), ("continue", "break 2", at[8 * COUNT]), ("continue", "end", at[8 * COUNT])]
    session(script, "debug " + words(given[::-1]), rows)


def table(script):
    script.title("Many datagrams, and as many processes as there can be")
    for part in (many, each_once, most_processes):
        part(script)
