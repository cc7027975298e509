"""Bytes of a call, up to 60,000 and one more: sent, taken, random and in logs; and what comes from outside, of any length."""

import logs
from common import FRONT, report, summary
from logs import entry
from modules import module
from pairs import BEGIN, Log, put, report as report_of, words
from images import PRINT, memory, older, shown
from script import digits, text, times

MOST = 60000
SIZES = (0, 1, 30000, 30001, 59999, MOST)
PAST = 2**32 - 1
CALLS = """(import "liblog" "send" (func $send (param i32 i32 i32) (result i32)))
  (import "liblog" "recv" (func $recv (param i32 i32 i32) (result i32)))
  (import "liblog" "try_recv" (func $try_recv (param i32 i32 i32) (result i32)))
  (import "liblog" "random" (func $random (param i32 i32) (result i32)))"""
# From 100 on, an `a` and a `z` as far apart as a call's bytes can be.
ENDS = '(memory 1) (data (i32.const 100) "a") (data (i32.const 60099) "z")'


def guest(body, declared="(memory 1)"):
    return digits(module('(module %s %s (func (export "_start") %s))' % (CALLS, declared, body)))


def call(name, *numbers):
    return "(drop (call $%s %s))" % (name, " ".join("(i32.const %d)" % number for number in numbers))


def payload(size):
    return (b"a" + bytes(MOST - 2) + b"z")[:size]


SENDER = guest("".join(call("send", 1, 100, size) for size in (*SIZES, MOST + 1)), ENDS)


def taker(name):
    return guest(call(name, 100, MOST + 1, 60200) + "(loop %s (br 0))" % call(name, 100, MOST, 60200))


TAKER = taker("recv")


def of_sender():
    events = [BEGIN]
    for at, size in enumerate(SIZES):
        events.append(entry(at + 2, "send", (1, 100, size), size, payload(size)))
    return [*events, entry(len(events) + 1, "send", (1, 100, MOST + 1), PAST)]


# What comes from outside: so many times a byte.
OUTSIDE = (30001, MOST - 1, MOST, MOST + 1, 1000000)


def taken(last, data, tag, call="recv"):
    return entry(1 + max(last, tag[1] if tag else 0), call, (100, MOST, 60200), len(data), data, tag)


def of_taker():
    events = [BEGIN, entry(2, "recv", (100, MOST + 1, 60200), PAST)]
    for at, size in enumerate(SIZES):
        events.append(taken(events[-1].clock, payload(size), (0, at + 2)))
    for size in OUTSIDE:
        events.append(taken(events[-1].clock, b"\xab" * min(size, MOST), None))
    return events


def pair(taker=None):
    return Log(2, 0, "sender", of_sender(), end="finished", module="sender"), taker or Log(2, 1, "taker", of_taker(), module="taker")


def datagrams(script):
    """A datagram is sent with up to 60,000 bytes, and of one from outside as many are taken."""
    script.case("datagrams of up to 60,000 bytes, and longer ones from outside")
    script.file("sender.wasm", SENDER)
    script.file("taker.wasm", TAKER)
    tries = "run 0 0 %d\nrun 1 0 3\n" % (len(SIZES) + 2) + "".join("deliver 0 %d\n" % (at + 1) for at in range(len(SIZES) + 1))
    whole = text("friday 1\nprocess sender sender.wasm\nprocess taker taker.wasm\n" + tries)
    for size in OUTSIDE:
        whole += text("inject 1 ") + times(size, b"ab") + text("\n")
    takes = len(SIZES) + len(OUTSIDE)
    script.file("s", whole + text("run 1 0 %d\n" % (takes + 1)))
    given = pair()
    script.run("record --images s", "Done", *("%s: %d events, %s" % (log.name, len(log.events), log.end) for log in given), "items: %d acted, 3 idle" % (len(SIZES) + 4 + 2 * takes))
    for log in given:
        script.show(log.name + ".log", log.spelled())
    script.show("taker.mem", memory(1, (100, b"\xab" * MOST), (60200, b"\xff" * 4)))
    for some in (given, given[1:]):
        script.run("replay " + words(some), *report_of(some))
    changed(script, given[1])


def changed(script, taker):
    """Entries of the taker that are not legal: a byte too many, another count, and 33 million bytes."""
    size, last = MOST + 1, len(taker.events) - 1
    for other in (
        entry(taker.events[last].clock, "recv", (100, MOST, 60200), size, b"\xab" * size),
        entry(taker.events[last].clock, "recv", (100, MOST, 60200), MOST - 1, b"\xab" * MOST),
        entry(taker.events[last].clock, "recv", (100, MOST, 60200), MOST, b"\xab" * (MOST - 1)),
    ):
        given = pair(taker.changed(last, other, "6 OtherReply"))
        put(script, given[1:])
        script.run("replay " + words(given), *report_of(given))
    size = 33000000
    named = {"name": b"taker", "count": 2, "process": 1}
    script.file("taker.log", digits(logs.held([BEGIN], **named)) + long_receipt(size))
    script.run("replay taker.wasm taker.log", "Diverged", *report(1, "running", "diverged at 2: 4 OtherArguments", "taker"))
    other = digits(logs.held([BEGIN, entry(2, "recv", (100, MOST + 1, 60200), PAST)], **named))
    script.file("taker.log", other + long_receipt(size))
    script.run("replay taker.wasm taker.log", "Diverged", *report(2, "running", "diverged at 3: 6 OtherReply", "taker"))
    # An entry of which all bytes but the last are there is none.
    script.cut("taker.log", script.sizes["taker.log"] - 1)
    left = script.sizes["taker.log"] - len(other.data)
    script.run("replay taker.wasm taker.log", "Done", *report(2, "running", "%d bytes left over" % left, "taker"))


def long_receipt(size):
    """An entry, one clock behind the one before, whose bytes that came in are so many times the same."""
    fields = logs.body(entry(1, "recv", (100, MOST, 60200), size), 0, logs.LATEST)
    # The last two bytes are for no bytes and no tag.
    front, count = fields[:-2], logs.short(size)
    return digits(logs.short(len(front) + len(count) + size + 1) + front + count) + times(size, b"\xab") + digits(b"\0")


DRAWER = guest(call("random", 0, MOST + 1) + call("random", 1, 30001) + "(loop %s (br 0))" % call("random", 2, MOST))
# What is left in the pool of a schedule that is nearly all one item, and how often 60,000 bytes can be drawn.
POOL = 8388000
DRAWS = (POOL - 30001) // MOST


def drawn(count):
    first = BEGIN, entry(2, "random", (0, MOST + 1), PAST), entry(3, "random", (1, 30001), 30001, b"\x5a" * 30001)
    return logs.held([*first, *(entry(4 + at, "random", (2, MOST), MOST, b"\x5a" * MOST) for at in range(count))])


def random_bytes(script):
    script.case("up to 60,000 random bytes at once, of a pool that is as long as a schedule can make it")
    script.file("a.wasm", DRAWER)
    items = text("run 0 0 3\nrandom 0 ") + times(POOL, b"5a") + text("\nrun 0 0 %d\n" % (DRAWS + 5))
    script.file("s", text(FRONT) + items)
    script.run("record s", "Done", *summary(DRAWS + 3, "running", DRAWS + 4, 5))
    script.show("a.log", drawn(DRAWS))
    script.run("replay a.wasm a.log", "Done", *report(DRAWS + 3, "running"))
    # One byte too few, and the last one in an item of its own.
    script.file("s", text(FRONT + "run 0 0 2\nrandom 0 ") + times(30001 + MOST - 1, b"5a") + text("\nrun 0 0 2\nrandom 0 5A\nrun 0 0 2\n"))
    script.run("record s", "Done", *summary(4, "running", 6, 2))
    script.show("a.log", drawn(1))


TIMES = 70000
# Draws a byte and prints it, again and again.
EACH = """(module %s %s (memory 1) (func (export "_start") (local $i i32)
  (loop %s (drop (call $print (i32.const 0) (i32.const 1)))
    (br_if 0 (i32.lt_u (local.tee $i (i32.add (local.get $i) (i32.const 1))) (i32.const %d))))))""" % (CALLS, PRINT, call("random", 0, 1), TIMES)


def byte_by_byte(script):
    script.case("70,000 random bytes, each of which is drawn and printed by itself")
    script.file("a.wasm", digits(module(EACH)))
    count = 1 + 2 * TIMES
    script.file("s", text(FRONT + "random 0 ") + times(TIMES, b"5a") + text("\nrun 0 0 %d\n" % count))
    script.run("record --images s", "Done", *summary(count, "finished", count + 1, 0))
    first, second, third = (entry(2 + at, name, (0, 1), 1, b"Z") for at, name in enumerate(("random", "print", "random")))
    both = logs.spelled([second, third], first.clock)
    log = logs.held([BEGIN, first]) + both * (TIMES - 1) + logs.spelled([second], first.clock)
    script.show("a.log", log)
    shown(script, "a", memory(1, (0, b"Z")), b"Z" * TIMES)
    older(script, "a")
    script.run("replay --images a.wasm a.log", "Done", *report(count, "finished"))
    shown(script, "a", memory(1, (0, b"Z")), b"Z" * TIMES)


def from_outside(script):
    """A datagram of nearly all of a schedule, with a tag and without."""
    script.case("a datagram from outside that is as long as a schedule can make it")
    script.file("a.wasm", TAKER)
    for tag, spelled in ((None, ""), ((0, 5), "d74c4f47" + "00000000" + "0500000000000000")):
        script.file("s", text(FRONT + "run 0 0 2\ninject 0 " + spelled) + times(POOL, b"ab") + text("\nrun 0 0 2\n"))
        script.run("record s", "Done", *summary(3, "running", 4, 1))
        events = [BEGIN, entry(2, "recv", (100, MOST + 1, 60200), PAST), taken(2, b"\xab" * MOST, tag)]
        log = Log(1, 0, "a", events, module="a")
        script.show("a.log", log.spelled())
        script.run("replay a.wasm a.log", *report_of((log, )))


def at_once(script):
    """`try_recv` takes as much, is refused for as much, and has nothing where nothing waits."""
    script.case("a datagram from outside of the most bytes, and one of a byte more, that are taken where they wait")
    script.file("a.wasm", taker("try_recv"))
    for size in (MOST, MOST + 1):
        script.file("s", text(FRONT + "run 0 0 2\ninject 0 ") + times(size, b"ab") + text("\nrun 0 0 2\n"))
        script.run("record s", "Done", *summary(4, "running", 5, 0))
        events = [BEGIN, entry(2, "try_recv", (100, MOST + 1, 60200), PAST), taken(2, b"\xab" * MOST, None, "try_recv")]
        events.append(entry(4, "try_recv", (100, MOST, 60200), PAST - 1))
        log = Log(1, 0, "a", events, module="a")
        script.show("a.log", log.spelled())
        script.run("replay a.wasm a.log", *report_of((log, )))


def table(script):
    script.title("Bytes of calls, up to the most")
    for part in (datagrams, random_bytes, byte_by_byte, from_outside, at_once):
        part(script)
