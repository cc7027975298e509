"""Logs of more events than a schedule can make, and as many datagrams as one can send, deliver and take."""

import logs
from common import counts_line
from images import YIELD
from logs import entry
from many_datagrams import CALLS
from modules import module, start
from pairs import BEGIN
from script import digits, text, times
from sessions import session
from shell_refusals import NO_POSITION
from streams import AB, READER

LOG, SCHEDULE, TRIES = 33554432, 16777216, 1000000

# Each entry but the head has six bytes, and a head of 20 leaves room for so many.
NAME = "abc"
MOST = (LOG - 20) // 6


def place(position):
    return "at %d: %d %s 0 %s" % (position, position, NAME, "yield" if position > 1 else "begin")


def goes(*positions):
    return [("goto %d" % position, place(position)) for position in positions]


def of_yields(script):
    """Moves, lists and walks behind the last position that a recording can come to."""
    script.case("a log that is full of the shortest entries, its replay and the debugger over it")
    script.file("a.wasm", digits(start("(loop (call $yield) (br 0))", YIELD)))
    each = logs.spelled([entry(2, "yield")], 1)
    log = digits(logs.held([BEGIN], name=NAME.encode())) + times(MOST - 1, each)
    assert len(each) == 6 and len(log.data) == LOG
    script.file("a.log", log)
    script.run("replay a.wasm a.log", "Done", "%s: %d events, running, log whole" % (NAME, MOST), counts_line(0, 0, 0, 0))
    rows = [
        *goes(TRIES // 5),
        ("break * exit", "point 1"),
        ("rcontinue", "start", "at 0"),
        *goes(TRIES, TRIES + 1),
        ("back", place(TRIES)),
        *goes(MOST - 1),
        ("continue", "end", place(MOST)),
        ("step", place(MOST)),
        ("goto %d" % (MOST + 1), NO_POSITION),
        ("events 3", *(place(position)[3:] for position in range(MOST - 2, MOST + 1))),
        ("print @%s.events + @%s.clock" % (NAME, NAME), str(2 * MOST)),
        ("back %d" % TRIES, place(MOST - TRIES)),
        ("back %d" % MOST, "at 0"),
    ]
    session(script, "debug a.wasm a.log", rows)


# Sends the same chunk again and again; so many are sent, of which the first one is delivered and taken far more often.
ECHO = """(module %s (memory 1) (data (i32.const 0) "STRM\\01\\00\\00\\00\\00\\00\\00\\00\\00\\00ab")
  (func (export "_start") (loop (drop (call $send (i32.const 1) (i32.const 0) (i32.const 16))) (br 0))))""" % CALLS
SENT = TAKEN = TRIES // 2 - 1
FRONT = "friday 1\nprocess w w.wasm\nprocess r r.wasm\nrun 0 0 %d\nrun 1 0\n" % (SENT + 1)
LAST = "deliver 0 %d\ndeliver 0 %d\nrun 1 0 %d\n" % (SENT, SENT + 1, TAKEN)
DELIVER = "deliver 0 1\n"
DELIVERED = (SCHEDULE - len(FRONT + LAST)) // len(DELIVER)
# So many more are taken in a log that no recording makes.
MORE = 650000


SENDS = [entry(clock, "send", (1, 0, 16), 16, AB) for clock in (2, 3)]
TAKES = [entry(clock, "recv", (64, 64, 32), 16, AB, (0, 2)) for clock in (3, 4)]
# The entry of a further one is the same each time.
AGAIN = logs.spelled(TAKES[1:], 3)


def writer():
    return logs.held([BEGIN, SENDS[0]], name=b"w", count=2) + logs.spelled(SENDS[1:], 2) * (SENT - 1)


def reader(count):
    return logs.held([BEGIN, TAKES[0]], name=b"r", count=2, process=1) + AGAIN * (count - 1)


def of_datagrams(script):
    """Half of the tries of a schedule send and half take, and the others of its lines deliver."""
    script.case("a datagram that is delivered as often as a schedule can say it, among 499,999 that are sent, and taken more often than it can try")
    script.file("w.wasm", digits(module(ECHO)))
    script.file("r.wasm", digits(module(READER)))
    script.file("s", text(FRONT) + times(DELIVERED, DELIVER.encode()) + text(LAST))
    ends = "w: %d events, running" % (SENT + 1), "r: %d events, running" % (TAKEN + 1)
    script.run("record s", "Done", *ends, "items: %d acted, 1 idle" % (TRIES + DELIVERED + 1))
    script.show("w.log", writer())
    script.show("r.log", reader(TAKEN))
    script.add("r.log", times(MORE, AGAIN))
    count, given = TAKEN + MORE, " w.wasm w.log r.wasm r.log"
    ends = "w: %d events, running, log whole" % (SENT + 1), "r: %d events, running, log whole" % (count + 1)
    script.run("replay" + given, "Done", *ends, counts_line(SENT, count, 0, 0))
    script.run("streams" + given, "Done", "0 -> 1 stream 1: 2 written, 2 read", "streams: 1, 0 odd, 0 foreign")
    script.run("cut 1 %d" % (count + 1) + given, "Done", "w: 2 of %d events" % (SENT + 1), "r: %d of %d events" % (count + 1, count + 1))
    script.show("w.cut", logs.held([BEGIN, SENDS[0]], name=b"w", count=2))
    script.show("r.cut", reader(count))
    # The reader's clocks go on where the writer has no event.
    last = SENT + count + 2
    at = "at %d: %d r 0 recv 64 64 32 = 16"
    rows = (("goto %d" % last, at % (last, count + 2)), ("back 2", at % (last - 2, count)), ("step 9", at % (last, count + 2)), ("print @r.events - @w.events", str(MORE)))
    session(script, "debug" + given, rows)


def table(script):
    script.title("More events than a schedule can make")
    for part in (of_yields, of_datagrams):
        part(script)
