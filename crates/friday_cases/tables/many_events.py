"""As many events as a schedule can have, and the debugger over them; and logs of as many bytes as they may have."""

import logs
from common import FRONT, begin, refused, replays, summary
from guests import NOTE
from images import PRINT, YIELD, memory
from modules import start
from script import digits, text, times
from sessions import ALONE, session
from shell_refusals import NO_POSITION

MOST = 1_000_000

# Counts up at 8 and notes the number, again and again.
COUNTER = start(
    """(loop (i64.store (i32.const 8) (i64.add (i64.load (i32.const 8)) (i64.const 1)))
      (call $note (i64.load (i32.const 8))) (br 0))""",
    NOTE + "(memory 1)",
)


def notes(count):
    """The log of so many events of the counter."""
    numbers = map(logs.short, range(1, count))
    return logs.log([]) + b"".join(bytes([5 + len(number), 1, 0, 2, 0]) + number + b"\0" for number in numbers)


def place(position):
    """Where the number at 8 is that of the position."""
    if position < 2:
        return ("at 0", "at 1: 1 a 0 begin")[position]
    return "at %d: %d a 0 note %d" % (position, position, position - 1)


def goes(*positions):
    return [("goto %d" % position, place(position)) for position in positions]


def listed(first, last):
    return [place(position)[3:] for position in range(first, last + 1)]


def jumps(script):
    rows = [
        *goes(1000, 2999, 3000, 3001, 10001),
        ("events 1000", *listed(9002, 10001)),
        ("events", *listed(9992, 10001)),
        *goes(65535, 65536, 65537),
        ("step 100000", place(165537)),
        ("print @a.i64[8]", "165537"),
        *goes(MOST),
        ("step", place(MOST)),
        ("goto %d" % (MOST + 1), NO_POSITION),
        ("events 1000", *listed(MOST - 999, MOST)),
        ("print @a.events + @a.clock", str(2 * MOST)),
        ("mem a 8 4", "40420f00"),
        ("threads a", "a running", "0 at note %d" % MOST),
    ]
    session(script, ALONE, rows)


def walks(script):
    rows = [("watch @a.i64[8] / 300000", "point 1"), ("break a note", "point 2"), ("set $n 0", ), ("do 2 set $n $n + 1", )]
    rows += [("continue", "watch 1: %d -> %d" % (at, at + 1), place(300000 * (at + 1))) for at in range(3)]
    rows += [("print $n", "899999"), ("continue", "end", place(MOST)), ("print $n", "999999")]
    session(script, ALONE, rows)


def of_items(script):
    """Each try is an item of its own."""
    script.case("a million events, each of an item of its own, and the debugger at each end of them")
    script.file("a.wasm", digits(COUNTER))
    script.file("s", text(FRONT) + times(MOST, b"run 0 0\n"))
    script.run("record s", "Done", *summary(MOST, "running", MOST, 0))
    script.show("a.log", notes(MOST))
    replays(script, MOST, "running")
    # Its schedule is the one that it was recorded by.
    script.sum("schedule a.wasm a.log", "Done", FRONT.encode() + b"run 0 0\n" * MOST)
    jumps(script)
    walks(script)
    script.run("cut 0 %d a.wasm a.log" % MOST, "Done", "a: %d of %d events" % (MOST, MOST))
    script.show("a.cut", notes(MOST))
    script.run("cut 0 %d a.wasm a.log" % (MOST + 1), *refused("a.log", "13 NoEvent"))


PRINTS, EACH = 559, 60000
# What is left of a log behind its head, `begin` and so many prints, without the 13 bytes of the fields of a further one of
# less than 16,384 bytes, whose length and three numbers for them take two bytes each.
LAST = 33554432 - 18 - 6 - PRINTS * (EACH + 17) - 13


def printer(last):
    """Prints many times as much as may be printed, then so many bytes, and then yields."""
    full = """(local $i i32)
      (loop (drop (call $print (i32.const 0) (i32.const %d)))
        (br_if 0 (i32.lt_u (local.tee $i (i32.add (local.get $i) (i32.const 1))) (i32.const %d))))""" % (EACH, PRINTS)
    body = full + "(drop (call $print (i32.const 0) (i32.const %d))) (loop (call $yield) (br 0))" % last
    return digits(start(body, PRINT + YIELD + "(memory 1)"))


def printed(last):
    """The log of the prints."""
    sizes = [EACH] * PRINTS + [last]
    return logs.held([logs.entry(1, "begin"), *(logs.entry(2 + at, "print", (0, size), size, bytes(size)) for at, size in enumerate(sizes))])


def full(script):
    whole = printed(LAST)
    assert len(whole) == 33554432
    begin(script, "a log that is full to its last byte, its images, its replay and the debugger at its end", printer(LAST), "run 0 0 561\n")
    script.run("record --images s", "Done", *summary(561, "running", 561, 0))
    script.show("a.log", whole)
    script.show("a.mem", memory(1))
    script.show("a.out", bytes(PRINTS * EACH + LAST))
    replays(script, 561, "running")
    last = "at 561: 561 a 0 print 0 %d = %d" % (LAST, LAST)
    session(script, ALONE, (("goto 561", last), ("threads a", "a running", "0 at yield"), ("goto 562", NO_POSITION)))


def over(script):
    begin(script, "a log of which the last event is a byte too long", printer(LAST + 1), "run 0 0\nrun 0 0 600\n")
    script.run("record s", *refused("s", "item 2 LogFull"))
    # Its replay tells that the log ends behind the event before.
    replays(script, 560, "running")


def table(script):
    script.title("Many events, and logs that are full")
    for part in (of_items, full, over):
        part(script)
