"""A memory of 256 pages, from its first byte to its last: in images, and in the debugger."""

import logs, pairs
from common import begin, report, summary
from debug_points import TOO_MANY
from images import PAGE, PRINT, YIELD, memory, older, printing, shown
from logs import entry
from modules import start
from pairs import BEGIN, Log
from script import digits, text
from sessions import ALONE, session

PAGES = 256
SIZE = PAGES * PAGE
STORE = "(i32.store8 (i32.const %d) (i32.const 90))" % (SIZE - 1)
GROWS = "(loop (br_if 0 (i32.ne (memory.grow (i32.const 1)) (i32.const -1))))"
HELD = memory(PAGES, (0, b"a"), (PAGE, b"b"), (SIZE - 1, b"Z"))
PARTS = '(data (i32.const 0) "a") (data (i32.const 65536) "b")'

# What is declared, and what is done before the last byte is written and printed.
ROWS = (
    ("a memory of 256 pages from the beginning on", "(memory 256) " + PARTS, ""),
    ("a memory that grows to 256 pages, page by page", "(memory 2) " + PARTS, GROWS),
)


def images(script):
    for name, declared, body in ROWS:
        printed = printing(SIZE - 60000, 60000) + printing(SIZE, 0) + printing(SIZE - 1, 2)
        begin(script, "images: " + name, digits(start(body + STORE + printed, PRINT + declared)), "run 0 0 4\n")
        script.run("record --images s", "Done", *summary(4, "finished", 4, 0))
        shown(script, "a", HELD, HELD[-60000:])
        older(script, "a")
        script.run("replay --images a.wasm a.log", "Done", *report(4, "finished"))
        shown(script, "a", HELD, HELD[-60000:])


def debugged(script):
    declared, body = ROWS[1][1:]
    begin(script, "the debugger over a memory that grows to 256 pages", digits(start(body + STORE, declared)), "run 0 0\n")
    script.file("a.log", digits(logs.log([])))
    rows = (
        ("mem a %d 1" % (SIZE - 1), "undef"),
        ("print @a.size", "2"),
        ("watch @a.u8[%d]" % (SIZE - 1), "point 1"),
        ("watch @a.i64[%d]" % (SIZE - 8), "point 2"),
        ("watch @a.u8[%d]" % SIZE, "point 3"),
        ("watch @a.size", "point 4"),
        ("continue", "watch 1: undef -> 90", "watch 2: undef -> 6485183463413514240", "watch 4: 2 -> 256", "at 1: 1 a 0 begin"),
        ("mem a %d 1" % (SIZE - 1), "5a"),
        ("mem a %d 256" % (SIZE - 256), "00" * 255 + "5a"),
        ("mem a %d 256" % (SIZE - 255), "undef"),
        ("mem a %d 255" % (SIZE - 255), "00" * 254 + "5a"),
        ("mem a %d 2" % (SIZE - 1), "undef"),
        ("print @a.u16[%d]" % (SIZE - 2), "23040"),
        ("print @a.u16[%d]" % (SIZE - 1), "undef"),
        ("print @a.u8[65536] + @a.u8[0]", "195"),
        ("goto 0", "at 0"),
        ("print @a.size", "2"),
        ("print @a.u8[%d]" % (SIZE - 1), "undef"),
    )
    session(script, ALONE, rows)


COUNT = 16
# Its last byte gets the process's number.
NUMBERED = '(import "liblog" "me" (func $me (result i32)))' + YIELD + "(memory 256)"
KEEPS = "(i32.store8 (i32.const %d) (call $me)) (loop (call $yield) (br 0))" % (SIZE - 1)
# What a line has room for: numbers over an edge of two watch pages, in each page of 65,536 bytes but some of the last ones.
WIDE = "sum(%s)" % "+".join("@_.i64[%d]" % (PAGE * at + 4092) for at in range(63))
LAST = "sum(@_.u8[%d])" % (SIZE - 1)


def stands(p):
    """The position at which process p has asked for its number."""
    return "at %d: 2 p%d 0 me = %d" % (COUNT + 1 + p, p, p)


def of_all(script):
    """Sixteen processes of which each has all that it may, and 64 points that look at as many places as a line can name."""
    given = [Log(COUNT, p, "p%d" % p, [BEGIN, entry(2, "me", (), p)], module="a") for p in range(COUNT)]
    script.case("sixteen processes with memories of 256 pages, and points on 1,008 places of them")
    script.file("a.wasm", digits(start(KEEPS, NUMBERED)))
    runs = "".join("run %d 0 2\n" % p for p in range(COUNT))
    script.file("s", text("friday 1\n" + "".join("process p%d a.wasm\n" % p for p in range(COUNT)) + runs))
    script.run("record --images s", "Done", *("p%d: 2 events, running" % p for p in range(COUNT)), "items: %d acted, 0 idle" % (2 * COUNT))
    for log in given[:: COUNT - 1]:
        script.show(log.name + ".log", log.spelled())
        script.show(log.name + ".mem", memory(PAGES, (SIZE - 1, bytes([log.process]))))
    pairs.replays(script, given)
    rows = [("print " + WIDE, "0"), ("print sum(@_.size)", str(COUNT * PAGES)), *(("watch " + WIDE, "point %d" % number) for number in range(1, 64))]
    rows += [("watch " + LAST, "point 64"), ("watch 1", TOO_MANY), ("continue", "watch 64: 0 -> 1", stands(1)), ("goto 30", stands(13))]
    rows += [("continue", "watch 64: 91 -> 105", stands(14)), ("continue", "watch 64: 105 -> 120", stands(15)), ("continue", "end", stands(15))]
    rows += [("rcontinue", "watch 64: 91 -> 105", stands(14)), ("print " + LAST, "105"), ("goto 0", "at 0"), ("print " + LAST, "0")]
    session(script, "debug " + pairs.words(given), rows)


def table(script):
    script.title("Memories of 256 pages")
    for part in (images, debugged, of_all):
        part(script)
