"""Lines that go back: `back`, and `rcontinue`, which goes to where points fired last."""

import logs
from debug_points import LAST, POINTS, makes, numbered
from guests import Guest
from modules import LEAST, start
from pairs import ping_and_pong, put, sent
from script import digits, text
from sessions import ALONE, PAIRS, PLACES, alone, files, session

MOST_NUMBER = 2**63 - 1

STEPS = (
    ("back", PLACES[0]),
    ("back 0", PLACES[0]),
    ("back 1", PLACES[0]),
    ("step", PLACES[1]),
    ("back", PLACES[0]),
    ("goto 11", PLACES[11]),
    ("back 0", PLACES[11]),
    ("back", PLACES[10]),
    ("back 1", PLACES[9]),
    ("back 4", PLACES[5]),
    ("back 5", PLACES[0]),
    ("goto 11", PLACES[11]),
    ("back 11", PLACES[0]),
    ("goto 11", PLACES[11]),
    ("back 12", PLACES[0]),
    ("goto 11", PLACES[11]),
    ("back 9223372036854775807", PLACES[0]),
    ("goto 11", PLACES[11]),
    ("back 0x7fffffffffffffff", PLACES[0]),
    ("goto 7", PLACES[7]),
    ("\tback \t 0x3 ", PLACES[4]),
    ("back 002\r", PLACES[2]),
    ("back 9223372036854775808", "? 1 syntax at column 6"),
    ("step 0", PLACES[2]),
    ("back 4294967296", PLACES[0]),
)


def steps(script):
    files(script, "so many positions back, and at most to the first")
    session(script, PAIRS, STEPS)
    session(script, PAIRS, STEPS, 1)
    # From each position by each count.
    rows = []
    for at in range(LAST + 1):
        for count in range(LAST + 3):
            rows += [("goto %d" % at, PLACES[at]), ("back %d" % count, PLACES[max(0, at - count)])]
    session(script, PAIRS, rows)


def returns(points, position):
    """The answer of `rcontinue` from a position with these points, which are given by their numbers; and where it ends."""
    for k in range(position - 1, 0, -1):
        said = [line for number, point in points.items() for line in point.said(number, k)]
        if said:
            return (*said, PLACES[k]), k
    return ("start", PLACES[0]), 0


def runs(points, position):
    """`rcontinue` again and again, up to one more from position 0."""
    starts = 0
    while starts < 2:
        said, position = returns(points, position)
        starts += said[0] == "start"
        yield ("rcontinue", *said)


FIRST = (
    ("watch sum(@_.u32[64])", "point 1"),
    ("goto 11", "at 11: 10 ping 0 send 1 64 4 = 4"),
    ("rcontinue", "watch 1: 3 -> 4", "at 10: 9 ping 0 recv 128 4 32 = 4"),
    ("rcontinue", "watch 1: 2 -> 3", "at 8: 7 ping 0 recv 128 4 32 = 4"),
    ("back 7", "at 1: 1 ping 0 begin"),
    ("rcontinue", "start", "at 0"),
    ("rcontinue", "start", "at 0"),
)
COUNTED = (
    ("set $n 0", ),
    ("watch sum(@_.u32[64])", "point 1"),
    ("do 1 set $n $n + 1; if $n == 3 { stop }", ),
    ("goto 11", "at 11: 10 ping 0 send 1 64 4 = 4"),
    ("back 11", "at 0"),
    ("continue", "at 8: 7 ping 0 recv 128 4 32 = 4"),
    ("print $n", "3"),
)


def first(script):
    files(script, "`rcontinue` over a watchpoint on two processes, and `back` to walk once more")
    session(script, PAIRS, FIRST)
    session(script, PAIRS, FIRST, 1)
    session(script, PAIRS, COUNTED)
    rows = lines(COUNTED)
    script.input(4096, text(rows[:-1]))
    script.run(PAIRS, "Done", "at 0", *(line for _, *said in COUNTED for line in said))


def lines(rows):
    return "".join(line + "\n" for line, *_ in rows)


def to_the_start(script):
    files(script, "`rcontinue` to the start with all points, and with some, and with those that never fire")
    silent = [point for point in POINTS if not point.fires]
    for some in (POINTS, silent, *(POINTS[at::10] for at in range(10)), POINTS[5:6], POINTS[-2:-1], ()):
        session(script, PAIRS, [*makes(some), ("goto 11", PLACES[11]), *runs(numbered(some), 11)])


def from_each(script):
    files(script, "`rcontinue` from each position, whatever was there when the points were made")
    some = [POINTS[at] for at in (2, 3, 4, 21)]
    for chosen in (some, [POINTS[at] for at in (9, 10)], POINTS):
        rows = [("goto 5", PLACES[5]), *makes(chosen)]
        for position in (*range(LAST + 1), 7, 3, 9):
            rows += [("goto %d" % position, PLACES[position]), ("rcontinue", *returns(numbered(chosen), position)[0])]
        session(script, PAIRS, rows)


MOVED = (
    ("break * send", "point 1"),
    ("watch @ping.events == 2", "point 2"),
    ("continue", "break 1", "watch 2: 0 -> 1", PLACES[3]),
    # Where a point fires is not behind itself.
    ("rcontinue", "start", PLACES[0]),
    ("continue", "break 1", "watch 2: 0 -> 1", PLACES[3]),
    ("step", PLACES[4]),
    ("rcontinue", "break 1", "watch 2: 0 -> 1", PLACES[3]),
    ("step 5", PLACES[8]),
    ("rcontinue", "break 1", PLACES[7]),
    ("continue", "watch 2: 1 -> 0", PLACES[8]),
    # Points that are gone fire no more, and later ones as if they had always been there.
    ("delete 1", "deleted 1"),
    ("rcontinue", "watch 2: 0 -> 1", PLACES[3]),
    ("goto 11", PLACES[11]),
    ("watch 6 / (@pong.events - 2)", "point 3"),
    ("rcontinue", "watch 2: 1 -> 0", PLACES[8]),
    ("rcontinue", "watch 3: 3 -> 2", PLACES[7]),
    ("rcontinue", "watch 3: 6 -> 3", PLACES[6]),
    ("rcontinue", "watch 3: undef -> 6", PLACES[5]),
    ("rcontinue", "watch 3: -6 -> undef", PLACES[4]),
    ("rcontinue", "watch 2: 0 -> 1", PLACES[3]),
    ("rcontinue", "watch 3: -3 -> -6", PLACES[2]),
    ("rcontinue", "start", PLACES[0]),
    ("events", ),
    ("step 0", PLACES[0]),
    ("list", "2 watch @ping.events == 2", "3 watch 6 / (@pong.events - 2)"),
    ("\t rcontinue \t", "start", PLACES[0]),
    ("goto 1", PLACES[1]),
    ("rcontinue\r", "start", PLACES[0]),
    # What is seen where it comes to is what was there.
    ("goto 9", PLACES[9]),
    ("rcontinue", "watch 2: 1 -> 0", PLACES[8]),
    ("print @ping.u32[64]", "2"),
    ("mem ping 64 4", "02000000"),
    ("threads ping", "ping running", "0 at send 1 64 4"),
    ("events 2", PLACES[7][3:], PLACES[8][3:]),
    ("step", PLACES[9]),
    ("goto 12", "? 7 no such position"),
    ("rcontinue", "watch 2: 1 -> 0", PLACES[8]),
)

PROGRAMS = (
    ("set $n 0", ),
    ("break ping send", "point 1"),
    ("break * send", "point 2"),
    ("watch @ping.events == 2", "point 3"),
    ('do 1 set $n $n + 1; say "one"; stop', ),
    ('do 3 set $m 1; say "three"', ),
    ("continue", "one", "break 2", "three", PLACES[3]),
    ("vars", "$n 1", "$m 1"),
    ("goto 11", PLACES[11]),
    # A point with a program says the line of one without, and the program does not run.
    ("rcontinue", "break 1", "break 2", PLACES[9]),
    # One whose program has no `stop` is passed where it fires alone.
    ("rcontinue", "break 2", PLACES[7]),
    ("rcontinue", "break 2", PLACES[5]),
    ("rcontinue", "break 1", "break 2", "watch 3: 0 -> 1", PLACES[3]),
    ("rcontinue", "start", PLACES[0]),
    ("vars", "$n 1", "$m 1"),
    ("list", "1 break ping send", "2 break * send", "3 watch @ping.events == 2"),
    # A `stop` that is never reached counts, and the programs are still there.
    ("delete 2", "deleted 2"),
    ("do 1 if 0 { stop }", ),
    ("goto 11", PLACES[11]),
    ("rcontinue", "break 1", PLACES[9]),
    ("rcontinue", "break 1", "watch 3: 0 -> 1", PLACES[3]),
    ("back", PLACES[2]),
    ("continue", "three", "three", "end", PLACES[11]),
    ("vars", "$n 1", "$m 1"),
    ("watch 1", "point 4"),
)


def moved(script):
    files(script, "`rcontinue` among other moves, with points that are made and deleted, and from and to `undef`")
    session(script, PAIRS, MOVED)
    session(script, PAIRS, MOVED, 1)
    files(script, "`rcontinue` over points with programs, of which none runs")
    session(script, PAIRS, PROGRAMS)
    session(script, PAIRS, PROGRAMS, 1)


def forth_and_back(script):
    """Where `continue` stops, without programs, `rcontinue` from behind it does too."""
    files(script, "`continue` and `rcontinue` in turn")
    some = [POINTS[at] for at in (0, 3, 8, 20)]
    rows, points = makes(some), numbered(some)
    for k in range(1, LAST):
        said = [line for number, point in points.items() for line in point.said(number, k)]
        if said:
            rows += [("goto %d" % (k - 1), PLACES[k - 1]), ("continue", *said, PLACES[k])]
            rows += [("step", PLACES[k + 1]), ("rcontinue", *said, PLACES[k])]
    session(script, PAIRS, rows)


def memory(script):
    grown = '(memory 1 2) (data (i32.const 65535) "\\01")'
    alone(script, "`rcontinue` over memory and globals that change", start("(drop (memory.grow (i32.const 1)))", grown), logs.log([]))
    rows = (
        ("watch @a.u8[65536]", "point 1"),
        ("watch @a.u16[65535]", "point 2"),
        ("watch @a.u8[131072]", "point 3"),
        ("watch @a.size", "point 4"),
        ("step 9", "at 1: 1 a 0 begin"),
        # The last position is not behind itself.
        ("rcontinue", "start", "at 0"),
        ("print @a.size", "1"),
    )
    session(script, ALONE, rows)
    told = Guest("globals")
    script.file("a.wasm", digits(told.module))
    script.file("a.log", digits(logs.log(told.events)))
    rows = (
        ("watch @a.global[0]", "point 1"),
        ("watch @a.global[1]", "point 2"),
        ("watch @a.global[1] - 1", "point 3"),
        ("watch @a.global[1] + 1", "point 4"),
        ("goto 7", "at 7: 7 a 0 note 12"),
        (
            "rcontinue",
            "watch 1: -7 -> -2147483648",
            "watch 2: -9223372036854775808 -> 9223372036854775807",
            "watch 3: undef -> 9223372036854775806",
            "watch 4: -9223372036854775807 -> undef",
            "at 4: 4 a 0 note 12",
        ),
        ("print @a.global[0]", "-2147483648"),
        ("back", "at 3: 3 a 0 note -9223372036854775808"),
        ("print @a.global[0]", "-7"),
        ("rcontinue", "start", "at 0"),
    )
    session(script, ALONE, rows)
    alone(script, "lines that go back over a log without events", LEAST, logs.head())
    rows = (
        ("back", "at 0"),
        ("back 5", "at 0"),
        ("rcontinue", "start", "at 0"),
        ("break * begin", "point 1"),
        ("watch @a.events", "point 2"),
        ("rcontinue", "start", "at 0"),
        ("list", "1 break * begin", "2 watch @a.events"),
    )
    session(script, ALONE, rows)


def some_logs(script):
    ping, pong = ping_and_pong()
    files(script, "lines that go back over a log that diverges, and over one of two")
    put(script, (pong.changed(2, sent(4, 0, b"\2\0\0\0"), "5 OtherBytes"),))
    last = "at 8: 10 ping 0 send 1 64 4 = 4"
    rows = (
        ("break pong send", "point 1"),
        ("watch @pong.events", "point 2"),
        ("watch count(@_.u32[64] > 1)", "point 3"),
        ("step 99", last),
        ("rcontinue", "watch 3: 0 -> 1", "at 5: 7 ping 0 recv 128 4 32 = 4"),
        ("rcontinue", "watch 2: 1 -> 2", PLACES[4]),
        ("rcontinue", "watch 2: 0 -> 1", PLACES[2]),
        ("rcontinue", "start", PLACES[0]),
        ("step 99", last),
        ("back 4", PLACES[4]),
    )
    session(script, PAIRS, rows)
    put(script, (pong,))
    rows = (
        ("break * send", "point 1"),
        ("watch sum(@_.u32[64])", "point 2"),
        ("step 99", "at 5: 6 pong 0 send 0 64 4 = 4"),
        ("rcontinue", "break 1", "at 3: 4 pong 0 send 0 64 4 = 4"),
        ("rcontinue", "watch 2: 0 -> 1", "at 2: 3 pong 0 recv 64 16 32 = 4"),
        ("rcontinue", "start", "at 0"),
    )
    session(script, "debug pong.wasm pong.log", rows)


def many(script):
    """All points that there may be, at each of the positions behind which `rcontinue` begins."""
    files(script, "64 points that fire at each position")
    names = ["watch sum(@_.events) * %d" % number for number in range(1, 65)]
    rows = [(line, "point %d" % number) for number, line in enumerate(names, 1)]
    rows += [("do %d stop" % number, ) for number in range(1, 65, 2)]
    rows += [("goto 11", PLACES[11])]
    for k in range(10, 0, -1):
        rows += [("rcontinue", *("watch %d: %d -> %d" % (n, n * (k - 1), n * k) for n in range(1, 65)), PLACES[k])]
    session(script, PAIRS, [*rows, ("rcontinue", "start", PLACES[0])])


def note(position):
    return "at %d: %d a 0 note %d" % (position, position, position - 1)


def long(script):
    """More lines than those after which `continue` pauses are said on the way, of which the last are kept."""
    alone(script, "`rcontinue` over 10,000 events at which points fire", Guest("many_events").module, logs.log(["note %d" % n for n in range(1, 10001)]))
    rows = (
        ("break a note", "point 1"),
        ("watch @a.events", "point 2"),
        ("watch @a.events / 7000", "point 3"),
        ("goto 10001", note(10001)),
        ("rcontinue", "break 1", "watch 2: 9999 -> 10000", note(10000)),
        ("rcontinue", "break 1", "watch 2: 9998 -> 9999", note(9999)),
        ("back 9000", note(999)),
        ("rcontinue", "break 1", "watch 2: 997 -> 998", note(998)),
        ("delete 1", "deleted 1"),
        ("delete 2", "deleted 2"),
        ("goto 10001", note(10001)),
        ("rcontinue", "watch 3: 0 -> 1", note(7000)),
        ("rcontinue", "start", "at 0"),
    )
    session(script, ALONE, rows)


def table(script):
    script.title("Lines that go back")
    for part in (steps, first, to_the_start, from_each, moved, forth_and_back, memory, some_logs, many, long):
        part(script)
