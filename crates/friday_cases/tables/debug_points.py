"""Points of the debugger: where watchpoints and breakpoints fire, what is said there, and where `continue` comes to."""

import logs
from debugger import CALLS, STANDS, caller, every_event, shown_event
from modules import Guest, LEAST, start
from pairs import BEGIN, Log, ping_and_pong, put, sent
from script import text, times
from sessions import ALONE, PAIRS, PLACES, alone, files, session

LAST = len(PLACES) - 1
NO_POINT, TOO_MANY = "? 6 no such point", "? 9 too many"


class Point:
    """A line that makes a point, and what stands behind its number at each position where it fires."""

    def __init__(self, line, fires):
        self.line, self.fires = line, fires

    def said(self, number, position):
        return [self.fires[position] % number] if position in self.fires else []


def watched(expression, values):
    """A watchpoint on what has these values at the positions of ping and pong."""
    assert len(values) == len(PLACES)
    changes = [(k, was, now) for k, (was, now) in enumerate(zip(values, values[1:]), 1) if was != now]
    return Point("watch " + expression, {k: "watch %%d: %s -> %s" % (was, now) for k, was, now in changes})


def broken(behind, *positions):
    return Point("break " + behind, {k: "break %d" for k in positions})


# What stands at each position, by the table of the debugger's states.
PING, PONG = ([row[of] for row in STANDS] for of in (4, 5))
PING_EVENTS, PONG_EVENTS = ([row[of] for row in STANDS] for of in (1, 3))
UNDEF = "undef"

POINTS = (
    watched("sum(@_.u32[64])", [a + b for a, b in zip(PING, PONG)]),
    broken("* send", 3, 5, 7, 9, 11),
    watched("@ping.u32[64]", PING),
    broken("pong recv", 4, 6),
    watched("@ping.events == 2", [int(n == 2) for n in PING_EVENTS]),
    watched("min(@_.events)", [min(pair) for pair in zip(PING_EVENTS, PONG_EVENTS)]),
    watched("-max(@_.events)", [-max(pair) for pair in zip(PING_EVENTS, PONG_EVENTS)]),
    watched("count(@_.u32[64])", [(a > 0) + (b > 0) for a, b in zip(PING, PONG)]),
    broken("ping begin", 1),
    broken("pong begin", 2),
    broken("* begin", 1, 2),
    broken("* recv", 4, 6, 8, 10),
    broken("ping recv", 8, 10),
    broken("ping send", 3, 9, 11),
    broken("pong send", 5, 7),
    broken("* try_recv"),
    broken("pong exit"),
    watched("7", [7] * 12),
    # What is undefined is equal to itself alone.
    watched("1 / 0", [UNDEF] * 12),
    watched("@ping.u8[65535 + @ping.events]", [0] + [UNDEF] * 11),
    watched("@pong.u8[65536 - @pong.events]", [UNDEF, UNDEF] + [0] * 10),
    watched("6 / (@pong.events - 2)", [-3, -3, -6, -6, UNDEF, 6, 3, 2, 2, 2, 2, 2]),
    # What is written again is no change, and other bytes than those that are read are none.
    watched("@pong.u32[64]", PONG),
    watched("@pong.u8[65]", [0] * 12),
    watched("@ping.u32[128]", [0] * 8 + [1] * 4),
    watched("@pong.size * 65536 + @ping.size", [65537] * 12),
)


def arrives(points, position):
    """The answer of `continue` from a position with these points, which are given by their numbers; and where it ends."""
    for k in range(position + 1, LAST + 1):
        said = [line for number, point in points.items() for line in point.said(number, k)]
        if said:
            return (*said, PLACES[k]), k
    return ("end", PLACES[LAST]), LAST


def runs(points, position):
    """`continue` again and again, up to one behind the end."""
    ends = 0
    while ends < 2:
        said, position = arrives(points, position)
        ends += said[0] == "end"
        yield ("continue", *said)


def makes(points):
    """Lines that make points, from number 1 on."""
    return [(point.line, "point %d" % number) for number, point in enumerate(points, 1)]


def numbered(points):
    return dict(enumerate(points, 1))


def first(script):
    files(script, "a watchpoint over two processes, and breakpoints on a call")
    rows = (
        ("watch sum(@_.u32[64])", "point 1"),
        ("continue", "watch 1: 0 -> 1", "at 1: 1 ping 0 begin"),
        ("continue", "watch 1: 1 -> 2", "at 4: 3 pong 0 recv 64 16 32 = 4"),
        ("continue", "watch 1: 2 -> 3", "at 8: 7 ping 0 recv 128 4 32 = 4"),
        ("continue", "watch 1: 3 -> 4", "at 10: 9 ping 0 recv 128 4 32 = 4"),
        ("continue", "end", "at 11: 10 ping 0 send 1 64 4 = 4"),
    )
    session(script, PAIRS, rows)
    session(script, PAIRS, rows, 1)
    rows = (
        ("break * send", "point 1"),
        ("continue", "break 1", "at 3: 2 ping 0 send 1 64 4 = 4"),
        ("continue", "break 1", "at 5: 4 pong 0 send 0 64 4 = 4"),
        ("list", "1 break * send"),
        ("delete 1", "deleted 1"),
        ("continue", "end", "at 11: 10 ping 0 send 1 64 4 = 4"),
        ("list", ),
    )
    session(script, PAIRS, rows)
    session(script, PAIRS, rows, 1)


def to_the_end(script):
    files(script, "all points to the end, one, two and three of them, and those that never fire")
    silent = [point for point in POINTS if not point.fires]
    for some in (POINTS, silent, *(POINTS[at::10] for at in range(10)), POINTS[5:6], POINTS[-2:-1]):
        session(script, PAIRS, [*makes(some), *runs(numbered(some), 0)])


def from_each(script):
    files(script, "`continue` from each position, whatever was there when the points were made")
    some = [POINTS[at] for at in (2, 3, 4, 21)]
    rows = [("goto 11", PLACES[11]), *makes(some)]
    for position in (*range(LAST, -1, -1), 7, 3, 9):
        rows += [("goto %d" % position, PLACES[position]), ("continue", *arrives(numbered(some), position)[0])]
    session(script, PAIRS, rows)


def compared(script):
    """A value is compared with that at the position before."""
    files(script, "values that changed while the session went another way, or stood elsewhere")
    rows = (
        ("watch @ping.u32[64]", "point 1"),
        # The change at 1 is stepped over, and so is that at 8.
        ("step 2", PLACES[2]),
        ("continue", "watch 1: 1 -> 2", PLACES[8]),
        ("goto 9", PLACES[9]),
        ("goto 1", PLACES[1]),
        ("print @ping.u32[64]", "1"),
        ("continue", "watch 1: 1 -> 2", PLACES[8]),
        ("continue", "watch 1: 2 -> 3", PLACES[10]),
        ("goto 5", PLACES[5]),
        ("step 4", PLACES[9]),
        ("continue", "watch 1: 2 -> 3", PLACES[10]),
        ("goto 0", PLACES[0]),
        ("goto 10", PLACES[10]),
        # It is another value than at 0, and than at the last stop, but none changes any more.
        ("continue", "end", PLACES[11]),
        ("continue", "end", PLACES[11]),
        ("step", PLACES[11]),
        ("goto 7", PLACES[7]),
        # One more on the same, made where the value is another one.
        ("watch @ping.u32[64]", "point 2"),
        ("goto 9", PLACES[9]),
        ("continue", "watch 1: 2 -> 3", "watch 2: 2 -> 3", PLACES[10]),
        # At the position of a point that stops there it fires for the walk that comes there, and for no other.
        ("step 0", PLACES[10]),
        ("watch @ping.u32[64]", "point 3"),
        ("continue", "end", PLACES[11]),
        ("goto 0", PLACES[0]),
        ("continue", "watch 1: 0 -> 1", "watch 2: 0 -> 1", "watch 3: 0 -> 1", PLACES[1]),
    )
    session(script, PAIRS, rows)
    rows = (
        ("break ping send", "point 1"),
        ("watch @ping.events == 2", "point 2"),
        ("continue", "break 1", "watch 2: 0 -> 1", PLACES[3]),
        ("break * recv", "point 3"),
        ("watch @pong.u32[64] - @ping.u32[64]", "point 4"),
        ("continue", "break 3", "watch 4: -1 -> 0", PLACES[4]),
        ("continue", "break 3", PLACES[6]),
        ("continue", "watch 2: 1 -> 0", "break 3", "watch 4: 0 -> -1", PLACES[8]),
        ("continue", "break 1", PLACES[9]),
        ("continue", "break 3", "watch 4: -1 -> -2", PLACES[10]),
        ("continue", "break 1", PLACES[11]),
        ("continue", "end", PLACES[11]),
    )
    session(script, PAIRS, rows)


def deleted(script):
    files(script, "points that are deleted, whose numbers are not used again, and lists of points")
    rows = (
        ("list", ),
        ("delete 1", NO_POINT),
        ("break * send", "point 1"),
        ("  watch\t@ping . u32 [64]  == 3 \t", "point 2"),
        ("break\t \tpong  recv", "point 3"),
        ("list", "1 break * send", "2 watch\t@ping . u32 [64]  == 3", "3 break\t \tpong  recv"),
        ("delete 2", "deleted 2"),
        ("delete 2", NO_POINT),
        ("\t list ", "1 break * send", "3 break\t \tpong  recv"),
        ("watch 1+1", "point 4"),
        ("break *send", "point 5"),
        ("continue", "break 1", "break 5", PLACES[3]),
        ("delete 0x1", "deleted 1"),
        ("delete 004", "deleted 4"),
        ("list", "3 break\t \tpong  recv", "5 break *send"),
        ("continue", "break 3", PLACES[4]),
        ("continue", "break 5", PLACES[5]),
        ("delete 5", "deleted 5"),
        ("delete 3", "deleted 3"),
        ("list", ),
        ("delete 3", NO_POINT),
        ("continue", "end", PLACES[11]),
        ("watch((2))", "point 6"),
        ("watch-1", "point 7"),
        ("break ping\tsend\r", "point 8"),
        ("list", "6 watch((2))", "7 watch-1", "8 break ping\tsend"),
        ("goto 1", PLACES[1]),
        ("list", "6 watch((2))", "7 watch-1", "8 break ping\tsend"),
        ("step 99", PLACES[11]),
        ("events 1", PLACES[11][3:]),
        ("# list", ),
        ("list", "6 watch((2))", "7 watch-1", "8 break ping\tsend"),
        ("goto 0", PLACES[0]),
        ("continue", "break 8", PLACES[3]),
    )
    session(script, PAIRS, rows)
    long = text("watch ") + times(4090, b"0")
    session(script, PAIRS, [(long, "point 1"), (text("   ") + long, "? 8 line too long"), ("list", "1 " + long.data.decode())])


def many(script):
    files(script, "64 points and no more")
    count = 64
    lines = ["watch @ping.events + %d" % number for number in range(count)]
    listed = {number: line for number, line in enumerate(lines, 1)}
    rows = [(line, "point %d" % number) for number, line in listed.items()]
    rows += [(line, TOO_MANY) for line in ("watch 1", "break * send", "break ping recv")]
    rows += [("list", *("%d %s" % point for point in listed.items()))]
    # The other tests come before.
    rows += [("watch $n", "? 5 variable in a watch"), ("break pang send", "? 2 no node"), ("watch sum(sum(1))", "? 4 nested"), ("delete 65", NO_POINT)]
    rows += [("continue", *("watch %d: %d -> %d" % (number, number - 1, number) for number in listed), PLACES[1])]
    rows += [("delete 10", "deleted 10"), ("break * begin", "point 65"), ("watch 1", TOO_MANY), ("delete 65", "deleted 65")]
    rows += [("break pong begin", "point 66"), ("break pong begin", TOO_MANY), ("continue", "break 66", PLACES[2])]
    rows += [("delete %d" % number, "deleted %d" % number) for number in range(11, 65)]
    rows += [("list", *("%d %s" % (number, listed[number]) for number in range(1, 10)), "66 break pong begin")]
    session(script, PAIRS, rows)


def each_call(script):
    alone(script, "a breakpoint on each call", caller(), logs.held(every_event(), count=2))
    made = [written for written, _ in CALLS]
    of = [written.rpartition(": ")[2].split()[0] for written in made]
    kinds = list(logs.KINDS)
    for node, order in (("a", kinds), ("*", kinds[::-1])):
        rows = [("break %s %s" % (node, kind), "point %d" % number) for number, kind in enumerate(order, 1)]
        rows += [("continue", "break %d" % (order.index(of[at - 1]) + 1), shown_event(at, written)) for at, written in enumerate(made, 1)]
        rows += [("continue", "end", shown_event(len(made), made[-1]))]
        session(script, ALONE, rows)


def memory(script):
    alone(script, "a watchpoint on what lies over two pages", start("(i32.store8 (i32.const 4097) (i32.const 1))", "(memory 1)"), logs.log([]))
    rows = (
        ("watch @a.u32[4094]", "point 1"),
        ("watch @a.u32[4093]", "point 2"),
        ("watch @a.u8[4096]", "point 3"),
        ("watch @a.u32[4098]", "point 4"),
        ("watch @a.i64[4090]", "point 5"),
        ("continue", "watch 1: 0 -> 16777216", "watch 5: 0 -> 72057594037927936", "at 1: 1 a 0 begin"),
        ("continue", "end", "at 1: 1 a 0 begin"),
    )
    session(script, ALONE, rows)
    grown = '(memory 1 2) (data (i32.const 65535) "\\01")'
    alone(script, "watchpoints on what is not there at first", start("(drop (memory.grow (i32.const 1)))", grown), logs.log([]))
    rows = (
        ("watch @a.u8[65536]", "point 1"),
        ("watch @a.u16[65535]", "point 2"),
        ("watch @a.u8[131072]", "point 3"),
        ("watch @a.size", "point 4"),
        ("watch @a.global[0]", "point 5"),
        ("watch 0 && @a.u8[65536]", "point 6"),
        ("watch 1 && @a.u8[65536]", "point 7"),
        ("continue", "watch 1: undef -> 0", "watch 2: undef -> 1", "watch 4: 1 -> 2", "watch 7: undef -> 0", "at 1: 1 a 0 begin"),
        ("continue", "end", "at 1: 1 a 0 begin"),
    )
    session(script, ALONE, rows)
    told = Guest("globals")
    alone(script, "watchpoints on globals that are set", told.module, logs.log(told.events))
    rows = (
        ("watch @a.global[0]", "point 1"),
        ("watch @a.global[1]", "point 2"),
        ("watch @a.global[2]", "point 3"),
        ("watch @a.global[1] - 1", "point 4"),
        ("watch @a.global[1] + 1", "point 5"),
        (
            "continue",
            "watch 1: -7 -> -2147483648",
            "watch 2: -9223372036854775808 -> 9223372036854775807",
            "watch 4: undef -> 9223372036854775806",
            "watch 5: -9223372036854775807 -> undef",
            "at 4: 4 a 0 note 12",
        ),
        ("continue", "end", "at 7: 7 a 0 note 12"),
    )
    session(script, ALONE, rows)


def ends(script):
    files(script, "`continue` at the end, and without points")
    rows = (
        ("continue", "end", PLACES[11]),
        ("continue", "end", PLACES[11]),
        ("break * send", "point 1"),
        # The last position is one at which it fires, and not behind itself.
        ("continue", "end", PLACES[11]),
        ("goto 10", PLACES[10]),
        ("continue", "break 1", PLACES[11]),
        ("continue", "end", PLACES[11]),
        ("goto 0", PLACES[0]),
        ("delete 1", "deleted 1"),
        ("\tcontinue ", "end", PLACES[11]),
        ("step", PLACES[11]),
    )
    session(script, PAIRS, rows)
    alone(script, "points over a log without events", LEAST, logs.head())
    rows = (
        ("continue", "end", "at 0"),
        ("break * begin", "point 1"),
        ("break a exit", "point 2"),
        ("watch @a.events", "point 3"),
        ("continue", "end", "at 0"),
        ("list", "1 break * begin", "2 break a exit", "3 watch @a.events"),
    )
    session(script, ALONE, rows)


def some_logs(script):
    ping, pong = ping_and_pong()
    files(script, "points over a log that diverges, and over one of two")
    put(script, (pong.changed(2, sent(4, 0, b"\2\0\0\0"), "5 OtherBytes"),))
    rows = (
        ("break pong send", "point 1"),
        ("watch @pong.events", "point 2"),
        ("watch count(@_.u32[64] > 1)", "point 3"),
        ("continue", "watch 2: 0 -> 1", PLACES[2]),
        ("continue", "watch 2: 1 -> 2", PLACES[4]),
        ("continue", "watch 3: 0 -> 1", "at 5: 7 ping 0 recv 128 4 32 = 4"),
        ("continue", "end", "at 8: 10 ping 0 send 1 64 4 = 4"),
    )
    session(script, PAIRS, rows)
    put(script, (pong,))
    rows = (
        ("break ping send", "? 2 no node"),
        ("watch @ping.clock", "? 2 no node"),
        ("break * send", "point 1"),
        ("watch sum(@_.u32[64])", "point 2"),
        ("continue", "watch 2: 0 -> 1", "at 2: 3 pong 0 recv 64 16 32 = 4"),
        ("continue", "break 1", "at 3: 4 pong 0 send 0 64 4 = 4"),
        ("continue", "break 1", "at 5: 6 pong 0 send 0 64 4 = 4"),
        ("continue", "end", "at 5: 6 pong 0 send 0 64 4 = 4"),
    )
    session(script, "debug pong.wasm pong.log", rows)


def names(script):
    script.case("points on processes whose names are words of the shell")
    called = ("list", "0", "_", "send")
    given = [Log(4, p, name, [BEGIN], module="pong") for p, name in enumerate(called)]
    script.file("pong.wasm", script.kept("pong"))
    put(script, given)
    at = ["at %d: 1 %s 0 begin" % (p + 1, name) for p, name in enumerate(called)]
    lines = ["break %s begin" % name for name in called[::-1]]
    lines += ["watch @list.clock + @0.clock * 2 + @send.clock * 4", "watch max(@_.clock)"]
    rows = [("watch @_.clock", "? 2 no node"), *((line, "point %d" % number) for number, line in enumerate(lines, 1))]
    rows += [
        ("continue", "break 4", "watch 5: 0 -> 1", "watch 6: 0 -> 1", at[0]),
        ("continue", "break 3", "watch 5: 1 -> 3", at[1]),
        ("continue", "break 2", at[2]),
        ("continue", "break 1", "watch 5: 3 -> 7", at[3]),
        ("continue", "end", at[3]),
        ("break 1 begin", "? 2 no node"),
        ("break 00 begin", "? 2 no node"),
        ("list", *("%d %s" % (number, line) for number, line in enumerate(lines, 1))),
    ]
    for words in ((0, 1, 2, 3), (3, 1, 0, 2)):
        session(script, "debug " + " ".join("pong.wasm %s.log" % called[p] for p in words), rows)


def table(script):
    script.title("Points of the debugger")
    for part in (first, to_the_end, from_each, compared, deleted, many, each_call, memory, ends, some_logs, names):
        part(script)
