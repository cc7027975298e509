"""Points with conditions, points on any call, walks over so many positions at most, and the node of the position's event."""

from debug_points import LAST, PING, PING_EVENTS, POINTS, PONG, PONG_EVENTS, TOO_MANY, UNDEF, Point, broken, makes, numbered, runs
from debug_returns import runs as returns
from sessions import PAIRS, PLACES, files, session

# The name of the process whose event led to a position; none led to position 0.
EVENT_OF = (None, *(place.split()[3] for place in PLACES[1:]))


def of_event(ping, pong):
    """What stands at each position of the node of its event."""
    return [UNDEF, *({"ping": a, "pong": b}[name] for name, a, b in list(zip(EVENT_OF, ping, pong))[1:])]


OWN, OTHER = of_event(PING, PONG), of_event(PONG, PING)
CONDITIONS = {
    "1": [1] * 12,
    "-1": [-1] * 12,
    "0": [0] * 12,
    # What is undefined is no number.
    "1 / 0": [UNDEF] * 12,
    "6 / (@pong.events - 2)": [UNDEF if n == 2 else 6 // (n - 2) for n in PONG_EVENTS],
    "@ping.u32[64] == 2": [int(n == 2) for n in PING],
    "@!.events > 3": [int(n != UNDEF and n > 3) for n in of_event(PING_EVENTS, PONG_EVENTS)],
    "@!.u32[64] - 1": [UNDEF if n == UNDEF else n - 1 for n in OWN],
    "count(@_.u32[64] == @!.u32[64]) == 2": [int(n == m) for n, m in zip(OWN, OTHER)],
    "@ping.u8[64 + @!.u32[64] - 2]": [{1: 0, 2: n, 0: 0, 3: 0}[own] if own != UNDEF else UNDEF for n, own in zip(PING, OWN)],
    "@!.thread == 0 && !@!.ended": [int(k > 0) for k in range(12)],
}


def conditioned(point, written):
    """The point, which fires only where this condition is a number other than 0."""
    values = CONDITIONS[written]
    return Point("%s if %s" % (point.line, written), {k: said for k, said in point.fires.items() if values[k] not in (0, UNDEF)})


def of_process(*names):
    return [k for k in range(1, LAST + 1) if EVENT_OF[k] in names]


ANY = (broken("ping *", *of_process("ping")), broken("pong *", *of_process("pong")), broken("* *", *of_process("ping", "pong")))
SOME = (POINTS[0], POINTS[1], POINTS[4], POINTS[21], *ANY)


def conditions(script):
    files(script, "each condition at points of each kind, to the end and back")
    for written in CONDITIONS:
        points = [conditioned(point, written) for point in SOME]
        session(script, PAIRS, [*makes(points), *runs(numbered(points), 0), *returns(numbered(points), LAST)])
    files(script, "points on any call")
    for point in ANY:
        session(script, PAIRS, [*makes([point]), *runs(numbered([point]), 0), *returns(numbered([point]), LAST)])


def many(script):
    files(script, "64 points with conditions, one of which is as long as a line may be, to the end and back")
    longest = "break ping send if " + "1".zfill(4096 - len("break ping send if "))
    points = [Point(longest, broken("ping send", 3, 9, 11).fires)]
    points += [conditioned(point, written) for point in SOME for written in CONDITIONS][:63]
    session(script, PAIRS, [*makes(points), ("watch 1 if 1", TOO_MANY), *runs(numbered(points), 0), *returns(numbered(points), LAST)])


def arrives_within(points, position, most):
    """The answer of `continue` over so many positions at most, from a position."""
    limit = min(position + most, LAST)
    for k in range(position + 1, limit + 1):
        said = [line for number, point in points.items() for line in point.said(number, k)]
        if said:
            return (*said, PLACES[k])
    return ("end" if limit == LAST else "paused", PLACES[limit])


def bounded(script):
    files(script, "`continue` over so many positions at most, from each")
    points = [POINTS[4], conditioned(POINTS[1], "@!.events > 3")]
    rows = makes(points)
    for position in range(LAST + 1):
        for most in (1, 2, 3, 5, LAST, LAST + 1, 2**63 - 1):
            rows += [("goto %d" % position, PLACES[position]), ("continue %d" % most, *arrives_within(numbered(points), position, most))]
    session(script, PAIRS, rows)


SPELLED = (
    (" break  * send if @!.events>3 ", "point 1"),
    ("break **if @!.clock == 5", "point 2"),
    ("watch @ping.events if@!.u32[64]==3", "point 3"),
    ("watch sum(@_.u32[64]) if if_not", "? 1 syntax at column 26"),
    ("list", "1 break  * send if @!.events>3", "2 break **if @!.clock == 5", "3 watch @ping.events if@!.u32[64]==3"),
    ("continue", "break 2", PLACES[6]),
    ("continue", "break 1", PLACES[7]),
    ("continue", "break 1", PLACES[9]),
    ("continue", "watch 3: 4 -> 5", PLACES[10]),
    ("continue 0x1", "break 1", "watch 3: 5 -> 6", PLACES[11]),
    ("continue 1", "end", PLACES[11]),
    ("rcontinue", "watch 3: 4 -> 5", PLACES[10]),
    # A point on which a program runs keeps its condition.
    ('do 3 say @!, " of ", count(@_.events)', ),
    ("rcontinue", "break 1", PLACES[9]),
    ("continue", "ping of 2", "break 1", "ping of 2", PLACES[11]),
)
PROGRAMS = (
    ("break * send", "point 1"),
    ('do 1 say @!, " ", @!.clock, " ", count(@_.u32[64] == @!.u32[64]); set $n $n * 10 + @!.events', ),
    ("set $n 0", ),
    ("continue", "ping 2 1", "pong 4 2", "pong 6 2", "ping 8 1", "ping 10 1", "end", PLACES[11]),
    ("print $n", "23546"),
    ("goto 5", PLACES[5]),
    ("continue 3", "pong 6 2", "paused", PLACES[8]),
    # A `stop` counts that is never reached.
    ("rcontinue", "start", PLACES[0]),
    ("do 1 if 0 { if 1 { say 1 } else { stop } }", ),
    ("goto 8", PLACES[8]),
    ("rcontinue", "break 1", PLACES[7]),
    ("do 1 if @!.clock == 6 { say @!; stop }", ),
    ("continue", "end", PLACES[11]),
    ("goto 3", PLACES[3]),
    ("continue", "pong", PLACES[7]),
)
PLACES_OF_NODES = (
    ("print @ping.thread", UNDEF),
    ("print sum(@_.thread)", UNDEF),
    ("print count(@_.ended)", "0"),
    ("step", PLACES[1]),
    ("print @ping.thread", "0"),
    ("print sum(@_.thread)", UNDEF),
    ("step", PLACES[2]),
    ("print sum(@_.thread)", "0"),
    ("goto 0", PLACES[0]),
    ("watch @pong.thread", "point 1"),
    ("watch @pong.ended", "point 2"),
    ("continue", "watch 1: undef -> 0", PLACES[2]),
    ("continue", "end", PLACES[11]),
    ("set $t @pong.thread + 4 * @pong.ended + 2", ),
    ("print $t", "2"),
)


def written(script):
    files(script, "conditions as they are written, programs over the position's event, and places of nodes")
    for rows in (SPELLED, PROGRAMS, PLACES_OF_NODES):
        session(script, PAIRS, rows)
        session(script, PAIRS, rows, 1)


def table(script):
    script.title("Points with conditions")
    for part in (conditions, many, bounded, written):
        part(script)
