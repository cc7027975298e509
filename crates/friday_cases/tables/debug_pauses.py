"""Walks on which programs say 10,000 lines and more, and lines just short of that."""

from common import summary
from guests import Guest
from script import digits, text, times
from sessions import ALONE, PAIRS, PLACES, READ, files, session

# How many empty lines one program can say, of the 512 tokens that a line may have.
MOST = 170
# It fires at each position of ping and pong.
EACH = "watch sum(@_.events)"


def says(number, count):
    """A line that lets the program of a point say empty lines."""
    return text("do %d " % number) + times(count - 1, b'say "";') + text('say ""')


def points(count):
    """Lines that make points, which together say so many empty lines at each position."""
    full, rest = divmod(count, MOST)
    for number, share in enumerate([MOST] * full + [rest], 1):
        yield EACH, "point %d" % number
        yield (says(number, share), )


def lines(count):
    return [""] * count


# Ten positions say 10,000 lines.
THOUSAND = [*points(1000)]
NEXT = len(THOUSAND) // 2 + 1


def on(script):
    files(script, "10,000 lines, which pause, and those of a walk before, which do not count")
    rows = [*THOUSAND, ("continue", *lines(10000), "paused", PLACES[10]), ("continue", *lines(1000), "end", PLACES[11])]
    session(script, PAIRS, [*rows, ("continue", "end", PLACES[11])])


def stops(script):
    files(script, "10,000 lines at a position where a point asks to stop")
    rows = [*THOUSAND, (EACH, "point %d" % NEXT), ("do %d if @ping.events == 5 { stop }" % NEXT, )]
    rows += [("continue", *lines(10000), PLACES[10]), ("continue", *lines(1000), "end", PLACES[11])]
    session(script, PAIRS, rows)


def behind(script):
    """At 1 a line less is said, and so 9,999 lines up to 10, and 10,999 up to 11."""
    files(script, "9,999 lines, which do not pause, and 10,000 in the midst of the last position's")
    rows = [*points(999), (EACH, "point %d" % NEXT), ('do %d if @pong.events { say "more" }' % NEXT, )]
    told = [*lines(999), *((*lines(999), "more") * 10)]
    assert len(told) == 10999
    session(script, PAIRS, [*rows, ("continue", *told, "paused", PLACES[11]), ("continue", "end", PLACES[11])])


def short(script):
    files(script, "9,999 lines up to the end")
    assert 909 * 11 == 9999
    session(script, PAIRS, [*points(909), ("continue", *lines(9999), "end", PLACES[11]), ("goto 9", PLACES[9]), ("continue", *lines(1818), "end", PLACES[11])])


def one_by_one(script):
    """The 10,000th line is said at the last position."""
    script.case("a line at each of 10,000 events")
    script.file("a.wasm", digits(Guest("many_events").module))
    script.file("s", text("friday 1\nprocess a a.wasm\nrun 0 0 10001\n"))
    script.run("record s", "Done", *summary(10001, "finished", 10001, 0))
    last = "at 10001: 10001 a 0 note 10000"
    rows = (
        ("break a note", "point 1"),
        ('do 1 say ""', ),
        ("continue", *lines(10000), "paused", last),
        ("continue", "end", last),
        ("print @a.events", "10001"),
    )
    session(script, ALONE, rows)


def longest(script):
    """Each of the lines is as long as a program can say it."""
    script.case("10,000 lines of 4,084 bytes")
    script.file("a.wasm", digits(Guest("many_events").module))
    script.file("s", text("friday 1\nprocess a a.wasm\nrun 0 0 10001\n"))
    script.run("record s", "Done", *summary(10001, "finished", 10001, 0))
    script.input(READ, text("break a note\ndo 1 say \"") + times(4084, b"x") + text("\"\ncontinue\n"))
    answers = "at 0\npoint 1\n" + ("x" * 4084 + "\n") * 10000 + "paused\nat 10001: 10001 a 0 note 10000\n"
    script.sum(ALONE, "Done", answers.encode())


def table(script):
    script.title("Programs that say many lines")
    for part in (on, stops, behind, short, one_by_one, longest):
        part(script)
