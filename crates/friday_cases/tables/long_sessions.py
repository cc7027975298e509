"""Long sessions of the debugger, long lines and names in it, and long words of the command line."""

import logs
from common import report
from debug_points import NO_POINT, TOO_MANY
from program_limits import listed
from script import USAGE, digits, text, times
from sessions import PAIRS, PLACES, files, session
from shell_refusals import TOO_LONG, filled

LINES = 100000
MOST = 4096
LEAST_VALUE = "-9223372036854775808"


def many_lines(script):
    """Lines that are answered nothing, and a few that tell what the others came to."""
    files(script, "100,000 lines of one session")
    lines = text("set $n 0\n") + times(LINES, b"set $n $n + 1\n") + text("print $n\nwatch 1\n") + times(LINES, b"do 1 stop\n") + text("do 2 stop\nstep\n")
    script.input(4096, lines)
    script.run(PAIRS, "Done", "at 0", str(LINES), "point 1", "? 6 no such point", PLACES[1])


def names(count, size):
    return ["%03d%s" % (at, "v" * (size - 3)) for at in range(count)]


def long_names(script):
    files(script, "variables whose names are as long as a line has room for")
    longest = ["%s%d" % ("n" * 4088, at) for at in (0, 1)]
    rows = [("set $%s %d" % (name, at), ) for at, name in enumerate(longest)]
    rows += [(text("set $") + times(4089, b"n") + text("00 1"), TOO_LONG), ("print $%s" % longest[1], "1"), ("print $%s" % longest[1][:-1], "undef")]
    short = names(254, 100)
    rows += [("set $%s %d" % (name, at), ) for at, name in enumerate(short)] + [("set $more 1", TOO_MANY)]
    values = {name: at for at, name in [*enumerate(longest), *enumerate(short)]}
    session(script, PAIRS, [*rows, listed(values), ("print $%s" % short[253], "253")])


def long_points(script):
    """Lines that make points, and programs, of 4,096 bytes; all programs of 64 points at one position."""
    files(script, "points and programs that are as long as a line may be, 64 of them")
    watch = "watch " + "0" * (MOST - 7) + "%d"
    rows = [(watch % at, "point %d" % (at + 1)) for at in range(8)]
    rows += [("list", *("%d %s" % (at + 1, watch % at) for at in range(8)))]
    rows += [("break ping begin", "point %d" % number) for number in range(9, 65)] + [("watch 1", TOO_MANY)]
    rows += [(filled("do %d " % number, MOST - 15) + text("set $n $n + %3d" % number), ) for number in range(9, 65)]
    rows += [("set $n 0", ), ("continue", "end", PLACES[11]), ("print $n", str(sum(range(9, 65))))]
    session(script, PAIRS, rows)


def many_points(script):
    """Far more than may be held at once are made, of which the last 64 stay."""
    files(script, "2,000 points that are made and deleted")
    rows = []
    for number in range(1, 2001):
        rows += [("watch %d" % number, "point %d" % number), ("delete %d" % number, "deleted %d" % number)] if number <= 1936 else [("break * send", "point %d" % number)]
    rows += [("watch 1", TOO_MANY), ("list", *("%d break * send" % number for number in range(1937, 2001)))]
    rows += [("delete 1936", NO_POINT), ("continue", *("break %d" % number for number in range(1937, 2001)), PLACES[3])]
    session(script, PAIRS, rows)


def long_answers(script):
    """Lines that programs say, of as many items and bytes as there can be, at one position."""
    files(script, "long lines that programs say")
    rows = [("set $n %s" % "0 - 9223372036854775807 - 1", )]
    rows += [("break ping begin", "point %d" % number) for number in range(1, 10)]
    rows += [("do 1 say " + ",".join(["$n"] * 170), )]
    rows += [(text('do %d say "' % number) + times(4084, b"%d" % number) + text('"'), ) for number in range(2, 10)]
    said = [LEAST_VALUE * 170, *(str(number) * 4084 for number in range(2, 10))]
    session(script, PAIRS, [*rows, ("continue", *said, "end", PLACES[11])])


def words(script):
    """Names of files may have any length, and there may be any number of them."""
    name = "n" * 5000
    script.case("long words of the command line, and many")
    script.file(name, script.kept("now"))
    script.file(name + ".log", digits(logs.log(["now = 5", "note 5"])))
    script.file("a.log", digits(logs.log(["now = 5", "note 5"])))
    script.run("replay %s %s.log" % (name, name), "Done", *report(3, "finished"))
    script.run("replay x%s %s.log" % (name, name), "Absent", "friday: absent x" + name)
    script.run("record " + name, "Refused", "friday: refused %s: line 1 BadLine" % name)
    script.file("now", script.kept("now"))
    pair = " now a.log"
    for verb in ("replay", "debug"):
        script.run(verb + pair * 40, "Refused", "friday: refused a.log: 3 SameProcess")
    script.run("replay" + pair * 40 + " x", "Usage", USAGE)
    script.run("record" + " x" * 300, "Usage", USAGE)


def table(script):
    script.title("Long sessions, lines, names and words")
    for part in (many_lines, long_names, long_points, many_points, long_answers, words):
        part(script)
