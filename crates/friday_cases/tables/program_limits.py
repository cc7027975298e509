"""How deep and how long a line with a program may be, and how many variables there may be."""

from debug_points import NO_POINT, TOO_MANY
from script import text, times
from sessions import PAIRS, PLACES, files, session
from shell_refusals import NESTED, NO_NODE, filled, syntax

MOST = 256


def nested(count, inside):
    """Statements in so many parts, each in the one before."""
    return "if 1 { " * count + inside + " }" * count


# What stands behind `do 1 `, and the line that it says.
LARGE = (
    (nested(64, 'say "64 parts"'), "64 parts"),
    (nested(63, "say (1), @ping.u8[0], sum(2)"), "104"),
    (nested(62, "say ((2))"), "2"),
    (nested(1, "say " + "(" * 63 + "3" + ")" * 63), "3"),
    ("if " + "(" * 64 + "1" + ")" * 64 + ' { say "test" }', "test"),
    ("if 1 { set $n 4 } else { stop }; " * 30 + "say $n", "4"),
    ("if 0 { stop } else { " * 62 + 'say "chain"' + " }" * 62, "chain"),
    # Signs in a string are no brackets, and a string is one token.
    ('say "%s"' % ("(" * 100), "(" * 100),
    ('say "%s"' % ("1 " * 600), "1 " * 600),
    # 512 tokens with the first two.
    ("say " + ",".join("1" * 255), "1" * 255),
    ("stop; " * 253 + "set $n 1", None),
)


def largest(script):
    files(script, "programs as deep and as long as they may be")
    rows = [("break ping send", "point 1")]
    for program, line in LARGE:
        told = () if line is None else (line, )
        rows += [("goto 9", PLACES[9]), ("do 1 " + program, ), ("continue", *told, *(("end", ) if told else ()), PLACES[11])]
    # 4,096 bytes.
    for line, *told in (
        (text('do 1 say "') + times(4085, b"x") + text('"'), "x" * 4085),
        (filled('do 1 say "blanks"', 4096), "blanks"),
        (filled("do 1 say ", 4096, b"0"), "0"),
        (times(4000, b" ") + text('do 1 say "behind", 1'), "behind1"),
    ):
        rows += [("goto 9", PLACES[9]), (line, ), ("continue", *told, "end", PLACES[11])]
    rows += [("list", "1 break ping send"), (filled("set $n ", 4096, b"7"), syntax(8)), (filled("set $n 7", 4096), ), ("print $n", "7")]
    session(script, PAIRS, rows)


def sets(names, value="1"):
    return "; ".join("set $%s %s" % (name, value) for name in names)


def numbered(letter, count):
    return ["%s%d" % (letter, number) for number in range(count)]


def listed(values):
    return "vars", *("$%s %s" % row for row in values.items())


def by_set(script):
    files(script, "256 variables that are set one by one, and no more")
    values = {name: at for at, name in enumerate(numbered("v", MOST))}
    rows = [("set $v%d %d" % (at, at), ) for at in range(MOST)]
    rows += [listed(values), ("set $more 1", TOO_MANY), ("set $v 1", TOO_MANY), ("set $v256 $v255", TOO_MANY), ("set $v00 1", TOO_MANY)]
    # What has a place keeps it.
    rows += [("set $v7 -70", ), ("set $v0 1 / 0", ), ("set $v255 $v255 + $v7", ), ("print $v255 + $more", "undef"), ("print $v255", "185")]
    values.update(v7=-70, v0="undef", v255=185)
    # The other tests come before.
    rows += [("set $more 1 2", syntax(13)), ("set $more sum(sum(1))", NESTED), ("set $more @pang.clock", NO_NODE), ("do 1 set $more 1", NO_POINT)]
    rows += [("break ping send", "point 1"), ("do 1 set $more 1", TOO_MANY), ("do 1 set $more @pang.clock", NO_NODE), ("do 2 set $more 1", NO_POINT)]
    rows += [("do 1 if 0 { set $v1 1 } else { set $more 1 }", TOO_MANY), ("continue", "break 1", PLACES[3])]
    # Programs that make no new one.
    rows += [("do 1 set $v8 $v8 * 2; say $v8, $more", ), ("do 1 set $v8 0; set $more 1", TOO_MANY), ("continue", "16undef", "32undef", "end", PLACES[11])]
    rows += [("do 1 say $more", ), ("delete 1", "deleted 1"), ("set $more 1", TOO_MANY), ("goto 0", PLACES[0]), ("set $more 1", TOO_MANY)]
    values.update(v8=32)
    session(script, PAIRS, [*rows, listed(values), ("step", PLACES[1])])


def by_do(script):
    files(script, "256 variables that programs mention, and no more")
    known = numbered("v", 250)
    values = dict.fromkeys(known, 3)
    rows = [("set $%s 3" % name, ) for name in known]
    rows += [("break ping send", "point 1"), ('do 1 say "old"', )]
    # Seven are one too many, and then none of them is mentioned and the older program stays.
    rows += [("do 1 " + sets(numbered("n", 7)), TOO_MANY), listed(values), ("continue", "old", "old", "old", "end", PLACES[11])]
    rows += [("do 1 if 1 { %s } else { %s }; stop" % (sets(numbered("n", 3)), sets(numbered("m", 4))), TOO_MANY), listed(values)]
    rows += [("do 1 %s; %s" % (sets(numbered("n", 6)), sets(known[:5] + ["n6"])), TOO_MANY), listed(values)]
    # A name counts once, and one that is known does not count.
    rows += [("do 1 %s; if 0 { %s } else { %s }" % (sets(known[:20]), sets(["a", "b", "a"]), sets(["b", "a"])), ), listed(values | dict.fromkeys("ab", "undef"))]
    rows += [("do 1 " + sets([*"abcdef", "v1"], "4"), ), listed(values | dict.fromkeys("abcdef", "undef")), ("set $g 1", TOO_MANY)]
    rows += [("do 1 set $g 1", TOO_MANY), ("do 1 set $g 1; set $h 1; say $g", TOO_MANY), ("set $f 6", ), ("goto 9", PLACES[9])]
    rows += [("continue", "end", PLACES[11]), listed(values | dict.fromkeys("abcdef", 4) | {"v1": 4})]
    session(script, PAIRS, rows)


def without_set(script):
    files(script, "256 variables of three programs")
    names = numbered("v", MOST)
    values = dict.fromkeys(names, "undef")
    rows = [("break ping send", "point 1"), ("break ping send", "point 2")]
    # A line has no place for more than 102.
    rows += [("do 1 " + sets(names[:102]), ), ("do 2 " + sets(names[102:204], "2"), ), ("do 1 " + sets([*names[204:], "x"], "3"), TOO_MANY)]
    rows += [("do 1 " + sets(names[204:], "3"), ), ("set $x 1", TOO_MANY), listed(values), ("goto 9", PLACES[9]), ("continue", "end", PLACES[11])]
    values.update(dict.fromkeys(names[102:204], 2), **dict.fromkeys(names[204:], 3))
    rows += [listed(values), ("do 2 set $x 1", TOO_MANY), ("set $v0 1", ), ("print $v0 + $v102 + $v255", "6")]
    session(script, PAIRS, rows)
    # One more than 255, however often it is set.
    rows = [("set $v%d 1" % at, ) for at in range(255)]
    rows += [("break ping send", "point 1"), ("do 1 set $x 1; set $y 1", TOO_MANY), ("do 1 " + sets(["x"] * 50), ), ("set $y 1", TOO_MANY), ("set $x 1", )]
    session(script, PAIRS, [*rows, ("vars", *("$v%d 1" % at for at in range(255)), "$x 1")])


def table(script):
    script.title("Limits of programs and variables")
    for part in (largest, by_set, by_do, without_set):
        part(script)
