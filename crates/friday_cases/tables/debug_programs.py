"""Programs of the debugger's points: what they say, what they set, and where they stop a walk."""

from debug_points import NO_POINT
from pairs import BEGIN, Log, put
from sessions import PAIRS, PLACES, files, session
from shell_refusals import NESTED, NO_NODE, syntax
from shell_values import LEAST, MOST

# Where `* send` and `sum(@_.u32[64])` fire: at 3, 5, 7, 9 and 11, of which 5 and 7 are of pong, and at 1, 4, 8 and 10.
WALKS = (
    ("break * send", "point 1"),
    ("continue", "break 1", "at 3: 2 ping 0 send 1 64 4 = 4"),
    ('do 1 say "n ", count(@_.events > 1); stop', ),
    ("continue", "n 2", "at 5: 4 pong 0 send 0 64 4 = 4"),
    ("list", "1 break * send"),
    ("set $b 2", ),
    ("set $a $b - 3", ),
    ("vars", "$b 2", "$a -1"),
    ("delete 1", "deleted 1"),
    ("continue", "end", "at 11: 10 ping 0 send 1 64 4 = 4"),
    ("vars", "$b 2", "$a -1"),
)
COUNTED = (
    ("set $n 0", ),
    ("watch sum(@_.u32[64])", "point 1"),
    ("do 1 set $n $n + 1; if $n == 3 { stop }", ),
    ("goto 11", PLACES[11]),
    ("goto 0", PLACES[0]),
    ("continue", "at 8: 7 ping 0 recv 128 4 32 = 4"),
    ("print $n", "3"),
    ("continue", "end", PLACES[11]),
    ("print $n", "4"),
    ("continue", "end", PLACES[11]),
    ("print $n", "4"),
)


def walks(script):
    files(script, "a program at a breakpoint, and one that counts how often a watchpoint fires")
    for rows in (WALKS, COUNTED):
        session(script, PAIRS, rows)
        session(script, PAIRS, rows, 1)


ATTACHED = (
    ("break * send", "point 1"),
    ("break ping send", "point 2"),
    ("list", "1 break * send", "2 break ping send"),
    ('do 1 say "first"', ),
    ('do 2 say "other"; stop', ),
    ("list", "1 break * send", "2 break ping send"),
    ("continue", "first", "other", PLACES[3]),
    # It takes the place of the first.
    ('do 1 say "second"', ),
    ("continue", "second", "second", "second", "other", PLACES[9]),
    ('do 0x2 set $n 5; say "now ", $n', ),
    ("print $n", "undef"),
    ("continue", "second", "now 5", "end", PLACES[11]),
    ("vars", "$n 5"),
    ("delete 2", "deleted 2"),
    ("vars", "$n 5"),
    ("list", "1 break * send"),
    ("do 2 stop", NO_POINT),
    # A new point on the same has no program.
    ("break ping send", "point 3"),
    ("goto 8", PLACES[8]),
    ("continue", "second", "break 3", PLACES[9]),
    ('\tdo\t003 \tsay"third" \t', ),
    ("list", "1 break * send", "3 break ping send"),
    ("continue", "second", "third", "end", PLACES[11]),
    ("goto 0", PLACES[0]),
    # No program is run by a line that moves.
    ("step 3", PLACES[3]),
    ("goto 11", PLACES[11]),
    ("events 1", PLACES[11][3:]),
    ("goto 0", PLACES[0]),
    ("continue", "second", "third", "second", "second", "second", "third", "second", "third", "end", PLACES[11]),
    ("continue", "end", PLACES[11]),
    ("list", "1 break * send", "3 break ping send"),
    ("delete 1", "deleted 1"),
    ("delete 3", "deleted 3"),
    ("goto 0", PLACES[0]),
    ("continue", "end", PLACES[11]),
    ("vars", "$n 5"),
)

STOPS = (
    ("break * send", "point 1"),
    ("break ping send", "point 2"),
    ("break * send", "point 3"),
    ('do 1 say "one"; stop; say "not said"', ),
    ('do 2 say "two"', ),
    # It ends its own program, and the points behind it are treated all the same.
    ("continue", "one", "two", "break 3", PLACES[3]),
    ('do 3 say "three"; stop', ),
    ("continue", "one", "three", PLACES[5]),
    # In a part it ends the whole program.
    ('do 1 if 1 { if 1 { say "in"; stop; say "not" }; say "nor" } else { say "else" }; say "nor this"', ),
    ('do 3 say "three"', ),
    ("continue", "in", "three", PLACES[7]),
    ('do 1 if 0 { stop } else { say "else" }', ),
    ("continue", "else", "two", "three", "else", "two", "three", "end", PLACES[11]),
    # At the last position it takes the place of `end`.
    ("do 2 stop", ),
    ("goto 10", PLACES[10]),
    ("continue", "else", "three", PLACES[11]),
    ("continue", "end", PLACES[11]),
    # Of programs that say nothing, the position line is all that is seen.
    ("do 1 if 0 { stop }", ),
    ("do 3 set $s @pong.events", ),
    ("goto 4", PLACES[4]),
    ("continue", PLACES[9]),
    ("print $s", "5"),
    ("do 2 if 0 { stop }", ),
    ("goto 4", PLACES[4]),
    ("continue", "end", PLACES[11]),
    # Where one in front is gone, the order is the same.
    ("delete 1", "deleted 1"),
    ("break ping send", "point 4"),
    ('do 2 say "two"; stop', ),
    ('do 3 say "three"', ),
    ("goto 8", PLACES[8]),
    ("continue", "two", "three", "break 4", PLACES[9]),
    ('do 4 say "four"', ),
    ("continue", "two", "three", "four", PLACES[11]),
)

# A watchpoint and a breakpoint fire at 4: what was said before they did, and in which order.
MIXED = (
    ("watch sum(@_.u32[64])", "point 1"),
    ("break pong recv", "point 2"),
    ("watch @pong.clock", "point 3"),
    ('do 1 say "sum ", sum(@_.u32[64])', ),
    ("continue", "sum 1", "watch 3: 0 -> 1", PLACES[2]),
    ("continue", "sum 2", "break 2", "watch 3: 1 -> 3", PLACES[4]),
    ('do 3 say "clock ", @pong.clock, " of ", max(@_.clock)', ),
    ("continue", "clock 4 of 4", "break 2", "clock 5 of 5", PLACES[6]),
    ("do 2 stop", ),
    ("continue", "clock 6 of 6", "sum 3", "sum 4", "end", PLACES[11]),
    ("goto 2", PLACES[2]),
    ("continue", "sum 2", "clock 3 of 3", PLACES[4]),
    ("continue", "clock 4 of 4", "clock 5 of 5", PLACES[6]),
)


def attached(script):
    files(script, "programs in place of older ones, and of points that are deleted")
    session(script, PAIRS, ATTACHED)
    session(script, PAIRS, ATTACHED, 1)
    files(script, "programs that stop, among other points that fire there")
    session(script, PAIRS, STOPS)
    session(script, PAIRS, MIXED)


SEEN = (
    ("set $n 0", ),
    ("break * send", "point 1"),
    ("break * send", "point 2"),
    ('do 1 set $n $n + 1; say "one ", $n', ),
    ('do 2 say "two ", $n; set $n $n * 10; if $n > 100 { stop }', ),
    ("continue", "one 1", "two 1", "one 11", "two 11", PLACES[5]),
    ("print $n", "110"),
    ("set $n 7", ),
    ("print $n", "7"),
    ("continue", "one 8", "two 8", "one 81", "two 81", PLACES[9]),
    ("print $n", "810"),
    # Moving changes no variable, and neither does another program.
    ("goto 2", PLACES[2]),
    ("print $n", "810"),
    ("do 1 set $m $n; set $n 3; set $m $m - $n; stop", ),
    ("do 2 say $m, $n", ),
    ("vars", "$n 810", "$m undef"),
    ("continue", "8073", PLACES[3]),
    ("vars", "$n 3", "$m 807"),
    ("continue", "03", PLACES[5]),
    ("vars", "$n 3", "$m 0"),
    # A value is that of the position where it was set.
    ("do 1 set $c @pong.clock; set $e sum(@_.events)", ),
    ('do 2 say $c, " ", $e; if $e == 8 { stop }', ),
    ("continue", "6 7", "6 9", "6 11", "end", PLACES[11]),
    ("goto 0", PLACES[0]),
    ("print $c * 100 + $e", "611"),
    ("print @pong.clock", "0"),
    # A program that is run anew begins with what it left.
    ("set $n 1", ),
    ("do 1 set $n $n * -2", ),
    ("do 2 if $n < 0 { say $n }", ),
    ("continue", "-2", "-8", "-32", "end", PLACES[11]),
    ("vars", "$n -32", "$m 0", "$c 6", "$e 11"),
)

MENTIONED = (
    ("vars", ),
    ("print $x", "undef"),
    ("print 1 || $x", "1"),
    ("vars", ),
    # A variable that is read is not mentioned.
    ("set $b $x", ),
    ("vars", "$b undef"),
    ("watch sum(@_.u32[64])", "point 1"),
    ("do 1 if $c { set $d 1 } else { set $c 2; set $b 3 }; say $z; set $a 4; set $d $d + 0", ),
    ("vars", "$b undef", "$d undef", "$c undef", "$a undef"),
    ("set $a 1", ),
    ("set $e 1 / 0", ),
    ("vars", "$b undef", "$d undef", "$c undef", "$a 1", "$e undef"),
    # Lines that are refused mention none.
    ("do 9 set $q 1", NO_POINT),
    ("do 1 set $q 1; stop stop", syntax(21)),
    ("do 1 set $q 1; set $r sum(sum(1))", NESTED),
    ("do 1 set $q 1; say @pang.clock", NO_NODE),
    ("set $q 1 +", syntax(11)),
    ("set $q sum(sum(1))", NESTED),
    ("set $q @pang.clock", NO_NODE),
    ("watch $q", "? 5 variable in a watch"),
    ("vars", "$b undef", "$d undef", "$c undef", "$a 1", "$e undef"),
    # Neither did they change the program. $c is set at 1, and $d behind that.
    ("continue", "undef", "undef", "undef", "undef", "end", PLACES[11]),
    ("vars", "$b 3", "$d 1", "$c 2", "$a 4", "$e undef"),
    # Once more mentioned is no other place.
    ("do 1 set $e 1; set $b 1; set $g 1", ),
    ("vars", "$b 3", "$d 1", "$c 2", "$a 4", "$e undef", "$g undef"),
    ("do 1 stop", ),
    ("delete 1", "deleted 1"),
    ("vars", "$b 3", "$d 1", "$c 2", "$a 4", "$e undef", "$g undef"),
    ("set $b $b / 0", ),
    ("set $d $d", ),
    ("set $h $h", ),
    ("set $g $a * $c", ),
    (" vars\t", "$b undef", "$d 1", "$c 2", "$a 4", "$e undef", "$g 8", "$h undef"),
    ("goto 3", PLACES[3]),
    ("vars", "$b undef", "$d 1", "$c 2", "$a 4", "$e undef", "$g 8", "$h undef"),
)

# In the order of the text, also where an arm is in an arm, and where no arm is ever taken.
ARMS = (
    ("break * exit", "point 1"),
    ("do 1 if 0 { if 0 { set $f 1 } else { set $e 1 }; set $d 1 } else { if 0 { set $c 1 }; set $e 2 }; set $b 1; stop; set $a 1", ),
    ("vars", "$f undef", "$e undef", "$d undef", "$c undef", "$b undef", "$a undef"),
    ("set $c 7", ),
    ("do 1 set $z $y; set $a $x", ),
    ("vars", "$f undef", "$e undef", "$d undef", "$c 7", "$b undef", "$a undef", "$z undef"),
    ("continue", "end", PLACES[11]),
    ("vars", "$f undef", "$e undef", "$d undef", "$c 7", "$b undef", "$a undef", "$z undef"),
)

# Any word is a name, and each spelling is another one.
NAMES = ("A", "a", "7", "007", "0x7", "if", "set", "say", "stop", "else", "do", "vars", "_", "__", "sum", "clock", "u32", "undef", "ping", "9223372036854775808", "0x", "1a", "n" * 4088)


def names():
    yield from (("set $%s %d" % (name, at), ) for at, name in enumerate(NAMES, 10))
    yield from (("print $%s" % name, str(at)) for at, name in enumerate(NAMES, 10))
    yield "vars", *("$%s %d" % (name, at) for at, name in enumerate(NAMES, 10))
    yield "print $7 * 100 + $007", "1213"
    yield "set$A-1", 
    yield "set\t$ \ta $A * 2", 
    yield "print $ A+$\ta", "-3"
    yield "break ping begin", "point 1"
    yield "do 1 set$if $set;set $ set$if+1;if$set{say$if,$ set}else{say\"no\"}", 
    yield "continue", "1617", "end", PLACES[11]
    yield "print $if + $set", "33"


def variables(script):
    files(script, "variables that programs set and see")
    session(script, PAIRS, SEEN)
    session(script, PAIRS, SEEN, 1)
    files(script, "variables in the order in which they are mentioned first")
    session(script, PAIRS, MENTIONED)
    session(script, PAIRS, MENTIONED, 1)
    session(script, PAIRS, ARMS)
    files(script, "names of variables")
    session(script, PAIRS, [*names()])


# What a test is, and whether the first part is taken.
TESTS = (
    *((written, True) for written in ("1", "5", "-1", LEAST, MOST, "!0", "$n", "-$n", "$n == 5", "1 || $u", "@ping.events", "sum(1)", "(1)", "0 || $n", "!$z")),
    *((written, False) for written in ("0", "-0", "$z", "$n - 5", "@pong.events", "1 && $z", "0 && $u", "!1", "$n == 4")),
    *((written, False) for written in ("1 / 0", "$u", "$never", "!$never", "$never == $never", "$u != 1", "0 || $u", "1 && $u", "-$u", "count($u)", "@ping.u8[-1]", MOST + " + 1")),
)


def tests(script):
    files(script, "tests, and the part that is taken")
    rows = [("set $n 5", ), ("set $u 1 / 0", ), ("set $z 0", ), ("break ping begin", "point 1")]
    for written, first in TESTS:
        rows += [("goto 0", PLACES[0]), ('do 1 if %s { say "first" } else { say "second" }; say "behind"; stop' % written, )]
        rows += [("continue", "first" if first else "second", "behind", PLACES[1])]
        rows += [("goto 0", PLACES[0]), ('do 1 if %s { say "first"; stop }; say "behind"' % written, )]
        rows += [("continue", "first", PLACES[1]) if first else ("continue", "behind", "end", PLACES[11])]
    session(script, PAIRS, [*rows, ("vars", "$n 5", "$u undef", "$z 0")])


# Items, and the line that they say at 5.
SAID = (
    ('"a", 1, "b", -2, 1 / 0, "", $n', "a1b-2undef5"),
    ('""', ""),
    ('" "', " "),
    ('"", ""', ""),
    ('"x" , "y"', "xy"),
    ('"x","y"', "xy"),
    ("1 < 2, 2 < 1", "10"),
    ("(1), (2)", "12"),
    ("-1", "-1"),
    ("- 1, -0", "-10"),
    (LEAST, "-9223372036854775808"),
    (MOST, MOST),
    ("007, 0x10", "716"),
    ("$never", "undef"),
    ('$u, "|", $u + 1', "undef|undef"),
    ("@ping.u32[64], @pong.u32[64]", "11"),
    ('@ping.clock, " ", @pong.clock, " ", @pong.events', "2 4 3"),
    ("sum(@_.events), max(@_.clock)", "54"),
    ("@pong.u8[@ping.u32[64] + 63]", "1"),
    ("$n * $n", "25"),
    ('"$n"', "$n"),
    ('"# no comment"', "# no comment"),
    ('"; stop } else { stop"', "; stop } else { stop"),
    ('"((((", "]"', "((((]"),
    ("\" !#$%&'()*+,-./0123456789:;<=>?@ABCXYZ[\\]^_`abcxyz{|}~\"", " !#$%&'()*+,-./0123456789:;<=>?@ABCXYZ[\\]^_`abcxyz{|}~"),
    (",".join("1" * 200), "1" * 200),
)


def said(script):
    files(script, "what a program says")
    rows = [("set $n 5", ), ("set $u 1 / 0", ), ("break * send", "point 1")]
    for items, line in SAID:
        rows += [("goto 4", PLACES[4]), ("do 1 say %s; stop" % items, ), ("continue", line, PLACES[5])]
    session(script, PAIRS, rows)


# Values of a watchpoint at the positions of ping and pong, of which some are undefined.
UNDEFINED = (
    ("watch 6 / (@pong.events - 2)", "point 1"),
    ("watch @pong.u8[65536 - @pong.events]", "point 2"),
    ('do 1 set $n 1; say "is ", 6 / (@pong.events - 2)', ),
    ("continue", "is -6", "watch 2: undef -> 0", PLACES[2]),
    ('do 2 say "two"', ),
    ("continue", "is undef", "is 6", "is 3", "is 2", "end", PLACES[11]),
    ("goto 1", PLACES[1]),
    ("continue", "is -6", "two", "is undef", "is 6", "is 3", "is 2", "end", PLACES[11]),
    ("do 1 if @pong.events == 2 { stop }", ),
    ("goto 3", PLACES[3]),
    ("continue", PLACES[4]),
    ("do 1 say $n; stop", ),
    ("continue", "1", PLACES[5]),
    ("delete 1", "deleted 1"),
    ("watch 6 / (@pong.events - 2)", "point 3"),
    ("goto 3", PLACES[3]),
    ("continue", "watch 3: -6 -> undef", PLACES[4]),
    ("do 2 stop", ),
    ("continue", "watch 3: undef -> 6", PLACES[5]),
)


def undefined(script):
    files(script, "programs at watchpoints that come to be undefined, and are no more")
    session(script, PAIRS, UNDEFINED)


def node_names(script):
    script.case("programs over processes whose names are words of programs")
    called = ("if", "else", "stop", "say")
    given = [Log(4, p, name, [BEGIN], module="pong") for p, name in enumerate(called)]
    script.file("pong.wasm", script.kept("pong"))
    put(script, given)
    rows = (
        ("break * begin", "point 1"),
        ('do 1 if @if.clock { say "if ", @else.clock, @stop.clock, @say.events } else { stop }', ),
        ("continue", "if 000", "if 100", "if 110", "if 111", "end", "at 4: 1 say 0 begin"),
        ("break stop begin", "point 2"),
        ("do 1 set $stop @stop.clock; if $stop + @say.clock == 1 { stop }", ),
        ("goto 0", "at 0"),
        ("continue", "break 2", "at 3: 1 stop 0 begin"),
        ("do 2 if @set.clock { stop }", NO_NODE),
        ("vars", "$stop 1"),
    )
    session(script, "debug " + " ".join("pong.wasm %s.log" % name for name in called), rows)


def table(script):
    script.title("Programs of the debugger's points")
    for part in (walks, attached, variables, tests, said, undefined, node_names):
        part(script)
