"""Values of expressions with variables: of those that are printed, set, and said by programs."""

from sessions import PAIRS, PLACES, files, session
from shell_values import LEAST, MOST, UNDEF, printed

SET = (("m", MOST), ("l", LEAST), ("u", "1 / 0"), ("z", "0"), ("one", "1"), ("n", "-7"), ("p", "64"), ("big", "4611686018427387904"))

# Their values at 8, where the number at 64 is 2 of ping and 1 of pong.
VALUES = (
    ("$one", "1"),
    ("$n", "-7"),
    ("$m", MOST),
    ("$l", "-9223372036854775808"),
    ("$z", "0"),
    ("$u", UNDEF),
    ("$never", UNDEF),
    ("$One", UNDEF),
    ("$n + $one * $p", "57"),
    ("($n + $one) * $p", "-384"),
    ("$one - $n - $p", "-56"),
    ("$n / 2", "-3"),
    ("$n % 2", "-1"),
    ("$p / $n", "-9"),
    ("$p % $n", "1"),
    ("-$n", "7"),
    ("--$n", "-7"),
    ("!$n", "0"),
    ("!$z", "1"),
    # Out of range, and back again.
    ("$m + $one", UNDEF),
    ("$m - $one + $one", MOST),
    ("$m + $one - $one", UNDEF),
    ("$l - $one", UNDEF),
    ("$l + $m", "-1"),
    ("-$l", UNDEF),
    ("-$m - $one", "-9223372036854775808"),
    ("$l / -$one", UNDEF),
    ("$l % -$one", UNDEF),
    ("$l / $one", "-9223372036854775808"),
    ("$m * $m", UNDEF),
    ("$big * 2", UNDEF),
    ("$big * -2", "-9223372036854775808"),
    ("$one / $z", UNDEF),
    ("$one % $z", UNDEF),
    ("$z / $n", "0"),
    # What is undefined.
    ("$u + $one", UNDEF),
    ("$z * $u", UNDEF),
    ("-$u", UNDEF),
    ("!$u", UNDEF),
    ("$u == $u", UNDEF),
    ("$u != $one", UNDEF),
    ("$u < $one", UNDEF),
    ("$never == $u", UNDEF),
    ("$z && $u", "0"),
    ("$z && $never", "0"),
    ("$u && $z", UNDEF),
    ("$one && $u", UNDEF),
    ("$one || $u", "1"),
    ("$n || $never", "1"),
    ("$u || $one", UNDEF),
    ("$z || $u", UNDEF),
    ("$z || $one && $n", "1"),
    ("$one && $n", "1"),
    ("$one == 1", "1"),
    ("$n < $one", "1"),
    ("$l < $m", "1"),
    ("$n >= $one", "0"),
    # Addresses, and places beside them.
    ("@ping.u32[$p]", "2"),
    ("@ping.u32[$p] + @pong.u32[$p] * 10", "12"),
    ("@ping.u8[$n]", UNDEF),
    ("@ping.u8[$u]", UNDEF),
    ("@ping.u8[$m]", UNDEF),
    ("@pong.u8[@pong.u32[$p] + $p - $one]", "1"),
    ("@ping.clock * 100 + $p", "764"),
    ("$p / @pong.events", "12"),
    # Over all nodes.
    ("sum($n)", "-14"),
    ("sum($z)", "0"),
    ("count($n)", "2"),
    ("count($z)", "0"),
    ("min($n)", "-7"),
    ("max($m)", MOST),
    ("sum($m)", UNDEF),
    ("sum($big)", UNDEF),
    ("sum(-$big)", "-9223372036854775808"),
    ("sum($u)", UNDEF),
    ("count($u)", UNDEF),
    ("max($never)", UNDEF),
    ("sum(@_.u32[$p])", "3"),
    ("max(@_.u32[$p])", "2"),
    ("count(@_.u32[$p] > $one)", "1"),
    ("sum(@_.events * $p)", "512"),
    ("sum(@_.u32[$p]) * $n", "-21"),
    ("sum($z && $u)", "0"),
)


def table(script):
    script.title("Values of expressions with variables")
    files(script, "values of expressions with variables")
    sets = [("set $%s %s" % row, ) for row in SET]
    session(script, PAIRS, [*sets, ("goto 8", PLACES[8]), *printed(VALUES)])
    # What is set has the same value, also in a program that reads it again.
    rows = [*sets, ("break ping recv", "point 1"), ("goto 8", PLACES[8])]
    for written, value in VALUES:
        rows += [("set $r %s" % written, ), ("goto 0", PLACES[0]), ("print $r", value), ("do 1 set $s %s; say %s, \" \", $s; stop" % (written, written), )]
        rows += [("continue", "%s %s" % (value, value), PLACES[8]), ("print $s", value)]
    session(script, PAIRS, rows)
