"""What the expressions of the debugger come to."""

import logs
from modules import start
from pairs import BEGIN, Log, put
from script import digits
from sessions import ALONE, alone, session

MOST, LEAST = "9223372036854775807", "(-9223372036854775807 - 1)"
UNDEF = "undef"

NUMBERS = (
    ("0", "0"),
    ("7", "7"),
    ("007", "7"),
    ("0x10", "16"),
    ("0x0010", "16"),
    ("0xff", "255"),
    ("0xFF", "255"),
    ("0xAbC", "2748"),
    (MOST, MOST),
    ("0000000000000000000000" + MOST, MOST),
    ("0x7fffffffffffffff", MOST),
    ("0x00000000007FFFFFFFFFFFFFFF", MOST),
)

ARITHMETIC = (
    ("1 + 2", "3"),
    ("1+2", "3"),
    ("1 - 2", "-1"),
    ("6 * 7", "42"),
    ("7 / 2", "3"),
    ("-7 / 2", "-3"),
    ("7 / -2", "-3"),
    ("-7 / -2", "3"),
    ("7 % 2", "1"),
    ("-7 % 2", "-1"),
    ("7 % -2", "1"),
    ("-7 % -2", "-1"),
    ("0 % 5", "0"),
    ("5 % 5", "0"),
    ("0 / -5", "0"),
    ("-0", "0"),
    ("- - 3", "3"),
    ("---3", "-3"),
    ("1 - -1", "2"),
    ("1--1", "2"),
    ("1+-1", "0"),
    ("3 -2", "1"),
    ("1 / 0", UNDEF),
    ("0 / 0", UNDEF),
    ("1 % 0", UNDEF),
    ("1 / (2 - 2)", UNDEF),
)

# At both ends of the range, and behind them.
EDGES = (
    (MOST + " + 0", MOST),
    (MOST + " + 1", UNDEF),
    ("1 + " + MOST, UNDEF),
    (MOST + " - -1", UNDEF),
    (MOST + " + 1 - 1", UNDEF),
    (MOST + " - 1 + 1", MOST),
    (LEAST, "-9223372036854775808"),
    (LEAST + " - 1", UNDEF),
    (LEAST + " + -1", UNDEF),
    (LEAST + " + " + MOST, "-1"),
    ("0 - " + MOST, "-" + MOST),
    ("0 - " + LEAST, UNDEF),
    ("-1 - " + LEAST, MOST),
    ("-" + LEAST, UNDEF),
    ("-" + MOST, "-" + MOST),
    (LEAST + " / -1", UNDEF),
    (LEAST + " % -1", UNDEF),
    (LEAST + " / 1", "-9223372036854775808"),
    (LEAST + " % 1", "0"),
    (LEAST + " % 2", "0"),
    (LEAST + " % 3", "-2"),
    (LEAST + " / 2", "-4611686018427387904"),
    (LEAST + " / " + LEAST, "1"),
    (MOST + " / " + LEAST, "0"),
    (MOST + " % " + LEAST, MOST),
    (MOST + " / -1", "-" + MOST),
    (LEAST + " * 1", "-9223372036854775808"),
    (LEAST + " * -1", UNDEF),
    ("-1 * " + LEAST, UNDEF),
    (LEAST + " * 0", "0"),
    ("4611686018427387904 * 2", UNDEF),
    ("4611686018427387904 * -2", "-9223372036854775808"),
    ("4611686018427387903 * 2", "9223372036854775806"),
    ("3037000499 * 3037000499", "9223372030926249001"),
    ("3037000500 * 3037000500", UNDEF),
    (MOST + " * " + MOST, UNDEF),
    (LEAST + " * " + LEAST, UNDEF),
    ("4294967296 * 4294967296", UNDEF),
    ("4294967296 * 2147483647", "9223372032559808512"),
)


def compared(left, right, *holds):
    for sign in ("==", "!=", "<", "<=", ">", ">="):
        yield "%s %s %s" % (left, sign, right), "1" if sign in holds else "0"


COMPARISONS = (
    *compared("1", "2", "!=", "<", "<="),
    *compared("2", "2", "==", "<=", ">="),
    *compared("3", "2", "!=", ">", ">="),
    *compared("-1", "1", "!=", "<", "<="),
    *compared(LEAST, MOST, "!=", "<", "<="),
    *compared(MOST, LEAST, "!=", ">", ">="),
    *((written, UNDEF) for sign in ("==", "!=", "<", "<=", ">", ">=") for written in ("1/0 %s 1" % sign, "1 %s 1/0" % sign, "1/0 %s 1/0" % sign)),
)

LOGIC = (
    ("!0", "1"),
    ("!1", "0"),
    ("!-1", "0"),
    ("!" + LEAST, "0"),
    ("!!5", "1"),
    ("!!!5", "0"),
    ("-!0", "-1"),
    ("!-!0", "0"),
    ("!(1/0)", UNDEF),
    ("-(1/0)", UNDEF),
    ("0 && 0", "0"),
    ("0 && 5", "0"),
    ("5 && 0", "0"),
    ("5 && 7", "1"),
    ("-1 && -1", "1"),
    ("0 || 0", "0"),
    ("0 || 5", "1"),
    ("5 || 0", "1"),
    ("5 || 7", "1"),
    ("0 || -5", "1"),
    # The right side counts only where the left one does not decide.
    ("0 && 1/0", "0"),
    ("1 && 1/0", UNDEF),
    ("1/0 && 0", UNDEF),
    ("1/0 && 1", UNDEF),
    ("1 || 1/0", "1"),
    ("-1 || 1/0", "1"),
    ("0 || 1/0", UNDEF),
    ("1/0 || 1", UNDEF),
    ("1/0 || 0", UNDEF),
    ("0 && 1/0 && 1/0", "0"),
    ("1 && 0 && 1/0", "0"),
    ("0 || 1 || 1/0", "1"),
    ("1 || 1/0 && 1/0", "1"),
    ("(0 && 1/0) + (1 || 1/0)", "1"),
    ("0 && @a.u8[1/0]", "0"),
    # Of all other operators both sides count.
    ("0 * (1/0)", UNDEF),
    ("1/0 + 1", UNDEF),
    ("1 - 1/0", UNDEF),
    ("0 / (1/0)", UNDEF),
    ("1/0 % 2", UNDEF),
)

# What binds tighter, and that operators of one level group from the left.
PRECEDENCE = (
    ("1 + 2 * 3", "7"),
    ("2 * 3 + 1", "7"),
    ("(1 + 2) * 3", "9"),
    ("10 - 2 - 3", "5"),
    ("10 - (2 - 3)", "11"),
    ("10 - 2 + 3", "11"),
    ("100 / 10 / 5", "2"),
    ("100 / (10 / 5)", "50"),
    ("100 / 10 * 5", "50"),
    ("7 % 4 * 2", "6"),
    ("2 * 7 % 4", "2"),
    ("17 % 10 % 4", "3"),
    ("-2 * -3", "6"),
    ("-1 + 2", "1"),
    ("!1 + 1", "1"),
    ("!1 == 0", "1"),
    ("!(1 == 0)", "1"),
    ("1 + 1 == 2", "1"),
    ("2 == 1 + 1", "1"),
    ("1 < 2 + 3", "1"),
    ("3 - 2 > 1 - 1", "1"),
    ("1 == 1 && 2 == 2", "1"),
    ("1 < 2 && 2 < 3", "1"),
    ("2 < 1 || 2 < 3", "1"),
    ("0 && 1 || 1", "1"),
    ("0 && (1 || 1)", "0"),
    ("1 || 1 && 0", "1"),
    ("(1 || 1) && 0", "0"),
    ("0 || 0 && 1", "0"),
    ("1 + 1 && 1", "1"),
    ("(1 < 2) < 3", "1"),
    ("3 > (2 > 1)", "1"),
    ("(1 == 1) == 1", "1"),
    ("((((5))))", "5"),
)

# A variable is `undef`, whatever word it is named by.
VARIABLES = (
    *((written, UNDEF) for written in ("$n", "$ n", "$A", "$7", "$007", "$_", "$if", "$sum", "$clock", "$print", "$n + 1", "-$n", "!$n", "$n == $n", "$n && 0", "$n || 1", "1 && $n", "0 || $n", "sum($n)", "count($n)", "@a.u8[$n]")),
    ("0 && $n", "0"),
    ("1 || $n", "1"),
)

PLAIN = NUMBERS + ARITHMETIC + EDGES + COMPARISONS + LOGIC + PRECEDENCE + VARIABLES

# What stands at 16 and at the end of a page, each load of it, and the globals.
DECLARED = """(memory 1) (data (i32.const 16) "\\81\\82\\83\\84\\85\\86\\87\\88") (data (i32.const 65532) "\\fc\\fd\\fe\\7f")
  (global i32 (i32.const -7)) (global i64 (i64.const 0x8000000000000000)) (global (mut i64) (i64.const 0x7fffffffffffffff))
  (global (mut i32) (i32.const 0x7fffffff))"""
PLACES = (
    ("@a.u8[16]", "129"),
    ("@a.i8[16]", "-127"),
    ("@a.u16[16]", "33409"),
    ("@a.i16[16]", "-32127"),
    ("@a.u32[16]", "2223211137"),
    ("@a.i32[16]", "-2071756159"),
    ("@a.i64[16]", "-8608764254683430271"),
    ("@a.u8[23]", "136"),
    ("@a.u8[24]", "0"),
    ("@a.u16[15]", "33024"),
    ("@a.u32[0x10]", "2223211137"),
    ("@a.u32[4 * 4]", "2223211137"),
    ("@a.u32[-4 + 20]", "2223211137"),
    ("@a.u8[@a.u8[16] - 113]", "129"),
    ("@a.u8[@a.u8[@a.u8[0]] + 16]", "129"),
    (" @ a . u8 [ 16 ] ", "129"),
    ("@a.i32[16] == @a.u32[16] - 4294967296", "1"),
    # The last bytes of memory, and what reaches over them.
    ("@a.u8[65535]", "127"),
    ("@a.i8[65535]", "127"),
    ("@a.u8[65536]", UNDEF),
    ("@a.i8[65536]", UNDEF),
    ("@a.u16[65534]", "32766"),
    ("@a.i16[65534]", "32766"),
    ("@a.u16[65535]", UNDEF),
    ("@a.i16[65535]", UNDEF),
    ("@a.u32[65532]", "2147417596"),
    ("@a.i32[65532]", "2147417596"),
    ("@a.u32[65533]", UNDEF),
    ("@a.i32[65533]", UNDEF),
    ("@a.i64[65528]", "9223088345674940416"),
    ("@a.i64[65529]", UNDEF),
    ("@a.u8[-1]", UNDEF),
    ("@a.u16[-1]", UNDEF),
    ("@a.u8[%s]" % LEAST, UNDEF),
    ("@a.u8[%s]" % MOST, UNDEF),
    ("@a.i64[%s]" % MOST, UNDEF),
    ("@a.u8[4294967296]", UNDEF),
    ("@a.u8[4294967312]", UNDEF),
    ("@a.u8[1/0]", UNDEF),
    ("@a.u8[@a.u8[65536]]", UNDEF),
    ("@a.global[0]", "-7"),
    ("@a.global[1]", "-9223372036854775808"),
    ("@a.global[2]", MOST),
    ("@a.global[3]", "2147483647"),
    ("@a.global[4]", UNDEF),
    ("@a.global[0x3]", "2147483647"),
    ("@a.global[003]", "2147483647"),
    ("@a.global[4294967295]", UNDEF),
    ("@a.global[4294967296]", UNDEF),
    ("@a.global[4294967299]", UNDEF),
    ("@a.global[%s]" % MOST, UNDEF),
    ("@a.clock", "0"),
    ("@a.events", "0"),
    ("@a.size", "1"),
    ("@a.size * 65536 - 1", "65535"),
)

# Three processes: a global of each, and another one of the last alone.
GLOBALS = (("(memory 2) (global i64 (i64.const 0x7fffffffffffffff))"), ("(memory 0) (global i64 (i64.const 1))"), ("(global i64 (i64.const -1)) (global i32 (i32.const 5))"))
AGGREGATES = (
    # The sum is exact: that of the first two is out of range.
    ("sum(@_.global[0])", MOST),
    ("@a.global[0] + @b.global[0] + @c.global[0]", UNDEF),
    ("sum(@_.global[0] - 1)", "9223372036854775804"),
    ("min(@_.global[0])", "-1"),
    ("max(@_.global[0])", MOST),
    ("count(@_.global[0])", "3"),
    ("count(@_.global[0] > 0)", "2"),
    ("count(@_.global[0] + 1)", UNDEF),
    ("count(@_.global[0] - 1)", "2"),
    ("count(0)", "0"),
    ("count(-5)", "3"),
    ("sum(1)", "3"),
    ("min(7)", "7"),
    ("max(-7)", "-7"),
    ("sum(@_.size)", "2"),
    ("min(@_.size)", "0"),
    ("max(@_.size)", "2"),
    ("count(@_.size)", "1"),
    ("count(@_.size == 0)", "2"),
    # One value that is undefined is enough.
    ("sum(@_.global[1])", UNDEF),
    ("min(@_.global[1])", UNDEF),
    ("max(@_.global[1])", UNDEF),
    ("count(@_.global[1])", UNDEF),
    ("sum(1/0)", UNDEF),
    ("sum(@_.u8[0])", UNDEF),
    ("sum(@_.size && @_.u8[0])", "0"),
    ("count(@_.size == 0 || @_.u8[0] == 0)", "3"),
    ("sum(%s)" % MOST, UNDEF),
    ("sum(3074457345618258602)", "9223372036854775806"),
    ("sum(3074457345618258603)", UNDEF),
    ("sum(-3074457345618258602)", "-9223372036854775806"),
    ("sum(-3074457345618258603)", UNDEF),
    # Other nodes may be named in one, and an expression may have several.
    ("sum(@a.size)", "6"),
    ("sum(@_.size + @a.size)", "8"),
    ("sum(@_.size) + sum(1)", "5"),
    ("max(@_.size) - min(@_.size) == 2", "1"),
    ("-sum(1)", "-3"),
    ("!sum(0)", "1"),
    ("sum (1)", "3"),
    ("sum((1) + 1)", "6"),
    ("0 && sum(1/0)", "0"),
    ("@a.u8[sum(1)]", "0"),
    ("@a.u8[sum(65536)]", UNDEF),
    ("sum(@a.u8[@_.size])", "0"),
    ("sum(@_.events) + sum(@_.clock)", "0"),
)


def printed(rows):
    return [("print " + written, value) for written, value in rows]


def plain(script):
    alone(script, "values of expressions", start("", DECLARED), logs.log([]))
    session(script, ALONE, printed(PLAIN))
    session(script, ALONE, printed(PLACES))
    rows = (
        ("print(1)", "1"),
        ("print-1", "-1"),
        ("print!0", "1"),
        ("print@a.size", "1"),
        ("print$n", UNDEF),
        ("\tprint\t1\t+\t1\t", "2"),
    )
    session(script, ALONE, rows)


def aggregates(script):
    script.case("values over all nodes")
    given = [Log(3, p, name, [BEGIN], end="finished", module=name) for p, name in enumerate("abc")]
    for log, declared in zip(given, GLOBALS):
        script.file(log.name + ".wasm", digits(start("", declared)))
    put(script, given)
    session(script, "debug a.wasm a.log b.wasm b.log c.wasm c.log", printed(AGGREGATES))
    # Over fewer logs there are fewer nodes.
    rows = (("sum(1)", "2"), ("sum(@_.global[0])", "0"), ("sum(0 - 4611686018427387904)", "-9223372036854775808"), ("sum(0 - 4611686018427387905)", UNDEF))
    session(script, "debug c.wasm c.log b.wasm b.log", printed(rows))


def table(script):
    script.title("Values of the debugger's expressions")
    for part in (plain, aggregates):
        part(script)
