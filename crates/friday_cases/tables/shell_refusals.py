"""Lines that the debugger refuses: why, at which column, and that the session is as it was."""

from script import digits, text, times
from sessions import PAIRS, PLACES, files, session

NO_NODE, TOO_DEEP, NESTED, NO_POSITION, TOO_LONG = (
    "? 2 no node",
    "? 3 too deep",
    "? 4 nested",
    "? 7 no such position",
    "? 8 line too long",
)


def syntax(column):
    return "? 1 syntax at column %d" % column


# A mark stands in front of the byte, or of the token, that is refused; or at the end, where more had to come.
VERBS = (
    "^foo",
    "  ^foo",
    "\t^foo",
    "^Step",
    "^STEP",
    "^steps",
    "^step1",
    "^goto3",
    "^1",
    "^0x1",
    '^"step"',
    "^@ping.clock",
    "^$n",
    "^(",
    "^)",
    "^;",
    "^{",
    "^== step",
    "foo ^# a comment is a line of its own",
)
BACKS = (
    "back ^x",
    "back ^-1",
    "back ^+1",
    "back ^$n",
    "back ^(1)",
    'back ^"1"',
    "back ^*",
    "back ^0x",
    "back ^0xg",
    "back ^1a",
    "back ^9223372036854775808",
    "back ^0x8000000000000000",
    "back ^100000000000000000000000000000000000000000",
    "back 1 ^2",
    "back 1^;",
    "back 1^+1",
    "\tback  0 ^0",
    "back ^back",
    "^back1",
    "^backs",
    "^Back",
    "^bac",
    "rcontinue ^1",
    "rcontinue ^0",
    "rcontinue^;",
    "rcontinue ^rcontinue",
    "rcontinue ^$n",
    "  rcontinue  ^x",
    "^Rcontinue",
    "^rcontinues",
    "^rcont",
    "^rc",
    "^reverse",
    "^r continue",
)
MOVES = (
    "goto^",
    "goto ^",
    "goto \t ^",
    "goto ^x",
    "goto ^-1",
    "goto ^+1",
    "goto ^$n",
    "goto ^(1)",
    'goto ^"1"',
    "goto ^0x",
    "goto ^0X1",
    "goto ^0xg",
    "goto ^1a",
    "goto ^9223372036854775808",
    "goto ^0x8000000000000000",
    "goto ^100000000000000000000000000000000000000000",
    "goto 1^+1",
    "goto 1 ^2",
    "goto 99 ^2",
    "step ^x",
    "step ^-1",
    "step ^9223372036854775808",
    "step 1 ^2",
    "step 1^;",
    "quit ^1",
    "quit ^quit",
    "quit^;",
    "  quit  ^x",
)
SHOWS = (
    "events ^0",
    "events ^00",
    "events ^1001",
    "events ^0x3e9",
    "events ^-1",
    "events ^x",
    "events ^9223372036854775808",
    "events 1 ^2",
    "mem^",
    "mem ^",
    "mem pong^",
    "mem pong ^",
    "mem pong 64^",
    "mem pong 64 ^",
    "mem pong 64 ^0",
    "mem pong 64 ^257",
    "mem pong 64 ^-1",
    "mem pong 64 ^x",
    "mem pong 64 4 ^5",
    "mem pong ^-1 4",
    "mem pong ^x 4",
    "mem pong ^(64) 4",
    "mem pong ^9223372036854775808 4",
    "mem 64 4^",
    "mem ^@pong 64 4",
    "mem ^(pong) 64 4",
    "mem ^$pong 64 4",
    "mem pong^.64 4",
    "threads^",
    "threads ^",
    "threads ^@pong",
    'threads ^"pong"',
    "threads ^*",
    "threads pong ^ping",
    "threads pong^.",
)
EXPRESSIONS = (
    "print^",
    "print ^",
    "print 1 +^",
    "print 1 + ^",
    "print ^+ 1",
    "print 1 + ^+ 1",
    "print ^* 1",
    "print 1 * ^/ 2",
    "print 1 ^2",
    "print 1 ^x",
    "print ^x",
    "print -^",
    "print !^",
    "print - ^)",
    "print ^)",
    "print (^",
    "print (^)",
    "print (1^",
    "print (1 ^2)",
    "print (1)^)",
    "print ((1)^",
    "print ^[1]",
    "print ^{1}",
    "print 1^;",
    "print 1^, 2",
    "print 1 ^!",
    "print 1 ^!! 2",
    "print 1 <^> 2",
    'print ^"1"',
    'print 1 ^"1"',
    'print 1 + ^""',
    'print ^"&~"',
    # What does not chain.
    "print 1 < 2 ^< 3",
    "print 1 == 1 ^== 1",
    "print 1 < 2 ^== 1",
    "print 1 != 2 ^>= 1",
    "print (1 < 2 ^< 3)",
    "print 1 <= 2 && 2 <= 3 ^<= 4",
    # Numbers.
    "print ^9223372036854775808",
    "print ^0x8000000000000000",
    "print -^9223372036854775808",
    "print ^0x",
    "print ^0X1",
    "print ^0xg",
    "print ^1a",
    "print ^1_000",
    "print 1^.5",
    # Variables and aggregates.
    "print $^",
    "print $ ^+",
    "print $^$n",
    'print $^"n"',
    "print $n ^n",
    "print sum^",
    "print sum ^+ 1",
    "print sum(^",
    "print sum(^)",
    "print sum(1^",
    "print sum(1^, 2)",
    "print sum ^1",
    "print sum^[1]",
    "print ^avg(1)",
    "print ^Sum(1)",
    "print ^sums(1)",
    "print count(1) ^count(1)",
    # Places of a node.
    "print @^",
    "print @ ^",
    "print @^@ping.clock",
    'print @^"ping".clock',
    "print @^(ping).clock",
    "print @ping^",
    "print @ping ^clock",
    "print @ping.^",
    "print @ping.^x",
    "print @ping.^5",
    "print @ping^[64]",
    "print @ping.^u64[64]",
    "print @ping.^U8[64]",
    "print @ping.^i128[64]",
    "print @ping.u8^",
    "print @ping.u8 ^64",
    "print @ping.u8^(64)",
    "print @ping.u8[^",
    "print @ping.u8[^]",
    "print @ping.u8[64^",
    "print @ping.u8[64^)",
    "print @ping.u8[64 ^65]",
    "print @ping.u8[64]^[0]",
    "print @ping.global^",
    "print @ping.global ^0",
    "print @ping.global[^",
    "print @ping.global[^]",
    "print @ping.global[^-1]",
    "print @ping.global[^x]",
    "print @ping.global[^$n]",
    "print @ping.global[^(0)]",
    "print @ping.global[0^",
    "print @ping.global[0^+0]",
    "print @ping.global[^9223372036854775808]",
    "print @ping.clock^[0]",
    "print @ping.clock ^()",
    "print @ping.clock^.clock",
    "print @ping.size ^ping",
    "print @ping.events^@ping.events",
)
# Bytes that begin no token are refused before all the rest.
BYTES = (
    "^&",
    "foo ^&",
    "foo ^& bar ~",
    "step ^| 1",
    "print 1 ^& 2",
    "print 1 ^| 2",
    "print 1 &&^& 2",
    "print 1 ^= 2",
    "print 1 ==^= 2",
    "print 1 ^=! 2",
    "print 1 <=^= 2",
    "print ^~1",
    "print ^#1",
    "print 1 ^# x",
    "print ^'1'",
    "print ^`1`",
    "print ^?",
    "print 1 ^: 2",
    "print ^\\1",
    "goto x ^&",
    "goto 99 ^&",
    "print sum(sum(1)) ^&",
    "print @pang.clock ^&",
    # A string that does not end, or has another byte than those from a space to `~`.
    'print ^"',
    'print ^"1',
    'print "1" ^"',
    'print "1"^"1',
    'print ^"\t"',
    'print ^"\x7f"',
    # Blanks are spaces and tabs.
    "print ^\x0b1",
    "print ^\x0c1",
    "step^\r1",
    "print 1^\r ",
    "^\rstep",
    "^\x7fstep",
)


def marked(written):
    """A line, and what it is answered, from its marked form."""
    assert written.count("^") == 1
    return written.replace("^", ""), syntax(written.index("^") + 1)


def unchanged(rows):
    """After each of these lines the session stands where it stood."""
    for row in rows:
        yield row
        yield "step 0", PLACES[4]


def refused(script, name, rows):
    files(script, "lines that are refused: " + name)
    rows = [("goto 4", PLACES[4]), *unchanged(rows), ("mem pong 64 4", "01000000"), ("step", PLACES[5])]
    session(script, PAIRS, rows)


def at_columns(script):
    for name, rows in (
        ("words in front", VERBS),
        ("lines that move", MOVES),
        ("lines that go back", BACKS),
        ("lines that show", SHOWS),
        ("expressions", EXPRESSIONS),
        ("bytes that begin no token", BYTES),
    ):
        refused(script, name, map(marked, rows))
    refused(script, "the sign that is the mark above", (("^", syntax(1)), ("print 1 ^ 2", syntax(9)), ("print ^", syntax(7))))


def other_bytes(script):
    rows = (
        (digits(b"\0"), syntax(1)),
        (text("print ") + digits(b"\0"), syntax(7)),
        (text("print 1") + digits(b"\0"), syntax(8)),
        (text("print ") + digits(b"\xc3\xa4"), syntax(7)),
        (text('print "') + digits(b"\xc3\xa4") + text('"'), syntax(7)),
        (digits(b"\xff"), syntax(1)),
        (digits(b"\x80"), syntax(1)),
        (digits(b"\xef\xbb\xbf") + text("step"), syntax(1)),
        (digits(b"\xc2\xa0") + text("step"), syntax(1)),
        (text("step ") + digits(b"\xfe"), syntax(6)),
        # In a comment they are passed over.
        (text("# ") + digits(b"\0\xc3\xff"), ),
    )
    refused(script, "zeros and bytes that are no text", rows)


MEANT = (
    ("threads pang", NO_NODE),
    ("threads 5", NO_NODE),
    ("threads _", NO_NODE),
    ("threads Ping", NO_NODE),
    ("threads pin", NO_NODE),
    ("threads pingx", NO_NODE),
    ("threads quit", NO_NODE),
    ("mem pang 64 4", NO_NODE),
    ("mem _ 64 4", NO_NODE),
    ("mem pang 9223372036854775807 256", NO_NODE),
    ("print @pang.clock", NO_NODE),
    ("print @5.clock", NO_NODE),
    ("print @0x10.clock", NO_NODE),
    ("print @pang.u8[0]", NO_NODE),
    ("print @pang.global[0]", NO_NODE),
    ("print @pang.events", NO_NODE),
    ("print @pang.size", NO_NODE),
    ("print @ping.u8[@pang.size]", NO_NODE),
    ("print 0 && @pang.clock", NO_NODE),
    ("print 1 || @pang.clock", NO_NODE),
    ("print -@pang.clock", NO_NODE),
    ("print sum(@pang.clock)", NO_NODE),
    ("print @_.clock", NO_NODE),
    ("print 1 + @_.u8[0]", NO_NODE),
    ("print sum(1) + @_.clock", NO_NODE),
    ("print @ping.u8[@_.size]", NO_NODE),
    ("print sum(sum(1))", NESTED),
    ("print sum(1 + count(2))", NESTED),
    ("print min(-max(1))", NESTED),
    ("print max((min(1)))", NESTED),
    ("print count(0 && sum(1))", NESTED),
    ("print count(!sum(1))", NESTED),
    ("print sum(@_.u8[sum(1)])", NESTED),
    ("print sum(1) + sum(sum(1))", NESTED),
    # The order of the refusals.
    ("print sum(sum(@pang.clock))", NESTED),
    ("print @pang.clock + sum(sum(1))", NESTED),
    ("print sum(sum(1)) + @_.clock", NESTED),
    ("mem pang 64 0", syntax(13)),
    ("threads pang ping", syntax(14)),
    ("print @pang.clock +", syntax(20)),
    ("print @pang.clack", syntax(13)),
    ("print sum(sum(1)) 1", syntax(19)),
    ("print sum(sum(1)", syntax(17)),
    ("goto 12", NO_POSITION),
    ("goto 9223372036854775807", NO_POSITION),
    ("goto 0xc", NO_POSITION),
)

ONES = "+".join("1" * 256)
DEEP = (
    # 512 tokens, and 513.
    ("print " + ONES, "256"),
    ("print -" + ONES, TOO_DEEP),
    ("print " + "-" * 510 + "1", "1"),
    ("print " + "-" * 511 + "1", TOO_DEEP),
    ("print " + "!" * 510 + "7", "1"),
    ("foo" + " x" * 511, syntax(1)),
    ("foo" + " x" * 512, TOO_DEEP),
    ("foo" + " x" * 512 + " &", syntax(1029)),
    # 64 brackets, and 65.
    ("print " + "(" * 64 + "1" + ")" * 64, "1"),
    ("print " + "(" * 65 + "1" + ")" * 65, TOO_DEEP),
    ("print " + "(" * 65, TOO_DEEP),
    ("print " + "(" * 64, syntax(71)),
    ("print " + "(" * 63 + "@pong.u8[64]" + ")" * 63, "1"),
    ("print " + "(" * 64 + "@pong.u8[64]" + ")" * 64, TOO_DEEP),
    ("print " + "@pong.u8[" * 64 + "64" + "]" * 64, "0"),
    ("print " + "@pong.u8[" * 65 + "64" + "]" * 65, TOO_DEEP),
    ("print " + "sum(" * 64 + "1" + ")" * 64, NESTED),
    ("print " + "sum(" * 65 + "1" + ")" * 65, TOO_DEEP),
    ("print " + "+".join(["(1)"] * 100), "100"),
    ("print " + "1-(" * 64 + "1" + ")" * 64, "1"),
    ("{" * 65, TOO_DEEP),
    ("{" * 64, syntax(1)),
    ("[" * 65, TOO_DEEP),
    ("([{" * 22, TOO_DEEP),
    ("([{" * 21 + "(", syntax(1)),
    ("(]" * 100, syntax(1)),
    # There are never fewer open than none.
    (")" * 10 + "(" * 64, syntax(1)),
    (")" * 10 + "(" * 65, TOO_DEEP),
    ("foo " + "(" * 65, TOO_DEEP),
    ("foo " + "(" * 65 + " &", syntax(71)),
    ("print " + "(" * 65 + " ~", syntax(73)),
)


def meant(script):
    refused(script, "nodes, nesting and positions", MEANT)
    refused(script, "many tokens and open brackets", DEEP)


def filled(front, size, byte=b" "):
    """A line that begins so, up to a size."""
    return text(front) + times(size - len(front), byte)


LONG = (
    (times(4096, b" "), ),
    (times(4097, b" "), TOO_LONG),
    (times(4096, b"\t"), ),
    (filled("#", 4096, b"x"), ),
    (filled("#", 4097, b"x"), TOO_LONG),
    (filled("print 1", 4096), "1"),
    (filled("print 1", 4097), TOO_LONG),
    (filled("print 1", 4095) + text("x"), syntax(4096)),
    (filled("print", 4096), syntax(4097)),
    (filled("print ", 4096, b"0"), "0"),
    (filled("print ", 4097, b"0"), TOO_LONG),
    (times(4096, b"a"), syntax(1)),
    (times(4097, b"a"), TOO_LONG),
    (times(4097, b"\0"), TOO_LONG),
    (times(4097, b"("), TOO_LONG),
    (times(4096, b"("), TOO_DEEP),
    (filled("quit", 4097), TOO_LONG),
    (filled("print 1", 4096) + text("\r"), "1"),
    (filled("print 1", 4097) + text("\r"), TOO_LONG),
    (filled("print 1", 4095) + text("\r\r"), syntax(4096)),
    (times(100000, b"a"), TOO_LONG),
    (times(1000000, b" "), TOO_LONG),
)


def long_lines(script):
    refused(script, "4,097 bytes and more", LONG)
    # In reads of each size in which such a line can be cut.
    for piece in (1, 4095, 4096, 4097, 5000, 1000000):
        session(script, PAIRS, LONG[:-1], piece)


def table(script):
    script.title("Lines that the debugger refuses")
    for part in (at_columns, other_bytes, meant, long_lines):
        part(script)
