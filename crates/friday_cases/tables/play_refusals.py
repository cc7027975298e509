"""Plays: lines that are refused, why and at which column, and that the play is as it was; words and files."""

from common import FRONT, refused as refusal
from groups import PING, PONG
from modules import Guest, start
from plays import PLAY, PROCESSES, counts, event, opening, pair, playing
from schedules import BAD_ITEMS
from script import USAGE, digits, text, times
from sessions import READ
from shell_refusals import NESTED, NO_NODE, TOO_DEEP, TOO_LONG, filled, syntax

BAD_ITEM = "? 10 bad item"

# A mark stands in front of the byte, or of the token, that is refused; or at the end, where more had to come.
MARKED = (
    # What only the debugger or a schedule has.
    *("^step", "^goto 1", "^back", "^events", "^watch 1", "^break * *", "^delete 1", "^do 1 stop", "^list", "^set $n 1", "^vars", "^continue", "^rcontinue"),
    *("^friday 1", "^process a a.wasm", "^Run 0 0", "^RUN 0 0", "^runs 0 0", "^run0 0", "^run-1", "^run;", '^"run" 0 0', "^0 0 run"),
    *("^foo", " \t ^foo", "^1", "^@ping.clock", "^$n", "^(", "^Quit", "^play", "^processs"),
    *("^\\", "foo ^&", "processes ^~", "print 1 ^# once"),
    *("processes ^1", "processes^;", "processes ^processes", "again ^1", "again^;", "again ^again", "quit ^1", "quit^;", " quit  ^quit"),
    *("threads^", "threads ^", "threads ^@pong", 'threads ^"pong"', "threads ^*", "threads pong ^1", "threads pong^.clock"),
    *("datagram^", "datagram ^", "datagram 0^", "datagram 0 ^", "datagram ^ping 1", "datagram ^2 1", "datagram ^-1 1", "datagram ^0x2 1"),
    *("datagram 0 ^0", "datagram 0 ^00", "datagram 0 ^-1", "datagram 0 ^x", "datagram 0 ^9223372036854775808", "datagram 0 1 ^1", "datagram 0 1^;"),
    *("printed^", "printed ^", "printed pong^", "printed pong ^", "printed pong ^-1", "printed pong ^x", "printed pong ^9223372036854775808"),
    *("printed ^@pong 0", "printed pong 0 ^1"),
    *("print^", "print ^", "print 1 ^2", "print 1 +^", "print (1^", "print @ping.^clack", "print @^*.clock", "print sum^", "print 1 == 1 ^== 1"),
    *("mem^", "mem pong^", "mem pong 64^", "mem pong 64 ^0", "mem pong 64 ^257", "mem pong ^-1 4", "mem pong 64 4 ^5", "mem ^@pong 64 4"),
)

MEANT = (
    ("threads pang", NO_NODE),
    ("threads 0", NO_NODE),
    ("threads quit", NO_NODE),
    ("printed pang 0", NO_NODE),
    ("printed 1 0", NO_NODE),
    ("mem pang 64 4", NO_NODE),
    ("print @pang.clock", NO_NODE),
    ("print @_.clock", NO_NODE),
    ("print 1 || @pang.clock", NO_NODE),
    ("print sum(sum(1))", NESTED),
    ("print count(0 && min(1))", NESTED),
    # The order of the refusals.
    ("print sum(sum(@pang.clock))", NESTED),
    ("print @pang.clock +", syntax(20)),
    ("threads pang ping", syntax(14)),
    ("printed pang -1", syntax(14)),
    ("mem pang 64 0", syntax(13)),
    ("print " + "(" * 64, syntax(71)),
    ("print " + "(" * 65, TOO_DEEP),
    ("print " + "(" * 64 + "1" + ")" * 64, "1"),
    ("print " + "-" * 510 + "1", "1"),
    ("print " + "-" * 511 + "1", TOO_DEEP),
    ("foo " + "(" * 65 + " &", syntax(71)),
    ("foo" + " x" * 512, TOO_DEEP),
)

# The last of them are whole items, and what is behind them is no item's.
ITEMS = (*BAD_ITEMS, "run 0 0 # once", "run 0 0 1 \\", "kill &", 'run "', "deliver 0 1; kill 0", "run\t2 0", "  kill  2", "signal 0 5 5")

# What shows that the play is as it was.
STANDS = (
    ("processes", "ping: 2 events, running", "pong: 1 events, running"),
    ("datagram 0 1", "1 d74c4f4700000000020000000000000001000000"),
)
BEGUN = (
    ("run 0 0 2", event(1, "begin", "ping"), event(2, "send 1 64 4 = 4", "ping"), counts(2)),
    ("run 1 0", event(1, "begin", "pong"), counts(1)),
)


def refused(script, name, rows):
    pair(script, name)
    playing(script, [*BEGUN, *rows, *STANDS, ("deliver 0 1", counts(1)), ("run 1 0", event(3, "recv 64 16 32 = 4", "pong"), counts(1))])


def at_columns(script):
    rows = [(line.replace("^", ""), syntax(line.index("^") + 1)) for line in MARKED]
    refused(script, "lines of a play that are refused at a column", rows)
    refused(script, "lines of a play that are refused for what they mean", MEANT)
    rows = (
        (digits(b"\0") + text("run 0 0"), syntax(1)),
        (text("run 0 0") + digits(b"\0"), BAD_ITEM),
        (text("print ") + digits(b"\xc3\xa4"), syntax(7)),
        (digits(b"\xef\xbb\xbf") + text("run 0 0"), syntax(1)),
        (text("kill ") + digits(b"\xff"), BAD_ITEM),
        (text("# ") + digits(b"\0\xc3\xff"), ),
    )
    refused(script, "zeros and bytes that are no text, in a play", rows)


def bad_items(script):
    script.case("lines of a play that begin as items, and are none")
    script.file("a.wasm", digits(Guest("now").module))
    script.file("s", text(FRONT))
    rows = [(item, syntax(1) if item.startswith("Run") else BAD_ITEM) for item in ITEMS]
    playing(script, [*rows, ("processes", "a: 0 events, running"), ("run 0 0", event(1, "begin"), counts(1)), *rows, ("processes", "a: 1 events, running")])


def longest(script):
    """An item and a line that answers nothing have up to 131,072 bytes, and each other line 4,096."""
    item = "inject 0 "
    rows = (
        (filled("#", 4097, b"-"), ),
        (filled("#", 131072, b"-"), ),
        (filled("#", 131073, b"-"), TOO_LONG),
        (times(131072, b" "), ),
        (times(131073, b" "), TOO_LONG),
        (filled("kill 7", 131072), BAD_ITEM),
        (filled("kill 7", 131073), TOO_LONG),
        (text(item) + times((131072 - len(item)) // 2, b"00"), counts(1)),
        (text(item + " ") + times((131072 - len(item)) // 2, b"00"), counts(1)),
        (text(item + "  ") + times((131072 - len(item)) // 2, b"00"), TOO_LONG),
        (filled("inject 0 00", 131072), counts(1)),
        (filled("inject 0 00", 131072) + text("\r"), counts(1)),
        (filled("inject 0 00", 131073) + text("\r"), TOO_LONG),
        (filled("processes", 4096), *STANDS[0][1:]),
        (filled("processes", 4097), TOO_LONG),
        (filled("foo", 4096, b"o"), syntax(1)),
        (filled("foo", 4097, b"o"), TOO_LONG),
        (filled("quit", 4097), TOO_LONG),
        (times(1000000, b"a"), TOO_LONG),
    )
    refused(script, "long lines of a play", rows)


WORDS = (
    *("play", "play ''", "play -a", "play s s", "play s ping.wasm", "play --images", "play --images s", "play s --images", "play -- s", "play s --"),
    *("Play s", "plays s", "playing s", "s play"),
)


def words(script):
    pair(script, "words of a play that are no command")
    script.input(READ, text("run 0 0\n"))
    for line in WORDS:
        script.run(line, "Usage", USAGE)


def files(script):
    """They are read and refused as by `record`, before anything is asked for."""
    script.case("files of a play that are absent or refused")
    far = start("", '(memory 1) (data (i32.const 65536) "a")')
    for name, module in (("ping.wasm", PING.module), ("pong.wasm", PONG.module), ("far", far)):
        script.file(name, digits(module))
    for schedule, status, said in (
        (None, "Absent", "friday: absent s"),
        ("", *refusal("s", "line 1 BadLine")),
        ("friday 1\n", *refusal("s", "line 2 BadLine")),
        (PROCESSES + "run 0 64\n", *refusal("s", "line 4 BadLine")),
        (PROCESSES + "processes\n", *refusal("s", "line 4 BadLine")),
        (PROCESSES + "run 0 0 1000000\nrun 0 0\n", *refusal("s", "TooMany")),
        ("friday 1\nprocess a x\n", "Absent", "friday: absent x"),
        ("friday 1\nprocess a ping.wasm\nprocess b s\n", *refusal("s", "1 Malformed")),
        ("friday 1\nprocess a far\nprocess b x\n", "Absent", "friday: absent x"),
        ("friday 1\nprocess a ping.wasm\nprocess b far\nrun 0 0\n", *refusal("far", "7 BadSegment")),
    ):
        if schedule is not None:
            script.file("s", text(schedule))
        script.input(READ, text("run 0 0\nfoo\n"))
        # Nothing of the input is read.
        script.fail("input", 1)
        script.run(PLAY, status, said)
    script.file("long", times(16777217, b"\n"))
    script.run("play long", *refusal("long", "TooLarge"))
    for name in ("a", "b", "ping", "pong"):
        script.show(name + ".log", None)
    for call in (1, 2, 3):
        pair(script, "a play, of whose files read %d fails" % call)
        script.input(READ, text("run 0 0\n"))
        script.fail("files", call)
        script.run(PLAY, "ReadFault")
        script.run(PLAY, "Done", opening(), event(1, "begin", "ping"), counts(1))
        # It calls for no file more.
        script.fail("files", 4)
        script.run(PLAY, "Done", opening(), event(1, "begin", "ping"), counts(1))


def table(script):
    script.title("Lines, words and files that a play refuses")
    for part in (at_columns, bad_items, longest, words, files):
        part(script)
