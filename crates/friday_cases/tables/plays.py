"""Plays: what each item answers, what is shown of the group as it is, and that no file is made."""

from itertools import chain

import logs
from common import FRONT, summary
from groups import PING, PONG, SCHEDULE, SUMMARY, TO_ALL, shown, log, one
from modules import Guest, LEAST, start
from schedules import SLEEPER
from script import digits, text
from sessions import PLACES, READ, lines_of
from threads import NOTED, calls, guest

PLAY = "play s"
PROCESSES = "".join(line + "\n" for line in SCHEDULE.split("\n")[:3])
ITEMS = [line for line in SCHEDULE.split("\n")[3:] if line and not line.startswith("#")]
FULL = "? 12 full"


def counts(acted, idle=0):
    return "%d acted, %d idle" % (acted, idle)


def opening(acted=0, idle=0):
    return "items: " + counts(acted, idle)


def event(clock, written, name="a", thread=0):
    """An event in its written form, as it is told."""
    return "%d %s %d %s" % (clock, name, thread, written)


def happened(position):
    """The event at this position of ping and pong."""
    return PLACES[position].partition(": ")[2]


def playing(script, rows, first=opening(), piece=READ):
    """The lines of these rows are answered as they say, to the end of the input."""
    script.input(piece, lines_of(rows))
    script.run(PLAY, "Done", first, *chain.from_iterable(said for _, *said in rows))


def pair(script, name, items=""):
    """A case with ping and pong, and a schedule of these items."""
    script.case(name)
    for module in (PING, PONG):
        script.file("ping.wasm" if module is PING else "pong.wasm", digits(module.module))
    script.file("s", text(PROCESSES + items))


def alone(script, name, module, rows, items="", first=opening()):
    """A case with one process, whose play is answered so."""
    script.case(name)
    script.file("a.wasm", digits(module))
    script.file("s", text(FRONT + items))
    playing(script, rows, first)
    script.show("a.log", None)


# ---- ping and pong

# The items of their schedule, with the events that each makes, by their places in the order of the group.
DONE = (
    ((1, 3), 2, 0),
    ((2,), 1, 0),
    ((), 1, 0),
    ((), 1, 0),
    ((4, 5, 6, 7), 4, 0),
    ((), 1, 0),
    ((8, 9), 2, 0),
    ((), 1, 0),
    ((10, 11), 2, 0),
    ((), 0, 1),
    ((), 1, 0),
)
ROWS = [(item, *map(happened, places), counts(acted, idle)) for item, (places, acted, idle) in zip(ITEMS, DONE)]
WHOLE = opening(sum(acted for _, acted, _ in DONE), sum(idle for *_, idle in DONE))


def datagram(to, sender, clock, number):
    """A datagram of a number, with its tag."""
    return "%d d74c4f47%s%s%s" % (to, sender.to_bytes(4, "little").hex(), clock.to_bytes(8, "little").hex(), number.to_bytes(4, "little").hex())


SENT = [
    ("datagram 0 1", datagram(1, 0, 2, 1)),
    ("datagram 0 2", datagram(1, 0, 8, 2)),
    ("datagram 0 3", datagram(1, 0, 10, 3)),
    ("datagram 0 4", "none"),
    ("datagram 1 1", datagram(0, 1, 4, 1)),
    ("datagram 1 2", datagram(0, 1, 6, 1)),
    ("datagram 1 3", "none"),
    ("datagram 1 9223372036854775807", "none"),
]
STANDS = [
    ("processes", *SUMMARY[:2]),
    ("threads ping", "ping running", "0 at recv 128 4 32"),
    ("threads pong", "pong killed"),
    ("print @ping.clock * 100 + @pong.clock", "1006"),
    ("print sum(@_.events)", "11"),
    ("mem ping 64 4", "03000000"),
    # A killed process is shown as it was then.
    ("mem pong 64 4", "01000000"),
]


def ping_and_pong(script):
    """By their lines, and as a file, with a play of the rest in each place."""
    assert WHOLE == SUMMARY[2] and len(DONE) == len(ITEMS)
    pair(script, "ping and pong, played by the items of their schedule")
    playing(script, [*ROWS, *SENT, *STANDS])
    shown(script, None, None)
    for at in range(1, len(ITEMS) + 1):
        own = DONE[:at]
        script.file("s", text(PROCESSES + "".join(item + "\n" for item in ITEMS[:at])))
        first = opening(sum(acted for _, acted, _ in own), sum(idle for *_, idle in own))
        playing(script, [*ROWS[at:], *SENT, *STANDS], first)
    # Recorded, the file has these events.
    script.run("record s", "Done", *SUMMARY)
    shown(script, log(0, 6), log(1, 5))


def each_moment(script):
    """What is shown after each item, and that showing it changes nothing."""
    pair(script, "ping and pong, shown after each item")
    events, rows = {"ping": 0, "pong": 0}, []
    for row in ROWS:
        for told in row[1:-1]:
            events[told.split()[1]] += 1
        ends = "running", "killed" if row[0] == "kill 1" else "running"
        shows = [("processes", *("%s: %d events, %s" % (name, count, end) for (name, count), end in zip(events.items(), ends)))]
        shows += [("print @%s.events" % name, str(count)) for name, count in events.items()]
        rows += [row, *shows]
    playing(script, rows)


def again(script):
    pair(script, "a play that begins again, whose file has no items")
    back = ("again", opening())
    begun = "ping: 0 events, running", "pong: 0 events, running"
    before = [("processes", *begun), ("datagram 0 1", "none"), ("threads pong", "pong running", "0 at begin")]
    playing(script, [back, *ROWS, back, *before, *ROWS, *SENT, back, back, *before, *ROWS[:5], SENT[0]])
    pair(script, "a play that begins again, whose file has items", "".join(item + "\n" for item in ITEMS[:5]))
    first = opening(9)
    back, stands = ("again", first), ("processes", "ping: 2 events, running", "pong: 5 events, running")
    playing(script, [back, *ROWS[5:], *STANDS, back, stands, *ROWS[5:], *SENT], first)


# ---- one process

PRINTS = start(
    "(drop (call $print (i32.const 1) (i32.const 5))) (drop (call $print (i32.const 0) (i32.const 0)))"
    "(drop (call $print (i32.const -1) (i32.const 1))) (drop (call $print (i32.const 3) (i32.const 2)))",
    '(import "liblog" "print" (func $print (param i32 i32) (result i32))) (memory 1) (data (i32.const 1) "hello")',
)


def printed(script):
    rows = [
        ("printed a 0", "-"),
        ("printed a 1", "-"),
        ("run 0 0", event(1, "begin"), counts(1)),
        ("printed a 0", "-"),
        ("run 0 0 2", event(2, "print 1 5 = 5"), event(3, "print 0 0 = 0"), counts(2)),
        ("printed a 0", "68656c6c6f"),
        ("run 0 0 3", event(4, "print -1 1 = -1"), event(5, "print 3 2 = 2"), counts(2, 1)),
        ("printed a 0", "68656c6c6f6c6c"),
        ("printed a 4", "6f6c6c"),
        ("printed a 0x6", "6c"),
        ("printed a 7", "-"),
        ("printed a 8", "-"),
        ("printed a 9223372036854775807", "-"),
        ("threads a", "a finished"),
        ("again", opening()),
        ("printed a 0", "-"),
    ]
    alone(script, "what a process printed", PRINTS, rows)


def threads(script):
    rows = [
        ("run 0 1", counts(0, 1)),
        ("run 0 0 3", event(1, "begin"), event(2, "spawn 0 7 = 1"), counts(2, 1)),
        ("threads a", "a running", "0 at join 1", "1 at begin"),
        ("run 0 2", counts(0, 1)),
        ("run 0 1 3", event(3, "begin", thread=1), event(4, "note 7", thread=1), counts(2, 1)),
        ("threads a", "a running", "0 at join 1", "1 ended"),
        ("run 0 1", counts(0, 1)),
        ("run 0 0 4", event(5, "join 1 = 0"), counts(1, 3)),
        ("threads a", "a finished"),
        ("processes", "a: 5 events, finished"),
        ("kill 0", counts(0, 1)),
        ("inject 0 00", counts(1)),
    ]
    alone(script, "threads in a play", guest(calls("spawn 0 7", "join 1"), NOTED), rows)
    rows = [
        ("run 0 0 3", event(1, "begin"), event(2, "spawn 0 0 = 1"), event(3, "lock 5 = 0"), counts(3)),
        ("run 0 1 2", event(4, "begin", thread=1), counts(1, 1)),
        ("threads a", "a running", "0 at unlock 5", "1 at lock 5"),
        ("run 0 0", event(5, "unlock 5 = 0"), counts(1)),
        ("run 0 1", event(6, "lock 5 = 0", thread=1), counts(1)),
        ("processes", "a: 6 events, finished"),
    ]
    alone(script, "a lock in a play", guest(calls("spawn 0 0", "lock 5", "unlock 5"), calls("lock 5")), rows)


def signals(script):
    rows = [
        ("run 0 0 3", event(1, "begin"), event(2, "on_signal 5 0 = 0"), event(3, "on_signal 3 0 = 0"), counts(3)),
        *(("signal 0 %d" % signal, counts(1)) for signal in (7, 5, 3, 5)),
        ("run 0 0", event(4, "yield ! 3"), counts(1)),
        ("threads a", "a running", "0 at note 3"),
        ("run 0 0 5", event(5, "note 3 ! 5"), event(6, "note 5"), event(7, "yield"), event(8, "yield"), counts(4, 1)),
        ("signal 0 3", counts(1)),
        ("processes", "a: 8 events, finished"),
    ]
    alone(script, "signals in a play", guest(calls("on_signal 5 0", "on_signal 3 0", "yield", "yield", "yield"), NOTED), rows)


def worlds(script):
    """What comes from outside: times, random bytes and datagrams."""
    rows = [
        ("run 0 0 2", event(1, "begin"), counts(1, 1)),
        ("clock 0 99", counts(1)),
        ("run 0 0", counts(0, 1)),
        ("clock 0 100", counts(1)),
        ("run 0 0 2", event(2, "sleep_until 100 = 100"), event(3, "note 100"), counts(2)),
        ("clock 0 -9223372036854775808", counts(1)),
        ("run 0 0", counts(0, 1)),
        ("clock 0 -5", counts(1)),
        ("run 0 0 4", event(4, "sleep_until -5 = -5"), event(5, "note -5"), event(6, "now = -5"), counts(3, 1)),
    ]
    alone(script, "times in a play", SLEEPER.module, rows)
    rows = [
        ("run 0 0 2", event(1, "begin"), counts(1, 1)),
        ("random 0 0A", counts(1)),
        ("run 0 0", counts(0, 1)),
        ("random 0 -", counts(1)),
        ("random 0 ff0b", counts(1)),
        ("run 0 0", event(2, "random 0 2 = 2"), counts(1)),
        ("mem a 0 2", "0aff"),
        ("run 0 0 4", event(3, "random 0 0 = 0"), event(4, "random 65536 1 = -1"), event(5, "random 0 1 = 1"), counts(3, 1)),
        ("mem a 0 2", "0bff"),
    ]
    alone(script, "random bytes in a play", Guest("drawer").module, rows)
    rows = [
        ("run 0 0 3", event(1, "begin"), event(2, "try_recv 64 3 32 = -2"), counts(2, 1)),
        *((item, counts(1)) for item in ("inject 0 0102030405", "inject 0 0708", "inject 0 01020304")),
        ("datagram 0 1", "none"),
        ("run 0 0", event(3, "recv 64 3 32 = 3"), counts(1)),
        ("mem a 64 3", "010203"),
        ("run 0 0 5", event(4, "recv 64 0 32 = 0"), event(5, "recv 65533 4 32 = -1"), event(6, "recv 65532 4 32 = 4"), counts(3, 2)),
        ("mem a 65532 4", "01020304"),
    ]
    alone(script, "datagrams from outside in a play", Guest("taker").module, rows)
    takes = "(drop (call $recv (i32.const 4094) (i32.const 8) (i32.const 4092)))"
    taker = start(takes * 2, '(import "liblog" "recv" (func $recv (param i32 i32 i32) (result i32))) (memory 1)')
    rows = [
        ("run 0 0", event(1, "begin"), counts(1)),
        ("inject 0 d74c4f470000000005000000000000006162636465", counts(1)),
        ("inject 0 6162636465", counts(1)),
        ("run 0 0", event(6, "recv 4094 8 4092 = 5"), counts(1)),
        ("mem a 4092 8", "0000000063646500"),
        ("run 0 0", event(7, "recv 4094 8 4092 = 5"), counts(1)),
        ("mem a 4092 8", "ffffffff63646500"),
    ]
    alone(script, "a sender's number that lies over the payload, and over an edge of pages", taker, rows)
    rows = [
        ("run 0 0", event(1, "begin"), counts(1)),
        ("inject 0 6869", counts(1)),
        ("run 0 0 3", event(2, "recv 64 16 32 = 2"), event(3, "send -1 64 2 = 2"), counts(2, 1)),
        # A datagram to a process that the group has not is sent out of it.
        ("datagram 0 1", "none"),
        ("deliver 0 1", counts(0, 1)),
    ]
    assert TO_ALL == 2**32 - 1
    alone(script, "a datagram that leaves the group", PONG.module, rows)


def endings(script):
    """Each way in which a process ends, and kills."""
    trap = start("(call $note (i64.const 1)) unreachable", '(import "liblog" "note" (func $note (param i64)))')
    for name, module, events, end in (
        ("finished", LEAST, ["begin"], "finished"),
        ("exited", Guest("asker").module, ["begin", "me = 0", "thread = 0", "sleep_until 10 = 10", "yield", "exit 3"], "exited 3"),
        ("trapped", trap, ["begin", "note 1"], "trapped unreachable"),
    ):
        told = [event(clock, written) for clock, written in enumerate(events, 1)]
        rows = [
            ("clock 0 10", counts(1)),
            ("run 0 0 9", *told, counts(len(told), 9 - len(told))),
            ("processes", "a: %d events, %s" % (len(told), end)),
            ("threads a", "a " + end),
            ("kill 0", counts(0, 1)),
            ("print @a.events", str(len(told))),
        ]
        alone(script, "a process that " + name, module, rows)
    rows = [
        ("kill 0", counts(1)),
        ("kill 0", counts(0, 1)),
        ("threads a", "a killed"),
        ("processes", "a: 0 events, killed"),
        ("run 0 0 3", counts(0, 3)),
        ("signal 0 5", counts(1)),
        ("print @a.clock", "0"),
    ]
    alone(script, "a process that is killed before its first event", LEAST, rows)


VALUES = (
    ("print 1 + 2 * 3", "7"),
    ("print 1 / 0", "undef"),
    ("print $n", "undef"),
    ("print $n == $n", "undef"),
    ("print 0 && $n", "0"),
    ("print 1 || $n", "1"),
    ("print 0 || $n", "undef"),
    ("print @a.size", "1"),
    ("print @a.u8[1] - @a.u16[4]", str(ord("h") - ord("l") - 256 * ord("o"))),
    ("print @a.u8[-1]", "undef"),
    ("print @a.u8[65536]", "undef"),
    ("print @a.global[0]", "-7"),
    ("print @a.global[1]", "undef"),
    ("print min(@_.events) + max(@_.events) + count(1)", "1"),
    ("mem a 0 8", "0068656c6c6f0000"),
    ("mem a 65535 1", "00"),
    ("mem a 65535 2", "undef"),
    ("mem a 9223372036854775807 256", "undef"),
)


def values(script):
    declared = '(memory 1) (global i64 (i64.const -7)) (data (i32.const 1) "hello")'
    alone(script, "values and memory in a play", start("", declared), VALUES)


# ---- a log that is full

# So many prints of 60,000 bytes have room behind `begin`.
ROOM = 559


def prints(first, last):
    return [event(at + 1, "print 0 60000 = 60000" if at else "begin") for at in range(first, last + 1)]


def full(script):
    module = Guest("printer").module
    told = prints(0, ROOM)
    rows = [
        ("run 0 0 %d" % ROOM, *told[:-1], counts(ROOM)),
        ("clock 0 1", counts(1)),
        ("run 0 0 7", told[-1], "full a"),
        ("run 0 0", FULL),
        ("clock 0 1", FULL),
        ("kill 0", FULL),
        ("deliver 0 1", FULL),
        ("run 0 0 %d" % (10**6 - ROOM - 6), "? 11 too many tries"),
        ("run 0 0 %d" % (10**6 - ROOM - 7), FULL),
        ("run 1 0", "? 10 bad item"),
        ("processes", "a: %d events, running" % len(told)),
        ("threads a", "a running", "0 at print 0 60000"),
        ("printed a %d" % (ROOM * 60000 - 2), "0000"),
        ("again", opening()),
        ("run 0 0", told[0], counts(1)),
    ]
    alone(script, "a log that is full in a play", module, rows)
    one(script, "a log that the items of a play's file fill", "printer", "clock 0 1\nrun 0 0 1000\n")
    script.input(READ, text("run 0 0\n"))
    script.run(PLAY, "Refused", "friday: refused s: item 2 LogFull")
    script.show("a.log", None)
    one(script, "a log that the items of a play's file fill but for an event", "printer", "run 0 0 %d\n" % len(told))
    playing(script, [("run 0 0", "full a"), ("run 0 0", FULL), ("again", opening(len(told))), ("run 0 0", "full a")], opening(len(told)))
    script.case("a log that is full in a play of two processes: the other one makes no event either")
    script.file("a.wasm", digits(module))
    script.file("least.wasm", digits(LEAST))
    script.file("s", text("friday 1\nprocess b least.wasm\nprocess a a.wasm\nrun 1 0 %d\n" % len(told)))
    first = opening(len(told))
    full_now = ("run 1 0 2", "full a")
    ended = ("run 0 0", event(1, "begin", "b"), counts(1))
    playing(script, [full_now, ("run 0 0", FULL), ("kill 0", FULL), ("again", first), ended, full_now, ("threads b", "b finished")], first)


def most_tries(script):
    now = Guest("now").module
    noted = event(1, "begin"), event(2, "now = 0"), event(3, "note 0")
    rows = [
        ("run 0 0 1000000", *noted, counts(3, 999997)),
        ("run 0 0", "? 11 too many tries"),
        ("clock 0 1", counts(1)),
        ("run 0 1 1000000", "? 11 too many tries"),
        ("run 0 64", "? 10 bad item"),
        ("again", opening()),
        ("run 0 1 999999", counts(0, 999999)),
        ("run 0 0 2", "? 11 too many tries"),
        ("run 0 0", noted[0], counts(1)),
        ("run 0 0", "? 11 too many tries"),
    ]
    alone(script, "as many tries as a play may have", now, rows)
    first = opening(3, 599997)
    rows = [
        ("run 0 0 400001", "? 11 too many tries"),
        ("run 0 0 400000", counts(0, 400000)),
        ("run 0 0", "? 11 too many tries"),
        ("again", first),
        ("run 0 0", counts(0, 1)),
    ]
    alone(script, "tries of a play's file, which count", now, rows, "run 0 0 600000\n", first)


def recorded(script):
    """What was played is recorded: the same events, ends and counts."""
    begun = [
        ("run 0 0 2", event(1, "begin"), counts(1, 1)),
        ("clock 0 99", counts(1)),
        ("run 0 0", counts(0, 1)),
        ("clock 0 100", counts(1)),
        ("run 0 0 2", event(2, "sleep_until 100 = 100"), event(3, "note 100"), counts(2)),
    ]
    alone(script, "a play and its recording", SLEEPER.module, [*begun, ("processes", "a: 3 events, running")])
    script.file("s", text(FRONT + "".join(line + "\n" for line, *_ in begun)))
    script.run("record s", "Done", *summary(3, "running", 5, 2))
    script.show("a.log", logs.log(["sleep_until 100 = 100", "note 100"]))
    # What was idle may be left out.
    script.file("s", text(FRONT + "run 0 0\nclock 0 99\nclock 0 100\nrun 0 0 2\n"))
    script.run("record s", "Done", *summary(3, "running", 5, 0))
    script.show("a.log", logs.log(["sleep_until 100 = 100", "note 100"]))


def table(script):
    script.title("Plays")
    for part in (ping_and_pong, each_moment, again, printed, threads, signals, worlds, endings, values, full, most_tries, recorded):
        part(script)
