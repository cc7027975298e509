"""Groups: what the items of a schedule do to them, and their logs."""

import logs
from common import refused
from modules import Guest, LEAST, MAGIC, start
from script import digits, text

PING, PONG = Guest("ping"), Guest("pong")
TO_ALL = 2**32 - 1

SCHEDULE = """friday 1
process ping ping.wasm
process pong pong.wasm
run 0 0 2
run 1 0
deliver 0 1
# the same datagram again
deliver 0 1
run 1 0 4
# the second echo overtakes the first
deliver 1 2
run 0 0 2
deliver 1 1
run 0 0 2
run 0 0
kill 1
"""


def number(value):
    return value.to_bytes(4, "little")


def sent(clock, to, data, at=64):
    return logs.entry(clock, "send", (to, at, len(data)), len(data), data)


def taken(clock, at, cap, data, tag, call="recv"):
    return logs.entry(clock, call, (at, cap, 32), len(data), data, tag)


BEGIN = logs.entry(1, "begin")
PINGS = [
    BEGIN,
    sent(2, 1, number(1)),
    taken(7, 128, 4, number(1), (1, 6)),
    sent(8, 1, number(2)),
    taken(9, 128, 4, number(1), (1, 4)),
    sent(10, 1, number(3)),
]
PONGS = [
    BEGIN,
    taken(3, 64, 16, number(1), (0, 2)),
    sent(4, 0, number(1)),
    taken(5, 64, 16, number(1), (0, 2)),
    sent(6, 0, number(1)),
]
# The process of each event in its turn.
TURNS = (0, 0, 1, 1, 1, 1, 1, 0, 0, 0, 0)
NAMES = (b"ping", b"pong")
SUMMARY = ("ping: 6 events, running", "pong: 5 events, killed", "items: 16 acted, 1 idle")


def head(p):
    return logs.head(name=NAMES[p], count=2, process=p)


def log(p, count):
    """The log of a process with its first entries."""
    return head(p) + logs.spelled((PINGS, PONGS)[p][:count])


def shown(script, *held):
    for name, data in zip(NAMES, held):
        script.show(name.decode() + ".log", data)


def group(script, name):
    script.case(name)
    script.file("ping.wasm", script.kept("ping"))
    script.file("pong.wasm", script.kept("pong"))
    script.file("s", text(SCHEDULE))


def ping_and_pong(script):
    group(script, "ping and pong")
    whole = log(0, 6), log(1, 5)
    assert tuple(map(len, whole)) == (105, 89)
    script.run("record s", "Done", *SUMMARY)
    shown(script, *whole)


def alone(script, name, injected, events):
    """`pong` in a group of its own, with a datagram from outside."""
    script.case(name)
    script.file("pong.wasm", script.kept("pong"))
    script.file("s", text("friday 1\nprocess pong pong.wasm\nrun 0 0\ninject 0 %s\nrun 0 0 2\n" % injected))
    script.run("record s", "Done", "pong: 3 events, running", "items: 4 acted, 0 idle")
    script.show("pong.log", logs.held([BEGIN, *events], name=b"pong"))


def from_outside(script):
    hi = b"hi"
    alone(script, "a datagram from outside, which has no tag", "6869", [taken(2, 64, 16, hi, None), sent(3, TO_ALL, hi)])
    tag = "d74c4f47 00000000 0000000000000040 aa".replace(" ", "")
    late = 2**62
    alone(script, "a tag that no process gave", tag, [taken(late + 1, 64, 16, b"\xaa", (0, late)), sent(late + 2, 0, b"\xaa")])
    past = "d74c4f47 00000000 0100000000000040 aa".replace(" ", "")
    data = bytes.fromhex(past)[:16]
    alone(script, "a tag whose clock is too great", past, [taken(2, 64, 16, data, None), sent(3, TO_ALL, data)])


def one(script, name, module, items):
    script.case(name)
    script.file("a.wasm", digits(Guest(module).module))
    script.file("s", text("friday 1\nprocess a a.wasm\n" + items))


def cut_short(script):
    one(script, "datagrams that are cut, and a place past memory", "taker", "run 0 0 3\ninject 0 0102030405\ninject 0 0708\ninject 0 01020304\nrun 0 0 5\n")
    script.run("record s", "Done", "a: 6 events, finished", "items: 9 acted, 2 idle")
    none = logs.entry(2, "try_recv", (64, 3, 32), 2**32 - 2)
    bad = logs.entry(5, "recv", (65533, 4, 32), TO_ALL)
    events = [none, taken(3, 64, 3, b"\1\2\3", None), taken(4, 64, 0, b"", None), bad, taken(6, 65532, 4, b"\1\2\3\4", None)]
    script.show("a.log", logs.held([BEGIN, *events]))


def random_bytes(script):
    one(script, "random bytes", "drawer", "run 0 0 2\nrandom 0 0A\nrun 0 0\nrandom 0 -\nrandom 0 ff0b\nrun 0 0 5\n")
    script.run("record s", "Done", "a: 5 events, finished", "items: 8 acted, 3 idle")
    events = [
        logs.entry(2, "random", (0, 2), 2, b"\x0a\xff"),
        logs.entry(3, "random", (0, 0), 0),
        logs.entry(4, "random", (65536, 1), TO_ALL),
        logs.entry(5, "random", (0, 1), 1, b"\x0b"),
    ]
    script.show("a.log", logs.held([BEGIN, *events]))


def kills(script):
    group(script, "a process that is killed makes no event, and one that has ended is not killed")
    script.file("least.wasm", digits(start("")))
    script.file("s", text("friday 1\nprocess a ping.wasm\nprocess b least.wasm\nkill 0\nrun 0 0\nkill 0\nrun 1 0\nkill 1\ndeliver 0 1\ninject 0 00\nclock 1 5\n"))
    script.run("record s", "Done", "a: 0 events, killed", "b: 1 events, finished", "items: 4 acted, 4 idle")
    script.show("a.log", logs.head(count=2))
    script.show("b.log", logs.held([BEGIN], name=b"b", count=2, process=1))


def order(script):
    script.case("all modules are read before a process begins, and none that is refused leaves a log")
    far = '(memory 1) (data (i32.const 65536) "a")'
    script.file("far", digits(start("", far)))
    script.file("bad", digits(MAGIC))
    script.file("least", digits(start("")))
    for first, second, status, said in (
        ("far", "bad", "Refused", "refused bad: 6 NoStart"),
        ("far", "x", "Absent", "absent x"),
        ("x", "bad", "Absent", "absent x"),
        ("least", "far", "Refused", "refused far: 7 BadSegment"),
    ):
        script.file("s", text("friday 1\nprocess a %s\nprocess b %s\n" % (first, second)))
        script.run("record s", status, "friday: " + said)
    for place in range(16):
        modules = ["far" if p == place else "least" for p in range(16)]
        script.file("s", text("friday 1\n" + "".join("process p%d %s\n" % it for it in enumerate(modules))))
        script.run("record s", "Refused", "friday: refused far: 7 BadSegment")
    script.show("p0.log", None)
    script.show("a.log", None)
    script.file("s", text("friday 1\nprocess a least\nprocess b least\nrun 1 0\n"))
    script.run("record s", "Done", "a: 0 events, running", "b: 1 events, finished", "items: 1 acted, 0 idle")


def full_log(script):
    one(script, "a log that is full, of which no images are made", "printer", "clock 0 1\nrun 0 0 1000\n")
    script.file("a.mem", text("old"))
    script.run("record --images s", *refused("s", "item 2 LogFull"))
    events = [logs.entry(2 + at, "print", (0, 60000), 60000, bytes(60000)) for at in range(559)]
    held = logs.held([BEGIN, *events])
    assert len(held) == 33549527
    script.show("a.log", held)
    script.show("a.mem", b"old")
    script.show("a.out", None)


def modules_read(script):
    """The schedule is read, then each module file once, and then the first log is made."""
    of_one, of_two = ("a.wasm", "a.wasm"), ("a.wasm", "b.wasm")
    for said, modules, reads in (("of one module", of_one, 2), ("of two modules", of_two, 3)):
        for call in range(1, reads + 2):
            script.case("two processes %s, and call %d fails" % (said, call))
            for name in of_two:
                script.file(name, digits(LEAST))
            script.file("s", text("friday 1\nprocess a %s\nprocess b %s\nrun 0 0\nrun 1 0\n" % modules))
            script.fail("files", call)
            script.run("record s", "ReadFault" if call <= reads else "WriteFault")
            for name in "ab":
                script.show(name + ".log", None)
            script.run("record s", "Done", "a: 1 events, finished", "b: 1 events, finished", "items: 2 acted, 0 idle")


def table(script):
    script.title("Groups")
    script.keep("ping", PING.module)
    script.keep("pong", PONG.module)
    for part in (ping_and_pong, from_outside, cut_short, random_bytes, kills, order, full_log, modules_read):
        part(script)
