"""Logs of which no schedule is made: which reason comes first, and of which file."""

from itertools import permutations

import logs
from common import refused
from logs import entry
from modules import LEAST, start
from pairs import BEGIN, Log, ping_and_pong, put, sent, three, words
from replays import ASKED, ILLEGAL, LOGS, NOW
from schedules_of_logs import ALONE, kept, modules, schedule, whole
from script import USAGE, digits, times

INCOMPLETE, NOT_WHOLE, BAD_NAME, MANY, LONG = "7 Incomplete", "8 NotWhole", "9 BadModuleName", "10 TooManyEvents", "11 TooLong"
MOST_EVENTS, MOST_TEXT = 1_000_000, 16_777_216


def usage(script):
    script.case("words of a schedule of logs that are no command")
    script.file("a.wasm", digits(NOW))
    script.file("a.log", digits(LOGS[2]))
    for line in (
        "schedule",
        "schedule a.wasm",
        "schedule a.log",
        "schedule a.wasm a.log a.wasm",
        "schedule a.wasm a.log a.wasm a.log a.wasm",
        "schedule --images",
        "schedule --images a.wasm",
        "schedule --images a.wasm a.log",
        "schedule a.wasm --images a.log",
        "schedule a.wasm a.log --images",
        "schedule ''",
        "schedule '' a.log",
        "schedule a.wasm ''",
        "schedule a.wasm a.log '' a.log",
        "schedule -a a.log",
        "schedule a.wasm -a",
        "schedule a.wasm a.log --",
        "Schedule a.wasm a.log",
        "schedules a.wasm a.log",
        "a.wasm schedule a.log",
    ):
        script.run(line, "Usage", USAGE)
    script.run("schedule a.wasm a.log", "Done", *schedule((ALONE,)))


def incomplete(script):
    """Of a group of four, each choice of up to three in each order, and then all of them."""
    given = (*three(), Log(4, 3, "d", [BEGIN]))
    script.case("logs that are not all of a group")
    modules(script, kept(script, ("pong",)))
    put(script, given)
    for count in (1, 2, 3):
        for some in permutations(given, count):
            script.run("schedule " + words(some), *refused(some[0].name + ".log", INCOMPLETE))
    script.run("schedule " + words(given[::-1]), "Done", *schedule(given))
    script.file("far", digits(start("", '(memory 1) (data (i32.const 65536) "a")')))
    script.file("bad", digits(logs.head(mark=b"LLOX")))
    for line, outcome in (
        ("pong.wasm c.log far b.log", refused("far", "7 BadSegment")),
        ("far c.log", refused("far", "7 BadSegment")),
        ("pong.wasm c.log pong.wasm c.log", refused("c.log", "3 SameProcess")),
        ("pong.wasm c.log pong.wasm bad", refused("bad", "1 BadHead")),
        ("pong.wasm c.log pong.wasm x", ("Absent", "friday: absent x")),
    ):
        script.run("schedule " + line, *outcome)
    script.case("each of the logs of ping and pong, which is not all of their group")
    modules(script, kept(script, ("ping", "pong")))
    put(script, ping_and_pong())
    for log in ping_and_pong():
        script.run("schedule " + words((log,)), *refused(log.name + ".log", INCOMPLETE))


def not_whole(script):
    """Each reason for which an entry is not legal, in a log that is otherwise all of its group."""
    made = logs.entries(["begin", *ASKED])
    script.case("logs whose last entry is not legal, or that go on with other bytes, of which no schedule is made")
    script.file("a.wasm", script.kept("asker"))
    for version in (1, 2):
        for _, at, other, _ in ILLEGAL:
            script.file("a.log", digits(logs.held([*made[: at - 1], other, *made[at:]], version)))
            script.run("schedule a.wasm a.log", *refused("a.log", NOT_WHOLE))
        for rest in (b"\0", b"\x05", b"\xff" * 1000):
            script.file("a.log", digits(logs.held(made, version) + rest))
            script.run("schedule a.wasm a.log", *refused("a.log", NOT_WHOLE))


def other_files(given):
    """The words of pairs whose logs have names of their own."""
    return " ".join("%s.wasm of_%s" % (log.module, log.name) for log in given)


def least_process(script):
    """Of several logs that are not whole the one of the least process is told, wherever it stands among the words."""
    ping, pong = ping_and_pong()
    cut, changed = ping.cut(3, 7), pong.changed(2, sent(4, 0, b"\2\0\0\0"), "5 OtherBytes")
    left = pong.but(rest=b"\0", verdict="1 bytes left over")
    script.case("groups with logs that are not whole, under any names")
    modules(script, kept(script, ("ping", "pong")))
    for some, at in (((cut, pong), 0), ((ping, changed), 1), ((ping, left), 1), ((cut, changed), 0), ((cut, left), 0)):
        for log in some:
            script.file("of_" + log.name, digits(log.spelled()))
        for order in (some, some[::-1]):
            script.run("schedule " + other_files(order), *refused("of_" + some[at].name, NOT_WHOLE))
            script.run("schedule " + other_files(order[:1]), *refused("of_" + order[0].name, INCOMPLETE))


# What no module of a schedule may be named.
NAMES = ("a.log", "a.mem", "a.out", ".log", ".mem", ".out", "b/.out", "a" * 256, "a" * 252 + ".log", "\u00e4", "a\x7f")


def bad_names(script):
    script.case("modules with names that no schedule may have")
    script.file("a", digits(LOGS[2]))
    script.file("cut", digits(LOGS[2][:-1]))
    for name in NAMES:
        script.file(name, digits(NOW))
        script.run("schedule %s a" % name, *refused(name, BAD_NAME))
        script.run("schedule %s cut" % name, *refused("cut", NOT_WHOLE))
        script.run("replay %s a" % name, "Done", "a: 3 events, finished, log whole", "group: 0 sends, 0 receives, 0 unmatched, 0 untagged")


def bad_names_in_groups(script):
    ping, pong = ping_and_pong()
    script.case("groups with modules that no schedule may name: the least process is told, and logs that are not whole before it")
    for name in ("ping", "pong"):
        for ending in (".wasm", ".log", ".out"):
            script.file(name + ending, script.kept(name))
    for log in (ping, pong):
        script.file("of_" + log.name, digits(log.spelled()))
    script.file("cut", digits(ping.cut(3, 7).spelled()))
    script.file("left", digits(pong.spelled() + b"\0"))
    for line, outcome in (
        ("ping.log of_ping pong.out of_pong", refused("ping.log", BAD_NAME)),
        ("pong.out of_pong ping.log of_ping", refused("ping.log", BAD_NAME)),
        ("ping.wasm of_ping pong.out of_pong", refused("pong.out", BAD_NAME)),
        ("pong.out of_pong ping.wasm of_ping", refused("pong.out", BAD_NAME)),
        ("ping.out of_ping pong.wasm of_pong", refused("ping.out", BAD_NAME)),
        ("ping.log cut pong.wasm of_pong", refused("cut", NOT_WHOLE)),
        ("ping.log of_ping pong.wasm left", refused("left", NOT_WHOLE)),
        ("ping.wasm of_ping pong.log left", refused("left", NOT_WHOLE)),
        ("pong.log left ping.log cut", refused("cut", NOT_WHOLE)),
        ("ping.log of_ping", refused("of_ping", INCOMPLETE)),
        ("ping.log cut", refused("cut", INCOMPLETE)),
        ("pong.out left", refused("left", INCOMPLETE)),
        ("ping.log of_ping pong.wasm of_ping", refused("of_ping", "3 SameProcess")),
        ("ping.wasm of_ping pong.wasm of_pong", ("Done", *schedule((ping, pong)))),
    ):
        script.run("schedule " + line, *outcome)


# A process that ends at once, beside one that has many events.
OTHER = Log(2, 1, "other", [BEGIN], module="least", end="finished")
# Asks for the time again and again.
ASKER = start("(loop (drop (call $now)) (br 0))", '(import "liblog" "now" (func $now (result i64)))')


def beside(script, module, names):
    """The module of the first process, under these names, and all of the other one."""
    for name in names:
        script.file(name, module)
    script.file("least.wasm", digits(LEAST))
    put(script, (OTHER,))


def many(script):
    """Of two processes: each event but the first of both has 18 bytes of text, so that of a million of them it is too long, and
    only then. `many_events` has a million whose text is not."""
    script.case("logs of a million events, and of one more")
    beside(script, digits(ASKER), ("a.wasm", "a.out"))
    each = logs.spelled([entry(9, "now", (), 5)], 8)
    log = digits(logs.log([], count=2)) + times(MOST_EVENTS - 1, each)
    script.file("a.log", log)
    script.run("schedule a.out a.log least.wasm other.log", *refused("a.out", BAD_NAME))
    script.run("schedule least.wasm other.log a.wasm a.log", *refused("other.log", MANY))
    script.cut("a.log", len(log.data) - len(each))
    script.run("schedule least.wasm other.log a.wasm a.log", *refused("other.log", LONG))


# How often as many random bytes are drawn as may be, and how many then, so that the text has as many bytes as it may.
DRAWS, EACH = 139, 60000
FRONT = "friday 1\nprocess a a.wasm\nprocess other least.wasm\nrun 0 0\nrun 1 0\n"
LAST = (MOST_TEXT - len(FRONT) - DRAWS * (len("random 0 \nrun 0 0\n") + 2 * EACH) - len("random 0 \nrun 0 0\n")) // 2


def drawer():
    """Draws all of these, and then yields."""
    full = """(local $i i32)
      (loop (drop (call $random (i32.const 0) (i32.const %d)))
        (br_if 0 (i32.lt_u (local.tee $i (i32.add (local.get $i) (i32.const 1))) (i32.const %d))))""" % (EACH, DRAWS)
    body = full + "(drop (call $random (i32.const 0) (i32.const %d))) (loop (call $yield) (br 0))" % LAST
    imports = '(import "liblog" "random" (func $random (param i32 i32) (result i32))) (import "liblog" "yield" (func $yield))'
    return digits(start(body, imports + "(memory 1)"))


def drawn():
    sizes = [EACH] * DRAWS + [LAST]
    events = [BEGIN, *(entry(2 + at, "random", (0, size), size, bytes(size)) for at, size in enumerate(sizes))]
    return Log(2, 0, "a", events, module="a")


def pieces(log):
    """The bytes of such a log, of which each entry but the first ends with zeros."""
    made = digits(log.but(events=[BEGIN]).spelled())
    for before, event in zip(log.events, log.events[1:]):
        spelled = logs.spelled([event], before.clock)
        made += digits(spelled[: -len(event.data)]) + times(len(event.data), b"\0")
    assert made.data == log.spelled()
    return made


def long(script):
    """A name of the module that is a byte longer makes the text a byte too long."""
    log = drawn()
    size = len(whole(schedule((log, OTHER))))
    assert MOST_TEXT - 1 <= size <= MOST_TEXT
    one = "a" * (1 + MOST_TEXT + 1 - size)
    assert len(whole(schedule((log, OTHER), (one + ".wasm", "least.wasm")))) == MOST_TEXT + 1
    script.case("logs whose schedule is too long by a byte, and that is as long as it may be")
    beside(script, drawer(), (one + ".wasm", one + "a.mem", one[1:] + ".wasm"))
    script.file("a.log", pieces(log) + digits(b"\0"))
    script.run("schedule %sa.mem a.log least.wasm other.log" % one, *refused("a.log", NOT_WHOLE))
    script.cut("a.log", len(log.spelled()))
    script.run("schedule %sa.mem a.log least.wasm other.log" % one, *refused(one + "a.mem", BAD_NAME))
    script.run("schedule least.wasm other.log %s.wasm a.log" % one, *refused("other.log", LONG))
    made = whole(schedule((log, OTHER), (one[1:] + ".wasm", "least.wasm"))).encode()
    assert len(made) == MOST_TEXT
    script.sum("schedule least.wasm other.log %s.wasm a.log" % one[1:], "Done", made)


def failing(script):
    for call, name in ((1, "module"), (2, "log")):
        script.case("a schedule of logs is to be made, and the %s cannot be read" % name)
        script.file("a.wasm", digits(NOW))
        script.file("a.log", digits(LOGS[2]))
        script.fail("files", call)
        script.run("schedule a.wasm a.log", "ReadFault")
        script.run("schedule a.wasm a.log", "Done", *schedule((ALONE,)))
    script.case("a schedule of logs, or why there is none, cannot be written")
    script.file("a.wasm", digits(NOW))
    script.file("a.log", digits(LOGS[2]))
    script.file("cut", digits(LOGS[2][:-1]))
    for line in ("schedule a.wasm a.log", "schedule a.wasm cut", "schedule a.wasm x", "schedule a.wasm"):
        script.fail("output", 1)
        script.run(line, "WriteFault")
    # The two files are all that it calls for; it makes one write, and reads no input.
    script.fail("files", 3)
    script.fail("input", 1)
    script.fail("output", 2)
    script.run("schedule a.wasm a.log", "Done", *schedule((ALONE,)))


def table(script):
    script.title("Logs of which no schedule is made")
    for part in (usage, incomplete, not_whole, least_process, bad_names, bad_names_in_groups, many, long, failing):
        part(script)
