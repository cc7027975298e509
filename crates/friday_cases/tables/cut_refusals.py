"""Events to which no logs are cut: which reason comes first, and that no file is made then; and files that cannot be made."""

import logs
from common import refused
from cuts import OVER_INPUT, PAIR, begin, cut, front, fronts, text_of
from modules import LEAST, start
from pair_refusals import FAR
from pairs import ping_and_pong, put, sent, three, words
from schedules_of_logs import kept, modules
from script import USAGE, digits, text, times

NO_PROCESS, NO_EVENT = "12 NoProcess", "13 NoEvent"
MOST = 2**63 - 1


def old(script, names=PAIR):
    for name in names:
        script.file(name + ".cut", text("old"))


def not_made(script, names=PAIR):
    """The old files stand there as they were."""
    for name in names:
        script.show(name + ".cut", b"old")


def ping_pong(script, name):
    given = ping_and_pong()
    begin(script, name, given, kept(script, PAIR))
    old(script)
    return given


def usage(script):
    ping_pong(script, "words of a cut that are no command")
    both = "ping.wasm ping.log pong.wasm pong.log"
    script.file("1", script.kept("ping"))
    script.file("2", digits(ping_and_pong()[0].spelled()))
    for line in (
        "cut",
        "cut 1",
        "cut 1 2",
        "cut 1 2 ping.wasm",
        "cut 1 2 ping.log",
        "cut 1 2 ping.wasm ping.log pong.wasm",
        "cut 1 ping.wasm ping.log",
        "cut ping.wasm ping.log",
        "cut " + both,
        "cut 1 " + both,
        "cut " + both + " 1 2",
        "cut ping.wasm ping.log 1 2",
        *("cut %s 2 %s" % (word, both) for word in ("16", "016", "100", str(2**32), str(2**32 + 1), "9" * 100, "ping", "1.", "+1", "0x1", "1a", "''", "-1", "-")),
        *("cut 1 %s %s" % (word, both) for word in ("0", "000", str(2**63), str(2**64), str(2**64 + 1), "9" * 100, "ping", "2.", "+2", "0x2", "2a", "''", "-2", "--")),
        "cut 16 0 " + both,
        "cut --images 1 2 " + both,
        "cut 1 --images 2 " + both,
        "cut 1 2 --images " + both,
        "cut 1 2 " + both + " --images",
        "cut 1 2 --images",
        "cut 1 2 '' ping.log",
        "cut 1 2 ping.wasm ''",
        "cut 1 2 -ping.wasm ping.log",
        "cut 1 2 ping.wasm -ping.log",
        "cut 1 2 ping.wasm ping.log pong.wasm -",
        "Cut 1 2 " + both,
        "cuts 1 2 " + both,
        "1 2 cut " + both,
    ):
        script.run(line, "Usage", USAGE)
    not_made(script)
    script.run("cut 1 2 1 2", *refused("2", NO_PROCESS))
    script.run("cut 0 2 1 2", "Done", "ping: 2 of 6 events")


def no_process(script):
    """The first log of the words is told, whichever process is asked for, and whether or not it has as many events."""
    given = ping_pong(script, "processes of which no log is given")
    for some in (given, given[::-1]):
        for process in (2, 3, 14, 15):
            for event in (1, 6, 7, MOST):
                script.run("cut %d %d %s" % (process, event, words(some)), *refused(some[0].name + ".log", NO_PROCESS))
    for log in given:
        script.run("cut %d 1 %s" % (1 - log.process, words((log,))), *refused(log.name + ".log", NO_PROCESS))
    not_made(script)
    some = three()
    begin(script, "a process of the group of which no log is given", some, kept(script, ("pong",)))
    for order in (some, some[::-1], some[1:], some[:2]):
        script.run("cut 3 1 " + words(order), *refused(order[0].name + ".log", NO_PROCESS))
    script.run("cut 2 1 " + words(some[:2]), *refused(some[0].name + ".log", NO_PROCESS))
    for log in some:
        script.show(log.name + ".cut", None)


def no_event(script):
    """The log of the process is told, wherever it stands among the words."""
    given = ping_pong(script, "events that a process has not made")
    for some in (given, given[::-1], given[:1], given[1:]):
        for log in some:
            for event in (len(log.events) + 1, len(log.events) + 2, 2**32 + 1, 2**62, MOST):
                script.run("cut %d %d %s" % (log.process, event, words(some)), *refused(log.name + ".log", NO_EVENT))
    not_made(script)
    script.case("events that are not accepted: of entries that are not legal, and behind the last whole one")
    modules(script, kept(script, PAIR))
    old(script)
    ping, pong = given
    changed = pong.changed(2, sent(4, 0, b"\2\0\0\0"), "5 OtherBytes")
    for some in ((ping.cut(3, 7), changed), (ping.cut(3, 0), pong.cut(2, 4)), (ping.cut(3, 0).but(rest=b"\0" * 100), changed.but(version=1))):
        put(script, some)
        for log in some:
            for event in (len(log.events) + 1, len(log.events) + 2):
                script.run("cut %d %d %s" % (log.process, event, words(some)), *refused(log.name + ".log", NO_EVENT))
    not_made(script)


def files(script):
    """Each file is judged before an event is looked for, in the order of the words."""
    ping_pong(script, "files of a cut that are refused or absent, whatever event is asked for")
    script.file("far", digits(start("", FAR)))
    script.file("head", digits(logs.head(mark=b"LLOX")))
    script.file("three", digits(logs.head(count=3, process=1, name=b"b")))
    script.file("same", digits(logs.head(count=2, process=1, name=b"ping")))
    script.file("least", digits(LEAST))
    for line, status, said in (
        ("x ping.log", "Absent", "absent x"),
        ("ping.wasm x", "Absent", "absent x"),
        ("ping.wasm ping.log x y", "Absent", "absent x"),
        ("ping.wasm ping.log pong.wasm y", "Absent", "absent y"),
        ("ping.log ping.log", "Refused", "refused ping.log: 1 Malformed"),
        ("ping.wasm ping.wasm", "Refused", "refused ping.wasm: 1 BadHead"),
        ("ping.wasm head pong.wasm x", "Refused", "refused head: 1 BadHead"),
        ("ping.wasm ping.log pong.wasm three", "Refused", "refused three: 2 OtherGroup"),
        ("ping.wasm ping.log pong.wasm ping.log", "Refused", "refused ping.log: 3 SameProcess"),
        ("ping.wasm ping.log pong.wasm same", "Refused", "refused same: 4 SameName"),
        ("far ping.log pong.wasm x", "Absent", "absent x"),
        ("far ping.log pong.wasm pong.log", "Refused", "refused far: 7 BadSegment"),
        ("ping.wasm ping.log far pong.log", "Refused", "refused far: 7 BadSegment"),
    ):
        for event in ("1 2", "0 7", "1 9", "2 1"):
            script.run("cut %s %s" % (event, line), status, "friday: " + said)
    script.file("long", times(33554433, b"\0"))
    script.run("cut 1 2 ping.wasm ping.log pong.wasm long", *refused("long", "TooLarge"))
    not_made(script)
    # A module that goes another way is a divergence, of which the events before it are kept.
    script.run("cut 1 1 ping.wasm ping.log least pong.log", "Done", "ping: 0 of 6 events", "pong: 1 of 1 events")
    script.run("cut 1 2 ping.wasm ping.log least pong.log", *refused("pong.log", NO_EVENT))


# Of two pairs: four files are read, and then each of the two is made.
READS, MADE = 4, ("ping", "pong")


def after_failing(call, made):
    """What the two files hold where this call fails: each is the old one until the new one is whole."""
    return [log.spelled() if READS + 1 + at < call else b"old" for at, log in enumerate(made)]


def failing(script):
    made = fronts(ping_and_pong(), 1, 2)
    for call in range(1, READS + 3):
        given = ping_pong(script, "a cut whose call %d on files fails" % call)
        script.fail("files", call)
        script.run("cut 1 2 " + words(given), "ReadFault" if call <= READS else "WriteFault")
        for log, stands in zip(made, after_failing(call, made)):
            script.show(log.name + ".cut", stands)
        for log in given:
            script.show(log.name + ".log", log.spelled())
        # The call that failed is over.
        cut(script, given, 1, 2, [2, 2])


def refused_onto_logs(script):
    """A log in the place of which a new one would stand is refused once all files are read, and no call on files comes after."""
    script.case("a cut onto the logs themselves, of which the next call on files would fail")
    modules(script, kept(script, PAIR))
    for log in ping_and_pong():
        script.file(log.name + ".cut", digits(log.spelled()))
    onto = "cut 1 2 ping.wasm ping.cut pong.wasm pong.cut"
    script.fail("files", READS + 1)
    script.run(onto, *refused("ping.cut", OVER_INPUT))
    script.run(onto, "ReadFault")
    for log in ping_and_pong():
        script.show(log.name + ".cut", log.spelled())


def failing_output(script):
    given = ping_pong(script, "what is printed of a cut cannot be written, and the files have been")
    script.fail("output", 1)
    script.run("cut 1 2 " + words(given), "WriteFault")
    for log in fronts(given, 1, 2):
        script.show(log.name + ".cut", log.spelled())
    for line in ("cut 1 6 " + words(given), "cut 2 1 " + words(given), "cut 1 2 x y", "cut 1 2"):
        script.fail("output", 1)
        script.run(line, "WriteFault")
    # These made 15 calls on files. A cut that is refused makes 4, and one of two pairs 6; each makes one write, and reads no input.
    script.fail("files", 15 + 4 + 6 + 1)
    for line, outcome in (("cut 1 6 ", refused("pong.log", NO_EVENT)), ("cut 1 2 ", ("Done", *text_of(given, fronts(given, 1, 2))))):
        script.fail("input", 1)
        script.fail("output", 2)
        script.run(line + words(given), *outcome)


def none_needed(script):
    """Of a log of which nothing is needed a file with the head alone is made."""
    given = ping_pong(script, "an event that needs nothing of the other process")
    cut(script, given, 1, 1, [0, 1])
    assert len(front(given[0], 0).spelled()) == 17 + len("ping")
    cut(script, given, 0, 2, [2, 0])


def table(script):
    script.title("Events to which no logs are cut")
    for part in (usage, no_process, no_event, files, failing, refused_onto_logs, failing_output, none_needed):
        part(script)
