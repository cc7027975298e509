"""Schedules that are made of logs: what is printed, and that a recording by it makes the logs again."""

import struct

import logs
from common import refused
from many_datagrams import RING, ring
from pairs import Log, echoes, ping_and_pong, put, replays, words
from replays import ENDS, LOGS, NOW, turned_in_1, turned_in_2
from script import digits, text

BAD, NONE_WAITS = 2**32 - 1, 2**32 - 2
# What the smallest log comes to.
SMALLEST = ("friday 1", "process a a.wasm", "run 0 0", "clock 0 5", "run 0 0", "run 0 0")


def tagged(event):
    """The datagram that an event took, as it came: with its tag in front, where it had one."""
    return (b"" if event.tag is None else b"\xd7LOG" + struct.pack("<IQ", *event.tag)) + event.data


def word(data):
    return data.hex() or "-"


def given_to(p, event):
    """The line of what the world gave to an event of process p for its answer, where it gave something."""
    if event.call in ("now", "sleep_until"):
        return ["clock %d %d" % (p, event.reply - (event.reply >> 63 << 64))]
    if event.reply in (BAD, NONE_WAITS):
        return []
    if event.call == "random":
        return ["random %d %s" % (p, word(event.data))]
    return ["inject %d %s" % (p, word(tagged(event)))] if event.call in logs.TAGGED else []


def items(p, event):
    return [*given_to(p, event), *(["signal %d %d" % (p, event.signal)] if event.signal else []), "run %d %d" % (p, event.thread)]


def in_order(given):
    """The processes and the events of all logs: by clock, and those of one clock by process."""
    made = [(event.clock, log.process, event) for log in given for event in log.events]
    return [row[1:] for row in sorted(made, key=lambda row: row[:2])]


def in_turn(given):
    return sorted(given, key=lambda log: log.process)


def files(given):
    """The files of the modules, in order of the processes."""
    return ["%s.wasm" % log.module for log in in_turn(given)]


def schedule(given, modules=None):
    """The lines of the schedule of these logs, which are all of a group, and of these modules."""
    lines = ["process %s %s" % (log.name, module) for log, module in zip(in_turn(given), modules or files(given))]
    return ["friday 1", *lines, *(item for p, event in in_order(given) for item in items(p, event))]


def whole(lines):
    return "".join(line + "\n" for line in lines)


def summary(given):
    """What a recording by the schedule of these logs prints. A log tells of no kill."""
    ends = ["%s: %d events, %s" % (log.name, len(log.events), log.end) for log in in_turn(given)]
    return *ends, "items: %d acted, 0 idle" % (len(schedule(given)) - 1 - len(given))


def told(script, given):
    """The schedule is printed, in whatever order the pairs come."""
    for some in (given, given[::-1])[: len(given)]:
        script.run("schedule " + words(some), "Done", *schedule(given))


def modules(script, made):
    for name, pieces in made.items():
        script.file(name + ".wasm", pieces)


def recorded(script, name, made, given):
    """The modules and the schedule alone come to these logs, in version 2, of which the schedule is the same again."""
    script.case(name + ", recorded by its schedule alone")
    modules(script, made)
    script.file("s", text(whole(schedule(given))))
    script.run("record s", "Done", *summary(given))
    for log in given:
        script.show(log.name + ".log", log.but(version=2).spelled())
    script.run("schedule " + words(given), "Done", *schedule(given))


def turned_back(script, name, made, given):
    """The logs of a group come to a schedule, and that to the logs."""
    script.case(name)
    modules(script, made)
    put(script, given)
    replays(script, given)
    told(script, given)
    # No file was made or changed.
    script.show("s", None)
    for log in given:
        script.show(log.name + ".log", log.spelled())
    recorded(script, name, made, given)


# ---- one process

ALONE = Log(1, 0, "a", logs.entries(["begin", "now = 5", "note 5"]), module="a", end="finished")


def one_process(script):
    assert tuple(schedule((ALONE,))) == SMALLEST
    for version in (1, 2):
        given = (ALONE.but(version=version),)
        assert given[0].spelled() == LOGS[version]
        turned_back(script, "the schedule of a log of version %d" % version, {"a": digits(NOW)}, given)
    times = [-(2**63), 2**63 - 1, -1]
    for time in times:
        given = (ALONE.but(events=logs.entries(["begin", "now = %d" % time, "note %d" % time])),)
        turned_back(script, "the schedule of a log with the wall time %d" % time, {"a": digits(NOW)}, given)
    turned_back(script, "the schedule of a log without entries", {"a": digits(NOW)}, (ALONE.cut(0, 0),))
    turned_back(script, "the schedule of a log that ends behind an entry", {"a": digits(NOW)}, (ALONE.cut(2, 0),))


def at_size(size, version):
    """What the first bytes of the smallest log come to."""
    if size < 18:
        return refused("a.log", "1 BadHead")
    if size not in ENDS[version]:
        return refused("a.log", "8 NotWhole")
    return "Done", *schedule((ALONE.but(events=ALONE.events[: ENDS[version].index(size)]),))


def not_whole(outcome):
    """What a log comes to that is replayed so, which is refused there or is not whole."""
    return outcome if outcome[0] == "Refused" else refused("a.log", "8 NotWhole")


def each_byte(script):
    for version, turned_at in ((1, turned_in_1), (2, turned_in_2)):
        log = LOGS[version]
        script.case("a log of version %d cut to each length, and with each byte turned, of which a schedule is made" % version)
        script.file("a.wasm", digits(NOW))
        script.file("a.log", digits(log))
        line = "schedule a.wasm a.log"
        script.each("cuts", "a.log", line, [at_size(size, version) for size in range(len(log) + 1)])
        script.each("turns", "a.log", line, [not_whole(turned_at(at)) for at in range(len(log))])


# ---- groups

PAIR = ("ping", "pong")


def kept(script, names):
    return {name: script.kept(name) for name in names}


def recorded_groups(script):
    """The items were others: datagrams that were delivered, twice and out of order, and a process that was killed."""
    given = ping_and_pong()
    lines = schedule(given)
    assert lines[3:6] == ["run 0 0", "run 1 0", "run 0 0"]
    assert lines[6:8] == ["inject 1 d74c4f4700000000020000000000000001000000", "run 1 0"]
    turned_back(script, "the schedule of ping and pong", kept(script, PAIR), given)
    ping, pong = given
    for name, some in (
        ("of which the logs are of both versions", (ping.but(version=1), pong)),
        ("of which one log ends before what the other took", (ping.cut(1, 0), pong)),
        ("of which one log has no entry", (ping, pong.cut(0, 0))),
    ):
        turned_back(script, "the schedule of ping and pong, " + name, kept(script, PAIR), some)


def stamped(tag, rest=b""):
    return b"\xd7LOG" + struct.pack("<IQ", *tag) + rest


def forged(script):
    """Tags that no process gave: of a send that there is not, of oneself, with the greatest clock, and one behind another;
    and bytes that are almost a tag."""
    late = 2**62
    alike = (b"", b"\xd7", b"\xd7LOG", b"\xd7LOG" + bytes(12), stamped((3, 5)), stamped((0, late + 1)), stamped((0, 1))[:15])
    rows = [((1, 2), b"hi"), ((0, 1), b""), ((2, 40), stamped((0, 7))), *((None, data) for data in alike), ((1, late), b"x"), (None, b"y")]
    given = (
        Log(3, 0, "a", echoes(*rows)),
        Log(3, 1, "b", echoes(((0, late), stamped((2, late))), ((1, 1), b""))),
        Log(3, 2, "c", echoes((None, bytes(16))), version=1),
    )
    turned_back(script, "the schedule of logs with tags that were forged", kept(script, ("pong",)), given)


def most_processes(script):
    """Sixteen processes, whose names are as long as they may be and whose clocks are all the same."""
    turned_back(script, "the schedule of sixteen processes", {"ring": RING}, tuple(ring()))


# Names of modules that a schedule may have, at the edges of what those are.
NAMES = ("!", "~", "#a", "a" * 255, "log", "a.LOG", ".logs", "a.log.", "mem", "b/../a.out~", "run", "process", "0")


def names_of_modules(script):
    """The lines have the names that the words give, whatever the recording had."""
    script.case("modules with names of many kinds, of which schedules are made")
    script.file("a.log", digits(LOGS[2]))
    for name in NAMES:
        script.file(name, digits(NOW))
        script.run("schedule %s a.log" % name, "Done", *schedule((ALONE,), (name,)))
    script.case("a recording by a schedule whose module has a name of 255 bytes")
    name = "a" * 255
    script.file(name, digits(NOW))
    script.file("s", text(whole(schedule((ALONE,), (name,)))))
    script.run("record s", "Done", *summary((ALONE,)))
    script.show("a.log", LOGS[2])


def table(script):
    script.title("Schedules of logs")
    for part in (one_process, each_byte, recorded_groups, forged, most_processes, names_of_modules):
        part(script)
