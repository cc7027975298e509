"""Logs: cut, changed, with another head, and each reason for which an entry is not legal."""

import logs
from common import refused, replays, report
from modules import Guest, LEAST
from script import digits
from schedules import at_time

# The module of docs/formats.md's replay, and the log where `now` is answered 5.
NOW = bytes.fromhex(
    "0061736d01000000 010c036000017e60017e00600000 021c02066c69626c6f67036e6f770000066c69626c6f67046e6f74650001"
    "03020102 070a01065f73746172740002 0a08010600100010010b"
)
LOGS = {version: at_time(5, version) for version in (1, 2)}
# Where the head and each entry end.
ENDS = {1: (18, 42, 66, 98), 2: (18, 24, 30, 37)}
ASKER = Guest("asker")
ASKED = ["me = 0", "thread = 0", "sleep_until 10 = 12", "yield", "exit 3"]


def diverged(events, at, reason, end="running"):
    return "Diverged", *report(events, end, "diverged at %d: %s" % (at, reason))


def left_over(events, count):
    return "Done", *report(events, "running", "%d bytes left over" % count)


def cut_to(size, version):
    """What the first bytes of the log come to."""
    if size < 18:
        return refused("a.log", "1 BadHead")
    events, end = [(n, end) for n, end in enumerate(ENDS[version]) if end <= size][-1]
    if end < size:
        return left_over(events, size - end)
    return "Done", *report(events, "finished" if events == 3 else "running")


def place(at, version):
    """How many entries stand before the one with the byte at this place, and which of its bytes that is."""
    ends = ENDS[version]
    return next((n, at - begin) for n, begin in ((2, ends[2]), (1, ends[1]), (0, ends[0])) if at >= begin)


def turned_field(events, offset):
    """What comes of another byte in an entry's length, clock, thread, kind or signal. No kind has all bits turned."""
    if offset < 4 or offset == 14:
        return left_over(events, (80, 56, 32)[events])
    if offset < 12:
        return diverged(events, events + 1, "8 OtherClock")
    if offset < 14:
        return diverged(events, events + 1, "2 NoThread")
    return diverged(events, events + 1, "7 NoHandler")


def turned_in_1(at):
    """What comes of the log of version 1 with all bits turned in the byte at this place."""
    if at < 18:
        return refused("a.log", "1 BadHead")
    events, offset = place(at, 1)
    if offset < 16:
        return turned_field(events, offset)
    # Any time is a reply of `now`, but then `note` has it as its argument.
    if events == 1 or (events == 2 and offset < 24):
        return diverged(2, 3, "4 OtherArguments")
    return diverged(events, events + 1, "6 OtherReply")


def turned_in_2(at):
    """The same of version 2. A number of one byte then goes on in the next one: the length is too great, the clock and the
    argument are spelled with a zero that they do not need, the reply has no end, and the thread takes the kind's byte. Of
    `note` what follows the thread is then an entry of thread 383 that begins, with signal 5."""
    if at < 18:
        return refused("a.log", "1 BadHead")
    events, offset = place(at, 2)
    if (events, offset) == (2, 2):
        return diverged(2, 3, "2 NoThread")
    if offset == 4:
        return diverged(events, events + 1, "7 NoHandler")
    return left_over(events, (19, 13, 7)[events])


def each_byte(script):
    for version, turned_at in ((1, turned_in_1), (2, turned_in_2)):
        log = LOGS[version]
        script.case("a log of version %d cut to each length, and with each byte turned" % version)
        script.file("a.wasm", digits(NOW))
        script.file("a.log", digits(log))
        script.each("cuts", "a.log", "replay a.wasm a.log", [cut_to(size, version) for size in range(len(log) + 1)])
        script.each("turns", "a.log", "replay a.wasm a.log", [turned_at(at) for at in range(len(log))])
        replays(script, 3, "finished")
        script.add("a.log", digits(b"\xff" * 4))
        replays(script, 3, "finished", "4 bytes left over")
    script.case("a module with each byte turned")
    script.file("a.wasm", digits(NOW))
    script.file("a.log", digits(LOGS[2]))
    # At 74 a call of function 2,175 is spelled, and `nop` behind it.
    turned = [refused("a.wasm", "4 Untyped" if at == 74 else "1 Malformed") for at in range(78)]
    script.each("turns", "a.wasm", "replay a.wasm a.log", turned)


def begin(script, name):
    script.case("a log " + name)
    script.file("a.wasm", script.kept("asker"))


# An entry in the place of one of the log, by its number, and why it is not legal there.
ILLEGAL = (
    ("with an event after the end", 7, logs.entry(7, "yield"), "1 AfterEnd"),
    ("with another thread's event after the end", 7, logs.entry(9, "now", thread=1), "1 AfterEnd"),
    ("of a thread that is not live", 1, logs.entry(1, "begin", thread=1), "2 NoThread"),
    ("of thread 65,535", 3, logs.entry(3, "thread", reply=65535, thread=65535), "2 NoThread"),
    ("with another call", 2, logs.entry(2, "thread"), "3 OtherCall"),
    ("with another call, argument, reply and clock", 5, logs.entry(9, "exit", [1], 1, signal=3), "3 OtherCall"),
    ("that begins twice", 2, logs.entry(2, "begin"), "3 OtherCall"),
    ("with another argument", 4, logs.entry(4, "sleep_until", [11], 12), "4 OtherArguments"),
    ("with another exit", 6, logs.entry(6, "exit", [4]), "4 OtherArguments"),
    ("with an exit of 2^32 + 3", 6, logs.entry(6, "exit", [2**32 + 3]), "4 OtherArguments"),
    ("with a reply to begin", 1, logs.entry(1, "begin", reply=1), "6 OtherReply"),
    ("with another process's number", 2, logs.entry(2, "me", reply=1), "6 OtherReply"),
    ("with another thread's number", 3, logs.entry(3, "thread", reply=1), "6 OtherReply"),
    ("with a sleep that is not due", 4, logs.entry(4, "sleep_until", [10], 9), "6 OtherReply"),
    ("with a sleep that is due with no sign alone", 4, logs.entry(4, "sleep_until", [10], -1), "6 OtherReply"),
    ("with a reply to yield", 5, logs.entry(5, "yield", reply=2**63), "6 OtherReply"),
    ("with a reply to exit", 6, logs.entry(6, "exit", [3], 3), "6 OtherReply"),
    ("with a signal", 5, logs.entry(5, "yield", signal=1), "7 NoHandler"),
    ("with signal 255 and another clock", 5, logs.entry(9, "yield", signal=255), "7 NoHandler"),
    ("with a signal at the exit", 6, logs.entry(6, "exit", [3], signal=1), "7 NoHandler"),
    ("that begins at clock 0", 1, logs.entry(0, "begin"), "8 OtherClock"),
    ("that begins at clock 2", 1, logs.entry(2, "begin"), "8 OtherClock"),
    ("that repeats a clock", 5, logs.entry(4, "yield"), "8 OtherClock"),
    ("whose clock falls", 5, logs.entry(1, "yield"), "8 OtherClock"),
    ("with the greatest clock", 6, logs.entry(2**64 - 1, "exit", [3]), "8 OtherClock"),
)


def divergences(script):
    """Each reason by one changed entry. Of two reasons that hold the first one comes."""
    made = logs.entries(["begin"] + ASKED)
    for name, at, other, reason in ILLEGAL:
        begin(script, name)
        end = "exited 3" if at == 7 else "running"
        for version in (1, 2):
            script.file("a.log", digits(logs.held([*made[: at - 1], other], version)))
            script.run("replay a.wasm a.log", *diverged(at - 1, at, reason, end))
            # What stands behind the first entry that is not legal is of no account.
            script.add("a.log", digits(logs.spelled(made[at:], other.clock, version) + b"\1"))
            script.run("replay a.wasm a.log", *diverged(at - 1, at, reason, end))


def sleeps(script):
    begin(script, "with a sleep that is due to the moment, and later than any")
    for reply in (10, 11, 2**63 - 1):
        asked = ["me", "thread", "sleep_until 10 = %d" % reply, "yield", "exit 3"]
        script.file("a.log", digits(logs.log(asked)))
        replays(script, 6, "exited 3")


# What makes a head one that no log has.
BAD_HEADS = (
    *({"version": version} for version in (0, 3, 2**24 + 1, 2**24 + 2)),
    {"mark": b"llog"},
    *({"count": count} for count in (0, 17, 2**31)),
    *({"count": count, "process": process} for count, process in ((1, 1), (16, 16), (2, 2**32 - 1))),
    *({"name": name} for name in (b"", b"a" * 33, b"A", b"a.b", b"a\xc3\xa4", b"\0")),
)


def heads(script):
    script.case("heads that no log has")
    script.file("a.wasm", script.kept("asker"))
    for version in (1, 2):
        rest = logs.log([], version)[18:]
        bad = [logs.head(**{"version": version, **fields}) + rest for fields in BAD_HEADS]
        for log in (b"", logs.head(version=version)[:-1], *bad):
            script.file("a.log", digits(log))
            script.run("replay a.wasm a.log", *refused("a.log", "1 BadHead"))


def groups(script):
    script.case("logs of another process of a group, with any name")
    script.file("a.wasm", script.kept("asker"))
    for count, process, name, version in ((16, 15, b"a" * 32, 1), (2, 1, b"_0z", 2), (16, 0, b"9", 1), (16, 15, b"z" * 32, 2)):
        fields = {"count": count, "process": process, "name": name, "version": version}
        script.file("a.log", digits(logs.log(["me = %d" % process] + ASKED[1:], **fields)))
        script.run("replay a.wasm a.log", "Done", *report(6, "exited 3", name=name.decode()))
        script.file("a.log", digits(logs.log(["me = %d" % (process ^ 1)] + ASKED[1:], **fields)))
        words = "diverged at 2: 6 OtherReply"
        script.run("replay a.wasm a.log", "Diverged", *report(1, "running", words, name.decode()))


# What no whole entry begins, behind the events of a log with the clocks 1 and 2. In version 1:
LAST = {version: logs.spelled([logs.entry(3, "thread")], 2, version) for version in (1, 2)}


def behind_2(call, arguments):
    return logs.spelled([logs.entry(3, call, arguments)], 2, 1)


SHAPES_1 = (
    ("a length that is too small", b"\x13\0\0\0" + LAST[1][4:]),
    ("a length that is too great", b"\x15\0\0\0" + LAST[1][4:] + b"\0"),
    ("the greatest length", b"\xff\xff\xff\xff" + LAST[1][4:]),
    ("an argument too few", b"\x14\0\0\0" + behind_2("sleep_until", [1])[4:24]),
    ("an argument too many", b"\x1c\0\0\0" + LAST[1][4:] + bytes(8)),
    ("an argument too few of spawn", b"\x1c\0\0\0" + behind_2("spawn", [0, 7])[4:32]),
    ("bytes that lock has not", b"\x20\0\0\0" + behind_2("lock", [1])[4:] + bytes(4)),
    ("fourteen bytes", LAST[1][:14]),
    ("fifteen bytes, the last of which is no kind", LAST[1][:14] + b"\x12"),
    ("a bad length, and kind 13 behind it", bytes(14) + b"\x0d"),
    ("kind 18, and all that an entry of no arguments has", LAST[1][:14] + b"\x12" + LAST[1][15:]),
    ("kind 255, and all that an entry of no arguments has", LAST[1][:14] + b"\xff" + LAST[1][15:]),
)

# Numbers that are not spelled as short as can be, and those of eleven bytes and of 2^64 and more.
PADDED, GREAT = ("8000", "8100", "81808000", "ff" * 9 + "00"), ("80" * 10 + "01", "ff" * 11, "80" * 9 + "02", "ff" * 9 + "7f")
# Where such a number stands in an entry of version 2, of which `thread` and `sleep_until` are all the fields.
PLACES = (
    ("clock", "%s 00 11 00 00"),
    ("thread", "01 %s 11 00 00"),
    ("argument", "01 00 05 00 %s 0a"),
    ("reply", "01 00 05 00 0a %s"),
    ("count of bytes", "01 00 06 00 00 00 00 %s"),
    ("tag's sender", "01 00 0a 00 00 00 00 00 00 01 %s 01"),
    ("tag's clock", "01 00 0a 00 00 00 00 00 00 01 00 %s"),
)
BODY = "01 00 11 00 00"


def counted(written):
    return logs.counted(bytes.fromhex(written))


def bad_numbers():
    for number in (*PADDED, *GREAT):
        for name, fields in PLACES:
            yield "%s as %s" % (name, number), counted(fields % number)
    for name, written in (
        ("thread of 65,536", "01 808004 11 00 00"),
        ("tag's sender of 2^32", "01 00 0a 00 00 00 00 00 00 01 8080808010 01"),
        ("count of 2^32 bytes", "01 00 06 00 00 00 00 8080808010"),
        ("count of 2^32 + 1 bytes", "01 00 06 00 00 00 00 8180808010 61"),
    ):
        yield name, counted(written)
    for length in ("8500", "8580808000", "8580808010", "ffffffff0f", "80" * 9 + "02", "ff" * 11, "85" + "80" * 9 + "00"):
        yield "length as " + length, bytes.fromhex(length + BODY)


def short_shapes():
    for name, written in (
        ("a length without an end", "85"),
        ("a length that is too small", "04" + BODY),
        ("the length 0", "00" + BODY),
        ("a clock without an end", "05 ffffffffff"),
        ("a reply without an end", "05 01 00 11 00 80"),
        ("an argument too few", "05 01 00 05 00 0a"),
        ("an argument too many", "06 01 00 11 00 00 00"),
        ("an argument too few of spawn", "06 01 00 0b 00 00 07"),
        ("bytes that lock has not", "07 01 00 0e 00 01 00 00"),
        ("more bytes than the entry has", "0a 01 00 06 00 00 02 02 03 aa bb"),
        ("a flag of 2", "0c 01 00 0a 00 00 00 00 00 00 02 00 01"),
        ("a flag of 255", "0c 01 00 0a 00 00 00 00 00 00 ff 00 01"),
        ("a flag of 128, and 1 behind it", "0d 01 00 0a 00 00 00 00 00 00 80 01 00 01"),
        ("a tag without a clock", "0b 01 00 0a 00 00 00 00 00 00 01 01"),
        ("a tag behind a flag of 0", "0c 01 00 0a 00 00 00 00 00 00 00 00 01"),
        ("kind 18", "05 01 00 12 00 00"),
        ("kind 255", "05 01 00 ff 00 00"),
    ):
        yield name, bytes.fromhex(written)


def shapes(script):
    """What no whole entry begins is left over."""
    numbers = [("of version 2 that goes on with a bad number: ", *row) for row in bad_numbers()]
    others = [("of version 2 that goes on with ", *row) for row in short_shapes()]
    for version, rows in ((1, [("that goes on with ", *row) for row in SHAPES_1]), (2, numbers + others)):
        whole = logs.log(ASKED[:1], version)
        for before, name, rest in rows:
            begin(script, before + name)
            script.file("a.log", digits(whole + rest))
            replays(script, 2, "running", "%d bytes left over" % len(rest))
            # What is behind it is of no account, though it be a whole entry.
            script.add("a.log", digits(LAST[version]))
            replays(script, 2, "running", "%d bytes left over" % len(rest + LAST[version]))
    begin(script, "that goes on with a whole entry, and no kind behind it")
    script.file("a.log", digits(logs.log(ASKED[:1], 1) + LAST[1] + bytes(14) + b"\x12"))
    replays(script, 3, "running", "15 bytes left over")


def greatest_numbers(script):
    """Each number of an entry is as great as can be, and is one of an entry."""
    begin(script, "that goes on with an entry whose numbers are as great as they can be")
    most = 2**64 - 1
    other = logs.entry(most, "try_recv", [most] * 3, most, b"\xff", (2**32 - 1, most), 65535, 255)
    for version in (1, 2):
        script.file("a.log", digits(logs.log(ASKED[:1], version) + logs.spelled([other], 2, version)))
        script.run("replay a.wasm a.log", *diverged(2, 3, "2 NoThread"))


def order(script):
    script.case("the log is judged before the segments of the module are")
    script.file("least", digits(LEAST))
    # One page, and a byte behind it: a data segment of the memory 0 at i32.const 65536.
    memory, data = bytes.fromhex("0503010001"), bytes.fromhex("0b09010041808004 0b 01 2a")
    before, after = LEAST[: LEAST.index(b"\x07\x0a")], LEAST[LEAST.index(b"\x07\x0a") :]
    script.file("far", digits(before + memory + after + data))
    script.file("a.log", digits(logs.log([])))
    script.file("bad", digits(b"LLOG"))
    script.run("replay least a.log", "Done", *report(1, "finished"))
    script.run("replay far bad", *refused("bad", "1 BadHead"))
    script.run("replay far x", "Absent", "friday: absent x")
    script.run("replay far a.log", *refused("far", "7 BadSegment"))
    # Entries are read once a process has begun, and not before.
    script.add("a.log", digits(bytes.fromhex("0501001200 00")))
    script.run("replay far a.log", *refused("far", "7 BadSegment"))
    script.run("replay least a.log", "Done", *report(1, "finished", "6 bytes left over"))


def table(script):
    assert NOW == Guest("now").module
    script.title("Logs")
    script.keep("asker", ASKER.module)
    for part in (each_byte, divergences, sleeps, heads, groups, shapes, greatest_numbers, order):
        part(script)
