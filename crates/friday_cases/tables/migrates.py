"""Logs that are written again in version 2."""

import logs
from common import refused, replays, report
from logs import entry
from pairs import Log, echoes, ping_and_pong, put, replays as replays_of
from replays import ASKED, ENDS, ILLEGAL, LOGS, NOW, SHAPES_1, bad_numbers, diverged, short_shapes
from script import USAGE, digits, text, times
from sessions import PAIRS, PLACES, session

LIMIT = 33554432
MOST = 2**64 - 1


def told(count, left=0, name="a"):
    """The status of a migration, and its text."""
    return "Done", "%s: %d entries, %d bytes left out" % (name, count, left)


def migrated(script, log, made, left=0):
    """A log is written again, as the log of these entries."""
    script.file("a.log", digits(log))
    script.run("migrate a.log b.log", *told(len(made), left))
    script.show("b.log", logs.held(made))


def written(script):
    script.case("a log of version 1, which is written again, and replayed in both forms")
    script.file("a.wasm", digits(NOW))
    migrated(script, LOGS[1], logs.entries(["begin", "now = 5", "note 5"]))
    script.show("a.log", LOGS[1])
    for name in ("a.log", "b.log"):
        script.run("replay a.wasm " + name, "Done", *report(3, "finished"))
    script.case("the front of a log, and no entry at all")
    migrated(script, LOGS[1][:70], logs.entries(["begin", "now = 5"]), 4)
    migrated(script, LOGS[1][:18], [])
    migrated(script, LOGS[1][:18] + b"\xff" * 1000, [], 1000)
    for version in (1, 2):
        script.file("a.log", digits(LOGS[version]))
        script.each("cuts", "a.log", "migrate a.log b.log", [cut_to(size, version) for size in range(len(LOGS[version]) + 1)])


def cut_to(size, version):
    if size < 18:
        return refused("a.log", "1 BadHead")
    count, end = [(n, end) for n, end in enumerate(ENDS[version]) if end <= size][-1]
    return told(count, size - end)


def again(script):
    """What is version 2 already is as it was, without what is left over."""
    script.case("logs of version 2, which are written again")
    made = logs.entries(["begin", *ASKED])
    migrated(script, logs.held(made), made)
    migrated(script, logs.held(made) + b"\x05\1\0", made, 3)
    script.run("migrate b.log c.log", *told(len(made)))
    script.show("c.log", logs.held(made))


def onto_itself(script):
    script.case("a log in the place of which the new one stands, and another file")
    script.file("a.wasm", script.kept("asker"))
    for version in (1, 2):
        script.file("a.log", digits(logs.log(ASKED, version) + b"\1"))
        script.run("migrate a.log a.log", *told(6, 1))
        script.show("a.log", logs.log(ASKED))
        replays(script, 6, "exited 3")
    script.file("b", times(1000000, b"\7"))
    script.run("migrate a.log b", *told(6))
    script.show("b", logs.log(ASKED))
    script.run("migrate b a.wasm", *told(6))
    script.show("a.wasm", logs.log(ASKED))


def named(script):
    script.case("logs of other processes of a group, under any names")
    for count, process, name in ((16, 15, "z" * 32), (2, 0, "_0"), (2, 1, "9")):
        fields = {"count": count, "process": process, "name": name.encode()}
        script.file("x", digits(logs.log(ASKED, 1, **fields)))
        script.run("migrate x a.mem", *told(6, 0, name))
        script.show("a.mem", logs.log(ASKED, **fields))


def words(script):
    script.case("words of a migration that are no command")
    script.file("a.log", digits(LOGS[1]))
    for line in (
        "migrate",
        "migrate a.log",
        "migrate a.log b.log c.log",
        "migrate a.log b.log a.log c.log",
        "migrate a.log ''",
        "migrate '' b.log",
        "migrate -a b.log",
        "migrate a.log -b",
        "migrate a.log -",
        "migrate --images a.log b.log",
        "migrate a.log --images b.log",
        "migrate a.log b.log --images",
        "migrate --images a.log",
        "Migrate a.log b.log",
        "a.log migrate b.log",
    ):
        script.run(line, "Usage", USAGE)
    script.show("b.log", None)
    script.show("a.log", LOGS[1])


def files(script):
    script.case("logs that are absent, too large, or have no head: the other file stays, or is not made")
    script.file("old", text("old"))
    script.file("head", digits(logs.head(mark=b"LLOX")))
    script.file("short", digits(LOGS[2][:17]))
    script.file("three", digits(logs.head(version=3)))
    for version in (1, 2):
        script.file("bad%d" % version, digits(logs.head(version=version, count=17)))
    script.file("long", times(LIMIT + 1, b"\0"))
    absent, bad = ("Absent", "friday: absent x"), "1 BadHead"
    rows = [(name, refused(name, bad)) for name in ("old", "head", "short", "three", "bad1", "bad2")]
    for name, outcome in (("x", absent), *rows, ("long", refused("long", "TooLarge"))):
        for new in ("old", "new", name):
            script.run("migrate %s %s" % (name, new), *outcome)
    for version in (1, 2):
        script.file("long", digits(LOGS[version]) + times(LIMIT + 1 - len(LOGS[version]), b"\0"))
        script.run("migrate long new", *refused("long", "TooLarge"))
    script.show("old", b"old")
    script.show("new", None)
    script.show("x", None)


def illegal(script):
    """A migration asks no module: entries that no process can have made are written again as they are."""
    made = logs.entries(["begin", *ASKED])
    for name, at, other, reason in ILLEGAL:
        script.case("a log %s, written again: it diverges where it did" % name)
        script.file("a.wasm", script.kept("asker"))
        entries = [*made[: at - 1], other, *made[at:]]
        migrated(script, logs.held(entries, 1) + b"\1", entries, 1)
        for name in ("a.log", "b.log"):
            script.run("replay a.wasm " + name, *diverged(at - 1, at, reason, "exited 3" if at == 7 else "running"))


def any_entries(script):
    """Each call with the least and the greatest numbers, and clocks that fall and rise by any number."""
    script.case("entries of all calls, whose clocks fall and whose numbers are any")
    script.file("a.wasm", script.kept("asker"))
    made = logs.entries(["begin", *ASKED[:2]])
    clocks = (MOST, 0, 2**63, 2**63 - 1, 127, 0, 128, 2**62, 1)
    for number, data, tag, thread, signal in (
        (MOST, b"\xff" * 300, (2**32 - 1, MOST), 65535, 255),
        (0, b"", None, 0, 0),
        (128, b"\0" * 127, (0, 0), 128, 128),
        (2**32, b"\x80", (128, 2**63), 16384, 31),
    ):
        for kind, (call, (_, count)) in enumerate(logs.KINDS.items()):
            given = data if call in logs.BYTES_OUT + logs.BYTES_IN else b""
            held = tag if call in logs.TAGGED else None
            made.append(entry(clocks[(kind + number) % len(clocks)], call, [number] * count, number, given, held, thread, signal))
    migrated(script, logs.held(made, 1), made)
    for name in ("a.log", "b.log"):
        script.run("replay a.wasm " + name, *diverged(3, 4, "2 NoThread"))


def rests(script):
    """The first bytes that are no entry are left out with all that follows them."""
    made = logs.entries(["begin", ASKED[0]])
    for version, rows in ((1, SHAPES_1), (2, [*bad_numbers(), *short_shapes()])):
        script.case("logs of version %d that go on with bytes that are no entry" % version)
        for _, rest in rows:
            script.file("a.log", digits(logs.held(made, version) + rest))
            script.run("migrate a.log b.log", *told(2, len(rest)))
        script.show("b.log", logs.held(made))


def groups(script):
    """The logs of a group, one of them written again or both, replayed together and debugged."""
    given = ping_and_pong()
    script.case("logs of a group, one after the other written again in the place of the old ones")
    for name in ("ping", "pong"):
        script.file(name + ".wasm", script.kept(name))
    put(script, [log.but(version=1) for log in given])
    rows = [("step", place) for place in PLACES[1:]] + [("goto 4", PLACES[4]), ("back 3", PLACES[1])]
    session(script, PAIRS, rows)
    for log in given[::-1]:
        script.run("migrate %s.log %s.log" % (log.name, log.name), *told(len(log.events), 0, log.name))
        replays_of(script, given)
        session(script, PAIRS, rows)
        script.show(log.name + ".log", log.spelled())
    late = Log(2, 1, "pong", echoes(((0, 2**62), b"hi")), version=1)
    put(script, [late])
    script.run("migrate pong.log pong.log", *told(3, 0, "pong"))
    script.show("pong.log", late.but(version=2).spelled())


# Notes whose clocks are as far apart as can be, and whose numbers are as great: 32 bytes each in version 1, and in version 2
# but for the first one 34.
FIRST, SECOND = (entry(clock, "note", [MOST], MOST) for clock in (0, 2**63))


def turns(count, last=()):
    """A log of version 1 with so many of both notes in turn, and these entries."""
    both = logs.spelled([FIRST, SECOND], 0, 1)
    return digits(logs.head(version=1)) + times(count, both) + digits(logs.spelled(last, 0, 1))


def turned(count, last):
    """The same in version 2."""
    first, second, more = logs.spelled([FIRST]), logs.spelled([SECOND], FIRST.clock), logs.spelled([FIRST], SECOND.clock)
    return logs.head() + first + (second + more) * (count - 1) + second + logs.spelled(last, SECOND.clock)


def grown(script):
    script.case("a log of version 1 that is too long in version 2")
    script.file("b.log", text("old"))
    count = (2**20 - 1) // 2
    log = turns(count, [FIRST])
    assert len(log.data) == 33554418 and 18 + 25 + 34 * 2 * count > LIMIT
    script.file("a.log", log)
    for new in ("b.log", "c.log", "a.log"):
        script.run("migrate a.log " + new, *refused("a.log", "6 Grown"))
    script.show("b.log", b"old")
    script.show("c.log", None)
    script.show("a.log", log.data)
    script.case("logs that are as long as they may be in version 2, and a byte longer, with bytes behind them")
    # How far the last clock is behind the one before tells how many bytes it has.
    count = (LIMIT - 18 - 25 - 27) // 34 // 2 + 1
    for far, outcome in ((2**14, "Done"), (2**21, "Refused")):
        last = [entry(SECOND.clock + far, "note", [MOST], MOST)]
        log = turns(count, last)
        left = LIMIT - len(log.data)
        new = turned(count, last)
        assert len(new) == LIMIT + (outcome == "Refused")
        script.file("a.log", log + times(left, b"\0"))
        script.run("migrate a.log b.log", *(told(2 * count + 1, left) if outcome == "Done" else refused("a.log", "6 Grown")))
        # The last one is not made.
        script.show("b.log", new if outcome == "Done" else turned(count, [entry(SECOND.clock + 2**14, "note", [MOST], MOST)]))


def long(script):
    script.case("logs of as many bytes as they may have")
    count = (LIMIT - 18) // 24
    script.file("a.log", digits(logs.head(version=1)) + times(count, logs.spelled([entry(0, "begin")], 0, 1)))
    script.run("migrate a.log b.log", *told(count))
    new = logs.head() + logs.spelled([entry(0, "begin")]) * count
    script.show("b.log", new)
    count = (LIMIT - 18) // 6
    script.file("a.log", digits(logs.head()) + times(count, logs.spelled([entry(0, "begin")])))
    script.run("migrate a.log b.log", *told(count))
    script.show("b.log", logs.head() + logs.spelled([entry(0, "begin")]) * count)
    # A byte string of which the last byte is missing, and then is there.
    size = 33000000
    for version in (1, 2):
        made = entry(1, "random", [0, size], size, b"\xab" * size)
        log = logs.held([made], version)
        front = log[: log.index(b"\xab" * 100)]
        script.file("a.log", digits(front) + times(size - 1, b"\xab"))
        script.run("migrate a.log b.log", *told(0, len(log) - 1 - 18))
        script.add("a.log", digits(b"\xab"))
        script.run("migrate a.log b.log", *told(1))
        script.show("b.log", logs.held([made]))


def failing(script):
    """Each call on files fails: the log is read, and the new one is made. What stood under its name stands."""
    new = logs.log(ASKED)
    for call, name, status in ((1, "the log cannot be read", "ReadFault"), (2, "the new log cannot be made", "WriteFault")):
        for onto, old in (("b.log", b"old"), ("a.log", logs.log(ASKED, 1) + b"\1")):
            script.case("%s, %s" % (name, "onto the log itself" if onto == "a.log" else "onto another file"))
            script.file("a.log", digits(logs.log(ASKED, 1) + b"\1"))
            script.file("b.log", text("old"))
            script.fail("files", call)
            script.run("migrate a.log " + onto, status)
            script.show(onto, old)
            if onto == "b.log":
                script.show("a.log", logs.log(ASKED, 1) + b"\1")
                # The call that failed is over.
                script.run("migrate a.log b.log", *told(6, 1))
                script.show("b.log", new)
    script.case("what is printed of a migration cannot be written, and the new log has been")
    script.file("a.log", digits(logs.log(ASKED, 1)))
    script.fail("output", 1)
    script.run("migrate a.log b.log", "WriteFault")
    script.show("b.log", new)
    script.fail("output", 1)
    script.run("migrate x b.log", "WriteFault")
    # A migration makes two calls on files, as one of an absent log makes one; it makes one write, and reads no input.
    script.fail("files", 6)
    script.fail("input", 1)
    script.fail("output", 2)
    script.run("migrate a.log b.log", *told(6))


def table(script):
    script.title("Logs that are written again")
    for part in (written, again, onto_itself, named, words, files, illegal, any_entries, rests, groups, grown, long, failing):
        part(script)
