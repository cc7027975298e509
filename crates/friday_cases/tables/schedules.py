"""Schedules: how their lines are read, and what their items do."""

import logs
from common import FRONT, begin, refused, replays, summary
from modules import Guest
from script import text, times

SLEEPER = Guest("sleeper")


def recorded(script, name, items, events, end, acted, idle, held):
    """A record whose log holds these events, and its replay."""
    script.run("record s", "Done", *summary(events, end, acted, idle))
    script.show("a.log", held)
    replays(script, events, end)


def at_time(time, version=logs.LATEST):
    return logs.log(["now = %d" % time, "note %d" % time], version)


def items(script):
    for name, lines, events, acted, idle, held in (
        ("three events", "clock 0 5\nrun 0 0 3\n", 3, 4, 0, at_time(5)),
        ("no items", "", 0, 0, 0, logs.head()),
        ("a try after the end", "run 0 0 4\n", 3, 3, 1, at_time(0)),
        ("a thread that is not live", "run 0 1\n", 0, 0, 1, logs.head()),
        ("the last time counts", "clock 0 7\nclock 0 -9223372036854775808\nrun 0 0 3\nclock 0 8", 3, 6, 0, at_time(-(2**63))),
        ("times after the call that asks", "run 0 0\nclock 0 9223372036854775807\nrun 0 0\nclock 0 3\nrun 0 0", 3, 5, 0, at_time(2**63 - 1)),
        ("minus zero", "clock 0 -0\nrun 0 0 3\n", 3, 4, 0, at_time(0)),
        (
            "blanks, comments, returns and zeros in front",
            "\r\n\t# run\n  clock\t0  -1 \r\nrun 0 0\nrun 0 63\nrun 00 0 0000000000000000000000000000000000000002\r",
            3,
            4,
            1,
            at_time(-1),
        ),
    ):
        begin(script, "a schedule with " + name, script.kept("now"), lines)
        recorded(script, name, lines, events, "finished" if events else "running", acted, idle, held)


def sleeps(script):
    """A sleep is answered once the time is not before its argument, both signed."""
    for name, lines, events, acted, idle, made in (
        ("before its time", "run 0 0\nclock 0 99\nrun 0 0 3\n", 1, 2, 3, []),
        ("before a time below zero", "clock 0 -100\nrun 0 0 5\n", 1, 2, 4, []),
        ("at its time", "run 0 0 2\nclock 0 100\nrun 0 0 2\n", 3, 4, 1, ["sleep_until 100 = 100", "note 100"]),
        (
            "after its time, and then before the time of another one",
            "clock 0 500\nrun 0 0 3\nclock 0 -6\nrun 0 0 2\n",
            3,
            5,
            2,
            ["sleep_until 100 = 500", "note 500"],
        ),
        (
            "and another one that is due at once",
            "clock 0 101\nrun 0 0 3\nclock 0 -5\nrun 0 0 5\n",
            6,
            8,
            2,
            ["sleep_until 100 = 101", "note 101", "sleep_until -5 = -5", "note -5", "now = -5"],
        ),
    ):
        begin(script, "a sleeper %s" % name, script.kept("sleeper"), lines)
        recorded(script, name, lines, events, "finished" if events == 6 else "running", acted, idle, logs.log(made))


def bad_front(script):
    script.case("schedules whose front is bad")
    script.file("a.wasm", script.kept("now"))
    for schedule, line in (
        ("", 1),
        ("friday 1\nrun 0 0", 2),
        ("friday 1", 2),
        ("friday 1\n", 2),
        ("# friday 1\r\n\n", 3),
        ("friday 2\n", 1),
        ("friday 01\n", 1),
        ("Friday 1\n", 1),
        ("friday 1 1\n", 1),
        ("friday 1\r\r\n", 1),
        ("friday 1\0\n", 1),
        ("process a a.wasm\nfriday 1\n", 1),
        ("friday 1\nprocess A a.wasm\n", 2),
        ("friday 1\nprocess a a.log\n", 2),
        ("friday 1\nprocess a a.mem\n", 2),
        ("friday 1\nprocess a a.out\n", 2),
        ("friday 1\nprocess a\n", 2),
        ("friday 1\nprocess a a.wasm a.wasm\n", 2),
        ("friday 1\nprocess %s a.wasm\n" % ("a" * 33), 2),
        ("friday 1\nprocess a %s\n" % ("a" * 256), 2),
        ("friday 1\nprocess a a.wasm\nprocess a b.wasm\n", 3),
        ("friday 1\n" + "".join("process p%d a.wasm\n" % p for p in range(17)), 18),
    ):
        script.file("s", text(schedule))
        script.run("record s", *refused("s", "line %d BadLine" % line))
    script.show("a.log", None)


BAD_ITEMS = (
    "run 1 0",
    "run 0 64",
    "run 0 0 0",
    "run 0 0 1000001",
    "run 0 0 +1",
    "run 0 0 -1",
    "run 0 0 1 1",
    "run 0 0 1 # once",
    "run 0",
    "run",
    "Run 0 0",
    "run 0 0 1\rrun 0 0 1",
    "run 0 0 1000000000000000000000000000000000000000",
    "run 18446744073709551616 0",
    "run x 0",
    "clock 0 9223372036854775808",
    "clock 0 -9223372036854775809",
    "clock 0 -1000000000000000000000000000000000000000",
    "clock 0 -",
    "clock 0 +1",
    "clock 0 --1",
    "clock 0",
    "clock 1 0",
    "kill 1",
    "kill",
    "kill 0 0",
    "deliver 0 0",
    "deliver 1 1",
    "deliver 0 9223372036854775808",
    "deliver 0 1 1",
    "deliver 0",
    "inject 0 0",
    "inject 0 0g",
    "inject 0 --",
    "inject 0 00 00",
    "inject 0",
    "inject 1 00",
    "random 0 000",
    "random 0 x",
    "random 0",
    "random 1 00",
    "signal 0 0",
    "signal 0 32",
    "signal 0 -1",
    "signal 0 1 1",
    "signal 0",
    "signal 1 1",
)


def bad_items(script):
    script.case("schedules with a bad item")
    script.file("a.wasm", script.kept("now"))
    rows = [(item, "line 3 BadLine") for item in BAD_ITEMS]
    rows += [
        ("run 0 0\n\nfriday 1\nrun 0", "line 5 BadLine"),
        ("run 0 0\nprocess b a.wasm", "line 4 BadLine"),
        ("process b a.wasm\nkill 2", "line 4 BadLine"),
        ("run 0 0 600000\nrun 0 0 600000", "TooMany"),
        ("run 0 0 1000000\nclock 0 1\nrun 0 63", "TooMany"),
        # A bad line is named, wherever it stands.
        ("run 0 0 600000\nrun 0 0 600000\nrun 0 0 0", "line 5 BadLine"),
    ]
    for item, reason in rows:
        script.file("s", text(FRONT + item))
        script.run("record s", *refused("s", reason))
    # A word of a megabyte.
    script.file("s", text(FRONT + "run 0 0 ") + times(1000000, b"1"))
    script.run("record s", *refused("s", "line 3 BadLine"))
    script.show("a.log", None)


def most_tries(script):
    begin(script, "as many tries as a schedule may have", script.kept("now"), "run 0 0 1000000\nclock 0 1\n")
    script.run("record s", "Done", *summary(3, "finished", 4, 999997))
    script.show("a.log", at_time(0))


def names(script):
    script.case("a name and a module's name as long as they may be")
    name, file = "az09_" * 6 + "az", "!" * 255
    script.file(file, script.kept("now"))
    script.file("s", text("friday 1\nprocess %s %s\nrun 0 0 3\n" % (name, file)))
    script.run("record s", "Done", "%s: 3 events, finished" % name, "items: 3 acted, 0 idle")
    script.show(name + ".log", logs.log(["now = 0", "note 0"], name=name.encode()))


def table(script):
    script.title("Schedules")
    script.keep("sleeper", SLEEPER.module)
    for part in (items, sleeps, bad_front, bad_items, most_tries, names):
        part(script)
