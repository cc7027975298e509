"""Schedules of groups whose processes make each of the calls, with signals and threads."""

import logs
from modules import Guest, module
from pairs import Log
from schedules_of_logs import turned_back
from script import digits
from threads import NOTED

# What each call takes and gives.
TYPES = {
    "exit": "(param i32)",
    "note": "(param i64)",
    "print": "(param i32 i32) (result i32)",
    "now": "(result i64)",
    "sleep_until": "(param i64) (result i64)",
    "random": "(param i32 i32) (result i32)",
    "me": "(result i32)",
    "send": "(param i32 i32 i32) (result i32)",
    "recv": "(param i32 i32 i32) (result i32)",
    "try_recv": "(param i32 i32 i32) (result i32)",
    "spawn": "(param i32 i32) (result i32)",
    "yield": "",
    "join": "(param i32) (result i32)",
    "lock": "(param i32) (result i32)",
    "unlock": "(param i32) (result i32)",
    "on_signal": "(param i32 i32) (result i32)",
    "thread": "(result i32)",
}
IMPORTS = "".join('(import "liblog" "%s" (func $%s %s))' % (name, name, kind) for name, kind in TYPES.items())


def call(written):
    """Instructions for a call in its written form, of which the reply is dropped and the signal is left out."""
    name, *numbers = written.partition("!")[0].partition("=")[0].split()
    kind = "i64" if "(param i64)" in TYPES[name] else "i32"
    made = "(call $%s %s)" % (name, " ".join("(%s.const %s)" % (kind, number) for number in numbers))
    return "(drop %s)" % made if "result" in TYPES[name] else made


def written_form(row):
    """An event is told in its written form, alone or with its bytes, or with those and a tag."""
    written, data, tag = (row, b"", None) if isinstance(row, str) else (*row, None)[:3]
    return written, data, tag


def events(rows):
    """The entries of these events, with the clocks that they have."""
    made, clock = [], 0
    for written, data, tag in map(written_form, rows):
        clock = 1 + max(clock, tag[1] if tag else 0)
        made.append(logs.event(clock, written, data)._replace(tag=tag))
    return made


class Handled(str):
    """An event of a handler, and not of what its thread calls by itself."""


def calls_of_thread_0(rows):
    forms = [written_form(row)[0] for row in rows if not isinstance(row, Handled)]
    return [call(written) for written in forms if written != "begin" and ":" not in written]


# All calls of a process, with answers of each kind. Its memory begins with four letters.
CALLS = (
    *("begin", "me = 0", "thread = 0", "note -7", ("print 0 4 = 4", b"abcd"), "print 65533 4 = -1", "print 65536 0 = 0"),
    *("now = 5", "now = -9223372036854775808", "sleep_until 10 = 12", "sleep_until -3 = -3", "now = 9223372036854775807"),
    *("random 16 0 = 0", ("random 16 3 = 3", b"\1\2\3"), "random 65536 1 = -1", "random 65536 0 = 0", ("random 16 1 = 1", b"\xff")),
    *(("send 1 0 4 = 4", b"abcd"), ("send 9 0 1 = 1", b"a"), "send 1 65536 1 = -1", "send 2 0 0 = 0"),
    # Of two datagrams none waits in between, and the second has no bytes.
    *(("try_recv 64 16 32 = 2", b"hi", (1, 7)), "try_recv 64 16 32 = -2", "try_recv 64 16 32 = 0", "try_recv 65533 4 32 = -1"),
    *("recv 65533 4 32 = -1", ("recv 64 2 32 = 2", b"ab"), "recv 64 60001 32 = -1", ("recv 64 0 32 = 0", b"", (2, 50))),
    *("spawn 0 7 = 1", "spawn 9 7 = -1", "on_signal 3 0 = 0", "on_signal 5 0 = 0", "on_signal 0 0 = -1"),
    # The recording would have delivered 3 first, had both been pending.
    *("yield ! 5", Handled("note 5 ! 3"), Handled("note 3"), "lock 1 = 0", "lock 1 = -1", "1: begin", "unlock 1 = 0", "1: note 7"),
    *("join 1 = 0", "join 1 = 0", "unlock 1 = -1", "exit 3"),
)
ALL = module(
    '(module %s (memory 1) (data (i32.const 0) "abcd") (table 1 funcref) (elem (i32.const 0) $f) (func $f (param i32) %s) (func (export "_start") %s))'
    % (IMPORTS, NOTED, "".join(calls_of_thread_0(CALLS)))
)
# What `taker` takes where a datagram waits at once.
TAKEN = (
    ("try_recv 64 3 32 = 3", b"\xd7LO", (0, 3)),
    ("recv 64 3 32 = 1", b"\1"),
    ("recv 64 0 32 = 0", b"", (1, 9)),
    "recv 65533 4 32 = -1",
    ("recv 65532 4 32 = 4", b"\0\0\0\0"),
)


def each_call(script):
    assert {written_form(row)[0].rpartition(":")[2].split()[0] for row in CALLS} == set(logs.KINDS)
    made = {"all": digits(ALL), "taker": digits(Guest("taker").module), "drawer": digits(Guest("drawer").module)}
    drawn = ["begin", ("random 0 2 = 2", b"\0\0"), "random 0 0 = 0", "random 65536 1 = -1", ("random 0 1 = 1", b"\x0b")]
    given = (
        Log(4, 0, "all", events(CALLS), module="all", end="exited 3"),
        Log(4, 1, "one", events(["begin", "try_recv 64 3 32 = -2", *TAKEN[1:]]), module="taker", end="finished"),
        Log(4, 2, "two", events(["begin", *TAKEN]), module="taker", end="finished"),
        Log(4, 3, "three", events(drawn), module="drawer", end="finished"),
    )
    for versions in ((2, 2, 2, 2), (1, 2, 1, 2), (2, 1, 1, 1)):
        some = tuple(log.but(version=version) for log, version in zip(given, versions))
        turned_back(script, "the schedule of processes that make all calls, in the versions %d, %d, %d and %d" % versions, made, some)


# ---- signals and threads

SIGNALS = (
    "a signal that is not the lowest one that could be pending",
    ("on_signal 31 0", "on_signal 1 0", "yield", "yield"),
    ("begin", "on_signal 31 0 = 0 ! 31", "note 31", "on_signal 1 0 = 0 ! 31", "note 31 ! 1", "note 1", "yield ! 1", "note 1", "yield"),
)
EACH_TIME = (
    "the same signal at each event",
    ("on_signal 5 0", "yield"),
    ("begin", "on_signal 5 0 = 0 ! 5", "note 5 ! 5", "note 5 ! 5", "note 5", "yield ! 5", "note 5"),
)
OF_THREADS = (
    "signals of threads at their beginning and at their end",
    ("on_signal 5 0", "spawn 1 7", "spawn 1 8", "join 1", "join 2"),
    (
        *("begin", "on_signal 5 0 = 0", "spawn 1 7 = 1 ! 5", "note 5", "spawn 1 8 = 2", "2: begin ! 5", "1: begin", "2: note 5"),
        *("1: note 7 ! 5", "2: note 8", "1: note 5", "join 1 = 0", "join 2 = 0"),
    ),
)


def guest(main):
    functions = "(func $f0 (param i32) %s) (func $f1 (param i32) %s)" % (NOTED, NOTED)
    table = "(table 2 funcref) (elem (i32.const 0) $f0 $f1)"
    return digits(module('(module %s %s %s (func (export "_start") %s))' % (IMPORTS, table, functions, "".join(map(call, main)))))


def signals(script):
    for name, main, made in (SIGNALS, EACH_TIME, OF_THREADS):
        given = (Log(1, 0, "a", logs.entries(made), module="a", end="finished"),)
        turned_back(script, "the schedule of " + name, {"a": guest(main)}, given)


def equal_clocks(script):
    """Two processes whose events have the same clocks stand in turns, and the order is by number, not by the words."""
    main = ("now", "yield", "now")
    given = tuple(
        Log(2, p, "ab"[p], logs.entries(["begin", "now = %d" % (7 - p), "yield", "now = %d" % p]), module="a", end="finished") for p in (0, 1)
    )
    turned_back(script, "the schedule of processes with the same clocks", {"a": guest(main)}, given)


def ends(script):
    """Processes that ended in each way, wait, or never began."""
    made = {
        "trap": digits(module('(module %s (func (export "_start") (call $yield) unreachable))' % IMPORTS)),
        "waits": guest(("lock 1", "spawn 0 1", "join 1")),
        "least": guest(()),
        "exits": guest(("exit -1", "yield")),
    }
    given = (
        Log(5, 0, "trap", events(["begin", "yield"]), module="trap", end="trapped unreachable"),
        Log(5, 1, "waits", events(["begin", "lock 1 = 0", "spawn 0 1 = 1", "1: begin"]), module="waits"),
        Log(5, 2, "least", events(["begin"]), module="least", end="finished"),
        Log(5, 3, "exits", events(["begin", "exit -1"]), module="exits", end="exited -1"),
        Log(5, 4, "never", [], module="exits"),
    )
    turned_back(script, "the schedule of processes that ended in many ways", made, given)


def table(script):
    script.title("Schedules of logs of all calls")
    for part in (each_call, signals, equal_clocks, ends):
        part(script)
