"""The frames of threads: while they wait, at a trap, and of processes that ended or were killed."""

import logs
from modules import module
from script import digits
from sessions import ALONE, PAIRS, PLACES, alone, files, session
from shell_refusals import NO_NODE, syntax
from threads import IMPORTS, TYPES

NO_THREAD = "? 13 no such thread"
# The library's functions have the first numbers.
OWN = len(TYPES)


def guest(*functions, declared=""):
    """A guest of these functions, which are numbered from OWN on."""
    return module("(module %s %s %s)" % (IMPORTS, declared, "".join(functions)))


def frames(thread, *numbers):
    """The line of a thread's frames, by the numbers of the guest's own functions."""
    return "%d: %s" % (thread, " ".join(str(OWN + number) for number in numbers))


def walked(script, name, made, events, rows):
    """A session over one process, whose rows stand behind the number of an event or at once at the beginning."""
    alone(script, name, made, logs.held(logs.entries(events)))
    lines = []
    for at, *shown in rows:
        if at:
            thread, _, event = events[at - 1].rpartition(": ")
            lines.append(("goto %d" % at, "at %d: %d a %s %s" % (at, at, thread or "0", event)))
        lines += shown
    session(script, ALONE, lines)


def own(thread, *numbers):
    return "frames a %d" % thread, frames(thread, *numbers)


def none(thread):
    return "frames a %d" % thread, "%d: ended" % thread


def unmade(thread):
    return "frames a %d" % thread, NO_THREAD


# A start function above `_start`; a call through the table, also of the library's; a second thread and its end.
WAITS = guest(
    "(func $first (call $yield))",
    '(func $main (export "_start") (drop (call $spawn (i32.const 0) (i32.const 5))) (call $outer) (drop (call $join (i32.const 1))))',
    "(func $outer (call_indirect (type $none) (i32.const 1)) (call_indirect (type $none) (i32.const 2)))",
    "(func $inner (call $note (i64.const 7)))",
    "(func $worker (param i32) (call $inner))",
    declared="(type $none (func)) (start $first) (table 3 funcref) (elem (i32.const 0) $worker $inner $yield)",
)
WAITED = ("begin", "yield", "spawn 0 5 = 1", "note 7", "1: begin", "1: note 7", "yield", "join 1 = 0")


def waiting(script):
    walked(
        script,
        "frames of threads that wait",
        WAITS,
        WAITED,
        (
            (0, own(0, 0, 1), unmade(1), unmade(63)),
            (1, own(0, 0, 1)),
            (2, own(0, 1), unmade(1)),
            (3, own(0, 3, 2, 1), own(1, 4), unmade(2)),
            (4, own(0, 2, 1), own(1, 4)),
            (5, own(0, 2, 1), own(1, 3, 4)),
            (6, own(0, 2, 1), none(1), ("frames\ta 0x0", frames(0, 2, 1)), unmade(2)),
            (7, own(0, 1), none(1)),
            (8, none(0), none(1), unmade(2), ("threads a", "a finished")),
            (5, own(0, 2, 1), own(1, 3, 4)),
        ),
    )


def handled(script):
    made = guest(
        '(func $main (export "_start") (drop (call $on_signal (i32.const 5) (i32.const 0))) (call $inner))',
        "(func $inner (call $yield) (call $yield))",
        "(func $handler (param i32) (call $note (i64.const 1)))",
        declared="(table 1 funcref) (elem (i32.const 0) $handler)",
    )
    events = ("begin", "on_signal 5 0 = 0 ! 5", "note 1", "yield ! 5", "note 1", "yield")
    rows = ((2, own(0, 2, 0)), (3, own(0, 1, 0)), (4, own(0, 2, 1, 0)), (5, own(0, 1, 0)), (6, none(0)))
    walked(script, "frames with that of a handler", made, events, rows)


DEEP = "(func $deep (param i32) (if (local.get 0) (then (call $deep (i32.sub (local.get 0) (i32.const 1)))) (else (call $yield))))"


def deep(count):
    """A guest whose thread 0 waits with so many frames."""
    return guest('(func $main (export "_start") (call $deep (i32.const %d)))' % (count - 2), DEEP)


def told(count):
    """The frames of that guest."""
    numbers = [OWN + 1] * (count - 1) + [OWN]
    left = " and %d more" % (count - 64) if count > 64 else ""
    return "0: %s%s" % (" ".join(map(str, numbers[:64])), left)


def many(script):
    script.case("many frames: at most 64 are told")
    script.file("a.log", digits(logs.log([])))
    for count in (2, 63, 64, 65, 66, 511, 512):
        script.file("a.wasm", digits(deep(count)))
        session(script, ALONE, [("step", "at 1: 1 a 0 begin"), ("frames a 0", told(count)), ("threads a", "a running", "0 at yield")])


# What traps, the trap's name, and the frames then.
TRAPS = (
    ("unreachable", "unreachable", (1, 0)),
    ("(drop (i32.div_u (i32.const 1) (local.get 0)))", "zero divisor", (1, 0)),
    ("(drop (i32.div_s (i32.const 0x80000000) (i32.const -1)))", "overflow", (1, 0)),
    ("(call $last)", "memory range", (2, 1, 0)),
    ("(call_indirect (type $none) (i32.const 9))", "table range", (1, 0)),
    ("(call_indirect (type $none) (i32.const 2))", "empty element", (1, 0)),
    ("(call_indirect (type $other) (i64.const 0) (i32.const 1))", "type differs", (1, 0)),
    ("(loop (br 0))", "spent", (1, 0)),
    # Four frames of 4,000 locals have room and the fifth has none, which is none of them.
    ("(call $wide)", "exhausted", (3, 3, 3, 3, 1, 0)),
    ("(call_indirect (type $none) (i32.const 0))", "exhausted", (3, 3, 3, 3, 1, 0)),
)
DECLARED = "(memory 1) (type $none (func)) (type $other (func (param i64))) (table 3 funcref) (elem (i32.const 0) $wide $last)"


def trapping(what):
    """A guest that does this in the second function, whose one local is 0."""
    return guest(
        '(func $main (export "_start") (call $yield) (call $second (i32.const 0)))',
        "(func $second (param i32) %s)" % what,
        "(func $last (i32.store (i32.const 65533) (i32.const 1)))",
        "(func $wide (local %s) (call $wide))" % " ".join(["i64"] * 4000),
        declared=DECLARED,
    )


def traps(script):
    for what, name, numbers in TRAPS:
        ended = ("threads a", "a trapped " + name)
        rows = ((1, own(0, 0)), (2, own(0, *numbers), unmade(1), ended), (1, own(0, 0)), (2, own(0, *numbers)))
        walked(script, "frames at a trap: " + name, trapping(what), ("begin", "yield"), rows)


def recursion(script):
    script.case("frames at a trap: a call that goes too deep")
    script.file("a.log", digits(logs.log([])))
    script.file("a.wasm", digits(deep(600)))
    session(script, ALONE, [("step", "at 1: 1 a 0 begin"), ("threads a", "a trapped exhausted"), ("frames a 0", told(512))])


# The handler's frame would be the 513th.
UNHANDLED = guest(
    '(func $main (export "_start") (drop (call $on_signal (i32.const 5) (i32.const 0))) (call $deep (i32.const 510)))',
    DEEP,
    "(func $handler (param i32))",
    declared="(table 1 funcref) (elem (i32.const 0) $handler)",
)


def unhandled(script):
    ended = ("threads a", "a trapped exhausted")
    rows = ((1, own(0, 0)), (2, ("frames a 0", told(512))), (3, ("frames a 0", told(512)), ended))
    walked(script, "frames at a trap: a handler for which there is no room", UNHANDLED, ("begin", "on_signal 5 0 = 0", "yield ! 5"), rows)


def of_threads(script):
    made = guest(
        '(func $main (export "_start") (drop (call $spawn (i32.const 0) (i32.const 0))) (drop (call $spawn (i32.const 0) (i32.const 1))) (call $yield))',
        "(func $worker (param i32) (call $inner (local.get 0)))",
        "(func $inner (param i32) (if (local.get 0) (then (call $exit (i32.const 3)))) (call $yield) unreachable)",
        declared="(table 1 funcref) (elem (i32.const 0) $worker)",
    )
    begun = ("begin", "spawn 0 0 = 1", "spawn 0 1 = 2", "1: begin", "2: begin")
    waits = (own(0, 0), own(1, 2, 1), own(2, 2, 1))
    trapped = (none(0), own(1, 2, 1), none(2), unmade(3), ("threads a", "a trapped unreachable"))
    walked(script, "frames where one of three threads traps", made, (*begun, "1: yield"), ((3, own(1, 1), own(2, 1)), (5, *waits), (6, *trapped)))
    exited = (none(0), none(1), none(2), unmade(3), ("threads a", "a exited 3"))
    walked(script, "frames where one of three threads ends the process", made, (*begun, "2: exit 3"), ((5, *waits), (6, *exited), (5, *waits)))


def refused(script):
    files(script, "frames that are refused")
    rows = [
        ("step 99", PLACES[11]),
        ("frames pong 1", NO_THREAD),
        ("frames pong 63", NO_THREAD),
        # A log tells no end of a process that was killed.
        ("frames pong 0", "0: 2"),
        ("frames", syntax(7)),
        ("frames pong", syntax(12)),
        ("frames pong 64", syntax(13)),
        ("frames pang 64", syntax(13)),
        ("frames pong -1", syntax(13)),
        ("frames pong 0 0", syntax(15)),
        ("frames * 0", syntax(8)),
        ("frames @! 0", syntax(8)),
        ("frame pong 0", syntax(1)),
        ("frames pang 0", NO_NODE),
        ("frames pang 63", NO_NODE),
        ("step 0", PLACES[11]),
    ]
    session(script, PAIRS, rows)
    session(script, PAIRS, rows, 1)


def table(script):
    script.title("Frames")
    for part in (waiting, handled, many, traps, recursion, unhandled, of_threads, refused):
        part(script)
