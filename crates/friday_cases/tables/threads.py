"""Threads, locks and signals: what the calls about them are answered, what waits, and which logs of them are legal."""

import logs
from common import begin, replays, report, summary
from modules import module
from script import digits, text

# What the calls of the guests take and give.
TYPES = {
    "exit": "(param i32)",
    "note": "(param i64)",
    "spawn": "(param i32 i32) (result i32)",
    "yield": "",
    "join": "(param i32) (result i32)",
    "lock": "(param i32) (result i32)",
    "unlock": "(param i32) (result i32)",
    "on_signal": "(param i32 i32) (result i32)",
    "thread": "(result i32)",
}
IMPORTS = "".join('(import "liblog" "%s" (func $%s %s))' % (name, name, kind) for name, kind in TYPES.items())
# A function of the table notes what it was given: a thread's argument, or a signal's number.
NOTED = "(call $note (i64.extend_i32_u (local.get 0)))"


def call(written):
    """Instructions for a call in its written form, of which the reply is dropped."""
    name, *numbers = written.partition("=")[0].split()
    made = "(call $%s %s)" % (name, " ".join("(i32.const %s)" % number for number in numbers))
    return "(drop %s)" % made if "result" in TYPES[name] else made


def calls(*written):
    return "".join(map(call, written))


def guest(main, *functions):
    """A guest whose first thread does `main`; each function, with one number as its argument, stands in the table."""
    names = ["$f%d" % at for at in range(len(functions))]
    made = "".join("(func %s (param i32) %s)" % pair for pair in zip(names, functions))
    table = "(table %d funcref) (elem (i32.const 0) %s)" % (len(names), " ".join(names))
    return module('(module %s %s %s (func (export "_start") %s))' % (IMPORTS, table, made, main))


def counted(items, events):
    """How many items act and how many are idle: each event is a try, and a signal is never idle."""
    fields = [item.split() for item in items]
    tries = sum(int((item + ["1"])[3]) for item in fields if item[0] == "run")
    signals = sum(item[0] == "signal" for item in fields)
    assert tries >= events and all(item[0] in ("run", "signal") for item in fields)
    return events + signals, tries - events


def log_of(events):
    return logs.held(logs.entries(events))


def recorded(script, name, made, items, events, end):
    begin(script, name, digits(made), "".join(item + "\n" for item in items))
    script.run("record s", "Done", *summary(len(events), end, *counted(items, len(events))))
    script.show("a.log", log_of(events))
    replays(script, len(events), end)


# What each thread does, the items, the events and the end.
THREADS = (
    (
        "a join that waits",
        guest(calls("spawn 0 7", "join 1"), ""),
        ("run 0 0 2", "run 0 0", "run 0 1", "run 0 0"),
        ("begin", "spawn 0 7 = 1", "1: begin", "join 1 = 0"),
        "finished",
    ),
    (
        "a thread that is joined twice after its end",
        guest(calls("spawn 0 0", "join 1", "join 1"), ""),
        ("run 0 0 2", "run 0 1 2", "run 0 0 2"),
        ("begin", "spawn 0 0 = 1", "1: begin", "join 1 = 0", "join 1 = 0"),
        "finished",
    ),
    (
        "threads that wait for each other",
        guest(calls("spawn 0 0", "join 1"), calls("join 0")),
        ("run 0 0 2", "run 0 1 2", "run 0 0 2"),
        ("begin", "spawn 0 0 = 1", "1: begin"),
        "running",
    ),
    (
        "what threads are given",
        guest(calls("spawn 0 7", "spawn 1 -1"), NOTED + calls("thread"), calls("thread") + NOTED),
        ("run 0 2", "run 0 0 4", "run 0 2 3", "run 0 1 3"),
        (
            ("begin", "spawn 0 7 = 1", "spawn 1 -1 = 2")
            + ("2: begin", "2: thread = 2", "2: note 4294967295")
            + ("1: begin", "1: note 7", "1: thread = 1")
        ),
        "finished",
    ),
    (
        "a thread that is made by another",
        guest(calls("spawn 0 1"), calls("spawn 1 2"), NOTED),
        ("run 0 0 2", "run 0 1 2", "run 0 2 2"),
        ("begin", "spawn 0 1 = 1", "1: begin", "1: spawn 1 2 = 2", "2: begin", "2: note 2"),
        "finished",
    ),
    (
        "a trap on the second thread",
        guest(calls("spawn 0 0", "yield"), "unreachable"),
        ("run 0 0 2", "run 0 1", "run 0 0"),
        ("begin", "spawn 0 0 = 1", "1: begin"),
        "trapped unreachable",
    ),
    (
        "an exit on the second thread",
        guest(calls("spawn 0 0", "yield"), calls("exit 3")),
        ("run 0 0 2", "run 0 1 3", "run 0 0"),
        ("begin", "spawn 0 0 = 1", "1: begin", "1: exit 3"),
        "exited 3",
    ),
    # Thread 0 and the 63 that it makes are 64.
    (
        "the 65th thread",
        guest(calls(*("spawn 0 %d" % at for at in range(65))), NOTED),
        ("run 0 0 64", "run 0 63 3", "run 0 0 2"),
        (
            ("begin", *("spawn 0 %d = %d" % (at, at + 1) for at in range(63)))
            + ("63: begin", "63: note 62", "spawn 0 63 = -1", "spawn 0 64 = -1")
        ),
        "running",
    ),
)

LOCKS = (
    (
        "a lock that is taken and given back twice",
        guest(calls("lock 1", "lock 1", "unlock 1", "unlock 1")),
        ("run 0 0 5",),
        ("begin", "lock 1 = 0", "lock 1 = -1", "unlock 1 = 0", "unlock 1 = -1"),
        "finished",
    ),
    (
        "a lock that a thread keeps after its end",
        guest(calls("spawn 0 7", "lock 1", "yield"), calls("lock 1")),
        ("run 0 0 3", "run 0 1", "run 0 1", "run 0 0", "run 0 1 2"),
        ("begin", "spawn 0 7 = 1", "lock 1 = 0", "1: begin", "yield"),
        "running",
    ),
    (
        "a lock that goes from thread to thread",
        guest(calls("spawn 0 0", "lock 1", "unlock 1", "unlock 1"), calls("lock 1", "lock 1", "unlock 1")),
        ("run 0 0 3", "run 0 1 2", "run 0 0", "run 0 1", "run 0 0", "run 0 1 2"),
        (
            ("begin", "spawn 0 0 = 1", "lock 1 = 0", "1: begin", "unlock 1 = 0", "1: lock 1 = 0")
            + ("unlock 1 = -1", "1: lock 1 = -1", "1: unlock 1 = 0")
        ),
        "finished",
    ),
    (
        "locks of several numbers",
        guest(calls("spawn 0 0", "lock 1"), calls("lock 2", "lock -1", "lock 0", "lock 1")),
        ("run 0 0 3", "run 0 1 6"),
        ("begin", "spawn 0 0 = 1", "lock 1 = 0", "1: begin", "1: lock 2 = 0", "1: lock -1 = 0", "1: lock 0 = 0"),
        "running",
    ),
)

# Calls down to a `yield`, on which no call is left.
DEEP = "local.get 0 if local.get 0 i32.const 1 i32.sub call $f1 else call $yield end"

# Open blocks and operands of a thread where a signal comes, the locals of the handler beside its argument, and the end: all of them
# together are 16,384, or one more.
FULL = (
    (0, 16383, 0, "finished"),
    (0, 16384, 0, "trapped exhausted"),
    (0, 12288, 4095, "finished"),
    (0, 12289, 4095, "trapped exhausted"),
    (1000, 15383, 0, "finished"),
    (1000, 15384, 0, "trapped exhausted"),
)


def full(blocks, operands, own, end):
    """A handler that does nothing, on a thread that has so much on it."""
    held = "block " * blocks + "i32.const 1 " * operands + "call $yield " + "drop " * operands + "end " * blocks
    made = guest(calls("on_signal 5 0") + held, "(local %s)" % ("i64 " * own))
    name = "a handler over %d blocks and %d operands, with %d locals of its own" % (blocks, operands, own)
    return name, made, ("run 0 0 2", "signal 0 5", "run 0 0 2"), ("begin", "on_signal 5 0 = 0", "yield ! 5"), end


SIGNALS = (
    (
        "a signal that has a handler, and one that has none",
        guest(calls("on_signal 5 0", "yield"), calls("thread")),
        ("run 0 0", "signal 0 3", "signal 0 5", "run 0 0 3"),
        ("begin", "on_signal 5 0 = 0 ! 5", "thread = 0", "yield"),
        "finished",
    ),
    (
        "a signal at the exit",
        guest(calls("on_signal 4 0", "exit 3"), ""),
        ("run 0 0 2", "signal 0 4", "run 0 0 2"),
        ("begin", "on_signal 4 0 = 0", "exit 3"),
        "exited 3",
    ),
    (
        "the lowest signal first, each once",
        guest(calls("on_signal 5 0", "on_signal 3 0", "yield", "yield", "yield"), NOTED),
        ("run 0 0 3", "signal 0 7", "signal 0 5", "signal 0 3", "signal 0 5", "run 0 0 6"),
        ("begin", "on_signal 5 0 = 0", "on_signal 3 0 = 0", "yield ! 3", "note 3 ! 5", "note 5", "yield", "yield"),
        "finished",
    ),
    (
        "the first signal and the last, from the beginning on",
        guest(calls("on_signal 31 0", "on_signal 1 0", "yield"), NOTED),
        ("signal 0 31", "signal 0 1", "signal 0 30", "run 0 0 7", "signal 0 1"),
        ("begin", "on_signal 31 0 = 0 ! 31", "note 31", "on_signal 1 0 = 0 ! 1", "note 1", "yield"),
        "finished",
    ),
    (
        "a handler that is removed and set again",
        guest(calls("on_signal 5 0", "on_signal 5 -1", "yield", "on_signal 5 0", "yield"), NOTED),
        ("run 0 0 2", "signal 0 5", "run 0 0 5"),
        ("begin", "on_signal 5 0 = 0", "on_signal 5 -1 = 0", "yield", "on_signal 5 0 = 0 ! 5", "note 5", "yield"),
        "finished",
    ),
    (
        "a handler in place of another",
        guest(calls("on_signal 5 0", "on_signal 5 1"), calls("yield"), NOTED),
        ("run 0 0 2", "signal 0 5", "run 0 0 2"),
        ("begin", "on_signal 5 0 = 0", "on_signal 5 1 = 0 ! 5", "note 5"),
        "finished",
    ),
    (
        "a handler that does not fit, beside the one that stays",
        guest(calls("on_signal 5 0", "on_signal 5 9"), NOTED),
        ("run 0 0 2", "signal 0 5", "run 0 0 2"),
        ("begin", "on_signal 5 0 = 0", "on_signal 5 9 = -1 ! 5", "note 5"),
        "finished",
    ),
    (
        "a signal at the beginning of a thread",
        guest(calls("on_signal 5 1", "spawn 0 7", "yield"), NOTED, NOTED),
        ("run 0 0 3", "signal 0 5", "run 0 1 3", "run 0 0"),
        ("begin", "on_signal 5 1 = 0", "spawn 0 7 = 1", "1: begin ! 5", "1: note 5", "1: note 7", "yield"),
        "finished",
    ),
    (
        "a signal, and a thread that waits",
        guest(calls("on_signal 5 0", "spawn 1 0", "join 1"), NOTED, calls("yield")),
        ("run 0 0 3", "signal 0 5", "run 0 0", "run 0 1 3", "run 0 0"),
        ("begin", "on_signal 5 0 = 0", "spawn 1 0 = 1", "1: begin ! 5", "1: note 5", "1: yield", "join 1 = 0"),
        "finished",
    ),
    (
        "a handler that traps",
        guest(calls("on_signal 5 0", "yield"), "unreachable"),
        ("run 0 0 2", "signal 0 5", "run 0 0 2"),
        ("begin", "on_signal 5 0 = 0", "yield ! 5"),
        "trapped unreachable",
    ),
    (
        "a handler that exits",
        guest(calls("on_signal 5 0", "yield"), calls("exit 9")),
        ("run 0 0 2", "signal 0 5", "run 0 0 3"),
        ("begin", "on_signal 5 0 = 0", "yield ! 5", "exit 9"),
        "exited 9",
    ),
    (
        "a handler in the 512th frame",
        guest(calls("on_signal 5 0") + "i32.const 509 call $f1", NOTED, DEEP),
        ("run 0 0 2", "signal 0 5", "run 0 0 2"),
        ("begin", "on_signal 5 0 = 0", "yield ! 5", "note 5"),
        "finished",
    ),
    (
        "a handler in the 513th frame",
        guest(calls("on_signal 5 0") + "i32.const 510 call $f1", NOTED, DEEP),
        ("run 0 0 2", "signal 0 5", "run 0 0 2"),
        ("begin", "on_signal 5 0 = 0", "yield ! 5"),
        "trapped exhausted",
    ),
    *(full(*row) for row in FULL),
)

# The elements 0 to 4; the element 5 is empty, and there is no element 6.
ELEMENTS = """(table 6 funcref) (elem (i32.const 0) $fits $wide $exit $answers $none)
  (func $fits (param i32)) (func $wide (param i64)) (func $answers (param i32) (result i32) i32.const 1) (func $none)"""
NO_ELEMENT = (1, 2, 3, 4, 5, 6, 2**31, -2, -1)
BAD_SIGNALS = (0, 32, 37, 2**31 + 5, -1)
ANSWERS = [
    *("spawn %d 7 = -1" % at for at in NO_ELEMENT),
    *("join %d = -1" % at for at in (0, 1, 63, 64, -1)),
    *("unlock 0 = -1", "lock 0 = 0", "lock 0 = -1", "unlock 1 = -1", "unlock 0 = 0", "unlock 0 = -1"),
    *("lock -1 = 0", "unlock -1 = 0"),
    *("on_signal %d 0 = -1" % at for at in BAD_SIGNALS),
    *("on_signal %d -1 = -1" % at for at in BAD_SIGNALS),
    # Of no element, -1 removes the handler, whether there is one or not.
    *("on_signal 1 %d = %d" % (at, 0 if at == -1 else -1) for at in NO_ELEMENT),
    *("on_signal 1 0 = 0", "on_signal 1 -1 = 0", "on_signal 31 0 = 0", "spawn 0 7 = 1"),
]


def told(script):
    for rows in (THREADS, LOCKS, SIGNALS):
        for name, made, items, events, end in rows:
            recorded(script, name, made, items, events, end)


def answers(script):
    """Each argument that is bad, and what is right beside it."""
    made = module('(module %s %s (func (export "_start") %s))' % (IMPORTS, ELEMENTS, calls(*ANSWERS)))
    recorded(script, "arguments of threads, locks and signals", made, ("run 0 0 100",), ["begin"] + ANSWERS, "running")
    written = ("spawn 0 0 = -1", "on_signal 1 0 = -1", "on_signal 1 -1 = 0")
    made = module('(module %s (func (export "_start") %s))' % (IMPORTS, calls(*written)))
    recorded(script, "threads and signals where there is no table", made, ("run 0 0 5",), ("begin",) + written, "finished")


def another_process(script):
    script.case("a signal of one process of two")
    script.file("a.wasm", digits(guest(calls("on_signal 5 0", "yield"), NOTED)))
    items = ("run 0 0 2", "run 1 0 2", "signal 1 5", "run 0 0 2", "run 1 0 2")
    script.file("s", text("friday 1\nprocess a a.wasm\nprocess b a.wasm\n" + "".join(item + "\n" for item in items)))
    script.run("record s", "Done", "a: 3 events, finished", "b: 4 events, finished", "items: 8 acted, 1 idle")
    for p, (name, last) in enumerate(((b"a", ["yield"]), (b"b", ["yield ! 5", "note 5"]))):
        made = logs.entries(["begin", "on_signal 5 0 = 0"] + last)
        script.show(name.decode() + ".log", logs.held(made, name=name, count=2, process=p))


WAITING = guest(calls("on_signal 3 0", "on_signal 5 0", "spawn 1 7", "lock 1", "join 1"), NOTED, calls("lock 1"))
WAITED = ["begin", "on_signal 3 0 = 0", "on_signal 5 0 = 0", "spawn 1 7 = 1", "lock 1 = 0", "1: begin"]


def legal(script):
    """A log may deliver any signal that has a handler, at any event but an exit."""
    script.case("logs that deliver signals")
    script.file("a.wasm", digits(WAITING))
    front = WAITED[:3]
    for events in (
        WAITED,
        ["begin", "on_signal 3 0 = 0 ! 3", "note 3", "on_signal 5 0 = 0 ! 3", "note 3 ! 3", "note 3"],
        front + ["spawn 1 7 = 1 ! 5", "note 5 ! 3", "note 3", "lock 1 = 0 ! 3", "note 3"],
        WAITED[:5] + ["1: begin ! 5", "1: note 5 ! 3", "1: note 3"],
    ):
        script.file("a.log", digits(log_of(events)))
        replays(script, len(events), "running")


def divergences(script):
    """Each reason by the last entry."""
    script.case("logs of threads, locks and signals that are not legal")
    script.file("a.wasm", digits(WAITING))
    for at, other, reason in (
        (3, "1: begin", "2 NoThread"),
        (7, "1: begin", "3 OtherCall"),
        (7, "2: begin", "2 NoThread"),
        (7, "63: begin", "2 NoThread"),
        (7, "64: begin", "2 NoThread"),
        (2, "spawn 1 7 = 1", "3 OtherCall"),
        (4, "spawn 0 7 = 1", "4 OtherArguments"),
        (4, "spawn 1 8 = 1", "4 OtherArguments"),
        (4, "spawn 1 7", "6 OtherReply"),
        (4, "spawn 1 7 = 2", "6 OtherReply"),
        (4, "spawn 1 7 = -1", "6 OtherReply"),
        (2, "on_signal 3 0 = -1", "6 OtherReply"),
        (2, "on_signal 3 0 = 1", "6 OtherReply"),
        (5, "lock 2", "4 OtherArguments"),
        (5, "lock 1 = -1", "6 OtherReply"),
        (7, "1: lock 1 = 0", "6 OtherReply"),
        (7, "1: lock 1 = -1", "6 OtherReply"),
        (7, "join 1 = 0", "6 OtherReply"),
        (7, "join 1 = -1", "6 OtherReply"),
        (2, "on_signal 3 0 = 0 ! 5", "7 NoHandler"),
        (3, "on_signal 5 0 = 0 ! 4", "7 NoHandler"),
        (3, "on_signal 5 0 = 0 ! 32", "7 NoHandler"),
        (3, "on_signal 5 0 = 0 ! 37", "7 NoHandler"),
        (3, "on_signal 5 0 = 0 ! 255", "7 NoHandler"),
        (1, "begin ! 3", "7 NoHandler"),
        (7, "1: lock 1 = 0 ! 3", "6 OtherReply"),
    ):
        script.file("a.log", digits(log_of(WAITED[: at - 1] + [other])))
        verdict = "diverged at %d: %s" % (at, reason)
        script.run("replay a.wasm a.log", "Diverged", *report(at - 1, "running", verdict))


def after_the_end(script):
    script.case("a log of a thread after its end, and of a signal at an exit")
    script.file("a.wasm", digits(guest(calls("on_signal 4 0", "spawn 1 0"), "", calls("exit 3"))))
    front = ["begin", "on_signal 4 0 = 0", "spawn 1 0 = 1"]
    for other, at, reason in (("yield", 4, "2 NoThread"), ("1: exit 3 ! 4", 5, "7 NoHandler")):
        events = front + ["1: begin"][: at - 4] + [other]
        script.file("a.log", digits(log_of(events)))
        script.run("replay a.wasm a.log", "Diverged", *report(at - 1, "running", "diverged at %d: %s" % (at, reason)))


def table(script):
    script.title("Threads, locks and signals")
    for part in (told, answers, another_process, legal, divergences, after_the_end):
        part(script)
