"""Guests: each operator, each way in which they end, and each call of a process of one thread."""

import logs
from common import begin, replays, summary
from modules import Guest, start
from script import digits

# Guests whose comments tell their events and their end.
TOLD = (
    "i32_compare",
    "i32_arithmetic",
    "i64_compare",
    "i64_arithmetic",
    "widths",
    "sign_extension",
    "loads",
    "stores",
    "grow",
    "grow_to_maximum",
    "grow_past_256",
    "globals",
    "locals",
    "branches",
    "table",
    "start",
    "start_twice",
    "segments",
    "calls",
    "all_imports",
)

EXIT = '(import "liblog" "exit" (func $exit (param i32)))'
NOTE = '(import "liblog" "note" (func $note (param i64)))'
FUNCTIONS = """(type $f (func (result i32))) (table 3 funcref) (elem (i32.const 0) $one) (elem (i32.const 2) $other)
  (func $one (type $f) i32.const 1) (func $other (param i64))"""
RECURSION = "(func $f (param i32) local.get 0 if local.get 0 i32.const 1 i32.sub call $f end)"


def element(index):
    return "i32.const %d call_indirect (type $f) drop" % index


def dropped(written):
    return "(drop (%s))" % written


# What a guest declares, what its `_start` does, and how it ends in its first burst.
ENDS = (
    ("nothing to do", "", "", "finished"),
    ("a return", "", "return unreachable", "finished"),
    ("unreachable", "", "unreachable", "trapped unreachable"),
    ("unreachable in the start function", "(func $f unreachable) (start $f)", "", "trapped unreachable"),
    ("i32.div_s by zero", "", dropped("i32.div_s (i32.const 1) (i32.const 0)"), "trapped zero divisor"),
    ("i32.div_u by zero", "", dropped("i32.div_u (i32.const 1) (i32.const 0)"), "trapped zero divisor"),
    ("i32.rem_s by zero", "", dropped("i32.rem_s (i32.const 0x80000000) (i32.const 0)"), "trapped zero divisor"),
    ("i32.rem_u by zero", "", dropped("i32.rem_u (i32.const 0) (i32.const 0)"), "trapped zero divisor"),
    ("i64.div_s by zero", "", dropped("i64.div_s (i64.const 1) (i64.const 0)"), "trapped zero divisor"),
    ("i64.div_u by zero", "", dropped("i64.div_u (i64.const 1) (i64.const 0)"), "trapped zero divisor"),
    ("i64.rem_s by zero", "", dropped("i64.rem_s (i64.const -1) (i64.const 0)"), "trapped zero divisor"),
    ("i64.rem_u by zero", "", dropped("i64.rem_u (i64.const 0) (i64.const 0)"), "trapped zero divisor"),
    ("the least i32 by -1", "", dropped("i32.div_s (i32.const 0x80000000) (i32.const -1)"), "trapped overflow"),
    ("the least i64 by -1", "", dropped("i64.div_s (i64.const 0x8000000000000000) (i64.const -1)"), "trapped overflow"),
    ("a store past 256 pages", "(memory 256)", "(i32.store (i32.const 16777213) (i32.const 7))", "trapped memory range"),
    ("an address past 2^32", "(memory 1)", "(i32.store offset=4294967295 (i32.const -1) (i32.const 7))", "trapped memory range"),
    ("a base below zero", "(memory 1)", dropped("i32.load8_u offset=2 (i32.const -1)"), "trapped memory range"),
    ("a load in a memory of no page", "(memory 0)", dropped("i32.load8_u (i32.const 0)"), "trapped memory range"),
    ("a load behind a growth that was refused", "(memory 1 1)", "(drop (memory.grow (i32.const 1)))" + dropped("i32.load8_u (i32.const 65536)"), "trapped memory range"),
    ("an element", FUNCTIONS, element(0), "finished"),
    ("an empty element", FUNCTIONS, element(1), "trapped empty element"),
    ("an element of another type", FUNCTIONS, element(2), "trapped type differs"),
    ("the element past the last", FUNCTIONS, element(3), "trapped table range"),
    ("the element 2^31", FUNCTIONS, element(2**31), "trapped table range"),
    ("the element 2^32 - 1", FUNCTIONS, element(-1), "trapped table range"),
    ("the first of no elements", "(type $f (func (result i32))) (table 0 funcref)", element(0), "trapped table range"),
    ("an import of another type as an element", NOTE + "(type $f (func)) (table 1 funcref) (elem (i32.const 0) $note)", "(call_indirect (type $f) (i32.const 0))", "trapped type differs"),
    ("the last label", "", "(block (block (block (br_table 0 1 2 (i32.const -1)))) unreachable)", "finished"),
    ("512 frames", RECURSION, "i32.const 510 call $f", "finished"),
    ("513 frames", RECURSION, "i32.const 511 call $f", "trapped exhausted"),
    ("endless calls", "(func $f call $f)", "call $f", "trapped exhausted"),
)

# Loads and stores by their width in bytes.
LOADS = {
    1: ("i32.load8_s", "i32.load8_u", "i64.load8_s", "i64.load8_u"),
    2: ("i32.load16_s", "i32.load16_u", "i64.load16_s", "i64.load16_u"),
    4: ("i32.load", "i64.load32_s", "i64.load32_u"),
    8: ("i64.load",),
}
STORES = {1: ("i32.store8", "i64.store8"), 2: ("i32.store16", "i64.store16"), 4: ("i32.store", "i64.store32"), 8: ("i64.store",)}


def told_by(script, name):
    """A guest of one thread, whose comments tell its events and its end."""
    guest = Guest(name)
    count = len(guest.events) + 1
    begin(script, "guest " + name, digits(guest.module), "run 0 0 %d\n" % (count + 1))
    script.run("record s", "Done", *summary(count, guest.end, count, 1))
    script.show("a.log", logs.log(guest.events))
    replays(script, count, guest.end)


def told(script):
    for name in TOLD:
        told_by(script, name)


def one_burst(script, name, declared, body, end):
    """A guest that ends in its first burst."""
    begin(script, name, digits(start(body, declared)), "run 0 0 2\n")
    script.run("record s", "Done", *summary(1, end, 1, 1))
    script.show("a.log", logs.log([]))
    replays(script, 1, end)


def ends(script):
    for name, declared, body, end in ENDS:
        one_burst(script, "end: " + name, declared, body, end)


def past_memory(script):
    """Each load and store one byte too far, by its base and by its offset."""
    for width, loads in LOADS.items():
        for at, load in enumerate(loads):
            place = ("offset=%d (i32.const 1)", "(i32.const %d)")[at % 2] % (65536 - width + 1 - (1 - at % 2))
            one_burst(script, "end: %s one too far" % load, "(memory 1)", dropped("%s %s" % (load, place)), "trapped memory range")
    for width, stores in STORES.items():
        for at, store in enumerate(stores):
            place = ("(i32.const %d)", "offset=%d (i32.const 1)")[at % 2] % (65536 - width + 1 - at % 2)
            value = "(%s.const 1)" % store[:3]
            one_burst(script, "end: %s one too far" % store, "(memory 1)", "(%s %s %s)" % (store, place, value), "trapped memory range")


def exits(script):
    for code in (0, 7, -1, 2**31 - 1, -(2**31)):
        module = start("(call $exit (i32.const %d)) unreachable" % code, EXIT)
        end = "exited %d" % code
        begin(script, "end: " + end, digits(module), "run 0 0 3\n")
        script.run("record s", "Done", *summary(2, end, 2, 1))
        script.show("a.log", logs.log(["exit %d" % code]))
        replays(script, 2, end)


def later_ends(script):
    """A trap behind a call: the event before it stands, and the one with the trap too."""
    module = start("(call $note (i64.const 1)) unreachable", NOTE)
    begin(script, "end: a trap behind a call", digits(module), "run 0 0 3\n")
    script.run("record s", "Done", *summary(2, "trapped unreachable", 2, 1))
    script.show("a.log", logs.log(["note 1"]))
    replays(script, 2, "trapped unreachable")
    script.file("a.log", digits(logs.log(["note 1", "note 1"])))
    replays(script, 2, "trapped unreachable", "diverged at 3: 1 AfterEnd")


def many_events(script):
    """A process of 10,001 events; its log is replayed whole, cut in its last entry, and changed there."""
    events = ["note %d" % (at + 1) for at in range(10000)]
    log = logs.log(events)
    begin(script, "10,001 events", digits(Guest("many_events").module), "run 0 0 10001\n")
    script.run("record s", "Done", *summary(10001, "finished", 10001, 0))
    script.show("a.log", log)
    replays(script, 10001, "finished")
    script.cut("a.log", len(log) - 1)
    replays(script, 10000, "running", "7 bytes left over")
    script.run("record s", "Done", *summary(10001, "finished", 10001, 0))
    script.show("a.log", log)
    # The first byte of the last entry's argument, which has two, before a reply of one.
    script.set("a.log", len(log) - 3, b"\x80")
    replays(script, 10000, "running", "diverged at 10001: 4 OtherArguments")


def table(script):
    script.title("Guests")
    for part in (told, ends, past_memory, exits, later_ends, many_events):
        part(script)
