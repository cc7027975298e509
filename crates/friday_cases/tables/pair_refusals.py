"""Files of several pairs that are refused, absent or not read, in a replay, in a session of the debugger and where a schedule
is to be made of them: which of them the first is, and that it is told."""

import logs
from common import refused
from modules import LEAST, start
from refusals import FLOATS, IMPORTS, MALFORMED, NO_START, OVER, UNTYPED, bytes_of
from script import digits

REASONS = (
    ("1 Malformed", MALFORMED),
    ("2 HasFloat", FLOATS),
    ("3 BadImport", IMPORTS),
    ("4 Untyped", UNTYPED),
    ("5 OverLimit", OVER),
    ("6 NoStart", NO_START),
)
FAR = '(memory 1) (data (i32.const 65536) "a")'
NAMES = (b"one", b"two", b"three", b"four")
# The pairs that are in order.
GOOD = ("m l0", "m l1", "m l2")
# The same, of a module file each.
APART = ("m l0", "n l1", "o l2")


def absent(name):
    return "Absent", "friday: absent %s" % name


def begun(count, process, name):
    return digits(logs.log([], count=count, process=process, name=name))


def begin(script, name):
    """A case with logs of the first processes of a group of four, which end at once."""
    script.case(name)
    script.file("m", digits(LEAST))
    for process in range(4):
        script.file("l%d" % process, begun(4, process, NAMES[process]))


def replay(script, pairs, outcome):
    script.run("replay " + " ".join(pairs), *outcome)


def judged(script, pairs, outcome):
    """What comes of a replay; the debugger refuses the same, and so does the making of a schedule, which then asks for all logs
    of the group."""
    replay(script, pairs, outcome)
    is_good, first_log = outcome[0] == "Done", pairs[0].split()[1]
    script.run("debug " + " ".join(pairs), *(("Done", "at 0") if is_good else outcome))
    script.run("schedule " + " ".join(pairs), *(refused(first_log, "7 Incomplete") if is_good else outcome))


def at_each_pair(script):
    """A bad file of each pair, where those before it are good and those behind it absent."""
    begin(script, "a bad file of the first, the second and the third pair")
    bad = [("x y", absent("x")), ("m y", absent("y")), ("l0 y", refused("l0", "1 Malformed"))]
    for at, (reason, rows) in enumerate(REASONS):
        script.file("bad%d" % at, digits(bytes_of(rows[0][1])))
        bad += [("bad%d %s" % (at, log), refused("bad%d" % at, reason)) for log in ("l3", "y")]
    script.file("head", digits(logs.head(mark=b"LLOX")))
    bad += [("m head", refused("head", "1 BadHead")), ("m m", refused("m", "1 BadHead"))]
    for at in range(3):
        for pair, outcome in bad:
            judged(script, (*GOOD[:at], pair, "x y"), outcome)


def whole(*heads):
    lines = ["%s: 1 events, finished, log whole" % name.decode() for _, name in sorted(heads)]
    return *lines, "group: 0 sends, 0 receives, 0 unmatched, 0 untagged"


# The number of processes, the number and the name in a log's head, and why it does not go with the first two logs.
CLASHES = (
    (3, 2, b"three", "2 OtherGroup"),
    (16, 2, b"three", "2 OtherGroup"),
    (4, 0, b"three", "3 SameProcess"),
    (4, 1, b"three", "3 SameProcess"),
    (4, 2, b"one", "4 SameName"),
    (4, 2, b"two", "4 SameName"),
    (3, 0, b"three", "2 OtherGroup"),
    (3, 2, b"two", "2 OtherGroup"),
    (5, 1, b"one", "2 OtherGroup"),
    (4, 0, b"two", "3 SameProcess"),
    (4, 1, b"one", "3 SameProcess"),
    (4, 1, b"two", "3 SameProcess"),
)


def clashes(script):
    begin(script, "a log that does not go with those before it")
    for count, process, name, reason in CLASHES:
        script.file("l", begun(count, process, name))
        judged(script, ("m l0", "m l1", "m l"), refused("l", reason))
        judged(script, ("m l1", "m l0", "m l", "x y"), refused("l", reason))
        # By itself it is as good as any.
        judged(script, ("m l",), ("Done", *whole((process, name))))
    script.file("l", begun(3, 1, b"one"))
    judged(script, ("m l", "m l0", "m x"), refused("l0", "2 OtherGroup"))
    script.file("l", begun(4, 1, b"one"))
    judged(script, ("m l", "m l0", "m x"), refused("l0", "4 SameName"))
    judged(script, ("m l", "m l1", "m x"), refused("l1", "3 SameProcess"))
    judged(script, ("m l", "m l2", "m l0", "m l1"), refused("l0", "4 SameName"))
    judged(script, ("m l0", "m l1", "m l0"), refused("l0", "3 SameProcess"))
    # Names are told apart by all their bytes.
    script.file("l", begun(4, 3, b"tw"))
    judged(script, ("m l0", "m l1", "m l"), ("Done", *whole((0, b"one"), (1, b"two"), (3, b"tw"))))


def in_turn(script):
    """A pair is judged whole before the next one is read, and its module before its log."""
    begin(script, "two bad files: the first of them is told")
    script.file("bad", digits(b""))
    script.file("head", digits(b"LLOG"))
    script.file("other", begun(3, 1, NAMES[1]))
    for pairs, outcome in (
        (("m l0", "m other", "bad l1"), refused("other", "2 OtherGroup")),
        (("m l0", "m l0", "m head"), refused("l0", "3 SameProcess")),
        (("m l0", "bad l0", "m other"), refused("bad", "1 Malformed")),
        (("m l0", "bad head", "x y"), refused("bad", "1 Malformed")),
        (("m l0", "m head", "bad y"), refused("head", "1 BadHead")),
        (("m head", "m l1", "m l1"), refused("head", "1 BadHead")),
        (("m l0", "x other", "bad y"), absent("x")),
        (("m l0", "m y", "m other"), absent("y")),
    ):
        judged(script, pairs, outcome)


def segments(script):
    begin(script, "a process that does not begin, behind all files, in the order of the words")
    for name in ("far", "away"):
        script.file(name, digits(start("", FAR)))
    script.file("head", digits(b"LLOG"))
    script.file("other", begun(3, 1, NAMES[1]))
    script.file("same", begun(4, 1, NAMES[0]))
    for pairs, outcome in (
        (("far l0",), refused("far", "7 BadSegment")),
        (("far l0", "m l1"), refused("far", "7 BadSegment")),
        (("m l0", "far l1"), refused("far", "7 BadSegment")),
        (("m l2", "m l1", "far l0"), refused("far", "7 BadSegment")),
        (("far l1", "away l0"), refused("far", "7 BadSegment")),
        (("away l1", "far l0", "m l2"), refused("away", "7 BadSegment")),
        (("far l0", "m head"), refused("head", "1 BadHead")),
        (("far l0", "away l1", "x y"), absent("x")),
        (("far l0", "away l1", "m y"), absent("y")),
        (("far l0", "head l1"), refused("head", "1 Malformed")),
        (("far l0", "m other"), refused("other", "2 OtherGroup")),
        (("far l0", "m l0"), refused("l0", "3 SameProcess")),
        (("far l0", "m same"), refused("same", "4 SameName")),
    ):
        judged(script, pairs, outcome)
        replay(script, ("--images", *pairs), outcome)
    script.show("one.mem", None)
    script.show("two.out", None)


def each_place(script):
    script.case("a process that does not begin, at each place of a group of sixteen")
    script.file("m", digits(LEAST))
    script.file("far", digits(start("", FAR)))
    for process in range(16):
        script.file("l%d" % process, begun(16, process, b"p%d" % process))
    for place in range(16):
        pairs = ["%s l%d" % ("far" if process == place else "m", process) for process in range(16)]
        judged(script, pairs, refused("far", "7 BadSegment"))
        script.run("streams " + " ".join(pairs), *refused("far", "7 BadSegment"))


def begin_apart(script, name):
    """The same, and the module in three files."""
    begin(script, name)
    for module in "no":
        script.file(module, digits(LEAST))


def schedules(script, pairs, outcome):
    script.run("schedule " + " ".join(pairs), *outcome)


def failing_reads(script):
    """Pairs whose modules have three files make six reads, and those whose modules have one name four: it is read before the
    first log, and not again."""
    good, incomplete = ("Done", *whole((0, NAMES[0]), (1, NAMES[1]), (2, NAMES[2]))), refused("l0", "7 Incomplete")
    for said, pairs, reads in (("of three modules", APART, 6), ("of one module", GOOD, 4)):
        for call in range(1, reads + 1):
            begin_apart(script, "three pairs %s, of whose files read %d fails" % (said, call))
            script.fail("files", call)
            replay(script, pairs, ("ReadFault",))
            replay(script, pairs, good)
            begin_apart(script, "three pairs %s of which a schedule is to be made, of whose files read %d fails" % (said, call))
            script.fail("files", call)
            schedules(script, pairs, ("ReadFault",))
            schedules(script, pairs, incomplete)
        begin_apart(script, "three pairs %s make %d reads, and the next one is that of the next command" % (said, reads))
        for fails, make, outcome in ((reads + 1, replay, good), (2 * reads + 2, schedules, incomplete)):
            script.fail("files", fails)
            make(script, pairs, outcome)
            make(script, pairs, ("ReadFault",))


def table(script):
    script.title("Several pairs that are refused")
    for part in (at_each_pair, clashes, in_turn, segments, each_place, failing_reads):
        part(script)
