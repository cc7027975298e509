"""Images: the memory of each process and what it printed, as a recording and a replay leave them."""

import groups, logs
from common import begin, report, summary
from modules import start
from pairs import ping_and_pong
import pairs
from script import digits, text, times

PAGE = 65536
PRINT = '(import "liblog" "print" (func $print (param i32 i32) (result i32)))'
EXIT = '(import "liblog" "exit" (func $exit (param i32)))'
YIELD = '(import "liblog" "yield" (func $yield))'


def memory(pages, *parts):
    """A memory of zeros with these bytes at their places."""
    made = bytearray(pages * PAGE)
    for at, data in parts:
        made[at : at + len(data)] = data
    return bytes(made)


def printing(at, size):
    return "(drop (call $print (i32.const %d) (i32.const %d)))" % (at, size)


def shown(script, name, held, printed):
    script.show(name + ".mem", held)
    script.show(name + ".out", printed)


def older(script, *names):
    """Files that stand where the images are to be."""
    for name in names:
        script.file(name + ".mem", times(PAGE + 1, b"\7"))
        script.file(name + ".out", text("old"))


# What a guest declares and does, how many events it has and how it ends, and its images.
ALONE = (
    ("no memory", "", "", 1, "finished", b"", b""),
    ("a memory of no page", "(memory 0)", "", 1, "finished", b"", b""),
    ("a memory of a page", "(memory 1 2)", "", 1, "finished", memory(1), b""),
    ("segments", '(memory 1) (data (i32.const 65535) "z") (data (i32.const 0) "a")', "", 1, "finished", memory(1, (0, b"a"), (65535, b"z")), b""),
    (
        "a memory that grew",
        "(memory 1)",
        "(drop (memory.grow (i32.const 2))) (i32.store8 (i32.const 196607) (i32.const 9))",
        1,
        "finished",
        memory(3, (196607, b"\t")),
        b"",
    ),
    ("a trap, and what came before it", "(memory 1)", "(i32.store (i32.const 4) (i32.const 258)) unreachable", 1, "trapped unreachable", memory(1, (4, b"\2\1")), b""),
    (
        "an exit, and nothing behind it",
        EXIT + "(memory 1)",
        "(i32.store8 (i32.const 1) (i32.const 1)) (call $exit (i32.const -1)) (i32.store8 (i32.const 2) (i32.const 2))",
        2,
        "exited -1",
        memory(1, (1, b"\1")),
        b"",
    ),
    (
        "prints of what stands there at the time",
        PRINT + '(memory 1) (data (i32.const 8) "hello")',
        printing(8, 5) + "(i32.store8 (i32.const 8) (i32.const 72))" + printing(8, 5) + "(i32.store8 (i32.const 8) (i32.const 0))" + printing(8, 2),
        4,
        "finished",
        memory(1, (8, b"\0ello")),
        b"helloHello\0e",
    ),
    (
        "prints of no bytes and with bad arguments",
        PRINT + '(memory 1) (data (i32.const 65535) "!")',
        printing(0, 0) + printing(65536, 0) + printing(65536, 1) + printing(0, 60001) + printing(-1, 1) + printing(65535, 1) + printing(65535, 2),
        8,
        "finished",
        memory(1, (65535, b"!")),
        b"!",
    ),
    ("prints of no memory", PRINT, printing(0, 1) + printing(0, 0), 3, "finished", b"", b""),
    ("a print of 60,000 bytes", PRINT + "(memory 1)", printing(0, 60000), 2, "finished", memory(1), bytes(60000)),
)


def alone(script):
    """The images of a process, which its replay makes again."""
    for name, declared, body, count, end, held, printed in ALONE:
        begin(script, "images: " + name, digits(start(body, declared)), "run 0 0 %d\n" % count)
        script.run("record s --images", "Done", *summary(count, end, count, 0))
        shown(script, "a", held, printed)
        older(script, "a")
        script.run("replay a.wasm a.log --images", "Done", *report(count, end))
        shown(script, "a", held, printed)


def untagged(script):
    script.case("images: a datagram from outside")
    script.file("pong.wasm", script.kept("pong"))
    script.file("s", text("friday 1\nprocess pong pong.wasm\nrun 0 0\ninject 0 6869\nrun 0 0 2\n"))
    script.run("record --images s", "Done", "pong: 3 events, running", "items: 4 acted, 0 idle")
    shown(script, "pong", memory(1, (32, b"\xff" * 4), (64, b"hi")), b"")


PING = memory(1, (32, b"\1"), (64, b"\3"), (128, b"\1"))
PONG = memory(1, (64, b"\1"))


def recording(script, name):
    """A case with ping and pong, and files that stand where their images are to be."""
    groups.group(script, name)
    older(script, "ping", "pong")


def replaying(script, name):
    """The same with their logs."""
    recording(script, name)
    script.file("ping.log", script.kept("ping.log"))
    script.file("pong.log", script.kept("pong.log"))


def of_a_group(script):
    """The images of a recording and of replays: of all logs, of one, of one that diverges, and of none."""
    ping, pong = ping_and_pong()
    recording(script, "images of ping and of pong, which is killed")
    script.run("record --images s", "Done", *groups.SUMMARY)
    groups.shown(script, groups.log(0, 6), groups.log(1, 5))
    shown(script, "ping", PING, b"")
    shown(script, "pong", PONG, b"")
    replaying(script, "images of a replay, in any order of the words")
    for given in ((ping, pong), (pong, ping)):
        older(script, "ping", "pong")
        pairs.replays(script, given, "--images ")
        shown(script, "ping", PING, b"")
        shown(script, "pong", PONG, b"")
    replaying(script, "images of a replay of one log of two")
    pairs.replays(script, (pong,), "--images ")
    shown(script, "ping", times(PAGE + 1, b"\7").data, b"old")
    shown(script, "pong", PONG, b"")
    replaying(script, "images of a log that diverges: of the events that are accepted")
    late = ping.changed(2, logs.entry(8, "recv", (128, 4, 32), 4, groups.number(1), (1, 6)), "8 OtherClock")
    pairs.put(script, (late,))
    pairs.replays(script, (pong, late), "--images ")
    shown(script, "ping", memory(1, (64, b"\1")), b"")
    shown(script, "pong", PONG, b"")
    replaying(script, "images of logs that are cut before the first event and in an entry")
    short, none = ping.cut(3, 7), pong.cut(0, 0)
    pairs.put(script, (short, none))
    pairs.replays(script, (short, none), "--images ")
    shown(script, "ping", memory(1, (32, b"\1"), (64, b"\2"), (128, b"\1")), b"")
    shown(script, "pong", memory(1), b"")


def not_asked(script):
    ping, pong = ping_and_pong()
    recording(script, "no images that were not asked for")
    script.run("record s", "Done", *groups.SUMMARY)
    pairs.replays(script, (ping, pong))
    for name in ("ping", "pong"):
        shown(script, name, times(PAGE + 1, b"\7").data, b"old")


def of_two_threads(script):
    """What threads print stands in the order of their events."""
    declared = """(import "liblog" "spawn" (func $spawn (param i32 i32) (result i32))) (memory 1) (data (i32.const 0) "ab")
      (table 1 funcref) (elem (i32.const 0) $f) (func $f (param i32) %s)""" % (printing(1, 1) + printing(0, 2))
    body = "(drop (call $spawn (i32.const 0) (i32.const 0)))" + printing(0, 1) + printing(0, 1)
    items = "run 0 0 2\nrun 0 1 2\nrun 0 0\nrun 0 1\nrun 0 0\n"
    begin(script, "images: what two threads print", digits(start(body, PRINT + declared)), items)
    script.run("record --images s", "Done", *summary(7, "finished", 7, 0))
    shown(script, "a", memory(1, (0, b"ab")), b"baaba")
    older(script, "a")
    script.run("replay --images a.wasm a.log", "Done", *report(7, "finished"))
    shown(script, "a", memory(1, (0, b"ab")), b"baaba")


def of_accepted_prints(script):
    """What an entry prints that is not accepted is in no image."""
    hello = '(memory 1) (data (i32.const 0) "hello")'
    script.case("images: prints that are not accepted")
    script.file("a.wasm", digits(start(printing(0, 5) + printing(1, 4), PRINT + hello)))
    first = [logs.entry(1, "begin"), logs.entry(2, "print", (0, 5), 5, b"hello")]
    # A byte each for the length, five fields, two arguments and the bytes' length, and the 4 of `ello`, of which one is missing.
    for other, missing, status, verdict in (
        (b"help", 0, "Diverged", "diverged at 3: 5 OtherBytes"),
        (b"ello", 1, "Done", "12 bytes left over"),
    ):
        older(script, "a")
        log = logs.held([*first, logs.entry(3, "print", (1, 4), 4, other)])
        script.file("a.log", digits(log[: len(log) - missing]))
        script.run("replay --images a.wasm a.log", status, *report(2, "running", verdict))
        shown(script, "a", memory(1, (0, b"hello")), b"hello")


def killed(script):
    script.case("images of processes that are killed, before the first event and after a print")
    body = printing(0, 2) + "(i32.store8 (i32.const 0) (i32.const 65)) (call $yield)" + printing(0, 2)
    script.file("p", digits(start(body, PRINT + YIELD + '(memory 1) (data (i32.const 0) "ok")')))
    script.file("s", text("friday 1\nprocess a p\nprocess b p\nprocess c p\nkill 0\nrun 0 0 4\nrun 1 0 2\nkill 1\nrun 1 0 2\nrun 2 0 4\n"))
    script.run("record --images s", "Done", "a: 0 events, killed", "b: 2 events, killed", "c: 4 events, finished", "items: 8 acted, 6 idle")
    held = ((b"ok", b""), (b"Ak", b"ok"), (b"Ak", b"okAk"))
    for name, (data, printed) in zip("abc", held):
        shown(script, name, memory(1, (0, data)), printed)
    for words in ("a b c", "c a b"):
        older(script, *"abc")
        lines = ("a: 0 events, running, log whole", "b: 2 events, running, log whole", "c: 4 events, finished, log whole")
        script.run("replay --images " + " ".join("p %s.log" % name for name in words.split()), "Done", *lines, pairs.group_line(()))
        for name, (data, printed) in zip("abc", held):
            shown(script, name, memory(1, (0, data)), printed)


def none(script):
    """A recording that is refused or absent makes no images."""
    script.case("no images of what is refused or absent")
    older(script, "a")
    script.file("far", digits(start("", '(memory 1) (data (i32.const 65536) "a")')))
    for name, status, said in (("far", "Refused", "refused far: 7 BadSegment"), ("x", "Absent", "absent x")):
        script.file("s", text("friday 1\nprocess a %s\n" % name))
        script.run("record --images s", status, "friday: " + said)
    shown(script, "a", times(PAGE + 1, b"\7").data, b"old")


def stopped_at(write):
    """How the four files stand where this one of them is not made: each is the old one until the new one is whole."""
    old = times(PAGE + 1, b"\7").data
    files = (old, PING), (b"old", b""), (old, PONG), (b"old", b"")
    return [new if at + 1 < write else before for at, (before, new) in enumerate(files)]


def failing(script):
    """Each file of the images fails, of a recording and of a replay, where the words are in another order."""
    for begun, line, before in (
        (recording, "record --images s", 18),
        (replaying, "replay --images pong.wasm pong.log ping.wasm ping.log", 4),
    ):
        for write in range(1, 5):
            begun(script, "images, of which file %d fails" % write)
            script.fail("files", before + write)
            script.run(line, "WriteFault")
            groups.shown(script, groups.log(0, 6), groups.log(1, 5))
            files = stopped_at(write)
            shown(script, "ping", *files[:2])
            shown(script, "pong", *files[2:])
        begun(script, "images, behind which nothing can be printed")
        script.fail("output", 1)
        script.run(line, "WriteFault")
        shown(script, "ping", PING, b"")
        shown(script, "pong", PONG, b"")


def table(script):
    script.title("Images")
    for log in ping_and_pong():
        script.keep(log.name + ".log", log.spelled())
    for part in (alone, untagged, of_two_threads, of_accepted_prints, of_a_group, not_asked, killed, none, failing):
        part(script)
