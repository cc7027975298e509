"""Words that are no command, files that are refused or absent, and objects whose calls fail."""

import logs
from common import FRONT, begin, refused, report, summary
from modules import Guest, leb
from script import USAGE, digits, text, times

NOW = Guest("now")
LOG = logs.log(["now = 5", "note 5"])
ITEMS = "clock 0 5\nrun 0 0 3\n"


def both(script, name):
    """A case with the module and its log."""
    script.case(name)
    script.file("a.wasm", script.kept("now"))
    script.file("a.log", digits(LOG))


def words(script):
    both(script, "words that are no command")
    script.file("-a", script.kept("now"))
    for line in (
        "",
        "''",
        "replay",
        "replay a.wasm",
        "replay a.wasm a.log a.log",
        "replay -a a.log",
        "replay a.wasm -a",
        "replay a.wasm ''",
        "replay '' a.log",
        "replay a.wasm a.log a.wasm",
        "replay a.wasm a.log a.wasm a.log a.wasm",
        "replay -a a.log a.wasm a.log",
        "replay a.wasm a.log -a a.log",
        "replay a.wasm a.log a.wasm -a",
        "replay a.wasm a.log '' a.log",
        "replay a.wasm a.log a.wasm ''",
        "Replay a.wasm a.log",
        "record",
        "record ''",
        "record -a",
        "record a.log a.log",
        "debug",
        "debug a.wasm",
        "debug a.wasm a.log a.log",
        "debug a.wasm ''",
        "debug '' a.log",
        "debug -a a.log",
        "debug a.wasm -a",
        "debug - a.log",
        "debug a.wasm a.log a.wasm",
        "debug a.wasm a.log a.wasm -a",
        "debug a.wasm a.log --",
        "Debug a.wasm a.log",
        "cut a.wasm a.log",
        "cut 0 a.wasm a.log",
        "cut 0 1",
        "cut 0 1 a.wasm",
        "cut 0 0 a.wasm a.log",
        "cut 16 1 a.wasm a.log",
        "Cut 0 1 a.wasm a.log",
        "streams",
        "streams a.wasm",
        "streams a.log",
        "streams a.wasm a.log a.wasm",
        "streams a.wasm a.log a.wasm a.log a.wasm",
        "streams '' a.log",
        "streams a.wasm ''",
        "streams a.wasm a.log '' a.log",
        "streams -a a.log",
        "streams a.wasm -a",
        "streams a.wasm a.log --",
        "streams 0 a.wasm a.log",
        "Streams a.wasm a.log",
        "stream a.wasm a.log",
        "a.wasm streams a.log",
        "--help",
    ):
        script.run(line, "Usage", USAGE)


def images_words(script):
    both(script, "the word for images, where it makes no command")
    script.file("s", text(FRONT + ITEMS))
    script.file("--images", text(FRONT + ITEMS))
    for line in (
        "--images",
        "--images record s",
        "--images replay a.wasm a.log",
        "--images --images",
        "record --images",
        "record --images --images",
        "record --images --images s",
        "record --images s --images",
        "record s --images --images",
        "record --images ''",
        "record '' --images",
        "record --images -a",
        "record --images s s",
        "record s --images s",
        "record --Images s",
        "record --image s",
        "record --images= s",
        "record -images s",
        "record -- --images s",
        "replay --images",
        "replay --images a.wasm",
        "replay a.wasm --images",
        "replay a.wasm a.log a.wasm --images",
        "replay --images --images a.wasm a.log",
        "replay --images a.wasm a.log --images",
        "replay a.wasm --images a.log --images",
        "replay a.wasm a.log --images --images",
        "replay --images a.wasm ''",
        "replay --images -a a.log",
        "debug --images",
        "debug --images a.wasm a.log",
        "debug a.wasm --images a.log",
        "debug a.wasm a.log --images",
        "debug --images a.wasm a.log --images",
        "drill --images 1",
        "cut --images",
        "cut --images 0 1 a.wasm a.log",
        "cut 0 --images a.wasm a.log",
        "cut 0 1 --images a.log",
        "cut 0 1 a.wasm a.log --images",
        "streams --images",
        "streams --images a.wasm a.log",
        "streams a.wasm --images a.log",
        "streams a.wasm a.log --images",
    ):
        script.run(line, "Usage", USAGE)
    script.show("a.mem", None)
    script.show("a.out", None)
    for line in ("--images a.wasm a.log", "a.wasm --images a.log", "a.wasm a.log --images"):
        with_images(script, "replay " + line, *report(3, "finished"))
    for line in ("--images s", "s --images"):
        with_images(script, "record " + line, *summary(3, "finished", 4, 0))


def with_images(script, line, *printed):
    """What the command makes of files that are there: a process without a memory, which prints nothing."""
    for name in ("a.mem", "a.out"):
        script.file(name, text("old"))
    script.run(line, "Done", *printed)
    script.show("a.mem", b"")
    script.show("a.out", b"")


def files_of_a_replay(script):
    both(script, "files of a replay that are refused or absent")
    script.file("other", digits(logs.head(mark=b"LLOX")))
    script.file("short", digits(LOG[:17]))
    for line, status, said in (
        ("x a.log", "Absent", "absent x"),
        ("a.wasm x", "Absent", "absent x"),
        ("x y", "Absent", "absent x"),
        ("a.log x", "Refused", "refused a.log: 1 Malformed"),
        ("a.wasm other", "Refused", "refused other: 1 BadHead"),
        ("a.wasm short", "Refused", "refused short: 1 BadHead"),
        ("a.wasm a.wasm", "Refused", "refused a.wasm: 1 BadHead"),
    ):
        for verb in ("replay", "debug", "schedule", "cut 0 1", "streams"):
            script.run("%s %s" % (verb, line), status, "friday: " + said)


def files_of_a_record(script):
    script.case("files of a record that are refused or absent: the schedule is judged before the module is read")
    script.file("s", text("friday 1\nprocess a x\n"))
    script.file("bad", text("friday 1\nprocess a x\nkill 1\n"))
    script.file("t", text("friday 1\nprocess a s\n"))
    for line, status, said in (
        ("y", "Absent", "absent y"),
        ("s", "Absent", "absent x"),
        ("bad", "Refused", "refused bad: line 3 BadLine"),
        ("t", "Refused", "refused s: 1 Malformed"),
    ):
        script.run("record " + line, status, "friday: " + said)
    script.show("a.log", None)


def too_large(script):
    script.case("files one byte too long, and at their limit")
    custom = NOW.module + b"\0" + leb(4194304 - len(NOW.module) - 5)
    script.file("long", times(4194305, b"\0"))
    for process in (0, 1):
        script.file("p%d" % process, digits(logs.head(count=2, process=process, name=b"ab"[process : process + 1])))
    script.file("b.wasm", script.kept("now"))
    earlier = ("", "b.wasm p0 ", "b.wasm p0 b.wasm p1 ")
    for pairs in earlier:
        for verb in ("replay", "debug", "schedule"):
            script.run("%s %slong x" % (verb, pairs), *refused("long", "TooLarge"))
    # A custom section up to the end, whose name is empty.
    script.file("a.wasm", digits(custom) + times(4194304 - len(custom), b"\0"))
    script.file("a.log", digits(LOG))
    script.run("replay a.wasm a.log", "Done", *report(3, "finished"))
    script.add("a.wasm", digits(b"\0"))
    script.file("s", text(FRONT))
    for line in ("replay a.wasm a.log", "record s", "cut 0 1 a.wasm a.log", "streams a.wasm a.log"):
        script.run(line, *refused("a.wasm", "TooLarge"))
    script.file("long", times(33554433, b"\0"))
    for pairs in earlier:
        for verb in ("replay", "debug", "schedule", "streams"):
            script.run("%s %sb.wasm long b.wasm x" % (verb, pairs), *refused("long", "TooLarge"))
    script.file("a.wasm", script.kept("now"))
    script.file("a.log", digits(logs.head()) + times(33554432 - 18, b"\0"))
    script.run("replay a.wasm a.log", "Done", *report(0, "running", "33554414 bytes left over"))
    script.run("debug a.wasm a.log", "Done", "at 0")
    script.file("s", times(16777217, b"\n"))
    script.run("record s", *refused("s", "TooLarge"))
    script.file("s", text(FRONT + "#") + times(16777216 - len(FRONT) - 1, b"-"))
    script.run("record s", "Done", *summary(0, "running", 0, 0))


def failing_replays(script):
    for call, name in ((1, "module"), (2, "log")):
        both(script, "the %s cannot be read" % name)
        script.fail("files", call)
        script.run("replay a.wasm a.log", "ReadFault")
        script.show("a.log", LOG)
        script.run("replay a.wasm a.log", "Done", *report(3, "finished"))
    both(script, "no write to the output is done: a report, a refusal, an absent file and words")
    for line in ("replay a.wasm a.log", "replay a.log a.log", "replay x x", "replay"):
        script.fail("output", 1)
        script.run(line, "WriteFault")
    # Neither a replay nor a recording reads its input, and one that is done makes one write.
    script.fail("input", 1)
    script.fail("output", 2)
    script.run("replay a.wasm a.log", "Done", *report(3, "finished"))


def failing_records(script):
    for call, name, status, kept in (
        (1, "the schedule cannot be read", "ReadFault", b"old"),
        (2, "the module cannot be read", "ReadFault", b"old"),
        (3, "the log cannot be made", "WriteFault", b"old"),
        (4, "the head cannot be written, of which half is", "WriteFault", LOG[:9]),
        (5, "the first entry cannot be written, of which half is", "WriteFault", LOG[:21]),
        (6, "the second entry cannot be written, of which half is", "WriteFault", LOG[:27]),
        (7, "the last entry cannot be written, of which half is", "WriteFault", LOG[:33]),
    ):
        begin(script, name, script.kept("now"), ITEMS)
        script.file("a.log", text("old"))
        script.fail("files", call)
        script.run("record s", status)
        script.show("a.log", kept)
        # The call that failed is over.
        script.run("record s", "Done", *summary(3, "finished", 4, 0))
        script.show("a.log", LOG)
    begin(script, "the summary cannot be written, and the log has been", script.kept("now"), ITEMS)
    script.fail("output", 1)
    script.run("record s", "WriteFault")
    script.show("a.log", LOG)


def script_lines(script):
    script.title("Lines of a script that are not understood, or cannot be done")
    script.case("lines that are not understood")
    script.broken("play s", "no line of a script begins with play")
    script.broken("file s \"friday", "a quote is open")
    script.broken("add s 00", "there is no file s")
    script.broken("file s =nothing", "nothing is kept as nothing")
    script.broken("cut s all", "all is no number")
    script.broken("input all 00", "all is no number")
    script.broken("input 0 00", "a read gives a byte at least")
    script.show("s", None)


def table(script):
    script.title("Words and files")
    script.keep("now", NOW.module)
    for part in (words, images_words, files_of_a_replay, files_of_a_record, too_large, failing_replays, failing_records, script_lines):
        part(script)
