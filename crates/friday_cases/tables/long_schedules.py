"""Schedules of many items and of long words, up to what a file may have."""

from common import FRONT, begin, refused, replays, summary
from modules import LEAST
from schedules import at_time
from script import digits, text, times

MOST = 16777216
TRIES = 1000000


def schedule(script, *pieces):
    whole = text(FRONT)
    for piece in pieces:
        whole += text(piece) if isinstance(piece, str) else piece
    script.file("s", whole)


def many_items(script):
    begin(script, "schedules of a thousand items, of a million tries and of one more", script.kept("now"), "")
    for count in (1000, 1001, TRIES):
        schedule(script, times(count, b"run 0 0\n"))
        script.run("record s", "Done", *summary(3, "finished", 3, count - 3))
        script.show("a.log", at_time(0))
    for pieces, reason in (
        ((times(TRIES + 1, b"run 0 0\n"), ), "TooMany"),
        ((times(TRIES // 2, b"run 0 0 2\n"), "run 0 63\n"), "TooMany"),
        ((times(TRIES, b"run 0 0\n"), "run 0 0 0"), "line 1000003 BadLine"),
        ((times(TRIES + 1, b"run 0 0\n"), "\n# nothing\nrun 1 0\n"), "line 1000006 BadLine"),
        ((times(2000000, b"\n"), "kill\n"), "line 2000003 BadLine"),
    ):
        schedule(script, *pieces)
        script.run("record s", *refused("s", reason))
    # Other items than tries are bounded by the size of the file alone.
    script.file("a.wasm", digits(LEAST))
    count = (MOST - len(FRONT)) // 7
    schedule(script, times(count, b"kill 0\n"))
    script.run("record s", "Done", "a: 0 events, killed", "items: 1 acted, %d idle" % (count - 1))
    schedule(script, times(500000, b"clock 0 5\nsignal 0 31\n"), times(1000, b"random 0 0a\ninject 0 -\n"), "run 0 0")
    script.run("record s", "Done", *summary(1, "finished", 1002001, 0))


def long_words(script):
    begin(script, "schedules of long words, blanks and comments", script.kept("now"), "")
    zeros, blanks = times(1000000, b"0"), times(1000000, b" \t")
    for pieces in (
        ("clock 0 ", zeros, "5\nrun 0 0 3\n"),
        ("clock 0 5\nrun 0 0 ", zeros, "3\n"),
        ("clock 0 5\nrun ", zeros, " ", zeros, " ", zeros, "3"),
        (blanks, "clock", blanks, "0", blanks, "5", blanks, "\nrun 0 0 3", times(1000000, b" ")),
        ("#", times(1000000, b"#"), "\nclock 0 5\n", blanks, "# nothing\n", times(1000000, b"\r\n"), "run 0 0 3\n"),
    ):
        schedule(script, *pieces)
        script.run("record s", "Done", *summary(3, "finished", 4, 0))
        script.show("a.log", at_time(5))
    schedule(script, "clock 0 -", zeros, "5\nrun 0 0 3\n")
    script.run("record s", "Done", *summary(3, "finished", 4, 0))
    script.show("a.log", at_time(-5))
    for pieces, line in (
        (("clock 0 ", zeros, "9223372036854775808"), 3),
        (("run 0 0 ", zeros, "1000001"), 3),
        (("run 0 ", zeros, "64"), 3),
        (("inject 0 ", times(1000000, b"00"), "0"), 3),
        ((times(1000000, b"x"), ), 3),
        (("#\nrun 0 0 1", blanks, "x"), 4),
    ):
        schedule(script, *pieces)
        script.run("record s", *refused("s", "line %d BadLine" % line))


def greatest_numbers(script):
    begin(script, "the greatest numbers of each item", script.kept("now"), "deliver 0 9223372036854775807\nrun 0 63 999997\nsignal 0 31\nrun 0 0 3\n")
    script.run("record s", "Done", *summary(3, "finished", 4, 999998))
    replays(script, 3, "finished")


def table(script):
    script.title("Long schedules")
    for part in (many_items, long_words, greatest_numbers):
        part(script)
