"""The input of a play: its lines, its end, reads and writes that fail, and its limit. It is read as that of the debugger."""

from common import FRONT
from debug_inputs import MOST, QUIT, TOO_LARGE, comments
from modules import Guest
from plays import PLAY, ROWS, counts, event, opening, pair, playing
from script import digits, text, times
from sessions import READ, lines_of
from shell_refusals import TOO_LONG, syntax

BEGIN, NEXT = (event(1, "begin"), counts(1)), (event(2, "now = 0"), counts(1))
RUN = "run 0 0"


def play_of_now(script, name):
    script.case(name)
    script.file("a.wasm", digits(Guest("now").module))
    script.file("s", text(FRONT))


def answered(script, lines, *said, piece=READ):
    """These bytes are answered so, and the status is 0."""
    script.input(piece, lines)
    script.run(PLAY, "Done", opening(), *said)


def endings(script):
    """Lines, and how the input ends."""
    play_of_now(script, "inputs of a play that end in each way")
    for lines, *said in (
        ("", ),
        ("\n\r\n \t\n# a comment\n\t# another", ),
        (RUN, *BEGIN),
        (RUN + "\r", *BEGIN),
        (RUN + "\r\n" + RUN + "\n", *BEGIN, *NEXT),
        (RUN + "\r\r\n", "? 10 bad item"),
        ("processes\r\r", syntax(10)),
        (RUN + "\rrun 0 0\n", "? 10 bad item"),
        (RUN + "\nru", *BEGIN, syntax(1)),
        (" \trun\t0 \t 0  1 \n", *BEGIN),
        ("run 00 000 0001\n", *BEGIN),
        # What ends a play, and what is behind it.
        ("quit", ),
        (" quit \t\r\n" + RUN, ),
        (RUN + "\nquit\n" + RUN, *BEGIN),
        ("quit 1\n" + RUN + "\nquit", syntax(6), *BEGIN),
        ("# quit\n" + RUN, *BEGIN),
        ("again\nquit\n\0\n&&&&\n", opening()),
    ):
        for piece in (1, READ):
            answered(script, text(lines), *said, piece=piece)


def pieces(script):
    """The same lines are answered the same, however they are read."""
    pair(script, "inputs of a play in reads of each size")
    for piece in (*range(1, 20), READ - 1, READ + 1, 10**6):
        playing(script, ROWS, piece=piece)


def failing_reads(script):
    """Whole lines that were read before are answered, and no part of a line is."""
    rows = ((RUN, *BEGIN), ("foo", syntax(1)), (RUN, *NEXT), ("quit", ), (RUN, ))
    counted = [0, *(sum(len(said) for _, *said in rows[: at + 1]) for at in range(len(rows)))]
    said = [line for _, *some in rows for line in some]
    # Reads of four bytes: the second one ends the first line, the third the second one, the fifth the third one.
    for call, whole in ((1, 0), (2, 0), (3, 1), (4, 2), (5, 2), (6, 3)):
        play_of_now(script, "read %d of the input of a play fails" % call)
        script.input(4, lines_of(rows))
        script.fail("input", call)
        script.run(PLAY, "ReadFault", opening(), *said[: counted[whole]])
        # The read that failed is over.
        script.run(PLAY, "Done", opening(), *said)
    play_of_now(script, "the last read of the input of a play fails")
    script.input(READ, text("quit\n"))
    script.fail("input", 2)
    script.run(PLAY, "Done", opening())
    for written, told in ((RUN + "\n", BEGIN), (RUN, ()), ("quit", ())):
        script.input(READ, text(written))
        script.fail("input", 2)
        script.run(PLAY, "ReadFault", opening(), *told)


def failing_writes(script):
    """Each line is answered by one write before the next is read; what was written before stands."""
    rows = ((RUN, *BEGIN), ("# nothing", ), ("processes", "a: 1 events, running"), ("foo", syntax(1)))
    play_of_now(script, "writes of answers of a play that fail")
    for call, told in ((1, None), (2, ()), (3, BEGIN), (4, (*BEGIN, "a: 1 events, running"))):
        script.input(1, lines_of(rows))
        script.fail("output", call)
        script.run(PLAY, "WriteFault", *(() if told is None else (opening(), *told)))
    script.input(1, lines_of(rows))
    script.fail("output", 5)
    script.run(PLAY, "Done", opening(), *BEGIN, "a: 1 events, running", syntax(1))
    for line in ("play x", "play a.wasm", "play"):
        script.fail("output", 1)
        script.run(line, "WriteFault")


def limits(script):
    play_of_now(script, "inputs of a play of 16,777,216 bytes, and of more")
    run = text(RUN + "\n")
    for lines, *said in (
        (times(MOST, b" "), TOO_LONG),
        (comments(MOST - len(RUN)) + text(RUN), *BEGIN),
        (run + QUIT + times(MOST, b" "), *BEGIN),
    ):
        answered(script, lines, *said)
    for lines, *said in (
        (times(MOST, b" ") + text("\n"), ),
        (run + comments(MOST - len(RUN) - 1) + text("r"), *BEGIN),
        (comments(MOST - 4) + QUIT, ),
    ):
        script.input(READ, lines)
        script.run(PLAY, "Refused", opening(), *said, TOO_LARGE)


def table(script):
    script.title("The input of a play")
    for part in (endings, pieces, failing_reads, failing_writes, limits):
        part(script)
