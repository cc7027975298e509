"""The input of the debugger: its lines, its end, reads and writes that fail, and its limit."""

from script import digits, text, times
from sessions import PAIRS, PLACES, READ, files, lines_of, session

MOST = 16777216
TOO_LARGE = "friday: refused input: TooLarge"
STEPS = (("step", PLACES[1]), ("print 1 +", "? 1 syntax at column 10"), ("step 3", PLACES[4]))


def answered(script, lines, *said, piece=READ):
    """These bytes are answered so, and the status is 0."""
    script.input(piece, lines)
    script.run(PAIRS, "Done", "at 0", *said)


def endings(script):
    """Lines, and how the input ends."""
    files(script, "inputs that end in each way")
    for lines, *said in (
        ("", ),
        ("\n", ),
        ("\n\n\n", ),
        ("\r", ),
        ("\r\n", ),
        ("# a comment", ),
        (" ", ),
        ("step", PLACES[1]),
        ("step\n", PLACES[1]),
        ("step\r", PLACES[1]),
        ("step\r\n", PLACES[1]),
        ("step\nstep", PLACES[1], PLACES[2]),
        ("step\r\nstep\r\n", PLACES[1], PLACES[2]),
        ("step\n\r\n\nstep\r", PLACES[1], PLACES[2]),
        ("step\r\r\n", "? 1 syntax at column 5"),
        ("step\r\r", "? 1 syntax at column 5"),
        ("\r\r\n", "? 1 syntax at column 1"),
        ("step\rstep\n", "? 1 syntax at column 5"),
        ("step\nste", PLACES[1], "? 1 syntax at column 1"),
        ("#\rstep\n", ),
        # What ends a session, and what is behind it.
        ("quit", ),
        ("quit\n", ),
        ("quit\r", ),
        ("quit\r\n", ),
        (" \tquit \t\n", ),
        ("quit\nstep\n", ),
        ("quit\nfoo", ),
        ("step\nquit\nstep\n", PLACES[1]),
        ("step\n quit\r\nquit\nstep", PLACES[1]),
        ("quit 1\nstep\nquit", "? 1 syntax at column 6", PLACES[1]),
        ("# quit\nstep", PLACES[1]),
        ("quit\r\r\nstep", "? 1 syntax at column 5", PLACES[1]),
        ("Quit\nstep", "? 1 syntax at column 1", PLACES[1]),
        ("step\nquit\n\0\n&&&&\n", PLACES[1]),
    ):
        for piece in (1, READ):
            answered(script, text(lines), *said, piece=piece)
    script.input(READ, text("quit\n") + digits(bytes(range(256))))
    script.run(PAIRS, "Done", "at 0")


def pieces(script):
    """The same lines are answered the same, however they are read."""
    rows = (*STEPS, ("# nothing", ), ("events 2", PLACES[3][3:], PLACES[4][3:]), ("", ), ("mem pong 64 4", "01000000"), ("foo &", "? 1 syntax at column 5"), ("goto 12", "? 7 no such position"), ("threads pong", "pong running", "0 at send 0 64 4"))
    files(script, "inputs in reads of each size")
    whole = len(lines_of(rows).data)
    for piece in (*range(1, 20), whole - 1, whole, whole + 1, READ - 1, READ + 1, 10**6):
        session(script, PAIRS, rows, piece)
    # More than one read, and lines that are cut between two.
    rows = [("print %d" % number, str(number)) for number in range(1000)]
    for piece in (1, 1000, READ):
        session(script, PAIRS, rows, piece)


def failing_reads(script):
    """Whole lines that were read before are answered, and no part of a line is."""
    lines = text("step\nstep\nfoo\nstep 2\nquit\nstep\n")
    said = (PLACES[1], PLACES[2], "? 1 syntax at column 1", PLACES[4])
    # The first two reads of five bytes give a line each; the third one more and a byte; the fourth no line's end.
    for call, count in ((1, 0), (2, 1), (3, 2), (4, 3), (5, 3), (6, 4)):
        files(script, "read %d of the input fails" % call)
        script.input(5, lines)
        script.fail("input", call)
        script.run(PAIRS, "ReadFault", "at 0", *said[:count])
        # The read that failed is over.
        script.run(PAIRS, "Done", "at 0", *said)
    for piece, call, status, count in (
        (1, 1, "ReadFault", 0),
        (1, 5, "ReadFault", 0),
        (1, 6, "ReadFault", 1),
        (1, 10, "ReadFault", 1),
        (1, 11, "ReadFault", 2),
        (4, 2, "ReadFault", 0),
        (4, 3, "ReadFault", 1),
        (READ, 1, "ReadFault", 0),
        # Behind a whole `quit` nothing more is read.
        (READ, 2, "Done", 4),
        (26, 2, "Done", 4),
        (25, 2, "ReadFault", 4),
    ):
        files(script, "read %d of an input in pieces of %d fails" % (call, piece))
        script.input(piece, lines)
        script.fail("input", call)
        script.run(PAIRS, status, "at 0", *said[:count])
    files(script, "the read at the end of the input fails")
    for written, said in (("step\nstep\n", PLACES[1:3]), ("step\nstep", PLACES[1:2]), ("quit", ())):
        script.input(READ, text(written))
        script.fail("input", 2)
        script.run(PAIRS, "ReadFault", "at 0", *said)
    script.input(READ, text(""))
    script.fail("input", 1)
    script.run(PAIRS, "ReadFault", "at 0")
    # Files are judged before the input is read.
    script.fail("input", 1)
    script.run("debug ping.wasm x", "Absent", "friday: absent x")
    for call in (1, 2, 3, 4):
        files(script, "a session, of whose files read %d fails" % call)
        script.input(READ, lines)
        script.fail("files", call)
        script.run(PAIRS, "ReadFault")


def failing_writes(script):
    """Each line is answered by one write before the next is read; what was written before stands."""
    files(script, "writes of answers that fail")
    lines = lines_of(STEPS)
    for call, count in ((1, 0), (2, 1), (3, 2), (4, 3)):
        script.input(1, lines)
        script.fail("output", call)
        script.run(PAIRS, "WriteFault", *("at 0", PLACES[1], "? 1 syntax at column 10")[:count])
    script.input(1, lines)
    script.fail("output", 5)
    script.run(PAIRS, "Done", "at 0", *(said for _, said in STEPS))
    for line in ("debug ping.wasm x", "debug x y", "debug ping.log ping.log", "debug"):
        script.fail("output", 1)
        script.run(line, "WriteFault")


def comments(size):
    """Whole lines that are answered nothing, of so many bytes."""
    most = times(size // 64, b"#" + b"-" * 62 + b"\n")
    rest = size % 64
    return most + text("#" * (rest - 1) + "\n") if rest else most


QUIT, STEP = text("quit\n"), text("step\n")
TOO_LONG = "? 8 line too long"

# Inputs of which the first 16,777,216 bytes hold a whole line that ends the session, or are all; and the answers.
WITHIN = (
    (times(MOST, b" "), TOO_LONG),
    (comments(MOST - 4) + text("step"), PLACES[1]),
    (comments(MOST - 6) + text("quit\r\n") + STEP, ),
    (STEP + QUIT + times(MOST, b" "), PLACES[1]),
    (times(2000000, b"\n") + STEP, PLACES[1]),
)
# Inputs that are too large: the last line of the first 16,777,216 bytes is no whole one, or does not end the session.
BEYOND = (
    (times(MOST, b" ") + text("\n"), ),
    (STEP + comments(MOST - 5) + text("s"), PLACES[1]),
    (comments(MOST - 5) + STEP + text("\n"), PLACES[1]),
    (comments(MOST - 4) + QUIT, ),
    (comments(MOST - 5) + text("quit\r\n"), ),
    (comments(MOST - 7) + text("quit 1\n") + QUIT, "? 1 syntax at column 6"),
    (times(4093, b" ") + QUIT + comments(MOST - 4098) + QUIT, TOO_LONG),
)


def limits(script):
    files(script, "inputs of 16,777,216 bytes, and of more")
    for lines, *said in WITHIN:
        answered(script, lines, *said)
    for lines, *said in BEYOND:
        script.input(READ, lines)
        script.run(PAIRS, "Refused", "at 0", *said, TOO_LARGE)
    # A file that is refused is told first.
    script.run("debug ping.wasm ping.log pong.wasm ping.log", "Refused", "friday: refused ping.log: 3 SameProcess")
    script.run("replay ping.wasm ping.log", "Done", "ping: 6 events, running, log whole", "group: 3 sends, 2 receives, 2 unmatched, 0 untagged")


def limit_and_faults(script):
    files(script, "a read and a write that fail at the limit of the input")
    size = 1024
    reads = MOST // size
    for more, call, status, *said in (
        (0, reads + 1, "ReadFault"),
        (1, reads + 2, "Refused", TOO_LARGE),
    ):
        script.input(size, STEP + comments(MOST - 5 + more))
        script.fail("input", call)
        script.run(PAIRS, status, "at 0", PLACES[1], *said)
    script.input(READ, comments(MOST + 1))
    script.fail("output", 2)
    script.run(PAIRS, "WriteFault", "at 0")


def table(script):
    script.title("The input of the debugger")
    for part in (endings, pieces, failing_reads, failing_writes, limits, limit_and_faults):
        part(script)
