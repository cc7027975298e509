"""Streams of many sends and of many bytes, and many streams."""

from logs import entry
from modules import module
from pairs import BEGIN, Log, put, sent, words
from script import digits, text
from straight import CALLS
from streams import chunk

# Sends a chunk of so many zeros at the end of what it sent before, so often.
GOES_ON = """(module %s (memory 2) (data (i32.const 0) "STRM\\01\\00") (func (export "_start") (local $i i32)
  (loop (drop (call $send (i32.const 1) (i32.const 0) (i32.const %d)))
    (i64.store (i32.const 6) (i64.add (i64.load (i32.const 6)) (i64.const %d)))
    (br_if 0 (i32.lt_u (local.tee $i (i32.add (local.get $i) (i32.const 1))) (i32.const %d))))))"""
TAKER = '(module %s (memory 2) (func (export "_start") (loop (drop (call $recv (i32.const 64) (i32.const 60000) (i32.const 32))) (br 0))))'


def going_on(size, count, taken_here):
    """The logs of a process that sends so many chunks of one stream, of so many bytes, and of one that takes some by their numbers."""
    payloads = [chunk(1, size * at, bytes(size)) for at in range(count)]
    sends = [BEGIN, *(sent(2 + at, 1, payload, 0) for at, payload in enumerate(payloads))]
    takes = [BEGIN]
    for at in taken_here:
        clock = 1 + max(takes[-1].clock, 1 + at)
        takes.append(entry(clock, "recv", (64, 60000, 32), 14 + size, payloads[at - 1], (0, 1 + at)))
    return Log(2, 0, "w", sends, end="finished", module="w"), Log(2, 1, "r", takes, module="r")


def recorded_by(script, given, writer, items, delivered):
    """The recording of a writer and of what takes so many datagrams of it, one for each that is delivered."""
    script.file("w.wasm", digits(module(writer)))
    script.file("r.wasm", digits(module(TAKER % CALLS)))
    script.file("s", text("friday 1\nprocess w w.wasm\nprocess r r.wasm\n" + items))
    ends = ["%s: %d events, %s" % (log.name, len(log.events), log.end) for log in given]
    script.run("record s", "Done", *ends, "items: %d acted, 0 idle" % (delivered + sum(len(log.events) for log in given)))
    for log in given:
        script.show(log.name + ".log", log.spelled())


def goes_on(script, name, size, count, taken_here):
    given = going_on(size, count, taken_here)
    script.case(name)
    items = "run 0 0 %d\nrun 1 0\n" % (count + 1) + "".join("deliver 0 %d\n" % at for at in taken_here) + "run 1 0 %d\n" % len(taken_here)
    recorded_by(script, given, GOES_ON % (CALLS, 14 + size, size, count), items, len(taken_here))
    return given


def many_sends(script):
    """Those that are taken come last first, so that all but the last of them leave a gap before them."""
    count, some = 70000, 500
    taken_here = [count, *range(some, 0, -1)]
    given = goes_on(script, "a stream of 70,000 sends, of which some are taken", 1, count, taken_here)
    script.run("streams " + words(given), "Done", "0 -> 1 stream 1: %d written, %d read" % (count, some), "streams: 1, 0 odd, 0 foreign")
    given = [given[0], given[1].but(events=given[1].events[:-1])]
    put(script, given[1:])
    script.run("streams " + words(given), "Done", "0 -> 1 stream 1: %d written, 0 read" % count, "streams: 1, 0 odd, 0 foreign")


# Sends a byte of each stream that there can be, in order of their numbers, and then that of the first again.
NUMBERS = """(module %s (memory 1) (data (i32.const 0) "STRM") (data (i32.const 14) "a") (func (export "_start") (local $i i32)
  (loop (drop (call $send (i32.const 1) (i32.const 0) (i32.const 15)))
    (i32.store16 (i32.const 4) (local.tee $i (i32.add (local.get $i) (i32.const 1))))
    (br_if 0 (i32.le_u (local.get $i) (i32.const 65536))))))"""
STREAMS = 65536


def most_streams(script):
    sends = [BEGIN, *(sent(2 + at, 1, chunk(at % STREAMS, 0, b"a"), 0) for at in range(STREAMS + 1))]
    takes, taken_here = [BEGIN], (STREAMS, STREAMS + 1)
    for at in taken_here:
        takes.append(entry(1 + max(takes[-1].clock, 1 + at), "recv", (64, 60000, 32), 15, sends[at].data, (0, 1 + at)))
    given = Log(2, 0, "w", sends, end="finished", module="w"), Log(2, 1, "r", takes, module="r")
    script.case("as many streams from one process to another as there can be")
    items = "run 0 0 %d\nrun 1 0\n" % len(sends) + "".join("deliver 0 %d\nrun 1 0\n" % at for at in taken_here)
    recorded_by(script, given, NUMBERS % CALLS, items, len(taken_here))
    lines = ["0 -> 1 stream %d: 1 written, %d read" % (number, number in (0, STREAMS - 1)) for number in range(STREAMS)]
    script.sum("streams " + words(given), "Done", "".join(line + "\n" for line in (*lines, "streams: %d, 0 odd, 0 foreign" % STREAMS)).encode())


def longest(script):
    """Both logs are nearly as long as a log may be."""
    size, count = 59986, 558
    given = goes_on(script, "a stream of 33,472,188 bytes, all of which are read", size, count, range(1, count + 1))
    lines = "0 -> 1 stream 1: %d written, %d read" % (size * count, size * count), "streams: 1, 0 odd, 0 foreign"
    for some in (given, given[::-1]):
        script.run("streams " + words(some), "Done", *lines)


def table(script):
    script.title("Long streams, and many")
    for part in (many_sends, longest, most_streams):
        part(script)
