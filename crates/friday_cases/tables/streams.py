"""Streams of bytes that guests send as chunks in datagrams: what was written to each, and read of it."""

import struct
from itertools import permutations, product

import logs
from modules import module, start
from pair_refusals import FAR
from pairs import BEGIN, Log, echoes, ping_and_pong, put, replays, sent, taken, words
from schedules_of_logs import in_order, kept, modules, stamped
from script import digits, text
from straight import none_waits, note, put_modules, send, straight, take

# The mark, the stream's number and the offset.
CHUNK = struct.Struct("<4sHQ")
MOST = 2**64 - 1


def chunk(stream, offset, data=b""):
    return CHUNK.pack(b"STRM", stream, offset) + data


def chunk_in(payload):
    """The stream's number, the offset and the bytes, where the payload is a chunk."""
    return (*CHUNK.unpack(payload[:14])[1:], payload[14:]) if len(payload) >= 14 and payload[:4] == b"STRM" else None


# ---- what is said of sends and receives


def repeats(offset, data, written):
    """Whether these bytes all lie within what was written, and are what stands there."""
    return offset + len(data) <= len(written) and bytes(byte for byte, _ in written[offset : offset + len(data)]) == data


class Said:
    """What the sends and receives so far come to: the bytes of each stream and which of them were brought, the sends that count
    by their process and clock, and how many sends and receives do not."""

    def __init__(self):
        self.streams, self.counted, self.odd, self.foreign = {}, {}, 0, 0

    def send(self, p, clock, to, piece):
        number, offset, data = piece
        written = self.streams.get((p, to, number), [])
        goes_on = offset == len(written)
        if goes_on or repeats(offset, data, written):
            self.counted[p, clock] = to, piece
            self.streams[p, to, number] = written + ([(byte, False) for byte in data] if goes_on else [])
        else:
            self.odd += 1

    def receive(self, p, tag, piece):
        number, offset, data = piece
        to, (number_sent, offset_sent, whole) = self.counted.get(tag, (None, (None, None, b"")))
        if (to, number_sent, offset_sent) != (p, number, offset) or whole[: len(data)] != data:
            self.foreign += 1
            return
        written = self.streams[tag[0], p, number]
        for at in range(offset, offset + len(data)):
            written[at] = written[at][0], True

    def lines(self):
        for (p, to, number), written in sorted(self.streams.items()):
            brought = [is_brought for _, is_brought in written] + [False]
            yield "%d -> %d stream %d: %d written, %d read" % (p, to, number, len(written), brought.index(False))
        yield "streams: %d, %d odd, %d foreign" % (len(self.streams), self.odd, self.foreign)


def said_of(given):
    made = Said()
    for p, event in in_order(given):
        piece = chunk_in(event.data)
        if piece is None:
            continue
        if event.call == "send" and event.arguments[0] < given[0].count:
            made.send(p, event.clock, event.arguments[0], piece)
        elif event.tag is not None:
            made.receive(p, event.tag, piece)
    return list(made.lines())


def told(script, given, *lines):
    """What is printed, in any order of the pairs; some of it is stated by hand too."""
    assert not lines or said_of(given) == list(lines), (said_of(given), lines)
    for some in (given, given[::-1])[: len(given)]:
        script.run("streams " + words(some), "Done", *said_of(given))


def case(script, name, given, *lines):
    """A case of processes that make their calls one after the other, by which these lines are printed."""
    script.case(name)
    put_modules(script, given)
    put(script, given)
    replays(script, given)
    told(script, given, *lines)
    for log in given:
        script.show(log.name + ".log", log.spelled())


# ---- a writer and a reader that are recorded

AB, CD = chunk(1, 0, b"ab"), chunk(1, 2, b"cd")
WRITER = """(module
  (import "liblog" "send" (func $send (param i32 i32 i32) (result i32)))
  (memory 1)
  (data (i32.const 0) "STRM\\01\\00\\00\\00\\00\\00\\00\\00\\00\\00ab")
  (data (i32.const 16) "STRM\\01\\00\\02\\00\\00\\00\\00\\00\\00\\00cd")
  (func (export "_start")
    (drop (call $send (i32.const 1) (i32.const 0) (i32.const 16)))
    (drop (call $send (i32.const 1) (i32.const 16) (i32.const 16)))
    (drop (call $send (i32.const 1) (i32.const 0) (i32.const 16)))))"""
READER = """(module
  (import "liblog" "recv" (func $recv (param i32 i32 i32) (result i32)))
  (memory 1)
  (func (export "_start") (loop (drop (call $recv (i32.const 64) (i32.const 64) (i32.const 32))) (br 0))))"""
W = Log(2, 0, "w", [BEGIN, sent(2, 1, AB, 0), sent(3, 1, CD, 16), sent(4, 1, AB, 0)], end="finished", module="w")


def reads(*datagrams):
    """The log of the reader, which takes these payloads behind their tags."""
    events = [BEGIN]
    for tag, payload in datagrams:
        clock = 1 + max(events[-1].clock, tag[1] if tag else 0)
        events.append(taken(clock, payload, tag)._replace(arguments=(64, 64, 32)))
    return Log(2, 1, "r", events, module="r")


def recorded(script):
    assert (AB.hex(), CD.hex()) == ("5354524d010000000000000000006162", "5354524d010002000000000000006364")
    forged = stamped((0, 9), AB)
    assert forged.hex() == "d74c4f470000000009000000000000005354524d010000000000000000006162"
    for name, items, reader, lines in (
        ("the second chunk", "deliver 0 2\nrun 1 0\n", reads(((0, 3), CD)), ("0 -> 1 stream 1: 4 written, 0 read", "streams: 1, 0 odd, 0 foreign")),
        (
            "the second chunk, and then the repeated first one",
            "deliver 0 2\ndeliver 0 3\nrun 1 0 2\n",
            reads(((0, 3), CD), ((0, 4), AB)),
            ("0 -> 1 stream 1: 4 written, 4 read", "streams: 1, 0 odd, 0 foreign"),
        ),
        (
            "a chunk behind a tag that no process gave",
            "inject 1 %s\nrun 1 0\n" % forged.hex(),
            reads(((0, 9), AB)),
            ("0 -> 1 stream 1: 4 written, 0 read", "streams: 1, 0 odd, 1 foreign"),
        ),
        (
            "each chunk twice",
            "deliver 0 1\ndeliver 0 2\ndeliver 0 1\ndeliver 0 3\ndeliver 0 2\nrun 1 0 5\n",
            reads(((0, 2), AB), ((0, 3), CD), ((0, 2), AB), ((0, 4), AB), ((0, 3), CD)),
            ("0 -> 1 stream 1: 4 written, 4 read", "streams: 1, 0 odd, 0 foreign"),
        ),
        ("no chunk", "", reads(), ("0 -> 1 stream 1: 4 written, 0 read", "streams: 1, 0 odd, 0 foreign")),
    ):
        script.case("a writer whose reader takes " + name)
        modules(script, kept(script, ("w", "r")))
        script.file("s", text("friday 1\nprocess w w.wasm\nprocess r r.wasm\nrun 0 0 4\nrun 1 0\n" + items))
        acted = 5 + items.count("deliver") + items.count("inject") + len(reader.events) - 1
        script.run("record s", "Done", "w: 4 events, finished", "r: %d events, running" % len(reader.events), "items: %d acted, 0 idle" % acted)
        for log in (W, reader):
            script.show(log.name + ".log", log.spelled())
        told(script, (W, reader), *lines)
        # Each log alone: the reader's has no send, so what it took of a stream is of none.
        told(script, (W,), "0 -> 1 stream 1: 4 written, 0 read", "streams: 1, 0 odd, 0 foreign")
        told(script, (reader,), "streams: 0, 0 odd, %d foreign" % (len(reader.events) - 1))


def versions(script):
    reader = reads(((0, 3), CD), ((0, 4), AB))
    script.case("a writer and a reader with logs of both versions")
    modules(script, kept(script, ("w", "r")))
    for each in product((1, 2), repeat=2):
        some = [log.but(version=version) for log, version in zip((W, reader), each)]
        put(script, some)
        told(script, some, "0 -> 1 stream 1: 4 written, 4 read", "streams: 1, 0 odd, 0 foreign")


# ---- sends

NEAR_MOST = ((MOST, b""), (MOST, b"a"), (MOST, b"ab"), (MOST - 1, b"xyab"), (2**63, b""), (2**32, b"ab"))


def sends(script):
    """Of what a send can be: it goes on, or says again what was written, or neither."""
    for name, chunks, written, odd in (
        ("chunks that go on", ((0, b"a"), (1, b"bc"), (3, b"d" * 40)), 43, 0),
        ("parts of what was written, and all of it", ((0, b"ab"), (2, b"cd"), (0, b"ab"), (1, b"bc"), (3, b"d"), (0, b"abcd"), (4, b"e")), 5, 0),
        ("a chunk again with another byte, first, last and among them", [(0, data) for data in (b"abc", b"xbc", b"abx", b"axc", b"abc")], 3, 3),
        ("a chunk that begins within what was written and goes past it", ((0, b"ab"), (1, b"bc"), (0, b"abc"), (2, b"c"), (1, b"bc")), 3, 2),
        ("chunks with gaps before them", ((1, b"b"), (0, b"a"), (2, b"c"), (1, b"b"), (2, b"c")), 3, 2),
        ("chunks out of order", [(at, b"abcdef"[at : at + 2]) for at in (4, 2, 0, 4, 2)], 4, 3),
        ("chunks without bytes: at the end, within, and past the end", [*((at, b"") for at in (0, 1)), (0, b"ab"), *((at, b"") for at in range(4))], 2, 2),
        ("the greatest offsets, by which bytes would come round to the first one", ((0, b"ab"), *NEAR_MOST), 2, 6),
        ("forty gaps, and the bytes that go on at last", (*((at, b"x") for at in range(1, 41)), (0, b"ab")), 2, 40),
    ):
        writer = straight(2, 0, "a", *(send(1, chunk(7, at, data)) for at, data in chunks))
        case(script, "a stream with " + name, (writer,), "0 -> 1 stream 7: %d written, 0 read" % written, "streams: 1, %d odd, 0 foreign" % odd)
    only = straight(2, 0, "a", send(1, chunk(3, 0)))
    case(script, "a stream of which nothing was written", (only,), "0 -> 1 stream 3: 0 written, 0 read", "streams: 1, 0 odd, 0 foreign")
    none = straight(2, 0, "a", send(1, chunk(3, 1, b"a")), send(1, chunk(3, 1)), send(1, chunk(3, MOST, b"a")))
    case(script, "a stream of which no send counts, which is not told", (none,), "streams: 0, 3 odd, 0 foreign")


def no_chunks(script):
    """Payloads that are almost chunks, sends that do not go into the group, and datagrams without a tag."""
    whole = chunk(0, 0, b"a")
    payloads = (b"", b"STRM", whole[:13], b"STRN" + whole[4:], b"\0" + whole, whole[1:], b"strm" + whole[4:], b"STR" + whole)
    a = straight(2, 0, "a", *(send(1, payload) for payload in payloads), send(2, whole), send(2**32 - 1, whole), note(1))
    b = straight(2, 1, "b", *(take((0, 2 + at), payload) for at, payload in enumerate(payloads)), take(None, whole), take(None, chunk(1, 9)), none_waits())
    case(script, "datagrams that have no chunks, and chunks of no sender or to no process", (a, b), "streams: 0, 0 odd, 0 foreign")
    script.case("ping and pong, which have no streams, and one event")
    modules(script, kept(script, ("ping", "pong")))
    put(script, ping_and_pong())
    told(script, ping_and_pong(), "streams: 0, 0 odd, 0 foreign")
    alone = Log(1, 0, "pong", echoes())
    put(script, (alone,))
    told(script, (alone,), "streams: 0, 0 odd, 0 foreign")


def to_self(script):
    """A process may be both ends of a stream."""
    own = straight(1, 0, "a", send(0, chunk(65535, 0, b"abc")), take((0, 2), chunk(65535, 0, b"ab")), take((0, 2), chunk(65535, 0, b"abc")))
    case(script, "a process that sends to itself", (own,), "0 -> 0 stream 65535: 3 written, 3 read", "streams: 1, 0 odd, 0 foreign")


# ---- receives

WHOLE, MORE = chunk(1, 0, b"abcdef"), chunk(1, 6, b"gh")
PART, GAP = chunk(1, 2, b"cd"), chunk(1, 9, b"x")
# By clocks from 2 on: six bytes and two more; the same to another process; past the end; a part again; and no chunk.
SENT = send(1, WHOLE), send(1, MORE), send(2, WHOLE), send(1, GAP), send(1, PART), send(1, b"no chunk at all")
OTHERS = ((0, 2), chunk(2, 0, b"abcdef")), ((0, 2), chunk(1, 1, b"bcdef")), ((0, 2), chunk(1, MOST, b"a")), ((0, 2), chunk(257, 0, b"a"))
# Of what is taken: the tag, the payload, and if it is not all how much room there is; and what was read then, and what is foreign.
TAKES = (
    ("both, in order", [((0, 2), WHOLE), ((0, 3), MORE)], 8, 0),
    ("both, out of order", [((0, 3), MORE), ((0, 2), WHOLE)], 8, 0),
    ("the second one alone", [((0, 3), MORE)], 0, 0),
    ("the first one, cut to 17 bytes", [((0, 2), WHOLE, 17)], 3, 0),
    ("the first one, cut to 17 bytes, and the second one", [((0, 2), WHOLE, 17), ((0, 3), MORE)], 3, 0),
    ("the first one in part, and the part that came again", [((0, 2), WHOLE, 16), ((0, 6), PART)], 4, 0),
    ("the first one in part, and the first byte of the part that came again", [((0, 2), WHOLE, 16), ((0, 6), PART, 15)], 3, 0),
    ("the first one, cut to 14 bytes", [((0, 2), WHOLE, 14)], 0, 0),
    ("the first one, cut to 13 bytes and to none, which are no chunks", [((0, 2), WHOLE, 13), ((0, 2), WHOLE, 0)], 0, 0),
    ("the first one three times", [((0, 2), WHOLE, 15), ((0, 2), WHOLE), ((0, 2), WHOLE, 18)], 6, 0),
    ("the first one with another byte", [((0, 2), chunk(1, 0, data)) for data in (b"abcdex", b"xbcdef", b"x")], 0, 3),
    ("the first one with a byte more", [((0, 2), WHOLE + b"g")], 0, 1),
    ("its bytes as those of another stream, and of another place", OTHERS, 0, 4),
    ("what was sent to another process", [((0, 4), WHOLE)], 0, 1),
    ("a chunk of which the send does not count", [((0, 5), GAP)], 0, 1),
    ("a chunk behind the tag of a datagram that had none", [((0, 7), WHOLE)], 0, 1),
    ("chunks behind tags of no send", [(tag, WHOLE) for tag in ((0, 1), (0, 8), (0, 2**62), (1, 1), (2, 2))], 0, 5),
    ("no chunk behind the tag of one", [((0, 2), data) for data in (b"abcdef", b"", chunk(1, 0)[:13])], 0, 0),
    ("chunks behind each other's tags", [((0, 2), MORE), ((0, 3), WHOLE)], 0, 2),
    ("chunks without a tag", [(None, WHOLE), (None, MORE)], 0, 0),
    ("a chunk behind tags of forty clocks at which nothing was sent, and then the first one", [*(((0, at), WHOLE) for at in range(8, 48)), ((0, 2), WHOLE)], 6, 40),
)


def receives(script):
    """Of what a receive can be: a front of what a send that counts wrote for it, or something else."""
    a = straight(3, 0, "a", *SENT)
    for name, taken_here, read, foreign in TAKES:
        b = straight(3, 1, "b", *(take(*row) for row in taken_here))
        lines = "0 -> 1 stream 1: 8 written, %d read" % read, "0 -> 2 stream 1: 6 written, 0 read"
        case(script, "a reader takes " + name, (a, b), *lines, "streams: 2, 1 odd, %d foreign" % foreign)
        tagged = [event for event in b.events if event.tag and chunk_in(event.data)]
        told(script, (b,), "streams: 0, 0 odd, %d foreign" % len(tagged))
    others = straight(3, 2, "c", take((0, 4), WHOLE, call="try_recv"), take((0, 2), WHOLE), none_waits())
    lines = "0 -> 1 stream 1: 8 written, 0 read", "0 -> 2 stream 1: 6 written, 6 read"
    case(script, "the reader of the other one of two streams of one number", (a, others), *lines, "streams: 2, 1 odd, 1 foreign")


def empty(script):
    """A receive of no bytes reads nothing, and needs its send all the same."""
    a = straight(2, 0, "a", send(1, chunk(5, 0)), send(1, chunk(5, 0, b"ab")), send(1, chunk(5, 2)))
    b = straight(2, 1, "b", take((0, 2), chunk(5, 0)), take((0, 3), chunk(5, 0)), take((0, 4), chunk(5, 2)), take((0, 4), chunk(5, 0)), take((0, 5), chunk(5, 0)))
    case(script, "chunks without bytes, which are taken", (a, b), "0 -> 1 stream 5: 2 written, 0 read", "streams: 1, 0 odd, 2 foreign")


# ---- several


def order(script):
    """Lines go by the writer, the reader and the number, as numbers, and not in the order in which the streams began."""
    numbers = (65535, 9, 10, 256, 0, 1)
    given = [
        straight(3, p, "cab"[p], *(send(q, chunk(number, 0, b"%d" % number)) for q in (2, 0, 1) for number in numbers), version=1 + p % 2)
        for p in range(3)
    ]
    lines = ["%d -> %d stream %d: %d written, 0 read" % (p, q, number, len(str(number))) for p in range(3) for q in range(3) for number in sorted(numbers)]
    case(script, "many streams of three processes", given, *lines, "streams: 54, 0 odd, 0 foreign")
    for some in permutations(given):
        script.run("streams " + words(some), "Done", *said_of(given))
    told(script, given[1:], *lines[18:], "streams: 36, 0 odd, 0 foreign")


def far_numbers(script):
    """The processes 2 and 10 stand by their numbers, and a line of 15 is the last."""
    given = [straight(16, p, "p%d" % p, send(15 - p, chunk(p, 0, b"x" * p)), take((15 - p, 2), chunk(15 - p, 0, b"x" * (15 - p)))) for p in range(16)]
    lines = ["%d -> %d stream %d: %d written, %d read" % (p, 15 - p, p, p, p) for p in range(16)]
    case(script, "streams of sixteen processes", given, *lines, "streams: 16, 0 odd, 0 foreign")


def long(script):
    """Chunks as long as a datagram may be."""
    data = bytes(at % 251 for at in range(2 * 59986))
    first, second = (chunk(1, at, data[at : at + 59986]) for at in (0, 59986))
    assert len(first) == 60000
    a = straight(2, 0, "a", send(1, first), send(1, second), send(1, first[:-1] + b"\xff"), send(1, first))
    b = straight(2, 1, "b", take((0, 2), first, 60000), take((0, 3), second, 59999), take((0, 4), first, 60000), take((0, 5), first, 15))
    case(script, "chunks of 60,000 bytes", (a, b), "0 -> 1 stream 1: 119972 written, 119971 read", "streams: 1, 1 odd, 1 foreign")


def clocks(script):
    """A receive stands behind its send though its process has the lesser number, and behind sends of the same clock."""
    a = straight(2, 0, "a", take((1, 2), AB), take((1, 3), CD), send(1, chunk(2, 0, b"x")))
    b = straight(2, 1, "b", send(0, AB), send(0, CD), take((0, 5), chunk(2, 0, b"x")), send(0, chunk(1, 4, b"ef")))
    lines = "0 -> 1 stream 2: 1 written, 1 read", "1 -> 0 stream 1: 6 written, 4 read"
    case(script, "two processes that write to each other", (a, b), *lines, "streams: 2, 0 odd, 0 foreign")


def not_whole(script):
    """Events that are not accepted write and read nothing."""
    a = straight(2, 0, "a", send(1, AB), send(1, CD), send(1, chunk(1, 4, b"ef")))
    b = straight(2, 1, "b", take((0, 3), CD), take((0, 2), AB), take((0, 4), chunk(1, 4, b"ef")))
    script.case("logs that diverge, and that end in an entry")
    put_modules(script, (a, b))
    other = send(1, chunk(1, 2, b"ce"))._replace(clock=3, arguments=a.events[2].arguments)
    changed = a.changed(2, other, "5 OtherBytes")
    cut = b.cut(2, 9)
    late = b.changed(2, take((0, 2), AB)._replace(clock=9), "8 OtherClock")
    for some, lines in (
        ((changed, b), ("0 -> 1 stream 1: 2 written, 2 read", "streams: 1, 0 odd, 2 foreign")),
        ((a, cut), ("0 -> 1 stream 1: 6 written, 0 read", "streams: 1, 0 odd, 0 foreign")),
        ((a, late), ("0 -> 1 stream 1: 6 written, 0 read", "streams: 1, 0 odd, 0 foreign")),
        ((changed, cut), ("0 -> 1 stream 1: 2 written, 0 read", "streams: 1, 0 odd, 1 foreign")),
        ((a.cut(0, 0), b), ("streams: 0, 0 odd, 3 foreign",)),
        ((a.but(version=1).cut(1, 20), b.but(version=1, rest=b"\0", verdict="1 bytes left over")), ("streams: 0, 0 odd, 3 foreign",)),
    ):
        put(script, some)
        replays(script, some)
        told(script, some, *lines)


def files(script):
    """Files are judged as in a replay."""
    script.case("files of streams that are refused or absent")
    modules(script, kept(script, ("w", "r")))
    put(script, (W, reads()))
    script.file("head", digits(b"LLOX"))
    script.file("three", digits(logs.head(count=3, process=1, name=b"b")))
    script.file("far", digits(start("", FAR)))
    for line, status, said in (
        ("x w.log", "Absent", "absent x"),
        ("w.wasm w.log r.wasm y", "Absent", "absent y"),
        ("w.wasm w.log w.log r.log", "Refused", "refused w.log: 1 Malformed"),
        ("w.wasm w.log r.wasm head", "Refused", "refused head: 1 BadHead"),
        ("w.wasm w.log r.wasm three", "Refused", "refused three: 2 OtherGroup"),
        ("w.wasm w.log w.wasm w.log", "Refused", "refused w.log: 3 SameProcess"),
        ("w.wasm w.log far r.log", "Refused", "refused far: 7 BadSegment"),
    ):
        script.run("streams " + line, status, "friday: " + said)


def failing(script):
    for call in range(1, 5):
        script.case("streams of two pairs, of whose files read %d fails" % call)
        modules(script, kept(script, ("w", "r")))
        put(script, (W, reads()))
        script.fail("files", call)
        script.run("streams " + words((W, reads())), "ReadFault")
        script.run("streams " + words((W, reads())), "Done", *said_of((W, reads())))
    script.case("what is printed of streams, or why there are none, cannot be written")
    modules(script, kept(script, ("w", "r")))
    put(script, (W, reads()))
    for line in (words((W, reads())), "x w.log", "w.wasm"):
        script.fail("output", 1)
        script.run("streams " + line, "WriteFault")
    # These made five calls on files. Of two pairs four files are read, and that is all; there is one write, and no input is read.
    script.fail("files", 5 + 4 + 1)
    script.fail("input", 1)
    script.fail("output", 2)
    script.run("streams " + words((W, reads())), "Done", *said_of((W, reads())))


def table(script):
    script.title("Streams of bytes")
    script.keep("w", module(WRITER))
    script.keep("r", module(READER))
    for part in (recorded, versions, sends, no_chunks, to_self, receives, empty, order, far_numbers, long, clocks, not_whole, files, failing):
        part(script)
