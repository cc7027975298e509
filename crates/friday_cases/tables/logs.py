"""Logs of both versions: a head, and an entry for each event."""

from collections import namedtuple
import struct

# The calls by kind, with their arguments' number.
KINDS = {
    "begin": (0, 0),
    "exit": (1, 1),
    "note": (2, 1),
    "print": (3, 2),
    "now": (4, 0),
    "sleep_until": (5, 1),
    "random": (6, 2),
    "me": (7, 0),
    "send": (8, 3),
    "recv": (9, 3),
    "try_recv": (10, 3),
    "spawn": (11, 2),
    "yield": (12, 0),
    "join": (13, 1),
    "lock": (14, 1),
    "unlock": (15, 1),
    "on_signal": (16, 2),
    "thread": (17, 0),
}
BYTES_OUT, BYTES_IN, TAGGED = ("print", "send"), ("random", "recv", "try_recv"), ("recv", "try_recv")
# The calls whose argument or reply has 64 bits. The numbers of the others are kept with zeros above their 32.
WIDE = ("note", "now", "sleep_until")
# The version of what `record` and `migrate` write.
LATEST = 2

# The data are the bytes that went out or came in; a tag is the sender's number and the clock of the send.
Entry = namedtuple("Entry", "clock call arguments reply data tag thread signal")


def entry(clock, call, arguments=(), reply=0, data=b"", tag=None, thread=0, signal=0):
    assert len(arguments) == KINDS[call][1]
    return Entry(clock, call, arguments, reply, data, tag, thread, signal)


def head(name=b"a", version=LATEST, count=1, process=0, mark=b"LLOG"):
    return mark + struct.pack("<IIIB", version, count, process, len(name)) + name


def fixed(value, width):
    return value.to_bytes(width, "little")


def short(value):
    """The shortest spelling of a number: seven bits a byte, the lowest first, and bit 7 on all bytes but the last."""
    made = []
    while value >= 128:
        made.append(value % 128 + 128)
        value //= 128
    return bytes([*made, value])


def number(value, width, version):
    """A number below 256^width, as each version spells it."""
    return fixed(value, width) if version == 1 else short(value)


def clock_of(clock, last, version):
    """The version 1 has the clock, and the version 2 how far it is from that of the entry before."""
    return clock if version == 1 else (clock - last) % 2**64


def body(made, last, version):
    spelled = number(clock_of(made.clock, last, version), 8, version) + number(made.thread, 2, version)
    spelled += bytes([KINDS[made.call][0], made.signal])
    for value in (*made.arguments, made.reply):
        spelled += number(value % 2**64, 8, version)
    if made.call in BYTES_OUT + BYTES_IN:
        spelled += number(len(made.data), 4, version) + made.data
    if made.call in TAGGED:
        spelled += b"\0" if made.tag is None else b"\1" + number(made.tag[0], 4, version) + number(made.tag[1], 8, version)
    return spelled


def counted(made, version=LATEST):
    """Bytes behind their length."""
    return number(len(made), 4, version) + made


def spelled(made, last=0, version=LATEST):
    """The bytes of entries that stand behind one with the clock `last`, or behind none and 0."""
    clocks = [last, *(each.clock for each in made)]
    return b"".join(counted(body(each, before, version), version) for each, before in zip(made, clocks))


def event(clock, written, data=b""):
    """The entry of an event in its written form, `THREAD: call ARGUMENTS = REPLY ! SIGNAL`, where thread 0, a reply of 0 and
    no signal may be left out."""
    front, _, signal = written.partition("!")
    front, _, reply = front.partition("=")
    thread, _, front = front.rpartition(":")
    call, *arguments = front.split()
    bound = 2**64 if call in WIDE else 2**32
    numbers = [int(word, 0) % bound for word in (*arguments, reply.strip() or "0")]
    return entry(clock, call, numbers[:-1], numbers[-1], data, None, int(thread or "0"), int(signal.strip() or "0"))


def entries(events):
    """The entries of events in their written form, with clocks that count up from 1."""
    return [event(clock, written) for clock, written in enumerate(events, 1)]


def held(made, version=LATEST, **fields):
    """The log of these entries."""
    return head(version=version, **fields) + spelled(made, 0, version)


def log(events, version=LATEST, **fields):
    """The log of a process that begins and makes these events."""
    return held(entries(["begin"] + events), version, **fields)
