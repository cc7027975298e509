"""The streams of a group, from its events: what `friday streams` has to print."""

from __future__ import annotations

import struct
from dataclasses import dataclass, field

from logs.format import in_group_order

MARK = b"STRM"
# The mark, the number of the stream and the offset.
HEAD = struct.Struct("<4sHQ")
PLAIN, COUNTED, STRANGE = "plain", "counted", "strange"


def chunk_of(stream, offset, data=b""):
    return HEAD.pack(MARK, stream, offset) + data


@dataclass(frozen=True)
class Chunk:
    stream: int
    offset: int
    data: bytes


def chunk_in(payload):
    """The chunk that a payload is, or None."""
    if len(payload) < HEAD.size or payload[:4] != MARK:
        return None
    _, stream, offset = HEAD.unpack(payload[: HEAD.size])
    return Chunk(stream, offset, payload[HEAD.size :])


@dataclass
class Stream:
    written: bytearray = field(default_factory=bytearray)
    # The positions at which some receive brought what was written.
    covered: set[int] = field(default_factory=set)

    def takes(self, chunk):
        """Whether a chunk goes on where the stream ends, or says again what stands there."""
        end = chunk.offset + len(chunk.data)
        return chunk.offset == len(self.written) or (end <= len(self.written) and self.written[chunk.offset : end] == chunk.data)

    def read(self):
        """How many bytes were read without a gap, from the first on."""
        return next(at for at in range(len(self.written) + 1) if at not in self.covered)


@dataclass
class Streams:
    """What a list of sends and receives comes to."""

    streams: dict[tuple[int, int, int], Stream] = field(default_factory=dict)
    # The receiver and the chunk of each send that counts, by its process and its clock.
    counted: dict[tuple[int, int], tuple[int, Chunk]] = field(default_factory=dict)
    # What each send and each receive is, by its process and its clock.
    sends: dict[tuple[int, int], str] = field(default_factory=dict)
    receives: dict[tuple[int, int], str] = field(default_factory=dict)

    def sent(self, sender, clock, to, payload):
        chunk = chunk_in(payload)
        self.sends[sender, clock] = PLAIN if chunk is None else self.mark_of_send(sender, clock, to, chunk)

    def mark_of_send(self, sender, clock, to, chunk):
        stream = self.streams.get((sender, to, chunk.stream), Stream())
        if not stream.takes(chunk):
            return STRANGE
        if chunk.offset == len(stream.written):
            stream.written += chunk.data
        self.streams[sender, to, chunk.stream] = stream
        self.counted[sender, clock] = to, chunk
        return COUNTED

    def received(self, receiver, clock, tag, payload):
        chunk = chunk_in(payload)
        self.receives[receiver, clock] = PLAIN if chunk is None else self.mark_of_receive(receiver, tag, chunk)

    def mark_of_receive(self, receiver, tag, chunk):
        to, whole = self.counted.get(tag, (None, None))
        if to != receiver or (whole.stream, whole.offset) != (chunk.stream, chunk.offset) or not whole.data.startswith(chunk.data):
            return STRANGE
        self.streams[tag[0], to, chunk.stream].covered.update(range(chunk.offset, chunk.offset + len(chunk.data)))
        return COUNTED

    def text(self):
        lines = [
            "%d -> %d stream %d: %d written, %d read" % (*name, len(self.streams[name].written), self.streams[name].read())
            for name in sorted(self.streams)
        ]
        strange = [list(marks.values()).count(STRANGE) for marks in (self.sends, self.receives)]
        lines.append("streams: %d, %d odd, %d foreign" % (len(lines), *strange))
        return "".join(line + "\n" for line in lines)


def went_into_group(log, entry):
    return entry.call.name == "send" and entry.reply >= 0 and 0 <= entry.arguments[0] < log.processes


def streams_of(logs):
    """Of logs in any order which have the entries that replay accepts."""
    made = Streams()
    for entry, log in in_group_order(logs):
        if went_into_group(log, entry):
            made.sent(log.process, entry.clock, entry.arguments[0], entry.sent)
        elif entry.tag is not None:
            made.received(log.process, entry.clock, entry.tag, entry.taken)
    return made
