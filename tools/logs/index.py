"""Where each event of a group is in its log: a long recording is gone through without its bytes, which are read where one is
looked at.

An index is of events that replay accepts, so that their clocks ascend in each process, their threads have one byte, and each tag is of a
process of the group.
"""

import array
import bisect
import collections
import functools

from logs.format import CALLS, BadLog, Cursor, bytes_of, head_of, read_entry, read_head
from logs.takers import Takers
from logs.traffic import Event, is_send

KINDS = {call.name: kind for kind, call in enumerate(CALLS)}
RECEIVES = frozenset(kind for kind, call in enumerate(CALLS) if call.has_tag)
PROCESS_BITS = 4
# Where the first argument and the length of what came in stand in an entry of version 1, from its beginning on.
ARGUMENT_AT, COUNT_AT, TAG_SIZE = 16, 48, 13


class LogIndex:
    """Of each of the first events of one log its clock, its thread, its call, and where it begins; last where they end."""

    def __init__(self, path, count):
        self.data = bytes_of(path)
        cursor = Cursor(self.data)
        self.log = read_head(cursor, path)
        go = through_short if self.log.version == 2 else through_fixed
        try:
            self.clocks, self.threads, self.kinds, self.starts = go(self.data, cursor.at, count)
        except IndexError:
            raise BadLog(path, "is not what was replayed") from None

    def __len__(self):
        return len(self.clocks)

    def entry(self, number):
        """The entry of the event of this number, from 1."""
        cursor = Cursor(self.data[self.starts[number - 1] : self.starts[number]], self.log.version)
        return read_entry(cursor, self.clocks[number - 2] if number > 1 else 0)

    def receiver(self, number):
        """The process to which the event of this number sends, if its number has one byte, as all of the group have."""
        at = self.starts[number - 1]
        if self.log.version == 1:
            return int.from_bytes(self.data[at + ARGUMENT_AT : at + ARGUMENT_AT + 8], "little")
        # Behind the size, the clock, the thread, the call and the signal.
        return self.data[short(self.data, short(self.data, at)[1])[1] + 3]

    def tags(self, first, last):
        """The tag of each datagram that was taken, as one number, with the place of its event among all, from the last one back."""
        receives = [at for at in range(last - 1, first - 1, -1) if self.kinds[at] in RECEIVES]
        ends = [self.starts[at + 1] for at in receives]
        if self.log.version == 2:
            tags = short_tags(self.data, ends)
        else:
            tags = fixed_tags(self.data, [self.starts[at] for at in receives], ends)
        return ((at, tag) for at, tag in zip(receives, tags) if tag)


def columns():
    return array.array("Q"), bytearray(), bytearray(), array.array("Q")


def through_short(data, at, count):
    """The columns of a log of version 2."""
    clocks, threads, kinds, starts = columns()
    add_clock, add_thread, add_kind, add_start = clocks.append, threads.append, kinds.append, starts.append
    clock = 0
    for _ in range(count):
        add_start(at)
        # Most numbers have one byte, and a call for each would take longer than all the rest.
        size, at = data[at], at + 1
        if size > 127:
            size, at = short(data, at - 1)
        end = at + size
        more, at = data[at], at + 1
        if more > 127:
            more, at = short(data, at - 1)
        clock += more
        add_clock(clock)
        add_thread(data[at])
        add_kind(data[at + 1])
        at = end
    add_start(at)
    return clocks, threads, kinds, starts


def through_fixed(data, at, count):
    """The columns of a log of version 1."""
    clocks, threads, kinds, starts = columns()
    for _ in range(count):
        starts.append(at)
        clocks.append(int.from_bytes(data[at + 4 : at + 12], "little"))
        threads.append(data[at + 12])
        kinds.append(data[at + 14])
        at += 4 + int.from_bytes(data[at : at + 4], "little")
    starts.append(at)
    return clocks, threads, kinds, starts


def short(data, at):
    """A short number, and where it ends."""
    byte = data[at]
    value, at, shift = byte & 127, at + 1, 7
    while byte > 127:
        byte = data[at]
        value, at, shift = value | (byte & 127) << shift, at + 1, shift + 7
    return value, at


def short_tags(data, ends):
    """Of each entry of version 2 its tag as one number, the clock before the sender, or 0. A tag ends its entry: a flag of 1, a sender of
    one byte, and a clock, which is not 0; without one a flag of 0 does."""
    for end in ends:
        clock, at = data[end - 1], end - 2
        while clock and data[at] > 127:
            clock, at = clock << 7 | data[at] & 127, at - 1
        yield clock and clock << PROCESS_BITS | data[at]


def fixed_tags(data, starts, ends):
    """The same of entries of version 1."""
    for start, end in zip(starts, ends):
        count = int.from_bytes(data[start + COUNT_AT : start + COUNT_AT + 4], "little")
        sender, clock = data[end - 12 : end - 8], data[end - 8 : end]
        has_tag = start + COUNT_AT + 4 + count + TAG_SIZE == end
        yield has_tag and int.from_bytes(clock, "little") << PROCESS_BITS | int.from_bytes(sender, "little")


class Index:
    """The events of a group in the order of the positions, as a sequence, and the positions of each process and thread."""

    def __init__(self, paths, accepted):
        """`accepted` tells how many events replay accepts of each log, by its process's name."""
        self.parts = [LogIndex(path, accepted[head_of(path).name]) for path in paths]
        self.parts.sort(key=lambda part: part.log.process)
        self.logs, self.threads = [part.log for part in self.parts], {}
        self.names = {log.process: log.name for log in self.logs}
        keys = sorted(clock << PROCESS_BITS | at for at, part in enumerate(self.parts) for clock in part.clocks)
        self.sources = bytes([key & 15 for key in keys])
        self.of_process = {log.name: array.array("Q") for log in self.logs}
        appends = [self.of_process[log.name].append for log in self.logs]
        for position, at in enumerate(self.sources, 1):
            appends[at](position)
        self.takers = {part.log.process: Takers(part, self.of_process[part.log.name]) for part in self.parts}

    def __len__(self):
        return len(self.sources)

    def part_of(self, name):
        return next(part for part in self.parts if part.log.name == name)

    def number_at(self, position):
        """The process's own number of the event that led to a position."""
        return bisect.bisect_right(self.of_process[self.logs[self.sources[position - 1]].name], position)

    def event(self, position):
        """The event that led to a position, from 1."""
        part, number = self.parts[self.sources[position - 1]], self.number_at(position)
        return Event(position, number, part.log, part.entry(number))

    def brief(self):
        """Each event's clock, process, thread and call, in the order of the positions."""
        counts = [0] * len(self.parts)
        for at in self.sources:
            part, place = self.parts[at], counts[at]
            counts[at] = place + 1
            yield "%d %s %d %s" % (part.clocks[place], part.log.name, part.threads[place], CALLS[part.kinds[place]].name)

    def thread_at(self, position):
        """The process and the thread of the event that led to a position."""
        part = self.parts[self.sources[position - 1]]
        return part.log.name, part.threads[self.number_at(position) - 1]

    def of_thread(self, name, thread):
        """The positions of the events of a thread, which are told apart once for each process."""
        if name not in self.threads:
            found = self.threads[name] = collections.defaultdict(lambda: array.array("Q"))
            for position, number in zip(self.of_process[name], self.part_of(name).threads):
                found[number].append(position)
        return self.threads[name].get(thread, ())

    @functools.cached_property
    def prints(self):
        """The positions of the events that print."""
        kind, found = KINDS["print"], []
        for part in self.parts:
            positions, at = self.of_process[part.log.name], part.kinds.find(kind)
            while at >= 0:
                found.append(positions[at])
                at = part.kinds.find(kind, at + 1)
        return array.array("Q", sorted(found))

    def sent_at(self, tag, receiver):
        """The position of the send that a tag names, to a process; None where the logs have none."""
        part = next((part for part in self.parts if part.log.process == tag[0]), None)
        at = bisect.bisect_left(part.clocks, tag[1]) if part else 0
        if part is None or at == len(part) or part.clocks[at] != tag[1] or part.kinds[at] != KINDS["send"]:
            return None
        entry = part.entry(at + 1)
        return self.of_process[part.log.name][at] if is_send(entry) and entry.arguments[0] == receiver else None

    def tags(self):
        """The sender and the clock in each tag that an event took, and the position of the event."""
        for part in self.parts:
            positions = self.of_process[part.log.name]
            for at, tag in part.tags(0, len(part)):
                yield (tag & 2**PROCESS_BITS - 1, tag >> PROCESS_BITS), positions[at]

    def taken_at(self, event):
        """The positions at which what an event sent was taken, in their order."""
        takers = self.takers.get(event.entry.arguments[0]) if is_send(event.entry) else None
        return takers.of(event.entry.clock << PROCESS_BITS | event.log.process, event.position) if takers else []

    def under_way(self, position, most):
        """The positions of the sends, among so many events up to here, that an event takes later or none does, the last one first."""
        for at in range(position, max(0, position - most), -1):
            part, number = self.parts[self.sources[at - 1]], self.number_at(at)
            if part.kinds[number - 1] == KINDS["send"]:
                takers = self.takers.get(part.receiver(number))
                taken = takers.of(part.clocks[number - 1] << PROCESS_BITS | part.log.process, at) if takers else ()
                if not taken or taken[-1] > position:
                    yield at
