"""What events sent, took and printed, of a group that is played, and which datagrams are under way."""

import struct

from logs.format import TAG_START
from logs.wording import shown
from playing.known import Known

TAG = struct.Struct("<4sIQ")


class Told(Known):
    def __init__(self, names):
        super().__init__(names)
        # The events since this was emptied last, each with a word for what it did and what that is about, or None.
        self.last_events = []
        # How many bytes each process has printed, the datagrams that are given up, and the process of the last event.
        self.printed, self.lost, self.last_node = [0] * len(names), set(), names[0]

    def note(self, event):
        words = event.split(" ")
        process = self.by_name[words[1]]
        before, waiting = len(process.sent), next(iter(process.mailbox), None)
        super().note(event)
        did = None
        if len(process.sent) > before:
            did = "sent", process.sent[-1]
        elif words[3] in ("recv", "try_recv") and int(words[8]) >= 0:
            did = "taken", waiting
        elif words[3] == "print" and int(words[7]) > 0:
            number = self.numbers[process.name]
            did = "printed", (number, self.printed[number], int(words[7]))
            self.printed[number] += int(words[7])
        self.last_events.append((event, did))
        self.last_node = process.name

    def inject(self, process, data):
        """What was injected may be a datagram of the group that comes again, by its tag."""
        super().inject(process, data)
        datagram = self.datagram_of(tag_in(data))
        if datagram is not None:
            self.count_delivery(datagram)

    def datagram_of(self, tag):
        """The datagram that a sender and its clock name, or None."""
        if tag is None or not 0 <= tag[0] < len(self.processes):
            return None
        return next((datagram for datagram in self.processes[tag[0]].sent if datagram.clock == tag[1]), None)

    def under_way(self):
        return [datagram for datagram in super().under_way() if (datagram.sender, datagram.number) not in self.lost]


def tag_in(data):
    """The sender and the clock of a datagram with a tag."""
    if len(data) < TAG.size or not data.startswith(TAG_START):
        return None
    return TAG.unpack_from(data)[1:]


def payload(player, datagram):
    [answer] = player.ask_each(["datagram %d %d" % (datagram.sender, datagram.number)])
    return bytes.fromhex(answer.split(" ")[1])[TAG.size :]


def printed_by(player, name, start):
    """All bytes that a process has printed, from the one of this number on."""
    [answer] = player.ask_each(["printed %s %d" % (name, start)])
    return bytes.fromhex(answer.lstrip("-"))


def in_words(player, names, did):
    """What an event did."""
    kind, what = did
    if kind == "sent":
        return "sent to %s: %s" % (names[what.receiver], shown(payload(player, what)))
    if kind == "printed":
        number, before, size = what
        return "printed " + shown(printed_by(player, names[number], before)[:size])
    return "taken from " + origin(player, names, what)


def origin(player, names, waiting):
    """Who sent a datagram that waits to be taken or was taken, and its bytes."""
    if not isinstance(waiting, bytes):
        return "%s at its clock %d: %s" % (names[waiting.sender], waiting.clock, shown(payload(player, waiting)))
    tag = tag_in(waiting)
    if tag is None or tag[0] >= len(names):
        return "outside: " + shown(waiting)
    return "%s at its clock %d: %s" % (names[tag[0]], tag[1], shown(waiting[TAG.size :]))
