"""What the events of a group tell: what was sent and waits, which threads there are, who holds which lock."""

from __future__ import annotations

from collections import deque
from dataclasses import dataclass, field


@dataclass(frozen=True)
class Datagram:
    """What a process sent into the group, as its `number`th datagram, of `size` bytes."""

    sender: int
    number: int
    receiver: int
    clock: int
    size: int


@dataclass
class Process:
    name: str
    end: str = "running"
    events: int = 0
    threads: list[int] = field(default_factory=lambda: [0])
    sent: list[Datagram] = field(default_factory=list)
    # The locks, each with the thread that holds it.
    holders: dict[str, str] = field(default_factory=dict)
    wall_time: int = 0
    # How many random bytes wait, and how many were taken.
    pool: int = 0
    random_taken: int = 0
    # The datagrams that were delivered and not taken yet, and the bytes of those that were injected.
    mailbox: deque = field(default_factory=deque)


class Known:
    def __init__(self, names):
        self.processes = [Process(name) for name in names]
        self.by_name = {process.name: process for process in self.processes}
        self.numbers = {name: number for number, name in enumerate(names)}
        self.events, self.last_call = 0, ""
        # Those sent since this was emptied last, and how often each was delivered, by its sender and number.
        self.new_datagrams = []
        self.delivered = {}

    def take(self, line, answer):
        """An item that was accepted, and its answer."""
        for event in answer[:-1]:
            self.note(event)
        words = line.split()
        if words[0] == "run" or not answer[-1].startswith("1 acted"):
            return
        process = self.processes[number_of(words[1])]
        if words[0] == "clock":
            process.wall_time = number_of(words[2])
        elif words[0] == "random":
            process.pool += 0 if words[2] == "-" else len(words[2]) // 2
        elif words[0] == "inject":
            self.inject(process, bytes.fromhex(words[2].replace("-", "")))
        elif words[0] == "deliver":
            datagram = process.sent[number_of(words[2]) - 1]
            self.processes[datagram.receiver].mailbox.append(datagram)
            self.count_delivery(datagram)

    def inject(self, process, data):
        process.mailbox.append(data)

    def count_delivery(self, datagram):
        key = datagram.sender, datagram.number
        self.delivered[key] = self.delivered.get(key, 0) + 1

    def note(self, event):
        words = event.split(" ")
        process = self.by_name[words[1]]
        process.events += 1
        self.events += 1
        self.last_call = words[3]
        noted = NOTED.get(words[3])
        if noted:
            noted(self, process, words)

    def note_send(self, process, words):
        receiver, size = int(words[4]), int(words[8])
        if size >= 0 and 0 <= receiver < len(self.processes):
            sender = self.numbers[process.name]
            datagram = Datagram(sender, len(process.sent) + 1, receiver, int(words[0]), size)
            process.sent.append(datagram)
            self.new_datagrams.append(datagram)

    def note_receive(self, process, words):
        if int(words[8]) >= 0:
            process.mailbox.popleft()

    def note_random(self, process, words):
        taken = max(0, int(words[7]))
        process.random_taken += taken
        process.pool -= taken

    def note_spawn(self, process, words):
        if int(words[7]) >= 0:
            process.threads.append(int(words[7]))

    def note_lock(self, process, words):
        if words[6] == "0":
            process.holders[words[4]] = words[2]

    def note_unlock(self, process, words):
        if words[6] == "0":
            del process.holders[words[4]]

    def tell_ends(self, lines):
        """What `processes` was answered."""
        for process, line in zip(self.processes, lines):
            process.end = line.split(" events, ", 1)[1]

    def under_way(self):
        """The datagrams that were sent and never delivered, in the order of the group."""
        waiting = [datagram for process in self.processes for datagram in process.sent if (datagram.sender, datagram.number) not in self.delivered]
        return sorted(waiting, key=lambda datagram: (datagram.clock, datagram.sender))


NOTED = {
    "send": Known.note_send,
    "recv": Known.note_receive,
    "try_recv": Known.note_receive,
    "random": Known.note_random,
    "spawn": Known.note_spawn,
    "lock": Known.note_lock,
    "unlock": Known.note_unlock,
}


def number_of(word):
    """The number of a field, which may have more zeros in front than Python takes."""
    number = int(word.lstrip("-").lstrip("0") or "0")
    return -number if word.startswith("-") else number
