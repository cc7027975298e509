"""Processes that are made up: a module that makes calls drawn at random, one after the other, and a log that the module can
have, whose answers, bytes, tags and signals are drawn at random too. No recording is asked: a log may have signals, tags and
times that no schedule of the group would bring about by its datagrams."""

from __future__ import annotations

from dataclasses import dataclass

from logs.format import CALLS, Entry, tag_of

BY_NAME = {call.name: call for call in CALLS}
MEMORY, MOST_BYTES, MOST_THREADS, MOST_CLOCK, NO_HANDLER = 65536, 60000, 64, 2**62, 2**32 - 1
WIDE = (0, 1, 5, 1000, -1, 2**63 - 1, -(2**63))
# What stands at the end of a function that traps there.
TRAP = ("unreachable", ())


# ---- modules


def leb(number):
    """A signed number, as the operand of a constant is spelled."""
    made = bytearray()
    while True:
        byte, number = number & 127, number >> 7
        if (number == 0 and not byte & 64) or (number == -1 and byte & 64):
            return bytes(made + bytes([byte]))
        made.append(byte | 128)


def count(number):
    made = bytearray()
    while number >= 128:
        made.append(number & 127 | 128)
        number >>= 7
    return bytes(made + bytes([number]))


def vector(parts):
    return count(len(parts)) + b"".join(parts)


def section(number, content):
    return bytes([number]) + count(len(content)) + content


VALUES = {"i": b"\x7f", "l": b"\x7e", "": b""}


def type_of(takes, gives):
    return b"\x60" + vector([VALUES[kind] for kind in takes]) + vector([VALUES[kind] for kind in gives])


def constant(kind, value):
    return (b"\x41" if kind == "i" else b"\x42") + leb(signed(value, kind))


def code_of(calls, again=False):
    """A function that makes these calls, once or for ever; an argument of None is the number that the function was given."""
    made = bytearray()
    for name, arguments in calls:
        if (name, arguments) == TRAP:
            made += b"\0"
            continue
        for kind, value in zip(BY_NAME[name].arguments, arguments):
            made += b"\x20\0" + (b"\xad" if kind == "l" else b"") if value is None else constant(kind, value)
        made += b"\x10" + count(CALLS.index(BY_NAME[name]) - 1) + (b"\x1a" if BY_NAME[name].result else b"")
    body = b"\0" + (b"\x03\x40" + made + b"\x0c\0\x0b" if again else made) + b"\x0b"
    return count(len(body)) + body


def named(word):
    return count(len(word)) + word.encode()


@dataclass(frozen=True)
class Program:
    """The calls of thread 0, and those of the functions of the table, each of which is given a number. The table has one
    more element, which is a function of another type, and one that is empty."""

    main: list
    functions: list
    # Whether thread 0 makes its calls again and again.
    again: bool = False

    def fits(self, index):
        return index < len(self.functions)

    def module(self):
        types = [type_of("", ""), type_of("i", ""), *(type_of(call.arguments, call.result) for call in CALLS[1:])]
        imports = [named("liblog") + named(call.name) + b"\0" + count(2 + at) for at, call in enumerate(CALLS[1:])]
        first, size = len(imports), len(self.functions)
        elements = [count(first + 1 + at) for at in range(size)] + [count(first)]
        return b"\0asm\1\0\0\0" + b"".join(
            (
                section(1, vector(types)),
                section(2, vector(imports)),
                section(3, vector([b"\0"] + [b"\1"] * size)),
                section(4, vector([b"\x70\0" + count(size + 2)])),
                section(5, vector([b"\0\1"])),
                section(7, vector([named("_start") + b"\0" + count(first)])),
                section(9, vector([b"\0\x41\0\x0b" + vector(elements)])),
                section(10, vector([code_of(self.main, self.again), *map(code_of, self.functions)])),
            )
        )


def drawn_arguments(draw, name):
    """The arguments of a call: most are good, and some are not."""
    at, length = draw.choice((0, 8, 64, 65530, 65536, 2**32 - 1)), draw.choice((*(0, 1, 3, 16, 40) * 3, 60000, 60001))
    if name in ("print", "random"):
        return at, length
    if name == "send":
        return draw.choice((0, 1, 2, 3, 2**32 - 1)), at, length
    if name in ("recv", "try_recv"):
        return at, length, draw.choice((32, 32, 65532, 65533))
    if name in ("spawn", "on_signal"):
        index = draw.choice((0, 0, 1, 1, 2, 2, 3, 4, 5, 2**32 - 1))
        return (index, draw.choice((0, 7))) if name == "spawn" else (draw.choice((1, 3, 5, 9, 31, 31, 0, 32)), index)
    if name in ("note", "sleep_until"):
        return (draw.choice(WIDE),)
    if name == "exit":
        return (draw.choice((0, 3, 2**32 - 1)),)
    return (draw.choice((0, 1, 2, 2**32 - 1)),) if BY_NAME[name].arguments else ()


NAMES = [call.name for call in CALLS[1:]]
OFTEN = {"exit": 0.3, "join": 0.5, "lock": 0.7, "now": 2, "spawn": 2, "random": 3, "recv": 3, "try_recv": 4, "on_signal": 5}
WEIGHTS = [OFTEN.get(name, 1) for name in NAMES]


def drawn_calls(draw, most):
    names = draw.choices(NAMES, WEIGHTS, k=draw.randint(0, most))
    return [(name, drawn_arguments(draw, name)) for name in names] + [TRAP] * (draw.random() < 0.05)


def drawn_program(draw):
    functions = [[("note", (None,))], *(drawn_calls(draw, 3) for _ in range(2))]
    setting = [("on_signal", (signal, draw.choice((0, 0, 1)))) for signal in draw.sample((1, 3, 5, 31), draw.randint(0, 3))]
    return Program(setting + drawn_calls(draw, 14), functions)


# ---- logs


class Thread:
    def __init__(self, calls, given=0):
        self.frames, self.begun, self.ended = [], False, False
        self.first = (calls, given)

    def pending(self):
        """The call at which it stands."""
        if not self.begun:
            return "begin", ()
        calls, given, at = self.frames[-1]
        name, arguments = calls[at]
        return name, tuple(given if value is None else value for value in arguments)

    def enter(self, calls, given):
        self.frames.append([calls, given, 0])


class Process:
    """A process as it goes, with the log that it has so far."""

    def __init__(self, draw, code, number, processes):
        self.draw, self.code, self.number, self.processes = draw, code, number, processes
        self.threads, self.locks, self.handlers = [Thread(code.main)], {}, {}
        self.memory, self.clock, self.end, self.entries = bytearray(MEMORY), 0, None, []

    def go(self, most):
        """Makes up to so many events."""
        while self.end is None and len(self.entries) < most:
            ready = [at for at, thread in enumerate(self.threads) if not thread.ended and not self.waits(at)]
            if not ready:
                return
            self.event(self.draw.choice(ready))

    def waits(self, at):
        name, arguments = self.threads[at].pending()
        if name == "join":
            return arguments[0] != at and arguments[0] < len(self.threads) and not self.threads[arguments[0]].ended
        return name == "lock" and self.locks.get(arguments[0], at) != at

    def event(self, at):
        thread = self.threads[at]
        name, arguments = thread.pending()
        reply, sent, taken, tag = getattr(self, "answer_" + name, self.answer_nothing)(at, *arguments)
        signal = 0
        if self.handlers and name != "exit" and self.draw.random() < 0.3:
            signal = self.draw.choice(list(self.handlers))
        self.clock = 1 + max(self.clock, tag[1] if tag else 0)
        call = BY_NAME[name]
        self.entries.append(Entry(self.clock, at, call, signal, tuple(map(signed, arguments, call.arguments)), reply, sent, taken, tag))
        if self.end is None:
            self.go_on(thread, signal)

    def go_on(self, thread, signal):
        """What follows the answer: the thread runs to its next call, its end or a trap."""
        if thread.begun:
            thread.frames[-1][2] += 1
        else:
            thread.begun = True
            thread.enter(*thread.first)
        if signal:
            thread.enter(self.code.functions[self.handlers[signal]], signal)
        while thread.frames and thread.frames[-1][2] == len(thread.frames[-1][0]):
            thread.frames.pop()
        if thread.frames and thread.pending() == TRAP:
            self.end, thread.ended = "trapped unreachable", True
        if not thread.frames:
            thread.ended = True
            if all(each.ended for each in self.threads):
                self.end = "finished"

    # ---- the answer of each call: the reply, the bytes that go out and come in, and the tag

    def answer_nothing(self, at):
        return 0, b"", b"", None

    def answer_exit(self, at, code):
        self.end, self.threads[at].ended = "exited %d" % signed(code, "i"), True
        return self.answer_nothing(at)

    def answer_note(self, at, value):
        return self.answer_nothing(at)

    def answer_now(self, at):
        return self.draw.choice(WIDE), b"", b"", None

    def answer_sleep_until(self, at, time):
        return max(time, self.draw.choice(WIDE)), b"", b"", None

    def answer_me(self, at):
        return self.number, b"", b"", None

    def answer_thread(self, at):
        return at, b"", b"", None

    def answer_print(self, at, place, length):
        if not is_good((place, length)):
            return -1, b"", b"", None
        return length, bytes(self.memory[place : place + length]), b"", None

    def answer_send(self, at, to, place, length):
        return self.answer_print(at, place, length)

    def answer_random(self, at, place, length):
        if not is_good((place, length)):
            return -1, b"", b"", None
        taken = self.drawn_bytes(length)
        self.memory[place : place + length] = taken
        return length, b"", taken, None

    def answer_recv(self, at, place, cap, sender):
        if not is_good((place, cap), (sender, 4)):
            return -1, b"", b"", None
        tag, taken = self.drawn_datagram(cap)
        self.memory[place : place + len(taken)] = taken
        self.memory[sender : sender + 4] = (tag[0] if tag else 2**32 - 1).to_bytes(4, "little")
        return len(taken), b"", taken, tag

    def answer_try_recv(self, at, place, cap, sender):
        if is_good((place, cap), (sender, 4)) and self.draw.random() < 0.4:
            return -2, b"", b"", None
        return self.answer_recv(at, place, cap, sender)

    def answer_spawn(self, at, index, given):
        if not self.code.fits(index) or len(self.threads) == MOST_THREADS:
            return -1, b"", b"", None
        self.threads.append(Thread(self.code.functions[index], given))
        return len(self.threads) - 1, b"", b"", None

    def answer_join(self, at, other):
        return (0 if other != at and other < len(self.threads) else -1), b"", b"", None

    def answer_lock(self, at, lock):
        if lock in self.locks:
            return -1, b"", b"", None
        self.locks[lock] = at
        return self.answer_nothing(at)

    def answer_unlock(self, at, lock):
        if self.locks.get(lock) != at:
            return -1, b"", b"", None
        del self.locks[lock]
        return self.answer_nothing(at)

    def answer_on_signal(self, at, signal, index):
        if not 1 <= signal <= 31 or not (self.code.fits(index) or index == NO_HANDLER):
            return -1, b"", b"", None
        if index == NO_HANDLER:
            self.handlers.pop(signal, None)
        else:
            self.handlers[signal] = index
        return self.answer_nothing(at)

    # ---- what is drawn

    def drawn_bytes(self, length):
        return bytes(length) if length > 100 else bytes(self.draw.randrange(256) for _ in range(length))

    def drawn_datagram(self, cap):
        """A tag, which need not be of any send, and bytes after it; or none, and bytes that have no tag themselves."""
        length = min(cap, self.draw.choice((0, 1, 3, 16, 17, 40)))
        if self.draw.random() < 0.6:
            clock = self.draw.choice((*range(1, 21), self.clock or 1, MOST_CLOCK - 1, MOST_CLOCK))
            tag = self.draw.randrange(self.processes), min(clock, MOST_CLOCK)
            return tag, self.draw.choice((self.drawn_bytes(length), tag_of(0, 3)[:cap]))
        alike = (tag_of(self.processes, 5), tag_of(0, 0), tag_of(0, MOST_CLOCK + 1), tag_of(0, 1)[:15])
        taken = self.draw.choice((self.drawn_bytes(length), *alike))[:cap]
        return None, b"" if is_tagged(taken, self.processes) else taken


def signed(value, kind):
    return (value & 2**32 - 1 ^ 2**31) - 2**31 if kind == "i" else value


def is_tagged(data, processes):
    """Whether bytes that came would be read as a tag and what follows it."""
    sender, clock = int.from_bytes(data[4:8], "little"), int.from_bytes(data[8:16], "little")
    return len(data) >= 16 and data[:4] == tag_of(0, 0)[:4] and sender < processes and 1 <= clock <= MOST_CLOCK


def is_good(*ranges):
    return ranges[0][1] <= MOST_BYTES and all(at + length <= MEMORY for at, length in ranges)
