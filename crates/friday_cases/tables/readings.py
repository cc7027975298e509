"""What the bytes of a log of version 2 spell: its head, its entries, and the bytes behind them."""

from collections import namedtuple
import string

import logs

CALLS = list(logs.KINDS)
SIGNS = (string.ascii_lowercase + string.digits + "_").encode()
Head = namedtuple("Head", "count process name")


def head(data):
    """The head in front of bytes, or nothing."""
    count, process = (int.from_bytes(data[at : at + 4], "little") for at in (8, 12))
    name = data[17 : 17 + data[16]] if len(data) > 16 else b""
    is_named = 1 <= len(name) <= 32 and all(sign in SIGNS for sign in name)
    if not is_named or not process < count <= 16 or not data.startswith(logs.head(name, 2, count, process)):
        return None
    return Head(count, process, name.decode())


class Reader:
    """Goes over bytes, and takes a number in any spelling. What is read is spelled again, and then compared."""

    def __init__(self, data):
        self.data, self.at = data, 0

    def byte(self):
        self.at += 1
        return self.data[self.at - 1]

    def number(self):
        digits = [self.byte()]
        while digits[-1] >= 128:
            digits.append(self.byte())
        return sum((digit & 127) << 7 * place for place, digit in enumerate(digits))

    def counted(self):
        count = self.number()
        self.at += count
        return self.data[self.at - count : self.at]

    def entry(self, last):
        clock, thread, call, signal = (last + self.number()) % 2**64, self.number(), CALLS[self.byte()], self.byte()
        numbers = [self.number() for _ in range(logs.KINDS[call][1] + 1)]
        data = self.counted() if call in logs.BYTES_OUT + logs.BYTES_IN else b""
        tag = (self.number(), self.number()) if call in logs.TAGGED and self.byte() else None
        return logs.entry(clock, call, numbers[:-1], numbers[-1], data, tag, thread, signal)


def front(data, last):
    """The entry in front of bytes, behind one with the clock `last`, and its bytes; or nothing."""
    reader = Reader(data)
    try:
        reader.number()
        made = reader.entry(last)
    except IndexError:
        return None
    sender, clock = made.tag or (0, 0)
    if made.thread >= 2**16 or sender >= 2**32 or clock >= 2**64:
        return None
    spelled = logs.spelled([made], last)
    return (made, spelled) if data.startswith(spelled) else None


def read(data):
    """The entries of a log that begins with a head, and the bytes behind them."""
    made, rest, last = [], data[17 + data[16] :], 0
    while found := front(rest, last):
        made.append(found[0])
        rest, last = rest[len(found[1]) :], made[-1].clock
    return made, rest
