"""The log of `pong` in version 2, cut to each length and with one bit or all turned in each byte, replayed and migrated: what
its bytes then spell, and which of its entries `pong` can have made."""

import groups, pairs, readings
from common import refused
from script import digits

PLACE, CAP = 64, 16


class Pong:
    """Takes datagrams of up to 16 bytes to 64, and sends each back to where it came from."""

    def __init__(self, count):
        self.count, self.clock, self.memory, self.stands = count, 0, bytes(CAP), ("begin", ())

    def is_answer(self, made):
        """Whether some environment can have given this answer. No datagram here has the 16 bytes of a tag."""
        if made.call not in ("recv", "send"):
            return made.reply == 0
        if made.call == "send":
            return made.reply == len(made.data)
        sender, clock = made.tag or (0, 1)
        return made.reply == len(made.data) <= CAP and sender < self.count and 1 <= clock <= 2**62

    def refuses(self, made):
        """The first reason for which an entry is not legal, or nothing."""
        call, arguments = self.stands
        reasons = (
            ("2 NoThread", made.thread != 0),
            ("3 OtherCall", made.call != call),
            ("4 OtherArguments", tuple(made.arguments) != arguments),
            ("5 OtherBytes", call == "send" and made.data != self.memory[: arguments[2]]),
            ("6 OtherReply", not self.is_answer(made)),
            ("7 NoHandler", made.signal != 0),
            ("8 OtherClock", made.clock != 1 + max(self.clock, made.tag[1] if made.tag else 0)),
        )
        return next((reason for reason, holds in reasons if holds), None)

    def goes_on(self, made):
        self.clock = made.clock
        if made.call == "recv":
            self.memory = made.data + self.memory[len(made.data) :]
            sender = made.tag[0] if made.tag else groups.TO_ALL
            self.stands = "send", (sender, PLACE, len(made.data))
        else:
            self.stands = "recv", (PLACE, CAP, 32)


def replayed(data):
    """What a replay of a log comes to."""
    head, (made, rest) = readings.head(data), readings.read(data)
    pong, verdict = Pong(head.count), "%d bytes left over" % len(rest) if rest else "log whole"
    for at, each in enumerate(made):
        reason = pong.refuses(each)
        if reason:
            made, verdict = made[:at], "diverged at %d: %s" % (at + 1, reason)
            break
        pong.goes_on(each)
    return pairs.report([pairs.Log(*head, made, verdict=verdict)])


def migrated(data):
    made, rest = readings.read(data)
    return "Done", "%s: %d entries, %d bytes left out" % (readings.head(data).name, len(made), len(rest))


def outcomes(logs_given, of_log):
    return [of_log(data) if readings.head(data) else refused("pong.log", "1 BadHead") for data in logs_given]


def turned(data, at, bits):
    return data[:at] + bytes([data[at] ^ bits]) + data[at + 1 :]


def each_byte(script):
    whole = groups.log(1, 5)
    script.case("the log of pong cut to each length, and with each byte turned, replayed and migrated")
    script.file("pong.wasm", script.kept("pong"))
    script.file("pong.log", digits(whole))
    places = range(len(whole))
    for words, of_log in (("replay pong.wasm pong.log", replayed), ("migrate pong.log new", migrated)):
        script.each("cuts", "pong.log", words, outcomes([whole[:size] for size in range(len(whole) + 1)], of_log))
        for verb, bits in (("turns", 255), ("flips", 1)):
            script.each(verb, "pong.log", words, outcomes([turned(whole, at, bits) for at in places], of_log))
    # What was migrated last is a log whose last byte was turned.
    script.show("new", turned(whole, len(whole) - 1, 1))


def table(script):
    script.title("Logs of version 2 with bytes that are turned")
    each_byte(script)
