#!/usr/bin/env python3
"""Checks that both versions of logs are read and written: known bytes, entries made up by chance, logs that are cut, and bytes
that spell no entry."""

import argparse
import os
import random
import tempfile
from dataclasses import replace

import tools_path  # before the modules of the tools, which it lets be found
from logs.format import CALLS, BadLog, Entry, Log, ends, head_of, log_in, read_log, short, spelled, spelled_head

BY_NAME = {call.name: call for call in CALLS}
NUMBERS = (0, 1, 127, 128, 16383, 16384, 2**31 - 1, -1, -(2**31))
WIDE = (*NUMBERS, 2**62, 2**63 - 1, -(2**63))
# A process that is told the time 5 and notes it, in both versions.
KNOWN = (
    "4c4c4f470100000001000000000000000161 14000000 0100000000000000 0000 00 00 0000000000000000"
    "14000000 0200000000000000 0000 04 00 0500000000000000 1c000000 0300000000000000 0000 02 00 0500000000000000 0000000000000000",
    "4c4c4f470200000001000000000000000161 050100000000 050100040005 06010002000500",
)
SHORT = ((0, "00"), (127, "7f"), (128, "8001"), (300, "ac02"), (16383, "ff7f"), (16384, "808001"), (2**64 - 1, "ff" * 9 + "01"))
# Bytes of version 2 that spell no entry: what stands there as a number, and the entry `yield` around it.
PADDED = ("8000", "8080808000", "81808000")
TOO_LONG = ("80" * 10 + "01", "ff" * 10 + "7f", "ff" * 11, "80" * 9 + "02", "ff" * 9 + "02")


def same(what, found, wanted):
    if found != wanted:
        raise AssertionError("%s: %r, and it should be %r" % (what, found, wanted))


def entry(name, clock=1, arguments=(), reply=0, **fields):
    given = {"thread": 0, "signal": 0, "sent": b"", "taken": b"", "tag": None, **fields}
    return Entry(clock=clock, call=BY_NAME[name], arguments=tuple(arguments), reply=reply, **given)


def check_known():
    events = [entry("begin"), entry("now", 2, reply=5), entry("note", 3, [5])]
    for version, digits in enumerate(KNOWN, 1):
        data, log = bytes.fromhex(digits), Log(1, 0, "a", events, version)
        same("known bytes", log_in(data), log)
        same("bytes of known events", spelled(log), data)
    for value, digits in SHORT:
        same("a short number", short(value).hex(), digits)


def made_up(chance):
    """An entry with any numbers: also a clock that falls, a thread that no process has, and a signal that there is not."""
    call = chance.choice(CALLS)
    numbers = [chance.choice(WIDE if kind != "i" else NUMBERS) for kind in (*call.arguments, call.result)]
    data = bytes(chance.randrange(256) for _ in range(chance.choice((0, 1, 127, 128, 300))))
    tag = chance.choice((None, (chance.randrange(2**32), chance.randrange(2**64))))
    return entry(
        call.name, chance.choice((0, 1, 2**63, 2**64 - 1, chance.randrange(1000))), numbers[:-1], numbers[-1],
        thread=chance.choice((0, 63, 127, 128, 65535)), signal=chance.choice((0, 31, 255)),
        sent=data if call.sends_bytes else b"", taken=data if call.takes_bytes else b"", tag=tag if call.has_tag else None,
    )


def check_made_up(seed, folder):
    """A log of either version has the same entries, and one that is cut has those that are whole."""
    chance = random.Random(seed)
    log = Log(16, chance.randrange(16), "n" * chance.randint(1, 32), [made_up(chance) for _ in range(40)])
    for version in (1, 2):
        given = replace(log, version=version)
        data, path = spelled(given), os.path.join(folder, "n.log")
        with open(path, "wb") as file:
            file.write(data)
        same("a log", read_log(path), given)
        same("its head", head_of(path), replace(given, entries=[]))
        sizes = ends(given)
        for size in (*sizes, *(chance.randrange(sizes[0], len(data)) for _ in range(20))):
            whole = sum(end <= size for end in sizes) - 1
            same("a log that is cut", log_in(data[:size]).entries, given.entries[:whole])


def left_over(data):
    """How many bytes come after the entries of a log."""
    return len(data) - len(spelled(log_in(data)))


def bodied(digits):
    """An entry with this body, in version 2."""
    body = bytes.fromhex(digits)
    return short(len(body)) + body


def bad_entries():
    """Bytes of version 2 that begin no entry, with what is wrong with them."""
    for number in (*PADDED, *TOO_LONG):
        yield "a clock", bodied(number + "000c0000")
        yield "a thread", bodied("01" + number + "0c0000")
        yield "a reply", bodied("01000c00" + number)
        yield "an argument", bodied("01000200" + number + "00")
    for length in ("8500", "85808000", "ffffffffff7f", "8580808010", "84", "06", "00", "ff" * 11):
        yield "a length", bytes.fromhex(length + "01000c0000")
    yield "a thread of 2^16", bodied("018080040c0000")
    yield "kind 18", bodied("0100120000")
    yield "kind 255", bodied("0100ff0000")
    yield "an argument too few", bodied("0100020000")
    yield "a byte too many", bodied("01000c000000")
    yield "a flag of 2", bodied("010009004010200000" + "02" + "0001")
    yield "a sender of 2^32", bodied("010009004010200000" + "01" + "8080808010" + "01")
    yield "a clock of a tag of 2^64", bodied("010009004010200000" + "01" + "00" + "80" * 9 + "02")
    yield "more bytes than there are", bodied("0100090040102000" + "03" + "0000")
    yield "a padded count of bytes", bodied("0100090040102000" + "8100" + "aa00")


def check_bad_entries():
    head = spelled_head(Log(1, 0, "a", []))
    for what, data in bad_entries():
        for behind in (b"", bytes.fromhex("0501000c0000")):
            same(what + " of a bad entry", left_over(head + data + behind), len(data + behind))
    for data in (bodied("010009004010200000" + "01" + "ffffffff0f" + "ff" * 9 + "01"), bodied("01ffff030cff" + "ff" * 9 + "01")):
        same("greatest numbers", left_over(head + data), 0)
    one = spelled(Log(1, 0, "a", [entry("recv", reply=0, arguments=(64, 16, 32))], 1))
    same("a flag of 2 in version 1", left_over(one[:-1] + b"\2"), 4 + 20 + 24 + 5)


def check_heads():
    for data in (b"", b"LLOG", b"LLOX" + bytes.fromhex(KNOWN[0])[4:], *(b"LLOG" + bytes([version, 0, 0, 0]) + b"\1" + bytes(20) for version in (0, 3))):
        try:
            log_in(data)
        except BadLog:
            continue
        raise AssertionError("a log begins with %r" % data)


def main():
    argparse.ArgumentParser(description=__doc__, formatter_class=argparse.RawDescriptionHelpFormatter).parse_args()
    check_known()
    with tempfile.TemporaryDirectory() as folder:
        for seed in range(12):
            check_made_up(seed, folder)
    check_bad_entries()
    check_heads()
    print("logs: as expected")


if __name__ == "__main__":
    main()
