#!/usr/bin/env python3
"""Checks that check-module and friday refuse the same modules for the same reasons: over modules that are changed at random, and those
of the examples. Both judge each.
"""
import argparse
import glob
import os
import random
import re
import subprocess
import sys
import tempfile

KIT = os.path.dirname(os.path.realpath(__file__))
sys.path.append(os.path.join(KIT, "..", "tools"))

from asking.program import program_of  # noqa: E402 (it lies beside the tools)
from lowering import number, sized, vector  # noqa: E402
from module_faults import faults  # noqa: E402

CHANGES = 300
ROUNDS_OF_BODIES = 300


def by_friday(program, data):
    """The reason with its number, or None."""
    with open("m.wasm", "wb") as file:
        file.write(data)
    done = subprocess.run([program, "record", "schedule"], stdout=subprocess.PIPE, stderr=subprocess.STDOUT, text=True, errors="replace")
    found = re.search(r"\b([1-7]) (Malformed|HasFloat|BadImport|Untyped|OverLimit|NoStart|BadSegment)|TooLarge", done.stdout)
    assert found or done.returncode == 0, done.stdout
    return found and found[0]


def by_kit(data):
    first = next(faults(data, "m.wasm"), None)
    return first and first.split(":")[0]


def changed(data, chance):
    """A few bytes are others, are gone or come twice."""
    data = bytearray(data)
    for _ in range(chance.choice((1, 1, 1, 2, 3))):
        at = chance.randrange(8, len(data))
        way = chance.random()
        if way < 0.7:
            data[at] = chance.choice((data[at] ^ 1 << chance.randrange(8), chance.randrange(256), data[at] + 1 & 255))
        elif way < 0.85:
            del data[at]
        else:
            data.insert(at, data[at])
    return bytes(data)


# Instructions that make most functions nearly valid.
PIECES = [bytes(piece) for piece in (
    [0x20, 0], [0x20, 1], [0x21, 1], [0x22, 0], [0x41, 1], [0x42, 2], [0x6A], [0x7C], [0x45], [0x50], [0xA7], [0xAC], [0x1A], [0x1B], [0x02, 0x40], [0x02, 0x7F],
    [0x03, 0x40], [0x04, 0x7E], [0x05], [0x0B], [0x0B], [0x0C, 0], [0x0D, 0], [0x0D, 1], [0x0E, 1, 0, 0], [0x0F], [0x00], [0x10, 0], [0x10, 1], [0x11, 0, 0],
    [0x28, 2, 0], [0x36, 2, 0], [0x29, 4, 0], [0x3A, 0, 0], [0x23, 0], [0x24, 0], [0x3F, 0], [0x40, 0], [0xC0], [0xC4], [0x01],
)]


def made(chance):
    """A module with one function of instructions that are drawn."""
    code = b"".join(chance.choice(PIECES) for _ in range(chance.randrange(12)))
    # Most blocks that are open are closed.
    code += b"\x0b" * max(1, 1 + code.count(b"\x02\x40") - chance.randrange(2))
    types = vector([b"\x60\0\0", b"\x60\x01\x7e\0", b"\x60\x01\x7f\x01\x7f"])
    parts = [(1, types), (2, vector([sized(b"liblog") + sized(b"note") + b"\0\x01"])), (3, vector([b"\0", b"\x02"])), (4, b"\x01\x70\0\x02"), (5, b"\x01\0\x01"),
             (6, b"\x01\x7f" + bytes([chance.randrange(2)]) + b"\x41\x05\x0b"), (7, vector([sized(b"_start") + b"\0\x01"])),
             (9, b"\x01\0\x41" + bytes([chance.randrange(3)]) + b"\x0b\x01\x01"), (10, vector([sized(b"\0\x0b"), sized(b"\x01\x01\x7f" + code)])),
             (11, b"\x01\0\x41" + number(chance.choice((0, 9, 65_535))) + b"\x0b" + sized(b"ab"))]
    return b"\0asm\1\0\0\0" + b"".join(bytes([kind]) + sized(content) for kind, content in parts)


def main():
    parser = argparse.ArgumentParser(description=__doc__, formatter_class=argparse.RawDescriptionHelpFormatter, allow_abbrev=False)
    parser.add_argument("program", metavar="PROGRAM", nargs="?", help="the program friday, if not the one that answers ./friday")
    parser.add_argument("--seed", type=int, default=1)
    chosen = parser.parse_args()
    program, chance = os.path.abspath(program_of(chosen.program)), random.Random(chosen.seed)
    paths = sorted(glob.glob(os.path.join(KIT, "..", "examples", "*", "*.wasm")), key=os.path.getsize)
    whole = []
    for path in paths:
        with open(path, "rb") as file:
            whole.append(file.read())
    modules = whole + [changed(chance.choice(whole[:6]), chance) for _ in range(CHANGES)] + [made(chance) for _ in range(ROUNDS_OF_BODIES)]
    reasons, differ = {}, []
    with tempfile.TemporaryDirectory() as folder:
        os.chdir(folder)
        with open("schedule", "w") as file:
            file.write("friday 1\nprocess a m.wasm\n")
        for data in modules:
            reason, other = by_friday(program, data), by_kit(data)
            if reason != other:
                differ.append("friday says %s and check-module %s of %s" % (reason, list(faults(data, "m.wasm")), data.hex()))
            reasons[reason] = reasons.get(reason, 0) + 1
        os.chdir("/")
    assert not differ, "\n".join(differ)
    print("%d modules: %s" % (len(modules), ", ".join("%d %s" % (count, reason or "taken") for reason, count in sorted(reasons.items(), key=str))))


if __name__ == "__main__":
    main()
