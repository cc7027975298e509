"""Reads modules of 4 MB of many shapes, and prints how many MB of each `friday` reads in a second, beside
wasm-validate and wasm-objdump -h of the package wabt on the same files. The modules are valid, so that
each program reads all of them. The time of a start, on a module of 8 bytes, is subtracted. The instructions
per byte are given for a module of a tenth of the size too: where the time is linear in it, they agree.
"""

import os
import shutil
import statistics
import subprocess
import sys
import tempfile
import time

from costs import TOP, instructions, program_of

PROGRAM = program_of(__doc__)
LOG = os.path.join(TOP, "examples", "first", "a.log")
SIZE = 4194304
MAGIC = b"\0asm\1\0\0\0"
# How often each program reads each module; the median counts.
TIMES = 5


# A number in LEB128, in at least so many bytes.
def number(value, width=1):
    spelled = bytearray()
    while True:
        value, low = value >> 7, value & 127
        width -= 1
        if value == 0 and width <= 0:
            return bytes(spelled) + bytes([low])
        spelled.append(low | 128)


def section(kind, content):
    return bytes([kind]) + number(len(content)) + content


def vector(items):
    return number(len(items)) + b"".join(items)


# The section of as many items as leave the module its size. Each number of bytes is spelled in five.
def filling(size, before, kind, item, after=b""):
    items, left = [], size - len(before) - len(after) - 11
    while True:
        one = item(len(items))
        left -= len(one)
        if left < 0:
            break
        items.append(one)
    content = number(len(items), 5) + b"".join(items)
    return before + bytes([kind]) + number(len(content), 5) + content + after


def sized(content):
    return number(len(content)) + content


TYPE = section(1, vector([b"\x60\0\0"]))
UNARY = section(1, vector([b"\x60\1\x7f\1\x7f"]))
ONE = section(3, vector([b"\0"]))
CODE = section(10, vector([b"\2\0\x0b"]))
TABLE = section(4, vector([b"\x70\0\1"]))
MEMORY = section(5, vector([b"\0\1"]))


# Functions of one type, as many as their bodies leave room for.
def functions(size, type_section, body):
    count = (size - len(MAGIC + type_section) - 24) // (len(body) + 1)
    start = MAGIC + type_section + section(3, vector([b"\0"] * count))
    return start + section(10, vector([body] * count))


# One function without locals whose instructions are as many pieces as there is room for.
def one_function(size, piece):
    before = MAGIC + TYPE + ONE
    room = size - len(before) - 32
    return before + section(10, vector([sized(b"\0" + piece * (room // len(piece)) + b"\x0b")]))


def branch_table(size):
    count = (size - 64) // 4
    body = b"\0\x41\0\x0e" + number(count) + number(0, 4) * count + b"\0\x0b"
    return MAGIC + TYPE + ONE + section(10, vector([sized(body)]))


def one_data_segment(size):
    return MAGIC + MEMORY + section(11, vector([b"\0\x41\0\x0b" + sized(b"d" * (size - 40))]))


def one_element_segment(size):
    segment = b"\0\x41\0\x0b" + vector([b"\0"] * (size - 60))
    return MAGIC + TYPE + ONE + TABLE + section(9, vector([segment])) + CODE


SHAPES = (
    ("many small functions", lambda size: functions(size, UNARY, sized(b"\0\x20\0\x41\1\x6a\x0b"))),
    ("towers of 1,000 blocks", lambda size: functions(size, TYPE, sized(b"\0" + b"\2\x40" * 1000 + b"\x0b" * 1001))),
    ("br_table, 1,000,000 labels", branch_table),
    ("nops", lambda size: one_function(size, b"\1")),
    ("i64 constants of 10 bytes", lambda size: one_function(size, b"\x42" + b"\xff" * 9 + b"\x7f\x1a")),
    ("one data segment", one_data_segment),
    ("many data segments", lambda size: filling(size, MAGIC + MEMORY, 11, lambda i: b"\0\x41\0\x0b\1d")),
    ("one element segment", one_element_segment),
    ("many element segments", lambda size: filling(
        size, MAGIC + TYPE + ONE + TABLE, 9, lambda i: b"\0\x41\0\x0b\1\0", CODE)),
    ("types", lambda size: filling(size, MAGIC, 1, lambda i: b"\x60\3\x7f\x7e\x7f\1\x7e")),
    ("globals", lambda size: filling(size, MAGIC, 6, lambda i: b"\x7f\0\x41\0\x0b")),
    ("imports", lambda size: filling(size, MAGIC + TYPE, 2, lambda i: sized(b"m") + sized(b"n%06d" % i) + b"\0\0")),
    ("exports", lambda size: filling(size, MAGIC + TYPE + ONE, 7, lambda i: sized(b"n%06d" % i) + b"\0\0", CODE)),
    ("custom sections", lambda size: MAGIC + section(0, sized(b"n")) * ((size - 8) // 4)),
)


def spent(words, times):
    each = []
    for _ in range(times):
        start = time.perf_counter()
        child = subprocess.run(words, stdout=subprocess.PIPE, stderr=subprocess.DEVNULL)
        each.append(time.perf_counter() - start)
    return statistics.median(each), child.returncode, child.stdout


# The seconds that each program takes for a module.
def measure(path, times):
    own, _, said = spent([PROGRAM, "replay", path, LOG], times)
    assert b"Malformed" not in said, said
    validate, status, _ = spent(["wasm-validate", path], times)
    assert status == 0, path
    objdump, status, _ = spent(["wasm-objdump", "-h", path], times)
    assert status == 0, path
    return own, validate, objdump


def write(path, module):
    with open(path, "wb") as file:
        file.write(module)


# The instructions for a byte of the module, as a word.
def for_a_byte(path, at_start):
    count = instructions([PROGRAM, "replay", path, LOG])
    return "-" if None in (count, at_start) else "%.2f" % ((count - at_start) / os.path.getsize(path))


def main():
    if shutil.which("wasm-validate") is None:
        sys.exit("bench/decode.sh: the package wabt is wanted")
    with tempfile.TemporaryDirectory() as folder:
        path = os.path.join(folder, "m.wasm")
        write(path, MAGIC)
        starts, at_start = measure(path, 50), instructions([PROGRAM, "replay", path, LOG])
        print("start: %.4f seconds; wasm-validate %.4f; wasm-objdump -h %.4f" % starts)
        print("%-27s %8s %10s %15s %17s %18s %12s" % (
            "MB/s of", "bytes", "friday", "wasm-validate", "wasm-objdump -h", "instructions/byte", "at a tenth"))
        for name, shape in SHAPES:
            write(path, shape(SIZE // 10))
            before = for_a_byte(path, at_start)
            module = shape(SIZE)
            assert SIZE - 4096 < len(module) <= SIZE, (name, len(module))
            write(path, module)
            speeds = [len(module) / 1e6 / (one - start) for one, start in zip(measure(path, TIMES), starts)]
            words = (name, len(module), *speeds, for_a_byte(path, at_start), before)
            print("%-27s %8d %10.1f %15.1f %17.1f %18s %12s" % words)


if __name__ == "__main__":
    main()
