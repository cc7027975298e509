"""Reads logs of version 2 that no recording makes: of the least entries, of the longest numbers, of empty strings with tags, of one
string, of bytes that are no entry, and of an entry that ends after the log. Prints what `migrate` and `replay` of each cost for a
byte, of a log of a tenth of 3,000,000 bytes and of all, and the time of one of 33,000,000.
"""

import os
import shutil
import tempfile

from costs import TOP, instructions, play, program_of

PROGRAM = program_of(__doc__)
HEAD = b"LLOG" + b"".join(n.to_bytes(4, "little") for n in (2, 1, 0)) + b"\x01a"
SIZES = (300_000, 3_000_000, 33_000_000)


def short(n):
    """The shortest spelling of a number by seven bits a byte."""
    digits = []
    while n > 127:
        digits.append(n & 127 | 128)
        n >>= 7
    return bytes(digits + [n])


def entry(body):
    return short(len(body)) + body


MOST = short(2**64 - 1)
LEAST = entry(bytes(5))
# A `note` of the greatest numbers, and a `try_recv` that brought nothing with the longest tag.
LONG_NUMBERS = entry(MOST + short(2**16 - 1) + b"\x02\x00" + MOST + MOST)
TAGGED = entry(MOST + b"\x00\x0a\x00" + MOST * 3 + MOST + b"\x00\x01" + short(2**32 - 1) + MOST)
# A length of eleven bytes, which is no number.
NO_ENTRY = b"\x80" * 10 + b"\x01"


def string(size):
    """One `print` that fills the log."""
    outgoing = size - 40
    return entry(b"\x01\x00\x03\x00" + short(0) * 2 + short(0) + short(outgoing) + bytes(outgoing))


def cut_off(size):
    """An entry whose length says one byte more than there is."""
    whole = string(size)
    return whole[:-1]


LOGS = {
    "the least entries": lambda size: LEAST * (size // len(LEAST)),
    "the longest numbers": lambda size: LONG_NUMBERS * (size // len(LONG_NUMBERS)),
    "tags": lambda size: TAGGED * (size // len(TAGGED)),
    "one string": string,
    "no entry": lambda size: NO_ENTRY * (size // len(NO_ENTRY)),
    "an entry that ends after the log": cut_off,
}


def cost(folder, name, words, kind):
    counts = []
    for size in SIZES[:2]:
        write(folder, kind(size))
        counts.append(instructions([PROGRAM, *words], folder))
    write(folder, kind(SIZES[2]))
    spent = play([PROGRAM, *words], folder, statuses=(0, 1), is_heard=False).spent
    each = "" if None in counts else " %.2f and %.2f instructions for a byte," % tuple(n / size for n, size in zip(counts, SIZES))
    print("%s, %s:%s %.2f s for 33 MB" % (words[0], name, each, spent), flush=True)


def write(folder, entries):
    with open(os.path.join(folder, "a.log"), "wb") as file:
        file.write(HEAD + entries)


def main():
    with tempfile.TemporaryDirectory() as folder:
        shutil.copy(os.path.join(TOP, "examples", "first", "a.wasm"), os.path.join(folder, "a.wasm"))
        for name, kind in LOGS.items():
            cost(folder, name, ["migrate", "a.log", "new.log"], kind)
            cost(folder, name, ["replay", "a.wasm", "a.log"], kind)


if __name__ == "__main__":
    main()
