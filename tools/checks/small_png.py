"""A PNG of a browser with 256 colours at most, which takes about half of the bytes."""

import struct
import zlib
from collections import Counter

SIGNATURE = b"\x89PNG\r\n\x1a\n"


def chunks(png):
    at = len(SIGNATURE)
    while at < len(png):
        length, kind = struct.unpack(">I4s", png[at : at + 8])
        yield kind, png[at + 8 : at + 8 + length]
        at += length + 12


def chunk(kind, data):
    return struct.pack(">I", len(data)) + kind + data + struct.pack(">I", zlib.crc32(kind + data))


def predicted(left, above, corner):
    """What the fourth filter takes a byte for."""
    guess = left + above - corner
    near = abs(guess - left), abs(guess - above), abs(guess - corner)
    return (left, above, corner)[near.index(min(near))]


def row_of(kind, data, before, size):
    """A row of which the filter is taken off; `size` is how many bytes a dot has."""
    row = bytearray(data)
    for place in range(len(row)):
        left, corner = (row[place - size], before[place - size]) if place >= size else (0, 0)
        above = before[place]
        guess = (0, left, above, (left + above) // 2)[kind] if kind < 4 else predicted(left, above, corner)
        row[place] = (row[place] + guess) & 255
    return row


def dots(png):
    """The width, and the rows of dots as triples."""
    found = list(chunks(png))
    width, height, depth, colours = struct.unpack(">IIBB", found[0][1][:10])
    if depth != 8 or colours not in (2, 6):
        raise ValueError("no picture of a browser")
    size, rows = 3 if colours == 2 else 4, []
    data = zlib.decompress(b"".join(part for kind, part in found if kind == b"IDAT"))
    before = bytes(width * size)
    for start in range(0, len(data), width * size + 1):
        before = row_of(data[start], data[start + 1 : start + 1 + width * size], before, size)
        rows.append(list(zip(before[0::size], before[1::size], before[2::size])))
    return width, rows


def palette(rows):
    """The colours that stand for others, and for each colour the place of the one that does."""
    counts = Counter(dot for row in rows for dot in row)
    chosen, seen = [], set()
    for colour, _ in counts.most_common():
        coarse = tuple(part >> 4 for part in colour)
        if len(chosen) < 256 and coarse not in seen:
            chosen.append(colour)
            seen.add(coarse)

    def nearest(colour):
        return min(range(len(chosen)), key=lambda place: sum((one - other) ** 2 for one, other in zip(chosen[place], colour)))

    return chosen, {colour: nearest(colour) for colour in counts}


def smaller(png):
    width, rows = dots(png)
    chosen, places = palette(rows)
    head = struct.pack(">IIBBBBB", width, len(rows), 8, 3, 0, 0, 0)
    lines = b"".join(b"\0" + bytes(places[dot] for dot in row) for row in rows)
    colours = bytes(part for colour in chosen for part in colour)
    parts = [(b"IHDR", head), (b"PLTE", colours), (b"IDAT", zlib.compress(lines, 9)), (b"IEND", b"")]
    return SIGNATURE + b"".join(chunk(*part) for part in parts)
