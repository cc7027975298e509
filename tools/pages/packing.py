"""The data of a page, packed: a length, JSON and the bytes of the events, deflated, in base64.

Base64 has none of the signs of markup, so whatever a guest prints or sends cannot end the element that holds it.
"""

import base64
import hashlib
import json
import struct
import zlib

# What the data of a page may take: small pages are never cut, and the code of the page has room within 60 an event.
BYTES_AT_LEAST, BYTES_OF_AN_EVENT, BYTES_OF_A_CHANGE = 20000, 50, 100
LONGEST_PIECE = 60000


def packed(data, pieces):
    """The data with as much of the events' bytes as it has room for."""
    changes = sum(len(course["positions"]) for course in data["courses"])
    room = max(BYTES_AT_LEAST, BYTES_OF_AN_EVENT * data["count"]) + BYTES_OF_A_CHANGE * changes
    text = packed_with(data, pieces, LONGEST_PIECE)
    if len(text) <= room:
        return text
    least, most = 0, LONGEST_PIECE
    while most - least > 1:
        middle = (least + most) // 2
        least, most = (middle, most) if len(packed_with(data, pieces, middle)) <= room else (least, middle)
    return packed_with(data, pieces, least)


def sum_of(piece):
    return hashlib.sha256(piece).hexdigest()[:8]


def packed_with(data, pieces, longest):
    """The data with the first bytes of each piece, at most so many."""
    kept = {
        "lengths": [min(len(piece), longest) for piece in pieces],
        "wholes": [len(piece) for piece in pieces],
        # What is left out of a piece is compared by this.
        "sums": {place: sum_of(piece) for place, piece in enumerate(pieces) if len(piece) > longest},
    }
    spelled = json.dumps({**data, **kept}, separators=(",", ":")).encode("ascii")
    whole = struct.pack("<I", len(spelled)) + spelled + b"".join(piece[:longest] for piece in pieces)
    return base64.b64encode(zlib.compress(whole, 9)).decode("ascii")
