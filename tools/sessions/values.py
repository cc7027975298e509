"""Values of variables: structs, arrays, numbers and pointers, taken out of the bytes of a process or of a datagram."""

from __future__ import annotations

import copy
import itertools
import re
from dataclasses import dataclass, replace

from place_table import PlaceTable, array_of
from sessions.names import Refusal
from sessions.spelling import as_text, number, repeated

# Of an array so many elements are shown, of a whole value so many numbers, and so deep.
MOST_SHOWN, MOST_NUMBERS, MOST_DEEP = 200, 5000, 40
PAGE = 65536
LONGEST_MEM = 256
# Of a variable so many numbers can be watched, each by a point.
MOST_WATCHED = 8
# Bytes that are read in one go for a value.
MOST_READ = 65536


class Memory:
    """The memory of a process at the position; a range is asked for once."""

    def __init__(self, engine, node):
        self.engine, self.node, self.ranges, self.end = engine, node, [], None

    def read(self, start, size):
        """The bytes from an address on, fewer where the memory ends."""
        for at, data in self.ranges:
            if at <= start and start + size <= at + len(data):
                return data[start - at : start - at + size]
        data = self.asked(start, size)
        self.ranges.append((start, data))
        return data

    def fetch(self, ranges):
        """Asks at once for ranges that are looked at next; one that goes over the end of the memory is left to that look."""
        asked = [(start, self.lines(start, size)) for start, size in ranges]
        answers = iter(self.engine.read([line for _, lines in asked for line in lines]))
        for start, lines in asked:
            found = list(itertools.islice(answers, len(lines)))
            if "undef" not in found:
                self.ranges.append((start, b"".join(map(bytes.fromhex, found))))

    def asked(self, start, size):
        answers = self.engine.read(self.lines(start, size))
        if "undef" in answers:
            size = max(0, min(size, self.size() - start))
            answers = self.engine.read(self.lines(start, size))
        return b"".join(map(bytes.fromhex, answers))

    def lines(self, start, size):
        return ["mem %s %d %d" % (self.node, at, min(LONGEST_MEM, start + size - at)) for at in range(start, start + size, LONGEST_MEM)]

    def size(self):
        if self.end is None:
            self.end = int(self.engine.ask_each(["print @%s.size" % self.node])[0]) * PAGE
        return self.end


class AtAddress:
    """Bytes from an address on, which may be unknown."""

    def __init__(self, memory, address):
        self.memory, self.address = memory, address

    def read(self, offset, size):
        if self.address is None or self.address + offset < 0:
            return b""
        return self.memory.read(self.address + offset, size)

    def start(self, offset):
        return None if self.address is None else self.address + offset


class InPieces:
    """The bytes of a variable, which compilers may have put apart."""

    def __init__(self, memory, variable):
        self.memory, self.variable = memory, variable

    def read(self, offset, size):
        return self.memory.read(self.start(offset, size), size)

    def start(self, offset, size=1):
        for piece in self.variable.pieces:
            if piece.offset <= offset and offset + size <= piece.offset + piece.size:
                return piece.address + offset - piece.offset
        raise Refusal("it is not in memory: mark %s LIBLOG_WATCHED or volatile" % self.variable.name)


class Switched:
    """A variable of two values that is kept as one byte."""

    def __init__(self, memory, switch):
        self.memory, self.switch = memory, switch

    def read(self, offset, size):
        data = self.memory.read(self.switch.address, 1)
        return (self.switch.values[data[0] != 0] % 256**size).to_bytes(size, "little") if data else b""

    def start(self, offset):
        return self.switch.address


class Given:
    """Bytes that are at hand, as those of a datagram."""

    def __init__(self, data):
        self.data = data

    def read(self, offset, size):
        return self.data[offset : offset + size]

    def start(self, offset):
        return None


@dataclass(frozen=True)
class Value:
    """What bytes are as a type."""

    table: PlaceTable
    type: str
    bytes: object
    offset: int = 0
    bits: tuple = None

    @property
    def struct(self):
        return self.table.structs.get(self.type)

    @property
    def array(self):
        return array_of(self.type)

    @property
    def is_pointer(self):
        return self.type.endswith("*")

    @property
    def size(self):
        return self.table.size_of(self.type)

    def fields(self):
        return [(field.name, self.part(field.type, field.offset, field.bits)) for field in self.struct.fields]

    def elements(self, start=0, count=None):
        type_, length = self.array
        size, end = self.table.size_of(type_), length if count is None else min(length, start + count)
        return [("[%d]" % at, self.part(type_, at * size)) for at in range(start, end)]

    def part(self, type_, offset, bits=None):
        return replace(self, type=type_, offset=self.offset + offset, bits=bits)

    def count(self, most, depth=0):
        """How many numbers it has, or one more than `most`."""
        if depth > MOST_DEEP:
            return most + 1
        if self.array:
            type_, length = self.array
            return min(most + 1, length * self.part(type_, 0).count(most, depth + 1)) if length else 0
        if not self.struct:
            return 1
        found = 0
        for _, part in self.fields():
            found += part.count(most, depth + 1)
            if found > most:
                return most + 1
        return found

    def repeated(self, count):
        """So many of this in a row."""
        return replace(self, type="%s[%d]" % (self.type, count))

    @property
    def width(self):
        """The width of the number here, which an enumeration and a pointer have too."""
        return "u32" if self.is_pointer else self.table.width_of(self.type)

    def name_of(self, number):
        """The enumerator of this number, or None."""
        enum = self.table.enums.get(self.type)
        return next((name for name, known in enum.numbers.items() if known == number), None) if enum else None

    def number(self):
        """The number here, None where there are no bytes."""
        width = self.width
        if not re.fullmatch("[ui](8|16|32|64)", width):
            raise Refusal("it is %s, which is no number" % self.type)
        if self.bits:
            return self.number_of_bits()
        size = int(width[1:]) // 8
        data = self.bytes.read(self.offset, size)
        # The debugger reads numbers of 64 bits with their sign.
        return int.from_bytes(data, "little", signed=width[0] == "i" or size == 8) if len(data) == size else None

    def number_of_bits(self):
        first, count = self.bits
        size = (first + count + 7) // 8
        data = self.bytes.read(self.offset, size)
        if len(data) < size:
            return None
        value = int.from_bytes(data, "little") >> first & (1 << count) - 1
        return value - (1 << count) if self.width[0] == "i" and value >> count - 1 else value

    def pointed(self, memory):
        """What the pointer here points to."""
        if not self.is_pointer:
            raise Refusal("it is %s, which is no pointer" % self.type)
        return Value(self.table, self.type[:-1], AtAddress(memory, self.number()))

    def text(self, form=""):
        if isinstance(self.bytes, InPieces) and not self.bytes.variable.pieces:
            # Nothing of it is anywhere, which is said once.
            self.bytes.start(0)
        try:
            self.bytes.read(self.offset, min(self.size, MOST_READ))
        except Refusal:
            # It lies in pieces, and each part is read by itself.
            pass
        return Spelling(form).text(self, 0)


class Spelling:
    """Spells one value, with no more numbers than a reader wants to see."""

    def __init__(self, form):
        self.form, self.left = form, MOST_NUMBERS

    def text(self, value, depth):
        if depth > MOST_DEEP or self.left <= 0:
            return ".."
        if value.struct:
            return "{%s}" % ", ".join("%s = %s" % (name, self.text(part, depth + 1)) for name, part in value.fields())
        if value.array:
            return self.elements(value, depth)
        self.left -= 1
        try:
            found = value.number()
        except Refusal as refusal:
            return "(%s)" % refusal
        name = None if self.form else value.name_of(found)
        if name:
            return "%s (%d)" % (name, found)
        form = self.form or ("x" if value.is_pointer else "")
        return number(found, form, value.bits[1] if value.bits else 8 * value.size)

    def elements(self, value, depth):
        type_, length = value.array
        count = min(length, MOST_SHOWN)
        rest = "" if count == length else ", .. %d in all" % length
        if type_ == "u8" and self.form != "x":
            try:
                data = value.bytes.read(value.offset, count)
            except Refusal as refusal:
                return "(%s)" % refusal
            if len(data) == count:
                return as_text(data) + rest
        words = [self.text(part, depth + 1) for _, part in value.elements(0, count)]
        return "[%s%s]" % (", ".join(repeated(words)), rest)


def value_at(engine, place):
    """The value at a place that a path has reached."""
    memory = engine.memory(place.node)
    if place.variable is None:
        found = Value(place.table, place.type, AtAddress(memory, engine.number(place.expression)), place.offset, place.bits)
    elif place.variable.switch:
        found = Value(place.table, place.type, Switched(memory, place.variable.switch))
    else:
        found = Value(place.table, place.type, InPieces(memory, place.variable), place.offset, place.bits)
    return found


def numbers_of(place, path, most=MOST_WATCHED):
    """The paths of the numbers of a variable; refused where these are too many to be watched."""
    found = []
    gather(place, path, found, most, 0)
    return found


def gather(place, path, found, most, depth):
    struct, array = place.table.structs.get(place.type), array_of(place.type)
    if not struct and not array:
        found.append(path)
    elif depth > MOST_DEEP or (len(struct.fields) if struct else array[1]) + len(found) > most:
        raise Refusal("it has more than %d numbers: watch a part of it" % most)
    elif struct:
        for field in struct.fields:
            gather(inner(place, lambda at: at.enter(field.name)), "%s.%s" % (path, field.name), found, most, depth + 1)
    else:
        for number in range(array[1]):
            gather(inner(place, lambda at: at.index(str(number))), "%s[%d]" % (path, number), found, most, depth + 1)


def inner(place, go):
    """Another place, to which a step leads."""
    made = copy.copy(place)
    go(made)
    return made
