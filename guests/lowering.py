"""Makes of a module one of WebAssembly 1.0 without floats: see `guests/lower --help`, and "Floats" in docs/guests.md.

A float becomes the whole number of its bits wherever it stands, f32 i32 and f64 i64: in types, locals, globals, blocks, loads,
stores and constants. Each other instruction on floats becomes a call of a function of floats.c, which is added to the module with
those that it calls. So every instruction keeps what it takes and gives, and no stack has to be followed.
"""
import bisect
import os
import tempfile

from place_table import Refusal
from toolchain import BARE_WORDS, CLANG, KIT, compiler_routines, run
from wasm_reader import BLOCKS, BRANCH_TABLE, LONG_OPERANDS, OPERANDS, Reader, pass_over, pass_over_constant, read_module, sections_of

COMPARISONS = "eq ne lt gt le ge".split()
ARITHMETIC = "abs neg ceil floor trunc nearest sqrt add sub mul div min max copysign".split()
FROM_FLOATS = "f32_s f32_u f64_s f64_u".split()
FROM_WHOLE = "i32_s i32_u i64_s i64_u".split()


def named(first, type_, words):
    return {first + place: "%s.%s" % (type_, word) for place, word in enumerate(words)}


# The instructions that become calls, by their codes, and by the second code after 0xFC.
CALLS = {
    **named(0x5B, "f32", COMPARISONS), **named(0x61, "f64", COMPARISONS),
    **named(0x8B, "f32", ARITHMETIC), **named(0x99, "f64", ARITHMETIC),
    **named(0xA8, "i32", ["trunc_" + way for way in FROM_FLOATS]), **named(0xAE, "i64", ["trunc_" + way for way in FROM_FLOATS]),
    **named(0xB2, "f32", ["convert_" + way for way in FROM_WHOLE] + ["demote_f64"]),
    **named(0xB7, "f64", ["convert_" + way for way in FROM_WHOLE] + ["promote_f32"]),
}
LONG_CALLS = {
    **named(0, "i32", ["trunc_sat_" + way for way in FROM_FLOATS]), **named(4, "i64", ["trunc_sat_" + way for way in FROM_FLOATS]),
    10: "memory.copy", 11: "memory.fill",
}
# Loads and stores, and their whole-number kin; constants, and how many bytes each has.
KIN = {0x2A: 0x28, 0x2B: 0x29, 0x38: 0x36, 0x39: 0x37}
CONSTANTS = {0x43: (0x41, 4), 0x44: (0x42, 8)}
REINTERPRETATIONS = range(0xBC, 0xC0)
TYPES = {0x7D: 0x7F, 0x7C: 0x7E}
CALL, CALL_INDIRECT, TYPED_SELECT, SELECT, LONG = 0x10, 0x11, 0x1C, 0x1B, 0xFC
# Instructions of these begin a form that is not read here, and are refused in any case.
UNREAD = {0xFD: "simd128", 0xFE: "atomics"}
# What no function that is added to a module may have: globals, memory's size, calls through a table.
TIED = {0x23, 0x24, 0x3F, 0x40, CALL_INDIRECT}


def number(value):
    out = bytearray()
    while value > 0x7F:
        out.append(value & 0x7F | 0x80)
        value >>= 7
    return bytes(out) + bytes([value])


def signed_number(value):
    out = bytearray()
    while not -0x40 <= value < 0x40:
        out.append(value & 0x7F | 0x80)
        value >>= 7
    return bytes(out) + bytes([value & 0x7F])


def vector(items):
    return number(len(items)) + b"".join(items)


def sized(content):
    return number(len(content)) + content


def whole_constant(code, bits):
    return bytes([CONSTANTS[code][0]]) + signed_number(int.from_bytes(bits, "little", signed=True))


def next_instruction(reader, helper):
    """Passes over an instruction, and answers what stands in its place: None where it stays."""
    start, code = reader.at, reader.byte()
    if code == LONG:
        return in_place_of_long(reader, helper)
    if code in CALLS:
        return bytes([CALL]) + number(helper(CALLS[code]))
    if code in REINTERPRETATIONS:
        return b""
    if code in CONSTANTS:
        return whole_constant(code, reader.bytes(CONSTANTS[code][1]))
    if code in UNREAD:
        raise Refusal("it has instructions of the feature %s, which cannot be lowered" % UNREAD[code])
    if code in BLOCKS:
        kind = reader.data[reader.at]
        reader.number()
        return bytes([code, TYPES[kind]]) if kind in TYPES else None
    if code == BRANCH_TABLE:
        pass_over(reader, "n" * (reader.number() + 1))
        return None
    if code == TYPED_SELECT:
        reader.bytes(reader.number())
        return bytes([SELECT])
    if code == CALL_INDIRECT:
        # Newer compilers write the table's number, 0, at length.
        kind, start = reader.number(), reader.at
        table = reader.number()
        return bytes([code]) + number(kind) + number(table) if reader.at > start + 1 else None
    pass_over(reader, OPERANDS.get(code, ""))
    return bytes([KIN[code]]) + bytes(reader.data[start + 1 : reader.at]) if code in KIN else None


def in_place_of_long(reader, helper):
    which = reader.number()
    pass_over(reader, LONG_OPERANDS.get(which, ""))
    return bytes([CALL]) + number(helper(LONG_CALLS[which])) if which in LONG_CALLS else None


def lowered_code(code, helper):
    """The code of a function, or the expression of a global, and pairs of places: where a piece of it begins, and where that was."""
    reader, out, kept, pieces = Reader(code), bytearray(), 0, [(0, 0)]
    while reader.at < len(code):
        at = reader.at
        new = next_instruction(reader, helper)
        if new is not None:
            out += code[kept:at] + new
            kept = reader.at
            pieces.append((len(out), kept))
    return bytes(out + code[kept:]), pieces


def lowered_type(type_):
    """What a function takes, and what it gives."""
    return tuple(bytes(TYPES.get(byte, byte) for byte in part) for part in type_)


def locals_of(groups):
    return vector([number(count) + bytes([TYPES.get(byte, byte)]) for count, byte in groups])


class Helpers:
    """The functions of floats.c and of compiler-rt, compiled and lowered by the same pass."""

    def __init__(self):
        with tempfile.TemporaryDirectory() as folder:
            path = os.path.join(folder, "floats.wasm")
            run([CLANG, *BARE_WORDS, "-nostdlib", "-Wl,--no-entry", "-o", path, os.path.join(KIT, "floats.c"), *compiler_routines(must=True)])
            with open(path, "rb") as file:
                self.module = read_module(file.read())
        self.codes = [lowered_code(function.code, self.number_of)[0] for function in self.module.functions]

    def number_of(self, name):
        return self.module.exports[name][1]

    def calls_of(self, which):
        """The numbers of the functions that one calls, with where each stands in its code."""
        reader = Reader(self.codes[which])
        while reader.at < len(reader.data):
            code = reader.data[reader.at]
            if code in TIED:
                raise Refusal("floats.c: function %d has an instruction %#x, which belongs to one module" % (which, code))
            if code == CALL:
                reader.byte()
                start = reader.at
                yield reader.number(), start, reader.at
            else:
                next_instruction(reader, self.number_of)

    def needed_by(self, names):
        """The numbers of the functions of these names and of all that they call, in order."""
        found, open_ = set(), [self.number_of(name) for name in names]
        while open_:
            which = open_.pop()
            if which not in found:
                found.add(which)
                open_ += [called for called, _, _ in self.calls_of(which)]
        return sorted(found)

    def type_of(self, which):
        return lowered_type(self.module.type_bytes[self.module.kinds[which]])

    def body_of(self, which, numbers):
        """The body, with the calls of functions by their new numbers."""
        code, out, kept = self.codes[which], b"", 0
        for called, start, end in self.calls_of(which):
            out += code[kept:start] + number(numbers[called])
            kept = end
        return locals_of(self.module.functions[which].groups) + out + code[kept:]


class Lowering:
    """One module that is lowered: `data` is what becomes of it, `added` how many functions it has got, and `is_needed` whether
    anything in it had to change."""

    def __init__(self, data):
        self.module = read_module(data)
        self.types = [lowered_type(type_) for type_ in self.module.type_bytes]
        # What is added comes after the module's own functions, whose numbers stay.
        self.first, self.numbers, bodies = len(self.module.kinds), {}, []
        names = self.names_wanted()
        if names:
            bodies = self.add(Helpers(), names)
        self.added = len(bodies)
        self.codes = [lowered_code(function.code, self.numbers.get) for function in self.module.functions]
        self.is_needed = bool(names) or self.has_forms()
        self.starts = []
        self.data = data[:8] + b"".join(self.section(bodies, *section) for section in sections_of(data))

    def names_wanted(self):
        names = set()
        for function in self.module.functions:
            lowered_code(function.code, lambda name: names.add(name) or 0)
        return sorted(names)

    def add(self, helpers, names):
        """The bodies of the functions that are added for these names."""
        needed = helpers.needed_by(names)
        numbers = {which: self.first + place for place, which in enumerate(needed)}
        self.numbers = {name: numbers[helpers.number_of(name)] for name in names}
        self.module.kinds += [self.number_of_type(helpers.type_of(which)) for which in needed]
        return [sized(helpers.body_of(which, numbers)) for which in needed]

    def number_of_type(self, type_):
        if type_ not in self.types:
            self.types.append(type_)
        return self.types.index(type_)

    def has_forms(self):
        """Floats, or forms of later versions, for which no function is called."""
        module = self.module
        return (
            any(code != function.code for function, (code, _) in zip(module.functions, self.codes))
            or any(byte in TYPES for function in module.functions for _, byte in function.groups)
            or any(byte in TYPES for type_ in module.type_bytes for part in type_ for byte in part)
            or any(type_ in ("f32", "f64") for type_ in module.globals)
            or any(flags == 2 for kind, flags in module.segments if kind == "data")
            or 12 in module.sections
        )

    def section(self, bodies, kind, whole, contents):
        if kind == 12:
            # The count of data segments is for instructions on them.
            return b""
        if kind == 10:
            return bytes([kind]) + sized(self.code_section(bodies))
        makers = {1: self.types_section, 3: self.kinds_section, 6: globals_section, 11: data_section}
        return bytes([kind]) + sized(makers[kind](Reader(contents))) if kind in makers else whole

    def types_section(self, _):
        return vector([b"\x60" + sized(taken) + sized(given) for taken, given in self.types])

    def kinds_section(self, _):
        return vector([number(kind) for kind in self.module.kinds[self.module.imported() :]])

    def code_section(self, added):
        """The bodies, with those that are added; where each piece of the code begins is kept with where it was."""
        bodies, at = [], len(number(len(self.codes) + len(added)))
        for function, (code, pieces) in zip(self.module.functions, self.codes):
            body = sized(locals_of(function.groups) + code)
            start = at + len(body) - len(code)
            self.starts += [(start + now, function.start + was) for now, was in pieces]
            bodies.append(body)
            at += len(body)
        return vector(bodies + added)

    def origin(self, at):
        """Where in the code section something stood before, by where it stands now."""
        place = bisect.bisect_right(self.starts, (at, float("inf"))) - 1
        now, was = self.starts[place] if place >= 0 else (0, 0)
        return was + at - now


def globals_section(reader):
    items = []
    for _ in range(reader.number()):
        type_, may_change = reader.byte(), reader.byte()
        items.append(bytes([TYPES.get(type_, type_), may_change]) + expression(reader))
    return vector(items)


def expression(reader):
    """The constant expression that begins here, lowered."""
    start = reader.at
    pass_over_constant(reader)
    return lowered_code(reader.data[start : reader.at], {}.get)[0]


def data_section(reader):
    """A segment of memory 0 may say its number in later versions."""
    items = []
    for _ in range(reader.number()):
        flags = reader.number()
        if flags == 1:
            raise Refusal("it has data that an instruction puts into the memory, which cannot be lowered")
        if flags == 2:
            reader.number()
        start = reader.at
        pass_over_constant(reader)
        reader.bytes(reader.number())
        items.append(b"\0" + reader.data[start : reader.at])
    return vector(items)
