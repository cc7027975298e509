"""The instructions of a function, and of which feature after WebAssembly 1.0 each is, if it is of one that friday refuses."""
from wasm_reader import BLOCKS, LONG_OPERANDS, OPERANDS, Reader, pass_over

# Those on floats, by their codes in 1.0.
FLOATS = [0x2A, 0x2B, 0x38, 0x39, 0x43, 0x44, *range(0x5B, 0x67), *range(0x8B, 0xA7), *range(0xA8, 0xAC), *range(0xAE, 0xC0)]
NOT_FLOAT = {0xAC, 0xAD, 0xA7}
FLOAT_CODES = set(FLOATS) - NOT_FLOAT
FEATURES = {
    **{code: "reference-types" for code in (0x1C, 0x25, 0x26, 0xD0, 0xD1, 0xD2)},
    0x12: "tail-call", 0x13: "tail-call", 0xFD: "simd128", 0xFE: "atomics",
}
LONG_NAMES = {8: "memory.init", 9: "data.drop", 10: "memory.copy", 11: "memory.fill", 12: "table.init", 13: "elem.drop",
              14: "table.copy", 15: "table.grow", 16: "table.size", 17: "table.fill"}


def faults_of(function):
    """What 1.0 without floats has not: where in the code section, the feature (or `float`), and the instruction's name."""
    if any(type_ in ("f32", "f64") for _, type_ in function.locals):
        yield function.start, "float", "a local variable"
    reader = Reader(function.code)
    while reader.at < len(function.code):
        at, code = function.start + reader.at, reader.byte()
        if code == 0xFC:
            number = reader.number()
            yield (at, "float", "a conversion that saturates") if number < 8 else (at, "bulk-memory", LONG_NAMES.get(number, "0xfc %d" % number))
            pass_over(reader, LONG_OPERANDS.get(number, ""))
            continue
        if code in FLOAT_CODES:
            yield at, "float", "an instruction on floats (%#x)" % code
        elif code in FEATURES:
            yield at, FEATURES[code], "instruction %#x" % code
        if code in (0xFD, 0xFE):
            # What comes after it is of many forms, and the function is refused already.
            return
        yield from fault_of_operands(reader, at, code)


def fault_of_operands(reader, at, code):
    if code in BLOCKS:
        kind = reader.data[reader.at]
        reader.number()
        if kind in (0x7D, 0x7C):
            yield at, "float", "a block's result"
        elif kind not in (0x40, 0x7F, 0x7E):
            yield at, "multivalue", "a block with a type of its own"
    elif code == 0x0E:
        pass_over(reader, "n" * (reader.number() + 1))
    elif code == 0x1C:
        pass_over(reader, "b" * reader.number())
    elif code == 0x11:
        reader.number()
        start = reader.at
        if reader.number() or reader.at > start + 1:
            yield at, "reference-types", "a call through a table that is told at length"
    else:
        pass_over(reader, OPERANDS.get(code, ""))
