"""Reads a WebAssembly module as far as its refusals go: sections, types, imports, limits and the instructions of its functions."""
from dataclasses import dataclass, field

VALUE_TYPES = {0x7F: "i32", 0x7E: "i64", 0x7D: "f32", 0x7C: "f64", 0x7B: "v128", 0x70: "funcref", 0x6F: "externref"}

# A number has at most 64 bits, 7 in each byte.
LONGEST_NUMBER = 70

# What comes after a code: n for a number, b for a byte, and how many bytes of a constant.
OPERANDS = {
    0x0C: "n", 0x0D: "n", 0x10: "n", 0x11: "nn", 0x12: "n", 0x13: "nn", **{code: "n" for code in range(0x20, 0x27)},
    **{code: "nn" for code in range(0x28, 0x3F)}, 0x3F: "b", 0x40: "b", 0x41: "n", 0x42: "n", 0x43: "4", 0x44: "8",
    0xD0: "n", 0xD2: "n",
}
LONG_OPERANDS = {8: "nn", 9: "n", 10: "nn", 11: "n", 12: "nn", 13: "n", 14: "nn", 15: "n", 16: "n", 17: "n"}
BLOCKS = (0x02, 0x03, 0x04)
END, BRANCH_TABLE = 0x0B, 0x0E


def read_leb(data, at):
    value = shift = 0
    while True:
        if shift >= LONGEST_NUMBER:
            raise IndexError
        byte = data[at]
        value |= (byte & 0x7F) << shift
        at, shift = at + 1, shift + 7
        if byte < 0x80:
            return value, at


def type_name(byte):
    return VALUE_TYPES.get(byte, "type %#x" % byte)


def sections_of(data):
    """The id, all bytes and the contents of each section."""
    at = 8
    while at < len(data):
        size, start = read_leb(data, at + 1)
        yield data[at], data[at : start + size], data[start : start + size]
        at = start + size


class Reader:
    """Reads one thing after the other; what is past the end is an IndexError."""

    def __init__(self, data, at=0):
        self.data, self.at = data, at

    def byte(self):
        self.at += 1
        return self.data[self.at - 1]

    def number(self):
        value, self.at = read_leb(self.data, self.at)
        return value

    def bytes(self, count):
        if self.at + count > len(self.data):
            raise IndexError
        self.at += count
        return self.data[self.at - count : self.at]

    def name(self):
        return self.bytes(self.number()).decode("utf-8", "replace")

    def limits(self):
        flags, least = self.number(), self.number()
        return flags, least, self.number() if flags & 1 else None

    def type(self):
        return type_name(self.byte())


@dataclass
class Function:
    """A function of the module: its number, its locals in groups of a count and the byte of a type, where its code stands in the code
    section, and the code."""

    number: int
    groups: list
    start: int
    code: bytes

    @property
    def locals(self):
        return [(count, type_name(byte)) for count, byte in self.groups]


@dataclass
class Module:
    type_bytes: list = field(default_factory=list)
    imports: list = field(default_factory=list)
    kinds: list = field(default_factory=list)
    memories: list = field(default_factory=list)
    tables: list = field(default_factory=list)
    globals: list = field(default_factory=list)
    exports: dict = field(default_factory=dict)
    functions: list = field(default_factory=list)
    names: dict = field(default_factory=dict)
    sections: set = field(default_factory=set)
    segments: list = field(default_factory=list)
    start: int = None

    @property
    def types(self):
        """What each type takes and gives."""
        return [tuple(tuple(type_name(byte) for byte in part) for part in type_) for type_ in self.type_bytes]

    def imported(self):
        """How many functions are imported: those of the module are numbered after them."""
        return sum(kind == 0 for _, _, kind, _ in self.imports)

    def type_of(self, number):
        return tuple(tuple(type_name(byte) for byte in part) for part in self.type_bytes[self.kinds[number]])


def read_module(data):
    module = Module()
    readers = {1: read_types, 2: read_imports, 3: read_kinds, 4: read_tables, 5: read_memories, 6: read_globals,
               7: read_exports, 8: read_start, 9: read_elements, 10: read_code, 11: read_data, 0: read_names}
    for kind, _, contents in sections_of(data):
        module.sections.add(kind)
        if kind in readers:
            readers[kind](module, Reader(contents))
    return module


def read_types(module, reader):
    for _ in range(reader.number()):
        reader.byte()
        module.type_bytes.append((reader.bytes(reader.number()), reader.bytes(reader.number())))


def read_imports(module, reader):
    for _ in range(reader.number()):
        place, name, kind = reader.name(), reader.name(), reader.byte()
        if kind == 0:
            what = reader.number()
            module.kinds.append(what)
        elif kind == 1:
            what = reader.type(), reader.limits()
        elif kind == 2:
            what = reader.limits()
        else:
            what = reader.type(), reader.byte()
        module.imports.append((place, name, kind, what))


def read_kinds(module, reader):
    module.kinds += [reader.number() for _ in range(reader.number())]


def read_tables(module, reader):
    module.tables += [(reader.type(), reader.limits()) for _ in range(reader.number())]


def read_memories(module, reader):
    module.memories += [reader.limits() for _ in range(reader.number())]


def read_globals(module, reader):
    for _ in range(reader.number()):
        module.globals.append(reader.type())
        reader.byte()
        pass_over_constant(reader)


def pass_over(reader, operands):
    for kind in operands:
        if kind == "n":
            reader.number()
        else:
            reader.bytes(1 if kind == "b" else int(kind))


def pass_over_constant(reader):
    """The expression with which a global or a segment begins: a constant, if the module is valid."""
    depth = 1
    while depth:
        code = reader.byte()
        if code == BRANCH_TABLE:
            pass_over(reader, "n" * (reader.number() + 1))
        else:
            pass_over(reader, "n" if code in BLOCKS else OPERANDS.get(code, ""))
        depth += (code in BLOCKS) - (code == END)


def read_exports(module, reader):
    for _ in range(reader.number()):
        name = reader.name()
        module.exports[name] = reader.byte(), reader.number()


def read_start(module, reader):
    module.start = reader.number()


def read_elements(module, reader):
    if reader.number():
        module.segments.append(("element", reader.number()))


def read_data(module, reader):
    if reader.number():
        module.segments.append(("data", reader.number()))


def read_code(module, reader):
    for place in range(reader.number()):
        size = reader.number()
        end, groups = reader.at + size, []
        for _ in range(reader.number()):
            groups.append((reader.number(), reader.byte()))
        start = reader.at
        module.functions.append(Function(module.imported() + place, groups, start, reader.bytes(end - start)))


def read_names(module, reader):
    """The names of functions, where the module has its section of names."""
    if reader.name() != "name":
        return
    while reader.at < len(reader.data):
        kind, size = reader.byte(), reader.number()
        part = Reader(reader.bytes(size))
        if kind == 1:
            for _ in range(part.number()):
                number = part.number()
                module.names[number] = part.name()
