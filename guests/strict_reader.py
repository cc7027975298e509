"""Reads a module exactly as WebAssembly 1.0 spells it, and says what does not: chapter 5 of its specification, with the sign extensions
that friday takes too. What the instructions of functions mean is judged in validation.py."""

I32, I64, F32, F64 = 0x7F, 0x7E, 0x7D, 0x7C
TYPE_NAMES = {I32: "i32", I64: "i64", F32: "f32", F64: "f64"}
SECTIONS = {1: "types", 2: "imports", 3: "functions", 4: "tables", 5: "memories", 6: "globals", 7: "exports", 8: "start", 9: "elements", 10: "code", 11: "data"}
FUNCTION_TYPE, TABLE_TYPE, NO_RESULT, END = 0x60, 0x70, 0x40, 0x0B
BLOCK, LOOP, IF, ELSE = 0x02, 0x03, 0x04, 0x05
GLOBAL_GET, BRANCH_TABLE, CALL_INDIRECT = 0x23, 0x0E, 0x11
MOST_NESTED = 1000
# Instructions with one number, those with two (loads and stores), those with a byte that is 0, and those with nothing.
WITH_NUMBER = {0x0C, 0x0D, 0x10, *range(0x20, 0x23), 0x24}
WITH_TWO = set(range(0x28, 0x3F))
WITH_ZERO = {0x3F, 0x40}
ALONE = {0x00, 0x01, 0x0F, 0x1A, 0x1B, *range(0x45, 0xC5)}
CONSTANTS = {0x41: I32, 0x42: I64, 0x43: F32, 0x44: F64}


class Malformed(Exception):
    """What the bytes do not spell, and where in the file that is."""

    def __init__(self, what, at):
        super().__init__(what)
        self.at = at


class StrictReader:
    def __init__(self, data, at, end):
        self.data, self.at, self.end = data, at, end

    def fail(self, what):
        raise Malformed(what, self.at)

    def byte(self):
        if self.at >= self.end:
            self.fail("it ends before its time")
        self.at += 1
        return self.data[self.at - 1]

    def bytes(self, count):
        if count > self.end - self.at:
            self.fail("it ends before its time")
        self.at += count
        return self.data[self.at - count : self.at]

    def number(self, bits=32):
        """A number without a sign, of so many bits, in as many bytes as it may have."""
        value = shift = 0
        while True:
            byte = self.byte()
            value |= (byte & 0x7F) << shift
            shift += 7
            if value >> bits or (shift >= bits + 7):
                self.fail("a number has more than %d bits" % bits)
            if byte < 0x80:
                return value

    def signed(self, bits):
        value = shift = 0
        while True:
            byte = self.byte()
            value |= (byte & 0x7F) << shift
            shift += 7
            if byte < 0x80:
                break
            if shift >= bits:
                self.fail("a number has more than %d bits" % bits)
        if byte & 0x40:
            value -= 1 << shift
        if not -(1 << bits - 1) <= value < 1 << bits - 1:
            self.fail("a number has more than %d bits" % bits)
        return value

    def one_of(self, bytes_, what):
        byte = self.byte()
        if byte not in bytes_:
            self.at -= 1
            self.fail("%s is %#x, which 1.0 has not" % (what, byte))
        return byte

    def name(self):
        at, text = self.at, self.bytes(self.number())
        try:
            return text.decode("utf-8")
        except UnicodeDecodeError:
            raise Malformed("a name is not UTF-8", at) from None

    def value_type(self):
        return self.one_of(TYPE_NAMES, "a type")

    def value_types(self):
        return [self.value_type() for _ in range(self.number())]

    def vector(self, read):
        return [read() for _ in range(self.number())]

    def function_type(self):
        self.one_of((FUNCTION_TYPE,), "the form of a function's type")
        taken, given = self.value_types(), self.value_types()
        if len(given) > 1:
            self.fail("a function gives %d results, and 1.0 has one at most" % len(given))
        return taken, given

    def limits(self):
        return (self.number(), self.number()) if self.one_of((0, 1), "the form of a table's or a memory's limits") else (self.number(), None)

    def table_type(self):
        self.one_of((TABLE_TYPE,), "the type of a table's elements")
        return self.limits()

    def global_type(self):
        return self.value_type(), self.one_of((0, 1), "whether a global changes")

    def imported(self):
        place, name, kind = self.name(), self.name(), self.one_of(range(4), "the kind of an import")
        return place, name, kind, (self.number, self.table_type, self.limits, self.global_type)[kind]()

    def exported(self):
        return self.name(), self.one_of(range(4), "the kind of an export"), self.number()

    def constant_of(self, code):
        """What stands with an instruction that is a constant."""
        return self.signed(32) if code == 0x41 else self.signed(64) if code == 0x42 else self.bytes(4 if code == 0x43 else 8)

    def pass_over(self, code):
        """What stands with any other instruction."""
        if code in WITH_NUMBER:
            self.number()
        elif code in WITH_TWO:
            self.number(), self.number()
        elif code == BRANCH_TABLE:
            self.vector(self.number)
            self.number()
        elif code == CALL_INDIRECT:
            self.number()
            self.one_of((0,), "a call's table")
        elif code in WITH_ZERO:
            self.one_of((0,), "the number of a memory")
        elif code not in ALONE:
            self.at -= 1
            self.fail("an instruction %#x, which 1.0 has not" % code)

    def expression(self):
        """The instructions up to the end of theirs, each with what stands with it if it is a constant or names a global."""
        found, open_ = [], [BLOCK]
        while open_:
            code, value = self.byte(), None
            if code in (BLOCK, LOOP, IF):
                self.one_of((NO_RESULT, *TYPE_NAMES), "a block's type")
                if len(open_) > MOST_NESTED:
                    self.fail("blocks nest more than %d deep" % MOST_NESTED)
                open_.append(code)
            elif code == ELSE:
                if open_[-1] != IF:
                    self.fail("an else without its if")
                open_[-1] = ELSE
            elif code == END:
                open_.pop()
            elif code in CONSTANTS:
                value = self.constant_of(code)
            elif code == GLOBAL_GET:
                value = self.number()
            else:
                self.pass_over(code)
            found.append((code, value))
        return found[:-1]

    def defined_global(self):
        return (*self.global_type(), self.expression())

    def element_segment(self):
        return self.number(), self.expression(), self.vector(self.number)

    def data_segment(self):
        return self.number(), self.expression(), len(self.bytes(self.number()))

    def body(self):
        """Its locals in groups, and where its instructions stand, up to which place."""
        size, begin = self.number(), self.at
        if size > self.end - self.at:
            self.fail("a function ends past its section")
        inner = StrictReader(self.data, begin, begin + size)
        groups = [(inner.number(), inner.value_type()) for _ in range(inner.number())]
        if sum(count for count, _ in groups) >> 32:
            inner.fail("a function has more than 2^32 locals")
        self.at = begin + size
        return groups, inner.at, begin + size


class StrictModule:
    """The parts of a module. `code_at` is where the contents of its code section begin."""

    def __init__(self, data):
        self.types, self.imports, self.kinds, self.tables, self.memories, self.globals = [], [], [], [], [], []
        self.exports, self.start, self.elements, self.bodies, self.data, self.code_at = [], None, [], [], [], 0
        last, at = 0, 8
        while at < len(data):
            reader = StrictReader(data, at, len(data))
            kind = reader.one_of(range(12), "a section's number")
            size = reader.number()
            if size > len(data) - reader.at:
                reader.fail("a section ends past the file")
            inner = StrictReader(data, reader.at, reader.at + size)
            if kind and kind <= last:
                reader.fail("the section of %s comes after that of %s" % (SECTIONS[kind], SECTIONS[last]))
            self.read_section(kind, inner)
            if kind and inner.at != inner.end:
                inner.fail("the section of %s has more bytes than it tells of" % SECTIONS[kind])
            last, at = kind or last, inner.end
        if len(self.kinds) != len(self.bodies):
            raise Malformed("it declares %d functions, and has %d" % (len(self.kinds), len(self.bodies)), len(data))
        for _, begin, end in self.bodies:
            reader = StrictReader(data, begin, end)
            reader.expression()
            if reader.at != end:
                reader.fail("a function has more bytes after its end")

    def read_section(self, kind, reader):
        if kind == 0:
            reader.name()
        elif kind == 8:
            self.start = reader.number()
        else:
            name, read = {
                1: ("types", reader.function_type), 2: ("imports", reader.imported), 3: ("kinds", reader.number), 4: ("tables", reader.table_type),
                5: ("memories", reader.limits), 6: ("globals", reader.defined_global), 7: ("exports", reader.exported),
                9: ("elements", reader.element_segment), 10: ("bodies", reader.body), 11: ("data", reader.data_segment),
            }[kind]
            if kind == 10:
                self.code_at = reader.at
            setattr(self, name, reader.vector(read))
