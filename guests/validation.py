"""Whether a module is valid by chapter 3 of WebAssembly 1.0, as friday asks it, and why not: instructions are followed with the types
of what they take and give, by the algorithm of the specification's appendix."""
from instructions import FLOAT_CODES
from strict_reader import BLOCK, CONSTANTS, ELSE, END, F32, F64, GLOBAL_GET, I32, I64, IF, LOOP, NO_RESULT, TYPE_NAMES, StrictReader

MOST_PAGES_OF_ALL = 65_536
UNKNOWN = None


def alike(codes, taken, given):
    return {code: (taken, given) for code in codes}


# What each instruction that only computes takes and gives, by its code.
PLAIN = {
    **alike([0x45], [I32], [I32]), **alike(range(0x46, 0x50), [I32, I32], [I32]), **alike([0x50], [I64], [I32]),
    **alike(range(0x51, 0x5B), [I64, I64], [I32]), **alike(range(0x5B, 0x61), [F32, F32], [I32]), **alike(range(0x61, 0x67), [F64, F64], [I32]),
    **alike(range(0x67, 0x6A), [I32], [I32]), **alike(range(0x6A, 0x79), [I32, I32], [I32]), **alike(range(0x79, 0x7C), [I64], [I64]),
    **alike(range(0x7C, 0x8B), [I64, I64], [I64]), **alike(range(0x8B, 0x92), [F32], [F32]), **alike(range(0x92, 0x99), [F32, F32], [F32]),
    **alike(range(0x99, 0xA0), [F64], [F64]), **alike(range(0xA0, 0xA7), [F64, F64], [F64]), **alike([0xA7], [I64], [I32]),
    **alike([0xA8, 0xA9, 0xBC], [F32], [I32]), **alike([0xAA, 0xAB], [F64], [I32]), **alike([0xAC, 0xAD], [I32], [I64]),
    **alike([0xAE, 0xAF], [F32], [I64]), **alike([0xB0, 0xB1, 0xBD], [F64], [I64]), **alike([0xB2, 0xB3, 0xBE], [I32], [F32]),
    **alike([0xB4, 0xB5], [I64], [F32]), **alike([0xB6], [F64], [F32]), **alike([0xB7, 0xB8], [I32], [F64]), **alike([0xB9, 0xBA, 0xBF], [I64], [F64]),
    **alike([0xBB], [F32], [F64]), **alike([0xC0, 0xC1], [I32], [I32]), **alike([0xC2, 0xC3, 0xC4], [I64], [I64]), **alike([0x01], [], []),
}
# Loads and stores: the type, and how many bytes they touch.
LOADS = dict(zip(range(0x28, 0x36), [(I32, 4), (I64, 8), (F32, 4), (F64, 8), (I32, 1), (I32, 1), (I32, 2), (I32, 2), (I64, 1), (I64, 1), (I64, 2), (I64, 2), (I64, 4), (I64, 4)]))
STORES = dict(zip(range(0x36, 0x3F), [(I32, 4), (I64, 8), (F32, 4), (F64, 8), (I32, 1), (I32, 2), (I64, 1), (I64, 2), (I64, 4)]))


class Invalid(Exception):
    """Why something is not valid, and where in the file it stands."""

    def __init__(self, what, at=None):
        super().__init__(what)
        self.at = at


def told(types):
    return " and ".join(TYPE_NAMES[type_] for type_ in types) or "nothing"


def check_body(module, place):
    """Judges the instructions of a function of the module, which the strict reader has read."""
    groups, begin, end = module.bodies[place]
    taken, given = module.types[module.kinds[place]]
    # Groups may count billions of locals, so they stay groups.
    Body(module, StrictReader(module.all_bytes, begin, end), [*((1, type_) for type_ in taken), *groups], given).check()


class Body:
    def __init__(self, module, reader, groups, given):
        self.module, self.reader, self.groups, self.given = module, reader, groups, given
        self.stack, self.frames, self.at = [], [], reader.at

    def fail(self, what):
        raise Invalid(what, self.at)

    def check(self):
        self.enter(BLOCK, self.given)
        while self.frames:
            self.at = self.reader.at
            self.step(self.reader.byte())

    # ---- The stacks ----

    def enter(self, code, given):
        self.frames.append({"code": code, "given": given, "height": len(self.stack), "is_dead": False})

    def leave(self):
        frame = self.frames[-1]
        self.take(frame["given"])
        if len(self.stack) != frame["height"]:
            self.fail("a block ends with %d values more than it gives" % (len(self.stack) - frame["height"]))
        self.frames.pop()
        return frame

    def take_one(self, wanted=UNKNOWN):
        frame = self.frames[-1]
        if len(self.stack) == frame["height"]:
            if frame["is_dead"]:
                return wanted
            self.fail("it takes %s, and there is no value" % (TYPE_NAMES.get(wanted, "a value")))
        found = self.stack.pop()
        if UNKNOWN not in (found, wanted) and found != wanted:
            self.fail("it takes %s, and finds %s" % (TYPE_NAMES[wanted], TYPE_NAMES[found]))
        return wanted if found is UNKNOWN else found

    def take(self, types):
        for type_ in reversed(types):
            self.take_one(type_)

    def die(self):
        """What comes after is never reached, and takes what it likes."""
        del self.stack[self.frames[-1]["height"] :]
        self.frames[-1]["is_dead"] = True

    def types_at(self, depth):
        """What a branch there takes."""
        if depth >= len(self.frames):
            self.fail("it branches %d blocks out, of %d" % (depth, len(self.frames)))
        frame = self.frames[-1 - depth]
        return [] if frame["code"] == LOOP else frame["given"]

    # ---- The instructions ----

    def step(self, code):
        if code in PLAIN:
            taken, given = PLAIN[code]
            self.take(taken)
            self.stack += given
        elif code in LOADS:
            type_, size = LOADS[code]
            self.access(size)
            self.take_one(I32)
            self.stack.append(type_)
        elif code in STORES:
            type_, size = STORES[code]
            self.access(size)
            self.take([I32, type_])
        elif code in CONSTANTS:
            self.reader.constant_of(code)
            self.stack.append(CONSTANTS[code])
        else:
            self.OTHERS[code](self, code)

    def access(self, size):
        align, _ = self.reader.number(), self.reader.number()
        self.need_memory()
        if 1 << min(align, 32) > size:
            self.fail("it says that its address is a multiple of 2^%d, and it touches %d bytes" % (align, size))

    def need_memory(self):
        if not self.module.all_memories:
            self.fail("there is no memory")

    def unreachable(self, _):
        self.die()

    def block(self, code):
        kind = self.reader.byte()
        if code == IF:
            self.take_one(I32)
        self.enter(code, [] if kind == NO_RESULT else [kind])

    def otherwise(self, code):
        frame = self.leave()
        self.enter(code, frame["given"])

    def end(self, _):
        frame = self.leave()
        if frame["code"] == IF and frame["given"]:
            self.fail("an if without an else gives %s" % told(frame["given"]))
        if self.frames:
            self.stack += frame["given"]

    def branch(self, code):
        types = self.types_at(self.reader.number())
        if code == 0x0D:
            self.take_one(I32)
            self.take(types)
            self.stack += types
        else:
            self.take(types)
            self.die()

    def branch_table(self, _):
        depths = self.reader.vector(self.reader.number)
        types = self.types_at(self.reader.number())
        if any(self.types_at(depth) != types for depth in depths):
            self.fail("the blocks that it branches to take different values")
        self.take_one(I32)
        self.take(types)
        self.die()

    def give_back(self, _):
        self.take(self.given)
        self.die()

    def call(self, type_):
        taken, given = type_
        self.take(taken)
        self.stack += given

    def call_function(self, _):
        number = self.reader.number()
        if number >= len(self.module.all_kinds):
            self.fail("it calls function %d of %d" % (number, len(self.module.all_kinds)))
        self.call(self.module.types[self.module.all_kinds[number]])

    def call_indirect(self, _):
        number = self.reader.number()
        self.reader.byte()
        if number >= len(self.module.types):
            self.fail("it calls a function of type %d of %d" % (number, len(self.module.types)))
        if not self.module.all_tables:
            self.fail("there is no table")
        self.take_one(I32)
        self.call(self.module.types[number])

    def drop(self, _):
        self.take_one()

    def select(self, _):
        self.take_one(I32)
        first = self.take_one()
        self.stack.append(self.take_one(first))

    def local(self, code):
        number = left = self.reader.number()
        for count, type_ in self.groups:
            if left < count:
                break
            left -= count
        else:
            self.fail("it names local %d of %d" % (number, sum(count for count, _ in self.groups)))
        if code != 0x20:
            self.take_one(type_)
        if code != 0x21:
            self.stack.append(type_)

    def global_(self, code):
        number = self.reader.number()
        if number >= len(self.module.all_globals):
            self.fail("it names global %d of %d" % (number, len(self.module.all_globals)))
        type_, changes = self.module.all_globals[number]
        if code == GLOBAL_GET:
            self.stack.append(type_)
            return
        if not changes:
            self.fail("it sets global %d, which does not change" % number)
        self.take_one(type_)

    def memory(self, code):
        self.reader.byte()
        self.need_memory()
        if code == 0x40:
            self.take_one(I32)
        self.stack.append(I32)

    OTHERS = {
        0x00: unreachable, BLOCK: block, LOOP: block, IF: block, ELSE: otherwise, END: end, 0x0C: branch, 0x0D: branch, 0x0E: branch_table,
        0x0F: give_back, 0x10: call_function, 0x11: call_indirect, 0x1A: drop, 0x1B: select, 0x20: local, 0x21: local, 0x22: local,
        GLOBAL_GET: global_, 0x24: global_, 0x3F: memory, 0x40: memory,
    }


def gather(module, data):
    """What the module imports and what it defines, one after the other, as indexes count them."""
    module.all_bytes = data
    of = [[what for _, _, kind, what in module.imports if kind == wanted] for wanted in range(4)]
    module.all_kinds = of[0] + module.kinds
    module.all_tables, module.all_memories = of[1] + module.tables, of[2] + module.memories
    module.all_globals = of[3] + [(type_, changes) for type_, changes, _ in module.globals]


def has_floats_around(module):
    """Whether floats stand where the readers of functions and types do not look: in imports, globals and segments."""
    constants = [code for _, _, code in module.globals] + [offset for segments in (module.elements, module.data) for _, offset, _ in segments]
    instructions = [instruction for code in constants for instruction, _ in code]
    return any(kind == 3 and what[0] in (F32, F64) for _, _, kind, what in module.imports) or any(each in FLOAT_CODES for each in instructions)


def faults_of_parts(module):
    """Why the parts of a module around its functions are not valid."""
    for kind in module.all_kinds:
        if kind >= len(module.types):
            yield "a function is of type %d of %d" % (kind, len(module.types))
            return
    if len(module.all_tables) > 1 or len(module.all_memories) > 1:
        yield "it has %d tables and %d memories, and 1.0 has one of each at most" % (len(module.all_tables), len(module.all_memories))
    for least, most in module.all_tables + module.all_memories:
        if most is not None and most < least:
            yield "a table or a memory has %d at first, and %d at most" % (least, most)
    for least, most in module.all_memories:
        if max(least, most or 0) > MOST_PAGES_OF_ALL:
            yield "a memory has more than %d pages" % MOST_PAGES_OF_ALL
    for number, (type_, _, code) in enumerate(module.globals):
        if [CONSTANTS.get(each) for each, _ in code] != [type_]:
            yield "global %d of its own does not begin with one constant of type %s" % (number, TYPE_NAMES[type_])
    yield from faults_of_exports(module)
    yield from faults_of_segments(module)
    if module.start is not None and (module.start >= len(module.all_kinds) or module.types[module.all_kinds[module.start]] != ([], [])):
        yield "its start section names function %d, which is none that takes and gives nothing" % module.start


def faults_of_exports(module):
    counts, names = [len(module.all_kinds), len(module.all_tables), len(module.all_memories), len(module.all_globals)], set()
    for name, kind, number in module.exports:
        if name in names:
            yield "it exports %s twice" % name
        if number >= counts[kind]:
            yield "it exports %s, number %d of %d" % (name, number, counts[kind])
        names.add(name)


def faults_of_segments(module):
    for kind, segments, places in (("element", module.elements, module.all_tables), ("data", module.data, module.all_memories)):
        for number, (place, offset, _) in enumerate(segments):
            if place >= len(places):
                yield "%s segment %d is for number %d of %d" % (kind, number, place, len(places))
            if offset_of(module, offset) is None:
                yield "%s segment %d does not begin at one constant of type i32" % (kind, number)
    for number, (_, _, functions) in enumerate(module.elements):
        for function in functions:
            if function >= len(module.all_kinds):
                yield "element segment %d names function %d of %d" % (number, function, len(module.all_kinds))
                break


def offset_of(module, code):
    """Where a segment begins: a constant, or an i32 global of the module that does not change; None if it is neither."""
    if len(code) != 1:
        return None
    (instruction, value), = code
    if instruction == 0x41:
        return value & 0xFFFFFFFF
    if instruction == GLOBAL_GET and value < len(module.all_globals) and module.all_globals[value] == (I32, 0):
        own = value - (len(module.all_globals) - len(module.globals))
        return offset_of(module, module.globals[own][2]) if own >= 0 else 0
    return None


def segments_that_end_past(module):
    """Segments for which there is no room, as the table and the memory are at first."""
    sizes = {"element": (module.all_tables, 1), "data": (module.all_memories, 65536)}
    for kind, segments in (("element", module.elements), ("data", module.data)):
        places, unit = sizes[kind]
        for number, (_, offset, content) in enumerate(segments):
            begin, length = offset_of(module, offset), len(content) if kind == "element" else content
            if begin + length > places[0][0] * unit:
                yield kind, number, begin, begin + length, places[0][0] * unit
