"""Modules with many of everything that a module can have, which a limit of their own does not bound, and long names."""

from common import begin, refused, replays, summary
from images import memory
from modules import EXPORTS, FUNCTIONS, MAGIC, TYPES, code, leb, named, section, vector
from script import digits, times

BLOCKS = 1000


def repeated(number, count, item, first=b"", last=b"", others=0, behind=0):
    """A section with so many times an item, behind some others and before some, of which the last bytes are to come."""
    size = len(first) + count * len(item) + len(last) + behind
    total = leb(count + others)
    return digits(bytes([number]) + leb(len(total) + size) + total + first) + times(count, item) + digits(last)


def body(made):
    """An element of the code section, from its instructions."""
    whole = b"\0" + made + b"\x0b"
    return leb(len(whole)) + whole


def long_body(front, count, item, last=b""):
    """The code section of one function in which an instruction stands many times."""
    whole = len(front) + count * len(item) + len(last)
    size = leb(whole)
    return digits(b"\x0a" + leb(1 + len(size) + whole) + b"\1" + size + front) + times(count, item) + digits(last)


def placed(at, *last):
    """A segment at an offset of the memory 0 or the table 0."""
    return b"\0\x41" + at + b"\x0b" + b"".join(last)


def module(*parts):
    whole = digits(MAGIC)
    for part in parts:
        whole += digits(part) if isinstance(part, bytes) else part
    return whole


def unless(condition):
    """Traps unless the condition, given as instructions, holds."""
    return condition + bytes.fromhex("45 0440 00 0b")


FRONT = TYPES + FUNCTIONS
YIELD = named(b"liblog") + named(b"yield") + b"\0\0"
START = named(b"_start") + b"\0"
GLOBAL_7 = b"\x7f\0\x41\7\x0b"
TYPED, IMPORTED, MADE, KEPT = 100000, 20000, 50000, 50000
# 65,535 in LEB128 with a sign.
PAGE_END = bytes.fromhex("ffff03")


# What a module has, its sections, its events and its end.
ROWS = (
    ("100,000 types", (repeated(1, TYPED, b"\x60\0\0"), section(3, vector(leb(TYPED - 1))), EXPORTS, code(b"")), 1, "finished"),
    (
        "20,000 imports, of which the last is called",
        (TYPES, repeated(2, IMPORTED, YIELD), FUNCTIONS, section(7, vector(START + leb(IMPORTED))), code(b"\x10" + leb(IMPORTED - 1))),
        2,
        "finished",
    ),
    (
        "50,000 functions, of which the last is called",
        (TYPES, repeated(3, MADE, b"\0"), EXPORTS, repeated(10, MADE - 2, body(b""), body(b"\x10" + leb(MADE - 1)), body(b"\0"), 2)),
        1,
        "trapped unreachable",
    ),
    (
        "50,000 globals, of which the last is read",
        (FRONT, repeated(6, KEPT - 1, b"\x7f\1\x41\0\x0b", last=GLOBAL_7, others=1), EXPORTS, code(unless(b"\x23" + leb(KEPT - 1) + b"\x41\7\x46"))),
        1,
        "finished",
    ),
    (
        "2,000 exports",
        (FRONT, section(7, vector(*(named(b"f%04d" % at) + b"\0\0" for at in range(1999)), START + b"\0")), code(b"")),
        1,
        "finished",
    ),
    (
        "100,000 exports",
        (FRONT, section(7, vector(*(named(b"f%05d" % at) + b"\0\0" for at in range(99999)), START + b"\0")), code(b"")),
        1,
        "finished",
    ),
    (
        "a type of 1,000,000 parameters, which no function has",
        (
            *(digits(b"\1" + leb(1 + 3 + 1 + 3 + 1000000 + 1) + b"\2\x60\0\0" + b"\x60" + leb(1000000)), times(1000000, b"\x7f"), digits(b"\0")),
            *(FUNCTIONS, EXPORTS, code(b"")),
        ),
        1,
        "finished",
    ),
    (
        "50,000 element segments, and one of 65,536 functions",
        (
            *(TYPES, section(3, vector(b"\0", b"\0")), section(4, vector(b"\x70\0" + leb(65536))), EXPORTS),
            repeated(9, 50000, placed(b"\0", vector(b"\0")), last=placed(b"\0", leb(65536)), others=1, behind=65536),
            *(times(65536, b"\1"), section(10, vector(body(b"\x41" + PAGE_END + b"\x11\0\0"), body(b"\0")))),
        ),
        1,
        "trapped unreachable",
    ),
    ("a br_table of 1,000,000 labels, of which the last one is taken", (FRONT, EXPORTS, None), 1, "finished"),
    ("1,000,000 instructions", (FRONT, EXPORTS, long_body(b"\0", 1000000, b"\1", b"\x0b")), 1, "finished"),
    ("4,096 locals, each declared by itself", (FRONT, EXPORTS, long_body(leb(4096), 4096, b"\1\x7f", b"\x0b")), 1, "finished"),
    ("100,000 declarations of no locals", (FRONT, EXPORTS, long_body(leb(100000), 100000, b"\0\x7e", b"\x0b")), 1, "finished"),
    ("100,000 custom sections", (times(100000, b"\0\1\0"), FRONT, EXPORTS, code(b""), times(100000, b"\0\1\0")), 1, "finished"),
    (
        "a custom section and an export whose names have a million bytes",
        (
            *(digits(b"\0" + leb(1000003) + leb(1000000)), times(1000000, b"n"), FRONT),
            *(digits(b"\7" + leb(1 + 9 + 3 + 1000000 + 2) + b"\2" + START + b"\0" + leb(1000000)), times(1000000, b"e"), b"\0\0", code(b"")),
        ),
        1,
        "finished",
    ),
)


def branch_table(count):
    """Its last label leads over what traps, and the others do not."""
    front = b"\0" + bytes.fromhex("0240 0240 41") + signed(count - 1) + b"\x0e" + leb(count)
    return long_body(front, count - 1, b"\0", b"\1\0" + b"\x0b" + b"\0" + b"\x0b\x0b")


def signed(number):
    """A number that is not negative in LEB128 with a sign."""
    spelled = leb(number)
    return spelled if spelled[-1] < 0x40 else spelled[:-1] + bytes([spelled[-1] | 0x80, 0])


def accepted(script, name, sections, events, end):
    sections = [branch_table(1000000) if part is None else part for part in sections]
    begin(script, "accepted: " + name, module(*sections), "run 0 0 %d\n" % (events + 1))
    script.run("record s", "Done", *summary(events, end, events, 1))
    replays(script, events, end)


def many(script):
    for row in ROWS:
        accepted(script, *row)


def data(script):
    """Data segments, of which the later ones are written over the earlier ones, and one as long as a module can have."""
    size = 4194304 - 60
    long = leb(1) + placed(b"\0", leb(size))
    for name, pages, section_of, parts in (
        ("50,000 data segments", 1, repeated(11, 50000, placed(b"\0", vector(b"d")), last=placed(PAGE_END, vector(b"e")), others=1), ((0, b"d"), (65535, b"e"))),
        ("a data segment of nearly all of a module", 64, digits(b"\x0b" + leb(len(long) + size) + long) + times(size, b"d"), ((0, b"d" * size), )),
    ):
        begin(script, "accepted: " + name, module(FRONT, section(5, vector(b"\0" + leb(pages))), EXPORTS, code(b""), section_of), "run 0 0\n")
        script.run("record --images s", "Done", *summary(1, "finished", 1, 0))
        script.show("a.mem", memory(pages, *parts))


def nested(script):
    """Blocks of each kind, as many as may be open, and one more."""
    for name, front in (("blocks", "0240"), ("loops", "0340"), ("ifs", "41010440")):
        for count, reason in ((BLOCKS, None), (BLOCKS + 1, "1 Malformed")):
            made = MAGIC + FRONT + EXPORTS + code(bytes.fromhex(front) * count + b"\x0b" * count)
            begin(script, "%d open %s" % (count, name), digits(made), "run 0 0\n")
            script.run("record s", *(("Done", *summary(1, "finished", 1, 0)) if reason is None else refused("a.wasm", reason)))


def parameters(script):
    """A function of 4,096 parameters that is called, and one of 4,097."""
    for count in (4096, 4097):
        types = section(1, vector(b"\x60\0\0", b"\x60" + leb(count) + b"\x7f" * count + b"\0"))
        first, last = b"\x41\0" * (count - 1) + b"\x41\7\x10\1", unless(b"\x20" + leb(count - 1) + b"\x41\7\x46")
        made = MAGIC + types + section(3, vector(b"\0", b"\1")) + EXPORTS + section(10, vector(body(first), body(last)))
        begin(script, "a function of %d parameters" % count, digits(made), "run 0 0\n")
        script.run("record s", *(("Done", *summary(1, "finished", 1, 0)) if count == 4096 else refused("a.wasm", "5 OverLimit")))


def table(script):
    script.title("Modules with many of everything")
    for part in (many, data, nested, parameters):
        part(script)
