"""What gdb's users write of a variable beside its name: `*p`, `a@3`, `&x`, and `(struct T *)` before an address."""

import re

from naming import LONGEST_LINE, STEP, end_of
from sessions.names import Refusal
from sessions.values import Given, Value

CAST = re.compile(r"\(\s*(?:struct\s+|enum\s+)?([\w:]+)\s*(\**)\s*\)\s*(.+)", re.S)
NUMBERS = {
    "char": "u8", "uint8_t": "u8", "int8_t": "i8", "short": "i16", "uint16_t": "u16", "int16_t": "i16", "int": "i32", "unsigned": "u32",
    "uint32_t": "u32", "int32_t": "i32", "long": "i32", "uint64_t": "i64", "int64_t": "i64", "usize": "u32", "isize": "i32",
    **{name: name for name in ("u8", "i8", "u16", "i16", "u32", "i32", "i64")},
}
MOST_IN_A_ROW, DEEPEST = 100_000, 16


def value_of(engine, text, node, depth=0):
    """The value that such a text or a variable's path stands for, or None where it is another expression."""
    text = text.strip()
    if len(text) > LONGEST_LINE:
        raise Refusal("8 line too long")
    if depth > DEEPEST:
        raise Refusal("3 too deep")
    if row := re.fullmatch(r"([^@]+)@\s*(\d{1,9})", text):
        found = value_of(engine, row[1], node, depth + 1)
        if found and not 1 <= int(row[2]) <= MOST_IN_A_ROW:
            raise Refusal("1 to %d in a row are shown" % MOST_IN_A_ROW)
        return found.repeated(int(row[2])) if found else None
    if text.startswith("*"):
        found = value_of(engine, text[1:], node, depth + 1)
        return pointed(engine, found, node) if found else None
    if text.startswith("(") and end_of(text, 1) < len(text) - 1 and (cast := CAST.fullmatch(text)):
        type_ = type_of(engine, node, cast[1])
        return cast_to(engine, type_ + "*" * len(cast[2]), cast[3], node) if type_ else None
    if text.startswith("(("):
        return stepped(engine, text, node, depth)
    return engine.value(engine.names.qualified(text, node))


def stepped(engine, text, node, depth):
    """What steps lead to behind a bracket: ((struct T *)p)->field."""
    end = end_of(text, 1)
    found, at = value_of(engine, text[1:end], node, depth + 1), end + 1
    while found and at < len(text):
        step = STEP.match(text, at)
        if step is None:
            raise Refusal("%s is no part of a path" % text[at:])
        at = step.end()
        if step[0] == "[":
            end = end_of(text, at)
            found, at = element(engine, found, text[at:end], node), end + 1
        else:
            found = field(pointed(engine, found, node) if step[2] else found, step[1] or step[2])
    return found


def element(engine, value, index, node):
    if not index.strip().isdigit():
        raise Refusal("an index behind a cast is a number")
    if value.is_pointer:
        inner = pointed(engine, value, node)
        return inner.part(inner.type, int(index) * inner.size)
    if not value.array or int(index) >= value.array[1]:
        raise Refusal("%s has no element %s" % (value.type, index))
    return value.elements(int(index), 1)[0][1]


def field(value, name):
    parts = dict(value.fields()) if value.struct else {}
    if name not in parts:
        raise Refusal("%s has no field %s" % (value.type, name))
    return parts[name]


def pointed(engine, value, node):
    if value.array:
        return value.elements(0, 1)[0][1]
    return value.pointed(engine.memory(owner(value, node)))


def owner(value, node):
    """The process whose memory a value is in."""
    memory = getattr(value.bytes, "memory", None)
    return memory.node if memory else node


def type_of(engine, node, name):
    """A type of a process by its name in the source; None where it has none of this name."""
    if name in NUMBERS:
        return NUMBERS[name]
    table = engine.names.tables.get(node)
    found = [known for known in ((*table.structs, *table.enums) if table else ()) if known == name or known.endswith("::" + name)]
    return found[0] if found else None


def cast_to(engine, type_, text, node):
    """A pointer to an address, or a number as another one."""
    table, inner = engine.names.tables.get(node), value_of(engine, text, node, 1)
    if table is None:
        raise Refusal("no types are known of %s" % node)
    if type_ in table.structs:
        raise Refusal("a cast to a struct wants a * and an address: (struct %s *)" % type_)
    if inner and inner.array:
        number = inner.bytes.start(inner.offset)
    else:
        number = inner.number() if inner else engine.number_of(text, node)
    size = table.size_of(type_)
    return Value(table, type_, Given(b"" if number is None else (number % 256**size).to_bytes(size, "little")))


def datagram(engine, node, type_, data):
    """Bytes that a process sent or took, as one of its structs."""
    return Value(engine.names.tables[node], type_, Given(data))


def address(value):
    """Where a value lies, or None."""
    return value.bytes.start(value.offset)
