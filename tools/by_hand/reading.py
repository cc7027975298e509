"""Lines about types and sources: what a variable is, datagrams as structs, and the text of a place."""

import re

from logs.format import CALLS
from by_hand.framing import chosen, stack_here
from sessions.casts import type_of, value_of
from sessions.names import Refusal
from sessions.places import calls_of
from sessions.sources import lines_around

MOST_DEEP = 8
BYTES_CALLS = [call.name for call in CALLS if call.takes_bytes or call.sends_bytes]


def typed(session, rest):
    """The table and the type of a variable or of a type's name."""
    name = re.sub(r"^(struct|enum)\s+", "", rest.strip())
    known = type_of(session.engine, session.current, name) if re.fullmatch(r"[\w:]+", name) else None
    if known is None and name != rest.strip():
        raise Refusal("%s has no %s: ptype shows the types of variables" % (session.current, rest.strip()))
    value = None if known else value_of(session.engine, rest, session.current)
    if not known and value is None:
        # What is no variable is a number, if it is anything.
        session.engine.number_of(rest, session.current)
        return None, "i64"
    return (session.names.tables.get(session.current), known) if known else (value.table, value.type)


def show_type_in_short(session, rest, form):
    session.print(typed(session, rest)[1])


def show_type(session, rest, form):
    """A type with the fields of its struct, or the names of its enumeration."""
    table, type_ = typed(session, rest)
    base = re.match(r"[^*\[]*", type_)[0]
    struct, enum = (table.structs.get(base), table.enums.get(base)) if table else (None, None)
    if enum:
        session.print("enum %s {%s}%s  // %s" % (base, ", ".join("%s = %d" % pair for pair in enum.numbers.items()), type_[len(base) :], enum.width))
        return
    if struct is None:
        session.print(type_)
        return
    session.print("struct %s {" % base)
    for field in struct.fields:
        bits = "  // %d bits from bit %d on" % (field.bits[1], field.bits[0]) if field.bits else ""
        session.print("    %-24s %s;  // at %d%s" % (field.type, field.name, field.offset, bits))
    session.print("}%s  // %d bytes" % (type_[len(base) :], struct.size))


def cast(session, rest, form):
    """Has the bytes of a call's events shown as a struct, or as bytes again."""
    words = rest.split()
    if not words:
        for call, name in sorted(session.casts.items()):
            session.print("cast %s struct %s" % (call, name))
        return
    if words[0] not in BYTES_CALLS or not 2 <= len(words) <= 3:
        raise Refusal("cast wants one of %s, and `struct NAME` or `off`" % ", ".join(BYTES_CALLS))
    if words[1] == "off":
        session.casts.pop(words[0], None)
        return
    if not any(type_of(session.engine, node, words[-1]) in session.names.tables[node].structs for node in session.names.tables):
        raise Refusal("no process has a struct %s: ptype shows the types of variables" % words[-1])
    session.casts[words[0]] = words[-1]


def show_source(session, where):
    """The text around a place: FILE:LINE, a function with calls, or `.` for where the last event's thread stands."""
    if where == ".":
        show_source_here(session, "", "")
        return
    file, _, line = where.rpartition(":")
    front, _, function = where.rpartition(".")
    found = first_line(session.names, function if front in session.names.nodes else where)
    if file and line.isdigit():
        show_lines(session, file, int(line))
    elif found:
        show_lines(session, *found)
    else:
        raise Refusal("%s is no FILE:LINE, and no function that NAME.places tells; `list .` is where the thread stands, `l` the points" % where)


def first_line(names, name):
    """The file and the first known line of a function, or None."""
    functions = (function for node in names.nodes for function in names.functions(node).values())
    found = next(((function.file, function.first) for function in functions if function.name == name and function.file), None)
    return found or next(((call.file, call.line) for node in names.nodes for call in calls_of(names, node) if call.function == name), None)


def show_source_here(session, rest, form):
    """Around the line at which the chosen frame stands."""
    _, _, stack = stack_here(session)
    place = stack.frames[chosen(session)].place
    if place is None:
        raise Refusal("where this thread stands is not told: NAME.places of its guest has no lines of that function")
    show_lines(session, *place)


def show_lines(session, file, line):
    path = session.sources.path(file)
    if path is None:
        raise Refusal("%s does not lie beside the modules" % file)
    found = lines_around(path, line)
    if not found:
        raise Refusal("%s has no line %d" % (file, line))
    for number, text in found:
        session.print("%s%5d  %s" % (">" if number == line else " ", number, text.expandtabs(4)))
