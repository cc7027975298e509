"""Paths of variables, and what the debugger reads for them: see "Naming variables in a script" in docs/guests.md."""
import re

from place_table import Refusal, array_of

# The debugger's limits.
LONGEST_LINE = 4096
LONGEST_MEM = 256
MOST_BRACKETS = 64
MOST_DIGITS = 19

NAME = re.compile(r"\w+(?:::\w+)*", re.ASCII)
STEP = re.compile(r"\.(\w+)|->(\w+)|\[", re.ASCII)
REFERENCE = re.compile(r"@(\w+|!)\.\{", re.ASCII)
STRING = re.compile(r'"[^"]*"?')
# Each process in an aggregate, and the one whose event it is.
SOME = ("_", "!")
RANGE = re.compile(r"([ \t]*mem[ \t]+(\w+)[ \t]+)\{", re.ASCII)


class Place:
    """A place that a path has reached: at an offset in a variable, or from the address that an expression gives."""

    def __init__(self, node, table, variable):
        self.node, self.table, self.variable = node, table, variable
        self.type, self.expression, self.offset, self.bits = variable.type, "", 0, None

    def address(self, size):
        """The address of so many bytes here."""
        if self.variable is None:
            return self.expression + ("+%d" % self.offset if self.offset else "")
        end = self.offset + size
        for piece in self.variable.pieces:
            if piece.offset <= self.offset and end <= piece.offset + piece.size:
                return str(piece.address + self.offset - piece.offset)
        raise Refusal("it is not in memory: mark %s LIBLOG_WATCHED or volatile" % self.variable.name)

    def load(self):
        if self.variable and self.variable.switch:
            first, second = self.variable.switch.values
            return "(@%s.u8[%d]*%d%+d)" % (self.node, self.variable.switch.address, second - first, first)
        if self.type.endswith("*"):
            return self.load_as("u32")
        width = self.table.width_of(self.type)
        if not re.fullmatch("[ui][0-9]+", width):
            raise Refusal("it is %s, which is no number" % self.type)
        return self.load_bits(width) if self.bits else self.load_as(width)

    def load_as(self, width):
        return "@%s.%s[%s]" % (self.node, width, self.address(self.table.size_of(width)))

    def load_bits(self, type_):
        first, count = self.bits
        width = next((width for width in ("u8", "u16", "u32") if first + count <= int(width[1:])), None)
        if width is None:
            raise Refusal("a bit field that ends past 32 bits cannot be read")
        unsigned = "%s/%d%%%d" % (self.load_as(width), 1 << first, 1 << count)
        if type_[0] == "u":
            return "(%s)" % unsigned
        half = 1 << count - 1
        return "((%s+%d)%%%d-%d)" % (unsigned, half, 1 << count, half)

    def follow(self):
        """To what the pointer here points to."""
        if not self.type.endswith("*"):
            raise Refusal("it is %s, which is no pointer" % self.type)
        self.expression, self.variable, self.offset = self.load(), None, 0
        self.type = self.type[:-1]

    def enter(self, name):
        struct = self.table.structs.get(self.type)
        if struct is None:
            advice = ": write -> in place of ." if self.type.endswith("*") else ""
            raise Refusal("it is %s, which has no field %s%s" % (self.type, name, advice))
        field = next((f for f in struct.fields if f.name == name), None)
        if field is None:
            raise Refusal("%s has no field %s" % (self.type, name))
        self.type, self.offset, self.bits = field.type, self.offset + field.offset, field.bits

    def index(self, text):
        if self.type.endswith("*"):
            self.follow()
            element, count = self.type, 0
        elif array := array_of(self.type):
            element, count = array
        else:
            raise Refusal("it is %s, which has no elements" % self.type)
        size = self.table.size_of(element)
        if not text.strip():
            raise Refusal("an index is missing")
        if re.fullmatch("[0-9]+", text):
            if len(text) > MOST_DIGITS or count and int(text) >= count:
                raise Refusal("element %s of %d" % (text, count))
            self.offset += int(text) * size
        else:
            start = self.address(self.table.size_of(self.type) if count else 0)
            self.expression, self.variable, self.offset = "%s+(%s)*%d" % (start, text, size), None, 0
        self.type = element


def end_of(text, start):
    """Where the bracket or brace that stands before `start` is closed."""
    depth = 1
    for at in range(start, len(text)):
        depth += (text[at] in "[{(") - (text[at] in "]})")
        if depth == 0:
            return at
    raise Refusal("%s is not closed" % text[start - 1 :])


def place_of(node, table, path):
    name = NAME.match(path)
    if name is None:
        raise Refusal("it does not begin with a name")
    place, at = Place(node, table, table.variable(name[0])), name.end()
    while at < len(path):
        step = STEP.match(path, at)
        if step is None:
            raise Refusal("%s is no part of a path" % path[at:])
        at = step.end()
        if step[0] == "[":
            end = end_of(path, at)
            place.index(expanded_index(path[at:end], node, table))
            at = end + 1
            continue
        if step[2]:
            place.follow()
        place.enter(step[1] or step[2])
    return place


def expanded_index(text, node, table):
    """An index with the load in place of each path, of the node that the index is for."""
    if '"' in text:
        raise Refusal("an index has no strings")
    if REFERENCE.search(text):
        raise Refusal("the node is said again in an index")
    out, at = "", 0
    while (start := text.find("{", at)) >= 0:
        end = end_of(text, start + 1)
        out += text[at:start] + place_of(node, table, text[start + 1 : end]).load()
        at = end + 1
    return out + text[at:]


class Script:
    def __init__(self, tables):
        self.tables = tables

    def tables_of(self, node):
        if node in SOME:
            return list(self.tables.values())
        table = self.tables.get(node, self.tables.get(""))
        if table is None:
            raise Refusal("no file of places for the node %s" % node)
        return [table]

    def resolved(self, node, path, read):
        """What `read` makes of the place of a path; of `@_` and `@!` it has to be one for all files."""
        try:
            results = {read(place_of(node, table, path)) for table in self.tables_of(node)}
        except Refusal as refusal:
            raise Refusal("{%s}: %s" % (path, refusal)) from None
        if len(results) > 1:
            raise Refusal("{%s}: it lies elsewhere in other modules, so @%s cannot name it" % (path, node))
        return results.pop()

    def expanded(self, text):
        """The text with an expression in place of each reference."""
        out, at = "", 0
        while at < len(text):
            if string := STRING.match(text, at):
                out, at = out + string[0], string.end()
            elif found := REFERENCE.match(text, at):
                end = end_of(text, found.end())
                out += self.resolved(found[1], text[found.end() : end], Place.load)
                at = end + 1
            else:
                out, at = out + text[at], at + 1
        return out

    def line(self, text):
        check_line(text)
        if text.lstrip(" \t").startswith("#"):
            return text
        if found := RANGE.match(text):
            end = end_of(text, found.end())
            result = found[1] + self.resolved(found[2], text[found.end() : end], range_of) + text[end + 1 :]
        else:
            result = self.expanded(text)
        check_line(result)
        return result


def check_line(text):
    """The debugger would refuse the line; and no path is deep beyond reason."""
    if len(text) > LONGEST_LINE:
        raise Refusal("the line has more than %d bytes with its addresses" % LONGEST_LINE)
    depth = 0
    for sign in STRING.sub("", text):
        depth += (sign in "[{(") - (sign in "]})")
        if depth > MOST_BRACKETS:
            raise Refusal("more than %d brackets are open at once" % MOST_BRACKETS)


def range_of(place):
    """The address and the length of a place, as `mem` has them."""
    size = place.table.size_of(place.type)
    address = place.address(size)
    if not address.isdigit():
        raise Refusal("mem wants a number, and this address is read through a pointer or an index")
    if not 1 <= size <= LONGEST_MEM:
        raise Refusal("it has %d bytes, and mem shows 1 to %d" % (size, LONGEST_MEM))
    return "%s %d" % (address, size)
