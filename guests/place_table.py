"""Where the variables of a module lie, and the file that says so.

A type is a word and what is made of it, read from left to right: a width of the debugger (`u8` to `i64`), the
name of a struct, or `bytesN` for N bytes that are no number; then `*` for a pointer to it and `[N]` for N of it.
"""
import hashlib
import os
import re
from dataclasses import dataclass, field

POINTER_SIZE = 4
# So many names are told of those that one may mean.
MOST_TOLD = 12


class Refusal(Exception):
    """What is told to the caller, in words."""


@dataclass(frozen=True)
class Piece:
    """Some bytes of a variable, from `offset` on, and their address."""

    offset: int
    size: int
    address: int


@dataclass(frozen=True)
class Switch:
    """A variable of two values that is kept as a byte, of 0 for the first and 1 for the second."""

    address: int
    values: tuple


@dataclass
class Variable:
    """A variable. It has neither pieces nor a switch where it stands nowhere in memory."""

    name: str
    type: str
    pieces: list = field(default_factory=list)
    switch: Switch = None


@dataclass
class Field:
    """A field of a struct. Of a bit field `bits` are its first bit, from the lowest on, and how many it has."""

    name: str
    type: str
    offset: int
    bits: tuple = None


@dataclass
class Struct:
    name: str
    size: int
    fields: list = field(default_factory=list)


@dataclass
class Enum:
    """Names of numbers of a width."""

    name: str
    width: str
    numbers: dict = field(default_factory=dict)


@dataclass(frozen=True)
class CallPlace:
    """A place in the source that makes calls, and the address that the guest keeps for it."""

    file: str
    line: int
    function: str
    address: int


@dataclass(frozen=True)
class FunctionPlace:
    """A function of the module by its number, imports counted first, and where it stands in the source if that is known."""

    number: int
    name: str
    file: str = ""
    first: int = 0
    last: int = 0

    @property
    def words(self):
        """Its name, with its file and lines behind it."""
        lines = "%d-%d" % (self.first, self.last) if self.last > self.first else str(self.first)
        return self.name + (", %s:%s" % (self.file, lines) if self.file else "")


def array_of(type_):
    """The type of an element and the number of elements, or None where the type is no array."""
    found = re.fullmatch(r"(.*)\[(\d+)\]", type_)
    return (found[1], int(found[2])) if found else None


def told_of(variables):
    """The names of some variables, of many the first ones."""
    names = [variable.name for variable in variables]
    return ", ".join(names[:MOST_TOLD]) + (" and %d more" % (len(names) - MOST_TOLD) if len(names) > MOST_TOLD else "")


def digest_of(path):
    with open(path, "rb") as file:
        return hashlib.sha256(file.read()).hexdigest()


class PlaceTable:
    def __init__(self, module, digest):
        self.module = module
        self.digest = digest
        self.variables = []
        self.structs = {}
        self.enums = {}
        self.calls = []
        self.functions = []

    @property
    def own(self):
        """How the names of variables begin that are in the guest's own file."""
        return re.sub("[^0-9A-Za-z_]+", "_", os.path.splitext(self.module)[0]).strip("_")

    def width_of(self, type_):
        """The width of a number of a type, which may be an enumeration; other types stay as they are."""
        return self.enums[type_].width if type_ in self.enums else type_

    def size_of(self, type_):
        if type_.endswith("*"):
            return POINTER_SIZE
        if array := array_of(type_):
            return array[1] * self.size_of(array[0])
        if type_ in self.structs:
            return self.structs[type_].size
        width = self.width_of(type_)
        if width.startswith("bytes"):
            return int(width[5:])
        if width[1:] not in ("8", "16", "32", "64"):
            raise ValueError("%s is no type" % type_)
        return int(width[1:]) // 8

    def variable(self, name):
        """The variable of this name, or the one whose name ends in `::` and this. One in the file that the module has its name of
        goes before those in others, and in that file one outside of functions before those in them."""
        found = [v for v in self.variables if v.name == name or v.name.endswith("::" + name)]
        if not found:
            raise Refusal("%s has no variable %s" % (self.module, name))
        for is_meant in (lambda v: v.name == name, lambda v: v.name == "%s::%s" % (self.own, name), lambda v: v.name.startswith(self.own + "::")):
            meant = [v for v in found if is_meant(v)]
            if len(meant) == 1:
                return meant[0]
        if len(found) > 1:
            raise Refusal("%s may be each of %s" % (name, told_of(found)))
        return found[0]

    def text(self):
        lines = ["# Where the variables of %s lie. Written by guests/build." % self.module]
        lines.append("module %s %s" % (self.module, self.digest))
        lines += ["variable %s %s%s" % (v.name, v.type, _spell_place(v, self)) for v in self.variables]
        lines += ["call %s %d %s %d" % (c.file, c.line, c.function, c.address) for c in self.calls]
        lines += [_spell_function(f) for f in self.functions]
        for struct in self.structs.values():
            lines.append("struct %s %d" % (struct.name, struct.size))
            lines += [_spell_field(f) for f in struct.fields]
        for enum in self.enums.values():
            lines.append("enum %s %s" % (enum.name, enum.width))
            lines += ["number %s %d" % pair for pair in enum.numbers.items()]
        return "\n".join(lines) + "\n"


def _spell_place(variable, table):
    if variable.switch:
        return " %d|%d@%d" % (*variable.switch.values, variable.switch.address)
    if len(variable.pieces) == 1 and variable.pieces[0].size == table.size_of(variable.type):
        return " %d" % variable.pieces[0].address
    return "".join(" %d+%d@%d" % (p.offset, p.size, p.address) for p in variable.pieces)


def _spell_function(function):
    lines = " %s %d %d" % (function.file, function.first, function.last) if function.file else ""
    return "function %d %s%s" % (function.number, function.name, lines)


def _spell_field(item):
    bits = " bits %d+%d" % item.bits if item.bits else ""
    return "field %s %s %d%s" % (item.name, item.type, item.offset, bits)


def read_table(path):
    """The table of a file, which is refused where the module beside it is another one by now."""
    try:
        with open(path, encoding="ascii") as file:
            lines = file.read().splitlines()
        table = _parse_table(lines)
    except OSError as error:
        raise Refusal("%s: %s" % (path, error.strerror)) from None
    except (ValueError, IndexError, AttributeError, RecursionError):
        raise Refusal("%s is no file of places that guests/build wrote" % path) from None
    module = os.path.join(os.path.dirname(path), table.module)
    if os.path.exists(module) and digest_of(module) != table.digest:
        raise Refusal("%s is of an older %s: build it again" % (path, table.module))
    return table


def _parse_table(lines):
    words_of_lines = [line.split(" ") for line in lines if not line.startswith("#")]
    first, module, digest = words_of_lines[0]
    if first != "module":
        raise ValueError("it names no module")
    table, struct, enum, places = PlaceTable(module, digest), None, None, []
    for words in words_of_lines[1:]:
        if words[0] in ("variable", "struct", "field", "enum", "number") and not re.fullmatch("[0-9A-Za-z_:]+", words[1]):
            raise ValueError("%s is no name" % words[1])
        if words[0] == "variable":
            table.variables.append(Variable(words[1], words[2]))
            places.append(words[3:])
        elif words[0] == "call":
            table.calls.append(CallPlace(words[1], int(words[2]), words[3], int(words[4])))
        elif words[0] == "function":
            where = (words[3], int(words[4]), int(words[5])) if len(words) > 3 else ()
            table.functions.append(FunctionPlace(int(words[1]), words[2], *where))
        elif words[0] == "struct":
            struct = table.structs[words[1]] = Struct(words[1], int(words[2]))
        elif words[0] == "field":
            bits = tuple(int(n) for n in words[5].split("+")) if len(words) > 4 else None
            struct.fields.append(Field(words[1], words[2], int(words[3]), bits))
        elif words[0] == "enum":
            enum = table.enums[words[1]] = Enum(words[1], words[2])
        elif words[0] == "number":
            enum.numbers[words[1]] = int(words[2])
        else:
            raise ValueError("a line begins with %s" % words[0])
    for variable, words in zip(table.variables, places):
        _read_places(variable, words, table)
    for struct in table.structs.values():
        for item in struct.fields:
            table.size_of(item.type)
    return table


def _read_places(variable, words, table):
    table.size_of(variable.type)
    for word in words:
        if re.fullmatch("[0-9]+", word):
            variable.pieces.append(Piece(0, table.size_of(variable.type), int(word)))
        elif found := re.fullmatch(r"(-?\d+)\|(-?\d+)@(\d+)", word):
            variable.switch = Switch(int(found[3]), (int(found[1]), int(found[2])))
        elif found := re.fullmatch(r"(\d+)\+(\d+)@(\d+)", word):
            variable.pieces.append(Piece(*(int(n) for n in found.groups())))
        else:
            raise ValueError("%s is no place" % word)
