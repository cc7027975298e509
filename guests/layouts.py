"""Reads where variables lie, and the layouts of their types, from what llvm-dwarfdump prints of a module."""
import os
import re
from dataclasses import dataclass, field

from place_table import Enum, Field, Piece, Struct, Switch, Variable

# The words of the debugger for numbers. It has no u64, so the 64 bits of one are read as i64.
WIDTHS = {1: "8", 2: "16", 4: "32", 8: "64"}
QUALIFIERS = {"typedef", "const_type", "volatile_type", "restrict_type", "atomic_type"}
POINTERS = {"pointer_type", "reference_type"}
STRUCTS = {"structure_type", "class_type", "union_type"}
# Parts of an enum of Rust, whose members lie in the enum itself.
VARIANTS = {"variant_part", "variant"}
# Types of Rust that are laid out as what they hold, and add nothing that one would name.
SHELLS = re.compile(r"(Cell|UnsafeCell|ManuallyDrop|MaybeUninit)<")
# Namespaces of the libraries of C++ and Rust.
LIBRARIES = ("std", "__cxxabiv1", "core", "alloc", "compiler_builtins")
# What the linker writes for the address of what it left out.
LEFT_OUT = {0, 0xFFFFFFFF}
# The variables at the places of calls, which the macro LIBLOG_HERE of liblog.h makes: call_places.py tells of them.
AT_CALL = "liblog_call"


@dataclass
class Entry:
    """An entry of the debug information: a tag, its attributes as they are printed, and the entries in it."""

    tag: str
    parent: "Entry"
    attributes: dict = field(default_factory=dict)
    children: list = field(default_factory=list)
    # The addresses of its code, where they are more than one range.
    ranges: list = field(default_factory=list)

    def number(self, name, otherwise=None):
        text = self.attributes.get(name)
        return otherwise if text is None else int(text.split()[0], 0)

    def name(self):
        text = self.attributes.get("name", "")
        return text[1:-1] if text.startswith('"') else text


def read_entries(dump):
    """The entries by their offsets, in order."""
    entries, open_entries, entry = {}, [], None
    for line in dump.splitlines():
        if found := re.match(r"0x([0-9a-f]+):( +)(?:DW_TAG_(\w+)|NULL)", line):
            depth = len(found[2]) // 2
            del open_entries[depth:]
            entry = Entry(found[3], open_entries[-1] if open_entries else None) if found[3] else None
            if entry:
                entries[int(found[1], 16)] = entry
                open_entries.append(entry)
                if entry.parent:
                    entry.parent.children.append(entry)
        elif entry and (found := re.match(r" +DW_AT_(\w+)\t\((.*)\)$", line)):
            entry.attributes[found[1]] = found[2]
        elif entry and (found := re.match(r" +\[0x([0-9a-f]+), 0x([0-9a-f]+)\)(?!:)", line)):
            entry.ranges.append((int(found[1], 16), int(found[2], 16)))
    return entries


def word_of(name):
    return re.sub("[^0-9A-Za-z_]+", "_", name).strip("_") or "unnamed"


class Layouts:
    """Fills a table with the variables of a dump and the structs that they are made of."""

    def __init__(self, dump, table):
        self.entries = read_entries(dump)
        self.table = table
        self.types = {}
        # The structs that some unit defines, by their full names, and the names of those that the table has, by where they are written.
        self.defined = {}
        self.written = {}
        for entry in self.entries.values():
            if entry.tag in STRUCTS and entry.name() and "declaration" not in entry.attributes:
                self.defined.setdefault(_scope_of(entry), []).append(entry)

    def fill(self):
        for entry in self.entries.values():
            if entry.tag == "typedef":
                self.give_name(entry)
        for entry in self.entries.values():
            if entry.tag == "enumeration_type" and _scope_of(entry)[-1] not in LIBRARIES:
                self.type_of_entry(entry)
            if entry.tag == "variable" and entry.name() != AT_CALL and (variable := self.variable_of(entry)):
                self.table.variables.append(variable)
        self.table.variables.sort(key=lambda variable: variable.name)
        self.add_structs()

    def add_structs(self):
        """The structs of a guest in C or C++ that no variable has, for casts. Only those are described that its code uses."""
        for scope, found in self.defined.items():
            if found[0].tag in STRUCTS and is_of_c(found[0]) and scope[-1] not in LIBRARIES and "<" not in "".join(scope):
                self.type_of_entry(found[0])

    def give_name(self, typedef):
        """What has no name has that of its typedef."""
        target = self.referred(typedef, "type")
        if target and target.tag in (*STRUCTS, "enumeration_type") and not target.name():
            target.attributes["name"] = typedef.name()

    def referred(self, entry, attribute):
        offset = entry.number(attribute)
        return None if offset is None else self.entries.get(offset)

    def variable_of(self, entry):
        declared = self.referred(entry, "specification") or entry
        location = entry.attributes.get("location", "")
        is_local = "DW_OP_addr" not in location and "subprogram" in _tags_around(declared)
        if is_local or "declaration" in entry.attributes or not re.fullmatch("[0-9A-Za-z_]+", declared.name()):
            return None
        variable = Variable(_path_of(declared), self.type_of(declared))
        variable.switch = _switch_of(location, self.table.width_of(variable.type))
        if not variable.switch:
            variable.pieces = _pieces_of(location, self.table.size_of(variable.type))
        return variable

    def type_of(self, entry):
        target = self.referred(entry, "type")
        return self.type_of_entry(target) if target else "bytes0"

    def type_of_entry(self, entry):
        if id(entry) not in self.types:
            self.types[id(entry)] = self.spell(entry)
        return self.types[id(entry)]

    def spell(self, entry):
        size = entry.number("byte_size", 0)
        if entry.tag in QUALIFIERS:
            return self.type_of(entry)
        if entry.tag in POINTERS:
            return self.type_of(entry) + "*"
        if entry.tag == "array_type":
            return self.array(entry)
        if entry.tag in STRUCTS:
            return self.struct(entry, size)
        if entry.tag == "enumeration_type" and size in WIDTHS:
            return self.enum(entry, self.type_of(entry) if "type" in entry.attributes else "u" + WIDTHS[size])
        if entry.tag == "base_type" and size in WIDTHS and "float" not in entry.attributes["encoding"]:
            is_signed = "DW_ATE_signed" in entry.attributes["encoding"] or size == 8
            return ("i" if is_signed else "u") + WIDTHS[size]
        return "bytes%d" % size

    def array(self, entry):
        ranges = [child for child in entry.children if child.tag == "subrange_type"]
        counts = [r.number("count", r.number("upper_bound", -1) + 1) for r in ranges]
        return self.type_of(entry) + "".join("[%d]" % count for count in reversed(counts))

    def struct(self, entry, size):
        members = list(_members_of(entry))
        if SHELLS.match(entry.name()) and len(members) == 1:
            return self.type_of(members[0])
        if "declaration" in entry.attributes:
            return self.struct_elsewhere(entry)
        # Each unit that includes a header describes its structs again.
        place = (_scope_of(entry), size, entry.attributes.get("decl_file"), entry.attributes.get("decl_line"))
        if place[-1] and place in self.written:
            return self.written[place]
        name = self.written[place] = self.free_name(word_of(entry.name()))
        struct = self.table.structs[name] = Struct(name, size)
        # A field may point to such a struct again.
        self.types[id(entry)] = name
        for member in members:
            struct.fields += self.fields_of(member)
        return name

    def enum(self, entry, width):
        """An enumeration, which each unit that includes a header describes again."""
        # Methods stand among the enumerators of Rust.
        named = [child for child in entry.children if child.tag == "enumerator" and re.fullmatch("[0-9A-Za-z_]+", child.name())]
        numbers = {child.name(): child.number("const_value") for child in named}
        known = next((enum for enum in self.table.enums.values() if (enum.width, enum.numbers) == (width, numbers)), None)
        if known or not numbers:
            return known.name if known else width
        name = self.free_name(word_of(entry.name()))
        self.table.enums[name] = Enum(name, width, numbers)
        return name

    def struct_elsewhere(self, entry):
        """A struct that is only declared here, as another unit defines it, if all that do agree on its size."""
        found = self.defined.get(_scope_of(entry), [])
        if not found or len({other.number("byte_size") for other in found}) > 1:
            return "bytes0"
        if id(found[0]) not in self.types:
            self.types[id(found[0])] = self.spell(found[0])
        return self.types[id(found[0])]

    def free_name(self, word):
        is_taken = word in self.table.structs or word in self.table.enums or re.fullmatch(r"[ui]\d+|bytes\d+", word)
        return "%s_%d" % (word, len(self.table.structs) + len(self.table.enums)) if is_taken else word

    def fields_of(self, member):
        """The field of a member, or those of a struct or union that has no name in this one."""
        offset, type_, bits = member.number("data_member_location", 0), self.type_of(member), None
        if not member.name() and type_ in self.table.structs:
            inner = self.table.structs[type_].fields
            return [Field(f.name, f.type, offset + f.offset, f.bits) for f in inner]
        if "bit_size" in member.attributes:
            offset, bits = _bits_of(member)
        # The fields of a tuple of Rust are __0, __1 and so on. What tells variants apart has no name.
        name = re.sub(r"^__(?=\d+$)", "", member.name() or "variant")
        return [Field(re.sub("[^0-9A-Za-z_]", "_", name), type_, offset, bits)]


def is_of_c(entry):
    while entry.parent:
        entry = entry.parent
    return "Rust" not in entry.attributes.get("language", "")


def _scope_of(entry):
    """The name of a type with those of the namespaces and types that it stands in."""
    words = [entry.name()]
    while (entry := entry.parent) and entry.tag in {"namespace", *STRUCTS}:
        words.append(entry.name())
    return tuple(words)


def _tags_around(entry):
    while entry := entry.parent:
        yield entry.tag


def _members_of(entry):
    for child in entry.children:
        if child.tag == "member":
            yield child
        elif child.tag in VARIANTS:
            yield from _members_of(child)


def _bits_of(member):
    """The offset of the byte in which a bit field begins, its first bit there, and how many it has."""
    count = member.number("bit_size")
    first = member.number("data_bit_offset")
    if first is None:
        # Counted from the highest bit of a number down.
        end = 8 * (member.number("data_member_location", 0) + member.number("byte_size"))
        first = end - member.number("bit_offset") - count
    return first // 8, (first % 8, count)


def _path_of(entry):
    """The names of what a variable stands in and its own: of Rust from the crate on, of C from the file on."""
    words = [entry.name()]
    while entry := entry.parent:
        if entry.tag in ("namespace", "subprogram") and entry.name():
            words.append(word_of(entry.name()))
        elif entry.tag == "compile_unit" and "Rust" not in entry.attributes.get("language", ""):
            words.append(word_of(os.path.splitext(os.path.basename(entry.name()))[0]))
    return "::".join(reversed(words))


def _pieces_of(location, size):
    """Where the bytes of a variable stand, from an expression that is an address, or pieces with addresses."""
    pieces, address, offset = [], None, 0
    for operation in location.split(", ") if location else []:
        name, _, operand = operation.partition(" ")
        if name == "DW_OP_addr":
            address = int(operand, 0)
        elif name == "DW_OP_plus_uconst" and address is not None:
            address += int(operand, 0)
        elif name == "DW_OP_piece":
            if address is not None:
                pieces.append(Piece(offset, int(operand, 0), address))
            offset, address = offset + int(operand, 0), None
        else:
            return []
    if address is not None:
        pieces.append(Piece(0, size, address))
    return [piece for piece in pieces if piece.address not in LEFT_OUT]


def _switch_of(location, type_):
    """A variable that has two values only is kept as a byte: clang writes how its value is computed."""
    number = r"DW_OP_(?:lit(\d+)|const[us] (\S+))"
    form = r"DW_OP_addr (\S+), DW_OP_deref_size 0x1, %s, DW_OP_mul, %s, DW_OP_plus, DW_OP_stack_value"
    found = re.fullmatch(form % (number, number), location)
    if not found or not re.fullmatch(r"[ui]\d+", type_) or int(found[1], 0) in LEFT_OUT:
        return None
    address, *numbers = found.groups()
    factor, base = (int(next(n for n in pair if n), 0) for pair in (numbers[:2], numbers[2:]))
    return Switch(int(address, 0), (_wrapped(base, type_), _wrapped(base + factor, type_)))


def _wrapped(number, type_):
    """The number of this type that has the same lowest bits."""
    bits = int(type_[1:])
    rest = number % (1 << bits)
    return rest - (1 << bits) if type_[0] == "i" and rest >> bits - 1 else rest
