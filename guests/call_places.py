"""The places in the source at which a guest makes its calls, by the addresses that build --lines has it keep for them."""
import os
import re
import struct

from layouts import AT_CALL, LEFT_OUT
from place_table import CallPlace
from wasm_reader import Reader, sections_of

KIT = os.path.dirname(os.path.abspath(__file__))
# A place as rustc lays it out: the address and the length of the file's name, the line and the column.
RUST_PLACE = struct.Struct("<IIII")


def call_places(entries, module):
    """Those of the debug information's entries and of the module's bytes, in the order of their addresses."""
    functions = Functions(entries.values())
    places = [*places_of_c(entries.values(), functions), *places_of_rust(module, functions)]
    return sorted(places, key=lambda place: place.address)


class Functions:
    """Which function a line of a file is in: the one that begins last up to there, since the debug information has no ends."""

    def __init__(self, entries):
        self.begins = {}
        for entry in entries:
            if entry.tag == "subprogram" and entry.name() and "decl_file" in entry.attributes and "declaration" not in entry.attributes:
                self.begins.setdefault(file_of(entry), []).append((entry.number("decl_line"), function_of(entry)))

    def at(self, file, line):
        return max((begin for begin in self.begins.get(file, ()) if begin[0] <= line), default=(0, None))[1]


def file_of(entry):
    return os.path.normpath(entry.attributes["decl_file"].strip('"'))


def function_of(entry):
    """The name of a function, without its types; a closure's is that of the function that it stands in."""
    while entry.name().startswith("{") and entry.parent:
        entry = entry.parent
    return entry.name().split("<")[0]


def places_of_c(entries, functions):
    for entry in entries:
        address = re.fullmatch("DW_OP_addr (0x[0-9a-f]+)", entry.attributes.get("location", ""))
        if entry.tag == "variable" and entry.name() == AT_CALL and address and int(address[1], 0) not in LEFT_OUT:
            file, line = file_of(entry), entry.number("decl_line")
            # Where clang has put a function into others, the variables stand apart from its name.
            name = name_around(entry) or functions.at(file, line)
            yield from made(file, line, name, int(address[1], 0))


def name_around(entry):
    while entry.parent and entry.tag != "subprogram":
        entry = entry.parent
    return entry.name() if entry.tag == "subprogram" else ""


def places_of_rust(module, functions):
    """No entry tells of them, but each names a file of Rust. Those at which a function may panic are among them."""
    for start, data in data_of(module):
        for at in range(-start % 4, len(data) - RUST_PLACE.size + 1, 4):
            name, length, line, column = RUST_PLACE.unpack_from(data, at)
            file = data[name - start : name - start + length] if start <= name < start + len(data) and 0 < length < 4096 else b""
            if file.endswith(b".rs") and line and column:
                path = os.path.abspath(file.decode("utf-8", "replace"))
                yield from made(path, line, functions.at(path, line), start + at)


def data_of(module):
    """The address and the bytes of each part of the memory that the module brings."""
    for kind, _, contents in sections_of(module):
        reader = Reader(contents)
        for _ in range(reader.number() if kind == 11 else 0):
            reader.bytes(2)
            start = reader.number()
            reader.byte()
            yield start, reader.bytes(reader.number())


def made(file, line, function, address):
    if function:
        yield CallPlace(spelled_file(file), line, spelled_name(function), address)


def spelled_file(file):
    front = "kit/" if file.startswith(KIT + os.sep) else ""
    return front + spelled_name(os.path.basename(file))


def spelled_name(name):
    """A name as one word."""
    return re.sub("[^!-~]", "_", name)
