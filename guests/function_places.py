"""The functions of a module, with the lines of the source at which each stands, from its debug information and its names."""
from __future__ import annotations

import bisect
import re

from call_places import file_of, function_of, spelled_file, spelled_name
from layouts import LEFT_OUT
from place_table import FunctionPlace
from wasm_reader import read_module

ROW = re.compile(r"0x([0-9a-f]+) +(\d+) +\d+ +(\d+) ")
END = "end_sequence"


def function_places(entries, line_dump, linked, added):
    """Those of a module as it was linked, in the order of their numbers, but for those without a name. `added` has the numbers of those
    that lowering adds, by their names."""
    module = read_module(linked)
    described, rows = Described(entries, module), Rows(line_dump)
    names = {number: name for name, (kind, number) in module.exports.items() if kind == 0}
    names.update(module.names)
    for function in module.functions:
        entry = described.entry(function)
        if entry:
            yield described.place(function.number, entry, rows)
        elif names.get(function.number):
            yield FunctionPlace(function.number, spelled_name(names[function.number]))
    for name, number in sorted(added.items(), key=lambda pair: pair[1]):
        yield FunctionPlace(number, spelled_name(name))


class Rows:
    """The table of lines: each row has an address in the code, the line there, and the number of its part of the table with that of the
    file in it."""

    def __init__(self, dump):
        self.rows, part, parts = [], [], 0
        for line in dump.splitlines():
            found = ROW.match(line)
            if not found:
                continue
            part.append((int(found[1], 16), int(found[2]), (parts, int(found[3]))))
            if END in line:
                # What the linker left out has no place in the code.
                self.rows += part if part[0][0] not in LEFT_OUT else []
                part, parts = [], parts + 1
        self.rows.sort(key=lambda row: row[0])
        self.addresses = [row[0] for row in self.rows]

    def between(self, low, high):
        return self.rows[bisect.bisect_left(self.addresses, low) : bisect.bisect_left(self.addresses, high)]


class Described:
    """What the debug information has of the functions in the code."""

    def __init__(self, entries, module):
        self.entries = entries
        self.found = sorted((*range_, number) for number, entry in entries.items() if entry.tag == "subprogram" for range_ in ranges_of(entry))
        self.lows = [low for low, _, _ in self.found]

    def entry(self, function):
        """The entry of a function, if it has a name."""
        at = bisect.bisect_right(self.lows, function.start) - 1
        if at < 0 or self.found[at][1] <= function.start:
            return None
        entry = self.entries[self.found[at][2]]
        return entry if self.named(entry) else None

    def chain(self, entry):
        """An entry and those that it refers to for its name and its lines."""
        while entry:
            yield entry
            referred = next((entry.number(name) for name in ("abstract_origin", "specification") if name in entry.attributes), None)
            entry = self.entries.get(referred)

    def named(self, entry):
        return next((other for other in self.chain(entry) if other.name()), None)

    def place(self, number, entry, rows):
        name = spelled_name(function_of(self.named(entry)))
        own = next((other for other in self.chain(entry) if "decl_file" in other.attributes and "decl_line" in other.attributes), None)
        if own is None:
            return FunctionPlace(number, name)
        first = own.number("decl_line")
        return FunctionPlace(number, name, spelled_file(file_of(own)), first, max([first, *lines_of(entry, own, rows)]))


def lines_of(entry, own, rows):
    """The lines of a function's instructions. Where other functions were put into it, their calls have lines, and they have none."""
    inner = list(put_into(entry))
    within = sorted(range_ for other in inner for range_ in ranges_of(other))
    lows, found = [low for low, _ in within], rows.between(entry.number("low_pc"), entry.number("high_pc"))
    for address, line, file in found:
        at = bisect.bisect_right(lows, address) - 1
        # A function begins in its own file.
        if file == found[0][2] and (at < 0 or within[at][1] <= address):
            yield line
    for other in inner:
        if other.attributes.get("call_file") == own.attributes["decl_file"]:
            yield other.number("call_line", 0)


def put_into(entry):
    """The outermost functions that were put into one."""
    for child in entry.children:
        if child.tag == "inlined_subroutine":
            yield child
        else:
            yield from put_into(child)


def ranges_of(entry):
    """Where the code of an entry is; of what the linker left out nowhere."""
    ends = [entry.attributes.get(name, "") for name in ("low_pc", "high_pc")]
    if not all(end.startswith("0x") for end in ends):
        return entry.ranges
    low, high = (int(end, 0) for end in ends)
    return [(low, high)] if low not in LEFT_OUT else []
