"""Names of numbers in expressions: enumerators of the guests, and characters in quotes as C writes them."""

import re

from logs.format import CALLS
from place_table import Refusal

CHARACTER = re.compile(r"'(\\?[\x20-\x7e])'")
ESCAPED = {"\\n": "\n", "\\t": "\t", "\\r": "\r", "\\0": "\0"}
# Words of the debugger, which no enumerator hides.
KEPT_WORDS = ("set", "say", "stop", "if", "else", "undef", "sum", "min", "max", "count", *(call.name for call in CALLS))


class Enumerators:
    """The numbers that each name stands for in some enumeration, also by the name of that and `::` before it."""

    def __init__(self, tables, nodes):
        self.numbers, self.kept = {}, {*KEPT_WORDS, *nodes}
        for table in tables:
            for enum in table.enums.values():
                for name, number in enum.numbers.items():
                    self.numbers.setdefault(name, set()).add(number)
                    self.numbers.setdefault("%s::%s" % (enum.name, name), set()).add(number)

    def has(self, name):
        return name in self.numbers and name not in self.kept

    def number(self, name):
        """The number of a name, as an expression has it."""
        numbers = self.numbers[name]
        if len(numbers) > 1:
            raise Refusal("%s is each of %s" % (name, ", ".join(map(str, sorted(numbers)))))
        number = min(numbers)
        return str(number) if number >= 0 else "(0%d)" % number


def number_of_character(found):
    """The number of a character that CHARACTER has found."""
    return str(ord(ESCAPED.get(found[1], found[1][-1])))
