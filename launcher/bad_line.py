"""Which line of a schedule is the first bad one, and the rule that it breaks: "Schedules" of docs/formats.md, said of one line."""
from __future__ import annotations

import re

MOST_PROCESSES, MOST_NAME, MOST_MODULE, MOST_TRIES = 16, 32, 255, 1_000_000
IMAGES = (b".log", b".mem", b".out")
ITEMS = {
    b"run": "run P T or run P T N", b"deliver": "deliver P N", b"inject": "inject P HEX", b"clock": "clock P V", b"random": "random P HEX",
    b"signal": "signal P S", b"kill": "kill P",
}
# What follows P in an item: what it is called, and the least and the most that it can be; HEX has no bounds.
THREAD, TIMES, NUMBER, VALUE, SIGNAL = ("thread T", 0, 63), ("N", 1, MOST_TRIES), ("N", 1, 2**63 - 1), ("V", -(2**63), 2**63 - 1), ("signal S", 1, 31)
HEX = ("HEX", None, None)
FIELDS = {
    b"run": (THREAD, TIMES), b"deliver": (NUMBER,), b"inject": (HEX,), b"clock": (VALUE,), b"random": (HEX,), b"signal": (SIGNAL,), b"kill": (),
}
BEGINS = "a schedule begins with the line `friday 1`, before its processes and items"


class Lines:
    """Goes through the lines of a schedule as far as they are good."""

    def __init__(self):
        self.has_header, self.names, self.has_item, self.tries = False, [], False, 0

    def fault(self, fields):
        """The rule that a line with these fields breaks at its place, or None; then it is taken."""
        if not self.has_header:
            self.has_header = fields == [b"friday", b"1"]
            return None if self.has_header else header_fault(fields)
        if fields[0] == b"process":
            return self.process_fault(fields[1:])
        rule = self.item_fault(fields[0], fields[1:])
        self.has_item = self.has_item or rule is None
        return rule

    def missing(self):
        """What is still to come at the end of the file, or None."""
        if not self.has_header:
            return "the file is over, and has no line `friday 1`, with which a schedule begins"
        return None if self.names else "the file is over, and has no line `process NAME MODULE`: there are 1 to %d of them after `friday 1`" % MOST_PROCESSES

    def process_fault(self, rest):
        if self.has_item:
            return "the process lines stand before the first item"
        if len(rest) != 2:
            return "a process line is `process NAME MODULE`, with 2 fields after `process` and not %d; a name has no blanks" % len(rest)
        name, module = rest
        if not 1 <= len(name) <= MOST_NAME or not re.fullmatch(rb"[a-z0-9_]+", name):
            return "NAME is 1 to %d of a to z, 0 to 9 and _, and not `%s`" % (MOST_NAME, shown(name))
        if name in self.names:
            return "the name %s is that of process %d already" % (shown(name), self.names.index(name))
        if len(module) > MOST_MODULE or not re.fullmatch(rb"[!-~]+", module):
            return "MODULE is 1 to %d visible signs of ASCII, and not `%s`" % (MOST_MODULE, shown(module))
        if module.endswith(IMAGES):
            return "MODULE does not end in .log, .mem or .out, so that no log and no image is written over it"
        if len(self.names) == MOST_PROCESSES:
            return "there are at most %d processes" % MOST_PROCESSES
        self.names.append(name)
        return None

    def item_fault(self, word, rest):
        if word not in ITEMS:
            return "`%s` is no item: these are %s" % (shown(word), ", ".join(item.decode() for item in ITEMS))
        if not self.names:
            return "a line `process NAME MODULE` comes before the first item"
        form, after = ITEMS[word], FIELDS[word]
        least = 2 if word == b"run" else 1 + len(after)
        if not least <= len(rest) <= 1 + len(after):
            return "the item is `%s`, with %s after the word and not %d" % (form, count_of(least, 1 + len(after)), len(rest))
        rule = self.fault_of_process(rest[0])
        for (name, low, high), field in zip(after, rest[1:]):
            rule = rule or (hex_fault(field) if low is None else number_fault(name, low, high, field))
        if rule is None and word == b"run":
            self.tries += int(rest[2]) if len(rest) > 2 else 1
        return rule

    def fault_of_process(self, field):
        number = number_of(field)
        if number is not None and number < len(self.names):
            return None
        names = ", ".join("%d %s" % (place, shown(name)) for place, name in enumerate(self.names))
        return "P is the number of a process, and not `%s`; the processes are %s" % (shown(field), names)


def header_fault(fields):
    if fields[0] == b"friday":
        return "the first line is `friday 1`, and no other version is read"
    return BEGINS


def count_of(least, most):
    if least == most:
        return "1 field" if most == 1 else "%d fields" % most
    return "%d or %d fields" % (least, most)


def number_of(field, is_signed=False):
    """The number that the digits spell, with any zeros in front, or None."""
    digits = field[1:] if is_signed and field[:1] == b"-" else field
    if not re.fullmatch(rb"[0-9]+", digits):
        return None
    # Longer ones are out of each range.
    value = int(digits.lstrip(b"0")[:25] or b"0")
    return -value if digits is not field else value


def number_fault(name, least, most, field):
    value = number_of(field, least < 0)
    if value is None:
        return "%s is written in decimal digits%s, and not as `%s`" % (name, ", with one minus at most" if least < 0 else "", shown(field))
    return None if least <= value <= most else "%s is %d to %d, and not %s" % (name, least, most, shown(field))


def hex_fault(field):
    if field == b"-" or (len(field) % 2 == 0 and re.fullmatch(rb"[0-9a-fA-F]+", field)):
        return None
    if not re.fullmatch(rb"[0-9a-fA-F]+", field):
        return "HEX is two hexadecimal digits for each byte, or - for no bytes, and not `%s`" % shown(field)
    return "HEX is two hexadecimal digits for each byte, and these are %d digits" % len(field)


def shown(field):
    """A field as it stands, or its front."""
    text = field.decode("ascii", "backslashreplace")
    return text if len(text) <= 60 else text[:57] + ".."


def lines_of(data):
    """The lines of bytes, without their ends."""
    lines = data.split(b"\n")
    if lines[-1] == b"":
        lines.pop()
    return [line[:-1] if line.endswith(b"\r") else line for line in lines]


def fields_of(line):
    return [field for field in re.split(rb"[ \t]+", line) if field]


def is_passed_over(fields):
    return not fields or fields[0].startswith(b"#")


def first_bad(data):
    """The number of the first bad line of a schedule, what stands there, and the rule that it breaks; or None."""
    so_far, lines = Lines(), lines_of(data)
    for number, line in enumerate(lines, 1):
        fields = fields_of(line)
        rule = None if is_passed_over(fields) else so_far.fault(fields)
        if rule:
            return number, shown(line), rule
    rule = so_far.missing()
    return (len(lines) + 1, None, rule) if rule else None


def first_too_many(data):
    """The number of the line that takes a good schedule past the most tries, what stands there, and how many there are in all."""
    so_far, found = Lines(), None
    for number, line in enumerate(lines_of(data), 1):
        fields = fields_of(line)
        if not is_passed_over(fields):
            so_far.fault(fields)
        if found is None and so_far.tries > MOST_TRIES:
            found = number, shown(line)
    return (*found, so_far.tries) if found else None
