"""Numbers and bytes in words, in the form that is asked for."""

from logs.wording import shown

FORMS = {"x": "in hexadecimal", "t": "in binary", "o": "in octal", "c": "as a character", "d": "in decimal", "u": "without a sign"}


def number(value, form="", bits=64):
    """A number in a form; a negative one as the bits that it has in memory, but in decimal."""
    if value is None:
        return "undef"
    if form in ("x", "t", "o", "u") and value < 0:
        value += 1 << bits
    if form == "x":
        return hex(value)
    if form == "o":
        return "0%o" % value if value else "0"
    if form == "t":
        return "{:b}".format(value)
    if form == "c":
        return "%d %s" % (value, repr(chr(value))) if 32 <= value < 127 else str(value)
    return str(value)


def of_answer(answer, form):
    """What `print` answered, in a form."""
    return number(int(answer), form) if answer.lstrip("-").isdigit() else answer


def as_text(data):
    """Bytes up to the zeros at their end where these are text, and all of them otherwise."""
    front = data.rstrip(b"\0")
    if not front:
        return "%d zero bytes" % len(data)
    return shown(front) if shown(front).startswith('"') else data.hex(" ")


def repeated(words):
    """The words, with what comes more than four times in turn said once."""
    out, at = [], 0
    while at < len(words):
        end = at
        while end < len(words) and words[end] == words[at]:
            end += 1
        out += ["%s (%d times)" % (words[at], end - at)] if end - at > 4 else words[at:end]
        at = end
    return out


def dump(start, data):
    """Bytes as lines of 16, with their address and as text."""
    for at in range(0, len(data), 16):
        row = data[at : at + 16]
        text = "".join(chr(byte) if 32 <= byte < 127 else "." for byte in row)
        yield "%6d  %-47s  %s" % (start + at, row.hex(" "), text)
