"""A script of cases and what friday_cases has to print of it, put together line by line."""

import hashlib

SHOWN, ROW = 512, 32
GROUP = "group: 0 sends, 0 receives, 0 unmatched, 0 untagged"
USAGE = "friday: these words are not a command"


class Pieces:
    """Bytes, and how a line of the script spells them."""

    def __init__(self, spelled, data):
        self.spelled, self.data = spelled, data

    def __add__(self, other):
        return Pieces(self.spelled + " " + other.spelled, self.data + other.data)


def times(count, data):
    return Pieces("%d*%s" % (count, data.hex()), data * count)


def repeats(data, at, width):
    """How many bytes from here on are the same run of this width, again and again."""
    end = at + width
    while end < len(data) and data[end] == data[end - width]:
        end += 1
    return (end - at) // width * width


def digits(data):
    """Hexadecimal digits, with N*DIGITS where a run of up to five bytes is repeated for long."""
    pieces, start, at = [], 0, 0
    while at < len(data):
        length, width = max((repeats(data, at, width), -width) for width in range(1, 6))
        if length < 40:
            at += 1
            continue
        if start < at:
            pieces.append(data[start:at].hex())
        pieces.append("%d*%s" % (length // -width, data[at : at - width].hex()))
        at += length
        start = at
    if start < at:
        pieces.append(data[start:].hex())
    return Pieces(" ".join(pieces), data)


ESCAPES = {"\n": "\\n", "\r": "\\r", "\t": "\\t", "\0": "\\0", '"': "\\q", "\\": "\\\\"}


def text(written):
    return Pieces('"%s"' % "".join(ESCAPES.get(c, c) for c in written), written.encode())


class Script:
    def __init__(self):
        self.lines, self.told, self.known, self.sizes = [], [], {}, {}

    def title(self, line):
        self.lines += ["", "# " + line]

    def keep(self, name, data):
        """Keeps bytes for all cases that come after."""
        self.known[name] = data
        self.lines.append("keep %s %s" % (name, digits(data).spelled))

    def kept(self, name):
        return Pieces("=" + name, self.known[name])

    def case(self, name):
        self.sizes = {}
        self.lines.append("case " + name)
        self.told += ["", "case " + name]

    def _change(self, verb, name, rest, size):
        self.sizes[name] = size
        self.lines.append("%s %s %s" % (verb, name, rest))
        self.told.append("%s %s: %d bytes" % (verb, name, size))

    def file(self, name, pieces):
        self._change("file", name, pieces.spelled, len(pieces.data))

    def add(self, name, pieces):
        self._change("add", name, pieces.spelled, self.sizes[name] + len(pieces.data))

    def cut(self, name, size):
        self._change("cut", name, size, size)

    def set(self, name, at, data):
        self._change("set", name, "%d %s" % (at, data.hex()), self.sizes[name])

    def input(self, piece, pieces):
        """Hands these bytes in to the commands of the case that come after, of which a read gives `piece` at most."""
        self.lines.append("input %d %s" % (piece, pieces.spelled))
        self.told.append("input: %d bytes, %d at most in a read" % (len(pieces.data), piece))

    def fail(self, side, call):
        self.lines.append("fail %s %d" % (side, call))
        self.told.append("fail %s %d" % (side, call))

    def run(self, words, status, *printed):
        self.lines.append("run " + words)
        self.told.append("run %s: %s" % (words, status))
        self.told += ["    " + line for line in printed]

    def both(self, first, second, ended, *printed):
        """Two calls by record_and_show, and what both print. The end is the status of the second, or `first` and that of the first."""
        self.lines.append("both %s ; %s" % (first, second))
        self.told.append("both %s ; %s: %s" % (first, second, ended))
        self.told += ["    " + line for line in printed]

    def stop(self, calls, words, status, *printed):
        """A run of which so many calls on the files come through, by friday_stopped, and what it prints."""
        self.lines.append("stop %d %s" % (calls, words))
        self.told.append("stop %d %s: %s" % (calls, words, status))
        self.told += ["    " + line for line in printed]

    def sum(self, words, status, printed):
        """A run of which the length and the SHA-256 of these bytes are told, and not the lines."""
        self.lines.append("sum " + words)
        self.told += ["sum %s: %s" % (words, status), "    %d bytes, SHA-256 %s" % (len(printed), hashlib.sha256(printed).hexdigest())]

    def each(self, verb, name, words, outcomes):
        """Outcomes are a status and the printed lines, for 0, 1 and so on."""
        self.lines.append("%s %s 0 %d %s" % (verb, name, len(outcomes) - 1, words))
        self.told.append("run %s, for each" % words)
        for at, (status, *printed) in enumerate(outcomes):
            self.told.append("    %d: %s: %s" % (at, status, "".join(line + "|" for line in printed)))

    def show(self, name, data):
        """What a file has to hold, or None where there is to be none."""
        self.lines.append("show " + name)
        if data is None:
            self.told.append("show %s: absent" % name)
            return
        self.sizes[name] = len(data)
        self.told.append("show %s: %d bytes" % (name, len(data)))
        if len(data) > SHOWN:
            self.told.append("    SHA-256 " + hashlib.sha256(data).hexdigest())
        else:
            self.told += ["    " + data[at : at + ROW].hex() for at in range(0, len(data), ROW)]

    def broken(self, line, why):
        """A line that is not understood or cannot be done."""
        self.lines.append(line)
        self.told.append("line %d: %s" % (len(self.lines), why))
