"""What `friday play` has to answer, by its definition: after each item the schedule so far is recorded once more. Lines that show
something are asked of the debugger, at the end of what was recorded."""

from __future__ import annotations

import os
import re
import subprocess

from logs.format import in_group_order, read_log, tag_of

ITEM = {
    "run": ((0, None), (0, 63), (1, 1_000_000)),
    "deliver": ((0, None), (1, 2**63 - 1)),
    "inject": ((0, None), "hex"),
    "clock": ((0, None), "signed"),
    "random": ((0, None), "hex"),
    "signal": ((0, None), (1, 31)),
    "kill": ((0, None),),
}
LONGEST_ITEM, LONGEST, MOST_TRIES, MOST_NUMBER = 131072, 4096, 1_000_000, 2**63 - 1
TOKEN = re.compile(rb'[A-Za-z0-9_]+|"[ !#-~]*"|&&|\|\||[=!<>]=|[][@.(){},;$+*/%!<>-]')
BLANKS = b" \t"
# Of the lines that play answers itself: what comes after the word.
OWN = {b"processes": (), b"again": (), b"quit": (), b"datagram": ("process", "from 1"), b"printed": ("node", "from 0")}
OF_DEBUGGER = (b"print", b"mem", b"threads")


def number_of(digits):
    """The number that digits are; there may be more zeros in front than Python takes, and of others more than any number has."""
    return int(digits.lstrip(b"0")[:40] or b"0")


def number_in(word, least, most):
    return re.fullmatch(rb"[0-9]+", word) is not None and least <= number_of(word) <= most


def is_item(fields, count):
    """Whether a schedule of so many processes may have this line, of which the first field is known."""
    kinds = ITEM[fields[0].decode()]
    values = fields[1:]
    least = len(kinds) - 1 if fields[0] == b"run" else len(kinds)
    return least <= len(values) <= len(kinds) and all(is_value(kind, value, count) for kind, value in zip(kinds, values))


def tries_of(item):
    """How often an item tries to let a thread go on; those that are no `run` do not."""
    fields = re.findall(rb"[^ \t]+", item)
    if fields[0] != b"run":
        return 0
    return number_of(fields[3]) if len(fields) > 3 else 1


def is_value(kind, value, count):
    if kind == "hex":
        return value == b"-" or re.fullmatch(rb"([0-9a-fA-F]{2})+", value) is not None
    if kind == "signed":
        found = re.fullmatch(rb"(-?)([0-9]+)", value)
        return found is not None and number_of(found[2]) < 2**63 + (found[1] == b"-")
    return number_in(value, kind[0], count - 1 if kind[1] is None else kind[1])


class Recording:
    """The schedule so far, recorded in a folder of its own."""

    def __init__(self, program, folder, processes, items):
        with open(os.path.join(folder, "schedule"), "wb") as file:
            file.write(b"".join(line + b"\n" for line in [b"friday 1", *(b"process %s %s" % pair for pair in processes), *items]))
        done = subprocess.run([program, "record", "--images", "schedule"], cwd=folder, stdout=subprocess.PIPE, text=True)
        assert done.returncode == 0, (items, done)
        lines = done.stdout.splitlines()
        self.told, self.names = lines[:-1], [name.decode() for name, _ in processes]
        self.acted, self.idle = map(int, re.findall(r"\d+", lines[-1]))
        self.ends = [line.split(" events, ")[1] for line in self.told]
        self.logs = [read_log(os.path.join(folder, name + ".log")) for name in self.names]
        self.printed = [read(os.path.join(folder, name + ".out")) for name in self.names]

    def events(self):
        return [[entry.text(log.name) for entry in log.entries] for log in self.logs]

    def datagrams(self, process):
        log = self.logs[process]
        sends = (entry for entry in log.entries if entry.call.name == "send" and entry.reply >= 0)
        return [(entry.arguments[0], tag_of(process, entry.clock) + entry.sent) for entry in sends if 0 <= entry.arguments[0] < len(self.logs)]


def read(path):
    with open(path, "rb") as file:
        return file.read()


class Play:
    """The answers to lines, one after the other."""

    def __init__(self, program, folder, processes, items):
        self.program, self.folder, self.processes, self.first = program, folder, processes, list(items)
        self.again()

    def again(self):
        self.items = list(self.first)
        self.now = self.recorded(self.items)
        return ["items: %d acted, %d idle" % (self.now.acted, self.now.idle)]

    def recorded(self, items):
        return Recording(self.program, self.folder, self.processes, items)

    def answer(self, line):
        """The lines of the answer; None for `quit`."""
        line = line[:-1] if line.endswith(b"\r") else line
        if len(line) > LONGEST_ITEM:
            return ["? 8 line too long"]
        fields = re.findall(rb"[^ \t]+", line)
        if not fields or fields[0].startswith(b"#"):
            return []
        if fields[0].decode("latin-1") in ITEM:
            return self.item(line, fields)
        if len(line) > LONGEST:
            return ["? 8 line too long"]
        return self.other(line)

    def item(self, line, fields):
        if not is_item(fields, len(self.processes)):
            return ["? 10 bad item"]
        if sum(map(tries_of, self.items)) + tries_of(line) > MOST_TRIES:
            return ["? 11 too many tries"]
        before, process = self.now, number_of(fields[1])
        self.items.append(line)
        self.now = self.recorded(self.items)
        old, new = before.events(), self.now.events()
        assert all(a == b for number, (a, b) in enumerate(zip(old, new)) if number != process)
        assert new[process][: len(old[process])] == old[process]
        counts = "%d acted, %d idle" % (self.now.acted - before.acted, self.now.idle - before.idle)
        return [*new[process][len(old[process]) :], counts]

    def other(self, line):
        tokens, bad = tokens_of(line)
        if bad:
            return ["? 1 syntax at column %d" % bad]
        if len(tokens) > 512 or most_open(tokens) > 64:
            return ["? 3 too deep"]
        word = tokens[0][1]
        if word in OF_DEBUGGER:
            return self.of_debugger(line, [token for _, token in tokens])
        if word not in OWN:
            return ["? 1 syntax at column %d" % tokens[0][0]]
        return self.own(line, word, tokens[1:])

    def own(self, line, word, tokens):
        for kind, (column, token) in zip(OWN[word], tokens):
            if not self.is_own(kind, token):
                return ["? 1 syntax at column %d" % column]
        if len(tokens) != len(OWN[word]):
            return ["? 1 syntax at column %d" % (tokens[len(OWN[word])][0] if len(tokens) > len(OWN[word]) else len(line) + 1)]
        values = [token for _, token in tokens]
        if word == b"quit":
            return None
        if word == b"again":
            return self.again()
        if word == b"processes":
            return self.now.told
        return self.datagram(*map(value_of, values)) if word == b"datagram" else self.printed(values[0].decode(), value_of(values[1]))

    def is_own(self, kind, token):
        if kind == "node":
            return re.fullmatch(rb"[A-Za-z0-9_]+", token) is not None
        value = value_of(token)
        most = len(self.processes) - 1 if kind == "process" else MOST_NUMBER
        return value is not None and (1 if kind == "from 1" else 0) <= value <= most

    def datagram(self, process, number):
        sent = self.now.datagrams(process)
        return ["%d %s" % (sent[number - 1][0], sent[number - 1][1].hex()) if number <= len(sent) else "none"]

    def printed(self, name, start):
        if name not in self.now.names:
            return ["? 2 no node"]
        return [self.now.printed[self.now.names.index(name)][start:].hex() or "-"]

    def of_debugger(self, line, tokens):
        """What the debugger answers at the last position; of a killed process play tells no threads."""
        if tokens[0] == b"threads" and len(tokens) == 2 and tokens[1].decode("latin-1") in self.now.names:
            if self.now.ends[self.now.names.index(tokens[1].decode())] == "killed":
                return [tokens[1].decode() + " killed"]
        pairs = [word for name, module in self.processes for word in (module.decode(), name.decode() + ".log")]
        typed = b"goto %d\n%s\n" % (len(in_group_order(self.now.logs)), line)
        done = subprocess.run([self.program, "debug", *pairs], cwd=self.folder, input=typed, stdout=subprocess.PIPE)
        return done.stdout.decode("latin-1").split("\n")[2:-1]


def tokens_of(line):
    """Pairs of a column and a token, and the column of the first byte that begins none, or 0."""
    at, found = 0, []
    while at < len(line):
        if line[at] in BLANKS:
            at += 1
            continue
        token = TOKEN.match(line, at)
        if token is None:
            return found, at + 1
        found.append((at + 1, token[0]))
        at = token.end()
    return found, 0


def most_open(tokens):
    most, now = 0, 0
    for _, token in tokens:
        now += (token in (b"(", b"[", b"{")) - (token in (b")", b"]", b"}"))
        most = max(most, now)
    return most


def value_of(token):
    """The number that a token is, or None."""
    if re.fullmatch(rb"[0-9]+", token):
        return int(token)
    return int(token, 16) if re.fullmatch(rb"0x[0-9a-fA-F]+", token) else None
