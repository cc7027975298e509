"""Names of variables in lines: NODE.PATH stands for what scripts spell @NODE.{PATH}, and PATH for that of a current process."""

import os
import re

from logs.format import BadLog, head_of, printable
from function_names import functions_of
from naming import LONGEST_LINE, NAME, REFERENCE, STEP, Script, end_of, place_of
from place_table import Refusal, read_table
from sessions.enumerators import CHARACTER, Enumerators, number_of_character

STRING = re.compile(r'"[^"]*"?')
WORD = re.compile(r"[@$.]?\w+", re.ASCII)
OWN_PLACES = ("u8", "u16", "u32", "i8", "i16", "i32", "i64", "global", "clock", "events", "size", "thread", "ended")
# Words of programs, which no variable of a guest hides.
KEPT_WORDS = ("set", "say", "stop", "if", "else")
# Lines that have expressions, in which an enumerator stands for its number.
WITH_EXPRESSIONS = ("print", "watch", "set", "do", "break")


class Names:
    """The variables of each process, by the file of places beside its module."""

    def __init__(self, pairs, told):
        self.nodes, self.paths, self.modules, self.called = [], [], {}, {}
        for module, path in zip(pairs[::2], pairs[1::2]):
            try:
                log = head_of(path)
            except (BadLog, OSError):
                # The program says what is wrong with it.
                continue
            self.nodes.append(log.name)
            self.paths.append(path)
            self.modules[log.name], self.called[log.process] = module, log.name
        self.read_tables(told)

    def read_tables(self, told):
        """Reads the places beside each module; `told` hears of processes without names."""
        self.tables, self.known = {}, {}
        for node, module in self.modules.items():
            try:
                self.tables[node] = read_table(os.path.splitext(module)[0] + ".places")
            except Refusal as refusal:
                told("no names for %s: %s" % (node, printable(str(refusal))))
        self.script = Script(self.tables)
        self.enumerators = Enumerators(self.tables.values(), self.nodes)

    def functions(self, node):
        """The functions of a process's module that have a name, by their numbers."""
        module = self.modules[node]
        if module not in self.known:
            self.known[module] = functions_of(module)
        return self.known[module]

    def variables(self, node):
        return self.tables[node].variables if node in self.tables else []

    def reference(self, text, at):
        """The node, the path and the end of a reference NODE.PATH that begins here, or None."""
        word = WORD.match(text, at)
        if word is None or word[0] not in self.nodes or text[word.end() : word.end() + 1] != ".":
            return None
        end = end_of_path(text, word.end() + 1)
        return (word[0], text[word.end() + 1 : end], end) if end else None

    def has(self, node, path):
        """Whether the path begins with a variable of this process, and not with a word such as `clock`."""
        name = NAME.match(path)[0]
        return name not in OWN_PLACES or self.is_variable(node, name)

    def is_variable(self, node, name):
        return any(v.name == name or v.name.endswith("::" + name) for v in self.variables(node))

    def qualified(self, text, node):
        """The text with the process before each variable that has none and that this process has."""
        return self.completed(text, [node], lambda path: "%s.%s" % (node, path))

    def of_event(self, text, nodes):
        """The text with the place of each variable that has no process: in the one whose event it is, which is one of these."""
        script = Script({node: self.tables[node] for node in nodes if node in self.tables})
        return self.completed(text, nodes, lambda path: script.expanded("@!.{%s}" % self.indexed("!", path)))

    def completed(self, text, nodes, spell):
        """The text with what `spell` makes of each path that has no process and begins with a variable of one of these."""

        def named(at):
            if found := self.reference(text, at):
                return text[at : found[2]], found[2]
            name = NAME.match(text, at)
            if name is None or name[0] in KEPT_WORDS or text[name.end() : name.end() + 1] == "(":
                return None
            if not any(self.is_variable(node, name[0]) for node in nodes):
                return None
            end = end_of_path(text, at)
            return spell(text[at:end]), end

        return replaced(text, named)

    def modules_of(self, nodes):
        """These processes in lists, those of one module in each."""
        found = {}
        for node in nodes:
            found.setdefault(self.tables[node].digest, []).append(node)
        return list(found.values())

    def spelled(self, text):
        """The text as a script spells it: @NODE.{PATH} for NODE.PATH, and @NODE.clock for NODE.clock."""

        def named(at):
            found = self.reference(text, at)
            if found is None:
                return None
            node, path, end = found
            return ("@%s.{%s}" % (node, self.indexed(node, path)), end) if self.has(node, path) else ("@" + node, at + len(node))

        return replaced(text, named)

    def indexed(self, node, path):
        """A path with each variable in its indices in braces, as scripts have them."""
        out, at = "", 0
        while (start := path.find("[", at)) >= 0:
            end = end_of(path, start + 1)
            out += path[at : start + 1] + self.index(node, path[start + 1 : end]) + "]"
            at = end + 1
        return out + path[at:]

    def index(self, node, text):
        def named(at):
            if text[at] == "{":
                end = end_of(text, at + 1) + 1
                return text[at:end], end
            found = self.reference(text, at)
            name = NAME.match(text, at)
            if found is None and name and self.enumerators.has(name[0]):
                return self.enumerators.number(name[0]), name.end()
            if found and found[0] != node:
                raise Refusal("an index is read from the process of its array, and not from %s" % found[0])
            if found and self.has(node, found[1]):
                return "{%s}" % self.indexed(node, found[1]), found[2]
            if found is None and name and self.is_variable(node, name[0]):
                end = end_of_path(text, at)
                return "{%s}" % self.indexed(node, text[at:end]), end
            return None

        return replaced(text, named)

    def line(self, text):
        """The line that the program is sent."""
        verb, blank, rest = text.partition(" ")
        numbered = verb + blank + self.numbered(rest) if verb in WITH_EXPRESSIONS else text
        return self.script.line(self.spelled(numbered))

    def expression(self, text):
        """An expression as the program is sent it."""
        return self.script.line(self.spelled(self.numbered(text)))

    def numbered(self, text):
        """The text with its number in place of each enumerator and of each character in quotes."""

        def named(at):
            if found := self.reference(text, at):
                return text[at : found[2]], found[2]
            if sign := CHARACTER.match(text, at):
                return number_of_character(sign), sign.end()
            word = NAME.match(text, at)
            return (self.enumerators.number(word[0]), word.end()) if word and self.enumerators.has(word[0]) else None

        return replaced(text, named)

    def place(self, text):
        """The place of a text that is nothing but NODE.PATH or @NODE.{PATH}, or None."""
        text = text.strip()
        braced = re.fullmatch(r"@(\w+)\.\{(.*)\}", text)
        if braced and braced[1] in self.tables:
            return place_of(braced[1], self.tables[braced[1]], braced[2])
        found = self.reference(text, 0)
        if found is None or found[2] != len(text) or not self.has(*found[:2]) or found[0] not in self.tables:
            return None
        return place_of(found[0], self.tables[found[0]], self.indexed(found[0], found[1]))


def replaced(text, named):
    """The text with what `named` makes of the names in it; strings and what scripts have in braces stay as they are."""
    if len(text) > LONGEST_LINE:
        raise Refusal("8 line too long")
    pieces, at = [], 0
    while at < len(text):
        if string := STRING.match(text, at):
            piece, at = string[0], string.end()
        elif braced := REFERENCE.match(text, at):
            end = end_of(text, braced.end()) + 1
            piece, at = text[at:end], end
        elif found := named(at):
            piece, at = found
        elif sign := CHARACTER.match(text, at):
            piece, at = sign[0], sign.end()
        elif word := WORD.match(text, at):
            piece, at = word[0], word.end()
        else:
            piece, at = text[at], at + 1
        pieces.append(piece)
    return "".join(pieces)


def end_of_path(text, at):
    """Where a path ends that begins here, or 0."""
    name = NAME.match(text, at)
    if name is None:
        return 0
    at = name.end()
    while step := STEP.match(text, at):
        at = step.end()
        if step[0] == "[":
            at = end_of(text, at) + 1
    return at
