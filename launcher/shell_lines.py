"""Why the debugger refuses a line: docs/lines.md, said of one line. A row of FORMS adds a line."""
from __future__ import annotations

import difflib
import re

MOST_LINE, MOST_TOKENS, MOST_OPEN, MOST_NUMBER = 4096, 512, 64, 2**63 - 1
CALLS = (
    "begin exit note print now sleep_until random me send recv try_recv spawn yield join lock unlock on_signal thread".split()
)
TOKEN = re.compile(r'[ \t]*([A-Za-z0-9_]+|"[ !#-~]*"|&&|\|\||[=!<>]=|[@.\[\](){},;$+\-*/%!<>])')
AGGREGATES = ("sum", "min", "max", "count")
WIDTHS = ("u8", "u16", "u32", "i8", "i16", "i32", "i64")
PLACES = (*WIDTHS, "global", "clock", "events", "size", "thread", "ended")
FIRST = "a value: a number, $NAME, @NODE.PLACE, sum(..), min(..), max(..), count(..) or (..)"
OPERATORS = (("||",), ("&&",), ("==", "!=", "<", "<=", ">", ">="), ("+", "-"), ("*", "/", "%"))

# What comes after each verb, and what of it may be left out; a number is told with its bounds.
NUMBER, NODE, NODE_OR_ALL, CALL_OR_ALL, EXPR = "number", "node", "node or *", "call or *", "expression"
CONDITION, PROGRAM, VARIABLE = "condition", "program", "variable"
FORMS = {
    "goto": ("goto K", [(NUMBER, "K", 0, MOST_NUMBER)], 1),
    "step": ("step or step N", [(NUMBER, "N", 0, MOST_NUMBER)], 0),
    "back": ("back or back N", [(NUMBER, "N", 0, MOST_NUMBER)], 0),
    "print": ("print EXPR", [(EXPR,)], 1),
    "mem": ("mem NODE ADDR LEN", [(NODE,), (NUMBER, "ADDR", 0, MOST_NUMBER), (NUMBER, "LEN", 1, 256)], 3),
    "threads": ("threads NODE", [(NODE,)], 1),
    "frames": ("frames NODE T", [(NODE,), (NUMBER, "T", 0, 63)], 2),
    "events": ("events or events N", [(NUMBER, "N", 1, 1000)], 0),
    "watch": ("watch EXPR or watch EXPR if EXPR", [(EXPR,), (CONDITION,)], 1),
    "break": ("break NODE CALL or break NODE CALL if EXPR", [(NODE_OR_ALL,), (CALL_OR_ALL,), (CONDITION,)], 2),
    "delete": ("delete W", [(NUMBER, "W", 0, MOST_NUMBER)], 1),
    "do": ("do W PROGRAM", [(NUMBER, "W", 0, MOST_NUMBER), (PROGRAM,)], 2),
    "list": ("list", [], 0),
    "set": ("set $NAME EXPR", [(VARIABLE,), (EXPR,)], 2),
    "vars": ("vars", [], 0),
    "continue": ("continue or continue N", [(NUMBER, "N", 1, MOST_NUMBER)], 0),
    "rcontinue": ("rcontinue", [], 0),
    "quit": ("quit", [], 0),
}


class Unexpected(Exception):
    """At a column something else was to come; the text says what."""

    def __init__(self, column, text):
        super().__init__(text)
        self.column, self.text = column, text


def number_in(word):
    """The number that a word writes, however large, or None."""
    if re.fullmatch(r"[0-9]+", word):
        return int(word.lstrip("0")[:30] or "0")
    return int(word[2:].lstrip("0")[:30] or "0", 16) if re.fullmatch(r"0x[0-9a-fA-F]+", word) else None


class Reader:
    """Goes through the tokens of a line, and says where and what was to come when one is another."""

    def __init__(self, line):
        self.tokens, self.end, at = [], len(line) + 1, 0
        stripped = line.rstrip(" \t")
        while at < len(stripped):
            found = TOKEN.match(line, at)
            if not found:
                column = at + 1 + len(line[at:]) - len(line[at:].lstrip(" \t"))
                raise Unexpected(column, no_token(line[column - 1 :]))
            self.tokens.append((found[1], found.start(1) + 1))
            at = found.end()
        self.at = 0

    def here(self):
        return self.tokens[self.at] if self.at < len(self.tokens) else ("", self.end)

    def word_at(self, place):
        return self.tokens[place][0] if place < len(self.tokens) else ""

    def fail(self, wanted):
        word, column = self.here()
        raise Unexpected(column, "%s was to come here%s" % (wanted, ", and not `%s`" % word if word else ", and the line ends"))

    def take(self, *words):
        """Takes one of these tokens, if it is the next."""
        word = self.here()[0]
        if word and word in words:
            self.at += 1
            return word
        return None

    def want(self, word, why):
        if not self.take(word):
            self.fail(why)

    def word(self, wanted):
        if not re.fullmatch(r"[A-Za-z0-9_]+", self.here()[0]):
            self.fail(wanted)
        self.at += 1
        return self.tokens[self.at - 1][0]

    def number(self, name, least, most):
        value = number_in(self.here()[0])
        if value is None:
            self.fail("%s, a number without a sign," % name)
        if not least <= value <= most:
            raise Unexpected(self.here()[1], "%s is %d to %d, and not %s" % (name, least, most, self.here()[0]))
        self.at += 1

    # ---- expressions

    def expression(self, level=0):
        if level == len(OPERATORS):
            return self.unary()
        self.expression(level + 1)
        # Comparisons do not chain.
        while self.take(*OPERATORS[level]):
            self.expression(level + 1)
            if level == 2:
                if self.here()[0] in OPERATORS[2]:
                    raise Unexpected(self.here()[1], "comparisons do not chain: write a < b && b < c")
                return None
        return None

    def unary(self):
        while self.take("-", "!"):
            pass
        word, column = self.here()
        if self.take("("):
            self.expression()
            self.want(")", "an operator or the `)` of the `(` before")
        elif self.take("$"):
            self.word("the name of a variable")
        elif self.take("@"):
            self.place()
        elif word in AGGREGATES:
            self.at += 1
            self.want("(", "the `(` of %s(..)" % word)
            self.expression()
            self.want(")", "an operator or the `)` of %s(..)" % word)
        elif number_in(word) is None:
            self.fail_first(word)
        elif number_in(word) > MOST_NUMBER:
            raise Unexpected(column, "a number is at most %d" % MOST_NUMBER)
        else:
            self.at += 1

    def fail_first(self, word):
        """No value begins so; a name by itself is one of the session by hand."""
        names = "; names of a guest's variables are known to tools/session, and here a process's memory is @NODE.u32[ADDR]"
        try:
            self.fail(FIRST)
        except Unexpected as found:
            raise Unexpected(found.column, found.text + (names if re.fullmatch(r"[A-Za-z_]\w*", word) else "")) from None

    def place(self):
        if not self.take("!"):
            self.word("the name of a process, or _ within sum(..), min(..), max(..) or count(..), or ! within a condition or a program,")
        self.want(".", "the `.` of @NODE.PLACE")
        place = self.here()[0]
        if place not in PLACES:
            self.fail("PLACE, which is one of %s," % ", ".join(PLACES))
        self.at += 1
        if place in (*WIDTHS, "global"):
            self.want("[", "the `[` of %s[..]" % place)
            if place == "global":
                self.number("the number of a global", 0, MOST_NUMBER)
            else:
                self.expression()
            self.want("]", "the `]` of global[..]" if place == "global" else "an operator or the `]` of %s[..]" % place)

    # ---- programs

    def program(self):
        self.statement()
        while self.take(";"):
            self.statement()

    def statement(self):
        word = self.here()[0]
        if self.take("set"):
            self.variable()
            self.expression()
        elif self.take("say"):
            self.item()
            while self.take(","):
                self.item()
        elif self.take("if"):
            self.expression()
            self.block("an operator or the `{` of if EXPR { .. }")
            if self.take("else"):
                self.block("the `{` of else { .. }")
        elif not self.take("stop"):
            self.fail("a statement: set $NAME EXPR, say ITEM, .., stop, or if EXPR { .. } else { .. },")

    def item(self):
        if self.here()[0].startswith('"'):
            self.at += 1
        elif (self.here()[0], self.word_at(self.at + 1)) == ("@", "!") and self.word_at(self.at + 2) != ".":
            self.at += 2
        else:
            self.expression()

    def block(self, wanted):
        self.want("{", wanted)
        self.program()
        self.want("}", "`;` and a statement, or the `}` of the block,")

    def variable(self):
        self.want("$", "$NAME")
        self.word("the name of a variable")

    # ---- lines

    def line(self):
        verb, column = self.here()
        if verb not in FORMS:
            near = difflib.get_close_matches(verb.lower(), FORMS, 1, 0.6)
            more = ": did you mean `%s`?" % near[0] if near else "; lines begin with %s" % ", ".join(FORMS)
            raise Unexpected(column, "no line begins with `%s`%s" % (verb, more) if verb else "a line was to come here")
        self.at = 1
        form, parts, least = FORMS[verb]
        for place, part in enumerate(parts):
            if place >= least and not self.here()[0]:
                break
            self.part(*part)
        if self.here()[0]:
            self.fail("the end of `%s`%s" % (form, " or an operator" if parts and parts[-1][0] in (EXPR, CONDITION, PROGRAM) else ""))

    def part(self, kind, *bounds):
        if kind == NUMBER:
            self.number(*bounds)
        elif kind == EXPR:
            self.expression()
        elif kind == PROGRAM:
            self.program()
        elif kind == VARIABLE:
            self.variable()
        elif kind == CONDITION:
            self.want("if", ("an operator, " if self.tokens[0][0] == "watch" else "") + "`if` and a condition, or the end of the line,")
            self.expression()
        elif kind == CALL_OR_ALL:
            if self.here()[0] not in (*CALLS, "*"):
                self.fail("* or a call, which is one of %s," % ", ".join(CALLS))
            self.at += 1
        elif not (kind == NODE_OR_ALL and self.take("*")):
            self.word("the name of a process" + (" or *" if kind == NODE_OR_ALL else ""))


def no_token(rest):
    """What a byte that begins no token was meant for, if that can be guessed."""
    if rest.startswith('"'):
        return "a string ends with `\"` on the same line, and has visible signs of ASCII and blanks alone"
    guesses = {"&": "`and` is written &&", "|": "`or` is written ||", "=": "`is equal` is written ==", "'": "a string stands between two `\"`"}
    return "`%s` begins nothing that a line can have%s" % (rest[0], ": " + guesses[rest[0]] if rest[0] in guesses else "")


def why_syntax(line, column):
    """Why a line is refused at this column, or None if by these rules it would not be."""
    try:
        Reader(line).line()
    except Unexpected as found:
        return found.text if found.column == column else None
    return None


def nodes_in(line):
    """The words of a line that stand where the name of a process does."""
    words = re.findall(r"@[ \t]*([A-Za-z0-9_]+)", line)
    first = line.split()
    return words + (first[1:2] if first[:1] in (["mem"], ["threads"], ["frames"], ["break"]) else [])
