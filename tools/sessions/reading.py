"""What is asked of a group as it stands, in a recording or while it is played: lines, and values of variables and expressions."""

from __future__ import annotations

from dataclasses import dataclass

from sessions.arithmetic import evaluate, has_own
from sessions.names import Refusal
from sessions.values import Memory, value_at


@dataclass(frozen=True)
class Answer:
    """What the debugger answered to the line that it was sent."""

    sent: str
    lines: list
    is_refused: bool = False


@dataclass(frozen=True)
class Walked(Answer):
    """The answer of a walk: what points said on the way, and why it ended, which is nothing where a point stopped it."""

    said: list = ()
    how: str = ""


class LineRefused(Refusal):
    """The debugger refused a line."""

    def __init__(self, answer):
        super().__init__(answer.lines[0][2:])
        self.answer = answer


class Reading:
    """Whoever inherits this has `names`, and asks the program by `ask`, `ask_each` and `read`."""

    def __init__(self):
        self.memories = {}

    def forget(self):
        """What was read is of another moment."""
        self.memories = {}

    def accepted(self, line):
        """The answer to a line that has to be accepted."""
        answer = self.ask(line)
        if answer.is_refused:
            raise LineRefused(answer)
        return answer

    def memory(self, node):
        return self.memories.setdefault(node, Memory(self, node))

    def number(self, expression):
        """The number that an expression is here, or None."""
        answer = self.ask_each(["print " + expression])[0]
        return None if answer == "undef" or answer.startswith("?") else int(answer)

    def number_of(self, text, node):
        """The number of what was typed, with names of a process and C's operators on bits, or None."""
        text = self.names.qualified(text, node)
        return evaluate(text, self.known) if has_own(text) else self.known(text)

    def known(self, text):
        """The number of an expression that the debugger knows."""
        answer = self.accepted("print " + text).lines[0]
        return None if answer == "undef" else int(answer)

    def value(self, text):
        """The value of a text that is nothing but a variable's path, or None."""
        place = self.names.place(text)
        return value_at(self, place) if place else None
