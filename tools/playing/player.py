"""One `friday play` of a schedule."""

import re

from asking.conversation import Conversation, in_parts

ITEMS = frozenset(("run", "deliver", "inject", "clock", "random", "signal", "kill"))
COUNTS = re.compile(r"(\d+) acted, (\d+) idle")
# So many bytes of a line are told if it is refused.
MOST_TOLD = 100


class PlayingFailed(Exception):
    """The program refused the schedule, a module or a line, a log is full, or it has ended."""


class Player(Conversation):
    def __init__(self, program, schedule, count):
        """`count` is how many processes the schedule has."""
        self.count = count
        super().__init__([program, "play", schedule])

    def begin(self):
        first = super().begin()
        if not first.startswith("items: "):
            failed = self.ended()
            raise PlayingFailed(first) if first else failed
        return first

    def ended(self):
        return PlayingFailed("the playing ended with status %d" % self.end())

    def answers(self, lines):
        """The answers of lines, each a list. The lines are items, lines that have one line for an answer, and `processes`."""
        answers = []
        for part in in_parts(lines):
            self.write(part)
            answers += [self.answer(line) for line in part]
        return answers

    def answer(self, line):
        """The answer of a line that has to be accepted."""
        told = [self.line()]
        word = line.split(" ", 1)[0]
        if told[0].startswith("? "):
            raise PlayingFailed("%s: %s" % (line if len(line) <= MOST_TOLD else line[:MOST_TOLD] + "..", told[0]))
        if word in ITEMS:
            while " acted, " not in told[-1]:
                if told[-1].startswith("full "):
                    raise PlayingFailed("the log of %s is full" % told[-1][5:])
                told.append(self.line())
        elif word == "processes":
            told += [self.line() for _ in range(self.count - 1)]
        return told

    def again(self):
        """Goes back to where the items of the schedule's file end."""
        return self.ask_each(["again"])[0]


def counts_of(answer):
    """How many tries of an item acted, and how many were idle."""
    found = COUNTS.fullmatch(answer[-1])
    return int(found[1]), int(found[2])
