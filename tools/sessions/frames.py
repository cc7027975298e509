"""The frames of a thread: the functions that it has called and not left, the innermost first."""

from __future__ import annotations

import re
from dataclasses import dataclass

from function_names import in_a_line
from place_table import CallPlace, FunctionPlace
from sessions.names import Refusal
from sessions.places import line_of

TOLD = re.compile(r"\d+: (\d+(?: \d+)*)(?: and (\d+) more)?")
# The frames of so many events of a thread are asked for at once, and of each further part so many times as many.
PART, GROWTH, MOST = 64, 2, 4096


@dataclass(frozen=True)
class Frame:
    """A function by its number and, where NAME.places tells it, its name and its lines; of the innermost one the call at which it waits,
    where the guest keeps that."""

    number: int
    function: FunctionPlace = None
    call: CallPlace = None

    @property
    def name(self):
        return self.function.name if self.function else "function %d" % self.number

    @property
    def place(self):
        """The file and the line at which it stands, as far as that is known: those of its call or its first one; or None."""
        if self.call:
            return self.call.file, self.call.line
        return (self.function.file, self.function.first) if self.function and self.function.file else None

    @property
    def words(self):
        if self.call:
            within = "" if self.call.function == self.name else " in " + self.call.function
            return "%s, %s%s" % (self.name, line_of(self.call), within)
        return self.function.words if self.function else self.name


@dataclass(frozen=True)
class Stack:
    """The frames of a thread, and how many there are above the outermost of these."""

    frames: list
    more: int = 0

    def __len__(self):
        return len(self.frames) + self.more

    def number_at(self, depth):
        """The number of the function so many frames away from the outermost one, or None where that is not told."""
        at = len(self) - 1 - depth
        return self.frames[at].number if 0 <= at < len(self.frames) else None

    def has(self, other, at):
        """Whether a frame of another stack of the thread is in this one too, as far as can be told: with all those around it."""
        depth = len(other) - 1 - at
        pairs = ((self.number_at(place), other.number_at(place)) for place in range(max(0, depth - len(other.frames)), depth + 1))
        return len(self) > depth and all(one == two or None in (one, two) for one, two in pairs)

    def chain(self):
        """All frames in one line; where the function with the call was put into another one, that comes next."""
        first, names = self.frames[0], [frame.name for frame in self.frames]
        words = "%s, %s" % (first.call.function, line_of(first.call)) if first.call else first.words
        outside = names if first.call and first.call.function != first.name else names[1:]
        return in_a_line(words, outside, self.more)


EMPTY = Stack([])


class Frames:
    """The frames of threads at the position."""

    def __init__(self, engine):
        self.engine, self.at, self.stacks = engine, None, {}

    def of(self, node, thread):
        """The stack of a thread, empty where it has ended."""
        if self.at != self.engine.position:
            self.at, self.stacks = self.engine.position, {}
        if (node, thread) not in self.stacks:
            answer = self.engine.ask_each(["frames %s %d" % (node, thread)])[0]
            if answer.startswith("?"):
                raise Refusal("%s has no thread %d" % (node, thread))
            self.stacks[node, thread] = self.read(node, answer, self.engine.threads.call_of(node, thread))
        return self.stacks[node, thread]

    def read(self, node, answer, call=None):
        """The stack that an answer of the debugger tells."""
        found = TOLD.fullmatch(answer)
        if not found:
            return EMPTY
        functions = self.engine.names.functions(node)
        frames = [Frame(number, functions.get(number)) for number in map(int, found[1].split())]
        return Stack([Frame(frames[0].number, frames[0].function, call), *frames[1:]], int(found[2] or 0))

    # Where a frame is left, and where it was entered

    def left_at(self, node, thread, at):
        """The position of the first event of a thread from here on after which it is no longer in a frame, or None."""
        stack, later = self.of(node, thread), [place for place in self.places(node, thread) if place > self.engine.position]
        for part in in_parts(later):
            found = self.without(node, thread, stack, at, part)
            if found:
                return found[0]
        return None

    def entered_at(self, node, thread, at):
        """The position of the last event of a thread before here after which it is not yet in a frame, or None."""
        stack, before = self.of(node, thread), [place for place in self.places(node, thread) if place < self.engine.position]
        for part in in_parts(before[::-1]):
            found = self.without(node, thread, stack, at, part[::-1])
            if found:
                return found[-1]
        return None

    def places(self, node, thread):
        return self.engine.index.of_thread(node, thread)

    def without(self, node, thread, stack, at, positions):
        """Those of some ascending positions at which the thread is not in a frame of this stack."""
        lines = [line for position in positions for line in ("goto %d" % position, "frames %s %d" % (node, thread))]
        answers = self.engine.ask_each([*lines, "goto %d" % self.engine.position])[1:-1:2]
        # Most of them are alike.
        has = {answer: self.read(node, answer).has(stack, at) for answer in set(answers)}
        return [position for position, answer in zip(positions, answers) if not has[answer]]


def in_parts(positions):
    start, size = 0, PART
    while start < len(positions):
        yield positions[start : start + size]
        start, size = start + size, min(GROWTH * size, MOST)
