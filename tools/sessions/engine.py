"""A group under the debugger: lines and their answers, the position, and what the logs tell of it. It answers and never prints."""

from __future__ import annotations

import bisect
import functools
import re
import time

from asking.conversation import Conversation, Paused
from logs.format import BadLog
from logs.index import Index
from sessions.frames import Frames
from sessions.names import Names, Refusal
from sessions.places import Threads
from sessions.points import Points, ignored
from sessions.reading import Answer, Reading, Walked
from sessions.verdict import Verdict

# Lines that can go on for long, and whose programs may change variables.
WALKS = ("continue", "rcontinue")
MOVES = ("goto", "step", "back", *WALKS)
AT = re.compile(r"at (\d+)(?:: |$)")
# Why a walk ended that no point stopped.
END, PAUSED = "end", "paused"
LEAST = -(2**63)
# A walk goes in parts, so that it can be paused: of so many events at first, and then of about so many seconds.
PART, GROWTH, SECONDS = 16, 4, 0.05
# A walk pauses once so many lines were said, as the debugger's own does.
MOST_SAID = 10_000


class Engine(Reading):
    def __init__(self, program, pairs, told=ignored, on_line=ignored):
        """`told` hears of processes without names, `on_line` each line that is sent for what was asked."""
        self.names, self.on_line = Names(pairs, told), on_line
        self.debugger = Conversation([program, "debug", *pairs])
        super().__init__()
        self.position, self.variables = 0, []
        # The lines that a script needs to be answered as the session was; whether those are among them that read memory.
        self.sent, self.keeps_reads = [], False
        self.points, self.threads, self.frames = Points(self), Threads(self), Frames(self)
        self.verdict = Verdict(program, pairs)

    @property
    def refusal(self):
        """What the program said in place of a position: a file is refused, and there is no session."""
        return None if self.debugger.first == "at 0" else self.debugger.first

    # Lines

    def ask(self, line, told=ignored):
        """Sends a line, with addresses in place of names; `told` hears each line of the answer as it comes."""
        sent = self.names.line(line)
        verb = sent.split(" ", 1)[0]
        self.on_line(sent)
        if verb in WALKS:
            self.variables = list(self.debugger.ask("vars"))
        answers, lines = [], self.debugger.ask(sent)
        for answer in self.points.in_words(lines) if verb in WALKS else lines:
            answers.append(answer)
            told(answer)
        if len(answers) == 1 and answers[0].startswith("? "):
            return Answer(sent, answers, True)
        self.sent.append(sent)
        found = AT.match(answers[-1]) if verb in MOVES and answers else None
        if found:
            self.move(int(found[1]))
        return Answer(sent, answers)

    def move(self, position):
        self.position = position
        self.forget()

    def ask_each(self, lines):
        """The answers to lines that have one each, which no line of the session says."""
        return self.debugger.ask_each(lines)

    def read(self, lines):
        """The answers to lines that read memory."""
        if self.keeps_reads:
            self.sent += lines
            for line in lines:
                self.on_line(line)
        return self.ask_each(lines)

    def back(self, told=ignored, is_paused=None):
        """Back to where a point fired last that may stop there. If that is paused it is given up, with None as the answer."""
        self.debugger.is_paused = is_paused
        try:
            return self.ask("rcontinue", told)
        except Paused:
            self.debugger.is_paused = None
            self.give_up()
            return None
        finally:
            self.debugger.is_paused = None

    def give_up(self):
        """Leaves a walk, by a new program that is brought to where the session was."""
        self.debugger.restart()
        for line in self.variables:
            self.accepted(setting(line))
        self.points.restore()
        self.accepted("goto %d" % self.position)

    def close(self):
        """Ends the program, whatever it is at."""
        self.debugger.stop()

    # Positions

    @functools.cached_property
    def index(self):
        try:
            return Index(self.names.paths, self.verdict.accepted)
        except BadLog as error:
            raise Refusal(str(error)) from None

    def warnings(self):
        """What is wrong with the logs, to be told before anything else."""
        return self.verdict.lines(lambda: self.index)

    @property
    def last(self):
        return len(self.index)

    @property
    def event(self):
        """The event of the position, or None at 0."""
        return self.event_at(self.position)

    def event_at(self, position):
        return self.index.event(position) if 0 < position <= self.last else None

    def line_at(self, position):
        """The event that led to a position, as the debugger lists it."""
        event = self.index.event(position)
        return "%d: %s" % (position, event.entry.text(event.log.name))

    @property
    def current(self):
        """The process of the last event."""
        return self.index.thread_at(self.position)[0] if self.position else self.names.nodes[0]

    def at_or_before(self, positions):
        """The last of these positions that is not after the present one, or 0."""
        at = bisect.bisect_right(positions, self.position)
        return positions[at - 1] if at else 0

    def before(self, positions):
        at = bisect.bisect_left(positions, self.position)
        return positions[at - 1] if at else 0

    def after(self, positions):
        """The first of these positions after the present one, or the last of all."""
        at = bisect.bisect_right(positions, self.position)
        return positions[at] if at < len(positions) else self.last

    # Walks

    def walk(self, target, is_paused=lambda: False, told=ignored, on_part=ignored):
        """Goes on to a position at most, in parts, so that it can be paused. The answer is as if one `continue` had gone there, or to
        where it was paused. `told` hears each line of it as it comes, and `on_part` the positions on the way."""
        start, part, sent, said, how, last = self.position, PART, [], [], PAUSED, self.here
        line = "continue" if target >= self.last else "continue %d" % (target - start)

        def hear(answer):
            said.append(answer)
            told(answer)

        self.on_line(line)
        while not is_paused():
            begun, count = time.monotonic(), max(1, min(part, target - self.position))
            sent.append("continue %d" % count)
            how, last = self.part(count, hear)
            if how != PAUSED or self.position >= target or len(said) >= MOST_SAID:
                break
            on_part(self.position)
            part = max(1, min(GROWTH * part, int(part * SECONDS / max(time.monotonic() - begun, 0.001))))
        if is_cut := how == PAUSED and self.position < target:
            line = "continue %d" % (self.position - start)
        # Where points said so much, one line would have paused before.
        self.sent += [line] if sent and len(said) < MOST_SAID else sent
        ends = [how, last] if how == END or is_cut else [last]
        for answer in ends:
            told(answer)
        return Walked(line, said + ends, False, said, how)

    def part(self, count, hear):
        """Goes on so many positions at most: why it ended, and the line that tells where."""
        start, waiting, heard = self.position, [], 0
        self.variables = list(self.debugger.ask("vars"))
        for answer in self.points.in_words(self.debugger.ask("continue %d" % count)):
            waiting.append(answer)
            if len(waiting) > 2:
                hear(waiting.pop(0))
                heard += 1
        last = waiting.pop()
        self.move(int(AT.match(last)[1]))
        # A program may say these words as well.
        is_end = waiting == [END] and self.position == self.last
        is_pause = waiting == [PAUSED] and (self.position == start + count or heard >= MOST_SAID)
        if is_end or is_pause:
            return waiting[0], last
        for answer in waiting:
            hear(answer)
        return "", last

    @property
    def here(self):
        """The line of the position."""
        return "at " + self.line_at(self.position) if self.position else "at 0"


def setting(line):
    """The line that sets a variable to the value that `vars` shows."""
    name, value = line.split()
    if value == "undef":
        value = "1/0"
    elif int(value) == LEAST:
        value = "%d-1" % (LEAST + 1)
    return "set %s %s" % (name, value)
