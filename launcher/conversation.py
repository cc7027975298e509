"""Stands between a call of the debugger and its lines where a person types them or a file has them, and says on standard error
why a line was refused. What the program prints passes through as it is.

conversation.py PROGRAM WORD ..   (the words of the call)

Which line an answer is of is known without looking at it. The program answers each whole line before it reads on. So once it
takes an empty line, which has no answer, all that it printed by then is of the lines before.
"""
from __future__ import annotations

import contextlib
import fcntl
import os
import re
import select
import signal
import subprocess
import sys

from again import Again
from parents import end_by_signals, end_with_parent
from saying import say
from shell_lines import MOST_LINE, MOST_OPEN, MOST_TOKENS, TOKEN, nodes_in, why_syntax
from words import names_of

PIECE, BEGIN = 65536, b"at 0\n"
# Of this fcntl Python 3.8 has no name. A pipe of one page can be written once it is empty.
F_SETPIPE_SZ, PAGE = 1031, 4096
REFUSAL = re.compile(rb"\? (\d+) [a-z ]+(?: at column (\d+))?\n")
# So many refused lines are explained.
MOST_EXPLAINED = 100
# The lines of a longer file go to the program as they are: with an empty one after each they might be more than it takes.
MOST_FILE = 1 << 20


class Broken(Exception):
    """Standard output takes no more."""


class Conversation:
    def __init__(self, program, words):
        self.again = Again(program, words)
        pipes = {"stdin": subprocess.PIPE, "stdout": subprocess.PIPE, "bufsize": 0, "preexec_fn": end_with_parent}
        self.run = subprocess.Popen([program, *words], **pipes)
        self.to, self.answers = self.run.stdin.fileno(), self.run.stdout.fileno()
        with contextlib.suppress(OSError):
            fcntl.fcntl(self.to, F_SETPIPE_SZ, PAGE)
        os.set_blocking(self.to, False)
        os.set_blocking(self.answers, False)
        self.held, self.said, self.explained, self.points, self.count, self.is_first = b"", b"", 0, [], None, True

    def status(self):
        """Passes all lines on, and gives the status of the call."""
        ended = 0
        try:
            number = 0
            for number, line in enumerate(self.lines(), 1):
                if not self.pass_on(line) or not self.pass_on(b"\n"):
                    break
                self.told(number, line)
            self.run.stdin.close()
            # The last line may have no end, and is answered at the end of the input.
            while self.wait([self.answers], []):
                pass
            self.told(number + 1, self.held)
        except Broken:
            self.run.stdout.close()
            self.run.stdin.close()
            ended = 6
        status = self.run.wait()
        return ended or (status if status >= 0 else 128 - status)

    def lines(self):
        """The whole lines of standard input, as they come; what follows the last one is passed on without being answered now."""
        while True:
            at = self.held.find(b"\n")
            if at >= 0:
                line, self.held = self.held[: at + 1], self.held[at + 1 :]
                yield line
                continue
            ready = self.wait([0, self.answers], [])
            if ready is None:
                return
            if 0 in ready:
                piece = read_input()
                if not piece:
                    self.pass_on(self.held)
                    return
                self.held += piece

    def pass_on(self, data):
        """Whether the program has taken all of the data; it passes on meanwhile what is answered."""
        while True:
            ready = self.wait([self.answers], [self.to])
            if ready is None:
                return False
            if self.to in ready:
                if not data:
                    self.wait([self.answers], [], 0)
                    return True
                try:
                    data = data[os.write(self.to, data[:PAGE]) :]
                except OSError:
                    return False

    def wait(self, readable, writable, seconds=None):
        """Passes answers on, and gives what else is ready; None once the program has ended its output."""
        poll = select.poll()
        for place in readable:
            poll.register(place, select.POLLIN)
        for place in writable:
            poll.register(place, select.POLLOUT)
        ready = [place for place, _ in poll.poll(None if seconds is None else seconds * 1000)]
        if self.answers not in ready:
            return ready
        while True:
            try:
                piece = os.read(self.answers, PIECE)
            except BlockingIOError:
                return ready
            if not piece:
                return None
            self.said += piece
            self.print(piece)

    def print(self, data):
        try:
            while data:
                data = data[os.write(1, data) :]
        except OSError:
            raise Broken from None

    # ---- what is said of a line

    def told(self, number, line):
        """Notes what a line was answered, and says why where it was refused."""
        said, self.said = self.said, b""
        # What the session begins with may come with the answer of the first line.
        said = said[len(BEGIN) :] if self.is_first and said.startswith(BEGIN) else said
        self.is_first = False
        point = re.fullmatch(rb"(point|deleted) (\d+)\n", said)
        if point:
            self.points = [number for number in self.points if number != int(point[2])] + [int(point[2])] * (point[1] == b"point")
        found = REFUSAL.fullmatch(said)
        if not found or self.explained >= MOST_EXPLAINED:
            return
        self.explained += 1
        text = line.rstrip(b"\n").decode("latin-1")
        text = text[:-1] if text.endswith("\r") else text
        column = int(found[2] or 0)
        why = self.why(int(found[1]), text, column)
        shown = "".join(sign if " " <= sign <= "~" else " " if sign == "\t" else "?" for sign in text)
        if column and len(shown) <= 200:
            say("line %d: %s" % (number, shown))
            say("%s^ %s" % (" " * (len("line %d: " % number) + column - 1), why or "this is none of the lines that there are"))
        elif why:
            say("line %d: %s" % (number, why))

    def why(self, reason, line, column):
        if reason == 1:
            return why_syntax(line, column)
        texts = {
            2: self.no_node, 3: too_deep, 4: nested, 5: variable, 6: self.no_point, 7: self.no_position, 8: too_long, 9: too_many,
            13: no_thread,
        }
        return texts[reason](line) if reason in texts else None

    def no_node(self, line):
        names = names_of(self.again.words)
        unknown = [word for word in nodes_in(line) if word not in names]
        if unknown and unknown[0] == "_":
            return "@_ stands within sum(..), min(..), max(..) or count(..), which go over all processes: %s" % ", ".join(names)
        if not unknown and re.search(r"@[ \t]*!", line):
            return "@! is the process whose event it is, and stands in the condition of a point and in a program of `do`"
        return "there is no process %s: those whose logs are given are %s" % (unknown[0] if unknown else "of that name", ", ".join(names))

    def no_point(self, line):
        held = ", ".join(map(str, self.points)) if self.points else "none"
        return "no point of this number is held; held are %s. `list` shows them" % held

    def no_position(self, line):
        if self.count is None:
            self.count = sum(told.events for told in self.again.report()) if self.again.can_be_asked() else 0
        return "the last position is %s, since there are so many events" % (self.count or "before that")


def read_input():
    """What standard input has, or nothing at its end, also where the terminal is gone."""
    try:
        return os.read(0, PIECE)
    except OSError:
        return b""


def too_deep(line):
    tokens = TOKEN.findall(line)
    if len(tokens) > MOST_TOKENS:
        return "a line has at most %d words, numbers and signs, and this one has %d" % (MOST_TOKENS, len(tokens))
    return "at most %d brackets can be open at once" % MOST_OPEN


def nested(line):
    return "sum, min, max and count do not stand within each other: keep the inner value by `set $NAME ..`, and use $NAME"


def variable(line):
    return "an expression that is watched and a condition have no variables, since they change at any time: compare in `do W if .. { stop }`"


def no_thread(line):
    node, thread = line.split()[1:3]
    return "%s has not made a thread %s by this position: `threads %s` shows those that it has made" % (node, thread, node)


def too_long(line):
    return "a line has at most %d bytes, and this one has %d" % (MOST_LINE, len(line))


def too_many(line):
    if line.split()[:1] in (["watch"], ["break"]):
        return "64 points are held, and no more can be: `delete W` drops one"
    return "there would be more than 256 variables: use one again"


def main():
    end_with_parent(signal.SIGTERM)
    if os.fstat(0).st_size > MOST_FILE:
        os.execv(sys.argv[1], sys.argv[1:])
    end_by_signals()
    call = Conversation(sys.argv[1], sys.argv[2:])
    try:
        return call.status()
    finally:
        if call.run.poll() is None:
            call.run.terminate()
            call.run.wait()


if __name__ == "__main__":
    sys.exit(main())
