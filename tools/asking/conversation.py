"""A command of the program that answers lines, behind pipes: a line goes to it, and the lines of its answer come back."""

import random
import select
import subprocess

# So many bytes are written before their answers are read: more might fill both pipes.
MOST_AT_ONCE = 32768
# So often, in seconds, it is looked at whether an answer is still waited for.
PAUSE = 0.05


class Ended(Exception):
    """The program has ended; its status is told."""


class Paused(Exception):
    """An answer is no longer waited for."""


class Conversation:
    def __init__(self, words):
        self.words = words
        # Asked while an answer has not begun: whether it is no longer waited for.
        self.is_paused = None
        self.first = self.begin()

    def begin(self):
        """Starts the program, and returns what it says first."""
        # In a session of its own, the terminal's Ctrl-C does not come to it.
        pipes = {"stdin": subprocess.PIPE, "stdout": subprocess.PIPE, "start_new_session": True}
        self.program = subprocess.Popen(self.words, **pipes)
        return self.program.stdout.readline().decode("latin-1").rstrip("\n")

    def write(self, lines):
        try:
            self.program.stdin.write("".join(line + "\n" for line in lines).encode("latin-1", "replace"))
            self.program.stdin.flush()
        except OSError:
            raise self.ended() from None

    def line(self):
        """The next line of an answer."""
        answer = self.program.stdout.readline()
        if not answer:
            raise self.ended()
        return answer.decode("latin-1").rstrip("\n")

    def ask(self, line):
        """The lines of the answer, as they come. The answer of a last line, a number drawn for it, tells where they end."""
        mark = str(random.getrandbits(62))
        self.write([line, "print " + mark])
        while self.is_paused and not select.select([self.program.stdout], [], [], PAUSE)[0]:
            if self.is_paused():
                raise Paused
        yield from iter(self.line, mark)

    def ask_all(self, lines):
        """The lines of each answer to a few lines, which are written at once."""
        mark = str(random.getrandbits(62))
        self.write([each for line in lines for each in (line, "print " + mark)])
        return [list(iter(self.line, mark)) for _ in lines]

    def ask_each(self, lines):
        """The answers of lines that have one line for an answer."""
        answers = []
        for part in in_parts(lines):
            self.write(part)
            answers += [self.line() for _ in part]
        return answers

    def ended(self):
        """What is raised where the program has ended by itself."""
        return Ended(self.end())

    def restart(self):
        """Ends what the program is at, and begins again."""
        self.stop()
        self.first = self.begin()

    def stop(self):
        self.program.kill()
        self.end()

    def end(self):
        """Ends the conversation, and returns the program's status. What it still says is not read."""
        self.program.stdout.close()
        try:
            self.program.stdin.close()
        except OSError:
            pass
        return self.program.wait()


def in_parts(lines):
    """The lines in parts of so many bytes that they may be written at once."""
    part, size = [], 0
    for line in lines:
        if part and size + len(line) >= MOST_AT_ONCE:
            yield part
            part, size = [], 0
        part.append(line)
        size += len(line) + 1
    if part:
        yield part
