"""A group that is played with an eye on expressions that must never hold."""

from hunting.wanted import Hit
from playing.player import counts_of
from playing.playing import Playing
from schedules.uniform import run_line


class Watching(Playing):
    """Asks the expressions after each event; `hit` is the first of them that held, and where."""

    def __init__(self, group, player, never):
        super().__init__(group, player)
        self.never, self.hit = never, None
        self.asked = ["print " + expression for _, expression in never]

    def items(self, lines, with_ends=False):
        if self.hit:
            return super().items(lines, with_ends)
        parts = [tries_of(line) for line in lines]
        asked = [each for tries in parts for line in tries for each in (line, *self.asked_after(line))]
        answers = iter(self.player.answers([*asked, "processes"] if with_ends else asked))
        counts = [self.take(tries, answers) for tries in parts]
        if with_ends:
            self.known.tell_ends(next(answers))
        self.tries += sum(map(sum, counts))
        return counts

    def asked_after(self, line):
        return self.asked if line.startswith("run ") else ()

    def take(self, tries, answers):
        """The answers to these tries and to what is asked after each; how many acted and were idle."""
        acted, idle = 0, 0
        for line in tries:
            answer = next(answers)
            self.known.take(line, answer)
            here = counts_of(answer)
            acted, idle = acted + here[0], idle + here[1]
            values = [next(answers)[0] for _ in self.asked_after(line)]
            if here[0]:
                self.look(line, values)
        return acted, idle

    def look(self, line, values):
        """Whether an expression is a number other than 0 after an event."""
        for (text, expression), value in zip(self.never, values):
            if value not in ("0", "undef") and not self.hit:
                number = int(line.split(" ")[1])
                process = self.known.processes[number]
                why = "%s is %s after event %d of %s" % (text, value, process.events, process.name)
                self.hit = Hit(why, number, process.events, expression)


def tries_of(line):
    """A line of a schedule as lines of one try each."""
    words = line.split(" ")
    if words[0] != "run" or len(words) < 4:
        return [line]
    return [run_line(words[1], words[2], 1)] * int(words[3])
