"""A group that is played by hand: items, and lines that are asked of it with names of variables."""

from playing.playing import Playing
from playing_by_hand.told import Told
from sessions.points import ignored
from sessions.reading import Answer, Reading


class Played(Playing, Reading):
    def __init__(self, group, player, names):
        Playing.__init__(self, group, player, Told)
        Reading.__init__(self)
        self.names = names

    def ask(self, line, told=ignored):
        """Sends a line that changes nothing; `told` hears each line of the answer as it comes."""
        sent, lines = self.names.line(line), []
        for each in self.player.ask(sent):
            lines.append(each)
            told(each)
        return Answer(sent, lines, len(lines) == 1 and lines[0].startswith("? "))

    def ask_each(self, lines):
        """The answers to lines that have one each."""
        return self.player.ask_each(lines)

    def read(self, lines):
        """The answers to lines that read memory."""
        return self.ask_each(lines)

    def take(self, line, answer):
        """An item that was accepted, and its answer."""
        self.known.take(line, answer)
        self.forget()

    def see_ends(self):
        """How the processes are now."""
        self.known.tell_ends(self.player.answers(["processes"])[0])
