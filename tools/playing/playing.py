"""A group that is played, and what is known of it."""

from playing.known import Known
from playing.player import counts_of


class Playing:
    def __init__(self, group, player, known=Known):
        self.group, self.player = group, player
        self.known, self.tries = known(group.names), 0

    def items(self, lines, with_ends=False):
        """Plays items, and gives of each how many tries acted and were idle. With `with_ends` the processes' ends are known then."""
        answers = self.player.answers([*lines, "processes"] if with_ends else lines)
        for line, answer in zip(lines, answers):
            self.known.take(line, answer)
        if with_ends:
            self.known.tell_ends(answers[-1])
        counts = [counts_of(answer) for answer in answers[: len(lines)]]
        self.tries += sum(map(sum, counts))
        return counts

    def bytes_of(self, datagram):
        """Tag and payload of a datagram."""
        [told] = self.player.ask_each(["datagram %d %d" % (datagram.sender, datagram.number)])
        return bytes.fromhex(told.split(" ")[1])

    def threads(self, number):
        """For each thread of a process that runs how it stands: the call with its arguments, or `ended`."""
        name = self.known.processes[number].name
        first, *lines = self.player.ask("threads " + name)
        if first != name + " running":
            return {}
        stands = [line.split(" ") for line in lines]
        return {int(words[0]): words[2:] if words[1] == "at" else words[1:] for words in stands}

    def pages(self, name):
        """How many pages of memory a process has."""
        return int(self.player.ask_each(["print @%s.size" % name])[0])
