"""Threads in an order that is drawn for each round, each with a number of tries that is drawn."""


def run_line(process, thread, count):
    return "run %s %s" % (process, thread) + (" %d" % count if count > 1 else "")


class Uniform:
    def __init__(self, settings, chance):
        self.chance, self.most_in_round = chance, settings.events

    def most(self):
        """How many events a thread may make in this round."""
        return self.chance.up_to(self.most_in_round)

    def play(self, playing, lines, tries):
        """Plays a round: these lines, and then tries, each a process, a thread and a number. What the lines did, and the
        tries that acted."""
        tries = self.chance.shuffled(tries)
        counts = playing.items([*lines, *(run_line(*each) for each in tries)], with_ends=True)
        acted = zip(tries, counts[len(lines) :])
        return counts[: len(lines)], [(process, thread, count) for (process, thread, _), (count, _) in acted if count]
