"""Threads by priorities that are drawn: the highest one that can go on does.

This is probabilistic concurrency testing (Burckhardt and others, ASPLOS 2010). Of n threads that make k events, a fault that
needs D of them in one order is found with a chance of at least 1 / (n * k^(D-1)), since D-1 moments are drawn at which the thread
that goes on loses its priority.
"""

from schedules.uniform import run_line

# A thread that never waits lets others go on after so many events of a round.
MOST_IN_ROUND = 100


class Priorities:
    def __init__(self, settings, chance):
        self.chance, self.most_in_round = chance, MOST_IN_ROUND
        # The number of the event at which a thread loses its priority, and what it gets then: each is below all that are drawn.
        self.changes = {chance.up_to(settings.length): number - settings.changes for number in range(settings.changes)}
        self.priorities, self.events = {}, 0

    def most(self):
        return self.most_in_round

    def priority(self, thread):
        if thread not in self.priorities:
            self.priorities[thread] = self.chance.draw()
        return self.priorities[thread]

    def play(self, playing, lines, tries):
        """Plays a round: these lines, and then tries, each a process, a thread and a most. What the lines did, and the tries that acted."""
        counts, turn = playing.items(lines), Round(tries)
        ready = turn.ready()
        while ready:
            thread = max(ready, key=self.priority)
            [(acted, _)] = playing.items([run_line(*thread, 1)])
            if acted:
                turn.went_on(thread, playing.known)
                self.count_event(thread)
            else:
                turn.waits(thread)
            ready = turn.ready()
        playing.items([], with_ends=True)
        return counts, turn.runs

    def count_event(self, thread):
        """The thread has made an event, with which it may lose its priority."""
        self.events += 1
        if self.events in self.changes:
            self.priorities[thread] = self.changes[self.events]


class Round:
    """The threads of a round, each a process and a number."""

    def __init__(self, tries):
        # How many events each may still make; the tries that acted, each with a count.
        self.left, self.runs = {(process, thread): most for process, thread, most in tries}, []
        # The threads whose call was not answered, and those that have made an event since then.
        self.waiting, self.moved = set(), set()

    def ready(self):
        return [thread for thread, left in self.left.items() if left and thread not in self.waiting]

    def went_on(self, thread, known):
        self.moved.add(thread)
        self.left[thread] -= 1
        count = self.runs.pop()[2] + 1 if self.runs and self.runs[-1][:2] == thread else 1
        self.runs.append((*thread, count))
        for made in known.processes[thread[0]].threads:
            self.left.setdefault((thread[0], made), MOST_IN_ROUND)
        if known.last_call == "unlock":
            self.wake_others(thread)

    def waits(self, thread):
        self.waiting.add(thread)
        if thread in self.moved:
            # It may have ended with its last event.
            self.moved.discard(thread)
            self.wake_others(thread)

    def wake_others(self, thread):
        """Others of its process may wait for a lock that it gave back, or for its end."""
        self.waiting -= {other for other in self.waiting if other[0] == thread[0] and other != thread}
