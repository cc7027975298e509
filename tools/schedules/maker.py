"""Makes a schedule round by round: what comes from outside, and then the tries of the threads.

`friday play` does each round, and tells what was sent and which tries made an event.
"""

import copy

from playing.playing import Playing
from schedules.chance import Chance
from schedules.network import Network
from schedules.priorities import Priorities
from schedules.uniform import Uniform, run_line

# As many as the items of a schedule may make.
MOST_TRIES = 1_000_000


class Process:
    """A process with its wall time, until when it stands still, what it got of random bytes, and whether it was killed."""

    def __init__(self, number):
        self.number = number
        self.wall_time, self.stalled_until = 0, 0
        self.random_bytes, self.killed = 0, False


class Maker:
    def __init__(self, settings, playing):
        self.settings, self.playing, self.group, self.known = settings, playing, playing.group, playing.known
        self.chance = Chance(settings.seed)
        self.order = Uniform(settings, self.chance) if settings.changes is None else Priorities(settings, self.chance)
        self.processes = [Process(number) for number in range(len(self.group.processes))]
        self.network = Network(settings, self.chance, self.group.names, playing.bytes_of)
        self.items, self.acted, self.idle = [], 0, 0
        # How many rounds there are so far, and why there is no further one while processes run.
        self.turn, self.why = 0, ""
        # Whether the last round did and said nothing, and whether a thread waits for a wall time, or None if that is not known.
        self.was_quiet, self.sleeping = False, None

    def make(self):
        """Makes rounds until no process runs, until nothing can happen any more, or until a bound is reached."""
        while self.running() and not self.why:
            self.turn += 1
            self.play()
            if self.is_over():
                self.why = "nothing can happen any more"
            elif self.turn == self.settings.rounds and self.running():
                self.why = "these were all rounds (--rounds N for more)"
            elif self.playing.tries + self.most_tries() > MOST_TRIES:
                self.why = "a schedule may have no more tries than %d" % MOST_TRIES

    def running(self):
        return [process for process in self.processes if self.known.processes[process.number].end == "running"]

    def play(self):
        """One round: what comes from outside, then the tries of the threads; what did nothing is left out."""
        running = self.running()
        outside = self.arrivals(running)
        for process in running:
            outside += self.from_outside(process)
        clocks = {process.number: self.clock(process) for process in running if self.asks_for_time(process)}
        tries = [run for process in running for run in self.tries(process)]
        given = [line for line in outside if not line.startswith("#")]
        counts, runs = self.order.play(self.playing, [*given, *clocks.values()], tries)
        busy = {process for process, _, _ in runs}
        told = [line for number, line in clocks.items() if number in busy]
        kept = outside + told + [run_line(*run) for run in runs]
        self.acted += sum(acted for acted, _ in counts[: len(given)]) + len(told) + sum(count for _, _, count in runs)
        self.idle += sum(idle for _, idle in counts[: len(given)])
        self.was_quiet = not kept
        if runs:
            self.sleeping = None
        if kept:
            self.items += ["", "# round %d" % self.turn] + kept

    def arrivals(self, running):
        """What comes to the processes that run, of the datagrams that were sent since the last round and of older ones."""
        datagrams = sorted(self.known.new_datagrams, key=lambda datagram: (datagram.clock, datagram.sender))
        self.known.new_datagrams = []
        return self.network.arrivals(self.turn, datagrams, {process.number for process in running})

    def from_outside(self, process):
        """The datagrams from outside, random bytes, signals and death of a process in one round."""
        settings, lines = self.settings, []
        if self.chance.happens(settings.inject):
            data = self.chance.bytes(self.chance.up_to(settings.injected_bytes))
            lines.append("inject %d %s" % (process.number, data.hex()))
        for signal, rate in settings.signals:
            if self.chance.happens(rate):
                lines.append("signal %d %d" % (process.number, signal))
        missing = self.known.processes[process.number].random_taken + settings.random_bytes - process.random_bytes
        if missing > 0 and self.group.imports(process.number, "random"):
            process.random_bytes += missing
            lines.append("random %d %s" % (process.number, self.chance.bytes(missing).hex()))
        if self.chance.happens(settings.kill) and sum(other.killed for other in self.processes) < settings.kills:
            process.killed = True
            lines.append("kill %d" % process.number)
        return lines

    def asks_for_time(self, process):
        return any(self.group.imports(process.number, call) for call in ("now", "sleep_until"))

    def clock(self, process):
        """The wall time of a process in this round."""
        process.wall_time += self.settings.tick
        if self.chance.happens(self.settings.clock_step):
            leap = self.chance.up_to(self.settings.leap)
            process.wall_time += leap if self.chance.happens(0.5) else -leap
        return "clock %d %d" % (process.number, process.wall_time)

    def tries(self, process):
        """How often each thread of a process is tried, unless the process stands still."""
        stalls = self.chance.happens(self.settings.stall)
        length = self.chance.up_to(self.settings.stall_rounds)
        if stalls and process.stalled_until <= self.turn:
            process.stalled_until = self.turn + length
        if self.turn < process.stalled_until:
            return []
        return [(process.number, thread, self.order.most()) for thread in self.known.processes[process.number].threads]

    def most_tries(self):
        """More than the items of one round can try."""
        threads = sum(len(process.threads) for process in self.known.processes)
        return 2 * threads * max(self.settings.events, self.order.most_in_round) + 8 * len(self.processes) + len(self.network.due)

    def is_over(self):
        """Whether no further round could do anything, or say anything."""
        settings = self.settings
        drawn = (settings.partition, settings.inject, settings.kill, *(rate for _, rate in settings.signals))
        if not self.was_quiet or any(drawn) or self.network.due or any(self.turn < process.stalled_until for process in self.running()):
            return False
        if self.sleeping is None:
            self.sleeping = self.sleeps()
        return not self.sleeping or not (settings.tick or settings.clock_step)

    def sleeps(self):
        """Whether a thread waits for a wall time."""
        return any(stands[0] == "sleep_until" for process in self.running() for stands in self.playing.threads(process.number).values())

    def summary(self):
        lines = ["%s: %d events, %s" % (process.name, process.events, process.end) for process in self.known.processes]
        return lines + ["items: %d acted, %d idle" % (self.acted, self.idle)]

    def text(self):
        head = ["# " + self.settings.words, *self.group.lines]
        return "\n".join(head + self.items) + "\n"


def length_of(settings, group, player):
    """Over how many events priorities change: as many as are made from seed 0 without a change. The player begins again."""
    plain = copy.copy(settings)
    plain.seed, plain.changes = 0, 0
    maker = Maker(plain, Playing(group, player))
    maker.make()
    player.again()
    return max(1, maker.known.events)
