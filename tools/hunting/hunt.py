"""A hunt: the seeds in their order, with what is told and kept of each."""

import os
import signal
import sys
import time

from hunting.finding import keep
from hunting.workers import Workers
from playing.player import PlayingFailed

NOTED_EACH = 1.0
# If so many seeds could not be tried, and none could, no other one can.
MOST_FAILED = 20


class Hunt:
    def __init__(self, chosen, group, wanted, progress, words_of):
        """`progress` is None if nothing is kept. `words_of` gives the words that make the schedule of a seed."""
        self.chosen, self.group, self.wanted, self.progress, self.words_of = chosen, group, wanted, progress, words_of
        self.first, self.last = chosen.seeds
        # The lowest seed that is not settled: all below are tried, and told. How many events these have, and which count.
        self.next, self.events, self.hits = self.first, 0, {}
        if progress:
            self.next, self.events, self.hits = progress.next or self.first, progress.events, dict(progress.hits)
        # Where this call began, how many of its seeds could not be tried, and when it noted how far it is.
        self.began_at, self.began, self.failed = self.next, time.monotonic(), 0
        self.noted = self.began
        # What came of seeds that are not settled, and whether it was stopped.
        self.waiting, self.is_stopped = {}, False

    @property
    def is_found(self):
        """Whether no further seed is wanted."""
        return bool(self.hits) and not self.chosen.all

    @property
    def is_over(self):
        return self.is_found or self.last is not None and self.next > self.last

    def run(self):
        """Tries seeds until the first hit, the last seed or a Ctrl-C; the status."""
        for seed, why in sorted(self.hits.items()):
            self.show("seed %d: %s (found before)" % (seed, why))
        if not self.is_over:
            self.search()
        self.tell()
        return 0 if self.hits else 130 if self.is_stopped else 1

    def search(self):
        workers = Workers(self.chosen, self.group, self.wanted, self.next, self.last)
        before = [(each, signal.signal(each, lambda *_: self.stop(workers))) for each in (signal.SIGINT, signal.SIGTERM)]
        try:
            for tried in workers.results():
                if tried is not None:
                    self.take(tried, workers)
                self.show_progress()
        finally:
            workers.end()
            for each, old in before:
                signal.signal(each, old)
            self.note()

    def stop(self, workers):
        """Ends what was begun, and begins nothing more; ends at once if it is asked for again."""
        if self.is_stopped:
            workers.end()
        self.is_stopped = True
        workers.stop_at(-1)

    def take(self, tried, workers):
        """Keeps what came of a seed, and settles the seeds whose lower ones are settled."""
        if tried.hit and not self.chosen.all:
            workers.stop_at(tried.seed)
        self.waiting[tried.seed] = tried
        while self.next in self.waiting and not self.is_found:
            self.settle(self.waiting.pop(self.next))

    def settle(self, tried):
        """Tells of a seed, and keeps it if it counts."""
        self.next += 1
        self.events += tried.events
        if tried.failed:
            self.failed += 1
            self.show("seed %d could not be tried: %s" % (tried.seed, tried.failed))
            if self.failed == MOST_FAILED == self.next - self.began_at:
                raise PlayingFailed("none of %d seeds could be tried" % self.failed)
        if tried.hit:
            self.hits[tried.seed] = tried.hit.why
            self.show("seed %d: %s" % (tried.seed, tried.hit.why))
            self.keep(tried)

    def keep(self, tried):
        if self.progress:
            folder = os.path.join(self.chosen.folder, "seed%d" % tried.seed)
            keep(folder, self.group, self.words_of(tried.seed), tried)
            self.show("    it is in %s" % folder)
            self.progress.note_hit(tried.seed, tried.hit.why)
            self.note()

    def note(self):
        """Keeps in the file of the hunt how far it is."""
        if self.progress and self.progress.next != self.next > self.began_at:
            self.progress.note_through(self.next - 1, self.events)

    def show(self, line):
        if sys.stderr.isatty():
            sys.stderr.write("\r\033[K")
        print(line, flush=True)

    def show_progress(self):
        """A line on a terminal, and a note in the file of the hunt, once a second."""
        now = time.monotonic()
        if now - self.noted < NOTED_EACH:
            return
        self.noted = now
        self.note()
        if sys.stderr.isatty():
            told = (self.next - 1, self.events, now - self.began, counted(len(self.hits), "hit"))
            sys.stderr.write("\r\033[Kseed %d, %d events, %.0f s, %s" % told)
            sys.stderr.flush()

    def tell(self):
        count, seconds = self.next - self.began_at, time.monotonic() - self.began
        failed = ", %d could not be tried" % self.failed if self.failed else ""
        told = (self.first, self.next - 1, counted(self.events, "event"), counted(len(self.hits), "hit"), failed)
        self.show("seeds %d to %d: %s, %s%s" % told)
        if count:
            self.show("%.1f s, %.0f seeds a minute with %s" % (seconds, count * 60 / seconds, counted(self.chosen.jobs, "job")))
        if self.is_stopped:
            self.show("stopped; the same words go on from seed %d" % self.next if self.progress else "stopped; go on with --seeds %d.." % self.next)


def counted(number, what):
    return "%d %s%s" % (number, what, "" if number == 1 else "s")
