"""Processes that try seeds, each with a `friday play` of its own, as many at once as are asked for."""

import multiprocessing
import os
import queue
import signal

from hunting.seeking import Seeker
from playing.player import PlayingFailed

# A worker takes so many seeds at once.
BLOCK = 4
NO_LAST = 2**62


class Workers:
    """Gives what each seed comes to, as it comes; the seeds are begun in their order."""

    def __init__(self, settings, group, wanted, first, last):
        # A worker has all that this process has by then, also the modules' imports.
        context = multiprocessing.get_context("fork")
        self.next = context.Value("q", first)
        # No seed above this is begun.
        self.last = context.Value("q", NO_LAST if last is None else last)
        self.told, self.is_ended = context.Queue(), False
        words = (settings, group, wanted, self.next, self.last, self.told, os.getpid())
        self.all = [context.Process(target=work, args=words, daemon=True) for _ in range(settings.jobs)]
        for each in self.all:
            each.start()

    def results(self):
        """What seeds come to, until all workers are done; None if nothing comes for a second."""
        done = 0
        while done < len(self.all) and not self.is_ended:
            try:
                told = self.told.get(timeout=1)
            except queue.Empty:
                self.refuse_dead()
                yield None
                continue
            if isinstance(told, Exception):
                raise told
            if told is None:
                done += 1
            else:
                yield told

    def refuse_dead(self):
        """A worker that was killed has taken seeds along, which are never settled."""
        ended = [each.exitcode for each in self.all if each.exitcode not in (None, 0)]
        if ended and not self.is_ended:
            raise PlayingFailed("a job ended with status %d" % ended[0])

    def stop_at(self, seed):
        """Has no seed above this one begun."""
        with self.last.get_lock():
            self.last.value = min(self.last.value, seed)

    def end(self):
        self.is_ended = True
        for each in self.all:
            each.terminate()
        for each in self.all:
            each.join()


def work(settings, group, wanted, next_seed, last, told, parent):
    # The terminal's Ctrl-C is for the one that has begun this.
    signal.signal(signal.SIGINT, signal.SIG_IGN)
    signal.signal(signal.SIGTERM, signal.SIG_DFL)
    try:
        seeker = Seeker(settings, group, wanted)
        while os.getppid() == parent:
            with next_seed.get_lock():
                first = next_seed.value
                next_seed.value = first + BLOCK
            if first > last.value:
                break
            for seed in range(first, first + BLOCK):
                if seed <= last.value:
                    told.put(seeker.seek(seed))
        seeker.end()
    except (PlayingFailed, OSError) as failed:
        told.put(PlayingFailed(str(failed)))
    told.put(None)
