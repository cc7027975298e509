"""What a seed comes to: its schedule, and whether it has what is looked for."""

from __future__ import annotations

import copy
from dataclasses import dataclass

from hunting.scripts import BadScript, hit_by_script
from hunting.wanted import hit_by_end
from hunting.watching import Watching
from playing.player import PlayingFailed
from playing.playing import Playing
from schedules.maker import Maker, length_of


@dataclass(frozen=True)
class Tried:
    """A seed, how many events its schedule has, the hit and the schedule's items if it is one, and why it could not be tried."""

    seed: int
    events: int
    hit: object = None
    items: tuple = ()
    failed: str = ""


class Seeker:
    """Tries seeds by one `friday play`, which begins again for each."""

    def __init__(self, settings, group, wanted):
        self.settings, self.group, self.wanted = copy.copy(settings), group, wanted
        self.player = group.player()
        if settings.changes is not None:
            self.settings.length = length_of(settings, group, self.player)

    def seek(self, seed):
        self.settings.seed = seed
        playing = Watching(self.group, self.player, self.wanted.never) if self.wanted.never else Playing(self.group, self.player)
        try:
            self.player.again()
            maker = Maker(self.settings, playing)
            maker.make()
            hit = self.hit(maker)
        except BadScript:
            raise
        except PlayingFailed as failed:
            self.player.restart()
            return Tried(seed, playing.known.events, failed=str(failed))
        return Tried(seed, playing.known.events, hit, tuple(maker.items) if hit else ())

    def hit(self, maker):
        hit = maker.playing.hit if self.wanted.never else None
        hit = hit or hit_by_end(self.wanted, maker.known)
        return hit or (hit_by_script(self.group, self.wanted.script, maker.items) if self.wanted.script else None)

    def end(self):
        self.player.end()
