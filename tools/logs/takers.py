"""Who took which datagram, in a long recording of which few are looked at."""

import bisect


class Takers:
    """The positions at which a process took datagrams, by their tags as one number. Its events are gone through from the last one back, as far
    as is asked: who took a datagram did so after its send."""

    def __init__(self, part, positions):
        self.part, self.positions = part, positions
        self.number, self.known = len(part), positions[-1] if positions else 0
        # The first event that took each, and the others.
        self.first, self.others = {}, {}

    def of(self, tag, sent):
        """The positions at which a datagram was taken, in their order, that was sent at a position."""
        if sent < self.known:
            self.look_back(sent)
        return [self.first[tag], *self.others.get(tag, ())] if tag in self.first else []

    def look_back(self, position):
        """Goes through the events after a position that were not gone through yet."""
        number = bisect.bisect_right(self.positions, position)
        for at, tag in self.part.tags(number, self.number):
            if tag in self.first:
                self.others[tag] = [self.first[tag], *self.others.get(tag, ())]
            self.first[tag] = self.positions[at]
        self.number, self.known = number, position
