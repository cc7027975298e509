"""The network between the processes: what it does with each datagram that was sent."""

TAG_SIZE = 16


class Network:
    def __init__(self, settings, chance, names, bytes_of):
        self.settings, self.chance, self.names = settings, chance, names
        # Gives the bytes of a datagram, with its tag.
        self.bytes_of = bytes_of
        # When a line of the schedule comes, to whom, and the line.
        self.due = []
        self.side, self.whole_again = [0] * len(names), 0

    def arrivals(self, turn, datagrams, running):
        """The lines of this round: what comes to processes that run, and what is lost, as comments."""
        lines = self.partition(turn)
        for datagram in datagrams:
            lines += self.send(turn, datagram)
        lines += [line for time, receiver, line in self.due if time <= turn and receiver in running]
        self.due = [waiting for waiting in self.due if waiting[0] > turn]
        return lines

    def partition(self, turn):
        """Begins and ends partitions."""
        begins = self.chance.happens(self.settings.partition)
        sides = [int(self.chance.happens(0.5)) for _ in self.names]
        length = self.chance.up_to(self.settings.partition_rounds)
        if turn == self.whole_again:
            self.side = [0] * len(self.names)
            return ["# the group is whole again"]
        if not begins or turn < self.whole_again or len(set(sides)) < 2:
            return []
        self.side, self.whole_again = sides, turn + length
        parts = [", ".join(name for name, side in zip(self.names, sides) if side == part) for part in (0, 1)]
        return ["# nothing passes between %s and %s" % tuple(parts)]

    def send(self, turn, datagram):
        """Decides what becomes of a datagram, and says so if it is lost."""
        lost, damaged, late, repeated = (
            self.chance.happens(rate)
            for rate in (self.settings.loss, self.settings.damage, self.settings.reorder, self.settings.repeat)
        )
        delay, longer = self.chance.up_to(self.settings.late), self.chance.up_to(self.settings.late)
        bit = self.chance.up_to(8 * datagram.size) - 1
        if lost or self.side[datagram.sender] != self.side[datagram.receiver]:
            ends = self.names[datagram.sender], self.names[datagram.receiver]
            return ["# the datagram %d of %s to %s is lost" % (datagram.number, *ends)]
        line = "deliver %d %d" % (datagram.sender, datagram.number)
        if damaged and datagram.size:
            line = "inject %d %s" % (datagram.receiver, with_wrong_bit(self.bytes_of(datagram), bit).hex())
        arrival = turn + delay if late else turn
        self.due.append((arrival, datagram.receiver, line))
        if repeated:
            self.due.append((arrival + longer, datagram.receiver, line))
        return []


def with_wrong_bit(data, bit):
    """A datagram whose tag, which is the recorder's own, stays whole."""
    altered = bytearray(data)
    altered[TAG_SIZE + bit // 8] ^= 1 << bit % 8
    return bytes(altered)
