"""Draws that are the same for a seed with every Python."""

import random


class Chance:
    """All draws come from `random()`."""

    def __init__(self, seed):
        self.draw = random.Random(seed).random

    def happens(self, rate):
        return self.draw() < rate

    def up_to(self, most):
        """A number from 1 to `most`."""
        return 1 + int(self.draw() * most)

    def shuffled(self, items):
        return [item for _, item in sorted(((self.draw(), item) for item in items), key=lambda drawn: drawn[0])]

    def bytes(self, count):
        return bytes(int(self.draw() * 256) for _ in range(count))
