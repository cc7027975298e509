"""In which order crates can be proved side by side."""


class Order:
    """What is left to prove: a crate is ready once all that it stands on is done."""

    def __init__(self, below, lines):
        self.below, self.lines = below, lines
        self.left, self.running, self.done = set(lines), set(), set()

    def behind(self, name):
        """The lines of the longest chain of crates from this one up, which have to be proved one after the other."""
        above = [self.behind(other) for other in self.left if name in self.below[other]]
        return self.lines[name] + max(above, default=0)

    def ready(self):
        """The crates that can begin now, first those with the longest chain behind them."""
        free = [name for name in self.left if all(lower in self.done for lower in self.below[name] if lower in self.lines)]
        return sorted(free, key=lambda name: (-self.behind(name), name))

    def begin(self, name):
        self.left.remove(name)
        self.running.add(name)

    def end(self, name):
        self.running.remove(name)
        self.done.add(name)

    def lines_left(self):
        return sum(self.lines[name] for name in self.left | self.running)
