"""Where things stand in a picture: a column for each process, and a row for each Lamport clock."""

# Beside the clocks and positions the first process has room for its name, which is said again further down.
SCALE, NAME = 98, 8
ROW = 16
NAME_EVERY = 50
LEGEND_BOTTOM = 161
LETTER = 6.1


class Layout:
    def __init__(self, logs, events):
        self.columns = {log.process: place for place, log in enumerate(logs)}
        self.left = SCALE + 2 * NAME + int(LETTER * max(len(logs[0].name), 2))
        self.width_of_column = 320 if len(logs) <= 2 else 280 if len(logs) <= 4 else 200 if len(logs) <= 8 else 120
        clocks = sorted({event.entry.clock for event in events})
        self.rows = {clock: row for row, clock in enumerate(clocks)}
        self.top = LEGEND_BOTTOM + 40
        self.bottom = self.top + ROW * (len(clocks) + 1)

    @property
    def width(self):
        return max(self.left + self.width_of_column * len(self.columns), 860)

    def x(self, process):
        return self.left + self.width_of_column * self.columns[process]

    def y_of_clock(self, clock):
        return self.top + ROW * (self.rows[clock] + 0.5)

    def at(self, event):
        return self.x(event.log.process), self.y_of_clock(event.entry.clock)

    @property
    def letters(self):
        """How many letters of a caption have room beside a process's line."""
        return int((self.width_of_column - 24) / LETTER)
