"""The space-time picture of a group: a line down for each process, and an arrow from each send to its receive."""

from logs.traffic import Fate, Origin
from pictures.layout import LETTER, NAME_EVERY, ROW, SCALE, Layout
from pictures.legend import STYLE, heads, legend
from pictures.svg import element, line, number, text, told

DOT = 4
GOING, COMING = 18, 30


class Picture:
    """A picture of the events of some processes from one position to another, but for those of the calls that are hidden;
    `ends` has what is known of each process at the last."""

    def __init__(self, logs, traffic, captions, ends, first, last, hidden=()):
        self.logs, self.traffic, self.captions, self.ends = logs, traffic, captions, ends
        self.first, self.last = first, last
        self.processes, self.hidden = {log.process for log in logs}, set(hidden)
        self.events = [event for event in traffic.events[first - 1 : last] if self.is_shown(event)]
        self.layout = Layout(logs, self.events)

    def is_shown(self, event):
        """Whether a picture of all positions has the event."""
        return event.log.process in self.processes and event.entry.call.name not in self.hidden

    def svg(self):
        parts = [self.rows(), *map(self.life, self.logs), *self.arrows(), *map(self.stub, self.events)]
        parts += map(self.event, self.events)
        height = self.layout.bottom + ROW * (3 + max((len(end.threads) for end in self.ends.values()), default=0))
        frame = {"xmlns": "http://www.w3.org/2000/svg", "width": number(self.layout.width), "height": number(height)}
        back = element("rect", width="100%", height="100%", fill="white")
        style = element("style", STYLE)
        return element("svg", style, heads(), back, legend(self.title()), "\n".join(parts), **frame) + "\n"

    def title(self):
        names = ", ".join(log.name for log in self.logs)
        return "%s: events %d to %d of %d" % (names, self.first, self.last, len(self.traffic.events))

    def rows(self):
        """The clocks and positions at the left, with a faint line for each row."""
        layout, positions = self.layout, {}
        for event in self.events:
            positions.setdefault(event.entry.clock, []).append(event.position)
        parts = [text("clock", 40, layout.top - 8, "scale"), text("position", SCALE, layout.top - 8, "scale")]
        for clock, held in positions.items():
            y = layout.y_of_clock(clock)
            span = str(held[0]) if len(held) == 1 else "%d-%d" % (held[0], held[-1])
            parts.append(line((SCALE + 6, y), (layout.width - 8, y), "row"))
            parts += [text(str(clock), 40, y + 3, "scale"), text(span, SCALE, y + 3, "scale")]
        return "".join(parts)

    def life(self, log):
        """The line of a process with its name, said again further down, and how the process is at the end."""
        layout, x = self.layout, self.layout.x(log.process)
        mine = [event for event in self.events if event.log is log]
        end = self.ends[log.name]
        parts = [text(log.name, x, layout.top - 10, "name")]
        for row in range(NAME_EVERY, len(layout.rows), NAME_EVERY):
            parts.append(text(log.name, x - 6, layout.top + ROW * row - 2, "again"))
        last_y = layout.y_of_clock(mine[-1].entry.clock) if mine else layout.top
        foot = last_y + ROW * 0.75 if end.over else layout.bottom
        if mine or not end.over:
            parts.append(line((x, layout.top), (x, last_y), "life"))
            parts.append(line((x, last_y), (x, foot), "life" if end.over else "life after"))
        return "".join(parts) + self.end_of(end, x, foot if mine or not end.over else layout.top)

    def end_of(self, end, x, y):
        kind = "end bad" if end.bad else "end"
        mark = line((x - 8, y), (x + 8, y), kind) if end.over else ""
        words = text(self.clipped(end.text), x + 12, y + (4 if end.over else 12), kind + " words")
        threads = [text(self.clipped(words), x + 12, y + 12 + 13 * place, "thread") for place, words in enumerate(end.threads, 1)]
        return told([end.told, *end.threads], mark, words, *threads)

    def clipped(self, words):
        """As much of a caption as has room beside a process's line."""
        return words if len(words) <= self.layout.letters else words[: self.layout.letters - 2] + ".."

    def arrows(self):
        for taken in self.traffic.taken:
            if not (self.is_shown(taken.send) and self.is_shown(taken.receive)):
                continue
            sent, received = (self.is_drawn(event) for event in (taken.send, taken.receive))
            if sent or received:
                yield self.arrow(taken, self.rim(taken.send, taken.receive), self.rim(taken.receive, taken.send))

    def is_drawn(self, event):
        return self.first <= event.position <= self.last

    def place(self, event):
        """Where an event stands; one that is not drawn is above or below the others."""
        if self.is_drawn(event):
            return self.layout.at(event)
        return self.layout.x(event.log.process), self.layout.top if event.position < self.first else self.layout.bottom

    def rim(self, event, other):
        """Where an arrow from or to an event ends: behind its words, if they stand on the side of the other event."""
        x, y = self.place(event)
        is_behind = self.is_drawn(event) and self.layout.x(other.log.process) > x
        return (x + self.room(event) if is_behind else x), y

    def room(self, event):
        """How far the words of an event reach."""
        signal = " signal %d" % event.entry.signal if event.entry.signal else ""
        letters = len(self.clipped(self.captions.word(event)) + signal)
        return min(12 + LETTER * letters, self.layout.width_of_column - 3 * DOT) if letters else 0

    def arrow(self, taken, start, end):
        head = "altered" if taken.altered else "again" if taken.earlier else "sent"
        kind = "arrow" + (" again" if taken.earlier else "") + (" altered" if taken.altered else "")
        if start[0] == end[0]:
            (x, y1), (_, y2) = start, end
            bent = "M %s %s C %s %s %s %s %s %s" % (*map(number, (x, y1, x - 40, y1, x - 40, y2, x - DOT, y2)),)
            drawn = element("path", d=bent, kind=kind, marker_end="url(#%s)" % head)
        else:
            drawn = line(start, shorter(start, end), kind, marker_end="url(#%s)" % head)
        lines = [self.captions.arrival(taken)] + self.captions.lines(taken.send)[:2]
        return told(lines, element("g", self.wide(start, end), drawn))

    def wide(self, start, end):
        """A wide line that cannot be seen, so that the mouse finds the thin one."""
        return line(start, end, "touch")

    def stub(self, event):
        """The mark of a datagram that no event took, or that none of the group sent."""
        fate, origin = self.traffic.fates.get(event.position), self.traffic.origins.get(event.position)
        x, y = self.layout.at(event)
        if fate in (None, Fate.TAKEN) and origin in (None, Origin.SEND):
            return ""
        if fate is not None:
            return sent_nowhere(fate, (x, y), (x - GOING, y + ROW * 0.6), self.captions.lines(event))
        return came_from_nowhere(origin, (x, y), (x - COMING, y - ROW * 0.5), self.captions.lines(event))

    def event(self, event):
        x, y = self.layout.at(event)
        kind = "dot " + kind_of(event.entry)
        if event.number > self.ends[event.log.name].accepted:
            kind += " refused"
        word = self.clipped(self.captions.word(event))
        signal = element("tspan", "signal %d" % event.entry.signal, kind="signal", dx=6) if event.entry.signal else ""
        # An arrow goes on behind the words of its event.
        behind = element("rect", x=number(x + 7), y=number(y - 5), width=number(LETTER * len(word) + 4), height=11, kind="behind") if word else ""
        caption = behind + text(word, x + 9, y + 3.5, "word").replace("</text>", signal + "</text>")
        return told(self.captions.lines(event), element("circle", cx=number(x), cy=number(y), r=DOT, kind=kind), caption)


def kind_of(entry):
    if entry.call.name == "send" or (entry.call.has_tag and entry.reply >= 0):
        return "traffic"
    if entry.call.name in ("print", "note", "exit"):
        return entry.call.name
    return "plain"


def shorter(start, end):
    """The end of a line that stops at the edge of a dot."""
    (x1, y1), (x2, y2) = start, end
    length = ((x2 - x1) ** 2 + (y2 - y1) ** 2) ** 0.5
    part = max(length - DOT, 0) / length
    return x1 + (x2 - x1) * part, y1 + (y2 - y1) * part


def sent_nowhere(fate, start, end, lines):
    x, y = end
    mark = {Fate.NOT_TAKEN: "x", Fate.NO_LOG: "?", Fate.LEFT_GROUP: "out", Fate.CUT: "cut"}[fate]
    kind = "stub lost" if fate is Fate.NOT_TAKEN else "stub"
    return told(lines, line(start, end, kind), mark_at(mark, x, y))


def came_from_nowhere(origin, start, end, lines):
    x, y = start
    kind, head = ("stub outside", "outside") if origin is Origin.OUTSIDE else ("stub", "stub")
    mark = mark_at("in" if origin is Origin.OUTSIDE else "?", *end)
    return told(lines, line(end, shorter(end, (x, y)), kind, marker_end="url(#%s)" % head), mark)


def mark_at(mark, x, y):
    if mark == "x":
        cross = "M {0} {1} l 6 6 m 0 -6 l -6 6".format(number(x - 3), number(y - 3))
        return element("path", d=cross, kind="cross")
    return text(mark, x - 2, y + 3, "mark outside" if mark == "in" else "mark")
