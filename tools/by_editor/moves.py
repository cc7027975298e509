"""Requests that move the group, and the stop that ends each move."""

import bisect

from logs.traffic import is_send
from sessions.names import Refusal

MOST_OUTPUTS = 1000
# A walk over more events tells how far it is.
LONG = 100_000
THREADS = 64
SAID_BY_POINTS = ("watch ", "break ")


class Moves:
    def __init__(self, adapter):
        self.adapter = adapter

    @property
    def engine(self):
        return self.adapter.engine

    def enter(self):
        position = self.adapter.launch.position(self.engine.last)
        self.engine.accepted("goto %d" % position)
        if self.adapter.launch.stops_on_entry:
            self.stopped("entry")
        else:
            self.walk(self.engine.last, "end")

    # Forward

    def walk(self, target, reason):
        """Goes on to a position, unless a point or a pause stops it before."""
        start, progress = self.engine.position, Progress(self.adapter, self.engine.position, target)
        answer = self.engine.walk(target, self.adapter.is_paused, on_part=progress.tell)
        progress.end()
        self.print_between(start, self.engine.position)
        reason = "pause" if self.engine.position < target else reason
        self.stopped(reason, self.adapter.breakpoints.logged(answer.said), not answer.how)

    def print_between(self, start, end):
        """What guests printed on the way, each line with its place in the list of events."""
        prints, looks = self.engine.index.prints, self.adapter.looks
        first, last = bisect.bisect_right(prints, start), bisect.bisect_right(prints, end)
        if last - first > MOST_OUTPUTS:
            self.adapter.tell("%d prints before these are not shown" % (last - first - MOST_OUTPUTS))
        for position in prints[max(first, last - MOST_OUTPUTS) : last]:
            event = self.engine.event_at(position)
            text = "%d %s: %s" % (position, event.log.name, as_lines(event.entry.sent))
            self.adapter.tell(text, "stdout", **({"source": looks.events.source, "line": position} if looks.events.is_there else {}))

    def stopped(self, reason, said=(), is_stopped=False):
        """Tells where the group stands, and what points said there."""
        hits, kind = self.adapter.breakpoints.hit(said)
        self.adapter.looks.forget()
        event, position = self.engine.event, self.engine.position
        told = "position %d of %d" % (position, self.engine.last) + (": " + self.adapter.looks.line_of(event) if event else "")
        thread = self.thread_id(event.log.name, event.entry.thread) if event else self.thread_id(self.engine.names.nodes[0], 0)
        lines = [line for line in said if line.startswith(SAID_BY_POINTS)] if is_stopped else []
        self.adapter.event(
            "stopped", reason=kind or "breakpoint" if is_stopped else reason, description=told, threadId=thread,
            allThreadsStopped=True, hitBreakpointIds=hits, text="; ".join(lines),
        )
        self.adapter.tell("\n".join([*said, told]))

    def on_continue(self, **_):
        self.adapter.after = [lambda: self.walk(self.engine.last, "end")]
        return {"allThreadsContinued": True}

    def on_next(self, threadId, granularity="statement", **_):
        """To the next event of the thread; by instructions, to that of the group."""
        positions = self.positions_of(threadId)
        target = self.engine.after(positions) if granularity != "instruction" else self.engine.position + 1
        self.adapter.after = [lambda: self.walk(min(target, self.engine.last), "step")]

    def on_stepIn(self, targetId=None, **_):
        """To the next event of the group, or to where a datagram is taken."""
        target = self.engine.position + 1 if targetId is None else self.position(targetId)
        self.adapter.after = [lambda: self.walk(min(target, self.engine.last), "step")]

    def on_stepInTargets(self, **_):
        here, event = self.engine.position, self.engine.event
        targets = [{"id": here + 1, "label": self.engine.line_at(here + 1)}] if here < self.engine.last else []
        for position in self.engine.index.taken_at(event) if event and is_send(event.entry) else ():
            words = self.engine.event_at(position).log.name, position
            targets.append({"id": position, "label": "where %s takes what was sent: %d" % words})
        return {"targets": targets}

    def on_stepOut(self, threadId, **_):
        """To the next event of the process, of whichever thread."""
        target = self.engine.after(self.engine.index.of_process[self.thread(threadId)[0]])
        self.adapter.after = [lambda: self.walk(target, "step")]

    # Back

    def on_stepBack(self, threadId, granularity="statement", **_):
        """To the event before of the group, or of the thread if the configuration says so."""
        place = max(self.engine.position - 1, 0)
        if self.adapter.launch.steps_back_by_thread and granularity != "instruction":
            place = self.engine.before(self.positions_of(threadId))
        self.adapter.after = [lambda: self.jump(place, "step")]

    def on_reverseContinue(self, **_):
        self.adapter.after = [self.walk_back]

    def walk_back(self):
        answer = self.engine.back(is_paused=self.adapter.is_paused)
        if answer is None:
            self.stopped("pause")
        else:
            said = self.engine.points.of_stops(answer.lines[:-1])
            self.stopped("start", [line for line in said if line != "start"], said != ["start"])

    def jump(self, position, reason):
        self.engine.accepted("goto %d" % position)
        self.stopped(reason)

    def on_pause(self, **_):
        """A walk that was on has ended before this is answered."""
        return {}

    def on_gotoTargets(self, source, line, **_):
        """A line of the list of events is a position."""
        if not self.adapter.looks.events.is_of(source):
            raise Refusal("only lines of the list of events are places to go to")
        position = self.position(line)
        return {"targets": [{"id": position, "label": self.engine.line_at(position), "line": position}]}

    def on_goto(self, targetId, **_):
        position = self.position(targetId)
        self.adapter.after = [lambda: self.jump(position, "goto")]

    # Threads by their numbers

    def position(self, number):
        if not isinstance(number, int) or not 1 <= number <= self.engine.last:
            raise Refusal("the positions are 1 to %d" % self.engine.last)
        return number

    def thread_id(self, node, thread):
        return self.engine.names.nodes.index(node) * THREADS + thread + 1

    def thread(self, number):
        """The process and the thread of a number."""
        if not isinstance(number, int) or not 1 <= number <= len(self.engine.names.nodes) * THREADS:
            raise Refusal("no such thread")
        return self.engine.names.nodes[(number - 1) // THREADS], (number - 1) % THREADS

    def positions_of(self, number):
        return self.engine.index.of_thread(*self.thread(number))


def as_lines(data):
    """What was printed, without what a console would obey."""
    text = data.decode("utf-8", "replace").rstrip("\n")
    return "".join(letter if letter.isprintable() or letter in "\n\t" else "?" for letter in text)


class Progress:
    """How far a long walk is, for clients that show it."""

    def __init__(self, adapter, start, target):
        self.adapter, self.start, self.target, self.name = adapter, start, target, "walk%d" % start
        self.is_shown = bool(adapter.client.get("supportsProgressReporting")) and target - start > LONG
        if self.is_shown:
            adapter.event("progressStart", progressId=self.name, title="replaying", cancellable=False, percentage=0)

    def tell(self, position):
        if self.is_shown:
            part = 100 * (position - self.start) // (self.target - self.start)
            self.adapter.event("progressUpdate", progressId=self.name, message="position %d" % position, percentage=part)

    def end(self):
        if self.is_shown:
            self.adapter.event("progressEnd", progressId=self.name)
