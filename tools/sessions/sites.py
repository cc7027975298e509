"""At which call of its source each event of a recording was made, of guests that `guests/build --lines` made.

A process keeps the place of the call that it made last, so the course of that number over all events, which is one walk, tells of each
thread at which call it then waits. The thread's next event is the answer to that call.
"""

from dataclasses import dataclass, field

from asking.debugger import courses
from sessions.places import last_call

# Points that one walk has.
MOST_POINTS = 60


@dataclass
class Sites:
    """The call that each position's event answers; and by the name of a process and a thread the one at which it waits in the end."""

    made: dict = field(default_factory=dict)
    waiting: dict = field(default_factory=dict)

    def at(self, position, events):
        """The call at which each thread waits at a position: that of its next event."""
        found = dict(self.waiting)
        for event in reversed(events[position:]):
            found[event.log.name, event.entry.thread] = self.made.get(event.position)
        return found


def sites_of(program, pairs, names, events):
    """The sites of events, which are all of a group in their order."""
    sites, now, changes = Sites(), {}, {}
    for course in kept_places(program, pairs, names, len(events)):
        calls = {str(call.address): call for call in names.tables[course.name].calls}
        now[course.name] = calls.get(course.first)
        changes.update({position: calls.get(value) for position, value in course.changes})
    for event in events:
        node, thread = event.log.name, (event.log.name, event.entry.thread)
        if node not in now:
            continue
        if sites.waiting.get(thread):
            sites.made[event.position] = sites.waiting[thread]
        if event.position in changes:
            now[node] = changes[event.position]
        sites.waiting[thread] = now[node]
    return sites


def kept_places(program, pairs, names, count):
    """The course of the place that each process keeps."""
    watches = [(node, last_call(names, node)) for node in names.nodes if last_call(names, node)]
    for first in range(0, len(watches), MOST_POINTS):
        yield from courses(program, pairs, watches[first : first + MOST_POINTS], count)
