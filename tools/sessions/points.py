"""The points of a session. A point keeps its number whatever becomes of it in the debugger, where it may be made anew.

Its condition and its place in the source are a condition of the debugger's line, and a count of firings is in its program: `Points.line`
and `Points.program` put them there, and nothing else does.
"""

from __future__ import annotations

import re
from dataclasses import dataclass, field

from sessions.names import STRING, Refusal
from sessions.places import Place, meant, places

SAID = re.compile(r"(watch|break) (\d+)(?=$|:)")
# What leads to a position, with the name of its process.
LED_BY = re.compile(r"at \d+: \d+ (\w+) ")


def ignored(*_):
    pass


@dataclass
class Point:
    """A point: the line that was typed, the debugger's line that makes it, and what holds of it beside that.

    At a break names without a process, in its condition and its program, are of the process whose event it is: one of `nodes`."""

    number: int
    typed: str
    line: str
    nodes: list = ()
    place: Place = None
    condition: str = ""
    program: str = ""
    # Of how often it fired, as `> 3`: it does nothing elsewhere.
    hits: str = ""
    commands: list = field(default_factory=list)
    is_temporary: bool = False
    is_enabled: bool = True
    # The number that the debugger gave it.
    own: int = 0

    @property
    def stops(self):
        """Whether there is a place at which it stops a walk."""
        return not self.program or re.search(r"\bstop\b", STRING.sub("", self.program)) is not None

    @property
    def has_program(self):
        return bool(self.program or self.hits)

    @property
    def told(self):
        """The line that makes it again."""
        return self.typed + (" if " + self.condition if self.condition else "")


class Points:
    def __init__(self, engine):
        self.engine, self.held, self.last = engine, {}, 0

    def __iter__(self):
        return iter(self.held.values())

    def point(self, number):
        if number not in self.held:
            raise Refusal("6 no such point")
        return self.held[number]

    # Making

    def watch(self, expression, condition="", **more):
        return self.make(Point(self.last + 1, "watch " + expression, "watch " + expression, condition=condition, **more))

    def break_at_call(self, where, condition="", **more):
        node, names = where.partition(" ")[0], self.engine.names
        nodes = [node] if node in names.nodes else names.nodes
        return self.make(Point(self.last + 1, "break " + where, "break " + where, nodes, condition=condition, **more))

    def break_in(self, where, condition="", **more):
        """Points at a function or line, one for all processes of a module: each stops where a thread of one comes to a call there."""
        nodes, words = meant(self.engine.names, where)
        found, made = places(self.engine.names, nodes, words), []
        try:
            for place in found:
                is_every = len(found) == 1 and nodes is self.engine.names.nodes
                typed = "break " + words if is_every else "break %s.%s" % (",".join(place.nodes), words)
                made += self.make(Point(self.last + 1, typed, self.line_at(place), place.nodes, place, condition, **more))
        except Exception:
            # One for each module, or none.
            for point in made:
                self.delete(point.number)
            raise
        return made

    def line_at(self, place):
        """The debugger's line for a point at each event of some processes."""
        if len(place.nodes) == len(self.engine.names.nodes):
            return "break * *"
        if len(place.nodes) == 1:
            return "break %s *" % place.nodes[0]
        # No other event changes this sum.
        return "watch " + " + ".join("@%s.events" % node for node in place.nodes)

    def make(self, point):
        """The point, in a list, once the debugger has it."""
        self.put(point)
        self.last = point.number
        self.held[point.number] = point
        return [point]

    def put(self, point):
        """Has the debugger hold a point."""
        made = self.engine.accepted(self.line(point))
        point.own = int(made.lines[0].split()[1])
        if point.has_program:
            try:
                self.attach(point)
            except Exception:
                self.drop(point)
                raise

    def attach(self, point):
        if point.hits:
            self.engine.accepted("set $hits_%d 0" % point.number)
        self.engine.accepted("do %d %s" % (point.own, self.program(point)))

    def line(self, point):
        """The debugger's line that makes a point, with its place and its condition."""
        tests = [test for test in (point.place and point.place.test, self.own_names(point, point.condition)) if test]
        if len(tests) > 1:
            tests = ["(%s)" % test for test in tests]
        return point.line + (" if " + " && ".join(tests) if tests else "")

    def program(self, point):
        """The program of a point: what it does where it fires, under its count."""
        own = self.own_names(point, point.program)
        text = own or "%s; stop" % self.say(point)
        if own and point.is_temporary:
            text = "%s; %s; stop" % (self.say(point), own)
        if point.hits:
            count = "$hits_%d" % point.number
            text = "set %s %s + 1; if %s %s { %s }" % (count, count, count, point.hits, text)
        return text

    def own_names(self, point, text):
        return self.engine.names.of_event(text, point.nodes) if point.nodes else text

    def say(self, point):
        """The statement that tells where a point stops."""
        kind, rest = point.line.split(" ", 1)
        return 'say "watch %d: ", %s' % (point.own, rest) if kind == "watch" else 'say "break %d"' % point.own

    # Changing

    def change(self, number, **changes):
        """Gives a point another condition, program or count; nothing is changed where the debugger refuses it."""
        point = self.point(number)
        before = {name: getattr(point, name) for name in changes}
        self.set(point, changes)
        try:
            if point.is_enabled:
                self.renew(point, "condition" in changes)
        except Exception:
            self.set(point, before)
            if point.is_enabled and not point.own:
                self.put(point)
            raise
        return point

    def set(self, point, values):
        for name, value in values.items():
            setattr(point, name, value)

    def renew(self, point, is_another_line):
        """A program is given to a point; another line, and no program, to a new one only."""
        if point.has_program and not is_another_line:
            self.attach(point)
        else:
            self.drop(point)
            self.put(point)

    def drop(self, point):
        self.engine.accepted("delete %d" % point.own)
        point.own = 0

    def enable(self, number, is_enabled):
        point = self.point(number)
        if point.is_enabled == is_enabled:
            return
        if is_enabled:
            self.put(point)
        else:
            self.drop(point)
        point.is_enabled = is_enabled

    def delete(self, number):
        point = self.point(number)
        if point.is_enabled:
            self.drop(point)
        del self.held[number]

    def restore(self):
        """Makes all points again in a debugger that has just begun."""
        for point in self:
            if point.is_enabled:
                self.put(point)

    # Walks

    def in_words(self, lines):
        """The lines of a walk's answer, with the numbers that the session gives points. The last line tells whose event it is, so what
        points say where the walk ends waits for it."""
        held = []
        for line in lines:
            if held or SAID.match(line):
                held.append(line)
            else:
                yield line
        event = LED_BY.match(held[-1]) if held else None
        for line in held:
            yield self.told(line, event[1] if event else "")

    def told(self, line, node):
        """A line that a walk said, with the number that the session gives the point, and at a place in the source with that."""
        found = SAID.match(line)
        point = found and next((point for point in self if point.own == int(found[2])), None)
        if not point:
            return line
        if point.place:
            return "break %d: %s comes to a call in %s" % (point.number, node, point.place.words)
        return "%s %d%s" % (found[1], point.number, line[found.end() :])

    def of_stops(self, lines):
        """The lines but for what points say that never stop, on the way back."""
        passed = {point.number for point in self if not point.stops}
        return [line for line in lines if not (found := SAID.match(line)) or int(found[2]) not in passed]

    def stopped_by(self, lines):
        """The points that said so, of those that may stop a walk."""
        numbers = [int(found[2]) for found in map(SAID.match, lines) if found]
        return [self.held[number] for number in numbers if number in self.held and self.held[number].stops]
