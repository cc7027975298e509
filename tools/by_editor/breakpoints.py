"""Breakpoints of an editor, each as points of the session."""

import os
import re

from by_hand.pointing import CALL_NAMES
from sessions.names import Refusal
from sessions.places import advice, calls_of
from sessions.values import numbers_of

FILTERS = [
    {"filter": name, "label": name, "description": "stops at each event of this call", "supportsCondition": True}
    for name in CALL_NAMES
]
LOG = "log "
HITS = re.compile(r"\s*(>=|>|==|<=|<|%|)\s*(\d{1,18})\s*")


class Breakpoints:
    def __init__(self, adapter):
        self.adapter, self.wanted, self.last = adapter, {}, 0

    @property
    def engine(self):
        return self.adapter.engine

    def begin(self):
        """In a new session no point is held; what was wanted stays."""
        self.made = {}

    def put(self, kind, wanted, add):
        """Breakpoints of a kind in place of those that it had. `add` makes the points of one, and tells what else is answered."""
        for points in self.made.pop(kind, {}).values():
            for point in points:
                self.delete(point)
        self.wanted[kind], self.made[kind], answers = (wanted, add), {}, []
        for breakpoint in wanted:
            self.last += 1
            try:
                points, answer = add(breakpoint)
                self.made[kind][self.last] = points
                answers.append({"id": self.last, "verified": True, **answer})
            except (Refusal, LookupError, TypeError, AttributeError) as error:
                answers.append({"id": self.last, "verified": False, "message": str(error)})
        return {"breakpoints": answers}

    def delete(self, point):
        """A line typed in the console may have deleted it."""
        if self.engine.points.held.get(point.number) is point:
            self.engine.points.delete(point.number)

    def put_again(self):
        for kind, (wanted, add) in list(self.wanted.items()):
            for breakpoint in self.put(kind, wanted, add)["breakpoints"]:
                self.adapter.event("breakpoint", reason="changed", breakpoint=breakpoint)

    def hit(self, said):
        """The breakpoints whose points stopped a walk, and the kind of the first."""
        points = self.engine.points.stopped_by(said)
        found = [(kind, number) for kind, made in self.made.items() for number, its in made.items() if any(point in its for point in points)]
        kind = found[0][0].partition(":")[0] if found else None
        return [number for _, number in found], "breakpoint" if kind == "exception" else kind

    def logged(self, said):
        """The lines that points said, where those of log messages are told as output."""
        for line in said:
            if re.match(r"log \d+ ", line):
                self.adapter.tell(line.split(" ", 2)[2], "console")
        return [line for line in said if not re.match(r"log \d+ ", line)]

    # What a breakpoint has beside its place

    def more(self, breakpoint, node=None):
        """Condition, count and message as a point has them. Names of variables are those of a process, or of the one whose event it is."""
        condition, message = breakpoint.get("condition") or "", breakpoint.get("logMessage")
        program = "say %s" % self.items(message) if message else ""
        if node:
            condition, program = (self.engine.names.qualified(text, node) for text in (condition, program))
        return {"condition": condition.strip(), "program": program, "hits": hits_test(breakpoint.get("hitCondition"))}

    def items(self, message):
        """A log message as items of `say`: text, and values in braces."""
        parts = re.split(r"\{([^{}]*)\}", LOG + "%d " % (self.engine.points.last + 1) + message)
        shown = [part if at % 2 else '"%s"' % re.sub(r"[^ !#-~]", "?", part) for at, part in enumerate(parts)]
        return ", ".join(part for part in shown if part != '""')

    # Kinds of breakpoints

    def on_setBreakpoints(self, source, breakpoints=(), **_):
        if self.adapter.looks.events.is_of(source):
            return self.put("breakpoint:events", breakpoints, self.in_events)
        path = source["path"]
        return self.put("breakpoint:" + path, breakpoints, lambda breakpoint: self.in_file(path, breakpoint))

    def in_file(self, path, breakpoint):
        """At calls in the line, or in the next one of the function that has some."""
        file, line, nodes = self.place(path, breakpoint["line"])
        return self.engine.points.break_in("%s %s:%d" % (",".join(nodes), file, line), **self.more(breakpoint)), {"line": line}

    def place(self, path, wanted):
        """The file, the line and the processes of the first calls from this line on."""
        names = self.engine.names
        calls = [(node, call) for node in names.nodes for call in calls_of(names, node) if is_file(call.file, path)]
        line = min((call.line for _, call in calls if call.line >= wanted), default=None)
        if line is None or self.ends_between(path, wanted, line):
            words = "%s:%d" % (calls[0][1].file if calls else os.path.basename(path), wanted)
            raise Refusal(advice(names, names.nodes, words))
        found = [(node, call) for node, call in calls if call.line == line]
        return found[0][1].file, line, sorted({node for node, _ in found}, key=names.nodes.index)

    def ends_between(self, path, first, last):
        """Whether the function of one line ends before another one; of a function that was put into others its brace in the source tells."""
        names = self.engine.names
        ends = [function.last for node in names.nodes for function in names.functions(node).values()
                if is_file(function.file, path) and function.first <= first <= function.last]
        return max(ends) < last if ends else has_brace_between(path, first, last)

    def in_events(self, breakpoint):
        """At a line of the list of events, which is a position."""
        event = self.engine.event_at(self.adapter.moves.position(breakpoint["line"]))
        expression = "@%s.events >= %d" % (event.log.name, event.number)
        return self.engine.points.watch(expression, **self.more(breakpoint, event.log.name)), {"line": event.position}

    def on_setFunctionBreakpoints(self, breakpoints, **_):
        return self.put("function breakpoint", breakpoints, self.at_function)

    def at_function(self, breakpoint):
        """What may come behind `break` or `watch` in a session: a function, NODE.FUNCTION, a call, an expression."""
        name, node = breakpoint["name"].strip(), self.engine.current
        kind, _, rest = name.partition(" ")
        if kind in ("w", "watch"):
            return self.engine.points.watch(self.engine.names.qualified(rest, node), **self.more(breakpoint, node)), {}
        words = name.split()
        if words and words[-1] in CALL_NAMES:
            return self.engine.points.break_at_call("* " + name if len(words) == 1 else name, **self.more(breakpoint)), {}
        return self.engine.points.break_in(name, **self.more(breakpoint)), {}

    def on_setDataBreakpoints(self, breakpoints, **_):
        return self.put("data breakpoint", breakpoints, self.at_data)

    def at_data(self, breakpoint):
        text = breakpoint["dataId"]
        place, points = self.engine.names.place(text), []
        node = place.node if place else self.engine.current
        for expression in numbers_of(place, text) if place and not text.startswith("@") else [text]:
            points += self.engine.points.watch(expression, **self.more(breakpoint, node))
        return points, {}

    def on_setExceptionBreakpoints(self, filters=(), filterOptions=(), **_):
        wanted = [{"filterId": name} for name in filters] + list(filterOptions)
        return self.put("exception", wanted, self.at_call)

    def at_call(self, breakpoint):
        return self.engine.points.break_at_call("* " + breakpoint["filterId"], **self.more(breakpoint)), {}

    def on_dataBreakpointInfo(self, name, variablesReference=0, frameId=None, **_):
        text = self.adapter.looks.path_of(variablesReference, name) if variablesReference else self.engine.names.qualified(name, self.adapter.looks.node_of(frameId))
        if text is None:
            return {"dataId": None, "description": "%s is no variable" % name}
        return {"dataId": text, "description": text, "accessTypes": ["write"], "canPersist": True}

    def on_breakpointLocations(self, source, line, endLine=None, **_):
        names, path = self.engine.names, source.get("path") or ""
        lines = {call.line for node in names.nodes for call in calls_of(names, node) if is_file(call.file, path)}
        return {"breakpoints": [{"line": at} for at in sorted(lines) if line <= at <= (endLine or line)]}


def is_file(file, path):
    """Whether a file that a place names is the one of this path; the kit's have a folder before their name."""
    return os.path.basename(file) == os.path.basename(path)


def has_brace_between(path, first, last):
    """Whether a function ends from one line on and before another, by a brace at the beginning of a line."""
    try:
        with open(path, encoding="utf-8", errors="replace") as file:
            return any(line.startswith("}") for number, line in enumerate(file, 1) if first <= number < last)
    except OSError:
        return False


def hits_test(text):
    """What a hit count asks of the number of firings."""
    if not text:
        return ""
    found = HITS.fullmatch(text)
    if not found:
        raise Refusal("a hit count is a number, which ==, >=, >, <=, < or % may come before")
    return "%% %s == 0" % found[2] if found[1] == "%" else "%s %s" % (found[1] or "==", found[2])
