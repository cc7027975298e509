"""The variables pane: scopes, and what is under a variable. Values are read where a client opens them."""

import itertools

from logs.traffic import is_send
from logs.wording import shown, source
from sessions.casts import value_of
from sessions.names import Refusal
from sessions.places import LAST_CALL
from sessions.reading import LineRefused
from sessions.spelling import number, of_answer

# A struct or array of more numbers is not spelled in the line of its name, and so many elements are told at once.
MOST_SPELLED, MOST_CHILDREN = 40, 5000
# Datagrams under way are looked for among so many events.
MOST_LOOKED_AT, MOST_ON_THEIR_WAY = 20_000, 200
READ_ONLY = {"attributes": ["readOnly"]}


def plain(name, value):
    return {"name": str(name), "value": str(value), "variablesReference": 0, "presentationHint": READ_ONLY}


class Tree:
    """What a client may open until the session moves, by the numbers that it was told."""

    def __init__(self, engine, watches):
        self.engine, self.watches, self.opened = engine, watches, []

    def reference(self, open_):
        self.opened.append(open_)
        return len(self.opened)

    def children(self, reference, form="", start=0, count=None):
        if not isinstance(reference, int) or not 1 <= reference <= len(self.opened):
            raise Refusal("this is of another position")
        return self.opened[reference - 1](form, start, min(count or MOST_CHILDREN, MOST_CHILDREN))

    # Scopes

    def scopes(self, node):
        """Of a frame: the event of the position, what is watched, its own process, the others, and what is on its way."""
        made = [self.scope("Event %d" % self.engine.position, self.event, False)] if self.engine.position else []
        if self.watches:
            made.append(self.scope("Watched", self.watched, False))
        made.append({**self.scope(node, self.process(node), False), "presentationHint": "locals"})
        made += [self.scope(other, self.process(other), True) for other in self.engine.names.nodes if other != node]
        return [*made, self.scope("On its way", self.on_its_way, True), self.scope("Session", self.session, True)]

    def scope(self, name, open_, is_expensive):
        return {"name": name, "variablesReference": self.reference(open_), "expensive": is_expensive}

    def event(self, form, start, count):
        event, called = self.engine.event, self.engine.names.called
        entry = event.entry
        made = [("process", event.log.name), ("thread", entry.thread), ("call", entry.call.name), ("clock", entry.clock)]
        made += [("argument %d" % at, value) for at, value in enumerate(entry.arguments)]
        made += [("reply", entry.reply)] if entry.call.result else []
        made += [("signal", entry.signal)] if entry.signal else []
        if entry.call.name == "send":
            takers = ", ".join(map(str, self.engine.index.taken_at(event)))
            made += [("to", called.get(entry.arguments[0], entry.arguments[0])), ("taken at", takers or "no position")]
        if entry.call.has_tag and entry.reply >= 0:
            sent = self.engine.index.sent_at(entry.tag, event.log.process) if entry.tag else None
            made.append(("from", source(entry.tag, called) + (", position %d" % sent if sent else "")))
        made += [("sent", shown(entry.sent))] if entry.call.sends_bytes else []
        made += [("taken", shown(entry.taken))] if entry.call.takes_bytes and entry.reply >= 0 else []
        return [plain(*pair) for pair in made]

    def watched(self, form, start, count):
        return [self.expression(name, text, form) for name, text in self.watches.items()]

    def session(self, form, start, count):
        return [plain(*line.split(" ", 1)) for line in self.engine.debugger.ask("vars")]

    def on_its_way(self, form, start, count):
        """Datagrams of the group that were sent by now, and that a process takes later or never."""
        here, index = self.engine.position, self.engine.index
        events = filter(lambda event: is_send(event.entry), map(index.event, index.under_way(here, MOST_LOOKED_AT)))
        made = []
        for event in itertools.islice(events, MOST_ON_THEIR_WAY):
            later = ", ".join(str(taker) for taker in index.taken_at(event) if taker > here)
            told = "taken at %s: %s" % (later or "no position", shown(event.entry.sent))
            made.append(plain(self.engine.line_at(event.position), told))
        return made[::-1]

    def process(self, node):
        def open_(form, start, count):
            own = {name: "@%s.%s" % (node, name) for name in ("events", "clock", "size")}
            answers = self.engine.ask_each(["print " + text for text in own.values()])
            numbers = [{**plain(name, of_answer(answer, form)), "evaluateName": own[name]} for name, answer in zip(own, answers)]
            return [plain("state", self.engine.threads.standing(node)[0]), *numbers, *self.variables(node, form)]

        return open_

    # Values

    def variables(self, node, form):
        names = [variable.name for variable in self.engine.names.variables(node) if not variable.name.endswith(LAST_CALL)]
        paths = {"%s.%s" % (node, name): name.rpartition("::")[2] for name in names}
        self.fetch(node, paths)
        return [self.variable(name, path, node, form) for path, name in paths.items()]

    def fetch(self, node, paths):
        """Reads at once what is spelled of some variables."""
        ranges = (or_none(lambda: range_of(self.engine.value(path))) for path in paths)
        self.engine.memory(node).fetch([found for found in ranges if found])

    def variable(self, name, path, node, form):
        try:
            return self.shown(name, path, node, self.engine.value(path), form)
        except Refusal as refusal:
            return plain(name, "(%s)" % refusal)

    def shown(self, name, path, node, value, form):
        made = {**plain(name, value.text(form) if is_spelled(value) else value.type), "type": value.type, "evaluateName": path}
        address = address_of(value)
        if address is not None:
            made["memoryReference"] = "%s:%d" % (node, address)
        return {**made, **self.under(value, path, node)}

    def under(self, value, path, node):
        """How the parts of a value are opened."""
        if value.array:
            def open_(form, start, count):
                parts = value.elements(start, count)
                return [self.shown(name, path + name, node, part, form) for name, part in parts]

            return {"variablesReference": self.reference(open_), "indexedVariables": value.array[1]}
        if value.struct:
            def open_(form, start, count):
                return [self.shown(name, "%s.%s" % (path, name), node, part, form) for name, part in value.fields()]

            return {"variablesReference": self.reference(open_)}
        if value.is_pointer and or_none(value.number):
            def open_(form, start, count):
                return [self.shown("[0]", path + "[0]", node, value.pointed(self.engine.memory(node)), form)]

            return {"variablesReference": self.reference(open_)}
        return {"variablesReference": 0}

    def expression(self, name, text, form=""):
        answer = self.engine.ask("print " + text).lines[0]
        return {**plain(name, of_answer(answer, form)), "evaluateName": text}

    def value(self, text, node, form):
        """The variable or the expression of this text; names without a process are of this one."""
        whole = self.engine.names.qualified(text, node)
        value = value_of(self.engine, text, node)
        if value:
            return self.shown(text, whole, node_in(self.engine, whole, node), value, form)
        try:
            found = self.engine.number_of(text, node)
        except LineRefused as refusal:
            raise Refusal(self.why(text, node, str(refusal))) from None
        return {**plain(text, number(found, form)), "evaluateName": whole}

    def why(self, text, node, refusal):
        """What helps beside a refusal: a name that is none of the process, as a local variable has."""
        if text.strip().isidentifier():
            return "%s is no variable of %s, and local variables are not told" % (text.strip(), node)
        return refusal


def node_in(engine, text, node):
    """The process that a path names, or this one."""
    found = engine.names.reference(text.lstrip("*& "), 0)
    return found[0] if found else node


def or_none(read):
    try:
        return read()
    except Refusal:
        return None


def is_spelled(value):
    return value.count(MOST_SPELLED) <= MOST_SPELLED


def range_of(value):
    """The address and the size of what is spelled of a variable; None if it is not in memory."""
    address = address_of(value) if is_spelled(value) else None
    return None if address is None else (address, value.size)


def address_of(value):
    return or_none(lambda: value.bytes.start(value.offset))
