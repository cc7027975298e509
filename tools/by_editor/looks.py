"""Requests that look: threads and where they stand, variables, expressions, memory, and sources."""

import base64
import os
import re

from by_editor.tree import Tree
from by_hand.commands import COMMANDS
from by_hand.completion import LINES, offered
from by_hand.session import Session
from by_hand.words import SHORT, expanded
from logs.wording import bytes_lines
from sessions.names import Refusal
from sessions.places import calls_of

MOST_MEMORY = 1_048_576


class Events:
    """The list of all events as a source: line K is the event of position K. Guests without sources have this one."""

    REFERENCE, MOST_WITH_BYTES, MOST = 1, 20_000, 200_000
    source = {"name": "events", "sourceReference": REFERENCE, "origin": "all events of the group"}

    def __init__(self, looks):
        self.looks = looks

    @property
    def is_there(self):
        return self.looks.engine.last <= self.MOST

    def is_of(self, source):
        return source.get("sourceReference") == self.REFERENCE

    def text(self):
        engine = self.looks.engine
        if not self.is_there:
            raise Refusal("a list of %d events is too long to be shown" % engine.last)
        if engine.last <= self.MOST_WITH_BYTES:
            return "\n".join(self.looks.line_of(engine.event_at(position)) for position in range(1, engine.last + 1))
        return "\n".join("%d: %s" % (position, words) for position, words in enumerate(engine.index.brief(), 1))


class Looks:
    def __init__(self, adapter):
        self.adapter, self.events, self.tree, self.frames, self.lines = adapter, Events(self), None, [], []

    @property
    def engine(self):
        return self.adapter.engine

    def begin(self):
        self.session = Session(self.engine, self.lines.append)
        self.engine.keeps_reads, self.session.is_paused = False, self.adapter.is_paused
        self.forget()

    def forget(self):
        """What was told of another position can no longer be opened."""
        self.tree, self.frames = Tree(self.engine, self.adapter.launch.watches), []

    def line_of(self, event):
        words = bytes_lines(event.entry, self.engine.names.called)
        return "; ".join(["%d: %s" % (event.position, event.entry.text(event.log.name)), *words])

    # Threads and frames

    def on_threads(self, **_):
        made, event = [], self.engine.event
        for node in self.engine.names.nodes:
            state, threads = self.engine.threads.standing(node)
            here = event.entry.thread if event and event.log.name == node else None
            shown = {thread: how for thread, how in threads.items() if how != "ended" or thread == here}
            shown = shown or {here or self.engine.threads.trapped(node) or 0: state}
            for thread, how in shown.items():
                made.append({"id": self.adapter.moves.thread_id(node, thread), "name": "%s %d %s" % (node, thread, how)})
        return {"threads": made}

    def on_stackTrace(self, threadId, startFrame=0, levels=0, **_):
        """The functions in which the thread is, with where they stand in the source, and its last event in the list of all."""
        node, thread = self.adapter.moves.thread(threadId)
        found = self.frames_of(node, thread)
        first = len(self.frames) + 1
        self.frames += [node] * len(found)
        made = [{"id": first + at, "column": 1 if frame["line"] else 0, **frame} for at, frame in enumerate(found)]
        return {"stackFrames": made[startFrame : startFrame + levels if levels else None], "totalFrames": len(made)}

    def frames_of(self, node, thread):
        how, last = self.engine.threads.how(node, thread), self.engine.threads.last_event(node, thread)
        stack = self.engine.frames.of(node, thread)
        found = [self.frame(frame, how if at == 0 else "") for at, frame in enumerate(stack.frames)]
        if stack.more:
            found.append({"name": "and %d more" % stack.more, "line": 0, "presentationHint": "label"})
        if last:
            listed = {"line": last, "source": self.events.source} if self.events.is_there else {"line": 0}
            event = {"name": "event " + self.engine.line_at(last), **listed}
            # A client shows the first frame.
            found = [*found, event] if any("source" in frame for frame in found) else [event, *found]
        return found or [{"name": "%s %d: %s" % (node, thread, how), "line": 0}]

    def frame(self, frame, how):
        """A function at the line of its call or its first one, and of the innermost how the thread stands."""
        name = "%s in %s" % (frame.call.function, frame.name) if frame.call and frame.call.function != frame.name else frame.name
        path = self.adapter.launch.sources.path(frame.place[0]) if frame.place else None
        shown = {"source": {"name": os.path.basename(path), "path": path}} if path else {}
        return {"name": ", ".join(filter(None, (name, how))), "line": frame.place[1] if path else 0, **shown}

    def node_of(self, frame):
        """The process of a frame; without one that of the last event."""
        if not isinstance(frame, int) or not 1 <= frame <= len(self.frames):
            return self.engine.current
        return self.frames[frame - 1]

    # Variables

    def on_scopes(self, frameId, **_):
        return {"scopes": self.tree.scopes(self.node_of(frameId))}

    def on_variables(self, variablesReference, start=0, count=None, format=None, **_):
        return {"variables": self.tree.children(variablesReference, form_of(format), start, count)}

    def path_of(self, reference, name):
        """What stands for a variable of the pane in an expression."""
        found = [child for child in self.tree.children(reference) if child["name"] == name]
        return found[0].get("evaluateName") if found else None

    def on_setVariable(self, **_):
        raise Refusal("a replay makes what was recorded, so no variable is ever set")

    def on_evaluate(self, expression, frameId=None, context="repl", format=None, **_):
        """`:LINE` is a line of a session everywhere, since some clients have one box for all; in a console other lines may be too."""
        if expression.startswith(":"):
            return {"result": self.console(expression[1:]), "variablesReference": 0}
        if context == "repl" and (not expression.strip() or expanded(expression)[0] in (*COMMANDS, *LINES, *SHORT, "info", "i")):
            return {"result": self.console(expression), "variablesReference": 0}
        made = self.tree.value(expression, self.node_of(frameId), form_of(format))
        kept = ("type", "indexedVariables", "variablesReference", "presentationHint", "memoryReference")
        return {**{key: made[key] for key in kept if key in made}, "result": made["value"]}

    def console(self, line):
        """A line of a session by hand. A walk is made as a button makes it, so that it can be paused."""
        word, _, rest = expanded(line)
        if word in ("continue", "rcontinue") and not rest:
            moves = self.adapter.moves
            self.adapter.after = [moves.walk_back if word == "rcontinue" else lambda: moves.walk(self.engine.last, "end")]
            return ""
        start = self.engine.position
        self.lines.clear()
        self.session.handle(line)
        if self.session.over:
            self.adapter.over, self.adapter.after = True, [lambda: self.adapter.event("terminated")]
        elif self.engine.position != start:
            self.adapter.after = [lambda: self.adapter.moves.stopped("goto")]
        return "\n".join(self.lines)

    def on_completions(self, text, column, **_):
        start = re.search(r"[\w.]*$", text[: column - 1])[0]
        found = offered(self.engine.names, start)
        return {"targets": [{"label": word, "start": column - 1 - len(start), "length": len(start)} for word in found]}

    # Sources and memory

    def on_source(self, sourceReference=0, **_):
        if sourceReference != Events.REFERENCE:
            raise Refusal("no such source")
        return {"content": self.events.text(), "mimeType": "text/plain"}

    def on_loadedSources(self, **_):
        names = self.engine.names
        files = {call.file for node in names.nodes for call in calls_of(names, node)}
        files |= {function.file for node in names.nodes for function in names.functions(node).values() if function.file}
        paths = sorted(filter(None, map(self.adapter.launch.sources.path, files)))
        listed = [self.events.source] if self.events.is_there else []
        return {"sources": listed + [{"name": os.path.basename(path), "path": path} for path in paths]}

    def on_readMemory(self, memoryReference, count, offset=0, **_):
        node, _, address = memoryReference.partition(":")
        start = int(address, 0) + offset
        if node not in self.engine.names.nodes or start < 0 or not 0 <= count <= MOST_MEMORY:
            raise Refusal("memory is NODE:ADDRESS, and at most %d bytes of it are read" % MOST_MEMORY)
        data = self.engine.memory(node).read(start, count)
        return {"address": hex(start), "data": base64.b64encode(data).decode(), "unreadableBytes": count - len(data)}


def form_of(format):
    return "x" if isinstance(format, dict) and format.get("hex") else ""
