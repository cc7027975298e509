"""The requests of an editor, one after the other, and what answers them."""

import os
import queue
import sys
import threading

from asking.conversation import Ended
from by_editor.breakpoints import FILTERS, Breakpoints
from by_editor.launching import Launch
from by_editor.looks import Looks
from by_editor.moves import Moves
from by_editor.wire import Broken, NoMessage
from sessions.names import Refusal

CAPABILITIES = (
    "BreakpointLocationsRequest CompletionsRequest ConditionalBreakpoints ConfigurationDoneRequest DataBreakpoints"
    " DelayedStackTraceLoading EvaluateForHovers ExceptionFilterOptions FunctionBreakpoints GotoTargetsRequest"
    " HitConditionalBreakpoints LoadedSourcesRequest LogPoints ReadMemoryRequest RestartRequest StepBack StepInTargetsRequest"
    " SteppingGranularity TerminateRequest ValueFormattingOptions"
).split()
BEFORE_LAUNCH = ("initialize", "launch", "disconnect", "terminate", "pause")
# Of these a walk that is on hears at once.
ENDS_WALKS = ("pause", "disconnect", "terminate")


class Adapter:
    def __init__(self, wire, program):
        self.wire, self.program, self.requests, self.over = wire, program, queue.Queue(), False
        # How many requests that end walks have come, and how many of them were answered; each is counted by one thread.
        self.heard, self.answered = 0, 0
        self.client, self.launch, self.engine, self.after = {}, None, None, []
        self.moves, self.looks, self.breakpoints = Moves(self), Looks(self), Breakpoints(self)

    def run(self):
        threading.Thread(target=self.read, daemon=True).start()
        try:
            while not self.over and (request := self.requests.get()) is not None:
                self.answer(request)
        finally:
            if self.engine:
                self.engine.close()

    def read(self):
        """Takes requests as they come, since a pause comes in the midst of a walk."""
        try:
            while True:
                try:
                    request = self.wire.receive()
                except NoMessage as error:
                    print("%s came, and is passed over" % error, file=sys.stderr)
                    continue
                if request is None:
                    break
                self.heard += request["command"] in ENDS_WALKS
                self.requests.put(request)
        except (Broken, OSError, ValueError) as error:
            print("the session ends: %s" % error, file=sys.stderr)
        self.heard += 1
        self.requests.put(None)

    def is_paused(self):
        return self.heard > self.answered

    def answer(self, request):
        command, arguments = request["command"], request.get("arguments")
        self.answered += command in ENDS_WALKS
        head, self.after = {"request_seq": request.get("seq", 0), "command": command}, []
        try:
            body = self.handler(command)(**(arguments if isinstance(arguments, dict) else {}))
            self.wire.send("response", success=True, **head, **({"body": body} if body else {}))
            for event in self.after:
                event()
        except (BrokenPipeError, ConnectionError):
            self.over = True
        except Ended as ended:
            self.refuse(head, "the program ended with status %s" % ended)
            self.event("terminated")
        except (Refusal, OSError, LookupError, TypeError, ValueError, AttributeError, ArithmeticError, RecursionError) as error:
            self.refuse(head, str(error) or type(error).__name__)

    def handler(self, command):
        found = (getattr(part, "on_" + command, None) for part in (self, self.moves, self.looks, self.breakpoints))
        handler = next(filter(None, found), None)
        if handler is None:
            raise Refusal("%s is not answered here" % command)
        if self.engine is None and command not in BEFORE_LAUNCH:
            raise Refusal("%s is not answered before launch" % command)
        return handler

    def refuse(self, head, text):
        body = {"error": {"id": 1, "format": text.replace("{", "(").replace("}", ")"), "showUser": True}}
        self.wire.send("response", success=False, message=text, body=body, **head)

    def event(self, name, **body):
        self.wire.send("event", event=name, **({"body": body} if body else {}))

    def tell(self, text, category="console", **more):
        self.event("output", category=category, output=text + "\n", **more)

    # The session

    def on_initialize(self, **client):
        self.client = client
        filters = {"exceptionBreakpointFilters": FILTERS, "completionTriggerCharacters": ["."]}
        return {**{"supports" + name: True for name in CAPABILITIES}, **filters}

    def on_launch(self, **settings):
        self.begin(settings)
        self.after = [lambda: self.event("initialized")]

    def begin(self, settings):
        launch = Launch(settings, self.program, self.tell)
        engine = launch.engine()
        if self.engine:
            self.engine.close()
        self.launch, self.engine = launch, engine
        self.looks.begin()
        self.breakpoints.begin()
        for line in engine.warnings():
            self.tell(line, "important")
        self.tell("%d events of %s" % (engine.last, ", ".join(engine.names.nodes)))

    def on_configurationDone(self, **_):
        self.after = [self.moves.enter]

    def on_restart(self, arguments=None, **_):
        """Takes logs and modules anew, and puts the breakpoints again."""
        self.begin(arguments if isinstance(arguments, dict) and arguments else self.launch.settings)
        self.after = [self.breakpoints.put_again, self.moves.enter]

    def on_disconnect(self, **_):
        self.over = True

    def on_terminate(self, **_):
        self.after = [lambda: self.event("terminated")]


def end_at_once():
    """The thread that reads may still be in the midst of it."""
    sys.stderr.flush()
    os._exit(0)
