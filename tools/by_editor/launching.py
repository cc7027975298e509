"""What an editor's configuration says: the logs of a group with their modules, or a schedule that is recorded first."""

import os
import subprocess

from asking.program import program_of
from sessions.engine import Engine
from sessions.names import Refusal
from sessions.sources import Sources


class Launch:
    """A configuration, with the files in it as seen from its folder."""

    def __init__(self, settings, program, tell):
        self.settings, self.tell = settings, tell
        self.folder = os.path.abspath(self.text("cwd") or ".")
        self.program = self.path(self.text("program")) if self.text("program") else program_of(program)
        self.pairs = self.found_pairs()
        self.sources = Sources(self.pairs[::2], map(self.path, self.texts("sources")))

    def text(self, name):
        value = self.settings.get(name)
        if value is not None and not isinstance(value, str):
            raise Refusal("%s is a text" % name)
        return value

    def texts(self, name):
        values = self.settings.get(name) or []
        if not isinstance(values, list) or not all(isinstance(value, str) for value in values):
            raise Refusal("%s is a list of texts" % name)
        return values

    @property
    def watches(self):
        """Expressions over the group by their names."""
        values = self.settings.get("watches") or {}
        if not isinstance(values, dict) or not all(isinstance(value, str) for value in values.values()):
            raise Refusal("watches have a name and an expression each")
        return values

    @property
    def steps_back_by_thread(self):
        return self.settings.get("stepBack") == "thread"

    @property
    def stops_on_entry(self):
        return self.settings.get("stopOnEntry", True)

    def position(self, last):
        """Where the session begins."""
        value = self.settings.get("position") or 0
        if value == "end":
            return last
        if not isinstance(value, int) or not 0 <= value <= last:
            raise Refusal("position is a number up to %d, or `end`" % last)
        return value

    def path(self, name):
        return os.path.join(self.folder, name)

    def found_pairs(self):
        pairs = self.texts("pairs")
        if self.text("schedule"):
            return self.recorded(self.path(self.text("schedule")))
        if not pairs or len(pairs) % 2:
            raise Refusal("launch wants `pairs`, each module with its log, or a `schedule` that is recorded first")
        return [self.path(word) for word in pairs]

    def recorded(self, schedule):
        """Records a schedule in its folder; the pairs of modules and logs."""
        folder = os.path.dirname(schedule)
        words = [self.program, "record", os.path.basename(schedule)]
        done = subprocess.run(words, cwd=folder, stdin=subprocess.DEVNULL, stdout=subprocess.PIPE, text=True, errors="replace")
        self.tell(done.stdout.rstrip("\n"))
        if done.returncode:
            raise Refusal("the schedule was not recorded: %s" % (done.stdout.strip() or "status %d" % done.returncode))
        with open(schedule, encoding="latin-1") as file:
            lines = [line.split() for line in file if line.split()[:1] == ["process"]]
        return [os.path.join(folder, word) for _, name, module in lines for word in (module, name + ".log")]

    def engine(self):
        engine = Engine(self.program, self.pairs, self.tell)
        if engine.refusal is not None:
            refusal = engine.refusal or "the program ended with status %d" % engine.debugger.end()
            engine.close()
            raise Refusal(refusal)
        return engine
