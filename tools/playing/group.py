"""The processes of a group: what their modules import, and a schedule with nothing but their lines."""

import os
import shutil
import tempfile

from playing.player import Player

# The calls of the library for whose sake the world is drawn.
ASKED = ("now", "sleep_until", "random")


class Group:
    def __init__(self, program, processes):
        """`processes` are pairs of a name and a module."""
        self.program, self.processes = os.path.abspath(program), processes
        self.names = [name for name, _ in processes]
        self.lines = ["friday 1", *("process %s %s" % pair for pair in processes)]
        imported = {}
        for _, module in processes:
            if module not in imported:
                imported[module] = imports_of(module)
        self.imported = [imported[module] for _, module in processes]

    def __enter__(self):
        self.folder = tempfile.mkdtemp()
        self.schedule = os.path.join(self.folder, "schedule")
        with open(self.schedule, "w", encoding="ascii") as file:
            file.write("\n".join(self.lines) + "\n")
        return self

    def __exit__(self, *_):
        shutil.rmtree(self.folder)

    def imports(self, process, call):
        """Whether the module names this call of the library, as an import spells it."""
        return call in self.imported[process]

    def player(self):
        return Player(self.program, self.schedule, len(self.processes))


def imports_of(path):
    with open(path, "rb") as file:
        module = file.read()
    return {call for call in ASKED if b"\x06liblog" + bytes([len(call)]) + call.encode() in module}
