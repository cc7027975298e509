"""Names of variables in lines that are typed, of a group that has no logs yet."""

from sessions.names import Names


class NamesOfGroup(Names):
    def __init__(self, processes, told):
        """`processes` are pairs of a name and a module; `told` hears of those without names of variables."""
        self.nodes, self.paths, self.modules = [name for name, _ in processes], [], dict(processes)
        self.called = dict(enumerate(self.nodes))
        self.read_tables(told)
