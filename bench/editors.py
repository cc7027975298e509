"""An editor and a session by hand over 16 processes that pass datagrams round in a ring, with logs of 100,000 and 1,000,000 events: each
request to tools/dap and each line of tools/session, from the launch on. Prints the seconds of the clock until the answer, or until the
stop that follows, and those of the processor in the tool and in the program, which tell more on a machine that is at work on other
things. The guest is built with wat2wasm of the package wabt.
"""

import os
import sys
import tempfile
import time

from costs import TOP, parser_of
from ring import build_ring, pairs, record_ring, rounds_of

# The client of an editor and the terminal are those of the checks.
sys.path.append(os.path.join(TOP, "tools", "checks"))

from check_typed import Terminal, command  # noqa: E402 (they lie beside the checks)
from editor import Editor  # noqa: E402

TICK = os.sysconf("SC_CLK_TCK")
# Numbers that each event of a process changes, that change a few times in all, and that never change.
OFTEN, SELDOM, NEVER = "@p3.events", "@p3.events / 5000", "@p3.u32[8192]"


def seconds_of(process):
    """The processor's seconds of a process so far, and of those that it began and that have ended."""
    with open("/proc/%d/stat" % process, encoding="ascii") as file:
        user, system, ended_user, ended_system = map(int, file.read().rpartition(")")[2].split()[11:15])
    return (user + system) / TICK, (ended_user + ended_system) / TICK


def children_of(process):
    with open("/proc/%d/task/%d/children" % (process, process), encoding="ascii") as file:
        return list(map(int, file.read().split()))


class Clock:
    """What lines and requests take of a tool and the program behind it."""

    def __init__(self, events, tool):
        self.events, self.tool = events, tool

    def spent(self):
        own, ended = seconds_of(self.tool)
        return own, ended + sum(seconds_of(child)[0] for child in children_of(self.tool))

    def time(self, name, act, begun=None):
        """The answer to what is asked; `begun` is when it began, if that was before."""
        before = (0, 0) if begun else self.spent()
        start = begun or time.perf_counter()
        answer = act()
        took, after = time.perf_counter() - start, self.spent()
        print("%8d  %-32s %9.3f %9.2f %9.2f" % (self.events, name, took, after[0] - before[0], after[1] - before[1]), flush=True)
        return answer


def editor_table(program, folder, events):
    begun = time.perf_counter()
    editor = Editor(program, folder)
    clock = Clock(events, editor.adapter.pid)
    clock.time("initialize", lambda: editor.ask("initialize", adapterID="friday", linesStartAt1=True, columnsStartAt1=True), begun)
    clock.time("launch", lambda: editor.ask("launch", pairs=pairs(), watches={"seldom": SELDOM}))
    clock.time("configurationDone", lambda: (editor.ask("configurationDone"), editor.event("stopped")))
    look(editor, clock)
    clock.time("continue to the end", lambda: editor.move("continue", threadId=1))
    look(editor, clock)
    for command in ("stepBack", "stepIn", "next", "stepOut"):
        editor.ask("goto", threadId=1, targetId=events // 2)
        editor.event("stopped")
        clock.time(command, lambda: editor.move(command, threadId=1))
    for name, place in (("goto of the middle", events // 2), ("goto of the end", events)):
        clock.time(name, lambda: (editor.ask("goto", threadId=1, targetId=place), editor.event("stopped")))
    watch(editor, clock, "a change nearby", OFTEN)
    watch(editor, clock, "a change far away", SELDOM)
    watch(editor, clock, "no change at all", NEVER)
    clock.time("continue, and pause", lambda: paused(editor))
    status, errors = editor.end()
    assert (status, errors) == (0, ""), (status, errors)


def look(editor, clock):
    """What an editor asks at each stop."""
    threads = clock.time("threads", lambda: editor.ask("threads"))["threads"]
    clock.time("stackTrace", lambda: editor.ask("stackTrace", threadId=threads[0]["id"]))
    scopes = clock.time("scopes", lambda: editor.ask("scopes", frameId=threads[0]["id"]))["scopes"]
    clock.time("variables of all scopes", lambda: [editor.ask("variables", variablesReference=scope["variablesReference"]) for scope in scopes])
    clock.time("evaluate", lambda: editor.ask("evaluate", expression="sum(@_.u32[8])", context="watch"))


def watch(editor, clock, name, expression):
    """Both ways, from the end back and on again."""
    clock.time("setFunctionBreakpoints", lambda: editor.ask("setFunctionBreakpoints", breakpoints=[{"name": "watch " + expression}]))
    clock.time("reverseContinue, " + name, lambda: editor.move("reverseContinue", threadId=1))
    clock.time("continue, " + name, lambda: editor.move("continue", threadId=1))
    editor.ask("setFunctionBreakpoints", breakpoints=[])
    editor.move("continue", threadId=1)


def paused(editor):
    editor.ask("goto", threadId=1, targetId=1)
    editor.event("stopped")
    editor.ask("continue", threadId=1)
    editor.ask("pause", threadId=1)
    return editor.event("stopped")


def session_table(program, folder, events):
    """A session by hand, in a terminal."""
    begun = time.perf_counter()
    terminal = Terminal(command(program, pairs()), folder)
    clock = Clock(events, terminal.run.pid)
    clock.time("session: until its first prompt", terminal.wait, begun)
    for line in ("where", "t", "goto %d" % events, "where", "t", "w " + OFTEN, "rc", "c", "d 1", "w " + SELDOM, "rc", "c", "d 2", "w " + NEVER, "rc", "c"):
        clock.time("session: " + line, lambda: (terminal.type(line), terminal.wait()))
    terminal.type("q")
    status, text = terminal.end()
    assert status == 0, text[-2000:]


def main():
    parser = parser_of(__doc__)
    parser.add_argument("--events", type=int, action="append", help="how many events the logs have, in place of both")
    chosen = parser.parse_args()
    print("%8s  %-32s %9s %9s %9s" % ("events", "request, or line", "clock", "tool", "program"))
    for wanted in chosen.events or (100_000, 1_000_000):
        with tempfile.TemporaryDirectory() as folder:
            build_ring(folder)
            events = record_ring(chosen.program, folder, rounds_of(wanted))
            editor_table(chosen.program, folder, events)
            session_table(chosen.program, folder, events)


if __name__ == "__main__":
    main()
