"""One program of 100,000 events with some 1,100 instructions of WebAssembly between two, and what friday takes to record, replay and debug
it beside others that run it: natively, by V8, by wasm-interp, and natively under gdb. The source is peers.c for all of them, and each has
to tell of the same notes. A way that takes long has fewer events, and V8 has more. Prints for each way the processor's seconds and those
of the clock, the median of three, its start included; the processor's time for an event without the start, which is what a run of one
event takes; and how many times the native program's that is. A way whose tool is not installed is left out, and a run is stopped after 60
seconds.
"""

import os
import re
import shutil
import statistics
import subprocess
import tempfile
from collections import defaultdict
from collections.abc import Callable
from dataclasses import dataclass

from costs import TOP, compile_guest, play, program_of, traced

PROGRAM = program_of(__doc__)
TRIES, PATIENCE = 3, 60
# The events of a whole run, of V8, whose start wavers by as much as these take, of a run with a stop at each event, and of one in which
# each machine instruction is kept.
ALL, MANY, SOME, FEW = 100_000, 900_000, 10_000, 50
DEBUG = [PROGRAM, "debug", "a.wasm", "a.log"]
GDB = ["gdb", "-nx", "-q", "-batch", "-x", "lines", "native"]

# `note` in JavaScript.
SCRIPT = """let count = 0, last = 0n;
const liblog = { note(value) { count++; last = value; } };
WebAssembly.instantiate(require("fs").readFileSync("a.wasm"), { liblog }).then(({ instance }) => {
    instance.exports._start();
    console.log(`${count} notes, the last ${last}`);
});
"""

# Stops that go on by themselves: by a condition that counts and never holds, and by lines that gdb, or a program that friday, runs there.
CONDITION = 'set $stops = 0\nbreak liblog_note if $stops++ < 0\nrun\nprintf "%d stops\\n", $stops\n'
LINES = 'set $stops = 0\nbreak liblog_note\ncommands\nsilent\nset $stops = $stops + 1\ncontinue\nend\nrun\nprintf "%d stops\\n", $stops\n'
POINT = "break * note\nset $stops 0\ndo 1 set $stops $stops + 1\ncontinue\nprint $stops\n"
# Every instruction of the guest is kept, so that gdb could go back over it.
KEPT = "set record full insn-number-max unlimited\nbreak guest_start\nrun\nrecord full\nfinish\nrecord stop\ncontinue\n"


@dataclass(frozen=True)
class Way:
    """One way to run the program: its words, what its text has to tell of so many events and of the last note, how many events it is
    measured with, and the lines that it reads for these. A log of friday has one event more, the first."""

    name: str
    words: list
    told: tuple
    events: int = ALL
    lines: Callable = lambda events: ""


COUNTED = "{events} notes, the last {last}\n"
AT_END = "at {all}: {all} a 0 note {last}\n"
# The native program is the first, since the others are told beside it.
WAYS = (
    Way("native", ["./native"], (COUNTED,)),
    Way("native, a write of each note", ["./writes"], (COUNTED,)),
    Way("V8, a call in JavaScript", ["node", "script.js"], (COUNTED,), MANY),
    Way("wasm-interp, a call in the module", ["wasm-interp", "--run-all-exports", "inside.wasm"], ("last() => i64:{last}\n",)),
    Way("wasm-interp, each call printed", ["wasm-interp", "--dummy-import-func", "--run-all-exports", "a.wasm"], ("note(i64:{last}) =>\n_start",)),
    Way("friday record", [PROGRAM, "record", "again"], ("again: {all} events, finished\n",)),
    Way("friday replay", [PROGRAM, "replay", "a.wasm", "a.log"], ("a: {all} events, finished, log whole\n",)),
    Way("friday debug, goto the end", DEBUG, (AT_END,), lines=lambda events: "goto %d\n" % (events + 1)),
    Way("friday debug, continue to the end", DEBUG, (AT_END,), lines=lambda events: "continue\n"),
    Way("friday debug, each event by step", DEBUG, (AT_END,), lines=lambda events: "step\n" * (events + 1)),
    Way("friday debug, a program at each", DEBUG, (AT_END, "\n{events}\n"), lines=lambda events: POINT),
    Way("gdb, a condition at each", GDB, (COUNTED, "{events} stops\n"), SOME, lambda events: CONDITION),
    Way("gdb, commands at each", GDB, (COUNTED, "{events} stops\n"), SOME, lambda events: LINES),
    Way("gdb, record full", GDB, (COUNTED, "Process record is stopped"), FEW, lambda events: KEPT),
)


def compile_native(folder, name, events, *words):
    sources = [os.path.join(TOP, "bench", source) for source in ("peers.c", "peers_host.c")]
    flags = ["-std=c11", "-O2", "-Wall", "-Wextra", "-Werror", "-I", TOP + "/guests", "-DEVENTS=%d" % events]
    subprocess.run([os.environ.get("CLANG", "clang"), *flags, *words, "-o", name, *sources], cwd=folder, check=True)


def write(folder, name, text):
    with open(os.path.join(folder, name), "w") as file:
        file.write(text)


def prepare(folder, events):
    """Makes what the ways run, and gives the last note of the native one."""
    words = ["-Dguest_start=_start", "-DEVENTS=%d" % events]
    compile_guest(folder, "a", ["peers.c"], *words)
    compile_guest(folder, "inside", ["peers.c", "peers_host.c"], *words)
    compile_native(folder, "native", events)
    compile_native(folder, "writes", events, "-DWRITES")
    write(folder, "script.js", SCRIPT)
    # The second recording is the one that is measured, and leaves the log of the first.
    for process in ("a", "again"):
        write(folder, process, "friday 1\nprocess %s a.wasm\nrun 0 0 %d\n" % (process, events + 1))
    play([PROGRAM, "record", "a"], folder)
    return re.search(r"the last (\d+)", play(["./native"], folder).text)[1]


def run(way, events, folder, last):
    """What one run costs, or nothing if it was stopped."""
    write(folder, "lines", way.lines(events))
    with open(os.path.join(folder, "lines")) as lines:
        call = play(["timeout", "--kill-after=5", str(PATIENCE), *way.words], folder, statuses=(0, 124, 137), source=lines)
    if call.took >= PATIENCE:
        return None
    for told in way.told:
        assert told.format(events=events, all=events + 1, last=last) in call.text, (way, events, last, call.text[-1000:])
    return call


def is_there(way):
    return os.path.dirname(way.words[0]) != "" or shutil.which(way.words[0]) is not None


def measure(places):
    """What the runs cost by their way and their events. The ways take turns, so that a busy moment of the machine falls on all of them, and
    one that was stopped is not tried again."""
    calls = defaultdict(list)
    for _ in range(TRIES):
        for way in filter(is_there, WAYS):
            for events in (1, way.events):
                if None not in calls[way.name, events]:
                    calls[way.name, events].append(run(way, events, *places[events]))
    return calls


def costs_of(start, calls, events):
    """The medians of the processor's seconds and the clock's, and the nanoseconds of an event without the start."""
    spent, took = (statistics.median(getattr(call, part) for call in calls) for part in ("spent", "took"))
    return spent, took, (spent - statistics.median(call.spent for call in start)) * 1e9 / (events - 1)


def table(calls):
    print("%-34s %8s %10s %10s %12s %14s" % ("", "events", "processor", "clock", "ns an event", "beside native"))
    native = None
    for way in WAYS:
        start, whole = calls[way.name, 1], calls[way.name, way.events]
        if not is_there(way):
            told = way.words[0] + " is not installed"
        elif None in start + whole:
            told = "over %d s" % PATIENCE
        else:
            costs = costs_of(start, whole, way.events)
            native = native or costs[2]
            told = "%10.3f %10.3f %12.0f %14.1f" % (*costs, costs[2] / native)
        print("%-34s %8d %s" % (way.name, way.events, told), flush=True)


def main():
    with tempfile.TemporaryDirectory() as top:
        places = {}
        for events in (1, FEW, SOME, ALL, MANY):
            folder = os.path.join(top, str(events))
            os.mkdir(folder)
            places[events] = folder, prepare(folder, events)
        if shutil.which("wasm-interp"):
            print("%.0f instructions of WebAssembly between two events" % ((traced(places[FEW][0]) - traced(places[1][0])) / (FEW - 1)), flush=True)
        table(measure(places))


if __name__ == "__main__":
    main()
