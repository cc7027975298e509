"""`continue` over 16 processes that pass datagrams round in a ring, from position 0 to the end, with 0, 1, 10 and 60
watchpoints that read what no event touches, in logs of 100,000 and 1,000,000 events; beside `goto` to the end, a walk with a
breakpoint whose program counts the sends, one with a watched sum over all processes whose pages the receives touch, and
`rcontinue` over the same positions from the end. The other watchpoints read a number of one process, or add up one of each
process, or are 64 of 505 tokens, each over all processes. Prints the processor's time for each event, and that for each
watchpoint at one event, run of the program or evaluation of the touched sum, which is what the walk takes longer than
without points; instructions by valgrind for the shorter logs; and the peak of memory. The guest is built with wat2wasm of
the package wabt.
"""

import os
import subprocess
import tempfile

from costs import instructions, program_of
from ring import COUNT, build_ring, pairs, record_ring, rounds_of

PROGRAM = program_of(__doc__)
DEBUG = [PROGRAM, "debug", *pairs()]
TRIES = 3

# A program that counts the sends.
COUNTING = ["set $sends 0", "break * send", "do 1 set $sends $sends + 1", "continue"]
# A sum over pages that each receive writes to, elsewhere, so that it is evaluated and never fires.
TOUCHED = ["watch sum(@_.u32[4000])", "continue"]
# What no event touches: a number of one process, one of each, and 63 numbers of them all.
ONE = ["@p%d.u32[%d]" % (n % COUNT, 8192 + 4 * n) for n in range(60)]
EACH = ["sum(@_.u32[%d])" % (8192 + 4 * n) for n in range(60)]
LONG = ["(" + " + ".join("@p%d.u32[%d]" % (term % COUNT, 8192 + 4 * (63 * n + term)) for term in range(63)) + ")" for n in range(64)]
SOME = (1, 10, 60)


# The processor's seconds of a session of these lines, and its peak of memory.
def ask(folder, lines):
    given = "".join(line + "\n" for line in lines).encode()
    child = subprocess.Popen(DEBUG, cwd=folder, stdin=subprocess.PIPE, stdout=subprocess.DEVNULL)
    child.stdin.write(given)
    child.stdin.close()
    _, status, usage = os.wait4(child.pid, 0)
    assert os.waitstatus_to_exitcode(status) == 0, status
    return usage.ru_utime + usage.ru_stime, usage.ru_maxrss * 1024


# The least of some tries, since the machine may be at work on other things.
def least(folder, lines):
    return tuple(map(min, zip(*(ask(folder, lines) for _ in range(TRIES)))))


def walk(watched):
    return ["watch " + expression for expression in watched] + ["continue"]


def counts_of(folder, *sessions):
    """The instructions of sessions of these lines, or None where none are counted."""
    counts = [instructions(DEBUG, folder, "".join(line + "\n" for line in lines)) for lines in sessions]
    return None if None in counts else counts


# A cost, beside that without watchpoints: for each event, and for each watchpoint at one event.
def shared(cost, bare, events, points):
    if cost is None:
        return "-", "-"
    return "%.0f" % (cost / events), "%.0f" % ((cost - bare) / events / points) if points else "-"


# The time, the peak of memory, and the instructions or None, without those of a session that stays at position 0.
def costs(folder, lines, counted):
    still, (spent, peak) = least(folder, ["# nothing"])[0], least(folder, lines)
    counts = counts_of(folder, lines, ["# nothing"]) if counted else None
    return spent - still, peak, counts and counts[0] - counts[1]


# What `rcontinue` takes from the end, over all positions up to there, since nothing fires.
def costs_back(folder, expressions, events, counted):
    there = ["watch " + expression for expression in expressions] + ["goto %d" % events]
    (spent, _), (both, peak) = least(folder, there), least(folder, there + ["rcontinue"])
    counts = counts_of(folder, there + ["rcontinue"], there) if counted else None
    return both - spent, peak, counts and counts[0] - counts[1]


def table_back(folder, events, counted):
    bare = costs_back(folder, [], events, counted)
    for name, expressions in (("none", []), *(("of each process", EACH[:count]) for count in SOME)):
        points = len(expressions)
        spent, peak, count = costs_back(folder, expressions, events, counted) if points else bare
        each, value = shared(spent * 1e9, bare[0] * 1e9, events, points)
        each_count, value_count = shared(count, bare[2], events, points)
        print("%8d  back %2d %-11.11s %9s %9s %12s %12s %8.1f" % (events, points, name, each, value, each_count, value_count, peak / 1e6), flush=True)


def table(folder, events, counted):
    bare = costs(folder, walk([]), counted)
    rows = [(name, made[:count]) for name, made in (("of one process", ONE), ("of each process", EACH)) for count in SOME]
    for name, expressions in (("none", []), *rows, ("of 505 tokens", LONG)):
        points = len(expressions)
        spent, peak, count = costs(folder, walk(expressions), counted) if points else bare
        each, value = shared(spent * 1e9, bare[0] * 1e9, events, points)
        each_count, value_count = shared(count, bare[2], events, points)
        print("%8d  %2d %-16s %9s %9s %12s %12s %8.1f" % (events, points, name, each, value, each_count, value_count, peak / 1e6), flush=True)
    # As many sends as receives.
    sends = (events - 2 * COUNT) // 2
    for name, lines in (("a program at sends", COUNTING), ("a touched sum", TOUCHED)):
        spent, peak, count = costs(folder, lines, counted)
        each, run = "%.0f" % (spent * 1e9 / events), "%.0f" % ((spent - bare[0]) * 1e9 / sends)
        each_count, run_count = (shared(count, 0, events, 0)[0], "-" if count is None else "%.0f" % ((count - bare[2]) / sends))
        print("%8d  %-19s %9s %9s %12s %12s %8.1f" % (events, name, each, run, each_count, run_count, peak / 1e6), flush=True)
    spent, peak, count = costs(folder, ["goto %d" % events], counted)
    print("%8d  %-19s %9.0f %9s %12s %12s %8.1f" % (events, "goto to the end", spent / events * 1e9, "", shared(count, 0, events, 0)[0], "", peak / 1e6), flush=True)


def main():
    with tempfile.TemporaryDirectory() as folder:
        build_ring(folder)
        print("%8s  %-19s %9s %9s %12s %12s %8s" % ("", "", "ns", "ns", "instructions", "instructions", "peak"))
        print("%8s  %-19s %9s %9s %12s %12s %8s" % ("events", "watchpoints", "an event", "a watch", "an event", "a watch", "MB"))
        for wanted in (100_000, 1_000_000):
            events = record_ring(PROGRAM, folder, rounds_of(wanted))
            table(folder, events, wanted <= 100_000)
            table_back(folder, events, wanted <= 100_000)


if __name__ == "__main__":
    main()
