"""Replays a log of 320 KB and one of the full 33,554,432 bytes, both of whole entries after the end of the process, and
migrates them, which reads each of these entries; in each version of logs. Prints the time and the instructions, for each byte
of a replay and for each entry that is migrated, and the peak memory.
"""

import os
import statistics
import tempfile

from costs import TOP, instructions, play, program_of
from logs.format import CALLS, Entry, Log, spelled, spelled_entry

PROGRAM = program_of(__doc__)
MODULE = os.path.join(TOP, "examples", "first", "a.wasm")
# Names with which a head and whole entries make 33,554,432 bytes exactly, by the version of the log.
NAMES = {1: "process", 2: "process_"}


def entry(clock, name, arguments=(), reply=0):
    return Entry(clock, 0, next(call for call in CALLS if call.name == name), 0, arguments, reply, b"", b"", None)


# The log is written in pieces: the peak of a child is never below that of this process. Gives the number of entries.
def write_log(path, version, size):
    events = [entry(1, "begin"), entry(2, "now", reply=5), entry(3, "note", (5,))]
    front, more = spelled(Log(1, 0, NAMES[version], events, version)), spelled_entry(entry(3, "begin"), 3, version)
    count = max(size - len(front), 0) // len(more)
    with open(path, "wb") as file:
        file.write(front)
        for _ in range(count):
            file.write(more)
    return len(events) + count


# The median of the seconds, the instructions, and the peak memory.
def run(command, times):
    spent, peak = [], 0
    for _ in range(times):
        call = play([PROGRAM, *command], statuses=(0, 1), is_heard=False)  # an entry after the end diverges
        spent.append(call.took)
        peak = max(peak, call.peak)
    return statistics.median(spent), instructions([PROGRAM, *command]), peak


def tell(folder, version):
    log, new = os.path.join(folder, "log"), os.path.join(folder, "new")
    for name, command in (("replay", ["replay", MODULE, log]), ("migrate", ["migrate", log, new])):
        write_log(log, version, 0)
        empty, at_start, _ = run(command, 200)
        for size in (327680, 33554432):
            entries = write_log(log, version, size)
            spent, counted, peak = run(command, 200 if size < 1000000 else 20)
            units = entries if name == "migrate" else size
            each = "-" if None in (counted, at_start) else "%.3f" % ((counted - at_start) / units)
            print("%-8s %7d %9d %8d %9.4f %10.3f %14s %12d" % (name, version, size, entries, spent, (spent - empty) * 1e9 / units, each, peak), flush=True)


def main():
    with tempfile.TemporaryDirectory() as folder:
        print("%-8s %7s %9s %8s %9s %10s %14s %12s" % ("command", "version", "bytes", "entries", "seconds", "ns each", "instr. each", "peak bytes"))
        for version in (1, 2):
            tell(folder, version)


if __name__ == "__main__":
    main()
