"""The same items by `play`, which is sent each in a line, and by `record`, which has them in its schedule: of 16 processes that pass
datagrams round in a ring, and tries that are idle. Prints for several numbers of items the processor's time and the instructions
of an item, without those of a start, and the peak memory beside the size of the logs. The guest is built with wat2wasm of the
package wabt.
"""

import os
import tempfile

from costs import instructions, play, program_of
from ring import COUNT, build_ring, logs_size, write_ring

PROGRAM = program_of(__doc__)
# Those of a call by valgrind take some fifty times as long.
SIZES, MOST_COUNTED = (2_000, 10_000, 100_000, 900_000), 10_000


def write_parts(folder):
    """The schedule's front by itself, and its items. Lines are copied one by one: the peak of a child is never below that of this
    process."""
    with open(os.path.join(folder, "s")) as whole:
        with open(os.path.join(folder, "front"), "w") as front:
            front.writelines(next(whole) for _ in range(1 + COUNT))
        with open(os.path.join(folder, "items"), "w") as items:
            items.writelines(whole)


def write_events(folder, items):
    """Rounds of a send, its delivery and its receipt."""
    write_ring(os.path.join(folder, "s"), (items - COUNT) // (3 * COUNT))
    write_parts(folder)


def write_idle(folder, items):
    """Thread 1 is not live, so that each try is idle."""
    write_ring(os.path.join(folder, "s"), 0)
    with open(os.path.join(folder, "s"), "a") as file:
        file.writelines("run 0 1\n" for _ in range(items))
    write_parts(folder)


def by_record(folder):
    return play([PROGRAM, "record", "s"], folder, is_heard=False)


def by_play(folder):
    with open(os.path.join(folder, "items")) as items:
        return play([PROGRAM, "play", "front"], folder, is_heard=False, source=items)


def instructions_of(folder):
    """Those of a recording and of a play."""
    with open(os.path.join(folder, "items")) as items:
        return instructions([PROGRAM, "record", "s"], folder), instructions([PROGRAM, "play", "front"], folder, source=items)


def each(count, whole, start):
    return "-" if None in (whole, start) else "%.0f" % ((whole - start) / count)


def tell(folder, what, write, items, at_start):
    write(folder, items)
    with open(os.path.join(folder, "items")) as file:
        count = sum(1 for _ in file)
    calls = [by_record(folder), by_play(folder)]
    counted = instructions_of(folder) if items <= MOST_COUNTED else (None, None)
    for name, call, whole, start in zip(("record", "play"), calls, counted, at_start):
        told = (what, name, count, call.spent * 1e9 / count, each(count, whole, start), call.peak, logs_size(folder))
        print("%-8s %-8s %9d %10.0f %14s %12d %12d" % told, flush=True)


def main():
    with tempfile.TemporaryDirectory() as folder:
        build_ring(folder)
        write_idle(folder, 0)
        at_start = instructions_of(folder)
        print("%-8s %-8s %9s %10s %14s %12s %12s" % ("items", "by", "count", "ns each", "instructions", "peak bytes", "bytes of logs"))
        for what, write in (("events", write_events), ("idle", write_idle)):
            for items in SIZES:
                tell(folder, what, write, items, at_start)


if __name__ == "__main__":
    main()
