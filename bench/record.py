"""Records from schedules of comment lines, of idle tries in one item, and of idle tries in an item each,
at a tenth of the limit and at the limit: 16,777,216 bytes, 1,000,000 tries. Prints the time and the
instructions per byte or per try, and the peak memory.
"""

import os
import shutil
import statistics
import tempfile

from costs import TOP, instructions, play, program_of

PROGRAM = program_of(__doc__)
RECORD = [PROGRAM, "record", "s"]
FRONT = b"friday 1\nprocess a a.wasm\n"


# The lines are written in pieces: the peak of a child is never below that of this process.
def write_comments(file, size):
    line = b"# " + b"-" * 61 + b"\n"
    count, more = divmod(size - len(FRONT), len(line))
    for _ in range(count):
        file.write(line)
    file.write(b"#" * more)


# Thread 1 is not live, so that each try is idle.
def write_one_item(file, tries):
    file.write(b"run 0 1 %d\n" % tries)


def write_items(file, tries):
    for _ in range(tries):
        file.write(b"run 0 1\n")


def run(folder, write, size, times):
    with open(os.path.join(folder, "s"), "wb") as file:
        file.write(FRONT)
        write(file, size)
    spent, peak = [], 0
    for _ in range(times):
        call = play(RECORD, folder, is_heard=False)
        spent.append(call.took)
        peak = max(peak, call.peak)
    return statistics.median(spent), peak, instructions(RECORD, folder)


def main():
    with tempfile.TemporaryDirectory() as folder:
        shutil.copy(os.path.join(TOP, "examples", "first", "a.wasm"), os.path.join(folder, "a.wasm"))
        empty, base, at_start = run(folder, write_items, 0, 50)
        print("start: %.4f seconds; peak not below %d bytes" % (empty, base))
        print("%-22s %10s %10s %10s %12s %16s" % ("of", "count", "seconds", "ns each", "peak bytes", "instructions each"))
        for what, write, size in (
            ("bytes of comments", write_comments, 16777216),
            ("tries in one item", write_one_item, 1000000),
            ("tries, an item each", write_items, 1000000),
        ):
            for count, times in ((size // 10, 20), (size, 10)):
                spent, peak, told = run(folder, write, count, times)
                each = "-" if told is None else "%.3f" % ((told - at_start) / count)
                nanoseconds = (spent - empty) * 1e9 / count
                print("%-22s %10d %10.4f %10.3f %12d %16s" % (what, count, spent, nanoseconds, peak, each))


if __name__ == "__main__":
    main()
