"""Records 16 processes that pass datagrams round in a ring, at a hundredth, a tenth and all of the most events
that a schedule can try, and replays their logs, all together and one of them by itself; and records a mailbox in
which datagrams wait, few and many. Prints the instructions, the time and the writes for each event, and the peak
memory. The guest is built with wat2wasm of the package wabt.
"""

import os
import re
import shutil
import subprocess
import tempfile

from costs import build, events_in, instructions, play, program_of
from ring import build_ring, rounds_of, write_ring

PROGRAM = program_of(__doc__)
RECORD = [PROGRAM, "record", "s"]

# Takes datagrams for ever.
TAKER = """(module
  (import "liblog" "recv" (func $recv (param i32 i32 i32) (result i32)))
  (memory 1)
  (func (export "_start")
    (loop (drop (call $recv (i32.const 8) (i32.const 16) (i32.const 4))) (br 0))))
"""


# So many datagrams wait, and then a hundred thousand are put after them while as many are taken.
def write_taker(path, waiting):
    with open(path, "w") as file:
        file.write("friday 1\nprocess taker taker.wasm\nrun 0 0\n")
        for _ in range(waiting):
            file.write("inject 0 00\n")
        for _ in range(100_000):
            file.write("inject 0 00\nrun 0 0\n")


# The calls of write by strace's count.
def writes(folder):
    if shutil.which("strace") is None:
        return None
    words = ["strace", "-c", "-e", "trace=write,openat,open", *RECORD]
    told = subprocess.run(words, cwd=folder, stdout=subprocess.DEVNULL, stderr=subprocess.PIPE, text=True).stderr
    return sum(int(line.split()[3]) for line in told.splitlines() if line.endswith(" write"))


def run(folder, write, size, counted):
    write(os.path.join(folder, "s"), size)
    for name in logs_in(folder):
        os.remove(os.path.join(folder, name))
    call = play(RECORD, folder)
    acted = int(re.search(r"items: (\d+) acted", call.text).group(1))
    logs = sum(os.path.getsize(os.path.join(folder, name)) for name in logs_in(folder))
    counts = (instructions(RECORD, folder), writes(folder)) if counted else (None, None)
    return (events_in(call.text), acted, call.took, call.peak, logs) + counts


def logs_in(folder):
    return sorted(name for name in os.listdir(folder) if name.endswith(".log"))


# Replays the logs that a recording left.
def replay(folder, name, logs, counted):
    words = [PROGRAM, "replay", *(word for log in logs for word in ("ring.wasm", log))]
    call = play(words, folder)
    events = events_in(call.text)
    count = instructions(words, folder) if counted else None
    each = "" if count is None else ", %.0f instructions" % (count / events)
    print("replay of %s: %d events, for each %.0f ns%s; peak %.1f MB" % (name, events, call.took / events * 1e9, each, call.peak / 1e6))


def tell(name, size, told):
    events, acted, spent, peak, logs, counted, written = told
    each = "" if counted is None else ", %.0f instructions (%.0f for each step)" % (counted / events, counted / acted)
    calls = "" if written is None else ", %.3f writes" % (written / events)
    print("%s %d: %d events, for each %.0f ns%s%s; logs %d bytes, peak %.1f MB" % (name, size, events, spent / events * 1e9, each, calls, logs, peak / 1e6))


def main():
    with tempfile.TemporaryDirectory() as folder:
        build_ring(folder)
        build(folder, "taker", TAKER)
        for events in (10_000, 100_000, 1_000_000):
            tell("ring", events, run(folder, write_ring, rounds_of(events), events <= 100_000))
            logs = logs_in(folder)
            replay(folder, "all logs", logs, events <= 100_000)
            replay(folder, "one log", logs[:1], events <= 100_000)
        for waiting in (100, 10_000, 100_000):
            tell("waiting", waiting, run(folder, write_taker, waiting, True))


if __name__ == "__main__":
    main()
