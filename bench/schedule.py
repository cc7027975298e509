"""Records 16 processes that pass datagrams round in a ring, 10,000 and 100,000 events, and makes the schedule of their logs,
beside a replay of the same logs. Prints the instructions, the time and the peak memory of both, and how many bytes the logs
and the schedule have. The schedule may take twice what the replay takes, and memory for the logs and the text. The guest is
built with wat2wasm of the package wabt.
"""

import tempfile

from costs import instructions, play, program_of
from ring import build_ring, logs_size, pairs, record_ring, rounds_of

PROGRAM = program_of(__doc__)
MOST = 2


def main():
    with tempfile.TemporaryDirectory() as folder:
        build_ring(folder)
        for wanted in (10_000, 100_000):
            events = record_ring(PROGRAM, folder, rounds_of(wanted))
            counts = {}
            for verb in ("replay", "schedule"):
                call = play([PROGRAM, verb, *pairs()], folder)
                counts[verb] = instructions([PROGRAM, verb, *pairs()], folder)
                each = "" if counts[verb] is None else ", %.0f instructions" % (counts[verb] / events)
                print("%s: %d events, for each %.0f ns%s; peak %.1f MB" % (verb, events, call.spent / events * 1e9, each, call.peak / 1e6), flush=True)
            print("logs %d bytes, schedule %d bytes" % (logs_size(folder), len(call.text)))
            if None not in counts.values():
                ratio = counts["schedule"] / counts["replay"]
                print("schedule beside replay: %.2f%s" % (ratio, "" if ratio <= MOST else ", which is more than %d" % MOST), flush=True)


if __name__ == "__main__":
    main()
