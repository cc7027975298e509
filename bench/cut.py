"""Records 16 processes that pass datagrams round in a ring, 9,984 and 100,000 events, and cuts their logs to an event that needs
little and to the last one, which needs nearly all, beside a replay of the same logs. Prints the instructions, the time and the
peak memory of each, and how many events and bytes the logs that are made have. The guest is built with wat2wasm of the package
wabt.
"""

import re
import tempfile

from costs import instructions, play, program_of
from ring import COUNT, build_ring, logs_size, pairs, record_ring, rounds_of

PROGRAM = program_of(__doc__)


# Prints what a call costs, and gives its text and its instructions.
def cost(folder, name, words, events):
    call = play([PROGRAM, *words], folder)
    count = instructions([PROGRAM, *words], folder)
    each = "" if count is None else ", %.0f instructions" % (count / events)
    print("%s: %d events, for each %.0f ns%s; peak %.1f MB" % (name, events, call.spent / events * 1e9, each, call.peak / 1e6), flush=True)
    return call.text, count


def main():
    with tempfile.TemporaryDirectory() as folder:
        build_ring(folder)
        for wanted in (9_984, 100_000):
            events = record_ring(PROGRAM, folder, rounds_of(wanted))
            _, of_replay = cost(folder, "replay", ["replay", *pairs()], events)
            print("logs %d bytes" % logs_size(folder))
            last = events // COUNT
            for name, event in (("cut to event 4", ["0", "4"]), ("cut to event %d" % last, [str(COUNT - 1), str(last)])):
                told, count = cost(folder, name, ["cut", *event, *pairs()], events)
                kept = sum(int(n) for n in re.findall(r": (\d+) of ", told))
                print("kept %d events, made %d bytes" % (kept, logs_size(folder, ending="cut")))
                if None not in (count, of_replay):
                    print("cut beside replay: %.2f" % (count / of_replay), flush=True)


if __name__ == "__main__":
    main()
