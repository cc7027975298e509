"""Records a process whose threads yield in turn: one thread, and 64 of them, each event by an item of its own. Prints
the instructions of an event, by the difference of two counts, and the time of an event over 900,000 of them. The guest
is built with wat2wasm of the package wabt.
"""

import os
import tempfile

from costs import build, instructions, play, program_of

PROGRAM = program_of(__doc__)
RECORD = [PROGRAM, "record", "s"]

# Makes one thread less than it is told, and yields for ever in each.
GUEST = """(module
  (import "liblog" "spawn" (func $spawn (param i32 i32) (result i32)))
  (import "liblog" "yield" (func $yield))
  (table 1 funcref)
  (elem (i32.const 0) $spin)
  (func $spin (param i32) (loop (call $yield) (br 0)))
  (func (export "_start") (local $left i32)
    (local.set $left (i32.const %d))
    (block (loop
      (br_if 1 (i32.eqz (local.tee $left (i32.sub (local.get $left) (i32.const 1)))))
      (drop (call $spawn (i32.const 0) (i32.const 0)))
      (br 0)))
    (call $spin (i32.const 0))))
"""


def write(folder, threads, events):
    with open(os.path.join(folder, "s"), "w") as file:
        file.write("friday 1\nprocess a a.wasm\nrun 0 0 %d\n" % (threads + 1))
        for event in range(events):
            file.write("run 0 %d\n" % (event % threads))


def main():
    with tempfile.TemporaryDirectory() as folder:
        for threads in (1, 64):
            build(folder, "a", GUEST % threads)
            counts = []
            for events in (6_400, 64_000):
                write(folder, threads, events)
                counts.append(instructions(RECORD, folder))
            write(folder, threads, 900_000)
            call = play(RECORD, folder)
            assert " 0 idle\n" in call.text, call.text
            each = "" if None in counts else "%.0f instructions, " % ((counts[1] - counts[0]) / 57_600)
            print("%d threads: %s%.0f ns for each event" % (threads, each, call.took / 900_000 * 1e9))


if __name__ == "__main__":
    main()
