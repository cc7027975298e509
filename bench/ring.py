"""Processes that pass datagrams round in a ring: their guest, the schedule of so many rounds, and its recording."""

import os

from costs import build, events_in, play

COUNT = 16

# Sends 4 bytes to the next process of the ring and takes those of the one before it, for ever.
RING = """(module
  (import "liblog" "me" (func $me (result i32)))
  (import "liblog" "send" (func $send (param i32 i32 i32) (result i32)))
  (import "liblog" "recv" (func $recv (param i32 i32 i32) (result i32)))
  (memory 1)
  (func (export "_start") (local $next i32)
    (local.set $next (i32.rem_u (i32.add (call $me) (i32.const 1)) (i32.const COUNT)))
    (loop
      (drop (call $send (local.get $next) (i32.const 0) (i32.const 4)))
      (drop (call $recv (i32.const 8) (i32.const 16) (i32.const 4)))
      (br 0))))
"""


def pairs(count=COUNT):
    """The words MODULE LOG .. of the processes."""
    return [word for p in range(count) for word in ("ring.wasm", "p%d.log" % p)]


def logs_size(folder, count=COUNT, ending="log"):
    return sum(os.path.getsize(os.path.join(folder, "p%d.%s" % (p, ending))) for p in range(count))


def build_ring(folder, count=COUNT):
    build(folder, "ring", RING.replace("COUNT", str(count)))


def rounds_of(events):
    """How many rounds a schedule of at most so many events has."""
    return (events - 2 * COUNT) // (2 * COUNT)


def write_ring(path, rounds, count=COUNT):
    """Begin and `me` of each process, and then rounds of a send, its delivery and its receipt."""
    with open(path, "w") as file:
        file.write("friday 1\n")
        for p in range(count):
            file.write("process p%d ring.wasm\n" % p)
        for p in range(count):
            file.write("run %d 0 2\n" % p)
        for round in range(1, rounds + 1):
            for p in range(count):
                file.write("run %d 0\ndeliver %d %d\n" % (p, p, round))
            for p in range(count):
                file.write("run %d 0\n" % p)


def record_ring(program, folder, rounds):
    """Records so many rounds, and gives the number of events."""
    write_ring(os.path.join(folder, "s"), rounds)
    return events_in(play([program, "record", "s"], folder).text)
