"""Records 16 processes that send chunks of streams round in a ring: chunks of 14 bytes, 9,984 and 100,000 events; chunks of 60,000
bytes; and a new stream by each chunk, 100,000 streams. Tells their streams, beside a replay of the same logs: the instructions,
the time and the peak memory of both. The guests are built with wat2wasm of the package wabt.
"""

import tempfile

from costs import build, instructions, play, program_of
from ring import COUNT, logs_size, pairs, record_ring

PROGRAM = program_of(__doc__)
HEAD = 14

# Sends a chunk to the next process of the ring and takes that of the one before it, for ever. The next chunk goes on with the
# stream, or is the first one of the next stream.
SENDER = """(module
  (import "liblog" "me" (func $me (result i32)))
  (import "liblog" "send" (func $send (param i32 i32 i32) (result i32)))
  (import "liblog" "recv" (func $recv (param i32 i32 i32) (result i32)))
  (memory 3)
  (data (i32.const 0) "STRM")
  (func (export "_start") (local $next i32) (local $stream i32) (local $offset i64)
    (local.set $next (i32.rem_u (i32.add (call $me) (i32.const 1)) (i32.const 16)))
    (loop
      (i32.store16 (i32.const 4) (local.get $stream))
      (i64.store (i32.const 6) (local.get $offset))
      (drop (call $send (local.get $next) (i32.const 0) (i32.const %d)))
      (drop (call $recv (i32.const 65536) (i32.const 60000) (i32.const 131072)))
      (local.set $stream (i32.add (local.get $stream) (i32.const %d)))
      (local.set $offset (i64.add (local.get $offset) (i64.const %d)))
      (br 0))))
"""
# The bytes of a chunk, whether each is of a stream of its own, and the rounds in which all processes send one.
RUNS = ((14, False, 311), (14, False, 3124), (60_000, False, 32), (15, True, 6250))


# What the last line has to be, and that all bytes were written and read.
def check(told, length, is_own, rounds):
    *lines, last = told.splitlines()
    streams, bytes_of_each = (COUNT * rounds, length - HEAD) if is_own else (COUNT, rounds * (length - HEAD))
    assert last == "streams: %d, 0 odd, 0 foreign" % streams, last
    assert all(line.endswith(": %d written, %d read" % (bytes_of_each, bytes_of_each)) for line in lines)
    return len(lines)


def main():
    with tempfile.TemporaryDirectory() as folder:
        for length, is_own, rounds in RUNS:
            build(folder, "ring", SENDER % (length, int(is_own), 0 if is_own else length - HEAD))
            events = record_ring(PROGRAM, folder, rounds)
            counts = {}
            for verb in ("replay", "streams"):
                call = play([PROGRAM, verb, *pairs()], folder)
                counts[verb] = instructions([PROGRAM, verb, *pairs()], folder)
                each = "" if counts[verb] is None else ", %.0f instructions" % (counts[verb] / events)
                print("%s: %d events, for each %.0f ns%s; peak %.1f MB" % (verb, events, call.spent / events * 1e9, each, call.peak / 1e6), flush=True)
            print("chunks of %d bytes, %d streams; logs %d bytes" % (length, check(call.text, length, is_own, rounds), logs_size(folder)))
            if None not in counts.values():
                print("streams beside replay: %.2f" % (counts["streams"] / counts["replay"]), flush=True)


if __name__ == "__main__":
    main()
