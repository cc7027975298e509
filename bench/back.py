"""Records 16 processes of 16 MB each that pass datagrams round in a ring, 1,000,000 events, and goes back in a session at their end:
prints the time that a line costs there, of `back 1`, `events 1` and a `goto` past the end, and the peak of
the session. The guests write all their memory first, and then at each round either one page or the next of all 4,096 pages. The
guest is built with wat2wasm of the package wabt.
"""

import os
import subprocess
import tempfile

from costs import build, program_of
from ring import pairs, rounds_of, write_ring

PROGRAM = program_of(__doc__)
EVENTS, TIMES = 1_000_000, 40

# Fills its memory, and then for ever sends 4 bytes to the next process of the ring, takes those of the one before it, and writes
# a page: the first, or the next one of all.
GUEST = """(module
  (import "liblog" "me" (func $me (result i32)))
  (import "liblog" "send" (func $send (param i32 i32 i32) (result i32)))
  (import "liblog" "recv" (func $recv (param i32 i32 i32) (result i32)))
  (memory 256 256)
  (func (export "_start") (local $next i32) (local $at i32)
    (local.set $next (i32.rem_u (i32.add (call $me) (i32.const 1)) (i32.const 16)))
    (loop
      (i64.store (local.get $at) (i64.const -1))
      (br_if 0 (i32.lt_u (local.tee $at (i32.add (local.get $at) (i32.const 2048))) (i32.const 16777216))))
    (local.set $at (i32.const 0))
    (loop
      (i32.store (local.get $at) (i32.add (i32.load (local.get $at)) (i32.const 1)))
      (local.set $at (i32.rem_u (i32.add (local.get $at) (i32.const STEP)) (i32.const 16777216)))
      (drop (call $send (local.get $next) (i32.const 0) (i32.const 4)))
      (drop (call $recv (i32.const 8) (i32.const 16) (i32.const 4)))
      (br 0))))
"""


def session(folder, lines):
    """The processor's seconds of a session with these lines, and its peak of memory."""
    with open(os.path.join(folder, "lines"), "w") as file:
        file.write("".join(line + "\n" for line in lines))
    with open(os.path.join(folder, "lines")) as typed:
        child = subprocess.Popen([PROGRAM, "debug", *pairs()], cwd=folder, stdin=typed, stdout=subprocess.DEVNULL)
        _, status, usage = os.wait4(child.pid, 0)
    assert os.waitstatus_to_exitcode(status) == 0, status
    return usage.ru_utime + usage.ru_stime, usage.ru_maxrss * 1024


def main():
    with tempfile.TemporaryDirectory() as folder:
        write_ring(os.path.join(folder, "schedule"), rounds_of(EVENTS))
        for name, step in (("one page a round", 0), ("the next page a round", 4096)):
            build(folder, "ring", GUEST.replace("STEP", str(step)))
            subprocess.run([PROGRAM, "record", "schedule"], cwd=folder, stdout=subprocess.DEVNULL, check=True)
            end = ["goto 999968"]
            to_end, peak = session(folder, end)
            print("%s: to the end %.2f s, peak %.0f MB" % (name, to_end, peak / 1e6), flush=True)
            for told, lines in (("back 1", ["back 1", "step 1"]), ("events 1", ["events 1"]), ("goto past the end", ["goto 1000001"])):
                spent, peak = session(folder, end + lines * TIMES)
                print("%s, %s: %.4f s a line, peak %.0f MB" % (name, told, (spent - to_end) / TIMES, peak / 1e6), flush=True)


if __name__ == "__main__":
    main()
