"""Runs guests that compute, and prints how many instructions `friday record` runs in a second, beside
wasm-interp of the package wabt on the same guests, and how many of the machine's instructions one of the
guest takes, by valgrind. Each guest yields after 9 to 10 million instructions,
4 times; and, to see that a burst is linear, after a tenth of them, 40 times. Then a guest calls a function
with 4,096 locals for a burst: what each of them takes. Then a guest that notes in a
loop is recorded and replayed at 10,000 and at 1,000,000 events: the time of an event, and the peak memory
beside the log; and two programs in C, built by clang at -O2: a sort of 100,000 numbers and the SHA-256 of
1 MB, for which no step of the interpreter was chosen. Their instructions are counted in wasm-interp's
trace of a small run, where blocks and their ends count nothing. The time of a start is subtracted.
"""

import os
import statistics
import tempfile

from costs import build, compile_guest, instructions, play, program_of, traced

PROGRAM = program_of(__doc__)
BURSTS = 4
# How often each program runs each guest, and the guest that notes little; the median counts.
TIMES = 3
MANY_TIMES = 25

# A guest's declarations, what it does in each turn but for the count of the turns, how many instructions a
# turn has with that count, and how many turns a burst has.
COUNT = "local.get $i i32.const 1 i32.sub local.tee $i br_if 0"
GUESTS = {
    "numbers": (
        "",
        "local.get $x i64.const 6364136223846793005 i64.mul i64.const 1442695040888963407 i64.add local.tee $x"
        " i64.const 33 i64.shr_u local.get $x i64.xor local.set $x",
        16,
        600000,
    ),
    "memory": (
        "(memory 1)",
        "local.get $i i32.const 65535 i32.and local.tee $a local.get $a i32.load8_u local.get $i i32.add i32.store8",
        14,
        700000,
    ),
    "edge loads": ("(memory 1)", "i32.const 4092 i64.load drop " * 8, 29, 340000),
    "edge stores": ("(memory 1)", "i32.const 4092 i64.const 7 i64.store " * 8, 29, 340000),
    "calls": (
        "(func $triple (param i32) (result i32) local.get 0 i32.const 3 i32.mul)",
        "local.get $i call $triple drop",
        11,
        890000,
    ),
    "indirect calls": (
        "(type $f (func (param i32) (result i32))) (table 2 funcref) (elem (i32.const 0) $triple $same)"
        "(func $triple (type $f) local.get 0 i32.const 3 i32.mul) (func $same (type $f) local.get 0 nop nop)",
        "local.get $i local.get $i i32.const 1 i32.and call_indirect (type $f) drop",
        14,
        700000,
    ),
    "locals": (
        "",
        "local.get $i local.set $l3999 local.get $l3999 local.tee $l0 local.set $l2000",
        10,
        950000,
    ),
    "deep calls": (
        "(func $down (param i32) local.get 0 if local.get 0 i32.const 1 i32.sub call $down end)",
        "i32.const 400 call $down",
        400 * 6 + 2 + 2 + 5,
        4000,
    ),
    "500 blocks": (
        "",
        "block " * 500 + "br 499 " + "end " * 500,
        500 + 1 + 5,
        19000,
    ),
    "branches": (
        "",
        "block block block local.get $i i32.const 3 i32.and br_table 0 1 2 2 end end end",
        12,
        800000,
    ),
}

# A block costs wasm-interp nothing, so it does not run that guest.
ALONE = ("500 blocks",)

# The further locals of that guest.
LOCALS = {
    "locals": "(local $l0 i32) (local %s) (local $l2000 i32) (local %s) (local $l3999 i32)" % ("i64 " * 1999, "i32 " * 1998),
}

COMPUTES = """(module (import "liblog" "yield" (func $yield)) %s
  (func (export "_start") (local $n i32) (local $i i32) (local $a i32) (local $x i64) %s
    i32.const %d local.set $n
    loop
      i32.const %d local.set $i
      loop %s %s end
      call $yield
      local.get $n i32.const 1 i32.sub local.tee $n br_if 0
    end))"""

# How a called function declares 4,096 locals.
DECLARED = {
    "one run": "i64 " * 4096,
    "two types in turn": "i32 i64 " * 2048,
    "runs of 1 to 3": "i32 i64 i64 i32 i32 i32 i64 i32 " * 512,
}

CALLED = """(module (import "liblog" "yield" (func $yield)) (func $called (local %s))
  (func (export "_start") (local $i i32)
    i32.const %d local.set $i
    loop call $called %s end))"""

# The programs in C, with the size of the guest and the sizes of two small ones, by which they are counted.
PROGRAMS = {"sort": (100000, (2000, 4000)), "sha256": (16384, (20, 40))}

NOTES = """(module (import "liblog" "note" (func $note (param i64)))
  (func (export "_start") (local $n i64)
    i64.const %d local.set $n
    loop
      local.get $n call $note
      local.get $n i64.const 1 i64.sub local.tee $n i64.const 0 i64.ne br_if 0
    end))"""


def compile(folder, name, size):
    compile_guest(folder, "a", [name + ".c"], "-DCOUNT=%d" % size)


# How many of the machine's instructions one of the guest takes, from two runs of different lengths.
def counted(words, folder, make, lengths):
    counts = []
    for length in lengths:
        make(length)
        counts.append(instructions(words, folder))
    return counts


def per_instruction(counts, guest):
    return "-" if None in counts else "%.1f" % ((counts[1] - counts[0]) / guest)


def schedule(folder, tries):
    with open(os.path.join(folder, "s"), "w") as file:
        file.write("friday 1\nprocess a a.wasm\nrun 0 0 %d\n" % tries)


# The median of the times, and the greatest of the peaks in bytes.
def measure(words, folder, wanted=None, count=TIMES):
    times, peak = [], 0
    for _ in range(count):
        call = play(words, folder)
        times.append(call.took)
        assert wanted is None or wanted in call.text, (words, call.text)
        peak = max(peak, call.peak)
    return statistics.median(times), peak


def main():
    with tempfile.TemporaryDirectory() as folder:
        record, replay = [PROGRAM, "record", "s"], [PROGRAM, "replay", "a.wasm", "a.log"]
        interp = ["wasm-interp", "--dummy-import-func", "--run-all-exports", "a.wasm"]
        build(folder, "a", COMPUTES % ("", "", 1, 1, "nop", COUNT))
        schedule(folder, 2)
        start, least = measure(record, folder, "finished", MANY_TIMES)
        start_of_interp, _ = measure(interp, folder)
        print("%-16s %14s %14s %14s %14s %10s" % ("millions/second", "friday record", "short bursts", "counted", "wasm-interp", "ratio"))
        for name, (declared, turn, length, turns) in GUESTS.items():
            count = BURSTS * turns * length / 1e6
            rates = []
            for bursts in (10 * BURSTS, BURSTS):
                build(folder, "a", COMPUTES % (declared, LOCALS.get(name, ""), bursts, turns * BURSTS // bursts, turn, COUNT))
                schedule(folder, bursts + 1)
                rates.append(count / (measure(record, folder, "%d events, finished" % (bursts + 1))[0] - start))
            schedule(folder, 2)
            make = lambda n: build(folder, "a", COMPUTES % (declared, LOCALS.get(name, ""), 1, n, turn, COUNT))
            ends = (turns // 100, turns // 10)
            counts = counted(record, folder, make, ends)
            schedule(folder, BURSTS + 1)
            build(folder, "a", COMPUTES % (declared, LOCALS.get(name, ""), BURSTS, turns, turn, COUNT))
            print("%-16s %14.1f %14.1f %14s" % (name, rates[1], rates[0], per_instruction(counts, (ends[1] - ends[0]) * length)), end="")
            if name not in ALONE:
                theirs = count / (measure(interp, folder)[0] - start_of_interp)
                print(" %14.1f %10.2f" % (theirs, rates[1] / theirs), end="")
            print()
        print("%-18s %14s %14s" % ("declared locals", "counted each", "s a burst"))
        for name, declared in DECLARED.items():
            schedule(folder, 2)
            ends = (100, 400)
            counts = counted(record, folder, lambda n: build(folder, "a", CALLED % (declared, n, COUNT)), ends)
            build(folder, "a", CALLED % (declared, 1660000, COUNT))
            spent = measure(record, folder, "finished")[0] - start
            print("%-18s %14s %14.2f" % (name, per_instruction(counts, (ends[1] - ends[0]) * 4096), spent))
        print("%-16s %14s %14s %14s %10s" % ("programs", "s to record", "counted", "s wasm-interp", "ratio"))
        for name, (size, small) in PROGRAMS.items():
            schedule(folder, 1000)
            guest = []
            counts = counted(record, folder, lambda n: (compile(folder, name, n), guest.append(traced(folder))), small)
            compile(folder, name, size)
            ours = measure(record, folder, "finished")[0] - start
            theirs = measure(interp, folder)[0] - start_of_interp
            print("%-16s %14.3f %14s %14.3f %10.2f" % (name, ours, per_instruction(counts, guest[1] - guest[0]), theirs, theirs / ours))
        print("%-16s %14s %14s %12s %12s %12s" % ("events", "ns to record", "ns to replay", "bytes of log", "peak, record", "peak, replay"))
        for events, count in (10000, MANY_TIMES), (1000000, TIMES):
            build(folder, "a", NOTES % (events - 1))
            schedule(folder, events)
            recorded, record_peak = measure(record, folder, "%d events, finished" % events, count)
            replayed, replay_peak = measure(replay, folder, "%d events, finished, log whole" % events, count)
            size = os.path.getsize(os.path.join(folder, "a.log"))
            shown = tuple((spent - start) / events * 1e9 for spent in (recorded, replayed))
            print("%-16d %14.0f %14.0f %12d %12d %12d" % (events, *shown, size, record_peak, replay_peak))


if __name__ == "__main__":
    main()
