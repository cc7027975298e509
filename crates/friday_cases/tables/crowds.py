"""Many threads, locks and signals at once: as many as there can be, or far more than a few."""

import logs
from common import begin, replays, summary
from script import digits
from sessions import ALONE, session
from threads import NOTED, TYPES, calls, guest, recorded

SIGNALS = range(1, 32)
# Of the last one 64 are made in all.
MADE = range(1, 64)


def all_signals(script):
    """Each handler notes its number, and is left by the note for the handler of the next signal."""
    sets = ["on_signal %d 0 = 0" % s for s in SIGNALS]
    main = calls(*sets, "yield", "yield")
    delivered = ["yield ! 1", *("note %d ! %d" % (s, s + 1) for s in range(1, 31)), "note 31", "yield"]
    pending = ["signal 0 %d" % s for s in reversed(SIGNALS)]
    recorded(script, "all 31 signals, pending at once", guest(main, NOTED), ("run 0 0 32", *pending, *pending, "run 0 0 40"), ("begin", *sets, *delivered), "finished")
    # The last of them is delivered while the others have no handler.
    sets += ["on_signal %d -1 = 0" % s for s in range(1, 31)]
    made = guest(calls(*sets, "yield"), NOTED)
    recorded(script, "the last of 31 signals", made, ("run 0 0 62", *pending, "run 0 0 3"), ("begin", *sets, "yield ! 31", "note 31"), "finished")


def repeated_signals(script):
    """A signal is delivered as often as it was pending when an event could deliver it."""
    count = 400
    sets = ["on_signal 31 0 = 0"]
    made = guest(calls(*sets) + "(loop %s (br 0))" % calls("yield"), "")
    events = ["begin", *sets, *(["yield ! 31", "yield"] * count)]
    recorded(script, "a signal that is delivered many times", made, ("run 0 0 2", *(["signal 0 31", "run 0 0 2"] * count)), events, "running")


def all_threads(script):
    """All 64 threads are live at once, each with a lock of its own, which the first one waits for, and are joined."""
    spawns = ["spawn 0 %d = %d" % (t, t) for t in MADE]
    main = calls(*spawns, "lock 63") + calls(*("join %d" % t for t in MADE), "spawn 0 0")
    own = "(drop (call $lock (local.get 0)))" + calls("yield", "thread") + NOTED
    first = ["run 0 %d 2" % t for t in reversed(MADE)]
    rest = ["run 0 %d 4" % t for t in MADE]
    events = ["begin", *spawns]
    for t in reversed(MADE):
        events += ["%d: begin" % t, "%d: lock %d = 0" % (t, t)]
    for t in MADE:
        events += ["%d: yield" % t, "%d: thread = %d" % (t, t), "%d: note %d" % (t, t)]
    items = ("run 0 0 64", *first, "run 0 0", *rest, "run 0 0 70")
    recorded(script, "64 threads that are live at once and hold a lock each", guest(main, own), items, events, "running")
    live = ["%d at yield" % t for t in MADE]
    at = 64 + 2 * 63
    rows = (
        ("goto %d" % at, "at %d: %d a 1 lock 1 = 0" % (at, at)),
        ("threads a", "a running", "0 at lock 63", *live),
        # The imports stand before the function of the table and that of the first thread.
        *(("frames a %d" % t, "%d: %d" % (t, len(TYPES) + (t == 0))) for t in (0, *MADE)),
        ("step 3", "at %d: %d a 1 note 1" % (at + 3, at + 3)),
        ("threads a", "a running", "0 at lock 63", "1 ended", *live[1:]),
        ("step 999", "at %d: %d a 63 note 63" % (len(events), len(events))),
        ("threads a", "a running", "0 at lock 63", *("%d ended" % t for t in MADE)),
        *(("frames a %d" % t, "%d: ended" % t) for t in MADE),
    )
    session(script, ALONE, rows)


def full_threads(script):
    """Each of 64 threads waits with 16,384 operands, or with its argument and one less."""
    spawns = ["spawn 0 0 = %d" % t for t in MADE]
    made = guest(calls(*spawns) + waiting(16384), waiting(16383))
    events = ["begin", *spawns, *("%d: begin" % t for t in MADE), *("%d: yield" % t for t in (*MADE, 0))]
    items = ("run 0 0 64", *("run 0 %d" % t for t in MADE), *("run 0 %d" % t for t in MADE), "run 0 0")
    recorded(script, "64 threads that have all that a thread may have", made, items, events, "finished")
    stands = ["%d at yield" % t for t in range(64)]
    rows = (("goto 127", "at 127: 127 a 63 begin"), ("threads a", "a running", *stands), ("goto 191", "at 191: 191 a 0 yield"), ("goto 2", "at 2: 2 a 0 spawn 0 0 = 1"))
    session(script, ALONE, rows)


def waiting(operands):
    return "i32.const 1 " * operands + "call $yield " + "drop " * operands


def joined(script):
    """The first thread joins all 63, and then no further one is made."""
    spawns = ["spawn 0 %d = %d" % (t, t) for t in MADE]
    joins = ["join %d = 0" % t for t in MADE]
    main = calls(*spawns, *joins, "spawn 0 0", "join 64")
    begins = ["%d: begin" % t for t in MADE]
    events = ["begin", *spawns, *begins, *joins, "spawn 0 0 = -1", "join 64 = -1"]
    recorded(script, "64 threads, of which 63 are joined", guest(main, ""), ("run 0 0 64", *("run 0 %d" % t for t in MADE), "run 0 0 66"), events, "finished")


LOCKS = 70000
# Takes the locks from 1 on, and gives them back.
HOLDER = """(local $i i32)
  (loop (drop (call $lock (local.tee $i (i32.add (local.get $i) (i32.const 1))))) (br_if 0 (i32.lt_u (local.get $i) (i32.const %d))))
  %s
  (loop (drop (call $unlock (local.get $i))) (br_if 0 (local.tee $i (i32.sub (local.get $i) (i32.const 1)))))""" % (LOCKS, calls("spawn 0 %d" % LOCKS))


def many_locks(script):
    """A thread holds far more locks than there are threads; another one waits for the last of them."""
    begin(script, "70,000 locks that are held at once", digits(guest(HOLDER, "(drop (call $lock (local.get 0)))")), "run 0 0 %d\nrun 0 1 2\nrun 0 0\nrun 0 1 2\nrun 0 0 %d\n" % (LOCKS + 2, LOCKS))
    locked = ["lock %d = 0" % at for at in range(1, LOCKS + 1)]
    unlocked = ["unlock %d = 0" % at for at in range(LOCKS, 0, -1)]
    events = ["begin", *locked, "spawn 0 %d = 1" % LOCKS, "1: begin", unlocked[0], "1: lock %d = 0" % LOCKS, *unlocked[1:]]
    script.run("record s", "Done", *summary(len(events), "finished", len(events), 3))
    script.show("a.log", logs.held(logs.entries(events)))
    replays(script, len(events), "finished")


def table(script):
    script.title("Many threads, locks and signals")
    for part in (all_signals, repeated_signals, all_threads, full_threads, joined, many_locks):
        part(script)
