"""Plays of as many processes, threads, datagrams and bytes as there can be, and of many lines."""

from itertools import chain

from common import FRONT
from long_schedules import MOST, TRIES, schedule
from many_datagrams import COUNT, NAMES, NONE, RING, ROUNDS, SENDER, SENT, TAKER, of_sender, ring, ring_items, shown
from modules import Guest, LEAST, start
from pair_refusals import FAR
from plays import PLAY, alone, counts, datagram, event, opening, playing
from script import digits, text, times
from sessions import READ, lines_of
from threads import calls, guest


def summed(script, rows, first=opening()):
    """The same as `playing`, if what is answered is long."""
    script.input(READ, lines_of(rows))
    script.sum(PLAY, "Done", "".join(line + "\n" for line in (first, *(line for _, *said in rows for line in said))).encode())


def repeated(line, count, said):
    """A row of so many equal lines, with what each of them is answered."""
    return times(count - 1, (line + "\n").encode()) + text(line), *chain.from_iterable(said)


def put_ring(script, *items):
    script.file("s", text("friday 1\n" + "".join("process %s ring.wasm\n" % name for name in NAMES) + "".join(item + "\n" for item in items)))


def ring_rows(given):
    """The items of the ring, with the events that they make."""
    left = [iter(log.events) for log in given]
    for item in ring_items():
        verb, p, *numbers = item.split()
        tries = int(numbers[1]) if verb == "run" and len(numbers) > 1 else 1
        made = [shown(given[int(p)], next(left[int(p)])) for _ in range(tries)] if verb == "run" else []
        yield (item, *made, counts(tries))


def most_processes(script):
    given = ring()
    script.case("a play of sixteen processes")
    script.file("ring.wasm", RING)
    put_ring(script)
    each = 2 + 2 * ROUNDS
    last = given[15].events[-2].clock
    rows = [
        *ring_rows(given),
        ("print sum(@_.events)", str(COUNT * each)),
        ("mem %s 8 4" % NAMES[15], "0e000000"),
        ("threads " + NAMES[15], NAMES[15] + " running", "0 at send 0 0 4"),
        ("datagram 15 %d" % ROUNDS, datagram(0, 15, last, 15)),
        ("datagram 15 %d" % (ROUNDS + 1), "none"),
        ("printed %s 0" % NAMES[15], "-"),
        ("kill 15", counts(1)),
        ("run 15 0", counts(0, 1)),
        ("processes", *("%s: %d events, %s" % (log.name, each, "killed" if log.process == 15 else "running") for log in given)),
    ]
    playing(script, rows)
    put_ring(script, *ring_items())
    acted = COUNT * (each + ROUNDS)
    playing(script, [*rows[-3:], ("again", opening(acted)), *rows[-9:]], opening(acted))


def far(script):
    script.case("a process of a play that does not begin, at each place")
    script.file("far", digits(start("", FAR)))
    script.file("least", digits(LEAST))
    script.input(READ, text("run 0 0\n"))
    for place in range(COUNT):
        script.file("s", text("friday 1\n" + "".join("process p%d %s\n" % (p, "far" if p == place else "least") for p in range(COUNT))))
        script.run(PLAY, "Refused", "friday: refused far: 7 BadSegment")


def many_lines(script):
    """A datagram each, and one of them again and again; then the play begins again, as often."""
    script.case("a play of many lines")
    script.file("sender.wasm", SENDER)
    script.file("taker.wasm", TAKER)
    script.file("s", text("friday 1\nprocess sender sender.wasm\nprocess taker taker.wasm\n"))
    sends = [event(at.clock, "send 1 0 4 = 4" if at.clock > 1 else "begin", "sender") for at in of_sender()]
    count = 10000
    rows = [repeated("run 0 0", count, [(line, counts(1)) for line in sends[:count]])]
    rows += [("run 0 0 %d" % (SENT + 1 - count), *sends[count:], counts(SENT + 1 - count))]
    rows += [("datagram 0 %d" % at, datagram_of(at)) for at in (1, 65535, 65536, 65537, SENT)] + [("datagram 0 %d" % at, "none") for at in NONE]
    rows += [repeated("deliver 0 %d" % SENT, count, [(counts(1), )] * count), ("run 1 0", event(1, "begin", "taker"), counts(1))]
    takes = [event(SENT + 2 + at, "recv 8 16 4 = 4", "taker") for at in range(count)]
    rows += [repeated("run 1 0", count, [(line, counts(1)) for line in takes]), ("run 1 0", counts(0, 1))]
    rows += [repeated("again\nrun 0 0", 1000, [(opening(), sends[0], counts(1))] * 1000)]
    summed(script, rows)


def datagram_of(at):
    """The datagram of this place that the sender gave."""
    return datagram(1, 0, at + 1, at)


def threads(script):
    made = range(1, 64)
    spawns = ["spawn 0 %d = %d" % (t, t) for t in made]
    begun = [event(at, written) for at, written in enumerate(("begin", *spawns, "spawn 0 0 = -1"), 1)]
    rows = [("run 0 0 65", *begun, counts(65))]
    rows += [("run 0 %d" % t, event(65 + at, "begin", thread=t), counts(1)) for at, t in enumerate(reversed(made), 1)]
    rows += [("threads a", "a running", "0 at yield", *("%d at yield" % t for t in made))]
    rows += [("run 0 63", event(129, "yield", thread=63), counts(1)), ("run 0 64", "? 10 bad item")]
    rows += [("threads a", "a running", "0 at yield", *("%d at yield" % t for t in made[:-1]), "63 ended")]
    alone(script, "64 threads in a play", guest(calls(*spawns, "spawn 0 0", "yield"), calls("yield")), rows)


def long_prints(script):
    """All that a log has room for is shown."""
    script.case("much that a process of a play printed, and a memory of 256 pages")
    script.file("a.wasm", digits(Guest("printer").module))
    script.file("s", text(FRONT))
    told = [event(1, "begin"), *(event(at, "print 0 60000 = 60000") for at in range(2, 19))]
    summed(script, [("run 0 0 18", *told, counts(18)), ("printed a 0", "00" * 1020000), ("printed a 1000000", "00" * 20000)])
    script.file("a.wasm", digits(start("", '(memory 256) (data (i32.const 16777215) "z")')))
    playing(script, [("mem a 16776960 256", "00" * 255 + "7a"), ("print @a.size", "256"), ("mem a 16776961 256", "undef")])


def largest_files(script):
    script.case("schedules of a play that are as long as they may be, or make as many tries")
    script.file("a.wasm", digits(LEAST))
    count = (MOST - len(FRONT)) // 7
    schedule(script, times(count, b"kill 0\n"), text("#" * (MOST - len(FRONT) - 7 * count)))
    playing(script, [("kill 0", counts(0, 1)), ("processes", "a: 0 events, killed")], opening(1, count - 1))
    schedule(script, times(TRIES, b"run 0 0\n"))
    first = opening(1, TRIES - 1)
    playing(script, [("run 0 0", "? 11 too many tries"), ("kill 0", counts(0, 1)), ("again", first)], first)


def table(script):
    script.title("Long plays")
    for part in (most_processes, far, many_lines, threads, long_prints, largest_files):
        part(script)
