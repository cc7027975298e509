"""How long a page of 16 processes with 100,000 events takes to open and to move, and how large it is; and that bytes which
have no room are cut."""

import os
import random
import subprocess
import sys

from logs.format import CALLS, Entry, Log
from logs.traffic import traffic_of
from page_reader import go, no_complaint, now, opened, same
from pages.file import page
from pages.packing import BYTES_OF_AN_EVENT, packed
from pages.recording import columns, datagrams, placed
from sessions.sites import Sites
from tools_path import TOOLS

PAGE = os.path.join(TOOLS, "page.py")
COUNT, EVENTS = 16, 100000
# What a page may take.
OPENING, MOVING, BYTES = 2000, 50, 60
# Sends a number to the next process of the ring, which is the one that came last and its own, and takes one, for ever.
GUEST = """(module
  (import "liblog" "me" (func $me (result i32)))
  (import "liblog" "send" (func $send (param i32 i32 i32) (result i32)))
  (import "liblog" "recv" (func $recv (param i32 i32 i32) (result i32)))
  (memory 1)
  (func (export "_start") (local $next i32)
    (local.set $next (i32.rem_u (i32.add (call $me) (i32.const 1)) (i32.const 16)))
    (loop
      (i32.store (i32.const 0) (i32.add (i32.load (i32.const 8)) (local.get $next)))
      (drop (call $send (local.get $next) (i32.const 0) (i32.const 4)))
      (drop (call $recv (i32.const 8) (i32.const 16) (i32.const 4)))
      (br 0))))
"""
WATCHES = ("last of p0=@p0.u32[8]", "position=sum(@_.events)", "clocks=@p7.clock - @p3.clock")
# Milliseconds of some moves, each from the key or the position to where the next picture is drawn.
MOVES = """(async () => {
  const input = document.querySelector(".position");
  const times = [];
  for (const position of %s) {
    const start = performance.now();
    if (position > 0) {
      input.value = position;
      input.dispatchEvent(new Event("input"));
    } else {
      document.body.dispatchEvent(new KeyboardEvent("keydown", { key: "ArrowRight", bubbles: true }));
    }
    const moved = performance.now();
    await new Promise((drawn) => requestAnimationFrame(() => setTimeout(drawn)));
    times.push([moved - start, performance.now() - start]);
  }
  return times;
})()"""


def write_schedule(path):
    """Begin and `me` of each process, and then rounds of a send, its delivery and its receipt."""
    with open(path, "w", encoding="ascii") as file:
        file.write("friday 1\n")
        for process in range(COUNT):
            file.write("process p%d ring.wasm\n" % process)
        for process in range(COUNT):
            file.write("run %d 0 2\n" % process)
        for number in range(1, (EVENTS - 2 * COUNT) // (2 * COUNT) + 1):
            for process in range(COUNT):
                file.write("run %d 0\ndeliver %d %d\n" % (process, process, number))
            for process in range(COUNT):
                file.write("run %d 0\n" % process)


def write_page(program, path):
    with open("ring.wat", "w", encoding="ascii") as file:
        file.write(GUEST)
    subprocess.run(["wat2wasm", "ring.wat", "-o", "ring.wasm"], check=True)
    write_schedule("schedule")
    subprocess.run([program, "record", "schedule"], check=True, stdout=subprocess.DEVNULL)
    pairs = [word for process in range(COUNT) for word in ("ring.wasm", "p%d.log" % process)]
    with open(path, "wb") as file:
        subprocess.run([sys.executable, PAGE, "--program", program, *pairs, "--watch", *WATCHES], stdout=file, check=True)


def moved(browser, what, positions):
    """Moves to each position, a key's step where it is 0, and tells what the slowest and the middle one took.

    The moves are made three times, and the least time of each counts: what else the machine does is no part of a move.
    """
    rounds = [browser.value(MOVES % (positions,)) for _ in range(3)]
    handled, drawn = (sorted(min(times) for times in zip(*([pair[place] for pair in each] for each in rounds))) for place in (0, 1))
    worst, middle = max(pair[1] for each in rounds for pair in each), len(positions) // 2
    print("    %s: handled in %.1f ms (%.1f at most), drawn after %.1f ms (%.1f at most; %.1f in the worst round)" % (
        what, handled[middle], handled[-1], drawn[middle], drawn[-1], worst))
    return drawn[-1]


def check_moving(browser):
    """One event after the other, near and far, with a filter by causes, and with all events on the screen."""
    chance = random.Random(1)
    far = [chance.randint(1, EVENTS) for _ in range(30)]
    slowest = [moved(browser, "far jumps", far), moved(browser, "keys", [0] * 30)]
    browser.value("document.body.dispatchEvent(new KeyboardEvent('keydown', { key: '0', bubbles: true }))")
    slowest += [moved(browser, "all events in sight, far jumps", far), moved(browser, "all events in sight, keys", [0] * 30)]
    browser.value("cause = document.querySelector('.cause'); cause.value = 'past'; cause.dispatchEvent(new Event('change'))")
    slowest += [moved(browser, "and the past of the cursor", far)]
    same("moves below %d ms" % MOVING, [time for time in slowest if time >= MOVING], [])


def measure(browser, path):
    """Opens the page of a ring and moves in it."""
    size = os.path.getsize(path)
    opened(browser, path)
    took = int(browser.value("document.body.dataset.ready"))
    print("ring: %d bytes, %.1f an event; opened in %d ms" % (size, size / EVENTS, took))
    same("an opening below %d ms" % OPENING, took < OPENING, True)
    same("bytes", size <= BYTES * EVENTS, True)
    check_moving(browser)
    no_complaint(browser)


def long_prints(count, length):
    """A process that prints so many bytes by chance at each event."""
    chance, prints = random.Random(2), next(call for call in CALLS if call.name == "print")
    pieces = [bytes(chance.randrange(256) for _ in range(length)) for _ in range(count)]
    entries = [Entry(clock, 0, prints, 0, (0, length), length, piece, b"", None) for clock, piece in enumerate(pieces, 1)]
    return Log(1, 0, "long", entries)


def check_room(browser):
    """Where the bytes of the events are too many, each keeps its first ones."""
    log = long_prints(2000, 1000)
    traffic = traffic_of([log])
    data, pieces = columns([log], traffic.events)
    process = {"name": "long", "number": 0, "end": "running", "verdict": "log whole", "threads": [(0, "at exit 0")]}
    data.update(files=["long.log"], courses=[], processes=[process], **datagrams(traffic), **placed(Sites(), 2000))
    text = packed(data, pieces)
    same("room", len(text) <= BYTES_OF_AN_EVENT * 2000, True)
    with open("long.html", "w", encoding="utf-8") as file:
        file.write(page([text]))
    opened(browser, "long.html")
    go(browser, 1, 1500)
    told = now(browser)[0]["told"][0]
    kept = told[len("printed ") : told.index("..")]
    same("the first bytes", log.entries[1499].sent.hex().startswith(kept) and len(kept) > 8, True)
    same("how many", told.endswith(".. (1000 bytes)"), True)
    no_complaint(browser)
    print("long prints: %d bytes an event, of which the page keeps %d: as expected" % (1000, len(kept) // 2), flush=True)


def check_ring(browser, program):
    check_room(browser)
    write_page(program, "ring.html")
    measure(browser, "ring.html")
    print("ring: as expected", flush=True)
