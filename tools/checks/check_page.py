#!/usr/bin/env python3
"""Checks page.py in a headless Chromium: the pages of the hunts are opened, moved, filtered and compared, and what stands
there is held against the debugger's answers at random positions; places in the source and wall times are those of a session; a hostile
group may not get out of its text; and a ring of 16 processes with 100,000 events says how long opening and moving take, and how large the
page is.

It wants Debian's packages chromium and wabt, and clang. The ring takes most of the time; --only names the checks that are wanted.
"""

import argparse
import os
import random
import subprocess
import sys
import tempfile

from tools_path import TOP  # before the modules of the tools, which it lets be found
from asking.report import BUILT
from browser import Browser
from logs.vector_clocks import happens_before, vector_clocks
from page_hostile import check_hostile
from page_lines import check_lines
from page_reader import Group, check_position, fill, go, no_complaint, now, opened, read_watches, same
from page_ring import check_ring

PAGES = os.path.join(TOP, "examples", "pages.sh")
HUNTS = {
    "register": ("register/failing/register.wasm", ("r0", "r1", "r2", "writer", "reader")),
    "election": ("election/failing/election.wasm", ("a", "b", "c")),
    "bank": ("bank/failing/bank.wasm", ("north", "south", "east")),
    "lost_update": ("bank/bank.wasm", ("north", "south", "east")),
}
# Where something stands on the screen.
BOX = "(({x, y, width}) => [x, y, width])(document.querySelector('%s').getBoundingClientRect())"
# Where position 0 is when all events are in sight, after the names and a margin, and how much is no room for events.
BEGIN, ENDS = 164, 178
# The recordings of the hunts that have two.
FAILING, GOOD = "/failing", "/good"
# Goes through all positions, and gives the lines of each event.
WALK = """(() => {
  const input = document.querySelector(".position");
  return Array.from({ length: Number(input.max) }, (_, before) => {
    input.value = before + 1;
    input.dispatchEvent(new Event("input"));
    return Array.from(document.querySelectorAll(".headline, .told .bytes"), (line) => line.textContent);
  });
})()"""


def group_of(program, hunt, folder):
    """The group of a hunt, whose logs lie in a folder below that of the pages."""
    module, names = HUNTS[hunt]
    pairs = [word for name in names for word in (module, "%s/%s.log" % (folder, name))]
    return Group(program, pairs, read_watches(hunt + ".watches"))


def check_positions(browser, group, chance):
    """Ten random positions, the first and the last one."""
    positions = [0, *(chance.randint(1, group.count) for _ in range(10)), group.count]
    for turn, (position, answer) in enumerate(zip(positions, group.asked(positions))):
        go(browser, turn % 3, position)
        check_position(now(browser)[0], group, position, answer)
        browser.wait("location.hash === '#at=%d'" % position)


def check_walk(browser, group):
    """The event and what it did, at all positions."""
    told = browser.value(WALK)
    same("the walk", len(told), group.count)
    for event, (headline, *lines) in zip(group.traffic.events, told):
        same("the walk", headline, "%d: %s" % (event.position, event.entry.text(event.log.name)))
        same("the walk at %d" % event.position, lines, group.told(event.position))


def check_moves(browser, group):
    """Keys, the wheel, and clicks in the steps and the list."""
    middle = group.count // 2
    go(browser, 0, middle)
    for key, shift, wanted in (
        ("ArrowRight", False, middle + 1), ("ArrowLeft", False, middle), ("ArrowRight", True, middle + 10),
        ("ArrowLeft", True, middle), ("Home", False, 0), ("ArrowLeft", False, 0), ("End", False, group.count),
        ("ArrowRight", False, group.count), ("ArrowLeft", False, group.count - 1),
    ):
        browser.key(key, shift)
        same("key %s" % key, now(browser)[0]["position"], wanted)
    left, top, width = browser.value(BOX % "canvas.diagram")
    browser.wheel(left + width / 2, top + 50, -1)
    browser.wait("document.querySelector('.position').value === '%d'" % (group.count - 2))
    left, top, width = browser.value(BOX % "canvas.overview")
    browser.click(left + BEGIN + (width - ENDS) / 3, top + 20)
    same("strip", abs(now(browser)[0]["position"] - group.count / 3) <= 1, True)
    browser.value("document.querySelectorAll('.event')[3].click()")
    clicked = now(browser)[0]
    same("list", [event for event in clicked["events"] if event == clicked["headline"]], [clicked["headline"]])
    check_steps(browser, group)


def check_steps(browser, group):
    """A click in the steps goes to the event that changed the value; the key w goes to the next change."""
    browser.key("0")
    left, top, width = browser.value(BOX % "canvas.steps")
    changes = [position for position, _ in group.changes()[0]]
    for part in range(1, 20, 3):
        clicked = part * group.count / 20
        if min(abs(clicked - change) for change in changes) * (width - ENDS) < 8 * group.count:
            continue
        browser.click(left + BEGIN + (width - ENDS) * part / 20, top + 20)
        same("step", now(browser)[0]["position"], max(change for change in changes if change <= clicked))
    browser.key("Home")
    browser.key("w")
    found = now(browser)[0]
    same("change", "since %d" % found["position"] in [value[2] for value in found["values"]], True)
    browser.key("Home")


def passed(browser):
    """How many events the page says that it shows."""
    words = now(browser)[0]["total"].split()
    return int(words[2] if len(words) > 2 else words[1])


def tick(browser, kind, name):
    browser.value("document.querySelector('#filters .%s input[name=\"%s\"]').click()" % (kind, name))


def check_filters(browser, group, chance):
    events, name = group.traffic.events, group.logs[0].name
    tick(browser, "processes", name)
    same("processes", passed(browser), sum(event.log.name != name for event in events))
    same("cards", name in now(browser)[0]["processes"], False)
    tick(browser, "processes", name)
    tick(browser, "calls", "send")
    same("calls", passed(browser), sum(event.entry.call.name != "send" for event in events))
    tick(browser, "calls", "send")
    check_search(browser, group)
    check_causes(browser, group, chance)


def check_search(browser, group):
    """Text from the front of what was printed, and digits from its end; n goes to the first event that holds them."""
    printed = [event.entry.sent for event in group.traffic.events if event.entry.call.name == "print"]
    words = printed[len(printed) // 2] if printed else b"nothing\n"
    for search, piece in ((words[:7].decode(), words[:7]), ("0x" + words[-7:].hex(), words[-7:])):
        fill(browser, "search", search, "input")
        holding = [event.position for event in group.traffic.events if piece in event.entry.sent + event.entry.taken]
        same("search", passed(browser), len(holding))
        browser.key("Home")
        browser.value("document.activeElement.blur()")
        browser.key("n")
        same("found", now(browser)[0]["position"], holding[0] if holding else 0)
    fill(browser, "search", "", "input")


def check_causes(browser, group, chance):
    clocks, events = vector_clocks(group.traffic), group.traffic.events
    for _ in range(4):
        chosen = chance.choice(events)
        go(browser, 0, chosen.position)
        clock = clocks[chosen.position - 1]
        past = {event.position for event in events if happens_before(clock, event.number, event.log.process)}
        future = {
            event.position for event, later in zip(events, clocks) if happens_before(later, chosen.number, chosen.log.process)
        }
        for cause, wanted in (("past", past), ("future", future), ("both", past | future)):
            fill(browser, "cause", cause, "change")
            same("cause %s" % cause, passed(browser), len(wanted))
        fill(browser, "cause", "all", "change")


def differing(one, other, log):
    """The number of the first event of a process that is another one, without clocks; None where there is none."""
    def told(group):
        events = [event.entry for event in own_events(group, log)]
        return [(entry.text("").split(" ", 1)[1], entry.sent, entry.taken, entry.tag and entry.tag[0]) for entry in events]

    mine, theirs = told(one), told(other)
    for number in range(max(len(mine), len(theirs))):
        if mine[number : number + 1] != theirs[number : number + 1]:
            return number + 1
    return None


def own_events(group, log):
    return [event for event in group.traffic.events if event.log.process == log.process]


def check_together(browser, one, other, chance):
    """The second recording goes along, to the event of the same number in the same process, or to the last one."""
    for event in chance.choices(one.traffic.events, k=5):
        go(browser, 1, event.position)
        own = own_events(other, event.log)
        wanted = own[min(event.number, len(own)) - 1].position if own else 0
        same("aligned", [stage["position"] for stage in now(browser)], [event.position, wanted])


def check_values(rows, one, other):
    """The first value of each watch that is another one."""
    for (name, _), mine, theirs in zip(one.watches, one.changes(), other.changes()):
        cells = rows["watch " + name][1:]
        most = max(len(mine), len(theirs))
        pairs = zip(mine + [None] * (most - len(mine)), theirs + [None] * (most - len(theirs)))
        found = next((pair for pair in pairs if pair[0] is None or pair[1] is None or pair[0][1] != pair[1][1]), None)
        words = ["%s at %d" % (change[1], change[0]) if change else "changes no more" for change in found or ()]
        same("values of %s" % name, cells, ["its first other value", *words] if found else ["no difference"])


def check_against(browser, one, other):
    """The table, against the logs of both; and a click in it goes to both events."""
    rows = browser.value("""Object.fromEntries(Array.from(document.querySelectorAll(".difference"), (row) =>
        [row.dataset.process || "watch " + row.dataset.watch, Array.from(row.cells, (cell) => cell.textContent)]))""")
    for log in one.logs:
        number = differing(one, other, log)
        same("difference of %s" % log.name, rows[log.name][1], "its event %d" % number if number else "no difference")
        if not number:
            continue
        browser.value("document.querySelector('.difference[data-process=%s] button').click()" % log.name)
        for stage, group in zip(now(browser), (one, other)):
            own = own_events(group, log)
            if number <= len(own):
                same("place", stage["position"], own[number - 1].position)
    for stage, group in zip(now(browser), (one, other)):
        check_position(stage, group, stage["position"], group.asked([stage["position"]])[0])
    check_values(rows, one, other)


def check_hunt(browser, program, hunt):
    chance = random.Random(hunt)
    has_two = os.path.exists(hunt + GOOD)
    group = group_of(program, hunt, hunt + (FAILING if has_two else ""))
    opened(browser, hunt + ".html")
    check_positions(browser, group, chance)
    check_walk(browser, group)
    check_moves(browser, group)
    check_filters(browser, group, chance)
    no_complaint(browser)
    if has_two:
        opened(browser, hunt + "_against.html")
        good = group_of(program, hunt, hunt + GOOD)
        check_against(browser, group, good)
        check_together(browser, group, good, chance)
        no_complaint(browser)
    print("%s: as expected" % hunt, flush=True)


def arguments():
    parser = argparse.ArgumentParser(description=__doc__, formatter_class=argparse.RawDescriptionHelpFormatter)
    parser.add_argument("--only", action="append", choices=["hunts", "lines", "hostile", "ring"], help="one of the checks")
    parser.add_argument("program", nargs="?", default=BUILT, help="the program friday")
    chosen = parser.parse_args()
    chosen.program = os.path.abspath(chosen.program)
    return chosen


def main():
    chosen = arguments()
    wanted = chosen.only or ["hunts", "lines", "hostile", "ring"]
    with tempfile.TemporaryDirectory() as folder, Browser() as browser:
        os.chdir(folder)
        if "hunts" in wanted:
            subprocess.run([PAGES, folder, chosen.program], check=True)
            for hunt in HUNTS:
                check_hunt(browser, chosen.program, hunt)
        if "lines" in wanted:
            check_lines(browser, chosen.program)
        if "hostile" in wanted:
            check_hostile(browser, chosen.program)
        if "ring" in wanted:
            check_ring(browser, chosen.program)
        os.chdir("/")


if __name__ == "__main__":
    try:
        main()
    except AssertionError as error:
        sys.exit(str(error))
