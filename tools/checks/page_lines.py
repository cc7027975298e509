"""The places in the source and the wall times on the page of a group whose guest keeps its lines."""

import os
import random
import subprocess
import sys

from check_dap import PAIRS, prepared
from page_reader import go, no_complaint, now, opened, same
from sessions.engine import Engine
from sessions.places import in_words
from tools_path import TOOLS


def words_of(call):
    return in_words(call) if call else ""


class Told:
    """What a session by hand says of each position."""

    def __init__(self, program):
        self.engine = Engine(program, PAIRS)

    def threads(self, position, node):
        """Where each thread of a process stands."""
        self.engine.accepted("goto %d" % position)
        standing = self.engine.threads.standing(node)
        return [] if standing[0] != "running" else [words_of(self.engine.threads.call_of(node, thread)) for thread in standing[1]]

    def site(self, position):
        """Where the event's thread stood before it."""
        if not position:
            return ""
        self.engine.accepted("goto %d" % (position - 1))
        return words_of(self.engine.threads.call_of(*self.engine.index.thread_at(position)))

    def time(self, position, node):
        events = map(self.engine.event_at, range(position, 0, -1))
        last = next((event for event in events if event.log.name == node and event.entry.call.name in ("now", "sleep_until")), None)
        return ["wall time %d, told at %d" % (last.entry.reply, last.position)] if last else []


def check_position(stage, told, position):
    same("site at %d" % position, stage["site"], told.site(position))
    for name, card in stage["processes"].items():
        same("sites of %s at %d" % (name, position), card["sites"], told.threads(position, name))
        same("time of %s at %d" % (name, position), card["time"], told.time(position, name))


def check_lines(browser, program):
    """At the ends, where the money is lost, and at random positions."""
    above = os.getcwd()
    os.mkdir("lined")
    prepared(program, os.path.join(above, "lined"))
    os.chdir("lined")
    words = [sys.executable, os.path.join(TOOLS, "page.py"), "--program", program, *PAIRS, "--watch", "two=north.balances[0] + south.balances[0]"]
    with open("page.html", "w", encoding="utf-8") as file:
        subprocess.run(words, stdout=file, check=True)
    told = Told(program)
    opened(browser, "page.html")
    for position in (0, 1, 54, told.engine.last, *random.Random(1).sample(range(2, told.engine.last), 12)):
        go(browser, 0, position)
        check_position(now(browser)[0], told, position)
    no_complaint(browser)
    told.engine.close()
    os.chdir(above)
    print("lines: as expected", flush=True)
