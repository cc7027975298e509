#!/usr/bin/env python3
"""Checks picture.py on groups that are made up here, from seeds.

The vector clocks have to say which events happened before which: that is held against walks along the processes and from
sends to their receives. The logs for ShiViz and the pictures have to tell of each event and each datagram, and what is no
group of logs has to be refused in one line.
"""

import argparse
import json
import os
import random
import re
import subprocess
import sys
import tempfile
import xml.etree.ElementTree as ElementTree

from tools_path import TOOLS  # before the modules of the tools, which it lets be found
from logs.format import CALLS, Entry, Log, read_log, spelled
from logs.traffic import traffic_of
from logs.vector_clocks import PARSER, happens_before, vector_clocks

PICTURE = os.path.join(TOOLS, "picture.py")
BY_NAME = {call.name: call for call in CALLS}


class MadeUp:
    """A group whose processes send, take and note by chance; a datagram may come again, and never."""

    def __init__(self, seed, processes):
        self.draw = random.Random(seed)
        # Both versions of logs may stand in a group.
        self.logs = [Log(processes, process, "n%x" % process, [], 1 + (seed + process) % 2) for process in range(processes)]
        self.clocks, self.sent = [0] * processes, []
        self.sends = self.receives = 0

    def event(self):
        process = self.draw.randrange(len(self.logs))
        waiting = [datagram for datagram in self.sent if datagram[1] == process]
        act = self.draw.choice((self.send, self.receive if waiting else self.note, self.note))
        act(process, waiting)

    def add(self, process, name, arguments, reply, sent=b"", taken=b"", tag=None):
        self.clocks[process] += 1
        entry = Entry(self.clocks[process], 0, BY_NAME[name], 0, arguments, reply, sent, taken, tag)
        self.logs[process].entries.append(entry)

    def send(self, process, _):
        receiver, data = self.draw.randrange(len(self.logs)), b"<%d&" % len(self.sent)
        self.add(process, "send", (receiver, 64, len(data)), len(data), sent=data)
        self.sent.append((process, receiver, self.clocks[process], data))
        self.sends += 1

    def receive(self, process, waiting):
        sender, _, clock, data = self.draw.choice(waiting)
        self.clocks[process] = max(self.clocks[process], clock)
        self.add(process, "recv", (64, 64, 0), len(data), taken=data, tag=(sender, clock))
        self.receives += 1

    def note(self, process, _):
        self.add(process, "note", (self.draw.randrange(99),), 0)

    def write(self):
        """The words MODULE LOG .. of the group, whose files are in the present folder."""
        words = []
        with open("module", "wb") as file:
            file.write(b"\0asm\1\0\0\0")
        for process, log in enumerate(self.logs):
            with open("n%x.log" % process, "wb") as file:
                file.write(spelled(log))
            words += ["module", "n%x.log" % process]
        return words


def before(traffic):
    """The positions of the events that happened before each event, by walks along the two kinds of steps."""
    steps, latest = {}, {}
    for event in traffic.events:
        steps[event.position] = [latest[event.log.process]] if event.log.process in latest else []
        latest[event.log.process] = event.position
    for taken in traffic.taken:
        steps[taken.receive.position].append(taken.send.position)
    return {position: reached(steps, position) for position in steps}


def reached(steps, position):
    found, left = set(), list(steps[position])
    while left:
        place = left.pop()
        if place not in found:
            found.add(place)
            left += steps[place]
    return found


def check_clocks(traffic):
    clocks, earlier = vector_clocks(traffic), before(traffic)
    for event, clock in zip(traffic.events, clocks):
        told = {other.position for other in traffic.events if happens_before(clock, other.number, other.log.process)}
        assert told - {event.position} == earlier[event.position], event


def picture(*words):
    return subprocess.run([sys.executable, PICTURE, *words], stdout=subprocess.PIPE, stderr=subprocess.PIPE, text=True)


def check_shiviz(words, traffic, first, last):
    """Each line is of the parser's form, and each process counts its events from 1."""
    done = picture("--shiviz", "--from", str(first), "--to", str(last), *words)
    parser, empty, *lines = done.stdout.splitlines()
    assert done.returncode == 0 and parser == PARSER and empty == "" and len(lines) == last - first + 1
    counts = {}
    for event, line in zip(traffic.events[first - 1 :], lines):
        host, clock, _ = re.fullmatch(PARSER.replace("(?<", "(?P<"), line).groups()
        counts[host] = counts.get(host, 0) + 1
        assert host == event.log.name and json.loads(clock)[host] == counts[host]
        assert all(number <= counts[name] for name, number in json.loads(clock).items())


def check_picture(words, group, traffic):
    """An arrow for each datagram that was taken and a cross for each that was not, beside those of the legend."""
    done = picture("--logs-alone", *words)
    assert done.returncode == 0, done.stderr
    root = ElementTree.fromstring(done.stdout)
    kinds = [part.get("class", "") for part in root.iter()]
    lost = group.sends - len(traffic.by_send)
    assert len(traffic.taken) == group.receives == sum(kind.startswith("arrow") for kind in kinds) - 3
    assert sum(kind == "cross" for kind in kinds) == lost + 1
    check_arrows(root)


def check_arrows(root):
    """No arrow begins or ends in the words of an event."""
    def numbers(part, *names):
        return [float(part.get(name)) for name in names]

    words = [numbers(part, "x", "y", "width", "height") for part in root.iter() if part.get("class") == "behind"]
    arrows = [numbers(part, "x1", "y1", "x2", "y2") for part in root.iter() if part.tag.endswith("line") and part.get("class", "").startswith("arrow")]
    assert words and arrows
    for x1, y1, x2, y2 in arrows:
        for left, top, width, height in words:
            assert not any(left < x < left + width and top < y < top + height for x, y in ((x1, y1), (x2, y2))), (x1, y1, x2, y2, left, top)


def check_group(seed, processes, events):
    group = MadeUp(seed, processes)
    for _ in range(events):
        group.event()
    words = group.write()
    traffic = traffic_of([read_log(path) for path in words[1::2]])
    assert len(traffic.events) == events
    check_clocks(traffic)
    check_shiviz(words, traffic, 1, events)
    check_shiviz(words, traffic, events // 3, events // 2)
    check_picture(words, group, traffic)


def check_refused():
    words = MadeUp(1, 2).write()
    with open("other", "wb") as file:
        file.write(b"other bytes")
    for bad in (
        [], ["module"], ["module", "absent.log"], ["absent", "n0.log"], ["module", "."], ["module", "other"], ["other", "n0.log"],
        ["n0.log", "module"], ["module", "n0.log", "module", "n0.log"], words, ["--from", "9", *words], ["--from", "x", *words],
        ["--elsewhere", *words],
    ):
        done = picture(*bad)
        assert done.returncode != 0 and done.stdout == "" and len(done.stderr.splitlines()) == 1, (bad, done.stderr)


def check_large():
    """What would be a picture of many megabytes is refused at once, and a part of it is drawn."""
    group = MadeUp(3, 2)
    for _ in range(20_001):
        group.note(0, [])
    words = group.write()
    done = picture("--logs-alone", *words)
    assert done.returncode == 1 and done.stdout == "" and "--whole" in done.stderr, done.stderr
    assert picture("--logs-alone", "--from", "20000", *words).returncode == 0


def main():
    argparse.ArgumentParser(description=__doc__, formatter_class=argparse.RawDescriptionHelpFormatter).parse_args()
    with tempfile.TemporaryDirectory() as folder:
        os.chdir(folder)
        for seed in range(12):
            check_group(seed, 1 + seed, 120)
        check_refused()
        check_large()
        os.chdir("/")
    print("picture: as expected")


if __name__ == "__main__":
    main()
