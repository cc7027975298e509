#!/usr/bin/env python3
"""Records groups by schedules drawn at random, moves the modules and the logs alone into an empty folder under names drawn at
random, and checks that replay and debug show there what was recorded: for every choice of the processes, in several orders of
the words.

check_shown.py [--groups N] [--seed N] [PROGRAM]   (200 groups, the program that answers ./friday, if none is given)
"""

import argparse
import collections
import itertools
import os
import random
import shutil
import subprocess
import tempfile

from tools_path import TOP  # before the modules of the tools, which it lets be found
from asking.program import program_of

GUESTS = [
    os.path.join(TOP, "examples", *path)
    for path in (
        ("pingpong", "ping.wasm"),
        ("pingpong", "pong.wasm"),
        ("bank", "bank.wasm"),
        ("register", "register.wasm"),
        ("election", "election.wasm"),
        ("threads", "queue.wasm"),
        ("threads", "handler.wasm"),
        ("threads", "many.wasm"),
        ("guests", "checksum.wasm"),
    )
]
# The parts of memory that are compared at each position that is drawn.
PLACES = (1024, 4096, 65536, 66552)
ORDERS = 3

# A process, with the names under which its module and its log stand.
Shown = collections.namedtuple("Shown", "name module log")


def called(program, folder, *words, typed=""):
    """What a call prints in this folder."""
    done = subprocess.run([program, *words], input=typed, cwd=folder, stdout=subprocess.PIPE, text=True, timeout=600)
    assert done.returncode == 0, (words, done)
    return done.stdout


def item(draw, count):
    """A line of a schedule: most are tries and deliveries, so that the processes get on."""
    process = draw.randrange(count)
    kind = draw.choices(("run", "deliver", "inject", "clock", "random", "signal", "kill"), (60, 25, 4, 5, 4, 3, 1))[0]
    if kind == "run":
        return "run %d %d %d" % (process, draw.choice((0, 0, 0, 1, 2)), draw.randint(1, 6))
    if kind == "deliver":
        return "deliver %d %d" % (process, draw.randint(1, 8))
    if kind == "inject" or kind == "random":
        return "%s %d %s" % (kind, process, bytes(draw.randrange(256) for _ in range(draw.randint(1, 24))).hex())
    if kind == "clock":
        return "clock %d %d" % (process, draw.randint(0, 1000))
    return "signal %d %d" % (process, draw.randint(1, 31)) if kind == "signal" else "kill %d" % process


def recorded(program, draw, folder, guests=GUESTS):
    """Records a group of these guests that is drawn. Gives its names, its modules and what was printed."""
    names = ["p%d" % number for number in range(draw.randint(1, 4))]
    modules = [os.path.basename(draw.choice(guests)) for _ in names]
    for guest in guests:
        shutil.copy(guest, folder)
    lines = ["friday 1", *("process %s %s" % pair for pair in zip(names, modules))]
    lines += [item(draw, len(names)) for _ in range(draw.randint(20, 120))]
    with open(os.path.join(folder, "schedule"), "w", encoding="ascii") as file:
        file.write("\n".join(lines) + "\n")
    return names, modules, called(program, folder, "record", "--images", "schedule")


def moved(draw, names, modules, here, there):
    """Moves the logs of these processes, each with a copy of its module, to names that are drawn: also to those that another
    process's log had, and into a folder. Gives the processes with these names."""
    os.mkdir(os.path.join(there, "kept"))
    free = [file for name in names for file in (name, name + ".log", os.path.join("kept", name + ".log"), os.path.join("kept", name + ".wasm"))]
    files = draw.sample(free, 2 * len(names))
    group = [Shown(name, files.pop(), files.pop()) for name in names]
    for process, module in zip(group, modules):
        shutil.copy(os.path.join(here, module), os.path.join(there, process.module))
        os.rename(os.path.join(here, process.name + ".log"), os.path.join(there, process.log))
    return group


def files_in(folder):
    """The files of a folder and of those in it, by their names from there."""
    return {os.path.relpath(os.path.join(path, file), folder) for path, _, files in os.walk(folder) for file in files}


def pairs_of(chosen):
    return [word for process in chosen for word in (process.module, process.log)]


def check_replay(program, folder, chosen, summary, images):
    """The report has the recorded lines, in the order of the processes' numbers, and the images are those of the recording."""
    lines = called(program, folder, "replay", "--images", *pairs_of(chosen)).splitlines()
    names = sorted(process.name for process in chosen)
    assert lines[:-1] == [summary[name] + ", log whole" for name in names], (chosen, lines)
    assert lines[-1].startswith("group: ")
    for name in names:
        for ending in (".mem", ".out"):
            with open(os.path.join(folder, name + ending), "rb") as file:
                assert file.read() == images[name + ending], (chosen, name, ending)
            os.remove(os.path.join(folder, name + ending))
    return lines


def session(positions, names):
    """The lines that ask for the order, and for parts of the memories at these positions."""
    ends = ["goto 0"] + ["step 1000", "events 1000"] * 3
    return ends + [line for at in positions for line in ["goto %d" % at, *("mem %s %d 64" % (name, place) for name in names for place in PLACES)]] + ["quit"]


def memories(program, folder, chosen, positions):
    """The order of these processes' events, and what stands in their memories at each of these positions."""
    names = sorted(process.name for process in chosen)
    text = called(program, folder, "debug", *pairs_of(chosen), typed="\n".join(session(positions, names)) + "\n")
    lines = text.splitlines()
    parts = [line.partition(": ") for line in lines]
    events = {int(at): event for at, colon, event in parts if colon and at.isdigit()}
    asked = lines[-len(positions) * (1 + len(names) * len(PLACES)) :] if positions else []
    answers = {}
    for number, at in enumerate(positions):
        begin = number * (1 + len(names) * len(PLACES)) + 1
        for index, name in enumerate(names):
            first = begin + index * len(PLACES)
            answers[at, name] = asked[first : first + len(PLACES)]
    return [events[at] for at in sorted(events)], answers


def owner(event):
    """The process of an event, which is told after the event's clock."""
    return event.split(" ")[1]


def check_debug(program, draw, folder, chosen, whole, alone):
    """The order is that of the group without the events of the others, and at each position each process has the memory that it
    has alone after as many of its own events."""
    names = {process.name for process in chosen}
    order = [event for event in whole if owner(event) in names]
    positions = sorted(draw.sample(range(len(order) + 1), min(4, len(order) + 1)))
    events, answers = memories(program, folder, chosen, positions)
    assert events == order, chosen
    for (at, name), memory in answers.items():
        count = sum(owner(event) == name for event in order[:at])
        assert memory == alone[name][count, name], (chosen, name, at)


def check_group(program, draw):
    """Records a group and shows it from elsewhere, by each choice of its processes. Gives how many events it has."""
    with tempfile.TemporaryDirectory() as here, tempfile.TemporaryDirectory() as there:
        names, modules, text = recorded(program, draw, here)
        summary = {line.split(":")[0]: line.replace(", killed", ", running") for line in text.splitlines()[:-1]}
        images = {name: open(os.path.join(here, name), "rb").read() for name in os.listdir(here) if name.endswith((".mem", ".out"))}
        group = moved(draw, names, modules, here, there)
        whole, _ = memories(program, there, group, [])
        alone = {}
        for process in group:
            count = sum(owner(event) == process.name for event in whole)
            _, alone[process.name] = memories(program, there, [process], range(count + 1))
        for size in range(1, len(group) + 1):
            for chosen in itertools.combinations(group, size):
                texts = set()
                for _ in range(ORDERS if size > 1 else 1):
                    shuffled = draw.sample(chosen, size)
                    texts.add(tuple(check_replay(program, there, shuffled, summary, images)))
                    check_debug(program, draw, there, shuffled, whole, alone)
                assert len(texts) == 1, chosen
        assert files_in(there) == set(pairs_of(group))
        return len(whole)


def main():
    parser = argparse.ArgumentParser(description=__doc__, formatter_class=argparse.RawDescriptionHelpFormatter, allow_abbrev=False)
    parser.add_argument("--groups", type=int, default=200, help="how many groups are recorded")
    parser.add_argument("--seed", type=int, default=1, help="the seed of the first one")
    parser.add_argument("program", nargs="?", help="the program friday, if not the one that answers ./friday")
    chosen = parser.parse_args()
    program = os.path.abspath(program_of(chosen.program))
    events = [check_group(program, random.Random(seed)) for seed in range(chosen.seed, chosen.seed + chosen.groups)]
    print("%d groups of %d events are shown as they were recorded" % (len(events), sum(events)))


if __name__ == "__main__":
    main()
