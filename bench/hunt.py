"""Hunts in examples/, by tools/hunt: how many seeds a minute one job tries at the rates of the bank, with the processor's seconds of the
tool and of the program; for each hunt how many of so many seeds count, and which is the first, with threads in a drawn order and by
priorities; and how long a schedule of 16 processes and 300 rounds takes to make.
"""

import os
import re
import resource
import shlex
import subprocess
import tempfile
import time

from costs import TOP, parser_of

TOOLS = os.path.join(TOP, "tools")
# The hunts, with the schedule whose first line has the rates, and what counts if that is more than an exit.
HUNTS = (("register", "failing", ()), ("bank", "failing", ()), ("enet", "failing", ("--ends", "server: exited 1")), ("election", "failing", ()))
ORDERS = ("uniform", "priorities:1", "priorities:2", "priorities:3", "priorities:4")


def rates_of(hunt, schedule):
    """The words that made a stored schedule, without its seed."""
    with open(os.path.join(TOP, "examples", hunt, schedule)) as file:
        words = shlex.split(file.readline())[2:]
    return words[2:] if words[0] == "--seed" else words


def seconds_of(who):
    usage = resource.getrusage(who)
    return usage.ru_utime + usage.ru_stime


def counted(program, hunt, words):
    """The seeds that count, and the seconds of the clock."""
    begun = time.perf_counter()
    done = subprocess.run([os.path.join(TOOLS, "hunt"), "--program", program, "--count", *words], cwd=os.path.join(TOP, "examples", hunt), stdout=subprocess.PIPE, text=True)
    assert done.returncode in (0, 1), done
    events = int(re.search(r"^seeds .*: (\d+) events", done.stdout, re.M)[1])
    return [int(seed) for seed in re.findall(r"^seed (\d+):", done.stdout, re.M)], events, time.perf_counter() - begun


def tell_speed(program, seeds):
    before = seconds_of(resource.RUSAGE_CHILDREN)
    hits, events, took = counted(program, "bank", ["--jobs", "1", "--seeds", "1..%d" % seeds, *rates_of("bank", "failing")])
    spent = seconds_of(resource.RUSAGE_CHILDREN) - before
    told = (seeds, events, took, spent, seeds * 60 / took, seeds * 60 / spent)
    print("bank, one job: %d seeds, %d events in %.1f s, %.1f s of the processor: %.0f seeds a minute, %.0f a minute of one core" % told, flush=True)


def tell_orders(program, seeds):
    print("%-10s %-14s %8s %12s %12s" % ("hunt", "order", "hits", "of seeds", "first"))
    for hunt, schedule, ends in HUNTS:
        for order in ORDERS:
            hits, _, _ = counted(program, hunt, ["--seeds", "1..%d" % seeds, "--order", order, *ends, *rates_of(hunt, schedule)])
            print("%-10s %-14s %8d %12d %12s" % (hunt, order, len(hits), seeds, hits[0] if hits else "none"), flush=True)


def tell_many(program):
    """The register with twelve readers."""
    names = ["r0", "r1", "r2", "writer", *"abcdefghijkl"]
    with tempfile.TemporaryDirectory() as folder:
        words = [os.path.join(TOOLS, "make_schedule.py"), "--program", program, "--output", os.path.join(folder, "s"), "--seed", "86", "--rounds", "300", "--tick", "100",
                 "--events", "9", "--loss", "0.2", "--repeat", "0.2", "--reorder", "0.2", *(name + "=many.wasm" for name in names)]
        begun = time.perf_counter()
        text = subprocess.run(words, cwd=os.path.join(TOP, "examples", "register"), stdout=subprocess.PIPE, text=True, check=True).stdout
        took = time.perf_counter() - begun
    events = sum(map(int, re.findall(r": (\d+) events", text)))
    print("16 processes, 300 rounds: %d events in %.1f s" % (events, took), flush=True)


def main():
    parser = parser_of(__doc__)
    parser.add_argument("--seeds", type=int, default=1000, help="how many seeds each order tries")
    chosen = parser.parse_args()
    tell_many(chosen.program)
    tell_speed(chosen.program, min(chosen.seeds, 1000))
    tell_orders(chosen.program, chosen.seeds)


if __name__ == "__main__":
    main()
