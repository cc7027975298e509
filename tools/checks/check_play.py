#!/usr/bin/env python3
"""Plays groups with lines that are drawn at random, good ones and hostile ones, and checks each answer against the definition: what
`friday record` makes of the schedule so far (`play_of.py`). At the end of each play its schedule is recorded once more: the same events.

check_play.py [--plays N] [--seed N] [--jobs N] [PROGRAM]   (200 plays, a job a core, the program that answers ./friday, if none is given)
"""

import argparse
import multiprocessing
import os
import random
import shutil
import subprocess
import sys
import tempfile

from tools_path import TOP  # before the modules of the tools, which it lets be found
from asking.program import program_of
from check_shown import GUESTS, item
from play_of import Play

QUICK = [guest for guest in GUESTS if not guest.endswith("checksum.wasm")]
EXPRESSIONS = (
    "sum(@_.events)", "@p0.clock", "@p0.u32[1024] + 1", "max(@_.clock) - min(@_.size)", "@p1.u8[66552]", "1 / 0", "$x", "@_.clock", "sum(sum(1))",
    "@p0.global[0]", "count(@_.events > 2)", "(" * 65, "1 1", "@p9.size", "-1 < 2 && 3", "@p0.nope", "9223372036854775808",
)
HOSTILE = (
    "", "  ", "# x", "nope", "run", "run;", "run 0 64", "run 99 0", "run 0 0 0", "run 0 0 1000001", "run 0 0 1000000", "deliver 0 0", "inject 0 0",
    "inject 0 -", "clock 0 +1", "clock 0 -", "clock 0 9223372036854775807", "clock 0 9223372036854775808", "signal 0 0", "signal 0 32", "kill", "kill 0 0",
    "goto 1", "step", "continue", "watch 1", "set $x 1", "friday 1", "process a a.wasm", "processes 1", "threads", "threads p0 p0", "threads nobody",
    "datagram", "datagram p0 1", "datagram 0 0", "datagram 0 0x1", "datagram 0 9223372036854775808", "datagram 99 1", "printed p0", "printed nobody 0",
    "printed p0 0x0", "again 1", "quit 1", "mem p0 0 0", "mem p0 65535 2", "mem p0 0 257", "\x01", "nope &", "print \"", "run 0 0 \r", "run\t0\t0\t1",
    "print " + "1" * 4091, "run 0 0 " + "0" * 5000 + "1", "#" * 140000, "inject 0 " + "00" * 70000, "inject 0 " + "00" * 65000, "print @p0.u32[", "again",
)


def drawn_line(draw, count):
    kind = draw.random()
    if kind < 0.55:
        return item(draw, count)
    if kind < 0.7:
        return "print " + draw.choice(EXPRESSIONS)
    if kind < 0.8:
        return draw.choice(HOSTILE)
    if kind < 0.85:
        return changed(draw, draw.choice((item(draw, count), "print " + draw.choice(EXPRESSIONS), "datagram 0 1", "printed p0 0")))
    node = "p%d" % draw.randrange(count)
    return draw.choice(
        ("processes", "threads " + node, "datagram %d %d" % (draw.randrange(count), draw.randint(1, 6)), "printed %s %d" % (node, draw.choice((0, 0, 1, 40))),
         "mem %s %d %d" % (node, draw.choice((0, 1024, 65530, 66552)), draw.randint(1, 16)))
    )


def changed(draw, line):
    """The line with one byte more, less or another one."""
    data = bytearray(line.encode())
    at = draw.randrange(len(data) + 1)
    byte = draw.choice((0, 9, 10, 13, 32, 34, 35, 43, 45, 48, 57, 64, 95, 120, 127, 255))
    data[at : at + draw.choice((0, 1, 1))] = bytes([byte] * draw.choice((0, 1, 1)))
    return bytes(data).replace(b"\n", b" ").decode("latin-1")


def played(program, folder, lines, ending):
    """What `friday play` prints for these lines."""
    typed = b"\n".join(lines) + ending
    done = subprocess.run([program, "play", "schedule"], cwd=folder, input=typed, stdout=subprocess.PIPE, timeout=600)
    assert done.returncode == 0, (lines, done)
    return done.stdout.decode("latin-1").split("\n")[:-1]


def check_play(program, seed):
    """One play. Gives how many lines it had."""
    draw = random.Random(seed)
    with tempfile.TemporaryDirectory() as here, tempfile.TemporaryDirectory() as there:
        count = draw.randint(1, 4)
        names = ["p%d" % number for number in range(count)]
        modules = [draw.choice(QUICK) for _ in names]
        for module in modules:
            shutil.copy(module, os.path.join(here, os.path.basename(module)))
            shutil.copy(module, os.path.join(there, os.path.basename(module)))
        processes = [(name.encode(), os.path.basename(module).encode()) for name, module in zip(names, modules)]
        items = [item(draw, count).encode() for _ in range(draw.choice((0, 0, 3, 10)))]
        with open(os.path.join(here, "schedule"), "wb") as file:
            file.write(b"\n".join([b"friday 1", *(b"process %s %s" % pair for pair in processes), *items]) + b"\n")
        before = sorted(os.listdir(here))
        lines = [drawn_line(draw, count).encode("latin-1") for _ in range(draw.randint(5, 40))]
        told = played(program, here, lines, draw.choice((b"\n", b"", b"\nquit\nrun 0 0\n")))
        assert sorted(os.listdir(here)) == before, "a file was made"
        check_answers(Play(program, there, processes, items), lines, told)
        return len(lines)


def check_answers(play, lines, told):
    wanted = [(b"", ["items: %d acted, %d idle" % (play.now.acted, play.now.idle)])]
    for line in lines:
        answer = play.answer(line)
        if answer is None:
            break
        wanted.append((line, answer))
    at = 0
    for line, answer in wanted:
        assert told[at : at + len(answer)] == answer, (line, answer, told[at : at + len(answer)])
        at += len(answer)
    assert at == len(told), told[at:]


def check_seed(words):
    program, seed = words
    try:
        return check_play(program, seed), ""
    except AssertionError as failed:
        return 0, "play %d: %s" % (seed, str(failed)[:2000])


def main():
    parser = argparse.ArgumentParser(description=__doc__, formatter_class=argparse.RawDescriptionHelpFormatter, allow_abbrev=False)
    parser.add_argument("--plays", type=int, default=200, help="how many groups are played")
    parser.add_argument("--seed", type=int, default=1, help="the seed of the first one")
    parser.add_argument("--jobs", type=int, default=len(os.sched_getaffinity(0)), help="how many are played at once")
    parser.add_argument("program", nargs="?", help="the program friday, if not the one that answers ./friday")
    chosen = parser.parse_args()
    program = os.path.abspath(program_of(chosen.program))
    with multiprocessing.Pool(chosen.jobs) as pool:
        results = pool.map(check_seed, [(program, seed) for seed in range(chosen.seed, chosen.seed + chosen.plays)], chunksize=1)
    failed = [why for _, why in results if why]
    print(*failed, sep="\n", end="\n" if failed else "")
    print("%d plays of %d lines are answered as defined" % (len(results) - len(failed), sum(count for count, _ in results)))
    return 1 if failed else 0


if __name__ == "__main__":
    sys.exit(main())
