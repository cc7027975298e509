#!/usr/bin/env python3
"""Writes the script and the transcript of friday_cases, its files `stdin` and `stdout`, from the tables beside this
file and the guests in ../guests. It needs wat2wasm of the package wabt.

make.py [--check]   (with --check nothing is written: it says where the files are not what the tables make)

What the program is to print is put together here from the rules of docs/formats.md, and never from its output. What it prints
of real files (src/real.rt) is written out in real.txt."""

import os
import sys

import commands, crowds, cut_refusals, cuts, debug_conditions, debug_frames, debug_inputs, debug_pauses, debug_points, debug_programs, debug_returns, debugger, drills, groups
import guests, hostile, images, large_memories, large_modules, limits, long_bytes, long_plays, long_schedules, long_sessions, long_streams, many_datagrams
import many_events, migrates, most_events, over_inputs, pair_refusals, pairs, play_inputs, play_refusals, plays, point_refusals, program_limits
import program_refusals, program_values
import program_walks, refusals, replays, schedule_refusals, schedules, schedules_of_calls, schedules_of_logs
import shell_refusals, shell_values, stopped, streams, threads, turned, two_calls
from script import Script

PARTS = (
    *(commands, schedules, groups, stopped, pairs, pair_refusals, images, hostile, replays, migrates, turned, refusals, guests, threads, limits),
    *(schedules_of_logs, schedules_of_calls, schedule_refusals, cuts, cut_refusals, over_inputs, streams),
    *(debugger, debug_points, debug_returns, debug_conditions, debug_frames, shell_values, shell_refusals, point_refusals, debug_inputs),
    *(debug_programs, program_walks, program_values, program_refusals, program_limits, debug_pauses),
    *(plays, play_refusals, play_inputs, two_calls),
    *(long_schedules, long_sessions, long_bytes, long_plays, long_streams, many_datagrams, crowds, large_modules, large_memories, many_events, most_events, drills),
)
HERE = os.path.dirname(os.path.abspath(__file__))


def first_difference(path, lines):
    """The number of the first line that a file has otherwise, or None where it has these lines."""
    with open(path, encoding="utf-8") as file:
        there = file.read().split("\n")
    wanted = [*lines, ""]
    if there == wanted:
        return None
    return next((at for at, (one, other) in enumerate(zip(there, wanted), 1) if one != other), min(len(there), len(wanted)) + 1)


def main(words):
    if words not in ([], ["--check"]):
        sys.exit(__doc__)
    script = Script()
    for part in PARTS:
        part.table(script)
    with open(os.path.join(HERE, "real.txt"), encoding="utf-8") as file:
        script.told += file.read().splitlines()
    drifted = False
    for name, lines in (("stdin", script.lines), ("stdout", script.told)):
        path = os.path.join(HERE, "..", name)
        if not words:
            with open(path, "w", encoding="utf-8") as file:
                file.write("\n".join(lines) + "\n")
            continue
        line = first_difference(path, lines)
        if line is not None:
            drifted = True
            print("%s: line %d is not what the tables make" % (name, line))
    if words:
        print("tables: %s" % ("drifted" if drifted else "as expected"))
    return 1 if drifted else 0


sys.exit(main(sys.argv[1:]))
