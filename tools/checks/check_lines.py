#!/usr/bin/env python3
"""Checks what a session tells of places in the source, over a recording of a guest that `guests/build --lines` makes here:
where each thread stands, at every position too, and points at functions and lines.

check_lines.py [PROGRAM]   (the program that answers ./friday, if none is given)
"""

import argparse
import os
import re
import shutil
import subprocess
import sys
import tempfile

from tools_path import TOOLS, TOP  # before the modules of the tools, which it lets be found
from asking.program import program_of

GUESTS = os.path.join(TOP, "guests")
SCHEDULE = """friday 1
process a lines.wasm
process b lines.wasm
run 0 0 9
run 0 1
run 0 2
run 0 3
run 1 0 3
run 0 0 2
signal 0 5
run 0 0 2
run 0 0
clock 0 10
run 0 3 3
run 1 0 9
clock 0 1000
run 0 1
"""
# Where each thread stands at the end: the call, the function, the file, and what its line is known by.
AT_END = {
    "a 0": ("recv", "_start", "lines.c", "liblog_recv("),
    "a 2": ("join", "wait_in_header", "lines.h", "liblog_join("),
    "a 3": ("sleep_until", "keep_time", "kit/runtime.c", "liblog_sleep_until("),
    "b 0": ("recv", "_start", "lines.c", "liblog_recv("),
}
# Where functions are in the source, by the lines with which they begin.
FUNCTIONS = {
    "_start": ("lines.c", "void _start("), "late": ("lines.c", "void late("), "wait_for": ("lines.c", "void wait_for("),
    "wait_in_header": ("lines.h", "void wait_in_header("), "thread_start": ("kit/threads.c", "thread_start)("),
}
# The places of the process a in the order in which its threads come to them.
COURSE = (
    ("on_signal", "_start", "lines.c", "liblog_on_signal("), ("spawn", "_start", "lines.c", "thread_start(late"),
    ("spawn", "_start", "lines.c", "thread_start(wait"), ("now", "_start", "lines.c", "retry_begin("),
    ("spawn", "_start", "lines.c", "retry_begin("), ("now", "_start", "lines.c", "retry_set("),
    ("note", "inlined", "lines.c", "liblog_note(number"), ("note", "inlined", "lines.c", "liblog_note(number"),
    ("note", "_start", "lines.c", "liblog_note(10"), ("sleep_until", "wait_for", "lines.c", "liblog_sleep_until("),
    ("join", "wait_in_header", "lines.h", "liblog_join("), ("sleep_until", "keep_time", "kit/runtime.c", "liblog_sleep_until("),
    ("print", "_start", "lines.c", "print_text("), ("recv", "_start", "lines.c", "liblog_recv("),
    ("note", "take_signal", "lines.c", "liblog_note(-"), ("yield", "act", "lines.c", "liblog_yield("),
    ("sleep_until", "keep_time", "kit/runtime.c", "liblog_sleep_until("),
)


def spelled(place):
    """The place as a session tells it, with the number of the line."""
    call, function, file, part = place
    path = os.path.join(GUESTS, file[4:] if file.startswith("kit/") else os.path.join("check", file))
    with open(path) as lines:
        number = next(number for number, line in enumerate(lines, 1) if part in line)
    return call, "in %s, %s:%d" % (function, file, number)


def run(words, folder, typed="", wanted=0):
    done = subprocess.run(words, cwd=folder, input=typed, stdout=subprocess.PIPE, text=True, timeout=300)
    assert done.returncode == wanted, done
    return done.stdout


def session(program, folder, typed, wanted=0):
    words = [sys.executable, os.path.join(TOOLS, "session"), "--program", program, "lines.wasm", "a.log", "lines.wasm", "b.log"]
    return run(words, folder, "".join(line + "\n" for line in typed), wanted)


def check_functions(folder):
    """Each function of the module has the lines at which it begins and ends in its file."""
    with open(os.path.join(folder, "lines.places")) as file:
        found = {words[2]: words[3:] for words in map(str.split, file) if words[0] == "function"}
    assert FUNCTIONS.keys() <= found.keys() and "inlined" not in found, found
    for name, (file, begin) in FUNCTIONS.items():
        with open(os.path.join(GUESTS, *(["check", file] if file[:4] != "kit/" else [file[4:]]))) as text:
            lines = text.read().splitlines()
        first = next(number for number, line in enumerate(lines, 1) if begin in line and not line.endswith(";"))
        brace = next(number for number, line in enumerate(lines, 1) if number > first and line == "}")
        # What returns in the line before may leave none for the brace.
        assert found[name][:2] == [file, str(first)] and brace - 1 <= int(found[name][2]) <= brace, (name, found[name], first, brace)


def check_threads(program, folder):
    told = session(program, folder, ["step 1000", "t"])
    assert "\n    a 1 has ended\na running\n" in told and "\n1 ended\n" in told, told
    for thread, place in AT_END.items():
        node, number = thread.split()
        outside = " < begin" if number != "0" else ""
        form = r"\n%s at %s .*%s%s\n" % (number, *map(re.escape, spelled(place)), outside)
        assert re.search(form, told[told.index(node + " running") :]), (thread, told)


def check_course(program, folder):
    """At each event of a its thread is told to stand where the source says that it does."""
    told = session(program, folder, ["s"] * 29)
    stands = re.findall(r"\n    a \d stands at (\w+) (.*)", told)
    assert stands == list(map(spelled, COURSE)), stands


def check_points(program, folder):
    """A point at a function stops at each of its calls, and never where it is left."""
    inlined = spelled(COURSE[6])[1]
    told = session(program, folder, ["b a.inlined", "c", "p a.liblog_last_call[0]", "c", "c", "rc"])
    assert "\n%s\n" % inlined.split(":")[1] in told, told
    parts = re.split(r"break 1: a comes to a call in inlined\n", told)
    assert len(parts) == 4 and all("\n    a 0 stands at note %s\n" % inlined in part for part in parts[1:]), told
    assert "\nend\n" in parts[2] and parts[1].startswith("at ") and parts[3].splitlines()[0] == parts[2].splitlines()[0], told
    told = session(program, folder, ["b a.inlined", "condition 1 a.clock > 7", "c", "c"])
    assert told.count("comes to a call in inlined") == 1 and "\nat 15: 8 a 0 note 7\n" in told, told


def check_kept(program, folder):
    """A point at a line of both processes is one, and comes back from a file with its condition and its program."""
    line = spelled(COURSE[3])[1].split(", ")[1]
    typed = ["b %s if a.clock > 0 || b.clock > 0" % line, "l", "c", 'do 1 say "here ", @!', "run", "c", "save points"]
    told = session(program, folder, typed)
    assert told.count("point 1\n") == 1 and told.count("comes to a call in " + line) == 1, told
    assert re.findall(r"here (\w)", told) == ["a", "b"] * 2 and "\nhere b\nend\n" in told, told
    assert "\n1 break * * if (" in told and "point 1 is break %s if a.clock > 0 || b.clock > 0\n" % line in told, told
    with open(os.path.join(folder, "points")) as file:
        assert 'break %s if a.clock > 0 || b.clock > 0\ndo . say "here ", @!\n' % line in file.read()
    again = session(program, folder, ["load points", "l", "c"])
    assert again.startswith("point 1\n1 break * * if ") and again.count("\nhere ") == 4, again


def check_conditions(program, folder):
    """Names in a condition and a program are of the process whose event it is; conditions hold both ways, beside what only tells."""
    inlined = "b b,a.inlined if liblog_last_call[0] > 7"
    told = session(program, folder, [inlined, "l", "c", "c", "run", "do 1 say liblog_last_call[0]", "c"])
    assert "\n1 break * * if (!@!.ended && " in told and "point 1 is break a,b.inlined if liblog_last_call[0] > 7\n" in told, told
    stops = re.findall(r"break 1: (\w) comes to a call in inlined\nat (\d+): ", told)
    assert len(stops) == 2 and len(re.findall(r"^\d+$", told, re.M)) == 4, told
    assert "1 break a * if " in session(program, folder, ["b a,a.inlined", "l"])
    both = session(program, folder, [inlined, "b lines.c:38", 'do 2 say "passed"', "step 1000", "rc", "rc", "rc", "rc", "rc"])
    backwards = re.findall(r"break 1: (\w) comes to a call in inlined\nat (\d+): ", both)
    assert backwards[-1:] == stops[:1] and len(backwards) == 4 and "passed" not in both and both.endswith("start\nat 0\n"), both
    told = session(program, folder, ["w a.events if b.nothing", "condition 1 1", "w a.events", "condition 1 a.events > 3 &", "condition 1 a.events > 3", "c", "condition 1", "l"], 1)
    assert "\nat 7: " in told and told.endswith("1 watch @a.events\n") and told.count("? 1 syntax") == 1, told


def check_refused(program, folder):
    typed = ["b a.late", "b nobody inlined", "b lines.c:1", "b 7"]
    told = session(program, folder, typed, 1).splitlines()
    assert told[0].startswith("? no call is in late: functions with calls are _start, act, inlined, take_signal, wait_for"), told
    assert told[1] == "? the processes are a, b" and told[2].startswith("? no call is in lines.c:1: those of the file are in "), told


def main():
    parser = argparse.ArgumentParser(description=__doc__, formatter_class=argparse.RawDescriptionHelpFormatter)
    parser.add_argument("program", nargs="?", metavar="PROGRAM")
    program = os.path.abspath(program_of(parser.parse_args().program))
    with tempfile.TemporaryDirectory() as folder:
        for name in ("lines.c", "lines.h"):
            shutil.copy(os.path.join(GUESTS, "check", name), folder)
        run([os.path.join(GUESTS, "build"), "--lines", "lines.c"], folder)
        with open(os.path.join(folder, "schedule"), "w") as file:
            file.write(SCHEDULE)
        run([program, "record", "schedule"], folder)
        check_functions(folder)
        for check in (check_threads, check_course, check_points, check_kept, check_conditions, check_refused):
            check(program, folder)
    print("lines: as expected")


if __name__ == "__main__":
    main()
