#!/usr/bin/env python3
"""Checks what a session, an editor and the launcher tell of the frames of threads: over a recording of a guest that is built here, which
calls itself 71 times and traps three calls deep. It is told by the functions of NAME.places, and by numbers where there are none.

check_frames.py [PROGRAM]   (the program that answers ./friday, if none is given)
"""

import argparse
import os
import re
import shutil
import stat
import subprocess
import sys
import tempfile
import time

from tools_path import TOOLS, TOP  # before the modules of the tools, which it lets be found
from asking.program import program_of
from editor import Editor, position_of

GUESTS, REPORTS = os.path.join(TOP, "guests"), os.path.join(TOP, "launcher", "reports.py")
SCHEDULE = "friday 1\nprocess a frames.wasm\nprocess b frames.wasm\nrun 0 0 100\nrun 1 0 100\n"
PAIRS = ["frames.wasm", "a.log", "frames.wasm", "b.log"]
# At its position 145 the process a was told its number, 0, and divided by it.
TRAPPED, DEEP, TOLD = 145, 72, 64
CHAIN = "divide, frames.c:14-15 < compute < answer_for < _start"


def run(words, folder, typed="", wanted=0):
    done = subprocess.run(words, cwd=folder, input=typed, stdout=subprocess.PIPE, stderr=subprocess.STDOUT, text=True, timeout=300)
    assert done.returncode == wanted, done
    return done.stdout


def session(program, folder, lines, wanted=0):
    words = [sys.executable, os.path.join(TOOLS, "session"), "--program", program, *PAIRS]
    return run(words, folder, "".join(line + "\n" for line in lines), wanted)


def prepared(program, folder, *words):
    os.mkdir(folder)
    shutil.copy(os.path.join(GUESTS, "check", "frames.c"), folder)
    run([os.path.join(GUESTS, "build"), *words, "frames.c"], folder)
    with open(os.path.join(folder, "schedule"), "w") as file:
        file.write(SCHEDULE)
    run([program, "record", "schedule"], folder)
    return folder


def with_places(folder, keep):
    """A copy of a folder whose file of places has the lines that begin with these words."""
    copy = "%s_%s" % (folder, len(keep))
    shutil.copytree(folder, copy)
    path = os.path.join(copy, "frames.places")
    with open(path) as file:
        lines = [line for line in file if line.split()[0] in keep]
    if keep:
        with open(path, "w") as file:
            file.writelines(lines)
    else:
        os.remove(path)
    return copy


def check_trap(program, folder, chain, frames):
    """The functions of a process that trapped, after the move that comes there, and whenever they are asked for."""
    told = session(program, folder, ["goto %d" % (TRAPPED - 1), "step", "t a", "bt a", "where", "step 1000", "bt a 0", "bt b"])
    assert re.search(r"^at %d: 73 a 0 me = 0\n    a 0 trapped zero divisor in %s\na trapped zero divisor in %s$" % (TRAPPED, chain, chain), told, re.M), told
    shown = "a 0 trapped zero divisor\n" + "".join("#%-3d%s\n" % pair for pair in enumerate(frames))
    assert told.count(shown) == 3 and told.endswith("\nb 0 finished\n"), (shown, told)


def check_deep(program, folder, first):
    """Of many frames the innermost 64 are told, and ways out of each of them."""
    told = session(program, folder, ["step", "bt", "t a", "up 63", "up", "down 64", "frame 3", "finish", "bt"], 1)
    frames = re.findall(r"^#(\d+) +(.*)$", told[: told.index("and 8 more")], re.M)
    assert [int(number) for number, _ in frames] == list(range(TOLD)) and frames[0][1] == first, frames
    assert {words for _, words in frames[1:]} == {"go_down, frames.c:6-12"}, frames
    assert "\n0 at note 0 in %s < go_down (63 times) and 8 more\n" % first in told, told
    assert told.count("? the frames of a 0 are #0 to #63 and 8 more\n") == 2 and "\n#3  go_down, frames.c:6-12\n     6  __attribute__" in told, told
    # The frames #0 to #3 are left where the fourth note is answered.
    left = told[told.index("\n#3  ") :]
    assert "\nat 9: 5 a 0 note 3\n" in left and left.endswith("\nand 4 more\n"), left


def check_ways_out(program, folder):
    """A frame is left at an event of its thread, unless a point stops the way there; the way back ends before it was entered."""
    lines = ["goto 100", "finish", "b a note", "up 2", "finish", "d", "frame 1", "finish", "goto 145", "finish", "reverse-finish", "goto 1", "reverse-finish"]
    told = session(program, folder, lines, 1)
    assert re.findall(r"^at (\d+)", told, re.M) == ["100", "102", "103", "107", "145", "143", "1"] and "\nbreak 1\nat 103: " in told, told
    assert "? a 0 does not leave divide up to the end\n" in told and told.endswith("? a 0 was in go_down after its first event\n"), told


def check_old_places(program, folder):
    """Without lines about functions their numbers are told, and calls as the file of places has them."""
    told = session(program, folder, ["step", "t a", "bt a"])
    assert "\n    a 0 stands at note in go_down, frames.c:11\na running\n0 at note 0 in go_down, frames.c:11 < function 3 (64 times) and 8 more\n" in told, told
    assert "\n#0  function 3, frames.c:11 in go_down\n#1  function 3\n" in told, told


def check_editor(program, folder, lines):
    """An editor has all frames of a thread, also of one that trapped, and the last event below them."""
    editor = Editor(program, folder)
    editor.ask("initialize", adapterID="friday")
    editor.ask("launch", pairs=PAIRS, position=TRAPPED)
    editor.ask("configurationDone")
    assert position_of(editor.event("stopped")) == TRAPPED
    threads = editor.ask("threads")["threads"]
    assert [thread["name"] for thread in threads][0] == "a 0 trapped zero divisor", threads
    found = editor.ask("stackTrace", threadId=threads[0]["id"])["stackFrames"]
    assert [frame["line"] for frame in found] == [*lines, TRAPPED] and found[0]["name"] == "divide, trapped zero divisor", found
    assert {frame["source"].get("path") for frame in found[:4]} == {os.path.join(folder, "frames.c")}, found
    editor.move("goto", targetId=1, threadId=1)
    found = editor.ask("stackTrace", threadId=threads[0]["id"])
    assert found["totalFrames"] == TOLD + 2 and found["stackFrames"][TOLD]["name"] == "and 8 more", found["totalFrames"]
    assert editor.end()[0] == 0


def check_launcher(program, folder, chain):
    """What is said beside the report of a replay."""
    with open(os.path.join(folder, "report"), "w") as file:
        file.write(run([program, "replay", *PAIRS], folder))
    told = run([sys.executable, REPORTS, "--told", "report", program, "replay", *PAIRS], folder)
    assert "\nfriday: a was in %s\n" % chain in told and "b was in" not in told, told


def check_bounded(folder):
    """Where the debugger does not answer, only what the trap means is told."""
    never = os.path.join(folder, "never")
    with open(never, "w") as file:
        file.write("#!/bin/sh\nexec sleep 1000\n")
    os.chmod(never, stat.S_IRWXU)
    begun = time.monotonic()
    told = run([sys.executable, REPORTS, "--told", "report", never, "replay", *PAIRS], folder)
    assert "a trapped after its event 73, zero divisor: " in told and "was in" not in told and time.monotonic() - begun < 60, told


def main():
    parser = argparse.ArgumentParser(description=__doc__, formatter_class=argparse.RawDescriptionHelpFormatter)
    parser.add_argument("program", nargs="?", metavar="PROGRAM")
    program = os.path.abspath(program_of(parser.parse_args().program))
    frames = ["divide, frames.c:14-15", "compute, frames.c:18-19", "answer_for, frames.c:22-23", "_start, frames.c:26-29"]
    with tempfile.TemporaryDirectory() as room:
        lines, plain = prepared(program, os.path.join(room, "lines"), "--lines"), prepared(program, os.path.join(room, "plain"))
        bare, old = with_places(plain, ()), with_places(lines, ("module", "variable", "call", "struct", "field"))
        numbers = ["function 6", "function 5", "function 4", "_start"]
        for folder in (lines, plain):
            check_trap(program, folder, CHAIN, frames)
            check_launcher(program, folder, CHAIN)
        check_trap(program, bare, " < ".join(numbers), numbers)
        check_launcher(program, bare, " < ".join(numbers))
        check_deep(program, lines, "go_down, frames.c:11")
        check_deep(program, plain, "go_down, frames.c:6-12")
        check_ways_out(program, lines)
        check_old_places(program, old)
        check_editor(program, lines, [14, 18, 22, 26])
        check_bounded(lines)
    print("frames: as expected")


if __name__ == "__main__":
    main()
