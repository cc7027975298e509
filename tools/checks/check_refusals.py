#!/usr/bin/env python3
"""Checks what ./friday says where something is refused, 88 calls and 63 lines of the debugger, and what it says of traps: with what
stands on standard output and on standard error, as refusals.txt has it. Then the launcher's own reading of schedules and of lines of
the debugger is held against the program's, on some that are drawn at random, and a session is typed on a terminal. A program is given,
so that nothing is built.

check_refusals.py [PROGRAM]     (the program that answers ./friday, if none is given)
check_refusals.py --write       (writes refusals.txt anew, to be read line by line)
"""

import argparse
import fcntl
import os
import pty
import random
import re
import select
import shutil
import subprocess
import sys
import tempfile
import termios

from tools_path import TOP  # before the modules of the tools, which it lets be found
from asking.program import program_of
from refusal_cases import BAD_LINES, FILES, LINES, MANY, MODULES, PAIRS, TRAPPING, TRAPS, WORDS, Case, cases_of_logs, contents_of

sys.path.append(os.path.join(TOP, "launcher"))

from bad_line import first_bad, first_too_many  # noqa: E402 (it lies with the launcher)
from shell_lines import FORMS, Reader, Unexpected  # noqa: E402

STORED = os.path.join(os.path.dirname(os.path.realpath(__file__)), "refusals.txt")
# What the launcher uses of a clone.
PARTS = ("friday", "VERSION", "crates.txt", "launcher", "docs", "guests", "tools/logs")


def make_clone(folder, program):
    """A clone of what the launcher needs, whose proved program is this one."""
    for part in PARTS:
        source, target = os.path.join(TOP, part), os.path.join(folder, part)
        os.makedirs(os.path.dirname(target), exist_ok=True)
        if os.path.isdir(source):
            shutil.copytree(source, target, ignore=shutil.ignore_patterns("__pycache__"))
        else:
            shutil.copy(source, target)
    os.makedirs(os.path.join(folder, "out"))
    with open(os.path.join(folder, "out", "current"), "w") as file:
        file.write("proved %s\n" % os.path.abspath(program))


def put(folder, files):
    for name, contents in files.items():
        path = os.path.join(folder, name)
        os.makedirs(os.path.dirname(path), exist_ok=True)
        with open(path, "wb") as file:
            file.write(contents.encode() if isinstance(contents, str) else contents)


def call(clone, folder, case):
    """The status and both texts of a call by a shell, with the clone's path and the folder's as a mark each."""
    line = "exec '%s/friday' %s %s" % (clone, case.words, case.redirected)
    how = {"cwd": folder, "stdin": subprocess.DEVNULL, "stdout": subprocess.PIPE, "stderr": subprocess.PIPE, "timeout": 300}
    done = subprocess.run(["sh", "-c", line], env={**os.environ, "LLVM_DWARFDUMP": "none"}, **how)
    texts = (text.decode("utf-8", "backslashreplace").replace(clone, "CLONE").replace(folder, "FOLDER") for text in (done.stdout, done.stderr))
    return (done.returncode, *texts)


def told(case, answer):
    """A case as it is stored."""
    status, out, error = answer
    head = "## %s\n%s$ friday %s\n" % (case.name, "# less: %s\n" % case.less if case.less else "", " ".join(filter(None, (case.words, case.redirected))))
    return head + "status %d\n" % status + marked("out", out) + marked("err", error)


def marked(mark, text):
    return "".join("%s| %s\n" % (mark, line) for line in text.splitlines())


def all_told(program, room):
    """Each case as it comes out."""
    clone, first = os.path.join(room, "clone"), os.path.join(room, "first")
    make_clone(clone, program)
    given = {name: contents_of("examples", "pingpong", name) for name in ("ping.wasm", "pong.wasm", "schedule")}
    put(first, given)
    assert call(clone, first, Case("", "record schedule"))[0] == 0
    for name in ("ping.log", "pong.log"):
        with open(os.path.join(first, name), "rb") as file:
            given[name] = file.read()
    lines = Case("lines of the debugger", "debug " + PAIRS, {"lines": "\n".join(LINES) + "\n"}, "< lines")
    cases = (*BAD_LINES, *MANY, *MODULES, *cases_of_logs(given["ping.log"], given["pong.log"]), *FILES, *WORDS)
    assert len(cases) == 88
    for number, case in enumerate((*cases, *TRAPS, lines)):
        folder = os.path.join(room, "%d" % number)
        # Logs in the folder of a recording would be told of as well.
        put(folder, {name: given[name] for name in given if ".log" in case.words or not name.endswith(".log")})
        put(folder, case.files)
        yield told(case, call(clone, folder, case))


# ---- schedules and lines that are drawn

SCHEDULES, DRAWN_LINES = 400, 4000
HEADS = ["friday 1", "process a ping.wasm", "process b ping.wasm"]
ITEMS = ["run 0 0", "run 1 63 2", "deliver 0 1", "inject 1 0aF0", "inject 1 -", "clock 0 -5", "clock 0 -0", "random 1 -", "signal 0 31", "kill 1", "", "# note"]
BITS = ["0", "1", "2", "63", "64", "-1", "+1", "--1", "-", "0x1", "00", "1000000", "1000001", "9223372036854775807", "9223372036854775808", "-9223372036854775808",
        "-9223372036854775809", "ab", "abc", "xy", "run", "process", "friday", "a", "A", "c.log", "#", "\x0b", "\u00e4", "31", "32", "kill"]
TOKENS = [*FORMS, *"0 1 64 257 1001 9223372036854775808 0x1f 0X1 1a x ping pong pang _ * recv begin nosuch $ @ . [ ] ( ) { } , ; + - / % ! < > == != && ||".split(),
          *"u8 u64 i64 global clock events size sum count if else say set stop".split(), '"a"', '"', "&", "=", "~", "\t", "@ping.clock", "$n", "(1)", "@ping.u8[64]"]


def drawn_schedule(draw):
    """A schedule with a few fields changed, left out or put in."""
    lines = [*HEADS, *(draw.choice(ITEMS) for _ in range(draw.randrange(8)))]
    for _ in range(draw.choice((0, 1, 1, 2))):
        at = draw.randrange(len(lines))
        fields = lines[at].split(" ")
        place = draw.randrange(len(fields))
        fields[place : place + draw.randrange(2)] = [draw.choice(BITS)] * draw.randrange(2)
        lines[at] = draw.choice((" ", "\t", "  ")).join(fields)
    if draw.random() < 0.2:
        lines.insert(draw.randrange(len(lines)), draw.choice((*HEADS, *ITEMS)))
    return draw.choice(("\n", "\r\n", "\n\n")).join(lines) + draw.choice(("", "\n"))


def check_schedules(program, room):
    """The program and the launcher name the same line of a schedule."""
    draw = random.Random(1)
    put(room, {"ping.wasm": contents_of("examples", "pingpong", "ping.wasm")})
    counts = {True: 0, False: 0}
    for _ in range(SCHEDULES):
        text = drawn_schedule(draw).encode()
        put(room, {"s": text})
        out = subprocess.run([program, "record", "s"], cwd=room, stdout=subprocess.PIPE, text=True).stdout
        bad = first_bad(text)
        wanted = "friday: refused s: line %d BadLine\n" % bad[0] if bad else "friday: refused s: TooMany\n" if first_too_many(text) else None
        assert out == wanted if wanted else "refused" not in out, (text, wanted, out)
        counts[wanted is not None] += 1
    assert min(counts.values()) > SCHEDULES / 10, counts


def drawn_line(draw):
    """Some tokens one after the other, most often after a verb."""
    tokens = [draw.choice(TOKENS) for _ in range(draw.randrange(1, 9))]
    first = draw.choice((draw.choice(list(FORMS)) + " ", "print ", "do 1 ", ""))
    return first + draw.choice((" ", " ", "", "  ")).join(tokens)


def column_of(line):
    """The column at which the launcher would refuse a line for its syntax, or None."""
    try:
        Reader(line).line()
    except Unexpected as found:
        return found.column
    return None


def check_lines(program, room):
    """The program and the launcher refuse the same lines for their syntax, at the same columns."""
    draw = random.Random(2)
    lines = [line for line in (drawn_line(draw) for _ in range(DRAWN_LINES)) if line.strip() and not line.strip().startswith("quit")]
    given = {name: contents_of("examples", "pingpong", name) for name in ("ping.wasm", "pong.wasm", "schedule")}
    put(room, given)
    subprocess.run([program, "record", "schedule"], cwd=room, stdout=subprocess.DEVNULL, check=True)
    asked = "".join("%s\nprint 987654321\n" % line for line in lines)
    done = subprocess.run([program, "debug", *PAIRS.split()], cwd=room, input=asked, stdout=subprocess.PIPE, text=True)
    answers = done.stdout.split("987654321\n")
    assert done.returncode == 0 and len(answers) == len(lines) + 1, (done.returncode, len(answers), len(lines))
    refused = 0
    for line, answer in zip(lines, answers):
        found = re.search(r"^\? 1 syntax at column (\d+)$", answer, re.M)
        assert column_of(line) == (int(found[1]) if found else None), (line, answer, column_of(line))
        refused += found is not None
    assert refused < len(lines), refused


# ---- a terminal


class Terminal:
    """A call of the launcher with a terminal of its own for all three streams."""

    def __init__(self, clone, folder, words):
        self.at, place = pty.openpty()
        self.run = subprocess.Popen([os.path.join(clone, "friday"), *words], cwd=folder, stdin=place, stdout=place, stderr=place, preexec_fn=begin_session)
        os.close(place)
        self.text = ""

    def until(self, wanted):
        while wanted not in self.text:
            assert select.select([self.at], [], [], 120)[0], (wanted, self.text)
            self.text += os.read(self.at, 65536).decode("utf-8", "replace").replace("\r", "")

    def type(self, text):
        os.write(self.at, text.encode())


def begin_session():
    """The terminal is the one whose Ctrl-C this process gets."""
    os.setsid()
    fcntl.ioctl(0, termios.TIOCSCTTY, 0)


def check_terminal(program, room):
    """Lines that are typed are answered one by one, each with what is said of it below; Ctrl-C and the end of the input end it."""
    clone, folder = os.path.join(room, "clone"), os.path.join(room, "work")
    make_clone(clone, program)
    put(folder, {name: contents_of("examples", "pingpong", name) for name in ("ping.wasm", "pong.wasm", "schedule")})
    subprocess.run([program, "record", "schedule"], cwd=folder, stdout=subprocess.DEVNULL, check=True)
    for last, status in (("\x03", 130), ("\x04", 0), ("quit\n", 0)):
        terminal = Terminal(clone, folder, ["debug", *PAIRS.split()])
        terminal.until("at 0\n")
        for line, wanted in (("goto 3", "at 3: "), ("mem ping 0 257", "^ LEN is 1 to 256, and not 257\n"), ("print 1 + 1", "\n2\n"), ("goto 99", "position is 18")):
            terminal.type(line + "\n")
            terminal.until(wanted)
        terminal.type(last)
        assert terminal.run.wait(120) == status, (last, terminal.run.returncode)
        os.close(terminal.at)
    put(folder, TRAPPING)
    terminal = Terminal(clone, folder, ["record", "s"])
    terminal.until("t trapped after its event 2, unreachable: ")
    terminal.until("t was in _start\n")
    assert terminal.run.wait(120) == 0


def main():
    parser = argparse.ArgumentParser(description=__doc__, formatter_class=argparse.RawDescriptionHelpFormatter, allow_abbrev=False)
    parser.add_argument("program", nargs="?", metavar="PROGRAM")
    parser.add_argument("--write", action="store_true")
    chosen = parser.parse_args()
    program = os.path.abspath(program_of(chosen.program))
    for check in (check_schedules, check_lines, check_terminal):
        with tempfile.TemporaryDirectory() as room:
            check(program, room)
    with tempfile.TemporaryDirectory() as room:
        found = list(all_told(program, os.path.realpath(room)))
    if chosen.write:
        with open(STORED, "w", encoding="utf-8") as file:
            file.write("\n".join(found))
        return 0
    with open(STORED, encoding="utf-8") as file:
        stored = re.split(r"\n(?=## )", file.read())
    differs = [(one, other) for one, other in zip(stored, found) if one.rstrip("\n") != other.rstrip("\n")]
    for one, other in differs:
        print("stored:\n%s\nfound:\n%s" % (one, other))
    assert len(stored) == len(found) and not differs, "%d of %d differ" % (len(differs), len(found))
    print("refusals: %d as stored, and %d lines" % (len(found) - 1, len(LINES)))
    return 0


if __name__ == "__main__":
    sys.exit(main())
