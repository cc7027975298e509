#!/usr/bin/env python3
"""Types sessions by hand into a terminal, as users of gdb do, and compares what then stands there with the folder `typed`: once in a
terminal of this check's own, and once in tmux, if that is installed. Sessions on pages are typed by check_pages.py.

check_typed.py [PROGRAM]     (the program that answers ./friday, if none is given)
check_typed.py --write       (types the lines that stand there again, and writes the folder anew, to be read line by line)

A file begins with the session's words. The lines that are typed are those behind a prompt, whose number is of no matter then.
"""

import argparse
import difflib
import fcntl
import os
import pty
import re
import select
import shlex
import shutil
import struct
import subprocess
import sys
import tempfile
import termios
import time

from tools_path import TOOLS, TOP  # before the modules of the tools, which it lets be found
from asking.program import program_of

STORED = os.path.join(os.path.dirname(os.path.realpath(__file__)), "typed")
EXAMPLES = os.path.join(TOP, "examples")
# The files of each session, and the schedule that is recorded for it if it has no logs.
FILES = {
    "lost_update": (["bank/bank.wasm", "bank/bank.places", "bank/bank.c", *("lost_update/%s.log" % name for name in ("north", "south", "east"))], None),
    "enet": (["enet/faulty.wasm", "enet/faulty.places", "enet/enet.c"], "enet/failing"),
}
PROMPT = re.compile(r"\(friday ?\d*\) ?(.*)")
AT_PROMPT = re.compile(r"(?:^|\n)\((?:friday|play) \d+\) \Z")
# What changes with the tools' own texts.
SIZE = re.compile(r"(?m)^\d+ bytes in ")
COLUMNS, ROWS = 400, 50
WAIT = 120


def prepare(name, program, folder):
    files, schedule = FILES[name]
    for path in files:
        shutil.copy(os.path.join(EXAMPLES, path), folder)
    if schedule:
        shutil.copy(os.path.join(EXAMPLES, schedule), os.path.join(folder, "schedule"))
        subprocess.run([program, "record", "schedule"], cwd=folder, check=True, stdout=subprocess.DEVNULL)


def read(name):
    """The words of a stored session, the lines that are typed in it, and all of it."""
    with open(os.path.join(STORED, name + ".txt"), encoding="utf-8") as file:
        text = file.read()
    first, *lines = text.splitlines()
    return shlex.split(first)[2:], [found[1] for found in map(PROMPT.fullmatch, lines) if found], text


def command(program, words):
    return [sys.executable, os.path.join(TOOLS, "session"), "--program", program, *words]


def surroundings():
    """No file of the user's changes what keys do, and the terminal has no colours."""
    return {**os.environ, "TERM": "dumb", "INPUTRC": os.devnull, "PYTHONDONTWRITEBYTECODE": "1"}


class Terminal:
    """A terminal of this check's own, with a session in it."""

    def __init__(self, words, folder):
        self.at, place = pty.openpty()
        fcntl.ioctl(place, termios.TIOCSWINSZ, struct.pack("HHHH", ROWS, COLUMNS, 0, 0))
        self.run = subprocess.Popen(words, cwd=folder, stdin=place, stdout=place, stderr=place, env=surroundings(), start_new_session=True)
        os.close(place)
        self.text = ""

    def wait(self):
        """Until the prompt stands there, or the session has ended."""
        while not AT_PROMPT.search(self.text[-200:]):
            assert select.select([self.at], [], [], WAIT)[0], self.text[-2000:]
            try:
                came = os.read(self.at, 65536)
            except OSError:
                return
            self.text += came.decode("utf-8", "replace").replace("\r", "")

    def type(self, line):
        self.wait()
        os.write(self.at, line.encode() + b"\n")
        # The line and its end come back first.
        length = len(self.text) + len(line) + 1
        while len(self.text) < length:
            assert select.select([self.at], [], [], WAIT)[0], (line, self.text[-2000:])
            self.text += os.read(self.at, 65536).decode("utf-8", "replace").replace("\r", "")

    def end(self):
        self.wait()
        status = self.run.wait(WAIT)
        os.close(self.at)
        return status, self.text


def typed_here(words, folder, lines):
    terminal = Terminal(words, folder)
    for line in lines:
        terminal.type(line)
    status, text = terminal.end()
    assert status == 0, (status, text[-2000:])
    return text


class Tmux:
    """A server of its own, with one window in which a session runs."""

    def __init__(self, words, folder):
        self.name = os.path.join(folder, "tmux")
        settings = os.path.join(folder, "tmux.conf")
        with open(settings, "w", encoding="ascii") as file:
            file.write("set -g history-limit 100000\nset -g status off\nset -g remain-on-exit on\n")
        kept = ["%s=%s" % (name, value) for name, value in surroundings().items() if name in ("INPUTRC", "PATH", "PYTHONDONTWRITEBYTECODE")]
        line = shlex.join(["env", "TERM=dumb", *kept, *words])
        self.call("-f", settings, "new-session", "-d", "-x", str(COLUMNS), "-y", str(ROWS), "-c", folder, line)

    def call(self, *words):
        done = subprocess.run(["tmux", "-S", self.name, *words], stdout=subprocess.PIPE, stderr=subprocess.PIPE, text=True, timeout=WAIT)
        assert done.returncode == 0, (words, done)
        return done.stdout

    def text(self):
        """All that the window shows and showed, without blanks at the ends of lines."""
        lines = [line.rstrip() for line in self.call("capture-pane", "-p", "-J", "-S", "-").splitlines()]
        while lines and not lines[-1]:
            lines.pop()
        return lines

    def wait(self, count):
        """Until so many prompts stand there, the last of them without a line, or the session has ended."""
        last = time.monotonic() + WAIT
        while True:
            lines = self.text()
            prompts = [line for line in lines if PROMPT.fullmatch(line)]
            if len(prompts) == count and PROMPT.fullmatch(lines[-1]) and not PROMPT.fullmatch(lines[-1])[1]:
                return lines
            if self.call("display-message", "-p", "#{pane_dead}") == "1\n":
                return [line for line in self.text() if not line.startswith("Pane is dead")]
            assert time.monotonic() < last, lines[-30:]
            time.sleep(0.02)

    def type(self, line):
        if line:
            self.call("send-keys", "-l", line)
        self.call("send-keys", "Enter")

    def end(self):
        subprocess.run(["tmux", "-S", self.name, "kill-server"], stderr=subprocess.DEVNULL)


def typed_in_tmux(words, folder, lines):
    tmux = Tmux(words, folder)
    try:
        for count, line in enumerate(lines, 1):
            tmux.wait(count)
            tmux.type(line)
        return "\n".join(tmux.wait(len(lines) + 1)) + "\n"
    finally:
        tmux.end()


def same(name, found, stored):
    """Refuses other lines than those that are stored; blanks at their ends are of no matter."""
    found, stored = ([line.rstrip() + "\n" for line in text.rstrip("\n").splitlines()] for text in (found, stored))
    differs = list(difflib.unified_diff(stored, found, "what is stored of " + name, "the terminal"))
    assert not differs, "".join(differs[:80])


def check(name, type_, program, write):
    words, lines, stored = read(name)
    with tempfile.TemporaryDirectory() as folder:
        prepare(name, program, folder)
        text = type_(command(program, words), folder, lines)
        found = SIZE.sub("N bytes in ", "$ tools/session %s\n" % shlex.join(words) + text)
    if write:
        with open(os.path.join(STORED, name + ".txt"), "w", encoding="utf-8") as file:
            file.write("".join(line.rstrip() + "\n" for line in found.splitlines()))
    else:
        same(name, found, stored)
    return len(lines)


def main():
    parser = argparse.ArgumentParser(description=__doc__, formatter_class=argparse.RawDescriptionHelpFormatter, allow_abbrev=False)
    parser.add_argument("program", nargs="?", metavar="PROGRAM")
    parser.add_argument("--write", action="store_true")
    chosen = parser.parse_args()
    program = os.path.abspath(program_of(chosen.program))
    ways = {"a terminal": typed_here}
    if shutil.which("tmux") is None:
        print("no tmux is installed, so nothing is typed there")
    elif not chosen.write:
        ways["tmux"] = typed_in_tmux
    for name in FILES:
        for way, type_ in ways.items():
            print("%s: %d lines in %s, as expected" % (name, check(name, type_, program, chosen.write), way), flush=True)


if __name__ == "__main__":
    main()
