#!/usr/bin/env python3
"""Checks what stack the commands need: with 256 kB each of them answers for modules whose blocks, loops and branches nest 1,000 deep, for
calls as deep as there is room for, and for expressions as deep as a line has room for, and refuses what nests deeper. A program that was
built without proofs, in a folder `unproved`, has frames of its own, and gets three times as much.

check_stack.py [--stack BYTES] [PROGRAM]   (the program that answers ./friday, if none is given)
"""

import argparse
import os
import resource
import subprocess
import sys
import tempfile

import tools_path  # before the modules of the tools, which it lets be found
from asking.program import program_of
from made_up import count, named, section, type_of, vector

STACK = 256 * 1024
DEEPEST = 1000
VOID = b"\x40"
BLOCK, LOOP, IF, ELSE, END = b"\x02" + VOID, b"\x03" + VOID, b"\x04" + VOID, b"\x05", b"\x0b"
ONE, NOUGHT = b"\x41\1", b"\x41\0"
ASK = b"\x10\0\x1a"  # `me`, whose result is dropped
SCHEDULE = "friday 1\nprocess a a.wasm\nrun 0 0 9\n"


def module(body):
    """A module whose `_start` is this code, and whose function 2 calls itself for ever."""
    codes = [b"\0" + body + END, b"\0\x10\2" + END]
    return b"\0asm\1\0\0\0" + b"".join(
        (
            section(1, vector([type_of("", "i"), type_of("", "")])),
            section(2, vector([named("liblog") + named("me") + b"\0\0"])),
            section(3, vector([b"\1", b"\1"])),
            section(5, vector([b"\0\1"])),
            section(7, vector([named("_start") + b"\0\1"])),
            section(10, vector([count(len(code)) + code for code in codes])),
        )
    )


def nested(depth):
    """What nests so deep, by name."""
    return {
        "blocks": BLOCK * depth + ASK + END * depth,
        "loops": LOOP * depth + ASK + END * depth,
        "first branches": (ONE + IF) * depth + ASK + END * depth,
        "second branches": (NOUGHT + IF + ELSE) * depth + ASK + END * depth,
        "a branch to the outermost block": BLOCK * depth + ASK + b"\x0c" + count(depth - 1) + END * depth,
        "calls": ASK + b"\x10\2",
    }


def deep_lines():
    """Lines of the debugger as deep as there is room for, and other ones."""
    most = 1000
    return [
        "print " + "(" * most + "1" + ")" * most,
        "print " + "-" * most + "1",
        "print " + "!" * most + "1",
        "print " + "@a.u32[" * 100 + "0" + "]" * 100,
        "watch " + "+".join(["1"] * most),
        "continue",
        "frames a",
        "rcontinue",
        "goto 1",
        "threads a",
        "mem a 0 16",
    ]


class Folder:
    """A folder in which a program is called with little stack."""

    def __init__(self, program, stack, path):
        self.program, self.stack, self.path = program, stack, path
        self.failed = 0

    def call(self, words, lines=(), status=0):
        """What a call answers; told if it did not end with this status."""
        limit = lambda: resource.setrlimit(resource.RLIMIT_STACK, (self.stack, self.stack))
        done = subprocess.run(
            [self.program, *words],
            cwd=self.path,
            input="".join(line + "\n" for line in lines).encode(),
            stdout=subprocess.PIPE,
            stderr=subprocess.STDOUT,
            preexec_fn=limit,
            env={},
        )
        if done.returncode != status:
            self.failed += 1
            print("%s: status %d, not %d: %s" % (" ".join(words), done.returncode, status, done.stdout[-200:]))
        return done.stdout

    def put(self, name, content):
        with open(os.path.join(self.path, name), "wb") as file:
            file.write(content)

    def try_all(self, body):
        """All commands over the recording of this code."""
        self.put("a.wasm", module(body))
        pair = ["a.wasm", "a.log"]
        self.call(["record", "--images", "schedule.txt"])
        self.call(["replay", "--images", *pair])
        self.call(["debug", *pair], deep_lines())
        self.call(["schedule", *pair])
        self.call(["cut", "0", "1", *pair])
        self.call(["streams", *pair])
        self.call(["migrate", "a.log", "new.log"])
        self.call(["play", "schedule.txt"], ["run 0 0 1", "print 1"])


def main():
    parser = argparse.ArgumentParser(description=__doc__, formatter_class=argparse.RawDescriptionHelpFormatter, allow_abbrev=False)
    parser.add_argument("--stack", type=int, help="bytes of the stack")
    parser.add_argument("program", nargs="?", metavar="PROGRAM")
    asked = parser.parse_args()
    program = os.path.realpath(program_of(asked.program))
    is_unproved = "unproved" in program.split(os.sep)
    stack = asked.stack or STACK * (3 if is_unproved else 1)
    with tempfile.TemporaryDirectory() as path:
        folder = Folder(program, stack, path)
        folder.put("schedule.txt", SCHEDULE.encode())
        bodies = nested(DEEPEST)
        for body in bodies.values():
            folder.try_all(body)
        folder.call(["drill", "3"])
        for name, body in nested(DEEPEST + 1).items():
            if name != "calls":
                folder.put("a.wasm", module(body))
                folder.call(["record", "schedule.txt"], status=3)
    print("%d kB of stack: %d modules and the lines over them; %d calls failed" % (stack // 1024, 2 * len(bodies) - 1, folder.failed))
    sys.exit(1 if folder.failed else 0)


if __name__ == "__main__":
    main()
