#!/usr/bin/env python3
"""Checks guests with the C library: C prints what it prints on the machine itself, C++, sockets and threads of POSIX do what they
should, a stack that overflows traps, a long computation breathes, and a module is the same wherever it is built.
"""
import argparse
import os
import random
import re
import shutil
import subprocess
import sys
import tempfile

KIT = os.path.dirname(os.path.realpath(__file__))
sys.path.append(os.path.join(KIT, "..", "tools"))

from asking.program import program_of  # noqa: E402 (it lies beside the tools)
from logs.format import read_log  # noqa: E402

INTERPRETER = os.environ.get("WASM_INTERP", "wasm-interp")
CPP_LINES = ["one,three!two, 20.75 ff", "853 square"]
TIMES = 5

# A function that calls itself deeper than the stack is, and a variable that lies where it would write.
DEEP = """
static int precious[4000];
static int depth(int n) {
    volatile int room[50];
    room[n % 50] = n;
    return n > 0 ? depth(n - 1) + room[n % 50] : precious[3999];
}
"""
# 3,000,000 turns of a loop that makes no call, some 25,000,000 instructions.
LONG = "#include <stdio.h>\nint main(void) {\n    unsigned n = 1;\n    for (int i = 0; i < 3000000; i++)\n        n = n * 1664525 + (n >> i % 7);\n    printf(\"%u\\n\", n);\n}\n"
TIME = "#include <stdio.h>\n#include <time.h>\n#include <unistd.h>\nint main(void) {\n    usleep(2500);\n    printf(\"%ld %d\\n\", (long)time(NULL), (int)getpid());\n    return 0;\n}\n"
PART = "#include <assert.h>\n#include \"part.h\"\nstruct part { int first, second; };\nstatic struct part own = {1, 2};\nstruct part *part_of(int n) {\n    assert(n < 100 && FACTOR);\n    own.second += n * FACTOR;\n    return &own;\n}\n"
WHOLE = "#include <stdio.h>\n#include \"part.h\"\nstruct part *kept;\nint own = 5;\nint main(void) {\n    kept = part_of(7);\n    printf(\"%s %d\\n\", __FILE__, own);\n    return 0;\n}\n"
MAKEFILE = """
CFLAGS = -O1 -g -Wall -fPIC -pthread -DFACTOR=3 -I$(CURDIR)/lib
whole: whole.o libpart.a
\t$(CC) $(CFLAGS) -o $@ whole.o -L. -lpart -lm -lpthread
whole.o: whole.c
\t$(CC) $(CFLAGS) -c -o $@ $(CURDIR)/whole.c
libpart.a: lib/part.c
\t$(CC) $(CFLAGS) -c -o part.o $(CURDIR)/lib/part.c
\tllvm-ar rcs $@ part.o
"""


def run(words, folder=None, wanted=0):
    done = subprocess.run(words, cwd=folder, stdout=subprocess.PIPE, stderr=subprocess.STDOUT, text=True)
    assert done.returncode == wanted, "%s: status %d\n%s" % (" ".join(words), done.returncode, done.stdout)
    return done.stdout


def write(path, text):
    with open(path, "w") as file:
        file.write(text)


def read(path):
    with open(path, "rb") as file:
        return file.read()


def build(*words):
    return run([os.path.join(KIT, "build"), *words])


def copied(name, as_name=None):
    shutil.copy(os.path.join(KIT, "check", name), as_name or name)


def lines_of(name):
    """What a process printed."""
    entries = read_log(name + ".log").entries
    return b"".join(entry.sent for entry in entries if entry.call.name == "print").decode().splitlines()


class Checks:
    def __init__(self, program):
        self.program = program

    def record(self, modules, items):
        """Records a group of processes p0, p1 and so on: how each ended. The replay comes to the same."""
        names = ["p%d" % place for place in range(len(modules))]
        text = ["friday 1"] + ["process %s %s" % pair for pair in zip(names, modules)] + list(items)
        write("schedule", "\n".join(text) + "\n")
        told = run([self.program, "record", "schedule"])
        replayed = run([self.program, "replay", *(word for module, name in zip(modules, names) for word in (module, name + ".log"))])
        assert ", 0 unmatched, " in replayed and replayed.count(", log whole\n") == len(names), replayed
        return re.findall(r"events, (.*)", told)

    def c(self):
        copied("hosted.c")
        build("--libc", "hosted.c")
        run(["cc", "-w", "-o", "hosted", "hosted.c", "-lm"])
        by_machine = run([os.path.abspath("hosted")], wanted=7).splitlines()
        ends = self.record(["hosted.wasm"], ["run 0 0 200"])
        assert ends == ["exited 7"] and lines_of("p0") == by_machine, (ends, lines_of("p0"), by_machine)
        print("hosted.c: %d lines as on the machine, digits of floats too" % len(by_machine))

    def cpp(self):
        copied("hosted.cc", "plus.cc")
        build("--libc", "plus.cc")
        ends = self.record(["plus.wasm"], ["run 0 0 200"])
        assert ends == ["exited 0"] and lines_of("p0") == CPP_LINES, (ends, lines_of("p0"))
        print("hosted.cc: %d lines" % len(CPP_LINES))

    def sockets(self):
        copied("sockets.c")
        build("--libc", "sockets.c")
        # Each datagram comes once, and the one that waits for it looks when its clock moves.
        items = ["run 0 0 30"]
        for turn in range(1, 5):
            items += ["run 1 0 30", "deliver 1 %d" % turn, "run 0 0 30", "deliver 0 %d" % turn, "clock 1 %d" % (20 * turn)]
        ends = self.record(["sockets.wasm"] * 2, items)
        assert ends == ["exited 0"] * 2, (ends, lines_of("p0"), lines_of("p1"))
        assert lines_of("p0") == ["asked by 10.0.0.1: question %d" % n for n in range(3)], lines_of("p0")
        assert lines_of("p1") == ["answered: QUESTION %d" % n for n in range(3)], lines_of("p1")
        print("sockets.c: %d questions over datagrams, by recv, select and poll" % len(lines_of("p1")))

    def threads(self):
        copied("pthreads.c")
        build("--libc", "pthreads.c")
        for seed in range(TIMES):
            chance = random.Random(seed)
            items = ["run 0 %d %d" % (chance.randrange(5), chance.randrange(1, 4)) for _ in range(500)] + ["run 0 %d 3" % (n % 5) for n in range(200)]
            ends = self.record(["pthreads.wasm"], items)
            assert ends == ["exited 0"] and sorted(lines_of("p0")) == ["all 630, destroyed 2, again 0", "consumer a has 6", "consumer b has 6"], (ends, lines_of("p0"))
        print("pthreads.c: %d interleavings, all with the same sum" % TIMES)

    def stacks(self):
        write("deep.c", "#include <stdlib.h>\n" + DEEP + "int main(void) {\n    return depth(60 + abs(rand()) % 2) == 0 ? 3 : depth(100000);\n}")
        write("bare.c", '#include "liblog.h"\n' + DEEP + "void _start(void) {\n    liblog_note(depth(100 * liblog_me()));\n    liblog_note(depth(100000 + liblog_me()));\n}")
        build("--libc", "--stack", "16384", "deep.c")
        build("--stack", "16384", "--stack-first", "bare.c")
        ends = self.record(["deep.wasm", "bare.wasm"], ["run 0 0 9", "run 1 0 9"])
        assert ends == ["trapped memory range"] * 2, ends
        print("stacks that are too small: %s" % ends[0])

    def breathing(self):
        write("long.c", LONG)
        build("--libc", "long.c")
        quiet = run([INTERPRETER, "--dummy-import-func", "--run-all-exports", "long.wasm"])
        build("--libc", "--breathe", "long.c")
        told = run([INTERPRETER, "--dummy-import-func", "--run-all-exports", "long.wasm"])
        yields = told.count("liblog.yield")
        assert "liblog.yield" not in quiet and yields >= 10, yields
        print("long.c: %d times it lets others run" % yields)

    def time(self):
        write("clock.c", TIME)
        build("--libc", "--printf", "whole", "--epoch", "2030-01-02", "clock.c")
        ends = self.record(["clock.wasm"], ["clock 0 1000", "run 0 0 9", "clock 0 5003", "run 0 0 9"])
        assert ends == ["exited 0"] and lines_of("p0") == ["1893542405 1"], (ends, lines_of("p0"))
        print("clock.c: the time is that of its epoch")

    def folders(self):
        """By guests/build with --with, and by make with guests/cc: the same in each folder, and names of structs that another file defines."""
        modules = []
        for folder in ("one", "another/further"):
            os.makedirs(folder + "/lib")
            for name, text in (("lib/part.c", PART), ("lib/part.h", "struct part;\nstruct part *part_of(int n);\n"), ("whole.c", WHOLE), ("Makefile", MAKEFILE)):
                write(os.path.join(folder, name), text)
            run(["make", "CC=" + os.path.join(KIT, "cc")], folder)
            here = os.path.abspath(folder)
            build("--libc", "-D", "FACTOR=3", "-I", here + "/lib", here + "/whole.c", "--with", here + "/lib/part.c")
            modules.append((read(folder + "/whole"), read(folder + "/whole.wasm"), read(folder + "/whole.places")))
        assert modules[0] == modules[1] and os.getcwd().encode() not in b"".join(modules[0])
        ends = self.record(["one/whole", "one/whole.wasm"], ["run 0 0 9", "run 1 0 9"])
        assert ends == ["exited 0"] * 2 and lines_of("p0") == ["whole.c 5"], (ends, lines_of("p0"))
        named = self.named("@a.{kept->second}", "@a.{own}")
        assert re.fullmatch(r"@a\.i32\[@a\.u32\[\d+\]\+4\]\n@a\.i32\[\d+\]", named), named
        print("whole.c and lib/part.c: the same bytes from folder to folder, by build and by make")

    def named(self, *paths):
        done = subprocess.run([os.path.join(KIT, "places"), "one/whole.places"], input="\n".join(paths), stdout=subprocess.PIPE, stderr=subprocess.STDOUT, text=True)
        return done.stdout


def main():
    parser = argparse.ArgumentParser(description=__doc__, formatter_class=argparse.RawDescriptionHelpFormatter, allow_abbrev=False)
    parser.add_argument("program", metavar="PROGRAM", nargs="?", help="the program friday, if not the one that answers ./friday")
    parser.add_argument("--only", metavar="NAME", help="the check of this name alone")
    chosen = parser.parse_args()
    checks = Checks(os.path.abspath(program_of(chosen.program)))
    with tempfile.TemporaryDirectory() as folder:
        os.chdir(folder)
        for check in (checks.c, checks.cpp, checks.sockets, checks.threads, checks.stacks, checks.breathing, checks.time, checks.folders):
            if chosen.only in (None, check.__name__):
                check()
        os.chdir("/")


if __name__ == "__main__":
    main()
