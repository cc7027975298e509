#!/usr/bin/env python3
"""Kills `record`, `migrate`, `cut` and `replay --images` at 200 moments each: before and after each call on a file, and in the midst of
what is written, at any byte. Says of each file if it is absent, a front of what it would be, or whole, and checks that the files are in
one of the states of formats.md; the inputs stay as they were. The C compiler makes what kills the program from inside.

check_kills.py [--moments N] [PROGRAM]   (the program that answers ./friday, if none is given)
"""

import argparse
import collections
import os
import random
import re
import shutil
import signal
import subprocess
import tempfile
from dataclasses import replace

from tools_path import TOP  # before the modules of the tools, which it lets be found
from asking.program import program_of
from logs.format import ends, log_in, spelled

EXAMPLES = os.path.join(TOP, "examples")
# Counts the calls that change files or their output, tells of each how many bytes it writes, and kills the process at one of them: once
# that many of its bytes are written.
KILLER = r"""
#define _GNU_SOURCE
#include <dlfcn.h>
#include <fcntl.h>
#include <signal.h>
#include <stdarg.h>
#include <stdio.h>
#include <stdlib.h>
#include <unistd.h>

static long count, wanted = -1, bytes;
static FILE *told;

__attribute__((constructor)) static void read_words(void) {
    const char *at = getenv("KILL_AT"), *path = getenv("KILL_TOLD");
    wanted = at ? strtol(at, 0, 10) : -1;
    bytes = at ? strtol(getenv("KILL_BYTES"), 0, 10) : 0;
    told = path ? fopen(path, "w") : 0;
}

static int is_last(size_t size) {
    if (told) {
        fprintf(told, "%zu\n", size);
        fflush(told);
    }
    return count++ == wanted;
}

static void end(void) {
    raise(SIGKILL);
}

ssize_t write(int file, const void *data, size_t size) {
    ssize_t (*next)(int, const void *, size_t) = dlsym(RTLD_NEXT, "write");
    if (!is_last(size)) return next(file, data, size);
    if (bytes) next(file, data, (size_t)bytes < size ? (size_t)bytes : size);
    end();
    return -1;
}

int open(const char *path, int flags, ...) {
    int (*next)(const char *, int, ...) = dlsym(RTLD_NEXT, "open");
    va_list words;
    va_start(words, flags);
    int mode = flags & O_CREAT ? va_arg(words, int) : 0;
    va_end(words);
    if (!(flags & (O_WRONLY | O_RDWR)) || !is_last(1)) return next(path, flags, mode);
    if (bytes) next(path, flags, mode);
    end();
    return -1;
}

int fdatasync(int file) {
    int (*next)(int) = dlsym(RTLD_NEXT, "fdatasync");
    if (!is_last(1)) return next(file);
    if (bytes) next(file);
    end();
    return -1;
}

int close(int file) {
    int (*next)(int) = dlsym(RTLD_NEXT, "close");
    if (!is_last(1)) return next(file);
    if (bytes) next(file);
    end();
    return -1;
}
"""
NAMES = ("north", "south", "east")
# What a file holds that a call replaces; it is no front of anything.
OLDER = b"older"
PAIRS = [word for name in NAMES for word in ("../bank/bank.wasm", name + ".log")]


class Room:
    """A folder with the files of examples/lost_update, and what kills the program there."""

    def __init__(self, above, program):
        self.folder, self.program = os.path.join(above, "lost_update"), program
        os.mkdir(os.path.join(above, "bank"))
        shutil.copy(os.path.join(EXAMPLES, "bank", "bank.wasm"), os.path.join(above, "bank"))
        self.killer, self.told = os.path.join(above, "killer.so"), os.path.join(above, "told")
        with open(os.path.join(above, "killer.c"), "w", encoding="ascii") as file:
            file.write(KILLER)
        subprocess.run(["cc", "-shared", "-fPIC", "-O1", "-o", self.killer, os.path.join(above, "killer.c"), "-ldl"], check=True)

    def fill(self, files):
        """The folder with these files alone."""
        shutil.rmtree(self.folder, ignore_errors=True)
        os.mkdir(self.folder)
        for name, data in files.items():
            with open(os.path.join(self.folder, name), "wb") as file:
                file.write(data)

    def read(self):
        found = {}
        for name in os.listdir(self.folder):
            with open(os.path.join(self.folder, name), "rb") as file:
                found[name] = file.read()
        return found

    def call(self, words, **settings):
        surroundings = {**os.environ, "LD_PRELOAD": self.killer, **{name: str(value) for name, value in settings.items()}}
        done = subprocess.run([self.program, *words], cwd=self.folder, env=surroundings, stdin=subprocess.DEVNULL, stdout=subprocess.DEVNULL)
        return done.returncode

    def moments(self, words, files, count, chance):
        """Some of the moments of a call: the number of a call on a file, and how many of its bytes are written then."""
        self.fill(files)
        assert self.call(words, KILL_TOLD=self.told) == 0, words
        whole = self.read()
        with open(self.told, encoding="ascii") as file:
            sizes = list(map(int, file))
        edges = [(at, part) for at, size in enumerate(sizes) for part in (0, size)]
        inner = [(at, part) for at, size in enumerate(sizes) for part in range(1, size)]
        chosen = chance.sample(edges, min(len(edges), count // 2))
        return whole, chosen + chance.sample(inner, min(len(inner), count - len(chosen)))


def kind_of(data, whole):
    """Absent, a front, or whole; None where it is anything else."""
    if data is None:
        return "absent"
    if data == whole:
        return "whole"
    return "front" if whole.startswith(data) else None


def kinds_of(found, whole, names):
    return [kind_of(found.get(name), whole[name]) for name in names]


def is_in_order(kinds):
    """The first are whole, the next may be a front, and the others are absent."""
    return None not in kinds and re.fullmatch("w*f?a*", "".join(kind[0] for kind in kinds)) is not None


def unchanged(found, files):
    assert all(found[name] == data for name, data in files.items()), "an input is another one"


def head_sizes(whole):
    return {name: ends(log_in(data))[0] for name, data in whole.items()}


def check_record(room, found, whole, files):
    """The first logs with fronts of their heads; or all up to a moment, one with a part of an entry; or whole ones and first images."""
    unchanged(found, files)
    logs, images = [name + ".log" for name in NAMES], [name + kind for name in NAMES for kind in (".mem", ".out")]
    kinds = kinds_of(found, whole, logs)
    assert None not in kinds, kinds
    sizes = head_sizes({name: whole[name] for name in logs})
    lengths = [len(found.get(name, b"")) for name in logs]
    if any(length < sizes[name] for name, length in zip(logs, lengths)):
        assert not any(name in found for name in images) and all(length <= sizes[name] for name, length in zip(logs, lengths))
        return "heads"
    torn, clocks, tags = 0, {}, []
    for process, name in enumerate(logs):
        log = log_in(found[name])
        torn += ends(log)[-1] < len(found[name])
        clocks[process] = {entry.clock for entry in log.entries if entry.call.name == "send"}
        tags += [entry.tag for entry in log.entries if entry.tag]
    assert torn <= 1 and all(clock in clocks[sender] for sender, clock in tags), "no moment of the run"
    assert room.call(["replay", *PAIRS]) == 0
    made = kinds_of(found, whole, images)
    assert is_in_order(made) and (kinds == ["whole"] * 3 or made == ["absent"] * len(made)), (kinds, made)
    return "images" if "whole" in made or "front" in made else "a moment"


def check_in_order(names):
    def check(room, found, whole, files):
        unchanged(found, files)
        kinds = kinds_of(found, whole, names)
        assert is_in_order(kinds), kinds
        return next((kind for kind in kinds if kind != "whole"), "whole")

    return check


def over_older(check, names):
    """As where these files are absent before, but for what they hold until they are made."""
    def checked(room, found, whole, files):
        given = {name: data for name, data in files.items() if name not in names}
        return check(room, {name: data for name, data in found.items() if name in given or data != OLDER}, whole, given)

    return checked


def check_over(name):
    """The file is as it was, or holds a front of the new one."""
    def check(room, found, whole, files):
        unchanged(found, {other: data for other, data in files.items() if other != name})
        if found[name] == files[name]:
            return "as it was"
        kind = kind_of(found[name], whole[name])
        assert kind in ("front", "whole"), kind
        return kind

    return check


def cases(logs, schedule):
    """Each call with the files that are there before it, and what may be there after it was killed."""
    old = {"old.log": spelled(replace(log_in(logs["north.log"]), version=1))}
    images = [name + kind for name in NAMES for kind in (".mem", ".out")]
    cuts = [name + ".cut" for name in NAMES]
    # What is said of several files is the first of them that is not whole.
    yield "record --images", ["record", "--images", "schedule"], schedule, check_record
    made = [*(name + ".log" for name in NAMES), *images]
    yield "record --images over older files", ["record", "--images", "schedule"], {**schedule, **dict.fromkeys(made, OLDER)}, over_older(check_record, made)
    yield "migrate into a new file", ["migrate", "old.log", "new.log"], old, check_in_order(["new.log"])
    yield "migrate over a file", ["migrate", "old.log", "new.log"], {**old, "new.log": OLDER}, check_over("new.log")
    yield "migrate in place", ["migrate", "old.log", "old.log"], old, check_over("old.log")
    yield "cut", ["cut", "0", "25", *PAIRS], logs, check_in_order(cuts)
    yield "cut over older files", ["cut", "0", "25", *PAIRS], {**logs, **dict.fromkeys(cuts, OLDER)}, over_older(check_in_order(cuts), cuts)
    yield "replay --images", ["replay", "--images", *PAIRS], logs, check_in_order(images)


def main():
    parser = argparse.ArgumentParser(description=__doc__, formatter_class=argparse.RawDescriptionHelpFormatter)
    parser.add_argument("--moments", type=int, default=200, help="how often each is killed")
    parser.add_argument("program", nargs="?", metavar="PROGRAM")
    chosen = parser.parse_args()
    program = os.path.abspath(program_of(chosen.program))
    logs, schedule = {}, {}
    for name in (*(name + ".log" for name in NAMES), "schedule"):
        with open(os.path.join(EXAMPLES, "lost_update", name), "rb") as file:
            (schedule if name == "schedule" else logs)[name] = file.read()
    with tempfile.TemporaryDirectory() as above:
        room = Room(above, program)
        for name, words, files, check in cases(logs, schedule):
            chance, counts = random.Random(name), collections.Counter()
            whole, moments = room.moments(words, files, chosen.moments, chance)
            for at, part in moments:
                room.fill(files)
                assert room.call(words, KILL_AT=at, KILL_BYTES=part) == -signal.SIGKILL, (name, at, part)
                counts[check(room, room.read(), whole, files)] += 1
            print("%s, killed %d times: %s" % (name, len(moments), ", ".join("%s %d" % pair for pair in sorted(counts.items()))), flush=True)
    print("kills: as expected")


if __name__ == "__main__":
    main()
