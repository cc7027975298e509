#!/usr/bin/env python3
"""Checks that the tools' reader of logs takes what friday takes, and refuses what it refuses: over logs of both versions whose
heads and entries are changed by chance, what `friday migrate` says of each, and over pairs of such logs what `friday replay` says.
No byte of such a log comes to a terminal as it is.

check_hostile.py [--logs N] [--seed N] [PROGRAM]   (4,000 logs, the program that answers ./friday, if none is given)
"""

import argparse
import os
import random
import re
import subprocess
import sys
import tempfile
from dataclasses import replace

from tools_path import TOOLS, TOP  # before the modules of the tools, which it lets be found
from asking.program import program_of
from logs.format import BadLog, LONGEST_LOG, log_in, read_log, spelled
from logs.group import NotOneGroup, read_logs

MODULE = os.path.join(TOP, "examples", "first", "a.wasm")
SOURCES = [os.path.join(TOP, "examples", *path) for path in (("first", "a.log"), ("lost_update", "north.log"), ("lost_update", "east.log"))]
MOST_ENTRIES, LONGEST_HEAD = 8, 49
NUMBERS = (0, 1, 2, 3, 15, 16, 17, 255, 2**16, 2**31, 2**32 - 1)
NAMES = (b"", b"a", b"\x1b[31mred\x1b[0m", b"A", b"a b", b"a\n", b"..", b"\xff", "é".encode(), b"n" * 32, b"n" * 33, b"a/b", b"a\0", b"_", b"9")
# Every tenth try is of two logs together.
PAIRS = 10


def sources():
    """The first entries of some logs, in both versions."""
    logs = [read_log(path) for path in SOURCES]
    return [spelled(replace(log, entries=log.entries[:MOST_ENTRIES], version=version)) for log in logs for version in (1, 2)]


def hostile(chance, data):
    """The log with something else in it, or almost as it was."""
    data = bytearray(data)
    for _ in range(chance.choice((1, 1, 1, 2, 3))):
        kind = chance.randrange(8)
        at = chance.randrange(len(data)) if data else 0
        if kind == 0:
            data[: min(len(data), LONGEST_HEAD)] = changed_head(chance, bytes(data))
        elif kind == 1 and len(data) > 16:
            data[17 : 17 + data[16]], data[16] = (name := chance.choice(NAMES)), len(name)
        elif kind == 2:
            del data[at:]
        elif kind == 3:
            data[at:at] = bytes(chance.randrange(256) for _ in range(chance.choice((1, 2, 9))))
        elif kind == 4:
            del data[at : at + chance.choice((1, 2, 9))]
        elif kind == 5 and data:
            data[at] = chance.choice((0, 1, 2, 127, 128, 255, chance.randrange(256)))
        elif kind == 6 and data:
            data[at] ^= 1 << chance.randrange(8)
        else:
            data += bytes(chance.randrange(256) for _ in range(chance.choice((1, 5, 40))))
    return bytes(data)


def changed_head(chance, data):
    """The front of a log with another number at one of the places of its head."""
    front = bytearray(data[:LONGEST_HEAD])
    at, width = chance.choice(((4, 4), (8, 4), (12, 4), (16, 1)))
    front[at : at + width] = (chance.choice(NUMBERS) % 256**width).to_bytes(width, "little")
    return front


def called(program, *words):
    return subprocess.run([program, *words], stdout=subprocess.PIPE, text=True, errors="replace", timeout=300).stdout


def write(path, data):
    with open(path, "wb") as file:
        file.write(data)


def check_one(program, data):
    """Name, entries and rest, or that it is no log; which of them it is."""
    write("hostile.log", data)
    told = called(program, "migrate", "hostile.log", "new.log")
    try:
        log = read_log("hostile.log")
    except BadLog as error:
        assert told == "friday: refused hostile.log: 1 BadHead\n", (data, told, error)
        return "refused"
    wanted = "%s: %d entries, %d bytes left out\n" % (log.name, len(log.entries), len(data) - len(spelled(log)))
    assert told == wanted, (data, told, wanted)
    return "taken"


def check_two(program, first, second):
    """Which rule of a group two logs break, if they break one."""
    write("first.log", first)
    write("second.log", second)
    told = called(program, "replay", MODULE, "first.log", MODULE, "second.log")
    found = re.match(r"friday: refused (\w+)\.log: (\d)", told)
    try:
        read_logs(["first.log", "second.log"])
    except BadLog:
        assert found and found[2] == "1", (first, second, told)
    except NotOneGroup as error:
        reason = "2" if "another group" in str(error) else "3" if "same process" in str(error) else "4"
        assert found and found.groups() == ("second", reason), (first, second, told, str(error))
    else:
        assert not found, (first, second, told)


def check_terminal():
    """What a terminal would obey is not printed, be it in the head of a log or in the name of its file."""
    with open(SOURCES[1], "rb") as file:
        data = bytearray(file.read())
    data[17:22] = b"\x1b[31m"
    for path, told in (("escape.log", "escape.log is no log"), ("\x1b[31m.log", r"\x1b[31m.log is no log"), ("\x1b[2Jabsent", r"\x1b[2Jabsent: ")):
        if "absent" not in path:
            write(path, data)
        for words in (["events.py", "list", path], ["picture.py", MODULE, path], ["page.py", MODULE, path]):
            done = subprocess.run([sys.executable, os.path.join(TOOLS, words[0]), *words[1:]], stdout=subprocess.PIPE, stderr=subprocess.PIPE, timeout=300)
            said = (done.stdout + done.stderr).decode("utf-8", "replace")
            assert done.returncode == 1 and told in said and "\x1b" not in said and "Traceback" not in said, (words, done)


def check_long():
    """No more is read than a log may have, so that a device ends too."""
    try:
        read_log("/dev/zero")
    except BadLog as error:
        assert "more bytes than a log may have" in str(error)
    else:
        raise AssertionError("/dev/zero is a log of %d bytes" % LONGEST_LOG)


def main():
    parser = argparse.ArgumentParser(description=__doc__, formatter_class=argparse.RawDescriptionHelpFormatter)
    parser.add_argument("--logs", type=int, default=4000, metavar="N")
    parser.add_argument("--seed", type=int, default=1, metavar="N")
    parser.add_argument("program", nargs="?", metavar="PROGRAM")
    chosen = parser.parse_args()
    program, chance, given = os.path.abspath(program_of(chosen.program)), random.Random(chosen.seed), sources()
    assert all(log_in(data) for data in given)
    counts = {"taken": 0, "refused": 0, "of two": 0}
    with tempfile.TemporaryDirectory() as folder:
        os.chdir(folder)
        for turn in range(chosen.logs):
            data = hostile(chance, chance.choice(given))
            counts[check_one(program, data)] += 1
            if turn % PAIRS == 0:
                check_two(program, chance.choice(given), chance.choice((data, chance.choice(given))))
                counts["of two"] += 1
        check_terminal()
        check_long()
        os.chdir("/")
    assert min(counts.values()) > chosen.logs // 20, counts
    print("hostile logs: as expected (%s)" % ", ".join("%d %s" % (count, what) for what, count in counts.items()))


if __name__ == "__main__":
    main()
