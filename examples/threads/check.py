"""Records each guest beside this script over many interleavings of its threads, replays its log, and compares what it
notes with what the same C notes where it runs by itself, without threads.
"""

import argparse
import os
import random
import shutil
import subprocess
import sys
import tempfile

HERE = os.path.dirname(os.path.realpath(__file__))
sys.path.append(os.path.join(HERE, "..", "..", "tools"))

from asking.program import program_of  # noqa: E402 (it lies beside the tools)
from logs.format import read_log  # noqa: E402

PARSER = argparse.ArgumentParser(description=__doc__, formatter_class=argparse.RawDescriptionHelpFormatter, allow_abbrev=False)
PARSER.add_argument("program", metavar="PROGRAM", nargs="?", help="the program friday, if not the one that answers ./friday")
PROGRAM = os.path.abspath(program_of(PARSER.parse_args().program))
HANDLED = 7


def run(words, folder):
    return subprocess.run(words, cwd=folder, stdout=subprocess.PIPE, text=True, check=True).stdout


def native(guest, folder):
    words = [os.environ.get("CC", "clang"), "-std=c11", "-O1", "-D_start=guest_start", "-I", "../../guests"]
    run(words + ["-o", os.path.join(folder, "native"), guest + ".c", "../../guests/native.c"], HERE)
    return run([os.path.join(folder, "native")], folder).splitlines()


# The notes of a log, and how many signals were delivered in it.
def notes_of(path):
    entries = read_log(path).entries
    lines = ["note %d" % entry.arguments[0] for entry in entries if entry.call.name == "note"]
    return lines, sum(entry.signal != 0 for entry in entries)


# Tries of the threads in some order, and the signals in between; at the end enough tries of each in turn.
def schedule_of(guest, chance):
    items = ["run 0 0"]
    if guest == "handler":
        items = ["run 0 0 2"] + [item for _ in range(HANDLED) for item in ("signal 0 5", "run 0 0 %d" % chance.randint(1, 2))] + ["run 0 0 40"]
    else:
        threads = 3 if guest == "queue" else 64
        items += ["run 0 %d" % chance.randrange(threads) for _ in range(400)]
        items += ["run 0 %d 3" % thread for _ in range(400) for thread in range(threads)] if guest == "queue" else ["run 0 0 80"] + ["run 0 %d 2" % thread for thread in range(64)] + ["run 0 0 200"]
    return "friday 1\nprocess %s %s.wasm\n%s\n" % (guest, guest, "\n".join(items))


def check(guest, folder, times):
    shutil.copy(os.path.join(HERE, guest + ".wasm"), folder)
    alone = native(guest, folder)
    for seed in range(times):
        with open(os.path.join(folder, "schedule"), "w") as file:
            file.write(schedule_of(guest, random.Random(seed)))
        recorded = run([PROGRAM, "record", "schedule"], folder)
        assert ", finished\n" in recorded, recorded
        lines, signals = notes_of(os.path.join(folder, guest + ".log"))
        assert lines == alone, (guest, seed, lines, alone)
        assert signals == (HANDLED if guest == "handler" else 0), (guest, signals)
        replayed = run([PROGRAM, "replay", guest + ".wasm", guest + ".log"], folder)
        assert ", finished, log whole\n" in replayed, replayed
    print("%s: %d interleavings, %s as by itself" % (guest, times, ", ".join(alone)))


def main():
    with tempfile.TemporaryDirectory() as folder:
        for guest in ("queue", "handler", "many"):
            check(guest, folder, 20)


if __name__ == "__main__":
    main()
