"""Records each guest beside this script, replays its log, and compares what the log has of notes, prints and
the exit with what the same C writes where it runs by itself.
"""

import argparse
import os
import shutil
import subprocess
import sys
import tempfile

HERE = os.path.dirname(os.path.realpath(__file__))
sys.path.append(os.path.join(HERE, "..", "..", "tools"))

from asking.program import program_of  # noqa: E402 (it lies beside the tools)
from logs.format import read_log  # noqa: E402

PARSER = argparse.ArgumentParser(description=__doc__, formatter_class=argparse.RawDescriptionHelpFormatter, allow_abbrev=False)
PARSER.add_argument("program", metavar="PROGRAM", nargs="?", help="the program friday, if not the one that answers ./friday")
PROGRAM = os.path.abspath(program_of(PARSER.parse_args().program))
GUESTS = ("checksum", "sort", "format")
TRIES = 1000


def run(words, folder, wanted=0):
    done = subprocess.run(words, cwd=folder, stdout=subprocess.PIPE, text=True)
    if done.returncode != wanted:
        sys.exit("%s: status %d\n%s" % (" ".join(words), done.returncode, done.stdout))
    return done.stdout


# What the guest writes where it runs by itself.
def native(guest, folder):
    words = [os.environ.get("CC", "clang"), "-std=c11", "-O1", "-D_start=guest_start", "-I", "../../guests"]
    run(words + ["-o", os.path.join(folder, "native"), guest + ".c", "../../guests/native.c"], HERE)
    return run([os.path.join(folder, "native")], folder).splitlines()


# The events of exits, notes and prints, as the lines that a guest writes where it runs by itself.
def lines_of(entries):
    for entry in entries:
        if entry.call.name in ("exit", "note"):
            yield "%s %d" % (entry.call.name, entry.arguments[0])
        if entry.call.name == "print":
            yield "print " + entry.sent.hex()


def check(guest, folder):
    shutil.copy(os.path.join(HERE, guest + ".wasm"), folder)
    with open(os.path.join(folder, "schedule"), "w") as file:
        file.write("friday 1\nprocess %s %s.wasm\nrun 0 0 %d\n" % (guest, guest, TRIES))
    recorded = run([PROGRAM, "record", "schedule"], folder)
    entries = read_log(os.path.join(folder, guest + ".log")).entries
    lines, events = list(lines_of(entries)), len(entries)
    exits = [line for line in lines if line.startswith("exit ")]
    end = "exited " + exits[0][5:] if exits else "finished"
    wanted = "%s: %d events, %s\nitems: %d acted, %d idle\n" % (guest, events, end, events, TRIES - events)
    if recorded != wanted:
        sys.exit("%s: recorded\n%sand not\n%s" % (guest, recorded, wanted))
    replayed = run([PROGRAM, "replay", guest + ".wasm", guest + ".log"], folder)
    wanted = "%s: %d events, %s, log whole\ngroup: 0 sends, 0 receives, 0 unmatched, 0 untagged\n" % (guest, events, end)
    if replayed != wanted:
        sys.exit("%s: replayed\n%sand not\n%s" % (guest, replayed, wanted))
    alone = native(guest, folder)
    if lines != alone:
        sys.exit("%s: the log has\n%s\nand the guest by itself writes\n%s" % (guest, "\n".join(lines), "\n".join(alone)))
    print("%s: %d events, %d lines as by itself" % (guest, events, len(lines)))


def main():
    with tempfile.TemporaryDirectory() as folder:
        for guest in GUESTS:
            check(guest, folder)


if __name__ == "__main__":
    main()
