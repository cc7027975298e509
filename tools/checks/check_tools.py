#!/usr/bin/env python3
"""Checks what events.py, make_schedule.py, idle and picture.py print and refuse, over the examples pingpong and lost_update, and over the
bank with its lines, which wants clang.

check_tools.py [PROGRAM]   (the program that answers ./friday, if none is given)
"""

import argparse
import json
import os
import shutil
import subprocess
import sys
import tempfile

from tools_path import TOOLS, TOP  # before the modules of the tools, which it lets be found
from asking.program import program_of
from check_dap import PAIRS as LINED, prepared

EXAMPLES = os.path.join(TOP, "examples")
LOGS = [os.path.join(EXAMPLES, "lost_update", name + ".log") for name in ("north", "south", "east")]
PAIRS = [word for log in LOGS for word in (os.path.join(EXAMPLES, "bank", "bank.wasm"), log)]


def run(name, *words, wanted=0):
    done = subprocess.run([os.path.join(TOOLS, name), *words], stdout=subprocess.PIPE, stderr=subprocess.PIPE, text=True, timeout=600)
    assert done.returncode == wanted, (name, words, done)
    return done.stdout if wanted == 0 else done.stdout + done.stderr


def check_events():
    """The three forms tell the same events; what is unknown is refused."""
    plain, brief = run("events.py", "list", *LOGS), run("events.py", "list", "--brief", *LOGS).splitlines()
    records = [json.loads(line) for line in run("events.py", "list", "--json", *LOGS).splitlines()]
    heads = [line for line in plain.splitlines() if not line.startswith("    ")]
    assert len(records) == len(brief) == len(heads) == 125
    for record, line, head in zip(records, brief, heads):
        assert line.split("; ")[0] == head and head.startswith("%d: %d %s " % (record["position"], record["clock"], record["process"]))
    took = [record for record in records if record["call"] == "recv"]
    assert took and all(record["from"] in ("north", "south", "east") and bytes.fromhex(record["taken"]) for record in took)
    north = run("events.py", "list", "--brief", "--process", "north", "--call", "send", *LOGS).splitlines()
    assert north and all(" north " in line and "; sent to " in line for line in north)
    several = run("events.py", "list", "--brief", "--call", "print,send", "--process", "north,south", *LOGS).splitlines()
    assert {line.split()[4].rstrip(";") for line in several} == {"print", "send"} and not any(" east " in line.split("; ")[0] for line in several)
    made = json.loads(run("events.py", "chrome", *LOGS))["traceEvents"]
    assert [len([piece for piece in made if piece["ph"] == kind]) for kind in "XsfM"] == [125, len(took), len(took), 4], made
    part = json.loads(run("events.py", "chrome", "--from", "31", "--to", "54", *LOGS))["traceEvents"]
    assert [piece["ts"] for piece in part if piece["ph"] == "X"] == [10 * position for position in range(31, 55)]
    assert "invalid choice: 'snd'" in run("events.py", "list", "--call", "snd", *LOGS, wanted=2)
    assert "no log is of west" in run("events.py", "list", "--process", "west", *LOGS, wanted=1)


def check_picture():
    """A picture of some processes has their names alone, and says to whom a send went."""
    part = run("picture.py", "--logs-alone", "--process", "north,south", "--hide", "begin,lock", "--bytes", *PAIRS)
    assert ">east<" not in part and ">north<" in part and "send to east 0200" in part and ">3: lock 1<" not in part
    assert "no call is named snd" in run("picture.py", "--hide", "snd", *PAIRS, wanted=2)
    assert "no log is of west" in run("picture.py", "--process", "west", *PAIRS, wanted=1)


def check_told(program):
    """Logs that do not go with their modules are told before a picture or a page is made; names of variables may be watched."""
    other = os.path.join(EXAMPLES, "election", "election.wasm")
    told = "election.wasm is not the module of this log, or was built anew: north diverges at its event 3, another call"
    for tool in ("picture.py", "page.py"):
        done = subprocess.run([os.path.join(TOOLS, tool), "--program", program, other, LOGS[0]], stdout=subprocess.PIPE, stderr=subprocess.PIPE, text=True, timeout=600)
        assert done.returncode == 0 and done.stderr == told + "\n", done
    run("page.py", "--program", program, *PAIRS, "--watch", "all=sum(@_.{balances[0]})", "one=north.balances[1]")
    assert "bank.wasm has no variable nothing" in run("page.py", "--program", program, *PAIRS, "--watch", "x=north.nothing", wanted=1)
    subprocess.run([program, "cut", "0", "25", *PAIRS], check=True, stdout=subprocess.DEVNULL)
    cuts = [word if word.endswith(".wasm") else os.path.basename(word).replace(".log", ".cut") for word in PAIRS]
    part = run("picture.py", "--program", program, *cuts)
    assert 'class="cross"' not in part.split("the process ended")[1] and ">cut</text>" in part, part


def check_lined(program):
    """A picture tells where in the source of a guest that keeps its lines events were made and threads wait, and the wall time."""
    folder = os.path.join(os.getcwd(), "lined")
    os.mkdir(folder)
    prepared(program, folder)
    pairs = [os.path.join(folder, word) for word in LINED]
    whole, part = (run("picture.py", "--program", program, *words, *pairs) for words in ([], ["--to", "54"]))
    assert "54: 25 north 3 print 4208 25 = 25\nin print_two, print_two.h:23\n" in whole, whole
    assert ">wall time 0, told at 22<" in part and ">3 at unlock 1<" in part and ">\u00a0\u00a0in change, bank.c:65<" in part, part


def check_schedules(program):
    """Modules are not written over, names in refusals are the caller's, and one seed makes one schedule."""
    for name in ("ping.wasm", "pong.wasm"):
        shutil.copy(os.path.join(EXAMPLES, "pingpong", name), ".")
    with open("bad.wasm", "w") as file:
        file.write("no module")
    with open("ping.wasm", "rb") as file:
        module = file.read()
    for words, told in (
        (["--output", "ping.wasm", "a=ping.wasm"], "would be written over the module ping.wasm"),
        (["--output", "s", "a=ping.wasm", "a=pong.wasm"], "two processes are named a"),
        (["--output", "s", "--lost", "0.1", "a=ping.wasm"], "there is no --lost"),
        (["--output", "s", "--loss", "2", "a=ping.wasm"], "a rate is 0 to 1"),
    ):
        assert told in run("make_schedule.py", "--program", program, *words, wanted=2), words
    assert "refused bad.wasm: 1" in run("make_schedule.py", "--program", program, "--output", "s", "a=bad.wasm", wanted=1)
    with open("ping.wasm", "rb") as file:
        assert file.read() == module
    words = ["--program", program, "--seed", "3", "--loss", "0.2", "--rounds", "6", "ping=ping.wasm", "pong=pong.wasm", "--output"]
    assert run("make_schedule.py", *words, "one") == run("make_schedule.py", *words, "two")
    with open("one") as one, open("two") as two:
        assert one.read() == two.read()
    line = " ".join([os.path.join(TOOLS, "make_schedule.py"), *words, "three"]) + " | true"
    done = subprocess.run(["sh", "-c", line], stderr=subprocess.PIPE, text=True)
    assert done.returncode == 0 and done.stderr == "", done


def check_idle(program):
    """Idle lines are named with how many of their tries were, and a schedule from rates has none."""
    assert run("idle", "--program", program, "one") == ""
    with open("one", "a") as file:
        file.write("deliver 0 999\nrun 1 5 3\n")
    told = run("idle", "--program", program, "one").splitlines()
    assert [line.split(": ", 1)[1] for line in told[:2]] == ["deliver 0 999: idle", "run 1 5 3: 3 of its 3 tries"], told
    with open("one", "a") as file:
        file.write("delivr 1\n")
    assert "BadLine" in run("idle", "--program", program, "one", wanted=1) and "absent.s" in run("idle", "absent.s", wanted=1)


def main():
    parser = argparse.ArgumentParser(description=__doc__, formatter_class=argparse.RawDescriptionHelpFormatter)
    parser.add_argument("program", nargs="?", metavar="PROGRAM")
    program = os.path.abspath(program_of(parser.parse_args().program))
    check_events()
    check_picture()
    with tempfile.TemporaryDirectory() as folder:
        os.chdir(folder)
        check_told(program)
        check_lined(program)
        check_schedules(program)
        check_idle(program)
        os.chdir("/")
    print("tools: as expected")


if __name__ == "__main__":
    sys.exit(main())
