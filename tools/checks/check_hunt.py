#!/usr/bin/env python3
"""Checks tools/hunt with ping and pong: the same hits and the same schedule with any number of jobs, a hit's folder that replays and whose
test passes, what counts, what is refused, that nothing is written over, and that a hunt goes on after a Ctrl-C and after it was killed. With
GNU parallel two local workers of it do the commands of --list.

check_hunt.py [PROGRAM]   (the program that answers ./friday, if none is given)
"""

import argparse
import os
import re
import shutil
import signal
import subprocess
import sys
import tempfile
import time

from tools_path import TOOLS, TOP  # before the modules of the tools, which it lets be found
from asking.program import program_of

RATES = ["--repeat", "0.3", "--loss", "0.1", "--rounds", "12", "ping=ping.wasm", "pong=pong.wasm"]


def hunt(program, *words, wanted=0):
    done = subprocess.run([os.path.join(TOOLS, "hunt"), "--program", program, *words], stdout=subprocess.PIPE, stderr=subprocess.STDOUT, text=True, timeout=600)
    assert done.returncode == wanted, (words, done)
    return done.stdout


def settled(told):
    """What was told without the times."""
    return [line for line in told.splitlines() if not re.match(r"[\d.]+ s, ", line)]


def files_of(folder):
    return sorted(os.path.relpath(os.path.join(at, name), folder) for at, _, names in os.walk(folder) for name in names)


def read(path):
    with open(path, "rb") as file:
        return file.read()


def check_jobs(program):
    """One job and three tell the same, make the same folder, and the schedule is that of make_schedule.py."""
    told = [settled(hunt(program, "--jobs", jobs, "--folder", "jobs" + jobs, *RATES)) for jobs in ("1", "3")]
    assert [line.replace("jobs1", "jobs3") for line in told[0]] == told[1], told
    found = re.match(r"seed (\d+): ping: \d+ events, exited 1", told[0][0])
    assert found, told
    first, second = ("jobs%s/seed%s" % (jobs, found[1]) for jobs in "13")
    assert files_of(first) == files_of(second)
    assert all(read(os.path.join(first, name)) == read(os.path.join(second, name)) for name in files_of(first) if name not in ("found", "test/test.sh"))
    again = [os.path.join(TOOLS, "make_schedule.py"), "--program", program, "--output", "again", "--seed", found[1], *RATES]
    subprocess.run(again, stdout=subprocess.DEVNULL, check=True)
    assert read("again") == read(os.path.join(first, "schedule"))
    return first


def check_folder(program, folder):
    """The logs replay whole, the position is that of the event, and the test records the logs that lie beside it."""
    pairs = ["ping.wasm", "ping.log", "pong.wasm", "pong.log"]
    report = subprocess.run([program, "replay", *pairs], cwd=folder, stdout=subprocess.PIPE, text=True)
    assert report.returncode == 0 and report.stdout.count("log whole") == 2, report
    position, event = re.search(r"^position (\d+): (.*)$", read(os.path.join(folder, "found")).decode(), re.M).groups()
    typed = "goto %s\n" % position
    told = subprocess.run([program, "debug", *pairs], cwd=folder, input=typed, stdout=subprocess.PIPE, text=True).stdout
    assert told == "at 0\nat %s: %s\n" % (position, event) and " exit 1" in event, told
    tested = subprocess.run([os.path.join(folder, "test", "test.sh"), program], stdout=subprocess.PIPE, text=True)
    assert tested.returncode == 0 and tested.stdout.endswith("as expected\n"), tested
    assert set(files_of(folder)) >= {"schedule", "ping.log", "ping.mem", "ping.out", "found", "test/schedule", "test/ping.log", "test/pong.log"}


def check_wanted(program):
    """Ends of one process, an expression that must never hold, and a script of the debugger."""
    count = ["--count", "--seeds", "1..12"]
    plain = settled(hunt(program, *count, *RATES))
    assert settled(hunt(program, *count, "--ends", "ping: exited 1", *RATES)) == plain
    more = settled(hunt(program, *count, "--ends", "exited", "--ends", "trapped", *RATES))
    assert set(plain[:-1]) <= set(more), (plain, more)
    hunt(program, *count, "--ends", "pong: trapped", *RATES, wanted=1)
    never = settled(hunt(program, *count, "--never", "@ping.events > 7", *RATES))
    assert re.fullmatch(r"seed \d+: @ping.events > 7 is 1 after event 8 of ping", never[0]), never
    with open("script", "w") as file:
        file.write('watch @ping.events > 7\ndo 1 say "eight"; stop\nprint 3\ncontinue\n')
    told = settled(hunt(program, *count, "--script", "script", *RATES))
    assert [line.split(":")[0] for line in told[:-1]] == [line.split(":")[0] for line in never[:-1]] and told[0].endswith(": eight"), told
    order = ["--order", "priorities:2"]
    assert settled(hunt(program, *count, "--jobs", "1", *order, *RATES)) == settled(hunt(program, *count, "--jobs", "3", *order, *RATES))
    assert not os.path.exists("found")


def check_refused(program):
    for words, told in (
        (["--seeds", "5..3"], "no seeds are in 5..3"),
        (["--all"], "want the last seed"),
        (["--ends", "nobody: exited 1"], "no process is named nobody"),
        (["--ends", "exploded"], "and not as exploded"),
        (["--lost", "0.1"], "there is no --lost"),
        (["--never", "@nobody.{x}"], "nobody"),
        (["--order", "random"], "an order is uniform or priorities:D"),
    ):
        assert told in hunt(program, *words, *RATES, wanted=2), words
    assert "syntax" in hunt(program, "--count", "--seeds", "1..2", "--never", "1 +", *RATES, wanted=1)
    assert "absent.wasm" in hunt(program, "a=absent.wasm", wanted=1)
    assert "no.script" in hunt(program, "--script", "no.script", *RATES, wanted=1)


def check_kept(program, folder):
    """The same words tell what was found, and change no file; other words are refused there."""
    top = os.path.dirname(folder)
    before = {name: read(os.path.join(top, name)) for name in files_of(top)}
    told = hunt(program, "--jobs", "2", "--folder", top, *RATES)
    assert "(found before)" in told, told
    assert "other words" in hunt(program, "--folder", top, "--damage", "0.1", *RATES, wanted=1)
    assert before == {name: read(os.path.join(top, name)) for name in files_of(top)}


def check_stopped(program):
    """Stopped by a Ctrl-C or killed, the hunt goes on by the same words, to what one call finds."""
    words = ["--all", "--seeds", "1..30", *RATES]
    whole = settled(hunt(program, "--folder", "whole", *words))
    for kind in (signal.SIGINT, signal.SIGKILL):
        folder = "stopped%d" % kind
        run = subprocess.Popen([os.path.join(TOOLS, "hunt"), "--program", program, "--jobs", "2", "--folder", folder, *words],
                               stdout=subprocess.PIPE, stderr=subprocess.STDOUT, text=True, start_new_session=True)
        wait_for(lambda: os.path.isdir(folder) and any(name.startswith("seed") and name[4:].isdigit() for name in os.listdir(folder)))
        run.send_signal(kind)
        told = run.communicate(timeout=60)[0]
        assert kind != signal.SIGINT or "the same words go on from seed " in told or "seeds 1 to 30: " in told, told
        again = settled(hunt(program, "--jobs", "2", "--folder", folder, *words))
        seeds = [sorted(int(found) for found in re.findall(r"^seed (\d+):", "\n".join(lines), re.M)) for lines in (whole, again)]
        assert seeds[0] == seeds[1] and again[-1].startswith("seeds 1 to 30: "), (whole, again)
        kept = [name for name in files_of(folder) if not name.startswith((".making-", "seeds-"))]
        assert kept == [name for name in files_of("whole") if not name.startswith("seeds-")], kept


def wait_for(holds):
    for _ in range(1200):
        if holds():
            return
        time.sleep(0.05)
    raise AssertionError("it never came")


def check_parallel(program):
    """The commands of --list cover the seeds, and two workers of GNU parallel stop at a hit."""
    words = ["--seeds", "1..30", "--block", "10", "--folder", "by parallel", "--program", program, *RATES]
    lines = subprocess.run([os.path.join(TOOLS, "hunt"), "--list", *words], stdout=subprocess.PIPE, text=True, check=True).stdout
    assert re.findall(r"--seeds (\S+)", lines) == ["1..10", "11..20", "21..30"], lines
    if shutil.which("parallel") is None:
        print("hunt: there is no parallel here, so the commands of --list are not run")
        return
    workers = ["parallel", "--will-cite", "--jobs", "2", "--halt", "now,success=1"]
    done = subprocess.run(workers, input=lines, stdout=subprocess.PIPE, stderr=subprocess.PIPE, text=True, timeout=600)
    assert re.search(r"^seed \d+: ping: ", done.stdout, re.M), done
    assert any(name.startswith("seed") and name[4:].isdigit() for name in os.listdir("by parallel"))


def main():
    parser = argparse.ArgumentParser(description=__doc__, formatter_class=argparse.RawDescriptionHelpFormatter)
    parser.add_argument("program", nargs="?", metavar="PROGRAM")
    program = os.path.abspath(program_of(parser.parse_args().program))
    with tempfile.TemporaryDirectory() as folder:
        os.chdir(folder)
        for name in ("ping.wasm", "ping.places", "pong.wasm", "pong.places"):
            shutil.copy(os.path.join(TOP, "examples", "pingpong", name), ".")
        found = check_jobs(program)
        check_folder(program, found)
        check_wanted(program)
        check_refused(program)
        check_kept(program, found)
        check_stopped(program)
        check_parallel(program)
        os.chdir("/")
    print("hunt: as expected")


if __name__ == "__main__":
    sys.exit(main())
