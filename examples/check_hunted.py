#!/usr/bin/env python3
"""Hunts again by the commands on the examples' pages, and compares what they print with what the pages show, but for the times. A hit's
logs have to replay whole, and its test has to pass. If `failing` lies beside the page, one of the schedules has to be that.

check_hunted.py [--only EXAMPLE] [PROGRAM]   (all pages, and the program that answers ./friday, if none is given)
"""

import argparse
import glob
import os
import re
import shlex
import shutil
import subprocess
import sys
import tempfile

HERE = os.path.dirname(os.path.realpath(__file__))
TOOLS = os.path.join(os.path.dirname(HERE), "tools")
sys.path.append(TOOLS)

from asking.program import program_of  # noqa: E402 (it lies in the folder of the tools)

TIMES = re.compile(r"[\d.]+ s, \d+ seeds a minute with \d+ jobs?")


def hunts_on(page):
    """The commands that hunt on a page, with the lines that it shows after each."""
    with open(page, encoding="utf-8") as file:
        lines = [line[4:] if line.startswith("    ") else "" for line in file.read().replace("\\\n", "").splitlines()]
    for number, line in enumerate(lines):
        if line.startswith("$ ../../tools/hunt "):
            shown = []
            for each in lines[number + 1 :]:
                if not each or each.startswith("$ "):
                    break
                shown.append(each)
            yield shlex.split(line[2:])[1:], shown


def check_hunt(program, words, shown):
    done = subprocess.run([os.path.join(TOOLS, "hunt"), "--program", program, *words], stdout=subprocess.PIPE, stderr=subprocess.STDOUT, text=True)
    told = [line for line in done.stdout.splitlines() if not TIMES.fullmatch(line)]
    assert done.returncode == 0, done
    hits = [line for line in shown if not TIMES.fullmatch(line)]
    if "..." in hits:
        at = hits.index("...")
        assert told[:at] == hits[:at] and told[-1] == hits[-1], (words, told)
    else:
        assert told == hits, (words, told)


def check_hit(program, folder):
    """What a hunt has kept. Gives its schedule."""
    with open(os.path.join(folder, "schedule")) as file:
        schedule = file.read()
    processes = re.findall(r"^process (\w+) (\S+)$", schedule, re.M)
    pairs = [word for name, module in processes for word in (module, name + ".log")]
    report = subprocess.run([program, "replay", *pairs], cwd=folder, stdout=subprocess.PIPE, text=True)
    assert report.returncode == 0 and report.stdout.count("log whole") == len(processes), report
    tested = subprocess.run([os.path.join(folder, "test", "test.sh"), program], stdout=subprocess.PIPE, text=True)
    assert tested.returncode == 0, tested
    return schedule


def check_page(program, page):
    """How many hunts a page has."""
    count = 0
    with tempfile.TemporaryDirectory() as folder:
        for path in glob.glob(os.path.join(os.path.dirname(page), "*")):
            if os.path.isfile(path):
                shutil.copy(path, folder)
        os.chdir(folder)
        for words, shown in hunts_on(page):
            check_hunt(program, words, shown)
            count += 1
        hits = [hit for hit in glob.glob("found/seed*[0-9]") if os.path.isdir(hit)]
        schedules = [check_hit(program, hit) for hit in hits]
        if os.path.exists("failing") and hits:
            with open("failing") as file:
                assert file.read() in schedules, page
        os.chdir("/")
    return count


def main():
    parser = argparse.ArgumentParser(description=__doc__, formatter_class=argparse.RawDescriptionHelpFormatter)
    parser.add_argument("--only", metavar="EXAMPLE", default="*", help="the folder of the page")
    parser.add_argument("program", nargs="?", metavar="PROGRAM")
    chosen = parser.parse_args()
    program = os.path.abspath(program_of(chosen.program))
    pages = sorted(glob.glob(os.path.join(HERE, chosen.only, "README.md")))
    counts = {os.path.basename(os.path.dirname(page)): check_page(program, page) for page in pages}
    hunted = ["%d of %s" % (count, name) for name, count in counts.items() if count]
    assert hunted, "no page has a hunt"
    print("hunts found again: %s" % ", ".join(hunted))


if __name__ == "__main__":
    main()
