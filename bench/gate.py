"""Processor minutes of the gate, by part (proofs, tests, edits, programs) and by crate, and what is over the budget that
bench/BUDGET.md has; and the longest path of proofs that wait for each other, in minutes of the clock. The gate runs in a clone
of the last commit. Where it is interrupted the table has what was done.
"""

import argparse
import collections
import os
import re
import signal
import subprocess
import sys
import tempfile
import threading
import time

TOP = os.path.dirname(os.path.dirname(os.path.realpath(__file__)))
TICKS, PAUSE = os.sysconf("SC_CLK_TCK"), 0.25
PARTS = ("proofs", "tests", "edits", "programs")


def part_and_crate(arguments, folder):
    """What a process of the gate works on. An edit is tried in a folder of its own, over what a proof of the whole crate left."""
    name = re.search(r"--crate-name (\w+)", arguments)
    if name:
        if "/rt-edit" in folder:
            return "edits", name[1]
        return ("tests" if " --test" in arguments else "proofs"), name[1]
    run = re.search(r"/crates/(\w+)/out/(\w+)", arguments)
    if run:
        return ("tests" if run[2].endswith("_tests") else "programs"), run[1]
    return None


def below(root):
    """The processes below this one, with their processor times in ticks."""
    parents, times = collections.defaultdict(list), {}
    for pid in filter(str.isdigit, os.listdir("/proc")):
        try:
            with open("/proc/%s/stat" % pid) as file:
                fields = file.read().rsplit(")", 1)[1].split()
        except OSError:
            continue
        parents[int(fields[1])].append(int(pid))
        times[int(pid)] = int(fields[11]) + int(fields[12]), fields[19]
    found, left = {}, [root]
    while left:
        for pid in parents.pop(left.pop(), ()):
            found[pid] = times[pid]
            left.append(pid)
    return found


def watch(root, seen, spans, ended):
    """Notes of each process what it works on and its ticks so far, and of each part of a crate when it was first and last seen."""
    works = {}
    while not ended.wait(PAUSE):
        now = time.monotonic()
        for pid, (spent, begun) in below(root).items():
            key = pid, begun
            if works.get(key) is None:
                try:
                    with open("/proc/%d/cmdline" % pid) as file:
                        arguments = file.read().replace("\0", " ")
                    works[key] = part_and_crate(arguments, os.readlink("/proc/%d/cwd" % pid))
                except OSError:
                    continue
            if works[key]:
                seen[key] = works[key], spent
                spans[works[key]] = spans.get(works[key], (now,))[0], now


def longest_path(spans):
    """The minutes of the clock that the proofs take which wait for each other, where that is longest, and their crates."""
    with open(os.path.join(TOP, "crates.txt")) as file:
        rows = [line.split() for line in file if line.strip() and not line.startswith("#")]
    stands_on = {name.rstrip(":"): libraries for name, *libraries in rows}
    paths = {}

    def path_to(crate):
        if crate not in paths:
            first, last = spans.get(("proofs", crate), (0, 0))
            below, names = max((path_to(it) for it in stands_on[crate] if it in stands_on), default=(0, ()))
            paths[crate] = below + (last - first) / 60, (*names, crate)
        return paths[crate]

    return max(map(path_to, stands_on))


def budget():
    with open(os.path.join(TOP, "bench", "BUDGET.md")) as file:
        text = file.read()
    rows = text.split("## The budget", 1)[-1] if "## The budget" in text else ""
    return {name: float(most) for name, most in re.findall(r"^\| (\w+) \| ([\d.]+) \|", rows, re.M)}


def main():
    parser = argparse.ArgumentParser(description=__doc__, formatter_class=argparse.RawDescriptionHelpFormatter, allow_abbrev=False)
    parser.add_argument("--anew", action="store_true", help="from nothing, on a machine that kept what earlier runs proved")
    words = ["--anew"] if parser.parse_args().anew else []
    with tempfile.TemporaryDirectory(prefix="friday-gate-") as clone:
        subprocess.run(["git", "clone", "-q", TOP, clone], check=True)
        gate = subprocess.Popen(["rt", "ci", *words], cwd=clone)
        seen, spans, ended = {}, {}, threading.Event()
        watcher = threading.Thread(target=watch, args=(gate.pid, seen, spans, ended))
        watcher.start()
        signal.signal(signal.SIGTERM, signal.default_int_handler)
        try:
            _, status, usage = os.wait4(gate.pid, 0)
        except KeyboardInterrupt:
            gate.terminate()
            _, status, usage = os.wait4(gate.pid, 0)
        ended.set()
        watcher.join()

    minutes = collections.defaultdict(float)
    for (part, crate), spent in seen.values():
        for key in ((part, crate), (part, None), (None, crate)):
            minutes[key] += spent / TICKS / 60
    whole = (usage.ru_utime + usage.ru_stime) / 60
    most = budget()
    print("\n%-16s" % "crate", "".join("%10s" % part for part in PARTS), "%10s" % "all", "budget")
    for crate in sorted({crate for _, crate in minutes if crate}):
        spent = minutes[None, crate]
        over = "  OVER" if spent > most.get(crate, spent) else ""
        print("%-16s" % crate, "".join("%10.1f" % minutes[part, crate] for part in PARTS), "%10.1f" % spent, "%6s" % most.get(crate, ""), over)
    print("%-16s" % "whole", "".join("%10.1f" % minutes[part, None] for part in PARTS), "%10.1f" % whole, "%6s" % most.get("whole", ""), "  OVER" if whole > most.get("whole", whole) else "")
    path, crates = longest_path(spans)
    print("longest path of proofs: %.1f minutes of the clock, %s" % (path, " ".join(crates)))
    return os.waitstatus_to_exitcode(status)


if __name__ == "__main__":
    sys.exit(main())
