"""What a script of the debugger says over the recording of a schedule."""

import os
import re
import subprocess
import tempfile

from hunting.wanted import Hit
from logs.format import read_log
from playing.player import PlayingFailed

# A line that is sent after each line of the script: its answer tells where that line's ends.
MARK = "4611686018427387903"


class BadScript(PlayingFailed):
    """The debugger refuses a line of the script."""


def record(program, folder, text, more=()):
    """Records a schedule in a folder, and gives what is printed."""
    with open(os.path.join(folder, "schedule"), "w", encoding="ascii") as file:
        file.write(text)
    done = subprocess.run([program, "record", *more, "schedule"], cwd=folder, stdout=subprocess.PIPE, text=True)
    if done.returncode != 0:
        raise PlayingFailed(done.stdout.strip() or "the recording ended with status %d" % done.returncode)
    return done.stdout


def hit_by_script(group, script, items):
    """What the first walk says that finds something, and the event at which it ends; None if none does."""
    with tempfile.TemporaryDirectory() as folder:
        modules = [os.path.abspath(module) for _, module in group.processes]
        links = ["%d.wasm" % number for number in range(len(modules))]
        for module, link in zip(modules, links):
            os.symlink(module, os.path.join(folder, link))
        head = ["friday 1", *("process %s %s" % pair for pair in zip(group.names, links))]
        record(group.program, folder, "\n".join(head + items) + "\n")
        pairs = [word for name, link in zip(group.names, links) for word in (link, name + ".log")]
        lines = [each for line in script for each in (line, "print " + MARK)]
        typed = "".join(line + "\n" for line in lines)
        done = subprocess.run([group.program, "debug", *pairs], cwd=folder, input=typed, stdout=subprocess.PIPE, text=True, encoding="latin-1")
        for line, answer in zip(script, done.stdout.partition("\n")[2].split(MARK + "\n")):
            if re.fullmatch(r"\? \d.*\n", answer):
                raise BadScript("the script's line %s: %s" % (line, answer.rstrip("\n")))
            said = says(line, answer.splitlines())
            if said:
                logs = {name: read_log(os.path.join(folder, name + ".log")) for name in group.names}
                return Hit(said, *event_of(group.names, logs, answer.splitlines()[-1]))
    return None


def says(line, answer):
    """What a walk says of watches and by programs; nothing of other lines."""
    if line.split()[:1] not in (["continue"], ["rcontinue"]):
        return ""
    told = [each for each in answer[:-1] if each not in ("end", "start", "paused") and not each.startswith("break ")]
    return "; ".join(told)


def event_of(names, logs, position):
    """The process, by number, and the number of its event, of a line `at K: EVENT`; the beginning is before the first one's events."""
    if position == "at 0":
        return 0, 0
    clock, name = position.partition(": ")[2].split(" ")[:2]
    clocks = [entry.clock for entry in logs[name].entries]
    return names.index(name), clocks.index(int(clock)) + 1
