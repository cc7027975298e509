"""The folder of a hit: its schedule and modules, logs and images, the cut of the event with which it counts, and that as a test."""

import os
import shlex
import shutil
import subprocess
import tempfile

from hunting.scripts import record
from logs.format import in_group_order, read_log
from playing.player import PlayingFailed

TOOLS = os.path.dirname(os.path.dirname(os.path.realpath(__file__)))
# What the folder of a hit has beside modules and what a recording makes.
OWN = ("schedule", "found", "test")
TEST = """\
#!/bin/sh
# Records the schedule beside this script, which makes what event %(event)d of %(name)s needs, and compares the logs with those beside it.
# Ends with 0 if they are the same.
# Usage: test.sh [PROGRAM]   (the program that answers %(launcher)s, if none is given)
here=$(CDPATH='' cd -- "$(dirname -- "$0")" && pwd) || exit 1
program=$(realpath -- "${1:-$(%(launcher)s --program)}") || exit 1
folder=$(mktemp -d) || exit 1
trap 'rm -rf "$folder"' EXIT
mkdir "$folder/test" && (cd "$here/.." && cp %(modules)s "$folder") && cp "$here/schedule" "$folder/test" && cd "$folder/test" || exit 1
"$program" record schedule || exit 1
for log in *.log; do cmp "$here/$log" "$log" || exit 1; done
echo "as expected"
"""


def keep(folder, group, words, tried):
    """Makes the folder of a hit. One that is there is left as it is: the same seed has made it before."""
    if os.path.exists(folder):
        return
    os.makedirs(os.path.dirname(folder) or ".", exist_ok=True)
    made = tempfile.mkdtemp(prefix=".making-", dir=os.path.dirname(folder) or ".")
    try:
        os.chmod(made, 0o755)
        fill(made, folder, group, words, tried)
        os.rename(made, folder)
    except BaseException:
        shutil.rmtree(made, ignore_errors=True)
        raise


def fill(made, folder, group, words, tried):
    modules = put_modules(made, group.processes)
    head = ["# %s" % words, "friday 1", *("process %s %s" % pair for pair in zip(group.names, modules))]
    summary = record(group.program, made, "\n".join(head + list(tried.items)) + "\n", ["--images"])
    pairs = [word for name, module in zip(group.names, modules) for word in (module, name + ".log")]
    opens = "cd %s && %s %s" % (shlex.quote(folder), shlex.quote(os.path.join(TOOLS, "session")), " ".join(map(shlex.quote, pairs)))
    told = [
        "seed %d: %s\n%s" % (tried.seed, tried.hit.why, summary),
        *about_event(made, group, modules, pairs, tried.hit),
        "to go there: %s\n    goto %d\n" % (opens, position_of(made, group, tried.hit)),
    ]
    with open(os.path.join(made, "found"), "w", encoding="ascii", errors="backslashreplace") as file:
        file.write("".join(told))


def about_event(made, group, modules, pairs, hit):
    """What is told of the event with which a seed counts, and what it needs, which is put in `test`."""
    if hit.event == 0:
        yield "%s has made no event\n" % group.names[hit.process]
        return
    log = read_log(os.path.join(made, group.names[hit.process] + ".log"))
    yield "position %d: %s\n" % (position_of(made, group, hit), log.entries[hit.event - 1].text(log.name))
    if hit.expression:
        yield in_debugger(group.program, made, pairs, hit.expression)
    yield "what it needs, in test:\n" + put_test(made, group, modules, pairs, hit)


def position_of(made, group, hit):
    """The position in the debugger of the event with which a seed counts; 0 if there is none."""
    order = in_group_order([read_log(os.path.join(made, name + ".log")) for name in group.names])
    places = [position for position, (_, log) in enumerate(order, 1) if log.process == hit.process]
    return places[hit.event - 1] if hit.event else 0


def in_debugger(program, folder, pairs, expression):
    """Where the expression holds first in the debugger. Its order is that of clocks, and events that do not know of each other may stand
    in another one there than they were played in."""
    typed = "print %s\nwatch %s\ndo 1 if %s { stop }\ncontinue\n" % (expression, expression, expression)
    told = subprocess.run([program, "debug", *pairs], cwd=folder, input=typed, stdout=subprocess.PIPE, text=True).stdout.splitlines()
    if told[1] not in ("0", "undef"):
        return "in the debugger it holds from the beginning\n"
    if "end" in told:
        return "in the debugger it never begins to hold: events that do not know of each other stand in another order there\n"
    return "in the debugger it holds first %s\n" % told[-1]


def put_modules(folder, processes):
    """Copies the modules with their places; the name of each process's copy."""
    names = {}
    for _, module in processes:
        path = os.path.realpath(module)
        if path not in names:
            stem, ending = os.path.splitext(os.path.basename(module))
            taken = {*names.values(), *OWN}
            name = next(each for each in (stem + ending, *("%s%d%s" % (stem, n, ending) for n in range(2, 99))) if each not in taken)
            names[path] = name
            shutil.copyfile(path, os.path.join(folder, name))
            places = os.path.splitext(module)[0] + ".places"
            if os.path.exists(places):
                shutil.copyfile(places, os.path.join(folder, os.path.splitext(name)[0] + ".places"))
    return [names[os.path.realpath(module)] for _, module in processes]


def put_test(made, group, modules, pairs, hit):
    """Cuts the logs to what the event needs, and makes of them a schedule with its logs; what the cut tells."""
    test = os.path.join(made, "test")
    os.mkdir(test)
    beside = [word if word.endswith(".log") else os.path.join("..", word) for word in pairs]
    logs = [word if not word.endswith(".log") else os.path.join("..", word) for word in beside]
    told = called(group.program, test, "cut", str(hit.process), str(hit.event), *logs)
    for name in group.names:
        os.rename(os.path.join(test, name + ".cut"), os.path.join(test, name + ".log"))
    with open(os.path.join(test, "schedule"), "w", encoding="ascii") as file:
        file.write(called(group.program, test, "schedule", *beside))
    path = os.path.join(test, "test.sh")
    with open(path, "w", encoding="utf-8") as file:
        launcher = os.path.join(os.path.dirname(TOOLS), "friday")
        names = {"event": hit.event, "name": group.names[hit.process], "launcher": shlex.quote(launcher)}
        file.write(TEST % {**names, "modules": " ".join(shlex.quote("./" + module) for module in sorted(set(modules)))})
    os.chmod(path, 0o755)
    return told


def called(program, folder, *words):
    done = subprocess.run([program, *words], cwd=folder, stdout=subprocess.PIPE, text=True)
    if done.returncode != 0:
        raise PlayingFailed(done.stdout.strip() or "%s ended with status %d" % (words[0], done.returncode))
    return done.stdout
