"""Lines that keep a schedule that was played: in a file, or in a folder with its recording."""

import os
import re
import shlex
import subprocess
import sys

from playing_by_hand.items import without_idle
from sessions.names import Refusal

TOOLS = os.path.dirname(os.path.dirname(os.path.realpath(__file__)))
MODULE = re.compile("[!-~]{1,255}")


def text_of(session, modules):
    """The schedule so far, with its modules by these names."""
    for module in modules:
        if not MODULE.fullmatch(module):
            raise Refusal("no schedule can name the module %s" % module)
    processes = ["process %s %s" % pair for pair in zip(session.group.names, modules)]
    return "".join(line + "\n" for line in ["friday 1", *processes, *without_idle(session.pairs())])


def save(session, rest, form):
    """Writes the schedule so far. A file that this session has not written stays as it is."""
    if not rest:
        raise Refusal("a file's name is missing")
    text = text_of(session, [module for _, module in session.group.processes])
    with open(rest, "w" if os.path.realpath(rest) in session.saved else "x", encoding="ascii") as file:
        file.write(text)
    session.saved.add(os.path.realpath(rest))
    session.print("%d lines in %s" % (text.count("\n"), rest))


def record(session, rest, form):
    """Records the schedule so far in a folder that is made for it, and opens the debugger there."""
    folder, program = rest or "played", session.group.program
    modules = [seen_from(folder, module) for _, module in session.group.processes]
    text = text_of(session, modules)
    os.mkdir(folder)
    with open(os.path.join(folder, "schedule"), "w", encoding="ascii") as file:
        file.write(text)
    done = subprocess.run([program, "record", "schedule"], cwd=folder, stdout=subprocess.PIPE, text=True)
    session.print(done.stdout.rstrip("\n"))
    if done.returncode:
        raise Refusal("the recording ended with status %d" % done.returncode)
    pairs = [word for name, module in zip(session.group.names, modules) for word in (module, name + ".log")]
    opens = [os.path.join(TOOLS, "session"), *pairs]
    session.print("recorded in %s; to open it: cd %s && %s" % (folder, shlex.quote(folder), " ".join(map(shlex.quote, opens))))
    if session.is_by_hand:
        subprocess.run([sys.executable, opens[0], "--program", program, *pairs], cwd=folder)
        session.print("back to playing")


def seen_from(folder, module):
    """The path of a module from a folder, past links to folders."""
    path = os.path.join(os.path.realpath(os.path.dirname(module)), os.path.basename(module))
    return os.path.relpath(path, os.path.realpath(folder))
