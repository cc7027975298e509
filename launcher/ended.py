"""Says after a call what its status means: what is wrong, where, why, and what to do.

ended.py STATUS PROGRAM WORD ..   (the words of the call; the program may be empty)
"""
from __future__ import annotations

import difflib
import os
import stat
import sys

from again import Again
from commands import COMMANDS, fault, files_of, is_command
from diverged import TUTORIAL, why_diverged
from looking import why_unreadable, why_unwritable
from refused import why_refused
from saying import say
from words import all_files_of, made_by, process_lines

MEANING = {
    5: "status 5: a file or the input could not be read",
    6: "status 6: a file or the output could not be written",
    7: "status 7: memory ran out",
    8: "status 8: the words of the command line cannot be had: is one of them not UTF-8?",
}
# So many names of a folder are compared with one that is absent, and so many are told.
MOST_NAMES, MOST_TOLD = 10000, 5


def hint(status, words=(), program=""):
    """Says what there is to say about a status."""
    for line in lines(status, list(words), program):
        say(line)


def lines(status, words, program):
    if status == 2:
        yield from of_words(words)
    elif not words or not is_command(words):
        yield from ([MEANING[status]] if status in MEANING else [])
    elif status == 4:
        yield from of_absent(words)
    elif status in (1, 3) and program:
        yield from of_files(status, Again(program, words))
    elif status in MEANING:
        found = list(in_the_way(status, words))
        yield MEANING[status] + (": " + "; ".join(found) if found else "")


def of_words(words):
    """What is wrong with the words, and how the command is used."""
    told = fault(words)
    if told:
        yield told
    if words and words[0] in COMMANDS:
        yield "usage: %s; `friday %s --help` says more" % (COMMANDS[words[0]].usage, words[0])
    else:
        yield "friday --help shows the commands"


def of_files(status, again):
    """Of a call that was refused for a file, or a replay in which a log diverges."""
    if status == 3:
        yield from why_refused(again)
    elif again.can_be_asked():
        told = [line for line in again.report() if line.entry]
        yield from why_diverged(again, told)
        yield "a module was built anew since the recording, or is another process's: \"What a divergence means\" in %s" % TUTORIAL


# ---- a file that is absent


def of_absent(words):
    files = all_files_of(words)
    absent = next((path for path in files if not os.path.exists(path)), None)
    if absent is None:
        yield "no file is absent now"
        return
    place = named_by(words, absent)
    yield "there is no file %s%s; %s" % (absent, place, what_lies_there(absent))
    schedule = files[0] if place else None
    beside = os.path.join(os.path.dirname(schedule), absent) if schedule else ""
    if schedule and os.path.dirname(schedule) and os.path.exists(beside):
        yield "it lies in the folder of the schedule: a schedule's modules are looked up from the present folder, so call from there"


def named_by(words, path):
    """Where a schedule names a module, as its line; nothing of a word of the call."""
    if path in files_of(words):
        return ""
    schedule = files_of(words)[0]
    number = next((number for number, _, module in process_lines(schedule) if module == path), None)
    return ", which line %d of %s names" % (number, schedule)


def what_lies_there(path):
    """What is in the folder instead, the names like it first."""
    folder, name = os.path.split(path)
    if folder and not os.path.isdir(folder):
        return "there is no folder %s either" % folder
    try:
        with os.scandir(folder or ".") as entries:
            names = [entry.name for entry, _ in zip(entries, range(MOST_NAMES))]
    except OSError as error:
        return "the folder %s cannot be read (%s)" % (folder or ".", error.strerror)
    if not names:
        return "the folder %s is empty" % (folder or os.getcwd())
    ending = os.path.splitext(name)[1]
    near = difflib.get_close_matches(name, names, MOST_TOLD, 0.5)
    alike = [other for other in sorted(names) if ending and other.endswith(ending) and other not in near]
    told = (near + alike)[:MOST_TOLD]
    if not told:
        return "nothing like it is in %s" % (folder or os.getcwd())
    return "in %s there is %s" % (folder or os.getcwd(), ", ".join(told))


# ---- what stands in the way of reading and writing


def in_the_way(status, words):
    if status == 5:
        found = ["%s %s" % (path, why) for path in all_files_of(words) for why in [why_unreadable(path)] if why]
        yield from found or input_in_the_way()
    if status == 6:
        found = ["%s %s" % (path, why) for path in made_by(words) for why in [why_unwritable(path, grows(words, path))] if why]
        found += ["the disk of this folder is full"] if made_by(words) and os.statvfs(".").f_bavail == 0 else []
        yield from found or output_in_the_way()


def grows(words, path):
    """The logs of a recording are written as it goes."""
    return words[0] == "record" and path.endswith(".log")


def input_in_the_way():
    """The call's own input has the number 3 here."""
    try:
        mode = os.fstat(3).st_mode
    except OSError:
        return
    yield "standard input is a folder" if stat.S_ISDIR(mode) else "no file is in the way now, so it is standard input or the disk"


def output_in_the_way():
    try:
        os.fstat(1)
        yield "no file is in the way now, so it is standard output, which is full or which nobody reads"
    except OSError:
        yield "standard output is closed; the files of the call are made all the same"


if __name__ == "__main__":
    # What cannot be explained is left unsaid: the program has said how the call ended.
    try:
        hint(int(sys.argv[1]), sys.argv[3:], sys.argv[2])
    except (KeyboardInterrupt, OSError):
        pass
