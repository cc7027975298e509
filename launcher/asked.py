"""What is asked of the launcher itself: its help, --version, and --prove, which has the program proved.

asked.py WORD ..   (the words of the call)
"""
from __future__ import annotations

import os
import shutil
import subprocess
import sys

from commands import COMMANDS, OWN
from ended import hint
from help_texts import page, page_of
from parents import end_by_signals
from proving import prove_all
from saying import printed, say
from sources import HERE, IN_CLONE, PROVED, checksum, folder_to_keep_in, is_proved, kept_without_proofs

HELP, VERSION = ("-h", "--help", "help"), ("-V", "--version")


def version():
    """The number, the commit and the sources; whether the program is proved; and the kit that is here."""
    sum_of_sources = checksum()
    program = kept_without_proofs(sum_of_sources)
    if is_proved():
        state = "proved: %s" % PROVED
    elif program:
        state = "built without proofs: %s" % os.path.relpath(program, HERE)
    else:
        state = "not built yet"
    text = "friday %s (%s, sources %s)\n%s\nkit: %s\n" % (number(), commit(), sum_of_sources, state, kit())
    return printed(text)


def number():
    with open(os.path.join(HERE, "VERSION"), encoding="ascii") as file:
        return file.read().strip()


def said_by(*words):
    """The first line that a command prints, or nothing if it cannot be had."""
    try:
        done = subprocess.run(words, stdout=subprocess.PIPE, stderr=subprocess.DEVNULL, stdin=subprocess.DEVNULL)
    except OSError:
        return ""
    return done.stdout.decode("utf-8", "replace").partition("\n")[0] if done.returncode == 0 else ""


def commit():
    found = said_by("git", "-C", HERE, "rev-parse", "--short=12", "HEAD") if os.path.exists("%s/.git" % HERE) else ""
    changed = found and said_by("git", "-C", HERE, "status", "--porcelain", "--", "crates", "crates.txt")
    return ("commit %s%s" % (found, " and changes" if changed else "")) if found else "no commit known"


def kit():
    return said_by("rt", "version") or "none here"


def help_of(words):
    """The page of all commands, or of the one that the words name."""
    named = [word for word in words if word not in HELP]
    if not named:
        return printed(page(), 0 if words else 2)
    if named[0] in COMMANDS and (len(named) == 1 or words[0] not in HELP):
        return printed(page_of(named[0]))
    return no_command(named if named[0] not in COMMANDS else words)


def prove():
    if not shutil.which("rt"):
        say("there is no `rt` to prove with: README.md says where it comes from")
        return 8
    if folder_to_keep_in() != IN_CLONE:
        say("%s cannot be written, and the proved program is kept there: prove in a clone of your own" % IN_CLONE)
        return 8
    return 0 if prove_all() else 1


def no_command(words):
    status = printed("friday: these words are not a command\n", 2)
    if words[0] in (*OWN, *HELP, *VERSION):
        say("`%s` takes no further word%s" % (words[0], " but the name of one command" if words[0] in HELP else ""))
    else:
        hint(2, words)
    return status


def main(words):
    if not words or words[0] in HELP or any(word in HELP for word in words[1:] if words[0] in COMMANDS):
        return help_of(words)
    if len(words) == 1 and words[0] in VERSION:
        return version()
    if words == ["--prove"]:
        return prove()
    return no_command(words)


if __name__ == "__main__":
    end_by_signals(lambda: say("stopped; what was proved is kept, and ./friday --prove goes on there") if sys.argv[1:] == ["--prove"] else None)
    try:
        sys.exit(main(sys.argv[1:]))
    except OSError as error:
        say("%s: %s" % (error.filename or "out/", error.strerror))
        sys.exit(8)
