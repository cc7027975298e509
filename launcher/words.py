"""The files that a call's words name, and those that it makes."""
from __future__ import annotations

import os

from bad_line import fields_of, lines_of
from commands import COMMANDS, IMAGES, fault, files_of
from heads import head_of
from looking import MOST_SCHEDULE, bytes_of

NO_COMMAND, ABSENT = 2, 4


def process_lines(schedule):
    """The names and modules of a schedule's processes, with the numbers of their lines."""
    lines = lines_of(bytes_of(schedule, MOST_SCHEDULE) or b"")
    fields = ((number, fields_of(line)) for number, line in enumerate(lines, 1) if line.lstrip().startswith(b"process"))
    return [(number, *map(os.fsdecode, words[1:])) for number, words in fields if len(words) == 3]


def modules_of(schedule):
    """The module files that a schedule names."""
    return [module for _, _, module in process_lines(schedule)]


def all_files_of(words):
    """The files that a call reads, in its order: those of the words, and of a schedule the modules."""
    files = files_of(words)
    return files + modules_of(files[0]) if "SCHEDULE" in COMMANDS[words[0]].wanted else files


def made_by(words):
    """The files that a call makes."""
    command = COMMANDS[words[0]]
    if "NEW" in command.wanted:
        return [words[-1]]
    kinds = (*command.makes, *((".mem", ".out") if IMAGES in words else ()))
    return [name + kind for name in names_of(words) for kind in kinds]


def names_of(words):
    """The names of a call's processes."""
    files = files_of(words)
    if COMMANDS[words[0]].takes_pairs:
        return [head.name for head in map(head_of, files[1::2]) if head]
    return [name for _, name, _ in process_lines(files[0])]


def refusal(words):
    """The status with which the program would end for its words or an absent file, and what it would print; or None."""
    if fault(words):
        return NO_COMMAND, "friday: these words are not a command"
    absent = next((file for file in all_files_of(words) if not os.path.exists(file)), None)
    return (ABSENT, "friday: absent %s" % absent) if absent else None
