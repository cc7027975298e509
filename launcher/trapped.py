"""In which functions a process was where it trapped: the debugger is asked for the frames of its threads behind its last event."""
from __future__ import annotations

import os
import re
import sys

from again import Again
from diverged import HERE
from heads import head_of
from looking import is_file
from words import process_lines

GUESTS = os.path.join(HERE, "guests")
THREADS = 64
# More steps than there can be events.
TO_THE_END = "step 9223372036854775807\n"
FRAMES = re.compile(r"^\d+: (\d+(?: \d+)*)(?: and (\d+) more)?$", re.M)


def where_trapped(program, words, name, seconds):
    """The functions with their names, the innermost first, or None where that cannot be told within so many seconds."""
    module, log = pair_of(words, name)
    if not is_file(module) or not is_file(log):
        return None
    asked = TO_THE_END + "".join("frames %s %d\n" % (name, thread) for thread in range(THREADS))
    words = ["debug", module, log]
    _, text = Again(program, words).ask(words, asked, seconds)
    # Of a process that trapped only the thread that did so has frames.
    found = FRAMES.search(text)
    return chain([int(number) for number in found[1].split()], int(found[2] or 0), module) if found else None


def pair_of(words, name):
    """The module and the log of a process of a call; empty names where they are not found."""
    again = Again("", words)
    pairs = again.pairs if again.command.takes_pairs else [(module, name + ".log") for _, other, module in process_lines(again.files[0]) if other == name]
    return next(((module, log) for module, log in pairs if (head := head_of(log)) and head.name == name), ("", ""))


def chain(numbers, more, module):
    """The innermost function with its lines, and the names of those around it."""
    # The kit's readers lie with it, and few calls need them.
    sys.path.append(GUESTS)
    from function_names import functions_of, in_a_line
    from place_table import FunctionPlace

    functions = functions_of(module)
    first, *rest = (functions.get(number) or FunctionPlace(number, "function %d" % number) for number in numbers)
    return in_a_line(first.words, [function.name for function in rest], more)
