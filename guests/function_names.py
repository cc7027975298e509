"""The functions of a module by their numbers, as NAME.places tells them, or else the module by its own names and its exports; and those
of a thread in one line."""
import itertools
import os

from place_table import FunctionPlace, Refusal, read_table
from wasm_reader import read_module

# No module is longer, and no file of places of one.
MOST_MODULE, MOST_PLACES = 4_194_304, 16_777_216
# So many different functions one after the other are told in a line.
MOST_TOLD = 12


def functions_of(module):
    """Those that have a name; none where the files are not there or cannot be read."""
    return of_places(os.path.splitext(module)[0] + ".places") or of_module(module)


def of_places(path):
    if not is_short(path, MOST_PLACES):
        return {}
    try:
        return {function.number: function for function in read_table(path).functions}
    except Refusal:
        return {}


def of_module(path):
    if not is_short(path, MOST_MODULE):
        return {}
    try:
        with open(path, "rb") as file:
            found = read_module(file.read(MOST_MODULE))
    except (OSError, IndexError, ValueError):
        return {}
    names = {number: name for name, (kind, number) in found.exports.items() if kind == 0}
    return {number: FunctionPlace(number, name) for number, name in {**names, **found.names}.items() if name}


def in_a_line(first, names, more):
    """What is said of the innermost function, and the names of those around it, of which `more` are not known; what comes more than
    twice in turn is said once."""
    runs = [(name, len(list(run))) for name, run in itertools.groupby(names)]
    told = [first]
    for name, count in runs[:MOST_TOLD]:
        told += ["%s (%d times)" % (name, count)] if count > 2 else [name] * count
    more += sum(count for _, count in runs[MOST_TOLD:])
    return " < ".join(told) + (" and %d more" % more if more else "")


def is_short(path, most):
    """Whether a regular file is there, and no longer than this: a pipe would wait."""
    try:
        return os.path.isfile(path) and os.path.getsize(path) <= most
    except (OSError, ValueError):
        return False
