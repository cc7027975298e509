"""Walks with programs at some points and none at others, from each position to the end."""

from debug_points import LAST, POINTS, makes, numbered
from sessions import PAIRS, PLACES, files, session


class Program:
    """The text of a program, and what it says and whether it stops at a position, where it may change the variables."""

    def __init__(self, written, run):
        self.written, self.run = written, run


def count(k, variables):
    variables["n"] += 1
    return [], False


def tell(k, variables):
    return ["%d at %d" % (variables["n"], k)], False


def odd(k, variables):
    return ([], False) if k % 2 == 0 else (["odd"], True)


def reset(k, variables):
    told, variables["last"] = variables["last"], k
    if variables["n"] <= 3:
        return ["since %d" % told], False
    variables["n"] = 0
    return ["reset"], True


# The events of both processes are as many as the position.
PROGRAMS = (
    Program("set $n $n + 1", count),
    Program('say $n, " at ", sum(@_.events)', tell),
    Program('if sum(@_.events) % 2 { say "odd"; stop }', odd),
    Program('set $was $last; set $last sum(@_.events); if $n > 3 { set $n 0; say "reset"; stop }; say "since ", $was', reset),
)
BEGUN = {"n": 0, "last": 0}


def arrives(points, programs, position, variables):
    """The answer of `continue` from a position, and where it ends. Programs are given by the numbers of their points."""
    told = []
    for k in range(position + 1, LAST + 1):
        stops = False
        for number, point in points.items():
            if k in point.fires and number in programs:
                said, stopped = programs[number].run(k, variables)
                told += said
                stops |= stopped
            elif k in point.fires:
                told += point.said(number, k)
                stops = True
        if stops:
            return (*told, PLACES[k]), k
    return (*told, "end", PLACES[LAST]), LAST


def shown(variables):
    return [("print $%s" % name, str(value)) for name, value in variables.items()]


def sets(variables):
    return [("set $%s %d" % row, ) for row in variables.items()]


def attached(points, every, first):
    """A program for each point but some."""
    return {number: PROGRAMS[(number + first) % len(PROGRAMS)] for number in points if number % every}


def walk(points, programs):
    """All of them made, the walk from the beginning to the end, and then those from each position."""
    variables = dict(BEGUN)
    yield from sets(variables)
    yield from makes(points.values())
    yield from (("do %d %s" % (number, program.written), ) for number, program in programs.items())
    position = 0
    while position < LAST:
        told, position = arrives(points, programs, position, variables)
        yield ("continue", *told)
        yield from shown(variables)
    for start in (*range(LAST, -1, -1), 6, 2):
        told, _ = arrives(points, programs, start, variables)
        yield "goto %d" % start, PLACES[start]
        yield ("continue", *told)
        yield from shown(variables)


def table(script):
    script.title("Walks with programs")
    files(script, "walks with programs at all points, and at most of them")
    some = [POINTS[at] for at in (0, 1, 5, 12, 14, 21)]
    for chosen in (POINTS[:4], POINTS[4:9], POINTS[11:16], some):
        points = numbered(chosen)
        for every, first in ((99, 0), (4, 2), (3, 3)):
            session(script, PAIRS, [*walk(points, attached(points, every, first))])
