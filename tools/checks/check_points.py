#!/usr/bin/env python3
"""Plays sessions drawn at random over recorded groups, with points, conditions and programs, and compares each answer with
where points fire and where walks end by a definition of its own, over the values that `print` gives at each position.

check_points.py [--groups N] [--sessions N] [--seed N] [PROGRAM]   (40 groups, 50 sessions of each)
"""

import argparse
import os
import random
import tempfile
from dataclasses import dataclass

from tools_path import TOP  # before the modules of the tools, which it lets be found
from asking.program import program_of
from check_shown import called, owner, recorded

assert TOP
CALLS = ("begin", "send", "recv", "try_recv", "note", "now", "yield", "print", "sleep_until")
OF_NODES = ("%s.clock", "%s.events", "%s.events %% 3", "%s.thread", "%s.ended", "%s.u32[1024]", "%s.u8[70000]", "6 / (%s.events - 2)", "%s.size")


# ---- a group, and what stands at its positions


class Group:
    """A recorded group: the events of its order, and the values of expressions at each position, which are asked for once."""

    def __init__(self, program, folder, chosen):
        self.program, self.folder, self.words = program, folder, ["debug", *(word for name, module in chosen for word in (module, name + ".log"))]
        self.names = sorted(name for name, _ in chosen)
        self.events = [line.partition(": ")[2] for line in self.session(["step 1000", "events 1000"])[2:]]
        self.owners = [None, *map(owner, self.events)]

    def draws(self, draw):
        """Draws the expressions of all sessions over the group, and asks for their values."""
        self.plain = [drawn_value(draw, self, False) for _ in range(30)]
        self.of_event = [drawn_value(draw, self, True) for _ in range(30)]
        self.learn([*self.plain, *self.of_event])

    def session(self, lines):
        return called(self.program, self.folder, *self.words, typed="".join(line + "\n" for line in lines)).splitlines()

    def place(self, k):
        return "at %d: %s" % (k, self.events[k - 1]) if k else "at 0"

    def learn(self, expressions):
        """Asks for the values of expressions at each position, in which `@!` is the process of the event that led there."""
        asked = list(dict.fromkeys(expressions))
        lines = []
        for k in range(len(self.events) + 1):
            lines += ["goto %d" % k, *("print " + self.at(text, k) for text in asked)]
        answers = iter(self.session(lines)[1:])
        self.values = {text: [] for text in asked}
        for _ in range(len(self.events) + 1):
            next(answers)
            for text in asked:
                told = next(answers)
                self.values[text].append(None if told == "undef" else int(told))

    def at(self, text, k):
        return text.replace("@!", "@" + (self.owners[k] or self.names[0]))

    def value(self, text, k):
        return self.values[text][k]


def told(value):
    return "undef" if value is None else str(value)


def drawn_value(draw, group, of_event):
    """An expression over the nodes of a group, and over that of the event where it may be named."""
    node = draw.choice(["@" + name for name in group.names] + ["@!"] * of_event * 2)
    one = draw.choice(OF_NODES) % node
    form = draw.random()
    if form < 0.2:
        return "%s(%s)" % (draw.choice(("sum", "max", "count")), draw.choice(OF_NODES) % "@_")
    if form < 0.3 and of_event:
        return "sum(@_.events == %s)" % one
    if form < 0.5:
        return "%s %s %d" % (one, draw.choice(("==", ">", "<", "%")), draw.randint(1, 4))
    return one if form < 0.95 else draw.choice(("0", "1", "-1", "1 / 0"))


# ---- points


@dataclass
class Program:
    """A program: its text, whether a `stop` is in it, and what it does at a position with the count so far: the lines that
    it says, the count, and whether it stops."""

    text: str
    may_stop: bool
    run: object


def drawn_programs(draw, group):
    test, shown = draw.choice(group.of_event), draw.choice(group.of_event)
    holds, value = (lambda k: group.value(test, k) not in (None, 0)), (lambda k: told(group.value(shown, k)))
    most = draw.randint(1, 5)
    return draw.choice((
        Program('say "x ", @!', False, lambda k, n: (["x " + group.owners[k]], n, False)),
        Program("stop", True, lambda k, n: ([], n, True)),
        Program("say %s; if 0 { stop }" % shown, True, lambda k, n: ([value(k)], n, False)),
        Program("set $n $n + 1; if $n > %d { say $n; stop }" % most, True, lambda k, n: ([str(n + 1)] * (n + 1 > most), n + 1, n + 1 > most)),
        Program("if %s { say %s } else { stop }" % (test, shown), True, lambda k, n: ([value(k)], n, False) if holds(k) else ([], n, True)),
        Program('if %s { say @!, ".", %s }' % (test, shown), False, lambda k, n: ([group.owners[k] + "." + value(k)] if holds(k) else [], n, False)),
    ))


class Point:
    """A line that makes a point, and what it says, behind its number, at each position where it fires."""

    def __init__(self, draw, group):
        self.program = None
        self.line, fires = self.watched(draw, group) if draw.random() < 0.5 else self.broken(draw, group)
        if draw.random() < 0.6:
            condition = draw.choice(group.of_event)
            self.line += " if " + condition
            fires = {k: said for k, said in fires.items() if group.value(condition, k) not in (None, 0)}
        self.fires = fires

    @staticmethod
    def watched(draw, group):
        text = draw.choice(group.plain)
        values = group.values[text]
        pairs = enumerate(zip(values, values[1:]), 1)
        return "watch " + text, {k: "watch %%d: %s -> %s" % (told(old), told(new)) for k, (old, new) in pairs if old != new}

    @staticmethod
    def broken(draw, group):
        node, call = draw.choice((*group.names, "*")), draw.choice((*CALLS, "*", "*"))
        events = enumerate(group.events, 1)
        fires = [k for k, event in events if node in ("*", group.owners[k]) and call in ("*", event.split()[3])]
        return "break %s %s" % (node, call), dict.fromkeys(fires, "break %d")

    def may_stop(self):
        return self.program is None or self.program.may_stop


# ---- a session


class Session:
    """The lines of a session, and what each of them is answered."""

    def __init__(self, draw, group):
        self.draw, self.group, self.at, self.points, self.made, self.count = draw, group, 0, {}, 0, 0
        self.lines, self.answers = ["set $n 0"], ["at 0"]
        self.last = len(group.events)

    def does(self, line, *answers):
        self.lines.append(line)
        self.answers += answers

    def comes(self, line, said, k):
        self.at = k
        self.does(line, *said, self.group.place(k))

    def due(self, k):
        return [(number, point) for number, point in self.points.items() if k in point.fires]

    def makes(self):
        point, self.made = Point(self.draw, self.group), self.made + 1
        self.points[self.made] = point
        self.does(point.line, "point %d" % self.made)

    def attaches(self):
        if self.points:
            number = self.draw.choice(list(self.points))
            self.points[number].program = drawn_programs(self.draw, self.group)
            self.does("do %d %s" % (number, self.points[number].program.text))

    def deletes(self):
        if self.points:
            number = self.draw.choice(list(self.points))
            del self.points[number]
            self.does("delete %d" % number, "deleted %d" % number)

    def lists(self):
        self.does("list", *("%d %s" % (number, point.line) for number, point in self.points.items()))
        self.does("print $n", str(self.count))

    def goes(self):
        k = self.draw.randint(0, self.last)
        self.comes("goto %d" % k, [], k)

    def treats(self, k):
        """What the points that fire at a position say there, and whether one of them asks to stop."""
        said, stops = [], False
        for number, point in self.due(k):
            if point.program is None:
                said.append(point.fires[k] % number)
                stops = True
            else:
                lines, self.count, stopped = point.program.run(k, self.count)
                said += lines
                stops |= stopped
        return said, stops

    def continues(self):
        most = self.draw.choice((None, None, 1, 2, 5, self.last + 3))
        line, limit = ("continue", self.last) if most is None else ("continue %d" % most, min(self.at + most, self.last))
        said = []
        for k in range(self.at + 1, limit + 1):
            more, stops = self.treats(k)
            said += more
            if stops:
                return self.comes(line, said, k)
        return self.comes(line, [*said, "end" if limit == self.last else "paused"], limit)

    def returns(self):
        for k in range(self.at - 1, 0, -1):
            due = self.due(k)
            if any(point.may_stop() for _, point in due):
                return self.comes("rcontinue", [point.fires[k] % number for number, point in due], k)
        return self.comes("rcontinue", ["start"], 0)


MOVES = {"makes": 3, "attaches": 3, "deletes": 1, "lists": 1, "goes": 2, "continues": 8, "returns": 6}


def check_session(draw, group):
    session = Session(draw, group)
    session.makes()
    for move in draw.choices(list(MOVES), MOVES.values(), k=draw.randint(5, 25)):
        getattr(session, move)()
    answers = group.session(session.lines)
    for at, (told_there, wanted) in enumerate(zip(answers, session.answers)):
        assert told_there == wanted, (session.lines, at, told_there, wanted)
    assert len(answers) == len(session.answers), session.lines
    return len(session.lines)


def check_group(program, seed, sessions):
    """How many lines were answered, and how many events the group has."""
    draw = random.Random(seed)
    with tempfile.TemporaryDirectory() as folder:
        names, modules, _ = recorded(program, draw, folder)
        group = Group(program, folder, list(zip(names, modules)))
        group.draws(draw)
        return sum(check_session(draw, group) for _ in range(sessions)), len(group.events)


def main():
    parser = argparse.ArgumentParser(description=__doc__, formatter_class=argparse.RawDescriptionHelpFormatter, allow_abbrev=False)
    parser.add_argument("--groups", type=int, default=40, help="how many groups are recorded")
    parser.add_argument("--sessions", type=int, default=50, help="how many sessions are played over each")
    parser.add_argument("--seed", type=int, default=1, help="the seed of the first group")
    parser.add_argument("program", nargs="?", help="the program friday, if not the one that answers ./friday")
    chosen = parser.parse_args()
    program = os.path.abspath(program_of(chosen.program))
    rows = [check_group(program, seed, chosen.sessions) for seed in range(chosen.seed, chosen.seed + chosen.groups)]
    lines, events = (sum(row[at] for row in rows) for at in (0, 1))
    print("%d sessions of %d lines over %d events answer as defined" % (chosen.groups * chosen.sessions, lines, events))


if __name__ == "__main__":
    main()
