"""Places in the source that guests keep which `guests/build --lines` made: each keeps that of its last call."""

import itertools
import re
from dataclasses import dataclass

from naming import place_of
from sessions.names import Refusal

LAST_CALL = "liblog_last_call"


@dataclass(frozen=True)
class Place:
    """A function or a line of processes that have one module, and the test whether the one whose event it is came to one of its calls."""

    nodes: list
    words: str
    test: str


def last_call(names, node, spelled=""):
    """The expression for the address of the place that a process keeps, or None where it keeps none."""
    if node not in names.tables or not names.tables[node].calls:
        return None
    try:
        return place_of(spelled or node, names.tables[node], LAST_CALL).load()
    except Refusal:
        # The guest makes no call, so the linker left the variable out.
        return None


def calls_of(names, node):
    """The places at which a process makes calls."""
    return names.tables[node].calls if last_call(names, node) else []


def in_words(call):
    return "in %s, %s" % (call.function, line_of(call))


def line_of(call):
    return "%s:%d" % (call.file, call.line)


def meant(names, where):
    """The processes that `NODE PLACE`, `NODE.PLACE`, `NODE,NODE.PLACE`, `* PLACE` or `PLACE` is about, and the place."""
    nodes, _, words = where.rpartition(" ")
    front, _, behind = where.partition(".")
    if not nodes and all(node in names.nodes for node in front.split(",")):
        nodes, words = front, behind
    if nodes in ("", "*"):
        return names.nodes, words
    if not all(node in names.nodes for node in nodes.split(",")):
        raise Refusal("the processes are %s" % ", ".join(names.nodes))
    return [node for node in names.nodes if node in nodes.split(",")], words


def places(names, nodes, words):
    """The place in each module that has calls in this function or line, for its processes among these."""
    found = []
    for alike in names.modules_of(node for node in nodes if calls_of(names, node)):
        calls, kept = calls_of(names, alike[0]), last_call(names, alike[0], "!")
        are_there = [words in (call.function, line_of(call)) for call in calls]
        runs = [[call.address for _, call in run] for there, run in itertools.groupby(zip(are_there, calls), lambda pair: pair[0]) if there]
        if runs:
            found.append(Place(alike, words, "!@!.ended && (%s)" % " || ".join(test_of(kept, run[0], run[-1]) for run in runs)))
    if not found:
        raise Refusal(advice(names, nodes, words))
    return found


def test_of(expression, first, last):
    return "%s == %d" % (expression, first) if first == last else "%s >= %d && %s <= %d" % (expression, first, expression, last)


def advice(names, nodes, words):
    calls = [call for node in nodes for call in calls_of(names, node)]
    if not calls:
        return "%s is no call, and of functions a guest tells that `guests/build --lines` made" % words
    lines = sorted({call.line for call in calls if call.file == words.partition(":")[0]})
    if lines:
        return "no call is in %s: those of the file are in %s" % (words, ", ".join(map(str, lines)))
    functions = sorted({call.function for call in calls if not call.file.startswith("kit/")})
    return "no call is in %s: functions with calls are %s" % (words, ", ".join(functions))


STANDS = re.compile(r"(\d+) (ended|at .*)")


def standing_in(answer):
    """How a process is and its threads are, by the answer of a line `threads`."""
    first, *lines = answer
    return first.partition(" ")[2], {int(stands[1]): stands[2] for stands in map(STANDS.fullmatch, lines) if stands}


class Threads:
    """How threads stand at the position, and at which calls of their source.

    A process keeps one place, that of the call that it made last. A thread runs on until its next call, so its own place is
    what was kept after its own last event. That never changes, so it is read once for each event."""

    def __init__(self, engine):
        self.engine, self.kept, self.at, self.standings = engine, {}, None, {}

    def standing(self, node):
        """How a process is, and the call at which each thread waits, or `ended`, by their numbers."""
        if self.at != self.engine.position:
            nodes = self.engine.names.nodes
            answers = self.engine.debugger.ask_all(["threads " + name for name in nodes])
            self.at, self.standings = self.engine.position, dict(zip(nodes, map(standing_in, answers)))
        return self.standings[node]

    def how(self, node, thread):
        """At which call a thread waits, or that it has ended; of a process that does not run any more how that ended."""
        state, threads = self.standing(node)
        return threads.get(thread, "ended" if state == "running" else state)

    def last_thread(self, node):
        """The thread that made the last event of a process up to here, or 0."""
        last = self.engine.at_or_before(self.engine.index.of_process[node])
        return self.engine.index.thread_at(last)[1] if last else 0

    def trapped(self, node):
        """The thread in whose run the process trapped, or None."""
        return self.last_thread(node) if self.standing(node)[0].startswith("trapped ") else None

    def keeps_places(self, node):
        return last_call(self.engine.names, node) is not None

    def last_event(self, node, thread):
        """The position of the thread's last event up to here, or 0."""
        return self.engine.at_or_before(self.engine.index.of_thread(node, thread))

    def call_of(self, node, thread):
        """The place at which a thread waits; None where its guest keeps none, before its first call, and once it has ended."""
        how, last = self.standing(node)[1].get(thread, "ended"), self.last_event(node, thread)
        if not last or not self.keeps_places(node) or how in ("ended", "at begin"):
            return None
        if (node, last) not in self.kept:
            self.keep(node)
        address = self.kept.get((node, last))
        return next((call for call in self.engine.names.tables[node].calls if str(call.address) == address), None)

    def keep(self, node):
        """Reads the places of all threads of a process, and goes to their last events where others of it came after."""
        wanted = {self.last_event(node, thread) for thread in self.standing(node)[1]} - {0}
        here = self.engine.at_or_before(self.engine.index.of_process[node])
        lines = ["print " + last_call(self.engine.names, node)]
        if here in wanted and (node, here) not in self.kept:
            self.kept[node, here] = self.engine.ask_each(lines)[0]
        earlier = sorted(position for position in wanted if (node, position) not in self.kept)
        answers = self.engine.ask_each([line for position in earlier for line in ("goto %d" % position, *lines)])
        self.kept.update({(node, position): value for position, value in zip(earlier, answers[1::2])})
        if earlier:
            self.engine.ask_each(["goto %d" % self.engine.position])
