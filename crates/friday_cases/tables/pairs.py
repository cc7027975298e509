"""Logs of one group that are replayed together: all of them, some, cut, changed and made up."""

from copy import copy
from itertools import permutations, product

import groups, logs
from common import counts_line, refused
from logs import entry
from modules import start
from script import digits

# The first event of every process.
BEGIN = entry(1, "begin")
SEND = '(import "liblog" "send" (func $send (param i32 i32 i32) (result i32)))'


def sent(clock, to, data, at=64):
    return entry(clock, "send", (to, at, len(data)), len(data), data)


def taken(clock, data, tag):
    return entry(clock, "recv", (64, 16, 32), len(data), data, tag)


def echoes(*datagrams):
    """The events of `pong`, which takes each of these datagrams, a tag and its bytes, and sends it back."""
    events = [BEGIN]
    for tag, data in datagrams:
        sender, clock = tag or (groups.TO_ALL, 0)
        clock = 1 + max(clock, events[-1].clock)
        events += [taken(clock, data, tag), sent(clock + 1, sender, data)]
    return events


class Log:
    """A process of a group of `count`, with the events that replay accepts, and the entries and bytes behind them."""

    def __init__(self, count, process, name, events, more=(), rest=b"", end="running", verdict="log whole", module="pong", version=logs.LATEST):
        self.count, self.process, self.name, self.module, self.version = count, process, name, module, version
        self.events, self.more, self.rest, self.end, self.verdict = events, more, rest, end, verdict

    def spelled(self):
        whole = logs.held([*self.events, *self.more], self.version, name=self.name.encode(), count=self.count, process=self.process)
        return whole + self.rest

    def but(self, **fields):
        """The same with other fields."""
        other = copy(self)
        vars(other).update(fields)
        return other

    def line(self):
        return "%s: %d events, %s, %s" % (self.name, len(self.events), self.end, self.verdict)

    def next_entry(self, events):
        """The bytes of the entry behind so many of its events."""
        last = self.events[events - 1].clock if events else 0
        return logs.spelled(self.events[events : events + 1], last, self.version)

    def cut(self, events, size):
        """With some of its events, and that many bytes of the next."""
        rest = self.next_entry(events)[:size]
        assert len(rest) == size
        verdict = "%d bytes left over" % size if size else "log whole"
        return self.but(events=self.events[:events], rest=rest, end="running", verdict=verdict)

    def changed(self, events, other, reason):
        """With another entry behind some of its events, and then the further ones."""
        more, verdict = [other, *self.events[events + 1 :]], "diverged at %d: %s" % (events + 1, reason)
        return self.but(events=self.events[:events], more=more, end="running", verdict=verdict)


def group_line(given):
    """What the accepted events of these logs say of datagrams."""
    made = [(log, event) for log in given for event in log.events]
    sends = {
        (log.process, e.clock): e.arguments[0]
        for log, e in made
        if e.call == "send" and e.arguments[0] < log.count and e.reply < 2**31
    }
    takes = [(log.process, e.tag) for log, e in made if e.call in logs.TAGGED and e.reply < 2**31]
    tagged = [(process, tag) for process, tag in takes if tag]
    unmatched = sum(sends.get(tag) != process for process, tag in tagged)
    return counts_line(len(sends), len(tagged), unmatched, len(takes) - len(tagged))


def report(given):
    """The status of their replay, and its text."""
    lines = [log.line() for log in sorted(given, key=lambda log: log.process)]
    diverged = any(log.verdict.startswith("diverged") for log in given)
    return "Diverged" if diverged else "Done", *lines, group_line(given)


def words(given):
    return " ".join("%s.wasm %s.log" % (log.module, log.name) for log in given)


def put(script, given):
    for log in given:
        script.file(log.name + ".log", digits(log.spelled()))


def replays(script, given, option=""):
    script.run("replay " + option + words(given), *report(given))


def begin(script, name, given):
    script.case(name)
    script.file("pong.wasm", script.kept("pong"))
    put(script, given)


def three():
    """Three processes of a group of four: a datagram from outside; a tag that names an event which is no send, one
    that names a send to another process, and one that names none; the tag of a process whose log is not there."""
    hi = b"hi"
    return (
        Log(4, 0, "c", echoes((None, hi), ((1, 4), hi))),
        Log(4, 1, "b", echoes(((0, 2), hi), ((0, 6), hi), ((0, 7), hi))),
        Log(4, 2, "a", echoes(((1, 4), b"\xd7LOG"), ((3, 9), b""), ((2, 2**62), hi))),
    )


def any_logs(script):
    given = three()
    assert group_line(given) == counts_line(7, 7, 5, 1)
    begin(script, "any logs of a group, in any order", given)
    for count in (1, 2, 3):
        for some in permutations(given, count):
            replays(script, some)


def ping_and_pong():
    pings = [
        BEGIN,
        sent(2, 1, groups.number(1)),
        entry(7, "recv", (128, 4, 32), 4, groups.number(1), (1, 6)),
        sent(8, 1, groups.number(2)),
        entry(9, "recv", (128, 4, 32), 4, groups.number(1), (1, 4)),
        sent(10, 1, groups.number(3)),
    ]
    pongs = echoes(((0, 2), groups.number(1)), ((0, 2), groups.number(1)))
    ping, pong = Log(2, 0, "ping", pings, module="ping"), Log(2, 1, "pong", pongs)
    assert (ping.spelled(), pong.spelled()) == (groups.log(0, 6), groups.log(1, 5))
    return ping, pong


def recorded(script):
    """The logs of a recording, together and each alone."""
    ping, pong = ping_and_pong()
    groups.group(script, "ping and pong, recorded and replayed")
    script.run("record s", "Done", *groups.SUMMARY)
    for given, counted in (
        ((ping, pong), (5, 4, 0, 0)),
        ((pong, ping), (5, 4, 0, 0)),
        ((ping,), (3, 2, 2, 0)),
        ((pong,), (2, 2, 2, 0)),
    ):
        assert group_line(given) == counts_line(*counted)
        replays(script, given)
    script.file("a.wasm", script.kept("now"))
    script.file("a.log", digits(logs.log(["now = 5", "note 5"])))
    script.run("replay ping.wasm ping.log a.wasm a.log", *refused("a.log", "2 OtherGroup"))
    script.run("replay ping.wasm ping.log ping.wasm ping.log", *refused("ping.log", "3 SameProcess"))
    put(script, (pong,))
    # The name stands behind the 17 bytes of the mark, three numbers and its length.
    script.set("pong.log", 17, b"ping")
    script.run("replay ping.wasm ping.log pong.wasm pong.log", *refused("pong.log", "4 SameName"))


def others_stay(script):
    """A log that is cut in an entry, or diverges, changes no other log's line."""
    c, b, a = three()
    begin(script, "logs of a group that are cut and changed", (c, b, a))
    cut, empty = b.cut(3, 10), a.cut(0, 0)
    other = a.changed(2, sent(6, 1, b"\xd7LOH"), "5 OtherBytes")
    late = c.changed(3, taken(6, b"hi", (1, 4)), "8 OtherClock")
    for given in ((c, cut, a), (cut, a), (c, b, empty), (c, b, other), (other, cut, c), (late, b, a), (other, cut, late)):
        put(script, given)
        replays(script, given)
    ping, pong = ping_and_pong()
    changed = pong.changed(2, sent(4, 0, b"\2\0\0\0"), "5 OtherBytes")
    assert group_line((ping, changed)) == counts_line(3, 3, 2, 0)
    script.file("ping.wasm", script.kept("ping"))
    put(script, (ping, changed))
    replays(script, (ping, changed))
    replays(script, (changed,))


def versions(script):
    """Logs of both versions in one group, which are the same logs, and one of them beside its other form."""
    given = ping_and_pong()
    script.case("logs of both versions in one group")
    for name in ("ping", "pong"):
        script.file(name + ".wasm", script.kept(name))
    for each in product((1, 2), repeat=2):
        some = [log.but(version=version) for log, version in zip(given, each)]
        put(script, some)
        replays(script, some)
        replays(script, some[::-1])
    ping, pong = (log.but(version=1) for log in given)
    cut, changed = ping.cut(3, 7), pong.changed(2, sent(4, 0, b"\2\0\0\0"), "5 OtherBytes")
    for some in ((cut, given[1]), (given[0], changed), (cut, changed)):
        put(script, some)
        replays(script, some)
    script.file("ping.log", digits(ping.spelled()))
    script.file("other.log", digits(given[0].spelled()))
    for words_given, again in (("ping.wasm ping.log ping.wasm other.log", "other.log"), ("ping.wasm other.log ping.wasm ping.log", "ping.log")):
        script.run("replay " + words_given, *refused(again, "3 SameProcess"))
        script.run("debug " + words_given, *refused(again, "3 SameProcess"))


def outside(script):
    """Sends to oneself and into the group, out of it, and with bad arguments."""
    body = "".join(
        "(drop (call $send (i32.const %d) (i32.const %d) (i32.const %d)))" % row
        for row in ((0, 0, 1), (2, 1, 2), (3, 0, 1), (-1, 0, 1), (1, 65536, 1), (1, 0, 60001), (1, 65536, 0))
    )
    events = [
        BEGIN,
        sent(2, 0, b"\0", 0),
        sent(3, 2, b"\0\0", 1),
        sent(4, 3, b"\0", 0),
        sent(5, groups.TO_ALL, b"\0", 0),
        entry(6, "send", (1, 65536, 1), groups.TO_ALL),
        entry(7, "send", (1, 0, 60001), groups.TO_ALL),
        sent(8, 1, b"", 65536),
    ]
    sender = Log(3, 0, "sender", events, end="finished", module="sender")
    one = Log(3, 1, "one", echoes(((0, 8), b""), ((0, 6), b"\0"), ((0, 3), b"\0\0")))
    two = Log(3, 2, "two", echoes(((0, 3), b"\0\0"), ((0, 4), b"\0"), ((0, 2), b"\0")))
    begin(script, "sends into a group and out of it", (sender, one, two))
    script.file("sender.wasm", digits(start(body, SEND + "(memory 1)")))
    assert group_line((sender, one, two)) == counts_line(9, 6, 4, 0)
    for given in ((two, one, sender), (sender,), (sender, two)):
        replays(script, given)


def table(script):
    script.title("Logs of one group")
    for part in (any_logs, recorded, others_stay, versions, outside):
        part(script)
