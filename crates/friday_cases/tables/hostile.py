"""Sixteen logs of one group with hostile bytes behind their heads."""

import logs, pairs
from images import memory
from logs import entry
from pairs import BEGIN, Log, echoes, taken
from script import digits

HI = b"hi"
MOST = 2**64 - 1
LATE = echoes(((0, 2**62), HI))


def long_receipt(version):
    """A receipt that says it took as many bytes as a number of 32 bits can say."""
    body = logs.body(taken(2, HI, None), BEGIN.clock, version)
    behind = HI + b"\0"
    front = body[: -len(logs.number(len(HI), 4, version) + behind)]
    return logs.counted(front + logs.number(2**32 - 1, 4, version) + behind, version)


# The events that are accepted, the entries behind them, and what is said of these.
ROWS = (
    ([], [entry(MOST, "begin"), BEGIN], "diverged at 1: 8 OtherClock"),
    ([], [entry(0, "begin")] * 5, "diverged at 1: 8 OtherClock"),
    ([], [entry(1, "begin", thread=65535, signal=255)], "diverged at 1: 2 NoThread"),
    ([BEGIN], [taken(0, HI, (0, MOST))], "diverged at 2: 6 OtherReply"),
    ([BEGIN], [taken(2**62 + 2, HI, (0, 2**62 + 1))], "diverged at 2: 6 OtherReply"),
    ([BEGIN], [taken(3, HI, (16, 2))], "diverged at 2: 6 OtherReply"),
    ([BEGIN], [taken(3, HI, (2**32 - 1, 2))], "diverged at 2: 6 OtherReply"),
    ([BEGIN], [taken(2, HI, (0, 0))], "diverged at 2: 6 OtherReply"),
    ([BEGIN], [taken(2, bytes(17), None)], "diverged at 2: 6 OtherReply"),
    ([BEGIN], [taken(MOST, HI, (15, 2**62))], "diverged at 2: 8 OtherClock"),
    (LATE[:2], [entry(MOST, "send", (0, 64, 2), 2, HI)], "diverged at 3: 8 OtherClock"),
    (LATE, [entry(MOST, "recv", (MOST, MOST, MOST), MOST, tag=(2**32 - 1, MOST))], "diverged at 4: 4 OtherArguments"),
)


def rests(version):
    """The events that are accepted, and bytes behind them that are no entry."""
    return ([], b""), ([], b"\xff" * 1000), ([], bytes(400)), ([BEGIN], long_receipt(version))


def log(process, events, more=(), rest=b"", verdict="log whole", version=1):
    return Log(16, process, "p%d" % process, events, more, rest, verdict=verdict, version=version)


def hostile(versions):
    """Sixteen logs, of these versions."""
    made = [log(p, events, more, verdict=verdict, version=version) for p, (version, (events, more, verdict)) in enumerate(zip(versions, ROWS))]
    for p in range(len(ROWS), 16):
        events, rest = rests(versions[p])[p - len(ROWS)]
        verdict = "%d bytes left over" % len(rest) if rest else "log whole"
        made.append(log(p, events, (), rest, verdict, versions[p]))
    return made


def sixteen(script, name, versions):
    given = hostile(versions)
    pairs.begin(script, "sixteen logs of %s with hostile bytes, together and each by itself" % name, given)
    for some in (given, given[::-1], given[8:] + given[:8]):
        pairs.replays(script, some)
    for each in given:
        pairs.replays(script, (each,))
    pairs.replays(script, given, "--images ")
    script.show("p10.mem", memory(1, (64, HI)))
    script.show("p15.mem", memory(1))
    script.show("p15.out", b"")
    line = "replay " + pairs.words(given)
    for more, reason in (("p0", "3 SameProcess"), ("p15", "3 SameProcess"), ("q", "3 SameProcess"), ("r", "2 OtherGroup")):
        script.file("q.log", digits(logs.head(name=b"q", count=16, process=9)))
        script.file("r.log", digits(logs.head(name=b"r", count=1)))
        script.run("%s pong.wasm %s.log" % (line, more), "Refused", "friday: refused %s.log: %s" % (more, reason))


def table(script):
    script.title("Hostile logs of one group")
    for name, versions in (("version 1", [1] * 16), ("version 2", [2] * 16), ("both versions", [1, 2] * 8)):
        sixteen(script, name, versions)
