"""Recordings that are stopped at each of their calls on files, by a fault or a kill, and what stands of them, replayed and debugged."""

from common import refused
from groups import NAMES, SUMMARY, TURNS, group, head, shown
from pairs import ping_and_pong, replays, report, words
from sessions import PLACES, session

# The first of the calls that a recording of ping and pong makes read the schedule and two modules; then come those that
# make each log and write its head, and one for each event.
READS, MAKES, HEADS = 3, 4, 6
EVENTS = 8
CALLS = EVENTS + len(TURNS)

# The calls at which thread 0 of each process stands before its first event, and then in turn.
STANDS = (("send 1 64 4", "recv 128 4 32"), ("recv 64 16 32", "send 0 64 4"))


def half(data):
    return data[: len(data) // 2]


def counts_at(call):
    """How many entries each log has where this call fails, which is to write one."""
    turns = TURNS[: call - EVENTS]
    return turns.count(0), turns.count(1)


def entries_at(call):
    """The logs where this call fails, which is to write an entry: of that one half of the bytes stand."""
    cut = []
    for log, count in zip(ping_and_pong(), counts_at(call)):
        part = half(log.next_entry(count)) if log.process == TURNS[call - EVENTS] else b""
        cut.append(log.cut(count, len(part)))
    return cut


def heads_at(call):
    """What the files of the logs hold where this call fails, which comes before the first that writes an entry."""
    if call < HEADS:
        return [b"" if MAKES + p < call else None for p in (0, 1)]
    return [head(p) if HEADS + p < call else half(head(p)) if HEADS + p == call else b"" for p in (0, 1)]


def killed_at(call):
    """What the files of the logs hold if the program is killed before this call."""
    if call < EVENTS:
        return [head(p) if HEADS + p < call else b"" if MAKES + p < call else None for p in (0, 1)]
    return [log.cut(count, 0).spelled() for log, count in zip(ping_and_pong(), counts_at(call))]


def places(given):
    """The positions of a session over the events of these logs, in the order that those of the whole logs have."""
    counts = {log.name: len(log.events) for log in given}
    found, made = ["at 0"], dict.fromkeys((name.decode() for name in NAMES), 0)
    for place in PLACES[1:]:
        event = place.partition(": ")[2]
        name = event.split()[1]
        made[name] += 1
        if made[name] <= counts.get(name, 0):
            found.append("at %d: %s" % (len(found), event))
    return found


def stands(log):
    """The call at which thread 0 of a process stands after its events."""
    made = len(log.events)
    return "begin" if made == 0 else STANDS[log.process][(made - 1) % 2]


def replayed(script, given):
    """These logs are replayed, and a session goes over all their events."""
    replays(script, given)
    reached = places(given)
    last = len(reached) - 1
    rows = [
        ("step 99", reached[last]),
        ("events 1000", *(place[3:] for place in reached[1:])),
        *(("threads " + log.name, log.name + " running", "0 at " + stands(log)) for log in given),
        *(("print @%s.events" % log.name, str(len(log.events))) for log in given),
        ("goto %d" % (last + 1), "? 7 no such position"),
        ("goto %d" % (last // 2), reached[last // 2]),
    ]
    session(script, "debug " + words(given), rows)


def judged(script, given, held):
    """Logs that have no entry: the first that is not there, or begins with no head, is told; or they are replayed."""
    for log in given:
        if held[log.process] != head(log.process):
            absent = "Absent", "friday: absent %s.log" % log.name
            told = refused(log.name + ".log", "1 BadHead") if held[log.process] is not None else absent
            for verb in ("replay ", "debug "):
                script.run(verb + words(given), *told)
            return
    replayed(script, [log.cut(0, 0) for log in given])


def subsets(given):
    """Both logs in either order, and each by itself."""
    return given, given[::-1], given[:1], given[1:]


def each_call(script):
    for call in range(1, CALLS):
        group(script, "ping and pong, and call %d fails" % call)
        script.fail("files", call)
        script.run("record s", "ReadFault" if call <= READS else "WriteFault")
        if call < EVENTS:
            held = heads_at(call)
            shown(script, *held)
            for some in subsets(ping_and_pong()):
                judged(script, some, held)
            continue
        given = entries_at(call)
        shown(script, *(log.spelled() for log in given))
        for some in subsets(given):
            replayed(script, some)


def each_kill(script):
    """A program is killed between two calls: what it leaves is what a recording has after the first of them."""
    for calls in range(CALLS):
        group(script, "ping and pong, killed after %d calls" % calls)
        ended = ("ReadFault" if calls < READS else "WriteFault",) if calls + 1 < CALLS else ("Done", *SUMMARY)
        script.stop(calls, "record s", *ended)
        shown(script, *killed_at(calls + 1))


def known_sizes():
    """The sizes and the report where call 12 fails, as they follow from the lengths of heads and entries."""
    given = entries_at(12)
    assert [len(log.spelled()) for log in given] == [41, 51]
    assert report(given) == (
        "Done",
        "ping: 2 events, running, log whole",
        "pong: 2 events, running, 7 bytes left over",
        "group: 1 sends, 1 receives, 0 unmatched, 0 untagged",
    )


def table(script):
    known_sizes()
    script.title("Recordings that are stopped")
    each_call(script)
    each_kill(script)
