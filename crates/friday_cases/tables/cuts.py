"""Logs that are cut to what one event needs."""

from itertools import combinations, permutations, product

import logs
from common import refused
from groups import number
from many_datagrams import RING, ring
from modules import LEAST
from pairs import BEGIN, Log, echoes, ping_and_pong, put, replays, report, sent, three, words
from script import digits, times
from schedules_of_logs import in_turn, kept, modules
from straight import note, put_modules, send, straight, take

PAIR = ("ping", "pong")
HI = b"hi"
OVER_INPUT = "14 OverInput"

# ---- what an event needs


def named(given, tag):
    """The process and the number of the accepted event that a tag names, where a given log has it."""
    return [(log.process, n) for log in given for n, event in enumerate(log.events, 1) if (log.process, event.clock) == tag]


def past(given, process, event):
    """How many events of each log this one needs: those before it in its process, what the tags that they took name, and so on."""
    of, lengths, asked = {log.process: log for log in given}, {log.process: 0 for log in given}, [(process, event)]
    for p, n in asked:
        lengths[p] = max(lengths[p], n)
        asked += [place for taker in of[p].events[:n] for place in named(given, taker.tag) if lengths[place[0]] < place[1]]
    return [lengths[log.process] for log in in_turn(given)]


def front(log, length):
    """The log of the first events, which is the file that is made."""
    is_all = length == len(log.events)
    end = log.end if is_all else "running"
    return log.but(events=log.events[:length], more=(), rest=b"", version=2, end=end, verdict="log whole")


def fronts(given, process, event):
    return [front(log, length) for log, length in zip(in_turn(given), past(given, process, event))]


def cut_words(given):
    """The words of the pairs whose logs are those that were made."""
    return " ".join("%s.wasm %s.cut" % (log.module, log.name) for log in given)


def text_of(given, made):
    return ["%s: %d of %d events" % (log.name, len(cut.events), len(log.events)) for log, cut in zip(in_turn(given), made)]


def cut(script, given, process, event, lengths=None):
    """The call, its text and the files; lengths in order of the processes are what is known of it in advance."""
    made = fronts(given, process, event)
    assert lengths in (None, [len(log.events) for log in made]), (lengths, made)
    script.run("cut %d %d %s" % (process, event, words(given)), "Done", *text_of(given, made))
    for log in made:
        script.show(log.name + ".cut", log.spelled())
    return made


def replayed(script, made):
    """The logs that were made replay together, and are cut to themselves."""
    script.run("replay " + cut_words(made), *report(made))


def cut_again(script, made, process, event):
    """The files that were made come to themselves, under other names."""
    for log in made:
        script.file(log.name + ".again", digits(log.spelled()))
    again = " ".join("%s.wasm %s.again" % (log.module, log.name) for log in made)
    script.run("cut %d %d %s" % (process, event, again), "Done", *text_of(made, made))
    for log in made:
        script.show(log.name + ".cut", log.spelled())


def begin(script, name, given, pieces):
    script.case(name)
    modules(script, pieces)
    put(script, given)


def unchanged(script, given):
    for log in given:
        script.show(log.name + ".log", log.spelled())


def each_event(script, given):
    for log in given:
        for event in range(1, len(log.events) + 1):
            cut(script, given, log.process, event)


# ---- ping and pong


def worked(script):
    """`pong` is restored to its second event, for which `ping` sent once; `ping` needs of `pong` the echo that overtook the
    other one."""
    given = ping_and_pong()
    begin(script, "ping and pong, cut to the first datagram that pong took, and to the first that ping took", given, kept(script, PAIR))
    made = cut(script, given, 1, 2, [2, 2])
    assert [len(log.spelled()) for log in made] == [41, 44]
    assert report(made)[1:] == ("ping: 2 events, running, log whole", "pong: 2 events, running, log whole", "group: 1 sends, 1 receives, 0 unmatched, 0 untagged")
    replayed(script, made)
    cut_again(script, made, 1, 2)
    replayed(script, cut(script, given, 0, 3, [3, 5]))
    script.run("cut 1 6 " + words(given), *refused("pong.log", "13 NoEvent"))
    script.run("cut 2 1 " + words(given), *refused("ping.log", "12 NoProcess"))
    unchanged(script, given)


def each_of_pair(script):
    given = ping_and_pong()
    begin(script, "ping and pong, cut to each of their events, in both orders of the words", given, kept(script, PAIR))
    each_event(script, given)
    each_event(script, given[::-1])
    unchanged(script, given)


def written_words(script):
    given = ping_and_pong()
    begin(script, "numbers with zeros in front", given, kept(script, PAIR))
    for line in ("01 2", "1 02", "0" * 40 + "1 " + "0" * 40 + "2"):
        script.run("cut %s %s" % (line, words(given)), "Done", *text_of(given, fronts(given, 1, 2)))


def versions(script):
    """What is made does not depend on the versions of the logs."""
    given = ping_and_pong()
    script.case("ping and pong, cut of logs of both versions")
    modules(script, kept(script, PAIR))
    for each in product((1, 2), repeat=2):
        some = [log.but(version=version) for log, version in zip(given, each)]
        put(script, some)
        cut(script, some, 1, 2, [2, 2])
        cut(script, some, 0, 5, [5, 5])
        unchanged(script, some)


def not_given(script):
    """A log that is not given asks for nothing, and nothing is asked of it."""
    given = ping_and_pong()
    script.case("one log of two, whose events took datagrams of the other")
    modules(script, kept(script, PAIR))
    for log, event in ((given[0], 3), (given[0], 6), (given[1], 2), (given[1], 5)):
        put(script, (log,))
        made = cut(script, (log,), log.process, event, [event])
        replayed(script, made)
    script.case("logs of three processes and of some of them, in any order")
    modules(script, kept(script, ("pong",)))
    put(script, three())
    for count in (1, 2, 3):
        for some in combinations(three(), count):
            for log in some:
                cut(script, some, log.process, len(log.events))
    for some in permutations(three()):
        script.run("cut 2 7 " + words(some), "Done", *text_of(some, fronts(some, 2, 7)))


# ---- groups that show one thing


def chain(script):
    """The last process took what the second one sent, which took what the first one sent: one event of each comes after that, with
    a lesser clock than the event of the last, and is not needed."""
    given = (
        straight(3, 0, "a", note(1), send(1, HI), note(2)),
        straight(3, 1, "b", note(5), take((0, 3), HI), send(2, HI), note(6)),
        straight(3, 2, "c", take((1, 5), HI), note(7), note(8)),
    )
    assert [event.clock for log in given for event in log.events] == [1, 2, 3, 4, 1, 2, 4, 5, 6, 1, 6, 7, 8]
    script.case("a chain of three processes, and an event with a lesser clock that nobody needs")
    put_modules(script, given)
    put(script, given)
    for process, event, lengths in ((2, 2, [3, 4, 2]), (2, 4, [3, 4, 4]), (2, 1, [0, 0, 1]), (1, 3, [3, 3, 0]), (1, 5, [3, 5, 0]), (0, 4, [4, 0, 0])):
        made = cut(script, given, process, event, lengths)
        replayed(script, made)
        cut_again(script, made, process, event)
    # The second process is not there to ask for the first one.
    cut(script, given[::2], 2, 4, [0, 4])
    unchanged(script, given)


def back_and_forth(script):
    """What an event needs of another process needs later events of its own process than those that took something."""
    given = (
        straight(2, 0, "a", send(1, b"1"), note(1), send(1, b"2"), take((1, 6), b"4"), note(2)),
        straight(2, 1, "b", take((0, 4), b"2"), send(0, b"4"), take((0, 2), b"1")),
    )
    script.case("two processes of which each needs the other one")
    put_modules(script, given)
    put(script, given)
    for process, event, lengths in ((0, 5, [5, 3]), (0, 4, [4, 0]), (1, 2, [4, 2]), (1, 4, [4, 4]), (0, 6, [6, 3])):
        replayed(script, cut(script, given, process, event, lengths))


def tags_of_any_event(script):
    """A tag may name an event that sent nothing, or that sent something to another process: it is needed all the same."""
    given = (
        straight(3, 0, "a", note(1), send(2, HI), take(None, HI), note(2)),
        straight(3, 1, "b", take((0, 2), HI), take((0, 3), HI), take((0, 4), HI), take((0, 1), b""), take((0, 5), HI)),
        straight(3, 2, "c", note(3), take((2, 2), HI), take((2, 1), HI), take((1, 1), b"")),
    )
    script.case("tags that name a note, a send to another process, a receive, a begin and an event of one's own")
    put_modules(script, given)
    put(script, given)
    rows = ((1, 2, [2, 2, 0]), (1, 3, [3, 3, 0]), (1, 4, [4, 4, 0]), (1, 5, [4, 5, 0]), (1, 6, [5, 6, 0]), (2, 4, [0, 0, 4]), (2, 5, [0, 1, 5]))
    for process, event, lengths in rows:
        replayed(script, cut(script, given, process, event, lengths))


def forged(script):
    """Tags that name no event: of a clock that the process passed over, of one that it did not come to, and the greatest one."""
    given = (
        straight(2, 0, "a", note(1), take((1, 7), b""), note(2)),
        straight(2, 1, "b", take((0, 3), HI), take((0, 7), HI), take((0, 10), HI), take((1, 2**62), HI), take((0, 2**62), HI), take((0, 8), HI), note(4)),
    )
    assert [event.clock for event in given[0].events] == [1, 2, 8, 9]
    script.case("tags that name no event, and one that names one")
    put_modules(script, given)
    put(script, given)
    for event, needed in ((2, 0), (3, 0), (4, 0), (5, 0), (6, 0), (7, 3), (8, 3)):
        made = cut(script, given, 1, event, [needed, event])
    replayed(script, made)
    cut(script, given, 0, 4, [4, 0])


def to_others(p):
    """A process that sends to both others, in order of their numbers, and then takes what they sent to it."""
    others = [q for q in range(3) if q != p]
    takes = [take((q, 2 + p - (p > q)), b"%d" % q) for q in others]
    return straight(3, p, "abc"[p], *(send(q, b"%d" % p) for q in others), *takes, note(p))


def crossed(script):
    """Each of three processes takes what the two others sent to it."""
    given = [to_others(p) for p in range(3)]
    script.case("three processes that send to each other")
    put_modules(script, given)
    put(script, given)
    replays(script, given)
    cut(script, given, 0, 4, [4, 2, 0])
    cut(script, given, 1, 5, [2, 5, 3])
    each_event(script, given)


def diverging(script):
    """A log that diverges is cut among the events before that; a tag that names an entry behind it asks for nothing."""
    ping, pong = ping_and_pong()
    changed = pong.changed(2, sent(4, 0, b"\2\0\0\0"), "5 OtherBytes")
    begin(script, "a log that diverges, cut before that and there", (ping, changed), kept(script, PAIR))
    replays(script, (ping, changed))
    for process, event, lengths in ((1, 2, [2, 2]), (1, 1, [0, 1]), (0, 3, [3, 0]), (0, 6, [6, 0])):
        replayed(script, cut(script, (ping, changed), process, event, lengths))
    script.run("cut 1 3 " + words((ping, changed)), *refused("pong.log", "13 NoEvent"))
    unchanged(script, (ping, changed))
    late = ping.changed(2, logs.entry(8, "recv", (128, 4, 32), 4, number(1), (1, 6)), "8 OtherClock")
    for some in ((late, pong), (late.but(version=1), pong.but(rest=b"\xff" * 5, verdict="5 bytes left over"))):
        begin(script, "a log that diverges where it would have taken something, with a log of version %d" % some[0].version, some, kept(script, PAIR))
        replays(script, some)
        cut(script, some, 0, 2, [2, 0])
        replayed(script, cut(script, some, 1, 5, [2, 5]))
        script.run("cut 0 3 " + words(some), *refused("ping.log", "13 NoEvent"))
    some = ping.cut(4, 7), pong.cut(0, 0)
    begin(script, "a log that ends in an entry, and one without entries", some, kept(script, PAIR))
    replayed(script, cut(script, some, 0, 4, [4, 0]))
    script.run("cut 0 5 " + words(some), *refused("ping.log", "13 NoEvent"))
    script.run("cut 1 1 " + words(some), *refused("pong.log", "13 NoEvent"))


def most_processes(script):
    given = ring()
    begin(script, "sixteen processes, cut to some of their events", given, {"ring": RING})
    for process, event, lengths in (
        (0, 1, [1] + [0] * 15),
        (15, 3, [0] * 15 + [3]),
        (15, 4, [0] * 14 + [3, 4]),
        (0, 6, [6] + [0] * 13 + [3, 5]),
        (0, 8, [8] + [0] * 12 + [3, 5, 7]),
    ):
        made = cut(script, given, process, event, lengths)
    replayed(script, made)
    cut(script, given[::-1], 7, 8)


# ---- the files


def onto_inputs(script):
    """No file is made in the place of one that was read: the first that would be is refused, behind all other refusals."""
    given = ping_and_pong()
    ping, pong = (digits(log.spelled()) for log in given)
    script.case("logs in the places of which the new ones would stand")
    modules(script, kept(script, PAIR))
    script.file("ping.cut", ping)
    script.file("pong.cut", pong)
    put(script, given)
    for line, clash in (
        ("ping.wasm ping.cut pong.wasm pong.cut", "ping.cut"),
        ("pong.wasm pong.cut ping.wasm ping.cut", "ping.cut"),
        ("ping.wasm ping.log pong.wasm pong.cut", "pong.cut"),
        ("ping.wasm ping.cut pong.wasm pong.log", "ping.cut"),
    ):
        script.run("cut 1 2 " + line, *refused(clash, OVER_INPUT))
    script.run("cut 1 6 ping.wasm ping.cut pong.wasm pong.cut", *refused("pong.cut", "13 NoEvent"))
    for log in given:
        script.show(log.name + ".cut", log.spelled())
    script.case("each log in the place of the other one's new one")
    modules(script, kept(script, PAIR))
    script.file("pong.cut", ping)
    script.file("ping.cut", pong)
    script.run("cut 1 2 pong.wasm ping.cut ping.wasm pong.cut", *refused("ping.cut", OVER_INPUT))
    script.case("modules in the places of which the new logs would stand")
    put(script, given)
    for name in PAIR:
        script.file(name + ".wasm", script.kept(name))
        script.file(name + ".cut", script.kept(name))
    script.run("cut 1 2 ping.cut ping.log pong.cut pong.log", *refused("ping.cut", OVER_INPUT))
    script.run("cut 1 2 ping.wasm ping.log pong.cut pong.log", *refused("pong.cut", OVER_INPUT))
    script.run("cut 1 2 pong.cut pong.log ping.cut ping.log", *refused("ping.cut", OVER_INPUT))
    # The log of a process that is not given is not made.
    script.run("cut 1 1 ping.cut pong.log", "Done", "pong: 1 of 1 events")


def old_files(script):
    """Files of these names are replaced, also by shorter ones, and no other is touched."""
    given = ping_and_pong()
    begin(script, "old files of the names that are made", given, kept(script, PAIR))
    for name in PAIR:
        script.file(name + ".cut", times(1000, b"\7"))
    for name in ("cut", "a.cut", ".cut", "ping.cut.log"):
        script.file(name, digits(b"old"))
    cut(script, given, 1, 2, [2, 2])
    cut(script, given, 1, 5, [2, 5])
    cut(script, given, 1, 1, [0, 1])
    for name in ("cut", "a.cut", ".cut", "ping.cut.log"):
        script.show(name, b"old")
    unchanged(script, given)


def under_any_names(script):
    """The files have the names of the processes, whatever the logs are named."""
    longest = "z" * 32
    given = (Log(2, 0, longest, echoes(((1, 3), HI))), Log(2, 1, "_", echoes((None, HI))))
    script.case("logs under any names, of processes with a long name and a short one")
    script.file("pong", script.kept("pong"))
    script.file("0", digits(given[0].spelled()))
    script.file("pong.cut", digits(given[1].spelled()))
    script.run("cut 0 2 pong 0 pong pong.cut", "Done", *text_of(given, fronts(given, 0, 2)))
    for log, length in zip(given, (2, 3)):
        script.show(log.name + ".cut", front(log, length).spelled())
    script.show("pong.cut", given[1].spelled())
    script.run("cut 0 4 pong 0 pong pong.cut", *refused("0", "13 NoEvent"))
    script.run("cut 1 4 pong 0 pong pong.cut", *refused("pong.cut", "13 NoEvent"))


def least_group(script):
    alone = Log(1, 0, "a", [BEGIN], module="least", end="finished")
    script.case("one process with one event")
    script.file("least.wasm", digits(LEAST))
    put(script, (alone,))
    made = cut(script, (alone,), 0, 1, [1])
    replayed(script, made)
    cut_again(script, made, 0, 1)


def table(script):
    script.title("Logs that are cut to what an event needs")
    for part in (worked, each_of_pair, written_words, versions, not_given, chain, back_and_forth, tags_of_any_event, forged, crossed):
        part(script)
    for part in (diverging, most_processes, onto_inputs, old_files, under_any_names, least_group):
        part(script)
