"""Two calls: the second shows what the first recorded, and is not made if the first did not do its work."""

from itertools import permutations

import groups, images
from debugger import FIRST
from pairs import ping_and_pong, put, report, words
from script import USAGE, text
from sessions import PAIRS, READ, answers, lines_of

RECORD, REPLAY = "record s", "replay ping.wasm ping.log pong.wasm pong.log"


def shown(script):
    """Every choice of the recorded logs, in every order, and a session over them. Older files stand in the place of the images."""
    given = ping_and_pong()
    for some in (*permutations(given), *permutations(given, 1)):
        images.recording(script, "recorded with images and replayed: %s" % " and ".join(log.name for log in some))
        status, *lines = report(some)
        script.both(RECORD + " --images", "replay --images " + words(some), status, *groups.SUMMARY, *lines)
        groups.shown(script, *(log.spelled() for log in given))
        for log, memory in zip(given, (images.PING, images.PONG)):
            images.shown(script, log.name, memory, b"")
    groups.group(script, "recorded and debugged")
    script.input(READ, lines_of(FIRST))
    script.both(RECORD, PAIRS, "Done", *groups.SUMMARY, *answers(FIRST))
    script.both(RECORD, PAIRS.replace("debug", "streams"), "Done", *groups.SUMMARY, "streams: 0, 0 odd, 0 foreign")


def second(script):
    """The second call ends as it does by itself."""
    groups.group(script, "a second call that is refused, is no command, and cannot be written")
    for line, status, *said in (
        ("replay ping.wasm none.log", "Absent", "friday: absent none.log"),
        ("replay ping.wasm ping.log ping.wasm ping.log", "Refused", "friday: refused ping.log: 3 SameProcess"),
        ("replay ping.wasm", "Usage", USAGE),
        ("''", "Usage", USAGE),
    ):
        script.both(RECORD, line, status, *groups.SUMMARY, *said)
    script.fail("output", 2)
    script.both(RECORD, REPLAY, "WriteFault", *groups.SUMMARY)


def first(script):
    """There is no second call then: what is left in the folder is not shown, and nothing is made of it."""
    given = ping, pong = ping_and_pong()
    late = pong.changed(2, groups.sent(4, 0, b"\2\0\0\0"), "5 OtherBytes")
    script.case("a first call that does not do its work")
    for name in ("ping", "pong"):
        script.file(name + ".wasm", script.kept(name))
    put(script, (ping, late))
    script.file("s", text(groups.SCHEDULE + "run 2 0\n"))
    script.both(REPLAY, RECORD, *first_report((ping, late)))
    for line, status, said in (
        ("record none", "Absent", "absent none"),
        ("record s", "Refused", "refused s: line 17 BadLine"),
    ):
        script.both(line, "replay --images " + words(given), "first " + status, "friday: " + said)
    script.both("record", REPLAY, "first Usage", USAGE)
    script.fail("output", 1)
    script.both("drill 1", REPLAY, "first WriteFault")
    groups.shown(script, ping.spelled(), late.spelled())
    for log in given:
        images.shown(script, log.name, None, None)


def first_report(given):
    status, *lines = report(given)
    return "first " + status, *lines


def table(script):
    script.title("Two calls")
    for part in (shown, second, first):
        part(script)
