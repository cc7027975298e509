"""Files that would be made in the place of one that was read, by a recording and by a replay. Those of a cut are in cuts.py."""

from common import FRONT, refused, summary
from cuts import OVER_INPUT, PAIR
from modules import LEAST, start
from pair_refusals import FAR
from pairs import ping_and_pong, put, report
from schedules_of_logs import kept, modules
from script import digits, text

SCHEDULE = FRONT + "run 0 0\n"


def recordings(script):
    """Only the schedule can have such a name: no module's name in a schedule ends so."""
    script.case("schedules in the places of files that their recordings would make")
    script.file("a.wasm", digits(LEAST))
    for name in ("a.log", "a.mem", "a.out", "b.log"):
        script.file(name, text(SCHEDULE))
    script.run("record a.log", *refused("a.log", OVER_INPUT))
    for name in ("a.log", "a.mem", "a.out"):
        script.run("record --images " + name, *refused(name, OVER_INPUT))
    for name in ("a.log", "a.mem", "a.out"):
        script.show(name, SCHEDULE.encode())
    for name in ("b.log", "a.mem", "a.out"):
        script.run("record " + name, "Done", *summary(1, "finished", 1, 0))
    script.show("a.mem", SCHEDULE.encode())


def order(script):
    """The schedule and its modules are refused before, and a process that does not begin after."""
    script.case("other refusals of a schedule in the place of the log that would be made")
    script.file("a.log", text(SCHEDULE))
    script.run("record a.log", "Absent", "friday: absent a.wasm")
    script.file("a.wasm", digits(b"no module"))
    script.run("record a.log", *refused("a.wasm", "1 Malformed"))
    script.file("a.wasm", digits(start("", FAR)))
    script.run("record a.log", *refused("a.log", OVER_INPUT))
    script.file("s", text(SCHEDULE))
    script.run("record s", *refused("a.wasm", "7 BadSegment"))
    script.file("a.log", text(SCHEDULE + "run 1 0\n"))
    script.run("record a.log", *refused("a.log", "line 4 BadLine"))


def replays(script):
    """The first image that would be made in the place of a file of the pairs is refused, in the order in which images are made."""
    given = ping_and_pong()
    script.case("modules and logs in the places of images")
    modules(script, kept(script, PAIR))
    put(script, given)
    for name in PAIR:
        script.file(name + ".mem", script.kept(name))
    for log in given:
        script.file(log.name + ".out", digits(log.spelled()))
    for line, clash in (
        ("ping.mem ping.log pong.wasm pong.log", "ping.mem"),
        ("ping.wasm ping.log pong.mem pong.log", "pong.mem"),
        ("ping.wasm ping.out pong.wasm pong.log", "ping.out"),
        ("pong.mem pong.out ping.wasm ping.out", "ping.out"),
        ("pong.mem pong.out ping.mem ping.out", "ping.mem"),
        ("pong.wasm pong.out", "pong.out"),
    ):
        script.run("replay --images " + line, *refused(clash, OVER_INPUT))
    for name in PAIR:
        script.show(name + ".mem", script.known[name])
    script.run("replay ping.mem ping.out pong.mem pong.out", *report(given))
    # The image of a process that is not given is not made.
    script.run("replay --images pong.wasm pong.log", *report(given[1:]))
    script.show("ping.mem", script.known["ping"])
    script.show("ping.out", given[0].spelled())


def table(script):
    script.title("Files that would be made in the place of one that was read")
    for part in (recordings, order, replays):
        part(script)
