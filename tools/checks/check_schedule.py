#!/usr/bin/env python3
"""Checks that `friday schedule` prints what the logs' entries come to, and that a recording by it makes the logs again: of groups
that are recorded by schedules drawn at random, of such logs that are changed by hand as far as replay accepts them, of
processes that are made up with logs that no recording made, and of the hunts under examples/.

check_schedule.py [--groups N] [--made N] [--seed N] [--limits] [PROGRAM]
                (40 of each, the program that answers ./friday, if none is given)

With --limits schedules of as many events and of as many bytes as there may be are made too, and with one more, which takes
many minutes where the program is not proved.
"""

import argparse
import itertools
import os
import random
import shutil
import subprocess
import tempfile
from dataclasses import replace

from tools_path import TOP  # before the modules of the tools, which it lets be found
from asking.program import program_of
from asking.report import replayed
from check_shown import GUESTS, called, recorded
from logs.format import Log, read_log, spelled, spelled_head
from made_up import Process, Program, drawn_program, is_tagged
from schedule_of import schedule_of

EXAMPLES = os.path.join(TOP, "examples")
LATEST = 2
# One of the guests computes for long and asks the world nothing.
QUICK = [guest for guest in GUESTS if not guest.endswith("checksum.wasm")]


def write(path, data):
    with open(path, "wb") as file:
        file.write(data if isinstance(data, bytes) else data.encode("ascii"))


def read(path):
    with open(path, "rb") as file:
        return file.read()


def words_of(pairs):
    return [word for module, log in pairs for word in (module, log.name + ".log")]


def put(folder, pairs):
    """Writes the logs of a group."""
    for _, log in pairs:
        write(os.path.join(folder, log.name + ".log"), spelled(log))


def refused(program, folder, *words):
    """What is printed where a call is refused."""
    done = subprocess.run([program, *words], cwd=folder, stdin=subprocess.DEVNULL, stdout=subprocess.PIPE, text=True, timeout=600)
    assert done.returncode == 3, (words, done)
    return done.stdout


def check_subsets(program, draw, folder, pairs):
    """Logs that are not all of the group are refused, with the first one's name."""
    for size in range(1, len(pairs)):
        for chosen in itertools.combinations(pairs, size):
            chosen = draw.sample(chosen, size)
            told = refused(program, folder, "schedule", *words_of(chosen))
            assert told == "friday: refused %s.log: 7 Incomplete\n" % chosen[0][1].name, told


def check_back(program, draw, folder, pairs):
    """The logs in this folder come to the schedule that their entries make; in another one, which has the modules and the
    schedule alone, its recording comes to the logs again, of which the schedule is the same. Gives how each process ended."""
    before = sorted(os.listdir(folder))
    text = called(program, folder, "schedule", *words_of(draw.sample(pairs, len(pairs))))
    assert text == schedule_of(pairs), "another schedule than the entries make"
    assert sorted(os.listdir(folder)) == before
    with tempfile.TemporaryDirectory() as there:
        for module in {module for module, _ in pairs}:
            os.makedirs(os.path.dirname(os.path.join(there, module)), exist_ok=True)
            shutil.copy(os.path.join(folder, module), os.path.join(there, module))
        write(os.path.join(there, "schedule"), text)
        summary = called(program, there, "record", "schedule").splitlines()
        for _, log in pairs:
            wanted = spelled(replace(log, version=LATEST))
            assert read(os.path.join(there, log.name + ".log")) == wanted, "other logs than the schedule was made of"
        assert called(program, there, "schedule", *words_of(pairs)) == text
        results = replayed(program, [os.path.join(folder, word) for word in words_of(pairs)])
    wanted = ["%s: %d events, %s" % (log.name, len(log.entries), results[log.name].end) for _, log in sorted(pairs, key=process_of)]
    items = len(text.splitlines()) - 1 - len(pairs)
    assert summary == [*wanted, "items: %d acted, 0 idle" % items], summary
    assert all(result.verdict == "log whole" for result in results.values())
    return {name: result.end for name, result in results.items()}


def count_of(pairs):
    return sum(len(log.entries) for _, log in pairs)


def process_of(pair):
    return pair[1].process


def in_versions(draw, pairs):
    """The same logs, each in a version that is drawn."""
    return [(module, replace(log, version=draw.choice((1, 2)))) for module, log in pairs]


# ---- logs that were recorded, and such logs that are changed


def other_entry(draw, log, entry):
    """The entry with another answer, another signal or another tag, where it has one of these; replay may accept it or not."""
    if draw.random() < 0.3:
        return replace(entry, signal=draw.randint(0, 31))
    if entry.call.result == "l":
        return replace(entry, reply=entry.reply + draw.choice((-1, 1, 1000)))
    if entry.call.name == "random" and entry.reply > 0:
        return replace(entry, taken=bytes(entry.reply))
    if entry.call.name == "try_recv" and draw.random() < 0.3:
        return replace(entry, reply=-2, taken=b"", tag=None)
    if entry.call.has_tag and entry.reply >= 0:
        kind = draw.choice(("tag", "none", "bytes"))
        if kind == "bytes":
            return replace(entry, taken=bytes(draw.randrange(256) for _ in entry.taken))
        if kind == "none" and not is_tagged(entry.taken, log.processes):
            return replace(entry, tag=None)
        return replace(entry, tag=(draw.randrange(log.processes), draw.choice((1, 3, entry.clock, 2**62))))
    return entry


def with_clocks(entries):
    """The entries with the clocks that they then have."""
    made, clock = [], 0
    for entry in entries:
        clock = 1 + max(clock, entry.tag[1] if entry.tag else 0)
        made.append(replace(entry, clock=clock))
    return made


def changed(draw, log):
    entries = list(log.entries)
    for at in draw.sample(range(len(entries)), min(3, len(entries))):
        entries[at] = other_entry(draw, log, entries[at])
    return replace(log, entries=with_clocks(entries))


def accepted(program, folder, pairs):
    """The group with the entries that replay accepts."""
    put(folder, pairs)
    results = replayed(program, [os.path.join(folder, word) for word in words_of(pairs)])
    return [(module, replace(log, entries=log.entries[: results[log.name].accepted])) for module, log in pairs]


def check_recorded(program, draw):
    """A group that is recorded, and then one that is changed. Gives how many events both have."""
    with tempfile.TemporaryDirectory() as folder:
        names, modules, _ = recorded(program, draw, folder, QUICK)
        pairs = [(module, read_log(os.path.join(folder, name + ".log"))) for name, module in zip(names, modules)]
        for _, log in pairs:
            assert spelled(log) == read(os.path.join(folder, log.name + ".log"))
        check_subsets(program, draw, folder, pairs)
        check_back(program, draw, folder, pairs)
        others = in_versions(draw, accepted(program, folder, [(module, changed(draw, log)) for module, log in pairs]))
        put(folder, others)
        check_back(program, draw, folder, others)
        return count_of(pairs), count_of(others)


# ---- processes that are made up


def made(draw):
    """A group of processes that are made up: pairs, the modules by their files, and how each process ends."""
    count = draw.choice((1, 2, 2, 3, 3, 4, 16)) if draw.random() < 0.5 else draw.randint(1, 3)
    names = draw.sample(["%s%s" % (letter, "_9" * length) for letter in "abcdefgh" for length in (0, 3, 15)], count)
    pairs, modules, ends = [], {}, {}
    for number, name in enumerate(names):
        code = drawn_program(draw)
        process = Process(draw, code, number, count)
        process.go(draw.choice((0, 3, 40, 40)))
        file = draw.choice(("%s.wasm", "in/%s", "#%s", "%s" + "~" * 200)) % name
        modules[file], ends[name] = code.module(), process.end or "running"
        pairs.append((file, Log(count, number, name, process.entries, draw.choice((1, 2)))))
    return pairs, modules, ends


def put_modules(folder, modules):
    for file, module in modules.items():
        os.makedirs(os.path.dirname(os.path.join(folder, file)), exist_ok=True)
        write(os.path.join(folder, file), module)


def check_made(program, draw):
    pairs, modules, ends = made(draw)
    with tempfile.TemporaryDirectory() as folder:
        put_modules(folder, modules)
        put(folder, pairs)
        if len(pairs) < 5:
            check_subsets(program, draw, folder, pairs)
        assert check_back(program, draw, folder, pairs) == ends
        return count_of(pairs)


# ---- the hunts


HUNTS = (
    ("lost_update", "schedule", {"../bank/bank.wasm": "bank/bank.wasm"}),
    ("register", "failing", {"register.wasm": "register/register.wasm"}),
    ("election", "failing", {"election.wasm": "election/election.wasm"}),
    ("bank", "failing", {"bank.wasm": "bank/bank.wasm"}),
    ("enet", "failing", {"faulty.wasm": "enet/faulty.wasm"}),
)


def check_hunt(program, hunt, schedule, modules):
    """The logs of a hunt come to a schedule, and that to the logs; a session over them shows the fault."""
    with tempfile.TemporaryDirectory() as room:
        folder = os.path.join(room, hunt)
        os.mkdir(folder)
        (module, file), = modules.items()
        os.makedirs(os.path.dirname(os.path.join(folder, module)), exist_ok=True)
        shutil.copy(os.path.join(EXAMPLES, file), os.path.join(folder, module))
        shutil.copy(os.path.join(EXAMPLES, hunt, schedule), os.path.join(folder, "first"))
        called(program, folder, "record", "first")
        names = [line.split()[1] for line in read(os.path.join(folder, "first")).decode().splitlines() if line.startswith("process ")]
        pairs = [(module, read_log(os.path.join(folder, name + ".log"))) for name in names]
        write(os.path.join(folder, "second"), called(program, folder, "schedule", *words_of(pairs)))
        for name in names:
            os.rename(os.path.join(folder, name + ".log"), os.path.join(folder, name + ".first"))
        called(program, folder, "record", "second")
        for name in names:
            assert read(os.path.join(folder, name + ".log")) == read(os.path.join(folder, name + ".first")), (hunt, name)
        asked = read(os.path.join(EXAMPLES, hunt, "debug")).decode()
        answers = called(program, folder, "debug", *words_of(pairs), typed=asked)
        assert answers == read(os.path.join(EXAMPLES, hunt, "answers")).decode(), hunt
        return count_of(pairs)


# ---- as much as a schedule may have


MOST_EVENTS, MOST_TEXT = 1_000_000, 16_777_216
HEAD = Log(1, 0, "a", [])
# The event of a process that begins, and one of a process that yields, after another one: six bytes each.
BEGIN, YIELD = bytes.fromhex("050100000000"), bytes.fromhex("0501000c0000")


def alone(folder, module, code, log):
    write(os.path.join(folder, module), code.module())
    write(os.path.join(folder, "a.log"), log)


def check_most_events(program, folder):
    """A million events make a schedule, and one more makes none."""
    log = spelled_head(HEAD) + BEGIN + YIELD * MOST_EVENTS
    alone(folder, "a.wasm", Program([("yield", ())], [], again=True), log)
    assert refused(program, folder, "schedule", "a.wasm", "a.log") == "friday: refused a.log: 10 TooManyEvents\n"
    write(os.path.join(folder, "a.log"), log[: -len(YIELD)])
    text = called(program, folder, "schedule", "a.wasm", "a.log")
    assert text == "friday 1\nprocess a a.wasm\n" + "run 0 0\n" * MOST_EVENTS
    write(os.path.join(folder, "schedule"), text)
    os.remove(os.path.join(folder, "a.log"))
    called(program, folder, "record", "schedule")
    assert read(os.path.join(folder, "a.log")) == log[: -len(YIELD)]


def drawn(count):
    """A process that draws many random bytes, and so many at last."""
    code = Program([("random", (0, 60000))] * 139 + [("random", (0, count))], [])
    process = Process(random.Random(0), code, 0, 1)
    process.go(1000)
    return code, replace(HEAD, entries=process.entries)


def check_most_bytes(program, folder):
    """As many bytes as there may be make a schedule, and one more makes none."""
    least = len(schedule_of([("a.wasm", drawn(0)[1])]))
    # Bytes are two digits each, and none are one sign.
    code, log = drawn((MOST_TEXT - least) // 2)
    alone(folder, "x", code, spelled(log))
    name = "a" * (1 + MOST_TEXT - len(schedule_of([("a", log)])))
    for module in (name, name + "a"):
        os.replace(os.path.join(folder, "x"), os.path.join(folder, module))
        if module == name:
            text = called(program, folder, "schedule", module, "a.log")
            assert len(text) == MOST_TEXT and text == schedule_of([(module, log)])
            write(os.path.join(folder, "schedule"), text)
            os.rename(os.path.join(folder, "a.log"), os.path.join(folder, "first"))
            called(program, folder, "record", "schedule")
            assert read(os.path.join(folder, "a.log")) == read(os.path.join(folder, "first"))
            os.rename(os.path.join(folder, module), os.path.join(folder, "x"))
        else:
            assert refused(program, folder, "schedule", module, "a.log") == "friday: refused a.log: 11 TooLong\n"


def main():
    parser = argparse.ArgumentParser(description=__doc__, formatter_class=argparse.RawDescriptionHelpFormatter, allow_abbrev=False)
    parser.add_argument("--groups", type=int, default=40, help="how many groups are recorded, and changed")
    parser.add_argument("--made", type=int, default=40, help="how many groups are made up")
    parser.add_argument("--seed", type=int, default=1, help="the seed of the first one")
    parser.add_argument("--limits", action="store_true", help="as many events and bytes as there may be")
    parser.add_argument("program", nargs="?", help="the program friday, if not the one that answers ./friday")
    chosen = parser.parse_args()
    program = os.path.abspath(program_of(chosen.program))
    check_all(program, chosen)


def seeded(check, program, first, count):
    """The check by each of these seeds, which is told where it fails."""
    for seed in range(first, first + count):
        try:
            yield check(program, random.Random(seed))
        except AssertionError as error:
            raise AssertionError("%s, seed %d" % (check.__name__, seed)) from error


def check_all(program, chosen):
    both = list(seeded(check_recorded, program, chosen.seed, chosen.groups))
    events, others = (sum(each[at] for each in both) for at in (0, 1))
    print("%d recorded groups of %d events come back, and changed ones of %d" % (len(both), events, others), flush=True)
    events = list(seeded(check_made, program, chosen.seed, chosen.made))
    print("%d groups of %d events that are made up come back" % (len(events), sum(events)), flush=True)
    print("%d hunts of %d events come back" % (len(HUNTS), sum(check_hunt(program, *hunt) for hunt in HUNTS)), flush=True)
    if chosen.limits:
        for check in (check_most_bytes, check_most_events):
            with tempfile.TemporaryDirectory() as folder:
                check(program, folder)
        print("as many bytes and as many events as there may be come back")


if __name__ == "__main__":
    main()
