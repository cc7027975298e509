"""Why a call was refused: what is wrong, in which file and where in it, why, and what to do."""
from __future__ import annotations

import os
import subprocess
import sys

from bad_line import first_bad, first_too_many
from diverged import why_diverged
from heads import head_of, kind_of_bytes
from looking import MOST_LOG, MOST_MODULE, MOST_SCHEDULE, bytes_of, size_of
from page_rows import PAGE, advice
from words import modules_of

HERE = os.path.dirname(os.path.dirname(os.path.realpath(__file__)))
CHECK_MODULE = os.path.join(HERE, "guests", "check-module")
MOST_LINES = 3
# Reasons of which the page says what to do beyond what is told of the files.
ADVISED = ("OtherGroup", "SameProcess", "SameName", "Incomplete", "TooManyEvents", "TooLong", "Grown")
IMAGES = ".mem", ".out"
MOST_OF = {"MODULE": MOST_MODULE, "LOG": MOST_LOG, "SCHEDULE": MOST_SCHEDULE}
LARGE_INPUT = "input", "TooLarge", ["standard input has more than %d bytes before the session ends" % MOST_SCHEDULE]


def why_refused(again):
    """The lines that explain a refusal."""
    if not again.can_be_asked():
        return ["a file of this call is a pipe or a device, so it is not read again to say why", page()]
    found = find(again)
    if found is None:
        return ["now it is not refused any more: a file has changed since", page()]
    path, reason, *more = found
    told = more[0] if more else explained(again, path, reason)
    # What is told of a file's own bytes or of a number says what to do by itself.
    needs_advice = not told or reason.split()[-1] in ADVISED
    return ["refused %s: %s" % (path, reason), *told, *filter(None, [advice(reason)] if needs_advice else []), page()]


def page():
    return "%s says of each reason what to do" % PAGE


def find(again):
    """The file and the reason, and where these are not asked of the program, the lines about it; or None."""
    name = again.command.name
    if name == "migrate":
        return of_migrate(again.files[0])
    if name == "play":
        return of_play(again)
    if not again.pairs:
        return of_schedule(again)
    found = again.refusal(again.of_pairs("debug"))
    if found is None and name == "replay":
        return over_input(again, [told.name + ending for told in again.report() for ending in IMAGES])
    if found or name in ("replay", "streams"):
        return found
    if name == "cut":
        return of_cut(again)
    if name == "debug":
        return LARGE_INPUT
    return again.refusal(again.words)


def of_migrate(path):
    size = size_of(path)
    if size > MOST_LOG:
        return path, "TooLarge"
    return path, "1 BadHead" if head_of(path) is None else "6 Grown"


def of_play(again):
    """It makes no file, and so is asked again, without its lines: if its schedule is accepted, they were too many."""
    found = again.refusal(again.words)
    if found is None:
        return LARGE_INPUT
    if found[1].endswith("LogFull"):
        return *found, ["the items of the schedule make more events than a log of %d bytes has room for; no file was made" % MOST_LOG]
    return of_schedule(again)


def of_schedule(again):
    """Of `record`, and of any command that takes a schedule. Only `record` makes files."""
    path = again.files[0]
    if size_of(path) > MOST_SCHEDULE:
        return path, "TooLarge"
    data = bytes_of(path, MOST_SCHEDULE) or b""
    bad = first_bad(data)
    if bad:
        number, line, rule = bad
        told = "line %d is `%s`: %s" % (number, line, rule) if line is not None else rule
        kind = kind_of_bytes(path) if number == 1 else ""
        what = ["%s is %s, where a schedule was wanted" % (path, kind)] if kind in ("a log", "a module", "a program of this machine") else [told]
        return path, "line %d BadLine" % number, what
    many = first_too_many(data)
    if many:
        number, line, tries = many
        told = "it makes %d tries, and line %d, `%s`, takes it past 1000000: make N of `run` smaller" % (tries, number, line)
        return path, "TooMany", [told]
    reasons = [(module, again.of_module(module)) for module in dict.fromkeys(modules_of(path))]
    first = [(module, reason) for module, reason in reasons if reason and not reason.startswith("7 ")]
    late = [(module, reason) for module, reason in reasons if reason]
    clash = over_input(again, made_of(again, data)) if again.command.name == "record" and not first else None
    if clash or late:
        return clash or (first or late)[0]
    return path, "item N LogFull", [full_log(data)]


def names_in(data):
    """The names of a schedule's processes."""
    return [line.split()[1].decode() for line in data.split(b"\n") if line.split()[:1] == [b"process"]]


def made_of(again, data):
    """The names of the files that a recording of this schedule makes."""
    endings = (".log", *IMAGES) if "--images" in again.words else (".log",)
    return [name + ending for name in names_in(data) for ending in endings]


def over_input(again, made):
    """The first of the names to be made that the call reads, or None."""
    clash = next((name for name in made if name in again.files), None)
    return clash and (clash, "14 OverInput", [])


def full_log(data):
    """Whose log has no room left, by the files that the recording has made."""
    names = names_in(data)
    sizes = [(size_of(name + ".log") or 0, name) for name in names]
    size, name = max(sizes)
    return "%s.log has %d bytes, and its next event would take it past %d; the number of the item stands in the line on standard output" % (name, size, MOST_LOG)


def of_cut(again):
    """Which of the reasons of `cut` it is: the pairs are accepted."""
    process, number = (int(word) for word in again.words[1:3])
    heads = [head_of(log) for _, log in again.pairs]
    events = {told.name: told.events for told in again.report()}
    counts = ", ".join("%d %s (%d events)" % (head.process, head.name, events.get(head.name, 0)) for head in sorted(heads, key=lambda head: head.process))
    place = next((place for place, head in enumerate(heads) if head.process == process), None)
    if place is None:
        return again.pairs[0][1], "12 NoProcess", ["no log of process %d is given; those that are given: %s" % (process, counts)]
    name = heads[place].name
    if number <= events.get(name, 0):
        return over_input(again, [head.name + ".cut" for head in sorted(heads, key=lambda head: head.process)])
    told = "%s has %d events, so there is no event %d; those that are given: %s" % (name, events.get(name, 0), number, counts)
    return again.pairs[place][1], "13 NoEvent", [told]


# ---- what is told of a file


def explained(again, path, reason):
    """The lines about a file and the reason that the program gave for it."""
    if reason == "TooLarge":
        kind = kind_in(again, path)
        smaller = "; guests/build leaves debug information out" if kind == "MODULE" else ""
        return ["%s has %d bytes, and a %s has at most %d%s" % (path, size_of(path), kind.lower(), MOST_OF[kind], smaller)]
    word = reason.split()[-1]
    if word in OF_LOGS:
        return OF_LOGS[word](again, path)
    return of_module(again, path)


def kind_in(again, path):
    """What the words take the file for."""
    if not again.pairs:
        return "SCHEDULE" if path == again.files[0] and again.command.name != "migrate" else "LOG" if again.command.name == "migrate" else "MODULE"
    return "MODULE" if any(path == module for module, _ in again.pairs) else "LOG"


def exchanged(again, path):
    """That module and log stand in the wrong order, or nothing."""
    for module, log in again.pairs:
        if path in (module, log) and kind_of_bytes(module) == "a log" and kind_of_bytes(log) == "a module":
            return ["%s is a log and %s a module: each log comes after its module, as in `%s %s`" % (module, log, log, module)]
    return []


def of_module(again, path):
    """What is wrong with a module by check-module, or what the file is instead."""
    kind = kind_of_bytes(path)
    if kind != "a module":
        return exchanged(again, path) or ["%s is %s, where a module was wanted; guests/build makes one of C or Rust" % (path, kind)]
    try:
        words = [sys.executable, CHECK_MODULE, path]
        told = subprocess.run(words, stdout=subprocess.PIPE, stderr=subprocess.DEVNULL, timeout=20).stdout.decode("utf-8", "replace")
    except (OSError, subprocess.SubprocessError):
        told = ""
    lines = told.split("\n")[:-1]
    return lines[:MOST_LINES] + (["and %d more: %s %s" % (len(lines) - MOST_LINES, CHECK_MODULE, path)] if len(lines) > MOST_LINES else [])


def bad_head(again, path):
    return exchanged(again, path) or ["%s is %s, where a log was wanted, which record makes" % (path, kind_of_bytes(path))]


def pairs_before(again, path):
    """The heads of the pairs up to the one with this log, the last with its own, each with its file."""
    found = []
    for _, log in again.pairs:
        found.append((log, head_of(log)))
        if log == path:
            break
    return found


def other_group(again, path):
    first, own = again.pairs[0][1], head_of(path)
    if first == path:
        return []
    counts = head_of(first).processes, own.processes
    return ["%s is of a group of %d processes, and %s of one of %d: they are of two recordings" % (first, counts[0], path, counts[1])]


def same_process(again, path):
    return same(again, path, "process", "process %s")


def same_name(again, path):
    return same(again, path, "name", "the name %s")


def same(again, path, part, words):
    """Which pair before has the same process, or the same name; the path may be given twice."""
    before, own = [log for _, log in again.pairs], head_of(path)
    other = next((log for log in before if head_of(log) and getattr(head_of(log), part) == getattr(own, part)), path)
    if other == path:
        return ["%s is given twice" % path]
    return ["%s and %s both have %s" % (other, path, words % getattr(own, part))]


def incomplete(again, path):
    heads = [head_of(log) for _, log in again.pairs]
    given = sorted((head.process, head.name) for head in heads)
    missing = [number for number in range(heads[0].processes) if number not in dict(given)]
    told = ", ".join("%d %s" % pair for pair in given)
    return ["the group has %d processes, and given are %s; missing: %s" % (heads[0].processes, told, numbers(missing))]


def numbers(values):
    return "process " + ", ".join(map(str, values)) if len(values) == 1 else "processes " + ", ".join(map(str, values))


def not_whole(again, path):
    name = head_of(path).name
    for told in again.report():
        if told.name == name:
            what_to_do = "record again with the modules that are here, or give those that were recorded" if told.entry else LEFT_OVER % (path, path)
            return ["%s: %d events, %s, %s" % (path, told.events, told.end, told.verdict), *why_diverged(again, [told]), what_to_do]
    return []


def bad_module_name(again, path):
    return ["`%s` is no name of a module that a schedule can have; copy the module to another name, and give that one" % path]


def too_many_events(again, path):
    return ["the logs have %d events in all, and a schedule tries at most 1000000" % sum(told.events for told in again.report())]


def too_long(again, path):
    return ["the schedule would have more than %d bytes" % MOST_SCHEDULE]


def grown(again, path):
    return ["%s would have more than %d bytes in version 2" % (path, MOST_LOG)]


LEFT_OVER = "`friday migrate %s %s` leaves these bytes out: the recording was stopped within an entry"
OF_LOGS = {
    "BadHead": bad_head, "OtherGroup": other_group, "SameProcess": same_process, "SameName": same_name, "Incomplete": incomplete,
    "NotWhole": not_whole, "BadModuleName": bad_module_name, "TooManyEvents": too_many_events, "TooLong": too_long, "Grown": grown,
}
