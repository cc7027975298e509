"""How the processes of a group are at a position of its order, as far as the logs and the program tell."""

from __future__ import annotations

import re
import subprocess
from dataclasses import dataclass

from sessions.places import in_words

THREAD = re.compile(r"(\d+) (ended|at .*)")
CLOCKS = ("now", "sleep_until")


@dataclass(frozen=True)
class End:
    """How a process is after the last event that is drawn: in short, in full, the wall time that it was told, and each thread's call."""

    text: str
    told: str
    over: bool
    accepted: int
    threads: tuple[str, ...] = ()

    @property
    def bad(self):
        return self.text.startswith(("trapped", "diverged"))


def by_logs(log, is_last, time):
    """Without the program, where the last event is drawn: the logs alone tell of `exit`."""
    count, entry = len(log.entries), log.entries[-1] if log.entries else None
    if not is_last:
        return End("goes on", "%s goes on" % log.name, False, count, time)
    if entry is None or entry.call.name != "exit":
        return End("log ends", "the log of %s ends; how the process is, only replay can say" % log.name, False, count, time)
    text = "exited %d" % entry.arguments[0]
    return End(text, "%s %s" % (log.name, text), True, count, time)


def by_replay(log, is_last, time, result, threads):
    """What the report of the replay says, where the last event is drawn, and the debugger of each thread."""
    told = "%s: %d events, %s, %s" % (log.name, result.accepted, result.end, result.verdict)
    lines = (*time, *threads)
    if not is_last:
        return End("goes on", "%s goes on; in the end: %s" % (log.name, told), False, result.accepted, lines)
    if result.verdict.startswith("diverged"):
        return End(result.verdict, told, True, result.accepted)
    return End(result.end, told, result.end != "running", result.accepted, lines)


def time_told(log, events):
    """The wall time that a process was told last in these events, as a line, or none."""
    last = next((event for event in reversed(events) if event.log is log and event.entry.call.name in CLOCKS), None)
    return ("wall time %d, told at %d" % (last.entry.reply, last.position),) if last else ()


def with_sites(name, threads, sites):
    """The debugger's lines for threads, and after each the place in the source at which it waits."""
    for line in threads:
        yield line
        found = THREAD.fullmatch(line)
        call = sites.get((name, int(found[1]))) if found and found[2] not in ("ended", "at begin") else None
        if call:
            # Blanks at the front would be left out.
            yield "\u00a0\u00a0" + in_words(call)


def threads_at(program, pairs, names, position):
    """The lines of the debugger for the threads of each process at a position; none where it does not answer."""
    lines = ["goto %d" % position] + ["threads " + name for name in names] + ["quit"]
    words = [program, "debug", *pairs]
    done = subprocess.run(words, input="\n".join(lines) + "\n", stdout=subprocess.PIPE, text=True)
    answers = done.stdout.splitlines()[2:]
    if done.returncode != 0 or not answers or any(answer.startswith("?") for answer in answers):
        return {}
    found, left = {}, list(names)
    for answer in answers:
        if left and answer.startswith(left[0] + " ") and not THREAD.fullmatch(answer):
            threads = found.setdefault(left.pop(0), [])
        elif found:
            threads.append(answer)
    return {name: tuple(threads) for name, threads in found.items()}
