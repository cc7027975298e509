"""A recording that a session begins from, and goes on as it was recorded, but for what is lost since."""

import re
import subprocess
from dataclasses import dataclass

from logs.format import BadLog, in_group_order, read_log
from playing.player import PlayingFailed
from playing_by_hand.items import count_of
from sessions.names import Refusal

LOST = re.compile(r"# the datagram (\d+) of (\w+) to \w+ is lost")


@dataclass(frozen=True)
class Step:
    """What `friday schedule` makes of an event: its items, the event and its process; and of a datagram of the group that it took,
    the sender and the number, or None."""

    items: list
    event: str
    process: int
    taken: tuple


def steps_of(program, pairs):
    """The processes with their modules, and a step for each event of the logs, in their order."""
    done = subprocess.run([program, "schedule", *pairs], stdout=subprocess.PIPE, text=True)
    if done.returncode != 0:
        raise PlayingFailed(done.stdout.strip() or "making a schedule of the logs ended with status %d" % done.returncode)
    lines = done.stdout.splitlines()
    processes = [tuple(line.split(" ")[1:]) for line in lines if line.startswith("process ")]
    try:
        order = in_group_order([read_log(log) for log in pairs[1::2]])
    except BadLog as bad:
        raise PlayingFailed(str(bad)) from None
    return processes, list(steps(lines[1 + len(processes) :], order, len(processes)))


def steps(lines, order, count):
    """Each event's items end with its `run`."""
    sent, numbers, items = [0] * count, {}, []
    events = iter(order)
    for line in lines:
        items.append(line)
        if line.startswith("run "):
            entry, log = next(events)
            if entry.call.name == "send" and entry.reply >= 0 and 0 <= entry.arguments[0] < count:
                sent[log.process] += 1
                numbers[log.process, entry.clock] = sent[log.process]
            taken = (entry.tag[0], numbers[entry.tag]) if entry.tag in numbers else None
            yield Step(items, entry.text(log.name), log.process, taken)
            items = []


def begin(session, steps, until):
    """Plays the first events of a recording as they were recorded, and tells what is not as it was there."""
    session.steps = steps
    if until > len(steps):
        raise PlayingFailed("the logs have %d events" % len(steps))
    session.begin([step.items for step in steps[:until]])
    session.print("at event %d of %d of the recording; `follow` goes on as it was recorded" % (until, len(steps)))
    session.print("What had been delivered and was not taken yet is under way again, and no random bytes wait.")


def follow(session, rest, form):
    """Plays the next events of the recording, without the datagrams that were lost since."""
    count = count_of(rest)
    chosen = session.steps[session.followed : session.followed + count]
    if not chosen:
        raise Refusal("follow wants how many events, and %d of the recording are left" % (len(session.steps) - session.followed))
    as_recorded = 0
    for step in chosen:
        event = follow_step(session, step)
        session.followed += 1
        as_recorded += without_clock(event) == without_clock(step.event)
        if not event:
            session.print("nothing, in place of " + step.event)
    left = len(session.steps) - session.followed
    session.print("%d of %d events as they were recorded, and %d of the recording are left" % (as_recorded, len(chosen), left))


def follow_step(session, step):
    """Plays what brings an event about; the event that came of it, or nothing."""
    event = ""
    for item in step.items:
        if step.taken is not None and item.startswith("inject "):
            item = delivery(session, step)
            if item is None:
                continue
        answer = session.play(item, shows_counts=False)
        if item.startswith("run ") and len(answer) > 1:
            event = answer[0]
    return event


def delivery(session, step):
    """The line that delivers the datagram that this step took; None if it is lost, or is not the same this time."""
    sender, number = step.taken
    names, sent = session.group.names, session.known.processes[sender].sent
    told = "the datagram %d of %s" % (number, names[sender])
    if step.taken in session.known.lost:
        session.print(told + " is lost")
    elif number > len(sent):
        session.print(told + " was not sent")
    elif sent[number - 1].receiver != step.process:
        session.print(told + " is for %s this time" % names[sent[number - 1].receiver])
    else:
        return "deliver %d %d" % (sender, number)
    return None


def without_clock(event):
    return event.partition(" ")[2]


def lost_line(names, datagram):
    return "# the datagram %d of %s to %s is lost" % (datagram.number, names[datagram.sender], names[datagram.receiver])


def lost_in(names, line):
    """The datagram that such a line is about, by its sender and number."""
    found = LOST.fullmatch(line)
    return (names.index(found[2]), int(found[1])) if found and found[2] in names else None
