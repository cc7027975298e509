"""Groups whose processes send chunks of streams to each other and take what comes, over datagrams that are lost, repeated, late,
cut short and forged."""

from __future__ import annotations

import os
from dataclasses import dataclass, field, replace

from check_schedule import put_modules, write
from check_shown import called
from logs.format import in_group_order, read_log, tag_of
from made_up import Program
from streams_of import chunk_of

# Where bytes stand that are sent or taken, where the number of their sender does, and how much room there is for them.
AT, FROM = 0, 65000
ROOMS = (*(60000,) * 6, *(20, 16, 15, 14, 13), 0)
# The numbers of streams.
NUMBERS = (0, 1, 1, 2, 255, 65535)
MOST_OFFSET = 2**64 - 1


def turned(draw, data):
    """The bytes with another one among them."""
    at = draw.randrange(len(data)) if data else 0
    return data[:at] + bytes(byte ^ 1 for byte in data[at : at + 1]) + data[at + 1 :]


# ---- what processes send

# How often a chunk is of which kind.
KINDS = {"goes_on": 8, "repeats": 5, "changes": 2, "goes_past": 1, "leaves_gap": 1, "empty": 1}


class Writer:
    """The chunks that a process sends, as it goes."""

    def __init__(self, draw):
        self.draw, self.written = draw, {}

    def chunk(self, to):
        """The next one to a process: most go on or repeat what was written, and some do neither."""
        number = self.draw.choice(NUMBERS)
        before = self.written.setdefault((to, number), bytearray())
        kind, = self.draw.choices(list(KINDS), KINDS.values())
        offset, data = getattr(self, kind)(before)
        if offset == len(before):
            before += data
        return chunk_of(number, offset, data)

    def drawn_bytes(self, most=5):
        length = self.draw.randint(1, most) if self.draw.random() < 0.97 else self.draw.choice((300, 59986))
        return bytes(self.draw.choices(b"ab", k=length))

    def goes_on(self, before):
        return len(before), self.drawn_bytes()

    def repeats(self, before):
        begin = self.draw.randint(0, len(before))
        return begin, bytes(before[begin : begin + self.draw.randint(0, 6)])

    def changes(self, before):
        begin, data = self.repeats(before)
        return begin, turned(self.draw, data)

    def goes_past(self, before):
        begin, data = self.repeats(before)
        return begin, data + self.drawn_bytes()

    def leaves_gap(self, before):
        return self.draw.choice((len(before) + 1, len(before) + 5, MOST_OFFSET, MOST_OFFSET - 1)), self.drawn_bytes()

    def empty(self, before):
        return self.draw.choice((0, 1, len(before), len(before) + 1, MOST_OFFSET)), b""


def payload(draw, writer, to):
    """A chunk, or bytes that are almost one."""
    chunk = writer.chunk(to)
    return chunk if draw.random() < 0.93 else draw.choice((b"", chunk[:13], chunk[1:], b"STRM", b"\0" + chunk))[:60000]


@dataclass
class Plan:
    """The calls of a process, and the random bytes that it draws by them."""

    calls: list = field(default_factory=list)
    random: list = field(default_factory=list)


def planned(draw, count):
    """A process draws the bytes that it sends; between these calls it takes what came."""
    plan, writer = Plan(), Writer(draw)
    for _ in range(draw.randint(4, 40)):
        if draw.random() < 0.5:
            plan.calls.append((draw.choice(("recv", "try_recv", "try_recv")), (AT, draw.choice(ROOMS), FROM)))
            continue
        to = draw.choice((*range(count), count))
        data = payload(draw, writer, to)
        plan.random.append(data)
        plan.calls += [("random", (AT, len(data))), ("send", (to, AT, len(data)))]
    return plan


# ---- what becomes of it


def other_bytes(draw, data):
    """A payload as it came, or cut, or with other bytes."""
    return draw.choice((data, data, data, data[:16], data[:15], data[:14], data[:13], data + b"a", turned(draw, data)))


def injected(draw, plans):
    """What comes from outside: a payload of some process after a tag that is made up, or without a tag."""
    data = other_bytes(draw, draw.choice([data for plan in plans for data in plan.random] or [b""]))[:1000]
    tag = tag_of(draw.randrange(len(plans)), draw.randint(1, 60)) if draw.random() < 0.7 else b""
    return (tag + data).hex() or "-"


def item(draw, plans, forges):
    process = draw.randrange(len(plans))
    kind = draw.choices(("run %d 0 %d", "deliver %d %d", "inject %d %s"), (50, 50, 5 if forges else 0))[0]
    if kind.startswith("inject"):
        return kind % (process, injected(draw, plans))
    return kind % (process, draw.randint(1, 6) if kind.startswith("run") else draw.choice((1, 2, 3, draw.randint(1, 15))))


def schedule(draw, names, plans, forges):
    lines = ["friday 1", *("process %s %s.wasm" % (name, name) for name in names)]
    for process, plan in enumerate(plans):
        lines += ["random %d %s" % (process, data.hex()) for data in plan.random if data]
    lines += [item(draw, plans, forges) for _ in range(draw.randint(40, 160))]
    return "".join(line + "\n" for line in lines)


def talked(program, draw, folder, forges):
    """The pairs of a group that is recorded, to which forged datagrams may come."""
    count = draw.choice((1, 2, 2, 3, 3, 3, 4, 4))
    names, plans = ["p%d" % number for number in range(count)], [planned(draw, count) for _ in range(count)]
    put_modules(folder, {name + ".wasm": Program(plan.calls, []).module() for name, plan in zip(names, plans)})
    write(os.path.join(folder, "schedule"), schedule(draw, names, plans, forges))
    called(program, folder, "record", "schedule")
    return [(name + ".wasm", read_log(os.path.join(folder, name + ".log"))) for name in names]


# ---- logs that no recording made


def retold(pairs, other):
    """The group with other events in the place of some: `other` gives one for a log, its entry and the logs and entries before it,
    which have their new clocks. The tags of all go along with the events that they name."""
    made, clocks, earlier = {log.process: [] for _, log in pairs}, {}, []
    for entry, log in in_group_order([log for _, log in pairs]):
        before, old = made[log.process][-1].clock if made[log.process] else 0, entry.clock
        if entry.tag in clocks:
            entry = replace(entry, tag=(entry.tag[0], clocks[entry.tag]))
        entry = other(log, entry, earlier)
        entry = replace(entry, clock=1 + max(before, entry.tag[1] if entry.tag else 0))
        clocks[log.process, old] = entry.clock
        made[log.process].append(entry)
        earlier.append((log, entry))
    return [(module, replace(log, entries=made[log.process])) for module, log in pairs]
