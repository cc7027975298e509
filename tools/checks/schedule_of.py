"""The schedule that records to the logs of a group, put together from their entries: what `friday schedule` has to print."""

from logs.format import in_group_order, tag_of

# What `recv` and `try_recv` are answered where they take nothing, and `random` where its arguments are bad.
NOTHING_TAKEN = (-1, -2)


def word(data):
    return data.hex() or "-"


def datagram(entry):
    """What came, with the tag in front, where it had one."""
    return (tag_of(*entry.tag) if entry.tag else b"") + entry.taken


def world_items(process, entry):
    """What the answer took of the world around the process: the wall time, random bytes or a datagram."""
    if entry.call.name in ("now", "sleep_until"):
        return ["clock %d %d" % (process, entry.reply)]
    if not entry.call.takes_bytes or entry.reply in NOTHING_TAKEN:
        return []
    if entry.call.has_tag:
        return ["inject %d %s" % (process, word(datagram(entry)))]
    return ["random %d %s" % (process, word(entry.taken))]


def items_of(process, entry):
    """What brings an event about."""
    signal = ["signal %d %d" % (process, entry.signal)] if entry.signal else []
    return world_items(process, entry) + signal + ["run %d %d" % (process, entry.thread)]


def schedule_of(pairs):
    """The text, of pairs of a module's file and a log: all of a group, in any order, and each log whole."""
    pairs = sorted(pairs, key=lambda pair: pair[1].process)
    lines = ["friday 1"] + ["process %s %s" % (log.name, module) for module, log in pairs]
    for entry, log in in_group_order([log for _, log in pairs]):
        lines += items_of(log.process, entry)
    return "".join(line + "\n" for line in lines)
