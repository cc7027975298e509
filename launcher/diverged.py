"""What a divergence of a log is: the call that the module makes there, and the one that the log has."""
from __future__ import annotations

import os
import sys

from heads import head_of
from looking import MOST_LOG, bytes_of

HERE = os.path.dirname(os.path.dirname(os.path.realpath(__file__)))
TOOLS = os.path.join(HERE, "tools")
TUTORIAL = os.path.join(HERE, "docs", "tutorial.md")
# So many logs are explained.
MOST_TOLD = 3
WHY = {
    "2 NoThread": "thread %(thread)d was not made, or has ended",
    "5 OtherBytes": "the bytes that went out are not those that the module has in memory there",
    "7 NoHandler": "signal %(signal)d has no handler there",
    "8 OtherClock": "the clock %(clock)d is not one more than that of the event before or of the datagram's tag",
}


def why_diverged(again, told):
    """The lines about the logs that diverge, of what `replay` told."""
    diverged = [line for line in told if line.entry]
    for line in diverged[:MOST_TOLD]:
        pair = next((pair for pair in again.pairs if (head_of(pair[1]) or line).name == line.name), None)
        entry = entry_of(pair[1], line.entry) if pair else None
        if entry:
            yield "%s: %s" % (line.name, difference(again, line, entry, *pair))
    if len(diverged) > MOST_TOLD:
        yield "and %d more logs diverge" % (len(diverged) - MOST_TOLD)


def entry_of(path, number):
    """An entry of a log, from 1, or None."""
    # The reader of logs lies with the tools, and few calls need it.
    sys.path.append(TOOLS)
    from logs.format import BadLog, log_in

    try:
        return log_in(bytes_of(path, MOST_LOG) or b"", path).entries[number - 1]
    except (BadLog, IndexError):
        return None


def difference(again, line, entry, module, log):
    """A sentence: what the log has, and what the module does."""
    has = "%s: event %d of %s is `%s`" % (line.reason, line.entry, log, entry.text(line.name))
    if line.reason == "1 AfterEnd":
        return "%s, but with %s the process is over after %d events: %s" % (has, module, line.events, line.end)
    if line.reason in WHY:
        fields = {"thread": entry.thread, "signal": entry.signal, "clock": entry.clock}
        return "%s, and %s" % (has, WHY[line.reason] % fields)
    waits = again.waiting(line.name).get(str(entry.thread))
    expected = "thread %d makes the call `%s` there" % (entry.thread, waits) if waits else "the module makes another call there"
    if line.reason == "6 OtherReply":
        return "%s, and no answer of this call can be %s; with %s %s" % (has, entry.reply, module, expected)
    return "%s, but with %s %s" % (has, module, expected)
