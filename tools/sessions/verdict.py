"""What replay says of the logs that are looked at: which do not go with their modules, and which are not of one recording."""

import functools
import os
import re

from asking.report import Refused, report_of
from logs.format import head_of, printable, read_log

DIVERGED = re.compile(r"diverged at (\d+): \d+ (\w+)")
REASONS = {
    "AfterEnd": "after its end",
    "NoThread": "of a thread that is not there",
    "OtherCall": "another call",
    "OtherArguments": "other arguments",
    "OtherBytes": "other bytes",
    "OtherReply": "an answer that its call cannot have",
    "NoHandler": "a signal without a handler",
    "OtherClock": "another clock",
}


class Verdict:
    """The report of a replay, which is asked for once it is looked at."""

    def __init__(self, program, pairs):
        self.program, self.pairs = program, pairs

    @functools.cached_property
    def report(self):
        """None where there is none: the debugger says what is wrong."""
        try:
            return report_of(self.program, self.pairs)
        except Refused:
            return None

    @functools.cached_property
    def accepted(self):
        """How many events of each process replay accepts."""
        if self.report:
            return {name: result.accepted for name, result in self.report.results.items()}
        return {log.name: len(log.entries) for log in map(read_log, self.pairs[1::2])}

    def lines(self, index):
        """What is to be told before anything else: of logs that diverge, and of those that are of another recording."""
        if self.report is None:
            return []
        told = [line for module, path in zip(self.pairs[::2], self.pairs[1::2]) for line in self.divergence(module, head_of(path).name)]
        return told + (self.foreign(index()) if self.report.unmatched and not told else [])

    def divergence(self, module, name):
        found = DIVERGED.match(self.report.results[name].verdict)
        if found:
            words = (printable(os.path.basename(module)), name, found[1], REASONS.get(found[2], found[2]))
            yield "%s is not the module of this log, or was built anew: %s diverges at its event %s, %s" % words

    def foreign(self, index):
        """The first receive of which the logs have the sender's, and no such send."""
        missing = [
            (position, *tag) for tag, position in index.tags()
            if tag[0] in index.names and index.sent_at(tag, index.event(position).log.process) is None
        ]
        if not missing:
            return []
        position, sender, clock = min(missing)
        taken, sender = index.event(position), index.names[sender]
        words = (taken.log.name, taken.number, sender, clock, sender)
        return ["%s took at its event %d what %s sent at its clock %d, and the log of %s has no such send:"
                " the logs are of different recordings, or the datagram was forged" % words]
