"""What a picture says of an event: in a word beside it, and in some lines where the mouse rests on it."""

from logs.traffic import Fate, Origin
from logs.wording import bytes_lines, shown
from sessions.places import in_words

LONGEST = 100
FIRST_ARGUMENT = ("exit", "note", "sleep_until", "join", "lock", "unlock", "on_signal")


def shortened(text, longest=LONGEST):
    return text if len(text) <= longest else text[: longest - 2] + ".."


class Captions:
    def __init__(self, logs, traffic, has_bytes=False, sites=None):
        """`sites` has the calls of the source at which events were made, where guests tell them."""
        self.traffic, self.has_bytes, self.sites = traffic, has_bytes, sites or {}
        self.names = {log.process: log.name for log in logs}
        self.threaded = {log.process for log in logs if any(entry.thread for entry in log.entries)}

    def lines(self, event):
        """The event as the debugger writes it, where in its source it was made, its bytes, and where they went or came from."""
        head = ["%d: %s" % (event.position, event.entry.text(event.log.name))]
        if event.position in self.sites:
            head.append(in_words(self.sites[event.position]))
        told = [shortened(line) for line in bytes_lines(event.entry, self.names)]
        return [*head, *told, *self.sent(event), *self.came(event)]

    def sent(self, event):
        fate = self.traffic.fates.get(event.position)
        if fate is Fate.TAKEN:
            takers = self.traffic.by_send[event.position]
            yield "taken at %s" % ", and again at ".join(str(taken.receive.position) for taken in takers)
        elif fate is Fate.NOT_TAKEN:
            yield "no event took it: it was lost, or still waits"
        elif fate is Fate.CUT:
            yield "no event that the cut kept took it: it was taken later, was lost, or still waits"
        elif fate is Fate.NO_LOG:
            yield "the log of its receiver is not given"
        elif fate is Fate.LEFT_GROUP:
            yield "the group has no such process"

    def came(self, event):
        origin = self.traffic.origins.get(event.position)
        if origin is Origin.SEND:
            yield self.arrival(self.traffic.by_receive[event.position])
        elif origin is Origin.NO_SEND:
            yield "the logs given have no such send"

    def arrival(self, taken):
        """A datagram that came, as an arrow says it."""
        words = "sent at %d, taken at %d" % (taken.send.position, taken.receive.position)
        if taken.earlier:
            words += "; it came before"
        return words + ("; other bytes came than were sent" if taken.altered else "")

    def word(self, event):
        """The call in short, after the thread if the process has several."""
        thread = "%d: " % event.entry.thread if event.log.process in self.threaded else ""
        return thread + " ".join([*words(event.entry), *self.receiver(event), *self.bytes_of(event.entry)])

    def receiver(self, event):
        """To whom a datagram was sent."""
        if event.entry.call.name != "send":
            return []
        receiver = event.entry.arguments[0]
        return ["to " + self.names.get(receiver, str(receiver))]

    def bytes_of(self, entry):
        """What was sent or taken, where pictures are to have it in words."""
        data = entry.sent if entry.call.name == "send" else entry.taken
        return [shown(data)] if self.has_bytes and data else []


def words(entry):
    """The call with what matters of it; what was printed stands alone."""
    name = entry.call.name
    if name == "print" and entry.reply >= 0:
        return [shown(entry.sent.rstrip(b"\n"))]
    if name == "random" and entry.reply >= 0:
        return [name, "%d bytes" % entry.reply]
    told = [name] + ([str(entry.arguments[0])] if name in FIRST_ARGUMENT else [])
    if name in ("now", "sleep_until", "me", "thread", "spawn") or (entry.call.result == "i" and entry.reply < 0):
        told.append("= %d" % entry.reply)
    return told
