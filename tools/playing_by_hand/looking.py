"""Lines that show something: what is under way, how processes and threads are, and the schedule so far."""

from logs.wording import shown
from playing_by_hand.items import numbered, without_idle
from playing_by_hand.told import origin, payload, printed_by


def show_under_way(session, rest, form):
    """Who sent what to whom and was not delivered, and what waits to be taken."""
    names, player = session.group.names, session.player
    waiting = session.known.under_way()
    for datagram in waiting:
        told = (names[datagram.sender], datagram.number, names[datagram.receiver], datagram.clock, shown(payload(player, datagram)))
        session.print("%s %d to %s, sent at clock %d: %s" % told)
    boxes = [(process.name, box) for process in session.known.processes for box in process.mailbox]
    for name, box in boxes:
        session.print("waits at %s: from %s" % (name, origin(player, names, box)))
    if not waiting and not boxes:
        session.print("nothing is under way")


def show_processes(session, rest, form):
    session.send("processes")


def show_threads(session, rest, form):
    for node in rest.split() or session.group.names:
        session.send("threads " + node)


def show_datagram(session, rest, form):
    words = rest.split() or [""]
    session.send(" ".join(["datagram", numbered(session.group.names, words[0]), *words[1:]]))


def show_printed(session, rest, form):
    """What a process has printed, as text if it is text."""
    number = int(numbered(session.group.names, rest.partition(" ")[0]))
    session.print(shown(printed_by(session.player, session.group.names[number], 0)))


def show_schedule(session, rest, form):
    """The items so far, as `save` writes them."""
    for line in without_idle(session.pairs()):
        session.print(line)
