"""Lines that move the session forward."""

import bisect
import re

from by_hand.framing import thread_of
from by_hand.stopping import walk
from sessions.names import Refusal

MOST_TIMES = 999_999


def go_to(session, rest, form):
    """To a position, or so many events on or back."""
    if re.fullmatch(r"[+-]\s*\d+", rest):
        count = int(rest[1:])
        session.send("%s %d" % ("step" if rest[0] == "+" else "back", count) if count else "goto %d" % session.engine.position)
    else:
        session.send(("goto " + rest).strip())


def next_of_thread(session, rest, form):
    """On to the N-th next event of the thread that made the last one, unless a point stops it before."""
    positions = positions_of_thread(session)
    first = bisect.bisect_right(positions, session.engine.position)
    if first == len(positions):
        raise Refusal("%s %d makes no event after this one: s goes on by one of the group" % thread_of(session))
    walk(session, positions[min(first + times(rest), len(positions)) - 1])


def next_back(session, rest, form):
    """Back to the N-th event of this thread before, or to the beginning."""
    positions = positions_of_thread(session)
    place = bisect.bisect_left(positions, session.engine.position) - times(rest)
    session.send("goto %d" % (positions[place] if place >= 0 else 0))


def positions_of_thread(session):
    return session.engine.index.of_thread(*thread_of(session))


def times(rest):
    """How often a word is meant."""
    if rest and (not rest.isdigit() or not 1 <= int(rest) <= MOST_TIMES):
        raise Refusal("how many times is a number from 1 on, of at most six digits")
    return int(rest or 1)


def go_on(session, rest, form):
    """To where a point stops it; N times, of which the last is shown."""
    for _ in range(times(rest) - 1):
        answer = session.walked(session.engine.last)
        if answer.how:
            for line in answer.lines:
                session.print_event(line)
            return
    walk(session)
