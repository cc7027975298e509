"""Walks, and what the points want done at which they stop."""

from by_hand.words import expanded


def walk(session, target=None):
    """On to a position, or to the end, unless a point stops it before."""
    while goes_on(session, session.walk(target)):
        target = None


def walk_back(session):
    """Back to where a point fires that may stop there."""
    while goes_on(session, session.tell("rcontinue")):
        pass


def goes_on(session, answer):
    """Does what the points that stopped a walk want done, and tells whether that is to go on."""
    for point in session.engine.points.stopped_by(answer.lines):
        if point.is_temporary:
            session.engine.points.delete(point.number)
        for line in point.commands:
            word, _, rest = expanded(line)
            if word == "continue" and not rest:
                return True
            if word == "silent":
                continue
            before = session.engine.position
            session.handle_line(line)
            if session.over or session.engine.position != before:
                return False
    return False
