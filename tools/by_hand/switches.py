"""Lines that have a session show more or less."""

from sessions.names import Refusal


def switch_bytes(session, rest, form):
    session.shows_bytes = is_on(rest, session.shows_bytes)
    session.print("bytes of events are %sshown" % ("" if session.shows_bytes else "not "))


def switch_sent(session, rest, form):
    session.shows_sent = is_on(rest, session.shows_sent)
    session.print("lines that are sent are %sshown" % ("" if session.shows_sent else "not "))


def is_on(word, now):
    if word not in ("on", "off", ""):
        raise Refusal("it is on or off")
    return word == "on" if word else not now
