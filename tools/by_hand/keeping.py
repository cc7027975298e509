"""Lines that keep in a file what a session has, and take it up again."""

from by_hand.making import checked
from sessions.engine import setting
from sessions.names import Refusal


def save(session, rest, form):
    """Keeps points, programs and variables in a file; gdb's words for it are `save breakpoints FILE`."""
    kind, _, path = rest.partition(" ")
    rest = path.strip() if kind == "breakpoints" and path.strip() else rest
    lines = [setting(line) for line in session.engine.debugger.ask("vars")]
    for point in session.engine.points:
        lines += lines_of(point)
    write(session, rest, "".join(line + "\n" for line in lines))


def lines_of(point):
    """The lines that make a point again; `.` is the one made last."""
    lines = [("t" if point.is_temporary else "") + point.told]
    lines += ["do . " + point.program] if point.program else []
    return lines + (["commands", *point.commands, "end"] if point.commands else [])


def save_script(session, rest, form):
    """Keeps the lines that were sent, so that friday debug answers them again."""
    write(session, rest, "".join(line + "\n" for line in session.engine.sent) + "quit\n")


def write(session, path, text):
    with open(checked(session, path), "w", encoding="latin-1", errors="replace") as file:
        file.write(text)
    session.print("%d lines in %s" % (text.count("\n"), path))


def load(session, rest, form):
    if not rest:
        raise Refusal("a file's name is missing")
    with open(rest, encoding="latin-1") as file:
        lines = file.read().splitlines()
    for line in lines:
        if line.strip():
            session.handle(line)
    session.last = ""
