"""Words that make something of the recording: a cut of its logs, a page, a picture, a schedule."""

import os
import subprocess
import sys

from sessions.names import Refusal

TOOLS = os.path.dirname(os.path.dirname(os.path.realpath(__file__)))


def pairs_of(session):
    return [os.path.abspath(word) for word in session.engine.verdict.pairs]


def checked(session, path):
    """A file's name that is given, and is none of the recording's files."""
    if not path:
        raise Refusal("a file's name is missing")
    if os.path.realpath(path) in map(os.path.realpath, pairs_of(session)):
        raise Refusal("%s is a file of this recording" % path)
    return path


def cut(session, rest, form):
    """Logs with what the event of the position needs, in a folder that is made where it is not there."""
    event, folder = session.engine.event, rest or "."
    if event is None:
        raise Refusal("at 0 there is no event to cut to")
    os.makedirs(folder, exist_ok=True)
    for name in session.names.nodes:
        checked(session, os.path.join(folder, name + ".cut"))
    words = [session.engine.verdict.program, "cut", str(event.log.process), str(event.number), *pairs_of(session)]
    session.print(called(words, folder) + "\n%s.cut and so on are in %s" % (session.names.nodes[0], folder))


def called(words, folder=None):
    """What a program prints, without the line feed at its end."""
    done = subprocess.run(words, cwd=folder, stdin=subprocess.DEVNULL, stdout=subprocess.PIPE, stderr=subprocess.PIPE, text=True, errors="replace")
    if done.returncode:
        raise Refusal((done.stderr or done.stdout).strip() or "status %d" % done.returncode)
    return done.stdout.rstrip("\n")


def written(session, path, text):
    with open(path, "w", encoding="utf-8", errors="replace") as file:
        file.write(text + "\n")
    session.print("%d bytes in %s" % (len(text) + 1, path))


def page(session, rest, form):
    """A page of the recording, with the courses of the expressions that are watched."""
    path = checked(session, rest)
    watches = [point for point in session.engine.points if point.line.startswith("watch ") and point.place is None]
    words = ["%d=%s" % (point.number, session.names.line(point.line).split(" ", 1)[1]) for point in watches]
    tool = [sys.executable, os.path.join(TOOLS, "page.py"), "--program", session.engine.verdict.program, *pairs_of(session)]
    written(session, path, called(tool + (["--watch", *words] if words else [])))
    session.print("a browser shows this position at %s#at=%d" % (path, session.engine.position))


def picture(session, rest, form):
    path, tool = checked(session, rest), [sys.executable, os.path.join(TOOLS, "picture.py")]
    written(session, path, called([*tool, "--program", session.engine.verdict.program, *pairs_of(session)]))


def schedule(session, rest, form):
    """A schedule that records these logs again."""
    path = checked(session, rest)
    written(session, path, called([session.engine.verdict.program, "schedule", *session.engine.verdict.pairs]))
