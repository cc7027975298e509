"""Lines about the frames of a thread: the functions that it is in, and ways out of them."""

import re

from by_hand.stopping import walk
from sessions.names import Refusal
from sessions.sources import lines_around


def thread_of(session):
    """The process and the thread whose frames are meant: the one that made the last event of the current process."""
    return session.current, session.engine.threads.last_thread(session.current)


def stack_here(session):
    node, thread = thread_of(session)
    stack = session.engine.frames.of(node, thread)
    if not len(stack):
        raise Refusal("%s %d has no frames: %s" % (node, thread, session.engine.threads.how(node, thread)))
    return node, thread, stack


def chosen(session):
    """The frame that was chosen at this position, or else the innermost one."""
    kept = session.chosen_frame
    return kept[2] if kept and kept[:2] == (session.engine.position, thread_of(session)) else 0


def line_of_frame(stack, at):
    return "#%-3d%s" % (at, stack.frames[at].words)


def show_frames(session, rest, form):
    """The frames of a thread: `bt`, `bt NODE`, `bt THREAD` or `bt NODE THREAD`."""
    words = rest.split()
    node = words.pop(0) if words and words[0] in session.names.nodes else session.current
    thread = int(words.pop(0)) if words and re.fullmatch("[0-9]{1,2}", words[0]) else session.engine.threads.last_thread(node)
    if words:
        raise Refusal("bt wants a process, a thread by its number, or both; the processes are %s" % ", ".join(session.names.nodes))
    show_stack(session, node, thread)


def show_stack(session, node, thread):
    stack = session.engine.frames.of(node, thread)
    session.print("%s %d %s" % (node, thread, session.engine.threads.how(node, thread)))
    for at in range(len(stack.frames)):
        session.print(line_of_frame(stack, at))
    if stack.more:
        session.print("and %d more" % stack.more)


def show_frame(session, rest, form):
    """Chooses a frame by its number, and shows it with its line; without a number the one that is chosen."""
    if rest and not re.fullmatch("[0-9]{1,9}", rest):
        raise Refusal("frame wants a number as `bt` shows them")
    choose(session, int(rest) if rest else chosen(session))


def up(session, rest, form):
    choose(session, chosen(session) + count(rest))


def down(session, rest, form):
    choose(session, chosen(session) - count(rest))


def count(rest):
    if rest and not re.fullmatch("[0-9]{1,9}", rest):
        raise Refusal("up and down want how many frames")
    return int(rest or 1)


def choose(session, at):
    node, thread, stack = stack_here(session)
    if not 0 <= at < len(stack.frames):
        raise Refusal("the frames of %s %d are #0 to #%d%s" % (node, thread, len(stack.frames) - 1, " and %d more" % stack.more if stack.more else ""))
    session.chosen_frame = session.engine.position, (node, thread), at
    session.print(line_of_frame(stack, at))
    place = stack.frames[at].place
    path = session.sources.path(place[0]) if place else None
    for number, text in lines_around(path, place[1], 0) if path else ():
        session.print("%6d  %s" % (number, text.expandtabs(4)))


def finish(session, rest, form):
    """On to the first event after which the thread is no longer in the chosen frame; points in between stop it."""
    node, thread, stack = wanted(session, rest)
    at = chosen(session)
    place = session.engine.frames.left_at(node, thread, at)
    if place is None:
        raise Refusal("%s %d does not leave %s up to the end" % (node, thread, stack.frames[at].name))
    walk(session, place)


def reverse_finish(session, rest, form):
    """Back to the last event of the thread after which it was not yet in the chosen frame."""
    node, thread, stack = wanted(session, rest)
    at = chosen(session)
    place = session.engine.frames.entered_at(node, thread, at)
    if place is None:
        raise Refusal("%s %d was in %s after its first event" % (node, thread, stack.frames[at].name))
    session.send("goto %d" % place)


def wanted(session, rest):
    if rest:
        raise Refusal("finish leaves the frame that `frame N` or `up` has chosen")
    return stack_here(session)
