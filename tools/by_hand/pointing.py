"""Lines about points and variables, and those that go back."""

import re

from by_hand.reading import show_source
from by_hand.stopping import walk_back
from by_hand.words import condition_of
from logs.format import CALLS
from sessions.names import Refusal
from sessions.values import numbers_of

CALL_NAMES = [call.name for call in CALLS]


def tell(session, points):
    for point in points:
        session.print("point %d" % point.number)


def watch(session, rest, form):
    """A point at an expression, or one at each number of a struct or an array."""
    expression, condition = (session.names.qualified(part, session.current) for part in condition_of(re.sub(r"^-l(ocation)?\s+", "", rest)))
    place = session.names.place(expression)
    numbers = numbers_of(place, expression) if place and not expression.startswith("@") else []
    if len(numbers) < 2:
        tell(session, session.engine.points.watch(expression, condition))
        return
    for number in numbers:
        tell(session, session.engine.points.watch(number, condition))


def break_at(session, rest, form, **more):
    where, condition = condition_of(rest)
    words, points = where.split(), session.engine.points
    if words[-1:] and words[-1] not in (*CALL_NAMES, "*"):
        tell(session, points.break_in(" ".join(words), condition, **more))
    else:
        tell(session, points.break_at_call("* " + where if len(words) == 1 else where, condition, **more))


def break_once(session, rest, form):
    break_at(session, rest, form, is_temporary=True)


def put_condition(session, rest, form):
    """Has a point stop only where an expression is a number other than 0 as well."""
    number, _, condition = rest.partition(" ")
    if not number.isdigit() or int(number) not in session.engine.points.held:
        raise Refusal("condition wants the number of a point and an expression")
    session.engine.points.change(int(number), condition=own_names(session, int(number), condition.strip()))


def own_names(session, number, text):
    """What is put at a point: at a watchpoint names without a process are of the current one."""
    return text if session.engine.points.point(number).nodes else session.names.qualified(text, session.current)


def ignore(session, rest, form):
    """Has a point pass over its next N firings."""
    words = rest.split()
    if len(words) != 2 or not all(word.isdigit() for word in words) or int(words[1]) >= 2**62:
        raise Refusal("ignore wants the number of a point and how many firings are passed")
    session.engine.points.change(int(words[0]), hits="> %d" % int(words[1]) if int(words[1]) else "")


def enable(session, rest, form, is_enabled=True):
    for number in numbers_in(session, rest):
        session.engine.points.enable(number, is_enabled)


def disable(session, rest, form):
    enable(session, rest, form, False)


def numbers_in(session, rest):
    """The numbers of points in a line, as 1 2 4-6; of all points without any."""
    words, found = rest.replace(",", " ").split(), []
    if words[:1] in (["breakpoints"], ["once"]):
        raise Refusal("the numbers of points are wanted")
    for word in words:
        ends = re.fullmatch(r"(\d{1,9})(?:-(\d{1,9}))?", word)
        if not ends:
            raise Refusal("%s is no number of a point" % word)
        wanted = [number for number in session.engine.points.held if int(ends[1]) <= number <= int(ends[2] or ends[1])]
        found += wanted or [session.engine.points.point(int(ends[1])).number]
    return found if words else list(session.engine.points.held)


def attach(session, rest, form):
    """A program at a point; `.` is the one made last. At a place in the source it runs where a thread comes there."""
    word, _, program = rest.partition(" ")
    number = str(session.engine.points.last) if word == "." else word
    if not number.isdigit() or not program.strip():
        session.send("do " + rest)
        return
    session.engine.points.change(int(number), program=own_names(session, int(number), program.strip()))


def begin_commands(session, rest, form):
    """Lines up to `end`, which are typed whenever a point stops the session."""
    number = int(rest) if rest.isdigit() else session.engine.points.last
    if rest and not rest.isdigit():
        raise Refusal("commands wants the number of a point; the lines follow, and `end`")
    point = session.engine.points.point(number)
    point.commands = []
    session.collect = point.commands


def show_points(session, rest, form):
    """The points, each with what holds of it, which the debugger's own list leaves out."""
    if rest:
        show_source(session, rest)
        return
    points = list(session.engine.points)
    for point in points:
        session.print("%d %s" % (point.number, session.names.line(session.engine.points.line(point))))
    for point in points:
        if point.place or point.condition:
            session.print("    point %d is %s" % (point.number, point.told))
        if point.program:
            session.print("    do %d %s" % (point.number, point.program))
        for told in holds_of(point):
            session.print("    point %d %s" % (point.number, told))


def holds_of(point):
    """What else holds of a point."""
    if not point.is_enabled:
        yield "is disabled"
    if point.is_temporary:
        yield "is deleted where it stops"
    if point.hits:
        yield "stops from the firing on whose number is %s" % point.hits
    if point.commands:
        yield "has the commands: %s" % "; ".join(point.commands)


def delete(session, rest, form):
    """One point or several, or all."""
    for number in numbers_in(session, rest):
        session.engine.points.delete(number)
        session.print("deleted %d" % number)


def set_variable(session, rest, form):
    """A variable of the session; gdb's = may stand in between."""
    rest = re.sub(r"^(\$\w+)\s*=(?!=)\s*", r"\1 ", re.sub(r"^var(iable)?\s+", "", rest))
    if not rest.startswith("$"):
        raise Refusal("no memory is ever written: `set $NAME EXPR` keeps a value in the session")
    name, _, text = rest.partition(" ")
    session.send(("set %s %s" % (name, session.names.qualified(text, session.current))).strip())


def go_back_to_point(session, rest, form):
    """Back to where a point fires that may stop there."""
    if rest:
        session.send("rcontinue " + rest)
    else:
        walk_back(session)


def go_to_start(session, rest, form):
    session.send("goto 0")
