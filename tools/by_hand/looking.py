"""Lines that show something: variables as a whole, bytes, threads, names, and where the session is."""

import re

from by_hand.framing import show_stack
from sessions.arithmetic import evaluate, has_own
from sessions.casts import address, type_of, value_of
from sessions.names import Refusal
from sessions.places import in_words
from sessions.spelling import FORMS, dump, number, of_answer

LONGEST = 256
# What C reads in octal.
OCTAL = re.compile(r"(?<![\w.])0[0-9]+\b")
MOST_SHOWN = 4096
UNITS = {"b": 1, "h": 2, "w": 4, "g": 8}


def form_of(form):
    """The letter after a slash that says how numbers are shown."""
    letters = form.lstrip("/")
    if letters and letters not in FORMS:
        raise Refusal("the forms are %s" % ", ".join("/%s %s" % pair for pair in FORMS.items()))
    return letters


def show_value(session, rest, form):
    """A variable as a whole, or the value of an expression."""
    if not rest:
        raise Refusal("p wants a variable or an expression")
    form, engine, node = form_of(form), session.engine, session.current
    size = re.fullmatch(r"sizeof\s*\(?(.*?)\)?", rest)
    of_address = re.fullmatch(r"&\s*([^&].*)", rest)
    if size or of_address:
        show_place(session, (size or of_address)[1], bool(size), form)
        return
    value = value_of(engine, rest, node)
    if value:
        session.print(value.text(form))
        return
    text = engine.names.qualified(rest, node)
    if octal := OCTAL.search(text):
        session.print("    %s is decimal here" % octal[0])
    if has_own(text):
        session.print(number(evaluate(text, engine.known), form))
    elif form:
        session.print(of_answer(engine.accepted("print " + text).lines[0], form))
    else:
        session.send("print " + text)


def show_place(session, text, is_size, form):
    """How many bytes a variable or a type has, or where a variable lies."""
    named = re.fullmatch(r"(?:(?:struct|enum)\s+)?([\w:]+)", text) if is_size else None
    type_ = type_of(session.engine, session.current, named[1]) if named and session.current in session.names.tables else None
    if type_ and not session.names.is_variable(session.current, named[1]):
        session.print(number(session.names.tables[session.current].size_of(type_), form))
        return
    value = value_of(session.engine, text, session.current)
    if value is None:
        raise Refusal("%s is no variable" % text)
    session.print(number(value.size if is_size else address(value), form or ("" if is_size else "x")))


def show_bytes(session, rest, form):
    """The bytes of a variable, or LENGTH bytes at an address, 16 in a line; with a form as x/4xw numbers, N of them."""
    rest = rest.lstrip("& ")
    value = value_of(session.engine, rest, session.current)
    words = re.fullmatch(r"/(\d*)([a-z]*)", form or "/")
    if value is None:
        words_of_rest = rest.split()
        node = words_of_rest.pop(0) if words_of_rest and not words_of_rest[0][0].isdigit() else session.current
        at, length = (words_of_rest + ["", ""])[:2]
    else:
        node, at, length = session.node_of(rest), str(address(value)), str(value.size)
    unit = next((UNITS[letter] for letter in words[2] if letter in UNITS), 0) if words else 0
    how = next((letter for letter in words[2] if letter in FORMS), "") if words else ""
    if words and words[1]:
        length = str(int(words[1]) * (unit or 1))
    length = length or "64"
    if not re.fullmatch("0x[0-9a-fA-F]+|[0-9]+", at) or not length.isdigit():
        raise Refusal("x wants NODE.PATH, or NODE ADDRESS LENGTH")
    start = int(at, 0)
    print_memory(session, node, start, min(int(length), MOST_SHOWN), unit, how)


def print_memory(session, node, start, length, unit, how):
    """Rows of bytes, or of numbers of so many bytes each."""
    for at in range(start, start + length, LONGEST):
        answer = session.engine.ask("mem %s %d %d" % (node, at, min(LONGEST, start + length - at)))
        if answer.is_refused or answer.lines[0] == "undef":
            session.refuse(answer.lines[0]) if answer.is_refused else session.print("undef")
            return
        data = bytes.fromhex(answer.lines[0])
        for line in dump(at, data) if unit < 2 else rows(at, data, unit, how or "x"):
            session.print(line)


def rows(start, data, unit, how):
    """Numbers in lines of 16 bytes."""
    for at in range(0, len(data) - unit + 1, 16):
        numbers = [data[place : place + unit] for place in range(at, min(at + 16, len(data) - unit + 1), unit)]
        words = (number(int.from_bytes(each, "little", signed=how == "d"), how, 8 * unit) for each in numbers)
        yield "%6d  %s" % (start + at, "  ".join(words))


def choose_process(session, rest, form):
    """Whose variables names without a process are; of the last event's without a word."""
    if rest and rest not in session.names.nodes:
        raise Refusal("the processes are %s" % ", ".join(session.names.nodes))
    session.chosen = rest or None
    session.print("names without a process are of %s%s" % (session.current, "" if rest else ", the process of the last event"))


def display(session, rest, form):
    """An expression that is shown at each stop; without a word all of them now."""
    if rest:
        session.add_display(rest, form)
    else:
        session.print_displays()


def undisplay(session, rest, form):
    numbers = rest.split() or [str(each) for each in session.displays]
    for each in numbers:
        if not each.isdigit() or int(each) not in session.displays:
            raise Refusal("%s is no number of a display" % each)
    for each in numbers:
        del session.displays[int(each)]


def show_threads(session, rest, form):
    """How threads stand, with the place in the source where that is known."""
    for node in rest.split() or session.names.nodes:
        answer = session.engine.ask("threads " + node)
        if answer.is_refused:
            session.refuse(answer.lines[0])
            session.explain(answer, "threads " + node)
            continue
        for line in answer.lines:
            session.print(line + place_behind(session, node, line))


def place_behind(session, node, line):
    """The functions in which the thread is that a line of an answer tells of, after a blank. One that trapped is told with its process."""
    first, _, how = line.partition(" ")
    if first == node:
        thread = session.engine.threads.trapped(node)
        return "" if thread is None else session.trapped_in(node, thread)
    if how in ("ended", "at begin") or not session.names.functions(node):
        call = session.engine.threads.call_of(node, int(first))
        return " " + in_words(call) if call else ""
    stack = session.engine.frames.of(node, int(first))
    return " in " + stack.chain() if len(stack) else ""


def show_names(session, rest, form):
    """The variables of a process, those with this part in their name."""
    words = rest.split()
    nodes = [words.pop(0)] if words and words[0] in session.names.nodes else session.names.nodes
    for node in nodes:
        for variable in session.names.variables(node):
            if all(word in variable.name for word in words):
                session.print("%s.%s  %s" % (node, variable.name, variable.type))


def show_where(session, rest, form):
    """The position, and the frames of the thread that made its event."""
    show_position(session, rest, form)
    if session.engine.position:
        show_stack(session, *session.engine.index.thread_at(session.engine.position))


def show_position(session, rest, form):
    if session.engine.position == 0:
        session.print("at 0, before the first of %d events" % session.engine.last)
    else:
        session.send("events 1")
