"""What becomes of a line that is typed by hand."""

import re

from asking.conversation import Ended
from by_hand.commands import COMMANDS
from by_hand.completion import LINES
from by_hand.pausing import Pause
from by_hand.words import REPEATED, expanded, instead_of
from logs.wording import bytes_lines, shown
from naming import LONGEST_LINE, NAME
from sessions.arithmetic import has_own
from sessions.casts import datagram, type_of
from sessions.engine import MOVES
from sessions.names import WITH_EXPRESSIONS, Refusal
from sessions.places import in_words
from sessions.points import ignored
from sessions.reading import LineRefused
from sessions.sources import Sources

EVENT = re.compile(r"(?:at )?(\d+): (.*)")
TELLS_EVENTS = (*MOVES, "events")


class Session:
    def __init__(self, engine, print_line):
        self.engine, self.print = engine, print_line
        self.last, self.over, self.refused = "", False, 0
        self.shows_sent, self.shows_bytes = False, True
        # The process that was chosen, expressions that are shown at each stop, and structs of datagrams by their calls.
        self.chosen, self.displays, self.casts = None, {}, {}
        # The frame that was chosen: the position, the thread, and its number there.
        self.chosen_frame = None
        # What pauses a walk in place of Ctrl-C.
        self.is_paused = None
        # Where lines go until `end`, and how many displays were made.
        self.collect, self.made_displays = None, 0
        self.sources = Sources(engine.names.modules.values())
        engine.on_line, engine.keeps_reads = self.hear, True

    @property
    def names(self):
        return self.engine.names

    @property
    def current(self):
        """The process whose variables names without one are."""
        return self.chosen or self.engine.current

    def node_of(self, text):
        """The process that a variable's path names, or the current one."""
        found = self.names.reference(text.lstrip("*& "), 0)
        return found[0] if found else self.current

    def hear(self, sent):
        if self.shows_sent:
            self.print("> " + sent)

    def greeting(self):
        return "%d events of %s; help lists the words" % (self.engine.last, ", ".join(self.names.nodes))

    def prompt(self):
        return "(friday %d) " % self.engine.position

    def handle(self, typed):
        """Does what a line asks for; an empty one asks for the last once more."""
        typed = typed.strip()
        if self.collect is not None:
            if typed == "end":
                self.collect = None
            elif typed:
                self.collect.append(typed)
            return
        typed = typed or self.last
        self.last = typed if expanded(typed)[0] in REPEATED else ""
        before = self.engine.position
        self.handle_line(typed)
        if self.engine.position != before:
            self.print_displays()

    def handle_line(self, typed):
        word, form, rest = expanded(typed)
        if not typed or typed.startswith("#"):
            return
        try:
            if len(typed) > LONGEST_LINE:
                raise Refusal("8 line too long")
            if word in COMMANDS:
                COMMANDS[word](self, rest, form)
            elif word in LINES:
                self.send(" ".join([word, rest]).strip(), typed)
            else:
                self.refuse_word(typed, word, rest)
        except LineRefused as refusal:
            self.refuse("? %s" % refusal)
            self.explain(refusal.answer, typed)
        except Refusal as refusal:
            self.refuse("? %s" % refusal)
        except OSError as error:
            self.refuse("? %s: %s" % (error.filename, error.strerror))
        except (ValueError, RecursionError) as error:
            # A name of a file with a zero byte, or a path that no one types.
            self.refuse("? %s" % error)
        except KeyboardInterrupt:
            self.give_up()

    def refuse(self, text):
        self.refused += 1
        self.print(text)

    def refuse_word(self, typed, word, rest):
        """Says what to do in place of a word of gdb's; of others that they are none."""
        advice = instead_of(word, rest)
        if advice:
            self.refuse("? %s: %s" % (typed.split()[0], advice))
        else:
            self.refuse("? 1 syntax at column 1")
            self.print("    %s is no word here: help lists them, docs/gdb.md has gdb's" % typed.split()[0])

    def walk(self, target=None):
        """Goes on to a position, or to the end, unless a point or Ctrl-C stops it before, and tells where that is."""
        answer = self.walked(self.engine.last if target is None else target, self.print_event)
        self.print_place(answer)
        return answer

    def walked(self, target, told=ignored):
        if self.is_paused:
            return self.engine.walk(target, self.is_paused, told)
        with Pause() as is_asked:
            return self.engine.walk(target, is_asked, told)

    def add_display(self, text, form):
        self.made_displays += 1
        self.displays[self.made_displays] = "print%s %s" % (form, self.names.qualified(text, self.current))
        self.print_display(self.made_displays)

    def print_displays(self):
        for number in list(self.displays):
            self.print_display(number)

    def print_display(self, number):
        """One expression with its value; what is refused is no display any more."""
        line, lines, refused = self.displays[number], [], self.refused
        told, self.print = self.print, lines.append
        try:
            self.handle_line(line)
        finally:
            self.print = told
        if self.refused > refused:
            del self.displays[number]
        else:
            lines = ["%d: %s = %s" % (number, line.split(" ", 1)[1], lines[-1])]
        for each in lines:
            self.print(each)

    def send(self, line, typed=None):
        """Does a line of the debugger."""
        if line.split(" ", 1)[0] == "quit":
            self.over = True
        else:
            self.tell(line, typed)

    def tell(self, line, typed=None):
        """The answer to a line, which is printed with the bytes of events."""
        verb = line.split(" ", 1)[0]
        answer = self.engine.ask(line, self.print_event if verb in TELLS_EVENTS else self.print)
        if answer.is_refused:
            self.refused += 1
            self.explain(answer, typed)
        elif verb in MOVES:
            self.print_place(answer)
        return answer

    def print_event(self, line):
        """A line of an answer, and what its event printed, sent or took."""
        self.print(line)
        found = EVENT.fullmatch(line) if self.shows_bytes else None
        event = self.engine.event_at(int(found[1])) if found else None
        if event and event.entry.text(event.log.name) == found[2]:
            for told in bytes_lines(event.entry, self.names.called, self.in_words(event)):
                self.print("    " + told)

    def in_words(self, event):
        """How the bytes of an event are told: as the struct that its call was cast to."""
        type_ = type_of(self.engine, event.log.name, self.casts.get(event.entry.call.name, ""))
        if type_ is None:
            return shown
        return lambda data: datagram(self.engine, event.log.name, type_, data).text()

    def print_place(self, answer):
        """Where in its source the thread of the last event stands now, if its guest was built to keep that."""
        found = EVENT.fullmatch(answer.lines[-1]) if answer.lines else None
        told = self.standing(*found[2].split()[1:3]) if found else None
        if told:
            self.print("    " + told)

    def standing(self, node, thread):
        threads, thread = self.engine.threads, int(thread)
        if threads.trapped(node) == thread:
            return "%s %d %s%s" % (node, thread, threads.how(node, thread), self.trapped_in(node, thread))
        if not threads.keeps_places(node):
            return None
        how = threads.how(node, thread)
        if how == "at begin" or not how.startswith("at "):
            return "%s %d has ended" % (node, thread)
        call = threads.call_of(node, thread)
        return "%s %d stands %s %s" % (node, thread, " ".join(how.split()[:2]), in_words(call)) if call else None

    def trapped_in(self, node, thread):
        """The functions that a thread was in where it trapped."""
        stack = self.engine.frames.of(node, thread)
        return " in " + stack.chain() if len(stack) else ""

    def explain(self, answer, typed):
        """What helps beside the debugger's answer to a line that it refuses."""
        column = re.fullmatch(r"\? 1 syntax at column (\d+)", answer.lines[0])
        if column and column[1] == "1":
            self.print("    %s is no word here: help lists them, docs/gdb.md has gdb's" % (typed or answer.sent).split()[0])
        elif column:
            self.print("    %s\n    %s^" % (answer.sent, " " * (int(column[1]) - 1)))
            if answer.sent.split(" ", 1)[0] in WITH_EXPRESSIONS:
                self.explain_name(NAME.match(answer.sent, int(column[1]) - 1))
            if has_own(answer.sent):
                self.print("    & | ^ ~ << >> ?: are computed by p alone: in points write x / 4 % 2 for the bit 4 of x, x * 4 for x << 2")
        elif answer.lines[0].startswith("? 2") and "@_" in answer.sent:
            self.print("    @_ is each process, and stands in sum, min, max and count: sum(@_.events)")
        elif answer.lines[0].startswith("? 2"):
            self.print("    the processes are %s" % ", ".join(self.names.nodes))
        elif answer.lines[0].startswith("? 7"):
            self.print("    the logs have %d events" % self.engine.last)

    def explain_name(self, found):
        """What a name may be that the debugger does not know."""
        if found is None or found[0][0].isdigit():
            return
        name, is_whole = found[0], found.string[found.end() : found.end() + 1] != "."
        if name in self.names.nodes and is_whole:
            self.print("    %s is a process: `p %s.NAME` shows one of its variables, and `names %s` lists them" % (name, name, name))
        elif name not in self.names.nodes and is_whole:
            node = self.current
            self.print("    %s is no variable of %s: `names %s` lists them, and local variables are not told" % (name, node, node))
        elif name not in self.names.nodes:
            self.print("    %s is no process: they are %s" % (name, ", ".join(self.names.nodes)))

    def give_up(self):
        """Leaves a walk, and goes on where the session was."""
        self.print("given up; going back to position %d" % self.engine.position)
        try:
            self.engine.give_up()
        except LineRefused as refusal:
            self.print("%s: ? %s" % (refusal.answer.sent, refusal))

    def run(self, lines):
        """Handles lines until they end or the session does; its status."""
        try:
            for line in lines:
                self.handle(line)
                if self.over:
                    break
        except Ended as ended:
            self.print("the program ended with status %s" % ended)
            return int(str(ended))
        return self.engine.debugger.end()
