"""What becomes of a line that is typed while a schedule is played."""

import re
from dataclasses import dataclass

from by_hand import looking as of_session
from naming import LONGEST_LINE
from playing.known import number_of
from playing.player import ITEMS, PlayingFailed, counts_of
from playing_by_hand import following, keeping, looking
from playing_by_hand.items import USAGE, count_of, item_of
from playing_by_hand.played import Played
from playing_by_hand.told import in_words
from playing_by_hand.words import HELP, REPEATED, expanded
from schedules.waiting import wait_of
from sessions.names import Refusal
from sessions.reading import LineRefused

# Of more events than this in one answer the bytes are not shown.
MOST_WITH_BYTES = 200


@dataclass(frozen=True)
class Line:
    """A line of the schedule, how many of its tries acted, the number of the typed line that it came from, which is 0 or less if it
    was there before, and how many events of a recording were followed before it."""

    text: str
    acted: int
    typed: int
    followed: int

    @property
    def is_item(self):
        return not self.text.startswith("#")


class Session:
    def __init__(self, group, player, names, print_line, is_by_hand=False):
        self.group, self.player, self.names, self.print, self.is_by_hand = group, player, names, print_line, is_by_hand
        self.engine, self.lines = Played(group, player, names), []
        # The events of a recording that was begun from, and how many of them were followed or left behind.
        self.steps, self.followed = [], 0
        # How many lines were typed, the one that an empty line does again, and the files that were written.
        self.typed, self.last, self.saved = 0, "", set()
        self.over, self.refused = False, 0

    @property
    def known(self):
        return self.engine.known

    @property
    def current(self):
        """The process whose variables names without one are."""
        return self.known.last_node

    def node_of(self, text):
        """The process that a variable's path names, or the current one."""
        found = self.names.reference(text.lstrip("*& "), 0)
        return found[0] if found else self.current

    def prompt(self):
        return "(play %d) " % self.known.events

    def pairs(self):
        return [(line.text, line.acted) for line in self.lines]

    def handle(self, typed):
        """Does what a line asks for; an empty one asks for the last once more."""
        typed = typed.strip() or self.last
        word, form, rest = expanded(typed)
        self.last = typed if word in REPEATED else ""
        if not typed or typed.startswith("#"):
            return
        self.typed += 1
        try:
            self.handle_word(typed, word, form, rest)
        except LineRefused as refusal:
            self.refuse("? %s" % refusal)
            self.explain(refusal.answer)
        except Refusal as refusal:
            self.refuse("? %s" % refusal)
        except OSError as error:
            self.refuse("? %s: %s" % (error.filename, error.strerror))
        except (ValueError, RecursionError) as error:
            # A name of a file with a zero byte, or a path that no one types.
            self.refuse("? %s" % error)
        except PlayingFailed as failed:
            self.refuse("? %s" % failed)
            self.give_up()
        except KeyboardInterrupt:
            self.give_up()

    def handle_word(self, typed, word, form, rest):
        if word in ITEMS:
            self.item(item_of(self.known, self.group.names, word, rest))
        elif len(typed) > LONGEST_LINE:
            raise Refusal("8 line too long")
        elif word in COMMANDS:
            COMMANDS[word](self, rest, form)
        elif word == "mem":
            self.send(typed)
        else:
            self.refuse("? 1 syntax at column 1")
            self.print("    %s is no word here: help lists them" % typed.split()[0])

    def refuse(self, text):
        self.refused += 1
        self.print(text)

    def send(self, line):
        """Sends a line that changes nothing, and prints its answer."""
        answer = self.engine.ask(line, self.print)
        if answer.is_refused:
            self.refused += 1
            self.explain(answer)

    def explain(self, answer):
        """What helps beside the answer to a line that is refused."""
        column = re.fullmatch(r"\? 1 syntax at column (\d+)", answer.lines[0])
        if column:
            self.print("    %s\n    %s^" % (answer.sent, " " * (int(column[1]) - 1)))
        elif answer.lines[0].startswith("? 2"):
            self.print("    the processes are %s" % ", ".join(self.group.names))

    # Items

    def item(self, line):
        """Plays an item that was typed, and shows what it did, or why it did nothing."""
        answer = self.play(line)
        if answer and line.startswith("run ") and counts_of(answer)[1]:
            self.show_why(*map(number_of, line.split(" ")[1:3]))

    def play(self, line, shows_counts=True):
        """Plays an item, keeps it and shows what it did; its answer, which is empty if it was refused."""
        answer = list(self.player.ask(line))
        if answer[0].startswith("? "):
            self.refuse(answer[0])
            self.print("    " + USAGE[line.split(" ")[0]])
            return []
        if answer[-1].startswith("full "):
            self.refuse("? the log of %s is full, so this is taken back" % answer[-1][5:])
            self.rebuild()
            return []
        acted, idle = counts_of(answer)
        self.engine.take(line, answer)
        self.keep(line, acted)
        self.show(answer[-1] if shows_counts and (idle or len(answer) == 1) else "")
        self.show_ends()
        return answer

    def keep(self, line, acted=1):
        self.lines.append(Line(line, acted, self.typed, self.followed))

    def show(self, counts):
        """The events of an item, with what they sent, took and printed, and its counts if they tell more."""
        events, self.known.last_events = self.known.last_events, []
        for event, did in events:
            self.print(event)
            if did and len(events) <= MOST_WITH_BYTES:
                self.print("    " + in_words(self.player, self.group.names, did))
        if counts:
            self.print(counts)

    def show_ends(self):
        """How the processes are now that are not as they were."""
        before = [process.end for process in self.known.processes]
        self.engine.see_ends()
        for end, process in zip(before, self.known.processes):
            if process.end != end:
                self.print("%s: %d events, %s" % (process.name, process.events, process.end))

    def show_why(self, number, thread):
        """What the thread waits for whose tries were idle."""
        process = self.known.processes[number]
        if process.end != "running":
            self.print("    %s is %s" % (process.name, process.end))
            return
        stands = self.engine.threads(number)
        told = wait_of(self.engine, process, stands, thread) if thread in stands else "was not made"
        self.print("    %s: thread %d %s" % (process.name, thread, told))

    def lose(self, rest, form):
        """Gives a datagram up that is under way."""
        words = rest.split()
        chosen = [each for each in self.known.under_way() if words == [self.group.names[each.sender], str(each.number)]]
        if not chosen:
            raise Refusal("lose wants NODE N, of a datagram that `under way` lists")
        line = following.lost_line(self.group.names, chosen[0])
        self.known.lost.add((chosen[0].sender, chosen[0].number))
        self.keep(line)
        self.print(line)

    # Beginning, and taking back

    def begin(self, parts):
        """Plays what was there before a line is typed, part by part, which can be taken back one by one."""
        for number, part in enumerate(parts):
            for line, answer in zip(part, self.player.answers(part)):
                self.engine.take(line, answer)
                self.lines.append(Line(line, counts_of(answer)[0], number - len(parts) + 1, self.followed))
            self.followed += bool(self.steps)
        self.known.last_events = []
        self.engine.see_ends()

    def undo(self, rest, form):
        """Takes back what the last line that was typed did, or the last N."""
        count = count_of(rest)
        typed = sorted({line.typed for line in self.lines})
        if count < 1 or not typed:
            raise Refusal("undo wants how many lines, and there are %d to take back" % len(typed))
        for line in self.take_back(typed[max(0, len(typed) - count)]):
            self.print("taken back: " + line.text)

    def again(self, rest, form):
        """Takes back all that was typed."""
        self.take_back(1)
        self.print("back at %d events" % self.known.events)

    def take_back(self, first):
        """Goes back to before the typed line of this number; the lines that are gone."""
        gone = [line for line in self.lines if line.typed >= first]
        self.lines = [line for line in self.lines if line.typed < first]
        if gone:
            self.followed = gone[0].followed
        self.rebuild()
        return gone

    def rebuild(self):
        """Plays the lines so far from the beginning."""
        self.player.again()
        self.engine = Played(self.group, self.player, self.names)
        items = [line.text for line in self.lines if line.is_item]
        for line, answer in zip(items, self.player.answers(items)):
            self.engine.take(line, answer)
        self.known.last_events = []
        self.known.lost = {following.lost_in(self.group.names, line.text) for line in self.lines if not line.is_item}
        self.engine.see_ends()

    def give_up(self):
        """Leaves what goes on for long, by a new program that is brought to where the session was."""
        self.print("given up; going back to where the session was")
        self.player.restart()
        self.take_back(self.typed)
        self.print("back at %d events" % self.known.events)

    def quit(self, rest, form):
        self.over = True

    def help(self, rest, form):
        for line in HELP.splitlines():
            self.print(line)

    def run(self, lines):
        """Handles lines until they end or the session does; its status."""
        try:
            for line in lines:
                self.handle(line)
                if self.over:
                    break
        except PlayingFailed as failed:
            self.print(str(failed))
            return 1
        return self.player.end()


# Each gets the session, what comes after the word, and the form after a slash, as /x.
COMMANDS = {
    "help": Session.help,
    "under_way": looking.show_under_way,
    "processes": looking.show_processes,
    "threads": looking.show_threads,
    "datagram": looking.show_datagram,
    "printed": looking.show_printed,
    "print": of_session.show_value,
    "bytes_at": of_session.show_bytes,
    "names": of_session.show_names,
    "list": looking.show_schedule,
    "lose": Session.lose,
    "follow": following.follow,
    "undo": Session.undo,
    "again": Session.again,
    "save": keeping.save,
    "record": keeping.record,
    "quit": Session.quit,
}
# What the tab key offers beside processes and their variables.
WORDS = sorted({*ITEMS, *COMMANDS, "mem", "under"} - {"under_way", "bytes_at"})
