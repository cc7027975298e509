"""The commands of the program: a row adds one, with its page in help/. All that the launcher says of a call's words is read off
these rows: its help, what is wrong with words, and which files they name. The program itself is the judge of them."""
from __future__ import annotations

import difflib
from dataclasses import dataclass, field

IMAGES = "--images"
PAIRS = ["MODULE", "LOG", ".."]


@dataclass(frozen=True)
class Command:
    """The words are written as in the help; of a number the least and the most that it can be are told, and of files that it makes
    for each process how their names end."""

    name: str
    words: str
    about: str
    numbers: dict = field(default_factory=dict)
    makes: tuple = ()

    @property
    def wanted(self):
        """The words one by one, without the option."""
        return [word for word in self.words.split() if word != "[%s]" % IMAGES]

    @property
    def takes_images(self):
        return IMAGES in self.words

    @property
    def takes_pairs(self):
        return self.wanted[-3:] == PAIRS

    @property
    def usage(self):
        return "friday %s %s" % (self.name, self.words)


COMMANDS = {
    command.name: command
    for command in (
        Command("record", "[--images] SCHEDULE", "run the processes of a schedule, write NAME.log of each", makes=(".log",)),
        Command("play", "SCHEDULE", "record item by item: each line of standard input is answered"),
        Command("replay", "[--images] MODULE LOG ..", "replay logs, report how each process ended"),
        Command("debug", "MODULE LOG ..", "debug a replay; lines come from standard input"),
        Command("schedule", "MODULE LOG ..", "print a schedule that records these logs again"),
        Command("cut", "P N MODULE LOG ..", "keep only what event N of process P depends on", {"P": (0, 15), "N": (1, 2**63 - 1)}, (".cut",)),
        Command("streams", "MODULE LOG ..", "report byte streams carried by datagrams"),
        Command("migrate", "LOG NEW", "rewrite a log in the current version"),
        Command("drill", "N", "self-test: record, replay and watch N rounds in memory", {"N": (1, 100000)}),
    )
}
# The launcher's own words.
OWN = {
    "help": "print this, or with COMMAND the page of one command",
    "--prove": "check the proofs (1 to 2.5 processor hours; continues if stopped)",
    "--version": "the version, and whether the program is proved",
    "--program": "the path of the program that runs",
}


def plain(words):
    """The words of a command without its name and its option."""
    rest = list(words[1:])
    if COMMANDS[words[0]].takes_images and IMAGES in rest:
        rest.remove(IMAGES)
    return rest


def fault(words):
    """What is wrong with the words of a call, in a sentence, or None."""
    if not words:
        return "no command was given"
    if words[0] not in COMMANDS:
        return no_command(words[0])
    command, rest = COMMANDS[words[0]], plain(words)
    return option_fault(command, rest) or number_fault(command, rest) or count_fault(command, rest)


def is_command(words):
    return fault(words) is None


def no_command(word):
    names = [*COMMANDS, *OWN]
    letters = word.lower().strip("-")
    near = difflib.get_close_matches(letters, names, 1, 0.6) or [name for name in OWN if letters and name.strip("-").startswith(letters)]
    return "there is no command `%s`%s" % (word, ": did you mean `%s`?" % near[0] if near else "; `friday help` lists them")


def option_fault(command, rest):
    for word in rest:
        if word == "":
            return "a word is empty, and names no file"
        if not word.startswith("-") or is_number_of(command, rest, word):
            continue
        if command.takes_images and word == IMAGES:
            return "%s was given twice" % IMAGES
        only = "; its only option is %s" % IMAGES if command.takes_images else ", which has none"
        return "`%s` is no option of %s%s. A file whose name begins with - is written ./%s" % (word, command.name, only, word)
    return None


def is_number_of(command, rest, word):
    """Whether a word that begins with a minus stands where a number has to be; what is wrong with it is told there."""
    return word in rest[: len(command.numbers)]


def number_fault(command, rest):
    for name, word in zip(command.wanted, rest):
        if name in command.numbers and not is_number(word, *command.numbers[name]):
            return "%s of %s is a number from %d to %d, and not `%s`" % (name, command.name, *command.numbers[name], word)
    return None


def is_number(word, least, most):
    """Whether it is a decimal number within these, with any zeros in front."""
    digits = word.lstrip("0")
    return word.isascii() and word.isdigit() and len(digits) <= len(str(most)) and least <= int(digits or "0") <= most


def count_fault(command, rest):
    if not command.takes_pairs:
        missing = command.wanted[len(rest) :]
        if missing:
            return "%s wants %s as well" % (command.name, " and ".join(missing))
        return "%s takes no word after %s: `%s`" % (command.name, command.wanted[-1], rest[len(command.wanted)]) if len(rest) > len(command.wanted) else None
    before = len(command.wanted) - len(PAIRS)
    if len(rest) < before:
        return "%s wants %s as well" % (command.name, " and ".join(command.wanted[len(rest) : before] + ["MODULE LOG"]))
    files = rest[before:]
    if not files:
        return "%s wants at least one pair, a module and then its log" % command.name
    if len(files) % 2:
        return "the files of %s come in pairs, each module and then its log; the last one, `%s`, is alone" % (command.name, files[-1])
    return None


def files_of(words):
    """The files that a good call reads by its words, in its order, and for pairs each module before its log."""
    command = COMMANDS[words[0]]
    return [word for name, word in named(command, plain(words)) if name in ("SCHEDULE", "MODULE", "LOG")]


def named(command, rest):
    """Each word with what it stands for."""
    before = len(command.wanted) - len(PAIRS) if command.takes_pairs else len(command.wanted)
    return [*zip(command.wanted, rest[:before]), *((PAIRS[place % 2], word) for place, word in enumerate(rest[before:]))]
