"""How far a hunt is: a file in its folder, by which it goes on from there, also after it was killed."""

import hashlib
import os
import re

LINE = re.compile(r"through (\d{1,18}), (\d{1,18}) events|hit (\d{1,18}) (.*)")
# So many bytes are told of a line that is none.
MOST_TOLD = 60


class OtherHunt(Exception):
    """The folder has the file of a hunt with other words, modules or another script."""


class Progress:
    def __init__(self, folder, seeds, words, files):
        """`files` are the modules, and the script if there is one: with other bytes it is another hunt."""
        self.path = os.path.join(folder, "seeds-" + seeds)
        self.head = [in_ascii(words), *("%s %s" % (hashlib.sha256(data_of(file)).hexdigest(), in_ascii(file)) for file in files)]
        # The first seed that is not tried yet, how many events those before have, and the seeds that count.
        self.next, self.events, self.hits = None, 0, {}

    def read(self):
        """Takes up what an earlier call has left. A line that it could not end is as if it had not been begun."""
        os.makedirs(os.path.dirname(self.path) or ".", exist_ok=True)
        text = data_of(self.path).decode("latin-1") if os.path.exists(self.path) else ""
        lines = text.split("\n")[:-1]
        was_begun = lines[: len(self.head)] == self.head
        if not was_begun and lines != self.head[: len(lines)]:
            raise OtherHunt("%s is of a hunt with other words or other modules; name another --folder" % self.path)
        for line in lines[len(self.head) :]:
            self.take(line)
        if not was_begun or not text.endswith("\n"):
            with open(self.path, "w", encoding="ascii") as file:
                file.write("".join(line + "\n" for line in (lines if was_begun else self.head)))

    def take(self, line):
        found = LINE.fullmatch(line)
        if not found:
            raise OtherHunt("%s has a line that no hunt has written: %s" % (self.path, ascii(line[:MOST_TOLD])))
        if found[1]:
            self.next, self.events = int(found[1]) + 1, int(found[2])
        else:
            self.hits[int(found[3])] = found[4]

    def write(self, line):
        with open(self.path, "a", encoding="ascii") as file:
            file.write(in_ascii(line) + "\n")

    def note_hit(self, seed, why):
        self.hits[seed] = why
        self.write("hit %d %s" % (seed, why))

    def note_through(self, seed, events):
        """All seeds up to this one are tried, and have so many events."""
        self.next, self.events = seed + 1, events
        self.write("through %d, %d events" % (seed, events))


def in_ascii(text):
    """The text as one line, whatever was typed."""
    return "".join(letter if " " <= letter <= "~" else ascii(letter)[1:-1] for letter in text)


def data_of(path):
    with open(path, "rb") as file:
        return file.read()
