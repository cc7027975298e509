"""Asks the program again, to explain a call that is over: by calls that write no file, and only of regular files, since what a pipe
had is gone."""
from __future__ import annotations

import contextlib
import os
import re
import subprocess

from commands import COMMANDS, files_of
from looking import is_file

# So long an explanation may take.
MOST_SECONDS = 30
REFUSED = re.compile(r"friday: refused (.*): (TooLarge|TooMany|line \d+ BadLine|item \d+ LogFull|\d+ [A-Z][A-Za-z]+)\n\Z", re.S)
REPORTED = re.compile(r"([a-z0-9_]{1,32}): (\d+) events, (.*), (log whole|\d+ bytes left over|diverged at (\d+): (\d \w+))")
# The head of a log of version 2 and nothing else: process 0 of 1, which is called a.
HEAD = b"LLOG" + b"".join(number.to_bytes(4, "little") for number in (2, 1, 0)) + b"\1a"
# More steps than there can be events.
TO_THE_END = "step 9223372036854775807\n"


class Again:
    """The program that answered a call, and what it says of the call's files."""

    def __init__(self, program, words):
        self.program, self.words, self.command = program, words, COMMANDS[words[0]]
        self.files = files_of(words)
        self.pairs = list(zip(self.files[::2], self.files[1::2])) if self.command.takes_pairs else []

    def can_be_asked(self):
        return all(is_file(path) for path in self.files)

    def ask(self, words, lines="", seconds=MOST_SECONDS):
        """The status and the text of a call, or -1 and no text if it takes too long or cannot begin."""
        how = {"input": lines.encode(), "stdout": subprocess.PIPE, "stderr": subprocess.DEVNULL, "timeout": seconds}
        with contextlib.suppress(OSError, ValueError, subprocess.SubprocessError):
            done = subprocess.run([self.program, *words], **how)
            return done.returncode, done.stdout.decode("utf-8", "surrogateescape")
        return -1, ""

    def refusal(self, words, lines=""):
        """The file and the reason with which a call is refused, or None."""
        status, text = self.ask(words, lines)
        found = REFUSED.search(text) if status == 3 else None
        return (found[1], found[2]) if found else None

    def of_pairs(self, name):
        return [name, *(word for pair in self.pairs for word in pair)]

    def of_module(self, path):
        """With which reason a module is refused, or None: it is replayed with a log that has no events."""
        reader, writer = os.pipe()
        try:
            os.write(writer, HEAD)
            os.close(writer)
            words = [self.program, "replay", path, "/proc/self/fd/%d" % reader]
            done = subprocess.run(words, pass_fds=[reader], stdout=subprocess.PIPE, stderr=subprocess.DEVNULL, timeout=MOST_SECONDS)
        except (OSError, ValueError, subprocess.SubprocessError):
            return None
        finally:
            os.close(reader)
        found = REFUSED.search(done.stdout.decode("utf-8", "surrogateescape")) if done.returncode == 3 else None
        return found[2] if found and found[1] == path else None

    def report(self):
        """What `replay` says of each pair's process: its name, its events, its end, its verdict, and of a divergence where and why."""
        _, text = self.ask(self.of_pairs("replay"))
        lines = (REPORTED.fullmatch(line) for line in text.split("\n"))
        return [Told(*line.groups()) for line in lines if line]

    def waiting(self, name):
        """At which call each thread of a process waits after all events that replay accepts, by the thread's number."""
        _, text = self.ask(self.of_pairs("debug"), "%sthreads %s\n" % (TO_THE_END, name))
        return dict(re.findall(r"^(\d+) at (.+)$", text, re.M))


class Told:
    """A process's line of the report of `replay`."""

    def __init__(self, name, events, end, verdict, entry, reason):
        self.name, self.events, self.end, self.verdict = name, int(events), end, verdict
        self.entry, self.reason = int(entry or 0), reason

    def is_whole(self):
        return self.verdict == "log whole"
