"""A tool that takes lines by hand: what is typed at its prompt, and what it says."""

import os
import readline
import sys

from logs.format import printable


def open_streams():
    """Bytes that are no text are none of the tool's words, and spoil none; a closed input has no lines."""
    if sys.stdin is None:
        sys.stdin = open(os.devnull, encoding="ascii")
    for stream in filter(None, (sys.stdin, sys.stdout)):
        stream.reconfigure(errors="replace")


def say(line):
    """What a terminal would obey is not among it, whatever a file of names holds."""
    print("\n".join(map(printable, line.split("\n"))), flush=True)


def lines_of(session, completer):
    """The lines of a terminal, each after the prompt as it is then, or those of a file or a pipe."""
    if not sys.stdin.isatty():
        return (line.rstrip("\n") for line in sys.stdin)
    readline.set_completer_delims(" \t()+-*/%<>=!&|,;{}@")
    readline.set_completer(completer)
    readline.parse_and_bind("tab: complete")
    return typed_lines(session)


def typed_lines(session):
    """The lines of the terminal; Ctrl-C takes back what was typed."""
    while True:
        try:
            yield input(session.prompt())
        except KeyboardInterrupt:
            print()
        except EOFError:
            print()
            return
