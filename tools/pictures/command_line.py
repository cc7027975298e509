"""The command line of a program that draws: what is wrong is said in one line, of its words and of its output."""

import argparse
import os
import sys

from logs.index import Index


class OneLineParser(argparse.ArgumentParser):
    """Says what is wrong with the words in one line."""

    def error(self, message):
        self.exit(2, "%s: %s\n" % (self.prog, message))


def warn(verdict):
    """Tells what is wrong with logs that something is made of."""
    for line in verdict.lines(lambda: Index(verdict.pairs[1::2], verdict.accepted)):
        print(line, file=sys.stderr)


def write(text):
    try:
        sys.stdout.write(text)
        sys.stdout.flush()
    except OSError as error:
        os.dup2(os.open(os.devnull, os.O_WRONLY), sys.stdout.fileno())
        sys.exit("the output was not written: %s" % error.strerror)
