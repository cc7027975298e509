"""Has a program answer the words of a call: finds one of the sources as they are, or builds one without proofs.

The status is 0 once a program is noted where the shell script looks. Otherwise the call is over, and the status is the call's.
"""
from __future__ import annotations

import shutil
import signal
import sys

from ended import hint
from parents import end_by_signals, end_with_parent
from saying import printed, say
from sources import found
from unproved import build, run_once
from words import refusal

# The status where there is no program to run.
NO_PROGRAM = 8


def prepare(words):
    if found():
        return 0
    asks_for_program = words == ["--program"]
    refused = None if asks_for_program else refusal(words)
    if refused:
        status, text = refused
        status = printed(text + "\n", status)
        hint(status, words)
        return status
    if not shutil.which("rt"):
        say("there is no program yet, and no `rt` to build it with: README.md says where it comes from")
        return NO_PROGRAM
    if build():
        return 0
    return NO_PROGRAM if asks_for_program else run_once(words)


if __name__ == "__main__":
    end_with_parent(signal.SIGTERM)
    end_by_signals()
    try:
        sys.exit(prepare(sys.argv[1:]))
    except OSError as error:
        say("%s: %s; no program was built" % (error.filename, error.strerror))
        sys.exit(NO_PROGRAM)
