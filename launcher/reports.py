"""Says what a trap means and in which functions it was, and that logs of several recordings were mixed, where the text of `record` or
`replay` tells of it: on a terminal by passing the text on, and of a file that has it by looking there.

reports.py PROGRAM WORD ..               (the words of the call, whose text is passed on as it is)
reports.py --told FILE PROGRAM WORD ..   (a file that the text was written to)
"""
from __future__ import annotations

import os
import re
import signal
import subprocess
import sys
import time

from commands import COMMANDS, files_of
from heads import head_of
from looking import is_file
from parents import end_by_signals, end_with_parent
from saying import say
from trapped import where_trapped

# So much of the text is kept: 16 lines of processes are less.
MOST_KEPT = 65536
# So many seconds it takes at most to find the functions in which processes trapped.
LONGEST = 10
MEANING = {
    "unreachable": "it came to an instruction `unreachable`: in C __builtin_trap or code that cannot be reached, in Rust a panic",
    "zero divisor": "it divided by 0, or took the rest of that",
    "overflow": "it divided the least number by -1",
    "memory range": "it read or wrote past the end of its memory, most often by a pointer or an index that is wrong, or a full stack",
    "table range": "it called by an index past the end of its table: a function pointer that is wrong",
    "empty element": "it called by an index at which its table is empty: a function pointer that is null",
    "type differs": "it called a function of another type than the pointer to it has",
    "exhausted": "its calls went more than 512 deep, or past 16,384 operands, locals and open blocks: a recursion without an end",
    "spent": "it ran 10,000,000 instructions without a call of liblog: a loop without an end, or one that has to yield now and then",
}
ENDED = re.compile(r"^([a-z0-9_]{1,32}): (\d+) events, trapped (%s)(?:,|$)" % "|".join(MEANING), re.M)


UNMATCHED = re.compile(r"^group: .*, ([1-9]\d*) unmatched,", re.M)


def tell(text, program, words):
    end = time.monotonic() + LONGEST
    for name, events, kind in ENDED.findall(text):
        say("%s trapped after its event %s, %s: %s" % (name, events, kind, MEANING[kind]))
        left = end - time.monotonic()
        where = where_trapped(program, words, name, left) if left > 0 else None
        if where:
            say("%s was in %s" % (name, where))
    if ENDED.search(text):
        say("`tools/events.py traps MODULE LOG ..` prints the lines of the debugger that go to the position before it")
    found = UNMATCHED.search(text)
    if found and are_all_given(words):
        say("%s receives took datagrams that no log here has sent, though all logs of the group are given: logs of several recordings are "
            "mixed, or one lacks its end. Give the logs of one recording" % found[1])


def are_all_given(words):
    """Whether the log of each process of the group is given."""
    heads = [head_of(path) for path in files_of(words)[1::2]] if COMMANDS[words[0]].takes_pairs else []
    return bool(heads) and None not in heads and len(heads) == heads[0].processes


def passed_on(words):
    """The status of the call, whose output is passed on, and the last of its text."""
    run = subprocess.Popen(words, stdout=subprocess.PIPE, bufsize=0, preexec_fn=end_with_parent)
    end_by_signals(run.terminate)
    kept = b""
    while True:
        piece = os.read(run.stdout.fileno(), MOST_KEPT)
        if not piece:
            status = run.wait()
            return (status if status >= 0 else 128 - status), kept
        kept = (kept + piece)[-MOST_KEPT:]
        try:
            while piece:
                piece = piece[os.write(1, piece) :]
        except OSError:
            run.stdout.close()
            run.wait()
            return 6, b""


def tell_of_file(path, program, words):
    """Of the end of a file, which has the text of this call last."""
    data = b""
    if is_file(path):
        with open(path, "rb") as file:
            file.seek(max(0, os.fstat(file.fileno()).st_size - MOST_KEPT))
            data = file.read(MOST_KEPT)
    tell(data.decode("utf-8", "replace"), program, words)


def main():
    if sys.argv[1] == "--told":
        tell_of_file(sys.argv[2], sys.argv[3], sys.argv[4:])
        return 0
    end_with_parent(signal.SIGTERM)
    status, text = passed_on(sys.argv[1:])
    if status in (0, 1):
        tell(text.decode("utf-8", "replace"), sys.argv[1], sys.argv[2:])
    return status


if __name__ == "__main__":
    sys.exit(main())
