"""The words that are typed while a schedule is played, and what helps."""

import re

SHORT = {
    "r": "run", "d": "deliver", "u": "under_way", "way": "under_way", "under": "under_way", "l": "list", "schedule": "list", "ps": "processes",
    "p": "print", "t": "threads", "x": "bytes_at", "h": "help", "?": "help", "q": "quit", "exit": "quit", "f": "follow", "s": "save", "back": "undo",
}
# What an empty line does again: going on, and looking.
REPEATED = ("run", "deliver", "follow", "under_way", "processes", "print", "bytes_at", "threads", "list", "mem")

HELP = """\
items      run NODE [THREAD] [N]    tries of a thread: r a, r a 1 3; an empty line does the last one again
           deliver NODE N           the Nth datagram that NODE sent; deliver alone takes the one that is longest under way
           inject NODE HEX  clock NODE V  random NODE HEX  signal NODE S  kill NODE
           lose NODE N              that datagram is not listed any more; the schedule says that it is lost
           follow [N]               the next N events of the recording that was begun from, without what was lost since
looking    under way                the datagrams that were sent and not delivered, and those that wait to be taken
           p NODE.PATH  p EXPR      a variable by its name, or any expression, as in a session; p/x in hexadecimal; names lists them
           x NODE.PATH              its bytes; x NODE ADDRESS LENGTH any bytes
           threads [NODE]           where threads stand; processes: how the processes are; printed NODE: what it printed
           list                     the items so far
keeping    undo [N]                 takes back what the last line did, or the last N; again takes all of them back
           save FILE                writes the schedule so far, without the tries that did nothing
           record [FOLDER]          saves it there, records it, and opens the debugger
Ctrl-C gives up what is being done. q ends.
"""


def expanded(line):
    """The word in front in full, the form after a slash, and what comes after both."""
    found = re.match(r"\s*([A-Za-z_?]+)(/\w+)?(?:\s+|$)(.*)", line, re.S)
    if not found:
        return "", "", line.strip()
    word, rest = SHORT.get(found[1], found[1]), found[3].strip()
    if word == "under_way" and rest == "way":
        rest = ""
    return word, found[2] or "", rest
