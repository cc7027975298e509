"""Items as they are typed: with names of processes in place of numbers."""

from sessions.names import Refusal

USAGE = {
    "run": "run NODE [THREAD] [N]",
    "deliver": "deliver NODE N, of the datagrams that `under way` lists, or deliver for the first of them",
    "inject": "inject NODE HEX",
    "clock": "clock NODE V",
    "random": "random NODE HEX",
    "signal": "signal NODE S, with S from 1 to 31",
    "kill": "kill NODE",
}


def numbered(names, node):
    """The number of a process, which may be typed as its name."""
    if node in names:
        return str(names.index(node))
    if node in map(str, range(len(names))):
        return node
    raise Refusal("the processes are %s" % ", ".join(names))


def count_of(rest):
    """How many are meant: 1 if nothing is said, and 0 if it is no number."""
    if not rest:
        return 1
    return int(rest) if rest.isdecimal() and len(rest) < 10 else 0


def item_of(known, names, word, rest):
    """The line of a schedule for what was typed."""
    words = rest.split()
    if word == "deliver" and not words:
        waiting = known.under_way()
        if not waiting:
            raise Refusal("no datagram is under way")
        words = [names[waiting[0].sender], str(waiting[0].number)]
    if not words:
        raise Refusal(USAGE[word])
    words[0] = numbered(names, words[0])
    if word == "run" and len(words) == 1:
        words.append("0")
    return " ".join([word, *words])


def without_idle(lines):
    """The lines of a schedule, pairs of a line and how many of its tries acted: without those that did not, and with tries of one
    thread that follow each other in one line."""
    kept, thread, count = [], None, 0
    for line, acted in lines:
        words = line.split()
        if not acted:
            continue
        if words[0] == "run":
            again = words[1:3] == thread
            count = acted + (count if again else 0)
            thread = words[1:3]
            kept[len(kept) - again :] = [" ".join(["run", *thread, *([str(count)] if count > 1 else [])])]
        else:
            kept.append(line)
            thread = None
    return kept
