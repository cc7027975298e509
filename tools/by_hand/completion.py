"""What the tab key offers: words of the session, processes, and the variables of a process and its functions with calls."""

from by_hand.commands import COMMANDS

# The debugger's own lines, which a session hands on.
LINES = ("step", "back", "mem", "events", "frames", "vars", "quit")
HIDDEN = ("bytes_at", "from_start", "list_here")
WORDS = sorted([word for word in COMMANDS if word not in HIDDEN] + [*LINES, "run"])


def offered(names, start, words=WORDS):
    node, dot, part = start.partition(".")
    if dot and node in names.tables:
        variables = [v.name for v in names.tables[node].variables]
        short = [name.rsplit("::", 1)[-1] for name in variables] + [call.function for call in names.tables[node].calls]
        return ["%s.%s" % (node, name) for name in sorted(set(short + variables)) if name.startswith(part)]
    return [word for word in [*(node + "." for node in names.nodes), *words] if word.startswith(start)]


def completer(names, words=WORDS):
    def complete(start, number):
        found = offered(names, start, words)
        return found[number] if number < len(found) else None

    return complete
