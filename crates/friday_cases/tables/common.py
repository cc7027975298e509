"""Words that the tables share."""

from script import GROUP, text

FRONT = "friday 1\nprocess a a.wasm\n"


def summary(events, end, acted, idle):
    return "a: %d events, %s" % (events, end), "items: %d acted, %d idle" % (acted, idle)


def counts_line(sends, receives, unmatched, untagged):
    return "group: %d sends, %d receives, %d unmatched, %d untagged" % (sends, receives, unmatched, untagged)


def report(events, end, verdict="log whole", name="a"):
    return "%s: %d events, %s, %s" % (name, events, end, verdict), GROUP


def refused(name, reason):
    return "Refused", "friday: refused %s: %s" % (name, reason)


def begin(script, name, module, items):
    """A case with a module and a schedule of these items."""
    script.case(name)
    script.file("a.wasm", module)
    script.file("s", text(FRONT + items))


def replays(script, events, end, verdict="log whole"):
    """The replay of the case's log."""
    status = "Diverged" if verdict.startswith("diverged") else "Done"
    script.run("replay a.wasm a.log", status, *report(events, end, verdict))
