"""What counts as found: how a process ends, an expression that must never hold, or what a script of the debugger says."""

from __future__ import annotations

import re
from dataclasses import dataclass

from playing_by_hand.names import NamesOfGroup
from sessions.names import Refusal

END = re.compile(r"(failed|running|finished|killed|trapped( [a-z ]+)?|exited( -?\d+)?)")


@dataclass(frozen=True)
class Hit:
    """Why a seed counts, and the event with which it does: the process, and the number of the event in it; and the expression that
    held then, if it was one."""

    why: str
    process: int
    event: int
    expression: str = ""


@dataclass(frozen=True)
class Wanted:
    # Pairs of a process, or nothing for any, and the words with which its end begins.
    ends: list
    # Pairs of an expression as it was typed and as the program is sent it.
    never: list
    # The lines for the debugger.
    script: list


def wanted_of(chosen, names):
    """What the words of the command ask for; a process that fails if they ask for nothing."""
    ends = [end_of(text, names) for text in chosen.ends]
    script = lines_of(chosen.script) if chosen.script is not None else []
    never, script = with_addresses(chosen.processes, chosen.never, script)
    if not (ends or never or chosen.script is not None):
        ends = [("", "failed")]
    return Wanted(ends, list(zip(chosen.never, never)), script)


def lines_of(path):
    with open(path, encoding="latin-1") as file:
        return file.read().splitlines()


def with_addresses(processes, *parts):
    """The lines of each part with addresses in place of names; which processes have no names is told if one is refused."""
    without_names = []
    names = NamesOfGroup(processes, without_names.append)
    try:
        return [[names.line(line) for line in part] for part in parts]
    except Refusal as refusal:
        raise Refusal("\n".join([str(refusal), *without_names])) from None


def end_of(text, names):
    """`exited 1` of any process, or `south: exited 1` of one."""
    name, colon, end = text.rpartition(":")
    name, end = name.strip(), " ".join(end.split())
    if colon and name not in names:
        raise Refusal("no process is named %s" % (name or "so"))
    if not END.fullmatch(end):
        raise Refusal("a process ends as running, finished, killed, exited CODE, trapped KIND or failed, and not as %s" % (end or "nothing"))
    return name, end


def is_end(end, wanted):
    """Whether an end begins with these words; `failed` is a trap, or an exit that is not 0."""
    if wanted == "failed":
        return end.startswith("trapped ") or end.startswith("exited ") and end != "exited 0"
    return (end + " ").startswith(wanted + " ")


def hit_by_end(wanted, known):
    """The first process that ended so, or nothing."""
    for number, process in enumerate(known.processes):
        if any(name in ("", process.name) and is_end(process.end, end) for name, end in wanted.ends):
            return Hit("%s: %d events, %s" % (process.name, process.events, process.end), number, process.events)
    return None
