#!/usr/bin/env python3
"""Holds docs/limits.md to the definitions: each number of the page is read from the file that defines it, and each definition of
specs/ that is a limit has a row.

check_limits.py [--write]   (with --write the page is made anew)
"""

import glob
import os
import re
import sys
from dataclasses import dataclass

from tools_path import TOP

PAGE = os.path.join(TOP, "docs", "limits.md")
LIMIT = re.compile(r"^(?:abbrev |unfoldable )?pub ((?:most|least|greatest)_\w+) : ℕ\n\1 = (.+)$", re.M)
# Limits of the definitions that no user meets: a part of another one, or a number that follows from it.
INNER = {
    "conversation/specs/Limits.most_piece",
    "schedule_text/specs/Limits.most_thread_number",
    "shell_lines/specs/Limits.greatest_thread",
    "cut_command/specs/Words.most_process_number",
    "cut_command/specs/Words.most_event",
    "wasm_types/specs/Limits.most_first_pages",
    "call_log/specs/Limits.least_entry",
    "schedule_text/specs/Limits.most_datagram",
}

HEAD = """# Limits

Each number is read from the definition that the proofs cite, by `tools/checks/check_limits.py --write`. What goes past a limit is refused by
name ([when something is refused](refusals.md)), or answered as the last column says.
"""
TAIL = """
## What is not bounded by a definition

- **The stack.** 256 kB are enough for each command, also for modules whose blocks nest 1,000 deep (`tools/checks/check_stack.py`); a program
  without proofs takes up to 768 kB. The usual limit of the system is 8 MB (`ulimit -s`). With too small a stack the system ends the program.
- **Memory.** Where there is none left, a call ends with status 7. [Performance](performance.md) has what calls took.
- **Time.** A long expression that every event touches is evaluated after every event: one of 430 tokens takes 0.1 ms for each. A thread runs at
  most 10,000,000 instructions between two calls, so no guest keeps friday for ever.
"""


@dataclass(frozen=True)
class Row:
    """What is limited, the definition (`CRATE/FILE.NAME`) or a pattern in a file, and what comes past it."""

    what: str
    home: str
    past: str
    pattern: str = ""


ROWS = {
    "Groups and schedules": (
        Row("processes of a group", "lamport_tag/specs/Limits.most_processes", "`line N BadLine`"),
        Row("bytes of a name of a process: a to z, 0 to 9 and `_`", "fri_text/specs/Name.antt", "`line N BadLine`", r"nat_le \(length word\) (\d+)"),
        Row("bytes of a schedule", "schedule_text/specs/Limits.most_schedule", "`TooLarge`"),
        Row("tries of all `run` items", "schedule_text/specs/Limits.most_runs", "`TooMany`; `play` says `? 11 too many tries`"),
        Row("bytes of a line of a play", "play_lines/specs/Limits.most_item_line_bytes", "`? 8 line too long`"),
        Row("rounds of a drill", "schedule_text/specs/Limits.most_rounds", "the words are no command"),
        Row("the greatest clock that a tag can bear", "lamport_tag/specs/Limits.most_clock", "the datagram is taken as one without a tag"),
    ),
    "Modules": (
        Row("bytes of a module", "command_run/specs/Limits.most_module", "`TooLarge`"),
        Row("pages of 65,536 bytes of a memory", "guest_memory/specs/Limits.most_pages", "`5 OverLimit` at first; later `memory.grow` answers -1"),
        Row("entries of a table", "wasm_types/specs/Limits.most_elements", "`5 OverLimit`"),
        Row("parameters and locals of a function", "wasm_types/specs/Limits.most_locals", "`5 OverLimit`"),
        Row("blocks in one another", "wasm_decode/specs/Grammar.antt", "`1 Malformed`", r"AllNestWithin (\d+) body"),
    ),
    "Processes that run": (
        Row("threads that a process makes", "coop_threads/specs/Crew.most_threads", "`spawn` answers -1"),
        Row("frames of a thread", "wasm_stack/specs/Thread.most_frames", "`trapped exhausted`"),
        Row("locals, operands and open labels of a thread", "wasm_types/specs/Limits.most_thread_size", "`trapped exhausted`"),
        Row("instructions between two calls", "wasm_step/specs/Burst.most_instructions", "`trapped spent`"),
        Row("bytes that one call names", "lib_calls/specs/Limits.most_call_bytes", "the call answers -1"),
        Row("the greatest number of a signal; the least is 1", "guest_signals/specs/Signals.most_signal", "`line N BadLine`; `on_signal` answers -1"),
    ),
    "Logs": (Row("bytes of a log", "call_log/specs/Limits.most_log", "`item N LogFull` as it is recorded, and `TooLarge` as it is read"),),
    "The debugger": (
        Row("bytes of its input, and of a play's", "conversation/specs/Limits.most_input", "status 3, `TooLarge`"),
        Row("bytes of a line", "shell_lines/specs/Limits.most_line_bytes", "`? 8 line too long`"),
        Row("tokens of a line", "expression_text/specs/Lexing.most_tokens", "`? 3 too deep`"),
        Row("brackets that are open at once", "expression_text/specs/Lexing.most_open", "`? 3 too deep`"),
        Row("the greatest number that a line can have", "expression_text/specs/Spelling.most_number", "`? 1 syntax`"),
        Row("points that are held at once", "friday_shell/specs/Answer.most_points", "`? 9 too many`"),
        Row("variables", "friday_shell/specs/Answer.most_variables", "`? 9 too many`"),
        Row("lines that a walk says", "shell_points/specs/Walking.most_walk_lines", "it answers `paused`"),
        Row("bytes that `mem` shows", "shell_lines/specs/Limits.most_shown_bytes", "`? 1 syntax`"),
        Row("events that `events` shows", "shell_lines/specs/Limits.most_shown_events", "`? 1 syntax`"),
        Row("frames that `frames` tells", "group_text/specs/Texts.most_told_frames", "` and N more`"),
    ),
}


def text_of(path):
    with open(path, encoding="utf-8") as file:
        return file.read()


def defined():
    """The limits that the crates define: their homes, and what they are as written."""
    found = {}
    for path in glob.glob(os.path.join(TOP, "crates", "*", "specs", "*.antt")):
        home = os.path.relpath(path, os.path.join(TOP, "crates"))[: -len(".antt")]
        found.update({"%s.%s" % (home, name): value for name, value in LIMIT.findall(text_of(path))})
    return found


def number(row, limits):
    if not row.pattern:
        return limits.get(row.home)
    found = re.search(row.pattern, text_of(os.path.join(TOP, "crates", row.home)))
    return found and found.group(1)


def shown(value):
    return "2^%s" % value.split("^")[1].strip() if "^" in value else "{:,}".format(int(value))


def page(limits):
    parts = [HEAD]
    for title, rows in ROWS.items():
        lines = ["| %s | %s | %s |" % (row.what, shown(number(row, limits)), row.past) for row in rows]
        parts.append("\n".join(["## " + title, "", "| what | at most | past it |", "|---|---|---|", *lines, ""]))
    return "\n".join(parts) + TAIL


def main(words):
    if words not in ([], ["--write"]):
        sys.exit(__doc__)
    limits = defined()
    rows = [row for part in ROWS.values() for row in part]
    lost = [row.home for row in rows if number(row, limits) is None] + sorted(INNER - set(limits))
    new = sorted(set(limits) - {row.home for row in rows} - INNER)
    for home in lost:
        print("limits: %s is not there" % home)
    for home in new:
        print("limits: %s has no row" % home)
    if lost or new:
        return 1
    made = page(limits)
    if words:
        with open(PAGE, "w", encoding="utf-8") as file:
            file.write(made)
    is_same = os.path.exists(PAGE) and text_of(PAGE) == made
    print("limits: %s" % ("as expected" if is_same else "docs/limits.md is not what the definitions make"))
    return 0 if is_same else 1


if __name__ == "__main__":
    sys.exit(main(sys.argv[1:]))
