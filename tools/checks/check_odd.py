#!/usr/bin/env python3
"""Gives a session by hand and the adapter for editors what no one means: lines of the stored sessions with odd bytes in them, lines and
messages of 1 MB, requests with other values than they have, messages that end at any place, and places that nest 100,000 deep. Each line
and each request has to be answered in time, nothing may come that a terminal would obey, and no traceback.

check_odd.py [--seed N] [PROGRAM]   (the program that answers ./friday, if none is given)
"""

import argparse
import copy
import json
import os
import random
import re
import shutil
import subprocess
import sys
import tempfile
import time

from tools_path import TOOLS, TOP  # before the modules of the tools, which it lets be found
from asking.program import program_of
from check_typed import FILES, prepare, read
from editor import Editor
import sessions  # before the modules of the kit, which it lets be found
from place_table import digest_of

WAIT = 300
LONG = 1_000_000
# Words that read or write files anywhere, and those that end the session.
LEFT_OUT = ("save", "script", "schedule", "cut", "page", "picture", "load", "source", "q", "quit", "exit")
ODD = [b"\x00", b"\xff", b"\x1b[2J", b"\xe2\x80\xae", b"\t", b"'", b'"', b"{", b"}", b"[", b"(", b"@", b"$", b"->", b"::", b"99999999999999999999", b"-1", b"0x", b"\xc3\x28", b"%s", b"\\"]
LONG_LINES = (b"p " + b"(" * LONG, b"p " + b"1+" * (LONG // 2), b"w " + b"a" * LONG, b"b north." + b"x" * LONG, b"x/" + b"9" * LONG, b"p " + b"~" * LONG, b"\xff" * LONG, b"list " + b"a" * LONG,
              b"help " + b"x" * LONG, b"info " + b"x" * LONG, b"d " + b"1 " * (LONG // 2), b"cast send struct " + b"x" * LONG, b"display " + b"*" * LONG,
              b"p north.balances" + b"[0]" * (LONG // 3), b"c " + b"9" * LONG)
# JSON of no use to any request.
VALUES = (None, True, -1, 0, 2**63, 10**400, 1.5, "", "\x1b[31m", "\ud800", "x" * 10_000, [], [[]], {}, {"path": 5}, [{"line": "x"}], {"a": {"b": []}})


def changed(line, chance):
    """A line with some bytes left out, doubled, exchanged, or put in."""
    for _ in range(chance.randint(1, 4)):
        at = chance.randrange(len(line) + 1)
        kind = chance.randrange(4)
        if kind == 0:
            line = line[:at] + chance.choice(ODD) + line[at:]
        elif kind == 1:
            line = line[:at] + line[at + chance.randint(1, 5) :]
        elif kind == 2:
            line = line[:at] + line[at : at + 8] * chance.randint(2, 40) + line[at + 8 :]
        else:
            other = chance.randrange(len(line) + 1)
            line = line[min(at, other) :] + line[: max(at, other)]
    return line.replace(b"\n", b" ").replace(b"\r", b" ")


def is_harmless(line):
    word = re.match(rb"\W*([A-Za-z_]*)", line)[1].decode()
    return not word.startswith(LEFT_OUT)


def answered(program, folder, words, lines, name):
    """Each line is followed by the end of what it may have begun, and by a mark."""
    typed = b"".join(line + b"\nend\np 1000000\n" for line in lines)
    words = [sys.executable, os.path.join(TOOLS, "session"), "--program", program, *words]
    begun = time.monotonic()
    run = subprocess.run(words, cwd=folder, input=typed, stdout=subprocess.PIPE, stderr=subprocess.PIPE, timeout=WAIT)
    assert run.returncode == 1 and run.stderr == b"", (name, run.returncode, run.stderr[-2000:])
    found = run.stdout.split(b"\n1000000\n")
    assert len(found) == len(lines) + 1, (name, len(found), len(lines), run.stdout[-2000:])
    bad = [(line[:200], answer[:200]) for line, answer in zip(lines, found) if re.search(rb"[\x00-\x08\x0b-\x1f\x7f]|Traceback", answer)]
    assert not bad, (name, bad[:3])
    print("%s: %d lines, %.0f s" % (name, len(lines), time.monotonic() - begun), flush=True)


def check_lines(program, chance):
    for name in FILES:
        words, typed, _ = read(name)
        corpus = [line.encode() for line in typed if line and is_harmless(line.encode())]
        lines = [line for line in (changed(chance.choice(corpus), chance) for _ in range(400)) if is_harmless(line)]
        with tempfile.TemporaryDirectory() as folder:
            prepare(name, program, folder)
            answered(program, folder, words, lines, "session over %s" % name)
            if name == "lost_update":
                answered(program, folder, words, LONG_LINES, "lines of 1 MB")


def write_deep(folder):
    """Places that nest 100,000 deep, and hold themselves."""
    for name in ("a.wasm", "a.log"):
        shutil.copy(os.path.join(TOP, "examples", "first", name), folder)
    lines = ["module a.wasm %s" % digest_of(os.path.join(folder, "a.wasm")), "variable x::deep s0 1024", "variable x::own own 1024", "variable x::row u8[9][9][9][9][9][9][9] 0"]
    lines += ["struct own 4", "field own own 0", "field next own* 0"]
    for depth in range(100_000):
        lines += ["struct s%d 4" % depth, "field f %s 0" % ("s%d" % (depth + 1) if depth < 99_999 else "u32")]
    with open(os.path.join(folder, "a.places"), "w", encoding="ascii") as file:
        file.write("\n".join(lines) + "\n")


def finished(editor, what):
    status, errors = editor.end()
    assert status == 0 and "Traceback" not in errors, (what, status, errors[-2000:])


def check_deep(program):
    """An editor that opens all that can be opened, some levels down."""
    with tempfile.TemporaryDirectory() as folder:
        write_deep(folder)
        editor = Editor(program, folder)
        editor.ask("initialize", adapterID="friday")
        editor.ask("launch", pairs=["a.wasm", "a.log"])
        editor.ask("configurationDone")
        editor.event("stopped")
        thread = editor.ask("threads")["threads"][0]["id"]
        frames = editor.ask("stackTrace", threadId=thread)["stackFrames"]
        left = [scope["variablesReference"] for scope in editor.ask("scopes", frameId=frames[0]["id"] if frames else 0)["scopes"]]
        for count in range(60):
            if left:
                found = editor.ask("variables", variablesReference=left.pop(0), start=0, count=20)["variables"]
                left += [child["variablesReference"] for child in found if child["variablesReference"]][:5]
        for text in ("deep", "deep" + ".f" * 50, "own", "*own", "row", "own.next->next->next"):
            for context in ("hover", "watch", "repl"):
                editor.answer(editor.send("evaluate", {"expression": text, "context": context}))
            editor.answer(editor.send("dataBreakpointInfo", {"name": text}))
        finished(editor, "deep")
    print("adapter: deep places", flush=True)


# One of each request, as an editor sends it in the hunt.
def requests():
    source = {"path": "bank.c", "name": "bank.c"}
    yield "threads", {}
    for thread in (1, 4, 64, 129):
        yield "stackTrace", {"threadId": thread, "startFrame": 0, "levels": 20}
        yield "stepInTargets", {"frameId": thread}
    yield "scopes", {"frameId": 1}
    for reference in range(1, 9):
        yield "variables", {"variablesReference": reference, "start": 0, "count": 10, "format": {"hex": True}}
    yield "setBreakpoints", {"source": source, "breakpoints": [{"line": 65, "condition": "balances[0] < 100", "hitCondition": "> 1", "logMessage": "x {me}"}], "lines": [65]}
    yield "setFunctionBreakpoints", {"breakpoints": [{"name": "north lock", "condition": "me == 0", "hitCondition": "2"}]}
    yield "setDataBreakpoints", {"breakpoints": [{"dataId": "north.balances[0]", "accessType": "write", "condition": "1"}]}
    yield "setExceptionBreakpoints", {"filters": ["lock"], "filterOptions": [{"filterId": "send", "condition": "1"}]}
    yield "dataBreakpointInfo", {"variablesReference": 1, "name": "balances"}
    yield "breakpointLocations", {"source": source, "line": 1, "endLine": 90}
    for context in ("watch", "hover", "repl"):
        yield "evaluate", {"expression": "north.balances[0] + 1", "context": context, "frameId": 1, "format": {"hex": False}}
    yield "completions", {"text": "p north.bal", "column": 11, "frameId": 1}
    yield "loadedSources", {}
    yield "source", {"sourceReference": 1, "source": {"sourceReference": 1}}
    yield "gotoTargets", {"source": {"sourceReference": 1}, "line": 50}
    yield "goto", {"threadId": 1, "targetId": 50}
    for move in ("stepIn", "next", "stepOut", "stepBack", "continue", "reverseContinue"):
        yield move, {"threadId": 1, "granularity": "instruction", "targetId": 0}
    yield "readMemory", {"memoryReference": "north:1152", "offset": 0, "count": 16}
    yield "pause", {"threadId": 1}


def with_odd_values(arguments, chance):
    """The arguments of a request with another value at one place or two."""
    made = copy.deepcopy(arguments)
    for _ in range(chance.randint(1, 2)):
        places = list(places_in(made))
        holder, key = chance.choice(places) if places else (made, "x")
        holder[key] = copy.deepcopy(chance.choice(VALUES))
    return made


def places_in(value):
    pairs = value.items() if isinstance(value, dict) else enumerate(value) if isinstance(value, list) else ()
    for key, inner in list(pairs):
        yield value, key
        yield from places_in(inner)


def begun(program, folder):
    editor = Editor(program, folder)
    editor.ask("initialize", adapterID="friday")
    editor.ask("launch", pairs=read("lost_update")[0], watches={"money": "sum(@_.events)"})
    editor.ask("configurationDone")
    editor.event("stopped")
    return editor


def check_requests(program, chance):
    """Each has an answer, and the session goes on."""
    with tempfile.TemporaryDirectory() as folder:
        prepare("lost_update", program, folder)
        editor, every = begun(program, folder), list(requests())
        for count in range(600):
            command, arguments = chance.choice(every)
            editor.answer(editor.send(command, with_odd_values(arguments, chance)))
        for text in ("p " + "(" * LONG, "x" * LONG, "\x00" * LONG):
            for context in ("watch", "repl"):
                editor.answer(editor.send("evaluate", {"expression": text, "context": context}))
        assert editor.ask("evaluate", expression="1 + 1", context="watch")["result"] == "2"
        finished(editor, "requests")
    print("adapter: 600 requests with odd values", flush=True)


def bytes_of(messages):
    return b"".join(b"Content-Length: %d\r\n\r\n" % len(body) + body for body in messages)


def check_cut_messages(program, chance):
    """The bytes of a session, cut at any place or with bytes exchanged: the adapter ends with 0 once its input does."""
    with tempfile.TemporaryDirectory() as folder:
        prepare("lost_update", program, folder)
        pairs = read("lost_update")[0]
        every = [("initialize", {}), ("launch", {"pairs": pairs}), ("configurationDone", {}), *list(requests())[:-1]]
        whole = bytes_of(json.dumps({"seq": seq, "type": "request", "command": command, "arguments": arguments}).encode() for seq, (command, arguments) in enumerate(every, 1))
        for turn in range(12):
            data = whole[: chance.randrange(len(whole))] if turn % 2 else changed_bytes(whole, chance)
            words = [sys.executable, os.path.join(TOOLS, "dap"), "--program", program]
            run = subprocess.run(words, cwd=folder, input=data, stdout=subprocess.PIPE, stderr=subprocess.PIPE, timeout=WAIT)
            assert run.returncode == 0 and b"Traceback" not in run.stderr, (turn, run.returncode, run.stderr[-2000:])
        deep = b'{"seq": %s, "type": "request", "command": "threads", "arguments": {"x": %s}}'
        for depth in (400, 900, 100_000):
            nested = b"[" * depth + b"]" * depth
            data = bytes_of([deep % (nested, nested), deep % (b"1", nested)]) + b"x" * LONG
            run = subprocess.run(words, cwd=folder, input=data, stdout=subprocess.PIPE, stderr=subprocess.PIPE, timeout=WAIT)
            assert run.returncode == 0 and b"Traceback" not in run.stderr, (depth, run.returncode, run.stderr[-2000:])
    print("adapter: sessions that are cut or changed", flush=True)


def changed_bytes(data, chance):
    made = bytearray(data)
    for _ in range(chance.randint(1, 6)):
        made[chance.randrange(len(made))] = chance.randrange(256)
    return bytes(made)


def main():
    parser = argparse.ArgumentParser(description=__doc__, formatter_class=argparse.RawDescriptionHelpFormatter)
    parser.add_argument("--seed", type=int, default=1, help="another one draws other lines and requests")
    parser.add_argument("program", nargs="?", metavar="PROGRAM")
    chosen = parser.parse_args()
    program, chance = os.path.abspath(program_of(chosen.program)), random.Random(chosen.seed)
    check_lines(program, chance)
    check_requests(program, chance)
    check_cut_messages(program, chance)
    check_deep(program)
    print("odd: as expected")


if __name__ == "__main__":
    main()
