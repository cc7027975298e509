#!/usr/bin/env python3
"""Checks tools/dap by a client of its own: each request of an editor, over the hunt of examples/lost_update with a guest that is
built with --lines here; points, conditions, counts and messages, both ways; restarts, pauses and bad input.

check_dap.py [PROGRAM]   (the program that answers ./friday, if none is given)
"""

import argparse
import base64
import os
import re
import shutil
import subprocess
import tempfile
import time

from tools_path import TOP  # before the modules of the tools, which it lets be found
from asking.program import program_of
from editor import Editor, position_of

MONEY = "sum(@_.{balances[0]} + @_.{balances[1]} + @_.{paid_out} - @_.{paid_in})"
NAMES = ("north", "south", "east")
PAIRS = [word for name in NAMES for word in ("bank.wasm", name + ".log")]
CAPABILITIES = 20
CALLS = 18


def same(what, found, wanted):
    assert found == wanted, "%s: %r, and it should be %r" % (what, found, wanted)


def prepared(program, folder):
    """The bank with places of calls, and its recording."""
    shutil.copy(os.path.join(TOP, "examples", "bank", "bank.c"), folder)
    shutil.copy(os.path.join(TOP, "examples", "lost_update", "schedule"), folder)
    shutil.copy(os.path.join(TOP, "examples", "print_two.h"), os.path.dirname(folder))
    subprocess.run([os.path.join(TOP, "guests", "build"), "--lines", "bank.c"], cwd=folder, check=True, stdout=subprocess.DEVNULL)
    with open(os.path.join(folder, "schedule"), encoding="ascii") as file:
        schedule = re.sub(r"(process \w+) \S+", r"\1 bank.wasm", file.read())
    with open(os.path.join(folder, "schedule"), "w", encoding="ascii") as file:
        file.write(schedule)
    subprocess.run([program, "record", "schedule"], cwd=folder, check=True, stdout=subprocess.DEVNULL)


def launched(program, folder, **settings):
    editor = Editor(program, folder)
    found = editor.ask("initialize", adapterID="friday", linesStartAt1=True, columnsStartAt1=True)
    same("capabilities", sum(found[name] is True for name in found if name.startswith("supports")), CAPABILITIES)
    same("filters", len(found["exceptionBreakpointFilters"]), CALLS)
    assert not editor.events, editor.events
    same("launch", editor.ask("launch", **({} if "schedule" in settings else {"pairs": PAIRS}), **settings), None)
    editor.event("initialized")
    return editor


def entered(editor):
    editor.ask("configurationDone")
    return position_of(editor.event("stopped"))


def ids(editor):
    """The numbers of the threads by the beginning of their names."""
    return {" ".join(thread["name"].split()[:2]): thread["id"] for thread in editor.ask("threads")["threads"]}


def children(editor, name, frame=None):
    """What is under a scope, by its names."""
    scope = next(scope for scope in editor.ask("scopes", frameId=frame or 0)["scopes"] if scope["name"] == name)
    return {child["name"]: child for child in editor.ask("variables", variablesReference=scope["variablesReference"])["variables"]}


def lines_of(editor, thread, **part):
    found = editor.ask("stackTrace", threadId=thread, **part)
    return [frame["line"] for frame in found["stackFrames"]], found["totalFrames"]


def check_hunt(program, folder):
    """The hunt of the example, with what an editor asks at each stop."""
    editor = launched(program, folder, watches={"money": MONEY})
    source = {"path": os.path.join(folder, "bank.c")}
    answers = editor.ask("setBreakpoints", source=source, breakpoints=[{"line": 60}, {"line": 65, "condition": "balances[0] < 100"}, {"line": 66}, {"line": 170}])["breakpoints"]
    same("breakpoints", [(answer["verified"], answer.get("line")) for answer in answers], [(True, 65), (True, 65), (False, None), (False, None)])
    assert "those of the file are in" in answers[3]["message"], answers
    answers = editor.ask("setBreakpoints", source={"path": "/nowhere/bank.c"}, breakpoints=[{"line": 124}, {"line": 134}])["breakpoints"]
    same("kept to a function", [(answer["verified"], answer.get("line")) for answer in answers], [(True, 127), (False, None)])
    editor.ask("setBreakpoints", source={"path": "/nowhere/bank.c"}, breakpoints=[])
    same("none", editor.ask("setBreakpoints", source=source, breakpoints=[]), {"breakpoints": []})
    same("entry", entered(editor), 0)
    info = editor.ask("dataBreakpointInfo", name=MONEY)
    assert editor.ask("setDataBreakpoints", breakpoints=[{"dataId": info["dataId"]}])["breakpoints"][0]["verified"]
    place, reason, stop = editor.move("continue", threadId=1)
    threads = ids(editor)
    same("the loss", (place, reason, stop["threadId"], stop["hitBreakpointIds"] != []), (54, "data breakpoint", threads["north 3"], True))
    assert "600 -> 571" in stop["text"] and "account 0 changes by -10" in editor.output()
    north = threads["north 3"]
    for part, lines in (({"startFrame": 0, "levels": 1}, [65]), ({"startFrame": 1, "levels": 19}, [14, 54]), ({}, [65, 14, 54])):
        same("frames %s" % part, lines_of(editor, north, **part), (lines, 3))
    frames = editor.ask("stackTrace", threadId=north)["stackFrames"]
    same("names", [frame["name"] for frame in frames[:2]], ["change in serve, at unlock 1", "begin"])
    assert frames[2]["name"].startswith("event 54: 25 north 3 print "), frames
    same("north 0", lines_of(editor, threads["north 0"])[0][0], 160)
    same("north 1", lines_of(editor, threads["north 1"])[0][0], 127)
    same("south 4", lines_of(editor, threads["south 4"])[0][0], 57)
    frame = editor.ask("stackTrace", threadId=north)["stackFrames"][0]
    same("source", frame["source"]["path"], source["path"])
    same("event", [children(editor, "Event 54", frame["id"])[name]["value"] for name in ("process", "call", "sent")], ["north", "print", '"account 0 changes by -10\\n"'])
    same("watched", children(editor, "Watched", frame["id"])["money"]["value"], "571")
    same("north", children(editor, "north", frame["id"])["balances"]["value"], "[90, 100]")
    same("south", children(editor, "south", frame["id"])["balances"]["value"], "[100, 81]")
    check_steps(editor, threads)
    check_looks(editor)
    editor.move("goto", targetId=54, threadId=1)
    same("end", editor.move("continue", threadId=1)[:2], (125, "end"))
    assert not [event for event in editor.events if event["event"] == "terminated"]
    same("disconnect", editor.end(), (0, ""))
    print("spent: %s" % ", ".join("%s %.0f ms" % (name, 1000 * spent) for name, spent in sorted(editor.spent.items())))


def check_steps(editor, threads):
    north = {"threadId": threads["north 3"]}
    same("back", editor.move("stepBack", **north)[:2], (53, "step"))
    same("by instruction", editor.move("stepIn", granularity="instruction", **north)[:2], (54, "data breakpoint"))
    same("in", editor.move("stepIn", **north)[:2], (55, "step"))
    same("back", editor.move("stepBack", granularity="instruction", **north)[:2], (54, "step"))
    same("next", editor.move("next", **north)[:2], (56, "step"))
    same("where next is", lines_of(editor, north["threadId"])[0][0], 77)
    same("back", (editor.move("stepBack", **north)[0], editor.move("stepBack", **north)[0]), (55, 54))
    same("out", editor.move("stepOut", **north)[:2], (56, "step"))
    editor.move("goto", targetId=54, **north)
    same("reverse", editor.move("reverseContinue", **north)[:2], (0, "start"))
    same("on again", editor.move("continue", **north)[:2], (54, "data breakpoint"))


def check_looks(editor):
    """Values in all contexts, the list of events, memory, and what has no answer."""
    editor.move("goto", targetId=53, threadId=1)
    same("hover", editor.ask("evaluate", expression="north.balances[0]", context="hover")["result"], "129")
    same("bare name", editor.ask("evaluate", expression="balances", context="watch")["result"], "[129, 100]")
    same("watch", editor.ask("evaluate", expression="south.balances", context="watch")["result"], "[100, 81]")
    same("console", editor.ask("evaluate", expression="p south.balances[1]", context="repl")["result"], "81")
    assert "north 3" not in editor.ask("evaluate", expression=":t east", context="watch")["result"]
    assert "local variables are not told" in editor.refused("evaluate", expression="amount", context="hover")
    assert "syntax" in editor.refused("evaluate", expression="1 +", context="watch")
    array = children(editor, "north")["transfers"]
    found = editor.ask("variables", variablesReference=array["variablesReference"], start=1, count=2)["variables"]
    same("paged", [child["name"] for child in found], ["[1]", "[2]"])
    same("hexadecimal", editor.ask("evaluate", expression="north.balances[1]", context="watch", format={"hex": True})["result"], "0x64")
    same("targets", editor.ask("gotoTargets", source={"sourceReference": 1}, line=100)["targets"][0]["id"], 100)
    content = editor.ask("source", sourceReference=1)["content"].split("\n")
    assert len(content) == 125 and re.match(r'54: 25 north 3 print \d+ 25 = 25; printed "account', content[53]), content[53]
    data = editor.ask("readMemory", memoryReference=children(editor, "north")["balances"]["memoryReference"], count=16)["data"]
    same("memory", base64.b64decode(data), (129).to_bytes(8, "little") + (100).to_bytes(8, "little"))
    same("past the end", editor.ask("readMemory", memoryReference="north:%d" % (2**32), count=16)["unreadableBytes"], 16)
    words = [target["label"] for target in editor.ask("completions", text="p north.bal", column=12)["targets"]]
    assert "north.balances" in words, words
    assert {"events", "bank.c"} <= {source["name"] for source in editor.ask("loadedSources")["sources"]}
    assert editor.ask("scopes", frameId=0)["scopes"][-2]["name"] == "On its way" and children(editor, "On its way")
    assert [target["id"] for target in editor.ask("stepInTargets", frameId=0)["targets"]][0] == 54
    locations = editor.ask("breakpointLocations", source={"path": "x/bank.c"}, line=57, endLine=77)["breakpoints"]
    same("locations", [found["line"] for found in locations], [57, 65, 71, 72, 73, 77])
    for command in ("setVariable", "disassemble", "nothing"):
        assert editor.refused(command)
    assert "another position" in editor.refused("variables", variablesReference=9999)


def check_points(program, folder):
    """Conditions and counts hold both ways, also beside a log message; functions, calls and lines of the list stop."""
    editor = launched(program, folder, position="end")
    source = {"path": os.path.join(folder, "bank.c")}
    same("end", entered(editor), 125)
    condition = {"line": 65, "condition": "balances[0] == 90 && me == 0"}
    editor.ask("setBreakpoints", source=source, breakpoints=[condition])
    listed = editor.ask("evaluate", expression=":l", context="watch")["result"]
    assert listed.startswith("1 break * * if (!@!.ended && ") and "\n2 " not in listed, listed
    alone = [editor.move("reverseContinue", threadId=1)[0] for _ in range(2)]
    editor.move("goto", targetId=125, threadId=1)
    editor.ask("setBreakpoints", source=source, breakpoints=[condition, {"line": 127, "logMessage": "me {me} took {taken_count}"}])
    same("beside a message", [editor.move("reverseContinue", threadId=1)[0] for _ in range(2)], alone)
    assert len(set(alone)) == 2 and all(place > 0 for place in alone), alone
    editor.move("goto", targetId=1, threadId=1)
    editor.output()
    editor.ask("setBreakpoints", source=source, breakpoints=[{"line": 127, "logMessage": 'me {me} took "{taken_count}"'}])
    same("messages do not stop", editor.move("continue", threadId=1)[:2], (125, "end"))
    assert re.search(r"^me 0 took \?\d\?$", editor.output(), re.M)
    editor.ask("setBreakpoints", source=source, breakpoints=[])
    editor.ask("setExceptionBreakpoints", filters=["lock"])
    editor.move("goto", targetId=1, threadId=1)
    locks = [editor.move("continue", threadId=1)[0] for _ in range(4)]
    editor.ask("setExceptionBreakpoints", filters=[], filterOptions=[{"filterId": "lock", "condition": "me == 1"}])
    editor.move("goto", targetId=1, threadId=1)
    south = [editor.move("continue", threadId=1)[2]["description"].split()[6] for _ in range(3)]
    same("of the process whose event it is", south, ["south"] * 3)
    editor.ask("setExceptionBreakpoints", filters=[])
    editor.ask("setFunctionBreakpoints", breakpoints=[{"name": "lock", "hitCondition": "%2"}])
    editor.move("goto", targetId=1, threadId=1)
    same("counted", [editor.move("continue", threadId=1)[0] for _ in range(2)], locks[1::2])
    answers = editor.ask("setFunctionBreakpoints", breakpoints=[{"name": "north.change"}, {"name": "nothing"}, {"name": "watch me"}, {"name": "lock", "hitCondition": "x"}])
    same("functions", [answer["verified"] for answer in answers["breakpoints"]], [True, False, True, False])
    editor.ask("setFunctionBreakpoints", breakpoints=[])
    editor.ask("setBreakpoints", source={"sourceReference": 1}, breakpoints=[{"line": 77}])
    same("a line of the list", (editor.move("continue", threadId=1)[0], editor.move("continue", threadId=1)[0], editor.move("reverseContinue", threadId=1)[0]), (77, 125, 77))
    info = editor.ask("dataBreakpointInfo", variablesReference=editor.ask("scopes", frameId=0)["scopes"][1]["variablesReference"], name="balances")
    assert editor.ask("setDataBreakpoints", breakpoints=[info])["breakpoints"][0]["verified"]
    assert editor.move("reverseContinue", threadId=1)[1] == "data breakpoint"
    same("no program is left", editor.end()[0], 0)


# A guest whose walks take long where many points look at each of its events.
LONG_GUEST = """#include "liblog.h"
void _start(void) {
    for (;;) {
        liblog_yield();
    }
}
"""
LONG_EVENTS, WATCHES, SOON = 900_000, 60, 0.2


def check_pauses(program, folder):
    """A pause stops a walk soon, and where it is; one of a walk back leaves it where that began. A long walk tells how far it is."""
    with open(os.path.join(folder, "long.c"), "w", encoding="ascii") as file:
        file.write(LONG_GUEST)
    with open(os.path.join(folder, "long"), "w", encoding="ascii") as file:
        file.write("friday 1\nprocess long long.wasm\nrun 0 0 %d\n" % LONG_EVENTS)
    subprocess.run([os.path.join(TOP, "guests", "build"), "long.c"], cwd=folder, check=True, stdout=subprocess.DEVNULL)
    subprocess.run([program, "record", "long"], cwd=folder, check=True, stdout=subprocess.DEVNULL)
    editor = Editor(program, folder)
    editor.ask("initialize", adapterID="friday", supportsProgressReporting=True)
    editor.ask("launch", pairs=["long.wasm", "long.log"])
    entered(editor)
    for number in range(WATCHES):
        editor.ask("evaluate", expression="watch long.clock == %d" % (LONG_EVENTS + number), context="repl")
    begun, spent, places = time.monotonic(), [], []
    for _ in range(3):
        editor.ask("continue", threadId=1)
        time.sleep(0.1)
        asked = time.monotonic()
        editor.ask("pause", threadId=1)
        stop = editor.event("stopped")
        spent.append(time.monotonic() - asked)
        places.append(position_of(stop))
        same("reason", stop["reason"], "pause")
    assert 0 < places[0] < places[1] < places[2] < LONG_EVENTS and min(spent) < SOON, (places, spent)
    assert {"progressStart", "progressUpdate", "progressEnd"} <= {message["event"] for message in editor.events}
    editor.ask("goto", targetId=LONG_EVENTS, threadId=1)
    editor.event("stopped")
    # A line of the console is paused as a button's walk is.
    editor.ask("goto", targetId=1, threadId=1)
    editor.event("stopped")
    console = editor.send("evaluate", {"expression": "c 2", "context": "repl"})
    time.sleep(0.1)
    pause = editor.send("pause", {"threadId": 1})
    assert "paused\n" in editor.answer(console)["body"]["result"] and editor.answer(pause)["success"]
    assert 1 <= position_of(editor.event("stopped")) < LONG_EVENTS
    editor.ask("goto", targetId=LONG_EVENTS, threadId=1)
    editor.event("stopped")
    editor.ask("reverseContinue", threadId=1)
    editor.ask("pause", threadId=1)
    stop = editor.event("stopped")
    same("back", (position_of(stop), stop["reason"]), (LONG_EVENTS, "pause"))
    same("points are kept", editor.ask("evaluate", expression=":l", context="watch")["result"].count("watch "), WATCHES)
    same("status", editor.end()[0], 0)
    print("paused after %s ms in %.0f s" % (", ".join("%.0f" % (1000 * each) for each in spent), time.monotonic() - begun))


def check_restart(program, folder):
    """A schedule is recorded first, and again at a restart; points come back with other ids, and counts at 0."""
    editor = launched(program, folder, schedule="schedule", stepBack="thread", position=54)
    same("entry", entered(editor), 54)
    threads = ids(editor)
    same("by thread", editor.move("stepBack", threadId=threads["north 1"])[0], 53)
    editor.ask("setFunctionBreakpoints", breakpoints=[{"name": "lock", "hitCondition": "> 3"}])
    editor.move("goto", targetId=1, threadId=1)
    before = editor.move("continue", threadId=1)[0]
    editor.ask("restart", arguments={"schedule": "schedule"})
    same("again", position_of(editor.event("stopped")), 0)
    assert editor.event("breakpoint")["breakpoint"]["verified"]
    same("counts", editor.move("continue", threadId=1)[0], before)
    assert "items: 131 acted" in editor.output()
    same("status", editor.end()[0], 0)


def check_refused(program, folder):
    """What cannot be launched is refused in the program's own words, and logs of another build are told first."""
    shutil.copy(os.path.join(TOP, "examples", "election", "election.wasm"), folder)
    for settings, told in (
        ({"pairs": ["bank.wasm", "absent.log"]}, "absent"), ({"pairs": ["bank.c", "north.log"]}, "1 Malformed"), ({"pairs": ["bank.wasm"]}, "launch wants"),
        ({"pairs": 5}, "list of texts"), ({"schedule": "bank.c"}, "line 1 BadLine"), ({"schedule": "absent"}, ""), ({}, "launch wants"),
        ({"pairs": PAIRS, "cwd": "/nowhere"}, "absent"),
    ):
        editor = Editor(program, folder)
        assert "before launch" in editor.refused("threads")
        assert told in editor.refused("launch", **settings), settings
        same("status", editor.end()[0], 0)
    editor = launched(program, folder, **{"watches": {"x": "1"}})
    editor.ask("launch", pairs=["election.wasm", "north.log"])
    assert "election.wasm is not the module of this log, or was built anew: north diverges at its event 3" in editor.output()
    same("status", editor.end()[0], 0)


def bad_messages():
    """Bytes that are no messages, or half of one."""
    yield b"Content-Length: 9\r\n\r\n{not json"
    yield b"Content-Length: 2\r\n\r\n[]" + b"Content-Length: 4\r\n\r\nnull"
    yield b"Content-Length: 999999999999\r\n\r\n{}"
    yield b"Content-Length: -1\r\n\r\n"
    yield b"\0" * 100_000
    yield b"\r\n" * 100
    yield b"Content-Length: 100\r\n\r\n{"
    body = b"[" * 100_000
    yield b"Content-Length: %d\r\n\r\n" % len(body) + body
    for body in (b'{"type": "request", "command": 5}', b'{"type": "request", "command": "run", "arguments": 3}', b'{"command": "__init__", "type": "request"}',
                 b'{"type": "request", "command": "evaluate", "arguments": {"expression": 7}}', b'{"type": "request", "command": "launch", "arguments": {"self": 1}}',
                 b'{"type": "request", "command": "setBreakpoints", "arguments": {"source": [], "breakpoints": {"a": 1}}}'):
        yield b"Content-Length: %d\r\n\r\n" % len(body) + body


def check_bad_input(program, folder):
    """Each is refused or ends the session with 0, and none is answered by a traceback or not at all."""
    for data in bad_messages():
        editor = Editor(program, folder)
        try:
            editor.write(data)
            editor.adapter.stdin.close()
        except OSError:
            pass
        status = editor.adapter.wait(timeout=60)
        errors = editor.adapter.stderr.read().decode("utf-8", "replace")
        assert status == 0 and "Traceback" not in errors, (data[:100], status, errors)
    editor = launched(program, folder)
    entered(editor)
    for command in ("setBreakpoints", "setDataBreakpoints", "setFunctionBreakpoints", "setExceptionBreakpoints", "stackTrace", "scopes", "variables",
                    "evaluate", "completions", "source", "goto", "gotoTargets", "stepIn", "next", "readMemory", "dataBreakpointInfo", "breakpointLocations"):
        for arguments in ({}, {"threadId": "x", "breakpoints": [5], "source": {"path": 5}, "line": "x"}, {"breakpoints": 5, "variablesReference": [], "expression": "\x1b" * 9, "frameId": {}, "text": None}):
            editor.answer(editor.send(command, arguments))
    for line in ("p " + "(" * 10_000, "\udcff\0\x1b[31m", "watch " + "1+" * 3000 + "1", "x north 5 99999999999999999999", "do 1", "load /", "b " * 3000):
        editor.answer(editor.send("evaluate", {"expression": line, "context": "repl"}))
    same("still there", editor.ask("evaluate", expression="north.balances", context="watch")["result"], "[100, 100]")
    status, errors = editor.end()
    assert status == 0 and "Traceback" not in errors, errors


def check_kept_ends(program, folder):
    """An end of the input in the midst leaves no program behind, and a port of this machine serves as the streams do."""
    editor = launched(program, folder)
    entered(editor)
    child = int(subprocess.run(["pgrep", "-P", str(editor.adapter.pid)], stdout=subprocess.PIPE, text=True).stdout.split()[0])
    editor.adapter.stdin.close()
    same("status", editor.adapter.wait(timeout=60), 0)
    time.sleep(0.2)
    assert not os.path.exists("/proc/%d" % child)


def main():
    parser = argparse.ArgumentParser(description=__doc__, formatter_class=argparse.RawDescriptionHelpFormatter)
    parser.add_argument("program", nargs="?", metavar="PROGRAM")
    program = os.path.abspath(program_of(parser.parse_args().program))
    with tempfile.TemporaryDirectory() as above:
        folder = os.path.join(above, "bank")
        os.mkdir(folder)
        prepared(program, folder)
        for check in (check_hunt, check_points, check_pauses, check_restart, check_refused, check_bad_input, check_kept_ends):
            check(program, folder)
    print("editor: as expected")


if __name__ == "__main__":
    main()
