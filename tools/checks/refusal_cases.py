"""Calls that are refused, with the files that they are given: what ./friday says of each is stored beside them in refusals.txt.

A case has a name, its words, and the files that it adds to those of examples/pingpong and their logs. Where what is told of it
cannot be all of what, where, why and what to do, the case says why.
"""

from __future__ import annotations

import hashlib
import os
from dataclasses import dataclass, field, replace

from logs.format import log_in, spelled
from made_up import Program, count, named, section, type_of, vector
from tools_path import TOP

HEAD = "friday 1\nprocess ping ping.wasm\nprocess pong pong.wasm\n"
PAIRS = "ping.wasm ping.log pong.wasm pong.log"


@dataclass(frozen=True)
class Case:
    name: str
    words: str
    files: dict = field(default_factory=dict)
    # What follows the words in the shell.
    redirected: str = ""
    # Why not all of it is told.
    less: str = ""


def schedule(name, text):
    return Case("schedule: " + name, "record s", {"s": text})


BAD_LINES = (
    schedule("an empty file", ""),
    schedule("another version", "friday 2\n"),
    schedule("no header", "process ping ping.wasm\n"),
    schedule("no process", "friday 1\n# nothing more\n"),
    schedule("an item before the processes", "friday 1\nrun 0 0\n"),
    schedule("a process without a module", "friday 1\nprocess ping\n"),
    schedule("a name with a capital", "friday 1\nprocess Ping ping.wasm\n"),
    schedule("a name twice", HEAD + "process ping pong.wasm\n"),
    schedule("a module called as a log", "friday 1\nprocess ping ping.log\n"),
    schedule("a late process", HEAD + "run 0 0\nprocess late ping.wasm\n"),
    schedule("seventeen processes", "friday 1\n" + "".join("process p%d ping.wasm\n" % number for number in range(17))),
    schedule("a word that is no item", HEAD + "\n# a comment\nfoo 0 0\n"),
    schedule("a process that is not there", HEAD + "run 2 0\n"),
    schedule("a thread above 63", HEAD + "run 0 64\n"),
    schedule("a field too few", HEAD + "deliver 0\n"),
    schedule("a field too many", HEAD + "kill 0 1\n"),
    schedule("a number with a plus", HEAD + "clock 0 +5\n"),
    schedule("an odd digit", HEAD + "inject 1 0f1\n"),
    schedule("no digit", HEAD + "random 1 xy\n"),
    schedule("a signal above 31", HEAD + "signal 0 32\n"),
    Case("schedule: a bad line of a play", "play s", {"s": HEAD + "run 0 0\nrun 0 64\n"}),
)
MANY = (schedule("more tries than can be", HEAD + "run 0 0 600000\nrun 1 0 600000\n"),)


# ---- modules


def module(takes="", gives="", body=b"", imports=((b"liblog", "now", 0, "", "l"),), memory=b"\0\1", start="_start", data=None, locals_=0):
    """A module with one function of its own, which does this."""
    types = [type_of(takes, gives), *(type_of(given, result) for *_, given, result in imports)]
    code = (vector([count(locals_) + b"\x7f"]) if locals_ else b"\0") + body + b"\x0b"
    parts = [
        section(1, vector(types)),
        section(2, vector([named(place.decode()) + named(name) + b"\0" + count(at + 1) for at, (place, name, *_) in enumerate(imports)])),
        section(3, vector([b"\0"])),
        section(5, vector([memory])),
        section(7, vector([named(start) + b"\0" + count(len(imports))])),
        section(10, vector([count(len(code)) + code])),
        *([section(11, vector([b"\0\x41" + data]))] if data else []),
    ]
    return b"\0asm\1\0\0\0" + b"".join(parts)


def refused(name, contents, less=""):
    return Case("module: " + name, "record s", {"m.wasm": contents, "s": "friday 1\nprocess m m.wasm\nrun 0 0\n"}, less=less)


F64 = b"\x44" + bytes(8) + b"\x1a"
MODULES = (
    refused("a program of this machine", b"\x7fELF" + bytes(60)),
    refused("its text", "(module (func (export \"_start\")))\n"),
    refused("an empty file", b""),
    refused("cut off", module(body=b"\x10\0\x1a")[:-4]),
    refused("a float", module(body=F64)),
    refused("memory.copy", module(body=b"\x41\0\x41\0\x41\0\xfc\x0a\0\0")),
    refused("an import of a C library", module(imports=((b"env", "printf", 0, "ii", "i"),))),
    refused("a call of another type", module(imports=((b"liblog", "now", 0, "", "i"),))),
    refused("a large memory", module(memory=b"\0" + count(320))),
    refused("no _start", module(start="main")),
    refused("too large", module() + section(0, named("padding") + bytes(4_194_304))),
    refused("data past its memory", module(data=b"\xfa\xff\x03\x0b" + vector([bytes([byte]) for byte in range(10)]))),
    refused("an addition without operands", module(body=b"\x6a\x1a")),
)


# ---- traps

# A guest that asks for the time and then comes to an `unreachable`.
TRAPPING = {"t.wasm": module(body=b"\x10\0\x1a\0"), "s": "friday 1\nprocess t t.wasm\nrun 0 0 3\n"}
PLACES = "module t.wasm %s\nfunction 1 _start guest.c 3 9\n" % hashlib.sha256(TRAPPING["t.wasm"]).hexdigest()
TRAPS = (
    Case("a trap in a function that the module names", "record s", TRAPPING, "> out"),
    Case("a trap in a function that places tell", "record s", {**TRAPPING, "t.places": PLACES}, "> out"),
)


# ---- logs


def of(log, **changes):
    """The log's bytes with another head or other entries."""
    return spelled(replace(log, **changes))


def cases_of_logs(ping, pong):
    """Of the logs that examples/pingpong records."""
    first, second = log_in(ping), log_in(pong)
    other = Program([("note", (1,)), ("exit", (0,))], []).module()
    return (
        Case("log: text in its place", "replay ping.wasm notes", {"notes": "some notes\n"}),
        Case("log: of a larger group", "replay ping.wasm ping.log pong.wasm other.log", {"other.log": of(second, processes=3)}),
        Case("log: of the same process", "replay ping.wasm ping.log pong.wasm other.log", {"other.log": of(second, process=0)}),
        Case("log: with the same name", "debug ping.wasm ping.log pong.wasm other.log", {"other.log": of(second, name="ping")}),
        Case("log: not all of a group", "schedule ping.wasm ping.log"),
        Case("log: not whole", "schedule ping.wasm cut.log pong.wasm pong.log", {"cut.log": ping[:-1]}),
        Case("log: no such process", "cut 7 1 " + PAIRS),
        Case("log: no such event", "cut 1 99 " + PAIRS),
        Case("over an input: a module of a cut", "cut 1 2 ping.cut ping.log pong.wasm pong.log", {"ping.cut": contents_of("examples", "pingpong", "ping.wasm")}),
        Case("over an input: a log of a cut", "cut 1 2 ping.wasm ping.log pong.wasm pong.cut", {"pong.cut": pong}),
        Case("over an input: a log of a replay", "replay --images ping.wasm ping.out pong.wasm pong.log", {"ping.out": ping}),
        Case("exchanged: the first pair", "replay ping.log ping.wasm pong.wasm pong.log"),
        Case("exchanged: the second pair", "debug ping.wasm ping.log pong.log pong.wasm"),
        Case("another recording: one log", "replay ping.wasm ping.log pong.wasm old.log", {"old.log": of(second, entries=second.entries[:1])}, "> report"),
        Case("another recording: read by debug", "debug ping.wasm ping.log pong.wasm old.log", {"old.log": of(second, entries=second.entries[:1])}, "< /dev/null",
             less="the program accepts it, with status 0, and says nothing of it"),
        Case("divergence: another call", "replay other.wasm ping.log pong.wasm pong.log", {"other.wasm": other}),
        Case("divergence: another argument", "replay ping.wasm changed.log pong.wasm pong.log", {"changed.log": changed(first)}),
    )


def changed(log):
    """The log with another argument at its first send."""
    at = next(at for at, entry in enumerate(log.entries) if entry.call.name == "send")
    to, start, length = log.entries[at].arguments
    other = replace(log.entries[at], arguments=(to, start + 4, length))
    return of(log, entries=[*log.entries[:at], other, *log.entries[at + 1 :]])


FILES = (
    Case("over an input: a schedule", "record a.log", {"a.log": "friday 1\nprocess a ping.wasm\nrun 0 0\n"}),
    Case("over an input: a schedule and an image", "record --images a.mem", {"a.mem": "friday 1\nprocess a ping.wasm\nrun 0 0\n"}),
    Case("absent: the schedule", "record schedul"),
    Case("absent: the schedule of a play", "play schedul"),
    Case("absent: a log", "replay ping.wasm ping.lgo"),
    Case("absent: a folder", "debug ping.wasm logs/ping.log"),
    Case("absent: a module of the schedule", "record of/s", {"of/s": "friday 1\nprocess a a.wasm\nrun 0 0\n", "of/a.wasm": module()}),
    Case("read: a folder", "replay . ping.log"),
    Case("read: a folder as the input", "debug " + PAIRS, {}, "< ."),
    Case("read: a folder as the input of a play", "play schedule", {}, "< ."),
    Case("write: a folder in the way", "record s", {"s": "friday 1\nprocess a ping.wasm\nrun 0 0\n", "a.log/x": ""}),
    Case("write: a folder that is not there", "migrate ping.log none/new.log"),
    Case("write: a closed output", "replay " + PAIRS, {}, ">&-"),
    Case("write: a full output", "replay " + PAIRS, {}, "> /dev/full"),
)
WORDS = tuple(
    Case("words: " + words, words)
    for words in (
        "rceord schedule", "plya schedule", "play", "play schedule schedule", "play --images schedule", "relay ping.wasm ping.log", "-v", "Record schedule", "record", "record schedule schedule", "record --image schedule",
        "record -x", "replay ping.wasm", "replay --images --images ping.wasm ping.log", "debug ping.wasm ping.log pong.wasm", "cut ping 3 ping.wasm ping.log",
        "cut 16 1 ping.wasm ping.log", "cut 0 0 ping.wasm ping.log", "cut 0 1", "migrate ping.log", "drill 0", "help rceord",
    )
)

# Lines of the debugger, one after the other in one session; the last ones need points and many of them.
LINES = (
    "foo", "Step", "steps", "goto", "goto -1", "goto +1", "goto x", "goto 99999", "goto 1 2", "goto 9223372036854775808", "step x", "back 1 2",
    "events 0", "events 1001", "mem", "mem pong", "mem pong 64", "mem pong 64 0", "mem pong 64 257", "mem pang 64 4", "threads", "threads pang",
    "threads pong ping", "print", "print +1", "print 1 +", "print 1 2", "print x", "print nosuch.x", "print (1", "print 1 < 2 < 3", "print 1 = 2",
    "print 1 & 2", "print ~1", "print 'a'", "print \"a", "print @ping", "print @ping.x", "print @ping.u64[0]", "print @ping.u8 64", "print @ping.global[-1]",
    "print @pang.clock", "print @_.clock", "print sum(sum(1))", "print sum", "print $", "watch $x", "watch", "break ping", "break ping nosuch",
    "break pang recv", "delete", "delete 7", "do 1", "do 7 stop", "do 1 say", "set x 3", "frames ping", "frames ping 64", "frames pang 0", "frames ping 9",
    "print @!.clock", "break * * if $x",
)
assert len(LINES) == 63



def contents_of(*path):
    with open(os.path.join(TOP, *path), "rb") as file:
        return file.read()
