#!/usr/bin/env python3
"""Checks tools/session over the logs of examples/lost_update: what lines typed by hand answer, that the saved script is
answered by the debugger alone with the same values, that points come back from a file, and that Ctrl-C pauses a walk.

check_session.py [PROGRAM]   (the program that answers ./friday, if none is given)
"""

import argparse
import os
import re
import shutil
import signal
import struct
import subprocess
import sys
import tempfile
import time

from tools_path import TOOLS, TOP  # before the modules of the tools, which it lets be found
from asking.program import program_of
import sessions  # before the modules of the kit, which it lets be found
from place_table import digest_of

LOGS = os.path.join(TOP, "examples", "lost_update")
PAIRS = [word for name in ("north", "south", "east") for word in ("../bank/bank.wasm", name + ".log")]
TOTAL = "sum(@_.{balances[0]} + @_.{balances[1]} + @_.{paid_out} - @_.{paid_in})"

# What is typed, and a part of what comes next.
TYPED = (
    ("p north.balances", r"\[100, 100\]"),
    ("p/x north.balances[1]", "0x64"),
    ("p north.transfers[1]", r"\{to = 0, on_its_way = 0, message = \{kind = 0, number = 0, account = 0, amount = 0\}\}"),
    ("w " + TOTAL, "point 1"),
    ("c", r'watch 1: 600 -> 571\nat 54: 25 north 3 print 4128 25 = 25\n    printed "account 0 changes by -10\\n"'),
    ("c", r"end\nat 125: .*\n    sent to north: [0-9a-f]{32}"),
    ("rc", r'watch 1: 600 -> 571\nat 54: 25 north 3 print 4128 25 = 25\n'),
    ("rc", r"start\nat 0\n"),
    ("g 125", "at 125"),
    ("when", "125: 53 south 4 send .*\n    sent to north: [0-9a-f]{32}"),
    ("back 71", "at 54: 25 north 3 print"),
    ("rs", "at 53: "),
    ("back 999", r"at 0\n"),
    ("back x", r"\? 1 syntax at column 6\n    back x\n         \^"),
    ("rc 3", r"\? 1 syntax at column 11\n    rcontinue 3\n              \^"),
    ("g 53", "at 53: "),
    ("p north.balances[0] + north.events", r"\d+"),
    ("p nobody.x", r"\? 1 syntax at column 7\n    print nobody.x\n          \^"),
    ("p amount", r"(?s)\? 1 syntax at column 7\n.*    amount is no variable of .*: `names .*` lists"),
    ("w north.balances[0] + amount", r"(?s)\? 1 syntax .*    amount is no variable of north"),
    ("p north.nothing", r"\? bank.wasm has no variable nothing"),
    ("finish", r"\? north 1 does not leave take_all up to the end\n"),
    ("up", r"#1  begin, kit/threads.c:14-22\n +14  static void begin\("),
    ("up", r"\? the frames of north 1 are #0 to #1\n"),
    ("list .", r"     9  .*\n(.*\n){4}>   14  static void begin\("),
    ("down", r"#0  take_all, bank.c:122-134\n   122  static void take_all\("),
    ("frame 2", r"\? the frames of north 1 are #0 to #1\n"),
    ("frame x", r"\? frame wants a number"),
    ("where", r"53: 24 north 1 send .*\n.*\nnorth 1 at recv 2176 16 2172\n#0  take_all, "),
    ("bt south", r"south 0 at begin\n#0  _start, bank.c:149-165\n|south \d "),
    ("bt 3", r"north 3 at print 4128 25\n#0  print_two, print_two.h:16-24\n#1  serve, bank.c:81-92\n#2  begin, kit/threads.c:14-22\n$"),
    ("bt 77", r"\? north has no thread 77\n"),
    ("frames north 1", r"1: 14 20\n"),
    ("frames north 64", r"\? 1 syntax at column 14\n"),
    ("bt nobody", r"\? bt wants a process, .* north, south, east\n"),
    ("t north", r"(?s).*\n1 at recv 2176 16 2172 in take_all, bank.c:122-134 < begin\n"),
    ("hbreak x", r"\? hbreak: `b` makes all points"),
    ("info locals", r"\? info: local variables are not told"),
    ("wibble", r"\? 1 syntax at column 1\n    wibble is no word here"),
    ("g 999", r"\? 7 no such position\n    the logs have 125 events"),
    ("threads nobody", r"\? 2 no node\n    the processes are north, south, east"),
    ("set $n = 7", ""),
    ("p $n + 1", "8"),
    ("x/16xb north 5328", r"  5328  (..[ ]){16}"),
    ("bt", r"north 1 at recv 2176 16 2172\n#0  take_all, bank.c:122-134\n#1  begin, kit/threads.c:14-22\n$"),
    ("b north lock if @north.clock > 12", "point 2"),
    ("run", "at 0"),
    ("c", "break 2\nat [0-9]+: [0-9]+ north [0-9] lock"),
    ("info break", "1 watch sum.*\n2 break north lock"),
    ("x north.transfers[0]", r"  5328  (..[ ]){16} .*\n  5344 "),
    ("info threads", "north running\n0 at .*"),
    ("names north balances", r"north.bank::balances  i64\[2\]"),
    ("help", "moving .*"),
    ("help finish", r" +frame N  up  down .*finish goes on"),
    ("help tbreak", "points .*tbreak does so once"),
    ("help nothing", "nothing is no word here"),
)
# As a user of gdb types, in a session of its own; a part of what comes next.
HABITS = (
    ("process south", "names without a process are of south\n"),
    ("p balances", r"\[100, 100\]"),
    ("p me", "0"),
    ("process", "names without a process are of north, the process of the last event"),
    ("g 51", "at 51: 25 north 3 print"),
    ("p balances[0]", "90"),
    ("p/x balances[0]", "0x5a"),
    ("p/t 5", "101"),
    ("p/o 8", "010"),
    ("p/c 65", "65 'A'"),
    ("p/z 1", r"\? the forms are /x in hexadecimal"),
    ("p 5 & 6 | 8", "12"),
    ("p 1 << 3 ^ 1", "9"),
    ("p ~0", "-1"),
    ("p balances[0] > 80 ? 7 : 8", "7"),
    ("p (balances[0] & 0xf) + 1", "11"),
    ("p 1 << 64", "undef"),
    ("p 'a' + me - 'a'", "0"),
    ("p '?' ? '(' : ')'", "40"),
    ("p me@_", r"\? "),
    ("p @_.{me}", r"(?s)\? 2 no node\n    @_ is each process"),
    ("p 1 &", r"\? an operand is missing"),
    ("p &transfers", "0x14d0"),
    ("p sizeof(transfers[0])", "24"),
    ("p transfers[me].message.amount", r"\d+"),
    ("p *transfers@2", r"\[\{to = 0, on_its_way = 0.*\}, \{to = 0.*\}\]\n"),
    ("process south", "names without a process are of south\n"),
    ("p transfers[3].message.kind@4", r"\[1, 3, 0, 19\]"),
    ("p *(struct message *)5408", r"\{kind = 1, number = 3, account = 0, amount = 19\}"),
    ("p ((struct message *)5408)->amount", "19"),
    ("p (struct nothing *)5336", r"\? 1 syntax"),
    ("whatis transfers", r"transfer\[6\]"),
    ("ptype transfers[0]", r"struct transfer \{\n    u32 +to;  // at 0\n.*\n    message +message;  // at 8\n\}  // 24 bytes"),
    ("ptype struct message", r"struct message \{\n    u32 +kind;"),
    ("whatis 1 + 1", "i64"),
    ("x/4xw 5408", r"  5408  0x1  0x3  0x0  0x13\n"),
    ("process north", "names without a process are of north\n"),
    ("x/2dg north 1152", r"  1152  90  100\n"),
    ("cast send struct message", ""),
    ("e 30", r"(?s).*\n    sent to north: \{kind = 1, number = 3, account = 0, amount = 19\}\n"),
    ("cast send struct nothing", r"\? no process has a struct nothing"),
    ("cast send off", ""),
    ("display balances[0]", r"1: north.balances\[0\] = 90\n"),
    ("rs", r"at 50: .*\n(    .*\n)*1: north.balances\[0\] = 129\n"),
    ("undisplay 1", ""),
    ("goto +1", "at 51: "),
    ("goto -2", "at 49: "),
    ("w north.balances", "point 1\npoint 2\n"),
    ("l", r"1 watch @north.i64\[1152\]\n2 watch @north.i64\[1160\]"),
    ("w north.transfers", r"\? it has more than 8 numbers"),
    ("w balances[0] & 1", r"\? 1 syntax at column .*\n.*\n.*\n    & \| "),
    ("d 1-2", "deleted 1\ndeleted 2\n"),
    ("tbreak north lock", "point 3"),
    ("run", "at 0"),
    ("c", "break 3\nat .* north . lock"),
    ("c", "end\nat 51"),
    ("b north lock", "point 4"),
    ("disable", ""),
    ("l", r"4 break north lock\n    point 4 is disabled"),
    ("run", "at 0"),
    ("c", "end\nat 51"),
    ("enable 4", ""),
    ("run", "at 0"),
    ("c 3", "break 4\nat .* north . lock"),
    ("run", "at 0"),
    ("ignore 4 2", ""),
    ("c", "break 4\nat .* north . lock"),
    ("ignore 4 0", ""),
    ("commands 4", ""),
    ("silent", ""),
    ("p balances", ""),
    ("c", ""),
    ("end", ""),
    ("run", "at 0"),
    ("c", r"break 4\n(.*\n)+\[\d+, \d+\]\n(.*\n)+end\nat 51"),
    ("rc", r"break 4\n(.*\n)+\[\d+, \d+\]\n(.*\n)+start\nat 0"),
    ("info locals", r"\? info: local variables"),
    ("list nowhere", r"\? nowhere is no FILE:LINE"),
    ("list bank.c:60", r"    55  .*\n(.*\n)+>   60      balances\[account\] = balance;\n"),
    ("set var x = 3", r"\? no memory is ever written"),
    ("delete", "deleted 4"),
    ("tbreak north lock", "point 5"),
    ("g 51", "at 51: "),
    ("rc", "break 5\nat .* north . lock"),
    ("rc", "start\nat 0"),
    ("tbreak * *", "point 6"),
    ("n 2", "break 6\nat 1: 1 north 0 begin"),
    ("delete 6", r"\? 6 no such point"),
    ("delete 9", r"\? 6 no such point"),
    ("run", "at 0"),
    ("n 2", r"at \d+: \d+ north 0 "),
    ("reverse-next", r"at 1: 1 north 0 begin"),
    ("rn", r"at 0\n"),
    ("n 0", r"\? how many times"),
    ("g 51", "at 51: 25 north 3 print"),
    ("n", r"\? north 3 makes no event after this one"),
    ("frame x", r"\? frame wants a number"),
    ("b east recv\n", "point 7\n$"),
    ("l", "7 break east recv\n$"),
)


# Over the bank's places with names for some numbers.
ENUMERATORS = (
    ("g 58", "at 58: "),
    ("p north.transfers[0].message.kind", r"TRANSFER \(1\)\n"),
    ("p/x north.transfers[0].message.kind", "0x1\n"),
    ("p north.transfers[0].message", r"\{kind = TRANSFER \(1\), number = "),
    ("p north.transfers[3].message.kind", "0\n"),
    ("p north.transfers[0].message.kind == RECEIPT", "0\n"),
    ("p TRANSFER | kind::RECEIPT", "3\n"),
    ("p north.balances[LAST]", r"\d+\n"),
    ("p LOSS + 3", "2\n"),
    ("p (enum kind)2", r"RECEIPT \(2\)\n"),
    ("p send + 1", r"\? 1 syntax"),
    ("ptype north.transfers[0].message.kind", r"enum kind \{TRANSFER = 1, RECEIPT = 2\}  // u32"),
    ("whatis north.transfers[0].message.kind", "kind\n"),
    ("cast send struct message", ""),
    ("e 1", r"58: .*\n    sent to south: \{kind = TRANSFER \(1\), "),
    ("run", "at 0"),
    ("w north.transfers[0].message.kind == TRANSFER if north.me != LOSS", "point 1"),
    ("b north send if transfers[0].message.kind == TRANSFER", "point 2"),
    ("c", "watch 1: .*1\n"),
    ("c", "break 2\n"),
    ("w north.me == LOSS", "point 3"),
    ("l", r"1 watch @north.u32\[5336\] == 1.*\n2 break north send.*\n3 watch @north.u32\[1184\] == \(0-1\)\n    point 1 is watch .* if north.me != LOSS\n"),
)


def session(program, typed, *words, wanted=0, pairs=PAIRS):
    run = subprocess.run(
        [sys.executable, os.path.join(TOOLS, "session"), "--program", program, *words, *pairs],
        input=typed, stdout=subprocess.PIPE, text=True, cwd=LOGS, timeout=600,
    )
    assert run.returncode == wanted, run
    return run.stdout


def check_typed(program, lines, pairs=PAIRS):
    """Each line is followed by a mark, so that the answers can be told apart."""
    typed = "".join("%s\nset $mark %d\np $mark + 1000000\n" % (line, place) for place, (line, _) in enumerate(lines))
    answers = re.split(r"10000\d\d\n", session(program, typed, wanted=1, pairs=pairs))
    for (line, wanted), answer in zip(lines, answers):
        assert re.match(wanted, answer), (line, wanted, answer)


def check_enumerators(program, folder):
    """Numbers that have names are shown with them, and the names stand for the numbers."""
    bank = os.path.join(TOP, "examples", "bank", "bank")
    shutil.copy(bank + ".wasm", folder)
    with open(bank + ".places", encoding="ascii") as file:
        places = re.sub(r"(?m)^enum .*\n(number .*\n)+", "", file.read())
    places = re.sub("field kind .*", "field kind kind 0", places)
    with open(os.path.join(folder, "bank.places"), "w", encoding="ascii") as file:
        file.write(places + "enum kind u32\nnumber TRANSFER 1\nnumber RECEIPT 2\nenum unnamed i32\nnumber LAST 1\nnumber LOSS -1\nnumber send 7\n")
    check_typed(program, ENUMERATORS, [os.path.join(folder, "bank.wasm") if word.endswith(".wasm") else word for word in PAIRS])


def check_habits(program, folder):
    """Over what the lost update needs. Each line is followed by a mark, but where lines are collected."""
    subprocess.run([program, "cut", "0", "25", *(os.path.join(LOGS, word) for word in PAIRS)], cwd=folder, check=True, stdout=subprocess.DEVNULL)
    pairs = [os.path.join(folder, word[:-3] + "cut") if word.endswith(".log") else word for word in PAIRS]
    typed, collecting = [], False
    for place, (line, _) in enumerate(HABITS):
        collecting = (collecting or line.startswith("commands ")) and line != "end"
        typed.append(line if collecting or line == "end" else "%s\nset $mark %d\np $mark + 1000000" % (line, place))
    made = {name: os.path.join(folder, name) for name in ("cuts", "again", "page.html")}
    typed += ["cut " + made["cuts"], "schedule " + made["again"], "page " + made["page.html"], "schedule ../bank/bank.wasm", "script " + pairs[1]]
    told = session(program, "".join(line + "\n" for line in typed), wanted=1, pairs=pairs)
    answers = {int(mark): answer for answer, mark in re.findall(r"(?s)((?:(?!1000\d\d\d\n).)*)1000(\d\d\d)\n", told)}
    for place, (line, wanted) in enumerate(HABITS):
        assert place not in answers or re.match(wanted, answers[place]), (line, wanted, answers[place])
    rest = told[told.rindex("1000%03d" % (len(HABITS) - 1)) :]
    assert re.search(r"north: \d+ of 25 events\n.*\n.*\nnorth.cut and so on are in", rest) and os.path.exists(os.path.join(made["cuts"], "east.cut")), rest
    with open(made["again"]) as file:
        assert file.read().startswith("friday 1\nprocess north ../bank/bank.wasm\n")
    assert rest.count("is a file of this recording") == 2 and "page.html#at=51" in rest and os.path.getsize(made["page.html"]) > 50_000, rest


# What no one types by chance; each has to have an answer.
HOSTILE = (
    b"p deep", b"p deep.f.f.f.f.f.f", b"ptype deep", b"whatis deep", b"w deep", b"x deep", b"p own", b"w own", b"p *own", b"p row", b"p row@99999", b"display deep", b"names", b"info variables",
    b"\xff\xfe\x00p \x1b[31m", b"p " + b"(" * 4000, b"p " + b"(" * 100_000, b"p " + b"~" * 4000, b"p " + b"1|" * 2000 + b"1", b"p " + b"*" * 3000 + b"deep", b"p 1" + b"?1:1" * 900, b"p deep" + b".f" * 2000,
    b"p ((struct s0 *)0)" + b"->f" * 900, b"p (struct s0 *)", b"p deep@", b"p @", b"x/999999999999xw 0", b"x a 99999999999999999999999", b"cast send struct s0", b"goto -99999999999999999999", b"goto +", b"c 0",
    b"c 99999999999999999999", b"commands", b"ignore 1 99999999999999999999", b"d 1-999999999", b"list " + b"a" * 3000 + b":1", b"list ../../../../etc/passwd:1", b"save /", b"load /", b"load \x00", b"cut /dev/null/x", b"page", b"schedule a.wasm",
    b"set $x", b"set " + b"$" * 4000, b"do . " + b"{" * 3000, b"b a." + b"x" * 3000, b"undisplay 7", b"help " + b"x" * 3000, b"info " + b"\x1b" * 30, b"print/" + b"x" * 3000 + b" 1", b"condition 1 " + b"!" * 3000, b"p 9" * 1300,
    b"bt", b"t", b"where", b"up", b"down", b"frame 0", b"list .", b"bt 99999999999999999999", b"bt a 64", b"bt a a", b"up 99999999999999999999", b"down \xb2", b"frame -1", b"finish",
    b"finish 1", b"reverse-finish", b"n 99999999999999999999", b"n", b"rn \xb2", b"b a,a,b.f", b"b a.\x1b[31mred", b"b * *", b"b a * if @!.u32[x]", b"b * recv if @!.{deep.f} && x", b"do . say @!, @!.{own}",
)


def check_hostile(program, folder):
    """Over places that nest 100,000 deep and hold themselves; names that a terminal would obey make no places."""
    for name in ("a.wasm", "a.log"):
        shutil.copy(os.path.join(TOP, "examples", "first", name), folder)
    lines = ["module a.wasm %s" % digest_of(os.path.join(folder, "a.wasm")), "variable x::deep s0 1024", "variable x::own own 1024", "variable x::row u8[9][9][9][9][9][9][9] 0"]
    lines += ["function %d \x1b[31mred%s" % (number, number % 2 * " a\x1b.c 1 99999999999999999999") for number in range(9)]
    lines += ["struct own 4", "field own own 0", "field next own* 0"]
    for depth in range(100_000):
        lines += ["struct s%d 4" % depth, "field f %s 0" % ("s%d" % (depth + 1) if depth < 99_999 else "u32")]
    with open(os.path.join(folder, "a.places"), "w") as file:
        file.write("\n".join(lines) + "\n")
    words = [sys.executable, os.path.join(TOOLS, "session"), "--program", program, "a.wasm", "a.log"]
    typed = b"step 3\n" + b"".join(line + b"\np 1000000\n" for line in HOSTILE)
    run = subprocess.run(words, cwd=folder, input=typed, stdout=subprocess.PIPE, stderr=subprocess.PIPE, timeout=600)
    assert run.returncode == 1 and run.stderr == b"" and b"\x1b" not in run.stdout, (run.stderr, run.stdout[-3000:])
    assert run.stdout.count(b"1000000\n") == len(HOSTILE), run.stdout
    with open(os.path.join(folder, "a.places"), "w") as file:
        file.write("\n".join([lines[0], "variable x::\x1b[31mred u32 0"]) + "\n")
    run = subprocess.run(words, cwd=folder, input=b"names\n", stdout=subprocess.PIPE, timeout=600)
    assert run.stdout == b"no names for a: a.places is no file of places that guests/build wrote\n", run.stdout


def check_repeat(program):
    """An empty line does the last one again, and ends neither the session nor a walk."""
    assert session(program, "s\n\n\n").count("\nat ") + 1 == 3
    assert session(program, "w %s\nc\n\nq\n" % TOTAL).endswith(session(program, "g 125\n"))


def check_kept(program, folder):
    """A script is answered by the debugger alone as it was here, and saved points are there again."""
    script, points = os.path.join(folder, "script"), os.path.join(folder, "points")
    lines = "bytes off\nw %s\ndo 1 set $seen $seen + 1\nset $seen 0\nc\np $seen\np south.balances\n" % TOTAL
    answers = session(program, lines + "script %s\nsave %s\nq\n" % (script, points))
    with open(script) as file:
        alone = subprocess.run([program, "debug", *PAIRS], stdin=file, stdout=subprocess.PIPE, text=True, cwd=LOGS, timeout=300).stdout
    seen, balances = alone.splitlines()[-2:]
    assert "point 1\nend\nat 125: " in alone and "%s\n[75, 30]\n" % seen in answers, (alone, answers)
    assert bytes.fromhex(balances) == struct.pack("<qq", 75, 30), alone
    again = session(program, "l\nvars\n", "--load", points)
    assert again.startswith("point 1\n1 watch sum(") and "$seen %s\n" % seen in again, again


def check_much_said(program, folder):
    """A walk pauses once 10,000 lines were said, and its script is answered as it was."""
    says, script = "; ".join(['say "much"'] * 150), os.path.join(folder, "script")
    told = session(program, "bytes off\nbreak * *\ndo 1 %s\nc\nc\nscript %s\n" % (says, script))
    with open(script) as file:
        alone = subprocess.run([program, "debug", *PAIRS], stdin=file, stdout=subprocess.PIPE, text=True, cwd=LOGS, timeout=300).stdout
    (paused,), (end,) = (re.findall(r"^%s\nat (\d+)" % word, told, re.M) for word in ("paused", "end"))
    assert 67 <= int(paused) < int(end) == 125 and told.count("much\n") == alone.count("much\n") == 150 * 125, (paused, end)
    assert "\nat %s: " % paused in alone and re.findall(r"^at (\d+)", alone, re.M)[-1] == end, alone[-300:]


# Answers lines as the debugger would, and takes so many seconds for a part of a walk.
STAND_IN = """#!/usr/bin/env python3
import sys, time
print("at 0", flush=True)
position = 0
for line in sys.stdin:
    verb, _, rest = line.strip().partition(" ")
    print("[%%s]" %% line.strip(), file=open("asked", "a"))
    position = int(rest) if verb == "goto" else position
    if verb in ("continue", "rcontinue"):
        time.sleep(%g)
        position += int(rest)
        print("paused")
    answers = {"print": rest, "watch": "point 1", "vars": "$n 7", "list": "1 watch 1"}
    answer = "at %%d" %% position if verb in ("goto", "continue") else answers.get(verb)
    if answer:
        print(answer, flush=True)
"""


def interrupted(folder, seconds, lines, line, times):
    """What is said, and what the debugger was asked, where Ctrl-C comes in a line, so many times."""
    stand_in, pairs = os.path.join(folder, "stand_in"), [os.path.join(LOGS, word) for word in PAIRS]
    with open(stand_in, "w") as file:
        file.write(STAND_IN % seconds)
    os.chmod(stand_in, 0o755)
    words = [sys.executable, os.path.join(TOOLS, "session"), "--program", stand_in, *pairs]
    run = subprocess.Popen(words, stdin=subprocess.PIPE, stdout=subprocess.PIPE, text=True, cwd=folder)
    run.stdin.write(lines)
    run.stdin.flush()
    wait_for(os.path.join(folder, "asked"), line)
    for _ in range(times):
        time.sleep(0.3)
        run.send_signal(signal.SIGINT)
    out, _ = run.communicate("q\n", timeout=60)
    with open(os.path.join(folder, "asked")) as file:
        asked = [line for line in file.read().splitlines() if not re.fullmatch(r"\[print \d{5,}\]", line)]
    os.remove(os.path.join(folder, "asked"))
    assert run.returncode == 0, out
    return out, asked


def check_interrupted(folder):
    """Ctrl-C in a walk leaves the session where the walk is. A second one gives up what does not come to an end, as does the first in a
    walk back, with the points, programs and variables as they were."""
    lines, restored = "goto 9\nwatch 1\ndo 1 stop\n%s\np 3\n", ["[set $n 7]", "[watch 1]", "[do 1 stop]", "[goto 9]", "[print 3]"]
    for walk, asked_for, times in (("continue", "[continue 16]", 2), ("rc", "[rcontinue]", 1)):
        out, asked = interrupted(folder, 1000, lines % walk, asked_for, times)
        assert "given up; going back to position 9\n3\n" in out and asked[-5:] == restored, (out, asked)
    out, asked = interrupted(folder, 0.2, lines % "continue", "[continue 16]", 1)
    found = re.search(r"\npaused\nat (\d+)\n3\n$", out)
    assert found and 25 <= int(found[1]) < 125 and asked.count("[goto 9]") == 1 and asked[-1] == "[print 3]", (out, asked)


def wait_for(path, text):
    for _ in range(600):
        if os.path.exists(path):
            with open(path) as file:
                if text in file.read():
                    return
        time.sleep(0.05)
    raise AssertionError("%s never came" % text)


def main():
    parser = argparse.ArgumentParser(description=__doc__, formatter_class=argparse.RawDescriptionHelpFormatter)
    parser.add_argument("program", nargs="?", metavar="PROGRAM")
    program = os.path.abspath(program_of(parser.parse_args().program))
    check_typed(program, TYPED)
    check_repeat(program)
    for check in (check_enumerators, check_kept, check_habits, check_much_said, check_hostile):
        with tempfile.TemporaryDirectory() as folder:
            check(program, folder)
    with tempfile.TemporaryDirectory() as folder:
        check_interrupted(folder)
    print("session: as expected")


if __name__ == "__main__":
    main()
