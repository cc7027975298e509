#!/usr/bin/env python3
"""Checks tools/play over ping and pong and over the logs of examples/lost_update: what typed lines answer, that undo takes back, what save
and record write, that a schedule played is recorded with the same events, and the prompt in a terminal.

check_playing.py [PROGRAM]   (the program that answers ./friday, if none is given)
"""

import argparse
import os
import pty
import re
import select
import shutil
import signal
import subprocess
import sys
import tempfile
import time

from tools_path import TOOLS, TOP  # before the modules of the tools, which it lets be found
from asking.program import program_of

EXAMPLES = os.path.join(TOP, "examples")
BANK = os.path.join(EXAMPLES, "bank", "bank.wasm")
LOGS = [word for name in ("north", "south", "east") for word in (BANK, os.path.join(EXAMPLES, "lost_update", name + ".log"))]

# What is typed, and what comes next.
TYPED = (
    ("under way", "nothing is under way"),
    ("r ping 0 2", r"1 ping 0 begin\n2 ping 0 send 1 \d+ 4 = 4\n    sent to pong: 01000000"),
    ("u", "ping 1 to pong, sent at clock 2: 01000000"),
    ("r pong", "1 pong 0 begin"),
    ("r pong", r"0 acted, 1 idle\n    pong: thread 0 waits for a datagram"),
    ("d", "1 acted, 0 idle"),
    ("u", "waits at pong: from ping at its clock 2: 01000000"),
    ("r pong 0 9", r"3 pong 0 recv \d+ 4 \d+ = 4\n    taken from ping at its clock 2: 01000000\n4 pong 0 send 0 \d+ 4 = 4\n    sent to ping: 02000000\n2 acted, 7 idle\n"
     "    pong: thread 0 waits for a datagram"),
    ("undo", "taken back: run 1 0 9"),
    ("ps", r"ping: 2 events, running\npong: 1 events, running"),
    ("undo 2", r"taken back: run 1 0\ntaken back: deliver 0 1"),
    ("deliver ping 7", "0 acted, 1 idle"),
    ("deliver ping", r"\? 10 bad item\n    deliver NODE N"),
    ("run nobody", r"\? the processes are ping, pong"),
    ("run ping x", r"\? 10 bad item\n    run NODE \[THREAD\]"),
    ("lose ping 2", r"\? lose wants NODE N"),
    ("goto 3", r"\? 1 syntax at column 1\n    goto is no word here"),
    ("p @ping.clock + 1", "3"),
    ("p ping.clock + 1", "3"),
    ("p 1 1", r"\? 1 syntax at column 9\n    print 1 1\n            \^"),
    ("threads nobody", r"\? 2 no node\n    the processes are ping, pong"),
    ("threads ping", r"ping running\n0 at recv "),
    ("datagram ping 1", "1 d74c4f4700000000020000000000000001000000"),
    ("printed ping", "nothing"),
    ("kill pong", r"1 acted, 0 idle\npong: 1 events, killed"),
    ("list", r"run 0 0 2\nrun 1 0\nkill 1"),
    ("help", "items .*"),
)


def play(program, typed, *words, wanted=0):
    done = subprocess.run([os.path.join(TOOLS, "play"), "--program", program, *words], input=typed, stdout=subprocess.PIPE, stderr=subprocess.STDOUT,
                          text=True, timeout=300)
    assert done.returncode == wanted, (words, done)
    return done.stdout


def check_answers(program):
    """Each line is followed by a mark, so that the answers can be told apart."""
    typed = "".join("%s\np %d\n" % (line, 7_300_000 + place) for place, (line, _) in enumerate(TYPED))
    answers = re.split(r"73000\d\d\n", play(program, typed, "ping=ping.wasm", "pong=pong.wasm", wanted=1))
    for (line, wanted), answer in zip(TYPED, answers):
        assert re.match(wanted, answer), (line, wanted, answer)


def check_kept(program):
    """What is saved is recorded with the events that were played; what is there is not written over."""
    typed = "r ping 0 5\nr pong 0 5\nd\nr pong 0 5\nd\nr ping 0 5\nd ping 1\nr pong 0 2\n"
    told = play(program, typed + "save made\nsave made\nr ping\nsave made\nrecord\nps\n", "ping=ping.wasm", "pong=pong.wasm")
    events = [line for line in told.splitlines() if re.match(r"\d+ p[io]ng \d+ ", line)]
    text = open("played/schedule").read()
    assert text.startswith("friday 1\nprocess ping ../ping.wasm\nprocess pong ../pong.wasm\nrun 0 0 ") and "5\nrun" not in text, text
    assert open("made").read() == text.replace("../", "")
    listed = subprocess.run([os.path.join(TOOLS, "events.py"), "list", "--brief", "ping.log", "pong.log"], cwd="played", stdout=subprocess.PIPE, text=True, check=True)
    recorded = [line.split(": ", 1)[1].split("; ")[0] for line in listed.stdout.splitlines()]
    assert sorted(events) == sorted(recorded), (events, recorded)
    assert "recorded in played; to open it: cd played && " in told and "items: 13 acted, 0 idle" in told, told
    for line in ("save made", "record", "record played", "save ping.wasm", "save", "save no/folder"):
        assert play(program, line + "\n", "ping=ping.wasm", "pong=pong.wasm", wanted=1).startswith("? "), line
    again = play(program, "list\nundo 2\nps\n", "made")
    assert again.startswith("".join(line + "\n" for line in text.splitlines()[3:])), again


def check_recording(program):
    """A recording is gone on with as it was, and again from the same position after another course."""
    told = play(program, "follow 83\nps\nagain\nlose south 1\nfollow 12\nsave what_if\n", "--from-logs", *LOGS, "--until", "42")
    assert "83 of 83 events as they were recorded, and 0 of the recording are left\n" in told, told
    assert "north: 48 events, running\nsouth: 41 events, running\neast: 36 events, running\n" in told
    assert "6 of 12 events as they were recorded, and 71 of the recording are left\n" in told
    assert "# the datagram 1 of south to north is lost\n" in open("what_if").read()
    assert subprocess.run([program, "record", "what_if"], stdout=subprocess.PIPE, text=True).stdout.endswith(" acted, 0 idle\n")
    assert "the logs have 125 events" in play(program, "", "--from-logs", *LOGS, "--until", "126", wanted=1)
    assert "7 Incomplete" in play(program, "", "--from-logs", *LOGS[:4], wanted=1)


def check_refused(program):
    for words, told in ((["a=ping.wasm", "a=ping.wasm"], "two processes are named a"), (["--until", "3", "s"], "--until is of --from-logs"),
                        (["--from-logs", "ping.wasm"], "each module needs its log"), (["A=b"], "a name is 1 to 32")):
        assert told in play(program, "", *words, wanted=2), words
    assert "absent.wasm" in play(program, "", "a=absent.wasm", wanted=1)
    assert "absent" in play(program, "", "absent", wanted=1)
    with open("bad", "w") as file:
        file.write("friday 1\nprocess a ping.wasm\nrun 7 0\n")
    assert "? 10 bad item" in play(program, "", "bad", wanted=1)
    with open("bad", "wb") as file:
        file.write(bytes(range(256)) * 9)
    assert "bad is no schedule" in play(program, "", "bad", wanted=1)
    for line in ("\x00", "run 0 0 \x00", "p \"", "u x", "d d d", "follow", "follow -1", "again x", "undo x", "save \x00", "record \x00", "x" * 200000, "clock ping " + "0" * 9000 + "5",
                 "run ping " + "0" * 9000 + " 1", "run " + "0" * 9000, "undo " + "9" * 9000, "inject ping 0", "deliver ping " + "9" * 9000):
        assert "Traceback" not in subprocess.run([os.path.join(TOOLS, "play"), "--program", program, "ping=ping.wasm"], input=line + "\nps\n", stdout=subprocess.PIPE,
                                                 stderr=subprocess.STDOUT, text=True, timeout=60).stdout, line


def check_terminal(program):
    """In a terminal there is a prompt, and Ctrl-C takes back what was typed."""
    terminal, inner = pty.openpty()
    run = subprocess.Popen([os.path.join(TOOLS, "play"), "--program", program, "ping=ping.wasm", "pong=pong.wasm"], stdin=inner, stdout=inner, stderr=inner, start_new_session=True)
    os.close(inner)
    said = read_until(terminal, "(play 0) ")
    os.write(terminal, b"r ping 0 2\n")
    said += read_until(terminal, "(play 2) ")
    os.write(terminal, b"undo\n")
    said += read_until(terminal, "(play 0) ")
    os.write(terminal, b"no such li")
    time.sleep(1)
    run.send_signal(signal.SIGINT)
    said += read_until(terminal, "(play 0) ")
    os.write(terminal, b"q\n")
    said += read_until(terminal, None)
    assert run.wait(60) == 0 and "help lists the words" in said, said


def read_until(terminal, text):
    said, begun = "", time.monotonic()
    while text is None or text not in said:
        assert time.monotonic() - begun < 60, said
        if not select.select([terminal], [], [], 1)[0]:
            continue
        try:
            data = os.read(terminal, 4096)
        except OSError:
            data = b""
        if not data:
            break
        said += data.decode("latin-1")
    return said


def main():
    parser = argparse.ArgumentParser(description=__doc__, formatter_class=argparse.RawDescriptionHelpFormatter)
    parser.add_argument("program", nargs="?", metavar="PROGRAM")
    program = os.path.abspath(program_of(parser.parse_args().program))
    with tempfile.TemporaryDirectory() as folder:
        os.chdir(folder)
        for name in ("ping.wasm", "ping.places", "pong.wasm", "pong.places"):
            shutil.copy(os.path.join(EXAMPLES, "pingpong", name), ".")
        check_answers(program)
        check_kept(program)
        check_recording(program)
        check_refused(program)
        check_terminal(program)
        os.chdir("/")
    print("playing: as expected")


if __name__ == "__main__":
    main()
