#!/usr/bin/env python3
"""Checks that an old file stands until the new one is whole: of calls that are killed at moments drawn at random, of calls whose
writes fail, since a file may have only so many bytes, and where nothing can be made; what a new file takes over from the old one; and
that no file is made in the place of one that the call reads.

check_replaced.py [--kills N] [--seed N] [PROGRAM]
                (200 of each command, the program that answers ./friday, if none is given)
"""

import argparse
import os
import random
import resource
import shutil
import signal
import stat
import subprocess
import tempfile
import threading
import time
from dataclasses import replace

from tools_path import TOP  # before the modules of the tools, which it lets be found
from asking.program import program_of
from logs.format import read_log, spelled

GUESTS = os.path.join(TOP, "crates", "friday_cases", "data")
PAIRS = "ping.wasm ping.log pong.wasm pong.log"
OLD = b"an older file\n" * 1000


def write(path, data):
    with open(path, "wb") as file:
        file.write(data)


def read(path):
    with open(path, "rb") as file:
        return file.read()


def held(folder, names):
    return {name: read(os.path.join(folder, name)) for name in names}


def put(folder, files):
    for name, data in files.items():
        write(os.path.join(folder, name), data)


def left_beside(folder):
    return [name for name in os.listdir(folder) if name.endswith(".friday-new")]


def call(program, folder, words, prepare=None):
    """The status of a call, whose output nobody wants."""
    done = subprocess.run([program, *words.split()], cwd=folder, stdin=subprocess.DEVNULL, stdout=subprocess.DEVNULL, preexec_fn=prepare)
    return done.returncode


def killed(program, folder, words, after):
    """Whether a call was killed that runs for longer than this."""
    process = subprocess.Popen([program, *words.split()], cwd=folder, stdin=subprocess.DEVNULL, stdout=subprocess.DEVNULL)
    timer = threading.Timer(after, process.kill)
    timer.start()
    process.wait()
    timer.cancel()
    return process.returncode == -signal.SIGKILL


def older_log(log):
    """The log in the older version, with bytes after its entries: another file, from which the same new one is made."""
    return spelled(replace(log, version=1)) + b"\x01"


class Group:
    """A recording, and for each command the files that it makes over older ones, and what it makes of them."""

    def __init__(self, program, folder):
        self.program, self.folder = program, folder
        for name in os.listdir(GUESTS):
            shutil.copy(os.path.join(GUESTS, name), folder)
        assert call(program, folder, "record schedule") == 0
        older = older_log(read_log(os.path.join(folder, "ping.log")))
        self.commands = [
            ("migrate own.log own.log", {"own.log": older}),
            ("migrate ping.log new.log", {"new.log": OLD}),
            ("cut 1 7 " + PAIRS, {"ping.cut": OLD, "pong.cut": OLD}),
            ("replay --images " + PAIRS, {name + end: OLD for name in ("ping", "pong") for end in (".mem", ".out")}),
        ]

    def made(self, words, old):
        """What a whole call makes, and how long it runs."""
        put(self.folder, old)
        begun = time.monotonic()
        assert call(self.program, self.folder, words) == 0, words
        return held(self.folder, old), time.monotonic() - begun

    def stands(self, words, old, new):
        """Each file is the old one or the new one, the new ones first, as they are made in this order. How many are new."""
        now = held(self.folder, old)
        count = sum(now[name] != old[name] for name in old)
        wanted = {name: (new if at < count else old)[name] for at, name in enumerate(old)}
        assert now == wanted, (words, {name: (len(now[name]), len(old[name]), len(new[name])) for name in old})
        return count


def check_kills(group, draw, kills):
    for words, old in group.commands:
        new, lasts = group.made(words, old)
        assert all(new[name] != old[name] for name in old), words
        were_killed = 0
        for _ in range(kills):
            put(group.folder, old)
            were_killed += killed(group.program, group.folder, words, draw.uniform(0, lasts * 1.1))
            group.stands(words, old, new)
        # What a kill left beside a file does not stand in the way.
        for name in old:
            write(os.path.join(group.folder, name + ".friday-new"), b"a part")
        assert group.made(words, old)[0] == new and left_beside(group.folder) == [], words
        assert were_killed > 0, words


def limited(size, is_told):
    """Lets the next program make no file of more bytes, of which the system tells it or for which it ends it."""
    def prepare():
        resource.setrlimit(resource.RLIMIT_FSIZE, (size, size))
        signal.signal(signal.SIGXFSZ, signal.SIG_IGN if is_told else signal.SIG_DFL)
    return prepare


def check_full(group):
    for words, old in group.commands:
        new, _ = group.made(words, old)
        most = max(map(len, new.values()))
        for size in sorted({0, 1, most // 2, most - 1} | {len(data) for data in new.values() if len(data) < most}):
            put(group.folder, old)
            status = call(group.program, group.folder, words, limited(size, True))
            count = group.stands(words, old, new)
            assert status == 6 and count < len(old) and left_beside(group.folder) == [], (words, size, status, count)
            put(group.folder, old)
            call(group.program, group.folder, words, limited(size, False))
            group.stands(words, old, new)
            for name in left_beside(group.folder):
                os.unlink(os.path.join(group.folder, name))
        # Nothing can be made beside the last file.
        last = os.path.join(group.folder, list(old)[-1] + ".friday-new")
        put(group.folder, old)
        os.mkdir(last)
        assert call(group.program, group.folder, words) == 6
        assert group.stands(words, old, new) == len(old) - 1
        os.rmdir(last)


def check_closed_folder(group):
    """A folder that may not be written to: root may write to each."""
    if os.geteuid() == 0:
        return
    for words, old in group.commands:
        put(group.folder, old)
        os.chmod(group.folder, 0o555)
        status, now = call(group.program, group.folder, words), held(group.folder, old)
        os.chmod(group.folder, 0o755)
        assert (status, now) == (6, old), words


def check_takes_over(group):
    """Permissions, links, and what is no regular file."""
    words, new = "migrate ping.log new.log", read(os.path.join(group.folder, "ping.log"))
    path = os.path.join(group.folder, "new.log")
    write(path, OLD)
    os.chmod(path, 0o640)
    os.link(path, path + ".other")
    assert call(group.program, group.folder, words) == 0
    assert stat.S_IMODE(os.stat(path).st_mode) == 0o640 and read(path) == new and read(path + ".other") == OLD
    os.symlink("new.log", os.path.join(group.folder, "link"))
    write(path, OLD)
    assert call(group.program, group.folder, "migrate ping.log link") == 0
    assert os.readlink(os.path.join(group.folder, "link")) == "new.log" and read(path) == new
    os.unlink(path)
    assert call(group.program, group.folder, "migrate ping.log link") == 0
    assert os.path.islink(os.path.join(group.folder, "link")) and read(path) == new
    if os.geteuid() != 0:
        write(path, OLD)
        os.chmod(path, 0o444)
        assert call(group.program, group.folder, words) == 6 and read(path) == OLD
        os.chmod(path, 0o644)
    pipe = os.path.join(group.folder, "pipe")
    os.mkfifo(pipe)
    reader = subprocess.Popen(["cat", pipe], stdout=subprocess.PIPE)
    assert call(group.program, group.folder, "migrate ping.log pipe") == 0
    assert reader.communicate(timeout=60)[0] == new and stat.S_ISFIFO(os.stat(pipe).st_mode)
    assert call(group.program, group.folder, "migrate ping.log /dev/null") == 0 and stat.S_ISCHR(os.stat("/dev/null").st_mode)
    assert call(group.program, group.folder, "migrate ping.log /dev/full") == 6
    done = subprocess.run([group.program, "migrate", "ping.log", "/dev/stdout"], cwd=group.folder, stdout=subprocess.PIPE)
    assert done.returncode == 0 and done.stdout.startswith(new)
    assert left_beside(group.folder) == []


def over_inputs(group):
    """Calls that would make a file in the place of one that they read: which one, and the files of that place. Other words make it."""
    schedule = read(os.path.join(group.folder, "schedule"))
    ping, pong = (read(os.path.join(group.folder, name + ".wasm")) for name in ("ping", "pong"))
    logs = {name: read(os.path.join(group.folder, name + ".log")) for name in ("ping", "pong")}
    return (
        ("cut 1 2 ping.cut ping.log pong.wasm pong.log", "ping.cut", {"ping.cut": ping}),
        ("cut 1 2 ping.wasm ping.log pong.wasm pong.cut", "pong.cut", {"pong.cut": logs["pong"]}),
        ("record ping.log", "ping.log", {"ping.log": schedule}),
        ("record --images pong.log", "pong.log", {"pong.log": schedule}),
        ("record --images ping.mem", "ping.mem", {"ping.mem": schedule}),
        ("record --images pong.out", "pong.out", {"pong.out": schedule}),
        ("replay --images ping.wasm ping.log pong.mem pong.log", "pong.mem", {"pong.mem": pong}),
        ("replay --images ping.wasm ping.out pong.wasm pong.log", "ping.out", {"ping.out": logs["ping"]}),
    )


def check_over_inputs(group):
    for words, clash, files in over_inputs(group):
        stood = held(group.folder, [name for name in os.listdir(group.folder) if os.path.isfile(os.path.join(group.folder, name))])
        put(group.folder, files)
        before = held(group.folder, stood | files)
        done = subprocess.run([group.program, *words.split()], cwd=group.folder, stdin=subprocess.DEVNULL, stdout=subprocess.PIPE)
        assert (done.returncode, done.stdout.decode()) == (3, "friday: refused %s: 14 OverInput\n" % clash), (words, done)
        assert held(group.folder, before) == before and set(os.listdir(group.folder)) >= set(before), words
        put(group.folder, {name: stood.get(name, OLD) for name in files})
    assert call(group.program, group.folder, "record --images schedule") == 0


def main():
    parser = argparse.ArgumentParser(description=__doc__, formatter_class=argparse.RawDescriptionHelpFormatter, allow_abbrev=False)
    parser.add_argument("--kills", type=int, default=200)
    parser.add_argument("--seed", type=int, default=1)
    parser.add_argument("program", nargs="?")
    chosen = parser.parse_args()
    program = program_of(chosen.program)
    with tempfile.TemporaryDirectory() as folder:
        group = Group(os.path.realpath(program), folder)
        check_over_inputs(group)
        check_takes_over(group)
        check_full(group)
        check_closed_folder(group)
        check_kills(group, random.Random(chosen.seed), chosen.kills)
    print("replaced: as expected")


if __name__ == "__main__":
    main()
