"""Refuses the program its memory, one request after the other: each request alone, and each with all that come after it.
Every call ends as it does with ample memory, or with status 7 and a front of that call's text; then the logs that stand
are those of a moment of the recording, and replay, and of cut logs the first stand. A command that the program has not is passed over. The program is one that is proved: one that is built
without proofs asks for its memory in another way.
"""

import os
import shutil
import subprocess
import tempfile

from costs import TOP, program_of
from logs.format import ends as ends_of, log_in

PROGRAM = program_of(__doc__)
# Counts the requests, refuses those from FIRST to LAST, and makes the file MARK where there are as many as FIRST.
REFUSING = r"""
#define _GNU_SOURCE
#include <dlfcn.h>
#include <fcntl.h>
#include <stdlib.h>
#include <unistd.h>

static unsigned long first, last, count;
static const char *mark;

__attribute__((constructor)) static void read_words(void) {
    mark = getenv("MARK");
    first = strtoul(getenv("FIRST"), 0, 10);
    last = strtoul(getenv("LAST"), 0, 10);
    count = 0;
}

static int refused(void) {
    if (!mark || ++count < first || count > last) return 0;
    if (count == first) close(open(mark, O_CREAT | O_WRONLY, 0600));
    return 1;
}

void *malloc(size_t size) {
    void *(*next)(size_t) = dlsym(RTLD_NEXT, "malloc");
    return refused() ? 0 : next(size);
}

void *realloc(void *old, size_t size) {
    void *(*next)(void *, size_t) = dlsym(RTLD_NEXT, "realloc");
    return refused() ? 0 : next(old, size);
}
"""

ONE = "friday 1\nprocess a now.wasm\nclock 0 5\nrun 0 0 3\n"
TWO = """friday 1
process ping ping.wasm
process pong pong.wasm
run 0 0 2
run 1 0
deliver 0 1
deliver 0 1
run 1 0 4
deliver 1 2
run 0 0 2
deliver 1 1
run 0 0 2
run 0 0
kill 1
"""
# The process of each event of the second schedule, in its turn.
TURNS = (0, 0, 1, 1, 1, 1, 1, 0, 0, 0, 0)
# Each kind of line of a play, refused ones too.
PLAYED = """processes
threads ping
threads pong
run 0 0
deliver 0 3
datagram 0 1
printed ping 0
print sum(@_.u32[64])
mem ping 64 4
inject 0 00ff
run 0 0 2
kill 9
foo
again
kill 0
"""
WATCH = "watch sum(@_.u32[64])\n" + "continue\n" * 5
PAIRS = ["ping.wasm", "ping.log", "pong.wasm", "pong.log"]
ROWS = (
    (["record", "one"], ["a"], ""),
    (["replay", "now.wasm", "a.log"], [], ""),
    (["migrate", "first.log", "a.log"], ["a"], ""),
    (["record", "--images", "two"], ["ping", "pong"], ""),
    (["play", "two"], [], PLAYED),
    (["replay", "--images", *PAIRS], [], ""),
    (["debug", *PAIRS], [], WATCH),
    (["schedule", *PAIRS], [], ""),
    (["cut", "1", "3", *PAIRS], ["ping", "pong"], ""),
    (["streams", *PAIRS], [], ""),
    (["drill", "10"], [], ""),
)
USAGE, NO_MEMORY, EVER = 2, 7, 2**63


def call(words, typed, extra=None):
    done = subprocess.run([PROGRAM, *words], input=typed.encode(), stdout=subprocess.PIPE, stderr=subprocess.PIPE, env=extra or {})
    assert not done.stderr, done.stderr
    return done.returncode, done.stdout


def held(words, names):
    """What the files that the call makes of these processes hold, those that stand."""
    found = {}
    kinds = ("cut",) if words[0] == "cut" else ("log", "mem", "out")
    for name in (f"{name}.{kind}" for name in names for kind in kinds):
        if os.path.exists(name):
            with open(name, "rb") as file:
                found[name] = file.read()
    return found


def forget(words, names):
    for name in held(words, names):
        os.remove(name)


def sizes(data):
    return ends_of(log_in(data))


def check_cut(stands, whole):
    """What is left of cut logs are the first of them, each of them whole."""
    assert list(stands.items()) == list(whole.items())[: len(stands)], "a log is not whole, or a later one was cut before an earlier one"


def check_stopped(words, names, whole):
    """What a recording leaves that had no memory is what it has made at a moment, and replays."""
    stands = held(words, names)
    for name, data in stands.items():
        assert whole[name].startswith(data), f"{name} is no front of what it is to hold"
        assert data == whole[name] or name.endswith(".log"), f"{name} is not whole"
    if words[0] == "cut":
        return check_cut(stands, whole)
    left = [stands.get(f"{name}.log") for name in names]
    ends = [sizes(whole[f"{name}.log"]) for name in names]
    if None in left or any(len(log) < end[0] for log, end in zip(left, ends)):
        assert all(log is None or len(log) <= end[0] for log, end in zip(left, ends)), "an entry stands where a head does not"
        return
    turns = TURNS if len(names) == 2 else (0,) * 3
    counts = [sum(size <= len(log) for size in end) - 1 for log, end in zip(left, ends)]
    made = turns[: sum(counts)]
    assert counts == [made.count(p) for p in range(len(names))], "the logs are those of no moment"
    pairs = [word for name in names for word in (f"{'now' if name == 'a' else name}.wasm", f"{name}.log")]
    status, text = call(["replay", *pairs], "")
    assert status == 0, text
    for name, count, line in zip(names, counts, text.decode().splitlines()):
        assert line.startswith(f"{name}: {count} events, ") and line.endswith(", log whole"), line


def refuse(words, names, typed, first, last):
    """The call without these requests, as status, text and files; or nothing where it makes fewer."""
    forget(words, names)
    status, text = call(words, typed, {"LD_PRELOAD": "./refusing.so", "MARK": "mark", "FIRST": str(first), "LAST": str(last)})
    if not os.path.exists("mark"):
        return None
    os.remove("mark")
    return status, text, held(words, names)


def refuse_each(words, names, typed, ample, alone):
    """How many requests the call makes, and at how many it ends for want of memory."""
    count = without = 0
    while True:
        found = refuse(words, names, typed, count + 1, count + 1 if alone else EVER)
        if not found:
            return count, without
        count += 1
        if found == ample:
            continue
        assert found[0] == NO_MEMORY and ample[1].startswith(found[1]), f"request {count}: {found[:2]}"
        without += 1
        if names:
            check_stopped(words, names, ample[2])


def row(words, names, typed):
    told = "friday " + " ".join(words)
    forget(words, names)
    status, text = call(words, typed)
    if status == USAGE:
        return told + ": no command of this program"
    assert status == 0, text
    ample = status, text, held(words, names)
    count, alone = refuse_each(words, names, typed, ample, True)
    assert count, "no request of this program can be refused"
    _, onward = refuse_each(words, names, typed, ample, False)
    forget(words, names)
    call(words, typed)
    return f"{told}: {count} requests; without one of them {alone} calls end with status 7, without it and all after it {onward}"


def main():
    with tempfile.TemporaryDirectory() as folder:
        os.chdir(folder)
        for guest in ("now", "ping", "pong"):
            subprocess.run(["wat2wasm", f"{TOP}/crates/friday_cases/guests/{guest}.wat", "-o", guest + ".wasm"], check=True)
        # A log of the version 1, of the events of the first schedule.
        shutil.copy(f"{TOP}/examples/first/a.log", "first.log")
        for name, text in (("one", ONE), ("two", TWO), ("refusing.c", REFUSING)):
            with open(name, "w") as file:
                file.write(text)
        subprocess.run(["cc", "-shared", "-fPIC", "-O1", "refusing.c", "-o", "refusing.so", "-ldl"], check=True)
        for line in ROWS:
            print(row(*line), flush=True)


if __name__ == "__main__":
    main()
