#!/bin/sh
# Records a group of one process, and one of 16, whose modules are one file of blocks that nest 1,000 deep, then replays
# and debugs the logs. Prints the processor's seconds and the peak of memory of each call: a module that several processes
# have is read and kept once, so both groups should cost about the same.
# Usage: bench/modules.sh [PROGRAM [MB]]   (the proved program, if none is given, and a module of 4 MB)
here=$(CDPATH='' cd -- "$(dirname -- "$0")/.." && pwd) || exit 1
. "$here/tools/usage.sh"
program=${1:-$here/crates/friday/out/friday}
exec python3 - "$program" "${2:-4}" <<'PYTHON'
import os, subprocess, sys, tempfile

program = os.path.abspath(sys.argv[1])
SIZE = int(sys.argv[2]) * 1048576
TOWER = b"\0" + b"\2\x40" * 1000 + b"\x0b" * 1001


def number(value):
    spelled = bytearray()
    while value > 127:
        spelled.append(value & 127 | 128)
        value >>= 7
    return bytes(spelled) + bytes([value])


def sized(content):
    return number(len(content)) + content


def section(kind, content):
    return bytes([kind]) + sized(content)


def vector(items):
    return number(len(items)) + b"".join(items)


# As many functions without parameters and results, each a tower of blocks, as there is room for. The first one is the start.
def towers():
    body = sized(TOWER)
    count = (SIZE - 64) // (len(body) + 1)
    types, start = vector([b"\x60\0\0"]), vector([sized(b"_start") + b"\0\0"])
    parts = (1, types), (3, vector([b"\0"] * count)), (7, start), (10, vector([body] * count))
    return b"\0asm\1\0\0\0" + b"".join(section(kind, content) for kind, content in parts)


# The processor's seconds and the peak of memory of a call.
def cost(folder, words, typed=""):
    child = subprocess.Popen([program] + words, cwd=folder, stdin=subprocess.PIPE, stdout=subprocess.DEVNULL)
    child.stdin.write(typed.encode())
    child.stdin.close()
    _, status, usage = os.wait4(child.pid, 0)
    assert os.waitstatus_to_exitcode(status) == 0, status
    return usage.ru_utime + usage.ru_stime, usage.ru_maxrss * 1024


def write(path, data):
    with open(path, "wb") as file:
        file.write(data)


with tempfile.TemporaryDirectory() as folder:
    module = towers()
    assert SIZE - 8192 < len(module) <= SIZE, len(module)
    write(os.path.join(folder, "m.wasm"), module)
    for count in (1, 16):
        lines = ["friday 1"] + ["process p%d m.wasm" % p for p in range(count)] + ["run %d 0" % p for p in range(count)]
        schedule = "".join(line + "\n" for line in lines)
        write(os.path.join(folder, "s"), schedule.encode())
        pairs = [word for p in range(count) for word in ("m.wasm", "p%d.log" % p)]
        for words, typed in ((["record", "s"], ""), (["replay", *pairs], ""), (["debug", *pairs], "step 99\nback 1\nquit\n")):
            spent, peak = cost(folder, words, typed)
            print("%s of %d: %.1f seconds, peak %.0f MB" % (words[0], count, spent, peak / 1e6), flush=True)
PYTHON
