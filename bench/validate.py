"""Validates ordinary modules and hostile ones, of a tenth of the limit and of the limit of 4,194,304 bytes,
by this program and by wabt's wasm-validate, and prints the time that each takes beyond its start, and the
instructions per byte of this program. A child is stopped after 20 seconds.
"""

import os
import shutil
import statistics
import struct
import subprocess
import tempfile
import time

from costs import TOP, instructions, program_of

PROGRAM = program_of(__doc__)
SMALL = os.path.join(TOP, "examples", "first", "a.wasm")
LIMIT, PATIENCE = 4194304, 20
EMPTY, I32 = 0x40, 0x7F


def leb(n):
    out = b""
    while n > 127:
        out += bytes([n & 127 | 128])
        n >>= 7
    return out + bytes([n])


def section(number, count, body):
    body = leb(count) + body
    return bytes([number]) + leb(len(body)) + body


def func_type(params, results=b""):
    return b"\x60" + leb(len(params)) + params + leb(len(results)) + results


def body(code, runs=0, locals=b""):
    whole = leb(runs) + locals + code + b"\x0b"
    return leb(len(whole)) + whole


# A module of these types, of functions with these type indices and bodies, and of other sections.
def module(types, indices, bodies, exports=None, elems=b"", imports=b"", imported=0):
    if exports is None:
        exports = section(7, 1, b"\x06_start\x00" + leb(imported))
    return (
        b"\0asm\1\0\0\0"
        + section(1, len(types), b"".join(types))
        + imports
        + section(3, len(indices), b"".join(map(leb, indices)))
        + b"\x04\x04\x01\x70\x00\x01\x05\x03\x01\x00\x01"
        + exports
        + elems
        + section(10, len(bodies), b"".join(bodies))
    )


PLAIN = func_type(b"")


def one_body(code, runs=0, locals=b""):
    return module([PLAIN], [0], [body(code, runs, locals)])


# Functions with a loop, memory, calls and a choice.
def ordinary(size):
    code = bytes.fromhex(
        "200041076a2102 0240 0340 20024504400c020b 200241016b2102 200120022802046a2101 20022001360200"
        "0c00 0b 0b 20002001 1000 21022002 20014b047f 2000200173 05 2001 41ffff0371 0b"
    )
    binary = func_type(bytes([I32, I32]), bytes([I32]))
    each = body(code, 1, b"\x01\x7f")
    count = size // (len(each) + 1)
    return module([PLAIN, binary], [1] * count + [0], [each] * count + [body(b"")], section(7, 1, b"\x06_start\x00" + leb(count)))


def wide_type(size):
    count = size // 8
    return module([PLAIN, func_type(bytes([I32]) * (size // 2))], [0] + [1] * count, [body(b"")] * (count + 1))


def wide_calls(size):
    code = b"\x00" + b"\x10\x01" * (size // 4)
    return module([PLAIN, func_type(bytes([I32]) * (size // 2))], [0, 1], [body(code), body(b"")])


def wide_locals(size):
    code = b"\x20\x00\x1a" * 2
    each = body(code)
    count = size // 2 // (len(each) + 1)
    return module([PLAIN, func_type(bytes([I32]) * (size // 2))], [0] + [1] * count, [body(b"")] + [each] * count)


def one_table(size):
    return one_body(b"\x41\x00\x0e" + leb(size) + bytes(size) + b"\x00")


def deep_table(size):
    depth, label = 999, leb(999)
    count = size // len(label)
    return one_body(b"\x02\x40" * depth + b"\x41\x00\x0e" + leb(count) + label * count + label + b"\x0b" * depth)


def many_tables(size):
    return one_body(b"\x00" + b"\x41\x00\x0e\x03\x00\x00\x00\x00" * (size // 8))


def unreachable(size):
    return one_body(b"\x00" + b"\x6a" * size + b"\x1a")


def blocks(size):
    depth = 1000
    return one_body((b"\x02\x40" * depth + b"\x0c" + leb(depth - 1) + b"\x0b" * depth) * (size // (3 * depth)))


def local_runs(size):
    runs = size // 4
    code = (b"\x20" + leb(runs - 1) + b"\x1a") * (size // 2 // 5)
    return one_body(code, runs, b"\x01\x7f" * runs)


def short_names(size):
    count = size // 7
    names = b"".join(b"\x04" + struct.pack(">I", i & 127 | (i >> 7 & 127) << 8 | (i >> 14 & 127) << 16) + b"\x00\x00" for i in range(count))
    return module([PLAIN], [0], [body(b"")], section(7, count + 1, b"\x06_start\x00\x00" + names))


def long_names(size):
    length = 2000
    count = size // (length + 4)
    names = b"".join(leb(length) + b"a" * (length - 4) + b"%04d" % i + b"\x00\x00" for i in range(count))
    return module([PLAIN], [0], [body(b"")], section(7, count + 1, b"\x06_start\x00\x00" + names))


def elements(size):
    return module([PLAIN], [0], [body(b"")], elems=section(9, 1, b"\x00\x41\x00\x0b" + leb(size) + bytes(size)))


def imports(size):
    each = b"\x06liblog\x05yield\x00\x00"
    count = size // len(each)
    return module([PLAIN], [0], [body(b"")], imports=section(2, count, each * count), imported=count)


def types(size):
    return module([PLAIN] * (size // 3), [0], [body(b"")])


def start(words):
    begin = time.perf_counter()
    child = subprocess.Popen(words, stdout=subprocess.DEVNULL, stderr=subprocess.DEVNULL)
    try:
        status = child.wait(timeout=PATIENCE)
    except subprocess.TimeoutExpired:
        child.kill()
        child.wait()
        return None, None
    return time.perf_counter() - begin, status


def median(words, times):
    runs = [start(words)]
    if runs[0][0] is not None and runs[0][0] < 2:
        runs += [start(words) for _ in range(times - 1)]
    spent = [each[0] for each in runs if each[0] is not None]
    return (statistics.median(spent) if spent else None), runs[0][1]


def shown(spent, base):
    return "> %d" % PATIENCE if spent is None else "%.4f" % max(spent - base, 0)


def main():
    with tempfile.TemporaryDirectory() as folder:
        path, log = os.path.join(folder, "m.wasm"), os.path.join(folder, "log")
        with open(log, "wb") as file:
            file.write(b"LLOG" + struct.pack("<III", 1, 1, 0) + b"\x01m")
        ours = lambda name: [PROGRAM, "replay", name, log]
        theirs = lambda name: ["wasm-validate", name]
        has_wabt = shutil.which("wasm-validate") is not None
        base, _ = median(ours(SMALL), 20)
        wabt_base, _ = median(theirs(SMALL), 20) if has_wabt else (None, None)
        at_start = instructions(ours(SMALL))
        print("%-12s %9s %7s %10s %9s %12s %10s %7s" % ("module", "bytes", "status", "seconds", "ns/byte", "instr./byte", "wabt", "status"))
        for make in (ordinary, wide_type, wide_calls, wide_locals, one_table, deep_table, many_tables, unreachable,
                     blocks, local_runs, short_names, long_names, elements, imports, types):
            for size in (LIMIT // 10, LIMIT - 100):
                made = make(size * 97 // 100)
                assert len(made) <= LIMIT, (make.__name__, len(made))
                with open(path, "wb") as file:
                    file.write(made)
                spent, status = median(ours(path), 5)
                count = None if spent is None or at_start is None else instructions(ours(path))
                wabt, wabt_status = median(theirs(path), 5) if has_wabt else (None, None)
                print("%-12s %9d %7s %10s %9s %12s %10s %7s" % (
                    make.__name__, len(made), status, shown(spent, base),
                    "-" if spent is None else "%.2f" % ((spent - base) * 1e9 / len(made)),
                    "-" if count is None else "%.2f" % ((count - at_start) / len(made)),
                    shown(wabt, wabt_base) if has_wabt else "-", wabt_status,
                ), flush=True)


if __name__ == "__main__":
    main()
