#!/usr/bin/env python3
"""Checks check-module and build over guests with one fault each: the reason, the place and the advice that are told."""
import argparse
import os
import re
import subprocess
import sys
import tempfile

KIT = os.path.dirname(os.path.abspath(__file__))
CLANG = os.environ.get("CLANG", "clang")
LINK = "--target=wasm32 -O1 -g -gdwarf-4 -ffreestanding -nostdlib -Wl,--no-entry -Wl,--export=_start".split()
START = '#include "liblog.h"\nstatic volatile int32_t number = 200;\n'

# By own flags of clang: a name, the flags, the code after START, and parts of what is told.
BY_CLANG = (
    ("good", "-mcpu=mvp", "void _start(void) {\n    liblog_note(number);\n}", ()),
    ("half", "-mcpu=mvp", "void _start(void) {\n    liblog_note((int64_t)(number / 2.5f));\n}", ("2 HasFloat: ", "_start, half.c:4", "guests/lower")),
    ("sign", "-mcpu=mvp -msign-ext", "void _start(void) {\n    liblog_note((int8_t)number);\n}", ()),
    ("bulk", "-mcpu=mvp -mbulk-memory",
     "static uint8_t a[4096], b[4096];\nvoid _start(void) {\n    __builtin_memcpy(a, b, 4096);\n    liblog_print(a, 9);\n}",
     ("1 Malformed: the feature bulk-memory", "in function _start, bulk.c:5", "-mno-bulk-memory")),
    ("gone", "-mcpu=mvp -Wl,--allow-undefined",
     "int gone(void);\nvoid _start(void) {\n    liblog_note(gone());\n}", ("3 BadImport: it imports env.gone", "nowhere defined")),
    ("wide", "-mcpu=mvp",
     "static uint8_t wide[20 << 20];\nvoid _start(void) {\n    wide[number] = 1;\n    liblog_print(wide, 9);\n}", ("5 OverLimit: its memory begins with 32",)),
    ("type", "-mcpu=mvp", "LIBLOG(now) int32_t my_now(void);\nvoid _start(void) {\n    liblog_note(my_now());\n}", ("3 BadImport: liblog.now is declared with another type",)),
    ("none", "-mcpu=mvp -Wl,--export=other", "void other(void) {\n    liblog_note(number);\n}", ("6 NoStart: it exports no _start", "--export=_start")),
    ("main", "-mcpu=mvp", "int _start(int a) {\n    return a;\n}", ("6 NoStart: _start takes or gives something",)),
)
# By guests/build, which lowers floats and leaves sizes alone.
BY_BUILD = (
    ("floaty", "void _start(void) {\n    liblog_note((int64_t)(number * 0.5f));\n}", 0, ()),
    ("large", "static uint8_t wide[20 << 20];\nvoid _start(void) {\n    wide[number] = 1;\n    liblog_print(wide, 9);\n}", 1, ("5 OverLimit",)),
    ("fine", "void _start(void) {\n    liblog_note(number);\n}", 0, ()),
)


def run(words):
    done = subprocess.run(words, stdout=subprocess.PIPE, stderr=subprocess.STDOUT, text=True)
    return done.returncode, done.stdout


def write(name, code):
    with open(name + ".c", "w") as file:
        file.write(START + code + "\n")


def check_clang(name, flags, code, parts):
    write(name, code)
    words = [word for word in LINK if name != "none" or "_start" not in word]
    status, told = run([CLANG, *words, *flags.split(), "-I", KIT, "-o", name + ".wasm", name + ".c"])
    assert status == 0, told
    status, told = run([os.path.join(KIT, "check-module"), name + ".wasm"])
    assert status == (1 if parts else 0) and all(part in told for part in parts), (name, told)


def check_build(name, code, wanted, parts):
    write(name, code)
    status, told = run([os.path.join(KIT, "build"), name + ".c"])
    assert status == wanted and all(part in told for part in parts) and bool(told) == bool(parts), (name, status, told)
    assert os.path.exists(name + ".wasm") and os.path.exists(name + ".places")


def check_folders():
    """A header is found by -I, and a variable of a function that the linker left out has no place."""
    os.mkdir("more")
    with open(os.path.join("more", "gate.h"), "w") as file:
        file.write("static int is_open;\nint open_gate(void) {\n    int was_open = is_open;\n    is_open = 1;\n    return was_open;\n}\n")
    write("folders", '#include "gate.h"\n\nvoid _start(void) {\n    liblog_note(number);\n}')
    status, told = run([os.path.join(KIT, "build"), "-I", "more", "folders.c"])
    assert status == 0, told
    with open("folders.places") as file:
        assert "variable folders::is_open i32\n" in file.read()


def check_words():
    for tool in ("check-module", "build", "places"):
        path = os.path.join(KIT, tool)
        assert run([path, "--help"])[0] == 0 and run([path])[0] == 2 and run([path, "--nothing"])[0] == 2, tool
    assert run([os.path.join(KIT, "build"), "--stack", "7", "fine.c"])[0] == 2
    assert run([os.path.join(KIT, "build"), "--lines", "fine.c"])[0] == 0
    with open("fine.places") as file:
        table = file.read()
    assert re.search(r"variable threads::liblog_last_call u32\* \d+\n", table) and re.search(r"call fine.c 4 _start \d+\n", table), table
    with open("text", "w") as file:
        file.write("no module")
    status, told = run([os.path.join(KIT, "check-module"), "text"])
    assert status == 1 and "no WebAssembly module" in told


def main():
    argparse.ArgumentParser(description=__doc__).parse_args()
    with tempfile.TemporaryDirectory() as folder:
        os.chdir(folder)
        for case in BY_CLANG:
            check_clang(*case)
        for case in BY_BUILD:
            check_build(*case)
        check_folders()
        check_words()
        os.chdir("/")
    print("check-module: %d modules as expected" % (len(BY_CLANG) + len(BY_BUILD)))


if __name__ == "__main__":
    sys.exit(main())
