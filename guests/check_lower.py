#!/usr/bin/env python3
"""Checks guests/lower: each instruction on floats comes to what the machine's own floats come to, over many operands, also where
friday runs it; a module of later versions' forms is lowered to one that friday takes; bytes that are no module are refused.

wasm-interp, of Debian's package wabt, runs a module on floats and its lowered one, whose notes have to be the same.
"""
import argparse
import os
import re
import subprocess
import sys
import tempfile

KIT = os.path.dirname(os.path.realpath(__file__))
sys.path.append(os.path.join(KIT, "..", "tools"))

from asking.program import program_of  # noqa: E402 (it lies beside the tools)
from logs.format import read_log  # noqa: E402
from lowering import CALLS, LONG_CALLS, Lowering  # noqa: E402

CLANG = os.environ.get("CLANG", "clang")
INTERPRETER = os.environ.get("WASM_INTERP", "wasm-interp")
WORDS = "--target=wasm32 -O2 -fno-math-errno -ffreestanding -Wall -Wextra -nostdlib -Wl,--no-entry -Wl,--export=_start".split()
OPERANDS_OF_A_NOTE = 100
FLOATS = [name for name in [*CALLS.values(), *LONG_CALLS.values()] if not name.startswith("memory")]

# Copies that overlap either way, and each length up to 19, by instructions on the memory in bulk.
BULK = """
#include "liblog.h"
static uint8_t bytes[200];
static uint32_t sum(void) {
    uint32_t all = 0;
    for (uint32_t i = 0; i < sizeof bytes; i++)
        all = all * 31 + bytes[i];
    return all;
}
void _start(void) {
    for (uint32_t i = 0; i < sizeof bytes; i++)
        bytes[i] = (uint8_t)(i * i + 7);
    for (volatile uint32_t length = 0; length < 20; length++)
        for (volatile int by = -9; by < 10; by++) {
            __builtin_memmove(bytes + 50 + by, bytes + 50, length);
            __builtin_memset(bytes + 100, by, length);
            liblog_note(sum());
        }
}
"""
# A global and a constant, a block and a function through a table that have floats.
FORMS = """(module (import "liblog" "note" (func $note (param i64))) (memory 1) (table 1 funcref) (elem (i32.const 0) $half)
  (type $kind (func (param f32 f64) (result f64))) (global $g (mut f64) (f64.const -2.5))
  (func $half (type $kind) (local $a f32) (local.set $a (f32.const 0.5)) (f64.promote_f32 (f32.mul (local.get $a) (f32.demote_f64 (local.get 1)))))
  (func (export "_start") (f64.store offset=8 (i32.const 0) (block (result f64) (global.get $g)))
    (global.set $g (call_indirect (type $kind) (f32.const nan:0x200001) (f64.load offset=8 (i32.const 0)) (i32.const 0)))
    (call $note (i64.trunc_f64_s (f64.mul (global.get $g) (f64.const 1000))))
    (call $note (i64.reinterpret_f64 (f64.sqrt (f64.const -1)))) (call $note (i64.trunc_f32_u (f32.const -1)))))"""


def run(words, wanted=0):
    done = subprocess.run(words, stdout=subprocess.PIPE, stderr=subprocess.STDOUT, text=True)
    assert done.returncode == wanted, "%s: status %d\n%s" % (" ".join(words), done.returncode, done.stdout)
    return done.stdout


def compiled(source, name, flags):
    run([CLANG, *WORDS, *flags, "-I", KIT, "-o", name, source])


def lowered(name):
    out = "lowered_" + name
    run([os.path.join(KIT, "lower"), name, "-o", out])
    told = run([os.path.join(KIT, "check-module"), out])
    assert told == "", told
    return out


def interpreted(name):
    """The notes of a module that wasm-interp runs, and whether it trapped."""
    told = run([INTERPRETER, "--dummy-import-func", "--run-all-exports", name])
    signed = [int(note) - (int(note) >> 63 << 64) for note in re.findall(r"liblog\.note\(i64:(\d+)\)", told)]
    return signed, "error" in told.splitlines()[-1]


def recorded(program, name, count):
    """The first notes of a module that friday runs, and how the recording ended. The begin of the thread is an event too."""
    with open("schedule", "w") as file:
        file.write("friday 1\nprocess a %s\nrun 0 0 %d\n" % (name, 1 + count))
    end = run([program, "record", "schedule"]).splitlines()[0]
    return [entry.arguments[0] for entry in read_log("a.log").entries if entry.call.name == "note"], end


def check_floats(program, whole):
    compiled(os.path.join(KIT, "check", "floats.c"), "floats.wasm", ["-mcpu=mvp", "-mnontrapping-fptoint"])
    with open("floats.wasm", "rb") as file:
        wanted = set(Lowering(file.read()).numbers)
    assert wanted == set(FLOATS), set(FLOATS) ^ wanted
    notes, _ = interpreted("floats.wasm")
    name = lowered("floats.wasm")
    again, _ = interpreted(name)
    differ = sum(note != other for note, other in zip(notes, again))
    assert len(notes) == len(again) and not differ, "%d of %d notes differ" % (differ, len(notes))
    count = len(notes) if whole else len(FLOATS)
    by_friday, _ = recorded(program, name, count)
    assert by_friday == notes[:count], "friday comes to other notes"
    each = len(notes) // len(FLOATS) * OPERANDS_OF_A_NOTE
    print("%d instructions on floats by %d operands each: 0 differ; %d of these cases by friday" % (len(FLOATS), each, count * OPERANDS_OF_A_NOTE))


def check_bulk(program):
    with open("bulk.c", "w") as file:
        file.write(BULK)
    compiled("bulk.c", "bulk.wasm", ["-mcpu=mvp", "-mbulk-memory", "-mreference-types"])
    notes, _ = interpreted("bulk.wasm")
    by_friday, _ = recorded(program, lowered("bulk.wasm"), len(notes))
    assert by_friday == notes, "copies come to other bytes"
    print("memory.copy and memory.fill: %d notes the same" % len(notes))


def check_forms(program):
    with open("forms.wat", "w") as file:
        file.write(FORMS)
    run(["wat2wasm", "forms.wat", "-o", "forms.wasm"])
    notes, trapped = interpreted("forms.wasm")
    assert notes[0] == -1250 and trapped, notes
    by_friday, end = recorded(program, lowered("forms.wasm"), 9)
    assert by_friday == [-1250, 0x7FF8 << 48] and "trapped unreachable" in end, (by_friday, end)
    print("globals, constants, blocks and calls through a table: as they were, with one NaN")


def check_refusals():
    with open("floats.wasm", "rb") as file:
        data = file.read()
    for name, bytes_ in (("text", b"no module"), ("empty", b""), ("short", data[: len(data) // 2]), ("long", data[:8] + b"\x01" + b"\x80" * 99)):
        with open(name, "wb") as file:
            file.write(bytes_)
        told = run([os.path.join(KIT, "lower"), name], 1)
        assert told.startswith("lower: ") and told.count("\n") == 1, told
    told = run([os.path.join(KIT, "lower"), "nowhere"], 1)
    assert "No such file" in told and told.count("\n") == 1, told
    print("5 files that are no modules: refused")


def main():
    parser = argparse.ArgumentParser(description=__doc__, formatter_class=argparse.RawDescriptionHelpFormatter, allow_abbrev=False)
    parser.add_argument("program", metavar="PROGRAM", nargs="?", help="the program friday, if not the one that answers ./friday")
    parser.add_argument("--whole", action="store_true", help="has friday run all the operands, which takes an hour without proofs")
    chosen = parser.parse_args()
    program = os.path.abspath(program_of(chosen.program))
    with tempfile.TemporaryDirectory() as folder:
        os.chdir(folder)
        check_floats(program, chosen.whole)
        check_bulk(program)
        check_forms(program)
        check_refusals()
        os.chdir("/")


if __name__ == "__main__":
    main()
