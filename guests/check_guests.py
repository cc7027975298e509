"""Builds the guests of check/, in C and in Rust, records and replays each, and compares what they note with what they
should. The values at the places of variables are read from the memory with which the recording ends.
"""

import argparse
import os
import random
import re
import shutil
import subprocess
import sys
import tempfile

HERE = os.path.dirname(os.path.realpath(__file__))
sys.path.append(os.path.join(HERE, "..", "tools"))

from asking.program import program_of  # noqa: E402 (it lies beside the tools)
from logs.format import read_log  # noqa: E402
from place_table import read_table  # noqa: E402

PARSER = argparse.ArgumentParser(description=__doc__, formatter_class=argparse.RawDescriptionHelpFormatter, allow_abbrev=False)
PARSER.add_argument("program", metavar="PROGRAM", nargs="?", help="the program friday, if not the one that answers ./friday")
PROGRAM = os.path.abspath(program_of(PARSER.parse_args().program))
TIMES = 20
ROUNDS = 5

# What calls.rs is given and notes.
ITEMS = ["clock 0 7", "run 0 0 3", "clock 0 50", "random 0 010203", "inject 0 61626364", "run 0 0 20"]
ITEMS += ["signal 0 5", "run 0 0 30"]
NOTES = [7, 50, 0, 0, 1, 0x030201, 1, 3, -1, -2, 1, 1, 1, 5]

# What heap.c notes: no byte is wrong, the heap grew, and so on.
HEAP_NOTES = [0, 1, 0, 1, 1]

TEXTS = ["0", "7", "-1", "1000000000000", str(2**63 - 1), str(-(2**63))]
TEXTS += ["0123456789", "0101234789", "1012334789", "1xxx3abc89"]
COMPARISONS = ["1", "0", "-1"]

# Lines that the front end refuses, by the file of places.c, each with a part of what it answers.
REFUSED = (
    ("print @a.{nothing}", "no variable nothing"),
    ("print @a.{peers}", "no number"),
    ("print @a.{peers[3].seen}", "element 3 of 3"),
    ("print @a.{peers[0].age}", "no field age"),
    ("print @a.{head.seen}", "write ->"),
    ("print @a.{place->seen}", "no pointer"),
    ("print @a.{place[0]}", "no elements"),
    ("print @a.{peers[0", "not closed"),
    ("print @a.{peers[ ].seen}", "index is missing"),
    ("print @a.{}", "begin with a name"),
    ("print @a.{head?}", "no part of a path"),
    ("mem a {head->ports}", "mem wants a number"),
    ("print @a.{peers[@a.{place}].seen}", "said again"),
    ('print @a.{peers["{place}"].seen}', "no string"),
    ("print @a.{peers[" + "9" * 5000 + "].seen}", "more than 4096 bytes"),
    ("print @a.{peers[" + "9" * 3000 + "].seen}", "element 99"),
    ("print " + "@a.{table[0][{place" * 40 + "}]}" * 40, "brackets"),
    ("print @b.{place}", "no file of places for the node b"),
)

# Lines that have no reference, and those that have, with what becomes of them.
WRITTEN = (
    ('do 1 if 1 {stop} else { say "@a.{place}" }', None),
    ("# @a.{nothing}", None),
    ("", None),
    ("mem a {peers[1].ports}", r"mem a \d+ 4"),
    ("watch sum(@_.{pair.left}) > 3", r"watch sum\(@_\.i32\[\d+\]\) > 3"),
    ("print @a.{head->next} == 0", r"print @a\.u32\[@a\.u32\[\d+\]\+8\] == 0"),
    ("print @a.{peers[$n].next}", r"print @a\.u32\[\d+\+\(\$n\)\*32\+8\]"),
    ("break * * if @!.{head->next} > @!.clock", r"break \* \* if @!\.u32\[@!\.u32\[\d+\]\+8\] > @!\.clock"),
)


def run(words, folder, text="", wanted=0):
    done = subprocess.run(words, cwd=folder, input=text, stdout=subprocess.PIPE, stderr=subprocess.PIPE, text=True)
    if done.returncode != wanted:
        sys.exit("%s: status %d\n%s%s" % (" ".join(words), done.returncode, done.stdout, done.stderr))
    return done.stdout if wanted == 0 else done.stderr


# The events of a process that are of some call.
def events_of(folder, name, call):
    return [entry for entry in read_log(os.path.join(folder, name + ".log")).entries if entry.call.name == call]


def notes_of(folder, name):
    return [entry.arguments[0] for entry in events_of(folder, name, "note")]


def prints_of(folder, name):
    return [entry.sent.decode() for entry in events_of(folder, name, "print")]


# Records a group of some guests, and replays it.
def record(folder, names, items, end):
    lines = ["friday 1"] + ["process %s %s.wasm" % (name, name) for name in names] + items
    with open(os.path.join(folder, "schedule"), "w") as file:
        file.write("\n".join(lines) + "\n")
    recorded = run([PROGRAM, "record", "--images", "schedule"], folder)
    assert ", %s\n" % end in recorded.splitlines(True)[0], recorded
    replayed = run([PROGRAM, "replay"] + [name + kind for name in names for kind in (".wasm", ".log")], folder)
    assert replayed.count(", log whole\n") == len(names) and ", 0 unmatched, " in replayed, replayed


def check_texts(source, folder):
    name = source.split(".")[0]
    record(folder, [name], ["run 0 0 100"], "exited 10")
    texts = prints_of(folder, name)
    wanted = TEXTS + (COMPARISONS if source.endswith(".c") else [""])
    assert texts == wanted, (texts, wanted)
    print("%s: %d texts" % (source, len(texts)))


def check_calls(folder):
    record(folder, ["calls"], ITEMS, "finished")
    notes = notes_of(folder, "calls")
    assert notes == NOTES, notes
    print("calls.rs: %d notes" % len(notes))


def check_heap(folder):
    record(folder, ["heap"], ["run 0 0 200"], "trapped unreachable")
    notes = notes_of(folder, "heap")
    assert notes == HEAP_NOTES, notes
    print("heap.c: %d notes" % len(notes))


# What an expression of the debugger comes to in a memory.
def value_of(expression, memory):
    def load(width, address):
        size = int(width[1:]) // 8
        assert 0 <= address <= len(memory) - size, "outside of the memory"
        return int.from_bytes(memory[address : address + size], "little", signed=width[0] == "i")

    code = re.sub(r"@\w+\.([ui]\d+)\[", r"load('\1',", expression).replace("]", ")").replace("/", "//")
    return eval(code, {"load": load})


def check_places(source, folder):
    name = source.split(".")[0]
    with open(os.path.join(folder, source)) as file:
        paths = re.findall(r"note\(.*\); // (\S+)\n", file.read())
    record(folder, [name], ["clock 0 5", "run 0 0 100"], "finished")
    with open(os.path.join(folder, name + ".mem"), "rb") as file:
        memory = file.read()
    notes = notes_of(folder, name)
    assert len(notes) == len(paths) > 0, (notes, paths)
    script = "".join("print @a.{%s}\n" % path for path in paths)
    lines = run([os.path.join(HERE, "places"), name + ".places"], folder, script).splitlines()
    for path, line, note in zip(paths, lines, notes):
        value = value_of(line[len("print ") :], memory)
        assert value == note, "%s: %s is %d, and the guest notes %d" % (path, line, value, note)
    print("%s: %d values at their places" % (source, len(paths)))


def check_enums(folder):
    """The names of numbers in places.c, of an enumeration with a name and of one without."""
    table = read_table(os.path.join(folder, "places.places"))
    assert table.enums["mood"].numbers == {"CALM": 1, "BUSY": 70000} and table.width_of("mood") == "u32", table.enums
    assert any(enum.numbers == {"PEERS": 3} for enum in table.enums.values()), table.enums
    assert next(variable for variable in table.variables if variable.name == "places::mood").type == "mood"
    print("places.c: %d enumerations" % len(table.enums))


def check_front_end(folder):
    words = [os.path.join(HERE, "places"), "a=places.places"]
    for line, answer in REFUSED:
        told = run(words, folder, "print 1\n" + line, 1)
        assert told.startswith("places: line 2: ") and answer in told, (line, told)
    for line, form in WRITTEN:
        written = run(words, folder, line)
        assert written == line if form is None else re.fullmatch(form, written), (line, written)
    with open(os.path.join(folder, "places.wasm"), "ab") as file:
        file.write(b"\0\0")
    assert "older" in run(words, folder, "", 1)
    print("places: %d lines refused and %d written" % (len(REFUSED), len(WRITTEN)))


def check_threads(source, folder):
    name = source.split(".")[0]
    wanted = [sum((thread + 1) * i * i - 7 for thread in range(4) for i in range(16))]
    for seed in range(TIMES):
        chance = random.Random(seed)
        items = ["run 0 %d" % chance.randrange(4) for _ in range(300)] + ["run 0 %d 20" % (n % 4) for n in range(40)]
        record(folder, [name], items, "finished")
        assert notes_of(folder, name) == wanted
    print("%s: %d interleavings note %d" % (source, TIMES, wanted[0]))


# Behind the end of a process, the place that it keeps is that of its last call.
def check_lines(source, folder):
    name = source.split(".")[0]
    run([os.path.join(HERE, "build"), "--lines", source], folder)
    record(folder, [name, "answer"], list(items_of_group(random.Random(0))), "exited 0")
    with open(os.path.join(folder, source)) as lines, open(os.path.join(folder, name + ".mem"), "rb") as image:
        line, memory = next(number for number, text in enumerate(lines, 1) if "exit(0)" in text), image.read()
    paths = ("liblog_last_call", "liblog_last_call[%d]" % (0 if source.endswith(".c") else 2))
    script = run([os.path.join(HERE, "places"), name + ".places"], folder, "".join("@a.{%s}\n" % path for path in paths))
    address, number = (value_of(expression, memory) for expression in script.splitlines())
    with open(os.path.join(folder, name + ".places")) as file:
        assert number == line and "call %s %d _start %d\n" % (source, line, address) in file.read(), (number, line, address)
    print("%s: its last call is in line %d" % (source, line))


# Tries of each thread, datagrams that are lost, repeated and late, and a clock that goes on.
def items_of_group(chance):
    for moment in range(4000):
        yield chance.choice(("run 0 0", "run 0 1 2", "run 1 0 2", "clock 0 %d" % (5 * moment)))
        if chance.random() < 0.1:
            yield "deliver %d %d" % (chance.randrange(2), chance.randint(1, 2 + moment // 20))
    yield "run 0 0 9"


def check_group(source, folder):
    for seed in range(TIMES):
        record(folder, ["ask", "answer"], list(items_of_group(random.Random(seed))), "exited 0")
        assert notes_of(folder, "ask") == [2 * n for n in range(1, ROUNDS + 1)]
        asked = [int(text) for text in prints_of(folder, "ask")]
        assert asked == list(range(1, len(asked) + 1)), asked
    print("%s, answer.rs: %d lossy recordings, at last after %d questions" % (source, TIMES, len(asked)))


def build(source, folder):
    shutil.copy(os.path.join(HERE, "check", source), folder)
    run([os.path.join(HERE, "build"), source], folder)


def main():
    with tempfile.TemporaryDirectory() as folder:
        build("calls.rs", folder)
        check_calls(folder)
        build("heap.c", folder)
        check_heap(folder)
        for source in ("texts.c", "texts.rs"):
            build(source, folder)
            check_texts(source, folder)
        for source in ("places.rs", "places.c"):
            build(source, folder)
            check_places(source, folder)
        check_enums(folder)
        check_front_end(folder)
        for source in ("threads.c", "threads.rs"):
            build(source, folder)
            check_threads(source, folder)
        build("answer.rs", folder)
        for source in ("ask.c", "ask.rs"):
            build(source, folder)
            if source == "ask.c":
                # It is a local variable's, and can be cast to.
                assert "message" in read_table(os.path.join(folder, "ask.places")).structs
            check_group(source, folder)
            check_lines(source, folder)


if __name__ == "__main__":
    main()
