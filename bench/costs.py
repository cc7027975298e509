"""What the benches share: their words, and what a call of the program costs."""

import argparse
import os
import re
import shutil
import subprocess
import sys
import time
from dataclasses import dataclass

TOP = os.path.dirname(os.path.dirname(os.path.realpath(__file__)))
PROVED = os.path.join(TOP, "crates", "friday", "out", "friday")
# Some benches write logs by the modules of the tools.
sys.path.insert(0, os.path.join(TOP, "tools"))


def parser_of(page):
    """The words of a bench with this page: the program."""
    parser = argparse.ArgumentParser(description=page, formatter_class=argparse.RawDescriptionHelpFormatter, allow_abbrev=False)
    parser.add_argument("program", metavar="PROGRAM", nargs="?", type=os.path.abspath, default=PROVED, help="the program friday, if not the proved one")
    return parser


def program_of(page):
    return parser_of(page).parse_args().program


@dataclass(frozen=True)
class Cost:
    """What a call printed, the processor's seconds, those of the clock, and its peak of memory in bytes."""

    text: str
    spent: float
    took: float
    peak: int


def play(words, folder=None, statuses=(0,), is_heard=True, source=None):
    """Makes a call, which ends with one of these statuses. `source` is the file of its input. What it prints is read, or thrown away."""
    start = time.perf_counter()
    child = subprocess.Popen(words, cwd=folder, stdin=source, stdout=subprocess.PIPE if is_heard else subprocess.DEVNULL, text=True)
    text = child.stdout.read() if is_heard else ""
    _, status, usage = os.wait4(child.pid, 0)
    took = time.perf_counter() - start
    assert os.waitstatus_to_exitcode(status) in statuses, (words, status, text)
    return Cost(text, usage.ru_utime + usage.ru_stime, took, usage.ru_maxrss * 1024)


def instructions(words, folder=None, typed=None, source=None):
    """The instructions of a call by valgrind's count, the same however busy the machine is; `typed` is its input, or `source` the file
    of it. None if there is no valgrind, or if it cannot run the program, as one that was built without proofs."""
    if shutil.which("valgrind") is None:
        return None
    words = ["valgrind", "--tool=callgrind", "--callgrind-out-file=/dev/null", *words]
    given = {"stdin": source} if source else {"input": typed and typed.encode()}
    told = subprocess.run(words, cwd=folder, **given, stdout=subprocess.DEVNULL, stderr=subprocess.PIPE).stderr
    found = re.search(rb"Collected : (\d+)", told)
    return int(found.group(1)) if found else None


def build(folder, name, text):
    """Makes NAME.wasm of a guest's text in the folder, by wat2wasm of the package wabt."""
    with open(os.path.join(folder, name + ".wat"), "w") as file:
        file.write(text)
    subprocess.run(["wat2wasm", name + ".wat", "-o", name + ".wasm"], cwd=folder, check=True)


def compile_guest(folder, name, sources, *words):
    """Makes NAME.wasm of sources in C of this folder, by clang at -O2."""
    flags = "--target=wasm32 -mcpu=mvp -std=c11 -O2 -ffreestanding -fno-builtin -Wall -Wextra -Werror -nostdlib -Wl,--no-entry -Wl,--export=_start -Wl,--strip-all"
    paths = [os.path.join(TOP, "bench", source) for source in sources]
    subprocess.run([os.environ.get("CLANG", "clang"), *flags.split(), "-I", TOP + "/guests", *words, "-o", name + ".wasm", *paths], cwd=folder, check=True)


def traced(folder):
    """The instructions of a.wasm that wasm-interp traces, where blocks and their ends count nothing."""
    child = subprocess.Popen(["wasm-interp", "--trace", "--dummy-import-func", "--run-all-exports", "a.wasm"], cwd=folder, stdout=subprocess.PIPE)
    count = sum(line.startswith(b"#") for line in child.stdout)
    child.wait()
    return count


def events_in(text):
    """How many events the lines of a report have, all together."""
    return sum(int(n) for n in re.findall(r": (\d+) events", text))
