"""The sources of the program, and which program is of them as they are."""
from __future__ import annotations

import contextlib
import hashlib
import os
import time

HERE = os.path.dirname(os.path.dirname(os.path.realpath(__file__)))
CRATES = f"{HERE}/crates"
FOLDER = f"{CRATES}/friday"
TOOLCHAIN = f"{HERE}/launcher/toolchain"
# Relative to the top, as the file `current` has it.
PROVED = "crates/friday/out/friday"
PARTS = ("src", "specs", "proofs")
# What is kept stands in the clone, or in the home of a user who cannot write that; the shell script `friday` looks there too.
IN_CLONE = f"{HERE}/out"
CACHE = (os.environ.get("XDG_CACHE_HOME") or os.environ.get("HOME", "") + "/.cache") + "/friday"
OF_USER = CACHE + HERE


def folder_to_keep_in():
    """The first of these folders that can be written; it is made. None if none can."""
    for folder in (IN_CLONE, OF_USER):
        with contextlib.suppress(OSError):
            os.makedirs(folder, exist_ok=True)
            if os.access(folder, os.W_OK | os.X_OK):
                return folder
    return None


def crates_below():
    """The crates that each crate stands on, by their names."""
    below = {}
    with open(f"{HERE}/crates.txt", encoding="utf-8") as lines:
        for line in lines:
            name, colon, rest = line.partition("#")[0].partition(":")
            if colon:
                below[name.split()[0]] = rest.split()
    return below


def crates_in_order():
    """The program's crate and those below it, each after those that it stands on."""
    below, order = crates_below(), []

    def visit(name):
        if name in below and name not in order:
            for lower in below[name]:
                visit(lower)
            order.append(name)

    visit("friday")
    return order


def sources_of(name):
    for part in PARTS:
        for folder, folders, files in os.walk(f"{CRATES}/{name}/{part}"):
            folders.sort()
            yield from (f"{folder}/{file}" for file in sorted(files) if file.endswith((".rt", ".antt")))


def all_sources():
    yield f"{HERE}/crates.txt"
    for name in crates_in_order():
        yield from sources_of(name)


def line_count(name):
    count = 0
    for file in sources_of(name):
        with open(file, "rb") as text:
            count += sum(1 for _ in text)
    return count


def checksum():
    """Of the paths and the bytes of all sources."""
    whole = hashlib.sha256()
    for path in all_sources():
        with open(path, "rb") as file:
            data = file.read()
        whole.update(f"{os.path.relpath(path, HERE)} {len(data)}\n".encode())
        whole.update(data)
    return whole.hexdigest()[:32]


def is_proved():
    """Whether the proved program is there and no source is newer."""
    program = f"{HERE}/{PROVED}"
    if not os.access(program, os.X_OK):
        return False
    built = os.stat(program).st_mtime
    return all(os.stat(file).st_mtime <= built for file in all_sources())


def name_without_proofs(sum_of_sources):
    """How a program without proofs is called: by its sources, and by how it is compiled."""
    whole = hashlib.sha256(sum_of_sources.encode())
    for name in sorted(os.listdir(TOOLCHAIN)):
        with open(f"{TOOLCHAIN}/{name}", "rb") as file:
            whole.update(file.read())
    return f"{sum_of_sources}-{whole.hexdigest()[:8]}"


def kept_without_proofs(sum_of_sources):
    """The program that was built from these very sources, if it was kept."""
    name = name_without_proofs(sum_of_sources)
    programs = (f"{folder}/unproved/{name}" for folder in (IN_CLONE, OF_USER))
    return next((program for program in programs if os.access(program, os.X_OK)), None)


def note_current(kind, program, read_at):
    """Notes for the launcher which program answers, as long as no source is changed after this time. Whether it could be."""
    folder = folder_to_keep_in()
    if folder is None:
        return False
    new = f"{folder}/current.{os.getpid()}"
    with open(new, "w", encoding="utf-8", errors="surrogateescape") as file:
        file.write(f"{kind} {program}\n")
    os.utime(new, (read_at, read_at))
    os.replace(new, f"{folder}/current")
    return True


def found():
    """Whether a program of these sources is there; it is noted then."""
    read_at = time.time()
    if is_proved():
        return note_current("proved", PROVED, read_at)
    program = kept_without_proofs(checksum())
    return program is not None and note_current("unproved", program, read_at)
