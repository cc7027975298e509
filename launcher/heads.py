"""The heads of logs, and what a file is by its first bytes."""
from __future__ import annotations

import re
from dataclasses import dataclass

from looking import bytes_of

MOST_PROCESSES, MOST_HEAD = 16, 49


@dataclass(frozen=True)
class Head:
    version: int
    processes: int
    process: int
    name: str


def head_of(path):
    """The head of a log, by the table of docs/formats.md, or None if the file begins with none."""
    data = bytes_of(path, MOST_HEAD) or b""
    version, processes, process = (int.from_bytes(data[at : at + 4], "little") for at in (4, 8, 12))
    name = data[17 : 17 + data[16]] if len(data) > 17 else b""
    if data[:4] != b"LLOG" or version not in (1, 2) or not 1 <= processes <= MOST_PROCESSES or process >= processes:
        return None
    if not 1 <= data[16] <= 32 or len(name) != data[16] or not re.fullmatch(rb"[a-z0-9_]+", name):
        return None
    return Head(version, processes, process, name.decode())


def kind_of_bytes(path):
    """What a file seems to be: in words for a sentence."""
    data = bytes_of(path, 64)
    if data is None:
        return "a file that cannot be read"
    if data == b"":
        return "an empty file"
    if data[:4] == b"LLOG":
        return "a log" if head_of(path) else "a log with a damaged head"
    if data[:4] == b"\0asm":
        return "a module"
    if data[:4] == b"\x7fELF":
        return "a program of this machine"
    if re.match(rb"\s*\(module", data):
        return "the text of a module, which wat2wasm makes a module of"
    if re.match(rb"\s*(#.*\n\s*)*friday 1\b", data):
        return "a schedule"
    return "text" if re.fullmatch(rb"[\t\r\n -~]+", data) else "something else"
