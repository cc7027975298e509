"""What each file of specs/ is about, by its first sentence."""

import os
import re

from definitions.names import TOP

# What a file begins with, where a definition or an import follows.
COMMENT = re.compile(r"\A(?:--[^\n]*\n)+")


def text_of(path):
    with open(path, encoding="utf-8") as it:
        return it.read()


def in_order(crate):
    """The files of a crate's specs, as its Lib lists them, and after them those of specs/inside."""
    folder = os.path.join(TOP, "crates", crate, "specs")
    files = []
    for path, at in (("Lib.antt", ""), ("inside.antt", "inside/")):
        path = os.path.join(folder, path)
        names = re.findall(r"^pub mod (\w+)", text_of(path), re.M) if os.path.exists(path) else []
        files += [(at + name, os.path.join(folder, at + name + ".antt")) for name in names if name != "inside"]
    return files


def first_sentence(path):
    """What the first comment of a file says up to its first full stop, as words within a line and without what is in brackets."""
    found = COMMENT.match(text_of(path))
    if not found:
        return ""
    words = " ".join(line[2:].strip() for line in found.group().splitlines())
    sentence = re.split(r"\.(?: |$)", words, maxsplit=1)[0]
    sentence = re.sub(r" \([^)]*\)", "", sentence)
    is_name = re.match(r"\w*[A-Z0-9]\w*[A-Z0-9]", sentence)
    return sentence if is_name else sentence[:1].lower() + sentence[1:]
