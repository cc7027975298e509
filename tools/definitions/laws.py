"""The laws that crates hand on: the public functions of src/laws.rt, which do nothing, and what their comments say."""

import os
import re

from definitions.names import TOP

LAW = re.compile(r"((?:^///[^\n]*\n)*)^pub fn (\w+)", re.M)


def laws_of(crate):
    """The laws of a crate by name, each with what its comment says."""
    path = os.path.join(TOP, "crates", crate, "src", "laws.rt")
    if not os.path.exists(path):
        return []
    with open(path, encoding="utf-8") as file:
        found = LAW.findall(file.read())
    return [(name, " ".join(line[3:].strip() for line in comment.splitlines())) for comment, name in found]
