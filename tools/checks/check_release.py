#!/usr/bin/env python3
"""Checks what tools/release makes of a program: its files, their checksums, and that it is refused where it has to be.

check_release.py [PROGRAM]   (the program that answers ./friday, if none is given)
"""

import argparse
import hashlib
import os
import subprocess
import sys
import tempfile

from tools_path import TOOLS, TOP  # before the modules of the tools, which it lets be found
from asking.program import program_of

WANTED = {
    "bin/friday", "share/man/man1/friday.1", "share/bash-completion/completions/friday", "share/zsh/site-functions/_friday", "RELEASE.md", "VERSION",
    "SHA256SUMS", *("share/doc/friday/%s.md" % name for name in ("tutorial", "recipes", "debugger", "formats", "lines", "limits", "refusals", "proved")),
}


def contents_of(*path):
    with open(os.path.join(*path), "rb") as file:
        return file.read()


def release(*words):
    return subprocess.run([os.path.join(TOOLS, "release"), *words], stdout=subprocess.PIPE, stderr=subprocess.PIPE, text=True, timeout=600)


def check_folder(folder, program):
    """Its files are those that are named, with these checksums; and nothing of it speaks of the launcher's words."""
    files = {os.path.relpath(os.path.join(place, name), folder) for place, _, names in os.walk(folder) for name in names}
    assert WANTED <= files and all(name.startswith("LICENSE") for name in files - WANTED), files
    sums = dict(line.split("  ")[::-1] for line in contents_of(folder, "SHA256SUMS").decode().splitlines())
    assert set(sums) == files - {"SHA256SUMS"}
    assert all(hashlib.sha256(contents_of(folder, name)).hexdigest() == found for name, found in sums.items())
    assert contents_of(folder, "bin/friday") == contents_of(program) and os.access(os.path.join(folder, "bin/friday"), os.X_OK)
    assert contents_of(folder, "VERSION") == contents_of(TOP, "VERSION")
    for name in WANTED - {"bin/friday", "SHA256SUMS"}:
        assert name.startswith("share/doc") or name == "RELEASE.md" or b"--prove" not in contents_of(folder, name), name
    assert contents_of(folder, "RELEASE.md").decode().startswith("# friday %s\n" % contents_of(TOP, "VERSION").decode().strip())


def main():
    parser = argparse.ArgumentParser(description=__doc__, formatter_class=argparse.RawDescriptionHelpFormatter, allow_abbrev=False)
    parser.add_argument("program", nargs="?", metavar="PROGRAM")
    program = os.path.abspath(program_of(parser.parse_args().program))
    with tempfile.TemporaryDirectory() as room:
        folder = os.path.join(room, "friday")
        done = release(folder, "--program", program)
        assert done.returncode == 0 and "it answers in an empty root" in done.stdout, done
        check_folder(folder, program)
        again = release(folder, "--program", program)
        assert again.returncode == 1 and "is there already" in again.stderr, again
        other = os.path.join(room, "false")
        broken = release(other, "--program", "/bin/false")
        assert broken.returncode == 1 and "in an empty root" in broken.stderr, broken
    print("release: as expected")


if __name__ == "__main__":
    sys.exit(main())
