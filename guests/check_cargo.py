#!/usr/bin/env python3
"""Checks guests/build --cargo: a package with std and a dependency is built, recorded and replayed, and prints what it should; with
--breathe it calls for others; a package that makes no module is refused.
"""
import argparse
import os
import shutil
import subprocess
import sys
import tempfile

KIT = os.path.dirname(os.path.realpath(__file__))
sys.path.append(os.path.join(KIT, "..", "tools"))

from asking.program import program_of  # noqa: E402 (it lies beside the tools)
from logs.format import read_log  # noqa: E402

LINES = ["one 3", "three 1", "two 2", "3.333 6 1.4142135623730951"]


def run(words, wanted=0):
    done = subprocess.run(words, stdout=subprocess.PIPE, stderr=subprocess.STDOUT, text=True)
    assert done.returncode == wanted, "%s: status %d\n%s" % (" ".join(words), done.returncode, done.stdout)
    return done.stdout


def main():
    parser = argparse.ArgumentParser(description=__doc__, formatter_class=argparse.RawDescriptionHelpFormatter, allow_abbrev=False)
    parser.add_argument("program", metavar="PROGRAM", nargs="?", help="the program friday, if not the one that answers ./friday")
    program, build = os.path.abspath(program_of(parser.parse_args().program)), os.path.join(KIT, "build")
    with tempfile.TemporaryDirectory() as folder:
        os.chdir(folder)
        shutil.copytree(os.path.join(KIT, "check", "package"), "package")
        with open("package/Cargo.toml") as file:
            manifest = file.read()
        with open("package/Cargo.toml", "w") as file:
            file.write(manifest.replace("../../liblog", os.path.join(KIT, "liblog")))
        run([build, "--cargo", "package"])
        with open("schedule", "w") as file:
            file.write("friday 1\nprocess a package/package.wasm\nrun 0 0 20\n")
        recorded = run([program, "record", "schedule"])
        printed = b"".join(entry.sent for entry in read_log("a.log").entries if entry.call.name == "print").decode().splitlines()
        assert "trapped unreachable" in recorded and printed[:4] == LINES and "index out of bounds" in printed[4], (recorded, printed)
        assert ", 0 unmatched, " in run([program, "replay", "package/package.wasm", "a.log"])
        assert "@a.u32[" in subprocess.run([os.path.join(KIT, "places"), "package/package.places"], input="@a.{SERVED.value}", stdout=subprocess.PIPE, text=True).stdout
        size = os.path.getsize("package/package.wasm")
        run([build, "--cargo", "package", "--breathe"])
        assert os.path.getsize("package/package.wasm") > size
        with open("package/Cargo.toml", "w") as file:
            file.write(manifest.replace("../../liblog", os.path.join(KIT, "liblog")).replace("cdylib", "rlib"))
        told = run([build, "--cargo", "package"], 1)
        assert "makes no module" in told and "Traceback" not in told, told
        os.chdir("/")
    print("a package with std: %d lines, %d bytes, and the panic is told" % (len(LINES), size))


if __name__ == "__main__":
    main()
