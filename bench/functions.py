"""Seconds that functions of a crate take to be proved, each beyond what those named before it need.

    bench/functions.sh NAME FUNCTION..

A function is checked alone, with what it calls, over what was checked for those before it, and then once more, when nothing of it is
left to check. The difference is its own. A function is named by its path in the crate, or by the end of that.
"""

import argparse
import os
import shutil
import subprocess
import sys
import tempfile

TOP = os.path.dirname(os.path.dirname(os.path.realpath(__file__)))


def seconds_of_check(crate, function, times):
    """The seconds that the prover takes for what is not yet checked of the function and of what it calls, and to begin."""
    words = ["rt", "check", "--jobs", "1", "--only", function, "--stage-times", times]
    done = subprocess.run(words, cwd=os.path.join(TOP, "crates", crate), capture_output=True, text=True)
    if done.returncode:
        sys.exit("%s\n%s is not proved" % (done.stdout[-2000:], function))
    with open(times) as file:
        return next(float(line.split()[2]) for line in file if line.startswith("stage session "))


def main():
    parser = argparse.ArgumentParser(description=__doc__, formatter_class=argparse.RawDescriptionHelpFormatter, allow_abbrev=False)
    parser.add_argument("crate")
    parser.add_argument("functions", nargs="+", metavar="function")
    words = parser.parse_args()
    shutil.rmtree(os.path.join(TOP, "crates", words.crate, "out", "incremental"), ignore_errors=True)
    with tempfile.TemporaryDirectory() as room:
        times = os.path.join(room, "times")
        for function in words.functions:
            first, again = (seconds_of_check(words.crate, function, times) for _ in range(2))
            print("%7.1f  %s" % (first - again, function), flush=True)


if __name__ == "__main__":
    main()
