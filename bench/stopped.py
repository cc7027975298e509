"""Stops a long recording of a group by `kill -9` at random moments, and looks at the logs that are left: each is the
front of the log of the whole recording, `friday replay` accepts each to its last whole entry, at most one log has a
part of an entry after that, and each datagram that was taken has its send in them. Then a migration of the longest log, in
the version 1, is stopped so: the new file is as it was or whole, and the old log stays.
"""

import os
import random
import signal
import subprocess
import tempfile
import time
from bisect import bisect
from dataclasses import replace

from costs import parser_of
from logs.format import ends, log_in, spelled
from ring import build_ring, write_ring

COUNT, ROUNDS = 4, 10_000
PARSER = parser_of(__doc__)
PARSER.add_argument("times", metavar="TIMES", nargs="?", type=int, default=200, help="how often each is stopped, if not 200 times")
CHOSEN = PARSER.parse_args()
PROGRAM, TIMES = CHOSEN.program, CHOSEN.times


def read_logs(folder):
    logs = []
    for p in range(COUNT):
        path = os.path.join(folder, "p%d.log" % p)
        logs.append(open(path, "rb").read() if os.path.exists(path) else None)
    return logs


# Logs of whole recordings are read once, and what is left of one is a front of it.
class Whole:
    def __init__(self, data):
        self.data, self.log = data, log_in(data)
        self.ends = ends(self.log)

    # The whole entries in so many bytes, and how many bytes are left.
    def front(self, size):
        count = bisect(self.ends, size) - 1
        return self.log.entries[:count], size - self.ends[count]


def check(folder, whole, logs):
    torn, clocks, tags = 0, [set() for _ in range(COUNT)], []
    for p, log in enumerate(logs):
        if log is None or len(log) < 19:
            continue
        assert whole[p].data.startswith(log), "p%d.log is no front of the whole log" % p
        found, left = whole[p].front(len(log))
        torn += left > 0
        clocks[p] = {entry.clock for entry in found if entry.call.name == "send"}
        tags += [entry.tag for entry in found if entry.tag]
        done = subprocess.run([PROGRAM, "replay", "ring.wasm", "p%d.log" % p], cwd=folder, stdout=subprocess.PIPE, text=True)
        verdict = "%d bytes left over" % left if left else "log whole"
        assert done.returncode == 0 and "p%d: %d events, running, %s\n" % (p, len(found), verdict) in done.stdout, done.stdout
    assert torn <= 1, "%d logs end in a part of an entry" % torn
    assert all(clock in clocks[sender] for sender, clock in tags), "a datagram was taken whose send is in no log"
    return torn


# Whether a call was stopped, after a random part of the time that it takes.
def stopped_call(folder, words, spent):
    child = subprocess.Popen([PROGRAM, *words], cwd=folder, stdout=subprocess.DEVNULL)
    time.sleep(random.uniform(0, spent))
    child.send_signal(signal.SIGKILL)
    return child.wait() == -signal.SIGKILL


def timed(folder, words):
    start = time.perf_counter()
    subprocess.run([PROGRAM, *words], cwd=folder, check=True, stdout=subprocess.DEVNULL)
    return time.perf_counter() - start


def stop_recordings(folder):
    spent = timed(folder, ["record", "s"])
    whole = [Whole(data) for data in read_logs(folder)]
    stopped = torn = 0
    for _ in range(TIMES):
        for p in range(COUNT):
            os.remove(os.path.join(folder, "p%d.log" % p)) if os.path.exists(os.path.join(folder, "p%d.log" % p)) else None
        stopped += stopped_call(folder, ["record", "s"], spent)
        torn += check(folder, whole, read_logs(folder))
    print("%d recordings of %.2f s, %d stopped before their end, %d with a part of an entry: all logs replay" % (TIMES, spent, stopped, torn))
    return max((each.log for each in whole), key=lambda log: len(log.entries))


def stop_migrations(folder, log):
    old, new = os.path.join(folder, "old"), os.path.join(folder, "new")
    given, wanted = spelled(replace(log, version=1)), spelled(replace(log, version=2))
    with open(old, "wb") as file:
        file.write(given)
    spent, stopped, untouched = timed(folder, ["migrate", "old", "new"]), 0, 0
    for _ in range(TIMES):
        with open(new, "wb") as file:
            file.write(b"before")
        stopped += stopped_call(folder, ["migrate", "old", "new"], spent)
        with open(old, "rb") as first, open(new, "rb") as second:
            assert first.read() == given, "the old log is another one"
            left = second.read()
        assert left in (b"before", wanted), "the new file is neither what it was nor the whole log"
        untouched += left == b"before"
    print("%d migrations of %.3f s, %d stopped before their end: %d left the file as it was, the others the whole log" % (TIMES, spent, stopped, untouched))


def main():
    with tempfile.TemporaryDirectory() as folder:
        build_ring(folder, COUNT)
        write_ring(os.path.join(folder, "s"), ROUNDS, COUNT)
        stop_migrations(folder, stop_recordings(folder))


if __name__ == "__main__":
    main()
