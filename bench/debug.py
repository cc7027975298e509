"""Sessions of the debugger over 16 processes that pass datagrams round in a ring: 10,000 lines `step` and as many lines
`print` at the beginning, in the middle and at the end of logs of 20,000, 100,000 and 1,000,000 events; `goto` to the end
beside the replay of the same logs, and one position back; and the time until `at 0` with 16 logs of 1 MB. Prints the time
for each line and each event, and the instructions for each line. The guest is built with wat2wasm of the package wabt.
"""

import os
import statistics
import subprocess
import tempfile
import threading
import time

from costs import instructions, program_of
from ring import COUNT, build_ring, pairs, record_ring, rounds_of

PROGRAM = program_of(__doc__)
DEBUG = [PROGRAM, "debug", *pairs()]
LINES, MB = 10_000, 1_000_000


# A session of the debugger over pipes.
class Session:
    def __init__(self, folder):
        start = time.perf_counter()
        self.child = subprocess.Popen(DEBUG, cwd=folder, stdin=subprocess.PIPE, stdout=subprocess.PIPE)
        first = self.child.stdout.readline()
        self.begun = time.perf_counter() - start
        assert first == b"at 0\n", first

    # The seconds in which these lines are answered, each by one line.
    def ask(self, *lines):
        data = "".join(line + "\n" for line in lines).encode()
        start = time.perf_counter()
        writer = threading.Thread(target=self.write, args=(data,))
        writer.start()
        for _ in lines:
            self.child.stdout.readline()
        spent = time.perf_counter() - start
        writer.join()
        return spent

    def write(self, data):
        self.child.stdin.write(data)
        self.child.stdin.flush()

    # Its peak memory.
    def end(self):
        self.child.stdin.close()
        _, status, usage = os.wait4(self.child.pid, 0)
        assert os.waitstatus_to_exitcode(status) == 0, status
        return usage.ru_maxrss * 1024


# What a line costs after a `goto`, 10,000 times the same.
def line_at(folder, events, position, line, counted):
    session = Session(folder)
    session.ask("goto %d" % position)
    spent = session.ask(*[line] * LINES)
    session.end()
    count = "-"
    if counted:
        few, many = (instructions(DEBUG, folder, "goto %d\n" % position + (line + "\n") * n) for n in (0, LINES))
        count = "-" if None in (few, many) else "%.0f" % ((many - few) / LINES)
    print("%9d %9d  %-24s %10.2f %14s" % (events, position, line, spent / LINES * 1e6, count), flush=True)


def lines_table(folder, events):
    last = events - LINES
    for position in (0, last // 2, last):
        for line in ("step", "print sum(@_.u32[8])"):
            line_at(folder, events, position, line, events <= 100_000)


def replay_seconds(folder):
    start = time.perf_counter()
    subprocess.run([PROGRAM, "replay", *pairs()], cwd=folder, stdout=subprocess.DEVNULL, check=True)
    return time.perf_counter() - start


# `goto` to the end, and one back; and the replay of the same logs.
def walks(folder, events):
    session = Session(folder)
    there, back = session.ask("goto %d" % events), session.ask("goto %d" % (events - 1))
    peak = session.end()
    each = there / events * 1e9, replay_seconds(folder) / events * 1e9
    print("%9d events: for each, goto %.0f ns and replay %.0f ns; one back %.3f s; peak %.1f MB" % (events, *each, back, peak / 1e6), flush=True)


def begun(folder):
    session = Session(folder)
    session.end()
    return session.begun


def start_table(folder):
    for p in range(COUNT):
        os.truncate(os.path.join(folder, "p%d.log" % p), MB)
    spent = [begun(folder) for _ in range(50)]
    print("until at 0, 16 logs of 1 MB: median %.4f s, most %.4f s" % (statistics.median(spent), max(spent)))
    count = instructions(DEBUG, folder, "")
    if count is not None:
        print("instructions until the end of an empty input: %.3f for each byte of the logs" % (count / (COUNT * MB)))


def main():
    with tempfile.TemporaryDirectory() as folder:
        build_ring(folder)
        print("%9s %9s  %-24s %10s %14s" % ("events", "position", "line", "us", "instructions"))
        for wanted in (20_000, 100_000, 1_000_000):
            events = record_ring(PROGRAM, folder, rounds_of(wanted))
            lines_table(folder, events)
            walks(folder, events)
        start_table(folder)


if __name__ == "__main__":
    main()
