"""Has the program proved: the crates side by side, each once those below it are done, and the program at last."""
import os
import shutil
import subprocess
import time

from lanes import Lane, folder_of_lanes, lane_count
from order import Order
from saying import as_time, pause, say
from sources import FOLDER, HERE, IN_CLONE, PROVED, crates_below, crates_in_order, found, is_proved, line_count
from unproved import alone

# How much processor time a line takes to prove, before this machine has shown it.
SECONDS_A_LINE = 0.06
# More processors than this make one crate hardly faster.
MOST_JOBS = 4
WANTED_ROOM = 3 << 30
LOG = f"{IN_CLONE}/proofs.log"


class Progress:
    """The line that says how far it is, and how long it may take yet."""

    def __init__(self, order, lanes):
        self.order, self.lanes = order, lanes
        self.begun, self.at_first, self.told = time.monotonic(), order.lines_left(), 0

    def so_far(self):
        return time.monotonic() - self.begun

    def expected(self):
        """From the usual pace at first, and then from that of the lines that are done."""
        left = self.order.lines_left()
        done, usual = self.at_first - left, self.at_first * SECONDS_A_LINE / self.lanes
        if done * 4 < self.at_first:
            return max(usual, self.so_far())
        return self.so_far() * self.at_first / done

    def tell(self):
        if self.so_far() < self.told + pause():
            return
        self.told = self.so_far()
        order = self.order
        now = ", ".join(sorted(order.running)) or "the program"
        times = f"{as_time(self.so_far())} so far, of about {as_time(self.expected())}"
        say(f"{len(order.done)} of {len(order.lines)} crates; now {now}: {times}", in_place=True)


def prove_all():
    """Whether the proved program stands."""
    with alone("proving.lock", "another --prove is at work in this clone; this one waits for it"):
        if is_proved():
            found()
            say(f"the program is proved: {PROVED}")
            return True
        begun, lanes = time.monotonic(), [Lane(number) for number in range(lane_count())]
        names = crates_in_order()[:-1]
        order = Order(crates_below(), {name: line_count(name) for name in names})
        say(f"proving {len(names)} crates, {len(lanes)} at a time, and then the program; it goes on here after a stop")
        if shutil.disk_usage(folder_of_lanes()).free < WANTED_ROOM:
            say(f"note: this wants some 3 GB of disk, and {folder_of_lanes()} has less; TMPDIR names another place")
        progress = Progress(order, len(lanes))
        if not prove_crates(order, lanes, progress):
            return False
        read_at = time.time()
        if not build_program(progress):
            return told_refused("friday", LOG)
        # A source that was changed since is newer than the program then.
        os.utime(f"{HERE}/{PROVED}", (read_at, read_at))
        found()
        shutil.rmtree(folder_of_lanes(), ignore_errors=True)
        say(f"proved, in {as_time(time.monotonic() - begun)}; the program is {HERE}/{PROVED}")
        return True


def prove_crates(order, lanes, progress):
    """Whether each crate below the program's was proved; what goes on at a refusal is stopped."""
    try:
        while order.left or order.running:
            begin_ready(order, lanes)
            time.sleep(0.2)
            progress.tell()
            for lane in lanes:
                crate, status = lane.ended() or (None, 0)
                if status:
                    return told_refused(crate, lane.log)
                if crate:
                    order.end(crate)
        return True
    finally:
        for lane in lanes:
            lane.stop()


def begin_ready(order, lanes):
    """Gives each idle lane a crate; where fewer are ready than processors idle, these work together on one."""
    idle = [lane for lane in lanes if lane.tool is None]
    if not idle:
        return
    ready, free = order.ready()[: len(idle)], len(idle)
    for place, crate in enumerate(ready):
        jobs = free // len(ready) + (place < free % len(ready))
        # Where a run was stopped, its lane has a part of the proof.
        lane = next((lane for lane in idle if lane.has_begun(crate)), idle[0])
        idle.remove(lane)
        lane.begin(crate, sorted(order.done), min(jobs, MOST_JOBS))
        order.begin(crate)


def build_program(progress):
    """Proves the program's own crate in the clone, over the libraries that the lanes have handed to it, and builds it."""
    with open(LOG, "wb") as log:
        words = ["rt", "run", "--", "replay", "data/a.wasm", "data/a.log"]
        tool = subprocess.Popen(words, cwd=FOLDER, stdin=subprocess.DEVNULL, stdout=log, stderr=log)
        try:
            while tool.poll() is None:
                time.sleep(0.05)
                progress.tell()
        finally:
            if tool.poll() is None:
                tool.terminate()
                tool.wait()
    return tool.returncode == 0


def told_refused(crate, log):
    with open(log, encoding="utf-8", errors="replace") as text:
        lines = text.readlines()
    if log != LOG:
        shutil.copy(log, LOG)
    for line in lines[-20:]:
        say(line.rstrip("\n"))
    say(f"the crate {crate} was not proved, so there is no proved program; all that was said is in {LOG}")
    return False
