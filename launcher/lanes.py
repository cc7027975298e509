"""Copies of the sources in which crates are proved side by side.

In one clone a run of `rt` waits for each other one that works on a crate below its own, and most crates stand on the same
few. So each lane is a copy of the sources; a library that one has proved is handed to the clone, and from there to the others.
"""
import contextlib
import hashlib
import os
import shutil
import subprocess
import tempfile

from sources import CRATES, HERE

MEMORY_OF_A_LANE = 3 << 30
# So many crates are hardly ever ready at once.
MOST_LANES = 8


def folder_of_lanes():
    """It lies outside of the clone, since the gate wants no second crates.txt in that, and stays until all is proved."""
    name = hashlib.sha256(HERE.encode()).hexdigest()[:12]
    return os.path.join(tempfile.gettempdir(), f"friday-lanes-{os.getuid()}-{name}")


def lane_count():
    """One for each processor, as far as the memory goes."""
    return max(1, min(len(os.sched_getaffinity(0)), free_memory() // MEMORY_OF_A_LANE, MOST_LANES))


def free_memory():
    with open("/proc/meminfo", encoding="ascii") as lines:
        return next(int(line.split()[1]) * 1024 for line in lines if line.startswith("MemAvailable:"))


def link(source, target):
    try:
        os.link(source, target)
    except OSError:
        shutil.copy2(source, target)


def hand_over(name, start, end):
    """Gives a crate's library from one copy of the sources to another, in place of an older one."""
    source, target = f"{start}/crates/{name}/out/rlib", f"{end}/crates/{name}/out/rlib"
    if not os.path.isfile(f"{source}/stamp") or same_stamp(source, target):
        return
    shutil.rmtree(target, ignore_errors=True)
    os.makedirs(os.path.dirname(target), exist_ok=True)
    shutil.copytree(source, f"{target}.new", copy_function=link)
    os.rename(f"{target}.new", target)


def same_stamp(one, other):
    with contextlib.suppress(OSError):
        with open(f"{one}/stamp", "rb") as first, open(f"{other}/stamp", "rb") as second:
            return first.read() == second.read()
    return False


class Lane:
    """A copy of the sources, and the run of `rt` in it, if there is one."""

    def __init__(self, number):
        self.folder = f"{folder_of_lanes()}/{number}"
        self.tool = self.crate = self.log = None
        self.copy_sources()

    def copy_sources(self):
        """As they are now; what was proved here before stays."""
        os.makedirs(f"{self.folder}/crates", mode=0o700, exist_ok=True)
        for file in ("crates.txt", "HANDLES"):
            shutil.copy2(f"{HERE}/{file}", self.folder)
        for name in os.listdir(CRATES):
            for part in os.listdir(f"{CRATES}/{name}"):
                source, target = f"{CRATES}/{name}/{part}", f"{self.folder}/crates/{name}/{part}"
                if part == "out":
                    continue
                os.makedirs(os.path.dirname(target), exist_ok=True)
                if os.path.isdir(source):
                    shutil.rmtree(target, ignore_errors=True)
                    shutil.copytree(source, target)
                else:
                    shutil.copy2(source, target)

    def has_begun(self, crate):
        """Whether a proof of the crate was begun here, in this run or one before."""
        return os.path.isdir(f"{self.folder}/crates/{crate}/out/incremental")

    def begin(self, crate, lower, jobs):
        """Begins to prove a crate over the libraries that the clone has by now."""
        for name in lower:
            hand_over(name, HERE, self.folder)
        folder = f"{self.folder}/crates/{crate}"
        os.makedirs(f"{folder}/out", exist_ok=True)
        self.crate, self.log = crate, f"{folder}/out/proving.log"
        with open(self.log, "wb") as log:
            words = ["rt", "lib", "--jobs", str(jobs)]
            self.tool = subprocess.Popen(words, cwd=folder, stdin=subprocess.DEVNULL, stdout=log, stderr=log)

    def ended(self):
        """The crate and the status, where a run has ended since this was asked last; what was proved is in the clone then."""
        if self.tool is None or self.tool.poll() is None:
            return None
        crate, status, self.tool = self.crate, self.tool.returncode, None
        if status == 0:
            hand_over(crate, self.folder, HERE)
        return crate, status

    def stop(self):
        if self.tool is not None:
            self.tool.terminate()
            self.tool.wait()
