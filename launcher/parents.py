"""How a process ends by a signal or with the one that began it, so that nothing is left behind."""
from __future__ import annotations

import contextlib
import ctypes
import signal
import sys

# The first of the numbers of prctl.
SIGNAL_AT_DEATH = 1
STOPS = (signal.SIGTERM, signal.SIGHUP, signal.SIGINT)


def end_with_parent(number=signal.SIGKILL):
    """Has this process get a signal when the one above it is gone, however that ended."""
    with contextlib.suppress(OSError, AttributeError):
        ctypes.CDLL(None).prctl(SIGNAL_AT_DEATH, number)


def end_by_signals(do_first=lambda: None):
    """Has a stop of the launcher end this process as an exit would. A stop often comes twice, from the terminal and from the shell:
    the second one may not break off what is tidied up."""

    def end(number, _):
        for other in STOPS:
            signal.signal(other, signal.SIG_IGN)
        do_first()
        sys.exit(128 + number)

    for number in STOPS:
        signal.signal(number, end)
