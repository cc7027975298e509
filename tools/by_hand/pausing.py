"""Ctrl-C in a walk, which stays where it is then."""

import signal


class Pause:
    """In a walk the first Ctrl-C is noted, and it ends with its part. A further one is as it is everywhere."""

    def __enter__(self):
        self.is_asked, self.before = False, signal.getsignal(signal.SIGINT)
        # It may be ignored.
        if self.before is signal.default_int_handler:
            signal.signal(signal.SIGINT, self.hear)
        return lambda: self.is_asked

    def hear(self, number, frame):
        if self.is_asked:
            raise KeyboardInterrupt
        self.is_asked = True

    def __exit__(self, *_):
        if self.before is signal.default_int_handler:
            signal.signal(signal.SIGINT, self.before)
