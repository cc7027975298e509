"""Lines for whoever waits, on standard error, and texts on standard output. Either may be closed, full or read by nobody."""
import os


def plain(text):
    """Without signs that a terminal would obey: names come from files and from words."""
    return "".join(sign if sign.isprintable() else repr(sign)[1:-1] for sign in text)


def is_terminal():
    try:
        return os.isatty(2)
    except OSError:
        return False


def say(text, in_place=False):
    """On a terminal, what is said in place is gone once more is said."""
    clear = "\x1b[K" if is_terminal() else ""
    end = "\r" if in_place and clear else "\n"
    line = "%sfriday: %s%s" % (clear, plain(text), end)
    try:
        os.write(2, line.encode("utf-8", "backslashreplace"))
    except OSError:
        pass


def pause():
    """How long to wait before more is said in place: a file gets few lines."""
    return 1 if is_terminal() else 60


def as_time(seconds):
    minutes = int(seconds) // 60
    return "%d min" % minutes if minutes else "%d s" % int(seconds)


def printed(text, status=0):
    """Prints the text, and gives the status, or that of a write that failed."""
    data = text.encode("utf-8", "backslashreplace")
    try:
        while data:
            data = data[os.write(1, data) :]
    except OSError as error:
        say("status 6: standard output could not be written (%s)" % error.strerror)
        return 6
    return status
