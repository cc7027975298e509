"""Looks at files to explain a call. Nothing is opened that is no regular file, since a pipe would wait and a device might never
end, and no more is read than a file of its kind can have."""
from __future__ import annotations

import os
import stat

MOST_SCHEDULE, MOST_LOG, MOST_MODULE = 16_777_216, 33_554_432, 4_194_304
KINDS = (
    (stat.S_ISDIR, "a folder"), (stat.S_ISFIFO, "a pipe"), (stat.S_ISCHR, "a device"), (stat.S_ISBLK, "a device"), (stat.S_ISSOCK, "a socket"),
)


def is_file(path):
    """Whether a regular file is there, as far as can be told."""
    try:
        return stat.S_ISREG(os.stat(path).st_mode)
    except (OSError, ValueError):
        return False


def kind_of(path):
    """What stands there that is no regular file, or None."""
    try:
        mode = os.stat(path).st_mode
    except (OSError, ValueError):
        return None
    return next((name for test, name in KINDS if test(mode)), None)


def size_of(path):
    return os.stat(path).st_size if is_file(path) else None


def bytes_of(path, most):
    """At most so many first bytes of a regular file, or None if there is no such or it cannot be read."""
    if not is_file(path):
        return None
    try:
        # It may be another file by the time that it is opened.
        with open(os.open(path, os.O_RDONLY | os.O_NONBLOCK | os.O_CLOEXEC), "rb") as file:
            return file.read(most) if stat.S_ISREG(os.fstat(file.fileno()).st_mode) else None
    except (OSError, ValueError):
        return None


def why_unreadable(path):
    """What keeps a file from being read, or None."""
    kind = kind_of(path)
    if kind:
        return "is %s" % kind
    try:
        os.close(os.open(path, os.O_RDONLY | os.O_NONBLOCK | os.O_CLOEXEC))
    except (OSError, ValueError) as error:
        return "(%s)" % (getattr(error, "strerror", None) or "no such name can be")
    return None


def why_unwritable(path, grows):
    """What keeps a file from being made or replaced, or None. One that grows is written to in its place."""
    if os.path.isdir(path):
        return "is a folder"
    folder = os.path.dirname(path) or "."
    if not os.path.isdir(folder):
        return "is in a folder that is not there"
    if not os.access(path if os.path.exists(path) else folder, os.W_OK):
        return "(Permission denied)"
    beside = os.path.realpath(path) + ".friday-new"
    if grows or not os.path.isfile(path):
        return None
    if not os.access(os.path.dirname(beside), os.W_OK):
        return "is in a folder that may not be written to"
    return "is made as %s at first, which is a folder" % beside if os.path.isdir(beside) else None
