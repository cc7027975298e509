"""Where the sources of guests lie: beside their modules, in folders that are named, or in the kit."""

import os

from asking.program import TOP

KIT = "kit/"
KIT_FOLDERS = [os.path.join(TOP, "guests", part) for part in ("", "liblog/src", "liblog", "libc", "net")]
MOST_LINES = 200_000


class Sources:
    def __init__(self, modules, folders=()):
        self.folders = [os.path.dirname(os.path.abspath(module)) for module in modules] + list(folders)

    def path(self, file):
        """The path of a file that a place names, or None."""
        folders = KIT_FOLDERS if file.startswith(KIT) else self.folders
        name = file[len(KIT) :] if file.startswith(KIT) else file
        return next((path for path in (os.path.join(folder, name) for folder in folders) if os.path.isfile(path)), None)


def lines_around(path, line, around=5):
    """The lines of a file around one, with their numbers."""
    with open(path, encoding="utf-8", errors="replace") as file:
        lines = file.read().splitlines()[:MOST_LINES]
    first = max(1, line - around)
    return [(number, text) for number, text in enumerate(lines[first - 1 : line + around], first)]
