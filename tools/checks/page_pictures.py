#!/usr/bin/env python3
"""Makes the picture page.png beside the README of each hunt, from the pages that examples/pages.sh made in a folder.

Usage: page_pictures.py FOLDER
"""

import os
import sys

from tools_path import TOP  # before the modules of the tools, which it lets be found
from browser import Browser
from page_reader import fill, opened
from small_png import smaller

EXAMPLES = os.path.join(TOP, "examples")
# At which position the culprit stands, the keys that bring what led to it into sight, and the filter by causes.
HUNTS = {"register": (29, "", "all"), "election": (232, "", "all"), "bank": (208, "-", "past"), "lost_update": (54, "", "all")}
WIDTH, HEIGHT = 1240, 980


def main(words):
    if len(words) != 1:
        sys.exit(__doc__.strip())
    with Browser(WIDTH, HEIGHT) as browser:
        for hunt, (position, keys, cause) in HUNTS.items():
            opened(browser, os.path.join(words[0], hunt + ".html"), "#at=%d" % position)
            fill(browser, "cause", cause, "change")
            for key in keys:
                browser.key(key)
            with open(os.path.join(EXAMPLES, hunt, "page.png"), "wb") as file:
                file.write(smaller(browser.picture()))


if __name__ == "__main__":
    main(sys.argv[1:])
