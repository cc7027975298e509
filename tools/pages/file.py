"""One file of HTML from the body, the style and the scripts that stand in the folder `web`, and packed data.

The policy in its head lets the browser run that style and that script alone, by their sums, and load nothing.
"""

import base64
import hashlib
import json
import os

FOLDER = os.path.join(os.path.dirname(os.path.abspath(__file__)), "web")
# Each comes after those that it uses.
SCRIPTS = (
    "bytes", "recording", "causes", "standing", "course", "filters", "compare",
    "view", "diagram", "density", "overview", "steps", "panel", "events", "stage", "differences", "controls", "main",
)
POLICY = "default-src 'none'; script-src '%s'; style-src '%s'; base-uri 'none'; form-action 'none'"
PAGE = """<!DOCTYPE html>
<html lang="en">
<head>
<meta charset="utf-8">
<meta http-equiv="Content-Security-Policy" content="%s">
<title>friday: a recording</title>
<style>%s</style>
</head>
<body>
%s
<script type="application/json" id="recordings">%s</script>
<script>%s</script>
</body>
</html>
"""


def source(name):
    with open(os.path.join(FOLDER, name), encoding="utf-8") as file:
        return file.read()


def sum_of(text):
    """The sum by which a policy names a script or a style."""
    return "sha256-" + base64.b64encode(hashlib.sha256(text.encode("utf-8")).digest()).decode("ascii")


def page(recordings):
    """The page of packed recordings: one, or two to be compared."""
    style, script = source("page.css"), "\n".join(['"use strict";', *(source(name + ".js") for name in SCRIPTS)])
    if "</" in style or "</script" in script.lower() or "<!--" in script:
        raise ValueError("the page's own script or style would end its element")
    policy = POLICY % (sum_of(script), sum_of(style))
    return PAGE % (policy, style, source("body.html"), json.dumps(recordings), script)
