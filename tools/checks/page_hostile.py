"""A group whose bytes, printed text, watch names and file names try to be markup or script on its page."""

import os
import subprocess
import sys

from page_reader import Group, check_position, go, no_complaint, now, opened, same
from tools_path import TOOLS

PAGE = os.path.join(TOOLS, "page.py")
TEXTS = (
    b"</script><script>window.owned=1</script>",
    b"<!--<script>window.owned=1</script>",
    b"<img src=x onerror=window.owned=1>",
    b'"};window.owned=1;//',
    b"</title></style></textarea><svg onload=window.owned=1>",
    b"]]>&lt;script&gt;window.owned=1&lt;/script&gt;",
    "\u2028window.owned=1\u2029\u202e</script>".encode(),
    b"${window.owned=1}`\\u003cscript>",
    bytes(range(256)),
    b"javascript:window.owned=1\r\n<base href=//example.org>",
)
# The texts come one after the other; each process prints them, sends them to the other and takes what that sent.
GUEST = """(module
  (import "liblog" "me" (func $me (result i32)))
  (import "liblog" "print" (func $print (param i32 i32) (result i32)))
  (import "liblog" "send" (func $send (param i32 i32 i32) (result i32)))
  (import "liblog" "recv" (func $recv (param i32 i32 i32) (result i32)))
  (memory 1)
  (data (i32.const 0) "%s")
  (func (export "_start") (local $other i32)
    (local.set $other (i32.xor (call $me) (i32.const 1)))
%s))
"""
CALLS = """    (drop (call $print (i32.const %d) (i32.const %d)))
    (drop (call $send (local.get $other) (i32.const %d) (i32.const %d)))
    (drop (call $recv (i32.const 8192) (i32.const 512) (i32.const 8188)))
"""
NAMES = ("<script>window.owned++</script>", "</script><svg><iframe>", "\u202e\u2028</td>\x01${1}", "__proto__")
EXPRESSIONS = ("@script.u8[8192]", "@script.events", "sum(@_.clock)", "@onerror.i64[8192] % 7")
# Of what the page itself is made.
ELEMENTS = """HTML HEAD META TITLE STYLE BODY P SECTION FIELDSET LEGEND LABEL INPUT I SELECT OPTION H2 H3 TABLE TBODY THEAD TR TH TD
MAIN TEMPLATE ARTICLE DIV SPAN CANVAS OL UL LI BUTTON FOOTER SCRIPT""".split()


def write_group(program):
    """Records the group; its files are named as badly as a file can be. Returns the words MODULE LOG .. of it."""
    data, calls, start = "", "", 0
    for text in TEXTS:
        data += "".join("\\%02x" % byte for byte in text)
        calls += CALLS % (start, len(text), start, len(text))
        start += len(text)
    with open("hostile.wat", "w", encoding="ascii") as file:
        file.write(GUEST % (data, calls))
    subprocess.run(["wat2wasm", "hostile.wat", "-o", "hostile.wasm"], check=True)
    lines = ["friday 1", "process script hostile.wasm", "process onerror hostile.wasm", "run 0 0 2", "run 1 0 2"]
    for number in range(1, len(TEXTS) + 1):
        lines += ["run 0 0 2", "run 1 0 2", "deliver 0 %d" % number, "deliver 1 %d" % number, "run 0 0", "run 1 0"]
    with open("schedule", "w", encoding="ascii") as file:
        file.write("\n".join(lines) + "\n")
    subprocess.run([program, "record", "schedule"], check=True, stdout=subprocess.DEVNULL)
    os.makedirs("<", exist_ok=True)
    logs = ["</script><img src=x onerror=window.owned=1>.log", "\u2028'\"><svg onload=window.owned=1>&amp;.log"]
    for name, log in zip(("script", "onerror"), logs):
        os.rename(name + ".log", log)
    return [word for log in logs for word in ("hostile.wasm", log)]


def write_page(program, words, path):
    with open(path, "wb") as file:
        subprocess.run([sys.executable, PAGE, "--program", program, *words], stdout=file, check=True)


def check_source(path):
    """Nothing of the recording stands in the file as it is."""
    with open(path, "rb") as file:
        text = file.read()
    for hostile in (*TEXTS, *(name.encode() for name in NAMES[:3]), b"onerror=", b"owned", b"onload"):
        same("the file with %r" % hostile, hostile in text, False)
    same("the ends of scripts", text.count(b"</script"), 2)


def check_harmless(browser):
    same("owned", browser.value("typeof window.owned"), "undefined")
    names = browser.value("Array.from(document.querySelectorAll('*'), (each) => each.tagName)")
    same("elements", set(names) - set(ELEMENTS), set())
    words = browser.value("Array.from(document.querySelectorAll('*')).flatMap((each) => each.getAttributeNames())")
    same("handlers", [word for word in words if word.startswith("on") or word in ("href", "src", "srcdoc", "action")], [])
    same("scripts", browser.value("document.scripts.length"), 2)


def check_policy(browser):
    """The policy holds: a script that is put into the page by hand does not run."""
    browser.value("(() => { const bad = document.createElement('script'); bad.textContent = 'window.ran = 1';"
                  "document.body.append(bad); bad.remove(); })()")
    same("the policy", browser.value("typeof window.ran"), "undefined")


def check_hostile(browser, program):
    pairs = write_group(program)
    watches = list(zip(NAMES, EXPRESSIONS))
    words = [*pairs, "--watch", *("%s=%s" % watch for watch in watches)]
    write_page(program, words, "hostile.html")
    write_page(program, [*words, "--against", *pairs], "hostile_against.html")
    group = Group(program, pairs, watches)
    for path in ("hostile.html", "hostile_against.html"):
        check_source(path)
        opened(browser, path)
        positions = list(range(0, group.count + 1, 3))
        for turn, (position, answer) in enumerate(zip(positions, group.asked(positions))):
            go(browser, turn % 3, position)
            for stage in now(browser):
                check_position(stage, group, position, answer)
            check_harmless(browser)
        no_complaint(browser)
        check_policy(browser)
    print("hostile: as expected", flush=True)

