#!/usr/bin/env python3
"""Holds what the pages for maintainers cite to the sources: a name with `specs/FILE` behind it is declared in that file of the crate that
is named there, or of some crate if none is; every other name in code marks is one of the crates, files, definitions, functions,
types, fields, clauses or variants that there are. Each row of what is proved names a contract and a definition. A crate's page is the
text at the top of its `src/lib.rt`, and a file that it cites is its own, if no crate is named.

check_cited.py [PAGE ..]   (the pages in docs/ about the inside and those of the crates, if none is given)
"""

import glob
import os
import re
import sys
from collections import defaultdict

from tools_path import TOP

PROVED = "docs/proved.md"
PAGES = ("README.md", "docs/theorem.md", PROVED, "docs/architecture.md", "docs/contributing.md", "docs/DECISIONS.md")
CRATES = os.path.join(TOP, "crates")
SPEC = re.compile(r"^ *(?:(?:abbrev|unfoldable|opaque|pub|record|data) )*([^\s:(){}|]+)(?=[^:\n]* :|(?: [^:\n]*)? where| [^:=\n]*=)", re.M)
CODE = re.compile(r"\b(?:fn|struct|enum|trait|type|mod|const|static|ghost) (\w+)|^ *(?:ensures|requires)\*? (\w+) \{|^ *(?:pub(?:\([a-z]+\))? )?(\w+)(?=[:,({]| \{| =)|^'(\w+):", re.M)
# Names with `specs/FILE` behind them: NAMES in `specs/FILE` of CRATE, or without one. A crate's page says `of` for `in`.
CITED = re.compile(r"((?:`[^`\n]+`(?:,? and |, | of \w+, |\s)+)*`[^`\n]+`),?\s+(?:in|of)\s+`specs/([\w/]+)`(?:(?:,? and |, )`(?:specs/)?[\w/]+`)*(?:\s+of\s+`?(\w+)`?)?")
# The form of many names, as `x_of`, `with_x` and `MOST_X`.
FORM = re.compile(r"x_\w+|\w+_[xX]")
NAME = re.compile(r"[A-Za-z][A-Za-z0-9]*(?:_[A-Za-z0-9]+)+|[A-Z][a-z0-9]+(?:[A-Z][a-z0-9]*)+")
# Of the language, its library and other programs.
OTHERS = set(
    "ReadConsumes WriteAppends allow_holes by_rattle br_table call_indirect callgrind_annotate checked_add extend_from_slice fixed_time getrandom is_even "
    "libFuzzer memory_grow memory_size native_tls push_str read_to_end saturating_add sched_autogroup_enabled sync_data to_le_bytes wat2wasm".split()
)


def read(path):
    with open(path, encoding="utf-8") as file:
        return file.read()


def text_of(page):
    """The text of a page, in its lines. Of code that is what stands at the top about the whole file."""
    text = read(os.path.join(TOP, page))
    if not page.endswith(".rt"):
        return text
    return "\n".join(line[len("//! ") :] if line.startswith("//!") else "" for line in text.split("\n"))


def pages():
    crates = glob.glob(os.path.join(CRATES, "*", "src", "lib.rt"))
    return [*PAGES, *(os.path.relpath(path, TOP) for path in sorted(crates))]


def names_in(path):
    """What a file of definitions or of code declares, fields and variants too."""
    text = read(path)
    if path.endswith(".antt"):
        return set(SPEC.findall(text))
    return {name for found in CODE.findall(text) for name in found if name}


def sources():
    """The names that each file of specs/ declares, and all names that there are."""
    by_file, known = defaultdict(set), set(OTHERS)
    for path in glob.glob(os.path.join(CRATES, "*", "**", "*"), recursive=True):
        crate, _, inside = os.path.relpath(path, CRATES).partition(os.sep)
        if inside.split(os.sep)[0] not in ("src", "specs", "proofs", "must-fail"):
            continue
        known.update({crate, *re.split(r"[/.]", inside)})
        if os.path.isfile(path):
            names = names_in(path) if path.endswith((".rt", ".antt")) else set()
            known |= names
            if inside.startswith("specs"):
                by_file[crate, inside[len("specs/") : -len(".antt")]] |= names
    return by_file, known


def outside():
    """Names of the tools, the guests' kit and the benches, and of the files at the top."""
    found = set()
    for folder in ("tools", "guests", "bench", "launcher", "examples", "docs", ".", os.path.join("crates", "friday_cases", "tables")):
        for path in glob.glob(os.path.join(TOP, folder, "**" if folder != "." else "*", "*"), recursive=True):
            found.update(re.split(r"[/.]", os.path.relpath(path, TOP)))
            if path.endswith((".py", ".h", ".c", ".rs", ".json")):
                found.update(re.findall(r"\w+", read(path)))
    return found


def said_by_page(page, by_file, known):
    """What a page cites that is not there, by line."""
    text = text_of(page)
    line = lambda at: text.count("\n", 0, at) + 1
    crates = {crate for crate, _ in by_file}
    own = page.split(os.sep)[1] if page.endswith(".rt") else None
    for found in CITED.finditer(text):
        homes = [names for (crate, file), names in by_file.items() if file == found.group(2) and (found.group(3) or own) in (None, crate)]
        homes = homes or [names for (_, file), names in by_file.items() if file == found.group(2)]
        for name in re.findall(r"`(\w+)`", found.group(1).rsplit("|", 1)[-1]):
            if name not in crates and not any(name in names for names in homes):
                yield line(found.start()), "`%s` is not in specs/%s" % (name, found.group(2))
    for found in re.finditer(r"`([^`\n]+)`", text):
        for name in NAME.findall(re.sub(r"[\w./-]*/[\w./-]*|\$\S+|--\w\S*|\w+\.(?:py|sh|md|rt|c|h|json|txt)\b", " ", found.group(1))):
            if name not in known and not FORM.fullmatch(name):
                yield line(found.start()), "`%s` is no name of the sources" % name


def without_contract(page):
    """The rows of promises that name no contract or no definition, by line."""
    for number, line in enumerate(text_of(page).split("\n"), 1):
        cells = line.strip("|").split(" | ")
        is_row = line.startswith("| ") and len(cells) == 3 and cells[0].strip() != "promise"
        if is_row and not all("`" in cell for cell in cells[1:]):
            yield number, "no contract or no definition of: %s" % cells[0].strip()


def main(words):
    by_file, known = sources()
    known |= outside()
    lost = [(page, *said) for page in words or pages() for said in said_by_page(page, by_file, known)]
    lost += [(PROVED, *said) for said in without_contract(PROVED)]
    for said in lost:
        print("%s:%d: %s" % said)
    print("cited: %s" % ("as expected" if not lost else "%d wrong" % len(lost)))
    return 1 if lost else 0


if __name__ == "__main__":
    sys.exit(main(sys.argv[1:]))
