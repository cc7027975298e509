"""The public names of the crates, and where each is defined."""

import glob
import os
import re
from dataclasses import dataclass, replace

TOP = os.path.dirname(os.path.dirname(os.path.dirname(os.path.realpath(__file__))))
# A crate writes its own steps with this operator.
OPERATORS = {"◌>>=◌"}
DEFINITION = re.compile(r"^ *(?:(?:abbrev|unfoldable|opaque) )?pub (?!use |mod |infix)(?:(?:record|data) )?([^\s:(){}]+)(?= *[:({])", re.M)
CODE = re.compile(r"^pub (?:const )?(fn|struct|enum|trait|const|type) (\w+)", re.M)
METHOD = re.compile(r"^    (?:pub )?fn (\w+)", re.M)
IMPORT = re.compile(r"ghost use Rattle\.(\w+)\.specs\.[\w.]+?(?:\.\{([^}]*)\}| as (\w+))?;")
# What specs see of a type that is declared in code: its name is the last of the path.
DECLARED = re.compile(r"^use Rattle\.(\w+)\.specs\.declared\.[\w.]+?\.(\w+)\.(?:\{|TheInside|TheVariants)", re.M)
# A field of a record is written as a definition is, one step further in.
RECORD = re.compile(r"^( *)pub record (?:.|\n)*? where\n((?:\1  .*\n|\n)*)", re.M)


@dataclass(frozen=True)
class Home:
    """Where a name is defined, and whether by a definition or by code."""

    crate: str
    file: str
    line: int
    is_code: bool
    cited: frozenset  # the crates whose definition of that name the code cites

    def __str__(self):
        return "%s/%s:%d" % (self.crate, self.file, self.line)


def without_comments(text, sign):
    return re.sub(r"%s[^\n]*" % sign, "", text)


def without_fields(text):
    """A text of definitions in which each field of a record is an empty line."""
    return RECORD.sub(lambda found: found.group(0)[: found.start(2) - found.start(0)] + "\n" * found.group(2).count("\n"), text)


def definitions(crate, path):
    text = without_fields(without_comments(open(path, encoding="utf-8").read(), "--"))
    for found in DEFINITION.finditer(text):
        name = found.group(1)
        if "-" not in name and name not in OPERATORS:
            yield name, Home(crate, os.path.relpath(path, os.path.join(TOP, "crates", crate)), text.count("\n", 0, found.start()) + 1, False, frozenset())


def imported(text):
    """The names by which a file of code cites definitions: (crate, its name there, the name here)."""
    for crate, names, _ in IMPORT.findall(text):
        for item in filter(None, (item.strip() for item in names.split(","))):
            there, _, here = item.partition(" as ")
            yield crate, there, here or there


def head_of(text, start, kind):
    """What is read with an item of code: the clauses of a function, and of anything else the whole file."""
    if kind != "fn":
        return text
    end = re.compile(r"^(?:\{|\}|;)|\{\}$|;$", re.M).search(text, start)
    return text[start : end.start() if end else len(text)]


def code(crate, path):
    text = without_comments(open(path, encoding="utf-8").read(), "//")
    citable = list(imported(text))
    for found in CODE.finditer(text):
        kind, name = found.groups()
        head = head_of(text, found.end(), kind)
        cited = frozenset(
            there for there, original, here in citable
            if original == name and re.search(r"(?<![\w-])%s(?![\w-])" % re.escape(here), head)
        )
        yield name, Home(crate, os.path.relpath(path, os.path.join(TOP, "crates", crate)), text.count("\n", 0, found.start()) + 1, True, cited)


def tied_types(crate):
    """The types of a crate's code that one of its specs mentions beside the definition of that name."""
    for path in glob.glob(os.path.join(TOP, "crates", crate, "specs", "**", "*.antt"), recursive=True):
        text = without_comments(open(path, encoding="utf-8").read(), "--")
        own = {name for name, _ in definitions(crate, path)}
        used = {name for names in re.findall(r"^use Rattle\.%s\.specs\.(?!declared)[\w.]+\.\{([^}]*)\}" % crate, text, re.M) for name in re.findall(r"[^\s,]+", names)}
        for home, name in DECLARED.findall(text):
            if home == crate and name in own | used:
                yield name


def names_of(crate):
    folder = os.path.join(TOP, "crates", crate)
    for path in sorted(glob.glob(os.path.join(folder, "specs", "**", "*.antt"), recursive=True)):
        yield from definitions(crate, path)
    tied = set(tied_types(crate))
    for path in sorted(glob.glob(os.path.join(folder, "src", "**", "*.rt"), recursive=True)):
        for name, home in code(crate, path):
            yield name, replace(home, cited=home.cited | {crate}) if name in tied else home


def methods_of(crate):
    """The public methods of a crate's types and traits."""
    for path in sorted(glob.glob(os.path.join(TOP, "crates", crate, "src", "**", "*.rt"), recursive=True)):
        text = without_comments(open(path, encoding="utf-8").read(), "//")
        for found in METHOD.finditer(text):
            line = text.count("\n", 0, found.start(1)) + 1
            yield found.group(1), Home(crate, os.path.relpath(path, os.path.join(TOP, "crates", crate)), line, True, frozenset())


def libraries():
    """The crates that others can use."""
    return sorted(path.split(os.sep)[-3] for path in glob.glob(os.path.join(TOP, "crates", "*", "src", "lib.rt")))
