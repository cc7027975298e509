"""What the files of specs/ declare: each definition with its text, its comment and the names that it cites."""

import glob
import os
import re
from dataclasses import dataclass

# A declaration stands at the left margin; those of a `mutual` and of a section with parameters stand one step further in.
DECLARED = re.compile(r"^( {0,2})(?:(?:abbrev|unfoldable|opaque|pub|record|data) )*([^\s:(){}\-][^\s:(){}]*)(?= [({:]|$)")
MUTUAL = re.compile(r"^(?:abbrev )?mutual$")
SECTION = re.compile(r"^module _ .*where$")
IMPORT = re.compile(r"^(?:pub |unfoldable )*use Rattle\.(\w+)\.specs\.([\w.]+?)(?:\.\{([^}]*)\}| as (\w+))$", re.M)
WORD = re.compile(r"[^\s(){}\[\];,=→×≡∷]+")
# A name that is given where it stands: a parameter, a field that is declared or set, and what a clause takes.
FIELD = re.compile(r"(?<=[{;] )\S+(?= = )|^ +(?:pub )?\S+(?= [:=] )", re.M)
PARAMETERS = re.compile(r"[({]([^():{}=]+) : |λ ([^.()]+)\.|\blet (\S+) [:=]")
NO_NAMES = {"mutual", "module", "use", "infixl", "infixr", "infix"}


@dataclass(frozen=True)
class Home:
    """Where a definition stands, and its name."""

    crate: str
    file: str
    name: str

    @property
    def place(self):
        return "%s/%s" % (self.crate, self.file)

    def __str__(self):
        return "%s/specs/%s" % (self.crate, self.file.replace(".", "/"))


@dataclass(frozen=True)
class Definition:
    """A definition, or several that are defined by each other, with the comment above, and the section that it stands in."""

    names: tuple
    lines: tuple
    section: str = ""

    @property
    def words(self):
        """What it may cite: its words but for the names that it gives itself."""
        code = "\n".join(line.partition("--")[0] for line in self.lines)
        bound = {name for names in PARAMETERS.findall(code + self.section) for name in " ".join(names).split()}
        bound |= {name for line in code.split("\n") for name in taken_by_clause(line, self.names)}
        return [word for word in dict.fromkeys(WORD.findall(FIELD.sub("", code))) if word.partition(".")[0] not in bound]


def taken_by_clause(line, names):
    """What a clause of one of these definitions calls the values that it takes."""
    head = line.partition(" = ")[0].strip() if line.partition(" = ")[1] or line.endswith(" =") else ""
    name, _, taken = head.removesuffix("=").partition(" ")
    return [word for word in WORD.findall(taken) if word[0].islower() and "." not in word] if name in names else []


class File:
    """A file of definitions: what it declares, and where the names are from that it cites."""

    def __init__(self, crate, file, text):
        self.crate, self.file, self.place = crate, file, "%s/%s" % (crate, file)
        self.imported, self.aliases = {}, {}
        for *place, names, alias in IMPORT.findall(text):
            if alias:
                self.aliases[alias] = place
            for item in filter(None, (it.strip() for it in names.split(","))):
                there, _, here = item.partition(" as ")
                self.imported[here or there] = Home(*place, there)
        self.definitions = {}
        for definition in definitions(text):
            self.definitions.update((name, definition) for name in definition.names if name not in self.definitions)

    def cited(self, word):
        """What a word of this file names, if it names a definition."""
        first, _, rest = word.partition(".")
        if first in self.definitions:
            return Home(self.crate, self.file, first)
        if first in self.aliases:
            return Home(*self.aliases[first], rest.partition(".")[0])
        return self.imported.get(first)


def definitions(text):
    """The definitions of a file, in its order. A line at the left margin begins one unless it goes on with the one before."""
    lines, comment, names, section, mutual = [], [], [], "", False
    for line in [*text.split("\n"), "use"]:
        if line.strip().startswith("--"):
            comment.append(line)
            continue
        if not line.strip():
            comment = []
            continue
        found = DECLARED.match(line)
        name = found and found.group(2)
        at_margin = not line.startswith(" ")
        is_head = at_margin and (line.split()[0] in NO_NAMES or line.startswith(("pub use ", "abbrev mutual")))
        begins = name and name not in NO_NAMES and name not in names and (at_margin or (section or mutual) and found.group(1) == "  ")
        if is_head or begins and (at_margin or not mutual):
            if names:
                yield Definition(tuple(dict.fromkeys(names)), tuple(lines), section)
            lines, names = [], []
        if at_margin:
            mutual = bool(MUTUAL.match(line)) or mutual and not (is_head or begins)
            section = line if SECTION.match(line) else "" if is_head or begins else section
        if begins:
            names.append(name)
        if not is_head or mutual:
            lines.extend((*comment, line))
        comment = []


def read_files(top):
    """The files of specs/ of all crates, by crate and file."""
    found = {}
    for path in glob.glob(os.path.join(top, "crates", "*", "specs", "**", "*.antt"), recursive=True):
        crate, _, inside = os.path.relpath(path, os.path.join(top, "crates")).partition(os.sep)
        file = inside[len("specs/") : -len(".antt")].replace(os.sep, ".")
        with open(path, encoding="utf-8") as text:
            found[crate, file] = File(crate, file, text.read())
    return found
