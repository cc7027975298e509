#!/usr/bin/env python3
"""Checks that the files of each crate's specs/ tell its promise from its inside: a definition that the promise needs stands in
specs/, and any other in specs/inside/.

check_inside.py                     checks
check_inside.py --list [CRATE ..]   tells of each file if it is promised, inside or mixed, and checks nothing

The promise needs what one of these cites, and what that cites in turn:
- a clause of a function that `lib.rt` makes public (each law is one), of a public method of a public type, or of a public trait;
- what contracts see of a public type, which is `Value` and `coded` of its `Model`, and its other ghost members. How its private
  fields come to that (`view`, `invariant`) no caller sees, so it is the inside;
- a file of another crate.

So what only contracts of private functions, models of private types and proofs cite is the inside. Constructors and fields go with
their type. A name means what it is imported as, or the definition of its file, unless a parameter hides it.
"""

import glob
import os
import re
import sys
from dataclasses import dataclass, field

from tools_path import TOP  # before the modules of the tools, which it lets be found

# The first line of a definition, and of what holds several: the parameters of a module stand in its head.
SIGNATURE = re.compile(r"^ *(?:abbrev |unfoldable |opaque )?(?:pub )?(?:(record|data) ([^\s:(){}]+)|([^\s:(){}]+) : )")
BLOCK = re.compile(r"^ *(?:(?:abbrev )?mutual|module _ .* where)$")
CONSTRUCTOR = re.compile(r"^ *(?:pub )?([^\s:(){}λ]+(?: [^\s:(){}λ]+)*) : ")
IMPORT = re.compile(r"^ *(?:pub |ghost )*use Rattle\.(\w+)\.specs\.([^\s{};]+?)(?:\.\{([^}]*)\})?(?: as ([^\s;]+))?;?$", re.M)
WORD = re.compile(r"[^\s(){};,@\"]+")
# Where the items of a file of code begin, and the members of an item; rt fmt lays them out so.
ITEM = re.compile(r"^(?=(?:pub(?:\(crate\))? )?(?:const |unsafe )*(?:fn|struct|enum|trait|impl|const|static|type|mod|use|ghost)\b)", re.M)
MEMBER = re.compile(r"^    (?=(?:pub(?:\(crate\))? )?(?:const |unsafe )*(?:fn|ghost|const|type)\b)", re.M)
BODY = re.compile(r"^(?: {4})?\{$", re.M)
BLOCK_OF = re.compile(r"impl(?:<[^>]*>)? (?:(?P<trait>[\w:]+)(?:<.*>)? for )?(?P<type>\w+)")
NAMED = re.compile(r"^pub (?:const )*(?:fn|struct|enum|trait|const|type) (\w+)", re.M)
EXPORT = re.compile(r"^pub use (\w+)::(?:\{([^}]*)\}|(\w+));", re.M)
CLAUSE = re.compile(r"\b(?:requires|ensures|ghost)\b[^{};]*(\{(?:[^{}]|\{(?:[^{}]|\{[^{}]*\})*\})*\})")


@dataclass
class Definition:
    """A definition of specs/, with the constructors that it brings, and the lines that it stands in."""

    name: str
    kind: str  # record, data or nothing
    lines: list
    constructors: set = field(default_factory=set)


def read(path):
    with open(path, encoding="utf-8") as file:
        return file.read()


def files_of(crate, part, ending):
    """The files of one part of a crate, by their names as modules."""
    folder = os.path.join(TOP, "crates", crate, part)
    for path in sorted(glob.glob(os.path.join(folder, "**", "*" + ending), recursive=True)):
        yield os.path.relpath(path, folder)[: -len(ending)].replace(os.sep, "."), path


def definitions(text):
    """The definitions of a file of specs/ in their order. The head of a module of parameters is a line of each that is in it."""
    found, blocks = [], [(0, None)]
    for line in text.split("\n"):
        line = re.sub(r"(?<!\S)--.*", "", line)
        depth = len(line) - len(line.lstrip())
        if not line.strip() or IMPORT.match(line):
            continue
        while depth < blocks[-1][0]:
            blocks.pop()
        signature = SIGNATURE.match(line) if depth == blocks[-1][0] else None
        if BLOCK.match(line):
            blocks.append((depth + 2, line))
        elif signature:
            kind, typed, plain = signature.groups()
            found.append(Definition(typed or plain, kind or "", [head for _, head in blocks if head] + [line]))
        elif found:
            found[-1].lines.append(line)
            named = CONSTRUCTOR.match(line) if found[-1].kind == "data" else None
            found[-1].constructors.update(named.group(1).split() if named else ())
    return found


def imports(text):
    """What a text calls definitions and files of specs/: the crate, the file, and the name there or None for a file, by the name here."""
    named = {}
    for crate, file, names, here in IMPORT.findall(text):
        for item in filter(None, map(str.strip, names.split(","))):
            there, _, other = item.partition(" as ")
            named[other or there] = (crate, file, there)
        if not names:
            named[here or file.split(".")[-1]] = (crate, file, None)
    return named


def cited(text, named):
    """The definitions that a text of clauses or definitions cites, where `named` says what its names mean."""
    bound = {name for names in re.findall(r"[({]([^():{}]+) : ", text) for name in names.split()}
    bound |= {name for names in re.findall(r"λ ([^.()]+)\.", text) for name in names.split()} | set(re.findall(r"\blet (\S+) [:=]", text))
    words = set(WORD.findall(re.sub(r"(?<=[{;] )\S+(?= = )", "", text)))
    words |= {"◌>>=◌"} if words & {"do", ">>="} else set()
    for word in words:
        first, _, rest = word.partition(".")
        crate, file, there = named.get(first, (None, None, None))
        if there and first not in bound:
            yield crate, file, there
        elif file and rest:
            yield crate, file, rest.split(".")[0]


def exported(crate):
    """The names that a crate makes public, by the module that they stand in. A module that is public as a whole has None."""
    text = read(os.path.join(TOP, "crates", crate, "src", "lib.rt"))
    names = {module: None for module in ["lib", *re.findall(r"^pub mod (\w+);", text, re.M)]}
    for module, several, one in EXPORT.findall(text):
        names.setdefault(module, set()).update(filter(None, map(str.strip, (several or one).split(","))))
    return names


def clauses(text):
    """What stands between the braces of a contract or of a ghost member, without the body of a function."""
    return " ".join(CLAUSE.findall(BODY.split(text)[0]))


def promises(crate):
    """The text of each public item with the imports that it is read with."""
    public = exported(crate)
    texts = {module: re.sub(r"^ *//.*\n", "", read(path), flags=re.M) for module, path in files_of(crate, "src", ".rt")}
    own = {module: {name for name in NAMED.findall(texts.get(module, "")) if names is None or name in names} for module, names in public.items()}
    types = set().union(*own.values())
    for module, text in texts.items():
        whole = imports(re.sub(r"^ +.*", "", text, flags=re.M))
        for item in ITEM.split(text):
            named = {**whole, **imports(item)}
            yield from ((part, named) for part in public_parts(item, own.get(module, ()), types))


def public_parts(item, own, types):
    """The parts of an item of code that a caller may meet, where `own` names the public items of its module."""
    named, block = NAMED.match(item), BLOCK_OF.match(item)
    if named and named.group(1) in own:
        yield from map(clauses, MEMBER.split(item) if item.startswith("pub trait") else [item])
    elif block and block.group("type") in types:
        for member in MEMBER.split(item):
            is_seen = member.startswith("pub ") or block.group("trait") and not re.match(r"ghost (?:view|invariant|use)\b", member)
            if is_seen:
                yield clauses(member)


def libraries():
    return sorted(path.split(os.sep)[-3] for path in glob.glob(os.path.join(TOP, "crates", "*", "src", "lib.rt")))


class Specs:
    """The definitions of all libraries, with what each cites, and those that are promised."""

    def __init__(self):
        self.files = {crate: {module: read(path) for module, path in files_of(crate, "specs", ".antt") if module != "Lib"} for crate in libraries()}
        self.definitions = {(crate, module): definitions(text) for crate, files in self.files.items() for module, text in files.items()}
        self.homes, self.cites = {}, {}
        for (crate, module), found in self.definitions.items():
            for one in found:
                self.homes.update({(crate, module, name): (crate, module, one.name) for name in [*one.constructors, one.name]})
        for (crate, module), found in self.definitions.items():
            own = {name: (crate, module, name) for one in found for name in [*one.constructors, one.name]}
            named = {**imports(self.files[crate][module]), **own}
            for one in found:
                self.cites[crate, module, one.name] = self.at_home(cited("\n".join(one.lines), named))
        self.promised = self.closed(self.first_promised())

    def at_home(self, names):
        return {self.homes[name] for name in names if name in self.homes}

    def first_promised(self):
        first = set()
        for crate in self.files:
            for text, named in promises(crate):
                first |= self.at_home(cited(text, named))
        for path in glob.glob(os.path.join(TOP, "crates", "*", "*", "**", "*"), recursive=True):
            crate, part = os.path.relpath(path, os.path.join(TOP, "crates")).split(os.sep)[:2]
            if part in ("src", "specs", "proofs") and path.endswith((".rt", ".antt")):
                text = read(path)
                foreign = {name: there for name, there in imports(text).items() if there[0] != crate}
                first |= self.at_home(there for there in foreign.values() if there[2])
                if path.endswith("Lib.antt"):  # it passes on whole files
                    first |= {home for home in self.homes.values() if (*home[:2], None) in foreign.values()}
                first |= self.at_home(cited(text, {name: there for name, there in foreign.items() if not there[2]}))
        return first

    def closed(self, names):
        found, left = set(), set(names)
        while left:
            name = left.pop()
            found.add(name)
            left |= self.cites[name] - found
        return found

    def parts(self, crate, module):
        """The names of a file that are promised, and those that are not, in their order."""
        names = [one.name for one in self.definitions[crate, module]]
        return [name for name in names if (crate, module, name) in self.promised], [name for name in names if (crate, module, name) not in self.promised]


def misplaced(specs):
    """What is wrong with the files: the definitions that stand on the other side."""
    for crate, module in specs.definitions:
        is_inside = module.startswith("inside.")
        for name in specs.parts(crate, module)[0 if is_inside else 1]:
            yield "%s: %s of specs/%s is %s" % (crate, name, module.replace(".", "/"), "promised" if is_inside else "inside")


def list_files(specs, crates):
    for crate, module in specs.definitions:
        seen, unseen = specs.parts(crate, module)
        if (seen or unseen) and (not crates or crate in crates):
            print("%s specs/%s: %s" % (crate, module.replace(".", "/"), "promised" if not unseen else "inside" if not seen else "mixed; inside are " + ", ".join(unseen)))


def main():
    specs = Specs()
    if sys.argv[1:2] == ["--list"]:
        list_files(specs, sys.argv[2:])
        return 0
    if sys.argv[1:]:
        sys.exit(__doc__)
    wrong = list(misplaced(specs))
    print("\n".join([*wrong, "inside: %s" % ("%d are not as they are told" % len(wrong) if wrong else "as expected")]))
    return 1 if wrong else 0


if __name__ == "__main__":
    sys.exit(main())
