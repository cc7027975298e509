#!/usr/bin/env python3
"""Lists the public names of the crates that have two homes or two meanings, and the laws that no comment tells in words, and fails
where there is one.

check_words.py [CRATE ..]       (all crates, if none is given)

No other crate can see what a program has, so only libraries are read. Names are those of public definitions in specs/ and of public functions, types, traits and constants in src/. Methods, fields and
constructors are not among them, since they are read with their type. A name has two homes where two crates define it, or one
crate's specs do so twice. A definition and the code that it describes have one meaning: that is so where the clauses of a function
cite the definition, and where a file ties a type to the definition that contracts see of it. `tools/names` tells where names are.
"""

import sys
from collections import defaultdict

from tools_path import TOP  # before the modules of the tools, which it lets be found
from definitions.laws import laws_of
from definitions.names import libraries, names_of

assert TOP
# Names of two crates that know nothing of each other, each of which hands out its type to callers under that name.
TWO_HOMES = {"Status": {"command_run", "coop_threads"}, "Trap": {"wasm_num", "wasm_types"}}

def meanings(homes):
    """The homes of a name, those of one meaning together: a definition with the code that cites it."""
    groups = [[home] for home in homes if not home.is_code]
    for home in homes:
        if not home.is_code:
            continue
        own = [group for group in groups if group[0].crate in home.cited]
        (own[0] if own else groups.append([]) or groups[-1]).append(home)
    return groups


def main():
    crates, chosen = libraries(), sys.argv[1:]
    unknown = set(chosen) - set(crates)
    if unknown:
        sys.exit("no crate is named %s" % ", ".join(sorted(unknown)))
    names = defaultdict(list)
    for crate in crates:
        for name, home in names_of(crate):
            names[name].append(home)
    listed = 0
    for name, homes in sorted(names.items()):
        groups = meanings(homes)
        if len(groups) > 1 and {home.crate for home in homes} == TWO_HOMES.get(name):
            continue
        if len(groups) > 1 and (not chosen or any(home.crate in chosen for home in homes)):
            listed += 1
            print("%s: %s" % (name, "; ".join(", ".join(map(str, group)) for group in groups)))
    stale = sorted(name for name in TWO_HOMES if len(meanings(names[name])) < 2)
    wrong = ["%s has no two homes, and is among those that may" % name for name in stale]
    wrong += ["%s: no comment says what the law %s says" % (crate, law) for crate in crates for law, words in laws_of(crate) if not words]
    print(*wrong, sep="\n", end="\n" if wrong else "")
    print("words: %s" % ("as expected" if not listed + len(wrong) else "%d names have two homes or two meanings, %d laws or names are not as they are told" % (listed, len(wrong))))
    return 1 if listed or wrong else 0


if __name__ == "__main__":
    sys.exit(main())
