#!/usr/bin/env python3
"""Makes the man page from the help and the statuses of docs/formats.md, and the completion of bash and zsh from the commands.

make.py            (writes the files in made/)
make.py --check    (says which of them are not as they would be written, and ends with 1)
"""
from __future__ import annotations

import argparse
import os
import re
import sys

from asked import number
from commands import COMMANDS, IMAGES, OWN
from help_texts import page, text_of
from page_rows import as_text
from sources import HERE

FOLDER = os.path.join(HERE, "launcher", "made")
FORMATS = os.path.join(HERE, "docs", "formats.md")


# ---- the man page


def roff(text):
    """A line of text with its `code` bold, so that nothing of it is a request of roff."""
    text = text.replace("\\", "\\e").replace("-", "\\-")
    text = re.sub(r"`(.*?)`", r"\\fB\1\\fR", text)
    return "\\&" + text if text.startswith((".", "'")) else text


def statuses():
    """The rows of the table of statuses: the number and when."""
    with open(FORMATS, encoding="utf-8") as file:
        part = file.read().split("\n## Statuses\n", 1)[1]
    for line in part.split("\n"):
        cells = [cell.strip() for cell in re.split(r"(?<!\\)\|", line.strip("|"))]
        if len(cells) == 3 and cells[0].isdigit():
            yield cells[0], as_text(cells[1])


def of_command(command):
    """The entry of a command: its usage, and its page with examples as they stand."""
    yield ".TP"
    yield ".B %s" % roff(command.usage)
    for paragraph in text_of(command).strip("\n").split("\n\n"):
        lines = paragraph.split("\n")
        if all(line.startswith("  ") for line in lines):
            yield from (".sp", ".nf", *(roff(line[2:]) for line in lines), ".fi")
        else:
            yield from ((".sp",) if paragraph != text_of(command).strip("\n").split("\n\n")[0] else ())
            yield from map(roff, lines)


def man_page(has_launcher=True):
    """A release has the program alone, which answers none of the launcher's words."""
    about = page().split("\n", 1)[0].partition(": ")[2]
    lines = [
        '.TH FRIDAY 1 "" "friday %s"' % number(),
        ".SH NAME", "friday \\- %s" % roff(about),
        ".SH SYNOPSIS", ".B friday", ".I COMMAND", "\\&..", *((".br", ".B friday help", "[\\fICOMMAND\\fR]") if has_launcher else ()),
        ".SH DESCRIPTION",
        "friday is a replay debugger for distributed applications. It records a group of 1 to 16 processes, which are",
        "WebAssembly modules, once. From their modules and logs it replays the run, the same each time.",
        ".PP", "MODULE LOG .. is one pair for each process: its module, then its log.",
        ".SH COMMANDS",
    ]
    for command in COMMANDS.values():
        lines += of_command(command)
    for word, text in OWN.items() if has_launcher else ():
        lines += [".TP", ".B friday %s" % roff(word), roff(text[0].upper() + text[1:]) + "."]
    lines += [".SH EXIT STATUS"]
    for status, when in statuses():
        lines += [".TP", ".B %s" % status, roff(when[0].upper() + when[1:]) + "."]
    lines += KEPT if has_launcher else []
    lines += [".SH SEE ALSO", "The pages tutorial.md, recipes.md, debugger.md, formats.md, lines.md, limits.md and refusals.md, which come with friday."]
    return "\n".join(lines) + "\n"


KEPT = [
    ".SH FILES", ".TP", ".I out/", "at the top of the clone: programs that were built, and which one answers",
    ".TP", ".I $XDG_CACHE_HOME/friday, ~/.cache/friday", "the same, if the clone cannot be written",
]


# ---- completion


def files_wanted(command):
    """The endings of the files that a command's words name."""
    wanted = command.wanted
    return "|".join(ending for word, ending in (("MODULE", "wasm"), ("LOG", "log|cut")) if word in wanted)


BASH = """\
# Completion of friday's words for bash: source this file, or put it into the folder of bash-completion. Made by launcher/make.py.
_friday() {
    local word=${COMP_WORDS[COMP_CWORD]} files='' words=''
    if [ "$COMP_CWORD" = 1 ]; then
        mapfile -t COMPREPLY < <(compgen -W '%(verbs)s' -- "$word")
        return
    fi
    case ${COMP_WORDS[1]} in
%(cases)s
    esac
    if [ -n "$words" ] && [ -z "${word##-*}" ]; then
        mapfile -t COMPREPLY < <(compgen -W "$words" -- "$word")
        [ -z "$word" ] || return
    fi
    [ -n "$files" ] || return
    compopt -o filenames 2>/dev/null
    mapfile -t -O "${#COMPREPLY[@]}" COMPREPLY < <(shopt -s extglob; compgen -f -X "!$files" -- "$word"; compgen -d -- "$word")
}
complete -F _friday friday ./friday
"""
ZSH = """\
#compdef friday
# Completion of friday's words for zsh: a folder of fpath has this file as _friday. Made by launcher/make.py.
_friday() {
    local -a verbs
    verbs=(
%(verbs)s
    )
    if (( CURRENT == 2 )); then
        _describe 'command' verbs
        return
    fi
    case $words[2] in
%(cases)s
    esac
}
_friday "$@"
"""


def bash(has_launcher=True):
    cases = ["    help) mapfile -t COMPREPLY < <(compgen -W '%s' -- \"$word\") ;;" % " ".join(COMMANDS)] if has_launcher else []
    for command in COMMANDS.values():
        ending = files_wanted(command)
        files = "*.@(%s)" % ending if ending else "*" if "SCHEDULE" in command.wanted else ""
        words = " ".join([IMAGES] * command.takes_images + ["--help"] * has_launcher)
        cases.append("    %s) words='%s' files='%s' ;;" % (command.name, words, files))
    return BASH % {"verbs": " ".join([*COMMANDS, *(OWN if has_launcher else ())]), "cases": "\n".join(cases)}


def zsh(has_launcher=True):
    about = {**{command.name: command.about for command in COMMANDS.values()}, **(OWN if has_launcher else {})}
    verbs = ["        '%s:%s'" % (name, text.replace("'", "'\\''")) for name, text in about.items()]
    cases = ["    help) compadd %s ;;" % " ".join(COMMANDS)] if has_launcher else []
    for command in COMMANDS.values():
        ending = files_wanted(command)
        options = " ".join([IMAGES] * command.takes_images + ["--help"] * has_launcher)
        files = "_files -g '*.(%s)'" % ending if ending else "_files" if "SCHEDULE" in command.wanted else ":"
        cases.append("    %s) [[ $PREFIX = -* ]] && { compadd -- %s; return }; %s ;;" % (command.name, options, files))
    return ZSH % {"verbs": "\n".join(verbs), "cases": "\n".join(cases)}


MADE = {"friday.1": man_page, "friday.bash": bash, "_friday": zsh}


def main():
    parser = argparse.ArgumentParser(description=__doc__, formatter_class=argparse.RawDescriptionHelpFormatter, allow_abbrev=False)
    parser.add_argument("--check", action="store_true")
    is_check, status = parser.parse_args().check, 0
    for name, make in MADE.items():
        path = os.path.join(FOLDER, name)
        if not is_check:
            with open(path, "w", encoding="utf-8") as file:
                file.write(make())
        elif not os.path.exists(path) or open(path, encoding="utf-8").read() != make():
            print("%s is not as launcher/make.py writes it: run that" % path)
            status = 1
    return status


if __name__ == "__main__":
    sys.exit(main())
