"""The texts of the help: the page of all commands, and the page of one."""
import os

from commands import COMMANDS, OWN

HERE = os.path.dirname(os.path.realpath(__file__))
HEAD = """\
friday: record a distributed program once, replay and debug it as often as you like

usage: friday COMMAND ...             friday COMMAND --help explains one command
"""
FOOT = """\
MODULE LOG .. is one pair for each process: its WebAssembly module, then its log.
--images also writes each process's final memory to NAME.mem and its output to NAME.out.
"""
END = """\
For a terminal:   tools/session MODULE LOG ..     the debugger with names, history, Ctrl-C
Try it:           cd examples/lost_update; ../../tools/session ../bank/bank.wasm north.log \\
                  ../bank/bank.wasm south.log ../bank/bank.wasm east.log
Start with docs/tutorial.md. Error messages are explained in docs/refusals.md.
"""


def page():
    commands = "".join("  %-34s  %s\n" % ("%s %s" % (command.name, command.words), command.about) for command in COMMANDS.values())
    own = "".join("  %-34s  %s\n" % (("friday " + word), about) for word, about in OWN.items())
    return "\n".join((HEAD, commands, FOOT, own, END))


def text_of(command):
    """What the page of a command says below its usage."""
    with open("%s/help/%s.txt" % (HERE, command.name), encoding="utf-8") as file:
        return file.read()


def page_of(name):
    command = COMMANDS[name]
    return "usage: %s\n\n%s" % (command.usage, text_of(command))
