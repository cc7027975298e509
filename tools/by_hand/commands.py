"""The words that the session answers itself, or by several lines of the debugger; all others are the debugger's."""

from by_hand import framing, keeping, looking, making, moving, pointing, reading, switches
from by_hand.words import HELP, help_for


def show_help(session, rest, form):
    for line in [line for word in rest.split() for line in help_for(word)] or HELP.rstrip("\n").split("\n"):
        session.print(line)


# Each gets the session, what comes after the word, and the form after a slash, as /x.
COMMANDS = {
    "help": show_help,
    "print": looking.show_value,
    "bytes_at": looking.show_bytes,
    "threads": looking.show_threads,
    "backtrace": framing.show_frames,
    "frame": framing.show_frame,
    "up": framing.up,
    "down": framing.down,
    "finish": framing.finish,
    "reverse-finish": framing.reverse_finish,
    "names": looking.show_names,
    "ptype": reading.show_type,
    "whatis": reading.show_type_in_short,
    "list_here": reading.show_source_here,
    "cast": reading.cast,
    "where": looking.show_where,
    "when": looking.show_position,
    "process": looking.choose_process,
    "display": looking.display,
    "undisplay": looking.undisplay,
    "goto": moving.go_to,
    "continue": moving.go_on,
    "next": moving.next_of_thread,
    "reverse-next": moving.next_back,
    "watch": pointing.watch,
    "break": pointing.break_at,
    "tbreak": pointing.break_once,
    "condition": pointing.put_condition,
    "ignore": pointing.ignore,
    "enable": pointing.enable,
    "disable": pointing.disable,
    "do": pointing.attach,
    "commands": pointing.begin_commands,
    "list": pointing.show_points,
    "delete": pointing.delete,
    "set": pointing.set_variable,
    "rcontinue": pointing.go_back_to_point,
    "from_start": pointing.go_to_start,
    "save": keeping.save,
    "script": keeping.save_script,
    "load": keeping.load,
    "cut": making.cut,
    "page": making.page,
    "picture": making.picture,
    "schedule": making.schedule,
    "bytes": switches.switch_bytes,
    "sent": switches.switch_sent,
}
