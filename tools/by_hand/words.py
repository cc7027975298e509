"""The words that are typed by hand, and the lines of the debugger that they stand for."""

import re

SHORT = {
    "b": "break", "br": "break", "tb": "tbreak", "c": "continue", "cont": "continue", "fg": "continue", "n": "next",
    "s": "step", "si": "step", "stepi": "step", "ni": "step", "nexti": "step", "u": "until", "p": "print", "inspect": "print",
    "d": "delete", "del": "delete", "e": "events", "g": "goto", "h": "help", "?": "help", "l": "list", "q": "quit", "exit": "quit",
    "t": "threads", "w": "watch", "x": "bytes_at", "rc": "rcontinue", "reverse-continue": "rcontinue", "rs": "back",
    "rn": "reverse-next", "rsi": "back", "rni": "back", "reverse-step": "back", "reverse-stepi": "back", "reverse-nexti": "back",
    "run": "from_start", "r": "from_start", "start": "from_start", "source": "load", "bt": "backtrace",
    "cond": "condition", "dis": "disable", "en": "enable", "inferior": "process", "f": "frame", "fin": "finish",
}
INFO = {"b": "list", "break": "list", "breakpoints": "list", "watchpoints": "list", "threads": "threads", "t": "threads",
        "stack": "backtrace", "s": "backtrace", "frame": "frame", "f": "frame", "inferiors": "process", "variables": "names", "var": "names", "display": "display", "source": "list_here", "line": "list_here"}
# What an empty line does again: looking, and going on.
REPEATED = ("next", "reverse-next", "up", "down", "finish", "step", "back", "continue", "rcontinue", "events", "list", "list_here", "print", "bytes_at", "threads", "where", "goto", "vars", "mem", "display")

HELP = """\
moving      s [N]  c [N]  g K    step, continue (N times), goto (also +N and -N); back [N] and rcontinue go back; run goes to position 0
            n [N]  rn [N]        next: on to the next event of this thread, unless a point stops it before; back to the one before it
            an empty line does the last move again; Ctrl-C pauses a walk where it is; one that goes back ends where it began
looking     p NODE.PATH          a variable by its name, also a whole struct or array: p a.peers[1].seen  p a.head->next
            p EXPR  p/x EXPR     any expression: p sum(@_.{served}) + 1; /x /o /t /c /d say how; & | ^ ~ << >> ?: are taken too
            p *PATH  p PATH@3    what a pointer points to, three in a row; p &PATH, sizeof(PATH), (struct T *)EXPR
            process NODE         names without a process are of this one; without a word that of the last event again
            x NODE.PATH          the bytes of a variable; x NODE ADDRESS LENGTH any bytes; x/4xw ADDRESS numbers
            e [N]  t [NODE]      the last events; where threads stand, of all processes without a name
            where  when          the position with the functions that its thread is in; only the position
            bt [NODE] [THREAD]   the functions that a thread is in, the innermost first; without words that of the last event
            frame N  up  down    choose one of them, whose source `list .` shows; finish goes on to the first event after which the thread
                                 has left it, reverse-finish back to the last one after which it was not in it yet
            names [NODE] [PART]  the variables of a process; ptype and whatis their types; bytes on|off shows what events sent and took
            display EXPR         shows it at each stop; undisplay N;  cast CALL struct T shows datagrams as a struct
            list FILE:LINE       the source, also list FUNCTION and list . for where the last event's thread stands
points      w EXPR [if EXPR]     stops where the value changes;  b NODE CALL [if EXPR] or b * CALL stops at a call; tbreak does so once
            b NODE.FUNCTION      at calls in a function, b FILE:LINE in a line, of guests that guests/build --lines made
            condition W EXPR     enable W, disable W, delete W (several, or all), ignore W N;  l lists them
            do W PROGRAM         runs a program where point W fires; commands W and lines up to end: what to type there
            set $NAME EXPR       keeps a value; vars shows them
keeping     save FILE  load FILE points, programs and variables, as they were typed
            script FILE          all lines that were sent, for friday debug;  sent on|off shows them
            cut [FOLDER]         logs with what the event here needs and nothing else; page FILE, picture FILE, schedule FILE of the recording
            q                    ends the session
gdb's words break, next, info break, info threads, reverse-step and so on are understood. help WORD tells of one; docs/gdb.md has a table.
"""

# Words that the page tells in its text.
IN_TEXT = ("finish", "reverse-finish", "step", "continue", "goto", "back", "rcontinue", "from_start", "run", "ptype", "whatis", "bytes", "undisplay", "cast", "tbreak", "enable",
           "disable", "delete", "ignore", "commands", "list", "vars", "sent", "page", "picture", "schedule", "quit")

# What the words of gdb that are not done here are about, and what to type in their place.
INSTEAD = {
    "until": "there are no lines to go to: `tbreak FILE:LINE` and `c` go to a call in a line, `goto K` to a position",
    "jump": "a replay makes what was recorded: `goto K` goes to a position",
    "call": "a replay makes what was recorded, so no function is called: `p` reads what is in memory",
    "signal": "which signals came was recorded: `e` shows them by `!`, and a schedule sends others",
    "thread": "all threads are shown by `t`; `process NODE` says whose names are meant",
    "rwatch": "reads of memory are not seen: `w EXPR` stops where a value changes",
    "hbreak": "`b` makes all points, and 64 are held at most",
    "checkpoint": "each position is one: note its number, and `goto K` goes there",
    "restart": "`goto K` goes to each position, and `run` to the beginning",
    "record": "the recording is there already: `c` and `rc` go both ways",
    "shell": "a shell runs beside this session",
    "python": "`script FILE` keeps the lines for friday debug, which programs can ask",
    "show": "`vars` shows variables, `l` points, `help` the words",
    "disassemble": "instructions are not shown: wasm-objdump -d shows those of a module",
    "printf": "`do W say \"..\", EXPR` says a line where a point fires, and `p` a value",
    "output": "`p EXPR` prints a value",
    "attach": "a session is of the logs that it was given",
    "kill": "`q` ends the session",
    "clear": "`l` lists the points, and `d W` deletes one",
}
ALIKE = {
    "stepi": "step", "advance": "until", "return": "call", "handle": "signal", "awatch": "rwatch", "thbreak": "hbreak",
    "target": "attach", "file": "attach", "core": "attach", "detach": "kill", "echo": "printf", "dprintf": "printf", "python-interactive": "python",
    "make": "shell", "!": "shell", "edit": "shell", "trace": "rwatch", "catch": "hbreak", "symbol-file": "attach", 
    "info locals": "locals", "info args": "locals", "info registers": "disassemble", "info signals": "signal",
}
INSTEAD["locals"] = "local variables are not told: `names NODE` has the variables in memory; keep what you want to see in a static one, LIBLOG_WATCHED"
INSTEAD["info"] = "info has break, threads, frame, stack, variables, display, inferiors and source; `names NODE` lists variables, and `t` says which calls threads wait at"


def expanded(line):
    """The line with a long word in front, and what comes after it; `p/x` gives `print` and `/x`."""
    found = re.match(r"\s*([A-Za-z_?-]+)(/\w+)?(?:\s+|$)(.*)", line, re.S)
    if not found:
        return "", "", line.strip()
    word, form, rest = found[1], found[2] or "", found[3].strip()
    if word in ("info", "i"):
        kind, _, behind = rest.partition(" ")
        return INFO.get(kind, "info"), "", behind.strip() if kind in INFO else rest
    if word == "commands":
        # A program behind the number is one of the debugger, and lines of the session follow otherwise.
        return "do" if re.match(r"(\d+|\.)\s+\S", rest) else "commands", form, rest
    return SHORT.get(word, word), form, rest


def instead_of(word, rest=""):
    """What to do in place of a word of gdb's that is none here, or None."""
    word = ALIKE.get("%s %s" % (word, rest.partition(" ")[0]), ALIKE.get(word, word))
    return INSTEAD.get(word)


def help_for(word):
    """What the page says of a word, or what to do in its place."""
    long = SHORT.get(word, word)
    spellings = {word, long, *(short for short, meant in SHORT.items() if meant == long)}
    told = [line for line in HELP.splitlines() if spellings & set(re.findall(r"[\w-]+", line[12:] if long in IN_TEXT else line[12:33]))]
    lines = ["%s also: %s" % (word, ", ".join(sorted(spellings - {word})))] if len(spellings) > 1 and told else []
    advice = instead_of(word)
    return ([advice] if advice else told + lines) or ["%s is no word here: help lists them, docs/gdb.md has gdb's" % word]


def condition_of(rest):
    """What comes before `if`, and the condition after it, or nothing; `if` is no word of an expression."""
    front, word, behind = rest.partition(" if ")
    return front.strip(), behind.strip() if word else ""
