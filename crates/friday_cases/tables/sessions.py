"""Sessions of the debugger: lines and what each of them is answered."""

from itertools import chain


from pairs import ping_and_pong, put
from script import digits, text

# What a read gives where it does not matter.
READ = 4096
# The positions of ping and pong, whose events stand in order of their clocks and then of their processes.
PLACES = (
    "at 0",
    "at 1: 1 ping 0 begin",
    "at 2: 1 pong 0 begin",
    "at 3: 2 ping 0 send 1 64 4 = 4",
    "at 4: 3 pong 0 recv 64 16 32 = 4",
    "at 5: 4 pong 0 send 0 64 4 = 4",
    "at 6: 5 pong 0 recv 64 16 32 = 4",
    "at 7: 6 pong 0 send 0 64 4 = 4",
    "at 8: 7 ping 0 recv 128 4 32 = 4",
    "at 9: 8 ping 0 send 1 64 4 = 4",
    "at 10: 9 ping 0 recv 128 4 32 = 4",
    "at 11: 10 ping 0 send 1 64 4 = 4",
)
PAIRS = "debug ping.wasm ping.log pong.wasm pong.log"


def joined(pieces):
    """Pieces behind each other."""
    whole, *rest = pieces
    for piece in rest:
        whole += piece
    return whole


def spelled(line):
    """The bytes of a line, which is given as text or as pieces, without its line feed."""
    return text(line) if isinstance(line, str) else line


def lines_of(rows):
    """The input of a session whose rows are a line and its answers."""
    if all(isinstance(line, str) for line, *_ in rows):
        return text("".join(line + "\n" for line, *_ in rows))
    return joined([spelled(line) + text("\n") for line, *_ in rows])


def answers(rows):
    return ["at 0", *chain.from_iterable(said for _, *said in rows)]


def session(script, command, rows, piece=READ):
    """The lines of these rows are answered as they say, to the end of the input."""
    script.input(piece, lines_of(rows))
    script.run(command, "Done", *answers(rows))


def files(script, name):
    """A case with the modules and the logs of ping and pong."""
    script.case(name)
    for module in ("ping", "pong"):
        script.file(module + ".wasm", script.kept(module))
    put(script, ping_and_pong())


def events(first, last):
    """The events at these positions of ping and pong, as they are listed."""
    return [place[3:] for place in PLACES[first : last + 1]]


def alone(script, name, module, log):
    """A case with a module and the log of its process, which is `a`."""
    script.case(name)
    script.file("a.wasm", digits(module))
    script.file("a.log", digits(log))


ALONE = "debug a.wasm a.log"
