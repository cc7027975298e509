"""The debugger: where its lines go, and what they show of events, threads and memory."""

import guests, logs
from modules import Guest, LEAST, module, start
from pairs import BEGIN, Log, echoes, ping_and_pong, put, sent
from script import digits
from sessions import ALONE, PAIRS, PLACES, alone, events, files, session
from threads import calls, guest

# The lines of the first session, and what follows from the logs.
FIRST = (
    ("step 4", PLACES[4]),
    ("mem pong 64 4", "01000000"),
    ("threads pong", "pong running", "0 at send 0 64 4"),
    ("events 2", *events(3, 4)),
    ("goto 3", PLACES[3]),
    ("print @pong.u32[64] + @pong.size", "1"),
    ("mem pong 65535 2", "undef"),
    ("print 1 / 0", "undef"),
    ("# what has no answer", ),
    ("", ),
    (" \t ", ),
    ("\t# nothing", ),
    ("step", PLACES[4]),
)

MOVES = (
    ("step", PLACES[1]),
    ("step 0", PLACES[1]),
    ("step 1", PLACES[2]),
    ("goto 2", PLACES[2]),
    ("step 9", PLACES[11]),
    ("step", PLACES[11]),
    ("step 0", PLACES[11]),
    ("goto 11", PLACES[11]),
    ("goto 12", "? 7 no such position"),
    ("goto 9223372036854775807", "? 7 no such position"),
    ("step 0", PLACES[11]),
    ("goto 1", PLACES[1]),
    ("step 10", PLACES[11]),
    ("goto 10", PLACES[10]),
    ("step 2", PLACES[11]),
    ("goto 5", PLACES[5]),
    ("goto 12", "? 7 no such position"),
    ("step", PLACES[6]),
    ("goto 0", PLACES[0]),
    ("step 9223372036854775807", PLACES[11]),
    ("goto 0x0a", PLACES[10]),
    ("goto 007", PLACES[7]),
    ("step 0x3", PLACES[10]),
    ("  goto\t4  ", PLACES[4]),
    ("\tstep \t 01\t", PLACES[5]),
)

LISTS = (
    ("events", ),
    ("events 1000", ),
    ("step", PLACES[1]),
    ("events", *events(1, 1)),
    ("events 1", *events(1, 1)),
    ("goto 5", PLACES[5]),
    ("events", *events(1, 5)),
    ("events 5", *events(1, 5)),
    ("events 4", *events(2, 5)),
    ("events 6", *events(1, 5)),
    ("events 1", *events(5, 5)),
    ("step 0", PLACES[5]),
    ("goto 11", PLACES[11]),
    ("events", *events(2, 11)),
    ("events 11", *events(1, 11)),
    ("events 1000", *events(1, 11)),
    ("events 0x2", *events(10, 11)),
    ("events 003", *events(9, 11)),
    ("step", PLACES[11]),
    ("goto 10", PLACES[10]),
    ("events", *events(1, 10)),
)


def moving(script):
    files(script, "lines of a session over ping and pong")
    for rows in (FIRST, MOVES, LISTS):
        session(script, PAIRS, rows)
    # To each position from each other one.
    rows = [("goto %d" % k, PLACES[k]) for start in range(12) for end in range(12) for k in (start, end)]
    session(script, PAIRS, rows)


# At each position: the clock and the number of events of ping, those of pong, and the number at 64 of both.
STANDS = (
    (0, 0, 0, 0, 0, 0),
    (1, 1, 0, 0, 1, 0),
    (1, 1, 1, 1, 1, 0),
    (2, 2, 1, 1, 1, 0),
    (2, 2, 3, 2, 1, 1),
    (2, 2, 4, 3, 1, 1),
    (2, 2, 5, 4, 1, 1),
    (2, 2, 6, 5, 1, 1),
    (7, 3, 6, 5, 2, 1),
    (8, 4, 6, 5, 2, 1),
    (9, 5, 6, 5, 3, 1),
    (10, 6, 6, 5, 3, 1),
)
SHOWN = ("@ping.clock", "@ping.events", "@pong.clock", "@pong.events", "@ping.u32[64]", "@pong.u32[64]")


def standing(position):
    numbers = STANDS[position]
    yield "goto %d" % position, PLACES[position]
    for written, number in zip(SHOWN, numbers):
        yield "print " + written, str(number)
    yield "print sum(@_.u32[64])", str(numbers[4] + numbers[5])
    for name, number in zip(("ping", "pong"), numbers[4:]):
        yield "mem %s 64 4" % name, "%02x000000" % number


def states(script):
    files(script, "what is at each position of ping and pong, forwards, backwards and by leaps")
    for order in (range(12), range(11, -1, -1), [at * 5 % 12 for at in range(12)]):
        session(script, PAIRS, [row for at in order for row in standing(at)])


def memory(script):
    files(script, "ranges of memory")
    rows = (
        ("mem pong 64 4", "00000000"),
        ("goto 4", PLACES[4]),
        ("mem pong 64 1", "01"),
        ("mem pong 63 3", "000100"),
        ("mem ping 64 4", "01000000"),
        ("mem pong 0 256", "00" * 64 + "01" + "00" * 191),
        ("mem pong 0x40 0x4", "01000000"),
        ("mem pong 0064 004", "01000000"),
        ("mem pong 65535 1", "00"),
        ("mem pong 65536 1", "undef"),
        ("mem pong 65280 256", "00" * 256),
        ("mem pong 65281 256", "undef"),
        ("mem pong 65281 255", "00" * 255),
        ("mem pong 4294967296 1", "undef"),
        ("mem pong 4294967360 4", "undef"),
        ("mem pong 9223372036854775807 1", "undef"),
        ("mem pong 9223372036854775807 256", "undef"),
        ("step 0", PLACES[4]),
    )
    session(script, PAIRS, rows)
    bytes_of = '(memory 1 2) (data (i32.const 65530) "\\0a\\ab\\ff\\00Zz")'
    alone(script, "a range that memory grows into, and one of a process that has ended", start("(drop (memory.grow (i32.const 1)))", bytes_of), logs.log([]))
    rows = (
        ("mem a 65530 6", "0aabff005a7a"),
        ("mem a 65530 7", "undef"),
        ("print @a.size", "1"),
        ("step", "at 1: 1 a 0 begin"),
        ("threads a", "a finished"),
        ("mem a 65530 7", "0aabff005a7a00"),
        ("mem a 131071 1", "00"),
        ("mem a 131071 2", "undef"),
        ("print @a.size", "2"),
        ("goto 0", "at 0"),
        ("mem a 65530 7", "undef"),
        ("print @a.size", "1"),
    )
    session(script, ALONE, rows)
    alone(script, "ranges where there is no memory, and where it has no page", LEAST, logs.log([]))
    rows = [("mem a %d 1" % at, "undef") for at in (0, 1, 65535)] + [("print @a.size", "0"), ("print @a.u8[0]", "undef")]
    session(script, ALONE, rows)
    script.file("a.wasm", digits(start("", "(memory 0)")))
    session(script, ALONE, rows)


# A thread makes each call once and more, and a handler and a second thread that do nothing come in between.
CALLS = (
    ("begin", b""),
    ("note -1", b""),
    ("note -9223372036854775808", b""),
    ("print 0 5 = 5", bytes(5)),
    ("print -1 -1 = -1", b""),
    ("now = -5", b""),
    ("sleep_until -7 = -7", b""),
    ("random 0 2 = 2", b"\xff\1"),
    ("me = 0", b""),
    ("send -1 0 4 = 4", b"\xff\1\0\0"),
    ("send 1 0 0 = 0", b""),
    ("recv 64 4 32 = 2", b"hi"),
    ("try_recv 64 4 32 = -2", b""),
    ("recv 65536 1 -4 = -1", b""),
    ("spawn 0 -1 = 1", b""),
    ("1: begin", b""),
    ("yield", b""),
    ("join 0 = -1", b""),
    ("lock -1 = 0", b""),
    ("unlock -1 = 0", b""),
    ("on_signal 5 0 = 0 ! 5", b""),
    ("on_signal 5 -1 = 0", b""),
    ("thread = 0", b""),
    ("exit -2147483648", b""),
)
RESULTS = {"now": "i64", "sleep_until": "i64", "exit": "", "note": "", "yield": ""}


def of_type(call):
    """The WebAssembly types of a call's arguments, and of its result."""
    return "i64" if call in logs.WIDE else "i32", RESULTS.get(call, "i32")


def imported(call):
    argument, result = of_type(call)
    params = "(param%s)" % (" " + argument) * logs.KINDS[call][1] if logs.KINDS[call][1] else ""
    given = "(result %s)" % result if result else ""
    return '(import "liblog" "%s" (func $%s %s %s))' % (call, call, params, given)


def made(written):
    call, *numbers = written.partition("=")[0].split()
    argument, result = of_type(call)
    done = "(call $%s %s)" % (call, " ".join("(%s.const %s)" % (argument, number) for number in numbers))
    return "(drop %s)" % done if result else done


def caller():
    """The guest that makes the calls."""
    names = sorted(set(logs.KINDS) - {"begin"})
    main = "".join(made(written) for written, _ in CALLS if "begin" not in written)
    nothing = "(table 1 funcref) (elem (i32.const 0) $nothing) (func $nothing (param i32))"
    return module('(module %s (memory 1) %s (func (export "_start") %s))' % ("".join(map(imported, names)), nothing, main))


def every_event():
    return [logs.event(at, *row) for at, row in enumerate(CALLS, 1)]


def shown_event(at, written):
    thread, _, call = written.rpartition(": ")
    return "at %d: %d a %s %s" % (at, at, thread or "0", call)


def pending(at):
    """The call at which thread 0 stands at a position, in its shown form."""
    own = [written for written, _ in CALLS[at:] if ":" not in written]
    return own[0].partition(" =")[0]


def standing_threads(at):
    """What `threads` shows behind so many of the calls."""
    second = CALLS.index(("1: begin", b""))
    others = [] if at < second else ["1 at begin"] if at == second else ["1 ended"]
    return ("a running", "0 at " + pending(at), *others)


def every_call(script):
    alone(script, "each call as an event, and as where a thread stands", caller(), logs.held(every_event(), count=2))
    last = len(CALLS)
    rows = [("threads a", "a running", "0 at begin")]
    for at, (written, _) in enumerate(CALLS, 1):
        stands = ("a exited -2147483648",) if at == last else standing_threads(at)
        rows += [("step", shown_event(at, written)), ("threads a", *stands)]
    rows += [("step", shown_event(last, CALLS[-1][0]))]
    rows += [("events 1000", *(shown_event(at, written)[3:] for at, (written, _) in enumerate(CALLS, 1)))]
    session(script, ALONE, rows)


def threads_and_signals(script):
    kept = guest(calls("spawn 0 7", "lock 1", "yield"), calls("lock 1"))
    alone(script, "threads, one of which ends with a lock", kept, logs.log(["spawn 0 7 = 1", "lock 1 = 0", "1: begin", "yield"]))
    rows = (
        ("goto 5", "at 5: 5 a 0 yield"),
        ("threads a", "a running", "0 ended", "1 at lock 1"),
        ("goto 4", "at 4: 4 a 1 begin"),
        ("threads a", "a running", "0 at yield", "1 at lock 1"),
        ("goto 3", "at 3: 3 a 0 lock 1 = 0"),
        ("threads a", "a running", "0 at yield", "1 at begin"),
        ("goto 2", "at 2: 2 a 0 spawn 0 7 = 1"),
        ("threads a", "a running", "0 at lock 1", "1 at begin"),
        ("goto 1", "at 1: 1 a 0 begin"),
        ("threads a", "a running", "0 at spawn 0 7"),
        ("goto 0", "at 0"),
        ("threads a", "a running", "0 at begin"),
    )
    session(script, ALONE, rows)
    handled = guest(calls("on_signal 5 0", "yield"), calls("thread"))
    alone(script, "a signal that is delivered", handled, logs.log(["on_signal 5 0 = 0 ! 5", "thread = 0", "yield"]))
    rows = (
        ("goto 2", "at 2: 2 a 0 on_signal 5 0 = 0 ! 5"),
        ("threads a", "a running", "0 at thread"),
        ("step", "at 3: 3 a 0 thread = 0"),
        ("threads a", "a running", "0 at yield"),
        ("step", "at 4: 4 a 0 yield"),
        ("threads a", "a finished"),
        ("events 3", "2: 2 a 0 on_signal 5 0 = 0 ! 5", "3: 3 a 0 thread = 0", "4: 4 a 0 yield"),
    )
    session(script, ALONE, rows)
    many = guest(calls(*("spawn 0 %d" % at for at in range(63)), "yield"), "")
    alone(script, "64 threads", many, logs.log(["spawn 0 %d = %d" % (at, at + 1) for at in range(63)] + ["63: begin", "yield"]))
    begun = ["%d at begin" % at for at in range(1, 63)]
    rows = (
        ("goto 64", "at 64: 64 a 0 spawn 0 62 = 63"),
        ("threads a", "a running", "0 at yield", *begun, "63 at begin"),
        ("step 9", "at 66: 66 a 0 yield"),
        ("threads a", "a running", "0 ended", *begun, "63 ended"),
    )
    session(script, ALONE, rows)


def traps():
    """A guest for each kind of trap."""
    divided = "(drop (i32.div_s (i32.const %s) (i32.const %d)))"
    yield "unreachable", start("unreachable")
    yield "zero divisor", start(divided % ("1", 0))
    yield "overflow", start(divided % ("0x80000000", -1))
    yield "memory range", start("(drop (i32.load (i32.const 65533)))", "(memory 1)")
    for kind, index in (("table range", 3), ("empty element", 1), ("type differs", 2)):
        yield kind, start(guests.element(index), guests.FUNCTIONS)
    yield "exhausted", start("call $f", "(func $f call $f)")
    yield "spent", start("loop br 0 end")


def ends(script):
    for kind, made_of in traps():
        alone(script, "the end of a process: trapped " + kind, made_of, logs.log([]))
        session(script, ALONE, (("threads a", "a running", "0 at begin"), ("step", "at 1: 1 a 0 begin"), ("threads a", "a trapped " + kind)))
    for code in (3, -1, 0):
        alone(script, "the end of a process: exited %d" % code, guest(calls("exit %d" % code)), logs.log(["exit %d" % code]))
        session(script, ALONE, (("step 9", "at 2: 2 a 0 exit %d" % code), ("threads a", "a exited %d" % code), ("events 1", "2: 2 a 0 exit %d" % code)))


def no_events(script):
    alone(script, "a log without events", start("", "(memory 2) (global i32 (i32.const 3))"), logs.head())
    rows = (
        ("step", "at 0"),
        ("step 5", "at 0"),
        ("goto 0", "at 0"),
        ("goto 1", "? 7 no such position"),
        ("events", ),
        ("threads a", "a running", "0 at begin"),
        ("print @a.clock", "0"),
        ("print @a.events", "0"),
        ("print @a.size", "2"),
        ("print @a.global[0]", "3"),
    )
    session(script, ALONE, rows)


def some_logs(script):
    ping, pong = ping_and_pong()
    files(script, "pairs in another order, and one of two logs")
    session(script, "debug pong.wasm pong.log ping.wasm ping.log", FIRST)
    rows = (
        ("step", "at 1: 1 pong 0 begin"),
        ("step", "at 2: 3 pong 0 recv 64 16 32 = 4"),
        ("print @pong.clock", "3"),
        ("print count(1)", "1"),
        ("step 9", "at 5: 6 pong 0 send 0 64 4 = 4"),
        ("goto 6", "? 7 no such position"),
        ("print @ping.clock", "? 2 no node"),
        ("threads ping", "? 2 no node"),
        ("mem ping 64 4", "? 2 no node"),
        ("step 0", "at 5: 6 pong 0 send 0 64 4 = 4"),
    )
    session(script, "debug pong.wasm pong.log", rows)
    files(script, "a log that diverges: its events up to there, and all of the others")
    put(script, (pong.changed(2, sent(4, 0, b"\2\0\0\0"), "5 OtherBytes"),))
    rows = (
        ("step 99", "at 8: 10 ping 0 send 1 64 4 = 4"),
        ("events 5", *("%d: %s" % (at, PLACES[was].partition(": ")[2]) for at, was in ((4, 4), (5, 8), (6, 9), (7, 10), (8, 11)))),
        ("threads pong", "pong running", "0 at send 0 64 4"),
        ("print @pong.events", "2"),
        ("goto 9", "? 7 no such position"),
    )
    session(script, PAIRS, rows)
    files(script, "logs of a recording that was stopped in an entry")
    put(script, (ping.cut(2, 0), pong.cut(2, 7)))
    rows = (
        ("step 99", PLACES[4]),
        ("goto 5", "? 7 no such position"),
        ("threads ping", "ping running", "0 at recv 128 4 32"),
        ("threads pong", "pong running", "0 at send 0 64 4"),
        ("print sum(@_.events)", "4"),
    )
    session(script, PAIRS, rows)


def order(script):
    """Events of one clock stand in order of the processes' numbers, and not of the words or of the names."""
    script.case("events of one clock, and names that are words of the shell")
    names = ("sum", "0", "_", "clock")
    given = [Log(4, p, name, [BEGIN], module="pong") for p, name in enumerate(names)]
    script.file("pong.wasm", script.kept("pong"))
    put(script, given)
    at = ["at %d: 1 %s 0 begin" % (p + 1, name) for p, name in enumerate(names)]
    rows = [("step", line) for line in at] + [("threads %s" % name, "%s running" % name, "0 at recv 64 16 32") for name in names]
    rows += [("print @%s.clock" % name, "1") for name in names if name != "_"]
    rows += [
        ("mem _ 0 1", "00"),
        ("mem 0 0 1", "00"),
        ("print @_.clock", "? 2 no node"),
        ("print sum(@_.clock)", "4"),
        ("goto 3", at[2]),
        ("print sum(@_.clock)", "3"),
        ("print @clock.clock + sum(@sum.clock)", "4"),
        ("events", *(line[3:] for line in at[:3])),
    ]
    for words in ((0, 1, 2, 3), (3, 2, 1, 0), (2, 0, 3, 1)):
        session(script, "debug " + " ".join("pong.wasm %s.log" % names[p] for p in words), rows)


def clocks(script):
    late = 2**62
    script.case("a clock that comes of a tag from outside")
    script.file("pong.wasm", script.kept("pong"))
    put(script, (Log(1, 0, "pong", echoes(((0, late), b"\xaa"))),))
    rows = (
        ("goto 2", "at 2: 4611686018427387905 pong 0 recv 64 16 32 = 1"),
        ("print @pong.clock", "4611686018427387905"),
        ("print @pong.clock * 2", "undef"),
        ("step", "at 3: 4611686018427387906 pong 0 send 0 64 1 = 1"),
        ("mem pong 64 2", "aa00"),
    )
    session(script, "debug pong.wasm pong.log", rows)


def set_globals(script):
    told = Guest("globals")
    alone(script, "globals that are set", told.module, logs.log(told.events))
    shown = ("-7", "-9223372036854775808", "12", "undef")
    later = ("-2147483648", "9223372036854775807", "12", "undef")
    rows = []
    for line, numbers in (("goto 0", shown), ("goto 3", shown), ("goto 4", later), ("goto 7", later), ("goto 3", shown)):
        at = int(line[5:])
        place = "at 0" if at == 0 else "at %d: %d a 0 %s" % (at, at, (["begin"] + told.events)[at - 1])
        rows += [(line, place)] + [("print @a.global[%d]" % n, number) for n, number in enumerate(numbers)]
    session(script, ALONE, rows)


def table(script):
    script.title("The debugger")
    for part in (moving, states, memory, every_call, threads_and_signals, ends, no_events, some_logs, order, clocks, set_globals):
        part(script)
