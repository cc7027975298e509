"""Guests that go to the edge of a limit, and over it."""

from guests import one_burst

# A turn of this loop is 5 instructions, and what is before it and its beginning are 3.
COUNT_DOWN = """(local $i i32) i32.const 1999999 local.set $i
  loop local.get $i i32.const 1 i32.sub local.tee $i br_if 0 end """
NOPS = 10_000_000 - 3 - 5 * 1_999_999
LOOP = "loop br 0 end"


def pushed(count):
    return "i32.const 1 " * count + "drop " * count


def locals_of(count):
    return "(local %s)" % ("i64 " * count)


# Each local is 0 at first, and is not when the function returns.
def fresh(parameters, count):
    types = ["i64" if k % 3 else "i32" for k in range(count)]
    tested = "".join(
        "local.get %d %s.eqz if else unreachable end %s.const 7 local.set %d " % (parameters + k, kind, kind, parameters + k)
        for k, kind in enumerate(types)
    )
    return "(type $fresh (func (param %s)))(func $fresh (type $fresh) (local %s) %s)" % ("i64 " * parameters, " ".join(types), tested)


def calls_fresh(parameters):
    given = "i64.const -1 " * parameters
    return (given + "call $fresh ") * 3 + (given + "i32.const 0 call_indirect (type $fresh) ") * 3


IN_TABLE = "(table 1 funcref) (elem (i32.const 0) $fresh)"

ROWS = (
    ("10,000,000 instructions", "", COUNT_DOWN + "nop " * NOPS, "finished"),
    ("10,000,001 instructions", "", COUNT_DOWN + "nop " * (NOPS + 1), "trapped spent"),
    ("an endless loop", "", LOOP, "trapped spent"),
    ("16,384 operands", "", pushed(16384), "finished"),
    ("16,385 operands", "", pushed(16385), "trapped exhausted"),
    ("4,000 locals and 12,384 operands", "", locals_of(4000) + pushed(12384), "finished"),
    ("4,000 locals and 12,385 operands", "", locals_of(4000) + pushed(12385), "trapped exhausted"),
    ("990 blocks and a branch out of them", "", "block " * 990 + "br 989 " + "end " * 990, "finished"),
    ("1,000 blocks and 15,384 operands", "", "block " * 1000 + pushed(15384) + "end " * 1000, "finished"),
    ("1,000 blocks and 15,385 operands", "", "block " * 1000 + pushed(15385) + "end " * 1000, "trapped exhausted"),
    ("calls of 4,096 locals, four deep", "(func $f %s)(func $g %s call $f)(func $h %s call $g)(func $i %s call $h)" % ((locals_of(4096),) * 4), "call $i", "finished"),
    ("calls of 4,096 locals, four deep, and an operand", "(func $f %s)(func $g %s call $f)(func $h %s call $g)(func $i %s call $h)" % ((locals_of(4096),) * 4), "i32.const 1 call $i drop", "trapped exhausted"),
    ("endless calls of 4,000 locals", "(func $f %s call $f)" % locals_of(4000), "call $f", "trapped exhausted"),
    ("one local, fresh at each call", IN_TABLE + fresh(1, 1), calls_fresh(1), "finished"),
    ("4 arguments and 4 locals, fresh at each call", IN_TABLE + fresh(4, 4), calls_fresh(4), "finished"),
    ("5 arguments and 300 locals, fresh at each call", IN_TABLE + fresh(5, 300), calls_fresh(5), "finished"),
    (
        "fresh locals behind 1,048,576 that others declare",
        IN_TABLE + "(func %s)" % locals_of(4096) * 256 + fresh(2, 70),
        calls_fresh(2),
        "finished",
    ),
    (
        "a memory of 256 pages",
        "(memory 0)",
        """(drop (memory.grow (i32.const 256)))
        (if (i32.ne (memory.grow (i32.const 1)) (i32.const -1)) (then unreachable))
        (if (i32.ne (memory.grow (i32.const 0)) (i32.const 256)) (then unreachable))
        (i32.store (i32.const 16777212) (i32.const 7))""",
        "finished",
    ),
)


def table(script):
    script.title("Guests at the edge of a limit")
    for name, declared, body, end in ROWS:
        one_burst(script, name, declared, body, end)
