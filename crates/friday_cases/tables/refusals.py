"""Modules that are refused, and modules at the edge that are not. The first refusal that holds is the one that comes."""

import logs
from common import begin, refused, replays, summary
from modules import EXPORTS, FUNCTIONS, LEAST, MAGIC, TYPES, code, function, leb, module, named, section, vector
from script import digits

START = '(func (export "_start"))'


def between(number, *elements):
    """The least module with one more section, of those between the functions' and the exports'."""
    return MAGIC + TYPES + FUNCTIONS + section(number, vector(*elements)) + EXPORTS + code(b"")


def bodied(body):
    """The least module with another body, given in hexadecimal."""
    return MAGIC + TYPES + FUNCTIONS + EXPORTS + code(bytes.fromhex(body))


def with_locals(runs):
    """The least module with these runs of locals, given in hexadecimal."""
    return MAGIC + TYPES + FUNCTIONS + EXPORTS + function(bytes.fromhex(runs + "0b"))


def bytes_of(written):
    return written if isinstance(written, bytes) else module("(module %s)" % written)


MALFORMED = (
    ("no bytes", b""),
    ("seven bytes", MAGIC[:7]),
    ("another mark", b"\0asn" + LEAST[4:]),
    ("version 2", b"\0asm\2\0\0\0" + LEAST[8:]),
    ("version 1 and 2^24", b"\0asm\1\0\0\1" + LEAST[8:]),
    ("a module cut by a byte", LEAST[:-1]),
    ("a byte behind the last section", LEAST + b"\0"),
    ("section 12", LEAST + section(12, b"\0")),
    ("a section twice", MAGIC + TYPES + TYPES + FUNCTIONS + EXPORTS + code(b"")),
    ("sections out of order", MAGIC + TYPES + EXPORTS + FUNCTIONS + code(b"")),
    ("a section that is too long", MAGIC + section(1, vector(b"\x60\0\0") + b"\0") + FUNCTIONS + EXPORTS + code(b"")),
    ("a function with no code", MAGIC + TYPES + FUNCTIONS + EXPORTS),
    ("code of no function", MAGIC + TYPES + code(b"")),
    ("a custom section with no name", LEAST + section(0, b"")),
    ("a custom section whose name is no UTF-8", LEAST + section(0, named(b"\xff"))),
    ("a body with no end", MAGIC + TYPES + FUNCTIONS + EXPORTS + function(b"\0\1")),
    ("a body that ends twice", bodied("0b")),
    ("an `else` with no `if`", bodied("0240 05 0b")),
    ("a block with no end", bodied("0240")),
    ("a block of a type's index", bodied("0200 0b")),
    ("the byte C5 in an instruction's place, which is past the last operator", bodied("4200 c5 1a")),
    ("an operator of a later version, memory.fill", bodied("4100 4100 4100 fc0b00")),
    ("the byte 06 in an instruction's place", bodied("06")),
    ("a constant of six bytes", bodied("41 808080808000 1a")),
    ("a constant of 2^31", bodied("41 8080808008 1a")),
    ("memory.size of another memory", bodied("3f01 1a")),
    ("a value type that is none", MAGIC + section(1, vector(b"\x60\1\x70\0")) + FUNCTIONS + EXPORTS + code(b"")),
    ("locals of 2^32 in all", with_locals("02 ffffffff0f 7f 01 7f")),
    ("2^32 - 1 types, none of which is there", MAGIC + section(1, leb(2**32 - 1))),
    ("1,001 open blocks", bodied("0240" * 1001 + "0b" * 1001)),
)

FLOATS = (
    ("a type that is not used", START + "(type (func (param f32)))"),
    ("a result", START + "(func (result f64) unreachable)"),
    ("a local", '(func (export "_start") (local f32))'),
    ("no local of a float type", with_locals("01 00 7d")),
    ("a global", START + "(global f64 (f64.const 0))"),
    ("a constant", '(func (export "_start") (drop (f32.const 1)))'),
    ("code that is never reached", '(func (export "_start") return (drop (f64.add (f64.const 1) (f64.const 2))))'),
    ("a block", '(func (export "_start") (drop (block (result f32) unreachable)))'),
    ("a load", '(memory 1) (func (export "_start") (drop (f32.load (i32.const 0))))'),
    ("a conversion", '(func (export "_start") (drop (i32.trunc_f32_s (unreachable))))'),
    ("a bad import too", '(import "env" "f" (func (param f32)))' + START),
    ("a bad type too", '(func (export "_start") (f32.const 1))'),
)

IMPORTS = (
    ("another module", '(import "env" "note" (func (param i64)))' + START),
    ("no module", '(import "" "note" (func (param i64)))' + START),
    ("another name", '(import "liblog" "Note" (func (param i64)))' + START),
    ("begin, which is no call", '(import "liblog" "begin" (func))' + START),
    ("another parameter", '(import "liblog" "note" (func (param i32)))' + START),
    ("a result that the call lacks", '(import "liblog" "yield" (func (result i32)))' + START),
    ("no result", '(import "liblog" "now" (func))' + START),
    ("a parameter too many", '(import "liblog" "me" (func (param i32) (result i32)))' + START),
    ("a memory", '(import "liblog" "memory" (memory 1))' + START),
    ("a global", '(import "liblog" "note" (global i64))' + START),
    ("a table", '(import "liblog" "note" (table 1 funcref))' + START),
    ("a bad one behind a good one", '(import "liblog" "yield" (func)) (import "liblog" "wait" (func))' + START),
    ("bad code too", '(import "env" "f" (func)) (func (export "_start") (i32.const 1))'),
    ("a type that is not there", MAGIC + TYPES + section(2, vector(named(b"liblog") + named(b"note") + b"\0\1")) + LEAST[len(MAGIC + TYPES) :]),
)

UNTYPED = (
    ("a value left over", '(func (export "_start") (i32.const 1))'),
    ("no result", '(func (result i32)) (func (export "_start"))'),
    ("an operand of another type", '(func (export "_start") (drop (i32.add (i32.const 1) (i64.const 1))))'),
    ("i32.extend16_s of an i64", '(func (export "_start") (drop (i32.extend16_s (i64.const 1))))'),
    ("the i32 of i64.extend8_s", '(func (export "_start") (drop (i32.eqz (i64.extend8_s (i64.const 1)))))'),
    ("no operand", '(func (export "_start") drop)'),
    ("an operand of the block around it", '(func (export "_start") i32.const 1 block drop end)'),
    ("a local that is not there", '(func (export "_start") (drop (local.get 0)))'),
    ("a global that is not there", '(func (export "_start") (drop (global.get 0)))'),
    ("a function that is not there", bodied("1001")),
    ("a label that is not there", '(func (export "_start") (br 1))'),
    ("a type that is not there", MAGIC + TYPES + section(3, vector(b"\1")) + EXPORTS + code(b"")),
    ("a global that is not mutable", '(global i32 (i32.const 0)) (func (export "_start") (global.set 0 (i32.const 1)))'),
    ("a load with no memory", '(func (export "_start") (drop (i32.load (i32.const 0))))'),
    ("memory.size with no memory", '(func (export "_start") (drop (memory.size)))'),
    ("a greater alignment than the width", MAGIC + TYPES + FUNCTIONS + section(5, vector(b"\0\1")) + EXPORTS + code(bytes.fromhex("4100 2d0100 1a"))),
    ("call_indirect with no table", '(type (func)) (func (export "_start") (call_indirect (type 0) (i32.const 0)))'),
    ("an `if` with a result and no `else`", bodied("4100 047f 4101 0b 1a")),
    ("a `select` of two types", '(func (export "_start") (drop (select (i32.const 1) (i64.const 1) (i32.const 0))))'),
    ("br_table to labels of two types", '(func (export "_start") (block (drop (block (result i32) (br_table 0 1 (i32.const 5) (i32.const 0))))))'),
    ("bad code that is never reached", '(func (export "_start") unreachable (i32.add (i64.const 1) (i32.const 1)) drop)'),
    ("two results", MAGIC + section(1, vector(b"\x60\0\0", b"\x60\0\2\x7f\x7f")) + LEAST[len(MAGIC + TYPES) :]),
    ("an export name twice", START + '(func (export "f")) (memory (export "f") 1)'),
    ("two memories", between(5, b"\0\1", b"\0\1")),
    ("two tables", between(4, b"\x70\0\1", b"\x70\0\1")),
    ("a memory whose maximum is below", between(5, b"\1\2\1")),
    ("a table whose maximum is below", between(4, b"\x70\1\2\1")),
    ("a memory of 65,537 pages", between(5, b"\0" + leb(65537))),
    ("a memory with a maximum of 65,537", between(5, b"\1\1" + leb(65537))),
    ("an initial value of another type", START + "(global i32 (i64.const 0))"),
    ("an initial value that is computed", START + "(global i32 (i32.add (i32.const 1) (i32.const 2)))"),
    ("an initial value that is another global", START + "(global i32 (i32.const 1)) (global i32 (global.get 0))"),
    ("an offset that is a mutable global", START + '(memory 1) (global (mut i32) (i32.const 0)) (data (global.get 0) "a")'),
    ("an offset of 64 bits", START + '(memory 1) (data (i64.const 0) "a")'),
    ("a data segment with no memory", LEAST + section(11, vector(bytes.fromhex("00 41000b 00")))),
    ("an element that is no function", START + "(table 1 funcref) (elem (i32.const 0) 1)"),
    ("a start function with a parameter", START + "(func $f (param i32)) (start $f)"),
    ("a start function that is an import with a parameter", '(import "liblog" "note" (func $f (param i64)))' + START + "(start $f)"),
    ("a memory of 257 pages too", '(memory 257) (func (export "_start") drop)'),
    ("no `_start` too", "(func drop)"),
)

OVER = (
    ("257 pages", "(memory 257)" + START),
    ("65,536 pages", "(memory 65536)" + START),
    ("65,537 elements", "(table 65537 funcref)" + START),
    ("4,097 locals", with_locals("01 8120 7f")),
    ("2^32 - 1 locals", with_locals("01 ffffffff0f 7e")),
    ("a parameter and 4,096 locals", START + "(func (param i32) (local %s))" % ("i64 " * 4096)),
    ("257 pages and no `_start`", "(memory 257)"),
)

NO_START = (
    ("no export", "(func)"),
    ("another name", '(func (export "start"))'),
    ("no function", '(memory (export "_start") 1)'),
    ("a parameter", '(func (export "_start") (param i32))'),
    ("a result", '(func (export "_start") (result i32) (i32.const 0))'),
    ("an import", '(import "liblog" "yield" (func $f)) (export "_start" (func $f))'),
    ("a start section that names an import", '(import "liblog" "yield" (func $f))' + START + "(start $f)"),
    ("a data segment past memory too", '(memory 1) (data (i32.const 65536) "a")'),
)

SEGMENTS = (
    ("a byte past memory", START + '(memory 1) (data (i32.const 0) "a") (data (i32.const 65536) "b")'),
    ("two bytes at the last one", START + '(memory 1) (data (i32.const 65535) "ab")'),
    ("an empty one past the end", START + '(memory 1) (data (i32.const 65537) "")'),
    ("an offset of 2^32 - 1", START + '(memory 1) (data (i32.const -1) "ab")'),
    ("a byte in a memory of no page", START + '(memory 0 1) (data (i32.const 0) "a")'),
    ("a global as its offset", START + '(memory 1) (global i32 (i32.const 65536)) (data (global.get 0) "a")'),
    ("an element past the table", START + "(table 1 funcref) (elem (i32.const 1) 0)"),
    ("two elements at the last one", START + "(table 2 funcref) (elem (i32.const 1) 0 0)"),
    ("an element in a table of none", START + "(table 0 funcref) (elem (i32.const 0) 0)"),
    ("no element past the end", START + "(table 1 funcref) (elem (i32.const 2))"),
    ("an element at 2^31", START + "(table 1 10 funcref) (elem (i32.const 0x80000000) 0)"),
)

ACCEPTED = (
    ("256 pages, and a maximum of 65,536", "(memory 256 65536)" + START),
    ("65,536 elements", "(table 65536 funcref) (elem (i32.const 65535) 0)" + START),
    ("4,096 locals", with_locals("01 8020 7f")),
    ("1,000 open blocks", bodied("0240" * 1000 + "0b" * 1000)),
    ("an empty segment at the end", START + '(memory 1) (data (i32.const 65536) "")'),
    ("no element at the end", START + "(table 1 funcref) (elem (i32.const 1))"),
    ("an empty segment in a memory of no page", START + '(memory 0) (data (i32.const 0) "")'),
    ("a segment at a global of 65,535", START + '(memory 1) (global i32 (i32.const 65535)) (data (global.get 0) "a")'),
    ("an `else` that is empty", bodied("4100 0440 05 0b")),
    ("numbers in more bytes than they need", MAGIC + bytes.fromhex("01 8480808000 01600000") + FUNCTIONS + EXPORTS + bytes.fromhex("0a 8d80808000 01 8780808000 8080808000 01 0b")),
    ("custom sections everywhere", MAGIC + section(0, named(b"a")) + TYPES + section(0, named(b"\xc3\xa4") + b"\xff") + LEAST[len(MAGIC + TYPES) :] + section(0, named(b""))),
    ("code behind `unreachable` that fits anything", '(func (export "_start") return (drop (i32.add)))'),
)


def refusals(script, reason, rows):
    for name, written in rows:
        begin(script, "%s: %s" % (reason, name), digits(bytes_of(written)), "run 0 0\n")
        script.run("record s", *refused("a.wasm", reason))
        script.show("a.log", None)
        script.file("a.log", digits(logs.log([])))
        script.run("replay a.wasm a.log", *refused("a.wasm", reason))


def accepted(script):
    for name, written in ACCEPTED:
        begin(script, "accepted: " + name, digits(bytes_of(written)), "run 0 0\n")
        script.run("record s", "Done", *summary(1, "finished", 1, 0))
        script.show("a.log", logs.log([]))
        replays(script, 1, "finished")


def table(script):
    script.title("Modules that are refused")
    for reason, rows in (
        ("1 Malformed", MALFORMED),
        ("2 HasFloat", FLOATS),
        ("3 BadImport", IMPORTS),
        ("4 Untyped", UNTYPED),
        ("5 OverLimit", OVER),
        ("6 NoStart", NO_START),
        ("7 BadSegment", SEGMENTS),
    ):
        refusals(script, reason, rows)
    script.title("Modules at the edge that are accepted")
    accepted(script)
