"""Why friday would refuse a module: the reason with its number, what stands in the way, where, and what helps."""
import os
import re
import subprocess
import sys

from instructions import faults_of
from strict_reader import Malformed, StrictModule
from validation import Invalid, check_body, faults_of_parts, gather, has_floats_around, segments_that_end_past
from wasm_reader import Module, read_module

TOOLS = os.path.join(os.path.dirname(os.path.dirname(os.path.abspath(__file__))), "tools")
sys.path.append(TOOLS)

from logs.format import CALLS  # noqa: E402 (it lies beside the tools)

DWARFDUMP = os.environ.get("LLVM_DWARFDUMP", "llvm-dwarfdump")
MOST_BYTES, MOST_PAGES, MOST_ELEMENTS, MOST_LOCALS = 4_194_304, 256, 65_536, 4_096
# So many places of one kind are told.
MOST_TOLD = 3
WIDTHS = {"i": "i32", "l": "i64"}
HELP = {
    "float": "guests/lower makes whole numbers of them, as guests/build does",
    "bulk-memory": "guests/lower takes them out, if they copy or fill; or compile with -mcpu=mvp or -mno-bulk-memory, and libraries too",
    "reference-types": "guests/lower takes calls at length out; or compile and link with -mcpu=mvp or -mno-reference-types",
    "multivalue": "compile with -mcpu=mvp, or -mno-multivalue",
    "tail-call": "compile with -mcpu=mvp, or -mno-tail-call",
    "simd128": "compile with -mcpu=mvp, or -mno-simd128",
    "bytes": "it is cut short or changed, or not of this version: build it again",
    "rules": "it was changed by hand, or by a program that is wrong: build it again without that",
    "room": "give the memory or the table more at first, as wasm-ld --initial-memory does",
    "atomics": "compile with -mcpu=mvp, or -mno-atomics; threads of friday are those of liblog",
}


def faults(data, path, size=None, origin=lambda at: at):
    """The lines for each fault of the module's bytes, those first that friday finds first. `path` is a file with its debug information,
    without which the module may have another size; `origin` tells where in that file's code a place of the code is."""
    size = len(data) if size is None else size
    if size > MOST_BYTES:
        yield "TooLarge: it has %d bytes, and at most %d can be; build without debug information, or with -Os" % (size, MOST_BYTES)
    if data[:8] != b"\0asm\1\0\0\0":
        yield "1 Malformed: it is no WebAssembly module of version 1"
        return
    found, module = [], Module()
    try:
        module = read_module(data)
    except IndexError:
        # The bytes end before their time: the strict reader says where.
        pass
    for part in (faults_of_code(module, path, origin), faults_of_form(module), faults_of_imports(module), faults_of_limits(module), faults_of_start(module)):
        try:
            found += part
        except IndexError:
            # It names what is not there, which the rules below find.
            pass
    if not any(line.startswith("1 ") for line in found):
        found += faults_by_rules(data, path, origin, module.names)
    yield from sorted(found, key=lambda line: line[0])


def faults_by_rules(data, path, origin, names):
    """What WebAssembly 1.0 does not spell, or does not hold valid."""
    try:
        module = StrictModule(data)
    except Malformed as fault:
        yield "1 Malformed: at byte %d: %s; %s" % (fault.at, fault, HELP["bytes"])
        return
    gather(module, data)
    if has_floats_around(module):
        yield "2 HasFloat: a global, an import or a segment begins with floats; %s" % HELP["float"]
    untyped = list(faults_of_parts(module))
    if all(kind < len(module.types) for kind in module.all_kinds):
        untyped += untyped_bodies(module, path, origin, names)
    for what in untyped[:MOST_TOLD]:
        yield "4 Untyped: %s; %s" % (what, HELP["rules"])
    for kind, number, begin, end, room in segments_that_end_past(module) if not untyped else ():
        yield "7 BadSegment: its %s segment %d goes from %d to %d, and there are %d; %s" % (kind, number, begin, end, room, HELP["room"])


def untyped_bodies(module, path, origin, names):
    for place in range(len(module.bodies)):
        number = len(module.all_kinds) - len(module.kinds) + place
        try:
            check_body(module, place)
        except Invalid as fault:
            called = names.get(number, "number %d" % number)
            yield "in function %s%s: %s" % (called, line_of(path, origin(fault.at - module.code_at)), fault)


def faults_of_code(module, path, origin):
    """Instructions that 1.0 without floats has not, by their feature, with the functions and lines."""
    found = {}
    for function in module.functions:
        for at, feature, name in faults_of(function):
            found.setdefault(feature, []).append((function, at, name))
    for feature, places in found.items():
        reason = "2 HasFloat" if feature == "float" else "1 Malformed"
        told = "; ".join(place_of(module, path, origin, *place) for place in places[:MOST_TOLD])
        more = "; and %d more" % (len(places) - MOST_TOLD) if len(places) > MOST_TOLD else ""
        what = "floats" if feature == "float" else "the feature %s came after 1.0" % feature
        yield "%s: %s: %s%s; %s" % (reason, what, told, more, HELP[feature])


def place_of(module, path, origin, function, at, name):
    called = module.names.get(function.number, "number %d" % function.number)
    return "%s in function %s%s" % (name, called, line_of(path, origin(at)))


def line_of(path, at):
    """The source line of a place in the code section, where the debug information tells."""
    try:
        words = [DWARFDUMP, "--lookup=%d" % at, path]
        text = subprocess.run(words, stdout=subprocess.PIPE, stderr=subprocess.DEVNULL, text=True, errors="replace").stdout
    except OSError:
        return ""
    found = re.search(r"Line info: file '(.*?)', line (\d+)", text)
    return ", %s:%s" % (os.path.basename(found[1]), found[2]) if found else ""


def faults_of_form(module):
    if 12 in module.sections:
        yield "1 Malformed: it counts its data segments, as bulk-memory has it; %s" % HELP["bulk-memory"]
    for kind, flags in module.segments:
        if flags:
            yield "1 Malformed: its %s segments are of a later form; %s" % (kind, HELP["bulk-memory"])
    for taken, given in module.types:
        if any(type_ in ("f32", "f64") for type_ in taken + given):
            yield "2 HasFloat: a function takes or gives floats: (%s) -> (%s); %s" % (", ".join(taken), ", ".join(given), HELP["float"])
        if len(given) > 1:
            yield "1 Malformed: a function gives %d results; %s" % (len(given), HELP["multivalue"])
    if 8 in module.sections and module.start is not None and module.start < module.imported():
        yield "6 NoStart: its start section names an import; leave the start section out"
    if any(type_ in ("f32", "f64") for type_ in module.globals):
        yield "2 HasFloat: a global is a float; %s" % HELP["float"]


def faults_of_imports(module):
    calls = {call.name: (tuple(WIDTHS[kind] for kind in call.arguments), tuple(WIDTHS[kind] for kind in call.result)) for call in CALLS[1:]}
    for place, name, kind, what in module.imports:
        if kind != 0 or place != "liblog":
            hint = "a function is declared and nowhere defined" if place == "env" else "only calls of liblog can be imported"
            if place.startswith("wasi"):
                hint = "it is of a libc for WASI: docs/guests.md has what a guest can use"
            yield "3 BadImport: it imports %s.%s; %s" % (place, name, hint)
        elif name not in calls:
            yield "3 BadImport: liblog has no call %s" % name
        elif what >= len(module.types):
            yield "3 BadImport: liblog.%s is of a type that is not there" % name
        elif module.types[what] != calls[name]:
            yield "3 BadImport: liblog.%s is declared with another type: (%s) -> (%s)" % (name, *map(", ".join, module.types[what]))


def faults_of_limits(module):
    for flags, least, most in module.memories:
        if flags > 1:
            yield "1 Malformed: its memory is shared or of 64 bits; %s" % HELP["atomics"]
        if least > MOST_PAGES:
            yield "5 OverLimit: its memory begins with %d pages, and at most %d can be: make large arrays smaller" % (least, MOST_PAGES)
    for _, (_, least, _) in module.tables:
        if least > MOST_ELEMENTS:
            yield "5 OverLimit: its table has %d elements, and at most %d can be" % (least, MOST_ELEMENTS)
    for function in module.functions:
        count = sum(count for count, _ in function.locals) + len(module.type_of(function.number)[0])
        if count > MOST_LOCALS:
            called = module.names.get(function.number, "number %d" % function.number)
            yield "5 OverLimit: function %s has %d parameters and locals, and at most %d can be" % (called, count, MOST_LOCALS)


def faults_of_start(module):
    kind, number = module.exports.get("_start", (None, 0))
    if kind is None:
        yield "6 NoStart: it exports no _start; link with -Wl,--export=_start, and do not make the function static"
    elif kind != 0 or number < module.imported():
        yield "6 NoStart: its export _start is no function of its own"
    elif module.type_of(number) != ((), ()):
        yield "6 NoStart: _start takes or gives something: it is void _start(void)"
