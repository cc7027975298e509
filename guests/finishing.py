"""From a module as it was linked to the one that friday takes: it is lowered, and its names and debug information are taken out."""
import os

from call_places import call_places
from function_places import function_places
from layouts import Layouts
from lowering import Lowering
from module_faults import faults
from place_table import PlaceTable, Refusal, digest_of
from toolchain import DWARFDUMP, run
from wasm_reader import sections_of


def without_custom_sections(data):
    """The module without names and debug information."""
    return data[:8] + b"".join(section for kind, section, _ in sections_of(data) if kind != 0)


def lowered(data):
    """The module, lowered if anything in it has to be, where each place of its code was, and the functions that were added: what cannot
    be lowered stays."""
    try:
        lowering = Lowering(data)
    except Refusal:
        return data, lambda at: at, {}
    return (lowering.data, lowering.origin, lowering.numbers) if lowering.is_needed else (data, lambda at: at, {})


def finish(linked, path, lines):
    """Writes the module at a path, and where its variables lie beside it. The answer is the lines of what friday would refuse."""
    with open(linked, "rb") as file:
        as_linked = file.read()
    data, origin, added = lowered(as_linked)
    module = without_custom_sections(data)
    found = list(faults(data, linked, len(module), origin))
    with open(path, "wb") as file:
        file.write(module)
    name, kind = os.path.splitext(path)
    table = PlaceTable(os.path.basename(path), digest_of(path))
    layouts = Layouts(run([DWARFDUMP, "--debug-info", linked]), table)
    layouts.fill()
    table.calls = call_places(layouts.entries, module) if lines else []
    table.functions = list(function_places(layouts.entries, run([DWARFDUMP, "--debug-line", linked]), as_linked, added))
    with open((name if kind == ".wasm" else path) + ".places", "w", encoding="ascii") as file:
        file.write(table.text())
    return found
