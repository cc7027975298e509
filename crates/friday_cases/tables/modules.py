"""Modules: from WebAssembly's text by wat2wasm of the package wabt, or section by section."""

import os, re, subprocess, tempfile

GUESTS = os.path.join(os.path.dirname(os.path.abspath(__file__)), "..", "guests")


def compiled(path):
    """The module of a text. It need not be valid."""
    with tempfile.TemporaryDirectory() as folder:
        out = os.path.join(folder, "a.wasm")
        subprocess.run(["wat2wasm", "--no-check", path, "-o", out], check=True)
        with open(out, "rb") as file:
            return file.read()


def module(written):
    with tempfile.NamedTemporaryFile("w", suffix=".wat") as file:
        file.write(written)
        file.flush()
        return compiled(file.name)


def start(body, declared=""):
    """A module whose `_start` has this body."""
    return module('(module %s (func (export "_start") %s))' % (declared, body))


class Guest:
    """A text in guests/. Its comments `;; -> EVENT` tell its events in order, and `;; ends END` its end."""

    def __init__(self, name):
        path = os.path.join(GUESTS, name + ".wat")
        with open(path) as file:
            written = file.read()
        self.module = compiled(path)
        self.events = re.findall(r";; -> (.*)", written)
        self.end = (re.findall(r";; ends (.*)", written) or [None])[0]


def leb(number):
    """A number of no sign in as few bytes as hold it."""
    low, rest = number & 0x7F, number >> 7
    return bytes([low | 0x80]) + leb(rest) if rest else bytes([low])


def section(number, content):
    return bytes([number]) + leb(len(content)) + content


def vector(*elements):
    return leb(len(elements)) + b"".join(elements)


def named(word):
    return leb(len(word)) + word


MAGIC = bytes.fromhex("0061736d 01000000")
TYPES = section(1, vector(b"\x60\0\0"))
FUNCTIONS = section(3, vector(b"\0"))
EXPORTS = section(7, vector(named(b"_start") + b"\0\0"))


def function(whole):
    """The code section of one function, from its locals to its end."""
    return section(10, vector(leb(len(whole)) + whole))


def code(body):
    """The code section of one function with no locals."""
    return function(b"\0" + body + b"\x0b")


# The least module that starts, and its log.
LEAST = MAGIC + TYPES + FUNCTIONS + EXPORTS + code(b"")
