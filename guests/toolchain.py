"""The programs that the kit calls, and the words that it calls clang with."""
import os
import subprocess
from concurrent.futures import ThreadPoolExecutor

from place_table import Refusal

KIT = os.path.dirname(os.path.abspath(__file__))
CLANG = os.environ.get("CLANG", "clang")
AR = os.environ.get("LLVM_AR", "llvm-ar")
DWARFDUMP = os.environ.get("LLVM_DWARFDUMP", "llvm-dwarfdump")
LINKER = os.environ.get("WASM_LD", "wasm-ld")
# Where Debian's packages wasi-libc and libc++-14-dev-wasm32 put the C library and that of C++.
LIBC = os.environ.get("WASI_LIBC", "/usr")

# layouts.py reads DWARF 4: in 5 addresses stand in a table of their own.
ALL_C_WORDS = "-mcpu=mvp -O2 -gdwarf-4".split()
# C without a library: what the kit itself and its helpers are made of.
BARE_WORDS = ["--target=wasm32", "-std=c11", "-ffreestanding", "-fno-builtin", *ALL_C_WORDS]
WARNINGS = ["-Wall", "-Wextra"]


def run(words, more=None):
    """What a program prints, with more in its environment; what it says on the way is shown."""
    try:
        done = subprocess.run(words, stdout=subprocess.PIPE, text=True, errors="replace", env={**os.environ, **(more or {})})
    except FileNotFoundError:
        raise Refusal("there is no program %s: guests/install.sh installs it" % words[0]) from None
    if done.returncode != 0:
        raise Refusal("%s ended with %d" % (words[0], done.returncode))
    return done.stdout


def run_all(commands):
    """Runs commands side by side, a few at a time; the first that fails is the one that is told."""
    with ThreadPoolExecutor(os.cpu_count()) as pool:
        for done in [pool.submit(run, words) for words in commands]:
            done.result()


def compile_kit(names, folder, more=()):
    """The objects of some files of the kit, without the C library."""
    objects = [os.path.join(folder, name.replace(os.sep, "_") + ".o") for name in names]
    run_all([CLANG, *BARE_WORDS, *WARNINGS, *more, "-I", KIT, "-c", "-o", made, os.path.join(KIT, name)] for name, made in zip(names, objects))
    return objects


def archive_of(objects, path):
    """An archive, from which the linker takes only what a guest uses."""
    run([AR, "rcsD", path, *objects])
    return path


def compiler_routines(must=False):
    """clang's own routines for what the processor has not, such as numbers of 128 bits, as a list: empty if it is not installed."""
    archive = run([CLANG, "--target=wasm32-wasi", "-rtlib=compiler-rt", "--print-libgcc-file-name"]).strip()
    if os.path.exists(archive):
        return [archive]
    if must:
        raise Refusal("there are no routines of compiler-rt for wasm32: guests/install.sh installs them")
    return []
