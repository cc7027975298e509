"""Guests in C and C++: what their files are compiled and linked with."""
import os

from place_table import Refusal
from toolchain import ALL_C_WORDS, BARE_WORDS, CLANG, KIT, LIBC, WARNINGS, archive_of, compile_kit, compiler_routines, run, run_all

C_KINDS = (".c",)
CPP_KINDS = (".cc", ".cpp", ".cxx", ".C")
LIBC_TARGET = ["--target=wasm32-wasi", *ALL_C_WORDS]
# What Debian's wasi-libc has as libraries of their own, and programs take for parts of it.
EMULATED = ("mman", "process-clocks")
EMULATIONS = ["-D_WASI_EMULATED_%s" % name.replace("-", "_").upper() for name in (*EMULATED, "signal", "getpid")]
# What the kit adds to it.
LIBC_FILES = ("libc", "net")
# Which functions of printf's kind are linked, by --printf.
PRINTF = {"whole": ["libc-printscan-no-floating-point.a"], "double": [], "long": ["libc-printscan-long-double.a"]}
# Functions of output.c stand in front of these.
WRAPPED = ("vfprintf", "fwrite", "__overflow")
# clang calls a function of breathe.c wherever a path of the program divides or joins.
BREATHING = "-Xclang -fsanitize-coverage-type=3 -Xclang -fsanitize-coverage-trace-pc".split()


def is_cpp(path):
    return os.path.splitext(path)[1] in CPP_KINDS


def headers_of_libc(with_cpp):
    headers = os.path.join(LIBC, "include", "wasm32-wasi")
    if not os.path.exists(os.path.join(headers, "stdio.h")):
        raise Refusal("there is no %s/stdio.h: guests/install.sh installs it" % headers)
    cpp = os.path.join(headers, "c++", "v1")
    if with_cpp and not os.path.exists(cpp):
        raise Refusal("there is no %s: guests/install.sh installs it" % cpp)
    # The kit's headers go first, and include those of the library.
    folders = ([cpp] if with_cpp else []) + [os.path.join(KIT, part, "include") for part in LIBC_FILES] + [headers]
    return [word for folder in folders for word in ("-isystem", folder)]


def hosted_words(with_cpp):
    """What a file is compiled with for the C library, or that of C++."""
    language = ["-std=gnu++17", "-fno-exceptions", "-nostdinc++"] if with_cpp else ["-std=gnu11"]
    return [*LIBC_TARGET, *language, *EMULATIONS, *headers_of_libc(with_cpp)]


def without_folders(folders):
    """Paths in the program, such as those that assert tells, have no folders: so a module is the same wherever it is built."""
    return ["-fmacro-prefix-map=%s/=" % folder.rstrip("/") for folder in folders if folder]


def words_for(source, chosen):
    """clang's words for one file of the guest."""
    folders = [*chosen.folders, KIT]
    words = hosted_words(is_cpp(source)) if chosen.libc else [*BARE_WORDS, "-isystem", os.path.join(KIT, "include")]
    words = words + [word for name in folders for word in ("-I", name)] + ["-D" + name for name in chosen.defines]
    words += without_folders([os.path.dirname(source), *folders])
    words += BREATHING if chosen.breathe else []
    if source in chosen.others:
        return words + ["-w"]
    # The macros of threads.h note the lines, also for guests without threads.
    return words + WARNINGS + (["-DLIBLOG_LINES", "-include", os.path.join(KIT, "threads.h")] if chosen.lines else [])


def compile_files(sources, folder, chosen):
    objects = [os.path.join(folder, "%d.o" % place) for place in range(len(sources))]
    run_all([CLANG, *words_for(source, chosen), "-c", "-o", made, source] for source, made in zip(sources, objects))
    return objects


def kit_archive(folder, chosen):
    """What the kit has for guests in C, as an archive, and what is linked after it."""
    lines = ["-DLIBLOG_LINES"] if chosen.lines else []
    names = ["threads.c", "runtime.c"] + (["breathe.c"] if chosen.breathe else [])
    if not chosen.libc:
        objects, library = compile_kit(names + ["heap.c"], folder, lines + ["-isystem", os.path.join(KIT, "include")]), []
    else:
        objects = compile_kit(names, folder, lines + ["-DLIBLOG_LIBC", "-isystem", os.path.join(KIT, "include")])
        objects, library = objects + compile_libc_files(folder, chosen), libraries_of(chosen)
    return [archive_of(objects, os.path.join(folder, "kit.a")), *library, *compiler_routines()]


def compile_libc_files(folder, chosen):
    sources = [os.path.join(KIT, part, name) for part in LIBC_FILES for name in sorted(os.listdir(os.path.join(KIT, part))) if name.endswith(".c")]
    objects = [os.path.join(folder, "libc_%s.o" % os.path.basename(source)) for source in sources]
    words = [CLANG, *hosted_words(False), *WARNINGS, "-DLIBLOG_EPOCH=%dll" % chosen.epoch, "-I", KIT, *without_folders([os.path.join(KIT, part) for part in LIBC_FILES])]
    run_all([*words, "-c", "-o", made, source] for source, made in zip(sources, objects))
    return objects


def libraries_of(chosen):
    folder = os.path.join(LIBC, "lib", "wasm32-wasi")
    names = [*PRINTF[chosen.printf], *(["libc++.a", "libc++abi.a"] if chosen.with_cpp else []), "libc.a"]
    names += ["libwasi-emulated-%s.a" % name for name in EMULATED]
    return [os.path.join(folder, name) for name in names]


def link_words(chosen):
    words = ["-nostdlib", "-Wl,--no-entry", "-Wl,--export=_start", "-Wl,-zstack-size=%d" % chosen.stack]
    words += ["-Wl,--wrap=" + name for name in WRAPPED] if chosen.libc else []
    return words + (["-Wl,--stack-first"] if chosen.stack_first else [])


def build_c(source, linked, folder, chosen):
    chosen.with_cpp = any(is_cpp(name) for name in (source, *chosen.others))
    if chosen.with_cpp and not chosen.libc:
        raise Refusal("C++ wants --libc")
    objects = compile_files([source, *chosen.others], folder, chosen)
    run([CLANG, *LIBC_TARGET[:1], *link_words(chosen), "-o", linked, *objects, *kit_archive(folder, chosen)])
