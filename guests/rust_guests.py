"""Guests in Rust: what they are compiled and linked with."""
import glob
import json
import os
import shutil

from place_table import Refusal
from toolchain import KIT, LINKER, compile_kit, run

# The rustc of the PATH may be another than the one that guests/install.sh installs, without a library for WebAssembly.
RUSTCS = [name for name in ("rustc", "/usr/bin/rustc") if shutil.which(name)] or ["rustc"]
if "RUSTC" in os.environ:
    RUSTCS = [os.environ["RUSTC"]]

RUST_WORDS = "--edition=2021 -C opt-level=2 -C codegen-units=1 -C debuginfo=2".split()
LINK_WORDS = "--crate-type=cdylib -C lto=fat".split()
# The first is built for 1.0 as a whole. The second is, too, in the rustc of Debian 12, and has std.
RUST_TARGETS = ("wasm32v1-none", "wasm32-unknown-unknown")
CARGO_TARGETS = RUST_TARGETS[::-1]
# rustc has its own words for what clang has in c_guests.py.
BREATHING = "-C passes=sancov-module -C llvm-args=-sanitizer-coverage-level=3 -C llvm-args=-sanitizer-coverage-trace-pc".split()
# As cargo reads a profile from its environment.
PROFILE = {"OPT_LEVEL": "2", "PANIC": "abort", "CODEGEN_UNITS": "1", "DEBUG": "2", "LTO": "fat"}


def rustc_for(targets):
    """A rustc that has a library for one of these targets, and that target."""
    for rustc in RUSTCS:
        libraries = libraries_of(rustc)
        target = next((t for t in targets if os.path.isdir(os.path.join(libraries, t))), None)
        if target is not None:
            return rustc, target
    raise Refusal("%s has no library for %s: guests/install.sh installs one, or `rustup target add %s`" % (" or ".join(RUSTCS), " or ".join(targets), targets[0]))


def libraries_of(rustc):
    return os.path.join(run([rustc, "--print", "sysroot"]).strip(), "lib", "rustlib")


def words_for_target(rustc, chosen):
    """What any crate is compiled with, and the linker if rustc brings none of its own."""
    words = ["-C", "panic=abort", "-C", "target-cpu=mvp"] + (["--cfg", "liblog_lines"] if chosen.lines else []) + (BREATHING if chosen.breathe else [])
    has_linker = glob.glob(os.path.join(glob.escape(libraries_of(rustc)), "*", "bin", "rust-lld"))
    return words if has_linker else words + ["-C", "linker=" + LINKER]


def link_words(folder, chosen):
    """What the module is linked with: the kit's part in C, and the size of the stack, which rustc puts first."""
    names = ["threads.c", os.path.join("liblog", "stack.c")] + (["breathe.c"] if chosen.breathe else [])
    objects = compile_kit(names, folder, ["-DLIBLOG_LINES"] if chosen.lines else [])
    return [word for name in [*objects, "-zstack-size=%d" % chosen.stack] for word in ("-C", "link-arg=" + name)]


def build_rust(source, linked, folder, chosen):
    rustc, target = rustc_for(RUST_TARGETS)
    words, crate = [rustc, *RUST_WORDS, "--target", target, *words_for_target(rustc, chosen)], os.path.join(folder, "libliblog.rlib")
    run(words + ["--crate-type=rlib", "--crate-name=liblog", "-o", crate, os.path.join(KIT, "liblog", "src", "lib.rs")])
    run(words + ["--extern", "liblog=" + crate, *LINK_WORDS, *link_words(folder, chosen), "-o", linked, source])


def build_cargo(package, chosen):
    """The module that cargo makes of a package, as it was linked. What is compiled stays in the package's own `target`."""
    rustc, target = rustc_for(CARGO_TARGETS)
    kept = os.path.join(os.path.abspath(package), "target", "liblog")
    os.makedirs(kept, exist_ok=True)
    paths = ["--remap-path-prefix=%s/=" % os.path.abspath(package), "--remap-path-prefix=%s/=" % KIT]
    flags = [*words_for_target(rustc, chosen), *link_words(kept, chosen), *paths]
    # The cargo of that rustc, since one of another version gives it other words.
    cargo = os.environ.get("CARGO", os.path.join(os.path.dirname(shutil.which(rustc) or rustc), "cargo"))
    profile = {"CARGO_PROFILE_RELEASE_" + name: value for name, value in PROFILE.items()}
    words = [cargo, "build", "--release", "--target", target, "--message-format=json-render-diagnostics", "--manifest-path", os.path.join(package, "Cargo.toml")]
    told = run(words, more={**profile, "RUSTC": rustc, "CARGO_ENCODED_RUSTFLAGS": "\x1f".join(flags)})
    modules = [name for line in told.splitlines() for name in json.loads(line).get("filenames", []) if name.endswith(".wasm")]
    if not modules:
        raise Refusal('%s makes no module: its Cargo.toml wants [lib] with crate-type = ["cdylib"]' % package)
    return modules[-1]
