#!/bin/sh
# Installs on Debian what guests/build and guests/cc call, with the C library and that of C++, and what checks the lowering of
# floats: as root, or by sudo. The libraries belong to the version of clang that is the default.
. "$(dirname -- "$0")/../tools/usage.sh"
apt-get update && apt-get install -y --no-install-recommends clang lld llvm python3 rustc cargo libstd-rust-dev-wasm32 wasi-libc wabt || exit 1
version=$(clang -dumpversion | sed 's/\..*//')
exec apt-get install -y --no-install-recommends "libclang-rt-$version-dev-wasm32" "libc++-$version-dev-wasm32" "libc++abi-$version-dev-wasm32"
