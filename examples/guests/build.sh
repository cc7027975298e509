#!/bin/sh
# Builds the guests beside this script to WebAssembly 1.0, writes where their variables lie, and checks the modules with
# wasm-validate of the package wabt, told to know nothing newer but sign extension.
cd -- "$(dirname -- "$0")" || exit 1
../../guests/build checksum.c sort.c format.c || exit 1
for guest in checksum sort format; do
    wasm-validate --disable-mutable-globals --disable-saturating-float-to-int \
        --disable-simd --disable-multi-value --disable-bulk-memory --disable-reference-types "$guest.wasm" || exit 1
done
