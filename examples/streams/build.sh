#!/bin/sh
# Builds the guest to WebAssembly 1.0, writes where its variables lie, and puts the places into the debugger's script.
cd -- "$(dirname -- "$0")" || exit 1
../../guests/build --stack 8192 streams.c && ../../guests/places streams.places < counts.in > counts
