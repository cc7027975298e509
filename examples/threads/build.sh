#!/bin/sh
# Builds the guests with threads to WebAssembly 1.0, and writes where their variables lie.
cd -- "$(dirname -- "$0")" && exec ../../guests/build queue.c handler.c many.c
