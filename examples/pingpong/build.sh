#!/bin/sh
# Builds ping and pong to WebAssembly 1.0, and writes where their variables lie.
cd -- "$(dirname -- "$0")" && exec ../../guests/build ping.c pong.c
