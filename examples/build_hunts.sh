#!/bin/sh
# Builds the guests of the three hunts, and puts the places of their variables into the debugger's scripts: into theirs, and
# into those of lost_update, whose guest is the bank's, and of the register with many readers.
cd -- "$(dirname -- "$0")" || exit 1
for hunt in register election bank; do
    ../guests/build --stack 8192 "$hunt/$hunt.c" || exit 1
    ../guests/places "$hunt/$hunt.places" < "$hunt/debug.in" > "$hunt/debug" || exit 1
done
../guests/build --stack 8192 register/many.c || exit 1
../guests/places register/many.places < register/many.in > register/many.debug || exit 1
../guests/places bank/bank.places < lost_update/debug.in > lost_update/debug
