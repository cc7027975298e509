#!/bin/sh
# Makes the schedule `many` of this hunt in the present folder, where many.wasm has to lie: of the register with twelve readers.
# It prints the summary of its recording; what the threads wait for at the end is left out.
# Usage: many.sh PROGRAM
tools=$(CDPATH='' cd -- "$(dirname -- "$0")/../../tools" && pwd) || exit 1
program=$1
set -- r0=many.wasm r1=many.wasm r2=many.wasm writer=many.wasm
for reader in a b c d e f g h i j k l; do set -- "$@" "$reader=many.wasm"; done
python3 "$tools/make_schedule.py" --program "$program" --output many --seed 86 --rounds 100 \
    --tick 100 --events 9 --loss 0.2 --repeat 0.2 --reorder 0.2 "$@" | head -n 17
