#!/bin/sh
# A test that came of logs: records test/schedule, which `friday schedule` made of the three logs beside this script, replays what
# was recorded, follows the money of all branches, and compares what is told with test/expected. Ends with 0 where that is the
# same, and otherwise prints the difference and ends with 1.
# Usage: test.sh [PROGRAM]   (the program that answers ./friday, if none is given)
here=$(CDPATH='' cd -- "$(dirname -- "$0")" && pwd) || exit 1
. "$here/../../tools/usage.sh"
program=${1:-$("$here/../../friday" --program)} && program=$(realpath -- "$program") || exit 1
folder=$(mktemp -d) || exit 1
trap 'rm -rf "$folder"' EXIT
cp "$here/../bank/bank.wasm" "$here/test/schedule" "$folder" && cd "$folder" || exit 1
set -- bank.wasm north.log bank.wasm south.log bank.wasm east.log
{
    "$program" record schedule && "$program" replay "$@" &&
        printf '%s\n' 'watch sum(@_.i64[1152] + @_.i64[1160] + @_.i64[5312] - @_.i64[5304])' continue | "$program" debug "$@"
} > told || { cat told; exit 1; }
diff "$here/test/expected" told
