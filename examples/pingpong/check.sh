#!/bin/sh
# Records ping and pong by both schedules beside this script, replays their logs together, and compares what is printed.
# Then the lines of `session` are answered over the logs of the last one, from a file and from a pipe, and compared too.
# Usage: check.sh [PROGRAM]   (the program that answers ./friday, if none is given)
here=$(CDPATH='' cd -- "$(dirname -- "$0")" && pwd) || exit 1
. "$here/../../tools/usage.sh"
program=${1:-$("$here/../../friday" --program)} && program=$(realpath -- "$program") || exit 1
folder=$(mktemp -d) || exit 1
trap 'rm -rf "$folder"' EXIT
cp "$here"/ping.wasm "$here"/pong.wasm "$here"/schedule "$here"/in_order "$folder" || exit 1
cd "$folder" || exit 1
for schedule in in_order schedule; do
    echo "$schedule:"
    "$program" record "$schedule" && "$program" replay ping.wasm ping.log pong.wasm pong.log || break
done > printed
diff "$here/expected" printed || exit 1

debug() {
    "$program" debug ping.wasm ping.log pong.wasm pong.log
}
debug < "$here/session" > from_file || exit 1
while read -r line; do echo "$line"; done < "$here/session" | debug > from_pipe || exit 1
diff "$here/answers" from_file && cmp from_file from_pipe && echo "as expected"
