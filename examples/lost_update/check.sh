#!/bin/sh
# Puts the places into the debugger's script again, records the schedule beside this script, replays the logs together, and
# answers the script over them. The logs and what is printed are compared with what lies here, and so is what the event that
# loses the money needs, with the script's answers up to there. Then the logs come to the schedule of the test that was made of
# them, and the test is run. Last, the lines of what_if go on with the recording in other ways, and their answers are compared.
# Usage: check.sh [PROGRAM]   (the program that answers ./friday, if none is given)
here=$(CDPATH='' cd -- "$(dirname -- "$0")" && pwd) || exit 1
. "$here/../../tools/usage.sh"
program=${1:-$("$here/../../friday" --program)} && program=$(realpath -- "$program") || exit 1
folder=$(mktemp -d) || exit 1
trap 'rm -rf "$folder"' EXIT
mkdir "$folder/bank" "$folder/lost_update" && cp "$here/../bank/bank.wasm" "$here/../bank/bank.places" "$folder/bank" || exit 1
cp "$here/schedule" "$folder/lost_update" && cd "$folder/lost_update" || exit 1
set -- ../bank/bank.wasm north.log ../bank/bank.wasm south.log ../bank/bank.wasm east.log
"$here/../../guests/places" "$here/../bank/bank.places" < "$here/debug.in" > debug || exit 1
cmp "$here/debug" debug || exit 1
{ "$program" record schedule && "$program" replay "$@"; } > printed || exit 1
for log in north.log south.log east.log; do cmp "$here/$log" "$log" || exit 1; done
"$program" debug "$@" < ./debug > answers || exit 1
{
    echo "cut 0 25:" && "$program" cut 0 25 "$@" &&
        sed '/^continue$/q' debug | "$program" debug ../bank/bank.wasm north.cut ../bank/bank.wasm south.cut ../bank/bank.wasm east.cut
} >> printed || exit 1
cp "$here/../bank/bank.wasm" . && "$program" schedule bank.wasm north.log bank.wasm south.log bank.wasm east.log > of_logs || exit 1
cmp "$here/test/schedule" of_logs && "$here/test.sh" "$program" || exit 1
"$here/../../tools/play" --program "$program" --from-logs "$@" --until 42 < "$here/what_if" > what_if && diff "$here/what_if.answers" what_if || exit 1
diff "$here/expected" printed && diff "$here/answers" answers && echo "as expected"
