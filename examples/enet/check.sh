#!/bin/sh
# Puts the places into the debugger's script again, records and replays the group of each schedule beside this script, lists
# what its processes printed, and goes to where the script's watch stops. The memories and the prints that a replay comes to
# have to be those of the recording. Last, the whole script is answered over the logs of the failing schedule. What is printed
# and answered is compared with what lies here. These logs are then cut to what the event needs at which the watch stops, and the
# watch is asked over them once more. A session by hand tells where in the source each process is. That these schedules are made
# by the words in their first lines ../check_hunts.sh checks.
# Usage: check.sh [PROGRAM]   (the program that answers ./friday, if none is given)
here=$(CDPATH='' cd -- "$(dirname -- "$0")" && pwd) || exit 1
. "$here/../../tools/usage.sh"
program=${1:-$("$here/../../friday" --program)} && program=$(realpath -- "$program") || exit 1
folder=$(mktemp -d) || exit 1
trap 'rm -rf "$folder"' EXIT
cp "$here"/*.wasm "$here"/*.places "$here/good" "$here/failing" "$here/repaired" "$folder" && cd "$folder" || exit 1

play() {
    schedule=$1 module=$2
    echo "$schedule:"
    "$program" record --images "$schedule" || return 1
    mkdir "of_$schedule" && mv ./*.mem ./*.out "of_$schedule" || return 1
    set -- "$module" server.log "$module" a.log "$module" b.log
    "$program" replay --images "$@" || return 1
    for image in *.mem *.out; do cmp "of_$schedule/$image" "$image" || return 1; done
    python3 "$here/../../tools/events.py" list --call print server.log a.log b.log || return 1
    { grep '^watch' debug && echo continue; } | "$program" debug "$@"
}

for module in enet faulty; do
    "$here/../../guests/places" "$here/$module.places" < "$here/debug.in" > debug || exit 1
    cmp "$here/debug" debug || exit 1
done
cut_to() {
    echo "cut $1 $2:"
    "$program" cut "$1" "$2" faulty.wasm server.log faulty.wasm a.log faulty.wasm b.log || return 1
    sed '/^continue$/q' debug | "$program" debug faulty.wasm server.cut faulty.wasm a.cut faulty.wasm b.cut
}

{ play good faulty.wasm && play repaired enet.wasm && play failing faulty.wasm && cut_to 2 33; } > printed || { tail -n 1 printed; exit 1; }
"$program" debug faulty.wasm server.log faulty.wasm a.log faulty.wasm b.log < ./debug > answers || exit 1
python3 "$here/../../tools/session" --program "$program" faulty.wasm server.log faulty.wasm a.log faulty.wasm b.log \
    < "$here/session.in" > session || exit 1
diff "$here/expected" printed && diff "$here/answers" answers && diff "$here/session" session && echo "as expected"
