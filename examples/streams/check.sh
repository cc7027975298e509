#!/bin/sh
# Records the group of the schedule beside this script, once up to its round 24 and once whole, and has `friday streams` report
# each recording, and what an event of each process of the whole one needs. Each report has to be what the guests counted
# themselves: their counts are read by the debugger at the end of the same logs. Last, a report on one log alone has chunks of which
# no log has the send. All that is printed is compared with what lies here.
# Usage: check.sh [PROGRAM]   (the program that answers ./friday, if none is given)
here=$(CDPATH='' cd -- "$(dirname -- "$0")" && pwd) || exit 1
. "$here/../../tools/usage.sh"
program=${1:-$("$here/../../friday" --program)} && program=$(realpath -- "$program") || exit 1
folder=$(mktemp -d) || exit 1
trap 'rm -rf "$folder"' EXIT
cp "$here/streams.wasm" "$here/schedule" "$folder" && cd "$folder" || exit 1
"$here/../../guests/places" "$here/streams.places" < "$here/counts.in" > counts && cmp "$here/counts" counts || exit 1
sed '/^# round 25$/,$d' schedule > stopped

# What the guests counted, in the words of `friday streams`: MODULE LOG ..
counted() {
    "$program" debug "$@" < counts | tail -n 10 | {
        lines=0
        for stream in '0 -> 1 stream 1' '0 -> 1 stream 2' '0 -> 2 stream 1' '1 -> 0 stream 1' '1 -> 0 stream 2'; do
            read -r written && read -r taken || return 1
            [ "$written" -gt 0 ] || continue
            lines=$((lines + 1))
            echo "$stream: $written written, $taken read"
        done
        echo "streams: $lines, 0 odd, 0 foreign"
    }
}

# The report on these logs, which has to be what the guests counted: MODULE LOG ..
report() {
    "$program" streams "$@" > report && counted "$@" > counted && cat report && diff counted report
}

all() {
    set -- streams.wasm a.log streams.wasm b.log streams.wasm store.log
    for schedule in stopped schedule; do
        echo "$schedule:"
        "$program" record "$schedule" && report "$@" || return 1
    done
    for event in '0 100' '1 80' '2 60'; do
        echo "cut $event:"
        # shellcheck disable=SC2086 # A process and a number.
        "$program" cut $event "$@" && report streams.wasm a.cut streams.wasm b.cut streams.wasm store.cut || return 1
    done
    echo "b alone:"
    "$program" streams streams.wasm b.log
}
all > printed || { tail -n 12 printed; exit 1; }
diff "$here/expected" printed && echo "as expected"
