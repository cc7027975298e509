#!/bin/sh
# Makes the page of each hunt, HUNT.html, in a folder, and for those with two schedules one of the failing recording against
# the good one, HUNT_against.html. The watches are those of the file beside the hunt, where they have the names of variables.
# Usage: pages.sh FOLDER [PROGRAM]   (the program that ./friday builds, if none is given)
here=$(CDPATH='' cd -- "$(dirname -- "$0")" && pwd) || exit 1
folder=$(realpath -- "$1") && cd -- "$folder" || exit 1
program=$(realpath -- "${2:-$here/../crates/friday/out/friday}") || exit 1

# The words MODULE LOG .. of a recording.
pairs_of() {
    for process in $(sed -n 's/^process \([^ ]*\) .*/\1/p' "$1/schedule"); do
        echo "$2" "$1/$process.log"
    done
}

# Makes a page with the watches of a hunt: PAGE HUNT PLACES PAIRS..
page() {
    page=$1 hunt=$2 places=$3
    shift 3
    "$here/../guests/places" "$here/$places" < "$here/$hunt/watches" > "$hunt.watches" || return 1
    set -- "$@" --watch
    while IFS= read -r watch; do set -- "$@" "$watch"; done < "$hunt.watches"
    python3 "$here/../tools/page.py" --program "$program" "$@" > "$page"
}

hunt() {
    for schedule in good failing; do
        mkdir -p "$1/$schedule" && cp "$here/$1/$1.wasm" "$1/$schedule" && cp "$here/$1/$schedule" "$1/$schedule/schedule" || return 1
        (cd "$1/$schedule" && "$program" record schedule > printed) || return 1
    done
    module=$1/failing/$1.wasm
    # shellcheck disable=SC2046 # Names of processes and modules have no blanks.
    page "$1.html" "$1" "$1/$1.places" $(pairs_of "$1/failing" "$module") || return 1
    # shellcheck disable=SC2046
    page "$1_against.html" "$1" "$1/$1.places" $(pairs_of "$1/failing" "$module") --against $(pairs_of "$1/good" "$module")
}

for name in register election bank; do
    hunt "$name" || exit 1
done
mkdir -p bank lost_update && cp "$here/bank/bank.wasm" bank && cp "$here"/lost_update/*.log "$here/lost_update/schedule" lost_update || exit 1
# shellcheck disable=SC2046
page lost_update.html lost_update bank/bank.places $(pairs_of lost_update bank/bank.wasm)
