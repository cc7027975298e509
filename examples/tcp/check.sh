#!/bin/sh
# Puts the places into the debugger's script again, records and replays the group of each schedule beside this script, lists what its
# processes printed, cuts the logs of the failing one to what the event needs at which the watch stops, and answers the script over
# them. What is printed and answered is compared with what lies here. The watch never fires over the logs of the other schedules.
# Usage: check.sh [PROGRAM]   (the program that answers ./friday, if none is given)
HUNT=$(CDPATH='' cd -- "$(dirname -- "$0")" && pwd) || exit 1
. "$HUNT/../../tools/usage.sh"
. "$HUNT/../hunt_of_library.sh"
program=${1:-$("$HUNT/../../friday" --program)} && program=$(realpath -- "$program") || exit 1
MODULES=sums SCHEDULES='good:sums repaired:repaired failing:sums' CUT='1 60'

# Goes through the group of a schedule with the watch: SCHEDULE MODULE.
never_fires() {
    "$HUNT/../../guests/places" "$HUNT/$2.places" < "$HUNT/debug.in" | sed '/^continue$/q' > watch && "$program" record "$1" > recorded &&
        "$program" debug "$2.wasm" server.log "$2.wasm" a.log "$2.wasm" b.log < watch > answers && sed -n 3p answers | grep -qx end && return
    echo "$1: the watch fires"
    return 1
}

check_hunt && never_fires good sums && never_fires repaired repaired
