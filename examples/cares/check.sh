#!/bin/sh
# Puts the places into the debugger's script again, records and replays the group of each schedule beside this script, lists what its
# processes printed, cuts the logs of the failing one to what the event needs at which the watch stops, and answers the script over
# them. What is printed and answered is compared with what lies here.
# Usage: check.sh [PROGRAM]   (the program that answers ./friday, if none is given)
HUNT=$(CDPATH='' cd -- "$(dirname -- "$0")" && pwd) || exit 1
. "$HUNT/../../tools/usage.sh"
. "$HUNT/../hunt_of_library.sh"
program=${1:-$("$HUNT/../../friday" --program)} && program=$(realpath -- "$program") || exit 1
MODULES='dns faulty' SCHEDULES='repaired:dns failing:faulty' CUT='2 121'
check_hunt
