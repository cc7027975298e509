#!/bin/sh
# Three hunts: puts the places into the debugger's scripts again, makes the schedules again by the words in their first lines, records
# and replays the group of each, lists what its processes printed and noted, and compares all of it with what lies beside
# the guests. The memories and the prints that a replay comes to have to be those of the recording. Last, the debugger's
# script is answered over the logs of the failing schedule, and its answers are compared too; and these logs are cut to what
# one event needs, over which the script is answered up to its first `continue`. The register with many readers is cut in the
# same way, its cut logs are made a schedule, and that is recorded. Of other examples the schedules alone are made again here: their
# check.sh does the rest.
# Usage: check_hunts.sh [PROGRAM]   (the program that answers ./friday, if none is given)
here=$(CDPATH='' cd -- "$(dirname -- "$0")" && pwd) || exit 1
. "$here/../tools/usage.sh"
program=${1:-$("$here/../friday" --program)} && program=$(realpath -- "$program") || exit 1
folder=$(mktemp -d) || exit 1
trap 'rm -rf "$folder"' EXIT

# Makes a schedule again, in the present folder, by the words in its first line: FOLDER SCHEDULE.
make_again() {
    words=$(sed -n '1s/^# make_schedule\.py //p' "$here/$1/$2") && [ -n "$words" ] || return 1
    # shellcheck disable=SC2086 # None of these words has blanks.
    python3 "$here/../tools/make_schedule.py" --program "$program" --output "$2" $words && cmp "$here/$1/$2" "$2"
}

# Records, replays and lists the group of a schedule.
play() {
    hunt=$1 schedule=$2
    pairs='' logs=''
    for process in $(sed -n 's/^process \([^ ]*\) .*/\1/p' "$schedule"); do
        pairs="$pairs $hunt.wasm $process.log"
        logs="$logs $process.log"
    done
    "$program" record --images "$schedule" || return 1
    mkdir "of_$schedule" && mv ./*.mem ./*.out "of_$schedule" || return 1
    # shellcheck disable=SC2086 # Names of processes and modules have no blanks.
    "$program" replay --images $pairs || return 1
    for image in *.mem *.out; do
        cmp "of_$schedule/$image" "$image" || return 1
    done
    # shellcheck disable=SC2086
    python3 "$here/../tools/events.py" list --call print --call note $logs
}

# Cuts the logs of the schedule that was played last to what event N of process P needs: P N.
cut_to() {
    echo "cut $1 $2:"
    cuts=$(echo "$pairs" | sed 's/\.log/.cut/g')
    # shellcheck disable=SC2086
    "$program" cut "$1" "$2" $pairs || return 1
    # shellcheck disable=SC2086
    sed '/^continue$/q' debug | "$program" debug $cuts
}

# Checks the hunt whose fault shows at event N of process P: HUNT P N.
check() {
    hunt=$1
    mkdir "$folder/$hunt" && cd "$folder/$hunt" && cp "$here/$hunt/$hunt.wasm" . || return 1
    "$here/../guests/places" "$here/$hunt/$hunt.places" < "$here/$hunt/debug.in" > debug || return 1
    cmp "$here/$hunt/debug" debug || return 1
    for schedule in good failing; do
        make_again "$hunt" "$schedule" || return 1
    done > printed
    for schedule in good failing; do
        echo "$schedule:" >> printed
        play "$hunt" "$schedule" >> printed || { tail -n 1 printed; return 1; }
    done
    # shellcheck disable=SC2086 # These are the pairs of the schedule that was played last.
    "$program" debug $pairs < ./debug > answers || return 1
    cut_to "$2" "$3" >> printed || return 1
    diff "$here/$hunt/expected" printed && diff "$here/$hunt/answers" answers && echo "$hunt: as expected"
}

# Records the register with many readers, and cuts it to what the reader that ends with 1 needs.
play_many() {
    "$here/register/many.sh" "$program" > made && "$program" record many || return 1
    pairs=''
    for process in $(sed -n 's/^process \([^ ]*\) .*/\1/p' many); do pairs="$pairs many.wasm $process.log"; done
    # shellcheck disable=SC2086
    "$program" debug $pairs < ./debug && cut_to 5 25 || return 1
    # shellcheck disable=SC2086
    "$program" debug $cuts < ./debug > answers_of_cut && "$program" schedule $cuts > short || return 1
    echo "short:" && "$program" record short || return 1
    for log in *.log; do cmp "$log" "${log%.log}.cut" || return 1; done
}

check_many() {
    mkdir "$folder/many" && cd "$folder/many" && cp "$here/register/many.wasm" . || return 1
    "$here/../guests/places" "$here/register/many.places" < "$here/register/many.in" > debug || return 1
    cmp "$here/register/many.debug" debug || return 1
    play_many > printed || { tail -n 1 printed; return 1; }
    diff "$here/register/many.expected" printed && diff "$here/register/many.answers" answers_of_cut && echo "register, many: as expected"
}

# Makes the schedules of an example again: FOLDER SCHEDULE ..
check_schedules() {
    example=$1
    shift
    mkdir "$folder/$example" && cd "$folder/$example" && cp "$here/$example"/*.wasm . || return 1
    for schedule; do make_again "$example" "$schedule" || return 1; done > printed
    echo "$example: the schedules as expected"
}

status=0
for words in 'register 4 18' 'election 0 113' 'bank 1 70'; do
    # shellcheck disable=SC2086 # A hunt, a process and an event.
    check $words || { echo "${words%% *}: not as expected"; status=1; }
done
check_many || { echo "register, many: not as expected"; status=1; }
for words in 'enet good failing repaired' 'cares failing repaired' 'libcoap good failing' 'streams schedule' 'tcp good failing repaired'; do
    # shellcheck disable=SC2086 # An example and its schedules.
    check_schedules $words || { echo "${words%% *}: the schedules not as expected"; status=1; }
done
exit $status
