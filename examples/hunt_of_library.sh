# For check scripts of examples whose guests are made of a library, which read this by `.`: HUNT is the folder of the example, MODULES its
# modules without .wasm, SCHEDULES its schedules each with the module, as `failing:faulty`; CUT the process and the event that the failing
# one, which is the last, is cut to. What is printed and answered is compared with what lies in the folder.

# Records and replays the group of a schedule, lists what it printed, and goes to where the script's watch stops.
play() {
    schedule=${1%:*} module=${1#*:}.wasm pairs='' logs=''
    for process in $(sed -n 's/^process \([^ ]*\) .*/\1/p' "$schedule"); do pairs="$pairs $module $process.log" logs="$logs $process.log"; done
    echo "$schedule:"
    "$program" record --images "$schedule" || return 1
    mkdir "of_$schedule" && mv ./*.mem ./*.out "of_$schedule" || return 1
    # shellcheck disable=SC2086 # Names of processes and modules have no blanks.
    "$program" replay --images $pairs || return 1
    for image in *.mem *.out; do cmp "of_$schedule/$image" "$image" || return 1; done
    # shellcheck disable=SC2086
    python3 "$HUNT/../../tools/events.py" list --call print $logs
}

play_all() {
    for each in $SCHEDULES; do play "$each" || return 1; done
    echo "cut $CUT:"
    # shellcheck disable=SC2086
    "$program" cut $CUT $pairs || return 1
    # shellcheck disable=SC2086
    sed '/^continue$/q' debug | "$program" debug $(echo "$pairs" | sed 's/\.log/.cut/g')
}

check_hunt() {
    folder=$(mktemp -d) || exit 1
    trap 'rm -rf "$folder"' EXIT
    cp "$HUNT"/*.wasm "$folder" && cd "$folder" || exit 1
    for each in $SCHEDULES; do cp "$HUNT/${each%:*}" . || exit 1; done
    for module in $MODULES; do
        "$HUNT/../../guests/places" "$HUNT/$module.places" < "$HUNT/debug.in" > debug || exit 1
    done
    cmp "$HUNT/debug" debug || exit 1
    play_all > printed || { tail -n 1 printed; exit 1; }
    # shellcheck disable=SC2086
    "$program" debug $pairs < ./debug > answers || exit 1
    diff "$HUNT/expected" printed && diff "$HUNT/answers" answers && echo "as expected"
}
