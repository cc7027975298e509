# What is looked at around a recording: whose logs have its names, and whether another one runs in the same folder.
# shellcheck shell=sh

# The names of the processes, which stand before the first item, or their modules.
names_of() {
    sed -n -e 's/^[[:blank:]]*process[[:blank:]]\{1,\}\([a-z0-9_]\{1,32\}\)[[:blank:]].*/\1/p' \
        -e '/^[[:blank:]]*\(run\|deliver\|inject\|clock\|random\|signal\|kill\)[[:blank:]]/q' < "$1"
}

# Of the schedule and of what else its lines name that is a file: another module makes another recording too.
sum_of_inputs() {
    sed -n -e 's/^[[:blank:]]*process[[:blank:]]\{1,\}[a-z0-9_]\{1,32\}[[:blank:]]\{1,\}\([!-~]\{1,255\}\).*/\1/p' \
        -e '/^[[:blank:]]*\(run\|deliver\|inject\|clock\|random\|signal\|kill\)[[:blank:]]/q' < "$schedule" |
        { cat "$schedule"; while read -r module; do [ ! -f "$module" ] || cat -- "$module"; done; } 2>/dev/null | cksum
}

# A note of what was recorded here last stands where programs are kept, so that this folder has nothing but the recording.
note_of_folder() {
    printf '%s/recordings/%s' "$kept" "$(pwd -P | cksum | tr ' ' -)"
}

# What tells whether logs are still those that were written: the number of each file, its size and its time.
state_of() {
    # shellcheck disable=SC2086 # Names of processes have no blanks.
    [ -z "$1" ] || stat -c '%n %i %s %Y %y' $1 2>/dev/null
}

before_recording() {
    logs='' schedule='' kinds=log names='' note='' aside=''
    for word in "$@"; do
        case $word in
        record) ;;
        --images) kinds='log mem out' ;;
        *) schedule=$word ;;
        esac
    done
    # Other words are the program's to refuse.
    [ $# -le 3 ] && [ -f "$schedule" ] && [ -r "$schedule" ] || return 0
    names=$(names_of "$schedule" | awk '!seen[$0]++ { printf "%s ", $0 }')
    for name in $names; do
        for kind in $kinds; do
            # The program refuses a schedule of such a name, and does not know it under another one.
            [ "$schedule" != "$name.$kind" ] || return 0
            # shellcheck disable=SC3013 # dash has -ef, as bash has.
            if [ "$schedule" -ef "$name.$kind" ]; then
                say "$name.$kind is the schedule $schedule under another name, and would be made anew: give it another name"
                return 2
            fi
        done
        [ ! -f "$name.log" ] || logs="$logs $name.log"
    done
    [ -w "$kept" ] || kept=$own
    note=$(note_of_folder)
    sum=$(sum_of_inputs)
    lock_folder || return
    tell_others
    keep_logs
}

# The lock is on the folder, and goes with this shell and the program.
lock_folder() {
    [ -r . ] && command -v flock > /dev/null || return 0
    exec 9<.
    flock -n 9 && return
    say "another recording is being made in this folder: wait until it ends, or record in a folder of its own"
    return 6
}

tell_others() {
    others=''
    for log in *.log; do
        case " $names " in
        *" ${log%.log} "*) ;;
        *) [ -f "$log" ] && [ "$(head -c 4 -- "$log" 2>/dev/null | tr -d '\0')" = LLOG ] && others="$others $log" ;;
        esac
    done
    [ -z "$others" ] || say "logs of another recording are in this folder:$others. Each recording wants a folder of its own"
}

# A log grows under its own name, so one of another recording is set aside first. Logs that are still those of this very recording
# are written again.
keep_logs() {
    [ -n "$logs" ] || return 0
    [ "$(printf '%s\n' "$sum"; state_of "$logs")" != "$(cat "$note" 2>/dev/null)" ] || return 0
    for log in $logs; do
        mv -fT -- "$log" "$log.old" 2>/dev/null || {
            put_back
            say "$log is of another recording and cannot be kept as $log.old: record in a folder of its own"
            return 6
        }
        aside="$aside $log"
    done
    say "logs of another recording are kept as NAME.log.old:$logs"
}

# Where a recording made no log, as a refused one, the older logs stand as before. They are not its own.
put_back() {
    for log in $aside; do
        [ ! -e "$log" ] || return 0
    done
    for log in $aside; do
        mv -T -- "$log.old" "$log" 2>/dev/null && note=''
    done
}

after_recording() {
    put_back
    [ -n "$note" ] || return 0
    logs=''
    for name in $names; do
        [ ! -f "$name.log" ] || logs="$logs $name.log"
    done
    { mkdir -p "$kept/recordings" && { printf '%s\n' "$sum"; state_of "$logs"; } > "$note"; } 2>/dev/null
}
