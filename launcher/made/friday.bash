# Completion of friday's words for bash: source this file, or put it into the folder of bash-completion. Made by launcher/make.py.
_friday() {
    local word=${COMP_WORDS[COMP_CWORD]} files='' words=''
    if [ "$COMP_CWORD" = 1 ]; then
        mapfile -t COMPREPLY < <(compgen -W 'record play replay debug schedule cut streams migrate drill help --prove --version --program' -- "$word")
        return
    fi
    case ${COMP_WORDS[1]} in
    help) mapfile -t COMPREPLY < <(compgen -W 'record play replay debug schedule cut streams migrate drill' -- "$word") ;;
    record) words='--images --help' files='*' ;;
    play) words='--help' files='*' ;;
    replay) words='--images --help' files='*.@(wasm|log|cut)' ;;
    debug) words='--help' files='*.@(wasm|log|cut)' ;;
    schedule) words='--help' files='*.@(wasm|log|cut)' ;;
    cut) words='--help' files='*.@(wasm|log|cut)' ;;
    streams) words='--help' files='*.@(wasm|log|cut)' ;;
    migrate) words='--help' files='*.@(log|cut)' ;;
    drill) words='--help' files='' ;;
    esac
    if [ -n "$words" ] && [ -z "${word##-*}" ]; then
        mapfile -t COMPREPLY < <(compgen -W "$words" -- "$word")
        [ -z "$word" ] || return
    fi
    [ -n "$files" ] || return
    compopt -o filenames 2>/dev/null
    mapfile -t -O "${#COMPREPLY[@]}" COMPREPLY < <(shopt -s extglob; compgen -f -X "!$files" -- "$word"; compgen -d -- "$word")
}
complete -F _friday friday ./friday
