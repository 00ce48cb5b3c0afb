# How `replay` is called and how it ends, in POSIX sh, after `version` is set. `./replay` reads it; the installed script is this with its program's path
# before it and the last two lines after it.
usage='usage: replay [--] [FILE]    replays the journal FILE; with none, or for -, standard input
       replay --help | --version
status: 0 replayed; 1 the journal is refused, and BAD is printed; 2 it could not be read, written or built, or the call was wrong'

wrong() {
    printf 'replay: %s\n' "$1" >&2
    exit 2
}

# All of a text, by cat, which names the error where it fails. Where nobody reads any more it ends as cat does, quietly.
shown() {
    sent=0
    why=$(printf '%s' "$1" | LC_ALL=C cat 2>&1 >&4) || sent=$?
    [ "$sent" -le 128 ] || exit "$sent"
    [ "$sent" -eq 0 ] || wrong "writing the result: ${why##*: }"
}

# The arguments: what is asked for is shown, a journal that is named becomes standard input. A closed output is known before anything is begun.
called() {
    true 3>&2 || exec 2>/dev/null
    { true 3>&1; } 2>/dev/null || wrong 'standard output is closed'
    exec 4>&1
    case ${1-} in
    -h | --help) shown "$usage
" && exit ;;
    --version) shown "replay (Pollencart) $version
" && exit ;;
    --) shift ;;
    -?*) wrong "no option $1
$usage" ;;
    esac
    [ $# -le 1 ] || wrong "more than one journal
$usage"
    if [ $# -eq 0 ] || [ "$1" = - ]; then
        { true 3<&0; } 2>/dev/null || wrong 'standard input is closed'
        return
    fi
    [ -e "$1" ] || wrong "$1: no such file"
    [ ! -d "$1" ] || wrong "$1: is a directory"
    [ -r "$1" ] || wrong "$1: may not be read"
    { command exec <"$1"; } 2>/dev/null || wrong "$1: could not be opened"
}

# Runs these words on standard input to their end. A shell that waits for a command in the foreground is deaf to signals until it ends, so they run
# beside it, and at a signal they are stopped first.
child='' kept=''
heeded() {
    for signal in HUP INT QUIT TERM; do
        # shellcheck disable=SC2064
        trap "stopped $signal" "$signal"
    done
}

awaited() {
    heeded
    exec 3<&0
    child=new ended=0
    "$@" <&3 3<&- 4>&- &
    child=$!
    wait "$child" 2>/dev/null || ended=$?
    child=''
    return "$ended"
}

stopped() {
    [ "$child" != new ] || child=$!
    [ -z "$child" ] || { kill "$child" && wait "$child"; } 2>/dev/null
    [ -z "$kept" ] || rm -f "$kept"
    trap - "$1"
    kill -s "$1" $$
    exit 131 # bash lets QUIT pass
}

# Runs the program, these words, on standard input and ends by what it wrote. All of that is kept first, so that nothing is printed of a run that
# failed, in a file that soon has no name any more: nothing is left of it, whatever ends this.
replayed() {
    heeded
    kept=$(mktemp "${TMPDIR:-/tmp}/replay.XXXXXX") && exec 5>"$kept" 6<"$kept" && rm -f "$kept" || wrong 'no temporary file'
    kept=''
    awaited "$@" >&5 5>&- 6<&- || wrong "the program ended with status $ended"
    text=$(cat <&6 && echo .)
    text=${text%.}
    case $text in
    'N '*) status=0 lines=${text#N } && lines=$((${lines%% *} + 1)) ;;
    'BAD '*) status=1 lines=1 ;;
    '') exit 2 ;; # the program has said why
    *) wrong 'the program wrote something that is no result' ;;
    esac
    [ "$(printf '%s' "$text" | wc -l)" -eq "$lines" ] || wrong 'there was no room to keep all of the text'
    shown "$text"
    exit "$status"
}
