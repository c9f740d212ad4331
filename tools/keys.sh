# shellcheck shell=sh
# How edd is run on a terminal, `open` by its keys and `check` with its colours: a part of ./edd and of the program that tools/install
# installs. Who reads it has a function `say`, which is called when the terminal is as it was.

# Whether the program is to print colours, which it can't know by itself: `check` does on a terminal that has some, where neither the
# user nor NO_COLOR says otherwise.
shows_colours() {
    [ "$2" = check ] && [ -t 1 ] && [ -z "${NO_COLOR-}" ] && [ "${TERM-}" != dumb ] || return 1
    for word in "$@"; do
        case $word in
        --color | --color=* | --) return 1 ;;
        esac
    done
}

# Whether the program is to read keys: `open` does on a terminal, where no lines are asked for.
reads_keys() {
    [ "$2" = open ] && [ -t 0 ] && [ -t 1 ] || return 1
    for word in "$@"; do
        case $word in
        --lines | --keys | --help | -h) return 1 ;;
        esac
    done
}
# Runs a program with the keys of the terminal, of which Ctrl-C and Ctrl-Z are keys too, and puts the terminal back whatever happens.
# A shell that waits for a program in the background takes a signal at once. Where the size changes, it asks the terminal for the place
# of its last row and column, and the program reads the answer.
run_by_keys() {
    program=$1
    shift 2
    pid=
    old=$(stty -g)
    trap 'stty "$old"; say' EXIT
    trap '[ -z "$pid" ] || kill "$pid"; echo; exit 143' INT TERM HUP QUIT
    trap 'printf "\0337\033[999;999H\033[6n\0338"' WINCH
    # A read that no key ends within a second gives nothing, by which a delay is counted down.
    stty -icanon -echo min 0 time 10 intr '^-' susp '^-'
    size=$(stty size) || size="0 0"
    exec 3<&0
    "$program" open --keys --seconds --rows "${size% *}" --columns "${size#* }" "$@" <&3 3<&- &
    pid=$!
    status=0
    wait "$pid" || status=$?
    while [ "$status" -gt 128 ] && kill -0 "$pid" 2>/dev/null; do
        status=0
        wait "$pid" || status=$?
    done
    [ "$status" -le 128 ] || echo
    exit "$status"
}
