# shellcheck shell=sh
# Has python3 at hand, which the programs of tools/ need: a part of ./edd and tools/test.

# Whether packages may be installed: a user at a terminal is asked, in the name of the first word; where there is no terminal, as in a
# container, nobody is.
lets_install() {
    { [ -t 0 ] && [ -t 2 ]; } || return 0
    printf '%s: install %s by apt-get? [y/N] ' "$1" "$2" >&2
    answer=
    read -r answer || echo >&2
    case $answer in
    [yY] | [yY][eE][sS]) ;;
    *) return 1 ;;
    esac
}

# Where python3 is missing, installs it as root on Debian, unless the second word or the user forbids it. It says so in the name of the
# first one.
need_python() {
    if command -v python3 > /dev/null; then
        return
    fi
    if [ "$2" = --no-install ] || [ "$(id -u)" != 0 ] || ! command -v apt-get > /dev/null || ! lets_install "$1" python3; then
        echo "$1: python3, 3.10 or later, is missing; as root on Debian: apt-get install python3" >&2
        exit 3
    fi
    echo "$1: installing python3" >&2
    apt-get update -qq
    # It is silent but for a failure.
    log=$(DEBIAN_FRONTEND=noninteractive apt-get install -y -qq --no-install-recommends python3 2>&1) || { echo "$log" >&2; exit 3; }
}
