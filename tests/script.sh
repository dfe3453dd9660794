# script.sh, to be sourced first: how a script of this tree begins, and how it ends. However that is, by itself, by a failure or by a signal, whatever it
# started and left running is ended, each process by its number, and its rooms and files are removed; with KEEP=1 rooms stay, to be looked at.
# A signal to the script alone takes effect when the command is done that it waits for; one to its whole group, as Ctrl-C and timeout send it, at once.
set -euo pipefail
# Each process has a mark in its environment by which it is found, also when its parent is gone; the shell's own children have what it began with.
mark=ENDS_WITH_$$
if [ -z "${!mark-}" ]; then
    export "$mark=1"
    exec "$BASH" "$0" "$@"
fi
tests=$(cd "$(dirname "${BASH_SOURCE[0]}")" && pwd)
top=${tests%/*}
called=$(realpath --relative-to="$top" "$0")
called=${called#tests/}
run=(${RUN:+"$RUN"}) # the emulator of x86-64 code, if there is need of one
tried=0
rooms=() # and files

fail() {
    echo "$called: $*" >&2
    exit 1
}

header_version() { sed -n 's/^#define NDUSHAVIRE_VERSION "\(.*\)"$/\1/p' "$top/include/ndushavire.h"; }
# An empty room, with these folders in it.
make_room() { # ROOM [FOLDER]..
    local folder
    rm -rf "$1"
    mkdir -p "$1"
    room=$(cd "$1" && pwd)
    rooms+=("$room")
    for folder in "${@:2}"; do mkdir "$room/$folder"; done
}
# One in memory, if that can be, where a flush takes no time; what it is called is in VARIABLE then.
make_memory() { # VARIABLE
    local made
    made=$(mktemp -d -p /dev/shm "${called##*/}.XXXXXX" 2>/dev/null) || made=$(mktemp -d)
    rooms+=("$made")
    printf -v "$1" %s "$made"
}

# The numbers of what this script started and is still running.
still_running() {
    local process
    for process in $(grep -s -l -z -x -F "$mark=1" /proc/[0-9]*/environ | cut -d / -f 3); do
        [ "$process" = $$ ] || [ "$process" = "$BASHPID" ] || ! kill -0 "$process" 2>/dev/null || echo "$process"
    done
}
ended() {
    local status=$? left tries
    set +e
    trap '' HUP INT TERM
    disown -a 2>/dev/null # else each that is ended is told of
    for ((tries = 0; tries < 200; tries++)); do
        left=$(still_running)
        [ -n "$left" ] || break
        kill -KILL $left 2>/dev/null
        sleep 0.01
    done
    for room in "${rooms[@]}"; do
        [ -z "${KEEP-}" ] || [ ! -d "$room" ] || continue
        chmod -R u+rwx "$room" 2>/dev/null # a test may have closed a folder
        rm -rf "$room"
    done
    exit "$status"
}
trap ended EXIT
trap 'exit 129' HUP
trap 'exit 130' INT
trap 'exit 143' TERM
