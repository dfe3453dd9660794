#!/usr/bin/env bash
# ends.sh ROOM: a script over script.sh, whether it goes well, fails or is told to end, leaves no process that it started and no room, and ends with its own
# status. Those processes have other parents and groups by then, or heed no signal. With KEEP=1 the rooms stay.
. "$(dirname "$0")/script.sh"
make_room "$1"
cat >"$room/starts.sh" <<'END'
. "$TESTS/script.sh"
make_room "$1/its-room" closed
make_memory memory
echo "$memory" >"$1/memory"
chmod 0 "$room/closed"
sleep 86400 &
(setsid sleep 86400 &)
(trap '' HUP INT TERM && while :; do sleep 0.1; done) &
((trap '' HUP INT TERM && while :; do sleep 0.1; done) &)
setsid sh -c 'sleep 86400 & exec sleep 86400' &
[ "$(still_running | wc -l)" -ge 6 ] || fail 'they do not run'
touch "$1/begun"
eval "$2"
END
echo "$room/starts.sh" >"$room/patterns" # and not among the words of grep, which would find itself
left() { # the processes that have the script among their words, or were started with this run's number
    grep -s -l -F -f "$room/patterns" /proc/[0-9]*/cmdline /proc/[0-9]*/environ || true
}
leaves_nothing() { # STATUS ABOUT COMMAND..
    local status=0
    rm -f "$room/begun"
    TESTS=$tests STARTED_IN="$room/starts.sh" "${@:3}" >"$room/said" 2>&1 || status=$?
    [ -e "$room/begun" ] || fail "$2: $(cat "$room/said")"
    [ "$status" = "$1" ] || fail "$2: status $status instead of $1: $(cat "$room/said")"
    [ -z "$(left)" ] || fail "$2: still running: $(left)"
    tried=$((tried + 1))
}
gone() { [ ! -e "$room/its-room" ] && [ ! -e "$(cat "$room/memory")" ]; }
starts() { bash "$room/starts.sh" "$room" "$1"; } # WORDS
for of in '0 :' '1 false' '1 fail on purpose' '7 exit 7' '2 grep x "$room/none"'; do
    leaves_nothing "${of%% *}" "${of#* }" starts "${of#* }"
    gone || fail "${of#* }: a room is left"
done
for of in 129:HUP 130:INT 143:TERM; do
    leaves_nothing "${of%:*}" "SIG${of#*:}" timeout --preserve-status -s "${of#*:}" 2 bash "$room/starts.sh" "$room" 'sleep 86400'
    gone || fail "${of#*:}: a room is left"
done
KEEP=1 leaves_nothing 1 'KEEP=1' starts false
[ -d "$room/its-room/closed" ] && [ -d "$(cat "$room/memory")" ] || fail 'KEEP=1: a room is gone'
rooms+=("$(cat "$room/memory")")
echo "ends.sh: $tried scripts ended, and nothing of them is left"
