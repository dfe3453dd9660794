#!/usr/bin/env bash
# served.sh ROOM CLIENT ONE ROWS SECONDS SIZE..: how many requests a second a daemon answers over loopback with 64 outstanding: durable SARs, each of which alters the
# table and is on disk before its answer, and UARs. ONE is the daemon with a store for each request, ROWS the one that stores a row at a time; the files of a SIZE
# are target/bench/SIZE.table and .profile. ROOM lies on the disk that is measured. They take turns, three of so many seconds each, and the medians count.
. "$(dirname "$0")/../tests/script.sh"
make_room "$1"
client=$2 one=$3 rows=$4 period=$5
shift 5

rate() { # DAEMON SIZE WHAT: over files as they were
    local folder=$room/files port='' tries
    rm -rf "$folder"
    mkdir -p "$folder/live" "$folder/cards"
    cp "target/bench/$2.table" "$folder/live/table"
    cp "target/bench/$2.profile" "$folder/live/profile"
    : >"$folder/cards/vectors"
    : >"$room/log" # which the next one empties only once it runs
    "$1" -p 0 "$folder/live" "$folder/cards" 2>"$room/log" &
    daemon=$!
    for ((tries = 0; tries < 600; tries++)); do
        port=$(sed -n 's/.* listening on 127\.0\.0\.1 port \([0-9]*\),.*/\1/p' "$room/log")
        [ -z "$port" ] || break
        sleep 0.05
    done
    [ -n "$port" ] || { cat "$room/log" >&2; exit 1; }
    rated=$("$client" "$port" "target/bench/$2.table" "$3" "$period") || { cat "$room/log" >&2; exit 1; }
    kill -TERM "$daemon"
    wait "$daemon" || true
}
median() { printf '%s\n' "$@" | sort -n | sed -n 2p; }

echo "served: answers a second over loopback, 64 outstanding, medians of three; a store for each request beside one for a row of up to 64"
echo "records  request           one by one     in rows    times  aim"
for size in "$@"; do
    for what in sar uar; do
        before=() after=()
        for turn in 1 2 3; do
            rate "$one" "$size" "$what"
            before+=("$rated")
            rate "$rows" "$size" "$what"
            after+=("$rated")
        done
        awk -v size="${size%%-*}" -v what="$what" -v before="$(median "${before[@]}")" -v after="$(median "${after[@]}")" 'BEGIN {
            aim = what == "sar" ? ">= 10" (after < 10 * before ? " missed" : "") : ""
            printf "%7d  %-14s %13d %11d %8.1f  %s\n", size, what == "sar" ? "SAR, durable" : "UAR", before, after, after / before, aim
        }'
    done
done
