#!/usr/bin/env bash
# Processor time of `rt all verdict`, which proves all from nothing, on the tree of each COMMIT: it is steady beside other work where time by the clock is not.
# One line a tree: the commit, user and system seconds together, the crates proved.
#
#     bench/prove-time.sh COMMIT..
. "$(dirname "$0")/../tests/script.sh"
[ $# -gt 0 ] || { sed -n '2,5s/^# \{0,1\}//p' "$0" >&2; exit 2; }
room=$(mktemp -d)
rooms+=("$room")
TIMEFORMAT='%U %S'
for commit; do
    short=$(git -C "$top" rev-parse --short "$commit")
    tree=$room/$short
    git -C "$top" archive --prefix="$short/" "$commit" crates crates.txt | tar -x -C "$room"
    if ! { time (cd "$tree" && rt all verdict --jobs 1 >"$room/said" 2>&1); } 2>"$room/took"; then
        sed '1,/^== summary$/d; /: ok$/d' "$room/said" | grep . >&2 || tail -n 5 "$room/said" >&2
        echo "$short: not proved" >&2
        exit 1
    fi
    printf '%s %d s, %d crates\n' "$short" "$(awk '{ print $1 + $2 }' "$room/took" | tail -n 1 | cut -d . -f 1)" "$(sed -n 's/^\([0-9]*\) of [0-9]* crates ok$/\1/p' "$room/said")"
    rm -rf "$tree"
done
