#!/usr/bin/env bash
# narrow.sh REFERENCE SEED COUNT DRIVER..: so many calls, and a tenth as many of each other entry, by a DRIVER whose calls have the stack of the
# little box (narrow.c), beside the independent program. A call that finds most of that stack used up must be told of.
. "$(dirname "$0")/script.sh"
reference=$1 seed=$2 count=$3
driver=("${@:4}")

compare() { # KIND COUNT
    "$reference" compare --kind "$1" --seed "$seed" --count "$2" -- "${driver[@]}"
}

others=(plain voicemail reports rows tables vectors moves takes lists)
echo "narrow.sh: seed $seed, $count calls, and $((count / 10)) of each of ${others[*]}, on a stack of 16 KiB"
compare calls "$count"
for kind in "${others[@]}"; do
    compare "$kind" $((count / 10))
done
for kind in calls "${others[@]}"; do
    status=0
    said=$(SPENT=16000 compare "$kind" 20 2>&1) || status=$? # a call that is refused at once may find room
    [ "$status" = 1 ] && grep -q 'narrow: a call needs more than a stack of 16 KiB' <<<"$said" || fail "$kind end with status $status on a stack that has no room"
done
