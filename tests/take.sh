#!/usr/bin/env bash
# take.sh MAKETABLE CHECK CUT_TAKE TAKE..: each TAKE takes tables over in place, and tells its refusals apart by its status; what is refused, or
# may not be written over, stays as it is to the byte. CUT_TAKE is the same built with cut.h: where a block cannot be written it says so, and
# the area is refused at that block. RUN, if set, is the emulator.
. "$(dirname "$0")/script.sh"
. "$tests/blocks.sh"
make_memory room
maketable=$(realpath "$1") check=$(realpath "$2") cut_take=$(realpath "$3")
shift 3
takes=()
for take in "$@"; do takes+=("$(realpath "$take")"); done
mkdir "$room/here" "$room/good"
sample=$top/examples/households.txt area=$room/here/table new=$room/good/table profile=$room/here/profile
# The sample in edition 2 with this issue; or its first records alone.
of_issue() { # ISSUE TABLE [RECORDS]
    awk -v issue="$1" -v most="${3-99}" '/^host=/ { $0 = $0 " issue=" issue } /^public=/ && ++seen > most { exit } 1' "$sample" >"$room/text"
    rm -f "$2"
    "$maketable" table "$room/text" >"$2"
}
"$maketable" table "$sample" >"$room/first"
"$maketable" profile "$sample" >"$profile"
blocks=$(($(stat -c %s "$room/first") / 512))
records=$((blocks - 1))
files() { (cd "$room" && ls -l --time-style=+ here good && cksum here/* good/*); }

# TAKE of these three ends with STATUS and says SAID, and nothing on standard error. Under a refusal no file is altered.
said() { # STATUS SAID ABOUT
    local status=0 before
    before=$(files)
    "${run[@]}" "$take" "$area" "$new" "$profile" >"$room/said" 2>"$room/errors" || status=$?
    [ "$(cat "$room/said")" = "$2" ] && [ ! -s "$room/errors" ] || fail "$3: $take says '$(cat "$room/said" "$room/errors")' and should say '$2'"
    [ "$status" = "$1" ] || fail "$3: $take ends with status $status instead of $1"
    [ "$1" = 0 ] || [ "$(files)" = "$before" ] || fail "$3: $take refuses, and alters $(files)"
    tried=$((tried + 1))
}
refused() { # STATUS SAID ABOUT
    for take in "${takes[@]}"; do said "$1" "refused $1, $2" "$3"; done
}
# NEW is taken over: the file is the same one, of the same length and mode; it has the new table, and behind it what it had; NEW stays.
taken() { # RECORDS ISSUE ABOUT
    local about good length
    cp "$area" "$room/before"
    good=$(ls -i --time-style=full-iso -l "$new" && cksum "$new")
    length=$(stat -c %s "$new")
    for take in "${takes[@]}"; do
        cat "$room/before" >"$area"
        about=$(stat -c '%i %s %a %u %g %h' "$area")
        said 0 "taken over, $1 records, issue $2" "$3"
        [ "$(stat -c '%i %s %a %u %g %h' "$area")" = "$about" ] || fail "$3: $take makes another file of it"
        cmp -n "$length" "$new" "$area" >&2 && cmp -i "$length" "$room/before" "$area" >&2 || fail "$3: $take writes something else"
        [ "$(ls -i --time-style=full-iso -l "$new" && cksum "$new")" = "$good" ] || fail "$3: $take alters the new table"
        [ "$(cd "$room/here" && ls | tr '\n' ' ')" = 'profile table ' ] || fail "$3: $take leaves $(ls "$room/here")"
        "${run[@]}" "$check" "$area" "$profile" | head -n 1 | grep -q -x "sound, $1 records" || fail "$3: what $take leaves is not sound"
    done
}

# ---- taken over
of_issue 8 "$new"
chmod 444 "$new"
for old in first 0 7; do
    [ "$old" = first ] && cp "$room/first" "$area" || of_issue "$old" "$area"
    taken "$records" 8 "over $old"
done
of_issue 4294967295 "$new"
of_issue 4294967294 "$area"
taken "$records" 4294967295 'the last issue that there is'
of_issue 8 "$new" 3
of_issue 7 "$area"
chmod 600 "$area"
taken 3 8 'a shorter table'
of_issue 8 "$new"
of_issue 7 "$area" 2
truncate -s $((512 * blocks)) "$area"
taken "$records" 8 'a longer table, into a longer area'
truncate -s 10000 "$area"
printf 'a last piece' >>"$area"
of_issue 9 "$new"
taken "$records" 9 'an area that is longer still'
head -c 9000 /dev/zero >"$area"
of_issue 0 "$new"
taken "$records" 0 'issue 0 over zeros'
head -c 9000 /dev/zero | tr '\0' '\377' >"$area"
taken "$records" 0 'issue 0 over noise'
# One that was cut before: the first blocks of issue 8 over issue 7.
of_issue 8 "$room/eight"
for cut in 1 4 $((blocks - 1)); do
    of_issue 7 "$area"
    dd if="$room/eight" of="$area" bs=512 count="$cut" conv=notrunc status=none
    of_issue 8 "$new"
    refused 10 'issue 8 is not greater than 8, which block 0 of the area has' "cut at $cut, and the same again"
    of_issue 9 "$new"
    taken "$records" 9 "cut at $cut, and mended by a greater issue"
    of_issue 8 "$new"
    of_issue 7 "$area"
    dd if="$room/eight" of="$area" bs=512 count="$cut" conv=notrunc status=none
    dd if=/dev/zero of="$area" bs=512 count="$blocks" conv=notrunc oflag=dsync status=none
    taken "$records" 8 "cut at $cut, zeroed, and the same again"
done
(cd "$room/here" && take=${takes[0]} && head -c 9000 /dev/zero >table && "${run[@]}" "$take" table ../good/table profile >/dev/null && cmp -n 5120 table ../good/table) ||
    fail 'names in this folder are not taken'

# ---- refused: 9, then 10, then 11, and nothing is written
of_issue 7 "$area"
cp "$room/first" "$new"
refused 9 'the new table is of edition 1' 'edition 1'
of_issue 8 "$new"
truncate -s +512 "$new"
refused 9 'the new table has 512 bytes past its records' 'a block past the new table'
of_issue 8 "$new"
truncate -s +1 "$new"
refused 9 'the new table has 1 bytes past its records' 'a byte past the new table'
truncate -s -2 "$new"
refused 9 'block 0 of the new table is bad' 'a byte short'
for block in $(seq 0 "$records"); do
    of_issue 8 "$new"
    flip "$new" $((512 * block + 20)) 1
    refused 9 "block $block of the new table is bad" "block $block of the new table"
    of_issue 8 "$new"
    flip "$area" $((512 * block + 411)) 15 # whatever its sum is now
    refused 10 "issue 8 is not greater than 8, which block $block of the area has" "issue 8 in block $block"
    flip "$area" $((512 * block + 411)) 15
done
: >"$new"
refused 9 'block 0 of the new table is bad' 'no byte'
of_issue 8 "$new" 3
copy_block "$room/eight" "$area" 9 9
refused 10 'issue 8 is not greater than 8, which block 9 of the area has' 'issue 8 in the last block, which is past the new table'
of_issue 4294967295 "$area"
refused 10 'issue 8 is not greater than 4294967295, which block 0 of the area has' 'the last issue in the area'
of_issue 7 "$area" 2
of_issue 8 "$new"
refused 11 'the area has 1536 bytes, and the new table 5120' 'an area too short'
truncate -s 5119 "$area"
refused 11 'the area has 5119 bytes, and the new table 5120' 'an area short by a byte'
of_issue 8 "$area" 2
refused 10 'issue 8 is not greater than 8, which block 0 of the area has' '10 before 11'
flip "$new" 20 1
refused 9 'block 0 of the new table is bad' '9 before 10'
of_issue 7 "$area"
of_issue 8 "$new"
mv "$profile" "$room/kept"
: >"$profile"
refused 9 'block 1 of the new table is bad' 'no profile'
mv "$room/kept" "$profile"

# ---- what may not be written over; nothing is said on standard output, and the status is 2
fails() { # PHRASE ABOUT ARGUMENT..
    local status=0 before
    before=$(files)
    "${run[@]}" "$take" "${@:3}" >"$room/said" 2>"$room/errors" || status=$?
    [ "$status" = 2 ] && [ ! -s "$room/said" ] && grep -q -e "$1" "$room/errors" || fail "$2: $take: status $status, says '$(cat "$room/said" "$room/errors")'"
    [ "$(files)" = "$before" ] || fail "$2: $take alters $(files)"
    tried=$((tried + 1))
}
version=$(header_version)
for take in "${takes[@]}"; do
    fails 'it is the area itself' 'the area twice' "$area" "$area" "$profile"
    fails 'it is the area itself' 'the profile as the area' "$profile" "$new" "$profile"
    ln "$new" "$room/good/again"
    fails 'it is the area itself' 'a second name of the new table' "$room/good/again" "$new" "$profile"
    rm "$room/good/again"
    ln -s ../good/table "$room/here/link"
    fails 'it is a link' 'a link as the area' "$room/here/link" "$new" "$profile"
    rm "$room/here/link"
    ln -s "$area" "$room/good/link"
    fails 'it is the area itself' 'a link to the area as the new table' "$area" "$room/good/link" "$profile"
    rm "$room/good/link"
    chmod 444 "$area"
    fails 'nobody may write to it: a last good file' 'a last good file as the area' "$area" "$new" "$profile"
    chmod 640 "$area"
    fails 'No such file' 'no area' "$room/here/none" "$new" "$profile"
    fails 'No such file' 'no folder' "$room/none/table" "$new" "$profile"
    fails 'No such file' 'no new table' "$area" "$room/none" "$profile"
    fails 'No such file' 'no profile' "$area" "$new" "$room/none"
    fails . 'a folder as the area' "$room/here" "$new" "$profile"
    mkfifo "$room/fifo"
    fails . 'a fifo as the area' "$room/fifo" "$new" "$profile"
    rm "$room/fifo"
    exec 8<"$room/here"
    flock 8
    fails 'a daemon has its folder' 'a lock on the folder' "$area" "$new" "$profile"
    exec 8<&-
    fails usage 'no argument'
    fails usage 'an argument too few' "$area" "$new"
    fails usage 'an argument too many' "$area" "$new" "$profile" "$profile"
    fails usage 'help and more' --help "$new"
    [ "$("${run[@]}" "$take" --version)" = "ndushavire-take $version" ] || fail "$take --version does not say $version"
    [[ $("${run[@]}" "$take" --help) == 'usage: ndushavire-take '* ]] || fail "$take --help says nothing of its use"
    status=0
    of_issue 7 "$area"
    "${run[@]}" "$take" "$area" "$new" "$profile" >/dev/full 2>"$room/errors" || status=$?
    [ "$status" = 2 ] && grep -q 'standard output' "$room/errors" && cmp "$new" "$area" >&2 || fail "standard output is full: $take ends with status $status"
    of_issue 7 "$area"
done

# ---- a disk that fails at a block: the status is 1, the blocks before are written, and the area is refused
cut_off() { # BLOCK WHAT STATUS WRITTEN
    local status=0
    of_issue 7 "$area"
    cp "$area" "$room/before"
    dd if="$new" of="$room/before" bs=512 count="$4" conv=notrunc status=none
    CUT=$1:$2 "${run[@]}" "$cut_take" "$area" "$new" "$profile" >"$room/said" 2>"$room/errors" || status=$?
    [ "$status" = "$3" ] || fail "block $1 $2: status $status instead of $3: $(cat "$room/said" "$room/errors")"
    [ "$3" = 0 ] || { [ ! -s "$room/said" ] && grep -q "block $1 of $blocks: Input/output error: the take-over is NOT finished" "$room/errors"; } ||
        fail "block $1 $2: it says '$(cat "$room/said" "$room/errors")'"
    cmp "$room/before" "$area" >&2 || fail "block $1 $2: other blocks are written"
    tried=$((tried + 1))
}
for block in $(seq 0 "$records"); do
    cut_off "$block" fails 1 "$block"
    cut_off "$block" unflushed 1 $((block + 1))
    cut_off "$block" short 0 "$blocks"
    cut_off "$block" interrupted 0 "$blocks"
    cut_off "$block" told 0 "$blocks"
done
echo "take.sh: $tried take-overs, refusals and failures, each as it should be"
