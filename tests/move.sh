#!/usr/bin/env bash
# move.sh ROOM MAKETABLE SHOWTABLE CHECK MOVE..: each MOVE moves tables from edition 1 to 2 and back, into new files alone. What it makes is what
# maketable makes of the text with the issue; there and back is the first file again. Whatever is refused leaves no file, and names the
# block. RUN, if set, is the emulator.
. "$(dirname "$0")/script.sh"
. "$tests/blocks.sh"
. "$tests/newfile.sh"
make_room "$1" here
maketable=$(realpath "$2") showtable=$(realpath "$3") check=$(realpath "$4")
shift 4
moves=()
for move in "$@"; do moves+=("$(realpath "$move")"); done
sample=$top/examples/households.txt table=$room/table profile=$room/profile new=$room/here/new
"$maketable" table "$sample" >"$room/first"
"$maketable" profile "$sample" >"$profile"
of_issue 7 "$room/second"
blocks=$(($(stat -c %s "$room/first") / 512))

# The program with these words ends with STATUS and says SAID, and nothing on standard error; TABLE and PROFILE stay as they are.
said() { # STATUS SAID ABOUT WORD..
    local status=0 before
    before=$(cksum "$table" "$profile")
    "${run[@]}" "$move" "${@:4}" >"$room/said" 2>"$room/errors" || status=$?
    [ "$(cat "$room/said")" = "$2" ] && [ ! -s "$room/errors" ] || fail "$3: $move says '$(cat "$room/said" "$room/errors")' and should say '$2'"
    [ "$status" = "$1" ] || fail "$3: $move ends with status $status instead of $1"
    [ "$(cksum "$table" "$profile")" = "$before" ] || fail "$3: $move alters what it reads"
    tried=$((tried + 1))
}
# A table is moved, and the new file is EXPECTED; nothing else is left.
moved() { # EXPECTED SAID ABOUT WORD..
    for move in "${moves[@]}"; do
        said 0 "$2" "$3" "${@:4}" "$table" "$profile" "$new"
        cmp "$1" "$new" >&2 || fail "$3: $move makes another table"
        [ "$(files_here)" = './new ' ] && [ "$(stat -c %a "$new")" = 640 ] || fail "$3: $move leaves $(ls -l "$room/here")"
        "${run[@]}" "$check" "$new" "$profile" >"$room/said" || fail "$3: $move makes a table that is not sound"
        rm "$new"
    done
}
# A move is refused, and there is no new file.
refused() { # SAID ABOUT WORD..
    for move in "${moves[@]}"; do
        said 1 "$1" "$2" "${@:3}" "$table" "$profile" "$new"
        [ -z "$(files_here)" ] || fail "$2: $move leaves $(files_here)"
    done
}
umask 027

# ---- there and back
for issue in 0 1 7 258 2147483648 4294967295; do
    of_issue "$issue" "$room/issue"
    cp "$room/first" "$table"
    moved "$room/issue" "moved to edition 2, $((blocks - 1)) records, issue $issue" "issue $issue" forward "$issue"
    cp "$room/issue" "$table"
    moved "$room/first" "moved to edition 1, $((blocks - 1)) records" "back from issue $issue" back
done
cp "$room/first" "$table"
moved "$room/second" "moved to edition 2, $((blocks - 1)) records, issue 7" 'an issue with zeros before it' forward 007
for edition in 1 2; do
    "$maketable" table <(printf 'host=h realm=r keep=0%s\n' "$([ "$edition" = 1 ] || echo ' issue=3')") >"$room/none-$edition"
done
cp "$room/none-1" "$table"
moved "$room/none-2" 'moved to edition 2, 0 records, issue 3' 'no records' forward 3
cp "$room/none-2" "$table"
moved "$room/none-1" 'moved to edition 1, 0 records' 'no records, back' back
# What is moved is shown as the text with the issue.
"$showtable" "$room/second" "$profile" | sed '1s/ issue=7$//' | diff <("$showtable" "$room/first" "$profile") - >&2 || fail 'the moved table is shown otherwise'

# ---- refused
cp "$room/second" "$table"
refused 'refused 5, block 0: the table is of edition 2' 'edition 2, forward' forward 7
refused 'refused 5, block 0: the table is of edition 2' 'edition 2, forward with another issue' forward 8
cp "$room/first" "$table"
refused 'refused 5, block 0: the table is of edition 1' 'edition 1, back' back
of_issue 7 "$table" '/^public=sip:bob@isle / { $0 = $0 " set=258" } /^public=sip:erin@isle / { $0 = $0 " set=3" }'
refused 'refused 8, block 4 has set 258' 'two sets, back' back
refused 'refused 5, block 0: the table is of edition 2' 'two sets, forward' forward 7
# Two of one card and one set, of which one is registered: unsound, and 5 comes before 8.
copy_block "$room/second" "$table" 3 3
set_byte "$table" $((512 * 3 + 406)) 1
set_byte "$table" $((512 * 3 + 407)) 2
mend "$table" 3
refused 'refused 5, block 4 is bad' 'a set that does not agree, back' back
refused 'refused 5, block 4 is bad' 'a set that does not agree, forward' forward 7
of_issue 0 "$table" '/^public=tel:/ { $0 = $0 " set=65535" }'
refused "refused 8, block $((blocks - 1)) has set 65535" 'the last record in a set' back
for block in $(seq 0 $((blocks - 1))); do
    later=$((block > 0 ? block : 1))
    for edition in first second; do
        cp "$room/$edition" "$table"
        flip "$table" $((512 * block + 511)) 1
        refused "refused 5, block $block is bad" "$edition, check word of block $block" forward 7
        refused "refused 5, block $block is bad" "$edition, check word of block $block, back" back
    done
    # Editions mixed: one block of the other.
    copy_block "$room/first" "$table" "$block" "$block"
    refused "refused 5, block $later is bad" "block $block of edition 1" back
    # 5 comes before 8.
    of_issue 7 "$table" '/^public=/ { $0 = $0 " set=" ++set }'
    flip "$table" $((512 * block + 408)) 1
    mend "$table" "$block"
    refused "refused 5, block $later is bad" "block $block of another issue" back
    refused "refused 5, block $later is bad" "block $block of another issue, forward" forward 7
done
cp "$room/first" "$table"
truncate -s -512 "$table"
refused 'refused 5, block 0 is bad' 'a table cut short' forward 7
cp "$room/second" "$table"
truncate -s +1 "$table"
refused 'refused 5, block 0: 1 bytes stand past the table' 'a byte behind a table' back
refused 'refused 5, block 0: 1 bytes stand past the table' 'a byte behind a table, forward' forward 7
cp "$room/first" "$table"
truncate -s +1024 "$table"
refused 'refused 5, block 0: 1024 bytes stand past the table' 'two blocks behind a table' forward 7
: >"$table"
refused 'refused 5, block 0 is bad' 'no byte' back
cp "$room/first" "$table"
cp "$profile" "$room/kept"
: >"$profile"
refused 'refused 5, block 1 is bad' 'no profile' forward 7
mv "$room/kept" "$profile"

# ---- no file is ever written over, nor is anything left that was not stored. A message on standard error and status 2.
fails() { # ABOUT WORD..
    local status=0 before
    before=$(files_here; cksum "$table")
    "${run[@]}" "$move" "${@:2}" >"$room/said" 2>"$room/errors" || status=$?
    [ "$status" = 2 ] && [ ! -s "$room/said" ] && [ -s "$room/errors" ] || fail "$1: $move ends with status $status, says '$(cat "$room/said" "$room/errors")'"
    [ "$(files_here; cksum "$table")" = "$before" ] || fail "$1: $move leaves $(files_here)"
    tried=$((tried + 1))
}
version=$(header_version)
for move in "${moves[@]}"; do
    fails 'over the table itself' forward 7 "$table" "$profile" "$table"
    cp "$table" "$room/kept.new"
    before=$(cksum <"$room/kept.new")
    fails 'where a table has the name that is written first' forward 7 "$room/kept.new" "$profile" "$room/kept"
    [ "$(cksum <"$room/kept.new")" = "$before" ] && [ ! -e "$room/kept" ] || fail 'a table with that name is gone'
    for there in file folder link loose fifo; do
        for name in "$new" "$new.new"; do
            put_there "$there" "$name"
            fails "$there at ${name##*/}" forward 7 "$table" "$profile" "$new"
            [ "$there" != file ] || [ "$(cat "$name")" = mine ] || fail "$move writes over a file"
            [ ! -e "$room/none" ] || fail "$move follows a link"
            rm -r "$name"
        done
    done
    fails 'a folder that is not there' forward 7 "$table" "$profile" "$room/none/new"
    fails 'a folder that is a file' forward 7 "$table" "$profile" "$table/new"
    fails 'no name' forward 7 "$table" "$profile" "$room/here/"
    fails 'no name at all' forward 7 "$table" "$profile" ''
    fails 'a name too long' forward 7 "$table" "$profile" "$room/here/$(printf %0255d 0)"
    fails 'no table' forward 7 "$room/none" "$profile" "$new"
    fails 'no profile' forward 7 "$table" "$room/none" "$new"
    (trap '' XFSZ && ulimit -f 1 && fails 'no room for the new file' forward 7 "$table" "$profile" "$new") || exit
    for issue in '' -1 +1 ' 1' 1x x 0x7 4294967296 99999999999999999999999999; do
        fails "issue '$issue'" forward "$issue" "$table" "$profile" "$new"
    done
    fails 'no word'
    fails 'no issue' forward "$table" "$profile" "$new"
    fails 'back with an issue' back 7 "$table" "$profile" "$new"
    fails 'another move' sideways "$table" "$profile" "$new"
    fails 'no new file' back "$table" "$profile"
    fails 'a file too many' back "$table" "$profile" "$new" "$new"
    fails 'help and more' --help back
    # A name alone is in this folder.
    (cd "$room/here" && said 0 "moved to edition 2, $((blocks - 1)) records, issue 7" 'a name alone' forward 7 "$table" "$profile" new) || exit
    cmp "$room/second" "$new" >&2 || fail 'a name alone: another file'
    rm "$new"
    status=0
    "${run[@]}" "$move" forward 7 "$table" "$profile" "$new" >/dev/full 2>"$room/errors" || status=$?
    [ "$status" = 2 ] && grep -q '^standard output: ' "$room/errors" || fail "$move with nowhere to write ends with status $status"
    rm "$new"
    [ "$("${run[@]}" "$move" --version)" = "ndushavire-move $version" ] || fail "$move --version does not say $version"
    [[ $("${run[@]}" "$move" --help) == 'usage: ndushavire-move forward ISSUE '* ]] || fail "$move --help says nothing of its use"
    tried=$((tried + 4))
done

echo "move.sh: $tried moves, each as it should be"
