#!/usr/bin/env bash
# tables.sh ROOM MAKETABLE SHOWTABLE CHECK..: what maketable makes is sound to each CHECK, what it cannot make sound it refuses,
# and of each damaged table the first bad block is named; showtable says the same. RUN, if set, is the emulator that runs a CHECK.
. "$(dirname "$0")/script.sh"
. "$tests/blocks.sh"
shopt -s lastpipe
make_room "$1"
maketable=$2 showtable=$3
shift 3
checks=("$@")
text=$room/text table=$room/table profile=$room/profile

# Every CHECK says this of the table and the profile, and ends with status 0 for a sound table and 1 for a bad one.
says() { # EXPECTED ABOUT
    local check said status due=1
    [ "${1%%,*}" != sound ] || due=0
    for check in "${checks[@]}"; do
        status=0
        said=$("${run[@]}" "$check" "$table" "$profile") || status=$?
        [ "$said" = "$1" ] || fail "$2: $check says '$said' and should say '$1'"
        [ "$status" = "$due" ] || fail "$2: $check ends with status $status and should end with $due"
    done
    status=0
    said=$("$showtable" "$table" "$profile" 2>&1 >"$room/shown") || status=$?
    [ "$status" = "$due" ] || fail "$2: showtable ends with status $status and should end with $due"
    [ "$due" = 0 ] || { [ "$said" = "ndushavire-showtable: $table: $1" ] && [ ! -s "$room/shown" ]; } || fail "$2: showtable says '$said' and should say '$1'"
    tried=$((tried + 1))
}

# Every CHECK says this of a table in a longer area, and showtable, which wants the table alone, that its length is wrong.
in_area() { # EXPECTED STATUS ABOUT
    local check said status
    for check in "${checks[@]}"; do
        status=0
        said=$("${run[@]}" "$check" "$table" "$profile") || status=$?
        [ "$said" = "$1" ] && [ "$status" = "$2" ] || fail "$3: $check says '$said' and should say '$1', status $status"
    done
    status=0
    said=$("$showtable" "$table" "$profile" 2>&1) || status=$?
    [ "$said" = "ndushavire-showtable: $table: block 0 is bad" ] && [ "$status" = 1 ] || fail "$3: showtable says '$said', status $status"
    tried=$((tried + 1))
}

make_both() { # TEXT TABLE PROFILE
    "$maketable" table "$1" >"$2" && "$maketable" profile "$1" >"$3"
}

head='host=h realm=r keep=0'
one='public=p private=q'
many() { printf "%0*d" "$1" 0; } # N bytes

# A text on standard input makes a table that is sound.
sound() { # RECORDS ABOUT
    cat >"$text"
    make_both "$text" "$table" "$profile" || fail "$2: refused"
    says "sound, $1 records" "$2"
}

# A text on standard input is refused at a line, and nothing is written.
refused() { # LINE PHRASE
    cat >"$text"
    local what status
    for what in table profile; do
        status=0
        "$maketable" "$what" "$text" >"$table" 2>"$room/said" || status=$?
        [ "$status" = 1 ] || fail "not refused: $2"
        [ ! -s "$table" ] || fail "something was written: $2"
        grep -q -F ":$1: $2" "$room/said" || fail "expected line $1, '$2', and got: $(cat "$room/said")"
    done
    tried=$((tried + 1))
}

echo "$head" | sound 0 'no record'
printf '\n\n# a comment\n%s # and another\n# no gap\nnetwork=n\n\n\n%s\n\n' "$head" "$one" | sound 1 'gaps and comments'
printf 'host=%s realm=%s keep=1 %s\n\npublic=%s private=%s server=%s state=unregistered pending barred unregistered-services %s mandatory=0,1,4294967295,3 optional=4,5,6,7 profile=%s\n' \
    "$(many 64)" "$(many 64)" "$(printf 'network=%030d%d ' 0 1 0 2 0 3 0 4 0 5 0 6 0 7 0 8)" "$(many 128)" "$(many 128)" "$(many 96)" \
    "$(printf 'roaming=%030d%d ' 0 1 0 2 0 8)" "$(many 4096)" | sound 1 'everything at its largest'
printf '%s\n\npublic=aa private=q\n\npublic="a\\x00" private=q\n\npublic=a private=q\n\npublic="\\xff\\"\\\\\\n" private=q\n' "$head" | sound 4 'a < a, 0 < aa < 255'
{ echo "$head"; for i in $(seq 4096); do printf '\npublic=%d private=q\n' "$i"; done; } | sound 4096 'the most records'
{ echo "$head issue=4294967295"; for i in $(seq 4096); do printf '\npublic=%d private=q set=%d\n' "$i" $((16 * i - 1)); done; } |
    sound 4096 'the most records, in sets'
echo "issue=0 $head" | sound 0 'edition 2, and no record'
printf '%s\nissue=07\n\n%s set=1\n\npublic=r private=q set=00001\n\npublic=s private=r set=0\n' "$head" "$one" | sound 3 'a set'
# A set agrees in state, pending and server, and in nothing else.
printf '%s issue=1 network=n\n\n%s set=1 %s\n\npublic=a private=q set=1 %s %s\n' "$head" "$one" 'state=unregistered pending server=s' \
    'state=unregistered pending server=s' 'barred unregistered-services roaming=n mandatory=1 optional=2,3 profile=p' | sound 2 'a set that agrees'
# Lines with another number, or under another card, are of another set, and those with 0 of none.
printf '%s issue=1\n\n%s set=256\n\npublic=a private=q set=1 pending server=s\n\npublic=b private=r set=256 state=registered server=s\n%s' "$head" "$one" \
    "$(printf '\npublic=%s private=q set=0 state=registered server=%s\n' c s d t)" | sound 5 'lines that are in no set together'
{ echo "$head issue=1"; for i in $(seq 4096); do printf '\npublic=%d private=q set=1 pending server=s\n' "$i"; done; } | sound 4096 'the largest set'
printf '%s\n\n%s set=0\n' "$head" "$one" | sound 1 'set 0 in edition 1'

refused 1 'host is missing' </dev/null
echo 'realm=r keep=0' | refused 1 'host is missing'
echo 'host=h keep=0' | refused 1 'realm is missing'
echo 'host=h realm=r' | refused 1 'keep is missing'
echo 'host= realm=r keep=0' | refused 1 'host has 0 bytes'
echo "host=$(many 65) realm=r keep=0" | refused 1 'host has 65 bytes'
echo "host=h realm=$(many 65) keep=0" | refused 1 'realm has 65 bytes'
echo 'host=h realm=r keep=2' | refused 1 'keep has none of its values'
echo "$head keep=0" | refused 1 'keep stands there twice'
echo "$head network=" | refused 1 'network has 0 bytes'
echo "$head network=$(many 32)" | refused 1 'network has 32 bytes'
echo "$head network=n network=m network=n" | refused 1 'two networks are alike'
echo "$head $(printf 'network=%d ' 1 2 3 4 5 6 7 8 9)" | refused 1 'there are more than 8 networks'
echo "$head public=p" | refused 1 'public is no word of a header'
echo "$head set=1" | refused 1 'set is no word of a header'
for number in '' -1 1x 0x1 4294967296 99999999999999999999999; do echo "$head issue=$number" | refused 1 'issue is a number of up to 32 bits'; done
echo "$head issue=1 issue=1" | refused 1 'issue stands there twice'
echo "$head issue" | refused 1 'issue wants a value'
printf '%s\n\nprivate=q\n' "$head" | refused 3 'public is missing'
printf '%s\n\npublic=p\n' "$head" | refused 3 'private is missing'
printf '%s\n\npublic= private=q\n' "$head" | refused 3 'public has 0 bytes'
printf '%s\n\npublic=%s private=q\n' "$head" "$(many 129)" | refused 3 'public has 129 bytes'
printf '%s\n\npublic=p private=%s\n' "$head" "$(many 129)" | refused 3 'private has 129 bytes'
printf '%s\n\n%s pending server=%s\n' "$head" "$one" "$(many 97)" | refused 3 'server has 97 bytes'
printf '%s\n\n%s profile=%s\n' "$head" "$one" "$(many 4097)" | refused 3 'profile has 4097 bytes'
printf '%s\n\n%s state=2\n' "$head" "$one" | refused 3 'state has none of its values'
printf '%s\n\n%s state=registered\n' "$head" "$one" | refused 3 'server is missing'
printf '%s\n\n%s state=unregistered\n' "$head" "$one" | refused 3 'server is missing'
printf '%s\n\n%s pending\n' "$head" "$one" | refused 3 'server is missing'
printf '%s\n\n%s server=s\n' "$head" "$one" | refused 3 'a line that is not registered and not pending has no server'
printf '%s\n\n%s roaming=n\n' "$head" "$one" | refused 3 'roaming names no network'
printf '%s\n\n%s mandatory=1,2,3,4,5\n' "$head" "$one" | refused 3 'mandatory has more than 4 numbers'
printf '%s\n\n%s optional=1,,2\n' "$head" "$one" | refused 3 'optional is numbers'
printf '%s\n\n%s optional=\n' "$head" "$one" | refused 3 'optional is numbers'
printf '%s\n\n%s optional=4294967296\n' "$head" "$one" | refused 3 'a number of optional is over 32 bits'
printf '%s\n\n%s barred=1\n' "$head" "$one" | refused 3 'barred takes no value'
printf '%s\n\n%s state\n' "$head" "$one" | refused 3 'state wants a value'
printf '%s\n\n%s colour=red\n' "$head" "$one" | refused 3 'there is no word colour'
printf '%s\n\n%s host=h\n' "$head" "$one" | refused 3 'host is no word of a record'
printf '%s issue=1\n\n%s issue=1\n' "$head" "$one" | refused 3 'issue is no word of a record'
printf '%s\n\n%s set=1\n' "$head" "$one" | refused 3 'a set wants an issue in the header'
for number in '' -1 1x 65536 99999999999999999999999; do
    printf '%s issue=1\n\n%s\nset=%s\n' "$head" "$one" "$number" | refused 4 'set is a number of up to 16 bits'
done
printf '%s issue=1\n\n%s set=1 set=1\n' "$head" "$one" | refused 3 'set stands there twice'
registered='set=1 state=registered server=s'
disagrees() { # WORDS OF THE FIRST, OF ANOTHER, WHAT
    printf '%s issue=1\n\n%s %s\n\npublic=a private=q\n\npublic=b private=q %s\n\npublic=c private=q %s\n' "$head" "$one" "$1" "$1" "$2" |
        refused 9 "$3 is not as at line 3, which is of the same set"
}
disagrees "$registered" 'set=1' state
disagrees "$registered" 'set=1 state=unregistered server=s' state
disagrees "$registered" "$registered pending" pending
disagrees "$registered pending" "$registered" pending
disagrees 'set=1' 'set=1 pending server=s' pending
disagrees "$registered" 'set=1 state=registered server=t' server
disagrees "$registered" 'set=1 state=registered server=ss' server
printf '%s\n\n%s\nprofile="open\n' "$head" "$one" | refused 4 'a quote is not closed'
printf '%s\n\n%s\nprofile="a"b\n' "$head" "$one" | refused 4 'a blank is missing'
printf '%s\n\n%s\nprofile="\\x4"\n' "$head" "$one" | refused 4 'a backslash wants'
printf '%s\n\n%s\n\npublic=o private=q\n\n%s\n' "$head" "$one" "$one" | refused 7 'its public identity stands at line 3 already'
{ echo "$head"; for i in $(seq 4097); do printf '\npublic=%d private=q\n' "$i"; done; } | refused 8195 'there are more than 4096 records'

# The sample, and copies of it that are damaged.
whole=$room/whole whole_profile=$room/whole-profile
make_both "$(dirname "$0")/../examples/households.txt" "$whole" "$whole_profile"
blocks=$(($(stat -c %s "$whole") / 512))
fresh() { cp "$whole" "$table" && cp "$whole_profile" "$profile"; }
fresh
says "sound, $((blocks - 1)) records" 'the sample'
for block in $(seq 0 $((blocks - 1))); do
    for place in 0 1 3 7 8 15 16 400 507 511; do
        fresh
        flip "$table" $((512 * block + place)) 1
        says "block $block is bad" "a bit of byte $place of block $block changed"
    done
    for place in 0 1 3 7 406 407 408 411 450; do # kind, edition, unused, block number, what edition 2 has, unused
        fresh
        flip "$table" $((512 * block + place)) 1
        mend "$table" "$block"
        says "block $block is bad" "a bit of byte $place of block $block changed, and its check word mended"
    done
    fresh
    dd if=/dev/zero of="$table" bs=512 seek="$block" count=1 conv=notrunc status=none
    says "block $block is bad" "block $block all zero"
    [ "$block" -ge 1 ] || continue
    fresh
    flip "$table" $((512 * block + 9)) 2
    mend "$table" "$block"
    says "sound, $((blocks - 1)) records" "block $block barred or no longer, and its check word mended"
    [ "$block" -ge 2 ] || continue
    fresh
    copy_block "$whole" "$table" "$block" $((block - 1))
    copy_block "$whole" "$table" $((block - 1)) "$block"
    says "block $((block - 1)) is bad" "blocks $((block - 1)) and $block changed over"
    for number in $((block - 1)) "$block"; do
        set_byte "$table" $((512 * number + 7)) "$number"
        mend "$table" "$number"
    done
    says "block $block is bad" "the records of blocks $((block - 1)) and $block changed over: their order"
    fresh
    copy_block "$whole" "$table" $((block - 1)) "$block"
    set_byte "$table" $((512 * block + 7)) "$block"
    mend "$table" "$block"
    says "block $block is bad" "the record of block $((block - 1)) twice"
done
for length in 0 1 511 512 $((512 * (blocks - 1))) $((512 * blocks - 1)); do
    fresh
    truncate -s "$length" "$table"
    says 'block 0 is bad' "the first $length bytes alone"
done
# A working area may be longer than its table: what stands past it is not looked at, be it zeros or blocks of a table.
tail -c +513 "$whole" >"$room/other"
cat "$whole" >>"$room/other"
for more in 1 511 512 513 5000; do
    past="sound, $((blocks - 1)) records"$'\n'"$more bytes past the table were not looked at"
    fresh
    truncate -s "+$more" "$table"
    in_area "$past" 0 "$more zeros past the table"
    fresh
    head -c "$more" "$room/other" >>"$table"
    in_area "$past" 0 "$more bytes of another table past the table"
    for block in 0 1 $((blocks - 1)); do
        fresh
        head -c "$more" "$whole" >>"$table"
        flip "$table" $((512 * block + 508)) 1
        in_area "block $block is bad" 1 "$more bytes past a table of which block $block is bad"
    done
done
fresh
truncate -s -1 "$profile"
says "block $((blocks - 1)) is bad" 'the profile a byte short'
fresh
: >"$profile"
says 'block 1 is bad' 'no profile'
fresh
truncate -s +1 "$profile"
says "sound, $((blocks - 1)) records" 'the profile a byte longer'

# The sample in edition 2, of issue 7, every record in a set; then of another issue, and of issue 0.
of_issue() { # ISSUE TABLE
    awk -v issue="$1" '/^host=/ { $0 = $0 " issue=" issue } /^public=/ { $0 = $0 " set=" ++set } 1' "$(dirname "$0")/../examples/households.txt" >"$text"
    "$maketable" table "$text" >"$2"
}
cp "$whole" "$room/edition-1"
of_issue 8 "$room/issue-8"
of_issue 0 "$room/issue-0"
of_issue 7 "$whole"
fresh
says "sound, $((blocks - 1)) records" 'the sample in edition 2'
# A record that does not go with the header is bad, and of a header that does not go with the records the first record.
for block in $(seq 0 $((blocks - 1))); do
    later=$((block > 0 ? block : 1))
    for place in 408 409 410 411; do
        fresh
        flip "$table" $((512 * block + place)) 8
        says "block $block is bad" "edition 2, a bit of byte $place of block $block changed"
        mend "$table" "$block"
        says "block $later is bad" "edition 2, another issue by byte $place in block $block"
    done
    for other in edition-1 issue-8 issue-0; do
        fresh
        copy_block "$room/$other" "$table" "$block" "$block"
        says "block $later is bad" "edition 2, block $block of $other"
        cp "$room/$other" "$table"
        copy_block "$whole" "$table" "$block" "$block"
        says "block $later is bad" "$other, block $block of edition 2"
    done
    for place in 400 404 412 507; do
        [ "$block" = 0 ] || [ "$place" -gt 411 ] || continue
        fresh
        flip "$table" $((512 * block + place)) 8
        mend "$table" "$block"
        says "block $block is bad" "edition 2, byte $place of block $block"
    done
    for edition in 0 1 3 255; do
        fresh
        set_byte "$table" $((512 * block + 1)) "$edition"
        mend "$table" "$block"
        says "block $block is bad" "edition 2, edition $edition in block $block"
    done
    for place in 406 407; do
        fresh
        flip "$table" $((512 * block + place)) 255
        mend "$table" "$block"
        said="sound, $((blocks - 1)) records"
        [ "$block" != 0 ] || said='block 0 is bad'
        says "$said" "edition 2, byte $place of block $block, which in a record is the set's"
    done
done
# The guest house, blocks 5, 7 and 8 of the sample, as one set: what they disagree in is the later block's fault.
household() { # the desk, registered, and two lines like it, in set 258
    local line
    fresh
    for line in 7 8; do
        set_byte "$table" $((512 * line + 8)) 1
        set_byte "$table" $((512 * line + 9)) $(($(get_byte "$table" $((512 * line + 9))) & 6))
    done
    for line in 5 7 8; do
        set_byte "$table" $((512 * line + 406)) 1
        set_byte "$table" $((512 * line + 407)) 2
        mend "$table" "$line"
    done
}
household
says "sound, $((blocks - 1)) records" 'a set that agrees'
for block in 5 7 8; do
    later=$((block > 5 ? block : 7))
    for damage in '8 3' '9 1' '272 1'; do # another state, pending, another server
        household
        flip "$table" $((512 * block + ${damage% *})) "${damage#* }"
        mend "$table" "$block"
        says "block $later is bad" "a set, byte ${damage% *} of block $block"
        # In a set of its own, of another number or of none, the line may be so.
        set_byte "$table" $((512 * block + 406)) 0
        mend "$table" "$block"
        says "sound, $((blocks - 1)) records" "byte ${damage% *} of block $block, in another set"
        set_byte "$table" $((512 * block + 407)) 0
        mend "$table" "$block"
        says "sound, $((blocks - 1)) records" "byte ${damage% *} of block $block, in no set"
    done
    # A server's name that goes on where the others' end.
    household
    length=$(get_byte "$table" $((512 * block + 15)))
    set_byte "$table" $((512 * block + 15)) $((length + 1))
    set_byte "$table" $((512 * block + 272 + length)) 48
    mend "$table" "$block"
    says "block $later is bad" "a set, a longer server in block $block"
    # Barring, services and networks are each line's own; under another card it is another set.
    household
    flip "$table" $((512 * block + 9)) 6
    flip "$table" $((512 * block + 10)) 3
    mend "$table" "$block"
    says "sound, $((blocks - 1)) records" "a set, other bits in block $block"
    flip "$table" $((512 * block + 8)) 3
    flip "$table" $((512 * block + 144)) 1
    mend "$table" "$block"
    says "sound, $((blocks - 1)) records" "another state under another card in block $block"
done
# Two sets that disagree: the lowest later block is named.
household
for block in 3 4; do
    set_byte "$table" $((512 * block + 407)) 9
    mend "$table" "$block"
done
flip "$table" $((512 * 7 + 8)) 3
mend "$table" 7
says 'block 4 is bad' 'two sets that disagree'
cp "$room/issue-0" "$table"
set_byte "$table" 1 1
mend "$table" 0
says 'block 1 is bad' 'issue 0, and edition 1 in the header alone'
# Without records a header of either edition, and of every issue, is a table.
echo "$head issue=7" | sound 0 'edition 2, and no record'
flip "$table" 408 255
mend "$table" 0
says 'sound, 0 records' 'another issue, and no record'
truncate -s +512 "$table"
in_area $'sound, 0 records\n512 bytes past the table were not looked at' 0 'edition 2, and a block past it'

# What cannot be read or written is reported, with nothing on standard output.
ends() { # STATUS COMMAND..
    local status=0
    "${@:2}" >"$room/said" 2>"$room/errors" || status=$?
    [ "$status" = "$1" ] && [ ! -s "$room/said" ] && [ -s "$room/errors" ] || fail "${*:2}: not reported, or status $status instead of $1"
    tried=$((tried + 1))
}
version=$(header_version)
for check in "${checks[@]}"; do
    ends 2 "${run[@]}" "$check" "$table" "$room/none"
    ends 2 "${run[@]}" "$check" "$room" "$profile"
    ends 2 "${run[@]}" "$check"
    ends 2 "${run[@]}" "$check" "$table"
    ends 2 "${run[@]}" "$check" "$table" "$profile" /dev/null /dev/null
    ends 2 "${run[@]}" "$check" --version "$profile"
    ends 2 bash -c '"$@" >/dev/full' - "${run[@]}" "$check" "$table" "$profile"
    ends 2 bash -c '"$@" >&-' - "${run[@]}" "$check" "$table" "$profile"
    ends 2 bash -c '"$@" >/dev/full' - "${run[@]}" "$check" --help
    [ "$("${run[@]}" "$check" --version)" = "ndushavire-check $version" ] || fail "$check --version does not say $version"
    [[ $("${run[@]}" "$check" --help) == 'usage: ndushavire-check '* ]] || fail "$check --help says nothing of its use"
done
for program in "$maketable" "$showtable"; do
    name=ndushavire-${program##*/}
    [ "$("$program" --version)" = "$name $version" ] || fail "$program --version does not say $version"
    [[ $("$program" --help) == "usage: $name "* ]] || fail "$program --help says nothing of its use"
    ends 2 bash -c '"$0" --help >/dev/full' "$program"
    ends 2 "$program" --version --help
    ends 2 "$program" --versions
    ends 2 "$program"
done
ends 2 "$maketable" record "$text"
ends 2 "$maketable" table "$room/none"
ends 2 bash -c '"$0" table "$1" >/dev/full' "$maketable" "$(dirname "$0")/../examples/households.txt"

echo "tables.sh: $tried tables and texts, each as it should be"
