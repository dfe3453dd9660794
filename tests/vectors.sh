#!/usr/bin/env bash
# vectors.sh ROOM MAKETABLE SHOWTABLE CHECK..: vector files that maketable makes are sound to each CHECK, what it cannot make sound it
# refuses, and of each damaged file the first bad block is named; showtable says the same, writes the text again, and counts what is
# unused. RUN, if set, is the emulator that runs a CHECK.
. "$(dirname "$0")/script.sh"
. "$tests/blocks.sh"
shopt -s lastpipe
make_room "$1"
maketable=$2 showtable=$3
shift 3
checks=("$@")
examples=$top/examples
text=$room/text table=$room/table profile=$room/profile vectors=$room/vectors
"$maketable" table "$examples/households.txt" >"$table"
"$maketable" profile "$examples/households.txt" >"$profile"

# Every CHECK says this of the vector file beside a sound table, and ends with status 0 for a sound one and 1 for a bad one; showtable
# blames the same block. A sound one is shown as a text that makes it again.
says() { # EXPECTED ABOUT
    local check said status due=1
    [ "${1%%,*}" != 'vectors sound' ] || due=0
    for check in "${checks[@]}"; do
        status=0
        said=$("${run[@]}" "$check" "$table" "$profile" "$vectors") || status=$?
        [ "$said" = "sound, 9 records"$'\n'"$1" ] || fail "$2: $check says '$said' and should say '$1'"
        [ "$status" = "$due" ] || fail "$2: $check ends with status $status and should end with $due"
    done
    status=0
    said=$("$showtable" --vectors "$vectors" 2>&1 >"$room/shown") || status=$?
    [ "$status" = "$due" ] || fail "$2: showtable ends with status $status and should end with $due"
    if [ "$due" = 1 ]; then
        [ "$said" = "ndushavire-showtable: $vectors: ${1#vector }" ] && [ ! -s "$room/shown" ] || fail "$2: showtable says '$said' and should say '$1'"
    elif [ "${3-}" != twins ]; then
        "$maketable" vectors "$room/shown" | cmp - "$vectors" >&2 || fail "$2: what showtable writes makes another file"
    fi
    tried=$((tried + 1))
}
# A text on standard input makes a vector file that is sound.
sound() { # BLOCKS ABOUT
    cat >"$text"
    "$maketable" vectors "$text" >"$vectors" || fail "$2: refused"
    says "vectors sound, $1 blocks" "$2"
}
# A text on standard input is refused at a line, and nothing is written.
refused() { # LINE PHRASE
    local status=0
    cat >"$text"
    "$maketable" vectors "$text" >"$room/made" 2>"$room/said" || status=$?
    [ "$status" = 1 ] || fail "not refused: $2"
    [ ! -s "$room/made" ] || fail "something was written: $2"
    grep -q -F ":$1: $2" "$room/said" || fail "expected line $1, '$2', and got: $(cat "$room/said")"
    tried=$((tried + 1))
}
# What is wrong in use, cannot be read or cannot be written is reported, with nothing on standard output.
ends() { # STATUS COMMAND..
    local status=0
    "${@:2}" >"$room/said" 2>"$room/errors" || status=$?
    [ "$status" = "$1" ] && [ ! -s "$room/said" ] && [ -s "$room/errors" ] || fail "${*:2}: not reported, or status $status instead of $1"
    tried=$((tried + 1))
}
many() { printf "%0*d" "$1" 0; } # N digits
vector() { # WORD..: a vector of which these words are other ones; `word=-` leaves one out
    local word key words=(private=p "rand=$(many 32)" "autn=$(many 32)" xres=01020304 "confidentiality=$(many 32)" "integrity=$(many 32)") all=("$@")
    for word in "${words[@]}"; do
        key=${word%%=*}
        case " $* " in *" $key="*) ;; *) all+=("$word") ;; esac
    done
    for word in "${all[@]}"; do [ "${word#*=}" = - ] || printf '%s ' "$word"; done
    echo
}

# ---- texts
sound 0 'no text' </dev/null
printf '\n\n# nothing but a comment\n\n' | sound 0 'a comment'
vector | sound 1 'one vector'
vector used | sound 1 'a used one'
{ vector private=q; printf '\n\n# another\n'; vector private=p used; echo; vector private=q "rand=$(many 31)1"; } | sound 3 'three in their order'
[ "$(for k in 0 1 2; do get_byte "$vectors" $((512 * k + 4)); done | tr '\n' ' ')" = '113 112 113 ' ] || fail 'the order of the text is not kept'
for length in 4 5 6 7 8 9 10 11 12 13 14 15 16; do vector "xres=$(printf 'f%.0s' $(seq $((2 * length))))" | sound 1 "an XRES of $length bytes"; done
vector "private=$(many 128)" | sound 1 'a name of 128 bytes'
vector 'private="\x00\"\\\n\xff #="' | sound 1 'a name of any bytes'
vector "rand=$(printf 'Ff%.0s' $(seq 16))" "autn=$(printf 'aB%.0s' $(seq 16))" "confidentiality=\"$(many 32)\"" | sound 1 'digits in either case, and in quotes'
for number in $(seq 4096); do printf 'private=p rand=%032x autn=%032x xres=%08x confidentiality=%032x integrity=%032x\n\n' "$number" 1 2 3 4; done >"$room/most"
sound 4096 'the most vectors' <"$room/most"
{ cat "$room/most"; vector; } | refused 8193 'there are more than 4096 vectors'

vector private=- | refused 1 'private is missing'
vector rand=- | refused 1 'rand is missing'
vector autn=- | refused 1 'autn is missing'
vector xres=- | refused 1 'xres is missing'
vector confidentiality=- | refused 1 'confidentiality is missing'
vector integrity=- | refused 1 'integrity is missing'
vector private= | refused 1 'private has 0 bytes'
vector "private=$(many 129)" | refused 1 'private has 129 bytes'
for key in rand autn confidentiality integrity; do
    for value in '' 00 "$(many 31)" "$(many 33)" "$(many 34)" "$(many 31)g" "$(many 31)\""; do
        vector "$key=$value" | refused 1 "$key is 32 hexadecimal digits"
    done
done
for value in '' 010203 0102030 010203040 "$(many 34)" 0102030x "0x01020304"; do
    vector "xres=$value" | refused 1 'xres is 8 to 32 hexadecimal digits, two for a byte'
done
vector used=1 | refused 1 'used takes no value'
vector used used | refused 1 'used stands there twice'
{ vector; vector; } | refused 2 'private stands there twice'
vector host=h | refused 1 'host is no word of a vector'
vector public=p | refused 1 'public is no word of a vector'
vector colour=red | refused 1 'there is no word colour'
refused 2 'host is no word of a vector' <"$examples/households.txt"
{ vector; echo; vector private=q; echo; vector used "integrity=$(many 31)1"; echo; vector private=q; } | refused 5 'this vector stands at line 1 already'
for what in table profile; do
    "$maketable" "$what" "$examples/vectors.txt" >"$room/made" 2>"$room/said" && fail "maketable $what takes a text of vectors"
    grep -q -F 'private is no word of a header' "$room/said" || fail "maketable $what says of a text of vectors: $(cat "$room/said")"
    vector used | sed "s/^/host=h realm=r keep=0\n\n/; s/rand=[^ ]*//" >"$text"
    ! "$maketable" "$what" "$text" >"$room/made" 2>"$room/said" || fail "maketable $what takes a vector for a record"
done

# ---- the sample, and copies of it that are damaged
whole=$room/whole
"$maketable" vectors "$examples/vectors.txt" >"$whole"
fresh() { cp "$whole" "$vectors"; }
blocks=$(($(stat -c %s "$whole") / 512))
"$showtable" --vectors "$whole" | diff <(sed '/^#/d' "$examples/vectors.txt" | sed 1d) - >&2 || fail 'the sample is shown otherwise'
all="vectors sound, $blocks blocks"

changed() { # BLOCK PLACE BYTE: and the check word mended
    fresh
    set_byte "$vectors" $((512 * $1 + $2)) "$3"
    mend "$vectors" "$1"
}
fresh
says "$all" 'the sample'
for block in 0 2 5 8; do
    bad="vector block $block is bad"
    name=$(get_byte "$whole" $((512 * block + 3))) xres=$(get_byte "$whole" $((512 * block + 2))) used=$(get_byte "$whole" $((512 * block + 1)))
    for place in 0 1 2 3 4 131 132 163 164 179 180 195 196 211 212 507 508 511; do
        fresh
        flip "$vectors" $((512 * block + place)) 1
        says "$bad" "a bit of byte $place of block $block changed"
    done
    for of in 0:0 0:1 0:2 0:4 0:255 1:2 1:3 1:128 1:255 2:0 2:3 2:17 2:255 3:0 3:129 3:255 131:1 212:1 300:128 507:1; do
        changed "$block" "${of%:*}" "${of#*:}"
        says "$bad" "byte ${of%:*} of block $block is ${of#*:}"
    done
    changed "$block" $((4 + name)) 1
    says "$bad" "the byte behind the name of block $block"
    changed "$block" 3 $((name - 1))
    says "$bad" "the name of block $block a byte shorter, and its last byte still there"
    changed "$block" 3 0
    dd if=/dev/zero of="$vectors" bs=1 seek=$((512 * block + 4)) count=128 conv=notrunc status=none
    mend "$vectors" "$block"
    says "$bad" "no name in block $block"
    changed "$block" 2 3
    dd if=/dev/zero of="$vectors" bs=1 seek=$((512 * block + 167)) count=13 conv=notrunc status=none
    mend "$vectors" "$block"
    says "$bad" "an XRES of 3 bytes in block $block, and zeros behind it"
    if [ "$xres" -gt 4 ]; then
        changed "$block" 2 $((xres - 1))
        says "$bad" "the XRES of block $block a byte shorter, and its last byte still there"
    fi
    if [ "$xres" -lt 16 ]; then
        changed "$block" $((164 + xres)) 1
        says "$bad" "the byte behind the XRES of block $block"
        changed "$block" 2 $((xres + 1))
        says "$all" "the XRES of block $block a byte longer, which is 0"
    fi
    changed "$block" 1 $((1 - used))
    says "$all" "block $block used or no longer"
    for place in 132 148 163 164 180 196 211; do
        changed "$block" "$place" 0
        says "$all" "byte $place of block $block is 0"
    done
    fresh
    dd if=/dev/zero of="$vectors" bs=512 seek="$block" count=1 conv=notrunc status=none
    says "$bad" "block $block all zero, which sums to zero"
    fresh
    copy_block "$table" "$vectors" 1 "$block"
    says "$bad" "a record for block $block"
    fresh
    copy_block "$whole" "$vectors" $(((block + 4) % blocks)) "$block"
    copy_block "$whole" "$vectors" "$block" $(((block + 4) % blocks))
    says "$all" "two blocks changed over"
done
for length in 0 1 511 512 513 1023 1024 $((512 * blocks - 1)); do
    fresh
    truncate -s "$length" "$vectors"
    if [ $((length % 512)) = 0 ]; then expected="vectors sound, $((length / 512)) blocks"; else expected="vector block $((length / 512)) is bad"; fi
    says "$expected" "the first $length bytes alone"
done
# A block that ends in zeros, its check word too, and is cut off there: the zeros must be in the file.
fresh
set -- $(od -An -v -tu4 --endian=big -j $((512 * 8 + 208)) -N 4 "$vectors") $(od -An -v -tu4 --endian=big -j $((512 * 8 + 508)) -N 4 "$vectors")
for place in 0 1 2 3; do
    set_byte "$vectors" $((512 * 8 + 208 + place)) $((($1 + $2) >> (24 - 8 * place) & 255))
    set_byte "$vectors" $((512 * 8 + 508 + place)) 0
done
says "$all" 'a block with a check word of 0'
for length in 1 4 100 300; do
    truncate -s $((512 * 9 - length)) "$vectors"
    says 'vector block 8 is bad' "a block without its last $length bytes, which are zeros"
done
fresh
flip "$vectors" $((512 * 6 + 200)) 1
flip "$vectors" $((512 * 3 + 200)) 1
says 'vector block 3 is bad' 'two bad blocks'
fresh
truncate -s -1 "$vectors"
flip "$vectors" $((512 * 7)) 1
says 'vector block 7 is bad' 'a bad block, and a cut behind it'
cat "$whole" "$whole" >"$vectors"
says "vectors sound, $((2 * blocks)) blocks" 'each block twice' twins
"$maketable" vectors "$room/most" >"$vectors"
cat "$whole" >>"$vectors"
says 'vector block 4096 is bad' '4,105 blocks'
truncate -s $((512 * 4097)) "$vectors"
says 'vector block 4096 is bad' '4,097 blocks'
truncate -s $((512 * 4096 + 1)) "$vectors"
says 'vector block 4096 is bad' '4,096 blocks and a byte'
flip "$vectors" $((512 * 4095)) 1
says 'vector block 4095 is bad' '4,096 blocks and a byte, the last one bad'

# ---- what is left: the fewest first, then names in no record; a name as the text has it
unused() { # STATUS ABOUT: with the lines on standard input
    local status=0
    "$showtable" --unused "$table" "$profile" "$vectors" >"$room/said" 2>"$room/errors" || status=$?
    diff - "$room/said" >&2 || fail "$2: showtable --unused says otherwise"
    [ "$status" = "$1" ] || fail "$2: showtable --unused ends with status $status instead of $1"
    tried=$((tried + 1))
}
fresh
unused 0 'the sample' <<'END'
1 unused, 0 used, private=guests@isle
2 unused, 0 used, private=alice@isle
2 unused, 1 used, private=bob@isle
3 unused, 0 used, private=erin@isle
END
[ ! -s "$room/errors" ] || fail 'showtable --unused complains of the sample'
: >"$vectors"
unused 0 'no vectors' <<'END'
0 unused, 0 used, private=alice@isle
0 unused, 0 used, private=bob@isle
0 unused, 0 used, private=erin@isle
0 unused, 0 used, private=guests@isle
END
{ vector private=bob@isle; echo; vector private=bob; echo; vector private=bob@isle0 used; echo; vector 'private="a b"'; } >"$text"
"$maketable" vectors "$text" >"$vectors"
unused 0 'names that are almost one of the table' <<'END'
0 unused, 0 used, private=alice@isle
0 unused, 0 used, private=erin@isle
0 unused, 0 used, private=guests@isle
1 unused, 0 used, private=bob@isle
0 unused, 1 used, in no record, private=bob@isle0
1 unused, 0 used, in no record, private="a b"
1 unused, 0 used, in no record, private=bob
END
{ dd if="$whole" bs=512 skip=2 count=2 status=none; cat "$whole"; } >"$vectors"
unused 1 'a used and an unused vector again' <<'END'
1 unused, 0 used, private=guests@isle
2 unused, 0 used, private=alice@isle
3 unused, 2 used, private=bob@isle
3 unused, 0 used, private=erin@isle
END
printf 'ndushavire-showtable: %s: block %s has the vector of block %s again\n' "$vectors" 4 0 "$vectors" 5 1 | diff - "$room/errors" >&2 || fail 'the twins are not named'

# ---- two files at once, and what cannot be read or written
fresh
truncate -s -1 "$vectors"
cp "$table" "$room/cut"
truncate -s -1 "$room/cut"
for check in "${checks[@]}"; do
    for of in "$room/cut:$vectors:block 0 is bad+vector block 8 is bad" "$room/cut:$whole:block 0 is bad+$all"; do
        IFS=: read -r given lent expected <<<"$of"
        status=0
        said=$("${run[@]}" "$check" "$given" "$profile" "$lent" | tr '\n' +; exit "${PIPESTATUS[0]}") || status=$?
        [ "$said" = "$expected+" ] && [ "$status" = 1 ] || fail "$check says '$said' of two files, with status $status"
        tried=$((tried + 1))
    done
    ends 2 "${run[@]}" "$check" "$table" "$profile" "$room/none"
    ends 2 "${run[@]}" "$check" "$table" "$profile" "$room"
    ends 2 bash -c '"$@" >/dev/full' - "${run[@]}" "$check" "$table" "$profile" "$whole"
done
ends 1 "$showtable" --unused "$table" "$profile" "$vectors"
grep -q -x -F "ndushavire-showtable: $vectors: block 8 is bad" "$room/errors" || fail 'no block is named'
ends 1 "$showtable" --unused "$room/cut" "$profile" "$whole"
ends 2 "$showtable" --unused "$table" "$profile"
ends 2 "$showtable" --unused "$table" "$profile" "$room/none"
ends 2 "$showtable" --vectors
ends 2 "$showtable" --vectors "$room/none"
ends 2 "$showtable" --vectors "$whole" "$whole"
ends 2 "$showtable" --else "$whole"
ends 2 bash -c '"$0" --vectors "$1" >/dev/full' "$showtable" "$whole"
ends 2 bash -c '"$0" --unused "$1" "$2" "$3" >/dev/full' "$showtable" "$table" "$profile" "$whole"
ends 2 "$maketable" vectors
ends 2 "$maketable" vectors "$room/none"
ends 2 "$maketable" vector "$examples/vectors.txt"
ends 2 bash -c '"$0" vectors "$1" >/dev/full' "$maketable" "$examples/vectors.txt"

echo "vectors.sh: $tried vector files and texts, each as it should be"
