#!/usr/bin/env bash
# texts.sh ROOM MAKETABLE SHOWTABLE TEXTS SEED COUNT: from a table to text and back. The sample first, a household put into it
# and one taken out with nothing else changed; profile files of every shape; what is refused; then TEXTS over COUNT random tables and vector files.
. "$(dirname "$0")/script.sh"
shopt -s lastpipe
make_room "$1" random
maketable=$2 showtable=$3 texts=$4 seed=$5 count=$6
sample=$top/examples/households.txt
make_both() { # TEXT NAME: the files NAME.table and NAME.profile
    "$maketable" table "$1" >"$room/$2.table" && "$maketable" profile "$1" >"$room/$2.profile"
}
show() { # NAME: the file NAME.text
    "$showtable" "$room/$1.table" "$room/$1.profile" >"$room/$1.text" || fail "$1 is not shown"
}
# A text on standard input makes a table that is shown as that text.
same() { # ABOUT
    cat >"$room/given.text"
    make_both "$room/given.text" same || fail "$1: refused"
    show same
    diff "$room/given.text" "$room/same.text" >&2 || fail "$1: shown otherwise"
    tried=$((tried + 1))
}
# A text on standard input is refused at a line, and nothing is written.
refused() { # LINE PHRASE
    local status=0
    cat >"$room/given.text"
    "$maketable" table "$room/given.text" >"$room/written" 2>"$room/errors" || status=$?
    [ "$status" = 1 ] && [ ! -s "$room/written" ] || fail "not refused, or something was written: $2"
    grep -q -F ":$1: $2" "$room/errors" || fail "expected line $1, '$2', and got: $(cat "$room/errors")"
    tried=$((tried + 1))
}
ends() { # STATUS COMMAND..
    local status=0
    "${@:2}" >"$room/written" 2>"$room/errors" || status=$?
    [ "$status" = "$1" ] && [ ! -s "$room/written" ] && [ -s "$room/errors" ] || fail "${*:2}: not reported, or status $status instead of $1"
    tried=$((tried + 1))
}

# The sample's text is the sample without its comments, in the table's order.
make_both "$sample" sample
show sample
paragraphs() { sed '/^#/d' "$1" | awk 'BEGIN { RS = ""; FS = "\n" } { gsub(/\n/, " "); print }' | LC_ALL=C sort; }
diff <(paragraphs "$sample") <(paragraphs "$room/sample.text") >&2 || fail 'the sample is shown otherwise'
same 'the shown sample' <"$room/sample.text"

# A household more, in the middle: each old record is as it was but for its number, its part's place and its check word.
{ cat "$room/sample.text"; printf '\npublic=sip:carol@isle private=carol@isle\nroaming=isle\nprofile="<IMSSubscription/>"\n'; } >"$room/edited.text"
make_both "$room/edited.text" more
record() { # NAME BLOCK: what an operator means by it
    dd if="$room/$1.table" bs=512 skip="$2" count=1 status=none | dd bs=1 skip=8 count=392 status=none
}
for old in 1 2 3 4 5 6 7 8 9; do
    new=$old
    [ "$old" -lt 5 ] || new=$((old + 1))
    cmp -s <(record sample "$old") <(record more "$new") || fail "a household more alters record $old"
done
show more
diff <(paragraphs "$room/edited.text") <(paragraphs "$room/more.text") >&2 || fail 'a household more is shown otherwise'
tried=$((tried + 1))

same 'names of any bytes' <<'END'
host="a b" realm="\xc3\xa9\x00" keep=0
network="\"" network="\\" network="#x\n" network== network=#

public="\x00" private="\x7f"
state=registered pending barred unregistered-services server="\x09"
roaming="\"" roaming="#x\n" roaming=#

public="\\" private="\\n"
mandatory=0,4294967295,1,1 optional=7
profile="\n"
END

same 'edition 2' <<'END'
host=h realm=r keep=0 issue=4294967295
network=n

public=a private=q set=65535
state=registered server=s
roaming=n

public=b private=q

public=c private=q set=1
profile="p"
END
printf 'host=h realm=r keep=0 issue=0\n' | same 'issue 0'
# Words that say nothing are not shown.
printf 'keep=0 realm=r issue=007 host=h\n\nset=0 private=q public=p\n' >"$room/zero.given"
make_both "$room/zero.given" zero
show zero
printf 'host=h realm=r keep=0 issue=7\n\npublic=p private=q\n' | diff - "$room/zero.text" >&2 || fail 'set 0 is shown'
tried=$((tried + 1))

# Profile files that are not the parts in order: bytes of nobody, parts that are shared, that overlap, that stand elsewhere.
head='host=h realm=r keep=0'
printf '%s\n\nunused="abc" profile-at=0\n' "$head" | same 'no record, and a profile file'
same 'shared, overlapping, out of order, empty parts at any place, bytes of nobody' <<END
$head

public=a private=q
profile="cde" profile-at=12

public=b private=q
profile="abc" profile-at=10

public=c private=q
profile-at=7

public=d private=q
profile="abcde" profile-at=10

public=e private=q
profile-at=20

public=ee private=q
profile="d" profile-at=13

unused="0123456789" profile-at=0

unused="zzzzz" profile-at=15
END
"$maketable" profile "$room/given.text" | cmp - <(printf 0123456789abcdezzzzz) || fail 'the profile file is another one'

# Of that text a record taken out leaves its place to nobody, as zeros, and a new one has its part behind the others.
awk 'BEGIN { RS = ""; ORS = "\n\n" } !/^public=[bd]/' "$room/given.text" >"$room/less.text"
printf 'public=f private=q profile="new"\n\npublic=bb private=q profile="too"\n' >>"$room/less.text"
"$maketable" profile "$room/less.text" | cmp - <(printf '0123456789\0\0cdezzzzztoonew') || fail 'a record taken out: the profile file is another one'
make_both "$room/less.text" less
show less
grep -q -x -F 'unused="0123456789\x00\x00" profile-at=0' "$room/less.text" || fail 'a record taken out: its place is not shown as unused'
tried=$((tried + 2))

one='public=p private=q'
printf '%s\n\n%s profile="ab" profile-at=3\n\npublic=s private=q profile="x" profile-at=4\n' "$head" "$one" |
    refused 5 'byte 4 of the profile file is another one at line 3'
printf '%s\n\n%s profile-at=\n' "$head" "$one" | refused 3 'profile-at is a place'
printf '%s\n\n%s profile-at=-1\n' "$head" "$one" | refused 3 'profile-at is a place'
printf '%s\n\n%s profile-at=1x\n' "$head" "$one" | refused 3 'profile-at is a place'
printf '%s\n\n%s profile-at=99999999999999999999999\n' "$head" "$one" | refused 3 'profile-at is a place'
printf '%s\n\n%s profile-at=4294967296\n' "$head" "$one" | refused 3 'profile-at is over 32 bits'
printf '%s\n\n%s profile-at=4294967295\n' "$head" "$one" | refused 3 'profile-at leaves over 16 MiB to nobody'
printf '%s\n\n%s profile-at=16777217\n' "$head" "$one" | refused 3 'profile-at leaves over 16 MiB to nobody'
printf '%s\n\n%s profile=x\n\nunused=x profile-at=99999999999\n' "$head" "$one" | refused 5 'profile-at leaves over 16 MiB to nobody'
printf '%s profile-at=1\n' "$head" | refused 1 'profile-at is no word of a header'
printf '%s\n\n%s unused=x\n' "$head" "$one" | refused 3 'unused is no word of a record'
printf '%s\n\nunused=x\n' "$head" | refused 3 'profile-at is missing'
printf '%s\n\nunused=x profile-at=0 profile-at=0\n' "$head" | refused 3 'profile-at stands there twice'
printf '%s\n\nunused= profile-at=0\n' "$head" | refused 3 'unused has 0 bytes'
printf '%s\n\nunused=%04097d profile-at=0\n' "$head" 0 | refused 3 'unused has 4097 bytes'
printf '%s\n\nunused=x profile-at=0 public=p\n' "$head" | refused 3 'public is no word beside unused'
printf '%s\n\n%s profile-at=16777216\n' "$head" "$one" >"$room/far.text"
make_both "$room/far.text" far && [ "$(stat -c %s "$room/far.profile")" = 16777216 ] || fail '16 MiB of nobody are refused'
tried=$((tried + 1))

# What cannot be shown, read or written.
cp "$room/sample.table" "$room/cut.table"
truncate -s -1 "$room/cut.table"
ends 1 "$showtable" "$room/cut.table" "$room/sample.profile"
grep -q -F 'block 0 is bad' "$room/errors" || fail 'no block is named'
ends 1 "$showtable" "$room/sample.table" /dev/null
grep -q -F 'block 1 is bad' "$room/errors" || fail 'no block is named'
ends 2 "$showtable"
ends 2 "$showtable" "$room/sample.table"
ends 2 "$showtable" "$room/sample.table" "$room/sample.profile" "$room/sample.profile"
ends 2 "$showtable" "$room/none" "$room/sample.profile"
ends 2 "$showtable" "$room/sample.table" "$room"
ends 2 bash -c '"$0" "$1" "$2" >/dev/full' "$showtable" "$room/sample.table" "$room/sample.profile"

echo "texts.sh: $tried texts and tables, each as it should be"
"$texts" "$room/random" "$seed" "$count"
