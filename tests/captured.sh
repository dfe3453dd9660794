#!/usr/bin/env bash
# captured.sh ROOM MAKETABLE REFERENCE DECIDE..: each request in captured/, as real software sent it, gets from each DECIDE
# what the independent program answers, with the result that its head names, rewrites the block that it should and uses the vectors
# that it should, and no other, by either engine and either edition of the base standard and whatever features are supported, since none of them asks for any; and the AVP
# at fault is named in the two that have one. An address in a request has a word in its head. RUN, if set, is the emulator that runs a DECIDE.
. "$(dirname "$0")/script.sh"
make_room "$1"
maketable=$2 reference=$(cd "$(dirname "$3")" && pwd)/${3##*/}
shift 3
many() { printf "%0*d" "$1" 0; } # N bytes

# The lines that the requests ask for, as their heads describe them.
cat >"$room/text" <<END
host=hss.isle realm=isle keep=1 network=isle network=guest.example

public=sip:alice@isle private=alice@isle roaming=isle mandatory=1,2 optional=3

public=sip:bob@isle private=bob@isle roaming=isle state=registered server=sip:scscf1.isle:6060

public=sip:carol@isle private=carol@isle roaming=isle state=unregistered server=sip:scscf3.isle:6060

public=sip:erin@isle private=erin@isle roaming=isle unregistered-services mandatory=1,2 profile=$(many 432)

public=sip:user0@isle private=user0@isle roaming=isle profile=$(many 434)

public=sip:user1@isle private=user1@isle roaming=isle

public=sip:user2@isle private=user2@isle roaming=isle

public=sip:user3@isle private=user3@isle roaming=isle
END
"$maketable" table "$room/text" >"$room/table"
"$maketable" profile "$room/text" >"$room/profile"

# Eighteen vectors for each of these, whose turns come round; alice and user3 have none. XRES has every length from 4 to 16.
people=(bob carol erin user0 user1 user2)
number=0
for turn in $(seq 18); do
    for name in "${people[@]}"; do
        number=$((number + 1))
        printf 'private=%s@isle rand=%032x autn=%032x xres=%0*x confidentiality=%032x integrity=%032x\n\n' \
            "$name" $((number + 0xa000)) $((number + 0xb000)) $((2 * (4 + turn % 13))) $((number + 0xc000)) $((number + 0xd000)) $((number + 0xe000))
    done
done >"$room/vectors.text"
"$maketable" vectors "$room/vectors.text" >"$room/vectors"

# The block that a request has rewritten, and the vectors that it uses: bob's are 0, 6, 12 .., carol's 1, erin's 2, user0's 3 and so on.
declare -A rewritten=([scscf-03-sar]=5 [scscf-12-sar]=4 [mar-01]=5 [mar-23]=3 [mar-29]=2 [mar-33]=4)
declare -A used=([mar-01]=3 [mar-23]=1 [mar-29]=$(seq -s ' ' 0 6 90) [mar-33]=2)

# What is said of an AVP at fault.
declare -A fault=([mar-14]='B5004 at byte 208: AVP 612 vendor 10415 flags 0xc0 length 144
    192: 0000025F C0000010 000028AF 00000001
    208:[00000264 C0000090 000028AF]00000260
    224: C000001B 000028AF 48545450 5F444947' [mar-16]='B5004 at byte 208: AVP 612 vendor 10415 flags 0xc0 length 84
    192: 0000025F C0000010 000028AF 00000001
    208:[00000264 C0000054 000028AF]00000260
    224: C000001C 000028AF 44696765 73742D41')

for request in "$(dirname "$0")"/captured/*.hex; do
    name=$(basename "$request" .hex)
    result=$(sed -n 's/^# .* answered: \([BX][0-9]*\).*/\1/p' "$request")
    [ -n "$result" ] || fail "$name names no result"
    printf %b "$(grep -v '^#' "$request" | tr -d ' \n' | sed 's/../\\x&/g')" >"$room/request"
    for address in $(grep -a -o -E '([0-9]{1,3}\.){3}[0-9]{1,3}' "$room/request" || true); do
        grep '^#' "$request" | grep -q -F "$address" || fail "$name: the head has no word on $address"
    done
    [[ $(od -An -v -tx4 --endian=big "$room/request") != *' 00000274 '* ]] || fail "$name has a Supported-Features, of which docs/INTEROPERABILITY.md says nothing"
    (cd "$room" && "$reference" answer <request) >"$room/answer" || fail "$name: the independent program fails"
    "$reference" show <"$room/answer" | grep -q -w "$result" || fail "$name: the independent program does not say $result"
    {
        echo "answered, $(stat -c %s "$room/answer") bytes"
        od -An -v -tx4 --endian=big -w32 "$room/answer" | sed 's/^ //' | tr a-f A-F
        [ -z "${fault[$name]-}" ] || echo "${fault[$name]}"
        [ -z "${rewritten[$name]-}" ] || echo "block ${rewritten[$name]} rewritten"
        for block in ${used[$name]-}; do echo "vector block $block used"; done
    } >"$room/expected"
    for decide in "$@"; do
        for edition in '' -p '-e 3588' '-p -e 3588' '-e 6733' '-p -e 6733' '-f 0xFFFFFFFF' '-e 6733 -f 3' '-p -e 6733 -f 3'; do
            ${RUN:+"$RUN"} "$decide" $edition "$room/table" "$room/profile" "$room/vectors" "$request" >"$room/said" ||
                fail "$name: $decide $edition does not answer"
            diff "$room/expected" "$room/said" >&2 || fail "$name: $decide $edition does otherwise than the independent program"
        done
    done
    tried=$((tried + 1))
done
echo "captured.sh: $tried requests of real software, each answered as it should be by both editions and both engines"
