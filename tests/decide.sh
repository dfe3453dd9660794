#!/usr/bin/env bash
# decide.sh ROOM MAKETABLE DECIDE..: each DECIDE gives, by either engine, the worked answer over the sample, the refusals that a request, a table
# or a vector file can bring about, and says which vectors were used, and which AVP of a request is at fault; and over the family of
# docs/TABLE.md what a set shares. Peers of both editions get the same, byte by byte, but for a second Vendor-Id; and so they do whatever features
# are supported, unless they ask for some. RUN, if set, is the emulator that runs a DECIDE.
. "$(dirname "$0")/script.sh"
shopt -s lastpipe
make_room "$1"
maketable=$2
shift 2
decides=("$@")
examples=$top/examples
table=$room/table profile=$room/profile vectors=$room/vectors request=$room/request
"$maketable" table "$examples/households.txt" >"$table"
"$maketable" profile "$examples/households.txt" >"$profile"
"$maketable" vectors "$examples/vectors.txt" >"$vectors"
peer=() # the options -e and -f, if they are given

# The request on standard input gets what the file EXPECTED has, and DECIDE ends with STATUS.
gets() { # EXPECTED STATUS ABOUT
    local decide engine status
    cat >"$request"
    for decide in "${decides[@]}"; do
        for engine in '' -p; do
            status=0
            "${run[@]}" "$decide" $engine "${peer[@]}" "$table" "$profile" "$vectors" "$request" >"$room/said" 2>"$room/errors" || status=$?
            cmp -s "$room/said" "$1" || fail "$3: $decide $engine says $(cat "$room/said") and should say $(cat "$1")"
            [ "$status" = "$2" ] || fail "$3: $decide $engine ends with status $status instead of $2: $(cat "$room/errors")"
        done
    done
    tried=$((tried + 1))
}
refused() { # WORDS ABOUT
    echo "refused $1" >"$room/expected"
    gets "$room/expected" 1 "$2"
}
unread() { # ABOUT
    : >"$room/expected"
    gets "$room/expected" 2 "$1"
}

gets "$examples/no-avps.answer" 0 'a header alone' <"$examples/no-avps.hex"
: | refused 2 'no byte'
echo 01000014 C000012E 01000000 00000001 000000 | refused 2 '19 bytes'
{ echo 01004004 C000012E 01000000 00000001 00000002; printf '00%.0s' $(seq 16368); } | refused 2 '16,388 bytes'
echo 01000018 C000012E 01000000 00000001 00000002 | refused 3 'a length that is not its own'
echo 01000015 C000012E 01000000 00000001 00000002 00 | refused 3 'a length that is no multiple of 4'
echo 01000014 4000012E 01000000 00000001 00000002 | refused 4 'an answer'
echo 01000014 C000012E 01000000 00000001 0000000G | unread 'no hexadecimal digit'
echo 01000014 C000012E 01000000 00000001 0000000 | unread 'half a byte'
for decide in "${decides[@]}"; do
    status=0
    "${run[@]}" "$decide" "$table" "$profile" "$vectors" "$examples/no-avps.hex" >/dev/full 2>"$room/errors" || status=$?
    [ "$status" = 2 ] && grep -q '^standard output: ' "$room/errors" ||
        fail "$decide with nowhere to write ends with status $status"
    tried=$((tried + 1))
done
# A peer that follows neither edition: whatever else is wrong, refusal 12 goes before it. Half an option is wrong use.
for edition in '' 0 1 2 3587 3589 6732 6734 35880 03588 -3588 6733x 3588=hss.isle 4294970884; do
    peer=(-e "$edition")
    refused 12 "the edition '$edition'" <"$examples/no-avps.hex"
    : | refused 12 "the edition '$edition', and no byte"
done
mv "$vectors" "$room/whole"
echo rotten >"$vectors"
refused 12 'the edition 4294970884, and rotten vectors' <"$examples/no-avps.hex"
mv "$room/whole" "$vectors"
for edition in 3588 6733; do
    peer=(-e $edition)
    gets "$examples/no-avps.answer" 0 "a header alone by RFC $edition" <"$examples/no-avps.hex"
    : | refused 2 "no byte by RFC $edition"
done
peer=(-e)
unread 'an option without its edition' <"$examples/no-avps.hex"
# No set of features is refused; what is no number of 32 bits is wrong use, and so is half an option.
for set in 0 1 7 2147483648 4294967295 0x0 0x7 0xFFFFFFFF 0Xffffffff 0x00000000aB; do
    peer=(-f "$set")
    gets "$examples/no-avps.answer" 0 "a header alone, and features $set" <"$examples/no-avps.hex"
    : | refused 2 "no byte, and features $set"
    peer=(-f "$set" -e 6734)
    refused 12 "the edition 6734, and features $set" <"$examples/no-avps.hex"
done
for set in '' 0x x 1x 0xG 00 010 -1 +1 ' 1' '1 ' 0x-1 4294967296 0x100000000 18446744073709551617 '1,2'; do
    peer=(-e 6733 -f "$set")
    unread "features '$set'" <"$examples/no-avps.hex"
done
for peer in '-f' '-f 1 -f' '-f 1 -x 1' '-f 1 -e' '-f -e 3588'; do
    peer=($peer)
    unread "the options ${peer[*]}" <"$examples/no-avps.hex"
done
peer=()
# A MAR for erin: one vector is asked for and used, and her record gets the call server's name. Of bob's, who asks for twenty and has
# a used one, both that are left go out. What the answer carries is compared in captured.sh.
uses() { # NAME LINE..
    local decide
    for decide in "${decides[@]}"; do
        "${run[@]}" "$decide" "$table" "$profile" "$vectors" "$captured/$1.hex" >"$room/said"
        [ "$(sed -n '/^[a-z]/p' "$room/said" | sed 1d)" = "$(printf '%s\n' "${@:2}")" ] ||
            fail "$1: $decide says $(cat "$room/said")"
    done
    tried=$((tried + 1))
}
captured=$(dirname "$0")/captured
uses mar-33 'block 6 rewritten' 'vector block 5 used'
uses mar-29 'block 4 rewritten' 'vector block 3 used' 'vector block 4 used'
uses icscf-20-lir

# ---- the place of the AVP at fault
. "$(dirname "$0")/messages.sh"
. "$(dirname "$0")/blocks.sh"
uar=$front$(private bob@isle)$(public sip:bob@isle)
unknown=$(avp 999 00 - "$(many 30)")

# In $behind what each DECIDE says behind the bytes of its answer, and in $bytes these: alike by all $editions of peers, with the features beside them.
alike=('' '-e 3588' '-e 6733 -f 5' '-f 0xFFFFFFFF') editions=("${alike[@]}")
decided() { # MESSAGE ABOUT
    local decide edition length lines said
    echo "$1" >"$request"
    for decide in "${decides[@]}"; do
        for edition in "${editions[@]}"; do
            "${run[@]}" "$decide" $edition "$table" "$profile" "$vectors" "$request" >"$room/said" ||
                fail "$2: $decide $edition does not answer"
            [ "$edition" = "${editions[0]}" ] || cmp "$room/first" "$room/said" >&2 || fail "$2: $decide $edition does otherwise"
            cp "$room/said" "$room/first"
        done
        length=$(sed -n '1s/^answered, \([0-9]*\) bytes$/\1/p' "$room/said")
        lines=$(((length + 31) / 32))
        bytes=$(sed "1d; $((1 + lines))q" "$room/said" | tr -d ' \n')
        said=$(sed "1,$((1 + lines))d" "$room/said")
        [ "$decide" = "${decides[0]}" ] || [ "$said" = "$behind" ] || fail "$2: $decide says '$said' and another '$behind'"
        behind=$said
    done
    tried=$((tried + 1))
}
# The AVPs BEFORE are followed by one that is at fault: FAULT is what is said of it, with PLACE for its place, and HEADER how many bytes of
# its header are there. Behind it comes AFTER. The bytes shown are those of the message, from 16 before the place to 32 behind it.
hurts() { # ABOUT COMMAND FAULT HEADER BEFORE AVP [AFTER]
    local place=$((20 + ${#5} / 2)) shown whole
    whole=$(message "$2" $cx "$5$6${7-}")
    decided "$whole" "$1"
    [ "$(head -n 1 <<<"$behind")" = "${3/PLACE/$place}" ] || fail "$1: not '${3/PLACE/$place}' but $behind"
    shown=$(sed '1d; s/^ *[0-9]*://' <<<"$behind" | tr -d ' \n')
    [ "$shown" = "${whole:2 * (place - 16):32}[${6:0:2 * $4}]${whole:2 * (place + $4):2 * (32 - $4)}" ] ||
        fail "$1: other bytes are shown than there are: $behind"
    [ "$(sed '1d; s/^ *\([0-9]*\):.*/\1/' <<<"$behind" | tr '\n' ' ')" = "$(seq -s ' ' $((place - 16)) 16 $((${#whole} / 2 - 1)) | cut -d ' ' -f 1-3) " ] ||
        fail "$1: the lines begin elsewhere: $behind"
}
# An answer with this RESULT, B or X, and no word on an AVP at fault.
painless() { # ABOUT RESULT MESSAGE
    local code=0000010C
    decided "$3" "$1"
    [ "${2:0:1}" = B ] || code=0000012A
    [[ $bytes = *"${code}4000000C$(printf %08X "${2:1}")"* ]] || fail "$1: not $2 but $bytes"
    [ -z "$(sed '/^\(vector \)\?block /d' <<<"$behind")" ] || fail "$1: an AVP is blamed: $behind"
}

# (a): lengths that are too short or too long, and headers that are cut off, also by the end of the longest request and at its front.
hurts 'a length under 8' 300 'B5014 at byte PLACE: AVP 600 flags 0x40 length 7' 8 "$uar" "$(avp 600 40 - '' 7)" "$visited"
hurts 'a length of 0' 300 'B5014 at byte PLACE: AVP 600 flags 0x40 length 0' 8 "$uar" "$(avp 600 40 - '' 0)"
hurts 'V and a length under 12' 300 'B5014 at byte PLACE: AVP 600 vendor 10415 flags 0xc0 length 11' 12 "$uar" "$(avp 600 C0 $third '' 11)" "$visited"
hurts 'a length past the end' 300 'B5014 at byte PLACE: AVP 600 vendor 10415 flags 0xc0 length 17, 16 bytes left' 12 "$uar" "$(avp 600 C0 $third 69736C65 17)"
hurts 'the greatest length' 300 'B5014 at byte PLACE: AVP 600 flags 0x40 length 16777215, 8 bytes left' 8 "$uar" "$(avp 600 40 - '' 16777215)"
hurts 'a code alone' 300 'B5014 at byte PLACE: AVP 600, 4 bytes left' 4 "$uar" 00000258
hurts 'V and no vendor' 300 'B5014 at byte PLACE: AVP 600 flags 0xc0 length 16, 8 bytes left' 8 "$uar" 00000258C0000010
hurts 'V, no vendor and a length of 8' 300 'B5014 at byte PLACE: AVP 600 flags 0xc0 length 8, 8 bytes left' 8 "$uar" 00000258C0000008
hurts 'the first AVP' 300 'B5014 at byte 20: AVP 263 flags 0x40 length 5' 8 '' "$(avp 263 40 - '' 5)" "$uar"
hurts 'a first AVP that is a code alone' 300 'B5014 at byte 20: AVP 0, 4 bytes left' 4 '' 00000000
long=$session$(avp 999 00 - "$(many $((16380 - 20 - ${#session} / 2 - 8)))")
hurts 'a code at the end of the longest request' 303 'B5014 at byte 16380: AVP 4294967295, 4 bytes left' 4 "$long" FFFFFFFF
long=$session$(avp 999 00 - "$(many $((16376 - 20 - ${#session} / 2 - 8)))")
hurts 'a header at the end of the longest request' 303 'B3009 at byte 16376: AVP 999 flags 0x41 length 8' 8 "$long" "$(avp 999 41 - '')"
# (c) to (h), each behind AVPs of every length and before others that are at fault too: the first one is meant.
hurts 'a reserved flag' 300 'B3009 at byte PLACE: AVP 600 vendor 10415 flags 0xd0 length 16' 12 "$uar$unknown" "$(avp 600 D0 $third 69736C65)" 00000258
hurts 'a reserved flag of an AVP to skip' 302 'B3009 at byte PLACE: AVP 999 flags 0x01 length 9' 8 "$front" "$(avp 999 01 - FF)" "$(public sip:bob@isle)"
hurts 'an unknown kind with M' 302 'B5001 at byte PLACE: AVP 999 flags 0x40 length 9' 8 "$front$unknown" "$(avp 999 40 - FF)" "$(avp 998 40 - '')"
hurts '601 without V' 302 'B5001 at byte PLACE: AVP 601 flags 0x40 length 20' 8 "$front" "$(avp 601 40 - "$(text sip:bob@isle)")"
hurts 'an unknown vendor' 302 'B5001 at byte PLACE: AVP 601 vendor 4294967295 flags 0xc0 length 12' 12 "$front" "$(avp 601 C0 0xFFFFFFFF '')"
hurts 'a second identity in a UAR' 300 'B5009 at byte PLACE: AVP 601 vendor 10415 flags 0xc0 length 24' 12 "$uar$unknown" "$(public sip:bob@isle)" "$visited"
hurts 'a second Session-Id' 302 'B5009 at byte PLACE: AVP 263 flags 0x40 length 8' 8 "$front" "$(avp 263 40 - '')" "$(public sip:bob@isle)"
hurts '277 of 3 bytes' 302 'B5014 at byte PLACE: AVP 277 flags 0x40 length 11' 8 "$session$application" "$(avp 277 40 - 000001)" "$from"
hurts '623 of 5 bytes' 300 'B5014 at byte PLACE: AVP 623 vendor 10415 flags 0x80 length 17' 12 "$uar" "$(avp 623 80 $third 0000000000)" "$visited"
hurts '277 of 2' 302 'B5004 at byte PLACE: AVP 277 flags 0x40 length 12' 8 "$session$application" "$(avp 277 40 - 00000002)" "$from"
hurts '614 of 12' 301 'B5004 at byte PLACE: AVP 614 vendor 10415 flags 0xc0 length 16' 12 "$front$server" "$(assigned 12)" "$available"
hurts 'a Server-Name of 97 bytes' 301 'B5004 at byte PLACE: AVP 602 vendor 10415 flags 0xc0 length 109' 12 "$front" \
    "$(avp 602 C0 $third "$(many 97)")" "$(assigned 1)"
# A fault within a group is the group's.
hurts '260 with another member behind the two' 302 'B5004 at byte PLACE: AVP 260 flags 0x40 length 44' 8 "$session" \
    "$(avp 260 40 - "$both$(avp 259 40 - 00000003)")" "$stateless"
hurts '612 with 610 beside its 608' 303 'B5004 at byte PLACE: AVP 612 vendor 10415 flags 0xc0 length 56' 12 "$front$(private bob@isle)$(public sip:bob@isle)" \
    "$(avp 612 C0 $third "$scheme$(avp 610 C0 $third FFFFFFFF)")" "$server"
hurts '607 of 8 bytes' 303 'B5014 at byte PLACE: AVP 607 vendor 10415 flags 0xc0 length 20' 12 "$front" "$(avp 607 C0 $third "$(many 8)")" "$server"

# Nobody's fault among the AVPs: success, faults of the header, B5005, what a decision says. Behind each header fault stands an AVP at fault.
bad=$session$(avp 999 41 - '')
painless 'a LIR' B2001 "$(message 302 $cx "$front$(public sip:bob@isle)")"
painless 'a UAR' X2002 "$(message 300 $cx "$uar$visited")"
painless 'another version' B5011 "02$(message 302 $cx "$bad" | cut -c 3-)"
painless 'the E bit' B3008 "$(message 302 $cx "$bad" | sed 's/^\(........\)C0/\1E0/')"
painless 'another command' B3001 "$(message 304 $cx "$bad")"
painless 'another application' B3007 "$(message 302 01000001 "$bad")"
painless 'another AVP first, at fault by itself' B5005 "$(message 302 $cx "$(avp 999 5F - '')$session")"
painless 'no Visited-Network-Identifier' B5005 "$(message 300 $cx "$uar")"
painless 'a SAR of type 1 without identity' B5005 "$(message 301 $cx "$front$server$(assigned 1)$available")"
painless 'a SAR of type 1 with two identities' B5009 "$(message 301 $cx "$front$server$(assigned 1)$available$(public sip:bob@isle)$(public sip:bob@isle)")"
painless 'a SAR of type 0 from another call server' B5012 "$(message 301 $cx "$front$server$(assigned 0)$available$(public sip:desk@guests.isle)")"
painless 'a SAR of type 2 in state 0' X5007 "$(message 301 $cx "$front$server$(assigned 2)$available$(public sip:erin@isle)")"
painless 'a SAR of type 1' B2001 "$(message 301 $cx "$front$server$(assigned 1)$available$(public sip:erin@isle)")"
painless 'an identity of nobody' X5001 "$(message 302 $cx "$front$(public sip:nobody@isle)")"
painless 'a barred line' B5003 "$(message 300 $cx "$front$(private bob@isle)$(public sip:bob.fax@isle)$visited")"
painless 'a MAR' B2001 "$(message 303 $cx "$(mar bob@isle sip:bob@isle "$item" 1)")"
painless 'a MAR with another scheme' X5006 "$(message 303 $cx "$(mar bob@isle sip:bob@isle "$(avp 612 C0 $third "$(avp 608 C0 $third FF)")" 1)")"
painless 'a MAR for no vectors' B5012 "$(message 303 $cx "$(mar bob@isle sip:bob@isle "$item" 0)")"

# ---- the peer's edition: a second Vendor-Id in 260, and all else of it right, is at fault by RFC 6733 alone
vendor=$(avp 266 40 - 000028AF)
group() { avp 260 "${2-40}" - "$1"; } # MEMBERS [FLAGS]
behind_it=$stateless$from$(avp 283 40 - "$(text isle)")$(public sip:bob@isle)
for members in "$vendor$both" "$both$vendor" "$vendor$vendor$both" "$(avp 266 00 - 000028AF)$(avp 258 20 - $cx)$(avp 266 60 - 000028AF)"; do
    editions=('' '-e 3588')
    painless 'several Vendor-Ids by RFC 3588' B2001 "$(message 302 $cx "$session$(group "$members")$behind_it")"
    editions=('-e 6733')
    hurts 'several Vendor-Ids by RFC 6733' 302 "B5009 at byte PLACE: AVP 260 flags 0x40 length $((8 + ${#members} / 2))" 8 \
        "$session" "$(group "$members")" "$behind_it"
    [[ $bytes = *"$(avp 279 40 - "$(group "$members")")"* ]] || fail "Failed-AVP has not the whole 260: $bytes"
done
# An AVP before it that is at fault goes before, and so does its own reserved flag; what is missing comes behind.
hurts 'an unknown AVP before several Vendor-Ids' 302 'B5001 at byte PLACE: AVP 999 flags 0x40 length 8' 8 \
    "$session" "$(avp 999 40 - '')" "$(group "$vendor$both")"
hurts 'several Vendor-Ids and a reserved flag' 302 'B3009 at byte PLACE: AVP 260 flags 0x41 length 44' 8 "$session" "$(group "$vendor$both" 41)" "$behind_it"
hurts 'several Vendor-Ids, and nothing else' 302 'B5009 at byte PLACE: AVP 260 flags 0x40 length 44' 8 "$session" "$(group "$vendor$both")"
painless 'several Vendor-Ids under another application' B3007 "$(message 302 01000001 "$session$(group "$vendor$both")")"
# What is right, and what is wrong, by either edition.
editions=("${alike[@]}")
for members in "$both" "$(avp 258 40 - $cx)$vendor" "$(avp 266 00 - 000028AF)$(avp 258 60 - $cx)" "$(avp 258 20 - $cx)$(avp 266 20 - 000028AF)"; do
    painless 'one Vendor-Id' B2001 "$(message 302 $cx "$session$(group "$members")$behind_it")"
    painless 'one Vendor-Id, and 260 without M' B2001 "$(message 302 $cx "$session$(group "$members" 00)$behind_it")"
done
for members in "$both$(avp 266 40 - 00000032)" "$both$(avp 258 40 - $cx)" "$vendor$vendor" "$vendor$both$(avp 259 40 - 00000003)" \
    "$both$(avp 266 41 - 000028AF)"; do
    hurts 'several members, and one is wrong' 302 "B5004 at byte PLACE: AVP 260 flags 0x40 length $((8 + ${#members} / 2))" 8 \
        "$session" "$(group "$members")" "$behind_it"
done
hurts 'a second 260' 302 'B5009 at byte PLACE: AVP 260 flags 0x40 length 44' 8 "$session$application" "$(group "$vendor$both")" "$behind_it"

# ---- features: what is asked for, and the server's own list
origin=$(avp 264 40 - "$(text hss.isle)")$(avp 296 40 - "$(text isle)") own=0000027480000038000028AF # what the own list begins with
supporting() { set=$1 editions=("-f $1" "-e 6733 -f $1"); } # SET
tells() { # ABOUT: the answer has the own list, once, right behind its realm; what Failed-AVP holds is the request's
    local list before=${bytes%%0000011740*}
    list=$(supported 80 "$set")
    [[ $before = *"$origin$list"* && ${before/"$list"/} != *"$own"* ]] || fail "$1: the own list is not once behind the realm: $bytes"
}
silent() { [[ ${bytes%%0000011740*} != *"$own"* ]] || fail "$1: the own list is sent: $bytes"; } # ABOUT
# With AVPs that ASK, behind the others or before the last, the answer is that without them, and has the own list behind its realm; as much is altered.
goes_on() { # ABOUT COMMAND AVPS ASKING
    local whole expected changed asked
    decided "$(message "$2" $cx "$3")" "$1, without it"
    silent "$1, without it"
    whole=${bytes/"$origin"/"$origin$(supported 80 "$set")"} changed=$behind
    expected=$(printf '01%06X%s' $((${#whole} / 2)) "${whole:8}")
    for asked in "$3$4" "$front$4${3#"$front"}" "$session$4${3#"$session"}"; do
        decided "$(message "$2" $cx "$asked")" "$1"
        [ "$bytes" = "$expected" ] || fail "$1: not $expected but $bytes"
        [ "$behind" = "$changed" ] || fail "$1: not '$changed' but '$behind'"
    done
}
# With them it is X5011, whatever it would be without: nothing is altered, and nothing but the own list stands behind the realm.
asks_too_much() { # ABOUT COMMAND AVPS ASKING
    local asked
    for asked in "$3$4" "$front$4${3#"$front"}"; do
        painless "$1" X5011 "$(message "$2" $cx "$asked")"
        tells "$1"
        [ -z "$behind" ] || fail "$1: something is altered: $behind"
        [ "${bytes#*"$origin"}" = "$(supported 80 "$set")" ] || fail "$1: something stands behind the own list: $bytes"
    done
}
# It has bad content, with M or without: B5004 with the whole of it, and it calls for no list; one beside it that is right does.
bad_features() { # ABOUT MEMBERS
    local flags faulty says
    for flags in 80 C0; do
        faulty=$(avp 628 $flags $third "$2") says="B5004 at byte PLACE: AVP 628 vendor 10415 flags 0x${flags,,} length $((12 + ${#2} / 2))"
        hurts "$1, flags $flags" 302 "$says" 12 "$front" "$faulty" "$bob"
        silent "$1, flags $flags"
        [[ $bytes = *"$(avp 279 40 - "$faulty")" ]] || fail "$1: Failed-AVP has not the whole 628: $bytes"
    done
    hurts "$1, before one that is right" 302 "$says" 12 "$front" "$faulty" "$right$bob"
    tells "$1, before one that is right"
}
bob=$(public sip:bob@isle) erin=$front$server$(assigned 1)$available$(public sip:erin@isle) challenged=$(mar bob@isle sip:bob@isle "$item" 1)
right=$(supported 80 0)
# All sets, and bits that they have; with flag P. An empty set is told too.
for one in 0:0 1:1 0x7:0x5 0x80000000:0x80000000 0xFFFFFFFF:0xFFFFFFFF 4294967295:1 0xFFFF0000:0x00010000; do
    supporting "${one%:*}"
    goes_on "bits ${one#*:} of ${one%:*}" 302 "$front$bob" "$(supported E0 "${one#*:}")"
done
# Every command: a bit that is supported, several AVPs, and whatever they ask for without M.
supporting 5
for of in "300:$uar$visited" "301:$erin" "301:$front$server$(assigned 5)$available$bob" "302:$front$bob" "303:$challenged"; do
    goes_on "${of%%:*}: a bit that is supported" "${of%%:*}" "${of#*:}" "$(supported C0 4)"
    goes_on "${of%%:*}: several with M" "${of%%:*}" "${of#*:}" "$(supported C0 1)$(supported C0 4)$(supported C0 5)$(supported C0 0)"
    goes_on "${of%%:*}: more than is supported, without M" "${of%%:*}" "${of#*:}" "$(supported 80 0xFFFFFFFF)$(supported 80 2 2)$(supported A0 0 1 13019)"
    asks_too_much "${of%%:*}: more than is supported" "${of%%:*}" "${of#*:}" "$(supported C0 2)"
done
# A bit outside the set, another list, another vendor, these with no bit too; and one such among others.
for asking in "$(supported C0 7)" "$(supported E0 0xFFFFFFFF)" "$(supported C0 0x80000000)" "$(supported C0 0x10000)" "$(supported C0 1 0)" "$(supported C0 1 2)" \
    "$(supported C0 0 2)" "$(supported C0 0 257)" "$(supported C0 1 1 13019)" "$(supported C0 0 1 13019)" "$(supported C0 0 1 0)" "$(supported C0 5 1 75951)" \
    "$(supported C0 2)$(supported C0 1)$(supported 80 0)" "$(supported C0 1)$(supported 80 2)$(supported C0 2)"; do
    asks_too_much 'more than is supported' 302 "$front$bob" "$asking"
done
supporting 0
asks_too_much 'a bit of no set' 302 "$front$bob" "$(supported C0 1)"
asks_too_much 'a high bit of no set' 302 "$front$bob" "$(supported C0 0x80000000)"
editions=('' '-e 3588' '-e 6733' '-f 0 -e 3588')
asks_too_much 'a bit, where no set is given' 302 "$front$bob" "$(supported C0 1)"
# Before every decision, and behind all that is read.
supporting 1
too_much=$(supported C0 2)
asks_too_much 'an identity of nobody' 302 "$front$(public sip:nobody@isle)" "$too_much"
asks_too_much 'identities that do not match' 300 "$front$(private erin@isle)$bob$visited" "$too_much"
asks_too_much 'a barred line' 300 "$front$(private bob@isle)$(public sip:bob.fax@isle)$visited" "$too_much"
asks_too_much 'a SAR of type 1 without identity' 301 "$front$server$(assigned 1)$available" "$too_much"
asks_too_much 'a SAR of type 1 with two identities' 301 "$front$server$(assigned 1)$available$bob$bob" "$too_much"
asks_too_much 'a SAR of type 0 from another call server' 301 "$front$server$(assigned 0)$available$(public sip:desk@guests.isle)" "$too_much"
asks_too_much 'a SAR of type 2 in state 0' 301 "$front$server$(assigned 2)$available$(public sip:erin@isle)" "$too_much"
asks_too_much 'a MAR with another scheme' 303 "$(mar bob@isle sip:bob@isle "$(avp 612 C0 $third "$(avp 608 C0 $third FF)")" 1)" "$too_much"
asks_too_much 'a MAR for no vectors' 303 "$(mar bob@isle sip:bob@isle "$item" 0)" "$too_much"
for front_of in "$session$application$stateless$from" "$front"; do
    painless 'too much, and an AVP is missing' B5005 "$(message 302 $cx "$front_of$too_much")"
    tells 'too much, and an AVP is missing'
done
hurts 'too much, and an unknown AVP with M' 302 'B5001 at byte PLACE: AVP 999 flags 0x40 length 8' 8 "$front$too_much" "$(avp 999 40 - '')" "$bob"
tells 'too much, and an unknown AVP with M'
hurts 'too much, behind an unknown AVP with M' 302 'B5001 at byte PLACE: AVP 999 flags 0x40 length 8' 8 "$front" "$(avp 999 40 - '')" "$too_much$bob"
tells 'too much, behind an unknown AVP with M'
# The own list beside every fault of another AVP, before it and behind it; (g) is no length fault. Not behind a length fault.
for of in "B3009|0x01|999|$(avp 999 01 - '')" "B5001|0x40|998|$(avp 998 40 - '')" "B5009|0x40|263|$(avp 263 40 - '')" "B5014|0x40|277|$(avp 277 40 - '')" \
    "B5004|0x40|277|$(avp 277 40 - 00000002)" "B5004|0x40|260|$(avp 260 40 - '')" "B5004|0x40|260|$(avp 260 40 - 0000010A)"; do
    IFS='|' read -r result flags code faulty <<<"$of"
    start=$front
    [ "$code" != 277 ] || start=${front/"$stateless"/}
    [ "$code" != 260 ] || start=$session
    for place in before behind both; do
        before=$start after=$bob
        [ $place = behind ] || before=$start$right
        [ $place = before ] || after=$right$bob
        hurts "$result of $code, $place" 302 "$result at byte PLACE: AVP $code flags $flags length $((${#faulty} / 2))" 8 "$before" "$faulty" "$after"
        tells "$result of $code, a 628 $place"
    done
done
for faulty in "$(avp 999 00 - '' 7)" "$(avp 601 C0 $third '' 11)" "$(avp 999 00 - '' 16777215)"; do
    decided "$(message 302 $cx "$front$right$faulty$bob")" 'a 628 before a length fault'
    tells 'a 628 before a length fault'
    decided "$(message 302 $cx "$front$faulty$right$bob")" 'a 628 behind a length fault'
    silent 'a 628 behind a length fault'
    decided "$(message 302 $cx "$front$(avp 999 40 - '')$faulty$right$bob")" 'a 628 behind a fault and a length fault'
    silent 'a 628 behind a fault and a length fault'
done
decided "$(message 302 $cx "$front$bob${right:0:104}")" 'a 628 that is cut off'
silent 'a 628 that is cut off'
# A first AVP that is another: one behind it counts, and it does not itself, being a 628. No AVP is at fault.
painless 'another AVP first' B5005 "$(message 302 $cx "$(avp 999 5F - '')$session$right")"
tells 'another AVP first'
painless 'a 628 first' B5005 "$(message 302 $cx "$right$session")"
silent 'a 628 first'
painless 'a 628 first, and again' B5005 "$(message 302 $cx "$right$session$right")"
tells 'a 628 first, and again'
# Header faults have no list.
silent_at() { # ABOUT RESULT MESSAGE
    painless "$@"
    silent "$1"
}
silent_at 'another version' B5011 "02$(message 302 $cx "$front$right$bob" | cut -c 3-)"
silent_at 'the E bit' B3008 "$(message 302 $cx "$front$right$bob" | sed 's/^\(........\)C0/\1E0/')"
silent_at 'another command' B3001 "$(message 304 $cx "$front$too_much$bob")"
silent_at 'another application' B3007 "$(message 302 01000001 "$front$right$bob")"
# What is no 628: without V, of another vendor; its members by themselves. With M they are unknown.
for code in 628 629 630; do
    for vendor in - 13019 0; do
        flags=80
        [ "$vendor" != - ] || flags=00
        silent_at "$code of vendor $vendor" B2001 "$(message 302 $cx "$front$(avp $code $flags "$vendor" "${right:24}")$bob")"
        decided "$(message 302 $cx "$front$(avp $code "$([ $flags = 00 ] && echo 40 || echo C0)" "$vendor" "${right:24}")$bob")" "$code of vendor $vendor with M"
        [[ $bytes = *0000010C4000000C00001389* ]] || fail "$code of vendor $vendor with M: $bytes"
        silent "$code of vendor $vendor with M"
    done
done
for code in 629 630; do
    silent_at "$code at the top" B2001 "$(message 302 $cx "$front$(avp $code 80 $third 00000001)$bob")"
    hurts "$code at the top with M" 302 "B5001 at byte PLACE: AVP $code vendor 10415 flags 0xc0 length 16" 12 "$front" "$(avp $code C0 $third 00000001)" "$right$bob"
    tells "$code at the top with M"
done
# A reserved flag goes before its content, and calls for no list.
for flags in 81 90 D0 FF; do
    hurts "a 628 with flags $flags" 302 "B3009 at byte PLACE: AVP 628 vendor 10415 flags 0x${flags,,} length 56" 12 "$front" "$(supported $flags 0)" "$bob"
    silent "a 628 with flags $flags"
    hurts "a 628 with flags $flags, and bad content" 302 "B3009 at byte PLACE: AVP 628 vendor 10415 flags 0x${flags,,} length 12" 12 "$front" "$(avp 628 $flags $third '')" "$right$bob"
    tells "a 628 with flags $flags, before one that is right"
done
# Its three members in any order, M and P of them free, their values not judged by reading; and no others, each once, of 4 bytes, with V or without as it is.
of_vendor=$(avp 266 40 - 000028AF) of_list=$(avp 629 80 $third 00000001) of_bits=$(avp 630 80 $third 00000000)
for members in "$of_vendor$of_bits$of_list" "$of_list$of_vendor$of_bits" "$of_list$of_bits$of_vendor" "$of_bits$of_vendor$of_list" "$of_bits$of_list$of_vendor" \
    "$(avp 266 00 - 000028AF)$(avp 629 C0 $third 00000001)$(avp 630 E0 $third 00000000)" "$(avp 266 60 - 000028AF)$(avp 629 A0 $third 00000001)$of_bits"; do
    goes_on 'members in another order, or with other flags' 302 "$front$bob" "$(avp 628 C0 $third "$members")"
done
bad_features 'no member' ''
bad_features 'no Vendor-Id' "$of_list$of_bits"
bad_features 'no Feature-List-ID' "$of_vendor$of_bits"
bad_features 'no Feature-List' "$of_vendor$of_list"
bad_features 'a Vendor-Id alone' "$of_vendor"
bad_features 'two Vendor-Ids' "$of_vendor$of_vendor$of_list$of_bits"
bad_features 'two Feature-List-IDs' "$of_vendor$of_list$of_bits$of_list"
bad_features 'two Feature-Lists' "$of_vendor$of_list$of_bits$of_bits"
bad_features 'a Vendor-Id twice, and no Feature-List' "$of_vendor$of_list$of_vendor"
bad_features 'another member' "$of_vendor$of_list$of_bits$(avp 999 00 - '')"
bad_features 'another member with V' "$(avp 631 80 $third 00000000)$of_vendor$of_list$of_bits"
bad_features 'a Vendor-Id with V' "$(avp 266 C0 $third 000028AF)$of_list$of_bits"
bad_features 'a Feature-List-ID without V' "$of_vendor$(avp 629 40 - 00000001)$of_bits"
bad_features 'a Feature-List without V' "$of_vendor$of_list$(avp 630 00 - 00000000)"
bad_features 'a Feature-List-ID of another vendor' "$of_vendor$(avp 629 80 13019 00000001)$of_bits"
bad_features 'a Feature-List of vendor 0' "$of_vendor$of_list$(avp 630 80 0 00000000)"
bad_features 'a code that is right in 16 bits' "$of_vendor$of_list$(avp 66166 80 $third 00000000)"
bad_features 'a reserved flag of a member' "$of_vendor$of_list$(avp 630 81 $third 00000000)"
bad_features 'a Vendor-Id of 3 bytes' "$(avp 266 40 - 0028AF)$of_list$of_bits"
bad_features 'a Feature-List-ID of 8 bytes' "$of_vendor$(avp 629 80 $third 0000000000000001)$of_bits"
bad_features 'a Feature-List of 5 bytes' "$of_vendor$of_list$(avp 630 80 $third 0000000000)"
bad_features 'an empty Feature-List' "$of_vendor$of_list$(avp 630 80 $third '')"
bad_features 'a member of a length under its header' "$of_vendor$of_list$(avp 630 80 $third 00000000 11)"
bad_features 'a member past the end' "$of_vendor$of_list$(avp 630 80 $third 00000000 17)"
for more in 00 0000 000000 00000000 0000000000000000; do bad_features 'more than the three' "$of_vendor$of_list$of_bits$more"; done
hurts 'a bad one behind one that is right' 302 'B5004 at byte PLACE: AVP 628 vendor 10415 flags 0xc0 length 12' 12 "$front$right" "$(avp 628 C0 $third '')" "$bob"
tells 'a bad one behind one that is right'
# The requests of real software, with a 628 that none of them has put in: each gets what it got, and the own list; or, asking too much, X5011.
supporting 3
for name in icscf-02-uar icscf-20-lir scscf-12-sar mar-33 relay-02-uar; do
    sent=$(sed '/^#/d; s/ //g' "$captured/$name.hex" | tr -d '\n')
    command=$((16#${sent:10:6})) first=${sent:40:2 * ((16#${sent:50:6} + 3) / 4 * 4)} # its Session-Id
    session=$first front=$first goes_on "$name, asking for what is supported" "$command" "${sent:40}" "$(supported C0 3)"
    front=$first asks_too_much "$name, asking for more" "$command" "${sent:40}" "$(supported C0 4)"
done
editions=("${alike[@]}")
: >"$vectors"
uses mar-33
# ---- a family in one set, blocks 1, 3 and 4, and a line beside it, as TABLE.md has them
reaches() { # ABOUT RESULT MESSAGE BLOCK..
    painless "$1" "$2" "$3"
    [ "$behind" = "$(printf 'block %s rewritten\n' "${@:4}")" ] || [ -z "$behind$4" ] || fail "$1: rewritten: $behind"
}
sar() { message 301 $cx "$front$server$(assigned "$1")$available$2"; } # TYPE IDENTITIES
family() { # SED: the family's text with lines edited
    sed -n '/^### A family/,/^- /{/^    /s/^    //p; /^$/p}' "$(dirname "$0")/../docs/TABLE.md" | sed -n '/^host=/,$p' | sed -e "$1" >"$room/family.txt"
    "$maketable" table "$room/family.txt" >"$table"
    "$maketable" profile "$room/family.txt" >"$profile"
}
kids=$(public sip:finn.kids@isle) shop=$(public sip:finn.shop@isle) finn=$(public sip:finn@isle) tel=$(public tel:+29035507)
family ''
reaches 'one of a set registered' B2001 "$(sar 1 "$finn")" 1 3 4
reaches 'the barred one of a set registered' B2001 "$(sar 1 "$tel")" 1 3 4
reaches 'one beside the set registered' B2001 "$(sar 1 "$shop")" 2
reaches 'one of a set taken for its voicemail' B2001 "$(sar 3 "$kids")" 1 3 4
reaches 'two of a set registered' B5009 "$(sar 1 "$finn$kids")" ''
reaches 'a set that is in state 0 removed' X5007 "$(sar 5 "$finn")" ''
reaches 'a barred line with free ones in its set' X2001 "$(message 300 $cx "$front$(private finn@isle)$tel$visited")" ''
family '/ set=1$/s/$/ state=registered server=sip:scscf1.isle:6060/'
reaches 'one of a registered set registered again' B2001 "$(sar 2 "$kids")" ''
reaches 'one of a set removed' B2001 "$(sar 5 "$kids")" 1 3 4
reaches 'two of a set removed' B2001 "$(sar 5 "$tel$kids")" 1 3 4
reaches 'all of a card removed' B2001 "$(sar 5 "$(private finn@isle)")" 1 3 4
reaches 'one of a set and one beside it removed' X5007 "$(sar 5 "$kids$shop")" ''
family '/ set=1$/s/$/ state=registered server=s/'
reaches 'another server for one of a set' X5005 "$(sar 1 "$tel")" ''
family 's/ set=1//'
reaches 'a barred line without a set' B5003 "$(message 300 $cx "$front$(private finn@isle)$tel$visited")" ''
reaches 'one of no set registered' B2001 "$(sar 1 "$finn")" 3
family '/ set=1$/s/$/ barred/; /^barred$/d'
reaches 'a line whose whole set is barred' B5003 "$(message 300 $cx "$front$(private finn@isle)$kids$visited")" ''
"$maketable" vectors <(sed 's/private=erin@isle/private=finn@isle/' "$examples/vectors.txt") >"$vectors"
decided "$(message 303 $cx "$(mar finn@isle sip:finn@isle "$item" 1)")" 'one of a set challenged'
[ "$(sed '/^vector /d' <<<"$behind")" = "$(printf 'block %s rewritten\n' 1 3 4)" ] || fail "one of a set challenged: $behind"
family '/^public=tel:/s/set=1/set=2/; /^public=sip:finn@/s/$/ state=registered server=s/; /^public=sip:finn@/s/set=1/set=3/'
painless 'three lines of three sets' B2001 "$(message 302 $cx "$front$finn")"
set_byte "$table" $((512 * 3 + 407)) 1
mend "$table" 3
refused '5, block 3 is bad' 'a set that does not agree' <"$examples/no-avps.hex"
"$maketable" table "$examples/households.txt" >"$table"
"$maketable" profile "$examples/households.txt" >"$profile"
"$maketable" vectors "$examples/vectors.txt" >"$vectors"
truncate -s -1 "$vectors"
refused '6, vector block 8 is bad' 'a vector file cut short, whatever is asked' <"$examples/no-avps.hex"
echo 01000014 4000012E 01000000 00000001 00000002 | refused 4 'an answer, and a vector file cut short'
truncate -s -512 "$table"
echo 01000014 4000012E 01000000 00000001 00000002 | refused 4 'an answer, and a table cut short'
refused '5, block 0 is bad' 'a table and a vector file cut short' <"$examples/no-avps.hex"
"$maketable" table "$examples/households.txt" >"$table"
mv "$vectors" "$room/moved"
unread 'no vector file' <"$examples/no-avps.hex"
mv "$room/moved" "$vectors"
rm "$table"
unread 'no table' <"$examples/no-avps.hex"

echo "decide.sh: $tried requests, each answered as it should be"
