#!/usr/bin/env bash
# userdata.sh ROOM MAKETABLE USERDATA..: each USERDATA tells a voicemail box of each line of the sample what SH.md says, by both editions of the base
# standard, refuses what it should, says which AVP of a request is at fault, and leaves the files as they were. RUN, if set, is the emulator.
. "$(dirname "$0")/script.sh"
shopt -s lastpipe
make_room "$1"
maketable=$2
shift 2
programs=("$@")
examples=$top/examples
table=$room/table profile=$room/profile request=$room/request
"$maketable" table "$examples/households.txt" >"$table"
"$maketable" profile "$examples/households.txt" >"$profile"
cp "$table" "$room/table.before"
cp "$profile" "$room/profile.before"
peer=()
# The request on standard input: the program ends with STATUS, and says EXPECTED but for the lines of digits.
gets() { # STATUS ABOUT EXPECTED
    local program status said
    cat >"$request"
    for program in "${programs[@]}"; do
        status=0
        "${run[@]}" "$program" "${peer[@]}" "$table" "$profile" "$request" >"$room/said" 2>"$room/errors" || status=$?
        said=$(grep -v -x -E '[0-9A-F]{8}( [0-9A-F]{8})*' "$room/said" || true)
        [ "$said" = "$3" ] || fail "$2: $program says '$said' instead of '$3'"
        [ "$status" = "$1" ] || fail "$2: $program ends with status $status instead of $1: $(cat "$room/errors")"
    done
    tried=$((tried + 1))
}
hex() { printf %s "$1" | od -An -v -tx1 | tr -d ' \n'; } # TEXT
avp() {                                                  # CODE FLAGS HEX: with V it is of vendor 10415
    local length=$((${#3} / 2 + 8)) vendor=
    if [ $((0x$2 & 128)) != 0 ]; then vendor=000028af length=$((length + 4)); fi
    printf '%08x%s%06x%s%s' "$1" "$2" "$length" "$vendor" "$3"
    printf '%.*s' $(((4 - length % 4) % 4 * 2)) 000000
}
group() { avp 260 40 "$(avp 266 40 000028af)$(avp 258 40 "${1:-01000001}")"; }
identity() { avp 700 c0 "$(avp 601 c0 "$(hex "$1")")"; }                     # NAME
references() { for one in "$@"; do avp 703 c0 "$(printf %08x "$one")"; done; } # NUMBER..
message() {                                                                  # COMMAND APPLICATION AVPS
    printf '01%06xc0%06x%s0000000100000002%s' $((20 + ${#3} / 2)) "$1" "$2" "$3"
}
front=$(avp 263 40 "$(hex 'vm.isle;1')")$(group)$(avp 277 40 00000001)$(avp 264 40 "$(hex vm.isle)")$(avp 296 40 "$(hex isle)")$(avp 283 40 "$(hex isle)")
asks() { message 306 01000001 "$front$(identity "$1")$(references "${@:2}")"; } # NAME NUMBER..
document() { # NAME STATE: nothing for what is not told
    printf '<?xml version="1.0" encoding="UTF-8"?><Sh-Data><Sh-IMS-Data>%s%s</Sh-IMS-Data></Sh-Data>' "${1:+<SCSCFName>$1</SCSCFName>}" \
        "${2:+<IMSUserState>$2</IMSUserState>}"
}
padded() { echo $((($1 + 3) / 4 * 4)); }
tells() { # LINE NAME STATE
    local both name state
    both=$(document "$2" "$3") name=$(document "$2" '') state=$(document '' "$3")
    # Header, Session-Id of 9 bytes, 260, result, 277, 264, 296 take 124 bytes; 702 its header, and the document.
    asks "$1" 11 12 | gets 0 "both of $1" "answered, $((124 + 12 + $(padded ${#both}))) bytes"$'\n'"$both"
    asks "$1" 12 11 12 | gets 0 "both of $1, the name first" "answered, $((124 + 12 + $(padded ${#both}))) bytes"$'\n'"$both"
    asks "$1" 11 | gets 0 "the state of $1" "answered, $((124 + 12 + $(padded ${#state}))) bytes"$'\n'"$state"
    asks "$1" 12 | gets 0 "the name of $1" "answered, $((124 + 12 + $(padded ${#name}))) bytes"$'\n'"$name"
}

gets 0 'the example' "answered, 296 bytes"$'\n'"$(document sip:scscf1.isle:6060 1)" <"$examples/voicemail.hex"
for edition in '' 3588 6733; do
    peer=(${edition:+-e "$edition"})
    tells sip:alice@isle '' 0
    tells tel:+29035501 '' 0
    tells sip:bob@isle sip:scscf1.isle:6060 1
    tells sip:bob.shop@isle '' 0
    tells sip:bob.fax@isle '' 0 # barred, which does not matter
    tells sip:desk@guests.isle sip:scscf2.isle:6060 1
    tells sip:room1@guests.isle sip:scscf2.isle:6060 3
    tells sip:room2@guests.isle sip:scscf2.isle:6060 2
    asks sip:nobody@isle 11 | gets 0 'an unknown line' 'answered, 144 bytes'
    asks sip:nobody@isle 10 | gets 0 'an unknown line, and another reference' 'answered, 144 bytes'
    asks sip:bob@isle 11 10 | gets 0 'another reference' 'answered, 144 bytes'
done
peer=()
[ "$(grep -c -E '000013EC' "$room/said")" = 1 ] || fail "X5100 is not in the answer: $(cat "$room/said")"

# What is at fault, and where.
message 306 01000001 "$front$(identity sip:bob@isle)$(references 11)$(avp 601 c0 "$(hex sip:bob@isle)")" >"$room/unknown"
gets 0 'an identity at the top' 'answered, 156 bytes
B5001 at byte 176: AVP 601 vendor 10415 flags 0xc0 length 24
    160: 000002BF C0000010 000028AF 0000000B
    176:[00000259 C0000018 000028AF]7369703A
    192: 626F6240 69736C65' <"$room/unknown"
message 302 01000001 "$front" | gets 0 'a LIR of Sh' 'answered, 124 bytes'
message 306 01000000 "$front" | gets 0 'a UDR of Cx' 'answered, 124 bytes'

# Refusals, wrong use, and files that cannot be read.
: | gets 1 'no byte' 'refused 2'
echo 01000018 C0000132 01000001 00000001 00000002 | gets 1 'a length that is not its own' 'refused 3'
echo 01000014 40000132 01000001 00000001 00000002 | gets 1 'an answer' 'refused 4'
for edition in '' 0 3587 6734 6733x; do
    peer=(-e "$edition")
    gets 1 "the edition '$edition'" 'refused 12' <"$examples/voicemail.hex"
done
peer=(-f 1)
gets 2 'features, which Sh has none of' '' <"$examples/voicemail.hex"
peer=()
echo 0100001 | gets 2 'half a byte' ''
echo 0G | gets 2 'no hexadecimal digit' ''
printf '\377' | dd of="$table" bs=1 seek=1100 conv=notrunc status=none
gets 1 'a bad block' 'refused 5, block 2 is bad' <"$examples/voicemail.hex"
cp "$room/table.before" "$table"
truncate -s 7 "$profile"
gets 1 'a profile file cut short' 'refused 5, block 1 is bad' <"$examples/voicemail.hex"
cp "$room/profile.before" "$profile"
cat "$table" "$room/table.before" >"$room/longer" # an area that is longer than its table
table=$room/longer
gets 0 'a longer area' "answered, 296 bytes"$'\n'"$(document sip:scscf1.isle:6060 1)" <"$examples/voicemail.hex"
table=$room/none
gets 2 'no table' '' <"$examples/voicemail.hex"
cmp "$room/table.before" "$room/table" && cmp "$room/profile.before" "$profile" || fail 'a file is another one now'
for program in "${programs[@]}"; do
    status=0
    "${run[@]}" "$program" "$room/table" "$profile" "$examples/voicemail.hex" >/dev/full 2>"$room/errors" || status=$?
    [ "$status" = 2 ] && grep -q '^standard output: ' "$room/errors" || fail "$program with nowhere to write ends with status $status"
done
echo "userdata.sh: $tried requests of a voicemail box, each answered as it should be"
