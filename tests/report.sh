#!/usr/bin/env bash
# report.sh ROOM MAKETABLE REPORT..: each REPORT counts what requests laid end to end get: every result, every refusal, table and vectors
# carried along; says where and why it stopped, also past 4 GiB; and writes to no file. RUN, if set, is the emulator that runs a REPORT.
. "$(dirname "$0")/script.sh"
. "$tests/messages.sh"
make_room "$1"
maketable=$2
shift 2
reports=("$@")
table=$room/table profile=$room/profile vectors=$room/vectors requests=$room/requests
peer=() # the options -e and -f, if they are given
fresh() {
    "$maketable" table "$top/examples/households.txt" >"$table"
    "$maketable" profile "$top/examples/households.txt" >"$profile"
    "$maketable" vectors "$top/examples/vectors.txt" >"$vectors"
}
# The file of requests, of these hexadecimal digits.
lay() { printf %b "$(printf %s "$@" | sed 's/../\\x&/g')" >"$requests"; } # DIGITS..
# Each REPORT ends with STATUS and says what stands on standard input, and nothing on standard error; the files stay as they are.
says() { # STATUS ABOUT
    local report status
    cat >"$room/expected"
    cksum "$table" "$profile" "$vectors" >"$room/before"
    for report in "${reports[@]}"; do
        status=0
        "${run[@]}" "$report" "${peer[@]}" "$table" "$profile" "$vectors" "$requests" >"$room/said" 2>"$room/errors" || status=$?
        diff "$room/expected" "$room/said" >&2 && [ ! -s "$room/errors" ] || fail "$2: $report does not say (<) but says (>): $(cat "$room/errors")"
        [ "$status" = "$1" ] || fail "$2: $report ends with status $status instead of $1"
    done
    cksum "$table" "$profile" "$vectors" | diff "$room/before" - >&2 || fail "$2: a file was written to"
    tried=$((tried + 1))
}
# Behind one LIR, which is counted, these digits end the report with this line and a status of 1.
stops() { # LINE ABOUT DIGITS
    lay "$lir" "$3"
    says 1 "$2" <<END
              UAR    SAR    LIR    MAR  other    all
B2001           .      .      1      .      .      1  success
answered        .      .      1      .      .      1
read                                               1

records altered: 0
largest answer: 160 bytes
STOPPED at byte $((${#lir} / 2)) of $(((${#lir} + ${#3}) / 2)): $1
END
}
fresh
lir=$(message 302 $cx "$front$(public sip:bob@isle)")
other_lir=$(message 302 $cx "$front$(public sip:nobody@isle)")

: >"$requests"
says 0 'no request' <<'END'
              UAR    SAR    LIR    MAR  other    all
answered        .      .      .      .      .      .
read                                               .

records altered: 0
largest answer: 0 bytes
the file was read to its end, 0 bytes
END
lay "$lir"
says 0 'one request' <<END
              UAR    SAR    LIR    MAR  other    all
B2001           .      .      1      .      .      1  success
answered        .      .      1      .      .      1
read                                               1

records altered: 0
largest answer: 160 bytes
the file was read to its end, $((${#lir} / 2)) bytes
END

# ---- every way to end
stops '1 bytes left' 'one byte' 01
stops '2 bytes left' 'two bytes' 0100
stops '3 bytes left' 'three bytes' 010000
stops 'header length 0' 'four bytes of nothing' 00000000
stops 'header length 12' 'a length of 12, and as many bytes' 0100000CC000012E01000000
stops 'header length 19' 'a length of 19' 01000013C000012E010000000000000100000002
stops 'header length 20, and 4 bytes left' 'a length and nothing behind it' 01000014
stops 'header length 20, and 19 bytes left' 'a header without its last byte' 01000014C000012E0100000000000001000000
stops 'header length 21, and 20 bytes left' 'a length past the end by one' 01000015C000012E010000000000000100000002
stops 'header length 16777215, and 20 bytes left' 'the greatest length' 01FFFFFFC000012E010000000000000100000002
stops "header length $((${#lir} / 2)), and $((${#lir} / 2 - 4)) bytes left" 'a request cut short' "${lir:0:${#lir} - 8}"
stops 'header length 12' 'a broken one before a good one' "0100000CC000012E01000000$other_lir"

# ---- every result, one request for each; a month in which table and vectors change
sar() { message 301 $cx "$front$server$(assigned "$1")$available$2"; } # TYPE IDENTITIES
asked() { message 303 $cx "$(mar "$1" "$2" "$item" "$3")"; }          # USER-NAME PUBLIC-IDENTITY NUMBER
uar() { message 300 $cx "$front$(private "$1")$(public "$2")$visited"; } # USER-NAME PUBLIC-IDENTITY
away=$(avp 600 C0 $third "$(text guest.example)")
other_server=$(avp 602 C0 $third "$(text sip:scscf3.isle:6060)")
month=(
    "$(uar alice@isle sip:alice@isle)" # X2001
    "$(asked alice@isle sip:alice@isle 1)" # B2001, a name is stored: a record altered
    "$(uar alice@isle sip:alice@isle)" # X2002, by that name
    "$(sar 1 "$(public sip:alice@isle)")" # B2001, a record altered
    "$(sar 1 "$(public sip:alice@isle)")" # B2001, as it is already
    "$(asked alice@isle sip:alice@isle 9)" # B2001, the vector that is left
    "$(asked alice@isle sip:alice@isle 1)" # B5012, none is left
    "$(sar 4 "$(public sip:alice@isle)$(public sip:bob@isle)$(public sip:alice@isle)")" # X5002: of two subscriptions
    "$(sar 1 "$(public tel:+29035501)")" # B2001, a record altered
    "$(sar 5 "$(public sip:alice@isle)$(public tel:+29035501)$(public sip:alice@isle)")" # B2001, two records altered
    "$(uar alice@isle sip:bob@isle)" # X5002
    "$(uar bob@isle sip:bob.fax@isle)" # B5003
    "$(message 300 $cx "$front$(private erin@isle)$(public sip:erin@isle)$away")" # X5004
    "$lir" "$other_lir" # B2001, X5001
    "$(message 302 $cx "$front$(public sip:alice@isle)")" # X5003
    "$(message 302 $cx "$front$(public sip:erin@isle)")" # X2003
    "$(message 301 $cx "$front$other_server$(assigned 3)$available$(public sip:bob@isle)")" # X5005
    "$(sar 2 "$(public sip:erin@isle)")" # X5007
    "$(sar 1 '')" # B5005
    "$(sar 1 "$(public sip:bob@isle)$(public sip:bob@isle)")" # B5009
    "$(message 303 $cx "$(mar bob@isle sip:bob@isle "$(avp 612 C0 $third "$(avp 608 C0 $third FF)")" 1)")" # X5006
    "$(message 303 $cx "$session$(avp 999 41 - '')")" # B3009
    "$(message 303 $cx "$session$(avp 999 40 - '')")" # B5001
    "$(message 303 $cx "$session$(avp 277 40 - 00000002)")" # B5004
    "$(message 303 $cx "$session$(avp 277 40 - 0000)")" # B5014
    "$(message 306 $cx "$session")" "$(message 0 00000000 '')" # B3001, of two other commands
    "$(message 300 01000001 "$session")" # B3007
    "02$(message 301 $cx "$session" | cut -c 3-)" # B5011: the command counts
    "$(message 304 $cx '' | sed 's/^\(........\)C0/\1E0/')" # B3008, before B3001
    01000014"${lir:8:2}"00012F010000000000000100000002 # B5005
)
lay "${month[@]}"
says 0 'a month' <<END
              UAR    SAR    LIR    MAR  other    all
B2001           .      4      1      2      .      7  success
B3001           .      .      .      .      2      2  command unsupported
B3007           1      .      .      .      .      1  application unsupported
B3008           .      .      .      .      1      1  invalid header bits
B3009           .      .      .      1      .      1  invalid AVP bits
B5001           .      .      .      1      .      1  AVP unsupported
B5003           1      .      .      .      .      1  authorization rejected
B5004           .      .      .      1      .      1  invalid AVP value
B5005           .      1      .      1      .      2  missing AVP
B5009           .      1      .      .      .      1  AVP occurs too many times
B5011           .      1      .      .      .      1  unsupported version
B5012           .      .      .      1      .      1  unable to comply
B5014           .      .      .      1      .      1  invalid AVP length
X2001           1      .      .      .      .      1  first registration
X2002           1      .      .      .      .      1  subsequent registration
X2003           .      .      1      .      .      1  unregistered service
X5001           .      .      1      .      .      1  user unknown
X5002           1      1      .      .      .      2  identities do not match
X5003           .      .      1      .      .      1  identity not registered
X5004           1      .      .      .      .      1  roaming not allowed
X5005           .      1      .      .      .      1  identity already registered
X5006           .      .      .      1      .      1  authentication scheme not supported
X5007           .      1      .      .      .      1  error in assignment type
answered        6     10      4      9      3     32
read                                              32

records altered: 5
largest answer: 368 bytes
the file was read to its end, $(stat -c %s "$requests") bytes
END
# Peers by RFC 6733 get the same but for a second Vendor-Id.
doubled=$(message 302 $cx "${front/$application/$(avp 260 40 - "$(avp 266 40 - 000028AF)$both")}$(public sip:bob@isle)")
lay "$lir" "$doubled"
for edition in '' 3588 6733; do
    peer=(${edition:+-e "$edition"})
    if [ "$edition" = 6733 ]; then
        counts='B2001           .      .      1      .      .      1  success
B5009           .      .      1      .      .      1  AVP occurs too many times' largest=180
    else
        counts='B2001           .      .      2      .      .      2  success' largest=160
    fi
    says 0 "a second Vendor-Id, by '$edition'" <<END
              UAR    SAR    LIR    MAR  other    all
$counts
answered        .      .      2      .      .      2
read                                               2

records altered: 0
largest answer: $largest bytes
the file was read to its end, $(stat -c %s "$requests") bytes
END
done
# What a request gets that asks for features goes by those that are supported: here it asks for bits 0 and 2, with M; without M it is told, and no more.
asking() { message "$1" $cx "$2$(supported "$3" 5)"; } # COMMAND AVPS FLAGS
lay "$lir" "$(asking 302 "$front$(public sip:bob@isle)" C0)" "$(asking 303 "$(mar erin@isle sip:erin@isle "$item" 1)" C0)" \
    "$(asking 301 "$front$server$(assigned 1)$available$(public sip:erin@isle)" C0)" "$(asking 302 "$front$(public sip:bob@isle)" 80)"
for set in '' 0 1 4294967290 0xFFFFFFFE 5 0x5 0X0000000f 4294967295; do
    case $set in
    5 | 0x5 | 0X0000000f | 4294967295)
        counts='B2001           .      1      3      1      .      5  success' altered=2 largest=420
        ;;
    *)
        counts='B2001           .      .      2      .      .      2  success
X5011           .      1      1      1      .      3  feature unsupported' altered=0 largest=216
        ;;
    esac
    for edition in '' '-e 6733'; do
        peer=($edition ${set:+-f "$set"})
        says 0 "features by '${peer[*]}'" <<END
              UAR    SAR    LIR    MAR  other    all
$counts
answered        .      1      3      1      .      5
read                                               5

records altered: $altered
largest answer: $largest bytes
the file was read to its end, $(stat -c %s "$requests") bytes
END
    done
done
# The last word on either counts.
peer=(-f 0 -e 6733 -f 5 -e 3588)
lay "$doubled" "$(asking 302 "$front$(public sip:bob@isle)" C0)"
says 0 'options that are given twice' <<END
              UAR    SAR    LIR    MAR  other    all
B2001           .      .      2      .      .      2  success
answered        .      .      2      .      .      2
read                                               2

records altered: 0
largest answer: 216 bytes
the file was read to its end, $(stat -c %s "$requests") bytes
END
peer=()
# Under another policy a server's name is not kept. Columns are as wide as the count needs.
sed 's/keep=1/keep=0/' "$top/examples/households.txt" >"$room/text"
"$maketable" table "$room/text" >"$table"
header=01000014C000012E010000000000000100000002
removal=$(sar 6 "$(public sip:bob@isle)")
lay "$(for ((i = 0; i < 1000; i++)); do echo "$header"; done | tr -d '\n')"
mv "$requests" "$room/thousand"
lay "$removal$removal"
for ((i = 0; i < 100; i++)); do cat "$room/thousand"; done >>"$requests"
says 0 'a name that is not kept, and 100,000 headers' <<END
               UAR     SAR     LIR     MAR   other     all
B5005            .       .  100000       .       .  100000  missing AVP
X2004            .       1       .       .       .       1  server name not stored
X5007            .       1       .       .       .       1  error in assignment type
answered         .       2  100000       .       .  100002
read                                                100002

records altered: 1
largest answer: 148 bytes
the file was read to its end, $(stat -c %s "$requests") bytes
END
fresh

# ---- refusals: each is counted and read over, and the next request begins where the length says
odd=01000015C000012E01000000000000010000000200
lay "$odd" "$lir" "${header/C0/40}" "$odd$odd$odd" "${header/C0/00}" "01004004C000012E$(many 16380)" "$lir"
whole=$(stat -c %s "$requests")
says 0 'refusals' <<END
              UAR    SAR    LIR    MAR  other    all
B2001           .      .      2      .      .      2  success
answered        .      .      2      .      .      2
refused 2                                          1  over 16384 bytes
refused 3                                          4  a length that is no multiple of 4
refused 4                                          2  no request: the R bit is clear
read                                               9

records altered: 0
largest answer: 160 bytes
the file was read to its end, $whole bytes
END
# Tables and vectors that are unsound refuse what is a request; a full end is a full end.
unsound() { # REFUSAL ABOUT
    says 0 "$2" <<END
              UAR    SAR    LIR    MAR  other    all
answered        .      .      .      .      .      .
refused 2                                          1  over 16384 bytes
refused 3                                          4  a length that is no multiple of 4
refused 4                                          2  no request: the R bit is clear
refused $1
read                                               9

records altered: 0
largest answer: 0 bytes
the file was read to its end, $whole bytes
END
}
truncate -s -1 "$vectors"
unsound '6                                          2  the vectors are unsound' 'a vector file cut short'
truncate -s -512 "$table"
unsound '5                                          2  the table is unsound' 'a table and a vector file cut short'
fresh

# ---- over 4 GiB: the file is mapped, since no program may have so much memory. Every 16 MiB a length stands, which refusal 2 reads over, and
# the disk holds nothing else of it but one request at the end.
step=16777212 pieces=640
rm "$requests"
for ((i = 0; i < pieces; i++)); do printf '\x01\xFF\xFF\xFC' | dd of="$requests" bs=4 seek=$((i * step / 4)) conv=notrunc status=none; done
truncate -s $((pieces * step)) "$requests"
printf %b "$(sed 's/../\\x&/g' <<<"$lir")" >>"$requests"
end=$((pieces * step + ${#lir} / 2))
lot() { # LINE
    cat <<END
              UAR    SAR    LIR    MAR  other    all
B2001           .      .      1      .      .      1  success
answered        .      .      1      .      .      1
refused 2                                        640  over 16384 bytes
read                                             641

records altered: 0
largest answer: 160 bytes
$1
END
}
(
    ulimit -d 2000000
    lot "the file was read to its end, $end bytes" | says 0 '10 GB'
    printf '\x01\xFF\xFF\xFC' >>"$requests"
    lot "STOPPED at byte $end of $((end + 4)): header length $step, and 4 bytes left" | says 1 '10 GB and a broken one'
)
tried=$((tried + 2))
rm "$requests"

# ---- what ndushavire-report(1) shows: requests that real software sent, an answer, and a request cut short
sent() { sed '/^#/d; s/ //g' "$top/tests/captured/$1.hex" | tr -d '\n'; }
cut=$(sent icscf-20-lir)
lay "$(for name in icscf-02-uar mar-33 scscf-12-sar icscf-20-lir icscf-20-lir mar-16; do sent $name; done)" "${header/C0/40}" "${cut:0:200}"
sed -n '/^\.Sh DESCRIPTION/,/^\.Ss/{/^\.Bd/,/^\.Ed/p}' "$top/man/ndushavire-report.1" | sed '/^\./d; s/\\&//' >"$room/shown"
says 1 'the example of ndushavire-report(1)' <"$room/shown"

# ---- the command line, and files that are none
lay "$lir"
for report in "${reports[@]}"; do
    of() { "${run[@]}" "$report" "$@" >"$room/said" 2>"$room/errors"; }
    version=$(header_version)
    of --version && [ "$(cat "$room/said")" = "ndushavire-report $version" ] || fail "$report --version says '$(cat "$room/said")'"
    of --help && grep -q '^usage: ndushavire-report \[-e EDITION\] \[-f FEATURES\] TABLE' "$room/said" || fail "$report --help says '$(cat "$room/said")'"
    # A pipe, and no vectors.
    "${run[@]}" "$report" "$table" "$profile" /dev/null <(cat "$requests") >"$room/said" || fail "$report of a pipe: status $?"
    [ "$(tail -n 1 "$room/said")" = "the file was read to its end, $((${#lir} / 2)) bytes" ] || fail "$report of a pipe says '$(cat "$room/said")'"
    # Nothing but a message on standard error, and a status of 2.
    fails() { # ARGUMENT..
        local status=0
        of "$@" || status=$?
        [ "$status" = 2 ] && [ ! -s "$room/said" ] && [ -s "$room/errors" ] || fail "$report $*: status $status, says '$(cat "$room/said")'"
        tried=$((tried + 1))
    }
    fails
    fails "$table" "$profile" "$vectors"
    fails "$table" "$profile" "$vectors" "$requests" "$requests"
    fails --help "$table"
    fails -e "$table" "$profile" "$vectors" "$requests"
    fails -e 6733 "$table" "$profile" "$vectors"
    fails "$table" "$profile" "$vectors" "$requests" -e 6733
    for edition in '' 0 1 3589 6733x 06733 6733=gw; do fails -e "$edition" "$table" "$profile" "$vectors" "$requests"; done
    fails -f "$table" "$profile" "$vectors" "$requests"
    fails -f 1 "$table" "$profile" "$vectors"
    fails "$table" "$profile" "$vectors" "$requests" -f 1
    fails -e 6733 -f "$table" "$profile" "$vectors" "$requests"
    for set in '' x 0x 1x 01 -1 4294967296 0x100000000 1,2; do fails -f "$set" "$table" "$profile" "$vectors" "$requests"; done
    fails "$room/none" "$profile" "$vectors" "$requests"
    fails "$table" "$room/none" "$vectors" "$requests"
    fails "$table" "$profile" "$room/none" "$requests"
    fails "$table" "$profile" "$vectors" "$room/none"
    fails "$table" "$profile" "$vectors" "$room"
    status=0
    "${run[@]}" "$report" "$table" "$profile" "$vectors" "$requests" >/dev/full 2>"$room/errors" || status=$?
    [ "$status" = 2 ] && grep -q '^standard output: ' "$room/errors" || fail "$report with nowhere to write ends with status $status"
    tried=$((tried + 4))
done
echo "report.sh: $tried reports, each as it should be"
