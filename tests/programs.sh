#!/usr/bin/env bash
# programs.sh ROOM MAKETABLE FOLDER RUN..: the programs answer and tablecheck of FOLDER, run by the words RUN, look at ./table,
# ./profile and, where it is there, ./vectors alone, answer --help and --version, and refuse every other argument with a line on
# standard error. They write to no file.
. "$(dirname "$0")/script.sh"
. "$tests/messages.sh"
make_room "$1" other
maketable=$(realpath "$2") folder=$(realpath "$3")
shift 3
run=("$@")
cd "$room"

# PROGRAM with these ARGUMENTS writes what the files `out` and `errors` then have.
runs() { # PROGRAM ARGUMENT..
    "${run[@]}" "$folder/$1" "${@:2}" >out 2>errors </dev/null || fail "$*: status $?"
    tried=$((tried + 1))
}
refused() { # PROGRAM ARGUMENT..
    runs "$@"
    [ ! -s out ] || fail "$*: writes '$(cat out)' to standard output"
    [ "$(cat errors)" = "$1: no arguments are taken but --help or --version alone" ] || fail "$*: says '$(cat errors)' on standard error"
}
version=$(header_version)

# The table here is sound and the other one is not, so that one taken for the other shows.
"$maketable" table "$top/examples/households.txt" >table
"$maketable" profile "$top/examples/households.txt" >profile
cp table profile other/
truncate -s -1 other/table
runs tablecheck
[ "$(cat out)" = 'sound, 9 records' ] && [ ! -s errors ] || fail "tablecheck says '$(cat out errors)'"
runs answer
[ "$(cat out)" = 'refused 2' ] && [ ! -s errors ] || fail "answer says '$(cat out errors)' to no request"
for program in tablecheck answer; do
    runs "$program" --help
    grep -q -x "usage: $program.*" out && [ ! -s errors ] || fail "$program --help says '$(cat out errors)'"
    runs "$program" --version
    [ "$(cat out)" = "$program $version" ] && [ ! -s errors ] || fail "$program --version says '$(cat out errors)', and the header $version"
    refused "$program" other/table other/profile
    refused "$program" other/table
    refused "$program" ''
    refused "$program" --hel
    refused "$program" --help1
    refused "$program" --versions
    refused "$program" --help --version
    refused "$program" --version --help x
    refused "$program" "$(printf '%0100d' 0)"
    "${run[@]}" "$folder/$program" --help 2>errors >/dev/full || fail "$program --help, nowhere to write: status $?"
    grep -q '^standard output: ' errors || fail "$program --help, nowhere to write: says '$(cat errors)'"
done

# In $said the answer to a request, or what is said instead, in hex; the request is in hex, too, or one that real software sent.
answers_to() { # ABOUT DIGITS
    printf %b "$(sed 's/../\\x&/g' <<<"$2")" >request
    "${run[@]}" "$folder/answer" <request >out 2>errors || fail "answer to $1: status $?"
    said=$(od -An -v -tx1 out | tr -d ' \n')
    tried=$((tried + 1))
}
answers() { answers_to "$1" "$(sed '/^#/d; s/ //g' "$top/tests/captured/$1.hex" | tr -d '\n')"; } # REQUEST
result() { printf '0000010c4000000c%08x' "$1"; } # the Result-Code of this number
told() { # EXPECTED
    runs tablecheck
    [ "$(cat out)" = "$1" ] && [ ! -s errors ] || fail "tablecheck says '$(cat out errors)' and should say '$1'"
}
refuses() { # REQUEST..
    for request in "$@"; do
        answers "$request"
        [ "$(cat out)" = 'refused 6' ] && [ ! -s errors ] || fail "$request over a bad vector file: '$(cat out errors)'"
    done
}
# Nothing but a message on standard error.
fails() { # ABOUT
    for request in mar-33 icscf-20-lir; do
        answers "$request"
        [ -z "$said" ] && [ -s errors ] || fail "$1: answer writes something, or does not say why not"
    done
}

# Erin's server asks for one vector. Without a vector file there is none.
answers mar-33
[[ $said = *$(result 5012)* ]] || fail 'a MAR without vectors is not B5012'
"$maketable" vectors "$top/examples/vectors.txt" >vectors
blocks=$(($(stat -c %s vectors) / 512))
told "sound, 9 records"$'\n'"vectors sound, $blocks blocks"
cp table profile vectors other/
answers mar-33
first=$said
[[ $first = *$(result 2001)* && $first = *00000264c0* ]] || fail 'a MAR with vectors is not B2001 with an item'
# The file is not written to, so that the same vector is sent again: answer is no server.
answers mar-33
[ "$said" = "$first" ] || fail 'the same MAR again gets another answer'
for file in table profile vectors; do cmp "$file" "other/$file" >&2 || fail "$file was written to"; done
# Of an AVP at fault too the answer alone is written, as long as it says itself.
answers mar-16
[[ $said = *$(result 5004)* ]] && [ ${#said} = $((2 * 0x${said:2:6})) ] || fail "an AVP at fault: answer writes '$said'"
# It is for peers by RFC 3588, and supports no features: who asks for none, or without M, is told so; who asks for one gets X5011; nobody else is told anything.
bob=$(public sip:bob@isle) none=$(supported 80 0)
gets() { # ABOUT RESULT TOLD AVPS
    local list=${none,,}
    answers_to "$1" "$(message 302 $cx "$4")"
    [[ $said = *"$2"* ]] || fail "$1: answer writes '$said'"
    if [ "$3" = told ]; then [[ $said = *"$list"* && ${said/"$list"/} != *00000274* ]]; else [[ $said != *00000274* ]]; fi || fail "$1: answer is not to be $3: '$said'"
}
gets 'no features' "$(result 2001)" untold "$front$bob"
gets 'several Vendor-Ids' "$(result 2001)" untold "${front/"$application"/"$(avp 260 40 - "$(avp 266 40 - 000028AF)$both")"}$bob"
gets 'features without M' "$(result 2001)" told "$front$(supported 80 0xFFFFFFFF)$bob"
gets 'no bit, with M' "$(result 2001)" told "$front$(supported C0 0)$(supported C0 0)$bob"
gets 'a bit, with M' 0000012a4000000c00001393 told "$front$bob$(supported C0 1)"
gets 'another list, with M' 0000012a4000000c00001393 told "$front$bob$(supported C0 0 2)"

: >vectors
told "sound, 9 records"$'\n'"vectors sound, 0 blocks"
answers mar-33
[[ $said = *$(result 5012)* ]] || fail 'a MAR with an empty vector file is not B5012'
{ cat other/vectors; head -c 512 /dev/zero; } >vectors
told "sound, 9 records"$'\n'"vector block $blocks is bad"
refuses mar-33 icscf-20-lir scscf-12-sar icscf-02-uar
head -c 700 other/vectors >vectors
told "sound, 9 records"$'\n'"vector block 1 is bad"
refuses mar-33 icscf-20-lir

# At most 65,536 bytes, which are 128 blocks.
head -c 512 other/vectors >one
for ((n = 0; n < 128; n++)); do cat one; done >vectors
answers icscf-20-lir
[[ $said = *$(result 2001)* ]] || fail '128 vectors are not taken'
cat one >>vectors
fails '129 vectors'
rm vectors
mkdir vectors
fails 'a folder for vectors'
runs tablecheck
[ -s errors ] && ! grep -q vectors out || fail "tablecheck, a folder for vectors: says '$(cat out errors)'"
echo "programs.sh: $tried runs, each as it should be"
