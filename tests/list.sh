#!/usr/bin/env bash
# list.sh ROOM MAKETABLE CHECK LIST..: each LIST writes tables as lists and makes them again, into new files alone. Each list is what
# cells.py says of the table's bytes, and there and back is the first file. Whatever is refused leaves no file, and names the block or the line.
# RUN, if set, is the emulator.
. "$(dirname "$0")/script.sh"
. "$tests/blocks.sh"
. "$tests/newfile.sh"
make_room "$1" here
maketable=$(realpath "$2") check=$(realpath "$3")
shift 3
lists=()
for list in "$@"; do lists+=("$(realpath "$list")"); done
sample=$top/examples/households.txt table=$room/table profile=$room/profile csv=$room/csv new=$room/here/new
columns=public,private,server,state,pending,barred,services,roaming,mandatory,m1,m2,m3,m4,optional,o1,o2,o3,o4,start,length,set
"$maketable" table "$sample" >"$room/first"
"$maketable" profile "$sample" >"$profile"
of_issue 7 "$room/second"
blocks=$(($(stat -c %s "$room/second") / 512))
records=$((blocks - 1))

list_of() { "$tests/cells.py" list "$1"; } # TABLE

# The program with these words ends with STATUS and says SAID on standard output, and nothing on standard error; what it reads stays as it is.
said() { # STATUS SAID ABOUT WORD..
    local status=0 before
    before=$(cksum "$table" "$profile" "$csv")
    "${run[@]}" "$list" "${@:4}" >"$room/said" 2>"$room/errors" || status=$?
    [ "$(cat "$room/said")" = "$2" ] && [ ! -s "$room/errors" ] || fail "$3: $list says '$(cat "$room/said" "$room/errors")' and should say '$2'"
    [ "$status" = "$1" ] || fail "$3: $list ends with status $status instead of $1"
    [ "$(cksum "$table" "$profile" "$csv")" = "$before" ] || fail "$3: $list alters what it reads"
    tried=$((tried + 1))
}
made() { # EXPECTED ABOUT
    cmp "$1" "$new" >&2 || fail "$2: $list makes another file"
    [ "$(files_here)" = './new ' ] && [ "$(stat -c %a "$new")" = 640 ] || fail "$2: $list leaves $(ls -l "$room/here")"
    rm "$new"
}
# The table is listed as its bytes say, to a file and to standard output; and made again of that.
there_and_back() { # ISSUE ABOUT
    local count=$(($(stat -c %s "$table") / 512 - 1))
    list_of "$table" >"$csv"
    for list in "${lists[@]}"; do
        said 0 "exported, $count records, $(stat -c %s "$csv") bytes" "$2" export "$table" "$profile" "$new"
        made "$csv" "$2"
        "${run[@]}" "$list" export "$table" "$profile" >"$room/piped" 2>"$room/errors" || fail "$2: $list does not write to standard output"
        cmp "$csv" "$room/piped" >&2 && [ ! -s "$room/errors" ] || fail "$2: $list writes something else to standard output"
        said 0 "imported, $count records, issue $1" "$2, back" import "$csv" "$table" "$profile" "$new"
        "${run[@]}" "$check" "$new" "$profile" >"$room/checked" || fail "$2: $list makes a table that is not sound"
        made "$table" "$2, back"
        head -c 512 "$table" >"$room/header"
        said 0 "imported, $count records, issue $1" "$2, back under the header block alone" import "$csv" "$room/header" "$profile" "$new"
        made "$table" "$2, back under the header block alone"
    done
}
# An export is refused, and there is no new file; on the way to standard output it is said on standard error, and nothing is written.
refused_table() { # NUMBER SAID ABOUT
    local status
    for list in "${lists[@]}"; do
        said "$1" "refused $1, $2" "$3" export "$table" "$profile" "$new"
        [ -z "$(files_here)" ] || fail "$3: $list leaves $(files_here)"
        status=0
        "${run[@]}" "$list" export "$table" "$profile" >"$room/said" 2>"$room/errors" || status=$?
        [ "$status" = "$1" ] && [ ! -s "$room/said" ] && [ "$(cat "$room/errors")" = "refused $1, $2" ] || fail "$3: $list to standard output: status $status"
    done
}
# An import of the list is refused, with the text of the line below if there is one, and there is no new file.
refused_list() { # NUMBER SAID ABOUT
    for list in "${lists[@]}"; do
        said "$1" "refused $1, $2" "$3" import "$csv" "$table" "$profile" "$new"
        [ -z "$(files_here)" ] || fail "$3: $list leaves $(files_here)"
    done
}
umask 027
: >"$csv"

# ---- there and back
for issue in 0 1 7 258 2147483648 4294967295; do
    of_issue "$issue" "$table"
    there_and_back "$issue" "issue $issue"
done
of_issue 7 "$table" '/^public=sip:bob@isle / { $0 = $0 " set=258" } /^public=sip:erin@isle / { $0 = $0 " set=65535" }'
there_and_back 7 'two sets'
"$maketable" table <(echo 'host=h realm=r keep=0 issue=3') >"$table"
there_and_back 3 'no records'
# Quotes, commas and spaces in names; the sample's last record is the last by its name.
cp "$room/second" "$table"
for byte in 34 44 32 126 39 61 43 45 64; do
    set_byte "$table" $((512 * records + 144)) "$byte"
    mend "$table" "$records"
    there_and_back 7 "a private identity that begins with byte $byte"
done
# A host that could not be listed.
cp "$room/second" "$table"
set_byte "$table" 16 200
mend "$table" 0
there_and_back 7 'a host with the byte 200'

# ---- exports that are refused
cp "$room/first" "$table"
refused_table 5 'block 0: the table is of edition 1' 'edition 1'
cp "$room/second" "$table"
truncate -s +1 "$table"
refused_table 5 'block 0: 1 bytes stand past the table' 'a byte behind a table'
truncate -s -513 "$table"
refused_table 5 'block 0 is bad' 'a table cut short'
: >"$table"
refused_table 5 'block 0 is bad' 'no byte'
for block in $(seq 0 "$records"); do
    cp "$room/second" "$table"
    flip "$table" $((512 * block + 511)) 1
    refused_table 5 "block $block is bad" "check word of block $block"
    [ "$block" != 0 ] || continue
    for byte in 0 10 13 31 127 128 255; do
        cp "$room/second" "$table"
        set_byte "$table" $((512 * block + 144)) "$byte"
        mend "$table" "$block"
        refused_table 13 "block $block: the private identity has the byte $byte, which no list can have" "byte $byte in block $block"
    done
done
# The first of two blocks; and 5 before 13.
cp "$room/second" "$table"
for block in 2 5; do
    set_byte "$table" $((512 * block + 144)) 9
    mend "$table" "$block"
done
refused_table 13 'block 2: the private identity has the byte 9, which no list can have' 'two blocks'
flip "$table" $((512 * records + 511)) 1
refused_table 5 "block $records is bad" '5 before 13'

# ---- imports that are refused: the list of the sample, with one thing wrong
cp "$room/second" "$table"
list_of "$table" >"$room/good"
last=$((records + 1))
other='is in another form, breaks a rule of the table, or leaves no names for the lines that must follow'
line_of() { sed -n "$1p" "$csv" | tr -d '\r' | cut -c 1-120; } # LINE
wrong() { # LINE WORDS ABOUT, of the list in $csv
    refused_list 14 "line $1 $2"$'\n'"    $(line_of "$1")" "$3"
}
spoiled() { # LINE SED ABOUT
    sed "$1$2" "$room/good" >"$csv"
    ! cmp -s "$room/good" "$csv" || fail "$3: the list is as it was"
    wrong "$1" "$4" "$3"
}
for line in $(seq 2 "$last"); do
    spoiled "$line" 's/,0\r$/,00\r/' "a leading zero in line $line" "$other"
    spoiled "$line" 's/,0\r$/,+0\r/' "a sign in line $line" "$other"
    spoiled "$line" 's/,0\r$/,\r/' "no number in line $line" "$other"
    spoiled "$line" 's/,0\r$/,"0"\r/' "a number in quotes in line $line" "$other"
    spoiled "$line" 's/,0\r$/,65536\r/' "a set too great in line $line" "$other"
    spoiled "$line" 's/\r$//' "LF alone behind line $line" 'ends in LF alone'
    spoiled "$line" 's/","/", "/' "a space in line $line" "$other"
    spoiled "$line" 's/,/;/g' "semicolons in line $line" "$other"
    spoiled "$line" 's/^"\([^"]*\)"/\1/' "a name without quotes in line $line" "$other"
    spoiled "$line" 's/^"[^"]*"/""/' "an empty public identity in line $line" "$other"
    spoiled "$line" 's/^"\([^"]*\)"/"\1""/' "a quote that closes nothing in line $line" "$other"
    # The line is gone: the next one stands in its place, which is no fault of its form, and so the last one is missing.
    sed "${line}d" "$room/good" >"$csv"
    refused_list 14 "line $last is missing: the header block counts $records records" "line $line gone"
    # It is there twice: the second breaks the order; behind the last, it is one too many.
    sed "${line}p" "$room/good" >"$csv"
    if [ "$line" = "$last" ]; then
        refused_list 14 "line $((last + 1)) is one too many: the header block counts $records records" "line $line twice"
    else
        wrong $((line + 1)) "$other" "line $line twice"
    fi
done
spoiled 1 's/public/Public/' 'another name of a column' 'does not name the columns'
spoiled 1 's/,set//' 'a column less' 'does not name the columns'
spoiled 1 's/\r$//' 'LF alone behind the first line' 'ends in LF alone'
sed 1d "$room/good" >"$csv"
wrong 1 'does not name the columns' 'no line of columns'
(printf '\xEF\xBB\xBF' && cat "$room/good") >"$csv"
refused_list 14 "line 1 begins with a byte order mark"$'\n'"    \\xEF\\xBB\\xBF${columns:0:117}" 'a byte order mark'
sed 's/\r$//' "$room/good" >"$csv"
wrong 1 'ends in LF alone' 'every line ends in LF alone'
tr '\n' ' ' <"$room/good" >"$csv"
refused_list 14 "line 1 does not end in CR LF"$'\n'"    $columns\\x0D" 'no LF at all'
: >"$csv"
refused_list 14 "line 1 is missing: the header block counts $records records" 'no byte'
for cut in 1 2; do # the last CR LF
    head -c -"$cut" "$room/good" >"$csv"
    text=$(sed -n "${last}p" "$room/good" | tr -d '\r')
    [ "$cut" = 2 ] || text+='\x0D'
    refused_list 14 "line $last does not end in CR LF"$'\n'"    $text" "the last $cut bytes gone"
done
(cat "$room/good" && printf '\r\n') >"$csv"
refused_list 14 "line $((last + 1)) is one too many: the header block counts $records records" 'an empty line at the end'
# Rules of the table: roaming past the networks, a state without a server.
awk -F, -v OFS=, 'NR == 2 { $8 = 255 } 1' "$room/good" >"$csv"
wrong 2 "$other" 'roaming past the networks'
awk -F, -v OFS=, 'NR == 2 { $4 = 1 - $4 } 1' "$room/good" >"$csv"
wrong 2 "$other" 'another state'
awk -F, -v OFS=, 'NR == 2 { $19 = 4294967295; $20 = 1 } 1' "$room/good" >"$csv"
wrong 2 "$other" 'a part of the profile past its end'
# The header block: 5 goes before 14.
cp "$room/first" "$table"
refused_list 5 'the header block is of edition 1, or bad' 'a header block of edition 1'
cp "$room/second" "$table"
flip "$table" 511 1
refused_list 5 'the header block is bad' 'a bad header block'
truncate -s 511 "$table"
refused_list 5 'the header block has 511 bytes' 'a header block cut short'
cp "$room/good" "$csv"
: >"$table"
refused_list 5 'the header block has 0 bytes' 'no header block'
# Under a header block that counts others, and beside no profile.
of_issue 7 "$table" '/^public=/ && ++seen > 5 { exit }'
fewer=5
refused_list 14 "line $((fewer + 2)) is one too many: the header block counts $fewer records" 'a header block that counts fewer'
cp "$room/second" "$table"
cp "$profile" "$room/kept"
: >"$profile"
wrong 2 "$other" 'no profile'
mv "$room/kept" "$profile"

# ---- no file is ever written over, nor is anything left that was not stored. A message on standard error and status 2.
fails() { # ABOUT WORD..
    local status=0 before
    before=$(files_here; cksum "$table" "$csv")
    "${run[@]}" "$list" "${@:2}" >"$room/said" 2>"$room/errors" || status=$?
    [ "$status" = 2 ] && [ ! -s "$room/said" ] && [ -s "$room/errors" ] || fail "$1: $list ends with status $status, says '$(cat "$room/said" "$room/errors")'"
    [ "$(files_here; cksum "$table" "$csv")" = "$before" ] || fail "$1: $list leaves $(files_here)"
    tried=$((tried + 1))
}
version=$(header_version)
for list in "${lists[@]}"; do
    fails 'a list over the table' export "$table" "$profile" "$table"
    fails 'a table over the one that was exported' import "$csv" "$table" "$profile" "$table"
    fails 'a table over the list' import "$csv" "$table" "$profile" "$csv"
    for there in file folder link loose fifo; do
        for name in "$new" "$new.new"; do
            put_there "$there" "$name"
            fails "$there at ${name##*/}" export "$table" "$profile" "$new"
            fails "$there at ${name##*/}, import" import "$csv" "$table" "$profile" "$new"
            [ "$there" != file ] || [ "$(cat "$name")" = mine ] || fail "$list writes over a file"
            [ ! -e "$room/none" ] || fail "$list follows a link"
            rm -r "$name"
        done
    done
    fails 'a folder that is not there' export "$table" "$profile" "$room/none/new"
    fails 'no name' import "$csv" "$table" "$profile" "$room/here/"
    fails 'no table' export "$room/none" "$profile" "$new"
    fails 'no list' import "$room/none" "$table" "$profile" "$new"
    fails 'no header' import "$csv" "$room/none" "$profile" "$new"
    fails 'no profile' import "$csv" "$table" "$room/none" "$new"
    (trap '' XFSZ && ulimit -f 1 && fails 'no room for the new file' import "$csv" "$table" "$profile" "$new") || exit
    fails 'no word'
    fails 'another word' report "$table" "$profile" "$new"
    fails 'a file too few' export "$table"
    fails 'a file too many' export "$table" "$profile" "$new" "$new"
    fails 'a file too few, import' import "$csv" "$table" "$profile"
    fails 'a file too many, import' import "$csv" "$table" "$profile" "$new" "$new"
    fails 'help and more' --help export
    # A name alone is in this folder.
    (cd "$room/here" && said 0 "imported, $records records, issue 7" 'a name alone' import "$csv" "$table" "$profile" new) || exit
    cmp "$table" "$new" >&2 || fail 'a name alone: another file'
    rm "$new"
    for words in "import $csv $table $profile $new" "export $table $profile"; do
        status=0
        # shellcheck disable=SC2086
        "${run[@]}" "$list" $words >/dev/full 2>"$room/errors" || status=$?
        [ "$status" = 2 ] && grep -q '^standard output: ' "$room/errors" || fail "$list with nowhere to write ends with status $status"
        rm -f "$new"
    done
    [ "$("${run[@]}" "$list" --version)" = "ndushavire-list $version" ] || fail "$list --version does not say $version"
    [[ $("${run[@]}" "$list" --help) == 'usage: ndushavire-list export TABLE '* ]] || fail "$list --help says nothing of its use"
    tried=$((tried + 4))
done

echo "list.sh: $tried exports and imports, each as it should be"
