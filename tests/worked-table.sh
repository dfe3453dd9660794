#!/usr/bin/env bash
# worked-table.sh ROOM MAKETABLE SHOWTABLE: the worked table, in both editions, and vector of docs/TABLE.md. Their texts make the blocks that
# stand there, byte for byte, showtable writes these texts again, the sum that the page works out is right, the family's text is shown again and
# refused as the page says once one line of its set is registered alone, and the sample's vectors are counted as it says.
. "$(dirname "$0")/script.sh"
make_room "$1"
maketable=$2 showtable=$3
page=$top/docs/TABLE.md
sed -n '/^## A worked table/,/^## As text/p' "$page" >"$room/section"
sed -n '/^    host=/,/^    profile=/s/^    //p; /^$/p' "$room/section" | sed -n '/^host=/,/^profile=/p' >"$room/text"
blocks_in() { sed -n 's/^    \([0-9]\{4\}\( [0-9a-f]\{2\}\)\{16\}\) .*/\1/p'; }
sed '/^The same table in edition 2/,$d' "$room/section" | blocks_in >"$room/blocks"
sed -n '/^The same table in edition 2/,/^A vector/p' "$room/section" >"$room/second-section"
blocks_in <"$room/second-section" >"$room/second-blocks"
sed -n '/^A vector/,$p' "$room/section" >"$room/vector-section"
blocks_in <"$room/vector-section" >"$room/vector-blocks"
sed -n '/^    private=/,/^$/s/^    //p' "$room/vector-section" >"$room/vector-text"
"$maketable" table "$room/text" >"$room/table"
"$maketable" profile "$room/text" >"$room/profile"
shown() { od -A d -v -t x1 -w16 "$1" | sed -n 's/^0*\([0-9]\{4\} .*\)/\1/p' | grep -v -E '^[0-9]{4}( 00){16}$'; }
shown "$room/table" | diff "$room/blocks" - >&2 || fail 'the blocks on the page are not those of its text'
[ "$(stat -c %s "$room/table")" = 1024 ] || fail 'the table has another length'
"$showtable" "$room/table" "$room/profile" | diff "$room/text" - >&2 || fail 'the text is shown otherwise'

# In edition 2 these lines are others, and no more.
[[ $(tr '\n' ' ' <"$room/second-section") =~ \`(issue=[0-9]+)\`\ behind\ \`([^\`]+)\`\ and\ \`(set=[0-9]+)\`\ behind\ \`([^\`]+)\` ]] ||
    fail 'the page does not say how the text of edition 2 is written'
sed "s/${BASH_REMATCH[2]}/& ${BASH_REMATCH[1]}/; s/${BASH_REMATCH[4]}/& ${BASH_REMATCH[3]}/" "$room/text" >"$room/second-text"
"$maketable" table "$room/second-text" >"$room/second"
{ diff <(od -A d -v -t x1 -w16 "$room/table") <(od -A d -v -t x1 -w16 "$room/second") || true; } | sed -n 's/^> 0*\([0-9]\{4\} .*\)/\1/p' |
    diff "$room/second-blocks" - >&2 || fail 'the lines of edition 2 on the page are not those of its text'
"$showtable" "$room/second" "$room/profile" | diff "$room/second-text" - >&2 || fail 'the text of edition 2 is shown otherwise'

sum=0
for word in $(od -A n -v -t u4 --endian=big -j 512 -N 508 "$room/table"); do sum=$((sum + word)); done
sum=$(printf %08x $((sum & 0xffffffff)))
check=$(od -A n -t x4 --endian=big -j 1020 "$room/table" | tr -d ' ')
grep -q -x -F "The record's first 127 words sum to $sum, and $sum + $check = 2^32." "$room/section" || fail "the page does not say that $sum is the sum"
"$maketable" vectors "$room/vector-text" >"$room/vectors"
shown "$room/vectors" | diff "$room/vector-blocks" - >&2 || fail 'the vector on the page is not that of its text'
[ "$(stat -c %s "$room/vectors")" = 512 ] || fail 'the vector file has another length'
"$showtable" --vectors "$room/vectors" | diff "$room/vector-text" - >&2 || fail 'the text of the vector is shown otherwise'

# The family in one set.
sed -n '/^### A family/,/^### The text of vectors/p' "$page" >"$room/family-section"
sed -n '/^    host=/,/^- /p' "$room/family-section" | sed '/^- /d; s/^    //' | sed '$d' >"$room/family.txt"
"$maketable" table "$room/family.txt" >"$room/table"
"$maketable" profile "$room/family.txt" >"$room/profile"
"$showtable" "$room/table" "$room/profile" | diff "$room/family.txt" - >&2 || fail 'the family is shown otherwise'
registered=$(grep -o '`state=registered server=[^`]*`' "$room/family-section" | tr -d '`')
[ -n "$registered" ] || fail 'the page does not say how a line is registered'
sed -i "/^public=sip:finn.kids@isle /s/\$/ $registered/" "$room/family.txt"
! "$maketable" table "$room/family.txt" >"$room/none" 2>"$room/said" || fail 'a set that does not agree makes a table'
sed -i "s|$room/||" "$room/said"
grep -q -x -F "      $(cat "$room/said")" "$room/family-section" || fail "the page has not what is said of the family: $(cat "$room/said")"

examples=$(dirname "$0")/../examples
"$maketable" table "$examples/households.txt" >"$room/table"
"$maketable" profile "$examples/households.txt" >"$room/profile"
"$maketable" vectors "$examples/vectors.txt" >"$room/vectors"
sed -n '/^    \$ ndushavire-showtable --unused/,/^$/s/^    \([0-9]\)/\1/p' "$page" >"$room/counted"
"$showtable" --unused "$room/table" "$room/profile" "$room/vectors" | diff "$room/counted" - >&2 || fail 'what is unused of the sample is counted otherwise'
echo "worked-table.sh: the worked table and vector of TABLE.md, $(cat "$room/blocks" "$room/second-blocks" "$room/vector-blocks" | wc -l) lines of them, are what maketable makes"
