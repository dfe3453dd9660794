#!/usr/bin/env bash
# fmt.sh ROOM: whether crates/ is in the kit's layout. `rt fmt` lays out in place, so it gets a copy, every crate's files as those of one, and must leave
# it as it was; a file that is not laid out must be noticed. `rt ci` asks for the same, crate by crate.
. "$(dirname "$0")/script.sh"
make_room "$1" before
cd "$top"
for folder in crates/*/{src,specs,proofs}; do
    [ -d "$folder" ] || continue
    crate=${folder#crates/}
    mkdir -p "$room/before/${folder##*/}"
    cp -r "$folder" "$room/before/${folder##*/}/${crate%%/*}"
done
files=$(find "$room/before" -type f | wc -l)
[ "$files" -gt 100 ] || fail "only $files files were found"
cp -r "$room/before" "$room/after"
cd "$room/after"
rt fmt >"$room/said" || fail "rt fmt ends with status $?: $(cat "$room/said")"
diff -r "$room/before" . >&2 || fail 'crates/ is not in the layout: rt fmt in the folder of a crate lays it out'
echo 'pub fn crooked( )->u8{ 0 }' >src/crooked.rt
rt fmt >"$room/said" || fail "rt fmt ends with status $?: $(cat "$room/said")"
! grep -q -x -F 'pub fn crooked( )->u8{ 0 }' src/crooked.rt || fail 'a file that is not laid out is not noticed'
echo "fmt.sh: $files files in the layout"
