#!/usr/bin/env bash
# symbols.sh ROOM ARCHIVE SH_ARCHIVE CC..: which symbols the two archives have. Each has the functions that its header declares and no other that a linker
# could see, none is in both, and neither needs more than the C library. Linked whole, in either order, they make one program, which calls both; and each
# makes one alone. RUN, if set, is the emulator.
. "$(dirname "$0")/script.sh"
make_room "$1"
archive=$2 sh_archive=$3
shift 3
compiler=("$@")
nm=$("${compiler[0]}" -print-prog-name=nm)
defined() { "$nm" --extern-only --defined-only "$1" | awk 'NF == 3 { print $3 }' | LC_ALL=C sort; } # ARCHIVE; a symbol that is there twice is told twice
needed() { "$nm" --undefined-only "$1" | awk 'NF == 2 { print $2 }' | LC_ALL=C sort -u; }           # ARCHIVE
declared() { sed -n -E 's/^uint(32|64)_t (ndushavire_[a-z_]+)\(.*/\2/p' "$top/include/$1" | LC_ALL=C sort; } # HEADER

for of in "$archive:ndushavire.h" "$sh_archive:ndushavire_sh.h"; do
    file=${of%:*}
    declared "${of#*:}" >"$room/declared"
    [ -s "$room/declared" ] || fail "${of#*:} declares nothing"
    defined "$file" | diff "$room/declared" - >&2 || fail "${file##*/} has other symbols (>) than ${of#*:} declares (<)"
    more=$(needed "$file" | grep -v -x -E 'mem(cpy|move|set|cmp)' || true)
    [ -z "$more" ] || fail "${file##*/} needs $more"
done
[ "$(declared ndushavire_sh.h)" = ndushavire_sh_decide ] || fail "the second library has $(declared ndushavire_sh.h)"
twice=$( (defined "$archive"; defined "$sh_archive") | LC_ALL=C sort | uniq -d)
[ -z "$twice" ] || fail "in both archives: $twice"

cat >"$room/both.c" <<'END'
#include <ndushavire_sh.h>
#if CX
static uint8_t vectors[1], words[8];
#endif
static const uint8_t request[20] = {1, 0, 0, 20, 0x80};
static uint8_t table[512], answer[NDUSHAVIRE_ANSWER_ROOM];
int main(void) {
    int wrong = 0;
#if CX
    wrong |= ndushavire_version() != NDUSHAVIRE_VERSION_NUMBER || ndushavire_check(table, 512, request, 0) != (uint64_t)5 << 48;
    wrong |= ndushavire_decide(request, 20, table, 512, request, 0, vectors, 0, answer, sizeof answer, 3588, 0) != (uint64_t)5 << 48;
    wrong |= ndushavire_decide(request, 20, table, 512, request, 0, vectors, 0, answer, sizeof answer, 0, 0) != (uint64_t)12 << 48;
    wrong |= ndushavire_plain(request, 20, table, 512, request, 0, vectors, 0, answer, sizeof answer, 3588, 0) != (uint64_t)5 << 48;
    wrong |= ndushavire_plain(request, 20, table, 512, request, 0, vectors, 0, answer, sizeof answer, 0, 0) != (uint64_t)12 << 48;
    wrong |= ndushavire_row(request, 20, table, 512, request, 0, vectors, 0, answer, sizeof answer, words, 8, 3588, 0) != 1 || words[1] != 5;
    wrong |= ndushavire_row(request, 20, table, 512, request, 0, vectors, 0, answer, sizeof answer, words, 8, 0, 0) != 1 || words[1] != 12;
    wrong |= ndushavire_row(request, 20, table, 512, request, 0, vectors, 0, answer, sizeof answer, words, 7, 3588, 0) != (uint64_t)15 << 48;
    wrong |= ndushavire_export(table, 512, request, 0, answer, sizeof answer) != (uint64_t)5 << 48;
    wrong |= ndushavire_import(request, 20, table, 512, vectors, 0, answer, sizeof answer) != (uint64_t)5 << 48;
#endif
#if SH
    wrong |= ndushavire_sh_decide(request, 20, table, 512, request, 0, answer, sizeof answer, 3588) != (uint64_t)5 << 48;
    wrong |= ndushavire_sh_decide(request, 20, table, 512, request, 0, answer, sizeof answer, 0) != (uint64_t)12 << 48;
#endif
    return wrong;
}
END
linked() { # CX SH ARCHIVE..
    "${compiler[@]}" -std=c99 -O2 -Wall -Wextra -pedantic -Werror -I"$top/include" -DCX="$1" -DSH="$2" -o "$room/both" "$room/both.c" \
        -Wl,--whole-archive "${@:3}" -Wl,--no-whole-archive || fail "not linked with ${*:3}"
    "${run[@]}" "$room/both" || fail "linked with ${*:3}, a call returns another word"
}
linked 1 1 "$archive" "$sh_archive"
linked 1 1 "$sh_archive" "$archive"
linked 1 0 "$archive"
linked 0 1 "$sh_archive"
# A symbol that is there twice would be noticed.
! "${compiler[@]}" -std=c99 -I"$top/include" -DCX=1 -DSH=0 -o "$room/both" "$room/both.c" -Wl,--whole-archive "$archive" "$archive" -Wl,--no-whole-archive \
    2>/dev/null || fail 'one archive twice is linked without a word'
echo "symbols.sh: $(defined "$archive" | wc -l) functions in the first archive, $(defined "$sh_archive" | wc -l) in the second, none in both; linked together and alone"
