#!/usr/bin/env bash
# daemon.sh ROOM MAKETABLE ARCHIVES CC..: builds the daemon that ndushavire(3) shows and runs it on a disk that fails (daemon.c). Then
# it leaves out one thing after the other, of the page or of store.h, and sees that each is noticed. Then the same with the daemon of the
# examples. RUN, if set, is the emulator.
. "$(dirname "$0")/script.sh"
make_room "$1" source
make_memory disk # some 100,000 renames
maketable=$2 archives=($3)
shift 3
compiler=("$@")
mkdir "$disk/live"
noticed=0

"$maketable" table "$top/examples/households.txt" >"$room/table"
"$maketable" profile "$top/examples/households.txt" >"$room/profile"
cp "$room/profile" "$disk/live/"
# Erin has some vectors more than are asked for: a run that fails uses some up.
for number in $(seq 9); do
    printf 'private=erin@isle rand=%032x autn=%032x xres=%08x confidentiality=%032x integrity=%032x\n\n' $((number + 0xa000)) $((number + 0xb000)) 1 2 3
done >"$room/cards"
"$maketable" vectors "$room/cards" >"$room/vectors"
bytes_of() { printf %b "$(grep -v '^#' "$1" | tr -d ' \n' | sed 's/../\\x&/g')"; }
bytes_of "$tests/captured/icscf-20-lir.hex" >"$room/question"
bytes_of "$tests/captured/scscf-12-sar.hex" >"$room/assignment"
bytes_of "$tests/captured/mar-33.hex" >"$room/challenge"
bytes_of "$tests/captured/mar-16.hex" >"$room/rubbish"

# The first display of a page's examples, as C.
shown() { sed -n '/^\.Sh EXAMPLES/,/^\.Ed/{/^\.Bd/,/^\.Ed/p}' "$top/man/$1" | sed '/^\./d; s/\\e/\\/g; s/\\&//g'; } # PAGE
shown ndushavire.3 >"$room/source/example.c"
grep -q -F 'ndushavire_decide(' "$room/source/example.c" || fail 'the page has no daemon'
cp "$top"/examples/{fault,load,store}.h "$room/source/"

source=source flags=()
build() { # SOURCES PROGRAM [OPTION]
    "${compiler[@]}" -std=c99 -O2 -Wall -Wextra -pedantic -Werror "${flags[@]}" "${@:3}" -I"$top/include" -I"$1" -o "$2" "$tests/daemon.c" "${archives[@]}"
}
tried() { # PROGRAM
    "${run[@]}" "$1" "$disk" "$room/table" "$room/profile" "$room/vectors" "$room/question" "$room/assignment" "$room/challenge" "$room/rubbish"
}
build "$room/source" "$room/daemon"
tried "$room/daemon"
# ndushavire_sh(3) has the calls of both libraries in the place of that one: the daemon goes on as before.
cp -r "$room/source" "$room/both"
shown ndushavire_sh.3 | sed 's/^/    /' >"$room/both/calls"
grep -q -F 'ndushavire_sh_decide(' "$room/both/calls" || fail 'the page of Sh has no call'
sed -i -e "/^    uint64_t word = ndushavire_decide(/,/;\$/{/;\$/r $room/both/calls" -e 'd}' -e 's/^#include <ndushavire.h>/#include <ndushavire_sh.h>/' "$room/both/example.c"
grep -q '^    if (request_len >= ' "$room/both/example.c" || fail 'the calls of both libraries have no place'
build "$room/both" "$room/both/daemon"
tried "$room/both/daemon"

# With one thing left out the run must end with status 1.
without() { # ABOUT FILE SED..
    local status=0
    rm -rf "$room/changed"
    cp -r "$room/$source" "$room/changed"
    sed -i "${@:3}" "$room/changed/$2"
    ! cmp -s "$room/$source/$2" "$room/changed/$2" || fail "$1: nothing to leave out"
    build "$room/changed" "$room/changed/daemon" -O0 # which takes less time than it costs
    tried "$room/changed/daemon" >"$room/said" 2>&1 || status=$?
    [ "$status" = 1 ] || { cat "$room/said" >&2; fail "$1: not noticed, status $status"; }
    noticed=$((noticed + 1))
}
without 'a start that does not flush' example.c 's/ || !settled(folder, name))/ || (0 \&\& !settled(folder, name)))/'
without 'a start that does not flush the folder' store.h 's/= flushed(file) \&\& flushed(folder);/= flushed(file);/'
without 'a file that is unsure and answered from' example.c '/case UNSURE:/,/stop(/s/if (store(/if (0 \&\& store(/'
without 'a file that is unsure, not answered from, and gone on with' example.c '/case UNSURE:/,/stop(/s/if (store(/return 0; if (store(/'
without 'a file that is unsure and only flushed again' example.c \
    '/case UNSURE:/,/stop(/{s/if (store(.*/if (!settled(file->folder, file->name))/; / != STORED)/d}'
without 'a table that was not stored and is kept in memory' example.c 's/^ *put_back(&table);.*//'
without 'vectors that were not stored and are kept in memory' example.c 's/^ *put_back(&vectors);.*//'
without 'an answer sent whether stored or not' example.c '/case NOT_STORED:/,/case UNSURE:/s/return 0;/return 1;/'
without 'vectors that are not stored' example.c 's/if (!durable(&vectors) || !durable(&table)) {/if (!durable(\&table)) {/'
without 'a table that is not stored' example.c 's/if (!durable(&vectors) || !durable(&table)) {/if (!durable(\&vectors)) {/'
without 'vectors that are stored behind the answer' example.c -e 's/if (!durable(&vectors) || !durable(&table)) {/if (!durable(\&table)) {/' \
    -e 's/return send_all(peer, answer, ndushavire_value(word));/return send_all(peer, answer, ndushavire_value(word)) \&\& durable(\&vectors);/'
without 'a table that is stored before the vectors' example.c 's/if (!durable(&vectors) || !durable(&table)) {/if (!durable(\&table) || !durable(\&vectors)) {/'
without 'vectors that are unsound and lent as they are' example.c 's/vectors.length = 0;/;/'
without 'an AVP at fault that is not logged' example.c 's/if (ndushavire_place(word) != 0) {/if (0) {/'
without 'an AVP logged that is not at fault' example.c 's/if (ndushavire_place(word) != 0) {/{/'
without 'an edition that is not the peer'"'"'s' example.c 's/edition_stated(peer),/NDUSHAVIRE_RFC_3588,/'
without 'an edition that is another peer'"'"'s' example.c 's/edition_stated(peer),/NDUSHAVIRE_RFC_6733,/'
without 'features that are supported, and are not stated' example.c 's/features_stated())/NDUSHAVIRE_NO_FEATURES)/'
without 'features that are stated, and are not supported' example.c 's/features_stated())/features_stated() | 2)/'
without 'a word taken for a length' example.c 's/return send_all(peer, answer, ndushavire_value(word));/return send_all(peer, answer, word);/'
without 'a file that is not flushed' store.h 's/ \&\& flushed(file);$/;/'
without 'a folder that is not flushed' store.h 's/return flushed(folder) ? STORED : UNSURE;/return STORED;/'
echo "daemon.sh: the page's daemon answers from what is on disk and logs an AVP at fault, and each of $noticed things left out is noticed"

# The daemon of the examples. Two calls that fail are tried, and of the other ways each by itself: store.h is the same.
mkdir "$room/whole"
cp "$top"/examples/{daemon.c,area.h,base.h,fault.h,files.c,files.h,log.c,log.h,peers.h,remember.h,row.c,row.h,stated.h,store.h,taking.c,taking.h} "$room/whole/"
cp "$tests/whole.c" "$room/whole/example.c"
source=whole flags=(-DPAIRED=1) noticed=0
build "$room/whole" "$room/whole/daemon"
tried "$room/whole/daemon"
without 'a start that does not flush' files.c 's/return flushed(from) \&\& flushed(file->folder) \&\& read_all/return read_all/'
without 'a file that is unsure and answered from' files.c 's/if (stored == UNSURE \&\& store(/if (0 \&\& store(/'
without 'a table that was not stored and is kept in memory' files.c 's/^    put_back(&files->table);//'
without 'vectors that were not stored and are kept in memory' files.c 's/^    put_back(&files->vectors);//'
without 'an answer sent whether stored or not' files.c '/^static int durable/,/^}/s/return 0;/return 1;/'
without 'a row that is answered whether stored or not' daemon.c 's/^            if (outcome != UNDONE) deliver/            deliver/'
without 'a row that is answered up to its last request' daemon.c 's/^            if (outcome != UNDONE) deliver/            if (outcome != UNDONE \&\& (k == 0 || k + 1 < part->count)) deliver/'
without 'the answers of a row in another order' daemon.c \
    's/^            if (outcome != UNDONE) deliver(&part->asked\[k\]/            if (outcome != UNDONE) deliver(\&part->asked[part->count - 1 - k]/'
without 'a table that is stored before the vectors' files.c \
    's/(used \&\& !durable(&files->vectors)) || (rewritten \&\& !durable(&files->table))/(rewritten \&\& !durable(\&files->table)) || (used \&\& !durable(\&files->vectors))/'
without 'vectors that are unsound and lent as they are' files.c 's/vectors->length = 0;/;/'
without 'vectors that a row marked, and are not stored' files.c 's/^    const int used = (what & NDUSHAVIRE_ROW_MARKED) != 0,/    const int used = 0,/'
without 'records that a row altered, and are not stored' files.c 's/ rewritten = (what & NDUSHAVIRE_ROW_ALTERED) != 0;/ rewritten = 0;/'
without 'an edition that is not the peer'"'"'s' row.c 's/sizeof part->words, part->edition,/sizeof part->words, NDUSHAVIRE_RFC_3588,/'
without 'features that are supported, and are not stated' row.c 's/part->edition, features)/part->edition, features \& NDUSHAVIRE_NO_FEATURES)/'
without 'an X5011 of which the log does not say what was asked for' daemon.c \
    's/^    if (experimental_result(asked->answer, answer_length(asked)) != FEATURE_UNSUPPORTED) return;/    if (left > 0) return;/'
without 'a table renamed away before ours is stored' files.c \
    's/^    const int folder = table->folder;$/&\n    renameat(folder, "table", folder, "table.declined");/'
without 'a table that is stored over one that is not kept' files.c 's/^    if (linkat(.*/    if (0 \&\&/'
without 'an answer while another table lies over ours' files.c 's/if (files->laid_over || (used/if ((used/'
without 'a daemon that gives up over a full disk' files.c 's/^        say_once(files->told, /        stop(files->told, "full");\n&/'
without 'a table that is laid over ours and left there' files.c 's/if (files->laid_over || !has_ours(files->table.folder, &files->table)) lay_back(files);/if (0) lay_back(files);/'
echo "daemon.sh: so does the daemon of the examples, and each of $noticed things left out is noticed"
