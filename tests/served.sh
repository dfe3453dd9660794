#!/usr/bin/env bash
# served.sh ROOM MAKETABLE ARCHIVES CC..: builds the daemon of the examples and gives it to a client of its own (client.py). Then it puts one
# fault after the other into the daemon, and sees that the client notices each. RUN, if set, is the emulator.
. "$(dirname "$0")/script.sh"
make_room "$1"
make_memory disk # a flush takes what slow-disk.h says
maketable=$2 archives=($3)
shift 3
compiler=("$@")
chmod 711 "$disk" # a daemon of another user comes by
command -v python3 >/dev/null || fail 'python3 is missing (Debian: python3)'
cp -r "$top/examples" "$room/source"

# Three trials are about peers that wait in vain, and have a daemon with little patience; the others may run on a machine that is slow.
hasty='greeting slow ending' others='cut many garbage replaced declined two_users laid_over sizes taken taken_over_kills put_in timed_out editions features voicemail last_good twice full kills rows row_order row_full row_kills'
include=$top/include
build() { # SOURCES PROGRAM TRIAL [OPTION]
    local flags=(-DLOOK_AGAIN=1 "${@:4}")
    [[ " $hasty " != *" $3 "* ]] || flags+=(-DQUIET=3 -DGREETING=1 -DFAREWELL=1)
    "${compiler[@]}" -std=c99 -O2 -Wall -Wextra -pedantic -Werror -Wno-unused -I"$include" "${flags[@]}" -include "$tests/slow-disk.h" \
        -o "$2" "$1"/{daemon,files,log,row,taking}.c "${archives[@]}"
}
build "$room/source" "$room/hasty" slow
build "$room/source" "$room/daemon" cut
program=$room/daemon
ends() { # STATUS ARGUMENT..
    local status=0
    "${run[@]}" "$program" "${@:2}" >"$room/usage" 2>"$room/complaint" || status=$?
    [ "$status" = "$1" ] || fail "with the arguments '${*:2}' it ends with status $status"
}
ends 0 --help
grep -q '^usage: ' "$room/usage" && [ ! -s "$room/complaint" ] || fail '--help does not show how it is used'
ends 2
for port in '' 65536 12x -1 ' 1'; do
    ends 2 -p "$port" live cards
    grep -q -e '-p: a port is 0 to 65535' "$room/complaint" || fail "a port '$port' is not complained of"
done
for edition in '' 6734 06733 6733x 6733= =gw.mainland.example 3588,6733; do
    ends 2 -e "$edition" live cards
    grep -q -e '-e: 3588 or 6733' "$room/complaint" || fail "an edition '$edition' is not complained of"
done
ends 2 $(printf -- '-e 6733=gw%s ' $(seq 65)) live cards
ends 1 $(printf -- '-e 6733=gw%s ' $(seq 64)) "$room/none" "$room/none"
for set in '' x 0x 1x 01 -1 ' 1' 4294967296 0x100000000 3=gw.mainland.example; do
    ends 2 -f "$set" live cards
    grep -q -e '-f: the bits of list 1' "$room/complaint" || fail "features '$set' are not complained of"
done
ends 1 -f 4294967295 "$room/none" "$room/none"
# By another version's header it does not start.
mkdir "$room/other"
sed 's/\(NDUSHAVIRE_VERSION_NUMBER\) \([0-9][0-9]*\) /\1 (\2 - 100) /' "$top/include/ndushavire.h" >"$room/other/ndushavire.h"
cp "$top/include/ndushavire_sh.h" "$room/other/"
include=$room/other build "$room/source" "$room/other/daemon" cut
program=$room/other/daemon ends 1 "$room/none" "$room/none"
grep -q '^daemon: the library: it is of another version than the header' "$room/complaint" || fail "by another header it says '$(cat "$room/complaint")'"
kills=40
[ ${#run[@]} = 0 ] || kills=15 # an emulator takes long to start
client() { # TRIALS PROGRAM
    "$tests/client.py" "$disk/room" "$maketable" "$kills" $1 -- "${run[@]}" "$2"
}
client "$hasty" "$room/hasty"
client "$others" "$room/daemon"

# Builds with something put in, for a trial each: damage in memory, which is mended from disk; and little room for answers.
spoil='s/^    const uint64_t word = ndushavire_row(/    static int calls;\n    if (++calls == 1) table->bytes[600] ^= 1;\n    if (calls == 3) vectors->bytes[600] ^= 1;\n&/'
few='s/= {(size_t)64 << 20, (size_t)2 << 30};/= {1500, 5000};/'
special() { # TRIAL FILE SED
    cp -r "$room/source" "$room/$1"
    sed -i "$3" "$room/$1/$2"
    build "$room/$1" "$room/$1/daemon" "$1"
    client "$1" "$room/$1/daemon"
}
special spoilt row.c "$spoil"
special crowded remember.h "$few"

# With a fault the trial must end with status 1. Such trials mostly wait for what does not come: four run beside each other.
started=0 pids=()
try_with() { # NUMBER ABOUT TRIAL FILE SED..
    local status=0 changed=$room/changed$1
    cp -r "$room/source" "$changed"
    sed -i "${@:5}" "$changed/$4"
    ! cmp -s "$room/source/$4" "$changed/$4" || fail "$2: there is no place for this fault"
    build "$changed" "$changed/daemon" "$3" -O0 # which takes less time than it costs
    PATIENCE=5 "$tests/client.py" "$disk/room$1" "$maketable" "$kills" "$3" -- "${run[@]}" "$changed/daemon" >"$changed/said" 2>&1 || status=$?
    [ "$status" = 1 ] && grep -q "^client.py: $3: " "$changed/said" || { cat "$changed/said" >&2; fail "$2: not noticed, status $status"; }
    sed "s/^client.py: /served.sh: $2: /" "$changed/said" | tail -n 1
}
with() { # ABOUT TRIAL FILE SED..
    [ $((started - 4)) -lt 0 ] || wait "${pids[started - 4]}"
    try_with "$started" "$@" &
    pids[started]=$!
    started=$((started + 1))
}
with 'files that are damaged in memory and not read again' spoilt row.c -e "$spoil" -e 's/^        read_again(files, unsound);//; s/^        undo(files);//'
with 'an edition that is not the peer'"'"'s' editions row.c 's/sizeof part->words, part->edition,/sizeof part->words, NDUSHAVIRE_RFC_3588,/'
with 'an edition of one peer, taken for all' editions peers.h 's/^        else if (strlen(host) == length .*) of_peer = /        else of_peer = /'
with 'an edition of all, taken before that of one peer' editions peers.h 's/return of_peer != 0 ? of_peer : of_all;/return of_all != NDUSHAVIRE_RFC_3588 ? of_all : of_peer != 0 ? of_peer : of_all;/'
with 'a host by the beginning of its name' editions peers.h 's/strlen(host) == length \&\& strncasecmp(host, (const char \*)name, length)/strncasecmp(host, (const char *)name, length)/'
with 'a host in another case, taken for another' editions peers.h 's/strncasecmp/strncmp/'
with 'the first word on a peer, and not the last' editions peers.h 's/ \&\& strncasecmp(/ \&\& of_peer == 0&/'
with 'a fault by one edition, remembered for another' editions daemon.c 's/ \&\& ndushavire_place(asked->word) == 0) remember_for_twice/) remember_for_twice/'
with 'what was done by one edition, decided again by another' editions daemon.c \
    's/const Remembered \*before = recall(/const Remembered *before = peer->edition != NDUSHAVIRE_RFC_3588 ? NULL : recall(/'
with 'an edition that the log does not say' editions daemon.c 's/open, RFC %lu", peer->name, (unsigned long)peer->edition)/open", peer->name)/'
with 'a peer that follows RFC 6733 unless something is stated' editions peers.h 's/uint32_t of_all = NDUSHAVIRE_RFC_3588/uint32_t of_all = NDUSHAVIRE_RFC_6733/'
with 'features that are supported, and are not stated' features row.c 's/part->edition, features)/part->edition, NDUSHAVIRE_NO_FEATURES)/'
with 'features that are supported unless it is told' features daemon.c 's/^static uint32_t features = NDUSHAVIRE_NO_FEATURES;/static uint32_t features = 1;/'
with 'features by the first word, and not the last' features daemon.c \
    's/^    const int right = features_of(digits, &features);/    uint32_t later;\n    const int right = features_of(digits, features == 0 ? \&features : \&later);/'
with 'features by decimal digits alone' features stated.h 's/(sixteen ? 16 : 10)/10/'
with 'features without the digits A to F' features stated.h 's/(digit < 16 ? digit : digit - 6)/digit % 16/'
with 'features up to 2^31' features stated.h 's/number > UINT32_MAX/number > INT32_MAX/'
with 'features that the log does not say' features daemon.c 's/, features 0x%lx", address, \(.*\), (unsigned long)features);/", address, \1);/'
with 'an X5011 of which the log does not say why' features daemon.c 's/^    log_unsupported(asked);//'
with 'an X5011 of which the log blames what has no M' features daemon.c 's/ \&\& (avp\[4\] & MARKED_OF_VENDOR) == MARKED_OF_VENDOR//'
with 'an X5011 of which the log does not know another list' features daemon.c 's/ || number_in(avp, FEATURE_LIST_ID) != 1//'
with 'an X5011 of which the log does not know another vendor' features daemon.c 's/(number_in(avp, VENDOR_ID) != VENDOR_3GPP || /(/'
with 'an X5011 of which the log has the first bits of all' features daemon.c 's/ \&\& !asks_too_much(avp); left -= span/ \&\& four_bytes(avp) != SUPPORTED_FEATURES; left -= span/'
with 'a User-Data-Request that goes to the Cx server' voicemail daemon.c 's/^    if (!base \&\& !is_sh(message)) return/    if (!base) return/'
with 'a request of Sh by its command' voicemail daemon.c 's/ndushavire_sh_meant(request); }/command_of(request) == NDUSHAVIRE_SH_USER_DATA_REQUEST; }/'
with 'a CEA without Sh' voicemail base.h 's/^    put_application(answer, SH);//'
with 'a CEA without Cx' voicemail base.h 's/^    put_application(answer, CX);//'
with 'a peer of Sh alone that is turned away' voicemail base.h 's/ || application == SH || / || /'
with 'an edition that is not the voicemail box'"'"'s' voicemail daemon.c 's/^                                asked->peer->edition);/                                NDUSHAVIRE_RFC_3588);/'
with 'a MAR of Sh, logged as one of Cx' voicemail daemon.c 's/ || is_sh(asked->request) || / || /'
with 'an answer that is sent before its work is stored' kills row.c \
    's/^    const Outcome outcome = keep_altered(files, altered);/    const Outcome outcome = altered ? KEPT : UNALTERED;/'
with 'vectors that are not stored' kills files.c 's/(used \&\& !durable(&files->vectors)) || //'
with 'a table that is not stored' kills files.c 's/ || (rewritten \&\& !durable(&files->table))//'
with 'what was not stored, kept in memory' full files.c 's/^        undo(files);//'
with 'a file that may be lost, and is answered from' full files.c 's/if (stored == UNSURE \&\& /if (0 \&\& /'
with 'a request that comes twice and is decided twice' twice daemon.c 's/= recall(now(), asked->request, asked->length);/= NULL;/'
with 'answers that are told apart by their identifier alone' twice remember.h \
    -e 's/^    uint32_t hash = 2166136261u;/    return (uint32_t)four_bytes(bytes + 16);\n&/' \
    -e 's/ \&\& one->request == used \&\& memcmp(request_of(one), plain, used) == 0//'
with 'an answer that is sent again with the first identifier' twice remember.h 's/^    memcpy(answer + 12, request + 12, 4);//'
with 'an answer that is sent again with the first Proxy-Info' twice remember.h 's/ \&\& !is_proxy_info(answer + at)) at += span;/) at += span;/'
with 'a Route-Record that makes another request of it' twice remember.h 's/return is_proxy_info(avp) || .*/return is_proxy_info(avp); }/'
with 'answers that altered nothing among those that did' crowded remember.h -e "$few" -e 's/^    Queue \*queue = &memory.queue\[.*/    Queue *queue = \&memory.queue[1];/'
with 'answers that are forgotten without a word' crowded remember.h -e "$few" -e 's/^    return room;/    return 1;/'
with 'an unsound table that is taken over' replaced files.c 's/return why != NULL ? why : reason_of(files, "table", unsound(.*/return why;/'
with 'a table that is never looked for' replaced files.c 's/^    consider(files, locked_already(.*/    close(folder);/'
with 'a table that was laid over ours, and is left there' replaced files.c 's/^    if (files->laid_over || !has_ours(files->table.folder, &files->table)) lay_back(files);//'
with 'a switch that does not happen, without a word' declined files.c 's/^        declined(files, reason_of(files, files->live, strerror(errno)));/        ;/'
with 'a reason that is said again and again' declined log.c 's/strcmp(line, told) != 0 \&\& //'
with 'a table that was declined, whose mode does not matter' declined files.c -e 's/^    return a->st_mode == b->st_mode .*/    return a != b;/' \
    -e 's/return same_file(a, b) \&\& same_rights(a, b) .*/return same_file(a, b);/'
with 'a table that was declined, whose profile does not matter' declined files.c 's/^           untouched(&a->about\[PROFILE_FILE\].*/           1;/'
with 'a table that is not looked at again unless somebody touches it' declined files.c 's/if (same \&\& now() - files->looked < LOOK_AGAIN) {/if (same) {/'
with 'a table renamed away before ours is stored' laid_over files.c \
    's/^    const int folder = table->folder;$/&\n    renameat(folder, "table", folder, "table.declined");/'
with 'a mode that is taken from what was laid over ours' laid_over files.c 's/^    if (fchmodat(folder, "table.ours", .* || fstatat/    if (fstatat/'
with 'a table that was left without its name' laid_over files.c 's/^    finish_laying_back(here);//'
with 'a table beside ours that is never looked for' taken daemon.c 's/^    look_for_next(&files);//'
with 'what alters while a table is taken over' taken daemon.c 's/^    if (!base \&\& files.taking.under_way \&\& may_alter(message)) return 0;.*//'
with 'a table of which only half is ours, taken for one that was laid over it' taken files.c 's/^    if (files->taking.under_way) return;//'
with 'a take-over that fails, and is left so' taken taking.c '/^static void give_up/,/^}/{s/^    files->laid_over = 1;//; s/^    lay_back(files);//}'
with 'an end within a take-over' taken daemon.c 's/^    if (files.taking.under_way) go_on_taking(&files, 1);/    if (files.taking.under_way) exit(0);/'
with 'a table that is refused and taken over' taken taking.c 's/^    return ndushavire_taken(word) ? NULL : refusal_of(word, &t);/    return NULL;/'
with 'a new table that is taken over and stays beside ours' taken taking.c 's/^    unlinkat(table->folder, next_name, 0);//'
with 'a table that is answered from before it is on disk' taken_over_kills taking.c -e 's/^    if (!ndushavire_taken(word)) stop(.*//' \
    -e 's/^    taking->written = 0;/&\n    take_in_memory(files, files->table.bytes);/'
with 'blocks that are written from the last one down' taken_over_kills taking.c 's/write_block(taking->area, taking->next.bytes, taking->written)/write_block(taking->area, taking->next.bytes, blocks - 1 - taking->written)/'
with 'a take-over that was cut, and nobody is told what to do' taken_over_kills taking.c 's/^        say_what_to_do(&files->table);//'
with 'a take-over that was cut, and is not mended at a start' taken_over_kills files.c 's/return bad != NULL ? mend_table(files, bad) : NULL;/return reason_of(files, "table", bad);/'
with 'sizes that are not asked' sizes files.c 's/^    if (size <= most \&\& size % block == 0) return NULL;/    if (size < 1ull << 40) return NULL;/'
with 'vectors that are stored over without a word' put_in files.c 's/^    if (used \&\& !has_ours(files->vectors.folder, &files->vectors)) .*//'
with 'a last good file that is stored over' last_good files.c 's/(file.st_mode & 0222) == 0 || (around.st_mode & 0222) == 0/0/'
with 'a vector file that is a link, by its errno' last_good files.c \
    -e 's/^    if (S_ISLNK(file.st_mode)) return linked;//' -e 's/return errno == ELOOP ? linked : strerror(errno);/return strerror(errno);/'
with 'two daemons over one vector file' last_good files.c 's/file < 0 ? why_not_opened() : why_not_locked(file);/file < 0 ? why_not_opened() : NULL;/'
with 'two daemons over one table' last_good files.c 's/^    if (why == NULL) why = reason_of(files, "its folder", .*//'
with 'a lock that flock(1) does not see' last_good files.c \
    's/^    if (flock(file, LOCK_EX | LOCK_NB) == 0)/    struct flock all = {.l_type = F_WRLCK};\n    if (fcntl(file, F_SETLK, \&all) == 0 || errno == EBADF)/'
with 'rotten vectors that are lent as they are' last_good files.c 's/vectors->length = 0;/;/'
with 'a store for each request' rows row.h 's/^#define ROW_MOST 64/#define ROW_MOST 1/'
with 'a row of more requests than are stored at once' rows row.h 's/^#define ROW_MOST 64/#define ROW_MOST 100/'
with 'what alters nothing, and is stored' rows row.c 's/keep_altered(files, altered);/keep_altered(files, altered | NDUSHAVIRE_ROW_ALTERED);/'
with 'a watchdog that is answered before what was asked before it' row_order daemon.c 's/^    if (peer->in_row) return wait_for_row();//'
with 'what came before, answered before what was asked before it' row_order daemon.c 's/if (before != NULL ? peer->in_row : /if (before != NULL ? 0 : /'
with 'a request that is twice in a row, and is decided twice' row_order daemon.c 's/ : is_in_row(&row, asked->hash)) return/ : 0) return/'
with 'what the last part of a row altered, and no other, is stored' row_order row.c 's/^        altered |= decide_part/        altered = decide_part/'
with 'a request by the base standard of another in its row' row_order row.c 's/&row->part\[edition == row->part\[1\].edition\];/\&row->part[0];/'
with 'what waits for the next row, and nobody looks' row_order daemon.c 's/^    more |= row.count == row.most;//; s/^    more = 1;$//'
with 'a peer that sends nothing more, and is hung up on' row_order daemon.c 's/^    if (peer->closed \&\& !has_whole(peer)) /    if (peer->closed) /'
with 'a row that is not stored, and is answered' row_full daemon.c 's/^            if (outcome != UNDONE) deliver/            deliver/'
with 'a row that is not stored, of which the questions are answered' row_full daemon.c \
    's/^            if (outcome != UNDONE) deliver/            if (outcome != UNDONE || !part->asked[k].alters) deliver/'
with 'a row that is not stored, and kept in memory' row_full files.c 's/^        undo(files);//'
with 'a full disk on which no question is answered' row_full row.c 's/row->most = outcome == KEPT ? ROW_MOST : 1;/row->most = ROW_MOST;/'
with 'rows that stay short when there is room again' row_full row.c 's/row->most = outcome == KEPT ? ROW_MOST : 1;/row->most = outcome == KEPT ? row->most : 1;/'
with 'a row that is answered before it is stored' row_kills row.c 's/^    const Outcome outcome = keep_altered(files, altered);/    const Outcome outcome = altered ? KEPT : UNALTERED;/'
with 'a row whose vectors are not stored' row_kills files.c 's/(used \&\& !durable(&files->vectors)) || //'
with 'half a message, forgotten' cut daemon.c 's/^    peer->from += step;/    if (step == 0) peer->from = peer->have;\n&/'
with 'what stands behind a message, forgotten' many daemon.c 's/^    peer->from += step;/    peer->from = step > 0 ? peer->have : peer->from;/'
with 'a long message that is not read over' garbage daemon.c 's/^    peer->over = message_length(message);//'
with 'a stream that is out of step and gone on with' garbage daemon.c '/^    if (wrong != 0) {/,/^    }/s/^        hang_up.*//'
with 'a refusal that is not logged' garbage daemon.c '/^static void refused/,/^}/{s/^    say(.*/    (void)peer, (void)word;/; s/^        (unsigned long)ndushavire_value.*//}'
with 'a peer that is waited for' slow daemon.c 's/fcntl(fresh, F_SETFL, O_NONBLOCK) != 0 || //'
with 'silence that is not minded' slow daemon.c 's/^        if (peers\[i\].socket >= 0) mind_silence(.*//'
with 'a request before the CER' greeting daemon.c 's/^    return peer->open || .*/    return peer->open || is_request(message);/'
with 'an end without a word' ending daemon.c 's/\.open) ask(&peers\[i\], DISCONNECT);/.open) continue;/'
for pid in "${pids[@]: -4}"; do wait "$pid"; done

left=$(still_running)
[ -z "$left" ] || fail "a daemon outlives its trial: $left"
echo "served.sh: the daemon of the examples serves its client, and each of $started faults is noticed"
