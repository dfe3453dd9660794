/* whole.c: the daemon of the examples in the shape of the one that ndushavire(3) shows, so that daemon.c can run it on a disk that fails: how it
 * takes its files up, and what it does with new requests, one by one and in rows. Its peers and its loop are served.sh's. */
#include <sys/file.h>
#define main daemon_main
#define live live_path
#define serve serve_peer
#define refused refused_peer
#define read_all read_whole
#define flock(file, how) ((void)(file), 0) /* the locks are a process's, and here one process forks lives */
#include "log.c"
#include "files.c"
#include "taking.c"
#include "row.c"
#include "daemon.c"
#undef main
#undef live
#undef serve
#undef refused
#undef read_all
#undef flock

#define table files.table
#define vectors files.vectors
#define ROWS 64                                    /* the most requests of a row */
#define LAID_OVER() (second_now++, look_for_table(&files)) /* what notices a table that was laid over its own, a second later */
#define MORE_LOGGED "daemon: peer 64: no challenge for user1@isle: B5004\n"
#define UNSUPPORTED_LOGGED "daemon: peer 64: X5011: it asks for features 0x2 of list 1 of vendor 10415, and 0x5 of list 1 are supported\n"

int send_all(int peer, const uint8_t *bytes, size_t length);
int refused(int peer, uint64_t word);
uint32_t edition_stated(int peer);
uint32_t features_stated(void);

static uint8_t answer[NDUSHAVIRE_ANSWER_ROOM]; /* of daemon.c's own calls */
static Peer one;

static void start(const char *folder, const char *cards) {
    take_all(&files, folder, cards);
    make_row(&row);
}

static void ask_in_row(int peer, const uint8_t *request, size_t length) {
    const Asked asked = {&one, request, NULL, length, may_alter(request), 0, 0};
    snprintf(one.name, sizeof one.name, "%d", peer);
    one.edition = edition_stated(peer);
    add_to_row(&row, &asked, one.edition);
}

/* Settles the row; its answers go out in the order in which they were asked for, the first to PEER and each to the next one. */
static int answer_in_row(int peer) {
    int sent = 1;
    one.out = 0;
    features = features_stated();
    answer_row();
    for (size_t at = 0; at < one.out; at += message_length(one.to_write + at), peer++)
        sent &= send_all(peer, one.to_write + at, message_length(one.to_write + at));
    return sent;
}

static int serve(int peer, const uint8_t *request, size_t length) {
    ask_in_row(peer, request, length);
    return answer_in_row(peer);
}
