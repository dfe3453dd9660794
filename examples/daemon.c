/* daemon [-a ADDRESS] [-p PORT] [-e EDITION[=HOST]].. [-f FEATURES] LIVE CARDS: the smallest whole daemon over both libraries, to be copied: what
 * ndushavire(3) tells, running.
 * LIVE is the folder of table and profile, or a link to it; CARDS is that of the vector file, vectors. It listens on 127.0.0.1, port 3868,
 * unless it is told otherwise, and stays in the foreground. Its log goes to standard error, which somebody must read, or it is a file: a
 * pipe that is full would be waited for.
 *
 * - One thread, one loop over poll. No peer is waited for: one that sends a byte a minute, or reads nothing, has its place and no more.
 * - In a turn it takes the whole requests that its peers have sent, 64 at most, one of each peer and then another: a row (row.h). They are decided together,
 *   what they altered is stored once and flushed, the vector file and then the table (files.h, store.h), and then each answer is sent to its peer, in the
 *   order in which it asked. What cannot be stored is undone, and none of the row is answered: the peers ask again. Only a SAR or a MAR that succeeds
 *   alters anything: that is proved.
 * - CER, DWR and DPR are answered here (base.h), requests of the Sh interface by ndushavire_sh_decide, which only reads the table, and SARs and MARs that
 *   came before by their answers, which are remembered (remember.h). Such a message is no part of a row: behind a request that is in one it waits until that is
 *   answered, and so does a request that is in the row already. A CEA names both applications, Cx and Sh, to every peer.
 * - A table that is put in the live one's place is taken over if it is sound; if not, the log says why. One of edition 2 that is put beside it,
 *   as table.next, is written over it block by block (taking.h). Vectors are put in with the daemon stopped: while it runs it has locks on the
 *   table's folder and on CARDS/lock.
 * - It never stores over files that nobody may write to: those are a last good copy.
 * - Each peer follows RFC 3588, or RFC 6733, as -e says: -e 6733 is for all peers, -e 6733=gw.mainland.example for the one that has this
 *   Origin-Host in its CER, and goes before it. Without -e it is RFC 3588. The log says it of each peer that comes (peers.h).
 * - It supports the features that -f says, to all peers: the bits of list 1 as one number, -f 3 or -f 0x3. Without -f it supports none. The log says
 *   which at the start, and what a peer asked for that got X5011 (stated.h).
 *
 * Who may connect, TLS, failover and routing are a relay's in front of it; INTEROPERABILITY.md shows one.
 * Exit status: 0 ended by SIGTERM or SIGINT, or --help; 1 it cannot start or go on; 2 the arguments are others. */
#define _POSIX_C_SOURCE 200809L
#include <arpa/inet.h>
#include <errno.h>
#include <fcntl.h>
#include <netinet/in.h>
#include <netinet/tcp.h>
#include <poll.h>
#include <signal.h>
#include <sys/socket.h>
#include <unistd.h>

#include <ndushavire_sh.h>

#include "base.h"
#include "fault.h"
#include "files.h"
#include "log.h"
#include "remember.h"
#include "row.h"
#include "stated.h"
#include "taking.h"

#ifndef QUIET
#define QUIET 120 /* seconds without a whole message until a peer is hung up on; at half of them it is asked by a DWR */
#endif
#ifndef GREETING
#define GREETING 10 /* seconds that a new connection has for its CER */
#endif
#ifndef FAREWELL
#define FAREWELL 3 /* seconds that peers have to answer our DPR */
#endif
enum { PEERS = 64, STATEMENTS = 64, NAME_ROOM = 80, IN_ROOM = 4 * NDUSHAVIRE_REQUEST_MAX, OUT_MOST = NDUSHAVIRE_ANSWER_ROOM, BASE_ROOM = 512 };
enum { MARKED_OF_VENDOR = 0xC0, VENDOR_ID = 266, SUPPORTED_FEATURES = 628, FEATURE_LIST_ID = 629, FEATURE_LIST = 630, FEATURE_UNSUPPORTED = 5011 };

struct Peer {
    int socket;           /* -1: nobody */
    int open, ending;     /* whether it has its CEA; whether it is hung up on once all is written */
    int closed;           /* whether it sends nothing more: then it is ending, once what it sent is answered */
    int asked;            /* whether a DWR of ours is out */
    int in_row;           /* whether a request of its own is in the row */
    uint32_t edition;     /* of the base standard, from its CER on */
    time_t heard;         /* when its last whole message came */
    char name[NAME_ROOM]; /* for the log */
    size_t from, have;    /* where what it sent and nobody has taken begins in its bytes, and where it ends */
    size_t over;          /* bytes that are yet to be read over */
    uint8_t in[IN_ROOM];
    uint8_t *to_write;    /* what waits to be written: its bytes, and how many there are and may be */
    size_t out, room;
};

static Peer peers[PEERS];
static Files files;
static Row row;
static int more;                     /* whether a whole message waits for the next row */
static char *statements[STATEMENTS]; /* what -e says of peers */
static size_t stated;
static uint32_t features = NDUSHAVIRE_NO_FEATURES; /* what -f says */

static void hang_up(Peer *peer, const char *why) {
    say("peer %s: hung up: %s", peer->name, why);
    close(peer->socket);
    free(peer->to_write);
    peer->to_write = NULL;
    peer->out = peer->room = 0;
    peer->socket = -1;
}

/* A peer that does not read its answers gets no others: at most those of one row more. */
static int has_room(const Peer *peer) { return peer->out < OUT_MOST; }

/* Makes room for so many bytes more that wait to be written. */
static int make_room(Peer *peer, size_t length) {
    if (peer->room - peer->out >= length) return 1;
    uint8_t *bytes = (uint8_t *)realloc(peer->to_write, peer->out + length);
    if (bytes == NULL) return 0;
    peer->to_write = bytes;
    peer->room = peer->out + length;
    return 1;
}

/* Puts a message behind those that wait to be written, unless the peer is gone. */
static void send_later(Peer *peer, const uint8_t *message, size_t length) {
    if (peer->socket < 0) return;
    if (!make_room(peer, length)) {
        hang_up(peer, "no memory");
        return;
    }
    memcpy(peer->to_write + peer->out, message, length);
    peer->out += length;
}

/* ---- the base protocol */

/* Asks a peer by a DWR, or tells it by a DPR that we end; without room it would not read that either. */
static void ask(Peer *peer, unsigned long command) {
    static unsigned long identifier;
    uint8_t request[BASE_ROOM], identifiers[8];
    if (identifier == 0) identifier = (unsigned long)time(NULL) << 20;
    identifier = (identifier + 1) & 0xFFFFFFFFul;
    put_four(identifiers, identifier);
    put_four(identifiers + 4, identifier);
    put_header(request, REQUEST, command, identifiers);
    put_origin(request, files.table.bytes);
    if (command == DISCONNECT) put_number(request, 273, 0); /* Disconnect-Cause: REBOOTING */
    if (has_room(peer)) send_later(peer, request, message_length(request));
}

/* Our address on this connection, as Host-IP-Address has it: 1 or 2 for its family, in two bytes, and the address. */
static size_t own_address(const Peer *peer, uint8_t *to) {
    union {
        struct sockaddr any;
        struct sockaddr_in four;
        struct sockaddr_in6 six;
    } own;
    socklen_t size = sizeof own;
    memset(&own, 0, sizeof own);
    getsockname(peer->socket, &own.any, &size);
    const int six = own.any.sa_family == AF_INET6;
    to[0] = 0;
    to[1] = six ? 2 : 1;
    if (six) memcpy(to + 2, &own.six.sin6_addr, 16);
    else memcpy(to + 2, &own.four.sin_addr, 4);
    return six ? 18 : 6;
}

static void greet(Peer *peer, const uint8_t *request, size_t length) {
    uint8_t reply[BASE_ROOM], address[18];
    const uint8_t *host = find_avp(request + HEADER, length - HEADER, 264);
    if (host == NULL) {
        hang_up(peer, "its CER has no Origin-Host");
        return;
    }
    write_name(peer->name, sizeof peer->name, host + 8, avp_length(host) - 8);
    peer->edition = edition_followed(statements, stated, host + 8, avp_length(host) - 8);
    const int common = names_ours(request + HEADER, length - HEADER);
    put_answer(reply, request, files.table.bytes, common ? SUCCESS : NO_COMMON_APPLICATION);
    put_capabilities(reply, address, own_address(peer, address));
    send_later(peer, reply, message_length(reply));
    peer->open = common;
    peer->ending = !common;
    if (common) say("peer %s: open, RFC %lu", peer->name, (unsigned long)peer->edition);
    else say("peer %s: it speaks neither Cx nor Sh", peer->name);
}

/* CER, DWR, DPR, and the answers to ours. */
static void serve_base(Peer *peer, const uint8_t *message, size_t length) {
    uint8_t reply[BASE_ROOM];
    const unsigned long command = base_command(message);
    if (command == DISCONNECT) peer->ending = 1;
    if (!is_request(message)) return;
    if (command == CAPABILITIES) {
        greet(peer, message, length);
        return;
    }
    put_answer(reply, message, files.table.bytes, SUCCESS);
    send_later(peer, reply, message_length(reply));
}

/* ---- the log of what was asked */

/* Whether a request is of the Sh interface. */
static int is_sh(const uint8_t *request) { return ndushavire_sh_meant(request); }

/* Whether a request may alter a file. */
static int may_alter(const uint8_t *request) {
    return !is_sh(request) && (command_of(request) == SERVER_ASSIGNMENT || command_of(request) == MULTIMEDIA_AUTH);
}

static size_t answer_length(const Asked *asked) { return ndushavire_value(asked->word); }

static void refused(const Peer *peer, uint64_t word) {
    say("peer %s: refused %lu, place %lu, value %lu", peer->name, (unsigned long)ndushavire_number(word), (unsigned long)ndushavire_place(word),
        (unsigned long)ndushavire_value(word));
}

/* For the night man: the AVP at fault, and where it stands. */
static void log_fault(const Asked *asked) {
    const size_t place = ndushavire_place(asked->word);
    if (place == 0 || !may_say()) return;
    fprintf(stderr, "daemon: peer %s: ", asked->peer->name);
    print_fault(stderr, asked->answer, answer_length(asked), asked->request, asked->length, place);
}

/* A phone that is not challenged sees the same whatever the reason is: only here do they differ. */
static void log_challenge(const Asked *asked) {
    const unsigned long base = base_result(asked->answer, answer_length(asked));
    const uint8_t *user = find_avp(asked->request + HEADER, asked->length - HEADER, 1);
    char name[NAME_ROOM] = "";
    if (command_of(asked->answer) != MULTIMEDIA_AUTH || is_sh(asked->request) || base == SUCCESS) return;
    if (user != NULL) write_name(name, sizeof name, user + 8, avp_length(user) - 8);
    say("peer %s: no challenge for %s: %c%lu", asked->peer->name, name, base != 0 ? 'B' : 'X',
        base != 0 ? base : experimental_result(asked->answer, answer_length(asked)));
}

/* The number that a group's member of 4 bytes has, by its code; 0 if there is no such member. */
static unsigned long number_in(const uint8_t *group, unsigned long code) {
    const size_t length = avp_length(group);
    unsigned long number = 0;
    size_t span;
    for (size_t at = 12; (span = avp_span(group + at, length - at)) > 0; at += span)
        if (four_bytes(group + at) == code) number = four_bytes(group + at + avp_length(group + at) - 4);
    return number;
}

/* Whether an AVP is a Supported-Features (628) with M that asks for more than is supported. */
static int asks_too_much(const uint8_t *avp) {
    return four_bytes(avp) == SUPPORTED_FEATURES && (avp[4] & MARKED_OF_VENDOR) == MARKED_OF_VENDOR && four_bytes(avp + 8) == VENDOR_3GPP &&
           (number_in(avp, VENDOR_ID) != VENDOR_3GPP || number_in(avp, FEATURE_LIST_ID) != 1 || (number_in(avp, FEATURE_LIST) & ~features) != 0);
}

/* A call server that asks for too much gets X5011 whatever it wants: here one sees what that was. */
static void log_unsupported(const Asked *asked) {
    const uint8_t *avp = asked->request + HEADER;
    size_t left = asked->length - HEADER, span;
    if (experimental_result(asked->answer, answer_length(asked)) != FEATURE_UNSUPPORTED) return;
    for (; (span = avp_span(avp, left)) > 0 && !asks_too_much(avp); left -= span) avp += span;
    if (span > 0)
        say("peer %s: X5011: it asks for features 0x%lx of list %lu of vendor %lu, and 0x%lx of list 1 are supported", asked->peer->name,
            number_in(avp, FEATURE_LIST), number_in(avp, FEATURE_LIST_ID), number_in(avp, VENDOR_ID), (unsigned long)features);
}

/* Logs what came of a request; gives whether it has an answer. */
static int log_asked(const Asked *asked) {
    if (!ndushavire_answered(asked->word)) {
        refused(asked->peer, asked->word);
        return 0;
    }
    log_fault(asked);
    log_challenge(asked);
    log_unsupported(asked);
    return 1;
}

/* ---- the row */

/* A result 2xxx, B or X. */
static int succeeded(const Asked *asked) {
    return (base_result(asked->answer, answer_length(asked)) + experimental_result(asked->answer, answer_length(asked))) / 1000 == 2;
}

/* What may alter something if it comes a second time is remembered, and whichever peer brings it again is sent the answer as it was, by whatever base
 * standard: it was done once. A request with an AVP at fault is not: it altered nothing, and the peer that brings it again is answered by its own.
 * The features are those of the start; where they may change, forget all answers then. */
static void remember_for_twice(const Asked *asked, int has_altered) {
    static time_t said;
    const int room = remember(now(), has_altered, asked->request, asked->length, asked->answer, answer_length(asked));
    if (room || !has_altered || (said != 0 && now() - said < 60)) return;
    if (say("answers are forgotten before their %d seconds: there are too many", REMEMBERED_SECONDS)) said = now();
}

/* What came of a request of the row is logged, remembered and sent. */
static void deliver(const Asked *asked, int has_altered) {
    if (!log_asked(asked)) return;
    if (asked->alters && ndushavire_place(asked->word) == 0) remember_for_twice(asked, has_altered && succeeded(asked));
    send_later(asked->peer, asked->answer, answer_length(asked));
}

/* Settles the row. What it altered is on disk before the first of its answers is put where it is sent from; if it cannot be stored, none is. */
static void answer_row(void) {
    if (row.count == 0) return;
    const Outcome outcome = settle_row(&row, &files, features);
    for (const Part *part = row.part; part < row.part + EDITIONS; part++)
        for (size_t k = 0; k < part->count; k++) {
            part->asked[k].peer->in_row = 0;
            if (outcome != UNDONE) deliver(&part->asked[k], outcome == KEPT);
        }
    clear_row(&row);
}

/* ---- messages out of a stream of bytes */

/* A message that is answered without the row, or would be decided twice in it, waits until the row is settled; gives 0. */
static int wait_for_row(void) {
    more = 1;
    return 0;
}

static uint64_t decide_sh(const Asked *asked, uint8_t *answer, size_t room) {
    return ndushavire_sh_decide(asked->request, asked->length, files.table.bytes, files.table.length, files.profile.bytes, files.profile.length, answer, room,
                                asked->peer->edition);
}

/* A request of the Sh interface alters nothing, and is answered from the table that is on disk. */
static void serve_sh(Asked *asked) {
    static uint8_t answer[NDUSHAVIRE_ANSWER_ROOM];
    asked->answer = answer;
    asked->word = decide_sh(asked, answer, sizeof answer);
    if (ndushavire_number(asked->word) == NDUSHAVIRE_TABLE_UNSOUND) {
        read_again(&files, NDUSHAVIRE_TABLE_UNSOUND);
        asked->word = decide_sh(asked, answer, sizeof answer);
    }
    if (log_asked(asked)) send_later(asked->peer, answer, answer_length(asked));
}

static void serve_again(const Asked *asked, const Remembered *before) {
    static uint8_t answer[NDUSHAVIRE_ANSWER_ROOM];
    send_later(asked->peer, answer, answer_again(answer, before, asked->request, asked->length));
}

/* Puts a request of Cx into the row, unless it came before and was answered then; gives whether it is taken. */
static int serve_cx(Asked *asked) {
    Peer *peer = asked->peer;
    asked->alters = may_alter(asked->request);
    if (asked->alters) {
        const Remembered *before = recall(now(), asked->request, asked->length);
        asked->hash = request_hash(asked->request, asked->length);
        if (before != NULL ? peer->in_row : is_in_row(&row, asked->hash)) return wait_for_row();
        if (before != NULL) {
            serve_again(asked, before);
            return 1;
        }
    }
    add_to_row(&row, asked, peer->edition);
    peer->in_row = 1;
    return 1;
}

/* Serves a whole message, or lets it wait; gives whether it is taken. */
static int serve(Peer *peer, const uint8_t *message, size_t length) {
    Asked asked = {peer, message, NULL, length, 0, 0, 0};
    const int base = base_command(message) != 0;
    if (!base && files.taking.under_way && may_alter(message)) return 0; /* what may alter waits for the new table */
    if (!base && !is_sh(message)) return serve_cx(&asked);
    if (peer->in_row) return wait_for_row();
    if (base) serve_base(peer, message, length);
    else serve_sh(&asked);
    return 1;
}

/* Before its CEA a peer may send a CER and nothing else. */
static int may_come(const Peer *peer, const uint8_t *message) {
    return peer->open || (is_request(message) && base_command(message) == CAPABILITIES && message_length(message) <= NDUSHAVIRE_REQUEST_MAX);
}

/* Reads over what is left of a message that is too long, and gives how much of it was there. */
static size_t read_over(Peer *peer, size_t left) {
    const size_t there = peer->over < left ? peer->over : left;
    peer->over -= there;
    return there;
}

/* A message that is longer than any request here: it is dropped, since a relay brings others' behind it. */
static size_t too_long(Peer *peer, const uint8_t *message, size_t left) {
    say("peer %s: refused %d, length %lu", peer->name, NDUSHAVIRE_REQUEST_SIZE, (unsigned long)message_length(message));
    if (message[0] != 1) {
        hang_up(peer, "it is out of step");
        return 0;
    }
    peer->over = message_length(message);
    return read_over(peer, left);
}

/* Of a length that no message has, the refusal that the library gives it; or 0. Nobody can tell where the next one begins. */
static uint32_t wrong_length(const uint8_t *message) {
    const size_t length = message_length(message);
    if (length < HEADER) return NDUSHAVIRE_REQUEST_SIZE;
    return length % 4 != 0 && base_command(message) == 0 ? NDUSHAVIRE_REQUEST_LENGTH : 0;
}

/* Takes the message that LEFT bytes begin with, and gives its length; 0 if it is not whole yet, or waits. */
static size_t take_message(Peer *peer, const uint8_t *message, size_t left) {
    if (left < HEADER) return 0;
    const size_t length = message_length(message);
    const uint32_t wrong = wrong_length(message);
    if (!may_come(peer, message)) {
        hang_up(peer, "it began with something else than a CER");
        return 0;
    }
    if (length > NDUSHAVIRE_REQUEST_MAX) return too_long(peer, message, left);
    if (length > left) return 0;
    if (wrong != 0) {
        refused(peer, (uint64_t)wrong << 48);
        hang_up(peer, "it is out of step");
        return 0;
    }
    if (!serve(peer, message, length)) return 0;
    peer->heard = now();
    peer->asked = 0;
    return length;
}

/* Takes a peer's next message, if it is whole and there is room for its answer; gives whether something was taken. */
static int take_next(Peer *peer) {
    if (peer->socket < 0 || peer->ending || !has_room(peer)) return 0;
    const size_t left = peer->have - peer->from;
    const size_t step = peer->over > 0 ? read_over(peer, left) : take_message(peer, peer->in + peer->from, left);
    peer->from += step;
    return step > 0;
}

/* Takes a message of each peer, and another of each, until no whole one is left or the row is full: so every peer has its part in it. While nothing can be
 * stored, a row has one request, so that what alters nothing is answered. */
static void gather(void) {
    const size_t most = files.laid_over ? 1 : row.most;
    int taken = 1;
    more = 0;
    while (taken) {
        taken = 0;
        for (int i = 0; i < PEERS && row.count < most; i++) taken |= take_next(&peers[i]);
    }
    more |= row.count == most;
}

static int for_later(void) { return errno == EAGAIN || errno == EWOULDBLOCK || errno == EINTR; }

/* Moves what nobody has taken to the front, and reads behind it. */
static void read_some(Peer *peer) {
    peer->have -= peer->from;
    memmove(peer->in, peer->in + peer->from, peer->have);
    peer->from = 0;
    if (peer->have == sizeof peer->in) return;
    const ssize_t got = recv(peer->socket, peer->in + peer->have, sizeof peer->in - peer->have, 0);
    if (got < 0 && !for_later()) hang_up(peer, strerror(errno));
    if (got == 0) peer->closed = 1;
    if (got > 0) peer->have += (size_t)got;
}

static void write_some(Peer *peer) {
    const ssize_t sent = send(peer->socket, peer->to_write, peer->out, MSG_NOSIGNAL);
    if (sent < 0 && !for_later()) hang_up(peer, strerror(errno));
    if (sent <= 0) return;
    peer->out -= (size_t)sent;
    memmove(peer->to_write, peer->to_write + sent, peer->out);
}

/* ---- the loop */

static volatile sig_atomic_t told_to_end;

static void end_later(int signal) {
    (void)signal;
    told_to_end = 1;
}

static void on(int signal, void (*what)(int)) {
    struct sigaction action;
    memset(&action, 0, sizeof action);
    action.sa_handler = what;
    sigaction(signal, &action, NULL);
}

static int listen_at(const char *address, unsigned long port) {
    union {
        struct sockaddr any;
        struct sockaddr_in four;
        struct sockaddr_in6 six;
    } at;
    const int six = strchr(address, ':') != NULL, yes = 1;
    socklen_t size = six ? sizeof at.six : sizeof at.four;
    memset(&at, 0, sizeof at);
    at.any.sa_family = six ? AF_INET6 : AF_INET;
    at.four.sin_port = htons((uint16_t)port); /* in either, it stands at one place */
    if (inet_pton(at.any.sa_family, address, six ? (void *)&at.six.sin6_addr : (void *)&at.four.sin_addr) != 1)
        stop(*address != '\0' ? address : "-a", "no address");
    const int listening = socket(at.any.sa_family, SOCK_STREAM, 0);
    if (listening < 0 || setsockopt(listening, SOL_SOCKET, SO_REUSEADDR, &yes, sizeof yes) != 0 || fcntl(listening, F_SETFL, O_NONBLOCK) != 0 ||
        bind(listening, &at.any, size) != 0 || listen(listening, PEERS) != 0 || getsockname(listening, &at.any, &size) != 0)
        stop(address, strerror(errno));
    say("listening on %s port %u, %lu records, features 0x%lx", address, ntohs(at.four.sin_port), records_of(&files.table), (unsigned long)features);
    return listening;
}

static Peer *free_place(void) {
    for (int i = 0; i < PEERS; i++)
        if (peers[i].socket < 0) return &peers[i];
    return NULL;
}

/* Whoever finds no free place waits until there is one. */
static void welcome(int listening) {
    const int yes = 1;
    Peer *peer = free_place();
    const int fresh = peer != NULL ? accept(listening, NULL, NULL) : -1;
    if (fresh < 0) return;
    if (fcntl(fresh, F_SETFL, O_NONBLOCK) != 0 || setsockopt(fresh, IPPROTO_TCP, TCP_NODELAY, &yes, sizeof yes) != 0) {
        close(fresh);
        return;
    }
    peer->socket = fresh;
    peer->open = peer->ending = peer->closed = peer->asked = peer->in_row = 0;
    peer->from = peer->have = peer->over = 0;
    peer->heard = now();
    snprintf(peer->name, sizeof peer->name, "%d", fresh);
}

/* A peer is read from only while there is room for its answers. */
static short waits_for(const Peer *peer) {
    const int reads = !peer->ending && !peer->closed && has_room(peer) && peer->have - peer->from < sizeof peer->in;
    return (short)((reads ? POLLIN : 0) | (peer->out > 0 ? POLLOUT : 0));
}

/* Whether a whole message of a peer is there that nobody has taken. */
static int has_whole(const Peer *peer) {
    const size_t left = peer->have - peer->from;
    return left >= HEADER && message_length(peer->in + peer->from) <= left;
}

/* Writes what waits, and hangs up on whoever has all and wants no more: also one that sends nothing more, once what it sent is answered. */
static void see_off(Peer *peer) {
    if (peer->out > 0) write_some(peer);
    if (peer->socket < 0) return;
    if (peer->closed && !has_whole(peer)) peer->ending = 1;
    if (peer->ending && peer->out == 0) hang_up(peer, "as agreed");
}

/* Peers from which no whole message comes, be they slow or dead. While a table is taken over, it is we who let messages wait. */
static void mind_silence(Peer *peer) {
    if (files.taking.under_way) peer->heard = now();
    const time_t silence = now() - peer->heard;
    if (silence >= (peer->open ? QUIET : GREETING)) {
        hang_up(peer, "no whole message came");
    } else if (peer->open && !peer->asked && silence >= QUIET / 2) {
        ask(peer, WATCHDOG);
        peer->asked = 1;
    }
}

static void wait_for(struct pollfd *events, int listening) {
    for (int i = 0; i < PEERS; i++) {
        events[i].fd = peers[i].socket;
        events[i].events = peers[i].socket >= 0 ? waits_for(&peers[i]) : 0;
        events[i].revents = 0;
    }
    events[PEERS].fd = free_place() != NULL ? listening : -1;
    events[PEERS].events = POLLIN;
    if (poll(events, PEERS + 1, more || files.taking.under_way ? 0 : 1000) < 0 && errno != EINTR) stop("poll", strerror(errno));
    look_at_clock();
}

/* Goes on with a take-over; what waited for it comes in the next turn. */
static void take_in_turn(void) {
    go_on_taking(&files, 0);
    more = 1;
}

static void read_peers(const struct pollfd *events) {
    for (int i = 0; i < PEERS; i++)
        if (peers[i].socket >= 0 && (events[i].revents & (POLLIN | POLLHUP | POLLERR))) read_some(&peers[i]);
}

static void see_to_peers(void) {
    for (int i = 0; i < PEERS; i++) {
        if (peers[i].socket >= 0) see_off(&peers[i]);
        if (peers[i].socket >= 0) mind_silence(&peers[i]);
    }
}

/* Whatever was sent before a table was put in the live one's place was read before it is looked for; so what comes behind it is answered from it. */
static void turn(int listening) {
    struct pollfd events[PEERS + 1];
    wait_for(events, listening);
    read_peers(events);
    look_for_table(&files);
    gather();
    answer_row();
    see_to_peers();
    if (listening >= 0) welcome(listening);
    if (files.taking.under_way) take_in_turn();
    look_for_next(&files);
    forget_old(now());
}

static int somebody_there(void) {
    int there = 0;
    for (int i = 0; i < PEERS; i++) there |= peers[i].socket >= 0;
    return there;
}

/* Each peer is told, so that it goes elsewhere, and has a moment to say that it heard. */
static void say_farewell(void) {
    const time_t told = now();
    for (int i = 0; i < PEERS; i++) {
        if (peers[i].socket >= 0 && peers[i].open) ask(&peers[i], DISCONNECT);
        if (peers[i].socket >= 0 && !peers[i].open) hang_up(&peers[i], "we end");
    }
    while (somebody_there() && now() - told < FAREWELL) turn(-1);
    say("ended");
}

/* A port by its digits, or more than any port. */
static unsigned long port_of(const char *digits) {
    const size_t length = strlen(digits);
    return length >= 1 && length <= 5 && strspn(digits, "0123456789") == length ? strtoul(digits, NULL, 10) : 65536;
}

/* Takes what -e says; 0 if it says nothing. */
static int state(char *statement) {
    const int right = is_statement(statement) && stated < STATEMENTS;
    if (right) statements[stated++] = statement;
    else fprintf(stderr, "daemon: -e: 3588 or 6733 for all peers, or followed by =HOST for one; at most %d\n", STATEMENTS);
    return right;
}

/* Takes what -f says; 0 if that is no number of 32 bits. */
static int support(const char *digits) {
    const int right = features_of(digits, &features);
    if (!right) fprintf(stderr, "daemon: -f: the bits of list 1 that are supported, a number of 32 bits, decimal or with 0x\n");
    return right;
}

int main(int argc, char **argv) {
    static const char usage[] = "usage: daemon [-a ADDRESS] [-p PORT] [-e EDITION[=HOST]].. [-f FEATURES] LIVE CARDS\n"
                                "EDITION: the base standard that the peers follow, or the one with the Origin-Host HOST: 3588, unless it is given, or 6733.\n"
                                "FEATURES: the bits of list 1 that are supported, to all peers, decimal or with 0x: 0, unless it is given.\n";
    const char *address = "127.0.0.1";
    unsigned long port = 3868;
    int option, wrong = 0;
    if (argc == 2 && strcmp(argv[1], "--help") == 0) return fputs(usage, stdout) < 0 || fclose(stdout) != 0;
    while ((option = getopt(argc, argv, "a:p:e:f:")) != -1) {
        if (option == 'a') address = optarg;
        if (option == 'p') port = port_of(optarg);
        if (option == 'e') wrong |= !state(optarg);
        if (option == 'f') wrong |= !support(optarg);
        wrong |= option == '?';
    }
    if (port > 65535) fprintf(stderr, "daemon: -p: a port is 0 to 65535\n");
    if (wrong || argc - optind != 2 || port > 65535) {
        fputs(usage, stderr);
        return 2;
    }
    setvbuf(stderr, NULL, _IOLBF, 0);
    if (ndushavire_version() != NDUSHAVIRE_VERSION_NUMBER) stop("the library", "it is of another version than the header that the daemon was compiled with");
    look_at_clock();
    on(SIGTERM, end_later);
    on(SIGINT, end_later);
    on(SIGPIPE, SIG_IGN); /* a log that nobody reads any more */
    take_all(&files, argv[optind], argv[optind + 1]);
    make_row(&row);
    for (int i = 0; i < PEERS; i++) peers[i].socket = -1;
    const int listening = listen_at(address, port);
    while (!told_to_end) turn(listening);
    if (files.taking.under_way) go_on_taking(&files, 1);
    close(listening);
    say_farewell();
    return 0;
}
