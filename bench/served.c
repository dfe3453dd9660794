/* served PORT TABLE WHAT SECONDS: how many requests a second a daemon answers that listens on 127.0.0.1, over one connection with 64 of them outstanding. WHAT is
 * sar: of 64 registered lines of the table each is removed and registered again, over and over, so that each request alters the table and is stored before it is
 * answered; or uar, which alters nothing. Prints the number alone. Exit status: 1 if one is not answered with a success, 2 if it cannot be asked. */
#define _POSIX_C_SOURCE 200809L
#include <arpa/inet.h>
#include <netinet/in.h>
#include <netinet/tcp.h>
#include <stdio.h>
#include <sys/socket.h>
#include <time.h>
#include <unistd.h>

#include "requests.h"
#include "../examples/load.h"

enum { OUTSTANDING = 64, HEADER_LENGTH = 20 };

static int peer;
static uint8_t got[1 << 20];
static size_t have;

static void fail(const char *why, int status) {
    fprintf(stderr, "served: %s\n", why);
    exit(status);
}

static double seconds(void) {
    struct timespec t;
    clock_gettime(CLOCK_MONOTONIC, &t);
    return (double)t.tv_sec + (double)t.tv_nsec / 1e9;
}

static void send_whole(const uint8_t *bytes, size_t length) {
    while (length > 0) {
        const ssize_t sent = send(peer, bytes, length, MSG_NOSIGNAL);
        if (sent <= 0) fail("the daemon is gone", 2);
        bytes += sent;
        length -= (size_t)sent;
    }
}

static uint32_t four(const uint8_t *at) { return (uint32_t)at[0] << 24 | (uint32_t)at[1] << 16 | (uint32_t)at[2] << 8 | at[3]; }

static size_t length_of(const uint8_t *message) { return four(message) & 0xFFFFFFu; }

/* Reads until there is a whole message, and gives its length. */
static size_t await(void) {
    while (have < HEADER_LENGTH || have < length_of(got)) {
        const ssize_t more = recv(peer, got + have, sizeof got - have, 0);
        if (more <= 0) fail("the daemon is gone", 2);
        have += (size_t)more;
    }
    return length_of(got);
}

static void drop(size_t length) {
    have -= length;
    memmove(got, got + length, have);
}

/* Whether an answer has a result of 2xxx, B or X: 268, or 298 in 297. */
static int succeeded(const uint8_t *message, size_t length) {
    for (size_t at = HEADER_LENGTH; at < length; at += ((four(message + at + 4) & 0xFFFFFFu) + 3) / 4 * 4) {
        if (four(message + at) == 268) return four(message + at + 8) / 1000 == 2;
        if (four(message + at) == 297) return four(message + at + 28) / 1000 == 2;
    }
    return 0;
}

static void connect_to(const char *port) {
    const int yes = 1;
    static Request cer;
    struct sockaddr_in at;
    memset(&at, 0, sizeof at);
    at.sin_family = AF_INET;
    at.sin_port = htons((uint16_t)atoi(port));
    at.sin_addr.s_addr = htonl(INADDR_LOOPBACK);
    peer = socket(AF_INET, SOCK_STREAM, 0);
    if (peer < 0 || setsockopt(peer, IPPROTO_TCP, TCP_NODELAY, &yes, sizeof yes) != 0 || connect(peer, (struct sockaddr *)&at, sizeof at) != 0)
        fail(strerror(errno), 2);
    begin(&cer, 257);
    spell(cer.bytes + 4, 0x80000000u + 257);
    spell(cer.bytes + 8, 0);
    end(&cer);
    send_whole(cer.bytes, cer.length);
    drop(await());
}

/* What is asked about a line: two requests in turn, or twice the same. */
static Request asked[OUTSTANDING][2];

static void make_requests(const uint8_t *table, size_t records, const char *what) {
    const int sar = strcmp(what, "sar") == 0;
    size_t line = 0;
    for (size_t k = records; k > 0 && line < OUTSTANDING; k--) {
        const uint8_t *record = table + k * NDUSHAVIRE_BLOCK;
        if (record[8] != (sar ? REGISTERED : NOT_REGISTERED)) continue;
        if (sar) ask_assignment(&asked[line][0], table, records, record, 5, 1);
        else ask_authorization(&asked[line][0], table, record);
        if (sar) ask_assignment(&asked[line][1], table, records, record, 1, 1);
        else asked[line][1] = asked[line][0];
        line++;
    }
    if (line < OUTSTANDING) fail("the table has too few lines", 2);
}

/* Asks about a line, by identifiers of which the first tells the line and the second is new. */
static void ask(size_t line, uint32_t count) {
    Request *r = &asked[line][count / OUTSTANDING % 2];
    spell(r->bytes + 12, (uint32_t)line);
    spell(r->bytes + 16, count);
    send_whole(r->bytes, r->length);
}

int main(int argc, char **argv) {
    size_t length;
    if (argc != 5) fail("usage: served PORT TABLE WHAT SECONDS", 2);
    const uint8_t *table = load(argv[2], &length);
    const double period = atof(argv[4]);
    uint32_t turns[OUTSTANDING] = {0}, answered = 0;
    make_requests(table, length / NDUSHAVIRE_BLOCK - 1, argv[3]);
    connect_to(argv[1]);
    for (size_t line = 0; line < OUTSTANDING; line++) ask(line, (uint32_t)line);
    const double began = seconds();
    double took;
    while ((took = seconds() - began) < period) {
        const size_t size = await();
        const size_t line = four(got + 12) % OUTSTANDING;
        if (!succeeded(got, size)) fail("a request is not answered with a success", 1);
        drop(size);
        answered++;
        ask(line, ++turns[line] * OUTSTANDING + (uint32_t)line);
    }
    printf("%.0f\n", answered / took);
    return 0;
}
