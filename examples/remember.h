/* remember.h: answers that were sent, for requests that come twice. A client that got no answer in time sends its request again, perhaps
 * by another relay; the answer that it should have got is sent again, and nothing is decided a second time.
 * By the standard Origin-Host and End-to-End Identifier tell a request from every other for four minutes. A client that is wrong there
 * would be sent another request's answer, so here the whole request is compared, but for what relays alter: the T flag, the
 * Hop-by-Hop Identifier, Route-Record (282) and Proxy-Info (284).
 * Only SARs and MARs are remembered: a UAR, a LIR or a UDR alters nothing, whenever it comes, and is decided again. Answers of rows that altered a
 * file and those of rows that altered none stand in two queues, so that these, which cost no disk and may be many, never push out those.
 * Answers to MARs have keys in them: they are kept in memory alone, which is gone with the process. */
#ifndef REMEMBER_H
#define REMEMBER_H

#include <stdlib.h>
#include <time.h>

#include <ndushavire.h>

#include "base.h"

enum { REMEMBERED_SECONDS = 300, CHAINS = 1 << 20, RETRANSMITTED = 0x10 };

/* How many bytes the answers may take whose rows altered nothing, and those whose rows altered a file. With its request one takes 1 KiB, and with a
 * profile of 4 KiB 5 KiB: then there is room for 7,000 or 1,300 a second, over five minutes. A disk may store more than that in rows; whoever has such a load
 * gives it more memory, and the log says when answers are forgotten before their time. */
static size_t remembered_most[2] = {(size_t)64 << 20, (size_t)2 << 30};

/* Behind it stand the request without what relays alter, and the answer. */
typedef struct Remembered {
    struct Remembered *next, *younger; /* of its chain; of its queue */
    time_t since;
    uint32_t hash, request, answer; /* of the request; the lengths of both */
} Remembered;

/* A queue has the oldest first: all are kept equally long. A chain has those of which the hash ends alike; pages of it that nobody has
 * written to take no memory. */
typedef struct {
    Remembered *oldest, *youngest;
    size_t bytes;
} Queue;
static struct {
    Remembered *chain[CHAINS];
    Queue queue[2]; /* 0: those that altered nothing, 1: those that altered a file */
} memory;

static inline uint8_t *request_of(const Remembered *one) { return (uint8_t *)(one + 1); }

static inline uint8_t *answer_of(const Remembered *one) { return request_of(one) + one->request; }

static inline size_t bytes_of(const Remembered *one) { return sizeof *one + one->request + one->answer; }

static inline int is_proxy_info(const uint8_t *avp) { return four_bytes(avp) == 284 && !(avp[4] & 0x80); }

static inline int is_route(const uint8_t *avp) { return is_proxy_info(avp) || (four_bytes(avp) == 282 && !(avp[4] & 0x80)); }

/* Copies a request without what relays alter, and gives its length. What is no AVP any more is copied as it stands. */
static inline size_t without_route(uint8_t *to, const uint8_t *request, size_t length) {
    size_t used = HEADER, at = HEADER, span;
    memcpy(to, request, HEADER);
    memset(to + 1, 0, 3);  /* the length */
    to[4] &= (uint8_t)~RETRANSMITTED;
    memset(to + 12, 0, 4); /* the Hop-by-Hop Identifier */
    for (; (span = avp_span(request + at, length - at)) > 0; at += span) {
        if (is_route(request + at)) continue;
        memcpy(to + used, request + at, span);
        used += span;
    }
    memcpy(to + used, request + at, length - at);
    return used + length - at;
}

/* FNV-1a, of the whole request: a client that uses one identifier for all would make one chain of all. */
static inline uint32_t hash_of(const uint8_t *bytes, size_t length) {
    uint32_t hash = 2166136261u;
    for (size_t i = 0; i < length; i++) hash = (hash ^ bytes[i]) * 16777619u;
    return hash;
}

static inline void forget_oldest(Queue *queue) {
    Remembered *oldest = queue->oldest, **at = &memory.chain[oldest->hash % CHAINS];
    while (*at != oldest) at = &(*at)->next;
    *at = oldest->next;
    queue->oldest = oldest->younger;
    queue->bytes -= bytes_of(oldest);
    free(oldest);
}

static inline void forget_old(time_t now) {
    for (Queue *queue = memory.queue; queue < memory.queue + 2; queue++)
        while (queue->oldest != NULL && now - queue->oldest->since >= REMEMBERED_SECONDS) forget_oldest(queue);
}

static inline void add_youngest(Queue *queue, Remembered *one) {
    Remembered **chain = &memory.chain[one->hash % CHAINS];
    one->next = *chain;
    one->younger = NULL;
    *chain = one;
    if (queue->oldest == NULL) queue->oldest = one;
    else queue->youngest->younger = one;
    queue->youngest = one;
    queue->bytes += bytes_of(one);
}

/* Gives 0 if there is no room for all answers of five minutes: then the oldest of the queue are forgotten before their time. */
static inline int remember(time_t now, int altered, const uint8_t *request, size_t length, const uint8_t *answer, size_t answer_len) {
    const size_t most = remembered_most[altered != 0];
    Queue *queue = &memory.queue[altered != 0];
    int room = 1;
    forget_old(now);
    Remembered *one = (Remembered *)malloc(sizeof *one + length + answer_len);
    if (one == NULL) return 0;
    one->since = now;
    one->request = (uint32_t)without_route(request_of(one), request, length);
    one->answer = (uint32_t)answer_len;
    one->hash = hash_of(request_of(one), one->request);
    memcpy(answer_of(one), answer, answer_len);
    for (; queue->oldest != NULL && queue->bytes + bytes_of(one) > most; room = 0) forget_oldest(queue);
    add_youngest(queue, one);
    return room;
}

/* The hash of a request without what relays alter. */
static inline uint32_t request_hash(const uint8_t *request, size_t length) {
    static uint8_t plain[NDUSHAVIRE_REQUEST_MAX];
    return hash_of(plain, without_route(plain, request, length));
}

/* What was answered to this request, or NULL. */
static inline const Remembered *recall(time_t now, const uint8_t *request, size_t length) {
    static uint8_t plain[NDUSHAVIRE_REQUEST_MAX];
    forget_old(now);
    const size_t used = without_route(plain, request, length);
    const uint32_t hash = hash_of(plain, used);
    const Remembered *one = memory.chain[hash % CHAINS];
    while (one != NULL && !(one->hash == hash && one->request == used && memcmp(request_of(one), plain, used) == 0)) one = one->next;
    return one;
}

/* Where the Proxy-Infos of an answer begin: they stand last. */
static inline size_t before_proxies(const uint8_t *answer, size_t length) {
    size_t at = HEADER, span;
    while ((span = avp_span(answer + at, length - at)) > 0 && !is_proxy_info(answer + at)) at += span;
    return at;
}

/* Adds a request's Proxy-Infos to an answer of LENGTH bytes, as the library does, and gives its new length. */
static inline size_t add_proxies(uint8_t *answer, size_t length, const uint8_t *request, size_t request_len) {
    size_t span;
    for (size_t at = HEADER; (span = avp_span(request + at, request_len - at)) > 0; at += span) {
        if (!is_proxy_info(request + at) || length + span > NDUSHAVIRE_ANSWER_ROOM) continue;
        memset(answer + length, 0, span);
        memcpy(answer + length, request + at, avp_length(request + at));
        length += span;
    }
    return length;
}

/* Writes the answer once more, for a second request that may have come by another way, and gives its length. */
static inline size_t answer_again(uint8_t *answer, const Remembered *one, const uint8_t *request, size_t length) {
    const uint8_t *first = answer_of(one);
    const size_t own = before_proxies(first, one->answer);
    memcpy(answer, first, own);
    memcpy(answer + 12, request + 12, 4);
    const size_t whole = add_proxies(answer, own, request, length);
    set_length(answer, whole);
    return whole;
}

#endif
