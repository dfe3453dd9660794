/* remember SEED COUNT: remember.h and base.h by themselves. How long an answer is remembered, how many and how much at most, the load of the fastest
 * disk, hashes that collide; and COUNT random messages, each of which ends where memory ends that may be touched. */
#define _GNU_SOURCE /* MAP_ANONYMOUS */
#include <stdio.h>
#include <sys/mman.h>
#include <unistd.h>

#include "../examples/remember.h"

enum { A_SECOND = 5000, LOAD = A_SECOND * REMEMBERED_SECONDS, LONGEST_CHAIN = 32 };

static int wrong(const char *what) {
    fprintf(stderr, "remember: %s\n", what);
    return 0;
}

/* A request of LENGTH bytes with this identifier: a header and one AVP. */
static void make_request(uint8_t *to, size_t length, unsigned long identifier) {
    memset(to, 0, length);
    set_length(to, length);
    put_four(to + 4, 0xC000012Dul);
    put_four(to + 16, identifier);
    put_four(to + HEADER, 263);
    put_four(to + HEADER + 4, 0x40000000ul | (length - HEADER));
}

static void forget_all(void) {
    for (int i = 0; i < 2; i++)
        while (memory.queue[i].oldest != NULL) forget_oldest(&memory.queue[i]);
}

/* Whether nothing is left, in the rows and in the chains. */
static int is_empty(void) {
    for (size_t i = 0; i < CHAINS; i++)
        if (memory.chain[i] != NULL) return 0;
    return memory.queue[0].bytes == 0 && memory.queue[1].bytes == 0;
}

static int keeps_its_time(int altered) {
    uint8_t request[40], answer[HEADER] = {0};
    make_request(request, sizeof request, 7);
    if (!remember(1000, altered, request, sizeof request, answer, sizeof answer)) return wrong("there is no room for one");
    if (recall(1000 + 240, request, sizeof request) == NULL) return wrong("forgotten within four minutes");
    if (recall(1000 + REMEMBERED_SECONDS - 1, request, sizeof request) == NULL) return wrong("forgotten before its time");
    if (recall(1000 + REMEMBERED_SECONDS, request, sizeof request) != NULL) return wrong("remembered for ever");
    return is_empty() ? 1 : wrong("something is left");
}

/* The request that comes as the NUMBER-th, of clients of which every second one uses one identifier for all. */
static void make_numbered(uint8_t *request, size_t length, unsigned long number) {
    make_request(request, length, number % 2 == 0 ? number : 1);
    put_four(request + HEADER + 8, number);
}

/* What is remembered of that request. */
static int recalls(time_t at, unsigned long number) {
    uint8_t request[40];
    make_numbered(request, sizeof request, number);
    const Remembered *one = recall(at, request, sizeof request);
    return one != NULL && four_bytes(answer_of(one) + 16) == number;
}

/* How many share their hash with another one, and how long the longest chain is. */
static void count_collisions(size_t *collisions, size_t *longest) {
    *collisions = *longest = 0;
    for (size_t i = 0; i < CHAINS; i++) {
        size_t length = 0;
        for (const Remembered *one = memory.chain[i]; one != NULL; one = one->next, length++)
            for (const Remembered *other = one->next; other != NULL; other = other->next) *collisions += other->hash == one->hash;
        if (length > *longest) *longest = length;
    }
}

/* As many as the fastest disk can store, for five minutes, and a flood of others beside them. */
static int keeps_a_full_load(size_t *collisions) {
    static uint8_t large[NDUSHAVIRE_REQUEST_MAX];
    uint8_t request[40], answer[HEADER] = {0};
    size_t longest;
    int room = 1;
    for (unsigned long i = 0; i < LOAD; i++) {
        make_numbered(request, sizeof request, i);
        put_four(answer + 16, i);
        room &= remember((time_t)(1000 + i / A_SECOND), 1, request, sizeof request, answer, sizeof answer);
        if (i % 300 != 0) continue;
        make_request(large, sizeof large, i);
        remember((time_t)(1000 + i / A_SECOND), 0, large, sizeof large, answer, sizeof answer);
    }
    const time_t last = 1000 + REMEMBERED_SECONDS - 1;
    for (unsigned long i = 0; i < LOAD; i++)
        if (!recalls(last, i)) return wrong("at a full load an answer is forgotten, or is another one's");
    count_collisions(collisions, &longest);
    if (*collisions == 0) return wrong("no two hashes are alike: nothing was tried");
    if (longest > LONGEST_CHAIN) return wrong("a chain is so long that it is a scan");
    if (!room || memory.queue[0].bytes > remembered_most[0]) return wrong("there is no room for a full load, or too much for the others");
    if (recalls(last + 1, A_SECOND - 1) || !recalls(last + 1, A_SECOND)) return wrong("a second's answers are forgotten before or after their time");
    forget_all();
    return is_empty() ? 1 : wrong("something is left");
}

/* Where there is no room for all, the oldest go, and it is said. */
static int keeps_within_its_bytes(int altered) {
    static uint8_t request[NDUSHAVIRE_REQUEST_MAX], answer[NDUSHAVIRE_ANSWER_ROOM];
    const size_t one = sizeof(Remembered) + sizeof request + sizeof answer, most = 64 << 20, most_before = remembered_most[altered];
    remembered_most[altered] = most;
    for (unsigned long i = 0; i < 3000; i++) {
        make_request(request, sizeof request, i);
        if (remember(1000, altered, request, sizeof request, answer, sizeof answer) != (one * (i + 1) <= most))
            return wrong("it is not said whether there is room");
        if (memory.queue[altered].bytes > most) return wrong("more bytes than it may have");
    }
    if (recall(1000, request, sizeof request) == NULL) return wrong("the newest is forgotten");
    make_request(request, sizeof request, 0);
    if (recall(1000, request, sizeof request) != NULL) return wrong("the oldest is not forgotten");
    remembered_most[altered] = most_before;
    forget_all();
    return is_empty() ? 1 : wrong("bytes are counted wrong");
}

static uint32_t drawn(uint32_t *state) {
    *state ^= *state << 13;
    *state ^= *state >> 17;
    return *state ^= *state << 5;
}

/* Random bytes, with lengths and codes that often make sense. */
static void draw_message(uint8_t *to, size_t length, uint32_t *state) {
    static const unsigned long codes[] = {264, 258, 260, 282, 284, 297, 1};
    for (size_t i = 0; i < length; i++) to[i] = (uint8_t)drawn(state);
    for (size_t at = HEADER; at + 8 <= length; at += 4 + 4 * (drawn(state) % 6)) {
        put_four(to + at, codes[drawn(state) % 7]);
        put_four(to + at + 4, (unsigned long)(drawn(state) % 4 == 0 ? 0xC0 : 0x40) << 24 | (8 + drawn(state) % 30));
    }
}

/* The end of a page behind which is one that nobody may touch, or NULL. */
static uint8_t *edge(void) {
    const size_t page = (size_t)sysconf(_SC_PAGESIZE);
    uint8_t *two = (uint8_t *)mmap(NULL, 2 * page, PROT_READ | PROT_WRITE, MAP_PRIVATE | MAP_ANONYMOUS, -1, 0);
    return two != MAP_FAILED && mprotect(two + page, page, PROT_NONE) == 0 ? two + page : NULL;
}

static int survives(uint8_t *edges[2], uint32_t *state) {
    static uint8_t plain[NDUSHAVIRE_REQUEST_MAX], answer[NDUSHAVIRE_ANSWER_ROOM];
    const size_t length = HEADER + drawn(state) % 200, other = HEADER + drawn(state) % 200;
    uint8_t *message = edges[0] - length, *first = edges[1] - other;
    draw_message(message, length, state);
    draw_message(first, other, state);
    find_avp(message + HEADER, length - HEADER, 264);
    names_ours(message + HEADER, length - HEADER);
    remember(5, (int)(drawn(state) % 2), message, length, first, other);
    const Remembered *one = recall(5, message, length);
    int good = one != NULL && without_route(plain, message, length) <= length;
    if (good) {
        const size_t again = answer_again(answer, one, message, length);
        good = again <= sizeof answer && again == message_length(answer) && memcmp(answer + 12, message + 12, 4) == 0;
    }
    return good ? 1 : wrong("a random request is not remembered as it was");
}

int main(int argc, char **argv) {
    if (argc != 3) return 2;
    uint32_t state = (uint32_t)strtoul(argv[1], NULL, 10) | 1;
    const unsigned long count = strtoul(argv[2], NULL, 10);
    uint8_t *edges[2] = {edge(), edge()};
    if (edges[0] == NULL || edges[1] == NULL) return 2;
    size_t collisions;
    if (!keeps_its_time(0) || !keeps_its_time(1) || !keeps_within_its_bytes(0) || !keeps_within_its_bytes(1) || !keeps_a_full_load(&collisions)) return 1;
    for (unsigned long i = 0; i < count; i++)
        if (!survives(edges, &state)) return 1;
    forget_all();
    printf("remember: seed %s, %lu random messages; %d answers of %d seconds, %lu pairs of them with one hash; each is remembered its time\n",
           argv[1], count, LOAD, REMEMBERED_SECONDS, (unsigned long)collisions);
    return 0;
}
