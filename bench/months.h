/* months.h: requests of some kinds in turn, laid end to end over a table, for what answers many in one call; and the decisions that they stand for. */
#ifndef MONTHS_H
#define MONTHS_H

#include "requests.h"
#include "samples.h"

/* Requests of some kinds in turn, laid end to end, and how long the first few of them are, and all. */
typedef struct {
    const Sample *of;
    const Request *kinds;
    uint8_t *file;
    size_t few, many;
} Month;

static uint8_t answer[NDUSHAVIRE_ANSWER_ROOM], nothing;

static uint64_t decide_kind(const Month *m, int kind) {
    const Request *r = m->kinds + kind;
    return ndushavire_decide(r->bytes, r->length, m->of->table, m->of->table_len, m->of->profile, m->of->profile_len, &nothing, 0, answer,
                             sizeof answer, NDUSHAVIRE_RFC_6733, NDUSHAVIRE_NO_FEATURES);
}
static uint64_t decide_one(const void *month) { return decide_kind((const Month *)month, 0); }
static uint64_t decide_two(const void *month) { return decide_kind((const Month *)month, 0) + decide_kind((const Month *)month, 1); }

/* So many requests of these kinds in turn, and the length of the first few of them. */
static Month lay(const Sample *s, const Request *kinds, int turns, size_t count, size_t first) {
    size_t longest = 0, used = 0;
    Month m = {s, kinds, NULL, 0, 0};
    for (int kind = 0; kind < turns; kind++) longest = kinds[kind].length > longest ? kinds[kind].length : longest;
    m.file = (uint8_t *)malloc(count * longest);
    if (m.file == NULL) abort();
    for (size_t i = 0; i < count; i++) {
        const Request *r = kinds + i % (size_t)turns;
        if (i == first) m.few = used;
        memcpy(m.file + used, r->bytes, r->length);
        used += r->length;
    }
    m.many = used;
    return m;
}

#endif
