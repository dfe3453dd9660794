/* areas.h: random working areas and new tables to be taken over, for tests. An area has an old table, sound or cut or damaged, or noise, or zeros,
 * and more behind it; its issues are below the new table's. What is read after a cut is said here as a plain model. */
#ifndef AREAS_H
#define AREAS_H

#include "../bench/requests.h"
#include "random-tables.h"

static void give_issue(Bytes table, uint32_t issue) {
    for (size_t at = 0; at < table.length; at += BLOCK) {
        put32(table.bytes + at + 408, issue);
        seal(table.bytes + at);
    }
}

static inline int has_issue(const uint8_t *block) { return block[0] == 1 || block[0] == 2; }

/* The longer of two profiles, and the other one given back: beside it both tables are sound. */
static void keep_longer(Bytes *profile, Bytes other) {
    Bytes *shorter = other.length > profile->length ? profile : &other;
    const Bytes longer = shorter == profile ? other : *profile;
    free(shorter->bytes);
    *profile = longer;
}

/* ---- what may stand in an area */

static void put_noise(uint8_t *to, size_t length) {
    for (size_t at = 0; at < length; at++) to[at] = (uint8_t)below(256);
    for (size_t at = 0; at + BLOCK <= length; at += BLOCK)
        if (!one_in(4)) to[at] = (uint8_t)below(4);
}

/* Lays the first blocks of a random table over an area; gives how many there are. */
static size_t lay_table(Bytes area, uint8_t edition, uint32_t issue, size_t records, size_t most, Bytes *profile) {
    Bytes own;
    const Bytes table = put_table_of(edition, records, 0, &own);
    size_t blocks = table.length / BLOCK;
    if (blocks > area.length / BLOCK) blocks = area.length / BLOCK;
    if (blocks > most) blocks = most;
    if (edition == 2) give_issue(table, issue);
    memcpy(area.bytes, table.bytes, BLOCK * blocks);
    keep_longer(profile, own);
    free(table.bytes);
    return blocks;
}

/* No header and no record in the area has LIMIT or more as its issue; with a new sum, or not. */
static void lower_issues(Bytes area, uint32_t limit) {
    for (size_t at = 0; at + BLOCK <= area.length; at += BLOCK) {
        uint8_t *block = area.bytes + at;
        if (!has_issue(block) || get32(block + 408) < limit) continue;
        if (limit == 0) block[0] = (uint8_t)(3 + below(250));
        else put32(block + 408, one_in(3) ? limit - 1 : below(limit));
        if (!one_in(3)) seal(block);
    }
}

/* An area of so many bytes, of which every issue is below LIMIT. */
static Bytes put_area(size_t length, uint32_t limit, Bytes *profile) {
    const Bytes area = {(uint8_t *)calloc(length + 1, 1), length};
    const size_t blocks = length / BLOCK;
    if (area.bytes == NULL) stop("no memory");
    const uint32_t kind = below(8);
    if (kind > 0) put_noise(area.bytes, one_in(2) ? length : 0);
    if (kind > 1) { /* leftovers of a longer table, and an old table over them */
        const uint32_t old = limit == 0 ? 0 : one_in(2) ? limit - 1 : below(limit);
        if (one_in(2)) lay_table(area, (uint8_t)(1 + below(2)), old, blocks, blocks, profile);
        lay_table(area, (uint8_t)(1 + below(2)), old, below((uint32_t)blocks + 1), blocks, profile);
    }
    if (kind > 5 && limit > 1) lay_table(area, 2, limit - 1, below((uint32_t)blocks + 1), below((uint32_t)blocks + 1), profile); /* one that was cut */
    if (kind == 4 && length > 0) area.bytes[below((uint32_t)length)] ^= (uint8_t)(1u << below(8));
    lower_issues(area, limit);
    return area;
}

/* A take-over that is not refused. */
typedef struct {
    Bytes area, fresh, profile;
} Pair;

static uint64_t check_over(Bytes area, Bytes profile) { return ndushavire_check(area.bytes, area.length, profile.bytes, profile.length); }

/* Of a new table of so many records, and an area that is MORE longer at most. */
static Pair put_pair(size_t records, int distinct, size_t more) {
    Pair p;
    p.fresh = put_table_of(2, records, distinct, &p.profile);
    const uint32_t issue = one_in(8) ? 0 : one_in(4) ? UINT32_MAX : one_in(2) ? 1 + below(9) : 1 + below(UINT32_MAX - 1);
    give_issue(p.fresh, issue);
    p.area = put_area(p.fresh.length + (one_in(3) ? 0 : below((uint32_t)more + 1)), issue, &p.profile);
    return p;
}

static void give_back(Pair *p) {
    free(p->area.bytes);
    free(p->fresh.bytes);
    free(p->profile.bytes);
}

/* ---- what is read when only some blocks are written */

static uint64_t refused_at(size_t block) { return (uint64_t)NDUSHAVIRE_TABLE_UNSOUND << 48 | block; }

/* The check's word over an area in which the chosen blocks of the new table are written; BEFORE is its word over the area as it was, and COUNT
 * what the old header counts. */
static inline uint64_t read_as(const uint8_t *chosen, size_t blocks, uint64_t before, size_t count) {
    size_t missing = 0, within = 1;
    while (missing < blocks && chosen[missing]) missing++;
    if (chosen[0]) return missing == blocks ? blocks - 1 : refused_at(missing);
    while (within < blocks && within <= count && !chosen[within]) within++;
    if (within == blocks || within > count) return before;
    return !ndushavire_sound(before) && ndushavire_value(before) < within ? before : refused_at(within);
}

static inline size_t count_of(Bytes area) { return area.length < BLOCK ? 0 : get32(area.bytes + 8); }

/* ---- a question over an area, which is asked of a record of TABLE */

typedef struct {
    uint8_t answer[NDUSHAVIRE_ANSWER_ROOM];
    uint64_t word;
} Said;

static void ask_over(Said *said, const Request *r, Bytes area, Bytes profile) {
    uint8_t none = 0;
    memset(said, 0xEE, sizeof *said);
    said->word = ndushavire_decide(r->bytes, r->length, area.bytes, area.length, profile.bytes, profile.length, &none, 0, said->answer,
                                   sizeof said->answer, NDUSHAVIRE_RFC_3588, NDUSHAVIRE_NO_FEATURES);
}

static int same_said(const Said *a, const Said *b) { return a->word == b->word && memcmp(a->answer, b->answer, sizeof a->answer) == 0; }

#endif
