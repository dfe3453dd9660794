/* takes SEED COUNT: the take-over beside a plain model in C, over random areas and new tables: sound ones and not, of either edition, with bytes too
 * many, issues in the way anywhere in the area, areas too short; and what the check and a question get of an area that is longer than its table.
 *   - It returns the word that it should, and leaves the bytes that it should, also behind the area; new table and profile stay as they were.
 *   - Repeated, it is refused by 10. A table of a greater issue is taken over what the first left; and over zeros the same one.
 *   - After it the check, a question and a report say of the area what they say of the new table alone, whatever stands behind it.
 * Exit status: 0 all as it should be, 1 not so, or too little was tried, 2 wrong use. */
#include "areas.h"

enum { BEHIND = 64, FILL = 0xEE };

static unsigned long number; /* of the pair */
static const char *seed;
static struct {
    unsigned long taken, unsound, edition, length, issue, past, shorter, longer, answers;
} seen;

static void fail(const char *what) {
    fprintf(stderr, "takes: seed %s, pair %lu: %s\n", seed, number, what);
    exit(1);
}

static Bytes copy_of(Bytes of) {
    const Bytes copy = {(uint8_t *)malloc(of.length + BEHIND), of.length};
    if (copy.bytes == NULL) stop("no memory");
    memcpy(copy.bytes, of.bytes, of.length);
    memset(copy.bytes + of.length, FILL, BEHIND);
    return copy;
}

static int alike(Bytes a, Bytes b) { return a.length == b.length && memcmp(a.bytes, b.bytes, a.length + BEHIND) == 0; }

/* ---- the model */

static int issue_in_the_way(const Pair *p) {
    for (size_t at = 0; at + BLOCK <= p->area.length; at += BLOCK) {
        const uint8_t *block = p->area.bytes + at;
        if (!has_issue(block) || get32(block + 408) < get32(p->fresh.bytes + 408)) continue;
        seen.past += at >= BLOCK * (count_of(p->area) + 1);
        return 1;
    }
    return 0;
}

/* The word of a take-over, which is then done to AFTER if it can be. */
static uint64_t expect(const Pair *p, Bytes after) {
    const uint64_t word = check_over(p->fresh, p->profile);
    const int sound = ndushavire_sound(word), exact = sound && p->fresh.length == BLOCK * ((size_t)ndushavire_value(word) + 1);
    if (!sound || !exact || p->fresh.bytes[1] != 2) {
        seen.unsound += !sound;
        seen.length += sound && !exact;
        seen.edition += exact;
        return (uint64_t)NDUSHAVIRE_NEW_UNSOUND << 48;
    }
    if (issue_in_the_way(p)) {
        seen.issue++;
        return (uint64_t)NDUSHAVIRE_ISSUE_NOT_GREATER << 48;
    }
    if (p->area.length < p->fresh.length) {
        seen.shorter++;
        return (uint64_t)NDUSHAVIRE_AREA_SHORT << 48;
    }
    memcpy(after.bytes, p->fresh.bytes, p->fresh.length);
    seen.taken++;
    seen.longer += p->area.length > p->fresh.length;
    return word;
}

/* ---- something in the way of a take-over, or several things */

static void hinder_new(Pair *p) {
    const uint32_t how = below(4);
    if (how == 0) {
        p->fresh.bytes[below((uint32_t)p->fresh.length)] ^= (uint8_t)(1u << below(8));
    } else if (how == 1) {
        p->fresh.length -= one_in(2) ? BLOCK : 1 + below(BLOCK - 1);
    } else if (how == 2) { /* bytes past its records: a copy that is longer */
        const Bytes longer = {(uint8_t *)calloc(p->fresh.length + 2 * BLOCK, 1), p->fresh.length + (one_in(2) ? BLOCK : 1 + below(2 * BLOCK))};
        if (longer.bytes == NULL) stop("no memory");
        memcpy(longer.bytes, p->fresh.bytes, p->fresh.length);
        free(p->fresh.bytes);
        p->fresh = longer;
    } else { /* edition 1, and sound */
        for (size_t at = 0; at < p->fresh.length; at += BLOCK) {
            p->fresh.bytes[at + 1] = 1;
            memset(p->fresh.bytes + at + 406, 0, 6);
            seal(p->fresh.bytes + at);
        }
    }
}

static void hinder_issue(Pair *p) {
    const uint32_t issue = get32(p->fresh.bytes + 408);
    if (p->area.length < BLOCK) return;
    uint8_t *block = p->area.bytes + BLOCK * below((uint32_t)(p->area.length / BLOCK));
    block[0] = (uint8_t)(1 + below(2));
    put32(block + 408, one_in(2) || issue == UINT32_MAX ? issue : issue + 1 + below(UINT32_MAX - issue));
    if (one_in(2)) seal(block);
}

static void hinder(Pair *p) {
    if (one_in(4)) hinder_issue(p);
    if (one_in(4)) p->area.length = below((uint32_t)p->fresh.length);
    if (one_in(4) && p->fresh.length > BLOCK) hinder_new(p);
}

/* ---- the trials */

static uint64_t take(Bytes area, Bytes fresh, Bytes profile) {
    return ndushavire_take(area.bytes, area.length, fresh.bytes, fresh.length, profile.bytes, profile.length);
}

/* The report of one request. */
static void report_over(uint8_t *numbers, const Request *r, Bytes area, Bytes profile) {
    static uint8_t answer[NDUSHAVIRE_ANSWER_ROOM], none;
    if (ndushavire_report(r->bytes, r->length, area.bytes, area.length, profile.bytes, profile.length, &none, 0, answer, sizeof answer, numbers,
                          NDUSHAVIRE_REPORT_ROOM, NDUSHAVIRE_RFC_3588, NDUSHAVIRE_NO_FEATURES) != 0)
        fail("a report is refused");
}

/* Of the area the check, a question and a report say what they say of the new table alone. */
static void reads_as_new(Bytes area, Bytes fresh, Bytes profile) {
    static Request r;
    static Said over_area, over_table;
    static uint8_t of_area[NDUSHAVIRE_REPORT_ROOM], of_table[NDUSHAVIRE_REPORT_ROOM];
    const Bytes alone = copy_of(fresh);
    if (check_over(area, profile) != fresh.length / BLOCK - 1) fail("the check does not say of the area that it is sound");
    if (fresh.length > BLOCK) {
        const uint8_t *record = fresh.bytes + BLOCK * (1 + below((uint32_t)(fresh.length / BLOCK - 1)));
        if (one_in(2)) ask_location(&r, record);
        else ask_assignment(&r, fresh.bytes, fresh.length / BLOCK - 1, record, 1, 1);
        ask_over(&over_area, &r, area, profile);
        ask_over(&over_table, &r, alone, profile);
        if (!ndushavire_answered(over_area.word) || !same_said(&over_area, &over_table)) fail("a question gets another answer over the area");
        report_over(of_area, &r, area, profile);
        report_over(of_table, &r, alone, profile);
        if (memcmp(of_area, of_table, sizeof of_area) != 0) fail("a report has other numbers over the area");
        if (memcmp(area.bytes, alone.bytes, alone.length) != 0) fail("a question alters the area otherwise");
        seen.answers++;
    }
    free(alone.bytes);
}

/* What a taken area takes and what it does not: the same table again; one of a greater issue; and, zeroed, the same one. */
static void take_again(Bytes area, Bytes fresh, Bytes profile) {
    const Bytes next = copy_of(fresh);
    const uint32_t issue = get32(fresh.bytes + 408);
    if (take(area, fresh, profile) != (uint64_t)NDUSHAVIRE_ISSUE_NOT_GREATER << 48) fail("the same table is taken twice");
    give_issue(next, issue + 1);
    if (issue < UINT32_MAX && take(area, next, profile) != fresh.length / BLOCK - 1) fail("a greater issue is refused");
    memset(area.bytes, 0, area.length);
    if (take(area, fresh, profile) != fresh.length / BLOCK - 1) fail("over zeros the same table is refused");
    free(next.bytes);
}

static void try_pair(Pair *p) {
    const Bytes area = copy_of(p->area), after = copy_of(p->area), fresh = copy_of(p->fresh), profile = copy_of(p->profile);
    const uint64_t due = expect(p, after), word = take(area, fresh, profile);
    if (word != due) fail("another word");
    if (!alike(area, after)) fail("it leaves another area, or writes past it");
    if (memcmp(fresh.bytes, p->fresh.bytes, p->fresh.length) != 0 || memcmp(profile.bytes, p->profile.bytes, p->profile.length) != 0)
        fail("it alters the new table or the profile");
    if (ndushavire_taken(word)) {
        reads_as_new(area, fresh, profile);
        if (memcmp(area.bytes + fresh.length, after.bytes + fresh.length, area.length - fresh.length + BEHIND) != 0)
            fail("what stands past the table is altered");
        memcpy(area.bytes, after.bytes, area.length);
        take_again(area, fresh, profile);
        if (memcmp(area.bytes + area.length, after.bytes + after.length, BEHIND) != 0) fail("it writes past the area");
    }
    free(area.bytes);
    free(after.bytes);
    free(fresh.bytes);
    free(profile.bytes);
}

/* Whether there was something of everything. */
static int enough(void) {
    printf("takes: %lu taken over, %lu of them in a longer area, %lu questions; refused: 9 %lu unsound, %lu edition 1, %lu of another length; 10 %lu, "
           "%lu of them past the count; 11 %lu\n",
           seen.taken, seen.longer, seen.answers, seen.unsound, seen.edition, seen.length, seen.issue, seen.past, seen.shorter);
    return seen.taken > 0 && seen.longer > 0 && seen.answers > 0 && seen.unsound > 0 && seen.edition > 0 && seen.length > 0 && seen.issue > 0 &&
           seen.past > 0 && seen.shorter > 0;
}

int main(int argc, char **argv) {
    if (argc != 3) {
        fprintf(stderr, "usage: takes SEED COUNT\n");
        return 2;
    }
    const unsigned long first = strtoul(seed = argv[1], NULL, 10), count = strtoul(argv[2], NULL, 10);
    for (number = 0; number < count; number++) {
        chance = (first + number + 1) * 0x9E3779B97F4A7C15u | 1;
        for (int i = 0; i < 8; i++) below(2);
        Pair p = put_pair(number == 0 ? RECORDS : some(), number == 0, 8 * BLOCK);
        if (number > 0 && one_in(2)) hinder(&p);
        try_pair(&p);
        give_back(&p);
    }
    if (enough()) return 0;
    fprintf(stderr, "takes: seed %s: too little was tried\n", seed);
    return 1;
}
