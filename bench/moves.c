/* moves TABLE PROFILE NAMES ..: times the table check on each table, which is of edition 1, and on the same moved to edition 2; and a move
 * beside that check, forward and back in turn on one copy, so that each finds what it moves. */
#define _POSIX_C_SOURCE 199309L
#include "aims.h"
#include "samples.h"
#include "timing.h"

/* The aim at the most records: edition 2 costs what edition 1 does. */
static const Aim NONE = {"", 0}, SAME_AIM = {"<= 1.1", 110};

enum { ISSUE = 7 };
enum { CHECK_1, CHECK_2, THERE_AND_BACK, SUBJECTS };

/* The table in edition 1 and in edition 2, and a copy of the first to be moved. */
typedef struct {
    const Sample *of;
    uint8_t *second, *copy;
} Editions;

static uint64_t check(const Editions *e, const uint8_t *table) { return ndushavire_check(table, e->of->table_len, e->of->profile, e->of->profile_len); }
static uint64_t check_first(const void *editions) { return check((const Editions *)editions, ((const Editions *)editions)->of->table); }
static uint64_t check_second(const void *editions) { return check((const Editions *)editions, ((const Editions *)editions)->second); }

static uint64_t there_and_back(const void *editions) {
    const Editions *e = (const Editions *)editions;
    const uint64_t there = ndushavire_forward(e->copy, e->of->table_len, e->of->profile, e->of->profile_len, ISSUE);
    return there | ndushavire_back(e->copy, e->of->table_len, e->of->profile, e->of->profile_len);
}

/* A copy of the table, which may be moved. */
static uint8_t *copy_of(const Sample *s) {
    uint8_t *copy = (uint8_t *)malloc(s->table_len);
    if (copy == NULL) abort();
    memcpy(copy, s->table, s->table_len);
    return copy;
}

/* A wrong move is not worth a time. */
static int right(const Editions *e) {
    const Sample *s = e->of;
    return ndushavire_edition(s->table) == 1 && ndushavire_edition(e->second) == 2 && ndushavire_issue(e->second) == ISSUE &&
           check_first(e) == s->records && check_second(e) == s->records && there_and_back(e) == s->records &&
           memcmp(e->copy, s->table, s->table_len) == 0;
}

static int measure(const Sample *s) {
    static Subject *const subject[SUBJECTS] = {check_first, check_second, there_and_back};
    const Editions e = {s, copy_of(s), copy_of(s)};
    double t[SUBJECTS];
    ndushavire_forward(e.second, s->table_len, s->profile, s->profile_len, ISSUE);
    const int passes = right(&e);
    if (passes) {
        medians(subject, SUBJECTS, &e, t);
        printf("%7lu  %-5s %10.2f %10.2f %9.2f  %-13s %8.2f %7.2f\n", (unsigned long)s->records, s->names, t[CHECK_1], t[CHECK_2],
               t[CHECK_2] / t[CHECK_1], judged(s->records == NDUSHAVIRE_RECORDS_MAX ? SAME_AIM : NONE, t[CHECK_2] / t[CHECK_1]),
               t[THERE_AND_BACK] / 2, t[THERE_AND_BACK] / 2 / t[CHECK_1]);
    } else {
        fprintf(stderr, "moves: %s is not of edition 1, or is not moved there and back\n", s->path);
    }
    free(e.second);
    free(e.copy);
    return passes;
}

int main(int argc, char **argv) {
    return each_sample(argc, argv,
                       "moves: microseconds, medians; the check of edition 2 as a multiple of that of edition 1, and a move likewise\n"
                       "records  names    check 1    check 2  2nd/1st  aim               move  /check\n",
                       measure);
}
