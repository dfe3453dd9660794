/* check TABLE PROFILE NAMES ..: times the proved table check on each table, of either edition, beside a bare sum of the same words in C
 * and the reference's check in Rust. */
#define _POSIX_C_SOURCE 199309L
#include <string.h>

#include "aims.h"
#include "samples.h"
#include "timing.h"

/* At the most records, against the sum of the same words by the machine's own vectors. */
static const Aim NONE = {"", 0}, SHORT_AIM = {"<= 1.9", 190}, LONG_AIM = {"<= 2.1", 210}, SETS_AIM = {"<= 4", 400};

uint32_t sum_plain(const uint8_t *table, size_t length);
uint32_t sum_native(const uint8_t *table, size_t length);
uint64_t reference_check(const uint8_t *table, size_t table_len, size_t profile_len);

static uint64_t proved(const void *sample) {
    const Sample *s = (const Sample *)sample;
    return ndushavire_check(s->table, s->table_len, s->profile, s->profile_len);
}

static uint64_t plain(const void *sample) {
    const Sample *s = (const Sample *)sample;
    return sum_plain(s->table, s->table_len);
}

static uint64_t native(const void *sample) {
    const Sample *s = (const Sample *)sample;
    return sum_native(s->table, s->table_len);
}

static uint64_t rust(const void *sample) {
    const Sample *s = (const Sample *)sample;
    return reference_check(s->table, s->table_len, s->profile_len);
}

enum { PROVED, PLAIN, NATIVE, RUST, SUBJECTS };
static Subject *const subject[SUBJECTS] = {proved, plain, native, rust};

/* Where names are made to be alike nothing is aimed at: such a table stays right, and takes what it takes. */
static Aim aim_of(const Sample *s) {
    if (s->records != NDUSHAVIRE_RECORDS_MAX || strcmp(s->names, "alike") == 0) return NONE;
    if (members(s) > 0) return SETS_AIM;
    return strcmp(s->names, "short") == 0 ? SHORT_AIM : LONG_AIM;
}

static int measure(const Sample *s) {
    /* A wrong answer is not worth a time. */
    if (proved(s) != s->records || rust(s) != s->records || plain(s) != 0 || native(s) != 0) {
        fprintf(stderr, "check: %s is not sound to all\n", s->path);
        return 0;
    }
    double t[SUBJECTS];
    medians(subject, SUBJECTS, s, t);
    printf("%7lu  %-5s %7u %9u %8.2f %8.2f %11.2f %9.2f %9.2f %11.2f  %-14s %6.2f\n", (unsigned long)s->records, s->names,
           (unsigned)ndushavire_edition(s->table), members(s), t[PROVED], t[PLAIN], t[NATIVE], t[RUST], t[PROVED] / t[PLAIN], t[PROVED] / t[NATIVE],
           judged(aim_of(s), t[PROVED] / t[NATIVE]), t[PROVED] / t[RUST]);
    return 1;
}

int main(int argc, char **argv) {
    return each_sample(argc, argv,
                       "table check: microseconds, medians; then the proved check as a multiple of each other\n"
                       "records  names edition  in a set   proved  sum -O3  sum native      Rust  /sum -O3 /sum native  aim             /Rust\n",
                       measure);
}
