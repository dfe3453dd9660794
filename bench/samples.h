/* samples.h: the tables that a benchmark runs over, from its arguments TABLE PROFILE NAMES .. */
#ifndef SAMPLES_H
#define SAMPLES_H

#include <string.h>

#include <ndushavire.h>

#include "../examples/load.h"

typedef struct {
    uint8_t *table, *profile;
    size_t table_len, profile_len, records;
    const char *path, *names; /* names as bench/households.sh has them: short, ims, long, tiny, alike */
} Sample;

/* How many records are of the first record's set, and 0 if it has none: its number stands at byte 406, its card's name at 144. */
static inline unsigned members(const Sample *s) {
    const uint8_t *first = s->table + NDUSHAVIRE_BLOCK;
    unsigned count = 0;
    for (size_t k = 0; k < s->records; k++) {
        const uint8_t *block = first + NDUSHAVIRE_BLOCK * k;
        count += memcmp(block + 406, first + 406, 2) == 0 && memcmp(block + 144, first + 144, 128) == 0;
    }
    return first[406] == 0 && first[407] == 0 ? 0 : count;
}

/* The program's exit status: 2 if the arguments are no triples, 1 if a sample fails. */
static int each_sample(int argc, char **argv, const char *head, int (*passes)(const Sample *)) {
    int failed = 0;
    if (argc < 4 || argc % 3 != 1) {
        fprintf(stderr, "usage: %s TABLE PROFILE NAMES ..\n", argv[0]);
        return 2;
    }
    printf("%s", head);
    for (int i = 1; i < argc; i += 3) {
        Sample s;
        s.table = load(argv[i], &s.table_len);
        s.profile = load(argv[i + 1], &s.profile_len);
        s.records = s.table_len / NDUSHAVIRE_BLOCK - 1;
        s.path = argv[i];
        s.names = argv[i + 2];
        failed |= !passes(&s);
        free(s.table);
        free(s.profile);
    }
    return failed;
}

#endif
