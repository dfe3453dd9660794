/* vectors TABLE PROFILE NAMES ..: times the proved check of a vector file with a vector for each record of each table, beside
 * a bare sum of the same words in C and the reference's check in Rust. */
#define _POSIX_C_SOURCE 199309L
#include "aims.h"
#include "timing.h"
#include "vectors.h"

static const Aim NONE = {"", 0}, SUM_AIM = {"<= 1.2", 120}, NATIVE_AIM = {"<= 1.9", 190}; /* at the most blocks */

uint32_t sum_plain(const uint8_t *table, size_t length);
uint32_t sum_native(const uint8_t *table, size_t length);
uint64_t reference_check_vectors(const uint8_t *vectors, size_t vectors_len);

static uint64_t proved(const void *vectors) {
    const Vectors *v = (const Vectors *)vectors;
    return ndushavire_check_vectors(v->bytes, v->length);
}

static uint64_t plain(const void *vectors) {
    const Vectors *v = (const Vectors *)vectors;
    return sum_plain(v->bytes, v->length);
}

static uint64_t native(const void *vectors) {
    const Vectors *v = (const Vectors *)vectors;
    return sum_native(v->bytes, v->length);
}

static uint64_t rust(const void *vectors) {
    const Vectors *v = (const Vectors *)vectors;
    return reference_check_vectors(v->bytes, v->length);
}

enum { PROVED, PLAIN, NATIVE, RUST, SUBJECTS };
static Subject *const subject[SUBJECTS] = {proved, plain, native, rust};

static int measure(const Sample *s) {
    const Vectors v = make_vectors(s, s->table + s->records * NDUSHAVIRE_BLOCK);
    const int most = v.blocks == NDUSHAVIRE_RECORDS_MAX;
    /* A wrong answer is not worth a time. */
    const int sound = proved(&v) == v.blocks && rust(&v) == v.blocks && plain(&v) == 0 && native(&v) == 0;
    if (sound) {
        double t[SUBJECTS];
        medians(subject, SUBJECTS, &v, t);
        printf("%7lu  %-5s %8.2f %8.2f %11.2f %8.2f %9.2f  %-14s %11.2f  %-14s %6.2f\n", (unsigned long)v.blocks, s->names,
               t[PROVED], t[PLAIN], t[NATIVE], t[RUST], t[PROVED] / t[PLAIN], judged(most ? SUM_AIM : NONE, t[PROVED] / t[PLAIN]),
               t[PROVED] / t[NATIVE], judged(most ? NATIVE_AIM : NONE, t[PROVED] / t[NATIVE]), t[PROVED] / t[RUST]);
    } else {
        fprintf(stderr, "vectors: those of %s are not sound to all\n", s->path);
    }
    free(v.bytes);
    return sound;
}

int main(int argc, char **argv) {
    return each_sample(argc, argv,
                       "vector check: microseconds, medians; then the proved check as a multiple of each other\n"
                       " blocks  names   proved  sum -O3  sum native     Rust  /sum -O3  aim            /sum native  aim             /Rust\n",
                       measure);
}
