/* vectors.h: a vector file to be timed beside a table, with as many blocks as the table has records. */
#ifndef VECTORS_H
#define VECTORS_H

#include <stdlib.h>

#include "requests.h"
#include "samples.h"

enum { SENT_MOST = 16 };

/* Behind the file stand its last blocks once more, as they were made. */
typedef struct {
    uint8_t *bytes;
    size_t length, blocks;
} Vectors;

static inline void put_check_word(uint8_t *block) {
    uint32_t sum = 0;
    for (size_t at = 0; at < 508; at++) sum += (uint32_t)block[at] << (24 - 8 * (at % 4));
    spell(block + 508, 0u - sum);
}

static inline size_t last_length(const Vectors *vectors) {
    return (vectors->blocks < SENT_MOST ? vectors->blocks : SENT_MOST) * NDUSHAVIRE_BLOCK;
}

/* The vectors that an answer can send stand last, so that a decision looks at the whole file: the last 16 are the record's
 * and unused. The others are of the table's records in turn, used where they are of the same card. */
static inline Vectors make_vectors(const Sample *s, const uint8_t *record) {
    const Name asked = private_of(record);
    const Vectors vectors = {(uint8_t *)calloc(s->records + SENT_MOST, NDUSHAVIRE_BLOCK), s->records * NDUSHAVIRE_BLOCK, s->records};
    if (vectors.bytes == NULL) abort();
    for (size_t k = 0; k < vectors.blocks; k++) {
        uint8_t *block = vectors.bytes + k * NDUSHAVIRE_BLOCK;
        const int last = k + SENT_MOST >= vectors.blocks;
        const Name name = last ? asked : private_of(s->table + (k + 1) * NDUSHAVIRE_BLOCK);
        block[0] = 3;
        block[1] = !last && name.length == asked.length && memcmp(name.bytes, asked.bytes, name.length) == 0;
        block[2] = 8;
        block[3] = (uint8_t)name.length;
        memcpy(block + 4, name.bytes, name.length);
        for (size_t at = 132; at < 212; at++)
            if (at < 172 || at >= 180) block[at] = (uint8_t)(((uint32_t)(k * 512 + at) * 2654435761u) >> 24);
        put_check_word(block);
    }
    memcpy(vectors.bytes + vectors.length, vectors.bytes + vectors.length - last_length(&vectors), last_length(&vectors));
    return vectors;
}

/* The last blocks as they were made, for the next decision to find unused. */
static inline void unmark(const Vectors *vectors) {
    memcpy(vectors->bytes + vectors->length - last_length(vectors), vectors->bytes + vectors->length, last_length(vectors));
}

#endif
