/* row.c: see row.h. */
#ifndef _POSIX_C_SOURCE
#define _POSIX_C_SOURCE 200809L
#endif
#include <string.h>

#include "row.h"

void make_row(Row *row) {
    row->part[0].edition = NDUSHAVIRE_RFC_3588;
    row->part[1].edition = NDUSHAVIRE_RFC_6733;
    row->most = ROW_MOST;
    clear_row(row);
}

void clear_row(Row *row) {
    for (Part *part = row->part; part < row->part + EDITIONS; part++) part->count = part->length = 0;
    row->count = 0;
}

void add_to_row(Row *row, const Asked *asked, uint32_t edition) {
    Part *part = &row->part[edition == row->part[1].edition];
    Asked *copy = &part->asked[part->count++];
    *copy = *asked;
    copy->request = part->requests + part->length;
    memcpy(part->requests + part->length, asked->request, asked->length);
    part->length += asked->length;
    row->count++;
}

int is_in_row(const Row *row, uint32_t hash) {
    for (const Part *part = row->part; part < row->part + EDITIONS; part++)
        for (size_t k = 0; k < part->count; k++)
            if (part->asked[k].alters && part->asked[k].hash == hash) return 1;
    return 0;
}

/* Decides the requests of a part, and finds the word and the answer of each; gives what they altered. */
static uint32_t decide_part(Part *part, Files *files, uint32_t features) {
    const File *table = &files->table, *profile = &files->profile, *vectors = &files->vectors;
    const uint64_t word = ndushavire_row(part->requests, part->length, table->bytes, table->length, profile->bytes, profile->length, vectors->bytes,
                                         vectors->length, part->answers, sizeof part->answers, part->words, sizeof part->words, part->edition, features);
    const uint8_t *answer = part->answers;
    if (ndushavire_number(word) != NDUSHAVIRE_DONE || ndushavire_value(word) != part->count) stop("a row", "it was not read to its end");
    for (uint32_t k = 0; k < part->count; k++) {
        Asked *asked = &part->asked[k];
        asked->word = ndushavire_row_word(part->words, k);
        asked->answer = answer;
        if (ndushavire_answered(asked->word)) answer += ndushavire_value(asked->word);
    }
    return ndushavire_place(word);
}

/* The number of the refusal of a file that some request of a part got, or 0. */
static uint32_t unsound_file(const Part *part) {
    for (size_t k = 0; k < part->count; k++) {
        const uint32_t number = ndushavire_number(part->asked[k].word);
        if (number == NDUSHAVIRE_TABLE_UNSOUND || number == NDUSHAVIRE_VECTORS_UNSOUND) return number;
    }
    return 0;
}

/* Decides all requests; gives what they altered, and in UNSOUND the number of the refusal of a file, or 0. */
static uint32_t decide_row(Row *row, Files *files, uint32_t features, uint32_t *unsound) {
    uint32_t altered = 0;
    *unsound = 0;
    for (Part *part = row->part; part < row->part + EDITIONS; part++) {
        if (part->count == 0) continue;
        altered |= decide_part(part, files, features);
        if (*unsound == 0) *unsound = unsound_file(part);
    }
    return altered;
}

/* What was damaged in memory is read again, and the row decided anew. Where a row cannot be stored, those that follow have one request each, until one is
 * stored: on a full disk what alters nothing is then answered still. */
Outcome settle_row(Row *row, Files *files, uint32_t features) {
    uint32_t unsound, altered = decide_row(row, files, features, &unsound);
    if (unsound != 0) {
        undo(files);
        read_again(files, unsound);
        altered = decide_row(row, files, features, &unsound);
    }
    const Outcome outcome = keep_altered(files, altered);
    if (outcome != UNALTERED) row->most = outcome == KEPT ? ROW_MOST : 1;
    return outcome;
}
