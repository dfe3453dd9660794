/* area.h: a new table over a working area on disk, block by block from block 0, and why one is not taken over. Each block is on disk before the
 * next is written, so that a cut at any moment leaves an area that reads as the old table, as the new one, or is refused: that is proved of
 * such an area, whatever was in it before.
 * POSIX.1-2008: under -std=c99 define _POSIX_C_SOURCE as 200809L before anything is included. */
#ifndef AREA_H
#define AREA_H

#include <errno.h>
#include <stdio.h>
#include <unistd.h>

#include <ndushavire.h>

/* The greatest issue number in an area, of the whole blocks that begin as a header or a record does, and the first block that has it.
 * Gives 0 if there is no such block. */
static inline int greatest_issue(const uint8_t *area, size_t length, uint32_t *issue, size_t *block) {
    int found = 0;
    for (size_t k = 0; length / NDUSHAVIRE_BLOCK > k; k++) {
        const uint8_t *at = area + NDUSHAVIRE_BLOCK * k;
        if ((at[0] != 1 && at[0] != 2) || (found && ndushavire_issue(at) <= *issue)) continue;
        found = 1;
        *issue = ndushavire_issue(at);
        *block = k;
    }
    return found;
}

/* Writes block K of a table over that of the file, and waits until it is on disk. If that fails, errno says why; then the block may be
 * there or not, and nothing more may be written behind it. */
static inline int write_block(int file, const uint8_t *table, size_t k) {
    const size_t end = NDUSHAVIRE_BLOCK * (k + 1);
    for (size_t at = NDUSHAVIRE_BLOCK * k; at < end;) {
        const ssize_t wrote = pwrite(file, table + at, end - at, (off_t)at);
        if (wrote < 0 && errno == EINTR) continue;
        if (wrote == 0) errno = EIO;
        if (wrote <= 0) return 0;
        at += (size_t)wrote;
    }
    int failed;
    do failed = fdatasync(file);
    while (failed && errno == EINTR);
    return !failed;
}

/* A working area in memory, a new table, and the profile of both. */
typedef struct {
    const uint8_t *area, *fresh, *profile;
    size_t area_len, fresh_len, profile_len;
} TakeOver;

enum { REFUSAL_ROOM = 160 };

static inline void say_new_unsound(char *to, const TakeOver *t) {
    const uint64_t word = ndushavire_check(t->fresh, t->fresh_len, t->profile, t->profile_len);
    const unsigned long block = ndushavire_value(word);
    if (!ndushavire_sound(word))
        snprintf(to, REFUSAL_ROOM, "refused 9, block %lu of the new table is bad", block);
    else if (ndushavire_edition(t->fresh) == 1)
        snprintf(to, REFUSAL_ROOM, "refused 9, the new table is of edition 1");
    else
        snprintf(to, REFUSAL_ROOM, "refused 9, the new table has %lu bytes past its records", (unsigned long)t->fresh_len - NDUSHAVIRE_BLOCK * (block + 1));
}

/* Why ndushavire_take refused, in words for the operator. */
static inline const char *refusal_of(uint64_t word, const TakeOver *t) {
    static char text[REFUSAL_ROOM];
    const uint32_t number = ndushavire_number(word);
    uint32_t issue = 0;
    size_t block = 0;
    if (number == NDUSHAVIRE_NEW_UNSOUND) {
        say_new_unsound(text, t);
    } else if (number == NDUSHAVIRE_ISSUE_NOT_GREATER) {
        greatest_issue(t->area, t->area_len, &issue, &block);
        snprintf(text, sizeof text, "refused 10, issue %lu is not greater than %lu, which block %lu of the area has",
                 (unsigned long)ndushavire_issue(t->fresh), (unsigned long)issue, (unsigned long)block);
    } else if (number == NDUSHAVIRE_AREA_SHORT) {
        snprintf(text, sizeof text, "refused 11, the area has %lu bytes, and the new table %lu", (unsigned long)t->area_len, (unsigned long)t->fresh_len);
    } else {
        snprintf(text, sizeof text, "refused %lu", (unsigned long)number);
    }
    return text;
}

#endif
