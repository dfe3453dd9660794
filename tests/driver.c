/*
 * Calls the libraries' entries for the cases on standard input and writes what they did to standard output.
 * Both forms are in reference/README.md, "Streams".
 */
#include <stddef.h>
#include <stdint.h>
#include <stdio.h>
#include <stdlib.h>
#include <string.h>

#include "ndushavire_sh.h"

#define GUARD 64u             /* bytes before and after every slice */
#define LONGEST (1u << 26)    /* a longer slice is a broken stream */
#define STREAM_BUFFER (1u << 20)
#define MOST 16               /* slices of a case, and numbers */

/* Beside a slice's length in a case. */
#define WRITTEN (1u << 31)
#define NOISE (1u << 30)

struct slice {
    size_t length;
    int written; /* whether the entry may write to it */
    int noise;
    uint8_t *before; /* as it came */
    uint8_t *at;     /* as the library has it, between guards */
};

/* A case, as a call of its entry needs it. */
struct lent {
    unsigned fill;
    size_t slices;
    struct slice slice[MOST];
    uint32_t number[MOST];
};

/* What an entry takes for one of its slices. */
#define SLICE(s) lent->slice[s].at, lent->slice[s].length

static uint64_t check(const struct lent *lent)
{
    return ndushavire_check(SLICE(0), SLICE(1));
}

static uint64_t decide(const struct lent *lent)
{
    return ndushavire_decide(SLICE(0), SLICE(1), SLICE(2), SLICE(3), SLICE(4), lent->number[0], lent->number[1]);
}

static uint64_t check_vectors(const struct lent *lent)
{
    return ndushavire_check_vectors(SLICE(0));
}

static uint64_t report(const struct lent *lent)
{
    return ndushavire_report(SLICE(0), SLICE(1), SLICE(2), SLICE(3), SLICE(4), SLICE(5), lent->number[0], lent->number[1]);
}

static uint64_t forward(const struct lent *lent)
{
    return ndushavire_forward(SLICE(0), SLICE(1), lent->number[0]);
}

static uint64_t back(const struct lent *lent)
{
    return ndushavire_back(SLICE(0), SLICE(1));
}

static uint64_t take(const struct lent *lent)
{
    return ndushavire_take(SLICE(0), SLICE(1), SLICE(2));
}

static uint64_t export_list(const struct lent *lent)
{
    return ndushavire_export(SLICE(0), SLICE(1), SLICE(2));
}

static uint64_t import_list(const struct lent *lent)
{
    return ndushavire_import(SLICE(0), SLICE(1), SLICE(2), SLICE(3));
}

static uint64_t sh_decide(const struct lent *lent)
{
    return ndushavire_sh_decide(SLICE(0), SLICE(1), SLICE(2), SLICE(3), lent->number[0]);
}

static uint64_t row(const struct lent *lent)
{
    return ndushavire_row(SLICE(0), SLICE(1), SLICE(2), SLICE(3), SLICE(4), SLICE(5), lent->number[0], lent->number[1]);
}

static uint64_t plain(const struct lent *lent)
{
    return ndushavire_plain(SLICE(0), SLICE(1), SLICE(2), SLICE(3), SLICE(4), lent->number[0], lent->number[1]);
}

/* The entries by their number in the streams, from 1 on: a letter for each slice, r if it is lent to be read and w if
 * the entry may write to it; how many numbers; the call. */
static const struct entry {
    const char *slices;
    unsigned numbers;
    uint64_t (*call)(const struct lent *lent);
} entries[] = {
    {"rr", 0, check},
    {"rwrww", 2, decide},
    {"r", 0, check_vectors},
    {"rwrwww", 2, report},
    {"wr", 1, forward},
    {"wr", 0, back},
    {"wrr", 0, take},
    {"rrw", 0, export_list},
    {"rrrw", 0, import_list},
    {"rrrw", 1, sh_decide},
    {"rwrwww", 2, row},
    {"rwrww", 2, plain},
};

struct bytes {
    uint8_t *at;
    size_t room;
};

static struct bytes noise; /* what slices of noise and guards hold before a call */
static struct bytes given; /* the slices as they came, one after another */
static struct bytes place; /* the slices as the library has them, each between guards */

static void fail(const char *why)
{
    fprintf(stderr, "driver: %s\n", why);
    exit(2);
}

static void make_room(struct bytes *bytes, size_t room)
{
    if (bytes->room >= room)
        return;
    free(bytes->at);
    bytes->at = malloc(room);
    if (bytes->at == NULL)
        fail("no memory");
    bytes->room = room;
}

static void make_noise(size_t room)
{
    size_t i;

    if (noise.room >= room)
        return;
    make_room(&noise, room);
    for (i = 0; i < room; i++)
        noise.at[i] = (uint8_t)(((uint32_t)i * 2654435761u) >> 24);
}

static void write_bytes(const void *at, size_t length)
{
    if (length > 0 && fwrite(at, 1, length, stdout) != length)
        fail("standard output is closed");
}

static void write_number(uint64_t number, size_t length)
{
    uint8_t at[8];
    size_t i;

    for (i = 0; i < length; i++)
        at[i] = (uint8_t)(number >> (8 * (length - 1 - i)));
    write_bytes(at, length);
}

/* From the first changed byte to the last. */
static void write_change(const uint8_t *before, const uint8_t *after, size_t length)
{
    size_t first = 0, end = length;

    if (memcmp(before, after, length) == 0) {
        write_number(0, 8);
        return;
    }
    while (before[first] == after[first])
        first++;
    while (before[end - 1] == after[end - 1])
        end--;
    write_number(first, 4);
    write_number(end - first, 4);
    write_bytes(after + first, end - first);
}

static uint32_t read_word(void)
{
    uint8_t at[4];

    if (fread(at, 1, sizeof at, stdin) != sizeof at)
        fail("a case is cut off");
    return (uint32_t)at[0] << 24 | (uint32_t)at[1] << 16 | (uint32_t)at[2] << 8 | (uint32_t)at[3];
}

/* The lengths of a case's slices, and its numbers. */
static void read_words(const struct entry *entry, struct lent *lent)
{
    size_t s;

    for (s = 0; s < lent->slices; s++) {
        struct slice *slice = &lent->slice[s];
        uint32_t word = read_word();

        slice->length = word & ~(WRITTEN | NOISE);
        slice->written = entry->slices[s] == 'w';
        slice->noise = (word & NOISE) != 0;
        if (slice->length > LONGEST)
            fail("a slice is too long");
        if (slice->written != ((word & WRITTEN) != 0))
            fail("a case lends a slice otherwise than its entry takes it");
    }
    for (s = 0; s < entry->numbers; s++)
        lent->number[s] = read_word();
}

/* Reads the slices one behind the other; of noise there is nothing to read. */
static void read_slices(struct lent *lent, size_t room)
{
    size_t at = 0, s;

    make_room(&given, room);
    for (s = 0; s < lent->slices; s++) {
        struct slice *slice = &lent->slice[s];

        slice->before = given.at + at;
        if (slice->noise)
            memcpy(slice->before, noise.at + lent->fill, slice->length);
        else if (fread(slice->before, 1, slice->length, stdin) != slice->length)
            fail("a case is cut off");
        at += slice->length;
    }
}

/* Copies them to where they are lent, with guards of noise around each. They begin at any address: the fill decides
 * how far from a multiple of 8. */
static void lend_slices(struct lent *lent, size_t room)
{
    size_t at = lent->fill & 7, s;

    make_room(&place, room + 8);
    memcpy(place.at + at, noise.at + lent->fill, room);
    for (s = 0; s < lent->slices; s++) {
        struct slice *slice = &lent->slice[s];

        at += GUARD;
        slice->at = place.at + at;
        memcpy(slice->at, slice->before, slice->length);
        at += slice->length;
    }
}

static int same(const uint8_t *a, const uint8_t *b, size_t length)
{
    return memcmp(a, b, length) == 0;
}

/* What was altered and may not be: bit s for the guards before and behind slice s, which are no longer noise, and bit
 * 16 + s for a slice lent to be read. */
static uint32_t altered(const struct lent *lent)
{
    const uint8_t *noise_there = noise.at + lent->fill - (lent->fill & 7);
    uint32_t bits = 0;
    size_t at = lent->fill & 7, s;

    for (s = 0; s < lent->slices; s++) {
        const struct slice *slice = &lent->slice[s];
        size_t after = at + GUARD + slice->length;

        if (!same(place.at + at, noise_there + at, GUARD) || !same(place.at + after, noise_there + after, GUARD))
            bits |= 1u << s;
        if (!slice->written && !same(slice->before, slice->at, slice->length))
            bits |= 1u << (16 + s);
        at = after;
    }
    return bits;
}

static void write_outcome(uint64_t word, const struct lent *lent)
{
    unsigned changes = 0;
    size_t s;

    for (s = 0; s < lent->slices; s++)
        changes += lent->slice[s].written != 0;
    write_number(word, 8);
    write_number(altered(lent), 4);
    write_number(changes, 1);
    for (s = 0; s < lent->slices; s++)
        if (lent->slice[s].written)
            write_change(lent->slice[s].before, lent->slice[s].at, lent->slice[s].length);
}

/* The case behind its first four bytes: entry, fill, how many slices and numbers. */
static void run_case(const uint8_t head[4])
{
    const struct entry *entry;
    struct lent lent;
    size_t room = GUARD, s;

    if (head[0] < 1 || head[0] > sizeof entries / sizeof entries[0])
        fail("a case of an entry that this driver does not have");
    entry = &entries[head[0] - 1];
    lent.fill = head[1];
    lent.slices = strlen(entry->slices);
    if (head[2] != lent.slices || head[3] != entry->numbers)
        fail("a case has not the slices and numbers that its entry takes");
    read_words(entry, &lent);
    for (s = 0; s < lent.slices; s++)
        room += lent.slice[s].length + GUARD;
    make_noise(room + 256 + 8);
    read_slices(&lent, room);
    lend_slices(&lent, room);
    write_outcome(entry->call(&lent), &lent);
}

int main(void)
{
    uint8_t head[4];
    size_t got;

    if (setvbuf(stdin, NULL, _IOFBF, STREAM_BUFFER) != 0 || setvbuf(stdout, NULL, _IOFBF, STREAM_BUFFER) != 0)
        fail("no memory");
    while ((got = fread(head, 1, sizeof head, stdin)) == sizeof head)
        run_case(head);
    if (got != 0)
        fail("a case is cut off");
    if (fflush(stdout) != 0)
        fail("standard output is closed");
    return 0;
}
