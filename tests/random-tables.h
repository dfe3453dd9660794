/* random-tables.h: random sound tables of either edition, with their profile files, for tests. */
#ifndef RANDOM_TABLES_H
#define RANDOM_TABLES_H

#include <errno.h>
#include <stdint.h>
#include <stdio.h>
#include <stdlib.h>
#include <string.h>

enum { BLOCK = 512, RECORDS = 4096, PART = 4096 };

typedef struct {
    uint8_t *bytes;
    size_t length;
} Bytes;

static void stop(const char *what) {
    fprintf(stderr, "%s: %s\n", what, strerror(errno));
    exit(2);
}

/* ---- chance (xorshift) */

static uint64_t chance;

static uint32_t below(uint32_t limit) {
    chance ^= chance << 13;
    chance ^= chance >> 7;
    chance ^= chance << 17;
    return (uint32_t)((chance >> 16) % limit);
}

static int one_in(uint32_t n) { return below(n) == 0; }

/* ---- a random sound table */

static void put32(uint8_t *to, uint32_t value) {
    for (int i = 0; i < 4; i++) to[i] = (uint8_t)(value >> (24 - 8 * i));
}

static uint32_t get32(const uint8_t *at) { return (uint32_t)at[0] << 24 | (uint32_t)at[1] << 16 | (uint32_t)at[2] << 8 | at[3]; }

static void seal(uint8_t *block) {
    uint32_t sum = 0;
    for (size_t at = 0; at < BLOCK - 4; at += 4) sum += get32(block + at);
    put32(block + BLOCK - 4, 0 - sum);
}

/* Random bytes, of one of three kinds: any, printable, those that a text has to mind. */
static void put_bytes(uint8_t *to, size_t length) {
    static const uint8_t minded[] = "ab\"\\#= \n\r\t,\0\x7f\x80\xff\x01nx41";
    const uint32_t kind = below(3);
    for (size_t i = 0; i < length; i++)
        to[i] = (uint8_t)(kind == 0 ? below(256) : kind == 1 ? 0x21 + below(0x5e) : minded[below(sizeof minded - 1)]);
}

/* A name of a random length into its field; gives the length. */
static uint8_t put_name(uint8_t *field, uint32_t least, uint32_t most) {
    const uint32_t length = one_in(4) ? least : one_in(4) ? most : least + below(most - least + 1);
    put_bytes(field, length);
    return (uint8_t)length;
}

static void put_header(uint8_t *block, uint8_t edition) {
    block[0] = 1;
    block[1] = edition;
    block[12] = (uint8_t)below(2);
    block[13] = put_name(block + 16, 1, 64);
    block[14] = put_name(block + 80, 1, 64);
    const uint32_t wanted = below(9);
    for (uint32_t i = 0; i < wanted; i++) {
        uint8_t *place = block + 144 + 32 * block[15];
        place[0] = put_name(place + 1, 1, 31);
        int found = 0;
        for (uint8_t j = 0; j < block[15]; j++) found |= memcmp(block + 144 + 32 * j, place, 32) == 0;
        if (found) memset(place, 0, 32);
        else block[15]++;
    }
}

static void put_record(uint8_t *block, uint8_t edition, unsigned networks) {
    block[0] = 2;
    block[1] = edition;
    block[8] = (uint8_t)below(3);
    block[9] = (uint8_t)below(8);
    block[10] = (uint8_t)below(1u << networks);
    block[11] = (uint8_t)below(5);
    block[12] = (uint8_t)below(5);
    block[13] = put_name(block + 16, 1, one_in(2) ? 3 : 128);
    block[14] = put_name(block + 144, 1, 128);
    if (block[8] > 0 || (block[9] & 1)) block[15] = put_name(block + 272, 1, 96);
    for (size_t i = 0; i < block[11]; i++) put32(block + 368 + 4 * i, one_in(3) ? below(4) : below(UINT32_MAX) + one_in(2));
    for (size_t i = 0; i < block[12]; i++) put32(block + 384 + 4 * i, one_in(3) ? below(4) : below(UINT32_MAX) + one_in(2));
}

static int by_identity(const void *left, const void *right) {
    const uint8_t *a = (const uint8_t *)left, *b = (const uint8_t *)right;
    const size_t m = a[13], n = b[13];
    const int order = memcmp(a + 16, b + 16, m < n ? m : n);
    return order != 0 ? order : (m > n) - (m < n);
}

static void put_part(uint8_t *record, uint32_t start, uint32_t length) {
    put32(record + 400, start);
    record[404] = (uint8_t)(length >> 8);
    record[405] = (uint8_t)length;
}

static uint32_t part_length(void) { return one_in(3) ? 0 : one_in(30) ? PART : below(60); }

/* Gives each record its part, and the profile file: parts in order, or in a random order with gaps, or anywhere. */
static Bytes put_parts(uint8_t *table, size_t count) {
    const uint32_t kind = below(3);
    Bytes profile = {NULL, 0};
    const int gaps = kind == 1 && one_in(2);
    uint32_t end = kind == 0 || !gaps ? 0 : below(50);
    const size_t step = kind == 1 && count > 1 ? count - 1 : 1; /* from the last to the first */
    for (size_t i = 0, k = kind == 1 ? count - 1 : 0; i < count; i++, k = (k + step) % count) {
        const uint32_t length = part_length();
        put_part(table + BLOCK * (k + 1), end, length);
        end += length + (gaps && one_in(3) ? below(6000) : 0);
    }
    profile.length = end + (gaps && one_in(2) ? below(9000) : 0);
    for (size_t k = 1; kind == 2 && k <= count; k++) {
        const uint32_t length = part_length();
        if (profile.length < length) continue;
        put_part(table + BLOCK * k, below((uint32_t)(profile.length - length) + 1), length);
    }
    profile.bytes = (uint8_t *)malloc(profile.length + 1);
    if (profile.bytes == NULL) stop("no memory");
    put_bytes(profile.bytes, profile.length);
    return profile;
}

/* Some records get the private identity of one before them. */
static void put_cards(uint8_t *table, size_t count) {
    const uint32_t rarely = 1 + below(4);
    for (size_t k = 2; k <= count; k++) {
        const uint8_t *from = table + BLOCK * (1 + below((uint32_t)k - 1));
        if (!one_in(rarely)) continue;
        table[BLOCK * k + 14] = from[14];
        memcpy(table + BLOCK * k + 144, from + 144, 128);
    }
}

/* Two records of one set: the same private identity and the same number, which is not 0. */
static int of_one_set(const uint8_t *a, const uint8_t *b) {
    return (a[406] != 0 || a[407] != 0) && memcmp(a + 406, b + 406, 2) == 0 && a[14] == b[14] && memcmp(a + 144, b + 144, 128) == 0;
}

/* What the records of a set agree in: state, pending and the server's name. */
static void agree_with(uint8_t *record, const uint8_t *from) {
    record[8] = from[8];
    record[9] = (uint8_t)((record[9] & ~1u) | (from[9] & 1u));
    record[15] = from[15];
    memcpy(record + 272, from + 272, 96);
}

/* The first record of the set that a record is of: itself if it is alone, or of none. */
static size_t first_of_set(const uint8_t *table, size_t k) {
    for (size_t first = 1; first < k; first++)
        if (of_one_set(table + BLOCK * first, table + BLOCK * k)) return first;
    return k;
}

/* The issue of a whole table of edition 2, and the sets of some of its records, or of none; each set agrees. */
static void put_issue(uint8_t *table, size_t count) {
    const uint32_t issue = one_in(4) ? 0 : one_in(4) ? UINT32_MAX : one_in(2) ? below(9) : below(UINT32_MAX), rarely = one_in(3) ? 0 : 1 + below(4);
    const int few = !one_in(3);
    for (size_t k = 0; k <= count; k++) {
        put32(table + BLOCK * k + 408, issue);
        if (k == 0 || rarely == 0 || !one_in(rarely)) continue;
        const uint32_t set = few ? below(3) : one_in(2) ? below(4) : below(UINT16_MAX + 1);
        table[BLOCK * k + 406] = (uint8_t)(set >> 8);
        table[BLOCK * k + 407] = (uint8_t)set;
        agree_with(table + BLOCK * k, table + BLOCK * first_of_set(table, k));
    }
}

/* Mostly few. */
static size_t some(void) { return one_in(20) ? below(300) : below(12); }

/* A public identity that no other record of its table has. */
static void put_own_identity(uint8_t *record, uint32_t k) {
    if (record[13] < 4) record[13] = 4;
    put32(record + 16, k * 0x9E3779B1u);
}

/* A table of this edition and of so many records, or a few fewer unless they are DISTINCT, and its profile file. */
static Bytes put_table_of(uint8_t edition, size_t wanted, int distinct, Bytes *profile) {
    uint8_t *table = (uint8_t *)calloc(wanted + 1, BLOCK);
    if (table == NULL) stop("no memory");
    put_header(table, edition);
    for (size_t k = 1; k <= wanted; k++) {
        put_record(table + BLOCK * k, edition, table[15]);
        if (distinct) put_own_identity(table + BLOCK * k, (uint32_t)k);
    }
    qsort(table + BLOCK, wanted, BLOCK, by_identity);
    size_t count = 0;
    for (size_t k = 1; k <= wanted; k++) {
        if (count > 0 && by_identity(table + BLOCK * count, table + BLOCK * k) == 0) continue;
        count++;
        if (count < k) memcpy(table + BLOCK * count, table + BLOCK * k, BLOCK);
        put32(table + BLOCK * count + 4, (uint32_t)count);
    }
    put32(table + 8, (uint32_t)count);
    put_cards(table, count);
    *profile = put_parts(table, count);
    if (edition == 2) put_issue(table, count);
    for (size_t k = 0; k <= count; k++) seal(table + BLOCK * k);
    const Bytes made = {table, BLOCK * (count + 1)};
    return made;
}

/* A table of this edition, full or of some records, and its profile file. */
static inline Bytes put_table(uint8_t edition, int full, Bytes *profile) {
    return put_table_of(edition, full ? RECORDS : some(), full, profile);
}

#endif
