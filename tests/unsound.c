/*
 * Vector files that are bad in one place, each named here with its first bad block, and sound ones beside them. The check
 * names that block; every decision, whatever it is asked, is refused by 6 and 0 besides and writes nothing; an unsound
 * table goes before.
 */
#include <stdio.h>

#include "../bench/requests.h"

#define BLOCK NDUSHAVIRE_BLOCK
#define MOST 4096 /* blocks of a vector file */

/* Of a block of a vector file. */
enum { KIND = 0, USED = 1, XRES_LENGTH = 2, NAME_LENGTH = 3, NAME = 4, RAND = 132, XRES = 164, KEYS = 180, REST = 212, CHECK = 508 };

static uint8_t table[2 * BLOCK], vectors[(MOST + 2) * BLOCK], answer[NDUSHAVIRE_ANSWER_ROOM];
static uint8_t table_before[sizeof table], vectors_before[sizeof vectors], answer_before[sizeof answer];
static Request requests[4]; /* a MAR, a LIR, a request without AVPs, one of another version */
static unsigned tried, failed;

static void expect(int holds, const char *file, const char *what)
{
    tried++;
    if (!holds) {
        failed++;
        fprintf(stderr, "unsound: %s: %s\n", file, what);
    }
}

/* Gives a block the check word that it should have, so that only another rule can find it bad. */
static void mend(uint8_t *block)
{
    uint32_t sum = 0;

    for (size_t at = 0; at < CHECK; at++)
        sum += (uint32_t)block[at] << (24 - 8 * (at % 4));
    spell(block + CHECK, 0u - sum);
}

static void put_name_of(uint8_t *block, size_t length_at, size_t at, const char *name)
{
    block[length_at] = (uint8_t)strlen(name);
    memcpy(block + at, name, strlen(name));
}

/* Host hss.isle, realm isle, and Alice, who is not registered. */
static void make_table(void)
{
    uint8_t *record = table + BLOCK;

    memset(table, 0, sizeof table);
    table[0] = table[1] = table[11] = 1;
    put_name_of(table, 13, 16, "hss.isle");
    put_name_of(table, 14, 80, "isle");
    record[0] = 2;
    record[1] = record[7] = 1;
    put_name_of(record, 13, 16, "sip:alice@isle");
    put_name_of(record, 14, 144, "alice@isle");
    mend(table);
    mend(record);
}

/* A sound vector of Alice's. */
static void make_vector(uint8_t *block)
{
    memset(block, 0, BLOCK);
    block[KIND] = 3;
    block[XRES_LENGTH] = 8;
    put_name_of(block, NAME_LENGTH, NAME, "alice@isle");
    memset(block + RAND, 0x5A, XRES - RAND + 8);
    memset(block + KEYS, 0xA5, REST - KEYS);
    mend(block);
}

static void make_vectors(size_t count)
{
    for (size_t k = 0; k < count; k++)
        make_vector(vectors + k * BLOCK);
}

static void make_requests(void)
{
    ask_authentication(&requests[0], table + BLOCK, 1, "sip:scscf1.isle");
    ask_location(&requests[1], table + BLOCK);
    requests[2] = requests[1];
    requests[2].length = NDUSHAVIRE_REQUEST_MIN;
    end(&requests[2]);
    requests[3] = requests[1];
    requests[3].bytes[0] = 2;
}

static uint64_t decide(const Request *request, size_t table_length, size_t length)
{
    return ndushavire_decide(request->bytes, request->length, table, table_length, table, 0, vectors, length, answer, sizeof answer,
                             NDUSHAVIRE_RFC_3588, NDUSHAVIRE_NO_FEATURES);
}

static void keep(void)
{
    memset(answer, 0xEE, sizeof answer);
    memcpy(table_before, table, sizeof table);
    memcpy(vectors_before, vectors, sizeof vectors);
    memcpy(answer_before, answer, sizeof answer);
}

static int all_kept(void)
{
    return memcmp(table_before, table, sizeof table) == 0 && memcmp(vectors_before, vectors, sizeof vectors) == 0 &&
           memcmp(answer_before, answer, sizeof answer) == 0;
}

static void bad(const char *file, size_t length, uint64_t block)
{
    keep();
    expect(ndushavire_check_vectors(vectors, length) == ((uint64_t)6 << 48 | block), file, "the check does not name the block");
    for (size_t r = 0; r < sizeof requests / sizeof requests[0]; r++) {
        expect(decide(&requests[r], sizeof table, length) == (uint64_t)6 << 48, file, "a decision is not refused by 6 and 0");
        expect(decide(&requests[r], sizeof table - 1, length) == (uint64_t)5 << 48, file, "the unsound table does not go before");
    }
    expect(all_kept(), file, "something was written");
}

static void sound(const char *file, size_t blocks)
{
    keep();
    expect(ndushavire_check_vectors(vectors, blocks * BLOCK) == blocks, file, "the check does not say the number of blocks");
    expect(decide(&requests[1], sizeof table, blocks * BLOCK) >> 48 == 0, file, "a decision is refused");
    memcpy(answer, answer_before, sizeof answer);
    expect(all_kept(), file, "a file was written to");
}

/* The second of three vectors with bytes put in: from a place on so many of one value, the lengths of XRES and name first. */
static uint8_t *second(unsigned xres, unsigned name)
{
    uint8_t *block = vectors + BLOCK;

    make_vectors(3);
    block[XRES_LENGTH] = (uint8_t)xres;
    memset(block + XRES, 0, KEYS - XRES);
    memset(block + XRES, 0x77, xres < 16 ? xres : 16);
    block[NAME_LENGTH] = (uint8_t)name;
    memset(block + NAME, 0, RAND - NAME);
    memset(block + NAME, 'n', name < 128 ? name : 128);
    mend(block);
    return block;
}

static void with_byte(const char *file, size_t at, unsigned byte, int is_sound)
{
    uint8_t *block = second(8, 10);

    block[at] = (uint8_t)byte;
    mend(block);
    if (is_sound)
        sound(file, 3);
    else
        bad(file, 3 * BLOCK, 1);
}

static void with_lengths(const char *file, unsigned xres, unsigned name, int is_sound)
{
    second(xres, name);
    if (is_sound)
        sound(file, 3);
    else
        bad(file, 3 * BLOCK, 1);
}

static void fields(void)
{
    with_byte("kind 0", KIND, 0, 0);
    with_byte("kind 2", KIND, 2, 0);
    with_byte("used is 1", USED, 1, 1);
    with_byte("used is 2", USED, 2, 0);
    with_byte("used is 255", USED, 255, 0);
    with_byte("a byte behind the XRES", XRES + 8, 1, 0);
    with_byte("the last byte of the XRES's field", KEYS - 1, 1, 0);
    with_byte("a byte behind the name", NAME + 10, 1, 0);
    with_byte("the last byte of the name's field", RAND - 1, 1, 0);
    with_byte("a RAND that begins with 0", RAND, 0, 1);
    with_byte("the last byte of the keys", REST - 1, 0, 1);
    with_byte("byte 212", REST, 1, 0);
    with_byte("byte 507", CHECK - 1, 1, 0);
    with_lengths("XRES of 3 bytes", 3, 10, 0);
    with_lengths("XRES of 4 bytes", 4, 10, 1);
    with_lengths("XRES of 16 bytes", 16, 10, 1);
    with_lengths("XRES of 17 bytes", 17, 10, 0);
    with_lengths("XRES of 255 bytes", 255, 10, 0);
    with_lengths("a name of 0 bytes", 8, 0, 0);
    with_lengths("a name of 1 byte", 8, 1, 1);
    with_lengths("a name of 128 bytes", 8, 128, 1);
    with_lengths("a name of 129 bytes", 8, 129, 0);
    with_lengths("a name of 255 bytes", 8, 255, 0);
}

static void wholes(void)
{
    sound("no block", 0);
    make_vectors(3);
    sound("three equal blocks", 3);
    bad("1 byte", 1, 0);
    bad("cut before the last byte of block 0", BLOCK - 1, 0);
    bad("cut in block 2", 2 * BLOCK + 1, 2);
    bad("cut before the last byte of block 2", 3 * BLOCK - 1, 2);
    vectors[2 * BLOCK + CHECK + 3] ^= 1;
    bad("another check word in block 2", 3 * BLOCK, 2);
    memset(vectors + BLOCK, 0, BLOCK);
    bad("zeros in block 1, which sum to zero, before a bad block", 3 * BLOCK, 1);
    bad("zeros in block 1, before a cut", 2 * BLOCK + 7, 1);
    make_vectors(MOST + 2);
    sound("4,096 blocks", MOST);
    bad("4,096 blocks and a piece", MOST * BLOCK + 1, MOST);
    bad("4,097 blocks", (MOST + 1) * BLOCK, MOST);
    bad("4,098 blocks", (MOST + 2) * BLOCK, MOST);
    memset(vectors + 4000 * BLOCK, 0, BLOCK);
    bad("4,097 blocks, and zeros in block 4,000", (MOST + 1) * BLOCK, 4000);
}

int main(void)
{
    make_table();
    make_requests();
    if (ndushavire_check(table, sizeof table, table, 0) != 1) {
        fprintf(stderr, "unsound: the table is not sound\n");
        return 1;
    }
    fields();
    wholes();
    if (failed == 0)
        printf("unsound: %u trials of vector files, each as it should be\n", tried);
    return failed != 0;
}
