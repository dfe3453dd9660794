/* showtable TABLE PROFILE: a table and its profile file as the text that maketable reads, on standard output. maketable makes
 * the same two files of it again, byte for byte, so a line can be edited and the next table made with nothing lost:
 * states, names of servers and whatever bytes a name or a profile has. Of a table of edition 2 the text has the issue and the sets.
 * showtable --vectors VECTORS: a vector file as text, in the same way.
 * showtable --unused TABLE PROFILE VECTORS: a line for each private identity, with how many of its vectors are unused: those of
 * the table with the fewest first, and then those that have vectors and no record. A vector that stands there twice is named on
 * standard error.
 * It is installed as ndushavire-showtable.
 *
 * TABLE.md among the documents says how the texts are written ("As text") and what stands in the blocks. They are plain
 * ASCII, with \xHH for every other byte, so that no editor alters what it does not show.
 *
 * Exit status: 0 written; 1 a file is unsound, and its first bad block is named on standard error, or under --unused a vector
 * stands there twice; 2 wrong use, a file that cannot be read, or no memory, or standard output fails. Nothing is written of a
 * file that is unsound.
 * This program stands apart from the library, of whose header it takes the version alone, and reads the rules of both files for itself, so
 * that each tests the other. */
#include <ndushavire.h>

#include "load.h"

enum { BLOCK = 512, RECORDS = 4096, NETWORKS = 8, NETWORK = 32, CAPABILITIES = 4, PART = 4096, VECTORS = 4096, KEY = 16, XRES = 16 };

static uint32_t number_at(const uint8_t *at) {
    return (uint32_t)at[0] << 24 | (uint32_t)at[1] << 16 | (uint32_t)at[2] << 8 | at[3];
}

/* ---- whether table and vector file are sound */

static int zeros(const uint8_t *bytes, size_t from, size_t to) {
    while (from < to && bytes[from] == 0) from++;
    return from >= to;
}

/* A name of a length in its field, and zeros behind it. */
static int sound_name(const uint8_t *field, size_t length, size_t least, size_t room) {
    return length >= least && length <= room && zeros(field, length, room);
}

static int sound_sum(const uint8_t *block) {
    uint32_t sum = 0;
    for (size_t at = 0; at < BLOCK; at += 4) sum += number_at(block + at);
    return sum == 0;
}

static int sound_start(const uint8_t *block, unsigned kind, uint32_t number) {
    return sound_sum(block) && block[0] == kind && zeros(block, 2, 4) && number_at(block + 4) == number;
}

static uint32_t issue_of(const uint8_t *block) { return number_at(block + 408); }

/* Edition 2 has the issue where edition 1 has zeros. */
static int sound_end(const uint8_t *block) { return zeros(block, block[1] == 2 ? 412 : 408, BLOCK - 4); }

static int sound_networks(const uint8_t *header) {
    const size_t networks = header[15];
    const uint8_t *places = header + 144;
    if (networks > NETWORKS) return 0;
    for (size_t i = 0; i < networks; i++) {
        const uint8_t *place = places + NETWORK * i;
        if (!sound_name(place + 1, place[0], 1, NETWORK - 1)) return 0;
        for (size_t j = 0; j < i; j++)
            if (memcmp(place, places + NETWORK * j, NETWORK) == 0) return 0;
    }
    return zeros(places, NETWORK * networks, NETWORK * NETWORKS);
}

static int sound_header(const uint8_t *block) {
    return sound_start(block, 1, 0) && (block[1] == 1 || block[1] == 2) && block[12] <= 1 && sound_name(block + 16, block[13], 1, 64) &&
           sound_name(block + 80, block[14], 1, 64) && sound_networks(block) && zeros(block, 400, 408) &&
           sound_end(block);
}

static size_t part_length(const uint8_t *record) { return (size_t)record[404] << 8 | record[405]; }

static uint64_t part_start(const uint8_t *record) { return number_at(record + 400); }

static unsigned set_of(const uint8_t *record) { return (unsigned)record[406] << 8 | record[407]; }

/* A record is of its header's edition and issue, and has a set in edition 2 alone. */
static int sound_edition(const uint8_t *header, const uint8_t *record) {
    return record[1] == header[1] && issue_of(record) == issue_of(header) && (record[1] == 2 || set_of(record) == 0) && sound_end(record);
}

static int sound_record(const uint8_t *block, uint32_t number, const uint8_t *header, size_t profile_len) {
    const unsigned state = block[8], bits = block[9], mandatory = block[11], optional = block[12];
    const int pending = bits & 1;
    return sound_start(block, 2, number) && state <= 2 && bits <= 7 && block[10] >> header[15] == 0 &&
           sound_name(block + 16, block[13], 1, 128) && sound_name(block + 144, block[14], 1, 128) &&
           sound_name(block + 272, block[15], 0, 96) && (block[15] > 0) == (state > 0 || pending) &&
           mandatory <= CAPABILITIES && zeros(block, 368 + 4 * mandatory, 384) &&
           optional <= CAPABILITIES && zeros(block, 384 + 4 * optional, 400) &&
           part_length(block) <= PART && part_start(block) + part_length(block) <= profile_len && sound_edition(header, block);
}

/* Whether a record's public identity is greater than that of the one before: bytewise, a prefix first. */
static int rises(const uint8_t *before, const uint8_t *block) {
    const size_t a = before[13], b = block[13];
    const int order = memcmp(before + 16, block + 16, a < b ? a : b);
    return order != 0 ? order < 0 : a < b;
}

/* An implicit set is the records of one private identity with the same number, other than 0. */
static int same_set(const uint8_t *a, const uint8_t *b) {
    return set_of(a) != 0 && set_of(a) == set_of(b) && a[14] == b[14] && memcmp(a + 144, b + 144, a[14]) == 0;
}

/* Whether a record agrees in state, pending and server's name with the first of its set, which is sound. */
static int agrees(const uint8_t *table, const uint8_t *block) {
    const uint8_t *first = table + BLOCK;
    while (first < block && !same_set(first, block)) first += BLOCK;
    return first[8] == block[8] && (first[9] & 1) == (block[9] & 1) && first[15] == block[15] && memcmp(first + 272, block + 272, block[15]) == 0;
}

/* Whether the table is sound; if not, `bad` is its first bad block. */
static int sound_table(const uint8_t *table, size_t table_len, size_t profile_len, size_t *bad) {
    *bad = 0;
    if (table_len < BLOCK) return 0;
    const size_t count = number_at(table + 8);
    if (count > RECORDS || table_len != BLOCK * (count + 1) || !sound_header(table)) return 0;
    for (*bad = 1; *bad <= count; ++*bad) {
        const uint8_t *block = table + BLOCK * *bad;
        if (!sound_record(block, (uint32_t)*bad, table, profile_len)) return 0;
        if (*bad > 1 && !rises(block - BLOCK, block)) return 0;
        if (!agrees(table, block)) return 0;
    }
    return 1;
}

static int sound_vector(const uint8_t *block) {
    return sound_sum(block) && block[0] == 3 && block[1] <= 1 && sound_name(block + 4, block[3], 1, 128) &&
           sound_name(block + 164, block[2], 4, XRES) && zeros(block, 212, BLOCK - 4);
}

/* Whether the vector file is sound; if not, `bad` is its first bad block. */
static int sound_vectors(const uint8_t *vectors, size_t length, size_t *bad) {
    for (*bad = 0; BLOCK * *bad < length; ++*bad)
        if (*bad == VECTORS || length - BLOCK * *bad < BLOCK || !sound_vector(vectors + BLOCK * *bad)) return 0;
    return 1;
}

/* ---- the text */

static const char *gap = ""; /* what stands before the next word */

static void new_line(void) { gap = "\n"; }

static void new_paragraph(void) { gap = "\n\n"; }

static void put_word(const char *word) {
    printf("%s%s", gap, word);
    gap = " ";
}

static void put_number(const char *key, uint64_t number) {
    put_word(key);
    printf("=%llu", (unsigned long long)number);
}

static void put_quoted(const char *key, const uint8_t *bytes, size_t length) {
    put_word(key);
    fputs("=\"", stdout);
    for (size_t i = 0; i < length; i++) {
        const uint8_t c = bytes[i];
        if (c == '"' || c == '\\') printf("\\%c", c);
        else if (c == '\n') fputs("\\n", stdout);
        else if (c < ' ' || c >= 0x7F) printf("\\x%02x", c);
        else putchar(c);
    }
    putchar('"');
}

/* A name stands bare unless one of its bytes needs quotes. */
static void put_name(const char *key, const uint8_t *bytes, size_t length) {
    for (size_t i = 0; i < length; i++)
        if (bytes[i] <= ' ' || bytes[i] >= 0x7F || bytes[i] == '"' || bytes[i] == '\\') {
            put_quoted(key, bytes, length);
            return;
        }
    put_word(key);
    printf("=%.*s", (int)length, (const char *)bytes);
}

static void put_capabilities(const char *key, const uint8_t *values, unsigned count) {
    if (count == 0) return;
    put_word(key);
    for (unsigned i = 0; i < count; i++) printf("%c%lu", i == 0 ? '=' : ',', (unsigned long)number_at(values + 4 * i));
}

static void put_header(const uint8_t *header) {
    put_name("host", header + 16, header[13]);
    put_name("realm", header + 80, header[14]);
    put_number("keep", header[12]);
    if (header[1] == 2) put_number("issue", issue_of(header));
    new_line();
    for (size_t i = 0; i < header[15]; i++) put_name("network", header + 145 + NETWORK * i, header[144 + NETWORK * i]);
}

static void put_record(const uint8_t *header, const uint8_t *record, const uint8_t *profile, int placed) {
    static const char *const states[] = {"not-registered", "registered", "unregistered"};
    new_paragraph();
    put_name("public", record + 16, record[13]);
    put_name("private", record + 144, record[14]);
    if (set_of(record) != 0) put_number("set", set_of(record));
    new_line();
    if (record[8] != 0) put_name("state", (const uint8_t *)states[record[8]], strlen(states[record[8]]));
    if (record[9] & 1) put_word("pending");
    if (record[9] & 2) put_word("barred");
    if (record[9] & 4) put_word("unregistered-services");
    if (record[15] > 0) put_name("server", record + 272, record[15]);
    new_line();
    for (size_t i = 0; i < header[15]; i++)
        if (record[10] >> i & 1) put_name("roaming", header + 145 + NETWORK * i, header[144 + NETWORK * i]);
    new_line();
    put_capabilities("mandatory", record + 368, record[11]);
    put_capabilities("optional", record + 384, record[12]);
    new_line();
    if (part_length(record) > 0) put_quoted("profile", profile + part_start(record), part_length(record));
    if (placed) put_number("profile-at", part_start(record));
}

/* Whether the profile file is the records' parts one behind the other, as maketable lays them. */
static int laid_in_order(const uint8_t *table, size_t count, size_t profile_len) {
    uint64_t end = 0;
    for (size_t k = 1; k <= count; k++) {
        if (part_start(table + BLOCK * k) != end) return 0;
        end += part_length(table + BLOCK * k);
    }
    return end == profile_len;
}

static int by_start(const void *left, const void *right) {
    const uint64_t a = part_start(*(const uint8_t *const *)left), b = part_start(*(const uint8_t *const *)right);
    return (a > b) - (a < b);
}

static void put_unused(const uint8_t *profile, uint64_t from, uint64_t to) {
    for (; from < to; from += PART) {
        new_paragraph();
        put_quoted("unused", profile + from, to - from < PART ? (size_t)(to - from) : PART);
        put_number("profile-at", from);
    }
}

/* Each run of the profile file that is in no record's part. */
static void put_all_unused(const uint8_t *table, size_t count, const uint8_t *profile, size_t profile_len) {
    static const uint8_t *records[RECORDS];
    size_t parts = 0;
    uint64_t reached = 0;
    for (size_t k = 1; k <= count; k++)
        if (part_length(table + BLOCK * k) > 0) records[parts++] = table + BLOCK * k;
    qsort(records, parts, sizeof records[0], by_start);
    for (size_t i = 0; i < parts; i++) {
        const uint64_t start = part_start(records[i]), end = start + part_length(records[i]);
        put_unused(profile, reached, start);
        if (end > reached) reached = end;
    }
    put_unused(profile, reached, profile_len);
}

static void put_bytes(const char *key, const uint8_t *bytes, size_t length) {
    put_word(key);
    putchar('=');
    for (size_t i = 0; i < length; i++) printf("%02x", bytes[i]);
}

/* `used` has a line of its own, for a script to find. */
static void put_vector(const uint8_t *vector) {
    put_name("private", vector + 4, vector[3]);
    new_line();
    put_bytes("rand", vector + 132, KEY);
    put_bytes("autn", vector + 148, KEY);
    new_line();
    put_bytes("xres", vector + 164, vector[2]);
    put_bytes("confidentiality", vector + 180, KEY);
    put_bytes("integrity", vector + 196, KEY);
    new_line();
    if (vector[1] == 1) put_word("used");
}

/* ---- how many vectors are unused */

typedef struct {
    const uint8_t *name;
    size_t length;
    int in_table;
    unsigned long unused, used;
} Holder;

static int by_name(const void *left, const void *right) {
    const Holder *a = (const Holder *)left, *b = (const Holder *)right;
    const int order = memcmp(a->name, b->name, a->length < b->length ? a->length : b->length);
    return order != 0 ? order : (a->length > b->length) - (a->length < b->length);
}

/* Those of the table first, and of these the ones with the fewest. */
static int by_need(const void *left, const void *right) {
    const Holder *a = (const Holder *)left, *b = (const Holder *)right;
    if (a->in_table != b->in_table) return b->in_table - a->in_table;
    if (a->unused != b->unused) return a->unused < b->unused ? -1 : 1;
    return by_name(left, right);
}

/* Makes one of all that have a name, and gives how many there are then. */
static size_t join_holders(Holder *holders, size_t many) {
    size_t last = 0;
    qsort(holders, many, sizeof holders[0], by_name);
    for (size_t i = 1; i < many; i++)
        if (by_name(&holders[last], &holders[i]) == 0) {
            holders[last].in_table |= holders[i].in_table;
            holders[last].unused += holders[i].unused;
            holders[last].used += holders[i].used;
        } else {
            holders[++last] = holders[i];
        }
    return many == 0 ? 0 : last + 1;
}

static void put_unused_vectors(const uint8_t *table, const uint8_t *vectors, size_t vectors_len) {
    static Holder holders[RECORDS + VECTORS];
    size_t many = 0;
    for (size_t k = 1; k <= number_at(table + 8); k++) {
        const uint8_t *record = table + BLOCK * k;
        const Holder holder = {record + 144, record[14], 1, 0, 0};
        holders[many++] = holder;
    }
    for (size_t at = 0; at < vectors_len; at += BLOCK) {
        const uint8_t *vector = vectors + at;
        const Holder holder = {vector + 4, vector[3], 0, vector[1] == 0, vector[1] == 1};
        holders[many++] = holder;
    }
    many = join_holders(holders, many);
    qsort(holders, many, sizeof holders[0], by_need);
    for (size_t i = 0; i < many; i++) {
        printf("%lu unused, %lu used,%s ", holders[i].unused, holders[i].used, holders[i].in_table ? "" : " in no record,");
        gap = "";
        put_name("private", holders[i].name, holders[i].length);
        putchar('\n');
    }
}

/* By the length of the name, the name, RAND and AUTN, which stand one behind the other. */
static int by_challenge(const void *left, const void *right) {
    const uint8_t *a = *(const uint8_t *const *)left, *b = *(const uint8_t *const *)right;
    const int order = memcmp(a + 3, b + 3, 164 - 3);
    return order != 0 ? order : (a > b) - (a < b);
}

/* Names each vector that stands there again, and says whether there is none. */
static int without_twins(const char *name, const uint8_t *vectors, size_t vectors_len) {
    static const uint8_t *sorted[VECTORS], *earlier[VECTORS];
    const size_t many = vectors_len / BLOCK;
    int twins = 0;
    for (size_t i = 0; i < many; i++) sorted[i] = vectors + BLOCK * i;
    qsort(sorted, many, sizeof sorted[0], by_challenge);
    for (size_t i = 1; i < many; i++)
        if (memcmp(sorted[i - 1] + 3, sorted[i] + 3, 164 - 3) == 0) earlier[(size_t)(sorted[i] - vectors) / BLOCK] = sorted[i - 1];
    for (size_t i = 0; i < many; i++)
        if (earlier[i] != NULL) {
            fprintf(stderr, "ndushavire-showtable: %s: block %lu has the vector of block %lu again\n", name, (unsigned long)i,
                    (unsigned long)((size_t)(earlier[i] - vectors) / BLOCK));
            twins++;
        }
    return twins == 0;
}

/* ---- what is asked for; each gives a status */

static int unsound(const char *name, size_t bad) {
    fprintf(stderr, "ndushavire-showtable: %s: block %lu is bad\n", name, (unsigned long)bad);
    return 1;
}

static int shown(void) {
    if (fflush(stdout) == 0 && !ferror(stdout)) return 0;
    fprintf(stderr, "ndushavire-showtable: standard output: %s\n", strerror(errno));
    return 2;
}

static int show_table(const char *table_name, const char *profile_name) {
    size_t table_len, profile_len, bad;
    uint8_t *table = load(table_name, &table_len);
    uint8_t *profile = load(profile_name, &profile_len);
    if (!sound_table(table, table_len, profile_len, &bad)) return unsound(table_name, bad);
    const size_t count = number_at(table + 8);
    const int placed = !laid_in_order(table, count, profile_len);
    put_header(table);
    for (size_t k = 1; k <= count; k++) put_record(table, table + BLOCK * k, profile, placed);
    if (placed) put_all_unused(table, count, profile, profile_len);
    putchar('\n');
    free(table);
    free(profile);
    return shown();
}

static int show_vectors(const char *name) {
    size_t length, bad;
    uint8_t *vectors = load(name, &length);
    if (!sound_vectors(vectors, length, &bad)) return unsound(name, bad);
    for (size_t at = 0; at < length; at += BLOCK) {
        if (at > 0) new_paragraph();
        put_vector(vectors + at);
    }
    if (length > 0) putchar('\n');
    free(vectors);
    return shown();
}

static int show_unused(const char *table_name, const char *profile_name, const char *name) {
    size_t table_len, profile_len, length, bad;
    uint8_t *table = load(table_name, &table_len);
    uint8_t *profile = load(profile_name, &profile_len);
    uint8_t *vectors = load(name, &length);
    if (!sound_table(table, table_len, profile_len, &bad)) return unsound(table_name, bad);
    if (!sound_vectors(vectors, length, &bad)) return unsound(name, bad);
    put_unused_vectors(table, vectors, length);
    const int failed = shown(), single = without_twins(name, vectors, length);
    free(table);
    free(profile);
    free(vectors);
    return failed ? failed : single ? 0 : 1;
}

static int is(const char *word, const char *other) { return strcmp(word, other) == 0; }

int main(int argc, char **argv) {
    static const char usage[] = "usage: ndushavire-showtable TABLE PROFILE\n"
                                "       ndushavire-showtable --vectors VECTORS\n"
                                "       ndushavire-showtable --unused TABLE PROFILE VECTORS\n"
                                "Writes a table or a vector file as text, or how many unused vectors each subscriber has.\n"
                                "Exit status: 0 written, 1 a file is unsound or has a vector twice, 2 unreadable, not written or wrong use.\n";
    const char *first = argc > 1 ? argv[1] : "";
    if (argc == 2 && (is(first, "--help") || is(first, "--version"))) {
        printf("%s", is(first, "--help") ? usage : "ndushavire-showtable " NDUSHAVIRE_VERSION "\n");
        return printed() ? 0 : 2;
    }
    if (argc == 3 && is(first, "--vectors")) return show_vectors(argv[2]);
    if (argc == 5 && is(first, "--unused")) return show_unused(argv[2], argv[3], argv[4]);
    if (argc == 3 && first[0] != '-') return show_table(argv[1], argv[2]);
    fprintf(stderr, "%s", usage);
    return 2;
}
