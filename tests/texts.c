/* texts ROOM SEED COUNT: from tables and vector files to texts and back, over random sound ones in ROOM. Of each
 *   - the text that showtable writes makes the same table and profile file, or vector file, again, byte for byte;
 *   - the same in another text (words and records in any order, comments, blanks, quotes, escapes) makes them too, and is shown as
 *     the first text again;
 *   - a damaged copy is refused, with a status and nothing written, or makes itself again: maketable makes no unsound file, so
 *     whatever showtable wrongly takes shows here.
 * maketable and showtable are linked in, their `main` under another name, and run in a child each time: to start a program takes longer than
 * most tables do. texts.sh tries them as they are.
 * Exit status: 0 all as it should be, 1 not so, 2 wrong use or no means. The tables that failed stay in ROOM. */
#define _XOPEN_SOURCE 700
#include <sys/stat.h>
#include <sys/wait.h>
#include <unistd.h>

#include "../examples/load.h"
#include "random-tables.h"

enum { VECTORS = 4096, DAMAGES = 2, FULL = 2 }; /* the first tables are full, one of each edition */

typedef int Program(int argc, char **argv);
Program maketable, showtable;

static unsigned long number; /* of the case */

static void fail(const char *what) {
    fprintf(stderr, "texts: case %lu: %s\n", number, what);
    exit(1);
}

/* ---- a random sound vector file, in which no vector stands twice */

static void put_vector(uint8_t *block, uint32_t k) {
    block[0] = 3;
    block[1] = (uint8_t)below(2);
    block[2] = (uint8_t)(4 + below(13));
    block[3] = put_name(block + 4, 1, one_in(2) ? 3 : 128);
    put_bytes(block + 132, 32);
    put32(block + 132 + 4 * below(8), k);
    put_bytes(block + 164, block[2]);
    put_bytes(block + 180, 32);
    seal(block);
}

static Bytes put_vectors(int full) {
    const size_t many = full ? VECTORS : some();
    const Bytes made = {(uint8_t *)calloc(many + 1, BLOCK), BLOCK * many};
    if (made.bytes == NULL) stop("no memory");
    for (size_t k = 0; k < many; k++) put_vector(made.bytes + BLOCK * k, (uint32_t)k);
    return made;
}

/* ---- the same in another text */

static void loose_gap(FILE *to) { fputs(one_in(6) ? " # a comment \"\n" : one_in(3) ? "\n\t" : one_in(3) ? " \r  " : " ", to); }

static void loose_value(FILE *to, const char *key, const uint8_t *bytes, size_t length) {
    int bare = length > 0 && bytes[0] != '"' && one_in(2);
    for (size_t i = 0; i < length; i++) bare &= bytes[i] > ' ' && bytes[i] != 0x7f;
    fprintf(to, bare ? "%s=" : "%s=\"", key);
    for (size_t i = 0; i < length; i++) {
        const uint8_t c = bytes[i];
        if (bare) fputc(c, to);
        else if (c == '\n' && one_in(2)) fputs("\\n", to);
        else if (c == '\n' || one_in(5)) fprintf(to, one_in(2) ? "\\x%02X" : "\\x%02x", c);
        else if (c == '"' || c == '\\') fprintf(to, "\\%c", c);
        else fputc(c, to);
    }
    if (!bare) fputc('"', to);
    loose_gap(to);
}

static void loose_numbers(FILE *to, const char *key, const uint8_t *values, size_t count) {
    for (size_t i = 0; i < count; i++)
        fprintf(to, "%s%s%lu", i == 0 ? key : ",", one_in(3) ? "0" : "", (unsigned long)get32(values + 4 * i));
    if (count > 0) loose_gap(to);
}

static void loose_record(FILE *to, const uint8_t *header, const uint8_t *record, Bytes profile) {
    static const char *const states[] = {"not-registered", "registered", "unregistered"};
    const uint32_t first = below(10), set = (uint32_t)record[406] << 8 | record[407];
    for (uint32_t i = 0; i < 10; i++) switch ((first + i) % 10) {
        case 0: loose_value(to, "public", record + 16, record[13]); break;
        case 1: loose_value(to, "private", record + 144, record[14]); break;
        case 2: if (record[15] > 0) loose_value(to, "server", record + 272, record[15]); break;
        case 3: if (record[8] > 0 || one_in(2)) fprintf(to, "state=%s ", states[record[8]]); break;
        case 4:
            fputs(record[9] & 4 ? "unregistered-services " : "", to);
            fputs(record[9] & 2 ? "barred " : "", to);
            fputs(record[9] & 1 ? "pending " : "", to);
            break;
        case 5:
            for (unsigned n = header[15]; n-- > 0;)
                if (record[10] >> n & 1) loose_value(to, "roaming", header + 145 + 32 * n, header[144 + 32 * n]);
            break;
        case 6: loose_numbers(to, "optional=", record + 384, record[12]); break;
        case 7: loose_numbers(to, "mandatory=", record + 368, record[11]); break;
        case 8: if (set > 0 || one_in(4)) fprintf(to, one_in(3) ? "set=0%lu " : "set=%lu ", (unsigned long)set); break;
        default:
            fprintf(to, "profile-at=%lu ", (unsigned long)get32(record + 400));
            loose_value(to, "profile", profile.bytes + get32(record + 400), (size_t)record[404] << 8 | record[405]);
        }
}

/* The whole profile file stands there as unused bytes, too, which the records' parts then share. */
static void loose_text(const char *path, Bytes table, Bytes profile) {
    FILE *to = fopen(path, "wb");
    if (to == NULL) stop(path);
    const size_t count = table.length / BLOCK - 1, first = count > 0 ? below((uint32_t)count) : 0;
    fputs(one_in(2) ? "\n# a text\n\n" : "", to);
    for (size_t i = 0; i < table.bytes[15]; i++) loose_value(to, "network", table.bytes + 145 + 32 * i, table.bytes[144 + 32 * i]);
    if (table.bytes[1] == 2) fprintf(to, one_in(3) ? "issue=0%lu\n" : "issue=%lu ", (unsigned long)get32(table.bytes + 408));
    fprintf(to, "keep=%d ", table.bytes[12]);
    loose_value(to, "realm", table.bytes + 80, table.bytes[14]);
    loose_value(to, "host", table.bytes + 16, table.bytes[13]);
    for (size_t i = 0; i < count; i++) {
        fputs("\n\n", to);
        loose_record(to, table.bytes, table.bytes + BLOCK * ((first + i) % count + 1), profile);
    }
    for (size_t at = 0; at < profile.length;) {
        const size_t length = one_in(2) ? PART : 1 + below(PART);
        const size_t left = profile.length - at;
        fputs("\n\n", to);
        loose_value(to, "unused", profile.bytes + at, length < left ? length : left);
        fprintf(to, "profile-at=%lu\n", (unsigned long)at);
        at += length;
    }
    if (fclose(to) != 0) stop(path);
}

static void loose_digits(FILE *to, const char *key, const uint8_t *bytes, size_t length) {
    const int quoted = one_in(3);
    fprintf(to, quoted ? "%s=\"" : "%s=", key);
    for (size_t i = 0; i < length; i++) fprintf(to, one_in(2) ? "%02x" : "%02X", bytes[i]);
    if (quoted) fputc('"', to);
    loose_gap(to);
}

static void loose_vector(FILE *to, const uint8_t *vector) {
    const uint32_t first = below(7);
    for (uint32_t i = 0; i < 7; i++) switch ((first + i) % 7) {
        case 0: loose_value(to, "private", vector + 4, vector[3]); break;
        case 1: loose_digits(to, "rand", vector + 132, 16); break;
        case 2: loose_digits(to, "autn", vector + 148, 16); break;
        case 3: loose_digits(to, "xres", vector + 164, vector[2]); break;
        case 4: loose_digits(to, "confidentiality", vector + 180, 16); break;
        case 5: loose_digits(to, "integrity", vector + 196, 16); break;
        default: fputs(vector[1] ? "used " : "", to);
        }
}

/* Of vectors the order is the file's. */
static void loose_vectors(const char *path, Bytes vectors) {
    FILE *to = fopen(path, "wb");
    if (to == NULL) stop(path);
    for (size_t at = 0; at < vectors.length; at += BLOCK) {
        fputs(at > 0 ? "\n\n" : one_in(2) ? "\n# a text\n\n" : "", to);
        loose_vector(to, vectors.bytes + at);
    }
    if (fclose(to) != 0) stop(path);
}

/* ---- running the two programs */

static void write_file(const char *path, Bytes b) {
    remove(path); /* a new file: one that is cut to nothing and written again, some file systems send to the disk at once */
    FILE *to = fopen(path, "wb");
    if (to == NULL || fwrite(b.bytes, 1, b.length, to) != b.length || fclose(to) != 0) stop(path);
}

static int holds(const char *path, Bytes b) {
    size_t length;
    uint8_t *bytes = load(path, &length);
    const int same = length == b.length && memcmp(bytes, b.bytes, length) == 0;
    free(bytes);
    return same;
}

static int is_empty(const char *path) {
    struct stat s;
    return stat(path, &s) == 0 && s.st_size == 0;
}

/* Runs a program with its output in a file and its complaints in `errors`; gives its status. */
static int run(Program *program, const char *first, const char *second, const char *output) {
    char name[] = "program", *words[] = {name, (char *)first, (char *)second, NULL};
    int status;
    remove(output);
    const pid_t child = fork();
    if (child == 0) {
        if (freopen(output, "wb", stdout) == NULL || freopen("errors", "wb", stderr) == NULL) _exit(2);
        exit(program(3, words));
    }
    if (child < 0 || waitpid(child, &status, 0) != child) stop("a child");
    return WIFEXITED(status) ? WEXITSTATUS(status) : -1;
}

static void makes(const char *text, Bytes table, Bytes profile, const char *what) {
    if (run(maketable, "table", text, "made-table") != 0 || !is_empty("errors")) fail(what);
    if (run(maketable, "profile", text, "made-profile") != 0 || !is_empty("errors")) fail(what);
    if (!holds("made-table", table) || !holds("made-profile", profile)) fail(what);
}

static void makes_vectors(const char *text, Bytes vectors, const char *what) {
    if (run(maketable, "vectors", text, "made-vectors") != 0 || !is_empty("errors") || !holds("made-vectors", vectors)) fail(what);
}

static void shows(const char *text, const char *what) {
    if (run(showtable, "table", "profile", text) != 0 || !is_empty("errors")) fail(what);
}

/* Changes a byte of a block. */
static void change(uint8_t *block) {
    static const uint16_t places[] = {0, 1, 2, 7, 8, 9, 10, 11, 12, 13, 14, 15, 144, 176, 403, 404, 405, 406, 407, 408, 411, 412, 507};
    uint8_t *at = block + (one_in(2) ? places[below(sizeof places / sizeof places[0])] : below(BLOCK));
    *at = (uint8_t)(one_in(2) ? *at ^ 1u << below(8) : one_in(2) ? 0 : below(256));
}

/* Damages a block in one of the ways that chance seldom finds, or in any; mends the check word more often than not. */
static void damage(Bytes table) {
    const uint32_t k = one_in(4) ? 0 : below((uint32_t)(table.length / BLOCK)), way = below(8);
    uint8_t *block = table.bytes + BLOCK * k;
    if (way == 0 && k > 1) { /* a record twice */
        memcpy(block, block - BLOCK, BLOCK);
        put32(block + 4, k);
    } else if (way == 0 && k == 0 && block[15] > 1) { /* a network twice */
        memcpy(block + 144 + 32 * (block[15] - 1), block + 144, 32);
    } else if (way == 1 && k > 0) {
        put_part(block, 0, PART + 1);
    } else if (way == 2 && k > 0 && block[11] > 0 && block[12] > 0) { /* a capability past the count */
        block[one_in(2) ? 11 : 12]--;
    } else if (way == 3) { /* the other edition */
        block[1] ^= 3;
    } else if (way == 4) { /* another issue, or one where there is none */
        put32(block + 408, one_in(2) ? 0 : get32(block + 408) + 1);
    } else if (way == 5 && k > 0 && first_of_set(table.bytes, k) < k && block[15] > 0) { /* a set whose records differ */
        block[one_in(2) ? 8 : 272] ^= block[8] > 0 ? 3 : 0x10;
    } else {
        change(block);
    }
    if (!one_in(4)) seal(block);
}

static Bytes copy_of(Bytes b) {
    const Bytes copy = {(uint8_t *)malloc(b.length + 1), b.length};
    if (copy.bytes == NULL) stop("no memory");
    memcpy(copy.bytes, b.bytes, b.length);
    return copy;
}

/* Whether a damaged copy was refused. */
static int damaged(Bytes table, Bytes profile) {
    const Bytes copy = copy_of(table);
    damage(copy);
    write_file("table", copy);
    const int status = run(showtable, "table", "profile", "text");
    if (status != 0 && status != 1) fail("a damaged table: another status than 0 and 1");
    if (status == 0) makes("text", copy, profile, "a damaged table was shown and is not made again");
    if (status == 1 && (!is_empty("text") || is_empty("errors"))) fail("a damaged table: something was written, or nothing said");
    free(copy.bytes);
    return status;
}

/* Damages a block of a vector file, or cuts it; mends the check word more often than not. */
static void damage_vectors(Bytes *vectors) {
    static const uint8_t places[] = {0, 1, 2, 3, 4, 131, 132, 163, 164, 179, 180, 211, 212};
    uint8_t *block = vectors->bytes + BLOCK * below((uint32_t)(vectors->length / BLOCK));
    uint8_t *at = block + (one_in(3) ? below(BLOCK) : places[below(sizeof places)]);
    if (one_in(10)) vectors->length -= 1 + below(BLOCK - 1);
    *at = (uint8_t)(one_in(2) ? *at ^ 1u << below(8) : one_in(2) ? 0 : below(256));
    if (!one_in(4)) seal(block);
}

static int damaged_vectors(Bytes vectors) {
    if (vectors.length == 0) return 0;
    Bytes copy = copy_of(vectors);
    damage_vectors(&copy);
    write_file("vectors", copy);
    const int status = run(showtable, "--vectors", "vectors", "text");
    if (status != 0 && status != 1) fail("a damaged vector file: another status than 0 and 1");
    if (status == 0) makes_vectors("text", copy, "a damaged vector file was shown and is not made again");
    if (status == 1 && (!is_empty("text") || is_empty("errors"))) fail("a damaged vector file: something was written, or nothing said");
    free(copy.bytes);
    return status;
}

/* Shown and made again from that text and from another; gives how many damaged copies were refused. */
static unsigned long there_and_back(Bytes vectors) {
    unsigned long refused = 0;
    Bytes text;
    write_file("vectors", vectors);
    if (run(showtable, "--vectors", "vectors", "text") != 0 || !is_empty("errors")) fail("a sound vector file is not shown");
    makes_vectors("text", vectors, "what showtable wrote makes another vector file");
    loose_vectors("loose", vectors);
    makes_vectors("loose", vectors, "another text of the vector file makes another one");
    text.bytes = load("text", &text.length);
    if (run(showtable, "--vectors", "made-vectors", "again") != 0 || !holds("again", text)) fail("the made vector file is shown otherwise");
    free(text.bytes);
    for (int i = 0; i < DAMAGES; i++) refused += (unsigned long)damaged_vectors(vectors);
    return refused;
}

int main(int argc, char **argv) {
    if (argc != 4) {
        fprintf(stderr, "usage: texts ROOM SEED COUNT\n");
        return 2;
    }
    if (chdir(argv[1]) != 0) stop(argv[1]);
    const unsigned long seed = strtoul(argv[2], NULL, 10), count = strtoul(argv[3], NULL, 10);
    unsigned long refused = 0, records = 0, refused_vectors = 0, blocks = 0;
    for (number = 0; number < count; number++) {
        chance = (seed + number + 1) * 0x9E3779B97F4A7C15u | 1;
        for (int i = 0; i < 8; i++) below(2);
        Bytes profile, table = put_table((uint8_t)(1 + number % 2), number < FULL, &profile);
        records += table.length / BLOCK - 1;
        write_file("table", table);
        write_file("profile", profile);
        shows("text", "a sound table is not shown");
        makes("text", table, profile, "what showtable wrote makes another table");
        loose_text("loose", table, profile);
        makes("loose", table, profile, "another text of the table makes another one");
        Bytes text;
        text.bytes = load("text", &text.length);
        if (run(showtable, "made-table", "made-profile", "again") != 0 || !holds("again", text)) fail("the made table is shown otherwise");
        free(text.bytes);
        for (int i = 0; i < DAMAGES; i++) refused += (unsigned long)damaged(table, profile);
        free(table.bytes);
        free(profile.bytes);
        const Bytes vectors = put_vectors(number < FULL);
        blocks += vectors.length / BLOCK;
        refused_vectors += there_and_back(vectors);
        free(vectors.bytes);
    }
    if (count > 100 && (refused == 0 || refused == DAMAGES * count)) fail("no damaged table was refused, or each");
    if (count > 100 && (refused_vectors == 0 || refused_vectors == DAMAGES * count)) fail("no damaged vector file was refused, or each");
    printf("texts: %lu tables of either edition, of %lu records, to text and back, byte for byte; %lu of %lu damaged ones refused (seed %lu)\n", count,
           records, refused, DAMAGES * count, seed);
    printf("texts: as many vector files of %lu blocks, likewise; %lu damaged ones refused\n", blocks, refused_vectors);
    return 0;
}
