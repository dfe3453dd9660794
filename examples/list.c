/* list export TABLE PROFILE [LIST]: writes a table of edition 2 as a list for the billing desk, to the new file LIST, or to standard output.
 * list import LIST HEADER PROFILE NEW: makes the table that a list says, as the new file NEW. HEADER is the table that was exported, or its header block
 * alone: its first 512 bytes are read.
 * It is installed as ndushavire-list.
 * No file is written over, the last good table least of all: LIST and NEW must not be there, nor LIST.new and NEW.new, which are written first and then get
 * that name (newfile.h). What is said goes to standard output. Where the list goes there, nothing else does: why it is refused goes to standard error.
 * Exit status: 0 done, and the new file is on disk; 5, 13, 14 or 15 refused by that number, and there is no new file; 2 a file cannot be read or stored,
 * standard output cannot be written, or the arguments are others. */
#define _POSIX_C_SOURCE 200809L
#include <ndushavire.h>

#include "newfile.h"

static int is(const char *word, const char *other) { return strcmp(word, other) == 0; }

static uint8_t *room_of(size_t length) {
    uint8_t *room = (uint8_t *)malloc(length);
    if (room == NULL) fail("memory", "", strerror(errno));
    return room;
}

/* The name of a block that cannot be listed, and its first byte that is in no list. */
static void print_unlisted(FILE *said, unsigned long block, const uint8_t *at) {
    static const struct {
        const char *what;
        size_t length, place;
    } names[] = {{"public identity", 13, 16}, {"private identity", 14, 144}, {"server's name", 15, 272}};
    for (size_t n = 0; n < 3; n++)
        for (size_t i = 0; i < at[names[n].length]; i++) {
            const unsigned byte = at[names[n].place + i];
            if (byte >= 32 && byte <= 126) continue;
            fprintf(said, "refused 13, block %lu: the %s has the byte %u, which no list can have\n", block, names[n].what, byte);
            return;
        }
}

/* Why an export was refused. Of a sound table of edition 1, or in a longer area, the library says block 0, and only a check, whose word is CHECKED, tells it
 * from a bad one. */
static void print_export_refusal(FILE *said, uint64_t word, const uint8_t *table, size_t length, uint64_t checked) {
    const unsigned long number = ndushavire_number(word), block = ndushavire_value(word);
    const int sound = ndushavire_sound(checked);
    const size_t alone = NDUSHAVIRE_BLOCK * ((size_t)ndushavire_value(checked) + 1);
    if (number == NDUSHAVIRE_NAME_UNLISTABLE)
        print_unlisted(said, block, table + block * NDUSHAVIRE_BLOCK);
    else if (number == NDUSHAVIRE_TABLE_UNSOUND && sound && length > alone)
        fprintf(said, "refused 5, block %lu: %lu bytes stand past the table\n", block, (unsigned long)(length - alone));
    else if (number == NDUSHAVIRE_TABLE_UNSOUND && sound)
        fprintf(said, "refused 5, block %lu: the table is of edition %u\n", block, (unsigned)ndushavire_edition(table));
    else if (number == NDUSHAVIRE_TABLE_UNSOUND)
        fprintf(said, "refused 5, block %lu is bad\n", block);
    else
        fprintf(said, "refused %lu\n", number);
}

/* Exports to the file of that path, or to standard output if there is none. Gives the refusal's number, or 0. */
static int export_table(const char *table_path, const char *profile_path, const char *path) {
    size_t table_len, profile_len;
    uint8_t *table = load(table_path, &table_len), *profile = load(profile_path, &profile_len), *list = room_of(NDUSHAVIRE_LIST_MAX);
    const char *name = NULL;
    const int folder = path == NULL ? -1 : folder_of(path, &name);

    const uint64_t checked = ndushavire_check(table, table_len, profile, profile_len);
    const uint64_t word = ndushavire_export(table, table_len, profile, profile_len, list, NDUSHAVIRE_LIST_MAX);
    const size_t length = ndushavire_value(word);
    if (!ndushavire_written(word)) {
        print_export_refusal(path == NULL ? stderr : stdout, word, table, table_len, checked);
    } else if (path == NULL) {
        fwrite(list, 1, length, stdout);
    } else {
        store_at(folder, path, name, list, length);
        printf("exported, %lu records, %lu bytes\n", (unsigned long)(table_len / NDUSHAVIRE_BLOCK - 1), (unsigned long)length);
    }

    if (folder >= 0) close(folder);
    free(table);
    free(profile);
    free(list);
    return (int)ndushavire_number(word);
}

/* Where a line begins. Those before it are good, so that none of them has a LF but at its end. */
static size_t line_at(const uint8_t *list, size_t length, unsigned long line) {
    size_t at = 0;
    for (unsigned long n = 1; n < line && at < length; at++) n += list[at] == '\n';
    return at;
}

/* What is the matter with a wrong line, as far as its own bytes show it. */
static const char *matter(const uint8_t *at, size_t left, unsigned long line) {
    const uint8_t *end = (const uint8_t *)memchr(at, '\n', left);
    if (left >= 3 && memcmp(at, "\xEF\xBB\xBF", 3) == 0) return "begins with a byte order mark";
    if (end == NULL) return "does not end in CR LF";
    if (end == at || end[-1] != '\r') return "ends in LF alone";
    return line == 1 ? "does not name the columns" : "is in another form, breaks a rule of the table, or leaves no names for the lines that must follow";
}

/* The first bytes of a line, those that are not to be printed in hexadecimal digits. */
static void print_line(const uint8_t *at, size_t left) {
    printf("    ");
    for (size_t i = 0; i < left && i < 120 && at[i] != '\n' && !(i + 1 < left && memcmp(at + i, "\r\n", 2) == 0); i++)
        if (at[i] >= 32 && at[i] <= 126)
            putchar(at[i]);
        else
            printf("\\x%02X", (unsigned)at[i]);
    printf("\n");
}

/* A list with a wrong line; the header block is sound, and counts the records at its bytes 8 to 11. */
static void print_wrong_line(unsigned long line, const uint8_t *list, size_t length, const uint8_t *header) {
    const unsigned long count = (unsigned long)header[8] << 24 | (unsigned long)header[9] << 16 | (unsigned long)header[10] << 8 | header[11];
    const size_t at = line_at(list, length, line);
    if (at == length) {
        printf("refused 14, line %lu is missing: the header block counts %lu records\n", line, count);
    } else if (line == count + 2) {
        printf("refused 14, line %lu is one too many: the header block counts %lu records\n", line, count);
    } else {
        printf("refused 14, line %lu %s\n", line, matter(list + at, length - at, line));
        print_line(list + at, length - at);
    }
}

/* Imports to the file of the last path. Gives the refusal's number, or 0. */
static int import_list(char **paths) {
    size_t list_len, header_len, profile_len;
    uint8_t *list = load(paths[0], &list_len), *header = load(paths[1], &header_len), *profile = load(paths[2], &profile_len);
    uint8_t *table = room_of(NDUSHAVIRE_TABLE_MAX);
    const char *name;
    const int folder = folder_of(paths[3], &name);

    if (header_len > NDUSHAVIRE_BLOCK) header_len = NDUSHAVIRE_BLOCK;
    const uint64_t word = ndushavire_import(list, list_len, header, header_len, profile, profile_len, table, NDUSHAVIRE_TABLE_MAX);
    const unsigned long number = ndushavire_number(word), value = ndushavire_value(word);
    if (ndushavire_written(word)) {
        store_at(folder, paths[3], name, table, value);
        printf("imported, %lu records, issue %lu\n", value / NDUSHAVIRE_BLOCK - 1, (unsigned long)ndushavire_issue(table));
    } else if (number == NDUSHAVIRE_LINE_WRONG) {
        print_wrong_line(value, list, list_len, header);
    } else if (number == NDUSHAVIRE_TABLE_UNSOUND && header_len < NDUSHAVIRE_BLOCK) {
        printf("refused 5, the header block has %lu bytes\n", (unsigned long)header_len);
    } else if (number == NDUSHAVIRE_TABLE_UNSOUND) {
        printf("refused 5, the header block %s\n", ndushavire_edition(header) == 1 ? "is of edition 1, or bad" : "is bad");
    } else {
        printf("refused %lu\n", number);
    }

    close(folder);
    free(list);
    free(header);
    free(profile);
    free(table);
    return (int)number;
}

int main(int argc, char **argv) {
    static const char usage[] = "usage: ndushavire-list export TABLE PROFILE [LIST]\n"
                                "       ndushavire-list import LIST HEADER PROFILE NEW\n"
                                "Writes TABLE, of edition 2 and sound beside PROFILE, as a list, to the new file LIST or to standard output;\n"
                                "or makes the table of a list, under the header block of the table HEADER, as the new file NEW.\n"
                                "Exit status: 0 done; 5, 13, 14, 15 refused; 2 unreadable, not stored or wrong use.\n";
    if (argc == 2 && (is(argv[1], "--help") || is(argv[1], "--version"))) {
        printf("%s", is(argv[1], "--help") ? usage : "ndushavire-list " NDUSHAVIRE_VERSION "\n");
        return printed() ? 0 : 2;
    }
    int number;
    if ((argc == 4 || argc == 5) && is(argv[1], "export")) {
        number = export_table(argv[2], argv[3], argc == 5 ? argv[4] : NULL);
    } else if (argc == 6 && is(argv[1], "import")) {
        number = import_list(argv + 2);
    } else {
        fprintf(stderr, "%s", usage);
        return 2;
    }
    return printed() ? number : 2;
}
