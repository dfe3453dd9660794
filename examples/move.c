/* move forward ISSUE TABLE PROFILE NEW: moves a table of edition 1 to edition 2, with this issue number.
 * move back TABLE PROFILE NEW: moves a table of edition 2 in which every set number is 0 to edition 1.
 * It is installed as ndushavire-move.
 * The moved table is the new file NEW, and TABLE stays as it is: a move within the file would mix editions if the power went. NEW must
 * not be there, nor NEW.new, which is written first and then gets that name. A daemon goes on with TABLE until it is given the other one.
 * Exit status: 0 moved, and NEW is on disk; 1 refused, and there is no NEW; 2 a file cannot be read or stored, standard output cannot
 * be written, or the arguments are others. */
#define _POSIX_C_SOURCE 200809L
#include <ndushavire.h>

#include "newfile.h"

static int is(const char *word, const char *other) { return strcmp(word, other) == 0; }

/* Whether a word is an issue number, which is any of 32 bits. */
static int is_issue(const char *word, uint32_t *issue) {
    uint64_t number = 0;
    const char *at = word;
    for (; *at >= '0' && *at <= '9' && number <= UINT32_MAX; at++) number = number * 10 + (uint64_t)(*at - '0');
    *issue = (uint32_t)number;
    return at != word && *at == '\0' && number <= UINT32_MAX;
}

/* Why a move was refused. Of a sound table of the other edition, or in a longer area, the library says block 0, and only a check, whose word is
 * CHECKED, tells it from a bad one. */
static void print_refusal(uint64_t word, const uint8_t *table, size_t length, uint64_t checked) {
    const unsigned long number = ndushavire_number(word), block = ndushavire_value(word);
    const uint8_t *at = table + block * NDUSHAVIRE_BLOCK;
    const int sound = ndushavire_sound(checked);
    const size_t alone = NDUSHAVIRE_BLOCK * ((size_t)ndushavire_value(checked) + 1);
    if (number == NDUSHAVIRE_TABLE_HAS_SETS)
        printf("refused 8, block %lu has set %u\n", block, (unsigned)at[406] << 8 | at[407]);
    else if (number == NDUSHAVIRE_TABLE_UNSOUND && sound && length > alone)
        printf("refused 5, block %lu: %lu bytes stand past the table\n", block, (unsigned long)(length - alone));
    else if (number == NDUSHAVIRE_TABLE_UNSOUND && sound)
        printf("refused 5, block %lu: the table is of edition %u\n", block, (unsigned)ndushavire_edition(table));
    else if (number == NDUSHAVIRE_TABLE_UNSOUND)
        printf("refused 5, block %lu is bad\n", block);
    else
        printf("refused %lu\n", number);
}

int main(int argc, char **argv) {
    static const char usage[] = "usage: ndushavire-move forward ISSUE TABLE PROFILE NEW\n"
                                "       ndushavire-move back TABLE PROFILE NEW\n"
                                "Moves TABLE, which is sound beside PROFILE, to edition 2 or back to 1, as the new file NEW.\n"
                                "Exit status: 0 moved, 1 refused, 2 unreadable, not stored or wrong use.\n";
    if (argc == 2 && (is(argv[1], "--help") || is(argv[1], "--version"))) {
        printf("%s", is(argv[1], "--help") ? usage : "ndushavire-move " NDUSHAVIRE_VERSION "\n");
        return printed() ? 0 : 2;
    }
    uint32_t issue = 0;
    const int forward = argc == 6 && is(argv[1], "forward") && is_issue(argv[2], &issue);
    if (!forward && !(argc == 5 && is(argv[1], "back"))) {
        fprintf(stderr, "%s", usage);
        return 2;
    }
    char **const names = argv + (forward ? 3 : 2);
    size_t table_len, profile_len;
    uint8_t *table = load(names[0], &table_len);
    uint8_t *profile = load(names[1], &profile_len);
    const char *name;
    const int folder = folder_of(names[2], &name);

    const uint64_t checked = ndushavire_check(table, table_len, profile, profile_len);
    const uint64_t word = forward ? ndushavire_forward(table, table_len, profile, profile_len, issue)
                                  : ndushavire_back(table, table_len, profile, profile_len);
    if (ndushavire_moved(word)) {
        store_at(folder, names[2], name, table, table_len);
        printf("moved to edition %u, %lu records", (unsigned)ndushavire_edition(table), (unsigned long)ndushavire_value(word));
        if (forward) printf(", issue %lu", (unsigned long)ndushavire_issue(table));
        printf("\n");
    } else {
        print_refusal(word, table, table_len, checked);
    }

    close(folder);
    free(table);
    free(profile);
    if (!printed()) return 2;
    return ndushavire_moved(word) ? 0 : 1;
}
