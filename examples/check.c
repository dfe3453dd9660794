/* check TABLE PROFILE [VECTORS]: says whether a table is sound, and a vector file, as a daemon asks before it serves from new ones. TABLE may be a
 * working area that is longer than its table: then a line of its own says how many bytes were not looked at.
 * It is installed as ndushavire-check, for scripts.
 * Exit status: 0 sound, 1 one is bad, 2 a file cannot be read, standard output cannot be written, or the arguments are others. */
#include <ndushavire.h>

#include "load.h"

static int is(const char *word, const char *other) { return strcmp(word, other) == 0; }

/* Says what a check found, and whether the file is sound. */
static int say(uint64_t word, const char *sound, const char *things, const char *bad) {
    if (ndushavire_sound(word))
        printf("%s, %lu %s\n", sound, (unsigned long)ndushavire_value(word), things);
    else
        printf("%s %lu is bad\n", bad, (unsigned long)ndushavire_value(word));
    return ndushavire_sound(word);
}

/* Of a sound table in a longer working area: how much stands past it, which nobody looks at. */
static void say_rest(uint64_t word, size_t length) {
    const size_t looked_at = NDUSHAVIRE_BLOCK * ((size_t)ndushavire_value(word) + 1);
    if (ndushavire_sound(word) && length > looked_at) printf("%lu bytes past the table were not looked at\n", (unsigned long)(length - looked_at));
}

int main(int argc, char **argv) {
    static const char usage[] = "usage: ndushavire-check TABLE PROFILE [VECTORS]\n"
                                "Says whether TABLE is sound beside PROFILE, and VECTORS by itself.\n"
                                "Exit status: 0 sound, 1 one is bad, 2 unreadable or wrong use.\n";
    if (argc == 2 && (is(argv[1], "--help") || is(argv[1], "--version"))) {
        printf("%s", is(argv[1], "--help") ? usage : "ndushavire-check " NDUSHAVIRE_VERSION "\n");
        return printed() ? 0 : 2;
    }
    if (argc != 3 && argc != 4) {
        fprintf(stderr, "%s", usage);
        return 2;
    }
    size_t table_len, profile_len, vectors_len = 0;
    uint8_t *table = load(argv[1], &table_len);
    uint8_t *profile = load(argv[2], &profile_len);
    uint8_t *vectors = argc == 4 ? load(argv[3], &vectors_len) : NULL;

    const uint64_t word = ndushavire_check(table, table_len, profile, profile_len);
    int sound = say(word, "sound", "records", "block");
    say_rest(word, table_len);
    if (vectors != NULL)
        sound &= say(ndushavire_check_vectors(vectors, vectors_len), "vectors sound", "blocks", "vector block");

    free(table);
    free(profile);
    free(vectors);
    if (!printed()) return 2;
    return sound ? 0 : 1;
}
