/* list TABLE PROFILE NAMES ..: times the export of each table, which is of edition 2, and the import of its list, beside a plain loop that copies the
 * list's bytes. There is no aim. */
#define _POSIX_C_SOURCE 199309L
#include "samples.h"
#include "timing.h"

/* The table, its list, and areas for both. */
typedef struct {
    const Sample *of;
    uint8_t *list, *copy, *area;
    size_t length;
} Listed;

static uint64_t export_list(const void *listed) {
    const Listed *l = (const Listed *)listed;
    return ndushavire_export(l->of->table, l->of->table_len, l->of->profile, l->of->profile_len, l->copy, NDUSHAVIRE_LIST_MAX);
}

static uint64_t import_list(const void *listed) {
    const Listed *l = (const Listed *)listed;
    return ndushavire_import(l->list, l->length, l->of->table, NDUSHAVIRE_BLOCK, l->of->profile, l->of->profile_len, l->area, NDUSHAVIRE_TABLE_MAX);
}

static uint64_t copy_list(const void *listed) {
    const Listed *l = (const Listed *)listed;
    for (size_t i = 0; i < l->length; i++) l->copy[i] = l->list[i];
    return l->length;
}

static uint8_t *room(size_t length) {
    uint8_t *bytes = (uint8_t *)calloc(length, 1);
    if (bytes == NULL) abort();
    return bytes;
}

/* A list that does not give the table back is not worth a time. */
static int right(Listed *l) {
    const uint64_t word = export_list(l);
    l->length = ndushavire_value(word);
    memcpy(l->list, l->copy, l->length);
    return ndushavire_number(word) == NDUSHAVIRE_DONE && import_list(l) == l->of->table_len && memcmp(l->area, l->of->table, l->of->table_len) == 0;
}

static int measure(const Sample *s) {
    Listed l = {s, room(NDUSHAVIRE_LIST_MAX), room(NDUSHAVIRE_LIST_MAX), room(NDUSHAVIRE_TABLE_MAX), 0};
    const int passes = right(&l);
    if (passes) {
        const double copy = median_of(copy_list, &l), out = median_of(export_list, &l), in = median_of(import_list, &l);
        printf("%7lu  %-5s %9u %8lu %8.2f %9.2f %11.2f %8.1f %8.1f\n", (unsigned long)s->records, s->names, members(s), (unsigned long)l.length, copy, out, in,
               out / copy, in / copy);
    } else {
        fprintf(stderr, "list: %s is not of edition 2, or its list does not give it back\n", s->path);
    }
    free(l.list);
    free(l.copy);
    free(l.area);
    return passes;
}

int main(int argc, char **argv) {
    return each_sample(argc, argv,
                       "lists: microseconds, medians; export and import as a multiple of a plain copy of the list\n"
                       "records  names  in a set    bytes     copy    export      import    /copy    /copy\n",
                       measure);
}
