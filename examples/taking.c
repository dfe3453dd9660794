/* taking.c: see taking.h. */
#ifndef _POSIX_C_SOURCE
#define _POSIX_C_SOURCE 200809L
#endif
#include <fcntl.h>
#include <stdlib.h>
#include <string.h>

#include "area.h"
#include "taking.h"

enum { BLOCKS_AT_ONCE = 16 }; /* that are written until the peers have their turn */

static const char next_name[] = "table.next";

static uint64_t take_in_memory(const Files *files, uint8_t *area) {
    const File *next = &files->taking.next, *profile = &files->profile;
    return ndushavire_take(area, files->table.length, next->bytes, next->length, profile->bytes, profile->length);
}

/* Why the library would refuse it, asked over a copy of the table in memory; or NULL. */
static const char *why_not_taken(const Files *files) {
    const File *table = &files->table, *next = &files->taking.next, *profile = &files->profile;
    const TakeOver t = {table->bytes, next->bytes, profile->bytes, table->length, next->length, profile->length};
    uint8_t *copy = (uint8_t *)malloc(table->length + 1);
    if (copy == NULL) return "no memory";
    memcpy(copy, table->bytes, table->length);
    const uint64_t word = take_in_memory(files, copy);
    free(copy);
    return ndushavire_taken(word) ? NULL : refusal_of(word, &t);
}

/* Opens the live table to be written over, if it is still ours; or says why not. */
static const char *open_table(Files *files) {
    const File *table = &files->table;
    struct stat found;
    const int area = files->taking.area = openat(table->folder, table->name, O_RDWR | O_NOFOLLOW | O_NONBLOCK | O_CLOEXEC);
    if (area < 0) return reason_of(files, "table", why_not_opened());
    if (fstat(area, &found) == 0 && same_file(&found, &table->about)) return NULL;
    close(area);
    return "table: another lies where ours should be";
}

static const char *read_next(Files *files) { return take_file(&files->taking.next, files->table.folder, next_name, NDUSHAVIRE_TABLE_MAX, 1); }

/* Begins to take the table over that was read; or says why not. */
static const char *begin_taking(Files *files) {
    Taking *taking = &files->taking;
    const char *why = why_not_taken(files);
    if (why == NULL) why = reason_of(files, "table", read_only(files->table.folder, files->table.name));
    if (why == NULL) why = open_table(files);
    if (why != NULL) return why;
    taking->written = 0;
    taking->under_way = 1;
    say("table.next: a take-over begins, %lu blocks, issue %lu", (unsigned long)(taking->next.length / NDUSHAVIRE_BLOCK),
        (unsigned long)ndushavire_issue(taking->next.bytes));
    return NULL;
}

/* Closes all of a take-over. The file is ours with what was written to it. */
static void end_taking(Files *files) {
    fstat(files->taking.area, &files->table.about);
    close(files->taking.area);
    give_back(&files->taking.next);
    files->taking.under_way = 0;
}

/* All blocks are on disk, and now it is so in memory. What may alter something has waited, so that the area is the one that was asked about. */
static void finish_taking(Files *files) {
    File *table = &files->table;
    const uint64_t word = take_in_memory(files, table->bytes);
    if (!ndushavire_taken(word)) stop("table", "it was altered in memory while another was taken over");
    keep_file(table);
    say("table.next is taken over, %lu records, issue %lu", (unsigned long)ndushavire_value(word), (unsigned long)ndushavire_issue(table->bytes));
    end_taking(files);
    unlinkat(table->folder, next_name, 0);
}

/* Writes some blocks more; gives 0 if one could not be written. */
static int take_some(Files *files) {
    Taking *taking = &files->taking;
    const size_t blocks = taking->next.length / NDUSHAVIRE_BLOCK;
    for (int i = 0; i < BLOCKS_AT_ONCE && taking->written < blocks; i++, taking->written++)
        if (!write_block(taking->area, taking->next.bytes, taking->written)) return 0;
    if (taking->written == blocks) finish_taking(files);
    return 1;
}

/* ---- while the daemon serves */

/* The table from before is stored again, as a new file; until it is, nothing that alters is answered. */
static void give_up(Files *files) {
    say("table.next is NOT taken over: block %lu: %s", (unsigned long)files->taking.written, strerror(errno));
    end_taking(files);
    files->laid_over = 1;
    lay_back(files);
}

void go_on_taking(Files *files, int end) {
    do
        if (!take_some(files)) give_up(files);
    while (files->taking.under_way && end);
}

/* A daemon that was killed right behind its last block has left the name there. */
static int taken_before(const Files *files) {
    const File *next = &files->taking.next, *table = &files->table;
    if (next->length > table->length || memcmp(next->bytes, table->bytes, next->length) != 0) return 0;
    say("table.next was taken over before, and is removed");
    unlinkat(table->folder, next_name, 0);
    return 1;
}

/* Whether what was found is to be looked at: it was not declined before, or somebody has touched it since then, or that was a while ago. */
static int is_news(Taking *taking, const struct stat *found) {
    const int same = untouched(found, &taking->seen);
    if (same && now() - taking->looked < LOOK_AGAIN) return 0;
    if (!same) taking->told[0] = '\0';
    taking->seen = *found;
    taking->looked = now();
    return 1;
}

void look_for_next(Files *files) {
    Taking *taking = &files->taking;
    struct stat found;
    if (taking->under_way || files->laid_over) return;
    if (fstatat(files->table.folder, next_name, &found, AT_SYMLINK_NOFOLLOW) != 0) {
        memset(&taking->seen, 0, sizeof taking->seen);
        return;
    }
    if (!is_news(taking, &found)) return;
    const char *why = read_next(files);
    if (why == NULL && !taken_before(files)) why = begin_taking(files);
    if (why != NULL) say_once(taking->told, "table.next is NOT taken over, and the table from before is served", why);
    if (!taking->under_way) give_back(&taking->next);
}

/* ---- at a start, over a table that is unsound */

/* What the operator does with a take-over that was cut. */
static void say_what_to_do(const File *table) {
    uint32_t issue = 0;
    size_t block = 0;
    const int found = greatest_issue(table->bytes, table->length, &issue, &block);
    if (found && issue < UINT32_MAX)
        say("table: if a take-over was cut, send a table of an issue greater than %lu, as table.next; or zero table, from block 0 up, and send the same one: "
            "ndushavire-take(1)", (unsigned long)issue);
    else
        say("table: if a take-over was cut, %s, and send one as table.next: ndushavire-take(1)",
            found ? "no issue is great enough: zero table, from block 0 up" : "any table of edition 2 mends it");
}

const char *mend_table(Files *files, const char *bad) {
    struct stat found;
    const int there = fstatat(files->table.folder, next_name, &found, AT_SYMLINK_NOFOLLOW) == 0;
    const char *why = there ? read_next(files) : "there is none";
    if (why == NULL) why = begin_taking(files);
    if (why != NULL) {
        if (there) say("table: %s, and table.next does not mend it: %s", bad, why);
        say_what_to_do(&files->table);
        return reason_of(files, "table", bad);
    }
    say("table: %s, and is mended by table.next", bad);
    while (files->taking.under_way)
        if (!take_some(files)) stop("table.next", strerror(errno));
    return NULL;
}
