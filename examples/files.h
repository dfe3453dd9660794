/* files.h: the files of a daemon: table and profile, which are a pair in one folder, and the vector file in another. They are read when they are
 * on disk, lent to a row of requests, and stored before what was decided over them is answered. A table that is put in the live one's place
 * is taken over if it is sound; one that is put beside it is taking.h's. The table's file may be longer than its table: what stands past it is
 * lent and stored with it. Files that nobody may write to are a last good copy, and are never stored over. */
#ifndef FILES_H
#define FILES_H

#include <stddef.h>
#include <stdint.h>
#include <sys/stat.h>

#include "log.h"

#ifndef LOOK_AGAIN
#define LOOK_AGAIN 10 /* seconds until a table that was declined is looked at again, though nobody touched it: a disk may work again */
#endif

/* A file as it is lent, and as it was when the last answers were given. */
typedef struct {
    int folder;
    const char *name;
    uint8_t *bytes, *before;
    size_t length;
    struct stat about; /* which file it is on disk */
    char said[100];    /* what is wrong with its size or a block of it */
} File;

/* Folder, table and profile where new ones come. */
enum { FOLDER, TABLE_FILE, PROFILE_FILE, PAIR };
typedef struct {
    struct stat about[PAIR];
} Pair;

/* A table that is taken over block by block: taking.h. */
typedef struct {
    int under_way;
    File next;        /* the new one, while it is taken over */
    int area;         /* the live one's file, open */
    size_t written;   /* blocks of the new one that are on disk */
    struct stat seen; /* what was declined, when, and what was said of it */
    time_t looked;
    char told[LOG_LINE];
} Taking;

typedef struct {
    File table, profile, vectors;
    const char *live; /* the path of the folder in which a new table comes */
    int laid_over;    /* whether another table lies where ours should be, which could not be stored again */
    time_t tried;     /* when that was tried last, and what was said of it */
    char told[LOG_LINE];
    Pair seen;        /* what was declined, when, and what was said of it */
    time_t looked;
    char declined_told[LOG_LINE];
    Taking taking;
    char reason[LOG_LINE]; /* the last one that was put together */
} Files;

/* ---- the start, and what happens under a running daemon */

/* Before the first request: takes table, profile and vectors up, or ends the daemon. */
void take_all(Files *files, const char *path, const char *cards);

/* Looks whether another table than ours stands where new ones come; but ours is another at each block while one is taken over. */
void look_for_table(Files *files);

/* Under refusal 5 or 6 the file is read again, as at a start: what was answered is on disk. A table that is unsound there too is
 * for somebody to look at, and nothing is answered. */
void read_again(Files *files, uint32_t number);

/* How many records a sound table has: its area may be longer. */
unsigned long records_of(const File *table);

/* ---- what a row altered: stored, or undone */

typedef enum { UNALTERED, KEPT, UNDONE } Outcome;

/* Sees to what a row altered, as its word tells: the vectors and then the table are on disk, or all is as if no request of the row had come. */
Outcome keep_altered(Files *files, uint32_t what);

/* Everything as it was when the last answers were given. */
void undo(Files *files);

/* ---- for taking.c */

/* Takes a file up, or says why not. A link is not followed: its file would lie in another folder. */
const char *take_file(File *file, int folder, const char *name, size_t most, size_t block);
void give_back(File *file);

/* Between two rows both are alike. */
void keep_file(File *file);

/* Why a file may not be stored over, or NULL; why it was not opened. */
const char *read_only(int folder, const char *name);
const char *why_not_opened(void);

/* A reason with the file that it is about; NULL for none. */
const char *reason_of(Files *files, const char *name, const char *why);

/* Whether it is the same file as before; whether nobody has touched it since. */
int same_file(const struct stat *a, const struct stat *b);
int untouched(const struct stat *a, const struct stat *b);

/* What was answered must be on disk. Where it cannot be now, it is tried again each second, and until then nothing that alters is answered. */
void lay_back(Files *files);

#endif
