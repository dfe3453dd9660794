/* files.c: see files.h. */
#ifndef _POSIX_C_SOURCE
#define _POSIX_C_SOURCE 200809L
#endif
#include <stdlib.h>
#include <string.h>
#include <sys/file.h>

#include <ndushavire.h>

#include "fault.h"
#include "files.h"
#include "store.h"
#include "taking.h"

/* The longest profile that is read, sixteen times what 4,096 lines of 4,096 bytes can fill. The library has no such limit. */
#define PROFILE_MAX ((size_t)256 << 20)

void give_back(File *file) {
    free(file->bytes);
    free(file->before);
    memset(file, 0, sizeof *file);
}

/* ---- reading */

static int read_all(int from, uint8_t *to, size_t length) {
    while (length > 0) {
        const ssize_t got = read(from, to, length);
        if (got < 0 && errno == EINTR) continue;
        if (got == 0) errno = EIO; /* somebody cut it short */
        if (got <= 0) return 0;
        to += got;
        length -= (size_t)got;
    }
    return 1;
}

static const char linked[] = "it is a link: the file itself must stand here";

const char *why_not_opened(void) { return errno == ELOOP ? linked : strerror(errno); }

/* What is wrong with a file's size, which is asked before the file is read; or NULL. */
static const char *wrong_size(File *file, size_t most, size_t block) {
    const unsigned long long size = (unsigned long long)file->about.st_size;
    if (size <= most && size % block == 0) return NULL;
    snprintf(file->said, sizeof file->said, "it has %llu bytes, and may have %lu at most%s", size, (unsigned long)most, block > 1 ? ", in blocks of 512" : "");
    return file->said;
}

/* Reads an open file, once it is on disk and its name in the folder. */
static const char *read_flushed(File *file, int from, size_t most, size_t block) {
    if (fstat(from, &file->about) != 0) return strerror(errno);
    if (!S_ISREG(file->about.st_mode)) return "it is no file";
    const char *why = wrong_size(file, most, block);
    file->length = why == NULL ? (size_t)file->about.st_size : 0;
    file->bytes = (uint8_t *)malloc(file->length + 1); /* not null for an empty file either */
    if (file->bytes == NULL) return "no memory";
    if (why != NULL) return why;
    return flushed(from) && flushed(file->folder) && read_all(from, file->bytes, file->length) ? NULL : strerror(errno);
}

const char *take_file(File *file, int folder, const char *name, size_t most, size_t block) {
    memset(file, 0, sizeof *file);
    file->folder = folder;
    file->name = name;
    const int from = openat(folder, name, O_RDONLY | O_NOFOLLOW | O_NONBLOCK | O_CLOEXEC);
    if (from < 0) return why_not_opened();
    const char *why = read_flushed(file, from, most, block);
    close(from);
    return why;
}

void keep_file(File *file) { memcpy(file->before, file->bytes, file->length); }

static void put_back(File *file) { memcpy(file->bytes, file->before, file->length); }

/* The same with a file that calls alter. */
static const char *take_altered(File *file, int folder, const char *name, size_t most, size_t block) {
    const char *why = take_file(file, folder, name, most, block);
    file->before = (uint8_t *)malloc(file->length + 1);
    if (why == NULL && file->before == NULL) why = "no memory";
    if (why == NULL) keep_file(file);
    return why;
}

/* Root may write to everything, so it is the mode that tells a last good copy. */
const char *read_only(int folder, const char *name) {
    struct stat file, around;
    if (fstatat(folder, name, &file, AT_SYMLINK_NOFOLLOW) != 0 || fstat(folder, &around) != 0) return strerror(errno);
    if (S_ISLNK(file.st_mode)) return linked;
    if ((file.st_mode & 0222) == 0 || (around.st_mode & 0222) == 0) return "nobody may write to it: a last good file is not served from, its copy is";
    return faccessat(folder, ".", W_OK, 0) == 0 ? NULL : errno == EACCES ? "nothing may be stored in its folder by this user" : strerror(errno);
}

/* Which block of a file is bad, by the word of its check; or NULL. */
static const char *bad_block(File *file, uint64_t word, const char *more) {
    snprintf(file->said, sizeof file->said, "block %lu is bad%s", (unsigned long)ndushavire_value(word), more);
    return ndushavire_sound(word) ? NULL : file->said;
}

unsigned long records_of(const File *table) { return four_bytes(table->bytes + 8); }

/* Which block of a table is bad, and whether that may be the profile's fault; or NULL. */
static const char *unsound(File *table, const File *profile) {
    const uint64_t word = ndushavire_check(table->bytes, table->length, profile->bytes, profile->length);
    const size_t block = ndushavire_value(word), at = block * NDUSHAVIRE_BLOCK;
    const uint8_t *part = table->bytes + at + 400; /* where its part of the profile begins, and how long it is */
    const int past = block > 0 && at < table->length && four_bytes(part) + (four_bytes(part + 4) >> 16) > profile->length;
    return bad_block(table, word, past ? ": it points past the end of profile" : "");
}

/* ---- locks, which end with the process. They are flock(2)'s, which POSIX does not have, since flock(1) takes those: a script that puts
 * vectors in takes the same one. Of a pair the folder itself is locked, since the link that leads there is switched. */

static const char *why_not_locked(int file) {
    if (flock(file, LOCK_EX | LOCK_NB) == 0) return NULL;
    return errno == EWOULDBLOCK ? "another daemon has it, or a script" : strerror(errno);
}

/* Two daemons over one vector file would send its vectors twice. The file stays when the daemon ends. */
static void lock_vectors(int folder) {
    const int file = openat(folder, "lock", O_RDWR | O_CREAT | O_NOFOLLOW | O_CLOEXEC, 0600);
    const char *why = file < 0 ? why_not_opened() : why_not_locked(file);
    if (why != NULL) stop("lock of the vectors", why);
}

/* ---- the start */

const char *reason_of(Files *files, const char *name, const char *why) {
    if (why == NULL) return NULL;
    snprintf(files->reason, sizeof files->reason, "%s: %s", name, why);
    return files->reason;
}

/* Takes up table and profile of one folder, if they may be stored over and are no other daemon's; or says why not. */
static const char *read_pair(Files *files, File *table, File *profile, int folder) {
    memset(table, 0, sizeof *table);
    memset(profile, 0, sizeof *profile);
    const char *why = reason_of(files, "table", read_only(folder, "table"));
    if (why == NULL) why = reason_of(files, "its folder", why_not_locked(folder));
    if (why == NULL) why = reason_of(files, "table", take_altered(table, folder, "table", NDUSHAVIRE_TABLE_MAX, 1));
    if (why == NULL) why = reason_of(files, "profile", take_file(profile, folder, "profile", PROFILE_MAX, 1));
    return why;
}

/* The same, if they are sound. */
static const char *take_pair(Files *files, File *table, File *profile, int folder) {
    const char *why = read_pair(files, table, profile, folder);
    return why != NULL ? why : reason_of(files, "table", unsound(table, profile));
}

/* Unsound vectors are lent as none: then nobody is challenged, and all else is answered as ever. */
static void take_vectors(File *vectors, int folder) {
    const char *why = take_altered(vectors, folder, "vectors", NDUSHAVIRE_VECTOR_FILE_MAX, NDUSHAVIRE_BLOCK);
    if (why != NULL && why != vectors->said) stop("vectors", why);
    if (why == NULL) why = bad_block(vectors, ndushavire_check_vectors(vectors->bytes, vectors->length), "");
    if (why == NULL) return;
    say("vectors: %s: NO CHALLENGES until they are mended", why);
    vectors->length = 0; /* and so never stored */
}

static int open_folder(const char *path) { return open(path, O_RDONLY | O_DIRECTORY | O_CLOEXEC); }

/* A daemon that was killed within put_in_place may have left its table without its name. */
static void finish_laying_back(int folder) {
    struct stat found;
    if (fstatat(folder, "table", &found, AT_SYMLINK_NOFOLLOW) != 0 && errno == ENOENT) renameat(folder, "table.ours", folder, "table");
}

/* The pair of the start: a table that is unsound may be mended by one that stands beside it. */
static const char *take_first_pair(Files *files, int folder) {
    const char *why = read_pair(files, &files->table, &files->profile, folder);
    if (why != NULL) return why;
    const char *bad = unsound(&files->table, &files->profile);
    return bad != NULL ? mend_table(files, bad) : NULL;
}

void take_all(Files *files, const char *path, const char *cards) {
    const int here = open_folder(path);
    if (here < 0) stop(path, strerror(errno));
    const int there = open_folder(cards);
    if (there < 0) stop(cards, strerror(errno));
    files->live = path;
    const char *why = read_only(there, "vectors");
    if (why != NULL) stop("vectors", why);
    finish_laying_back(here);
    why = take_first_pair(files, here);
    if (why != NULL) stop(path, why);
    unlinkat(here, "table.ours", 0);
    lock_vectors(there);
    take_vectors(&files->vectors, there);
}

/* ---- what a row alters: stored, or undone */

/* Whether the bytes are on disk. Where only the folder's flush failed, they are written anew: a flush that is asked again may succeed and
 * have written nothing. */
static int on_disk(File *file, const uint8_t *bytes) {
    const Stored stored = store(file->folder, file->name, bytes, file->length);
    if (stored == NOT_STORED) return 0;
    if (stored == UNSURE && store(file->folder, file->name, bytes, file->length) != STORED) stop(file->name, strerror(errno));
    if (fstatat(file->folder, file->name, &file->about, 0) != 0) stop(file->name, strerror(errno));
    return 1;
}

static int durable(File *file) {
    if (on_disk(file, file->bytes)) return 1;
    say("%s: NOT STORED, and not answered: %s", file->name, strerror(errno));
    return 0;
}

int same_file(const struct stat *a, const struct stat *b) {
    return a->st_dev == b->st_dev && a->st_ino == b->st_ino && a->st_size == b->st_size && a->st_mtim.tv_sec == b->st_mtim.tv_sec &&
           a->st_mtim.tv_nsec == b->st_mtim.tv_nsec;
}

/* Whether a folder has a file as we stored it. */
static int has_ours(int folder, const File *file) {
    struct stat found;
    return fstatat(folder, file->name, &found, AT_SYMLINK_NOFOLLOW) == 0 && same_file(&found, &file->about);
}

/* Vectors that were put in under the running daemon, whatever its lock says, are stored over: not without a word. */
static void set_vectors_aside(int folder) {
    unlinkat(folder, "vectors.declined", 0);
    const int kept = linkat(folder, "vectors", folder, "vectors.declined", 0) == 0;
    say("vectors: others were put in under the running daemon: NOT taken over, and %s", kept ? "kept as vectors.declined" : "LOST");
}

void undo(Files *files) {
    put_back(&files->table);
    put_back(&files->vectors);
}

/* The vectors first: a power cut between the two wastes vectors and does nothing else. */
Outcome keep_altered(Files *files, uint32_t what) {
    const int used = (what & NDUSHAVIRE_ROW_MARKED) != 0, rewritten = (what & NDUSHAVIRE_ROW_ALTERED) != 0;
    if (!used && !rewritten) return UNALTERED;
    if (used && !has_ours(files->vectors.folder, &files->vectors)) set_vectors_aside(files->vectors.folder);
    if (files->laid_over || (used && !durable(&files->vectors)) || (rewritten && !durable(&files->table))) {
        undo(files);
        return UNDONE;
    }
    if (used) keep_file(&files->vectors);
    if (rewritten) keep_file(&files->table);
    return KEPT;
}

/* ---- a table that is put in the live one's place */

/* Exchanges what was laid over our table, and is kept as table.declined, for ours, which is stored first, so that there is always a table. But a
 * second name for another user's file may be forbidden: then there is none between two renames, and finish_laying_back mends a kill there. */
static int put_in_place(File *table) {
    const int folder = table->folder;
    struct stat ours;
    if (store(folder, "table.ours", table->before, table->length) != STORED) return 0;
    if (fchmodat(folder, "table.ours", table->about.st_mode & 0777, 0) != 0 || fstatat(folder, "table.ours", &ours, 0) != 0) return 0;
    unlinkat(folder, "table.declined", 0);
    if (linkat(folder, "table", folder, "table.declined", 0) != 0 && errno != ENOENT &&
        (errno != EPERM || renameat(folder, "table", folder, "table.declined") != 0))
        return 0;
    if (renameat(folder, "table.ours", folder, "table") != 0) return 0;
    table->about = ours;
    return flushed(folder) || on_disk(table, table->before);
}

void lay_back(Files *files) {
    File *table = &files->table;
    if (files->laid_over && files->tried == now()) return;
    files->tried = now();
    const int still_there = has_ours(table->folder, table);
    files->laid_over = !(still_there ? on_disk(table, table->before) : put_in_place(table));
    if (files->laid_over) {
        say_once(files->told, "table: ours is NOT STORED where another was laid over it, and nothing that alters is answered", strerror(errno));
        return;
    }
    files->told[0] = '\0';
    say("table: ours is stored again%s", still_there ? "" : "; what was laid over it is table.declined");
}

static void take_over(Files *files, const File *table, const File *profile) {
    close(files->table.folder);
    give_back(&files->table);
    give_back(&files->profile);
    files->table = *table;
    files->profile = *profile;
    files->laid_over = 0;
    say("a new table is taken over, %lu records", records_of(&files->table));
}

static void declined(Files *files, const char *why) {
    say_once(files->declined_told, "a new table is NOT taken over, and the one from before is served", why);
}

/* Takes over the pair of a folder, if it is sound. */
static void consider(Files *files, int folder) {
    File table, profile;
    const char *why = take_pair(files, &table, &profile, folder);
    if (why == NULL) {
        take_over(files, &table, &profile);
        return;
    }
    declined(files, why);
    give_back(&table);
    give_back(&profile);
    close(folder);
}

static void look_at_pair(int folder, Pair *pair) {
    memset(pair, 0, sizeof *pair); /* and so it stays of what is not there */
    fstat(folder, &pair->about[FOLDER]);
    fstatat(folder, "table", &pair->about[TABLE_FILE], AT_SYMLINK_NOFOLLOW);
    fstatat(folder, "profile", &pair->about[PROFILE_FILE], AT_SYMLINK_NOFOLLOW);
}

static int same_rights(const struct stat *a, const struct stat *b) {
    return a->st_mode == b->st_mode && a->st_uid == b->st_uid && a->st_gid == b->st_gid;
}

int untouched(const struct stat *a, const struct stat *b) {
    return same_file(a, b) && same_rights(a, b) && a->st_ctim.tv_sec == b->st_ctim.tv_sec && a->st_ctim.tv_nsec == b->st_ctim.tv_nsec;
}

/* Of the folder the times do not matter: a table of ours that cannot be stored there alters them. */
static int same_pair(const Pair *a, const Pair *b) {
    const struct stat *x = &a->about[FOLDER], *y = &b->about[FOLDER];
    return x->st_dev == y->st_dev && x->st_ino == y->st_ino && same_rights(x, y) && untouched(&a->about[TABLE_FILE], &b->about[TABLE_FILE]) &&
           untouched(&a->about[PROFILE_FILE], &b->about[PROFILE_FILE]);
}

/* The folder, or ours again if it is the same one: a folder that is opened a second time cannot be locked a second time. */
static int locked_already(const Files *files, int folder, const struct stat *about) {
    struct stat ours;
    if (fstat(files->table.folder, &ours) != 0 || ours.st_dev != about->st_dev || ours.st_ino != about->st_ino) return folder;
    close(folder);
    return dup(files->table.folder);
}

/* Considers the pair of a folder, unless it was declined before, nothing of it has changed since then, and that was a moment ago. */
static void look_into(Files *files, int folder) {
    Pair found;
    look_at_pair(folder, &found);
    const int same = same_pair(&found, &files->seen);
    if (same && now() - files->looked < LOOK_AGAIN) {
        close(folder);
        return;
    }
    if (!same) files->declined_told[0] = '\0';
    files->seen = found;
    files->looked = now();
    consider(files, locked_already(files, folder, &found.about[FOLDER]));
}

void look_for_table(Files *files) {
    if (files->taking.under_way) return;
    const int folder = open_folder(files->live);
    if (folder < 0) {
        declined(files, reason_of(files, files->live, strerror(errno)));
    } else if (has_ours(folder, &files->table)) {
        close(folder);
        files->declined_told[0] = '\0';
        if (!files->laid_over) return;
    } else {
        look_into(files, folder);
    }
    if (files->laid_over || !has_ours(files->table.folder, &files->table)) lay_back(files);
}

void read_again(Files *files, uint32_t number) {
    File table, profile;
    say("refused %lu: the files are read again", (unsigned long)number);
    if (number == NDUSHAVIRE_VECTORS_UNSOUND) {
        const int folder = files->vectors.folder;
        give_back(&files->vectors);
        take_vectors(&files->vectors, folder);
        return;
    }
    const char *why = take_pair(files, &table, &profile, dup(files->table.folder));
    if (why != NULL) stop(files->live, why);
    take_over(files, &table, &profile);
}
