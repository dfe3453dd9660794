/* newfile.h: a new file, for the programs move and list, which is never written over another one. Whatever cannot be done ends the program with status 2 and
 * a word on standard error.
 * POSIX.1-2008: under -std=c99 define _POSIX_C_SOURCE as 200809L before anything is included. */
#ifndef NEWFILE_H
#define NEWFILE_H

#include "load.h"
#include "store.h"

static void fail(const char *path, const char *end, const char *why) {
    fprintf(stderr, "%s%s: %s\n", path, end, why);
    exit(2);
}

/* The folder of a path, open, and the name in it. Nothing may have that name now: it is looked for early, so that nobody waits for nothing. */
static int folder_of(const char *path, const char **name) {
    const char *slash = strrchr(path, '/');
    const size_t length = slash == NULL ? 0 : (size_t)(slash - path) + 1;
    char *folder = (char *)malloc(length + 2);
    if (folder == NULL) fail(path, "", strerror(errno));
    memcpy(folder, path, length);
    strcpy(folder + length, length == 0 ? "." : "");
    *name = path + length;
    if (**name == '\0') fail(path, "", "no name of a file");
    const int opened = open(folder, O_RDONLY | O_DIRECTORY | O_CLOEXEC);
    if (opened < 0) fail(folder, "", strerror(errno));
    struct stat found;
    if (fstatat(opened, *name, &found, AT_SYMLINK_NOFOLLOW) == 0) fail(path, "", "is there already");
    free(folder);
    return opened;
}

/* Stores the new file in the folder, or ends the program. NAME.new is made where nothing is, written and flushed; then the file gets the name NAME as well,
 * which fails if anything has it by now; then NAME.new goes. So no file is written over or removed, whatever others do meanwhile. */
static void store_at(int folder, const char *path, const char *name, const uint8_t *bytes, size_t length) {
    char fresh[256];
    const int letters = snprintf(fresh, sizeof fresh, "%s.new", name);
    if (letters < 0 || (size_t)letters >= sizeof fresh) fail(path, "", strerror(ENAMETOOLONG));
    const int file = openat(folder, fresh, O_WRONLY | O_CREAT | O_EXCL | O_NOFOLLOW | O_CLOEXEC, 0640);
    if (file < 0) fail(path, ".new", errno == EEXIST ? "is there already" : strerror(errno));
    const int done = write_all(file, bytes, length) && flushed(file) && linkat(folder, fresh, folder, name, 0) == 0;
    const int why = errno;
    close(file);
    unlinkat(folder, fresh, 0);
    if (!done) fail(path, "", why == EEXIST ? "is there already" : strerror(why));
    if (!flushed(folder)) fail(path, ", which is there and may be gone after a power cut", strerror(errno));
}

#endif
