/* slow-disk.h: included before each part of a daemon by its test. A flush takes a millisecond, so that a kill often comes before it. SLOW_DISK names a
 * folder: where that has a file flushes, each flush adds a byte to it; where it has a file disk-full, flushes fail, that of a folder where it has a file
 * folder-fails, and that of a block that is written in place where it has a file block-fails. The daemon is the user whose number DAEMON_USER has: it may be
 * started from a folder that this user cannot reach. */
#ifndef SLOW_DISK_H
#define SLOW_DISK_H

#ifndef _POSIX_C_SOURCE
#define _POSIX_C_SOURCE 200809L
#endif
#include <errno.h>
#include <stdio.h>
#include <stdlib.h>
#include <sys/stat.h>
#include <time.h>
#include <unistd.h>

static int test_has(const char *name) {
    char path[4096];
    const char *folder = getenv("SLOW_DISK");
    snprintf(path, sizeof path, "%s/%s", folder != NULL ? folder : "", name);
    return folder != NULL && access(path, F_OK) == 0;
}

static void count_flush(void) {
    char path[4096];
    if (!test_has("flushes")) return;
    snprintf(path, sizeof path, "%s/flushes", getenv("SLOW_DISK"));
    FILE *file = fopen(path, "ab");
    if (file == NULL) return;
    fputc('.', file);
    fclose(file);
}

static int slow_fsync(int file) {
    const struct timespec millisecond = {0, 1000000};
    struct stat about;
    nanosleep(&millisecond, NULL);
    count_flush();
    const int folder = fstat(file, &about) == 0 && S_ISDIR(about.st_mode);
    if (!test_has("disk-full") && !(folder && test_has("folder-fails"))) return fsync(file);
    errno = ENOSPC;
    return -1;
}

static inline int slow_fdatasync(int file) {
    const struct timespec millisecond = {0, 1000000};
    nanosleep(&millisecond, NULL);
    if (!test_has("block-fails")) return fdatasync(file);
    errno = EIO;
    return -1;
}

#define fsync slow_fsync
#define fdatasync slow_fdatasync

int setgroups(size_t many, const gid_t *groups); /* which POSIX does not have */

__attribute__((constructor)) static void become_user(void) {
    const char *user = getenv("DAEMON_USER");
    const unsigned long number = user != NULL ? strtoul(user, NULL, 10) : getuid();
    if (number == getuid()) return; /* another part has become that user */
    if (setgroups(0, NULL) != 0 || setgid((gid_t)number) != 0 || setuid((uid_t)number) != 0) _exit(3);
}
#endif
