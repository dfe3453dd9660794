/* store.h: how a daemon stores its table and its vector file, and how it knows at its start that they are stored. Whatever
 * fails, the file of that name is a whole one, the old or the new. The daemon asks settled before it answers anything, calls
 * store after a decision for each file that it altered, and sends the answer only when each is STORED.
 * The vector file is stored first and then the table: a power cut between the two wastes vectors and does nothing else. What was
 * sent stays used: an older vector file is never stored again, since its vectors would be sent a second time.
 * POSIX.1-2008: under -std=c99 define _POSIX_C_SOURCE as 200809L before anything is included. */
#ifndef STORE_H
#define STORE_H

#include <errno.h>
#include <fcntl.h>
#include <stdint.h>
#include <stdio.h>
#include <sys/stat.h>
#include <unistd.h>

typedef enum {
    STORED,     /* the new file is on disk */
    NOT_STORED, /* the old file stands as it was; errno says why */
    UNSURE      /* the new file has the name, but after a power cut it may be the old one again; errno says why */
} Stored;

static int write_all(int file, const uint8_t *bytes, size_t length) {
    while (length > 0) {
        const ssize_t wrote = write(file, bytes, length);
        if (wrote < 0 && errno == EINTR) continue;
        if (wrote == 0) errno = EIO;
        if (wrote <= 0) return 0;
        bytes += wrote;
        length -= (size_t)wrote;
    }
    return 1;
}

static int flushed(int file) {
    int failed;
    do failed = fsync(file);
    while (failed && errno == EINTR);
    return !failed;
}

/* Whether the file of that name is on disk, and its name in the folder: both are flushed. What a start reads may stand in
 * memory alone, since a daemon can be killed between rename and flush, and may not be answered from before that. A link is
 * not followed, since its file lies in another folder; neither it nor a fifo is ever settled. If not, errno says why. */
static inline int settled(int folder, const char *name) {
    const int file = openat(folder, name, O_RDONLY | O_NOFOLLOW | O_NONBLOCK | O_CLOEXEC);
    if (file < 0) return 0;
    const int done = flushed(file) && flushed(folder);
    const int why = errno;
    close(file);
    errno = why;
    return done;
}

/* A new file at the name FRESH, or -1. It has the mode of the file NAME that it is to replace, or 0640 less the umask where
 * there is none; owner and group are those of any new file. What an earlier store left there is removed and never opened, be
 * it a link or a fifo. */
static int make_fresh(int folder, const char *name, const char *fresh) {
    struct stat old;
    const int found = fstatat(folder, name, &old, AT_SYMLINK_NOFOLLOW) == 0;
    if (!found && errno != ENOENT) return -1;
    const int kept = found && S_ISREG(old.st_mode);
    const mode_t mode = kept ? old.st_mode & 0777 : 0640;
    if (unlinkat(folder, fresh, 0) != 0 && errno != ENOENT) return -1;
    const int file = openat(folder, fresh, O_WRONLY | O_CREAT | O_EXCL | O_NOFOLLOW | O_CLOEXEC, mode);
    if (file < 0 || !kept || fchmod(file, mode) == 0) return file;
    const int why = errno;
    close(file);
    unlinkat(folder, fresh, 0);
    errno = why;
    return -1;
}

/* Writes NAME.new, flushes it, renames it to NAME and flushes the folder. The folder is open, and is the one that
 * the file was read from: a link that was switched since then does not matter. One call at a time for one name. */
static inline Stored store(int folder, const char *name, const uint8_t *bytes, size_t length) {
    char fresh[256];
    const int letters = snprintf(fresh, sizeof fresh, "%s.new", name);
    if (letters < 0 || (size_t)letters >= sizeof fresh) {
        errno = ENAMETOOLONG;
        return NOT_STORED;
    }
    const int file = make_fresh(folder, name, fresh);
    if (file < 0) return NOT_STORED;
    int done = write_all(file, bytes, length) && flushed(file);
    int why = errno;
    close(file);
    if (done) {
        done = renameat(folder, fresh, folder, name) == 0;
        why = errno;
    }
    if (!done) {
        unlinkat(folder, fresh, 0);
        errno = why;
        return NOT_STORED;
    }
    return flushed(folder) ? STORED : UNSURE;
}

#endif
